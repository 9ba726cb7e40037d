"""Rows: at rest, under load, and where a thread fails."""
import argparse
import re
import socket
import subprocess
import threading
import time

from .agents import Desk, Panel, serves
from .base import AGENT, at, must, row, until
from .frames import ADD, EMPTY_LIST, FAILURE, LIST, LOCK, SUCCESS, UNLOCK, Raw, receive, string
from .keys import fields_of, sign_request
from .processes import cpu, is_emulated, status
from .tools import ended, fails, started, works


@row('at rest, with keys that have a lifetime: no work')
def _():
    with Desk('--gate', 'yes') as a:
        works(a, 'ssh-add', '-t', '3', 'ed25519')
        works(a, 'ssh-add', '-t', '1000', 'ecdsa-256')
        idle = [Raw(a) for _ in range(50)]
        before = cpu(a)
        time.sleep(5)
        spent = cpu(a) - before
        must(spent < 0.25, f'{spent:.2f} s of work in 5 s')
        must(idle[0].ask(LIST)[:5] == b'\x0c\0\0\0\1', 'the key is still there')
    return 'under 0.25 s of processor time in 5 s'


@row('a signer thread that panics (`--sign panic`)')
def _():
    with Desk('--sign', 'panic', panics=True) as a:
        good = Raw(a)
        works(a, 'ssh-add', 'ed25519')
        for _ in range(20):
            fails(a, 'ssh-add', '-T', 'ed25519.pub', says='communication with agent failed')
        must(good.ask(LIST)[:5] == b'\x0c\0\0\0\1', 'others suffer')
        for kind in ('ecdsa-256', 'rsa-2048'):  # the key check goes on
            works(a, 'ssh-add', kind)
        must(good.ask(sign_request('ed25519')) is None, 'not closed')
        works(a, 'ssh-add', '-x', word='night')
        works(a, 'ssh-add', '-X', word='night')
        must(len(works(a, 'ssh-add', '-l').splitlines()) == 3, 'a key is lost')
    with open('/dev/full', 'w') as full:
        a = argparse.Namespace(path=at('full'))
        p = subprocess.Popen([AGENT, '--sign', 'panic', '--socket', a.path], stdin=subprocess.DEVNULL, stdout=full, stderr=full)
    try:
        until(lambda: serves(a.path), 'no agent')
        works(a, 'ssh-add', 'ed25519')
        fails(a, 'ssh-add', '-T', 'ed25519.pub')
        must(len(works(a, 'ssh-add', '-l').splitlines()) == 1, 'others suffer where its word of it cannot be written')
    finally:
        p.terminate()
    must(p.wait(10) == 0, 'it does not end')
    return '20 times, each closes its own connection; the next requests of others work, the keys stay'


class Load:
    """Sixteen clients that add RSA-4096 keys as fast as they are taken."""

    def __init__(self, a):
        self.ends, self.counts, self.wrong = threading.Event(), [0] * 16, []
        payload = ADD + fields_of('rsa-4096') + string(b'load')
        self.threads = [threading.Thread(target=self.client, args=(Raw(a), n, payload)) for n in range(16)]

    def client(self, r, n, payload):
        r.conn.settimeout(60)
        while not self.ends.is_set():
            reply = r.ask(payload)
            if reply == SUCCESS:
                self.counts[n] += 1
            elif reply == FAILURE:  # locked
                time.sleep(0.05)
            else:
                self.wrong.append(reply)
                return

    def __enter__(self):
        for t in self.threads:
            t.start()
        return self

    def __exit__(self, *_):
        self.ends.set()
        for t in self.threads:
            t.join()


@row('a lock lands at once while 16 clients add RSA-4096 keys')
def _():
    with Desk() as a:
        with Load(a) as load:
            until(lambda: sum(load.counts) >= 4, 'no key is added', 60)
            times, r = [], Raw(a)
            for _ in range(5):
                for what in (LOCK, UNLOCK):
                    start = time.monotonic()
                    must(r.ask(what + string(b'night')) == SUCCESS, 'not landed')
                    times.append(time.monotonic() - start)
                time.sleep(0.5)
            start = time.monotonic()
            works(a, 'ssh-add', '-x', word='night')
            whole = time.monotonic() - start
            works(a, 'ssh-add', '-X', word='night')
        must(not load.wrong, f'{load.wrong[:3]}')
        must(max(times) < 2 and whole < 2, f'LOCK {max(times):.2f} s, `ssh-add -x` {whole:.2f} s')
    return 'under 2 s: five LOCK and UNLOCK frames, and `ssh-add -x`'


@row('an add that was checked before a LOCK landed')
def _():
    with Desk() as a:
        adds = [Raw(a) for _ in range(8)]
        lock = Raw(a)
        for r in adds:
            r.conn.settimeout(60)
            r.send(string(ADD + fields_of('rsa-4096') + string(b'')))
        must(lock.ask(LOCK + string(b'night')) == SUCCESS, 'not locked')
        replies = [receive(r.conn) for r in adds]
        landings = re.findall(r'(ADD|LOCK)\s+landed: (\w+)', a.log())
        where = landings.index(('LOCK', 'SUCCESS'))
        must(all(s == 'FAILURE' for _, s in landings[where + 1:]), f'{landings}')
        must(replies.count(SUCCESS) == sum(s == 'SUCCESS' for _, s in landings[:where]), f'{landings}')
        must(lock.ask(UNLOCK + string(b'night')) == SUCCESS, 'not unlocked')
    return 'those that had not landed get FAILURE'


@row('standard input without a line end, and without an end; panels that come and go without end')
def _():
    with open('/dev/zero', 'rb') as zero, Desk('--gate', 'ask', input=zero) as a:
        a.always('LIST')
        for _ in range(10):
            must(Raw(a).ask(LIST) == EMPTY_LIST, 'others suffer')
            time.sleep(0.1)
        memory = int(status(a.process.pid, 'VmRSS').split()[0])
        must(memory < 64 * 1024, f'{memory} KB of memory')
    with Desk() as a:
        ends = threading.Event()

        def come_and_go():
            while not ends.is_set():
                with socket.socket(socket.AF_UNIX) as s:
                    s.connect(a.panel_path)
        threads = [threading.Thread(target=come_and_go) for _ in range(3)]
        for t in threads:
            t.start()
        try:
            start = time.monotonic()
            for _ in range(50):
                must(Raw(a).ask(LIST) == EMPTY_LIST, 'others suffer')
            must(time.monotonic() - start < 5, f'50 lists took {time.monotonic() - start:.1f} s')
        finally:
            ends.set()
            for t in threads:
                t.join()
    return 'the others are served, and its memory stays'


@row('a panel that sends a line without end; 16 panels, and a 17th (raw)')
def _():
    with Desk('--gate', 'ask') as a:
        before = int(status(a.process.pid, 'VmRSS').split()[0])
        with socket.socket(socket.AF_UNIX) as s:
            s.connect(a.panel_path)
            s.settimeout(5)
            for _ in range(256):
                s.sendall(b'y' * 65536)
            grown = int(status(a.process.pid, 'VmRSS').split()[0]) - before
            must(grown < (4096 if is_emulated(a.process.pid) else 1024), f'{grown} KB more memory')
        a.logged('closed')
        panels = [a.panel, *(Panel(a.panel_path) for _ in range(15))]
        p = started(a, 'ssh-add', '-l')
        for panel in panels:
            panel.waiting('LIST')
        must(Panel(a.panel_path).ended.wait(5), 'a 17th is served')
        panels[-1].answer(panels[-1].waiting('LIST')[0], True)
        must(ended(p)[1] == 'The agent has no identities.', 'the answer does not count')
        for panel in panels:
            panel.said('^answered 1 y$')
    return 'it takes no memory for it; each of the 16 gets the question and its answer, the 17th is closed'
