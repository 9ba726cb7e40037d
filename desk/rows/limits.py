"""Rows: timeouts, and caps of connections, files and memory."""
import os
import re
import resource
import select
import struct
import time

from .agents import Desk, Panel
from .base import must, row, until
from .frames import EMPTY_LIST, FAILURE, LIST, LOCK, Raw, receive, string
from .processes import cpu, status
from .tools import fails, run, works


@row('`--question-timeout 1`: an unanswered gate question, and a confirmation, is a no after it')
def _():
    with Desk('--gate', 'ask', '--question-timeout', '1') as a:
        start = time.monotonic()
        must(Raw(a).ask(LIST) == FAILURE, 'answered')
        must(0.9 < time.monotonic() - start < 3, f'after {time.monotonic() - start:.1f} s')
        a.panel.said('^answered 1 n timeout$')
        a.panel.say('1 y')
        until(lambda: 'not open' in a.panel.error, 'a late yes is taken')
        a.always('LIST')
        time.sleep(0.5)
        must(Raw(a).ask(LIST) == EMPTY_LIST, 'an answer in time does not count')
        time.sleep(1)
        must(sum('timeout' in line for line in a.panel.lines) == 1, f'{a.panel.lines}')
    with Desk('--question-timeout', '1') as a:
        works(a, 'ssh-add', '-c', 'ed25519')
        fails(a, 'ssh-add', '-T', 'ed25519.pub', says='refused operation')
        a.panel.said('^answered 1 n timeout$')
        must(len(works(a, 'ssh-add', '-l').splitlines()) == 1, 'others suffer')
    return 'FAILURE after 1 s, `answered 1 n timeout`; a late yes is for nobody, one in time counts'


@row('`--idle-timeout 1`: an idle connection, and one stuck in a frame, is closed; not one whose question is open (raw)')
def _():
    with Desk('--gate', 'ask', '--idle-timeout', '1') as a:
        asks = Raw(a)
        asks.send(string(LIST))
        q = a.waiting('LIST')[0]
        stuck = {'idle': b'', 'in a length': b'\0\0', 'in a payload': struct.pack('>I', 9) + b'\x16\0'}
        conns = {}
        start = time.monotonic()
        for what, part in stuck.items():
            conns[what] = Raw(a)
            conns[what].send(part)
        slow = Raw(a)
        for b in string(LOCK + b'\0')[:3]:
            slow.send(bytes([b]))
            time.sleep(0.5)
        must(select.select([slow.conn], [], [], 0)[0] == [], 'one that still sends is closed')
        for what, r in conns.items():
            must(r.is_closed(), f'{what}: answered')
        must(time.monotonic() - start < 4, f'closed after {time.monotonic() - start:.1f} s')
        must(select.select([asks.conn], [], [], 1)[0] == [], 'the one whose question is open is closed')
        a.answer(q, True)
        must(receive(asks.conn) == EMPTY_LIST, 'not answered')
        must(asks.is_closed(), 'not closed')
        must(a.panel.ended.is_set() is False, 'the panel is closed')
        a.logged('idle', 4)
    return 'closed after 1 s, with a line in the log; the other gets its reply'


@row('`--max-connections 3`: a fourth; and again once one has gone (raw)')
def _():
    with Desk('--max-connections', '3') as a:
        conns = [Raw(a) for _ in range(3)]
        for r in conns:
            must(r.ask(LIST) == EMPTY_LIST, 'not served')
        for _ in range(3):
            must(Raw(a).is_closed(), 'a fourth is served')
        a.logged('connections', 3)
        panel = Panel(a.panel_path)
        panel.say('?')
        panel.said('no question is open')
        for r in conns:
            must(r.ask(LIST) == EMPTY_LIST, 'the others suffer')
        conns.pop().conn.close()
        until(lambda: run(a, 'ssh-add', '-l')[1] == 'The agent has no identities.', 'none is taken again')
    return 'closed at once, with a line in the log; taken again'


@row('300 connections above `--max-connections`: the log (raw)')
def _():
    with Desk('--max-connections', '1') as a:
        first = Raw(a)
        for _ in range(300):
            must(Raw(a).is_closed(), 'served')
        must(first.ask(LIST) == EMPTY_LIST, 'the first suffers')
        time.sleep(1.1)
        must(Raw(a).is_closed(), 'served')
        lines = re.findall('.*refused.*', a.log())
        more = sum(int(n) for n in re.findall(r'(\d+) lines like it were left out', a.log()))
        must(len(lines) < 100 and len(lines) + more == 301, f'{len(lines)} lines and {more} more')
    return 'ten lines a second, and how many more there were'


@row('long frames of 700 connections, none of them whole (raw)')
def _():
    with Desk() as a:
        before = int(status(a.process.pid, 'VmRSS').split()[0])
        good = Raw(a)
        must(good.ask(LIST) == EMPTY_LIST, 'not served')
        conns = []
        for _ in range(700):
            conns.append(Raw(a))
            try:
                conns[-1].send(struct.pack('>I', 262144) + bytes(100000))
            except (BrokenPipeError, ConnectionResetError):
                pass
        during = int(status(a.process.pid, 'VmRSS').split()[0])
        must(during < 200 * 1024, f'{during} KB of memory')
        works(a, 'ssh-add', 'rsa-4096')
        works(a, 'ssh-add', '-T', 'rsa-4096.pub')

        def closed():
            return sum(select.select([r.conn], [], [], 0)[0] != [] for r in conns)
        until(closed, 'none is closed')
        time.sleep(1)
        must(closed() < 400, f'{closed()} are closed')
        for r in conns:
            r.conn.close()

        def is_back():
            return int(status(a.process.pid, 'VmRSS').split()[0]) < before + 8192
        until(is_back, f'it keeps memory: {before} KB before')
        must(Raw(a).ask(LIST + bytes(262143))[0] == 12, 'no long frame any more')
    return 'above 128 MB the next is closed; the others go on; the memory goes back'


@row('over-long frames: on one connection after the other for a second; on 400 at once (raw)')
def _():
    too_long = struct.pack('>I', 262145)
    with Desk() as a:
        good = Raw(a)
        must(good.ask(LIST) == EMPTY_LIST, 'not served')
        files = len(os.listdir(f'/proc/{a.process.pid}/fd'))
        count, end = 0, time.monotonic() + 1
        while time.monotonic() < end:
            r = Raw(a)
            r.send(too_long)
            must(r.is_closed(), 'answered')
            r.conn.close()
            count += 1
        must(5 < count <= 21, f'{count} in a second')
        conns = [Raw(a) for _ in range(400)]
        start = time.monotonic()
        for r in conns:
            r.send(too_long)
        must(good.ask(LIST) == EMPTY_LIST, 'others wait')
        for r in conns:
            must(r.is_closed(), 'answered')
        must(time.monotonic() - start < 2, f'closed after {time.monotonic() - start:.1f} s')
        for r in conns:
            r.conn.close()
        until(lambda: len(os.listdir(f'/proc/{a.process.pid}/fd')) == files, 'descriptors are kept')
    return 'each is closed 50 ms behind its fault, at most 256 at a time wait for it; the others go on'


def few_files():
    resource.setrlimit(resource.RLIMIT_NOFILE, (100, 100))


@row('more connections than file descriptors (raw)')
def _():
    with Desk(preexec_fn=few_files) as a:
        first = Raw(a)
        must(first.ask(LIST) == EMPTY_LIST, 'not served')
        conns = [Raw(a) for _ in range(200)]
        for _ in range(20):
            must(first.ask(LIST) == EMPTY_LIST, 'the others suffer')
        panel = Panel(a.panel_path)
        panel.say('?')
        panel.said('no question is open')
        before = cpu(a)
        time.sleep(1)
        must(cpu(a) - before < 0.5, f'{cpu(a) - before:.1f} s of work in a second of waiting')
        a.logged('refused')
        for r in conns:
            r.conn.close()
        until(lambda: run(a, 'ssh-add', '-l')[1] == 'The agent has no identities.', 'none is taken again')
        must(first.ask(LIST) == EMPTY_LIST, 'the first suffers')
    return 'the others and a new panel are served, it does not spin; taken again once they have gone'
