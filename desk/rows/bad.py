"""Rows: bad input, and clients that behave badly."""
import argparse
import os
import random
import re
import socket
import struct
import subprocess
import time

from .agents import Desk
from .base import AGENT, at, must, row, until
from .frames import ADD, ADD_CONSTRAINED, EMPTY_LIST, FAILURE, LIST, LOCK, REMOVE, SIGN, SUCCESS, UNLOCK, Raw, receive, receive_all, string
from .keys import blob_of, fields_of, sign_request
from .processes import cpu
from .tools import ended, fails, run, started, works


@row('unknown messages (2, 20, 27, 255), an empty frame (raw)')
def _():
    with Desk() as a:
        r = Raw(a)
        for payload in (b'\2', b'\x14', b'\x1b' + string(b'session-bind@openssh.com'), b'\xff' * 9, b''):
            must(r.ask(payload) == FAILURE, f'{payload!r}')
        must(r.ask(LIST) == EMPTY_LIST, 'the connection does not go on')
        must(len(re.findall(r'gate \w+\?', a.log())) == 1, 'a question was asked')
    return 'FAILURE unasked; the connection goes on'


@row('cut frames: 2 bytes of a length, half a payload, then the end; frames in pieces, two in one (raw)')
def _():
    with Desk() as a:
        good = Raw(a)
        for part in (b'\0\0', b'\0\0\0\x09\x16\0\0', b'\0\0\0\x01'):
            r = Raw(a)
            r.send(part)
            must(good.ask(LIST) is not None, 'others wait')
            r.conn.shutdown(socket.SHUT_WR)
            must(receive(r.conn) is None, 'answered')
        r = Raw(a)
        for b in string(LIST):
            r.send(bytes([b]))
            time.sleep(0.02)
        must(receive(r.conn) == EMPTY_LIST, 'in pieces')
        r.send(string(b'') + string(LIST))
        r.conn.shutdown(socket.SHUT_WR)  # sends nothing more, and still reads
        got = b''
        while part := r.conn.recv(99):
            got += part
        must(got == string(FAILURE) + string(EMPTY_LIST), got)
        a.logged('cut frame', 3)
        must(good.ask(LIST) == EMPTY_LIST, 'others suffer')
    return 'that connection closes without a call; the others go on'


@row('a frame of 262,144 bytes; of 262,145; of 4,294,967,295 (raw)')
def _():
    with Desk('--gate', 'ask') as a:
        a.always('LIST|Unlock')
        good = Raw(a)
        waits = started(a, 'ssh-add', '-x', word='night')
        q = a.waiting('Lock')[0]
        r = Raw(a)
        must(r.ask(LIST + bytes(262143)) == EMPTY_LIST, 'the longest frame')
        for n in (262145, 2**32 - 1):
            r = Raw(a)
            r.send(struct.pack('>I', n) + LIST)
            must(receive(r.conn) is None, 'not closed')
        must(good.ask(LIST) == EMPTY_LIST, 'others suffer')
        a.answer(q, True)
        must(ended(waits)[0] == 0, 'the open question suffers')
        works(a, 'ssh-add', '-X', word='night')
    return 'served; that connection closes at its fourth byte, an open question and the others go on'


@row('first calls: two frames in one read, a frame in single bytes, frames of 0, 262,144 and 262,145 bytes, one behind the other (raw)')
def _():
    lock, unlock = string(LOCK + string(b'night')), string(UNLOCK + string(b'night'))
    longest = string(LIST + bytes(262143))
    with Desk() as a:
        r = Raw(a)
        r.send(lock + unlock)
        must(receive_all(r.conn, 2) == [SUCCESS, SUCCESS], 'two in one')
        for b in lock[:-1]:
            r.send(bytes([b]))
            time.sleep(0.01)
        must(Raw(a).ask(LIST) == EMPTY_LIST, 'a cut LOCK locks')
        r.send(lock[-1:] + string(LIST) + string(b'') + unlock[:3])
        must(receive_all(r.conn, 3) == [SUCCESS, FAILURE, FAILURE], 'the last byte, and two frames behind it')
        r.send(unlock[3:] + string(b''))
        must(receive_all(r.conn, 2) == [SUCCESS, FAILURE], 'a frame of 0 bytes')
        r.send(longest + string(LIST) + longest[:200000])
        must(receive_all(r.conn, 2) == [EMPTY_LIST, EMPTY_LIST], 'the longest, and one behind it')
        r.send(longest[200000:] + string(LIST))
        must(receive_all(r.conn, 2) == [EMPTY_LIST, EMPTY_LIST], 'the longest in two, and one behind it')
        try:
            r.send(string(LIST + bytes(262144)))  # closed before all of it is taken
        except OSError:
            pass
        must(r.is_closed(), 'a frame of 262,145 bytes')
        a.logged('too long a frame: 262145 bytes announced')
        must(Raw(a).ask(LIST) == EMPTY_LIST, 'others suffer')
        must(len(re.findall('landed', a.log())) == 13, 'each frame lands once')
    with Desk('--gate', 'ask') as a:
        r = Raw(a)
        r.send(string(LIST) + lock)
        q = a.waiting('RequestKeys')[0]
        must(Raw(a).ask(b'') == FAILURE and a.waiting('') == [q], 'the second is asked about while the first waits')
        a.answer(q, True)
        must(receive_all(r.conn, 1) == [EMPTY_LIST], 'the first')
        a.answer(a.waiting('Lock')[0], True)
        must(receive_all(r.conn, 1) == [SUCCESS], 'the second')
    return 'each frame is one request, in its order; none is taken before it is whole, nor while the one before it waits; then 262,145 closes'


@row('damaged requests: SIGN with a cut blob, data, flags; ADD cut at each byte; LOCK of 1,025 bytes (raw)')
def _():
    with Desk() as a:
        works(a, 'ssh-add', 'ed25519')
        blob, good = blob_of('ed25519'), Raw(a)
        whole = SIGN + string(blob) + string(b'data') + bytes(4)
        for n in range(1, len(whole)):
            must(Raw(a).ask(whole[:n]) is None, f'SIGN cut at {n}')
        must(Raw(a).ask(whole)[0] == 14, 'not signed')
        must(good.ask(SIGN + string(b'a')) == FAILURE, 'an absent key')
        pub = b'\3' * 32
        add = ADD_CONSTRAINED + string(b'ssh-ed25519') + string(pub) + string(b'\7' * 32 + pub) + string(b'me') + b'\1\0\0\0\7\2'
        for n in range(1, len(add)):
            must(good.ask(add[:n]) == FAILURE, f'ADD cut at {n}')
        must(good.ask(LOCK + string(b'x' * 1025)) == FAILURE and good.ask(b'\x16\0\0\0\3ab') == FAILURE, 'LOCK')
        must(good.ask(LIST)[:5] == b'\x0c\0\0\0\1', 'the table has changed')
    return 'SIGN closes its connection, ADD and LOCK answer FAILURE; keys and lock stay'


@row('5,000 frames of chance: known first bytes, cut and altered requests (raw)')
def _():
    rng = random.Random(2026)
    with Desk('--confirm', 'yes') as a:
        works(a, 'ssh-add', 'ed25519')
        pub, blob = b'\3' * 32, blob_of('ed25519')
        sign = SIGN + string(blob) + string(b'data') + bytes(4)
        shapes = [LIST, sign, sign, sign, REMOVE + string(blob_of('ecdsa-256')), LOCK + string(b'night'), UNLOCK + string(b'night'),
                  ADD_CONSTRAINED + string(b'ssh-ed25519') + string(pub) + string(b'\7' * 32 + pub) + string(b'') + b'\2',
                  ADD + string(b'ssh-rsa') + 6 * string(b'\7') + string(b''),
                  ADD + string(b'ecdsa-sha2-nistp256') + string(b'nistp256') + string(b'\4' + 64 * b'\1') + string(b'\1') + string(b'')]
        r, closed = Raw(a), 0
        for _ in range(5000):
            payload = bytearray(rng.choice(shapes))
            for _ in range(rng.choice((0, 0, 1, 2))):
                payload[rng.randrange(len(payload))] = rng.randrange(256)
            if rng.random() < 0.2:
                del payload[rng.randrange(len(payload)):]
            reply = r.ask(bytes(payload))
            must(reply is None or reply[0] in (5, 6, 12, 14), f'{bytes(payload).hex()}: {reply}')
            if payload and payload[0] == 22 and reply == SUCCESS:
                r.ask(UNLOCK + payload[1:])
            if reply is None:
                r, closed = Raw(a), closed + 1
        must(r.ask(b'') == FAILURE, 'it does not go on')
    return f'each gets a reply or, {closed} times, a close; the agent goes on'


@row('a signer that fails')
def _():
    with Desk('--sign', 'no') as a:
        good = Raw(a)
        works(a, 'ssh-add', 'ed25519')
        fails(a, 'ssh-add', '-T', 'ed25519.pub', says='communication with agent failed')
        must(good.ask(LIST)[:5] == b'\x0c\0\0\0\1', 'others suffer')
        a.logged('landed: close')
    return 'that connection closes ("communication with agent failed"); the others go on, the key stays'


@row('a client hangs up while its question is open')
def _():
    with Desk('--gate', 'ask') as a:
        p = started(a, 'ssh-add', '-x', word='night')
        q = a.waiting('Lock')[0]
        p.kill()
        ended(p)
        until(lambda: q in a.panel.gone, 'the question stays')
        a.always('LIST|ADD')
        fails(a, 'ssh-add', '-l', says='no identities')  # not locked
        a.panel.error = ''
        a.answer(q, True)
        until(lambda: 'not open' in a.panel.error, 'a late yes is taken')
        works(a, 'ssh-add', 'ed25519')
        must(not re.search(r'LOCK\s+landed', a.log()), 'it landed')
    return 'its question goes, nothing lands, a late yes is for nobody; the others go on'


@row('a client that sends nothing more, and still reads, while its question is open (raw)')
def _():
    with Desk('--gate', 'ask') as a:
        r = Raw(a)
        r.send(string(LIST))
        r.conn.shutdown(socket.SHUT_WR)
        q = a.waiting('LIST')[0]
        time.sleep(0.3)
        a.answer(q, True)
        must(receive(r.conn) == EMPTY_LIST, 'not answered')
    return 'gets its reply'


@row('a client that never reads (raw); 100 idle connections')
def _():
    with Desk() as a:
        r = Raw(a)
        r.conn.settimeout(0.5)
        try:
            for _ in range(100000):
                r.send(string(LIST) * 50)
        except OSError:
            pass  # the agent reads no more of it: its replies are not taken
        idle = [Raw(a) for _ in range(100)]
        works(a, 'ssh-add', 'ed25519')
        works(a, 'ssh-add', '-T', 'ed25519.pub')
        must(idle[-1].ask(LIST)[:5] == b'\x0c\0\0\0\1', 'others suffer')
    return 'the others go on'


@row('a log that nobody reads, and one whose reader goes')
def _():
    for goes in (False, True):
        a = argparse.Namespace(path=at('unread'))
        p = subprocess.Popen([AGENT, '--log=debug', '--socket', a.path], stdin=subprocess.DEVNULL, stdout=subprocess.PIPE, stderr=subprocess.DEVNULL)
        try:
            p.stdout.readline()
            if goes:
                p.stdout.close()
            r = Raw(a)
            for _ in range(5000):
                must(r.ask(LIST) == EMPTY_LIST, 'not served')
            works(a, 'ssh-add', 'ed25519')
        finally:
            p.terminate()
        must(p.wait(10) == 0 and not os.path.exists(a.path), 'it does not end')
    return 'served all the same; ends'


class Chance:
    """Clients and panels that come, go, ask, answer and break off by chance."""

    def __init__(self, a, seed):
        self.a, self.rng, self.clients, self.panels, self.broken = a, random.Random(seed), [], [], set()
        self.payloads = [LIST, b'', b'\xff', b'\x13', LIST + bytes(20000), LOCK + string(b'night'), UNLOCK + string(b'night'),
                         UNLOCK + string(b'other')]
        for kind in ('ed25519', 'ecdsa-256', 'rsa-2048'):
            add = fields_of(kind) + string(b'chance')
            self.payloads += [sign_request(kind), sign_request(kind)[:40], ADD + add, ADD_CONSTRAINED + add + b'\2',
                              ADD_CONSTRAINED + add + b'\1\0\0\0\1', REMOVE + string(blob_of(kind))]

    def connected(self, path):
        s = socket.socket(socket.AF_UNIX)
        s.connect(path)
        s.setblocking(False)
        return s

    def step(self):
        rng, n = self.rng, self.rng.randrange(100)
        client = rng.choice(self.clients) if self.clients else None
        whole = client is not None and client not in self.broken
        if client is None or (n < 5 and len(self.clients) < 60):
            self.clients.append(self.connected(self.a.path))
        elif n < 8:
            self.clients.remove(client)
            client.close()
        elif n < 10:
            client.shutdown(rng.choice((socket.SHUT_WR, socket.SHUT_RD)))
        elif n < 45 and whole:
            data = b''.join(string(rng.choice(self.payloads)) for _ in range(rng.choice((1, 1, 1, 5, 12))))
            if client.send(data) < len(data):
                self.broken.add(client)
        elif n < 50 and whole:
            frame = string(rng.choice(self.payloads))
            self.broken.add(client)
            client.send(rng.choice((frame[:rng.randrange(len(frame))], struct.pack('>I', 262145), bytes(3))))
        elif n < 70:
            client.recv(100000)
        elif n < 73 and len(self.panels) < 20:
            self.panels.append(self.connected(self.a.panel_path))
        elif n < 74 and self.panels:
            self.panels.pop(rng.randrange(len(self.panels))).close()
        elif n < 78 and self.panels:
            rng.choice(self.panels).send(rng.choice((b'show\n', b'watch\n', b'?\n', b'1 y\n', b'half', bytes(range(128, 168)))))
        elif n < 82 and self.panels:
            rng.choice(self.panels).recv(100000)
        elif self.a.panel.open:
            self.a.answer(rng.choice(list(self.a.panel.open)), rng.random() < 0.8)


@row('20,000 steps of chance: 60 clients and 16 panels come, ask, answer, break off, do not read (raw)')
def _():
    with Desk('--gate', 'ask') as a:
        chance = Chance(a, 16)
        for _ in range(20000):
            try:
                chance.step()
            except OSError:
                pass  # closed, or full
        for s in chance.clients + chance.panels:
            s.close()
        until(lambda: not a.panel.open, f'open questions stay: {a.panel.open}')
        a.always('.')
        run(a, 'ssh-add', '-X', word='night')
        works(a, 'ssh-add', '-D')
        fails(a, 'ssh-add', '-l', says='no identities')
        if os.geteuid() == 0:  # nobody else may look
            until(lambda: len(os.listdir(f'/proc/{a.process.pid}/fd')) < 16, 'descriptors stay open')
        before = cpu(a)
        time.sleep(1)
        must(cpu(a) - before < 0.2, 'it has work, and nobody is there')
    return 'the agent goes on: nothing stays open, and it is unlocked by its passphrase'
