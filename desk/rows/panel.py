"""Rows: the panel's socket."""
import re
import socket
import time

from .agents import Desk, Panel
from .base import must, row, until
from .frames import EMPTY_LIST, FAILURE, LIST, LOCK, Raw, receive, string
from .keys import fingerprint
from .tools import ended, run, started, works


@row('lines to the panel that answer nothing; two panels answer at once; a panel goes while a question is open (raw)')
def _():
    with Desk('--gate', 'ask') as a:
        r = Raw(a)
        r.send(string(LIST))
        q = a.waiting('LIST')[0]
        wrong = [b'0 y', b'-1 y', b'+1 y', b'1', b'y', b'1 maybe', b'99999999999999999999 y', b'18446744073709551617 y', b'1 y n', b'1y', b'SHOW',
                 b'\xff\xfe 1', b'1 y\0', b'x' * 5000, b'1 ' + b' ' * 5000 + b'y', b'1 y' + b' ' * 300 + b'no, not that one']
        for n, line in enumerate(wrong):
            a.panel.conn.sendall(line + b'\n')
            until(lambda: sum(i.startswith('error ') for i in a.panel.lines) == n + 1, f'{line[:30]}: no error')
        a.panel.conn.sendall(b'\n  \n')
        other = Panel(a.panel_path)
        must(other.waiting('LIST') == [q], 'the question is gone')
        other.conn.shutdown(socket.SHUT_RDWR)
        must(other.ended.wait(5), 'not ended')
        panels = [Panel(a.panel_path) for _ in range(2)]
        for panel in panels:
            panel.waiting('LIST')
        for panel in panels:
            panel.say(f'{q} yes')
        must(receive(r.conn) == EMPTY_LIST, 'not answered')
        until(lambda: sum('not open' in panel.error for panel in panels) == 1, 'both count')
        for panel in (a.panel, *panels):
            must(panel.said(f'^answered {q}') == f'answered {q} y', f'{panel.lines}')
        must(sum(i.startswith('error ') for i in a.panel.lines) == len(wrong), f'an empty line is an error: {a.panel.lines[-3:]}')
    return 'an error line each; the question stays, the first answer counts'


@row('a panel that sends 2,000 lines at once, `?` and `show`, while 500 questions are open (raw)')
def _():
    with Desk('--gate', 'ask') as a:
        clients = [Raw(a) for _ in range(500)]
        for r in clients:
            r.send(string(LIST))
        a.waiting('LIST', 500)
        panel = Panel(a.panel_path)
        start = time.monotonic()
        for _ in range(10):
            panel.conn.sendall(b'?\nshow\n' * 100)
            r = Raw(a)
            r.send(string(LOCK + string(b'night')))
            a.answer(a.waiting('Lock')[0], False)
            must(receive(r.conn) == FAILURE, 'not a no')
        spent = time.monotonic() - start
        must(spent < 5, f'ten other questions and answers took {spent:.1f} s')
        a.always('LIST')
        for r in clients:
            must(receive(r.conn) == EMPTY_LIST, 'not answered')
    return 'ten questions of others are asked and answered meanwhile; then the 500'


def left_to_read(s):
    """All that the socket was sent, up to its end."""
    s.settimeout(5)
    got = b''
    try:
        while part := s.recv(65536):
            got += part
    except ConnectionResetError:
        pass
    return got.decode()


@row('a panel that does not read')
def _():
    with Desk('--gate', 'ask') as a:
        s = socket.socket(socket.AF_UNIX)
        s.connect(a.panel_path)
        time.sleep(0.1)
        for _ in range(1500):
            r = Raw(a)
            r.send(string(LIST))
            r.conn.close()
        until(lambda: len(a.panel.gone) == 1500, f'another panel saw {len(a.panel.gone)} of 1500 questions go')
        until(lambda: 'does not read' in a.written(), 'no word of it in the log', 15)
        text = left_to_read(s)
        must('\n'.join(a.panel.lines).startswith(text.rstrip('\n')) and len(text.splitlines()) > 100, f'not the first lines: {text[-200:]}')
        must(not a.panel.ended.is_set(), 'another panel is closed')
        p = started(a, 'ssh-add', '-l')
        a.answer(a.waiting('LIST')[0], True)
        must(ended(p)[1] == 'The agent has no identities.', 'the answers of others do not count')
    return 'is closed: it sees the end after what was sent; the others go on'


def shown(panel, *want):
    """The last block is this, once it is."""
    def there():
        last = panel.blocks()[-1:]
        return last and len(last[0]) == len(want) and all(re.fullmatch(w, line) for w, line in zip(want, last[0]))
    until(there, f'the last block is not {want}: {panel.blocks()[-1:]}', 5)


@row('`show` and `watch`: lock and keys, told after each change; while locked no key')
def _():
    ed = rf'key \d+ {re.escape(fingerprint("ed25519"))} left - confirm no comment test ed25519'
    ec = rf'key \d+ {re.escape(fingerprint("ecdsa-256"))} left (99\d|1000) confirm yes comment test ecdsa-256'
    short = rf'key \d+ {re.escape(fingerprint("rsa-2048"))} left [012] confirm no comment test rsa-2048'
    with Desk() as a:
        watcher, other = Panel(a.panel_path), Panel(a.panel_path)
        watcher.say('watch')
        shown(watcher, 'lock open')
        works(a, 'ssh-add', 'ed25519')
        shown(watcher, 'lock open', ed)
        works(a, 'ssh-add', '-c', '-t', '1000', 'ecdsa-256')
        shown(watcher, 'lock open', ed, ec)
        other.say('show')
        shown(other, 'lock open', ed, ec)
        works(a, 'ssh-add', '-t', '2', 'rsa-2048')
        shown(watcher, 'lock open', ed, ec, short)
        shown(watcher, 'lock open', ed, ec)  # it went on time
        works(a, 'ssh-add', '-x', word='night')
        shown(watcher, 'lock locked')
        other.say('show')
        shown(other, 'lock locked')
        works(a, 'ssh-add', '-X', word='night')
        shown(watcher, 'lock open', ed, ec)
        works(a, 'ssh-add', '-d', 'ed25519')
        shown(watcher, 'lock open', ec)
        works(a, 'ssh-add', '-D')
        shown(watcher, 'lock open')
        must(len(other.blocks()) == 2, f'one that did not watch was told: {other.blocks()}')
        must(not a.panel.blocks(), 'one that did not ask was told')
        count = len(watcher.blocks())
        run(a, 'ssh-add', '-l')
        time.sleep(0.3)
        must(len(watcher.blocks()) == count, 'a list is no change')
    return 'fingerprint, time left, Confirm and comment; adds, removals, a key gone on time, lock and unlock'
