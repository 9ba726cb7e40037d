"""Rows: what a question says, and who can answer it."""
import argparse
import fcntl
import os
import pty
import re
import socket
import subprocess
import termios
import threading

from . import base
from .agents import Desk, Panel, said
from .base import AGENT, Skip, at, must, row, until
from .frames import ADD, ADD_CONSTRAINED, EMPTY_LIST, FAILURE, LIST, LOCK, REMOVE, SUCCESS, UNLOCK, Raw, receive, string
from .keys import blob_of, fields_of, fingerprint, sign_request
from .tools import ended, started, works


@row('answers typed on the terminal, `?`, a wrong line, Ctrl-C typed')
def _():
    try:
        master, slave = pty.openpty()
    except OSError as e:
        raise Skip(f'no pseudo-terminal here: {e}') from e
    path, seen = at('terminal'), []

    def read():
        try:
            while part := os.read(master, 4096):
                seen.append(part.decode())
        except OSError:
            pass  # the agent has ended

    def own_terminal():
        os.setsid()
        fcntl.ioctl(0, termios.TIOCSCTTY, 0)
    agent = subprocess.Popen([AGENT, '--socket', path, '--gate', 'ask'], stdin=slave, stdout=slave, stderr=slave, preexec_fn=own_terminal)
    os.close(slave)
    threading.Thread(target=read, daemon=True).start()
    shown = lambda text: until(lambda: text in ''.join(seen), f'{text!r} is not shown: {"".join(seen)}')  # noqa: E731
    try:
        shown('Ctrl-C ends it')
        a = argparse.Namespace(path=path)
        p = started(a, 'ssh-add', '-l')
        shown('question 1: conn 1 LIST gate RequestKeys')
        q = started(a, 'ssh-add', '-x', word='night')
        shown('question 2: conn 2 LOCK gate Lock')
        os.write(master, b'?\nyes\n9 y\n2 n\n1 y\n')
        must(ended(q)[0] != 0 and ended(p)[1] == 'The agent has no identities.', 'the answers do not count')
        shown('write NUMBER y or NUMBER n')
        shown('question 9 is not open')
        os.write(master, b'\3')
        must(agent.wait(10) == 0 and not os.path.exists(path), 'Ctrl-C does not end it')
        shown('socket removed')
    finally:
        agent.kill()
        agent.wait()
        os.close(master)
    return 'two questions open, answered in the other order; ended, socket removed'


def us():
    return f'uid {os.getuid()} pid {os.getpid()} program {comm()}'


def comm():
    with open('/proc/self/comm') as f:
        return f.read().strip()


def waits(a, payload, text):
    """A client of ours whose request waits as a question; the client, the question's number and its text."""
    r = Raw(a)
    r.send(string(payload))
    q = a.waiting(text)[0]
    return r, q, re.sub(r'^conn \d+ ', '', a.panel.open[q])


@row('a question says who asks: uid, pid, program; and of a key its fingerprint and comment')
def _():
    key = f'key {fingerprint("ed25519")}'
    with Desk('--gate', 'ask') as a:
        p = started(a, 'ssh-add', '-l')
        q = a.waiting('LIST')[0]
        must(a.panel.open[q] == f'conn 1 LIST gate RequestKeys uid {os.getuid()} pid {p.pid} program ssh-add', a.panel.open[q])
        a.answer(q, True)
        ended(p)
        for payload, want in ((ADD + fields_of('ecdsa-256') + string(b'vents'), 'ADD gate AddKeys'),
                              (ADD_CONSTRAINED + fields_of('ed25519') + string('Gewächshaus 3'.encode()) + b'\2', 'ADD_CONSTRAINED gate AddKeys'),
                              (sign_request('ed25519'), 'SIGN gate Sign'), (REMOVE + string(blob_of('ed25519')), 'REMOVE gate RemoveKeys'),
                              (b'\x13', 'REMOVE_ALL gate RemoveAllKeys'), (LOCK + string(b'night'), 'LOCK gate Lock'),
                              (LIST, 'LIST gate RequestKeys')):
            r, q, text = waits(a, payload, want.split()[0] + ' gate')
            named = payload[:1] in (sign_request('ed25519')[:1], REMOVE)
            must(text == f'{want} {us()}' + (f' {key} comment Gewächshaus 3' if named else ''), text)
            a.answer(q, want.startswith('ADD'))
            receive(r.conn)
        for payload in (sign_request('ecdsa-521'), REMOVE + string(blob_of('ecdsa-521'))):
            r, q, text = waits(a, payload, 'gate')
            must(text.endswith(f'{us()} key {fingerprint("ecdsa-521")}'), f'of a key that is not held: {text}')
            a.answer(q, False)
            receive(r.conn)
        r, q, text = waits(a, sign_request('ed25519'), 'SIGN gate')
        a.answer(q, True)
        q = a.waiting('SIGN confirm')[0]
        text = re.sub(r'^conn \d+ ', '', a.panel.open[q])
        must(text == f'SIGN confirm key 2 {fingerprint("ed25519")} {us()} comment Gewächshaus 3', text)
        a.answer(q, True)
        must(receive(r.conn)[0] == 14, 'not signed')
    return 'as the panel has to read it, for each message'


@row('a comment with line ends and escapes, a program whose name has spaces (raw)')
def _():
    with Desk() as a:
        comment = 'vents\nask 9 conn 9 LIST gate RequestKeys\r\x1b[31m\x7f\x85red\t'
        must(Raw(a).ask(ADD_CONSTRAINED + fields_of('ed25519') + string(comment.encode()) + b'\2') == SUCCESS, 'not added')
        child = os.fork()
        if child == 0:
            try:
                with open('/proc/self/comm', 'w') as f:
                    f.write('a b\nask 8\x1b[1m')
                r = Raw(a)
                r.send(string(sign_request('ed25519')))
                receive(r.conn)
            finally:
                os._exit(0)
        q = a.waiting('SIGN confirm')[0]
        a.panel.say('show')
        a.panel.said('^end$')
        lines = a.panel.lines[:]
        a.answer(q, True)
        os.waitpid(child, 0)
        must(len(a.panel.open) == 0 and all(re.match('ask 1 |lock |key |end|answered 1', line) for line in lines), f'{lines}')
        ask = next(line for line in lines if line.startswith('ask 1'))
        want = re.sub(r'[\x00-\x1f\x7f-\x9f]', '?', comment)
        must(ask.endswith('comment ' + want), ask)
        must(re.search(rf' pid {child} program (\S+) comment ', ask), ask)
        must(next(line for line in lines if line.startswith('key ')).endswith('comment ' + want), f'{lines}')
        must(not re.search(r'[\x00-\x08\x0b-\x1f\x7f-\x9f]', a.log()), 'the log has escapes')
    return 'one line each, control characters as `?`, the program as one word'


@row('while locked a question has no fingerprint and no comment; a panel that connects gets all open questions')
def _():
    with Desk('--confirm', 'ask') as a:
        works(a, 'ssh-add', '-c', 'ed25519')
        confirm, q, _ = waits(a, sign_request('ed25519'), 'confirm')
        must(Raw(a).ask(LOCK + string(b'night')) == SUCCESS, 'not locked')
        late = Panel(a.panel_path)
        late.waiting('SIGN')
        must(re.sub(r'^conn \d+ ', '', late.open[q]) == f'SIGN confirm key 1 - {us()}', late.open[q])
        must(Raw(a).ask(UNLOCK + string(b'night')) == SUCCESS, 'not unlocked')
        late = Panel(a.panel_path)
        late.waiting('SIGN')
        must(late.open[q].endswith('comment test ed25519') and fingerprint('ed25519') in late.open[q], late.open[q])
        late.answer(q, True)
        must(receive(confirm.conn)[0] == 14, 'not signed')
    with Desk('--gate', 'ask') as a:
        a.always('ADD|LOCK')
        works(a, 'ssh-add', 'ed25519')
        clients = [Raw(a) for _ in range(6)]
        for r, payload in zip(clients, 2 * [sign_request('ed25519'), REMOVE + string(blob_of('ed25519')), LIST]):
            r.send(string(payload))
        numbers = a.waiting('.', 6)
        early = dict(a.panel.open)
        late = Panel(a.panel_path)
        must(late.waiting('.', 6) == numbers and late.open == early, f'{late.open}')
        must(sum(fingerprint('ed25519') in text for text in early.values()) == 4, f'{early}')
        works(a, 'ssh-add', '-x', word='night')
        locked = Panel(a.panel_path)
        locked.waiting('.', 6)
        must(not any(re.search('SHA256|comment|key', text) for text in locked.open.values()), f'{locked.open}')
        must(all(us() in text for text in locked.open.values()), f'{locked.open}')
        a.always(None)
        p = started(a, 'ssh-add', '-X', word='night')
        q = a.waiting('UNLOCK gate Unlock')[0]
        must(a.panel.open[q].endswith(f'uid {os.getuid()} pid {p.pid} program ssh-add'), a.panel.open[q])
        for number in numbers:
            locked.answer(number, True)
        for r in clients:
            must(receive(r.conn)[:1] != b'\x0e', 'signed while locked')
        a.answer(q, True)
        must(ended(p)[0] == 0, 'not unlocked')
    return 'hidden on the panel that connects while locked, there again after the unlock; six open questions, all told'


@row('where neither standard input nor a panel can answer, a question is a no')
def _():
    for open_first in (False, True):
        a = argparse.Namespace(path=at('alone'))
        p = subprocess.Popen([AGENT, '--gate', 'ask', '--socket', a.path], stdin=subprocess.PIPE, stdout=subprocess.PIPE, text=True)
        p.stdout.readline()
        r = Raw(a)
        if open_first:
            r.send(string(LIST))
            while 'question 1' not in p.stdout.readline():
                pass
        p.stdin.close()
        while 'standard input has ended' not in p.stdout.readline():
            pass
        must((receive(r.conn) if open_first else r.ask(LIST)) == FAILURE, 'not a no')
        p.terminate()
        text = p.stdout.read()
        must(p.wait(10) == 0 and (open_first or 'nobody can answer' in text), text)
    status, out, error = said(command=['sh', '-c', 'ssh-add -q -c ed25519 && ssh-add -T ed25519.pub'], cwd=base.folder)
    must(status == 1 and 'nobody can answer' in error, f'{status} {out} {error}')
    with Desk('--gate', 'ask') as a:  # a panel's socket is there, and nobody at it
        a.panel.conn.shutdown(socket.SHUT_RDWR)
        must(a.panel.ended.wait(5), 'still there')
        r = Raw(a)
        r.send(string(LIST))
        late = Panel(a.panel_path)
        late.answer(late.waiting('LIST')[0], True)
        must(receive(r.conn) == EMPTY_LIST, 'not answered')
    return 'at once, and for the open one; with COMMAND too. Where there is a panel\'s socket it waits for a panel'
