"""Rows: requests that cross."""
import os
import re
import threading
import time

from .agents import Desk, Russh
from .base import TOP, Skip, must, row
from .keys import KINDS
from .tools import ended, run, started, works


def crossing(agent, late_first):
    """Two ssh-add -x wait on the panel; both get a yes. Their exits, in the order of the yeses, and which passphrases open it afterwards."""
    words = ['vents', 'frost']
    clients = []
    for i, word in enumerate(words):
        clients.append(started(agent, 'ssh-add', '-x', word=word))
        agent.waiting('Lock|gate 6', i + 1)
    order = [1, 0] if late_first else [0, 1]
    numbers = agent.waiting('Lock|gate 6', 2)
    exits = []
    for i in order:
        agent.answer(numbers[i], True)
        exits.append(ended(clients[i])[0])
    agent.always('Unlock|gate 7')
    first, second = words[order[0]], words[order[1]]
    tries = [second, second + first, first, first + second]
    opens = [word for word in tries if run(agent, 'ssh-add', '-X', word=word)[0] == 0]
    return exits, opens, first, second


@row('THE INCIDENT: two `ssh-add -x` cross while the panel waits, both get a yes')
def _():
    for late_first in (False, True):
        with Desk('--gate', 'ask') as a:
            exits, opens, first, second = crossing(a, late_first)
            must(exits[0] == 0 and exits[1] != 0, f'exits {exits}')
            must(opens == [first], f'opened by {opens}')
            landings = re.findall(r'conn \d+\s+LOCK\s+landed: (\w+)', a.log())
            must(landings == ['SUCCESS', 'FAILURE'], f'{landings}')
    return 'exactly one succeeds, whichever gets its yes first, and its passphrase opens it; the other does not, nor both joined'


@row('the same against russh 0.65.0 (the oracle\'s `real`)')
def _():
    oracle = os.environ.get('ORACLE') or os.path.join(os.path.dirname(TOP), 'shared', 'oracle')
    folders = [os.environ['ORACLE_OUT']] if os.environ.get('ORACLE_OUT') else [os.path.join(TOP, 'target', 'oracle'), 'target/oracle']
    driver = next((d for d in (os.path.join(f, 'bin', 'real') for f in folders) if os.access(d, os.X_OK)), None)
    if driver is None:
        build = os.path.join(oracle, 'build')
        if os.path.exists(build):
            raise Skip('the oracle is not built: run its script `build` (2 minutes) with ORACLE_OUT set, then this with the same ORACLE_OUT')
        raise Skip('no oracle: set ORACLE to its folder, or ORACLE_OUT to where it is built')
    with Russh(os.path.abspath(driver)) as a:
        exits, opens, first, second = crossing(a, False)
        must(exits == [0, 0] and opens == [first + second], f'exits {exits}, opened by {opens}')
    return 'the old fault: both say "Agent locked.", neither passphrase opens it, both joined do'


@row('four `ssh-add -x` at once, ten times, all answered yes at once')
def _():
    with Desk('--gate', 'ask') as a:
        for _ in range(10):
            words = ['word' + c for c in 'abcd']
            clients = [started(a, 'ssh-add', '-x', word=word) for word in words]
            numbers = a.waiting('Lock', 4)
            threads = [threading.Thread(target=a.answer, args=(n, True)) for n in numbers]
            for t in threads:
                t.start()
            exits = [ended(c)[0] for c in clients]
            must(exits.count(0) == 1, f'{exits}')
            a.always('Unlock')
            opens = [word for word in words if run(a, 'ssh-add', '-X', word=word)[0] == 0]
            must(opens == [words[exits.index(0)]], f'{exits} {opens}')
            a.always(None)
    return 'exactly one succeeds each time, and its passphrase alone opens'


@row('two signatures wait for their confirmations; answered in the other order')
def _():
    with Desk('--confirm', 'ask') as a:
        for kind in ('ed25519', 'ecdsa-256'):
            works(a, 'ssh-add', '-c', kind)
        first = started(a, 'ssh-add', '-T', 'ed25519.pub')
        q1 = a.waiting('key 1')[0]
        second = started(a, 'ssh-add', '-T', 'ecdsa-256.pub')
        q2 = a.waiting('key 2')[0]
        a.answer(q2, True)
        must(ended(second)[0] == 0 and first.poll() is None, 'the wrong one')
        a.answer(q1, False)
        must(ended(first)[0] != 0, 'signed')
    return 'each gets its own'


@row('a LOCK lands while a confirmation waits')
def _():
    with Desk('--confirm', 'ask') as a:
        works(a, 'ssh-add', '-c', 'ed25519')
        p = started(a, 'ssh-add', '-T', 'ed25519.pub')
        q = a.waiting('key 1')[0]
        works(a, 'ssh-add', '-x', word='night')
        a.answer(q, True)
        must('refused operation' in ended(p)[1], 'signed')
        must('signature by key' not in a.log(), 'the signer was asked')
        works(a, 'ssh-add', '-X', word='night')
    return 'not signed, though the panel said yes'


@row('the key is removed, or goes on time, while its confirmation waits')
def _():
    with Desk('--confirm', 'ask') as a:
        for gone in ('-d', '-t'):
            works(a, 'ssh-add', '-c', *(['-t', '1'] if gone == '-t' else []), 'ed25519')
            p = started(a, 'ssh-add', '-T', 'ed25519.pub')
            q = a.waiting('confirm')[0]
            if gone == '-d':
                works(a, 'ssh-add', '-d', 'ed25519')
            else:
                time.sleep(1.1)
            a.answer(q, True)
            must('refused operation' in ended(p)[1], 'signed')
        must('signature by key' not in a.log(), 'the signer was asked')
    return 'not signed'


@row('the key is replaced while its confirmation waits')
def _():
    with Desk('--confirm', 'ask') as a:
        for last in (True, False):
            works(a, 'ssh-add', '-D')
            works(a, 'ssh-add', '-c', 'ed25519')
            p = started(a, 'ssh-add', '-T', 'ed25519.pub')
            q = a.waiting('confirm')[0]
            number = int(re.search(r'key (\d+)', a.panel.open[q])[1])
            works(a, 'ssh-add', '-c', 'ed25519')
            a.answer(q, True)
            again = a.waiting(f'confirm key {number + 1}')[0]
            a.answer(again, last)
            must((ended(p)[0] == 0) == last, 'the second answer does not count')
    return 'asked again for the new key; that answer counts'


@row('eight clients at once, 25 signatures each, keys of all kinds')
def _():
    with Desk() as a:
        for kind in KINDS:
            works(a, 'ssh-add', kind)
        wrong = []

        def client(n):
            for i in range(25):
                kind = KINDS[(n + i) % len(KINDS)]
                status, out = run(a, 'ssh-add', '-T', kind + '.pub')
                if status:
                    wrong.append(out)
        threads = [threading.Thread(target=client, args=(n,)) for n in range(8)]
        for t in threads:
            t.start()
        for t in threads:
            t.join()
        must(not wrong, wrong[:1])
    return '200 signatures, each verified by its client'
