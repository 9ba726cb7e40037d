"""Rows: up to 24 keys, as many as the store has room for, in the order of their addition; OpenSSH's own agent lists them alike."""
import signal
import subprocess
import time

from .agents import Desk, OpenSSH, Panel
from .base import at, must, row, until
from .keys import blob_of, comment, fields_of, many, public, wide
from .tools import fails, run, works

STORE = 32768


def line(name):
    """As `ssh-add -l` prints it: ssh-keygen has the same words for a key file."""
    return subprocess.run(['ssh-keygen', '-l', '-f', at(name + '.pub')], check=True, capture_output=True, text=True).stdout.strip()


def shows(agent, names):
    """`-l` and `-L` print these keys, in this order and with the comments of their files, and nothing else."""
    for flag, words in (('-l', line), ('-L', public)):
        got = run(agent, 'ssh-add', flag)[1].splitlines()
        must(got == ([words(name) for name in names] or ['The agent has no identities.']), f'{agent.path}: {flag} prints {got}'[:600])


def sign(agent, names):
    for name in names:
        works(agent, 'ssh-add', '-T', name + '.pub')


def refused(agent, name):
    """ssh-add says so, no key check was asked, and the list is as it was."""
    listed, checks = works(agent, 'ssh-add', '-L'), agent.log().count('key check?')
    fails(agent, 'ssh-add', name, says=f'Could not add identity "{name}": agent refused operation')
    must(agent.log().count('key check?') == checks, 'the key check was asked')
    must(works(agent, 'ssh-add', '-L') == listed, 'the list is another')


@row('24 keys by `ssh-add`, and a 25th; one of them again, with another comment; `-l` and `-L`, and from OpenSSH\'s ssh-agent')
def _():
    names = many()
    held = names[:24]
    with Desk() as a, OpenSSH() as b:
        for agent in (a, b):
            for name in held:
                works(agent, 'ssh-add', name, says='Identity added')
            shows(agent, held)
        refused(a, names[24])
        for n, text in ((0, 'x' * 255), (11, 'v'), (23, 'vents south'), (11, 'row 3, ' * 20 + 'south')):
            comment(held[n], text)
            for agent in (a, b):
                works(agent, 'ssh-add', held[n])
                shows(agent, held)
        refused(a, names[24])
        sign(a, held)
        panel = Panel(a.panel_path)
        panel.say('show')
        until(lambda: [len(block) for block in panel.blocks()] == [25], 'the panel does not show all')
        works(a, 'ssh-add', '-d', held.pop(7))
        works(a, 'ssh-add', names[24])
        shows(a, held + [names[24]])
    return 'held in the order of their addition and signing, each keeps its position; the 25th "agent refused operation", no key check; taken ' \
        'once one is removed'


@row('of 24 keys some are removed from the middle, several go on time in one call, all by `-D`; `-l` and `-L`, and from OpenSSH\'s ssh-agent')
def _():
    names = many()[:24]
    short = names[3:6] + [names[12], names[22], names[23]]
    with Desk() as a, OpenSSH() as b:
        for agent in (a, b):
            held = list(names)
            works(agent, 'ssh-add', *held)
            for name in (held[11], held[0], held[23], held[12], held[5]):
                works(agent, 'ssh-add', '-d', name)
                held.remove(name)
                shows(agent, held)
            back = [name for name in names if name not in held]
            works(agent, 'ssh-add', *back)
            shows(agent, held + back)
            works(agent, 'ssh-add', '-D')
            shows(agent, [])
        for name in names:
            works(a, 'ssh-add', *(['-t', '5'] if name in short else []), name)
        shows(a, names)
        gone = a.log().count(' is gone')
        # stopped until all are due: the first call lets go of them together
        a.process.send_signal(signal.SIGSTOP)
        time.sleep(5.5)
        a.process.send_signal(signal.SIGCONT)
        held = [name for name in names if name not in short]
        shows(a, held)
        sign(a, held)
        must(a.log().count(' is gone') == gone + len(short), 'the log has not all')
        works(a, 'ssh-add', '-D')
        shows(a, [])
    return 'the others stay in their order, and sign; what is added again goes last'


def size(name, text):
    return len(blob_of(name)) + len(fields_of(name)) + len(text)


@row('room and not the count: RSA keys of 6,144 bits with comments of 255 bytes, then Ed25519 keys; a comment that is too long for what is left')
def _():
    big, small = wide(), many()
    for name in small:
        comment(name, 'a short one')
    with Desk() as a:
        works(a, 'ssh-add', *big[:8])
        refused(a, big[8])
        room = STORE - sum(size(name, 'x' * 255) for name in big[:8])
        count = room // size(small[0], 'a short one')
        must(8 + count < 24, f'room for {count}')
        works(a, 'ssh-add', *small[:count])
        refused(a, small[count])
        held = big[:8] + small[:count]
        shows(a, held)
        # one of them again: a longer comment has no room, and the held one stays
        comment(small[0], 'x' * 255)
        refused(a, small[0])
        comment(small[0], 'a short one')
        shows(a, held)
        # a shorter one leaves room, which the next key has
        comment(big[3], 'w')
        works(a, 'ssh-add', big[3])
        works(a, 'ssh-add', small[count])
        held.append(small[count])
        shows(a, held)
        refused(a, small[count + 1] if count + 9 < 24 else big[8])
        works(a, 'ssh-add', '-d', big[0])
        works(a, 'ssh-add', big[8])
        shows(a, held[1:] + [big[8]])
        sign(a, held[1:] + [big[8]])
        works(a, 'ssh-add', '-D')
        shows(a, [])
    return f'eight of {size(big[0], "x" * 255)} bytes and {count} of {size(small[0], "a short one")} fit, the next "agent refused operation", no ' \
        'key check; what is given up the next one has'
