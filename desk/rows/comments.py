"""Rows: comments, beside OpenSSH's own agent. Each command goes to both, and both must print the lines that are expected."""
import os
import shutil
import subprocess

from .agents import Desk, OpenSSH
from .base import at, must, row
from .frames import ADD, ADD_CONSTRAINED, FAILURE, LIST, SUCCESS, Raw, string
from .keys import FIVE, blob_of, fields_of, fingerprint, public
from .tools import environment, fails, works


LONGEST = b'x' * 255
TEXTS = [b'c', b'vents (south), "3"', 'Gewächshaus 3'.encode(), '温室'.encode(), '🌱'.encode(), LONGEST, ('é' * 127 + 'x').encode()]
NO_TEXTS = [b'\xff', b'vents \xc3', b'\xed\xa0\x80', b'x' * 254 + b'\xc3']


def key_file(kind, comment):
    """A copy of the key file whose comment is this one."""
    shutil.copy(at(kind), at('commented'))
    subprocess.run(['ssh-keygen', '-q', '-c', '-P', '', '-C', comment, '-f', at('commented')], check=True, capture_output=True)
    return at('commented')


def added(agent, kind, comment, constraints=None):
    """The answer to an add request, 17 or 25, as a raw frame."""
    return Raw(agent).ask((ADD if constraints is None else ADD_CONSTRAINED) + fields_of(kind) + string(comment) + (constraints or b''))


def listing(agent, flag):
    return subprocess.run(['ssh-add', flag], env=environment(agent), stdin=subprocess.DEVNULL, capture_output=True).stdout.splitlines()


def shows(agent, held):
    """`-l` and `-L` print these keys, in this order and with these comments, and nothing else; how many lines."""
    short = [b'%d %s %s (%s)' % (FIVE[k][0], fingerprint(k).encode(), c, FIVE[k][1].encode()) for k, c in held.items()]
    long = [b' '.join(public(k).encode().split()[:2] + [c]) for k, c in held.items()]
    for flag, want in (('-l', short or [b'The agent has no identities.']), ('-L', long or [b'The agent has no identities.'])):
        got = listing(agent, flag)
        must(got == want, f'{agent.path}: {flag} prints {got}'[:300] + f', not {want}'[:300])
    return 2 * len(held)


@row('comments of five kinds: `ssh-add`, `-c`, `-t`, each once more with another comment, `-d`; `-l` and `-L` after each, '
     'and from OpenSSH\'s ssh-agent')
def _():
    lines, ways = 0, [[], ['-c'], ['-t', '1000']]
    with Desk() as a, OpenSSH() as b:
        for n, way in enumerate(ways):
            held = {}
            for text, other in ((b'first', way), (b'another, longer', ways[n - 1]), (b'3rd', ways[n - 2])):
                for kind in FIVE:
                    held[kind] = b' '.join([text, kind.encode(), *(o.encode() for o in other)])
                    file = key_file(kind, held[kind])
                    for agent in (a, b):
                        works(agent, 'ssh-add', *other, file)
                        lines += shows(agent, held)
            for kind in FIVE:
                del held[kind]
                for agent in (a, b):
                    works(agent, 'ssh-add', '-d', kind)
                    lines += shows(agent, held)
        must('another, longer' not in a.log(), 'comments are logged')
    return f'the comment that was sent last, on both sides the same {lines // 2} lines'


@row('comments: empty (raw; from a key file ssh-add sends its name), of 1 and 255 bytes, UTF-8 of two, three and four bytes; '
     'from OpenSSH\'s ssh-agent too')
def _():
    lines = 0
    with Desk() as a, OpenSSH() as b:
        held = {}
        for text in [b'', *TEXTS, b'']:
            for constraints in (None, b'', b'\2', b'\1\0\0\1\0'):
                for kind in FIVE:
                    held[kind] = text
                    for agent in (a, b):
                        must(added(agent, kind, text, constraints) == SUCCESS, f'{text} is not taken')
            for agent in (a, b):
                lines += shows(agent, held)
                for kind in FIVE:
                    works(agent, 'ssh-add', key_file(kind, text), says='Identity added')
                lines += shows(agent, held if text else dict.fromkeys(FIVE, key_file('ed25519', b'').encode()))
    return f'taken from raw frames and key files; on both sides the same {lines // 2} lines'


@row('comments of 256 bytes, and not UTF-8 (key file, raw)')
def _():
    with Desk() as a, OpenSSH() as b:
        held = dict.fromkeys(FIVE, b'as it was')
        for kind in list(FIVE)[:-1]:
            for agent in (a, b):
                must(added(agent, kind, b'as it was') == SUCCESS, 'not taken')
        del held['rsa-2048']  # so that it is a new key to this one, the others held
        checks = a.log().count('key check?')
        for text in [LONGEST + b'x', ('é' * 128).encode(), b'x' * 1000, *NO_TEXTS]:
            for kind in FIVE:
                fails(a, 'ssh-add', key_file(kind, text), says='refused operation')
                for constraints in (None, b'', b'\2'):
                    must(added(a, kind, text, constraints) == FAILURE, f'{text} is taken')
            shows(a, held)
            for kind in FIVE:
                works(b, 'ssh-add', key_file(kind, text))
            shows(b, dict.fromkeys(FIVE, text))
        must(a.log().count('key check?') == checks, 'the key check was asked')
    return 'refused, no key check asked, the list as it was; OpenSSH\'s ssh-agent takes and shows them'


@row('a comment with a zero byte inside (raw)')
def _():
    with Desk() as a, OpenSSH() as b:
        must(added(b, 'ed25519', b'a\0b') == FAILURE, 'ssh-agent takes it')
        must(added(a, 'ed25519', b'a\0b') == SUCCESS, 'not taken')
        must(Raw(a).ask(LIST) == b'\x0c\0\0\0\1' + string(blob_of('ed25519')) + string(b'a\0b'), 'not listed')
        works(a, 'ssh-add', 'ecdsa-256')
        os.rename(at('ecdsa-256'), at('away'))  # so that ssh-keygen can only ask the agent
        try:
            fails(a, 'ssh-keygen', '-Y', 'sign', '-n', 'desk', '-f', 'ecdsa-256.pub', 'askpass')
        finally:
            os.rename(at('away'), at('ecdsa-256'))
        fails(a, 'ssh-add', '-l', says='invalid format')
        works(a, 'ssh-add', '-T', 'ed25519.pub')
        must(added(a, 'ed25519', b'ab') == SUCCESS, 'not replaced')
        shows(a, {'ed25519': b'ab', 'ecdsa-256': b'test ecdsa-256'})
        for way in ('-d', '-D'):
            must(added(a, 'ed25519', b'\0b') == SUCCESS, 'not taken')
            fails(a, 'ssh-add', '-l', says='invalid format')
            works(a, 'ssh-add', way, *(['ed25519'] if way == '-d' else []))
            shows(a, {'ecdsa-256': b'test ecdsa-256'} if way == '-d' else {})
    return 'taken and listed (it is UTF-8); OpenSSH\'s agent refuses it, and its tools read no list that has one'
