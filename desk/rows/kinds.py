"""Rows: each kind of key."""
import os

from .agents import Desk
from .base import at, must, row
from .frames import ADD, FAILURE, Raw, string
from .keys import KINDS, blob_of, fingerprint, public, signed_by_frame, verifies
from .tools import fails, works


def kind_row(kind):
    def f():
        with Desk() as a:
            works(a, 'ssh-add', kind, says='Identity added')
            must(fingerprint(kind) in works(a, 'ssh-add', '-l'), 'not listed')
            must(public(kind) == works(a, 'ssh-add', '-L'), 'not listed with its comment')
            works(a, 'ssh-add', '-T', kind + '.pub')
            sign_without_private_half(a, kind)
            seen = [signed_by_frame(a, kind, flags) for flags in (0, 2, 4)]
            works(a, 'ssh-add', '-d', kind, says='Identity removed')
            fails(a, 'ssh-add', '-T', kind + '.pub')
            fails(a, 'ssh-add', '-l', says='no identities')
        return 'all good; flags 0, 2, 4: ' + ', '.join(seen) if kind.startswith('rsa') else 'all good'
    return f


def sign_without_private_half(a, kind):
    data = b'vents at 40 percent\n'
    with open(at('data'), 'wb') as d:
        d.write(data)
    if os.path.exists(at('data.sig')):
        os.unlink(at('data.sig'))
    os.rename(at(kind), at('away'))  # so that ssh-keygen can only ask the agent
    try:
        works(a, 'ssh-keygen', '-Y', 'sign', '-n', 'desk', '-f', kind + '.pub', 'data')
    finally:
        os.rename(at('away'), at(kind))
    verifies(kind, 'desk', 'data.sig', data)


for k in KINDS:
    row(f'{k}: add, list, sign and verify, `-d`')(kind_row(k))


@row('all seven at once, one of them again; one goes')
def _():
    with Desk() as a:
        for kind in KINDS:
            works(a, 'ssh-add', kind)
        works(a, 'ssh-add', 'ed25519')  # a held one is replaced
        must(works(a, 'ssh-add', '-L').splitlines() == [public(kind) for kind in KINDS], 'not all seven')
        for kind in KINDS:
            works(a, 'ssh-add', '-T', kind + '.pub')
        works(a, 'ssh-add', '-d', 'ecdsa-384')
        for kind in KINDS:
            (fails if kind == 'ecdsa-384' else works)(a, 'ssh-add', '-T', kind + '.pub')
        must('test ' not in a.log(), 'comments are not logged')
    return 'held in the order of their addition, and signing; after the removal the others sign'


@row('keys whose halves do not belong together: a wrong ed25519 seed, ecdsa d, rsa numbers (raw)')
def _():
    with Desk() as a:
        r, pub, q = Raw(a), blob_of('ed25519')[-32:], blob_of('ecdsa-256')[-65:]
        wrong = [string(b'ssh-ed25519') + string(pub) + string(b'\7' * 32 + pub),
                 string(b'ecdsa-sha2-nistp256') + string(b'nistp256') + string(q) + string(b'\7'),
                 string(b'ecdsa-sha2-nistp256') + string(b'nistp256') + string(q[:-1] + bytes([q[-1] ^ 1])) + string(b'\7'),
                 string(b'ssh-rsa') + string(b'\x0f') + string(b'\3') + string(b'\3') + string(b'\1') + string(b'\5') + string(b'\7')]
        for n, fields in enumerate(wrong):
            must(r.ask(ADD + fields + string(b'')) == FAILURE, f'number {n} is taken')
            a.logged('key check\\? no', n + 1)
        # a pair that does not end in A is the core's own to refuse
        must(r.ask(ADD + string(b'ssh-ed25519') + string(pub) + string(b'\7' * 64) + string(b'')) == FAILURE, 'a wrong pair is taken')
        must(a.log().count('key check?') == len(wrong), 'the core asked for it')
        fails(a, 'ssh-add', '-l', says='no identities')
    return 'FAILURE by the key check; nothing added'
