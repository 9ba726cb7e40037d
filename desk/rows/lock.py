"""Rows: lifetime, confirmation, removal, lock and gate."""
import os
import re
import subprocess
import time

from . import base
from .agents import Desk
from .base import at, must, row, until
from .keys import KINDS, fingerprint, public
from .tools import ended, fails, run, started, works


@row('`-t 2`: there, gone on time though nobody asks; while locked too')
def _():
    with Desk() as a:
        works(a, 'ssh-add', '-t', '2', 'ed25519', says='Lifetime set')
        added = time.monotonic()
        works(a, 'ssh-add', 'ecdsa-256')
        time.sleep(1.5)
        must(len(works(a, 'ssh-add', '-l').splitlines()) == 2, 'gone too early')
        works(a, 'ssh-add', '-T', 'ed25519.pub')
        a.logged('key 1 is gone')
        must(1.8 < time.monotonic() - added < 4, 'gone too early or too late')
        must(len(works(a, 'ssh-add', '-l').splitlines()) == 1, 'still there')
        fails(a, 'ssh-add', '-T', 'ed25519.pub', says='refused operation')
        works(a, 'ssh-add', '-t', '1', 'ed25519')
        works(a, 'ssh-add', '-x', word='night')
        time.sleep(1.2)
        a.logged('key 3 is gone')
        works(a, 'ssh-add', '-X', word='night')
        must(len(works(a, 'ssh-add', '-l').splitlines()) == 1, 'still there')
    return 'there after 1.5 s, gone after 2 s, from the host too; other keys stay'


@row('`-c` with yes, with no')
def _():
    with Desk('--confirm', 'yes') as a:
        works(a, 'ssh-add', '-c', 'ed25519')
        works(a, 'ssh-add', '-T', 'ed25519.pub')
    with Desk('--confirm', 'no') as a:
        works(a, 'ssh-add', '-c', 'ed25519')
        works(a, 'ssh-add', 'ecdsa-256')
        fails(a, 'ssh-add', '-T', 'ed25519.pub', says='refused operation')
        works(a, 'ssh-add', '-T', 'ecdsa-256.pub')
    with Desk('--confirm', 'ask') as a:
        works(a, 'ssh-add', '-c', '-t', '1000', 'ed25519')
        for yes in (True, False):
            p = started(a, 'ssh-add', '-T', 'ed25519.pub')
            a.answer(a.waiting('SIGN confirm key 1 ' + re.escape(fingerprint('ed25519')))[0], yes)
            must((ended(p)[0] == 0) == yes, 'the answer does not count')
    return 'signs; "agent refused operation"; the same where the panel is asked'


@row('`-d` of an absent key, `-D`')
def _():
    with Desk() as a:
        for kind in KINDS:
            works(a, 'ssh-add', kind)
        works(a, 'ssh-add', '-d', 'rsa-2048')
        fails(a, 'ssh-add', '-d', 'rsa-2048', says='refused operation')
        must(len(works(a, 'ssh-add', '-l').splitlines()) == 6, 'not six')
        works(a, 'ssh-add', '-D', says='All identities removed')
        fails(a, 'ssh-add', '-l', says='no identities')
        a.logged(r'key \d+ is gone', 7)
    return 'refused; all gone'


@row('`-x`; then `-l`, `-L`, `-T`, add, `-d`, `-D`, `-x`; `-X` with a wrong passphrase; `-X`; `-X` again')
def _():
    with Desk('--confirm', 'yes') as a:
        works(a, 'ssh-add', 'ed25519')
        works(a, 'ssh-add', '-x', word='night', says='Agent locked')
        for command in (['-l'], ['-L'], ['-T', 'ed25519.pub'], ['ecdsa-256'], ['-c', '-t', '9', 'ecdsa-256'], ['-d', 'ed25519'], ['-D'], ['-x']):
            fails(a, 'ssh-add', *command, word='other')
        for word in ('wrong', 'nigh', 'nightx', 'n'):
            fails(a, 'ssh-add', '-X', word=word, says='Failed to unlock agent')
        works(a, 'ssh-add', '-X', word='night', says='Agent unlocked')
        fails(a, 'ssh-add', '-X', word='night', says='Failed to unlock agent')
        must(fingerprint('ed25519') in works(a, 'ssh-add', '-l'), 'the key is lost')
        works(a, 'ssh-add', '-T', 'ed25519.pub')
        must('night' not in a.log() and 'wrong' not in a.log(), 'a passphrase is logged')
    return 'each refused while locked; four wrong passphrases refused; opened once, the key still there; no passphrase in the log'


@row('`--gate no`: all refused. `--gate ask`: nothing happens before the yes')
def _():
    with Desk('--gate', 'no') as a:
        for command in (['ed25519'], ['-l'], ['-D'], ['-x']):
            fails(a, 'ssh-add', *command, word='night')
    with Desk('--gate', 'ask') as a:
        p = started(a, 'ssh-add', 'ed25519')
        q = a.waiting('ADD gate AddKeys')[0]
        listing = started(a, 'ssh-add', '-l')
        a.answer(a.waiting('LIST gate RequestKeys')[0], True)
        must(ended(listing) == (1, 'The agent has no identities.'), 'added before the yes')
        a.answer(q, True)
        must(ended(p)[0] == 0, 'not added')
        p = started(a, 'ssh-add', '-D')
        a.answer(a.waiting('REMOVE_ALL gate')[0], False)
        must(ended(p)[0] != 0, 'removed')
        a.always('LIST')
        must(fingerprint('ed25519') in works(a, 'ssh-add', '-l'), 'removed')
        a.panel.say('77 y')
        until(lambda: 'not open' in a.panel.error, 'no word about a wrong number')
    return 'refused; added with the yes, kept with the no'


@row('`-s`, `-e`, `-h`, a certificate beside its key')
def _():
    with Desk() as a:
        fails(a, 'ssh-add', '-s', '/usr/lib/none.so', word='1234', says='refused operation')
        fails(a, 'ssh-add', '-e', '/usr/lib/none.so', word='1234', says='refused operation')
        with open(at('known'), 'w') as f:
            f.write(f'gw.example {public("ed25519")}\n')
        fails(a, 'ssh-add', '-H', 'known', '-h', 'gw.example', 'ecdsa-256', says='refused operation')
        subprocess.run(['ssh-keygen', '-q', '-s', 'ed25519', '-I', 'id', '-n', 'user', 'ecdsa-256.pub'], cwd=base.folder, check=True)
        try:
            run(a, 'ssh-add', 'ecdsa-256')
        finally:
            os.unlink(at('ecdsa-256-cert.pub'))
        must(works(a, 'ssh-add', '-L').split()[:2] == public('ecdsa-256').split()[:2], 'not the plain key alone')
        works(a, 'ssh-add', '-T', 'ecdsa-256.pub')
    return 'refused (01: FAILURE); of the certificate only the plain key is taken'
