"""Rows: what stays of keys and passphrases in the agent's memory. Where something is held, they show first that the scan finds it."""
import struct
import threading
import time

from .agents import Desk
from .base import must, row
from .frames import ADD, ADD_CONSTRAINED, FAILURE, LIST, LOCK, SUCCESS, UNLOCK, Raw, receive, string, strings
from .keys import FIVE, KINDS, blob_of, fields_of, make, many, private, sign_request, stored, wide
from .scan import holds, holds_once, is_clean
from .tools import WORD, ended, fails, started, works

OTHER = 'Gurken brauchen Schatten, Tomaten nicht'
WRONG = ['Bodenfeuchte 61 Prozent, Luefter aus.', 'Nebel um 6:40, Gitter zu', 'Schneelast auf dem Ostdach! ' * 30]


def words(*texts):
    return {f'passphrase {text[:12]}..': text.encode() for text in texts}


def used(a, kind, *options):
    """The key is added, and signs."""
    works(a, 'ssh-add', *options, kind)
    for flags in (0, 2, 4):
        must(Raw(a).ask(sign_request(kind, flags=flags))[0] == 14, 'not signed')


def kind_row(kind):
    def f():
        secrets = private(kind)
        with Desk() as a:
            works(a, 'ssh-add', kind)
            holds_once(a, stored(kind), 'added')
            used(a, kind)
            holds(a, stored(kind), 'held')
            works(a, 'ssh-add', '-d', kind)
            is_clean(a, secrets, 'after `-d`')
            used(a, kind)
            works(a, 'ssh-add', '-D')
            is_clean(a, secrets, 'after `-D`')
            used(a, kind)
            used(a, kind, '-t', '1000')
            works(a, 'ssh-add', '-d', kind)
            is_clean(a, secrets, 'replaced, then `-d`')
            used(a, kind, '-t', '1')
            time.sleep(2)
            is_clean(a, secrets, 'gone on time')
            used(a, kind, '-t', '2')
            works(a, 'ssh-add', '-x', word=WORD)
            holds(a, stored(kind), 'locked')
            holds_once(a, words(WORD), 'locked')
            time.sleep(3)
            is_clean(a, secrets, 'gone on time while locked')
            holds_once(a, words(WORD), 'locked')
            works(a, 'ssh-add', '-X', word=WORD)
            is_clean(a, {**secrets, **words(WORD)}, 'unlocked')
        return 'found at one place when added; nothing of it afterwards'
    return f


for k in FIVE:
    row(f'memory, {k}: after signatures and `-d`, `-D`, a replacement, `-t`, and `-t` while locked, nothing of its private half')(kind_row(k))


@row('memory: eight clients sign at once with keys of all kinds; `-D`')
def _():
    secrets = {f'{kind} {name}': secret for kind in KINDS for name, secret in private(kind).items()}
    with Desk() as a:
        for kind in KINDS:
            works(a, 'ssh-add', kind)
        wrong = []

        def client(n):
            r = Raw(a)
            for i in range(35):
                kind = KINDS[(n + i) % len(KINDS)]
                if r.ask(sign_request(kind, flags=2))[0] != 14:
                    wrong.append(kind)
        threads = [threading.Thread(target=client, args=(n,)) for n in range(8)]
        for t in threads:
            t.start()
        for t in threads:
            t.join()
        must(not wrong, f'not signed: {wrong}')
        holds(a, {f'{kind} {name}': secret for kind in KINDS for name, secret in stored(kind).items()}, 'held')
        works(a, 'ssh-add', '-D')
        is_clean(a, secrets, 'after `-D`')
    return '280 signatures; nothing of any private half'


def all_of(kinds, what):
    """These secrets of these keys, by name."""
    return {f'{kind} {name}': secret for kind in kinds for name, secret in what(kind).items()}


@row('memory: keys that move within the store, as others are removed, go on time, and are added again with a longer or shorter comment (raw)')
def _():
    with Desk() as a:
        def hold(kinds, gone, when):
            is_clean(a, all_of(gone, private), when)
            if kinds:
                holds_once(a, all_of(kinds, stored), when)
        short = ['ecdsa-384', 'rsa-2048']
        for kind in KINDS:
            works(a, 'ssh-add', *(['-t', '5'] if kind in short else []), kind)
        hold(KINDS, [], 'added')
        held = [kind for kind in KINDS if kind not in short]
        time.sleep(6)
        hold(held, short, 'two went on time')
        for text in (b'x' * 255, b'', b'a word'):
            must(Raw(a).ask(ADD + fields_of(held[0]) + string(text)) == SUCCESS, 'not added again')
            hold(held, [], f'a comment of {len(text)} bytes')
        while held:
            gone = held.pop(0)
            works(a, 'ssh-add', '-d', gone)
            hold(held, [gone], f'{gone} is removed')
    return 'those held are found at one place each, wherever they stand now; nothing of the others'


@row('memory: signatures and key checks are under way when `-D` and the LOCK land')
def _():
    kinds = ['rsa-4096', 'rsa-2048', 'ecdsa-521', 'ed25519']
    secrets = {f'{kind} {name}': secret for kind in kinds for name, secret in private(kind).items()}
    with Desk(log='--log=error') as a:
        for how in (['-D'], ['-x']):
            for kind in kinds:
                works(a, 'ssh-add', '-t', '3', kind)
            clients = [Raw(a) for _ in range(24)]
            for n, r in enumerate(clients):
                kind = kinds[n % 4]
                r.conn.settimeout(30)
                r.send(string(ADD + fields_of(kind) + string(b'')) if n % 3 == 0 and how == ['-x'] else string(sign_request(kind)))
            works(a, 'ssh-add', *how, word=WORD)
            for r in clients:
                receive(r.conn)
            if how == ['-x']:
                works(a, 'ssh-add', '-X', word=WORD)
                works(a, 'ssh-add', '-D')
            is_clean(a, {**secrets, **words(WORD)}, f'after {how[0]}')
    return 'nothing of any private half'


@row('memory: passphrases after `-X`, of refused `-x` and `-X`, after a no, and of a client that hung up while its question was open')
def _():
    with Desk() as a:
        works(a, 'ssh-add', 'ed25519')
        works(a, 'ssh-add', '-x', word=WORD)
        holds_once(a, words(WORD), 'locked')
        for word in WRONG:
            fails(a, 'ssh-add', '-X', word=word)
            is_clean(a, words(word), 'tried')
        fails(a, 'ssh-add', '-x', word=OTHER)
        is_clean(a, words(OTHER), 'locked already')
        works(a, 'ssh-add', '-X', word=WORD)
        is_clean(a, words(WORD), 'unlocked')
        fails(a, 'ssh-add', '-X', word=OTHER)
        is_clean(a, words(OTHER), 'open already')
    with Desk('--gate', 'no') as a:
        fails(a, 'ssh-add', '-x', word=WORD)
        is_clean(a, words(WORD), 'the gate says no')
    with Desk('--gate', 'ask') as a:
        for hangs_up in (False, True):
            p = started(a, 'ssh-add', '-x', word=WORD)
            q = a.waiting('Lock')[0]
            holds_once(a, words(WORD), 'waiting')
            if hangs_up:
                p.kill()
            else:
                a.answer(q, False)
            ended(p)
            is_clean(a, words(WORD), 'hung up' if hangs_up else 'answered no')
    return 'found at one place while locked and while the question waits; nothing afterwards'


def wrong_halves():
    """The private part of each kind beside a public part that is not its own; and what must not stay."""
    plant = blob_of('plant-0')[-32:]
    yield string(b'ssh-ed25519') + string(plant) + string(stored('ed25519')['seed'] + plant), private('ed25519')
    for kind in ('ecdsa-256', 'ecdsa-384', 'ecdsa-521'):
        make(kind, 'other-' + kind)
        name, curve, _, d = strings(fields_of(kind))
        yield b''.join(map(string, (name, curve, strings(blob_of('other-' + kind))[2], d))), private(kind)
    make('rsa-2048', 'other-rsa')
    name, _, *rest = strings(fields_of('rsa-2048'))
    yield b''.join(map(string, (name, strings(blob_of('other-rsa'))[2], *rest))), private('rsa-2048')


@row('memory: adds that were refused: by the key check, for a comment, a constraint or a cut, as 24 are held, for want of room, by the gate, '
     'while locked (raw)')
def _():
    with Desk() as a:
        for fields, secrets in wrong_halves():
            must(Raw(a).ask(ADD + fields + string(b'')) == FAILURE, 'taken')
            is_clean(a, secrets, 'refused by the key check')
        for kind in FIVE:
            for what, payload in (('comment', ADD + fields_of(kind) + string(b'x' * 256)), ('cut', ADD + fields_of(kind) + b'\0\0'),
                                  ('constraint', ADD_CONSTRAINED + fields_of(kind) + string(b'') + b'\x77')):
                must(Raw(a).ask(payload) == FAILURE, 'taken')
                is_clean(a, private(kind), f'{kind}, {what}')
        for held, refused in ((many()[:24], 'plant-1'), (wide()[:8] + ['rsa-4096'], 'rsa-3072')):
            works(a, 'ssh-add', *held)
            fails(a, 'ssh-add', refused)
            is_clean(a, private(refused), f'{len(held)} are held')
            works(a, 'ssh-add', '-D')
        works(a, 'ssh-add', '-x', word=WORD)
        for kind in FIVE:
            fails(a, 'ssh-add', kind)
            is_clean(a, private(kind), f'{kind}, while locked')
    with Desk('--gate', 'no') as a:
        for kind in FIVE:
            fails(a, 'ssh-add', kind)
            is_clean(a, private(kind), f'{kind}, the gate says no')
    return 'nothing of a private half'


def half_frames():
    """Frames that are cut off, and what must not stay of them."""
    lock = string(LOCK + string(WORD.encode()))
    yield 'LOCK without its last byte', lock[:-1], words(WORD)
    yield 'LOCK and half of another', string(LIST) + lock[:-5], words(WORD)
    yield 'a long frame', struct.pack('>I', 262144) + LOCK + string(WORD.encode()) + bytes(150000), words(WORD)
    for kind in FIVE:
        yield f'ADD {kind}', string(ADD + fields_of(kind) + string(b'comment'))[:-3], stored(kind)


@row('memory: a client hangs up in the middle of a LOCK or ADD frame, or is closed there by `--idle-timeout` (raw)')
def _():
    with Desk() as a:
        for what, part, secrets in half_frames():
            r = Raw(a)
            r.send(part)
            time.sleep(0.2)
            holds_once(a, secrets, what)
            r.conn.close()
            is_clean(a, secrets, what)
    with Desk('--idle-timeout', '1') as a:
        clients, all_secrets = [], {}
        for what, part, secrets in half_frames():
            all_secrets.update({f'{what} {name}': secret for name, secret in secrets.items()})
            clients.append(Raw(a))
            clients[-1].send(part)
        for r in clients:
            while r.conn.recv(65536):
                pass
        is_clean(a, all_secrets, 'timed out')
    return 'found at one place, in the half frame; nothing afterwards'


@row('memory: LOCK, UNLOCK and ADD in pieces of a byte, several in one, and while the client goes without its reply (raw)')
def _():
    lock, unlock = string(LOCK + string(WORD.encode())), string(UNLOCK + string(WORD.encode()))
    remove = string(b'\x13')
    with Desk() as a:
        r = Raw(a)
        for frame in (lock, unlock):
            for b in frame:
                r.send(bytes([b]))
                time.sleep(0.001)
            must(receive(r.conn) == SUCCESS, 'not landed')
            if frame is lock:
                # a call on each of these alone, and none behind it
                for part in (string(LIST), string(LIST)[:4], b'\0\4\0\1'):
                    other = Raw(a)
                    other.send(part)
                    time.sleep(0.1)
                    holds_once(a, words(WORD), f'locked, then {part!r}')
                    other.conn.close()
        is_clean(a, words(WORD), 'in pieces')
        for kind in FIVE:
            add = string(ADD + fields_of(kind) + string(b'comment'))
            r = Raw(a)
            r.send(string(LIST) + add + remove + lock + unlock + string(LIST))
            got = b''
            while got.count(SUCCESS) < 4 or not got.endswith(string(b'\x0c\0\0\0\0')):
                got += r.conn.recv(4096)
            is_clean(a, {**private(kind), **words(WORD)}, f'{kind}, several in one, the client still there')
            r = Raw(a)
            r.send(add + remove)
            r.conn.close()
            time.sleep(0.5)
            works(a, 'ssh-add', '-D')
            is_clean(a, private(kind), f'{kind}, a client that does not wait')
    return 'found at one place while locked, whatever others send; nothing afterwards'
