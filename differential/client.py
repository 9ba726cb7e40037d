#!/usr/bin/env python3
"""client.py ORACLE BIN PROGRAM INPUTS SEED OUT: random inputs to the client of the unchanged Rust (BIN/scripted) and to ours, answers compared.

PROGRAM is the command that runs our client: the program `exchanges`, which is given inputs with an answer and says which agree. OUT is the folder for the
report. For each input there are three answers: the Rust's; 01's, as the requests #101 and #102 change it, by the rules in crates/exchanges/make.py, which
are not our code; and ours. Ours must be 01's. The Rust's must be 01's too, or differ by one of ROWS, which the input tells: ../docs/DIFFERENCES.md has the same rows with reasons. What is no key
the Rust's key library says, asked by another call.
"""
import collections
import os
import random
import subprocess
import sys

HERE = os.path.dirname(os.path.abspath(__file__))
sys.dont_write_bytecode = True
sys.path[:0] = [os.path.join(HERE, '../crates/exchanges'), os.path.join(HERE, '../crates/report')]
import make
from make import CERTIFICATE, CONFIRM, MOST, NO_TEXTS, answer, frame_of, list_of, piece, signature_of, split
from recorded import public_blobs
from sections import Fault, need, number, string, take_string

COUNT, CONSTRAINTS, LONG, HASH = 'count before the constraints', 'over four constraints', 'payload over 262,144 bytes', 'hash 2 or 4, key not RSA'
NO_KEY, NO_CERTIFICATE, NESTS = 'blob is no key', 'type of a certificate in front of none', 'nine times -cert-v01@'
BEHIND, LONG_A, RSA_TYPE, COMMENT = 'bytes behind the key', 'Ed25519, A over 32 bytes', 'type rsa-sha2-256 or -512', 'comment handed out'
ROWS = (COMMENT, NO_KEY, NO_CERTIFICATE, NESTS, BEHIND, LONG_A, RSA_TYPE, COUNT, CONSTRAINTS, LONG, HASH)

RSA = string(b'ssh-rsa') + string(b'\x03') + string(b'\x00' + b'\xc1' * 64)
OPAQUE = string(b'a@b') + string(b'')
MARKER = b'-cert-v01@'


class Unlisted(Exception):
    pass


def hexed(b):
    return b.hex() or '-'


def wrote(line):
    """(frame, what the call answered)"""
    words = line.split(' ', 2)
    assert words[0] == 'wrote', line
    return bytes.fromhex(words[1]), words[2].split()


# ---- one input of each kind. `script` is what the Rust is given, one line of answer each; `rows` compares these with 01's and gives the rows by which
# they differ; `records` is what our client is given, with 01's answers.

class Written:
    """A request, and the room that our writer is lent."""
    def __init__(self, request, room):
        self.request, self.room = request, room
        message, first, second, flags, constraints = request
        words = ['confirm' if c is CONFIRM else f'life={c}' for c in constraints]
        call = {11: ['list', '05'], 13: ['sign', hexed(first), str(flags), hexed(second), '05'], 20: ['card', hexed(first), hexed(second), *words],
                21: ['uncard', hexed(first), hexed(second)], 22: ['lock', hexed(first)], 23: ['unlock', hexed(first)]}[message]
        self.script = [' '.join(['client', *call])]

    def rows(self, lines):
        ours = answer(frame_of, 1 << 32, *self.request)
        message, first, second, flags, constraints = self.request
        if lines[0] == 'not-utf8':
            # an id in the Rust is a text, by its type
            if make.is_text(first) or ours[0] not in (12, 18):
                raise Unlisted
            return
        rust = 0, wrote(lines[0])[0]
        if rust == ours:
            return
        # what the Rust is to write by the row: the flags, the count, or where 01 refuses, the payload as it stands
        by_flags = message == 13 and flags in (2, 4) and take_string(first, 0)[0] not in (b'ssh-rsa', b'rsa-sha2-256', b'rsa-sha2-512')
        counted = message == 20 and 1 <= len(constraints) <= 4
        payload = (make.counted_payload if constraints else make.payload_of)(message, first, second, 0 if by_flags else flags, constraints)
        if rust != (0, string(payload)):
            raise Unlisted
        if by_flags:
            yield HASH
        if counted:
            yield COUNT
        if ours[0] == 18:
            yield CONSTRAINTS
        elif ours[0] == 17:
            yield LONG
        elif ours[0] or not (by_flags or counted):
            raise Unlisted

    def records(self):
        return [(2 if self.request[0] == 20 else 1, make.made_request(self.room, *self.request))]


class Listed:
    """A reply to 11, and the index of the item that our reader is asked for."""
    def __init__(self, reply, index):
        self.reply, self.index = reply, index
        # each item once more in a list of its own, and as a key to sign with, which says how the key library reads it
        self.items = []
        if make.answer(list_of, reply)[0] == 0:
            for start, end, marked in list_of(reply):
                self.items.append((reply[start:end], marked, take_string(reply, end)[0]))
        self.script = [f'client list {hexed(reply)}']
        for blob, _, comment in self.items:
            self.script += [f'client list {make.reply_list((blob, comment)).hex()}', f'client sign {hexed(blob)} 0 - 05']

    def rows(self, lines):
        refusal, _ = answer(list_of, self.reply)
        rust = self.handed_out(lines[0])
        if refusal:
            if rust is not None:
                raise Unlisted
            return
        alone = [self.handed_out(line) for line in lines[1::2]]
        # the whole reply is its items, or an error where one of them is
        if rust != (None if None in alone else [one for items in alone for one in items]):
            raise Unlisted
        for (blob, marked, comment), items, key in zip(self.items, alone, lines[2::2]):
            yield from self.item_rows(blob, marked, comment, items, key)

    def item_rows(self, blob, marked, comment, items, key):
        if items is None:
            if blob.count(MARKER) > 8:
                yield NESTS
            elif not key.startswith('bad-key'):
                raise Unlisted
            else:
                yield NO_CERTIFICATE if marked else NO_KEY
            return
        (kept, certificate, handed), = items
        if handed != comment or certificate != marked:
            raise Unlisted
        if comment:
            yield COMMENT
        if kept != blob:
            yield changed_row(kept, blob)

    def handed_out(self, line):
        """[(blob, certificate, comment)], none where there is an error."""
        frame, result = wrote(line)
        assert frame == b'\x00\x00\x00\x01\x0b'
        if result[0] == 'err':
            return None
        items = [item.split(':') for item in result[2:]]
        assert len(items) == int(result[1])
        return [(bytes.fromhex(blob), kind == 'cert', bytes.fromhex(comment)) for kind, blob, comment in items]

    def records(self):
        return [(5, piece(self.reply) + make.list_expected(self.reply, self.index))]


FIELDS = {b'ssh-rsa': 2, b'rsa-sha2-256': 2, b'rsa-sha2-512': 2, b'ssh-dss': 4, b'ecdsa-sha2-nistp256': 2, b'ecdsa-sha2-nistp384': 2,
          b'ecdsa-sha2-nistp521': 2, b'sk-ssh-ed25519@openssh.com': 2, b'sk-ecdsa-sha2-nistp256@openssh.com': 3}


def end_of(blob):
    """Where the key ends: behind as many strings as its type has, one where it is not listed; a certificate has others around them."""
    kind, at = take_string(blob, 0)
    plain = kind.removesuffix(CERTIFICATE)
    steps = ['string'] * FIELDS.get(plain, FIELDS.get(plain + b'@openssh.com', 1))
    if plain != kind:
        # nonce; serial, type; id, principals; after, before; options, extensions, reserved, signature key, signature
        steps = ['string', *steps, 12, 'string', 'string', 16, *['string'] * 5]
    for step in steps:
        at = take_string(blob, at)[1] if step == 'string' else at + step
    return at


def changed_row(kept, blob):
    """Why the Rust hands out a blob that is not the reply's."""
    end = end_of(blob)
    if kept == blob[:end]:
        return BEHIND
    kind, at = take_string(blob, 0)
    if kind in (b'ssh-ed25519', b'sk-ssh-ed25519@openssh.com'):
        a, at = take_string(blob, at)
        if len(a) > 32 and kept == string(kind) + string(a[:32]) + blob[at:end]:
            return LONG_A
    if kind in (b'rsa-sha2-256', b'rsa-sha2-512') and kept == string(b'ssh-rsa') + blob[at:end]:
        return RSA_TYPE
    raise Unlisted


class Signed:
    """A reply to 13 with a key and a hash, and the room that our reader is lent."""
    def __init__(self, reply, key, hash, room):
        self.reply, self.key, self.hash, self.room = reply, key, hash, room
        self.script = [f'client sign {key.hex()} {hash} 64617461 {hexed(reply)}']

    def rows(self, lines):
        rust = make.russh_signature(self.reply, wrote(lines[0])[1])
        if rust == answer(signature_of, self.reply, self.hash, 1 << 32):
            return
        if self.key == RSA or rust != answer(signature_of, self.reply, 0, 1 << 32):
            raise Unlisted
        yield HASH

    def records(self):
        return [(7, piece(self.reply) + make.signature_expected(self.reply, self.hash, self.room))]


class Split:
    """Bytes of a connection. The server says by its replies where it cuts: a signature has the data, and the next frame must begin behind."""
    count = 0

    def __init__(self, stream):
        self.steps, at = [], 0
        while True:
            kind, payload = split(stream[at:])
            self.steps.append((kind, payload, stream[at:]))
            if kind != 2 or reply_to(payload) == 'close':
                break
            at += 4 + len(payload)
        Split.count += 1
        conn = f'c{Split.count}'
        self.script = [f'raw {conn} {hexed(stream)}', *[f'raw {conn} -'] * len(self.steps), f'drop {conn}']

    def rows(self, lines):
        """The Rust's lines have one or more replies each; behind them it waits, or has closed."""
        due = [('wait', 'close', reply_to(payload))[kind] for kind, payload, _ in self.steps]
        if replies(due) != replies(lines) or ('close' in due) != ('close' in lines) or not set(lines[len(due):]) <= {'wait', 'close'}:
            raise Unlisted
        return ()

    def records(self):
        return [(3, piece(rest) + make.frame_expected(rest)) for _, _, rest in self.steps]


class Framed:
    """A reply of some length to the Rust's client, which reads frames by a function of its own."""
    def __init__(self, length):
        self.reply = b'\x05'.ljust(length, b'a')
        self.script = [f'client list {hexed(self.reply)}']

    def rows(self, lines):
        if wrote(lines[0])[1] != (['ok', '0'], ['err', 'AgentProtocolError'])[split(string(self.reply))[0] == 1]:
            raise Unlisted
        return ()

    def records(self):
        return [(3, piece(string(self.reply)) + make.frame_expected(string(self.reply)))]


def replies(lines):
    return ''.join(line[6:] for line in lines if line.startswith('reply '))


def reply_to(payload):
    """What the server answers that holds the key HELD alone, for payloads that change nothing."""
    byte = payload[0] if payload else 0
    if byte == 11:
        return 'reply ' + string(make.reply_list((HELD, b''))).hex()
    if byte != 13:
        return 'reply 0000000105'
    try:
        blob, at = take_string(payload, 1)
        if blob != HELD:
            return 'reply 0000000105'
        data, at = take_string(payload, at)
        need(at + 4 <= len(payload))
        return 'reply ' + string(make.reply(string(b'ssh-ed25519') + string(data))).hex()
    except Fault:
        return 'close'


# ---- random inputs

LETTERS = ['', 'a', 'z', '-', '@', '\0', '\x7f', '\x80', '\u07ff', '\u0800', '\ud7ff', '\ue000', '\uffff', '\U00010000', '\U0010ffff']


def some(r, n):
    return r.randbytes(r.randrange(n + 1))


def text(r):
    return ''.join(r.choice(LETTERS) for _ in range(r.randrange(9))).encode()


def perhaps_text(r):
    """A text, one in four damaged."""
    b = text(r)
    if r.random() < 0.75:
        return b
    return damaged(r, b) if r.random() < 0.5 else b + r.choice(NO_TEXTS) + text(r)


def damaged(r, b):
    """One to three times: cut, a byte changed, put in or taken out, four bytes made another length."""
    b = bytearray(b)
    for _ in range(r.choice((1, 1, 1, 2, 3))):
        at, how = r.randrange(len(b) + 1), r.randrange(6)
        if how == 0:
            del b[at:]
        elif how == 1:
            b[at:at + 1] = bytes([r.choice((0, 1, 0x7f, 0x80, 0xff, r.randrange(256)))])
        elif how == 2:
            b[at:at] = some(r, 4)
        elif how == 3:
            del b[at:at + 1 + r.randrange(4)]
        elif how == 4 and at + 4 <= len(b):
            length = int.from_bytes(b[at:at + 4], 'big')
            b[at:at + 4] = number(r.choice((0, length - 1, length + 1, length * 2, len(b), MOST, 1 << 31, (1 << 32) - 1)) % (1 << 32))
        elif at < len(b):
            b[at] ^= 1 << r.randrange(8)
    return bytes(b)


def key(r):
    """A blob that the Rust hands out as it stands."""
    def mpint(n):
        return string(bytes([r.randrange(1, 128)]) + some(r, n))

    def point(n):
        return string(b'\x04' + r.randbytes(2 * n))
    return r.choice((
        lambda: string(b'ssh-ed25519') + string(r.randbytes(32)),
        lambda: RSA,
        lambda: string(b'ssh-rsa') + mpint(3) + mpint(64),
        lambda: string(b'ssh-dss') + mpint(9) + mpint(9) + mpint(9) + mpint(9),
        lambda: string(b'ecdsa-sha2-nistp256') + string(b'nistp256') + point(32),
        lambda: string(b'ecdsa-sha2-nistp384') + string(b'nistp384') + point(48),
        lambda: string(b'ecdsa-sha2-nistp521') + string(b'nistp521') + point(66),
        lambda: string(b'sk-ssh-ed25519@openssh.com') + string(r.randbytes(32)) + string(b'ssh:'),
        lambda: string(b'sk-ecdsa-sha2-nistp256@openssh.com') + string(b'nistp256') + point(32) + string(b'ssh:'),
        lambda: string(b'%c@example.com' % r.randrange(97, 123)) + string(some(r, 40)),
    ))()


def blob(r):
    """Of a list: a key, what lies near one, a certificate, its type in front of others, its mark many times, and bytes."""
    how = r.randrange(20)
    if how < 9:
        return key(r)
    if how < 12:
        return damaged(r, key(r))
    if how == 12:
        return key(r) + some(r, 3)
    if how == 13:
        return string(b'ssh-ed25519') + string(r.randbytes(32 + r.randrange(3)))
    if how == 14:
        return string(r.choice((b'rsa-sha2-256', b'rsa-sha2-512'))) + take_rest(RSA)
    if how == 15:
        return r.choice((CERTIFIED, CERTIFIED + some(r, 3), damaged(r, CERTIFIED)))
    if how == 16:
        return string(r.choice((b'', b'ssh-ed25519', b'ssh-rsa', perhaps_text(r))) + CERTIFICATE) + r.choice((b'', string(some(r, 9)), take_rest(key(r))))
    if how == 17:
        return string(b'a@b') + string(MARKER * r.randrange(7, 11))
    if how == 18:
        return string(perhaps_text(r)) + some(r, 20)
    return some(r, 40)


def take_rest(b):
    return b[take_string(b, 0)[1]:]


def list_input(r):
    reply = make.reply_list(*((blob(r), perhaps_text(r) if r.random() < 0.2 else text(r)) for _ in range(r.choice((0, 1, 1, 1, 2, 3, 6)))))
    how = r.random()
    if how < 0.3:
        reply = damaged(r, reply)
    elif how < 0.35:
        reply += some(r, 9)
    elif how < 0.4:
        reply = bytes([r.randrange(256)]) + reply[1:]
    count = len(answer(list_of, reply)[1] or [])
    return Listed(reply, r.choice((r.randrange(count + 1), r.randrange(count + 1), count, (1 << 32) - 1)))


TYPES = [b'ssh-rsa', b'rsa-sha2-256', b'rsa-sha2-512', b'ssh-ed25519', b'sk-ssh-ed25519@openssh.com', b'sk-', b'sk', b'', b'ecdsa-sha2-nistp256']


def signature_input(r):
    hash = r.choice((0, 0, 2, 4))
    kind = {2: b'rsa-sha2-256', 4: b'rsa-sha2-512'}.get(hash, b'ssh-ed25519') if r.random() < 0.5 else r.choice((*TYPES, perhaps_text(r), b'sk-' + perhaps_text(r)))
    inside = string(kind) + string(some(r, 80)) + r.choice((b'', b'', r.randbytes(5), some(r, 9)))
    if r.random() < 0.3:
        inside = damaged(r, inside)
    reply = make.reply(inside) + (some(r, 4) if r.random() < 0.1 else b'')
    if r.random() < 0.3:
        reply = damaged(r, reply)
    if r.random() < 0.1:
        reply = bytes([r.choice((5, 5, 6, 12, r.randrange(256)))]) + reply[1:]
    room = len(reply) + 3 if r.random() < 0.7 else r.randrange(len(reply) + 6)
    return Signed(reply, RSA if r.random() < 0.8 else key(r), hash, room)


def long_part(r, over):
    """So long that the payload is just within or beyond the limit."""
    return b'a' * (MOST - over + r.randrange(-2, 3))


def request_input(r):
    message, first, second, flags, constraints = r.choice((11, 13, 13, 20, 20, 20, 21, 22, 23)), b'', b'', 0, ()
    is_long = r.random() < 0.01
    if message in (22, 23):
        first = long_part(r, 5) if is_long else some(r, r.choice((9, 300)))
    if message == 13:
        first, flags = key(r), r.choice((0, 2, 4))
        second = long_part(r, 13 + len(first)) if is_long else some(r, r.choice((9, 300)))
    if message in (20, 21):
        first, second = perhaps_text(r), some(r, 9)
        if is_long and make.is_text(first):
            second = long_part(r, 9 + len(first))
    if message == 20:
        constraints = tuple(CONFIRM if r.random() < 0.5 else r.choice((0, 1, 0x01020304, (1 << 32) - 1, r.randrange(1 << 32))) for _ in range(r.choice((0, 1, 2, 3, 4, 5, 9))))
    size = len(answer(frame_of, 1 << 32, message, first, second, flags, constraints)[1] or b'')
    return Written((message, first, second, flags, constraints), size + 3 if r.random() < 0.7 else r.randrange(size + 6))


CHANGES = (17, 18, 19, 22, 23, 25)
ROOM = 262400    # that the program exchanges has for bytes


def split_input(r):
    """Frames that sign or are refused, one behind another; cut, a length changed, a length beyond the limit, a payload as long as it may be."""
    while True:
        payloads = [r.choice((b'', b'\x0b', bytes(r.randrange(1, 9)), signing(some(r, 40)), signing(some(r, 300)))) for _ in range(r.choice((0, 1, 1, 2, 3)))]
        if r.random() < 0.02:
            payloads.append(r.choice((b'\x00', signing(b'data'))).ljust(MOST + r.randrange(-1, 2), b'a'))
        frames = list(map(string, payloads))
        for i in range(len(frames)):
            if r.random() < 0.15:
                length = len(payloads[i]) + r.choice((-1, 1, -2, 2))
                frames[i] = number(r.choice((length % (1 << 32), MOST, MOST + 1, 1 << 24, (1 << 32) - 1))) + payloads[i]
        stream = b''.join(frames)
        if r.random() < 0.4:
            stream = stream[:r.randrange(len(stream) + 1)]
        one = Split(stream)
        if len(stream) <= ROOM and all(payload[:1] not in map(bytes, zip(CHANGES)) for _, payload, _ in one.steps):
            return one


def signing(data):
    return b'\x0d' + string(HELD) + string(data) + number(0)


MAKERS = {'splitter': split_input, 'writers': request_input, 'identities': list_input, 'signature': signature_input}


def smallest():
    """The smallest input of each row, and some that differ by none."""
    small = make.reply(string(b'') + string(b''))
    yield COMMENT, Listed(make.reply_list((OPAQUE, b'c')), 0)
    yield NO_KEY, Listed(make.reply_list((b'', b'')), 0)
    yield NO_CERTIFICATE, Listed(make.reply_list((string(CERTIFICATE), b'')), 0)
    yield NESTS, Listed(make.reply_list((string(b'a@b') + string(MARKER * 9), b'')), 0)
    yield None, Listed(make.reply_list((string(b'a@b') + string(MARKER * 8), b'')), 0)
    yield BEHIND, Listed(make.reply_list((OPAQUE + b'\x00', b'')), 0)
    yield LONG_A, Listed(make.reply_list((string(b'ssh-ed25519') + string(bytes(33)), b'')), 0)
    yield RSA_TYPE, Listed(make.reply_list((string(b'rsa-sha2-256') + string(b'\x01') * 2, b'')), 0)
    yield COUNT, Written((20, b'', b'', 0, (CONFIRM,)), 64)
    yield None, Written((20, b'', b'', 0, ()), 64)
    yield CONSTRAINTS, Written((20, b'', b'', 0, (CONFIRM,) * 5), 64)
    yield LONG, Written((22, b'a' * (MOST - 4), b'', 0, ()), MOST + 8)
    yield HASH, Written((13, OPAQUE, b'', 2, ()), 64)
    yield HASH, Signed(small, OPAQUE, 2, 64)
    yield None, Signed(small, OPAQUE, 0, 64)
    for length in (1, MOST - 1, MOST, MOST + 1, MOST + 2):
        yield None, Framed(length)


# ---- running

def answers(inputs):
    """The Rust's lines for each input."""
    script = f'fresh\nto a {ADDED.hex()}\n' + ''.join(line + '\n' for one in inputs for line in one.script)
    lines = iter(subprocess.run([scripted], input=script, capture_output=True, text=True, check=True).stdout.splitlines())
    assert next(lines) == 'reply 0000000106'
    found = [[next(lines) for line in one.script if not line.startswith('drop')] for one in inputs]
    assert next(lines, None) is None
    return found


def disagreeing(records):
    """The numbers of those in which our client does not answer as 01 says."""
    wrong, at = set(), 0
    while at < len(records):
        given, count = b'', 0
        while at + count < len(records):
            kind, record = records[at + count]
            section = bytes([kind]) + string(b'%d' % (at + count)) + string(b'') + number(1) + record
            if len(given) + len(section) > 250000:
                break
            given, count = given + section, count + 1
        said = subprocess.run([*program], input=given, capture_output=True, check=True).stdout.decode().splitlines()
        wrong |= {i for i in range(at, at + count) if f'{i} 1 of 1' not in said}
        assert len([line for line in said if ' of 1' in line]) == count, said[-1:]
        at += count
    return wrong


def shown(one, lines, why):
    return '\n'.join([why, *(f'    {line[:2000]}' for line in one.script), *(f'    Rust: {line[:2000]}' for line in lines)])


def compare(named):
    """named: (what, input). The rows of each, and what is not listed or is not 01's."""
    inputs = [one for _, one in named]
    found, bad, records, owners = [], [], [], []
    for one, lines in zip(inputs, answers(inputs)):
        try:
            found.append(list(one.rows(lines)))
        except (Unlisted, Fault):
            found.append([])
            bad.append(shown(one, lines, 'NOT LISTED'))
        for record in one.records():
            records.append(record)
            owners.append((one, lines))
    bad += [shown(*owners[i], 'NOT AS 01 SAYS, OURS') for i in sorted(disagreeing(records))]
    return found, bad


def main():
    r, counts, rows, bad = random.Random(int(seed)), collections.Counter(), collections.Counter(), []
    small = list(smallest())
    found, wrong = compare(small)
    bad += wrong + [f'SMALLEST of {row}: differs by {got}' for (row, _), got in zip(small, found) if set(got) != ({row} - {None})]
    bad += [f'NO SMALLEST of {row}' for row in ROWS if row not in [row for row, _ in small]]
    while sum(counts.values()) < int(inputs):
        batch = [(what, MAKERS[what](r)) for what in r.choices(list(MAKERS), (2, 3, 4, 3), k=min(400, int(inputs) - sum(counts.values())))]
        counts.update(what for what, _ in batch)
        found, wrong = compare(batch)
        rows.update(row for got in found for row in set(got))
        bad += wrong
    lines = [f'client, seed {seed}: {sum(counts.values())} inputs (' + ', '.join(f'{what} {counts[what]}' for what in MAKERS) + f'), {len(bad)} not listed']
    lines += [f'  {row}: {rows[row]}' for row in ROWS]
    os.makedirs(out, exist_ok=True)
    with open(os.path.join(out, 'client.txt'), 'w') as report:
        report.write('\n'.join(lines + bad) + '\n')
    print('\n'.join(lines + bad[:20]))
    return 1 if bad else 0


oracle, bins, program, inputs, seed, out = sys.argv[1:]
scripted, program = os.path.join(bins, 'scripted'), program.split()
CERTIFIED = make.certificate_in(make.exchanges_in(os.path.join(oracle, 'frames/extra.txt')))
HELD = public_blobs(os.path.join(oracle, 'frames'))['ed25519']
ADDED = next(request for request, _ in make.exchanges_in(os.path.join(oracle, 'frames/ed25519.txt')) if request[0] == 17)
sys.exit(main())
