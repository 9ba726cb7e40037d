#!/usr/bin/env python3
"""Writes the input of the program exchanges, and prints what the program must write where every vector agrees:

    python3 make.py FRAMES SCRIPTS stdin > stdout

FRAMES is the folder of frames recorded from OpenSSH 9.2p1 (Debian 12), SCRIPTS that of the scripts that were run on russh 0.65.0: X.txt has
its calls, X.out what it answered. A line of FRAMES is `> ..` for a request and `< ..` for its answer, in hex without the length. A line
`client ..` of a script is a call of russh's client, and gives `wrote FRAME ok ..` or `wrote FRAME err ..`. cards.txt, beside this script, has what
ssh-add sends for smartcards (cards.py). The same folders give the same input, byte for byte.

Where the expectations come from:
- examples: document 01, word for word; the smartcard's as #102 has it. "01" below is document 01 as the requests #101 and #102 change it.
- recorded: a request's frame is what ssh-add, ssh-keygen or ssh sent, and its parts are cut out of it; a list's blobs are those of the
  .pub files; a signature is all that ssh-agent sent behind the 14, and the hash is the flags of its request. Of cards.txt the parts are
  the command's words and the PIN that it was given.
- russh: what it wrote and answered. Its errors have fewer kinds than 01's refusals: a protocol error is 13 for a reply of type 14 and 15 for
  others. Where 01 decides otherwise, 01 is expected: these inputs stand in DIFFERS with both answers, and any other that differs ends this script.
- made, short, long and damaged: the readers and writers below, written from document 01 and not from the Rattle code. They have to agree
  with every expectation above too. The place of a fault is theirs everywhere: nothing recorded has one.

The input has the form that ../report/sections.py says, with these records:
  1 request              REQUEST, WRITING
  2 smartcard            REQUEST with the number of constraints as its flags, four constraints (each limited (flag), seconds (number)), WRITING
  3, 4 splitter          BYTES, kind (byte: 0 more needed, 1 too long, 2 a frame), payload (PIECE)
  5, 6 list              BYTES, WHY, count, index (numbers), and of the item WHY, from, to (numbers), certificate (flag)
  7, 8 signature         BYTES, hash (number), WRITING
BYTES: a PIECE in kinds 3, 5 and 7, a CHANGE in kinds 4, 6 and 8. PIECE: bytes (string) and how many letters `a` stand behind them (number).
REQUEST: message (byte), two parts (PIECE), flags (number). WRITING: room of the output (number), WHY, and
what is written: its front (PIECE) and tail (string). WHY: refusal (byte, 0 where there is none), place of its fault (number, 0 where it has none).
"""
import itertools
import os
import sys

sys.path.insert(0, os.path.join(os.path.dirname(os.path.abspath(__file__)), '../report'))
from cards import kept
from recorded import public_blobs
from sections import Fault, change, flag, near, need, number, string, take_string, write

MOST = 262144
CERTIFICATE = b'-cert-v01@openssh.com'
CONFIRM = None
MANY = b'a' * 64


# ---- the rules of document 01

class Refusal(Exception):
    """By its number, and the place of its fault, 0 where it has none."""
    def __init__(self, number, place=0):
        self.number, self.place = number, place


def refuse_unless(test, number):
    if not test:
        raise Refusal(number)


def text_end(b):
    """Where the longest part from the start that is UTF-8 ends."""
    try:
        b.decode('utf-8')
        return len(b)
    except UnicodeDecodeError as error:
        return error.start


def is_text(b):
    return text_end(b) == len(b)


def take_text(b, at):
    v, at = take_string(b, at)
    need(is_text(v))
    return v, at


# Of a payload: a fault is 12, at the place of the length, of the text's first byte that is not UTF-8, or of the number.

def string_in(payload, at):
    try:
        return take_string(payload, at)
    except Fault:
        raise Refusal(12, at)


def text_in(payload, at):
    v, end = string_in(payload, at)
    if not is_text(v):
        raise Refusal(12, at + 4 + text_end(v))
    return v, end


def bytes_in(payload, at, count):
    if at + count > len(payload):
        raise Refusal(12, at)
    return payload[at:at + count], at + count


def split(b):
    """(kind, payload)"""
    if len(b) < 4:
        return 0, b''
    length = int.from_bytes(b[:4], 'big')
    if length > MOST:
        return 1, b''
    if len(b) < 4 + length:
        return 0, b''
    return 2, b[4:4 + length]


def constraint(c):
    return b'\x02' if c is CONFIRM else b'\x01' + number(c)


def payload_of(message, first, second, flags, constraints):
    """A request's payload. Constraints are seconds, or CONFIRM."""
    if message == 11:
        return b'\x0b'
    if message == 13:
        return b'\x0d' + string(first) + string(second) + number(flags)
    if message in (22, 23):
        return bytes([message]) + string(first)
    refuse_unless(len(constraints) <= 4, 18)
    if not is_text(first):
        raise Refusal(12, text_end(first))
    if message == 20 and constraints:
        return b'\x1a' + string(first) + string(second) + b''.join(map(constraint, constraints))
    return bytes([message]) + string(first) + string(second)


def frame_of(room, *request):
    payload = payload_of(*request)
    refuse_unless(len(payload) <= MOST, 17)
    refuse_unless(4 + len(payload) <= room, 11)
    return string(payload)


def list_of(payload):
    """The items, each (from, to, certificate)."""
    if payload[:1] != b'\x0c':
        return []
    count, at = bytes_in(payload, 1, 4)
    items = []
    for _ in range(int.from_bytes(count, 'big')):
        blob, end = string_in(payload, at)
        items.append((at + 4, end, is_certificate(blob)))
        _, at = text_in(payload, end)
    return items


def is_certificate(blob):
    try:
        return take_text(blob, 0)[0].endswith(CERTIFICATE)
    except Fault:
        return False


def item_of(payload, index):
    items = list_of(payload)
    refuse_unless(index < len(items), 16)
    return items[index]


def signature_of(payload, hash, room):
    refuse_unless(payload[:1] != b'\x05', 14)
    refuse_unless(payload[:1] == b'\x0e', 15)
    _, end = string_in(payload, 1)
    inside = payload[:end]
    t, at = text_in(inside, 5)
    refuse_unless(hash == 0 or (hash, t) in ((2, b'rsa-sha2-256'), (4, b'rsa-sha2-512')), 13)
    sig, at = string_in(inside, at)
    more = b''
    if t.startswith(b'sk-'):
        flags, at = bytes_in(inside, at, 1)
        counter, at = bytes_in(inside, at, 4)
        more = flags + counter
    written = number(len(t) + len(sig) + 8 + len(more)) + string(t) + string(sig) + more
    refuse_unless(len(written) <= room, 11)
    return written


# ---- records

def answer(rule, *args):
    """(refusal, what is answered)"""
    try:
        return 0, rule(*args)
    except Refusal as refusal:
        return refusal.number, None


def reason(rule, *args):
    """Its refusal in a record."""
    try:
        rule(*args)
        return bytes([0]) + number(0)
    except Refusal as refusal:
        return bytes([refusal.number]) + number(refusal.place)


def piece(b):
    """As bytes, and the letters behind them where there are many."""
    front = b.rstrip(b'a') if b.endswith(MANY) else b
    return string(front) + number(len(b) - len(front))


def writing(room, why, written):
    """What is written has its tail behind the last of many letters."""
    written = written or b''
    end = written.rindex(MANY) + len(MANY) if MANY in written else len(written)
    return number(room) + why + piece(written[:end]) + string(written[end:])


def request_record(room, refusal, frame, message, first=b'', second=b'', flags=0, constraints=()):
    request = room, message, first, second, flags, constraints
    assert (refusal, frame) == answer(frame_of, *request)
    parts = bytes([message]) + piece(first) + piece(second)
    expected = writing(room, reason(frame_of, *request), frame)
    if message != 20:
        return parts + number(flags) + expected
    four = (*constraints, CONFIRM, CONFIRM, 7, CONFIRM)[:4]
    limits = b''.join(flag(c is not CONFIRM) + number(c or 0) for c in four)
    return parts + number(len(constraints)) + limits + expected


def made_request(room, *request):
    return request_record(room, *answer(frame_of, room, *request), *request)


def whole_request(*request):
    """With the room that its frame takes, and three bytes more."""
    frame = string(payload_of(*request))
    return request_record(len(frame) + 3, 0, frame, *request)


def frame_expected(b):
    kind, payload = split(b)
    return bytes([kind]) + piece(payload)


def list_expected(payload, index):
    start, end, certificate = answer(item_of, payload, index)[1] or (0, 0, False)
    entry = reason(item_of, payload, index) + number(start) + number(end) + flag(certificate)
    return reason(list_of, payload) + number(len(answer(list_of, payload)[1] or [])) + number(index) + entry


def signature_expected(payload, hash, room):
    return number(hash) + writing(room, reason(signature_of, payload, hash, room), answer(signature_of, payload, hash, room)[1])


def list_records(payload):
    """For each item, and for the index behind the last."""
    return [piece(payload) + list_expected(payload, index) for index in range(len(answer(list_of, payload)[1] or []) + 1)]


def signature_record(payload, hash, refusal, written):
    room = len(written or b'') + 3
    assert (refusal, written) == answer(signature_of, payload, hash, room)
    return piece(payload) + signature_expected(payload, hash, room)


def damaged(base, how, expected, *args):
    c, b = change(base, *how)
    return c + expected(b, *args)


def cut(base, length):
    return length, 0, base[0]


def as_it_is(base):
    return cut(base, len(base))


# ---- recorded

def exchanges_in(path):
    """(request, reply) payloads."""
    request = None
    with open(path) as lines:
        for line in lines:
            if line.startswith('> '):
                request = bytes.fromhex(line[2:])
            elif line.startswith('< '):
                yield request, bytes.fromhex(line[2:])


def parts_of(payload):
    """The parts of a recorded request that there is a writer for."""
    message = payload[0]
    if message == 11:
        return 11, b'', b'', 0, ()
    first, at = take_string(payload, 1)
    if message in (22, 23):
        assert at == len(payload)
        return message, first, b'', 0, ()
    second, at = take_string(payload, at)
    if message == 13:
        assert at + 4 == len(payload)
        return 13, first, second, int.from_bytes(payload[at:], 'big'), ()
    assert at == len(payload)
    return message, first, second, 0, ()


def recorded_request(payload):
    frame = string(payload)
    return request_record(len(frame) + 3, 0, frame, *parts_of(payload))


def recorded_list(payload, blobs):
    items = list_of(payload)
    assert all(payload[start:end] in blobs.values() and not certificate for start, end, certificate in items)
    return list_records(payload)


def recorded_signature(request, reply):
    flags = parts_of(request)[3]
    return signature_record(reply, flags, *((14, None) if reply == b'\x05' else (0, reply[1:])))


# ---- smartcards

def card_parts(sent):
    """What a command was to send: seconds before Confirm, as ssh-add has them; 0 seconds are none to it."""
    words = iter(sent.words[1:])
    card, life, confirm = '', 0, ()
    for word in words:
        if word == '-s':
            card = next(words)
        elif word == '-t':
            life = int(next(words))
        else:
            assert word == '-c'
            confirm = CONFIRM,
    return 20, card.encode(), sent.pin.encode(), 0, ((life,) if life else ()) + confirm


def card_record(sent):
    frame = string(sent.payload)
    return request_record(len(frame) + 3, 0, frame, *card_parts(sent))


def card_sections():
    names = {(): 'no limit', (True,): 'Confirm', (False,): 'a lifetime', (False, True): 'a lifetime and Confirm'}
    sent = [(names[tuple(c is CONFIRM for c in card_parts(one)[4])], card_record(one)) for one in kept()]
    for name in names.values():
        yield 2, f'ssh-add -s: {name}', b'', [record for what, record in sent if what == name]


# ---- russh

def counted_payload(message, first, second, flags, constraints):
    """As russh writes constraints, however many: their number before them."""
    return b'\x1a' + string(first) + string(second) + number(len(constraints)) + b''.join(map(constraint, constraints))


def calls_in(folder, name):
    """(words, frame, answer) of the client's calls in a script."""
    def lines(end):
        with open(os.path.join(folder, name + end)) as file:
            return file.read().splitlines()
    asked = [line.split() for line in lines('.txt') if line.split()[:1][0] in ('to', 'raw', 'ans', 'client', 'say')]
    for words, answered in zip(asked, lines('.out'), strict=True):
        if words[0] == 'client':
            wrote, frame, *rest = answered.split(' ', 2)
            assert wrote == 'wrote'
            yield words[1:], bytes.fromhex(frame), rest[0].split()


def unhex(word):
    return b'' if word == '-' else bytes.fromhex(word)


def russh_request(words):
    """The request that a call is to write, with the flags that the caller's hash stands for."""
    call, *args = words
    if call == 'list':
        return 11, b'', b'', 0, ()
    if call == 'sign':
        return 13, unhex(args[0]), unhex(args[2]), int(args[1]), ()
    if call in ('lock', 'unlock'):
        return {'lock': 22, 'unlock': 23}[call], unhex(args[0]), b'', 0, ()
    constraints = tuple(CONFIRM if c == 'confirm' else int(c[5:]) for c in args[2:])
    return {'card': 20, 'uncard': 21}[call], unhex(args[0]), unhex(args[1]), 0, constraints


def russh_refusal(reply, error):
    if error.startswith('AgentFailure'):
        return 14
    if error.startswith('AgentProtocolError'):
        return 13 if reply[:1] == b'\x0e' else 15
    return 12


def russh_list(reply, result):
    if result[0] == 'err':
        return russh_refusal(reply, result[1]), None
    items = [item.split(':') for item in result[2:]]
    assert len(items) == int(result[1])
    return 0, [(unhex(blob), kind == 'cert') for kind, blob, _ in items]


def russh_signature(reply, result):
    if result[0] == 'err':
        return russh_refusal(reply, result[1]), None
    return 0, unhex(result[1])


def blobs_of(reply):
    return [(reply[start:end], certificate) for start, end, certificate in list_of(reply)]


def inputs_of(words, frame, result):
    """What a call gives a writer or reader of 01: (kind, input, russh's answer, 01's)."""
    request = russh_request(words)
    yield 2 if request[0] == 20 else 1, request, (0, frame), answer(frame_of, MOST + 4, *request)
    if words[0] == 'list':
        reply = unhex(words[1])
        yield 5, reply, russh_list(reply, result), answer(blobs_of, reply)
    if words[0] == 'sign':
        reply = unhex(words[4])
        yield 7, (reply, request[3]), russh_signature(reply, result), answer(signature_of, reply, request[3], MOST)


P256 = string(b'ecdsa-sha2-nistp256') + string(b'nistp256') + string(b'\x04' + b'\x01' * 64)
NO_TYPE = string(b'ssh-foo') + string(b'x')
NO_CERTIFICATE = string(b'ssh-ed25519' + CERTIFICATE) + string(b'x')
PLAIN = string(b'xy') + string(b'\x01')


def listed(blob):
    return b'\x0c' + number(1) + string(blob) + string(b'c')


# Where 01 decides otherwise: name, kind, input, russh's answer, 01's. docs/DIFFERENCES.md has the reasons. These differ, and no other input may.
DIFFERS = [
    ('two bytes that are no key', 5, listed(b'xx'), (12, None), (0, [(b'xx', False)])),
    ('an empty blob', 5, listed(b''), (12, None), (0, [(b'', False)])),
    ('a type that nobody knows', 5, listed(NO_TYPE), (12, None), (0, [(NO_TYPE, False)])),
    ('a type of a certificate in front of none', 5, listed(NO_CERTIFICATE), (12, None), (0, [(NO_CERTIFICATE, True)])),
    ('two bytes behind the key', 5, listed(P256 + b'zz'), (0, [(P256, False)]), (0, [(P256 + b'zz', False)])),
    ('a count before one constraint', 2, (20, b'a', b'', 0, (CONFIRM,)),
     (0, bytes.fromhex('0000000f1a0000000161000000000000000102')), (0, bytes.fromhex('0000000b1a00000001610000000002'))),
    ('a count before four constraints', 2, (20, b'a', b'', 0, (5, CONFIRM, CONFIRM, 7)),
     (0, bytes.fromhex('0000001a1a00000001610000000000000004010000000502020100000007')),
     (0, bytes.fromhex('000000161a000000016100000000010000000502020100000007'))),
    ('five constraints', 2, (20, b'a', b'', 0, (CONFIRM,) * 5), (0, bytes.fromhex('000000131a000000016100000000000000050202020202')), (18, None)),
    ('hash 2 for a key that is not RSA', 1, (13, P256, b'', 2, ()),
     (0, string(b'\x0d' + string(P256) + string(b'') + number(0))), (0, string(b'\x0d' + string(P256) + string(b'') + number(2)))),
    ('hash 2 for a key that is not RSA', 7, (b'\x0e' + string(PLAIN), 2), (0, string(PLAIN)), (13, None)),
]


def russh_records(kind, given, expected):
    if kind == 5:
        return list_records(given)
    if kind == 7:
        return [signature_record(*given, *expected)]
    return [request_record(len(expected[1] or b'') + 3, *expected, *given)]


def russh_sections(folder):
    inputs = [i for name in ('client', 'beyond') for call in calls_in(folder, name) for i in inputs_of(*call)]
    for one in inputs:
        _, _, rust, ours = one
        assert rust == ours or one in [tuple(d[1:]) for d in DIFFERS], ('russh differs, and is not listed', one)
    for name, *one in DIFFERS:
        assert tuple(one) in inputs and one[2] != one[3], ('listed, and does not differ', name)
    names = {1: 'request', 2: 'smartcard', 5: 'list', 7: 'signature'}
    for kind, name in names.items():
        yield kind, 'russh ' + name, b'', [r for k, given, rust, ours in inputs if k == kind and rust == ours for r in russh_records(k, given, ours)]
    for name, kind, given, _, ours in DIFFERS:
        yield kind, f'russh differs: {names[kind]}, {name}', b'', russh_records(kind, given, ours)


# ---- 01's examples

def example_sections():
    confirmed = bytes.fromhex('0000000B 1A 00000001 61 00000000 02'.replace(' ', ''))
    reply = bytes.fromhex('0E 0000000B 00000002 7879 00000001 01'.replace(' ', ''))
    prefixes = [(b'\x00\x04\x00\x00', 0), (b'\x00\x04\x00\x01', 1)]
    assert all(split(prefix) == (kind, b'') for prefix, kind in prefixes)
    yield 2, 'example smartcard', b'', [request_record(15, 0, confirmed, 20, b'a', b'', 0, (CONFIRM,))]
    yield 7, 'example signature', b'', [signature_record(reply, 0, 0, reply[1:]), signature_record(reply, 2, 13, None)]
    yield 3, 'example prefix', b'', [piece(prefix) + frame_expected(prefix) for prefix, _ in prefixes]


# ---- made

TEXTS = [bytes.fromhex(h) for h in ('', '61', '00', '7f', 'c3a9', 'e282ac', 'f09f9880', 'f48fbfbf', 'efbfbf', 'ed9fbf')]
NO_TEXTS = [bytes.fromhex(h) for h in ('80', 'ff', 'c3', '61ff', 'c080', 'e08080', 'eda080', 'f0808080', 'f4908080', 'e282', 'f09f98')]


def made_frames():
    """Around a length of 0, of 1, of 256, of the most and of all that four bytes can say: cut, whole, and with more behind."""
    found = [b'', b'\x00', bytes(3), bytes(4), bytes(5), bytes(9)]
    for length in (1, 2, 255, 256, 257, 65536, MOST - 1, MOST):
        prefix = number(length)
        found += [prefix[:3], prefix, prefix + b'\x0b', *(prefix + b'\x0b' + b'a' * (length + n) for n in (-2, -1, 0, 3) if length + n >= 0)]
    for length in (MOST + 1, MOST + 2, 0x00050000, 0x01000000, 0x7fffffff, 0x80000000, 0xffffffff):
        prefix = number(length)
        found += [prefix[:3], prefix, prefix + b'\x0b']
    found += [number(MOST + 1) + b'a' * (MOST + n) for n in (0, 1, 2)]
    return found


def made_requests():
    yield 11, b'', b'', 0, ()
    for message in (22, 23):
        for passphrase in [*TEXTS, *NO_TEXTS, bytes(range(256)), b'a' * 1025]:
            yield message, passphrase, b'', 0, ()
    for flags in (0, 1, 2, 3, 4, 6, 255, 256, 0x01020304, 0x80000000, 0xffffffff):
        yield 13, b'', b'', flags, ()
        yield 13, b'\x00\x01', b'\xff' * 3, flags, ()
    for first, second in itertools.product(TEXTS, (b'', b'1234', b'\xff\x00')):
        yield 21, first, second, 0, ()


def made_cards():
    """Up to four constraints out of two, and some more."""
    for n in range(5):
        for constraints in itertools.product((CONFIRM, 0x01020304), repeat=n):
            yield 20, b'a', b'', 0, constraints
    for first, second in itertools.product(TEXTS, (b'', b'1234', b'\xff\x00')):
        yield 20, first, second, 0, ()
        yield 20, first, second, 0, (0xffffffff, CONFIRM, 0)


def refused_requests():
    """(room, request): too short by one and by all, ids that are no text."""
    for request in [(11, b'', b'', 0, ()), (13, b'b', b'dd', 2, ()), (21, b'a', b'1', 0, ()), (22, b'ab', b'', 0, ()), (23, b'', b'', 0, ())]:
        for room in range(len(payload_of(*request)) + 6):
            yield room, *request
    for first in NO_TEXTS:
        yield 64, 21, first, b'', 0, ()
        yield 0, 21, first, b'', 0, ()


def refused_cards():
    """(room, request): the same, and five and more constraints, whatever else is wrong."""
    for request in [(20, b'a', b'1', 0, ()), (20, b'a', b'', 0, (CONFIRM,)), (20, b'a', b'', 0, (5, CONFIRM, CONFIRM, 7))]:
        for room in range(len(payload_of(*request)) + 6):
            yield room, *request
    for first, n in itertools.product(NO_TEXTS, (0, 1, 4, 5)):
        yield 64, 20, first, b'', 0, (CONFIRM,) * n
        yield 0, 20, first, b'', 0, (CONFIRM,) * n
    for n in (5, 6, 255, 256):
        yield 64, 20, b'a', b'', 0, (CONFIRM,) * n


def long_requests():
    """(room, request): payloads around the most, in either part, in rooms around what they take, and in none."""
    for message, over in ((22, 5), (23, 5), (13, 13), (21, 9)):
        most = MOST - over
        for n in (255, 256, 65535, 65536, most - 1, most, most + 1, MOST, MOST + 1):
            for room in (0, n + over + 3, n + over + 4, n + over + 5):
                yield room, message, b'a' * n, b'', 2, ()
                if message in (13, 21):
                    yield room, message, b'x', b'a' * (n - 1), 2, ()
    yield 64, 21, b'\xff', b'a' * MOST, 0, ()
    yield 64, 21, b'\xff' + b'a' * MOST, b'', 0, ()


def long_cards():
    """(room, request): the same with constraints; and each refusal before the next."""
    for constraints, over in (((), 9), ((CONFIRM,), 10), ((1, 2, 3, 4), 29)):
        most = MOST - over
        for n in (most - 1, most, most + 1, MOST, MOST + 1):
            for room in (0, n + over + 3, n + over + 4):
                yield room, 20, b'a' * n, b'', 0, constraints
                yield room, 20, b'x', b'a' * (n - 1), 0, constraints
    for constraints in ((), (CONFIRM,), (CONFIRM,) * 5):
        yield 0, 20, b'\xff', b'a' * MOST, 0, constraints
        yield 0, 20, b'x', b'a' * MOST, 0, constraints
        yield 0, 20, b'x', b'', 0, constraints


def reply_list(*items):
    return b'\x0c' + number(len(items)) + b''.join(string(blob) + string(comment) for blob, comment in items)


def made_lists():
    """What is no list, comments that are texts and none, and a count that the items do not bear out."""
    found = [b'', b'\x00', b'\x05', b'\x06', b'\x0b', b'\x0d', b'\x0e', b'\x0d' + reply_list((b'x', b''))[1:]]
    found += [b'\x0c' + number(0)[:n] for n in range(5)] + [reply_list(), reply_list() + b'\xff\xff', reply_list((b'', b''))]
    found += [reply_list((b'x', comment)) for comment in TEXTS + NO_TEXTS]
    found += [reply_list((b'x', b''), (b'y', comment), (b'z', b'')) for comment in NO_TEXTS]
    two = reply_list((b'x', b'c'), (b'', b''))
    found += [b'\x0c' + number(n) + two[5:] + more for n in (0, 1, 2, 3, 0xffffffff) for more in (b'', b'\x00' * 7, b'\x00' * 8)]
    return found + [reply_list((b'x', b''), (b'y', b'a' * 200000))]


def made_marks():
    """Blobs whose first string ends as a certificate's type does, or nearly; that stands cut, or at another place, or is no text."""
    types = [CERTIFICATE, b'x' + CERTIFICATE, b'ssh-ed25519' + CERTIFICATE, b'\xc3\xa9' + CERTIFICATE, CERTIFICATE + CERTIFICATE]
    types += [CERTIFICATE[1:], CERTIFICATE[:-1], CERTIFICATE + b'x', CERTIFICATE.upper(), b'ssh-ed25519', b'', CERTIFICATE + b' ' + CERTIFICATE[1:]]
    types += [b'ssh-rsa-cert-v00@openssh.com', b'ssh-rsa-cert-v01@openssh.org', b'ssh-rsa_cert-v01@openssh.com']
    types += [no_text + CERTIFICATE for no_text in NO_TEXTS]
    blobs = [string(t) + more for t in types for more in (b'', b'\x00')]
    whole = string(b'ssh-rsa' + CERTIFICATE)
    blobs += [whole[:n] for n in (0, 1, 3, 4, 5, len(whole) - 1)] + [whole[4:], b'\x00' + whole, string(b'ssh-rsa') + whole]
    blobs += [number(n) + whole[4:] for n in (0, 27, 29, 0x1c000000, 0xffffffff)]
    return [reply_list((blob, b'')) for blob in blobs]


def made_replies():
    """(payload, hash): other types of reply; each hash with each type; bytes left over; and what is unfit as well as cut or no text."""
    found = [(p, 0) for p in (b'', b'\x00', b'\x05', b'\x05\x00', b'\x06', b'\x0c', b'\x0d', b'\x0f', b'\x0e', b'\x0e\x00\x00\x00\x00')]
    types = [b'', b'ssh-rsa', b'rsa-sha2-256', b'rsa-sha2-512', b'rsa-sha2-25', b'rsa-sha2-2566', b'RSA-SHA2-256', b'rsa-sha2-384', b'ssh-ed25519',
             b'sk-', b'sk-ssh-ed25519@openssh.com', b'sk', b'SK-x', b'xsk-', b'sk-\xc3\xa9', b'\xc3\xa9']
    for t, hash in itertools.product(types, (0, 1, 2, 4, 6, 0x02000000, 0xffffffff)):
        found.append((reply(string(t) + string(b'sig') + b'\x05\x00\x00\x00\xff'), hash))
    for t, hash in itertools.product([b'ssh-rsa', b'rsa-sha2-256', b'sk-x', b'\xff', b'sk-\xff'], (0, 2, 4, 1)):
        front = string(t) + string(b'sig')
        found += [(reply(front + more) + behind, hash) for more in (b'', bytes(4), bytes(5), bytes(6)) for behind in (b'', b'\x00')]
        found += [(reply(front[:-1]), hash), (reply(string(t)), hash), (reply(string(t) + b'\xff\xff\xff\xff'), hash), (reply(front)[:-1], hash)]
    return found


def reply(signature):
    return b'\x0e' + string(signature)


# ---- damaged

def around(base, places):
    """One up and one down."""
    return [(len(base), *how) for place in places for how in near([base[place] - 1, base[place] + 1], base, place)]


def to_edges(base, places):
    """To what is no text, and to zero."""
    return [(len(base), *how) for place in places for how in near([0x00, 0x80, 0xff], base, place)]


def cuts(base):
    return [cut(base, n) for n in range(len(base))]


def damaged_lists(base, places, indices):
    """Those bytes changed, and a cut after every byte, where the index is now and then behind the items."""
    hows = around(base, places) + to_edges(base, places)
    records = [damaged(base, how, list_expected, index) for how in hows for index in indices]
    return records + [damaged(base, how, list_expected, 99 * (i % 2)) for i, how in enumerate(cuts(base))]


def list_places(base):
    """The count, the lengths, the comments, and of each blob the first length and its text."""
    places, at = list(range(5)), 5
    while at < len(base):
        blob, end = take_string(base, at)
        comment, behind = take_string(base, end)
        head = 4 + len(take_string(blob, 0)[0]) if blob else 0
        places += [*range(at, at + 4 + head), *range(end, behind)]
        at = behind
    return places


def damaged_signatures(base, hashes, room):
    """Every length, the type of the reply, the text of the type and what follows the signature; and a cut after every byte."""
    t, at = take_string(base, 5)
    sig, end = take_string(base, at)
    hows = around(base, [*range(at + 4), *range(end, len(base))]) + to_edges(base, range(9, at)) + cuts(base)
    return [damaged(base, how, signature_expected, hash, room) for how in hows for hash in hashes]


def short_signatures(base, hash):
    """Rooms from none to more than enough."""
    written = signature_of(base, hash, len(base))
    return [damaged(base, as_it_is(base), signature_expected, hash, room) for room in range(len(written) + 4)]


def damaged_frames(base):
    return [damaged(base, how, frame_expected) for how in around(base, range(4)) + cuts(base)]


# ---- the sections

def recorded_sections(exchanges, blobs):
    names = {11: 'list', 13: 'sign', 20: 'add smartcard', 21: 'remove smartcard', 22: 'lock', 23: 'unlock'}
    assert all(request[0] != 26 for request, _ in exchanges)  # cards.txt has these
    for message, name in names.items():
        requests = [request for request, _ in exchanges if request[0] == message]
        yield 2 if message == 20 else 1, 'recorded request to ' + name, b'', [recorded_request(request) for request in requests]
    lists = dict.fromkeys(reply for request, reply in exchanges if request[0] == 11)
    yield 5, 'recorded list', b'', [record for payload in lists for record in recorded_list(payload, blobs)]
    yield 7, 'recorded signature', b'', [recorded_signature(*exchange) for exchange in exchanges if exchange[0][0] == 13]
    frames = [string(payload) for payload in dict.fromkeys(itertools.chain(*exchanges)) if len(payload) < 128]
    yield 3, 'recorded frame', b'', [piece(f) + frame_expected(f) for f in frames]


def certificate_in(exchanges):
    """The blob of the certificate that ssh-add sent."""
    for request, _ in exchanges:
        if request[0] == 17:
            kind, at = take_string(request, 1)
            if kind.endswith(CERTIFICATE):
                return take_string(request, at)[0]


def damaged_sections(exchanges, blobs):
    signed = {take_string(request, 1)[0]: (request, reply) for request, reply in exchanges if request[0] == 13 and reply[0] == 14}
    ed25519, rsa = signed[blobs['ed25519']][1], signed[blobs['rsa-2048']][1]
    assert take_string(rsa, 5)[0] == b'rsa-sha2-512'
    touch = reply(string(b'sk-ssh-ed25519@openssh.com') + string(bytes(range(64))) + b'\x05\x00\x00\x01\x02')
    small = reply_list((b'', b''), (b'\x00\x00\x00\x01x', b'\xc3\xa9'))
    mixed = reply_list((blobs['ed25519'], b'test ed25519'), (blobs['ecdsa-256'], b''), (certificate_in(exchanges), b'\xc3\xa9'))
    yield 6, 'damaged small list', small, damaged_lists(small, range(len(small)), range(4))
    yield 6, 'damaged list', mixed, damaged_lists(mixed, list_places(mixed), (2,))
    yield 8, 'damaged signature ed25519', ed25519, damaged_signatures(ed25519, (0, 2), len(ed25519))
    yield 8, 'damaged signature rsa-2048', rsa, damaged_signatures(rsa, (4,), len(rsa))
    yield 8, 'damaged signature of a touch key', touch, damaged_signatures(touch, (0,), len(touch))
    yield 8, 'short output ed25519', ed25519, short_signatures(ed25519, 0)
    yield 8, 'short output of a touch key', touch, short_signatures(touch, 0)
    frames = string(ed25519) + string(b'\x06')
    yield 4, 'damaged frame', frames, damaged_frames(frames)


def sections(folder, scripts):
    blobs = public_blobs(folder)
    exchanges = [e for name in sorted(os.listdir(folder)) if name.endswith('.txt') for e in exchanges_in(os.path.join(folder, name))]
    yield from example_sections()
    yield from recorded_sections(exchanges, blobs)
    yield from card_sections()
    yield from russh_sections(scripts)
    yield 3, 'made frame', b'', [piece(f) + frame_expected(f) for f in made_frames()]
    yield 1, 'made request', b'', [whole_request(*request) for request in made_requests()]
    yield 2, 'made smartcard', b'', [whole_request(*request) for request in made_cards()]
    yield 1, 'refused request', b'', [made_request(*one) for one in refused_requests()]
    yield 2, 'refused smartcard', b'', [made_request(*one) for one in refused_cards()]
    yield 1, 'long request', b'', [made_request(*one) for one in long_requests()]
    yield 2, 'long smartcard', b'', [made_request(*one) for one in long_cards()]
    yield 5, 'made list', b'', [record for payload in made_lists() for record in list_records(payload)]
    every = reply_list(*((blob, b'test ' + key.encode()) for key, blob in blobs.items()))
    yield 6, 'list of every key', every, [damaged(every, as_it_is(every), list_expected, index) for index in range(9)]
    yield 5, 'certificate mark', b'', [piece(payload) + list_expected(payload, 0) for payload in made_marks()]
    yield 7, 'made signature', b'', [piece(p) + signature_expected(p, hash, len(p)) for p, hash in made_replies()]
    yield from damaged_sections(exchanges, blobs)


if __name__ == '__main__':
    write(sys.argv[3], sections(*sys.argv[1:3]))
