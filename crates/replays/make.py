#!/usr/bin/env python3
"""Writes the input of the program replays, and prints what the program must write where it answers as russh does:

    python3 make.py ORACLE SCRIPTED stdin > stdout

SCRIPTED is a program that answers scripts with russh 0.65.0's unchanged server.rs; its signer is scripted: it gives the key's type and the data.
ORACLE is its folder. These scripts are run, one request at a time: scripts/openssh.txt (what OpenSSH's ssh-add, ssh-keygen and ssh sent, for
seven keys of all five kinds), scripts/time.txt (lifetimes), signatures with each choice of flags, and the 185 requests of tools/cases.py, each from a
fresh agent and followed by a list.

Each request is called first without an answer, then with one answer more for each question, until it lands. The rule below, written from document
01 and not from the Rattle code, says which question must come (class, part, insertion number, hash) and how the request must land; what it says
must be what russh answered, the signature too, which is made here from the key's type and the data. A list's items stand in list order, each with
the comment of its add; russh's come in any order, and without. Gate and confirmation say yes. The key check says yes, but in the cases that 01
leaves to it, where it says what russh's library said.

Where russh answers otherwise it must be a key of a kind that is not 01's, or one of the 25 cases that 01 decides otherwise; the rest of such a session
is left out.
"""
import os
import stat
import struct
import subprocess
import sys
import tempfile

FAILURE, SUCCESS, CLOSE = b'\x05', b'\x06', None
CLASSES = {11: 1, 17: 2, 25: 2, 18: 3, 19: 4, 13: 5, 22: 6, 23: 7}
records, lines = [], []


# ---- the rule of document 01, one request at a time

class Fault(Exception):
    pass


def need(test):
    if not test:
        raise Fault


def number(b, at):
    need(at + 4 <= len(b))
    return struct.unpack('>I', b[at:at + 4])[0], at + 4


def string_at(b, at):
    """The contents of the string at a place, and the place behind it."""
    n, at = number(b, at)
    need(at + n <= len(b))
    return b[at:at + n], at + n


def string(b):
    return struct.pack('>I', len(b)) + b


def mpint(b):
    """Positive and shortest."""
    need(b and b[0] < 128 and (b[0] or b[1:2] >= b'\x80'))
    return b.lstrip(b'\0')


def key_at(b, at):
    """The blob of the key whose fields start at a place, and the place behind them."""
    def more(n):
        nonlocal at
        found = []
        for _ in range(n):
            one, at = string_at(b, at)
            found.append(one)
        return found
    kind, = more(1)
    sizes = {b'nistp256': (65, 32), b'nistp384': (97, 48), b'nistp521': (133, 66)}
    if kind == b'ssh-ed25519':
        public, pair = more(2)
        need(len(public) == 32 and len(pair) == 64 and pair[32:] == public)
        return string(kind) + string(public), at
    if kind == b'ssh-rsa':
        six = more(6)
        for one in six:
            mpint(one)
        return string(kind) + string(six[1]) + string(six[0]), at
    need(kind[:11] == b'ecdsa-sha2-' and kind[11:] in sizes)
    curve, point, d = more(3)
    q, most = sizes[kind[11:]]
    need(curve == kind[11:] and len(point) == q and point[0] == 4 and len(mpint(d)) <= most)
    return string(kind) + string(curve) + string(point), at


def lifetime(b):
    """The walk over constraints: seconds or none, and whether to confirm."""
    seconds, confirm, at = None, False, 0
    while at < len(b):
        if b[at] == 2:
            confirm, at = True, at + 1
        else:
            need(b[at] == 1 and seconds is None)
            seconds, at = number(b, at + 1)
    return seconds, confirm


class Entry:
    def __init__(self, number, blob, fields, comment, due, confirm):
        self.number, self.blob, self.fields, self.comment, self.due, self.confirm = number, blob, fields, comment, due, confirm

    def size(self):
        return len(self.blob) + len(self.fields) + len(self.comment)


class Gateway:
    def __init__(self):
        self.entries, self.next, self.lock, self.clock = [], 1, b'', 0

    def advance(self, clock):
        self.clock = clock
        self.entries = [e for e in self.entries if e.due is None or e.due > clock]

    def held(self, blob):
        return next((i for i, e in enumerate(self.entries) if e.blob == blob), None)


def rule(gateway, payload):
    """Yields each question that must be asked, takes its answer, and returns the reply, or CLOSE."""
    byte = payload[0] if payload else 0
    if byte not in CLASSES or (byte == 23) != (gateway.lock != b''):
        return FAILURE
    if not (yield 'gate', CLASSES[byte]):
        return FAILURE
    try:
        return (yield from REQUESTS[byte](gateway, payload))
    except Fault:
        return FAILURE


def listing(gateway, _):
    yield from ()
    held = gateway.entries
    return b'\x0c' + struct.pack('>I', len(held)) + b''.join(string(e.blob) + string(e.comment) for e in held)


def add(gateway, payload):
    blob, end = key_at(payload, 1)
    comment, behind = string_at(payload, end)
    try:
        comment.decode('utf-8')
    except UnicodeDecodeError:
        raise Fault
    seconds, confirm = lifetime(payload[behind:]) if payload[0] == 25 else (None, False)
    need(len(blob) <= 1024 and end - 1 <= 3072 and len(comment) <= 255)
    entry = Entry(gateway.next, blob, payload[1:end], comment, None if seconds is None else gateway.clock + 1000 * seconds, confirm)
    others = [e for e in gateway.entries if e.blob != blob]
    need(len(others) < 24 and sum(e.size() for e in others) + entry.size() <= 32768)
    need((yield 'check', 1, end))
    position = gateway.held(blob)
    if position is None:
        gateway.entries.append(entry)
    else:
        gateway.entries[position] = entry
    gateway.next += 1
    return SUCCESS


def remove(gateway, payload):
    yield from ()
    position = gateway.held(string_at(payload, 1)[0])
    need(position is not None)
    del gateway.entries[position]
    return SUCCESS


def remove_all(gateway, _):
    yield from ()
    gateway.entries = []
    return SUCCESS


def sign(gateway, payload):
    try:
        blob, at = string_at(payload, 1)
    except Fault:
        return CLOSE
    position = gateway.held(blob)
    need(position is not None)
    entry = gateway.entries[position]
    if entry.confirm:
        need((yield 'confirm', entry.number))
    try:
        data, behind = string_at(payload, at)
        flags, _ = number(payload, behind)
    except Fault:
        return CLOSE
    hash = 256 if flags & 2 else 512 if flags & 4 else 0
    signature = yield 'sign', entry.number, at + 4, behind, hash
    return b'\x0e' + string(signature)


def lock(gateway, payload):
    yield from ()
    passphrase, _ = string_at(payload, 1)
    need(len(passphrase) <= 1024)
    gateway.lock = passphrase
    return SUCCESS


def unlock(gateway, payload):
    yield from ()
    need(string_at(payload, 1)[0] == gateway.lock)
    gateway.lock = b''
    return SUCCESS


REQUESTS = {11: listing, 17: add, 25: add, 18: remove, 19: remove_all, 13: sign, 22: lock, 23: unlock}


# ---- the answers from outside

def scripted_signature(blob, data, hash):
    """The type and the data. Only an RSA key has a choice of hash, which its type says."""
    kind = string_at(blob, 0)[0]
    if kind == b'ssh-rsa' and hash:
        kind = b'rsa-sha2-%d' % hash
    return string(kind) + string(data)


def answer(gateway, payload, question, check):
    """What is answered to a question, and the fields of the record that lend it."""
    kind, *values = question
    if kind == 'sign':
        number, start, end, hash = values
        entry = next(e for e in gateway.entries if e.number == number)
        signature = scripted_signature(entry.blob, payload[start:end], hash)
        return signature, {'signature': 2, 'signature_number': number, 'blob': signature}
    if kind == 'confirm':
        return True, {'confirmation': 2, 'confirmation_number': values[0]}
    yes = kind == 'gate' or check
    return yes, {kind: 2 if yes else 1}


# ---- the calls

NOTHING = {'gate': 0, 'check': 0, 'confirmation': 0, 'signature': 0, 'confirmation_number': 0, 'signature_number': 0, 'blob': b''}


def say(text):
    records.append(b'#' + string(text.encode()))
    lines.append(text)


def record(payload, clock, lent):
    *values, signature = lent.values()
    records.append(b'\1' + struct.pack('>QBBBBQQIII', clock, *values, 30897, len(payload), len(signature)) + payload + signature)


def serve(gateway, payload, clock, check):
    """Calls until the request lands; its landing by the rule, as a line of the oracle."""
    gateway.advance(clock)
    lent, plan, told = dict(NOTHING), rule(gateway, payload), None
    while True:
        record(payload, clock, lent)
        try:
            question = plan.send(told)
        except StopIteration as landed:
            reply = None if landed.value is CLOSE else string(landed.value).hex()
            lines.append('reply ' + reply.upper() if reply else 'close')
            return 'reply ' + reply if reply else 'close'
        lines.append(' '.join(['ask', question[0], *map(str, question[1:])]))
        told, more = answer(gateway, payload, question, check)
        lent.update(more)


def items(line):
    """A line of the oracle; of a list the blobs, in the order of their bytes."""
    if line[14:16] != '0c':
        return line
    reply, at, found = bytes.fromhex(line[6:]), 9, []
    while at < len(reply):
        blob, at = string_at(reply, at)
        _, at = string_at(reply, at)
        found.append(blob)
    return reply[4:9], sorted(found)


KINDS = (b'ssh-ed25519', b'ssh-rsa', b'ecdsa-sha2-nistp256', b'ecdsa-sha2-nistp384', b'ecdsa-sha2-nistp521')


def is_other_kind(payload):
    return payload[:1] in (b'\x11', b'\x19') and string_at(payload, 1)[0] not in KINDS


def replay(script, answers, may_differ, check=True):
    """How many sessions ended with a request that russh answers otherwise."""
    gateway, clock, known, differing = Gateway(), 0, True, 0
    records.append(b'\2')
    for line in script:
        word, *rest = line.split()
        if word == 'fresh':
            gateway, known = Gateway(), True
            records.append(b'\2')
        elif word == 'adv':
            clock += int(rest[0])
        elif word == 'say':
            say(next(answers))
        elif word == 'to':
            payload, rust = bytes.fromhex(rest[1]) if len(rest) > 1 else b'', next(answers)
            if known and items(serve(gateway, payload, clock, check)) != items(rust):
                assert may_differ(payload), (payload.hex(), rust, lines[-1])
                known, differing = False, differing + 1
        else:
            assert word.startswith('#'), line
    return differing


oracle, scripted, target = sys.argv[1:]


def run(script):
    return subprocess.run([scripted], input=script, capture_output=True, text=True, check=True).stdout.splitlines()


def cases():
    """the script of tools/cases.py, and what it says of each case"""
    with tempfile.TemporaryDirectory() as folder:
        seen, program = os.path.join(folder, 'script'), os.path.join(folder, 'program')
        with open(program, 'w') as f:
            f.write(f'#!/bin/sh\ncat > {seen}\nexec {os.path.abspath(scripted)} < {seen}\n')
        os.chmod(program, stat.S_IRWXU)
        said = subprocess.run([sys.executable, os.path.join(oracle, 'tools/cases.py'), program], capture_output=True, text=True, check=True).stdout
        with open(seen) as f:
            return f.read().splitlines(), said.splitlines()[:-1]


def kept(name):
    with open(os.path.join(oracle, 'scripts', name + '.txt')) as f:
        return f.read()


def flags():
    """For keys of three kinds: the add request that ssh-add sent, and a signature with each of these flags."""
    script = ''
    for key in ('rsa-2048', 'ed25519', 'ecdsa-256'):
        with open(os.path.join(oracle, 'frames', key + '.txt')) as f:
            added = next(bytes.fromhex(line[2:]) for line in f if line.startswith('> 11'))
        script += f'say == flags 0 to 7, the highest, and all: {key}\nfresh\nto a {added.hex()}\n'
        for choice in (*range(8), 1 << 31, (1 << 32) - 1):
            request = b'\x0d' + string(key_at(added, 1)[0]) + string(b'data') + struct.pack('>I', choice)
            script += f'to a {request.hex()}\n'
    return script


for script, differing in ((kept('openssh'), 1), (kept('time'), 0), (flags(), 0)):
    assert replay(script.splitlines(), iter(run(script)), is_other_kind) == differing

script, said = cases()
answers = iter(run('\n'.join(script) + '\n'))
say('== cases')
at, differing = 0, 0
for case in said:
    assert script[at] == 'fresh'
    end = next((i for i in range(at + 1, len(script)) if script[i] == 'fresh'), len(script))
    of_case = script[at:end]
    got = [next(answers) for line in of_case if line.startswith('to ')]
    at = end
    say(case[2:47].strip())
    refused = case[0] == 'k' and got[-2] == 'reply 0000000105'
    differs = replay(of_case, iter(got), lambda _: case[0] == 'D', not refused)
    assert differs == (case[0] == 'D'), case
    differing += differs
assert differing == 25

with open(target, 'wb') as f:
    f.write(b''.join(records))
sys.stdout.write(''.join(line + '\n' for line in lines))
