"""Writes the input of this program, and prints what it must write where every step agrees:

    python3 crates/keeping/make.py crates/keeping/stdin > crates/keeping/stdout

A section is a claim of 01's "Table, store and clock" or of #112, and begins with a fresh state; each of its records is a step with the answer
that they give by hand: op and part (bytes), place and value (numbers), limited and confirm (flags), bytes, fields and comment (strings), want (number).
"""
import os
import sys

sys.path.insert(0, os.path.join(os.path.dirname(os.path.abspath(__file__)), '..', 'report'))
from sections import flag, number, string, write

NONE = 24
COLUMNS = NUMBER, READING, LIMITED, SECONDS, CONFIRM, BLOB, FIELDS, COMMENT = range(1, 9)
PHRASE, PHRASE_BYTE, CLOCK, NEXT = range(9, 13)


def task(op, want, part=0, place=0, value=0, limited=False, confirm=False, bytes_=b'', fields=b'', comment=b''):
    return (bytes([op, part]) + number(place) + number(value % 2 ** 32) + flag(limited) + flag(confirm)
            + string(bytes_) + string(fields) + string(comment) + number(want))


# ---- what is done

class Key:
    """What a request brings to be kept."""

    def __init__(self, blob, fields=b'\x05\x06\x07\x08', comment=b'night'):
        self.blob, self.fields, self.comment = blob, fields, comment

    def but(self, **parts):
        return Key(**{**vars(self), **parts})

    def bytes(self):
        return self.blob + self.fields + self.comment


def advance(reading):
    return task(1, 0, value=reading)


def put(key, position, lifetime=None, confirm=False):
    return task(2, position, value=lifetime or 0, limited=lifetime is not None, confirm=confirm,
                bytes_=key.blob, fields=key.fields, comment=key.comment)


def remove(position):
    return task(3, 0, place=position)


def remove_all():
    return task(4, 0)


def lock(passphrase):
    return task(5, 0, bytes_=passphrase)


# ---- what is asked

def entry(position, **parts):
    """What the columns have at one index."""
    return [task(12, want, part=globals()[name.upper()], place=position) for name, want in parts.items()]


def holds(*held):
    """These keys, each with its number, in this order, and nothing besides: in the columns, and in the store without gaps; and it is sound."""
    yield task(11, len(held))
    yield task(13, 1, bytes_=b''.join(key.bytes() for _, key in held))
    yield task(16, 1)
    for position, (numbered, key) in enumerate(held):
        yield from entry(position, number=numbered, blob=len(key.blob), fields=len(key.fields), comment=len(key.comment))


def is_passphrase(passphrase, yes):
    return task(14, yes, bytes_=passphrase)


def locked(length):
    return task(15, length)


# ---- what is set, and whether all is sound then

def state_with(part, value, sound, place=0):
    return task(21, sound, part=part, place=place, value=value)


def byte_with(place, value, sound):
    return task(22, sound, place=place, value=value)


def store_of(length, sound):
    return task(23, sound, place=length)


# ---- the claims

KEYS = [Key(bytes([1, 2, n])) for n in range(3, 28)]
A, B, C, D, E = KEYS[:5]


def kept_claims():
    yield 'lifetime 2 put at 5,000: there at 6,999, gone at 7,000', [
        advance(5000), put(A, 0, lifetime=2), *entry(0, reading=5000, limited=1, seconds=2),
        advance(6999), *holds((1, A)), advance(7000), *holds()]
    yield 'lifetime 0: gone at the next accepted call', [advance(5000), put(A, 0, lifetime=0), *holds((1, A)), advance(5000), *holds()]
    yield 'no lifetime: there at any reading', [put(A, 0), advance(0xffffffff), *holds((1, A))]
    yield 'a lower reading counts as the kept one', [
        advance(5000), put(A, 0, lifetime=2), advance(4000), put(B, 1), *entry(1, reading=5000), advance(6999), *holds((1, A), (2, B))]
    yield 'keys go on time while locked', [
        put(A, 0, lifetime=2), lock(b'ab'), advance(1999), *holds((1, A)), advance(2000), *holds(), locked(2)]
    yield 'several keys due at once: the others close the gaps, in their order', [
        put(A, 0, lifetime=1), put(B, 1, confirm=True), put(C, 2, lifetime=1), put(D, 3, lifetime=2), put(E, 4, lifetime=1),
        advance(1000), *holds((2, B), (4, D)), *entry(0, confirm=1, limited=0, seconds=0), *entry(1, confirm=0, limited=1, seconds=2),
        advance(2000), *holds((2, B))]
    yield '24 keys put: a 25th finds no place, a held blob is still replaced', [
        *(put(key, position) for position, key in enumerate(KEYS[:24])), put(KEYS[24], NONE), *holds(*enumerate(KEYS[:24], 1)),
        put(KEYS[23], 23), put(KEYS[0], 0), *entry(23, number=25), *entry(0, number=26), *entry(1, number=2)]
    yield 'a held blob is replaced in its position, lifetime and Confirm with it', [
        advance(1000), put(A, 0, lifetime=9, confirm=True), put(B, 1), *entry(0, reading=1000, limited=1, seconds=9, confirm=1),
        advance(2000), put(A, 0), *entry(0, reading=2000, limited=0, seconds=0, confirm=0), *holds((3, A), (2, B))]
    longer, shorter = B.but(fields=bytes(range(1, 10)), comment=b'at night'), B.but(fields=b'\x09', comment=b'')
    yield 'of another size it keeps its position, and what lies behind it moves', [
        put(A, 0), put(B, 1), put(C, 2), put(longer, 1), *holds((1, A), (4, longer), (3, C)),
        put(shorter, 1), *holds((1, A), (5, shorter), (3, C))]
    yield 'removed from the middle, from the front, from the end: the gap is closed, the end zeroed', [
        *(put(key, position) for position, key in enumerate(KEYS[:4])), remove(1), *holds((1, A), (3, C), (4, D)),
        remove(0), *holds((3, C), (4, D)), remove(1), *holds((3, C)), remove(1), *holds((3, C))]
    yield 'a new key goes last', [put(A, 0), put(B, 1), remove(0), put(C, 1), put(A, 2), *holds((2, B), (3, C), (4, A))]
    long = A.but(comment=b'a' * 255)
    yield 'a comment of 255 bytes is kept, one of 256 changes nothing', [
        put(long, 0), put(A.but(comment=b'b' * 256), NONE), *holds((1, long)), put(A.but(comment=b''), 0), *holds((2, A.but(comment=b'')))]
    whole = [Key(bytes([n]) * 1024, bytes([n]) * 3072, b'') for n in range(1, 8)]
    large, small = Key(b'\x08' * 1024, b'\x08' * 3067, b''), Key(b'\x09', b'\x09' * 3, b'\x09')
    yield 'lengths of 32,768 bytes in all: with one more a key finds no place, the old entry stays, and a state is unsound', [
        *(put(key, position) for position, key in enumerate([*whole, large, small])), put(Key(b'\x0a', b'\x0a', b''), NONE),
        put(small.but(comment=b'\x09' * 2), NONE), *entry(8, number=9, comment=1), task(16, 1),
        put(small.but(fields=b'\x09'), 8), put(Key(b'\x0a', b'\x0a', b'\x0a'), NONE), put(Key(b'\x0a', b'\x0a', b''), 9), task(11, 10), task(16, 1),
        state_with(COMMENT, 0, 0, place=8), state_with(COMMENT, 1, 0, place=9), state_with(COMMENT, 1, 0)]
    yield 'all removed: zeroed, and numbers go on', [put(A, 0), put(B, 1), remove_all(), *holds(), put(A, 0), *holds((3, A))]
    yield 'a passphrase is stored, compared whole, and zeroed', [
        locked(0), lock(b'ab'), locked(2), is_passphrase(b'ab', 1), is_passphrase(b'ac', 0), is_passphrase(b'a', 0), is_passphrase(b'abc', 0),
        is_passphrase(b'', 0), state_with(PHRASE, 0, 0), lock(b''), locked(0), state_with(PHRASE, 0, 1)]
    yield 'a passphrase of 1,024 bytes is stored', [lock(b'a' * 1024), locked(1024), is_passphrase(b'a' * 1024, 1), is_passphrase(b'a' * 1023, 0)]


def soundness_claims():
    """Three keys with the numbers 1 to 3, the last one's blob and fields a zero byte each; the clock is 5,000. A takes 12 bytes, B 12, the last 7."""
    setting = [advance(5000), put(A, 0, lifetime=2, confirm=True), put(B, 1), put(Key(b'\x00', b'\x00'), 2), lock(b'ab')]
    end = 31
    yield 'as it is, or with another byte in use: sound', setting + [
        state_with(NEXT, 4, 1), state_with(NEXT, 5, 1), state_with(CLOCK, 5001, 1), state_with(CONFIRM, 0, 1), state_with(SECONDS, 3, 1),
        byte_with(0, 9, 1), byte_with(3, 9, 1), byte_with(end - 1, 9, 1), state_with(PHRASE_BYTE, 9, 1, place=0)]
    yield 'a blob longer than 1,024 bytes: unsound', setting + [state_with(BLOB, 1024, 1, place=2), state_with(BLOB, 1025, 0, place=2)]
    yield 'key fields longer than 3,072 bytes: unsound', setting + [state_with(FIELDS, 3072, 1, place=2), state_with(FIELDS, 3073, 0, place=2)]
    yield 'a comment longer than 255 bytes: unsound', setting + [state_with(COMMENT, 255, 1, place=2), state_with(COMMENT, 256, 0, place=2)]
    yield 'an empty blob, empty key fields: unsound', setting + [state_with(BLOB, 0, 0, place=2), state_with(FIELDS, 0, 0, place=2)]
    yield 'lengths that overflow when added up: unsound', setting + [
        state_with(part, value, 0, place=place) for part in (BLOB, FIELDS, COMMENT) for place in (0, 2, 3) for value in (-1, -20)]
    yield 'a byte behind the end not zero: unsound', setting + [
        byte_with(end, 1, 0), byte_with(end + 1, 1, 0), byte_with(32767, 1, 0), state_with(COMMENT, 4, 0, place=2), state_with(COMMENT, 0, 0)]
    yield 'a field of an unused entry, or of one behind it, not zero: unsound', setting + [state_with(part, 1, 0, place=place) for part in COLUMNS for place in (3, 4, 23)]
    yield 'a number of 0 where entries end later: unsound', setting + [state_with(NUMBER, 0, 0, place=place) for place in (0, 1, 2)]
    yield 'two equal insertion numbers: unsound', setting + [
        state_with(NUMBER, 1, 0, place=1), state_with(NUMBER, 1, 0, place=2), state_with(NUMBER, 2, 0, place=2), state_with(NUMBER, 2, 0)]
    yield 'an insertion number not below the next: unsound', setting + [state_with(NUMBER, 4, 0), state_with(NUMBER, 5, 0), state_with(NEXT, 3, 0)]
    yield 'a next insertion number of 0: unsound', [state_with(NEXT, 1, 1), state_with(NEXT, 0, 0)]
    yield 'an insertion reading above the clock: unsound', setting + [
        state_with(READING, 5000, 1), state_with(READING, 5001, 0), state_with(CLOCK, 4999, 0)]
    yield 'seconds without a lifetime: unsound', setting + [state_with(SECONDS, 1, 0, place=1), state_with(LIMITED, 0, 0)]
    yield 'a Confirm flag neither 0 nor 1: unsound', setting + [
        state_with(CONFIRM, value, sound, place=place) for place in (0, 1) for value, sound in ((1, 1), (2, 0), (255, 0))]
    yield 'a lifetime flag neither 0 nor 1: unsound', setting + [
        state_with(LIMITED, value, sound, place=place) for place in (0, 1) for value, sound in ((1, 1), (2, 0), (255, 0))]
    yield 'a passphrase longer than 1,024 bytes: unsound', setting + [state_with(PHRASE, 1024, 1), state_with(PHRASE, 1025, 0)]
    yield 'a byte behind the passphrase not zero: unsound', setting + [
        state_with(PHRASE_BYTE, 1, 1, place=1), state_with(PHRASE_BYTE, 1, 0, place=2), state_with(PHRASE_BYTE, 1, 0, place=1023)]
    yield 'a store of another length: unsound', [store_of(32768, 1), store_of(32767, 0), store_of(32769, 0), store_of(0, 0)]


def blob_claims():
    """Blobs are first told apart by four of their last twelve bytes."""
    yield 'two equal blobs: unsound; of the same sum, or longer: sound', [
        put(A, 0), put(B, 1), put(C, 2), byte_with(14, 3, 0), byte_with(26, 3, 0), byte_with(26, 4, 0), byte_with(12, 0, 1), byte_with(24, 0, 1),
        state_with(BLOB, 4, 1, place=1)]
    left, right, last = (Key(bytes([n]) + b'\x07' * 39, b'\x01', b'') for n in (1, 2, 3))
    yield 'blobs whose last 32 bytes are the same are two keys; with the first byte equal too they are one', [
        put(left, 0), put(right, 1), put(last, 2), put(right, 1), byte_with(41, 1, 0), byte_with(82, 2, 0), byte_with(82, 4, 1), byte_with(81, 9, 1)]


def sections():
    for claims in (kept_claims(), soundness_claims(), blob_claims()):
        for name, steps in claims:
            yield 1, name, b'', steps


write(sys.argv[1], sections())
