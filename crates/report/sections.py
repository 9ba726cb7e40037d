"""The input of the programs over the crate report, which their make.py writes.

It is a sequence of sections: kind (byte), name (string), base (string), count (number, 1 or more), and that many records, whose form the
program knows by the kind. A number has four bytes, highest first; a string is its length as a number, and its bytes; a flag is a
byte, 0 or 1. A CHANGE is length, place (numbers) and value (byte): the first `length` bytes of the section's base, with `value` at
`place`.
"""


def number(n):
    return n.to_bytes(4, 'big')


def string(b):
    return number(len(b)) + b


def flag(b):
    return bytes([1 if b else 0])


def change(base, length, place, value):
    """A CHANGE, and what it makes of the base."""
    changed = bytearray(base)
    changed[place] = value
    return number(length) + number(place) + bytes([value]), bytes(changed[:length])


def near(values, base, place):
    """The places and values of changes that change something."""
    return [(place, v % 256) for v in values if v % 256 != base[place]]


class Fault(Exception):
    """A fault at a place, where a reader says one."""

    def __init__(self, place=None):
        super().__init__(place)
        self.place = place


def need(test, place=None):
    if not test:
        raise Fault(place)


def take_string(b, at):
    """The contents of the string at a place, and the place behind it. A cut string is a fault at the start of its length."""
    need(at + 4 <= len(b), at)
    end = at + 4 + int.from_bytes(b[at:at + 4], 'big')
    need(end <= len(b), at)
    return b[at + 4:end], end


def write(target, sections):
    """Writes (kind, name, base, records) to the file, and prints what the program must write where every record agrees."""
    with open(target, 'wb') as out:
        for kind, name, base, records in sections:
            out.write(bytes([kind]) + string(name.encode()) + string(base) + number(len(records)) + b''.join(records))
            print(name, len(records), 'of', len(records))
