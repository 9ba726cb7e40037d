"""Secrets looked for in a process's memory.

A secret is cut into all its words of eight bytes, and memory is read by aligned words: any 15 bytes of it in a row are found, wherever they stand.
"""
import array
import os

from .base import Skip, must, until
from .processes import is_emulated

PAGES = 1 << 20  # bytes read at once
SKIPPED = ('[vvar]', '[vvar_vclock]', '[vsyscall]', '[vdso]')


def words(secret):
    return {int.from_bytes(secret[i:i + 8], 'little') for i in range(len(secret) - 7)}


def mappings(process):
    """Start, end and name of each readable mapping, but for what is the unaltered part of a file."""
    with open(f'/proc/{process}/maps') as f:
        for line in f:
            span, rights, _, _, _, *name = line.split(maxsplit=5)
            name = name[0].strip() if name else 'no name'
            if rights[0] == 'r' and name not in SKIPPED and (rights[1] == 'w' or name[0] != '/'):
                yield (*(int(n, 16) for n in span.split('-')), f'{name} {rights}')


def memory(process):
    """The process's memory, in parts: address, bytes, mapping."""
    if is_emulated(process):
        raise Skip('the agent runs in an emulator, whose memory holds the registers too')
    try:
        mem = open(f'/proc/{process}/mem', 'rb', buffering=0)
    except PermissionError as e:
        raise Skip('the agent lets nobody but root read its memory, and we are not root') from e
    with mem:
        for start, end, name in list(mappings(process)):
            for address in range(start, end, PAGES):
                try:
                    yield address, os.pread(mem.fileno(), min(PAGES, end - address), address), name
                except OSError:
                    break  # a device, or unmapped meanwhile


def found(process, secrets):
    """Where words of these secrets (by name) stand: for each place NAME: BYTES in MAPPING at ADDRESS."""
    names, places = {}, []
    for name, secret in secrets.items():
        for word in words(secret):
            names.setdefault(word, name)
    for address, data, mapping in memory(process):
        data = data[:len(data) // 8 * 8]
        if data.count(0) == len(data) or names.keys().isdisjoint(array.array('Q', data)):
            continue
        for i, word in enumerate(array.array('Q', data)):
            if word in names:
                put(places, names[word], mapping, address + 8 * i)
    return [f'{name}: {end - start} bytes in {mapping} at {start:#x}' for name, mapping, start, end in places]


def put(places, name, mapping, address):
    """The word belongs to the last place where it follows it."""
    if places and places[-1][0] == name and places[-1][3] == address:
        places[-1][3] += 8
    else:
        places.append([name, mapping, address, address + 8])


def holds(agent, secrets, when):
    """Each of these secrets is in the agent's memory: so the scan can find it. How often each, by name."""
    lines = found(agent.process.pid, secrets)
    counts = {name: sum(line.startswith(name + ':') for line in lines) for name in secrets}
    for name, count in counts.items():
        must(count, f'{when}: the scan does not find {name}')
    return counts


def holds_once(agent, secrets, when):
    """Each of them is there at one place alone: the core's."""
    counts = holds(agent, secrets, when)
    must(set(counts.values()) == {1}, f'{when}: {found(agent.process.pid, secrets)}')


def is_clean(agent, secrets, when):
    """None of them is."""
    lines = []

    def gone():
        lines[:] = found(agent.process.pid, secrets)
        return not lines
    try:
        until(gone, '', 1)
    except AssertionError:
        raise AssertionError(f'{when}: {"; ".join(lines[:6])}' + (f' and {len(lines) - 6} more' if len(lines) > 6 else '')) from None
