#!/usr/bin/env python3
"""What ssh-add sends for smartcards.

    cards.py record            prints it, as cards.txt keeps it
    cards.py compare           it must be what cards.txt has; ends 'N passed, N failed'

ssh-add needs no card: a socket takes its requests and answers each with SUCCESS. The PIN is read from standard input.
"""
import collections
import itertools
import os
import shlex
import socket
import subprocess
import sys
import tempfile
import threading

KEPT = os.path.join(os.path.dirname(os.path.abspath(__file__)), 'cards.txt')
LONGEST = 2147483647  # seconds that ssh-add takes

Sent = collections.namedtuple('Sent', 'words pin payload')


def commands():
    """(options, id, PIN): every way to say the options, and each set of them with ids and PINs of all sorts."""
    lives = [['-t', str(n)] for n in (0, 1, 60, 86400, LONGEST)]
    options = [[], ['-c'], *lives, *(life + ['-c'] for life in lives), *(['-c'] + life for life in lives)]
    yield from ((one, 'a', '') for one in options)
    for one in ([], ['-c'], ['-t', '3600'], ['-t', '3600', '-c']):
        yield from ((one, *parts) for parts in itertools.product(('', '/usr/lib/none.so', 'é€😀'), ('', '1234', 'é €', 'x' * 255)))


def payloads(connection):
    """Each answered with SUCCESS."""
    held = b''
    while True:
        more = connection.recv(65536)
        if not more:
            return
        held += more
        while len(held) >= 4 and len(held) >= 4 + int.from_bytes(held[:4], 'big'):
            end = 4 + int.from_bytes(held[:4], 'big')
            yield held[4:end]
            held = held[end:]
            connection.sendall(b'\x00\x00\x00\x01\x06')


def sent_by(words, pin, folder):
    """The one request of a command."""
    path, taken = os.path.join(folder, 'socket'), []
    with socket.socket(socket.AF_UNIX) as listening:
        listening.bind(path)
        listening.listen(1)
        listening.settimeout(10)

        def serve():
            connection, _ = listening.accept()
            with connection:
                connection.settimeout(10)
                taken.extend(payloads(connection))
        server = threading.Thread(target=serve, daemon=True)
        server.start()
        # with no terminal and no program to ask, the PIN comes from standard input
        env = {**os.environ, 'SSH_AUTH_SOCK': path, 'SSH_ASKPASS_REQUIRE': 'never'}
        try:
            done = subprocess.run([word.encode() for word in words], input=pin.encode() + b'\n', capture_output=True, env=env, start_new_session=True,
                                  timeout=20, check=False)
        finally:
            server.join(20)
    os.unlink(path)
    assert done.returncode == 0 and len(taken) == 1, (words, done.stderr, taken)
    return taken[0]


def recorded():
    with tempfile.TemporaryDirectory() as folder:
        for options, card, pin in commands():
            words = ['ssh-add', *options, '-s', card]
            yield Sent(words, pin, sent_by(words, pin, folder))


def text_of(sent):
    return f'$ {shlex.join(sent.words)}\n# PIN {shlex.quote(sent.pin)}\n> {sent.payload.hex()}\n< 06\n'


def record():
    version = subprocess.run(['ssh', '-V'], capture_output=True, text=True, check=True).stderr.split(',')[0]
    head = (f'# What ssh-add of {version} sends, made by `cards.py record`: `$` the command, `# PIN` what it was given at its prompt,\n'
            "# `>` the request's payload and `<` the answer that the recording socket gave, in hex without the length.\n")
    sys.stdout.buffer.write((head + ''.join(map(text_of, recorded()))).encode())


def kept():
    with open(KEPT, encoding='utf-8') as lines:
        for line in lines:
            if line.startswith('$ '):
                words, pin = shlex.split(line[2:]), None
            elif line.startswith('# PIN '):
                pin, = shlex.split(line[6:])
            elif line.startswith('> '):
                assert pin is not None, line
                yield Sent(words, pin, bytes.fromhex(line[2:]))


def compare():
    pairs = list(itertools.zip_longest(recorded(), kept()))
    wrong = [pair for pair in pairs if pair[0] != pair[1]]
    for now, before in wrong:
        print(f'now: {now and text_of(now)!a}, kept: {before and text_of(before)!a}')
    print(f'{len(pairs) - len(wrong)} passed, {len(wrong)} failed')
    return 1 if wrong else 0


if __name__ == '__main__':
    if sys.argv[1:] == ['record']:
        record()
    elif sys.argv[1:] == ['compare']:
        sys.exit(compare())
    else:
        sys.exit(__doc__)
