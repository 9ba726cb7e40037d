#!/usr/bin/env python3
"""Our smartcard requests to OpenSSH's ssh-agent, with a token in software (Debian's softhsm2 and opensc).

    agent.py WORDS..           ends 'N passed, N failed'

WORDS run our client, the program exchanges, which must agree that our writer writes what is sent: every order of up to four constraints. ssh-agent must
take each with at most one lifetime and one Confirm, list the token's key until that lifetime ends, and sign with it, where Confirm is given only with a
yes. A second lifetime or Confirm is a fault to it. Each request once more as russh writes it, a count before the constraints, it must refuse.
"""
import contextlib
import itertools
import os
import socket
import subprocess
import sys
import tempfile
import time

from make import CONFIRM, counted_payload, number, payload_of, string, take_string, whole_request

LIBRARY = '/usr/lib/softhsm/libsofthsm2.so'
PIN = b'1234'
SHORT, LONG = 4, 3600  # seconds; ssh-agent counts them from before it opens the token
REFUSED = b'\x05', 0, None, None


def prepared(words, env):
    done = subprocess.run(words, env=env, capture_output=True, timeout=60, check=False)
    if done.returncode:
        sys.exit(f'agent.py: {words[0]}: {done.stderr.decode(errors="replace").strip()}')


@contextlib.contextmanager
def agent(folder):
    """The socket of an ssh-agent that reaches a token with one key. Asked for a confirmation it is told yes while the file `yes` is there."""
    conf, path, program = (os.path.join(folder, name) for name in ('softhsm2.conf', 'agent', 'askpass'))
    os.mkdir(os.path.join(folder, 'tokens'))
    with open(conf, 'w', encoding='utf-8') as file:
        file.write(f'directories.tokendir = {folder}/tokens\n')
    with open(program, 'w', encoding='utf-8') as file:
        file.write(f'#!/bin/sh\nexec test -e {folder}/yes\n')
    os.chmod(program, 0o700)
    env = {**os.environ, 'SOFTHSM2_CONF': conf, 'SSH_ASKPASS': program, 'SSH_ASKPASS_REQUIRE': 'force', 'DISPLAY': ':9'}
    pin = PIN.decode()
    prepared(['softhsm2-util', '--init-token', '--free', '--label', 'card', '--so-pin', '123456', '--pin', pin], env)
    prepared(['pkcs11-tool', '--module', LIBRARY, '--login', '--pin', pin, '--keypairgen', '--key-type', 'EC:prime256v1', '--label', 'key'], env)
    with subprocess.Popen(['ssh-agent', '-D', '-P', '/usr/lib/*', '-a', path], env=env, stdout=subprocess.DEVNULL, stderr=subprocess.DEVNULL) as running:
        try:
            yield path
        finally:
            running.terminate()


def connected(path):
    """The agent may still be starting."""
    for _ in range(100):
        connection = socket.socket(socket.AF_UNIX)
        connection.settimeout(20)
        with contextlib.suppress(FileNotFoundError, ConnectionRefusedError):
            connection.connect(path)
            return connection
        connection.close()
        time.sleep(0.05)
    sys.exit('agent.py: ssh-agent does not start')


def ask(path, payload):
    with connected(path) as connection:
        connection.sendall(string(payload))
        held = b''
        while len(held) < 4 or len(held) < 4 + int.from_bytes(held[:4], 'big'):
            more = connection.recv(65536)
            assert more, payload
            held += more
    return held[4:]


def signs(path, blob):
    return ask(path, b'\x0d' + string(blob) + string(b'data') + number(0))[:1] == b'\x0e'


def signs_how(path, blob):
    """(told no, told yes)"""
    yes = os.path.join(os.path.dirname(path), 'yes')
    no = signs(path, blob)
    with open(yes, 'w', encoding='utf-8'):
        pass
    try:
        return no, signs(path, blob)
    finally:
        os.unlink(yes)


def seen(path, sent, waits):
    """(reply, keys held, how it signs, keys held when a short lifetime is over), the last two where there are such"""
    reply, found = ask(path, sent), ask(path, b'\x0b')
    held = int.from_bytes(found[1:5], 'big')
    how = signs_how(path, take_string(found, 5)[0]) if held == 1 else None
    if waits:
        time.sleep(SHORT + 1.1)
    return reply, held, how, int.from_bytes(ask(path, b'\x0b')[1:5], 'big') if waits else None


def due(constraints, waits):
    confirms = constraints.count(CONFIRM)
    if confirms > 1 or len(constraints) - confirms > 1:
        return REFUSED
    return b'\x06', 1, (not confirms, True), int(SHORT not in constraints) if waits else None


def cases(given):
    """(payload, what is to be seen, whether to wait for it)"""
    for constraints in given:
        request = asked(constraints)
        waits = constraints == (LONG,) or (SHORT in constraints and due(constraints, False) != REFUSED)
        yield payload_of(*request), due(constraints, waits), waits
        if constraints:
            yield counted_payload(*request), REFUSED, False


def asked(constraints):
    return 20, LIBRARY.encode(), PIN, 0, constraints


def ours_are(words, requests):
    """Our writer writes what is sent: the program compares."""
    section = bytes([2]) + string(b'cards') + string(b'') + number(len(requests)) + b''.join(whole_request(*one) for one in requests)
    said = subprocess.run(words, input=section, capture_output=True, timeout=120, check=True).stdout.decode()
    assert said == f'cards {len(requests)} of {len(requests)}\n', said


def main(words):
    if not os.path.exists(LIBRARY):
        sys.exit(f'agent.py: no {LIBRARY}')
    given = [some for n in range(5) for some in itertools.product((CONFIRM, SHORT, LONG), repeat=n)]
    ours_are(words, [asked(constraints) for constraints in given])
    passed = failed = 0
    with tempfile.TemporaryDirectory() as folder, agent(folder) as path:
        for sent, wanted, waits in cases(given):
            ask(path, b'\x15' + string(LIBRARY.encode()) + string(b''))
            found = seen(path, sent, waits)
            passed, failed = passed + (found == wanted), failed + (found != wanted)
            if found != wanted:
                print(f'{sent.hex()}: {found}, not {wanted}')
    print(f'{passed} passed, {failed} failed')
    return 1 if failed else 0


if __name__ == '__main__':
    sys.exit(main(sys.argv[1:]) if sys.argv[1:] else __doc__)
