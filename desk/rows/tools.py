"""OpenSSH's programs, run against an agent."""
import os
import subprocess

from . import base
from .base import at, must

WORD = 'Taupunkt 11,3 Grad, Luken 40 Prozent.'  # a passphrase of 37 bytes


def environment(agent, word=''):
    return {**os.environ, 'SSH_AUTH_SOCK': agent.path, 'DESK_WORD': word, 'SSH_ASKPASS': at('askpass'), 'SSH_ASKPASS_REQUIRE': 'force',
            'DISPLAY': ':9', 'LC_ALL': 'C'}


def make_askpass():
    with open(at('askpass'), 'w') as f:
        f.write('#!/bin/sh\nprintf "%s\\n" "$DESK_WORD"\n')
    os.chmod(at('askpass'), 0o700)


def started(agent, *command, word=''):
    return subprocess.Popen(command, env=environment(agent, word), cwd=base.folder, stdin=subprocess.DEVNULL, stdout=subprocess.PIPE,
                            stderr=subprocess.STDOUT, encoding='utf-8', errors='surrogateescape')


def ended(process, seconds=30):
    out, _ = process.communicate(timeout=seconds)
    return process.returncode, out.strip()


def run(agent, *command, word=''):
    return ended(started(agent, *command, word=word))


def works(agent, *command, word='', says=''):
    status, out = run(agent, *command, word=word)
    must(status == 0 and says in out, f'{" ".join(command)}: exit {status}: {out}')
    return out


def fails(agent, *command, word='', says=''):
    status, out = run(agent, *command, word=word)
    must(status not in (0, None) and says in out, f'{" ".join(command)}: exit {status}: {out}')
    return out
