"""Rows: a command under the agent, and sockets that are handed over."""
import argparse
import os
import re
import signal
import socket
import subprocess
import sys

from . import base
from .agents import Panel, said, serves
from .base import AGENT, at, must, row, until
from .frames import EMPTY_LIST, LIST, Raw
from .tools import environment, works


def under(*command, options=(), **how):
    """This command under the agent: exit status, standard output, standard error."""
    os.makedirs(at('run'), exist_ok=True)
    env = {**environment(argparse.Namespace(path='')), 'XDG_RUNTIME_DIR': at('run')}
    done = said(*options, command=command, env=env, cwd=base.folder, seconds=30, **how)
    must(os.listdir(at('run')) == [], f'left behind: {os.listdir(at("run"))}')
    return done


@row('`key-agentd -- COMMAND`: the command has the agent, its own input and output; its exit status; one that is not there')
def _():
    script = 'ssh-add -q ed25519; ssh-add -T ed25519.pub && ssh-add -l; echo "$SSH_AUTH_SOCK $SSH_AGENT_PID $PPID"; exit 7'
    status, out, error = under('sh', '-c', script)
    lines = out.splitlines()
    must(status == 7 and len(lines) == 2 and lines[0].endswith('test ed25519 (ED25519)'), f'{status} {out} {error}')
    path, pid, parent = lines[1].split()
    must(os.path.dirname(path).startswith(at('run')) and pid == parent, lines[1])
    status, out, error = under('sh', '-c', 'ssh-add -l', options=['--log'])
    must(status == 1 and out == 'The agent has no identities.\n' and 'LIST' in error and 'landed' in error, f'{status} {out} {error}')
    must(under('cat', input='a word\n', stdin=None)[:2] == (0, 'a word\n'), 'its input is not its own')
    for command in (['/no/such/command'], ['no-such-command', 'x'], [at('ed25519.pub')]):
        status, out, error = under(*command)
        must(status == 1 and command[0] in error and 'fault' not in error, f'{status} {out} {error}')
    return 'exit 7; nothing of the agent on its output, the log on standard error; socket gone; exit 1 and its name'


@row('`key-agentd -- COMMAND`: signals, limits and files')
def _():
    must(under('sh', '-c', 'kill -TERM $$; exit 3')[0] == 128 + signal.SIGTERM, 'killed by a signal')
    status, out, error = under('sh', '-c', 'kill -TERM $PPID; sleep 5; echo late')
    must(status == 128 + signal.SIGTERM and out == '', f'SIGTERM to the agent is not handed on: {status} {out} {error}')
    status, out, error = under('sh', '-c', 'kill -INT $PPID; ssh-add -l')
    must(out == 'The agent has no identities.\n', f'SIGINT to the agent, which a terminal sends to both: {status} {out} {error}')
    ignored = under('sh', '-c', 'exit 7', preexec_fn=lambda: signal.signal(signal.SIGCHLD, signal.SIG_IGN))
    must(ignored[0] == 7, f'where SIGCHLD was ignored: {ignored}')
    for words, kept in ((['cat', '/proc/self/limits'], '.*'), (['cat', '/proc/self/status'], 'Sig(?:Blk|Ign).*'),
                        (['ls', '-l', '/proc/self/fd'], r'\d+ -> ')):
        mine = subprocess.run(words, stdin=subprocess.DEVNULL, capture_output=True, text=True).stdout
        its = under(*words)[1]
        must(re.findall(kept, mine) == re.findall(kept, its), f'not as without the agent: {its}')
    return '143 where SIGTERM ends the command or comes to the agent; limits, signals and files as without the agent'


ACTIVATE = '''
import fcntl, os, sys
fds = [fcntl.fcntl(int(n), fcntl.F_DUPFD, 20) for n in sys.argv[1].split(",")]
for n, fd in enumerate(fds):
    os.dup2(fd, 3 + n)
    os.close(fd)
os.environ["LISTEN_PID"] = str(os.getpid() if sys.argv[2] == "own" else 1)
os.environ["LISTEN_FDS"] = str(len(fds))
if sys.argv[3]:
    os.environ["LISTEN_FDNAMES"] = sys.argv[3]
os.execv(sys.argv[4], sys.argv[4:])
'''


def text_of(name):
    with open(at(name)) as f:
        return f.read()


def listener(name):
    s = socket.socket(socket.AF_UNIX)
    s.bind(at(name))
    s.listen(16)
    return s


def activated(files, names, *options, pid='own', out=subprocess.DEVNULL):
    numbers = [f.fileno() for f in files]
    return subprocess.Popen([sys.executable, '-c', ACTIVATE, ','.join(map(str, numbers)), pid, names, AGENT, *options], pass_fds=numbers,
                            stdin=subprocess.DEVNULL, stdout=out, stderr=subprocess.STDOUT)


@row('socket activation: LISTEN_FDS with names, in either order, and without; one that is not a socket')
def _():
    for n, names in enumerate(('agent:panel', 'panel:agent', '')):
        a, b = listener(f'given-a{n}'), listener(f'given-b{n}')
        with open(at('activated'), 'w+') as out:
            p = activated([a, b] if names != 'panel:agent' else [b, a], names, '--gate', 'ask', out=out)
        try:
            panel = Panel(at(f'given-b{n}'))
            panel.always('LIST')
            must(Raw(argparse.Namespace(path=at(f'given-a{n}'))).ask(LIST) == EMPTY_LIST, 'not served')
            until(lambda: f'export SSH_AUTH_SOCK={at(f"given-a{n}")}\n' in text_of('activated'), text_of('activated'))
        finally:
            p.terminate()
        must(p.wait(10) == 0 and os.path.exists(at(f'given-a{n}')) and os.path.exists(at(f'given-b{n}')), 'a socket that was given is removed')
    one = listener('given-one')
    p = activated([one], '', '--panel', at('own-panel'))
    try:
        works(argparse.Namespace(path=at('given-one')), 'sh', '-c', 'ssh-add -q ed25519 && ssh-add -T ed25519.pub')
        until(lambda: os.path.exists(at('own-panel')), 'no panel')
    finally:
        p.terminate()
    must(p.wait(10) == 0 and os.path.exists(at('given-one')) and not os.path.exists(at('own-panel')), 'the wrong socket is removed')
    other = listener('not-ours')
    p = activated([other], '', '--socket', at('ours'), pid='another')
    try:
        until(lambda: serves(at('ours')), 'LISTEN_PID of another process counts')
    finally:
        p.terminate()
    p.wait(10)
    with open(at('activated'), 'w+') as out, open(at('file'), 'w') as file:
        p = activated([file], '', out=out)
        status = p.wait(10)
        out.seek(0)
        text = out.read()
        must(status == 1 and 'key-agentd: ' in text and 'panicked' not in text, f'{status} {text}')
    return 'served; the sockets stay at the end; one for another process is left alone; exit 1'
