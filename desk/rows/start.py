"""Rows: how the agent starts and ends."""
import argparse
import os
import re
import signal
import socket
import stat
import subprocess
import time

from . import base
from .agents import Desk, said, serves
from .base import AGENT, HERE, at, must, row, until
from .frames import EMPTY_LIST, LIST, Raw
from .tools import fails, run


@row('start: `desk/start` prints the `SSH_AUTH_SOCK` line; the socket has mode 0600; Ctrl-C removes it')
def _():
    with Desk('--confirm', 'no', command=(os.path.join(HERE, 'start'),)) as a:
        must(f'export SSH_AUTH_SOCK={a.path}\n' in a.log(), a.log())
        for path in (a.path, a.panel_path):
            must(stat.S_IMODE(os.stat(path).st_mode) == 0o600, f'mode {os.stat(path).st_mode:o}')
        fails(a, 'ssh-add', '-l', says='no identities')
        second = subprocess.run([AGENT, '--socket', a.path], capture_output=True, text=True)
        must(second.returncode == 1 and 'already' in second.stderr, second.stderr)
        fails(a, 'ssh-add', '-l', says='no identities')
        a.end(signal.SIGINT)
        must(a.process.returncode == 0 and not os.path.exists(a.path) and not os.path.exists(a.panel_path), 'left behind')
    b = Desk()
    b.end(signal.SIGKILL)  # its socket stays
    c = subprocess.Popen([AGENT, '--socket', b.path], stdin=subprocess.DEVNULL, stdout=subprocess.DEVNULL)
    try:
        until(lambda: run(b, 'ssh-add', '-l')[1] == 'The agent has no identities.', 'the stale socket is not replaced')
    finally:
        c.send_signal(signal.SIGTERM)
    must(c.wait(10) == 0 and not os.path.exists(b.path), 'left behind')
    return 'printed, 0600, removed; a second agent on the path is refused, a stale socket replaced'


def mode(path):
    return stat.S_IMODE(os.stat(path).st_mode)


@row('no `--socket`: a new folder of mode 0700 in `$XDG_RUNTIME_DIR`, or in /tmp; any umask; gone at the end')
def _():
    os.makedirs(at('run'), exist_ok=True)
    for runtime in (at('run'), None):
        env = {k: v for k, v in os.environ.items() if k not in ('XDG_RUNTIME_DIR', 'TMPDIR')}
        if runtime:
            env['XDG_RUNTIME_DIR'] = runtime
        for umask in (0, 0o177):
            with open(at('said'), 'a+') as out:  # the agent writes at its end, wherever we have read
                out.truncate(0)
                p = subprocess.Popen([AGENT, '--panel', at('run/panel')], stdin=subprocess.DEVNULL, stdout=out, env=env,
                                     preexec_fn=lambda: os.umask(umask))
                try:
                    def line():
                        out.seek(0)
                        return re.search('^export SSH_AUTH_SOCK=(.*)\n', out.read())
                    until(line, 'no agent')
                    path = line()[1]
                    folder = os.path.dirname(path)
                    must(os.path.dirname(folder) == (runtime or '/tmp'), path)
                    must((mode(folder), mode(path), mode(at('run/panel'))) == (0o700, 0o600, 0o600), f'{mode(folder):o} {mode(path):o}')
                    must(run(argparse.Namespace(path=path), 'ssh-add', '-l')[1] == 'The agent has no identities.', 'not served')
                finally:
                    p.terminate()
                must(p.wait(10) == 0 and not os.path.exists(folder) and not os.path.exists(at('run/panel')), 'left behind')
    return '0700 and 0600; gone'


@row('a socket whose name has a space and a quote, a relative one; one name for both sockets')
def _():
    for name in ("a b'c", 'relative'):
        p = subprocess.Popen([AGENT, '--socket', name], stdin=subprocess.DEVNULL, stdout=subprocess.PIPE, text=True, cwd=base.folder)
        try:
            line = p.stdout.readline()
            done = subprocess.run(['sh', '-c', line + 'printf "%s\\n" "$SSH_AUTH_SOCK"; ssh-add -l'], stdout=subprocess.PIPE, text=True, cwd='/')
            must(done.stdout == f'{at(name)}\nThe agent has no identities.\n', f'{line} {done.stdout}')
        finally:
            p.terminate()
            p.communicate()
        must(not os.path.exists(at(name)), 'left behind')
    status, out, error = said('--socket', at('both'), '--panel', at('both'))
    must(status == 1 and 'already' in error and not os.path.exists(at('both')), f'{status} {out} {error}')
    return 'the line that it prints works in a shell; refused, and nothing is left'


@row('not started: `$XDG_RUNTIME_DIR` or a folder that is not there, a file at the path, too long a path; bad usage')
def _():
    with open(at('file'), 'w') as f:
        f.write('kept')
    status, out, error = said(env={**os.environ, 'XDG_RUNTIME_DIR': at('nowhere')})
    must(status == 1 and out == '' and at('nowhere') in error and 'XDG_RUNTIME_DIR' in error, f'{status} {out} {error}')
    for path in (at('nowhere/agent'), at('file'), at('x' * 120)):
        for options in (('--socket', path), ('--socket', at('first'), '--panel', path)):
            status, out, error = said(*options)
            must(status == 1 and error.startswith('key-agentd: ') and path in error and 'panicked' not in error, f'{options}: {status} {error}')
            must(not os.path.exists(at('first')), f'{options}: the first socket is left behind')
    with open(at('file')) as f:
        must(f.read() == 'kept', 'the file is replaced')
    for words in (['--gate', 'maybe'], ['--confirm', ''], ['--sign', 'perhaps'], ['--nothing'], ['word'], ['--socket'], ['--log=loud'],
                  ['--question-timeout', 'x'], ['--question-timeout', '-1'], ['--idle-timeout', ''], ['--max-connections', 'many'],
                  ['--max-connections', '-3']):
        status, out, error = said(*words)
        must(status == 2 and out == '' and error and 'panicked' not in error, f'{words}: {status} {out} {error}')
    return 'exit 1 and what is wrong, nothing left behind, the file kept; exit 2'


@row('a socket whose owner hangs; one that was replaced meanwhile')
def _():
    hung = socket.socket(socket.AF_UNIX)
    hung.bind(at('hung'))
    hung.listen(0)
    waiting = [socket.socket(socket.AF_UNIX) for _ in range(3)]
    for s in waiting:
        s.setblocking(False)
        s.connect_ex(at('hung'))
    status, out, error = said('--socket', at('hung'))
    must(status == 1 and 'already' in error and os.path.exists(at('hung')), f'{status} {out} {error}')
    with Desk() as first:
        os.unlink(first.path)
        second = subprocess.Popen([AGENT, '--socket', first.path], stdin=subprocess.DEVNULL, stdout=subprocess.DEVNULL)
        try:
            until(lambda: serves(first.path), 'no second agent')
            first.end(signal.SIGTERM)
            must(Raw(first).ask(LIST) == EMPTY_LIST, 'the second has lost its socket')
        finally:
            second.terminate()
        must(second.wait(10) == 0 and not os.path.exists(first.path), 'left behind')
    return 'refused at once; an agent removes its own socket alone'


@row('four agents started at once on one stale socket, twenty times')
def _():
    stale = socket.socket(socket.AF_UNIX)
    stale.bind(at('stale'))
    stale.close()
    for _ in range(20):
        agents = [subprocess.Popen([AGENT, '--socket', at('stale')], stdin=subprocess.DEVNULL, stdout=subprocess.PIPE, stderr=subprocess.PIPE,
                                   text=True) for _ in range(4)]
        first = [p.stdout.readline() for p in agents]
        serving = [p for p, line in zip(agents, first) if line]
        must(len(serving) == 1, f'{len(serving)} serve it')
        must(Raw(argparse.Namespace(path=at('stale'))).ask(LIST) == EMPTY_LIST, 'nobody serves it')
        serving[0].kill()  # its socket stays
        for p in agents:
            p.communicate(timeout=10)
        must(sorted(p.returncode for p in agents) == [-9, 1, 1, 1], f'{[p.returncode for p in agents]}')
    must([n for n in os.listdir(base.folder) if 'stale' in n] == ['stale'], 'more is left')
    return 'exactly one serves it, the others are refused'


@row('SIGHUP where it was ignored, as by `nohup`')
def _():
    with Desk(preexec_fn=lambda: signal.signal(signal.SIGHUP, signal.SIG_IGN)) as a:
        a.process.send_signal(signal.SIGHUP)
        time.sleep(0.3)
        must(a.process.poll() is None and Raw(a).ask(LIST) == EMPTY_LIST, 'it ends')
        a.end(signal.SIGTERM)
        must(a.process.returncode == 0 and not os.path.exists(a.path), 'left behind')
    return 'it goes on; SIGTERM ends it'


@row('SIGTERM, SIGHUP, SIGINT, with a client, an open question and a panel there')
def _():
    for how in (signal.SIGTERM, signal.SIGHUP, signal.SIGINT):
        with Desk('--gate', 'ask') as a:
            r = Raw(a)
            r.send(b'\0\0\0\1\x0b')
            a.waiting('LIST')
            a.end(how)
            must(a.process.returncode == 0 and not os.path.exists(a.path) and not os.path.exists(a.panel_path), f'{how}: exit {a.process.returncode}')
            must(a.log().endswith('agent: ended, socket removed\n'), a.log())
            must(r.is_closed(), 'answered')
            must(a.panel.ended.wait(5), 'the panel is open')
    return 'exit 0, both sockets removed; client and panel see the end'


@row('`--version`; `--help` names every option')
def _():
    status, out, error = said('--version')
    must(status == 0 and re.fullmatch(r'key-agentd \d+\.\d+\.\d+\n', out), f'{status} {out} {error}')
    for word in ('--help', '-h'):
        status, out, error = said(word)
        must(status == 0 and error == '', f'{status} {error}')
        for option in ('--socket', '--gate', '--confirm', '--sign', '--panel', '--log', '--question-timeout', '--idle-timeout', '--max-connections',
                       '--version', '--help', 'COMMAND'):
            must(option in out, f'{word} does not name {option}')
    for text in ('ask NUMBER conn N', 'answered NUMBER', 'gone NUMBER', 'watch', 'show', 'SSH_AUTH_SOCK', 'exit status', 'LISTEN_FDS'):
        must(text.lower() in out.lower() or text.lower() in said('--help')[1].lower(), f'--help says nothing of {text}')
    return 'all named, with the panel\'s words and the exit status'
