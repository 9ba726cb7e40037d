"""The agents: the one under test with its panel, OpenSSH's, and russh's."""
import os
import re
import signal
import socket
import subprocess
import threading
import time

from .base import AGENT, at, must, until
from .frames import receive


def serves(path):
    """Does somebody listen there?"""
    with socket.socket(socket.AF_UNIX) as s:
        return s.connect_ex(path) == 0


class Panel:
    """A connection to the panel's socket. Its lines are kept, its questions answered."""

    def __init__(self, path):
        self.conn = socket.socket(socket.AF_UNIX)
        self.conn.connect(path)
        self.lines, self.open, self.gone, self.standing, self.error = [], {}, set(), None, ''
        self.ended = threading.Event()
        threading.Thread(target=self.read, daemon=True).start()

    def read(self):
        try:
            for line in self.conn.makefile(encoding='utf-8', errors='replace'):
                self.take(line)
        except OSError:
            pass
        self.ended.set()

    def take(self, line):
        what, _, rest = line.strip().partition(' ')
        number, _, text = rest.partition(' ')
        if what == 'ask':
            if self.standing and re.search(self.standing, text):
                self.answer(int(number), True)
            else:
                self.open[int(number)] = text
        elif what == 'gone':
            self.gone.add(int(number))
            self.open.pop(int(number), None)
        elif what == 'error':
            self.error = line
        self.lines.append(line.rstrip('\n'))

    def waiting(self, text, n=1):
        """The numbers of the open questions with this text, once they are n."""
        found = []

        def there():
            found[:] = sorted(k for k, v in list(self.open.items()) if re.search(text, v))
            return len(found) == n
        until(there, f'{n} open questions {text!r}, open are {self.open}')
        return found

    def say(self, line):
        self.conn.sendall(line.encode() + b'\n')

    def answer(self, number, yes):
        self.open.pop(number, None)
        self.say(f'{number} {"y" if yes else "n"}')

    def always(self, text):
        """Questions with this text are answered yes from now on, open ones too."""
        self.standing = text
        for number, open_text in list(self.open.items()):
            if text and re.search(text, open_text):
                self.answer(number, True)

    def blocks(self):
        """The whole blocks that it was sent, of lock and keys: each a list of lines without `end`."""
        found, block = [], None
        for line in list(self.lines):
            if line.startswith('lock '):
                block = [line]
            elif line == 'end' and block:
                found.append(block)
                block = None
            elif line.startswith('key ') and block:
                block.append(line)
        return found

    def said(self, text, seconds=10):
        """The first line with this text, once it is there."""
        def line():
            return next((i for i in list(self.lines) if re.search(text, i)), None)
        until(lambda: line() is not None, f'the panel does not say {text!r}: {self.lines}', seconds)
        return line()


class Desk:
    """An agent started with these options, its log kept, its panel watched."""
    count = 0

    def __init__(self, *options, command=(AGENT,), log='--log', panics=False, input=subprocess.DEVNULL, **how):
        Desk.count += 1
        self.path, self.panel_path, self.log_path = (at(f'{name}{Desk.count}') for name in ('agent', 'panel', 'log'))
        self.panics = panics
        self.log_file = open(self.log_path, 'wb')
        self.process = subprocess.Popen([*command, log, '--socket', self.path, '--panel', self.panel_path, *options], stdin=input,
                                        stdout=self.log_file, stderr=subprocess.STDOUT, **how)
        try:
            until(lambda: 'Ctrl-C ends it' in self.written() or self.process.poll() is not None, 'no agent', 60)
        except AssertionError:
            self.process.kill()
            raise
        must(self.process.poll() is None, f'the agent ended: {self.log()}')
        self.panel = Panel(self.panel_path)
        self.waiting, self.answer, self.always = self.panel.waiting, self.panel.answer, self.panel.always

    def written(self):
        with open(self.log_path, encoding='utf-8', errors='replace') as f:
            return f.read()

    def log(self):
        """What it has written, once nothing more comes: a thread of its own writes."""
        before, text = None, self.written()
        while text != before and self.process.poll() is None:
            time.sleep(0.05)
            before, text = text, self.written()
        return self.written()

    def logged(self, text, n=1):
        """The log has this so many times, or will soon."""
        until(lambda: len(re.findall(text, self.written())) >= n, f'the log has not {text!r}: {self.written()[-1500:]}', 5)

    def end(self, how=signal.SIGINT):
        if self.process.poll() is None:
            self.process.send_signal(how)
        self.process.wait(10)
        self.log_file.close()

    def __enter__(self):
        return self

    def __exit__(self, kind, value, trace):
        try:
            self.end()
        except subprocess.TimeoutExpired:
            self.process.kill()
            self.process.wait()
            must(value is not None, 'the agent does not end')
        if value is None:
            must(self.panics or not re.search('Traceback|panicked', self.log()), f'the host stumbled: {self.log()}')


def said(*options, command=(), seconds=10, **how):
    """The agent run to its end: exit status, standard output, standard error."""
    how.setdefault('stdin', subprocess.DEVNULL)
    done = subprocess.run([AGENT, *options, *(['--', *command] if command else [])], capture_output=True, text=True, timeout=seconds, **how)
    return done.returncode, done.stdout, done.stderr


class OpenSSH:
    """OpenSSH's ssh-agent."""

    def __enter__(self):
        self.path = at('openssh')
        self.process = subprocess.Popen(['ssh-agent', '-D', '-a', self.path], stdout=subprocess.DEVNULL, stderr=subprocess.DEVNULL)

        until(lambda: serves(self.path), 'no ssh-agent')
        return self

    def __exit__(self, *_):
        self.process.terminate()
        self.process.wait(10)


class Russh:
    """russh 0.65.0's agent (the oracle's driver) behind a socket; its gate questions wait as they do in Desk."""

    def __init__(self, driver):
        self.path = at('russh')
        self.process = subprocess.Popen([driver], stdin=subprocess.PIPE, stdout=subprocess.PIPE, text=True, bufsize=1,
                                        env={**os.environ, 'INTERACTIVE': '1'})
        self.mutex, self.open, self.events, self.standing = threading.Lock(), {}, {}, None
        self.line('gate-always ?', False)
        self.listener = socket.socket(socket.AF_UNIX)
        self.listener.bind(self.path)
        self.listener.listen(16)
        threading.Thread(target=self.serve, daemon=True).start()

    def line(self, text, answers=True):
        self.process.stdin.write(text + '\n')
        self.process.stdin.flush()
        return self.process.stdout.readline().strip() if answers else None

    def serve(self):
        n = 0
        while True:
            try:
                conn, _ = self.listener.accept()
            except OSError:
                return
            n += 1
            threading.Thread(target=self.connection, args=(conn, n), daemon=True).start()

    def connection(self, conn, n):
        while True:
            payload = receive(conn)
            if payload is None:
                break
            with self.mutex:
                said = self.line(f'to c{n} {payload.hex() or "-"}')
            while said.startswith('ask'):
                if not (self.standing and re.search(self.standing, said)):
                    self.events[n] = threading.Event()
                    self.open[n] = said
                    self.events[n].wait()
                with self.mutex:
                    said = self.line(f'ans c{n} y')
            if not said.startswith('reply'):
                break
            conn.sendall(bytes.fromhex(said.split()[1]))
        conn.close()

    def waiting(self, text, n=1):
        until(lambda: len(self.open) == n, f'{n} open questions')
        return sorted(self.open)

    def answer(self, number, yes):
        self.open.pop(number)
        self.events[number].set()

    def always(self, text):
        self.standing = text

    def __enter__(self):
        return self

    def __exit__(self, *_):
        self.listener.close()
        self.process.stdin.close()
        self.process.wait(10)
