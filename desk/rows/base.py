"""The list of rows, the claims they make, and the folder in which they work."""
import os
import time

HERE = os.path.dirname(os.path.dirname(os.path.abspath(__file__)))  # desk/
TOP = os.path.dirname(HERE)
AGENT = os.path.abspath(os.environ.get('KEY_AGENTD') or os.path.join(TOP, 'rust', 'target', 'release', 'key-agentd'))
rows = []
folder = ''  # for keys, sockets and logs; the runner makes it


class Skip(Exception):
    pass


def row(title):
    def put(f):
        rows.append((title, f))
        return f
    return put


def must(condition, text):
    if not condition:
        raise AssertionError(text)


def until(condition, text, seconds=10):
    end = time.monotonic() + seconds
    while not condition():
        must(time.monotonic() < end, f'waited {seconds} s: {text}')
        time.sleep(0.01)


def at(name):
    return os.path.join(folder, name)
