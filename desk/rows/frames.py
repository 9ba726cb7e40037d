"""Frames, and a client that sends what it likes."""
import socket
import struct

FAILURE, SUCCESS, EMPTY_LIST = b'\5', b'\6', b'\x0c\0\0\0\0'
LIST, SIGN, ADD, REMOVE, LOCK, UNLOCK, ADD_CONSTRAINED = b'\x0b', b'\x0d', b'\x11', b'\x12', b'\x16', b'\x17', b'\x19'


def string(b):
    return struct.pack('>I', len(b)) + b


def strings(b):
    """The strings that stand one behind the other in b."""
    found = []
    while b:
        n = struct.unpack('>I', b[:4])[0]
        found.append(b[4:4 + n])
        b = b[4 + n:]
    return found


def receive(conn):
    """The next frame's payload; None where the connection ends before it is whole."""
    got = b''
    while len(got) < 4 or len(got) < 4 + struct.unpack('>I', got[:4])[0]:
        try:
            part = conn.recv(65536)
        except ConnectionResetError:
            part = b''
        if not part:
            return None
        got += part
    return got[4:]


def receive_all(conn, n):
    """The payloads of the next n frames, which may come in one; the connection stays open."""
    got, found = b'', []
    while len(found) < n:
        while len(got) >= 4 and len(got) >= 4 + struct.unpack('>I', got[:4])[0]:
            end = 4 + struct.unpack('>I', got[:4])[0]
            found.append(got[4:end])
            got = got[end:]
        if len(found) < n:
            part = conn.recv(65536)
            if not part:
                return found
            got += part
    return found + [got] * (got != b'')


class Raw:
    def __init__(self, agent):
        self.conn = socket.socket(socket.AF_UNIX)
        self.conn.connect(agent.path)
        self.conn.settimeout(10)

    def send(self, b):
        self.conn.sendall(b)

    def ask(self, payload):
        """The reply's payload; None where the agent closes."""
        self.send(string(payload))
        return receive(self.conn)

    def is_closed(self):
        """The agent has closed, and sent nothing before it."""
        return receive(self.conn) is None
