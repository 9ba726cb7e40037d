"""Processes: what the kernel says of them, and those of another user."""
import os

NOBODY, ANOTHER = 65534, 1


def become(uid):
    os.setgroups([])
    os.setgid(uid)
    os.setuid(uid)


def as_user(uid, f):
    """What f returns (a text) in a process of this user; of our own where it is None."""
    there, here = os.pipe()
    child = os.fork()
    if child == 0:
        try:
            if uid is not None:
                become(uid)
            said = f()
        except Exception as e:
            said = f'{type(e).__name__}: {e}'
        os.write(here, said.encode())
        os._exit(0)
    os.close(here)
    with open(there) as said:
        text = said.read()
    os.waitpid(child, 0)
    return text


def status(process, name):
    with open(f'/proc/{process}/status') as f:
        return next(line.split(':', 1)[1].strip() for line in f if line.startswith(name + ':'))


def cpu(a):
    """Seconds of processor time that the agent has taken."""
    with open(f'/proc/{a.process.pid}/stat') as f:
        fields = f.read().rsplit(')', 1)[1].split()
    return (int(fields[11]) + int(fields[12])) / os.sysconf('SC_CLK_TCK')


def is_emulated(process):
    """Does it run in an emulator, whose own memory then counts? Only root can tell."""
    return os.geteuid() == 0 and os.path.basename(os.readlink(f'/proc/{process}/exe')).startswith('qemu')
