"""Rows: logins by ssh, to an sshd of our own."""
import contextlib
import getpass
import os
import pwd
import shutil
import socket
import subprocess

from .agents import Desk
from .base import Skip, at, must, row, until
from .keys import KINDS, fingerprint, public
from .tools import fails, works


def free_port():
    with socket.socket() as s:
        s.bind(('127.0.0.1', 0))
        return s.getsockname()[1]


@contextlib.contextmanager
def sshd_running():
    """An sshd that takes all our keys; its port."""
    sshd = shutil.which('sshd', path=os.environ.get('PATH', '') + ':/usr/sbin:/usr/local/sbin')
    if not sshd:
        raise Skip('no sshd here; `desk/test --install` gets openssh-server')
    if os.geteuid() == 0:
        os.makedirs('/run/sshd', mode=0o755, exist_ok=True)
    port = free_port()
    with open(at('authorized'), 'w') as f:
        f.writelines(public(kind) + '\n' for kind in KINDS)
    with open(at('sshd_config'), 'w') as f:
        f.write(f'ListenAddress 127.0.0.1:{port}\nHostKey {at("host")}\nAuthorizedKeysFile {at("authorized")}\nPidFile none\nUsePAM no\n'
                'StrictModes no\nPasswordAuthentication no\nKbdInteractiveAuthentication no\nPermitRootLogin prohibit-password\nPrintMotd no\n')
    with open(at('sshd.log'), 'wb') as log:
        server = subprocess.Popen([sshd, '-D', '-e', '-f', at('sshd_config')], stdout=subprocess.DEVNULL, stderr=log)
    try:
        def listening():
            with socket.socket() as s:
                return server.poll() is not None or s.connect_ex(('127.0.0.1', port)) == 0
        until(listening, 'sshd does not listen')
        if server.poll() is not None:
            with open(at('sshd.log')) as f:
                raise Skip('sshd does not run here: ' + f.read().strip().replace('\n', '; '))
        yield port
    finally:
        server.terminate()
        server.wait(10)


@row('a login by `ssh`: each kind, rsa-sha2-256, `-A`; while locked')
def _():
    user = getpass.getuser()
    if os.path.basename(pwd.getpwnam(user).pw_shell) in ('nologin', 'false'):
        raise Skip(f'{user} has no shell to log in to')
    with sshd_running() as port, Desk() as a:
        base_command = ['ssh', '-F', 'none', '-p', str(port), '-o', 'StrictHostKeyChecking=no', '-o', 'UserKnownHostsFile=/dev/null',
                        '-o', 'LogLevel=ERROR', '-o', 'BatchMode=yes', '-o', 'IdentitiesOnly=yes']

        def ssh(kind, *words):
            return [*base_command, '-i', f'{elsewhere}/{kind}.pub', *words[:-1], f'{user}@127.0.0.1', words[-1]]
        for kind in KINDS:
            works(a, 'ssh-add', kind)
        elsewhere = at('login')  # public halves alone, so that ssh can only ask the agent
        os.makedirs(elsewhere, exist_ok=True)
        for kind in KINDS:
            shutil.copy(at(kind + '.pub'), elsewhere)
        for kind in KINDS:
            must(works(a, *ssh(kind, 'echo in with $SHLVL')) != '', kind)
        works(a, *ssh('rsa-2048', '-o', 'PubkeyAcceptedAlgorithms=rsa-sha2-256', 'true'))
        for text in ('hash 256', 'hash 512', 'EXTENSION         landed: FAILURE'):
            a.logged(text)
        out = works(a, *ssh('ed25519', '-A', 'ssh-add -l'))
        must(all(fingerprint(kind) in out for kind in KINDS), 'the forwarded agent does not list')
        works(a, 'ssh-add', '-x', word='night')
        fails(a, *ssh('ed25519', 'true'), says='Permission denied')
        works(a, 'ssh-add', '-X', word='night')
        works(a, *ssh('ed25519', 'true'))
    return 'in with all seven, with SHA-256 and SHA-512; the forwarded agent lists; permission denied while locked'
