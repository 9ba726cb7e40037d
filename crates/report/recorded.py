"""The keys in a folder of frames recorded from OpenSSH's tools, for each make.py that reads one."""
import base64
import os

KEYS = ['ed25519', 'ecdsa-256', 'ecdsa-384', 'ecdsa-521', 'rsa-2048', 'rsa-3072', 'rsa-4096']


def public_blobs(folder):
    blobs = {}
    for key in KEYS:
        with open(os.path.join(folder, 'keys', key + '.pub')) as file:
            blobs[key] = base64.b64decode(file.read().split()[1])
    return blobs
