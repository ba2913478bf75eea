"""Finds the file key, the nonce and the salt of an age v1 file with one stanza, following the RFCs and
sharing no code with the crates. With these bytes as the seed, reference.py makes the same file again."""

import base64
import hashlib

from reference import hkdf, sealed


def decoded(text):
    return base64.b64decode(text + b"=" * (-len(text) % 4), validate=True)


def parts(file, secret):
    """The 48 bytes; the secret is the passphrase or the key."""
    version, stanza, body, mac, rest = file.split(b"\n", 4)
    arrow, kind, salt, *work = stanza.split(b" ")
    if version != b"age-encryption.org/v1" or arrow != b"->" or not mac.startswith(b"--- "):
        raise AssertionError("not a file with one stanza")
    salt, body = decoded(salt), decoded(body)
    if kind == b"scrypt":
        wrap_key = hashlib.scrypt(
            secret, salt=b"age-encryption.org/v1/scrypt" + salt,
            n=2 ** int(work[0]), r=8, p=1, dklen=32, maxmem=2**31 - 1,
        )
    else:
        wrap_key = hkdf(secret, salt, kind)
    # The cipher is an XOR, so sealing also opens.
    file_key = sealed(wrap_key, bytes(12), body[:-16])[:-16]
    if sealed(wrap_key, bytes(12), file_key) != body:
        raise AssertionError("the secret does not open this file")
    return file_key + rest[:16] + salt
