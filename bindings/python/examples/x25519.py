"""X25519 recipients and identities of age (C2SP age.md, "The X25519 recipient type") as a caller's
own objects. An example: its arithmetic is that of python3-cryptography, and not proved."""

import base64

from cryptography.exceptions import InvalidTag
from cryptography.hazmat.primitives.asymmetric.x25519 import X25519PrivateKey, X25519PublicKey
from cryptography.hazmat.primitives.ciphers.aead import ChaCha20Poly1305
from cryptography.hazmat.primitives.hashes import SHA256
from cryptography.hazmat.primitives.kdf.hkdf import HKDF
from cryptography.hazmat.primitives.serialization import Encoding, PublicFormat

from agefile import Stanza

LETTERS = "qpzry9x8gf2tvdw0s3jn54khce6mua7l"


def bech32_bytes(text, prefix):
    """The 32 bytes of a Bech32 text with this prefix (BIP 173), whose checksum is verified."""
    found, _, rest = text.lower().rpartition("1")
    values, check = [LETTERS.index(letter) for letter in rest], 1
    for value in [ord(c) >> 5 for c in found] + [0] + [ord(c) & 31 for c in found] + values:
        top, check = check >> 25, (check & 0x1FFFFFF) << 5 ^ value
        for bit, term in enumerate((0x3B6A57B2, 0x26508E6D, 0x1EA119FA, 0x3D4233DD, 0x2A1462B3)):
            check ^= term if top >> bit & 1 else 0
    bits = "".join(f"{value:05b}" for value in values[:-6])
    if found != prefix or check != 1 or len(bits) != 260 or text not in (text.lower(), text.upper()):
        raise ValueError(f"not a Bech32 text of {prefix}")
    return int(bits[:256], 2).to_bytes(32, "big")


def text_of(share):
    return base64.b64encode(share).decode().rstrip("=")


def share_of(text):
    """The share of a base64 text, whose pad bits are zero."""
    share = base64.b64decode(text + "=", validate=True)
    if len(share) != 32 or text_of(share) != text:
        raise ValueError("malformed X25519 share")
    return share


def public_of(secret):
    return secret.public_key().public_bytes(Encoding.Raw, PublicFormat.Raw)


def cipher(secret, other, share, public):
    """The cipher of a body. `exchange` refuses a share or key that is a point of low order."""
    shared = secret.exchange(X25519PublicKey.from_public_bytes(other))
    info = b"age-encryption.org/v1/X25519"
    return ChaCha20Poly1305(HKDF(SHA256(), 32, share + public, info).derive(shared))


class X25519Recipient:
    def __init__(self, text):
        self.public = bech32_bytes(text, "age")

    def wrap(self, file_key):
        secret = X25519PrivateKey.generate()
        share = public_of(secret)
        body = cipher(secret, self.public, share, self.public).encrypt(bytes(12), file_key, None)
        return [Stanza(("X25519", text_of(share)), body)]


class X25519Identity:
    def __init__(self, text):
        self.secret = X25519PrivateKey.from_private_bytes(bech32_bytes(text, "age-secret-key-"))

    def unwrap(self, stanzas):
        for args, body in stanzas:
            if args[0] != "X25519":
                continue
            if len(args) != 2 or len(body) != 32:
                raise ValueError("malformed X25519 stanza")
            share = share_of(args[1])
            try:
                return cipher(self.secret, share, share, public_of(self.secret)).decrypt(bytes(12), body, None)
            except InvalidTag:
                pass
        return None
