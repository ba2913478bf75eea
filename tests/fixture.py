"""Makes the folder of files with which the transcripts and the tests of the program start.

Nothing in it comes from the program: reference.py makes the age files, and age made those of data/.
"""

import hashlib
import os

import reference

DATA = os.path.join(os.path.dirname(os.path.abspath(__file__)), "data")
SEED = bytes(range(48))
SALT = SEED[32:]
KEY = SEED[:32]
OTHER_KEY = SEED[16:]
NEW_KEY = bytes(32)
PASSPHRASE = b"correct horse"
# The output of seq, 140,000 bytes of it: three chunks.
PLAIN = b"".join(b"%d\n" % i for i in range(1, 40000))[:140000]
HELLO = b"hello\n"


def for_keys(plain, *keys, **more):
    return reference.age_file(SEED, [reference.key_stanza(key, SALT) for key in keys], plain, **more)


def for_passphrase(plain, passphrase=PASSPHRASE, work=10):
    return reference.age_file(SEED, [reference.passphrase_stanza(passphrase, work, SALT)], plain)


def for_public_keys(count):
    """A file like those that age makes for so many public keys; nobody has the secret keys."""
    shares = [hashlib.sha256(b"%d" % number).digest() for number in range(2 * count)]
    stanzas = [reference.stanza_text([b"X25519", reference.signs(one)], other) for one, other in zip(shares[::2], shares[1::2])]
    return reference.ended(reference.VERSION + b"".join(stanzas), SEED[:16]) + for_keys(HELLO, KEY)[156:]


def changed(file, at):
    """The file, with the byte at this offset changed."""
    at %= len(file)
    return file[:at] + bytes([file[at] ^ 1]) + file[at + 1 :]


def with_other_mac(file):
    """The file, with the first character of its MAC changed."""
    at = file.index(b"\n--- ") + 5
    return file[:at] + (b"B" if file[at : at + 1] == b"A" else b"A") + file[at + 1 :]


def files():
    two_chunks = PLAIN[:65537]
    key_age, two_age = for_keys(HELLO, KEY), for_keys(two_chunks, KEY)
    pass_age = for_passphrase(HELLO)
    return {
        "seed": SEED,
        "key": KEY,
        "other.key": OTHER_KEY,
        "new.key": NEW_KEY,
        "third.key": PLAIN[:32],
        "file.key": SEED[:16],
        "short.key": SEED[:31],
        "long.key": SEED[:33],
        "short.seed": SEED[:47],
        "pass": PASSPHRASE,
        "other.pass": PASSPHRASE[:-1],
        "new.pass": b"p2",
        "long.pass": bytes(65537),
        "lf": b"\n",
        "empty": b"",
        "hello": HELLO,
        "yesterday": PLAIN[:292],
        "plain": PLAIN,
        "two_chunks": two_chunks,
        "full": PLAIN[:65536],
        "key.age": key_age,
        "pass.age": pass_age,
        "pass_1.age": for_passphrase(HELLO, work=1),
        "empty.age": for_keys(b"", KEY),
        "empty_pass.age": for_passphrase(b""),
        "full.age": for_keys(two_chunks[:65536], KEY),
        "two.age": two_age,
        "two_pass.age": for_passphrase(two_chunks),
        "plain.age": for_keys(PLAIN, KEY),
        "plain_pass.age": for_passphrase(PLAIN),
        "two_keys.age": for_keys(two_chunks, KEY, OTHER_KEY),
        "recipients_668.age": for_public_keys(668),
        "no_pass.age": for_passphrase(HELLO, b"", 1),
        "empty_final.age": for_keys(PLAIN[:65536], KEY, empty_final=True),
        "cut.age": key_age[:120],
        "damaged.age": changed(key_age, -1),
        "damaged_two.age": changed(two_age, -1),
        "mac.age": with_other_mac(pass_age),
    }


def make(folder):
    """Makes the folder, which must not exist."""
    os.mkdir(folder)
    for name, text in files().items():
        with open(os.path.join(folder, name), "wb") as file:
            file.write(text)
    os.mkdir(os.path.join(folder, "folder"))
    os.symlink(DATA, os.path.join(folder, "data"))
