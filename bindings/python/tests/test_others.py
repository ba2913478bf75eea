"""Files exchanged in both directions with tests/reference.py and agep; the parts of a new file that must be
fresh or secret; work factors; and files of passphrases and keys."""

import base64
import errno
import io
import itertools
import os
import pickle
import subprocess
import sys
import unittest
from unittest import mock

import agefile
from agefile import AgeError, Key, Passphrase, Stanza
from support import AGEP, KEY, InFolder, copied, message, pattern, text

import reference
from parts import parts

SIZES = (0, 1, 65536, 65537, 150000)
# sizes for the reference, which takes a second for a few chunks
FEW = (0, 1000, 65537)
SEED = bytes(range(100, 148))
PASSPHRASE = b"correct horse"


def ways_to_open(secret):
    """Ways to read a file in memory with this package."""
    def ranges(file):
        with agefile.open(io.BytesIO(file), identities=secret) as opened:
            begins = range(0, opened.length, 50000)
            found = {at: (opened.seek(at), opened.read(50000))[1] for at in reversed(begins)}
        return b"".join(found[at] for at in begins)

    yield from (lambda file, n=n: agefile.decrypt(file, identities=secret, threads=n) for n in (1, 3))
    yield from (lambda file, n=n: copied(file, identities=secret, threads=n) for n in (1, 3))
    yield ranges


def ways_to_make(recipients):
    """Ways to make a file in memory with this package."""
    def writer(plain):
        out = io.BytesIO()
        with agefile.open(out, "wb", recipients=recipients) as file:
            for at in range(0, len(plain), 40000):
                file.write(plain[at : at + 40000])
        return out.getvalue()

    yield from (lambda plain, n=n: agefile.encrypt(plain, recipients=recipients, threads=n) for n in (1, 3))
    yield from (lambda plain, n=n: copied(plain, recipients=recipients, threads=n) for n in (1, 3))
    yield writer
    yield lambda plain: agefile.rewrap(agefile.encrypt(plain, recipients=Key(bytes(32))), identities=Key(bytes(32)), recipients=recipients)


class Noting:
    """A recipient and identity of the test, which records the file key."""

    def __init__(self):
        self.keys = []

    def wrap(self, file_key):
        self.keys.append(bytes(file_key))
        return [Stanza(("noted", str(len(self.keys) - 1)), b"")]

    def unwrap(self, stanzas):
        return next((self.keys[int(args[1])] for args, _ in stanzas if args[0] == "noted"), None)


class Reference(unittest.TestCase):
    """tests/reference.py has the definitions of the RFCs, and nothing of the library."""

    KEYED = bytes(range(32)), KEY, lambda salt: reference.key_stanza(bytes(range(32)), salt)
    LOCKED = PASSPHRASE, Passphrase(PASSPHRASE, work=3), lambda salt: reference.passphrase_stanza(PASSPHRASE, 3, salt)
    EMPTY = b"", Passphrase(""), lambda salt: reference.passphrase_stanza(b"", 3, salt)

    def test_files_of_the_reference(self):
        for size in FEW:
            for _, secret, stanza in self.KEYED, self.LOCKED, self.EMPTY:
                file = reference.age_file(SEED, [stanza(SEED[32:])], text(size))
                for number, opened in enumerate(ways_to_open(secret)):
                    with self.subTest(f"{size} bytes, {secret}, way {number}"):
                        self.assertEqual(opened(file), text(size))

    def test_files_for_the_reference(self):
        """A file made here equals that of the reference with the same file key, nonce and salt, byte by byte."""
        for size in FEW:
            for given, secret, stanza in self.KEYED, self.LOCKED:
                for number, make in enumerate(ways_to_make(secret)):
                    with self.subTest(f"{size} bytes, {secret}, way {number}"):
                        file = make(text(size))
                        seed = parts(file, given)
                        self.assertEqual(file == reference.age_file(seed, [stanza(seed[32:])], text(size)), True)

    def test_passphrases(self):
        for given in (b"x", "über".encode(), "über", "字", b"\x00\xff\n", b"x" * 70000):
            file = agefile.encrypt(b"text", recipients=Passphrase(given, work=2))
            passphrase = given if isinstance(given, bytes) else given.encode("utf-8")
            (stanza,) = agefile.inspect(file).stanzas
            salt = base64.b64decode(stanza.args[1] + "==")
            arguments, _ = reference.passphrase_stanza(passphrase, 2, salt)
            self.assertEqual(stanza.args, tuple(argument.decode() for argument in arguments))
            other = reference.age_file(SEED, [reference.passphrase_stanza(passphrase, 2, SEED[32:])], b"text")
            self.assertEqual(agefile.decrypt(other, identities=Passphrase(given)), b"text")


class Fresh(unittest.TestCase):
    """The parts that are fresh in each file, and those that no file may show."""

    def test_no_file_shows_its_key(self):
        for number in range(6):
            noting = Noting()
            file = list(ways_to_make([noting, KEY]))[number](text(70000))
            for key in noting.keys:
                for shown in (key, base64.b64encode(key).rstrip(b"="), key.hex().encode()):
                    self.assertEqual(shown in file, False, f"way {number}")

    def test_64_files(self):
        """Each byte of the file keys, nonces and salts varies, and no two values of a kind are equal."""
        noting, nonces, salts = Noting(), [], {"scrypt": [], "example.org/key": []}
        for number in range(64):
            for recipients in ([noting, KEY], Passphrase("x", work=1)):
                file = agefile.encrypt(b"", recipients=recipients)
                header = agefile.inspect(file)
                nonces.append(file[header.length : header.length + 16])
                kind, salt = header.stanzas[-1].args[:2]
                salts[kind].append(base64.b64decode(salt + "=="))
        for name, values in {"file key": noting.keys, "nonce": nonces, **salts}.items():
            with self.subTest(name):
                self.assertEqual({len(value) for value in values}, {16})
                self.assertEqual(len(set(values)), len(values))
                self.assertEqual([len({value[at] for value in values}) > 8 for at in range(16)], [True] * 16)
        self.assertEqual(set(noting.keys) & set(nonces), set())

    def test_bytes_of_a_file_differ(self):
        """The file key, the nonce and the salt of a file are three values, each 16 random bytes of
        the system."""
        noting, asked, urandom = Noting(), [], os.urandom

        def noted(count):
            asked.append(urandom(count))
            return asked[-1]

        with mock.patch("os.urandom", noted):
            file = agefile.encrypt(b"", recipients=[noting, KEY])
        header = agefile.inspect(file)
        salt = base64.b64decode(header.stanzas[1].args[1] + "==")
        found = [noting.keys[0], file[header.length : header.length + 16], salt]
        self.assertEqual(sorted(found), sorted(asked))

    def test_no_file_without_random_bytes(self):
        """If the system returns no random bytes for the file key, the nonce or a salt, each way raises the
        system's error."""
        urandom = os.urandom
        for number, make in enumerate(ways_to_make([KEY, KEY])):
            for failing in range(4):
                calls = itertools.count()

                def fails(count):
                    if next(calls) == failing:
                        raise OSError(errno.ENOSYS, "no random bytes")
                    return urandom(count)

                with self.subTest(f"way {number}, call {failing}"), mock.patch("os.urandom", fails), self.assertRaisesRegex(OSError, "no random bytes"):
                    make(b"text")

    def test_default_work_factor(self):
        file = agefile.encrypt(b"", recipients=Passphrase("x"))
        self.assertEqual(agefile.inspect(file).stanzas[0].args[2], "18")

    def test_default_maximum(self):
        """Work factor 22 is tried, although there is too little memory here, and 23 is refused."""
        code = (
            "import agefile, resource, sys\n"
            "resource.setrlimit(resource.RLIMIT_AS, (1 << 29, 1 << 29))\n"
            "try: agefile.decrypt(sys.stdin.buffer.read(), identities=agefile.Passphrase('x'))\n"
            "except agefile.AgeError as error: print(error)\n"
        )
        for work, said in ((22, message("OutOfMemory")), (23, message("Malformed", "WorkFactorTooHigh"))):
            front = f"age-encryption.org/v1\n-> scrypt {'A' * 22} {work}\n{'A' * 43}\n--- {'A' * 43}\n".encode()
            done = subprocess.run([sys.executable, "-c", code], input=front, capture_output=True)
            self.assertEqual((done.stdout.decode(), done.stderr), (said + "\n", b""))


class Programs(InFolder):
    """Files exchanged with agep."""

    def run_on(self, data, *words):
        return subprocess.run(words, input=data, capture_output=True, check=True).stdout

    def setUp(self):
        super().setUp()
        self.put(bytes(range(32)), "key")
        self.put(PASSPHRASE, "pass")

    @unittest.skipUnless(os.path.exists(AGEP), "agep is not built")
    def test_agep(self):
        for size in SIZES:
            for words, secret in (("-k key", KEY), ("-p pass", Passphrase(PASSPHRASE, work=4))):
                factor = ("-w", "4") if "-p" in words else ()
                file = self.run_on(text(size), AGEP, "encrypt", *words.split(), *factor)
                for number, opened in enumerate(ways_to_open(secret)):
                    with self.subTest(f"{size} bytes, {words}, read in way {number}"):
                        self.assertEqual(opened(file), text(size))
                for number, make in enumerate(ways_to_make(secret)):
                    with self.subTest(f"{size} bytes, {words}, made in way {number}"):
                        self.assertEqual(self.run_on(make(text(size)), AGEP, "decrypt", *words.split()), text(size))

    @unittest.skipUnless(os.path.exists(AGEP), "agep is not built")
    def test_passphrase_files_of_agep(self):
        """`from_file` removes the same line end as agep."""
        for data in (b"word", b"word\n", b"two\nlines\n", b"\xff"):
            self.put(data, "pass")
            secret = Passphrase.from_file("pass", work=2)
            with self.subTest(data):
                self.assertEqual(self.run_on(agefile.encrypt(b"text", recipients=secret), AGEP, "decrypt", "-p", "pass"), b"text")
        self.put(bytes(65537), "pass")
        self.assertRaises(ValueError, Passphrase.from_file, "pass")

    def test_passphrase_files_that_nobody_types(self):
        """They make no file in any way, as in agep, and open files that others made."""
        for data in (
            b"word\r", b"word\r\n", b"\r", b"\xef\xbb\xbfword", b"\xef\xbb\xbfword\n", b"\xef\xbb\xbfword\r\n", b"word\n\n", b"\n\n",
            b"\xff\xfew\0", b"\xfe\xff\0w",
        ):
            secret = Passphrase.from_file(io.BytesIO(data), work=1)
            for number, call in enumerate((
                lambda secret: agefile.encrypt(b"text", recipients=secret),
                lambda secret: agefile.copy(io.BytesIO(b"text"), io.BytesIO(), recipients=secret),
                lambda secret: agefile.open("made", "wb", recipients=secret),
                lambda secret: agefile.rewrap(agefile.encrypt(b"", recipients=KEY), identities=KEY, recipients=secret),
                lambda secret: pickle.loads(pickle.dumps(secret)).wrap(bytes(16)),
            )):
                with self.subTest(f"{data!r}, {number}"), self.assertRaisesRegex(ValueError, "passphrase ends in CR or LF, or begins with a byte-order mark"):
                    call(secret)
            self.assertFalse(os.path.exists("made"))
            file = agefile.encrypt(b"text", recipients=Passphrase(data.removesuffix(b"\n"), work=1))
            self.assertEqual(agefile.decrypt(file, identities=secret), b"text")

    def test_work_factors_of_a_passphrase_file(self):
        """`work` is the factor of new files, and `max_work` the largest in files to be opened."""
        one, two = (Passphrase.from_file(io.BytesIO(b"word"), work=work, max_work=1) for work in (1, 2))
        self.assertEqual(agefile.inspect(agefile.encrypt(b"", recipients=one)).stanzas[0].args[2], "1")
        self.assertRaisesRegex(AgeError, pattern("Malformed", "WorkFactorTooHigh"), agefile.decrypt, agefile.encrypt(b"", recipients=two), identities=one)

    def test_key_files(self):
        self.put(bytes(range(32)), "key")
        for file in ("key", os.open("key", os.O_RDONLY), io.BytesIO(bytes(range(32)))):
            self.assertEqual(agefile.decrypt(agefile.encrypt(b"text", recipients=KEY), identities=Key.from_file(file)), b"text")
        for wrong, found in ((bytes(31), "has 31"), (bytes(33), "has more"), (b"00" * 32, "has more"), (b"", "has 0")):
            self.assertRaisesRegex(ValueError, f"32 raw bytes, not hexadecimal; this one {found}", Key.from_file, self.put(wrong, "wrong"))
        self.assertRaises(FileNotFoundError, Key.from_file, "absent")
        for text in ("00" * 32, ""):
            self.assertRaisesRegex(TypeError, "bytes.fromhex.*Key.from_file", Key, text)
