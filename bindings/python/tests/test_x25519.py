"""The example for X25519 recipients, in both directions with `age`."""

import io
import os
import shutil
import subprocess
import sys
import tempfile
import unittest

import agefile

sys.path.insert(0, os.path.join(os.path.dirname(__file__), "../examples"))
try:
    import x25519
except ImportError as error:
    raise unittest.SkipTest(str(error)) from error

PLAIN = bytes(range(256)) * 1000


def age(*words, data):
    return subprocess.run(["age", *words], input=data, capture_output=True, check=True).stdout


@unittest.skipIf(shutil.which("age") is None, "age is missing")
class WithAge(unittest.TestCase):
    @classmethod
    def setUpClass(cls):
        folder = tempfile.TemporaryDirectory()
        cls.addClassCleanup(folder.cleanup)
        cls.pairs = []
        for name in ("one", "two"):
            path = os.path.join(folder.name, name)
            subprocess.run(["age-keygen", "-o", path], capture_output=True, check=True)
            public = subprocess.check_output(["age-keygen", "-y", path], text=True).strip()
            with open(path, encoding="ascii") as file:
                secret = file.read().split()[-1]
            cls.pairs.append((path, public, secret))

    def test_several_recipients(self):
        """The identity of each of several recipients opens a file of age, as a whole and by ranges,
        and finds its own stanza."""
        (_, one, first), (_, two, second) = self.pairs
        file = age("-r", one, "-r", two, data=PLAIN)
        kinds = [stanza.args[0] for stanza in agefile.inspect(file).stanzas]
        self.assertEqual([kind for kind in kinds if not kind.endswith("-grease")], ["X25519", "X25519"])
        for secret in (first, second):
            identity = x25519.X25519Identity(secret)
            self.assertEqual(agefile.decrypt(file, identities=identity), PLAIN)
            with agefile.open(io.BytesIO(file), identities=identity) as opened:
                opened.seek(70000)
                self.assertEqual(opened.read(10), PLAIN[70000:70010])

    def test_grease(self):
        """`age` and the example open a file with unknown stanzas before, between and after the others."""

        class Grease:
            def wrap(self, file_key):
                return [agefile.Stanza((f"{os.urandom(3).hex()}-grease", "a~!", "b"), os.urandom(length)) for length in (0, 47, 48, 100)]

        grease, recipients = Grease(), [x25519.X25519Recipient(public) for _, public, _ in self.pairs]
        file = agefile.encrypt(PLAIN, recipients=[grease, recipients[0], grease, recipients[1], grease])
        self.assertEqual(len(agefile.inspect(file).stanzas), 14)
        for path, _, secret in self.pairs:
            self.assertEqual(age("-d", "-i", path, data=file), PLAIN)
            self.assertEqual(agefile.decrypt(file, identities=x25519.X25519Identity(secret)), PLAIN)

    def test_malformed_stanzas(self):
        """Shares of low order or wrong length, no share, and short bodies are refused as by age."""
        path, _, secret = self.pairs[0]
        for args, body in ((("X25519", "A" * 43), bytes(32)), (("X25519", "A" * 42), bytes(32)), (("X25519",), bytes(32)), (("X25519", "A" * 43), bytes(31))):
            class Bad:
                def wrap(self, file_key):
                    return [agefile.Stanza(args, body)]

            file = agefile.encrypt(b"", recipients=Bad())
            self.assertRaises(ValueError, agefile.decrypt, file, identities=x25519.X25519Identity(secret))
            self.assertRaises(subprocess.CalledProcessError, age, "-d", "-i", path, data=file)

    def test_texts_that_are_refused(self):
        _, public, secret = self.pairs[0]
        for text in (public[:-1] + ("q" if public[-1] != "q" else "p"), public[:-1], secret, "age1", public.swapcase()[:10] + public[10:]):
            self.assertRaises(ValueError, x25519.X25519Recipient, text)
        self.assertRaises(ValueError, x25519.X25519Identity, public)
