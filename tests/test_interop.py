"""Files exchanged between the program and the tool `age`, if that is installed. The tests of the libraries
exchange files between the libraries and the program."""

import os
import re
import shutil
import subprocess
import sys
import unittest

import fixture
from messages import message
from program import TESTS, ProgramCase, read, write
from test_headers import header_in, table

PREFIX = b" ".join(b"%d" % i for i in range(1, 101))[:64]
# Sizes, each with another passphrase.
ROWS = ((1, b"correct horse"), (65536, "p\xe4ssw\xf6rd \u2603 \U0001f986".encode()), (65537, PREFIX), (200000, PREFIX + b"x"))


@unittest.skipUnless(shutil.which("age"), "age is missing")
class Age(ProgramCase):
    def age(self, secret, *words):
        """Runs age, and types the passphrase at its prompts."""
        words = [sys.executable, TESTS + "/terminal.py", secret, "age", *words]
        return subprocess.run(words, stdin=subprocess.DEVNULL, capture_output=True, timeout=600)

    def age_writes(self, secret, *words):
        done = self.age(secret, *words)
        self.assertEqual((done.returncode, done.stderr), (0, b""))

    def age_opens(self, plain):
        """age opens the file `made`."""
        self.age_writes("secret", "-d", "-o", "back", "made")
        self.assert_file("back", plain)

    def test_both_ways(self):
        """agep encrypts, or encrypts and rewraps, and age decrypts; age encrypts, and agep decrypts."""
        for size, secret in ROWS:
            with self.subTest(f"{size} bytes, {secret}"):
                plain = os.urandom(size)
                write("plain", plain)
                write("secret", secret)
                self.writes(b"", "encrypt", "-p", "secret", "-w", "10", "-o", "made", "plain")
                self.age_opens(plain)
                self.writes(b"", "encrypt", "-p", "new.pass", "-w", "10", "-o", "old", "plain")
                self.writes(b"", "rewrap", "-p", "new.pass", "-P", "secret", "-w", "10", "-o", "made", "old")
                self.age_opens(plain)
                self.age_writes("secret", "-p", "-o", "made", "plain")
                self.writes(plain, "decrypt", "-p", "secret", "made")

    def test_many_recipients(self):
        """The header of age for as many public keys as 65,536 bytes hold."""
        keys = subprocess.run(["age-keygen"], capture_output=True, check=True).stdout
        write("keys", b"%s\n" % re.search(rb"# public key: (.*)", keys)[1] * 668)
        subprocess.run(["age", "-R", "keys", "-o", "many.age", "hello"], check=True)
        header = header_in(read("many.age"))
        self.assertEqual(len(header), 65534)
        self.writes(table(header), "inspect", "many.age")

    def test_default_work_factor(self):
        write("secret", b"correct horse")
        self.writes(b"", "encrypt", "-p", "secret", "-o", "made", "hello")
        self.age_opens(fixture.HELLO)

    def test_another_last_byte(self):
        """Of two passphrases of 65 bytes that differ in the last, neither opens the other's file."""
        write("secret", PREFIX + b"x")
        write("other", PREFIX + b"y")
        self.age_writes("secret", "-p", "-o", "made", "hello")
        self.says(message("WrongKey"), "decrypt", "-p", "other", "made")
        self.writes(b"", "encrypt", "-p", "other", "-w", "10", "-o", "others", "hello")
        done = self.age("secret", "-d", "-o", "back", "others")
        self.assertNotEqual(done.returncode, 0)
        self.assertIn(b"incorrect passphrase", done.stderr)
