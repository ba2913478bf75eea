"""The builds for the levels of processor beyond the first, as ./package --build keeps them: files that cross
between them and the first, the test vectors, and texts sealed as by OpenSSL. A level that this machine's
processor lacks is skipped."""

import ctypes
import functools
import os
import random
import subprocess
import unittest

import fixture
import reference
import test_vectors
import testkit
from program import AGEP, LEVELS, ROOT, ProgramCase, levels_here, scratch, write

try:
    from cryptography.hazmat.primitives.ciphers.aead import ChaCha20Poly1305
except ImportError:
    ChaCha20Poly1305 = None

# The cipher takes 1,024 or 512 bytes at once, a rest above 128 like 512, a shorter one by 64 bytes.
EDGES = (64, 256, 320, 512, 1024, 2048, 65536)
SIZES = (0, 1, *(edge + more for edge in EDGES for more in (-1, 0, 1)), 131073, 200000)
PLAIN = b"".join(b"%d\n" % i for i in range(1, 100001))[: SIZES[-1]]
MOST = 140_000


@functools.cache
def expected(size):
    """The keyed file of a plaintext of this size, as reference.py makes it."""
    return fixture.for_keys(PLAIN[:size], fixture.KEY)


def sealed_by_openssl(file_key, nonce, plain):
    cipher = ChaCha20Poly1305(reference.hkdf(file_key, nonce, b"payload"))
    starts = range(0, max(1, len(plain)), reference.CHUNK)
    names = [(n.to_bytes(11, "big") + bytes([at == starts[-1]]), plain[at : at + reference.CHUNK]) for n, at in enumerate(starts)]
    return b"".join(cipher.encrypt(name, chunk, None) for name, chunk in names)


def library(level):
    """The library for a level, whose calls take the same arguments as those of agefile.h."""
    made, kit = f"{scratch()}/library.so", os.path.dirname(subprocess.check_output(["rt", "doc"], text=True))
    whole = [f"{ROOT}/crates/agefile/out/{level}.a", f"{kit}/c/liblibc_c.a"]
    subprocess.run(["cc", "-shared", "-o", made, "-Wl,--whole-archive", *whole, "-Wl,--no-whole-archive"], check=True)
    calls, pointer, size = ctypes.CDLL(made), ctypes.c_void_p, ctypes.c_size_t
    calls.agefile_encrypt.argtypes = [pointer, size, pointer, size, pointer, pointer, pointer, size, pointer]
    calls.agefile_decrypt.argtypes = [pointer, size, pointer, pointer, size, pointer]
    return calls


class Level:
    level = ""

    @classmethod
    def setUpClass(cls):
        if cls.level not in levels_here():
            raise unittest.SkipTest("this processor lacks the level")
        super().setUpClass()

    def test_files(self):
        """This build and the first one seal as Python does by the RFCs, and each opens what the other seals."""
        builds = [f"{AGEP}-{level}" for level in (LEVELS[0], self.level)]
        for size in SIZES:
            with self.subTest(f"{size} bytes"):
                plain = PLAIN[:size]
                write("plain", plain)
                for one, other in (builds, builds[::-1]):
                    self.writes(expected(size), "encrypt", "-k", "key", "-s", "seed", "plain", program=one)
                    self.writes(plain, "decrypt", "-k", "key", input=expected(size), program=one)
                    made = self.run_agep("encrypt", "-p", "pass", "-w", "10", "plain", program=one).out
                    self.writes(plain, "decrypt", "-p", "pass", input=made, program=other)

    def test_vectors(self):
        """The program ends on each test vector as it must."""
        self.assertEqual(test_vectors.differences(testkit.Agep(words=(f"{AGEP}-{self.level}", "decrypt"))), {})

    @unittest.skipUnless(ChaCha20Poly1305, "Python's package cryptography is missing")
    def test_texts(self):
        """3,000 texts, of each length up to 2,200 and others, are sealed as by OpenSSL; with another tag, none opens."""
        calls, chance, stanza = library(self.level), random.Random(self.level), reference.stanza_text([b"any"], b"")
        report, room = (ctypes.c_uint64 * 3)(), MOST + 1000
        out = ctypes.create_string_buffer(room + 64)
        for number in range(3000):
            size, shift = number if number <= 2200 else chance.randrange(MOST), number % 64
            plain = bytes([0xFF]) * size if number % 7 == 3 else chance.randbytes(size)
            seed, there = chance.randbytes(32), ctypes.byref(out, shift)
            key, nonce = seed[:16], seed[16:]
            self.assertEqual(calls.agefile_encrypt(plain, size, stanza, len(stanza), key, nonce, there, room, report), 0)
            file = out.raw[shift : shift + report[0]]
            self.assertTrue(file.endswith(nonce + sealed_by_openssl(key, nonce, plain)), f"sealing {size} bytes")
            self.assertEqual(calls.agefile_decrypt(file, len(file), key, there, room, report), 0)
            self.assertTrue(out.raw[shift : shift + report[0]] == plain, f"opening {size} bytes")
            file = fixture.changed(file, -1 - number % 16)
            self.assertNotEqual(calls.agefile_decrypt(file, len(file), key, there, room, report), 0, f"forging {size} bytes")


class X86_64_V3(Level, ProgramCase):
    level = LEVELS[1]


class X86_64_V4(Level, ProgramCase):
    level = LEVELS[2]
