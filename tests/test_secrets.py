"""Secrets: the random parts of new files, passphrases of any bytes and lengths compared with Python,
malformed key files, seeds."""

import base64
import hashlib
import os
import threading
import unicodedata

import fixture
import parts
import reference
from fixture import HELLO, KEY, OTHER_KEY, PLAIN, SALT, SEED
from messages import message
from program import ProgramCase, fault, preload, read, write

# How many files are made, to check that no two of their random parts are equal.
RUNS = 16


class FreshParts(ProgramCase):
    def assert_fresh(self, runs, size):
        """Each part of 16 bytes occurs only once in these runs, and each of its bytes varies: none is cut,
        constant or used again."""
        self.assertEqual({len(run) for run in runs}, {size})
        pieces = [run[at : at + 16] for run in runs for at in range(0, size, 16)]
        halves = [piece[at : at + 8] for piece in pieces for at in (0, 8)]
        self.assertEqual(len(set(pieces)), len(pieces), "a part is used twice")
        self.assertEqual(len(set(halves)), len(halves), "half a part is used twice")
        self.assertTrue(all(len(set(column)) > 1 for column in zip(*runs)), "a byte is always the same")

    def test_new_files(self):
        """The random parts of a file made without -s, which Python finds with the secret."""
        cases = [
            (("-k", "key"), KEY, lambda salt: reference.key_stanza(KEY, salt)),
            (("-p", "pass", "-w", "1"), b"correct horse", lambda salt: reference.passphrase_stanza(b"correct horse", 1, salt)),
        ]
        for words, secret, stanza_of in cases:
            runs = []
            with self.subTest(f"{words[0]}: the parts make the file again"):
                for _ in range(RUNS):
                    ran = self.run_agep("encrypt", *words, "hello")
                    self.assert_ended(ran, 0, "", None)
                    runs.append(parts.parts(ran.out, secret))
                    expected = reference.age_file(runs[-1], [stanza_of(runs[-1][32:])], HELLO)
                    self.assert_bytes(ran.out, expected)
            with self.subTest(f"{words[0]}: no part is used twice, cut, or a constant"):
                self.assert_fresh(runs, 48)
            write("made", ran.out)
            for at, check in ((0, "good"), (16, "bad"), (32, "bad")):
                with self.subTest(f"{words[0]}: under the bytes from {at} of the seed the header is {check}"):
                    write("part", runs[-1][at : at + 16])
                    ran = self.run_agep("inspect", "-f", "part", "made")
                    self.assert_ended(ran, int(at > 0), fault(message("BadMac")) if at else "", None)
                    self.assertEqual(ran.out.splitlines()[-1], b"check " + check.encode())
            with self.subTest(f"{words[0]}: the file key is in the file in no form"):
                key, made = runs[-1][:16], read("made")
                for form in (key, key[::-1], base64.b64encode(key).rstrip(b"="), key.hex().encode()):
                    self.assertNotIn(form, made)

    def test_rewrapped(self):
        """The random part of a file rewrapped without -s: the salt."""
        for words, secret in (("-K", "other.key"), OTHER_KEY), (("-P", "pass", "-w", "1"), b"correct horse"):
            salts = []
            with self.subTest(f"{words[0]}: the file key and the nonce stay"):
                for _ in range(RUNS):
                    ran = self.run_agep("rewrap", "-k", "key", *words, "key.age")
                    self.assert_ended(ran, 0, "", None)
                    found = parts.parts(ran.out, secret)
                    self.assertEqual(found[:32], SEED[:32])
                    salts.append(found[32:])
            with self.subTest(f"{words[0]}: each salt is another one, and no part of the old file"):
                self.assert_fresh(salts, 16)
                self.assert_fresh([*salts, SEED[:16], SEED[16:32], SALT], 16)

    def test_known_device(self):
        """The bytes of /dev/urandom are the file key, the nonce and the salt, in this order."""
        random = os.urandom(4096)
        write("random", random)
        seed = random[:48]
        key_age = reference.age_file(seed, [reference.key_stanza(KEY, seed[32:])], HELLO)
        pass_age = reference.age_file(seed, [reference.passphrase_stanza(b"correct horse", 3, seed[32:])], HELLO)
        rewrapped = reference.age_file(SEED[:32] + seed[32:], [reference.key_stanza(OTHER_KEY, seed[32:])], HELLO)
        for cut in ("", "one", "half"):
            env = {"LD_PRELOAD": preload("calls"), "URANDOM": os.path.abspath("random")}
            if cut:
                env.update(CALL="read", NUMBER="0", DO=cut)
            with self.subTest(f"encrypt -k, reads {cut}"):
                if os.path.exists("trace"):
                    os.remove("trace")
                self.writes(key_age, "encrypt", "-k", "key", "hello", env={**env, "TRACE": "trace"})
                rows = [line.split() for line in read("trace").decode().splitlines()]
                self.assertEqual(sum(int(size) for kind, name, size in rows if (kind, name) == ("read", "urandom")), 48)
            with self.subTest(f"encrypt -p, reads {cut}"):
                self.writes(pass_age, "encrypt", "-p", "pass", "-w", "3", "hello", env=env)
            with self.subTest(f"rewrap, reads {cut}"):
                self.writes(rewrapped, "rewrap", "-p", "pass", "-K", "other.key", "pass.age", env=env)
        with self.subTest("a device that ends after 47 bytes"):
            write("random", seed[:47])
            env = {"LD_PRELOAD": preload("calls"), "URANDOM": os.path.abspath("random")}
            self.says(message("SeedLength"), "encrypt", "-k", "key", "hello", env=env)


class Passphrases(ProgramCase):
    TEXTS = {
        "all": bytes(range(256)),
        "all backwards": bytes(range(254, -1, -1)),
        "nul": b"\0",
        "nuls before": b"\0\0correct horse",
        "line ends before": b"\n\r\ncorrect horse",
        "spaces around": b" correct horse ",
        "nfc": unicodedata.normalize("NFC", "p\xe4ssw\xf6rd \u2603 \U0001f986").encode(),
        "nfd": unicodedata.normalize("NFD", "p\xe4ssw\xf6rd \u2603 \U0001f986").encode(),
        "latin": "p\xe4ssw\xf6rd".encode("latin1"),
        "no utf8": b"\xc0\xaf\xff\xfe\xed\xa0\x80",
        "mark behind": b"correct\xef\xbb\xbfhorse\xef\xbb\xbf",
        "cr before": b"\rcorrect\rhorse",
        "upper": b"CORRECT HORSE",
    }
    # Bytes that nobody types, and that an editor or a system puts around a text.
    UNTYPED = {
        "cr after": b"correct horse\r",
        "mark": b"\xef\xbb\xbfcorrect horse",
        "mark and cr": b"\xef\xbb\xbfcorrect horse\r",
        "mark alone": b"\xef\xbb\xbf",
        "mark of UTF-16": b"\xff\xfec\0o\0r\0",
        "mark of UTF-16, high bytes first": b"\xfe\xff\0c\0o\0r",
        "mark of UTF-16 alone": b"\xff\xfe",
        "cr alone": b"\r",
        "lf after": b"correct horse\n",
        "cr and lf after": b"correct horse\r\n",
        "lf alone": b"\n",
    }

    def test_bytes(self):
        """Passphrases with every byte: the files are those of Python."""
        for name, text in self.TEXTS.items():
            expected = fixture.for_passphrase(HELLO, text, 4)
            write("secret", text)
            write("made", expected)
            with self.subTest(f"encrypt, {name}"):
                self.writes(expected, "encrypt", "-p", "secret", "-w", "4", "-s", "seed", "hello")
            with self.subTest(f"decrypt, {name}"):
                self.writes(HELLO, "decrypt", "-p", "secret", "made")
            with self.subTest(f"rewrap, {name}"):
                self.writes(expected, "rewrap", "-k", "key", "-P", "secret", "-w", "4", "-s", "seed", "key.age")
            with self.subTest(f"range, {name}"):
                self.writes(HELLO, "range", "-p", "secret", "0", "9", "made")
            with self.subTest(f"one LF more, {name}"):
                write("secret", text + b"\n")
                self.writes(HELLO, "decrypt", "-p", "secret", "made")

    def test_untyped(self):
        """A CR or LF at the end and a byte-order mark are refused for a new file, but open a file made with them."""
        for name, text in self.UNTYPED.items():
            write("made", fixture.for_passphrase(HELLO, text, 4))
            for end in (b"\n",) if text.endswith(b"\n") else (b"", b"\n"):
                write("secret", text + end)
                with self.subTest(f"{name}, then {end!r}"):
                    self.says(message("UntypedPassphrase"), "encrypt", "-p", "secret", "-w", "4", "hello")
                    self.says(message("UntypedPassphrase"), "rewrap", "-k", "key", "-P", "secret", "-w", "4", "key.age")
                    self.writes(HELLO, "decrypt", "-p", "secret", "made")
                    self.writes(HELLO, "range", "-p", "secret", "0", "9", "made")
                    self.writes(HELLO, "salvage", "-p", "secret", "made")
                    self.writes(read("key.age"), "rewrap", "-p", "secret", "-K", "key", "-s", "seed", "made")

    def test_others(self):
        """Texts that look alike are different passphrases."""
        write("made", fixture.for_passphrase(HELLO, self.TEXTS["nfc"], 4))
        write("secret", self.TEXTS["nfd"])
        with self.subTest("a letter and its accent apart"):
            self.says(message("WrongKey"), "decrypt", "-p", "secret", "made")
        others = {**self.TEXTS, **self.UNTYPED}
        for name in ("nuls before", "line ends before", "cr after", "spaces around", "mark", "upper"):
            with self.subTest(name):
                write("secret", others[name])
                self.says(message("WrongKey"), "decrypt", "-p", "secret", "pass.age")

    def test_lengths(self):
        """Each byte counts, even the last one, at lengths such as 64 bytes, a block of the hash."""
        text = b" ".join(b"%d" % i for i in range(1, 20001))
        for size in (1, 63, 64, 65, 127, 128, 129, 4096, 65535, 65536):
            prefix = text[: size - 1]
            write("prefix", prefix)
            write("this", prefix + b"x")
            write("that", prefix + b"y")
            expected = fixture.for_passphrase(HELLO, prefix + b"x", 2)
            with self.subTest(f"{size} bytes"):
                self.writes(expected, "encrypt", "-p", "this", "-w", "2", "-s", "seed", "hello")
                self.writes(HELLO, "decrypt", "-p", "this", input=expected)
            with self.subTest(f"{size} bytes, and the last one differs"):
                self.says(message("WrongKey"), "decrypt", "-p", "that", input=expected)
                ran = self.run_agep("encrypt", "-p", "that", "-w", "2", "-s", "seed", "hello")
                self.assert_ended(ran, 0, "", None)
                self.assertNotEqual(ran.out, expected)
            if size > 1:
                with self.subTest(f"{size} bytes, and the last one is missing"):
                    self.says(message("WrongKey"), "decrypt", "-p", "prefix", input=expected)

    def test_equal(self):
        """By RFC 2104, more than 64 bytes count as their hash, and fewer as if NULs followed them."""
        text = PLAIN[:65]
        write("secret", text)
        ran = self.run_agep("encrypt", "-p", "secret", "-w", "2", "hello")
        self.assert_ended(ran, 0, "", None)
        write("made", ran.out)
        rows = [
            ("the SHA-256 of 65 bytes", hashlib.sha256(text).digest(), "made", True), ("the first 64 of 65 bytes", text[:64], "made", False),
            ("NULs up to 64 bytes", b"correct horse" + bytes(51), "pass.age", True),
            ("NULs up to 65 bytes", b"correct horse" + bytes(52), "pass.age", False),
        ]
        for title, secret, name, fits in rows:
            with self.subTest(title):
                write("secret", secret)
                if fits:
                    self.writes(HELLO, "decrypt", "-p", "secret", name)
                else:
                    self.says(message("WrongKey"), "decrypt", "-p", "secret", name)


class KeyFiles(ProgramCase):
    def test_other_forms(self):
        """A key is 32 raw bytes, and a file key 16: other forms are refused."""
        forms = {
            "lf": KEY + b"\n", "crlf": KEY + b"\r\n", "mark": b"\xef\xbb\xbf" + KEY, "hex": KEY.hex().encode(),
            "hex.lf": KEY.hex().encode() + b"\n", "base": base64.b64encode(KEY) + b"\n", "twice": KEY + KEY,
        }
        commands = [
            "encrypt -k NAME hello", "encrypt -k key -k NAME hello", "decrypt -k NAME key.age", "decrypt -k key -k NAME key.age",
            "range -k NAME 0 1 key.age", "salvage -k NAME key.age", "rewrap -k NAME -K key key.age", "rewrap -k key -K NAME key.age",
            "rewrap -k key -K key -K NAME key.age",
        ]
        for name, text in forms.items():
            write(name, text)
            for words in commands:
                with self.subTest(words.replace("NAME", name)):
                    self.says(message("KeyLength"), *words.replace("NAME", name).split())
        for name, text in {"file.lf": SEED[:16] + b"\n", "file.hex": SEED[:16].hex().encode(), "key": KEY}.items():
            write(name, text)
            with self.subTest(f"inspect -f {name}"):
                self.says(message("FileKeyLength"), "inspect", "-f", name, "key.age")

    def test_line_ends(self):
        """A line end among the 32 bytes belongs to the key."""
        for title, key in ("at the end", KEY[:31] + b"\n"), ("at the start", b"\n" + KEY[:31]):
            with self.subTest(title):
                write("made.key", key)
                expected = fixture.for_keys(HELLO, key)
                self.writes(expected, "encrypt", "-k", "made.key", "-s", "seed", "hello")
                self.writes(HELLO, "decrypt", "-k", "made.key", input=expected)

    def test_each_byte(self):
        """A key that differs in one byte is another key."""
        for at in (0, 1, 15, 16, 30, 31):
            with self.subTest(f"byte {at}"):
                write("near", fixture.changed(KEY, at))
                self.says(message("WrongKey"), "decrypt", "-k", "near", "key.age")

    def test_many(self):
        """Each of a dozen keys gets a stanza; the first, a middle and the last of a dozen secrets open a file."""
        keys = [bytes([number]) * 32 for number in range(12)]
        for number, key in enumerate(keys):
            write(f"key.{number}", key)
            write(f"pass.{number}", b"%d" % number)
        named = lambda letter, name: [word for number in range(12) for word in (letter, f"{name}.{number}")]
        expected = reference.age_file(SEED, [reference.key_stanza(key, SALT) for key in keys], HELLO)
        self.writes(expected, "encrypt", *named("-k", "key"), "-s", "seed", "hello")
        self.writes(expected, "rewrap", "-k", "key", *named("-K", "key"), "-s", "seed", "key.age")
        for number in 0, 5, 11:
            write("made.key", reference.age_file(SEED, [reference.key_stanza(keys[number], SALT)], HELLO))
            write("made.pass", fixture.for_passphrase(HELLO, b"%d" % number, 1))
            for letter, name in (("-k", "key"), ("-p", "pass")):
                for command, *more in (["decrypt"], ["range", "0", "9"], ["salvage"]):
                    with self.subTest(f"{command} {letter}, {number}"):
                        self.writes(HELLO, command, *named(letter, name), *more, f"made.{name}")
                self.writes(read("key.age"), "rewrap", *named(letter, name), "-K", "key", "-s", "seed", f"made.{name}")


class Seeds(ProgramCase):
    def test_longer(self):
        """Only the first 48 bytes of a seed file count."""
        key_age = read("key.age")
        for title, seed in ("one LF more", SEED + b"\n"), ("100,000 bytes more", SEED + bytes(100000)):
            with self.subTest(title):
                write("long.seed", seed)
                self.writes(key_age, "encrypt", "-k", "key", "-s", "long.seed", "hello")
        with self.subTest("a device without an end"):
            expected = reference.age_file(bytes(48), [reference.key_stanza(KEY, bytes(16))], HELLO)
            self.writes(expected, "encrypt", "-k", "key", "-s", "/dev/zero", "hello")
        with self.subTest("from a pipe"):
            self.writes(key_age, "encrypt", "-k", "key", "-s", "/dev/stdin", "hello", input=SEED)

    def in_pieces(self, text, at):
        """A FIFO that returns a text in two pieces."""
        if os.path.exists("pieces"):
            os.remove("pieces")
        os.mkfifo("pieces")

        def feed():
            with open("pieces", "wb", buffering=0) as pipe:
                pipe.write(text[:at])
                threading.Event().wait(0.1)
                pipe.write(text[at:])

        threading.Thread(target=feed, daemon=True).start()
        return "pieces"

    def test_pieces(self):
        """Small files that arrive in two pieces."""
        self.writes(read("key.age"), "encrypt", "-k", "key", "-s", self.in_pieces(SEED, 1), "hello")
        self.writes(HELLO, "decrypt", "-p", self.in_pieces(b"correct horse\n", 7), "pass.age")
        self.writes(HELLO, "decrypt", "-k", self.in_pieces(KEY, 31), "key.age")
