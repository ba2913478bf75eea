"""Options at their limits: the work factor that is written and its memory, the largest work factor and header
in each command, AT and LEN beyond 4 GiB, and 4 GiB of plaintext."""

import os
import subprocess
import unittest

import fixture
import reference
from fixture import HELLO, KEY, OTHER_KEY, SALT, SEED
from messages import message
from program import AGEP, BY_PASSPHRASE, ProgramCase, preload, read, write
from test_headers import ZERO_MAC, ZERO_SALT, header_in, header_of, table

# Less than scrypt needs from work factor 17 on, so accepting such a factor ends with out of memory.
LITTLE_MEMORY = 100000 * 1024
CHUNK = reference.CHUNK


def with_header(size):
    """A keyed file of hello whose header has this size, by a stanza of another type before the key's."""
    grease = reference.stanza_text([b"grease", b"a" * (size - 156 - 12)], b"")
    file = reference.ended(reference.VERSION + grease + reference.wrapped(reference.key_stanza(KEY, SALT), SEED[:16]), SEED[:16])
    assert len(file) == size
    return file + fixture.for_keys(HELLO, KEY)[156:]


def passphrase_header(factor):
    return header_of(f"-> scrypt {ZERO_SALT} {factor}\n{ZERO_MAC}\n")


class WorkFactors(ProgramCase):
    def test_written(self):
        """The work factor is in the header, and the key is derived with it."""
        for factor in ("1", "2", "17", "19"):
            expected = fixture.for_passphrase(HELLO, work=int(factor))
            with self.subTest(f"encrypt -w {factor}"):
                self.assertEqual(expected.split(b"\n")[1], b"-> scrypt ICEiIyQlJicoKSorLC0uLw " + factor.encode())
                self.writes(expected, "encrypt", "-p", "pass", "-w", factor, "-s", "seed", "hello")
            with self.subTest(f"rewrap -w {factor}"):
                self.writes(expected, "rewrap", "-k", "key", "-P", "pass", "-w", factor, "-s", "seed", "key.age")
            with self.subTest(f"decrypt -m {factor}"):
                self.writes(HELLO, "decrypt", "-p", "pass", "-m", factor, input=expected)

    def wants_table(self, factor, *words, **how):
        """scrypt allocates a table of 128 r N bytes, where r = 8 and N = 2^factor (RFC 7914)."""
        if os.path.exists("refused"):
            os.remove("refused")
        env = {"LARGE": "1000000000", "LD_PRELOAD": preload("refuse")}
        self.says(message("OutOfMemory"), *words, env=env, **how)
        size = int(read("refused"))
        self.assertTrue(0 <= size - (1024 << factor) < 65536, f"a table of {size} bytes")

    def test_tables(self):
        """Big work factors, recognized by the size of the table whose allocation is refused."""
        for factor in (20, 21, 22, 23, 29, 30):
            with self.subTest(f"encrypt -w {factor}"):
                self.wants_table(factor, "encrypt", "-p", "pass", "-w", str(factor), "hello")
            with self.subTest(f"rewrap -w {factor}"):
                self.wants_table(factor, "rewrap", "-k", "key", "-P", "pass", "-w", str(factor), "key.age")
            with self.subTest(f"decrypt, a file of {factor}"):
                self.wants_table(factor, "decrypt", "-p", "pass", "-m", "30", input=passphrase_header(factor))
        with self.subTest("encrypt -w 19 takes no table above 1 GB"):
            if os.path.exists("refused"):
                os.remove("refused")
            env = {"LARGE": "1000000000", "LD_PRELOAD": preload("refuse")}
            self.assert_ended(self.run_agep("encrypt", "-p", "pass", "-w", "19", "hello", env=env), 0, "", None)
            self.assertFalse(os.path.exists("refused"))


class MaxWork(ProgramCase):
    def test_limits(self):
        """Without -m, work factors up to 22 are accepted; with -m, up to the one given."""
        high, good = message("Malformed", "WorkFactorTooHigh"), message("OutOfMemory")
        rows = [
            (21, None, good), (22, None, good), (23, None, high), (30, None, high), (18, 18, good), (18, 17, high), (21, 21, good),
            (22, 21, high), (22, 22, good), (23, 22, high), (23, 23, good), (24, 23, high), (30, 29, high), (30, 30, good), (31, 30, high),
        ]
        for words in BY_PASSPHRASE:
            for factor, most, line in rows:
                options = ["-m", str(most)] if most else []
                with self.subTest(f"{words.split()[0]} {' '.join(options)}, a work factor of {factor}: {line}"):
                    write("made", passphrase_header(factor))
                    self.says(line, *words.split(), *options, "made", memory=LITTLE_MEMORY)

    def test_opens(self):
        """-m 5 opens a file with work factor 5, and -m 4 does not."""
        write("five.age", fixture.for_passphrase(HELLO, work=5))
        key_age = fixture.for_keys(HELLO, KEY)
        for words, out in (
            ("decrypt -p pass", HELLO), ("range -p pass 0 6", HELLO), ("salvage -p pass", HELLO), ("rewrap -p pass -K key -s seed", key_age),
        ):
            with self.subTest(words):
                self.writes(out, *words.split(), "-m", "5", "five.age")
                self.says(message("Malformed", "WorkFactorTooHigh"), *words.split(), "-m", "4", "five.age")


class MaxHeader(ProgramCase):
    def test_limits(self):
        """Without -H, a header of up to 65,536 bytes is read; with -H, up to the size given."""
        large = True
        rows = [
            (65535, None, not large), (65536, None, not large), (65537, None, large), (1024, 1024, not large), (1025, 1024, large),
            (1025, 1025, not large), (1500, 1500, not large), (1500, 1499, large), (65536, 65535, large), (65536, 65536, not large),
            (65537, 65536, large), (65537, 65537, not large), (70000, 70000, not large), (70001, 70000, large),
            (70001, 16777216, not large),
        ]
        for size in {size for size, _, _ in rows}:
            write(f"sized.{size}", with_header(size))
        for words in (
            "decrypt -k key", "range -k key 0 6", "salvage -k key", "rewrap -k key -K key -s seed", "inspect -r", "inspect -f file.key",
        ):
            for size, most, is_large in rows:
                options = ["-H", str(most)] if most else []
                run = [*words.split(), *options, f"sized.{size}"]
                with self.subTest(f"{words} {' '.join(options)}, a header of {size} bytes"):
                    if is_large:
                        self.says(message("HeaderTooLarge"), *run)
                    elif words == "inspect -r":
                        self.writes(header_in(read(f"sized.{size}")), *run)
                    elif words.startswith("inspect"):
                        header = header_in(read(f"sized.{size}"))
                        self.assertEqual(len(header), size)
                        self.writes(table(header, True), *run)
                    else:
                        self.writes(read("key.age") if words.startswith("rewrap") else HELLO, *run)

    def test_rewrapped(self):
        """The new header of rewrap is short, so here -H applies to the old one."""
        file = with_header(1025)
        self.says(message("HeaderTooLarge"), "rewrap", "-k", "key", "-K", "new.key", "-H", "1024", input=file)
        ran = self.run_agep("rewrap", "-k", "key", "-K", "new.key", "-H", "1025", input=file)
        self.assert_ended(ran, 0, "", None)
        self.assert_bytes(ran.out[156:], file[1025:], "the payload")
        self.writes(HELLO, "decrypt", "-k", "new.key", input=ran.out)

    def test_new_headers(self):
        """A header of n keys has 70 + 86 n bytes: -H also applies to the new header."""
        keys = []
        for i in range(1, 763):
            write(f"key.{i}", b"%032d" % i)
            keys.append(f"key.{i}")
        large = message("HeaderTooLarge")
        rows = [
            (11, None, None), (12, 1024, large), (12, 1101, large), (12, 1102, None), (761, None, None), (762, None, large),
            (762, 65601, large), (762, 65602, None),
        ]
        for count, most, line in rows:
            options = ["-H", str(most)] if most else []
            for words, letter in (("encrypt -s seed hello", "-k"), ("rewrap -k key -s seed key.age", "-K")):
                run = [*words.split(), *(word for key in keys[:count] for word in (letter, key)), *options]
                with self.subTest(f"{words.split()[0]} {' '.join(options)}, {count} keys"):
                    if line:
                        self.says(line, *run)
                        continue
                    ran = self.run_agep(*run)
                    self.assert_ended(ran, 0, "", None)
                    self.assertEqual((len(header_in(ran.out)), len(ran.out)), (70 + 86 * count, 70 + 86 * count + 38))
                    self.writes(HELLO, "decrypt", "-k", f"key.{count}", "-H", "70000", input=ran.out)


def skip_unless_holes(*names):
    """Skips a test if the file system has no holes."""
    if sum(os.stat(name).st_blocks for name in names) > 2048:
        raise unittest.SkipTest("a file with a hole would take all of its size")


class Offsets(ProgramCase):
    """A file whose chunks are holes, except for those before and after the offsets 2^32 and 2^33 of the
    plaintext, and the last one. Its plaintext has 2^33 + 65,636 bytes."""

    END = 2**33 + CHUNK + 100

    @classmethod
    def setUpClass(cls):
        super().setUpClass()
        os.chdir(cls.folder)
        key, last = reference.hkdf(SEED[:16], SEED[16:32], b"payload"), 2**33 // CHUNK + 1
        cls.texts = {}
        with open("great.age", "wb") as out:
            out.write(reference.header(SEED[:16], [reference.key_stanza(KEY, SALT)]) + SEED[16:32])
            front = out.tell()
            for i in (2**32 // CHUNK - 1, 2**32 // CHUNK, 2**33 // CHUNK - 1, 2**33 // CHUNK, last):
                text = (b"chunk %d " % i * CHUNK)[: 100 if i == last else CHUNK]
                cls.texts[i] = text
                out.seek(front + i * (CHUNK + 16))
                out.write(reference.sealed_chunk(key, i, i == last, text))

    def setUp(self):
        super().setUp()
        skip_unless_holes("great.age")
        self.assertEqual(os.path.getsize("great.age"), 172 + self.END + 16 * (self.END // CHUNK + 1))

    def text(self, at, size):
        size = min(size, self.END - at)
        pieces = [self.texts[i] for i in range(at // CHUNK, (at + size - 1) // CHUNK + 1)]
        return b"".join(pieces)[at % CHUNK :][:size]

    def test_ranges(self):
        """Offsets and lengths beyond 32 bits."""
        two32, two33, two62 = 2**32, 2**33, 2**62
        rows = [
            (two32 - 1, 1), (two32, 1), (two32 - 5, 10), (two32 - CHUNK, 2 * CHUNK), (two33 - 5, 10), (two33, 1), (two33 + 7, CHUNK - 7),
            (two33 + 7, two32), (two33 - 7, two33), (two33, two62), (self.END - 3, two32 + 1), (self.END - 1, 2**63 - 1),
        ]
        for at, size in rows:
            with self.subTest(f"{size} bytes from {at} on"):
                self.writes(self.text(at, size), "range", "-k", "key", str(at), str(size), "great.age")

    def test_behind_the_end(self):
        """A range after the end is empty."""
        for at in (self.END, self.END + 1, self.END + 2**32, 2**62, 2**62 + 2**32, 2**63 - 1):
            for size in (1, 2**32, 2**62):
                with self.subTest(f"{size} bytes from {at} on"):
                    self.writes(b"", "range", "-k", "key", str(at), str(size), "great.age")

    def test_hole(self):
        """The hole counts as damaged; the part of the range before it is written."""
        for at in (0, CHUNK - 1, 2**32 - CHUNK - 1, 2**32 + CHUNK, 2**33 - CHUNK - 1):
            with self.subTest(f"byte {at}"):
                self.says(message("BadChunk", at // CHUNK), "range", "-k", "key", str(at), "1", "great.age")
        with self.subTest("into the hole"):
            out = self.texts[2**32 // CHUNK]
            self.says(message("BadChunk", 65537), "range", "-k", "key", str(2**32), str(CHUNK + 1), "great.age", out=out)


class GreatPlaintext(ProgramCase):
    def test_zeros(self):
        """More than 4 GiB of zeros through encrypt, rewrap and decrypt, with 32 MiB of memory each."""
        size = 2**32 + 5
        key = reference.hkdf(SEED[:16], SEED[16:32], b"payload")
        expected = reference.sealed_chunk(key, 65535, False, bytes(CHUNK)) + reference.sealed_chunk(key, 65536, True, bytes(5))
        write("expected", expected)
        os.truncate("empty", size)
        script = f"""
            ulimit -v 32768; set -o pipefail; mkfifo sealed rewrapped
            (tail -c {len(expected)} sealed | cmp - expected; echo $? >same) &
            wc -c <rewrapped >length &
            {AGEP} encrypt -k key -s seed empty | tee sealed | {AGEP} rewrap -k key -K other.key -s seed | tee rewrapped |
                {AGEP} decrypt -k other.key | cmp -n {size + 1} - empty
            status=$?; wait; exit $status"""
        done = subprocess.run(["bash", "-c", script], stdin=subprocess.DEVNULL, capture_output=True, timeout=600)
        self.assertEqual((done.returncode, done.stdout, done.stderr), (0, b"", b""))
        self.assertEqual(int(read("same")), 0, "the last two chunks are not those of Python")
        self.assertEqual(int(read("length")), 172 + size + 16 * 65537)

    def test_payload(self):
        """A payload of more than 4 GiB is rewrapped to its end; the expected file is Python's."""
        for name, key in (("great.age", KEY), ("expected.age", OTHER_KEY)):
            with open(name, "wb") as out:
                out.write(reference.header(SEED[:16], [reference.key_stanza(key, SALT)]))
                reference.write_payload(out, SEED[:16], SEED[16:32], [HELLO], 70000)
        skip_unless_holes("great.age", "expected.age")
        self.assertGreater(os.path.getsize("great.age"), 2**32)
        script = f"set -o pipefail; {AGEP} rewrap -k key -K other.key -s seed great.age | cmp - expected.age"
        done = subprocess.run(["bash", "-c", script], stdin=subprocess.DEVNULL, capture_output=True, timeout=600)
        self.assertEqual((done.returncode, done.stdout, done.stderr), (0, b"", b""))
