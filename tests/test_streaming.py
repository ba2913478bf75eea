"""The program works chunk by chunk: output while it is fed, memory, damage; non-blocking output."""

import contextlib
import fcntl
import os
import re
import select
import subprocess
import sys
import termios
import time

import fixture
import reference
from fixture import KEY, NEW_KEY, SALT, SEED
from messages import message
from program import AGEP, PATIENCE, TESTS, ProgramCase, fault, read, write
from test_options import skip_unless_holes

# The bytes of a keyed header with the nonce and without it, and of a passphrase header.
KEY_FRONT, KEY_HEADER, PASSPHRASE_HEADER = 172, 156, 150
CHUNK, SEALED = 65536, 65552
MANY = b"".join(b"%d\n" % i for i in range(1, 100001))[:450000]


class Lockstep(ProgramCase):
    FILES = {"many": MANY, "many.age": fixture.for_keys(MANY, KEY), "new.age": fixture.for_keys(MANY, NEW_KEY)}

    def start(self, line):
        """Starts the program; each of its pipes can hold a whole file, so nobody waits to write."""
        pipes = {name: subprocess.PIPE for name in ("stdin", "stdout", "stderr")}
        running = subprocess.Popen([AGEP, *line.split()], bufsize=0, pipesize=1 << 20, **pipes)
        self.addCleanup(running.kill)
        return running

    def expect(self, running, expected):
        """The next bytes of the output must come and be these."""
        came = b""
        while len(came) < len(expected):
            self.assertTrue(select.select([running.stdout], [], [], PATIENCE)[0], f"only {len(came)} bytes of {len(expected)} came")
            piece = running.stdout.read(len(expected) - len(came))
            self.assertTrue(piece, f"the output ended after {len(came)} bytes of {len(expected)}")
            came += piece
        self.assert_bytes(came, expected)

    def assert_lockstep(self, line, name, made, front, piece, made_front, made_piece):
        """Feeds a file: its front and a piece, and then a piece at a time. Before the next piece, `made_front` bytes
        must have come out, and `made_piece` bytes for each piece but the newest."""
        data, expected = self.FILES[name], self.FILES[made]
        with self.start(line) as running:
            running.stdin.write(data[: front + piece])
            came = 0
            for count, at in enumerate(range(front + piece, len(data), piece), 1):
                running.stdin.write(data[at : at + piece])
                self.expect(running, expected[came : made_front + count * made_piece])
                came = made_front + count * made_piece
            out, err = running.communicate(timeout=PATIENCE)
        self.assertEqual((running.returncode, err), (0, b""))
        self.assert_bytes(out, expected[came:])

    def test_decrypt(self):
        """decrypt and salvage: chunk i is written before chunk i + 2 is fed."""
        for line in "decrypt -k key", "salvage -k key":
            with self.subTest(line):
                self.assert_lockstep(line, "many.age", "many", KEY_FRONT, SEALED, 0, CHUNK)

    def test_encrypt(self):
        """encrypt: sealed chunk i is written before chunk i + 2 is fed."""
        self.assert_lockstep("encrypt -k key -s seed", "many", "many.age", 0, CHUNK, KEY_FRONT, SEALED)

    def test_rewrap(self):
        """rewrap: everything except the newest 128 KiB is written before more is fed."""
        self.assert_lockstep("rewrap -k key -K new.key -s seed", "many.age", "new.age", KEY_HEADER + CHUNK, CHUNK, KEY_HEADER, CHUNK)

    def test_leaving(self):
        """A reader that leaves after a chunk and a half, when half of the input is fed."""
        for name, made, line in ("many.age", "many", "decrypt -k key"), ("many", "many.age", "encrypt -k key -s seed"):
            with self.subTest(line), self.start(line) as running:
                data = self.FILES[name]
                running.stdin.write(data[: len(data) // 2])
                self.expect(running, self.FILES[made][:100000])
                running.stdout.close()
                with contextlib.suppress(BrokenPipeError):
                    running.stdin.write(data[len(data) // 2 :])
                _, err = running.communicate(timeout=PATIENCE)
                self.assertEqual((running.returncode, err), (1, fault(message("Write")).encode()))


class NonBlocking(ProgramCase):
    """Standard output is a pipe that another program has made non-blocking."""

    def run_full(self, command, ends):
        """Runs a shell command; reads its output once the pipe is full and, if `ends`, it ended."""
        reading, writing = os.pipe()
        os.set_blocking(writing, False)
        environment = dict(os.environ, PATH=os.path.dirname(AGEP) + ":" + os.environ["PATH"])
        done = subprocess.Popen(["sh", "-c", command], stdout=writing, stderr=subprocess.PIPE, env=environment)
        os.close(writing)
        while int.from_bytes(fcntl.ioctl(reading, termios.FIONREAD, bytes(4)), sys.byteorder) < CHUNK:
            time.sleep(0.01)
        if ends:
            done.wait(timeout=600)
        with open(reading, "rb") as pipe:
            out = pipe.read()
        err = done.communicate(timeout=600)[1]
        return done.returncode, err, out

    def test_full(self):
        """A write that would have to wait fails."""
        write("many.age", fixture.for_keys(MANY, KEY))
        expected = (1, fault(message("Write")).encode(), MANY[:CHUNK])
        self.assertEqual(self.run_full("agep decrypt -k key many.age", True), expected)

    def test_helped(self):
        """After the command in docs/USE.md agep waits again."""
        write("many.age", fixture.for_keys(MANY, KEY))
        use = read(os.path.join(TESTS, "../docs/USE.md")).decode()
        (helps,) = re.findall(r"`(python3 -c 'import os; [^`]*)`", use)
        self.assertEqual(self.run_full(f"{helps}; agep decrypt -k key many.age", False), (0, b"", MANY))


class Memory(ProgramCase):
    def setUp(self):
        super().setUp()
        subprocess.run(["cc", "-O2", "-o", "peak", TESTS + "/library/peak.c"], check=True)

    def assert_small(self, most, line, status=0, err=""):
        """In a line of a shell, agep must end with this status, and have at most so many KiB resident."""
        script = f'set -o pipefail; agep() {{ ./peak kib {AGEP} "$@"; }}; {line}'
        self.assert_ended(self.run_agep("-c", script, program="bash"), status, err)
        self.assertIn(int(read("kib")), range(1, most + 1), "KiB resident")
        os.remove("kib")

    def write_great(self, chunks):
        """A file with a last chunk after this many chunks that are holes."""
        with open("great.age", "wb") as out:
            out.write(reference.header(SEED[:16], [reference.key_stanza(KEY, SALT)]))
            reference.write_payload(out, SEED[:16], SEED[16:32], [b"hello\n"], chunks)
        skip_unless_holes("great.age")

    def test_peak(self):
        """256 MiB with at most 4 MiB resident, through pipes and from file to file."""
        os.truncate("empty", 2**28)
        for line in (
            "cat empty | agep encrypt -k key | cat >/dev/null", "agep encrypt -k key -o great.age empty",
            "cat great.age | agep decrypt -k key | cmp - empty", "agep decrypt -k key -o back great.age",
        ):
            with self.subTest(line):
                self.assert_small(4096, line)
        subprocess.run(["cmp", "empty", "back"], check=True)

    def test_rewrap(self):
        """rewrap: 1 GiB through pipes, with at most 8 MiB resident; the payload is unchanged."""
        self.write_great(16384)
        for words, header in ("-K new.key", KEY_HEADER), ("-P new.pass -w 10", PASSPHRASE_HEADER):
            with self.subTest(words):
                payload = f"tail -c +{header + 1} | cmp - <(tail -c +{KEY_HEADER + 1} great.age)"
                self.assert_small(8192, f"cat great.age | agep rewrap -k key {words} | {payload}")

    def test_salvage(self):
        """salvage: 256 MiB of lost chunks through pipes, with at most 4 MiB resident, give one line."""
        self.write_great(4096)
        line = "chunks 0 to 4095 are lost: bytes 0 to 268435455 of the plaintext"
        self.assert_small(4096, "cat great.age | agep salvage -k key | cat >/dev/null", 1, fault(line))


class DamagedFile(ProgramCase):
    def test_unread(self):
        """If the first chunk is damaged, only it and one more byte are read after the nonce."""
        file = fixture.changed(fixture.for_passphrase(fixture.PLAIN[:131073]), 166)
        write("damaged", file)
        with open("damaged", "rb") as stdin:
            self.says(message("BadChunk", 0), "decrypt", "-p", "pass", input=stdin)
            at = os.lseek(stdin.fileno(), 0, os.SEEK_CUR)
        self.assertGreaterEqual(len(file) - at, 65568)
