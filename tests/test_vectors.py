"""The test vectors of tests/make_vectors.py: their sum is the one in tests/vectors/README.md; agep ends on
each that is not for X25519 with the expected fault and its number or part; and Debian's Go library of
age gives the expected results, if it has the identities, except for those that the README lists."""

import os
import re
import shutil
import subprocess
import unittest

import make_vectors
import testkit
from messages import TEXTS, message
from program import TESTS, ProgramCase, fault, read, scratch, write
from reference import hkdf, sealed_chunk
from test_headers import header_in
from test_salvage import saved
from testkit import SEALED

README = read(f"{TESTS}/vectors/README.md").decode()
GO = "/usr/share/gocode"
AGE = "src/filippo.io/age"
HAS_GO = shutil.which("go") and all(os.path.exists(f"{GO}/{name}") for name in (f"{AGE}/testkit_test.go", "src/golang.org/x/crypto"))
# Runs the library's own reader of vectors; the Debian package skips it, because it would download
# vectors.
FOLDER_TEST = b"""package age_test

import (
	"os"
	"path/filepath"
	"testing"
)

func TestFolder(t *testing.T) {
	names, err := filepath.Glob(os.Getenv("VECTORS") + "/*")
	if err != nil {
		t.Fatal(err)
	}
	for _, name := range names {
		contents, err := os.ReadFile(name)
		if err != nil {
			t.Fatal(err)
		}
		t.Run(filepath.Base(name), func(t *testing.T) { testVector(t, contents) })
	}
}
"""


def fault_of_last(case):
    """The fault of the last chunk of a vector with a payload, or None."""
    payload = case.file[len(header_in(case.file)) :]
    number = max(len(payload) - 17, 0) // SEALED
    piece, key = payload[16 + number * SEALED :], hkdf(make_vectors.FILE_KEY, payload[:16], b"payload")
    if len(piece) < 16:
        return "ChunkShort", number
    if number > 0 and len(piece) == 16:
        return "EmptyFinal", number
    # The cipher is an XOR, so sealing also opens.
    text = sealed_chunk(key, number, True, piece[:-16])[:-16]
    return None if sealed_chunk(key, number, True, text) == piece else ("BadChunk", number)


def expected(case, way):
    """The expected result of a vector for a way of opening."""
    if case.is_armored:
        return testkit.Found("NotAge", None, b"")
    of_last = fault_of_last(case) if way.opens_last and testkit.EXPECT[case.fault[0]] == "payload failure" else None
    fault, *words = of_last or case.fault
    word = TEXTS.get((words[0], 0), str(words[0])) if words else None
    if fault == "Malformed" and isinstance(way, testkit.InC):
        word = None
    return testkit.Found(fault, word, case.text if fault is None or (way.releases and not of_last) else b"")


def differences(way, cases=None):
    """How the results of vectors differ from the expected ones."""
    found = {}
    for case in cases or make_vectors.cases():
        vector = testkit.parse(case.name, case.stored)
        if testkit.why_skipped(vector, way):
            continue
        ended = way.open(vector)
        wanted = expected(case, way)
        if difference := testkit.differs(vector, ended, way) or (ended != wanted and f"{ended} is not {wanted}"):
            found[case.name] = difference
    return found


class Made(unittest.TestCase):
    def test_sum(self):
        """tests/make_vectors.py makes the vectors whose sum is in the README."""
        self.assertEqual(re.findall(r"\b[0-9a-f]{64}\b", README), [make_vectors.sum_of_all()])

    def test_folder(self):
        """make() makes a folder that testkit reads, of at most 300 KB, and refuses an existing one."""
        folder = f"{scratch()}/vectors"
        make_vectors.make(folder)
        vectors, wrong = testkit.load(folder)
        self.assertEqual(wrong, [])
        made = [(case.name, case.file, testkit.EXPECT[case.fault[0]]) for case in make_vectors.cases()]
        differing = [one[0] for one, other in zip(made, vectors) if one != (other.name, other.file, other.expect)]
        self.assertEqual((len(vectors), differing), (len(made), []))
        self.assertLessEqual(sum(entry.stat().st_size for entry in os.scandir(folder)), 300_000)
        with self.assertRaises(FileExistsError):
            make_vectors.make(folder)

    def test_faults(self):
        """The vectors have each fault that a file alone can have, and each part of a malformed stanza."""
        words = {word for case in make_vectors.cases() for word in case.fault if isinstance(word, str)}
        self.assertEqual(words, {*testkit.NAMES.values(), "ArgCount", "Salt", "WorkFactorText", "WorkFactorTooHigh", "BodyLength"})


class Program(ProgramCase):
    def test_decrypt(self):
        """agep ends with the fault of each vector it takes, and releases the chunks before it."""
        self.assertEqual(differences(testkit.Agep()), {})

    def test_salvage(self):
        """salvage writes the chunks that open and zeros for the others, and reports what is missing."""
        for case in make_vectors.cases():
            (kind, secret), *others = case.secrets
            if others or case.is_armored or case.secrets == make_vectors.BY_X25519:
                continue
            expected = testkit.EXPECT[case.fault[0]]
            if expected not in ("success", "payload failure", "HMAC failure"):
                continue
            with self.subTest(case.name):
                payload = case.file[len(header_in(case.file)) :]
                text, lines = saved(payload, expected == "HMAC failure")
                option, value = ("-p", secret.encode()) if kind == "passphrase" else ("-k", bytes.fromhex(secret.split()[1]))
                ran = self.run_agep("salvage", option, testkit.secret_file(value), input=case.file)
                if len(payload) < 16:
                    text, lines = b"", [message("NonceTruncated")]
                self.assert_ended(ran, 1 if lines else 0, "".join(map(fault, lines)), text)

    def test_inspect(self):
        """inspect ends with the fault of each malformed header, and prints every other header as it is."""
        for case in make_vectors.cases():
            fault_of = ("NotAge",) if case.is_armored else case.fault
            with self.subTest(case.name):
                if fault_of[0] in ("NotAge", "BadLine", "HeaderTruncated", "HeaderTooLarge"):
                    self.says(message(*fault_of), "inspect", input=case.file)
                    self.says(message(*fault_of), "inspect", "--raw", input=case.file)
                else:
                    self.writes(header_in(case.file), "inspect", "--raw", input=case.file)


@unittest.skipUnless(HAS_GO, "Go, or its library of age or x/crypto, is missing")
class Go(unittest.TestCase):
    """Debian's Go library of age, with its own reader of vectors."""

    def put(self, folder):
        """Writes the vectors that this reader takes: uncompressed, as its version needs, and for identities
        that it has. Returns their names."""
        names = []
        for case in make_vectors.cases():
            if not any("example.org/key" in value for _, value in case.secrets):
                write(f"{folder}/{case.name}", case.head.replace(b"compressed: zlib\n", b"") + b"\n" + case.file)
                names.append(case.name)
        return names

    def test_differences(self):
        """Each vector has the expected result, except for those in the README's table."""
        folder = scratch()
        os.makedirs(f"{folder}/vectors")
        shutil.copytree(f"{GO}/{AGE}", f"{folder}/{AGE}")
        write(f"{folder}/{AGE}/folder_test.go", FOLDER_TEST)
        names = self.put(f"{folder}/vectors")
        environment = os.environ | {
            "GO111MODULE": "off", "GOPATH": f"{folder}:{GO}", "GOCACHE": f"{folder}/cache", "GOFLAGS": "", "VECTORS": f"{folder}/vectors",
        }
        words = ["go", "test", "-v", "-run", "^TestFolder$", "filippo.io/age"]
        done = subprocess.run(words, env=environment, cwd=folder, capture_output=True, text=True, timeout=300)
        ended = re.findall(r"^    --- (PASS|FAIL): TestFolder/(\S+) ", done.stdout, re.M)
        self.assertEqual(sorted(name for _, name in ended), sorted(names), done.stdout[-2000:] + done.stderr)
        differing = README.partition("## What differs")[2]
        listed = re.findall(r"^\| `(\w+)` \|", differing, re.M)
        self.assertEqual([name for how, name in ended if how == "FAIL"], listed)
