#!/usr/bin/env python3
"""Runs a folder of age test vectors, such as those of C2SP CCTV, against the program and the libraries.

usage: tests/testkit FOLDER [agep | python | c]..

tests/vectors/README.md describes the form. ASCII armor must be refused as not an age file.

Vectors without a passphrase or identity, or with one of a kind that a program lacks, are skipped, unless
they are armored, and listed before the last line, which is 'N passed, M failed'.
"""

import functools
import hashlib
import io
import os
import re
import shutil
import subprocess
import sys
import zlib
from typing import NamedTuple

sys.dont_write_bytecode = True

import messages
import program
from reference import CHUNK, hkdf, sealed_chunk

# The faults of docs/FORMAT.md for each kind of failure. A file whose nonce is cut has no payload
# yet.
FAULTS = {
    "success": [None],
    "no match": ["NoMatch", "WrongKey"],
    "HMAC failure": ["BadMac"],
    "header failure": ["NotAge", "BadLine", "HeaderTruncated", "HeaderTooLarge", "MixedPassphrase", "Malformed", "NonceTruncated"],
    "payload failure": ["ChunkShort", "EmptyFinal", "BadChunk"],
}
EXPECT = {fault: expect for expect, faults in FAULTS.items() for fault in faults}
VALUES = {
    "expect": "|".join([*FAULTS, "armor failure"]), "payload": "[0-9a-f]{64}", "file key": "([0-9a-f]{2})+", "identity": ".+",
    "passphrase": ".*", "armored": "yes", "compressed": "zlib", "comment": ".*",
}
REPEATED = ("identity", "passphrase", "comment")
KEY = "example.org/key"
X25519 = "AGE-SECRET-KEY-"
SEALED = CHUNK + 16


class Unreadable(Exception):
    """An error in a vector, with its name and line."""


class Secret(NamedTuple):
    kind: str
    value: bytes


class Vector(NamedTuple):
    name: str
    expect: str
    payload: str
    file_key: bytes
    secrets: tuple
    is_armored: bool
    comment: str
    file: bytes

    @property
    def tried(self):
        """The secrets to try: any one for armor, which is refused whatever the secret."""
        return (Secret("passphrase", b"x"),) if self.is_armored else self.secrets


class Found(NamedTuple):
    """The result of opening a file: the name of the fault or None, the number or the part that it names, and
    the released plaintext."""

    fault: str
    word: str
    text: bytes


def secret_of(key, value):
    if key == "passphrase":
        return Secret(key, value.encode("utf-8", "surrogateescape"))
    kind, space, rest = value.partition(" ")
    if space and kind == KEY and re.fullmatch("[0-9a-f]{64}", rest):
        return Secret(KEY, bytes.fromhex(rest))
    return Secret(value.rpartition("1")[0] or kind, value.encode())


def parse(name, data):
    """The vector in the bytes of a file."""
    fields, secrets, number = {}, [], 0
    while True:
        line, end, data = data.partition(b"\n")
        number += 1
        if not line and end:
            break
        key, colon, value = line.decode("utf-8", "surrogateescape").partition(": ")
        if not end:
            raise Unreadable(f"{name}: line {number}: no empty line before the end of the file")
        if not colon or key not in VALUES:
            raise Unreadable(f"{name}: line {number}: unknown key: {key!a}")
        if not re.fullmatch(VALUES[key], value):
            raise Unreadable(f"{name}: line {number}: unknown value of {key}: {value!a}")
        if key in fields and key not in REPEATED:
            raise Unreadable(f"{name}: line {number}: second line of {key}")
        fields[key] = value
        if key in ("identity", "passphrase"):
            secrets.append(secret_of(key, value))
    return whole(name, number, fields, secrets, data)


def whole(name, number, fields, secrets, data):
    """The vector of these lines, and of the bytes after the empty line, which has this number."""
    needed = ("expect", "payload") if fields.get("expect") == "success" else ("expect",)
    for key in needed:
        if key not in fields:
            raise Unreadable(f"{name}: line {number}: no line of {key} before the empty line")
    if "compressed" in fields:
        try:
            data = zlib.decompress(data)
        except zlib.error as error:
            raise Unreadable(f"{name}: line {number + 1}: {error}") from None
    return Vector(
        name, fields["expect"], fields.get("payload"), bytes.fromhex(fields.get("file key", "")), tuple(secrets), "armored" in fields,
        fields.get("comment", ""), data,
    )


def load(folder):
    """The vectors of a folder, and the errors in those that cannot be read."""
    vectors, wrong = [], []
    for name in sorted(os.listdir(folder)):
        try:
            vectors.append(parse(name, program.read(os.path.join(folder, name))))
        except Unreadable as error:
            wrong.append(str(error))
    return vectors, wrong


ROWS = list(messages.numbers())
FAULT_ROWS = [row for row in ROWS if row[1] in EXPECT]
NAMES = {number: name for number, name, _ in FAULT_ROWS}
PARTS = {number: text for number, _, text in ROWS[[name for _, name, _ in ROWS].index("ArgCount") :]}
PATTERNS = {name: re.compile(re.escape(text).replace(r"\{0\}", "(.*)")) for _, name, text in FAULT_ROWS}


def found_of(code, place, part, text):
    """The result of a library, by its code."""
    fault = NAMES.get(code, f"code {code}") if code else None
    return Found(fault, part if fault == "Malformed" else str(place) if (fault, 1) in messages.TEXTS else None, text)


# A way to open files has `releases`, whether it releases the chunks before a fault, and `opens_last`,
# whether it opens the last chunk first, as ranges do.
class InTurn:
    """A program that takes one secret per run: the first whose result is not "no match" decides."""

    def lacks(self, secret):
        return secret.kind not in ("passphrase", KEY)

    def open(self, vector):
        founds = []
        for secret in vector.tried:
            founds.append(self.open_with(("-p" if secret.kind == "passphrase" else "-k", secret_file(secret.value)), vector.file))
            if EXPECT.get(founds[-1].fault) != "no match":
                return founds[-1]
        return next((found for found in founds if found.fault == "WrongKey"), founds[0])


@functools.cache
def secret_file(value):
    name = f"{program.scratch()}/secret"
    program.write(name, value)
    return name


class Agep(InTurn):
    """agep, or another program with the same options and messages; `words` start it."""

    def __init__(self, name="agep", words=(program.AGEP, "decrypt"), releases=True, opens_last=False):
        self.name, self.words, self.releases, self.opens_last = name, words, releases, opens_last

    def open_with(self, options, file):
        done = subprocess.run([*self.words, *options], input=file, capture_output=True, timeout=600)
        said = done.stderr.decode("utf-8", "replace")
        if done.returncode == 0 and not said:
            return Found(None, None, done.stdout)
        line = re.fullmatch(r"agep: (.*)\n", said)
        for name, pattern in PATTERNS.items() if line and done.returncode == 1 else ():
            if found := pattern.fullmatch(line[1]):
                return Found(name, found[1] if found.groups() else None, done.stdout)
        return Found(f"status {done.returncode}", said, done.stdout)


def in_rust(path, kind):
    """A kind of call of tests/library/convert.rs, given the path of the program."""
    return Agep(f"rust {kind}", (path, kind, "decrypt"), kind in ("stream", "ranges"), kind == "ranges")


class InC(InTurn):
    """A kind of call of tests/library/convert.c, given the path of the program."""

    def __init__(self, path, kind):
        self.path, self.kind, self.name = path, kind, f"c {kind}"
        self.releases, self.opens_last = True, kind == "ranges"

    def open_with(self, options, file):
        done = subprocess.run([self.path, self.kind, "decrypt", *options], input=file, capture_output=True, timeout=600)
        said = re.fullmatch(r".* (\d+)\n", done.stderr.decode("utf-8", "replace"))
        return found_of(done.returncode, said and said[1], None, done.stdout)


class InPython:
    """A call of the package, which takes all secrets at once."""

    def __init__(self, name, call, releases=True, opens_last=False):
        self.name, self.call, self.releases, self.opens_last = f"python {name}", call, releases, opens_last
        self.kinds = {"passphrase": agefile().Passphrase, KEY: agefile().Key}
        if x25519():
            self.kinds[X25519] = lambda value: x25519().X25519Identity(value.decode())

    def lacks(self, secret):
        return secret.kind not in self.kinds

    def open(self, vector):
        out = io.BytesIO()
        try:
            self.call(vector.file, out, [self.kinds[secret.kind](secret.value) for secret in vector.tried])
        except agefile().AgeError as error:
            found = found_of(error.code, error.place, PARTS.get(error.detail), out.getvalue())
            said = messages.message(found.fault, *filter(None, [found.word]))
            return found if str(error) == said else found._replace(fault=f"{found.fault}, {error}")
        except ValueError:
            # The example for X25519 raises this for a malformed stanza.
            return Found("Malformed", None, out.getvalue())
        return Found(None, None, out.getvalue())


@functools.cache
def agefile():
    sys.path[:0] = [f"{program.ROOT}/bindings/python", f"{program.ROOT}/bindings/python/examples"]
    import agefile

    return agefile


@functools.cache
def x25519():
    """The example for X25519, or None if its library is missing."""
    try:
        import x25519

        return x25519
    except ImportError:
        return None


def calls_in_python():
    for n in 1, 2:
        yield InPython(f"copy, {n} threads", lambda file, out, secrets, n=n: agefile().copy(io.BytesIO(file), out, identities=secrets, threads=n))
        yield InPython(f"decrypt, {n} threads", lambda file, out, secrets, n=n: out.write(agefile().decrypt(file, identities=secrets, threads=n)), releases=False)
    yield InPython("open", lambda file, out, secrets: shutil.copyfileobj(agefile().open(io.BytesIO(file), identities=secrets), out), opens_last=True)


def why_skipped(vector, way):
    """Why a vector cannot be opened in a way, or None."""
    lacking = [secret.kind for secret in vector.tried if way.lacks(secret)]
    if lacking:
        return f"no identity of kind {lacking[0]}"
    return None if vector.tried else "no passphrase or identity is given"


def next_chunk(vector, size):
    """The text of the full chunk after these bytes of the plaintext, if it opens only under the wrong flag
    for its position. A reader that tries both flags may release it, so it counts in `payload`."""
    payload = vector.file.partition(b"\n---")[2].partition(b"\n")[2]
    chunks = payload[16 + size // CHUNK * SEALED :]
    if len(vector.file_key) != 16 or len(chunks) < SEALED:
        return b""
    key, place = hkdf(vector.file_key, payload[:16], b"payload"), (size // CHUNK, len(chunks) > SEALED)
    # The cipher is an XOR, so sealing also opens.
    text = sealed_chunk(key, *place, chunks[:CHUNK])[:CHUNK]
    return text if sealed_chunk(key, *place, text) == chunks[:SEALED] else b""


def differs(vector, found, way):
    """How the result differs from the expected one, or None."""
    expect = "header failure" if vector.is_armored else vector.expect
    if EXPECT.get(found.fault) != expect or (vector.is_armored and found.fault != "NotAge"):
        return f"{'not an age file' if vector.is_armored else expect} was expected, not {found.fault or 'success'} {found.word or ''}"
    if expect == "success" or (expect == "payload failure" and vector.payload and way.releases and not way.opens_last):
        texts = [found.text] if expect == "success" else [found.text, found.text + next_chunk(vector, len(found.text))]
        sums = [hashlib.sha256(text).hexdigest() for text in texts]
        return None if vector.payload in sums else f"the SHA-256 of what was released, {len(found.text)} bytes, is {sums[0]}"
    return f"{len(found.text)} bytes were released" if expect != "payload failure" and found.text else None


def library_ways(prefix, convert):
    """The calls of the library installed in a folder, in Python and in C; `convert` is the path of the
    program for C."""
    os.environ["AGEFILE_LIBRARY"] = f"{prefix}/lib/libagefile.so.1"
    return {"python": list(calls_in_python()), "c": [InC(convert, kind) for kind in ("whole", "steps", "ranges")]}


def built_library():
    """A scratch folder with the library and convert."""
    prefix = f"{program.scratch()}/prefix"
    subprocess.run([f"{program.ROOT}/install", "--library", prefix], stdout=subprocess.DEVNULL, check=True)
    source, made = f"{program.TESTS}/library/convert.c", f"{prefix}/convert"
    subprocess.run(["cc", "-O2", "-o", made, f"-I{prefix}/include", source, f"{prefix}/lib/libagefile.a"], check=True)
    return prefix, made


def ways_of(names):
    """The ways with these names; builds what they run."""
    ways = {}
    if "agep" in names:
        program.build()
        ways["agep"] = [Agep()]
    if {"python", "c"} & set(names):
        ways |= library_ways(*built_library())
    return [way for name in names for way in ways[name]]


def run(vectors, way):
    """Opens vectors in a way. Returns how many passed, the lines of those that failed, and the names of
    those that were skipped, by reason."""
    passed, failed, skipped = 0, [], {}
    for vector in vectors:
        if reason := why_skipped(vector, way):
            skipped.setdefault(reason, []).append(vector.name)
        elif difference := differs(vector, way.open(vector), way):
            failed.append(f"{vector.name}: {way.name}: {difference}")
        else:
            passed += 1
    return passed, failed, skipped


def main():
    folder, *names = sys.argv[1:] or [None]
    if folder is None or not set(names) <= {"agep", "python", "c"}:
        sys.exit("usage: tests/testkit FOLDER [agep | python | c]..")
    vectors, failed = load(folder)
    if not vectors and not failed:
        failed.append(f"{folder} has no vector")
    passed, skipped = 0, []
    for way in ways_of(names or ["agep", "python", "c"]):
        more, differences, reasons = run(vectors, way)
        passed, failed = passed + more, failed + differences
        skipped += [f"skipped: {', '.join(those)}: {way.name}: {reason}" for reason, those in reasons.items()]
    print(*(f"FAILED: {line}" for line in failed), *skipped, f"{passed} passed, {len(failed)} failed", sep="\n")
    return bool(failed)


if __name__ == "__main__":
    sys.exit(main())
