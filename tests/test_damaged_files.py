"""Files of an empty plaintext, cut or changed at each offset; files of two chunks, cut near their
boundaries; and such files after rewrap. tests/test_library.py and tests/test_packages.py open the files of
`cases` with the libraries, in the form of test vectors."""

import fixture
import reference
from fixture import KEY, SALT, SEED
from make_vectors import BY_KEY, BY_PASSPHRASE, Case
from messages import message
from program import ProgramCase, read, write
from test_vectors import differences
from testkit import Agep

SALT_FAULT = "Malformed", "Salt"


def with_another_stanza():
    """The keyed file of an empty plaintext, with a stanza of another type first."""
    stanzas = reference.stanza_text([b"plug"], bytes(48)) + reference.wrapped(reference.key_stanza(KEY, SALT), SEED[:16])
    return reference.ended(reference.VERSION + stanzas, SEED[:16]) + fixture.for_keys(b"", KEY)[156:]


def changed(file, at, *signs):
    """The file with the byte at this offset changed: within `signs`, the ranges of bodies and the MAC,
    to another base64 character, and elsewhere in its lowest bit."""
    if any(first <= at <= last for first, last in signs):
        return file[:at] + (b"E" if file[at : at + 1] == b"A" else b"A") + file[at + 1 :]
    return fixture.changed(file, at)


def after_last_line(file, end, line):
    """The fault if the header's last LF is changed: the line may end at an LF of the payload."""
    return ("BadLine", line) if b"\n" in file[end + 1 :] else ("HeaderTruncated",)


def cut_rows(header):
    """Rows for a file of an empty plaintext: cut in its header, nonce of 16 bytes or tag, and whole."""
    return [
        (0, header - 1, "HeaderTruncated"), (header, header + 15, "NonceTruncated"), (header + 16, header + 31, "ChunkShort", 0),
        (header + 32, header + 32, None),
    ]


def keyed_rows(file, end, shift, line):
    """Rows for a keyed file that is changed at each offset from its keyed stanza on, which begins `shift`
    bytes and `line` lines later than usual."""
    return [
        (22 + shift, 24 + shift, "BadLine", 2 + line), (25 + shift, 40 + shift, "NoMatch"), (41 + shift, 61 + shift, "WrongKey"),
        (62 + shift, 62 + shift, *SALT_FAULT), (63 + shift, 63 + shift, "BadLine", 2 + line), (64 + shift, 106 + shift, "WrongKey"),
        (107 + shift, 107 + shift, "BadLine", 3 + line), (108 + shift, 111 + shift, "BadLine", 4 + line), (112 + shift, 154 + shift, "BadMac"),
        (end, end, *after_last_line(file, end, 4 + line)), (156 + shift, 187 + shift, "BadChunk", 0),
    ]


def passphrase_rows(file):
    """Rows for a passphrase file that is changed at each offset."""
    return [
        (0, 21, "NotAge"), (22, 24, "BadLine", 2), (25, 31, "NoMatch"), (32, 52, "WrongKey"), (53, 53, *SALT_FAULT), (54, 54, "Malformed", "ArgCount"),
        (55, 55, "Malformed", "WorkFactorText"), (56, 56, "WrongKey"), (57, 57, "BadLine", 2), (58, 100, "WrongKey"), (101, 101, "BadLine", 3),
        (102, 105, "BadLine", 4), (106, 148, "BadMac"), (149, 149, *after_last_line(file, 149, 4)), (150, 181, "BadChunk", 0),
    ]


def tables():
    """Each table: its name, the secret, the number of files, a function from numbers to files, and
    the rows: a first and a last number, and the fault. The plaintext of all files is empty."""
    of_pass, of_key, of_two = fixture.for_passphrase(b""), fixture.for_keys(b"", KEY), with_another_stanza()
    for name, secret, file, header in ("passphrase", BY_PASSPHRASE, of_pass, 150), ("key", BY_KEY, of_key, 156), ("two", BY_KEY, of_two, 230):
        yield f"{name}_cut", secret, header + 33, lambda at, file=file: file[:at], cut_rows(header)
    yield "passphrase_changed", BY_PASSPHRASE, 182, lambda at: changed(of_pass, at, (58, 100), (106, 148)), passphrase_rows(of_pass)
    yield "key_changed", BY_KEY, 188, lambda at: changed(of_key, at, (64, 106), (112, 154)), [(0, 21, "NotAge"), *keyed_rows(of_key, 155, 0, 0)]
    another = [
        (0, 21, "NotAge"), (22, 24, "BadLine", 2), (25, 28, "BadMac"), (29, 29, "BadLine", 2), (30, 93, "BadMac"), (94, 94, "BadLine", 3),
        (95, 95, "BadLine", 4), *keyed_rows(of_two, 229, 74, 3),
    ]
    yield "two_changed", BY_KEY, 262, lambda at: changed(of_two, at, (30, 93), (138, 180), (186, 228)), another


def cases():
    """The files of the tables and those of two chunks, as test vectors."""
    for name, secret, count, file_of, rows in tables():
        for first, last, *fault in rows:
            for at in range(first, last + 1):
                yield Case(f"{name}_{at}", "", file_of(at), tuple(fault), secrets=secret)
        assert [at for first, last, *_ in rows for at in range(first, last + 1)] == list(range(count)), name
    yield from two_chunks()


def two_chunks():
    """A file of two chunks that is cut near their boundaries, or has a byte after its end."""
    plain = fixture.PLAIN[:65537]
    file = fixture.for_passphrase(plain) + b"x"
    for size, name, chunk in (
        (182, "BadChunk", 0), (65717, "BadChunk", 0), (65718, "BadChunk", 0), (65719, "ChunkShort", 1), (65733, "ChunkShort", 1),
        (65734, "EmptyFinal", 1), (65736, "BadChunk", 1),
    ):
        yield Case(f"two_chunks_{size}", "", file[:size], (name, chunk), plain[: 65536 * chunk])


class DamagedFiles(ProgramCase):
    def test_program(self):
        """agep ends with the fault of each file, and releases the chunks before it."""
        self.assertEqual(differences(Agep(), cases()), {})

    def test_out(self):
        """OUT has the chunks before the fault."""
        for case in two_chunks():
            with self.subTest(case.name):
                self.says(message(*case.fault), *"decrypt -p pass -o back".split(), input=case.file)
                self.assert_file("back", case.text)

    def test_rewrapped(self):
        """rewrap copies any payload, so the old and the new file decrypt with the same result."""
        nothing = read("empty_pass.age")
        cuts = *((size, "NonceTruncated") for size in (150, 155, 165)), *((size, "ChunkShort: 0") for size in (166, 181))
        for title, file, name, out in (
            *((f"cut to {size} bytes", nothing[:size], name, b"") for size, name in cuts),
            ("cut between two chunks", read("two_pass.age")[:-17], "BadChunk: 0", b""),
            ("damaged in its second chunk", fixture.changed(read("plain_pass.age"), 70000), "BadChunk: 1", read("full")),
            ("bytes behind its end", nothing + b"more\n", "BadChunk: 0", b""),
        ):
            with self.subTest(title):
                write("cut", file)
                self.line_says(name, "decrypt -p pass cut", out=out)
                self.writes(b"", *"rewrap -p pass -K new.key -o made cut".split())
                self.assert_bytes(read("made")[156:], file[150:], "the payload")
                self.line_says(name, "decrypt -k new.key made", out=out)
