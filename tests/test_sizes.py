"""Plaintexts of sizes around that of a chunk: the files are those of reference.py, and decrypt to the plaintext."""

import fixture
import reference
from fixture import KEY, NEW_KEY, OTHER_KEY, PLAIN, SEED
from program import ProgramCase, write

SIZES = [0, 1, 32, 65535, 65536, 65537, 131072, 131073]
# The sizes of a header with a passphrase stanza (a work factor of two digits), and with a keyed
# stanza.
PASSPHRASE_HEADER, KEY_HEADER = 150, 156


def file_size(header, size):
    """The size of a file: the header, a nonce, the plaintext, and for each chunk a tag of 16 bytes."""
    return header + 16 + size + 16 * max(1, -(-size // 65536))


class Sizes(ProgramCase):
    def comes_back(self, size, header, expected, secret, options):
        plain = PLAIN[:size]
        write("plain", plain)
        self.assertEqual(len(expected), file_size(header, size))
        self.writes(expected, "encrypt", *secret, *options, "-s", "seed", "plain")
        self.writes(expected, "encrypt", *secret, *options, "-s", "seed", input=plain)
        self.writes(b"", "encrypt", *secret, *options, "-s", "seed", "-o", "made", "plain")
        self.assert_file("made", expected)
        self.writes(plain, "decrypt", *secret, "made")
        self.writes(plain, "decrypt", *secret, input=expected)
        self.writes(b"", "decrypt", *secret, "-o", "back", "made")
        self.assert_file("back", plain)

    def test_there_and_back(self):
        """encrypt writes the same file as Python, and decrypt its plaintext."""
        for size in SIZES:
            with self.subTest(f"{size} bytes, -p"):
                expected = fixture.for_passphrase(PLAIN[:size])
                self.comes_back(size, PASSPHRASE_HEADER, expected, ("-p", "pass"), ("-w", "10"))
            with self.subTest(f"{size} bytes, -k"):
                self.comes_back(size, KEY_HEADER, fixture.for_keys(PLAIN[:size], KEY), ("-k", "key"), ())

    def test_rewrapped(self):
        """rewrap writes the same header for the new secret as Python, and keeps the rest of the file."""
        for size in SIZES:
            plain = PLAIN[:size]
            by_passphrase = fixture.for_passphrase(plain), ("-p", "pass"), PASSPHRASE_HEADER
            by_key = fixture.for_keys(plain, KEY), ("-k", "key"), KEY_HEADER
            new_passphrase = fixture.for_passphrase(plain, b"p2", 10), ("-P", "new.pass", "-w", "10"), PASSPHRASE_HEADER
            new_key = fixture.for_keys(plain, NEW_KEY), ("-K", "new.key"), KEY_HEADER
            for old, secret, header in (by_passphrase, by_key):
                for new, options, new_header in (new_passphrase, new_key):
                    with self.subTest(f"{size} bytes, {secret[0]} {options[0]}"):
                        write("old", old)
                        self.writes(b"", "rewrap", *secret, *options, "-s", "seed", "-o", "made", "old")
                        self.assert_file("made", new)
                        self.assertEqual(new[new_header:], old[header:])
                        self.writes(plain, "decrypt", options[0].lower(), options[1], "made")

    def test_other_seeds(self):
        """rewrap uses only the salt of its seed."""
        other = PLAIN[:48]
        write("other.seed", other)
        mixed = SEED[:32] + other[32:]
        for size in (0, 65536, 65537):
            plain = PLAIN[:size]
            write("old", fixture.for_passphrase(plain))
            for stanza, options in (
                (reference.passphrase_stanza(b"p2", 12, other[32:]), ("-P", "new.pass", "-w", "12")),
                (reference.key_stanza(NEW_KEY, other[32:]), ("-K", "new.key")),
            ):
                with self.subTest(f"{size} bytes, {options[0]}"):
                    expected = reference.age_file(mixed, [stanza], plain)
                    self.writes(expected, "rewrap", "-p", "pass", *options, "-s", "other.seed", "old")

    def test_several_keys(self):
        """For several keys, encrypt and rewrap write the same file as Python."""
        names = {"key": KEY, "other.key": OTHER_KEY, "third.key": PLAIN[:32], "new.key": NEW_KEY}
        for row in ("key other.key", "other.key key", "key other.key third.key", "new.key third.key key"):
            keys = row.split()
            expected = fixture.for_keys(PLAIN[:65537], *(names[key] for key in keys))
            with self.subTest(row):
                options = [word for key in keys for word in ("-k", key)]
                self.writes(expected, "encrypt", *options, "-s", "seed", "two_chunks")
                options = [word for key in keys for word in ("-K", key)]
                self.writes(expected, "rewrap", "-p", "pass", *options, "-s", "seed", "two_pass.age")
                for key in keys:
                    self.writes(PLAIN[:65537], "decrypt", "-k", key, input=expected)

    def test_slices(self):
        """range writes at most LEN bytes of the plaintext, from AT on."""
        most = 2**63 - 1
        rows = [
            (0, 10), (5, 10), (0, 0), (65530, 12), (65535, 1), (65535, 2), (65536, 65536), (131071, 2), (139990, 10),
            (139999, 5), (140000, 5), (0, 140000), (0, most), (139999, most), (most, 5), (most, most),
        ]
        for at, size in rows:
            for secret, name in (("-p", "pass"), "plain_pass.age"), (("-k", "key"), "plain.age"):
                with self.subTest(f"{size} bytes from {at} on, {secret[0]}"):
                    self.writes(PLAIN[at : at + size], "range", *secret, str(at), str(size), name)
