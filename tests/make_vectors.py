#!/usr/bin/env python3
"""Makes the test vectors in a folder, which must not exist, with Python alone, and prints their number
and their SHA-256. tests/vectors/README.md describes them.

usage: tests/make_vectors.py FOLDER

Each vector is made together with the fault of docs/FORMAT.md that opening it returns, and the plaintext that
may be released before the fault. The expected result follows from these two.
"""

import base64
import functools
import hashlib
import hmac
import os
import sys
import zlib
from typing import NamedTuple

sys.dont_write_bytecode = True

from fixture import HELLO, KEY, OTHER_KEY, PASSPHRASE, SALT, SEED, changed, with_other_mac
from program import write
from reference import (
    VERSION, ended, hkdf, key_stanza, passphrase_stanza, sealed, sealed_chunk, signs, stanza_text, wrapped, x25519, x25519_stanza,
)
from testkit import EXPECT

FILE_KEY, NONCE = SEED[:16], SEED[16:32]
CHUNK, LIMIT = 65536, 65536
PAYLOAD_KEY = hkdf(FILE_KEY, NONCE, b"payload")
# Files larger than this are compressed.
PLAIN_SIZE = 1000

# The X25519 secrets of an identity and of a stanza's share, and the identity's text (BIP 173).
X_SECRET, X_SHARE = SEED[8:40], SEED[4:36]
X_IDENTITY = "AGE-SECRET-KEY-1PQYS5ZCVP58Q7YQ3ZGF3G9GKZUVPJXSMRSW3U8EQYY3ZXFP9YCNSVR35NC"


def key_identity(key):
    return "identity", f"example.org/key {key.hex()}"


BY_PASSPHRASE = (("passphrase", PASSPHRASE.decode()),)
BY_KEY = (key_identity(KEY),)
BY_X25519 = (("identity", X_IDENTITY),)


class Case(NamedTuple):
    """A vector: its fault with the number or the part that the fault names, or (None,); the text that is
    released; and the chunk after that text, if it opens only under the wrong flag for its position. A reader
    that tries both flags releases that chunk, too."""

    name: str
    comment: str
    file: bytes
    fault: tuple = (None,)
    text: bytes = b""
    secrets: tuple = BY_PASSPHRASE
    more: bytes = b""
    is_armored: bool = False

    @property
    def head(self):
        """The lines of the vector, before the empty line."""
        expect = EXPECT[self.fault[0]]
        fields = [("expect", expect)]
        if expect in ("success", "payload failure"):
            fields.append(("payload", hashlib.sha256(self.text + self.more).hexdigest()))
        fields += [("file key", FILE_KEY.hex()), *self.secrets]
        fields += [("armored", "yes")] * self.is_armored
        fields += [("compressed", "zlib")] * (len(self.file) > PLAIN_SIZE)
        return "".join(f"{key}: {value}\n" for key, value in [*fields, ("comment", self.comment)]).encode()

    @property
    def stored(self):
        """The bytes of the vector."""
        return self.head + b"\n" + (zlib.compress(self.file, 9) if len(self.file) > PLAIN_SIZE else self.file)


# Each of these functions returns the lines of one stanza.
def scrypt_lines(*arguments, body=None):
    """A passphrase stanza with other arguments after its type, or another body."""
    right, wrap_key = passphrase_stanza(PASSPHRASE, 1, SALT)
    return stanza_text([right[0], *(arguments or right[1:])], sealed(wrap_key, bytes(12), FILE_KEY) if body is None else body)


def key_lines(*arguments, body=None, key=KEY):
    right, wrap_key = key_stanza(key, SALT)
    return stanza_text([right[0], *(arguments or right[1:])], sealed(wrap_key, bytes(12), FILE_KEY) if body is None else body)


def x25519_lines(*arguments, body=None, secret=X_SECRET):
    right, wrap_key = x25519_stanza(x25519(secret), X_SHARE)
    return stanza_text([right[0], *(arguments or right[1:])], sealed(wrap_key, bytes(12), FILE_KEY) if body is None else body)


SCRYPT, KEYED, X = scrypt_lines(), key_lines(), x25519_lines()
GREASE = stanza_text([b"fZ%-grease", b"?", b"~!"], bytes(range(100)))


# For each chunk that was made, by its number and its bytes: its text, and whether it is the last
# one.
MADE = {}


@functools.lru_cache
def chunk(number, is_last, text):
    sealed = sealed_chunk(PAYLOAD_KEY, number, is_last, text)
    MADE[number, sealed] = (text, is_last)
    return sealed


@functools.lru_cache
def filler(number, is_last, size=CHUNK):
    """The text of a chunk whose ciphertext is zeros, so that the file compresses to a few bytes."""
    return chunk(number, is_last, bytes(size))[:-16]


def filled(number, is_last, size=CHUNK):
    return chunk(number, is_last, filler(number, is_last, size))


def plain_and_chunks(size):
    """A plaintext of this size and its sealed chunks."""
    sizes = [min(CHUNK, size - at) for at in range(0, size, CHUNK)] or [0]
    places = [(i, i == len(sizes) - 1, length) for i, length in enumerate(sizes)]
    return b"".join(filler(*place) for place in places), [filled(*place) for place in places]


PAYLOAD = NONCE + chunk(0, True, HELLO)
OPENS, NO_MATCH, WRONG_KEY, BAD_MAC = (None,), ("NoMatch",), ("WrongKey",), ("BadMac",)
ARG_COUNT, BAD_SALT, BODY_LENGTH = ("Malformed", "ArgCount"), ("Malformed", "Salt"), ("Malformed", "BodyLength")
WORK_TEXT, TOO_HIGH, MIXED = ("Malformed", "WorkFactorText"), ("Malformed", "WorkFactorTooHigh"), ("MixedPassphrase",)


def age_file(lines, payload=PAYLOAD):
    return ended(VERSION + lines, FILE_KEY) + payload


GOOD = age_file(SCRYPT)
HEADER = age_file(SCRYPT, b"")
EMPTY = HEADER + NONCE + chunk(0, True, b"")


def files(prefix, fault, rows, secrets=BY_PASSPHRASE):
    """Files with the same result: the rows are their names, comments and lines."""
    for name, comment, lines in rows:
        yield Case(f"{prefix}_{name}", comment, age_file(lines), fault, HELLO if fault == OPENS else b"", secrets)


def versions():
    for name, comment, version in (
        ("unsupported", "the version is v2", b"age-encryption.org/v2\n"),
        ("crlf", "the version line ends with CR LF", b"age-encryption.org/v1\r\n"),
        ("leading_lf", "an LF comes before the version line", b"\n" + VERSION),
        ("leading_mark", "a byte order mark comes before the version line", b"\xef\xbb\xbf" + VERSION),
        ("trailing_space", "the version line ends with a space", b"age-encryption.org/v1 \n"),
        ("uppercase", "the version line is in capitals", VERSION.upper()),
        ("without_lf", "the version line continues into the first stanza", VERSION[:-1]),
    ):
        yield Case(f"version_{name}", comment, ended(version + SCRYPT, FILE_KEY) + PAYLOAD, ("NotAge",))


def argument_lines():
    body = signs(bytes(32)) + b"\n"
    for name, comment, line in (
        ("no_arguments", "an argument line has no argument and no space", b"->\n"),
        ("empty_type", "the type of a stanza is empty", b"-> \n"),
        ("empty_argument", "an argument is empty", b"-> a  b\n"),
        ("leading_space", "two spaces come before the type", b"->  a\n"),
        ("trailing_space", "an argument line ends with a space", b"-> a \n"),
        ("tab", "a tab separates two arguments", b"-> a\tb\n"),
        ("cr", "an argument line ends with CR LF", b"-> a\r\n"),
        ("byte_0", "an argument has a byte 0", b"-> a\0\n"),
        ("byte_31", "an argument has a byte below 33", b"-> a\x1f\n"),
        ("byte_127", "an argument has a byte above 126", b"-> a\x7f\n"),
        ("utf_8", "an argument is not ASCII", "-> ä\n".encode()),
        ("byte_255", "an argument is neither ASCII nor UTF-8", b"-> \xff\n"),
        ("one_dash", "an argument line begins with a dash and a space", b"- a\n"),
        ("no_arrow", "an argument line begins with its type", b"a\n"),
        ("no_space", "no space follows the arrow", b"->a\n"),
        ("indented", "a space comes before the arrow", b" -> a\n"),
        ("empty_line", "an empty line comes before the first stanza", b"\n-> a\n"),
    ):
        yield from files("arguments", ("BadLine", 2), [(name, comment, line + body)])
        if name in ("no_arguments", "trailing_space", "no_arrow"):
            yield from files("arguments", ("BadLine", 6), [(f"{name}_second", f"{comment}, in the second stanza", GREASE + line + body)], BY_KEY)
    yield from files("arguments", ("BadLine", 2), [("none", "the header has no stanza", b"")])


def body_lines():
    zeros = b"A" * 64 + b"\n"
    for name, comment, body, line in (
        ("not_canonical", "the pad bits of a body are not zero", b"AB\n", 3),
        ("one_sign", "a body line has one character", b"A\n", 3),
        ("padding", "a body is padded", b"AA==\n", 3),
        ("url_alphabet", "a body has a character of the other alphabet of base64", b"AA-_\n", 3),
        ("space", "a body line ends with a space", b"AAAA \n", 3),
        ("cr", "a body line ends with CR LF", b"AAAA\r\n", 3),
        ("65_signs", "a body line has 65 characters", b"A" * 65 + b"\n", 3),
        ("68_signs", "a body line has 68 characters, which are 51 bytes", b"A" * 68 + b"\n", 3),
        ("no_short_line", "a full line of a body is the last", zeros, 4),
        ("no_short_line_of_two", "two full lines are a body", zeros * 2, 5),
        ("no_short_line_second", "a stanza follows a full line", zeros + b"-> a\n\n", 4),
        ("two_short_lines", "a body has two short lines", b"AAAA\nAAAA\n", 4),
        ("two_empty_lines", "an empty line follows an empty body", b"\n\n", 4),
        ("short_line_first", "a full line follows a short one", b"AAAA\n" + zeros + b"\n", 4),
        ("full_line_not_canonical", "the pad bits of a short line after a full one are not zero", zeros + b"AB\n", 4),
        ("missing", "a stanza has no body line", b"", 3),
    ):
        yield from files("body", ("BadLine", line), [(name, comment, b"-> a\n" + body)])


def end_lines():
    start, mac = HEADER[:-1].rsplit(b" ", 1)
    for name, comment, end in (
        ("42_signs", "the MAC has 42 characters", b" " + mac[:-1]),
        ("44_signs", "the MAC has 44 characters, which are 33 bytes", b" " + mac + b"A"),
        ("not_canonical", "the pad bits of the MAC are not zero", b" " + not_canonical(mac)),
        ("padding", "the MAC is padded", b" " + mac + b"="),
        ("no_space", "no space comes before the MAC", mac),
        ("two_spaces", "two spaces come before the MAC", b"  " + mac),
        ("trailing_space", "a space follows the MAC", b" " + mac + b" "),
        ("second_argument", "the end line has a second argument", b" " + mac + b" a"),
        ("cr", "the end line ends with CR LF", b" " + mac + b"\r"),
        ("missing", "the end line has only three dashes", b""),
        ("four_dashes", "the end line begins with four dashes", b"- " + mac),
    ):
        yield Case(f"mac_{name}", comment, start + end + b"\n" + PAYLOAD, ("BadLine", 4))


def macs():
    text = HEADER.rsplit(b" ", 1)[0]
    key = hkdf(FILE_KEY, b"", b"header")
    for name, comment, mac in (
        ("zeros", "the MAC is zeros", bytes(32)),
        ("of_the_space", "the MAC also covers the space after the dashes", hmac.digest(key, text + b" ", "sha256")),
        ("without_the_dashes", "the MAC does not cover the dashes", hmac.digest(key, text[:-3], "sha256")),
        ("of_the_file_key", "the key of the MAC is the file key", hmac.digest(FILE_KEY, text, "sha256")),
        ("of_another_file_key", "the key of the MAC comes from another file key", hmac.digest(hkdf(NONCE, b"", b"header"), text, "sha256")),
    ):
        yield Case(f"mac_{name}", comment, text + b" " + signs(mac) + b"\n" + PAYLOAD, BAD_MAC)
    kept = age_file(GREASE + KEYED)
    for name, comment, file, secrets in (
        ("changed", "a bit of the MAC is changed", with_other_mac(GOOD), BY_PASSPHRASE),
        ("and_payload", "the MAC is changed, and nothing follows it", with_other_mac(HEADER), BY_PASSPHRASE),
        ("other_argument", "an argument of a stanza of another type was changed", kept.replace(b"~!", b"~~"), BY_KEY),
        ("other_body", "the body of a stanza of another type was changed", kept.replace(b"AAEC", b"AAED"), BY_KEY),
        ("stanza_removed", "a stanza of another type was removed", kept.replace(GREASE, b""), BY_KEY),
        ("stanzas_swapped", "the order of the stanzas was changed", kept.replace(GREASE + KEYED, KEYED + GREASE), BY_KEY),
    ):
        yield Case(f"mac_{name}", comment, file, BAD_MAC, secrets=secrets)


def scrypt_arguments():
    salt, body = signs(SALT), sealed(bytes(32), bytes(12), FILE_KEY)
    yield from files("scrypt_argument", ARG_COUNT, (
        ("missing", "there is no work factor", scrypt_lines(salt)), ("more", "there is one argument too many", scrypt_lines(salt, b"1", b"1")),
        ("none", "there is neither a salt nor a work factor", stanza_text([b"scrypt"], body)),
    ))
    yield from files("scrypt_salt", BAD_SALT, ((name, comment, scrypt_lines(other, b"1")) for name, comment, other in bad_salts()))
    yield from files("scrypt_work_factor", WORK_TEXT, (
        (name, f"the work factor is {work}", scrypt_lines(salt, work.encode())) for name, work in (
            ("0", "0"), ("leading_zero", "01"), ("plus", "+1"), ("minus", "-1"), ("letter_behind", "1a"), ("letter_before", "a1"),
            ("hex", "0x1"), ("point", "1.0"), ("comma", "1,0"), ("underscore", "1_0"),
        )
    ))
    yield from files("scrypt_work_factor", TOO_HIGH, (
        (str(work), f"the work factor is {comment}", scrypt_lines(salt, str(work).encode())) for work, comment in (
            (23, "one more than the usual maximum"), (31, "more than 30"), (64, "2^6"), (257, "2^8 + 1"),
            (65537, "2^16 + 1"), (2**32 + 1, "2^32 + 1"), (2**64 + 1, "2^64 + 1"),
        )
    ))
    yield from files("scrypt_work_factor", TOO_HIGH, (
        (f"{digits}_digits", f"the work factor is 10^{digits - 1}", scrypt_lines(salt, b"1" + b"0" * (digits - 1))) for digits in (40, 60001)
    ))
    yield from files("scrypt_work_factor", WORK_TEXT, [("60000_zeros", "the work factor is 60,000 zeros", scrypt_lines(salt, b"0" * 60000))])


def bad_salts():
    """Malformed salts of a stanza."""
    salt = signs(SALT)
    return (
        ("short", "the salt has 15 bytes", signs(SALT[1:])), ("long", "the salt has 17 bytes", signs(SALT + b"\0")),
        ("21_signs", "the salt has 21 characters", salt[:-1]), ("padding", "the salt is padded", salt + b"=="),
        ("not_canonical", "the pad bits of the salt are not zero", not_canonical(salt)),
        ("url_alphabet", "the salt has a character of the other alphabet of base64", salt[:-2] + b"_w"),
    )


def not_canonical(text):
    """The base64 text with another last character that decodes to the same bytes."""
    return text[:-1] + bytes([text[-1] + 1])


def scrypt_bodies():
    salt = signs(SALT)
    _, wrap_key = passphrase_stanza(PASSPHRASE, 1, SALT)
    yield from files("scrypt_body", BODY_LENGTH, (
        (str(size), f"the body has {size} bytes, a sealed file key of {size - 16}", scrypt_lines(body=sealed(wrap_key, bytes(12), SEED[: size - 16])))
        for size in (16, 31, 33, 48, 64)
    ))
    yield from files("scrypt_body", BODY_LENGTH, [("empty", "the body is empty", scrypt_lines(body=b""))])
    for name, comment, fault, lines in (
        ("arguments", "an argument is missing, and the salt and the body are malformed", ARG_COUNT, scrypt_lines(salt[1:], body=b"")),
        ("argument_more", "there is one argument too many, and all others and the body are malformed", ARG_COUNT, scrypt_lines(salt[1:], b"015", b"x", body=b"")),
        ("salt", "the salt, the work factor's text and the body are malformed", BAD_SALT, scrypt_lines(salt[1:], b"0", body=b"")),
        ("work_factor_text", "the work factor's text and the body are malformed", WORK_TEXT, scrypt_lines(salt, b"099", body=b"")),
        ("work_factor", "the work factor is too high and the body empty", TOO_HIGH, scrypt_lines(salt, b"99", body=b"")),
    ):
        yield from files("scrypt_order", fault, [(name, comment, lines)])
    file = with_other_mac(age_file(scrypt_lines(salt, b"0"), b""))
    yield Case("scrypt_order_mac", "the work factor is 0, the MAC changed, and nothing follows it", file, WORK_TEXT)


def scrypt_files():
    salt = signs(SALT)
    _, wrap_key = passphrase_stanza(PASSPHRASE, 1, SALT)
    body = sealed(wrap_key, bytes(12), FILE_KEY)
    without_label = hashlib.scrypt(PASSPHRASE, salt=SALT, n=2, r=8, p=1, dklen=32)
    yield from files("scrypt_wrong", WRONG_KEY, (
        ("passphrase", "the passphrase is another one", wrapped(passphrase_stanza(PASSPHRASE[:-1], 1, SALT), FILE_KEY)),
        ("tag", "the last byte of the body's tag is changed", scrypt_lines(body=changed(body, -1))),
        ("ciphertext", "the first byte of the body is changed", scrypt_lines(body=changed(body, 0))),
        ("work_factor", "the work factor is not that of the body", scrypt_lines(salt, b"2")),
        ("salt", "the salt is not that of the body", scrypt_lines(signs(NONCE), b"1")),
        ("label", "scrypt's salt has no label", scrypt_lines(body=sealed(without_label, bytes(12), FILE_KEY))),
        ("nonce", "the nonce of the body is 1", scrypt_lines(body=sealed(wrap_key, bytes(11) + b"\1", FILE_KEY))),
    ))
    works = [(work, wrapped(passphrase_stanza(PASSPHRASE, work, SALT), FILE_KEY)) for work in (2, 9, 10, 15)]
    yield from files("scrypt_work", OPENS, ((str(work), f"the work factor is {work}", lines) for work, lines in works))
    yield from files("scrypt", NO_MATCH, [("uppercase", "the type begins with a capital", SCRYPT.replace(b"scrypt", b"Scrypt"))])
    yield from files("scrypt_not_alone", MIXED, (
        ("twice", "there are two passphrase stanzas", SCRYPT * 2), ("grease_before", "another stanza comes before", GREASE + SCRYPT),
        ("grease_behind", "another stanza follows", SCRYPT + GREASE), ("malformed", "another stanza follows a malformed one", scrypt_lines(salt) + GREASE),
    ))
    yield from files("scrypt_not_alone", MIXED, [("key", "a key's stanza, which opens, is beside a passphrase's", SCRYPT + KEYED)], BY_KEY)


def passphrases():
    longest = b" ".join(b"%d" % i for i in range(1, 101))[:65].decode()
    for name, comment, passphrase in (
        ("empty", "the passphrase is empty", ""), ("space", "the passphrase begins and ends with a space", " correct horse "),
        ("colon", "the passphrase has a colon and a space", "expect: no match"), ("utf_8", "the passphrase is not ASCII", "pässwörd ☃ 🦆"),
        ("nfd", "letters of the passphrase are decomposed, so it is another passphrase", "pa\u0308sswo\u0308rd ☃ 🦆"),
        ("cr", "the passphrase ends with CR", "correct horse\r"),
        ("64", "the passphrase fills a block of SHA-256", longest[:64]), ("65", "the passphrase is a byte longer than a block of SHA-256", longest),
    ):
        lines = wrapped(passphrase_stanza(passphrase.encode(), 1, SALT), FILE_KEY)
        yield from files("passphrase", OPENS, [(name, comment, lines)], (("passphrase", passphrase),))
    lines = wrapped(passphrase_stanza(longest[:64].encode() + b"x", 1, SALT), FILE_KEY)
    yield from files("passphrase", WRONG_KEY, [("65_other", "the last byte of a passphrase of 65 is another one", lines)], (("passphrase", longest),))
    wrong, (right,) = ("passphrase", "correct hors"), BY_PASSPHRASE
    yield from files("passphrase", OPENS, [("second", "the second of two passphrases opens the file", SCRYPT)], (wrong, right))
    yield from files("passphrase", WRONG_KEY, [("none_of_two", "neither of two passphrases opens the file", SCRYPT)], (wrong, wrong))
    yield from files("no_match", NO_MATCH, (
        ("passphrase", "a key's file is opened by a passphrase", KEYED), ("grease", "a file without a known stanza is opened by a passphrase", GREASE),
    ))
    yield from files("no_match", NO_MATCH, [("key", "a passphrase's file is opened by a key", SCRYPT)], BY_KEY)
    yield Case("no_match_mac", "no stanza is for the passphrase, and the MAC is changed", with_other_mac(age_file(KEYED)), NO_MATCH)


def malformed_keyed():
    other, body = key_lines(key=OTHER_KEY), sealed(key_stanza(KEY, SALT)[1], bytes(12), FILE_KEY)
    for fault, rows in (
        (ARG_COUNT, (
            ("argument_missing", "there is no salt", stanza_text([b"example.org/key"], body)),
            ("argument_more", "there is one argument too many", key_lines(signs(SALT), b"1")),
            ("order_arguments", "an argument is missing and the body empty", stanza_text([b"example.org/key"], b"")),
            ("order_argument_more", "there is one argument too many, and the salt and the body are malformed", key_lines(b"A", b"x", body=b"")),
        )),
        (BAD_SALT, (
            *((f"salt_{name}", comment, key_lines(salt)) for name, comment, salt in bad_salts()),
            ("order_salt", "the salt and the body are malformed", key_lines(b"A", body=b"")),
            ("malformed_behind_another", "a malformed stanza follows one for another key", other + key_lines(b"A")),
        )),
        (BODY_LENGTH, (
            ("body_31", "the body has 31 bytes", key_lines(body=body[:31])), ("body_33", "the body has 33 bytes", key_lines(body=body + b"\0")),
            ("body_empty", "the body is empty", key_lines(body=b"")),
            ("malformed_before", "a malformed stanza comes before one that opens", key_lines(body=body[:31]) + KEYED),
        )),
    ):
        yield from files("key", fault, rows, BY_KEY)


def keyed():
    other, third, body = key_lines(key=OTHER_KEY), SEED[8:40], sealed(key_stanza(KEY, SALT)[1], bytes(12), FILE_KEY)
    yield from files("key_wrong", WRONG_KEY, (
        ("key", "the key is another one", other), ("of_two", "both stanzas are for other keys", other + key_lines(key=third)),
        ("tag", "the last byte of the body's tag is changed", key_lines(body=changed(body, -1))),
        ("salt", "the salt is not that of the body", key_lines(signs(NONCE))),
    ), BY_KEY)
    yield from files("key", OPENS, (
        ("first", "the key's stanza is the first of two", KEYED + other), ("twice", "the same stanza occurs twice", KEYED * 2),
        ("malformed_behind", "a malformed stanza follows one that opens", KEYED + key_lines(body=body[:31])), *among_others(KEYED, other, X),
    ), BY_KEY)
    yield from files("key", OPENS, [("second_of_two_keys", "the second of two keys opens the file", KEYED)], (key_identity(OTHER_KEY), *BY_KEY))
    yield from files("key", WRONG_KEY, [("none_of_two_keys", "neither of two keys opens the file", KEYED)], (key_identity(OTHER_KEY), key_identity(third)))
    yield from files("key", NO_MATCH, [("uppercase", "the type ends with a capital", KEYED.replace(b"key", b"keY"))], BY_KEY)


def among_others(lines, other, foreign):
    """Files with a stanza that opens: alone, and with others for another key and of other types."""
    return (
        ("alone", "the stanza is alone", lines), ("second", "the stanza is the second of two", other + lines),
        ("behind_another_kind", "the stanza follows one of the other kind", foreign + lines),
        ("grease", "stanzas of other types come before, between and after", GREASE + other + GREASE + lines + GREASE),
        ("behind_48_bytes", "a body of 48 bytes ends with an empty line", stanza_text([b"a"], bytes(48)) + lines),
        ("behind_96_bytes", "a body of 96 bytes ends with an empty line", stanza_text([b"a"], bytes(96)) + lines),
        ("behind_each_argument_byte", "an argument has all bytes from 33 to 126", stanza_text([b"a", bytes(range(33, 127))], b"") + lines),
    )


def x25519_files():
    share, other = x25519(X_SHARE), x25519_lines(secret=SEED[12:44])
    body = sealed(x25519_stanza(x25519(X_SECRET), X_SHARE)[1], bytes(12), FILE_KEY)
    for fault, rows in (
        (OPENS, among_others(X, other, KEYED)),
        (NO_MATCH, (
            ("wrong", "the stanza is for another key", other), ("wrong_tag", "the last byte of the body's tag is changed", x25519_lines(body=changed(body, -1))),
            ("lowercase", "the type begins with a small letter", X.replace(b"X25519", b"x25519")),
        )),
        (("Malformed",), (
            ("argument_missing", "there is no share", stanza_text([b"X25519"], body)),
            ("argument_more", "there is one argument too many", x25519_lines(signs(share), b"1")),
            ("share_short", "the share has 31 bytes", x25519_lines(signs(share[1:]))),
            ("share_long", "the share has 33 bytes", x25519_lines(signs(share + b"\0"))),
            ("share_not_canonical", "the pad bits of the share are not zero", x25519_lines(not_canonical(signs(share)))),
            ("share_zero", "the share is a point of low order", x25519_lines(signs(bytes(32)))),
            ("body_31", "the body has 31 bytes", x25519_lines(body=body[:31])), ("body_33", "the body has 33 bytes", x25519_lines(body=body + b"\0")),
        )),
    ):
        yield from files("x25519", fault, rows, BY_X25519)
    yield Case("x25519_mac", "a bit of the MAC is changed", with_other_mac(age_file(GREASE + X)), BAD_MAC, secrets=BY_X25519)


def limits():
    """Headers of sizes around the limit of this project, and with many stanzas, lines or arguments."""
    for kind, lines, secrets in (("key", KEYED, BY_KEY), ("x25519", X, BY_X25519)):
        rest = LIMIT - len(age_file(lines, b"")) - len(b"-> \n\n")
        for size in (LIMIT, LIMIT + 1):
            file = age_file(b"-> " + b"a" * (rest + size - LIMIT) + b"\n\n" + lines)
            comment = f"the header has {size:,} bytes{', the most that this project reads by default' if size == LIMIT else ''}"
            yield Case(f"header_{size}_{kind}", comment, file, *(((None,), HELLO) if size == LIMIT else (("HeaderTooLarge",),)), secrets=secrets)
        count = rest // len(b"-> a\n\n")
        file = age_file(b"-> a\n\n" * count + lines)
        yield Case(f"header_stanzas_{kind}", f"the header has {count + 1:,} stanzas", file, text=HELLO, secrets=secrets)
        file = age_file(b"->" + b" a" * 30000 + b"\n\n" + lines)
        yield Case(f"header_arguments_{kind}", "a stanza has 30,000 arguments", file, text=HELLO, secrets=secrets)
    start = VERSION + b"-> "
    for size, fault in ((LIMIT - 1, "HeaderTruncated"), (LIMIT, "HeaderTooLarge"), (LIMIT + 1, "HeaderTooLarge")):
        yield Case(f"header_line_{size}", f"a line without its end, {size:,} bytes from the start", start + b"a" * (size - len(start)), (fault,))
    yield Case("header_line_no_arrow", "65,536 bytes from the start a line without an arrow and without its end", VERSION + b"A" * (LIMIT - len(VERSION)), ("HeaderTooLarge",))
    full = VERSION + b"-> a\n" + (b"A" * 64 + b"\n") * 1010
    yield Case("header_body", "a body without its end, 65,677 bytes from the start", full, ("HeaderTooLarge",))


def sizes():
    for size in (0, 1, 15, 16, 17, CHUNK - 1, CHUNK, CHUNK + 1, 2 * CHUNK - 1, 2 * CHUNK, 2 * CHUNK + 1, 3 * CHUNK):
        plain, chunks = plain_and_chunks(size)
        yield Case(f"size_{size}", f"a plaintext of {size:,} bytes", age_file(SCRYPT, NONCE + b"".join(chunks)), text=plain)


def payloads(rows):
    """Damaged payloads: the rows are their names, comments, faults, numbers of faulty chunks, sealed chunks
    and, if a reader may release it, the text of the faulty chunk. The chunks before it are released."""
    for name, comment, fault, number, chunks, *more in rows:
        text = b"".join(filler(i, False) for i in range(number))
        yield Case(f"payload_{name}", comment, age_file(SCRYPT, NONCE + b"".join(chunks)), (fault, number), text, more=b"".join(more))


ONE = chunk(0, True, HELLO)
FIRST, SECOND, THIRD = filled(0, False), filled(1, False), chunk(2, True, HELLO)
LAST, LAST_FULL = filled(1, True, 100), filled(1, True)


def damaged_chunks():
    key = hkdf(NONCE, NONCE, b"payload")
    yield from payloads((
        ("tag_first", "the tag of the only chunk is changed", "BadChunk", 0, [changed(ONE, -1)]),
        ("ciphertext_first", "the first byte of the only chunk is changed", "BadChunk", 0, [changed(ONE, 0)]),
        ("tag_of_two", "the tag of the first of two chunks is changed", "BadChunk", 0, [changed(FIRST, -1), LAST]),
        ("tag_second", "the tag of the second chunk is changed", "BadChunk", 1, [FIRST, changed(LAST, -1)]),
        ("tag_second_full", "the tag of a second chunk that is full is changed", "BadChunk", 1, [FIRST, changed(LAST_FULL, -1)]),
        ("tag_second_of_three", "the tag of the second of three chunks is changed", "BadChunk", 1, [FIRST, changed(SECOND, -1), THIRD]),
        ("tag_third", "the tag of the third chunk is changed", "BadChunk", 2, [FIRST, SECOND, changed(THIRD, -1)]),
        ("another_key", "the payload's key comes from the nonce twice", "BadChunk", 0, [sealed_chunk(key, 0, True, HELLO)]),
        ("swapped", "the first two of three chunks are swapped", "BadChunk", 0, [SECOND, FIRST, THIRD]),
        ("repeated", "the first chunk occurs twice", "BadChunk", 1, [FIRST, FIRST, LAST]),
        ("removed_all", "no chunk follows the nonce", "ChunkShort", 0, []),
        ("removed_first", "the first chunk is missing", "BadChunk", 0, [LAST]),
        ("removed_second", "the second of three chunks is missing", "BadChunk", 1, [FIRST, THIRD]),
        ("removed_last", "the last chunk is missing", "BadChunk", 0, [FIRST], filler(0, False)),
        ("removed_last_of_three", "the last of three chunks is missing", "BadChunk", 1, [FIRST, SECOND], filler(1, False)),
        ("empty_last", "an empty chunk follows a full one", "EmptyFinal", 1, [FIRST, chunk(1, True, b"")]),
        ("empty_last_third", "an empty chunk follows two full ones", "EmptyFinal", 2, [FIRST, SECOND, chunk(2, True, b"")]),
        ("empty_last_damaged", "an empty chunk with a wrong tag follows a full one", "EmptyFinal", 1, [FIRST, bytes(16)]),
        ("empty_first", "an empty chunk comes before the others", "BadChunk", 0, [chunk(0, False, b""), SECOND, THIRD]),
        ("short_first", "a chunk that is not full comes before another", "BadChunk", 0, [filled(0, False, 100), LAST]),
        ("long", "a chunk has 65,537 bytes", "BadChunk", 0, [filled(0, True, CHUNK + 1)]),
    ))
    yield Case("payload_nonce", "a bit of the nonce is changed", age_file(SCRYPT, changed(PAYLOAD, 0)), ("BadChunk", 0))


def flags_and_counters():
    yield from payloads((
        ("flag_missing", "the only chunk has no flag", "BadChunk", 0, [chunk(0, False, HELLO)]),
        ("flag_missing_empty", "an empty chunk has no flag", "BadChunk", 0, [chunk(0, False, b"")]),
        ("flag_missing_second", "the second chunk has no flag", "BadChunk", 1, [FIRST, filled(1, False, 100)]),
        ("flag_early", "the first of two chunks has the flag", "BadChunk", 0, [filled(0, True), LAST], filler(0, True)),
        ("flag_early_second", "the second of three chunks has the flag", "BadChunk", 1, [FIRST, LAST_FULL, THIRD], filler(1, True)),
        ("flag_early_short", "two files' only chunks follow each other", "BadChunk", 0, [ONE, ONE]),
        ("flag_255", "the flag is 255", "BadChunk", 0, [sealed(PAYLOAD_KEY, bytes(11) + b"\xff", HELLO)]),
        ("flag_in_front", "the flag is the first byte of the nonce", "BadChunk", 0, [sealed(PAYLOAD_KEY, b"\1" + bytes(11), HELLO)]),
        ("counter_from_1", "the first chunk is counted as 1", "BadChunk", 0, [chunk(1, True, HELLO)]),
        ("counter_stays", "the second chunk is counted as 0", "BadChunk", 1, [FIRST, filled(0, True, 100)]),
        ("counter_skips", "the second chunk is counted as 2", "BadChunk", 1, [FIRST, filled(2, True, 100)]),
        ("counter_little_endian", "the counter begins with its lowest byte", "BadChunk", 1, [FIRST, filled(1 << 80, True, 100)]),
    ))


def ends():
    """Bytes after the last chunk, and a file of two chunks that is cut."""
    for name, comment, size in (
        ("short", "a last chunk that is not full", 6), ("full", "a full last chunk", CHUNK), ("second", "a second chunk that is not full", CHUNK + 6),
        ("second_full", "a second chunk that is full", 2 * CHUNK),
    ):
        plain, chunks = plain_and_chunks(size)
        before = CHUNK * (len(chunks) - 1)
        more = plain[before:] if size % CHUNK == 0 else b""
        for count in (1, 15, 16, 17):
            file = age_file(SCRYPT, NONCE + b"".join(chunks) + bytes(count))
            yield Case(f"behind_{name}_{count}", f"{count} bytes follow {comment}", file, ("BadChunk", len(chunks) - 1), plain[:before], more=more)
    for size in (16, CHUNK, CHUNK + 15):
        yield from payloads([(f"cut_first_{size}", f"the first of two chunks is cut to {size:,} bytes", "BadChunk", 0, [FIRST[:size]])])
    for size, fault in ((1, "ChunkShort"), (15, "ChunkShort"), (16, "EmptyFinal"), (17, "BadChunk"), (115, "BadChunk")):
        yield from payloads([(f"cut_second_{size}", f"the second of two chunks is cut to {size} bytes", fault, 1, [FIRST, LAST[:size]])])


def cuts():
    """The file of an empty plaintext, cut at each offset."""
    for size in range(len(EMPTY)):
        fault = ("HeaderTruncated",) if size < len(HEADER) else ("NonceTruncated",) if size < len(HEADER) + 16 else ("ChunkShort", 0)
        yield Case(f"cut_{size:03}", f"a file of {len(EMPTY)} bytes cut to {size}", EMPTY[:size], fault)


def armored():
    lines = base64.b64encode(GOOD)
    body = b"".join(lines[at : at + 64] + b"\n" for at in range(0, len(lines), 64))
    file = b"-----BEGIN AGE ENCRYPTED FILE-----\n" + body + b"-----END AGE ENCRYPTED FILE-----\n"
    yield Case("armor", "a file in ASCII armor, which this project refuses", file, text=HELLO, is_armored=True)


GROUPS = (
    versions, argument_lines, body_lines, end_lines, macs, scrypt_arguments, scrypt_bodies, scrypt_files, passphrases, malformed_keyed, keyed,
    x25519_files, limits, sizes, damaged_chunks, flags_and_counters, ends, cuts, armored,
)


@functools.cache
def cases():
    """All vectors, sorted by name."""
    return sorted((case for group in GROUPS for case in group()), key=lambda case: case.name)


def sum_of_all():
    """The SHA-256 of the names, lines and files of all vectors. The files are not compressed, because another
    zlib may compress them differently."""
    total = hashlib.sha256()
    for case in cases():
        total.update(b"%b\n%b\n%d\n%b" % (case.name.encode(), case.head, len(case.file), case.file))
    return total.hexdigest()


def make(folder):
    """Makes the vectors in a folder, which must not exist."""
    os.makedirs(folder)
    for case in cases():
        write(f"{folder}/{case.name}", case.stored)


def main():
    if len(sys.argv) != 2 or os.path.lexists(sys.argv[1]):
        sys.exit("usage: tests/make_vectors.py FOLDER     a folder that does not exist")
    make(sys.argv[1])
    print(f"{len(cases())} vectors, {sum_of_all()}")


if __name__ == "__main__":
    main()
