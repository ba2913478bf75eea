"""What each call in C must return and write, by docs/FORMAT.md and agefile.h, except agefile_version,
agefile_message and agefile_detail. Uses tests/reference.py, and shares nothing with the library.

Each function named like a call takes its arguments: numbers, and a bytearray for each pointer, which it
changes like the call. It returns the code and the report (or a number alone), or raises Fault."""

import base64
import functools
import re
import struct

import reference

MAX_HEADER, TEXT, SEALED, TAG = 65536, 65536, 65552, 16
VERSION = b"age-encryption.org/v1\n"
MOST = 2**64 - 1
CLOSED, READING, WRITING, ENDED, FAILED = range(5)
(OK, NOT_AGE, BAD_LINE, HEADER_TRUNCATED, HEADER_TOO_LARGE, MIXED_PASSPHRASE, NO_MATCH, WRONG_KEY, MALFORMED, BAD_MAC,
 NONCE_TRUNCATED, CHUNK_SHORT, EMPTY_FINAL, BAD_CHUNK, TOO_MANY_CHUNKS) = range(15)
NO_RECIPIENTS, TOO_SMALL, WORK_FACTOR, OUT_OF_ORDER, NULL_POINTER, BAD_ARGUMENTS = 18, 21, 22, 23, 24, 25
EMPTY_PASSPHRASE = 26


class NULL:
    """A null pointer with a length."""

    def __init__(self, length):
        self.length = length


class Fault(Exception):
    def __init__(self, code, place=0, detail=0):
        self.code, self.report = code, (0, place, detail)


def decoded(text):
    """The bytes of a canonical base64 text without padding, or None."""
    if not re.fullmatch(rb"[A-Za-z0-9+/]*", text) or len(text) % 4 == 1:
        return None
    found = base64.b64decode(text + b"=" * (-len(text) % 4))
    return found if reference.signs(found) == text else None


def header_of(data):
    """The stanzas of a header as pairs of arguments and body, its MAC, and its length."""
    head = data[:MAX_HEADER]
    if not VERSION.startswith(head[:22]):
        raise Fault(NOT_AGE)
    stanzas, lines, at, number = [], None, 22, 1
    while True:
        end = head.find(b"\n", at) if len(head) >= 22 else -1
        if end < 0:
            raise Fault(HEADER_TRUNCATED if len(data) < MAX_HEADER else HEADER_TOO_LARGE)
        line, at, number = head[at:end], end + 1, number + 1
        if lines is not None:
            if not re.fullmatch(rb"[A-Za-z0-9+/]{0,64}", line):
                raise Fault(BAD_LINE, number)
            lines += line
            if len(line) < 64:
                body = decoded(lines)
                if body is None:
                    raise Fault(BAD_LINE, number)
                stanzas.append((arguments, body))
                lines = None
        elif re.fullmatch(rb"->( [!-~]+)+", line):
            arguments, lines = line[3:].split(b" "), b""
        elif stanzas and line.startswith(b"--- ") and len(line) == 47 and decoded(line[4:]) is not None:
            return stanzas, decoded(line[4:]), at
        else:
            raise Fault(BAD_LINE, number)


def is_mixed(stanzas):
    return len(stanzas) > 1 and any(arguments[0] == b"scrypt" for arguments, _ in stanzas)


def lines_of(arguments, body):
    """The text of a stanza."""
    text = reference.signs(body)
    cut = [text[at : at + 64] for at in range(0, len(text), 64)]
    if not cut or len(cut[-1]) == 64:
        cut.append(b"")
    return b"-> " + b" ".join(arguments) + b"\n" + b"".join(line + b"\n" for line in cut)


def mac_of(stanzas, file_key):
    text = VERSION + b"".join(lines_of(*stanza) for stanza in stanzas) + b"---"
    return reference.hmac.digest(reference.hkdf(file_key, b"", b"header"), text, "sha256")


@functools.lru_cache(maxsize=256)
def opened(key, nonce, data):
    """The plaintext, or None if the tag is wrong."""
    # The cipher is an XOR, so sealing also opens.
    text = reference.sealed(key, nonce, data[:-TAG])[:-TAG]
    return text if reference.sealed(key, nonce, text) == data else None


def answer(arguments, body, kind, wrap_key_of):
    """What an identity finds in a stanza of its kind; None if it does not open the stanza."""
    count = {b"scrypt": 3, b"example.org/key": 2}[kind]
    if len(arguments) != count:
        raise Fault(MALFORMED, 0, 1)
    salt = decoded(arguments[1]) if len(arguments[1]) == 22 else None
    if salt is None:
        raise Fault(MALFORMED, 0, 2)
    wrap_key = wrap_key_of(salt, *arguments[2:])
    if len(body) != 32:
        raise Fault(MALFORMED, 0, 5)
    return opened(wrap_key(), bytes(12), bytes(body))


def key_answer(key):
    return b"example.org/key", lambda salt: lambda: reference.hkdf(key, salt, b"example.org/key")


def passphrase_answer(passphrase, most):
    def wrap_key_of(salt, work):
        if not re.fullmatch(rb"[1-9][0-9]*", work):
            raise Fault(MALFORMED, 0, 3)
        if len(work) > 2 or int(work) > most:
            raise Fault(MALFORMED, 0, 4)
        return lambda: scrypt(passphrase, salt, int(work))

    return b"scrypt", wrap_key_of


@functools.lru_cache(maxsize=256)
def scrypt(passphrase, salt, work):
    return reference.passphrase_stanza(passphrase, work, salt)[1]


def unlocked(front, identity):
    """The file key that an identity finds in a header, and the length of the header."""
    stanzas, mac, length = header_of(front)
    if is_mixed(stanzas):
        raise Fault(MIXED_PASSPHRASE)
    kind, wrap_key_of = identity
    own = [stanza for stanza in stanzas if stanza[0][0] == kind]
    for stanza in own:
        file_key = answer(*stanza, kind, wrap_key_of)
        if file_key is not None:
            break
    else:
        raise Fault(WRONG_KEY if own else NO_MATCH)
    if mac != mac_of(stanzas, file_key):
        raise Fault(BAD_MAC)
    return file_key, length


def started(front, file_key):
    """The key of the payload for a file key, and the offset of its first chunk."""
    stanzas, mac, length = header_of(front)
    if is_mixed(stanzas):
        raise Fault(MIXED_PASSPHRASE)
    if mac != mac_of(stanzas, file_key):
        raise Fault(BAD_MAC)
    nonce = front[length : length + 16]
    if len(nonce) < 16:
        raise Fault(NONCE_TRUNCATED)
    return reference.hkdf(file_key, nonce, b"payload"), length + 16


def chunk_text(key, number, is_last, data):
    """The text of a sealed chunk."""
    if number == MOST:
        raise Fault(TOO_MANY_CHUNKS)
    if len(data) < TAG:
        raise Fault(CHUNK_SHORT, number)
    if is_last and number > 0 and len(data) == TAG:
        raise Fault(EMPTY_FINAL, number)
    text = opened(key, number.to_bytes(11, "big") + bytes([is_last]), bytes(data))
    if text is None:
        raise Fault(BAD_CHUNK, number)
    return text


def made_header(text, file_key):
    """The header with these stanzas, given as text."""
    if not text:
        raise Fault(NO_RECIPIENTS)
    probe = VERSION + text + b"--- " + b"A" * 43 + b"\n"
    try:
        stanzas, _, length = header_of(probe)
    except Fault as fault:
        if fault.code == BAD_LINE:
            raise Fault(BAD_LINE, fault.report[1] - 1) from None
        raise
    if length < len(probe):
        raise Fault(BAD_LINE, probe[:length].count(b"\n") - 1)
    if is_mixed(stanzas):
        raise Fault(MIXED_PASSPHRASE)
    return VERSION + text + b"--- " + reference.signs(mac_of(stanzas, file_key)) + b"\n"


def given(out, text):
    """Writes a text if it fits."""
    if len(text) > len(out):
        return TOO_SMALL, (len(text), 0, 0)
    out[: len(text)] = text
    return OK, (len(text), 0, 0)


# ---- The structs


def zero(data):
    data[:] = bytes(len(data))


class Struct:
    """A struct that a call gets: its fields, in the memory of the call."""

    def __init__(self, data, names, numbers="QQQ"):
        self.data, self.names, self.layout = data, names, f"<32s{numbers}"
        for name, value in zip(("key", *names), struct.unpack_from(self.layout, data)):
            setattr(self, name, value)

    def write(self):
        struct.pack_into(self.layout, self.data, 0, self.key, *(getattr(self, name) for name in self.names))


payload_of = functools.partial(Struct, names=("number", "state", "damaged", "before", "held"), numbers="QQIIQ")
part_of = functools.partial(Struct, names=("number", "left", "state"))
ranges_of = functools.partial(Struct, names=("first", "sealed_len", "state"))

# ---- The calls


def inspect(front, summary):
    stanzas, mac, length = header_of(bytes(front))
    summary[:] = struct.pack("<QQ", length, len(stanzas)) + mac
    return OK, (0, 0, 0)


def stanzas(front, sizes, text):
    found = [(b" ".join(arguments), body, len(arguments)) for arguments, body in header_of(bytes(front))[0]]
    listed = b"".join(arguments + body for arguments, body, _ in found)
    report = (len(listed), len(found), 0)
    if len(sizes) < 24 * len(found) or len(text) < len(listed):
        return TOO_SMALL, report
    for i, (arguments, body, count) in enumerate(found):
        struct.pack_into("<3Q", sizes, 24 * i, count, len(arguments), len(body))
    text[: len(listed)] = listed
    return OK, report


def check_work(work):
    if not 1 <= work <= 30:
        raise Fault(WORK_FACTOR)


def unlock_passphrase(front, passphrase, most, file_key):
    check_work(most)
    file_key[:], length = unlocked(bytes(front), passphrase_answer(bytes(passphrase), most))
    return OK, (length, 0, 0)


def unlock_key(front, key, file_key):
    file_key[:], length = unlocked(bytes(front), key_answer(bytes(key)))
    return OK, (length, 0, 0)


def wrap_passphrase(file_key, passphrase, work, salt, out):
    if not passphrase:
        raise Fault(EMPTY_PASSPHRASE)
    check_work(work)
    salt = bytes(salt)
    body = reference.sealed(scrypt(bytes(passphrase), salt, work), bytes(12), bytes(file_key))
    return given(out, lines_of([b"scrypt", reference.signs(salt), str(work).encode()], body))


def wrap_key(file_key, key, salt, out):
    arguments, wrap = reference.key_stanza(bytes(key), bytes(salt))
    return given(out, lines_of(arguments, reference.sealed(wrap, bytes(12), bytes(file_key))))


def wrap(arguments, body, out):
    if not re.fullmatch(rb"[!-~]+( [!-~]+)*", arguments):
        raise Fault(BAD_ARGUMENTS)
    return given(out, lines_of(bytes(arguments).split(b" "), bytes(body)))


def header(text, file_key, out):
    return given(out, made_header(bytes(text), bytes(file_key)))


def begin(text, file_key, nonce, out, payload):
    zero(payload)
    code, report = given(out, made_header(bytes(text), bytes(file_key)) + nonce)
    if code == OK:
        payload[:48] = reference.hkdf(bytes(file_key), bytes(nonce), b"payload") + struct.pack("<QQ", 0, WRITING)
    return code, report


def open(front, file_key, payload):
    zero(payload)
    key, first = started(bytes(front), bytes(file_key))
    payload[:48] = key + struct.pack("<QQ", 0, READING)
    return OK, (first, 0, 0)


def is_chunk_length(length, is_last):
    return length <= SEALED if is_last else length == SEALED


def in_place(owner, chunk, is_last, is_opening):
    """Opens or seals the next chunk of a payload or part, and advances to the chunk after it."""
    try:
        if is_opening:
            text = chunk_text(owner.key, owner.number, is_last, chunk)
        elif owner.number == MOST:
            raise Fault(TOO_MANY_CHUNKS)
        else:
            text = reference.sealed_chunk(owner.key, owner.number, is_last, bytes(chunk[:-TAG]))
    except Fault:
        owner.state = FAILED
        owner.write()
        raise
    chunk[: len(text)] = text
    owner.number += 1
    return OK, (len(text), 0, 0)


def next_of_payload(data, chunk, is_last, state):
    payload, is_last = payload_of(data), bool(is_last)
    has_text = state == READING or len(chunk) > TAG or (len(chunk) == TAG and payload.number == 0)
    if payload.state != state or not is_chunk_length(len(chunk), is_last) or not has_text:
        raise Fault(OUT_OF_ORDER)
    done = in_place(payload, chunk, is_last, state == READING)
    payload.state = ENDED if is_last else state
    payload.write()
    return done


open_next = functools.partial(next_of_payload, state=READING)
seal_next = functools.partial(next_of_payload, state=WRITING)


def take_part(data, count, part):
    payload = payload_of(data)
    zero(part)
    if payload.state not in (READING, WRITING) or count == 0:
        raise Fault(OUT_OF_ORDER)
    if payload.number + count > MOST:
        raise Fault(TOO_MANY_CHUNKS)
    part[:56] = payload.key + struct.pack("<3Q", payload.number, count, payload.state)
    payload.number += count
    payload.write()
    return OK, (0, 0, 0)


def next_of_part(data, chunk, state):
    part = part_of(data)
    if part.state != state or part.left == 0 or len(chunk) != SEALED:
        raise Fault(OUT_OF_ORDER)
    done = in_place(part, chunk, False, state == READING)
    part.left -= 1
    part.state = state if part.left else ENDED
    part.write()
    return done


part_open_next = functools.partial(next_of_part, state=READING)
part_seal_next = functools.partial(next_of_part, state=WRITING)
SAVED_CHUNK, SAVED_LAST, SAVED_EARLY, SAVED_ZEROS, SAVED_NONE, SAVED_PADDED = range(1, 7)
WHOLE, CUT = 1, 2


def saved(key, number, is_last, data):
    """What is saved of a sealed chunk: its text, without the padding after a last chunk, or zeros; and its kind."""
    for is_marked in (is_last, not is_last):
        text = opened(key, number.to_bytes(11, "big") + bytes([is_marked]), data) if len(data) >= TAG else None
        if text is not None and not is_marked:
            return text, SAVED_CHUNK
        if text is not None:
            return text, SAVED_LAST if is_last and (text or number == 0) else SAVED_EARLY
    for end in range(len(data) - 1, max(TAG, len(data) - 4095) - 1, -1) if is_last else ():
        text = opened(key, number.to_bytes(11, "big") + b"\1", data[:end])
        if text is not None:
            return text, SAVED_PADDED
    return bytes(max(len(data) - TAG, 0)), SAVED_ZEROS if len(data) > TAG else SAVED_NONE


def verdict(payload, kind):
    """WHOLE or CUT if that is known of the plaintext by what was saved of its chunks, else 0."""
    if kind == SAVED_LAST and not payload.damaged:
        return WHOLE
    return CUT if kind == SAVED_CHUNK or kind == SAVED_NONE and payload.before <= SAVED_CHUNK else 0


def salvage_next(data, chunk, is_last):
    payload, is_last = payload_of(data), bool(is_last)
    if payload.state != READING or not is_chunk_length(len(chunk), is_last):
        raise Fault(OUT_OF_ORDER)
    if payload.number == MOST:
        payload.state = FAILED
        payload.write()
        raise Fault(TOO_MANY_CHUNKS)
    text, kind = saved(payload.key, payload.number, is_last, bytes(chunk))
    chunk[: len(text)] = text
    detail = verdict(payload, kind) if is_last else 0
    payload.damaged = 1 if kind in (SAVED_ZEROS, SAVED_EARLY) else payload.damaged
    payload.before = kind
    payload.number += 1
    payload.state = ENDED if is_last else READING
    payload.write()
    return OK, (len(text), kind, detail)


def last_index(sealed):
    return max(sealed - 1, 0) // SEALED


def piece_length(sealed, index):
    return min(SEALED, max(sealed - SEALED * index, 0))


def plain_length(sealed):
    return max(sealed - TAG * (last_index(sealed) + 1), 0)


def ranges_open(front, file_len, file_key, data):
    zero(data)
    key, first = started(bytes(front), bytes(file_key))
    if file_len < first:
        raise Fault(OUT_OF_ORDER)
    sealed = file_len - first
    data[:56] = key + struct.pack("<3Q", first, sealed, 1)
    index = last_index(sealed)
    return OK, (piece_length(sealed, index), first + SEALED * index, 0)


def ranges_last(data, chunk):
    ranges = ranges_of(data)
    index = last_index(ranges.sealed_len)
    if ranges.state not in (1, 2) or len(chunk) != piece_length(ranges.sealed_len, index):
        raise Fault(OUT_OF_ORDER)
    ranges.state = 1
    ranges.write()
    text = chunk_text(ranges.key, index, True, chunk)
    chunk[: len(text)] = text
    ranges.state = 2
    ranges.write()
    return OK, (plain_length(ranges.sealed_len), 0, 0)


def piece_with(ranges, at):
    """The index of the piece that holds a byte."""
    if ranges.state != 2 or ranges.first + ranges.sealed_len > MOST or at >= plain_length(ranges.sealed_len):
        raise Fault(OUT_OF_ORDER)
    return at // TEXT


def ranges_locate(data, at):
    ranges = ranges_of(data)
    index = piece_with(ranges, at)
    return OK, (piece_length(ranges.sealed_len, index), ranges.first + SEALED * index, 0)


def ranges_chunk(data, at, chunk):
    ranges = ranges_of(data)
    index = piece_with(ranges, at)
    if len(chunk) != piece_length(ranges.sealed_len, index):
        raise Fault(OUT_OF_ORDER)
    text = chunk_text(ranges.key, index, ranges.sealed_len <= SEALED * (index + 1), chunk)
    chunk[: len(text)] = text
    return OK, (len(text) - at % TEXT, at % TEXT, 0)


def pieces_of(payload):
    return [payload[at : at + SEALED] for at in range(0, len(payload), SEALED)] or [b""]


def decrypt(file, file_key, out):
    key, first = started(bytes(file), bytes(file_key))
    pieces = pieces_of(bytes(file[first:]))
    needed = sum(max(len(piece) - TAG, 0) for piece in pieces)
    if needed > len(out):
        return TOO_SMALL, (needed, 0, 0)
    written = 0
    for i, piece in enumerate(pieces):
        try:
            text = chunk_text(key, i, i == len(pieces) - 1, piece)
        except Fault as fault:
            return fault.code, (written, *fault.report[1:])
        out[written : written + len(text)] = text
        written += len(text)
    return OK, (written, 0, 0)


def encrypt(plain, text, file_key, nonce, out):
    file_key, nonce, plain = bytes(file_key), bytes(nonce), bytes(plain)
    made = made_header(bytes(text), file_key) + nonce
    if len(made) + sealed_length(len(plain)) > len(out):
        return TOO_SMALL, (len(made) + sealed_length(len(plain)), 0, 0)
    key, chunks = reference.hkdf(file_key, nonce, b"payload"), reference.chunks_of(plain)
    sealed = [reference.sealed_chunk(key, i, i == len(chunks) - 1, chunk) for i, chunk in enumerate(chunks)]
    return given(out, made + b"".join(sealed))


def by_a_secret(unlock, file, *secret_and_out):
    *secret, out = secret_and_out
    file_key = bytearray(16)
    unlock(file, *secret, file_key)
    return decrypt(file, file_key, out)


def for_a_secret(wrap, plain, *secret_and_out):
    *secret, seed, out = secret_and_out
    text = bytearray(200)
    _, (length, _, _) = wrap(seed[:16], *secret, seed[32:], text)
    return encrypt(plain, text[:length], seed[:16], seed[16:32], out)


decrypt_passphrase = functools.partial(by_a_secret, unlock_passphrase)
decrypt_key = functools.partial(by_a_secret, unlock_key)
encrypt_passphrase = functools.partial(for_a_secret, wrap_passphrase)
encrypt_key = functools.partial(for_a_secret, wrap_key)


def sealed_length(plain):
    return plain + TAG * max((plain + TEXT - 1) // TEXT, 1)


def sealed_len(plain):
    return min(156 + 16 + sealed_length(plain), MOST)


def plain_len_at_most(file):
    rest = max(file - 86, 0)
    return TEXT * (rest // SEALED) + max(rest % SEALED - TAG, 0)


def file_len(header_len, plain):
    return min(header_len + 16 + sealed_length(plain), MOST)
