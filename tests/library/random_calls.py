#!/usr/bin/env python3
"""Makes random calls of the library for C, and compares everything that they return and write with model.py.

usage: tests/library/random_calls.py COUNT SEED DRIVER..

Each DRIVER is tests/library/driver.c, built with a library and the calls of header.py; all make the same calls.
First, each pointer that a length follows is null, with length 0 and with two others. Then last chunks of each kind
are salvaged, and structs in each state get chunks of edge lengths. Then files of up to four chunks are made and
opened in every way, whole, damaged, cut and longer, and each place of a header is cut and changed. Then in COUNT
calls files, headers, structs, lengths and numbers are right or wrong in many ways; structs come from earlier calls,
or are random. Each buffer lies at the end or at the start of its pages, shifted by up to 15 bytes. Some calls are
made on eight threads at once, some with each allocation refused in turn; at the end both are done with a successful
call of each function with a report. Prints how many calls returned each code or, with status 1, a wrong call.
"""

import collections
import itertools
import os
import queue
import random
import re
import struct
import subprocess
import sys
import threading

sys.dont_write_bytecode = True
sys.path.insert(0, os.path.join(os.path.dirname(os.path.abspath(__file__)), ".."))

import header
import model
import reference
from fixture import KEY, PASSPHRASE, SEED, changed
from model import MAX_HEADER, MOST, NULL, SEALED, TAG, TEXT
from program import version

AT_START, REFUSING, THREADS = 1, 2, 4
VERSION = int("".join(f"{int(number):02x}" for number in version().split(".")), 16)
HEADER = header.Header()
SIZES = {name: int(size) for name, size in re.findall(r"sizeof\(agefile_(\w+)\) (\d+)", (header.ROOT / header.LAYOUT).read_text())}


def kind_of(value):
    """The size of a struct or an array, or "n" for a number, "b" for bytes with a length, "o" for bytes that
    are written, "s" for an array of structs."""
    if value.has_length:
        return "s" if value.kind in SIZES else "b" if value.access == "const" else "o"
    return value.count or SIZES.get(value.kind, "n")


CALLS = {e.name: tuple(kind_of(value) for value in e.parameters if value.kind != "report") for e in HEADER.functions}
INDEX = {name: index for index, name in enumerate(CALLS)}
# The calls with a report that allocate nothing.
CHUNKS = ("open_next", "seal_next", "take_part", "part_open_next", "part_seal_next", "salvage_next", "ranges_last", "ranges_locate", "ranges_chunk")
# The calls without a report.
NUMBERS = [e.name for e in HEADER.functions if not any(value.kind == "report" for value in e.parameters)]
# The states of payloads, parts and ranges, and numbers that are not a state.
STATES = (0, 1, 2, 3, 4, 5, 2**32 + 1, MOST)
# The calls that open a payload or ranges, with the index of that argument.
OPENING = {name: len(CALLS[name]) - 1 for name in header.OPENING}


class Driver:
    """A program that makes calls. A thread compares its answers, so that the next call need not wait for that."""

    def __init__(self, program):
        self.program, self.process = program, subprocess.Popen([program], stdin=subprocess.PIPE, stdout=subprocess.PIPE)
        self.asked = queue.Queue(200)
        threading.Thread(target=self.compare_all, daemon=True).start()

    def ask(self, call, wanted):
        """Sends a call; `wanted` has the result, the report or None, and the buffers afterwards."""
        name, flags, arguments, shifts = call
        self.asked.put((call, wanted))
        parts = [bytes((INDEX[name], flags, len(arguments)))]
        for argument, shift in zip(arguments, shifts):
            if isinstance(argument, int):
                parts.append(struct.pack("<BBQ", 0, 0, argument))
            elif isinstance(argument, NULL):
                parts.append(struct.pack("<BBQ", 2, 0, argument.length))
            else:
                parts += [struct.pack("<BBQ", 1, shift, len(argument)), bytes(argument)]
        self.process.stdin.write(b"".join(parts))
        self.process.stdin.flush()

    def compare_all(self):
        while True:
            call, wanted = self.asked.get()
            self.compare(*call[:3], *wanted)
            self.asked.task_done()

    def compare(self, name, flags, arguments, *wanted):
        result, is_well, refusals, out_of_memory, *report = struct.unpack("<QB5Q", self.read(49))
        after = [self.read(len(a)) if isinstance(a, bytearray) else None for a in arguments]
        is_silent = name in CHUNKS or name in NUMBERS
        if flags & REFUSING and (refusals if is_silent else result == 0 and out_of_memory < 1 + ("passphrase" in name)):
            is_well = 0
        found = result, tuple(report) if wanted[1] is not None else None, after
        if found != wanted or not is_well:
            different = [i for i, (one, other) in enumerate(zip(after, wanted[2])) if one != other]
            print(f"{self.program}: {name}, flags {flags}: code {result}, not {wanted[0]}; report {report}, not {wanted[1]}; well {is_well};")
            print(f"arguments that differ: {different}; arguments:")
            for argument in arguments:
                print(argument.hex() if isinstance(argument, bytearray) else getattr(argument, "length", argument))
            self.give_up()

    def read(self, count):
        data = self.process.stdout.read(count)
        if len(data) != count:
            print(f"{self.program} ended with status {self.process.wait()}")
            self.give_up()
        return data

    def give_up(self):
        """Ends this process, whatever its other threads do."""
        sys.stdout.flush()
        os._exit(1)

    def end(self):
        self.asked.join()
        self.process.stdin.close()
        if self.process.wait() != 0:
            sys.exit(f"{self.program} ended with an error")


def call_of(name, *arguments, flags=0):
    """A call in the form of Maker.call, with buffers that are not shifted."""
    return name, flags, [a if isinstance(a, (int, NULL)) else bytearray(a) for a in arguments], [0] * len(arguments)


class Maker:
    """Random arguments of calls."""

    def __init__(self, seed):
        self.random = random.Random(seed)
        self.file_keys = [self.bytes(16) for _ in range(3)]
        self.keys = [self.bytes(32) for _ in range(3)]
        self.passphrases = [b"", b"x", b"correct horse", self.bytes(200)]
        self.files = []
        self.payloads = {64: [], 56: []}
        self.one_long_in = 400

    def bytes(self, count):
        return self.random.randbytes(count)

    def is_rare(self, one_in):
        return self.random.randrange(one_in) == 0

    def choice(self, *values):
        return self.random.choice(values)

    def length(self):
        """The size of a plaintext: mostly short, because the model is slow."""
        if self.is_rare(self.one_long_in):
            return self.choice(TEXT - 1, TEXT, TEXT + 1, 2 * TEXT, 2 * TEXT + 5)
        return self.choice(0, 0, 1, 15, 16, 17, 63, 64, 65, self.random.randrange(600))

    def number(self):
        return self.choice(
            0, 1, 2, 3, 4, 16, 255, TEXT, SEALED, 2**32, 2**32 + 1, 2**63, MOST - 200, MOST - 1, MOST,
            self.random.randrange(2**16), self.random.getrandbits(64), 1 << self.random.randrange(64),
        )

    def work(self):
        return self.choice(1, 1, 2, 2, 3, 0, 31, 255) if self.is_rare(4) else self.choice(1, 2, 3)

    def words(self):
        words = [self.choice("x", "X25519", "scrypt-", "grease~!", "a" * self.random.randrange(1, 90)) for _ in range(self.random.randrange(1, 4))]
        return " ".join(words).encode()

    def body(self):
        return self.bytes(self.choice(0, 1, 2, 3, 31, 32, 47, 48, 49, 95, 96, 97, self.random.randrange(300)))

    def arguments(self):
        text = self.words()
        if self.is_rare(5):
            text = self.damaged(text) if self.is_rare(2) else self.choice(b"", b" ", b"a ", b" a", b"a  b", "ä".encode(), b"\n", b"a\x7f")
        return text

    def stanza(self, file_key):
        """The text of a stanza: grease, for one of the keys or passphrases, or malformed."""
        salt = self.bytes(16)
        kind = self.random.randrange(7)
        if kind < 3:
            arguments, wrap = reference.key_stanza(self.choice(*self.keys), salt)
            body = reference.sealed(wrap, bytes(12), file_key)
        elif kind < 5:
            work = self.choice(1, 2, 3)
            passphrase = self.choice(*self.passphrases)
            arguments = [b"scrypt", reference.signs(salt), str(work).encode()]
            body = reference.sealed(model.scrypt(passphrase, salt, work), bytes(12), file_key)
        else:
            arguments, body = self.words().split(b" "), self.body()
        if self.is_rare(12):
            arguments = list(arguments)
            arguments[self.random.randrange(len(arguments))] = self.choice(b"scrypt", b"example.org/key", b"015", b"30", b"0", b"x", b"1" * 40)
        if self.is_rare(12):
            body = self.body()
        return model.lines_of(arguments, body)

    def stanzas(self, file_key):
        count = self.choice(1, 1, 1, 2, 3)
        if self.is_rare(300):
            count = self.choice(200, 10911, 10912)
            return model.lines_of([b"x"], b"") * count
        return b"".join(self.stanza(file_key) for _ in range(count))

    def damaged(self, data):
        """Bytes that are nearly these."""
        data, way = bytearray(data), self.random.randrange(6)
        at = self.random.randrange(len(data) + 1)
        if way == 0:
            return bytes(data[:at])
        if way == 1:
            return bytes(data) + self.bytes(self.choice(1, 16, 70))
        if way == 2:
            data[at:at] = self.choice(b"\n", b" ", b"\0", b"=", b"-> x\n\n", b"--- " + b"A" * 43 + b"\n", self.bytes(3))
        elif way == 3:
            del data[at : at + self.choice(1, 2, 16, 64)]
        elif at < len(data):
            data[at] ^= 1 << self.random.randrange(8) if way == 4 else self.random.randrange(256)
        return bytes(data)

    def new_file(self):
        """A file key and the file of a random plaintext, whole or damaged."""
        file_key, nonce = self.choice(*self.file_keys), self.bytes(16)
        text = self.stanzas(file_key)
        try:
            header = model.made_header(text, file_key)
        except model.Fault:
            header = model.VERSION + text + b"--- " + reference.signs(self.bytes(32)) + b"\n"
        key = reference.hkdf(file_key, nonce, b"payload")
        chunks = reference.chunks_of(self.bytes(self.length()), self.is_rare(20))
        sealed = [reference.sealed_chunk(key, i, i == len(chunks) - 1, chunk) for i, chunk in enumerate(chunks)]
        data = header + nonce + b"".join(sealed)
        if len(data) < 5000 and self.is_rare(3):
            data = self.damaged(data)
        return file_key, data

    def file(self):
        """A file key and a file, mostly one of the last 60 made, with its own key."""
        if len(self.files) < 20 or self.is_rare(10):
            self.files.append(self.new_file())
            del self.files[:-60]
        file_key, data = self.choice(*self.files)
        if self.is_rare(40):
            data = self.bytes(self.random.randrange(200)) if self.is_rare(2) else self.damaged(data)
        return (self.choice(*self.file_keys) if self.is_rare(8) else file_key), data

    def front(self):
        file_key, data = self.file()
        if self.is_rare(3):
            data = data[: self.choice(SEALED, self.random.randrange(400), max(len(data) - 16, 0))]
        return file_key, data

    def room(self, needed):
        """A buffer of this size, 1 or 100 bytes larger, or smaller."""
        size = self.choice(needed, needed, needed + 1, needed + 100, max(needed - 1, 0), needed // 2, 0, self.random.randrange(needed + 1))
        return bytes([0xEE]) * size

    def struct(self, size):
        """A struct of an earlier call, or a random one."""
        known = self.payloads[size]
        if known and not self.is_rare(6):
            kept = bytearray(self.choice(*known))
            if self.is_rare(6):
                at = 32 + 8 * self.random.randrange((size - 32) // 8)
                kept[at : at + 8] = struct.pack("<Q", self.number())
            return kept
        fields = [self.number() for _ in range((size - 32) // 8)]
        state = self.choice(0, 1, 2, 3, 4, 2**32 + 1, MOST)
        fields[2 if size == 56 else 1] = state
        return struct.pack(f"<32s{len(fields)}Q", self.choice(bytes(32), self.bytes(32)), *fields)

    def chunk(self, is_opening, key, number):
        """A chunk, mostly one that fits, and whether it is the last one."""
        is_last = not self.is_rare(20)
        length = self.length() if is_last else TEXT
        if not is_last and not self.is_rare(4):
            length = self.choice(0, TEXT - 1, TEXT + 1)
        text = self.bytes(length)
        if self.is_rare(6):
            return bytes(self.random.randrange(2 * TAG)), int(is_last)
        if not is_opening or number > MOST:
            return text + bytes(TAG), int(is_last)
        sealed = reference.sealed_chunk(key, number, is_last, text)
        return (self.damaged(sealed) if self.is_rare(5) else sealed), int(is_last)

    # The arguments of each call that is not in ARGUMENTS.

    def for_stanzas(self):
        data = self.front()[1]
        try:
            found = model.header_of(data)[0]
        except model.Fault:
            found = []
        text = sum(len(b" ".join(arguments)) + len(body) for arguments, body in found)
        sizes = bytes([0xEE]) * (24 * self.choice(len(found), len(found), len(found) + 1, max(len(found) - 1, 0), 0))
        return data, sizes, self.room(text)

    def for_wrap(self):
        arguments, body = self.arguments(), self.body()
        return arguments, body, self.room(len(model.lines_of([arguments], body)))

    def text(self):
        file_key = self.choice(*self.file_keys)
        text = self.stanzas(file_key)
        if self.is_rare(4):
            text = self.choice(b"", self.damaged(text), self.damaged(text), self.bytes(30))
        return text, file_key

    def for_header(self):
        text, file_key = self.text()
        return text, file_key, self.room(len(text) + 70)

    def for_begin(self):
        text, file_key = self.text()
        return text, file_key, self.bytes(16), self.room(len(text) + 86), self.bytes(64)

    def for_open(self):
        file_key, data = self.front()
        return data, file_key, self.bytes(64)

    def for_open_next(self, is_opening=True):
        payload = self.struct(64)
        chunk, is_last = self.chunk(is_opening, bytes(payload[:32]), struct.unpack_from("<Q", payload, 32)[0])
        return payload, chunk, (1 - is_last if self.is_rare(8) else is_last)

    for_salvage_next = for_open_next

    def for_part_open_next(self, is_opening=True):
        part = self.struct(64)
        if self.is_rare(3):
            sealed = bytes(SEALED) if not is_opening else reference.sealed_chunk(self.keys[0], self.random.randrange(3), False, bytes(TEXT))
            left = self.choice(1, 2, MOST)
            part = struct.pack("<32s4Q", self.keys[0], self.random.randrange(3), left, model.READING if is_opening else model.WRITING, 0)
            return part, self.choice(sealed, sealed, sealed[:-1])
        return part, bytes(self.choice(0, 16, 100))

    def for_ranges_open(self):
        file_key, data = self.front()
        return data, self.choice(len(data), len(data), self.number()), file_key, self.bytes(56)

    def ranges(self):
        """A struct of ranges and a file, mostly the struct's own."""
        file_key, data = self.file()
        try:
            key, first = model.started(data, file_key)
        except model.Fault:
            return self.struct(56), data
        sealed = max(len(data) - first, 0)
        if self.is_rare(6):
            return self.struct(56), data
        return struct.pack("<32s3Q", key, first, sealed, self.choice(1, 2, 2, 2)), data

    def piece(self, ranges, data, index):
        """The bytes of a piece of a file, now and then damaged."""
        first, sealed = struct.unpack_from("<2Q", ranges, 32)
        length = model.piece_length(sealed, index)
        piece = data[first + SEALED * index : first + SEALED * index + min(length, SEALED)] if first < len(data) else b""
        return self.damaged(piece) if self.is_rare(8) else piece

    def for_ranges_last(self):
        ranges, data = self.ranges()
        return ranges, self.piece(ranges, data, model.last_index(struct.unpack_from("<Q", ranges, 40)[0]))

    def offset(self, ranges):
        plain = model.plain_length(struct.unpack_from("<Q", ranges, 40)[0])
        return self.choice(self.number(), self.random.randrange(plain + 1), max(plain - 1, 0), 0)

    def for_ranges_locate(self):
        ranges, _ = self.ranges()
        return ranges, self.offset(ranges)

    def for_ranges_chunk(self):
        ranges, data = self.ranges()
        at = self.offset(ranges)
        return ranges, at, self.piece(ranges, data, at // TEXT)

    def for_decrypt(self):
        file_key, data = self.file()
        return data, file_key, self.room(model.plain_len_at_most(len(data)))

    def for_encrypt(self):
        text, file_key = self.text()
        plain = self.bytes(self.length())
        return plain, text, file_key, self.bytes(16), self.room(len(text) + 86 + model.sealed_length(len(plain)))

    def for_decrypt_passphrase(self):
        data = self.file()[1]
        return data, self.choice(*self.passphrases), self.work(), self.room(model.plain_len_at_most(len(data)))

    def for_decrypt_key(self):
        data = self.file()[1]
        return data, self.choice(*self.keys), self.room(model.plain_len_at_most(len(data)))

    def for_encrypt_passphrase(self):
        plain = self.bytes(self.length())
        return plain, self.choice(*self.passphrases), self.work(), self.bytes(48), self.room(model.sealed_len(len(plain)))

    def for_encrypt_key(self):
        plain = self.bytes(self.length())
        return plain, self.choice(*self.keys), self.bytes(48), self.room(model.sealed_len(len(plain)))

    def arguments_of(self, name):
        made = ARGUMENTS[name](self) if name in ARGUMENTS else getattr(self, "for_" + name)()
        return [a if isinstance(a, int) else bytearray(a) for a in made]

    def null_calls(self):
        """Each call with a null pointer for each pointer that a length follows, one at a time."""
        for name, kinds in CALLS.items():
            for at in (i for i, kind in enumerate(kinds) if kind in ("b", "o", "s")):
                for length in (0, 24, 2**62 // 24 * 24):
                    arguments = self.arguments_of(name)
                    arguments[at] = NULL(length)
                    yield call_of(name, *arguments)

    def salvaging_calls(self):
        """Last chunks of each kind after chunks of each kind."""
        for number, damaged, before in itertools.product((0, 1, 3), (0, 1), range(7)):
            payload = struct.pack("<32s2Q2IQ", self.keys[0], number, model.READING, damaged, before, 0)
            sealed = [reference.sealed_chunk(self.keys[0], number, is_last, text) for is_last in (False, True) for text in (b"", b"text")]
            for chunk in (*sealed, sealed[3] + b"\n", bytes(17), bytes(16), b""):
                yield call_of("salvage_next", payload, chunk, 1)

    def chunks_in_each_state(self):
        """Chunks of each length for payloads and parts in each state, and parts of each length of such payloads."""
        lengths, numbers = (0, TAG - 1, TAG, TAG + 1, SEALED - 1, SEALED, SEALED + 1), (0, 1, 3, MOST - 2, MOST - 1, MOST)
        for state, number in itertools.product(STATES, numbers):
            payload, *parts = (struct.pack("<32s4Q", self.keys[0], number, *rest, 0) for rest in ((state, 0), (0, state), (1, state), (2, state)))
            for length, is_last in itertools.product(lengths, (0, 1)):
                yield call_of("open_next", payload, bytes(length), is_last)
                yield call_of("seal_next", payload, bytes(length), is_last)
                if not is_last or length <= TAG + 1:  # the model tries each end of a last chunk
                    yield call_of("salvage_next", payload, bytes(length), is_last)
            for part, length in itertools.product(parts, lengths):
                yield call_of("part_open_next", part, bytes(length))
                yield call_of("part_seal_next", part, bytes(length))
            for count in (0, 1, 2, MOST):
                yield call_of("take_part", payload, count, bytes(64))

    def ranges_in_each_state(self):
        """Calls on ranges of each length in each state, at the edges of chunks and plaintext."""
        for state, sealed in itertools.product(STATES, (0, TAG, TAG + 1, SEALED, SEALED + 1, 2 * SEALED, MOST - 200, MOST - 199)):
            ranges, plain = struct.pack("<32s3Q", self.keys[0], 200, sealed, state), model.plain_length(sealed)
            last = model.piece_length(sealed, model.last_index(sealed))
            yield call_of("ranges_last", ranges, bytes(last))
            yield call_of("ranges_last", ranges, bytes(last + 1))
            for at in (0, TEXT - 1, TEXT, max(plain - 1, 0), plain, MOST):
                yield call_of("ranges_locate", ranges, at)
                yield call_of("ranges_chunk", ranges, at, bytes(model.piece_length(sealed, at // TEXT)))

    def call(self):
        """The name of a call, its flags, arguments and shifts."""
        name = self.choice(*CALLS)
        arguments, kinds = self.arguments_of(name), CALLS[name]
        if self.is_rare(60) and any(kind in ("b", "o", "s") for kind in kinds):
            at = self.choice(*(i for i, kind in enumerate(kinds) if kind in ("b", "o", "s")))
            arguments[at] = NULL(self.choice(0, 0, 24, 2**40 // 24 * 24))
        # Structs are aligned.
        shifts = [0 if isinstance(kind, int) and kind > 48 or kind in ("s", 48) else self.choice(0, 0, self.random.randrange(16)) for kind in kinds]
        flags = self.random.randrange(2) | (THREADS if self.is_rare(16) else 0)
        # A header of 10,911 stanzas makes as many allocations, and refusing each would take too
        # long.
        if self.is_rare(8) and (name in CHUNKS or sum(len(a) for a in arguments if isinstance(a, bytearray)) < 10000):
            flags |= REFUSING
        return name, flags, arguments, shifts

    def refused_calls(self):
        """A successful call of each function with a report, on threads and refusing allocations."""
        for name in (name for name in CALLS if name not in NUMBERS):
            is_long = name in ("encrypt", "decrypt", "encrypt_key", "decrypt_key")
            self.one_long_in = 1 if is_long else 400
            self.files = 20 * [self.new_file()] if is_long else []
            while expected(name, arguments := self.arguments_of(name))[0] != 0:
                pass
            yield call_of(name, *arguments, flags=REFUSING | THREADS)

    def learn(self, name, code, after):
        """Keeps the structs of a call for later calls."""
        for argument, size in zip(after, CALLS[name]):
            if size in self.payloads and argument is not None and (code == 0 or self.is_rare(4)):
                self.payloads[size].append(argument)
                del self.payloads[size][:-40]


# The arguments of each call that needs only a line for them.
ARGUMENTS = {
    "inspect": lambda maker: (maker.front()[1], bytes([0xEE]) * 48),
    "unlock_passphrase": lambda maker: (maker.front()[1], maker.choice(*maker.passphrases), maker.work(), bytes(16)),
    "unlock_key": lambda maker: (maker.front()[1], maker.choice(*maker.keys), bytes(16)),
    "wrap_passphrase": lambda maker: (maker.bytes(16), maker.choice(*maker.passphrases), maker.work(), maker.bytes(16), maker.room(80)),
    "wrap_key": lambda maker: (maker.bytes(16), maker.choice(*maker.keys), maker.bytes(16), maker.room(86)),
    "seal_next": lambda maker: maker.for_open_next(False),
    "take_part": lambda maker: (maker.struct(64), maker.choice(1, 2, 3, maker.number()), maker.bytes(64)),
    "part_seal_next": lambda maker: maker.for_part_open_next(False),
    "sealed_len": lambda maker: (maker.number(),),
    "plain_len_at_most": lambda maker: (maker.number(),),
    "file_len": lambda maker: (maker.number(), maker.number()),
    "version": lambda maker: (),
}


def expected(name, arguments):
    """By the model: the result, the report or None, and the buffers after the call."""
    if name in NUMBERS:
        return (VERSION if name == "version" else getattr(model, name)(*arguments)), None, [None] * len(arguments)
    is_refused = any(isinstance(a, NULL) and a.length > 0 for a in arguments)
    after = [a if isinstance(a, int) else bytearray(b"" if isinstance(a, NULL) else a) for a in arguments]
    try:
        code, report = (model.NULL_POINTER, (0, 0, 0)) if is_refused else getattr(model, name)(*after)
    except model.Fault as fault:
        code, report = fault.code, fault.report
    if is_refused and name in OPENING:
        model.zero(after[OPENING[name]])
    return code, report, [bytes(now) if isinstance(a, bytearray) else None for a, now in zip(arguments, after)]


class Journeys:
    """Chains of calls, in which a call gets what earlier calls wrote. `make` makes a call in the
    form of Maker.call, and returns its code, its report, and its buffers after it."""

    FILE_KEY, NONCE, SALT = SEED[:16], SEED[16:32], SEED[32:]
    # Texts that are stanzas or not, and words that are arguments or not.
    TEXTS = (b"", b"-> a\n\n-> b\n\n", b"-> a\n\n-> b\n", b"-> a\n\n-> b", b"-> a\n\n-> b ", b"-> a\n\n->", b"-> a\nAA", b"-> a\n\n-> b\nAA",
             b"-> a\n\n-> b\n\nc\n", b"-> a\n=\n", b"age-encryption.org/v1\n-> a\n\n", b"-> a\n\n--- AAAA\n", b"-> scrypt x 1\n\n",
             b"-> scrypt x 1\n\n-> a\n\n", b"-> a\n\n-> scrypt x 1\n\n", b"-> x\n\n" * 10911, b"-> x\n\n" * 10912)
    WORDS = (b"a b", b"", b" ", b"a ", b" a", b"a  b", b"a\n", b"\t", b"\x7f", "ä".encode(), b"\xff")

    def __init__(self, make):
        self.make, self.count = make, 0

    def go(self, name, *arguments):
        self.count += 1
        return self.make(*call_of(name, *arguments, flags=self.count % 2 * AT_START | THREADS * (self.count % 16 == 0)))

    def in_parts(self, payload, kind, chunks):
        """Opens or seals the chunks of a payload with no chunk taken as a part, then with the first one,
        the first two and so on. For an odd number the part's chunks come last. Returns the chunks."""
        last = len(chunks) - 1
        for count in range(last + 1):
            payload_now, part, made = payload, bytes(64), {}
            if count:
                payload_now, _, part = self.go("take_part", payload, count, bytes(64))[2]
            for i in sorted(range(last + 1), key=lambda i: (i - count) % (last + 1) if count % 2 else i):
                if i < count:
                    part, made[i] = self.go(f"part_{kind}_next", part, chunks[i])[2]
                else:
                    payload_now, made[i], _ = self.go(f"{kind}_next", payload_now, chunks[i], i == last)[2]
        return b"".join(made[i] for i in sorted(made))

    def open(self, file):
        """Opens a file as a whole, in steps and parts, and by ranges, and salvages its chunks."""
        self.go("decrypt_key", file, KEY, bytes(len(file)))
        self.go("unlock_key", file, KEY, bytes(16))
        _, (first, _, _), (_, _, payload) = self.go("open", file, self.FILE_KEY, bytes(64))
        pieces = model.pieces_of(file[first:])
        self.in_parts(payload, "open", pieces)
        for i, piece in enumerate(pieces if len(pieces[-1]) < 1000 else pieces[:-1]):  # the model tries each end of the last one
            payload = self.go("salvage_next", payload, piece, i == len(pieces) - 1)[2][0]
        _, (length, place, _), (*_, ranges) = self.go("ranges_open", file, len(file), self.FILE_KEY, bytes(56))
        ranges = self.go("ranges_last", ranges, file[place : place + length])[2][0]
        for at in (place for i in range(len(pieces) + 1) for place in range(max(TEXT * i - 2, 0), TEXT * i + 2)):
            length, place, _ = self.go("ranges_locate", ranges, at)[1]
            self.go("ranges_chunk", ranges, at, file[place : place + length])

    def written(self, size):
        """The file of a text of this size, made in parts. Makes and opens it whole too, with room and too little."""
        plain, length = bytes(i * 7 + i // 256 & 255 for i in range(size)), model.sealed_length(size)
        stanza = self.go("wrap_key", self.FILE_KEY, KEY, self.SALT, bytes(86))[2][-1]
        *_, front, payload = self.go("begin", stanza, self.FILE_KEY, self.NONCE, bytes(len(stanza) + 86), bytes(64))[2]
        file = front + self.in_parts(payload, "seal", [chunk + bytes(TAG) for chunk in reference.chunks_of(plain)])
        for less in (0, 1, 17, length // 2, length):
            self.go("encrypt_key", plain, KEY, SEED, bytes(len(file) - less))
            self.go("decrypt_key", file, KEY, bytes(max(size - less, 0)))
        return file

    def spoiled(self, file):
        """The file with damage in each chunk, cut, and with bytes behind its end."""
        for start in range(model.header_of(file)[2] + 16, len(file), SEALED):
            length = min(SEALED, len(file) - start)
            for at in (0, length // 2, length - TAG - 1, length - TAG, length - 1):
                yield changed(file, start + at)
            yield from (file[: start + rest] for rest in (0, 1, 15, 16, 17, 30000, SEALED - 1) if rest < length)
        yield from (file + bytes(more) for more in (1, 15, 16, 17))

    def open_front(self, front):
        """Makes five of the calls that read a header."""
        self.go("inspect", front, bytes(48))
        self.go("stanzas", front, bytes(72), bytes(200))
        self.go("unlock_key", front, KEY, bytes(16))
        self.go("open", front, self.FILE_KEY, bytes(64))
        self.go("decrypt_key", front, KEY, bytes(6))

    def headers(self, file):
        """Each beginning of a file, and each byte of its header changed."""
        for front in [file[:at] for at in range(len(file) + 1)] + [changed(file, at) for at in range(model.header_of(file)[2])]:
            self.open_front(front)

    def texts(self):
        """Headers and stanzas of each form, also of other tools, and too long ones."""
        for text in self.TEXTS:
            self.go("header", text, self.FILE_KEY, bytes(MAX_HEADER))
        for words in self.WORDS:
            self.go("wrap", words, b"body", bytes(200))
        of_others = [path.read_bytes() for path in sorted((header.ROOT / "tests/data").glob("*.age"))]
        for file in [*of_others, self.go("header", b"-> x\n\n" * 10911, self.FILE_KEY, bytes(MAX_HEADER))[2][-1]]:
            found = model.header_of(file)[0]
            self.go("stanzas", file[:SEALED], bytes(24 * len(found)), bytes(MAX_HEADER))
        for length in (MAX_HEADER - 1, MAX_HEADER, SEALED, 70000):
            self.open_front((model.VERSION + b"-> X " + b"a" * length)[:length])

    def all(self):
        whole = [self.written(size) for size in (0, 1, 16, TEXT - 1, TEXT, TEXT + 1, 2 * TEXT, 3 * TEXT, 3 * TEXT + 100)]
        for file in itertools.chain(whole, *map(self.spoiled, whole[-2:])):
            self.open(file)
        text = self.go("wrap_key", self.FILE_KEY, KEY, self.SALT, bytes(86))[2][-1] + b"-> kind of one\nAAAA\n"
        self.headers(self.go("encrypt", b"hello\n", text, self.FILE_KEY, self.NONCE, bytes(214))[2][-1])
        file = self.go("encrypt_passphrase", b"text", PASSPHRASE, 2, SEED, bytes(200))[2][-1][:169]
        for secret, most in ((PASSPHRASE, 1), (PASSPHRASE, 2), (PASSPHRASE, 30), (PASSPHRASE, 0), (PASSPHRASE, 31), (PASSPHRASE[:-1], 2)):
            self.go("unlock_passphrase", file, secret, most, bytes(16))
        self.go("unlock_key", file, KEY, bytes(16))
        self.texts()


def main(count, seed, *programs):
    maker, drivers, codes = Maker(int(seed)), [Driver(program) for program in programs], collections.Counter()

    def make(*call):
        """Has each driver make a call. Returns what the model says: the result, the report, and the buffers after it."""
        wanted = expected(call[0], call[2])
        for driver in drivers:
            driver.ask(call, wanted)
        codes[wanted[0] if call[0] not in NUMBERS else "a number"] += 1
        maker.learn(call[0], wanted[0], wanted[2])
        return wanted

    for call in itertools.chain(maker.null_calls(), maker.salvaging_calls(), maker.chunks_in_each_state(), maker.ranges_in_each_state()):
        make(*call)
    Journeys(make).all()
    for call in itertools.chain((maker.call() for _ in range(int(count))), maker.refused_calls()):
        make(*call)
    for driver in drivers:
        driver.end()
    print(f"{sum(codes.values())} calls; " + ", ".join(f"{code}: {times}" for code, times in sorted(codes.items(), key=str)))


if __name__ == "__main__":
    main(*sys.argv[1:])
