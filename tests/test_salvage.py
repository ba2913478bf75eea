"""Compares the output and the lines of salvage on small files with a model without a cipher: a piece opens
exactly if it was made as the chunk of its number. The last piece may have padding."""

import itertools

from fixture import HELLO, changed, with_other_mac
from make_vectors import KEYED, MADE, NONCE, age_file, chunk, filled
from messages import message
from program import ProgramCase, fault
from salvaged import opened
from testkit import SEALED

HEADER = age_file(KEYED, b"")
# the line about a header whose MAC is wrong although a key fits
CHANGED = "the header was changed: the chunks were tried with the key that fits"


def lost_lines(losses):
    """The lines about lost chunks, each given as its number, first byte and last byte."""
    runs = []
    for i, start, end in losses:
        if runs and runs[-1][1] == i - 1:
            runs[-1][1:] = i, runs[-1][2], end
        else:
            runs.append([i, i, start, end])
    for first, last, start, end in runs:
        chunks = f"chunk {first} is" if first == last else f"chunks {first} to {last} are"
        yield f"{chunks} lost: bytes {start} to {end} of the plaintext"


def saved(payload, is_changed=False):
    """The output and the lines of salvage for a payload, with a changed header or not."""
    pieces = [payload[at : at + SEALED] for at in range(16, len(payload), SEALED)] or [b""]
    made = MADE if payload[:16] == NONCE else {}
    text, losses, early = b"", [], None
    for i, piece in enumerate(pieces):
        plain, is_last, padding = opened(made, i, piece, i + 1 == len(pieces))
        if is_last is None and plain:
            losses.append((i, len(text), len(text) + len(plain) - 1))
        if is_last and not padding and (i + 1 < len(pieces) or (i > 0 and not plain)):
            early = i
        text += plain
    is_rest = is_last is None and not plain
    is_behind = is_rest and early is not None and early == i - 1
    is_behind_lost = is_rest and i > 0 and losses[-1:] and losses[-1][0] == i - 1
    lines = [*lost_lines(losses), *[CHANGED] * is_changed]
    if early == i:
        lines.append(f"chunk {early} is empty: only an empty plaintext ends with an empty chunk")
    elif is_behind:
        lines.append(f"up to 16 bytes follow chunk {early}, which is the last")
    elif early is not None:
        lines.append(f"chunk {early} is marked as the last, and more follows: bytes after the end, or another file")
    if is_last is False or (is_rest and not is_behind and not is_behind_lost):
        lines.append(f"the file is cut short: the plaintext from byte {len(text)} on is missing")
    elif padding:
        lines.append(f"chunk {i} is the last; bytes after it: {padding}")
    elif is_last is None and plain and early is None:
        lines.append(f"the file ends after {len(piece)} bytes of chunk {i}: more may be missing")
    elif is_behind_lost and early is None:
        lines.append(f"up to 16 bytes follow chunk {i - 1}: more may be missing")
    return text, lines


class Payloads(ProgramCase):
    def assert_saved(self, payload):
        """Output and lines are those of the model, and the status is 0 exactly if that of decrypt is."""
        text, lines = saved(payload)
        ran = self.run_agep("salvage", "-k", "key", input=HEADER + payload)
        self.assert_ended(ran, 1 if lines else 0, "".join(map(fault, lines)), text)
        self.assertEqual(self.run_agep("decrypt", "-k", "key", input=HEADER + payload).status, ran.status)

    def assert_all(self, payloads):
        for name, payload in payloads:
            with self.subTest(name):
                self.assert_saved(payload)

    def test_arrangements(self):
        """Chunks of several files with one file key, in every order, some twice or left out, with every kind
        of end."""
        full = {
            "chunk 0": filled(0, False), "chunk 1": filled(1, False), "last 0": filled(0, True), "last 1": filled(1, True),
            "damaged": bytes(SEALED),
        }
        short = chunk(1, True, HELLO)
        ends = {
            "": b"", "last 0": chunk(0, True, HELLO), "last 1": short, "last 2": chunk(2, True, HELLO),
            "empty 0": chunk(0, True, b""), "empty 1": chunk(1, True, b""), "empty 2": chunk(2, True, b""),
            "not last": chunk(1, False, HELLO), "1 byte": b"\n", "16 bytes": short[:16], "17 bytes": short[:17],
            "cut": short[:-1], "too long": short + b"\n", "zeros": bytes(512),
        }
        self.assert_all(
            (" + ".join((*names, end)), NONCE + b"".join(full[name] for name in names) + ends[end])
            for count in range(4) for names in itertools.product(full, repeat=count) for end in ends
        )

    def test_edges(self):
        """A file of three chunks: cut near the start of each piece, or with bytes after its end."""
        whole = NONCE + filled(0, False) + filled(1, False) + chunk(2, True, HELLO)
        near = [16 + i * SEALED + by for i in range(3) for by in range(-18, 19)]
        self.assert_all((f"cut at {at}", whole[:at]) for at in near if 16 <= at < len(whole))
        self.assert_all((f"{more} bytes behind", whole + b"\n" * more) for more in range(1, 40))

    def test_bytes(self):
        """A payload of one chunk: cut after its nonce, with each byte changed, or with more bytes."""
        whole = NONCE + chunk(0, True, HELLO)
        self.assert_all((f"cut at {at}", whole[:at]) for at in range(16, len(whole)))
        self.assert_all((f"byte {at} changed", changed(whole, at)) for at in range(len(whole)))
        self.assert_all((f"{more} bytes behind", whole + bytes(more)) for more in (*range(1, 40), 512, 4095, 4096))

    def test_headers(self):
        """A file cut in its header or nonce, or changed in its header: the fault is that of decrypt, except that a
        changed header costs no chunk if a key fits."""
        file = HEADER + NONCE + chunk(0, True, HELLO)
        cuts = [(f"cut at {at}", file[:at]) for at in range(len(HEADER) + 16)]
        for name, bad in cuts + [(f"byte {at} changed", changed(file, at)) for at in range(len(HEADER))]:
            with self.subTest(name):
                opened, ran = (self.run_agep(command, "-k", "key", input=bad) for command in ("decrypt", "salvage"))
                if opened.err == fault(message("BadMac")).encode():
                    self.assert_ended(ran, 1, fault(CHANGED), HELLO)
                else:
                    self.assert_ended(ran, 1, opened.err, b"")

    def test_changed_header(self):
        """A changed header before a payload that is damaged, cut or too long."""
        for payload in (NONCE + bytes(SEALED) + chunk(1, True, HELLO), NONCE + filled(0, False), NONCE + chunk(0, True, HELLO) + b"\n"):
            text, lines = saved(payload, is_changed=True)
            ran = self.run_agep("salvage", "-k", "key", input=with_other_mac(HEADER) + payload)
            self.assert_ended(ran, 1, "".join(map(fault, lines)), text)
