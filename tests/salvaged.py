"""The output and the report of salvaging a payload in Python and Rust, by a model without a cipher: a piece
opens exactly if it was made as the chunk of its number. The last piece may have padding."""

import itertools

from make_vectors import MADE, NONCE
from testkit import SEALED


def runs(numbers):
    """The runs of these ascending numbers."""
    for _, run in itertools.groupby(enumerate(numbers), lambda pair: pair[1] - pair[0]):
        found = [number for _, number in run]
        yield range(found[0], found[-1] + 1)


def opened(made, i, piece, is_end):
    """The chunk that a piece is, or that the last piece begins with: its text (zeros if it does not open), whether
    it was made as the last chunk (None if it does not open), and how many bytes follow it in the piece."""
    if (i, piece) in made or not is_end:
        return *made.get((i, piece), (bytes(max(len(piece) - 16, 0)), None)), 0
    fits = [(len(piece) - len(other), text) for (number, other), (text, is_last) in made.items()
            if number == i and is_last and piece.startswith(other) and len(piece) - len(other) < 4096]
    padding, text = min(fits, default=(0, None))
    return (bytes(max(len(piece) - 16, 0)), None, 0) if text is None else (text, True, padding)


def expected(payload):
    """The text, and the report with its fields in the order of agefile.Salvaged."""
    pieces = [payload[at : at + SEALED] for at in range(16, len(payload), SEALED)] or [b""]
    end, made = len(pieces) - 1, MADE if payload[:16] == NONCE else {}
    found = [opened(made, i, piece, i == end) for i, piece in enumerate(pieces)]
    texts = [text for text, _, _ in found]
    lost = [i for i, (text, is_last, _) in enumerate(found) if text and is_last is None]
    early = max((i for i, (text, is_last, padding) in enumerate(found)
                 if is_last and not padding and (i < end or i > 0 and not text)), default=None)
    _, last, padding = found[end]
    trailing = padding if early is None else max(len(payload) - 16 - (early + 1) * SEALED, 0)
    # After a lost or an early chunk, up to 16 bytes are no sign of a cut: they may follow the end.
    is_cut = last is False or (last is None and not texts[end] and end - 1 not in (early, *lost))
    listed = tuple((run, sum(map(len, texts[: run[0]])), sum(len(texts[i]) for i in run), False) for run in runs(lost))
    return b"".join(texts), (sum(map(len, texts)), end + 1, listed, early, trailing, is_cut,
                             bool(last) and not (padding or lost) and early is None)
