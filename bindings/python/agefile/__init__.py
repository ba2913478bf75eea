r"""Reads and writes age v1 encrypted files (age-encryption.org/v1).

    import agefile
    secret = agefile.Passphrase("correct horse battery staple")
    with agefile.open("notes.age", "w", recipients=secret) as notes:
        notes.write("one\n")
    with agefile.open("notes.age", identities=secret) as notes:
        notes.seek(1)
        print(notes.read())

`open` opens a file as a seekable file of its plaintext, or a new file to be written. `encrypt`,
`decrypt` and `rewrap` work on bytes in memory, `inspect` also on files, `copy` and `rewrap_copy`
from a file or pipe to another; `salvage` saves what is left of a damaged file. Files for a
`Passphrase` can be exchanged with `age`; only agep and libagefile open files for a `Key`.

Any number of threads may make calls. They may share an open binary file, whose calls take turns,
but only one of them may read its lines. Memory is not wiped, and constant time is not promised. The
library underneath, libagefile, is proved except for its layer in C; this package is only tested.
"""

from __future__ import annotations

from ._errors import AgeChangedError, AgeError, AgeMemoryError, Code
from ._files import open
from ._library import version as library_version
from ._reader import Reader, _reopen
from ._salvage import LostChunks, Salvaged, salvage
from ._secrets import Header, Identities as Identities, Identity, Key, Passphrase
from ._secrets import Recipient, Recipients as Recipients, Stanza, _Stanzas
from ._sources import Progress as Progress
from ._version import __version__
from ._whole import copy, decrypt, encrypt, inspect, rewrap, rewrap_copy
from ._writer import Writer

__all__ = [
    "__version__", "AgeChangedError", "AgeError", "AgeMemoryError", "Code", "Header", "Identity",
    "Key", "LostChunks", "Passphrase", "Reader", "Recipient", "Salvaged", "Stanza", "Writer",
    "copy", "decrypt", "encrypt", "inspect", "library_version", "open", "rewrap", "rewrap_copy",
    "salvage",
]

# Tracebacks and pickles name classes and functions by this package, not by its private modules.
for _each in (*map(globals().get, __all__), _reopen, _Stanzas):
    if hasattr(_each, "__qualname__"):
        _each.__module__ = __name__
