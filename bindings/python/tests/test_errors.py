"""AgeError: base classes, pickles, copies, errors made from a text; the module of each name."""

import copy
import json
import pickle
import tarfile
import zipfile

import agefile
from agefile import AgeError, Code, Key, Passphrase
from support import KEY, InFolder, damaged, text


class Kinds(InFolder):
    def test_no_other_handler_takes_it(self):
        self.put(damaged(self.got(self.made(b"{}" + b" " * 200000)), 0, 1, 2))
        for wrong in (KEY, Key(bytes(32))):
            for read in (lambda file: json.load(file), lambda file: zipfile.ZipFile(file), lambda file: tarfile.open(fileobj=file), lambda file: file.readlines()):
                with self.assertRaises(AgeError):
                    try:
                        read(agefile.open("a.age", identities=wrong))
                    except (ValueError, OSError, EOFError, LookupError, RuntimeError, zipfile.BadZipFile, tarfile.TarError) as error:
                        self.fail(f"taken for {type(error)}")
        for kind in (AgeError, agefile.AgeChangedError):
            self.assertEqual({*kind.__mro__}, {kind, AgeError, *Exception.__mro__})

    def test_the_module(self):
        """Pickles and `__module__` name no private module."""
        for name in agefile.__all__:
            if hasattr(getattr(agefile, name), "__qualname__"):
                self.assertEqual(getattr(agefile, name).__module__, "agefile", name)
        self.made(text(70000))
        with agefile.open("a.age", identities=KEY) as file:
            for each in (AgeError(13, 4, 0, "a.age"), agefile.AgeChangedError(11, 2), KEY, Passphrase("x"), agefile.inspect("a.age"), file, agefile.open, Code.BAD_MAC):
                for protocol in range(pickle.HIGHEST_PROTOCOL + 1):
                    pickled = pickle.dumps(each, protocol)
                    self.assertNotIn(b"agefile._", pickled.replace(b"agefile._reopen", b""))
                    pickle.loads(pickled)

    def test_pickles_and_copies_keep_all(self):
        for error in (AgeError(13, 4, 0, "a.age"), AgeError(8, 0, 4), AgeError.of(17), agefile.AgeChangedError(13, 2)):
            self.assertEqual(isinstance(error, MemoryError), error.code == 17)
            for other in (pickle.loads(pickle.dumps(error)), copy.copy(error), copy.deepcopy(error)):
                self.assertEqual((repr(other), vars(other)), (f"{type(error).__name__}({str(error)!r})", vars(error)))

    def test_made_from_a_text(self):
        """As Dask does, which raises each error again with a text of its own."""
        for error in (AgeError(13, 4, 0, "a.age"), agefile.AgeMemoryError(17), agefile.AgeChangedError(13, 2)):
            other = type(error)(f"while reading: {error}")
            for each in (other, pickle.loads(pickle.dumps(other))):
                found = type(each), str(each), each.code, each.place, each.detail, each.filename
                self.assertEqual(found, (type(error), f"while reading: {error}", Code.OK, 0, 0, None))
