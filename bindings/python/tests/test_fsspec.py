"""The file system for fsspec: lists, reads, damage, caches, kept keys, chains, and writing."""

import contextlib
import importlib
import io
import os
import pickle
import shutil
import stat
import unittest
from unittest import mock

import agefile

try:
    import fsspec
    import agefile.fsspec
    from fsspec.implementations.dirfs import DirFileSystem
    from fsspec.implementations.local import LocalFileOpener
except ImportError as error:
    raise unittest.SkipTest(str(error)) from error

from agefile import AgeError, Code, Key, Passphrase, Stanza, _reader
from support import KEY, TEXT, InFolder, broken, damaged, error_of, in_threads, message, program, text


def imported(name):
    with contextlib.suppress(ImportError):
        return importlib.import_module(name)


dask, pandas, zarr = map(imported, ("dask.dataframe", "pandas", "zarr"))


class Counted:
    """A recipient and identity whose file key is in the file; `asked` counts `unwrap`."""

    def __init__(self):
        self.asked = 0

    def wrap(self, file_key):
        return [Stanza(("counted",), file_key)]

    def unwrap(self, stanzas):
        self.asked += 1
        return next((body for args, body in stanzas if args[0] == "counted"), None)


class InSystem(InFolder):
    def setUp(self):
        super().setUp()
        self.folder = os.getcwd()
        self.identity = Counted()
        self.system = fsspec.filesystem("age", fs=fsspec.filesystem("file"), identities=[self.identity, KEY])

    def path(self, name):
        return os.path.join(self.folder, name)

    def new(self, name, plain, recipients=None):
        self.put(agefile.encrypt(plain, recipients=recipients or self.identity), name)
        return self.path(name)


class Lists(InSystem):
    def setUp(self):
        super().setUp()
        os.mkdir("sub")
        for name in ("a.csv.age", "b.csv.age", "sub/c.csv.age"):
            self.new(name, text(1000))
        for name in ("README.txt", "empty", "a.csv.age.new"):
            self.put(b"no age file" * (name != "empty"), name)

    def test_lists_open_nothing(self):
        """Files that are not age files are listed too, and nothing is opened or unlocked."""
        below = fsspec.filesystem("file")
        system, folder = self.system, self.folder
        with mock.patch.object(type(below), "open", side_effect=AssertionError("opened")), mock.patch.object(type(below), "_open", side_effect=AssertionError("opened")):
            self.assertEqual(sorted(system.ls(folder, detail=False)), sorted(below.ls(folder, detail=False)))
            found = {os.path.basename(each["name"]): (each["type"], each["size"]) for each in system.ls(folder) if each["type"] == "file"}
            self.assertEqual(found, dict.fromkeys(("a.csv.age", "b.csv.age", "README.txt", "empty", "a.csv.age.new"), ("file", None)))
            self.assertEqual(system.glob(folder + "/*.csv.age"), [self.path("a.csv.age"), self.path("b.csv.age")])
            self.assertEqual(system.glob(folder + "/**.csv.age"), below.glob(folder + "/**.csv.age"))
            self.assertEqual(system.glob(folder + "/a.csv.age"), [self.path("a.csv.age")])
            self.assertEqual(system.find(folder), below.find(folder))
            self.assertEqual([(path, sorted(dirs), sorted(files)) for path, dirs, files in system.walk(folder)],
                             [(path, sorted(dirs), sorted(files)) for path, dirs, files in below.walk(folder)])
            for name in ("a.csv.age", "README.txt", "sub", "absent"):
                for call in ("exists", "isfile", "isdir"):
                    self.assertEqual(getattr(system, call)(self.path(name)), getattr(below, call)(self.path(name)), name)
            self.assertEqual(system.du(folder), below.du(folder))
        self.assertEqual(self.identity.asked, 0)

    def test_size_of_one_file(self):
        self.assertEqual(self.system.info(self.path("a.csv.age"))["size"], 1000)
        row = self.system.fs.info(self.path("a.csv.age"))
        with mock.patch.object(type(self.system.fs), "info", return_value=row):
            self.assertEqual(self.system.size("age://" + self.path("a.csv.age")), 1000)
        self.assertEqual(row, self.system.fs.info(self.path("a.csv.age")), "it may be a row of its cache")
        self.assertEqual(self.system.info(self.path("sub"))["type"], "directory")
        self.assertEqual(self.identity.asked, 1)
        error = error_of(lambda: self.system.info(self.path("README.txt")))
        self.assertEqual((error.code, error.filename), (Code.NOT_AGE, self.path("README.txt")))
        self.assertRaises(FileNotFoundError, self.system.info, self.path("absent"))


class Reads(InSystem):
    def test_parts_of_a_file(self):
        plain = b"".join(b"%d\n" % number for number in range(50000))
        path, system = self.new("a.age", plain), self.system
        self.assertEqual(system.cat_file(path), plain)
        self.assertEqual(system.cat_file(path, 70000, 70100), plain[70000:70100])
        self.assertEqual(system.cat_file(path, -50, -10), plain[-50:-10])
        self.assertEqual(system.head(path, 100), plain[:100])
        self.assertEqual(system.tail(path, 100), plain[-100:])
        self.assertEqual(system.read_block(path, 0, 5), plain[:5])
        begin = plain.index(b"\n", 1000) + 1
        self.assertEqual(system.read_block(path, 1000, 70000, b"\n"), plain[begin : plain.index(b"\n", 71000) + 1])
        self.assertEqual(system.read_block(path, len(plain) - 100, None), plain[-100:])
        for words, encoding in ({"encoding": "ascii"}, "ascii"), ({}, "utf-8"), ({"encoding": None}, "utf-8"):
            with system.open(path, "r", **words) as file:
                self.assertEqual((file.encoding, file.readline()), (encoding, "0\n"))
        system.get(path, self.path("plain"))
        self.assertEqual(self.got("plain"), plain)
        self.assertEqual(self.identity.asked, 1)

    def test_damage(self):
        """A read fails only if it needs a bad chunk, and names the file and the chunk."""
        plain = text(5 * TEXT)
        path = self.path(self.put(damaged(agefile.encrypt(plain, recipients=self.identity), 2)))
        for begin, end in ((0, 100), (10, 2 * TEXT), (2 * TEXT - 1, 2 * TEXT), (3 * TEXT, 5 * TEXT), (4 * TEXT - 1, 4 * TEXT + 1)):
            self.assertEqual(self.system.cat_file(path, begin, end), plain[begin:end])
        for begin, end in ((0, 2 * TEXT + 1), (3 * TEXT - 1, 3 * TEXT), (None, None), (2 * TEXT, 2 * TEXT + 1)):
            self.assertEqual(str(error_of(lambda: self.system.cat_file(path, begin, end))), f"{message('BadChunk', 2)}: {path!r}")

    def test_what_may_be_left_out(self):
        """Absent files, and nothing else: users take what is left out for zeros."""
        path, absent = self.new("a.age", b"text"), [self.path("absent"), self.path("a.age/b"), self.folder]
        for _, harm in self.harms(self.got("a.age")):
            bad = self.path(self.put(harm, "bad.age"))
            for how in ("raise", "omit", "return"):
                self.assertRaises(AgeError, self.system.cat, [path, bad], on_error=how)
        for error in (PermissionError(13, "failed"), TimeoutError(), OSError(5, "failed"), ConnectionResetError(), BlockingIOError()):
            for kind, call in ((type(self.system.fs), "open"), (type(self.system.fs), "ukey"), (_reader, "read_into")):
                with mock.patch.object(kind, call, side_effect=error):
                    for read in (lambda: self.system.cat(path), lambda: self.system.cat([path, path], on_error="omit"), lambda: self.system.cat_ranges([path], [0], [1], on_error="return")):
                        found = error_of(read)
                        self.assertEqual((found.code, found.filename, found.__cause__), (Code.READ, path, error))
            again = pickle.loads(pickle.dumps(self.system.open(path)))
            for kind, call in ((type(self.system.fs), "open"), (_reader, "read_into")):
                with mock.patch.object(kind, call, side_effect=error):
                    self.assertEqual(error_of(again.read).code, Code.READ)
        self.assertEqual(self.system.cat([path, *absent], on_error="omit"), {path: b"text"})
        found = self.system.cat([path, *absent], on_error="return")
        self.assertEqual((sorted(found), found[path]), (sorted([path, *absent]), b"text"))
        self.assertEqual([type(found[name]) for name in absent], [FileNotFoundError, NotADirectoryError, IsADirectoryError])
        self.assertRaises(FileNotFoundError, self.system.cat, [path, absent[0]])
        self.assertEqual(self.system.cat(path, on_error="omit"), b"text")

    @unittest.skipIf(zarr is None, "zarr is missing")
    def test_failed_reads_under_zarr(self):
        """It overwrites no chunk that it could not read, and takes none for zeros."""
        new = lambda: zarr.storage.FSStore("age://" + self.path("z"), mode="r+", identities=KEY, recipients=KEY)
        zarr.open(new(), mode="w", shape=300000, chunks=150000, dtype="u1", compressor=None)[:] = 1
        read_into, old = _reader.read_into, self.got("z/1")
        for error in (OSError(5, "failed"), TimeoutError(), PermissionError(13, "failed")):
            def fails(file, room):
                if file.name.endswith("z/1") and file.tell() > 70000:
                    raise error
                return read_into(file, room)

            for work in (
                lambda: zarr.open(new(), mode="r+").__setitem__(slice(150000, 150010), 2), lambda: zarr.open(new(), mode="r")[:], lambda: new()["1"],
                lambda: zarr.open(zarr.LRUStoreCache(new(), 10**8), mode="r")[:], lambda: zarr.copy_store(new(), {}),
            ):
                with mock.patch.object(_reader, "read_into", fails):
                    self.assertEqual(error_of(work).code, Code.READ)
                self.assertEqual(self.got("z/1"), old)

    def harms(self, file):
        yield "damaged", damaged(file, 0)
        yield "cut", file[:-1]
        yield "of another key", agefile.encrypt(b"", recipients=Key(bytes(32)))
        yield "no age file", b"text"

    def test_caches_of_damaged_files(self):
        """No second read takes the part before a damaged chunk for the whole file."""
        whole = agefile.encrypt(bytes(11 << 20), recipients=KEY)
        path = self.path(self.put(damaged(whole, 170)))
        for kind in ("simplecache", "filecache"):
            words = {"age": {"identities": KEY}, kind: {"cache_storage": self.path(kind)}}
            self.put(damaged(whole, 170))
            for _ in range(2):
                self.assertRaises(AgeError, fsspec.open(f"{kind}::age://{path}", **words).open)
            self.put(whole)
            for _ in range(2):
                with fsspec.open(f"{kind}::age://{path}", **words) as file:
                    self.assertEqual(file.read() == bytes(11 << 20), True)

    def test_writing_through_caches(self):
        """After an exception nothing is written."""
        path, words = self.path("w.age"), {"age": {"identities": KEY, "recipients": KEY}}
        os.mkdir("tmp")
        with mock.patch("tempfile.tempdir", self.path("tmp")):
            for kind in ("simplecache", "filecache"):
                self.made(b"old", "w.age")
                with self.assertRaisesRegex(RuntimeError, "w.age' was not written"), fsspec.open(f"{kind}::age://{path}", "wb", **words) as file:
                    file.write(b"half")
                    raise KeyError
                self.assertEqual(self.read("w.age"), b"old")
                with fsspec.open(f"{kind}::age://{path}", "wb", **words) as file:
                    file.write(b"new")
                self.assertEqual(self.read("w.age"), b"new")

    def test_getting(self):
        """A local file keeps its mode, and its contents until the new ones are complete."""
        path, bad = self.new("a.age", text(5 << 20)), self.path(self.put(damaged(self.got("a.age"), 79), "bad.age"))
        self.assertRaises(AgeError, self.system.get, bad, self.path("plain"))
        self.assertEqual(sorted(os.listdir()), ["a.age", "bad.age"])
        self.put(b"old", "plain"), os.chmod("plain", 0o600), os.symlink("plain", "link")
        self.assertRaises(AgeError, self.system.get, bad, self.path("link"))
        self.assertEqual(self.got("plain"), b"old")
        self.system.get(path, self.path("link"))
        self.assertEqual((self.got("plain") == text(5 << 20), os.path.islink("link"), os.stat("plain").st_mode & 0o777), (True, True, 0o600))
        self.system.get(path, "/dev/null")
        self.assertTrue(stat.S_ISCHR(os.stat("/dev/null").st_mode))
        os.mkdir("from"), self.new("from/b.age", b"b")
        self.system.get(self.path("from"), self.path("to"), recursive=True)
        self.system.get_file(self.path("from/b.age"), self.path("new/folder/b"))
        self.assertEqual((self.got("to/b.age"), self.got("new/folder/b")), (b"b", b"b"))
        self.system.get_file(path, out := io.BytesIO())
        self.assertEqual(out.getvalue() == text(5 << 20), True)
        # As threads that fill one cache do.
        in_threads(lambda: self.system.get_file(path, self.path("plain")))
        self.assertEqual((self.got("plain") == text(5 << 20), [*filter(lambda name: "new" in name, os.listdir())]), (True, ["new"]))


class Keys(InSystem):
    """A kept key opens a file only as long as the file is the same."""

    def asked_for(self, work):
        before = self.identity.asked
        result = work()
        return result, self.identity.asked - before

    def test_a_file_that_is_replaced(self):
        first, other = text(200000), text(200000)[::-1]
        path = self.new("a.age", first)
        self.assertEqual(self.asked_for(lambda: self.system.cat_file(path)), (first, 1))
        self.assertEqual(self.asked_for(lambda: self.system.cat_file(path)), (first, 0))
        again = pickle.loads(pickle.dumps(self.system))
        self.assertEqual((again.cat_file(path), again._identities[0].asked), (first, self.identity.asked))
        for name, change in (
            ("of the same length", lambda: self.new("a.age", other)),
            ("of another length", lambda: self.new("a.age", other + b"more")),
            ("shorter", lambda: self.new("a.age", other[:1000])),
            ("rewrapped", lambda: self.put(agefile.rewrap(self.got("a.age"), identities=self.identity, recipients=[KEY, self.identity]))),
            ("by rename", lambda: os.replace(self.new("new", first), path)),
        ):
            change()
            expected = agefile.decrypt(self.got("a.age"), identities=self.identity)
            with self.subTest(name):
                self.assertEqual(self.asked_for(lambda: self.system.cat_file(path)), (expected, 1))
                self.assertEqual(self.asked_for(lambda: self.system.cat_file(path)), (expected, 0))
                self.assertEqual(again.cat_file(path), expected)

    def test_a_file_for_others_now(self):
        """A file that was rewrapped for another key is not opened by the kept key."""
        path = self.new("a.age", b"text", KEY)
        self.assertEqual(self.system.cat_file(path), b"text")
        new = agefile.rewrap(self.got("a.age"), identities=KEY, recipients=Key(bytes(32)))
        self.assertEqual(len(new), len(self.got("a.age")))
        self.put(new)
        self.assertEqual(error_of(lambda: self.system.cat_file(path)).code, Code.WRONG_KEY)

    def test_a_file_system_that_says_nothing_of_a_file(self):
        """If the file system below reports no change, a file that the kept key does not open is unlocked again."""
        path = self.new("a.age", text(200000))
        with mock.patch.object(type(self.system.fs), "ukey", lambda *_: "the same"):
            self.assertEqual(self.asked_for(lambda: self.system.cat_file(path)), (text(200000), 1))
            for plain in (text(200000)[::-1], text(1000), text(300000)):
                self.new("a.age", plain)
                self.assertEqual(self.asked_for(lambda: self.system.cat_file(path)), (plain, 1))

    def test_how_many_are_kept(self):
        """The keys of the last `_MOST_KEYS` files; none for a Key, which is as fast without."""
        self.new("a.age", b"text", [KEY, self.identity])
        for identity, count in ((KEY, 0), (self.identity, 3)):
            system = fsspec.filesystem("age", identities=identity)
            with mock.patch("agefile.fsspec._MOST_KEYS", 3):
                for number in range(9):
                    os.link("a.age", f"{number}.age")
                    self.assertEqual(system.cat_file(self.path(f"{number}.age")), b"text")
            self.assertEqual([*system._keys], [self.path(f"{number}.age") for number in range(9 - count, 9)])
            self.assertEqual([*pickle.loads(pickle.dumps(system))._keys], [*system._keys])
            for number in range(9):
                os.remove(f"{number}.age")

    def test_invalidate_cache(self):
        with mock.patch.object(self.system.fs, "invalidate_cache") as below:
            self.system.invalidate_cache("age://" + self.path("a.age"))
            self.system.invalidate_cache()
        self.assertEqual([call.args for call in below.call_args_list], [(self.path("a.age"),), (None,)])

    def test_a_key_of_the_state(self):
        """`ukey`, by which Dask and the caches of fsspec identify a file, changes with each
        write."""
        path, found = self.new("a.age", b"text"), set()
        system = fsspec.filesystem("age", identities=KEY, recipients=KEY)
        for number in range(3):
            with system.open(path, "wb") as file:
                file.write(b"text" * number)
            found.add(system.ukey(path))
            self.assertEqual(system.ukey(path), system.ukey("age://" + path))
        self.assertEqual(len(found), 3)

    def test_two_keys(self):
        """File systems with different keys differ for fsspec and for Dask; a pickled one equals its
        original."""
        path, other = self.new("a.age", b"one", KEY), Key(bytes(32))
        first, second = (fsspec.filesystem("age", identities=key) for key in (KEY, other))
        self.assertEqual(first.cat_file(path), b"one")
        self.assertRaises(AgeError, second.cat_file, path)
        self.assertRaisesRegex(TypeError, "takes identities", fsspec.filesystem("age", recipients=KEY).cat_file, path)
        with self.assertRaises(AgeError), fsspec.open("age://" + path, identities=other) as file:
            file.read()
        self.assertFalse(type(first).cachable or first == second or hash(first) == hash(second))
        for key, name in ((KEY, "first.age"), (other, "second.age")):
            system = fsspec.filesystem("age", identities=key, recipients=key)
            system.pipe_file(self.path(name), name.encode())
            self.assertEqual((agefile.decrypt(self.got(name), identities=key), system.cat_file(self.path(name))), (name.encode(),) * 2)
        rows = {"identities": KEY}, {"identities": other}, {"recipients": KEY}, {"atomic": True, "identities": KEY}, {"fo": path, "identities": KEY}
        tokens = [fsspec.get_fs_token_paths("age://" + path, storage_options=dict(row))[1] for row in (*rows, rows[0])]
        self.assertEqual((len(set(tokens)), tokens[0]), (len(rows), tokens[-1]))
        again = pickle.loads(pickle.dumps(first))
        self.assertEqual((again, again._fs_token, again.cat_file(path)), (first, first._fs_token, b"one"))
        self.assertEqual(pickle.loads(pickle.dumps(fsspec.filesystem("age", fo=path, identities=KEY))).cat_file(""), b"one")
        self.assertNotEqual(self.system, fsspec.filesystem("age", identities=[Counted()]))
        self.assertEqual(self.system, pickle.loads(pickle.dumps(self.system)))
        for key in (KEY, Passphrase("word")):
            self.assertEqual(pickle.loads(pickle.dumps(key)).__dask_tokenize__(), key.__dask_tokenize__())

    def test_a_wrong_key_is_not_kept(self):
        path = self.new("a.age", b"text", Key(bytes(32)))
        for _ in range(2):
            error = error_of(lambda: self.system.cat_file(path))
            self.assertEqual((error.code, error.filename), (Code.WRONG_KEY, path))


class Chains(InSystem):
    def test_chains(self):
        plain = b"a,b\n1,2\n"
        path, other = self.new("a.csv.age", plain), self.new("b.csv.age", plain)
        words = {"identities": self.identity}
        for url in (f"age::file://{path}", f"age://{path}::file://"):
            with self.subTest(url), fsspec.open(url, "rb", age=words) as file:
                self.assertEqual(file.read(), plain)
        with fsspec.open(f"age://{path}", "r", **words) as file:
            self.assertEqual(file.read(), plain.decode())
        system, name = fsspec.core.url_to_fs(f"age::file://{path}", age=words)
        self.assertEqual(system.cat_file(name), plain)
        for url in (f"age::file://{self.folder}/*.csv.age", f"age://{self.folder}/*.csv.age::file://"):
            _, _, found = fsspec.get_fs_token_paths(url, storage_options={"age": words})
            self.assertEqual(found, [path, other])
        with fsspec.open(f"simplecache::age::file://{path}", "rb", age=words, simplecache={"cache_storage": self.path("cache")}) as file:
            self.assertEqual(file.read(), plain)

    def test_the_system_below(self):
        """The file system below is that of a protocol and its options. File systems over different ones
        differ."""
        options = {"target_protocol": "file", "cache_storage": self.path("cache")}
        system = fsspec.filesystem("age", identities=self.identity, target_protocol="simplecache", target_options=options)
        self.assertEqual(system.cat_file(self.new("a.age", b"text")), b"text")
        self.assertEqual(len(os.listdir("cache")), 1)
        first, second = (DirFileSystem(folder, fsspec.filesystem("file")) for folder in (self.folder, "/"))
        self.assertNotEqual(*(fsspec.filesystem("age", fs=fs, identities=KEY) for fs in (first, second)))

    def test_a_file_system_that_streams(self):
        """As over HTTP, a file opened with block size 0 cannot seek."""
        path, files = self.new("a.age", b"text"), type(self.system.fs)
        opened = files._open

        def open_file(self, path, mode="rb", block_size=None, **options):
            file = opened(self, path, mode, block_size, **options)
            return file if block_size != 0 else mock.Mock(file, seek=mock.Mock(side_effect=ValueError))

        with mock.patch.object(files, "_open", open_file):
            self.assertEqual(self.system.cat_file(path), b"text")


class Writes(InSystem):
    def setUp(self):
        super().setUp()
        self.system = fsspec.filesystem("age", identities=self.identity, recipients=self.identity)

    def test_modes(self):
        plain = text(100000)
        for mode, data in (("wb", plain), ("w", "wörds\n" * 20000), ("wt", "text"), ("xb", b""), ("x", "x")):
            path = self.path(f"{mode}.age")
            with self.system.open(path, mode) as file:
                file.write(data)
            written = data.encode() if isinstance(data, str) else data
            self.assertEqual(agefile.decrypt(self.got(path), identities=self.identity), written)
            self.assertEqual(self.system.cat_file(path), written)
        self.assertRaises(FileExistsError, self.system.open, path, "xb")
        for mode in ("ab", "r+b", "a"):
            self.assertRaisesRegex(ValueError, "is read, or written anew", self.system.open, path, mode)
        self.system.pipe_file(path, plain)
        self.assertEqual(self.system.info(path)["size"], len(plain))
        self.put(plain, "plain")
        self.system.put(self.path("plain"), path)
        self.assertEqual(self.system.cat_file(path), plain)
        with fsspec.open(f"age::file://{path}", "w", age={"recipients": KEY}) as file:
            file.write("other")
        self.assertEqual(agefile.decrypt(self.got(path), identities=KEY), b"other")

    def test_what_would_be_lost(self):
        """Compressed files, whose end `close` would lose, and transactions are refused."""
        path = self.new("a.age", b"old")
        for mode, compression in (("wb", "gzip"), ("w", "infer"), ("xb", "gzip")):
            self.assertRaises(ValueError, self.system.open, path, mode, compression=compression)
        with self.system.transaction:
            for mode in ("wb", "w"):
                self.assertRaises(ValueError, self.system.open, path, mode)
        self.assertRaises(ValueError, self.system._open, path, "wb", autocommit=False)
        self.assertEqual(self.system.cat_file(path), b"old")

    def test_a_file_onto_itself(self):
        path = self.new("a.age", b"old")
        os.symlink(path, "link")
        link, new = self.path("link"), path + ".agep-new"
        self.put(b"mine", new)
        for call, *names in (
            (self.system.get, path, path), (self.system.put, path, path), (self.system.get, path, link), (self.system.put, new, path), (self.system.put, new, link),
        ):
            self.assertRaises(shutil.SameFileError, call, *names, atomic=True)
        self.assertEqual(self.got(new), b"mine")
        local = fsspec.filesystem("file")
        words = {"identities": self.identity, "recipients": self.identity}
        for system, name in (
            (fsspec.filesystem("age", fs=fsspec.filesystem("simplecache", fs=local), **words), path),
            (fsspec.filesystem("age", fs=DirFileSystem(os.path.dirname(self.folder), local), **words), os.path.basename(self.folder) + "/a.age"),
        ):
            self.assertRaises(shutil.SameFileError, system.get, name, path)
            self.assertRaises(shutil.SameFileError, system.put, path, name)
        with open(path, "rb") as source, self.system.fs.open(path, "r+b") as sink:
            self.assertRaises(ValueError, agefile.copy, source, sink, recipients=KEY)
        self.assertEqual(self.system.cat_file(path), b"old")
        self.system.get(path, self.path("plain"))
        self.assertEqual(self.got("plain"), b"old")

    def test_new_folders(self):
        self.system.mkdir(self.path("new"))
        self.system.makedirs(self.path("new/deep/er"))
        self.system.pipe_file(self.path("new/deep/er/a.age"), b"text")
        self.assertEqual(agefile.decrypt(self.got("new/deep/er/a.age"), identities=self.identity), b"text")
        self.system.mkdir(self.path("empty"))
        self.system.rmdir(self.path("empty"))
        self.assertFalse(os.path.exists("empty"))

    def systems(self):
        """File systems with a path: over local files, over these behind another class, and over
        memory."""
        memory = fsspec.filesystem("memory")
        self.addCleanup(lambda: memory.exists("/agefile") and memory.rm("/agefile", recursive=True))
        words = {"identities": self.identity, "recipients": self.identity}
        for fs, folder in ((fsspec.filesystem("file"), self.folder), (DirFileSystem(self.folder, fsspec.filesystem("file")), ""), (memory, "/agefile")):
            system = fsspec.filesystem("age", fs=fs, **words)
            system.makedirs(folder, exist_ok=True) if folder == "/agefile" else None
            yield system, os.path.join(folder, "a.age")

    def test_managing_files(self):
        for system, path in self.systems():
            with self.subTest(type(system.fs).__name__):
                system.pipe_file(path, b"one")
                system.cp(path, path + "2")
                system.mv(path + "2", path + "3")
                system.mv(path, path)
                self.assertEqual([system.exists(path + end) for end in ("", "2", "3")], [True, False, True])
                self.assertEqual(system.cat_file(path + "3"), b"one")
                if not isinstance(system.fs, DirFileSystem):
                    self.assertEqual(system.modified(path), system.fs.modified(path))
                    self.assertEqual(system.created(path), system.fs.created(path))
                system.touch(path + "4")
                self.assertEqual(system.cat_file(path + "4"), b"")
                system.touch(path)
                self.assertEqual(system.cat_file(path), b"")
                system.rm(path)
                system.rm_file(path + "3")
                system.rm([path + "4"])
                self.assertEqual([system.exists(path + end) for end in ("", "3", "4")], [False] * 3)
        self.system.makedirs(self.path("deep/er"))
        self.system.pipe_file(self.path("deep/er/a.age"), b"text")
        os.utime("deep/er/a.age", (1, 1))
        self.system.touch(self.path("deep/er/a.age"), truncate=False)
        self.assertGreater(os.stat("deep/er/a.age").st_mtime, 1)
        self.assertEqual(self.system.cat_file(self.path("deep/er/a.age")), b"text")
        self.system.rm(self.path("deep"), recursive=True)
        self.assertFalse(os.path.exists("deep"))
        for atomic in (False, True):
            system = fsspec.filesystem("age", target_options={"auto_mkdir": True}, identities=KEY, recipients=KEY, atomic=atomic)
            system.pipe_file(self.path("deep/er/a.age"), b"text")
            self.assertEqual(system.cat_file(self.path("deep/er/a.age")), b"text")
            system.rm(self.path("deep"), recursive=True)

    def test_atomic(self):
        """For a call and for the file system: the old file stays until the new one is complete."""
        for system, path in self.systems():
            by_default = fsspec.filesystem("age", fs=system.fs, identities=self.identity, recipients=self.identity, atomic=True)
            for used, words in ((system, {"atomic": True}), (by_default, {}), (pickle.loads(pickle.dumps(by_default)), {})):
                with self.subTest(f"{type(system.fs).__name__} {words}"):
                    system.pipe_file(path, b"old")
                    for mode, data in (("wb", text(200000)), ("w", "x" * 200000)):
                        broken(used.open(path, mode, **words), data)
                        broken(contextlib.closing(used.open(path, mode, **words)), data)
                    self.assertEqual(system.cat_file(path), b"old")
                    with used.open(path, "wb", **words) as file:
                        file.write(text(200000))
                        self.assertEqual(system.cat_file(path), b"old")
                        if system.fs.protocol == "file":
                            self.assertRaises(BlockingIOError, used.pipe_file, path, b"other", **words)
                        else:
                            used.pipe_file(path, b"other", **words)
                            self.assertEqual(system.cat_file(path), b"other")
                    self.assertEqual(system.cat_file(path), text(200000))
                    self.assertRaises(FileExistsError, used.open, path, "xb", **words)
                    self.assertEqual(system.ls(os.path.dirname(path), detail=False), [system._strip_protocol(path)])
            broken(by_default.open(path, "wb", atomic=False), text(200000))
            self.assertRaises(AgeError, system.cat_file, path)
            system.rm(path)

    def test_atomic_that_fails(self):
        """If `mv`, a write or a close below fails, the old file stays, and no other is left."""
        system = fsspec.filesystem("age", fs=DirFileSystem(self.folder, fsspec.filesystem("file")), identities=self.identity, recipients=self.identity, atomic=True)

        def fails(*_, **words):
            raise OSError(5, "failed")

        for what, name in ((type(system.fs), "mv"), (LocalFileOpener, "write"), (LocalFileOpener, "close")):
            old = self.got(self.new("a.age", b"old"))
            with mock.patch.object(what, name, fails), self.assertRaises(OSError), system.open("a.age", "wb") as file:
                file.write(text(200000))
            self.assertEqual((self.got("a.age"), os.listdir()), (old, ["a.age"]), name)
        file = system.open("a.age", "wb")
        file.flush()
        (new,) = {*os.listdir()} - {"a.age"}
        child = os.fork()
        if child == 0:
            file.abort()
            os._exit(0)
        os.waitpid(child, 0)
        os.remove(new)
        file.abort()
        self.assertEqual((self.got("a.age"), os.listdir()), (old, ["a.age"]))

    def test_open_files_of_fsspec(self):
        """After an exception, of which an OpenFile tells its file nothing, the file is not completed."""
        path, words = self.path("a.age"), {"identities": self.identity, "recipients": self.identity}
        for mode, data in (("wb", text(200000)), ("w", "x" * 200000)):
            broken(fsspec.open("age://" + path, mode, **words), data)
            self.assertRaises(AgeError, self.system.cat_file, path)
            old = self.got(self.new("a.age", b"old"))
            broken(fsspec.open("age://" + path, mode, **words), data[:60000])
            self.assertEqual(self.got("a.age"), old)
            with fsspec.open("age://" + path, mode, **words) as file:
                file.write(data)
            self.assertEqual(self.system.info(path)["size"], 200000)

    def test_flush_in_a_handler(self):
        """In a `with` block it writes, whatever exception is being handled outside."""
        try:
            raise KeyError
        except KeyError:
            with self.system.open(self.path("a.age"), "wb") as file:
                file.flush()
                self.assertGreater(os.path.getsize("a.age"), 0)

    @unittest.skipIf(dask is None, "dask is missing")
    def test_single_file(self):
        """Dask closes such a file after each partition, and appends: the error says so."""
        table, words = dask.from_pandas(pandas.DataFrame({"a": range(6000)}), npartitions=6), {"recipients": KEY}
        self.assertRaisesRegex(ValueError, "'ab'.*single_file", table.to_csv, "age://" + self.path("a.csv.age"), single_file=True, storage_options=words)
        table.to_csv("age://" + self.path("*.csv.age"), storage_options=words)
        self.assertEqual(len(self.system.glob(self.path("*.csv.age"))), 7)

    def test_unknown_words(self):
        """Likely names of a secret are refused; words that a later fsspec may pass are ignored."""
        path = self.new("a.age", b"old")
        for words in ({"passphrase": "x"}, {"identity": KEY}, {"atomic": True, "key": KEY}, {"password": "x"}):
            self.assertRaisesRegex(TypeError, "identities or recipients", fsspec.filesystem, "age", **words)
        for mode, words in (("rb", {"atomic": True}), ("r", {"identities": KEY}), ("rb", {"key": KEY}), ("wb", {"identities": KEY}), ("w", {"password": "x"})):
            self.assertRaisesRegex(TypeError, "identities or recipients", self.system.open, path, mode, **words)
        for words in ({"block_size": 100}, {"cache_type": "none"}, {"cache_options": {}}, {"size": 3}, {"autocommit": True}, {"later": 1}):
            self.assertEqual(self.system.open(path, **words).read(), b"old")
            self.system.open(self.path("b.age"), "wb", **words).close()
        for words in ({"asynchronous": False}, {"loop": None}, {"max_paths": 5}, {"use_listings_cache": True}, {"later": 1}):
            self.assertEqual(fsspec.filesystem("age", identities=self.identity, **words).cat_file(path), b"old")

    def test_words_of_text(self):
        """`encoding`, `errors` and `newline` are those of Python's own files."""
        path = self.path("a.age")
        for words in {"newline": "\r\n"}, {"newline": ""}, {"encoding": "utf-16"}, {"encoding": "ascii", "errors": "replace"}:
            words = {"encoding": "utf-8", **words}
            for system, name in ((self.system, path), (io, "plain")):
                with system.open(name, "w", **words) as file:
                    file.write("\u00fc\r\n\n")
            self.assertEqual(self.system.cat_file(path), self.got("plain"))
            found = []
            for system, name in ((self.system, path), (io, "plain")):
                with system.open(name, "r", **words) as file:
                    found.append(file.read())
            self.assertEqual(*found)

    @unittest.skipIf(pandas is None, "pandas is missing")
    def test_pandas(self):
        """A broken export leaves an incomplete file or the old one, and with `atomic` always the old one."""
        class Bad:
            def __str__(self):
                raise RuntimeError("bad")

            __reduce__ = __str__

        path, words = self.path("a.age"), {"identities": self.identity, "recipients": self.identity}
        for rows in (10, 100000):
            table = pandas.DataFrame({"a": [*range(rows), Bad()]})
            for atomic in (False, True):
                for call, more in ((table.to_csv, {}), (table.to_pickle, {}), (table.to_csv, {"compression": "gzip"})):
                    old = self.got(self.new("a.age", b"old"))
                    with self.subTest(f"{rows} {atomic} {call.__name__}"), self.assertRaisesRegex(RuntimeError, "bad"):
                        call("age://" + path, storage_options={**words, "atomic": atomic}, **more)
                    if atomic:
                        self.assertEqual((self.got("a.age"), os.listdir()), (old, ["a.age"]))
                    elif self.got("a.age") != old:
                        self.assertRaises(AgeError, agefile.open, path, identities=self.identity)
        table = pandas.DataFrame({"a": range(1000)})
        for atomic in (False, True):
            table.to_csv("age://" + path, index=False, storage_options={**words, "atomic": atomic})
            self.assertTrue(pandas.read_csv("age://" + path, storage_options=words).equals(table))

    @unittest.skipIf(pandas is None, "pandas is missing")
    def test_the_page(self):
        """By the lines of README.md, a table is written with the secrets of fsspec's configuration."""
        table = pandas.DataFrame({"a": range(1000)})
        self.addCleanup(fsspec.config.conf.pop, "age")
        exec(program(3, data=self.folder), {"fsspec": fsspec, "secret": KEY, "table": table})
        self.assertTrue(pandas.read_csv("age://" + self.path("table.csv.age"), index_col=0).equals(table))

    def test_recipients_that_fail(self):
        path = self.new("a.age", b"old")
        for recipients, error in (([], AgeError), ("word", TypeError), ([KEY, Passphrase("x", work=1)], AgeError)):
            for mode in ("wb", "w"):
                self.assertRaises(error, self.system.open, path, mode, recipients=recipients)
        reader = fsspec.filesystem("age", identities=self.identity)
        self.assertRaises(TypeError, reader.open, path, "wb")
        self.assertRaises(LookupError, self.system.open, path, "w", encoding="bogus")
        self.assertEqual(self.system.cat_file(path), b"old")
