"""Frameworks over age files: each reads what it reads from plain files, or raises an error, which is
the package's for bad bytes. A row is a way to read a folder; a column is what happened to a file."""

import contextlib
import errno
import importlib
import io
import json
import logging
import os
import random
import shutil
import tarfile
import unittest
import zipfile
from functools import partial
from pathlib import Path
from unittest import mock

import agefile

try:
    import fsspec
    import agefile.fsspec
except ImportError as error:
    raise unittest.SkipTest(str(error)) from error

from agefile import AgeError, Key, _reader
from agefile._paths import name_of
from support import KEY, SEALED, InFolder, damaged, message


def imported(name):
    with contextlib.suppress(ImportError):
        return importlib.import_module(name)


dask, joblib, numpy, pandas, torch, xarray, zarr = map(imported, "dask joblib numpy pandas torch xarray zarr".split())


class Place:
    """A folder where frameworks make plain files, and read plain or encrypted ones."""

    def __init__(self, folder):
        self.folder, self.is_plain = os.path.abspath(folder), folder != "age"
        self.kind, self.words = ("file", {}) if self.is_plain else ("age", {"identities": KEY})
        self.options = {} if self.is_plain else {"storage_options": self.words}
        self.chain = {self.kind: self.words, "simplecache": {"cache_storage": self.path("cache")}}
        self.system = fsspec.filesystem(self.kind, **self.words)

    def url(self, name="a"):
        return f"{self.kind}://{self.folder}/{name}"

    def path(self, name="a"):
        return f"{self.folder}/{name}"

    def file(self, name="a"):
        return open(self.path(name), "rb") if self.is_plain else agefile.open(self.path(name), identities=KEY)

    def files(self):
        return {str(path.relative_to(self.folder)): path.read_bytes() for path in Path(self.folder).rglob("*") if path.is_file()}

    def put(self, files):
        shutil.rmtree(self.folder, ignore_errors=True)
        for name, data in files.items():
            Path(self.path(name)).parent.mkdir(parents=True, exist_ok=True)
            Path(self.path(name)).write_bytes(data)

    def make_xport(self, seed):
        """A file of SAS with one column of text."""
        rng, day, head = random.Random(seed), "01JAN20:00:00:00", "HEADER RECORD*******{:8}HEADER RECORD!!!!!!!{:030}".format
        lines = [head("LIBRARY", 0), f"SAS     SAS     SASLIB  {'':40}{day}", day, head("MEMBER", 1600000000140), head("DSCRPTR", 0)]
        lines += [f"SAS     NAME    SASDATA {'':40}{day}", day, head("NAMESTR", 10**20), f"\0\2\0\0\0\x50\0\1{'C':152}", head("OBS", 0)]
        Path(self.path()).write_text("".join(f"{line:80}" for line in lines + [rng.randbytes(40).hex() for _ in range(1500 * seed)]))

    def make_archive(self, seed, mode):
        rng = random.Random(seed)
        with zipfile.ZipFile(self.path(), "w") if mode == "zip" else tarfile.open(self.path(), mode) as file:
            for name in ("one", "two"):
                data, info = rng.randbytes(60000 * seed), tarfile.TarInfo(name)
                info.size = len(data)
                file.writestr(name, data) if mode == "zip" else file.addfile(info, io.BytesIO(data))

    def make_arrays(self, seed):
        group = zarr.open_group(self.path("z"), "w")
        group.create_dataset("x", data=numbers(seed), chunks=20000, compressor=None).attrs.update(seed=seed, _ARRAY_DIMENSIONS=["n"])
        zarr.consolidate_metadata(group.store)

    def store(self, above="", name="z"):
        """The files as a mapping, or what the file system above makes of them."""
        return fsspec.get_mapper(above + self.url(name), **(self.chain if above else self.words))

    def make_references(self, seed):
        """What kerchunk makes of an array: its metadata, and where its chunks are in a file."""
        self.make_arrays(seed)
        found = {name[2:]: data.decode() for name, data in self.files().items() if "/.z" in name}
        found.update({f"x/{number}": ["{{u}}", 160000 * number, 160000] for number in range(2)})
        self.put({"blob": numbers(seed).tobytes(), "refs": json.dumps({"version": 1, "templates": {"u": ""}, "refs": found}).encode()})

    def references(self):
        words = {"remote_protocol": self.kind, "remote_options": self.words, "target_options": self.words}
        return {"fo": self.url("refs"), "template_overrides": {"u": self.url("blob")}, **words}

    def remember(self, *seeds):
        """The result of a function, in a cache whose files may be encrypted."""
        opened = lambda _, name, mode: agefile.open(name, mode, **({"identities": KEY} if "r" in mode else {"recipients": KEY}))
        joblib.register_store_backend("age", type("Store", (joblib._store_backends.FileSystemStoreBackend,), {"_open_item": opened}))
        return joblib.Memory(self.folder, "local" if self.is_plain else "age", verbose=0).cache(lambda: numbers(seeds[0]))()


def made(method, name="a", count=4000, text=0, **words):
    """A function that makes a file of a table, whose second column has numbers or long texts."""
    rows = lambda seed, rng: [(number, rng.randbytes(text).hex() if text else rng.random()) for number in range(count * seed)]
    return lambda at, seed: getattr(pandas.DataFrame(rows(seed, random.Random(seed)), columns=["n", "r"]), method)(at.path(name), **words)


def value_of(found):
    """What a framework returns, so that it can be compared."""
    found = found.compute(scheduler="synchronous") if hasattr(found, "compute") else found
    if hasattr(found, "to_csv"):
        return found.to_csv(index=False)
    return (numpy.asarray(found[:]).tobytes(), dict(getattr(found, "attrs", {}))) if hasattr(found, "dtype") else found


def tables(title, make, name="a", **words):
    """Rows of a function of pandas, as far as it can: by name, from an open file, and in pieces."""
    read = lambda file, **more: getattr(pandas, title.split()[1])(file, **words, **more)
    start = " ".join((title, name, *words))
    if "sas" not in title:
        yield f"{start} by name", (make, None, lambda at: read(at.url(name), **at.options))
    if "gz" not in name:
        yield f"{start} of a file", (make, lambda at: at.file(name), read)
    if "csv" in title or "stata" in title or "lines" in words:
        yield f"{start} in pieces", (make, lambda at: read(at.url(name), chunksize=1000, **at.options), lambda found: pandas.concat(list(found)))


# For each title, which begins with the modules needed: what makes plain files from a seed, what is
# opened before the value is read, and what reads it.
csv, lines, archive = made("to_csv"), made("to_json", orient="records", lines=True), partial(Place.make_archive, mode="zip")
numbers = lambda seed: numpy.random.default_rng(seed).random(40000)
netcdf = lambda at, seed: xarray.Dataset({"x": ("n", numbers(seed), {"seed": seed})}).to_netcdf(at.path(), engine="h5netcdf")
ROWS = dict((
    *tables("pandas read_csv", csv), *tables("pandas read_csv", csv, engine="python"), *tables("pandas read_csv", made("to_csv", "a.gz"), "a.gz"),
    *tables("pandas read_table", csv, sep=","), *tables("pandas read_fwf", made("to_string")), *tables("pandas read_pickle", made("to_pickle")),
    *tables("pandas read_json", made("to_json")), *tables("pandas read_json", lines, lines=True), *tables("pandas read_stata", made("to_stata")),
    *tables("pandas read_sas", Place.make_xport, format="xport"), *tables("pandas+lxml read_xml", made("to_xml", count=1000)),
    *tables("pandas+openpyxl read_excel", made("to_excel", "a.xlsx", 10, 15000), "a.xlsx"), *tables("pandas+odf read_excel", made("to_excel", "a.ods", 10, 15000), "a.ods"),
    ("pandas+lxml read_html", (made("to_html", count=1000), Place.file, lambda file: pandas.read_html(file)[0])),
    *((f"tarfile {kind} {mode}", (partial(Place.make_archive, mode=kind), Place.file, lambda file, mode=mode: [
        (info.name, found.extractfile(info).read()) for found in [tarfile.open(fileobj=file, mode=mode)] for info in found]))
        for kind, modes in {"w": ("r:", "r|", "r", "r|*"), "w:gz": ("r", "r|gz"), "w:xz": ("r", "r|xz")}.items() for mode in modes),
    ("zipfile", (archive, Place.file, lambda file: [zipfile.ZipFile(file).read(name) for name in ("one", "two")])),
    *((f"fsspec {above}::", (partial(Place.make_archive, mode=mode), None, lambda at, above=above: [
        file.open().read() for file in fsspec.open_files(f"{above}://*::{at.url()}", **at.chain)])) for above, mode in (("tar", "w"), ("zip", "zip"))),
    ("fsspec+pandas size and cat", (csv, lambda at: at.system.size(at.path()) and at, lambda at: (at.system.size(at.path()), [*at.system.cat([at.path()], on_error="omit").values()]))),
    ("zarr FSStore", (Place.make_arrays, None, lambda at: zarr.storage.FSStore(at.url("z"), **at.words)["x/0"])),
    ("zarr open", (Place.make_arrays, lambda at: zarr.open(at.store(), mode="r")["x"], value_of)),
    ("zarr open_consolidated", (Place.make_arrays, None, lambda at: zarr.open_consolidated(at.store(), mode="r")["x"])),
    ("zarr of simplecache::", (Place.make_arrays, lambda at: zarr.open(at.store("simplecache::"), mode="r")["x"], value_of)),
    ("zarr of reference://", (Place.make_references, lambda at: zarr.open(fsspec.get_mapper("reference://", **at.references()), mode="r")["x"], value_of)),
    ("dask.array+zarr from_zarr", (Place.make_arrays, lambda at: dask.array.from_zarr(at.url("z"), "x", **at.options), value_of)),
    ("xarray+zarr open_zarr", (Place.make_arrays, lambda at: xarray.open_zarr(at.url("z"), **at.options)["x"], value_of)),
    ("xarray+zarr of reference://", (Place.make_references, lambda at: xarray.open_dataset("reference://", engine="zarr", backend_kwargs={
        "consolidated": False, "storage_options": at.references()})["x"], value_of)),
    ("xarray+h5netcdf open_dataset", (netcdf, lambda at: xarray.open_dataset(fsspec.open(at.url(), **at.words).open(), engine="h5netcdf")["x"], value_of)),
    ("xarray+h5netcdf+dask.array open_mfdataset", (netcdf, lambda at: xarray.open_mfdataset([at.file()], engine="h5netcdf")["x"], value_of)),
    ("pandas+dask.bag read_text", (csv, lambda at: dask.bag.read_text(at.url(), **at.options), value_of)),
    ("pandas+dask.bag read_text in blocks", (csv, lambda at: dask.bag.read_text(at.url(), blocksize=100000, **at.options), value_of)),
    ("dask.dataframe read_csv", (csv, lambda at: dask.dataframe.read_csv(at.url(), blocksize=100000, **at.options), value_of)),
    ("dask.dataframe read_json", (lines, lambda at: dask.dataframe.read_json(at.url(), blocksize=100000, **at.options), value_of)),
    ("joblib+numpy load", (lambda at, seed: joblib.dump(numbers(seed), at.path(), compress=seed == 1), Place.file, lambda file: joblib.load(file))),
    ("joblib+numpy Memory", (Place.remember, None, Place.remember)),
    ("torch load", (lambda at, seed: torch.save(torch.arange(20000 * seed), at.path()), Place.file, lambda file: torch.load(file).tolist())),
    ("torch+numpy DataLoader", (lambda at, seed: at.put({"a": numbers(seed)[: 10000 * seed].tobytes()}), lambda at: (at, range(0, at.system.size(at.path()), 80000)),
        lambda found: [*torch.utils.data.DataLoader(found[1], collate_fn=lambda starts: found[0].system.cat_file(found[0].path(), starts[0], starts[0] + 80000))])),
))
# A cache computes again what it cannot load, and logs why.
COMPUTES = ("joblib+numpy Memory",)
# They read as many bytes as the file had when its blocks were made, of a plain file too.
KEEPS_LENGTHS = ("pandas+dask.bag read_text in blocks", "dask.dataframe read_csv", "dask.dataframe read_json", "torch+numpy DataLoader")


def states(file):
    """What may have happened to an age file, with the message that says it."""
    first = agefile.inspect(file).length + 16
    last = (len(file) - first - 1) // SEALED
    yield from ((f"chunk {chunk} damaged", damaged(file, chunk), message("BadChunk", chunk)) for chunk in range(last + 1))
    yield "cut by a byte", file[:-1], message("BadChunk", last)
    yield "cut after its first chunk", file[: first + min(SEALED, len(file) - first - 1)], message("BadChunk", 0)
    yield from ((f"cut to {length} bytes", file[:length], message("HeaderTruncated")) for length in (0, first // 2))
    yield "of another key", agefile.encrypt(b"text", recipients=Key(bytes(32))), message("WrongKey")
    yield "no age file", b"text", message("NotAge")


def rewriting(path, data):
    """Rewrites a file in its place as soon as it has been opened once."""
    def opened(chunks, original=_reader._Chunks._open_last, later=[data]):
        original(chunks)
        if later and str(chunks.name).endswith(path):
            Path(path).write_bytes(later.pop())

    return mock.patch.object(_reader._Chunks, "_open_last", opened)


def failing(path, error):
    """Lets the first read of a file fail or, if the error is that of a disk, the read of its first chunk."""
    def read_at(source, offset, room, original=_reader._Source.read_at):
        if str(name_of(source.file)).endswith(path) and (0 < offset < SEALED if error.errno == errno.EIO else offset == 0):
            raise error
        return original(source, offset, room)

    return mock.patch.object(_reader._Source, "read_at", read_at)


class Frameworks(InFolder):
    def outcome(self, folder, files, *then):
        """The value, or the error; an AgeError only of a second try. `then` is written before the value is read."""
        place = Place(folder)
        place.put(files)
        for is_second in (False, True):
            try:
                found = self.opened(place) if self.opened else place
                for name, data in then:
                    Path(place.path(name)).write_bytes(data)
                return value_of(self.value(found))
            except Exception as error:
                if is_second or not isinstance(error, AgeError):
                    return error

    def check(self, state, found, *expected, said=None):
        """`found` must be one of these values or kinds of error or, with a text, an AgeError with it."""
        with self.subTest(state):
            is_refusal = said is not None and isinstance(found, AgeError)
            same = (type(found) is type(each) if isinstance(found, Exception) else found == each for each in expected)
            self.assertTrue(said in str(found) if is_refusal else any(same), f"{found!r}"[:300])

    def check_row(self, title, make, opened, value):
        for need in filter(lambda need: imported(need) is None, title.split()[0].split("+")):
            self.skipTest(f"{need} is missing")
        self.opened, self.value = opened, value
        logging.disable(), self.addCleanup(logging.disable, 0)
        for seed, folder in enumerate(("shorter", "plain", "longer"), 1):
            os.mkdir(folder)
            make(Place(folder), seed)
        plain = Place("plain").files()
        sealed = {name: agefile.encrypt(data, recipients=KEY) for name, data in plain.items()}
        whole = self.outcome("plain", plain)
        self.assertNotIsInstance(whole, Exception)
        self.check("whole", self.outcome("age", sealed), whole)
        for name, file in sealed.items():
            absent = self.outcome("plain", {each: data for each, data in plain.items() if each != name})
            self.check(f"{name} absent", self.outcome("age", {each: data for each, data in sealed.items() if each != name}), absent, FileNotFoundError())
            # A file without which the value is the same may be damaged.
            right = [whole] * (absent == whole) + [IndexError()] * (title in COMPUTES)
            for state, data, said in states(file):
                self.check(f"{name} {state}", self.outcome("age", {**sealed, name: data}), *right, said=f"{said}: {os.path.abspath(f'age/{name}')!r}")
            for number in (errno.EIO, errno.EACCES):
                with failing(f"age/{name}", OSError(number, "failed")):
                    found = self.outcome("age", sealed)
                self.check(f"{name}, {errno.errorcode[number]}", found, *right, *[found] * isinstance(found, Exception))
            right += [whole] * (opened is not None or len(file) < SEALED)
            for kind in ("shorter", "longer"):
                new = Place(kind).files()[name]
                data, new_values = agefile.encrypt(new, recipients=KEY), [self.outcome("plain", {**plain, name: new})]
                new_values += [self.outcome("plain", plain, (name, new))] if title in KEEPS_LENGTHS else []
                self.check(f"{name}, then a {kind} one", self.outcome("age", sealed, (name, data)), *right, *new_values, said="" if opened else None)
                with rewriting(f"age/{name}", data):
                    self.check(f"{name}, a {kind} one while it is read", self.outcome("age", sealed), *right, *new_values, said="")
            with rewriting(f"age/{name}", file[: len(file) // 2]):
                self.check(f"{name} cut while it is read", self.outcome("age", sealed), *right, said="")


for each in ROWS:
    setattr(Frameworks, f"test_{each}", lambda self, title=each: self.check_row(title, *ROWS[title]))
