#!/usr/bin/env python3
"""Measures the library from C, Rust and Python beside agep and age, and prints two tables.

usage: bench/library.py PREFIX [--mib 1024] [--runs 3] [--only WORD]

PREFIX is where ./install --library put the library; `agep` must be built. The script needs a C compiler,
cargo and age. Programs in C and Rust link the archive, except in the rows that say otherwise. The first
table's commands run in turn, --runs times each. It has the best times, of the clock and the processor, the
ratio of processor time to that of agep, and the peak memory; --only leaves out its rows without this
word, but not agep's. TMPDIR names the folder for the files, which need five times the size.
"""

import argparse
import math
import mmap
import os
import re
import subprocess
import sys
import tempfile
import time
from pathlib import Path

ROOT = Path(__file__).resolve().parent.parent
AGEP = ROOT / "crates/agep/out/agep"

OPENING = {
    "Python, copyfileobj from open": "with agefile.open(name, identities=KEY) as source: shutil.copyfileobj(source, SINK)",
    "Python, copyfileobj from open to a file": "with agefile.open(name, identities=KEY) as source: shutil.copyfileobj(source, open('plain.other', 'wb', 0))",
    "Python, open().read()": "with agefile.open(name, identities=KEY) as source: source.read()",
    "Python, decrypt": "agefile.decrypt(data, identities=KEY)",
    "Python, decrypt, threads=4": "agefile.decrypt(data, identities=KEY, threads=4)",
    "Python, copy": "agefile.copy(open(name, 'rb', 0), SINK, identities=KEY)",
    "Python, copy, threads=4": "agefile.copy(open(name, 'rb', 0), SINK, identities=KEY, threads=4)",
    "Python, copyfileobj of a file that is not encrypted": "shutil.copyfileobj(open(name, 'rb'), SINK)",
    "Python, read() of a file that is not encrypted": "open(name, 'rb').read()",
}
SEALING = {
    "Python, copyfileobj to open": "with agefile.open(SINK, 'wb', recipients=KEY) as sink: shutil.copyfileobj(open(name, 'rb'), sink)",
    "Python, encrypt": "agefile.encrypt(data, recipients=KEY)",
    "Python, copy": "agefile.copy(open(name, 'rb', 0), SINK, recipients=KEY)",
    "Python, copy, threads=4": "agefile.copy(open(name, 'rb', 0), SINK, recipients=KEY, threads=4)",
}
# The time of a Python row is that of the call alone, without the start of the interpreter and, if
# the call takes bytes, without reading the file into memory.
SCRIPT = """import agefile, shutil, sys, time
KEY, name = agefile.Key(open('key', 'rb').read()), sys.argv[1]
SINK, data = open('/dev/null', 'wb', 0), open(name, 'rb').read() if {takes_data} else None
clock, cpu = time.monotonic(), time.process_time()
{code}
print(time.monotonic() - clock, time.process_time() - cpu, file=sys.stderr)
"""


def use_memory(mib):
    """Uses memory in a process that ends. A virtual machine returns memory that was free for a while to
    its host, and the first use after that takes several times as long."""
    child = os.fork()
    if child == 0:
        memory = mmap.mmap(-1, mib << 20)
        memory.madvise(mmap.MADV_HUGEPAGE)
        for at in range(0, len(memory), mmap.PAGESIZE):
            memory[at] = 1
        os._exit(0)
    os.waitpid(child, 0)


def measured(words, folder, environment):
    """The seconds of a command on the clock and of the processor, and its peak memory in MiB."""
    began = time.monotonic()
    words = [str(word) for word in words]
    process = subprocess.Popen(words, cwd=folder, env=environment, stdout=subprocess.DEVNULL, stderr=subprocess.PIPE, text=True)
    said = process.stderr.read()
    _, status, usage = os.wait4(process.pid, 0)
    process.returncode = os.waitstatus_to_exitcode(status)
    if process.returncode != 0:
        sys.exit(f"{words}: status {process.returncode}: {said}")
    clock, cpu = map(float, said.split()) if said else (time.monotonic() - began, usage.ru_utime + usage.ru_stime)
    return clock, cpu, usage.ru_maxrss / 1024


def in_python(rows, name):
    for title, code in rows.items():
        yield title, [sys.executable, "-c", SCRIPT.format(code=code, takes_data="(data" in code), name]


def built(name, prefix, folder, library=None):
    words = ["cc", "-O2", "-pthread", f"-I{prefix}/include", "-o", folder / name, ROOT / f"bindings/c/examples/{name}.c"]
    words += library or [prefix / "lib/libagefile.a"]
    subprocess.run([str(word) for word in words], check=True)
    return folder / name


def built_in_rust(prefix, folder):
    words = ["cargo", "build", "-q", "--offline", "--release", "--example", "stream", "--manifest-path", str(ROOT / "bindings/rust/Cargo.toml")]
    environment = os.environ | {"AGEFILE_LIB_DIR": str(prefix / "lib"), "CARGO_TARGET_DIR": str(folder / "target")}
    subprocess.run(words, check=True, env=environment)
    return folder / "target/release/examples/stream"


def streams(prefix, folder):
    """The same example in C and in Rust, over the archive, and in C over the shared library too."""
    shared = built("stream", prefix, folder, [f"-L{prefix}/lib", "-lagefile", f"-Wl,-rpath,{prefix}/lib"])
    return [
        ("C, stream.c, shared library", shared.rename(folder / "stream_shared")), ("C, stream.c", built("stream", prefix, folder)),
        ("Rust, stream.rs", built_in_rust(prefix, folder)),
    ]


def rows_of(prefix, folder):
    """Pairs of a title and a command: under `seal` those that encrypt, under `open` the others."""
    programs, parallel = streams(prefix, folder), built("parallel", prefix, folder)
    to_null = ["sh", "-c", '"$@" <plain >/dev/null', "sh"]
    from_made = ["sh", "-c", '"$@" <made >/dev/null', "sh"]
    public = subprocess.check_output(["age-keygen", "-y", folder / "identity"], text=True).strip()
    sealing = [
        ("agep", [AGEP, "encrypt", "-k", "key", "plain"]), ("age", ["age", "-r", public, "plain"]),
        *((title, to_null + [stream, "-e", "key"]) for title, stream in programs),
        *((f"C, parallel.c, {n} threads", [parallel, "-e", "key", n, "plain", "made.other"]) for n in (1, 4)),
        *in_python(SEALING, "plain"),
    ]
    to_file = ["sh", "-c", '"$@" >plain.other', "sh"]
    opening = [
        ("agep", [AGEP, "decrypt", "-k", "key", "made"]), ("agep to a file", to_file + [AGEP, "decrypt", "-k", "key", "made"]), ("age", ["age", "-d", "-i", "identity", "made.age"]),
        *((title, from_made + [stream, "key"]) for title, stream in programs),
        *((f"C, parallel.c, {n} threads", [parallel, "key", n, "made", "plain.other"]) for n in (1, 4)),
        *in_python(OPENING, "made"),
    ]
    return {"seal": sealing, "open": opening}


def prepare(folder, mib):
    """Makes the plaintext, the files of agep and age for it, and the keys."""
    (folder / "key").write_bytes(os.urandom(32))
    block = os.urandom(1 << 20)
    with open(folder / "plain", "wb") as file:
        for _ in range(mib):
            file.write(block)
    subprocess.run([AGEP, "encrypt", "-k", "key", "-o", "made", "plain"], cwd=folder, check=True)
    subprocess.run(["age-keygen", "-o", "identity"], cwd=folder, check=True, capture_output=True)
    public = subprocess.check_output(["age-keygen", "-y", "identity"], cwd=folder, text=True).strip()
    subprocess.run(["age", "-r", public, "-o", "made.age", "plain"], cwd=folder, check=True)


def headers(environment):
    """Times `agefile.inspect` on a header of 10,911 stanzas."""
    code = (
        "import agefile, time; head = b'age-encryption.org/v1\\n' + b'-> a\\n\\n' * 10911 + b'--- ' + b'A' * 43 + b'\\n'\n"
        "times = []\nfor _ in range(7):\n    began = time.process_time(); found = agefile.inspect(head); times.append(time.process_time() - began)\n"
        "assert len(found.stanzas) == 10911; print(f'{1000 * min(times):.0f} ms')"
    )
    return subprocess.check_output([sys.executable, "-c", code], env=environment, text=True).strip()


# Microseconds, the best of 5 runs: for each row of 20 bytes, written by a call or read as a line;
# and for each file of 2 KiB, written or read: one file 10,000 times, then 10,000 files in turn.
ROWS = """
import agefile, gzip, os, sys, time
KEY, COUNT, FILES = agefile.Key(bytes(32)), 500000, 10000

def took(work, count=COUNT):
    times = []
    for _ in range(5):
        began = time.process_time()
        work()
        times.append(time.process_time() - began)
    return f"{min(times) / count * 1e6:.2f}"

def write(file, row):
    for _ in range(COUNT):
        file.write(row)
    getattr(file, "commit", file.close)()

def read(file):
    assert sum(1 for _ in file) == COUNT

def write_small(opened, names):
    data = bytes(2048) if "b" in mode else "x" * 2048
    for name in names:
        with opened("w" + mode, name) as file:
            file.write(data)

def read_small(opened, names):
    for name in names:
        with opened("r" + mode, name) as file:
            assert len(file.read()) == 2048

OPEN = lambda mode, name: agefile.open(name, mode, **({"recipients": KEY} if "w" in mode else {"identities": KEY}))
ZIP = lambda mode, name: gzip.open(name, mode if "b" in mode else mode + "t", 1)
for title, mode, opened in (("agefile", "b", OPEN), ("agefile, text", "", OPEN), ("gzip -1", "b", ZIP), ("gzip -1, text", "", ZIP), ("not encrypted", "b", lambda mode, name: open(name, mode))):
    row = b"x" * 19 + b"\\n" if mode else "x" * 19 + "\\n"
    one, many = ["small"] * FILES, [f"small.{number}" for number in range(FILES)]
    cells = [took(lambda: write(opened("w" + mode, "rows"), row)), took(lambda: read(opened("r" + mode, "rows")))]
    cells += [took(lambda: work(opened, names), FILES) for names in (one, many) for work in (write_small, read_small)]
    print("|", title, "|", " | ".join(cells), "|")
"""


def rows_in_python(folder, environment):
    print(f"\n| Python {sys.version.split()[0]}, us each | `write` of 20 bytes | a line | write 2 KiB | read 2 KiB | write 10,000 | read 10,000 |\n|---|---|---|---|---|---|---|")
    print(subprocess.check_output([sys.executable, "-c", ROWS], cwd=folder, env=environment, text=True), end="")


def main():
    parser = argparse.ArgumentParser(description=__doc__.splitlines()[0])
    parser.add_argument("prefix", type=Path)
    parser.add_argument("--mib", type=int, default=1024)
    parser.add_argument("--runs", type=int, default=3)
    parser.add_argument("--only", default="")
    args = parser.parse_args()
    environment = os.environ | {"AGEFILE_LIBRARY": f"{args.prefix.resolve()}/lib/libagefile.so.1", "PYTHONPATH": str(ROOT / "bindings/python")}
    processor = re.search(r"model name\s*: (.*)", Path("/proc/cpuinfo").read_text())[1]
    print(f"{processor}, {os.cpu_count()} cores; load {os.getloadavg()[0]:.1f} at the start")
    with tempfile.TemporaryDirectory() as name:
        folder = Path(name)
        prepare(folder, args.mib)
        print(f"\n| {args.mib} MiB | Clock, s | CPU, s | CPU to agep | MiB of memory |\n|---|---|---|---|---|")
        for work, rows in rows_of(args.prefix.resolve(), folder).items():
            rows = [row for row in rows if args.only in f"{work}: {row[0]}" or row[0] == "agep"]
            found = {title: (math.inf,) * 3 for title, _ in rows}
            for _ in range(args.runs):
                for title, words in rows:
                    use_memory(2 * args.mib)
                    found[title] = tuple(map(min, found[title], measured(words, folder, environment)))
            for title, (clock, cpu, memory) in found.items():
                print(f"| {work}: {title} | {clock:.2f} | {cpu:.2f} | {cpu / found['agep'][1]:.2f} | {memory:.0f} |")
        rows_in_python(folder, environment)
    print(f"\ninspect of 10,911 stanzas in Python: {headers(environment)}; load {os.getloadavg()[0]:.1f} at the end")


if __name__ == "__main__":
    main()
