#!/usr/bin/env python3
"""Runs this repository's programs and their peers in turn, and prints one table of ratios and one of
throughput by size.

usage: bench/peers.py [--mib 1024] [--runs 7] [--files 1000] [--cpu LEVEL] [--only WORD] [--svg FILE]

The programs are built for each level of processor given by --cpu, or else for AGEP_CPU or this
machine's level and, if that is x86-64-v4, for x86-64-v3. --only leaves out the second table and the
rows without this word; --svg draws the second table. The script needs the toolchain, a C compiler,
openssl, age, gpg and GNU time. TMPDIR names the folder for files of up to ten times --mib.
"""

import argparse
import filecmp
import hashlib
import math
import os
import resource
import shutil
import statistics
import subprocess
import sys
import tempfile
import time
from pathlib import Path
from typing import NamedTuple

import picture

ROOT = Path(__file__).resolve().parent.parent
AGEP = ROOT / "crates/agep/out/agep"
CIPHER = ROOT / "crates/cipher_bench/out/cipher_bench"
KDF = ROOT / "crates/kdf_bench/out/kdf_bench"
LOG_N, R, P = 18, 8, 1
LEVELS = ("x86-64-v2", "x86-64-v3", "x86-64-v4")
# What openssl must not use to be held to a level: AVX-512, and for x86-64-v2 also AVX and AVX2.
HELD = {"x86-64-v3": ":~0xD0230000", "x86-64-v2": "~0x1000000000000000:~0xD0230020"}


class Built(NamedTuple):
    """Copies of the programs built for one level."""

    level: str
    agep: str
    cipher: str
    kdf: str


class Time(NamedTuple):
    """The seconds of one measurement, on the clock and of the processor."""

    clock: float
    cpu: float


class Command:
    """A command that runs once for each of some files. {} in its arguments and in the name of its output
    stands for the number of the file. With `user`, only the user time of the processor counts."""

    def __init__(self, *words, source="/dev/null", out="/dev/null", held="", files=1, user=False):
        self.words = [str(word) for word in words]
        self.words[0] = shutil.which(self.words[0]) or sys.exit(f"{words[0]} is missing")
        self.source, self.out, self.files, self.user = source, out, files, user
        self.environment = os.environ | ({"OPENSSL_ia32cap": held} if held else {})

    def measure(self):
        times = [self.measure_file(number) for number in range(self.files)]
        clock, cpu = (sum(column) for column in zip(*times))
        return Time(math.nan if self.user else clock, cpu)

    def measure_file(self, number):
        line = [word.format(number) for word in self.words]
        out = self.out.format(number)
        if out != "/dev/null":
            Path(out).unlink(missing_ok=True)
        streams = [
            (os.POSIX_SPAWN_OPEN, 0, self.source, os.O_RDONLY, 0),
            (os.POSIX_SPAWN_OPEN, 1, out, os.O_WRONLY | os.O_CREAT, 0o600),
        ]
        began = time.perf_counter()
        child = os.posix_spawn(line[0], line, self.environment, file_actions=streams)
        _, status, used = os.wait4(child, 0)
        clock = time.perf_counter() - began
        if status != 0:
            sys.exit(f"{' '.join(line)} failed")
        return Time(clock, used.ru_utime + (0 if self.user else used.ru_stime))

    def memory(self):
        """The peak memory in MiB. GNU time starts the command, because a process started by this script
        would be charged for the memory of the script, too."""
        line = ["time", "-f", "%M", *(word.format(0) for word in self.words)]
        with open(self.source, "rb") as source:
            said = subprocess.run(line, stdin=source, capture_output=True, env=self.environment)
        return f"{int(said.stderr.split()[-1]) / 1024:.1f}"


class OpensslSpeed:
    """The benchmark of openssl itself, which counts user time. Results are times for this many MiB."""

    def __init__(self, words, size, mib, held=""):
        self.line = ["openssl", "speed", *words, "-bytes", str(size), "-seconds", "1"]
        self.environment = os.environ | ({"OPENSSL_ia32cap": held} if held else {})
        self.mib = mib

    def measure(self):
        said = subprocess.run(self.line, env=self.environment, capture_output=True, check=True)
        thousands = float(said.stdout.split()[-1].removesuffix(b"k"))
        return Time(math.nan, self.mib * 2**20 / thousands / 1000)

    def memory(self):
        return "-"


class HashlibScrypt:
    """The scrypt of Python's hashlib, which is OpenSSL's, in this process."""

    def key(self):
        cost = {"n": 2**LOG_N, "r": R, "p": P, "maxmem": 2**31 - 1}
        return hashlib.scrypt(b"correct horse", salt=b"battery staple", dklen=32, **cost)

    def measure(self):
        began, before = time.perf_counter(), resource.getrusage(resource.RUSAGE_SELF)
        self.key()
        clock, after = time.perf_counter() - began, resource.getrusage(resource.RUSAGE_SELF)
        return Time(clock, sum(after[:2]) - sum(before[:2]))

    def memory(self):
        return "-"


def primitives(built, mib):
    """Each kind of work on bytes, with our programs and their peers."""
    below = min(built[0].level, max(HELD))
    held, held_name = HELD[below], f"openssl held to {below}"
    aead = ["-aead", "-evp", "chacha20-poly1305"]
    for part, size, words in (
        ("seal", 65536, aead),
        ("open", 65536, ["-decrypt", *aead]),
        ("chacha20", 65536, ["-evp", "chacha20"]),
        *(("seal", size, aead) for size in (496, 528, 700, 1024)),
    ):
        here = [Command(each.cipher, part, size, mib, 7, user=True) for each in built]
        peers = {
            "openssl": OpensslSpeed(words, size, mib),
            held_name: OpensslSpeed(words, size, mib, held),
        }
        yield f"{part} {mib} MiB, {size} bytes each", here, peers
    mac = ["openssl", "mac", "-macopt", "hexkey:" + 32 * "07", "-in", "plain", "POLY1305"]
    here = [Command(each.cipher, "poly1305", 65536, mib, 7, user=True) for each in built]
    peers = {"openssl": Command(*mac, user=True), held_name: Command(*mac, held=held, user=True)}
    yield f"poly1305 {mib} MiB, 65536 bytes each", here, peers
    here = [Command(each.kdf, LOG_N, R, P) for each in built]
    yield f"scrypt, N = 2^{LOG_N}, r = {R}, p = {P}", here, {"hashlib": HashlibScrypt()}


def whole_files(built, mib, files, recipient):
    """Each kind of work on files. Age has no symmetric keys, so its rows use an X25519 key."""

    def here(*words, **options):
        return [Command(each.agep, *words, **options) for each in built]

    encrypt, age_encrypt = ["encrypt", "-k", "key"], ["age", "-r", recipient]
    decrypt, age_decrypt = ["decrypt", "-k", "key"], ["age", "-d", "-i", "identity"]
    for where, out in (("/dev/null", "/dev/null"), ("a file", "out")):
        stream = Command("./stream", "-e", "key", source="plain", out=out)
        peers = {"age": Command(*age_encrypt, "plain", out=out), "bindings/c/examples/stream.c": stream}
        yield f"encrypt {mib} MiB to {where}", here(*encrypt, "plain", out=out), peers
        stream = Command("./stream", "key", source="plain.here", out=out)
        peers = {"age": Command(*age_decrypt, "plain.age", out=out), "bindings/c/examples/stream.c": stream}
        yield f"decrypt {mib} MiB to {where}", here(*decrypt, "plain.here", out=out), peers
    own = [Command("sh", "-c", 'rm -f out && exec "$0" encrypt -k key -o out plain', each.agep) for each in built]
    age = Command("sh", "-c", 'rm -f out && age -r "$0" -o out plain && sync out', recipient)
    yield f"encrypt {mib} MiB to a file, and sync it", own, {"age, sync": age}
    copy = Command("dd", "if=plain.here", "bs=64K", "status=none", out="out")
    peers = {"dd bs=64K": copy, "cat": Command("cat", "plain.here", out="out")}
    yield f"rewrap {mib} MiB to a file", here("rewrap", "-k", "key", "-K", "new.key", "plain.here", out="out"), peers
    peers = {"age, all of it": Command(*age_decrypt, "plain.age")}
    yield f"ten bytes in the middle of {mib} MiB", here("range", "-k", "key", mib << 19, 10, "plain.here"), peers
    many = {"out": "{}.out", "files": files}
    peers = {"age": Command(*age_encrypt, "{}.txt", **many)}
    yield f"encrypt {files} files of 1 KiB", here(*encrypt, "{}.txt", **many), peers
    peers = {"age": Command(*age_decrypt, "{}.age", **many)}
    yield f"decrypt {files} files of 1 KiB", here(*decrypt, "{}.here", **many), peers
    age = Command("age", "--version", files=files)
    yield f"start {files} times, --version", here("--version", files=files), {"age": age}


def programs_by_size(built, recipient):
    """For each kind of work the arguments of each program. Openssl encrypts without authentication,
    because its command offers no authenticated cipher."""
    gpg = ["gpg", "--batch", "--quiet", "--homedir", "gpg", "--pinentry-mode", "loopback", "--passphrase-file", "new.key"]
    sealing = [*gpg, "--symmetric", "--s2k-mode", "0", "--cipher-algo", "AES256", "--compress-algo", "none", "-o", "-"]
    openssl = ["openssl", "enc", "-chacha20", "-K", 32 * "07", "-iv", 16 * "00", "-in"]
    own = {f"agep, {each.level}": each.agep for each in built}
    return {
        "encrypting": {
            **{name: [agep, "encrypt", "-k", "key"] for name, agep in own.items()},
            "age": ["age", "-r", recipient],
            "gpg": sealing,
            "openssl": openssl,
        },
        "decrypting": {
            **{name: [agep, "decrypt", "-k", "key"] for name, agep in own.items()},
            "age": ["age", "-d", "-i", "identity"],
            "gpg": [*gpg, "-o", "-", "--decrypt"],
            "openssl": [*openssl[:2], "-d", *openssl[2:]],
        },
    }


def throughput(built, mib, runs, recipient):
    """The bytes per second of each kind of work, program and size, by the best of several runs."""
    works, most = programs_by_size(built, recipient), mib << 20
    os.mkdir("gpg", 0o700)
    sizes = [1024 << shift for shift in range(0, 21, 2) if 1024 << shift <= most]
    rates = {name: {program: {} for program in programs} for name, programs in works.items()}
    for size in sizes:
        with open("sized", "wb") as sized:
            sized.truncate(size)
        commands = [
            (rates[name][program], Command(*words, "sized" if name == "encrypting" else "sized." + program))
            for name, programs in works.items()
            for program, words in programs.items()
        ]
        for program, words in works["encrypting"].items():
            Command(*words, "sized", out="sized." + program).measure()
        # a short run takes only a millisecond or two
        turns = runs if size >= 1 << 24 else 5 * runs
        times = [[command.measure().clock for _, command in commands] for _ in range(turns)]
        for (line, _), seconds in zip(commands, zip(*times)):
            line[size] = size / min(seconds)
    return rates


def print_throughput(rates):
    programs = [(name, program) for name in rates for program in rates[name]]
    print(f"| MB/s | {' | '.join(f'{name}: {program}' for name, program in programs)} |")
    print("|---|" + "---|" * len(programs))
    for size in rates["encrypting"]["age"]:
        millions = [rates[name][program][size] / 1e6 for name, program in programs]
        print(f"| {size >> 10} KiB | {' | '.join(f'{n:.0f}' if n >= 10 else f'{n:.2f}' for n in millions)} |")


def by_shell(line):
    """The words that a line with the functions of share/build.sh prints."""
    script = f"root='{ROOT}'; . '{ROOT}/share/build.sh'; {line}"
    return subprocess.check_output(["sh", "-c", script], text=True).split()


def build(level):
    """Builds the programs to be measured, checks that both scrypts give the same key, and returns copies."""
    os.environ["AGEP_CPU"] = level
    for line, folder in (
        ([ROOT / "agep", "--version"], "."),
        ([ROOT / "bench/cipher.sh", level], "."),
        (["rt", "run", *by_shell(f"target {level}"), "--", "1", "1", "1"], KDF.parent.parent),
    ):
        build_by(line, folder)
    if subprocess.check_output([KDF, str(LOG_N), str(R), str(P)], text=True).strip() != (
        HashlibScrypt().key().hex()
    ):
        sys.exit("the keys differ")
    os.mkdir(level)
    return Built(level, *(shutil.copy(path, level) for path in (AGEP, CIPHER, KDF)))


def build_stream():
    """Builds the example of the library for C, which takes the machine's own level."""
    build_by([ROOT / "install", "--library", "prefix"], ".")
    source = ROOT / "bindings/c/examples/stream.c"
    build_by(["cc", "-O2", "-Iprefix/include", "-o", "stream", source, "prefix/lib/libagefile.a"], ".")


def build_by(line, folder):
    built = subprocess.run(line, cwd=folder, capture_output=True, text=True)
    if built.returncode != 0:
        sys.exit(f"{built.stdout}{built.stderr}{line[0]} failed")


def make_files(agep, mib, files):
    """Makes the plaintexts, the secrets and the encrypted files. Returns the recipient for age."""
    with open("plain", "wb") as plain:
        for _ in range(mib):
            plain.write(bytes(2**20))
    for name in ("key", "new.key"):
        Path(name).write_bytes(os.urandom(32))
    for number in range(files):
        Path(f"{number}.txt").write_bytes(os.urandom(1024))
    subprocess.run(["age-keygen", "-o", "identity"], capture_output=True, check=True)
    recipient = subprocess.check_output(["age-keygen", "-y", "identity"], text=True).strip()
    for name, line in (("here", [agep, "encrypt", "-k", "key"]), ("age", ["age", "-r", recipient])):
        Command(*line, "plain", out=f"plain.{name}").measure()
        Command(*line, "{}.txt", out="{}." + name, files=files).measure()
    for line in ([agep, "decrypt", "-k", "key", "plain.here"], ["./stream", "key"]):
        Command(*line, source="plain.here", out="out").measure()
        if not filecmp.cmp("plain", "out", shallow=False):
            sys.exit(f"{line[0]} changed the plaintext")
    return recipient


def cells(times):
    """The best and the median."""
    return f"{min(times):.3f} ({statistics.median(times):.3f})"


def ratios(here, there):
    """How many times as fast as a peer each of our programs is, by the best and by the median."""
    def ratio(ours, kind):
        return kind(there) / kind(ours) if kind(ours) > 0 else math.inf

    return "; ".join(f"{ratio(ours, min):.2f} ({ratio(ours, statistics.median):.2f})" for ours in here)


def print_table(built, works, times):
    """The seconds are those of the clock, or of the processor if the peer counts only these."""
    levels = [each.level for each in built]
    print(f"| Work | Peer | {' | '.join(levels)} | Peer, s | Ratio | of CPU | MiB |")
    print("|---|---|" + "---|" * (len(levels) + 4))
    for name, ours, peers in works:
        for peer, program in peers.items():
            clock, cpu = ([[time[part] for time in times[each]] for each in (*ours, program)] for part in (0, 1))
            is_clock = not any(math.isnan(seconds) for column in clock for seconds in column)
            seconds = map(cells, clock if is_clock else cpu)
            ratio = ratios(clock[:-1], clock[-1]) if is_clock else "-"
            memory = f"{ours[0].memory()}, {program.memory()}"
            print(f"| {' | '.join([name, peer, *seconds, ratio, ratios(cpu[:-1], cpu[-1]), memory])} |")


def arguments():
    parser = argparse.ArgumentParser(description=__doc__.splitlines()[0])
    for name, default in (("--mib", 1024), ("--runs", 7), ("--files", 1000)):
        parser.add_argument(name, type=int, default=default)
    parser.add_argument("--cpu", choices=LEVELS, action="append")
    parser.add_argument("--only", metavar="WORD", default="")
    parser.add_argument("--svg", metavar="FILE", type=Path)
    args = parser.parse_args()
    (level,) = by_shell("processor")
    args.cpu = args.cpu or [level, *["x86-64-v3"] * (level == "x86-64-v4")]
    return args


def main():
    args = arguments()
    svg = args.svg and args.svg.absolute()
    with tempfile.TemporaryDirectory() as scratch:
        os.chdir(scratch)
        built = [build(level) for level in args.cpu]
        build_stream()
        recipient = make_files(built[0].agep, args.mib, args.files)
        works = [*primitives(built, args.mib), *whole_files(built, args.mib, args.files, recipient)]
        works = [work for work in works if args.only in work[0]]
        programs = [program for _, ours, peers in works for program in (*ours, *peers.values())]
        times = {program: [] for program in programs}
        for _ in range(args.runs):
            for program in programs:
                times[program].append(program.measure())
        processor = Path("/proc/cpuinfo").read_text().split("model name\t: ")[1].splitlines()[0]
        print(f"{processor}, {os.cpu_count()} cores, load {os.getloadavg()[0]:.1f}.")
        print(f"The best (and the median) of {args.runs} runs. A ratio above 1 is in our favour.\n")
        print_table(built, works, times)
        if not args.only:
            rates = throughput(built, args.mib, args.runs, recipient)
            print()
            print_throughput(rates)
            if svg:
                svg.write_text(picture.draw(rates))


if __name__ == "__main__":
    main()
