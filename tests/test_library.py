"""Builds and installs the library for C, and runs it from C, often under sanitizers, and from Python:
names, codes, calls, refused allocations, threads, memory, and files exchanged with the program.
tests/test_packages.py runs the packages for Python and Rust over it."""

import functools
import os
import re
import shutil
import subprocess
import sys
import tempfile
import unittest
from pathlib import Path

sys.path += [str(Path(__file__).resolve().parent.parent / "share/generate"), str(Path(__file__).resolve().parent / "library")]
import codes
import header
import model

import fixture
import stand_in
import test_damaged_files
import test_new_file
import test_vectors
import testkit
from messages import message
from program import AGEP, LEVELS, levels_here, version


ROOT = Path(__file__).resolve().parent.parent
TESTS = ROOT / "tests/library"
HEADER = ROOT / "bindings/c/agefile.h"
EXAMPLES = ROOT / "bindings/c/examples"
SONAME = "libagefile.so.1"
WARNINGS = ("-Wall", "-Wextra", "-Wpedantic", "-Werror")
REFUSING = ("-Wl,--wrap=malloc,--wrap=realloc,--wrap=free",)
SIZES = (0, 1, 65535, 65536, 65537, 131072, 131073, 200000)
# The main function for the loop in docs/C.md, with a key, a file key, a nonce and a salt of zeros.
AROUND_THE_LOOP = """
int main(void)
{
    static const uint8_t key[32], fresh[48];
    uint8_t stanza[AGEFILE_STANZA_ROOM], front[AGEFILE_HEADER_ROOM];
    agefile_payload payload;
    agefile_report report;
    return agefile_wrap_key(fresh, key, fresh + 32, stanza, sizeof stanza, &report) != AGEFILE_OK ||
        agefile_begin(stanza, report.len, fresh, fresh + 16, front, sizeof front, &payload, &report) != AGEFILE_OK ||
        fwrite(front, 1, report.len, stdout) != report.len || !seal(&payload, stdin, stdout);
}
"""
# The registers that the system saves if it supports a level, as xgetbv tells them.
SAVED = {"x86-64": 0, "x86-64-v3": 6, "x86-64-v4": 0xE6}
USAGE = """usage: ./install [--uninstall] [PREFIX]
       ./install --library [--libdir=DIR] [--uninstall] [PREFIX]
"""
# 100,000 random calls would take a quarter of an hour.
RANDOM_CALLS = int(os.environ.get("RANDOM_CALLS", 2000))


def run(*words, **options):
    """Runs a command, and returns how it ended; with `status`, any other status fails the test."""
    status = options.pop("status", None)
    done = subprocess.run([str(word) for word in words], capture_output=True, **options)
    if status is not None and done.returncode != status:
        raise AssertionError(f"{words}: status {done.returncode}\n{done.stdout[-3000:]!r}\n{done.stderr.decode(errors='replace')}")
    return done


def said(*words, **options):
    """The output of a command, which must succeed."""
    return run(*words, status=0, **options).stdout.decode()


def needs(*tools):
    missing = [tool for tool in tools if shutil.which(tool) is None]
    return unittest.skipIf(missing, f"{' and '.join(missing)} missing")


def setUpModule():
    if shutil.which("cc") is None or shutil.which("objcopy") is None:
        raise unittest.SkipTest("a C compiler or objcopy is missing")


@functools.cache
def compilers():
    names = ("gcc", "clang", "g++", "clang++")
    missing = [name for name in names if shutil.which(name) is None]
    if missing:
        print(f"skipped: header and diagnoses: {' and '.join(missing)} missing")
    return [name for name in names if name not in missing]


@functools.cache
def work():
    """The folder of this run, with a key, a passphrase and a seed."""
    folder = Path(tempfile.mkdtemp())
    unittest.addModuleCleanup(shutil.rmtree, folder)
    (folder / "key").write_bytes(os.urandom(32))
    (folder / "seed").write_bytes(os.urandom(48))
    (folder / "pass").write_bytes(b"correct horse")
    return folder


@functools.cache
def prefix():
    """A folder with the library installed, and an older file that is not the library's."""
    folder = work() / "prefix"
    (folder / "include").mkdir(parents=True)
    (folder / "include/other.h").touch(0o644)
    done = run(ROOT / "install", "--library", folder, umask=0o077, status=0)
    if not re.fullmatch(rb"(install: building the library for x86-64(-v\d)?; its proofs are checked first\n)*", done.stderr):
        raise AssertionError(done.stderr)
    return folder


@functools.cache
def texts():
    """The folder of the C files that header.py makes from agefile.h."""
    folder = work() / "texts"
    folder.mkdir()
    (folder / "stand_ins.h").write_text(header.stand_ins(header.Header()))
    (folder / "driver_calls.h").write_text(header.driver_calls(header.Header()))
    return folder


def archive():
    return prefix() / "lib/libagefile.a"


def saving(level):
    """The flags of a C compiler for a system that saves the registers up to this level and no others. With only the
    first flag, a program takes the registers from the environment variable SAVED."""
    (work() / "saving.h").write_text(
        '#include <immintrin.h>\n#include <stdlib.h>\n#ifndef SAVED\n#define SAVED strtoul(getenv("SAVED"), NULL, 10)\n#endif\n'
        "#define _xgetbv(number) (0 * (number) + SAVED)\n"
    )
    return f"-include{work()}/saving.h", f"-DSAVED={SAVED[level]}"


@functools.cache
def held_to(level):
    """An archive that calls the build for this level."""
    compiler, temporary = work() / f"cc_{level}", work() / "temporary"
    compiler.write_text(f'#!/bin/sh\nexec cc {" ".join(saving(level))} "$@"\n')
    compiler.chmod(0o755)
    temporary.mkdir(exist_ok=True)
    variables = {"CC": str(compiler), "TMPDIR": str(temporary)}
    run(ROOT / "install", "--library", level, cwd=work(), umask=0o077, env=os.environ | variables, status=0)
    return work() / level / "lib/libagefile.a"


def each_build():
    """For each build of the proved code that this processor can run, an archive that calls it."""
    return {level: (held_to(level) if level != levels_here()[-1] else archive(),) for level in levels_here()}


def files_of(folder):
    """The paths under a folder, with the modes of files and the targets of links."""
    paths = (path for path in sorted(folder.rglob("*")) if path.is_symlink() or path.is_file())
    return [
        f"{path.relative_to(folder)} -> {os.readlink(path)}" if path.is_symlink() else f"{path.stat().st_mode & 0o777:o} {path.relative_to(folder)}"
        for path in paths
    ]


@functools.cache
def sanitizers():
    words = ("-fsanitize=address,undefined", "-fno-sanitize-recover=all", "-DSANITIZED")
    done = run("cc", *words, "-x", "c", "-o", work() / "empty_sanitized", "-", input=b"int main(void) { return 0; }")
    if done.returncode != 0:
        print("skipped: sanitizers: this C compiler lacks them")
    return words if done.returncode == 0 else ()


@functools.cache
def built(name, *flags, source=None, compiler="cc", library=None):
    """Builds a program, by default tests/library/NAME.c. A warning fails the test."""
    source = source or TESTS / f"{name}.c"
    made = work() / "-".join([name, compiler, *re.findall(r"\w+", "".join(map(str, flags + (library or ()))))])[:200]
    language = ("-x", "c++", "-std=c++11") if compiler == "c++" else ()
    words = (*flags, *WARNINGS, f"-I{prefix()}/include", *language, source, *(("-x", "none") if language else ()))
    run(compiler, "-g", "-pthread", "-o", made, *words, *(library or (archive(),)), status=0)
    return made


def names_in(*words):
    return sorted(line.split()[-1] for line in said("nm", *words).splitlines() if line and not line.endswith(":"))


class Installing(unittest.TestCase):
    def test_files(self):
        """./install --library installs the library, its header and its pkg-config file under PREFIX."""
        self.assertEqual(files_of(prefix()), [
            "644 include/agefile.h", "644 include/other.h", "644 lib/libagefile.a", f"lib/libagefile.so -> {SONAME}", f"755 lib/{SONAME}",
            "644 lib/pkgconfig/agefile.pc",
        ])
        for folder in (prefix() / "lib", prefix() / "lib/pkgconfig", held_to("x86-64").parents[1]):
            self.assertEqual(folder.stat().st_mode & 0o777, 0o755, folder)
        self.assertEqual(list((work() / "temporary").iterdir()), [])
        self.assertEqual((prefix() / "include/agefile.h").read_bytes(), HEADER.read_bytes())

    def test_versions(self):
        """agefile.pc, the header and the crate for Rust have the newest version in CHANGELOG.md."""
        self.assertIn(f"Version: {version()}\n", (prefix() / "lib/pkgconfig/agefile.pc").read_text())
        self.assertIn(f'\nversion = "{version()}"\n', (ROOT / "bindings/rust/Cargo.toml").read_text())
        major, minor, patch = map(int, version().split("."))
        self.assertIn(f"#define AGEFILE_VERSION 0x{major:02x}{minor:02x}{patch:02x} ", HEADER.read_text())

    def test_uninstalling(self):
        """--uninstall removes only the library's files, and lib/pkgconfig if that is then empty."""
        other = work() / "other"
        shutil.copytree(prefix(), other, symlinks=True)
        self.assertEqual(run(ROOT / "install", "--library", "--uninstall", other, status=0).stderr, b"")
        self.assertEqual(files_of(other), ["644 include/other.h"])
        self.assertEqual(list((other / "lib").iterdir()), [])

    def test_refused_words(self):
        """Arguments that ./install --library refuses."""
        rows = [["--other"], [""]] + [[word, "refused"] for word in (
            "--libdir=", "--libdir=/lib", "--libdir=../lib", "--libdir=lib/..", "--libdir=a b", "--libdir=lib/", "--v2")]
        for words in rows:
            with self.subTest(" ".join(words)):
                done = run(ROOT / "install", "--library", *words, cwd=work(), status=2)
                self.assertEqual((done.stdout, done.stderr.decode()), (b"", USAGE))
                self.assertFalse((work() / "refused").exists())
        done = run(ROOT / "install", "--library", "--help", status=0)
        self.assertEqual((done.stdout.decode(), done.stderr), (USAGE, b""))


class Names(unittest.TestCase):
    def test_names(self):
        """Archive and shared library export exactly the names in the header."""
        expected = sorted(f"agefile_{function.name}" for function in header.Header().exports)
        self.assertEqual(names_in("-g", "--defined-only", archive()), expected)
        versioned = sorted([f"{name}@@AGEFILE_1" for name in expected] + ["AGEFILE_1"])
        self.assertEqual(names_in("-D", "--defined-only", prefix() / "lib" / SONAME), versioned)

    def test_builds(self):
        """The archive and the shared library contain code for x86-64-v3, as its registers show, and for x86-64-v4,
        as its rotations show."""
        for library in (archive(), prefix() / "lib" / SONAME):
            code = said("objdump", "-d", library)
            self.assertGreater(code.count("%ymm"), 1000, library.name)
            self.assertGreater(code.count("\tvprold "), 100, library.name)

    def test_what_they_need(self):
        """Archive and shared library need malloc, realloc, free, functions on memory, and no library but libc. The
        linker defines _GLOBAL_OFFSET_TABLE_."""
        needed = {"free", "malloc", "realloc", "memcpy", "memmove", "memset", "memcmp", "_GLOBAL_OFFSET_TABLE_"}
        self.assertLessEqual(set(names_in("-u", archive())), needed)
        text = said("readelf", "-Wdl", prefix() / "lib" / SONAME)
        self.assertIn(f"[{SONAME}]", text)
        self.assertRegex(text, "BIND_NOW")
        self.assertRegex(text, "GNU_RELRO")
        self.assertNotRegex(text, "TEXTREL")
        self.assertEqual(re.findall(r"\(NEEDED\).*\[(.*)\]", text), ["libc.so.6"])


class Folders(unittest.TestCase):
    """An installation for a package, in a library folder for one architecture."""

    def setUp(self):
        self.staged = work() / "staged"
        self.libraries = self.staged / "usr/lib/x86_64-linux-gnu"
        self.environment = os.environ | {"DESTDIR": str(self.staged)}

    def install(self, *words):
        return run(ROOT / "install", "--library", "--libdir=lib/x86_64-linux-gnu", *words, "/usr", env=self.environment, status=0)

    def test_folders(self):
        """DESTDIR and --libdir; an earlier library that the loader would prefer is removed."""
        folder = "lib/x86_64-linux-gnu"
        second = self.libraries / "glibc-hwcaps/x86-64-v3" / SONAME
        for uninstalled in (False, True):
            second.parent.mkdir(parents=True)
            second.touch()
            self.assertEqual(self.install(*["--uninstall"] * uninstalled).stderr, b"")
            self.assertFalse(second.parent.parent.exists())
            self.assertEqual(files_of(self.staged / "usr"), [] if uninstalled else [
                "644 include/agefile.h", f"644 {folder}/libagefile.a", f"{folder}/libagefile.so -> {SONAME}", f"755 {folder}/{SONAME}",
                f"644 {folder}/pkgconfig/agefile.pc",
            ])
            if not uninstalled:
                stream = with_pkg_config("staged_stream", self.libraries)
                self.assertIn("agefile_seal_next@AGEFILE_1", said("nm", "-D", stream))
                self.assertEqual(opened_by(stream, sealed_by(stream, b"text")), b"text")
        self.assertEqual(sorted(path.name for path in (self.staged / "usr").rglob("*")), ["include", "lib"])


class Processors(unittest.TestCase):
    """Which build of the proved code agefile.c calls."""

    def passed(self, *flags):
        """A program that prints which build agefile.c calls, and how many functions call that for x86-64-v4 if
        they get 16 KiB, and fails if a build gets a null pointer."""
        return built("passed", *flags, f"-I{texts()}", "-Wno-unused-parameter", library=(ROOT / "bindings/c/agefile.c",))

    def printed(self, level):
        """The output of `passed`. Nine functions get data: a chunk, a file or a plaintext."""
        return f"{min(level, LEVELS[1])}, {9 * (level == LEVELS[2])}\n"

    def test_this_processor(self):
        """The build that fits the processor is called, never with a null pointer."""
        (work() / "older.h").write_text("#include <cpuid.h>\n#define __get_cpuid(leaf, a, b, c, d) (*(b) = 0)\n")
        self.assertEqual(said(self.passed(*sanitizers())), self.printed(levels_here()[-1]))
        self.assertEqual(said(self.passed(f"-include{work()}/older.h")), self.printed("x86-64"))

    def test_registers(self):
        """A build is called only if the system saves all registers of its level."""
        program = self.passed(saving("x86-64")[0])
        for saved in {*range(8), 0xE6, *(0xE6 & ~(1 << bit) for bit in range(8))}:
            fitting = [level for level in levels_here() if saved & SAVED[level] == SAVED[level]]
            self.assertEqual(said(program, env=os.environ | {"SAVED": str(saved)}), self.printed(fitting[-1]), saved)

    def test_parts(self):
        """Without a part of x86-64-v4 the build for that level is not called. QEMU lacks these parts."""
        parts = "F BW CD DQ VL".split()
        (work() / "lacking.h").write_text(
            "#include <cpuid.h>\n#include <stdlib.h>\n"
            f"static const unsigned parts_of_v4[] = {{{', '.join(f'bit_AVX512{part}' for part in parts)}}};\n"
            "static inline int lacking(unsigned leaf, unsigned part, unsigned *a, unsigned *b, unsigned *c, unsigned *d)\n"
            '{ int known = __get_cpuid_count(leaf, part, a, b, c, d); *b &= ~parts_of_v4[atoi(getenv("LACKED"))]; return known; }\n'
            "#define __get_cpuid_count lacking\n"
        )
        program = self.passed(f"-include{work()}/lacking.h")
        for number, part in enumerate(parts):
            self.assertEqual(said(program, env=os.environ | {"LACKED": str(number)}), self.printed(levels_here()[:2][-1]), part)

    @needs("qemu-x86_64")
    def test_other_processors(self):
        """The build for x86-64-v3 is called only if no part of that level is missing."""
        parts = "pni ssse3 fma cx16 sse4.1 sse4.2 movbe popcnt xsave avx f16c lahf-lm abm bmi1 avx2 bmi2"
        for processor in ("Haswell", "qemu64", "Nehalem", *(f"Haswell,-{part}" for part in parts.split())):
            with self.subTest(processor):
                found = said("qemu-x86_64", "-cpu", processor, self.passed("-O2"))
                self.assertEqual(found, self.printed("x86-64-v3" if processor == "Haswell" else "x86-64"))

    @needs("qemu-x86_64")
    def test_files_of_others(self):
        """The archive and the shared library make files on other processors."""
        for program in (with_pkg_config("stream_shared", prefix() / "lib"), built("stream", "-O2", source=EXAMPLES / "stream.c")):
            for processor in ("qemu64", "Nehalem", "Haswell"):
                with self.subTest(f"{program.name} {processor}"):
                    done = run("qemu-x86_64", "-cpu", processor, program, "-e", work() / "key", input=b"text" * 30000, status=0)
                    self.assertEqual(opened_by(program, done.stdout), b"text" * 30000)


def with_pkg_config(name, libraries):
    """The example stream.c, linked with the shared library in a folder."""
    if shutil.which("pkg-config"):
        flags = said("pkg-config", "--cflags", "--libs", "agefile", env=os.environ | {"PKG_CONFIG_PATH": str(libraries / "pkgconfig")}).split()
    else:
        flags = [f"-I{prefix()}/include", f"-L{libraries}", "-lagefile"]
    run("cc", "-O2", "-o", work() / name, EXAMPLES / "stream.c", *flags, f"-Wl,-rpath,{libraries}", status=0)
    return work() / name


def sealed_by(stream, plain):
    return run(stream, "-e", work() / "key", input=plain, status=0).stdout


def opened_by(stream, file):
    return run(stream, work() / "key", input=file, status=0).stdout


class Languages(unittest.TestCase):
    def test_standards(self):
        """The header compiles as C99, C11, C17, C++98, C++11 and C++20, and programs link."""
        for compiler in compilers():
            plus = compiler.endswith("++")
            for standard in ("c++98", "c++11", "c++20") if plus else ("c99", "c11", "c17"):
                with self.subTest(f"{compiler} {standard}"):
                    words = (*WARNINGS, "-Wno-long-long", f"-std={standard}", f"-I{prefix()}/include", "-x", "c++" if plus else "c", "-", "-x", "none")
                    source = b"#include <agefile.h>\nint main(void) { return *agefile_message(agefile_version() == 0); }\n"
                    run(compiler, *words, archive(), "-o", work() / "language", input=source, status=0)


    def test_examples(self):
        """The examples compile as C99, C11 and C17, too, where libc declares only what macros ask for."""
        for compiler in (name for name in compilers() if not name.endswith("++")):
            for standard in ("c99", "c11", "c17"):
                for source in sorted(EXAMPLES.glob("*.c")):
                    with self.subTest(f"{compiler} {standard} {source.name}"):
                        run(compiler, *WARNINGS, f"-std={standard}", f"-I{prefix()}/include", "-fsyntax-only", source, status=0)


class Declarations(unittest.TestCase):
    def test_they_agree(self):
        """agefile.h declares the functions and structs of the sources, from which ./generate makes the
        declarations for other languages."""
        self.assertEqual(header.differences(ROOT), [])

    def test_differences_are_found(self):
        """Each difference is found, and a line names the function or struct."""
        text = HEADER.read_text()
        for name, old, new in (
            ("function ranges_open", "uint64_t file_len,\n    const", "uint32_t file_len,\n    const"),
            ("function take_part", "uint64_t count", "uint64_t number"),
            ("function ranges_locate", "*ranges, uint64_t at, agefile_report", "*at, uint64_t ranges, agefile_report"),
            ("function wrap_key", "const uint8_t key[AGEFILE_LEAST 32],\n    const uint8_t salt", "const uint8_t key[AGEFILE_LEAST 16],\n    const uint8_t salt"),
            ("function file_len", "uint64_t agefile_file_len", "uint32_t agefile_file_len"),
            ("function version", "uint32_t agefile_version(void) AGEFILE_USED;", ""),
            ("version: ", "agefile_version(void) AGEFILE_USED", "agefile_version(void) AGEFILE_CALL((1))"),
            ("ranges_open: ", "AGEFILE_CALL((4, 5, 6));", "AGEFILE_CALL((4, 6));"),
            ("encrypt_key: ", "AGEFILE_CALL((3, 4, 7))", "AGEFILE_CALL((3, 7))"),
            ("struct summary", "uint8_t mac[32]", "uint8_t mac[24]"),
            ("struct ranges", "    uint64_t first;      /* the offset of the first sealed chunk */\n", ""),
        ):
            with self.subTest(f"{name}: {new}"), tempfile.TemporaryDirectory() as folder:
                shutil.copytree(ROOT / "crates/agefile/src", f"{folder}/crates/agefile/src")
                changed = Path(folder, "bindings/c/agefile.h")
                changed.parent.mkdir(parents=True)
                self.assertEqual(text.count(old), 1)
                changed.write_text(text.replace(old, new))
                lines = header.differences(Path(folder))
                self.assertEqual([line[: len(name)] for line in lines], [name], lines)


class Diagnoses(unittest.TestCase):
    CALL = "agefile_open(front, 9, file_key, &payload, &report)"

    def diagnosis(self, compiler, body):
        source = (
            "#include <agefile.h>\nuint8_t key[32], file_key[16], front[9], seed[48], short_key[15];\nagefile_payload payload;\n"
            f"agefile_report report;\nuint32_t call(void);\nuint32_t call(void) {{ {body} }}\n"
        )
        language = "c++" if compiler.endswith("++") else "c"
        words = (*WARNINGS, f"-I{prefix()}/include", "-O2", "-c", "-o", work() / "call.o", "-x", language, "-")
        done = run(compiler, *words, input=source.encode())
        self.assertEqual(done.returncode != 0, done.stderr != b"")
        return done.stderr.decode()

    def test_diagnoses(self):
        """Ignored results, null pointers without a length, and short keys in C are warnings."""
        whole = "agefile_decrypt_key(front, 9, key, front, 9, &report)"
        for compiler in compilers():
            with self.subTest(compiler):
                self.assertEqual(self.diagnosis(compiler, f"return {self.CALL};"), "")
                self.assertEqual(self.diagnosis(compiler, f"return {whole};"), "")
                for call in (self.CALL, whole):
                    self.assertRegex(self.diagnosis(compiler, f"{call}; return 0;"), "unused-result")
                    self.assertRegex(self.diagnosis(compiler, f"return {call.replace('&report', 'NULL')};"), "nonnull")
                for pointer in ("&payload", "file_key"):
                    self.assertRegex(self.diagnosis(compiler, f"return {self.CALL.replace(pointer, 'NULL')};"), "nonnull")
                if not compiler.endswith("++"):
                    text = self.diagnosis(compiler, f"return {self.CALL.replace('file_key', 'short_key')};")
                    self.assertRegex(text, "array-bounds|stringop-overflow|stringop-overread|array-parameter")


def number_in(name, constant):
    """The number of the constant with this name in a file in C, Rattle, Rust or Python."""
    found = re.search(rf"^(?:#define |(?:pub(?:\(crate\))? )?const )?{constant}(?:: \w+)?(?: =)? (\d[\d_]*)\b", (ROOT / name).read_text(), re.M)
    return int(found[1].replace("_", ""))


class Constants(unittest.TestCase):
    def test_codes(self):
        """The codes, messages and details of the header are those of the crates."""
        text, expected = HEADER.read_text(), codes.texts(ROOT)
        for name in ("codes", "messages", "details"):
            with self.subTest(name):
                self.assertIn(expected[name], text)
        found = [fault.code for fault in codes.faults(ROOT)]
        self.assertEqual(found, list(range(max(26, len(found)))))
        parts = sorted(codes.parts(ROOT))
        self.assertEqual(parts, list(range(1, max(6, len(parts) + 1))))

    def test_unknown_codes(self):
        """convert prints the messages of codes and details before the first default one, and succeeds only
        if code 2^32 - 1 and the details 0 and 2^64 - 1 have the default message."""
        lines = said(built("convert"), "messages").splitlines()
        faults = [f"{fault.code} {fault.message}" for fault in codes.faults(ROOT)]
        self.assertEqual(lines, faults + [f"detail {number} {part.text}" for number, part in codes.parts(ROOT).items()])

    def test_lengths(self):
        """The lengths in the header, in Python and in Rust are those of the crates."""
        chunk, tag = (number_in("crates/age_stream/src/sizes.rt", name) for name in ("CHUNK_SIZE", "TAG_SIZE"))
        front = number_in("crates/agefile/src/limits.rt", "MAX_HEADER") + 16
        header, python, rust = "bindings/c/agefile.h", "bindings/python/agefile/_library.py", "bindings/rust/src/ffi.rs"
        for name, before in ((header, "AGEFILE_"), (python, ""), (rust, "")):
            found = [number_in(name, before + constant) for constant in ("TEXT_CHUNK", "SEALED_CHUNK")]
            self.assertEqual(found, [chunk, chunk + tag], name)
        self.assertEqual([number_in(header, "AGEFILE_FRONT"), number_in(python, "FRONT")], [front, front])
        self.assertEqual([number_in(name, "TAG") for name in (python, rust)], [tag, tag])
        self.assertGreaterEqual(number_in(header, "AGEFILE_HEADER_ROOM"), number_in("crates/agefile/src/sizes.rt", "KEYED_START"))


class Calls(unittest.TestCase):
    """Calls from C, with pages that fault right after or right before each buffer, agree with a model in Python: see
    random_calls.py."""

    def agree(self, count, *drivers):
        done = run(sys.executable, TESTS / "random_calls.py", count, 1, *drivers)
        self.assertEqual((done.returncode, done.stderr), (0, b""), done.stdout.decode() + done.stderr.decode())
        self.assertGreater(int(done.stdout.split()[0]), count)

    def driver(self, *flags, library=None):
        return built("driver", *flags, *REFUSING, f"-I{texts()}", library=library)

    def test_random_calls(self):
        """Random calls by each build, under sanitizers and on small stacks."""
        libraries = each_build().values()
        self.agree(RANDOM_CALLS, *(self.driver(*flags, library=library) for flags in {sanitizers(), ("-O2",)} for library in libraries))

    @needs("qemu-x86_64")
    def test_older_processors(self):
        """On an emulated processor, where an instruction of x86-64-v3 ends the program."""
        stand_in.tool(work() / "emulated", f"exec qemu-x86_64 -cpu Nehalem {self.driver('-O1')}")
        self.agree(100, work() / "emulated")

    def test_second_compiler(self):
        """The archive as Rattle's own compiler makes it, so that a bug in one of the two compilers shows."""
        made, kept, second = ROOT / "crates/agefile/out/libagefile.a", work() / "kept.a", work() / "second"
        (second / "out").mkdir(parents=True)
        shutil.copy2(made, kept)
        try:
            run("rt", "lib", "--backend", "rattle", cwd=ROOT / "crates/agefile", status=0)
            for level in LEVELS:
                shutil.copy(made, second / f"out/{level}.a")
        finally:
            shutil.copy2(kept, made)
        run("sh", "-c", 'root=$0; . "$root/share/build.sh"; crate=$1; link_library "$crate"', ROOT, second, status=0)
        self.agree(100, self.driver("-O1", library=(second / "libagefile.a",)))

    def test_a_wrong_library_is_found(self):
        """random_calls.py finds a library that reads, writes, reports or returns something else."""
        text = (texts() / "driver_calls.h").read_text()
        call = "agefile_wrap_key(P(0), P(1), P(2), P(3), N(3), report)"
        self.assertIn(f" return {call};", text)
        for name, wrong in (
            ("salt", f"((uint8_t *)P(2))[15] ^= 1; return {call};"),
            ("output", f"{{ uint64_t code = {call}; if (code == 0) ((uint8_t *)P(3))[N(3) - 1] ^= 1; return code; }}"),
            ("place", f"{{ uint64_t code = {call}; report->place += code == 0; return code; }}"),
            ("code", f"{{ uint64_t code = {call}; return code == 0 ? AGEFILE_TOO_SMALL : code; }}"),
        ):
            with self.subTest(name):
                folder = work() / f"wrong_{name}"
                folder.mkdir()
                (folder / "driver_calls.h").write_text(text.replace(f"return {call};", wrong))
                done = run(sys.executable, TESTS / "random_calls.py", 0, 1, built("driver", *REFUSING, f"-I{folder}"))
                self.assertEqual((done.returncode, done.stderr), (1, b""))
                self.assertIn(": wrap_key, flags ", done.stdout.decode())


class WithTheProgram(unittest.TestCase):
    """Files are exchanged with agep."""

    def agep(self, *words, **options):
        return run(AGEP, *words, cwd=work(), **options)

    def convert(self, *words, **options):
        return run(built("convert", "-O2"), *words, cwd=work(), **options)

    def test_both_ways(self):
        """Whole buffers and steps make and open the files of agep, and ranges open them, for each size."""
        for size in SIZES:
            plain = b"".join(b"%d\n" % i for i in range(40000))[:size]
            for secret, work_factor in ((("-k", "key"), ()), (("-p", "pass"), ("-w", "3"))):
                with self.subTest(f"{size} bytes, {secret[1]}"):
                    made = self.agep("encrypt", *secret, *work_factor, "-s", "seed", input=plain, status=0).stdout
                    for kind in ("whole", "steps", "ranges"):
                        self.assertEqual(self.convert(kind, "decrypt", *secret, input=made, status=0).stdout, plain, kind)
                    for kind in ("whole", "steps"):
                        self.assertEqual(self.convert(kind, "encrypt", *secret, "3", "seed", input=plain, status=0).stdout, made, kind)
                        fresh = self.convert(kind, "encrypt", *secret, "3", input=plain, status=0).stdout
                        self.assertEqual(self.agep("decrypt", *secret, input=fresh, status=0).stdout, plain, kind)

    def test_examples(self):
        """agep opens files of both examples; stream.c opens those of agep, parallel.c its own."""
        stream = built("stream", *sanitizers(), source=EXAMPLES / "stream.c")
        parallel = built("parallel", "-O2", source=EXAMPLES / "parallel.c")
        for size in SIZES:
            plain = os.urandom(size)
            with self.subTest(f"{size} bytes"):
                made = self.agep("encrypt", "-k", "key", input=plain, status=0).stdout
                self.assertEqual(opened_by(stream, made), plain)
                self.assertEqual(self.agep("decrypt", "-k", "key", input=sealed_by(stream, plain), status=0).stdout, plain)
                (work() / "plain").write_bytes(plain)
                for count in ("1", "3", "64"):
                    run(parallel, "-e", work() / "key", count, work() / "plain", work() / "made", status=0)
                    self.assertEqual(self.agep("decrypt", "-k", "key", "made", status=0).stdout, plain)
                    run(parallel, work() / "key", count, work() / "made", work() / "back", status=0)
                    self.assertEqual((work() / "back").read_bytes(), plain)

    def test_files_that_parallel_refuses(self):
        """No file is lost, and no run that takes only a part of IN has status 0."""
        parallel = built("parallel", "-O2", source=EXAMPLES / "parallel.c")
        (work() / "keep").write_bytes(self.agep("encrypt", "-k", "key", input=b"text", status=0).stdout)
        (work() / "key.other").write_bytes(os.urandom(32))
        os.link(work() / "keep", work() / "same")
        for key, source, sink, line in (
            ("key", "keep", "same", "OUT is IN"),
            ("key", "keep", "key", "OUT is KEY_FILE"),
            ("key.other", "keep", "pass", f"{message('WrongKey')} (0)"),
            ("key", "/dev/null", "pass", "IN cannot be read at offsets"),
            ("key", "/proc/cpuinfo", "made", "IN is longer than its size"),
        ):
            with self.subTest(line):
                before = {name: (work() / name).read_bytes() for name in ("keep", "key", "key.other", "pass")}
                words = () if key == "key.other" else ("-e",)
                done = run(parallel, *words, work() / key, "2", work() / source, work() / sink, status=1)
                self.assertEqual((done.stdout, done.stderr.decode()), (b"", f"parallel: {line}\n"))
                self.assertEqual({name: (work() / name).read_bytes() for name in before}, before)

    def test_a_closed_standard_input(self):
        """If standard input is closed, the key file gets its descriptor, and is not taken for the plaintext."""
        stream = built("stream", *sanitizers(), source=EXAMPLES / "stream.c")
        done = run("sh", "-c", '"$0" -e "$1" <&-', stream, work() / "key", status=2)
        self.assertEqual((done.stdout, done.stderr), (b"", b"usage: stream [-e] KEY_FILE\n"))

    def test_an_empty_passphrase(self):
        """An empty passphrase makes no file."""
        (work() / "none").touch()
        for kind in ("whole", "steps"):
            done = self.convert(kind, "encrypt", "-p", "none", "3", input=b"hello\n", status=26)
            self.assertEqual((done.stdout, done.stderr), (b"", b"passphrase is empty 0\n"))

    def test_a_file_for_another(self):
        """stream.c reports the wrong key."""
        (work() / "key.other").write_bytes(os.urandom(32))
        other = self.agep("encrypt", "-k", "key.other", input=b"text", status=0).stdout
        done = run(built("stream", *sanitizers(), source=EXAMPLES / "stream.c"), work() / "key", input=other, status=1)
        self.assertEqual((done.stdout, done.stderr), (b"", f"stream: {message('WrongKey')} (0)\n".encode()))

    def test_inputs_that_fail(self):
        """stream.c makes no file if its input fails midway, or is a folder."""
        stream = built("stream", *sanitizers(), source=EXAMPLES / "stream.c")
        folder = os.open(work(), os.O_RDONLY)
        self.addCleanup(os.close, folder)
        self.makes_no_file(run(stream, "-e", work() / "key", stdin=folder))
        for length in (0, 10, 65535, 65536, 65537, 131072, 131073):
            with self.subTest(f"{length} bytes"):
                self.makes_no_file(run(built("breaks", "-O2"), length, stream, "-e", work() / "key"))

    def test_outputs_that_fail(self):
        """Each example fails if it cannot write, whatever it writes first."""
        stream = built("stream", *sanitizers(), source=EXAMPLES / "stream.c")
        parallel = built("parallel", "-O2", source=EXAMPLES / "parallel.c")
        for size in SIZES:
            (work() / "plain").write_bytes(os.urandom(size))
            (work() / "made").write_bytes(sealed_by(stream, (work() / "plain").read_bytes()))
            for name, words in (("plain", ("-e",)), ("made", ())):
                with self.subTest(f"{size} bytes, {name}"), open(work() / name, "rb") as source, open("/dev/full", "wb") as full:
                    status = 1 if words or size else 0
                    run(parallel, *words, work() / "key", "3", work() / name, "/dev/full", status=status)
                    done = subprocess.run([stream, *words, work() / "key"], stdin=source, stdout=full, stderr=subprocess.PIPE)
                    self.assertEqual(done.returncode, status, done.stderr)

    def makes_no_file(self, done):
        self.assertEqual((done.returncode, done.stderr), (1, b"stream: read failed\n"))
        self.assertNotEqual(self.agep("decrypt", "-k", "key", input=done.stdout).returncode, 0)

    def test_age(self):
        """A file of age opens. The library makes the files of agep, which age opens (test_interop)."""
        file = (ROOT / "tests/data/passphrase.age").read_bytes()
        for kind in ("whole", "steps", "ranges"):
            self.assertEqual(self.convert(kind, "decrypt", "-p", "pass", input=file, status=0).stdout, fixture.HELLO)

    def test_memory(self):
        """1 GiB through stream.c and back takes at most 4 MiB of memory in each process."""
        stream, peak = with_pkg_config("stream_shared", prefix() / "lib"), built("peak", "-O2")
        words = f"head -c 1073741824 /dev/zero | {peak} sealing {stream} -e key | {peak} opening {stream} key | cmp - <(head -c 1073741824 /dev/zero)"
        run("bash", "-o", "pipefail", "-c", words, cwd=work(), status=0)
        for name in ("sealing", "opening"):
            self.assertIn(int((work() / name).read_text()), range(1, 4097), name)


class Vectors(unittest.TestCase):
    def test_calls(self):
        """Each way to open files in Python and C gives what test vectors and damaged files say."""
        ways = testkit.library_ways(prefix(), built("convert", "-O2"))
        if testkit.x25519() is None:
            print("skipped: test vectors for X25519: Python's package cryptography is missing")
        for way in ways["python"] + ways["c"]:
            with self.subTest(way.name):
                self.assertEqual(test_vectors.differences(way), {})
                self.assertEqual(test_vectors.differences(way, test_damaged_files.cases()), {})


class NewFiles(test_new_file.Cells):
    by = "python"

    def setUp(self):
        os.environ["AGEFILE_LIBRARY"] = str(prefix() / "lib" / SONAME)


class Document(unittest.TestCase):
    def test_python(self):
        """The program in README.md and the first two in bindings/python/README.md run, and print what the pages show."""
        environment = os.environ | {"PYTHONPATH": str(ROOT / "bindings/python"), "AGEFILE_LIBRARY": str(prefix() / "lib" / SONAME)}
        losses = ["65536 bytes from 65536 on are zeros", "do not take this for the whole file"]
        for page, last in ("README.md", []), ("bindings/python/README.md", losses):
            blocks = re.findall(r"^```python\n(.*?)^```$", (ROOT / page).read_text(), re.M | re.S)[:2]
            lines = re.findall(r"print\(.*\)  # (.*)", blocks[0])
            self.assertTrue(lines)
            passphrase = re.search(r'Passphrase\("(.*)"\)', blocks[0])[1].encode()
            (work() / "damaged.age").write_bytes(fixture.changed(fixture.for_passphrase(fixture.PLAIN, passphrase), 70000))
            with self.subTest(page):
                done = run(sys.executable, "-c", "".join(blocks), cwd=work(), env=environment, status=0)
                said = done.stdout.decode().splitlines()
                self.assertEqual((said[: len(lines)], said[len(said) - len(last) :]), (lines, last))

    def test_program(self):
        """The program in docs/C.md decrypts, built by both of its command lines, and reports errors."""
        text = (ROOT / "docs/C.md").read_text()
        (work() / "program.c").write_text(re.findall(r"```c\n(.*?)```", text, re.S)[0])
        lines = re.findall(r"^cc .* program\.c .*", text, re.M)
        self.assertEqual(len(lines), 2)
        plain = b"some text\n" * 200000
        file = run(built("convert", "-O2"), "whole", "encrypt", "-p", "pass", "3", input=plain, cwd=work(), status=0).stdout
        (work() / "pass.line").write_bytes((work() / "pass").read_bytes() + b"\n")
        environment = os.environ | {"PKG_CONFIG_PATH": f"{prefix()}/lib/pkgconfig", "LD_LIBRARY_PATH": f"{prefix()}/lib"}
        for line in lines:
            with self.subTest(line):
                if "pkg-config" in line and shutil.which("pkg-config") is None:
                    self.skipTest("pkg-config missing")
                line = line.replace("/usr/local", str(prefix())).replace("cc ", "cc -Wall -Wextra -Werror ", 1)
                run("bash", "-c", line, cwd=work(), env=environment, status=0)
                for name in ("pass", "pass.line"):
                    self.assertEqual(run("./program", name, input=file, cwd=work(), env=environment, status=0).stdout, plain)
                for cut, said_of in ((150, message("NonceTruncated") + " (0)"), (len(file) - 1, "chunk is damaged (30)")):
                    done = run("./program", "pass", input=file[:cut], cwd=work(), env=environment, status=1)
                    self.assertEqual((done.stdout, done.stderr.decode()), (b"", f"{said_of}\n"))
                self.assertEqual(run("./program", "nowhere", input=file, cwd=work(), env=environment, status=2).stdout, b"")

    def test_loop(self):
        """The loop in docs/C.md seals plaintexts of each size, and fails if a read fails."""
        loop = re.findall(r"```c\n(.*?)```", (ROOT / "docs/C.md").read_text(), re.S)[1]
        (work() / "loop.c").write_text(f"#include <agefile.h>\n#include <stdio.h>\n{loop}{AROUND_THE_LOOP}")
        for standard in ("c99", "gnu17"):
            sealing = built("loop", f"-std={standard}", *sanitizers(), source=work() / "loop.c")
            for size in SIZES:
                with self.subTest(f"{size} bytes, {standard}"):
                    plain, back = os.urandom(size), bytearray(size)
                    made = run(sealing, input=plain, status=0).stdout
                    self.assertEqual(model.decrypt_key(bytearray(made), bytes(32), back), (0, (size, 0, 0)))
                    self.assertEqual(back, plain)
            for length in (0, 65536, 65537):
                self.assertEqual(run(built("breaks", "-O2"), length, sealing).returncode, 1)
