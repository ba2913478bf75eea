"""Shared by the tests of the built program: the program, ways to run it, scratch folders."""

import atexit
import os
import re
import resource
import shutil
import subprocess
import sys
import tempfile
import time
import unittest

sys.dont_write_bytecode = True

import fixture
from messages import filled

TESTS = os.path.dirname(os.path.abspath(__file__))
ROOT = os.path.dirname(TESTS)
AGEP = os.path.join(ROOT, "crates", "agep", "out", "agep")
# The commands that unwrap IN's file key, with a key and with a passphrase. IN must follow them.
OPENING = ("decrypt -k key", "range -k key 0 1", "rewrap -k key -K key", "salvage -k key")
BY_PASSPHRASE = ("decrypt -p pass", "range -p pass 0 1", "rewrap -p pass -K key", "salvage -p pass")
# The levels of processor for which the packages contain builds, lowest first.
LEVELS = ("x86-64", "x86-64-v3", "x86-64-v4")
IO_ERROR, NO_SPACE, INTERRUPTED = "5", "28", "4"
# The tests give up after so many seconds without progress.
PATIENCE = 600
# How many programs run at a time: by default half as many as processors, because other scripts run meanwhile.
AT_A_TIME = int(os.environ.get("AT_A_TIME", max(1, (os.cpu_count() or 1) // 2)))


def build():
    """Builds the program if it is not current; ends the process if that fails."""
    if subprocess.run([ROOT + "/agep", "--version"], stdout=subprocess.DEVNULL).returncode != 0:
        print("0 passed, 1 failed")
        sys.exit(1)


def scratch():
    """A folder that is deleted when the process ends."""
    folder = tempfile.mkdtemp()
    atexit.register(shutil.rmtree, folder, ignore_errors=True)
    return folder


def memory():
    """A fast folder in memory, or None if we cannot write files or run programs there, or it lacks space."""
    has_room = os.access("/dev/shm", os.W_OK) and shutil.disk_usage("/dev/shm").free > 1 << 30
    return "/dev/shm" if has_room and not os.statvfs("/dev/shm").f_flag & os.ST_NOEXEC else None


def made_once(make):
    """The function, but later calls return the result of the first."""
    kept = []
    return lambda: kept[0] if kept else kept.append(make()) or kept[0]


@made_once
def fixture_folder():
    """The folder of fixture.py, which tests/unit.py makes once for all of its processes."""
    if "FIXTURE" not in os.environ:
        os.environ["FIXTURE"] = scratch() + "/fixture"
        fixture.make(os.environ["FIXTURE"])
    return os.environ["FIXTURE"]


def copy_fixture(folder):
    shutil.copytree(fixture_folder(), folder, symlinks=True)


@made_once
def levels_here():
    """Those of LEVELS that this machine's processor has."""
    script = f'root={ROOT}; . "$root/share/build.sh"; runs "$0"'
    return [level for level in LEVELS if subprocess.run(["sh", "-c", script, level]).returncode == 0]


@made_once
def version():
    """The newest version in CHANGELOG.md."""
    return re.search(r"^## (\d[\d.]*)", read(ROOT + "/CHANGELOG.md").decode(), re.MULTILINE)[1]


def read(name):
    with open(name, "rb") as file:
        return file.read()


def write(name, text):
    with open(name, "wb") as file:
        file.write(text)


libraries = {}


def preload(name):
    """The library of tests/NAME.c, for LD_PRELOAD."""
    if name not in libraries:
        made = f"{scratch()}/{name}.so"
        words = ["cc", "-shared", "-fPIC", "-o", made, f"{TESTS}/{name}.c", "-ldl"]
        try:
            subprocess.run(words, check=True)
        except FileNotFoundError:
            raise AssertionError("without a C compiler, no call can be refused or made to fail") from None
        libraries[name] = made
    return libraries[name]


class Ran:
    """The status and the output of a run of the program."""

    def __init__(self, words, done):
        self.words = words
        self.status = done.returncode
        self.out = done.stdout or b""
        self.err = done.stderr or b""


def fault(line, more=None):
    """What a fault prints on standard error."""
    return f"agep: {line}\n" + (f"agep: {more}\n" if more else "")


def usage_error(text, usage=None):
    """What a refused command line prints on standard error."""
    usage = f"Usage: agep {usage}\n\n" if usage else ""
    return f"error: {text}\n\n{usage}For more information, try '--help'.\n"


def wait_for(is_met):
    ends = time.monotonic() + PATIENCE
    while not is_met():
        if time.monotonic() > ends:
            raise AssertionError(f"it did not come in {PATIENCE} seconds")
        time.sleep(0.01)


def shown(data):
    """Bytes, as a failure message shows them."""
    text = data.decode("utf-8", "backslashreplace")
    return text if len(text) <= 2000 else f"{text[:1000]!r} .. {text[-200:]!r} ({len(data)} bytes)"


class ProgramCase(unittest.TestCase):
    """Tests that run the program in a folder of their class, a copy of the fixture."""

    longMessage = True

    @classmethod
    def setUpClass(cls):
        cls.folder = scratch() + "/work"
        copy_fixture(cls.folder)

    @classmethod
    def tearDownClass(cls):
        shutil.rmtree(cls.folder)

    def setUp(self):
        os.chdir(self.folder)
        self.addCleanup(os.chdir, "/")

    def run_agep(self, *words, input=b"", env=None, memory=None, program=AGEP, **more):
        """Runs the program. `input` is bytes or an open file."""
        if isinstance(input, bytes) and "stdin" not in more:
            more["input"] = input
        elif "stdin" not in more:
            more["stdin"] = input
        more.setdefault("stdout", subprocess.PIPE)
        more.setdefault("stderr", subprocess.PIPE)
        if memory is not None:
            more["preexec_fn"] = lambda: resource.setrlimit(resource.RLIMIT_AS, (memory, memory))
        environment = {**os.environ, **(env or {})}
        done = subprocess.run([program, *words], env=environment, timeout=600, **more)
        return Ran(words, done)

    def assert_bytes(self, got, expected, what="standard output"):
        """Compares bytes, and shows how they differ."""
        if got == expected:
            return
        if len(got) + len(expected) <= 4000:
            self.assertEqual(shown(got), shown(expected), what)
        at = next((i for i, (a, b) in enumerate(zip(got, expected)) if a != b), min(len(got), len(expected)))
        self.fail(
            f"{what}: {len(got)} bytes came and {len(expected)} were expected; they differ from byte {at} on:"
            f" {got[at : at + 16]!r}, not {expected[at : at + 16]!r}"
        )

    def assert_ended(self, ran, status=0, err="", out=b""):
        """Compares the status and output of a run; `out` None stands for any standard output."""
        expected = err if isinstance(err, bytes) else err.encode()
        words = " ".join(map(str, ran.words))
        came = f"status {ran.status}\n{shown(ran.err)}"
        self.assertEqual(came, f"status {status}\n{shown(expected)}", f"agep {words}")
        self.assert_bytes(ran.err, expected, "standard error")
        if out is not None:
            self.assert_bytes(ran.out, out, f"standard output of agep {words}")

    def says(self, line, *words, more=None, out=b"", **how):
        """Runs the program, which must end with this fault and have written exactly this."""
        self.assert_ended(self.run_agep(*words, **how), 1, fault(line, more), out)

    def run_line(self, line, **how):
        """Runs the program with the arguments and redirections of a line of bash, and an empty standard input."""
        ran = self.run_agep("-c", f'exec "$0" {line}', AGEP, program="bash", stdin=subprocess.DEVNULL, **how)
        ran.words = [line]
        return ran

    def line_says(self, name, line, more=None, out=b"", **how):
        """Runs a line, which must end with the fault of this name and words, written as in transcripts, and
        have written exactly this."""
        expected = filled(f"agep: <{name}>") + "\n" + (f"agep: {more}\n" if more else "")
        self.assert_ended(self.run_line(line, **how), 1, expected, out)

    def writes(self, out, *words, **how):
        """Runs the program, which must succeed and have written exactly this."""
        self.assert_ended(self.run_agep(*words, **how), 0, "", out)

    def assert_file(self, name, expected):
        self.assert_bytes(read(name), expected, name)
