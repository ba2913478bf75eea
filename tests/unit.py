#!/usr/bin/env python3
"""Runs the tests of tests/test_*.py, and prints a line for each check.

usage: tests/unit.py [NAME..]     test_FILE, test_FILE.Class or test_FILE.Class.test_name; or all but ALONE
       tests/unit.py --list       the names of their classes

Each subtest is a check, and so is a test without subtests. The classes run in parallel, each in its own process; but
if a file of ALONE is named as a whole, its classes run in one. The last line is 'N passed, M failed'.
"""

import os
import shutil
import signal
import sys
import tempfile
import traceback
import unittest

sys.dont_write_bytecode = True

import program

# These build something first, which takes long, or test the tools: other scripts run them.
ALONE = {"test_" + name for name in "failing_commands levels library packages releases".split()}


class Result(unittest.TestResult):
    def __init__(self):
        super().__init__()
        self.passed = 0
        self.failed = 0
        self.with_subtests = set()

    def count(self, test, error):
        title = f"{name_of(test)}: {title_of(test)}"
        if error is None:
            self.passed += 1
            print(f"ok: {title}", flush=True)
            return
        self.failed += 1
        kind, value, where = error
        if issubclass(kind, AssertionError):
            text = f"{value}\n"
        else:
            text = "".join(traceback.format_exception(kind, value, where))
        print(f"FAILED: {title}\n{text}".encode("utf-8", "backslashreplace").decode(), flush=True)

    def addSuccess(self, test):
        if test.id() not in self.with_subtests:
            self.count(test, None)

    def addFailure(self, test, error):
        self.count(test, error)

    def addError(self, test, error):
        self.count(test, error)

    def addSubTest(self, test, subtest, error):
        self.with_subtests.add(test.id())
        if error is not None and issubclass(error[0], unittest.SkipTest):
            self.addSkip(subtest, str(error[1]))
            return
        self.count(subtest, error)

    def addSkip(self, test, reason):
        self.with_subtests.add(test.id())
        print(f"skipped: {title_of(test)}: {reason}", flush=True)


def name_of(test):
    """The file and the class of a test."""
    test = getattr(test, "test_case", test)
    return f"{type(test).__module__}.{type(test).__name__}"


def title_of(test):
    if hasattr(test, "test_case"):
        return f"{title_of(test.test_case)}: {test._message}"
    return (getattr(test, "shortDescription", lambda: None)() or test.id().rstrip(")").split(".")[-1]).rstrip(".")


def modules():
    names = sorted(name[:-3] for name in os.listdir(program.TESTS) if name.startswith("test_") and name.endswith(".py"))
    return [name for name in names if name not in ALONE]


def classes(suite, found):
    """The tests of each class."""
    for test in suite:
        if isinstance(test, unittest.TestSuite):
            classes(test, found)
        else:
            found.setdefault(name_of(test), unittest.TestSuite()).addTest(test)
    return found


class Apart:
    """A class of tests that runs in a process of its own."""

    def __init__(self, name, tests):
        self.name, self.folder = name, tempfile.mkdtemp()
        os.chmod(self.folder, 0o755)  # some tests run the program as another user
        self.process = os.fork()
        if self.process == 0:
            tempfile.tempdir = self.folder
            self.run(tests)

    def run(self, tests):
        """Runs the tests, with their output in a file, and ends the process."""
        status, said = 1, os.open(self.folder + "/said", os.O_CREAT | os.O_WRONLY)
        for file, number in (os.open(os.devnull, os.O_RDONLY), 0), (said, 1), (said, 2):
            os.dup2(file, number)
        try:
            result = Result()
            tests.run(result)
            print(f"{result.passed} {result.failed}", flush=True)
            status = 0
        except BaseException:
            traceback.print_exc()
        os._exit(status)

    def counts(self, status):
        """Prints the output of the tests, and returns how many checks passed and failed."""
        *lines, last = program.read(self.folder + "/said").decode("utf-8", "backslashreplace").rstrip("\n").split("\n")
        shutil.rmtree(self.folder, ignore_errors=True)
        print(*lines, sep="\n", flush=True)
        if status == 0:
            return map(int, last.split())
        print(f"FAILED: {self.name} ended early: {last}", flush=True)
        return 0, 1


def run_all(found):
    """Runs the classes in parallel, and adds up their checks."""
    passed = failed = 0
    program.fixture_folder()
    waiting, running = list(found.items()), {}
    while waiting or running:
        if waiting and len(running) < program.AT_A_TIME:
            started = Apart(*waiting.pop(0))
            running[started.process] = started
            continue
        process, status = os.wait()
        more, wrong = running.pop(process).counts(status)
        passed, failed = passed + more, failed + wrong
    return passed, failed


def main():
    # A shell starts background jobs with SIGINT ignored, and the programs would inherit that.
    signal.signal(signal.SIGINT, signal.default_int_handler)
    os.chdir(program.TESTS)
    sys.path.insert(0, program.TESTS)
    names = [name for name in sys.argv[1:] if name != "--list"] or modules()
    found = {}
    for name in names:
        tests = unittest.TestLoader().loadTestsFromName(name)
        found |= {name: tests} if name in ALONE and "--list" not in sys.argv[1:] else classes(tests, found)
    if "--list" in sys.argv[1:]:
        print(*found, sep="\n")
        return 0
    program.build()
    passed, failed = run_all(found)
    print(f"{passed} passed, {failed} failed")
    return failed > 0


if __name__ == "__main__":
    sys.exit(main())
