#!/usr/bin/env python3
"""Tries cells of new_file.py: those of the program, and for test_library.py those of Python.

usage: tests/test_new_file.py [WORD..]     prints the cells with these words that differ

The workers run with calls.c preloaded and, if root starts them, as nobody, because root may do everything.
The program and the forked child that calls the package inherit this, so the same calls fail in both."""

import contextlib
import fcntl
import functools
import io
import os
import shutil
import signal
import subprocess
import sys
import unittest

import fixture
import new_file
import program
from fixture import KEY, NEW_KEY, PLAIN, SALT, SEED
from messages import filled
from program import read, write

TRIED = os.environ.get("TRIED", program.AGEP)
SAVED = PLAIN[:131072] + bytes(len(PLAIN) - 131072)
# The key for which each job seals, and the further arguments of the program.
SEALS = {"encrypt": KEY, "open": KEY, "rewrap": NEW_KEY}
WORDS = {"encrypt": ("-s", "seed"), "rewrap": ("-K", "new.key", "-s", "seed"), "range": ("0", str(len(PLAIN)))}
MODES = {"usual": 0o755, "unwritable": 0o555, "unreadable": 0o333}
# How OUT and OUT.agep-new are made; a kind that is not here is a file with the text "old".
MAKES = {
    **dict.fromkeys(("absent", "null", "full"), lambda name: None), "empty": lambda name: write(name, b""),
    "fifo": os.mkfifo, "folder": os.mkdir, "dangling": lambda name: os.symlink("nowhere", name),
    "link": lambda name: (write("d/target", b"old"), os.symlink(os.path.abspath("d/target"), name)),
    "in": lambda name: os.rename("IN.age", name), "hard": lambda name: os.link("IN.age", name),
    "key": lambda name: os.rename("key", name), "second": lambda name: os.link("theirs", name),
    "linked": lambda name: os.link(name[:-9], name),
}
# The fault of the program, what Python says, and what the program says besides.
TOLD = {
    "exists": ("OutputExists: OUT", "FileExistsError"), "source": ("OutputIsRead: Input, OUT", "ValueError"),
    "special": ("OutputIsSpecial: OUT", "ValueError"), "create": ("CannotCreate: OUT", "OSError"),
    "busy": ("OutputIsBusy: OUT", "BlockingIOError"), "stays": ("NewFileExists: NEW", "OSError"),
    "read": ("Read", "OSError"), "write": ("Write", "OSError"), "not synced": ("Write", "replaced", "replaced"),
    "lost": ("", "chunk 2 is lost", "chunk 2 is lost"), "given up": ("", "is not whole"),
}
held = []


@functools.cache
def sealed(key):
    return fixture.for_keys(PLAIN, key)


class Place:
    """The files of a cell, in the current folder."""

    def __init__(self, c):
        self.cell, self.pipe = c, None
        out = {"in": "d/IN.age", "link": "out", "null": "/dev/null", "full": "/dev/full"}
        self.out = out.get(c.out, "d/out")
        self.real = {"link": "d/target", "dangling": "d/nowhere"}.get(c.out, self.out)
        self.new = self.real + ".agep-new"
        self.source = "./" + self.out if c.out == "in" else self.new if c.new == "in" else "IN.age"
        os.mkdir("d")
        for name, text in ("key", KEY), ("new.key", NEW_KEY), ("seed", SEED), ("theirs", b"theirs"):
            write(name, text)
        write("IN.age", PLAIN if SEALS.get(c.job) == KEY else sealed(KEY))
        for kind, name in (c.out, self.out), (c.new, self.new):
            MAKES.get(kind, lambda name: write(name, b"old"))(name)
            if kind in ("written", "busy"):
                self.locked = open(name, "rb")
                fcntl.flock(self.locked, fcntl.LOCK_EX)
        if c.out == "readonly":
            os.chmod(self.out, 0o444)
        if c.out == "fifo":
            self.pipe = open(os.open(self.out, os.O_RDONLY | os.O_NONBLOCK), "rb", 0)
            fcntl.fcntl(self.pipe, fcntl.F_SETPIPE_SZ, 1 << 20)
        self.before = self.look()

    def look(self):
        """What OUT has, which file OUT.agep-new is, and all other files: their bytes or targets."""
        if self.pipe:
            text = b"".join(iter(lambda: self.pipe.read(1 << 20) or b"", b""))
        else:
            text = read(self.real) if os.path.isfile(self.real) else b"" if os.path.lexists(self.real) else None
        names = {f"{folder}/{name}"[2:] for folder, _, names in os.walk(".") for name in names}
        others = {it: os.readlink(it) if os.path.islink(it) else read(it) for it in names - {self.real, self.new}}
        return text, os.lstat(self.new)[:2] if os.path.lexists(self.new) else None, others

    def differs(self, status, said, expected):
        """How the files and the report of a run differ from the model."""
        (text, new, others), (old, was, before) = self.look(), self.before
        whole = sealed(SEALS[self.cell.job]) if self.cell.job in SEALS else PLAIN
        texts = {"absent": None, "empty": b"", "theirs": b"theirs", "old": old, "saved": SAVED, "new": whole}
        if expected.out == "front" and text != whole and whole.startswith(text or b"-"):
            texts["front"] = text
        if expected.out not in texts or text != texts[expected.out]:
            yield f"OUT is not {expected.out}"
        if not {"absent": new is None, "same": new == was, "left": new is not None}[expected.new]:
            yield f"OUT.agep-new is {new}, not {expected.new}"
        if not self.is_told(status, said, expected.told):
            yield f"told {status} {said}, not {expected.told}"
        if others != before:
            yield f"changed: {[name for name in others | before if others.get(name) != before.get(name)]}"

    def is_told(self, status, said, why):
        if why in (None, "killed"):
            return (status, said) == (-9 if why else 0, "")
        fault, words, *more = TOLD[why]
        if why == "write" and "replaced" in said:
            return False
        if self.cell.by == "python":
            return status == 0 and words in said
        line = filled(f"agep: <{fault}>".replace("OUT>", f"{self.out}>").replace("NEW>", f"{self.new}>"))
        said = said.replace(os.getcwd() + "/", "")
        return status == 1 and (not fault or said.startswith(line)) and all(it in said for it in more)


def ran(c, place, env):
    """Does the job of a cell. Returns the status and what was told."""
    os.chmod("d", MODES[c.folder])
    told_in, told_out = os.pipe()
    if c.by == "agep":
        words = [TRIED, c.job, "-v", "-k", place.new if c.new == "key" else "key", *WORDS.get(c.job, ())]
        words += [*filter(None, (c.atomic, c.n)), "-o", place.out, place.source]
        child = os.posix_spawn(TRIED, words, {**os.environ, **env}, file_actions=[(os.POSIX_SPAWN_DUP2, told_out, 2)])
    elif (child := os.fork()) == 0:
        os.environ.update(env)
        os.dup2(told_out, 2)
        try:
            by_python(c, place)
        except Exception as error:
            print(type(error).__mro__, error, file=sys.stderr)
        # The package must have flushed a buffer of the caller: _exit loses what is left in it.
        sys.exit() if c.end in new_file.GIVEN_UP else os._exit(0)
    os.close(told_out)
    with open(told_in) as file:
        said = file.read()
    status = os.waitstatus_to_exitcode(os.waitpid(child, 0)[1])
    os.chmod("d", 0o755)
    return status, said


def by_python(c, place):
    os.urandom = io.BytesIO(SALT if c.job == "rewrap" else SEED).read
    sink = place.out if c.sink == "name" else os.open(place.out, os.O_WRONLY | os.O_CREAT | os.O_TRUNC)
    if c.sink == "buffer":
        held.append(sink := open(sink, "wb", 1 << 15))
    source, key, atomic = place.source, KEYS[0], bool(c.atomic)
    if c.job == "rewrap":
        agefile.rewrap_copy(source, sink, identities=key, recipients=KEYS[1], atomic=atomic)
    elif c.job == "salvage":
        if not agefile.salvage(source, sink, identities=key, atomic=atomic).whole:
            print("chunk 2 is lost", file=sys.stderr)
    elif c.job != "open":
        agefile.copy(source, sink, **{"recipients" if c.job == "encrypt" else "identities": key}, atomic=atomic)
    else:
        write_in_python(c, agefile.open(sink, "xb" if c.n else "wb", recipients=key, atomic=atomic))


def write_in_python(c, file):
    if c.end in new_file.GIVEN_UP:
        file.write(PLAIN)
        # Python runs no finalizer of what sys holds.
        sys.held = file if c.end == "held" else None
        with contextlib.suppress(ValueError):
            return file.close() if c.end == "closed" else None
    with file:
        file.write(PLAIN[:100] if c.end == "early" else PLAIN)
        if c.end in ("early", "late"):
            raise OSError("midway")


def environment(c, place):
    """The variables by which calls.c brings about the end of a cell."""
    how, *call = c.end.split()
    if how in ("early", "late") and c.job != "open":
        return {"BAD": f"{0 if how == 'early' else 135000} 200000"}
    what = {"fail": "5", "kill": "kill", "made": f"ln theirs {place.real}"}
    what["beside"] = f"! {TRIED} encrypt -k key --atomic -o {place.out} theirs 2>/dev/null"
    env = {"AFTER": "link" if c.n else "rename"} if "statx" in call else {}
    return {"CALL": call[0], "NUMBER": call[1], "DO": what[how], **env} if call else {}


def tried(c):
    """How the job of a cell, done in the current folder, differs from the model."""
    place, expected = Place(c), new_file.after(c)
    env = environment(c, place)
    found = ran(c, place, env)
    if "CALL" in env:
        if not os.path.exists("met"):
            return [f"there is no {c.end}"]
        os.remove("met")
    how = [*place.differs(*found, expected)]
    if not how and c.atomic and c.end != "whole" and expected.new != "absent" and expected.told != "stays":
        again = new_file.then(c)
        place.before = place.look()
        how += (f"then: {it}" for it in place.differs(*ran(again, place, {}), new_file.after(again)))
    return how


def chosen(words):
    return [c for c in new_file.cells() if {*words} <= {*c, c.end.replace(" ", "-")}]


def work(home, at, *words):
    """Tries every AT_A_TIME-th cell, from number `at` on. Prints those that differ, then how many it tried."""
    os.umask(0o022)
    if os.geteuid() == 0:
        os.setgroups([]), os.setgid(65534), os.setuid(65534)
    count = 0
    for count, c in enumerate(chosen(words)[int(at) :: program.AT_A_TIME], 1):
        name = f"{home}/{at}.{count}"
        os.mkdir(name)
        os.chdir(name)
        # This ends a worker whose job waits for ever.
        signal.alarm(600)
        if how := tried(c):
            print(*c, "::", "; ".join(how).replace("\n", " "), flush=True)
        shutil.rmtree(name)
    print(count)


def differing(*words):
    """The lines about the cells with these words that differ."""
    home, library = program.scratch(), program.preload("calls")
    os.chmod(home, 0o777), os.chmod(os.path.dirname(library), 0o755)
    how = {"env": {**os.environ, "LD_PRELOAD": library}, "stdin": subprocess.DEVNULL, "stdout": subprocess.PIPE, "text": True}
    started = [[sys.executable, __file__, "--work", home, str(at), *words] for at in range(program.AT_A_TIME)]
    lines = [each.communicate()[0].splitlines() for each in [subprocess.Popen(it, **how) for it in started]]
    # A worker that ends early prints no count as its last line.
    if sum(int(each.pop()) for each in lines) != len(chosen(words)):
        raise AssertionError("not all cells were tried")
    return sum(lines, [])


class Cells(unittest.TestCase):
    by = "agep"

    def test_each(self):
        self.assertEqual(differing(self.by), [])


if __name__ == "__main__":
    if "AGEFILE_LIBRARY" in os.environ:
        sys.path.insert(0, os.environ.get("PACKAGE", program.ROOT + "/bindings/python"))
        import agefile

        KEYS = [agefile.Key(KEY), agefile.Key(NEW_KEY)]
    if sys.argv[1:2] == ["--work"]:
        work(*sys.argv[2:])
    else:
        print(*differing(*sys.argv[1:]), "", sep="\n", end="")
        print(len(chosen(sys.argv[1:])), "cells,", sum(os.times()[2:4]), "s of processor time")
