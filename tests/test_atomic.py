"""`--atomic` and `--no-clobber`: whatever fails, OUT is the old file or the complete new one, and no new
file is left, except where a test says otherwise."""

import fcntl
import itertools
import os
import shutil
import subprocess
import unittest

import fixture
from fixture import HELLO, with_other_mac
from messages import message
from program import AGEP, IO_ERROR, OPENING, ProgramCase, fault, preload, read, wait_for, write
from test_calls import LONG_PLAIN, NEW, YESTERDAY, CallCase
from test_files import Files


class Calls(CallCase):
    def test_saved(self):
        """If a read fails and OUT's folder cannot be synced, both faults are shown, and OUT has what was saved."""
        write("made", YESTERDAY)
        os.link("key.age", "IN.age")
        env = {"LD_PRELOAD": preload("calls"), "BAD": "70000 200000", "CALL": "fsync", "NUMBER": "2", "DO": IO_ERROR}
        both = fault("read failed", "reading standard input: Input/output error")
        both += fault("write failed", "OUT was replaced; syncing its folder .: Input/output error")
        self.assert_ended(self.run_line("salvage -v -k key --atomic -o made <IN.age", env=env), 1, both)
        self.assert_file("made", LONG_PLAIN[:65536])

    def test_order(self):
        """The new file gets its owner, then its permissions, and then its contents. If OUT is a link, the folder of the
        link's target is synced."""
        os.mkdir("other")
        write("other/target", YESTERDAY)
        os.symlink("other/target", "linked")
        env = {"LD_PRELOAD": preload("calls"), "TRACE": "order"}
        self.assert_ended(self.run_line("decrypt -k key --atomic -o linked key.age", env=env))
        calls = self.changes("order")
        self.assertEqual([kind for kind, name, _ in calls if name == "target.agep-new"][:3], ["fchown", "fchmod", "ftruncate"])
        self.assertEqual(calls[-2:], [("rename", "target.agep-new", 0), ("fsync", "other", 0)])

    def test_left(self):
        """A new file that cannot be removed stays. The next run removes it, or is refused if it cannot."""
        for call in ("write", "fsync", "rename", "fchmod"):
            with self.subTest(call):
                write("made", YESTERDAY)
                os.chmod("made", 0o640)
                env = {"LD_PRELOAD": preload("calls"), "KEPT": "1", "CALL": call, "NUMBER": "1", "DO": IO_ERROR}
                words = "encrypt", "-v", "-k", "key", "-s", "seed", "--atomic", "-o", "made", "plain"
                self.assertEqual(self.run_agep(*words, env=env).status, 1)
                mode = os.stat(NEW).st_mode & 0o777
                self.assertEqual(f"{mode:o}", "600" if call == "fchmod" else "640", "before it has the mode of OUT, only its owner may read it")
                self.says(message("NewFileExists", NEW), *words, env=env)
                self.assert_file("made", YESTERDAY)
                self.writes(b"", *words)
                self.assertFalse(os.path.exists(NEW))


class Runs(ProgramCase):
    WORDS = "decrypt -v -k key --atomic -o made key.age".split()

    def start(self, *words):
        return subprocess.Popen([AGEP, *words], stdin=subprocess.PIPE, stderr=subprocess.PIPE)

    def test_at_once(self):
        """Of several runs at once on one OUT, exactly one succeeds, and OUT is its file."""
        write("made", YESTERDAY)
        runs = [self.start("encrypt", "-k", "key", "-s", "seed", "--atomic", "-o", "made") for _ in range(20)]
        wait_for(lambda: sum(run.poll() is None for run in runs) == 1)
        (last,) = (run for run in runs if run.poll() is None)
        self.assert_file("made", YESTERDAY)
        for run in runs:
            if run is not last:
                self.assertEqual((run.returncode, run.communicate()[1]), (1, fault(message("OutputIsBusy", "made")).encode()))
        self.assertEqual((last.communicate(HELLO)[1], last.returncode), (b"", 0))
        self.assert_file("made", read("key.age"))
        self.assertFalse(os.path.exists(NEW))

    def test_two(self):
        """Two runs at once, 200 times, half the times beside a killed run's file: one or both succeed."""
        for count in range(200):
            write("made", YESTERDAY)
            if count % 2:
                write(NEW, b"half")
            runs = [self.start(*self.WORDS) for _ in range(2)]
            ended = {(run.communicate()[1].decode(), run.returncode) for run in runs}
            self.assertIn(("", 0), ended)
            self.assertLessEqual(ended, {("", 0), (fault(message("OutputIsBusy", "made")), 1)})
            self.assert_file("made", HELLO)
            self.assertFalse(os.path.exists(NEW))

    def each_call(self, what):
        """Yields runs with this shell command before the first call, before the second, and so on."""
        for number in itertools.count(1):
            for name in (NEW, "made", "met"):
                self.run_agep("-rf", name, program="rm")
            write("made", YESTERDAY)
            env = {"LD_PRELOAD": preload("calls"), "CALL": "any", "NUMBER": str(number), "DO": what}
            ran = self.run_agep(*self.WORDS, env=env)
            if not os.path.exists("met"):
                break
            with self.subTest(f"{what}, call {number}"):
                yield ran
        self.assertGreater(number, 15)

    def test_changed_names(self):
        """Before any call another program removes the new file, or puts its own locked file, a link or a folder there: with
        status 0 OUT is the run's file, otherwise it is as it was, and what the other program put there stays. Only a file
        or link put there right before the rename becomes OUT, with status 1."""
        write("theirs", b"theirs")
        os.mkdir("theirs.d")
        with open("theirs") as file:
            fcntl.flock(file, fcntl.LOCK_EX)
            kept = os.stat("theirs")
            for what in ("", f"ln theirs {NEW}", f"ln -s theirs {NEW}", f"mkdir {NEW}"):
                unseen = []
                for ran in self.each_call(f"rm -f {NEW}; {what}"):
                    if read("made") == b"theirs":
                        unseen.append(ran.status)
                        continue
                    self.assert_file("made", YESTERDAY if ran.status else HELLO)
                    self.assertEqual(os.path.lexists(NEW), bool(what))
                    if what.startswith("ln theirs"):
                        self.assertTrue(os.path.samestat(os.lstat(NEW), kept))
                    found = os.stat("theirs")
                    self.assertEqual((found.st_mode, found.st_uid, found.st_gid), (kept.st_mode, kept.st_uid, kept.st_gid))
                    self.assert_file("theirs", b"theirs")
                self.assertEqual(unseen, [1] if what.startswith("ln ") else [])


class Atomic(Files):
    def test_losses(self):
        """What `salvage` saved takes the place of OUT, although chunks are lost. Without a saved chunk OUT is as
        it was."""
        write("lost.age", fixture.changed(read("two.age"), 160))
        lost = "chunk 1 is lost: bytes 65536 to 65536 of the plaintext", "the file ends after 17 bytes of chunk 1: more may be missing"
        none = "chunks 0 to 1 are lost: bytes 0 to 65536 of the plaintext", lost[1]
        header = "the header was changed: the chunks were tried with the key that fits"
        write("changed.age", with_other_mac(read("two.age")))
        plain = read("two_chunks")
        for name, lines, expected in (
            ("damaged_two.age", lost, plain[:65536] + b"\0"), ("changed.age", (header,), plain), ("lost.age", none, None), ("damaged.age", None, None),
        ):
            for old in (YESTERDAY, None):
                with self.subTest(f"{name}, {'an' if old else 'no'} OUT was there"):
                    if old:
                        write("made", old)
                    ran = self.run_line(f"salvage -k key --atomic -o made {name}")
                    if lines:
                        self.assert_ended(ran, 1, "".join(map(fault, lines)))
                    self.assertEqual(ran.status, 1)
                    self.assertFalse(os.path.exists(NEW))
                    if expected or old:
                        self.assert_file("made", expected or old)
                        os.remove("made")
                    self.assertFalse(os.path.exists("made"))

    def test_modes(self):
        """A new file has the permissions, the owner and the group of the old one. If the system does not let the owner
        be kept, the group is kept; if neither can be, the new file's group gets no permission."""
        mine = os.geteuid(), os.getegid()
        other = (65534, 65533) if mine[0] == 0 else mine
        for mode, umask, (refused, kept, owner) in itertools.product(
            (0o640, 0o604, 0o666, 0o664, 0o400, 0o4755, 0o2755, 0o1777), (0o000, 0o077),
            (("none", 0o777, other), ("1", 0o777, (mine[0], other[1])), ("0", 0o707, mine)),
        ):
            with self.subTest(f"{mode:o}, umask {umask:03o}, fchown refused: {refused}"):
                write("made", YESTERDAY)
                os.chown("made", *other)
                os.chmod("made", mode)
                env = {} if refused == "none" else {"LD_PRELOAD": preload("calls"), "CALL": "fchown", "NUMBER": refused, "DO": "1"}
                self.assert_ended(self.run_line("decrypt -k key --atomic -o made key.age", umask=umask, env=env))
                found = os.stat("made")
                self.assertEqual((f"{found.st_mode & 0o7777:o}", found.st_uid, found.st_gid), (f"{mode & kept:o}", *owner))
                os.remove("made")

    @unittest.skipUnless(os.geteuid() == 0 and shutil.which("setfacl"), "needs root and acl")
    def test_acl(self):
        """What docs/USE.md says of ACLs: only with --atomic, the group gets the rights of the mask of OUT's ACL, and
        users named in the folder's default ACL get their rights as far as the group has them."""
        def readers(out, options):
            """Whether group 100, and whether user 65534, can read OUT after a run."""
            self.assert_ended(self.run_line(f"decrypt -k key {options}-o {out} key.age"))
            ids = (("user", 1234), ("group", 100)), (("user", 65534), ("group", 65534))
            return [subprocess.run(["cat", out], capture_output=True, extra_groups=[], **dict(each)).returncode == 0 for each in ids]

        os.chmod(self.folder, 0o755)
        for options, theirs, named in (("", [False, True], [True, False]), ("--atomic ", [True, False], [True, True])):
            os.mkdir("acl")
            for name in ("acl/out", "acl/moved"):
                write(name, YESTERDAY)
                os.chown(name, 0, 100)
                os.chmod(name, 0o640)
            subprocess.run(["setfacl", "-m", "u:65534:r,g::-", "acl/out"], check=True)
            subprocess.run(["setfacl", "-d", "-m", "u:65534:r", "acl"], check=True)
            with self.subTest(options):
                self.assertEqual(readers("acl/moved", options), named)
                subprocess.run(["setfacl", "-k", "acl"], check=True)
                self.assertEqual(readers("acl/out", options), theirs)
                self.assertEqual(readers("acl/new", options), [False, False])
            shutil.rmtree("acl")

    def test_special(self):
        """A name of a folder or of standard output is refused, and so is one for which no new file can be made."""
        for name in ("folder/", ".", "/dev/stdout"):
            with self.subTest(name):
                self.changes_nothing(f"OutputIsSpecial: {name}", f"decrypt -k key --atomic -o {name} key.age")
        long = "x" * 250
        for name, made, reason in (
            ("absent/made", "absent/made.agep-new", "No such file or directory"), ("", "", "No such file or directory"),
            ("hello/made", "hello/made", "Not a directory"), ("hello/", "hello/", "Not a directory"),
            (long, f"{long}.agep-new", "File name too long"), (long + long, long + long, "File name too long"),
        ):
            with self.subTest(name[:20]):
                self.changes_nothing(f"CannotCreate: {name}", f"decrypt -v -k key --atomic -o '{name}' key.age", more=f"creating {made}: {reason}")


class NoClobber(Files):
    def test_exists(self):
        """An existing OUT is refused before anything is read."""
        for option in ("-n", "--no-clobber", "-n --atomic"):
            for command in ("encrypt -k absent", "decrypt", *OPENING):
                with self.subTest(f"{command} {option}"):
                    self.changes_nothing("OutputExists: yesterday", f"{command} {option} -o yesterday absent")
