"""What protects a user's files, for each command: existing OUTs, files that are read, modes."""

import os
import unittest

from fixture import HELLO
from messages import message
from program import BY_PASSPHRASE, IO_ERROR, OPENING, ProgramCase, fault, preload, read, write

WRITING = ("encrypt -k key hello", "range -k key 0 5 key.age", *(f"{command} key.age" for command in OPENING))


ROLES = {"-p": "Passphrase", "-k": "Key", "-P": "NewPassphrase", "-K": "NewKey", "-s": "Seed", "-f": "FileKey"}


def lines():
    """Each command with each option that names a file to read."""
    yield from ("encrypt -p pass -s seed hello", "encrypt -k other.key -k key -s seed hello", "inspect -f file.key key.age")
    for secrets, source in ("-p other.pass -p pass", "pass.age"), ("-k other.key -k key", "key.age"):
        for command in ("decrypt", "range 0 5", "salvage", "rewrap -P new.pass -s seed", "rewrap -K third.key -K new.key -s seed"):
            yield f"{command} {secrets} {source}"


def roles(line):
    """The role and the name of each file that a line reads. The last word is IN."""
    *words, source = line.split()
    return [(ROLES[option], name) for option, name in zip(words, words[1:]) if option in ROLES] + [("Input", source)]


class Files(ProgramCase):
    def files(self):
        """The bytes and the time of each file in the folder but `met`, which calls.c makes."""
        return {entry.name: (read(entry.path), entry.stat().st_mtime_ns) for entry in os.scandir(".") if entry.is_file() and entry.name != "met"}

    def changes_nothing(self, name, line, **how):
        """Runs a line, which must end with the fault of this name, and create and change no file."""
        before = self.files()
        self.line_says(name, line, **how)
        after = self.files()
        self.assertEqual([it for it in before | after if before.get(it) != after.get(it)], [], "these files were changed")


class Out(Files):
    def setUp(self):
        super().setUp()
        write("old", read("yesterday"))
        os.utime("old", (10**9, 10**9))
        write("mixed.age", read("empty_pass.age").replace(b"-> ", b"-> x\n\n-> ", 1))

    def test_kept(self):
        """If nothing was written, an existing OUT stays as it was, and a new one is left empty. If a secret is
        refused or IN cannot be opened, OUT is not created."""
        def each(commands, *files):
            return [f"{command} {file}" for command in commands for file in files]

        by_passphrase = (*BY_PASSPHRASE, "rewrap -p pass -K new.key")
        other_key, short_key = ([it.replace("-k key", f"-k {name}") for it in OPENING] for name in ("other.key", "short.key"))
        other_pass, low = ([it.replace("-p pass", words) for it in by_passphrase] for words in ("-p other.pass", "-p pass -m 9"))
        for is_made, name, lines in (
            (True, "Read", each(("encrypt -k key", *OPENING), "folder")),
            (True, "WrongKey", each((*other_key, "rewrap -k new.key -P new.pass"), "key.age") + each(other_pass, "pass.age", "empty_pass.age")),
            (True, "WrongKey", each(("range -p other.pass 0 5", "rewrap -p other.pass -P new.pass"), "pass.age")),
            (True, "NoMatch", each((*OPENING, "rewrap -k key -K new.key"), "pass.age")),
            (True, "Malformed: WorkFactorTooHigh", each(low, "pass.age")),
            (True, "NotAge", each((*OPENING, "range -k key 0 5", *by_passphrase), "hello")),
            (True, "HeaderTruncated", each((*OPENING, *by_passphrase), "cut.age", "empty")),
            (True, "HeaderTruncated", ["rewrap -p pass -K new.key < <(head -c 149 empty_pass.age)"]),
            (True, "MixedPassphrase", each(by_passphrase, "mixed.age")),
            (True, "BadMac", each([it for it in by_passphrase if "salvage" not in it], "mac.age")),
            (True, "BadChunk: 0", each(("decrypt -k key", "range -k key 0 5"), "damaged.age")),
            (False, "CannotOpen: absent", each(("encrypt -k key", *OPENING), "absent")),
            (False, "KeyLength", each(("encrypt -k short.key", *short_key), "key.age")),
            (False, "NoPassphrase", ["encrypt -p empty hello", "rewrap -k key -P empty key.age"]),
        ):
            for line in lines:
                with self.subTest(f"{line} -o old"):
                    self.changes_nothing(name, line)
                    self.changes_nothing(name, f"{line} -o old")
                with self.subTest(f"{line} -o left"):
                    self.line_says(name, f"{line} -o left")
                    self.assertEqual(os.path.exists("left"), is_made)
                    if is_made:
                        self.assert_file("left", b"")
                        os.remove("left")

    def test_unidentified(self):
        """If standard input cannot be told from OUT, an existing OUT stays as it was."""
        for command in ("encrypt -k key", *(it for it in OPENING if not it.startswith("range"))):
            with self.subTest(command):
                self.changes_nothing("Unidentified: standard input", f"{command} -o old <&-")

    def test_no_metadata(self):
        """If the system does not tell which file is which, only an existing OUT is refused."""
        def without(name, line, more=None, number=0):
            env = {"LD_PRELOAD": preload("calls"), "CALL": "statx", "NUMBER": str(number), "DO": error}
            if name:
                self.changes_nothing(name, line, more=more, env=env)
            return self.run_line(line, env=env)

        for error, reason in ("1", "Operation not permitted"), ("38", "Function not implemented"):
            for line in WRITING:
                line += " -s seed" * line.startswith(("encrypt", "rewrap"))
                forms = [line] + [f"{line[: line.rindex(' ')]} <{line.split()[3]}" for _ in [line] if line.startswith(("decrypt", "salvage"))]
                for form in forms:
                    with self.subTest(f"{form}, {reason}"):
                        expected = self.run_line(form).out
                        self.assertTrue(expected)
                        self.assert_ended(without(None, form), out=expected)
                        self.assert_ended(without(None, f"{form} -o made"))
                        self.assert_file("made", expected)
                        os.remove("made")
                        without("Unidentified: old", f"{form} -v -o old", f"identifying old: {reason}")
                        name, what = ("CannotCreate", "creating") if error == "1" else ("Unidentified", "identifying")
                        without(f"{name}: old", f"{form} -v --atomic -o old", f"{what} old: {reason}")
            with self.subTest(f"the default seed, {reason}"):
                ran = without(None, "encrypt -v -k key hello")
                write("made", ran.out)
                self.assert_ended(ran, out=None)
                self.assert_ended(self.run_line("decrypt -k key made"), out=HELLO)
                os.remove("made")
        error, said = IO_ERROR, set()
        for number in range(1, 9):
            said.add(without(None, "decrypt -v -k key -o old key.age", number=number).err.decode())
            write("old", read("yesterday"))
        for name in ("key", "key.age", "old"):
            with self.subTest(f"the second line, {name}"):
                self.assertIn(fault(message("Unidentified", name), f"identifying {name}: Input/output error"), said)

    def test_out_of_memory(self):
        """If memory is refused, an existing OUT stays as it was."""
        self.changes_nothing("OutOfMemory", "encrypt -p pass -w 18 -o old hello", memory=100000 * 1024)

    def test_modes(self):
        """Only its owner can read a new plaintext. An existing OUT keeps its mode."""
        for line in WRITING:
            mode = 0o666 if line.startswith(("encrypt", "rewrap")) else 0o600
            for umask in (0o000, 0o022, 0o077, 0o277):
                with self.subTest(f"{line}, umask {umask:03o}"):
                    self.assert_ended(self.run_line(f"{line} -o made", umask=umask))
                    self.assertEqual(f"{os.stat('made').st_mode & 0o777:03o}", f"{mode & ~umask:03o}")
                    os.remove("made")
            with self.subTest(f"{line}, an OUT of mode 640"):
                write("made", b"old\n")
                os.chmod("made", 0o640)
                self.assert_ended(self.run_line(f"{line} -o made"))
                self.assertEqual(f"{os.stat('made').st_mode & 0o777:03o}", "640")
                os.remove("made")

    def test_standard_output(self):
        """OUT may be a name of standard output."""
        for options in ("decrypt -k key", "range -k key 0 9", "salvage -k key"):
            with self.subTest(options):
                self.assert_ended(self.run_line(f"{options} -o /dev/stdout key.age"), out=HELLO)

    @unittest.skipUnless(os.geteuid() == 0, "needs another user")
    def test_write_only(self):
        """An OUT that may be written, but not read, is written or replaced."""
        os.chmod(self.folder, 0o777)
        for options in "-o made", "--atomic -o made":
            write("made", b"old")
            os.chown("made", 65534, 65534)
            os.chmod("made", 0o200)
            with self.subTest(options):
                self.assert_ended(self.run_line(f"decrypt -k key {options} key.age", user=65534, group=65534, extra_groups=[]))
                self.assert_file("made", HELLO)
        os.remove("made")


class OutIsRead(Files):
    """OUT must not be a file that is read, but with --atomic it may be IN, except for `salvage`."""

    def refuses_out(self, role, out, line):
        with self.subTest(line):
            self.changes_nothing(f"OutputIsRead: {role}, {out}", line)

    def outs(self, line, role, name):
        """Each way to name this file as OUT or as standard output: the name in messages, and the line. With
        --atomic OUT may be IN, except for `salvage`."""
        standard = [f"{line[: line.rindex(' ')]} <{name}"] * (role == "Input" and not line.startswith("range"))
        atomic = [f"{line} --atomic"] * (role != "Input" or line.startswith("salvage"))
        yield from (("standard output", f"{it} >>{name}") for it in (line, *standard))
        for out in (name, f"./{name}", f"folder/../{name}", "linked", "hard", f"{self.folder}/{name}"):
            if not line.startswith("inspect"):
                yield from ((out, f"{it} -o {out}") for it in (line, *standard, *atomic))

    def test_each_role(self):
        """IN, a secret or the seed, by each of its names."""
        for line, (role, name) in ((line, it) for line in lines() for it in roles(line)):
            os.symlink(name, "linked")
            os.link(name, "hard")
            for out, run in self.outs(line, role, name):
                self.refuses_out(role, out, run)
            os.remove("linked")
            os.remove("hard")

    def test_two_roles(self):
        """A file read in two roles is named by the first, IN before secrets. An empty IN is refused, too."""
        write("both", b"")
        os.symlink("hello", "linked.in")
        for command in ("encrypt -k key", *OPENING):
            self.refuses_out("Input", "both", f"{command} -o both both")
            self.refuses_out("Input", "hello", f"{command} -o hello linked.in")
        self.refuses_out("Input", "pass", "encrypt -p pass -o pass pass")
        self.refuses_out("Passphrase", "pass", "rewrap -p pass -P pass -o pass pass.age")

    def test_numbers(self):
        """All 64 bits of inode numbers are compared; here these are the sizes times 2^32."""
        env = {"LD_PRELOAD": preload("calls"), "INODE": str(2**32)}
        write("made", b"old\n")
        self.assert_ended(self.run_line("encrypt -k key -s seed -o made hello", env=env))
        self.assert_file("made", read("key.age"))
        write("made", b"hallo\n")
        self.changes_nothing("OutputIsRead: Input, made", "encrypt -k key -s seed -o made hello", env=env)
