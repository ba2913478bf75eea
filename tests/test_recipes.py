"""Recipes of docs/USE.md, most of them in no transcript: the crontab and the service of systemd, with the
program as ./install installs it, in an environment like theirs; passphrases typed at a terminal, also for
lines of README.md and the manual page; databases; files of other programs; lost first sectors. Also checks
that a test uses each block of a page, and runs the commands of CONTRIBUTING.md for one crate."""

import base64
import contextlib
import fcntl
import glob
import os
import re
import shutil
import signal
import subprocess
import textwrap
import time
import unittest

import fixture
from program import AGEP, ROOT, ProgramCase, made_once, read, scratch, write
from terminal import Terminal

PASSPHRASE = b"correct horse\n"
# A stand-in for sudo, which closes all but the standard streams, so that `<(..)` cannot be passed.
SUDO = b"#!/usr/bin/python3\nimport os, sys\nos.closerange(3, 1024)\nos.execvp(sys.argv[1], sys.argv[1:])\n"


@made_once
def installed():
    """A PREFIX with the program installed."""
    prefix = scratch() + "/local"
    subprocess.run([ROOT + "/install", prefix], check=True, stdout=subprocess.DEVNULL)
    return prefix


def text_of(page):
    return read(f"{ROOT}/{page}").decode()


def lines_below(heading, kind="sh"):
    """The lines of the blocks of this kind below this heading of docs/USE.md."""
    section = text_of("docs/USE.md").partition(f"\n### {heading}\n")[2].partition("\n### ")[0]
    return "".join(re.findall(f"^```{kind}\n(.*?)^```$", section, re.MULTILINE | re.DOTALL)).splitlines()


def block(kind):
    """The block of this kind in docs/USE.md, with scratch folders in place of the system's."""
    (text,) = re.findall(f"^```{kind}\n(.*?)^```$", text_of("docs/USE.md"), re.MULTILINE | re.DOTALL)
    root = scratch()
    for name in ("srv", "etc"):
        os.mkdir(f"{root}/{name}")
        text = text.replace(f"/{name}/", f"{root}/{name}/").replace(f"cd /{name} ", f"cd {root}/{name} ")
    os.chdir(f"{root}/srv")
    return text.replace("/usr/local", installed())


def run(line, **environment):
    """What the line prints, on standard output and standard error."""
    return subprocess.run(
        ["/bin/sh", "-c", line], env=environment, stdin=subprocess.DEVNULL, stdout=subprocess.PIPE, stderr=subprocess.STDOUT, timeout=600
    ).stdout


# For each page its blocks, in order: the language, and the test that runs the block or a part of
# it, or looks up its names. For the blocks `console` of README.md and docs/USE.md see tests/cli.sh.
RUN_BY = {
    "README.md": ("sh test_packages.Packages.test_the_wheel", "sh Typed.test_lines", "python test_library.Document.test_python"),
    "docs/USE.md": ("sh Blocks.test_secrets", "sh Typed.test_lines", "crontab Cron.test_backup", "ini Systemd.test_service",
                    "sh Database.test_whole_or_nothing", "sh Database.test_saved", "sh Database.test_one_table", "conf Database.test_log", "sh Moved.test_age"),
    "docs/C.md": ("sh test_library.Document.test_program", "c test_library.Document.test_program", "c test_library.Document.test_loop"),
    "docs/PACKAGES.md": (*2 * ("console test_packages.Packages.test_the_tarball",), "sh test_releases.Release.test_release"),
    "docs/PROMISES.md": ("console test_sources.Documents.test_commands",),
    "CONTRIBUTING.md": ("sh test_sources.Documents.test_commands",),
    "bindings/python/README.md": (*2 * ("python test_library.Document.test_python",), "python test_fsspec.Writes.test_the_page"),
    "bindings/rust/README.md": (*2 * ("rust,no_run test_packages.Packages.test_the_crate",), "sh test_packages.Packages.test_the_crate"),
}


class Blocks(unittest.TestCase):
    def test_each_runs(self):
        """A transcript or a test uses each block of each page, but not those in Rattle, of proofs or without a
        language: they are not commands, or they need podman, as their page says."""
        pages = glob.glob(f"{ROOT}/*.md") + glob.glob(f"{ROOT}/*/*.md")
        for page in sorted({*RUN_BY, *(os.path.relpath(name, ROOT) for name in pages)}):
            not_run = {"", "antt", "rust", *["console"] * (page in ("README.md", "docs/USE.md"))}
            kinds = [kind for kind in re.findall("^ *```(.*)$", text_of(page), re.MULTILINE) if kind not in not_run]
            rows = [row.split() for row in RUN_BY.get(page, ())]
            with self.subTest(page):
                self.assertEqual(kinds, [kind for kind, _ in rows])
                for _, name in rows:
                    *module, case, test = name.split(".")
                    folder = "bindings/python/tests" if module == ["test_fsspec"] else "tests"
                    found = text_of(f"{folder}/{(module or ['test_recipes'])[0]}.py").partition(f"\nclass {case}(")[2]
                    self.assertIn(f"    def {test}(self", found.partition("\nclass ")[0], name)

    def test_secrets(self):
        """The lines that make a passphrase and a key make files that only their owner can read."""
        os.chdir(scratch())
        self.addCleanup(os.chdir, "/")
        for line in lines_below("Make a passphrase or a key file"):
            subprocess.run(["bash", "-c", line], check=True)
        self.assertEqual({name: (os.stat(name).st_mode & 0o777, os.stat(name).st_size) for name in os.listdir(".")},
                         {"passphrase": (0o600, 25), "key": (0o600, 32)})


class Cron(unittest.TestCase):
    SAYS = "data.age was not replaced\n"

    def setUp(self):
        self.path, self.job = re.fullmatch(r"PATH=(\S+)\n(?:\S+ ){5}(.*)\n", block("crontab")).groups()
        self.assertNotIn("%", self.job, "cron ends a line there")
        os.mkdir("data")
        write("data/a", b"text")
        write("data.age", b"old")
        self.secret = re.search(r"-p (\S+)", self.job)[1]
        write(self.secret, PASSPHRASE)

    def environment(self):
        return {"PATH": self.path, "HOME": "/", "SHELL": "/bin/sh", "LOGNAME": "root"}

    def says(self, expected):
        self.assertEqual(run(self.job, **self.environment()).decode(), expected)

    def replace_tar(self, *lines):
        """Puts a program of these lines in place of tar."""
        os.mkdir("bin")
        write("bin/tar", "\n".join(["#!/bin/bash", *lines, ""]).encode())
        os.chmod("bin/tar", 0o755)
        self.path = f"{os.getcwd()}/bin:{self.path}"

    def assert_backup(self, text):
        opened = run(f"agep decrypt -p {self.secret} data.age | {shutil.which('tar')} xO data/a", PATH=self.path)
        self.assertEqual(opened, text)

    def test_backup(self):
        """The job prints nothing, and the backup contains the file."""
        self.says("")
        self.assert_backup(b"text")

    def test_in_use(self):
        """A file that grows while tar reads it does not prevent the backup; tar names it."""
        write("data/a", bytes(200000))
        self.replace_tar(f"exec -a tar {shutil.which('tar')} \"$@\" --checkpoint=10 --checkpoint-action=exec='echo >>data/a'")
        self.says("tar: data/a: file changed as we read it\n")
        self.assert_backup(bytes(200000))

    def test_failure(self):
        """The reason is printed, and the old backup stays."""
        os.rename("data", "other")
        said = run(self.job, **self.environment()).decode()
        self.assertRegex(said, "^tar: data: Cannot stat: .*\n(.*\n)*data.age was not replaced\n$")
        self.assertEqual(read("data.age"), b"old")
        os.rename("other", "data")
        os.remove(self.secret)
        self.says(f"agep: cannot open {self.secret}\nagep: opening {self.secret}: No such file or directory\n{self.SAYS}")
        self.assertEqual(read("data.age"), b"old")

    def start_half(self):
        """Starts a run, and waits until it has sent a part of the archive to agep."""
        self.replace_tar("head -c 1000000 /dev/zero", "echo >half", "exec sleep 6000")
        job = subprocess.Popen(["/bin/sh", "-c", self.job], env=self.environment(), stdin=subprocess.DEVNULL, stderr=subprocess.DEVNULL, start_new_session=True)
        while not os.path.exists("half"):
            time.sleep(0.01)
        self.path = self.path.partition(":")[2]
        return job

    def kill(self, job):
        """Ends a run with all that it has started: its lock is free when the last of these has gone."""
        os.killpg(job.pid, signal.SIGKILL)
        job.wait()
        with open("data.lock") as lock:
            fcntl.flock(lock, fcntl.LOCK_EX)

    def test_running(self):
        """While a backup runs, another one does not touch its files."""
        job = self.start_half()
        header = read("data.age.new.agep-new")[:150]
        self.assertTrue(header)
        self.says(self.SAYS)
        self.assertEqual((read("data.age"), read("data.age.new.agep-new")[:150]), (b"old", header))
        self.kill(job)

    def test_killed(self):
        """After a run that was killed, the next one makes the backup."""
        job = self.start_half()
        self.kill(job)
        self.assertEqual(read("data.age"), b"old")
        self.says("")
        self.assert_backup(b"text")


class Typed(ProgramCase):
    """The lines that ask for a passphrase. A shell or a careless `read` would change the new passphrase."""

    OLD, NEW = fixture.PASSPHRASE, b"  new \\horse$( "

    def setUp(self):
        super().setUp()
        self.environment = {**os.environ, "PATH": f"{self.folder}/bin:{os.environ['PATH']}", "HISTFILE": f"{self.folder}/history",
                            "PS1": "ready> ", "TERM": "dumb"}
        for name in ("bin", "folder"):
            shutil.rmtree(name, ignore_errors=True)
            os.mkdir(name)
        os.symlink(AGEP, "bin/agep")
        write("bin/sudo", SUDO)
        os.chmod("bin/sudo", 0o755)
        write("folder/a", fixture.HELLO)
        write("new", self.NEW)
        for name in ("a.age", "notes.age", "numbers.age"):
            shutil.copy("pass.age", name)
        for name in ("typed.age", "passphrase.typed", "history", "trace"):
            write(name, b"")
            os.remove(name)

    def answer(self, terminal, start):
        """Types what the last prompt asks for, if the program waits at one."""
        asked = re.search(rb"(\w+): (\(press TAB for no echo\) *)?$", terminal.said[start:])
        if asked:
            terminal.type_secret(self.OLD if asked[1] in (b"Passphrase", b"Password", b"Old") else self.NEW)
        return len(terminal.said) if asked else start

    def at_prompt(self, *lines):
        """Types the lines at the prompt of a shell, and returns what the terminal shows."""
        trace = ("strace", "-f", "-qq", "-v", "-s", "9999", "-e", "trace=execve", "-o", "trace")
        terminal = Terminal(*trace, "bash", "--norc", "--noprofile", "-i", env=self.environment)
        start = 0
        for line in (*lines, "exit"):
            while not terminal.said[start:].endswith(b"ready> "):
                self.assertTrue(terminal.reads(), terminal.said)
                start = self.answer(terminal, start)
            start = len(terminal.said)
            terminal.type(line.encode())
        terminal.status()
        started = read("trace")
        self.assertIn(b'["bash"', started)
        self.assertIn(b"\nexit\n", read("history"))
        self.assert_secret(terminal.said, read("history"), started)
        return terminal.said

    def in_script(self, *lines):
        """Runs the lines in a script at a terminal."""
        write("script", "\n".join(lines).encode())
        terminal = Terminal("bash", "script", env=self.environment)
        start = 0
        while terminal.reads():
            start = self.answer(terminal, start)
        self.assertEqual(terminal.status(), 0, terminal.said)
        self.assert_secret(terminal.said)
        return terminal.said

    def assert_secret(self, *texts):
        for text in texts:
            for secret in (b"correct", b"horse"):
                self.assertNotIn(secret, text)

    def assert_done(self, line, said):
        """What the line must have made or shown."""
        if "rewrap" in line:
            self.writes(fixture.HELLO, "decrypt", "-p", "new", "a.age")
        elif "encrypt" in line:
            self.writes(fixture.HELLO, "decrypt", "-p", "new", "typed.age")
        elif "decrypt" in line:
            self.assertIn(b"\nhello\r\n", said)
        else:
            self.assert_file("passphrase.typed", self.NEW)
            self.assertEqual(os.stat("passphrase.typed").st_mode & 0o777, 0o600)

    def test_lines(self):
        """Each line works at a prompt and in a script; the passphrase is in no history and no argument."""
        define, define_new, *lines = lines_below("Type a passphrase")
        pages = text_of("README.md") + text_of("share/man/agep.1").replace("\\-", "-")
        others = re.findall(r"^\(IFS= read (?:.*&&\n)?.*\)$", pages, re.MULTILINE)
        self.assertEqual((len(lines), len(others)), (6, 2))
        for line in lines + others:
            for run_lines in (self.at_prompt, self.in_script):
                if line.startswith("systemd") and not shutil.which("systemd-ask-password"):
                    print("skipped: systemd-ask-password is missing")
                    continue
                with self.subTest(f"{run_lines.__name__}: {line}"):
                    self.setUp()
                    self.assert_done(line, run_lines(define, define_new, line))

    @unittest.skipUnless(os.geteuid() == 0 and shutil.which("systemd-ask-password"), "not root, or systemd is missing")
    def test_service(self):
        """Without a terminal, as in a service, the passphrase is typed at systemd's agent."""
        line = lines_below("Type a passphrase")[-1]
        with subprocess.Popen(
            ["bash", "-c", line], env=self.environment, stdin=subprocess.DEVNULL, stdout=subprocess.PIPE, start_new_session=True
        ) as service:
            asked = "until ls /run/systemd/ask-password/ask.*; do sleep 0.1; done >/dev/null 2>&1"
            agent = Terminal("bash", "-c", f"{asked}; exec systemd-tty-ask-password-agent --query")
            while b"no echo" not in agent.said:
                self.assertTrue(agent.reads(), agent.said)
            agent.type_secret(self.OLD)
            self.assertEqual((agent.status(), service.communicate(timeout=600)[0]), (0, fixture.HELLO))
            self.assert_secret(agent.said)

    def test_mistyped(self):
        """A new passphrase that is typed differently the second time makes no file."""
        define, define_new, *lines = lines_below("Type a passphrase")
        for line in [line for line in lines if "ask_new" in line]:
            with self.subTest(line):
                self.setUp()
                before = sorted(os.listdir(".")), read("a.age")
                terminal = Terminal("bash", "-c", "\n".join([define, define_new, line]), env=self.environment)
                typed = 0
                while terminal.reads():
                    if terminal.said.count(b": ") > typed:
                        typed += 1
                        terminal.type_secret(b"%d" % typed)
                self.assertEqual(terminal.status(), 1)
                self.assertTrue(terminal.said.endswith(b"\r\nnot the same\r\n"), terminal.said)
                self.assertEqual((sorted(os.listdir(".")), read("a.age")), before)


# Where Debian puts the programs of the server.
SERVER = [os.path.dirname(name) for name in sorted(glob.glob("/usr/lib/postgresql/*/bin/initdb"))]
# The rows of `pay` end in a long text, so that most rows that are cut are valid rows, too.
TABLES = """
create table pay (id int primary key, name text);
insert into pay select i, 'é' || repeat(md5(i::text), 10) from generate_series(1, 20000) i;
create table small (id int, t text);
insert into small values (1, 'one'), (2, E'two\\ttabs\\n');
"""


def spoiled(file):
    """The bytes of a file, once with a damaged chunk and once cut."""
    at = len(file) * 2 // 3
    return {"damaged": file[:at] + bytes([file[at] ^ 1]) + file[at + 1 :], "cut": file[:at]}


def into_copy(line):
    """The line, with the database `copy` in place of `shop`."""
    return re.sub(" shop$", " copy", line)


@unittest.skipUnless(SERVER, "postgresql is missing")
class Database(unittest.TestCase):
    """The lines for PostgreSQL. Its server refuses to run as root, so root runs them as nobody."""

    @classmethod
    def setUpClass(cls):
        cls.folder = scratch()
        user = {"user": "nobody", "group": "nogroup", "extra_groups": []} if os.geteuid() == 0 else {}
        os.mkdir(f"{cls.folder}/bin")
        shutil.copy(AGEP, f"{cls.folder}/bin")
        write(f"{cls.folder}/key", os.urandom(32))
        for name in ("", "bin", "key") if user else ():
            shutil.chown(f"{cls.folder}/{name}", "nobody")
        environment = {"PATH": f"{cls.folder}/bin:{SERVER[-1]}:/usr/bin:/bin", "LC_ALL": "C.UTF-8", "PGHOST": cls.folder, "PGUSER": "postgres"}
        cls.how = {"cwd": cls.folder, "env": environment, "stdin": subprocess.DEVNULL, "text": True, **user}
        words = ["initdb", "-D", "data", "-U", "postgres", "-A", "trust", "--no-sync"]
        subprocess.run(words, check=True, stdout=subprocess.DEVNULL, **cls.how)

    def setUp(self):
        lines = lines_below("Back up a database")
        ready, self.dump, self.restore, *self.plain, self.tar, self.names, self.blocks, self.table = lines
        self.assertEqual(ready, "set -o pipefail")

    def bash(self, line):
        return subprocess.run(["bash", "-o", "pipefail", "-c", line], capture_output=True, timeout=120, **self.how)

    def does(self, line):
        """What a line prints, which must succeed."""
        done = self.bash(line)
        self.assertEqual(done.returncode, 0, f"{line}\n{done.stderr}")
        return done.stdout

    @contextlib.contextmanager
    def server(self, data, *more):
        """Runs the server on this folder, and yields its log until it is ready or has ended."""
        settings = ("-k", self.folder, "-c", "listen_addresses=", "-c", "fsync=off", "-c", "hot_standby=off", *more)
        words = ["timeout", "-s", "QUIT", "300", "postgres", "-D", data, *settings]
        with subprocess.Popen(words, stderr=subprocess.PIPE, **self.how) as process:
            log = ""
            for line in process.stderr:
                log += line
                if "ready to accept connections" in line:
                    break
            try:
                yield log
            finally:
                process.send_signal(signal.SIGINT)
                process.communicate()

    @contextlib.contextmanager
    def shop(self):
        """Runs the server with the database `shop`, and an empty one, `copy`."""
        with self.server("data"):
            self.does("for name in shop copy; do dropdb --if-exists $name && createdb $name || exit; done")
            self.does(f"psql -q -v ON_ERROR_STOP=1 shop <<'end'\n{TABLES}end")
            yield

    def rows(self, database, table):
        """The lines of a table, none if it does not exist."""
        return self.bash(f"psql -Atc 'table {table}' {database}").stdout.splitlines()

    def assert_restored(self, is_whole):
        for table in ("pay", "small"):
            self.assertEqual(self.rows("copy", table), self.rows("shop", table) if is_whole else [])

    def test_whole_or_nothing(self):
        """A whole dump is restored, and nothing of one that is damaged or cut."""
        for make, restore in (self.dump, self.restore), self.plain[:2]:
            name = f"{self.folder}/{make.split()[-1]}"
            with self.shop():
                self.does(make)
                file = read(name)
                for title, text in {**spoiled(file), "whole": file}.items():
                    with self.subTest(f"{title} {make.split()[-1]}"):
                        write(name, text)
                        self.assertEqual(self.bash(into_copy(restore)).returncode == 0, title == "whole")
                        self.assert_restored(title == "whole")

    def test_saved(self):
        """Of a damaged plain dump, all rows are restored but those of the lost chunk."""
        make, _, save, restore = self.plain
        with self.shop():
            self.does(make)
            write(f"{self.folder}/shop.sql.age", spoiled(read(f"{self.folder}/shop.sql.age"))["damaged"])
            self.assertEqual(self.bash(save).returncode, 1)
            self.does(into_copy(restore))
            old, new = self.rows("shop", "pay"), self.rows("copy", "pay")
            self.assertLessEqual(set(new), set(old))
            self.assertIn(len(old) - len(new), [65536 // len(old[-1].encode()) + more for more in range(-1, 3)])
            self.assertEqual(self.rows("copy", "small"), self.rows("shop", "small"))

    def test_one_table(self):
        """One table of a dump is restored by a range, and no row if the dump is damaged or cut."""
        with self.shop():
            self.does(self.tar)
            names = dict(re.findall(r"^COPY public\.(\w+) .*/(\d+\.dat)';$", self.does(self.names), re.MULTILINE))
            blocks = re.findall(r"^block (\d+): (.*)$", self.does(self.blocks), re.MULTILINE)
            numbers = {name: (first, int(after) - int(first)) for (first, name), (after, _) in zip(blocks, blocks[1:])}
            lines = {}
            for table in ("small", "pay"):
                counts = map(str, numbers[names[table]])
                line = re.sub(r"\d+(?= \* 512)", lambda _: next(counts), self.table)
                lines[table] = into_copy(line.replace("COPY small", f"COPY {table}"))
            self.does("pg_dump --schema-only shop | psql -q copy")
            for line in lines.values():
                self.does(line)
            self.assert_restored(True)
            self.does("psql -q -c 'truncate pay' copy")
            for title, text in spoiled(read(f"{self.folder}/shop.tar.age")).items():
                with self.subTest(title):
                    write(f"{self.folder}/shop.tar.age", text)
                    self.assertNotEqual(self.bash(lines["pay"]).returncode, 0)
                    self.assertEqual(self.rows("copy", "pay"), [])

    def test_log(self):
        """PostgreSQL archives its log, even after a killed run, and starts from a whole archive, but not from a
        damaged one. The same segment is accepted again, and an archived one is never overwritten."""
        conf = "\n".join(lines_below("Archive the log of a database", "conf"))
        conf = conf.replace("/etc/wal.key", f"{self.folder}/key").replace("/srv/", f"{self.folder}/")
        self.does(f"mkdir wal && cp -a data live && cat >>live/postgresql.conf <<'end'\n{conf}\nend")
        self.does("cp -a live old && touch old/recovery.signal && echo half >wal/000000010000000000000001.age.agep-new")
        with self.server("live"):
            for number in "123":
                self.does(f"psql -c 'create table z{number} as select {number}' -c 'select pg_switch_wal()'")
        segment = sorted(glob.glob(f"{self.folder}/wal/*.age"))[1]
        self.does(f"agep decrypt -k key -o same {segment} && cp same other && echo >>other")
        file = read(segment)
        archive = re.search("^archive_command = '(.*)'$", conf, re.MULTILINE)[1]
        for name, status in ("same", 0), ("other", 1):
            line = archive.replace("%f", os.path.basename(segment)[:-4]).replace("%p", name)
            self.assertEqual(self.bash(line).returncode, status)
            self.assertTrue(read(segment) == file)
        for text, is_whole in (file, True), (spoiled(file)["damaged"], False):
            write(segment, text)
            self.does("rm -rf restored && cp -a old restored")
            with self.server("restored", "-c", "archive_mode=off") as log:
                self.assertEqual(" is damaged\n" in log, not is_whole)
                self.assertEqual("archive recovery complete" in log, is_whole)
                tables = [self.rows("postgres", f"z{number}") for number in "123"]
                self.assertEqual(tables, [["1"], ["2"], ["3"]] if is_whole else [[]] * 3)


class Moved(ProgramCase):
    """The lines that open files of other programs, or encrypt them again."""

    def setUp(self):
        super().setUp()
        self.ready, *self.lines = lines_below("Move from age or gpg")
        self.environment = {**os.environ, "PATH": f"{os.path.dirname(AGEP)}:{os.environ['PATH']}"}
        write("passphrase", fixture.PASSPHRASE)

    def bash(self, line):
        done = subprocess.run(["bash", "-c", line], env=self.environment, stdin=subprocess.DEVNULL, capture_output=True, timeout=600)
        self.assertEqual(done.returncode, 0, done.stderr)
        return done.stdout

    def moves(self, program, *making):
        (line,) = [line for line in self.lines if line.startswith(f"{program} ")]
        if not shutil.which(program):
            self.skipTest(f"{program} is missing")
        for words in making:
            self.bash(words)
        self.bash(f"{self.ready}; {line}")
        self.writes(fixture.HELLO, "decrypt", "-p", "passphrase", "new.age")
        os.remove("new.age")

    def test_armor(self):
        """Armor is removed, with line ends of either kind."""
        (line,) = [line for line in self.lines if "armored.age" in line]
        for end in b"\n", b"\r\n":
            with self.subTest(repr(end)):
                lines = textwrap.wrap(base64.b64encode(read("pass.age")).decode(), 64)
                armor = ["-----BEGIN AGE ENCRYPTED FILE-----", *lines, "-----END AGE ENCRYPTED FILE-----", ""]
                write("armored.age", end.join(line.encode() for line in armor))
                self.assertEqual(self.bash(f"{self.ready}; {line}"), fixture.HELLO)

    def test_age(self):
        self.moves("age", "age-keygen -o id.txt", 'age -r "$(age-keygen -y id.txt)" -o old.age hello')

    def test_gpg(self):
        self.environment["GNUPGHOME"] = scratch()
        self.addCleanup(self.bash, "gpgconf --kill all")
        self.moves("gpg", "gpg --batch --passphrase '' --quick-gen-key one", "gpg --batch --trust-model always -r one -o old.gpg -e hello")


class Header(ProgramCase):
    def test_lost_start(self):
        """The copy of the first bytes restores each file whose first sector, or more, is lost."""
        copy, use = (re.search(f"^\\$ ({start}.*)$", text_of("docs/USE.md"), re.MULTILINE)[1] for start in ("head -c 65552", "{ cat b.head"))
        for name in ("empty.age", "key.age", "pass.age", "full.age", "plain.age", "two_keys.age"):
            file = read(name)
            for lost in 512, 4096, 65552:
                with self.subTest(f"{name}, {lost} bytes"):
                    write("b.age", file)
                    subprocess.run(["bash", "-c", copy], check=True)
                    write("lost.age", bytes(min(lost, len(file))) + file[lost:])
                    done = subprocess.run(["bash", "-c", use.partition(" | ")[0]], capture_output=True)
                    self.assert_bytes(done.stdout, file)


class Systemd(unittest.TestCase):
    # Folders where systemd looks for a program without a path.
    FOLDERS = "/usr/local/bin:/usr/bin:/bin"

    def test_service(self):
        service = block("ini")
        name, secret = re.search(r"^LoadCredential=(\w+):(\S+)$", service, re.MULTILINE).groups()
        write(name, bytes(32))
        self.assertRegex(secret, "/etc/")
        write("dump", b"text")
        environment = {"PATH": self.FOLDERS.replace("/usr/local", installed()), "CREDENTIALS_DIRECTORY": os.getcwd()}
        (line,) = re.findall("^ExecStart=(.*)$", service, re.MULTILINE)
        write("dump.age.agep-new", b"half")
        self.assertEqual(run(line, **environment), b"")
        self.assertEqual(run("agep decrypt -k key dump.age", **environment), b"text")
        os.remove("dump")
        self.assertIn(b"dump: No such file or directory\n", run(line, **environment))

    @unittest.skipUnless(shutil.which("systemd-analyze"), "systemd-analyze missing")
    def test_unit(self):
        """systemd accepts the service, and warns of a wrong line about its credential."""
        service = block("ini").replace("=agep ", f"={installed()}/bin/agep ")
        for text, line in (service, b""), (service.replace("Credential=key:", "Credential=key;"), b"not valid"):
            write("backup.service", text.encode())
            done = subprocess.run(["systemd-analyze", "verify", "--man=no", "./backup.service"], capture_output=True)
            self.assertIn(line, done.stderr)
            self.assertEqual((done.returncode, done.stderr == b""), (0, line == b""), done.stderr)


# A crate of one function, which is formatted wrongly, with a test and an edit.
CRATE = {
    "crates.txt": "one:\n",
    "HANDLES": "Handles allowed: none.\n",
    "crates/one/src/lib.rt": """#![tactic(auto)]

ghost use Rattle.std.specs.Prelude.{◌≡◌};

pub fn one() -> u8
    ensures { result ≡ 1 }
{
     1
}

#[cfg(test)]
mod tests {
    #[test]
    fn is_one_in_TREE(rt: HostRuntime) {
        assert_eq!(rt; super::one(), 1);
    }
}
""",
    "crates/one/must-fail/one_is_two.edit": "# clause: one\nfile: src/lib.rt\nold:      1\nnew:      2\n",
}
# What each command of the table in CONTRIBUTING.md must print.
ANSWERS = {
    "rt check": "logic=proved functions=1 ", "rt check --only CRATE::MODULE::FUNCTION": "only=1 proved=1",
    "rt try --test": "run=ended status=0 ", "rt test": "1 passed; 0 failed", "rt lib": "logic=proved functions=1 ",
    "rt must-fail CRATE": "one_is_two.edit: refused, as it must be", "rt fmt": "formatted src/lib.rt",
}


@unittest.skipUnless(shutil.which("rt"), "rt missing")
class OneCrate(unittest.TestCase):
    def test_commands(self):
        """Each command of the table prints its answer. Trees differ in a name, because `rt lib` reuses a build of equal sources."""
        page = text_of("CONTRIBUTING.md")
        self.assertEqual(re.findall(r"^\| `(rt .*?)` \|", page, re.MULTILINE), list(ANSWERS))
        with_jobs = re.findall("`(rt [^`]*)`", re.search("^.*take `--jobs N`", page, re.MULTILINE)[0])
        running = {}
        for command in ANSWERS:
            tree = scratch()
            for name, text in CRATE.items():
                os.makedirs(os.path.dirname(f"{tree}/{name}"), exist_ok=True)
                write(f"{tree}/{name}", text.replace("TREE", os.path.basename(tree)).encode())
            words = command.replace("CRATE::MODULE::FUNCTION", "one::one").replace("CRATE", "one").split()
            words += ["--jobs", "1"] * (command in with_jobs)
            running[command] = subprocess.Popen(words, cwd=tree + "/crates/one", stdout=subprocess.PIPE, stderr=subprocess.STDOUT, text=True)
        for command, process in running.items():
            with self.subTest(command):
                said = process.communicate()[0]
                self.assertEqual(process.returncode, 0, said)
                self.assertIn(ANSWERS[command], said)
