"""Compares the texts for users with the built program: help and its examples, the manual page, the
completions, CHANGELOG.md."""

import os
import re
import select
import shlex
import shutil
import subprocess
import unittest

from program import AGEP, ROOT, ProgramCase, read, scratch, version, write
from shells import FOLDER, STARTS, at_terminal, offered

PAGE = ROOT + "/share/man/agep.1"

# An option in help: its letter, if it has one, its name and its value.
OPTION = r"^ {2,6}(?:(-[a-zA-Z]), )?(--[a-z-]+)(?: <(\w+)>)?"


def help_of(*words):
    return subprocess.run([AGEP, *words, "--help"], stdin=subprocess.DEVNULL, capture_output=True, check=True).stdout.decode()


def commands():
    """The commands that help shows, except help itself."""
    shown = help_of().split("\nCommands:\n")[1].split("\n\n")[0]
    return [line.split()[0] for line in shown.split("\n") if line.split()[0] != "help"]


def option_rows(*words):
    """The letter, if it has one, the name and the value of each option that help shows."""
    return re.findall(OPTION, help_of(*words), re.MULTILINE)


def options_of(*words):
    """The letters and names of the options that help shows."""
    return sorted(word for letter, name, _ in option_rows(*words) for word in (letter, name) if word)


def texts_of(command):
    """The sentences of help for each option, by its name; the default is the last one."""
    options = help_of(command).split("\nOptions:\n")[1].split("\n\n")[0]
    rows = re.findall(OPTION + r" +(\S.*(?:\n {20,}.*)*)", options, re.MULTILINE)
    return {name: re.sub(r"\.? \[default: (.*)\]$", r". The default is \1", " ".join(text.split())) + "." for _, name, _, text in rows}


def section(heading):
    """The section of the manual page with this heading."""
    return read(PAGE).decode().replace("\\-", "-").split(f"\n.SH {heading}\n")[1].split("\n.SH ")[0]


def enter_examples():
    """Enters a folder with the files that the examples name, beside a folder for programs."""
    folder = scratch()
    for name in ("bin", "work", "work/folder"):
        os.mkdir(f"{folder}/{name}")
    os.symlink(AGEP, folder + "/bin/agep")
    os.chdir(folder + "/work")
    for name, text in {
        "passphrase": b"correct horse\n", "old": b"correct horse\n", "new": b"another horse\n",
        "key": os.urandom(32), "recovery.key": os.urandom(32), "seed": os.urandom(48), "notes": b"notes\n", "folder/notes": b"notes\n",
        "dump": b"dump\n", "disk": bytes(1200000),
    }.items():
        write(name, text)
    write("filekey", read("seed")[:16])


def run_example(line, *options, status=0):
    """Runs a line in the folder, which must end with this status, and returns its output."""
    env = {**os.environ, "PATH": f"../bin:{os.environ['PATH']}"}
    done = subprocess.run(["bash", *options, "-c", line], env=env, stdin=subprocess.DEVNULL, capture_output=True)
    if (done.returncode, done.stderr) != (status, b""):
        raise AssertionError(f"{line}\nstatus {done.returncode}\n{done.stderr.decode()}")
    return done.stdout


class Helps(ProgramCase):
    def test_form(self):
        """Help is ASCII, fits 80 columns, and ends with examples; that of commands has statuses."""
        self.assertGreaterEqual(len(commands()), 4)
        for words in [[]] + [[command] for command in commands()]:
            with self.subTest(" ".join(words) or "agep"):
                text = help_of(*words)
                self.assertEqual([line for line in text.split("\n") if len(line) > 80 or re.search("[^ -~]", line)], [])
                examples = text.split("\nExamples:\n")[1]
                self.assertGreaterEqual(len(re.findall("^  .*agep ", examples, re.MULTILINE)), 2)
                if words:
                    lines = text.split("\nStatus:")[1].split("\n\n")[0].split("\n")
                    self.assertEqual([line.split()[0] for line in lines if line.split()], ["0", "1", "2"])

    def test_same(self):
        """The word help and the options give the same help."""
        for first, *others in (["--help"], ["help"], ["help", "--help"], ["help", "-h"]), (["inspect", "--help"], ["help", "inspect"]):
            expected = self.run_agep(*first)
            self.assert_ended(expected, 0, "", None)
            for words in others:
                with self.subTest(" ".join(words)):
                    self.writes(expected.out, *words)

    def test_versions(self):
        """The version is the newest in CHANGELOG.md."""
        self.assertRegex(version(), r"^\d+\.\d+\.\d+$")
        for option in ("-V", "--version"):
            for words in [[]] + [[command] for command in commands()]:
                with self.subTest(" ".join([*words, option])):
                    self.writes(f"agep {version()}\n".encode(), *words, option)
        with self.subTest("the manual page"):
            self.assertIn(f'"agep {version()}"', read(PAGE).decode())

    def test_other_words(self):
        """Options and commands of other programs are refused. The help named by the refusal says what to use."""
        lines = help_of().split("\nIf you are looking for:\n")[1].split("\n\n")[0]
        rows = dict(re.findall(r"^  (\S.*?)  +(\S.*)$", lines, re.MULTILINE))
        words = [word for row in rows for word in row.split(", ")]
        self.assertEqual(words, ["-d", "-r", "-i", "keygen", "verify", "test"])
        for word in words:
            ran = self.run_agep(word)
            self.assertEqual((ran.status, ran.out), (2, b""))
            self.assertTrue(ran.err.endswith(b"\nFor more information, try '--help'.\n"), ran.err)
        self.assertEqual(rows["-d"], "agep decrypt")
        self.assertIn("no public keys", rows["-r, -i"])
        enter_examples()
        run_example("agep encrypt -p passphrase -w 10 -o notes.age notes")
        os.remove("key")
        for row in ("keygen", "verify, test"):
            run_example(rows[row])
        self.assertEqual(len(read("key")), 32)

    def test_examples(self):
        """The examples in each command's help run, in a folder with the files that they name."""
        enter_examples()
        for command in commands():
            for name in os.listdir("."):
                if name.endswith(".age"):
                    os.remove(name)
            shutil.rmtree("x", ignore_errors=True)
            if command != "encrypt":
                run_example("agep encrypt -p passphrase -s seed -o notes.age notes")
                run_example("tar c folder | agep encrypt -p passphrase -w 10 -o folder.tar.age")
                run_example("agep encrypt -p passphrase -w 10 -o disk.age disk && agep encrypt -k key -o keyed.age disk")
                run_example(f"agep encrypt {'-p passphrase -w 10' if command == 'rewrap' else '-k key'} -o dump.age dump")
            for line in filter(None, help_of(command).split("\nExamples:\n")[1].split("\n")):
                with self.subTest(line.strip()):
                    if "range -k" in line:
                        shutil.copy("keyed.age", "disk.age")
                    run_example(line, "-o", "pipefail")


class Manual(unittest.TestCase):
    def test_synopsis(self):
        """Each command with its options and arguments, as in help."""
        page = re.sub(r'^\.\\".*\n?', "", section("SYNOPSIS"), flags=re.MULTILINE)
        lines = [[shlex.split(line) for line in entry.strip().split("\n")] for entry in page.split("\n.YS\n")[:-1]]
        shown = [" ".join((" " if len(macro) == 2 else "").join(words).strip() for macro, *words in entry) for entry in lines]
        expected = []
        for command in commands():
            pairs = {"-p": f"{{-p FILE{'...' * (command != 'encrypt')} | -k FILE...}}", "-P": "{-P FILE | -K FILE...}"}
            rows = [row for row in option_rows(command) if row[0] not in ("-k", "-K", "-h", "-V")]
            words = [pairs.get(letter, f"[{letter or name} {value}]".replace(" ]", "]")) for letter, name, value in rows]
            usage = re.search(r"^Usage: agep \w+ \[OPTIONS\] (.*)", help_of(command), re.MULTILINE)[1]
            expected.append(" ".join(["agep", command, *words, re.sub("[<>]", "", usage)]))
        self.assertEqual(shown, [*expected, "agep help [COMMAND]", "agep {-h | -V}"])

    def test_options(self):
        """OPTIONS has each option once, with its value."""
        rows = re.findall(r'^\.TP\n\.BR (?:(-[a-zA-Z]) ", " )?(--[a-z-]+)(?: " \\fI(\w+)\\fR")?', section("OPTIONS"), re.MULTILINE)
        every = {row for words in [[], *([command] for command in commands())] for row in option_rows(*words)}
        self.assertEqual(sorted(rows), sorted(every))
        self.assertNotRegex(read(PAGE).decode(), r"(?<![\\\w])-(-|[a-zA-Z]\b)", "a hyphen in place of a minus, which a shell does not know")

    def test_texts(self):
        """OPTIONS has the text that the help of each command has for the option."""
        said, page = {}, re.sub(r"\\f[BIR]", "", section("OPTIONS"))
        for name, paragraphs in re.findall(r'^\.TP\n\.BR (?:-[a-zA-Z] ", " )?(--[a-z-]+).*\n((?:[^.].*\n|\.IP\n)*)', page, re.MULTILINE):
            for paragraph in paragraphs.split(".IP\n"):
                users, text = re.fullmatch(r"(?:\((.*)\)\n)?(.*)", paragraph, re.DOTALL).groups()
                for command in re.split(", | and ", users) if users else commands():
                    said.setdefault(command, {}).setdefault(name, []).extend(text.split())
        for command in commands():
            with self.subTest(command):
                self.assertEqual({name: " ".join(words) for name, words in said[command].items()}, texts_of(command))

    def enter_backups(self):
        """Enters a folder for EXAMPLES, with files like those that earlier examples made."""
        self.addCleanup(os.chdir, "/")
        enter_examples()
        run_example("agep encrypt -p passphrase -w 10 -o notes.age notes && agep encrypt -k key -o disk.age disk")
        run_example("tar c folder | agep encrypt -k key -o folder.tar.age")

    def test_examples(self):
        """Each of EXAMPLES runs in a plain shell, except for a typed passphrase (test_recipes.Typed). notes.age
        and folder.tar.age, if it makes one, open; if tar fails, the old backup stays."""
        secrets = ("-p passphrase", "-p new", "-k key", "-k recovery.key")
        opened = {"notes.age": "agep decrypt {} notes.age", "folder.tar.age": "agep decrypt {} folder.tar.age | tar xO folder/notes"}
        blocks = re.findall(r"^\.nf\n(.*?)^\.fi$", section("EXAMPLES"), re.MULTILINE | re.DOTALL)
        self.assertGreater(len(blocks), 5)
        for block in [block for block in blocks if "read -rsp" not in block]:
            with self.subTest(block.split("\n")[0]):
                self.enter_backups()
                if ">key" in block:
                    os.remove("key")
                made = {name: read(name) for name in opened}
                run_example(block)
                self.assertEqual(os.stat("key").st_mode & 0o777, 0o600 if ">key" in block else 0o644)
                for name in [name for name in opened if read(name) != made[name]]:
                    texts = [run_example(f"({opened[name].format(secret)}) 2>/dev/null; true") for secret in secrets]
                    self.assertIn(b"notes\n", texts, name)
                if "tar c" in block:
                    self.enter_backups()
                    old = read("folder.tar.age")
                    write("../bin/tar", b"#!/bin/sh\nhead -c 10240 /dev/zero\nexit 2\n")
                    os.chmod("../bin/tar", 0o755)
                    run_example(block, status=2)
                    self.assertEqual(read("folder.tar.age"), old)

    def test_facts(self):
        """The largest offset and length, the most keys without -H, the mode of a plaintext, what may follow a
        chunk, when `encrypt` begins to write, and the statuses."""
        self.enter_backups()
        patterns = (r"Both are at most (\d+)\.", r"More than (\d+) keys", r"plaintext has mode (\d+)", r"Up to ([\d,]+) bytes after", r"the ([\d,]+) bytes of", r"read (\d+) bytes")
        most, keys, mode, behind, chunk, first = (int(re.search(pattern, read(PAGE).decode())[1].replace(",", "")) for pattern in patterns)
        for number in range(keys + 1):
            write(f"key{number}", number.to_bytes(32, "big"))
        for line, status in {
            f"agep range -k key {most} {most} disk.age": 0, f"agep range -k key {most + 1} 0 disk.age": 2, f"agep range -k key 0 {most + 1} disk.age": 2,
            f"agep encrypt $(printf -- '-k key%d ' {{1..{keys}}}) notes": 0, f"agep encrypt $(printf -- '-k key%d ' {{0..{keys}}}) notes": 1,
        }.items():
            run_example(f"{line} 2>/dev/null", status=status)
        run_example("agep decrypt -k key -o plain disk.age")
        self.assertEqual(f"{os.stat('plain').st_mode & 0o777:o}", str(mode))
        for length, more, is_saved in (9, behind, True), (9, behind + 1, False), (chunk - 16 - behind, behind, True), (chunk - 15 - behind, behind, False):
            write("plain", b"x" * length)
            run_example(f"(agep encrypt -k key plain; head -c {more} /dev/zero) >longer.age")
            run_example("agep salvage -k key -o saved longer.age 2>/dev/null", status=1)
            self.assertEqual(read("saved") == read("plain"), is_saved, f"{length} bytes and {more}")
        with subprocess.Popen([AGEP, "encrypt", "-k", "key"], stdin=subprocess.PIPE, stdout=subprocess.PIPE, bufsize=0) as process:
            for count, seconds in (first - 1, 0.5), (1, 60):
                process.stdin.write(bytes(count))
                self.assertEqual(bool(select.select([process.stdout], [], [], seconds)[0]), count == 1)
            process.communicate()
        self.assertEqual(re.findall(r"^\.TP\n\.B (\d)$", section('"EXIT STATUS"'), re.MULTILINE), ["0", "1", "2"])

    @unittest.skipUnless(shutil.which("mandoc"), "mandoc is missing")
    def test_mandoc(self):
        """mandoc renders the page without a warning."""
        done = subprocess.run(["mandoc", "-T", "lint", "-W", "warning", PAGE], capture_output=True)
        self.assertEqual((done.stdout, done.stderr), (b"", b""))

    def test_man_db(self):
        """man-db renders the page without a warning."""
        env = {**os.environ, "LC_ALL": "C.UTF-8"}
        if not shutil.which("man") or not subprocess.run(["man", "--version"], capture_output=True).stdout.startswith(b"man "):
            self.skipTest("man-db is missing")
        done = subprocess.run(["man", "--warnings", "-l", PAGE], env=env, stdin=subprocess.DEVNULL, capture_output=True)
        self.assertEqual(done.stderr, b"")
        self.assertTrue(done.stdout)


class Completions(unittest.TestCase):
    """The completions of each shell."""

    def assert_offered(self, rows, shells=("bash", "zsh", "fish")):
        """Compares what the shells offer for the last word of lines, in a folder with the file some.age."""
        folder = scratch()
        write(folder + "/some.age", b"")
        for shell in shells:
            with self.subTest(shell):
                if not shutil.which(shell):
                    self.skipTest(f"{shell} is missing")
                self.assertEqual(offered(shell, list(rows), folder), {line: sorted(words) for line, words in rows.items()})

    def test_commands(self):
        """The commands, also after help."""
        every = [*commands(), "help"]
        own = ["-V", "-h", "--help", "--version"]
        self.assert_offered({"agep ": every + own, "agep help ": every, "agep e": ["encrypt"]}, ["bash"])
        self.assert_offered({"agep ": every, "agep -": own, "agep help ": every, "agep e": ["encrypt"], "agep -V e": [], "agep -h -": []}, ["zsh"])
        self.assert_offered({"agep ": every, "agep -": own, "agep help ": commands(), "agep e": ["encrypt"]}, ["fish"])

    def test_blank(self):
        """A blank follows an option that the shell completes."""
        for shell in STARTS:
            with self.subTest(shell):
                if not shutil.which(shell.split()[0]):
                    self.skipTest(f"{shell} is missing")
                *_, words = at_terminal(shell, ["agep encrypt --no-c\tx"], scratch())
                self.assertEqual(words, ["encrypt", "--no-clobber", "x"])

    def test_options(self):
        """Each option of each command. For its value a file, or nothing if the value is a number; in bash
        and zsh no option."""
        options, values, short_joined, long_joined, no_values = {}, {}, {}, {}, {}
        for command in commands():
            options[f"agep {command} -"] = options_of(command)
            for short, long, value in (row for row in option_rows(command) if row[2]):
                file = ["some.age"] * (value != "N")
                values |= {f"agep {command} {option} so": file for option in (short, long)}
                no_values |= {f"agep {command} {option} -": [] for option in (short, long)}
                short_joined[f"agep {command} -v{short[1]}so"] = [f"-v{short[1]}{name}" for name in file]
                long_joined[f"agep {command} {long}=so"] = [f"{long}={name}" for name in file]
        self.assertGreater(len(values), 50)
        self.assert_offered(options | values)
        self.assert_offered(no_values, ["bash", "zsh"])
        self.assert_offered(long_joined, ["zsh", "fish"])
        self.assert_offered(short_joined, ["zsh"])

    def test_descriptions(self):
        """zsh and fish describe each option by the first words of its help."""
        for name, pattern in ("_agep", r"--([a-z-]+)=?\}?(['\"])\[(.*)\](?::(?:number|file):\w*)?\2"), ("agep.fish", r" -l ([a-z-]+) .*-d (')(.*)'$"):
            text = read(f"{FOLDER}/{name}").decode()
            for command in commands():
                part = re.search(rf"^        {command}\)\n((?:            .*\n)*)", text, re.MULTILINE)
                lines = part[1] if part else "\n".join(line for line in text.split("\n") if re.search(rf"[ ']{command}[ '].* -l | -s [hV] ", line))
                found = {"--" + option: words.replace("\\'", "'") for option, _, words in re.findall(pattern, lines, re.MULTILINE)}
                expected = {option: re.split(r"[.;:] |\.$", words)[0] for option, words in texts_of(command).items()}
                if part:
                    expected = {option: words[0].lower() + words[1:] for option, words in expected.items()}
                with self.subTest(f"{name} {command}"):
                    self.assertEqual(found, expected)

    def test_arguments(self):
        """A file for IN, and no option after --."""
        lines = [f"agep {command}{' 0 1' * (command == 'range')} so" for command in commands()]
        self.assert_offered({line: ["some.age"] for line in lines})
        self.assert_offered({f"agep {words} -- -": [] for words in ("decrypt", "encrypt -k key")}, ["bash", "zsh"])
        self.assert_offered({"agep range so": [], "agep range 0 so": []}, ["zsh"])

    def test_options_that_are_given(self):
        """zsh offers no option that a given one excludes. It offers only -k, -K and, except in encrypt, -p a
        second time. After -h or -V it offers nothing."""
        rivals, rows = {"-p": ["-k", "--key"], "-k": ["-p", "--passphrase"], "-P": ["-K", "--new-key"], "-K": ["-P", "--new-pass"]}, {}
        for command in commands():
            for letter, name, value in option_rows(command):
                given = f"agep {command} {letter or name}{' a' * bool(value)}"
                gone = {*rivals.get(letter, []), *([] if letter in ("-k", "-K") or (letter == "-p" and command != "encrypt") else [letter, name])}
                is_last = letter in ("-h", "-V")
                rows |= {f"{given} -": [] if is_last else {*options_of(command)} - gone, f"{given} so": [] if is_last or command == "range" else ["some.age"]}
        self.assert_offered(rows, ["zsh"])
