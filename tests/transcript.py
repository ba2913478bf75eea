#!/usr/bin/env python3
"""Runs the commands of transcripts, and compares the output of each with the lines below it.

usage: tests/transcript.py [NAME..]     tests/cli/NAME.console, README or USE; or all of them
       tests/transcript.py --list       the names

A transcript is text with blocks that begin with ```console and end with ```. In a block a line that
begins with `$ ` is a command for bash; if it ends with &&, | or \\, the next line continues it. Below
the command are the lines of its standard output, those of its standard error, each after `2> `, and
[status N] if the status is not 0. [no line end] follows a last line of output without a line end.
`agep: <NAME>` and `agep: <NAME: WORD>` stand for the messages that docs/FORMAT.md and
tests/messages.txt have for a fault; a failed check shows their texts.

The commands of a transcript run one after another in one shell with `pipefail`, in a copy of the folder that
fixture.py makes, with an empty standard input. ROOT is the folder of the repository.

README.md and docs/USE.md are transcripts, too: their commands run in a folder like a clone, without pipefail,
standard error is mixed with standard output, and no status is shown. The gate itself is not run, and the
output of a build is left out.

The last line is 'N passed, M failed', over all commands.
"""

import concurrent.futures
import difflib
import os
import re
import subprocess
import sys

sys.dont_write_bytecode = True

import messages
import program

CLI = program.TESTS + "/cli"
DOCUMENTS = {"README": "README.md", "USE": "docs/USE.md"}
# The time limit of a transcript in seconds.
PATIENCE = 3000
GOES_ON = ("&&", "|", "\\")


class Command:
    def __init__(self, where, line):
        self.where = where
        self.lines = [line]
        self.expected = []
        self.source = "expected"

    def goes_on(self):
        return self.lines[-1].endswith(GOES_ON) and not self.expected

    def expect(self, line):
        self.expected.append(messages.filled(line))
        if self.expected[-1] != line:
            self.source = f"expected, by {messages.NAMES}"


def read_text(name):
    with open(name, encoding="utf-8", errors="surrogateescape", newline="") as file:
        return file.read()


def commands_of(name):
    """The commands of a transcript, each with its expected output."""
    commands, inside = [], False
    for number, line in enumerate(read_text(name).split("\n"), 1):
        if line.startswith("```"):
            inside = line == "```console"
        elif inside and line.startswith("$ "):
            commands.append(Command(f"{os.path.relpath(name, program.ROOT)}:{number}", line[2:]))
        elif inside and not commands:
            sys.exit(f"{name}:{number}: a block begins without a command")
        elif inside and commands[-1].goes_on():
            commands[-1].lines.append(line)
        elif inside:
            try:
                commands[-1].expect(line)
            except KeyError as error:
                sys.exit(f"{name}:{number}: {error.args[0]}")
    return commands


def lines_of(text, mark=""):
    """Lines, as a transcript shows them."""
    if not text:
        return []
    *lines, rest = text.split("\n")
    lines = [(mark + line).rstrip(" ") if mark and not line else mark + line for line in lines]
    return lines + ([mark + rest, "[no line end]"] if rest else [])


class Session:
    """A shell that has run some commands, and their output."""

    def __init__(self, commands, folder, room, is_merged):
        self.room = room
        self.is_merged = is_merged
        os.mkdir(room)
        with open(room + "/run", "w", encoding="utf-8", errors="surrogateescape") as script:
            script.write("umask 022\n" if is_merged else "umask 022\nset -o pipefail\n")
            for number, command in enumerate(commands):
                with open(f"{room}/command.{number}", "w", encoding="utf-8", errors="surrogateescape") as file:
                    file.write("\n".join(command.lines) + "\n")
                err = "&1" if is_merged else f"'{room}/err.{number}'"
                script.write(
                    f"eval \"$(<'{room}/command.{number}')\" >'{room}/out.{number}' 2>{err} </dev/null\n"
                    f"echo $? >'{room}/status.{number}'\n"
                )
        environment = {**os.environ, "PATH": f"{room}/bin:{os.environ['PATH']}", "TMPDIR": room, "ROOT": program.ROOT}
        os.mkdir(room + "/bin")
        os.symlink(program.AGEP, room + "/bin/agep")
        words = ["timeout", str(PATIENCE), "bash", room + "/run"]
        subprocess.run(words, cwd=folder, env=environment, stdin=subprocess.DEVNULL)

    def printed(self, number):
        """The output of a command, or `[not run]` if the shell ended before the command did."""
        if not os.path.exists(f"{self.room}/status.{number}"):
            return ["[not run]"]
        lines = lines_of(read_text(f"{self.room}/out.{number}"))
        if self.is_merged:
            return lines
        lines += lines_of(read_text(f"{self.room}/err.{number}"), "2> ")
        status = read_text(f"{self.room}/status.{number}").strip()
        return lines + ([f"[status {status}]"] if status != "0" else [])


def compare(command, printed):
    """Prints the line of a check and, if it fails, a diff; returns whether it passes."""
    title = f"{command.where}: {command.lines[0]}"
    passes = command.expected == printed
    lines = [f"{'ok' if passes else 'FAILED'}: {title}"]
    if not passes:
        lines += difflib.unified_diff(command.expected, printed, command.source, "printed", lineterm="", n=100)
    print("\n".join(lines).encode("utf-8", "backslashreplace").decode(), flush=True)
    return passes


def run_transcript(name):
    """The commands of a transcript, and the output of each."""
    room = program.scratch()
    folder = room + "/work"
    if name in DOCUMENTS:
        os.mkdir(folder)
        for entry in os.listdir(program.ROOT):
            if not entry.startswith("."):
                os.symlink(f"{program.ROOT}/{entry}", f"{folder}/{entry}")
        commands = [it for it in commands_of(f"{program.ROOT}/{DOCUMENTS[name]}") if it.lines[0] != ".ci/run"]
        for command in commands:
            command.expected = [line for line in command.expected if not re.match("agep: buil(ding|t) ", line)]
    else:
        program.copy_fixture(folder)
        commands = commands_of(f"{CLI}/{name}.console")
    session = Session(commands, folder, room + "/room", name in DOCUMENTS)
    return [(command, session.printed(number)) for number, command in enumerate(commands)]


def main():
    names = sorted(name[: -len(".console")] for name in os.listdir(CLI) if name.endswith(".console")) + [*DOCUMENTS]
    if sys.argv[1:] == ["--list"]:
        print(*names, sep="\n")
        return 0
    for name in sys.argv[1:]:
        if name not in names:
            sys.exit(f"{sys.argv[0]}: no transcript is named {name}: {' '.join(names)}")
    program.build()
    program.fixture_folder()
    results = []
    with concurrent.futures.ThreadPoolExecutor(program.AT_A_TIME) as pool:
        for rows in pool.map(run_transcript, sys.argv[1:] or names):
            results += [compare(*row) for row in rows] or [False]
    print(f"{sum(results)} passed, {results.count(False)} failed")
    return not all(results)


if __name__ == "__main__":
    sys.exit(main())
