"""The completions that bash, zsh and fish offer for the last word of a line of agep; the first two run at a
terminal."""

import itertools
import os
import subprocess

from program import ROOT, scratch, write
from terminal import Terminal

FOLDER = ROOT + "/share/completions"
# How bash and zsh read their completions, and make control-T replace the last word by all that
# they offer.
STARTS = {
    "bash --norc": f"source {FOLDER}/agep.bash; bind '\"\\C-t\": insert-completions'",
    "zsh -f": f"""fpath=({FOLDER} $fpath); autoload -Uz compinit && compinit -u -D
        zle -C all complete-word _generic; bindkey '^T' all
        zstyle ':completion:all:*' completer _all_matches _complete; zstyle ':completion:all:*' insert true""",
}


def at_terminal(shell, lines, folder):
    """The arguments of each line after the shell has completed and run it; agep is a function that prints them."""
    read, tell = os.pipe()
    script = scratch() + "/script"
    write(script, f'{STARTS[shell]}\nagep() {{ printf "%s\\n" "$@" . >/dev/fd/{tell}; }}\n'.encode())
    words = ["timeout", "--foreground", "600", *shell.split(), "-i"]
    terminal = Terminal(*words, cwd=folder, env={**os.environ, "TERM": "dumb", "INPUTRC": "/dev/null"}, pass_fds=[tell])
    os.close(tell)
    with open(read) as answers:
        for line in [f". {script}; agep", *(f"{line}\x14" for line in lines)]:
            terminal.type(line.encode())
            yield [word.rstrip("\n") for word in itertools.takewhile(lambda word: word != ".\n", answers)]
    terminal.type(b"exit")
    terminal.status()


def by_fish(lines, folder):
    script = f"source {FOLDER}/agep.fish; for line in $argv; complete -C $line; echo .; end"
    done = subprocess.run(["fish", "--no-config", "-c", script, *lines], cwd=folder, capture_output=True, check=True)
    for part in done.stdout.decode().split(".\n")[:-1]:
        yield [row.split("\t")[0] for row in part.splitlines()]


def offered(shell, lines, folder):
    """The sorted completions for the last word of each line."""
    if shell == "fish":
        return dict(zip(lines, map(sorted, by_fish(lines, folder))))
    (start,) = (start for start in STARTS if start.startswith(shell))
    found = list(at_terminal(start, lines, folder))[1:]
    # Leaves out the words before the last, and the last itself, which stays if nothing is offered.
    return {line: sorted({*words[line.count(" ") - 1 :]} - {line.split(" ")[-1]}) for line, words in zip(lines, found)}
