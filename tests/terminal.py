#!/usr/bin/env python3
"""A program at a terminal of its own, in a session with job control, and what a person types there.

usage: tests/terminal.py PASSPHRASE_FILE COMMAND..

Types a passphrase at each prompt for one, and ends with the command's status; if that is not 0, prints to
standard error all that the terminal showed.
"""

import contextlib
import fcntl
import os
import pty
import queue
import re
import subprocess
import sys
import termios
import threading

sys.dont_write_bytecode = True

from program import PATIENCE, wait_for


class Terminal(subprocess.Popen):
    """A program; those of its streams that `streams` names are the terminal."""

    def __init__(self, *words, streams=("stdin", "stdout", "stderr"), **how):
        self.said, self.has_ended, self.pieces = b"", False, queue.SimpleQueue()
        self.controller, terminal = pty.openpty()
        how |= {"start_new_session": True, "preexec_fn": lambda: fcntl.ioctl(terminal, termios.TIOCSCTTY, 0)}
        super().__init__(words, **dict.fromkeys(streams, terminal), **how)
        os.close(terminal)
        threading.Thread(target=self.receive, daemon=True).start()

    def receive(self):
        with contextlib.suppress(OSError):  # the last program at the terminal has ended
            while True:
                self.pieces.put(os.read(self.controller, 65536))
        self.pieces.put(b"")

    def reads(self):
        """Whether the program has said more; otherwise it has ended."""
        piece = self.pieces.get(timeout=PATIENCE) if not self.has_ended else b""
        self.said += piece
        self.has_ended = not piece
        return not self.has_ended

    def type(self, line):
        os.write(self.controller, line + b"\n")

    def type_secret(self, line):
        """Types a line when the terminal no longer echoes."""
        wait_for(lambda: not termios.tcgetattr(self.controller)[3] & termios.ECHO)
        self.type(line)

    def status(self):
        """Reads until the program has ended, and returns its status."""
        while self.reads():
            pass
        os.close(self.controller)
        return self.wait(PATIENCE)

    def ended(self, input=None):
        """The status, what came on the other streams, and what the terminal shows."""
        others = [text for text in self.communicate(input, timeout=PATIENCE) if text is not None]
        return self.status(), *others, self.said.decode().replace("\r\n", "\n")


def main():
    with open(sys.argv[1], "rb") as file:
        line = file.read().removesuffix(b"\n")
    terminal = Terminal(*sys.argv[2:])
    while terminal.reads():
        if re.search(rb"passphrase[^\r\n]*: $", terminal.said):
            terminal.type_secret(line)
    if terminal.status() != 0:
        sys.stderr.buffer.write(terminal.said)
    return terminal.returncode


if __name__ == "__main__":
    sys.exit(main())
