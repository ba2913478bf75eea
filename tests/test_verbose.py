"""The second lines that `-v` adds to messages. Each run is repeated without -v, where the first line is
the only one."""

import resource
import shlex
import signal

from fixture import PLAIN, changed, with_other_mac
from program import BY_PASSPHRASE, OPENING, ProgramCase, preload, read, write

# The commands that read the header of IN, which must follow.
READING = ("inspect", *OPENING)
NO_FILE, FULL, CLOSED = "No such file or directory", "No space left on device", "Bad file descriptor"
RAW_KEY, RAW_FILE_KEY = "a key file holds 32 raw bytes, not hexadecimal", "a file key file holds 16 raw bytes, not hexadecimal"
SHORT_SEED = "a seed file holds at least 48 bytes"
# Unicode Standard Annex 9, section 2
DIRECTING = "\u061c\u200e\u200f\u202a\u202b\u202c\u202d\u202e\u2066\u2067\u2068\u2069"
MARK = b"\xef\xbb\xbf"
# The first bytes of OpenPGP's encrypted session keys (RFC 9580, section 4.2): tags 1 and 3, in the old form with a length
# of 1, 2 or 4 bytes, and in the new one.
PACKETS = [*(0x80 | tag << 2 | kind for tag in (1, 3) for kind in range(3)), 0xC1, 0xC3]


def no_growth():
    """Forbids files of this process to grow: a write fails, without a signal."""
    signal.signal(signal.SIGXFSZ, signal.SIG_IGN)
    resource.setrlimit(resource.RLIMIT_FSIZE, (0, 0))


class Verbose(ProgramCase):
    def explains(self, name, more, *lines, out=b"", **how):
        """Lines must end with the fault of this name and, with -v, a second line `more`, if any."""
        for line in lines:
            command, _, rest = line.partition(" ")
            with self.subTest(line.replace("\n", "\\n")):
                self.line_says(name, f"{command} -v {rest}", more, out=out, **how)
                self.line_says(name, line, out=out, **how)


class Files(Verbose):
    def test_opening(self):
        """Files that cannot be opened."""
        lines = [
            "encrypt -k key absent", "encrypt -k key -k absent hello", "encrypt -k key -s absent hello", "rewrap -k key -P absent key.age",
            "inspect -f absent key.age", *(f"{command} absent" for command in READING),
        ]
        self.explains("CannotOpen: absent", f"opening absent: {NO_FILE}", *lines)
        self.explains("CannotOpen: hello/a", "opening hello/a: Not a directory", *(f"{it} hello/a" for it in READING))

    def test_creating(self):
        """OUTs that cannot be created."""
        for name, why in ("absent/a", NO_FILE), ("folder", "Is a directory"), ("n" * 300, "File name too long"):
            lines = [f"encrypt -k key -o {name} hello", *(f"{it} -o {name} key.age" for it in OPENING)]
            self.explains(f"CannotCreate: {name}", f"creating {name}: {why}", *lines)

    def test_names(self):
        """Both lines escape control characters and those that set the direction of writing."""
        for name, shown in (
            ("", ""), ("a\nb", "a\\nb"), *((f"a{c}b", f"a\\u{{{ord(c):x}}}b") for c in DIRECTING), ("a\u200db\u2065", "a\u200db\u2065"),
        ):
            self.explains(f"CannotOpen: {shown}", f"opening {shown}: {NO_FILE}", f"inspect {shlex.quote(name)}")

    def test_reading(self):
        """Folders, and a closed standard input."""
        for command in ("encrypt -k key", *READING):
            self.explains("Read", "reading folder: Is a directory", f"{command} folder")
            if not command.startswith("range"):
                self.explains("Read", f"reading standard input: {CLOSED}", f"{command} <&-")
        for role, line in (
            ("passphrase", "decrypt -p folder key.age"),
            ("key", "encrypt -k folder hello"),
            ("key", "salvage -k folder key.age"),
            ("new key", "rewrap -k key -K folder key.age"),
            ("seed", "encrypt -k key -s folder hello"),
            ("file key", "inspect -f folder key.age"),
        ):
            self.explains("Read", f"reading the {role} file folder: Is a directory", line)

    def test_writing(self):
        """Outputs that cannot be written: a full device, a closed standard output, and a file that may not grow."""
        few = ("encrypt -k key hello", "range -k key 0 5 key.age", *(f"{command} key.age" for command in OPENING))
        many = (
            "encrypt -k key two_chunks", "decrypt -k key two.age", "range -k key 0 140000 key.age", "salvage -k key two.age",
            "rewrap -p pass -K new.key two_pass.age",
        )
        headers = ("inspect key.age", "inspect data/three_recipients.age", "inspect -r data/three_recipients.age")
        self.explains("Write", f"writing /dev/full: {FULL}", *(f"{it} -o /dev/full" for it in few + many))
        self.explains("Write", f"writing standard output: {FULL}", *(f"{it} >/dev/full" for it in few + many + headers))
        self.explains("Write", f"writing standard output: {CLOSED}", *(f"{it} >&-" for it in few + many + headers))
        for line in few:
            self.explains("Write", "writing limited: File too large", f"{line} -o limited", preexec_fn=no_growth)


class SmallFiles(Verbose):
    def test_sizes(self):
        """Secrets and seeds of the wrong size."""
        for size in (12, 15, 64, 65):
            write(f"size.{size}", PLAIN[:size])
        write("most", PLAIN[:65536])
        for role, words, rest in (
            ("key", "encrypt -k", "hello"),
            ("key", "decrypt -k key -k", "key.age"),
            ("key", "range -k", "0 1 key.age"),
            ("key", "salvage -k", "key.age"),
            ("new key", "rewrap -k key -K", "hello"),
        ):
            for name, size in (
                ("empty", "0"), ("short.key", "31"), ("long.key", "33"), ("size.64", "64"), ("size.65", "65"), ("most", "65536"),
                ("long.pass", "more than 65536"), ("/dev/zero", "more than 65536"),
            ):
                self.explains("KeyLength", f"{role} file {name}: {size} bytes; {RAW_KEY}", f"{words} {name} {rest}")
        for name, size in (("size.12", 12), ("empty", 0)):
            for line in (f"encrypt -k key -s {name} hello", f"rewrap -k key -K key -s {name} key.age"):
                self.explains("SeedLength", f"seed file {name}: {size} bytes; {SHORT_SEED}", line)
        for name, size in (("size.15", 15), ("key", 32)):
            self.explains("FileKeyLength", f"file key file {name}: {size} bytes; {RAW_FILE_KEY}", f"inspect -f {name} key.age")

    def test_passphrases(self):
        """Passphrase files that are too long, or refused for a new file."""
        for role, line in (
            ("passphrase", "decrypt -p long.pass pass.age"),
            ("passphrase", "range -p long.pass 0 1 pass.age"),
            ("passphrase", "salvage -p long.pass pass.age"),
            ("new passphrase", "rewrap -p pass -P long.pass pass.age"),
        ):
            self.explains("PassphraseLength", f"{role} file long.pass: more than 65536 bytes", line)
        for fault, name, text in (
            ("NoPassphrase", "empty", b""), ("NoPassphrase", "lf", b"\n"), ("UntypedPassphrase", "cr", b"word\r"), ("UntypedPassphrase", "mark", MARK + b"word"),
        ):
            write(name, text)
            self.explains(fault, f"passphrase file: {name}", f"encrypt -p {name} hello")
            self.explains(fault, f"new passphrase file: {name}", f"rewrap -k key -P {name} key.age")


class Faults(Verbose):
    """Faults of IN."""

    def test_fronts(self):
        """Files that other programs made, and empty ones."""
        gpg, openssl = (f"it begins as files of {program} do, which decrypts them" for program in ("gpg", "openssl enc"))
        mark = "it begins with a byte-order mark"
        for at, (front, why) in enumerate((
            (b"-----BEGIN AGE ENCRYPTED FILE-----\n", "it begins with ASCII armor; age decrypts such a file"),
            *((front, mark) for front in (MARK + b"age-encryption.org/v1\n", "age-encryption.org/v1\n".encode("utf-16"))),
            (b"-----BEGIN PGP MESSAGE-----\n", gpg), *((bytes([front]), gpg) for front in PACKETS),
            (b"Salted__", openssl),
        )):
            write(f"other.{at}", front + PLAIN[:100])
            self.explains("NotAge", f"other.{at}: {why}", *(f"{command} other.{at}" for command in READING))
            self.explains("NotAge", f"standard input: {why}", f"decrypt -k key <other.{at}")
            if len(front) == 1:
                one_byte = {"LD_PRELOAD": preload("calls"), "CALL": "read", "NUMBER": "0", "DO": "one"}
                self.explains("NotAge", f"other.{at}: {why}", f"decrypt -k key other.{at}", env=one_byte)
        for name in ("empty", "/dev/null"):
            self.explains("HeaderTruncated", f"{name}: the file is empty", *(f"{command} {name}" for command in ("inspect -r", *READING)))

    def test_secrets(self):
        """The files of the secrets that do not open IN, with stanzas of their type or without."""
        lines = [f"{command.replace('-k key', '-k other.key')} key.age" for command in OPENING]
        self.explains("WrongKey", "key.age: not opened by key file other.key", *lines)
        self.explains("NoMatch", "pass.age: not opened by key file key", *(f"{command} pass.age" for command in OPENING))
        self.explains("NoMatch", "key.age: not opened by passphrase file pass", *(f"{command} key.age" for command in BY_PASSPHRASE))
        write("cr", b"correct horse\r")
        more = "standard input: not opened by passphrase file other.pass, passphrase file cr"
        self.explains("WrongKey", more, "decrypt -p other.pass -p cr <pass.age", "rewrap -p other.pass -p cr -P new.pass <pass.age")

    def test_others(self):
        """Other faults name IN."""
        key_age, pass_age = read("key.age"), read("pass.age")
        key_end, salt = key_age.index(b"\n--- ") + 5, pass_age.split(b" ")[2]
        for fault, text, commands in (
            ("NotAge", PLAIN, READING),
            ("HeaderTruncated", key_age[:120], READING),
            ("HeaderTooLarge", b"age-encryption.org/v1\n-> a" + b"a" * 70000, READING),
            ("BadLine: 4", key_age[:key_end] + b"_" + key_age[key_end + 1 :], READING),
            ("BadMac", with_other_mac(key_age), [it for it in OPENING if "salvage" not in it]),
            ("Malformed: Salt", pass_age.replace(salt, b"AAAA"), BY_PASSPHRASE),
            ("NonceTruncated", key_age[:160], [it for it in OPENING if "rewrap" not in it]),
            ("BadChunk: 0", changed(key_age, -1), ["decrypt -k key"]),
        ):
            write("made", text)
            self.explains(fault, "IN: made", *(f"{command} made" for command in commands))
        self.explains("BadChunk: 0", "IN: standard input", "decrypt -k key <made")

    def test_no_second_line(self):
        """Faults whose first line says everything have no second line."""
        for name, line in (
            ("KeyChoice", "encrypt hello"),
            ("NewKeyChoice", "rewrap -k key key.age"),
            ("StandardInputTwice: Input, Key", "encrypt -k /dev/stdin"),
            ("OutputIsRead: Key, key", "encrypt -k key -o key hello"),
            *(("OutputIsRead: Input, key.age", f"{command} -o key.age key.age") for command in OPENING),
        ):
            self.explains(name, None, line)
