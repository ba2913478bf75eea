"""Terminals, broken pipes, signals, closed streams, /dev/urandom, device numbers, system calls."""

import itertools
import os
import re
import shutil
import signal
import subprocess
import unittest

import fixture
from fixture import HELLO, KEY, PLAIN
from messages import message
from program import AGEP, ProgramCase, fault, preload, read, write
from terminal import Terminal
from test_progress import ERASE


def tool(name):
    """The path of a tool; skips the test if it is missing."""
    found = shutil.which(name)
    if found is None:
        raise unittest.SkipTest(f"the command {name} is missing")
    return found


class Terminals(ProgramCase):
    def on_terminal(self, *words):
        """Runs the program with a terminal as standard output; returns its status, its standard error, and what the
        terminal shows."""
        return Terminal(AGEP, *words, streams=["stdout"], stdin=subprocess.DEVNULL, stderr=subprocess.PIPE).ended()

    def test_refused(self):
        """An encrypted file is not printed on a terminal."""
        line = fault(message("OutputIsTerminal")).encode()
        for words in (
            "encrypt -k key hello", "rewrap -k key -K other.key key.age", "encrypt -k absent -s absent nowhere",
            "rewrap -p absent -P absent nowhere",
        ):
            with self.subTest(words):
                self.assertEqual(self.on_terminal(*words.split()), (1, line, ""))
        for words, name in (("encrypt", "KeyChoice"), ("rewrap -p pass", "NewKeyChoice")):
            with self.subTest(words):
                self.assertEqual(self.on_terminal(*words.split()), (1, fault(message(name)).encode(), ""))

    def test_taken(self):
        """encrypt at a terminal to a file, and decrypt to a terminal."""
        self.assertEqual(self.on_terminal("encrypt", "-k", "key", "-s", "seed", "-o", "made", "hello"), (0, b"", ""))
        self.assert_file("made", read("key.age"))
        self.assertEqual(self.on_terminal("decrypt", "-k", "key", "key.age"), (0, b"", HELLO.decode()))


class ClosedPipes(ProgramCase):
    def test_before(self):
        """A pipe whose reader has left before the program starts."""
        for words in (
            "encrypt -k key two_chunks", "decrypt -k key two.age", "rewrap -p pass -K new.key two_pass.age", "range -k key 0 140000 plain.age",
            "salvage -k key two.age", "inspect data/three_recipients.age", "inspect -r data/three_recipients.age",
        ):
            command, *rest = words.split()
            for options, more in ((), None), (("-v",), "writing standard output: Broken pipe"):
                with self.subTest(f"{words} {' '.join(options)}"):
                    reader, writer = os.pipe()
                    os.close(reader)
                    ran = self.run_agep(command, *options, *rest, stdout=writer)
                    os.close(writer)
                    self.assert_ended(ran, 1, fault(message("Write"), more))


class Interrupted(ProgramCase):
    def test_signal(self):
        """A signal during scrypt, by a timer of processor time: an existing OUT stays as it was."""
        write("slow.age", fixture.for_passphrase(HELLO, work=18))
        shutil.copy("yesterday", "made")
        os.utime("made", (10**9, 10**9))
        for words in ("encrypt -p pass -w 18 -o made hello", "decrypt -p pass -o made slow.age"):
            with self.subTest(words):
                timer = signal.ITIMER_VIRTUAL, 0.1
                ran = subprocess.run([AGEP, *words.split()], stdin=subprocess.DEVNULL, preexec_fn=lambda: signal.setitimer(*timer))
                self.assertEqual(ran.returncode, -signal.SIGVTALRM)
                self.assert_file("made", read("yesterday"))
                self.assertEqual(os.stat("made").st_mtime, 10**9)


class ClosedStreams(ProgramCase):
    """No file of a job gets the descriptor of a closed standard output or standard error."""

    def run_closed(self, words, closed, is_terminal):
        """Runs the program with these streams closed and a terminal or a pipe as standard error. Returns its
        status, its output and its standard error."""
        line = " ".join([words, "<key.age", *(f"{number}{'<' if number == 0 else '>'}&-" for number in closed)])
        if is_terminal:
            return Terminal("bash", "-c", f'exec "$0" {line}', AGEP, streams=["stderr"], stdout=subprocess.PIPE).ended()
        ran = self.run_line(line)
        return ran.status, ran.out, ran.err.decode()

    def test_each(self):
        """All eight sets of closed streams, with and without -v, in a pipe and at a terminal."""
        closed = "Bad file descriptor"
        saved = "chunk 0 is lost: bytes 0 to 5 of the plaintext", "the file ends after 22 bytes of chunk 0: more may be missing"
        for streams in itertools.chain.from_iterable(itertools.combinations(range(3), count) for count in range(4)):
            reads = 0 not in streams, "reading standard input: " + ("Is a directory" if {1, 2} & set(streams) else closed)
            for words, needs, out, line in (
                ("decrypt -k key key.age", 1, HELLO, None), ("decrypt -k key", 1, HELLO, None), ("encrypt -k key -s seed hello", 1, read("key.age"), None),
                ("range -k key 0 9 key.age", 1, HELLO, None), ("rewrap -k key -K key -s seed key.age", 1, read("key.age"), None),
                ("decrypt -k key -o made key.age", None, b"", None), ("encrypt -k key -s seed -o made hello", None, b"", None),
                ("range -k key -o made 1 5 key.age", None, b"", None), ("rewrap -k key -K key -s seed -o made key.age", None, b"", None),
                ("salvage -k key -o made damaged.age", None, b"", saved), ("inspect -r key.age", 1, read("key.age")[:156], None),
            ):
                for option in ("", " -v"):
                    for is_terminal in (False, True):
                        with self.subTest(f"{words}{option}, {streams} closed, {'at a terminal' if is_terminal else 'in a pipe'}"):
                            status, more = int(line is not None), None
                            if words == "decrypt -k key" and not reads[0]:
                                status, line, more, out = 1, message("Read"), reads[1], b""
                            elif needs in streams:
                                status, line, more, out = 1, message("Write"), f"writing standard output: {closed}", b""
                            erase = ERASE if option and is_terminal else ""
                            if 2 in streams or line is None:
                                said = ""
                            elif line == saved:
                                said = "".join(erase + fault(text, None) for text in saved)
                            else:
                                said = fault(line, more if option else None)
                            self.assertEqual(self.run_closed(words + option, streams, is_terminal), (status, out, said))
                            if " -o made " in words:
                                made = {"de": HELLO, "en": read("key.age"), "re": read("key.age"), "ra": HELLO[1:], "sa": bytes(6)}
                                self.assert_file("made", made[words[:2]])
                                os.remove("made")

    def test_by_name(self):
        """No name of a closed output stream, such as /dev/stdout, leads to a file."""
        for streams, name in ((1,), "/dev/stdout"), ((2,), "/dev/stderr"), ((1, 2), "/dev/fd/1"), ((0, 1, 2), "/dev/fd/2"):
            with self.subTest(f"-o {name}, {streams} closed"):
                line = "" if 2 in streams else fault(message("CannotCreate", name))
                self.assertEqual(self.run_closed(f"decrypt -k key -o {name} key.age", streams, False), (1, b"", line))

    def test_no_folder(self):
        """If no folder can be opened in place of a closed output stream, nothing is done."""
        if os.geteuid() != 0:
            self.skipTest("this needs the right to change the root")
        os.makedirs("root/d")
        shutil.copy(AGEP, "root/agep")
        for library in re.findall(r"/\S+", subprocess.run(["ldd", AGEP], capture_output=True, text=True).stdout):
            os.makedirs("root" + os.path.dirname(library), exist_ok=True)
            shutil.copy(library, "root" + library)
        for name in ("key", "damaged.age"):
            shutil.copy(name, "root")
            os.chmod("root/" + name, 0o644)
        os.chmod("root/d", 0o777)
        os.chmod(self.folder, 0o755)
        for mode, folder, line, made in (
            (0o755, "/", "2>&-", bytes(6)), (0o711, "/", "2>&-", None), (0o711, "/", ">&- 2>&-", None), (0o711, "/", "", bytes(6)),
            (0o711, "/", "<&-", bytes(6)), (0o711, "/d", "2>&-", bytes(6)),
        ):
            with self.subTest(f"mode {mode:o}, in {folder}, {line}"):
                os.chmod("root", mode)
                words = f"/agep salvage -k /key -o /d/out /damaged.age {line}"
                script = f"import os; os.chroot('root'); os.chdir('{folder}'); os.setgid(65534); os.setuid(65534); os.execv('/agep', {words.split(' ')[:7]!r})"
                ran = subprocess.run(["bash", "-c", f'exec python3 -c "$0" {line}', script], capture_output=True, timeout=600)
                self.assertEqual(ran.returncode, 1, ran.stderr)
                self.assertEqual(read("root/d/out") if os.path.exists("root/d/out") else None, made)
                if made:
                    os.remove("root/d/out")


class DefaultSeed(ProgramCase):
    """The seed is read from /dev/urandom only if that is, as far as is known, a character device. These tests
    replace /dev/urandom for their own processes."""

    def with_device(self, device, *words, under=()):
        done = subprocess.run(
            ["unshare", "-m", "bash", "-c", f'mount --bind {device} /dev/urandom && exec "$@"', "bash", *under, AGEP, *words],
            stdin=subprocess.DEVNULL, capture_output=True, timeout=600,
        )
        return done.returncode, done.stderr.decode(), len(done.stdout) > 0

    def test_devices(self):
        """A regular file there is refused; a character device is used, and so is the file that -s names. If the
        system does not tell which it is, a file with an end is refused."""
        tool("unshare")
        allowed = subprocess.run(["unshare", "-m", "mount", "--bind", "/dev/null", "/dev/urandom"], stderr=subprocess.DEVNULL)
        if allowed.returncode != 0:
            self.skipTest("this needs the right to mount")
        untold = "env", f"LD_PRELOAD={preload('calls')}", "CALL=statx", "NUMBER=0", "DO=38"
        for words in ("encrypt -k key hello", "rewrap -k key -K other.key key.age"):
            with self.subTest(words):
                line, more = message("CannotOpen", "/dev/urandom"), "seed file /dev/urandom: not a device, so its bytes may repeat"
                self.assertEqual(self.with_device("seed", *words.split()), (1, fault(line), False))
                self.assertEqual(self.with_device("seed", *words.split(), "-v"), (1, fault(line, more), False))
                self.assertEqual(self.with_device("/dev/zero", *words.split()), (0, "", True))
                self.assertEqual(self.with_device("seed", *words.split(), "-s", "seed"), (0, "", True))
                self.assertEqual(self.with_device("seed", *words.split(), under=untold), (1, fault(message("Unidentified", "/dev/urandom")), False))
                self.assertEqual(self.with_device("/dev/zero", *words.split(), under=untold), (0, "", True))


class SameInode(ProgramCase):
    """Two names are one file if both device and inode are the same."""

    def mounted(self, script):
        """The status, output and standard error of a script that mounts, in its own namespace."""
        tool("unshare")
        words = ["unshare", "-m", "bash", "-ec", script, "bash", AGEP]
        done = subprocess.run(words, stdin=subprocess.DEVNULL, capture_output=True, timeout=600)
        if b"mount: " in done.stderr or b"unshare: " in done.stderr:
            self.skipTest("this needs the right to mount")
        return done.returncode, done.stdout.decode(), done.stderr.decode()

    def test_two_devices(self):
        """Files with the same inode on two devices are different."""
        status, out, err = self.mounted("""
            mkdir one two && mount -t tmpfs none one && mount -t tmpfs none two
            cp hello one/in && cp yesterday two/out && stat -c %i one/in two/out | sort -u | wc -l
            "$1" encrypt -k key -s seed -o two/out one/in && cmp two/out key.age""")
        if out.split() != ["1"]:
            self.skipTest("the first files of two devices have other inodes")
        self.assertEqual((status, err), (0, ""))

    def test_one_file(self):
        """A file mounted at another name is the same file."""
        os.link("hello", "first")
        write("second", b"")
        status, out, err = self.mounted('mount --bind first second && "$1" encrypt -k key -o second first')
        self.assertEqual((status, out, err), (1, "", fault(message("OutputIsRead", "Input", "second"))))
        self.assert_file("first", HELLO)

    def test_one_block_device(self):
        """Nodes with the same number are one block device; a character device may be both IN and OUT."""
        write("disk", PLAIN[:65536])
        for out in ("$disk", "node"):
            for option in ("-o ", ">"):
                with self.subTest(f"{option}{out}"):
                    status, said, err = self.mounted(f"""
                        disk=$(losetup -f --show disk) || {{ echo "mount: no device" >&2; exit 1; }}
                        trap 'rm -f node; losetup -d "$disk"' EXIT
                        mknod node b $(stat -c '0x%t 0x%T' "$disk") && echo "$disk"
                        status=0; "$1" encrypt -k key "$disk" {option}{out} || status=$?
                        cmp "$disk" disk && exit "$status" """)
                    disk = said.strip()
                    name = "standard output" if option == ">" else disk if out == "$disk" else "node"
                    self.assertEqual((status, err), (1, fault(message("OutputIsRead", "Input", name))))
        self.writes(b"", "encrypt", "-k", "key", "-o", "/dev/null", "/dev/null")

    def test_without_proc(self):
        """Without /proc no name leads to standard input: then an existing OUT is refused, and a new one is
        created."""
        write("in", PLAIN)
        write("in.age", fixture.for_keys(PLAIN, KEY))
        for words, name in (
            ("encrypt -k key -s seed -o in", "in"), ("decrypt -k key -o in.age", "in.age"),
            ("rewrap -k key -K key -s seed -o in.age", "in.age"), ("salvage -k key -o in.age", "in.age"),
        ):
            for hidden, line in (
                ("/proc", message("Unidentified", "standard input")), ("/dev", message("OutputIsRead", "Input", name)),
                ("/proc /dev", message("Unidentified", "standard input")),
            ):
                with self.subTest(f"{words}, without {hidden}"):
                    hide = " && ".join(f"mount -t tmpfs none {folder}" for folder in hidden.split())
                    old = read(name)
                    self.assertEqual(self.mounted(f'{hide} && "$1" {words} <{name}'), (1, "", fault(line)))
                    self.assert_file(name, old)
                    self.assertEqual(self.mounted(f'{hide} && "$1" {words}.new <{name}'), (0, "", ""))
                    os.remove(name + ".new")


class SystemCalls(ProgramCase):
    def trace(self, *words, input=b"", calls="read,write"):
        """The sizes of the reads and writes of a run, by kind and descriptor."""
        tool("strace")
        if subprocess.run(["strace", "-o", "trace", "true"], capture_output=True).returncode != 0:
            self.skipTest("strace is not allowed to trace")
        done = subprocess.run(
            ["strace", "-o", "trace", "-e", f"trace={calls}", AGEP, *words], stdin=input, capture_output=True, timeout=600
        )
        self.assertEqual(done.returncode, 0, done.stderr)
        rows = re.findall(r"^(\w+)\((\d+), .* = (\d+)$", read("trace").decode("latin1"), re.MULTILINE)
        sizes = {}
        for kind, descriptor, size in rows:
            sizes.setdefault(kind + descriptor, []).append(int(size))
        return sizes

    def test_inspect(self):
        """A header of 65,534 bytes takes at most two reads and two writes."""
        for options in ((), ("-r",)):
            with self.subTest(f"inspect {' '.join(options)}"), open("recipients_668.age", "rb") as stdin:
                sizes = self.trace("inspect", *options, input=stdin)
                self.assertTrue(1 <= len(sizes["read0"]) <= 2 and 1 <= len(sizes["write1"]) <= 2, sizes)

    def test_range(self):
        """range reads the chunks that it touches and the last one, once each."""
        for at, size, whole in ((65530, 12, 2), (139990, 5, 0), (0, 0, 0)):
            with self.subTest(f"{size} bytes from {at} on"):
                sizes = self.trace("range", "-k", "key", str(at), str(size), "plain.age", input=subprocess.DEVNULL)
                read_sizes = [it for kind, row in sizes.items() if kind.startswith("read") for it in row]
                self.assertEqual((read_sizes.count(65552), read_sizes.count(8944)), (whole, 1), read_sizes)

    def test_whole_chunks(self):
        """encrypt and decrypt move at least 64 KiB in a call, except in the first two and the last two reads,
        and in the first and the last write."""
        many = b"".join(b"%d\n" % i for i in range(1, 100001))[:450000]
        for words, text in (("encrypt -k key -s seed", many), ("decrypt -k key", fixture.for_keys(many, KEY))):
            with self.subTest(words):
                write("in", text)
                with open("in", "rb") as stdin:
                    sizes = self.trace(*words.split(), input=stdin)
                self.assertGreater(len(sizes["read0"]), 6)
                self.assertGreater(len(sizes["write1"]), 6)
                self.assertGreaterEqual(min(sizes["read0"][2:-2]), 65536, sizes)
                self.assertGreaterEqual(min(sizes["write1"][1:-1]), 65536, sizes)
