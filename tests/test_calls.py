"""Runs each command with each of its reads and writes cut short, and each of its calls on files failing, in turn.
A short call changes nothing. After a failing call the run goes on (`salvage` may lose a chunk), or ends with its
message, status 1, and a prefix of the output or OUT as it was; status 0 never comes with an incomplete file."""

import copy
import errno
import functools
import itertools
import os
import resource

import fixture
import reference
from fixture import HELLO, KEY, PLAIN, SALT, SEED, with_other_mac
from messages import filled, message
from program import INTERRUPTED, IO_ERROR, ProgramCase, fault, preload, read, write
from test_files import ROLES
from test_headers import table
from test_salvage import lost_lines
from testkit import SEALED

ATOMIC, NEW = "--atomic -o", "made.agep-new"
# Takes more than one read.
LONG_PASSPHRASE = b"".join(b"%d\n" % i for i in range(1, 1001))
LONG_PLAIN = PLAIN[:131173]
PART = PLAIN[65530 : 65530 + 65550]
# The sizes of the header with the nonce, and of the whole file.
HEAD, FILE = 172, 172 + 2 * SEALED + 117
YESTERDAY = b"".join(b"%d\n" % i for i in range(1, 50001))
# Errors of the system, most of which calls on files can return.
ERRORS = (
    *range(1, 41), errno.ENODATA, errno.EOVERFLOW, errno.EOPNOTSUPP, errno.ETIMEDOUT, errno.ESTALE, errno.EREMOTEIO, errno.EDQUOT,
)


class Job:
    """A command line without -o and IN, the name of IN, and the expected output."""

    def __init__(self, words, name, expected, reads, writes):
        self.words = words.split()
        self.name = name
        self.expected = expected
        # the least number of calls of each kind
        self.least = {"read": reads, "write": writes}
        self.has_out = self.words[0] != "inspect"

    def __str__(self):
        return " ".join(self.words)

    def forms(self):
        return ("-o", "") if self.has_out else ("",)


def jobs():
    key_age = fixture.for_keys(LONG_PLAIN, KEY)
    # an LF at the end of a passphrase file does not belong to the passphrase
    pass_age = reference.age_file(SEED, [reference.passphrase_stanza(LONG_PASSPHRASE[:-1], 4, SALT)], LONG_PLAIN)
    header = key_age[:156]
    return [
        Job("encrypt -p pass -w 4 -s seed", "plain", pass_age, 8, 3),
        Job("decrypt -k other.key -k key", "key.age", LONG_PLAIN, 7, 3),
        Job("rewrap -k key -P pass -w 4 -s seed", "key.age", pass_age, 8, 3),
        Job("range -k key 65530 65550", "key.age", PART, 5, 2),
        Job("inspect -f file.key", "key.age", table(header, True), 3, 1),
        Job("inspect -r", "key.age", header, 1, 1),
        Job("salvage -k key", "key.age", LONG_PLAIN, 5, 3),
    ]


class CallCase(ProgramCase):
    TRACE = {"TRACE": "trace"}

    @classmethod
    def setUpClass(cls):
        super().setUpClass()
        os.chdir(cls.folder)
        cls.jobs = jobs()
        write("plain", LONG_PLAIN)
        write("pass", LONG_PASSPHRASE)
        write("key.age", fixture.for_keys(LONG_PLAIN, KEY))

    def run_job(self, job, form, **call):
        """Runs a job with these variables for calls.c. Sets `self.made` to the output, and
        `self.met` to whether DO happened."""
        for name in ("met", "trace"):
            if os.path.exists(name):
                os.remove(name)
        env = {"LD_PRELOAD": preload("calls"), **self.TRACE, **{key.upper(): str(value) for key, value in call.items()}}
        if form.endswith("-o"):
            write("made", YESTERDAY)
            ran = self.run_agep(*job.words, *form.split(), "made", job.name, env=env)
            self.assert_bytes(ran.out, b"")
            self.made = read("made")
        elif job.words[0] == "range":
            ran = self.run_agep(*job.words, job.name, env=env)
            self.made = ran.out
        else:
            with open(job.name, "rb") as stdin:
                ran = self.run_agep(*job.words, env=env, input=stdin)
            self.made = ran.out
        self.met = os.path.exists("met")
        return ran

    def changes(self, trace="trace"):
        """The traced calls but statx, open, flock, read and lseek: kind, file, result of each."""
        rows = [line.split() for line in read(trace).decode().splitlines()]
        return [(kind, name, int(result)) for kind, name, result in rows if kind not in ("statx", "open", "flock", "read", "lseek")]

    def is_whole(self, ran, job, form):
        self.assert_ended(ran, 0, "", None)
        self.assert_bytes(self.made, job.expected, "the output")

    def has_failed(self, line):
        """A judge: this message, and a prefix of the expected output or, with -o, the old contents."""
        def judge(ran, job, form):
            self.assert_ended(ran, 1, fault(line), None)
            if form == "-o" and self.made == YESTERDAY:
                return
            self.assert_bytes(self.made, job.expected[: len(self.made)], "the start of the output")
        return judge

    def each_call(self, kind, what, job, form, judge):
        """Changes all calls of a kind in one run, unless DO interrupts them or the kind is any. Then changes the first
        call, in the next run the second, and so on, until a run has no such call; that run must be complete."""
        with self.subTest(f"{job} {form}, each {kind} in turn, DO={what}"):
            for number in range(what == INTERRUPTED or kind == "any", 1000):
                ran = self.run_job(job, form, call=kind, number=number, do=what)
                if not self.met:
                    break
                try:
                    judge(ran, job, form)
                except AssertionError as error:
                    raise AssertionError(f"{kind} {number}: {error}") from None
            self.is_whole(ran, job, form)
            self.assertGreaterEqual(number - 1, job.least.get(kind, 1), f"calls of {kind}")


class Order(CallCase):
    def calls(self):
        """The calls of `changes` on OUT: the kind and the result of each."""
        return [(kind, result) for kind, name, result in self.changes() if name == "made"]

    def test_order(self):
        """OUT is truncated, then written, then synced; the writes add up to the whole output. From
        the third on, each write of `rewrap` begins at a multiple of 65,536."""
        for job in self.jobs:
            if job.has_out:
                with self.subTest(str(job)):
                    self.is_whole(self.run_job(job, "-o"), job, "-o")
                    first, *middle, last = self.calls()
                    self.assertEqual((first, last[0]), (("ftruncate", 0), "fsync"))
                    self.assertEqual({kind for kind, _ in middle}, {"write"})
                    ends = list(itertools.accumulate(size for _, size in middle))
                    self.assertEqual(ends[-1], len(job.expected))
                    if job.words[0] == "rewrap":
                        self.assertEqual(ends[1:], [*range(65536, ends[-1], 65536), ends[-1]], "each write begins at a page")

    def test_no_byte(self):
        """If there is no output, OUT is truncated and synced; with a wrong key it is left alone."""
        for words, name in ("decrypt -k key", "empty.age"), ("salvage -k key", "empty.age"), ("range -k key 3 0", "key.age"):
            job = Job(words, name, b"", 5, 0)
            self.is_whole(self.run_job(job, "-o"), job, "-o")
            self.assertEqual([kind for kind, _ in self.calls()], ["ftruncate", "fsync"])
        job = Job("decrypt -k other.key", "key.age", b"", 4, 0)
        self.assert_ended(self.run_job(job, "-o"), 1, fault(message("WrongKey")))
        self.assertEqual((self.calls(), self.made), ([], YESTERDAY))


class ShortCalls(CallCase):
    TRACE = {}

    def test_in_turn(self):
        """A short read or write is followed by another one, even if all are short."""
        for job in self.jobs:
            for form in job.forms():
                for kind in ("read", "write"):
                    for what in ("one", "half"):
                        self.each_call(kind, what, job, form, self.is_whole)

    def test_nothing_saved(self):
        """With --atomic, if every chunk is lost, the old OUT stays, even if the zeros are written in parts."""
        write("lost.age", functools.reduce(fixture.changed, (180, 65800, 131300), read("key.age")))
        self.run_job(Job("salvage -k key --atomic", "lost.age", b"", 5, 3), "-o", call="write", number=0, do="half")
        self.assertTrue(self.met)
        self.assert_bytes(self.made, YESTERDAY)

    def test_interrupted(self):
        """After an interrupted call the rest is read or written later, or the command fails."""
        def whole_or(line):
            def judge(ran, job, form):
                (self.is_whole if ran.status == 0 else self.has_failed(line))(ran, job, form)
            return judge

        for job in self.jobs:
            for form in job.forms():
                self.each_call("read", INTERRUPTED, job, form, whole_or(message("Read")))
                self.each_call("write", INTERRUPTED, job, form, whole_or(message("Write")))
            if job.words[:2] != ["inspect", "-r"]:
                with self.subTest(f"{job}, the first read, of a small file, is tried again"):
                    self.is_whole(self.run_job(job, "", call="read", number=1, do=INTERRUPTED), job, "")
                    self.assertTrue(self.met)


class UnreadChunks(CallCase):
    """salvage goes on after a part of a chunk that cannot be read, if the file is given by name."""

    def setUp(self):
        super().setUp()
        write("IN.age", read("key.age"))
        self.job = Job("salvage -k key", "IN.age", LONG_PLAIN, 5, 3)

    def assert_saved(self, ran, first, lost, unread):
        """These chunks are lost, and so many bytes were not read, the first at this offset."""
        text, losses = b"", []
        for i in range(3):
            chunk = LONG_PLAIN[65536 * i : 65536 * (i + 1)]
            if i in lost:
                losses.append((i, len(text), len(text) + len(chunk) - 1))
            text += bytes(len(chunk)) if i in lost else chunk
        lines = list(lost_lines(losses))
        if 2 in lost:
            lines.append("the file ends after 117 bytes of chunk 2: more may be missing")
        left_out = "1 byte was" if unread == 1 else f"{unread} bytes were"
        lines.append(f"reading IN.age: Input/output error; {left_out} left out, the first at byte {first}")
        self.assert_ended(ran, 1, "".join(map(fault, lines)), None)
        self.assert_bytes(self.made, text)

    def test_in_turn(self):
        """Each read fails once: a failed read in a chunk costs that chunk; any other one ends the run."""
        def judge(ran, job, form):
            sizes = [int(row.split()[2]) for row in read("trace").decode().splitlines() if row.startswith("read IN.age ")]
            if -1 not in sizes:
                self.has_failed(message("Read"))(ran, job, form)
                return
            at = sum(sizes[: sizes.index(-1)])
            if at < HEAD or at == FILE:
                self.has_failed(message("Read"))(ran, job, form)
            else:
                i = (at - HEAD) // SEALED
                self.assert_saved(ran, at, [i], min(HEAD + SEALED * (i + 1), FILE) - at)

        self.each_call("read", IO_ERROR, self.job, "-o", judge)

    def test_places(self):
        """Each read of one part of the file fails, or each from an offset on."""
        for first in (HEAD, HEAD + 1, HEAD + 8000, HEAD + SEALED - 1, HEAD + SEALED, HEAD + SEALED + 1, HEAD + 2 * SEALED, FILE - 2, FILE - 1):
            for last in (first + 1, first + 4096, first + SEALED, FILE):
                last = min(last, FILE)
                with self.subTest(f"from {first} to {last}"):
                    ran = self.run_job(self.job, "-o", bad=f"{first} {last}")
                    lost = range((first - HEAD) // SEALED, (last - 1 - HEAD) // SEALED + 1)
                    # the first byte of a chunk is read with the chunk before it
                    is_alone = last > HEAD + 1 and (last - HEAD) % SEALED == 1
                    end = last if is_alone else min(HEAD + SEALED * lost.stop, FILE)
                    self.assert_saved(ran, first, lost, end - first)
        for first in (0, 100, 155, 156, HEAD - 1):
            for last in (first + 1, FILE):
                with self.subTest(f"from {first} to {last}"):
                    ran = self.run_job(self.job, "-o", bad=f"{first} {last}")
                    self.assert_ended(ran, 1, fault(message("Read")))
                    self.assert_bytes(self.made, YESTERDAY)

    def test_changed_header(self):
        """salvage goes on after unread bytes even if the header was changed."""
        write("IN.age", with_other_mac(read("key.age")))
        ran = self.run_job(self.job, "-o", bad=f"{HEAD + SEALED} {FILE}")
        line = "the header was changed: the chunks were tried with the key that fits"
        self.assertIn(fault(line).encode(), ran.err)
        self.assert_bytes(self.made, LONG_PLAIN[:65536] + bytes(len(LONG_PLAIN) - 65536))

    def test_reasons(self):
        """salvage goes on whatever the system's reason is, except after an interrupted call."""
        for number in ERRORS:
            with self.subTest(os.strerror(number)):
                ran = self.run_job(self.job, "-o", call="read", number=4, do=number)
                if str(number) == INTERRUPTED:
                    self.has_failed(message("Read"))(ran, self.job, "-o")
                    continue
                lines = ["chunk 0 is lost: bytes 0 to 65535 of the plaintext"]
                lines.append(f"reading IN.age: {os.strerror(number)}; {HEAD + SEALED - 8192} bytes were left out, the first at byte 8192")
                self.assert_ended(ran, 1, "".join(map(fault, lines)), None)
                self.assert_bytes(self.made, bytes(65536) + LONG_PLAIN[65536:])

    def test_fault_behind_it(self):
        """The bytes left out are reported, after the lost chunks, even if a write fails later."""
        env = {"LD_PRELOAD": preload("calls"), "CALL": "read", "NUMBER": "4", "DO": IO_ERROR}
        limits = {"preexec_fn": lambda: resource.setrlimit(resource.RLIMIT_FSIZE, (100000, 100000)), "restore_signals": False}
        ran = self.run_agep("salvage", "-k", "key", "-o", "limited", "IN.age", env=env, **limits)
        lost = "chunk 0 is lost: bytes 0 to 65535 of the plaintext"
        unread = f"reading IN.age: Input/output error; {HEAD + SEALED - 8192} bytes were left out, the first at byte 8192"
        self.assert_ended(ran, 1, fault(lost) + fault(unread) + fault(message("Write")))

    def test_pipe(self):
        """salvage does not go on after a failed read of standard input."""
        whole = Job("salvage -k key", "key.age", LONG_PLAIN, 5, 3)
        self.each_call("read", IO_ERROR, whole, "", self.has_failed(message("Read")))


# How a run ends if a call fails, unless OWN or `ending` says otherwise, by the kind of the call and the role of
# its file: the fault, and the start of the second line of -v. After any other call the run goes on.
ENDS = {
    **{(kind, role): ("CannotOpen: {name}", "opening {name}") for kind, role in (("open", "secret"), ("open", "IN"), ("lseek", "IN"))},
    **{("statx", role): ("Unidentified: {name}", "identifying {name}") for role in ("secret", "IN", "OUT")},
    ("read", "secret"): ("Read", "reading {secret} {name}"), ("read", "IN"): ("Read", "reading {source}"), ("open", "OUT"): ("CannotCreate: made", "creating made"),
    **{(kind, "NEW"): ("CannotCreate: made", f"creating {NEW}") for kind in ("statx", "open", "fchmod")},
    **{(kind, role): ("Write", "writing {out}") for kind in ("write", "ftruncate") for role in ("OUT", "NEW")},
    **{("fsync", role): ("Write", "syncing made") for role in ("OUT", "NEW")}, ("rename", "NEW"): ("Write", "replacing made"),
    ("open", "folder"): ("Write", "syncing ."), ("fsync", "folder"): ("Write", "OUT was replaced; syncing its folder ."),
}
# Errors after which a run ends in another way than in ENDS, or goes on if there is None.
OWN = {
    **dict.fromkeys((("open", "NEW", errno.EEXIST), ("open", "folder", errno.EPERM), ("open", "folder", errno.EACCES), ("fsync", "folder", errno.EINVAL))),
    ("statx", "OUT", errno.ENOENT): None, ("statx", "NEW", errno.ENOENT): ("OutputIsBusy: made", None), ("read", "secret", errno.ENOMEM): ("OutOfMemory", None),
    **{("first statx", "OUT", it): ("CannotCreate: made", f"creating made: {os.strerror(it)}") for it in (errno.EPERM, errno.EACCES, errno.ENOTDIR, errno.ENAMETOOLONG, errno.ELOOP)},
    ("first statx", "OUT", errno.ENOMEM): ("OutOfMemory", None), ("flock", "OUT", errno.EAGAIN): ("OutputIsBusy: made", None),
}


class FailingCalls(CallCase):
    def role(self, job, name):
        if name in ("made", NEW):
            return "OUT" if name == "made" else "NEW"
        if name in (".", os.path.basename(self.folder)):
            return "folder"
        return "IN" if name == job.name else "secret" if name in job.words else "OUT" if name.startswith("pipe:") else "stream"

    def ending(self, job, form, error):
        """The fault with which the run must end, and the second line of -v; None if the run must go on."""
        kind, name = read("met").decode().split()
        role, why = self.role(job, name), os.strerror(error)
        before = read("trace").decode().partition(f"\n{kind} {name} -1\n")[0]
        looks = before.count(f"\n{kind} {name} ") + 1
        if kind == "statx" and "\nrename " in before and error != errno.ENOENT:
            return None
        if kind == "statx" and role in ("OUT", "NEW") and "\nftruncate " in before:
            is_gone = error == errno.ENOENT and looks % 2 == 0
            return "Write", f"replacing made: {'its new file was removed' if is_gone else why}"
        # A file that was opened must be told from an existing OUT; but OUT may be IN with --atomic, except for salvage.
        is_asked = f"\nopen {name} 0" in before and form and (role == "secret" or form == "-o" or job.words[0] == "salvage")
        if kind == "statx" and role in ("secret", "IN") and not is_asked:
            return None
        for own in (f"first {kind}" if looks == 1 else kind, role, error), (kind, role, error):
            if own in OWN:
                return OWN[own]
        if kind == "lseek" and looks > 1:
            kind = "read"
        shown = {"name": name, "source": job.name if form or job.words[0] == "range" else "standard input", "out": "made" if form else "standard output"}
        if role == "secret":
            shown["secret"] = message(ROLES[job.words[job.words.index(name) - 1]])
        fault, more = ENDS.get((kind, role), (None, ""))
        return fault and (fault.format(**shown), f"{more.format(**shown)}: {why}")

    def judge(self, ran, job, form, error=int(IO_ERROR)):
        """The run goes on, or ends with the fault of the failed call. OUT has its old contents, the new ones or, without
        --atomic, the start of the new ones; OUT.agep-new does not exist, unless another run has locked it."""
        (kind, name), trace = read("met").decode().split(), read("trace").decode()
        if (kind, name, error) == ("flock", NEW, errno.EAGAIN):
            os.remove(NEW)  # it is another run's
            return
        self.assertFalse(os.path.exists(NEW), "the new file was left")
        if job.words[0] == "salvage" and form and (kind, name) == ("read", job.name):
            return  # see UnreadChunks
        ending = self.ending(job, form, error)
        if ending is None or error == errno.EINTR and ran.status == 0:
            self.is_whole(ran, job, form)
            return
        lines = [filled(f"agep: <{ending[0]}>"), *[f"agep: {ending[1]}"] * bool(ending[1]), ""]
        self.assert_ended(ran, 1, "\n".join(lines), None)
        if kind == "fsync" or f"rename {NEW} 0" in trace:
            self.assert_bytes(self.made, job.expected if form == "-o" or f"rename {NEW} 0" in trace else YESTERDAY, "OUT")
        elif form == ATOMIC or kind not in ("read", "write", "lseek"):
            self.assert_bytes(self.made, YESTERDAY if form else b"", "OUT")
        elif form != "-o" or self.made != YESTERDAY:
            self.assertTrue(self.made or kind == "write" or not form, "OUT is empty")
            self.assert_bytes(self.made, job.expected[: len(self.made)], "the start of the output")

    def test_each(self):
        """Each call fails in turn, in each form of each command."""
        for job in self.jobs:
            for form in (*job.forms(), *[ATOMIC] * job.has_out):
                verbose = copy.copy(job)
                verbose.words = [*job.words, "-v"]
                self.each_call("any", IO_ERROR, verbose, form, self.judge)

    def test_each_error(self):
        """Each call of a run fails with each error."""
        write("small.age", fixture.for_keys(HELLO, KEY))
        job = Job("decrypt -v -k key", "small.age", HELLO, 4, 1)
        for error in ERRORS:
            self.each_call("any", error, job, ATOMIC, lambda *ran: self.judge(*ran, error))

    def test_no_byte(self):
        """A write that takes no bytes counts as failed."""
        for job in self.jobs:
            for form in job.forms():
                self.each_call("write", "none", job, form, self.has_failed(message("Write")))

    def test_first_chunk(self):
        """Before the first chunk is complete, a failed read leaves OUT alone."""
        def is_old(ran, job, form):
            self.assert_ended(ran, 1, fault(message("Read")))
            self.assert_bytes(self.made, YESTERDAY, "OUT")

        write("start", PLAIN[:65535])
        job = Job("encrypt -k key -s seed", "start", fixture.for_keys(PLAIN[:65535], KEY), 5, 2)
        self.each_call("read", IO_ERROR, job, "-o", is_old)

    def test_metadata_of_one_file(self):
        """An OUT that is also read stays as it was, whichever call of statx fails."""
        for words, name, is_piped in (
            ("encrypt -k key -o plain", "plain", False), ("encrypt -k key -o plain", "plain", True),
            ("encrypt -k key -s seed -o seed", "seed", True), ("decrypt -k key -o key.age", "key.age", False),
            ("decrypt -k key -o key.age", "key.age", True), ("rewrap -k key -P pass -o key.age", "key.age", True),
            ("salvage -k key -o key.age", "key.age", False), ("salvage -k key -o key.age", "key.age", True),
            ("range -k key -o key.age 0 9", "key.age", False), ("range -k key -o key 0 9", "key", False),
            ("range -k key --atomic -o key 0 9", "key", False),
        ):
            source = "key.age" if words.startswith("range") else "plain" if name == "seed" else name
            old = read(name)
            for number in range(1, 1000):
                with self.subTest(f"{words}, {'<' if is_piped else ''}{source}, question {number}"):
                    if os.path.exists("met"):
                        os.remove("met")
                    env = {"LD_PRELOAD": preload("calls"), "CALL": "statx", "NUMBER": str(number), "DO": IO_ERROR}
                    with open(source, "rb") as stdin:
                        more = () if is_piped else (source,)
                        ran = self.run_agep(*words.split(), *more, env=env, input=stdin)
                    self.assertEqual(ran.status, 1, ran.err)
                    self.assert_file(name, old)
                if not os.path.exists("met"):
                    break
            self.assertGreaterEqual(number, 3)

    def test_explained(self):
        """With -v the second line says that OUT could not be emptied."""
        write("made", YESTERDAY)
        env = {"LD_PRELOAD": preload("calls"), "CALL": "ftruncate", "NUMBER": "1", "DO": IO_ERROR}
        self.says(message("Write"), *"decrypt -v -k key -o made empty.age".split(), more="truncating made: Input/output error", env=env)


class Messages(CallCase):
    def test_messages(self):
        """Each message is one write; if that fails, the status is the same."""
        write("cut", read("key.age")[:131300])
        for row in ("1 2 decrypt -v -k key cut", "1 2 inspect -v nowhere", "1 1 inspect nowhere", "2 1 inspect a b", "2 1 frob"):
            status, count, *words = row.split()
            status, count = int(status), int(count)
            said = self.run_agep(*words).err
            env = {"LD_PRELOAD": preload("calls"), "CALL": "message"}

            def run(number, what):
                return self.run_agep(*words, env={**env, "NUMBER": str(number), "DO": what})

            with self.subTest(" ".join(words)):
                self.assertTrue(said)
                self.assert_ended(run(0, "one"), status, said, None)
                for number in range(1, count + 1):
                    ran = run(number, IO_ERROR)
                    self.assertEqual(ran.status, status)
                    self.assertNotEqual(ran.err, said)
                self.assert_ended(run(count + 1, IO_ERROR), status, said, None)


class Syncs(ProgramCase):
    def test_none(self):
        """Devices and standard output are not synced."""
        env = {"LD_PRELOAD": preload("calls"), "CALL": "fsync", "NUMBER": "0", "DO": IO_ERROR}
        for words in (
            "encrypt -k key hello", "decrypt -k key key.age", "range -k key 0 5 key.age", "rewrap -p pass -K new.key pass.age", "salvage -k key key.age",
        ):
            for options in ("-o /dev/null", ""):
                with self.subTest(f"{words} {options}"):
                    self.assert_ended(self.run_agep(*words.split(), *options.split(), env=env), 0, "", None)
                    self.assertFalse(os.path.exists("met"))
