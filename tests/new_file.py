"""The files after a job that writes OUT, and what it reports, as the pages promise: functions of the files
before the job and of its end. test_new_file.py tries each cell, with agep or the package for Python."""

import collections
import itertools

# What OUT is, and what it then has: no file, no byte, or its old bytes. "hard" is a second name of IN;
# "written" is locked by a writer.
SPECIAL = dict.fromkeys(("folder", "fifo", "null", "full"), "empty")
OLD = dict.fromkeys(("regular", "link", "in", "hard", "readonly", "written"), "old")
OUTS = {"absent": "absent", "dangling": "absent", "empty": "empty", **OLD, **SPECIAL}
# What OUT.agep-new is: absent; left by a killed run; a second name of OUT, left by one with -n; locked; or
# what no run makes: a second name of another file, IN, a key that the program reads, or not a regular file.
NOT_OURS = "second", "in", "key", "fifo", "link", "folder"
NEWS = "absent", "dead", "linked", "busy", *NOT_OURS
# How the job ends: whole; the data cannot be read at all, or not from the third chunk on (a Writer's block
# then raises, after 100 bytes or at its end); a Writer is closed and its error dropped, or it is dropped, or
# held until the program ends; before a call another program makes OUT, or wants to write it with --atomic; the
# call fails; or the process is killed before it. fsync 2 is the folder's; statx 0, all after OUT is replaced.
GIVEN_UP = "closed", "dropped", "held"
CALLS = "write 1", "write 2", "fsync 1", "fsync 2", "rename 1", "link 1", "unlink 1"
ENDS = (
    "whole", "early", "late", *GIVEN_UP, "made read 1", "made fsync 1", "made link 1", "beside fsync 1",
    "fail statx 0", *(f"{how} {call}" for how in ("fail", "kill") for call in CALLS),
)
COPIES = "decrypt", "encrypt", "rewrap", "salvage"
JOBS = {"agep": (*COPIES, "range"), "python": (*COPIES, "open")}
# Options are as in a command line, or empty. A sink is a name, a descriptor, or an object with a buffer.
Cell = collections.namedtuple("Cell", "by job sink out new folder atomic n end")
# What OUT has, what OUT.agep-new is ("same": what it was; "left": this run's file), and what was told.
After = collections.namedtuple("After", "out new told")


def refusal(c):
    """The first reason to end the job before it writes, or None."""
    # Python asks whether the source has the name of the new file before it opens OUT.
    is_source = c.by == "python" and c.atomic and c.new == "in"
    reasons = (
        ("exists", c.n and c.out != "absent"),
        ("special", c.atomic and c.out in SPECIAL),
        ("source", is_source or c.out in ("in", "hard") and (not c.atomic or c.job == "salvage")),
        ("create", c.out in ("readonly", "dangling" if c.atomic else "folder")),
        # In place the program asks for no lock.
        ("busy", c.out == "written" and (c.atomic or c.by == "python")),
        ("busy", c.new == "busy" and (c.atomic or c.by == "python" and c.out not in SPECIAL)),
        ("stays", c.atomic and (c.new in NOT_OURS or c.folder == "unwritable" and c.new != "absent")),
        ("create", c.folder == "unwritable" and (c.atomic or OUTS[c.out] == "absent")),
    )
    return next((why for why, holds in reasons if holds), None)


def happens(c):
    """Whether the job can end as the cell says."""
    how, _, call = c.end.partition(" ")
    if refusal(c) or c.out == "full" and call or c.new != "absent" and not c.atomic:
        return c.end == "whole"
    cases = {
        **dict.fromkeys(GIVEN_UP, c.job == "open"),
        "made read 1": c.n and c.by == "agep",
        "made fsync 1": c.n and c.atomic,
        "beside fsync 1": c.atomic,
        # Of a range the last chunk is read first.
        "late": c.job != "range",
        "fsync 1": c.atomic or c.by == "agep" and c.out not in SPECIAL,
        "fsync 2": c.atomic and c.folder != "unreadable",
        "rename 1": c.atomic and not c.n,
        "link 1": c.atomic and c.n,
        "unlink 1": c.atomic and (c.n or c.new != "absent"),
        # Python does not look at OUT again.
        "statx 0": c.atomic and c.by == "agep",
    }
    return bool(cases.get(c.end, cases.get(call, True)))


def told(c):
    """What is told of a job that begins, or None."""
    how, _, call = c.end.partition(" ")
    if c.out == "full" and how != "early":
        return "write"
    # Once OUT is replaced, of these calls only a failed sync is an error. If a link fails, the program renames.
    if how == "fail" and c.atomic and (call in ("unlink 1", "statx 0") or call == "link 1" and c.by == "agep"):
        return None
    if how == "fail":
        return "not synced" if call == "fsync 2" else "write"
    read = "lost" if how == "late" and c.job == "salvage" else "read"
    return {"early": read, "late": read, "made": "exists", "kill": "killed", **dict.fromkeys(GIVEN_UP, "given up")}.get(how)


def in_place(c):
    """What OUT has if it is written in place: it is emptied before the first write."""
    how, _, call = c.end.partition(" ")
    if how == "early" and c.sink == "name" and OUTS[c.out] == "old":
        return "old"
    if how == "early" or call == "write 1" or c.out in ("null", "full"):
        return "empty"
    if told(c) == "lost":
        return "saved"
    return "front" if how in ("late", *GIVEN_UP) or call == "write 2" else "new"


def after(c):
    why, is_there = refusal(c), "absent" if c.new == "absent" else "same"
    how, _, call = c.end.partition(" ")
    if why == "exists" and c.atomic and c.new == "linked":
        # OUT stays, but its second name is removed, by Python only if it can lock the file.
        return After(OUTS[c.out], is_there if c.by == "python" and c.out in ("readonly", "written") else "absent", why)
    if why or how == "early" and c.by == "python" and c.job in ("decrypt", "rewrap", "salvage"):
        # These read the header before they open OUT.
        return After(OUTS[c.out] if c.sink == "name" else "empty", is_there, why or "read")
    if how == "made":
        return After("theirs", "absent" if c.atomic else is_there, "exists")
    if not c.atomic:
        return After(in_place(c), is_there, told(c))
    if call == "unlink 1" and c.new != "absent":
        return After(OUTS[c.out], "same", "killed" if how == "kill" else "stays")
    # With -n OUT is a second name of the new file, whose first name goes before the folder is synced.
    is_second = call in ("unlink 1", "statx 0")
    is_new = is_second or how in ("whole", "beside") or call == "fsync 2" or c.end == "fail link 1" and not told(c)
    is_left = how == "kill" and call != "fsync 2" or c.n and is_second
    out = "saved" if told(c) == "lost" else "new" if is_new else OUTS[c.out]
    return After(out, "left" if is_left else "absent", told(c))


def then(c):
    """The cell of the same job run again, whole, after a run that left a file OUT.agep-new."""
    out, new, _ = after(c)
    new = {"left": "linked" if out == "new" else "dead", "same": c.new}[new]
    return c._replace(out="regular" if out == "new" and c.out != "link" else c.out, new=new, end="whole")


def is_place(c):
    """Whether the files of the cell can exist, and no other cell stands for the same case."""
    is_plain = (c.new, c.folder, c.atomic, c.n) == ("absent", "usual", "", "")
    return (
        (c.new != "linked" or OUTS[c.out] != "absent" and c.out not in SPECIAL)
        and (c.new == "absent" or c.out not in ("null", "full"))
        and (c.new not in ("busy", "in") or c.out not in ("dangling", "in", "hard"))
        and (c.folder == "usual" or c.new in ("absent", "dead") and (c.atomic or c.folder == "unwritable"))
        and (c.sink == "name" or c.by == "python" and c.out in ("regular", "full", "fifo") and is_plain)
        # A copy in Python has no -n; no job in Python reads a key file; a Writer has no IN.
        and (c.by == "agep" or c.new != "key" and (c.job == "open" or not c.n))
        and (c.job != "open" or c.out not in ("in", "hard") and c.new != "in")
    )


def cells():
    for by, jobs in JOBS.items():
        kinds = jobs, ("name", "descriptor", "buffer"), OUTS, NEWS, ("usual", "unwritable", "unreadable")
        for it in itertools.product(*kinds, ("", "--atomic"), ("", "-n")):
            if is_place(Cell(by, *it, "whole")):
                yield from filter(happens, (Cell(by, *it, end) for end in ENDS))
