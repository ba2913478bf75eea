"""The contents of a package, the lines of packaged.txt about it, and the instructions of its programs that
an old processor may lack."""

import io
import re
import subprocess
import tarfile
import zipfile
from pathlib import Path

ROOT = Path(__file__).resolve().parent.parent


def members(package):
    """The path, mode, owner and link target of each file and folder of a package, and the contents of each
    file."""
    if package.suffix == ".whl":
        with zipfile.ZipFile(package) as file:
            for info in file.infolist():
                yield info.filename, info.external_attr >> 16 & 0o7777, "root", "", file.read(info)
        return
    words = ("dpkg-deb", "--fsys-tarfile") if package.suffix == ".deb" else ("cat",)
    data = subprocess.run([*words, package], capture_output=True, check=True).stdout
    with tarfile.open(fileobj=io.BytesIO(data)) as file:
        for member in file:
            owner = "root" if (member.uid, member.gid) == (0, 0) else f"{member.uid}:{member.gid}"
            content = file.extractfile(member).read() if member.isfile() else None
            yield member.name.removeprefix("./"), member.mode, owner, member.linkname, content


def listed():
    """The lines of packaged.txt by package and path: mode, sign, and the file that follows. A star stands for
    the names of the repository's files; a later line overrides an earlier one."""
    *_, text = (ROOT / "tests/packaged.txt").read_text().partition("\n\n")
    for package, *lines in (part.strip().split("\n") for part in text.split("\n\n")):
        rows = {}
        for mode, path, sign, source in ((line.split(" ") + ["", ""])[:4] for line in lines):
            folder = path.rpartition("/")[0]
            files = {f"{folder}/{file.name}": file for file in ROOT.glob(source)} if "*" in path else {path: ROOT / source}
            rows |= {name: (mode, sign, file) for name, file in files.items()}
        yield package, rows


# Instructions that a processor of the level x86-64 may lack, as objdump names them: AVX, FMA, F16C,
# BMI, MOVBE, LZCNT, POPCNT, CMPXCHG16B, and SSE3 to SSE4.2.
NEWER = re.compile(
    r"\t(v[a-z]+\w*|andn|bextr|bls\w+|bzhi|mulx|p?dep|pext|rorx|sarx|shlx|shrx|movbe|lzcnt|popcnt|crc32\w*|cmpxchg16b|lddqu|mov(ddup|s[hl]dup)"
    r"|h(add|sub)p[sd]|addsubp[sd]|pshufb|palignr|ph(add|sub)\w+|pmaddubsw|pmulhrsw|psign\w|pabs\w|p?blend\w+|dpp[sd]|extractps|insertps"
    r"|mpsadbw|packusdw|pcmp(eqq|gtq|[ei]str[im])|p(extr|insr)[bdq]|phminposuw|p(max|min)(s[bd]|u[dw])|pmov[sz]x\w+|pmuldq|pmulld|ptest|round[ps][sd])\b"
)


def disassembled(file):
    return subprocess.run(["objdump", "-d", "--no-show-raw-insn", file], capture_output=True, text=True, check=True).stdout.splitlines()


def instructions_of(file):
    """Counts of a program's instructions: the longest run without newer ones, the newer ones, and all."""
    marks = "".join("-" if NEWER.search(line) else "+" for line in disassembled(file) if "\t" in line)
    return max(map(len, marks.split("-"))), marks.count("-"), len(marks)


def functions_of(file):
    """The name of each function of a program or archive, without its level, and its number of newer
    instructions."""
    found = [["", 0]]
    for line in disassembled(file):
        if line.endswith(">:"):
            found.append([re.sub("_v[34]_", "_", line.split()[-1]), 0])
        elif NEWER.search(line):
            found[-1][1] += 1
    return found
