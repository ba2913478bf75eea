"""The scripts, with stand-ins for build tools, while commands fail in turn; stale generated texts."""

import concurrent.futures
import os
import re
import shutil
import subprocess
import sys
import tempfile
import unittest
from pathlib import Path

import stand_in
from program import AT_A_TIME, memory, read, scratch, write
from test_packages import run
from test_releases import AUTHOR, HERE, ROOT

# Counts the calls of all tools, and makes one of them fail: it does nothing, or what it can on a
# full disk, where files stay empty and only the beginning of its output arrives.
COUNTED = """set -C
run=${{TMPDIR%/*}} name=${{0##*/}} PATH={path}
read -r n <"$run/last"
until true >"$run/calls/$n"; do n=$((n + 1)); done 2>/dev/null
echo $n >|"$run/last"
echo "$name $*" >|"$run/calls/$n"
read -r number how <"$run/fails"
[ $n -eq $number ] || exec "$name" "$@"
case $how-$name in nothing-* | *-mktemp) exit 1 ;; esac
(trap "" XFSZ; ulimit -f 0; "$name" "$@") | head -c 100
exit 1"""
# With these, stand-ins write the sums of what they read into what they make, so that other contents show.
SUMS = """sums() { find "$@" -type f ! -path "*/.git/*" -exec cksum {} + | sed "s|/[^ ]*/||" | sort; }
derived() { for word; do file=${word##*=}; [ ! -f "$file" ] || cksum <"$file"; echo "${word##*/}"; done; }
"""
TOOLS = {
    "rt": 'case $1 in doc) echo KIT/doc; exit ;; version) echo kit; exit ;; esac; mkdir -p out; echo ": $*" | tee out/libagefile.a out/agep.o >out/agep; chmod +x out/agep',
    "nm": "echo 0 T agefile_one",
    "cc": 'for word; do [ "$last" != -o ] || out=$word; last=$word; done; derived "$@" >"$out"',
    "objcopy": 'for out; do :; done; derived "$@" >"$out"',
    "ar": 'derived "$3" >"$2"',
    "strip": "exit 0", "dh": "exit 0", "dh_python3": "exit 0",
    "unzip": 'cp "$2" "$4"',
    "python": '[ "$1" = -c ] || sums "$7" >"$6/agefile-1.whl"',
    "cargo": 'mkdir -p "$CARGO_TARGET_DIR/package"; sums . >"$CARGO_TARGET_DIR/package/agefile-1.crate"',
    "dpkg-source": 'sums "$2" | tee cushionduck_1.dsc >cushionduck_1.tar.xz',
    "dpkg-buildpackage": "sums . >../agep_1.deb",
}
# What a run of the test itself leaves in its folder.
OWN = "calls", "fails", "last", "temporary"
OLDER = "; find result -type f -exec sh -c 'echo old >$0' {} \\;"
# What the scripts need of the repository.
USED = (*"agep install package generate release crates.txt CHANGELOG.md CONTRIBUTING.md README.md SECURITY.md LICENSE .gitignore share docs".split(),
        *"bindings :!bindings/python/tests bench/README.md bench/throughput.svg tests/vectors/README.md tests/generated.sh tests/margin.sh .ci".split(),
        *"crates/age_cli crates/agefile/src".split(), *(f"crates/*/src/{name}.rt" for name in "lib main options texts ranges fault unwrapped".split()))
# Each command, and what was done before it.
ROWS = (
    ("tree/agep", "tree/agep; touch tree/crates.txt"),
    ("tree/install result", "tree/agep; tree/install result" + OLDER), ("tree/install --uninstall result", "tree/agep; tree/install result"),
    ("tree/install --library result", "tree/install --library result" + OLDER),
    ("tree/install --library --uninstall result", "tree/install --library result"),
    ("tree/package result", "tree/package result; git -C tree commit -q --allow-empty -m More"),
    ("v=$(tree/package --version) && echo $v >result/version", "mkdir result; sed -i '/^## Unreleased/d' tree/CHANGELOG.md; git -C tree commit -qam Release"),
    ("tree/generate", "sed -i 's/^## 0/## Unreleased\\n\\n## 77.1.2 (2026-01-02)\\n\\n&/' tree/CHANGELOG.md"),
    ("tree/release 80.9.2 key result", "cd tree; echo 'PATH=/usr/bin:/bin; mkdir -p ${1-dist}; cd ${1-dist}; echo text >agep_1.deb; sha256sum agep* >SHA256SUMS' >package; git commit -qam Packs"),
)


def make_tree(tree):
    """Makes a repository of what the scripts use."""
    for name in run("git", *HERE, "ls-files", "-co", "--exclude-standard", *USED, cwd=ROOT).splitlines():
        (tree / name).parent.mkdir(parents=True, exist_ok=True)
        shutil.copy2(ROOT / name, tree / name)
    run("git", "init", "-q", "--template=", tree)
    run("git", "add", "-A", cwd=tree)


class Fails(unittest.TestCase):
    @classmethod
    def setUpClass(cls):
        """A kit of stand-ins, a folder with the counted form of all tools, and a repository."""
        cls.kit = Path(scratch())
        cls.copies = tempfile.mkdtemp(dir=memory())
        cls.addClassCleanup(shutil.rmtree, cls.copies)
        for name in "bin", "doc", "counted", "made":
            (cls.kit / name).mkdir()
        write(cls.kit / "KIT-ID", b"kit\n")
        for name, script in TOOLS.items():
            stand_in.tool(cls.kit / "bin" / name, SUMS + script.replace("KIT", str(cls.kit)))
        cls.path = f"{cls.kit}/bin:{os.path.dirname(sys.executable)}:{os.environ['PATH']}"
        stand_in.tool(cls.kit / "counted/wrap", COUNTED.format(path=cls.path))
        for name in {name for place in cls.path.split(":") if os.path.isdir(place) for name in os.listdir(place)}:
            os.symlink("wrap", cls.kit / "counted" / name)
        subprocess.run(["ssh-keygen", "-q", "-t", "ed25519", "-N", "", "-C", "", "-f", cls.kit / "made/key"], check=True)
        tree = cls.kit / "made/tree"
        make_tree(tree)
        write(tree / "package", read(tree / "package").replace(b"/usr/bin/python3", b"python"))
        stand_in.processor(tree, cls.kit / "cpuinfo")
        write(tree / ".ci/run", b"#!/bin/sh\n")
        write(tree / "share/signers", b'maintainers namespaces="git,cushionduck" ' + read(cls.kit / "made/key.pub"))
        write(tree / "share/project", b"Maintainer: Name <name@host>\nHomepage: https://host/\nVcs-Git: https://host/git\n")
        write(tree / "CHANGELOG.md", re.sub(b"(## Unreleased\n|(?=## 0))", b"## Unreleased\n\n", read(tree / "CHANGELOG.md"), count=1))
        for words in ["add", "-A"], ["commit", "-qm", "All"], ["config", "user.name", "Name"], ["config", "user.email", "name@host"], ["gc", "-q"]:
            subprocess.run(["git", "-C", tree, *AUTHOR, *words], check=True)

    def copied(self, source):
        folder = Path(tempfile.mkdtemp(dir=self.copies))
        subprocess.run(["cp", "-a", f"{source}/.", folder], check=True)
        return folder

    def ran(self, folder, line, number=0, how="nothing", is_counted=True):
        """Runs a line in a folder, and returns the status and what was printed."""
        for name in "calls", "temporary":
            shutil.rmtree(folder / name, ignore_errors=True)
            (folder / name).mkdir()
        write(folder / "fails", f"{number} {how}\n".encode())
        write(folder / "last", b"1\n")
        path = f"{self.kit}/counted" if is_counted else self.path
        environment = os.environ | {"PATH": path, "TMPDIR": f"{folder}/temporary", "AGEP_CPU": "x86-64", "HOME": str(folder)}
        done = subprocess.run(line, shell=True, cwd=folder, env=environment, stdin=subprocess.DEVNULL, capture_output=True, text=True, executable="/bin/bash")
        return done.returncode, done.stdout + done.stderr

    def files(self, folder):
        """The mode of each path, and the size and time of each file, without what git sets anew."""
        found = {}
        for path in folder.rglob("*"):
            name, status = str(path.relative_to(folder)), path.lstat()
            has_time = not path.is_dir() and not name.startswith("tree/.git/objects/")
            found[name] = status.st_mode, *((status.st_size, status.st_mtime_ns) if has_time else ())
        return {name: facts for name, facts in found.items() if name != "tree/.git/index" and name.split("/")[0] not in OWN}

    def state(self, folder):
        """What a line may change: the files that it makes, the program, and the repository."""
        git = ("git", "--no-optional-locks", "-C", folder / "tree")
        found = {words: subprocess.check_output([*git, *words.split()], text=True) for words in ("log -1 --format=%s%d", "status --porcelain", "diff HEAD")}
        program = folder / "tree/crates/agep/out"
        for path in [*(folder / "result").rglob("*"), *(program.glob("agep") if (program / "built").exists() else ()), program / "built"]:
            if path.is_symlink() or path.is_file():
                content = os.readlink(path) if path.is_symlink() else b"\n".join(path.read_bytes().split(b"\n")[: 2 if path.name == "built" else None])
                found[path.relative_to(folder)] = f"{path.lstat().st_mode:o}", content
        return found

    def failed(self, source, files, old, new, line, number, how):
        """Runs a line in which this call fails. Returns the call, what is then wrong, and the output."""
        folder = self.copied(source)
        status, said = self.ran(folder, line, number, how)
        call = read(folder / f"calls/{number}").decode().strip() if (folder / f"calls/{number}").exists() else "rm"
        after = self.state(folder)
        # Commands other than ./install may delete old files before they put the new ones.
        names = {*after, *old, *new} if "install" in line else {*after}
        wrong = {name for name in names if after.get(name) not in (old.get(name), new.get(name))}
        if status == 0:
            wrong |= {name for name in {*after, *new} if after.get(name) != new.get(name)}
        if call.split()[0] not in ("rm", "rmdir", "xargs"):
            wrong |= {*os.listdir(folder / "temporary")}
        # If no file has changed, a second run is the same as a first one.
        if status != 0 and after != new and self.files(folder) != files:
            status, more = self.ran(folder, line, is_counted=False)
            wrong |= set() if status == 0 and self.state(folder) == new else {f"once more: {more}"}
        shutil.rmtree(folder)
        return f"{how} of {call}", wrong, said

    def test_each(self):
        """The first call of each kind but `python -c` fails in turn; calls that differ only in paths are of one kind.
        A line with status 0 made what a good run makes. After another status each file is as before, as after a good
        run or, unless ./install ran, missing; a second run succeeds. Temporary files stay only if removal failed."""
        for line, before in ROWS:
            source = self.copied(self.kit / "made")
            status, said = self.ran(source, before, is_counted=False)
            self.assertEqual(status, 0, said)
            good = self.copied(source)
            status, said = self.ran(good, line)
            self.assertEqual(status, 0, said)
            calls = {int(name): read(good / "calls" / name).decode() for name in os.listdir(good / "calls")}
            kinds = {" ".join(word for word in text.split() if "/" not in word): number for number, text in sorted(calls.items(), reverse=True)
                     if not text.startswith("python -c")}  # whose failure says that Python's tools are missing
            known = source, self.files(source), self.state(source), self.state(good), line
            rows = [(*known, number, how) for number in kinds.values() for how in ("nothing", "part")]
            with concurrent.futures.ThreadPoolExecutor(AT_A_TIME) as pool:
                for title, wrong, said in pool.map(lambda row: self.failed(*row), rows):
                    with self.subTest(f"{line}: {title}"):
                        self.assertEqual(wrong, set(), said)


class Generated(unittest.TestCase):
    def test_stale(self):
        """./generate --check finds each generated text that is stale, and tests/generated.sh fails."""
        tree = Path(scratch()) / "tree"
        make_tree(tree)
        subprocess.run([tree / "generate"], check=True, stdout=subprocess.DEVNULL)
        names = run("git", "grep", "-lE", "generated: [a-z]", "--", ":!generate", ":!share/generate", cwd=tree).splitlines()
        for name in [*names, "crates/agefile/src/version.rt"]:
            text = (tree / name).read_text()
            for mark in re.finditer(r"generated: [a-z].*\n" if name in names else r"0x\B|The version, ", text):
                with self.subTest(f"{name}: {mark[0]}"):
                    (tree / name).write_text(text[: mark.end()] + "9" + text[mark.end() :])
                    done = subprocess.run([tree / "tests/generated.sh"], stdout=subprocess.PIPE, stderr=subprocess.STDOUT, text=True)
                    self.assertEqual((done.returncode, done.stdout.splitlines()[-1]), (1, "0 passed, 1 failed"))
                    self.assertIn(name, done.stdout)
            (tree / name).write_text(text)
        self.assertEqual(subprocess.run([tree / "tests/generated.sh"], stdout=subprocess.DEVNULL).returncode, 0)
