"""./agep, ./install and ./package --build with a stand-in for the toolchain: when each of them builds again,
and for which processors. The files that ./install installs under PREFIX."""

import collections
import functools
import os
import re
import shutil
import signal
import subprocess
import time
import unittest
from pathlib import Path

import stand_in
from program import AGEP, LEVELS, ROOT, read, scratch, version, write

# The stand-in logs all calls but `rt version`, makes the object and the archive of a build, and
# runs a test's script `meanwhile`. Without the file KIT-ID its version is `kit two`.
RT = """folder={}
[ "$1" != version ] || exec echo kit two
echo "${{PWD##*/}} $*" >>"$folder/asked"
mkdir -p out
touch out/agep.o out/libagefile.a
[ ! -f "$folder/meanwhile" ] || . "$folder/meanwhile"
"""


def for_program(level):
    """What ./agep asks of the toolchain for a level. For x86-64-v4 the toolchain refuses LLVM."""
    return f"agep run --cpu {level}{' --backend rattle' * (level == 'x86-64-v4')} -- --version"


LIBRARIES = ["agefile lib --cpu x86-64", "agefile lib --cpu x86-64-v3", "agefile lib --cpu x86-64-v4 --backend rattle"]
# Set as `meanwhile`: age_cipher waits for age_header to end first, and age_args for age_file.
LAST = """
case $PWD in *cipher) other=age_header ;; *args) other=age_file ;; esac
n=0
until [ -z "$other" ] || grep -q "^$other is done" {0} || [ $((n += 1)) -gt 50 ]; do sleep 0.1; done
${{other:+sleep 0.3}}
echo "${{PWD##*/}} is done" >>{0}
"""
# What each script has the toolchain build if AGEP_CPU is x86-64-v9. The last one fails when it
# links the files of the stand-in.
SCRIPTS = {
    "agep --version": [for_program("x86-64-v9")],
    "install prefix": [for_program("x86-64-v9")],
    "package --build": sorted([*LIBRARIES, *map(for_program, LEVELS)]),
    "install --library prefix": LIBRARIES,
}


def wait_until(is_so):
    end = time.monotonic() + 600
    while not is_so():
        if time.monotonic() > end:
            raise AssertionError("not so within ten minutes")
        time.sleep(0.05)


class Builds(unittest.TestCase):
    def setUp(self):
        self.addCleanup(os.chdir, "/")
        self.make_tree()

    def make_tree(self):
        """A tree of the scripts with the built program, but without the mark of its build."""
        self.folder = scratch()
        os.chdir(self.folder)
        for name in ("agep/src/deep", "agep/specs", "agep/proofs", "agep/out", "agefile/src"):
            os.makedirs(f"tree/crates/{name}")
        for name in (".ci", "agep", "install", "package", "crates.txt", "CHANGELOG.md", ".gitignore", "share", "bindings"):
            shutil.copytree(f"{ROOT}/{name}", f"tree/{name}") if os.path.isdir(f"{ROOT}/{name}") else shutil.copy(f"{ROOT}/{name}", "tree")
        write("tree/share/commit", b"$Format$\n")
        shutil.copy(AGEP, "tree/crates/agep/out/agep")
        self.sources = [f"tree/crates/{name}" for name in ("agep/src/deep/a.rt", "agep/specs/A.antt", "agep/proofs/A.antt", "agefile/src/b.rt")]
        for name in self.sources:
            write(name, b"")
        os.makedirs("kit/bin")
        stand_in.tool("kit/bin/rt", RT.format(self.folder))
        write("kit/KIT-ID", b"kit one\n")
        self.environment = {**os.environ, "AGEP_CPU": "x86-64-v9", "PATH": f"{self.folder}/kit/bin:{os.environ['PATH']}"}

    def asked(self, script, name=version(), **environment):
        """The builds that a script asks the toolchain for. `agep --version` must print `name`."""
        write("asked", b"")
        environment = {**self.environment, **environment}
        done = subprocess.run(f"tree/{script}".split(), env=environment, stdin=subprocess.DEVNULL, capture_output=True)
        self.said = done.stderr.decode()
        if script == "agep --version":
            self.assertEqual((done.returncode, done.stdout.decode()), (0, f"agep {name}\n"), self.said)
        return sorted(line for line in read("asked").decode().splitlines() if "--cpu" in line)

    def test_sources(self):
        """A build is repeated if crates.txt or a source is newer, or a source was added, removed or changed
        during the build, and not if another file is newer."""
        rows = [
            ("nothing is built", "", True), ("all is current", "", False), ("crates.txt", "touch tree/crates.txt", True),
            *((name, f"touch {name}", True) for name in self.sources),
            ("a new source", ">tree/crates/agefile/src/new.rt", True), ("a source that went", "rm tree/crates/agefile/src/new.rt", True),
            ("what is no source", "touch tree/install tree/crates/agep/README.md", False),
            # Files that are made within one tick of the system's clock are of the same age.
            ("a source that changes meanwhile",
             f"echo 'until [ $folder/{self.sources[0]} -nt $folder/asked ]; do touch $folder/{self.sources[0]}; done' >meanwhile; touch tree/crates.txt", True),
            ("what it changed under", "rm meanwhile", True), ("all is current again", "", False),
        ]
        for script, every in SCRIPTS.items():
            self.make_tree()
            for title, change, is_built in rows:
                with self.subTest(f"{script}: {title}"):
                    subprocess.run(change, shell=True, check=True)
                    self.assertEqual(self.asked(script), every if is_built else [])

    def test_processors(self):
        """The program is built for the processor that AGEP_CPU names, and the packages always for theirs."""
        for script, level, is_built in (
            ("agep --version", "x86-64-v2", True), ("install prefix", "x86-64-v2", False), ("install prefix", "x86-64-v5", True),
            ("agep --version", "x86-64-v5", False), ("agep --version", "x86-64-v2", False),
        ):
            self.assertEqual(self.asked(script, AGEP_CPU=level), [for_program(level)] * is_built, f"{script} for {level}")
        self.assertEqual(self.asked("package --build", AGEP_CPU="x86-64-v2"), SCRIPTS["package --build"])
        program = "tree/crates/agep/out/agep"
        write(f"{program}-x86-64-v5", read(AGEP) + b"v5")
        for level in ("x86-64-v2", "x86-64-v5", "x86-64-v2", "x86-64-v5"):
            self.assertEqual(self.asked("agep --version", AGEP_CPU=level), [], "the programs of ./agep stay")
            self.assertEqual(read(program), read(f"{program}-{level}"), level)

    def test_levels(self):
        """If AGEP_CPU is not set, a build is for the highest level that the processor has in full."""
        third, fourth = "avx avx2 bmi1 bmi2 f16c fma abm movbe xsave", "avx512f avx512bw avx512cd avx512dq avx512vl"
        script = 'root=tree; . tree/share/build.sh; sed() { echo "$FLAGS"; }; processor'
        every = f"{third} {fourth}".split()
        for level, parts in ("x86-64-v4", [""]), ("x86-64-v3", fourth.split()), ("x86-64-v2", third.split()):
            for part in parts:
                flags = " ".join(["fpu", *(each for each in every if each != part), "sse"])
                environment = {**self.environment, "AGEP_CPU": "", "FLAGS": flags}
                said = subprocess.check_output(["sh", "-c", script], env=environment, text=True)
                self.assertEqual(said, f"{level}\n", f"without {part}")

    def test_order(self):
        """Each library is proved once, after those that it depends on. A line says how many are left."""
        lines = re.findall(r"^(\w+)[^:\n]*:(.*)$", read(f"{ROOT}/crates.txt").decode(), re.MULTILINE)
        needs = {name: {word for word in words.split() if word.startswith("age_")} for name, words in lines}
        for script, tops in zip(SCRIPTS, ({"agep"}, {"agep"}, {"agep", "agefile"}, {"agefile"})):
            with self.subTest(script):
                self.make_tree()
                for name in needs:
                    os.makedirs(f"tree/crates/{name}/specs", exist_ok=True)
                write("meanwhile", LAST.format(f"{self.folder}/asked").encode())
                stand_in.tool("kit/bin/date", "echo $(($(/bin/date +%s%N) / 1000))")
                self.asked(script)
                begun, done = collections.Counter(), set()
                for name, what in (line.split(" ", 1) for line in read("asked").decode().splitlines()):
                    self.assertLessEqual(needs[name], done, f"{name} waits for these")
                    if what == "is done":
                        done.add(name)
                    elif "--cpu" not in what:
                        begun[name] += 1
                every = functools.reduce(lambda found, _: found.union(*map(needs.get, found)), needs, tops)
                self.assertEqual(begun, collections.Counter(every - tops))
                names, left = zip(*re.findall(r"^proved (\w+) in \d+ s, (\d+) left$", self.said, re.MULTILINE))
                self.assertEqual((sorted(names), left[-1]), (sorted(begun), "0"))

    def test_failing_build(self):
        """If a build is due, and fails or lacks the toolchain, its output and a line are shown, nothing is run or
        installed, and the next call builds again. Standard input is not read. The gate needs the toolchain, too."""
        tools = stand_in.tools_but(f"{self.folder}/tools", "rt")["PATH"]
        gate = subprocess.run(["tree/.ci/run"], env={**self.environment, "PATH": tools}, capture_output=True)
        line = b".ci/run: building the program needs the Rattle toolchain, the command rt\n"
        self.assertEqual((gate.returncode, gate.stdout, gate.stderr), (1, b"", line))
        for script, who, what in zip(SCRIPTS, ("agep", "agep", "package", "install"), ("program", "program", "packages", "library")):
            with self.subTest(script):
                self.make_tree()
                said = subprocess.run(f"tree/{script}".split(), env={**self.environment, "PATH": tools}, stdin=subprocess.DEVNULL, capture_output=True)
                line = f"{who}: building the {what} needs the Rattle toolchain, the command rt\n".encode()
                self.assertEqual((said.returncode, said.stdout, said.stderr, os.path.exists("prefix/bin")), (1, b"", line, False))
                write("meanwhile", b"echo it is wrong; cat; exit 1")
                done = subprocess.run(f"tree/{script}".split(), env=self.environment, input=b"input", capture_output=True)
                self.assertEqual((done.returncode, done.stdout, os.path.exists("prefix/bin")), (1, b"", False), done.stderr)
                self.assertIn(f"it is wrong\n{who}: the build failed\n".encode(), done.stderr)
                self.assertNotIn(b"input", done.stderr)
                os.remove("meanwhile")
                self.assertEqual(self.asked(script), SCRIPTS[script])
        self.make_tree()
        write("meanwhile", b"case $PWD in *agefile) exit 1 ;; esac")
        self.assertEqual(subprocess.run(["tree/package", "--build"], env=self.environment, capture_output=True).returncode, 1)

    def test_interrupted(self):
        """An interrupt ends a build with all that it has started, and leaves no temporary file. The next
        build says that it resumes."""
        for name in ("age_cipher", "age_kdf", "temporary"):
            os.mkdir(f"tree/crates/{name}")
        write("pids", b"")
        write("meanwhile", b"echo $$ >>$folder/pids; exec sleep 6000")
        how = {"env": {**self.environment, "TMPDIR": f"{self.folder}/tree/crates/temporary"}, "start_new_session": True}
        how["preexec_fn"] = lambda: signal.signal(signal.SIGINT, signal.SIG_DFL)
        build = subprocess.Popen(["tree/agep"], stdin=subprocess.DEVNULL, stderr=subprocess.DEVNULL, **how)
        wait_until(lambda: len(read("pids").split()) == 2)
        os.killpg(build.pid, signal.SIGINT)
        self.assertEqual(build.wait(600), 130)
        wait_until(lambda: not any(os.path.exists(f"/proc/{int(pid)}/exe") for pid in read("pids").split()))
        self.assertEqual(os.listdir("tree/crates/temporary"), [])
        os.remove("meanwhile")
        self.assertEqual(self.asked("agep --version"), SCRIPTS["agep --version"])
        self.assertIn("\nagep: resuming a build that was interrupted\n", self.said)

    def test_missing_files(self):
        """A build without one of its files is taken from those that are kept, or made again."""
        self.asked("package --build")
        self.asked("agep --version")
        for script, name, lines in (
            ("agep --version", "agep/out/agep", []), ("package --build", "agefile/out/x86-64.a", LIBRARIES[:1]),
            ("package --build", "agep/out/agep-x86-64-v3.o", [for_program("x86-64-v3")]),
        ):
            os.remove(f"tree/crates/{name}")
            self.assertEqual(self.asked(script), lines, name)
        write("meanwhile", b"rm -f out/agep.o")
        write("tree/crates.txt", b"")
        self.asked("package --build")
        self.assertFalse(os.path.exists("tree/crates/agep/out/agep-x86-64.o"), "an object of an earlier build")

    def test_version(self):
        """./agep prints the version of the packages, in a repository and in an archive with its commit."""
        git = ["git", "-C", "tree", "-c", "user.name=Name", "-c", "user.email=name@host"]
        for words in (["init", "-q"], ["add", "-A"], ["commit", "-qm", "All"]):
            subprocess.run([*git, *words], check=True)
        for change in (":", "echo text >tree/README.md", "rm -r tree/.git && echo '0123456789abcdef 1 HEAD -> main' >tree/share/commit"):
            subprocess.run(change, shell=True, check=True)
            name = subprocess.check_output(["tree/package", "--version"], text=True).strip()
            self.asked("agep --version", name=f"{name} (x86-64-v9)")
            for words, said in (["-V"], f"{name} (x86-64-v9)"), (["--version", "word"], version()), (["inspect", "-V"], version()):
                self.assertEqual(subprocess.check_output(["tree/agep", *words], env=self.environment, text=True), f"agep {said}\n", words)

    def test_words(self):
        """./agep passes its arguments, standard input and working directory to the program, and becomes it."""
        self.asked("agep --version")
        write("some file", b"text")
        run = functools.partial(subprocess.run, input=b"input", capture_output=True, env=self.environment)
        os.symlink("tree/agep", "linked")
        self.assertEqual(run(["./linked", "--version"]).stdout, f"agep {version()}\n".encode())
        for words in (["inspect", "some file"], ["inspect", "no  such*file"], ["inspect"], ["inspect", ""], ["inspect", "-H", "1"], ["inspect", "--", "-r"], []):
            with self.subTest(words):
                here, program = run(["tree/agep", *words]), run([AGEP, *words])
                self.assertEqual((here.returncode, here.stdout, here.stderr), (program.returncode, program.stdout, program.stderr))
        stand_in.tool("tree/crates/agep/out/agep", "echo $PPID; exit 127")
        self.assertEqual(int(run(["tree/agep"]).stdout), os.getpid())
        for words in ["tree/agep", "--version"], ["tree/agep"], ["tree/install", "prefix"]:
            self.assertEqual((run(words).returncode, os.path.exists("prefix")), (127, False), words)

    def test_toolchains(self):
        """Another toolchain builds again; without a toolchain the existing build is run and installed."""
        tools = stand_in.tools_but(f"{self.folder}/tools", "rt")["PATH"]
        for script in ("agep --version", "install prefix"):
            with self.subTest(script):
                write("kit/KIT-ID", b"kit one\n")
                self.asked(script)
                os.remove("kit/KIT-ID")
                self.assertEqual(self.asked(script, PATH=tools), [])
                for lines in SCRIPTS[script], []:
                    self.assertEqual(self.asked(script), lines)


class Installs(unittest.TestCase):
    # Each file under PREFIX, and its source in the repository.
    FILES = {
        "bin/agep": "crates/agep/out/agep", "share/man/man1/agep.1": "share/man/agep.1",
        "share/bash-completion/completions/agep": "share/completions/agep.bash",
        "share/zsh/site-functions/_agep": "share/completions/_agep", "share/fish/vendor_completions.d/agep.fish": "share/completions/agep.fish",
    }
    # /usr/local has these folders from the start.
    FOLDERS = {"bin", "share", "share/man"}
    USAGE = "usage: ./install [--uninstall] [PREFIX]\n       ./install --library [--libdir=DIR] [--uninstall] [PREFIX]\n"

    def setUp(self):
        self.addCleanup(os.chdir, "/")
        os.chdir(scratch())

    def run_install(self, *words, **environment):
        environment = {**os.environ, **environment}
        done = subprocess.run([f"{ROOT}/install", *words], env=environment, umask=0o077, stdin=subprocess.DEVNULL, capture_output=True)
        return done.returncode, done.stdout.decode(), done.stderr.decode()

    def assert_modes(self, top, files):
        """The folder has exactly these files, their folders and FOLDERS, with the usual modes."""
        found = {str(path.relative_to(top)): path for path in Path(top).rglob("*")}
        folders = {str(folder) for file in files for folder in Path(file).parents} - {"."} | self.FOLDERS
        self.assertEqual({*found}, {*files} | folders)
        executable = folders | {"bin/agep"}
        self.assertEqual([name for name, path in found.items() if path.stat().st_mode & 0o777 != (0o755 if name in executable else 0o644)], [])

    def test_files(self):
        """The files are those of the repository, whatever the umask; a running program is replaced and not
        overwritten. --uninstall removes only these, and the folders that this leaves empty, but none of FOLDERS."""
        here, other = os.getcwd(), "share/man/man1/other.1"
        rows = [(f"{here}/prefix", f"{here}/prefix", {}), ("other", "other", {}), ("/usr", "staged/usr", {"DESTDIR": "staged"})]
        rows += [("/usr", "again/usr", {"DESTDIR": "again/"}), (None, "default/usr/local", {"DESTDIR": "default"})]
        for prefix, top, environment in rows:
            for others in ([], [other]):
                with self.subTest(f"{top} {others}"):
                    for name in others:
                        os.makedirs(f"{top}/{os.path.dirname(name)}")
                        write(f"{top}/{name}", b"other")
                    for _ in range(2):
                        said = "".join(f"installed {top}/{name}\n" for name in self.FILES)
                        self.assertEqual(self.run_install(*filter(None, [prefix]), **environment), (0, said, ""))
                        self.assert_modes(top, [*self.FILES, *others])
                        self.assertEqual([name for name, file in self.FILES.items() if read(f"{top}/{name}") != read(f"{ROOT}/{file}")], [])
                        if os.path.exists("running"):
                            self.assertFalse(os.path.samefile("running", f"{top}/bin/agep"))
                            os.remove("running")
                        os.link(f"{top}/bin/agep", "running")
                    os.remove("running")
                    os.remove(f"{top}/bin/agep")
                    os.symlink("absent", f"{top}/bin/agep")
                    self.assertEqual(self.run_install("--uninstall", *[f"{prefix}/"] * bool(prefix), **environment)[::2], (0, ""))
                    self.assert_modes(top, others)
                    self.assertEqual(self.run_install("--uninstall", *filter(None, [prefix]), **environment), (0, "", ""))

    def test_words(self):
        for words in ("--help",), ("-h",):
            self.assertEqual(self.run_install(*words), (0, self.USAGE, ""))
        for words in ("--other",), ("a", "b"), ("",):
            for first in ((), ("--uninstall",)):
                with self.subTest(first + words):
                    self.assertEqual(self.run_install(*first, *words), (2, "", self.USAGE))
