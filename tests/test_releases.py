"""Past releases; versions, the folder of the packages, and ./release in a scratch repository with the
current files and a stand-in for the toolchain."""

import re
import shutil
import subprocess
import tempfile
import unittest
from pathlib import Path

import program
import stand_in
from test_packages import DEBIAN, MODULES, needs, run

ROOT = Path(program.ROOT)
LAST = program.version()
# Options by which git works in this repository, whoever owns it, and in an archive of its files.
HERE = (f"--git-dir={ROOT}/.git", f"--work-tree={ROOT}")
if IS_ARCHIVE := not (ROOT / ".git").exists():
    HERE = (f"--git-dir={program.scratch()}", f"--work-tree={ROOT}")
    run("git", "init", "-q", "--bare", HERE[0][len("--git-dir=") :])
AUTHOR = ("-c", "user.name=Name", "-c", "user.email=name@host")
# Beginnings of CHANGELOG.md.
RELEASED, UNRELEASED = "# Changes\n\n## 0.7.1 (2026-12-24)\n\n- This.\n", "# Changes\n\n## Unreleased\n\n- That.\n"


class PastReleases(unittest.TestCase):
    def test_commits(self):
        """Each release in CHANGELOG.md has a commit, that of its heading or the one in CONTRIBUTING.md,
        whose program has this version. Since then the lists of the library's names and of its layout have lost
        no line but those of spare fields, and no name was added with the number of that release."""
        if IS_ARCHIVE or run("git", *HERE, "rev-parse", "--is-shallow-repository") == "true\n":
            self.skipTest("the repository is shallow")
        rows = dict(re.findall(r"^\| ([\d.]+) \| `(\w+)` \|$", (ROOT / "CONTRIBUTING.md").read_text(), re.MULTILINE))
        versions = re.findall(r"^## (\d[\d.]*)", (ROOT / "CHANGELOG.md").read_text(), re.MULTILINE)
        self.assertEqual(set(rows) - set(versions), set())
        for version in versions:
            with self.subTest(version):
                commit = rows.get(version) or run("git", *HERE, "log", "-1", "--format=%H", f"-S## {version} (").strip()
                options = run("git", *HERE, "grep", "-hF", f'"{version}"', commit, "--", ":/crates/*/src/options.rt")
                self.assertIn(f'"{version}"', options)
                changes = run("git", *HERE, "diff", commit, "--", ":/share/debian/*.symbols", ":/share/debian/*.layout")
                # A later release may use a spare field, and then names it.
                lost = rf"^-(?!offsetof\(\w+, spare\))[^-#].*|^\+.* {re.escape(version)}$"
                self.assertEqual(re.findall(lost, changes, re.MULTILINE), [])


@program.made_once
def files_at_hand():
    """A repository with all current files in one commit."""
    tree = Path(program.scratch()) / "files"
    for name in run("git", *HERE, "ls-files", "-co", "--exclude-standard", "-z", cwd=ROOT).split("\0"):
        if (ROOT / name).is_file():
            (tree / name).parent.mkdir(parents=True, exist_ok=True)
            shutil.copy2(ROOT / name, tree / name)
    run("git", "init", "-q", cwd=tree)
    run("git", "add", "-A", cwd=tree)
    run("git", *AUTHOR, "commit", "-q", "-m", "All", cwd=tree)
    return tree


class Case(unittest.TestCase):
    """A clone of files_at_hand(). To save time, its ./package makes one empty Debian package in place of
    four."""

    HIDDEN = ("dpkg-buildpackage",)

    @classmethod
    def setUpClass(cls):
        subprocess.run([ROOT / "package", "--build"], check=True, stderr=subprocess.DEVNULL)

    def setUp(self):
        self.work = Path(tempfile.mkdtemp(dir=program.memory()))
        self.addCleanup(shutil.rmtree, self.work)
        self.tree = self.work / "tree"
        (self.work / "temporary").mkdir()
        tools = stand_in.toolchain(self.work / "tools", "xz", *self.HIDDEN)
        self.environment = tools | {"AGEP_CPU": "x86-64", "TMPDIR": f"{self.work}/temporary"}
        if shutil.which("xz"):
            stand_in.tool(self.work / "tools/xz", f'exec {shutil.which("xz")} "$@" -0')
        stand_in.tool(self.work / "tools/dpkg-buildpackage", ': >"../agep_$(dpkg-parsechangelog -S Version)_amd64.deb"')
        run("git", "clone", "-q", files_at_hand(), self.tree)
        self.git("config", "user.name", "Name")
        self.git("config", "user.email", "name@host")

    def run_here(self, *words, cwd=None):
        return subprocess.run(words, cwd=cwd or self.tree, env=self.environment, capture_output=True, text=True)

    def right(self, *words, **options):
        done = self.run_here(*words, **options)
        self.assertEqual(done.returncode, 0, f"{words}\n{done.stdout}{done.stderr}")
        return done.stdout

    def refused(self, line, *words, status=1):
        done = self.run_here(*words)
        self.assertEqual((done.returncode, done.stderr), (status, f"{line}\n"))

    def git(self, *words, **options):
        return self.right("git", *words, **options).strip()

    def write(self, name, text):
        (self.tree / name).write_text(text)

    def commit(self):
        """Commits everything, and returns the beginning of the commit's name."""
        self.git("add", "-A")
        self.git("commit", "-q", "--allow-empty", "-m", "All")
        return self.git("rev-parse", "HEAD")[:10]


class Versions(Case):
    def assert_version(self, expected):
        self.assertEqual(self.right("./package", "--version"), f"{expected}\n")

    def test_commits(self):
        """A release is the commit of its heading, with nothing above that; other commits belong to the next
        version."""
        self.write("CHANGELOG.md", RELEASED)
        self.commit()
        self.assert_version("0.7.1")
        self.write("README.md", "text")
        commit = self.commit()
        self.assert_version(f"0.8.0-dev.1+g{commit}")
        self.write("CHANGELOG.md", UNRELEASED + RELEASED)
        commit = self.commit()
        self.assert_version(f"0.8.0-dev.2+g{commit}")

    def test_one_commit(self):
        """A commit with text above the heading is not a release, even if it wrote both."""
        self.write("CHANGELOG.md", UNRELEASED + RELEASED)
        commit = self.commit()
        self.assert_version(f"0.8.0-dev.0+g{commit}")

    @needs(*DEBIAN, *MODULES)
    def test_changes(self):
        """With local changes the version names the tree of all files that git does not ignore, and the source
        package has these."""
        self.write("CHANGELOG.md", RELEASED)
        commit = self.commit()
        for name in ("README.md", "bindings/python/agefile/new.py"):
            self.write(name, "text")
            self.assertNotEqual(self.git("status", "--porcelain"), "")
            version = self.right("./package", "--version").strip()
            self.assertEqual(self.git("diff", "--cached", f"--relative={Path(name).parent}"), "", "the index stays")
            self.git("add", "-A")
            self.assertEqual(version, f"0.8.0-dev.0+g{commit}.t{self.git('write-tree')[:10]}")
        self.write("README.md", "other")
        self.right("./package", self.work / "dist")
        (source,) = (self.work / "dist").glob("cushionduck_*.tar.xz")
        names = ("*/README.md", "*/bindings/python/agefile/new.py")
        self.assertEqual(self.right("tar", "-xOf", source, "--wildcards", "--no-wildcards-match-slash", *names), "othertext")
        self.git("reset", "-q", "--hard")
        self.write("passphrase", "text")
        self.assert_version("0.7.1")

    def test_archive(self):
        """An archive without a repository, made by a forge, has the version of its commit or tag."""
        self.write("CHANGELOG.md", RELEASED)
        commit = self.commit()
        for tag, version in ("", f"0.8.0-dev.0+g{commit}"), ("0.7.10", f"0.8.0-dev.0+g{commit}"), ("0.7.1", "0.7.1"):
            self.git("tag", *tag.split())
            folder = self.work / f"archive{tag}"
            folder.mkdir()
            self.right("sh", "-c", f"git archive HEAD | tar -xC {folder}")
            self.assertEqual(self.right("./package", "--version", cwd=folder), f"{version}\n")

    def test_no_repository(self):
        """A folder inside another repository does not get its version from there."""
        (self.tree / ".git").rename(self.work / ".git")
        done = self.run_here("./package", "--version")
        self.assertEqual((done.returncode, done.stdout), (1, ""))
        self.assertIn("package: git cannot tell the version: ", done.stderr)


@needs("xz")
class Folder(Case):
    HIDDEN = ("dpkg-buildpackage", "unzip", "cargo")

    def setUp(self):
        super().setUp()
        self.dist = self.work / "dist"
        self.dist.mkdir()

    def put(self, *names):
        for name in names:
            (self.dist / name).write_text(name)

    def names(self):
        return {path.name for path in self.dist.iterdir()}

    def test_files_of_others(self):
        """Files of others stay, even with the name of a package, and SHA256SUMS does not list them."""
        others, old = ["mine.deb", "backup.tar.xz", "agep_0.1.0_amd64.deb"], "agep-0.1.0-linux-x86_64.tar.xz"
        self.put(*others, old)
        (self.dist / "SHA256SUMS").write_text(f"{'0' * 64}  {old}\n")
        said = self.right("./package", self.dist)
        self.assertEqual(re.findall("^skipped: ([^,]*), ", said, re.MULTILINE), ["the Debian packages", "the wheel", "the crate for Rust"])
        version = self.right("./package", "--version").strip()
        made = f"agep-{version}-linux-x86_64.tar.xz"
        self.assertEqual(self.names(), {*others, made, "SHA256SUMS"})
        self.assertEqual((self.dist / "SHA256SUMS").read_text()[64:], f"  {made}\n")
        self.assertEqual([(self.dist / name).read_text() for name in others], others)

        (self.dist / "SHA256SUMS").unlink()
        self.refused(f"package: {self.dist} already has a {made}, which no earlier run made", "./package", self.dist)
        self.assertEqual(self.names(), {*others, made})

    def test_nothing_made(self):
        """If the tools for each package are missing, that is an error."""
        (self.work / "tools/xz").unlink()
        done = self.run_here("./package", self.dist)
        said = done.stderr.splitlines()[-1]
        self.assertEqual((done.returncode, said, self.names()), (1, "package: no package was made", set()))

    def test_sums_of_others(self):
        """Nothing is removed if SHA256SUMS names a file that is not a package, or is signed."""
        self.put("debian.iso")
        for name in "debian.iso", "agep_1/../mine.deb", "agep_1 mine.deb":
            (self.dist / "SHA256SUMS").write_text(f"{'0' * 64}  {name}\n")
            line = f"package: SHA256SUMS in {self.dist} was not written by this script: it names {name}"
            self.refused(line, "./package", self.dist)
        (self.dist / "SHA256SUMS").write_text("")
        self.put("SHA256SUMS.sig")
        self.refused(f"package: {self.dist} has a signed release", "./package", self.dist)
        self.assertEqual(self.names(), {"debian.iso", "SHA256SUMS", "SHA256SUMS.sig"})

    def test_words(self):
        usage = "usage: ./package [--build | --version | --stage FOLDER | FOLDER]"
        self.assertEqual(self.right("./package", "--help"), f"{usage}\n")
        self.assertEqual(self.right("./package", "-h"), f"{usage}\n")
        for words in (["--other"], [""], ["a", "b"], ["--build", "a"], ["--version", "a"], ["--stage"], ["--stage", "a", "b"]):
            with self.subTest(words):
                self.refused(usage, "./package", *words, status=2)


@needs("ssh-keygen")
class Release(Case):
    def setUp(self):
        super().setUp()
        self.key, self.folder = self.work / "key", self.work / "release"
        self.right("ssh-keygen", "-q", "-t", "ed25519", "-N", "", "-C", "", "-f", self.key)
        public = " ".join((self.work / "key.pub").read_text().split()[:2])
        self.signer = f'maintainers namespaces="git,cushionduck" {public}'
        self.write("share/signers", f"{self.signer}\n")
        self.write("share/project", "Maintainer: Name <name@host>\nHomepage: https://host/\nVcs-Git: https://host/git\n")
        self.write(".ci/run", f"#!/bin/sh\ngit log -1 --format=%s >>{self.work}/gate\ntest ! -e {self.work}/wrong\n")
        _, _, older = (ROOT / "CHANGELOG.md").read_text().partition(f"\n## {LAST} ")
        self.write("CHANGELOG.md", f"{UNRELEASED}\n## {LAST} {older}")
        stand_in.processor(self.tree, self.work / "cpuinfo")
        self.before = self.commit()

    def release(self, version="80.9.2"):
        return ("./release", version, self.key, self.folder)

    def test_release(self):
        """The gate runs over the commit of the heading, which is then tagged. The sums are signed. A fresh
        clone makes the same packages, by the commands of docs/PACKAGES.md, and so does an archive."""
        done = self.run_here(self.tree / "release", "80.9.2", "key", "release", cwd=self.work)
        self.assertEqual(done.returncode, 0, done.stdout + done.stderr)
        self.assertIn("\n+ cmp dist/SHA256SUMS ", done.stderr)
        self.assertEqual((self.work / "gate").read_text(), "Release 80.9.2\n")
        self.assertEqual(self.git("rev-parse", "80.9.2^{commit}"), self.git("rev-parse", "HEAD"))
        self.assertEqual(self.git("log", "-1", "--format=%p")[:7], self.before[:7])
        self.assertRegex((self.tree / "CHANGELOG.md").read_text(), r"^# Changes\n\n## 80\.9\.2 \(\d{4}-\d\d-\d\d\)\n\n- That\.\n")
        self.assertIn("0x50_09_02", (self.tree / "crates/agefile/src/version.rt").read_text())
        names = sorted(path.name for path in self.folder.iterdir())
        self.assertEqual([name for name in names if "SUMS" in name], ["SHA256SUMS", "SHA256SUMS.sig"])
        self.assertEqual([name for name in names if "SUMS" not in name and not re.search(r"[-_]80\.9\.2[-_.]", name)], [])
        for older in "80.9.2", "9.10.0":
            self.refused(f"release: {older} is not newer than 80.9.2", *self.release(older))
        archive = self.work / "archive"
        archive.mkdir()
        self.right("sh", "-c", f"git archive 80.9.2 | tar -xC {archive}")
        self.right("./package", cwd=archive)
        self.assertEqual((archive / "dist/SHA256SUMS").read_text(), (self.folder / "SHA256SUMS").read_text())

    def test_failures(self):
        """If the gate or a command of docs/PACKAGES.md fails, everything is as before, so that a second attempt
        gets as far."""
        page = (self.tree / "docs/PACKAGES.md").read_text().replace("\n```sh\n", "\n```sh\nfalse\n", 1)
        check, gate = ("docs/PACKAGES.md", page, "+ false"), ("../wrong", "", "release: the gate failed")
        for tries, (name, text, line) in enumerate((check, gate, gate), 1):
            self.write(name, text)
            self.before = self.commit()
            done = self.run_here(*self.release())
            lines = [line, "release: removed the commit, the tag and the packages again"]
            self.assertEqual((done.returncode, done.stderr.splitlines()[-2:]), (1, lines))
            self.assertEqual((self.work / "gate").read_text(), "Release 80.9.2\n" * tries)
            found = self.git("rev-parse", "HEAD")[:10], self.git("tag"), self.git("status", "--porcelain")
            self.assertEqual((found, [*self.folder.glob("*")]), ((self.before, "", ""), []))

    def test_changed_meanwhile(self):
        """A commit that somebody makes during the gate stays."""
        self.write(".ci/run", "#!/bin/sh\ngit commit -q --allow-empty -m Other\nexit 1\n")
        self.before = self.commit()
        done = self.run_here(*self.release())
        made = self.git("rev-parse", "HEAD^")
        self.assertEqual(done.stderr.splitlines()[-1], f"release: remove the commit {made} by hand: the repository has changed since")
        self.assertEqual((done.returncode, self.git("log", "-1", "--format=%s")), (1, "Other"))

    def test_refused(self):
        """./release refuses to start in each of these cases, and changes nothing."""
        usage = "usage: ./release VERSION KEY FOLDER"
        self.assertEqual(self.right("./release", "--help"), f"{usage}\n")
        self.refused(usage, "./release", "80.9.2", status=2)
        self.refused("release: 1.2 is not a version such as 1.2.3", *self.release("1.2"))
        self.refused("release: 0.0.9 is not newer than " + LAST, *self.release("0.0.9"))
        self.write("README.md", "text")
        self.refused("release: the repository has local changes", *self.release())
        self.git("reset", "-q", "--hard")
        self.folder.mkdir()
        (self.folder / "file").touch()
        self.refused(f"release: {self.folder} is not empty", *self.release())
        (self.folder / "file").unlink()
        (self.work / "cpuinfo").write_text("flags\t\t: fpu avx avx2\n")
        self.refused("release: this processor lacks AVX-512, so it cannot test the build for x86-64-v4", *self.release())
        self.assertEqual((self.git("rev-parse", "HEAD")[:10], self.git("tag")), (self.before, ""))
        self.refused("release: /absent is not a private SSH key", "./release", "80.9.2", "/absent", self.folder / "new")
        self.git("tag", "80.9.2")
        self.refused("release: the tag 80.9.2 already exists", *self.release())
        self.git("tag", "-d", "80.9.2")
        self.write("share/project", "# This.example\nMaintainer: A <a@b.example>\nHomepage: https://c.example.org/\nVcs-Git: https://d.example/e\n")
        self.commit()
        self.refused("release: share/project still names a host in .example: Maintainer Vcs-Git", *self.release())
        self.write("share/signers", "")
        self.commit()
        self.refused(f"release: share/signers lacks this key; first add this line to it, and commit that: {self.signer}", *self.release())
        self.write("CHANGELOG.md", RELEASED)
        self.commit()
        self.refused("release: the first heading of CHANGELOG.md is not Unreleased", *self.release())
