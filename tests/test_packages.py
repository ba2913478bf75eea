"""Makes the packages twice, unpacks each, and uses its contents; runs the tests of the packages for Python
and Rust over the wheel and the tarball. The tests of share/agep.c need no package."""

import fcntl
import functools
import gzip
import json
import os
import re
import shutil
import subprocess
import sys
import tempfile
import unittest
from pathlib import Path

import fixture
import stand_in
import reference
import salvaged
from parts import parts
from packaged import functions_of, instructions_of, listed, members
import test_damaged_files
import test_salvage
import test_vectors
import testkit
from program import AGEP, LEVELS, levels_here
from program import version as last_release

sys.path.append(str(Path(__file__).resolve().parent / "library"))
import model

ROOT = Path(__file__).resolve().parent.parent
SECRET = ROOT / "tests/data/passphrase.age"
# With these variables, cargo takes less time for a build that a test runs once.
QUICK = {"CARGO_PROFILE_DEV_DEBUG": "0", "CARGO_INCREMENTAL": "0"}
# The tests of the package for Python. These two files take as long as all the others.
PYTHON_TESTS, LONG = ROOT / "bindings/python/tests", {"test_ways.py", "test_whole.py"}
# The oldest glibc for the programs and for the library, as docs/PACKAGES.md says.
GLIBC, GLIBC_OF_LIBRARY = (2, 34), (2, 14)
# Variables by which a caller may configure the tools. No byte may depend on them.
ENVIRONMENT = {
    "LC_ALL": "C", "TZ": "Asia/Tokyo", "SOURCE_DATE_EPOCH": "1", "CC": "false", "CFLAGS": "-O0 -g", "CPPFLAGS": "-DX", "LDFLAGS": "-s",
    "XZ_OPT": "-0", "XZ_DEFAULTS": "-0", "GZIP": "-1", "TAR_OPTIONS": "--mode=777", "POSIXLY_CORRECT": "1", "CDPATH": "/",
    "DEB_BUILD_OPTIONS": "noopt nostrip", "DEB_BUILD_PROFILES": "nodoc", "DEB_CFLAGS_APPEND": "-O0", "DEBEMAIL": "a@b", "DH_VERBOSE": "1",
    "DH_COMPAT": "9", "RUSTFLAGS": "-O", "CARGO_ENCODED_RUSTFLAGS": "-O", "PYTHONPATH": "/absent", "PYTHONHOME": "/absent",
    "PYTHONOPTIMIZE": "2", "PYTHONHASHSEED": "3", "PYTHONWARNINGS": "error", "GIT_DIR": "/absent", "AGEP_CPU": "x86-64-v2",
    "BASH_FUNC_cp%%": "() { false; }",
}


def glibc(path):
    """The newest version of glibc that a file needs; it must need no other library."""
    needed = re.findall(r"NEEDED +(\S+)", run("objdump", "-p", path))
    if not {"libc.so.6", "ld-linux-x86-64.so.2"} >= set(needed):
        raise AssertionError(f"{path} needs {needed}")
    found = re.findall(r"GLIBC_(\d+)\.(\d+)", run("objdump", "-T", path))
    return max((tuple(map(int, version)) for version in found), default=(0, 0))


def run(*words, **options):
    done = subprocess.run([str(word) for word in words], capture_output=True, text=True, **options)
    if done.returncode != 0:
        raise AssertionError(f"{words}: status {done.returncode}\n{done.stdout}{done.stderr}")
    return done.stdout


# Commands and modules without which ./package makes no Debian packages.
DEBIAN, MODULES = ("dpkg-buildpackage", "dh", "dh_python3", "unzip"), ("build", "setuptools", "wheel")


def needs(*tools):
    """Skips the test if one of these commands or modules of Debian's Python is missing."""
    words = ("/usr/bin/python3", "-c", "import importlib, sys; importlib.import_module(sys.argv[1])")
    modules = {tool for tool in tools if tool in MODULES and subprocess.run([*words, tool], capture_output=True).returncode == 0}
    missing = [tool for tool in tools if shutil.which(tool) is None and tool not in modules]
    return unittest.skipIf(missing, f"{' and '.join(missing)} missing")


def in_a_namespace(script):
    """The arguments that run a command after a script that may mount file systems."""
    return ["unshare", *(() if os.geteuid() == 0 else ("-r",)), "-m", "sh", "-c", f'{script}; exec "$@"', "sh"]


WITHOUT_PROC = in_a_namespace("mount -t tmpfs none /proc")


def as_a_user():
    """The arguments that run a command as a user who is not root, if the system has user namespaces."""
    words = ("unshare", "--map-user=1000", "--map-group=1000")
    return words if subprocess.run([*words, "true"], capture_output=True).returncode == 0 else ()


def can_mount():
    return subprocess.run([*WITHOUT_PROC, "true"], capture_output=True).returncode == 0


@needs("cargo", "xz", *DEBIAN, *MODULES)
class Packages(unittest.TestCase):
    @classmethod
    def setUpClass(cls):
        cls.work = Path(tempfile.mkdtemp())
        cls.addClassCleanup(shutil.rmtree, cls.work)
        (cls.work / "other folder").mkdir()
        cls.dist = made()
        cls.version = run(ROOT / "package", "--version").strip()
        cls.for_debian, cls.for_python = (cls.version.replace("-dev", between) for between in ("~dev", ".dev"))
        cls.for_python = cls.for_python.replace(".dev.", ".dev")
        (cls.work / "other folder/.gitconfig").write_text("[core]\nautocrlf = true\n")
        (cls.work / "other folder/.pydistutils.cfg").write_text("[bdist_wheel]\nuniversal = 1\n")
        (cls.work / "temporary").mkdir()
        other = os.environ | ENVIRONMENT | {"TMPDIR": f"{cls.work}/temporary", "HOME": f"{cls.work}/other folder"}
        other |= {name: os.environ.get(name, f"{Path.home()}/.{name[:-5].lower()}") for name in ("CARGO_HOME", "RUSTUP_HOME")}
        # For `date`, it is nine days later.
        (cls.work / "other folder/date").write_text(f'#!/bin/sh\nexec {shutil.which("date")} -d "9 days" "$@"\n')
        (cls.work / "other folder/date").chmod(0o755)
        other["PATH"] = f"{cls.work}/other folder:{os.environ['PATH']}"
        # A tmpfs has its files in another order than a disk.
        tmpfs = in_a_namespace('mount -t tmpfs none "$TMPDIR"') if can_mount() else ()
        run(*tmpfs, *as_a_user(), ROOT / "package", cls.work / "again", umask=0o077, env=other)

    def one(self, pattern):
        (found,) = self.dist.glob(pattern)
        return found

    def unpacked(self, *patterns):
        """A folder with the contents of the packages of these names."""
        root = Path(tempfile.mkdtemp(dir=self.work))
        for path in {path for pattern in patterns for path in self.dist.glob(pattern)}:
            words = {".deb": ("dpkg-deb", "-x", path, root), ".whl": ("unzip", "-q", path, "-d", root)}
            run(*words.get(path.suffix, ("tar", "-xf", path, "-C", root)))
        return root

    def test_the_same_bytes_again(self):
        """Packing the same builds gives the same bytes in another folder, on another file system and day, as another
        user with another home. This does not show that building again gives the same bytes."""
        sums = [(folder / "SHA256SUMS").read_text() for folder in (self.dist, self.work / "again")]
        self.assertEqual(sums[0], sums[1])
        run("sha256sum", "-c", "SHA256SUMS", cwd=self.dist)

    def test_names(self):
        debs = [f"{name}_{self.for_debian}_amd64.deb" for name in ("agep", "libagefile1", "libagefile-dev")]
        names = [
            *debs, f"python3-agefile_{self.for_debian}_all.deb", f"cushionduck_{self.for_debian}.dsc", f"cushionduck_{self.for_debian}.tar.xz",
            f"agefile-{self.for_python}-py3-none-manylinux_2_17_x86_64.whl", f"agefile-{self.version}.crate",
            f"agep-{self.version}-linux-x86_64.tar.xz",
        ]
        found = sorted((path.name, f"{path.stat().st_mode & 0o777:o}") for path in self.dist.iterdir())
        self.assertEqual(found, [(name, "644") for name in sorted([*names, "SHA256SUMS"])])
        self.assertEqual([line[66:] for line in (self.dist / "SHA256SUMS").read_text().splitlines()], sorted(names))

    def installed(self, pattern):
        """The mode, owner, link target and contents of each file of a package; the mode and owner of each
        folder."""
        files, folders = {}, set()
        for path, mode, owner, link, content in members(self.one(pattern)):
            if pattern.endswith((".crate", ".xz")):
                path = path.partition("/")[2]
            if content is None and not link:
                folders.add((f"{mode:o}", owner))
            else:
                files[path.replace(self.for_python, "VERSION")] = (f"{mode:o}", owner, link), content
        return files, folders

    def test_contents(self):
        """Each file of each package except the source package has a line in packaged.txt, with its mode, link
        target and perhaps contents. Files and folders belong to root. Folders have mode 755."""
        self.maxDiff = None
        for pattern, rows in listed():
            files, folders = self.installed(pattern)
            expected = {path: (mode, "root", after.name if sign == "->" else "") for path, (mode, sign, after) in rows.items()}
            sources = {path: (sign, after) for path, (_, sign, after) in rows.items() if sign in ("=", "~")}
            with self.subTest(pattern):
                self.assertEqual({path: facts for path, (facts, _) in files.items()}, expected)
                self.assertLessEqual(folders, {("755", "root")})
                self.assertEqual([path for path, (_, content) in files.items() if str(ROOT).encode() in (content or b"")], [], "has a path of here")
                for path, (sign, source) in sources.items():
                    self.assert_content(path, files[path][1], source, sign == "~")

    def assert_content(self, path, content, source, has_version):
        """Compares a file with its source; with `has_version`, all but the first line with the version."""
        lines = (gzip.decompress(content) if path.endswith(".gz") else content).split(b"\n")
        expected = source.read_bytes().split(b"\n")
        if has_version:
            at = [self.version.encode() in line for line in lines].index(True)
            expected[at] = lines[at]
        self.assertEqual(lines, expected, path)

    def programs(self):
        """Each program of the packages."""
        for pattern, names in ("agep_*.deb", "usr/bin/*"), ("agep-*.tar.xz", "*/bin/*"):
            for path in self.unpacked(pattern).glob(names):
                yield pattern, path

    def test_instructions(self):
        """Each program has instructions that a processor of the level x86-64 may lack, and a build without these: a
        stretch without them has more than a fifth of all instructions. In the archives each export with such
        instructions also occurs without them."""
        for name, path in self.programs():
            with self.subTest(f"{name}: {path.name}"):
                row, newer, every = instructions_of(path)
                self.assertGreater(newer, 1000)
                self.assertGreater(row, every / 5)
        for pattern in ("libagefile-dev_*.deb", "agep-*.tar.xz"):
            (archive,) = self.unpacked(pattern).rglob("libagefile.a")
            with self.subTest(f"{pattern}: libagefile.a"):
                exports = [(name, count) for name, count in functions_of(archive) if "x86_64_agefile_" in name]
                newer, older = ({name for name, count in exports if (count > 0) == is_newer} for is_newer in (True, False))
                self.assertGreater(len(newer), 20)
                self.assertEqual(newer - older, set())

    @needs("cc", "qemu-x86_64")
    def test_old_processor(self):
        """Every program and library runs on a processor without SSSE3, and on one with AVX2."""
        (self.work / "key").write_bytes(fixture.KEY)
        (self.work / "keyed").write_bytes(fixture.for_keys(fixture.PLAIN, fixture.KEY))
        expected = (0, fixture.PLAIN)
        for pattern, path in self.programs():
            with self.subTest(f"{pattern}: {path.name}"):
                for processor in ("qemu64", "Haswell"):
                    done = self.on(processor, path, "decrypt", "-k", "key", "keyed")
                    self.assertEqual((done.returncode, done.stdout), expected, processor)
        for pattern in ("libagefile*.deb", "agep-*.tar.xz", "*.whl"):
            for path in self.unpacked(pattern).rglob("libagefile.[as]*"):
                if path.is_symlink():
                    continue
                flags = (f"-I{ROOT}/bindings/c", f"-Wl,-rpath,{path.parent}")
                run("cc", "-O2", "-o", self.work / "stream", ROOT / "bindings/c/examples/stream.c", path, *flags)
                for processor in ("qemu64", "Haswell"):
                    with self.subTest(f"{pattern}: {path.name} on {processor}"):
                        done = self.on(processor, self.work / "stream", "key", input=(self.work / "keyed").read_bytes())
                        self.assertEqual((done.returncode, done.stdout), expected)

    def on(self, processor, *words, **options):
        emulated = ["sh", "-c", 'ulimit -c 0; exec qemu-x86_64 -cpu "$@"', "sh", processor, *words]
        return subprocess.run(emulated, cwd=self.work, capture_output=True, **options)

    @needs("lintian")
    def test_lintian(self):
        """lintian prints nothing about the Debian packages and the source package."""
        packages = [*sorted(self.dist.glob("*.deb")), *self.dist.glob("*.dsc")]
        self.assertEqual(run("lintian", "--display-info", "--tag-display-limit", "0", *packages), "")

    def test_source_package(self):
        """With a stand-in for the toolchain, the source package builds the bytes of the Debian packages; without,
        it says what it needs. It refuses a function not in its list of symbols. `clean` removes all of a build."""
        tree = self.work / "unpacked"
        run("dpkg-source", "-x", self.one("*.dsc"), tree)
        sources = sorted(tree.rglob("*"))
        words = ("dpkg-buildpackage", "-b", "-us", "-uc", "-d")
        without = stand_in.tools_but(self.work / "tools", "rt")
        done = subprocess.run(words, cwd=tree, env=without, capture_output=True, text=True)
        self.assertIn("package: building the packages needs the Rattle toolchain, the command rt\n", done.stderr)
        run(*words, cwd=tree, env=stand_in.toolchain(self.work / "kit"))
        for deb in self.dist.glob("*.deb"):
            self.assertEqual((self.work / deb.name).read_bytes(), deb.read_bytes(), deb.name)
        names = (tree / "debian/libagefile1.symbols").read_text()
        (tree / "debian/libagefile1.symbols").write_text(re.sub(".*agefile_wrap@.*\n", "", names))
        with self.assertRaisesRegex(AssertionError, "\\+ agefile_wrap@AGEFILE_1 "):
            run("debian/rules", "override_dh_makeshlibs", cwd=tree)
        run("debian/rules", "clean", cwd=tree)
        self.assertEqual(sorted(tree.rglob("*")), sources)

    def test_documents(self):
        """In each package with pages, relative links lead to its files, and the license is there."""
        whole = ("agep_*.deb", 5), ("agep-*.tar.xz", 5), ("libagefile-dev*.deb", 5)
        for name, pages in *whole, ("python3-agefile*.deb", 1), ("*.crate", 1), ("*.whl", 0):
            with self.subTest(name):
                tree = self.unpacked(name)
                texts = {path: path.read_text() for path in [*tree.rglob("*.md"), *tree.rglob("METADATA")]}
                targets = [path.parent / link for path, text in texts.items() for link in re.findall(r"\]\((?!https?:)([^)#]+)", text)]
                self.assertEqual([path for path in targets if not path.exists()], [])
                self.assertEqual(len([path for path in texts if path.name == "README.md"]), pages)
                said = " ".join(path.read_text() for path in [*tree.rglob("LICENSE"), *tree.rglob("copyright")])
                for part in (ROOT / "LICENSE").read_text().split("(c) ")[1].split("\n\n"):
                    self.assertIn(" ".join(part.split()), " ".join(said.split()))
                self.assertEqual({path.name for path in tree.rglob("*.md")} >= {"USE.md", "CHANGELOG.md"}, pages == 5)

    def test_relations(self):
        """The program and the library depend on the glibc of docs/PACKAGES.md, other packages on the library.
        The source package names their architectures, and needs the packages of the tools that make them."""
        expected = {
            "agep": "Depends: libc6 (>= 2.34)\nSuggests: age\n",
            "libagefile1": "Depends: libc6 (>= 2.14)\nMulti-Arch: same\n",
            "libagefile-dev": f"Depends: libagefile1 (= {self.for_debian})\nSuggests: agep, pkg-config\nMulti-Arch: same\n",
            "python3-agefile": f"Depends: libagefile1 (>= {self.for_debian}), python3:any\nSuggests: python3-fsspec\n",
        }
        found = {name: run("dpkg-deb", "-f", self.one(f"{name}_*.deb"), "Depends", "Suggests", "Multi-Arch") for name in expected}
        self.assertEqual(found, expected)
        files = [*map(shutil.which, DEBIAN[1:]), *(f"/usr/lib/python3/dist-packages/{module}/__init__.py" for module in MODULES)]
        owners = {line.split(":")[0] for line in run("dpkg", "-S", *files).splitlines()}
        source = self.one("*.dsc").read_text()
        architectures = dict(re.findall(r"^ (\S+) deb .* arch=(\S+)", source, re.MULTILINE))
        self.assertEqual(architectures, {name: "all" if name == "python3-agefile" else "amd64" for name in expected})
        needed = re.search("^Build-Depends: (.*)", source, re.MULTILINE)[1].replace("-compat (= 13)", "")
        self.assertEqual({*needed.split(", ")}, {"python3", *owners})

    @needs("dpkg")
    def test_installed_and_removed(self):
        root = Path(tempfile.mkdtemp(dir=self.work))
        for folder in ("var/lib/dpkg/info", "var/lib/dpkg/updates", "var/log"):
            (root / folder).mkdir(parents=True)
        for name in ("status", "available"):
            (root / "var/lib/dpkg" / name).touch()
        dpkg = ("dpkg", "--root", root, "--log", root / "log", "--force-depends", "--force-not-root", "--force-script-chrootless")
        # The maintainer scripts of the package for Python work on the system's own root.
        debs = [deb for deb in self.dist.glob("*.deb") if not deb.name.startswith("python3-")]
        run(*dpkg, "-i", *debs)
        self.assertTrue((root / "usr/bin/agep").exists())
        names = [deb.name.partition("_")[0] for deb in debs]
        run(*dpkg, "--purge", *names)
        self.assertEqual(sorted(path.name for path in root.iterdir()), ["log", "var"])

    def test_program(self):
        root = self.unpacked("agep_*.deb")
        agep = root / "usr/bin/agep"
        self.assertEqual(run(agep, "--version"), f"agep {self.version} ({levels_here()[-1]})\n")
        (self.work / "pass").write_text("correct horse\n")
        self.assertEqual(run(agep, "decrypt", "-p", self.work / "pass", SECRET), "hello\n")
        alone = shutil.copy(agep, self.work / "copy")
        self.assertEqual(run(alone, "decrypt", "-p", self.work / "pass", SECRET), "hello\n")
        self.assertEqual(run(agep, "help", "decrypt"), run(AGEP, "help", "decrypt"))
        refused = subprocess.run([agep, "decrypt"], input=b"hello", capture_output=True)
        self.assertEqual(refused.returncode, 1)

    def test_limit_of_a_file_size(self):
        """A write above the limit fails, because the package's program ignores SIGXFSZ."""
        agep = self.unpacked("agep_*.deb") / "usr/bin/agep"
        (self.work / "key").write_bytes(fixture.KEY)
        (self.work / "big").write_bytes(bytes(200000))
        words = 'ulimit -f 100; exec "$0" encrypt -k key -o out big'
        done = subprocess.run(["sh", "-c", words, agep], cwd=self.work, capture_output=True, text=True)
        self.assertEqual((done.returncode, done.stdout, done.stderr), (1, "", "agep: write failed\n"))
        self.assertEqual((self.work / "out").stat().st_size, 100 * 512)

    @needs("man")
    def test_manual_page(self):
        page = self.unpacked("agep_*.deb") / "usr/share/man/man1/agep.1.gz"
        said = run("man", "-l", page, env=os.environ | {"LC_ALL": "C.UTF-8", "MANWIDTH": "200"})
        self.assertRegex(said, rf"\nagep {re.escape(self.version)} +\d{{4}}-\d\d-\d\d +AGEP")

    def test_libraries_that_are_needed(self):
        """The oldest glibc for programs and libraries is that of docs/PACKAGES.md. They have no table of symbols,
        and no fixed address. The wheel has its tag and its description."""
        root = self.unpacked("*.deb", "*.whl", "agep-*.tar.xz")
        files = [path for path in root.rglob("*") if path.is_file() and path.read_bytes()[:4] == b"\x7fELF"]
        libraries = {path for path in files if ".so" in path.name}
        self.assertEqual((len(libraries), len(files)), (5, 8))
        self.assertEqual(max(glibc(path) for path in libraries), GLIBC_OF_LIBRARY)
        self.assertEqual(max(glibc(path) for path in files), GLIBC)
        self.assertEqual([path for path in files if run("nm", path) or "DYNAMIC" not in run("objdump", "-f", path)], [])
        (facts,) = self.unpacked("*.whl").glob("*.dist-info")
        self.assertIn("Root-Is-Purelib: false\nTag: py3-none-manylinux_2_17_x86_64\n", (facts / "WHEEL").read_text())
        metadata = (facts / "METADATA").read_text()
        self.assertRegex(metadata, r"\nRequires-Python: >=3\.9\n(.*\n)*Requires-Dist: fsspec .*; extra == 'fsspec'\n")
        self.assertIn((ROOT / "bindings/python/README.md").read_text(), metadata)

    @needs("cc", "pkg-config")
    def test_a_program_in_c(self):
        root = self.unpacked("libagefile*.deb")
        library = root / "usr/lib/x86_64-linux-gnu"
        config = os.environ | {"PKG_CONFIG_PATH": str(library / "pkgconfig")}
        self.assertEqual(run("pkg-config", "--modversion", "agefile", env=config), f"{self.for_debian}\n")
        flags = run("pkg-config", "--cflags", "--libs", "agefile", env=config).split()
        source = root / "usr/share/doc/libagefile-dev/examples/stream.c"
        run("cc", "-O2", "-o", self.work / "stream", source, *flags, f"-Wl,-rpath,{library}")
        (self.work / "key").write_bytes(bytes(32))
        key = ("stream", self.work / "key")
        sealed = subprocess.run([self.work / "stream", "-e", key[1]], input=b"text", capture_output=True, check=True)
        opened = subprocess.run([self.work / "stream", key[1]], input=sealed.stdout, capture_output=True, check=True)
        self.assertEqual(opened.stdout, b"text")
        self.assertIn("libagefile.so", run("ldd", self.work / "stream"))

    @needs("cc")
    def test_layout(self):
        """Structs, codes and states are those with which programs of earlier releases were compiled."""
        lines = (ROOT / "share/debian/libagefile.layout").read_text().splitlines()
        rows = [line.rsplit(" ", 1) for line in lines if not line.startswith("#")]
        self.assertEqual(len({name for name, _ in rows if name.startswith("sizeof")}), 6)
        source = self.work / "layout.c"
        asserts = [f'_Static_assert({name} == {value}, "{name}");' for name, value in rows]
        source.write_text("\n".join(["#include <agefile.h>", "#include <stddef.h>", *asserts]) + "\n")
        include = self.unpacked("libagefile-dev*.deb") / "usr/include"
        run("cc", "-std=c11", "-fsyntax-only", f"-I{include}", source)

    def by_the_readme(self, start, folder):
        """Copies the packages to a folder, and runs there the line of README.md with this start."""
        line = re.search(f"^{start} .*$", (ROOT / "README.md").read_text(), re.MULTILINE)[0]
        for path in self.dist.iterdir():
            shutil.copy(path, folder)
        run("sh", "-ec", line, cwd=folder, env=os.environ | {"HOME": str(folder), "PIP_NO_INDEX": "1"})

    def test_the_wheel(self):
        """The command of README.md installs the wheel; pip removes all of it."""
        work = Path(tempfile.mkdtemp(dir=self.work))
        self.by_the_readme("python3 -m venv", work)
        folder = work / "v"
        said = run(folder / "bin/python", "-c", "import agefile; print(agefile.__version__, agefile.library_version())")
        self.assertEqual(said, f"{self.for_python} {last_release()}\n")
        run(folder / "bin/pip", "uninstall", "-y", "agefile")
        self.assertEqual(list(folder.rglob("agefile*")), [])

    def test_the_package_for_python(self):
        root = self.unpacked("python3-agefile*.deb", "libagefile[0-9]*.deb")
        environment = os.environ | {
            "PYTHONPATH": str(root / "usr/lib/python3/dist-packages"),
            "LD_LIBRARY_PATH": str(root / "usr/lib/x86_64-linux-gnu"),
        }
        said = run("/usr/bin/python3", "-c", "import agefile; print(agefile.__version__)", env=environment)
        self.assertEqual(said, f"{self.for_python}\n")

    def test_the_crate(self):
        """A project adds the crate by the commands of the crate's README.md, whose programs run."""
        root = self.unpacked("libagefile-dev*.deb", "libagefile[0-9]*.deb")
        tree = Path(tempfile.mkdtemp(dir=self.work))
        shutil.copy(self.one("*.crate"), tree)
        page = (ROOT / "bindings/rust/README.md").read_text()
        (tree / "src/bin").mkdir(parents=True)
        (tree / "Cargo.toml").write_text('[package]\nname = "user"\nversion = "0.1.0"\nedition = "2021"\n')
        for name, program in zip(("writes", "reads"), re.findall(r"^```rust,no_run\n(.*?)^```$", page, re.M | re.S)):
            (tree / f"src/bin/{name}.rs").write_text(program)
        environment = os.environ | {
            "AGEFILE_LIB_DIR": str(root / "usr/lib/x86_64-linux-gnu"),
            "CARGO_TARGET_DIR": str(tree / "target"),
        } | QUICK
        run("sh", "-ec", re.search(r"^```sh\n(.*?)^```$", page, re.M | re.S)[1], cwd=tree, env=environment)

        def said_by(name, **options):
            return run("cargo", "run", "--offline", "--quiet", "--bin", name, cwd=tree, env=environment, **options)

        (tree / "key").write_bytes(fixture.KEY)
        self.assertEqual(said_by("writes", input="text\n" * 300000), "")
        made = (tree / "notes.age").rename(tree / "disk.age").read_bytes()
        self.assertEqual(subprocess.check_output([AGEP, "decrypt", "-k", "key", "disk.age"], cwd=tree), b"text\n" * 300000)
        for name, file in ("damaged.age", fixture.changed(made, 70000)), ("notes.age", fixture.for_passphrase(b"hello\n")), ("passphrase", fixture.PASSPHRASE):
            (tree / name).write_bytes(file)
        self.assertEqual(said_by("reads"), "bytes 65536 to 131071 are lost\nsomething is missing\n")
        self.assertEqual(((tree / "notes").read_bytes(), (tree / "saved").stat().st_size), (b"hello\n", 1500000))

    def test_the_tarball(self):
        """The commands of README.md and docs/PACKAGES.md install the tarball in a home, link a program, and uninstall."""
        home = self.work / "home"
        home.mkdir()
        self.by_the_readme("mkdir -p", home)
        shutil.copy(ROOT / "bindings/c/examples/stream.c", home / "program.c")
        commands = re.findall(r"^\$ (.*)$", (ROOT / "docs/PACKAGES.md").read_text(), re.MULTILINE)
        self.assertEqual(len(commands), 4)
        words = "; ".join(["set -e", *commands[:3], "agep --version", "ldd program", "touch ~/.local/bin/other", commands[3]])
        said = run("bash", "-c", words, cwd=home, env={"HOME": str(home), "PATH": os.environ["PATH"]})
        self.assertIn(f"agep {self.version} ({levels_here()[-1]})\n", said)
        self.assertIn(f" => {home}/.local/lib/", said)
        left = [str(path.relative_to(home)) for path in home.rglob("*") if path.is_file() or path.is_symlink()]
        self.assertEqual(sorted(left), sorted([".local/bin/other", *(path.name for path in home.glob("*") if path.is_file())]))
        self.assertFalse((home / ".local/share/doc/agep").exists())

    @needs("buildah")
    @unittest.skipUnless(can_mount(), "no mount namespace")
    def test_container(self):
        """buildah, with the arguments in share/Containerfile, makes an image in which agep runs."""
        (tree,) = self.unpacked("agep-*.tar.xz").iterdir()
        page = (tree / "share/doc/agep/Containerfile").read_text()
        words = re.search(r"^# +podman build (.*)$", page, re.MULTILINE)[1].split()
        store = Path(tempfile.mkdtemp(dir=self.work))
        buildah = ("buildah", "--storage-driver", "vfs", "--root", store / "root", "--runroot", store / "run")
        options = {"cwd": tree, "env": os.environ | {"XDG_RUNTIME_DIR": str(store)}}
        run(*buildah, "build", "--isolation", "chroot", *words, **options)
        entry = json.loads(run(*buildah, "inspect", "--type", "image", "agep", **options))["OCIv1"]["config"]["Entrypoint"]
        container = run(*buildah, "from", "agep", **options).strip()
        (store / "data").mkdir()
        (store / "data/pass").write_text("correct horse\n")
        shutil.copy(SECRET, store / "data/file")
        ran = ("run", "--isolation", "chroot", "-v", f"{store}/data:/data", container, "--", *entry)
        self.assertEqual(run(*buildah, *ran, "decrypt", "-p", "pass", "file", **options), "hello\n")

    @unittest.skipUnless(can_mount(), "no mount namespace")
    def test_static_program(self):
        """agep-static runs in a root that has no other program and no library."""
        (tree,) = self.unpacked("agep-*.tar.xz").iterdir()
        root = Path(tempfile.mkdtemp(dir=self.work))
        shutil.copy(tree / "bin/agep-static", root)
        (root / "pass").write_text("correct horse\n")
        shutil.copy(SECRET, root / "file")
        self.assertEqual(run(*in_a_namespace(":"), "chroot", root, "/agep-static", "decrypt", "-p", "pass", "file"), "hello\n")


# Stand-ins for the builds: each prints its name and its first argument, if it gets the environment.
STAND_INS = "extern char **environ;\n" + "".join(
    f'int main_{level.replace("-", "_")}(int n, char **words, char **all) {{ return n < 2 || all != environ || printf("{level} %s\\n", words[1]) < 0; }}\n'
    for level in LEVELS
)


@needs("cc")
class Chooser(unittest.TestCase):
    """share/agep.c, linked with stand-ins for the builds."""

    def compile(self, *flags):
        work = tempfile.mkdtemp()
        self.addCleanup(shutil.rmtree, work)
        words = ("cc", "-O2", "-Wall", "-Wextra", "-Werror", *flags, '-DAGEP_VERSION="1.2.3"', "-o", f"{work}/agep")
        run(*words, ROOT / "share/agep.c", "-include", "stdio.h", "-x", "c", "-", input=STAND_INS)
        return f"{work}/agep"

    def calls(self, build, *words):
        """The arguments must reach this build, and --version must name it."""
        self.assertEqual(run(*words, "word"), f"{build} word\n")
        for option in ("--version", "-V"):
            self.assertEqual(run(*words, option), f"agep 1.2.3 ({build})\n")

    def test_this_processor(self):
        """The build that fits the processor is called."""
        self.calls(levels_here()[-1], self.compile())
        for level in LEVELS:
            self.calls(level, self.compile(f'-D__builtin_cpu_supports(level)=(__builtin_strcmp(level, "{level}") <= 0)'))

    @needs("qemu-x86_64")
    def test_other_processors(self):
        """The build for x86-64-v3 is called only if no part of that level is missing."""
        agep = self.compile("-static")
        for processor in ("Haswell", "qemu64", "Nehalem", "Haswell,-avx2", "Haswell,-bmi2", "Haswell,-movbe", "Haswell,-xsave"):
            with self.subTest(processor):
                self.calls("x86-64-v3" if processor == "Haswell" else "x86-64", "qemu-x86_64", "-cpu", processor, agep)

    def test_version(self):
        """A version that cannot be written is an error; --version with another argument goes to the program."""
        agep = self.compile()
        done = subprocess.run(["sh", "-c", 'exec "$0" --version >/dev/full', agep], capture_output=True, text=True)
        self.assertEqual((done.returncode, done.stderr), (1, "agep: write failed\n"))
        self.assertEqual(run(agep, "--version", "word"), f"{levels_here()[-1]} --version\n")


@functools.cache
def made():
    """The folder of the packages, which are made once: under tests/packages.sh by the first process that needs them."""
    folder = Path(os.environ.get("PACKAGES") or tempfile.mkdtemp())
    if "PACKAGES" not in os.environ:
        unittest.addModuleCleanup(shutil.rmtree, folder)
    with open(folder / "lock", "w") as lock:
        fcntl.flock(lock, fcntl.LOCK_EX)
        if not (folder / "dist/SHA256SUMS").exists():
            run(ROOT / "package", folder / "dist", umask=0o022)
    return folder / "dist"


def made_one(what, pattern):
    """The package of this name; its tests are skipped if a tool of ./package is missing."""
    found = list(made().glob(pattern))
    if not found:
        raise unittest.SkipTest(f"{what} is not made: ./package says which tool is missing")
    return found[0]


class WithPython(unittest.TestCase):
    """The tests of the package for Python, over the contents of the wheel."""

    @classmethod
    def setUpClass(cls):
        wheel = made_one("the wheel", "*.whl")
        cls.folder = Path(tempfile.mkdtemp())
        cls.addClassCleanup(shutil.rmtree, cls.folder)
        shutil.unpack_archive(wheel, cls.folder, "zip")
        cls.environment = {k: v for k, v in os.environ.items() if k != "AGEFILE_LIBRARY"} | {"PYTHONPATH": str(cls.folder)}

    def run_tests(self, *names):
        for name in names:
            with self.subTest(name):
                words = ["/usr/bin/python3", "-m", "unittest", "discover", "-v", "-s", PYTHON_TESTS, "-p", name]
                done = subprocess.run(words, capture_output=True, text=True, env=self.environment, cwd=self.folder)
                self.assertEqual(done.returncode, 0, done.stdout + done.stderr)
                skipped = re.findall(r"skipped '(.*)'|SkipTest: (.*)", done.stderr)
                if skipped:
                    self.skipTest(f"{name}: {skipped[0]}")


class ForPython(WithPython):
    def test_files(self):
        self.run_tests(*sorted({path.name for path in PYTHON_TESTS.glob("test_*.py")} - LONG))

    @needs("mypy")
    def test_annotations(self):
        run("mypy", "--strict", "--config-file", ROOT / "bindings/python/pyproject.toml", ROOT / "bindings/python/agefile",
            "--cache-dir", self.folder / "cache")


class LongForPython(WithPython):
    def test_files(self):
        self.run_tests(*LONG)


@needs("cargo")
class ForRust(unittest.TestCase):
    @classmethod
    def setUpClass(cls):
        tarball = made_one("the tarball", "agep-*.tar.xz")
        cls.tree = Path(tempfile.mkdtemp())
        cls.addClassCleanup(shutil.rmtree, cls.tree)
        run("tar", "-xf", tarball, "-C", cls.tree, "--strip-components=1")
        cls.environment = os.environ | {
            "AGEFILE_LIB_DIR": str(cls.tree / "lib"),
            "CARGO_TARGET_DIR": str(cls.tree / "target"),
            "RUSTDOCFLAGS": "-D warnings",
        } | QUICK

    def cargo(self, *words):
        run("cargo", *words, "--offline", "--all-features", cwd=ROOT / "bindings/rust", env=self.environment)

    def test_tests(self):
        self.cargo("test")

    @classmethod
    @functools.cache
    def converter(cls):
        """The program tests/library/convert.rs."""
        project = cls.tree / "convert"
        (project / "src").mkdir(parents=True)
        shutil.copy(ROOT / "tests/library/convert.rs", project / "src/main.rs")
        (project / "Cargo.toml").write_text(
            '[package]\nname = "convert"\nversion = "0.1.0"\nedition = "2021"\n'
            f'[dependencies]\nagefile = {{ path = "{ROOT}/bindings/rust", features = ["parallel"] }}\n'
        )
        run("cargo", "build", "--offline", "--quiet", cwd=project, env=cls.environment)
        return cls.tree / "target/debug/convert"

    def convert(self, *words, file):
        return subprocess.run([self.converter(), *words], input=file, capture_output=True, cwd=self.tree, check=True).stdout

    def test_files_of_others(self):
        """The crate opens files of tests/reference.py and of agep; tests/library/model.py and agep open those of
        the crate."""
        (self.tree / "key").write_bytes(fixture.KEY)
        for size in (0, 1, 65535, 65536, 65537, 131072, 140000):
            plain = fixture.PLAIN[:size]
            agep = subprocess.run([AGEP, "encrypt", "-k", "key"], input=plain, capture_output=True, cwd=self.tree, check=True).stdout
            for way in ("whole", "stream", "ranges", "threads"):
                with self.subTest(f"{size} bytes, {way}"):
                    for file in (fixture.for_keys(plain, fixture.KEY), agep):
                        self.assertEqual(self.convert(way, "decrypt", "-k", "key", file=file), plain)
                    made = self.convert(way, "encrypt", "-k", "key", file=plain)
                    back = bytearray(size)
                    self.assertEqual(model.decrypt_key(bytearray(made), fixture.KEY, back), (0, (size, 0, 0)))
                    self.assertEqual(back, plain)
                    done = subprocess.run([AGEP, "decrypt", "-k", "key"], input=made, capture_output=True, cwd=self.tree)
                    self.assertEqual((done.returncode, done.stdout, done.stderr), (0, plain, b""))

    def test_vectors(self):
        """Each way of opening returns what test vectors and the cases of damaged files expect."""
        for way in (testkit.in_rust(self.converter(), kind) for kind in ("whole", "stream", "ranges", "threads")):
            with self.subTest(way.name):
                self.assertEqual(test_vectors.differences(way), {})
                self.assertEqual(test_vectors.differences(way, test_damaged_files.cases()), {})

    def test_salvage(self):
        """What the crate saves and reports of the files of test_salvage.py is what salvaged.py says."""
        (self.tree / "key").write_bytes(fixture.KEY)
        words = (self.converter(), "files", "salvage", "-k", "key")
        with subprocess.Popen(words, stdin=subprocess.PIPE, stdout=subprocess.PIPE, cwd=self.tree) as process:
            def saved(file):
                process.stdin.write(len(file).to_bytes(8, "little") + file)
                process.stdin.flush()
                text = process.stdout.read(int.from_bytes(process.stdout.read(8), "little"))
                return text, json.loads(process.stdout.readline())

            def assert_saved(payload):
                text, (length, chunks, runs, *facts) = saved(test_salvage.HEADER + payload)
                lost = tuple((range(*numbers), first, end - first, is_unread) for numbers, (first, end), is_unread in runs)
                self.assertEqual((text, (length, chunks, lost, *facts)), salvaged.expected(payload))

            files = test_salvage.Payloads()
            files.assert_saved = assert_saved
            for each in files.test_arrangements, files.test_edges, files.test_bytes:
                each()
            process.stdin.close()
            self.assertEqual(process.wait(), 0)

    def test_folder_of_the_library(self):
        """The library's folder is the one that AGEFILE_LIB_DIR names, else the one that pkg-config knows, else
        /usr/local/lib. If it has no library, the error of the build names the folder, the package and the variable.
        Other platforms are refused. If the library changes, the crate is built again."""
        (self.tree / "link").symlink_to("lib")
        own, first, second = (str(self.tree / name) for name in ("lib", "lib/pkgconfig", "link/pkgconfig"))
        # Each variable changes once by itself, after a successful build.
        rows = [
            ({"AGEFILE_LIB_DIR": own}, own), ({"PKG_CONFIG_PATH": first}, f"{first}/../../lib"), ({"PKG_CONFIG_PATH": second}, f"{second}/../../lib"),
            ({"PKG_CONFIG_PATH": second, "AGEFILE_LIB_DIR": "/absent"}, "/absent"),
            ({"PKG_CONFIG_LIBDIR": first}, f"{first}/../../lib"), ({"PKG_CONFIG_LIBDIR": "/absent"}, "/usr/local/lib"),
        ]
        for variables, folder in rows:
            with self.subTest(variables):
                environment = {name: text for name, text in self.environment.items() if name != "AGEFILE_LIB_DIR"} | variables
                words = ["cargo", "check", "--offline", "--message-format=json"]
                done = subprocess.run(words, cwd=ROOT / "bindings/rust", env=environment, capture_output=True, text=True)
                error = f"agefile: {folder} has no libagefile.a: install the package libagefile-dev, or set AGEFILE_LIB_DIR to its folder\n"
                if Path(folder, "libagefile.a").exists():
                    self.assertIn(f'"native={folder}"', done.stdout)
                else:
                    self.assertIn(error, done.stderr)
        script = next((self.tree / "target/debug/build").glob("agefile-*/build-script-build"))
        for platform in ("windows", "x86_64", "gnu"), ("linux", "aarch64", "gnu"), ("linux", "x86_64", "musl"):
            names = {f"CARGO_CFG_TARGET_{part}": name for part, name in zip(("OS", "ARCH", "ENV"), platform)}
            done = subprocess.run([script], env=self.environment | names, capture_output=True, text=True)
            self.assertEqual((done.returncode, done.stderr), (1, "agefile: the library is for Linux on x86-64 with the GNU C library alone\n"))

        def is_built_anew():
            words = ["cargo", "check", "--offline", "--message-format=json"]
            return '"fresh":false' in subprocess.check_output(words, cwd=ROOT / "bindings/rust", env=self.environment, text=True)

        is_built_anew()
        self.assertFalse(is_built_anew())
        (self.tree / "lib/libagefile.a").touch()
        self.assertTrue(is_built_anew())

    @needs("/usr/bin/cargo", "/usr/bin/rustc")
    def test_debians_compiler(self):
        """Debian's compiler accepts the crate, its tests and its example; that of Debian 12 is the oldest allowed."""
        environment = self.environment | {"RUSTC": "/usr/bin/rustc", "CARGO_TARGET_DIR": str(self.tree / "debian")}
        run("/usr/bin/cargo", "check", "--offline", "--all-features", "--all-targets", cwd=ROOT / "bindings/rust", env=environment)

    def test_each_function_is_called(self):
        """The tests of the crate call each public function: if all are deprecated, the compiler warns of each."""
        tree = self.tree / "deprecated"
        shutil.copytree(ROOT / "bindings/rust", tree, ignore=shutil.ignore_patterns("target"))
        names = []
        for path in tree.glob("src/*.rs"):
            if path.name not in ("ffi.rs", "front.rs"):
                names += re.findall(r"^ *pub fn (\w+)", path.read_text(), re.MULTILINE)
                path.write_text(re.sub(r"^( *)(?=pub fn )", r"\1#[deprecated]\n\1", path.read_text(), flags=re.MULTILINE))
        words = ["cargo", "check", "--offline", "--all-features", "--tests", "--message-format=short"]
        said = subprocess.run(words, cwd=tree, env=self.environment, capture_output=True, text=True, check=True).stderr
        called = set(re.findall(r"^tests/.*: use of deprecated [a-z ]* `(.*?)`", said, re.MULTILINE))
        self.assertGreater(len(names), 25)
        self.assertEqual(sorted(re.sub(r".*::", "", name) for name in called), sorted(names), called)

    def test_passphrases(self):
        """The crate opens reference.py's file for a passphrase; reference.py makes the crate's file from its random bytes."""
        (self.tree / "pass").write_bytes(fixture.PASSPHRASE)
        self.assertEqual(self.convert("stream", "decrypt", "-p", "pass", file=fixture.for_passphrase(b"hello\n")), b"hello\n")
        made = self.convert("stream", "encrypt", "-p", "pass", file=b"hello\n")
        seed = parts(made, fixture.PASSPHRASE)
        self.assertEqual(made, reference.age_file(seed, [reference.passphrase_stanza(fixture.PASSPHRASE, 18, seed[32:])], b"hello\n"))

    @needs("cargo-clippy")
    def test_clippy(self):
        run("cargo", "clippy", "--offline", "--all-features", "--all-targets", "--", "-D", "warnings",
            cwd=ROOT / "bindings/rust", env=self.environment)

    def test_documentation(self):
        """The documentation builds without a warning. Each public type has an example, which the tests run,
        or names a type that has one."""
        self.cargo("doc")
        types = [
            (documentation, name) for path in (ROOT / "bindings/rust/src").glob("*.rs") if path.name not in ("ffi.rs", "front.rs")
            for documentation, name in re.findall(r"^((?:///.*\n)*)(?:#\[.*\n)*pub (?:struct|enum|trait) (\w+)", path.read_text(), re.MULTILINE)
        ]
        self.assertGreater(len(types), 12)
        self.assertEqual([name for documentation, name in types if not re.search("```|has an example|have examples", documentation)], [])

    @needs("rustfmt")
    def test_layout(self):
        run("cargo", "fmt", "--check", cwd=ROOT / "bindings/rust", env=self.environment)
