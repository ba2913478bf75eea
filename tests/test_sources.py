"""Rules for the texts of the repository, such as blocks of code and links in documents, the sentence of each
clause, the clause of each planted bug, where code may fail, programs that the compiler must refuse."""

import glob
import importlib.machinery
import importlib.util
import os
import re
import shutil
import subprocess
import textwrap
import unittest

from program import ROOT, TESTS, read, scratch


def text_of(name):
    return read(name).decode("utf-8")


def quoted_clauses(start, text):
    """The clauses that a text quotes, each after this start of a line."""
    found = re.findall(start + r"((?:requires|ensures) \w+ \{ .*? \})(?:`|$)", text, re.MULTILINE | re.DOTALL)
    return [" ".join(clause.split()) for clause in found]


def anchors(page):
    """The anchors of a page's headings."""
    headings = re.findall("^#+ (.*)$", re.sub("(?ms)^```.*?^```$", "", page), re.MULTILINE)
    return {re.sub(r"[^\w -]", "", heading).lower().replace(" ", "-") for heading in headings}


class Documents(unittest.TestCase):
    def test_code(self):
        """Each block of Rust or of a proof in README.md and docs/PROOFS.md occurs in a source."""
        pages = text_of(ROOT + "/README.md") + text_of(ROOT + "/docs/PROOFS.md")
        for kind, files in (("rust", "src/**/*.rt"), ("antt", "proofs/**/*.antt")):
            sources = "".join(text_of(name) for name in sorted(glob.glob(f"{ROOT}/crates/*/{files}", recursive=True)))
            blocks = re.findall(rf"^ *```{kind}\n(.*?)^ *```$", pages, re.MULTILINE | re.DOTALL)
            self.assertTrue(blocks)
            for block in map(textwrap.dedent, blocks):
                with self.subTest(block.split("\n")[0]):
                    self.assertTrue("\n" + block in "\n" + sources, f"not in a source:\n{block}")

    def test_open_chunk(self):
        """docs/PROOFS.md has all clauses of `open_chunk`, in order; README.md has some of them."""
        source = text_of(ROOT + "/crates/age_stream/src/opening.rt")
        contract = re.search(r"^pub fn open_chunk\(.*?^\{$", source, re.MULTILINE | re.DOTALL)[0]
        clauses = quoted_clauses("^ *", contract)
        self.assertTrue(clauses)
        self.assertEqual(quoted_clauses(r"^\| `", text_of(ROOT + "/docs/PROOFS.md").replace("\\|", "|")), clauses)
        shown = quoted_clauses("^", text_of(ROOT + "/README.md"))
        self.assertEqual((len(shown), [clause for clause in shown if clause not in clauses]), (3, []))

    def test_links(self):
        """In the packages with the documents, relative links lead to files, and anchors to headings. Those
        for Python and Rust contain no page but README.md, so its links must be absolute."""
        stage = re.search(r"^stage_documents\(\) \{\n.*?^\}\n", text_of(ROOT + "/package"), re.MULTILINE | re.DOTALL)[0]
        folder = scratch()
        subprocess.run(["bash", "-euc", f'{stage}stage_documents "$0"', folder], env={**os.environ, "root": ROOT}, check=True)
        pages = [os.path.relpath(name, folder) for name in glob.glob(folder + "/**/*.md", recursive=True)]
        self.assertGreater(len(pages), 15)
        for page in sorted(pages):
            links = re.findall(r"\]\((?!https?:)([^)#]*)(?:#([^)]*))?\)", text_of(f"{folder}/{page}"))
            if page in ("bindings/python/README.md", "bindings/rust/README.md"):
                self.assertEqual(links, [], page)
            for path, anchor in links:
                with self.subTest(f"{page}: {path}#{anchor}"):
                    target = os.path.normpath(os.path.join(folder, os.path.dirname(page), path)) if path else f"{folder}/{page}"
                    self.assertTrue(os.path.isfile(target))
                    self.assertIn(anchor, {"", *anchors(text_of(target) if anchor else "")})

    def test_contents(self):
        """docs/USE.md begins with a list of its recipes, in order."""
        page = text_of(ROOT + "/docs/USE.md")
        listed = re.findall(r"\[([^]]*)\]\(#", " ".join(page.partition("\n## ")[0].split()))
        recipes = re.findall("^### (.)(.*)$", page.partition("\n## Recipes\n")[2].partition("\n## ")[0], re.MULTILINE)
        self.assertEqual(listed, [first.lower() + rest for first, rest in recipes])

    def test_paths(self):
        """Each path that a page names exists in the repository or in a crate, unless it has NAME or CRATE in it, or
        is one of an installation or of a release to come."""
        for page in sorted(glob.glob(ROOT + "/*.md") + glob.glob(ROOT + "/*/*.md")):
            names = set(re.findall(r"`((?:crates|tests|docs|share|bindings|bench|specs|src|proofs|must-fail)/[\w./*-]+)`", text_of(page)))
            names = [name for name in sorted(names - {"share/man", "share/signers"}) if not re.search("NAME|CRATE|^share/doc/", name)]
            missing = [name for name in names if not glob.glob(f"{ROOT}/{name}") and not glob.glob(f"{ROOT}/crates/*/{name}")]
            self.assertEqual(missing, [], os.path.basename(page))

    def test_commands(self):
        """The commands of docs/PROMISES.md run, and those of CONTRIBUTING.md name tests that exist."""
        commands = re.findall(r"^\$ (share/promises.*?) *#", text_of(ROOT + "/docs/PROMISES.md"), re.MULTILINE)
        self.assertEqual(len(commands), 3)
        for command in commands:
            with self.subTest(command):
                done = subprocess.run(["bash", "-c", f"{command} | head -n 1"], cwd=ROOT, capture_output=True, text=True)
                self.assertEqual((done.returncode, done.stderr), (0, ""))
        page = text_of(ROOT + "/CONTRIBUTING.md")
        for name in re.search(r"^tests/cli.sh (.*)$", page, re.MULTILINE)[1].split():
            self.assertTrue(os.path.exists(f"{TESTS}/cli/{name}.console"), name)
        for name in re.search(r"^tests/unit.sh (.*)$", page, re.MULTILINE)[1].split():
            module, _, case = name.partition(".")
            self.assertIn(f"class {case}", text_of(f"{TESTS}/{module}.py"))

    def test_faults(self):
        """Each fault's name in the table of docs/FORMAT.md also occurs in the page's text, outside of tables."""
        document = text_of(ROOT + "/docs/FORMAT.md")
        terms = re.findall(r"^\| \d+ \| `\w+` \| (.*?)(?: \(.*\))? \| `.*` \|$", document, re.MULTILINE)
        text = " ".join(line for line in document.lower().split("\n") if not line.startswith("|"))
        self.assertTrue(terms)
        self.assertEqual([term for term in terms if term.lower() not in text], [])


def load_promises():
    """The script share/promises as a module."""
    loader = importlib.machinery.SourceFileLoader("promises", ROOT + "/share/promises")
    module = importlib.util.module_from_spec(importlib.util.spec_from_loader("promises", loader))
    loader.exec_module(module)
    return module


PROMISES = load_promises()
# Labels that say everything that their clause says.
PLAIN = {"bound", "err", "handed_back", "len", "none", "ok", "same_reference", "some", "unchanged", "value"}


class Promises(unittest.TestCase):
    def test_words(self):
        """Each public `ensures` has a plain label, or a sentence above it, its function or a cited relation."""
        every = PROMISES.modules()
        for folder in sorted(glob.glob(ROOT + "/crates/*/src/lib.rt")):
            crate = folder.split("/")[-3]
            found = [clause for clause in PROMISES.clauses(crate) if clause.is_public and clause.label not in PLAIN]
            silent = [f"{one.function} [{one.label}]" for one in found if not PROMISES.sentence(one, every)]
            with self.subTest(crate):
                self.assertEqual(silent, [])

    def test_each_is_seen(self):
        """share/promises finds each `ensures` and each law of a trait in the sources."""
        for folder in sorted(glob.glob(ROOT + "/crates/*/src/lib.rt")):
            crate = folder.split("/")[-3]
            sources = "".join(text_of(name) for name in glob.glob(f"{ROOT}/crates/{crate}/src/**/*.rt", recursive=True))
            with self.subTest(crate):
                self.assertEqual(len(list(PROMISES.clauses(crate))), len(re.findall(r"^ *(?:ensures|ghost \w+: \{ \()", sources, re.MULTILINE)))

    def test_reading(self):
        """The counts of definitions in docs/PROOFS.md are those that share/promises prints."""
        said = re.findall(r"^- `(\w+::\w+)` rests on (\d+ definitions in \d+ lines)", text_of(ROOT + "/docs/PROOFS.md"), re.MULTILINE)
        self.assertEqual(len(said), 3)
        for name, count in said:
            with self.subTest(name):
                done = subprocess.run([ROOT + "/share/promises", name], capture_output=True, text=True)
                self.assertEqual(done.stdout.split("\n")[-2].replace(", ", " in "), count)

    def test_named(self):
        """Each clause and law named in README.md, docs/PROMISES.md or docs/PROOFS.md exists, and each contract
        in the table of README.md is in a crate named beside it."""
        crates = [folder.split("/")[-3] for folder in glob.glob(ROOT + "/crates/*/src/lib.rt")]
        clauses = {(f"`{crate}`", clause.function, clause.label) for crate in crates for clause in PROMISES.clauses(crate)}
        named = set()
        for page in ("README", "docs/PROMISES", "docs/PROOFS"):
            text = " ".join(text_of(f"{ROOT}/{page}.md").split())
            for name, labels in re.findall(r"`([\w:]+)`? \[([\w, ]+)\](?!\()", text):
                named |= {("", name, label) for label in labels.split(", ")}
            named |= {("", name, "") for name in re.findall(r"`(laws::\w+)`", text)}
        for crates, contracts in re.findall(r"^\| .* \| (`\w+`.*) \| (.*) \|$", text_of(ROOT + "/README.md"), re.MULTILINE):
            named |= {(crates, name, "") for name in re.findall(r"`([\w:]*[a-z\d])[` ]", contracts)}
        self.assertGreater(len(named), 60)
        for crates, name, label in sorted(named):
            with self.subTest(f"{crates} {name} [{label}]"):
                found = {(crate, has) for crate, function, has in clauses if f"::{name}".endswith("::" + function)}
                self.assertTrue(any(crate in (crates or crate) and label in ("", has) for crate, has in found))


def planted_bugs():
    """For each planted bug its crate, its name and its lines."""
    for name in sorted(glob.glob(ROOT + "/crates/*/must-fail/*.edit")):
        yield name.split("/")[-3], os.path.basename(name)[:-5], text_of(name).rstrip("\n").split("\n")


class PlantedBugs(unittest.TestCase):
    """The planted bugs that the prover must refuse."""

    @classmethod
    def setUpClass(cls):
        cls.bugs = list(planted_bugs())
        lines = re.findall(r"^(\w+)[^:\n]*:(.*)$", text_of(ROOT + "/crates.txt"), re.MULTILINE)
        cls.below = {name: rest.split() for name, rest in lines}
        cls.clauses = {}
        for crate in cls.below:
            if os.path.exists(f"{ROOT}/crates/{crate}/src/lib.rt"):
                cls.clauses[crate] = {(clause.function, clause.label) for clause in PROMISES.clauses(crate)}

    def has_clause(self, crate, function, label):
        """Whether the crate or one below it has the clause, or implements a trait function of that name."""
        if (function, label) in self.clauses.get(crate, ()):
            return True
        kind, _, name = function.rpartition("::")
        for file in glob.glob(f"{ROOT}/crates/{crate}/src/**/*.rt", recursive=True) if kind and not label else []:
            bodies = re.findall(rf"^impl.* for {kind}\b.*?^}}", text_of(file), re.MULTILINE | re.DOTALL)
            if any(re.search(rf"\bfn {name}\b", body) for body in bodies):
                return True
        return any(self.has_clause(lower, function, label) for lower in self.below.get(crate, []))

    def test_names(self):
        """No two bugs have the same name."""
        names = [name for _, name, _ in self.bugs]
        self.assertTrue(names)
        self.assertEqual({name for name in names if names.count(name) > 1}, set())

    def test_clauses(self):
        """The first line of each bug names a clause of its crate, or of one below."""
        for crate, name, lines in self.bugs:
            with self.subTest(f"{crate}: {name}"):
                found = re.fullmatch(r"# clause: ([\w:]+)(?: \[(\w+)\])?", lines[0])
                self.assertTrue(found, lines[0])
                self.assertTrue(self.has_clause(crate, found[1], found[2] or ""), lines[0])


def code_of(text):
    """A source without comments, clauses, ghost items, imports, result types and out_of_memory."""
    text = re.sub(r"//.*", "", text)
    text = re.sub(r"^fn out_of_memory.*?^}$", "", text, flags=re.MULTILINE | re.DOTALL)
    text = re.sub(r"^ *(ghost |pub )*use .*?;", "", text, flags=re.MULTILINE | re.DOTALL)
    text = re.sub(r"^ *ghost ([^\n]*},|.*?};)$", "", text, flags=re.MULTILINE | re.DOTALL)
    text = re.sub(r"\n *(ensures|requires)\*? .*?(?=\n\s*(ensures|requires|\{\n)|;\n)", "", text, flags=re.DOTALL)
    return re.sub(r"-> [^{;=]*(?=[{;])", "-> ", text)


def around(code, at):
    """For a position its match arm's pattern, the text that opens its block, and the offset where the block
    opens."""
    depth, pattern, stop = 0, None, at
    for place in range(at - 1, -1, -1):
        sign = code[place]
        depth += {")": 1, "]": 1, "}": 1, "(": -1, "[": -1, "{": -1}.get(sign, 0)
        if depth > 0:
            continue
        if depth == 0 and code.startswith("=>", place) and pattern is None:
            start = max(code.rfind(sep, 0, place) for sep in (",\n", "{\n", "}\n")) + 1
            pattern = code[start:place].strip()
        if depth < 0:
            if sign == "{":
                stop = place
                break
            depth = 0
    head, depth = stop, 0
    while head > 0:
        depth += {")": 1, "]": 1, "(": -1, "[": -1}.get(code[head - 1], 0)
        if depth == 0 and code[head - 1] in ";{}":
            break
        head -= 1
    return pattern, " ".join(code[head:stop].split()), stop


def sources():
    """The name and the code of each source except tests."""
    for name in sorted(glob.glob("crates/*/src/**/*.rt", root_dir=ROOT, recursive=True)):
        if not re.search("_tests/|/test", name):
            yield name, code_of(text_of(f"{ROOT}/{name}"))


class OutOfMemory(unittest.TestCase):
    """Out of memory is returned only in the error arm of a call that allocates, or in a block of OTHERS. No
    clause can say so, because no clause knows when an allocation is refused."""

    NAMES = r"\b(?:OutOfMemory|OUT_OF_MEMORY|Memory|AllocError(?=\))|out_of_memory(?=\(\)\)))"
    # A call that takes an allocator, or grows a vector or a text.
    ALLOCATES = r"\balloc\b|\.(push|insert|append|extend_from_slice)\(|\bwrite_\w+\(.*&mut \w+\)"
    # Places that name out of memory without returning it, or convert it.
    DECLARED = (
        r"(pub enum \w+(<'a>)?|pub\(crate\) const|impl From<Alloc\w+(<T>)?> for .*"
        r"|fn from\(_?error: Alloc\w+(<T>)?\) ->|match (self|error|fault)|\w+::Memory =>)$"
    )
    CONVERTED = (
        r"(Err\()?([\w:]+::)?(Memory|OutOfMemory)\)?$"
        r"|Err\(reason\) if reason\.kind\(\) == ErrorKind::OutOfMemory$"
    )
    # The blocks in which a function returns out of memory for a reason that is checked elsewhere.
    OTHERS = {
        # A capacity other than the one requested, which the standard library never returns.
        "if bytes.capacity() != CHUNK_BUF_SIZE",
        # An error of the parser or of the arguments, whose kind is out of memory.
        "if error.kind() == ErrorKind::OutOfMemory", "if kind == io::ErrorKind::OutOfMemory",
    }

    def is_of_a_call(self, code, at):
        pattern, head, _ = around(code, at)
        if head in self.OTHERS or re.search(self.DECLARED, head) or not head:
            return True
        if pattern is not None:
            return bool(re.match(self.CONVERTED, pattern)) or (
                pattern == "Err(_)" and "match" in head and bool(re.search(self.ALLOCATES, head)))
        if re.match(r"let .*\bOk\(.* else$", head):
            # A pair of results, each of which has a name.
            return bool(re.search(self.ALLOCATES, head) or re.search(r"= \(\w+, \w+\) else$", head))
        parts = head.removeprefix("if ").split(" || ")
        return all(re.search(f"(?:{self.ALLOCATES}).*[.]is_err[(][)]$", part) for part in parts)

    def test_arms(self):
        """Each place that names out of memory is in such an arm or a pattern or in a list above."""
        for name, code in sources():
            for found in re.finditer(self.NAMES, code):
                before, after = code[: found.start()], code[found.end() :]
                is_pattern = re.match(r"\)?( if [^{]*)? =>", after) or before.endswith("ErrorKind::")
                with self.subTest(f"{name}: {found.group()}"):
                    is_good = is_pattern or self.is_of_a_call(code, found.start())
                    self.assertTrue(is_good, around(code, found.start())[:2])


    # The capacity that a call requests: a constant, a length, or a number that is named here. A
    # list of values has no size.
    SIZE = r"([A-Z_]+|[\w.]+\.len\(\)|len|spaces|range\.len|params\.work_len\(\))"
    ROOM = rf"with_capacity\(alloc, {SIZE}(, \w+)?\)|vec!\[in [\w.()]+; (\w+; {SIZE}|[^;]+)\]"

    def test_sizes(self):
        """A call requests the capacity that it needs; no condition makes it larger for some counts."""
        for name, code in sources():
            for line in re.findall(".*(?:with_capacity|vec!).*", code):
                with self.subTest(f"{name}: {line.strip()}"):
                    self.assertRegex(line, self.ROOM)
                    # a name for the number does not hide a choice
                    self.assertNotRegex(code, r"\blet (len|spaces|range) =[^;]*\b(if|match|MAX)\b")


class FailedCalls(unittest.TestCase):
    """A device fails only if its reader, writer or vector failed: in an arm of a `match` on a call of it. No
    clause can say so, because the standard library does not count failures."""

    NAMES = r"\b(?:count_failure\(&mut \w|DeviceFault(?=\)$)|self\.fail\()"
    CALLS = re.compile(
        r"match (self\.(reader|file)\.(read|seek)\(.*\)|self\.writer\.(write\(piece\)|flush\(\))"
        r"|read_from\(.*\)|self\.out\.extend_from_slice\(piece\))$"
    )
    # First arms after which every other Ok is a failure: no bytes, although some were requested.
    REFUSED = {
        "Ok(n) if n > 0 || piece.is_empty()",
        "Ok(n) if n > 0 || buf.is_empty() || self.size.is_none_or(|size| size <= at)",
    }

    def test_arms(self):
        count = 0
        for name, code in sources():
            for found in re.finditer(self.NAMES, code, re.MULTILINE):
                pattern, head, stop = around(code, found.start())
                if head.endswith("=>"):
                    pattern, (_, head, _) = head.split(",")[-1].removesuffix("=>").strip(), around(code, stop)
                with self.subTest(f"{name}: {head}"):
                    self.assertRegex(head, self.CALLS)
                    self.assertIn(pattern, {"Err(_)", "Err(reason)", "Ok(_)", "_"})
                    if not pattern.startswith("Err"):
                        block = code[code.rindex("match ", 0, found.start()) : found.start()]
                        first = " ".join(block[block.index("{\n") + 1 : block.index("=>")].split())
                        self.assertIn(first, self.REFUSED)
                count += 1
        self.assertEqual(count, 9)


LIBRARIES = ["age_cipher", "age_kdf", "age_header", "age_recipient", "age_stream", "age_file"]


@unittest.skipUnless(shutil.which("rt"), "the command rt is missing")
class MustNotCompile(unittest.TestCase):
    """The compiler refuses each program of tests/must_not_compile/ before any proof: the first line of
    its file is `// ` and the error's name."""

    def test_refused(self):
        """The compiler refuses each program with this error alone, and `rt` proves nothing after the error, but may
        say before that it proved a library. Each program is a crate over one copy of the libraries and their builds,
        so that nothing is proved again."""
        room = scratch()
        for library in LIBRARIES:
            for part in ("src", "specs", "proofs", "out/rlib"):
                if os.path.isdir(f"{ROOT}/crates/{library}/{part}"):
                    shutil.copytree(f"{ROOT}/crates/{library}/{part}", f"{room}/crates/{library}/{part}")
        lines = [line for line in text_of(ROOT + "/crates.txt").split("\n") if line.split(":")[0] in LIBRARIES]
        programs = {os.path.basename(name)[:-4]: text_of(name) for name in sorted(glob.glob(TESTS + "/must_not_compile/*.txt"))}
        self.assertTrue(programs)
        for name, text in programs.items():
            lines.append(f"{name}: age_header age_recipient age_stream age_file")
            os.makedirs(f"{room}/crates/{name}/src")
            with open(f"{room}/crates/{name}/src/lib.rt", "w", encoding="utf-8") as source:
                source.write(text)
        with open(room + "/crates.txt", "w", encoding="utf-8") as crates:
            crates.write("\n".join([*lines, ""]))
        for name, text in programs.items():
            with self.subTest(name):
                done = subprocess.run(
                    ["rt", "check"], cwd=f"{room}/crates/{name}", stdin=subprocess.DEVNULL,
                    stdout=subprocess.PIPE, stderr=subprocess.STDOUT, encoding="utf-8", errors="replace", timeout=300,
                )
                error = text.split("\n")[0].removeprefix("// ")
                self.assertEqual(set(re.findall(r"error\[[a-z0-9-]+\]", done.stdout)), {error}, done.stdout)
                self.assertNotIn("proved", done.stdout[done.stdout.index("error[") :])
                self.assertNotEqual(done.returncode, 0)
