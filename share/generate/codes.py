"""The faults, the parts of a stanza, their texts and the codes of the library for C, in each language."""

import re
import sys
from typing import NamedTuple

import calls

FAULT, PART, CODE = "age_file/src/fault.rt", "age_recipient/src/unwrapped.rt", "agefile/src/code.rt"
# The faults of files for which no variant of the crate for Rust is generated.
NOT_IN_RUST = {"Read", "Write", "Refused", "IncompatibleRecipients"}
# The parts of a stanza that the crate for Rust names differently.
PARTS_IN_RUST = {"ArgCount": "ArgumentCount", "WorkFactorText": "WorkFactor"}


class Fault(NamedTuple):
    """A code: its number, its name in CamelCase, its text in the program, with {0} for a number, what a
    report holds for it (`place`, `part` or nothing), and its comment in the source."""

    code: int
    name: str
    text: str
    held: str = ""
    comment: str = ""

    @property
    def constant(self):
        return re.sub(r"(?<=[a-z])(?=[A-Z])", "_", self.name).upper()

    @property
    def message(self):
        """The text without its numbers or its part."""
        return re.sub(r" ?\{\d\}:?| ?: ?\{\d\}", "", self.text).removesuffix(":").strip()

    def shown(self, word):
        return self.text.replace("{0}", f"{{{word}}}") if self.held else self.message


# Only the C in front of the library returns this code.
NULL_POINTER = Fault(24, "NullPointer", "null pointer with a length")


def _source(root, name):
    return (root / "crates" / name).read_text()


def _variants(root, source):
    """Each variant of an enum of faults: its comment, its text, its name."""
    enum, shown = _source(root, source).split("impl fmt::Display for ", 1)
    texts = re.findall(r'Fault::(\w+)(?:\(([\w, ]+)\))? => [^"]*"(.*)"', shown)
    for name, places, text in texts:
        comment = re.search(rf"((?: +///.*\n)*) +{name}\b.*,\n", enum)[1]
        for number, place in enumerate(places.split(", ")):
            text = text.replace(f"{{{place}}}", f"{{{number}}}")
        yield comment, text, name


def _numbers(root, kind):
    """The number of each variant, of Fault by `fault_code`, of StanzaFault by `fault_detail`."""
    code = _source(root, CODE)
    constants = dict(re.findall(r"const (\w+): u32 = (\d+);", code))
    arms = re.findall(rf"\b{kind}::(\w+)(?:\([_, ]*\)|\))? => (\w+),", code)
    return {name: int(constants.get(number, number)) for name, number in arms}


def own(root):
    """The codes of the library that are not faults of a file: NULL_POINTER, and constants of code.rt
    whose comments begin with their texts in backquotes."""
    of_faults, found = _numbers(root, "Fault").values(), [NULL_POINTER]
    for comment, constant, number in re.findall(r"((?:///.*\n)+)pub\(crate\) const (\w+): u32 = (\d+);", _source(root, CODE)):
        if int(number) not in of_faults:
            text = re.match(r"/// `([^`]+)`", comment) or sys.exit(f"{CODE}: {constant} has no text in backquotes")
            found.append(Fault(int(number), "".join(map(str.capitalize, constant.split("_"))), text[1]))
    return found


def faults(root):
    """All codes in order: those of files and those of the library."""
    numbers, variants, code = _numbers(root, "Fault"), list(_variants(root, FAULT)), _source(root, CODE)
    if other := set(numbers) ^ {name for _, _, name in variants}:
        sys.exit(f"{', '.join(sorted(other))}: not in both fault.rt and fault_code of code.rt")
    bodies = re.findall(r"^pub\(crate\) fn fault_(place|detail)\b(.*?)^}", code, re.M | re.S)
    held = {name: kind.replace("detail", "part") for kind, body in bodies for name in re.findall(r"\bFault::(\w+)", body)}
    found = [Fault(numbers[name], name, text, held.get(name, ""), comment) for comment, text, name in variants]
    return sorted(found + own(root))


def parts(root):
    """The parts of a stanza by the detail that a report has for them."""
    texts = {name: text for _, text, name in _variants(root, PART)}
    return {number: Fault(number, name, texts[name]) for name, number in _numbers(root, "StanzaFault").items()}


def texts(root):
    """Each generated text by its name."""
    every, details, own_codes = faults(root), parts(root).values(), own(root)
    enum = re.search(r"pub enum Error \{(.*?)\n\}", (root / "bindings/rust/src/error.rs").read_text(), re.S)[1]
    has = re.findall(r"^    (\w+)", enum, re.M)
    rust = [fault for fault in every if fault.name not in NOT_IN_RUST and (fault not in own_codes or fault.name in has)]
    named = {part: PARTS_IN_RUST.get(part.name, part.name) for part in details}
    holds = {"": ("", "", ""), "place": ("(u64)", "(place)", "(place)"), "part": ("(Part)", "(Part::of(report.detail))", "(part)")}
    members = ",\n".join(f"    AGEFILE_{f.constant} = {f.code}" for f in every)

    def lines(pattern, of=every):
        return "".join(pattern(each) for each in of)

    return {
        "codes": f"enum agefile_code {{\n{members}\n}};\n",
        "messages": lines(lambda f: f'    case AGEFILE_{f.constant}: return "{f.message}";\n'),
        "details": lines(lambda p: f'    case {p.code}: return "{p.text}";\n', details),
        "code members": lines(lambda f: f'    {f.constant} = {f.code}, "{f.shown(f.held)}"\n'),
        "code details": lines(lambda p: f'    {p.code}: "{p.text}",\n', details),
        "variants of errors": lines(lambda f: f"{f.comment}    {f.name}{holds[f.held][0]},\n" * (f not in own_codes), rust),
        "codes of errors": lines(lambda f: f"            {f.code} => Error::{f.name}{holds[f.held][1]},\n", rust),
        "texts of errors": lines(lambda f: f'            Error::{f.name}{holds[f.held][2]} => write!(f, "{f.shown(f.held)}"),\n', rust),
        "details of parts": lines(lambda p: f"            {p.code} => Part::{named[p]},\n", details),
        "texts of parts": lines(lambda p: f'            Part::{named[p]} => "{p.text}",\n', details),
        "numbers": calls.grown(root, "numbers", [(f"AGEFILE_{f.constant}", f.code) for f in every]),
        "codes of the library": "| Code in C | What it stands for |\n|---|---|\n"
        + lines(lambda f: f"| {f.code} | {f.text} |\n" * bool(f.code), sorted(own_codes)),
    }
