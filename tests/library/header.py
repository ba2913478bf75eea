"""The declarations in agefile.h: its functions and structs, in the form of share/generate/calls.py, and the C
texts that the programs here include."""

import re
import sys
from pathlib import Path

ROOT = Path(__file__).resolve().parent.parent.parent
sys.path.append(str(ROOT / "share/generate"))

from calls import IN_C, LAYOUT, Export, Value, nonnull, snake
from program import LEVELS

WORDS = {word: kind for kind, word in IN_C.items()}
FUNCTION = re.compile(r"(AGEFILE_CALL\(\([\d, ]+\)\) )?(static inline )?(uint\d+_t) agefile_(\w+)\(([^)]*)\)( AGEFILE_\w+(?:\(\([\d, ]+\)\))?;| \{)")
STRUCT = re.compile(r"typedef struct agefile_(\w+) \{ (.*?) \} agefile_\1;")
# The payload or ranges that a call opens; closed if the call refuses a null pointer.
OPENING = {"begin": "payload", "open": "payload", "ranges_open": "ranges"}
DECLARED = re.compile(r"(const )?(?:agefile_)?(\w+) (\*?)(\w+)(?:\[(?:AGEFILE_LEAST )?(\d+)\])?")


def _value(text):
    const, word, star, name, count = DECLARED.fullmatch(text).groups()
    access = "const" if const else "mut" if star or "LEAST" in text else ""
    return Value(name, access, WORDS.get(word, word), int(count or 0), False)


def _parameters(text):
    """The parameters; a pointer and the length after it count as one."""
    values = []
    for value in map(_value, text.split(", ") if text != "void" else ()):
        if values and value[:3] == (f"{values[-1].name}_len", "", "usize"):
            values[-1] = values[-1]._replace(has_length=True)
        else:
            values.append(value)
    return values


class Header:
    """The exports, the calls that are only in the header, the structs, and the functions without
    the attribute that fits their parameters."""

    def __init__(self, root=ROOT):
        text = re.sub(r"/\*.*?\*/|^#[^\n]*", "", (root / "bindings/c/agefile.h").read_text(), flags=re.S | re.M)
        text = " ".join(text.split()).replace("( ", "(")
        self.exports, self.own, self.wrong = [], [], []
        for before, inline, result, name, parameters, after in FUNCTION.findall(text):
            found = Export(name, _parameters(parameters), WORDS[result])
            if inline and not before:
                continue
            (self.own if inline else self.exports).append(found)
            places = ", ".join(map(str, nonnull(found)))
            attribute = f"AGEFILE_CALL(({places}))" if places else "AGEFILE_USED"
            if (before or after).strip(" ;") != attribute:
                self.wrong.append(f"{name}: {attribute} is expected")
        self.structs = {name: [_value(field) for field in fields.rstrip("; ").split("; ")] for name, fields in STRUCT.findall(text)}

    @property
    def functions(self):
        return self.exports + self.own


def differences(root):
    """The differences between the header and the sources of agefile, a line for each."""
    import calls

    header = Header(root)
    exports = [Export(e.name, [v._replace(kind=snake(v.kind)) for v in e.parameters], e.result) for e in calls.exports(root)]
    structs = {snake(name): fields for name, fields in calls.structs(root).items()}
    rows = [("function", {e.name: e for e in exports}, {e.name: e for e in header.exports}), ("struct", structs, header.structs)]
    return header.wrong + [
        f"{kind} {name}: {expected.get(name)} in crates/agefile/src, {found.get(name)} in agefile.h"
        for kind, expected, found in rows for name in sorted({*expected, *found}) if expected.get(name) != found.get(name)
    ]


# ---- Texts that the programs in C include


def _word(value):
    return IN_C.get(value.kind) or f"agefile_{value.kind}"


def _in_c(value):
    declared = f"{'const ' * (value.access == 'const')}{_word(value)} {'*' * bool(value.access)}{value.name}"
    return declared + f", size_t {value.name}_len" * value.has_length


def _arguments(function):
    """For each argument in C its name, its type and its kind: `c` a pointer that a length follows, `l` that
    length, `p` another pointer, `b` a bool, `n` a number."""
    for value in function.parameters:
        pointer = "const void *" if value.access == "const" else "void *"
        kind = "c" if value.has_length else "p" if value.access else "b" if value.kind == "bool" else "n"
        yield value.name, pointer if value.access else _word(value), kind
        if value.has_length:
            yield f"{value.name}_len", "size_t", "l"


def stand_ins(header):
    """For passed.c: the functions of all builds, and a table of all calls."""
    functions, rows = [], []
    for function in header.exports:
        found, result = list(_arguments(function)), IN_C[function.result]
        parameters = ", ".join(map(_in_c, function.parameters)) or "void"
        values = ", ".join(f"(uintptr_t){name}" for name, _, _ in found) or "0"
        for level in LEVELS:
            declared = f"{result} {level.replace('-', '_')}_agefile_{function.name}({parameters})"
            taken = f'took("{level}", (const uintptr_t[]){{{values}}}, {len(found)})'
            functions += [f"{declared};", f"{declared} {{ return ({result}){taken}; }}"]
        passed = ", ".join(f"({kind})a[{i}]" for i, (_, kind, _) in enumerate(found))
        unused = "" if found else "(void)a; "
        functions.append(f"static uint64_t make_{function.name}(const uintptr_t *a) {{ {unused}return agefile_{function.name}({passed}); }}")
        opened = OPENING.get(function.name)
        place, size = ([name for name, _, _ in found].index(opened), f"sizeof(agefile_{opened})") if opened else (-1, "0")
        rows.append(f'    {{"{function.name}", make_{function.name}, "{"".join(kind for _, _, kind in found)}", {place}, {size}}},')
    return "\n".join([*functions, "static const call calls[] = {", *rows, "};", ""])


def driver_calls(header):
    """For driver.c: each call by its index in Header.functions, and which argument is a struct to be opened.
    A pointer and its length are one argument there."""
    cases = []
    for number, function in enumerate(header.functions):
        passed = []
        for i, value in enumerate(function.parameters):
            length = "" if value.kind == "u8" else f" / sizeof({_word(value)})"
            passed.append("report" if value.kind == "report" else f"P({i})" if value.access else f"N({i})")
            passed += [f"N({i}){length}"] * value.has_length
        cases.append(f"    case {number}: return agefile_{function.name}({', '.join(passed)});")
    opened = [
        f"    case {number}: return {[value.name for value in function.parameters].index(OPENING[function.name])};"
        for number, function in enumerate(header.functions) if function.name in OPENING
    ]
    start = "static uint64_t make_call(int number, const struct argument *a, uint8_t *const *pointers, agefile_report *report)"
    return "\n".join([
        "#define N(i) a[i].number", "#define P(i) (void *)pointers[i]", start, "{", "    switch (number) {", *cases,
        '    default: give_up("no such call");', "    }", "    return 0;", "}",
        "static int opened_by(int number)", "{", "    switch (number) {", *opened, "    default: return -1;", "    }", "}", "",
    ])
