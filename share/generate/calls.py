"""The exports and structs of the library for C: their declarations for agefile.c, Python, Rust and the lists
of share/debian. tests/test_library.py compares them with the handwritten ones of agefile.h."""

import re
import sys
import textwrap
from typing import NamedTuple

EXPORT = re.compile(r'^pub extern "C" fn agefile_(\w+)\(([^)]*)\) -> (\w+)', re.M)
STRUCT = re.compile(r"^#\[repr\(C\)\]\n(?:#\[.*\n)*pub struct (\w+) \{\n((?:    .*\n)*)\}", re.M)
TYPE = re.compile(r"(&(?:mut )?)?(?:\[(\w+)(?:; (\d+))?\]|(\w+))")
SIZES = {"u8": 1, "bool": 1, "u32": 4, "u64": 8, "usize": 8}
IN_C = {"u8": "uint8_t", "bool": "bool", "u32": "uint32_t", "u64": "uint64_t", "usize": "size_t"}
IN_PYTHON = {"u8": "byte", "bool": "ctypes.c_bool", "u32": "ctypes.c_uint32", "u64": "number", "usize": "size"}
SYMBOLS, LAYOUT = "share/debian/libagefile.symbols", "share/debian/libagefile.layout"


class Value(NamedTuple):
    """A parameter or a field: its name, `const` or `mut` if it is a pointer, its type or that of its target or
    elements, the number of elements if it is an array, and whether a length follows it."""

    name: str
    access: str
    kind: str
    count: int
    has_length: bool

    @property
    def in_c(self):
        return IN_C.get(self.kind) or "agefile_" + snake(self.kind)


class Export(NamedTuple):
    name: str
    parameters: list
    result: str


def snake(name):
    return re.sub(r"(?<=[a-z])(?=[A-Z])", "_", name).lower()


def _value(name, text):
    pointer, inside, count, word = TYPE.fullmatch(text.strip()).groups()
    access = "" if pointer is None else "mut" if "mut" in pointer else "const"
    return Value(name, access, word or inside, int(count or 0), bool(inside and not count))


def _values(text):
    return [_value(*found) for found in re.findall(r"^ *(?:pub )?(\w+): ([^,\n]+)", re.sub(r"///.*|, ", "\n", text), re.M)]


def _sources(root):
    return "".join(file.read_text() for file in sorted((root / "crates/agefile/src").glob("*.rt")))


def exports(root):
    """All exports, in the order of the header."""
    order = re.findall(r"^uint\d+_t agefile_(\w+)\(", (root / "bindings/c/agefile.h").read_text(), re.M)
    found = {name: Export(name, [v for v in _values(text) if v.kind != "Global"], result) for name, text, result in EXPORT.findall(_sources(root))}
    return sorted(found.values(), key=lambda export: order.index(export.name) if export.name in order else len(order))


def structs(root):
    """The fields of each struct, by its name."""
    return {name: _values(fields) for name, fields in STRUCT.findall(_sources(root))}


def _names(parameters):
    return [name for v in parameters for name in (v.name, f"{v.name}_len") if name == v.name or v.has_length]


def nonnull(export):
    """The positions, from 1, of the pointers without a length. A length has a position of its own."""
    places = [v for v in export.parameters for _ in range(1 + v.has_length)]
    return [place for place, v in enumerate(places, 1) if v.access and not v.has_length]


def _opened(export, fields):
    """The struct that a call opens: it has a state, and comes after the arguments that the call reads."""
    return [v.name for v in export.parameters[1:] if v.kind in fields and any(field.name == "state" for field in fields[v.kind])]


def _parameter_in_c(v):
    if v.kind == "Report":
        return "REPORT"
    if v.has_length and v.kind == "u8":
        return f"{'IN' if v.access == 'const' else 'OUT'}({v.name})"
    declared = f"{'const ' * (v.access == 'const')}{v.in_c} {'*' * bool(v.access and not v.count)}{v.name}"
    return declared + f"[{v.count}]" * bool(v.count) + f", size_t {v.name}_len" * v.has_length


def _lines(parts, first, rest):
    """A list, wrapped between its parts to at most 100 columns."""
    joined = ", ".join(part.replace(" ", "\0") for part in parts)
    lines = textwrap.wrap(joined, 100, initial_indent=first, subsequent_indent=rest, break_long_words=False)
    return [line.replace("\0", " ") for line in lines]


def _row(export, fields):
    """A row of agefile.c."""
    checks = [f"CHECK({v.name})" for v in export.parameters if v.has_length]
    if checks:
        checks = [f"CLOSE({name})" for name in _opened(export, fields)] + checks
    parameters = ", ".join(map(_parameter_in_c, export.parameters)) or "void"
    size = next((f"{v.name}_len" for v in export.parameters if v.name in ("chunk", "file", "plain")), "0")
    first = f"FUNCTION({IN_C[export.result]}, {export.name}, {size}, ({parameters}),"
    second = f"{{ {' '.join(checks)} }}, ".replace("{  }", "{}") + f"({', '.join(_names(export.parameters))}))"
    lines = _lines(first.split(", "), "", " " * 10) + _lines(second.split(", "), " " * 9, " " * 10)
    return "\n".join(lines) + "\n"


def _function_in_rust(export):
    parameters = []
    for v in export.parameters:
        kind = f"[{v.kind}; {v.count}]" if v.count else v.kind
        parameters.append(f"{v.name}: {f'*{v.access} ' * bool(v.access)}{kind}" + f", {v.name}_len: usize" * v.has_length)
    feature = '    #[cfg(feature = "parallel")]\n' * any(v.kind == "Part" for v in export.parameters)
    return f"{feature}    fn agefile_{export.name}({', '.join(parameters)}) -> {export.result};\n"


def _safe_in_rust(export):
    """The function, with slices and references. Makes and returns a struct or array only written."""
    taken, passed, made = [], [], ""
    for place, v in enumerate(export.parameters[:-1]):
        kind = f"[{v.kind}; {v.count}]" if v.count else v.kind
        if v.has_length:
            passed += [f"{v.name}.as_{'mut_' * (v.access == 'mut')}ptr()", f"{v.name}.len()"]
        elif v.access == "mut" and place > 0:
            passed, made = [*passed, f"&mut {v.name}"], kind
            continue
        else:
            passed.append(v.name)
        reference = {"const": "&", "mut": "&mut ", "": ""}[v.access]
        taken.append(f"{v.name}: {reference}{f'[{v.kind}]' if v.has_length else kind}")
    called, result = f"call!(agefile_{export.name}({', '.join(passed)}))", f"({made}, Report)" if made else "Report"
    if made:
        name = passed[-1].removeprefix("&mut ")
        called = f"let mut {name} = Default::default(); let report = {called}?; Ok(({name}, report))"
    feature = '    #[cfg(feature = "parallel")]\n' * any(v.kind == "Part" for v in export.parameters)
    return f"{feature}    pub fn {export.name}({', '.join(taken)}) -> Result<{result}, Error> {{ {called} }}\n"


def _struct_in_rust(name, fields):
    """A struct with a key cannot be copied: a copied payload would seal another chunk under a used nonce."""
    derived = "Default" if any(field.name == "key" for field in fields) else "Clone, Copy, Default"
    feature = '#[cfg(feature = "parallel")]\n' * (name == "Part")
    lines = "".join(f"    pub {v.name}: {f'[{v.kind}; {v.count}]' if v.count else v.kind},\n" for v in fields)
    return f"{feature}#[repr(C)]\n#[derive({derived})]\npub struct {name} {{\n{lines}}}\n"


def _parameter_in_python(v):
    if v.has_length:
        return "*_bytes" if v.kind == "u8" else f"_pointer({v.kind}), size"
    if v.access:
        return "address" if v.count else "_report" if v.kind == "Report" else f"_pointer({v.kind})"
    return IN_PYTHON[v.kind]


def _struct_in_python(name, fields):
    rows = [f'("{v.name}", {IN_PYTHON[v.kind]}{f" * {v.count}" * bool(v.count)})' for v in fields]
    rows[-1] += "]"
    return "\n".join([f"class {name}(ctypes.Structure):", *_lines(rows, "    _fields_ = [", " " * 16), ""])


def _layout(name, fields):
    """The size of a struct and the offset of each field, by the rules of C for x86-64."""
    at, greatest, rows = 0, 1, []
    for v in fields:
        size = SIZES[v.kind]
        at = (at + size - 1) // size * size
        rows.append((f"offsetof(agefile_{snake(name)}, {v.name})", at))
        at, greatest = at + size * (v.count or 1), max(greatest, size)
    return [(f"sizeof(agefile_{snake(name)})", (at + greatest - 1) // greatest * greatest), *rows]


def grown(root, region, rows):
    """A part of the layout, which only grows: its lines, and a line for each name that it lacks. A name keeps its number."""
    kept = (root / LAYOUT).read_text().partition(f"generated: {region}\n")[2].partition(f"# end of {region}\n")[0]
    known = dict(line.rsplit(" ", 1) for line in kept.splitlines())
    for name, number in rows:
        if known.setdefault(name, str(number)) != str(number):
            sys.exit(f"{LAYOUT} has {known[name]} for {name}, the sources have {number}")
    return "".join(f"{name} {number}\n" for name, number in known.items())


def _symbols(root, names):
    """Each name with the release that introduced it. A new name gets the next minor release."""
    kept = dict(re.findall(r"^ agefile_(\w+)@\S+ (\S+)$", (root / SYMBOLS).read_text(), re.M))
    released = re.search(r"^## (\d+)\.(\d+)", (root / "CHANGELOG.md").read_text(), re.M)
    coming = f"{released[1]}.{int(released[2]) + 1}.0"
    lines = (f" agefile_{name}@AGEFILE_@SOVERSION@ {kept.get(name, coming)}\n" for name in sorted({*kept, *names}))
    return "".join(lines)


def texts(root):
    """Each generated text by its name."""
    every, fields = exports(root), structs(root)
    called = [e for e in every if any(v.kind == "Report" for v in e.parameters)]
    layout = [row for name in fields for row in _layout(name, fields[name])]
    return {
        "functions": "".join(_row(e, fields) for e in every),
        "functions of the library": "".join(map(_function_in_rust, every)),
        "safe functions of the library": "".join(map(_safe_in_rust, called)),
        "structs of the library": "\n".join(_struct_in_rust(name, fields[name]) for name in fields),
        "signatures": "".join(f'    "{e.name}": ({", ".join(map(_parameter_in_python, e.parameters))}),\n' for e in called),
        "structs": "\n\n" + "\n\n".join(_struct_in_python(name, fields[name]) for name in fields) + "\n\n",
        "names": _symbols(root, [e.name for e in every]),
        "layout": grown(root, "layout", layout),
    }
