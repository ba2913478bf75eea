"""The commands of agep with their options and arguments, as crates/age_args/src/options.rt builds them."""

import re
from typing import NamedTuple

# The pairs of options of which exactly one is required. age_job refuses both and neither.
RIVALS = [{"passphrase", "key"}, {"new-pass", "new-key"}]


class Option(NamedTuple):
    """An option of a command, or an argument, which has no name. A missing text is empty."""

    short: str
    long: str
    value: str
    text: str
    default: str = ""
    is_number: bool = False
    is_repeated: bool = False
    is_required: bool = False

    @property
    def names(self):
        return [self.short] * bool(self.short) + [f"--{self.long}"]

    @property
    def brief(self):
        """The text up to its first full stop, colon or semicolon, with a lower-case first letter."""
        return self.text[0].lower() + re.split(r"[.;:] |\.$", self.text)[0][1:]


class Command(NamedTuple):
    name: str
    about: str
    options: list[Option]
    arguments: list[Option]

    def rivals(self, option):
        """The options that exclude this one."""
        return [each for each in self.options if {each.long, option.long} in RIVALS]


OWN = [Option("-h", "help", "", "Print help"), Option("-V", "version", "", "Print version")]


def call(text):
    """The call at the start of a text: the function, its arguments, and the text after it."""
    name, parts, depth = re.match(r"[\w:.]+(?=\()", text)[0], [""], 0
    for found in re.compile(r'"(?:[^"\\]|\\.)*"|.', re.S).finditer(text, len(name)):
        sign = found[0]
        depth += (sign in "([{") - (sign in ")]}")
        if depth == 0:
            return name, [part.strip() for part in parts if part.strip()], text[found.end() :].strip()
        if sign == "," and depth == 1:
            parts.append("")
        elif found.start() > len(name):
            parts[-1] += sign


class Source:
    def __init__(self, root):
        names = ("age_args/src/options.rt", "age_args/src/texts.rt", "age_job/src/ranges.rt")
        whole = "\n".join((root / "crates" / name).read_text() for name in names)
        literal = re.findall(r'const (\w+): &str =\s+"((?:[^"\\]|\\.)*)";', re.sub(r"\\\n\s*", "", whole), re.S)
        self.constants = {name: text.replace("\\n", " ") for name, text in literal}
        pattern = r"^(?:pub\(crate\) )?fn (\w+)<'a>\(([^)]*)\) -> .*?^\{\n(.*?)^\}"
        self.functions = {n: (re.findall(r"(\w+): ", p), body) for n, p, body in re.findall(pattern, whole, re.M | re.S)}

    def filled(self, name, arguments):
        """The body of a function, with its parameters replaced by these arguments."""
        parameters, body = self.functions[name]
        values = dict(zip(parameters, arguments))
        return re.sub(rf"(?<![.\w])(?:{'|'.join(values)})\b(?!\()", lambda found: values[found[0]], body)

    def text(self, word):
        return self.constants[word] if word in self.constants else word.strip("'\"")

    def option(self, built):
        """The option that an expression builds: calls on `Arg::new`, perhaps in other functions."""
        name, arguments, chain = call(built.strip())
        if name != "Arg::new":
            return self.option(self.filled(name, arguments).strip() + chain)
        said = {}
        while chain:
            name, arguments, chain = call(chain)
            said[name] = arguments[0]
        names = {key: self.text(said.get("." + key, "")) for key in ("short", "long", "value_name", "help", "default_value")}
        action = said[".action"].removeprefix("ArgAction::")
        short = f"-{names['short']}" if names["short"] else ""
        kinds = ".value_parser" in said, action == "Append", ".required" in said
        return Option(short, names["long"], names["value_name"], names["help"], names["default_value"], *kinds)

    def options(self, body):
        """The options and arguments that the body of a function adds to a command, in order."""
        local = dict(re.findall(r"let (\w+) = (\w+_\w+\(.*?|flag\(.*?);\n", body, re.S))
        for found in re.finditer(r"\bwith_\w+\(", body):
            name, arguments, _ = call(body[found.start() :])
            if name == "with_arg":
                yield self.option(local.get(arguments[1], arguments[1]))
            else:
                yield from self.options(self.filled(name, arguments))

    def command(self, name):
        body = self.functions[name][1]
        _, words, _ = call(body[body.index("bare_subcommand(") :])
        found = list(self.options(body))
        return Command(*map(self.text, words[1:3]), [o for o in found if o.long] + OWN, [o for o in found if not o.long])


def commands(root):
    """The commands except `help`, in the order of the help."""
    source = Source(root)
    return [source.command(name) for name in re.findall(r"with_subcommand\(command, (\w+)\(", source.functions["whole_command"][1])]
