"""SYNOPSIS and OPTIONS of the manual page."""

from program import OWN


def _escaped(text):
    return text.replace("\\", r"\e").replace("-", r"\-")


def _more(option):
    return "..." * option.is_repeated


def _usage(command):
    """The lines of a command: pairs of options of which one is required, other options, arguments."""
    done = []
    for option in (option for option in command.options if option not in OWN):
        rivals = command.rivals(option)
        if rivals and option not in done:
            done += rivals
            yield f'.RB {{ \\{option.short}\n.IR {option.value} "{_more(option)} | "'
            yield from (f".B \\{other.short}\n.IR {other.value} {_more(other)}}}" for other in rivals)
        elif not rivals:
            yield f".RB [ {_escaped(option.names[0])}" + (f"\n.IR {option.value} ]" if option.value else " ]")
    needed = [word.value for word in command.arguments if word.is_required]
    if needed:
        yield f".I {' '.join(needed)}"
    yield from (f".RI [ {word.value} ]" for word in command.arguments if not word.is_required)


def texts(commands):
    """Each generated text by its name."""
    lines = []
    for command in commands:
        lines += [f'.SY "agep {command.name}"', *_usage(command), ".YS"]
    lines += ['.SY "agep help"', ".RI [ COMMAND ]", ".YS", ".SY agep", r'.RB { \-h " | " \-V }', ".YS"]
    return {"synopsis": "\n".join(lines) + "\n", "options": _options(commands)}


def _sentences(option):
    """Each sentence on its own line, as troff expects."""
    parts = option.text.split(". ") + [f"The default is {option.default}"] * bool(option.default)
    return [_escaped(part.rstrip(".") + ".") for part in parts]


def _options(commands):
    """Each option once. Each of its texts comes with its commands, unless all commands have that text.
    Of a text that begins with the whole first text, only the rest comes."""
    found = {}
    for command in commands:
        for option in command.options:
            said = tuple(_sentences(option))
            found.setdefault((*option.names, option.value), {}).setdefault(said, []).append(command.name)
    lines = []
    for (*names, value), by_text in found.items():
        word = f' " \\fI{value}\\fR"' if value else ""
        lines += [".TP", ".BR " + ' ", " '.join(map(_escaped, names)) + word]
        first = next(iter(by_text))
        for said, users in by_text.items():
            is_more = said != first and said[: len(first)] == first
            if said == first:
                every = [name for text, names in by_text.items() if text[: len(first)] == first for name in names]
                users = [command.name for command in commands if command.name in every]
            lines += [".IP"] if said != first else []
            if len(users) < len(commands):
                *others, last = users
                lines.append(f"(\\fB{', '.join(others)}{' and ' if others else ''}{last}\\fR)")
            lines += said[len(first) :] if is_more else said
    return "\n".join(lines) + "\n"
