"""The commands and options in the completions for bash, zsh and fish."""

from program import OWN


def _names(options, between=" "):
    return between.join(name for option in options for name in option.names)


def texts(commands):
    """Each generated text by its name."""
    arms = "".join(f'        {c.name}) options="{_names(c.options)}" ;;\n' for c in commands)
    options = {option.long: option for command in commands for option in command.options if option.value}
    numbers = [option for option in options.values() if option.is_number]
    files = [option for option in options.values() if not option.is_number]
    return {
        "commands of bash": f'    local commands="{" ".join(c.name for c in commands)} help"\n',
        "options of bash": arms,
        "numbers of bash": f"        {_names(numbers, ' | ')})\n",
        "files of bash": f"        {_names(files, ' | ')})\n",
    } | _zsh(commands) | _fish(commands)


def _quoted(text):
    return f'"{text}"' if "'" in text else f"'{text}'"


def _zsh_option(command, option):
    """One option: the options that exclude it, its names, its text and its value."""
    others = [option] * (not option.is_repeated) + command.rivals(option)
    plus, equal, value = ("+", "=", ":number:" if option.is_number else ":file:_files") if option.value else ("", "", "")
    names = f"{{{option.short}{plus},--{option.long}{equal}}}" if option.short else f"--{option.long}{equal}"
    return f"'({_names(others)}){'*' * option.is_repeated}'{names}{_quoted(f'[{option.brief}]{value}')}"


def _zsh(commands):
    listed = "".join(f"        {_quoted(c.name + ':' + c.about[0].lower() + c.about[1:])}\n" for c in commands)
    arms = ""
    for command in commands:
        words = [_zsh_option(command, option) for option in command.options]
        for place, word in enumerate(command.arguments, 1):
            words.append(f"'{place}:{word.brief.split(',')[0] + ':' if word.is_number else 'file:_files'}'")
        joined = "".join(f" \\\n                {word}" for word in words)
        arms += f"        {command.name})\n            _arguments -s -S{joined}\n            ;;\n"
    return {"commands of zsh": f"    commands=(\n{listed}        'help:print help'\n    )\n", "options of zsh": arms}


def _fish_text(text):
    return "'" + text.replace("'", r"\'") + "'"


def _fish(commands):
    start, seen = "complete -c agep -n __fish_use_subcommand", "complete -c agep -n '__fish_seen_subcommand_from"
    names = [command.name for command in commands]
    listed = "".join(f"{start} -f -a {command.name} -d {_fish_text(command.about)}\n" for command in commands)
    users, lines = {}, ""
    for command in commands:
        for option in (option for option in command.options if option not in OWN):
            users.setdefault((option.long, option.brief), (option, []))[1].append(command.name)
    for option, found in users.values():
        kind = (" -x" if option.is_number else " -r -F") if option.value else ""
        text = _fish_text(option.brief[0].upper() + option.brief[1:])
        letter = f" -s {option.short[1:]}" * bool(option.short)
        lines += f"{seen} {' '.join(found)}'{letter} -l {option.long}{kind} -d {text}\n"
    return {"commands of fish": listed, "words of help of fish": f"{seen} help' -f -a '{' '.join(names)}'\n", "options of fish": lines}
