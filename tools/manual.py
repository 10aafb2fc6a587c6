#!/usr/bin/env python3
"""Makes the manual page and the completions of `expresso` from tools/manual.txt.

`tools/manual.py write FOLDER` writes them below FOLDER, each where an installed program's stands.
`tools/manual.py list` prints where that is.
`tools/manual.py check [PROGRAM]` fails where manual.txt hasn't the usage of README.md, or of what PROGRAM prints; where
it describes a command, a value or an option that the usage hasn't, or lacks one that it has; where its exit statuses
are not those of the program's sources; and where PROGRAM prints another version than the page.
"""

import itertools
import pathlib
import re
import subprocess
import sys
import textwrap

ROOT = pathlib.Path(__file__).resolve().parent.parent
PLACES = {
    "page": "share/man/man1/expresso.1",
    "bash": "share/bash-completion/completions/expresso",
    "zsh": "share/zsh/site-functions/_expresso",
    "fish": "share/fish/vendor_completions.d/expresso.fish",
}
MADE = "Made by tools/manual.py. Change tools/manual.txt, and not this file."


class Entry:
    """A line of manual.txt that begins with `%`: its kind, its name, its few words, and the lines under it."""

    def __init__(self, line):
        head, _, self.words = line[1:].strip().partition(": ")
        self.kind, _, self.name = head.partition(" ")
        self.lines = []

    def text(self):
        """The lines under it, without the empty ones at the end."""
        return "\n".join(self.lines).rstrip("\n").split("\n") if any(self.lines) else []


class Manual:
    """What manual.txt says."""

    def __init__(self):
        self.entries = []
        for line in (ROOT / "tools" / "manual.txt").read_text().split("\n"):
            if line.startswith("%"):
                self.entries.append(Entry(line))
            elif self.entries:
                self.entries[-1].lines.append(line)
        self.usage = next(it for it in self.entries if it.kind == "usage").text()
        self.forms = [form_of(line) for line in self.usage if not is_alone(line)]
        self.alone = [line.split()[1] for line in self.usage if is_alone(line)] + ["--help"]
        self.globs = {}
        for value in self.of_kind("value"):
            name, _, glob = value.name.partition(" ")
            self.globs[name] = glob

    def of_kind(self, kind):
        return [it for it in self.entries if it.kind == kind]

    def words(self, kind):
        """The few words of each entry of a kind, by its name's first word."""
        return {it.name.split()[0]: it.words for it in self.of_kind(kind)}


def is_alone(line):
    """Whether a line of the usage is an option that stands with no command."""
    return line.split()[1].startswith("-")


def form_of(line):
    """What a line of the usage says: the command, its values, and its options, each with its value or none."""
    _, command, *values = re.sub(r"\[.*?\]", "", line).split()
    options = [(*option.split(), "")[:2] for option in re.findall(r"\[(.*?)\]", line)]
    return command, values, options


# The manual page


def roff(text):
    """A text, with what stands in backquotes in bold."""
    text = text.replace("\\", "\\e").replace("-", "\\-").replace("'", "\\(aq")
    return re.sub(r"`([^`]*)`", r"\\fB\1\\fR", text)


def shielded(line):
    """A line that roff doesn't take for a request."""
    return "\\&" + line if line.startswith(".") else line


def filled(lines):
    """The lines of a paragraph anew: a sentence begins a line, and none is longer than it has to be."""
    sentences = re.split(r"(?<=[.:?]) (?=[A-Z`])", roff(" ".join(lines)))
    made = [textwrap.wrap(it, 78, break_long_words=False, break_on_hyphens=False) for it in sentences]
    return [shielded(line) for lines in made for line in lines]


def paragraphs(lines, first, later):
    """The lines of an entry: the request `first` begins its first paragraph, and `later` each other one."""
    made = []
    for kind, group in itertools.groupby(lines, kind_of_line):
        if kind == "verbatim":
            made += [".PP", ".RS 4", ".nf", *(shielded(roff(line[4:])) for line in group), ".fi", ".RE"]
        elif kind == "text":
            begins = later if made else first
            made += ([begins] if begins else []) + filled(group)
    return made


def kind_of_line(line):
    """Whether a line stands as it is, is of a paragraph, or ends one."""
    if line.startswith("    "):
        return "verbatim"
    return "text" if line else "end"


def placeholders(text):
    """The words of a command line, those of the program in bold and those that stand for others in italics."""
    return re.sub(r"\b[A-Z]+\b", lambda it: f"\\fI{it[0]}\\fR", re.sub(r"(--)?\b[a-z]+\b", bold, text))


def bold(found):
    return "\\fB" + found[0].replace("-", "\\-") + "\\fR"


def item(tag, entry):
    """A tag with the few words of an entry and its text under it."""
    words = entry.words[:1].upper() + entry.words[1:] + "."
    return [".TP", placeholders(tag), *filled([words]), *paragraphs(entry.text(), "", ".IP")]


def version():
    """The program's version, which emitted modules name: its definition is the one place where it stands."""
    texts = (ROOT / "crates" / "emit_module" / "specs" / "Fixed.antt").read_text()
    return re.search(r'^VERSION = codes "([^"]*)"$', texts, re.M)[1]


def page_of(manual):
    name, date = manual.of_kind("name")[0], manual.of_kind("date")[0].name
    program = name.name.split()[0]
    made = [f'.\\" {MADE}', f'.TH {program.upper()} 1 {date} "Expresso {version()}" "User Commands"']
    made += [".SH NAME", f"{program} \\- {name.words}", ".SH SYNOPSIS", ".nf"]
    made += [placeholders(line) for line in manual.usage] + [".fi"]
    forms = {command: " ".join([command, *values]) for command, values, _ in manual.forms}
    for entry in manual.entries:
        if entry.kind == "part":
            made += [f".SH {entry.name}", *paragraphs(entry.text(), "", ".PP")]
        elif entry.kind in ("values", "commands"):
            made += [f".SH {entry.kind.upper()}"]
        elif entry.kind == "command":
            made += item(forms[entry.name], entry)
        elif entry.kind == "value" and "*" in entry.name:
            made += item(entry.name.split()[0], entry)
        elif entry.kind in ("option", "status"):
            made += item(entry.name, entry)
    return "\n".join(made) + "\n"


# Completions


def globs_of(manual):
    """Of each command the patterns of the files that it takes, in order; a number has none."""
    return {command: [manual.globs[value] for value in values] for command, values, _ in manual.forms}


def options_of(manual):
    """Of each command its options, and of each option whether a number follows."""
    return {command: options for command, _, options in manual.forms}


def with_numbers(manual):
    """The options that a number follows."""
    return sorted({option for _, _, options in manual.forms for option, value in options if value})


BASH = """# {made}

_expresso() {{
    local word=$2 command='' values=0 used=' ' at=1 one glob='' options=''
    while ((at < COMP_CWORD)); do
        one=${{COMP_WORDS[at]}}
        case $one in
            {numbers})
                used+="$one "
                # Its number is the next word. Bash takes a `=` for a word of its own.
                [[ ${{COMP_WORDS[at + 1]}} == = ]] && ((at += 1))
                ((at += 1))
                ;;
            -*) used+="$one " ;;
            *)
                if [[ -z $command ]]; then command=$one; else ((values += 1)); fi
                ;;
        esac
        ((at += 1))
    done
    COMPREPLY=()
    # A number that an option wants is nobody's to guess.
    ((at > COMP_CWORD)) && return
    if [[ -z $command && $word != -* ]]; then
        mapfile -t COMPREPLY < <(compgen -W '{commands}' -- "$word")
        return
    fi
    case $command in
{options}
    esac
    if [[ $word == -* ]]; then
        for one in $options; do
            [[ $one == "$word"* && $used != *" $one "* ]] && COMPREPLY+=("$one")
        done
        return
    fi
    case $command/$values in
{files}
        *) return ;;
    esac
    compopt -o filenames 2>/dev/null
    mapfile -t COMPREPLY < <(
        compgen -d -- "$word"
        # Folders stand above already.
        compgen -f -X "!$glob" -- "$word" | while IFS= read -r one; do [[ -d $one ]] || printf '%s\\n' "$one"; done
    )
}}

complete -F _expresso expresso
"""


def bash_of(manual):
    options = [f"        '') options='{' '.join(manual.alone)}' ;;"]
    for command, found in options_of(manual).items():
        if found:
            options.append(f"        {command}) options='{' '.join(option for option, _ in found)}' ;;")
    by_glob = {}
    for command, globs in globs_of(manual).items():
        for at, glob in enumerate(globs):
            if glob:
                by_glob.setdefault(glob, []).append(f"{command}/{at}")
    files = [f"        {' | '.join(places)}) glob='{glob}' ;;" for glob, places in by_glob.items()]
    commands = " ".join(command for command, _, _ in manual.forms)
    return BASH.format(made=MADE, numbers=" | ".join(with_numbers(manual)), commands=commands,
                       options="\n".join(options), files="\n".join(files))


def quoted(text):
    """A text in single quotes, for zsh and fish."""
    return "'" + text.replace("'", "'\\''") + "'"


def plain(text):
    """A text without backquotes."""
    return text.replace("`", "")


def zsh_of(manual):
    about, values = manual.words("option"), manual.words("value")
    alone = " ".join(quoted(f"{option}[{plain(about[option])}]") for option in manual.alone)
    made = ["#compdef expresso", f"# {MADE}", "", "local context state state_descr line", "typeset -A opt_args", "",
            f"_arguments -C {alone} '1:command:->command' '*::argument:->argument'", "",
            "case $state in", "    command)", "        local -a commands=("]
    commands = manual.words("command")
    made += ["            " + quoted(f"{command}:{plain(commands[command])}") for command, _, _ in manual.forms]
    made += ["        )", "        _describe command commands", "        ;;"]
    made += ["    argument)", "        case $words[1] in"]
    for command, names, options in manual.forms:
        specs = []
        for option, value in options:
            number = f":{value.lower()}: " if value else ""
            specs.append(quoted(f"{option}{'=' if value else ''}[{plain(about[option])}]{number}"))
        for at, name in enumerate(names, 1):
            glob = manual.globs[name]
            action = f"_files -g \"{glob}\"" if glob and glob != "*" else "_files" if glob else " "
            specs.append(quoted(f"{at}:{plain(values[name])}:{action}"))
        made.append(f"            {command}) _arguments {' '.join(specs)} ;;")
    made += ["        esac", "        ;;", "esac"]
    return "\n".join(made) + "\n"


FISH = """# {made}

# The words before the cursor that are no option and no option's number, without the program's name.
function __expresso_words
    set -l is_number 0
    for word in (commandline -opc)[2..-1]
        if test $is_number = 1
            set is_number 0
        else if contains -- $word {numbers}
            set is_number 1
        else if not string match -q -- '-*' $word
            echo $word
        end
    end
end

# The folders, and the files with this ending, that the word under the cursor begins.
function __expresso_files -a ending
    for path in (__fish_complete_path (commandline -ct) | string replace -r '\\t.*' '')
        if string match -q -- '*/' $path; or string match -q -- "*$ending" $path
            echo $path
        end
    end
end

# Whether the command is one of these, with so many values before the cursor.
function __expresso_is_at -a values
    set -l words (__expresso_words)
    test (count $words) = (math $values + 1); and contains -- $words[1] $argv[2..-1]
end

# Whether the command is one of these.
function __expresso_is
    set -l words (__expresso_words)
    contains -- "$words[1]" $argv
end

complete -c expresso -f
"""


def fish_of(manual):
    made = [FISH.format(made=MADE, numbers=" ".join(with_numbers(manual)))]
    commands, about, values = manual.words("command"), manual.words("option"), manual.words("value")
    first = "complete -c expresso -n 'test (count (__expresso_words)) = 0'"
    for option in manual.alone:
        made.append(f"{first} -l {option.removeprefix('--')} -d {quoted(plain(about[option]))}\n")
    for command, _, _ in manual.forms:
        made.append(f"{first} -a {command} -d {quoted(plain(commands[command]))}\n")
    takers, places = {}, {}
    for command, names, options in manual.forms:
        for option, value in options:
            takers.setdefault((option, value), []).append(command)
        for at, name in enumerate(names):
            if manual.globs[name]:
                places.setdefault((name, at), []).append(command)
    for (option, value), found in takers.items():
        own = option.removeprefix("--")
        made.append(f"complete -c expresso -n '__expresso_is {' '.join(found)}; and not __fish_contains_opt {own}' "
                    f"-l {own} {'-x ' if value else ''}-d {quoted(plain(about[option]))}\n")
    for (name, at), found in places.items():
        ending = manual.globs[name].lstrip("*")
        action = f"-xa '(__expresso_files {ending})'" if ending else "-F"
        made.append(f"complete -c expresso -n '__expresso_is_at {at} {' '.join(found)}' {action} "
                    f"-d {quoted(plain(values[name]))}\n")
    return "".join(made)


# The check


def compared(what, ours, theirs):
    """A fault where the two differ, whatever their order."""
    for name in sorted(set(ours) ^ set(theirs)):
        yield f"tools/manual.txt: {what} `{name}` {'stands in no line of the usage' if name in ours else 'is missing'}"
    for name in sorted({it for it in ours if ours.count(it) > 1}):
        yield f"tools/manual.txt: {what} `{name}` stands there twice"


def statuses_of_sources():
    """The numbers with which the program exits: those of its statuses, and those that `main` gives itself."""
    exit_status = (ROOT / "crates" / "expresso_answers" / "specs" / "Exit.antt").read_text()
    main = (ROOT / "crates" / "expresso_cli" / "src" / "main.rt").read_text()
    own = re.findall(r"^const \w+: u8 = (\d+);", main, re.M)
    return re.findall(r"^exit_status \w+ = (\d+)", exit_status, re.M) + own


def faults(manual, program):
    usage = "usage:\n" + "\n".join(manual.usage) + "\n"
    if f"```\n{usage}```\n" not in (ROOT / "README.md").read_text():
        yield "tools/manual.txt: not the usage of README.md"
    if program:
        printed = subprocess.run([program, "--help"], capture_output=True, text=True, check=False)
        if printed.stdout != usage or printed.returncode != 2:
            yield f"tools/manual.txt: not the usage that {program} prints, with status 2"
        printed = subprocess.run([program, "--version"], capture_output=True, text=True, check=False)
        if printed.stdout != f"expresso {version()}\n" or printed.returncode != 0:
            yield f"tools/manual.txt: the page has another version than {program}"
    names = [it.name for it in manual.of_kind("command")]
    yield from compared("the command", names, [command for command, _, _ in manual.forms])
    if names != [command for command, _, _ in manual.forms]:
        yield "tools/manual.txt: the commands stand in another order than in the usage"
    options = {f"{option} {value}".strip() for _, _, options in manual.forms for option, value in options}
    yield from compared("the option", [it.name for it in manual.of_kind("option")], [*options, *manual.alone])
    values = {value for _, values, _ in manual.forms for value in values}
    values |= {value for _, _, options in manual.forms for _, value in options if value}
    yield from compared("the value", [it.name.split()[0] for it in manual.of_kind("value")], values)
    yield from compared("the status", [it.name for it in manual.of_kind("status")], statuses_of_sources())


def main(words):
    manual = Manual()
    if words[:1] == ["check"] and len(words) <= 2:
        found = [*faults(manual, words[1] if words[1:] else None)]
        print("\n".join(found or ["the manual has the usage, with each command, option, value and exit status"]))
        return 1 if found else 0
    if words == ["list"]:
        print("\n".join(PLACES.values()))
        return 0
    if words[:1] == ["write"] and len(words) == 2:
        for name, maker in ("page", page_of), ("bash", bash_of), ("zsh", zsh_of), ("fish", fish_of):
            file = pathlib.Path(words[1]) / PLACES[name]
            file.parent.mkdir(parents=True, exist_ok=True)
            file.write_text(maker(manual))
        return 0
    print(__doc__)
    return 2


if __name__ == "__main__":
    sys.exit(main(sys.argv[1:]))
