#!/usr/bin/env python3
"""Checks editors/: the TextMate grammar, which VS Code takes too, and Vim's files where Vim is installed.

What a token is, is read from the sources of the lexer: the keywords from lang_base, the signs from lang_tokens. In every
monitor and client file of the repository and of the rows each byte of each token has to be coloured as what it is, and
a place at which no token starts as a fault; in examples each name by its role. So this fails where the language gains
a keyword or a sign that the editors don't know. Vim also has to lay out monitors as the program prints them, and so do
VS Code's rules those whose methods have one block each and no locals.
"""

import functools
import json
import os
import pathlib
import re
import shutil
import subprocess
import sys
import tempfile
from dataclasses import dataclass

sys.dont_write_bytecode = True

import oniguruma  # noqa: E402
import tables  # noqa: E402
import textmate  # noqa: E402

ROOT = tables.ROOT
VSCODE, VIM = ROOT / "editors" / "vscode", ROOT / "editors" / "vim"
LONGEST_WORD = 32
# A row's text of 65,536 parentheses shows nothing that this many bytes of it don't.
MOST_BYTES = 4096
PATIENCE = 60
FOLDERS = ("crates", "bench", "examples")

# Words that are no keywords: `asserts` ahead of a guard, which is no call, `param` ahead of a name that is declared,
# and `where` ahead of a parameter's condition; and the words behind which they are names.
OTHER_WORDS = {"asserts", "param", "where"}
IS_WORD = re.compile(
    r"asserts(?=[ \t\r]*\()(?![ \t\r]*\([^;{}\n]*\)[ \t\r]*;)|param(?=[ \t\r]+[A-Za-z_][A-Za-z_0-9]*[ \t\r]*=)"
    r"|where(?=[ \t\r]*\([ \t\r]*[A-Za-z_][A-Za-z_0-9]*[ \t\r]*[=<>])"
)
NAMING = {"monitor", "client", "method", "const", "int", "bool"}

# What stands in a text, by the beginnings of TextMate's scopes, and by the groups to which Vim's are linked.
SCOPES = {
    "comment": ("comment.",),
    "keyword": ("keyword.control.", "storage.", "constant.language.", "support.type."),
    "number": ("constant.numeric.",),
    "sign": ("keyword.operator.", "punctuation."),
    "name": ("entity.name.", "variable."),
    "fault": ("invalid.illegal.",),
}
GROUPS = {
    "comment": {"Comment"},
    "keyword": {"Structure", "StorageClass", "Type", "Statement", "Conditional", "Repeat", "Boolean"},
    "number": {"Number"},
    "sign": {"Operator", "Delimiter"},
    "name": {"Typedef", "Function", "Constant", "Identifier"},
    "fault": {"Error"},
}

# A name's role, by TextMate's scope and by Vim's group.
ROLES = {
    "monitor": ("entity.name.type.monitor.expresso", "expressoMonitorName"),
    "client": ("entity.name.type.client.expresso", "expressoClientName"),
    "method": ("entity.name.function.expresso", "expressoMethodName"),
    "call": ("entity.name.function.call.expresso", "expressoCall"),
    "constant": ("variable.other.constant.expresso", "expressoConstant"),
    "parameter": ("variable.other.parameter.expresso", "expressoParameter"),
    "field": ("variable.other.field.expresso", "expressoField"),
    "local": ("variable.other.local.expresso", "expressoLocal"),
    "input": ("variable.parameter.expresso", "expressoInput"),
    "assigned": ("variable.other.assigned.expresso", "expressoAssigned"),
    "used": ("variable.other.expresso", "expressoName"),
}

# Each name with its role behind it.
EXAMPLES = (
    """monitor Cell'monitor {
  const MOST'constant = 4; int held'field = -1;
  param CAP'parameter = 9 where (CAP'used >= -1); int free'field = CAP'used;
  int param'field = 1; param where'parameter = 2 where(where'used<3);
  bool full'field = false;
  method put'method(int n'input, bool keep'input)
    local int before'local = 0; local bool was'local = true;
    waituntil (!full'used && n'used <= MOST'used) {
      before'assigned = held'used; held'assigned=n'used;
      if (keep'used == was'used) { full'assigned = true; } else { full'assigned = n'used == 0; }
    }
    waituntil (full'used) { return before'used * 2; }
  method
    get'method
    ( ) waituntil (true) { }
  method give'method(int n'input) asserts (n'used <= held'used) { held'assigned = held'used - n'used; }
  method asserts'method()
    local int before'local = 0;
    asserts (before'used < (held'used)) {
    }
}
""",
    """client A'client { put'call(3, true); try get'call (); repeat 2 { get'call(); } asserts'call(); try asserts'call (1); where'call (2); }
client B'client{}
""",
)

CLIENTS = """client A {
  repeat 2 {
    put(3, true); // one more {
    try get();
  }
}

client B {
}
"""

# Files, and whether they are of the language.
DETECTED = {
    "a.mon": ("// a lock\n\nmonitor Lock {\n}\n", True),
    "b.cl": ("  client A { }\n", True),
    "c.cl": ("", True),
    "d.cl": ("(defun client ())\n", False),
    "e.cl": ("// a kernel\n__kernel void client() { }\n", False),
}


# ---- what stands in a text


@dataclass(frozen=True)
class Token:
    """A token, a comment, or a fault: a place at which no token starts."""

    kind: str
    start: int
    end: int


def spelled_in(path, table):
    """The texts in quotes of a table of the sources."""
    return re.findall(r'b"([^"]+)"', re.search(table, (ROOT / path).read_text(), re.S)[1])


@functools.cache
def keywords():
    return set(spelled_in("crates/lang_base/src/identifier.rt", r"const KEYWORDS: [^=]* = \[(.*?)\];"))


@functools.cache
def signs():
    """The signs, longer ones first."""
    return spelled_in("crates/lang_tokens/src/token.rt", r"const SIGNS: [^=]* = \[(.*?)\n\];")


@functools.cache
def pieces():
    """What the lexer takes at each place."""
    return re.compile(
        r"(?P<blank>[ \t\r\n]+)|(?P<comment>//[^\n]*)|(?P<word>[A-Za-z_][A-Za-z_0-9]*)|(?P<number>[0-9]+)"
        rf"|(?P<sign>{'|'.join(map(re.escape, signs()))})|(?P<fault>.)",
        re.S,
    )


def tokens(text):
    """The tokens and comments of a text, up to a fault, which is the last."""
    word = ""
    for piece in pieces().finditer(text):
        kind = kind_of(piece)
        if word not in NAMING and IS_WORD.match(text, piece.start()):
            kind = "keyword"
        if kind not in ("blank", "comment"):
            word = piece[0]
        if kind != "blank":
            yield Token(kind, piece.start(), piece.end())
        if kind == "fault":
            return


def kind_of(piece):
    if piece.lastgroup in ("word", "number") and len(piece[0]) > LONGEST_WORD:
        return "fault"
    if piece.lastgroup == "word":
        return "keyword" if piece[0] in keywords() else "name"
    return piece.lastgroup


# ---- the texts


def texts():
    """Where each monitor and client file stands, and its text, in which a character is a byte."""
    found = {}
    for folder in FOLDERS:
        for path in sorted([*(ROOT / folder).rglob("*.mon"), *(ROOT / folder).rglob("*.cl")]):
            found[path.read_bytes()[:MOST_BYTES]] = str(path.relative_to(ROOT))
    for row, name, text in tables.Tables().files:
        if name.endswith((".mon", ".cl")):
            found.setdefault(text[:MOST_BYTES], f"{row}, {name}")
    words = " ".join([*sorted(keywords()), *signs()])
    return [("each word and sign", words), *((place, text.decode("latin-1")) for text, place in found.items())]


def example(marked):
    """A text without its marks, and the role at the offset of each name."""
    text, roles = "", {}
    for plain, name, role in re.findall(r"(.*?)(?:(\w+)'(\w+)|\Z)", marked, re.S):
        text += plain
        if name:
            roles[len(text)] = role
        text += name
    return text, roles


def canonical():
    """Each monitor that the program prints in its form."""
    calls = [call for call in tables.Tables().calls if call.words[1:2] == ["check"] and call.status == "Done"]
    return sorted({call.text.decode() for call in calls if call.whole})


# ---- what is wrong


def place_in(name, text, at):
    line = text.count("\n", 0, at) + 1
    return f"{name}:{line}:{at - text.rfind(chr(10), 0, at)}"


def colour_faults(editor, name, text, kinds):
    """Each token of a text that is not coloured as what it is, by the kind of each byte; blanks of comments aside."""
    for token in tokens(text):
        found = {kinds[at] for at in range(token.start, token.end) if not text[at].isspace()}
        if found != {token.kind}:
            shown = text[token.start : token.end][:LONGEST_WORD]
            kinds_found = ", ".join(sorted(map(str, found)))
            yield f"{place_in(name, text, token.start)}: {editor}: {token.kind} `{shown}` is {kinds_found}"


def role_faults(editor, text, roles, found):
    """Each name of an example whose role is another, by the role of each byte."""
    for at, role in roles.items():
        if found[at] != role:
            yield f"{place_in('example', text, at)}: {editor}: a name of role {role} is {found[at]}"


def keyword_faults(editor, spelled):
    """The keywords that an editor's file lacks, and the words that are none."""
    for word in sorted(keywords() ^ spelled - OTHER_WORDS):
        yield f"{editor}: {'lacks the keyword' if word in keywords() else 'no keyword:'} {word}"


def kind_of_scope(scope):
    return next((kind for kind, fronts in SCOPES.items() if scope.startswith(fronts)), None)


def kind_of_group(group):
    return next((kind for kind, groups in GROUPS.items() if group in groups), None)


def role_of(column, name):
    return next((role for role, names in ROLES.items() if names[column] == name), None)


# ---- TextMate


def textmate_faults(files):
    package = json.loads((VSCODE / "package.json").read_text())["contributes"]
    [language], [grammar] = package["languages"], package["grammars"]
    yield from textmate_layout_faults(json.loads((VSCODE / language["configuration"]).read_text())["indentationRules"])
    rules = textmate.Grammar(VSCODE / grammar["path"])
    if rules.source["scopeName"] != grammar["scopeName"]:
        yield "package.json: another scope than the grammar's"
    yield from keyword_faults("TextMate", rules.words())
    for name, text in files:
        yield from colour_faults("TextMate", name, text, list(map(kind_of_scope, rules.scopes(text))))
    for text, roles in map(example, EXAMPLES):
        yield from role_faults("TextMate", text, roles, [role_of(0, scope) for scope in rules.scopes(text)])
    if oniguruma.library():
        theirs = textmate.Grammar(VSCODE / grammar["path"], oniguruma.Pattern)
        for name, text in files:
            if theirs.scopes(text) != rules.scopes(text):
                yield f"{name}: Oniguruma colours otherwise than Python's `re`"


def textmate_layout_faults(rules):
    """Each text that VS Code's rules lay out otherwise; they know nothing of a method whose head has lines of its own."""
    more, less = re.compile(rules["increaseIndentPattern"]), re.compile(rules["decreaseIndentPattern"])
    for text in [*canonical(), CLIENTS]:
        lines, depth = [], 0
        for line in map(str.strip, text.split("\n")):
            depth -= bool(less.search(line))
            lines.append("  " * depth * bool(line) + line)
            depth += bool(more.search(line))
        if "\n".join(lines) != text and not re.search("^  method [^{]*$", text, re.M):
            yield "VS Code: lays out otherwise:\n" + "\n".join(lines)


# ---- Vim


def vim_faults(files):
    syntax = (VIM / "syntax" / "expresso.vim").read_text()
    spelled = re.findall(r"/(?:\\%\()?([a-z\\|]+)(?:\\\))?\\w\\@!/", syntax)
    yield from keyword_faults("Vim", {word for words in spelled for word in words.split("\\|")})
    coloured = [*files, *(("example", example(marked)[0]) for marked in EXAMPLES)]
    laid = [*canonical(), CLIENTS]
    with tempfile.TemporaryDirectory() as made:
        folder = pathlib.Path(made)
        write_all(folder, "coloured", [text for _, text in coloured])
        write_all(folder, "indented", laid)
        for name, (text, _) in DETECTED.items():
            (folder / name).write_text(text)
        run_vim(folder)
        links = dict(re.findall(r"^highlight default link (\w+) (\w+)$", syntax, re.M))
        yield from vim_colour_faults(folder, coloured, links)
        yield from vim_layout_faults(folder, laid)
        yield from vim_language_faults(folder)


def write_all(folder, ending, contents):
    for number, text in enumerate(contents):
        (folder / f"{number}.{ending}").write_bytes(text.encode("latin-1"))


def run_vim(folder):
    words = ["vim", "-es", "-N", "-u", "NONE", "-i", "NONE", "-S", str(ROOT / "tools" / "editors.vim")]
    status = subprocess.run(words, cwd=folder, env=os.environ | {"EDITOR": str(VIM)}, timeout=PATIENCE,
                            stdin=subprocess.DEVNULL, stdout=subprocess.DEVNULL, check=False).returncode
    if status:
        failed = folder / "failed"
        raise SystemExit(f"vim ends with status {status}: {failed.read_text() if failed.exists() else ''}")


def groups_of(path, text):
    """Vim's group of each byte of a text."""
    found = []
    for line, groups in zip(text.split("\n"), path.read_text().split("\n")):
        found += [*groups.split(), "-"]
        if len(groups.split()) != len(line):
            raise SystemExit(f"{path}: not a group for each byte")
    return found


def vim_colour_faults(folder, coloured, links):
    first = len(coloured) - len(EXAMPLES)
    for number, (name, text) in enumerate(coloured):
        groups = groups_of(folder / f"{number}.coloured.groups", text)
        yield from colour_faults("Vim", name, text, [kind_of_group(links.get(group)) for group in groups])
        if number >= first:
            roles = [role_of(1, group) for group in groups]
            yield from role_faults("Vim", text, example(EXAMPLES[number - first])[1], roles)


def vim_layout_faults(folder, laid):
    for number, text in enumerate(laid):
        lines = (folder / f"{number}.indented.lines").read_text()
        if lines != text:
            yield f"Vim: lays out otherwise:\n{lines}"


def vim_language_faults(folder):
    for name, (_, wanted) in DETECTED.items():
        language = (folder / f"{name}.language").read_text().strip()
        if (language == "expresso") != wanted:
            yield f"Vim: {name} is taken for `{language}`"


def main():
    files = texts()
    editors, faults = ["TextMate"], list(textmate_faults(files))
    if shutil.which("vim"):
        editors.append("Vim")
        faults += vim_faults(files)
    for fault in faults:
        print(fault)
    if oniguruma.library():
        editors[0] += " (by Python's `re` and by Oniguruma)"
    count = sum(1 for _, text in files for _ in tokens(text))
    print(f"editors: {' and '.join(editors)}: {len(files)} files of {count} tokens; {len(faults)} faults")
    if len(editors) == 1:
        print("editors: vim is not installed here, so its files were not tried")
    return 1 if faults else 0


if __name__ == "__main__":
    sys.exit(main())
