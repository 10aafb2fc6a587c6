#!/usr/bin/env python3
"""Makes docs/HEADLINE.md, and on demand a list of all, from the comments, clauses and definitions of the crates.

    tools/definitions.py                writes docs/HEADLINE.md
    tools/definitions.py --check        fails where that is not what would be written
    tools/definitions.py --all [FILE]   prints all definitions and public calls, or writes them to a file

Above the line that says so docs/HEADLINE.md is written by hand, and kept. What a definition says is the comment above
it in specs/; tools/sentences.txt has the sentences of those that have none, or whose comment says less.
"""

import os
import pathlib
import re
import sys
import textwrap

sys.dont_write_bytecode = True
sys.path.insert(0, str(pathlib.Path(__file__).resolve().parent))

import reading  # noqa: E402

ROOT = reading.ROOT
SENTENCES = ROOT / "tools" / "sentences.txt"
HEADLINE = ROOT / "docs" / "HEADLINE.md"
MARK = "<!-- From here on made by tools/definitions.py. -->"
WIDEST = 100
SHORT = 160
# So many steps down from what is shown as code, or from a field of the theorem, a definition has an item of its own.
DEEPEST = 1
PRODUCTION = re.compile(r"[a-z_]+ = ")


# ---- what a definition says


def sentences():
    """From each definition that has one to its sentence."""
    found = {}
    for line in SENTENCES.read_text().splitlines():
        if line.strip() and not line.startswith("#"):
            name, _, sentence = line.partition(": ")
            crate, rest = name.split(".", 1)
            spec, _, last = rest.rpartition(".")
            found[crate, spec, last] = sentence.strip()
    return found


def code(text):
    return "`" + text.replace("|", "\\|") + "`"


def equations(definition):
    """Its equations, one after the other, where they are short together."""
    own = re.compile(rf"{re.escape(definition.name)}(?![\w-])")
    found = []
    for line in definition.code.split("\n"):
        if own.match(line):
            found.append(line.strip())
        elif found and line.strip():
            found[-1] += " " + line.strip()
    text = "; ".join(found)
    return text if len(text) <= SHORT else ""


def number(definition):
    """What is said of a number behind its sentence."""
    found = re.fullmatch(rf"{re.escape(definition.name)} = ([\d ^*+-]+)", equations(definition))
    return f" ({found.group(1)})" if found else ""


def said(definition):
    """What a definition says, for a cell of a table."""
    sentence = sentences().get(definition.key) or definition.comment
    if PRODUCTION.match(sentence):
        return code(sentence)
    if sentence:
        return sentence.rstrip(".").replace("|", "\\|") + number(definition)
    if definition.fields:
        names = ", ".join(code(name) for name, _, _ in definition.fields)
        return ("by its rules " if definition.code.startswith(("pub data", "data")) else "its parts: ") + names
    text = equations(definition)
    if text:
        return code(text)
    return f"by its equations ({definition.heading})" if definition.heading else "by its equations"


# The folder from which links lead.
folder = HEADLINE.parent


def place(path):
    return os.path.relpath(ROOT / path, folder)


def link(definition):
    return f"[`{definition.spec.replace('.', '/')}`]({place(definition.path)}#L{definition.line})"


def names(items):
    return ", ".join(f"`{item}`" for item in items)


# ---- all definitions and public calls


def beneath(given):
    """All that the given definitions are made of, themselves left out, in reading order."""
    seen, found = set(), []

    def go(definition):
        for inner in reading.beneath(definition)[0]:
            if inner.key not in seen:
                seen.add(inner.key)
                found.append(inner)
                go(inner)

    for definition in given:
        go(definition)
    kept = {definition.key for definition in given}
    return [definition for definition in found if definition.key not in kept]


def citing():
    """From each definition that a public call or type cites to the names of these."""
    found = {}
    for call in reading.calls():
        if call.public and not call.derived:
            for _, cited in reading.cited_by(call):
                for definition in cited:
                    if not (call.function == "" and definition.is_inner):
                        found.setdefault(definition.key, {})[call.name] = None
    return {key: list(callers) for key, callers in found.items()}


def rows_of_definitions(crate, cited):
    for key, definition in reading.definitions().items():
        if key[0] == crate and key in cited:
            yield f"| `{definition.name}` | {said(definition)} | {link(definition)} | {names(cited[key])} |"


def told_clause(clause, cited):
    told = names(definition.name for definition in cited)
    if clause.name:
        return f"`{clause.name}`" + (f" ({told})" if told else "")
    return told or "its clause"


def row_of_call(call):
    asks, promises = [], []
    for clause, cited in reading.cited_by(call):
        (asks if clause.kind == "requires" else promises).append(told_clause(clause, cited))
    does = call.documentation.replace("|", "\\|")
    return f"| `{call.name}` | {does} | {'; '.join(asks)} | {'; '.join(promises)} |"


def paragraph(text, indent=""):
    return textwrap.wrap(text, WIDEST, subsequent_indent=indent, break_long_words=False, break_on_hyphens=False)


def section(crate, cited):
    """What a reader finds of one crate."""
    lines = [f"## `{crate}`", ""]
    rows = list(rows_of_definitions(crate, cited))
    if rows:
        lines += ["| Definition | What it says | File | Cited by |", "|---|---|---|---|", *rows, ""]
    given = [reading.definitions()[key] for key in cited if key[0] == crate]
    files = {}
    for definition in beneath(given):
        if definition.crate == crate and not definition.is_inner and definition.key not in cited:
            files.setdefault(definition.spec, []).append(definition.name)
    if files:
        told = "; ".join(f"in `{spec}` {names(found)}" for spec, found in sorted(files.items()))
        lines += [*paragraph(f"Beneath these: {told}."), ""]
    calls = [row_of_call(call) for call in reading.public_calls() if call.crate == crate]
    if calls:
        lines += ["| Call | What it does | It asks | It promises |", "|---|---|---|---|", *calls, ""]
    return lines if len(lines) > 2 else []


ALL = """# Definitions

What a reader must believe, a crate at a time, lower ones first: each definition that a public call or type cites, with
what it says, its file in specs/, and what cites it; the names of what these are made of; and each public call, with
what it asks of its caller and what it promises, by the names of its clauses. `its clause` is one without a name that
speaks in the library's words alone. Definitions in specs/inner/ serve private contracts.
"""


def definitions_document():
    cited, lines = citing(), ALL.split("\n")
    for crate in reading.crates():
        if not crate.startswith("tests_of_"):
            lines += section(crate, cited)
    return lines + ends_document()


# ---- how every command ends, in the list of all


class Reader:
    """Goes down through definitions, and tells each once, with the one through which it was reached."""

    def __init__(self):
        self.told, self.types = set(), {}

    def rows(self, parent, text):
        found, types = reading.beneath(parent, text)
        self.types.update(dict.fromkeys(types))
        for definition in found:
            if definition.key not in self.told:
                self.told.add(definition.key)
                yield f"| `{definition.name}` | `{parent.name}` | {said(definition)} | {link(definition)} |"
                yield from self.rows(definition, definition.code)

    def table(self, parent, text):
        rows = list(self.rows(parent, text))
        return ["| Definition | Of | What it says | File |", "|---|---|---|---|", *rows, ""] if rows else []

    def chapters(self, record):
        """A chapter of each field of a record that speaks of something not told before."""
        comment = ""
        for name, told, text in record.fields:
            comment = told or comment
            table = self.table(record, text)
            if table:
                yield from [f"### `{name}`", ""]
                yield from [*paragraph(comment), ""] if comment else []
                yield from table


def shown(definition):
    comment = [f"-- {line}" for line in textwrap.wrap(definition.comment, WIDEST - 3)]
    return ["```", *comment, *definition.text.split("\n"), "```", ""]


def types_table(types):
    """The types of the code that are told of, each with what is written above it."""
    rows = {}
    for crate, path in types:
        file, name = path.removeprefix("declared.").split(".")[:2]
        source = reading.CRATES / crate / "src" / f"{file}.rt"
        lines = source.read_text().split("\n") if source.exists() else []
        for at, line in enumerate(lines):
            if re.match(rf"pub(?:\([a-z]+\))? (?:struct|enum) {name}\b", line):
                does = reading.documentation(lines, at).replace("|", "\\|")
                rows[crate, name] = f"| `{name}` | {does} | [`{crate}`]({place(source)}) |"
    return ["| Type | What it is | Crate |", "|---|---|---|", *(rows[key] for key in sorted(rows)), ""]


def theorem():
    definitions = reading.definitions()
    return (definitions["expresso", "Headline", name] for name in ("Headline", "IsHeadlineText"))


def ends_document():
    """The theorem, and how every command ends, from the top down."""
    headline, text = theorem()
    ends = reading.definitions()["expresso", "ProgramEnds", "ProgramEnds"]
    reader = Reader()
    reader.told |= {headline.key, text.key, ends.key}
    lines = ["## The theorem, from the top down", "", *reader.table(headline, headline.code)]
    lines += reader.chapters(text)
    lines += ["## How every command ends", "", *shown(ends), *reader.chapters(ends)]
    return [*lines, "## Types of the code", "", *types_table(reader.types)]


# ---- docs/HEADLINE.md

# What stands there as code, by subject: crate, file and names.
CODE = """
A plan is lawful
  machine_events Plans IsLawful WakesAll EachNoteOn IsUntestedBroadcast
  lang_monitor Triples IsInductive
What is asked of a block
  lang_monitor Triples Keeps NoneNeeded OneEnough NoTestNeeded IsValidQuery
  lang_monitor Bodies IsValid
  lang_monitor Queries keeps_query none_needed_query one_enough_query
A plan is backed, and a certificate refutes
  plan_claims Backing IsBacked HasCertificate Certifies backed_claims
  logic_cert Refutes Refutes RefutesFrom closes are_opposite chain_closes chain_goes is_absurd
A run of the implicit monitor
  machine_implicit Runs IsRun IsRunBy IsNextCommit Ends CanAct
  machine_implicit Places may_step IsStep IsCallStep IsRefusal
  machine_implicit Steps IsBlockStep BlockSteps
The seven events
  machine_events Events IsEvent Begins Locks WantsLock Waits Runs Refuses StepsInside notes_after
  machine_events Events Notifies Wakes WakesOne WakesEach WakesNobody fires Unlocks WakesSpuriously
A legal log, and where it ends
  machine_events Logs IsLegal IsSection IsBegun IsNotified IsChosen IsFirstWaiter IsClosed rests
No wake-up is lost
  machine_events Pending WakePending IsStuck
A condition is counted
  machine_events Counts IsCounted LeavesCounted slack
The plan that was asked for
  expresso_answers Placements IsChosenFrom IsCountTable
"""
# What another document says in words: of which nothing beneath is told.
ELSEWHERE = {
    ("front_command", "CommandLine", "Takes"): "../README.md#commands",
    ("lang_tokens", "Spelling", "Spells"): "RULES.md#the-grammar",
    ("lang_syntax", "Grammar", "Derives"): "RULES.md#the-grammar",
    ("lang_syntax", "ClientGrammar", "DerivesClients"): "RULES.md#the-grammar",
    ("lang_rules", "Rules", "faults_of"): "RULES.md#what-is-printed-where-a-rule-is-broken",
    ("lang_monitor", "MonitorParts", "IsMonitor"): "RULES.md",
    ("lang_script", "Faults", "faults_of"): "RULES.md#what-is-printed-where-a-rule-is-broken",
    ("lang_types", "Typed", "IsTyped"): "PROMISES.md#from-bytes-to-monitors-and-clients",
    ("plan_prune", "Hardness", "MayStayOpen"): "PROMISES.md#queries-and-certificates",
    ("plan_prune", "Hardness", "IsHard"): "PROMISES.md#queries-and-certificates",
    ("logic_wp", "NegatedQueries", "negated_query"): "PROMISES.md#queries-and-certificates",
    ("lang_monitor", "Candidates", "candidates_of"): "GUIDE.md#how-to-read-a-plan",
    ("plan_place", "Relayed", "relay_of"): "ARCHITECTURE.md#the-words",
    ("machine_events", "Counts", "IsLawfulByCounting"): "ARCHITECTURE.md#the-words",
    ("machine_events", "PlanText", "plan_text"): "GUIDE.md#how-to-read-a-plan",
    ("report_text", "LogText", "log_text"): "GUIDE.md#how-to-read-a-log",
}


def by_subject():
    """Each subject with the keys of its definitions that stand as code."""
    found = {}
    for line in CODE.strip().split("\n"):
        if line.startswith(" "):
            crate, spec, *names_there = line.split()
            found[subject] += [(crate, spec, name) for name in names_there]
        else:
            subject = line
            found[subject] = []
    return found


def unknown():
    """Each definition named above that isn't there."""
    wanted = [key for keys in by_subject().values() for key in keys] + list(ELSEWHERE)
    return [key for key in wanted if key not in reading.definitions()]


def to_line(definition):
    return f"[`{definition.name}`]({place(definition.path)}#L{definition.line})"


def code_blocks(definitions):
    """Definitions as they stand, each behind a link to its line."""
    for definition in definitions:
        text = sentences().get(definition.key) or definition.comment
        text = text[:1].upper() + text[1:].rstrip(".")
        yield from paragraph(f"{to_line(definition)}: {text}." if text else f"{to_line(definition)}:")
        yield from ["", "```", *definition.text.split("\n"), "```", ""]


def has_words(definition):
    """Whether more is said of it than its equations."""
    return bool(sentences().get(definition.key) or definition.comment)


class Teller:
    """Goes down through definitions, tells each once, and names those in the item of their parent that have no words or
    stand deeper: of these the lines lead on."""

    def __init__(self, told):
        self.told, self.rows = set(told), []

    def go(self, parent, text, row=None, depth=1):
        for definition in reading.beneath(parent, text)[0]:
            if definition.key in self.told:
                continue
            self.told.add(definition.key)
            worded = has_words(definition)
            if row is None or definition.key in ELSEWHERE or (worded and depth <= DEEPEST):
                own = [definition]
                self.rows.append(own)
            else:
                own = row
                row.append(definition)
            if definition.key not in ELSEWHERE and (own is not row or not worded):
                self.go(definition, definition.code, own, depth + 1)

    def items(self):
        rows, self.rows = self.rows, []
        lines = []
        for first, *folded in rows:
            lines += paragraph(f"- {to_line(first)}: {self.words(first, folded)}", "  ")
        return [*lines, ""] if lines else []

    def words(self, first, folded):
        text = said(first).replace("\\|", "|")
        if first.key in ELSEWHERE:
            target = ELSEWHERE[first.key]
            text += f" ([{pathlib.Path(target.partition('#')[0]).stem}]({target}))"
        if folded:
            text += "; by " + ", ".join(map(to_line, folded))
        return text


def headline_document():
    headline, text = theorem()
    subjects = {name: [reading.definitions()[key] for key in keys] for name, keys in by_subject().items()}
    inside = [definition for found in subjects.values() for definition in found]
    teller = Teller(definition.key for definition in [headline, text, *inside])
    lines = ["## The theorem", "", *code_blocks([headline, text])]
    for subject, found in subjects.items():
        lines += [f"## {subject}", "", *code_blocks(found)]
    lines += ["## What these are made of", ""]
    teller.go(headline, headline.code)
    lines += ["### `Headline`", "", *teller.items()]
    for name, _, field in text.fields:
        teller.go(text, field)
        items = teller.items()
        lines += [f"### `{name}`", "", *items] if items else []
    for subject, found in subjects.items():
        for definition in found:
            teller.go(definition, definition.code)
        items = teller.items()
        lines += [f"### {subject}, more", "", *items] if items else []
    return lines


# ---- both


def made():
    """What docs/HEADLINE.md should be: its head, and what is made."""
    head = HEADLINE.read_text().partition(MARK)[0]
    return "\n".join([head.rstrip(), "", MARK, "", *headline_document()]).rstrip() + "\n"


def write_all(name):
    """The list of all, to a file, or else printed with links from the top of the repository."""
    global folder
    folder = pathlib.Path(name).resolve().parent if name else ROOT
    text = "\n".join(definitions_document()).rstrip() + "\n"
    if name:
        pathlib.Path(name).write_text(text)
    else:
        print(text, end="")


def faults():
    """What is wrong with docs/HEADLINE.md, the sentences and the comments, a line each."""
    definitions = reading.definitions()
    for key in sentences():
        if key not in definitions:
            yield f"tools/sentences.txt: `{'.'.join(key)}` is no definition"
    for key in citing():
        if not (sentences().get(key) or definitions[key].comment):
            yield f"{definitions[key].path}: `{key[2]}`, which a public clause cites, has no comment"
    for key in unknown():
        yield f"tools/definitions.py: `{'.'.join(key)}` is no definition"
    if not unknown() and HEADLINE.read_text() != made():
        yield f"{HEADLINE.relative_to(ROOT)}: not what tools/definitions.py makes; run it"


def main():
    words = sys.argv[1:]
    if words == ["--check"]:
        found = list(faults())
        print("\n".join(found) or "definitions: as they are made")
        return 1 if found else 0
    if words[:1] == ["--all"] and len(words) <= 2:
        write_all(words[1] if words[1:] else "")
    elif words:
        sys.exit(__doc__)
    else:
        HEADLINE.write_text(made())
    return 0


if __name__ == "__main__":
    sys.exit(main())
