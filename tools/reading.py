"""Reads the sources: the crates, the clauses of their calls, and the definitions in specs/ that clauses cite.

`.ci/contracts` checks what is read here, and `tools/definitions.py` makes documents of it.
"""

import functools
import pathlib
import re
from dataclasses import dataclass, field

ROOT = pathlib.Path(__file__).resolve().parent.parent
CRATES = ROOT / "crates"
WORD = re.compile(r"[A-Za-z_][\w-]*")
CITED = re.compile(r"(?<![\w.-])([A-Za-z_][\w-]*)(?:\.([A-Za-z_][\w-]*))?")
IMPORT = re.compile(r"\buse Rattle\.(\w+)\.specs\.([\w.+-]+?)(?:\.\{([^}]*)\}| as (\w+))?\s*(?:;|$)", re.M)
FUNCTION = re.compile(r"^\s*(pub(?:\([a-z]+\))? )?(?:const )?fn (\w+)")
IMPL = re.compile(r"^impl(?:<[^{]*?>)? (?:([\w:<>, ']+) for )?(\w+)")
TRAIT = re.compile(r"^pub trait (\w+)")
CLAUSE = re.compile(r"\s*(requires|ensures)\b ?(\w*)")
GHOST = re.compile(r"    ghost (\w+)\s*[:=] \{")
LIBRARY = re.compile(r"(From|Clone|Drop|Model|PartialEq|Eq|Iterator|Default)\b")
DEFINITION = re.compile(r"^(?:(?:abbrev|unfoldable)(?: pub)?|(?:pub )?(?:record|data)|pub(?! mod| use)) ([^\s(:]+)")
FIELD = re.compile(r"  (?:pub )?(\w[\w-]*) :")


# ---- crates


@functools.cache
def crates():
    """The crates, lower ones first."""
    names = []
    for line in (ROOT / "crates.txt").read_text().splitlines():
        names += line.split("#")[0].split(":")[0].split()[:1]
    return names


def sources(crate):
    return sorted((CRATES / crate / "src").rglob("*.rt"))


@functools.cache
def exported(crate):
    """The names that the crate's root hands out."""
    root = CRATES / crate / "src" / "lib.rt"
    if not root.exists():
        root = CRATES / crate / "src" / "main.rt"
    text = root.read_text()
    names = set()
    for match in re.finditer(r"pub use ([\w:]+?)(?:::\{([^}]*)\}|::(\w+)(?: as \w+)?)?;", text):
        for name in (match.group(2) or match.group(3) or "").split(","):
            names.add(name.split(" as ")[0].strip())
    return names | set(re.findall(r"^pub (?:fn|struct|enum|trait) (\w+)", text, re.M))


def imports(text):
    """From each imported word of our specs to its crate, its file or type there, and its name.

    The alias of a file has no name.
    """
    words = {}
    for crate, path, names, alias in IMPORT.findall(text):
        if crate not in crates() or path.startswith("contracts"):
            continue
        if alias:
            words[alias] = (crate, path, None)
        for name in names.split(","):
            parts = name.strip().split(" as ")
            if parts[0]:
                words[parts[-1]] = (crate, path, parts[0])
    return words


# ---- calls and their clauses


@dataclass
class Clause:
    """A `requires` or an `ensures`."""

    line: int
    lines: list
    kind: str
    name: str

    @property
    def text(self):
        return "\n".join(self.lines)


@dataclass
class Call:
    """A function with its clauses; or a public type or trait with its ghosts, which has no function."""

    crate: str
    path: pathlib.Path
    line: int
    owner: str
    function: str
    public: bool
    documentation: str
    # The trait that the function's type has by it.
    trait: str = ""
    clauses: list = field(default_factory=list)

    @property
    def name(self):
        return "::".join(part for part in (self.owner, self.function) if part)

    @property
    def derived(self):
        """Whether it is a function of a library's trait."""
        return bool(LIBRARY.match(self.trait))


def braced(lines, index):
    """The lines from this one to where the brace that opens in them closes."""
    block, depth = [], 0
    for line in lines[index:]:
        block.append(line)
        depth += line.count("{") - line.count("}")
        if depth <= 0 and "{" in "".join(block):
            break
    return block


def documentation(lines, index):
    """The first sentence of what is written above an item."""
    text = []
    for line in reversed(lines[:index]):
        line = line.strip()
        if line.startswith("///"):
            text.append(line.removeprefix("///").strip())
        elif not line.startswith("#["):
            break
    paragraph = " ".join(reversed(text)).strip()
    paragraph = re.sub(r"\[(`[^`]+`)\](?:\([^)]*\))?", r"\1", paragraph)
    return re.split(r"(?<=[^.])\.(?= |$)", paragraph)[0]


def calls_of(crate, path):
    """Each function of a file, in order, and each public type or trait with ghosts."""
    lines, names = path.read_text().split("\n"), exported(crate)
    owner, of_trait, in_trait, call, index = "", "", False, None, 0
    while index < len(lines):
        line = lines[index]
        trait, impl, function = TRAIT.match(line), IMPL.match(line), FUNCTION.match(line)
        if trait or impl or line.startswith("}") or (function and not line.startswith(" ")):
            owner = trait.group(1) if trait else impl.group(2) if impl else ""
            of_trait = (impl.group(1) or "").strip() if impl else ""
            in_trait, call = bool(trait), None
        if function:
            visible = function.group(1) == "pub " or in_trait or bool(of_trait)
            public = visible and (owner or function.group(2)) in names
            told = documentation(lines, index)
            call = Call(crate, path, index + 1, owner, function.group(2), public, told, of_trait)
            yield call
        clause, ghost = CLAUSE.match(line), GHOST.match(line)
        if ghost and call is None and owner in names and (in_trait or of_trait == "Model"):
            block = braced(lines, index)
            ghosts = [Clause(index + 1, block, "ghost", ghost.group(1))]
            yield Call(crate, path, index + 1, owner, "", True, "", clauses=ghosts)
            index += len(block) - 1
        elif clause and call is not None:
            block = braced(lines, index)
            call.clauses.append(Clause(index + 1, block, clause.group(1), clause.group(2)))
            index += len(block) - 1
        index += 1


@functools.cache
def calls():
    return [call for crate in crates() for path in sources(crate) for call in list(calls_of(crate, path))]


def public_calls():
    """The public functions and methods; those that a type has by a trait only where they promise more than it."""
    for call in calls():
        if call.public and call.function and not call.derived and (call.clauses or not call.trait):
            yield call


# ---- definitions


@dataclass
class Definition:
    crate: str
    spec: str
    name: str
    comment: str
    heading: str
    line: int
    text: str
    fields: list

    @property
    def key(self):
        return self.crate, self.spec, self.name

    @property
    def path(self):
        return spec_path(self.crate, self.spec).relative_to(ROOT)

    @property
    def is_inner(self):
        return self.spec.startswith("inner")

    @property
    def code(self):
        """Its text without the comments."""
        return "\n".join(line for line in self.text.split("\n") if not line.strip().startswith("--"))

    @property
    def bound(self):
        """The words that its equations, functions, parameters and fields bind, which mean no definition here."""
        heads = re.findall(rf"^{re.escape(self.name)}\b(.*?) = ?", self.code, re.M)
        heads += re.findall(r"[({]([\w -]+?) :", self.code) + re.findall(r"λ ([\w -]+?)\.", self.code)
        heads += [name for name, _, _ in self.fields]
        return {word for head in heads for word in WORD.findall(head)}


def spec_path(crate, spec):
    return (CRATES / crate / "specs").joinpath(*spec.split(".")).with_suffix(".antt")


def spec_files(crate):
    """The crate's files of definitions, but those that speak to the prover alone."""
    base = CRATES / crate / "specs"
    for path in sorted(base.rglob("*.antt")):
        if "formers" not in path.parts:
            yield path, ".".join(path.relative_to(base).with_suffix("").parts)


def joined(comment):
    """The lines of a comment as one text."""
    return " ".join(line.strip().removeprefix("--").strip() for line in comment).strip()


def blocks(lines):
    """Each definition as its comment, the heading that it stands under, the number of its line, and its lines."""
    comment, heading, block = [], "", None
    for number, line in enumerate([*lines, "-- ----"], start=1):
        begins = DEFINITION.match(line)
        if block and (begins or line.startswith("--")):
            yield block
            block = None
        if begins:
            block, comment = (joined(comment), heading, number, [line]), []
        elif line.startswith("-- ----"):
            heading, comment = line.strip("- "), []
        elif line.startswith("--"):
            comment.append(line)
        elif block:
            block[3].append(line)
        elif not line.strip():
            comment = []


def fields_of(block):
    """The fields of a record, or the rules of a relation, each as its name, its comment and its text."""
    found, comment = [], []
    for line in block[1:]:
        name = FIELD.match(line)
        if line.strip().startswith("--"):
            comment.append(line)
        elif name:
            found.append([name.group(1), joined(comment), [line]])
            comment = []
        elif found and line.strip():
            found[-1][2].append(line)
    return [(name, text, "\n".join(lines)) for name, text, lines in found]


@functools.cache
def definitions():
    """Each definition of our specs by its crate, file and name."""
    found = {}
    for crate in crates():
        for path, spec in spec_files(crate):
            for comment, heading, line, block in blocks(path.read_text().split("\n")):
                name = DEFINITION.match(block[0]).group(1)
                told = re.match(r"(?:pub )?(?:record|data) ", block[0])
                fields = fields_of(block) if told else []
                found[crate, spec, name] = Definition(
                    crate, spec, name, comment, heading, line, "\n".join(block).rstrip(), fields
                )
    return found


@functools.cache
def spec_words(crate, spec):
    """What each word means in a file of definitions."""
    path = spec_path(crate, spec)
    if not path.exists():
        return {}
    words = imports(path.read_text())
    words.update({key[2]: key for key in definitions() if key[:2] == (crate, spec)})
    return words


def looked_up(crate, spec, name):
    """The definition of a name in a file, also where the file hands it on, or where it is a rule of a relation."""
    found = definitions().get((crate, spec, name))
    if found:
        return found
    outer, _, relation = spec.rpartition(".")
    if outer and (crate, outer, relation) in definitions():
        return definitions()[crate, outer, relation]
    handed = spec_words(crate, spec).get(name)
    if handed and handed[2] and handed != (crate, spec, name) and not handed[1].startswith("declared"):
        return looked_up(*handed)
    return None


def citations(text, words, bound=frozenset()):
    """The definitions that a text cites, and the types of the code, each once in the order in which they stand."""
    found, types = {}, {}
    for word, member in CITED.findall(text):
        crate, path, name = words.get(word, (None, None, None))
        name = name or member
        if crate is None or not name:
            continue
        if path.startswith("declared"):
            types[crate, path] = None
            continue
        one = looked_up(crate, path, name)
        if one and not (word in bound and one.name == name):
            found[one.key] = one
    return list(found.values()), list(types)


def beneath(definition, text=None):
    """What a definition, or a part of its text, is made of."""
    return citations(text or definition.code, spec_words(*definition.key[:2]), definition.bound)


@functools.cache
def source_words(path):
    return imports(path.read_text())


def cited_by(call):
    """From each clause of a call to the definitions that it cites."""
    words = source_words(call.path)
    return [(clause, citations(clause.text, words)[0]) for clause in call.clauses]
