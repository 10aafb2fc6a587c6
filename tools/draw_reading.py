"""Reads what `compile`, `simulate`, `run`, `block` and `turns` print: a plan, a log, or a plan and a log."""

import re
from dataclasses import dataclass, field

CALL = r"(?P<client>\w+)\.(?P<at>\d+(?:\.\d+)?) (?P<called>(?:try )?\w+\([^()]*\))"
WAITS = re.compile(rf"{CALL} waits")
REPLIES = re.compile(rf"{CALL} = (?P<reply>-|-?\d+|true|false|overflow|refused)(?: wakes(?P<woken>(?: \w+)+))?")
SPURIOUS = re.compile(r"spurious (?P<client>\w+)")
BLOCKED = re.compile(rf"{CALL} blocked")
STATE = re.compile(r"state(?: \w+=\S+)*")
PLAN = re.compile(r"plan (\w+)")
KEPT = re.compile(r"keep (.+)")
CONDITION = re.compile(r"condition (\d+) (signal|broadcast): (.+)")
BLOCK = re.compile(r"block (\w+(?:\.\d+)?): (.+)")
NOTE = re.compile(r"(\d+) (signal|broadcast)( tested)?")
REFUSALS = ("refused: ", "rejected: ", "read fault: ", "usage:", "unproved: ", "unlawful: ")


class Unreadable(Exception):
    """Why a text is not drawn, as one sentence."""


@dataclass(frozen=True)
class Note:
    """Whom a block wakes: one or all who wait on a condition."""

    condition: int
    kind: str
    tested: bool

    def __str__(self):
        return f"{self.condition} {self.kind}{' tested' if self.tested else ''}"


@dataclass(frozen=True)
class Condition:
    number: int
    kind: str
    guard: str


@dataclass(frozen=True)
class Block:
    name: str
    notes: tuple


@dataclass
class Plan:
    name: str
    kept: list = field(default_factory=list)
    conditions: list = field(default_factory=list)
    blocks: list = field(default_factory=list)


@dataclass(frozen=True)
class Entry:
    """A line of a log: a section, a wake-up by nothing, or who is blocked at the end.

    `outcome` is `waits`, a reply, `spurious` or `blocked`.
    """

    client: str
    outcome: str
    at: str = ""
    called: str = ""
    woken: tuple = ()

    @property
    def place(self):
        return f"{self.client}.{self.at}" if self.at else self.client

    def __str__(self):
        if self.outcome == "spurious":
            return f"spurious {self.client}"
        sign = "" if self.outcome in ("waits", "blocked") else "= "
        wakes = f" wakes {' '.join(self.woken)}" if self.woken else ""
        return f"{self.place} {self.called} {sign}{self.outcome}{wakes}"


@dataclass
class Log:
    entries: list = field(default_factory=list)
    end: str = ""
    blocked: list = field(default_factory=list)
    state: str = ""


class Lines:
    """The lines of a text, taken from the first to the last."""

    def __init__(self, text):
        self.lines, self.next = text.splitlines(), 0

    def take(self, pattern):
        """The next line, where it is of this form."""
        match = pattern.fullmatch(self.lines[self.next]) if self.next < len(self.lines) else None
        self.next += match is not None
        return match

    def each(self, *patterns):
        """The next lines, as long as each is of one of these forms."""
        while match := next(filter(None, map(self.take, patterns)), None):
            yield match

    def refuse(self):
        """Ends the reading at the next line."""
        if self.next == len(self.lines):
            raise Unreadable("the text ends where a log goes on")
        line = self.lines[self.next]
        raise Unreadable(f"line {self.next + 1} is no line of a plan or a log there: {line[:80]}")


def read(text):
    """The plan and the log of a text, and None in place of one that it lacks.

    # Errors: `Unreadable`, where the text is neither, or is what a command prints that refuses.
    """
    lines = Lines(text)
    if not lines.lines:
        raise Unreadable("there is nothing to draw: the text is empty")
    if lines.lines[0].startswith(REFUSALS):
        raise Unreadable(f"there is nothing to draw: the command printed `{lines.lines[0]}`")
    plan = read_plan(lines)
    log = None if plan and lines.next == len(lines.lines) else read_log(lines)
    if lines.next < len(lines.lines):
        lines.refuse()
    return plan, log


def read_plan(lines):
    head = lines.take(PLAN)
    if head is None:
        return None
    plan = Plan(head[1])
    plan.kept = [match[1] for match in lines.each(KEPT)]
    plan.conditions = [Condition(int(match[1]), match[2], match[3]) for match in lines.each(CONDITION)]
    while match := lines.take(BLOCK):
        plan.blocks.append(Block(match[1], notes_of(match[2], plan, lines)))
    return plan


def notes_of(text, plan, lines):
    """The notes of a block, each on a condition that the plan has."""
    if text == "none":
        return ()
    matches = [NOTE.fullmatch(part) for part in text.split(", ")]
    known = {condition.number for condition in plan.conditions}
    if not all(match and int(match[1]) in known for match in matches):
        lines.next -= 1
        lines.refuse()
    return tuple(Note(int(match[1]), match[2], bool(match[3])) for match in matches)


def read_log(lines):
    log = Log([entry_of(match) for match in lines.each(WAITS, REPLIES, SPURIOUS)])
    end = lines.take(re.compile("done|stalled")) or lines.refuse()
    log.end = end[0]
    log.blocked = [entry_of(match) for match in lines.each(BLOCKED)]
    state = lines.take(STATE) or lines.refuse()
    log.state = state[0]
    return log


def entry_of(match):
    parts = match.groupdict()
    outcome = {WAITS: "waits", SPURIOUS: "spurious", BLOCKED: "blocked"}.get(match.re) or parts["reply"]
    woken = tuple((parts.get("woken") or "").split())
    return Entry(parts["client"], outcome, parts.get("at", ""), parts.get("called", ""), woken)


def clients_of(log):
    """The names of a log's clients, in their natural order: a log doesn't tell the order of their file."""
    names = {name for entry in [*log.entries, *log.blocked] for name in (entry.client, *entry.woken)}
    return sorted(names, key=natural)


def natural(name):
    """A key by which `c2` stands before `c10`, and `c` before `Z`."""
    parts = re.split(r"(\d+)", name.lower())
    return [int(part) if part.isdigit() else part for part in parts], name
