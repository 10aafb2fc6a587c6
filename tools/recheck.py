#!/usr/bin/env python3
"""`tools/recheck.py MONITOR REPORT` prints what `expresso recheck` prints, with the same status.

It shares no code with the product. MONITOR is in canonical form, as `expresso check` prints it.
"""

import itertools
import pathlib
import re
import sys

sys.dont_write_bytecode = True
from fits import answers, question  # noqa: E402
from formulas import (CONSTANT, FORM_BITS, Beyond, are_within, combined, forms_of,  # noqa: E402
                      joined, negated_query, negation, number, row)
from monitors import WAITING, candidates_of, holds_at_start, read_monitor  # noqa: E402

MOST_BYTES, CHAIN_BITS, FACTOR = 16777216, 128, (-2 ** 127, 2 ** 127)
IN_FORM, LEAST_NEGATED = (-2 ** (FORM_BITS - 1), 2 ** (FORM_BITS - 1)), 2 - 2 ** (FORM_BITS - 1)
KINDS, FIT = ("signal", "broadcast"), "proof fits "


# ---- plans: what is kept has a text and a fact; a block's notes lead from conditions to kind, test
def claims_of(monitor, kept, kinds, notes):
    """In their order: the text, and the hypotheses, body and post formula of the query."""
    facts, conditions = [fact for _, fact in kept], list(enumerate(monitor.conditions, 1))
    pairs = [(w, on, q, p) for w, on in zip(monitor.blocks, notes) for q, p in conditions]
    for (text, fact), w in itertools.product(kept, monitor.blocks):
        yield f"keep {text} {w.name}", facts + [w.guard], w.body, fact
    for w, on, q, p in pairs:
        if q not in on:
            yield f"none {w.name} {q}", facts + [w.guard, p.failing], w.body, p.failing
    for (q, p), w in itertools.product(conditions, monitor.blocks):
        if kinds[q - 1] == "signal" and w.condition == q:
            yield f"one {q} {w.name}", facts + [p.waiting], w.body, p.failing
    for w, on, q, p in pairs:
        if q in on and not on[q][1] and not p.reads_inputs:
            yield f"untested {w.name} {q}", facts + [w.guard, p.failing], w.body, p.waiting


# ---- questions on conditions that are counted
def without_row(formula, row):
    """The formula with its row of this number, from 1, taken for false, and the number less its
    rows. A part that is then true nowhere is an any without parts, and is left out of an any."""
    if formula.kind in ("row", "flag"):
        is_row, never = formula.kind == "row", joined("any", [])
        return never if is_row and row == 1 else formula, row - is_row
    parts, never = [], joined("any", [])
    for part in formula.value:
        part, row = without_row(part, row)
        parts.append(part)
    if formula.kind == "all":
        return never if never in parts else joined("all", parts), row
    return joined("any", [part for part in parts if part != never]), row


def measure_of(guard, row):
    """By which form the clients are counted that may pass, and where any number may."""
    return forms_of(guard)[row - 1], without_row(guard, row)[0]


def old_of(form):
    """What the form was worth before the block, or that with its sign turned, by its first term."""
    first = min(form.keys() - {CONSTANT}, default=CONSTANT)
    return {WAITING: -1 if first != CONSTANT and form[first] < 0 else 1}


def question_query(kept, kind, block, condition, takes, row_number):
    """The hypotheses, body and post formula."""
    facts = [fact for _, fact in kept] + [block.guard]
    form, free = measure_of(condition.waiting, row_number)
    old = old_of(form)
    below = combined(1, old, -1, form)
    if kind == "first":
        facts, owed = facts + [condition.failing], [row(combined(1, {}, -1, form))]
    else:
        facts += [condition.waiting, negation(free), row(combined(1, form, -1, old)), row(below)]
        owed = [row(form), row(combined(1, below, 1, number(takes - (kind == "gives"))))]
    still = joined("all", [negation(free)] + owed)
    return facts, block.body, joined("any", [condition.failing, still])


def row_named(monitor, q, lines):
    """By which row the next line counts the condition: the first, where it names none."""
    named = re.match(rf"proof \w+ {q} \(row ([0-9]+)\) ", lines[-1]) if lines else None
    condition, row_number = monitor.conditions[q - 1], int(named[1]) if named else 1
    expect(not condition.reads_inputs and 0 < row_number <= len(forms_of(condition.waiting)))
    return row_number


def questions_of(monitor, kept, notes, q, row_number):
    """On a counted condition, in their order: the text, and the arguments of the query."""
    mark = f"(row {row_number}) " if row_number > 1 else ""
    for w, on in zip(monitor.blocks, notes):
        way = on[q][0] if q in on else "none"
        for kind in {"none": ["counts"], "signal": ["gives", "first"], "broadcast": []}[way]:
            condition = monitor.conditions[q - 1]
            asked = kept, kind, w, condition, w.condition == q, row_number
            yield f"{kind} {q} {mark}{w.name}", asked


def negated_question(*asked):
    try:
        return negated_query(*question_query(*asked))
    except Beyond:
        return None


def is_lawful_at_sight(monitor, kept, kinds, notes):
    """What is kept is true at the start, and kinds and notes suit the conditions."""
    for q, (p, kind) in enumerate(zip(monitor.conditions, kinds), 1):
        placed = [on[q] for on in notes if q in on]
        if kind == "broadcast" and any(way == "signal" for way, _ in placed):
            return False
        if p.reads_inputs and (kind == "signal" or any(tested for _, tested in placed)):
            return False
    return all(holds_at_start(monitor, fact) for _, fact in kept)


# ---- certificates: each is taken off its words, the last of which comes first
def expect(held):
    if not held:
        raise ValueError("no report")


def whole(words, least=0, bound=2 ** 32):
    expect(re.fullmatch("0|-?[1-9][0-9]{0,38}", words[-1]) and least <= int(words[-1]) < bound)
    return int(words.pop())


def form_read(words):
    """A form: how many terms, of each its place and number, with rising places, the constant."""
    terms = [(whole(words), whole(words, *IN_FORM)) for _ in range(whole(words))]
    places = [place for place, _ in terms]
    expect(places == sorted(set(places)) and all(times for _, times in terms))
    return dict(terms) | number(whole(words, *IN_FORM))


def side_refutes(words, side, todo, literals):
    """Whether the certificate of a side of cases refutes what is to do."""
    expect(words.pop() == side)
    return refutes(words, todo, literals)


def refutes(words, todo, literals):
    """Whether the certificate refutes what is to do, the last first, with the gathered literals."""
    todo, literals, kind = [*todo], [*literals], words.pop()
    while todo and todo[-1].kind != "any":
        first = todo.pop()
        if first.kind == "all":
            todo += reversed(first.value)
        else:
            literals.append(first)
    if kind == "clash":
        left, right = whole(words), whole(words)
        both = literals[left:left + 1] + literals[right:right + 1]
        return len(both) == 2 and both[0].kind == "flag" and both[0] == negation(both[1])
    if kind == "chain":
        return closes([(whole(words), whole(words, *FACTOR), whole(words), whole(words, *FACTOR))
                       for _ in range(whole(words))], literals)
    if kind == "cases":
        form = form_read(words)
        can = min(form.values(), default=0) >= LEAST_NEGATED
        above = row(combined(1, number(1), -1, form)) if can else joined("any", [])
        return all([side_refutes(words, "below", todo + [row(form)], literals),
                    side_refutes(words, "above", todo + [above], literals), can])
    expect(kind == "split")
    count = whole(words)
    if not todo or len(todo[-1].value) != count:
        return any([refutes(words, [], []) for _ in range(count)])  # each is read, and is false
    return all([refutes(words, todo[:-1] + [part], literals) for part in todo[-1].value])


def closes(chain, literals):
    """Each row can be made, and the last has no variable and a constant above 0."""
    rows, made = [each.value if each.kind == "row" else None for each in literals], {}
    for left, left_times, right, right_times in chain:
        if max(left, right) >= len(rows) or None in (rows[left], rows[right]):
            return False
        made = combined(left_times, rows[left], right_times, rows[right])
        numbers = [left_times * each for each in rows[left].values()]
        numbers += [right_times * each for each in rows[right].values()] + [*made.values()]
        if min(left_times, right_times) < 0 or not are_within(CHAIN_BITS, numbers):
            return False
        rows.append(made)
    return made.keys() == {CONSTANT} and made[CONSTANT] > 0


# ---- reports: each line is taken off the lines, the last of which comes first
def read_plan(monitor, lines):
    expect(lines.pop() == f"plan {monitor.name}")
    kept = [one for one in candidates_of(monitor) if lines[-1] == f"keep {one[0]}" and lines.pop()]
    kinds = [{f"condition {q} {kind}: {p.shown}": kind for kind in KINDS}[lines.pop()]
             for q, p in enumerate(monitor.conditions, 1)]
    known = {f"{q} {kind}{test}": (q, (kind, test)) for q in range(1, len(kinds) + 1)
             for kind in KINDS for test in ("", " tested")}
    notes = []
    for block in monitor.blocks:
        head, texts = lines.pop().split(": ")
        placed = [known[text] for text in texts.split(", ") if texts != "none"]
        numbers = [q for q, _ in placed]
        expect(head == f"block {block.name}" and numbers == sorted(set(numbers)))
        notes.append(dict(placed))
    return kept, kinds, notes


def is_proved(line, text, formula):
    """Whether the line has a certificate that refutes the formula, which is none past the limits."""
    head, _, cert = line.partition(": ")
    expect(head == f"proof {text}")
    words = cert.split(" ")[::-1]
    proved = refutes(words, [formula] if formula else [], [])
    expect(not words)
    return proved


def verdict(monitor, text):
    """The line of a report, how many lines it has, and what its plan keeps."""
    expect(text.endswith("\n"))
    lines = text.split("\n")[-2::-1]
    kept, kinds, notes = plan = read_plan(monitor, lines)
    counted = [q for q, kind in enumerate(kinds, 1) if kind == "signal"
               and not any(line.startswith(f"proof one {q} ") for line in lines)]
    plan_lines, proved = text.count("\n") - len(lines), []
    for claim, *query in claims_of(monitor, *plan):
        if not any(claim.startswith(f"one {q} ") for q in counted):
            proved.append(is_proved(lines.pop(), claim, negated_query(*query)))
    for q in counted:
        row_number = row_named(monitor, q, lines)
        for question, asked in questions_of(monitor, kept, notes, q, row_number):
            proved.append(is_proved(lines.pop(), question, negated_question(*asked)))
    expect(not lines)
    if not is_lawful_at_sight(monitor, *plan):
        line = "rejected: plan"
    elif False in proved:
        line = f"rejected: line {plan_lines + proved.index(False) + 1}"
    else:
        line = f"accepted {len(proved)} claims"
    return line, plan_lines + len(proved), [fact for _, fact in kept]


# ---- lines of blocks that keep 64 bits, after a report
def parted(text):
    """The text up to the first such line, and from there on."""
    found = re.search(f"^{FIT}", text, re.M)
    at = found.start() if found else len(text)
    return text[:at], text[at:]


def fitting(monitor, shown, kept, text):
    """The blocks in order that have a line, and whether each certificate is accepted."""
    expect(not text or text.endswith("\n"))
    lines = text.split("\n")[-2::-1]
    for block, end in zip(monitor.blocks, answers(shown, monitor), strict=True):
        if lines and lines[-1].startswith(f"{FIT}{block.name}: "):
            asked = question(kept, monitor, block, end)
            yield block.name, is_proved(lines.pop(), f"fits {block.name}", asked)
    expect(not lines)


def judged(monitor, shown, text):
    """What is said of the report, and of the lines after it."""
    report, rest = parted(text)
    line, count, kept = verdict(monitor, report)
    if not line.startswith("accepted "):
        return line
    found = list(fitting(monitor, shown, kept, rest))
    names, proved = [name for name, _ in found], [is_so for _, is_so in found]
    if False in proved:
        return f"rejected: line {count + proved.index(False) + 1}"
    return f"{line}\nfits {', '.join(names)}" if names else line


def main(monitor, report):
    sys.setrecursionlimit(10 ** 6)
    try:
        shown, text = (pathlib.Path(one).read_bytes().decode("latin-1") for one in (monitor, report))
    except OSError as fault:
        print(f"read fault: {fault.filename}")
        return 3
    monitor = read_monitor(shown)
    try:
        line = judged(monitor, shown, text)
    except (LookupError, ValueError):
        line = f"refused: {report}: not a report"
    if len(text) > MOST_BYTES:
        line = f"refused: {report}: more than {MOST_BYTES} bytes"
    print(line)
    return 0 if line.startswith("accepted ") else 1


if __name__ == "__main__":
    if len(sys.argv) != 3:
        print(__doc__, end="", file=sys.stderr)
        sys.exit(2)
    sys.exit(main(*sys.argv[1:]))
