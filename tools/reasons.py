#!/usr/bin/env python3
"""`tools/reasons.py MONITOR EXPLAINED [PLACED]` checks each state that `expresso explain` shows.

With PLACED, in which the placed plan stands first, EXPLAINED is of the counted one, as `explain
--count` prints it. At its end may stand lines of blocks that may leave 64 bits, as with `--fits`.
It shares no code with the product. MONITOR is in canonical form, as `expresso check` prints it. It
prints how many states it checked and how many reasons are not decided.
"""

import pathlib
import re
import sys

sys.dont_write_bytecode = True
from fits import BEYOND as BEYOND_64, LEAST, answers  # noqa: E402
from formulas import CONSTANT, Formula, forms_of, joined, negation  # noqa: E402
from monitors import read_monitor  # noqa: E402
from recheck import expect, read_plan  # noqa: E402

VALUE = r"(?:-?[1-9][0-9]*|0|true|false)"
ROWS_TRIED = 8
BEYOND = " numbers beyond 128 bits"
GIVEN = rf"(?:\((\w+={VALUE}(?: \w+={VALUE})*)\))?"


# ---- triples that would spare something: the block, the condition, the hypotheses, and whether it
# fails from a state where these are true to the one after the block
def triple(w, p, hyps, post):
    return w, p, hyps, lambda state, ended: not is_true(post, ended)


def without_row(formula, row):
    """The formula with its row of this number, from 1, taken for false, or none where it is then
    true nowhere; and the number less its rows."""
    if formula.kind == "row":
        return None if row == 1 else formula, row - 1
    if formula.kind == "flag":
        return formula, row
    parts = []
    for part in formula.value:
        part, row = without_row(part, row)
        parts.append(part)
    if formula.kind == "all":
        return None if None in parts else joined("all", parts), row
    parts = [part for part in parts if part]
    return joined("any", parts) if parts else None, row


def measure_of(guard, row):
    """That row of it, and what is true where any number may pass."""
    return forms_of(guard)[row - 1], without_row(guard, row)[0] or joined("any", [])


def leaves(w, q, p, facts, gives, row):
    """By the row the block leaves the condition counted, with so many signals on it."""
    form, free = measure_of(p.guard, row)
    net = (w.condition == q) - gives

    def fails(state, ended):
        now = value_of(form, ended)
        return is_true(p.waiting, ended) and (
            is_true(free, ended) or now > 0 or value_of(form, state) - now + net > 0)
    return w, p, facts + [w.guard, p.waiting, negation(free)], fails


def lets_in_one(w, p, facts, row):
    """Where nobody could pass before the block, one client at most may after it."""
    form, free = measure_of(p.guard, row)

    def fails(_, ended):
        return is_true(p.waiting, ended) and (is_true(free, ended) or value_of(form, ended) < 0)
    return w, p, facts + [w.guard, p.failing], fails


# ---- what costs something, in order: the words of its line, the condition where it is counted, and
# by each row for each block that it may be about the triples that would spare it
def things_of(monitor, kept, kinds, notes, placed=None):
    facts, conditions = [fact for _, fact in kept], list(enumerate(monitor.conditions, 1))
    noted = [(w, q, monitor.conditions[q - 1], *on[q])
             for w, on in zip(monitor.blocks, notes) for q in on]
    counted = {q for q, pair in enumerate(zip(placed or [], kinds), 1)
               if pair == ("broadcast", "signal")}

    def rows(p):
        return range(1, min(len(forms_of(p.guard)), ROWS_TRIED) + 1)

    for w, q, p, _, _ in noted:
        none = triple(w, p, facts + [w.guard, p.failing], p.failing)
        yield f"{w.name}{{own}} {q}{{others}}", *(
            (q, {row: [none, leaves(w, q, p, facts, 0, row)] for row in rows(p)})
            if q in counted else (None, {1: [none]}))
    for (q, p), kind in zip(conditions, kinds):
        if kind == "broadcast" and not p.reads_inputs:
            yield f"{q} broadcast {{block}}{{own}}", None, {1: [
                leaves(w, q, p, facts, 0, 1) if placed is not None and rows(p)
                else triple(w, p, facts + [p.waiting], p.failing)
                for w in monitor.blocks if w.condition == q]}
    for w, q, p, _, tested in noted:
        if tested:
            yield f"{w.name}{{own}} {q}{{others}} tested", None, {1: [
                triple(w, p, facts + [w.guard, p.failing], p.waiting)]}
    for w, q, p, kind, _ in noted:
        if q in counted and kind == "broadcast":
            yield f"{w.name}{{own}} {q} broadcast", q, {row: [
                leaves(w, q, p, facts, 1, row), lets_in_one(w, p, facts, row)]
                for row in rows(p)}


# ---- states: from places to numbers and truths
def is_true(formula, state):
    if formula.kind == "row":
        return value_of(formula.value, state) <= 0
    if formula.kind == "flag":
        place, truth = formula.value
        return state[place] is truth
    return (all if formula.kind == "all" else any)(is_true(part, state) for part in formula.value)


def value_of(form, state):
    return sum(times * (1 if at == CONSTANT else state[at]) for at, times in form.items())


def place_of(variable):
    return variable.value[0] if isinstance(variable, Formula) else next(iter(variable))


def after(body, state):
    for statement in body:
        if len(statement) == 3:
            when, then, other = statement
            state = after(then if is_true(when, state) else other, state)
        else:
            to, value = statement
            held = is_true if isinstance(value, Formula) else value_of
            state = state | {place_of(to): held(value, state)}
    return state


def read_values(text, variables):
    """The values of these variables, by their places; each is named once, in order."""
    pairs = [pair.split("=") for pair in text.removeprefix(" ").split(" ")] if text else []
    expect([name for name, _ in pairs] == [name for name, _ in variables])
    values = {}
    for (_, value), (_, variable) in zip(pairs, variables):
        is_flag = isinstance(variable, Formula)
        expect((value in ("true", "false")) == is_flag)
        values[place_of(variable)] = value == "true" if is_flag else int(value)
    return values


# ---- lines
def check(monitor, line, words, choices):
    """By which of the rows a triple fails at the state that the line shows, where it shows one."""
    given = {"own": GIVEN, "others": GIVEN, "block": r"([\w.]+)"}
    head = re.escape(words).replace(r"\{", "{").replace(r"\}", "}").format(**given)
    if re.fullmatch("why " + re.sub(r"\{\w+\}", "", words).strip() + ": not decided", line):
        return None
    shown = re.fullmatch(f"why {head}:(| .*) to(| .*)", line)
    expect(shown)
    *heads, first, last = shown.groups()
    if " broadcast " in words:
        choices = {row: [case for case in cases if case[0].name == heads[0]]
                   for row, cases in choices.items()}
        heads = heads[1:]
    (block, condition, *_), (own, others) = choices[1][0], (heads + [None])[:2]
    fields = [(name, variable) for name, variable, _ in monitor.fields]
    state = read_values(first, fields)
    state |= read_values(own, list(block.own.items()))
    state |= read_values(others, list(condition.others.items()) if condition.reads_inputs else [])
    ended = after(block.body, state)
    found = {row for row, cases in choices.items()
             if any(all(is_true(fact, state) for fact in hyps) and fails(state, ended)
                    for _, _, hyps, fails in cases)}
    expect(found)
    if last != BEYOND:
        values = read_values(last, fields)
        expect(values == {place: ended[place] for place in values})
    return found


def checked(monitor, lines, things):
    """Of each thing whether its line shows a state. Of each condition that is counted one row will
    do for all of its lines."""
    counting = {}
    for words, condition, choices in things:
        found = check(monitor, lines.pop(), words, choices)
        if found and condition:
            counting[condition] = counting.get(condition, found) & found
            expect(counting[condition])
        yield found is not None


# ---- blocks that may leave 64 bits
def are_short(numbers):
    return all(LEAST <= number < BEYOND_64 for number in numbers if not isinstance(number, bool))


def leaves_64(body, state):
    """Some number that is assigned on the way is outside 64 bits."""
    for at, statement in enumerate(body):
        if len(statement) == 3:
            when, then, other = statement
            side = then if is_true(when, state) else other
            return leaves_64(side + body[at + 1:], state)
        state = after([statement], state)
        if not are_short([state[place_of(statement[0])]]):
            return True
    return False


def check_fit(monitor, facts, block, end, line):
    """Whether the line shows a state; that from this state within 64 bits the block leaves them."""
    if line == f"why fits {block.name}: not decided":
        return False
    shown = re.fullmatch(f"why fits {re.escape(block.name)}{GIVEN}:(| .*)", line)
    expect(shown)
    own, first = shown.groups()
    state = read_values(first, [(name, variable) for name, variable, _ in monitor.fields])
    state |= read_values(own, list(block.own.items()))
    expect(are_short(state.values()) and all(is_true(fact, state) for fact in facts + [block.guard]))
    expect(leaves_64(block.body, state) or is_true(end, after(block.body, state)))
    return True


def check_fits(monitor, text, kept, lines):
    """Lines of blocks in their order, each at most once."""
    facts = [fact for _, fact in kept]
    for block, end in zip(monitor.blocks, answers(text, monitor), strict=True):
        if lines and re.match(rf"why fits {re.escape(block.name)}[(:]", lines[-1]):
            yield check_fit(monitor, facts, block, end, lines.pop())


def main(monitor, explained, placed=None):
    sys.setrecursionlimit(10 ** 6)
    canonical = pathlib.Path(monitor).read_text("ascii")
    monitor = read_monitor(canonical)
    text = pathlib.Path(explained).read_text("ascii")
    try:
        expect(text.endswith("\n"))
        lines = text.split("\n")[-2::-1]
        plan = read_plan(monitor, lines)
        if placed:
            first = pathlib.Path(placed).read_text("ascii").split("\n")[-2::-1]
            plan = *plan, read_plan(monitor, first)[1]
        shown = [*checked(monitor, lines, things_of(monitor, *plan))]
        shown += check_fits(monitor, canonical, plan[0], lines)
        expect(not lines)
    except (LookupError, ValueError) as fault:
        print(f"refused: {explained}: {fault}")
        return 1
    print(f"{shown.count(True)} shown, {shown.count(False)} not decided")
    return 0


if __name__ == "__main__":
    sys.exit(main(*sys.argv[1:]))
