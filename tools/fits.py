#!/usr/bin/env python3
"""`tools/fits.py MONITOR PLAN` prints the blocks that keep 64 bits, as the plan names them.

It shares no code with the product. MONITOR is in canonical form, as `expresso check` prints it, and PLAN is a plan of
it. A block keeps 64 bits where it leaves them from no fields, arguments and locals within 64 bits where its guard and
the kept lines are true: each number that it assigns on the way, and its answer, stays within them. A block is left out
too where this is not found: beyond the limits of formulas, or where only whole numbers, and no fractions, exclude it.
"""

import itertools
import pathlib
import re
import sys

sys.dont_write_bytecode = True
from formulas import (CONSTANT, Beyond, Formula, at_most, combined, joined,  # noqa: E402
                      negation, number, substituted)
from monitors import read, read_monitor  # noqa: E402

MOST_CUBES, MOST_ROWS, MOST_PATHS = 1024, 4096, 64
LEAST, BEYOND = -2 ** 63, 2 ** 63


# ---- the question
def outside(form):
    """The form is outside 64 bits."""
    times = [each for place, each in form.items() if place != CONSTANT]
    if abs(form.get(CONSTANT, 0)) > 2 ** 94 or min(times, default=0) < 2 - 2 ** 95:
        raise Beyond
    return joined("any", [at_most(number(BEYOND), form), at_most(form, number(LEAST), 1)])


def has_numbers(body):
    """Some int is assigned."""
    return any(has_numbers(one[1]) or has_numbers(one[2]) if len(one) == 3
               else not isinstance(one[1], Formula) for one in body)


def ways(body, end):
    """For each path of the body: it is taken to a number outside 64 bits, or to such an end."""
    if not body:
        yield end
    elif len(body[0]) == 2:
        place, value = body[0]
        for later in ways(body[1:], end):
            part = substituted(later, place, value)
            yield part if isinstance(value, Formula) else joined("any", [outside(value), part])
    else:
        when, then, other = body[0]
        for fact, side in (when, then), (negation(when), other):
            for part in ways(side + body[1:], end):
                yield joined("all", [fact, part])


def bounds(variables):
    """The ints among the variables are within 64 bits."""
    for form in variables:
        if not isinstance(form, Formula):
            yield at_most(form, number(BEYOND - 1))
            yield at_most(number(LEAST), form)


def question(facts, monitor, block, end):
    """True just where the block leaves 64 bits. There is none past the limits."""
    if not has_numbers(block.body) and end == joined("any", []):
        return end
    own = [variable for _, variable, _ in monitor.fields]
    hypotheses = [*facts, *bounds([*own, *block.own.values()]), block.guard]
    try:
        parts = list(itertools.islice(ways(block.body, end), MOST_PATHS + 1))
        if len(parts) <= MOST_PATHS:
            return joined("all", [*hypotheses, joined("any", parts)])
    except Beyond:
        pass
    return None


def scope_of(text, monitor):
    """The constants and the fields."""
    scope = {"true": joined("all", []), "false": joined("any", [])}
    for name, value in re.findall(r"^  const (\w+) = (.*);$", text, re.M):
        scope[name] = read(value, scope)
    return scope | {name: variable for name, variable, _ in monitor.fields}


def answers(text, monitor):
    """Of each block the end of its paths: its answer is a number outside 64 bits."""
    scope, blocks = scope_of(text, monitor), monitor.blocks
    bodies = re.findall(r"^( +)(?:method .*)?(?:waituntil|asserts) \(.*\) {\n((?:\1 .*\n)*)\1}$", text, re.M)
    for block, (_, body) in zip(blocks, bodies, strict=True):
        value = [read(shown, scope | block.own) for shown in re.findall(r"return (.*);", body)]
        yield outside(value[0]) if value and not isinstance(value[0], Formula) else joined("any", [])


# ---- whether it is true somewhere
def cubes(todo, rows, flags):
    """The rows of each choice of a part of each any, where no flag has both truths."""
    if not todo:
        yield rows
        return
    (kind, value, _), rest = todo[0], todo[1:]
    if kind == "row":
        yield from cubes(rest, [*rows, value], flags)
    elif kind == "flag":
        if flags.get(value[0], value[1]) == value[1]:
            yield from cubes(rest, rows, flags | {value[0]: value[1]})
    elif kind == "all":
        yield from cubes([*value, *rest], rows, flags)
    else:
        for part in value:
            yield from cubes([part, *rest], rows, flags)


def tightest(rows):
    """Of rows with the same variables the one with the greatest constant."""
    kept = {}
    for form in rows:
        terms = frozenset((place, times) for place, times in form.items() if place != CONSTANT)
        if terms not in kept or kept[terms].get(CONSTANT, 0) < form.get(CONSTANT, 0):
            kept[terms] = form
    return list(kept.values())


def has_none(rows):
    """No fractions make all rows true, found by eliminating one variable after the other."""
    rows = tightest(rows)
    while places := {place for form in rows for place in form if place != CONSTANT}:
        def split(place):
            return ([form for form in rows if form.get(place, 0) > 0],
                    [form for form in rows if form.get(place, 0) < 0])
        place = min(sorted(places), key=lambda one: len(split(one)[0]) * len(split(one)[1]))
        upper, lower = split(place)
        rows = tightest([form for form in rows if place not in form]
                        + [combined(-low[place], up, up[place], low) for up in upper for low in lower])
        if len(rows) > MOST_ROWS:
            return False
    return any(form.get(CONSTANT, 0) > 0 for form in rows)


def fits(asked):
    """The question of a block is true nowhere, as far as this is found."""
    tried = 0
    for rows in cubes([asked], [], {}) if asked else [[]]:
        tried += 1
        if tried > MOST_CUBES or not has_none(rows):
            return False
    return True


def whole_blocks(text, plan):
    """The names of the blocks that keep 64 bits."""
    monitor = read_monitor(text)
    scope = scope_of(text, monitor)
    kept = [read(fact, scope) for fact in re.findall(r"^keep (.*)$", plan, re.M)]
    return [block.name
            for block, end in zip(monitor.blocks, answers(text, monitor), strict=True)
            if fits(question(kept, monitor, block, end))]


def main(monitor, plan):
    sys.setrecursionlimit(10 ** 6)
    text, plan = (pathlib.Path(one).read_text("ascii") for one in (monitor, plan))
    for name in whole_blocks(text, plan):
        print(name)


if __name__ == "__main__":
    if len(sys.argv) != 3:
        sys.exit(__doc__)
    main(*sys.argv[1:])
