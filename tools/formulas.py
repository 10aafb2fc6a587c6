"""Forms, formulas and negated queries, by their definitions and with no code of the product."""

import itertools
from collections import namedtuple

MOST_PATHS, MOST_NODES, FORM_BITS = 64, 65536, 96
CONSTANT = -1

# of a row its form, of a flag its place and its truth, of an all or an any its parts
Formula = namedtuple("Formula", "kind value nodes")


class Beyond(Exception):
    """A number has more than 96 bits, or a formula too many nodes."""


# ---- forms: from places to how often they count, not 0 times, and from CONSTANT to the constant
def number(value):
    return {CONSTANT: value} if value else {}


def combined(left_times, left, right_times, right):
    sums = {place: left_times * left.get(place, 0) + right_times * right.get(place, 0)
            for place in left | right}
    return {place: times for place, times in sums.items() if times}


def is_constant(form):
    return form.keys() <= {CONSTANT}


def are_within(bits, numbers):
    return all(-2 ** (bits - 1) <= each < 2 ** (bits - 1) for each in numbers)


# ---- formulas
def row(form):
    """The form is at most 0."""
    if not are_within(FORM_BITS, form.values()):
        raise Beyond
    return Formula("row", form, 1)


def at_most(left, right, more=0):
    """left + more <= right"""
    return row(combined(1, combined(1, left, -1, right), 1, number(more)))


def flag(place, truth):
    return Formula("flag", (place, truth), 1)


def joined(kind, parts):
    nodes = 1 + sum(part.nodes for part in parts)
    if nodes > MOST_NODES:
        raise Beyond
    return Formula(kind, parts, nodes)


def mapped(formula, of_row, of_flag, every="all", some="any"):
    """The formula with each row, flag, all and any made another."""
    if formula.kind == "row":
        return of_row(formula.value)
    if formula.kind == "flag":
        return of_flag(*formula.value)
    parts = [mapped(part, of_row, of_flag, every, some) for part in formula.value]
    return joined(every if formula.kind == "all" else some, parts)


def negation(formula):
    """Where no form <= 0, there 1 <= form."""
    return mapped(formula, lambda form: at_most(number(1), form),
                  lambda place, truth: flag(place, not truth), every="any", some="all")


def substituted(formula, field, value):
    """What is true before `field = value` where the formula is true after it."""
    if isinstance(value, Formula):
        put = {field: value, negation(field): negation(value)}
        return mapped(formula, row, lambda *leaf: put.get(flag(*leaf), flag(*leaf)))
    place, = field

    def of_row(form):
        return row(combined(1, form | {place: 0}, form.get(place, 0), value))
    return mapped(formula, of_row, flag)


def forms_of(formula):
    """The forms of its rows, from left to right."""
    if formula.kind in ("all", "any"):
        return [form for part in formula.value for form in forms_of(part)]
    return [formula.value] if formula.kind == "row" else []


# ---- negated queries
def path_parts(body, post):
    """For each path of the body: it is taken, and the post formula is false after it."""
    if not body:
        yield negation(post)
    elif len(body[0]) == 2:
        for part in path_parts(body[1:], post):
            yield substituted(part, *body[0])
    else:
        when, then, other = body[0]
        for fact, side in (when, then), (negation(when), other):
            for part in path_parts(side + body[1:], post):
                yield joined("all", [fact, part])


def negated_query(hyps, body, post):
    """Each hypothesis is true, and post is false after some path. There is none past the limits."""
    try:
        parts = list(itertools.islice(path_parts(body, post), MOST_PATHS + 1))
        return joined("all", hyps + [joined("any", parts)]) if len(parts) <= MOST_PATHS else None
    except Beyond:
        return None
