"""Reads monitors in canonical form, by their definitions and with no code of the product."""

import itertools
import re
import sys
from collections import namedtuple

from formulas import (CONSTANT, Formula, at_most, combined, flag, forms_of, is_constant, joined,
                      negation, number, substituted)

MOST_BOUNDS = 12
LEAST, GREATEST = -2 ** 63, 2 ** 63 - 1
MOST_INPUTS = 6  # the locals stand after them
OWN, WAITING = 16, 32  # first places: of a block's inputs, and of those of a client that waits

# a field is its name, variable and start; `limits` has the least and the greatest number of each
# parameter, by its name, one of them None where only the other is said, and `copies` the variable of
# the parameter that a field starts as; a statement is (variable, value) or (if, then, else);
# `waiting` is the guard at the inputs and locals of a client that waits, and `failing` its negation;
# `own` and `others` are the inputs and locals of a block and of such a client, with their variables;
# the condition of a block that asserts is 0, and there is none of this number
Monitor = namedtuple("Monitor", "name fields blocks conditions limits copies")
Block = namedtuple("Block", "name guard body condition own")
Condition = namedtuple("Condition", "guard waiting failing reads_inputs shown others")


# ---- expressions: the signs of each level, and what a sign makes of two forms
LEVELS = ["||"], ["&&"], ["==", "!=", "<", "<=", ">", ">="], ["+", "-"], ["*"], []
MADE = {
    "==": lambda left, right: joined("all", [at_most(left, right), at_most(right, left)]),
    "!=": lambda left, right: joined("any", [at_most(right, left, 1), at_most(left, right, 1)]),
    "<=": at_most,
    "<": lambda left, right: at_most(left, right, 1),
    ">=": lambda left, right: at_most(right, left),
    ">": lambda left, right: at_most(right, left, 1),
    "+": lambda left, right: combined(1, left, 1, right),
    "-": lambda left, right: combined(1, left, -1, right),
    "*": lambda left, right: scaled(left, right) if is_constant(left) else scaled(right, left),
}


def scaled(constant, form):
    return combined(constant.get(CONSTANT, 0), form, 0, {})


def read(text, scope):
    """The form or the formula of the expression that the text begins with."""
    return expression(re.findall(r"\w+|[=!<>]=|&&|\|\||\S", text + ";")[::-1], scope)


def expression(words, scope, level=0):
    """The words stand last first, and more than those of the expression."""
    if level == len(LEVELS) - 1:
        return unary(words.pop(), words, scope)
    value, more = expression(words, scope, level + 1), []
    while words[-1] in LEVELS[level]:
        more.append((words.pop(), expression(words, scope, level + 1)))
    if more and level < 2:
        return joined(("any", "all")[level], [value] + [part for _, part in more])
    for sign, part in more:
        value = MADE[sign](value, part)
    return value


def unary(word, words, scope):
    if word == "(":
        inner = expression(words, scope)
        words.pop()
        return inner
    if word == "-":
        return combined(-1, unary(words.pop(), words, scope), 0, {})
    if word == "!":
        return negation(unary(words.pop(), words, scope))
    return number(int(word)) if word.isdigit() else scope[word]


# ---- monitors: each line is one item
def variable(kind, place):
    return {place: 1} if kind == "int" else flag(place, True)


def read_monitor(text):
    """The monitor. The program ends with status 2 where the text is not in canonical form."""
    try:
        return monitor_of(text)
    except (AttributeError, LookupError, TypeError, ValueError):
        print("the monitor is not in canonical form, as `expresso check` prints it", file=sys.stderr)
        raise SystemExit(2) from None


def monitor_of(text):
    lines = [line.strip(" ;") for line in text.splitlines()][::-1]
    monitor = Monitor(lines.pop().split()[1], [], [], [], {}, {})
    scope = {"true": joined("all", []), "false": joined("any", [])}
    while lines:
        line = lines.pop()
        if line.startswith("method "):
            read_method(monitor, line, lines, scope)
        elif line != "}":
            declare(monitor, line, scope)
    return monitor


def declare(monitor, line, scope):
    kind, name, _, start = line.split(" ", 3)
    scope[name] = value = read(start, scope)
    for parameter, field, default in monitor.fields:
        if parameter in monitor.limits and value == field:
            monitor.copies[name], value = field, default
    if kind == "param":
        sign, bound = re.fullmatch(r"-?\d+ where \(\w+ (\S+) (-?\d+)\)", start).groups()
        monitor.limits[name] = limit(sign, int(bound))
        kind = "int"
    if kind != "const":
        scope[name] = variable(kind, len(monitor.fields))
        monitor.fields.append((name, scope[name], value))


def limit(sign, bound):
    """The least and the greatest number that compare so with the bound."""
    least = bound + (sign == ">") if sign in ("==", ">", ">=") else None
    greatest = bound - (sign == "<") if sign in ("==", "<", "<=") else None
    return least, greatest


def read_method(monitor, line, lines, scope):
    """A method of one block without locals goes on in its line, and any other in the next ones."""
    name, inputs, block = re.match(r"method (\w+)\((.*?)\)(?: ((?:waituntil|asserts) .*))?$", line).groups()
    if block:
        lines.append(block)
    inputs, own_locals, blocks = re.findall(r"(\w+) (\w+)", inputs), [], []
    while lines[-1].startswith("local "):
        own_locals.append(lines.pop().split(" ")[1:3])
    own, others = (variables(inputs, first) | variables(own_locals, first + MOST_INPUTS)
                   for first in (OWN, WAITING))
    inside, outside = scope | own, scope | others
    asserts = lines[-1].startswith("asserts ")
    while lines[-1].startswith(("waituntil ", "asserts ")):
        shown = re.match(r"\w+ \((.*)\) {", lines.pop())[1]
        blocks.append((shown, read(shown, inside), read(shown, outside),
                       read_body(lines, inside)[0]))
    for number, (shown, guard, waiting, body) in enumerate(blocks, 1):
        condition = 0 if asserts else condition_of(monitor, shown, guard, waiting, others)
        numbered = f"{name}.{number}" if len(blocks) > 1 else name
        monitor.blocks.append(Block(numbered, guard, body, condition, own))


def variables(declared, first):
    return {name: variable(kind, first + k) for k, (kind, name) in enumerate(declared)}


def condition_of(monitor, shown, guard, waiting, others):
    """The number of the condition of the blocks with this guard."""
    guards = [condition.guard for condition in monitor.conditions]
    if guard not in guards:
        guards.append(guard)
        monitor.conditions.append(
            Condition(guard, waiting, negation(waiting), waiting != guard, shown, others))
    return guards.index(guard) + 1


def holds_at_start(monitor, fact):
    """Whether the row or flag is true with each field's start in its place, whatever each parameter is."""
    for name, field, start in monitor.fields:
        if name not in monitor.limits:
            fact = substituted(fact, field, monitor.copies.get(name, start))
    return greatest_value(monitor, fact.value) <= 0 if fact.kind == "row" else fact.kind == "all"


def greatest_value(monitor, form):
    """That of a form of parameters."""
    found = form.get(CONSTANT, 0)
    for name, field, _ in monitor.fields:
        if name in monitor.limits:
            (place, _), (least, greatest) = *field.items(), monitor.limits[name]
            times = form.get(place, 0)
            found += times * ((LEAST if least is None else max(LEAST, least)) if times < 0
                              else (GREATEST if greatest is None else min(GREATEST, greatest)))
    return found


def read_body(lines, scope):
    """The statements up to the line that closes them, and that line."""
    body = []
    while True:
        line = lines.pop()
        if line.startswith("}"):
            return body, line
        if line.startswith("if ("):
            then, end = read_body(lines, scope)
            other = read_body(lines, scope)[0] if end == "} else {" else []
            body.append((read(line[3:], scope), then, other))
        elif not line.startswith("return "):
            name, value = line.split(" = ", 1)
            body.append((scope[name], read(value, scope)))


# ---- candidates
def candidates_of(monitor):
    """In their order, each with its text."""
    found = []
    forms = [form for block in monitor.blocks for form in forms_of(block.guard)]
    for name, field, start in monitor.fields:
        if isinstance(field, Formula):
            found += [(name, field), ("!" + name, negation(field))]
        else:
            for bound in pool(forms, field, own_numbers(monitor, name, start)):
                found.append((f"{name} <= {bound}", at_most(field, number(bound))))
                found.append((f"{name} >= {bound}", at_most(number(bound), field)))
    ints = [(name, field) for name, field, _ in monitor.fields if not isinstance(field, Formula)]
    pairs = itertools.permutations(ints, 2)
    return found + [(f"{left} <= {right}", at_most(x, y)) for (left, x), (right, y) in pairs]


def own_numbers(monitor, name, start):
    """The start of a field, the bound of a parameter, and nothing where the field copies one."""
    if name in monitor.limits:
        least, greatest = monitor.limits[name]
        return [greatest if least is None else least]
    return [] if name in monitor.copies else [start.get(CONSTANT, 0)]


def pool(forms, field, own):
    """0, the own numbers, and those around each d of a row that says field <= d or field >= d."""
    bounds = [0, *own]
    for form, sign in itertools.product(forms, (1, -1)):
        rest = combined(sign, form, -1, field)  # of such a row it is -d
        if is_constant(rest):
            bounds += [beside - rest.get(CONSTANT, 0) for beside in (-1, 0, 1)]
    return list(dict.fromkeys(bounds))[:MOST_BOUNDS]
