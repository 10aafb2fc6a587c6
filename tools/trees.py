"""Reads monitors in canonical form to trees, with no code of the product."""

import re
import sys
from collections import namedtuple

# of a declaration `kind` is const, int or bool; a parameter is an int with a limit, a sign and a
# number, and `start` may be the name of another. Of a method `inputs` and `own_locals` are such, and
# `asserts` says whether its only guard is asserted
Monitor = namedtuple("Monitor", "name declared methods")
Declared = namedtuple("Declared", "kind name start limit", defaults=[None])
Method = namedtuple("Method", "name inputs own_locals asserts blocks")
Block = namedtuple("Block", "shown guard body")

# `sign` is number, truth, name, minus, not, *, +, a comparison, && or ||. `parts` is the text of the
# first three, of a sum pairs of a sign and a part, and of the others a list of parts.
Expression = namedtuple("Expression", "sign parts")

# statements
Set = namedtuple("Set", "name value")
If = namedtuple("If", "when body other")
Return = namedtuple("Return", "value")

LEVELS = ["||"], ["&&"], ["==", "!=", "<", "<=", ">", ">="], ["+", "-"], ["*"], []
SUMS = 3


# ---- expressions
def read(text):
    """The expression that the text begins with."""
    return expression(re.findall(r"\w+|[=!<>]=|&&|\|\||\S", text + ";")[::-1])


def expression(words, level=0):
    """The words stand last first, and more than those of the expression."""
    if level == len(LEVELS) - 1:
        return unary(words.pop(), words)
    parts, signs = [expression(words, level + 1)], ["+"]
    while words[-1] in LEVELS[level]:
        signs.append(words.pop())
        parts.append(expression(words, level + 1))
    if len(parts) == 1:
        return parts[0]
    if level == SUMS:
        return Expression("+", list(zip(signs, parts)))
    return Expression(signs[1], parts)


def unary(word, words):
    if word == "(":
        inner = expression(words)
        words.pop()
        return inner
    if word in "-!":
        return Expression("minus" if word == "-" else "not", [unary(words.pop(), words)])
    if word.isdigit():
        return Expression("number", word)
    return Expression("truth" if word in ("true", "false") else "name", word)


# ---- monitors: each line is one item
def read_tree(text):
    """The tree. The program ends with status 2 where the text is not in canonical form."""
    try:
        return tree_of(text)
    except (AttributeError, IndexError, TypeError, ValueError):
        print("the monitor is not in canonical form", file=sys.stderr)
        raise SystemExit(2) from None


def tree_of(text):
    lines = [line.strip(" ;") for line in text.splitlines()][::-1]
    monitor = Monitor(lines.pop().split()[1], [], [])
    while lines:
        line = lines.pop()
        if line.startswith("method "):
            monitor.methods.append(read_method(line, lines))
        elif line != "}":
            monitor.declared.append(declared(line))
    return monitor


def declared(line):
    kind, name, _, start = line.split(" ", 3)
    if kind == "param":
        start, *limit = re.fullmatch(r"(-?\d+) where \(\w+ (\S+) (-?\d+)\)", start).groups()
        return Declared("int", name, start, tuple(limit))
    return Declared(kind, name, start)


def read_method(line, lines):
    """A method of one block without locals goes on in its line, and any other in the next ones."""
    name, inputs, block = re.match(r"method (\w+)\((.*?)\)(?: ((?:waituntil|asserts) .*))?$", line).groups()
    if block:
        lines.append(block)
    inputs = [Declared(kind, one, None) for kind, one in re.findall(r"(\w+) (\w+)", inputs)]
    own_locals, blocks = [], []
    while lines[-1].startswith("local "):
        own_locals.append(declared(lines.pop().removeprefix("local ")))
    asserts = lines[-1].startswith("asserts ")
    while lines[-1].startswith(("waituntil ", "asserts ")):
        shown = re.match(r"\w+ \((.*)\) {", lines.pop())[1]
        blocks.append(Block(shown, read(shown), read_body(lines)[0]))
    if not block and lines[-1] == "}":
        lines.pop()
    return Method(name, inputs, own_locals, asserts, blocks)


def read_body(lines):
    """The statements up to the line that closes them, and that line."""
    body = []
    while True:
        line = lines.pop()
        if line.startswith("}"):
            return body, line
        if line.startswith("if ("):
            then, end = read_body(lines)
            other = read_body(lines)[0] if end == "} else {" else []
            body.append(If(read(line[3:]), then, other))
        elif line.startswith("return "):
            body.append(Return(read(line.removeprefix("return "))))
        else:
            name, value = line.split(" = ", 1)
            body.append(Set(name, read(value)))
