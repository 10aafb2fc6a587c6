#!/usr/bin/env python3
"""Counts the plans that are exact, as another prover decides it: Z3, which decides linear whole-number arithmetic.

  exact.py FILE..            for each monitor file: exact, or what its plan has beyond the exact one
  exact.py --generated N     the same for N monitors that are made up, whose guards add and multiply fields

A plan falls short of exact where a query was too hard for Expresso's prover; it is lawful all the same. A plan that lacks a
note, or keeps a line that is no part of the greatest invariant, would be wrong: that ends the script with status 1.
It needs Debian's python3-z3, and the program: EXPRESSO=PROGRAM, or crates/expresso_cli/out/expresso_cli.
"""

import os
import pathlib
import random
import re
import subprocess
import sys
import tempfile

import z3

ROOT = pathlib.Path(__file__).resolve().parent.parent
EXPRESSO = os.environ.get("EXPRESSO", str(ROOT / "crates/expresso_cli/out/expresso_cli"))
TOKEN = re.compile(r"\s+|//[^\n]*|(\w+|==|!=|<=|>=|&&|\|\||.)", re.S)
MOST_BOUNDS = 12


class Reader:
    """Reads an accepted monitor file."""

    def __init__(self, text):
        self.words = [found.group(1) for found in TOKEN.finditer(text) if found.group(1)]
        self.at = 0

    def next(self):
        self.at += 1
        return self.words[self.at - 1]

    def accept(self, *words):
        if self.at < len(self.words) and self.words[self.at] in words:
            return self.next()
        return None

    def number(self):
        sign = -1 if self.accept("-") else 1
        return sign * int(self.next())

    def monitor(self):
        self.next(), self.next(), self.next()
        constants, fields, methods = {}, [], []
        while not self.accept("}"):
            kind, name = self.next(), self.next()
            if kind == "method":
                methods.append(self.method(name))
                continue
            self.next()
            value = self.next() == "true" if kind == "bool" else self.number()
            self.next()
            if kind == "const":
                constants[name] = value
            else:
                fields.append((name, kind, value))
        return constants, fields, methods

    def method(self, name):
        inputs = []
        self.next()
        while not self.accept(")"):
            kind, own = self.next(), self.next()
            inputs.append((own, kind))
            self.accept(",")
        self.next(), self.next()
        guard = self.binary(0)
        self.next()
        return name, inputs, guard, self.block()

    def block(self):
        self.next()
        statements = []
        while not self.accept("}"):
            statements.append(self.statement())
        return statements

    def statement(self):
        if self.accept("return"):
            value = self.binary(0)
            self.next()
            return ("return", value)
        if self.accept("if"):
            self.next()
            condition = self.binary(0)
            self.next()
            body = self.block()
            return ("if", condition, body, self.block() if self.accept("else") else [])
        name = self.next()
        self.next()
        value = self.binary(0)
        self.next()
        return ("set", name, value)

    LEVELS = [("||",), ("&&",), ("==", "!=", "<", "<=", ">", ">="), ("+", "-"), ("*",)]

    def binary(self, level):
        if level == len(self.LEVELS):
            return self.unary()
        left = self.binary(level + 1)
        while sign := self.accept(*self.LEVELS[level]):
            left = (sign, left, self.binary(level + 1))
        return left

    def unary(self):
        if sign := self.accept("-", "!"):
            return ("neg" if sign == "-" else "not", self.unary())
        if self.accept("("):
            inner = self.binary(0)
            self.next()
            return inner
        word = self.next()
        if word in ("true", "false"):
            return ("bool", word == "true")
        return ("int", int(word)) if word.isdigit() else ("name", word)


class Form:
    """A linear form: how often each name counts, and a constant."""

    def __init__(self, terms, constant):
        self.terms = tuple(sorted((name, times) for name, times in terms.items() if times))
        self.constant = constant

    def scaled(self, factor, other=None, other_factor=0):
        terms = {name: times * factor for name, times in self.terms}
        for name, times in other.terms if other else ():
            terms[name] = terms.get(name, 0) + times * other_factor
        return Form(terms, self.constant * factor + (other.constant * other_factor if other else 0))

    def key(self):
        return self.terms, self.constant


def form_of(expression, constants):
    match expression:
        case ("int", value):
            return Form({}, value)
        case ("name", name) if name in constants:
            return Form({}, constants[name])
        case ("name", name):
            return Form({name: 1}, 0)
        case ("neg", part):
            return form_of(part, constants).scaled(-1)
        case ("*", left, right):
            left, right = form_of(left, constants), form_of(right, constants)
            return right.scaled(left.constant) if not left.terms else left.scaled(right.constant)
        case (sign, left, right):
            factor = 1 if sign == "+" else -1
            return form_of(left, constants).scaled(1, form_of(right, constants), factor)


def formula_of(expression, constants, holds=True):
    """The formula of an expression, or of its negation: rows, flags, and lists of parts."""
    match expression:
        case ("bool", value):
            return ("all" if value == holds else "any", ())
        case ("name", name):
            return ("flag", name, holds)
        case ("not", part):
            return formula_of(part, constants, not holds)
        case ("&&" | "||", _, _):
            sign = expression[0]
            parts = tuple(formula_of(part, constants, holds) for part in chain_of(expression, sign))
            return ("all" if (sign == "&&") == holds else "any", parts)
        case (sign, left, right):
            left, right = form_of(left, constants), form_of(right, constants)
            if sign in (">", ">="):
                left, right, sign = right, left, sign.replace(">", "<")
            below, above = left.scaled(1, right, -1), right.scaled(1, left, -1)
            one = Form({}, 1)
            if sign in ("==", "!="):
                if (sign == "==") == holds:
                    return ("all", (("row", below.key()), ("row", above.key())))
                return ("any", tuple(("row", form.scaled(1, one, 1).key()) for form in (above, below)))
            if not holds:
                return ("row", (above if sign == "<" else above.scaled(1, one, 1)).key())
            return ("row", (below.scaled(1, one, 1) if sign == "<" else below).key())


def chain_of(expression, sign):
    if expression[0] == sign:
        return chain_of(expression[1], sign) + [expression[2]]
    return [expression]


def rows_of(formula):
    if formula[0] == "row":
        yield formula[1]
    elif formula[0] != "flag":
        for part in formula[1]:
            yield from rows_of(part)


def truth(formula, names):
    match formula:
        case ("row", (terms, constant)):
            return sum((names[name] * times for name, times in terms), z3.IntVal(constant)) <= 0
        case ("flag", name, value):
            return names[name] if value else z3.Not(names[name])
        case ("all", parts):
            return z3.And([truth(part, names) for part in parts])
        case ("any", parts):
            return z3.Or([truth(part, names) for part in parts])


class Monitor:
    """A monitor, and what Z3 says of its claims."""

    def __init__(self, text):
        self.constants, self.fields, self.methods = Reader(text).monitor()
        self.field_names = {name for name, _, _ in self.fields}
        self.guards = [formula_of(guard, self.constants) for _, _, guard, _ in self.methods]
        self.classes, self.condition = [], []
        for number, guard in enumerate(self.guards):
            # Inputs are places: the names of the inputs of two methods may differ.
            places = {name: place for place, (name, _) in enumerate(self.methods[number][1])}
            placed = repr(renamed(guard, places))
            if placed not in self.classes:
                self.classes.append(placed)
            self.condition.append(self.classes.index(placed))
        self.first = [self.condition.index(number) for number in range(len(self.classes))]

    def names(self, block, side):
        names = {name: fresh(name, kind) for name, kind, _ in self.fields}
        for name, kind in self.methods[block][1]:
            names[name] = fresh(f"{side}.{name}", kind)
        return names

    def reads_inputs(self, condition):
        return bool(names_in(self.guards[self.first[condition]]) - self.field_names)

    def after(self, statements, names):
        for statement in statements:
            match statement:
                case ("set", name, value):
                    names = {**names, name: self.value(value, names)}
                case ("if", condition, body, other):
                    test = truth(formula_of(condition, self.constants), names)
                    then, orelse = self.after(body, names), self.after(other, names)
                    names = {name: z3.If(test, then[name], orelse[name]) for name in names}
        return names

    def value(self, expression, names):
        kinds = dict((name, kind) for name, kind, _ in self.fields)
        if self.is_truth(expression, kinds, names):
            return truth(formula_of(expression, self.constants), names)
        form = form_of(expression, self.constants)
        return sum((names[name] * times for name, times in form.terms), z3.IntVal(form.constant))

    def is_truth(self, expression, kinds, names):
        match expression:
            case ("bool", _) | ("not", _):
                return True
            case ("name", name):
                return name in names and z3.is_bool(names[name])
            case (sign, _, _):
                return sign in ("&&", "||", "==", "!=", "<", "<=", ">", ">=")
        return False

    def candidates(self):
        """Each candidate as its line, with its formula."""
        found = []
        for name, kind, start in self.fields:
            if kind == "bool":
                found += [(f"keep {name}", ("flag", name, True)), (f"keep !{name}", ("flag", name, False))]
                continue
            pool = [0, start]
            for guard in self.guards:
                for terms, constant in rows_of(guard):
                    bound = {((name, 1),): -constant, ((name, -1),): constant}.get(terms)
                    pool += [] if bound is None else [bound - 1, bound, bound + 1]
            for bound in list(dict.fromkeys(pool))[:MOST_BOUNDS]:
                found.append((f"keep {name} <= {bound}", ("row", (((name, 1),), -bound))))
                found.append((f"keep {name} >= {bound}", ("row", (((name, -1),), bound))))
        numbers = [name for name, kind, _ in self.fields if kind == "int"]
        for left in numbers:
            for right in numbers:
                if left != right:
                    terms = tuple(sorted([(left, 1), (right, -1)]))
                    found.append((f"keep {left} <= {right}", ("row", (terms, 0))))
        return found

    def is_valid(self, kept, block, before, after, waiting=None):
        """Whether the block, run where the kept lines, its guard and `before` are true, makes `after` true."""
        names = self.names(block, "own")
        if waiting is not None:
            names = {**{f"waiting.{n}": fresh(f"waiting.{n}", k) for n, k in self.methods[waiting][1]}, **names}
        solver = z3.Solver()
        solver.add([truth(formula, names) for _, formula in kept])
        solver.add(truth(self.guards[block], names))
        solver.add([truth(formula, names) for formula in before])
        solver.add(z3.Not(truth(after, self.after(self.methods[block][3], names))))
        return solver.check() == z3.unsat

    def greatest(self):
        start = {name: z3.BoolVal(v) if kind == "bool" else z3.IntVal(v) for name, kind, v in self.fields}
        kept = [one for one in self.candidates() if z3.is_true(z3.simplify(truth(one[1], start)))]
        while True:
            left = [
                one
                for one in kept
                if all(self.is_valid(kept, block, [], one[1]) for block in range(len(self.methods)))
            ]
            if len(left) == len(kept):
                return kept
            kept = left

    def plan(self):
        """The exact plan: kept lines, the kind of each condition, and the notes of each block."""
        kept = self.greatest()
        kinds = []
        for condition in range(len(self.classes)):
            guard = self.guards[self.first[condition]]
            blocks = [block for block, own in enumerate(self.condition) if own == condition]
            single = not self.reads_inputs(condition) and all(
                self.is_valid(kept, block, [], negated(guard)) for block in blocks
            )
            kinds.append("signal" if single else "broadcast")
        notes = []
        for block in range(len(self.methods)):
            own = []
            for condition, kind in enumerate(kinds):
                first = self.first[condition]
                guard = self.guards[first]
                reads = self.reads_inputs(condition)
                if reads:
                    guard = renamed(guard, {name: f"waiting.{name}" for name, _ in self.methods[first][1]})
                if self.is_valid(kept, block, [negated(guard)], negated(guard), first):
                    continue
                tested = not reads and not self.is_valid(kept, block, [negated(guard)], guard)
                own.append(f"{condition + 1} {kind}{' tested' if tested else ''}")
            notes.append(", ".join(own) or "none")
        return [line for line, _ in kept], kinds, notes


def fresh(name, kind):
    return z3.Bool(name) if kind == "bool" else z3.Int(name)


def names_in(formula):
    match formula:
        case ("row", (terms, _)):
            return {name for name, _ in terms}
        case ("flag", name, _):
            return {name}
        case (_, parts):
            return {name for part in parts for name in names_in(part)}


def renamed(formula, to):
    match formula:
        case ("row", (terms, constant)):
            return ("row", (tuple((to.get(name, name), times) for name, times in terms), constant))
        case ("flag", name, value):
            return ("flag", to.get(name, name), value)
        case (kind, parts):
            return (kind, tuple(renamed(part, to) for part in parts))


def negated(formula):
    match formula:
        case ("row", (terms, constant)):
            return ("row", (tuple((name, -times) for name, times in terms), 1 - constant))
        case ("flag", name, value):
            return ("flag", name, not value)
        case (kind, parts):
            return ("any" if kind == "all" else "all", tuple(negated(part) for part in parts))


def printed_plan(path):
    """The kept lines, kinds and notes that `expresso compile` prints."""
    ran = subprocess.run([EXPRESSO, "compile", path], capture_output=True, text=True, timeout=600)
    if ran.returncode:
        sys.exit(f"exact.py: {path}: status {ran.returncode}\n{ran.stdout}")
    lines = ran.stdout.splitlines()[1:]
    kept = [line for line in lines if line.startswith("keep ")]
    kinds = [line.split()[2].rstrip(":") for line in lines if line.startswith("condition ")]
    notes = [line.split(": ", 1)[1] for line in lines if line.startswith("block ")]
    return kept, kinds, notes


def beyond(exact, printed):
    """What the printed plan has beyond the exact one, and whether it is wrong."""
    said, wrong = [], []
    (kept, kinds, notes), (own_kept, own_kinds, own_notes) = exact, printed
    said += [f"lacks {line}" for line in kept if line not in own_kept]
    wrong += [f"has {line}" for line in own_kept if line not in kept]
    for number, (kind, own) in enumerate(zip(kinds, own_kinds, strict=True), 1):
        if kind != own:
            (said if own == "broadcast" else wrong).append(f"condition {number} {own}")
    for number, (block, own) in enumerate(zip(notes, own_notes, strict=True), 1):
        needed = {note.split()[0]: note for note in block.split(", ") if note != "none"}
        placed = {note.split()[0]: note for note in own.split(", ") if note != "none"}
        wrong += [f"block {number} lacks {note}" for at, note in needed.items() if at not in placed]
        said += [f"block {number} has {note}" for at, note in placed.items() if needed.get(at) != note]
    return said, wrong


def generated(seed):
    """A monitor of two or three numbers whose guards add and multiply them."""
    draw = random.Random(seed)
    names = ["x", "y", "z"][: draw.choice([2, 2, 3])]
    fields = "".join(f"  int {name} = {draw.randint(0, 2)};\n" for name in names)

    def total():
        some = draw.sample(names, draw.randint(1, len(names)))
        parts = [f"{draw.randint(2, 4)} * {name}" if draw.random() < 0.4 else name for name in some]
        return " + ".join(parts)

    methods = ""
    for number in range(draw.randint(2, 4)):
        guard = f"{total()} {draw.choice(['<=', '>=', '<', '>', '<=', '>='])} {draw.randint(0, 12)}"
        if draw.random() < 0.25:
            guard += f" && {draw.choice(names)} {draw.choice(['>', '<='])} {draw.randint(0, 4)}"
        changed = draw.sample(names, draw.randint(1, 2))
        body = "".join(f" {name} = {name} {draw.choice('+-')} {draw.randint(1, 3)};" for name in changed)
        if draw.random() < 0.15:
            body += f" {draw.choice(names)} = 0;"
        methods += f"  method m{number}() waituntil ({guard}) {{{body} }}\n"
    return f"monitor Made {{\n{fields}{methods}}}\n"


def compare(path):
    exact, printed = Monitor(pathlib.Path(path).read_text()).plan(), printed_plan(path)
    return beyond(exact, printed)


def main(words):
    if words[:1] == ["--generated"]:
        folder = tempfile.mkdtemp()
        paths = []
        for seed in range(int(words[1])):
            paths.append(f"{folder}/made{seed}.mon")
            pathlib.Path(paths[-1]).write_text(generated(seed))
    else:
        paths = words
    if not paths:
        sys.exit(__doc__)
    counts, failed = {"exact": 0, "beyond": 0}, False
    for path in paths:
        said, wrong = compare(path)
        counts["beyond" if said or wrong else "exact"] += 1
        failed = failed or bool(wrong)
        if said or wrong or words[0] != "--generated":
            print(f"{os.path.basename(path)}: {'; '.join(wrong + said) or 'exact'}")
    print(f"{len(paths)} monitors: {counts['exact']} exact plans, {counts['beyond']} that do more")
    sys.exit(1 if failed else 0)


if __name__ == "__main__":
    main(sys.argv[1:])
