#!/usr/bin/env python3
"""Emits monitors that are made up, whose names have a meaning in Rust, and calls them beside a reference.

  emitted_random.py MONITORS [SEED]     so many monitors; SEED is 1 where it is left out

Each module is compiled by rustc in both editions without a warning, and called on one thread: what
the calls answer must be what plain arithmetic over the monitor's text says. Some calls have a time
that is over at once or soon, and some are given a function, which counts in the data how many ran,
or panics. EXPRESSO=PROGRAM takes the modules of
that program, which must be those of the second printer, tools/emitted.py; without it those of the
second printer alone are taken, under a plan that wakes everyone. Which blocks keep 64 bits is what
tools/fits.py finds. It ends with status 1 where one differs.
"""

import math
import os
import pathlib
import random
import subprocess
import sys
import tempfile
from collections import namedtuple

sys.dont_write_bytecode = True
ROOT = pathlib.Path(__file__).resolve().parent.parent
sys.path.insert(0, str(ROOT / "tools"))

from emitted import Source, has_assertion, has_times, has_try, has_with, module_text  # noqa: E402
from fits import whole_blocks  # noqa: E402
from rust_bodies import way_name  # noqa: E402
from trees import If, Return, read_tree  # noqa: E402

WORDS = ("self Self _ __ Ok Err Some None state State next answer match match_ try startRead start_read x X y new lock "
         "wait drop narrow inner Inner copy asleep_x Overflow Mutex Option Refused Failed From i64 i128 std async dyn a__b can_x run_x x_ "
         "_x await clone Result try_x try_new_ box gen readX read_x f hand result data Data D R HandOn FnOnce Drop "
         "with_data get_mut into_inner is_poisoned x_with try_x_with readX_with try_start_read_with Default "
         "end time left wait_for time_left asserts Duration Instant x_for try_x_until x_until_with readX_for start_read_until").split()
LEAST, MOST = -2 ** 63, 2 ** 63 - 1
CALLS, BATCH, LONG = 40, 20, 0.01
SIGNS = "==", "!=", "<", "<=", ">", ">="


# ---- monitors that are made up, in canonical form
class Maker:
    """Makes a text of what it has declared so far."""

    def __init__(self, dice):
        self.dice, self.names = dice, dice.sample(WORDS, len(WORDS))
        self.constants, self.ints, self.flags = [], [], []

    def number(self):
        return self.dice.choice([0, 1, 2, 3, 7, 2 ** 31, 2 ** 62, MOST][:self.dice.choice([5, 5, 5, 8])])

    def atom(self):
        known = self.constants + self.ints
        return self.dice.choice(known) if known and self.dice.random() < 0.8 else str(self.number())

    def count(self, few):
        """Few parts, and now and then so many that they are printed in pieces."""
        return self.dice.randrange(60, 140) if self.dice.random() < LONG else self.dice.choice(few)

    def sum(self):
        """A sum, a product with a number, or an atom."""
        parts = [self.part() for _ in range(self.count([1, 1, 2, 3]))]
        return "".join(part if not k else f" {self.dice.choice('+-')} {part}" for k, part in enumerate(parts))

    def part(self):
        kind = self.dice.random()
        if kind < 0.2:
            count = self.count([1])
            factors = [self.dice.randrange(9 if count == 1 else 2) for _ in range(count)]
            return " * ".join([*map(str, factors), self.atom()])
        if kind < 0.3:
            return f"-{self.atom()}"
        return f"-({self.sum()})" if kind < 0.35 else self.atom()

    def truth(self, deep=2):
        kind = self.dice.random()
        if deep and kind < 0.3:
            sign = self.dice.choice(["&&", "||"])
            parts = [self.within(self.truth(deep - 1)) for _ in range(self.count([2]))]
            return f" {sign} ".join(parts)
        if kind < 0.4:
            return f"!({self.truth(0)})"
        if kind < 0.6 and self.flags:
            return self.dice.choice(["", "!"]) + self.dice.choice(self.flags)
        return f"{self.sum()} {self.dice.choice(SIGNS)} {self.sum()}" if kind < 0.95 else "true"

    @staticmethod
    def within(text):
        return f"({text})" if "&&" in text or "||" in text else text

    def statement(self, indent, deep=1):
        if deep and self.dice.random() < 0.3:
            body = "".join(self.statement(indent + "  ", 0) for _ in range(self.dice.randrange(1, 3)))
            other = self.statement(indent + "  ", 0) if self.dice.random() < 0.5 else ""
            end = f" else {{\n{other}{indent}}}" if other else ""
            return f"{indent}if ({self.truth()}) {{\n{body}{indent}}}{end}\n"
        if self.flags and self.dice.random() < 0.3:
            return f"{indent}{self.dice.choice(self.flags)} = {self.truth()};\n"
        return f"{indent}{self.dice.choice(self.ints)} = {self.sum()};\n" if self.ints else ""

    def declared(self, ahead):
        """A line, with its name noted."""
        name = self.names.pop()
        if ahead != "const" and self.dice.random() < 0.4:
            self.flags.append(name)
            return f"bool {name} = {self.dice.choice(['true', 'false'])};\n"
        (self.constants if ahead == "const" else self.ints).append(name)
        sign = self.dice.choice(["", "-"])
        return f"{ahead} {name} = {sign}{self.number() or 1};\n"

    def method(self):
        name, outer = self.names.pop(), (self.ints[:], self.flags[:], self.names[:])
        inputs = [self.declared("int").split(" ")[:2] for _ in range(self.dice.randrange(3))]
        taken = ", ".join(map(" ".join, inputs))
        lines = ["    local " + self.declared("int") for _ in range(self.dice.choice([0, 0, 1, 2]))]
        writable = [one for one in self.ints if one not in [name for _, name in inputs]]
        readable, self.ints = self.ints, writable
        count = self.dice.choice([1, 1, 1, 2])
        flags = [one for one in self.flags if one not in [name for _, name in inputs]]
        blocks = [self.block("    ", readable, flags, k == count - 1) for k in range(count)]
        self.ints, self.flags, self.names = outer
        if count == 1 and self.dice.random() < 0.3:
            blocks = [blocks[0].replace("waituntil", "asserts", 1)]
        if count == 1 and not lines:
            block = blocks[0].replace("\n  ", "\n").lstrip()
            return f"  method {name}({taken}) {block}"
        return f"  method {name}({taken})\n{''.join(lines + blocks)}"

    def block(self, indent, readable, flags, is_last):
        """A block; what it assigns are fields and locals."""
        writable, all_flags = self.ints, self.flags
        self.ints = readable
        guard = self.truth() if self.dice.random() < 0.7 else "true"
        body = ""
        for _ in range(self.dice.randrange(4)):
            self.ints, self.flags = readable, all_flags
            text = self.statement(indent + "  ")
            targets = [line.split(" = ")[0].strip() for line in text.splitlines() if line.endswith(";")]
            body += text if all(one in writable + flags for one in targets) else ""
        if is_last and self.dice.random() < 0.5:
            body += f"{indent}  return {self.sum() if self.dice.random() < 0.6 else self.truth()};\n"
        self.ints, self.flags = writable, all_flags
        return f"{indent}waituntil ({guard}) {{\n{body}{indent}}}\n"

    def monitor(self):
        name = self.names.pop()
        lines = ["  " + self.declared("const") for _ in range(self.dice.randrange(3))]
        lines += ["  " + self.declared("int") for _ in range(self.dice.randrange(1, 5))]
        lines += [self.method() for _ in range(self.dice.randrange(1, 5))]
        return f"monitor {name} {{\n{''.join(lines)}}}\n"


# ---- the reference: plain arithmetic over the tree
class Overflow(Exception):
    """A value has more than 64 bits."""


def value(expression, known):
    sign, parts = expression
    if sign in ("number", "truth", "name"):
        return int(parts) if sign == "number" else parts == "true" if sign == "truth" else known[parts]
    if sign == "+":
        return sum((-1 if one == "-" else 1) * value(part, known) for one, part in parts)
    held = [value(part, known) for part in parts]
    if sign == "*":
        return math.prod(held)
    if sign in ("minus", "not"):
        return -held[0] if sign == "minus" else not held[0]
    if sign in ("&&", "||"):
        return all(held) if sign == "&&" else any(held)
    left, right = held
    return {"==": left == right, "!=": left != right, "<": left < right, "<=": left <= right,
            ">": left > right, ">=": left >= right}[sign]


def stored(number):
    if not isinstance(number, bool) and not LEAST <= number <= MOST:
        raise Overflow
    return number


def run(body, known):
    """The result, or None. What is known changes."""
    for one in body:
        if isinstance(one, Return):
            return stored(value(one.value, known))
        if isinstance(one, If):
            run(one.body if value(one.when, known) else one.other, known)
        else:
            known[one.name] = stored(value(one.value, known))
    return None


def literal(start):
    return start == "true" if start in ("true", "false") else int(start)


def shown(answer):
    return "()" if answer is None else str(answer).lower()


# what a call comes to: "Ok", "Refused" or "Overflow"; its answer, the fields after it, and those before its last block
Outcome = namedtuple("Outcome", "end answer state before")


def called(method, arguments, state, tries):
    """What a call comes to; None where it would wait."""
    known, own = dict(state), [one.name for one in method.inputs + method.own_locals]
    known |= dict(zip(own, arguments + [literal(one.start) for one in method.own_locals]))
    answer, before = None, state
    for number, block in enumerate(method.blocks):
        if not value(block.guard, known):
            return Outcome("Refused", None, state, state) if tries and not number else None
        after, before = dict(known), {name: known[name] for name in state}
        try:
            answer = run(block.body, after)
        except Overflow:
            return Outcome("Overflow", None, before, before)
        known = after
    return Outcome("Ok", answer, {name: known[name] for name in state}, before)


# what calls are given, that have no answer or have one
FUNCTIONS = {
    ("counts", False): ["|ran| { *ran += 1; *ran }"], ("counts", True): ["|ran, answer| { *ran += 1; (*ran, answer) }"],
    ("panics", False): ["|_| -> i32 { panic!() }"], ("panics", True): ["|_, _| -> i32 { panic!() }"],
}

# of calls that have a time, the last that they are handed but for the function
TIMES = {"until": ["std::time::Instant::now()"], "for": ["std::time::Duration::from_nanos(1)"]}


class Caller:
    """Makes statements that call and print, and the lines that they should print."""

    def __init__(self, source, dice):
        self.source, self.dice, self.lines, self.wanted = source, dice, [], []
        self.state = {one.name: literal(one.start) for one in source.tree.declared}
        self.ran, self.is_poisoned, self.methods, first = 0, False, [], 0
        for method in source.tree.methods:
            self.methods.append((method, first))
            first += len(method.blocks)

    def prints(self, text, wanted):
        self.lines.append(f'    println!("{{:?}}", {text});')
        self.wanted.append(wanted)

    def call(self):
        """Any method with any arguments, in any way in which it wouldn't wait for long."""
        method, first = self.dice.choice(self.methods)
        own = "asserts" if has_assertion(self.source, method, first) else "waits"
        ways = ["tries"] if has_try(self.source, method, first) else [own]
        ways += ["until", "for"] * has_times(self.source, method, first)
        way, tries = self.dice.choice(ways), ways != ["waits"]
        arguments = [self.dice.random() < 0.5 if one.kind == "bool" else self.dice.choice([0, 1, -1, 5, MOST, LEAST])
                     for one in method.inputs]
        outcome = called(method, arguments, self.state, tries)
        if outcome is None:
            return
        fails = any(map(self.source.fails, range(first, first + len(method.blocks))))
        does = self.dice.choice(["plain", "counts", "counts", "panics"])
        does = does if has_with(self.source, method, way) else "plain"
        answers = bool(self.source.answer(first + len(method.blocks) - 1))
        given = [*map(shown, arguments), *TIMES.get(way, []), *FUNCTIONS.get((does, answers), [])]
        name = way_name(self.source.names.member(method.name), way, does != "plain")
        text = f"monitor.{name}({', '.join(given)})"
        if does == "panics":
            self.panics(outcome, text)
        else:
            self.returns(outcome, text, fails or tries, does == "counts", answers)

    def panics(self, outcome, text):
        """Only the blocks before the last one have changed something."""
        does = outcome.end == "Ok"
        self.state, self.is_poisoned = outcome.before if does else outcome.state, self.is_poisoned or does
        self.prints(f"catch_unwind(AssertUnwindSafe(|| {text})).is_err()", shown(does))

    def returns(self, outcome, text, is_result, counts, answers):
        self.state, answer = outcome.state, shown(outcome.answer)
        if counts and outcome.end == "Ok":
            self.ran += 1
            answer = f"({self.ran}, {answer})" if answers else str(self.ran)
        done = f"Ok({answer})" if is_result else answer
        self.prints(text, done if outcome.end == "Ok" else f"Err({outcome.end})")


def calls_of(source, dice):
    """Statements that call and print, and the lines that they should print."""
    caller = Caller(source, dice)
    for _ in range(CALLS):
        caller.call()
    caller.prints("monitor.is_poisoned()", shown(caller.is_poisoned))
    caller.prints("monitor.get_mut()", str(caller.ran))
    caller.prints("monitor.into_inner()", str(caller.ran))
    return caller.lines, caller.wanted


# ---- the comparison
# a monitor's module, the statements that call it, and the lines that these should print
Case = namedtuple("Case", "number text kind module lines wanted")


def everyone(text):
    """A plan by which each block wakes all."""
    count = len(Source(text, "").monitor.conditions)
    blocks = sum(len(method.blocks) for method in read_tree(text).methods)
    notes = ", ".join(f"{number} broadcast" for number in range(1, count + 1))
    return "".join(f"block m: {notes}\n" for _ in range(blocks))


def ran(*words):
    return subprocess.run(words, capture_output=True, text=True, timeout=600, check=False)


def answers_of(program, path):
    """The canonical form, the plan and the module, or None where the program refuses the text."""
    texts = []
    for command in ["check"], ["compile", "--count"], ["emit"]:
        made = ran(program, *command, path)
        if made.returncode:
            return None
        texts.append(made.stdout)
    return texts


def case_of(program, seed, number, work):
    """A made-up monitor, or None where the program refuses its text."""
    dice = random.Random(f"{seed}.{number}")
    text, module = Maker(dice).monitor(), None
    plan = everyone(text)
    if program:
        (work / "m.mon").write_text(text)
        answered = answers_of(program, work / "m.mon")
        if answered is None:
            return None
        text, plan, module = answered
    source = Source(text, plan, whole=whole_blocks(text, plan))
    if module not in (None, module_text(source)):
        sys.exit(f"{text}monitor {number} of seed {seed}: the second printer prints another")
    kind, module = source.names.type_name(), module_text(source)
    return Case(number, text, kind, module, *calls_of(source, dice))


def compiled(*words):
    return subprocess.run(["rustc", *words], check=False).returncode == 0


def compiles(work, edition):
    """The modules have no warning, as a library's."""
    return compiled("-D", "warnings", "-W", "missing_docs", "--edition", edition, "--crate-type",
                    "lib", "--emit", "metadata", "-o", work / "lib.rmeta", work / "lib.rs")


def builds(work):
    return compiled("--edition", "2021", "-A", "warnings", "-C", "debug-assertions",
                    "-o", work / "main", work / "main.rs")


def agree(cases, work):
    """The modules compile, and answer as the reference."""
    library, program = ["//! Modules.\n"], []
    for place, case in enumerate(cases):
        (work / f"m{place}.rs").write_text(case.module)
        library.append(f"/// It.\npub mod m{place};\n")
        lines = [f"    let mut monitor = m{place}::{case.kind}::with_data(0_i32);", *case.lines]
        program.append(f"mod m{place};\n\nfn call{place}() {{\n" + "\n".join(lines) + "\n}\n")
    calls = "".join(f"    call{place}();\n" for place in range(len(cases)))
    (work / "lib.rs").write_text("\n".join(library))
    quiet = "    std::panic::set_hook(Box::new(|_| ()));\n"
    program.insert(0, "use std::panic::{catch_unwind, AssertUnwindSafe};\n")
    (work / "main.rs").write_text("\n".join([*program, f"fn main() {{\n{quiet}{calls}}}\n"]))
    if not compiles(work, "2021") or not compiles(work, "2024") or not builds(work):
        return False
    got, wanted = ran(work / "main"), [line for case in cases for line in case.wanted]
    return got.returncode == 0 and got.stdout.split("\n")[:-1] == wanted


def judge(cases, seed, work):
    """Many at once; one by one where some one differs."""
    if agree(cases, work):
        return
    for case in cases:
        if not agree([case], work):
            sys.exit(f"{case.text}monitor {case.number} of seed {seed} differs")
    sys.exit(f"of seed {seed} those from {cases[0].number} on differ, but none alone")


def main(count, seed):
    program, taken, lines = os.environ.get("EXPRESSO"), 0, []
    for first in range(0, count, BATCH):
        with tempfile.TemporaryDirectory() as folder:
            work = pathlib.Path(folder)
            numbers = range(first, min(first + BATCH, count))
            found = [case_of(program, seed, number, work) for number in numbers]
            cases = [case for case in found if case]
            judge(cases, seed, work)
        taken += len(cases)
        lines += [pair for case in cases for pair in zip(case.lines, case.wanted)]
    overflows = [wanted for _, wanted in lines].count("Err(Overflow)")
    panics = [wanted for line, wanted in lines if "catch_unwind" in line].count("true")
    print(f"{taken} monitors of {count}, {len(lines)} lines, of which {overflows} overflow and {panics} panic: "
          "as the reference")


if __name__ == "__main__":
    if len(sys.argv) not in (2, 3):
        sys.exit(__doc__)
    main(int(sys.argv[1]), int((sys.argv + ["1"])[2]))
