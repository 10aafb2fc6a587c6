#!/usr/bin/env python3
"""`tools/emitted.py MONITOR PLAN FILE BLOCK ..` prints the module of Rust that `expresso emit` prints of a monitor.

It shares no code with the product. MONITOR is in canonical form, as `expresso check` prints it, PLAN
is the plan that `expresso compile --count` prints of it, and FILE is the file itself, with its
comments. Each BLOCK, as the plan names it, is one of which it is known that no number leaves 64 bits.
"""

import pathlib
import re
import sys

sys.dont_write_bytecode = True
from formulas import joined  # noqa: E402
from monitors import read_monitor  # noqa: E402
from rust_bodies import (Scope, answer, argument_texts, can_name, doc_text,  # noqa: E402
                         function_texts, kind_text, run_name, shortens, trace, way_name)
from rust_comments import Comments  # noqa: E402
from rust_names import Names, lints  # noqa: E402
from rust_texts import ADMITS, CHOICE, CHOSEN_DATA, CHOSEN_NEW, CHOSEN_START, COPY, DATA, DEBUG  # noqa: E402
from rust_texts import DEFAULT, FAILED, FIELDS, HEAD, INNER, LOCK, METHODS, NEW, OVERFLOW  # noqa: E402
from rust_texts import REFUSED, SKIP, START, STATE, TIMES, USED, VERSION, WAIT, WHOLE, WITH_DATA  # noqa: E402
from trees import read_tree  # noqa: E402

ALWAYS = joined("all", [])


def notes_of(plan):
    """Of each block: the condition of each note, whether it wakes all, and whether it is tested."""
    notes = []
    for line in plan.splitlines():
        if line.startswith("block "):
            texts = re.findall(r"(\d+) (signal|broadcast)( tested)?", line.split(": ", 1)[1])
            notes.append([(int(q), kind == "broadcast", bool(test)) for q, kind, test in texts])
    return notes


def block_name(method, number):
    return f"{method.name}.{number}" if len(method.blocks) > 1 else method.name


class Source:
    """A monitor as it is written and as it is checked, with the notes that somebody hears."""

    def __init__(self, text, plan, file=None, whole=()):
        self.comments = Comments(text if file is None else file)
        self.tree, self.monitor = read_tree(text), read_monitor(text)
        self.names, self.plan = Names(self.tree), plan
        self.blocks = [(method, number, block) for method in self.tree.methods
                       for number, block in enumerate(method.blocks, 1)]
        self.whole = [block_name(method, number) in whole for method, number, _ in self.blocks]
        self.notes = [[note for note in notes if self.is_waited_on(note[0])]
                      for notes in notes_of(plan)]

    def is_waited_on(self, condition):
        return condition > 0 and self.monitor.conditions[condition - 1].guard != ALWAYS

    def is_guarded(self, block):
        return self.monitor.blocks[block].guard != ALWAYS

    def waited_on(self):
        return [q for q in range(1, len(self.monitor.conditions) + 1) if self.is_waited_on(q)]

    def condition_of(self, block):
        return self.monitor.blocks[block].condition

    def tests_alone(self, condition):
        """Each of its blocks has a test of its own, as those do that have no condition."""
        return condition == 0 or self.monitor.conditions[condition - 1].reads_inputs

    def first_block(self, condition):
        return [one.condition for one in self.monitor.blocks].index(condition)

    def condition_name(self, condition):
        method, number, _ = self.blocks[self.first_block(condition)]
        return can_name(self.names, method, number)

    def count_name(self, condition):
        """Of those that sleep on a condition."""
        return "asleep" + self.condition_name(condition).removeprefix("can")

    def shown(self, condition):
        return self.blocks[self.first_block(condition)][2].shown

    def fails(self, block):
        return trace(self.scope(block), self.blocks[block][2].body).fails

    def shortens(self, block):
        return shortens(self.scope(block), self.blocks[block][2].body)

    def scope(self, block):
        return Scope(self.names, self.blocks[block][0], "self", "lent", self.whole[block])

    def answer(self, block):
        method, _, parts = self.blocks[block]
        return answer(Scope(self.names, method, "self", "lent"), parts.body)


# ---- methods
def test_text(source, block):
    condition, (method, number, _) = source.condition_of(block), source.blocks[block]
    if not source.tests_alone(condition):
        return f"{source.condition_name(condition)}()"
    arguments = ", ".join(argument_texts(source.names, method, ""))
    return f"{can_name(source.names, method, number)}({arguments})"


def call_text(source, block):
    method, number, _ = source.blocks[block]
    arguments = ", ".join(argument_texts(source.names, method, "&mut "))
    return f"inner.state.{run_name(source.names, method, number)}({arguments})"


def note_lines(source, note):
    """A note is made where somebody slept, and its test was true, when the lock was given back."""
    condition, everyone, tested = note
    name, test = source.condition_name(condition), f"copy.{source.count_name(condition)} > 0"
    test += f" && copy.state.{name}()" if tested else ""
    return [f"if {test} {{", f"    self.{name}.notify_{'all' if everyone else 'one'}();", "}"]


def run_lines(source, block, way):
    """The body of a block, and what is told where it overflows."""
    call, answer = call_text(source, block), source.answer(block)
    before = "let answer = " if answer else ""
    if not source.fails(block):
        return [f"{before}{call};"]
    condition = source.condition_of(block)
    if not source.is_waited_on(condition):
        return [f"{before}{call}?;"]
    return [f"let Ok({'answer' if answer else '()'}) = {call} else {{",
            f"    self.{source.condition_name(condition)}.notify_one();",
            f"    return Err({'' if way == 'waits' else 'Failed::'}Overflow);", "};"]


def test_lines(source, block, way, refusal):
    """The block's guard is waited for, or the call is refused, at once or when its time is over."""
    condition = source.condition_of(block)
    if not source.is_guarded(block):
        return []
    if way in ("tries", "asserts"):
        return [f"if !inner.state.{test_text(source, block)} {{", f"    return Err({refusal});", "}"]
    count, name = f"    inner.{source.count_name(condition)}", source.condition_name(condition)
    over, waits = [], f"wait(&self.{name}, inner)"
    if way == "until":
        over = ["    let Some(left) = time_left(end) else {", f"        return Err({refusal});", "    };"]
        waits = f"wait_for(&self.{name}, inner, left)"
    return [f"while !inner.state.{test_text(source, block)} {{", *over, f"{count} += 1;", f"    inner = {waits};",
            f"{count} -= 1;", "}"]


def work_lines(source, block):
    """The body of a block on a copy of the state, which is kept after the function that was given."""
    condition, answer = source.condition_of(block), source.answer(block)
    waits = source.is_waited_on(condition)
    call = call_text(source, block).replace("inner.state.", "next.")
    return [f"let hand = HandOn(&self.{source.condition_name(condition)});"] * waits + [
        "let mut next = inner.state;",
        f"{'let answer = ' if answer else ''}{call}{'?' if source.fails(block) else ''};",
        f"let result = f(&mut inner.data{', answer' if answer else ''});"] + [
        "std::mem::forget(hand);"] * waits + ["inner.state = next;"]


def block_lines(source, block, way, tested, refusal, works):
    """From the lock to the notes, which come when the lock is given back."""
    lines, notes = ["let mut inner = lock(&self.inner);"], source.notes[block]
    lines += test_lines(source, block, tested, refusal)
    lines += work_lines(source, block) if works else run_lines(source, block, way)
    lines += ["let copy = inner.copy();"] * bool(notes) + ["drop(inner);"]
    for note in notes:
        lines += note_lines(source, note)
    return lines


def end_lines(name, fails, way):
    """What a method answers, after its last block."""
    if not fails and way == "waits":
        return [name] if name else []
    return [f"Ok({name or '()'})"]


def for_lines(source, method, works, fails, answer):
    """A call that waits for a time is one until then, or, where the clock does not get there, one that waits."""
    def call(way, *given):
        name = way_name(source.names.member(method.name), way, works)
        inputs = [source.names.own(method, one.name) for one in method.inputs]
        return f"self.{name}({', '.join([*inputs, *given, *['f'] * works])})"

    waits = call("waits") + "?" * fails
    else_lines = [f"    return Ok({waits});"] if works or answer else [f"    {waits};", "    return Ok(());"]
    return ["let Some(end) = Instant::now().checked_add(time) else {", *else_lines, "};", call("until", "end")]


def method_text(source, method, first, way, works):
    """A method.

    Of one that asserts or tries, a call is refused where the guard of the first block is false; until a time, or for
    one, it waits before that. Of one that works, a call is given a function, which the last block calls with the data.
    """
    blocks = range(first, first + len(method.blocks))
    fails, answer = any(source.fails(block) for block in blocks), source.answer(blocks[-1])
    error, refusal = ("Failed", "Failed::Refused") if fails else ("Refused", "Refused")
    if way == "waits":
        error = "Overflow" if fails else None
    lines = [f"let mut {source.names.own(method, one.name)}: {kind_text(one.kind)} = {one.start};"
             for one in method.own_locals]
    for block in blocks:
        lines += block_lines(source, block, way, way if block == first else "waits", refusal,
                             works and block == blocks[-1])
    lines += end_lines("result" if works else answer and "answer", fails, way)
    lines = for_lines(source, method, works, fails, answer) if way == "for" else lines
    inputs = "".join(f", {source.names.own(method, one.name)}: {kind_text(one.kind)}"
                     for one in method.inputs) + {"until": ", end: Instant", "for": ", time: Duration"}.get(way, "")
    inputs += f", f: impl FnOnce(&mut D{', ' + answer if answer else ''}) -> R" if works else ""
    name = way_name(source.names.member(method.name), way, works) + "<R>" * works
    arrow = arrow_text("R" if works else answer, error)
    body = "".join(f"        {line}\n" for line in lines)
    docs = doc_text(source, method, first, fails, way, works, answer)
    return f"\n{docs}    pub fn {name}(&self{inputs}){arrow} {{\n{body}    }}\n"


def has_try(source, method, first):
    """The first block waits, and no other name is theirs."""
    waits = source.is_waited_on(source.condition_of(first))
    return waits and source.names.is_free(source.names.tried(method.name))


def has_assertion(source, method, first):
    """The method asserts a guard that is not `true`."""
    return method.asserts and source.is_guarded(first)


def has_with(source, method, way):
    """No other name is theirs."""
    if way in ("until", "for"):
        return source.names.are_lasting_with_free(method.name)
    free = source.names.is_with_free(method.name)
    return free and (way != "tries" or source.names.is_free("try_" + source.names.working(method.name)))


def has_times(source, method, first):
    """Calls may try, and no other names are theirs."""
    return has_try(source, method, first) and source.names.are_lasting_free(method.name)


def methods_text(source, method, first):
    """With the calls that try, that have a time, and that are given a function, where it has them."""
    ways = ["asserts" if has_assertion(source, method, first) else "waits"] + ["tries"] * has_try(source, method, first)
    ways += ["until", "for"] * has_times(source, method, first)
    return "".join(method_text(source, method, first, way, works) for way in ways
                   for works in [False] + [True] * has_with(source, method, way))


def arrow_text(answer, error):
    if error:
        return f" -> Result<{answer or '()'}, {error}>"
    return f" -> {answer}" if answer else ""


# ---- the module
def module_text(source):
    lint, kind = lints(source.tree), source.names.type_name()
    waited, fails = source.waited_on(), any(map(source.fails, range(len(source.blocks))))
    refused = refusals(source)
    used = "{Mutex, MutexGuard, PoisonError}" if source.blocks else "{Mutex, PoisonError}"
    used = used.replace("{", "{Condvar, ") if waited else used
    times = any(has_times(source, method, first) for method, first in methods_of(source))
    used = f"use std::sync::{used};\n" + "use std::time::{Duration, Instant};\n" * times
    parts = [HEAD % (source.tree.name, VERSION), f"{used}\n",
             struct_text(source, kind, lint, waited), impl_text(source, kind, lint, waited),
             "" if source.names.parameters else f"impl Default for {kind}{DEFAULT}",
             f"impl<D> std::fmt::Debug for {kind}<D>{DEBUG % kind}",
             inner_text(source, lint, waited), f"{FIELDS}{lint}struct State {{{state_fields(source)}}}\n\n", STATE,
             f"{lint}impl State {{\n{starts(source)}", functions(source), "}\n"]
    own = [LOCK] * bool(source.blocks) + [WAIT] * bool(waited) + [TIMES] * times + [OVERFLOW] * fails
    own += [REFUSED] * (False in refused) + [FAILED] * (True in refused)
    own += [WHOLE] * any(map(source.shortens, range(len(source.blocks))))
    return "".join(parts + own)


def refusals(source):
    """Of each method whose calls may be refused, whether it may fail too."""
    return [any(map(source.fails, range(first, first + len(method.blocks))))
            for method, first in methods_of(source)
            if has_assertion(source, method, first) or has_try(source, method, first)]


def methods_of(source):
    """Each method, with the number of its first block."""
    first = 0
    for method in source.tree.methods:
        yield method, first
        first += len(method.blocks)


def struct_text(source, kind, lint, waited):
    fields = "".join(f"    /// For calls that wait until `{source.shown(q)}`.\n"
                     f"    {source.condition_name(q)}: Condvar,\n" for q in waited)
    return (f"{source.comments.of_monitor()}/// The monitor `{source.tree.name}`. Threads share it by reference. A call waits for its guard, "
            f"unless it tries.\n///\n/// Its lock guards data `D` too, for the functions that calls are given.\n"
            f"/**\n# Plan\n\n```text\n{source.plan}```\n*/\n{lint}{USED}pub struct {kind}<D = ()> {{\n"
            f"    inner: Mutex<Inner<D>>,\n{fields}}}\n\n")


def inner_text(source, lint, waited):
    """What the lock guards: the state, and a count of each condition that is waited for."""
    counts = "".join(f"    {source.count_name(q)}: usize,\n" for q in waited)
    copies = "".join(f"            {source.count_name(q)}: self.{source.count_name(q)},\n" for q in waited)
    return (f"{INNER}{lint}struct Inner<D = ()> {{\n    state: State,\n{counts}    data: D,\n}}\n\n"
            f"impl<D> Inner<D> {{\n{COPY}{copies}            data: (),\n        }}\n    }}\n}}\n\n")


def impl_text(source, kind, lint, waited):
    constants = "".join((source.comments.of_constant(one.name) or f"    /// The constant `{one.name}`.\n") +
                        f"    pub const {source.names.constant(one.name)}: i64 = {one.start};\n"
                        for one in source.tree.declared if one.kind == "const")
    counts = "".join(f"                {source.count_name(q)}: 0,\n" for q in waited)
    conditions = "".join(f"            {source.condition_name(q)}: Condvar::new(),\n" for q in waited)
    conditions = f"{counts}                data,\n            }}),\n{conditions}"
    methods = "".join(methods_text(source, method, first) for method, first in methods_of(source))
    gap = "\n" if constants else ""
    new, with_data = openings(source, kind)
    return (f"{SKIP}{lint}impl {kind} {{\n{constants}{gap}{new}"
            f"{METHODS}impl<D> {kind}<D> {{\n{with_data}{conditions}        }}\n    }}\n\n{DATA}"
            f"{methods}}}\n\n")


def openings(source, kind):
    """What opens a monitor with no data, and the head of what opens it with some."""
    if not source.names.parameters:
        return NEW, WITH_DATA
    shown = " && ".join(f"{one.name} {' '.join(one.limit)}" for one in source.names.parameters)
    tests = " && ".join(f"{source.names.member(one.name)} {' '.join(one.limit)}" for one in source.names.parameters)
    taken, given = taken_text(source), ", ".join(source.names.member(one.name) for one in source.names.parameters)
    docs = CHOICE % ("".join(parameter_docs(source, one.name) for one in source.names.parameters), shown)
    return (ADMITS % (shown, taken, tests) + CHOSEN_NEW % (docs, taken, given),
            CHOSEN_DATA % (docs, taken, kind, given, kind, shown, given))


def parameter_docs(source, name):
    docs = source.comments.of_parameter(name)
    return f"    ///\n    /// The parameter `{name}`" + (f":\n{docs}" if docs else ".\n")


def taken_text(source):
    return ", ".join(f"{source.names.member(one.name)}: i64" for one in source.names.parameters)


def fields_of(source):
    return [one for one in source.tree.declared if one.kind != "const"]


def state_fields(source):
    lines = [f"    {source.names.member(one.name)}: {kind_text(one.kind)},\n"
             for one in fields_of(source)]
    return "".join(["\n"] + lines) if lines else ""


def starts(source):
    deeper = "    " * bool(source.names.parameters)
    lines = [f"{deeper}        {start_text(source, one)},\n" for one in fields_of(source)]
    fields = "".join(["\n"] + lines + [deeper + "    "]) if lines else ""
    return CHOSEN_START % (taken_text(source), fields) if deeper else START % fields


def start_text(source, field):
    """A parameter is what is taken, and a field may be a constant or a parameter of a name."""
    names, constants = source.names, [one.name for one in source.tree.declared if one.kind == "const"]
    if field.limit:
        return names.member(field.name)
    if field.kind == "bool" or re.fullmatch(r"-?\d+", field.start):
        return f"{names.member(field.name)}: {field.start}"
    copied = f"{names.type_name()}::{names.constant(field.start)}" if field.start in constants else names.member(field.start)
    return f"{names.member(field.name)}: {copied}"


def functions(source):
    """Of each block its guard, once for each condition that reads no inputs, and its body."""
    texts = []
    for number, (method, place, block) in enumerate(source.blocks):
        condition = source.condition_of(number)
        alone = source.tests_alone(condition)
        is_tested = source.is_guarded(number) and (
            alone or source.first_block(condition) == number)
        texts += function_texts(source.names, method, place, block, is_tested, alone,
                                arrow_text(source.answer(number), "Overflow" if source.fails(number) else None),
                                source.whole[number])
    return "".join(f"\n{text}" for text in texts)


def main(monitor, plan, file, *whole):
    sys.setrecursionlimit(10 ** 6)
    text, plan, file = (pathlib.Path(one).read_bytes().decode("latin-1") for one in (monitor, plan, file))
    sys.stdout.write(module_text(Source(text, plan, file, whole)))


if __name__ == "__main__":
    if len(sys.argv) < 4:
        sys.exit(__doc__)
    main(*sys.argv[1:])
