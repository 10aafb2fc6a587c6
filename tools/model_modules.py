#!/usr/bin/env python3
"""Explores what threads may do by modules that are kept in bench/emitted and examples/, and by faulty texts of them.

It reads a module as it is printed, statement by statement, and shares no code with the product. Each of two or three
threads makes any few calls, of any methods with any of a few arguments, or stops. A sleeper may wake by nothing at any
time, a function that a call is given may panic, and a time may be over whenever a call asks. So that numbers leave
their width soon, the test `narrow` takes WIDTH as the most.

A call that waits for a time, as `put_for`, is one until then, or, where the clock does not get there, one that waits:
of these it is read whether they say so.

A module with parameters is opened with each of a few numbers that its monitor admits, and with those of its file.

The data of a module are the fields once more: what a body does to the fields, the function that the call is given does
to the data, and where none is given they change with the fields.

Checked of each state that is reached, where nobody holds the mutex:

  counts    the count of a condition is how many are in `wait` on it
  pending   where a thread sleeps whose guard is true, one is woken on its condition, or has a note on it to make
  guards    a body runs only where its guard is true
  refusals  a call is refused only where the guard of its first block is false
  changes   a call that is refused, or overflows, or whose function panics, has changed nothing in its last block
  data      the data are as the fields: each function runs once, and while its thread has the mutex
  poison    where a function has panicked the mutex is still taken
  keeps     the fields are as the kept lines of the plan say

and of each text

  opens     `new` panics where the monitor does not admit its numbers, and there alone; else each field starts as the
            monitor says
  copies    what notes hang on is a copy of the fields and of the counts

What a thread does while it has the mutex is one step: nothing else reaches what the mutex guards. It ends with status 1
where a module breaks one of these, or where a fault does not break the one that it should.
"""

import functools
import itertools
import pathlib
import re
import sys
from collections import deque, namedtuple
from types import SimpleNamespace

sys.dont_write_bytecode = True
from emitted import Source, module_text  # noqa: E402

ROOT = pathlib.Path(__file__).resolve().parent.parent
WIDTH = 2
KINDS = {"i64": (1, 2), "bool": (False, True)}
FEW = (0, 1, 2, 3)
MOST_STATES = 40_000


class Broken(Exception):
    """What is checked does not hold."""


# ---- expressions and functions of the state, as Python has them
def narrow(number):
    if abs(number) > WIDTH:
        raise OverflowError
    return number


def python(text, locals_):
    """An expression or a statement of one line."""
    for name in locals_:
        text = re.sub(rf"(?<![\w.*])\*{name}\b", f"own.{name}", text)
    for rust, ours in [(r"\bi128::from\b|\bwhole\b", ""), (r"_i128\b", ""), (r"\)\?", ")"),
                       (r"\w+::([A-Z_0-9]+)\b", r"\1"), (r"&&", "and"), (r"\|\|", "or"), (r"!(?!=)", "not "),
                       (r"\btrue\b", "True"), (r"\bfalse\b", "False"), (r"^Ok\((.*)\)$", r"\1")]:
        text = re.sub(rust, ours, text)
    return text


LINES = {
    "}": [], "} else {": ["else:", "    pass"], "let mut next = *self;": ["next = SimpleNamespace(**vars(self))"],
    "*self = next;": ["vars(self).update(vars(next))"],
}


def python_line(line, locals_):
    """A line of a function; what it answers is noted."""
    text = line.strip()
    if text in LINES:
        return LINES[text]
    if text.startswith("if "):
        return [python(text[:-2], locals_) + ":", "    pass"]
    assigns = re.match(r"(let |\*?[\w.]+ = )", text)
    return [("" if assigns else "answer = ") + python(text.removeprefix("let ").rstrip(";"), locals_)]


def function(head, lines, constants):
    """The function, of the state, the values that it takes, and the locals that are lent to it."""
    name, taken = re.match(r"    fn (\w+)\(&(?:mut )?self(.*?)\)", head).groups()
    lent = re.findall(r", (\w+): &mut", taken)
    given = re.findall(r", (\w+): (?!&)", taken)
    code = [f"def {name}(self, own, {', '.join(given)}):", "    answer = None"]
    for line in lines:
        indent = " " * (len(line) - len(line.lstrip()) - 4)
        code += [indent + one for one in python_line(line, lent)]
    made = {}
    exec("\n".join(code + ["    return answer"]), dict(constants, narrow=narrow, SimpleNamespace=SimpleNamespace), made)
    return made[name]


# ---- the statements of methods
# a statement, by its kind, with what it names; `jump` is the number of the one that comes next where it is jumped
Step = namedtuple("Step", "kind what more jump", defaults=(None, (), None))
Method = namedtuple("Method", "inputs locals steps")
CALL = r"inner\.state\.(\w+)\((.*)\)"
FORMS = [  # a line, its kind, and which of its groups are kept
    (r"let mut inner = lock\(&self\.inner\);", "lock"), (rf"while !{CALL} {{", "while"), (rf"if !{CALL} {{", "unless"),
    (r"inner\.(\w+) (\+|-)= 1;", "count"), (r"inner = wait\(&self\.(\w+), inner\);", "wait"),
    (r"return Err\((?:Failed::)?(\w+)\);", "return"), (rf"(?:let answer = )?{CALL}(\?)?;", "run"),
    (rf"let Ok\(.*\) = {CALL} else {{", "else"), (r"let copy = inner\.copy\(\);", "copy"), (r"drop\(inner\);", "drop"),
    (r"if copy\.(\w+) > 0(?: && copy\.state\.(\w+)\(\))? {", "if"), (r"self\.(\w+)\.notify_(one|all)\(\);", "notify"),
    (r"let mut (\w+): \w+ = (.*);", "local"), (r"};?", "end"), (r"Ok\(.*\)|answer|result", "answer"),
    # of a call that is given a function
    (r"let hand = HandOn\(&self\.(\w+)\);", "hand"), (r"let mut next = inner\.state;", "next"),
    (r"(?:let answer = )?next\.(\w+)\((.*)\)(\?)?;", "work"),
    (r"let result = f\(&mut inner\.data(?:, answer)?\);", "give"), (r"std::mem::forget\(hand\);", "forget"),
    (r"inner\.state = next;", "keep"),
    # of a call that has a time
    (r"let Some\(left\) = time_left\(end\) else {", "left"),
    (r"inner = wait_for\(&self\.(\w+), inner, left\);", "wait"),
]
# of a call that waits for a time, with the two calls that it may be
LASTING = (r"let Some\(end\) = Instant::now\(\)\.checked_add\(time\) else { "
           r"(?:return Ok\(%s\??\);|%s\??; return Ok\(\(\)\);) }; %s")


def step_of(line):
    for form, kind in FORMS:
        if found := re.fullmatch(form, line.strip()):
            return kind, found.groups()
    raise Broken(f"no statement of a method: {line}")


def steps_of(lines):
    """The statements of a method, with the jumps of its blocks, and the values of its locals at the start."""
    steps, opened, locals_ = [], [], {}
    for line in lines:
        kind, found = step_of(line)
        if kind == "local":
            locals_[found[0]] = found[1] == "true" if found[1] in ("true", "false") else int(found[1])
        elif kind == "end":
            start = opened.pop()
            if steps[start].kind == "while":
                steps.append(Step("goto", jump=start))
            steps[start] = steps[start]._replace(jump=len(steps))
        else:
            if kind in ("while", "unless", "if", "else", "left"):
                opened.append(len(steps))
            steps.append(Step(kind, found[0] if found else None, found[1:]))
    return steps + [Step("answer")], tuple(locals_.items())


def check_lasting(name, inputs, body):
    """A call for a time is one of the two that it should be."""
    stem, works = re.fullmatch("(.*)_for((?:_with)?)", name).groups()
    given = ["f"] * bool(works)
    waits = re.escape(f"self.{stem}{works}({', '.join(inputs + given)})")
    until = re.escape(f"self.{stem}_until{works}({', '.join(inputs + ['end'] + given)})")
    if not re.fullmatch(LASTING % (waits, waits, until), " ".join(body.split())):
        raise Broken(f"times: {name}")


# ---- what a module is opened with
CONST = r"const fn %s\(([^)]*)\) -> \w+ \{\n(.*?)^    \}"
START = r"const (?:START: Self =|fn start\([^)]*\) -> Self \{)\s*Self \{(.*?)\}"
COPY = r"    fn copy\(&self\) -> Inner \{\n +Inner \{\n(.*?) +data: \(\),\n"


def declared(monitor):
    """The kind, the name, the start and the limit of each declaration."""
    return re.findall(r"^  (const|param|int|bool) (\w+) = (-?\w+)(?: where \((.*)\))?;", monitor, re.M)


def choices(monitor):
    """What may be chosen for the parameters, of a few numbers and, for each, the one that stands in the file."""
    few = [sorted({*FEW, int(start)}) for kind, _, start, _ in declared(monitor) if kind == "param"]
    return [chosen for chosen in itertools.product(*few) if opened(monitor, chosen) is not None]


def opened(monitor, chosen):
    """The fields of a monitor that is opened with these numbers, or None where it does not admit them."""
    values, fields, numbers = {"true": True, "false": False}, {}, iter(chosen)
    for kind, name, start, limit in declared(monitor):
        values[name] = next(numbers) if kind == "param" else eval(start, {}, values)
        if limit and not eval(limit, {}, values):
            return None
        if kind != "const":
            fields[name] = values[name]
    return fields


def started(text, chosen, constants):
    """The fields of a module that is opened with these numbers, or None where it panics."""
    def body(name, numbers):
        names, lines = re.search(CONST % name, text, re.M | re.S).groups()
        return lines, dict(zip(re.findall(r"(\w+): i64", names), numbers))

    def handed(name, lines, values):
        given = re.search(name + r"\(([^()]*)", lines)[1].split(", ")
        return [eval(python(one, ()), {}, dict(values, data=())) for one in given if one]

    lines, values = body("with_data", handed("with_data", *body("new", chosen)))
    if "assert!" in lines:
        test, known = body("admits", handed("admits", lines, values))
        if not eval(python(test.strip(), ()), {}, known):
            return None
    values = body("start", handed("start", lines, values))[1] if "::start(" in lines else {}
    fields = re.findall(r"^ +(\w+)(?:: (.*))?,$", re.search(START, text, re.S)[1], re.M)
    return {name: eval(python(start or name, ()), dict(constants), values) for name, start in fields}


def check_opening(text, monitor, constants):
    """A module starts as its monitor says, or panics, also with the numbers about each limit."""
    bounds = [re.findall(r"-?\d+", limit) for kind, *_, limit in declared(monitor) if kind == "param"]
    for chosen in itertools.product(*[{*FEW, *(int(bound) + by for by in (-1, 0, 1))} for (bound,) in bounds]):
        wanted, fields = opened(monitor, chosen), started(text, chosen, constants)
        if (wanted and list(wanted.values())) != (fields and list(fields.values())):
            raise Broken("opens")


def kept(text, monitor):
    """Whether the kept lines of the plan are true of the fields."""
    names = [name for kind, name, *_ in declared(monitor) if kind != "const"]
    places = {name: f"fields[{place}]" for place, name in enumerate(names)}
    lines = [re.sub(r"\w+", lambda word: places.get(word[0], word[0]), line)
             for line in re.findall(r"^keep (.*)$", text, re.M)]
    return eval(f"lambda fields: all(({''.join(python(line, ()) + ', ' for line in lines)}))")


class Module:
    """What threads do by the text of a module that is opened with these numbers."""

    def __init__(self, text, monitor, chosen, names=r"\w+"):
        constants = {name: int(value) for name, value in re.findall(r"pub const (\w+): i64 = (-?\d+);", text)}
        check_opening(text, monitor, constants)
        start = started(text, chosen, constants)
        self.fields, self.start = list(start), tuple(start.values())
        self.keeps = functools.lru_cache(None)(kept(text, monitor))
        self.counts = re.findall(r"^    (asleep\w+): usize,", text, re.M)
        copied = re.findall(r"(\w+): (.*),", re.search(COPY, text, re.S)[1])
        if copied != [(one, f"self.{one}") for one in ["state", *self.counts]]:
            raise Broken("copies")
        self.functions = {}
        functions = re.search(r"^impl State \{\n(.*?)^\}", text, re.M | re.S)[1]
        for head, body in re.findall(r"^(    fn .*) \{(?:\}|\n((?:        .*\n)*)    \})", functions, re.M):
            made = function(head, body.splitlines(), constants)
            self.functions[made.__name__] = made
        self.methods = {}
        method = r"^    pub fn (?!is_poisoned\b)(\w+)(?:<R>)?\(&self(.*?)\).* \{\n((?:        .*\n)*)    \}"
        for name, taken, body in re.findall(method, text, re.M):
            if not re.fullmatch(names, name):
                continue
            inputs = re.findall(r", (\w+): (i64|bool)", taken)
            if ", time: Duration" in taken:
                check_lasting(name, [one for one, _ in inputs], body)
                continue
            steps, locals_ = steps_of(body.splitlines())
            self.methods[name] = Method(inputs, locals_, steps)
        self.hands_on = bool(re.search(r"^impl Drop for HandOn<'_> \{\n.*\n +self\.0\.notify_one\(\);", text, re.M))
        taken = r"\.(lock\(\)|wait\(inner\)|wait_timeout\(inner, left\))\s*\.unwrap\(\)"
        self.heeds_poison = bool(re.search(taken, text))
        self.call = functools.lru_cache(None)(self.call)

    def takes(self, name):
        """The function is handed inputs."""
        return self.functions[name].__code__.co_argcount > 2

    def calls(self):
        """Each method with each of its arguments."""
        for name, method in self.methods.items():
            for values in itertools.product(*[KINDS[kind] for _, kind in method.inputs]):
                yield name, tuple(zip((one for one, _ in method.inputs), values))

    def call(self, name, handed, fields, known):
        """What a function answers, or OverflowError, and the fields and the locals after it."""
        state, values = SimpleNamespace(**dict(zip(self.fields, fields))), dict(known)
        lent = re.findall(r"&mut (\w+)", handed)
        own = SimpleNamespace(**{one: values[one] for one in lent})
        given = [values[one] for one in re.findall(r"[^, ]+", handed.replace("&mut ", "&")) if one[0] != "&"]
        try:
            answer = self.functions[name](state, own, *given)
        except OverflowError:
            answer = OverflowError
        after = tuple((one, getattr(own, one, value)) for one, value in known)
        return answer, tuple(getattr(state, one) for one in self.fields), after


# ---- executions
# A thread has so many calls left. In one it is at a statement, asleep or woken on a condition; it knows the values of
# inputs and locals, and the copy that its notes hang on.
Thread = namedtuple("Thread", "left where method at known copy", defaults=("out", None, 0, (), None))
# The thread that has the mutex, and the rest of the state; the fields when it took the mutex, and the data. Of a call
# that is given a function: the copy of the fields, the condition that is told where it stops short, and what it does.
Held = namedtuple("Held", "thread fields counts others before data next hand turn", defaults=(None, None, None))


class Explorer:
    def __init__(self, module, calls):
        self.m = module
        self.start = module.start, (0,) * len(module.counts), tuple(map(Thread, calls))

    def step(self, thread):
        return self.m.methods[thread.method].steps[thread.at]

    def truth(self, thread, step, fields):
        return self.m.call(step.what, step.more[0], fields, thread.known)[0]

    def first_truth(self, thread, fields):
        """Of the guard of the method's first block, by the name that it should have, or None where it has none."""
        plain = thread.method.removesuffix("_with")
        stems = [thread.method, plain, re.sub("(_until|_for)$", "", plain)]
        stems += [one.removeprefix("try_") for one in stems]
        name = next(f"can_{one}" for one in stems if f"run_{one}" in self.m.functions)
        if name not in self.m.functions:
            return None
        handed = ", ".join(one for one, _ in thread.known) if self.m.takes(name) else ""
        return self.m.call(name, handed, fields, thread.known)[0]

    def is_open(self, thread, fields):
        """The guard is true of the block that a thread is in, of the first one also where it is not tested."""
        test, steps = self.guard(thread), self.m.methods[thread.method].steps[:thread.at]
        if test.kind != "lock":
            return self.truth(thread, test, fields)
        is_first = [one.kind for one in steps].count("lock") == 1
        return not is_first or self.first_truth(thread, fields) is not False

    def counted(self, counts, name, by):
        at = self.m.counts.index(name)
        return counts[:at] + (counts[at] + by,) + counts[at + 1:]

    def is_called_for(self, copy, step):
        fields, counts = copy
        tested = step.more[0]
        return counts[self.m.counts.index(step.what)] > 0 and (not tested or self.m.call(tested, "", fields, ())[0])

    def on(self, thread):
        """Up to the next statement that others may see: a note, a lock, or the end."""
        while True:
            step = self.step(thread)
            if step.kind == "if":
                thread = thread._replace(at=thread.at + 1 if self.is_called_for(thread.copy, step) else step.jump)
            elif step.kind == "answer":
                return Thread(thread.left)
            elif step.kind not in ("notify", "lock"):
                raise Broken("data")
            else:
                return thread if step.kind == "notify" else thread._replace(copy=None)

    def woken(self, threads, name, all_):
        """The threads after a note, in each way."""
        asleep = [k for k, one in enumerate(threads) if one.where == ("asleep", name)]
        for some in [asleep] if all_ or not asleep else [[one] for one in asleep]:
            yield tuple(one._replace(where=("woken", name)) if k in some else one for k, one in enumerate(threads))

    def released(self, held, *threads):
        """The mutex is given back."""
        if held.data != held.fields:
            raise Broken("data")
        return held.fields, held.counts, held.others + threads

    def ends(self, held, is_done):
        """The call is over, and the mutex is given back."""
        if not is_done and held.fields != held.before:
            raise Broken("changes")
        return self.released(held, Thread(held.thread.left))

    def stops(self, held):
        """The call ends short of its answer, with a number or a panic; before that `hand` is dropped."""
        for woken in self.woken(held.others, held.hand if self.m.hands_on else None, False):
            yield self.ends(held._replace(others=woken), False)

    def jumps(self, thread, step, fields):
        if step.kind == "if":
            return not self.is_called_for(thread.copy, step)
        return step.kind == "goto" or self.truth(thread, step, fields)

    def section(self, held):
        """What a thread that has the mutex does, up to where it gives it back, in each way."""
        thread, fields = held.thread, held.fields
        step, after = self.step(thread), thread._replace(at=thread.at + 1)
        if step.kind in ("while", "unless", "if", "goto"):
            at = step.jump if self.jumps(thread, step, fields) else after.at
            yield from self.section(held._replace(thread=thread._replace(at=at)))
        elif step.kind in ("run", "else", "work"):
            yield from self.body(held, step, after)
        elif step.kind == "give":
            yield from self.function(held, after)
        elif step.kind == "left":
            for at in (after.at, step.jump):
                yield from self.section(held._replace(thread=thread._replace(at=at)))
        elif step.kind == "notify":
            for woken in self.woken(held.others, step.what, step.more == ("all",)):
                yield from self.section(held._replace(thread=after, others=woken))
        elif step.kind == "wait":
            yield self.released(held, after._replace(where=("asleep", step.what)))
        elif step.kind == "drop":
            yield self.released(held, self.on(after))
        elif step.kind in ("return", "answer"):
            if step.what == "Refused" and self.first_truth(thread, fields):
                raise Broken("refusals")
            yield self.ends(held, step.kind == "answer")
        else:
            yield from self.section(self.changed(held._replace(thread=after), step))

    def changed(self, held, step):
        """After a statement that has one outcome."""
        if step.kind == "count":
            by = 1 if step.more == ("+",) else -1
            return held._replace(counts=self.counted(held.counts, step.what, by))
        if step.kind == "copy":
            return held._replace(thread=held.thread._replace(copy=(held.fields, held.counts)))
        if step.kind in ("hand", "forget"):
            return held._replace(hand=step.what)
        if step.kind == "next":
            return held._replace(next=held.fields)
        if step.kind == "keep":
            return held._replace(fields=held.next)
        raise Broken(f"no statement of a section: {step.kind}")

    def body(self, held, step, after):
        """The body of a block, on the fields or on the copy of them."""
        if not self.is_open(after, held.fields):
            raise Broken("guards")
        works, (handed, *_) = step.kind == "work", step.more
        answer, fields, known = self.m.call(step.what, handed, held.next if works else held.fields, after.known)
        if answer is OverflowError and step.kind != "else":
            yield from self.stops(held if works else held._replace(fields=fields))
            return
        at = step.jump if step.kind == "else" and answer is not OverflowError else after.at
        held = held._replace(thread=after._replace(at=at, known=known))
        if works:
            yield from self.section(held._replace(next=fields, turn=(step.what, handed, after.known)))
        else:
            yield from self.section(held._replace(fields=fields, data=held.data if answer is OverflowError else fields))

    def function(self, held, after):
        """The function that the call is given returns, or panics."""
        if held.turn is None or self.m.heeds_poison:
            raise Broken("poison" if held.turn else "data")
        name, handed, known = held.turn
        _, data, _ = self.m.call(name, handed, held.data, known)
        yield from self.section(held._replace(thread=after, data=data))
        yield from self.stops(held)

    def taken(self, thread, fields, counts, others):
        """The mutex is taken."""
        return Held(thread, fields, counts, others, before=fields, data=fields)

    def moves(self, fields, counts, threads):
        for k, one in enumerate(threads):
            others = threads[:k] + threads[k + 1:]
            if one in threads[:k]:
                continue
            if one.where == "out" and one.left:
                for name, given in self.m.calls():
                    called = Thread(one.left - 1, "at", name, 1, given + self.m.methods[name].locals)
                    yield from self.section(self.taken(called, fields, counts, others))
            elif one.where[0] == "asleep":
                yield fields, counts, others + (one._replace(where=("woken", one.where[1])),)
            elif one.where[0] == "woken":
                yield from self.section(self.taken(one._replace(where="at"), fields, counts, others))
            elif one.where == "at" and self.step(one).kind == "lock":
                yield from self.section(self.taken(one._replace(at=one.at + 1), fields, counts, others))
            elif one.where == "at":
                step = self.step(one)
                for woken in self.woken(others, step.what, step.more == ("all",)):
                    yield fields, counts, woken + (self.on(one._replace(at=one.at + 1)),)

    def notes(self, thread):
        """The conditions on which a thread has notes to make."""
        while thread.where == "at" and self.step(thread).kind == "notify":
            yield self.step(thread).what
            thread = self.on(thread._replace(at=thread.at + 1))

    def guard(self, thread):
        """The test of the block that a thread is in, or its lock."""
        steps = self.m.methods[thread.method].steps
        return next(one for one in steps[thread.at::-1] if one.kind in ("lock", "while", "unless"))

    def check(self, fields, counts, threads):
        waits = [one.where[1] for one in threads if one.where[0] in ("asleep", "woken")]
        if any(number != waits.count(name.replace("asleep", "can", 1)) for name, number in zip(self.m.counts, counts)):
            raise Broken("counts")
        if not self.m.keeps(fields):
            raise Broken("keeps")
        coming = {one.where[1] for one in threads if one.where[0] == "woken"}
        coming |= {name for one in threads for name in self.notes(one)}
        for one in threads:
            if one.where[0] == "asleep" and one.where[1] not in coming and self.truth(one, self.guard(one), fields):
                raise Broken("pending")

    def run(self):
        """How many states are reached."""
        seen, todo = {self.start}, deque([self.start])
        while todo and len(seen) < MOST_STATES:
            for fields, counts, threads in self.moves(*todo.popleft()):
                state = fields, counts, tuple(sorted(threads, key=hash))
                if state not in seen:
                    self.check(*state)
                    seen.add(state)
                    todo.append(state)
        return len(seen)


# ---- what is explored
# its numbers leave their width where someone else sleeps, on a condition of which one is woken
TALLY = """monitor Tally {
  int level = 0;
  int total = 2;
  method put() waituntil (level < 1) {
    level = level + 1;
  }
  method take() waituntil (level > 0) {
    level = level - 1;
    total = total + 1;
  }
}
"""
# what was taken is given back, and nothing else
POOL = """monitor Pool {
  param SIZE = 2 where (SIZE >= 1);
  int free = SIZE;
  method take() waituntil (free > 0) {
    free = free - 1;
  }
  method give() asserts (free < SIZE) {
    free = free + 1;
  }
}
"""
POOL_PLAN = "keep SIZE >= 1\nkeep free >= 0\nkeep free <= SIZE\nblock take: none\nblock give: 1 signal\n"
DATA, DERIVED = "crates/expresso_cli/data", "crates/expresso_cli/data/derived"
KEPT = ("bench/emitted", "examples/*/monitors")
TEXTS = {path.stem: path.read_text() for top in KEPT for path in ROOT.glob(f"{top}/*.rs")}
MONITORS = {"derived_" * (top == DERIVED) + path.stem: path.read_text()
            for top in (DATA, DERIVED, *KEPT) for path in ROOT.glob(f"{top}/*.mon")}
MONITORS |= {"tally": TALLY, "pool": POOL}
TEXTS["tally"] = module_text(Source(TALLY, "block put: 2 signal\nblock take: 1 signal\n", whole=["put"]))
TEXTS["pool"] = module_text(Source(POOL, POOL_PLAN, whole=["take", "give"]))
# how many calls each thread makes
CASES = {
    "buffer": [(3, 3), (2, 2, 1)], "lock": [(2, 2, 1)], "semaphore": [(2, 2, 1)], "twice": [(2, 2, 2)],
    "meeting": [(2, 2, 1)], "up": [(2, 1)], "barrier": [(2, 2, 1)], "readers_writers": [(3, 2), (2, 1, 1)],
    "account": [(2, 2)], "names": [(1, 1)], "derived_weights": [(2, 1, 1)], "job_gate": [(2, 2)],
    "map_gate": [(2, 2)], "shelf": [(2, 1), (1, 1, 1)], "tally": [(2, 2), (1, 1, 1)],
    "room": [(2, 2), (2, 1, 1)], "queue": [(2, 2), (1, 1, 1)], "pool": [(3, 3), (2, 2, 1)],
}
# A fault, the module, the calls of each thread, what it breaks, what stands for the first such text of the module, and
# of which methods the calls are, and what the module is opened with.
Fault = namedtuple("Fault", "name module calls breaks text instead names chosen", defaults=[r"\w+", ()])
PLAIN = r"(?!try_)\w+(?<!_with)(?<!_until)"
LOOP = r"( +inner = wait\(.*\n)( +inner\.\w+ -= 1;\n)"
NOTE = r"        if copy\.asleep_get > 0 \{\n    (.*\n)        \}\n"
GIVEN = r"(.*f\(&mut inner.*\n)(.*forget.*\n)?(        inner\.state = next;\n)"
TIMED = r"( +let Some\(left\).*\n.*\n.*\n)(.*asleep_get.*\n.*\n.*\n)"
ASSERTED = r"(.*run_end_read\(\);\n.*\n.*\n)        if copy(?:.*\n){3}"
AFTER = r"(.*f\(&mut inner.*\n)((?:.*\n)*?        drop\(inner\);\n)"
FAULTS = [
    Fault("who waits is not counted", "buffer", (2, 1), "counts", r" +inner\.\w+ \+= 1;\n", ""),
    Fault("the count is taken off before the wait", "buffer", (2, 1), "counts", LOOP, r"\2\1"),
    Fault("the count of another condition", "buffer", (2, 1), "pending", r"copy\.asleep_get", "copy.asleep_put"),
    Fault("the count is read before the wait", "buffer", (2, 2), "pending",
          r"(        while (?:.*\n){6})        let copy = inner\.copy\(\);\n", r"        let copy = inner.copy();\n\1"),
    Fault("the state is read before the body", "readers_writers", (2, 2), "pending",
          r"(        inner\.state\.run_end_read\(\);\n)(        let copy = inner\.copy\(\);\n)", r"\2\1"),
    Fault("an `if` for a `while`", "buffer", (2, 1), "guards", r"while !", "if !"),
    Fault("a wait on another condition", "buffer", (2, 1), "counts", r"wait\(&self\.can_put", "wait(&self.can_get"),
    Fault("a note on another condition", "buffer", (2, 1), "pending", r"can_get\.notify", "can_put.notify"),
    Fault("no note", "buffer", (2, 1), "pending", NOTE, ""),
    Fault("one is woken in place of all", "readers_writers", (3, 1, 1), "pending", "notify_all", "notify_one", PLAIN),
    Fault("the test of another condition", "readers_writers", (2, 2), "pending", r"copy\.state\.can_start_write",
          "copy.state.can_end_write"),
    Fault("no note after an overflow", "tally", (1, 1, 1), "pending", r" +self\.can_take.*\n(?= +return)", ""),
    Fault("an overflow that changes something", "tally", (1, 1), "changes",
          r"(        next\.total = .*\n)(        \*self = next;\n)", r"\2\1"),
    Fault("a refusal that changes something", "buffer", (2, 1), "changes",
          r"(        if !inner(?:.*\n){3})(        inner\.state\.run_put\(\);\n)", r"\2\1"),
    Fault("an assertion that is refused and changes something", "shelf", (2, 1), "guards",
          r"(        if !inner\.state\.can_end_read(?:.*\n){3})(.*inner\.state\.run_end_read\(\);\n)", r"\2\1"),
    Fault("an assertion that is refused where it is true", "shelf", (2, 1), "refusals",
          r"if !inner\.state\.can_end_read", "if !inner.state.can_start_write"),
    Fault("an assertion that is not tested", "shelf", (2, 1), "guards", r"        if !inner\.state\.can_end_read(?:.*\n){3}",
          ""),
    Fault("no note after an assertion", "shelf", (2, 1), "pending", ASSERTED, r"\1"),
    Fault("no note where the function panics", "buffer", (1, 1, 1), "pending", r" +self\.0\.notify_one\(\);\n", ""),
    Fault("a note of another condition where it panics", "buffer", (1, 1, 1), "pending", r"HandOn\(&self\.can_get",
          "HandOn(&self.can_put"),
    Fault("the note is forgotten before the function", "buffer", (1, 1, 1), "pending",
          r"(hand = .*can_get(?:.*\n){3})(.*f\(.*\n)(.*forget.*\n)", r"\1\3\2"),
    Fault("the state is stored before the function", "buffer", (2, 1), "changes", GIVEN, r"\3\1\2"),
    Fault("a function after the mutex is given back", "buffer", (2, 1), "data", AFTER, r"\2\1"),
    Fault("a function of a call that is refused", "buffer", (2, 1), "data",
          r"(        if !inner(?:.*\n){3}(?:.*\n){3})(.*f\(.*\n)", r"\2\1"),
    Fault("no function", "buffer", (2, 1), "data", r".*f\(&mut inner.*\n", ""),
    Fault("a function that runs twice", "buffer", (2, 1), "data", r"(.*f\(&mut inner.*\n)", r"\1\1"),
    Fault("a lock that heeds poison", "buffer", (1, 1), "poison", r"(\.lock\(\)\.unwrap)_or_else\(.*\)", r"\1()"),
    Fault("who gives up has not tested again", "buffer", (1, 1, 1), "refusals", TIMED, r"\2\1"),
    Fault("who gives up is counted still", "buffer", (1, 1), "counts", r"(\n +let Some\(left\).*\n.*\n.*)(\n.*\+= 1;)",
          r"\2\1"),
    Fault("an `if` for a `while` with a time", "buffer", (1, 1), "guards", r"while !(.*\n +let Some\(left\))",
          r"if !\1"),
    Fault("a wait for a time on another condition", "buffer", (2, 1), "counts", r"wait_for\(&self\.can_put",
          "wait_for(&self.can_get"),
    Fault("who gives up has changed something", "buffer", (1, 1), "changes",
          r"( +while !.*\n +let Some(?:.*\n){7})( +inner\.state\.run_put\(\);\n)", r"\2\1"),
    Fault("a call for a time that is another", "buffer", (1,), "times: put_for", r"self\.put_until\(end\)",
          "self.get_until(end)"),
    Fault("no note where the function panics in a room of one", "room", (1, 1, 1), "pending",
          r" +self\.0\.notify_one\(\);\n", "", chosen=(1,)),
    Fault("who gives up in a room of one has not tested again", "room", (1, 1, 1), "refusals", TIMED, r"\2\1",
          chosen=(1,)),
    Fault("a function after the mutex of a room is given back", "room", (2, 1), "data", AFTER, r"\2\1", chosen=(3,)),
    Fault("an `if` for a `while` in a room of two", "room", (3, 1), "guards", r"while !", "if !", PLAIN, (2,)),
    Fault("one is woken in place of all where a queue is closed", "queue", (1, 1, 1), "pending", "notify_all",
          "notify_one", PLAIN, (1, 1)),
    Fault("an assertion that reads what stands in the file", "pool", (1,), "keeps", r"self\.free < self\.size",
          "self.free < 2", chosen=(1,)),
    Fault("no note after an assertion in a pool of one", "pool", (2, 2), "pending", r"        if copy\.(?:.*\n){3}", "",
          chosen=(1,)),
    Fault("a start that does not heed its parameter", "room", (1,), "opens", r"(Self \{\n +)cap,", r"\1cap: 4,",
          chosen=(4,)),
    Fault("a start that copies what stands in the file", "queue", (1,), "opens", r"free: cap,", "free: 2,",
          chosen=(2, 100)),
    Fault("a start that copies another parameter", "queue", (1,), "opens", r"free: cap,", "free: last_item,",
          chosen=(1, 1)),
    Fault("parameters in another order", "queue", (1,), "opens", r"start\(cap, last_item\)", "start(last_item, cap)",
          chosen=(1, 1)),
    Fault("numbers that are not tested", "queue", (1,), "opens", r" +assert!.*\n", "", chosen=(1, 1)),
    Fault("a limit that is too narrow", "room", (1,), "opens", r"cap >= 1\n", "cap > 1\n", chosen=(4,)),
    Fault("a limit that no parameter has", "queue", (1,), "opens", r" && last_item < 1000\n", "\n", chosen=(1, 1)),
    Fault("a copy with what stands in the file", "room", (1,), "copies", r"state: self\.state",
          "state: State::start(4)", chosen=(4,)),
    Fault("a copy without a count", "room", (1,), "copies", r"asleep_get: self\.asleep_get", "asleep_get: 0",
          chosen=(4,)),
    Fault("a guard that reads what stands in the file", "room", (2,), "keeps", r"self\.count < self\.cap",
          "self.count < 4", chosen=(1,)),
    Fault("a note whatever the count: no fault", "buffer", (3, 2), None, NOTE, r"\1"),
]


def explore(name, text, calls, chosen, names=r"\w+"):
    """What breaks, or None, and how many states were reached."""
    try:
        return None, Explorer(Module(text, MONITORS[name], chosen, names), calls).run()
    except Broken as broken:
        return str(broken), 0


def judge(name, calls, chosen):
    broken, states = explore(name, TEXTS[name], calls, chosen)
    if broken:
        sys.exit(f"{name}, opened with {chosen}, calls of each thread {calls}: {broken}")
    return states


def plant(fault):
    text, count = re.subn(fault.text, fault.instead, TEXTS[fault.module], count=1)
    broken, _ = explore(fault.module, text, fault.calls, fault.chosen, fault.names)
    if not count or broken != fault.breaks:
        sys.exit(f"{fault.module}, {fault.name}: {broken} and not {fault.breaks} is found, in {count} place")


def main():
    states = sum(judge(name, calls, chosen) for name, cases in CASES.items() for calls in cases
                 for chosen in choices(MONITORS[name]))
    for fault in FAULTS:
        plant(fault)
    print(f"{len(CASES)} modules lose no wake-up in {states} states, and {len(FAULTS) - 1} faults in them are found")


if __name__ == "__main__":
    main()
