"""All that three clients may do under a plan of a monitor, by its definitions and with no code of the product.

A client calls any method at any time, whoever waits may wake by nothing, and the notes of a block come after it, in any
order, while others go on. (A call that tries is one that doesn't wait, or nothing.) A block that asserts has
condition 0: where its guard is false nothing is done. Numbers are small, and a block that would leave them overflows.
A wake-up is lost where a client waits whose guard is true, nobody was woken on its condition, and no note on it is to
come.
"""

import collections
import itertools
import math
import re

from formulas import CONSTANT, Formula, forms_of
from monitors import MOST_INPUTS, OWN, monitor_of
from recheck import read_plan

CLIENTS, ARGUMENTS, LARGEST, MOST_STATES, MOST_SITUATIONS = 3, (1, 2), 6, 400, 7000


class Unfit(Exception):
    """A monitor is not in canonical form, or has too many states for all to be tried, or a text is no plan of it."""


# ---- formulas and bodies in Python, of `v`: the fields, and then the inputs and locals
def function(*lines):
    made = {}
    exec("\n ".join(["def made(v):", *lines]), made)
    return made["made"]


def value_code(form, place):
    return " + ".join(f"{times}*v[{place(at)}]" if at != CONSTANT else str(times) for at, times in form.items()) or "0"


def truth_code(formula, place, taken=iter(())):
    """With these truths of its rows, in reading order; a row for which there is None is as it is."""
    if formula.kind == "row":
        truth = next(taken, None)
        return f"{value_code(formula.value, place)} <= 0" if truth is None else str(truth)
    if formula.kind == "flag":
        return f"v[{place(formula.value[0])}] == {formula.value[1]}"
    parts = [f"({truth_code(part, place, taken)})" for part in formula.value]
    return (" and " if formula.kind == "all" else " or ").join(parts) or str(formula.kind == "all")


def body_code(body, place, largest, margin=""):
    for statement in body:
        if len(statement) == 3:
            for word, part in (f"if {truth_code(statement[0], place)}", statement[1]), ("else", statement[2]):
                yield from [f"{margin}{word}:", *body_code(part, place, largest, margin + " "), f"{margin} pass"]
            continue
        target, value = f"v[{place(place_of(statement[0]))}]", statement[1]
        is_truth = isinstance(value, Formula)
        yield f"{margin}{target} = {truth_code(value, place) if is_truth else value_code(value, place)}"
        yield f"{margin}if abs({target}) > {largest}: return None"


def place_of(variable):
    return variable.value[0] if isinstance(variable, Formula) else next(iter(variable))


def inputs_of(block):
    """The values that a call may have for its inputs, and 0 for each that it hasn't."""
    kinds = [isinstance(one, Formula) for one in block.own.values() if place_of(one) < OWN + MOST_INPUTS]
    for values in itertools.product(*[(False, True) if is_truth else ARGUMENTS for is_truth in kinds]):
        yield values + (0,) * (MOST_INPUTS - len(values))


def starts_of_locals(text):
    """The values with which the locals of each method begin, and 0 for each that it hasn't."""
    constants, starts = {"true": True, "false": False} | dict(re.findall(r"const (\w+) = (-?\d+)", text)), {}
    for method in text.split("method ")[1:]:
        values = [int(constants.get(value, value)) for value in re.findall(r"local \w+ \w+ = (-?\w+)", method)]
        starts[method.partition("(")[0]] = (*values, *[0] * (MOST_INPUTS - len(values)))
    return starts


# ---- what blocks do
class Machine:
    """A monitor, its calls, and all states and places that there are; a place is a call, block, inputs and locals."""

    def __init__(self, text):
        try:
            self.text, self.monitor, locals_of = text, monitor_of(text), starts_of_locals(text)
        except (AttributeError, LookupError, TypeError, ValueError):
            raise Unfit from None
        blocks, self.fields = self.monitor.blocks, len(self.monitor.fields)
        place = self.place = lambda at: at if at < OWN else at - OWN + self.fields
        starts = [start for _, _, start in self.monitor.fields]
        self.start = tuple(one.kind == "all" if isinstance(one, Formula) else one.get(CONSTANT, 0) for one in starts)
        forms = [form for block in blocks for form in forms_of(block.guard)]
        largest = 1 + max([1, *map(abs, self.start), *(abs(form.get(CONSTANT, 0)) for form in forms)])
        if largest > LARGEST:
            raise Unfit
        self.guards = [function(f"return {truth_code(block.guard, place)}") for block in blocks]
        self.opens = [function(f"return {truth_code(one.guard, place)}") for one in self.monitor.conditions]
        self.bodies = [function("v = list(v)", *body_code(block.body, place, largest), "return tuple(v)")
                       for block in blocks]
        named = itertools.groupby(range(len(blocks)), lambda number: blocks[number].name.partition(".")[0])
        self.calls = [(numbers, inputs, locals_of[name]) for name, numbers in ((one, list(all_)) for one, all_ in named)
                      for inputs in inputs_of(blocks[numbers[0]])]
        self.steps, self.moves = {}, collections.defaultdict(set)
        self.states = self.reached()

    def step(self, block, state, inputs, own):
        """None where its guard is false, the empty tuple where it overflows, else the state and the locals then."""
        key = block, state, inputs, own
        if key not in self.steps:
            last = self.bodies[block](state + inputs + own) or () if self.guards[block](state + inputs + own) else None
            self.steps[key] = last and (last[:self.fields], last[self.fields + MOST_INPUTS:])
        return self.steps[key]

    def reached(self):
        """The states. From which to which of them each block goes is noted."""
        states, places = {self.start}, {(number, 0, *call[1:]) for number, call in enumerate(self.calls)}
        todo = [(self.start, place) for place in places]
        while todo:
            state, (number, at, inputs, own) = todo.pop()
            blocks = self.calls[number][0]
            if step := self.step(blocks[at], state, inputs, own):
                self.moves[blocks[at]].add((state, step[0]))
                place = number, at + 1, inputs, step[1]
                if step[0] not in states:
                    states.add(step[0])
                    todo += [(step[0], place) for place in places]
                if at + 1 < len(blocks) and place not in places:
                    places.add(place)
                    todo += [(state, place) for state in states]
            if len(states) > MOST_STATES:
                raise Unfit
        return states

    def counted(self, condition, row, more=0, most=math.inf):
        """The notes of blocks by a row, over all states that there are, and from the words of the definition. The slack
        has no end where the guard is true with the row taken for false; else it is what the row has to spare and one,
        where the guard is true with it taken for true, and else 0. A block leaves at most the slack that there was,
        less one where it waits there, and one more for a signal. To let it leave more, or to cut off what it leaves, is
        a fault.
        """
        guard = self.monitor.conditions[condition - 1].guard
        without, given = (function("return " + truth_code(guard, self.place, iter([None] * (row - 1) + [truth])))
                          for truth in (False, True))
        form = function("return " + value_code(forms_of(guard)[row - 1], self.place))
        slack = {state: math.inf if without(state) else max(0, 1 - form(state)) if given(state) else 0
                 for state in self.states}
        notes = {}
        for block, one in enumerate(self.monitor.blocks):
            gain = max((min(most, slack[after]) + (one.condition == condition) - slack[before]
                        for before, after in self.moves[block] if slack[before] < math.inf), default=0)
            if gain > more:
                notes[block] = "signal" if gain <= 1 + more else "broadcast"
        return notes


# ---- what clients do: each is at a stage, at a block of a call, with its locals, and has notes to come
IDLE = "idle", 0, 0, (), ()


def told(client, notes):
    """The client with notes to make, and then idle, or, where it is behind its call's first block, going on."""
    return "tells" if notes else "goes on" if client[2] else "idle", *client[1:4], notes


def trial_of(monitor, plan):
    """By their texts."""
    machine = Machine(monitor)
    try:
        return Trial(machine, read_plan(machine.monitor, plan.splitlines()[::-1])[2])
    except (LookupError, ValueError):
        raise Unfit from None


class Trial:
    """What clients do under the notes of each block: of a condition a kind, and a test or none."""

    def __init__(self, machine, notes):
        self.machine, self.notes, self.blocks = machine, notes, machine.monitor.blocks

    def block(self, client):
        return self.machine.calls[client[1]][0][client[2]]

    def condition(self, client):
        return self.blocks[self.block(client)].condition

    def step(self, state, client):
        return self.machine.step(self.block(client), state, self.machine.calls[client[1]][1], client[3])

    def enters(self, state, client):
        """The state and the client when it gives the mutex back."""
        step, (_, number, at, _, _) = self.step(state, client), client
        awaited = self.condition(client)
        if step is None:
            return state, ("waits", *client[1:]) if awaited else IDLE
        if not step:
            return state, told(IDLE, ((awaited, "signal"),) if awaited else ())
        notes = tuple((condition, kind) for condition, (kind, test) in self.notes[self.block(client)].items()
                      if not test or self.machine.opens[condition - 1](step[0]))
        is_last = at + 1 == len(self.machine.calls[number][0])
        return step[0], told(IDLE if is_last else ("", number, at + 1, step[1]), notes)

    def moves(self, state, clients):
        """What may come next: in words, the state, and the clients."""
        for place, client in enumerate(clients):
            others, stage = clients[:place] + clients[place + 1:], client[0]
            calls = [("", number, 0, call[2], ()) for number, call in enumerate(self.machine.calls)]
            for one in calls if stage == "idle" else [client] if stage in ("goes on", "woken") else []:
                after, then = self.enters(state, one)
                name = self.blocks[self.block(one)].name
                yield f"{name}: one that was {stage} now {then[0]}", after, others + (then,)
            if stage == "waits":
                yield "one wakes by nothing", state, others + (("woken", *client[1:]),)
            for number, (condition, kind) in enumerate(client[4]):
                then = told(client, client[4][:number] + client[4][number + 1:])
                waiting = [at for at, one in enumerate(others)
                           if one[0] == "waits" and self.condition(one) == condition]
                for some in [waiting] if kind == "broadcast" or not waiting else [[at] for at in waiting]:
                    woken = (("woken", *one[1:]) if at in some else one for at, one in enumerate(others))
                    yield f"the {kind} on {condition} wakes {len(some)}", state, (*woken, then)

    def is_lost(self, state, clients):
        coming = {condition for one in clients for condition, _ in one[4]}
        coming |= {self.condition(one) for one in clients if one[0] == "woken"}
        return any(one[0] == "waits" and self.condition(one) not in coming and self.step(state, one) is not None
                   for one in clients)

    def tried(self):
        """How many situations were tried, whether these are all, and what leads to a lost wake-up, or None."""
        first = self.machine.start, (IDLE,) * CLIENTS
        ways, todo = {first: None}, collections.deque([first])
        while todo and len(ways) < MOST_SITUATIONS:
            here = todo.popleft()
            if self.is_lost(*here):
                return len(ways), True, way_to(ways, here)
            for words, state, clients in self.moves(*here):
                there = state, tuple(sorted(clients))
                if there not in ways:
                    ways[there] = words, here
                    todo.append(there)
        return len(ways), not todo, None


def way_to(ways, here):
    """Iterated from the last: a way may be long."""
    way = []
    while ways[here]:
        way.append(f"  {ways[here][0]}; fields {' '.join(map(str, here[0]))}")
        here = ways[here][1]
    return way[::-1]
