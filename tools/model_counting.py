#!/usr/bin/env python3
"""Looks for lost wake-ups by trying all that three clients may do under a plan: see tools/interleavings.py.

    tools/model_counting.py                 counted plans, of the rows and of random monitors, and planted faults
    tools/model_counting.py MONITOR PLAN    one plan, as `expresso compile` prints it

MONITOR is in canonical form, as `expresso check` prints it. The first fails where a wake-up is lost under a plan that
is lawful by counting, or none under one with a fault.
"""

import collections
import itertools
import pathlib
import random
import sys

sys.dont_write_bytecode = True
from formulas import forms_of  # noqa: E402
from interleavings import Machine, Trial, Unfit, trial_of  # noqa: E402
from tables import Tables  # noqa: E402

RANDOM_PLANS, SEED = 20, 53

# Plans of the rows that `audit --count` refuses though no wake-up of three clients is lost: nobody waits for `true`;
# whoever waits to be `drained` is woken by broadcasts alone; where nothing is left nobody can `grow`; and nothing rests
# on what is kept.
HARMLESS = {"unproved: counts 2 release", "unproved: counts 3 drained", "unproved: gives 1 grow",
            "unproved: keep count <= 3 put", "unproved: keep x >= 0 m"}

# Counted wrongly: one signal is for two, and for one none is needed; or one is for any number.
FAULTS = {"more": 1}, {"most": 1}


def plans_of_rows():
    """Of each plan that is printed or judged with `--count`: its row, the monitor, the plan, and what is said of it."""
    for call in Tables().calls:
        command, *files = [word for word in call.words[1:] if not word.startswith("-")] or [""]
        if "--count" in call.words and (command, call.status) == ("compile", "Done"):
            yield call.row, call.files[files[0]].decode(), call.text.decode(), "lawful"
        elif "--count" in call.words and command == "audit" and call.text.startswith((b"lawful", b"un")):
            yield call.row, *(call.files[name].decode() for name in files), call.text.decode().splitlines()[0]


def random_monitor(chance):
    """Blocks that take from a field behind a guard of one to four parts, and others that give to it; some assert."""
    back, sign, guard = chance.choice([("+", "-", "a > 0"), ("+", "-", "a >= 2"), ("-", "+", "a < 2")])
    for part in chance.sample(["p", "!p", "a != 1", "a < 2", "a > 0"], chance.choice([0, 1, 1, 2, 3])):
        guard = chance.choice(["({}) && {}", "{} || ({})"]).format(*chance.sample([guard, part], 2))
    changes = ["p = !p;", "p = true;", "", "", ""]
    blocks = [(guard, f"a = a {sign} 1;")] * chance.choice([1, 2]) + [("true", changes[0])]
    blocks += [(chance.choice(["true", "p", "a < 2"]), f"a = a {back} {chance.choice([0, 1, 1, 2])};") for _ in "12"]
    shown = [["waituntil ({}) {{".format(guard), body, chance.choice(changes), "}"] for guard, body in blocks]
    alone = [[block[0].replace("waituntil", chance.choice(["waituntil", "waituntil", "asserts"])), *block[1:]]
             for block in shown[:-1]]
    methods = [[f"method one{number}() {block[0]}", *block[1:]] for number, block in enumerate(alone)]
    methods.append(["method last()", *shown[-1], *chance.choice([[], [], chance.choice(shown)])])
    return "\n".join(["monitor Some {", "int a = 0;", "bool p = false;",
                      *(line for method in methods for line in method if line), "}"])


def random_trials(chance, **fault):
    """Plans in which each guard is counted by one of its rows, where it has any, with a signal on some of them."""
    while True:
        machine = Machine(random_monitor(chance))
        notes = [{} for _ in machine.guards]
        for condition, one in enumerate(machine.monitor.conditions, 1):
            rows = len(forms_of(one.guard))
            kinds = (machine.counted(condition, chance.randint(1, rows), **fault) if rows
                     else dict.fromkeys(range(len(notes)), "broadcast"))
            for block, kind in kinds.items():
                notes[block][condition] = kind, chance.choice(["", " tested"])
        if any(kind == "signal" for on in notes for kind, _ in on.values()):
            yield Trial(machine, notes)


def check():
    counts, failures = collections.Counter(), []

    def judge(name, trial, is_fault):
        many, whole, way = trial.tried()
        counts.update(situations=many, parts=not whole, faults=is_fault, plans=not is_fault)
        if is_fault == (way is None):
            failures.append("\n".join([f"{name}: {'nothing' if is_fault else 'a wake-up'} is lost", *(way or [])]))

    for row, monitor, plan, said in plans_of_rows():
        try:
            judge(f"{row}, {said}", trial_of(monitor, plan), said != "lawful" and said not in HARMLESS)
        except Unfit:
            counts["unfit"] += 1
    for trial in itertools.islice(random_trials(random.Random(SEED)), RANDOM_PLANS):
        judge(f"{trial.machine.text}\n{trial.notes}", trial, False)
    for fault in FAULTS:
        trials = itertools.islice(random_trials(random.Random(SEED), **fault), RANDOM_PLANS)
        judge(f"random plans, {fault}", next((trial for trial in trials if trial.tried()[2]), trial), True)
    print(*failures, sep="\n", end="\n" if failures else "")
    print(f"{counts['plans']} counted plans and {counts['faults']} planted faults: {counts['situations']} situations, "
          f"{counts['parts']} plans in part, {counts['unfit']} not tried")
    return 1 if failures or not counts["plans"] else 0


def main(monitor, plan):
    try:
        many, whole, way = trial_of(pathlib.Path(monitor).read_text(), pathlib.Path(plan).read_text()).tried()
    except Unfit as unfit:
        print(unfit.__doc__, file=sys.stderr)
        return 2
    end = "none is lost" if way is None else "a wake-up is lost:"
    print(f"{many} situations{'' if whole else ', and there are more'}: {end}", *(way or []), sep="\n")
    return 0 if way is None else 1


if __name__ == "__main__":
    sys.exit(main(*sys.argv[1:]) if len(sys.argv) == 3 else check())
