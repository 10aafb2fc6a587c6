#!/usr/bin/env python3
"""Checks that README.md and docs/GUIDE.md show what the program prints: `tools/guide_check.py [PROGRAM]`.

1. Where a document says that a command prints something, and a block of lines follows, the command prints these lines.
   A line `...` stands for any lines.
2. Each monitor of GUIDE's advice has the plan and the reasons that stand there.
3. Each message in GUIDE's tables comes of the slips that stand beside it.
4. Each command that README lists does its work.

Prints each place where the program says otherwise, and fails where there is one.
"""

import pathlib
import re
import subprocess
import sys
import tempfile

ROOT = pathlib.Path(__file__).resolve().parent.parent
HOME = ROOT / "crates" / "expresso_cli"
GUIDE, README = (ROOT / "docs" / "GUIDE.md").read_text(), (ROOT / "README.md").read_text()
BLOCK = r"^```\w*\n((?s:.*?))^```\n"

# Of each slip the message that it is to get: bodies, guards and whole heads of a monitor with the fields `int x`,
# `bool held` and the constant `C`, and a method `m(int n)`.
BODIES = {
    "no token starts here": ['x = "a";', "x = x % 2;", "if (held & held) { }", "x = \u00e9;", f"x = {'a' * 33};",
                             "x = x / 2;", "/* why */", "\ufeff"],
    "syntax": ["x = 1", "x += 1;", "if (held) { } else if (held) { }", "let y = x;", "int y = x;", "if (held) x = 1;"],
    "unknown name": ["x = y;"],
    "not a field": ["n = 1;", "C = 1;"],
    "wrong type": ["if (held == true) { }", "if (x) { }"],
    "product of two variables": ["x = x * n;"],
    "misplaced return": ["if (held) { return x; }", "return x; x = 1;"],
    "number too large": ["x = 9223372036854775808;"],
}
HEADS = {
    "no token starts here": ["method m(n: int) waituntil (true) { }"],
    "syntax": ["method m() waituntil (x = 1) { }", "method m() waituntil (0 < x < 2) { }", "method m() { x = 1; }",
               "method m() -> int waituntil (true) { return x; }", "method m() waituntil (true) { } int y = 0;",
               "method local() waituntil (true) { }"],
    "unknown name": ["method a(int k) waituntil (true) { } method b() waituntil (true) { x = k; }"],
    "name used twice": ["method m(int x) waituntil (true) { }", "method x() waituntil (true) { }"],
}
FIELDS = {"syntax": ["int y;", "const A = C + 1;", "const b = C;"]}
CLIENTS = {"unknown method": "client A { nope(); }", "wrong number of arguments": "client A { acquire(1); }"}
OTHER_WORDS = ["check data/lock.mon --relay", "run data/lock.mon data/locks.cl --relay --relay",
               "simulate data/lock.mon data/locks.cl --spurious 3", "run data/lock.mon data/locks.cl --workers 17",
               "check data/lock.mon data/lock.mon", "run data/lock.mon"]


class Checker:
    """A program, a folder for files, and the faults that were found."""

    def __init__(self, program, folder):
        self.program, self.folder, self.faults, self.count = program, pathlib.Path(folder), [], 0

    def run(self, words):
        """The status and the output of a command, in the folder where the documents give it."""
        ran = subprocess.run([self.program, *words], cwd=HOME, capture_output=True, text=True, timeout=300, check=False)
        return ran.returncode, ran.stdout

    def file(self, name, text):
        """A file with this text."""
        path = self.folder / name
        path.write_text(text)
        return str(path)

    def wants(self, what, status, lines, words):
        """The command ends with this status, and prints the lines, one row of them after the other."""
        self.count += 1
        found, printed = self.run(words)
        at = 0
        for part in re.split(r"^\.\.\.\n", lines, flags=re.M):
            begin = ("\n" + printed).find("\n" + part, at)
            if begin < 0 or found != status:
                self.faults.append(f"{what}: expresso {' '.join(words)}: status {found} and\n{printed}wanted: {lines}")
                return
            at = begin + len(part)


def shown_commands(checker):
    """Each command of GUIDE of which a block says what is printed."""
    for found in re.finditer(r"`expresso ([^`]*)`\s+prints\b([^`]*?)\n\n" + BLOCK, GUIDE, re.M):
        checker.wants("GUIDE", 0, found[3], found[1].split())
    tries = re.search(r"`data/tries\.cl`\s+" + BLOCK, GUIDE, re.M)[1]
    if tries.split() != (HOME / "data" / "tries.cl").read_text().split():
        checker.faults.append("GUIDE: another data/tries.cl")


def readme(checker):
    """The run that README begins with, its files, and each command that it lists."""
    blocks = re.findall(BLOCK, README, re.M)
    for name in ("buffer.mon", "two.cl"):
        if (HOME / "data" / name).read_text() not in blocks:
            checker.faults.append(f"README: another data/{name}")
    log = next(it for it in blocks if it.startswith("plan Buffer\n"))
    checker.wants("README", 0, log[: log.index("A.1 ")], ["run", "data/buffer.mon", "data/two.cl"])
    checker.wants("README", 0, log[log.index("A.1 "):], ["simulate", "data/buffer.mon", "data/two.cl"])
    buffer = (HOME / "data" / "buffer.mon").read_text()
    four = checker.file("four.mon", buffer.replace("CAP = 1", "CAP = 4"))
    both = "condition 1 broadcast: count < CAP\ncondition 2 broadcast: count > 0\n"
    checker.wants("README", 0, both, ["compile", four])
    checker.wants("README", 0, both.replace("broadcast", "signal"), ["compile", four, "--count"])
    wrong = checker.file("wrong.mon", buffer.replace("< CAP", "< CAPACITY"))
    checker.wants("README", 1, f"refused: {wrong}:4:35: unknown name\n", ["check", wrong])
    listed = next(it for it in blocks if "# the plan\n" in it)
    for line in listed.splitlines():
        words, _, into = line.partition("#")[0].partition(">")
        words = [word.replace("/tmp", str(checker.folder)) for word in words.split()[1:]]
        checker.wants("README", 0, "", words)
        if into:
            checker.file(pathlib.Path(into.strip()).name, checker.run(words)[1])


def advice(checker):
    """The two shelves, before and after the advice."""
    first, second = (it for it in re.findall(BLOCK, GUIDE, re.M) if it.startswith("monitor Shelf "))
    why = next(it for it in re.findall(BLOCK, GUIDE, re.M) if it.startswith("why endWrite 3 tested"))
    shelf = checker.file("shelf.mon", first)
    checker.wants("GUIDE", 0, "...\nwhy 1 broadcast startRead: ", ["explain", shelf])
    checker.wants("GUIDE", 0, why, ["explain", shelf])
    last = re.search(r"the plan's last line is `(block endWrite: [^`]*)`", GUIDE)[1]
    other = checker.file("state.mon", second)
    checker.wants("GUIDE", 0, last + "\n", ["compile", other])
    if not checker.run(["compile", other])[1].endswith(last + "\n"):
        checker.faults.append(f"GUIDE: the last line is not `{last}`")
    two = "method releaseTwo() waituntil (true) { free = free + 2; }\n}"
    semaphore = (HOME / "data" / "semaphore.mon").read_text().rstrip().removesuffix("}") + two
    why = next(it for it in re.findall(BLOCK, GUIDE, re.M) if it.startswith("why release 1: "))
    checker.wants("GUIDE", 0, why, ["explain", "--count", checker.file("two.mon", semaphore)])
    size = re.search(r"^sed '(.*)' job_gate\.mon >", GUIDE, re.M)[1]
    gate = (ROOT / "examples" / "jobs" / "monitors" / "job_gate.mon").read_text()
    larger = subprocess.run(["sed", size], input=gate, capture_output=True, text=True, check=True).stdout
    large = checker.file("large.mon", larger)
    checker.wants("GUIDE", 0, "monitor LargeJobGate {\n  const CAP = 64;\n", ["check", large])


def slips(checker):
    """Each message of GUIDE's table on refusals."""
    for message, head, fields in slip_monitors():
        fields = f"int x = 0; bool held = false; const C = 2; {fields}"
        monitor = checker.file("slip.mon", f"monitor M {{ {fields} {head} }}\n")
        checker.wants("GUIDE", 1, "", ["check", monitor])
        if not checker.run(["check", monitor])[1].endswith(f": {message}\n"):
            checker.faults.append(f"GUIDE: not `{message}`, but {checker.run(['check', monitor])[1]}of {head} {fields}")
    for message, text in CLIENTS.items():
        clients = checker.file("slip.cl", text)
        checker.wants("GUIDE", 1, f"refused: {clients}:1:12: {message}\n", ["turns", "data/lock.mon", clients])
    for words in OTHER_WORDS:
        checker.wants("GUIDE", 2, "usage:\n", words.split())
    for name in (checker.folder / "none", checker.folder):
        checker.wants("GUIDE", 3, f"read fault: {name}\n", ["check", str(name)])
    named = set(re.findall(r"`([a-z ]+)`", "".join(re.findall(r"^\| (`[^|]*) \|", GUIDE, re.M))))
    for message in {*BODIES, *HEADS, *FIELDS, *CLIENTS} - named:
        checker.faults.append(f"GUIDE: no row for `{message}`")


def slip_monitors():
    """Each slip: its message, a method, and fields."""
    for message, bodies in BODIES.items():
        yield from ((message, f"method m(int n) waituntil (true) {{ {body} }}", "") for body in bodies)
    for message, heads in HEADS.items():
        yield from ((message, head, "") for head in heads)
    for message, fields in FIELDS.items():
        yield from ((message, "", field) for field in fields)


def audits(checker):
    """The plans that GUIDE shows, each message of its table on plans, and a state that it shows of what is unproved."""
    lock, slots, state = (next(it for it in re.findall(BLOCK, GUIDE, re.M) if it.startswith(start))
                          for start in ("plan Lock\n", "plan Buffer\ncondition", "unproved: none put 2\n"))
    whole = lock.replace("release: none", "release: 1 signal")
    reach, add = "method reach(int n) waituntil (n <= x) { }", "method add() waituntil (true) { x = x + 1; }"
    level = checker.file("level.mon", f"monitor Level {{ int x = 0; {reach} {add} }}")
    four = checker.file("four.mon", (HOME / "data" / "buffer.mon").read_text().replace("CAP = 1", "CAP = 4"))
    plan, signals = checker.run(["compile", four])[1], checker.run(["compile", four, "--relay"])[1]
    reading = checker.run(["compile", level])[1]
    alone = re.sub(r"1 signal tested, ", "", signals)
    rows = [
        ("data/lock.mon", lock, "unproved: none release 1"),
        ("data/lock.mon", whole, "lawful"),
        ("data/lock.mon", whole.replace("release: 1 signal", "release: 1 signal tested"), "lawful"),
        ("data/lock.mon", whole + "\n", "refused: PLAN: not a plan"),
        ("data/lock.mon", whole + "// why\n", "refused: PLAN: not a plan"),
        ("data/lock.mon", whole[:-1], "refused: PLAN: not a plan"),
        ("data/lock.mon", plan, "refused: PLAN: not a plan"),
        ("data/lock.mon", checker.run(["report", "data/lock.mon"])[1], "refused: PLAN: not a plan"),
        (four, plan, "lawful"),
        (four, signals, "lawful"),
        (four, alone, "unproved: one 1 put"),
        (four, plan.replace("put: 2 broadcast", "put: 2 signal"), "unlawful: condition 2"),
        (four, plan.replace("keep count >= 0\n", "keep count >= 3\n"), "unlawful: keep count >= 3 at the start"),
        (four, plan.replace("keep count <= 4\n", "keep count <= 3\n"), "unproved: keep count <= 3 put"),
        (four, plan.replace("put: 2 broadcast", "put: none"), "unproved: none put 2"),
        (level, reading, "lawful"),
        (level, reading.replace("1 broadcast", "1 signal"), "unlawful: condition 1"),
        (level, reading.replace("add: 1 broadcast", "add: 1 broadcast tested"), "unlawful: condition 1"),
    ]
    for number, (monitor, text, line) in enumerate(rows):
        file = checker.file(f"{number}.plan", text)
        checker.wants("GUIDE", int(line != "lawful"), line.replace("PLAN", file) + "\n", ["audit", monitor, file])
    for note, text in ("2 signal", "lawful\n"), ("none", state):
        file = checker.file("slots.plan", slots.replace("put: 2 signal", f"put: {note}"))
        checker.wants("GUIDE", int(text == state), text, ["audit", "--count", four, file])


def main(words):
    program = str(pathlib.Path(words[0]).resolve()) if words else str(HOME / "out" / "expresso_cli")
    with tempfile.TemporaryDirectory() as folder:
        checker = Checker(program, folder)
        for part in (shown_commands, readme, advice, slips, audits):
            part(checker)
    for fault in checker.faults:
        print(fault)
    print(f"README and GUIDE: {checker.count} commands were tried, {len(checker.faults)} say otherwise")
    return 1 if checker.faults else 0


if __name__ == "__main__":
    sys.exit(main(sys.argv[1:]))
