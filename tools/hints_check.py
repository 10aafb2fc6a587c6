#!/usr/bin/env python3
"""Checks the hints that the built program writes to standard error: of inputs that a person types each row says which
words the hint has, and under what the caret stands. Words and files are written by hand; what is expected is too.

tools/hints_check.py [PROGRAM]"""
import os
import subprocess
import sys
import tempfile

TOP = os.path.dirname(os.path.dirname(os.path.abspath(__file__)))
PROGRAM = os.path.abspath(sys.argv[1] if len(sys.argv) > 1 else os.path.join(TOP, "crates/expresso_cli/out/expresso_cli"))

BUFFER = """monitor Buffer {
  int count = 0;
  bool open = true;
  method put(int n) waituntil (count < 4) { count = count + n; }
  method get() waituntil (count > 0) { count = count - 1; }
}
"""
PLAN = """plan Buffer
keep count >= 0
condition 1 broadcast: count < 4
condition 2 broadcast: count > 0
block put: 1 broadcast, 2 broadcast
block get: 1 broadcast, 2 broadcast
"""

LOCK = """monitor Lock {
  bool held = false;
  method acquire() waituntil (!held) { held = true; }
  method release() waituntil (held) { held = false; }
}
"""
REPORT = """plan Lock
condition 1 signal: !held
condition 2 signal: held
block acquire: 2 signal
block release: 1 signal
proof none acquire 1: clash 0 1
proof none release 2: clash 0 1
proof one 1 acquire: split 1 split 0
proof one 2 release: split 1 split 0
proof untested acquire 2: split 1 split 0
proof untested release 1: split 1 split 0
"""

# of monitors: what stands in place of a piece of BUFFER, what the caret's place begins with, the words of the hint
MONITORS = [
    ("count = 0;\n", "count = 0\n", "bool", "expected `;` after `0`"),
    ("count < 4", "count = 4", "= 4", "`==` compares; `=` assigns"),
    ("count = count - 1", "count == count - 1", "== count", "`=` assigns; `==` compares"),
    ("count = count + n", "count += n", "+= n", "there is no `+=`"),
    ("count = count - 1", "count--", "--;", "there is no `--`"),
    ("count < 4", "count < 4 & open", "& open", "and is written `&&`"),
    ("count < 4", "count < 4 | open", "| open", "or is written `||`"),
    ("count < 4", "count < 4 and open", "and open", "and is written `&&`"),
    ("  int count", "  /* fields */ int count", "/* fields", "there is no `/* */`"),
    ("{ count = count - 1; }", "{ while (count > 0) { count = count - 1; } }", "(count > 0) { count", "there is no `while`"),
    ("int count", "i32 count", "i32", "a number's type is `int`"),
    ("bool open", "boolean open", "boolean", "a truth value's type is `bool`"),
    ("{ count = count - 1; }", "{ if (open) { } else if (count > 1) { } }", "if (count > 1)", "there is no `else if`"),
    ("count = count - 1; }", "return; }", "; }", "a `return` has a value"),
    ("int count", "int local", "local", "`local` is a reserved word"),
    ("int count = 0", "int count = CAP", "CAP", "no constant, field, input or local is named `CAP`"),
    ("int count = 0", "const count = CAP", "CAP", "only a number may stand here, and not `CAP`"),
    ("method get() waituntil (count > 0) {", "method get() {", "{ count = count - 1", "a guard is missing"),
    ("waituntil (count > 0)", "waituntil count > 0", "count > 0", "a condition stands in parentheses"),
    ("int count", "int z\u00fchler", "?", "`\u00fc` is no sign of the language"),
    ("monitor Buffer", "\ufeffmonitor Buffer", "?", "byte order mark"),
    ("count + n", "coutn + n", "coutn", "`coutn` isn't there, but `count` is"),
    ("count + n", "count / n", "/ n", "there is no division"),
    ("count + n", "count + amount", "amount", "no constant, field, input or local is named `amount`"),
    ("bool open = true", "bool open = True", "True", "a `bool` begins as `true` or `false`"),
    ("count < 4", "(count < 4", "{ count = count + n", "a `)` is missing"),
    ("put(int n)", "put(n)", "n) waituntil", "an input has a type"),
    ("count < 4", "0 < count < 4", "< 4", "join two of them by `&&`"),
    ("int count = 0;", "int count;", ";", "a value is missing"),
    ("- 1; }\n}", "- 1; }\n", "", "the file ends ahead of a `}`"),
    ("count + n", "count * n", "* n", "one side of a `*`"),
    ("count = count + n", "n = count", "n = count", "only fields and locals are assigned"),
    ("count = count - 1; }", "int x = 0; }", "int x", "locals ahead of `waituntil`"),
    ("int count", "const int CAP", "int CAP", "a constant has no type"),
    ("count < 4", "count => 4", "=> 4", "at least is written `>=`"),
    ("count = count + n;", "count = count + n", "}", "expected `;` after `n`"),
    ("method get()", "method int get()", "int get", "nobody declares what a method answers"),
    ("method get()", "method get() -> int", "-> int", "nobody declares what a method answers"),
    ("count < 4", "count <> 4", "> 4", "differs is written `!=`"),
    ("int count = 0", "int count := 0", ":= 0", "`=` assigns; `==` compares"),
    ("int count = 0;", "int count = 0, more = 0;", ", more", "each field has a type and a value of its own"),
    ("int count = 0", "private int count = 0", "private", "nothing stands ahead of a field's type"),
    ("int count = 0", "int count = true", "true", "only a number may stand here, and not `true`"),
    ("int count = 0", "const CAP: i64 = 4", ": i64", "a constant has no type"),
    ("count - 1; }", "count - 1; };", ";", "no `;` stands behind `}`"),
    ("Buffer {", "Buffer:", ":", "expected `{` after `Buffer`"),
    ("method get() waituntil", "method get() waitUntil", "waitUntil", "a guard is written `waituntil (..)`"),
    ("count < 4", "open == true", "open ==", "only numbers are compared: write `open`"),
    ("count < 4", "open != true", "open !=", "only numbers are compared: write `!open`"),
    ("count < 4", "false == open", "false ==", "only numbers are compared: write `!open`"),
    ("count < 4", "open == open", "open ==", "truth values are joined by `&&`, `||` and `!`"),
    ("count < 4", "open < 4", "open < 4", "only numbers are compared, and `open` is a truth value"),
    ("count < 4", "count", "count) {", "compare `count`, as by `count > 0`"),
    ("count < 4", "open && 1", "1) {", "a condition is true or false, and `1` is a number"),
    ("count + n", "count + open", "open;", "a sum is of numbers, and `open` is a truth value"),
    ("count = count + n", "open = n", "n;", "`open` is a truth value, and `n` a number"),
    ("count = count + n", "count = open", "open;", "`count` is a number, and `open` a truth value"),
    ("count = count + n", "count = count > n", "count > n", "`count` is a number, and the value a truth value"),
    ("count = count + n", "open = open + n", "open + n", "a sum is of numbers, and `open` is a truth value"),
    ("monitor Buffer {", "monitor {", "{", "a name is missing behind `monitor`"),
    ("monitor Buffer {", "monitor Buffer", "int count", "expected `{` after `Buffer`"),
    ("int count", "Int count", "Int", "`Int` is no keyword; `int`?"),
    ("int count = 0", "count = 0", "count", "here begins a `const`, a `param`, an `int`, a `bool` or a `method`"),
    ("  int count", "  param CAP = 4;\n  int count", ";", "a condition stands behind the number, as `where (CAP >= 1)`"),
    ("  int count", "  param CAP = 4 where (CPA >= 1);\n  int count", "CPA", "`CPA` isn't there, but `CAP` is"),
    ("  int count", "  param CAP = 0 where (CAP >= 1);\n  int count", "0 where", "the number of a parameter meets its condition"),
    ("bool open = true", "string open = true", "string", "there are no texts"),
    ("int count = 0", "int count = 1e3", "e3", "a number has decimal digits alone"),
    ("  int count", "  -- fields\n  int count", "-- fields", "a comment begins with `//`, not with `--`"),
    ("method get()", "get()", "get()", "a method begins with `method`"),
    ("method get()", "int get()", "int get", "a method begins with `method`"),
    ("method get()", "method get(): int", ": int", "nobody declares what a method answers"),
    ("put(int n)", "put(int n = 0)", "= 0", "an input has no value"),
    ("waituntil (count > 0)", "waituntill (count > 0)", "waituntill", "`waituntill` is no keyword; `waituntil`?"),
    ("waituntil (count > 0)", "waituntil ()", ")", "a condition is missing"),
    ("(count > 0)", "(count > 0))", ")", "this `)` closes no `(`"),
    ("(count > 0)", "(count > 0) && (open)", "&&", "one pair of parentheses holds all"),
    ("count > 0", "count is 0", "is 0", "equals is written `==`"),
    ("count > 0", "try > 0", "try", "`try` is a reserved word"),
    ("count > 0", "size() > 0", "() > 0", "only clients call"),
    ("count > 0", "count === 0", "= 0", "there is no `===`"),
    ("count > 0", "count \u2265 0", "?", "at least is written `>=`"),
    ("count > 0", "count != NULL", "NULL", "there is no `NULL`"),
    ("count = count - 1", "count = count \u2013 1", "?", "this dash is no minus"),
    ("  int count", "\u00a0 int count", "?", "a no-break space"),
    ("count = count - 1", "put(1)", "(1)", "only clients call"),
    ("count = count - 1", "retrun count", "count;", "`retrun` is no keyword; `return`?"),
    ("count = count - 1;", "If (open) { }", "(open)", "`If` is no keyword; `if`?"),
    ("count = count - 1;", "repeat 3 { }", "repeat", "only clients have `repeat`"),
    ("count = count - 1;", "waituntil (open) { }", "waituntil (open)", "a `waituntil` stands in no body"),
    ("count = count - 1", "count = if (open) { 1 }", "if (open)", "an `if` is no value"),
    ("count + n", "count ** 2", "* 2", "there is no `**`"),
    ("count + n", "count << 2", "< 2", "there is no `<<`"),
    ("count + n; }", "count + n;", "method get", "a `}` is missing ahead of this `method`"),
]

# of clients: the text, what the caret's place begins with, the words of the hint
CLIENTS = [
    ("client A { put(1) get(); }", "get()", "expected `;` after `)`"),
    ("client A { put(n); }", "n);", "only numbers, `true` and `false`"),
    ("client A { putt(1); }", "putt(1)", "`putt` isn't there, but `put` is"),
    ("client A { take(); }", "take()", "the monitor has no method `take`"),
    ("client A { put(); }", "put()", "`put` has 1 input"),
    ("client A { repeat n { get(); } }", "n {", "a repetition is written `repeat 3 { .. }`"),
    ("thread A { get(); }", "thread", "a client begins with `client NAME {`"),
    ("client A { get(); } client A { get(); }", "A { get(); }", "`A` names something further up already"),
    (BUFFER, "monitor", "the file of clients comes second"),
    ("client A { get; }", "; }", "`()` is missing behind `get`"),
    ("client A { x = get(); }", "= get()", "a client only calls"),
    ("client A: get();", ": get()", "expected `{` after `A`"),
    ("client A { try { get(); } }", "{ get()", "a call that tries is written `try get();`"),
    ("client A { while (true) { get(); } }", "{ get()", "a client only calls and repeats"),
    ("client A { put(true); }", "true);", "this input is a number, and not `true`"),
    ("client { get(); }", "{ get", "a name is missing behind `client`"),
    ("client A { get() }", "}", "expected `;` after `)`"),
    ("client A { put(1), get(); }", ", get", "expected `;` after `)`"),
    ("client A { put(1 + 1); }", "+ 1", "an argument is one number"),
    ("client A { tyr get(); }", "get()", "`tyr` is no keyword; `try`?"),
    ("client A { try; }", ";", "a call that tries is written `try get();`"),
    ("client A { x get(); }", "get()", "a client only calls"),
    ("client A { let x = get(); }", "x =", "a client only calls"),
    ("client A { if (true) { get(); } }", "if", "a client only calls and repeats"),
    ("client A { for (i = 0) { get(); } }", "i = 0", "there is no `for`"),
    ("client A { buffer.get(); }", ".get", "the name of its method alone"),
    ("client A { repeat 3 { get(); }; }", ";", "no `;` stands behind `}`"),
    ("client A { get(); } }", "}", "this `}` closes no `{`"),
]

# of plans: what stands in place of a piece of PLAN, the place, the words of the hint
PLANS = [
    ("plan Buffer", "plan  Buffer", "line 1, column 6: expected `Buffer`"),
    ("count >= 0", "count>=0", "line 2, column 1: no plan of this monitor keeps this"),
    ("1 broadcast: count", "1 broadcast : count", "line 3, column 22: expected `: count < 4`"),
    ("2 broadcast: count > 0", "2 broadcast: count >0", "line 4, column 31: expected ` 0`"),
    ("block get: 1 broadcast, 2 broadcast\n", "", "line 6, column 1: expected `block get: `"),
    ("block get: 1 broadcast, 2 broadcast\n", "block get: 1 broadcast, 2 broadcast", "a line feed is missing at the end"),
    ("block put: 1 broadcast, 2", "block put: 1 broadcast,2", "line 5, column 23: expected notes"),
    ("block put", "block get", "line 5, column 7: expected `put: `"),
    ("condition 1", "condition 2", "line 3, column 11: expected `1 signal: count < 4`"),
    ("block put: 1 broadcast, 2", "block put: 1 broadcast, 7", "line 5, column 25: no condition has this number"),
    ("block put: 1 broadcast, 2", "block put: 2 broadcast, 2", "line 5, column 25: notes stand by rising numbers"),
    ("plan Buffer\n", "plan Buffer\r\n", "line 1, column 12: a line ends in a line feed alone"),
    ("plan Buffer\n", "plan Buffer  \n", "line 1, column 12: no blank stands at the end"),
    ("2 broadcast\nblock get: 1 broadcast, 2 broadcast\n", "2 broadcast\nblock get: none\nproof none put 1: clash 0 1\n",
     "line 7, column 1: the plan is to end here: a report is for `recheck`"),
    ("2 broadcast\nblock get: 1 broadcast, 2 broadcast\n", "2 broadcast\nblock get: none\nwhy put 2: count=0 to count=1\n",
     "line 7, column 1: the plan is to end here: take it from `compile`"),
]

# of reports: what stands in place of a piece of REPORT, the place, the words of the hint
REPORTS = [
    ("acquire 1: clash 0 1", "acquire 1: clash 0  1", "line 6, column 31: expected the number of a row"),
    ("acquire 1: clash 0 1", "acquire 1: clash 00 1", "line 6, column 29: expected the number of a row"),
    ("acquire 1: clash 0 1", "acquire 1: clash 0", "line 6, column 30: expected the number of a row"),
    ("acquire 1: clash 0 1", "acquire 1: clash 0 1 ", "line 6, column 32: the line is to end here"),
    ("none acquire 1", "none acquire 2", "line 6, column 20: expected `1: `"),
    ("proof none release 2: clash 0 1\n", "", "line 7, column 7: expected `none release 2: `"),
    ("one 1 acquire: split 1 split 0", "one 1 acquire: split 2 split 0", "line 8, column 37: expected `split`"),
    ("one 1 acquire: split 1 split 0", "one 1 acquire: spilt 1 split 0", "line 8, column 22: expected `split`"),
    ("one 1 acquire: split 1 split 0", "one 1 acquire: chain 1 0 1 4", "line 8, column 35: expected a number: a row"),
    ("one 1 acquire: split", "one 1 acquire: cases 1 0 1 below split 0 above split", "line 8, column 34: expected a number: `2"),
    ("one 1 acquire: split", "one 1 acquire: cases 1 0 1 0 split 0 above split", "line 8, column 36: expected `below`"),
    ("one 1 acquire: split 1", "one 1 acquire: cases 1 0 1 0 below split 1", "line 8, column 57: expected `above`"),
    ("untested release 1: split 1 split 0\n", "untested release 1: split 1 split 0", "a line feed is missing at the end"),
    ("split 1 split 0\n", "split 1 split 0\nproof none release 2: clash 0 1\n", "line 12, column 1: the report is to end"),
]

# words, and the words of the hint
WORDS = [
    (["cehck", "m.mon"], "no command `cehck`; `check`?"),
    (["test", "m.mon"], "no command `test`"),
    ([], "a command is missing"),
    (["run", "m.mon", "c.cl", "--workers", "20"], "workers is 1 to 16"),
    (["run", "m.mon", "c.cl", "--workers=0"], "workers is 1 to 16"),
    (["simulate", "m.mon", "c.cl", "--spurious", "3"], "`--spurious` wants `--seed`"),
    (["run", "m.mon", "c.cl", "--wrokers", "2"], "no option `--wrokers`; `--workers`?"),
    (["check", "m.mon", "--workers", "2"], "`check` has no `--workers`"),
    (["run", "m.mon"], "`run` wants FILE CLIENTS"),
    (["simulate", "m.mon", "c.cl", "--seed", "1", "--seed", "2"], "`--seed` stands twice"),
    (["simulate", "m.mon", "c.cl", "--seed"], "the seed is 0 to"),
    (["stress", "many"], "`stress` wants a number"),
    (["stress", "-1"], "`stress` wants a number"),
    (["--verbose"], "no option `--verbose`"),
    (["m.mon"], "a command is missing ahead of `m.mon`"),
    (["sim", "m.mon", "c.cl"], "no command `sim`; `simulate`?"),
    (["build", "m.mon"], "no command `build`; `compile`?"),
    (["run", "m.mon", "c.cl", "--threads", "4"], "`--workers` says how many threads"),
    (["run", "m.mon", "c.cl", "--work", "4"], "no option `--work`; `--workers`?"),
    (["emit", "m.mon", "-o", "m.rs"], "all is printed on standard output"),
    (["emit", "m.mon", "--count"], "`emit` has no `--count`: it always counts"),
    (["compile", "m.mon", "\u2013count"], "an option begins with two hyphens"),
    (["version"], "no command `version`; `--version`?"),
    (["--verison"], "no option `--verison`; `--version`?"),
    (["--version", "--fits"], "`--version` stands alone"),
    (["check", "m.mon", "--version"], "`check` has no `--version`"),
    (["check", "m.mon", "-V"], "`-V` stands alone"),
]

# names that can't be read
NAMES = [
    ("gone.mon", "`gone.mon` isn't there"),
    ("folder", "`folder` is a folder, and no file"),
]

faults = 0
folder = tempfile.mkdtemp()


def tell(row, hints):
    global faults
    faults += 1
    print(f"hints of {row}:\n{hints}")


def run(words):
    ended = subprocess.run([PROGRAM, *words], cwd=folder, capture_output=True, timeout=60)
    return ended.returncode, ended.stdout.decode(errors="replace"), ended.stderr.decode(errors="replace")


def write(name, text):
    with open(os.path.join(folder, name), "w", encoding="utf-8", newline="") as file:
        file.write(text)


def under_caret(hints):
    """What stands in the shown line from the caret's column on."""
    lines = hints.split("\n")
    if len(lines) < 2 or lines[1].strip() != "^":
        return None
    return lines[0][lines[1].index("^"):]


def check_file(row, words, place, wanted):
    status, out, hints = run(words)
    found = under_caret(hints)
    good = status == 1 and out.startswith("refused: ") and wanted in hints and found is not None
    if good and place is not None:
        good = found.startswith(place) if place else found == ""
    if not good:
        tell(row, hints)


write("m.mon", BUFFER)
status, out, hints = run(["check", "m.mon"])
if status != 0 or hints:
    tell("a good monitor", out + hints)
for piece, instead, place, wanted in MONITORS:
    assert BUFFER.count(piece) >= 1, piece
    write("bad.mon", BUFFER.replace(piece, instead, 1))
    check_file(instead, ["check", "bad.mon"], place, wanted)
for text, place, wanted in CLIENTS:
    write("bad.cl", text)
    check_file(text, ["turns", "m.mon", "bad.cl"], place, wanted)
# of the plan every line is right where a call puts one
write("m.mon", BUFFER.replace("put(int n)", "put()").replace("count + n", "count + 1"))
write("good.plan", PLAN)
status, out, hints = run(["audit", "m.mon", "good.plan"])
if status != 0 or hints:
    tell("a good plan", out + hints)
for piece, instead, wanted in PLANS:
    assert PLAN.count(piece) >= 1, piece
    write("bad.plan", PLAN.replace(piece, instead, 1))
    check_file(instead, ["audit", "m.mon", "bad.plan"], None, wanted)
write("lock.mon", LOCK)
write("good.report", REPORT)
status, out, hints = run(["recheck", "lock.mon", "good.report"])
if status != 0 or hints:
    tell("a good report", out + hints)
for piece, instead, wanted in REPORTS:
    assert REPORT.count(piece) >= 1, piece
    front, _, back = REPORT.rpartition(piece)
    write("bad.report", front + instead + back)
    check_file(instead, ["recheck", "lock.mon", "bad.report"], None, wanted)
os.mkdir(os.path.join(folder, "folder"))
for name, wanted in NAMES:
    status, out, hints = run(["check", name])
    if status != 3 or wanted not in hints:
        tell(name, out + hints)
usage = run(["--help"])[1]
for words, wanted in WORDS:
    status, out, hints = run(words)
    if status != 2 or out != usage or hints.count("\n") != 1 or wanted not in hints:
        tell(words, out + hints)
if run(["--help"])[2]:
    tell("--help", run(["--help"])[2])
if run(["--version"])[0] or run(["--version"])[2]:
    tell("--version", run(["--version"])[2])
rows = len(MONITORS) + len(CLIENTS) + len(PLANS) + len(REPORTS) + len(NAMES) + len(WORDS)
print(f"hints: {rows} inputs, {faults} without the hint that they want")
sys.exit(1 if faults else 0)
