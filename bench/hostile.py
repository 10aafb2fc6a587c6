#!/usr/bin/env python3
"""Hostile use: the built program over devices, files, words and a memory that fail, or that are made to hurt.

  hostile.py [TABLE..]      every table, or these: writes reads texts calls memory threads devices
  EXPRESSO=PROGRAM          this program, in place of crates/expresso_cli/out/expresso_cli
  SECONDS=N                 the processor's time that one long file may take, in place of 0.1

Calls of the system fail by `refusing.c`, which gcc compiles and which stands before the C library (LD_PRELOAD).
Prints each case that fails, and then one line for each table: its name, how many cases it has, the seconds that it
took, and its slowest case. Ends with status 1 where a case failed.
"""

import errno
import os
import re
import resource
import sys
import tempfile
import threading

from hostile_grammar import line_of, line_that_refuses, place_of
from hostile_rows import (
    BUFFER, BUILT, CHECK, COMMANDS, COMPILE, DONE, LETTERS, LOCK, LOCK_PLAN, LONGEST, NOBODY, OTHER_WORDS, OUT_OF_MEMORY,
    PRODUCT, Program, READERS_AND_WRITERS, READ_FAULT, REFUSAL, REFUSED, RUN, Row, SIMULATE, STALL, STALLED, STRESS, SUMMARY,
    TURNS, TWO, TWO_LOCKS, Table, UNREADABLE, USAGE, USAGE_TEXT, WRITE_FAULT, named, two,
)


# Writes that fail.


def is_proper_front(found, text):
    """Whether a run is a write fault that left a front of a text, and not all."""
    return found.status == WRITE_FAULT and text.startswith(found.text) and len(found.text) < len(text)


def each_write_fails(program, table, row, most):
    """One run for each write of a row, at which it fails, and one that has no fault."""
    number = 0
    while True:
        number += 1
        found = program.row(row, WRITE=number, MOST=most)
        case = named(row, f"write {number} of {most} bytes")
        if not found.refused:
            table.answers(case, found, row.status, row.text)
            break
        front = row.text[: (number - 1) * most]
        table.demand(case, found, is_proper_front(found, row.text) and found.text == front)
    fewest = -(-len(row.text) // most)
    table.demand(named(row, "writes"), found, number > fewest, f"{number - 1} writes are fewer than {fewest}")


def one_write_fails_so(program, table, row, error):
    """A row whose first or second write fails with this error."""
    for number in (1, 2):
        found = program.row(row, WRITE=number, MOST=16, ERROR=error)
        case = named(row, f"write {number}", errno.errorcode.get(error, "takes nothing"))
        own = error == errno.EINTR and (found.status, found.text) == (row.status, row.text)
        table.demand(case, found, found.refused and (own or is_proper_front(found, row.text)))


def writes(program, table):
    """Standard output fails at each call."""
    rows = [TURNS, SIMULATE, COMPILE, REFUSAL, RUN, STALL, OTHER_WORDS, STRESS]
    jobs = [(each_write_fails, program, table, row, most) for row in rows for most in (4096, 7, 1)]
    errors = [errno.ENOSPC, errno.EPIPE, errno.EBADF, errno.EAGAIN, errno.EINTR, 0]
    jobs += [(one_write_fails_so, program, table, row, error) for row in rows for error in errors]
    table.each(jobs)


# Reads that fail.


def each_read_fails(program, table, row, name, most, error):
    """One run for each read of a file, at which it fails, and one that has no fault."""
    number = 0
    while True:
        number += 1
        found = program.row(row, NAME=name, READ=number, MOST=most, ERROR=error)
        case = named(row, f"read {number} of {name} of {most} bytes", errno.errorcode[error])
        own = (found.status, found.text) == (row.status, row.text)
        if not found.refused:
            table.demand(case, found, own)
            break
        fault = (found.status, found.text) == (READ_FAULT, b"read fault: %s\n" % name.encode())
        table.demand(case, found, fault or (own and error == errno.EINTR))
    table.demand(named(row, "reads"), found, number > 2, "a file has at least two reads")


def one_open_fails(program, table, row, name, error):
    """A row one of whose files can't be opened."""
    found = program.row(row, NAME=name, OPEN=1, ERROR=error)
    own = error == errno.EINTR and (found.status, found.text) == (row.status, row.text)
    fault = (found.status, found.text) == (READ_FAULT, b"read fault: %s\n" % name.encode())
    table.demand(named(row, f"open {name}", errno.errorcode[error]), found, found.refused and (fault or own))


def reads(program, table):
    """Each file fails at each call."""
    jobs = []
    for row in COMMANDS:
        for name in row.files:
            kinds = [(LONGEST, errno.EIO), (1, errno.EIO), (64, errno.EISDIR), (64, errno.EINTR)]
            jobs += [(each_read_fails, program, table, row, name, most, error) for most, error in kinds]
            errors = [errno.EACCES, errno.ENOENT, errno.EMFILE, errno.EINTR, errno.ELOOP]
            jobs += [(one_open_fails, program, table, row, name, error) for error in errors]
    refused = TURNS._replace(files=two(b"monitor", TWO), status=REFUSED, text=b"refused: m.mon:1:8: syntax\n")
    jobs += [(each_read_fails, program, table, refused, "c.cl", LONGEST, errno.EIO)]
    table.each(jobs)


# Texts that are cut, changed or long.

# What may be printed of a file that is of the grammar.
TEXTS = [b"unknown name", b"name used twice", b"wrong type", b"not a field"]
TEXTS += [b"product of two variables", b"number too large", b"misplaced return", b"unknown method"]
TEXTS += [b"too many %s" % counted for counted in [b"constants", b"fields", b"methods", b"parameters", b"statements"]]
TEXTS += [b"wrong number of arguments", b"client used twice", b"too many clients", b"too many calls"]
LINE = re.compile(rb"refused: ([^:]*):(\d+):(\d+): (.*)\n")


def is_refusal(found, name, text):
    """Whether a run refuses this text, which is of the grammar, at a place that it has and for a known cause."""
    line = LINE.fullmatch(found.text)
    if found.status != REFUSED or line is None or line[1] != name.encode() or line[4] not in TEXTS:
        return False
    return (int(line[2]), int(line[3])) in {place_of(text, offset) for offset in range(len(text) + 1)}


def monitor_is_cut(program, table, end):
    """The first bytes of the readers and writers."""
    front = READERS_AND_WRITERS[:end]
    found = program.row(CHECK._replace(files={"m.mon": front}))
    case = f"check the first {end} bytes"
    if end + 1 >= len(READERS_AND_WRITERS):
        table.answers(case, found, DONE, READERS_AND_WRITERS)
        return
    table.answers(case, found, REFUSED, line_that_refuses("m.mon", front))
    half = front.endswith(b"&") and not front.endswith(b"&&")
    text = b"no token starts here\n" if half else b" syntax\n"
    table.demand(f"{case}, its text", found, found.text.endswith(text))


# The runs of the fronts of two clients with a lock that are client files.
LOCK_FRONTS = {
    b"": b"done\nstate held=false\n",
    TWO_LOCKS[: TWO_LOCKS.index(b"}") + 1]: b"A.1 acquire() = -\nA.2 release() = -\ndone\nstate held=false\n",
    TWO_LOCKS: b"A.1 acquire() = -\nA.2 release() = -\nB.1 acquire() = -\nB.2 release() = -\ndone\nstate held=false\n",
}


def clients_are_cut(program, table, end):
    """The first bytes of two clients with a lock."""
    front = TWO_LOCKS[:end]
    found = program.row(TURNS._replace(files=two(LOCK, front)))
    case = f"turns the first {end} bytes"
    if front.rstrip() in LOCK_FRONTS:
        table.answers(case, found, DONE, LOCK_FRONTS[front.rstrip()])
        return
    table.answers(case, found, REFUSED, line_that_refuses("c.cl", front))


# What one byte of a text is changed to.
BYTES = [0, 10, 38, 40, 125, 128, 255]


def is_own_of_change(found, name, text, changed, offset, own):
    """Whether a run is as it has to be, over a text with this byte changed, that was accepted with this text."""
    line = line_that_refuses(name, changed)
    if line is not None:
        return (found.status, found.text) == (REFUSED, line)
    if changed[offset] == 10 and text[offset : offset + 1].isspace():
        return (found.status, found.text) == (DONE, own)
    return found.status in (DONE, STALLED) or is_refusal(found, name, changed)


def byte_is_changed(program, table, row, name, offset):
    """A file of a row with one byte changed, to each of some."""
    text = row.files[name]
    for byte in BYTES:
        if byte == text[offset]:
            continue
        changed = text[:offset] + bytes([byte]) + text[offset + 1 :]
        found = program.row(row._replace(files={**row.files, name: changed}))
        holds = is_own_of_change(found, name, text, changed, offset, row.text)
        if holds and found.status == DONE and row.words[0] == "check":
            again = program.row(row._replace(files={name: found.text}))
            holds = (again.status, again.text) == (found.status, found.text)
        table.demand(f"{row.words[0]} with byte {offset} {byte}", found, holds)


def cut_and_changed(program, table):
    """The jobs over texts that are cut, or have one byte changed."""
    monitor = CHECK._replace(files={"m.mon": READERS_AND_WRITERS}, text=READERS_AND_WRITERS)
    clients = TURNS._replace(files=two(LOCK, TWO_LOCKS), text=LOCK_FRONTS[TWO_LOCKS])
    jobs = [(monitor_is_cut, program, table, end) for end in range(len(READERS_AND_WRITERS) + 1)]
    jobs += [(clients_are_cut, program, table, end) for end in range(len(TWO_LOCKS) + 1)]
    for row, name in [(monitor, "m.mon"), (clients, "c.cl")]:
        jobs += [(byte_is_changed, program, table, row, name, offset) for offset in range(len(row.files[name]))]
    return jobs


def parenthesized(levels):
    """A monitor whose guard stands in so many parentheses."""
    return b"monitor M { method m() waituntil (%strue%s) { } }" % (b"(" * levels, b")" * levels)


# Monitors, and the lines that refuse them; or no line, where they are accepted.
EXACT = [
    (b"", b"1:1: syntax"),
    (b"monitor M { int x 0; }", b"1:19: syntax"),
    (b"monitor M { method m() waituntil (true < ) { } }", b"1:42: syntax"),
    (b"monitor M { int x = 0; method m() waituntil (true) {", b"1:53: syntax"),
    (b"monitor M { int x = 0; @ }", b"1:24: no token starts here"),
    (b"monitor M { int x = 9223372036854775808; method m() waituntil (true) { } }", b"1:21: number too large"),
    (b"monitor M { int x = 9223372036854775807; method m() waituntil (true) { } }", None),
    (parenthesized(64), None),
    (parenthesized(65), b"1:99: syntax"),
    (BUFFER + b" " * (LONGEST - len(BUFFER)), None),
    (BUFFER + b" " * (LONGEST + 1 - len(BUFFER)), b" more than 65536 bytes"),
]


def has_exact_place(program, table, text, refusal):
    """A monitor that is refused at this place, or accepted."""
    found = program.row(CHECK._replace(files={"m.mon": text}))
    case = f"check {text[:60]!r} of {len(text)} bytes"
    if refusal is None:
        table.demand(case, found, found.status == DONE)
    else:
        table.answers(case, found, REFUSED, b"refused: m.mon:%s\n" % refusal)


GUARD = b"monitor M { method m() waituntil ("
BODY = b"monitor M { method m() waituntil (true) { "
CLIENT = b"client A { "
EMPTY_RUN = b"done\nstate count=0\n"

# Long texts, as a beginning and what is repeated; where a monitor file and a client file are refused. No place: a
# client file that is accepted, and makes no call.
LONG = [
    (b"", b"(", (0, b"syntax"), (0, b"syntax")),
    (b"", b"{", (0, b"syntax"), (0, b"syntax")),
    (b"", b"-", (0, b"syntax"), (0, b"syntax")),
    (b"", b"&", (0, b"syntax"), (0, b"syntax")),
    (b"", b"\xff", (0, b"no token starts here"), (0, b"no token starts here")),
    (b"", b"\0", (0, b"no token starts here"), (0, b"no token starts here")),
    (b"", b" ", (LONGEST, b"syntax"), None),
    (b"", b"\n", (LONGEST, b"syntax"), None),
    (b"//", b"a", (LONGEST, b"syntax"), None),
    (b"", b"//a\n", (LONGEST, b"syntax"), None),
    (b"", b"a", (0, b"no token starts here"), (0, b"no token starts here")),
    (b"", b"9", (0, b"no token starts here"), (0, b"no token starts here")),
    (b"", b"a ", (0, b"syntax"), (0, b"syntax")),
    (b"", b"repeat 1 {", (0, b"syntax"), (0, b"syntax")),
    (CLIENT, b"repeat 1 {", (0, b"syntax"), (len(CLIENT) + 64 * 10, b"syntax")),
    (CLIENT, b"put(", (0, b"syntax"), (len(CLIENT) + 4, b"syntax")),
    (b"client", b" client", (0, b"syntax"), (7, b"syntax")),
    (GUARD, b"(", (len(GUARD) + 64, b"syntax"), (0, b"syntax")),
    (GUARD, b"-", (len(GUARD) + 64, b"syntax"), (0, b"syntax")),
    (GUARD, b"!", (len(GUARD) + 64, b"syntax"), (0, b"syntax")),
    (GUARD, b"1 < ", (len(GUARD) + 6, b"syntax"), (0, b"syntax")),
    (BODY, b"if (true) {", (len(BODY) + 64 * 11, b"syntax"), (0, b"syntax")),
    (b"monitor", b" monitor", (8, b"syntax"), (0, b"syntax")),
]


def long_text_of(first, unit, size):
    """A text of this size that begins so and goes on with the unit."""
    return (first + unit * (size // len(unit) + 1))[:size]


def children_seconds():
    """The processor's time that all programs together have taken, which other work on the machine leaves as it is."""
    used = resource.getrusage(resource.RUSAGE_CHILDREN)
    return used.ru_utime + used.ru_stime


def has_long_text(program, table, row, text, outcome, most):
    """A row with one long text: its answer, and the time that it takes, at best of three."""
    runs = []
    for _ in range(3):
        before = children_seconds()
        runs.append(program.row(row)._replace(seconds=children_seconds() - before))
    found = min(runs, key=lambda run: run.seconds)
    case = f"{row.words[0]} {text[:50]!r} of {len(text)} bytes"
    table.answers(case, found, *outcome)
    table.demand(f"{case}, its time", found, found.seconds <= most, f"took {found.seconds:.3f} seconds")


def refusal_of(name, text, place):
    """How a text is answered: refused for its size or at a place, or accepted."""
    if len(text) > LONGEST:
        return REFUSED, b"refused: %s: more than 65536 bytes\n" % name.encode()
    if place is None:
        return DONE, EMPTY_RUN
    return REFUSED, line_of(name, text, *place)


def long_texts(program, table, most):
    """Files of as many bytes as are taken, and of one more, one at a time."""
    for first, unit, monitor, clients in LONG:
        for size in (LONGEST, LONGEST + 1):
            text = long_text_of(first, unit, size)
            row = CHECK._replace(files={"m.mon": text})
            has_long_text(program, table, row, text, refusal_of("m.mon", text, monitor), most)
            row = TURNS._replace(files=two(BUFFER, text))
            has_long_text(program, table, row, text, refusal_of("c.cl", text, clients), most)


def texts(program, table):
    """Texts that are cut at each length, have one byte changed, break a rule at a known place, or are long."""
    jobs = cut_and_changed(program, table)
    jobs += [(has_exact_place, program, table, text, refusal) for text, refusal in EXACT]
    table.each(jobs)
    long_texts(program, table, float(os.environ.get("SECONDS", "0.1")))


# As many calls and spurious wake-ups as there may be.

CALLS = 16_384
STEPS = b"monitor W { int n = 0; method a() waituntil (true) { n = n + 1; } }"
STEPS_END = b"done\nstate n=%d\n" % CALLS
TOO_MANY = b"refused: c.cl:1:12: too many calls\n"


def is_lock_log(text, extra):
    """Whether this is a log of two clients with a lock, each event as its rules say, with so many spurious ones."""
    held, waiting, calls = False, [], {"A": 1, "B": 1}
    lines = text.decode().splitlines()
    for line in lines[:-2]:
        words = line.replace(".", " ").split()
        if words[0] == "spurious":
            extra -= 1
            if words[1] not in waiting or extra < 0:
                return False
            waiting.remove(words[1])
            continue
        client, call, method = words[0], int(words[1]), words[2]
        fits = method == ("acquire()" if call == 1 else "release()") and call == calls[client]
        if not fits or client in waiting or (held == (method == "acquire()")) != (words[3] == "waits"):
            return False
        if words[3] == "waits":
            waiting.append(client)
            continue
        held, calls[client] = not held, call + 1
        woken = [other for other in waiting if (calls[other] == 2) == held][:1]
        waiting = [other for other in waiting if other not in woken]
        if words[3:] != ["=", "-", *(["wakes", *woken] if woken else [])]:
            return False
    return calls == {"A": 3, "B": 3} and lines[-2:] == ["done", f"state held={str(held).lower()}"]


def spurious_wakes(program, table, seed):
    """A lock with as many spurious wake-ups as can be asked for, twice."""
    words = [*SIMULATE.words, "--seed", str(seed), "--spurious", str(CALLS)]
    once, twice = (program.row(SIMULATE._replace(words=words)) for _ in range(2))
    ends = once.status == DONE and once.text.endswith(b"\ndone\nstate held=false\n") and once.text == twice.text
    legal = once.text.startswith(LOCK_PLAN) and is_lock_log(once.text.removeprefix(LOCK_PLAN), CALLS)
    table.demand(" ".join(words), once, ends and legal)


def all_calls(names, each):
    """The replies of clients that make so many calls each, in turn."""
    return b"".join(b"%s.%d a() = -\n" % (name, call) for call in range(1, each + 1) for name in names)


NAMES = [b"C%d" % number for number in range(32)]
IN_32 = b" ".join(b"client %s { repeat 512 { a(); } }" % name for name in NAMES)

# Clients with 16,384 calls, with the replies in turn, and the lines that refuse them with one call more.
FULL = {
    "in one client": (b"client A { repeat 16384 { a(); } }", all_calls([b"A"], CALLS)),
    "written out": (b"client A{repeat 1384{a();}%s}" % (b"a();" * 15_000), all_calls([b"A"], CALLS)),
    "in 32 clients": (IN_32, all_calls(NAMES, 512)),
    "by 14 repeats": (b"client A { %sa(); %s}" % (b"repeat 2 { " * 14, b"} " * 14), all_calls([b"A"], CALLS)),
    "by 64 repeats": (
        b"client A { %s%sa(); %s}" % (b"repeat 1 { " * 50, b"repeat 2 { " * 14, b"} " * 64),
        all_calls([b"A"], CALLS),
    ),
}

# Clients of repeats of great numbers, and their runs.
REPEATS = [
    (b"client A { repeat %d { } }", DONE, b"done\nstate n=0\n"),
    (b"client A { repeat %d { repeat 0 { a(); } } }", DONE, b"done\nstate n=0\n"),
    (b"client A { repeat 0 { repeat %d { a(); } } }", DONE, b"done\nstate n=0\n"),
    (b"client A { repeat %d { a(); } }", REFUSED, TOO_MANY),
    (b"client A { repeat 1 { repeat %d { a(); } } }", REFUSED, TOO_MANY),
    (b"client A { repeat %d { a(); b(); } }", REFUSED, TOO_MANY),
]


def many_calls(program, table, label, clients, replies):
    """As many calls as there may be, with the order of replies where that is known."""
    for words in (["turns"], ["simulate"], ["run"], ["run", "--workers", "1"], ["run", "--workers", "16"]):
        row = Row([*words, "m.mon", "c.cl"], two(STEPS, clients), DONE, replies + STEPS_END)
        found = program.row(row)
        if words == ["turns"]:
            table.answers(named(row, label), found, DONE, row.text)
            continue
        lines = sorted(line for line in found.text.splitlines(keepends=True) if line.endswith(b" = -\n"))
        whole = lines == sorted(replies.splitlines(keepends=True)) and found.text.endswith(STEPS_END)
        table.demand(named(row, label), found, found.status == DONE and whole)


def one_call_more(program, table, label, clients):
    """One call more than there may be, in the last client and in one after it."""
    for more, place in [(b"a(); }", clients.rindex(b"}")), (b"} client Z { a(); }", len(clients) - 1 + 13)]:
        found = program.row(TURNS._replace(files=two(STEPS, clients[:-1] + more)))
        place = min(place, len(clients) - 1 + more.index(b"a"))
        fault, at = b"too many calls", place
        if clients.count(b"client") == 32 and b"client" in more:
            fault, at = b"too many clients", len(clients) - 1 + more.index(b"Z")
        text = clients[:-1] + more
        table.answers(f"turns {label} and {more!r}", found, REFUSED, line_of("c.cl", text, at, fault))


def great_repeat(program, table, clients, times, status, text):
    """A repeat of a great number."""
    for command in ("turns", "simulate", "run"):
        row = Row([command, "m.mon", "c.cl"], two(STEPS, clients % times), status, text)
        found = program.row(row)
        whole = found.text == text if command == "turns" or status == REFUSED else found.text.endswith(text)
        table.demand(named(row, clients, times), found, found.status == status and whole)


def calls(program, table):
    """Numbers at their limits."""
    jobs = [(spurious_wakes, program, table, seed) for seed in [*range(1, 33), 2**63, 2**64 - 1]]
    jobs += [(many_calls, program, table, label, *full) for label, full in FULL.items()]
    jobs += [(one_call_more, program, table, label, full[0]) for label, full in FULL.items()]
    great = [CALLS + 1, 2**31, 2**32, 2**63 - 1, 2**63, 2**64 - 1, 2**64, 10**32 - 1]
    jobs += [(great_repeat, program, table, row[0], times, *row[1:]) for row in REPEATS for times in great]
    table.each(jobs)


# Memory that is refused.


def each_growth_fails(program, table, row, first, step, ever):
    """One run for every so manieth allocation of a row, which is refused, until none is."""
    number, found = first, None
    while found is None or found.refused:
        found = program.row(row, GROWTH=number, EVER=ever)
        own = (found.status, found.text) == (row.status, row.text)
        none = found.refused and (found.status, found.text) == (OUT_OF_MEMORY, b"")
        case = named(row, f"allocation {number}", "and all after it" if ever else "alone")
        table.demand(case, found, own or none)
        number += step


def each_thread_fails(program, table, row):
    """A row that can't have one of its threads, or none from one on."""
    for ever in (0, 1):
        number, found = 0, None
        while found is None or found.refused:
            number += 1
            found = program.row(row, THREAD=number, EVER=ever)
            case = named(row, f"thread {number}", "and all after it" if ever else "alone")
            table.answers(case, found, row.status, row.text)


def memory(program, table):
    """Each allocation is refused, and each thread."""
    step = os.cpu_count()
    rows = [CHECK, TURNS, COMPILE, SIMULATE, RUN, STALL, REFUSAL, OTHER_WORDS, STRESS]
    several = STRESS._replace(words=["stress", "3", "--workers", "4"])
    jobs = [
        (each_growth_fails, program, table, row, first, step, ever)
        for row in [*rows, several]
        for ever in (0, 1)
        for first in range(1, step + 1)
    ]
    most = STRESS._replace(words=["stress", "3", "--workers", "16"])
    jobs += [(each_thread_fails, program, table, row) for row in (RUN, STRESS, several, most)]
    table.each(jobs)


# Threads that are not made.

# From which start of a thread on none is made.
STARTS = [1, 2, 3, 5, 9]

# As many clients as there may be, half of which wait for what the others do.
CROWD = b"".join(b"client %c { repeat 8 { %s(); } }\n" % pair for pair in zip(LETTERS, [b"put", b"get"] * 16))
CROWD_CALLS = 8 * len(LETTERS)
CROWD_END = b"\ndone\nstate count=0\n"
CROWD_RUNS = RUN._replace(words=["run", "m.mon", "c.cl"], files=two(BUFFER, CROWD))
CROWD_BLOCKS = CROWD_RUNS._replace(words=["block", "m.mon", "c.cl"])


def is_summary(text):
    """Whether a text is that of `stress`."""
    return text == SUMMARY


def has_all_replies(text):
    """Whether a text has a reply of each call of the crowd, and the end."""
    return text.endswith(CROWD_END) and text.count(b"() = ") == CROWD_CALLS


def has_few_threads(program, table, row, workers, start, holds):
    """A row of so many workers, none of whose threads is made from this start on: it ends as with all of them."""
    found = program.row(row, THREAD=start, EVER=1)
    case = named(row, f"no thread from start {start} on")
    table.demand(case, found, found.status == row.status and holds(found.text))
    table.demand(f"{case}, which is refused", found, found.refused or start >= workers)


def threads(program, table):
    """No thread is made from a start on, and the work is done by those that there are."""
    rows = [(CROWD_BLOCKS, len(LETTERS), has_all_replies)]
    for workers in (2, 4, 16):
        words = [*CROWD_RUNS.words, "--workers", str(workers)]
        rows.append((CROWD_RUNS._replace(words=words), workers, has_all_replies))
        rows.append((STRESS._replace(words=["stress", "3", "--workers", str(workers)]), workers, is_summary))
    jobs = [(row, workers, start, holds) for row, workers, holds in rows for start in STARTS]
    table.each([(has_few_threads, program, table, *job) for job in jobs])


# Devices, names and words of the system.

LONG_RUN = Row(
    ["turns", "m.mon", "c.cl"], two(STEPS, FULL["in one client"][0]), DONE, FULL["in one client"][1] + STEPS_END
)
OUTPUTS = [CHECK, TURNS, COMPILE, SIMULATE, RUN, STALL, REFUSAL, OTHER_WORDS, STRESS, LONG_RUN]


def without_output(program, table, row):
    """Standard output that takes nothing: full, closed, for reading alone, a pipe that nobody reads."""
    folder = program.place(row.files)
    with open("/dev/full", "wb") as full:
        found = program.run(row.words, folder, stdout=full)
        table.demand(named(row, "into a full device"), found, found.status == WRITE_FAULT)
    with open("/dev/null", "rb") as reading:
        found = program.run(row.words, folder, stdout=reading)
        table.demand(named(row, "into what is read"), found, found.status == WRITE_FAULT)
    for restored in (True, False):
        kept, closed = os.pipe()
        os.close(kept)
        found = program.run(row.words, folder, stdout=closed, restore_signals=restored)
        os.close(closed)
        table.demand(named(row, "into a closed pipe", restored), found, found.status == WRITE_FAULT)
    found = program.run(row.words, folder, preexec_fn=lambda: os.close(1))
    table.demand(named(row, "into a closed output"), found, found.status == WRITE_FAULT)


def a_pipe_that_fills(program, table):
    """A pipe that nobody reads and that does not wait, and one whose reader goes away in the midst of a text."""
    folder = program.place(LONG_RUN.files)
    kept, given = os.pipe()
    os.set_blocking(given, False)
    found = program.run(LONG_RUN.words, folder, stdout=given)
    os.close(given)
    with os.fdopen(kept, "rb") as pipe:
        found = found._replace(text=pipe.read())
    table.demand("turns into a pipe that fills", found, is_proper_front(found, LONG_RUN.text))
    kept, given = os.pipe()
    leaving = threading.Thread(target=lambda: (os.read(kept, 10_000), os.close(kept)))
    leaving.start()
    found = program.run(LONG_RUN.words, folder, stdout=given)
    os.close(given)
    leaving.join()
    table.demand("turns into a pipe whose reader leaves", found, found.status == WRITE_FAULT)


def unreadable(program, table, row, name):
    """A file that is a folder, is not there, may not be read, or can't be opened."""
    fault = b"read fault: %s\n" % name.encode()

    def faulty(case, make, **more):
        folder = program.place(row.files)
        make(folder / name)
        found = program.run(row.words, folder, **more)
        table.answers(named(row, name, case), found, READ_FAULT, fault)
        if (folder / name).is_dir():
            (folder / name).rmdir()

    faulty("is a folder", lambda path: (path.unlink(), path.mkdir()))
    faulty("is not there", lambda path: path.unlink())
    faulty("is a link to itself", lambda path: (path.unlink(), path.symlink_to(path)))
    nobody = {"user": NOBODY, "group": NOBODY, "extra_groups": []} if os.geteuid() == 0 else {}
    faulty("may not be read", lambda path: path.chmod(0), **nobody)


def a_fifo(program, table, row, name):
    """A file that comes byte by byte."""
    folder = program.place(row.files)
    (folder / name).unlink()
    os.mkfifo(folder / name)

    def feed():
        with open(folder / name, "wb", buffering=0) as fifo:
            for byte in row.files[name]:
                fifo.write(bytes([byte]))

    feeding = threading.Thread(target=feed, daemon=True)
    feeding.start()
    found = program.run(row.words, folder)
    table.answers(named(row, name, "is a fifo"), found, row.status, row.text)
    feeding.join(1)


def growing(program, table, row, name, most):
    """A file to which blanks are added while it is read: as it stood at some moment, or too long."""
    folder, stop = program.place(row.files), threading.Event()

    def grow():
        with open(folder / name, "ab", buffering=0) as file:
            while not stop.is_set() and file.tell() < 2 * LONGEST:
                file.write(b" " * 512)

    adding = threading.Thread(target=grow)
    adding.start()
    found = program.run(row.words, folder, {"NAME": name, "MOST": most})
    stop.set()
    adding.join()
    long = (REFUSED, b"refused: %s: more than 65536 bytes\n" % name.encode())
    own = (row.status, row.text)
    table.demand(named(row, name, f"grows, reads of {most}"), found, (found.status, found.text) in (own, long))


def endless(program, table):
    """Devices in place of files."""
    for words, status, text in [
        (["check", "/dev/zero"], REFUSED, b"refused: /dev/zero: more than 65536 bytes\n"),
        (["check", "/dev/null"], REFUSED, b"refused: /dev/null:1:1: syntax\n"),
        (["turns", "m.mon", "/dev/null"], DONE, EMPTY_RUN),
        (["turns", "m.mon", "/dev/zero"], REFUSED, b"refused: /dev/zero: more than 65536 bytes\n"),
        (["check", "/dev/stdin"], REFUSED, b"refused: /dev/stdin:1:1: syntax\n"),
    ]:
        found = program.run(words, program.place(TURNS.files))
        table.answers(" ".join(words), found, status, text)


def names(program, table):
    """Names of files: with a line feed, empty, long, of words that look like options."""
    dots = "./" * 1997 + "m.mon"
    for name, holds in [
        ("a\nb.mon", True), ("\n", True), (" ", True), ("é", True), ("-", True), ("m=n", True), ("a'\"$", True),
        ("a" * 255, True), ("a\nb.mon", False), ("", False), ("x" * 4000, False), ("x/" * 2000, False),
        ("y" * 100_000, False), ("/", False), (".", False), ("..", False),
    ]:
        folder = program.place({name: LOCK} if holds else {})
        found = program.run(["check", name], folder)
        fault = (READ_FAULT, b"read fault: %s\n" % name.encode())
        table.answers(f"check {name[:40]!r} of {len(name)} bytes", found, *((DONE, LOCK) if holds else fault))
    found = program.run(["check", dots], program.place({"m.mon": PRODUCT}))
    line = b"refused: %s:1:59: product of two variables\n" % dots.encode()
    table.answers(f"check a name of {len(dots)} bytes", found, REFUSED, line)
    found = program.run(["check", "a\nb.mon"], program.place({"a\nb.mon": PRODUCT}))
    table.answers("check a\\nb.mon", found, REFUSED, b"refused: a\nb.mon:1:59: product of two variables\n")


def words(program, table):
    """Words that are no UTF-8, that are many, and that are none."""
    folder = program.place(TURNS.files)
    for bad in (b"\xff", b"\x80", b"m\xc3", b"\xed\xa0\x80", b"\xc0\xaf", b"\xf4\x90\x80\x80"):
        for given in (
            [bad], [b"check", bad], [bad, b"m.mon"], [b"turns", b"m.mon", bad], [b"check", b"m.mon", b"--" + bad],
            [b"run", b"m.mon", b"c.cl", b"--workers", bad], [b"stress", bad],
        ):
            found = program.run(given, folder)
            table.answers(f"words {given}", found, UNREADABLE, b"")
        found = program.run([b"check", b"m.mon"], folder, called=bad)
        table.answers(f"called {bad}", found, UNREADABLE, b"")
    for given in ([], [""], ["", "", ""], ["check"] * 20_000, ["check", "m.mon", "x" * 100_000], ["--", "--", "--"]):
        found = program.run(given, folder)
        table.answers(f"{len(given)} words {given[:3]!r:.60}", found, USAGE, USAGE_TEXT)


def devices(program, table):
    """Devices, names and words of the system."""
    jobs = [(without_output, program, table, row) for row in OUTPUTS]
    jobs += [(a_pipe_that_fills, program, table)]
    for row in COMMANDS:
        for name in row.files:
            jobs += [(unreadable, program, table, row, name), (a_fifo, program, table, row, name)]
            jobs += [(growing, program, table, row, name, most) for most in (1, 16, 4096) for _ in range(10)]
    jobs += [(endless, program, table), (names, program, table), (words, program, table)]
    table.each(jobs)


TABLES = {
    "writes": writes, "reads": reads, "texts": texts, "calls": calls, "memory": memory, "threads": threads,
    "devices": devices,
}


def refuses(program):
    """Whether the system refuses what it is told to: the program may not have its calls from the C library."""
    kinds = [{"WRITE": 1}, {"NAME": "m.mon", "READ": 1}, {"NAME": "m.mon", "OPEN": 1}, {"GROWTH": 1}]
    return [kind for kind in kinds if not program.row(CHECK, **kind).refused]


def main(wanted):
    """Runs the tables, and ends with status 1 where a case failed."""
    built = os.environ.get("EXPRESSO", BUILT)
    if not set(wanted) <= set(TABLES) or not os.access(built, os.X_OK):
        sys.exit(f"{__doc__}\nhostile.py: no table of {wanted}, or no program {built}")
    sound = True
    with tempfile.TemporaryDirectory() as folder:
        program = Program(built, folder)
        for kind in refuses(program):
            print(f"FAILED: calls of {built} can't be refused by {kind}")
            sound = False
        for name in wanted or TABLES:
            table = Table(name)
            TABLES[name](program, table)
            sound = table.end() and sound
    sys.exit(0 if sound else 1)


if __name__ == "__main__":
    main(sys.argv[1:])
