#!/usr/bin/env python3
"""Measures commands: wall time, peak memory, instructions, and rates that a command prints.

  measure.py single ROUNDS COMMAND [--instructions]   prints: milliseconds instructions peak_kib
  measure.py pair ROUNDS OURS PEER                    prints: ours_ms peer_ms ratio ours_kib peer_kib
  measure.py times ROUNDS OURS.. PEER                 prints: ours_ms.. peer_ms ratio..
  measure.py rates ROUNDS OURS.. PEER                 prints: ours_a_second.. peer_a_second ratio..
  measure.py spans ROUNDS OURS PEER..                 prints: ours_ms spread peer_ms spread .. ratio
  measure.py late ROUNDS COMMAND                      prints: median_us ninety_ninth_us sections

A command is one word for the shell's quoting, as 'out/expresso_cli check a.mon'. Each number is the
median of the rounds. The runs of a row are interleaved (ours, peer, ours, ..), so that what else
the machine does hits both alike. The commands of `spans` print how long they took; the ratio is to
the first peer, and a spread is half the distance between the quartiles, in percent of the median.
A command that fails, or two of a `pair` that print different texts, or of `spans` that make
different calls, end the program with a message.
"""

import bisect
import os
import re
import shlex
import shutil
import statistics
import subprocess
import sys
import tempfile
import time

# What a command prints for `rates`.
RATE = re.compile(r"sections (\d+) nanoseconds (\d+)")

# What a command prints for `spans`.
SPAN = re.compile(r"calls (\d+) nanoseconds (\d+)\n")

# What a command prints for `late`: a section was over, or the log was seen to have grown.
MOMENT = re.compile(r"(returned|grown) (\d+) (\d+)")

# Rounds for peak memory, which hardly varies.
MEMORY_ROUNDS = 3


def fail(message):
    """Ends the program, with a message."""
    sys.exit(f"measure.py: {message}")


def run(words):
    """Runs a command to its end: its milliseconds, its peak memory in KiB as the system tells it, its output."""
    with tempfile.TemporaryFile() as output:
        start = time.perf_counter()
        process = subprocess.Popen(words, stdin=subprocess.DEVNULL, stdout=output)
        _, status, usage = os.wait4(process.pid, 0)
        elapsed = time.perf_counter() - start
        process.returncode = os.waitstatus_to_exitcode(status)
        if process.returncode != 0:
            fail(f"{shlex.join(words)} ended with status {process.returncode}")
        output.seek(0)
        return elapsed * 1e3, usage.ru_maxrss, output.read().decode()


def peak_memory(words):
    """The median peak memory of a command, in KiB.

    A child's peak begins at its parent's memory, and Python has 10 MB and more. So GNU time, which is small, starts
    the command where it is installed; else the number is at least Python's own.
    """
    gnu_time = shutil.which("time")
    if gnu_time is None:
        return statistics.median(run(words)[1] for _ in range(MEMORY_ROUNDS))
    return statistics.median(peak_by_gnu_time(gnu_time, words) for _ in range(MEMORY_ROUNDS))


def peak_by_gnu_time(gnu_time, words):
    """The peak memory of one run in KiB, as GNU time tells it."""
    with tempfile.NamedTemporaryFile("r") as told:
        run([gnu_time, "--format=%M", f"--output={told.name}", *words])
        return int(told.read())


def instructions(words):
    """How many instructions one run of a command takes, as callgrind counts them."""
    with tempfile.NamedTemporaryFile("r") as counted:
        tool = ["valgrind", "--quiet", "--tool=callgrind", f"--callgrind-out-file={counted.name}"]
        run([*tool, *words])
        total = re.search(r"^(?:totals|summary): (\d+)", counted.read(), re.M)
    if total is None:
        fail(f"callgrind counted nothing of {shlex.join(words)}")
    return int(total.group(1))


def interleaved(rounds, *commands):
    """The runs of some commands, in turn: one of each for each round, after one of each to warm up."""
    return [[run(words) for words in commands] for _ in range(rounds + 1)][1:]


def single(rounds, words, with_instructions):
    """The row of one command."""
    run(words)
    milliseconds = statistics.median(run(words)[0] for _ in range(rounds))
    counted = f"{instructions(words)}" if with_instructions else "-"
    return f"{milliseconds:.1f} {counted} {peak_memory(words):.0f}"


def pair(rounds, ours, peer):
    """The row of two commands that print the same."""
    runs = interleaved(rounds, ours, peer)
    if any(mine[2] != theirs[2] for mine, theirs in runs):
        fail(f"{shlex.join(ours)} and {shlex.join(peer)} print different texts")
    mine = statistics.median(one[0] for one, _ in runs)
    theirs = statistics.median(one[0] for _, one in runs)
    memory = f"{peak_memory(ours):.0f} {peak_memory(peer):.0f}"
    return f"{mine:.1f} {theirs:.1f} {mine / theirs:.2f} {memory}"


def times(rounds, *commands):
    """The row of commands that are timed alone, whatever they print. The last is the peer."""
    runs = interleaved(rounds, *commands)
    medians = [statistics.median(one[0] for one in column) for column in zip(*runs)]
    ratios = [mine / medians[-1] for mine in medians[:-1]]
    return " ".join([f"{median:.1f}" for median in medians] + [f"{ratio:.2f}" for ratio in ratios])


def rate(output):
    """Sections a second, over all lines of an output."""
    counts = [(int(made), int(spent)) for made, spent in RATE.findall(output)]
    if not counts:
        fail(f"no line `sections N nanoseconds N` in {output!r}")
    return sum(made for made, _ in counts) / sum(spent for _, spent in counts) * 1e9


def rates(rounds, *commands):
    """The row of commands that print how many sections they made in how many nanoseconds. The last is the peer."""
    runs = interleaved(rounds, *commands)
    medians = [statistics.median(rate(one[2]) for one in column) for column in zip(*runs)]
    ratios = [mine / medians[-1] for mine in medians[:-1]]
    return " ".join([f"{median:.0f}" for median in medians] + [f"{ratio:.2f}" for ratio in ratios])


def span(output):
    """How many calls a command made, and in how many milliseconds."""
    found = SPAN.fullmatch(output)
    if found is None:
        fail(f"no line `calls N nanoseconds N` alone in {output!r}")
    return int(found.group(1)), int(found.group(2)) / 1e6


def spread(column):
    """Half the distance between the quartiles, in percent of the median."""
    if len(column) < 2:
        return "-"
    low, middle, high = statistics.quantiles(column, method="inclusive")
    return f"{(high - low) / 2 / middle:.0%}"


def spans(rounds, *commands):
    """The row of commands that make the same calls and print how long they took. Ours is first."""
    runs = [[span(one[2]) for one in row] for row in interleaved(rounds, *commands)]
    if len({calls for row in runs for calls, _ in row}) > 1:
        fail(f"{'; '.join(map(shlex.join, commands))} make different calls")
    columns = [[milliseconds for _, milliseconds in column] for column in zip(*runs)]
    medians = [statistics.median(column) for column in columns]
    figures = [f"{median:.1f} {spread(column)}" for median, column in zip(medians, columns)]
    return " ".join([*figures, f"{medians[0] / medians[1]:.2f}"])


def latenesses(output):
    """For each section of an output how many nanoseconds after its entry was seen in the log its call returned."""
    moments = [(kind, int(entries), int(spent)) for kind, entries, spent in MOMENT.findall(output)]
    grown = [(entries, spent) for kind, entries, spent in moments if kind == "grown"]
    found = []
    for kind, entries, spent in moments:
        place = bisect.bisect_left(grown, (entries, 0))
        if kind == "returned" and place < len(grown):
            found.append(max(0, spent - grown[place][1]))
    return found


def late(rounds, words):
    """The row of a command that prints moments: how much later than its entry a call returned, in microseconds."""
    found = sorted(one for _ in range(rounds) for one in latenesses(run(words)[2]))
    if not found:
        fail(f"no moments in what {shlex.join(words)} prints")
    return f"{found[len(found) // 2] / 1e3:.1f} {found[len(found) * 99 // 100] / 1e3:.1f} {len(found)}"


def main(words):
    """Prints the row that the words ask for."""
    match words:
        case ["single", rounds, command, *flags] if flags in ([], ["--instructions"]):
            print(single(int(rounds), shlex.split(command), bool(flags)))
        case ["pair", rounds, ours, peer]:
            print(pair(int(rounds), shlex.split(ours), shlex.split(peer)))
        case ["times", rounds, _, _, *_]:
            print(times(int(rounds), *map(shlex.split, words[2:])))
        case ["rates", rounds, _, _, *_]:
            print(rates(int(rounds), *map(shlex.split, words[2:])))
        case ["spans", rounds, _, _, *_]:
            print(spans(int(rounds), *map(shlex.split, words[2:])))
        case ["late", rounds, command]:
            print(late(int(rounds), shlex.split(command)))
        case _:
            sys.exit(__doc__)


if __name__ == "__main__":
    main(sys.argv[1:])
