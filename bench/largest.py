#!/usr/bin/env python3
"""Compiles the modules of the largest monitors, of ten shapes, by rustc.

  largest.py [SHAPE..]     a row for each of these shapes, or for all of them

Each monitor is as long as its shape lets it be in a file of 65,536 bytes. Its module is that of the
second printer, tools/emitted.py, under a plan that wakes everyone, so nothing is built. It is
compiled as a library to an object file, without and with `-O`: seconds of the processor, which
hardly depend on what else the machine does, and peak memory. EDITION=2024 takes that edition in
place of 2021, and LIMIT=N gives up after N seconds of the processor (600); then `-` is printed. It
ends with status 1 where rustc refuses a module, has a warning, or was given up.
"""

import os
import pathlib
import re
import resource
import subprocess
import sys
import tempfile

sys.dont_write_bytecode = True
ROOT = pathlib.Path(__file__).resolve().parent.parent
sys.path[:0] = [str(ROOT / "tools"), str(ROOT / "bench")]

from emitted import Source, module_text  # noqa: E402
from emitted_random import everyone  # noqa: E402

BYTES, WIDE = 65536, 64


def row(sign, first, other=None):
    """So many parts with a sign between them."""
    return lambda count: f" {sign} ".join([first] + [other or first] * (count - 1))


def nested(count):
    """A sum of sums of sums, none of which has more than 64 addends."""
    inner = " + ".join(["x"] * 8)
    return " + ".join([f"({' + '.join([f'({inner})'] * WIDE)})"] * count)


def monitor(guard, body):
    """A monitor with one method, in canonical form."""
    fields = "  int x = 0;\n  bool b = false;\n"
    return f"monitor M {{\n{fields}  method m() waituntil ({guard}) {{\n{body}  }}\n}}\n"


def in_body(value):
    return lambda count: monitor("true", f"    x = {value(count)};\n")


def in_guard(value, ahead=""):
    return lambda count: monitor(value(count) + ahead, "    x = 0;\n")


def statements(count):
    """Sixteen methods of four blocks, each of 64 statements: sums of so many addends."""
    body = f"      x = {' + '.join(['x'] * count)};\n" * 64
    block = f"    waituntil (x == 0) {{\n{body}    }}\n"
    methods = "".join(f"  method m{number}()\n{block * 4}" for number in range(16))
    return f"monitor M {{\n  int x = 0;\n{methods}}}\n"


SHAPES = {
    "product": in_body(row("*", "0", "x")),
    "product, guard": in_guard(row("*", "0", "x"), " == 0"),
    "sum": in_body(row("+", "x")),
    "sum, guard": in_guard(row("+", "x"), " == 0"),
    "numbers, guard": in_guard(row("+", "1"), " == 1"),
    "sum of sums": in_body(nested),
    "conjunction": in_guard(row("&&", "b")),
    "disjunction": in_guard(row("||", "x < 1")),
    "sums compared": in_guard(row("||", "x + x < 1")),
    "statements": statements,
}


def length(text):
    """How long the shortest file is with this canonical form."""
    return len("".join(text.split())) + len(re.findall(r"\w\s+(?=\w)", text))


def largest(shape):
    """The greatest count with which a monitor of the shape fits into a file."""
    def fits(count):
        return length(shape(count)) <= BYTES
    least = 1
    while fits(2 * least):
        least *= 2
    most = 2 * least
    while most - least > 1:
        middle = (least + most) // 2
        least, most = (middle, most) if fits(middle) else (least, middle)
    return least


def compiled(path, *words):
    """Whether rustc took it without a warning; its seconds, and its peak memory in KiB."""
    def limit():
        seconds = int(os.environ.get("LIMIT", "600"))
        resource.setrlimit(resource.RLIMIT_CPU, (seconds, seconds))
    edition = os.environ.get("EDITION", "2021")
    command = ["rustc", "--edition", edition, "--crate-type", "lib", "--emit", "obj", "-D", "warnings",
               "-W", "missing_docs", *words, "-o", path.with_suffix(".o"), path]
    with subprocess.Popen(command, preexec_fn=limit) as process:
        _, status, usage = os.wait4(process.pid, 0)
        process.returncode = os.waitstatus_to_exitcode(status)
    return process.returncode == 0, usage.ru_utime + usage.ru_stime, usage.ru_maxrss


def shown(is_taken, seconds, memory):
    return f"{seconds:9.1f}{memory / 1024:9.0f}" if is_taken else f"{'-':>9}{'-':>9}"


def main(names):
    sys.setrecursionlimit(10 ** 6)
    print(f"{'shape':16}{'parts':>8}{'module':>9}{'debug s':>9}{'MiB':>9}{'-O s':>9}{'MiB':>9}")
    are_taken = True
    for name in names or SHAPES:
        count = largest(SHAPES[name])
        text = SHAPES[name](count)
        module = "//! A module.\n\n" + module_text(Source(text, everyone(text)))
        with tempfile.TemporaryDirectory() as folder:
            path = pathlib.Path(folder) / "m.rs"
            path.write_text(module)
            rows = [compiled(path), compiled(path, "-O")]
        are_taken &= all(one[0] for one in rows)
        print(f"{name:16}{count:8}{len(module):9}{''.join(shown(*one) for one in rows)}", flush=True)
    return 0 if are_taken else 1


if __name__ == "__main__":
    sys.exit(main(sys.argv[1:]))
