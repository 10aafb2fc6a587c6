#!/usr/bin/env python3
"""Writes monitors that are hard to compile, each within the limits of the language.

  hard.py rounds    16 numbers, of which each waits for the one before: most candidates are not kept, and fall one by one
  hard.py deep      one query of 61,697 nodes and 1,021 cubes
  hard.py flags     a guard that reads one flag 21,601 times, and has 512 cubes
  hard.py wide      16 numbers, and 16 methods with 64 statements each
  hard.py numbers   65,536 bytes: 16 numbers, and 16 methods with long sums
"""

import sys

FIELDS = 16
METHODS = 16
STATEMENTS = 64
FILE_BYTES = 65536


def rounds():
    """Each method waits for the number before its own, and counts on."""
    fields = "".join(f"  int x{field} = 0;\n" for field in range(FIELDS))
    methods = []
    for number in range(METHODS):
        before, sign = ("x15", "<=") if number == 0 else (f"x{number - 1}", ">=")
        guard = " && ".join(f"{before} {sign} {bound}" for bound in (2, 5, 8, 11))
        methods.append(f"  method m{number}() waituntil ({guard}) {{\n    x{number} = x{number} + 1;\n  }}\n")
    return f"monitor Rounds {{\n{fields}{''.join(methods)}}}\n"


def deep():
    """A flag that is 17 times put into itself, beside a long conjunction of comparisons."""
    fields = "int x=0;int y=0;bool p=false;bool q=false;bool b=false;bool d=false;bool c=false;"
    levels = 60
    nested = "b=" + "q&&(" * levels + "b" + ")||p" * levels + ";\n"
    body = f"d={'&&'.join(['x==y'] * 6400)};\nb=q;\n{nested * 17}c=b&&d&&d&&d;\n"
    return f"monitor Deep {{\n{fields}\nmethod m()waituntil(true){{\n{body}}}\nmethod s()waituntil(true){{p=!p;q=!q;}}\n}}\n"


def flags():
    """A guard of a long conjunction of one flag, and of nine disjunctions."""
    fields = "".join(f"int x{field}=0;" for field in range(15)) + "bool a=true;"
    either = "&&".join(f"(x{left}<=40||x{left + 1}<=40)" for left in range(9))
    return f"monitor Flags {{\n{fields}\nmethod m()waituntil({'a&&' * 21600}{either}){{}}\n}}\n"


def counting(number, statements, terms):
    """A method that counts its number up to its bound, with statements that add to numbers and take it away again."""
    before = (number + FIELDS - 1) % FIELDS
    sums = []
    for turn in range(statements - 1):
        field, sign = (number + turn // 2) % FIELDS, "+-"[turn % 2]
        added = "".join(f" {sign} {1 + (turn // 2 + term) % 9}" for term in range(terms))
        sums.append(f"x{field} = x{field}{added}; ")
    guard = f"x{number} < {number + 2} && x{number} <= x{before}"
    return f"  method m{number}() waituntil ({guard}) {{ {''.join(sums)}x{number} = x{number} + 1; }}\n"


def counters(name, statements, terms):
    """Numbers that methods count."""
    fields = "".join(f"  int x{field} = 0;\n" for field in range(FIELDS))
    methods = "".join(counting(number, statements, terms) for number in range(METHODS))
    return f"monitor {name} {{\n{fields}{methods}}}\n"


def wide():
    """As many numbers, methods and statements as there may be."""
    return counters("Wide", STATEMENTS, 1)


def long_sums():
    """The same with sums as long as a file may have them."""
    texts = (counters("Numbers", STATEMENTS, terms) for terms in range(1, 64))
    text = max((text for text in texts if len(text) <= FILE_BYTES - 3), key=len)
    return text + "//" + "." * (FILE_BYTES - len(text) - 3) + "\n"


MONITORS = {"rounds": rounds, "deep": deep, "flags": flags, "wide": wide, "numbers": long_sums}


def main(words):
    """Prints the monitor of that name."""
    match words:
        case [name] if name in MONITORS:
            sys.stdout.write(MONITORS[name]())
        case _:
            sys.exit(__doc__)


if __name__ == "__main__":
    main(sys.argv[1:])
