#!/usr/bin/env python3
"""Writes monitors and clients of a given size, within the limits of the language.

  generate.py monitor BYTES     a monitor of that many bytes, 4,096 to 65,536
  generate.py clients BYTES     32 clients of that monitor with as many calls as fit, each written out; they end done
  generate.py sides             32 clients of a buffer with 16,384 calls: half only put, and half only get
  generate.py in-turn           32 clients of a buffer with 16,384 calls: each puts and gets in turn
  generate.py blocks            a monitor of 16 methods, each of 4 blocks and with 4 locals
  generate.py in-blocks         32 clients of that monitor with 16,384 calls; they end done

The monitor has 64 constants, 16 fields and 16 methods, in pairs. The first of a pair waits for room and the second
for something, as `put` and `get` of a buffer do; a larger file has more pairs that wait, from 2 to 4, and the others
wait for nothing. Then the bodies change a sum and flags that no guard reads, with more and longer statements in a larger file. A
comment fills what is left. (The time to compile grows fast with the numbers among the fields: so most are flags.)
"""

import sys

CONSTANTS = 64
FIELDS = 16
METHODS = 16
STATEMENTS = 64
CLIENTS = 32
CALLS = 16384

# How many pairs wait, by the least size that has so many.
WAITING_PAIRS = {65536: 4, 16384: 3, 0: 2}

# The statements of a body beside the many: the change of its count, and an `if` with a statement in each branch.
OTHER_STATEMENTS = 4


def statement(number, flags, terms):
    """The change of a flag, or a sum of so many terms. Each sum is undone by the next."""
    turn, toggles = divmod(number, 2)
    if toggles:
        return f"    flag{turn % flags} = !flag{turn % flags};\n"
    sign = "+-"[turn % 2]
    added = "".join(f" {sign} C{(turn // 2 + term) % CONSTANTS:02}" for term in range(terms))
    return f"    sum = sum{added};\n"


def method(number, waiting, statements, terms):
    """A method of a pair: a guard and the change of its count, an `if`, and the many statements."""
    pair, takes = divmod(number, 2)
    guard, change = "true", ""
    if pair < waiting:
        guard = f"count{pair} > 0" if takes else f"count{pair} < C{pair + 1:02}"
        change = f"    count{pair} = count{pair} {'-' if takes else '+'} 1;\n"
    flags = FIELDS - 1 - waiting
    return (
        f"  method step{number:02}() waituntil ({guard}) {{\n{change}"
        "    if (flag0) { flag1 = !flag1; } else { flag2 = !flag2; }\n"
        f"{''.join(statement(one, flags, terms) for one in range(statements))}  }}\n"
    )


def monitor_text(waiting, statements, terms):
    """A monitor of which so many pairs wait, and whose bodies have so many statements, with so many terms in a sum."""
    constants = "".join(f"  const C{number:02} = {number};\n" for number in range(CONSTANTS))
    counts = "".join(f"  int count{number} = 0;\n" for number in range(waiting))
    flags = "".join(f"  bool flag{number} = false;\n" for number in range(FIELDS - 1 - waiting))
    methods = "".join(method(number, waiting, statements, terms) for number in range(METHODS))
    return f"monitor Pairs {{\n{constants}{counts}  int sum = 0;\n{flags}{methods}}}\n"


def filled(text, size):
    """The text with a comment behind it, in so many bytes."""
    left = size - len(text)
    return text if left < 3 else text + "//" + "." * (left - 3) + "\n"


def monitor(size):
    """The largest monitor of at most so many bytes: first with more statements, then with longer ones."""
    waiting = next(pairs for least, pairs in WAITING_PAIRS.items() if size >= least)
    shapes = [(statements, 1) for statements in range(0, STATEMENTS - OTHER_STATEMENTS + 1, 4)]
    shapes += [(STATEMENTS - OTHER_STATEMENTS, terms) for terms in range(2, CONSTANTS)]
    texts = [monitor_text(waiting, *shape) for shape in shapes]
    fitting = [text for text in texts if len(text) <= size]
    if not fitting:
        sys.exit(f"generate.py: no monitor has only {size} bytes")
    return filled(fitting[-1], size)


def clients_text(calls):
    """So many calls of each client, two clients for each method."""
    texts = []
    for number in range(CLIENTS):
        body = f"  step{number % METHODS:02}();\n" * calls
        texts.append(f"client K{number:02} {{\n{body}}}\n")
    return "".join(texts)


def clients(size):
    """The clients with the most calls of at most so many bytes."""
    calls = 1
    while calls < CALLS // CLIENTS and len(clients_text(calls + 1)) <= size:
        calls += 1
    return filled(clients_text(calls), size)


def buffer_clients(items):
    """A client for each of these texts, which says what it repeats."""
    return "".join(f"client K{number:02} {{ repeat {item} }}\n" for number, item in enumerate(items))


def sides():
    """Half of the clients only put, and half only get."""
    calls = CALLS // CLIENTS
    putting, getting = f"{calls} {{ put(); }}", f"{calls} {{ get(); }}"
    return buffer_clients([putting] * (CLIENTS // 2) + [getting] * (CLIENTS // 2))


def in_turn():
    """Each client puts and gets in turn."""
    return buffer_clients([f"{CALLS // CLIENTS // 2} {{ put(); get(); }}"] * CLIENTS)


def blocks_method(number):
    """A method of four blocks that read and change its four locals; a pair of methods shares a count."""
    count, flag = f"count{number // 2}", f"flag{number // 2}"
    return f"""  method step{number:02}(int n)
    local int seen = 0;
    local int sum = 0;
    local bool even = false;
    local bool odd = true;
    waituntil (true) {{
      seen = {count};
      even = !even;
      {count} = {count} + 1;
    }}
    waituntil ({count} > seen) {{
      sum = sum + seen;
      odd = !odd;
    }}
    waituntil ({count} >= seen + n && (even || odd)) {{
      sum = sum + n;
      {flag} = even;
    }}
    waituntil (sum >= seen) {{
      {flag} = odd;
      return sum;
    }}
"""


def blocks():
    """A monitor with as many methods and blocks as there may be."""
    pairs = range(METHODS // 2)
    fields = "".join(f"  int count{pair} = 0;\n  bool flag{pair} = false;\n" for pair in pairs)
    methods = "".join(blocks_method(number) for number in range(METHODS))
    return f"monitor Blocks {{\n{fields}{methods}}}\n"


def in_blocks():
    """Two clients for each method, each with as many calls."""
    return buffer_clients([f"{CALLS // CLIENTS} {{ step{number % METHODS:02}(1); }}" for number in range(CLIENTS)])


def main(words):
    """Prints the text that the words ask for."""
    match words:
        case ["monitor", size]:
            sys.stdout.write(monitor(int(size)))
        case ["clients", size]:
            sys.stdout.write(clients(int(size)))
        case ["sides"]:
            sys.stdout.write(sides())
        case ["blocks"]:
            sys.stdout.write(blocks())
        case ["in-blocks"]:
            sys.stdout.write(in_blocks())
        case ["in-turn"]:
            sys.stdout.write(in_turn())
        case _:
            sys.exit(__doc__)


if __name__ == "__main__":
    main(sys.argv[1:])
