#!/usr/bin/env python3
"""Draws what `compile`, `simulate`, `run`, `block` and `turns` print, as a picture in SVG on standard output.

A plan: its blocks, its conditions, and an arrow for each note. A log: a lane for each client, and an arrow from who
wakes to who is woken. Of a text with both the log is drawn.
"""

import argparse
import sys

sys.dont_write_bytecode = True

from draw_log import draw_log  # noqa: E402
from draw_plan import draw_plan  # noqa: E402
from draw_reading import Unreadable, read  # noqa: E402

MOST_ROWS = 200


def words():
    parser = argparse.ArgumentParser(prog="draw.py", description=__doc__.partition("\n")[0])
    parser.add_argument("file", nargs="?", default="-", help="what was printed; standard input where there is none")
    parser.add_argument("--plan", action="store_true", help="draw the plan of a text that has a log too")
    parser.add_argument("--from", dest="first", type=int, metavar="N", help="draw the log from its line N on")
    parser.add_argument("--to", dest="last", type=int, metavar="M",
                        help=f"and up to its line M; without it at most {MOST_ROWS} lines are drawn")
    return parser.parse_args()


def text_of(path):
    try:
        if path == "-":
            return sys.stdin.buffer.read().decode()
        with open(path, "rb") as file:
            return file.read().decode()
    except OSError as error:
        raise Unreadable(f"{path} can't be read: {error.strerror}") from None
    except UnicodeDecodeError:
        raise Unreadable("the input is no text") from None


def picture_of(asked):
    """The picture that the words ask for."""
    plan, log = read(text_of(asked.file))
    is_cut = asked.first is not None or asked.last is not None
    if asked.plan and plan is None:
        raise Unreadable("the text has no plan")
    if asked.plan or log is None:
        if is_cut:
            raise Unreadable("--from and --to are of the lines of a log, and here is none to draw")
        return draw_plan(plan)
    first, last = range_of(asked, len(log.entries))
    return draw_log(plan.name if plan else "", log, first, last)


def range_of(asked, count):
    """The first and the last line of the log that are drawn."""
    first = 1 if asked.first is None else asked.first
    last = min(count, first + MOST_ROWS - 1 if asked.last is None else asked.last)
    if count and not 1 <= first <= last:
        raise Unreadable(f"the log has the lines 1 to {count}, and --from and --to are not the ends of a part of it")
    return first, last


def main():
    try:
        picture = picture_of(words())
    except Unreadable as error:
        print(f"draw.py: {error}", file=sys.stderr)
        return 2
    print(picture, end="")
    return 0


if __name__ == "__main__":
    sys.exit(main())
