"""Reads the tables of crates/rows/data, as crates/rows/src/reading.rt says how they are written.

Checks of what is made beside the program take their monitors, clients, plans and logs from here, so a row that is
added is checked by them too.
"""

import pathlib
import re
from dataclasses import dataclass, field

ROOT = pathlib.Path(__file__).resolve().parent.parent
ROWS = ROOT / "crates" / "rows"
PARTS = {"|", "=", "front", "bytes", "repeat", "fill", ".."}
ESCAPE = re.compile(rb"\\(?:x([0-9a-fA-F]{2})|\(([^)]*)\)|(.))", re.S)
LETTERS = {b"n": b"\n", b"r": b"\r", b"t": b"\t", b"s": b" ", b"e": b""}


@dataclass
class Item:
    """A line of a table, with the lines behind it that go on with its text."""

    key: str
    rest: str
    parts: list = field(default_factory=list)


@dataclass
class Call:
    """A command line, the files that are there, the status that is wanted, and what is wanted to be printed.

    Where lines are left out, `whole` is false, and `text` is what stands before them.
    """

    row: str
    words: list
    files: dict
    status: str
    text: bytes
    whole: bool


class Tables:
    """The texts and the calls of all tables."""

    def __init__(self):
        self.texts, self.calls, self.files = {}, [], []
        # the words of the program that runs the rows: a text is named by later tables alone
        for name in (ROWS / "args").read_text().split():
            self.read(ROWS / "data" / name)

    def read(self, path):
        row, files, words, into = "", {}, [], None
        for item in items(path.read_text()):
            if item.key == "text":
                self.texts[item.rest.partition(" = ")[0]] = self.text_of(item)
            elif item.key == "row":
                row, files = f"{path.name}: {item.rest}", {}
            elif item.key == "file":
                name = item.rest.partition(" = ")[0]
                files = files | {name: self.text_of(item)}
                self.files.append((row, name, files[name]))
            elif item.key == "$":
                line, _, into = item.rest.partition(" > ")
                words = [self.unescaped(word.encode()).decode() for word in line.split()]
            else:
                whole = all(key != ".." or rest == "0" for key, rest in item.parts)
                call = Call(row, words, files, item.rest.partition(" = ")[0], self.text_of(item), whole)
                self.calls.append(call)
                if into:
                    files = files | {into: call.text}

    def text_of(self, item):
        """The text of an item, up to lines that are left out."""
        name = item.rest.partition(" = ")[2]
        text = self.texts[name] if name else b""
        for key, rest in item.parts:
            if key == ".." and rest != "0":
                return text
            text += self.part(key, rest, len(text))
        return text

    def part(self, key, rest, length):
        """What a line adds to a text of this length."""
        first, _, more = rest.partition(" ")
        if key == "|":
            return rest.encode() + b"\n"
        if key == "=":
            return self.texts[rest]
        if key == "front":
            return self.texts[more][: int(first)]
        if key == "bytes":
            return self.unescaped(rest.encode())
        if key == "repeat":
            return b"".join(self.unescaped(more.encode(), copy) for copy in range(int(first)))
        return self.unescaped(more.encode()) * (int(first) - length) if key == "fill" else b""

    def unescaped(self, text, copy=0):
        def meant(escape):
            code, name, letter = escape.groups()
            if code:
                return bytes.fromhex(code.decode())
            if name is not None:
                return self.texts[name.decode()]
            return b"%02d" % (copy % 100) if letter == b"#" else LETTERS[letter]

        return ESCAPE.sub(meant, text)


def items(text):
    """The lines of a table that begin something, each with those that go on with it."""
    found = []
    for line in map(str.lstrip, text.split("\n")):
        if line and not line.startswith("#"):
            key, _, rest = line.partition(" ")
            if key in PARTS:
                found[-1].parts.append((key, rest))
            else:
                found.append(Item(key, rest))
    return found
