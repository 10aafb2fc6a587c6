"""Comments of a monitor as docs of Rust. A text has a character for each byte."""

import re

BLANKS = " \t\n\r\f"
MARKS = set("\\`*[]<>~|&")
FIRST_MARKS = set("#=+-")


def is_comment(line):
    return line.strip(BLANKS).startswith("//")


def is_escaped(text, at):
    """Whether Markdown might make more than text of this byte."""
    byte, ahead = text[at], text[:at]
    if byte in MARKS or at == 0 and byte in FIRST_MARKS or text.startswith("://", at):
        return True
    if byte == "_":
        return not re.fullmatch("[0-9A-Za-z]_[0-9A-Za-z]", text[max(at - 1, 0):at + 2])
    return byte in ".)" and re.fullmatch("[0-9]{0,9}", ahead) is not None


def plain(text):
    """A text of which Markdown makes nothing but text."""
    return "".join(("\\" if is_escaped(text, at) else "") + (byte if " " <= byte <= "~" else "?")
                   for at, byte in enumerate(text))


class Comments:
    """The lines of a monitor's file, and those of its items by keyword and name."""

    def __init__(self, text):
        self.lines = text.split("\n")
        bare = re.sub("//.*", lambda found: " " * len(found[0]), text)
        self.places = {(found[1], found[2]): text[:found.start(2)].count("\n")
                       for found in re.finditer(r"\b(const|param|method)\s+(\w+)", bare)}
        spare = [not line.strip(BLANKS) or is_comment(line) for line in self.lines]
        self.first = spare.index(False) if False in spare else len(spare)

    def above(self, place, indent):
        """The docs of the comments directly above a line; none where no comment says anything."""
        first = place
        while first and is_comment(self.lines[first - 1]):
            first -= 1
        said = [line.strip(BLANKS)[2:].strip(BLANKS) for line in self.lines[first:place]]
        return "".join(f"{indent}/// {plain(one)}".rstrip() + "\n" for one in said) if any(said) else ""

    def leading(self, place, indent):
        """With an empty line after them, where there are any."""
        docs = self.above(place, indent)
        return docs + f"{indent}///\n" if docs else ""

    def of_monitor(self):
        return self.leading(self.first, "")

    def of_method(self, name):
        return self.leading(self.places["method", name], "    ")

    def of_constant(self, name):
        return self.above(self.places["const", name], "    ")

    def of_parameter(self, name):
        return self.above(self.places["param", name], "    ")
