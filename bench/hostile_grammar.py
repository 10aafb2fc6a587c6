"""Where no token starts in a file, or which token is the first that can't follow: found by hand, for `hostile.py`."""

import re

KEYWORDS = b"monitor const int bool true false method waituntil if else return client repeat try local".split()
TOKEN = re.compile(rb"[ \t\r\n]+|//[^\n]*|[A-Za-z_]\w*|[0-9]+|&&|\|\||[=!<>]=|[-{}();,=<>!+*]")
LEVELS = 64


class Fault(Exception):
    """A file that isn't of the language, from this offset on, and the text that says so."""

    def __init__(self, at, text):
        super().__init__(text)
        self.at, self.text = at, text


def kind_of(token):
    """What the grammar sees of a token: a keyword or a sign as it is, `ident` and `number`."""
    if token[:1].isdigit():
        return b"number"
    return b"ident" if re.match(rb"\w", token) and token not in KEYWORDS else token


def tokens(text):
    """The tokens of a text, each with its offset, and its end."""
    found, at = [], 0
    while at < len(text):
        piece = TOKEN.match(text, at)
        if piece is None or (re.match(rb"\w", piece[0]) and len(piece[0]) > 32):
            raise Fault(at, b"no token starts here")
        if not piece[0][:1].isspace() and not piece[0].startswith(b"//"):
            found.append((kind_of(piece[0]), at))
        at = piece.end()
    return [*found, (b"end", at)]


class Reader:
    """Reads a file from left to right, and stops at the first token that no file has there."""

    def __init__(self, text):
        self.text, self.tokens, self.next = text, tokens(text), 0

    def sees(self, *kinds):
        return self.tokens[self.next][0] in kinds

    def sees_name(self, name):
        kind, at = self.tokens[self.next]
        return kind == b"ident" and re.match(rb"\w+", self.text[at:])[0] == name

    def stop(self):
        raise Fault(self.tokens[self.next][1], b"syntax")

    def take(self, *kinds):
        """Takes one token of these kinds."""
        if not self.sees(*kinds):
            self.stop()
        self.next += 1
        return self.tokens[self.next - 1][0]

    def each(self, *kinds):
        """Takes one token of each of these kinds, in order."""
        for kind in kinds:
            self.take(kind)

    def some(self, sign, part, *given):
        """One part or more, with a sign between."""
        part(*given)
        while self.sees(*sign):
            self.take(*sign)
            part(*given)

    def deeper(self, level):
        """The level inside the next token, which opens one."""
        if level == LEVELS:
            self.stop()
        return level + 1

    def take_name(self, name):
        """Takes one name of these letters."""
        if not self.sees_name(name):
            self.stop()
        self.take(b"ident")

    def monitor(self):
        self.each(b"monitor", b"ident", b"{")
        while self.sees(b"const", b"int", b"bool") or self.sees_name(b"param"):
            self.declaration()
        while self.sees(b"method"):
            self.method()
        self.each(b"}", b"end")

    def declaration(self):
        if self.sees_name(b"param"):
            self.parameter()
            return
        kind = self.take(b"const", b"int", b"bool")
        self.each(b"ident", b"=")
        if kind == b"int" and self.sees(b"ident"):
            self.take(b"ident")
        else:
            self.take(b"true", b"false") if kind == b"bool" else self.written()
        self.take(b";")

    def parameter(self):
        self.take_name(b"param")
        self.each(b"ident", b"=")
        self.written()
        self.take_name(b"where")
        self.each(b"(", b"ident")
        self.take(b"==", b"<", b"<=", b">", b">=")
        self.written()
        self.each(b")", b";")

    def written(self):
        if self.sees(b"-"):
            self.take(b"-")
        self.take(b"number")

    def method(self):
        self.each(b"method", b"ident", b"(")
        if not self.sees(b")"):
            self.some([b","], lambda: (self.take(b"int", b"bool"), self.take(b"ident")))
        self.take(b")")
        while self.sees(b"local"):
            self.local()
        if self.sees_name(b"asserts"):
            self.block(b"ident")
            return
        self.block(b"waituntil")
        while self.sees(b"waituntil"):
            self.block(b"waituntil")

    def local(self):
        self.take(b"local")
        kind = self.take(b"int", b"bool")
        self.each(b"ident", b"=")
        self.take(b"true", b"false") if kind == b"bool" else self.written()
        self.take(b";")

    def block(self, opening):
        self.each(opening, b"(")
        self.expression(0)
        self.take(b")")
        self.body(0)

    def body(self, level):
        self.take(b"{")
        while self.sees(b"ident", b"if", b"return"):
            self.statement(level)
        self.take(b"}")

    def statement(self, level):
        inner = self.deeper(level) if self.sees(b"if") else level
        first = self.take(b"ident", b"if", b"return")
        if first == b"if":
            self.take(b"(")
            self.expression(level)
            self.take(b")")
            self.body(inner)
            if self.sees(b"else"):
                self.take(b"else")
                self.body(inner)
            return
        if first == b"ident":
            self.take(b"=")
        self.expression(level)
        self.take(b";")

    def expression(self, level):
        self.some([b"||"], self.some, [b"&&"], self.comparison, level)

    def comparison(self, level):
        self.sum(level)
        if self.sees(b"==", b"!=", b"<", b"<=", b">", b">="):
            self.next += 1
            self.sum(level)

    def sum(self, level):
        self.some([b"+", b"-"], self.some, [b"*"], self.unary, level)

    def unary(self, level):
        if self.sees(b"-", b"!"):
            inner = self.deeper(level)
            self.next += 1
            self.unary(inner)
        elif self.sees(b"("):
            inner = self.deeper(level)
            self.next += 1
            self.expression(inner)
            self.take(b")")
        else:
            self.take(b"number", b"true", b"false", b"ident")

    def clients(self):
        while self.sees(b"client"):
            self.each(b"client", b"ident")
            self.items(0)
        self.take(b"end")

    def items(self, level):
        self.take(b"{")
        while self.sees(b"ident", b"try", b"repeat"):
            self.item(level)
        self.take(b"}")

    def item(self, level):
        inner = self.deeper(level) if self.sees(b"repeat") else level
        first = self.take(b"ident", b"try", b"repeat")
        if first == b"try":
            self.take(b"ident")
        if first == b"repeat":
            self.take(b"number")
            self.items(inner)
            return
        self.take(b"(")
        if not self.sees(b")"):
            self.some([b","], self.argument)
        self.each(b")", b";")

    def argument(self):
        if self.sees(b"true", b"false"):
            self.next += 1
        else:
            self.written()


def place_of(text, offset):
    """The line and column of an offset."""
    before = text[:offset]
    return before.count(b"\n") + 1, offset - (before.rfind(b"\n") + 1) + 1


def line_of(name, text, offset, fault):
    """The line that refuses a file at an offset."""
    return b"refused: %s:%d:%d: %s\n" % (name.encode(), *place_of(text, offset), fault)


def line_that_refuses(name, text):
    """The line that refuses a file of this name for its tokens or its grammar, or none."""
    try:
        reader = Reader(text)
        reader.monitor() if name.endswith(".mon") else reader.clients()
    except Fault as fault:
        return line_of(name, text, fault.at, fault.text)
    return None
