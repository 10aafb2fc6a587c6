"""Patterns as VS Code reads those of a TextMate grammar: by the library Oniguruma, where it is installed."""

import ctypes
import ctypes.util
import functools

# Each character is four bytes, so a place in bytes tells one in characters.
WIDTH, CODEC, ENCODING = 4, "utf-32-le", "OnigEncodingUTF32_LE"
NONE = -1


class Region(ctypes.Structure):
    """Where a match and its groups begin and end, in bytes."""

    _fields_ = [("allocated", ctypes.c_int), ("count", ctypes.c_int),
                ("begins", ctypes.POINTER(ctypes.c_int)), ("ends", ctypes.POINTER(ctypes.c_int))]


@functools.cache
def library():
    """The library, or none."""
    name = ctypes.util.find_library("onig")
    if name is None:
        return None
    found = ctypes.CDLL(name)
    found.onig_region_new.restype = ctypes.POINTER(Region)
    found.onig_initialize((ctypes.c_void_p * 1)(encoding(found)), 1)
    return found


def encoding(found):
    return ctypes.addressof(ctypes.c_char.in_dll(found, ENCODING))


@functools.lru_cache(maxsize=8)
def held(text):
    """A text as the library takes it."""
    return ctypes.create_string_buffer(text.encode(CODEC))


def bounds(text):
    """Where a text begins and ends in memory."""
    begin = ctypes.addressof(held(text))
    return begin, begin + WIDTH * len(text)


class Match:
    """What a pattern matched."""

    def __init__(self, line, region):
        self.places = region.begins[0] // WIDTH, region.ends[0] // WIDTH
        self.line = line

    def start(self):
        return self.places[0]

    def end(self):
        return self.places[1]

    def __getitem__(self, group):
        return self.line[self.start() : self.end()]


class Pattern:
    """A pattern, with the few methods of Python's that textmate.py asks for."""

    def __init__(self, text):
        self.text, self.regex, self.region = text, ctypes.c_void_p(), library().onig_region_new()
        syntax = ctypes.c_void_p.in_dll(library(), "OnigDefaultSyntax")
        self.asked(library().onig_new(ctypes.byref(self.regex), *map(ctypes.c_void_p, bounds(text)), ctypes.c_uint(0),
                                      ctypes.c_void_p(encoding(library())), syntax, None))

    def asked(self, code):
        """A result of the library that is no failure."""
        if code < NONE:
            raise SystemExit(f"Oniguruma fails with {code} at the pattern {self.text}")
        return code

    def search(self, line, at):
        begin, end = bounds(line)
        places = map(ctypes.c_void_p, (begin, end, begin + WIDTH * at, end))
        code = self.asked(library().onig_search(self.regex, *places, self.region, ctypes.c_uint(0)))
        return None if code == NONE else Match(line, self.region.contents)
