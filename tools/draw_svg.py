"""What pictures are made of: text that can be selected, lines and boxes, in colours for light and for dark."""

import math
import re
import textwrap
import xml.etree.ElementTree as ET

MONO = 'ui-monospace, SFMono-Regular, Menlo, Consolas, "Liberation Mono", "DejaVu Sans Mono", monospace'
SANS = 'system-ui, -apple-system, "Segoe UI", "Liberation Sans", "DejaVu Sans", sans-serif'

# Of each class of text: its size, how wide a character is at most as a part of it, and its style.
FONTS = {
    "title": (16, 0.66, f"font: 600 16px {SANS}"),
    "note": (12, 0.6, f"font: 12px {SANS}"),
    "code": (12, 0.62, f"font: 12px {MONO}"),
    "strong": (12, 0.62, f"font: 600 12px {MONO}"),
}

# Each colour in light and in dark.
COLOURS = {
    "paper": ("#ffffff", "#14181d"),
    "stripe": ("#f5f7f9", "#1a1f26"),
    "box": ("#f5f7f9", "#1d232b"),
    "edge": ("#c3cbd4", "#46505c"),
    "ink": ("#1d2329", "#e4e8ec"),
    "faint": ("#5d6771", "#98a3ae"),
    "wait": ("#b9c0c8", "#56606b"),
    "section": ("#2f6db0", "#79b0e6"),
    "wake": ("#b25a12", "#eba663"),
    "spurious": ("#7b4bb8", "#bda0ee"),
    "fault": ("#bf2f2a", "#f2938c"),
}

MARGIN = 24
LINE = 18
SAMPLE = 48  # how wide a sample of a legend is
NAMESPACE = "http://www.w3.org/2000/svg"


def width_of(text, font):
    """How wide a text is at most."""
    size, part, _ = FONTS[font]
    return len(text) * size * part


def wrapped(text, characters):
    """The lines of a text of code that is longer: broken before `&&` and `||` where that is enough, else at blanks."""
    lines = []
    for part in re.split(r" (?=&&|\|\|)", text):
        if lines and len(lines[-1]) + 1 + len(part) <= characters:
            lines[-1] += f" {part}"
        else:
            lines += textwrap.wrap(part, characters, break_on_hyphens=False)
    return lines


def counted(number, what):
    return f"{number} {what}{'' if number == 1 else 's'}"


def shortened(text, characters):
    """The text, without what is in its middle where it is longer."""
    half = (characters - 1) // 2
    return text if len(text) <= characters else f"{text[:half]}…{text[-half:]}"


def style(rules):
    """The style sheet. `<ink>` in a rule is a colour, so each rule with one stands there for light and for dark."""
    lines = [f".{name} {{ {font} }}" for name, (_, _, font) in FONTS.items()]
    lines += [filled(rule, 0) for rule in rules]
    dark = [filled(rule, 1) for rule in rules if filled(rule, 0) != filled(rule, 1)]
    return "\n".join(["", *lines, "@media (prefers-color-scheme: dark) {", *dark, "}", ""])


def filled(rule, scheme):
    """A rule with its colours in their places."""
    for name, colours in COLOURS.items():
        rule = rule.replace(f"<{name}>", colours[scheme])
    return rule


class Picture:
    """A picture that grows to what is drawn in it."""

    def __init__(self, title, rules):
        name = title.lower().replace(" ", "-")
        labels = {"role": "img", "aria-labelledby": f"{name}-title {name}-desc"}
        self.root = ET.Element("svg", {"xmlns": NAMESPACE} | labels)
        self.child(self.root, "title", id=f"{name}-title").text = title
        self.described = self.child(self.root, "desc", id=f"{name}-desc")
        self.child(self.root, "style").text = style([*COMMON, *rules])
        self.paper = self.child(self.root, "rect", kind="paper")
        self.right = self.bottom = 0

    @staticmethod
    def child(parent, tag, kind=None, **attributes):
        """A new element of this class; `x1` and `text_anchor` become attributes of SVG."""
        words = {name.replace("_", "-"): number(value) for name, value in attributes.items()}
        return ET.SubElement(parent, tag, ({"class": kind} if kind else {}) | words)

    def reach(self, x, y):
        """The picture has this point."""
        self.right, self.bottom = max(self.right, x), max(self.bottom, y)

    def group(self, kind, title=None, parent=None):
        """A group with a title, which a pointer that rests on it shows."""
        made = self.child(self.root if parent is None else parent, "g", kind)
        if title:
            self.child(made, "title").text = title
        return made

    def text(self, x, y, text, kind, parent=None, full=None, **more):
        """A text whose base is at y. Its first class is its font."""
        made = self.child(self.root if parent is None else parent, "text", kind, x=x, y=y, **more)
        made.text = text
        if full and full != text:
            self.child(made, "title").text = full
        if "transform" not in more and more.get("text_anchor") != "end":
            part = 0.5 if more.get("text_anchor") == "middle" else 1
            self.reach(x + part * width_of(text, kind.split()[0]), y)
        return made

    def box(self, x, y, width, height, kind, parent=None, **more):
        self.reach(x + width, y + height)
        return self.child(self.root if parent is None else parent, "rect", kind, x=x, y=y, width=width, height=height,
                          **more)

    def path(self, kind, *steps, parent=None):
        """A path of letters and numbers."""
        places = " ".join(number(step) for step in steps)
        return self.child(self.root if parent is None else parent, "path", kind, d=places)

    def written(self, description):
        """The text of the picture, which is described in words for whoever doesn't see it."""
        self.described.text = description
        width, height = math.ceil(self.right + MARGIN), math.ceil(self.bottom + MARGIN)
        self.root.attrib |= {"viewBox": f"0 0 {width} {height}", "width": str(width), "height": str(height)}
        self.paper.attrib |= {"width": str(width), "height": str(height), "rx": "8"}
        ET.indent(self.root)
        return ET.tostring(self.root, encoding="unicode") + "\n"


# The rules that all pictures share.
COMMON = [
    "text { fill: <ink> }",
    ".paper { fill: <paper> }",
    ".faint { fill: <faint> }",
]


def number(value):
    """A number without the zeros behind its point, or a word."""
    return f"{value:.2f}".rstrip("0").rstrip(".") if isinstance(value, float) else str(value)


def legend(picture, x, y, width, samples):
    """Draws samples, each by what draws it at a place and with what it means, beside each other as far as they fit."""
    left = x
    for draw, text in samples:
        needed = SAMPLE + 10 + width_of(text, "note") + 20
        if left > x and left + needed > x + width:
            left, y = x, y + LINE + 4
        draw(left, y)
        picture.text(left + SAMPLE + 10, y + 4, text, "note faint")
        left += needed
