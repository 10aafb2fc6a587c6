#!/usr/bin/env python3
"""Checks tools/draw.py: each plan and log of the rows is drawn, and of the program where the rows leave lines out.

A picture has to be well-formed, with an arrow for each note of the text and for each client behind `wakes`, and with no
text over another or outside. Here these are counted by what stands in the text, without what reads it for drawing.
Texts that are no plan and no log have to be refused with one sentence, and the pictures in docs/ to be those that are
drawn.
"""

import itertools
import pathlib
import re
import subprocess
import sys
import tempfile
import xml.etree.ElementTree as ET
from dataclasses import dataclass

sys.dont_write_bytecode = True

import draw_reading  # noqa: E402
import draw_svg  # noqa: E402
import tables  # noqa: E402
from draw_log import draw_log  # noqa: E402
from draw_plan import draw_plan  # noqa: E402

ROOT = tables.ROOT
PROGRAM = ROOT / "crates" / "expresso_cli" / "out" / "expresso_cli"
DRAW = ROOT / "tools" / "draw.py"
PICTURES = ROOT / "docs" / "pictures"
COMMANDS = {"compile", "simulate", "run", "block", "turns"}
SVG = f"{{{draw_svg.NAMESPACE}}}"
PATIENCE = 60
MOST_ROWS = 400  # a longer log is drawn in two parts of it

# The pictures that docs/GUIDE.md shows: of a plan by the name of its text, of a log by its row.
SHOWN_PLAN = "BUFFER_PLAN"
SHOWN_LOG = "logs.rows: a_woken_client_finds_its_guard_false_and_waits_again"

# Texts that are not drawn.
REFUSED = {
    "an empty text": "",
    "a refusal": "refused: m.mon:1:12: unknown method\n",
    "a usage": "usage:\nexpresso check FILE\n",
    "a monitor": "monitor Lock {\n}\n",
    "reasons": "plan A\ncondition 1 signal: b\nblock m: 1 signal\nwhy m 1: b=false to b=true\n",
    "a report": "plan A\ncondition 1 signal: b\nblock m: 1 signal\nproof none m 1: clash 0 1\n",
    "a summary": "calls 3\ndone\nstate count=0\n",
    "a note on no condition": "plan A\ncondition 1 signal: b\nblock m: 2 signal\n",
    "a log without an end": "A.1 m() = -\n",
    "a log without a state": "A.1 m() = -\ndone\n",
    "two logs": "A.1 m() = -\ndone\nstate\nA.1 m() = -\ndone\nstate\n",
}


@dataclass(frozen=True)
class Area:
    """What a text covers."""

    text: str
    left: float
    right: float
    top: float
    bottom: float

    def meets(self, other):
        return (self.left < other.right and other.left < self.right
                and self.top < other.bottom and other.top < self.bottom)


def of_kind(root, tag, kind):
    """The elements of a picture that have this class."""
    return [one for one in root.iter(SVG + tag) if kind in one.get("class", "").split()]


def areas(root):
    """What the texts of a picture cover, slanted ones aside."""
    for one in root.iter(SVG + "text"):
        if one.get("transform"):
            continue
        text, font = one.text.strip(), one.get("class").split()[0]
        width, size = draw_svg.width_of(text, font), draw_svg.FONTS[font][0]
        part = {"middle": 0.5, "end": 1}.get(one.get("text-anchor"), 0)
        left, base = float(one.get("x")) - part * width, float(one.get("y"))
        yield Area(text, left, left + width, base - 0.8 * size, base + 0.2 * size)


def picture_faults(picture):
    """What is wrong with any picture, and its root."""
    root = ET.fromstring(picture)
    if root.get("role") != "img" or not all(root.findtext(SVG + tag) for tag in ("title", "desc")):
        return root, ["it says nothing to whoever doesn't see it"]
    width, height = map(float, root.get("viewBox").split()[2:])
    faults, found = [], sorted(areas(root), key=lambda area: area.top)
    for place, area in enumerate(found):
        if area.left < 0 or area.right > width or area.bottom > height:
            faults.append(f"`{area.text}` is outside")
        below = itertools.takewhile(lambda other, end=area.bottom: other.top < end, found[place + 1 :])
        faults += [f"`{area.text}` is over `{other.text}`" for other in below if area.meets(other)]
    return root, faults


def count_faults(root, wanted):
    """The elements of which a picture hasn't as many as it should."""
    for (tag, kind), number in wanted.items():
        count = len(of_kind(root, tag, kind))
        if count != number:
            yield f"{count} of {kind}, and {number} in the text"


def plan_faults(text, plan):
    """What is wrong with the picture of the plan of a text."""
    root, faults = picture_faults(draw_plan(plan))
    blocks = re.findall(r"^block .*", text, re.M)
    notes = re.findall(r"(?<=[:,] )\d+ (signal|broadcast)( tested)?", "\n".join(blocks))
    [drawn] = of_kind(root, "g", "notes")
    arrows = [one.get("class").split()[1:] for one in drawn]
    if sorted(arrows) != sorted([kind, *tested.split()] for kind, tested in notes):
        faults.append(f"the arrows {arrows} of the notes {notes}")
    conditions = len(re.findall(r"^condition ", text, re.M))
    return faults + list(count_faults(root, {("rect", "condition"): conditions, ("rect", "block"): len(blocks)}))


def log_faults(lines, name, log, first, last):
    """What is wrong with the picture of these lines of a log."""
    root, faults = picture_faults(draw_log(name, log, first, last))
    lines = lines[first - 1 : last]
    wakes = [(line.split(".")[0], name) for line in lines for name in line.partition(" wakes ")[2].split()]
    shown = [tuple(one.findtext(SVG + "title").split(" wakes ")) for one in of_kind(root, "g", "wake")]
    if sorted(shown) != sorted(wakes):
        faults.append(f"the arrows {shown} of the wakes {wakes}")
    wanted = {
        ("path", "spurious-line"): sum(line.startswith("spurious ") for line in lines),
        ("rect", "waits"): sum(line.endswith(" waits") for line in lines),
        ("rect", "refused"): sum(line.endswith(" = refused") for line in lines),
        ("rect", "overflow"): sum(" = overflow" in line for line in lines),
    }
    wanted["g", "entry"] = len(lines) + (len(log.blocked) if last == len(log.entries) else 0)
    return faults + list(count_faults(root, wanted))


def reading_faults(text, plan, log):
    """Whether what was read says less than the text."""
    read = []
    if plan:
        read = [f"plan {plan.name}", *(f"keep {fact}" for fact in plan.kept)]
        read += [f"condition {one.number} {one.kind}: {one.guard}" for one in plan.conditions]
        read += [f"block {one.name}: {', '.join(map(str, one.notes)) or 'none'}" for one in plan.blocks]
    if log:
        read += [*map(str, log.entries), log.end, *map(str, log.blocked), log.state]
    if "\n".join(read) + "\n" != text:
        yield "what is read is not the text"


def text_faults(text):
    """What is wrong with the pictures of a text."""
    try:
        plan, log = draw_reading.read(text)
    except draw_reading.Unreadable as error:
        return [str(error)]
    faults = list(reading_faults(text, plan, log))
    if plan:
        faults += plan_faults(text, plan)
    if log:
        count = len(log.entries)
        lines = text.splitlines()
        lines = lines[next(at for at, line in enumerate(lines) if not re.match("(plan|keep|condition|block) ", line)) :]
        cuts = [(1, count)] if count <= MOST_ROWS else [(1, MOST_ROWS), (count - MOST_ROWS, count)]
        cuts += [(2, count), (1, count - 1)] if 2 < count <= MOST_ROWS else []
        for first, last in cuts:
            faults += log_faults(lines, plan.name if plan else "", log, first, last)
    return faults


# ---- the texts


def printed_texts(calls):
    """The plans and the logs that rows want, each with its row; of a text with lines left out, the plan before them."""
    for call in calls:
        text = call.text.decode()
        if call.whole or re.search(r"\A(?:(?:plan|keep|condition|block) .*\n)+\Z", text) and "\nblock " in text:
            yield call.row, text


def program_texts(calls):
    """What the program prints where a row leaves lines out. `turns` has no plan and no wakes, and is slow there."""
    for call in calls:
        if call.whole or "turns" in call.words:
            continue
        with tempfile.TemporaryDirectory() as folder:
            for name, text in call.files.items():
                (pathlib.Path(folder) / name).write_bytes(text)
            words = [str(PROGRAM), *call.words[1:]]
            ran = subprocess.run(words, cwd=folder, capture_output=True, timeout=PATIENCE, check=False)
        yield f"{call.row}, as printed", ran.stdout.decode()


def drawn(text):
    """What the command makes of a text: its status, the picture, and what is wrong."""
    ran = subprocess.run([DRAW], input=text.encode(), capture_output=True, timeout=PATIENCE, check=False)
    return ran.returncode, ran.stdout.decode(), ran.stderr.decode()


def refusal_faults():
    """Texts that are drawn though they are no plan and no log, or are refused without a sentence."""
    for what, text in REFUSED.items():
        try:
            draw_reading.read(text)
            yield f"{what} is drawn"
        except draw_reading.Unreadable as error:
            if not str(error) or "\n" in str(error):
                yield f"{what} is refused without one sentence: {error}"
    status, picture, error = drawn(REFUSED["a refusal"])
    if status != 2 or picture or error.count("\n") != 1:
        yield f"of a refusal the command ends with status {status} and prints `{picture}{error}`"


def shown_faults(rows):
    """The pictures of docs/ that aren't what is drawn of the texts that docs/GUIDE.md shows."""
    [log] = {call.text for call in rows.calls if call.row == SHOWN_LOG}
    for name, text in (("buffer-plan.svg", rows.texts[SHOWN_PLAN]), ("buffer-log.svg", log)):
        if drawn(text.decode())[1] != (PICTURES / name).read_text():
            yield f"docs/pictures/{name} is not what is drawn"


def main():
    rows = tables.Tables()
    calls = [call for call in rows.calls if COMMANDS & set(call.words[1:]) and call.status in ("Done", "Stalled")]
    texts, faults = {}, [*refusal_faults(), *shown_faults(rows)]
    for row, text in [*printed_texts(calls), *(program_texts(calls) if PROGRAM.exists() else [])]:
        texts.setdefault(text, row)
    for text, row in texts.items():
        faults += [f"{row}: {fault}" for fault in text_faults(text)]
    for fault in faults:
        print(fault)
    wakes = sum(len(re.findall(r"\w+", part)) for text in texts for part in re.findall(r" wakes (.*)", text))
    print(f"pictures: {len(texts)} plans and logs with {wakes} wake-ups are drawn; {len(faults)} faults")
    if not PROGRAM.exists():
        print("pictures: no program was left here, so texts of which the rows leave lines out were not drawn")
    return 1 if faults else 0


if __name__ == "__main__":
    sys.exit(main())
