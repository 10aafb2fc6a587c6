"""Draws a plan: its blocks on the left, its conditions on the right, and an arrow for each note."""

from collections import Counter
from dataclasses import dataclass, field

from draw_reading import Note
from draw_svg import LINE, MARGIN, SAMPLE, Picture, counted, legend, width_of, wrapped

GUARD_CHARACTERS = 44
PORT = 14  # between the ends of two arrows
GAP = 12  # between two boxes
BADGE = 26  # for a condition's number

# What an arrow means, by its note's kind and whether it is tested.
FORMS = {
    ("signal", False): "signal: wakes one",
    ("signal", True): "tested: wakes one where the guard is true",
    ("broadcast", False): "broadcast: wakes all",
    ("broadcast", True): "tested: wakes all where the guard is true",
}

RULES = [
    ".block, .condition { fill: <box>; stroke: <edge> }",
    ".number { fill: <faint> }",
    ".note-line { fill: none; stroke-width: 1.6 }",
    ".signal .note-line { stroke: <section> }",
    ".signal .note-head { fill: <section> }",
    ".broadcast .note-line { stroke: <wake>; stroke-width: 4.6 }",
    ".broadcast .note-core { fill: none; stroke: <paper>; stroke-width: 1.8 }",
    ".broadcast .note-head { fill: <wake> }",
    ".tested .note-line { stroke-dasharray: 7 4 }",
    ".note-gate { fill: <paper>; stroke-width: 1.6 }",
    ".signal .note-gate { stroke: <section> }",
    ".broadcast .note-gate { stroke: <wake> }",
    ".note-case { fill: none; stroke: <paper>; stroke-width: 4.4; opacity: 0.7 }",
    ".broadcast .note-case { stroke-width: 7.4 }",
]


@dataclass
class Box:
    """A block or a condition, with as many ends of arrows as it has."""

    ends: int
    height: float
    lines: list = field(default_factory=list)
    top: float = 0

    @property
    def middle(self):
        return self.top + self.height / 2

    def end(self, index):
        """How far down the arrow's end of this index is."""
        return self.middle + (index - (self.ends - 1) / 2) * PORT


@dataclass
class Column:
    """Boxes below each other."""

    boxes: list
    width: float
    left: float = MARGIN

    @property
    def right(self):
        return self.left + self.width

    @property
    def height(self):
        return sum(box.height + GAP for box in self.boxes) - GAP


def draw_plan(plan):
    """The picture of a plan."""
    title = f"Plan of {plan.name}"
    picture = Picture(title, RULES)
    picture.text(MARGIN, MARGIN + 14, title, "title")
    picture.text(MARGIN, MARGIN + 16 + LINE, summary(plan), "note faint")
    blocks, conditions = block_column(plan), condition_column(plan)
    height = max(blocks.height, conditions.height)
    conditions.left = blocks.right + between(plan, height)
    for column in (blocks, conditions):
        stack(column, MARGIN + 14 + 3 * LINE + (height - column.height) / 2)
    draw_notes(picture, plan, blocks, conditions)
    draw_blocks(picture, plan, blocks)
    draw_conditions(picture, plan, conditions)
    width = max(conditions.right - MARGIN, 360)
    bottom = draw_kept(picture, plan, MARGIN + 14 + 3 * LINE + height, width)
    legend(picture, MARGIN, bottom + 2 * LINE, width, samples_of(picture, plan))
    return picture.written(description(plan))


# ---- where things stand


def block_column(plan):
    boxes = [Box(len(block.notes), max(32, len(block.notes) * PORT + 8)) for block in plan.blocks]
    none = 14 + width_of("none", "note")
    names = [width_of(block.name, "strong") + (0 if block.notes else none) for block in plan.blocks]
    return Column(boxes, max(names, default=0) + 28)


def condition_column(plan):
    ends = Counter(note.condition for block in plan.blocks for note in block.notes)
    boxes = [condition_box(condition, ends[condition.number]) for condition in plan.conditions]
    widest = max([width_of(line, "code") for box in boxes for line in box.lines], default=0)
    return Column(boxes, widest + BADGE + 28)


def condition_box(condition, ends):
    lines = [condition.kind, *wrapped(condition.guard, GUARD_CHARACTERS)]
    return Box(ends, max(len(lines) * LINE + 12, ends * PORT + 8), lines)


def stack(column, top):
    for box in column.boxes:
        box.top = top
        top += box.height + GAP


def between(plan, height):
    """How far the columns stand apart: the more arrows, the further, so that they cross at an angle."""
    notes = sum(len(block.notes) for block in plan.blocks)
    return min(380, max(160, height * 0.45, notes * 18)) if notes else 120


# ---- what is drawn


def draw_blocks(picture, plan, column):
    for block, box in zip(plan.blocks, column.boxes):
        picture.box(column.left, box.top, column.width, box.height, "block", rx=6)
        picture.text(column.left + 14, box.middle + 4, block.name, "strong")
        if not block.notes:
            picture.text(column.right - 14 - width_of("none", "note"), box.middle + 4, "none", "note faint")


def draw_conditions(picture, plan, column):
    left = column.left + 12
    for condition, box in zip(plan.conditions, column.boxes):
        picture.box(column.left, box.top, column.width, box.height, "condition", rx=6)
        base = box.middle - len(box.lines) * LINE / 2 + 13
        picture.text(left, base, str(condition.number), "strong number")
        for index, line in enumerate(box.lines):
            picture.text(left + BADGE, base + index * LINE, line, "code" if index else "note faint")


def draw_notes(picture, plan, blocks, conditions):
    """An arrow for each note. Those of a block leave it below each other, and so they come to a condition."""
    group = picture.group("notes")
    targets = {condition.number: (condition, box) for condition, box in zip(plan.conditions, conditions.boxes)}
    taken = Counter()
    for block, box in zip(plan.blocks, blocks.boxes):
        for index, note in enumerate(block.notes):
            condition, target = targets[note.condition]
            end = target.end(taken[note.condition])
            taken[note.condition] += 1
            title = f"{block.name} {words_of(note)}: {condition.guard}"
            draw_note(picture, group, note, title, (blocks.right, box.end(index)), (conditions.left, end))


def words_of(note):
    """What a note does, in words behind which the guard may stand."""
    whom = "all who wait" if note.kind == "broadcast" else "one who waits"
    return f"wakes {whom} on condition {note.condition}{', where it is true' if note.tested else ''}"


def draw_note(picture, parent, note, title, start, end):
    """An arrow. A broadcast's line is double, and so is its head; a tested one is dashed, with a gate at its start."""
    arrow = picture.group(f"note-arrow {note.kind}{' tested' if note.tested else ''}", title, parent)
    (x1, y1), (x2, y2) = start, end
    first = x1 + (16 if note.tested else 0)
    last = x2 - (14 if note.kind == "broadcast" else 8)
    bend = (x2 - x1) * 0.45
    curve = ("M", first, y1, "C", first + bend, y1, last - bend, y2, last, y2)
    picture.path("note-case", *curve, parent=arrow)
    picture.path("note-line", *curve, parent=arrow)
    if note.kind == "broadcast":
        picture.path("note-core", *curve, parent=arrow)
        head(picture, arrow, x2 - 8, y2)
    head(picture, arrow, x2, y2)
    if note.tested:
        picture.path("note-gate", "M", x1 + 3, y1, "l", 6.5, -5, 6.5, 5, -6.5, 5, "z", parent=arrow)


def head(picture, parent, x, y):
    """The head of an arrow that points to the right, with its tip here."""
    picture.path("note-head", "M", x, y, "l", -9, -5, 0, 10, "z", parent=parent)


def draw_kept(picture, plan, top, width):
    """The kept lines below all else, in columns; tells where they end."""
    if not plan.kept:
        return top
    top += 2 * LINE
    picture.text(MARGIN, top, "Kept true by each block:", "note faint")
    step = max(width_of(fact, "code") for fact in plan.kept) + 24
    columns = max(1, int((width + 24) // step))
    for index, fact in enumerate(plan.kept):
        picture.text(MARGIN + index % columns * step, top + (index // columns + 1) * LINE, fact, "code")
    return top + ((len(plan.kept) - 1) // columns + 1) * LINE


def samples_of(picture, plan):
    """What the forms of arrows mean, where one is more than a plain signal."""
    used = {(note.kind, note.tested) for block in plan.blocks for note in block.notes}
    if used <= {("signal", False)}:
        return []
    return [sample(picture, *form) for form in FORMS if form in used]


def sample(picture, kind, tested):
    def draw(x, y):
        draw_note(picture, picture.group("sample"), Note(0, kind, tested), None, (x, y), (x + SAMPLE, y))

    return draw, FORMS[kind, tested]


def summary(plan):
    notes = sum(len(block.notes) for block in plan.blocks)
    counts = (len(plan.blocks), "block"), (len(plan.conditions), "condition"), (notes, "note")
    return ", ".join(counted(*count) for count in counts)


def description(plan):
    """The plan in sentences."""
    parts = [f"{summary(plan)}."]
    parts += [f"Condition {one.number}, {one.kind}: {one.guard}." for one in plan.conditions]
    parts += [f"Block {block.name}: {', '.join(map(str, block.notes)) or 'none'}." for block in plan.blocks]
    if plan.kept:
        parts.append(f"Kept: {', '.join(plan.kept)}.")
    return " ".join(parts)
