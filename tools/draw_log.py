"""Draws a log: a row for each line, and beside the rows a lane for each client, from the top to the bottom.

Only one client is in the monitor at a time, so a row has one bar, and the arrows from it cross no bar and no text.
"""

from dataclasses import dataclass, field

from draw_reading import Log, clients_of
from draw_svg import LINE, MARGIN, SAMPLE, Picture, counted, legend, shortened, width_of, wrapped

ROW = 24
COLUMN_GAP = 18
CALL_CHARACTERS = 40
LANES_WIDTH = 900  # as far as names stand level
NARROW, WIDE = 30, 56
SLANT = 0.71  # the height and the width of a slanted name, as a part of its length
LONG = 30  # rows from which on the names stand below too
BAR_WIDTH, BAR_HEIGHT = 14, 16

RULES = [
    ".stripe { fill: <stripe> }",
    ".fault { fill: <fault> }",
    ".apart { fill: <spurious> }",
    ".lane { stroke: <edge> }",
    ".waiting, .woken { stroke: <wait>; stroke-width: 8 }",
    ".woken { stroke-dasharray: 2 3 }",
    ".section { fill: <section> }",
    ".waits { fill: <paper>; stroke: <section>; stroke-width: 2 }",
    ".refused, .overflow { fill: <paper>; stroke: <fault>; stroke-width: 2 }",
    ".cross { stroke: <fault>; stroke-width: 1.6 }",
    ".stop { stroke: <fault>; stroke-width: 3 }",
    ".case { stroke: <paper>; stroke-width: 7 }",
    ".wake-line { stroke: <wake>; stroke-width: 1.8 }",
    ".wake-head { fill: <wake> }",
    ".spurious-line { stroke: <spurious>; stroke-width: 1.8; stroke-dasharray: 3 2 }",
    ".spurious-head { fill: <spurious> }",
]


@dataclass
class Lane:
    """A client's lane: from which row to which it waited or had been woken, and since when it does now."""

    x: float
    spans: list = field(default_factory=list)
    state: str = ""
    since: int = 0

    def turn(self, row, state):
        """From this row on the client is `waiting`, is `woken`, or is neither."""
        if self.state:
            self.spans.append((self.state, self.since, row))
        self.state, self.since = state, row


@dataclass
class Columns:
    """Where the columns of text begin, and where the number of a row ends."""

    number: float
    place: float
    called: float
    outcome: float
    lanes: float


@dataclass
class Sheet:
    """The rows of a log that are drawn, the first of them by its number in the log, and where they stand."""

    log: Log
    first: int
    rows: list
    is_end: bool
    columns: Columns
    lanes: dict
    top: float

    def y(self, row):
        """The middle of a row."""
        return self.top + (row - self.first + 0.5) * ROW

    @property
    def bottom(self):
        return self.top + len(self.rows) * ROW

    @property
    def right(self):
        return max([lane.x for lane in self.lanes.values()], default=self.columns.lanes) + NARROW / 2


def draw_log(name, log, first, last):
    """The picture of the entries from `first` to `last` of a log, which count from 1."""
    title = f"Log of {name}" if name else "Log"
    picture = Picture(title, RULES)
    sheet = sheet_of(log, first, last)
    picture.text(MARGIN, MARGIN + 14, title, "title")
    picture.text(MARGIN, MARGIN + 14 + LINE + 2, summary(log, first, last), "note faint")
    draw_stripes(picture, sheet)
    draw_names(picture, sheet, sheet.top - 8)
    replay(sheet, last)
    draw_lanes(picture, sheet)
    for row, entry in enumerate(sheet.rows, first):
        draw_words(picture, sheet, row, entry)
        draw_bar(picture, sheet.lanes[entry.client].x, sheet.y(row), entry)
        draw_wakes(picture, sheet, row, entry)
    bottom = draw_end(picture, sheet)
    legend(picture, MARGIN, bottom + 2 * LINE, max(sheet.right - MARGIN, 340), samples_of(picture, sheet))
    picture.reach(sheet.right, bottom)
    return picture.written(description(log, first, last))


# ---- where things stand


def sheet_of(log, first, last):
    is_end = last == len(log.entries)
    rows = log.entries[first - 1 : last] + (log.blocked if is_end else [])
    columns = columns_of(rows, last)
    lanes = lanes_of(clients_of(log), columns.lanes)
    top = MARGIN + 14 + 2 * LINE + names_height(lanes) + 8
    return Sheet(log, first, rows, is_end, columns, lanes, top)


def columns_of(rows, last):
    def widest(text_of):
        return max([width_of(text_of(entry), "code") for entry in rows], default=0) + COLUMN_GAP

    number = MARGIN + width_of(str(last), "code")
    place = number + COLUMN_GAP
    called = place + widest(lambda entry: entry.place)
    outcome = called + widest(called_text)
    return Columns(number, place, called, outcome, outcome + widest(outcome_text))


def lanes_of(names, left):
    """A lane for each client: as wide as its name needs, or narrow ones where these would be too wide."""
    widest = max([width_of(name, "code") for name in names], default=0) + 12
    step = max(WIDE if len(names) * WIDE <= LANES_WIDTH / 2 else NARROW, widest)
    if step * len(names) > LANES_WIDTH:
        step = NARROW
    return {name: Lane(left + (place + 0.5) * step) for place, name in enumerate(names)}


def is_slanted(lanes):
    """Whether names are wider than their lanes."""
    places = [lane.x for lane in lanes.values()]
    return len(places) > 1 and max(width_of(name, "code") for name in lanes) + 6 > places[1] - places[0]


def names_height(lanes):
    widest = max([width_of(name, "code") for name in lanes], default=0)
    return widest * SLANT + 8 if is_slanted(lanes) else 12


def replay(sheet, last):
    """Follows the log from its begin: who waits, and who has been woken, from which row to which."""
    lanes = sheet.lanes
    for row, entry in enumerate(sheet.log.entries[:last], 1):
        lanes[entry.client].turn(row, {"waits": "waiting", "spurious": "woken"}.get(entry.outcome, ""))
        for name in entry.woken:
            lanes[name].turn(row, "woken")
    stopped = {entry.client: row for row, entry in enumerate(sheet.rows, sheet.first) if entry.outcome == "blocked"}
    for name, lane in lanes.items():
        lane.turn(stopped.get(name, sheet.first + len(sheet.rows)), "")


# ---- what is drawn


def draw_stripes(picture, sheet):
    """Every other row is tinted, so that the eye stays in it."""
    for row in range(sheet.first, sheet.first + len(sheet.rows)):
        if row % 2 == 0:
            width = sheet.right - MARGIN + 16
            picture.box(MARGIN - 8, sheet.y(row) - ROW / 2, width, ROW, "stripe", rx=4)


def draw_names(picture, sheet, base):
    for name, lane in sheet.lanes.items():
        if is_slanted(sheet.lanes):
            turned = f"rotate(-45 {lane.x:.1f} {base:.1f})"
            picture.text(lane.x, base, name, "strong", transform=turned)
            picture.reach(lane.x + width_of(name, "strong") * SLANT + 8, base)
        else:
            picture.text(lane.x, base, name, "strong", text_anchor="middle")


def draw_lanes(picture, sheet):
    """The lanes, with the spans in which their clients waited or had been woken."""
    for name, lane in sheet.lanes.items():
        drawn = picture.group("client", name)
        picture.path("lane", "M", lane.x, sheet.top, "V", sheet.bottom, parent=drawn)
        for state, start, end in lane.spans:
            top, bottom = max(sheet.top, sheet.y(start)), min(sheet.bottom, sheet.y(end))
            if top < bottom:
                picture.path(state, "M", lane.x, top, "V", bottom, parent=drawn)


def draw_words(picture, sheet, row, entry):
    columns, base = sheet.columns, sheet.y(row) + 4
    if entry.outcome != "blocked":
        picture.text(columns.number, base, str(row), "code faint", text_anchor="end")
    picture.text(columns.place, base, entry.place, "code")
    if entry.called:
        picture.text(columns.called, base, called_text(entry), "code", full=entry.called)
    kind = {"waits": " faint", "spurious": " apart", "overflow": " fault", "refused": " fault", "blocked": " fault"}
    picture.text(columns.outcome, base, outcome_text(entry), "code" + kind.get(entry.outcome, ""))


def called_text(entry):
    return shortened(entry.called, CALL_CHARACTERS)


def outcome_text(entry):
    return entry.outcome if entry.outcome in ("waits", "spurious", "blocked") else f"= {entry.outcome}"


def draw_bar(picture, x, y, entry):
    """What the client did, in its lane: the form of the bar tells what came of it."""
    made = picture.group("entry", str(entry))
    if entry.outcome == "blocked":
        picture.path("stop", "M", x - 9, y, "H", x + 9, parent=made)
    elif entry.outcome == "spurious":
        picture.path("spurious-line", "M", x + 24, y, "H", x + 12, parent=made)
        picture.path("spurious-head", "M", x + 4, y, "l", 9, -5, 0, 10, "z", parent=made)
    else:
        kind = entry.outcome if entry.outcome in ("waits", "refused", "overflow") else "section"
        picture.box(x - BAR_WIDTH / 2, y - BAR_HEIGHT / 2, BAR_WIDTH, BAR_HEIGHT, kind, parent=made, rx=3)
        if kind == "overflow":
            picture.path("cross", "M", x - 4, y - 4, "l", 8, 8, "m", 0, -8, "l", -8, 8, parent=made)


def draw_wakes(picture, sheet, row, entry):
    """An arrow to each client that was woken. Lanes that the arrows pass are left open a little."""
    x, y = sheet.lanes[entry.client].x, sheet.y(row)
    ends = sorted(sheet.lanes[name].x for name in entry.woken)
    for end in [ends[0], ends[-1]] if ends else []:
        side = 1 if end > x else -1
        if abs(end - x) > BAR_WIDTH:
            picture.path("case", "M", x + side * 9, y, "H", end - side * 12)
    for name in entry.woken:
        end = sheet.lanes[name].x
        side = 1 if end > x else -1
        arrow = picture.group("wake", f"{entry.client} wakes {name}")
        picture.path("wake-line", "M", x + side * BAR_WIDTH / 2, y, "H", end - side * 12, parent=arrow)
        picture.path("wake-head", "M", end - side * 4, y, "l", -side * 9, -5, 0, 10, "z", parent=arrow)


def draw_end(picture, sheet):
    """The end of the log and its state; below many rows the names once more."""
    base = sheet.bottom + LINE
    if len(sheet.rows) > LONG and not is_slanted(sheet.lanes):
        draw_names(picture, sheet, base)
    if not sheet.is_end:
        left_out = len(sheet.log.entries) - (sheet.first + len(sheet.rows) - 1)
        picture.text(sheet.columns.place, base, f"{left_out} more", "note faint")
        return base
    picture.text(sheet.columns.place, base, sheet.log.end, "strong" + (" fault" if sheet.log.blocked else ""))
    characters = max(30, int((sheet.columns.lanes - sheet.columns.place) / width_of("0", "code")))
    for line in wrapped(sheet.log.state, characters):
        base += LINE
        picture.text(sheet.columns.place, base, line, "code")
    return base


def samples_of(picture, sheet):
    """What grey spans and arrows mean, where there are any: what bars mean stands beside them."""
    states = {state for lane in sheet.lanes.values() for state, start, end in lane.spans
              if end > sheet.first and start < sheet.first + len(sheet.rows)}
    samples = []
    if "waiting" in states:
        samples.append((lambda x, y: picture.path("waiting", "M", x, y, "h", SAMPLE), "waits"))
    if "woken" in states:
        samples.append((lambda x, y: picture.path("woken", "M", x, y, "h", SAMPLE), "is woken, and has to test again"))
    if any(entry.woken for entry in sheet.rows):
        samples.append((lambda x, y: draw_sample_arrow(picture, x, y), "wakes"))
    return samples


def draw_sample_arrow(picture, x, y):
    picture.path("wake-line", "M", x, y, "h", SAMPLE - 8)
    picture.path("wake-head", "M", x + SAMPLE, y, "l", -9, -5, 0, 10, "z")


# ---- words


def summary(log, first, last):
    sections = [entry for entry in log.entries if entry.outcome != "spurious"]
    parts = [
        counted(len(clients_of(log)), "client"),
        counted(len(sections), "section"),
        counted(sum(len(entry.woken) for entry in log.entries), "wake-up"),
    ]
    spurious = len(log.entries) - len(sections)
    parts += [f"{spurious} spurious"] if spurious else []
    if last - first + 1 < len(log.entries):
        parts.append(f"lines {first} to {last} of {len(log.entries)}")
    return ", ".join(parts)


def description(log, first, last):
    """The log in words: its lines, and how it ends."""
    lines = [str(entry) for entry in log.entries[first - 1 : last]]
    if last == len(log.entries):
        lines += [log.end, *map(str, log.blocked), log.state]
    return f"{summary(log, first, last)}. {'; '.join(lines)}."
