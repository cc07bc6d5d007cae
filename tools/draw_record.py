#!/usr/bin/env python3
"""Draws a record that `vublk replay` printed as one SVG picture.

    ./vublk replay < examples/out_of_order.txt | tools/draw_record.py > picture.svg
    tools/draw_record.py record.txt -o picture.svg --from 3 --to 20
    tools/draw_record.py --self-check

Time runs from left to right, a column for each store, entry and bell; an event is a group of columns with
its line above. The lanes are the driver's stores, the requests from offer to collection, the device's
stores, the open heads as the in-flight region tells them after each item, the touched sectors, and the
bell. Hovering a mark shows its line of the record.

Status 0: drawn. Status 1: the text isn't a record (the line is named), or it can't be read or written.
"""
import argparse
import glob
import os
import re
import subprocess
import sys
import tempfile
from dataclasses import dataclass, field
from xml.sax.saxutils import escape

# Where the parts of a queue lie, as the replay machine lays them out.
AREA = 0x100000
AVAIL_ENTRIES = 0x1004
AVAIL_IDX = 0x1002
USED_IDX = 0x2002
BUFFERS = 0x10000
BUFFER = 0x2000
STATUS = 0x10
# The split in-flight region (QEMU's vhost-user specification, "Inflight I/O tracking").
REGION_HEAD = 16
REGION_ENTRY = 16
VERSION = 8
LAST_BATCH_HEAD = 12
USED = 14
NEXT = 6

MOST_ITEMS = 400
# The column of what stands before the first event that is drawn.
EARLIER = -1


class Malformed(Exception):
    """A line that no record has."""

    def __init__(self, line, cause):
        super().__init__(f"line {line}: {cause}")


@dataclass
class Header:
    queues: int
    size: int
    base: int


@dataclass
class Item:
    line: int
    text: str
    kind: str  # store, entry, bell or mark
    word: str  # the tag of a store, the word of an entry or of a mark
    queue: int = 0
    space: str = ""
    place: int = 0
    data: bytes = b""
    numbers: list = field(default_factory=list)
    sector: int = 0
    request: str = ""


@dataclass
class Event:
    line: int
    text: str
    items: list = field(default_factory=list)


@dataclass
class Record:
    header: Header
    events: list


# ---- reading a record


def bytes_of(text, line):
    """The bytes of a spelling: pairs of digits, and runs `hh*LENGTH` with a `+` before what follows."""
    data = b""
    for part in text.split("+"):
        match = re.fullmatch(r"((?:[0-9a-f]{2})*?)(?:([0-9a-f]{2})\*([1-9][0-9]*))?", part)
        if not part or match is None:
            raise Malformed(line, "these aren't bytes: " + text[:40])
        data += bytes.fromhex(match[1])
        if match[2]:
            if int(match[3]) > 4096:
                raise Malformed(line, "a run of more than 4096 bytes")
            data += bytes.fromhex(match[2]) * int(match[3])
    return data


def numbers_of(text, line):
    if text == "-":
        return []
    if not re.fullmatch(r"\d+(,\d+)*", text):
        raise Malformed(line, "this isn't a list of numbers: " + text[:40])
    return [int(number) for number in text.split(",")]


def header_of(text):
    match = re.fullmatch(r"record 1 (split|packed) (\d+) (\d+) (\d+) (\d+) (back|through|ro)", text)
    if match is None:
        raise Malformed(1, "a record begins with `record 1` and the header of its schedule")
    if match[1] == "packed":
        raise Malformed(1, "records of packed queues can't be drawn")
    return Header(queues=int(match[2]), size=int(match[3]), base=int(match[5]))


def store_of(text, line):
    match = re.fullmatch(r"\. (\w+) ([mi]) ([0-9a-f]+) (\S+)", text)
    if match is None:
        raise Malformed(line, "a store is `. TAG SPACE PLACE BYTES`")
    place = int(match[3], 16)
    return Item(line, text, "store", match[1], space=match[2], place=place, data=bytes_of(match[4], line))


def entry_of(text, line):
    words = text[2:].split(" ")
    item = Item(line, text, "entry", words[0])
    if text == "! kill":
        return item
    patterns = {
        "offer": r"(\d+) ((?:read|write) \d+ \S+|flush)",
        "start": r"(\d+) (\S+)",
        "accept": r"(\d+) (\d+)",
        "look": r"(\d+) (\d+) (\d+) (\S+)",
        "act": r"(\d+) (\d+) (\d+) (\S+)",
        "sync": r"(\d+) (\d+)",
        "fault": r"(\d+) (\d+)",
        "publish": r"(\d+) (\S+)",
        "collect": r"(\d+) (\d+)",
    }
    match = re.fullmatch(patterns.get(item.word, r"(?!)"), text[len(item.word) + 3 :])
    if match is None:
        raise Malformed(line, "this is no entry of a history")
    item.queue = int(match[1])
    if item.word == "offer":
        item.request = match[2]
    elif item.word == "start":
        item.numbers = numbers_of(match[2], line)
    elif item.word == "publish":
        answers = [re.fullmatch(r"(\d+):\d+(:\S+)?", answer) for answer in match[2].split(",")]
        if None in answers:
            raise Malformed(line, "an answer is `K:STATUS` or `K:STATUS:BYTES`")
        item.numbers = [int(answer[1]) for answer in answers]
    else:
        item.numbers = [int(match[2])]
    if item.word in ("look", "act"):
        item.sector = int(match[3])
        bytes_of(match[4], line)
    return item


def item_of(text, line):
    if text.startswith(". "):
        return store_of(text, line)
    if text.startswith("! "):
        return entry_of(text, line)
    bell = re.fullmatch(r"\+ bell (\d+)", text)
    if bell:
        return Item(line, text, "bell", "bell", queue=int(bell[1]))
    mark = re.fullmatch(r"- (idle|(?:broken|damaged) \d+ \w+(?: \d+)*)", text)
    if mark:
        return Item(line, text, "mark", mark[1])
    raise Malformed(line, "this is neither an event nor an item of a record")


def record_of(text):
    if not text.endswith("\n"):
        raise Malformed(text.count("\n") + 1, "the last line has no end")
    lines = text[:-1].split("\n")
    header = header_of(lines[0])
    events = []
    for line, words in enumerate(lines[1:], 2):
        if re.fullmatch(r"> \w+( \S+)*", words):
            events.append(Event(line, words[2:]))
        elif events:
            item = item_of(words, line)
            if item.queue >= header.queues:
                raise Malformed(line, "there is no such queue")
            events[-1].items.append(item)
        else:
            raise Malformed(line, "an item before the first event")
    return Record(header, events)


# ---- what an item changes


@dataclass
class Request:
    """A request, with the columns of what happened to it: None where it didn't, EARLIER where that isn't drawn."""

    number: int
    queue: int
    text: str
    head: int
    offered: int
    accepted: int = None
    published: int = None
    collected: int = None
    marks: list = field(default_factory=list)  # (column, letter, item)


class Machine:
    """Memory as the stores leave it, and the requests as the entries tell of them."""

    def __init__(self, header):
        self.header = header
        self.memory = {"m": {}, "i": {}}
        self.requests = [[] for _ in range(header.queues)]
        self.by_head = {}
        for queue in range(header.queues):
            for place in (AVAIL_IDX, USED_IDX):
                self.keep("m", queue * AREA + place, header.base.to_bytes(2, "little"))

    def load(self, space, place, width):
        cells = self.memory[space]
        return sum(cells.get(place + index, 0) << 8 * index for index in range(width))

    def keep(self, space, place, data):
        for index, byte in enumerate(data):
            self.memory[space][place + index] = byte

    def region(self, queue):
        return queue * (REGION_HEAD + REGION_ENTRY * self.header.size)

    def open_heads(self, queue):
        """The heads that the region tells as open: in flight, and not among the links of the last batch that used.idx shows."""
        place, size = self.region(queue), self.header.size
        if self.load("i", place + VERSION, 2) != 1:
            return []
        entries = place + REGION_HEAD
        counted = self.load("m", queue * AREA + USED_IDX, 2) - self.load("i", place + USED, 2)
        head = self.load("i", place + LAST_BATCH_HEAD, 2)
        shown = set()
        for _ in range(min(counted % 65536, size)):
            shown.add(head)
            head = self.load("i", entries + REGION_ENTRY * head + NEXT, 2)
        flying = (head for head in range(size) if self.load("i", entries + REGION_ENTRY * head, 1))
        return [head for head in flying if head not in shown]

    def offered_head(self, queue):
        index = self.load("m", queue * AREA + AVAIL_IDX, 2) - 1
        return self.load("m", queue * AREA + AVAIL_ENTRIES + 2 * (index % self.header.size), 2)

    def numbered(self, item, number):
        if number >= len(self.requests[item.queue]):
            raise Malformed(item.line, f"no request {number} was offered")
        return self.requests[item.queue][number]

    def owner(self, item):
        """The request whose buffer a store touches."""
        queue, place = divmod(item.place, AREA)
        return self.by_head.get((queue, (place - BUFFERS) // BUFFER)) if item.space == "m" and place >= BUFFERS else None

    def make(self, item, column):
        """Takes the item, which stands in that column, and notes it at its requests."""
        if item.kind == "store":
            self.keep(item.space, item.place, item.data)
            if item.word in ("T2", "T5") and self.owner(item):
                self.owner(item).marks.append((column, "D" if item.word == "T2" else "C", item))
        elif item.word == "offer":
            requests = self.requests[item.queue]
            request = Request(len(requests), item.queue, item.request, self.offered_head(item.queue), column)
            requests.append(request)
            self.by_head[(item.queue, request.head)] = request
        elif item.kind == "entry":
            self.enter(item, column)

    def enter(self, item, column):
        letter = {"accept": "A", "look": "L", "act": "W", "sync": "S", "fault": "F", "publish": "P", "start": "R"}.get(item.word)
        for number in item.numbers:
            request = self.numbered(item, number)
            if letter:
                request.marks.append((column, letter, item))
            if item.word == "accept":
                request.accepted = column
            elif item.word == "publish":
                request.published = column
            elif item.word == "collect":
                request.collected = column


# ---- the picture

COLUMN = 15
GAP = 6
LEFT = 128
ROW = 13
BAR = 31
LETTER = 6.0  # the widest that a letter of the labels is

STYLE = """
text { font: 10px ui-monospace, Menlo, Consolas, monospace; fill: #222; }
.paper { fill: #fff; }
.lane { fill: #f4f4f2; }
.name { font-weight: bold; }
.faint { stroke: #bbb; stroke-width: 1; }
.driver { fill: #56b4e9; }
.device { fill: #0072b2; }
.bell { fill: #e69f00; }
.offered { fill: #cfe3f2; }
.open { fill: #7fb3d9; }
.shown { fill: #e6dccb; }
.flight { fill: #e69f00; }
.look { fill: none; stroke: #0072b2; stroke-width: 2; }
.act { fill: #0072b2; }
.cut { stroke: #111; stroke-width: 2.5; stroke-dasharray: 6 3; }
.dead { fill: #8884; }
.mark { font-weight: bold; fill: #111; text-anchor: middle; }
.tag { font-size: 9px; }
@media (prefers-color-scheme: dark) {
text { fill: #ddd; }
.paper { fill: #16181b; }
.lane { fill: #212429; }
.faint { stroke: #555; }
.device { fill: #4aa3df; }
.offered { fill: #29445c; }
.open { fill: #3d74a3; }
.shown { fill: #5b5140; }
.look { stroke: #6cbcf0; }
.act { fill: #6cbcf0; }
.cut { stroke: #fff; }
.mark { fill: #fff; }
}
"""


@dataclass
class Drawn:
    """What is drawn: the columns of the items, and what was read up to each."""

    events: list  # (event, first column, columns)
    items: list  # (item, column)
    heads: list  # per column, the open heads of each queue after it
    requests: list


def columns_of(record, first, last):
    """Plays the record, and gives each item from event `first` to event `last` a column."""
    machine = Machine(record.header)
    events, items, heads = [], [], []
    for number, event in enumerate(record.events[:last], 1):
        drawn = number >= first
        begin = len(heads)
        for item in event.items:
            machine.make(item, len(heads) if drawn else EARLIER)
            if drawn:
                items.append((item, len(heads)))
                heads.append([machine.open_heads(queue) for queue in range(record.header.queues)])
        if drawn and not event.items:
            heads.append([machine.open_heads(queue) for queue in range(record.header.queues)])
        if drawn:
            events.append((event, begin, len(heads) - begin))
    requests = [request for queue in machine.requests for request in queue]
    return Drawn(events, items, heads, requests)


def label(event):
    return event.text if len(event.text) <= 30 else event.text[:29] + "…"


class Picture:
    def __init__(self, drawn, header, note):
        self.drawn = drawn
        self.queues = header.queues
        self.region_size = REGION_HEAD + REGION_ENTRY * header.size
        self.note = note
        self.parts = []
        self.lanes = []
        self.edges = []
        x = LEFT
        for _, _, columns in drawn.events:
            self.edges.extend(x + COLUMN * column for column in range(columns))
            x += COLUMN * columns + GAP
        self.right = x
        self.width = x

    def x(self, column):
        return LEFT - 6 if column == EARLIER else self.edges[column]

    def end(self, column):
        """Where the next column begins."""
        return self.edges[column + 1] if column + 1 < len(self.edges) else self.right

    def put(self, part):
        self.parts.append(part)

    def text(self, x, y, words, kind="", more=""):
        if "rotate" not in more and "mark" not in kind:
            self.width = max(self.width, x + LETTER * len(words) + 12)
        self.put(f'<text x="{x:.1f}" y="{y:.1f}"{f" class={chr(34)}{kind}{chr(34)}" if kind else ""}{more}>{escape(words)}</text>')

    def shape(self, shape, item):
        self.put(f"<g>{shape}<title>line {item.line}: {escape(item.text)}</title></g>")

    def box(self, x, y, width, height, kind):
        return f'<rect x="{x:.1f}" y="{y:.1f}" width="{width:.1f}" height="{height:.1f}" class="{kind}"/>'

    def lane(self, y, height, name):
        self.lanes.append((y, height))
        self.text(8, y + 12, name, "name")
        return y + height + 8

    # -- lanes, each of which gives the place below it

    def event_lines(self, y):
        for event, column, columns in self.drawn.events:
            x = self.x(column) + COLUMN / 2
            words = label(event)
            turn = f' transform="rotate(-60 {x:.1f} {y - 6:.1f})"'
            self.put(f'<text x="{x:.1f}" y="{y - 6:.1f}"{turn}>{escape(words)}<title>line {event.line}: {escape(event.text)}</title></text>')
            self.width = max(self.width, x + LETTER * len(words) * 0.5 + 12)
            self.put(self.box(self.x(column), y - 3, COLUMN * columns - 2, 3, "driver"))
        return y + 6

    def tags(self, y, name, chosen, kind):
        """A lane of stores, each with its tag."""
        below = self.lane(y, 44, name)
        for item, column in self.drawn.items:
            if item.kind == "store" and chosen(item):
                x = self.x(column)
                self.shape(self.box(x + 3, y + 5, COLUMN - 6, 10, kind), item)
                turn = f' transform="rotate(-90 {x + 11:.1f} {y + 40:.1f})"'
                self.text(x + 11, y + 40, item.word, "tag", turn)
        return below

    def requests(self, y, queue):
        """A bar for each request, in the first row where nothing stands in its way."""
        top, rows = y, []
        for request in self.drawn.requests:
            if request.queue != queue or request.collected == EARLIER:
                continue
            begin = self.x(request.offered)
            end = self.right if request.collected is None else self.x(request.collected) + COLUMN
            words = f"{request.number}: {request.text}"
            words = words if len(words) <= 24 else words[:23] + "…"
            row = next((row for row, free in enumerate(rows) if free <= begin), len(rows))
            rows[row : row + 1] = [max(end, begin + LETTER * len(words)) + 10]
            self.bar(request, begin, end, top + 4 + BAR * row, words)
        return self.lane(y, max(BAR * len(rows), ROW) + 6, f"requests {queue}")

    def bar(self, request, begin, end, y, words):
        self.text(begin, y + 9, words, "tag")
        y += 12
        places = [begin, self.place(request.accepted, end), self.place(request.published, end), end]
        for kind, left, right in zip(("offered", "open", "shown"), places, places[1:]):
            if right > left:
                self.put(self.box(left, y, right - left, ROW, kind))
        for column, letter, item in request.marks:
            if column != EARLIER:
                self.shape(f'<text x="{self.x(column) + COLUMN / 2:.1f}" y="{y + 10:.1f}" class="mark">{letter}</text>', item)

    def place(self, column, otherwise):
        return otherwise if column is None else self.x(column)

    def region(self, y, queue):
        """A row for each head that is ever open."""
        heads = sorted({head for columns in self.drawn.heads for head in columns[queue]})
        below = self.lane(y, max(len(heads), 1) * ROW + 4, f"in flight {queue}")
        for row, head in enumerate(heads):
            self.text(LEFT - 42, y + 12 + ROW * row, f"head {head}", "tag")
            for column, after in enumerate(self.drawn.heads):
                if head in after[queue]:
                    self.put(self.box(self.x(column), y + 3 + ROW * row, self.end(column) - self.x(column), ROW - 3, "flight"))
        return below

    def disk(self, y):
        calls = [(item, column) for item, column in self.drawn.items if item.word in ("look", "act")]
        sectors = sorted({item.sector for item, _ in calls})
        below = self.lane(y, max(len(sectors), 1) * ROW + 4, "disk")
        for row, sector in enumerate(sectors):
            self.text(LEFT - 42, y + 12 + ROW * row, f"sec {sector}", "tag")
        for item, column in calls:
            at = y + 8 + ROW * sectors.index(item.sector)
            self.shape(f'<circle cx="{self.x(column) + COLUMN / 2:.1f}" cy="{at:.1f}" r="4" class="{item.word}"/>', item)
        return below

    def bells(self, y):
        below = self.lane(y, ROW + 4, "bell")
        for item, column in self.drawn.items:
            if item.kind == "bell":
                x = self.x(column) + COLUMN / 2
                self.shape(f'<path d="M{x:.1f} {y + 3:.1f}l5 10h-10z" class="bell"/>', item)
        return below

    def notes(self, y):
        """Kills, what starts resubmit, and which events were idle, each in the first row where there is room."""
        top, rows = y, []
        for item, column in self.drawn.items:
            if item.word == "start":
                listed = ",".join(map(str, item.numbers)) if len(item.numbers) <= 12 else f"{len(item.numbers)} requests"
                words = f"resubmits {listed or 'none'}"
            elif item.word == "kill":
                words = "kill"
            elif item.kind == "mark":
                words = item.word
            else:
                continue
            x = self.x(column)
            row = next((row for row, free in enumerate(rows) if free <= x), len(rows))
            rows[row : row + 1] = [x + LETTER * len(words) + 8]
            self.shape(f'<text x="{x:.1f}" y="{top + 11 + ROW * row:.1f}">{escape(words)}</text>', item)
            self.width = max(self.width, x + LETTER * len(words) + 12)
        return self.lane(y, max(len(rows), 1) * ROW + 4, "notes")

    def cuts(self, top, bottom):
        """Each kill cuts the device's lanes, which stay shaded until the next life: all this lies below what the lanes show."""
        above, self.parts = self.parts, []
        dead = None
        for event, column, columns in self.drawn.events:
            if event.text == "boot" and not event.items and dead is not None:
                self.put(self.box(dead, top, self.x(column) - dead, bottom - top, "dead"))
                dead = None
            for item in event.items:
                if item.word == "kill":
                    dead = self.x(column) + COLUMN / 2
                    self.shape(f'<path d="M{dead:.1f} {top:.1f}V{bottom:.1f}" class="cut"/>', item)
        if dead is not None:
            self.put(self.box(dead, top, self.right - dead, bottom - top, "dead"))
        self.parts += above

    def legend(self, y):
        lines = [
            "A accepted · R resubmitted by a start · L a sector read · W a sector written · S flushed · F failed",
            "D data stored into its buffer · C completed: its status stands · P published in the used ring",
        ]
        x = LEFT
        for kind, words in (
            ("offered", "offered"), ("open", "accepted, not published"), ("shown", "published, not collected"),
            ("flight", "open as the region tells it"), ("dead", "no life of the device"),
        ):
            self.put(self.box(x, y + 2, 12, 10, kind))
            self.text(x + 16, y + 11, words)
            x += 16 + LETTER * len(words) + 20
        for row, words in enumerate(lines, 1):
            self.text(LEFT, y + 11 + 16 * row, words)
        self.put(f'<circle cx="{LEFT + 6}" cy="{y + 56:.1f}" r="4" class="look"/>')
        self.text(LEFT + 16, y + 60, "sector read")
        self.put(f'<circle cx="{LEFT + 116}" cy="{y + 56:.1f}" r="4" class="act"/>')
        self.text(LEFT + 126, y + 60, "sector written")
        self.put(f'<path d="M{LEFT + 240} {y + 56:.1f}h24" class="cut"/>')
        self.text(LEFT + 272, y + 60, "the device is killed")
        if self.note:
            self.text(LEFT, y + 78, self.note, "name")
        return y + 88

    def svg(self):
        y = self.event_lines(24 + 0.9 * LETTER * max(len(label(event)) for event, _, _ in self.drawn.events))
        for queue in range(self.queues):
            y = self.tags(y, f"driver {queue}", lambda item: item.word == "G" and item.place // AREA == queue, "driver")
        y = self.notes(y)
        top = y
        for queue in range(self.queues):
            y = self.requests(y, queue)
        for queue in range(self.queues):
            y = self.tags(y, f"device {queue}", lambda item: item.word != "G" and self.of_queue(item) == queue, "device")
        for queue in range(self.queues):
            y = self.region(y, queue)
        y = self.disk(y)
        y = self.bells(y)
        self.cuts(top, y - 8)
        y = self.legend(y + 4)
        width = self.width + 8
        lanes = [self.box(LEFT - 6, at, width - LEFT - 2, height, "lane") for at, height in self.lanes]
        head = f'<svg xmlns="http://www.w3.org/2000/svg" width="{width:.0f}" height="{y:.0f}" viewBox="0 0 {width:.0f} {y:.0f}">'
        paper = f'<rect width="{width:.0f}" height="{y:.0f}" class="paper"/>'
        return "\n".join([head, f"<style>{STYLE}</style>", paper, *lanes, *self.parts, "</svg>"]) + "\n"

    def of_queue(self, item):
        return item.place // (AREA if item.space == "m" else self.region_size)


def range_of(record, first, last):
    """The events that are drawn, and a note where that isn't all of them."""
    count = len(record.events)
    if first is None and last is None:
        items, shown = 0, 0
        for event in record.events:
            items += max(len(event.items), 1)
            if items > MOST_ITEMS and shown:
                break
            shown += 1
        note = "" if shown == count else f"Events 1 to {shown} of {count}: --from and --to show the others."
        return 1, shown, note
    first, last = first or 1, min(last or count, count)
    return first, last, f"Events {first} to {last} of {count}."


def picture_of(record, first, last):
    first, last, note = range_of(record, first, last)
    if not 1 <= first <= last:
        raise ValueError(f"there are no events {first} to {last}: the record has {len(record.events)}")
    drawn = columns_of(record, first, last)
    picture = Picture(drawn, record.header, note)
    return picture.svg()


# ---- the check of the script itself


def other_count(text):
    """Offers, publications and kills by words of the lines, and after each item the open heads by the entries alone."""
    offers = len(re.findall(r"^! offer ", text, re.M))
    published = sum(len(line.split(",")) for line in re.findall(r"^! publish \d+ (.*)$", text, re.M))
    kills = len(re.findall(r"^! kill$", text, re.M))
    size = int(text.split("\n", 1)[0].split(" ")[4])
    entry, heads, opens, after = 0, [], [], []
    for line in text.split("\n"):
        words = line.split(" ")
        if line.startswith(". G m ") and 0x1004 <= int(words[3], 16) < 0x1004 + 2 * size:
            entry = int(words[4][2:4] + words[4][:2], 16)
        elif line.startswith("! offer"):
            heads.append(entry)
        elif line.startswith("! accept"):
            opens.append(int(words[3]))
        elif line.startswith("! publish"):
            gone = [int(answer.split(":")[0]) for answer in words[3].split(",")]
            opens = [number for number in opens if number not in gone]
        if line[:2] in (". ", "! ", "+ ", "- "):
            after.append((line, sorted(heads[number] for number in opens)))
    return offers, published, kills, after


def checked(text):
    """What is wrong with the reading of a record of one queue."""
    record = record_of(text)
    drawn = columns_of(record, 1, len(record.events))
    offers, published, kills, after = other_count(text)
    items = [item for item, _ in drawn.items]
    counts = (
        len(drawn.requests),
        sum(request.published is not None for request in drawn.requests),
        sum(item.word == "kill" for item in items),
    )
    if counts != (offers, published, kills):
        return f"read {counts} offers, publications and kills, counted {(offers, published, kills)}"
    for place, (item, column) in enumerate(drawn.items):
        # a store counts together with the acceptance or publication that it makes
        line, opens = after[min(place + (item.word in ("SF2", "SP5")), len(after) - 1)]
        if sorted(drawn.heads[column][0]) != opens:
            return f"line {item.line}: read the open heads {drawn.heads[column][0]}, counted {opens}"
    picture_of(record, None, None)
    return None


def self_check():
    top = os.path.join(os.path.dirname(os.path.abspath(__file__)), "..")
    failed = 0
    for path in sorted(glob.glob(os.path.join(top, "examples", "*.txt"))):
        with open(path, "rb") as schedule:
            run = subprocess.run([os.path.join(top, "vublk"), "replay"], stdin=schedule, stdout=subprocess.PIPE, check=False)
        name = os.path.basename(path)
        if run.returncode == 6:
            print(f"{name}: no schedule, nothing to draw")
            continue
        wrong = f"vublk ended with status {run.returncode}" if run.returncode else checked(run.stdout.decode("ascii"))
        failed += wrong is not None
        print(f"{name}: {wrong or 'agrees'}")
    return 1 if failed else 0


# ---- the command


def write_whole(path, text):
    """Writes the file whole, or leaves none."""
    folder = os.path.dirname(os.path.abspath(path))
    handle, draft = tempfile.mkstemp(dir=folder)
    try:
        with os.fdopen(handle, "w", encoding="utf-8") as file:
            file.write(text)
        os.chmod(draft, 0o644)
        os.replace(draft, path)
    except OSError:
        os.unlink(draft)
        raise


def arguments():
    parser = argparse.ArgumentParser(description="Draws a record that `vublk replay` printed as one SVG picture.")
    parser.add_argument("record", nargs="?", help="the file of the record; standard input if left out")
    parser.add_argument("-o", "--output", help="the file of the picture; standard output if left out")
    parser.add_argument("--from", dest="first", type=int, metavar="EVENT", help="the first event that is drawn, from 1")
    parser.add_argument("--to", dest="last", type=int, metavar="EVENT", help="the last event that is drawn")
    parser.add_argument("--self-check", action="store_true", help="draws the examples, and counts what it read in another way")
    return parser.parse_args()


def main():
    given = arguments()
    if given.self_check:
        return self_check()
    try:
        if given.record:
            with open(given.record, "rb") as file:
                text = file.read()
        else:
            text = sys.stdin.buffer.read()
        picture = picture_of(record_of(text.decode("ascii")), given.first, given.last)
        if given.output:
            write_whole(given.output, picture)
        else:
            sys.stdout.write(picture)
    except (Malformed, UnicodeDecodeError, ValueError, OSError) as cause:
        print(f"draw_record: {cause}", file=sys.stderr)
        return 1
    return 0


if __name__ == "__main__":
    sys.exit(main())
