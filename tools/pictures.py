#!/usr/bin/env python3
"""python3 tools/pictures.py [--compare] [--to FOLDER]

Makes docs/NAME.svg from each text tools/pictures/NAME.txt. What it doesn't understand in a text it refuses, and so it does a text that
is wider than its box, two boxes or a note and a box over each other, and what passes the picture's edge: nothing is written then, and the
status is 1. With --compare it writes nothing, prints where docs/ has other pictures, and the status is 1 where it has; tests/pictures.sh
runs that. With --to the pictures are made under that folder. Run it where a text changed.

A text has these, each at the begin of a line. Lengths are pixels, from the upper left corner.

    # a comment, for who changes the text
    title TEXT                  what the picture is called
    about TEXT                  the whole of it in words, for who can't see it
    size WIDTH HEIGHT           of the picture
    box NAME COLOUR X,Y WIDTHxHEIGHT
    arrow FROM -> TO            from one place to another, with words behind it:
                                  at N          where it bends: the height, or the distance from the left
                                  via X,Y ..    goes by these places, in straight lines
                                  dashed        a line of dashes
                                  without-head  a line that joins another
    note X,Y ALIGN              words without a box; ALIGN is start, middle or end

A place of an arrow is X,Y, or NAME.SIDE, the middle of a side of a box (left, right, top, bottom), with +N or -N so far from it. Without
`via` an arrow leaves a box and reaches the other at right angles. The words of a box or a note stand in the lines behind it, indented by
two blanks, and can go over several. The first line of a box is bold, unless it begins with a full stop and a blank. What stands in
backquotes is set as code. The colours are white, blue, yellow, green, violet, red and grey.
"""
import argparse
import difflib
import html
import pathlib
import re
import sys
import xml.etree.ElementTree

TOP = pathlib.Path(__file__).resolve().parent.parent
COLOURS = {"white": "#ffffff", "blue": "#eaf1fb", "yellow": "#fff4d6", "green": "#dff3e4", "violet": "#f4ecfb", "red": "#fde4e1",
           "grey": "#e9edf1"}
BOX = re.compile(r"box ([\w-]+) (\w+) (\d+),(\d+) (\d+)x(\d+)")
ARROW = re.compile(r"arrow (\S+) -> (\S+)((?: .*)?)")
NOTE = re.compile(r"note (\d+),(\d+) (start|middle|end)")
PLACE = re.compile(r"([\w-]+)\.(left|right|top|bottom)([+-]\d+)?")
POINT = re.compile(r"(\d+),(\d+)")
# what a character takes at most, by a rough reckoning: of words, of bold ones, of code
WORD, BOLD, CODE = 6.5, 7.4, 7.4
LINE, EDGE, FIRST = 17, 6, 4
HEAD = """<svg xmlns="http://www.w3.org/2000/svg" viewBox="0 0 {width} {height}" font-family="system-ui, sans-serif" font-size="13" \
fill="#1b2733" role="img" aria-labelledby="t d">
  <!-- made by tools/pictures.py from {source}: change that text -->
  <title id="t">{title}</title>
  <desc id="d">{about}</desc>
  <defs>
    <marker id="a" markerWidth="9" markerHeight="9" refX="8" refY="4.5" orient="auto"><path d="M0,0 L9,4.5 L0,9 z" fill="#4a5b6c"/></marker>
    <style>
      .box {{ stroke: #4a5b6c; stroke-width: 1.2 }}
      .line {{ stroke: #4a5b6c; stroke-width: 1.4; fill: none }}
      .head {{ marker-end: url(#a) }}
      .dashed {{ stroke-dasharray: 5 4 }}
      .code {{ font-family: ui-monospace, monospace; font-size: 12px }}
      .bold {{ font-weight: 600 }}
      .note {{ font-size: 12px; fill: #3d4d5d }}
      .middle {{ text-anchor: middle }} .start {{ text-anchor: start }} .end {{ text-anchor: end }}
    </style>
  </defs>
  <rect width="{width}" height="{height}" rx="8" fill="#f7f9fb"/>
"""


class Fault(Exception):
    pass


class Area:
    """What a box or a note covers."""

    def __init__(self, left, top, right, bottom):
        self.left, self.top, self.right, self.bottom = left, top, right, bottom

    def meets(self, other):
        return self.left < other.right and other.left < self.right and self.top < other.bottom and other.top < self.bottom


class Box:
    def __init__(self, number, name, colour, left, top, width, height):
        self.number, self.name, self.colour, self.lines = number, name, colour, []
        self.area = Area(left, top, left + width, top + height)

    def width(self, index):
        line, is_bold = self.line(index)
        return width_of(line, BOLD if is_bold else WORD)

    def line(self, index):
        """Returns a line of its words, and whether that is bold."""
        text = self.lines[index]
        return (text[2:], False) if text.startswith(". ") else (text, index == 0)


class Arrow:
    def __init__(self, number, start, end, words):
        self.number, self.start, self.end, self.bend, self.by = number, start, end, None, []
        self.is_dashed, self.has_head = False, True
        words = words.split()
        while words:
            word = words.pop(0)
            if word == "at" and words and words[0].isdigit():
                self.bend = int(words.pop(0))
            elif word == "via" and words and POINT.fullmatch(words[0]):
                while words and POINT.fullmatch(words[0]):
                    self.by.append(tuple(int(it) for it in words.pop(0).split(",")))
            elif word == "dashed":
                self.is_dashed = True
            elif word == "without-head":
                self.has_head = False
            else:
                raise Fault(f"line {number}: `{word}` isn't understood")


class Note:
    def __init__(self, number, x, y, align):
        self.number, self.x, self.y, self.align, self.lines = number, x, y, align, []

    def area(self):
        width = max((width_of(it, WORD * 12 / 13) for it in self.lines), default=0)
        left = self.x - {"start": 0, "middle": width / 2, "end": width}[self.align]
        return Area(left, self.y - 11, left + width, self.y + 3 + (len(self.lines) - 1) * (LINE - 1))


def width_of(line, each):
    """Returns what a line takes at most. Code in backquotes is set wider."""
    return sum(len(it) * (CODE if index % 2 else each) for index, it in enumerate(line.split("`")))


class Picture:
    """What a text has: its title, its boxes, its arrows and its notes."""

    def __init__(self, text):
        self.title = self.about = None
        self.width = self.height = 0
        self.boxes, self.arrows, self.notes = {}, [], []
        last = None
        for number, line in enumerate(text.split("\n"), 1):
            if line.startswith("  ") and last is not None:
                last.lines.append(line.strip())
                continue
            last = self.take(number, line.rstrip())
        if not (self.title and self.about and self.width):
            raise Fault("a title, an about and a size are wanted")
        for box in self.boxes.values():
            self.look_at(box)
        for note in self.notes:
            self.look_at_note(note)

    def take(self, number, line):
        """Takes a line, and returns what the words behind it belong to."""
        if not line or line.startswith("#"):
            return None
        keyword, _, rest = line.partition(" ")
        if keyword in ("title", "about"):
            setattr(self, keyword, rest)
            return None
        if keyword == "size" and re.fullmatch(r"\d+ \d+", rest):
            self.width, self.height = (int(it) for it in rest.split())
            return None
        found = BOX.fullmatch(line)
        if found:
            if found[1] in self.boxes or found[2] not in COLOURS:
                raise Fault(f"line {number}: the box `{found[1]}` is there already, or its colour isn't known")
            self.boxes[found[1]] = Box(number, found[1], found[2], *(int(it) for it in found.groups()[2:]))
            return self.boxes[found[1]]
        found = ARROW.fullmatch(line)
        if found:
            self.arrows.append(Arrow(number, *found.groups()))
            return None
        found = NOTE.fullmatch(line)
        if found:
            self.notes.append(Note(number, int(found[1]), int(found[2]), found[3]))
            return self.notes[-1]
        raise Fault(f"line {number}: not understood")

    def look_at(self, box):
        area = box.area
        if area.right > self.width or area.bottom > self.height:
            raise Fault(f"line {box.number}: the box `{box.name}` passes the edge")
        for index in range(len(box.lines)):
            if box.width(index) + 2 * EDGE > area.right - area.left:
                raise Fault(f"line {box.number + 1 + index}: the text is wider than its box")
        if len(box.lines) * LINE + EDGE > area.bottom - area.top:
            raise Fault(f"line {box.number}: the box `{box.name}` is too low for its lines")
        for other in self.boxes.values():
            if other is not box and other.area.meets(area):
                raise Fault(f"line {box.number}: `{box.name}` and `{other.name}` are over each other")

    def look_at_note(self, note):
        area = note.area()
        if area.left < 0 or area.right > self.width or area.bottom > self.height:
            raise Fault(f"line {note.number}: the note passes the edge")
        for box in self.boxes.values():
            if box.area.meets(area):
                raise Fault(f"line {note.number}: the note is over the box `{box.name}`")

    def place(self, number, text):
        """Returns a place's point, and whether an arrow is level there: None where it stands at no side."""
        found = POINT.fullmatch(text)
        if found:
            return (int(found[1]), int(found[2])), None
        found = PLACE.fullmatch(text)
        if not found or found[1] not in self.boxes:
            raise Fault(f"line {number}: `{text}` is no place")
        area, off = self.boxes[found[1]].area, int(found[3] or 0)
        if found[2] in ("left", "right"):
            return (area.left if found[2] == "left" else area.right, (area.top + area.bottom) // 2 + off), True
        return ((area.left + area.right) // 2 + off, area.top if found[2] == "top" else area.bottom), False

    def points(self, arrow):
        """Returns the points that an arrow goes by."""
        (start, level), (end, is_level) = self.place(arrow.number, arrow.start), self.place(arrow.number, arrow.end)
        if arrow.by or level is None or is_level is None:
            between = arrow.by
        elif level and is_level:
            bend = (start[0] + end[0]) // 2 if arrow.bend is None else arrow.bend
            between = [] if start[1] == end[1] else [(bend, start[1]), (bend, end[1])]
        elif not level and not is_level:
            bend = (start[1] + end[1]) // 2 if arrow.bend is None else arrow.bend
            between = [] if start[0] == end[0] else [(start[0], bend), (end[0], bend)]
        else:
            between = [(end[0], start[1])] if level else [(start[0], end[1])]
        return [start, *between, end]

    def svg(self, source):
        out = [HEAD.format(width=self.width, height=self.height, source=source, title=html.escape(self.title, False),
                           about=html.escape(self.about, False))]
        for box in self.boxes.values():
            area = box.area
            out.append(f'  <rect class="box" x="{area.left}" y="{area.top}" width="{area.right - area.left}" '
                       f'height="{area.bottom - area.top}" rx="6" fill="{COLOURS[box.colour]}"/>\n')
            # the lines stand in the middle of the box
            base = (area.top + area.bottom) / 2 - (len(box.lines) - 1) * LINE / 2 + FIRST
            for index in range(len(box.lines)):
                line, is_bold = box.line(index)
                out.append(text_at((area.left + area.right) / 2, base + index * LINE, line, "middle bold" if is_bold else "middle"))
        for arrow in self.arrows:
            path = " L".join(f"{x},{y}" for x, y in self.points(arrow))
            kind = "line" + " head" * arrow.has_head + " dashed" * arrow.is_dashed
            out.append(f'  <path class="{kind}" d="M{path}"/>\n')
        for note in self.notes:
            out += [text_at(note.x, note.y + index * (LINE - 1), line, f"note {note.align}") for index, line in enumerate(note.lines)]
        return "".join([*out, "</svg>\n"])


def text_at(x, y, line, kind):
    parts = [f'<tspan class="code">{html.escape(it, False)}</tspan>' if index % 2 else html.escape(it, False)
             for index, it in enumerate(line.split("`")) if it]
    return f'  <text class="{kind}" x="{x:g}" y="{y:g}">{"".join(parts)}</text>\n'


def made(file):
    """Returns the picture of a text."""
    source = str(file.relative_to(TOP))
    try:
        svg = Picture(file.read_text(encoding="utf-8")).svg(source)
    except Fault as fault:
        raise Fault(f"{source}: {fault}") from None
    xml.etree.ElementTree.fromstring(svg)
    return svg


def main():
    asked = argparse.ArgumentParser(description="Makes the pictures of docs/ from the texts in tools/pictures/.")
    asked.add_argument("--compare", action="store_true")
    asked.add_argument("--to", type=pathlib.Path, default=TOP)
    given = asked.parse_args()
    try:
        pictures = {f"docs/{it.stem}.svg": made(it) for it in sorted((TOP / "tools" / "pictures").glob("*.txt"))}
    except Fault as fault:
        print(f"pictures.py: {fault}", file=sys.stderr)
        return 1
    differs = False
    for name, svg in pictures.items():
        file = given.to / name
        if given.compare:
            there = file.read_text(encoding="utf-8") if file.exists() else ""
            lines = list(difflib.unified_diff(there.splitlines(), svg.splitlines(), name, f"{name}, made anew", lineterm="", n=0))
            differs = differs or bool(lines)
            print("\n".join(lines) if lines else f"{name}: as its text")
            continue
        file.parent.mkdir(parents=True, exist_ok=True)
        file.write_text(svg, encoding="utf-8")
        print(name)
    return 1 if differs else 0


if __name__ == "__main__":
    sys.exit(main())
