#!/usr/bin/env python3
"""
Draws the pictures of the pages: NAME.txt becomes NAME.svg beside it.

Usage: draw.py [--check] [NAME.txt..]. Without names, all of this folder. --check writes nothing; the status is 1 if a picture is not the one
that its text gives.

A text has one thing to a line, on a grid of cells counted from 0; `#` begins a comment:
  frame COLUMN ROW COLUMNS ROWS: LABEL        a grey field behind boxes
  box NAME COLUMN ROW [COLUMNS]: TITLE / LINE / ..  the title is bold, a line is plain
  arrow FROM TO [dashed]: LABEL               between boxes that share a row or a column; the label may be empty
  note ROW: TEXT                              a line of text in an empty row
"""
import re
import sys
from dataclasses import dataclass
from html import escape
from pathlib import Path

HERE = Path(__file__).resolve().parent
CELL_WIDTH, CELL_HEIGHT, GAP_ACROSS, GAP_DOWN, MARGIN = 200, 74, 62, 56, 34
FONT = "font-family='Helvetica, Arial, sans-serif'"


@dataclass
class Box:
    column: int
    row: int
    columns: int
    lines: list[str]

    @property
    def left(self) -> int:
        return MARGIN + self.column * (CELL_WIDTH + GAP_ACROSS)

    @property
    def top(self) -> int:
        return MARGIN + self.row * (CELL_HEIGHT + GAP_DOWN)

    @property
    def width(self) -> int:
        return self.columns * CELL_WIDTH + (self.columns - 1) * GAP_ACROSS

    @property
    def right(self) -> int:
        return self.left + self.width

    @property
    def bottom(self) -> int:
        return self.top + CELL_HEIGHT

    def drawn(self) -> str:
        middle, first = self.left + self.width // 2, self.top + CELL_HEIGHT // 2 + 5 - 9 * (len(self.lines) - 1)
        out = f"<rect x='{self.left}' y='{self.top}' width='{self.width}' height='{CELL_HEIGHT}' rx='6' fill='#ffffff' stroke='#334155'/>\n"
        for number, line in enumerate(self.lines):
            weight = " font-weight='bold'" if number == 0 else ""
            out += text(middle, first + 18 * number, line, f"text-anchor='middle'{weight}")
        return out


def text(x: int, y: int, line: str, marks: str = "", size: int = 14) -> str:
    return f"<text x='{x}' y='{y}' {FONT} font-size='{size}' fill='#0f172a' {marks}>{escape(line)}</text>\n"


def overlap(a: tuple[int, int], b: tuple[int, int]) -> int:
    """The middle of what two stretches share."""
    low, high = max(a[0], b[0]), min(a[1], b[1])
    if low >= high:
        raise ValueError("an arrow's boxes share neither a row nor a column")
    return (low + high) // 2


def arrow(a: Box, b: Box, label: str, dashed: bool) -> str:
    marks = "stroke='#334155' stroke-width='1.5' marker-end='url(#head)'" + (" stroke-dasharray='5 4'" if dashed else "")
    if a.row == b.row:
        y = a.top + CELL_HEIGHT // 2
        x1, x2 = (a.right, b.left) if a.column < b.column else (a.left, b.right)
        middle = ((x1 + x2) // 2, y - 7, "text-anchor='middle'")
        x1, y1, x2, y2 = x1, y, x2, y
    else:
        x = overlap((a.left, a.right), (b.left, b.right))
        y1, y2 = (a.bottom, b.top) if a.row < b.row else (a.top, b.bottom)
        middle = (x + 7, (y1 + y2) // 2 + 4, "text-anchor='start'")
        x1, x2 = x, x
    out = f"<line x1='{x1}' y1='{y1}' x2='{x2}' y2='{y2}' {marks}/>\n"
    return out + (text(middle[0], middle[1], label, middle[2], 12) if label else "")


def picture(source: str) -> str:
    """The SVG of a text; a ValueError says which line is wrong."""
    boxes: dict[str, Box] = {}
    frames, arrows, notes = "", "", ""
    right = bottom = 0
    for number, line in enumerate(source.split("\n"), 1):
        if not line.strip() or line.startswith("#"):
            continue
        head, colon, rest = line.partition(":")
        words, label = head.split(), rest.strip()
        try:
            if words[0] == "box" and len(words) in (4, 5):
                columns = int(words[4]) if len(words) == 5 else 1
                box = boxes[words[1]] = Box(int(words[2]), int(words[3]), columns, re.split(r" / ", label))
                right, bottom = max(right, box.right), max(bottom, box.bottom)
            elif words[0] == "frame" and len(words) == 5:
                column, row, columns, rows = map(int, words[1:])
                box = Box(column, row, columns, [])
                height = rows * CELL_HEIGHT + (rows - 1) * GAP_DOWN
                frames += f"<rect x='{box.left - 14}' y='{box.top - 24}' width='{box.width + 28}' height='{height + 36}' rx='8' fill='#e2e8f0'/>\n"
                frames += text(box.left - 6, box.top - 8, label, size=12)
            elif words[0] == "arrow" and len(words) in (3, 4) and words[3:] in ([], ["dashed"]):
                arrows += arrow(boxes[words[1]], boxes[words[2]], label, len(words) == 4)
            elif words[0] == "note" and len(words) == 2:
                box = Box(0, int(words[1]), 1, [])
                notes += text(box.left, box.top + 16, label, size=13)
                bottom = max(bottom, box.top + 24)
            else:
                raise ValueError("no such line")
            if not colon:
                raise ValueError("it has no colon")
        except (ValueError, KeyError) as why:
            raise ValueError(f"line {number}: {why}: {line}") from why
    width, height = right + MARGIN, bottom + MARGIN
    head = f"<svg xmlns='http://www.w3.org/2000/svg' width='{width}' height='{height}' viewBox='0 0 {width} {height}'>\n"
    head += "<defs><marker id='head' markerWidth='9' markerHeight='8' refX='8' refY='4' orient='auto'>"
    head += "<path d='M0,0 L9,4 L0,8 z' fill='#334155'/></marker></defs>\n"
    head += f"<rect width='{width}' height='{height}' fill='#f8fafc'/>\n"
    return head + frames + arrows + "".join(box.drawn() for box in boxes.values()) + notes + "</svg>\n"


def main(words: list[str]) -> int:
    check = "--check" in words
    files = [Path(word) for word in words if word != "--check"] or sorted(HERE.glob("*.txt"))
    wrong = 0
    for file in files:
        drawn, made = picture(file.read_text(encoding="utf-8")), file.with_suffix(".svg")
        if not check:
            made.write_text(drawn, encoding="utf-8")
        elif not made.exists() or made.read_text(encoding="utf-8") != drawn:
            print(f"{made.name} is not what {file.name} gives: run docs/pictures/draw.py")
            wrong = 1
    return wrong


if __name__ == "__main__":
    sys.exit(main(sys.argv[1:]))
