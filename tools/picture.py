#!/usr/bin/env python3
"""Draws a list of steps as an SVG: a column for each seat, a row for each event, a strip for each slot.

    tools/picture.py LIST.steps PICTURE.svg

The program runs the list by `rt try`, which proves nothing. Stages and counts are computed here from the events and
their outcomes, and held against the words that the program writes at the end. A line of the list that begins with `#`
becomes a line of text in the picture.
"""
import subprocess
import sys
from collections import namedtuple
from html import escape
from itertools import groupby
from pathlib import Path

TOP = Path(__file__).resolve().parent.parent
ZERO, HELP = 1 << 63, 1 << 62
KINDS = ["strong", "weak", "disposal"]
Row = namedtuple("Row", "seat words outcome phases slots")
Shown = namedtuple("Shown", "stage strong weak")


class Slot:
    def __init__(self):
        self.strong, self.weak, self.free = ZERO, 0, True


class Seat:
    def __init__(self):
        # the phase, and the slot that it is about
        self.phase, self.slot = "Idle", None
        self.retired, self.owed, self.dying, self.ripe, self.seen = [], [], [], [], []


class Domain:
    """The words of the slots, and what seats have as far as these words depend on it."""

    def __init__(self, seats, slots):
        self.seats = [Seat() for _ in range(seats)]
        self.slots = [Slot() for _ in range(slots)]

    def stage(self, number):
        slot = self.slots[number]
        if slot.free:
            return "Free"
        for seat in self.seats:
            if seat.phase in ("Bare", "Blank") and seat.slot == number:
                return seat.phase
            if number in seat.dying:
                return "Ended, ripe" if number in seat.ripe else "Ended"
        return "Live" if slot.strong < ZERO or slot.strong & HELP else "Husk"

    def make(self, seat, act, words, outcome):
        """One event of a seat: its name, its arguments, and its outcome."""
        if act in ("add", "drop", "wadd", "wdrop", "destroy", "claim", "count"):
            seat.slot = int(words[0])
        if act == "pay":
            kind, seat.slot = seat.owed.pop(0)
            act = "drop" if kind == "strong" else "wdrop"
        slot = None if seat.slot is None else self.slots[seat.slot]

        # the words
        if act == "claim" and outcome == "claimed":
            slot.free = False
        elif act == "arm":
            slot.weak = 1
        elif act == "start":
            slot.strong = 1
        elif act == "add":
            slot.strong += 1
        elif act == "drop":
            slot.strong -= 1
        elif act == "wadd":
            slot.weak += 1
        elif act in ("wdrop", "destroy"):
            slot.weak -= 1
        elif act == "finish" and outcome == "ended":
            slot.strong = ZERO
        elif act == "take" and outcome == "ended":
            slot.strong -= HELP
        elif act == "mark" and slot.strong == 0:
            slot.strong = ZERO + HELP
        elif act == "free":
            slot.free = True

        # the seat
        if act != "fill":
            seat.phase = {"claimed": "Bare", "zero": "Finish", "help": "Help", "again": "Zero",
                          "last": "Give"}.get(outcome, "Blank" if act == "arm" else "Idle")
        if act in ("finish", "take") and outcome == "ended":
            seat.dying.append(seat.slot)
        elif act == "destroy":
            seat.dying.remove(seat.slot)
            seat.ripe.remove(seat.slot)
        elif act == "swap" or (act == "cas" and outcome == "done"):
            held = outcome if act == "swap" else words[1]
            if held != "null":
                kind = "weak" if words[0].startswith("~") or words[0].endswith("w") else "strong"
                seat.retired.append((kind, int(held)))
        elif act == "scan":
            self.scan(seat, outcome)
        elif act == "leave":
            other = self.seats[int(words[0])]
            for mine, theirs in zip((seat.retired, seat.dying, seat.ripe), (other.retired, other.dying, other.ripe)):
                mine.extend(theirs)
                theirs.clear()

    def scan(self, seat, outcome):
        """A word more is read. With the last one, the retired entries are split and dying slots become ripe."""
        seat.seen.append(int(outcome.split()[0]))
        seat.phase = "Scan"
        if "kept" in outcome:
            def times(kind, number):
                return seat.seen.count(4 * (number + 1) + KINDS.index(kind))
            kept = []
            for entry in seat.retired:
                (kept if kept.count(entry) < times(*entry) else seat.owed).append(entry)
            seat.ripe += [n for n in seat.dying if n not in seat.ripe and not times("disposal", n)]
            seat.retired, seat.seen, seat.phase = kept, [], "Idle"

    def shown(self):
        """The phase of each seat; the stage and both counts of each slot."""
        def strong(slot):
            return "help" if slot.strong & HELP else "flag" if slot.strong & ZERO else str(slot.strong)
        return ([seat.phase for seat in self.seats],
                [Shown(self.stage(n), strong(slot), str(slot.weak)) for n, slot in enumerate(self.slots)])


def run(path):
    """What the program writes for the list, line by line."""
    done = subprocess.run(["rt", "try", "--data", f"list.steps={path}", "--", "steps", "list.steps"],
                          cwd=TOP / "crates/cdrc_words", capture_output=True, text=True)
    if done.returncode not in (0, 8):
        sys.exit(f"picture: the program didn't run the list\n{done.stderr}")
    return done.stdout.splitlines()


def rows_of(text, written):
    """The rows of the picture: an event, or with no seat a text, and what is so after it."""
    domain, rows, written = None, [], iter(written)
    for words in (line.split() for line in text.splitlines()):
        if words and domain is None:
            if not words[0].startswith("#"):
                domain = Domain(int(words[1]), int(words[2]))
                rows.append(Row(None, "", "", *domain.shown()))
        elif words and words[0].startswith("#"):
            rows.append(Row(None, " ".join(words).lstrip("# "), "", *domain.shown()))
        elif words:
            told = next(written)
            if " refused: " in told:
                return rows + [Row(None, told, "", *domain.shown())]
            seat, outcome = int(words[0]), told.split(" ", 1)[1]
            domain.make(domain.seats[seat], words[1], words[2:], outcome)
            rows.append(Row(seat, " ".join(words[1:]), outcome, *domain.shown()))
    for words in (told.split() for told in written):
        if words[0] == "slot":
            slot = domain.slots[int(words[1])]
            if (slot.strong, slot.weak) != (int(words[3]), int(words[5])):
                sys.exit(f"picture: computed strong {slot.strong} weak {slot.weak}, written {' '.join(words)}")
    return rows


HEIGHT, LEFT, HEAD, STRIP = 26, 34, 44, 180
COLOURS = {"Free": "#eceff1", "Bare": "#fff3c4", "Blank": "#ffe49a", "Live": "#bfe6c8", "Ended": "#f6bfae",
           "Ended, ripe": "#ec9c86", "Husk": "#cfcfdc"}
LEGEND = ["flag: the zero flag stands; help: both flags stand.",
          "Thick line: the seat has begun something, and has a step more to make."]


def draw(rows):
    seats = range(len(rows[0].phases))
    used = [n for n in range(len(rows[0].slots)) if any(row.slots[n] != rows[0].slots[n] for row in rows)]
    widths = [max([60] + [len(row.words + row.outcome) * 6.7 + 44 for row in rows if row.seat == n]) for n in seats]
    columns = [LEFT + sum(widths[:n]) for n in seats]
    middles = [columns[n] + widths[n] / 2 for n in seats]
    edge = LEFT + 16 + max([sum(widths)] + [6.7 * len(row.words) for row in rows if row.seat is None])
    strips = {n: edge + i * STRIP for i, n in enumerate(used)}
    width = max(edge + len(used) * STRIP, LEFT + 7 * max(map(len, LEGEND)))
    bottom = HEAD + HEIGHT * len(rows)
    under, over = [], []

    def line(x, y, to, style):
        under.append(f'<path d="M{x:.0f} {y:.0f}{to}" {style}/>')

    def box(layer, x, y, w, h, style):
        layer.append(f'<rect x="{x:.0f}" y="{y:.0f}" width="{w:.0f}" height="{h:.0f}" rx="3" {style}/>')

    def text(x, y, words, anchor="start", style=""):
        over.append(f'<text x="{x:.0f}" y="{y:.0f}" text-anchor="{anchor}" {style}>{escape(words)}</text>')

    for n in seats:
        text(middles[n], 32, f"seat {n}", "middle", 'font-weight="bold"')
        line(middles[n], HEAD, f"V{bottom}", 'stroke="#b0bec5"')
    for n, x in strips.items():
        text(x + 44, 16, f"slot {n}", "middle", 'font-weight="bold"')
        for at, words in ((44, "stage"), (116, "strong"), (158, "weak")):
            text(x + at, 32, words, "middle", 'fill="#607d8b"')
        y = HEAD
        for stage, stretch in groupby(row.slots[n].stage for row in rows):
            height = HEIGHT * len(list(stretch))
            box(under, x, y + 1, 88, height - 2, f'fill="{COLOURS[stage]}"')
            text(x + 44, y + 17, stage, "middle")
            y += height

    events = 0
    for y, before, row in zip(range(HEAD, bottom, HEIGHT), [None] + rows, rows):
        for n in seats:
            if row.phases[n] != "Idle" and row is not rows[-1]:
                line(middles[n], y + 13, f"v{HEIGHT}", 'stroke="#f9a825" stroke-width="6"')
        if row.seat is None:
            text(LEFT, y + 17, row.words, style='class="words"')
        else:
            events += 1
            left, right = columns[row.seat] + 6, columns[row.seat] + widths[row.seat] - 6
            text(LEFT - 8, y + 17, str(events), "end", 'fill="#90a4ae"')
            box(over, left, y + 3, right - left, HEIGHT - 6, 'fill="#ffffff" stroke="#78909c"')
            text(left + 7, y + 17, row.words)
            text(right - 7, y + 17, row.outcome, "end", 'font-weight="bold" fill="#1565c0"')
        for n, x in strips.items():
            if before and before.slots[n] != row.slots[n]:
                line(right, y + 13, f"H{x:.0f}", 'stroke="#90a4ae" stroke-dasharray="2 3"')
            for at, part in ((116, "strong"), (158, "weak")):
                count = getattr(row.slots[n], part)
                same = before and getattr(before.slots[n], part) == count
                if row.words == "" or row.seat is not None:
                    text(x + at, y + 17, count, "middle", 'fill="#b0bec5"' if same else 'font-weight="bold"')
    for i, words in enumerate(LEGEND):
        text(LEFT, bottom + 22 + 16 * i, words, style='fill="#607d8b"')
    size = f'width="{width:.0f}" height="{bottom + 50}"'
    return "\n".join([
        f'<svg xmlns="http://www.w3.org/2000/svg" viewBox="0 0 {width:.0f} {bottom + 50}" {size}',
        ' font-family="DejaVu Sans Mono, monospace" font-size="11">',
        '<style>.words { font-style: italic; fill: #37474f; stroke: #ffffff; stroke-width: 4px; paint-order: stroke }',
        '</style>', f'<rect {size} fill="#ffffff"/>', *under, *over, "</svg>", ""])


if __name__ == "__main__":
    if len(sys.argv) != 3:
        sys.exit(__doc__)
    source = Path(sys.argv[1]).resolve()
    Path(sys.argv[2]).write_text(draw(rows_of(source.read_text(), run(source))))
