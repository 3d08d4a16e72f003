"""What `steps` writes: how its lines are spelled and what refuses them."""
import re

from .core import Core
from .lines import Refused, number, run_lines
from .seats import NOTES

# seats, slots, cells, weak cells and batch, the least and the most
SIZES = ((1, 32), (1, 4_194_304), (0, 65_536), (0, 4_194_304), (1, 1_024))
PLACE = re.compile(rb"(?P<cell>[@~])(?P<index>\+?[0-9]+)|(?P<slot>\+?[0-9]+):(?P<field>[01w])")
PAYLOAD = 16
KINDS = {b"strong": 0, b"weak": 1, b"disposal": 2}

EVENTS = {
    b"add": ("slot",),
    b"drop": ("slot",),
    b"pay": (),
    b"finish": (),
    b"take": (),
    b"count": ("slot",),
    b"mark": (),
    b"announce": ("note", "kind", "slot"),
    b"release": ("note",),
    b"look": ("place",),
    b"check": ("note", "place"),
    b"alive": ("note",),
    b"scan": (),
    b"swap": ("place", "content"),
    b"cas": ("place", "content", "content"),
    b"claim": ("slot",),
    b"arm": (),
    b"fill": ("word", "value"),
    b"start": (),
    b"see": ("slot", "word"),
    b"free": (),
    b"ticket": (),
    b"wadd": ("slot",),
    b"wdrop": ("slot",),
    b"destroy": ("slot",),
    b"wcount": ("slot",),
    b"leave": ("seat",),
}


def parsed(wanted, word):
    """What a word spells where this argument is wanted; a place is what has it and its index."""
    if wanted == "place":
        spelled = PLACE.fullmatch(word)
        if spelled is None:
            raise Refused("syntax")
        part = spelled["cell"] or spelled["field"]
        return part.decode(), number(spelled["index"] or spelled["slot"])
    if wanted == "content" and word == b"null":
        return None
    value = KINDS.get(word) if wanted == "kind" else number(word)
    if value is None:
        raise Refused("syntax")
    return value


class Steps:
    """A list of steps that is made line by line."""

    def __init__(self):
        self.core = None
        self.limits = {}
        self.events = 0

    def take(self, line):
        """The lines that the words of a line write."""
        if self.core is None:
            self.open(line)
            return []
        wanted = EVENTS.get(line[1]) if len(line) > 1 else None
        if wanted is None or len(line) != 2 + len(wanted):
            raise Refused("syntax")
        wanted = ("seat", *wanted)
        arguments = [parsed(want, word) for want, word in zip(wanted, [line[0], *line[2:]])]
        if not all(self.is_there(want, argument) for want, argument in zip(wanted, arguments)):
            raise Refused("range")
        answer = self.core.step(arguments[0], line[1], arguments[1:])
        self.events += 1
        return [b"%s %s" % (line[1], answer.encode())]

    def open(self, line):
        sizes = [number(word) for word in line[1:]]
        if line[0] != b"shape" or len(sizes) != len(SIZES) or None in sizes:
            raise Refused("syntax")
        if not all(least <= size <= most for size, (least, most) in zip(sizes, SIZES)):
            raise Refused("range")
        seats, slots, cells, weak_cells, batch = sizes
        self.core = Core(seats, slots, batch)
        self.limits = dict.fromkeys(("slot", "content", "0", "1", "w"), slots)
        self.limits |= {"seat": seats, "@": cells, "~": weak_cells}
        self.limits |= {"note": NOTES, "word": PAYLOAD, "value": 2**64}

    def is_there(self, want, argument):
        if want == "kind" or argument is None:
            return True
        what, index = argument if want == "place" else (want, argument)
        return index < self.limits[what]

    def end(self):
        if self.core is None:
            raise Refused("syntax")
        lines = [
            b"slot %d strong %d weak %d" % (slot, self.core.strong[slot], self.core.weak[slot])
            for slot in sorted(self.core.taken)
        ]
        return [*lines, b"events %d" % self.events]


def steps(text):
    return run_lines(Steps(), text)
