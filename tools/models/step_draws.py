"""Lists of steps drawn at random: the core of the model tells which events are enabled."""
from .core import kind_of
from .lines import Refused, fields
from .seats import NOTES
from .steps import EVENTS, KINDS, Steps

KIND_NAMES = [kind.decode() for kind in KINDS]

# the event that ends a phase
NEXT = {
    "finish": b"finish",
    "help": b"take",
    "zero": b"mark",
    "scan": b"scan",
    "bare": b"arm",
    "blank": b"start",
    "give": b"free",
}
# in these phases a seat waits for a while, so that others come between
PATIENT = ("finish", "help", "zero")
# how often each event of a seat that is idle is drawn
WEIGHTS = {
    b"add": 6,
    b"drop": 7,
    b"pay": 6,
    b"count": 10,
    b"announce": 12,
    b"release": 2,
    b"look": 3,
    b"check": 25,
    b"alive": 8,
    b"scan": 3,
    b"swap": 16,
    b"cas": 8,
    b"claim": 9,
    b"see": 3,
    b"ticket": 0.3,
    b"wadd": 6,
    b"wdrop": 5,
    b"destroy": 8,
    b"wcount": 2,
    b"leave": 1,
}
VALUES = (0, 1, 7, 2**63, 2**64 - 1)
SKIPPED = [b"", b"#", b"# 0 pay", b" \t"]
# lines that are refused whatever came before
FAULTY = [
    b"0",
    b"0 finsh",
    b"0 add",
    b"99 pay",
    b"0 see 0 16",
    b"0 release 4",
    b"0 fill 0 18446744073709551616",
    b"shape 1 1 0 0 4",
    b"0 look @99999",
    b"0 announce 1 Weak 0",
    b"\xff",
]
ROUNDS = (5, 20, 100, 400, 1500)


class Dice:
    """Draws events for a list of steps, by what its seats have."""

    def __init__(self, random, steps):
        self.random = random
        self.steps = steps

    @property
    def core(self):
        return self.steps.core

    def slot(self):
        """Mostly one that is taken."""
        if self.core.taken and self.random.random() < 0.9:
            return self.random.choice(sorted(self.core.taken))
        return self.random.randrange(self.core.slots)

    def place(self):
        """What has it, and its index; mostly one that holds something."""
        full = [place for place, content in self.core.places.items() if content is not None]
        if full and self.random.random() < 0.5:
            return self.random.choice(full)
        cells = [mark for mark in "@~" if self.steps.limits[mark]]
        part = self.random.choice([*cells, *cells, "0", "1", "w"])
        if part in "01w":
            return part, self.slot()
        return part, self.random.randrange(self.steps.limits[part])

    def content(self, seat, place):
        """Null, or mostly what the seat has for a place of this kind."""
        if self.random.random() < 0.3:
            return "null"
        return str(self.random.choice(self.core.references(seat, place) or [self.slot()]))

    def change(self, event, seat):
        place = self.place()
        old = [self.random.choice(("null", str(self.slot())))] if event == b"cas" else []
        return " ".join([event.decode(), self.told(place), *old, self.content(seat, place)])

    def argument(self, want):
        if want == "slot":
            return str(self.slot())
        if want == "place":
            return self.told(self.place())
        if want == "note":
            return str(self.random.randrange(NOTES))
        if want == "kind":
            return self.random.choice(("strong", "strong", "weak", "weak", "disposal"))
        if want == "seat":
            return str(self.random.randrange(len(self.core.seats)))
        return str(self.random.randrange(16))

    def told(self, place):
        part, index = place
        return f"{part}{index}" if part in "@~" else f"{index}:{part}"

    def announcement(self):
        """That of what a place holds, if one holds anything."""
        full = [place for place, content in self.core.places.items() if content is not None]
        if not full or self.random.random() < 0.2:
            return None
        place = self.random.choice(full)
        kind = self.random.choice((KIND_NAMES[kind_of(place)],) * 4 + ("disposal",))
        return f"announce {self.random.randrange(NOTES)} {kind} {self.core.places[place]}"

    def check_of(self, seat):
        """A check that finds what one of the seat's notes announces, if there is one."""
        for note, said in enumerate(seat.notes):
            is_valid, _, slot = said or (True, None, None)
            places = [place for place, content in self.core.places.items() if content == slot]
            if places and not is_valid and self.random.random() < 0.7:
                return f"check {note} {self.told(self.random.choice(places))}"
        return None

    def claim(self):
        """A claim of a slot that is free, if there is one."""
        free = set(range(self.core.slots)) - self.core.taken
        return f"claim {self.random.choice(sorted(free))}" if free else None

    def race(self, seat):
        """An event on a slot that another seat is about to end."""
        ending = {other.phase[1] for other in self.core.seats if other.phase[0] in PATIENT}
        held = [slot for slot in ending if seat.holds(slot)]
        if not held:
            return None
        return f"{self.random.choice(('count', 'add', 'drop'))} {self.random.choice(held)}"

    def likely(self, event, seat):
        """An event of this name that is mostly enabled, or None."""
        if event == b"check":
            return self.check_of(seat)
        return self.claim() if event == b"claim" else self.announcement()

    def event(self, seat):
        phase, _ = seat.phase
        if phase == "blank" and self.random.random() < 0.4:
            return f"fill {self.random.randrange(16)} {self.random.choice(VALUES)}"
        if phase != "idle":
            is_patient = phase in PATIENT and self.random.random() < 0.9
            return None if is_patient else NEXT[phase].decode()
        if self.random.random() < 0.5 and (found := self.race(seat)):
            return found
        (event,) = self.random.choices(list(WEIGHTS), WEIGHTS.values())
        if event in (b"swap", b"cas"):
            return self.change(event, seat)
        if self.random.random() < 0.9 and event in (b"announce", b"check", b"claim"):
            return self.likely(event, seat)
        arguments = [self.argument(want) for want in EVENTS[event]]
        return " ".join([event.decode(), *arguments])

    def line(self):
        seat = self.random.choice(self.core.seats)
        event = self.event(seat)
        return event and f"{seat.number} {event}".encode()


def shared_slot(seats):
    """Lines after which seat 0 owns slot 0, and all seats have it weakly by weak cell 0."""
    lines = ["0 claim 0", "0 arm", "0 start", "0 wadd 0", "0 swap ~0 0"]
    for seat in range(seats):
        events = ("announce 0 weak 0", "check 0 ~0", "wadd 0", "release 0")
        lines += [f"{seat} {event}" for event in events]
    return [line.encode() for line in lines]


def draw_steps(random):
    """The bytes of a list of steps. One in three ends with a line that is refused."""
    steps = Steps()
    seats, slots = random.choice((1, 2, 2, 3, 3, 4)), random.choice((1, 2, 3, 4, 6, 70))
    cells, weak_cells, batch = random.randrange(3), random.randrange(3), random.choice((1, 2, 4))
    lines = [b"shape %d %d %d %d %d" % (seats, slots, cells, weak_cells, batch)]
    if weak_cells > 0 and random.random() < 0.5:
        lines += shared_slot(seats)
    for line in lines:
        steps.take(fields(line))
    dice = Dice(random, steps)
    refused = []
    for _ in range(random.choice(ROUNDS)):
        line = dice.line()
        if line is None:
            continue
        try:
            steps.take(fields(line))
            lines.append(line)
        except Refused:
            refused.append(line)
        if random.random() < 0.01:
            lines.append(random.choice(SKIPPED))
    if random.random() < 0.35:
        lines += [random.choice(random.choice((refused, FAULTY)) or FAULTY), random.choice(FAULTY)]
    return b"\n".join(lines) + random.choice((b"", b"\n"))
