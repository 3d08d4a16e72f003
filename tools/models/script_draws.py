"""Scripts drawn at random: the heap of the model tells which lines are accepted."""
from .lines import Refused, fields
from .script import ANY, COMMANDS, MOST_WEIGHT, Script

# how often each command is drawn
WEIGHTS = {
    b"make": 8,
    b"copy": 10,
    b"drop": 12,
    b"weaken": 6,
    b"wcopy": 3,
    b"unweak": 3,
    b"up": 5,
    b"put": 16,
    b"clear": 5,
    b"load": 6,
    b"cas": 7,
    b"snap": 7,
    b"unsnap": 3,
    b"keep": 3,
    b"read": 4,
    b"counts": 10,
    b"audit": 12,
}
NAMES = b"a b c d e f p q r x_1 Node 7 _ nul nulls".split() + [b"n" * 32]
SPACES = [b" "] * 20 + [b"\t", b"  ", b"\xc2\xa0", b"\xe3\x80\x80", b"\x0c"]
SKIPPED = [b"", b"# a remark", b" \t", b"#drop a", b"  # x \xff"]
# lines that are refused whatever came before
FAULTY = [
    b"make",
    b"makes a 1",
    b"make null 1",
    b"make x 4294967297",
    b"read a 16",
    b"heap 1 0 0",
    b"clear @65536",
    b"load ~4194304 x",
    b"put a:2 b",
    b"audit now",
    b"drop nobody",
    b"\xff\xfe",
]


class Dice:
    """Draws commands for a script, by what its names are bound to."""

    def __init__(self, random, script):
        self.random = random
        self.script = script

    @property
    def heap(self):
        return self.script.heap

    def spelled(self, value):
        """A number in one of its spellings."""
        form = self.random.choice((b"%d",) * 12 + (b"+%d", b"00%d"))
        return form % value

    def bound(self, kinds):
        return [name for name in self.heap.names if self.heap.kind(name) in kinds]

    def name(self, kinds):
        """A name that is bound to one of these kinds, if there is one."""
        kinds = [*kinds, "counted"] if "snapshot" in kinds else kinds
        return self.random.choice(self.bound(kinds) or NAMES)

    def content(self, place):
        """A name for what is put into a place; mostly another object than the one that has the place."""
        is_weak = place.startswith(b"~") or place.endswith(b":w")
        holder = self.heap.names.get(place.partition(b":")[0], (None, None))[1]
        bound = self.bound(["weak" if is_weak else "strong"])
        others = [name for name in bound if self.heap.names[name][1] is not holder]
        fit = others if self.random.random() < 0.97 else bound
        return self.random.choice(fit or [self.new()])

    def new(self):
        free = [name for name in NAMES if name not in self.heap.names]
        return self.random.choice(free or NAMES)

    def place(self, is_strong):
        marks = [mark for mark in ("@" if is_strong else "@~") if self.script.sizes[mark]]
        holders = [name for name in self.heap.names if self.heap.kind(name) != "weak"]
        if holders and (not marks or self.random.random() < 0.6):
            field = self.random.choice((b"0", b"1") if is_strong else (b"0", b"1", b"w"))
            return self.random.choice(holders) + b":" + field
        if not marks:
            return b"@0"
        mark = self.random.choice(marks)
        return mark.encode() + self.spelled(self.random.randrange(self.script.sizes[mark]))

    def argument(self, want, before):
        if want == "weight":
            return self.spelled(self.random.choice((0, 1, 2, 3, 10, 1000, MOST_WEIGHT)))
        if want == "word":
            return self.spelled(self.random.choice((0, 0, 1, 15)))
        if want == "new":
            return self.new()
        if "place" in want:
            return self.place(want == "strong place")
        if want == "content":
            return self.content(before[0])
        if "null" in want and self.random.random() < 0.3:
            return b"null"
        if want == "strong or null":
            return self.content(before[0])
        return self.name(want.split(" or "))

    def line(self):
        (command,) = self.random.choices(list(WEIGHTS), WEIGHTS.values())
        arguments = []
        for want in COMMANDS[command]:
            arguments.append(self.argument(want, arguments))
        if self.random.random() < 0.02:
            arguments = [self.random.choice((self.name(ANY), word)) for word in arguments]
        return self.random.choice(SPACES).join([command, *arguments])


def draw_script(random):
    """The bytes of a script. One in three ends with a line that is refused."""
    script = Script()
    slots = random.choice((1, 2, 4, 8, 8, 30))
    lines = [b"heap %d %d %d" % (slots, random.randrange(4), random.randrange(3))]
    script.take(fields(lines[0]))
    dice = Dice(random, script)
    wanted = random.choice((3, 10, 30, 100, 300))
    refused = {}
    for _ in range(2 * wanted):
        line = dice.line()
        try:
            script.take(fields(line))
            lines.append(line)
        except Refused as why:
            refused[str(why)] = line
        if random.random() < 0.03:
            lines.append(random.choice(SKIPPED))
    if random.random() < 0.35:
        # a line that was refused when it was drawn may be accepted by now
        lines += [random.choice([*refused.values(), random.choice(FAULTY)]), random.choice(FAULTY)]
    lines.append(b"audit")
    return b"\n".join(lines) + random.choice((b"", b"\n", b"\n\n"))
