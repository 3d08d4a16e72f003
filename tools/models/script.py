"""What `script` writes: how its lines are spelled and what refuses them."""
import re

from .heap import Heap, Place
from .lines import Refused, number, run_lines

NAME = re.compile(rb"[A-Za-z0-9_]{1,32}")
PLACE = re.compile(
    rb"(?P<cell>[@~])(?P<index>\+?[0-9]+)|(?P<name>[A-Za-z0-9_]{1,32}):(?P<field>[01w])"
)
MOST_SIZES = (4_194_304, 65_536, 4_194_304)
MOST_WEIGHT = 2**32
PAYLOAD = 16

# What the arguments of each command are. Of a name that must be bound it is the kind that it must be bound to;
# `content` is the kind of the place before it.
ANY = "strong or weak or snapshot"
COMMANDS = {
    b"make": ("new", "weight"),
    b"copy": ("strong", "new"),
    b"drop": ("strong",),
    b"weaken": ("strong", "new"),
    b"wcopy": ("weak", "new"),
    b"unweak": ("weak",),
    b"up": ("weak", "new"),
    b"put": ("place", "content"),
    b"clear": ("place",),
    b"load": ("place", "new"),
    b"cas": ("strong place", "strong or snapshot or null", "strong or null"),
    b"snap": ("strong place", "new"),
    b"unsnap": ("snapshot",),
    b"keep": ("snapshot", "new"),
    b"read": (ANY, "word"),
    b"counts": (ANY,),
    b"audit": (),
}


def parsed(wanted, word):
    """What a word spells where this argument is wanted."""
    if wanted in ("weight", "word"):
        if (value := number(word)) is None:
            raise Refused("syntax")
        return value
    if wanted in ("place", "strong place"):
        spelled = PLACE.fullmatch(word)
        if spelled is None or spelled["name"] == b"null":
            raise Refused("syntax")
        if spelled["cell"]:
            return Place(spelled["cell"].decode(), number(spelled["index"]))
        return Place(spelled["name"], spelled["field"].decode())
    if word == b"null" and "null" in wanted:
        return None
    if word == b"null" or not NAME.fullmatch(word):
        raise Refused("syntax")
    return word


class Script:
    """A script that is run line by line."""

    def __init__(self):
        self.heap = None
        self.sizes = {}

    def take(self, line):
        """The lines that the words of a line write."""
        if self.heap is None:
            self.open(line)
            return []
        wanted = COMMANDS.get(line[0])
        if wanted is None or len(line) != 1 + len(wanted):
            raise Refused("syntax")
        arguments = [parsed(want, word) for want, word in zip(wanted, line[1:])]
        self.check(wanted, arguments)
        lines = getattr(self.heap, line[0].decode())(*arguments)
        self.heap.settle()
        return lines

    def open(self, line):
        sizes = [number(word) for word in line[1:]]
        if line[0] != b"heap" or len(sizes) != len(MOST_SIZES) or None in sizes:
            raise Refused("syntax")
        if sizes[0] == 0 or any(size > most for size, most in zip(sizes, MOST_SIZES)):
            raise Refused("range")
        self.heap = Heap(sizes[0])
        self.sizes = {"@": sizes[1], "~": sizes[2]}

    def end(self):
        if self.heap is None:
            raise Refused("syntax")
        return []

    def check(self, wanted, arguments):
        """Each reason is tested of all arguments before the next one."""
        tests = {"range": self.is_in_range, "name": self.is_named, "kind": self.is_of_kind}
        for reason, is_right in tests.items():
            if not all(is_right(*each, arguments) for each in zip(wanted, arguments)):
                raise Refused(reason)

    def is_in_range(self, want, argument, _):
        if want == "weight":
            return argument <= MOST_WEIGHT
        if want == "word":
            return argument < PAYLOAD
        is_cell = isinstance(argument, Place) and argument.is_cell
        return not is_cell or argument.part < self.sizes[argument.where]

    def is_named(self, want, argument, _):
        if isinstance(argument, Place):
            return argument.is_cell or argument.where in self.heap.names
        if want in ("weight", "word") or argument is None:
            return True
        return (argument in self.heap.names) == (want != "new")

    def is_of_kind(self, want, argument, arguments):
        if isinstance(argument, Place):
            is_open = argument.is_cell or self.heap.kind(argument.where) != "weak"
            return is_open and (want == "place" or argument.kind == "strong")
        if want in ("weight", "word", "new") or argument is None:
            return True
        kind = self.heap.kind(argument).replace("counted", "snapshot")
        return kind in (arguments[0].kind if want == "content" else want).split(" or ")


def script(text):
    return run_lines(Script(), text)
