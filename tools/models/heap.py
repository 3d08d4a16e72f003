"""The heap of a script: counted objects for one thread, which settles after each command."""
from collections import Counter
from dataclasses import dataclass, field

SNAPSHOTS = 3  # that are held without a count


@dataclass(eq=False)
class Object:
    """Its name and number are those of its make. `weak` has one for all strong references together."""

    name: bytes
    number: int
    weight: int
    strong: int = 1
    weak: int = 1
    fields: dict = field(default_factory=lambda: dict.fromkeys("01w"))


@dataclass(frozen=True)
class Place:
    """A cell `@` or `~` with its number, or a name with a field of its object."""

    where: object
    part: object

    @property
    def is_cell(self):
        return self.where in ("@", "~")

    @property
    def kind(self):
        return "weak" if self.where == "~" or self.part == "w" else "strong"


class Heap:
    """The objects, what the cells hold, what each name is bound to, and the decrements that wait.

    The commands are methods of their names. Each answers the lines that it writes.
    """

    def __init__(self, slots):
        self.free = slots
        self.cells = {}
        self.names = {}
        self.deferred = []
        self.live = {}
        self.made = 0
        self.dying = []

    def kind(self, name):
        """Strong, weak, snapshot, or counted, which is a snapshot that holds a strong reference."""
        return self.names[name][0]

    def gain(self, new, kind, item):
        """Binds a name to one reference more."""
        if kind == "weak":
            item.weak += 1
        elif kind != "snapshot":
            item.strong += 1
        self.names[new] = (kind, item)

    def lose(self, kind, item):
        if kind == "weak":
            item.weak -= 1
        elif kind != "snapshot":
            item.strong -= 1
            if item.strong == 0:
                del self.live[item.number]
                self.dying.append(item)
        self.free += item.weak == 0

    def held(self, place):
        if place.is_cell:
            return self.cells.get(place)
        return self.names[place.where][1].fields[place.part]

    def store(self, place, item):
        if (old := self.held(place)) is not None:
            self.deferred.append((place.kind, old))
        if place.is_cell:
            self.cells[place] = item
        else:
            self.names[place.where][1].fields[place.part] = item

    def settle(self):
        """Ejects, ends and destroys as long as something changes."""
        changed = True
        while changed:
            ejected = self.eject()
            dying, self.dying = self.dying, []
            for item in dying:
                self.destroy(item)
            changed = ejected or dying

    def eject(self):
        """Of equal entries that wait, those stay that snapshots guard, each one entry."""
        guards = Counter(item for kind, item in self.names.values() if kind == "snapshot")
        waiting, self.deferred = self.deferred, []
        for kind, item in waiting:
            if kind == "strong" and guards[item] > 0:
                guards[item] -= 1
                self.deferred.append((kind, item))
            else:
                self.lose(kind, item)
        return len(self.deferred) < len(waiting)

    def destroy(self, item):
        for part, content in item.fields.items():
            if content is not None:
                self.deferred.append(("weak" if part == "w" else "strong", content))
        item.fields.clear()
        self.lose("weak", item)

    # the commands, in the order of the manual's table

    def make(self, new, weight):
        if self.free == 0:
            return [b"make %s full" % new]
        self.free -= 1
        self.made += 1
        self.live[self.made] = Object(new, self.made, weight)
        self.names[new] = ("strong", self.live[self.made])
        return [b"make %s ok" % new]

    def copy(self, name, new):
        self.gain(new, "strong", self.names[name][1])
        return []

    def drop(self, name):
        self.lose(*self.names.pop(name))
        return []

    def weaken(self, name, new):
        self.gain(new, "weak", self.names[name][1])
        return []

    wcopy = weaken
    unweak = drop

    def up(self, name, new):
        if self.names[name][1].strong == 0:
            return [b"up %s dead" % name]
        self.copy(name, new)
        return [b"up %s ok" % name]

    def put(self, place, name):
        self.store(place, self.names[name][1])
        del self.names[name]
        return []

    def clear(self, place):
        self.store(place, None)
        return []

    def load(self, place, new):
        if (item := self.held(place)) is None:
            return [b"load %s null" % new]
        self.gain(new, place.kind, item)
        return [b"load %s ok" % new]

    def cas(self, place, old, new):
        if self.held(place) is not (old and self.names[old][1]):
            return [b"cas lost"]
        if new is None:
            self.clear(place)
        else:
            self.put(place, new)
        return [b"cas done"]

    def snap(self, place, new):
        if (item := self.held(place)) is None:
            return [b"snap %s null" % new]
        is_counted = sum(kind == "snapshot" for kind, _ in self.names.values()) == SNAPSHOTS
        self.gain(new, "counted" if is_counted else "snapshot", item)
        return [b"snap %s %s" % (new, b"counted" if is_counted else b"ok")]

    unsnap = drop
    keep = copy

    def read(self, name, word):
        return [b"read %s %d %d" % (name, word, self.names[name][1].weight if word == 0 else 0)]

    def counts(self, name):
        item = self.names[name][1]
        return [b"counts %s strong %d weak %d" % (name, item.strong, item.weak)]

    def audit(self):
        unreached = self.unreached()
        weight = sum(item.weight for item in self.live.values())
        line = b"audit live %d deferred %d cyclic %d bytes %d"
        lines = [line % (len(self.live), len(self.deferred), len(unreached), weight)]
        if unreached:
            lines.append(b" ".join([b"walk", *(item.name for item in walk(unreached))]))
        return lines

    def unreached(self):
        """The live objects to which nothing leads but a cycle, in the order of their makes."""
        todo = [item for kind, item in self.names.values() if kind in ("strong", "counted")]
        todo += [item for place, item in self.cells.items() if place.kind == "strong" and item]
        todo += [item for kind, item in self.deferred if kind == "strong"]
        reached = set()
        while todo:
            item = todo.pop()
            if item not in reached:
                reached.add(item)
                todo += [item.fields[part] for part in "01" if item.fields[part] is not None]
        return [item for item in self.live.values() if item not in reached]


def walk(unreached):
    """From the first one, again and again to the first that holds it; the cycle so found, along its fields."""
    holder = {}
    for item in reversed(unreached):
        holder[item.fields["0"]] = holder[item.fields["1"]] = item
    path, item = {}, unreached[0]
    while item not in path:
        path[item] = len(path)
        item = holder[item]
    cycle = list(path)[path[item] :][::-1]
    first = cycle.index(min(cycle, key=lambda one: one.number))
    return cycle[first:] + cycle[:first]
