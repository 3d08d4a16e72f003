"""The core of `steps`: the words of a domain and its seats, changed by one event at a time."""
from collections import Counter, defaultdict

from .seats import DISPOSAL, NOTES, STRONG, WEAK, Seat, need

ZERO, HELP = 2**63, 2**62
BITS = 64  # of a word of free slots


def kind_of(place):
    return WEAK if place[0] in ("~", "w") else STRONG


def is_cell(place):
    return place[0] in ("@", "~")


def told(content):
    return "null" if content is None else str(content)


class Core:
    """The events are methods of their names. Each asks for its condition before it changes anything."""

    def __init__(self, seats, slots, batch):
        self.share = NOTES * seats + batch
        self.seats = [Seat(number, self.share) for number in range(seats)]
        self.slots = slots
        self.announced = [0] * (NOTES * seats)
        self.strong = defaultdict(lambda: ZERO)
        self.weak = defaultdict(int)
        self.payload = defaultdict(int)
        self.taken = set()
        # by what has the place and its index, which of a field is its slot
        self.places = defaultdict(lambda: None)
        self.tickets = 0

    def step(self, number, event, arguments):
        """What a seat's event answers. Where it isn't enabled, nothing has changed."""
        seat = self.seats[number]
        need(not seat.has_left)
        answer = getattr(self, event.decode())(seat, *arguments)
        return "ok" if answer is None else str(answer)

    def lose_strong(self, seat, slot):
        self.strong[slot] -= 1
        if self.strong[slot] > 0:
            return "left"
        seat.enter("finish", slot)
        return "zero"

    def lose_weak(self, seat, slot):
        self.weak[slot] -= 1
        if self.weak[slot] > 0:
            return "left"
        seat.enter("give", slot)
        return "last"

    def end(self, seat, slot):
        seat.dying.append(slot)
        seat.enter("idle")
        return "ended"

    def value(self, slot):
        return 0 if self.strong[slot] & ZERO else self.strong[slot]

    # the counter

    def add(self, seat, slot):
        need(seat.is_idle and seat.holds(slot))
        self.strong[slot] += 1
        if self.strong[slot] & ZERO:
            return "dead"
        seat.owned.append(slot)
        return "up"

    def drop(self, seat, slot):
        need(seat.is_idle and slot in seat.owned)
        seat.owned.remove(slot)
        return self.lose_strong(seat, slot)

    def pay(self, seat):
        need(seat.is_idle and seat.owed)
        kind, slot = seat.owed.pop(0)
        return self.lose_strong(seat, slot) if kind == STRONG else self.lose_weak(seat, slot)

    def finish(self, seat):
        slot = seat.slot_in("finish")
        if self.strong[slot] == 0:
            self.strong[slot] = ZERO
            return self.end(seat, slot)
        if self.strong[slot] & HELP:
            seat.enter("help", slot)
            return "help"
        seat.enter("idle")
        return "lost"

    def take(self, seat):
        slot = seat.slot_in("help")
        helps = self.strong[slot] & HELP
        self.strong[slot] &= ~HELP
        if helps:
            return self.end(seat, slot)
        seat.enter("idle")
        return "none"

    def count(self, seat, slot):
        need(seat.is_idle and seat.holds(slot))
        if self.strong[slot] == 0:
            seat.enter("zero", slot)
            return "again"
        return self.value(slot)

    def mark(self, seat):
        slot = seat.slot_in("zero")
        if self.strong[slot] == 0:
            self.strong[slot] = ZERO + HELP
        seat.enter("idle")
        return self.value(slot)

    # protection

    def announce(self, seat, note, kind, slot):
        need(seat.is_idle and seat.notes[note] is None)
        seat.notes[note] = (False, kind, slot)
        self.announced[NOTES * seat.number + note] = 4 * (slot + 1) + kind

    def release(self, seat, note):
        need(seat.is_idle and seat.notes[note] is not None)
        seat.notes[note] = None
        self.announced[NOTES * seat.number + note] = 0

    def need_readable(self, seat, place):
        is_held = seat.holds_strongly(place[1]) or (True, DISPOSAL, place[1]) in seat.notes
        need(seat.is_idle and (is_cell(place) or is_held))

    def look(self, seat, place):
        self.need_readable(seat, place)
        return told(self.places[place])

    def check(self, seat, note, place):
        self.need_readable(seat, place)
        is_valid, kind, slot = seat.notes[note] or (True, None, None)
        need(not is_valid and kind == kind_of(place))
        if self.places[place] != slot:
            return f"moved {told(self.places[place])}"
        seat.notes[note] = (True, kind, slot)
        return "valid"

    def alive(self, seat, note):
        is_valid, kind, slot = seat.notes[note] or (True, None, None)
        need(seat.is_idle and not is_valid and kind == DISPOSAL and seat.holds(slot))
        if self.value(slot) == 0:
            return "zero"
        seat.notes[note] = (True, kind, slot)
        return "alive"

    def scan(self, seat):
        need(seat.phase[0] == "scan" or (seat.is_idle and not seat.owed))
        seat.enter("scan")
        word = self.announced[len(seat.seen)]
        seat.seen.append(word)
        if len(seat.seen) < len(self.announced):
            return word
        self.split(seat, Counter(seat.seen))
        seat.seen.clear()
        seat.enter("idle")
        return f"{word} kept {len(seat.retired)} ejected {len(seat.owed)}"

    def split(self, seat, seen):
        """Of equal entries that are retired as many stay as announcements were read, the earlier ones."""
        unripe = [slot for slot in seat.dying if slot not in seat.ripe]
        seat.ripe += [slot for slot in unripe if seen[4 * (slot + 1) + DISPOSAL] == 0]
        retired, seat.retired = seat.retired, []
        for kind, slot in retired:
            word = 4 * (slot + 1) + kind
            (seat.retired if seen[word] > 0 else seat.owed).append((kind, slot))
            seen[word] -= 1

    def need_change(self, seat, place, new):
        is_held = seat.holds_strongly(place[1]) or (new is None and place[1] in seat.ripe)
        has_room = len(seat.retired) + len(seat.owed) < seat.room
        has_new = new is None or new in self.references(seat, place)
        need(seat.is_idle and (is_cell(place) or is_held) and has_room and has_new)

    def references(self, seat, place):
        return seat.weaks if kind_of(place) == WEAK else seat.owned

    def put(self, seat, place, new):
        old, self.places[place] = self.places[place], new
        if new is not None:
            self.references(seat, place).remove(new)
        if old is not None:
            seat.retired.append((kind_of(place), old))
        return old

    def swap(self, seat, place, new):
        self.need_change(seat, place, new)
        return told(self.put(seat, place, new))

    def cas(self, seat, place, old, new):
        self.need_change(seat, place, new)
        need(is_cell(place) or place[1] not in seat.dying)
        if self.places[place] != old:
            return f"lost {told(self.places[place])}"
        self.put(seat, place, new)
        return "done"

    # the life of a slot

    def claim(self, seat, slot):
        need(seat.is_idle)
        if slot in self.taken:
            first = slot - slot % BITS
            free = set(range(first, min(first + BITS, self.slots))) - self.taken
            return f"taken {sum(1 << (one - first) for one in free)}"
        self.taken.add(slot)
        seat.enter("bare", slot)
        return "claimed"

    def arm(self, seat):
        slot = seat.slot_in("bare")
        self.weak[slot] = 1
        seat.enter("blank", slot)

    def fill(self, seat, word, value):
        self.payload[seat.slot_in("blank"), word] = value

    def start(self, seat):
        slot = seat.slot_in("blank")
        self.strong[slot] = 1
        seat.owned.append(slot)
        seat.enter("idle")

    def see(self, seat, slot, word):
        need(seat.is_idle and (seat.holds(slot) or slot in seat.dying))
        return self.payload[slot, word]

    def free(self, seat):
        self.taken.remove(seat.slot_in("give"))
        seat.enter("idle")

    def ticket(self, seat):
        need(seat.is_idle)
        self.tickets += 1
        return self.tickets - 1

    def wadd(self, seat, slot):
        need(seat.is_idle and seat.holds(slot))
        self.weak[slot] += 1
        seat.weaks.append(slot)

    def wdrop(self, seat, slot):
        need(seat.is_idle and slot in seat.weaks)
        seat.weaks.remove(slot)
        return self.lose_weak(seat, slot)

    def destroy(self, seat, slot):
        is_bare = all(self.places[part, slot] is None for part in "01w")
        need(seat.is_idle and slot in seat.ripe and is_bare)
        seat.dying.remove(slot)
        seat.ripe.remove(slot)
        return self.lose_weak(seat, slot)

    def wcount(self, seat, slot):
        need(seat.is_idle and seat.holds(slot))
        return self.weak[slot]

    def leave(self, seat, number):
        other = self.seats[number]
        need(seat.number == 0 and other is not seat and not other.has_left)
        need(seat.is_at_rest and other.is_at_rest)
        for name in ("owned", "weaks", "retired", "dying", "ripe"):
            getattr(seat, name).extend(getattr(other, name))
            getattr(other, name).clear()
        seat.room += self.share
        other.has_left = True
