"""What a seat of the core has."""
from .lines import Refused

STRONG, WEAK, DISPOSAL = range(3)
NOTES = 4


def need(condition):
    if not condition:
        raise Refused("not enabled")


class Seat:
    """A note is None, or whether it is valid, its kind and its slot. A phase is a name and a slot."""

    def __init__(self, number, room):
        self.number = number
        self.owned, self.weaks = [], []
        self.retired, self.owed = [], []
        self.dying, self.ripe = [], []
        self.notes = [None] * NOTES
        self.phase = ("idle", None)
        self.seen = []
        self.room = room
        self.has_left = False

    @property
    def is_idle(self):
        return self.phase[0] == "idle"

    @property
    def is_at_rest(self):
        return self.is_idle and not self.owed and self.notes == [None] * NOTES

    def holds_strongly(self, slot):
        return slot in self.owned or (True, STRONG, slot) in self.notes

    def holds(self, slot):
        notes = [(True, kind, slot) for kind in (STRONG, WEAK, DISPOSAL)]
        return slot in self.owned or slot in self.weaks or any(note in self.notes for note in notes)

    def enter(self, phase, slot=None):
        self.phase = (phase, slot)

    def slot_in(self, phase):
        """The slot of the phase that the seat must be in."""
        need(self.phase[0] == phase)
        return self.phase[1]
