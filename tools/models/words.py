"""What `words`, `gen` and `bulk` write: a count in Python, and the limits of a run."""
from collections import Counter

from .lines import Answer, fields

PIECE = 4096  # bytes of a piece at most
RECORD_SLOT = 120  # bytes of a word that one slot holds
MOST_FILES = 4096
MOST_BYTES = 67_108_864
MOST_PIECES = 1_000_000
MOST_SLOTS = 4_194_304

def pieces(text):
    return [field[at : at + PIECE] for field in fields(text) for at in range(0, len(field), PIECE)]


def slots_of(word):
    """How many slots the record of a word takes."""
    return -(-len(word) // RECORD_SLOT)


def report(files, rounds=1):
    """The report of some files, of which each is its list of pieces."""
    occurrences, holders = Counter(), Counter()
    for words in files:
        occurrences.update(words)
        holders.update(set(words))
    lines = [
        b"%d %d %s" % (rounds * occurrences[word], holders[word], word) for word in sorted(holders)
    ]
    slots, size = sum(map(slots_of, holders)), sum(map(len, holders))
    lines += [
        b"files %d pieces %d distinct %d" % (len(files), occurrences.total(), len(holders)),
        b"held live %d deferred 0 cyclic 0 bytes %d" % (slots, size),
        b"freed live 0 deferred 0 cyclic 0 bytes 0",
    ]
    return b"".join(line + b"\n" for line in lines)


def always_enough(files, rounds):
    """The slots with which a run always goes well: one of the queue for each piece, its record, and two more."""
    return rounds * sum(1 + slots_of(word) for words in files for word in words) + 2


def never_enough(files):
    """The most slots with which no run goes well.

    When the last piece is pushed, all records live, and the queue has its first node and the new one.
    """
    distinct = {word for words in files for word in words}
    return sum(map(slots_of, distinct)) + 1 if distinct else 0


def enough_in_regions(files, rounds, lanes):
    """The slots with which a run in regions always goes well, and the most with which none does.

    Records live until the end. One lane makes each once; several may make one of a word for each of its pieces.
    """
    distinct = sum(slots_of(word) for word in {word for words in files for word in words})
    pieces_too = rounds * sum(slots_of(word) for words in files for word in words)
    return distinct if lanes == 1 else pieces_too, distinct - 1


def words(contents, rounds=1, slots=None, lanes=2, protect=b"announce"):
    """The ways in which a run over these contents may end; None stands for a file that can't be read."""
    if len(contents) > MOST_FILES:
        return [Answer(5)]
    left = MOST_BYTES
    for content in contents:
        if content is None:
            return [Answer(3)]
        left -= len(content)
        if left < 0:
            return [Answer(5)]
    files = [pieces(content) for content in contents]
    enough = always_enough(files, rounds)
    if rounds * sum(map(len, files)) > MOST_PIECES or enough > MOST_SLOTS:
        return [Answer(5)]
    never = never_enough(files)
    if protect == b"epoch":
        enough, never = enough_in_regions(files, rounds, lanes)
    ends = []
    if slots is None or slots > never:
        ends.append(Answer(0, report(files, rounds)))
    if slots is not None and slots < enough and any(files):
        ends.append(Answer(6))
    return ends


def generate(seed, words, vocabulary):
    """The text of `gen`: words drawn from a seed, ten on a line."""
    drawn, state = [], seed
    for _ in range(words):
        state = (6364136223846793005 * state + 1442695040888963407) % 2**64
        drawn.append(b"w%d" % ((state >> 33) % vocabulary))
    return b"".join(b" ".join(drawn[at : at + 10]) + b"\n" for at in range(0, words, 10))


def bulk(seed, words, vocabulary):
    """The last three lines of the report of two drawn texts."""
    texts = [generate(start % 2**64, words, vocabulary) for start in (seed, seed + 1)]
    lines = report([pieces(text) for text in texts]).splitlines(keepends=True)
    return b"".join(lines[-3:])
