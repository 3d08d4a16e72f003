"""Files and options of `words` drawn at random."""
from .lines import fields
from .words import PIECE, always_enough, never_enough, pieces

# bytes of a word: at the ends of a slot of a record, and of a piece
LENGTHS = (8, 119, 120, 121, 239, 240, 241, 1000, 4095, 4096)
PAST = (4097, 8192, 8193, 12_289)
SPACES = (b" ", b"\n", b"\t", b"\r\n", b"\x0b", b"\x0c", b"   \n", b"\xc2\x85", b"\xc2\xa0")
SPACES += (b"\xe1\x9a\x80", b"\xe2\x80\x83", b"\xe2\x80\xa8", b"\xe2\x80\xaf", b"\xe2\x81\x9f", b"\xe3\x80\x80")
# bytes that look like white space, or like nothing
STRANGE = (b"\xff", b"\xfe", b"\xc2", b"\x85", b"\xe3\x80", b"\xe2\x80\x8b", b"\x00", b"\x1c", b"\x1f")
STRANGE += (b"\xc3\xa9", b"\xf0\x9f\xa6\x80", b"\xed\xa0\x80", b"\xc0\xa0", b"\xe2\x80")
MOST_TEXT = 200_000
LETTERS = b"abcdefgxyz0129_.,#-"


def draw_word(random):
    length = random.choice((1, 2, 3, 5))
    if random.random() < 0.4:
        length = random.choice((*LENGTHS, random.randint(1, PIECE)))
    if random.random() < 0.03:
        length = random.choice(PAST)
    start = bytes(random.choices(LETTERS, k=min(length, 6)))
    if random.random() < 0.15:
        start += random.choice(STRANGE)
    word = start + b"x" * (length - len(start))
    # what was put together of strange bytes may have become white space
    return word if fields(word) == [word] else b"y"


def draw_text(random, vocabulary):
    many = random.choice((0, 1, 2, 5, 20, 20, 100, 400))
    words = random.choices(vocabulary, k=many)
    while sum(map(len, words)) > MOST_TEXT:
        words = words[::2]
    spaces = random.choice((SPACES, SPACES, (b" ",)))
    text = b"".join(word + random.choice(spaces) for word in words)
    first, last = random.choice((b"", b"\n", b"\xe2\x80\x89")), random.choice((b"", b" \n"))
    return first + text.rstrip(b" \n") + last


def draw_slots(random, contents, rounds):
    """A number of slots, from too few to ample, or None."""
    files = [pieces(content) for content in contents]
    few, enough = never_enough(files), always_enough(files, rounds)
    at_the_ends = (1, max(few, 1), few + 1, enough - 1, enough, enough + 1, 2 * enough)
    return random.choice((None, None, None, random.randint(1, enough), *at_the_ends))


def draw_words(random):
    """Contents of files, and options by their names."""
    vocabulary = [draw_word(random) for _ in range(random.choice((1, 3, 10, 60)))]
    contents = [draw_text(random, vocabulary) for _ in range(random.choice((1, 1, 2, 2, 3, 4, 9)))]
    rounds = random.choice((1, 1, 2, 3))
    options = {
        "--lanes": random.choice((1, 1, 2, 2, 3, 4, 8, random.randint(1, 31), 31)),
        "--rounds": rounds,
        "--slots": draw_slots(random, contents, rounds),
    }
    form = random.choice((("--queue", "linked"), ("--queue", "double"), ("--protect", "epoch"), ("--protect", "announce")))
    options.update([form])
    return contents, {name: value for name, value in options.items() if value is not None}
