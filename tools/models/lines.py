"""What all commands have in common: how a run ends, fields and numbers, and texts that are run line by line."""
import re
from dataclasses import dataclass

# Unicode White_Space in UTF-8. A byte that begins one of these is never inside another character, so they can be
# looked for in any bytes.
SPACE = re.compile(
    rb"[\t-\r ]+|\xc2[\x85\xa0]|\xe1\x9a\x80"
    rb"|\xe2\x80[\x80-\x8a\xa8\xa9\xaf]|\xe2\x81\x9f|\xe3\x80\x80"
)
NUMBER = re.compile(rb"\+?0*([0-9]+)")
MOST_DIGITS = 40  # more than a number of any range has

STANDARD_ERROR = {
    0: b"",
    2: b"cdrc_words: usage\n",
    3: b"cdrc_words: read fault\n",
    5: b"cdrc_words: input too large\n",
    6: b"cdrc_words: slots full\n",
    8: b"cdrc_words: line refused\n",
}


@dataclass(frozen=True)
class Answer:
    """How a run ends: its status, and what it writes."""

    status: int
    stdout: bytes = b""

    @property
    def stderr(self):
        return STANDARD_ERROR[self.status]


class Refused(Exception):
    """A line is refused, for a reason."""


def fields(text):
    """The maximal runs of bytes without white space."""
    return [field for field in SPACE.split(text) if field]


def number(word):
    """The number that a word spells, or None. One that is past every range may come as another such number."""
    spelled = NUMBER.fullmatch(word)
    return spelled and int(spelled[1][:MOST_DIGITS])


def run_lines(machine, text):
    """Runs a text to its end, or to the first line that is refused."""
    output = []
    at = 1
    try:
        for at, line in enumerate(text.split(b"\n"), 1):
            words = fields(line)
            if words and not words[0].startswith(b"#"):
                output += machine.take(words)
        # only a text without any line to be run is refused at its end
        at = 1
        output += machine.end()
    except Refused as refused:
        output.append(b"line %d refused: %s" % (at, str(refused).encode()))
        return Answer(8, written(output))
    return Answer(0, written(output))


def written(lines):
    return b"".join(line + b"\n" for line in lines)
