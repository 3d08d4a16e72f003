"""What the program is to write, in Python: an independent second program, which the first one is compared with.

It was written from docs/PROGRAM.md and docs/DEFINITIONS.md, and shares nothing with the crates. It counts with
dictionaries, by one thread, and knows of slots, lanes and queues only as much as the limits of a run ask for.

    lines                how a run ends, fields and numbers, texts that are run line by line
    command_line         what a command line asks for
    words                words, gen and bulk
    heap, script         script: the heap that settles after each command, and the lines over it
    seats, core, steps   steps: the table of events, and the lines over it
    word_draws, script_draws, step_draws
                         inputs drawn at random, of which most lines are accepted
"""
from .command_line import Faulty, read
from .lines import Answer
from .script import script
from .steps import steps
from .words import MOST_BYTES, bulk, generate, words

__all__ = ["Answer", "answers", "bulk", "generate", "script", "steps", "words"]


def answers(arguments, content_of):
    """The ways in which a run with these arguments may end.

    `content_of` gives the bytes of a file by its name, or None where it can't be read.
    """
    try:
        command, options, operands = read(arguments)
    except Faulty:
        return [Answer(2)]
    if command == b"gen":
        return [Answer(0, generate(*operands))]
    if command == b"bulk":
        return [Answer(0, bulk(*operands))]
    if command == b"words":
        contents = [content_of(name) for name in operands]
        names = ("rounds", 1), ("slots", None), ("lanes", 2), ("protect", b"announce")
        return words(contents, **{name: options.get(b"--%b" % name.encode(), usual) for name, usual in names})
    content = content_of(operands[0])
    if content is None:
        return [Answer(3)]
    if len(content) > MOST_BYTES:
        return [Answer(5)]
    return [script(content) if command == b"script" else steps(content)]
