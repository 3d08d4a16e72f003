"""What a command line asks for, by the grammar of the manual."""
from .lines import number

OPTIONS = {
    b"words": (b"--lanes", b"--rounds", b"--slots", b"--queue", b"--protect"),
    b"script": (),
    b"steps": (),
    b"gen": (),
    b"bulk": (b"--lanes",),
}
VALUES = {b"--lanes": (1, 31), b"--rounds": (1, 1_000), b"--slots": (1, 4_194_304)}
NAMES = {b"--queue": (b"linked", b"double"), b"--protect": (b"announce", b"epoch")}
DRAWS = {
    b"gen": ((0, 2**64 - 1), (0, 1_000_000), (1, 1_000_000)),
    b"bulk": ((0, 2**64 - 1), (0, 500_000), (1, 1_000_000)),
}


class Faulty(Exception):
    """The words are none of the commands."""


def ranged(word, least, most):
    value = number(word)
    if value is None or not least <= value <= most:
        raise Faulty
    return value


def is_utf8(word):
    try:
        word.decode()
    except UnicodeDecodeError:
        return False
    return True


def value_of(option, word):
    if option in VALUES:
        return ranged(word, *VALUES[option])
    if word not in NAMES[option]:
        raise Faulty
    return word


def read(words):
    """The command, its options by their names, and its operands."""
    if not words or words[0] not in OPTIONS or not all(map(is_utf8, words)):
        raise Faulty
    command, *left = words
    options, operands = {}, []
    while left and (word := left.pop(0)) != b"--":
        name, is_joined, value = word.partition(b"=")
        if name in OPTIONS[command]:
            if name in options or not (is_joined or left):
                raise Faulty
            options[name] = value_of(name, value if is_joined else left.pop(0))
        elif len(word) > 1 and word.startswith(b"-"):
            raise Faulty
        else:
            operands.append(word)
    if options.get(b"--protect") == b"epoch" and b"--queue" in options:
        raise Faulty
    return command, options, checked(command, operands + left)


def checked(command, operands):
    if command in DRAWS:
        if len(operands) != len(DRAWS[command]):
            raise Faulty
        return [ranged(word, *limits) for word, limits in zip(operands, DRAWS[command])]
    if not operands or (command != b"words" and len(operands) > 1):
        raise Faulty
    return operands
