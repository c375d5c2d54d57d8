"""Characters as numbers: decoding of bytes, encoding, and the escapes of printed strings.

A byte outside well-formed UTF-8 becomes a raw character, whose number lies above all of Unicode.
"""
import enum

RAW = 0x3FFF00
FIRST_RAW = RAW + 0x80
NEWLINE, RETURN = 10, 13

# For each range of leading bytes: the ranges of the bytes that must follow.
TAIL = (0x80, 0xBF)
SEQUENCES = (
    ((0x00, 0x7F), ()),
    ((0xC2, 0xDF), (TAIL,)),
    ((0xE0, 0xE0), ((0xA0, 0xBF), TAIL)),
    ((0xE1, 0xEC), (TAIL, TAIL)),
    ((0xED, 0xED), ((0x80, 0x9F), TAIL)),
    ((0xEE, 0xEF), (TAIL, TAIL)),
    ((0xF0, 0xF0), ((0x90, 0xBF), TAIL, TAIL)),
    ((0xF1, 0xF3), (TAIL, TAIL, TAIL)),
    ((0xF4, 0xF4), ((0x80, 0x8F), TAIL, TAIL)),
)
ESCAPES = {ord('"'): '\\"', ord("\\"): "\\\\", NEWLINE: "\\n", 9: "\\t"}


class Sequence(enum.Enum):
    COMPLETE = enum.auto()
    UNFINISHED = enum.auto()
    BROKEN = enum.auto()


def sequence_at(data, place):
    """How the bytes from this place on begin, and how long that sequence is."""
    for (low, high), tails in SEQUENCES:
        if low <= data[place] <= high:
            return follow(data, place + 1, tails), 1 + len(tails)
    return Sequence.BROKEN, 1


def follow(data, place, tails):
    for offset, (low, high) in enumerate(tails):
        if place + offset >= len(data):
            return Sequence.UNFINISHED
        if not low <= data[place + offset] <= high:
            return Sequence.BROKEN
    return Sequence.COMPLETE


def decode_utf8(data, complete):
    """Characters of the bytes. Where more may come, an unfinished sequence at the end is held back."""
    characters = []
    place = 0
    while place < len(data):
        kind, length = sequence_at(data, place)
        if kind is Sequence.COMPLETE:
            characters.append(ord(data[place:place + length].decode("utf-8")))
            place += length
        elif kind is Sequence.BROKEN:
            characters.append(RAW + data[place])
            place += 1
        else:
            return characters + ([RAW + byte for byte in data[place:]] if complete else [])
    return characters


def join_line_ends(characters):
    """Each carriage return that a newline follows is dropped."""
    followers = characters[1:] + [None]
    return [character for character, follower in zip(characters, followers)
            if not (character == RETURN and follower == NEWLINE)]


def decode(coding, data, complete):
    """Characters of what a child wrote so far; a carriage return at the end waits for what follows it."""
    if coding == "latin-1-unix":
        return list(data)
    characters = decode_utf8(data, complete)
    if coding == "utf-8-unix":
        return characters
    if not complete and data.endswith(b"\r"):
        characters.pop()
    return join_line_ends(characters)


def encode(characters):
    return b"".join(bytes([character - RAW]) if character >= FIRST_RAW else chr(character).encode("utf-8")
                    for character in characters)


def escape(character):
    if character in ESCAPES:
        return ESCAPES[character]
    if character < 0x20 or character == 0x7F:
        return "\\%03o" % character
    if character >= FIRST_RAW:
        return "\\%03o" % (character - RAW)
    return chr(character)


def escaped(characters):
    return "".join(map(escape, characters))
