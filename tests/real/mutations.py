"""Bytes that are changed at random: cut, with other bytes, with other numbers, with a piece twice or left out."""
import re

# Bytes that protocols care about.
TELLING = b" \r\n\0\t09az/-+|%\x7f\x80\xff"
# Numbers at limits, and some that aren't numbers.
NUMBERS = [b"0", b"1", b"00", b"007", b"-1", b"+1", b"1.5", b"", b"1048576", b"1048577", b"4294967295", b"4294967296",
           b"18446744073709551615", b"18446744073709551616", b"9" * 40]


def cut(chosen, text):
    return text[: chosen.randrange(len(text) + 1)]


def other_bytes(chosen, text):
    changed = bytearray(text)
    for _ in range(chosen.randrange(1, 4)):
        if changed:
            changed[chosen.randrange(len(changed))] = chosen.choice(TELLING) if chosen.random() < 0.7 else chosen.randrange(256)
    return bytes(changed)


def another_length(chosen, text):
    """One of the numbers is another one, often the next."""
    places = list(re.finditer(rb"\d+", text))
    if not places:
        return other_bytes(chosen, text)
    place = chosen.choice(places)
    near = max(0, int(place.group()) + chosen.choice([-1, 1]))
    number = b"%d" % near if chosen.random() < 0.5 else chosen.choice(NUMBERS)
    return text[: place.start()] + number + text[place.end() :]


def a_piece_less(chosen, text):
    first, last = sorted(chosen.randrange(len(text) + 1) for _ in range(2))
    return text[:first] + text[last:]


def a_piece_twice(chosen, text):
    first, last = sorted(chosen.randrange(len(text) + 1) for _ in range(2))
    return text[:last] + text[first:]


KINDS = [cut, other_bytes, another_length, a_piece_less, a_piece_twice]


def mutant(chosen, text):
    """A text that is changed once or twice."""
    for _ in range(chosen.choice([1, 1, 2])):
        text = chosen.choice(KINDS)(chosen, text)
    return text


def in_pieces(chosen, text):
    """The text, cut into pieces of one byte or more."""
    places = sorted(chosen.randrange(len(text) + 1) for _ in range(chosen.randrange(1, 6)))
    pieces = [text[first:last] for first, last in zip([0, *places], [*places, len(text)])]
    return [piece for piece in pieces if piece]
