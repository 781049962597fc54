"""The replies of servers and the answers of the proxy, as docs/PROTOCOL.md and docs/TEXTS.md have them."""
import re

MOST_OF_A_LINE, MOST_OF_A_VALUE = 2048, 1048576
SET = (b"STORED", b"NOT_STORED")
LINES = {
    b"get": (b"END",),
    b"gets": (b"END",),
    b"set": SET,
    b"add": SET,
    b"cas": (*SET, b"EXISTS", b"NOT_FOUND"),
    b"delete": (b"DELETED", b"NOT_FOUND"),
    b"touch": (b"TOUCHED", b"NOT_FOUND"),
    b"incr": (b"NOT_FOUND",),
    b"decr": (b"NOT_FOUND",),
}
MOST_OF_A_NUMBER = (1 << 64) - 1


def line_of(text):
    """The first line of a text without its LF and one CR before that; None where there is none or it is too long."""
    end = text.find(b"\n")
    if not 0 <= end <= MOST_OF_A_LINE:
        return None
    return text[: end - 1] if text[:end].endswith(b"\r") else text[:end]


def number_up_to(most, digits):
    return re.fullmatch(rb"\d+", digits) and int(digits) <= most


def value_of(operation, key, text):
    """What a client is answered by a value in front, or None."""
    line = line_of(text)
    words = line.split(b" ") if line is not None else []
    words = [word for word in words if word]
    if words[:2] != [b"VALUE", key] or len(words) != (5 if operation == b"gets" else 4):
        return None
    limits = ((1 << 32) - 1, MOST_OF_A_VALUE, MOST_OF_A_NUMBER)
    if not all(number_up_to(most, word) for most, word in zip(limits, words[2:])):
        return None
    flags, size, *cas = (b"%d" % int(word) for word in words[2:])
    begin = text.find(b"\n") + 1
    value, behind = text[begin : begin + int(size)], text[begin + int(size) :]
    end = line_of(behind[2:])
    if len(value) != int(size) or behind[:2] != b"\r\n" or end is None or end.strip(b" ") != b"END":
        return None
    return b" ".join([b"VALUE", key, flags, size, *cas]) + b"\r\n" + value + b"\r\nEND\r\n"


def answer_to(operation, key, reply):
    """What a client is answered where a server's bytes begin with a reply, whatever is behind that; None where they don't."""
    line = line_of(reply)
    if line is None:
        return None
    word = line.strip(b" ")
    if word in LINES[operation]:
        return word + b"\r\n"
    if operation in (b"incr", b"decr") and number_up_to(MOST_OF_A_NUMBER, word):
        return b"%d\r\n" % int(word)
    if word == b"ERROR" or re.match(rb" *(CLIENT_ERROR|SERVER_ERROR)( |\Z)", line):
        return line + b"\r\n"
    return value_of(operation, key, reply) if operation in (b"get", b"gets") else None


ANSWERS = re.compile(
    rb"(END|STORED|NOT_STORED|EXISTS|NOT_FOUND|DELETED|TOUCHED|\d+|ERROR|VERSION mcv 1|CLIENT_ERROR bad (command line|data chunk|key)"
    rb"|CLIENT_ERROR cannot increment or decrement non-numeric value|SERVER_ERROR (value too large|no route|busy|destination failed))\r\n"
)
VALUE = re.compile(rb"VALUE [^ \r\n]+ \d+ (\d+)( \d+)?\r\n")


def are_whole_answers(text):
    """Whether a text is one answer behind the other, the last one whole too."""
    at = 0
    while at < len(text):
        value = VALUE.match(text, at)
        if value:
            at = value.end() + int(value.group(1)) + 2
            if text[at - 2 : at] != b"\r\n" or not (VALUE.match(text, at) or text.startswith(b"END\r\n", at)):
                return False
        else:
            line = ANSWERS.match(text, at)
            if not line:
                return False
            at = line.end()
    return True
