"""A reader of the spool's file, by docs/SPOOL.md alone."""

SLOT = 640
# The bytes of a rest that can't be: those below 33, and 127.
NO_KEY_BYTES = frozenset([*range(33), 127])


class Damaged(Exception):
    """A slot that counts and doesn't read; its number is the argument."""


def server_reads(text):
    """Whether a text is `host:port`."""
    host, colon, port = text.rpartition(b":")
    in_brackets = host[:1] == b"[" and host[-1:] == b"]" and len(host) > 1
    is_host = 1 <= len(host) <= 255 and all(33 <= byte <= 126 for byte in host) and (in_brackets or b":" not in host)
    is_port = port.isdigit() and len(port) <= 5 and port[:1] != b"0" and int(port) <= 65535
    return bool(colon) and is_host and is_port


def length(data, at):
    """The number in two bytes, the high one first."""
    return data[at] * 256 + data[at + 1]


def slot(data, number):
    """Of the slot of this number: whether it is done, its server's text, the rest of its key."""
    at = SLOT * number
    s, r = length(data, at + 2), length(data, at + 4)
    if not 1 <= s <= 261 or not 1 <= r <= 250:
        raise Damaged(number)
    server, rest = bytes(data[at + 6 : at + 6 + s]), bytes(data[at + 6 + s : at + 6 + s + r])
    if not server_reads(server) or not NO_KEY_BYTES.isdisjoint(rest):
        raise Damaged(number)
    return data[at + 1] != 0, server, rest


def records(path):
    """Of each slot of a file that counts: whether it is done, its server's text, the rest of its key."""
    with open(path, "rb") as file:
        data = file.read()
    found = []
    # A slot counts if its gate is open, and all of it and the gate of the next one are in the file.
    while len(data) > SLOT * (len(found) + 1) and data[SLOT * len(found)] != 0:
        found.append(slot(data, len(found)))
    return found


def pending(path):
    return [(server, rest) for is_done, server, rest in records(path) if not is_done]
