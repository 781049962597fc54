"""Requests of clients and replies of servers that were changed at random: the proxy goes on, answers what comes later, and keeps
no memory."""
import contextlib
import random
import threading
import time

from grammar import answer_to, are_whole_answers
from listening import Listening
from mutations import in_pieces, mutant
from parts import Client, Failed, answer, case, expect, one_pool, shown, stored, value_answer

STREAMS, REPLIES = 2000, 2000
# Bytes of memory that the program may have more in the end than behind the first hundred. Its history keeps some 450 for a call.
FIRST, MORE = 100, 10_000_000
# Seconds between two pieces of a stream.
PAUSE = 0.001
FAILED = b"SERVER_ERROR destination failed\r\n"

# What streams are made of; `#####` is the number of the stream, so that each has keys of its own.
REQUESTS = [
    b"get a#####\r\n",
    b"get a##### b##### c#####\r\n",
    b"gets a##### b#####\r\n",
    b"set a##### 7 0 5\r\nvalue\r\n",
    b"set b##### 0 1000 12 noreply\r\nget a\r\nx\r\nyz\r\n",
    b"add c##### 0 0 3\r\nxyz\r\n",
    b"replace a##### 4294967295 0 1\r\nr\r\n",
    b"append a##### 0 0 2\r\n\r\n\r\n",
    b"prepend b##### 0 0 1 noreply\r\np\r\n",
    b"cas a##### 0 0 1 3\r\nc\r\n",
    b"delete a#####\r\n",
    b"delete b##### 0 noreply\r\n",
    b"touch a##### 1000\r\n",
    b"set c##### 0 0 2\r\n10\r\n",
    b"incr c##### 5\r\n",
    b"decr c##### 18446744073709551615 noreply\r\n",
    b"incr a##### 1\r\n",
    b"set /././c##### 0 0 0\r\n\r\n",
    b"version\r\n",
    b"gat 0 a#####\r\n",
]


def expect_memory(mcv, before, seed):
    now = mcv.resident()
    if now > before + MORE:
        raise Failed("%d bytes of memory, %d behind the first %d (seed %d)" % (now, before, FIRST, seed))


def answer_in_pieces(text, pieces):
    """All that is answered to bytes that are sent piece by piece, each a moment behind the one before, so that they are read so."""
    with Client(text) as client:
        with contextlib.suppress(OSError):
            for number, piece in enumerate(pieces):
                time.sleep(PAUSE if number else 0)
                client.send(piece)
            client.socket.shutdown(1)
        return client.rest()


def answer_whole(text, sent):
    return answer_in_pieces(text, [sent])


def are_alike(whole, pieced):
    """Whether two answers to a stream are the same. Where the proxy closed first, bytes that it had sent may be lost."""
    if b"<reset>" not in whole + pieced and whole == pieced:
        return are_whole_answers(whole)
    shorter, longer = sorted((whole.replace(b"<reset>", b""), pieced.replace(b"<reset>", b"")), key=len)
    return b"<reset>" in whole + pieced and longer.startswith(shorter)


@case(120)
def two_thousand_mutants_of_requests_are_answered_alike_however_cut(machine):
    seed = random.randrange(1 << 32)
    chosen = random.Random(seed)
    proxies = [machine.mcv(one_pool(machine.servers(1)), spool=machine.path("spool.%d" % n)) for n in range(2)]
    first, second = (mcv.address for mcv in proxies)
    for text in (first, second):
        expect(answer(text, stored(b"later", b"1")), b"STORED\r\n")
    for number in range(STREAMS):
        if number == FIRST:
            before = [mcv.resident() for mcv in proxies]
        template = mutant(chosen, b"".join(chosen.choices(REQUESTS, k=chosen.randrange(1, 6))))
        # (an item whose time ends between the two is another answer, but not twice)
        for attempt in range(3):
            sent = template.replace(b"#####", b"%05d" % (number + STREAMS * attempt))
            whole, pieced = answer_whole(first, sent), answer_in_pieces(second, in_pieces(chosen, sent))
            if are_alike(whole, pieced):
                break
        else:
            raise Failed("%s is answered %s, in pieces %s (seed %d)" % (shown(sent), shown(whole), shown(pieced), seed))
        for text in (first, second):
            expect(answer(text, b"get later\r\n"), value_answer(b"later", b"1"), "behind %s (seed %d)" % (shown(sent), seed))
    expect([mcv.process.poll() for mcv in proxies], [None, None], "the programs' statuses")
    for mcv, was in zip(proxies, before):
        expect_memory(mcv, was, seed)


class Mangler(Listening):
    """A server whose replies are changed at random, but for those to `version`. It closes the connection behind each, and
    keeps the replies to each key."""

    def __init__(self, chosen):
        self.chosen = chosen
        self.replies = {}
        self.count = 0
        super().__init__()

    def begin(self, connection):
        threading.Thread(target=self.serve, args=(connection,), daemon=True).start()

    def serve(self, connection):
        with contextlib.suppress(OSError), connection, connection.makefile("rb") as lines:
            words = lines.readline().split()
            while words == [b"version"]:
                connection.sendall(b"VERSION 1\r\n")
                words = lines.readline().split()
            if words:
                self.reply(connection, lines, words)

    def reply(self, connection, lines, words):
        name, key = words[:2]
        if name in (b"set", b"add", b"cas"):
            lines.read(int(words[4]) + 2)
        right = {
            b"get": [b"END\r\n", value_answer(key, b"value", 7), value_answer(key, b"\r\nEND\r\n", 0)],
            b"gets": [b"END\r\n", b"VALUE " + key + b" 0 3 18446744073709551615\r\nx\r\n\r\nEND\r\n"],
            b"cas": [b"STORED\r\n", b"EXISTS\r\n", b"NOT_FOUND\r\n"],
            b"delete": [b"DELETED\r\n", b"NOT_FOUND\r\n"],
            b"touch": [b"TOUCHED\r\n", b"NOT_FOUND\r\n"],
            b"incr": [b"6\r\n", b"18446744073709551615\r\n", b"NOT_FOUND\r\n"],
            b"decr": [b"0\r\n", b"  10 \r\n"],
        }
        errors = [b"ERROR\r\n", b"SERVER_ERROR out of memory storing object\r\n", b"CLIENT_ERROR bad data chunk\r\n"]
        texts = right.get(name, [b"STORED\r\n", b"NOT_STORED\r\n"])
        reply = mutant(self.chosen, self.chosen.choice(texts if self.chosen.random() < 0.8 else errors))
        self.replies.setdefault(key, []).append(reply)
        self.count += 1
        connection.sendall(reply)


def asked(name, key):
    """A request of this name for the key."""
    if name in (b"set", b"add"):
        return name + b" " + key + b" 0 0 1\r\nx\r\n"
    if name == b"cas":
        return b"cas " + key + b" 0 0 1 5\r\nx\r\n"
    return name + b" " + key + (b" 1000\r\n" if name in (b"touch", b"incr", b"decr") else b"\r\n")


def may_be_answered(name, key, replies):
    """What a client may be answered by what the server replied: the last of its replies decides. A delete that wasn't
    performed goes into the spool, and is sent again from there."""
    if name == b"delete":
        performed = [answer_to(name, key, reply) for reply in replies]
        return {b"NOT_FOUND\r\n", *(it for it in performed if it == b"DELETED\r\n")}
    return {answer_to(name, key, replies[-1]) or FAILED} if replies else {FAILED}


@case(120)
def two_thousand_mutants_of_replies_are_taken_as_the_page_says(machine):
    seed = random.randrange(1 << 32)
    chosen = random.Random(seed)
    mangler = machine.fake(Mangler(chosen))
    route = {"type": "PrefixSelectorRoute", "policies": {"bad": "PoolRoute|A"}, "wildcard": "PoolRoute|B"}
    mcv = machine.mcv({"pools": {"A": {"servers": [mangler.text]}, "B": {"servers": machine.servers(1)}}, "route": route})
    expect(answer(mcv.address, stored(b"later", b"1")), b"STORED\r\n")
    number, taken, before = 0, 0, None
    while mangler.count < REPLIES:
        if mangler.count >= FIRST and before is None:
            before = mcv.resident()
        name = chosen.choice([b"get", b"get", b"gets", b"set", b"add", b"cas", b"touch", b"incr", b"decr", b"delete"])
        key = b"bad%d" % number
        found = answer(mcv.address, asked(name, key))
        wanted = may_be_answered(name, key, list(mangler.replies.get(key, [])))
        if found not in wanted:
            raise Failed("%s of %s is answered %s, not %s, by %r (seed %d)" % (name, key, shown(found), wanted, mangler.replies.get(key), seed))
        taken += found != FAILED and name != b"delete"
        expect(answer(mcv.address, b"get later\r\n"), value_answer(b"later", b"1"), "behind %r (seed %d)" % (mangler.replies.get(key), seed))
        number += 1
    expect(mcv.process.poll(), None, "the program's status")
    expect_memory(mcv, before, seed)
    if not taken:
        raise Failed("no reply was taken")
