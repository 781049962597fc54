"""Many legs in flight over one connection to a server: each has its own reply, in whatever pieces that comes and whatever becomes of
the connection, and each client is answered once, in its own order."""
import contextlib
import random
import threading
import time

from cases.servers import FAILED
from fakes import BREAK_OFF, DROP, PERFORM, PERFORM_AND_DROP, PERFORM_SILENTLY, REFUSE, SILENCE, Fake, Late, Together, moody
from parts import case, expect, one_pool, pending, replayed, stored, value_answer, wait_for

# The most legs of a server that a hub has in flight, and more clients than that, each with one request.
FLIGHTS, CLIENTS = 64, 96
# The answers to these requests of clients in turn, where the server performs what it is asked.
ANSWERS = [b"DELETED\r\n", b"END\r\n", b"STORED\r\n"]


def request_of(number):
    """A delete, a get or a set of a key of this number's own."""
    key = b"k%d" % number
    return [b"delete " + key + b"\r\n", b"get " + key + b"\r\n", stored(key, b"1")][number % 3]


def as_many_as_may_be(mcv, fake, mood, kept):
    """Clients whose legs fill the connection to a server, and the numbers of those whose legs are in flight. One leg was answered
    over it before, so that it is one that was kept."""
    clients = [kept.enter_context(mcv.client()) for _ in range(CLIENTS)]
    clients[0].ask(b"get warm\r\n", b"END\r\n")
    fake.requests.clear()
    mood[0] = PERFORM_SILENTLY
    for number, client in enumerate(clients):
        client.send(request_of(number))
    wait_for(lambda: len(fake.requests) >= FLIGHTS, "%d legs are in flight" % FLIGHTS)
    time.sleep(0.5)
    expect(len(fake.requests), FLIGHTS, "legs in flight")
    return clients, {int(key[1:]) for _, key in fake.requests}


def answered_once(clients, wanted):
    """Sees that each client has this answer, and no more before that to its next request."""
    for number, client in enumerate(clients):
        expect(client.line(), wanted(number), "the answer to %r" % request_of(number))
    for client in clients:
        client.ask(b"version\r\n", b"VERSION mcv 1\r\n")


@case()
def a_connection_that_breaks_with_64_legs_in_flight_is_one_failure(machine):
    """Gets and deletes are sent once more, over a new connection, and sets aren't. The server isn't marked."""
    mood, fake, mcv = moody(machine, server_timeout=20000)
    with contextlib.ExitStack() as kept:
        clients, flying = as_many_as_may_be(mcv, fake, mood, kept)
        sets = {number for number in flying if number % 3 == 2}
        expect(len(sets) > 3, True, "sets in flight")
        mood[0] = PERFORM
        fake.drop()
        answered_once(clients, lambda number: FAILED if number in sets else ANSWERS[number % 3])
    seen = [key for _, key in fake.requests]
    for number in range(CLIENTS):
        expect(seen.count(b"k%d" % number), 2 if number in flying - sets else 1, "how often %r was sent" % request_of(number))
    expect(fake.accepted, 2, "connections")
    expect(pending(machine.path("mcv.spool")), [])
    expect(b"is marked" in mcv.error_text(), False, "a mark")


@case()
def a_server_that_dies_with_64_legs_in_flight_loses_no_delete(machine):
    """It has performed them, and says so of none. Each delete is spooled, those behind them too, and sent again once it is back."""
    spool = machine.path("mcv.spool")
    mood, fake, mcv = moody(machine, server_timeout=20000)
    with contextlib.ExitStack() as kept:
        clients, flying = as_many_as_may_be(mcv, fake, mood, kept)
        deletes = [b"k%d" % number for number in range(0, CLIENTS, 3)]
        expect(any(number % 3 == 0 for number in flying), True, "a delete in flight")
        fake.close()
        answered_once(clients, lambda number: FAILED if number % 3 else b"NOT_FOUND\r\n")
        wait_for(lambda: b"is marked" in mcv.error_text(), "the mark")
        replayed(machine, mcv, spool, fake.text, deletes)


def with_moods(machine, moods):
    """A server that has these moods, one for each request, and performs all behind them; and a proxy to it."""
    left = iter(moods)
    fake = machine.fake(Fake(lambda: next(left, PERFORM)))
    return fake, machine.mcv(one_pool([fake.text]), spool=machine.path("spool.%d" % fake.port), server_timeout=20000)


@case()
def a_leg_is_sent_twice_at_most(machine):
    """The connection over which it goes first had carried a reply, and breaks; so does the next one."""
    fake, mcv = with_moods(machine, [PERFORM, DROP, DROP, PERFORM, DROP, DROP])
    with mcv.client() as client:
        client.ask(b"get a\r\nget b\r\nget c\r\ndelete d\r\nget e\r\n", b"END\r\n" + FAILED + b"END\r\nNOT_FOUND\r\nEND\r\n")
    expect([key for _, key in fake.requests if key in (b"b", b"d")][:4], [b"b", b"b", b"d", b"d"], "what was sent")
    expect([key for _, key in fake.requests].count(b"b"), 2, "how often the get was sent")


@case()
def a_leg_whose_reply_broke_off_isnt_sent_again(machine):
    """Over a connection that had carried a reply."""
    for sent, wanted in ((b"get b\r\n", FAILED), (b"touch b 1\r\n", FAILED), (stored(b"b", b"1"), FAILED), (b"delete b\r\n", b"NOT_FOUND\r\n")):
        fake, mcv = with_moods(machine, [PERFORM, BREAK_OFF])
        with mcv.client() as client:
            client.ask(b"get a\r\n" + sent, b"END\r\n" + wanted)
            client.ask(b"get c\r\n", b"END\r\n")
        # (a delete is sent again from the spool)
        expect([key for _, key in fake.requests][:2], [b"a", b"b"], "what was sent")
        if b"delete" not in sent:
            expect([key for _, key in fake.requests].count(b"b"), 1, "how often it was sent")
        mcv.kill()


# A reply of each kind, by the first word of the request.
REPLIES = {
    b"get": lambda key: value_answer(key, b"END\r\n" + key, 7),
    b"gets": lambda key: b"VALUE " + key + b" 0 1 12\r\nx\r\nEND\r\n",
    b"set": lambda _key: b"STORED\r\n",
    b"incr": lambda _key: b"18\r\n",
    b"delete": lambda _key: b"NOT_FOUND\r\n",
    b"touch": lambda _key: b"SERVER_ERROR out of memory\r\n",
}
ASKED = [b"get a\r\n", b"gets b\r\n", stored(b"c", b"1"), b"incr d 1\r\n", b"delete e\r\n", b"touch f 1\r\n", b"get g\r\n", b"get h\r\n"]


def reply_to(words):
    return REPLIES[words[0]](words[1])


@case(120)
def replies_cut_at_every_byte_are_those_of_their_own_legs(machine):
    """Eight clients have a leg each in flight over one connection. The replies come together, in two pieces, cut at each byte."""
    together = machine.fake(Together(reply_to, len(ASKED)))
    mcv = machine.mcv(one_pool([together.text]), server_timeout=20000)
    replies = [reply_to(sent.split()) for sent in ASKED]
    with contextlib.ExitStack() as kept:
        clients = [kept.enter_context(mcv.client()) for _ in ASKED]
        for place in range(len(b"".join(replies))):
            together.place = place
            for client, sent in zip(clients, ASKED):
                client.send(sent)
            for client, sent, reply in zip(clients, ASKED, replies):
                expect(client.exactly(len(reply)), reply, "the answer to %r, cut at %d" % (sent, place))
        for client in clients:
            client.ask(b"version\r\n", b"VERSION mcv 1\r\n")


def deletes_at_once(server):
    """A delete is answered before it is sent; all goes to one server."""
    route = {
        "type": "OperationSelectorRoute",
        "operation_policies": {"delete": "AllAsyncRoute|Pool|A"},
        "default_policy": "PoolRoute|A",
    }
    return {"pools": {"A": {"servers": [server]}}, "route": route}


@case()
def sets_and_deletes_of_two_clients_reach_the_server_in_the_order_of_their_answers(machine):
    """Of one key, each sent once the one before is answered, by either client. Deletes are answered at once, and the server is slow."""
    seed = random.randrange(1 << 32)
    chosen = random.Random(seed)

    def mood():
        time.sleep(chosen.uniform(0, 0.002))
        return PERFORM

    fake = machine.fake(Fake(mood))
    mcv = machine.mcv(deletes_at_once(fake.text), server_timeout=20000)
    asked = []
    with mcv.client() as one, mcv.client() as two:
        for _ in range(400):
            name = chosen.choice([b"set", b"delete", b"delete"])
            sent, wanted = (stored(b"k", b"1"), b"STORED\r\n") if name == b"set" else (b"delete k\r\n", b"NOT_FOUND\r\n")
            chosen.choice([one, two]).ask(sent, wanted)
            asked.append((name, b"k"))
        wait_for(lambda: len(fake.requests) >= len(asked), "the last delete is sent")
    expect(fake.requests == asked, True, "the server was asked in another order (seed %d)" % seed)


@case()
def what_a_server_says_unasked_ends_its_connection_and_answers_nobody(machine):
    """Behind a reply, in one piece with it, and while no leg is in flight."""
    fake = machine.fake(Fake(replies={b"get": b"END\r\n" + value_answer(b"b", b"stray"), b"delete": b"DELETED\r\nNOT_FOUND\r\n"}))
    mcv = machine.mcv(one_pool([fake.text]), server_timeout=20000)
    with mcv.client() as client:
        for turn, (sent, wanted) in enumerate([(b"get a\r\n", b"END\r\n"), (b"get b\r\n", b"END\r\n"), (b"delete c\r\n", b"DELETED\r\n")]):
            client.ask(sent, wanted)
            wait_for(lambda: not fake.connections, "the connection is closed")
            expect(fake.accepted, turn + 1, "connections")
        client.ask(stored(b"d", b"1"), b"STORED\r\n")
        fake.say(b"END\r\n")
        wait_for(lambda: not fake.connections, "the connection is closed")
        client.ask(b"get e\r\ntouch e 1\r\n", b"END\r\nTOUCHED\r\n")
    expect(pending(machine.path("mcv.spool")), [])
    expect(b"is marked" in mcv.error_text(), False, "a mark")


@case()
def an_answer_is_never_that_of_a_client_which_has_gone(machine):
    """Twenty clients ask and go, some with a reset, before their server answers. Twenty others come in their place, and ask."""
    fake = machine.fake(Late(lambda key: b"value of " + key))
    mcv = machine.mcv(one_pool([fake.text]))
    for number in range(20):
        client = mcv.client()
        client.send(b"get gone%d\r\n" % number)
        # (the server reads on only once it has answered, so what it was asked first alone is seen)
        wait_for(lambda: fake.requests, "the server is asked")
        time.sleep(0.01)
        if number % 2:
            client.close_with_reset()
        else:
            client.socket.close()
    with contextlib.ExitStack() as kept:
        clients = [kept.enter_context(mcv.client()) for _ in range(20)]
        for number, client in enumerate(clients):
            client.send(b"get k%d\r\n" % number)
        time.sleep(0.2)
        fake.goes.set()
        for number, client in enumerate(clients):
            wanted = value_answer(b"k%d" % number, b"value of k%d" % number)
            expect(client.exactly(len(wanted)), wanted, "the answer to client %d" % number)
        for client in clients:
            client.ask(b"version\r\n", b"VERSION mcv 1\r\n")
    expect(fake.accepted, 1, "connections")


@case()
def a_clients_second_request_is_asked_once_its_first_is_answered(machine):
    """Their servers are two, and that of the second would answer at once."""
    mood = [SILENCE]
    slow, quick = machine.fake(Fake(lambda: mood[0])), machine.fake(Fake())
    route = {"type": "PrefixSelectorRoute", "policies": {"slow": "PoolRoute|A"}, "wildcard": "PoolRoute|B"}
    pools = {"A": {"servers": [slow.text]}, "B": {"servers": [quick.text]}}
    mcv = machine.mcv({"pools": pools, "route": route}, hubs=2)
    with mcv.client() as client, mcv.client() as other:
        client.send(b"get slow\r\n" + stored(b"a", b"1") + b"delete a\r\nget a\r\n")
        wait_for(lambda: slow.requests, "the first server is asked")
        for number in range(20):
            other.ask(b"get b%d\r\n" % number, b"END\r\n")
        expect([key for _, key in quick.requests if key == b"a"], [], "requests that were asked before")
        slow.drop()
        wanted = FAILED + b"STORED\r\nDELETED\r\nEND\r\n"
        expect(client.exactly(len(wanted)), wanted, "the answers, in order")
    expect([name for name, key in quick.requests if key == b"a"], [b"set", b"delete", b"get"])


# What may be answered beside values, by the first word of a request.
ENDS = {
    b"get": {b"END\r\n"},
    b"set": {b"STORED\r\n"},
    b"touch": {b"TOUCHED\r\n"},
    b"delete": {b"DELETED\r\n", b"NOT_FOUND\r\n"},
}
TROUBLE = {FAILED, b"SERVER_ERROR not now\r\n"}


def own_answer(client, name, keys):
    """Reads an answer, and sees that it is one to this request: each value is that of one of the keys, each key's once at most."""
    left = list(keys)
    while True:
        line = client.line()
        if not line.startswith(b"VALUE "):
            break
        key, length = line.split()[1], int(line.split()[3])
        expect(key in left, True, "%r is answered by a value of %r" % ((name, keys), key))
        left.remove(key)
        expect(client.exactly(length + 2), b"value of " + key + b"\r\n", "the value of %r" % key)
    expect(line in ENDS[name] or (line in TROUBLE and name != b"delete"), True, "%r is answered by %r" % ((name, keys), line))


def asking(mcv, name, chosen, end, faults):
    """Asks, in rows of up to twenty requests, and reads the answers."""
    number = 0
    try:
        with mcv.client() as client:
            while time.monotonic() < end:
                asked, text = [], b""
                for _ in range(chosen.randrange(1, 20)):
                    word = chosen.choice([b"get", b"get", b"set", b"touch", b"delete"])
                    count = chosen.choice([1, 1, 5]) if word == b"get" else 1
                    keys = [b"%s.%d" % (name, number + k) for k in range(count)]
                    number += count
                    asked.append((word, keys))
                    more = {b"get": b" ".join(keys) + b"\r\n", b"touch": keys[0] + b" 0\r\n", b"delete": keys[0] + b"\r\n"}
                    text += stored(keys[0], b"x" * chosen.choice([1, 5000])) if word == b"set" else word + b" " + more[word]
                client.send(text)
                for word, keys in asked:
                    own_answer(client, word, keys)
            client.ask(b"version\r\n", b"VERSION mcv 1\r\n")
    except Exception as fault:
        faults.append("%s: %r" % (name.decode(), fault))


@case(120)
def each_client_has_its_own_answers_from_servers_that_break_at_random(machine):
    """Connections break before, in and behind replies, with many legs in flight over each, of 24 clients at two hubs."""
    seed = random.randrange(1 << 32)
    chosen = random.Random(seed)
    moods = [PERFORM, REFUSE, DROP, PERFORM_AND_DROP, BREAK_OFF]

    def mood():
        return chosen.choices(moods, [95, 2, 1, 1, 1])[0]

    servers = [machine.fake(Fake(mood, values=lambda key: b"value of " + key)) for _ in range(3)]
    mcv = machine.mcv(one_pool([server.text for server in servers]), hubs=2, server_timeout=20000)
    faults, end = [], time.monotonic() + 10
    threads = [threading.Thread(target=asking, args=(mcv, b"c%d" % n, random.Random(seed + n), end, faults)) for n in range(24)]
    for thread in threads:
        thread.start()
    for thread in threads:
        thread.join()
    expect(faults, [], "(seed %d)" % seed)
    expect(all(len(server.requests) > 1000 and server.accepted > 10 for server in servers), True, "requests, and connections that broke")
    expect(mcv.process.poll(), None, "the program's status")
