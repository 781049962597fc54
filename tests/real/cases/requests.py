"""What is answered to bytes: the same as memcached answers, or where docs/PROTOCOL.md says otherwise what it says."""
from parts import answer, case, deletes_to_all, expect, Failed, index_of, one_pool, shown, stored, value_answer

LONGEST_KEY = b"k" * 250
BIGGEST = 1048576
OUT_OF_MEMORY = b"SERVER_ERROR out of memory\r\n"

# Each is sent over a connection of its own, in this order, to memcached and to mcv.
AS_MEMCACHED = [
    b"get a\r\n",
    b"set a 5 0 3\r\nxyz\r\nget a\r\n",
    b"get a\n",
    b"gets a\r\n",
    b"  get   a  \r\n",
    b"set empty 0 0 0\r\n\r\nget empty\r\n",
    b"set ends 0 0 4\r\nx\r\ny\r\nget ends\r\n",
    b"set ends 0 0 10\r\nEND\r\nEND\r\n\r\nget ends\r\n",
    b"set a 4294967295 0 1\r\nm\r\nget a\r\n",
    b"set a 007 0 01\r\nz\r\nget a\r\n",
    b"add a 0 0 1\r\nn\r\nadd b 1 0 1\r\nn\r\nget a b\r\n",
    b"replace c 0 0 1\r\nn\r\nreplace b 2 0 2\r\nnn\r\nget b c\r\n",
    b"append b 9 9 2\r\n>>\r\nprepend b 9 9 2\r\n<<\r\nget b\r\nappend c 0 0 1\r\nx\r\nprepend c 0 0 1\r\nx\r\n",
    b"gets b a c\r\n",
    b"cas c 0 0 1 1\r\nx\r\n",
    b"cas b 0 0 1 1\r\nx\r\nget b\r\n",
    b"set d 0 0 1\r\nd\r\ngets d\r\n",
    b"cas d 0 0 1 18446744073709551615\r\nx\r\nget d\r\n",
    b"touch d 0\r\ntouch nothing 0\r\nget d\r\n",
    b"touch d -1\r\nget d\r\n",
    b"set e 0 -1 1\r\ne\r\nget e\r\n",
    b"set e 0 1000 1\r\ne\r\nget e\r\n",
    b"delete a\r\ndelete a\r\nget a\r\n",
    b"delete b 0\r\nget b\r\n",
    b"set a 0 0 1 noreply\r\n1\r\nget a\r\n",
    b"add n 0 0 1 noreply\r\n1\r\nappend n 0 0 1 noreply\r\n2\r\nprepend n 0 0 1 noreply\r\n0\r\nget n\r\n",
    b"replace n 0 0 1 noreply\r\nr\r\nget n\r\ncas n 0 0 1 1 noreply\r\nc\r\nget n\r\ntouch n 0 noreply\r\nget n\r\n",
    b"delete n noreply\r\nget n\r\ndelete a 0 noreply\r\nget a\r\n",
    b"get a a e e nothing e\r\n",
    b"set \xff\x80 0 0 1\r\nu\r\nget \xff\x80\r\n",
    b"set a|#|b 0 0 1\r\nh\r\nget a|#|b\r\n",
    b"set count 0 0 2\r\n10\r\nincr count 5\r\ndecr count 6\r\nget count\r\ndecr count 20\r\nget count\r\n",
    b"incr count 05\r\nincr count 0\r\nincr count 1 noreply\r\ndecr count 2 noreply\r\nget count\r\n",
    b"set count 0 0 20\r\n18446744073709551615\r\nincr count 1\r\nget count\r\nincr count 18446744073709551615\r\n",
    b"incr nothing 1\r\ndecr nothing 1\r\n",
    b"set word 0 0 1\r\nx\r\nincr word 1\r\ndecr word 1\r\nget word\r\n",
    stored(LONGEST_KEY, b"long") + b"get " + LONGEST_KEY + b"\r\ndelete " + LONGEST_KEY + b"\r\n",
    b"\r\n",
    b"nonsense\r\nget e\r\n",
    b"GET e\r\n",
    b"get e\r\nquit\r\nget e\r\n",
    b"set half 0 0 5\r\nabc",
    b"get half",
    stored(b"big", bytes(range(256)) * (BIGGEST // 256)) + b"get big\r\n",
    b"get big e big\r\n",
    b"delete big\r\nget big\r\n",
]

# Where docs/PROTOCOL.md says another answer than memcached's; after the refusals 2 and 3 nothing more is read.
AS_THE_PAGE_SAYS = [
    (b"version\r\n", b"VERSION mcv 1\r\n"),
    (b"gat 0 e\r\nget nothing\r\n", b"ERROR\r\nEND\r\n"),
    (b"get\r\nget e\r\n", b"CLIENT_ERROR bad command line\r\n"),
    (b"get k" + LONGEST_KEY + b"\r\nget e\r\n", b"CLIENT_ERROR bad command line\r\n"),
    (b"get " + b"k" * 65533 + b"\r\nget e\r\n", b"CLIENT_ERROR bad command line\r\n"),
    (b"delete e 1\r\nget e\r\n", b"CLIENT_ERROR bad command line\r\n"),
    (b"set e 0 0 1 foo\r\nx\r\n", b"CLIENT_ERROR bad command line\r\n"),
    (b"set e -1 0 1\r\nx\r\n", b"CLIENT_ERROR bad command line\r\n"),
    (b"set e 0 0 -1\r\nx\r\n", b"CLIENT_ERROR bad command line\r\n"),
    (b"set e 4294967296 0 1\r\nx\r\n", b"CLIENT_ERROR bad command line\r\n"),
    (b"cas e 0 0 1 18446744073709551616\r\nx\r\n", b"CLIENT_ERROR bad command line\r\n"),
    (b"touch e x\r\nget e\r\n", b"CLIENT_ERROR bad command line\r\n"),
    (b"incr e\r\nget e\r\n", b"CLIENT_ERROR bad command line\r\n"),
    (b"incr e x\r\nget e\r\n", b"CLIENT_ERROR bad command line\r\n"),
    (b"incr e -1\r\nget e\r\n", b"CLIENT_ERROR bad command line\r\n"),
    (b"incr e +1\r\nget e\r\n", b"CLIENT_ERROR bad command line\r\n"),
    (b"incr e 1 2\r\nget e\r\n", b"CLIENT_ERROR bad command line\r\n"),
    (b"decr e 18446744073709551616\r\nget e\r\n", b"CLIENT_ERROR bad command line\r\n"),
    (b"get \x7f\r\nget e\r\n", b"CLIENT_ERROR bad command line\r\n"),
    (b"set e 0 0 1\r\nxyz\r\nget e\r\n", b"CLIENT_ERROR bad data chunk\r\n"),
    (b"set e 0 0 1\r\nx\nget e\r\n", b"CLIENT_ERROR bad data chunk\r\n"),
    (b"set big 0 0 1048577\r\n" + b"x" * 1048577 + b"\r\nget nothing\r\n", b"SERVER_ERROR value too large\r\nEND\r\n"),
    (b"set big 0 0 1048577 noreply\r\n" + b"x" * 1048577 + b"\r\nget nothing\r\n", b"SERVER_ERROR value too large\r\nEND\r\n"),
]


def get_of(keys):
    return b"get " + b" ".join(keys) + b"\r\n"


def compare(text, rows):
    for sent, wanted in rows:
        expect(answer(text, sent), wanted, "the answer to " + shown(sent))


@case()
def each_request_is_answered_as_memcached_answers_it(machine):
    plain, behind = machine.servers(2)
    mcv = machine.mcv(one_pool([behind]))
    for sent in AS_MEMCACHED:
        expect(answer(mcv.address, sent), answer(plain, sent), "the answer to " + shown(sent))


@case()
def other_answers_are_those_of_the_page(machine):
    mcv = machine.mcv(one_pool(machine.servers(1)))
    compare(mcv.address, AS_THE_PAGE_SAYS)


@case()
def requests_cut_at_every_byte_are_answered_alike(machine):
    mcv = machine.mcv(one_pool(machine.servers(1)))
    sent = b"set a 0 0 4\r\n\r\n\r\n\r\nget a\r\ndelete a\r\nget a\r\n"
    wanted = b"STORED\r\n" + value_answer(b"a", b"\r\n\r\n") + b"DELETED\r\nEND\r\n"
    with mcv.client() as client:
        for place in range(1, len(sent)):
            client.send(sent[:place])
            client.ask(sent[place:], wanted)


@case()
def requests_sent_together_are_answered_in_order(machine):
    mcv = machine.mcv(one_pool(machine.servers(2)))
    sent = b"".join(stored(b"k%d" % n, b"value %d" % n) for n in range(2000))
    sent += b"".join(b"get k%d\r\n" % n for n in range(2000))
    wanted = b"STORED\r\n" * 2000 + b"".join(value_answer(b"k%d" % n, b"value %d" % n) for n in range(2000))
    with mcv.client() as client:
        client.ask(sent, wanted)


@case()
def a_get_of_a_thousand_keys(machine):
    mcv = machine.mcv(one_pool(machine.servers(4)))
    keys = [b"key-%d-%s" % (n, b"x" * (n % 50)) for n in range(1000)]
    with mcv.client() as client:
        client.ask(b"".join(stored(key, key) for key in keys), b"STORED\r\n" * 1000)
        values = b"".join(b"VALUE %s 0 %d\r\n%s\r\n" % (key, len(key), key) for key in keys)
        for _ in range(3):
            client.ask(b"get " + b" ".join(keys) + b"\r\n", values + b"END\r\n")
        client.ask(b"get " + b" ".join(b"not-" + key for key in keys) + b"\r\n", b"END\r\n")


@case()
def an_answer_past_its_limit_is_refused_and_others_are_whole(machine):
    """Values of 10,000 bytes, of which an answer may have 100,000: twelve are too much for one, also where they are of two hubs, six of
    each."""
    keys, value = [b"k%d" % n for n in range(20)], b"x" * 10000
    five = b"".join(b"VALUE %s 0 %d\r\n%s\r\n" % (key, len(value), value) for key in keys[:5]) + b"END\r\n"
    expect(sorted(index_of(key, 2) for key in keys[:12]), [0] * 6 + [1] * 6, "hubs of twelve keys")
    for hubs in (1, 2):
        spool = machine.path("spool.%d" % hubs)
        mcv = machine.mcv(one_pool(machine.servers(2)), spool=spool, hubs=hubs, answer_bytes=100_000)
        with mcv.client() as client:
            for key in keys:
                client.ask(stored(key, value), b"STORED\r\n")
            for _ in range(3):
                client.ask(get_of(keys), OUT_OF_MEMORY)
                client.ask(get_of(keys[:5]), five)
                client.ask(get_of(keys[:12]), OUT_OF_MEMORY)
                client.ask(get_of(b"not-" + key for key in keys), b"END\r\n")
            client.send(get_of(keys) + get_of(keys[:5]) + b"quit\r\n")
            expect(client.rest(), OUT_OF_MEMORY + five, "all that is answered to what was sent together")


@case()
def the_biggest_value_goes_through_and_one_byte_more_is_refused(machine):
    mcv = machine.mcv(one_pool(machine.servers(1)))
    value = bytes(range(256)) * 4096
    with mcv.client() as client:
        for _ in range(5):
            client.ask(stored(b"big", value), b"STORED\r\n")
            client.ask(b"get big\r\n", value_answer(b"big", value))
        client.ask(stored(b"big", value + b"x"), b"SERVER_ERROR value too large\r\n")
        client.ask(b"get big\r\n", value_answer(b"big", value))
        client.ask(b"append big 0 0 1\r\nx\r\n", b"STORED\r\n")
        # The server's value is now over the limit of a reply: the leg is lost.
        client.ask(b"get big\r\n", b"SERVER_ERROR destination failed\r\n")
        client.ask(stored(b"small", b"s") + b"get small\r\n", b"STORED\r\n" + value_answer(b"small", b"s"))


@case()
def keys_go_to_the_server_of_their_hash(machine):
    servers = machine.servers(2)
    mcv = machine.mcv(one_pool(servers))
    keys = [b"key%d" % n for n in range(40)]
    with mcv.client() as client:
        client.ask(b"".join(stored(key, b"v") for key in keys), b"STORED\r\n" * 40)
        client.ask(b"get " + b" ".join(keys) + b"\r\n", b"".join(b"VALUE %s 0 1\r\nv\r\n" % key for key in keys) + b"END\r\n")
    for key in keys:
        for place, server in enumerate(servers):
            wanted = value_answer(key, b"v") if place == index_of(key, 2) else b"END\r\n"
            expect(answer(server, b"get " + key + b"\r\n"), wanted, "at server %d, %s" % (place, key))


@case()
def a_delete_to_all_reaches_each_server(machine):
    servers = machine.servers(4)
    mcv = machine.mcv(deletes_to_all(servers))
    with mcv.client() as client:
        for n in range(50):
            key = b"k%d" % n
            for server in servers:
                expect(answer(server, stored(key, b"old")), b"STORED\r\n")
            client.ask(b"delete " + key + b"\r\n", b"DELETED\r\n")
            for server in servers:
                expect(answer(server, b"get " + key + b"\r\n"), b"END\r\n", "after the delete")
        # One server hasn't the key, so the worst reply is NOT_FOUND, and the others have deleted it all the same.
        expect(answer(servers[2], stored(b"one", b"old")), b"STORED\r\n")
        client.ask(b"delete one\r\n", b"NOT_FOUND\r\n")
        expect(answer(servers[2], b"get one\r\n"), b"END\r\n")


@case()
def routing_prefixes_pick_the_route_and_are_taken_off(machine):
    first, second = machine.servers(2)
    routes = [{"aliases": ["/././", "/a/a/"], "route": "PoolRoute|A"}, {"aliases": ["/b/b/"], "route": "PoolRoute|B"}]
    mcv = machine.mcv({"pools": {"A": {"servers": [first]}, "B": {"servers": [second]}}, "routes": routes})
    with mcv.client() as client:
        client.ask(stored(b"/a/a/k", b"1") + stored(b"/b/b/k", b"2") + stored(b"plain", b"3"), b"STORED\r\n" * 3)
        client.ask(b"get k\r\n", value_answer(b"k", b"1"))
        client.ask(b"get /././k /b/b/k\r\n", b"VALUE /././k 0 1\r\n1\r\nVALUE /b/b/k 0 1\r\n2\r\nEND\r\n")
        client.ask(b"get /c/c/k\r\n", b"SERVER_ERROR no route\r\n")
        client.ask(b"delete /c/c/k\r\nget k\r\n", b"SERVER_ERROR no route\r\n" + value_answer(b"k", b"1"))
        client.ask(b"get /a/a/\r\n", b"CLIENT_ERROR bad key\r\n")
        client.ask(b"delete /b/b/k\r\nget /b/b/k k\r\n", b"DELETED\r\nVALUE k 0 1\r\n1\r\nEND\r\n")
    expect(answer(first, b"get k plain /a/a/k\r\n"), b"VALUE k 0 1\r\n1\r\nVALUE plain 0 1\r\n3\r\nEND\r\n")
    expect(answer(second, b"get k /b/b/k\r\n"), b"END\r\n")


@case()
def one_session_asks_more_than_a_chapter_of_the_history_holds(machine):
    """1,000,000 entries, five for a get of one server (docs/LIMITS.md)."""
    mcv = machine.mcv(one_pool(machine.servers(1)))
    one = value_answer(b"a", b"1")
    with mcv.client() as client:
        client.ask(stored(b"a", b"1"), b"STORED\r\n")
        for n in range(0, 230_000, 1000):
            client.send(b"get a\r\n" * 1000)
            for k in range(n, n + 1000):
                line = client.line()
                if line != b"VALUE a 0 1\r\n":
                    raise Failed("get %d is answered %s" % (k, shown(line)))
                client.exactly(len(one) - len(line))
