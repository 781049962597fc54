"""What an operator asks over HTTP: health, and an end in order, which loses no delete that was answered."""
import functools
import http.client
import random
import subprocess
import threading
import time

from cases.servers import FAILED, lift_limit, spool_two, with_room_for_two
from cases.stops import CLIENTS, deleting, missing
from fakes import PERFORM, SILENCE, Fake, Late
from parts import LIMIT, UNLIMITED, Client, Failed, address_of, case, expect, free_port, one_pool, pending, stored, value_answer, wait_for

DRAINS, DRAINS_OF_A_FILE = 200, 5
# So many deletes at least were answered and aren't performed when a drain is asked for.
UNDER_WAY = 10
TEXT = "text/plain; charset=utf-8"


def admin_address():
    return "127.0.0.1:%d" % free_port()


def asked(admin, method, target):
    """Status and body of what is answered to a request."""
    connection = http.client.HTTPConnection(*address_of(admin), timeout=LIMIT)
    try:
        connection.request(method, target)
        response = connection.getresponse()
        body = response.read()
        expect(response.getheader("Content-Type"), TEXT, "a type")
        expect(response.getheader("Content-Length"), str(len(body)), "a length")
        return response.status, body
    finally:
        connection.close()


def raw(admin, sent):
    """The first line that is answered to these bytes."""
    with Client(admin) as client:
        client.send(sent)
        return client.line()


def is_refused(mcv):
    """Whether a connection is refused."""
    try:
        with mcv.client():
            return False
    except ConnectionRefusedError:
        return True


def deletes_asynchronously(servers):
    """A delete is answered at once, and sent to all servers of the pool; anything else goes to the one of its key."""
    route = {
        "type": "OperationSelectorRoute",
        "operation_policies": {"delete": "AllAsyncRoute|Pool|A"},
        "default_policy": "PoolRoute|A",
    }
    return {"pools": {"A": {"servers": servers}}, "route": route}


@case()
def an_operator_asks_for_health(machine):
    admin = admin_address()
    mcv = machine.mcv(one_pool(machine.servers(1)), admin=admin)
    for _ in range(3):
        expect(asked(admin, "GET", "/health"), (200, b"ok\n"))
    expect(asked(admin, "GET", "/health?now"), (200, b"ok\n"))
    expect(asked(admin, "GET", "/"), (404, b"not found\n"))
    expect(asked(admin, "POST", "/health"), (405, b"method not allowed\n"))
    expect(asked(admin, "GET", "/drain"), (405, b"method not allowed\n"))
    expect(asked(admin, "POST", "/drain?seconds=x"), (400, b"bad request\n"))
    expect(raw(admin, b"delete a\r\n\r\n"), b"HTTP/1.1 400 Bad Request\r\n")
    expect(raw(admin, b"GET /health HTTP/1.1\r\nX: " + b"x" * 8192), b"HTTP/1.1 431 Request Header Fields Too Large\r\n")
    shown = subprocess.run(["curl", "-sS", "-i", "http://%s/health" % admin], capture_output=True, timeout=LIMIT)
    expect((shown.returncode, shown.stderr), (0, b""), "curl")
    expect(shown.stdout.split(b"\r\n")[0], b"HTTP/1.1 200 OK")
    with mcv.client() as client:
        client.ask(b"get a\r\n", b"END\r\n")
    expect(mcv.error_text(), UNLIMITED)


@case()
def an_operator_who_says_nothing_keeps_no_other_waiting(machine):
    """A connection has five seconds."""
    admin = admin_address()
    machine.mcv(one_pool(machine.servers(1)), admin=admin)
    with Client(admin) as silent, Client(admin) as slow:
        slow.send(b"GET /health HTTP/1.1\r\n")
        began = time.monotonic()
        expect(asked(admin, "GET", "/health"), (200, b"ok\n"))
        expect(time.monotonic() - began < 20, True, "seconds")
        expect((silent.rest(), slow.rest()), (b"", b""))


@case()
def a_spool_that_refuses_is_no_health(machine):
    admin = admin_address()
    mcv = with_room_for_two(machine, admin=admin)
    with mcv.client() as client:
        spool_two(client)
        expect(asked(admin, "GET", "/health"), (200, b"ok\n"))
        client.ask(b"delete c\r\n", FAILED)
        wait_for(lambda: asked(admin, "GET", "/health") == (503, b"the spool refuses records\n"), "the spool is said to refuse")
        lift_limit(machine, mcv)
        wait_for(lambda: asked(admin, "GET", "/health") == (200, b"ok\n"), "the spool takes records again")


@case()
def idle_clients_are_closed_and_none_is_accepted(machine):
    admin = admin_address()
    mcv = machine.mcv(one_pool(machine.servers(1)), admin=admin)
    with mcv.client() as idle, mcv.client() as other:
        idle.ask(stored(b"a", b"1"), b"STORED\r\n")
        other.send(b"get a")
        expect(asked(admin, "POST", "/drain"), (200, b"draining\n"))
        expect((idle.rest(), other.rest().replace(b"<reset>", b"")), (b"", b""))
    expect(mcv.last_lines(), (b"mcv closed calls 1\n", 0))
    expect(mcv.error_text(), UNLIMITED + b"mcv: a drain began: 30 seconds\nmcv: a drain ended\n")
    expect(is_refused(mcv), True, "no further client is accepted")


@case()
def a_request_under_way_is_answered(machine):
    """The server is asked before the drain and answers behind it. Meanwhile the proxy says that it drains."""
    admin, server = admin_address(), machine.fake(Late())
    mcv = machine.mcv(one_pool([server.text]), admin=admin)
    with mcv.client() as client, mcv.client() as idle:
        client.send(b"delete a\r\n")
        wait_for(lambda: server.requests, "the server is asked")
        expect(asked(admin, "POST", "/drain?seconds=20"), (200, b"draining\n"))
        expect(idle.rest(), b"")
        expect(asked(admin, "GET", "/health"), (503, b"draining\n"))
        wait_for(lambda: is_refused(mcv), "no further client is accepted")
        expect(asked(admin, "POST", "/drain?seconds=25"), (200, b"draining\n"))
        server.goes.set()
        expect(client.rest(), b"DELETED\r\n")
    expect(mcv.last_lines(), (b"mcv closed calls 1\n", 0))
    expect(mcv.error_text(), UNLIMITED + b"mcv: a drain began: 20 seconds\nmcv: a drain ended\n")
    expect(server.performed, {b"a"})


@case()
def what_isnt_sent_in_time_goes_to_the_spool(machine):
    """A server takes a tenth of a second for a delete, so that it has ten of a hundred within a second."""
    admin, spool = admin_address(), machine.path("mcv.spool")

    def mood():
        time.sleep(0.1)
        return PERFORM

    server = machine.fake(Fake(mood))
    mcv = machine.mcv(deletes_asynchronously([server.text]), spool=spool, admin=admin, server_timeout=5000)
    keys = [b"k%d" % n for n in range(100)]
    with mcv.client() as client:
        client.ask(b"".join(b"delete " + key + b"\r\n" for key in keys), b"NOT_FOUND\r\n" * len(keys))
    began = time.monotonic()
    expect(asked(admin, "POST", "/drain?seconds=1"), (200, b"draining\n"))
    expect(mcv.last_lines(), (b"mcv closed calls 100\n", 0))
    expect(time.monotonic() - began < 8, True, "seconds")
    kept = {rest for _, rest in pending(spool)}
    expect([key for key in keys if key not in server.performed and key not in kept], [], "deletes that are lost")
    expect(len(kept) > 50, True, "%d records" % len(kept))


@case()
def a_drain_ends_where_the_spool_refuses(machine):
    """What the spool refused was answered by an error, and goes with the process, which says how many these are."""
    admin, spool = admin_address(), machine.path("mcv.spool")
    mcv = with_room_for_two(machine, spool=spool, admin=admin)
    with mcv.client() as client:
        spool_two(client)
        client.ask(b"delete c\r\ndelete d\r\n", FAILED + FAILED)
    expect(asked(admin, "POST", "/drain?seconds=1"), (200, b"draining\n"))
    expect(mcv.last_lines(), (b"mcv closed calls 4\n", 0))
    expect(mcv.error_text().splitlines()[-1], b"mcv: a drain ended: 2 legs left")
    expect([rest for _, rest in pending(spool)], [b"a", b"b"])


def deletes_everywhere(servers):
    """Gets go on from one server that is away to the next."""
    names = ["P%d" % n for n in range(len(servers))]
    children = ["PoolRoute|" + name for name in names]
    return {"pools": {name: {"servers": [server]} for name, server in zip(names, servers)}, "route": {
        "type": "OperationSelectorRoute",
        "operation_policies": {"delete": {"type": "AllSyncRoute", "children": children}},
        "default_policy": {"type": "FailoverRoute", "children": children},
    }}


@case()
def the_end_of_a_drain_is_said_behind_many_lines(machine):
    """Twelve servers are marked at once, so that their second has no place for more lines. None is lost without a count."""
    admin = admin_address()
    mcv = machine.mcv(deletes_everywhere(["127.0.0.1:%d" % free_port() for _ in range(12)]), admin=admin, server_timeout=5000)
    with mcv.client() as client:
        for _ in range(3):
            client.ask(b"get a\r\n", FAILED)
    expect(asked(admin, "POST", "/drain"), (200, b"draining\n"))
    expect(mcv.last_lines(), (b"mcv closed calls 3\n", 0))
    lines = mcv.error_text().splitlines()
    expect(lines[-1], b"mcv: a drain ended")
    more = [line for line in lines if line.endswith(b" lines more in a second")]
    expect(len(lines) - len(more) + sum(int(line.split()[1]) for line in more), 14, "lines of twelve marks and a drain")


@case()
def a_leg_in_flight_has_the_time_of_the_drain(machine):
    """Its server never answers, and has no time of its own: the drain's end puts its delete into the spool, and who waits for a get
    has an error."""
    for seconds in (0, 1):
        admin, spool = admin_address(), machine.path("mcv.spool.%d" % seconds)
        server = machine.fake(Fake(lambda: SILENCE))
        mcv = machine.mcv(deletes_asynchronously([server.text]), spool=spool, admin=admin)
        with mcv.client() as client, mcv.client() as waits:
            client.ask(b"delete a\r\n", b"NOT_FOUND\r\n")
            waits.send(b"get b\r\n")
            wait_for(lambda: len(server.requests) == 2, "the server is asked")
            began = time.monotonic()
            expect(asked(admin, "POST", "/drain?seconds=%d" % seconds), (200, b"draining\n"))
            expect((client.rest(), waits.rest()), (b"", FAILED))
        expect(mcv.last_lines(), (b"mcv closed calls 2\n", 0))
        expect(seconds <= time.monotonic() - began < seconds + 5, True, "seconds")
        expect([rest for _, rest in pending(spool)], [b"a"])


@case()
def a_client_that_takes_nothing_keeps_no_drain(machine):
    """It has asked for more than the system keeps for it. Another one is told the answer that it waits for."""
    admin = admin_address()
    mcv = machine.mcv(one_pool(machine.servers(1)), admin=admin, server_timeout=20000)
    with mcv.client() as deaf, mcv.client() as client:
        client.ask(stored(b"big", b"x" * 1000000), b"STORED\r\n")
        deaf.send(b"get big\r\n" * 50)
        client.ask(b"get a\r\n" * 100, b"END\r\n" * 100)
        began = time.monotonic()
        expect(asked(admin, "POST", "/drain?seconds=1"), (200, b"draining\n"))
        expect(client.rest(), b"")
        printed, status = mcv.last_lines()
        expect((printed.split(b" ")[:3], status), ([b"mcv", b"closed", b"calls"], 0))
        expect(time.monotonic() - began < 8, True, "seconds")
        expect(len(deaf.rest()) < 50 * 1000000, True, "a client that reads nothing has all its answers")
    expect(mcv.error_text(), b"mcv: a drain began: 1 seconds\nmcv: a drain ended\n")


@case()
def a_request_that_was_read_before_a_drain_is_answered_whole(machine):
    """A get of many keys, whose server answers behind the drain's begin."""
    admin, server = admin_address(), machine.fake(Late(lambda key: b"of " + key))
    mcv = machine.mcv(one_pool([server.text]), admin=admin, server_timeout=20000)
    keys = [b"k%d" % n for n in range(300)]
    wanted = b"".join(value_answer(key, b"of " + key)[:-5] for key in keys) + b"END\r\n"
    with mcv.client() as client:
        client.send(b"get " + b" ".join(keys) + b"\r\n")
        wait_for(lambda: server.requests, "the server is asked")
        expect(asked(admin, "POST", "/drain?seconds=20"), (200, b"draining\n"))
        server.goes.set()
        expect(client.rest(), wanted)
    expect(mcv.last_lines(), (b"mcv closed calls 300\n", 0))


def under_way(acknowledged, servers):
    """How many deletes that were answered aren't performed yet."""
    return sum(key not in server.performed for server in servers for key in list(acknowledged))


def slow_servers(machine, chosen):
    """Three servers that take two milliseconds for a request, more or less."""
    def mood():
        time.sleep(chosen.uniform(0, 0.004))
        return PERFORM

    return [machine.fake(Fake(mood)) for _ in range(3)]


def loaded(mcv, turn, servers, chosen, end):
    """Deletes of several clients, which this ends at a random moment, once some that were answered are under way: the keys of
    those that were answered."""
    acknowledged = []
    threads = [threading.Thread(target=deleting, args=(mcv, b"%d.%d" % (turn, n), acknowledged, 0.004)) for n in range(CLIENTS)]
    for thread in threads:
        thread.start()
    time.sleep(chosen.uniform(0, 0.05))
    wait_for(lambda: under_way(acknowledged, servers) >= UNDER_WAY, "deletes are under way")
    end()
    for thread in threads:
        thread.join()
    return acknowledged


def drained(admin, seconds):
    expect(asked(admin, "POST", "/drain?seconds=%d" % seconds), (200, b"draining\n"))


@case()
def a_kill_in_place_of_a_drain_loses_answered_deletes(machine):
    """What the drains below are looked through for is seen where it is there."""
    chosen, spool = random.Random(4), machine.path("mcv.spool")
    servers = slow_servers(machine, chosen)
    mcv = machine.mcv(deletes_asynchronously([server.text for server in servers]), spool=spool, server_timeout=5000)
    every = loaded(mcv, 0, servers, chosen, mcv.kill)
    expect(list(missing(every, servers, spool)) != [], True, "deletes that are lost")


@case(600)
def two_hundred_drains_lose_no_answered_delete(machine):
    """Clients under load, deletes that are answered before they are sent, and servers that are slow: what was answered is
    performed or in the file. At each drain some are under way. Five drains have one file."""
    seed = random.randrange(1 << 32)
    chosen, admin = random.Random(seed), admin_address()
    servers = slow_servers(machine, chosen)
    config = deletes_asynchronously([server.text for server in servers])
    for turn in range(DRAINS):
        if turn % DRAINS_OF_A_FILE == 0:
            every, spool = [], machine.path("mcv.spool.%d" % turn)
        mcv = machine.mcv(config, spool=spool, admin=admin, server_timeout=5000, hubs=1 + turn % 3)
        every += loaded(mcv, turn, servers, chosen, functools.partial(drained, admin, chosen.choice([0, 0, 1])))
        lines, status = mcv.last_lines()
        expect((lines.split(b" ")[:3], status), ([b"mcv", b"closed", b"calls"], 0), "drain %d (seed %d)" % (turn, seed))
        lost = list(missing(every, servers, spool))
        if lost:
            raise Failed("after drain %d (seed %d) %d of %d are lost, as %r" % (turn, seed, len(lost), len(every), lost[0]))
