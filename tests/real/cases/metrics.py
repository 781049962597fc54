"""What an operator is shown of what happened, in Prometheus' format."""
import contextlib
import http.client
import subprocess

from cases.crowds import TOO_MANY
from cases.flights import FLIGHTS
from cases.drains import admin_address, deletes_asynchronously
from cases.servers import FAILED, lift_limit, spool_two, with_room_for_two
from fakes import DROP, PERFORM, SILENCE, Fake, Late, moody
from parts import LIMIT, address_of, case, expect, free_port, index_of, one_pool, stored, wait_for

TYPE = "text/plain; version=0.0.4; charset=utf-8"


def text(admin):
    """The lines that are shown."""
    connection = http.client.HTTPConnection(*address_of(admin), timeout=LIMIT)
    try:
        connection.request("GET", "/metrics")
        response = connection.getresponse()
        body = response.read().decode()
        expect((response.status, response.getheader("Content-Type")), (200, TYPE))
        expect(response.getheader("Content-Length"), str(len(body)), "a length")
        return body
    finally:
        connection.close()


def shown(admin):
    """The value of each sample."""
    lines = (line.rsplit(" ", 1) for line in text(admin).splitlines() if not line.startswith("#"))
    return {sample: int(value) for sample, value in lines}


def legs(admin, server):
    """How many legs a server was sent, how many of them were lost, and how many hubs have marked it."""
    every = shown(admin)
    return tuple(every['%s{server="%s"}' % (name, server)] for name in ("mcv_legs_sent_total", "mcv_legs_lost_total", "mcv_server_marked"))


@case()
def promtool_reads_the_metrics(machine):
    admin = admin_address()
    machine.mcv(one_pool(machine.servers(3)), admin=admin, hubs=2)
    checked = subprocess.run(["promtool", "check", "metrics"], input=text(admin).encode(), capture_output=True, timeout=LIMIT)
    expect((checked.returncode, checked.stdout + checked.stderr), (0, b""), "promtool")
    fetched = subprocess.run(["curl", "-sS", "http://%s/metrics" % admin], capture_output=True, timeout=LIMIT)
    expect((fetched.returncode, fetched.stderr), (0, b""), "curl")
    expect('mcv_build_info{version="1"} 1' in fetched.stdout.decode().splitlines(), True, "a version")


@case()
def legs_are_those_that_the_servers_saw(machine):
    """The servers count what they were asked; a connection that breaks behind a store loses its leg."""
    admin, mood = admin_address(), [PERFORM]
    servers = [machine.fake(Fake(lambda: mood[0])) for _ in range(2)]
    mcv = machine.mcv(one_pool([server.text for server in servers]), admin=admin, hubs=3)
    expect([legs(admin, server.text) for server in servers], [(0, 0, 0)] * 2)
    with contextlib.ExitStack() as kept:
        clients = [kept.enter_context(mcv.client()) for _ in range(6)]
        for n in range(20):
            for client in clients:
                client.ask(b"get k%d\r\ndelete k%d\r\n" % (n, n), b"END\r\nDELETED\r\n")
        expect([legs(admin, server.text) for server in servers], [(len(server.requests), 0, 0) for server in servers])
        expect(sum(legs(admin, server.text)[0] for server in servers), 240, "legs")
        mood[0] = DROP
        lost = sum(client_failed(client, b"s%d" % n) for n, client in enumerate(clients))
        expect(sum(legs(admin, server.text)[1] for server in servers), lost, "legs that are lost")
        expect(lost, 6)


def client_failed(client, key):
    """1, where a store isn't answered by a server."""
    client.ask(stored(key, b"1"), FAILED)
    return 1


def waiting(admin, servers):
    """How many legs wait for each of these servers."""
    every = shown(admin)
    return [every['mcv_legs_waiting{server="%s"}' % server.text] for server in servers]


@case()
def legs_that_wait_are_shown(machine):
    """A server doesn't answer: of 400 deletes 64 of each hub are in flight, and the others wait until its time is over. It answers
    the next ones."""
    keys = [b"k%d" % n for n in range(400)]
    for hubs in (1, 2):
        mood = [SILENCE]
        admin, servers = admin_address(), [machine.fake(Fake(lambda: mood[0])), machine.fake(Fake())]
        config = deletes_asynchronously([server.text for server in servers])
        mcv = machine.mcv(config, spool=machine.path("spool.%d" % hubs), admin=admin, server_timeout=4000, hubs=hubs)
        expect(waiting(admin, servers), [0, 0])
        with mcv.client() as client:
            client.ask(b"".join(b"delete " + key + b"\r\n" for key in keys), b"NOT_FOUND\r\n" * len(keys))
        left = len(keys) - FLIGHTS * hubs
        expect([hub for hub in range(hubs) if sum(index_of(key, hubs) == hub for key in keys) <= FLIGHTS], [], "hubs with few keys")
        wait_for(lambda: waiting(admin, servers) == [left, 0], "%d legs wait" % left)
        mood[0] = PERFORM
        wait_for(lambda: waiting(admin, servers) == [0, 0], "no leg waits")


@case()
def a_server_that_is_marked_is_shown(machine):
    admin, port = admin_address(), free_port()
    server = "127.0.0.1:%d" % port
    mcv = machine.mcv(one_pool([server]), admin=admin)
    with mcv.client() as client:
        for n in range(3):
            client.ask(stored(b"k%d" % n, b"1"), FAILED)
        wait_for(lambda: legs(admin, server) == (3, 3, 1), "three legs are lost, and the server is marked")
        machine.memcached(port=port)

        def back():
            client.send(stored(b"a", b"1"))
            return client.line() == b"STORED\r\n"

        wait_for(back, "the server is asked again")
        wait_for(lambda: legs(admin, server)[2] == 0, "the server isn't marked any more")


def sums(admin, name, label):
    """The samples of a family that aren't 0, by the values of its label."""
    begin = '%s{%s="' % (name, label)
    return {sample[len(begin) : -2]: value for sample, value in shown(admin).items() if sample.startswith(begin) and value}


@case()
def calls_are_counted_by_what_they_ask_and_get(machine):
    admin = admin_address()
    mcv = machine.mcv(one_pool(machine.servers(2)), admin=admin, hubs=2)
    with mcv.client() as client:
        client.ask(stored(b"a", b"1"), b"STORED\r\n")
        client.ask(b"get a b c\r\n", b"VALUE a 0 1\r\n1\r\nEND\r\n")
        client.ask(b"incr a 2\r\n", b"3\r\n")
        client.ask(b"delete a\r\ndelete a\r\n", b"DELETED\r\nNOT_FOUND\r\n")
        client.ask(b"get /other/pool/a\r\n", b"SERVER_ERROR no route\r\n")
    expect(sums(admin, "mcv_calls_total", "operation"), {"set": 1, "get": 4, "incr": 1, "delete": 2})
    expect(sums(admin, "mcv_replies_total", "outcome"), {"stored": 1, "hit": 1, "miss": 2, "number": 1, "deleted": 1, "not_found": 1})
    expect(sums(admin, "mcv_refusals_total", "cause"), {"no_route": 1})


@case()
def a_call_to_a_server_that_hangs_is_counted(machine):
    """Calls are counted as they are asked, and their replies as they come."""
    admin = admin_address()
    mood, server, mcv = moody(machine, admin=admin)
    mood[0] = SILENCE
    with mcv.client() as client, mcv.client() as other:
        client.send(b"get a b c\r\n")
        other.send(b"delete d\r\n")
        wait_for(lambda: len(server.requests) == 4, "the server is asked")
        expect(sums(admin, "mcv_calls_total", "operation"), {"get": 3, "delete": 1})
        expect(sums(admin, "mcv_replies_total", "outcome"), {}, "replies")
        mood[0] = PERFORM
        server.drop()
        # (over a connection that is new nothing is sent once more)
        expect((client.line(), other.line()), (FAILED, b"NOT_FOUND\r\n"))
        expect(sums(admin, "mcv_calls_total", "operation"), {"get": 3, "delete": 1})
        expect(sums(admin, "mcv_replies_total", "outcome"), {"fault": 3, "not_found": 1})


@case()
def records_are_counted_until_they_are_performed(machine):
    admin, port, spool = admin_address(), free_port(), machine.path("mcv.spool")
    server = "127.0.0.1:%d" % port
    config = one_pool([server])
    first = machine.mcv(config, spool=spool)
    with first.client() as client:
        client.ask(b"delete a\r\n", b"NOT_FOUND\r\n")
    first.kill()
    machine.mcv(config, spool=spool, admin=admin)

    def records():
        every = shown(admin)
        names = ("mcv_records_pending", "mcv_records_spooled_total", 'mcv_records_replayed_total{server="%s"}' % server)
        return tuple(every[name] for name in names)

    expect(records(), (1, 0, 0))
    wait_for(lambda: shown(admin)["mcv_spool_slots"] == 1, "a slot is used")
    machine.memcached(port=port)
    wait_for(lambda: records() == (0, 0, 1), "the delete is performed")
    expect(shown(admin)["mcv_spool_slots"], 1, "slots of records that are done are used")


@case()
def the_chapters_of_hubs_are_shown(machine):
    admin = admin_address()
    mcv = machine.mcv(one_pool(machine.servers(1)), admin=admin, hubs=3)
    hubs = {str(n) for n in range(3)}
    every = [sample for sample in shown(admin) if sample.startswith("mcv_chapter_entries")]
    expect(sorted(every), ['mcv_chapter_entries{hub="%d"}' % n for n in range(3)])
    with mcv.client() as client:
        for n in range(100):
            client.ask(b"get k%d\r\n" % n, b"END\r\n")
    expect(set(sums(admin, "mcv_chapter_entries", "hub")), hubs, "hubs that were asked")
    expect(set(sums(admin, "mcv_chapter_bytes", "hub")), hubs, "hubs that were asked")
    before = sums(admin, "mcv_chapter_entries", "hub")
    with mcv.client() as client:
        client.ask(b"get " + b" ".join(b"k%d" % n for n in range(100)) + b"\r\n", b"END\r\n")
    after = sums(admin, "mcv_chapter_entries", "hub")
    expect([hub for hub in hubs if after[hub] <= before[hub]], [], "hubs that one request has asked")
    expect(sums(admin, "mcv_chapters_turned_total", "hub"), {})


@case(120)
def requests_without_a_place_are_refused_and_said(machine):
    """A server never answers, and nobody waits for it: 65,536 deletes wait, with those in flight."""
    admin, server = admin_address(), machine.fake(Fake(lambda: SILENCE))
    mcv = machine.mcv(deletes_asynchronously([server.text]), admin=admin, server_timeout=100000)
    answers = []
    with mcv.client() as client:
        for n in range(66):
            client.send(b"".join(b"delete k%d.%d\r\n" % (n, k) for k in range(1000)))
            answers += [client.line() for _ in range(1000)]
        taken = answers.index(b"SERVER_ERROR busy\r\n")
        expect(set(answers[:taken]), {b"NOT_FOUND\r\n"})
        expect(set(answers[taken:]), {b"SERVER_ERROR busy\r\n"})
        expect(taken, 65536, "deletes")
        expect(sums(admin, "mcv_refusals_total", "cause"), {"busy": len(answers) - taken})
        expect(mcv.error_text(), b"mcv: too many legs wait: 1 refused\n")


def asked_until_busy(client, keys):
    """Asks for these keys, 400 times at most, until the answer is that there is no place."""
    for _ in range(400):
        client.send(b"get " + b" ".join(keys) + b"\r\n")
        line = client.line()
        if line != b"END\r\n":
            return line
    return None


@case(240)
def a_chapter_that_is_full_is_said_and_that_the_next_begins(machine):
    """A get whose server doesn't answer keeps the chapter from its end, until its 1,000,000 entries are used, three for each get."""
    late, other = machine.fake(Late(most=240)), machine.servers(1)[0]
    keys = [key for key in (b"k%d" % n for n in range(3000)) if index_of(key, 2) == 1][:1000]
    held = next(key for key in (b"h%d" % n for n in range(100)) if index_of(key, 2) == 0)
    mcv = machine.mcv(one_pool([late.text, other]), server_timeout=200000)
    with mcv.client() as client, mcv.client() as first:
        first.send(b"get " + held + b"\r\n")
        wait_for(lambda: late.requests, "the server is asked")
        expect(asked_until_busy(client, keys), b"SERVER_ERROR busy\r\n")
        expect(mcv.error_text(), b"mcv: the chapter is full: 1 refused\n")
        client.ask(b"get a b c\r\n" * 2, b"SERVER_ERROR busy\r\n" * 2)
        expect(mcv.error_text(), b"mcv: the chapter is full: 1 refused\n", "it is said once")
        late.goes.set()
        expect(first.line(), b"END\r\n")
        for _ in range(2):
            client.ask(b"get " + keys[0] + b"\r\n", b"END\r\n")
        expect(mcv.error_text(), b"mcv: the chapter is full: 1 refused\nmcv: the chapter begins again\n")


@case()
def clients_are_counted(machine):
    admin = admin_address()
    mcv = machine.mcv(one_pool(machine.servers(1)), admin=admin, max_clients=2)

    def clients():
        every = shown(admin)
        return tuple(every[name] for name in ("mcv_clients", "mcv_clients_accepted_total", "mcv_clients_refused_total"))

    expect(clients(), (0, 0, 0))
    with mcv.client() as one, mcv.client() as two:
        for client in (one, two):
            client.ask(b"get a\r\n", b"END\r\n")
        expect(clients(), (2, 2, 0))
        for _ in range(3):
            with mcv.client() as other:
                expect(other.rest(), TOO_MANY)
        expect(clients(), (2, 2, 3))
    wait_for(lambda: clients() == (0, 2, 3), "the clients are gone")


@case()
def a_spool_that_refuses_is_shown(machine):
    admin = admin_address()
    mcv = with_room_for_two(machine, admin=admin)
    with mcv.client() as client:
        spool_two(client)
        client.ask(b"delete c\r\n", FAILED)
        wait_for(lambda: shown(admin)["mcv_spool_refusing"] == 1, "the spool is said to refuse")
        lift_limit(machine, mcv)
        wait_for(lambda: shown(admin)["mcv_spool_refusing"] == 0, "the spool takes records again")
