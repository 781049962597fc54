"""While all that there is waits for somebody else, the program takes no time of a processor."""
import contextlib
import socket
import time

from cases.drains import admin_address, asked
from cases.servers import FAILED, spool_two, with_room_for_two
from fakes import SILENCE, Fake, Late
from parts import Failed, case, expect, free_port, one_pool, pending, stored, wait_for

# The seconds that are watched, and the most of a processor's that the program may take of them.
WATCHED, MOST = 2.0, 0.2


def expect_rest(mcv, what):
    """Sees that the program does nothing, once it has done what there was to do."""
    took = []
    for _ in range(10):
        before = mcv.seconds()
        time.sleep(WATCHED)
        took.append(mcv.seconds() - before)
        if took[-1] <= MOST:
            return
    raise Failed("%s: of %.0f seconds %s are taken" % (what, WATCHED, ["%.2f" % one for one in took]))


def by_prefix(servers):
    """Keys go to the server of their prefix."""
    pools = {name: {"servers": [text]} for name, text in servers.items()}
    policies = {name: "PoolRoute|" + name for name in servers}
    return {"pools": pools, "route": {"type": "PrefixSelectorRoute", "policies": policies, "wildcard": "PoolRoute|" + min(servers)}}


@case(240)
def clients_and_servers_that_wait_cost_no_time(machine):
    """Each state comes to those before it."""
    silent, stuck = machine.fake(Fake(lambda: SILENCE)), machine.fake(Late(most=240))
    up = machine.fake(Fake(values=lambda _: b"x" * 1000000))
    stuck.listener.setsockopt(socket.SOL_SOCKET, socket.SO_RCVBUF, 1 << 16)
    away = "127.0.0.1:%d" % free_port()
    admin = admin_address()
    mcv = machine.mcv(by_prefix({"silent": silent.text, "stuck": stuck.text, "up": up.text, "away": away}), admin=admin, hubs=2)
    with contextlib.ExitStack() as kept:

        def client():
            return kept.enter_context(mcv.client())

        for number in range(20):
            client().ask(b"delete up%d\r\n" % number, b"DELETED\r\n")
        client().send(b"get up")
        expect_rest(mcv, "idle clients, and one with half a request")
        half = client()
        half.send(b"get silent\r\n")
        half.socket.shutdown(socket.SHUT_WR)
        wait_for(lambda: silent.requests, "the server is asked")
        expect_rest(mcv, "a client that sends no more, and waits for an answer")
        deaf, closed = client(), client()
        for one in (deaf, closed):
            one.send(b"get up\r\n" * 50)
        closed.socket.shutdown(socket.SHUT_WR)
        expect_rest(mcv, "clients that take nothing, one of which sends no more")
        for number in range(12):
            client().send(stored(b"stuck%d" % number, b"v" * 1000000))
        wait_for(lambda: stuck.requests, "the server is asked")
        expect_rest(mcv, "a server that takes nothing")
        for _ in range(4):
            client().ask(b"get away\r\n", FAILED)
        client().ask(b"delete away\r\n", b"NOT_FOUND\r\n")
        expect_rest(mcv, "a server that is marked, and a delete in the spool for it")
        expect(asked(admin, "POST", "/drain?seconds=100"), (200, b"draining\n"))
        expect_rest(mcv, "a drain")


@case(120)
def a_spool_that_refuses_costs_no_time(machine):
    """With two deletes that it has and ten that wait for it."""
    spool = machine.path("mcv.spool")
    mcv = with_room_for_two(machine, spool=spool)
    with mcv.client() as client:
        spool_two(client)
        for number in range(10):
            client.ask(b"delete k%d\r\n" % number, FAILED)
        expect(len(pending(spool)), 2, "records")
        expect_rest(mcv, "a spool that refuses")


@case(120)
def clients_that_cant_be_accepted_cost_no_time_and_are_served_later(machine):
    """The program may have sixty files open, and a hundred clients come."""
    up = machine.fake(Fake())
    mcv = machine.mcv(one_pool([up.text]), before=["prlimit", "--nofile=60:60"], server_timeout=20000)
    with contextlib.ExitStack() as kept, contextlib.ExitStack() as first:
        asking = first.enter_context(mcv.client())
        asking.ask(b"get a\r\n", b"END\r\n")
        clients = [(first if number < 50 else kept).enter_context(mcv.client()) for number in range(100)]
        for client in clients:
            client.send(b"get b\r\n")
        wait_for(lambda: b"mcv: clients can't be accepted\n" in mcv.error_text(), "it is said")
        expect_rest(mcv, "clients that can't be accepted")
        asking.ask(b"get c\r\n", b"END\r\n")
        first.close()
        for client in clients[50:]:
            expect(client.line(), b"END\r\n")
        wait_for(lambda: b"mcv: clients are accepted again\n" in mcv.error_text(), "it is said")
    expect(mcv.error_text().count(b"\n"), 2, "lines")
