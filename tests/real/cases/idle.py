"""Connections that servers close while no leg is in flight over them, and legs of which no byte was written to their connection."""
import contextlib
import signal
import socket

from cases.drains import admin_address
from cases.metrics import legs
from cases.servers import FAILED
from fakes import Fake, Late
from parts import case, expect, freeze, one_pool, stored, wait_for

# What changes a value, and would change it twice if it were sent twice, with its answer.
CHANGES = [(stored(b"b", b"1"), b"STORED\r\n"), (b"add b 0 0 1\r\n1\r\n", b"STORED\r\n"), (b"incr b 1\r\n", b"7\r\n")]


def with_a_kept_connection(machine, number):
    """A server, and a client of a proxy to it, which has a connection to the server over which a leg was answered."""
    fake = machine.fake(Fake(replies={b"incr": b"7\r\n"}))
    mcv = machine.mcv(one_pool([fake.text]), spool=machine.path("spool.%d" % number), server_timeout=20000)
    client = mcv.client()
    machine.ends.append(client.socket.close)
    client.ask(b"get a\r\n", b"END\r\n")
    return fake, mcv, client


@case()
def what_comes_behind_the_close_of_an_idle_connection_is_sent_over_a_new_one(machine):
    """At once, and once only; whether the connection was closed in order or was reset."""
    for number, close in enumerate((Fake.drop, Fake.reset)):
        fake, _, client = with_a_kept_connection(machine, number)
        for turn, (sent, wanted) in enumerate(CHANGES):
            close(fake)
            wait_for(lambda: not fake.connections, "the connection is closed")
            client.ask(sent, wanted)
            expect(fake.accepted, turn + 2, "connections")
        expect([key for _, key in fake.requests], [b"a", b"b", b"b", b"b"], "what was sent")


@case()
def a_change_that_is_seen_together_with_the_close_of_an_idle_connection_is_performed(machine):
    """mcv stands still meanwhile. The close comes before the request of the client, or behind it."""
    for number, (close, is_first) in enumerate([(Fake.drop, True), (Fake.drop, False), (Fake.reset, True), (Fake.reset, False)]):
        fake, mcv, client = with_a_kept_connection(machine, number)
        for sent, wanted in CHANGES:
            freeze(mcv.process)
            if is_first:
                close(fake)
            client.send(sent)
            if not is_first:
                close(fake)
            wait_for(lambda: not fake.connections, "the connection is closed")
            mcv.process.send_signal(signal.SIGCONT)
            expect(client.exactly(len(wanted)), wanted, "the answer to %r" % sent)
        expect([key for _, key in fake.requests], [b"a", b"b", b"b", b"b"], "what was sent")


# More values of 1 MB than the buffers between mcv and a server take, by far.
SETS, MOST_WRITTEN = 40, 12


@case()
def what_a_connection_never_took_is_sent_over_the_next_one(machine):
    """A server stops reading, so that most sets of forty clients wait in mcv, and closes its connection. Sets of which it may have had
    a byte fail; the others, of which nothing was written, are stored. Each reaches the server once at most."""
    fake = machine.fake(Late())
    fake.goes.set()
    fake.listener.setsockopt(socket.SOL_SOCKET, socket.SO_RCVBUF, 1 << 16)
    admin = admin_address()
    mcv = machine.mcv(one_pool([fake.text]), admin=admin, server_timeout=20000)
    with contextlib.ExitStack() as kept:
        clients = [kept.enter_context(mcv.client()) for _ in range(SETS)]
        clients[0].ask(b"get warm\r\n", b"END\r\n")
        fake.goes.clear()
        for number, client in enumerate(clients):
            client.send(stored(b"k%d" % number, b"v" * 1000000))
        wait_for(lambda: legs(admin, fake.text)[0] > SETS, "each leg is under way")
        wait_for(lambda: fake.requests[1:], "the server has the first set")
        fake.drop()
        fake.goes.set()
        answers = [client.line() for client in clients]
    seen = [key for _, key in fake.requests]
    expect({answer for answer in answers} - {FAILED, b"STORED\r\n"}, set(), "other answers")
    expect(answers.count(FAILED) <= MOST_WRITTEN, True, "%d of %d sets failed, and fewer were written" % (answers.count(FAILED), SETS))
    for number in range(SETS):
        expect(seen.count(b"k%d" % number) <= 1, True, "set %d was sent twice" % number)
