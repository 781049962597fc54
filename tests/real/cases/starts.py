"""How `mcv run` starts and ends: what it prints, refuses, and leaves."""
import contextlib
import os
import signal
import socket

from parts import UNLIMITED, Failed, answer, case, deletes_to_all, expect, free_port, one_pool, stored, value_answer

LOST = {
    "pools": {"A": {"servers": ["127.0.0.1:1"]}, "B": {"servers": ["127.0.0.1:2"]}},
    "route": {"type": "FailoverRoute", "children": ["PoolRoute|A", "PoolRoute|B"]},
}
MOVING = {"type": "MigrateRoute", "from": "PoolRoute|A", "to": "PoolRoute|B", "start_time": 1000, "interval": 3600}
DEVICE = (4, b"", b"mcv: device failed\n")
BAD_LINE = (1, b"", b"mcv: bad command line\n")


def held_port(machine):
    """An address that is in use as long as the case runs."""
    holder = socket.create_server(("127.0.0.1", 0))
    machine.ends.append(holder.close)
    return "127.0.0.1:%d" % holder.getsockname()[1]


@case()
def one_session_with_one_get(machine):
    server = machine.servers(1)[0]
    expect(answer(server, stored(b"a", b"1")), b"STORED\r\n")
    port = free_port()
    mcv = machine.mcv(one_pool([server]), listen="127.0.0.1:%d" % port, sessions=1, server_timeout=10000, client_timeout=10000)
    expect((mcv.address, mcv.pending), ("127.0.0.1:%d" % port, 0))
    expect(answer(mcv.address, b"get a\r\nquit\r\n"), value_answer(b"a", b"1"))
    expect(mcv.last_lines(), (b"mcv closed calls 1\n", 0))
    expect(mcv.error_text(), b"", "standard error")


@case()
def two_sessions_and_the_number_of_their_calls(machine):
    mcv = machine.mcv(deletes_to_all(machine.servers(2)), sessions=2)
    with mcv.client() as first, mcv.client() as second:
        first.ask(stored(b"a", b"1") + b"get a b c\r\n", b"STORED\r\nVALUE a 0 1\r\n1\r\nEND\r\n")
        second.ask(b"get /c/c/a\r\nversion\r\nnonsense\r\n", b"SERVER_ERROR no route\r\nVERSION mcv 1\r\nERROR\r\n")
        first.ask(b"delete x noreply\r\nquit\r\n", b"")
        expect(first.rest(), b"")
        second.ask(b"touch a 0\r\n", b"TOUCHED\r\n")
    # A set, three gets, a delete and a touch.
    expect(mcv.last_lines(), (b"mcv closed calls 6\n", 0))


@case()
def sessions_over_two_hubs_and_the_number_of_their_calls(machine):
    mcv = machine.mcv(one_pool(machine.servers(2)), sessions=4, hubs=2)
    with contextlib.ExitStack() as kept:
        clients = [kept.enter_context(mcv.client()) for _ in range(4)]
        for n, client in enumerate(clients):
            client.ask(stored(b"k%d" % n, b"%d" % n), b"STORED\r\n")
        for n, client in enumerate(clients):
            # What another client stored.
            other = b"k%d" % ((n + 1) % 4)
            client.ask(b"get " + other + b"\r\n", value_answer(other, other[1:]))
        for n, client in enumerate(clients):
            client.ask(b"delete k%d\r\n" % n, b"DELETED\r\n")
    expect(mcv.last_lines(), (b"mcv closed calls 12\n", 0))
    expect(mcv.error_text(), UNLIMITED, "standard error")


@case()
def what_check_refuses_isnt_served_and_nothing_is_bound(machine):
    spool = machine.path("mcv.spool")
    # The address is in use, so a program that binds it first ends with another status.
    status, printed, errors = machine.refused(LOST, listen=held_port(machine))
    judged = machine.refused(LOST, words=[machine.program, "check"])
    expect((status, printed, errors), judged)
    expect(status, 3)
    if not printed.startswith(b"lost 127.0.0.1:2\n"):
        raise Failed("another finding: %r" % printed)
    expect(os.path.exists(spool), False, "a spool file")


@case()
def what_is_lost_within_the_window_isnt_served(machine):
    first, second = machine.servers(2)
    config = {"pools": {"A": {"servers": [first]}, "B": {"servers": [second]}}, "route": MOVING}
    status, printed, errors = machine.refused(config, listen=held_port(machine), window=3601)
    expect((status, printed, errors), machine.refused(config, words=[machine.program, "check", "--window", "3601"]))
    expect((status, printed.splitlines()[:4]), (3, [b"lost " + second.encode(), b"route 0", b"class =", b"era 0 2"]))
    mcv = machine.mcv(config, window=3600)
    with mcv.client() as client:
        client.ask(stored(b"a", b"1") + b"get a\r\n", b"STORED\r\n" + value_answer(b"a", b"1"))
    expect(answer(second, b"get a\r\n"), value_answer(b"a", b"1"))


@case()
def a_configuration_that_doesnt_read(machine):
    for config in ("{", {"pools": {"A": {"servers": []}}, "route": "PoolRoute|A"}, {"route": "PoolRoute|Z"}):
        found = machine.refused(config, listen=held_port(machine))
        expect(found, machine.refused(config, words=[machine.program, "check"]))
        expect(found[0], 2)


@case()
def a_bad_command_line(machine):
    run = [machine.program, "run"]
    spool = ["--spool", machine.path("mcv.spool")]
    listen = ["--listen", "127.0.0.1:0"]
    for words in (run, run + spool, run + listen, run + listen + spool + ["--sessions", "0"], run + listen + spool + ["--sessions", "1000000001"],
                  run + listen + spool + ["--sessions", "x"], run + listen + spool + ["--hubs", "0"], run + listen + spool + ["--hubs", "9"],
                  run + listen + spool + ["--window", "-1"], run + listen + spool + ["--window", "4294967296"],
                  run + listen + spool + ["--server-timeout", "0"], run + listen + spool + ["--server-timeout", "3600001"],
                  run + listen + spool + ["--max-clients", "0"], run + listen + spool + ["--max-clients", "1000001"],
                  run + listen + spool + ["--answer-bytes", "0"], run + listen + spool + ["--answer-bytes", "1099511627777"],
                  run + listen + spool + ["--client-timeout", "0"], run + listen + spool + ["--client-timeout", "1s"],
                  run + listen + spool + ["more"], run + listen + listen + spool):
        expect(machine.refused(one_pool(["127.0.0.1:1"]), words=words), BAD_LINE, " ".join(words[1:]))


@case()
def an_address_that_cant_be_bound(machine):
    for listen in (held_port(machine), "127.0.0.1", "127.0.0.1:x", "127.0.0.1:65536", "", "192.0.2.1:0"):
        expect(machine.refused(one_pool(["127.0.0.1:1"]), listen=listen), DEVICE, listen)


@case()
def a_spool_that_cant_be_opened(machine):
    os.mkdir(machine.path("folder"))
    with open(machine.path("damaged"), "wb") as file:
        file.write(bytes([1]) + bytes(640))
    for name in ("folder", "nowhere/mcv.spool", "damaged"):
        expect(machine.refused(one_pool(["127.0.0.1:1"]), spool=machine.path(name), server_timeout=1000), DEVICE, name)


@case()
def a_second_process_on_the_same_spool_file(machine):
    server = machine.servers(1)[0]
    mcv = machine.mcv(one_pool([server]))
    expect(machine.refused(one_pool([server])), DEVICE)
    with mcv.client() as client:
        client.ask(stored(b"a", b"1") + b"get a\r\n", b"STORED\r\n" + value_answer(b"a", b"1"))
    mcv.kill()
    again = machine.mcv(one_pool([server]))
    with again.client() as client:
        client.ask(b"get a\r\n", value_answer(b"a", b"1"))


@case()
def sigterm_ends_it_and_its_address_is_free_again(machine):
    server = machine.servers(1)[0]
    listen = "127.0.0.1:%d" % free_port()
    for _ in range(3):
        mcv = machine.mcv(one_pool([server]), listen=listen)
        with mcv.client() as client:
            client.ask(b"get a\r\n", b"END\r\n")
            mcv.process.terminate()
            expect(mcv.last_lines(), (b"", -signal.SIGTERM))
            expect(client.rest().replace(b"<reset>", b""), b"")
