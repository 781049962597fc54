"""Servers that go away, come back, hang, misbehave, or have other addresses."""
import contextlib
import signal
import socket
import threading
import time

from fakes import DROP, PERFORM, PERFORM_AND_DROP, REFUSE, SILENCE, Fake, Unaccepting, moody
from parts import (Client, Failed, answer, case, deletes_to_all, expect, free_port, freeze, one_pool, pending, records, replayed,
                   stored, value_answer, wait_for)

FAILED = b"SERVER_ERROR destination failed\r\n"


@case()
def a_server_killed_and_started_again_takes_its_deletes(machine):
    text, process = machine.memcached()
    other = machine.servers(1)[0]
    spool = machine.path("mcv.spool")
    mcv = machine.mcv(deletes_to_all([text, other]))
    keys = [b"k%d" % n for n in range(100)]
    with mcv.client() as client:
        client.ask(b"delete before\r\n", b"NOT_FOUND\r\n")
        process.send_signal(signal.SIGKILL)
        process.wait()
        for key in keys:
            expect(answer(other, stored(key, b"old")), b"STORED\r\n")
            client.ask(b"delete " + key + b"\r\n", b"NOT_FOUND\r\n")
            expect(answer(other, b"get " + key + b"\r\n"), b"END\r\n", "the server that is up")
        replayed(machine, mcv, spool, text, keys)
        expect(len(records(spool)), len(keys), "records")
        client.ask(b"delete behind\r\n", b"NOT_FOUND\r\n")
        expect(len(records(spool)), len(keys), "records, once the server is back")


@case()
def deletes_spooled_by_one_run_are_sent_by_the_next(machine):
    port = free_port()
    text = "127.0.0.1:%d" % port
    first = machine.mcv(one_pool([text]), sessions=1)
    expect(first.pending, 0)
    expect(answer(first.address, b"delete a\r\ndelete b\r\nquit\r\n"), b"NOT_FOUND\r\nNOT_FOUND\r\n")
    expect(first.last_lines(), (b"mcv closed calls 2\n", 0))
    expect(pending(machine.path("mcv.spool")), [(text.encode(), b"a"), (text.encode(), b"b")])
    machine.memcached(port=port)
    expect(answer(text, stored(b"a", b"old")), b"STORED\r\n")
    second = machine.mcv(one_pool([text]))
    expect(second.pending, 2)
    wait_for(lambda: answer(text, b"get a\r\n") == b"END\r\n", "the delete of the first run")
    wait_for(lambda: not pending(machine.path("mcv.spool")), "its record is marked as done")
    second.kill()
    expect(machine.mcv(one_pool([text])).pending, 0)


@case()
def one_spooled_delete_is_a_file_of_641_bytes(machine):
    text = "127.0.0.1:%d" % free_port()
    spool = machine.path("mcv.spool")
    mcv = machine.mcv(one_pool([text]), sessions=1)
    expect(answer(mcv.address, b"delete a\r\n"), b"NOT_FOUND\r\n")
    mcv.last_lines()
    with open(spool, "rb") as file:
        found = file.read()
    record = bytes([1, 0, 0, len(text), 0, 1]) + text.encode() + b"a"
    expect(found, record + bytes(641 - len(record)), "the spool file")
    expect(machine.mcv(one_pool([text])).pending, 1)


@case()
def a_get_of_a_server_that_is_away_is_an_error_until_it_is_back(machine):
    port = free_port()
    text = "127.0.0.1:%d" % port
    mcv = machine.mcv(one_pool([text]))
    with mcv.client() as client:
        for _ in range(5):
            client.ask(b"get a\r\n", FAILED)
            client.ask(stored(b"a", b"1"), FAILED)
            client.ask(b"touch a 0\r\n", FAILED)
        client.ask(b"get a b c\r\n", FAILED)
        machine.memcached(port=port)

        def back():
            client.send(b"get a\r\n")
            return client.line() == b"END\r\n"

        wait_for(back, "gets are answered again")
        client.ask(stored(b"a", b"1") + b"get a\r\n", b"STORED\r\n" + value_answer(b"a", b"1"))


@case()
def gets_fail_over_and_deletes_go_to_both(machine):
    (first, process), second = machine.memcached(), machine.servers(1)[0]
    config = {
        "pools": {"A": {"servers": [first]}, "B": {"servers": [second]}},
        "route": {
            "type": "OperationSelectorRoute",
            "operation_policies": {name: {"type": "AllSyncRoute", "children": ["PoolRoute|A", "PoolRoute|B"]} for name in ("delete", "set")},
            "default_policy": {"type": "FailoverRoute", "children": ["PoolRoute|A", "PoolRoute|B"]},
        },
    }
    mcv = machine.mcv(config)
    with mcv.client() as client:
        client.ask(stored(b"a", b"1") + stored(b"b", b"2"), b"STORED\r\nSTORED\r\n")
        process.kill()
        process.wait()
        for _ in range(5):
            client.ask(b"get a\r\n", value_answer(b"a", b"1"))
        client.ask(b"delete a\r\n", b"NOT_FOUND\r\n")
        client.ask(b"get a b\r\n", b"VALUE b 0 1\r\n2\r\nEND\r\n")
        client.ask(stored(b"c", b"3"), FAILED)
    expect(pending(machine.path("mcv.spool")), [(first.encode(), b"a")])


@case()
def a_warm_up_adds_what_the_warm_pool_had(machine):
    cold, warm = machine.servers(2)
    both = {"type": "AllSyncRoute", "children": ["PoolRoute|A", "PoolRoute|B"]}
    route = {
        "type": "OperationSelectorRoute",
        "operation_policies": {"delete": both},
        "default_policy": {"type": "WarmUpRoute", "cold": "PoolRoute|A", "warm": "PoolRoute|B"},
    }
    mcv = machine.mcv({"pools": {"A": {"servers": [cold]}, "B": {"servers": [warm]}}, "route": route})
    expect(answer(warm, stored(b"a", b"warm", 7)), b"STORED\r\n")
    with mcv.client() as client:
        client.ask(b"get a\r\n", value_answer(b"a", b"warm", 7))
        wait_for(lambda: answer(cold, b"get a\r\n") == value_answer(b"a", b"warm", 7), "the add")
        client.ask(b"delete a\r\n", b"DELETED\r\n")
    expect(answer(cold, b"get a\r\n") + answer(warm, b"get a\r\n"), b"END\r\nEND\r\n")


@case()
def what_is_no_reply_is_an_error_and_a_delete_is_spooled(machine):
    cases = {
        b"get": [b"VALUE other 0 1\r\nx\r\nEND\r\n", b"VALUE a 0 1 7\r\nx\r\nEND\r\n", b"STORED\r\n", b"VALUE a 0 1048577\r\n", b"x" * 3000,
                 b"VALUE a 0 1\r\nxyEND\r\n", b"\0\r\n"],
        b"incr": [b"18446744073709551616\r\n", b"-1\r\n", b"6x\r\n", b"TOUCHED\r\n", b"\r\n"],
        b"delete": [b"STORED\r\n", b"nonsense\r\n", b"\r\nDELETED\r\n"],
    }
    more = {b"incr": b" 1"}
    spooled = 0
    for name, texts in cases.items():
        for text in texts:
            fake = machine.fake(Fake(replies={name: text}))
            spool = machine.path("spool.%d" % id(fake))
            mcv = machine.mcv(one_pool([fake.text]), spool=spool)
            with mcv.client() as client:
                wanted = b"NOT_FOUND\r\n" if name == b"delete" else FAILED
                client.ask(name + b" a" + more.get(name, b"") + b"\r\n", wanted)
            if name == b"delete":
                expect(records(spool)[0][1:], (fake.text.encode(), b"a"))
                spooled += 1
            mcv.kill()
    expect(spooled, 3)


@case()
def an_error_of_a_server_is_passed_on_but_for_a_delete(machine):
    fake = machine.fake(Fake(mood=lambda: REFUSE))
    mcv = machine.mcv(one_pool([fake.text]))
    with mcv.client() as client:
        client.ask(b"get a\r\n", b"SERVER_ERROR not now\r\n")
        client.ask(stored(b"a", b"1"), b"SERVER_ERROR not now\r\n")
        client.ask(b"delete a\r\n", b"NOT_FOUND\r\n")
    expect(pending(machine.path("mcv.spool")), [(fake.text.encode(), b"a")])


@case()
def a_connection_that_breaks_is_opened_again(machine):
    moods = iter([DROP, "perform", DROP, "perform"])
    fake = machine.fake(Fake(mood=lambda: next(moods, "perform")))
    mcv = machine.mcv(one_pool([fake.text]))
    with mcv.client() as client:
        # A get over a connection that was kept is sent once more over a new one.
        client.ask(b"get a\r\nget a\r\nget a\r\nget a\r\n", FAILED + b"END\r\nEND\r\nEND\r\n")


@case()
def an_incr_is_sent_once_whatever_becomes_of_its_connection(machine):
    moods = iter([PERFORM, PERFORM_AND_DROP])
    fake = machine.fake(Fake(mood=lambda: next(moods, PERFORM), replies={b"incr": b" 06 \r\n"}))
    mcv = machine.mcv(one_pool([fake.text]))
    with mcv.client() as client:
        client.ask(b"get a\r\n", b"END\r\n")
        client.ask(b"incr a 5\r\n", FAILED)
        expect(fake.requests.count((b"incr", b"a")), 1, "the incrs that were sent")
        client.ask(b"incr a 5\r\n", b"6\r\n")


@case()
def a_server_that_answers_nothing_stops_no_other(machine):
    silent = machine.fake(Fake(mood=lambda: SILENCE))
    up = machine.servers(1)[0]
    route = {"type": "PrefixSelectorRoute", "policies": {"silent": "PoolRoute|A"}, "wildcard": "PoolRoute|B"}
    mcv = machine.mcv({"pools": {"A": {"servers": [silent.text]}, "B": {"servers": [up]}}, "route": route})
    with mcv.client() as waits, mcv.client() as works:
        waits.send(b"get silent\r\n")
        wait_for(lambda: (b"get", b"silent") in silent.requests, "the get reaches the silent server")
        for n in range(200):
            works.ask(stored(b"k", b"%d" % n) + b"get k\r\n", b"STORED\r\n" + value_answer(b"k", b"%d" % n))
        silent.close()
        expect(waits.line(), FAILED)


def timed(client, sent, wanted):
    """How many seconds an answer took."""
    begun = time.monotonic()
    client.ask(sent, wanted)
    return time.monotonic() - begun


def hung_beside(hung, up):
    """Keys from `hung` on are those of one server, all others of another one."""
    route = {"type": "PrefixSelectorRoute", "policies": {"hung": "PoolRoute|A"}, "wildcard": "PoolRoute|B"}
    return {"pools": {"A": {"servers": [hung]}, "B": {"servers": [up]}}, "route": route}


@case()
def servers_that_one_request_marks_are_each_said(machine):
    """A get goes on from one server that is away to another, and fails at both: the third marks both."""
    away = ["127.0.0.1:%d" % free_port() for _ in range(2)]
    pools = {"A": {"servers": away[:1]}, "B": {"servers": away[1:]}}
    route = {"type": "FailoverRoute", "children": ["PoolRoute|A", "PoolRoute|B"]}
    mcv = machine.mcv({"pools": pools, "route": {
        "type": "OperationSelectorRoute",
        "operation_policies": {"delete": {"type": "AllSyncRoute", "children": ["PoolRoute|A", "PoolRoute|B"]}},
        "default_policy": route,
    }}, server_timeout=5000)
    with mcv.client() as client:
        for _ in range(3):
            client.ask(b"get a\r\n", FAILED)
    lines = [b"mcv: server " + text.encode() + b" is marked" for text in away]
    wait_for(lambda: all(line in mcv.error_text().splitlines() for line in lines), "each is said")


@case()
def a_server_that_is_marked_and_answers_is_asked_again_at_once(machine):
    """It breaks three connections in a row, and is well then: it is probed as soon as it is marked."""
    mood, _, mcv = moody(machine, server_timeout=20000)
    seconds = []
    with mcv.client() as client:

        def is_answered():
            client.send(b"get a\r\n")
            return client.line() == b"END\r\n"

        for turn in range(5):
            mood[0] = DROP
            client.ask(b"get a\r\n" * 3, FAILED * 3)
            mood[0] = PERFORM
            begun = time.monotonic()
            wait_for(is_answered, "a get is answered")
            seconds.append(time.monotonic() - begun)
            wait_for(lambda: mcv.error_text().count(b" is marked\n") > turn, "the mark")
    if sorted(seconds)[2] > 0.5:
        raise Failed("a server that was marked and was well was asked again behind %s seconds" % ["%.3f" % took for took in seconds])


def expect_half_a_second(number, took):
    if not 0.4 < took < 5:
        raise Failed("get %d took %.3f seconds" % (number, took))


def spooled_until(machine, mcv, client, text, comes_back):
    """The server of the keys from `hung` on, of this address, is marked, and its delete is in the spool until it comes back."""
    spool = machine.path("mcv.spool")
    wait_for(lambda: b"mcv: server " + text.encode() + b" is marked\n" in mcv.error_text(), "the mark")
    client.ask(b"get hung\r\ndelete hung\r\n", FAILED + b"NOT_FOUND\r\n")
    expect(pending(spool), [(text.encode(), b"hung")])
    comes_back()
    wait_for(lambda: not pending(spool), "the delete is sent again")


@case()
def a_server_that_hangs_fails_in_its_time(machine):
    (text, process), up = machine.memcached(), machine.servers(1)[0]
    mcv = machine.mcv(hung_beside(text, up), server_timeout=500)
    with mcv.client() as waits, mcv.client() as works:
        waits.ask(stored(b"hung", b"1") + b"get hung\r\n", b"STORED\r\n" + value_answer(b"hung", b"1"))
        freeze(process)
        for turn in range(3):
            # The first over the connection that was kept, which isn't sent once more; the others over new ones.
            expect_half_a_second(turn, timed(waits, b"get hung\r\n", FAILED))
            works.ask(stored(b"k", b"%d" % turn) + b"get k\r\n", b"STORED\r\n" + value_answer(b"k", b"%d" % turn))
        spooled_until(machine, mcv, waits, text, lambda: process.send_signal(signal.SIGCONT))

        def back():
            waits.send(b"get hung\r\n")
            return waits.line() == b"END\r\n"

        wait_for(back, "gets are answered again")


@case()
def a_server_that_takes_no_connection_fails_in_its_time(machine):
    """It is marked, its deletes go to the spool, and no other server waits for it. Once it takes connections it has its deletes."""
    shut, up = machine.fake(Unaccepting()), machine.servers(1)[0]

    def opens():
        expect(shut.requests, [], "requests")
        shut.open()

    mcv = machine.mcv(hung_beside(shut.text, up), server_timeout=500)
    with mcv.client() as waits, mcv.client() as works:
        for turn in range(3):
            waits.send(b"get hung%d\r\n" % turn)
            begun = time.monotonic()
            took = timed(works, stored(b"k", b"%d" % turn) + b"get k\r\n", b"STORED\r\n" + value_answer(b"k", b"%d" % turn))
            expect(took < 0.4, True, "what is asked of the server that is up took %.3f seconds" % took)
            expect(waits.line(), FAILED)
            expect_half_a_second(turn, time.monotonic() - begun)
        spooled_until(machine, mcv, waits, shut.text, opens)
        expect(shut.performed, {b"hung"})


@case()
def a_servers_time_is_kept_whenever_it_is_asked(machine):
    """At any moment of a second, behind a while in which no leg was in flight. What it answers between keeps it from a mark."""
    mood, _, mcv = moody(machine, server_timeout=200)
    seconds = []
    with mcv.client() as client:
        for turn in range(9):
            mood[0] = PERFORM
            client.ask(b"get a\r\n", b"END\r\n")
            time.sleep(1 + turn / 9)
            mood[0] = SILENCE
            seconds.append(timed(client, b"get a\r\n", FAILED))
    if min(seconds) < 0.2 or sorted(seconds)[4] > 0.4 or max(seconds) > 5:
        raise Failed("what has 0.2 seconds took %s" % ["%.3f" % took for took in seconds])


@case()
def what_a_server_didnt_answer_in_its_time_isnt_sent_again(machine):
    moods = iter(["perform"])
    fake = machine.fake(Fake(mood=lambda: next(moods, SILENCE)))
    mcv = machine.mcv(one_pool([fake.text]), server_timeout=500)
    with mcv.client() as client:
        # The second goes over the connection that was kept: closed, it would be sent once more.
        client.ask(b"get a\r\nget b\r\n", b"END\r\n" + FAILED)
        expect(fake.requests, [(b"get", b"a"), (b"get", b"b")])


def getting(mcv, count, slow, faults, most=10):
    """Sends so many gets, 50 at a time, and notes what takes longer than `most` seconds and what isn't answered by END."""
    try:
        with mcv.client() as client:
            for _ in range(count // 50):
                took = timed(client, b"get k\r\n" * 50, b"END\r\n" * 50)
                if took > most:
                    slow.append(took)
    except (Failed, OSError) as fault:
        faults.append(str(fault))


@case(120, stall=0.1)
def gets_beside_a_server_that_hangs_are_quick(machine):
    """More than half of what a chapter holds, so that the next one begins meanwhile, while calls to the other server run."""
    (text, process), up = machine.memcached(), machine.servers(1)[0]
    mcv = machine.mcv(hung_beside(text, up), server_timeout=200)
    freeze(process)
    slow, faults = [], []
    threads = [threading.Thread(target=getting, args=(mcv, 25000, slow, faults, 2)) for _ in range(8)]
    with mcv.client() as waits:
        for thread in threads:
            thread.start()
        # The first ones take their time; then the server is marked, and some of these wait for a probe.
        for number in range(20):
            took = timed(waits, b"get hung%d\r\n" % number, FAILED)
            expect(took < 5, True, "get %d took %.3f seconds" % (number, took))
        for thread in threads:
            thread.join()
    expect((faults, slow), ([], []), "gets of the server that is up, and those that took longer than two seconds")


@case(120)
def a_chapter_that_waits_in_vain_costs_a_second_once(machine):
    """A get whose server never answers keeps the next chapter from its begin, once it is due at 500,000 entries, five for a get.
    Who asks then waits a second, and goes on without a further wait."""
    silent, up = machine.fake(Fake(mood=lambda: SILENCE)), machine.servers(1)[0]
    mcv = machine.mcv(hung_beside(silent.text, up))
    asked = b"get " + b" ".join(b"k%d" % number for number in range(1000)) + b"\r\n"
    with mcv.client() as waits, mcv.client() as works:
        waits.send(b"get hung\r\n")
        wait_for(lambda: (b"get", b"hung") in silent.requests, "the server is asked")
        seconds = [timed(works, asked, b"END\r\n") for _ in range(140)]
        if sum(took > 0.9 for took in seconds) > 2:
            raise Failed("%d of 140 requests waited a second" % sum(took > 0.9 for took in seconds))
        silent.drop()
        expect(waits.line(), FAILED)
        works.ask(asked, b"END\r\n")


@case(300, stall=0.3)
def half_a_million_gets_beside_a_server_that_hangs(machine):
    """More than the history of a chapter holds, so that calls wait for the next one, which waits for calls that run: for less
    than the second after which those that wait go on in this one. The server that is up keeps this time on a busy machine too."""
    (text, process), up = machine.memcached(), machine.servers(1)[0]
    mcv = machine.mcv(hung_beside(text, up), server_timeout=600)
    freeze(process)
    slow, faults, stop = [], [], threading.Event()

    def hanging():
        with contextlib.suppress(OSError), mcv.client() as client:
            while not stop.is_set():
                client.send(b"get hung\r\n")
                client.line()
                time.sleep(0.01)

    threads = [threading.Thread(target=getting, args=(mcv, 62500, slow, faults)) for _ in range(8)] + [threading.Thread(target=hanging)]
    for thread in threads:
        thread.start()
    for thread in threads[:-1]:
        thread.join()
    stop.set()
    threads[-1].join()
    expect((faults, slow), ([], []), "gets of the server that is up")


def with_room_for_two(machine, **how):
    """A proxy with a server that is away, and a spool whose file can't grow past two records."""
    before = ["prlimit", "--fsize=1281:", "env", "--ignore-signal=XFSZ"]
    return machine.mcv(one_pool(["127.0.0.1:%d" % free_port()]), before=before, **how)


def lift_limit(machine, mcv):
    """The file may grow from now on."""
    machine.start(["prlimit", "--pid", str(mcv.process.pid), "--fsize=unlimited:"]).wait()


def spool_two(client):
    """Two deletes go to the spool."""
    client.ask(b"delete a\r\ndelete b\r\n", b"NOT_FOUND\r\nNOT_FOUND\r\n")


@case()
def a_spool_that_refuses_costs_an_answer_no_wait(machine):
    """Twelve clients delete keys of a server that is away, while the file can't grow past two records."""
    spool = machine.path("mcv.spool")
    mcv = with_room_for_two(machine, spool=spool)
    with contextlib.ExitStack() as kept:
        clients = [kept.enter_context(mcv.client()) for _ in range(12)]
        spool_two(clients[0])
        seconds = []
        for turn in range(5):
            begun = time.monotonic()
            for n, client in enumerate(clients):
                client.send(b"delete k%d.%d\r\n" % (turn, n))
            for client in clients:
                expect(client.line(), FAILED)
            seconds.append(time.monotonic() - begun)
        if min(seconds) > 0.1 or max(seconds) > 5:
            raise Failed("twelve deletes took %s seconds" % ["%.3f" % took for took in seconds])
        lift_limit(machine, mcv)
        wait_for(lambda: len(pending(spool)) == 62, "each delete that was refused is written")
        clients[0].ask(b"delete c\r\n", b"NOT_FOUND\r\n")


@case()
def the_spool_refuses_and_takes_it_later(machine):
    """A file that can't grow past two records, until the limit is taken away."""
    spool = machine.path("mcv.spool")
    mcv = with_room_for_two(machine, spool=spool)
    with mcv.client() as client:
        spool_two(client)
        client.ask(b"delete c\r\n", FAILED)
        expect([rest for _, rest in pending(spool)], [b"a", b"b"])
        lift_limit(machine, mcv)
        wait_for(lambda: [rest for _, rest in pending(spool)] == [b"a", b"b", b"c"], "the delete that was refused is written")
        client.ask(b"delete d\r\n", b"NOT_FOUND\r\n")
        expect([rest for _, rest in pending(spool)], [b"a", b"b", b"c", b"d"])
    for line in (b"mcv: the spool refuses records: the disk failed", b"mcv: the spool takes records again"):
        wait_for(lambda: line in mcv.error_text().splitlines(), line.decode())


def has_ipv6():
    try:
        with socket.socket(socket.AF_INET6) as tried:
            tried.bind(("::1", 0))
        return True
    except OSError:
        return False


@case()
def servers_and_clients_over_ipv6(machine):
    if not has_ipv6():
        return
    server, _ = machine.memcached(host="::1")
    mcv = machine.mcv(one_pool([server]), listen="[::1]:0")
    if not mcv.address.startswith("[::1]:"):
        raise Failed("the address is " + mcv.address)
    with mcv.client() as client:
        client.ask(stored(b"a", b"6") + b"get a\r\ndelete a\r\n", b"STORED\r\n" + value_answer(b"a", b"6") + b"DELETED\r\n")
    expect(pending(machine.path("mcv.spool")), [])


@case()
def a_server_by_the_name_localhost(machine):
    server, _ = machine.memcached()
    named = "localhost:" + server.rsplit(":", 1)[1]
    mcv = machine.mcv(one_pool([named]))
    with mcv.client() as client:
        client.ask(stored(b"a", b"1") + b"get a\r\ndelete a\r\n", b"STORED\r\n" + value_answer(b"a", b"1") + b"DELETED\r\n")
    with Client(server) as client:
        client.ask(b"get a\r\n", b"END\r\n")


@case()
def a_server_by_a_name_that_nobody_has_stops_no_other(machine):
    """`.invalid` is never anybody's (RFC 6761). What is asked of it fails, as of a server that is away."""
    up = machine.servers(1)[0]
    mcv = machine.mcv(hung_beside("mcv.invalid:11211", up), server_timeout=20000)
    with mcv.client() as client, mcv.client() as other:
        for number in range(5):
            client.send(b"get hung\r\n")
            other.ask(stored(b"k", b"%d" % number) + b"get k\r\n", b"STORED\r\n" + value_answer(b"k", b"%d" % number))
            expect(client.line(), FAILED)
        client.ask(b"delete hung\r\n", b"NOT_FOUND\r\n")
    expect(pending(machine.path("mcv.spool")), [(b"mcv.invalid:11211", b"hung")])
