"""Many clients at once, and clients that do harm."""
import contextlib
import random
import resource
import select
import signal
import socket
import threading
import time

from cases.requests import OUT_OF_MEMORY, get_of
from fakes import Fake, Late
from parts import (LIMIT, UNLIMITED, Client, Failed, address_of, case, deletes_to_all, expect, freeze, one_pool, records, replayed,
                   stored, value_answer, wait_for)


@case(120)
def three_hundred_connections_at_once(machine):
    mcv = machine.mcv(one_pool(machine.servers(4)))
    with contextlib.ExitStack() as kept:
        clients = [kept.enter_context(mcv.client()) for _ in range(300)]
        for turn in range(3):
            for n, client in enumerate(clients):
                client.send(stored(b"k%d" % n, b"%d.%d" % (turn, n)) + b"get k%d\r\n" % n)
            for n, client in enumerate(clients):
                wanted = b"STORED\r\n" + value_answer(b"k%d" % n, b"%d.%d" % (turn, n))
                expect(client.exactly(len(wanted)), wanted, "client %d" % n)
        for n, client in enumerate(clients):
            client.ask(b"delete k%d\r\nquit\r\n" % n, b"DELETED\r\n")
            expect(client.rest(), b"")


@contextlib.contextmanager
def many_files():
    """This program, and those that it starts meanwhile, may have as many files open as the system lets them."""
    before = resource.getrlimit(resource.RLIMIT_NOFILE)
    resource.setrlimit(resource.RLIMIT_NOFILE, (before[1], before[1]))
    try:
        yield
    finally:
        resource.setrlimit(resource.RLIMIT_NOFILE, before)


def begun(address):
    """A connection that is begun, and isn't waited for."""
    client = socket.socket()
    client.setblocking(False)
    client.connect_ex(address)
    return client


def wait_for_each(clients, event, end, what):
    """Waits until each connection is ready for this, up to a moment."""
    poll, left = select.poll(), len(clients)
    for client in clients:
        poll.register(client, event)
    while left:
        ready = poll.poll(1000 * max(end - time.monotonic(), 0))
        if not ready:
            raise Failed("%d of %d clients %s" % (left, len(clients), what))
        for number, _ in ready:
            poll.unregister(number)
        left -= len(ready)


def come_at_once(process, text, count, seconds):
    """So many clients connect to a program that is held meanwhile, so that all have to wait for it together. Each is connected, and
    is answered once the program goes on, all within so many seconds."""
    freeze(process)
    end = time.monotonic() + seconds
    with contextlib.ExitStack() as kept:
        clients = [kept.enter_context(begun(address_of(text))) for _ in range(count)]
        wait_for_each(clients, select.POLLOUT, end, "aren't connected")
        process.send_signal(signal.SIGCONT)
        for client in clients:
            client.send(b"get a\r\n")
        wait_for_each(clients, select.POLLIN, end, "aren't answered")
        for client in clients:
            expect(client.recv(100), b"END\r\n")


@case()
def two_thousand_clients_that_come_at_once_are_served_at_once(machine):
    """As many as may wait for a listener at a time, where the system allows fewer. Who doesn't get a place there tries again after a
    second, and then after two more."""
    with open("/proc/sys/net/core/somaxconn") as file:
        count = min(2000, int(file.read()))
    with many_files():
        mcv = machine.mcv(one_pool(machine.servers(1)))
        come_at_once(mcv.process, mcv.address, count, 3)
        with mcv.client() as client:
            client.ask(b"get a\r\n", b"END\r\n")


def working(mcv, number, stop, faults, done):
    """Sets, gets and deletes a key of its own until it is to stop; notes the first wrong answer."""
    try:
        with mcv.client() as client:
            while not stop.is_set() or not done[number]:
                value = b"%d of %d" % (done[number], number)
                client.ask(stored(b"w%d" % number, value), b"STORED\r\n")
                client.ask(b"get w%d\r\n" % number, value_answer(b"w%d" % number, value))
                client.ask(b"delete w%d\r\nget w%d\r\n" % (number, number), b"DELETED\r\nEND\r\n")
                done[number] += 1
    except (Failed, OSError) as fault:
        faults.append("client %d: %s" % (number, fault))


@contextlib.contextmanager
def workers(mcv, count):
    """Clients that work while the block runs, and have to do so without a fault, each at least 20 rounds in it."""
    stop, faults, done = threading.Event(), [], [0] * count
    threads = [threading.Thread(target=working, args=(mcv, n, stop, faults, done)) for n in range(count)]
    for thread in threads:
        thread.start()
    try:
        yield
        before = list(done)
        wait_for(lambda: faults or all(now >= was + 20 for was, now in zip(before, done)), "each client goes on")
    finally:
        stop.set()
        for thread in threads:
            thread.join()
    expect(faults, [], "faults of clients that work")


GARBAGE = [
    b"\0" * 1000, b"\xff\xfe\r\n" * 50, b"get " + b"a" * 300 + b"\r\n", b"get " + b"a " * 40000, b"set a 0 0 99999999999\r\n", b"\r\n" * 500,
    b"set g 0 0 5\r\nabc", b"set g 0 0 1048576\r\nhalf", b"get g", b"gets ", b"delete", b"cas g 0 0 1 1\r\n", b"set g 0 0 2000000\r\n",
    b"\x80\x00\x00\x01\x00\x00\x00\x00", b"GET / HTTP/1.1\r\nHost: x\r\n\r\n", b"set g 0 0 3\r\nabcdef\r\n", b"n" * 70000, b"noreply\r\n" * 20,
]


@case()
def garbage_and_half_requests_while_others_work(machine):
    mcv = machine.mcv(one_pool(machine.servers(2)))
    chosen = random.Random(5)
    with workers(mcv, 4), contextlib.ExitStack() as kept:
        clients = [kept.enter_context(mcv.client()) for _ in range(50)]
        for n, client in enumerate(clients):
            sent = GARBAGE[n] if n < len(GARBAGE) else chosen.randbytes(chosen.randrange(1, 4000))
            with contextlib.suppress(OSError):
                client.send(sent)
        for _ in range(5):
            for client in clients[::2]:
                with contextlib.suppress(OSError):
                    client.send(chosen.randbytes(200))
    with mcv.client() as client:
        client.ask(b"get g\r\n", b"END\r\n")


def used(mcv):
    """Megabytes of memory that a program has, its threads, its maps, and its files."""
    with open("/proc/%d/status" % mcv.process.pid) as file:
        rows = dict(row.split(":", 1) for row in file)
    with open("/proc/%d/maps" % mcv.process.pid) as file:
        maps = sum(1 for _ in file)
    return int(rows["VmRSS"].split()[0]) // 1024, int(rows["Threads"]), maps, mcv.files()


@case(240)
def forty_thousand_connections_one_after_the_other(machine):
    mcv = machine.mcv(one_pool(machine.servers(1)))
    address = address_of(mcv.address)
    before = None
    for n in range(40000):
        if n == 1000:
            before = used(mcv)
        # From many addresses, since a port isn't free again at once.
        with socket.create_connection(address, timeout=LIMIT, source_address=("127.0.1.%d" % (n // 200 + 1), 0)) as client:
            client.sendall(b"version\r\nquit\r\n")
            found = b""
            while piece := client.recv(100):
                found += piece
            expect(found, b"VERSION mcv 1\r\n", "connection %d" % n)
    # What is left of one connection more, and no thread for any.
    wait_for(lambda: mcv.files() <= before[3] + 1, "the last connection is closed")
    after = used(mcv)
    if any(now > was + more for was, now, more in zip(before, after, (8, 0, 40, 1))):
        raise Failed("(megabytes, threads, maps, files) are %s, and were %s after 1,000" % (after, before))


@case()
def five_hundred_idle_clients_take_no_thread_and_little_memory(machine):
    """Each has been answered once. The goal is 8 kB for one."""
    mcv = machine.mcv(one_pool(machine.servers(1)))
    with contextlib.ExitStack() as kept:
        clients = [kept.enter_context(mcv.client()) for _ in range(10)]
        for client in clients:
            client.ask(b"get a\r\n", b"END\r\n")
        threads, before = used(mcv)[1], mcv.resident()
        for _ in range(500):
            client = kept.enter_context(mcv.client())
            client.ask(b"get a\r\n", b"END\r\n")
            clients.append(client)
        for client in clients:
            client.ask(b"get a\r\n", b"END\r\n")
        expect(used(mcv)[1], threads, "threads")
        # Beside them the history of the chapter grows by some 450 bytes for a call.
        more = mcv.resident() - before - 1010 * 450
        if more > 500 * 8192:
            raise Failed("500 clients take %d bytes" % more)
    wait_for(lambda: mcv.files() < 100, "the clients are closed")


def getting(mcv, count, wanted, faults, most):
    """So many gets of the large value, one after the other; keeps the most megabytes that the program had meanwhile."""
    try:
        with mcv.client() as client:
            for _ in range(count):
                client.send(b"get large\r\n")
                if client.exactly(len(wanted)) != wanted:
                    raise Failed("another value")
                most.append(max(most.pop(), used(mcv)[0]))
    except (Failed, OSError, IndexError) as fault:
        faults.append(repr(fault))


@case(240)
def large_values_are_let_go_of(machine):
    server = machine.servers(1)[0]
    mcv = machine.mcv(one_pool([server]))
    value = b"x" * 100000
    with mcv.client() as client:
        client.ask(stored(b"large", value), b"STORED\r\n")
    faults, most = [], [[0] for _ in range(8)]
    threads = [threading.Thread(target=getting, args=(mcv, 2500, value_answer(b"large", value), faults, one)) for one in most]
    for thread in threads:
        thread.start()
    for thread in threads:
        thread.join()
    expect(faults, [], "faults of clients that get")
    # 2 GB of values went through the history of its chapters, which lets go of them from 64 MiB on.
    if max(one[0] for one in most) >= 400:
        raise Failed("the program had %d megabytes" % max(one[0] for one in most))


def refused(mcv, asked, faults):
    """Asks for answers that are past their limit."""
    try:
        with mcv.client() as client:
            for sent in asked:
                client.ask(sent, OUT_OF_MEMORY)
    except (Failed, OSError) as fault:
        faults.append(str(fault))


def peak(mcv):
    """The most megabytes that a program ever had."""
    with open("/proc/%d/status" % mcv.process.pid) as status:
        return next(int(line.split()[1]) // 1024 for line in status if line.startswith("VmHWM:"))


@case(120)
def answers_past_their_limit_take_no_memory(machine):
    """Eight clients ask for 128 MB each, in lines of 32,000 keys, of which 1,024 are asked for at a time; and then, many times, for a
    little more than an answer may have. The rest is the history, some 64 MiB of one chapter and of the one before."""
    mcv = machine.mcv(one_pool(machine.servers(2)), answer_bytes=2_000_000)
    with mcv.client() as client:
        client.ask(stored(b"a", b"x" * 4000) + stored(b"b", b"y" * 4000), b"STORED\r\n" * 2)
    asked = [get_of([b"a", b"b"] * 16000)] * 3 + [get_of([b"a", b"b"] * 300)] * 60
    faults = []
    threads = [threading.Thread(target=refused, args=(mcv, asked, faults)) for _ in range(8)]
    for thread in threads:
        thread.start()
    for thread in threads:
        thread.join()
    expect(faults, [], "faults of clients that are refused")
    if peak(mcv) >= 300:
        raise Failed("the program had %d megabytes" % peak(mcv))


@case()
def a_client_past_its_time_is_closed(machine):
    mcv = machine.mcv(one_pool(machine.servers(1)), client_timeout=1000)
    with mcv.client() as idle, mcv.client() as half, mcv.client() as deaf, mcv.client() as works:
        works.ask(stored(b"big", b"x" * 1000000), b"STORED\r\n")
        half.send(b"set a 0 0 5\r\nab")
        # Far more than the system keeps for who doesn't read it.
        deaf.send(b"get big\r\n" * 30)
        for _ in range(60):
            works.ask(b"get a\r\n", b"END\r\n")
            time.sleep(0.1)
        expect(idle.rest() + half.rest(), b"")
        if len(deaf.rest()) >= 30 * 1000000:
            raise Failed("a client that reads nothing has all its answers")
        works.ask(b"get a\r\n", b"END\r\n")


TOO_MANY = b"SERVER_ERROR too many clients\r\n"


def told(*counts):
    return UNLIMITED + b"".join(b"mcv: too many clients: %d refused\n" % count for count in counts)


def is_served(mcv):
    """Whether there is a seat for a further client. It is told where there is none, and may be told before it has asked."""
    with mcv.client() as other:
        other.send(b"get a\r\nquit\r\n")
        line = other.line()
        expect(line in (b"END\r\n", TOO_MANY), True, "an answer, %s" % line)
        return line == b"END\r\n"


@case()
def clients_past_the_limit_are_refused(machine):
    mcv = machine.mcv(one_pool(machine.servers(1)), max_clients=2)
    with mcv.client() as one, mcv.client() as two:
        for client in (one, two):
            client.ask(b"get a\r\n", b"END\r\n")
        for n in range(1001):
            with mcv.client() as third:
                expect(third.rest(), TOO_MANY, "client %d past the limit" % n)
            expect(mcv.error_text(), told(1) if n < 999 else told(1, 1000), "standard error")
        two.ask(b"get a\r\nquit\r\n", b"END\r\n")
        expect(two.rest(), b"")
        wait_for(lambda: is_served(mcv), "a seat is free again")
        one.ask(b"get a\r\n", b"END\r\n")


@case()
def a_client_that_is_refused_is_no_session(machine):
    mcv = machine.mcv(one_pool(machine.servers(1)), max_clients=1, sessions=2)
    with mcv.client() as one:
        one.ask(b"get a\r\n", b"END\r\n")
        for _ in range(3):
            with mcv.client() as other:
                expect(other.rest(), TOO_MANY)
    wait_for(lambda: is_served(mcv), "the second session")
    expect(mcv.last_lines(), (b"mcv closed calls 2\n", 0))


@case(120)
def clients_that_read_nothing_stop_no_other_and_cost_an_answer_each(machine):
    """Each asks for 100 MB in one piece: what is asked of it, beside what the system keeps for who doesn't read, is 1 MiB and an
    answer. 64 MiB are those of the history."""
    mcv = machine.mcv(one_pool(machine.servers(1)))
    value = b"x" * 1000000
    with contextlib.ExitStack() as kept:
        deaf = [kept.enter_context(mcv.client()) for _ in range(10)]
        deaf[0].ask(stored(b"big", value), b"STORED\r\n")
        for client in deaf:
            client.send(b"get big\r\n" * 100)
        with workers(mcv, 4):
            time.sleep(2)
        if used(mcv)[0] > 250:
            raise Failed("ten clients that read nothing take %d megabytes" % used(mcv)[0])
        # Once one reads it has all, in whole answers.
        wanted = value_answer(b"big", value)
        for number in range(100):
            expect(deaf[0].exactly(len(wanted)) == wanted, True, "answer %d" % number)


@case()
def clients_that_go_in_the_midst_stop_no_other(machine):
    mcv = machine.mcv(one_pool(machine.servers(1)))
    before = mcv.files()
    with workers(mcv, 2):
        for n in range(100):
            client = mcv.client()
            client.send(stored(b"big", b"x" * 100000) + b"get big\r\n" * 20 if n % 2 else b"get big\r\nset big 0 0 100000\r\nx")
            client.close_with_reset()
    # One connection is that to the server.
    wait_for(lambda: mcv.files() <= before + 1, "each connection is closed")


@case()
def a_client_that_sends_no_more_is_answered_whole(machine):
    """The end of its bytes is seen together with its last requests, or comes while one of them is out."""
    server = machine.fake(Late())
    mcv = machine.mcv(one_pool([server.text]), server_timeout=20000)
    for count in (1, 5000):
        server.goes.set()
        with mcv.client() as client:
            client.ask(b"get a\r\n", b"END\r\n")
            freeze(mcv.process)
            client.send(b"get b\r\n" * count)
            client.socket.shutdown(socket.SHUT_WR)
            mcv.process.send_signal(signal.SIGCONT)
            expect(client.rest() == b"END\r\n" * count, True, "%d gets, seen together with the end, have another answer" % count)
        server.goes.clear()
        with mcv.client() as client:
            asked = len(server.requests)
            client.send(b"get c\r\n")
            wait_for(lambda: len(server.requests) > asked, "the server is asked")
            client.send(b"get d\r\n" * count)
            client.socket.shutdown(socket.SHUT_WR)
            time.sleep(0.2)
            server.goes.set()
            expect(client.rest() == b"END\r\n" * (count + 1), True, "%d gets behind one that was out have another answer" % count)


@case()
def a_client_closed_in_the_midst_of_its_request_has_asked_nothing(machine):
    fake = machine.fake(Fake())
    mcv = machine.mcv(one_pool([fake.text]))
    before = mcv.files()
    for sent in (b"set k 0 0 10\r\nhalf", b"set k 0 0 3\r\nabc\r", b"delete k", b"delete k\r", b"get k", b"get k k", b"incr k 1"):
        for close in (Client.close_with_reset, lambda client: client.socket.close()):
            client = mcv.client()
            client.send(sent)
            close(client)
    wait_for(lambda: mcv.files() == before, "each is closed")
    with mcv.client() as client:
        client.ask(b"get after\r\n", b"END\r\n")
    expect(fake.requests, [(b"get", b"after")], "what the server was asked")


@case()
def a_client_closed_in_the_midst_of_its_answer_takes_nothing_with_it(machine):
    """The connection to the server goes on, with the replies to others; the client's is closed."""
    value = b"x" * 1000000
    fake = machine.fake(Fake(values=lambda key: value if key == b"big" else b"of " + key))
    mcv = machine.mcv(one_pool([fake.text]))
    with mcv.client() as other:
        other.ask(b"get a\r\n", value_answer(b"a", b"of a"))
        before = mcv.files()
        for number in range(40):
            client = mcv.client()
            client.send(b"get big\r\n" * 5)
            expect(client.exactly(1000), value_answer(b"big", value)[:1000], "the begin of an answer")
            if number % 2:
                client.close_with_reset()
            else:
                client.socket.close()
            other.ask(b"get k%d\r\n" % number, value_answer(b"k%d" % number, b"of k%d" % number))
        wait_for(lambda: mcv.files() == before, "each is closed")
    expect(fake.accepted, 1, "connections to the server")


@case()
def deletes_without_reply_of_clients_that_go_are_performed(machine):
    servers = machine.servers(2)
    mcv = machine.mcv(deletes_to_all(servers))
    with mcv.client() as look:
        for n in range(30):
            look.ask(stored(b"k%d" % n, b"1"), b"STORED\r\n")
            with mcv.client() as client:
                client.send(b"delete k%d noreply\r\n" % n)

        def gone():
            look.send(b"get " + b" ".join(b"k%d" % n for n in range(30)) + b"\r\n")
            found = look.line()
            while found[-5:] != b"END\r\n":
                found += look.line()
            return found == b"END\r\n"

        wait_for(gone, "each delete is performed")


@case()
def each_key_has_one_hub(machine):
    """By FNV-1a `a` has hub 0 of two and `b` hub 1: each hub has a connection of its own, which all clients share."""
    fake = machine.fake(Fake())
    mcv = machine.mcv(one_pool([fake.text]), hubs=2)
    with contextlib.ExitStack() as kept:
        for n in range(3):
            client = kept.enter_context(mcv.client())
            client.ask(b"get a\r\n", b"END\r\n")
            expect(len(fake.connections), 2 if n else 1, "connections to the server")
            client.ask(b"get b\r\n", b"END\r\n")
            expect(len(fake.connections), 2, "connections to the server")


@case(120)
def a_server_of_four_hubs_is_killed_and_started_again(machine):
    """Eight clients delete keys of a server that goes away; others work with servers that stay."""
    (text, process), stay = machine.memcached(), machine.servers(2)
    spool = machine.path("mcv.spool")
    route = {"type": "PrefixSelectorRoute", "policies": {"away": "PoolRoute|A"}, "wildcard": "PoolRoute|B"}
    mcv = machine.mcv({"pools": {"A": {"servers": [text]}, "B": {"servers": stay}}, "route": route}, hubs=4)
    own = [[b"away.%d.%d" % (number, n) for n in range(20)] for number in range(8)]
    every = [key for keys in own for key in keys]
    with workers(mcv, 8), contextlib.ExitStack() as kept:
        clients = [kept.enter_context(mcv.client()) for _ in own]
        for client, keys in zip(clients, own):
            for key in keys:
                client.ask(stored(key, b"1") + b"get " + key + b"\r\n", b"STORED\r\n" + value_answer(key, b"1"))
        process.kill()
        process.wait()
        for client, keys in zip(clients, own):
            client.send(b"".join(b"delete " + key + b"\r\n" for key in keys))
        for client, keys in zip(clients, own):
            wanted = b"NOT_FOUND\r\n" * len(keys)
            expect(client.exactly(len(wanted)), wanted, "deletes while the server is away")
        replayed(machine, mcv, spool, text, every)
        for client, keys in zip(clients, own):
            def back():
                client.send(b"get " + keys[0] + b"\r\n")
                return client.line() == b"END\r\n"

            wait_for(back, "gets are answered again")
            client.ask(stored(keys[0], b"2") + b"delete " + keys[0] + b"\r\n", b"STORED\r\nDELETED\r\n")
        expect(len(records(spool)), len(every), "records, once the server is back")
