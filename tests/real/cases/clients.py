"""Clients that people have: pymemcache, pylibmc, and the tools of libmemcached."""
import os
import subprocess

from pymemcache.client.base import Client as Pymemcache

from parts import LIMIT, Failed, address_of, answer, case, deletes_to_all, expect, one_pool, shown, value_answer
from relays import ANSWERED, HANDED_ON, Relay

# memccapable's cases of the twelve operations and of version. Left out are those of commands that mcv hasn't (flush_all,
# stats, verbosity), and that of quit, which memcached 1.6 fails too where it is run alone.
CHANGES = ["set", "add", "replace", "append", "prepend", "cas", "delete", "incr", "decr"]
CAPABLE = ["version", "get", "gets", "mget", *CHANGES, *(name + " noreply" for name in CHANGES)]
# Those that pass without a relay: no line of them is one that mcv refuses.
CAPABLE_ALONE = ["mget", "append", "prepend", "incr", "decr"]


def pymemcache_at(mcv, **how):
    return Pymemcache(address_of(mcv.address), connect_timeout=LIMIT, timeout=LIMIT, **how)


@case()
def pymemcache_with_replies(machine):
    mcv = machine.mcv(deletes_to_all(machine.servers(2)))
    client = pymemcache_at(mcv, default_noreply=False)
    expect(client.version(), b"mcv 1")
    expect(client.get("a"), None)
    expect(client.set("a", b"1", flags=3), True)
    expect(client.get("a"), b"1")
    expect(client.add("a", b"2"), False)
    expect(client.add("b", b"2"), True)
    expect(client.replace("c", b"3"), False)
    expect(client.replace("b", b"3"), True)
    expect(client.append("b", b">"), True)
    expect(client.prepend("b", b"<"), True)
    expect(client.append("c", b">"), False)
    expect(client.prepend("c", b"<"), False)
    value, unique = client.gets("b")
    expect(value, b"<3>")
    expect(client.cas("b", b"4", unique), True)
    expect(client.cas("b", b"5", unique), False)
    expect(client.cas("c", b"5", unique), None)
    expect(client.get("b"), b"4")
    expect(client.touch("b", 1000), True)
    expect(client.touch("c", 1000), False)
    expect(client.set("n", b"10"), True)
    expect(client.incr("n", 5), 15)
    expect(client.decr("n", 20), 0)
    expect(client.incr("none", 1), None)
    expect(client.decr("none", 1), None)
    # NOT_FOUND of the server that hasn't the key is the worse reply, so pymemcache says False.
    expect(client.delete("b"), False)
    expect(client.get("b"), None)
    expect(client.delete("b"), False)
    client.quit()


@case()
def pymemcache_without_replies(machine):
    mcv = machine.mcv(deletes_to_all(machine.servers(2)))
    client = pymemcache_at(mcv, default_noreply=True)
    for n in range(20):
        key = "k%d" % n
        client.set(key, b"1")
        expect(client.get(key), b"1")
        client.add(key, b"2")
        client.replace(key, b"3")
        client.append(key, b">")
        client.prepend(key, b"<")
        client.touch(key, 1000)
        value, unique = client.gets(key)
        expect(value, b"<3>")
        client.cas(key, b"4", unique, noreply=True)
        expect(client.get(key), b"4")
        client.set(key, b"10")
        client.incr(key, 5, noreply=True)
        client.decr(key, 3, noreply=True)
        expect(client.get(key), b"12")
        client.delete(key)
        expect(client.get(key), None)
    client.close()


@case()
def pymemcache_with_many_keys(machine):
    mcv = machine.mcv(deletes_to_all(machine.servers(3)))
    client = pymemcache_at(mcv)
    values = {"key%d" % n: b"value %d" % n for n in range(500)}
    expect(client.set_many(values, noreply=False), [])
    expect(client.get_many(list(values)), values)
    expect(client.get_many(["none", "key7", "no"]), {"key7": b"value 7"})
    expect({key: value for key, (value, _) in client.gets_many(list(values)).items()}, values)
    expect(client.delete_many(list(values), noreply=False), True)
    expect(client.get_many(list(values)), {})
    client.set_many(values, noreply=True)
    expect(client.get_many(list(values)), values)
    client.delete_many(list(values), noreply=True)
    expect(client.get_many(list(values)), {})
    client.close()


# It is run by Debian's python3, for which Debian's pylibmc is built.
PYLIBMC = """
import sys
import pylibmc
client = pylibmc.Client(sys.argv[1:])
print(client.set("n", 10), client.incr("n", 5), client.decr("n", 20), client.incr("n", 3), client.get("n"))
for ask in (client.incr, client.decr):
    try:
        print(ask("none", 1))
    except pylibmc.NotFound:
        print("not found")
"""


@case()
def pylibmc_counts(machine):
    mcv = machine.mcv(deletes_to_all(machine.servers(2)))
    host, port = address_of(mcv.address)
    words = ["/usr/bin/python3", "-c", PYLIBMC, "%s:%d" % (host, port)]
    done = subprocess.run(words, capture_output=True, text=True, timeout=LIMIT)
    expect((done.stdout, done.stderr), ("True 15 0 3 3\nnot found\nnot found\n", ""), "what pylibmc was answered")


def capable(server, name):
    """Whether memccapable's case passes at the server."""
    host, port = address_of(server)
    words = ["memccapable", "-h", host, "-p", str(port), "-a", "-t", str(int(LIMIT)), "-T", "ascii " + name]
    done = subprocess.run(words, capture_output=True, text=True, timeout=LIMIT)
    return done.returncode == 0 and "[pass]" in done.stdout


@case(120)
def memccapable_passes_its_cases_of_what_is_answered_alike(machine):
    mcv = machine.mcv(one_pool(machine.servers(2)))
    failed = [name for name in CAPABLE_ALONE if not capable(mcv.address, name)]
    expect(failed, [], "memccapable's ASCII cases that fail")


@case(120)
def memccapable_passes_its_cases_behind_a_relay_for_the_lines_that_are_refused(machine):
    mcv = machine.mcv(one_pool(machine.servers(2)))
    relay = machine.fake(Relay(address_of(mcv.address)))
    failed = [name for name in CAPABLE if not capable(relay.text, name)]
    expect(failed, [], "memccapable's ASCII cases that fail")
    expect(relay.changed, {*HANDED_ON, *ANSWERED}, "the lines that the relay changed")


def tool(mcv, name, *words):
    host, port = address_of(mcv.address)
    done = subprocess.run([name, "--servers=%s:%d" % (host, port), *words], capture_output=True, timeout=LIMIT)
    return done.returncode, done.stdout, done.stderr


@case()
def memccp_memccat_and_memcrm(machine):
    servers = machine.servers(2)
    mcv = machine.mcv(deletes_to_all(servers))
    files = {"first": b"one line\n", "second": os.urandom(70000), "third": b""}
    for name, value in files.items():
        with open(machine.path(name), "wb") as file:
            file.write(value)
    status, _, errors = tool(mcv, "memccp", *map(machine.path, files))
    expect((status, errors), (0, b""), "memccp")
    for name, value in files.items():
        with mcv.client() as client:
            client.ask(b"get %s\r\n" % name.encode(), value_answer(name.encode(), value))
    status, printed, _ = tool(mcv, "memccat", "first")
    expect((status, printed.strip()), (0, b"one line"), "memccat")
    status, _, _ = tool(mcv, "memccat", "nothing")
    if status == 0:
        raise Failed("memccat of nothing ends with 0")
    tool(mcv, "memcrm", "first", "second", "third")
    for name in files:
        for server in servers:
            expect(answer(server, b"get %s\r\n" % name.encode()), b"END\r\n", "after memcrm")


@case()
def memctouch_and_memcexist(machine):
    servers = machine.servers(2)
    mcv = machine.mcv(deletes_to_all(servers))
    with mcv.client() as client:
        client.ask(b"set a 0 0 1\r\nx\r\n", b"STORED\r\n")
    for name, words, done in [
        ("memctouch", ["--expire=1000", "a"], True),
        ("memctouch", ["--expire=1000", "none"], False),
        ("memcexist", ["a"], True),
        ("memcexist", ["none"], False),
    ]:
        status, printed, errors = tool(mcv, name, *words)
        if (status == 0) != done:
            raise Failed("%s %s ends with %d: %s" % (name, words, status, shown(printed + errors)))
