"""Stops in the midst: a delete that was acknowledged is at each server or in the spool file."""
import random
import threading
import time

from fakes import DROP, PERFORM, PERFORM_AND_DROP, REFUSE, Fake
from parts import Failed, case, deletes_to_all, expect, free_port, one_pool, pending, records, wait_for

KILLS = 50
CLIENTS = 8
SERVERS = 3
# Files that are each written by so many programs, all of which are killed.
FILES, KILLS_OF_A_FILE = 10, 20


class Moods:
    """What servers do with requests: they perform most, until they are healed and perform all."""

    def __init__(self, chosen):
        self.chosen = chosen
        self.healed = False

    def __call__(self):
        if self.healed:
            return PERFORM
        return self.chosen.choices([PERFORM, REFUSE, DROP, PERFORM_AND_DROP], [85, 5, 5, 5])[0]


def deleting(mcv, name, acknowledged, pause=0):
    """Deletes one key after the other, some of them in a row without waiting, with so many seconds between the rows, and keeps
    those that were acknowledged, until the connection ends."""
    number = 0
    try:
        with mcv.client() as client:
            while True:
                keys = [b"%s.%d" % (name, number + k) for k in range(1 + number % 3)]
                number += len(keys)
                client.send(b"".join(b"delete " + key + b"\r\n" for key in keys))
                for key in keys:
                    line = client.line()
                    if line in (b"DELETED\r\n", b"NOT_FOUND\r\n"):
                        acknowledged.append(key)
                    elif line.endswith(b"\n") and not line.startswith(b"SERVER_ERROR "):
                        raise Failed("a delete was answered %r" % line)
                    elif not line.endswith(b"\n"):
                        return
                time.sleep(pause)
    except OSError:
        pass


def loaded(mcv, turn, chosen, most=0.4):
    """Deletes of several clients until a random moment, so many seconds on at most, at which mcv is killed: the keys that were
    acknowledged."""
    acknowledged = []
    threads = [threading.Thread(target=deleting, args=(mcv, b"%d.%d" % (turn, n), acknowledged)) for n in range(CLIENTS)]
    for thread in threads:
        thread.start()
    # The moment counts from the first acknowledged delete; so each turn has some, on a busy machine too.
    wait_for(lambda: acknowledged, "a first delete is acknowledged")
    time.sleep(chosen.uniform(0, most))
    mcv.kill()
    for thread in threads:
        thread.join()
    return acknowledged


def missing(acknowledged, servers, spool):
    """The deletes that are neither at a server nor in the spool file for it."""
    kept = {(server, rest) for _, server, rest in records(spool)}
    for server in servers:
        text = server.text.encode()
        yield from ((text, key) for key in acknowledged if key not in server.performed and (text, key) not in kept)


@case(240)
def fifty_kills_lose_no_acknowledged_delete(machine):
    seed = random.randrange(1 << 32)
    chosen = random.Random(seed)
    moods = Moods(chosen)
    servers = [machine.fake(Fake(moods)) for _ in range(SERVERS)]
    config = deletes_to_all([server.text for server in servers])
    spool = machine.path("mcv.spool")
    every = []
    for turn in range(KILLS):
        before = len(pending(spool)) if turn else 0
        mcv = machine.mcv(config)
        expect(mcv.pending, before, "pending at start %d (seed %d)" % (turn, seed))
        every += loaded(mcv, turn, chosen)
        lost = list(missing(every, servers, spool))
        if lost:
            raise Failed("after kill %d (seed %d) %d of %d are lost, as %r" % (turn, seed, len(lost), len(every), lost[0]))
    moods.healed = True
    machine.mcv(config)
    wait_for(lambda: not pending(spool), "all that is spooled is sent again")
    for server in servers:
        expect([key for key in every if key not in server.performed], [], "not performed in the end (seed %d)" % seed)


def killed_in_the_midst(machine, config, spool, chosen, turn, before):
    """Deletes of a server that is away until mcv is killed; the records that are pending then, those of before among them."""
    mcv = machine.mcv(config, spool=spool)
    expect(mcv.pending, len(before), "pending at start %d" % turn)
    acknowledged = loaded(mcv, turn, chosen, most=0.1)
    found = pending(spool)
    expect(found[: len(before)], before, "the records of before, after kill %d" % turn)
    kept = {rest for _, rest in found}
    expect([key for key in acknowledged if key not in kept], [], "acknowledged and not in the file, after kill %d" % turn)
    expect(len(kept), len(found), "records of different keys, after kill %d" % turn)
    return found


@case(240)
def two_hundred_kills_leave_each_delete_of_a_server_that_is_away_in_the_file(machine):
    seed = random.randrange(1 << 32)
    chosen = random.Random(seed)
    config = one_pool(["127.0.0.1:%d" % free_port()])
    for number in range(FILES):
        spool, found = machine.path("spool.%d" % number), []
        try:
            for turn in range(KILLS_OF_A_FILE):
                found = killed_in_the_midst(machine, config, spool, chosen, turn, found)
            expect(machine.mcv(config, spool=spool).pending, len(found), "pending at the last start")
        except Failed as failed:
            raise Failed("%s (file %d, seed %d)" % (failed, number, seed))
