"""`mcv spool`: the records of a spool's file as text, beside a running proxy and without one."""
import contextlib
import os
import subprocess
import threading

from parts import LIMIT, case, expect, free_port, one_pool, records, replayed, text_of, wait_for

# A key of each kind of byte that is written otherwise, and plain ones.
KEYS = [b"a", b"x%", b"\xc3\xa9", b"b" * 250, b"~\x80\xff!"]


def escaped(rest):
    """As docs/TEXTS.md has it: 33 to 126 but for `%` as they are, any other byte as `%` and two digits."""
    return b"".join(bytes([b]) if 33 <= b <= 126 and b != 37 else b"%%%02X" % b for b in rest)


def listed(spool, every):
    """The text that `mcv spool` has to write, by the tests' own reader of the file."""
    all_records = records(spool)
    lines = [b"%d %s %s %s\n" % (n, b"done" if is_done else b"pending", server, escaped(rest))
             for n, (is_done, server, rest) in enumerate(all_records) if every or not is_done]
    waiting = sum(not is_done for is_done, _, _ in all_records)
    return b"".join(lines) + b"records %d pending %d\n" % (len(all_records), waiting)


def mcv_spool(machine, *words):
    """Status, standard output and standard error of `mcv spool`."""
    done = subprocess.run([machine.program, "spool", *words], stdin=subprocess.DEVNULL, capture_output=True, timeout=LIMIT)
    return done.returncode, done.stdout, done.stderr


def most_memory(pid):
    """The most memory that the process has had, in kB."""
    with open("/proc/%d/status" % pid) as status:
        return next(int(line.split()[1]) for line in status if line.startswith("VmHWM:"))


@case()
def records_are_shown_beside_a_running_proxy(machine):
    spool, port = machine.path("mcv.spool"), free_port()
    text = text_of("127.0.0.1", port)
    mcv = machine.mcv(one_pool([text]))
    with mcv.client() as client:
        for key in KEYS:
            client.ask(b"delete " + key + b"\r\n", b"NOT_FOUND\r\n")
    expect(len(records(spool)), len(KEYS), "records")
    expect(mcv_spool(machine, spool), (0, listed(spool, False), b""))
    expect(mcv_spool(machine, spool)[1].count(b" pending "), len(KEYS) + 1, "lines and a count")
    replayed(machine, mcv, spool, text, KEYS)
    expect(mcv_spool(machine, spool), (0, b"records %d pending 0\n" % len(KEYS), b""))
    expect(mcv_spool(machine, spool, "--all"), (0, listed(spool, True), b""))
    expect(mcv_spool(machine, "--all", spool)[1].count(b" done "), len(KEYS), "lines of records that are done")
    # The proxy has the file still, and writes into it.
    with mcv.client() as client:
        client.ask(b"delete a\r\n", b"NOT_FOUND\r\n")


def deleting(mcv, name, stop):
    """Deletes one key after the other until it is to stop."""
    number = 0
    with contextlib.suppress(OSError), mcv.client() as client:
        while not stop.is_set():
            client.ask(b"delete %s.%d\r\n" % (name, number), b"NOT_FOUND\r\n")
            number += 1


@case()
def each_record_is_shown_whole_while_the_proxy_writes(machine):
    """What is shown is each time the first lines of what the file has in the end, and more from time to time."""
    spool, stop = machine.path("mcv.spool"), threading.Event()
    mcv = machine.mcv(one_pool([text_of("127.0.0.1", free_port())]))
    threads = [threading.Thread(target=deleting, args=(mcv, b"client%d" % n, stop)) for n in range(4)]
    for thread in threads:
        thread.start()
    try:
        wait_for(lambda: records(spool), "a first record")
        shown = [mcv_spool(machine, spool) for _ in range(40)]
    finally:
        stop.set()
        for thread in threads:
            thread.join()
    lines = listed(spool, False).split(b"\n")
    counts = []
    for status, text, errors in shown:
        expect((status, errors), (0, b""))
        *found, last = text.split(b"\n")[:-1]
        expect(found, lines[: len(found)])
        expect(last, b"records %d pending %d" % (len(found), len(found)))
        counts.append(len(found))
    expect(counts, sorted(counts), "counts of records")
    expect(counts[0] < counts[-1], True, "records that were added meanwhile")


@case()
def a_file_is_only_read(machine):
    spool = machine.path("mcv.spool")
    mcv = machine.mcv(one_pool([text_of("127.0.0.1", free_port())]))
    with mcv.client() as client:
        client.ask(b"delete a\r\n", b"NOT_FOUND\r\n")
    mcv.kill()
    before = open(spool, "rb").read()
    os.chmod(spool, 0o400)
    seen = os.stat(spool)
    expect(mcv_spool(machine, spool), (0, listed(spool, False), b""))
    expect(open(spool, "rb").read(), before, "other bytes")
    expect(os.stat(spool).st_mtime_ns, seen.st_mtime_ns, "another time")


@case()
def damaged_slots_and_other_files_are_refused(machine):
    spool = machine.path("mcv.spool")
    mcv = machine.mcv(one_pool([text_of("127.0.0.1", free_port())]))
    with mcv.client() as client:
        for key in [b"a", b"b", b"c"]:
            client.ask(b"delete " + key + b"\r\n", b"NOT_FOUND\r\n")
    mcv.kill()
    whole = open(spool, "rb").read()
    first = listed(spool, False).split(b"\n")[0] + b"\n"
    # The rest of the second record has no byte.
    broken = bytearray(whole)
    broken[640 + 4:640 + 6] = b"\0\0"
    open(spool, "wb").write(broken)
    expect(mcv_spool(machine, spool), (4, first, b"mcv: slot 1 of the spool is damaged\n"))
    # A text isn't a spool's file; nor is a folder, nor a name of nothing.
    text = machine.path("text")
    open(text, "w").write("delete a\n" * 100)
    expect(mcv_spool(machine, text), (4, b"", b"mcv: slot 0 of the spool is damaged\n"))
    expect(mcv_spool(machine, machine.folder), (4, b"", b"mcv: device failed\n"))
    expect(mcv_spool(machine, machine.path("none")), (4, b"", b"mcv: device failed\n"))
    expect(os.path.exists(machine.path("none")), False, "a file was made")
    open(text, "w").close()
    expect(mcv_spool(machine, text), (0, b"records 0 pending 0\n", b""))
    # A last record without the next gate isn't one: it was being written.
    open(spool, "wb").write(whole[:1280])
    expect(mcv_spool(machine, spool), (0, listed(spool, False), b""))
    expect(len(records(spool)), 1, "records")
    with open("/dev/full", "w") as full:
        done = subprocess.run([machine.program, "spool", spool], stdout=full, stderr=subprocess.PIPE, timeout=LIMIT)
    expect((done.returncode, done.stderr), (4, b"mcv: device failed\n"))


@case()
def a_full_file_is_shown_in_little_memory(machine):
    """A file of 200,000 records, a third of them done: each line is there, and it takes no memory that grows with the file."""
    spool = machine.path("mcv.spool")
    with open(spool, "wb") as file:
        for n in range(200000):
            rest = b"k%d" % n
            file.write((b"\1" + bytes([n % 3 == 0]) + b"\0\7" + bytes([0, len(rest)]) + b"a:11211" + rest).ljust(640, b"\0"))
        file.write(b"\0")
    wanted = listed(spool, True)
    process = machine.start([machine.program, "spool", "--all", spool], stdin=subprocess.DEVNULL, stdout=subprocess.PIPE)
    # (more is left than a pipe holds, so the program hasn't ended; what wait4 tells of memory has that of the program that forked)
    written = process.stdout.read(len(wanted) - 300000)
    most = most_memory(process.pid)
    written += process.stdout.read()
    expect(process.wait(LIMIT), 0, "a status")
    expect(most < 8000, True, "%d kB" % most)
    expect(written == wanted, True, "a list")
