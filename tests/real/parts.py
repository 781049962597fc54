"""What the cases are made of: programs that are started and ended for one case, a client that sends plain bytes, and waits
that end."""
import json
import os
import random
import signal
import socket
import struct
import subprocess
import tempfile
import time

from spool import pending, records

# Seconds that any wait may take. What is awaited comes in milliseconds; the rest is for a machine that is busy.
LIMIT = 30.0
# What a run says on standard error where it has no limit for servers.
UNLIMITED = b"mcv: no --server-timeout: a server that never answers will stop all clients\n"
# Servers take values of 1 MiB; without this memcached's own limit counts the key and the item's head too.
ITEM_LIMIT = "2m"


class Failed(Exception):
    """A case has failed, and why."""


def shown(value):
    text = repr(value)
    return text if len(text) <= 400 else text[:200] + " .. " + text[-200:]


def around_difference(found, wanted):
    """Where two texts begin to differ, and what each has there."""
    at = next((n for n, (one, other) in enumerate(zip(found, wanted)) if one != other), min(len(found), len(wanted)))
    before = max(0, at - 40)
    return "at byte %d %s in place of %s" % (at, shown(found[before:at + 120]), shown(wanted[before:at + 40]))


def expect(found, wanted, what="another answer"):
    if found == wanted:
        return
    if isinstance(found, bytes) and isinstance(wanted, bytes) and len(wanted) > 300:
        raise Failed("%s: %s" % (what, around_difference(found, wanted)))
    raise Failed("%s: %s in place of %s" % (what, shown(found), shown(wanted)))


def wait_for(condition, what, limit=LIMIT):
    """Waits until the condition gives something true, and returns it."""
    end = time.monotonic() + limit
    while True:
        found = condition()
        if found:
            return found
        if time.monotonic() > end:
            raise Failed("not within %d seconds: %s" % (limit, what))
        time.sleep(0.005)


def family_of(host):
    return socket.AF_INET6 if ":" in host else socket.AF_INET


def free_port(host="127.0.0.1"):
    """A port that nobody listens on, below those that the system gives to clients."""
    while True:
        port = random.randrange(15000, 30000)
        with socket.socket(family_of(host)) as tried:
            try:
                tried.bind((host, port))
                return port
            except OSError:
                pass


def text_of(host, port):
    """An address as configurations and --listen have it."""
    return "[%s]:%d" % (host, port) if ":" in host else "%s:%d" % (host, port)


def address_of(text):
    host, port = text.rsplit(":", 1)
    return host.strip("[]"), int(port)


class Client:
    """A connection that bytes are sent over. Every call ends after LIMIT seconds."""

    def __init__(self, text):
        self.socket = socket.create_connection(address_of(text), timeout=LIMIT)
        self.socket.setsockopt(socket.IPPROTO_TCP, socket.TCP_NODELAY, 1)
        self.kept = b""

    def __enter__(self):
        return self

    def __exit__(self, *_):
        self.socket.close()

    def send(self, sent):
        self.socket.sendall(sent)

    def more(self):
        piece = self.socket.recv(1 << 16)
        self.kept += piece
        return piece

    def line(self):
        """The next line, with its end; less where the connection ended."""
        while b"\n" not in self.kept and self.more():
            pass
        end = self.kept.find(b"\n") + 1 or len(self.kept)
        line, self.kept = self.kept[:end], self.kept[end:]
        return line

    def exactly(self, count):
        pieces, have = [self.kept], len(self.kept)
        while have < count:
            piece = self.socket.recv(1 << 20)
            if not piece:
                break
            pieces.append(piece)
            have += len(piece)
        every = b"".join(pieces)
        self.kept = every[count:]
        return every[:count]

    def rest(self):
        """All bytes up to the end of the connection."""
        pieces = [self.kept]
        self.kept = b""
        try:
            while True:
                piece = self.socket.recv(1 << 20)
                if not piece:
                    break
                pieces.append(piece)
        except ConnectionResetError:
            pieces.append(b"<reset>")
        return b"".join(pieces)

    def close_with_reset(self):
        self.socket.setsockopt(socket.SOL_SOCKET, socket.SO_LINGER, struct.pack("ii", 1, 0))
        self.socket.close()

    def ask(self, sent, wanted):
        """Sends bytes, and expects these as the answer."""
        self.send(sent)
        expect(self.exactly(len(wanted)), wanted, "the answer to " + shown(sent))


def answer(text, sent):
    """All that is answered to bytes behind which the client's input ends."""
    with Client(text) as client:
        client.send(sent)
        client.socket.shutdown(socket.SHUT_WR)
        return client.rest()


class Mcv:
    """A running `mcv run`."""

    def __init__(self, process, first, errors):
        self.process = process
        self.errors = errors
        words = first.split()
        if len(words) != 5 or words[:2] != [b"mcv", b"listening"] or words[3] != b"pending" or not first.endswith(b"\n"):
            raise Failed("the first line is %s; standard error: %s" % (shown(first), shown(self.error_text())))
        self.address = words[2].decode()
        self.pending = int(words[4])

    def client(self):
        return Client(self.address)

    def error_text(self):
        with open(self.errors, "rb") as file:
            return file.read()

    def resident(self):
        """How many bytes of memory the program has."""
        with open("/proc/%d/status" % self.process.pid) as status:
            return next(int(line.split()[1]) * 1024 for line in status if line.startswith("VmRSS:"))

    def seconds(self):
        """How many seconds of a processor the program has had."""
        with open("/proc/%d/stat" % self.process.pid) as stat:
            words = stat.read().rpartition(")")[2].split()
        return (int(words[11]) + int(words[12])) / os.sysconf("SC_CLK_TCK")

    def files(self):
        """How many files and connections it has open."""
        return len(os.listdir("/proc/%d/fd" % self.process.pid))

    def kill(self):
        self.process.kill()
        self.process.wait(LIMIT)
        self.process.stdout.close()

    def last_lines(self):
        """All that was printed behind the first line, once the program has ended, and its status."""
        printed = self.process.stdout.read()
        return printed, self.process.wait(LIMIT)


class Machine:
    """The programs and files of one case. All are ended and removed at its end, and also where this program is killed."""

    def __init__(self, program):
        self.program = program
        self.place = tempfile.TemporaryDirectory(prefix="mcv-real-")
        self.folder = self.place.name
        self.ends = []
        self.count = 0

    def __enter__(self):
        return self

    def __exit__(self, *_):
        for end in reversed(self.ends):
            end()
        self.place.cleanup()

    def path(self, name):
        return os.path.join(self.folder, name)

    def start(self, words, **more):
        """Starts a program that is killed when the case ends or this program does."""
        process = subprocess.Popen(["setpriv", "--pdeathsig", "KILL"] + words, **more)

        def end():
            process.kill()
            process.wait()
            if process.stdout:
                process.stdout.close()

        self.ends.append(end)
        return process

    def memcached(self, host="127.0.0.1", port=None):
        """A server: its text and its process."""
        port = port or free_port(host)
        text = text_of(host, port)
        words = ["memcached", "-l", host, "-p", str(port), "-U", "0", "-t", "1", "-I", ITEM_LIMIT]
        if os.geteuid() == 0:
            words += ["-u", "root"]
        process = self.start(words, stdin=subprocess.DEVNULL, stdout=subprocess.DEVNULL, stderr=subprocess.DEVNULL)

        def answers():
            try:
                return answer(text, b"version\r\n").startswith(b"VERSION ")
            except OSError:
                return False

        wait_for(answers, "memcached answers at " + text)
        return text, process

    def servers(self, count):
        return [self.memcached()[0] for _ in range(count)]

    def fake(self, server):
        """A server of the tests' own, which is closed when the case ends."""
        self.ends.append(server.close)
        return server

    def words(self, listen="127.0.0.1:0", spool=None, **numbers):
        """The words of `mcv run`; more options by their names, as server_timeout=200."""
        spool = spool or self.path("mcv.spool")
        words = [self.program, "run", "--listen", listen, "--spool", spool]
        return words + [word for name, number in numbers.items() for word in ("--" + name.replace("_", "-"), str(number))]

    def config_file(self, config):
        path = self.path("config.json")
        with open(path, "w") as file:
            file.write(config if isinstance(config, str) else json.dumps(config))
        return path

    def mcv(self, config, before=(), **how):
        """`mcv run` once it listens. Words before it may change what the process may do."""
        self.count += 1
        errors = self.path("errors.%d" % self.count)
        with open(self.config_file(config)) as given, open(errors, "wb") as to:
            process = self.start(list(before) + self.words(**how), stdin=given, stdout=subprocess.PIPE, stderr=to)
        return Mcv(process, first_line(process), errors)

    def refused(self, config, words=None, **how):
        """Of an `mcv` that ends by itself: its status, standard output and standard error."""
        with open(self.config_file(config)) as given:
            words = words or self.words(**how)
            done = subprocess.run(words, stdin=given, capture_output=True, timeout=LIMIT)
        return done.returncode, done.stdout, done.stderr


def first_line(process):
    """The first line that a process prints, or less where it ends or LIMIT is over."""
    os.set_blocking(process.stdout.fileno(), False)
    found = b""

    def read():
        nonlocal found
        piece = process.stdout.read(1 << 16)
        found += piece or b""
        return b"\n" in found or piece == b"" or process.poll() is not None and piece is None

    try:
        wait_for(read, "a first line")
    except Failed:
        process.send_signal(signal.SIGKILL)
    os.set_blocking(process.stdout.fileno(), True)
    return found


def one_pool(servers):
    return {"pools": {"A": {"servers": servers}}, "route": "PoolRoute|A"}


def deletes_to_all(servers):
    """Deletes go to all servers of the pool, anything else to the one of its key."""
    route = {
        "type": "OperationSelectorRoute",
        "operation_policies": {"delete": "AllSyncRoute|Pool|A"},
        "default_policy": "PoolRoute|A",
    }
    return {"pools": {"A": {"servers": servers}}, "route": route}


def index_of(rest, count):
    """The index that the shipped hash gives a key in a pool without a salt: FNV-1a of 64 bits."""
    value = 14695981039346656037
    for byte in rest:
        value = (value ^ byte) * 1099511628211 % (1 << 64)
    return value % count


def value_answer(key, value, flags=0):
    return b"VALUE %s %d %d\r\n%s\r\nEND\r\n" % (key, flags, len(value), value)


def stored(key, value, flags=0):
    return b"set %s %d 0 %d\r\n%s\r\n" % (key, flags, len(value), value)


def is_stopped(process):
    """Whether each thread of a program is stopped."""
    def state(task):
        with open("/proc/%d/task/%s/stat" % (process.pid, task)) as stat:
            return stat.read().rpartition(")")[2].split()[0]

    return all(state(task) == "T" for task in os.listdir("/proc/%d/task" % process.pid))


def freeze(process):
    """Stops a program. Its threads stop some time behind the signal, until when they may still answer."""
    process.send_signal(signal.SIGSTOP)
    wait_for(lambda: is_stopped(process), "each thread is stopped")


def replayed(machine, mcv, spool, text, keys):
    """Starts the server of this address, with an old value of each key, and waits until the spool's deletes were sent again."""
    expect(sorted(pending(spool)), sorted((text.encode(), key) for key in keys), "pending in the spool")
    # mcv is held while the keys are put there, so that only a delete that is sent again takes them away.
    freeze(mcv.process)
    machine.memcached(port=address_of(text)[1])
    for key in keys:
        expect(answer(text, stored(key, b"old")), b"STORED\r\n")
    mcv.process.send_signal(signal.SIGCONT)
    wait_for(lambda: answer(text, b"get " + b" ".join(keys) + b"\r\n") == b"END\r\n", "each delete is sent again")
    wait_for(lambda: not pending(spool), "each record is marked as done")


def case(seconds=60, stall=None):
    """Marks a function as a case that may take so many seconds. Where it fails on a machine that stood still for `stall` seconds, that
    says nothing, and it runs again."""
    def marked(function):
        function.seconds = seconds
        function.stall = stall
        return function
    return marked
