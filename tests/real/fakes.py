"""Servers of the tests' own, which note deletes and misbehave when they are asked to."""
import contextlib
import socket
import struct
import threading
import time

from listening import Listening
from parts import LIMIT, one_pool, value_answer

PERFORM, REFUSE, DROP, PERFORM_AND_DROP, SILENCE = "perform", "refuse", "drop", "perform and drop", "silence"
PERFORM_SILENTLY, BREAK_OFF = "perform silently", "break off"
STORING = (b"set", b"add", b"replace", b"append", b"prepend", b"cas")


class Fake(Listening):
    """A server with a thread for each connection. It keeps the keys of the deletes that it performed. The mood gives for
    each request what is to be done with it; `replies` may have another text for the first word of a request, and `values` the
    value of a key that is got."""

    def __init__(self, mood=lambda: PERFORM, replies=None, values=None, host="127.0.0.1"):
        self.mood = mood
        self.replies = replies or {}
        self.values = values
        self.performed = set()
        self.requests = []
        self.connections = set()
        self.accepted = 0
        super().__init__(host)

    def begin(self, connection):
        self.connections.add(connection)
        self.accepted += 1
        threading.Thread(target=self.serve, args=(connection,), daemon=True).start()

    def serve(self, connection):
        try:
            with connection, connection.makefile("rb") as lines:
                for line in lines:
                    if not self.answered(connection, lines, line.split()):
                        return
        except (OSError, ValueError):
            pass
        finally:
            self.connections.discard(connection)

    def answered(self, connection, lines, words):
        """Answers a request; whether the connection goes on."""
        name = words[0]
        if name in STORING:
            lines.read(int(words[4]) + 2)
        self.requests.append((name, words[1] if len(words) > 1 else b""))
        if name == b"version":
            connection.sendall(b"VERSION fake\r\n")
            return True
        mood = self.mood()
        if mood == DROP:
            return False
        if mood == SILENCE:
            return True
        if mood == BREAK_OFF:
            # The front of a reply, and the end.
            connection.sendall(b"DELET" if name == b"delete" else b"EN")
            return False
        if mood == REFUSE:
            connection.sendall(b"SERVER_ERROR not now\r\n")
            return True
        if name == b"delete":
            self.performed.add(words[1])
        if mood in (PERFORM_AND_DROP, PERFORM_SILENTLY):
            return mood == PERFORM_SILENTLY
        if name == b"get" and self.values:
            connection.sendall(value_answer(words[1], self.values(words[1])))
            return True
        usual = {b"get": b"END\r\n", b"gets": b"END\r\n", b"delete": b"DELETED\r\n", b"touch": b"TOUCHED\r\n"}
        connection.sendall(self.replies.get(name, usual.get(name, b"STORED\r\n")))
        return True

    def say(self, text):
        """Sends bytes that nobody asked for over each connection."""
        for connection in list(self.connections):
            connection.sendall(text)

    def drop(self):
        """Closes each connection. Further ones are taken."""
        for connection in list(self.connections):
            try:
                connection.shutdown(socket.SHUT_RDWR)
            except OSError:
                pass

    def reset(self):
        """Closes each connection as one that broke."""
        for connection in list(self.connections):
            with contextlib.suppress(OSError):
                connection.setsockopt(socket.SOL_SOCKET, socket.SO_LINGER, struct.pack("ii", 1, 0))
        self.drop()

    def close(self):
        super().close()
        self.drop()


class Late(Fake):
    """A server that performs what it is asked once it is let by `goes`, and so many seconds later without that."""

    def __init__(self, values=None, most=LIMIT):
        self.goes = threading.Event()

        def mood():
            self.goes.wait(most)
            return PERFORM

        super().__init__(mood, values=values)

    def close(self):
        self.goes.set()
        super().close()


class Unaccepting(Fake):
    """A server that takes no connection before it is told to: those that are begun hang."""

    def __init__(self):
        self.accepts = threading.Event()
        super().__init__()
        self.listener.listen(0)
        self.first = [socket.socket() for _ in range(4)]
        for one in self.first:
            one.setblocking(False)
            one.connect_ex(self.listener.getsockname())

    def accept(self):
        self.accepts.wait(60)
        super().accept()

    def open(self):
        for one in self.first:
            one.close()
        self.listener.listen(64)
        self.accepts.set()

    def close(self):
        self.accepts.set()
        super().close()


def moody(machine, **how):
    """A mood in a list, where a case changes it, a server that has it, and an `mcv` for that server alone."""
    mood = [PERFORM]
    fake = machine.fake(Fake(lambda: mood[0]))
    return mood, fake, machine.mcv(one_pool([fake.text]), **how)


class Together(Listening):
    """A server that waits until it was asked so many requests over a connection, and then sends the replies to all of them, the
    oldest one's first, in two pieces that are cut at `place`."""

    def __init__(self, reply, count):
        self.reply, self.count, self.place = reply, count, 0
        super().__init__()

    def begin(self, connection):
        threading.Thread(target=self.serve, args=(connection,), daemon=True).start()

    def serve(self, connection):
        asked = []
        with contextlib.suppress(OSError), connection, connection.makefile("rb") as lines:
            for words in map(bytes.split, lines):
                if words[0] == b"version":
                    connection.sendall(b"VERSION together\r\n")
                    continue
                if words[0] in STORING:
                    lines.read(int(words[4]) + 2)
                asked.append(self.reply(words))
                if len(asked) == self.count:
                    self.send(connection, b"".join(asked))
                    asked.clear()

    def send(self, connection, text):
        for piece in filter(None, (text[: self.place], text[self.place :])):
            connection.sendall(piece)
            time.sleep(0.002)
