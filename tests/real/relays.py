"""A relay between memccapable and a proxy, for the lines that the proxy refuses by its own grammar."""
import socket
import threading

from listening import Listening

# memccapable ends most of its cases with lines that no client sends in earnest, to see that a server takes them. mcv answers
# each with `CLIENT_ERROR bad command line` and closes, as docs/PROTOCOL.md has it. What the relay hands on in their place,
# or answers itself as memcached does; every other byte passes through.
HANDED_ON = {b"version foo bar\r\n": b"version\r\n", b"version noreply\r\n": b"version\r\n"}
ANSWERED = {b"get\r\n": b"ERROR\r\n", b"gets\r\n": b"ERROR\r\n", b"delete\r\n": b"ERROR\r\n", b"delete a b c d e\r\n": b"ERROR\r\n"}


class Relay(Listening):
    """Listens at `text`, and opens a connection to the proxy for each of its own. It keeps the lines that it changed."""

    def __init__(self, address):
        self.address = address
        self.changed = set()
        super().__init__()

    def begin(self, client):
        proxy = socket.create_connection(self.address)
        proxy.setsockopt(socket.IPPROTO_TCP, socket.TCP_NODELAY, 1)
        threading.Thread(target=self.requests, args=(client, proxy), daemon=True).start()
        threading.Thread(target=self.replies, args=(proxy, client), daemon=True).start()

    def requests(self, client, proxy):
        """Line by line: a client that waits for each answer sends none of these lines inside a value."""
        try:
            with client.makefile("rb") as lines:
                for line in lines:
                    if line in ANSWERED:
                        self.changed.add(line)
                        client.sendall(ANSWERED[line])
                        continue
                    if line in HANDED_ON:
                        self.changed.add(line)
                    proxy.sendall(HANDED_ON.get(line, line))
            proxy.shutdown(socket.SHUT_WR)
        except OSError:
            pass

    def replies(self, proxy, client):
        try:
            while piece := proxy.recv(65536):
                client.sendall(piece)
            client.shutdown(socket.SHUT_RDWR)
        except OSError:
            pass
