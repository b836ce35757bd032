"""Takes the clients of a port: connections that send a first message of TraCI's protocol. Others are dropped."""
import selectors
import socket
import time
from collections.abc import Callable

from streetsim.traci.protocol import INT, LEAST_MESSAGE, BadMessage, commands_in_message

FIRST_WAIT = 60.0  # seconds that a connection has for its first message
MOST_FIRST = 1 << 16  # bytes of a first message that are taken, at most
MOST_NEW = 64  # connections whose first message has not come, at most; beyond them the oldest is dropped
AT_ONCE = 1 << 12  # bytes that are read at once, at most


class Newcomer:
    """A connection whose first message has not come."""

    def __init__(self, connection: socket.socket) -> None:
        self.connection, self.received = connection, b""
        self.last_clock = time.monotonic() + FIRST_WAIT

    def is_client(self) -> bool:
        """Reads what is there; gives whether the first message is. BadMessage where it will not be."""
        try:
            part = self.connection.recv(AT_ONCE)
        except BlockingIOError:
            return False
        except OSError:
            part = b""
        if not part:
            raise BadMessage("it ended")
        self.received += part
        if len(self.received) < INT.size:
            return False
        (size,) = INT.unpack_from(self.received)
        if not LEAST_MESSAGE <= size <= MOST_FIRST:
            raise BadMessage(f"{size:,} bytes, where {LEAST_MESSAGE} to {MOST_FIRST:,} are taken")
        if len(self.received) < size:
            return False
        commands_in_message(self.received[INT.size : size])
        return True


class Meeting:
    """Waits at a socket for a number of clients."""

    def __init__(self, listening: socket.socket, count: int, warn: Callable[[str], None]) -> None:
        """warn: takes lines for the user."""
        self.listening, self.count, self.warn = listening, count, warn
        self.newcomers: list[Newcomer] = []  # the oldest first
        self.clients: list[Newcomer] = []

    def clients_met(self) -> list[tuple[socket.socket, bytes]]:
        """Waits until all clients are there; gives the connection of each, and what it has sent."""
        with selectors.DefaultSelector() as selector:
            if self.count:
                self.listening.setblocking(False)
                selector.register(self.listening, selectors.EVENT_READ)
            while len(self.clients) < self.count:
                for key, _ in selector.select(self.patience()):
                    self.receive(key, selector)
                self.drop_silent(selector)
            for newcomer in list(self.newcomers):
                self.drop(newcomer, selector, "all clients are there")
        for newcomer in self.clients:
            newcomer.connection.setblocking(True)
        return [(newcomer.connection, newcomer.received) for newcomer in self.clients]

    def patience(self) -> float | None:
        """Seconds until a connection has had its time; None without any."""
        return max(0.0, self.newcomers[0].last_clock - time.monotonic()) if self.newcomers else None

    def receive(self, key: selectors.SelectorKey, selector: selectors.BaseSelector) -> None:
        """Takes the next connection, or what one has sent."""
        if key.data is None:
            self.accept(selector)
        elif len(self.clients) < self.count and key.data in self.newcomers:
            try:
                if key.data.is_client():
                    self.newcomers.remove(key.data)
                    selector.unregister(key.fileobj)
                    self.clients.append(key.data)
            except BadMessage as fault:
                self.drop(key.data, selector, f"no first message of TraCI's protocol: {fault}")

    def accept(self, selector: selectors.BaseSelector) -> None:
        """Takes the next connection, where there is one."""
        try:
            connection, _ = self.listening.accept()
        except OSError:
            return  # it went away meanwhile
        connection.setsockopt(socket.IPPROTO_TCP, socket.TCP_NODELAY, 1)
        connection.setblocking(False)
        newcomer = Newcomer(connection)
        self.newcomers.append(newcomer)
        selector.register(connection, selectors.EVENT_READ, newcomer)
        if len(self.newcomers) > MOST_NEW:
            self.drop(self.newcomers[0], selector, f"{MOST_NEW} others came before its first message")

    def drop_silent(self, selector: selectors.BaseSelector) -> None:
        """Drops the connections that have had their time."""
        clock = time.monotonic()
        for newcomer in [one for one in self.newcomers if one.last_clock <= clock]:
            self.drop(newcomer, selector, f"no first message of TraCI's protocol within {FIRST_WAIT:g} s")

    def drop(self, newcomer: Newcomer, selector: selectors.BaseSelector, why: str) -> None:
        """Ends a connection that is none of a client, which a line tells."""
        self.newcomers.remove(newcomer)
        selector.unregister(newcomer.connection)
        self.warn(f"warning: a connection was dropped ({why})")
        newcomer.connection.close()
