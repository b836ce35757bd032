"""Serves TraCI's protocol on the loopback address: clients in their order drive the one run of streetsim.traci."""
import os
import socket
from collections.abc import Callable
from dataclasses import dataclass, field

import streetsim.traci as traci
from streetsim.base import limits
from streetsim.base.files import Fault
from streetsim.base.client import ProgramEnded, Refused
from streetsim.simulation.confining import why_not_written
from streetsim.simulation.errors import FatalTraCIError, NotHere, TraCIException
from streetsim.simulation.opening import written_paths
from streetsim.simulation.options import read_options
from streetsim.traci import constants as tc
from streetsim.traci.answering import GET_OF, OK_STATES, SET_OF, read_get_command, read_set_command, whole_message
from streetsim.traci.meeting import Meeting
from streetsim.traci.protocol import (
    DOUBLE, INT, LEAST_MESSAGE, MOST_MESSAGE, BadMessage, ValueReader, command, commands_in_message, state_of, text,
)  # fmt: skip
from streetsim.traci.subscribing import CONTEXT_OF, SUBSCRIBE_OF, Subscriptions

HOST = "127.0.0.1"
MOST_ANSWER = 1 << 27  # bytes of the answer to one message, at most
MOST_KNOWN, SHORT = 1 << 16, 256  # messages whose meaning is kept; bytes of one, at most
LAST_CLOCK = limits.CLOCK  # to which a client may step
WAIT = 3.0  # seconds for a client of a run that could not begin
LAST_IN_ORDER = 1 << 30  # the place in the order of a client that told none
AT_ONCE = 1 << 16  # bytes that are read of a client at once, at most
FATAL_ERRORS = (FatalTraCIError, Fault, ProgramEnded, Refused)  # after which the run cannot go on
# After which the run goes on.
CALL_ERRORS = (BadMessage, TraCIException, KeyError, TypeError, ValueError, OverflowError, LookupError)


class ClientGone(Exception):
    """A client went away, or was cut off."""


@dataclass(eq=False)
class TraciClient:
    """A client, what it has sent, and what it asked to be told after each step."""

    socket: socket.socket
    order: int = LAST_IN_ORDER
    target: float = -1.0  # the clock at which it is answered
    steps: bool = False  # it waits for the answer to a step
    subscriptions: Subscriptions = field(default_factory=Subscriptions)
    unread: bytes = b""  # sent, and not read
    pending: list[tuple[int, int]] = field(default_factory=list)  # commands of the last message, behind a step
    message: bytes = b""
    answer: bytearray = field(default_factory=bytearray)

    def next_message(self) -> None:
        """Waits for the next message. ClientGone where the client goes away; BadMessage for a length that none has."""
        (size,) = INT.unpack(self.exactly(INT.size))
        if not LEAST_MESSAGE <= size <= MOST_MESSAGE:
            raise BadMessage(f"a message of {size:,} bytes: {LEAST_MESSAGE} to {MOST_MESSAGE:,} are taken")
        self.message, self.answer = self.exactly(size - INT.size), bytearray()
        self.pending = commands_in_message(self.message)

    def receive(self) -> None:
        """Waits for bytes; ClientGone where the client goes away."""
        try:
            part = self.socket.recv(AT_ONCE)
        except OSError:
            part = b""
        if not part:
            raise ClientGone
        self.unread += part

    def exactly(self, size: int) -> bytes:
        """So many bytes of what the client sends; ClientGone where it goes away before."""
        if len(self.unread) < size:
            parts, have = [self.unread], len(self.unread)
            while have < size:
                self.unread = b""
                self.receive()
                parts.append(self.unread)
                have += len(self.unread)
            self.unread = b"".join(parts)
        data, self.unread = self.unread[:size], self.unread[size:]
        return data

    def send_answer(self, answer: bytes | bytearray) -> None:
        """Sends the answer to its message; ClientGone where it does not take it."""
        try:
            self.socket.sendall(whole_message(answer))
        except OSError:
            raise ClientGone from None

    def refuse(self, why: str) -> None:
        """Answers that a message is none, as far as the client takes that."""
        try:
            self.send_answer(state_of(self.message[1] if len(self.message) > 1 else 0, tc.RTYPE_ERR, why))
        except ClientGone:
            pass


class Server:
    """Serves the run that streetsim.traci has under way to a number of clients, until all have closed."""

    def __init__(self, listening: socket.socket, count: int, warn: Callable[[str], None]) -> None:
        """listening: a socket that listens; count: of clients; warn: takes lines for the user."""
        self.listening, self.count, self.warn = listening, count, warn
        self.clients: list[TraciClient] = []
        self.lost = 0  # clients that went away without closing
        # What messages ask for, by their bytes: the code of the command, and what makes the answer.
        self.known_messages: dict[bytes, tuple[int, Callable[[], bytes]]] = {}

    def serve(self) -> int:
        """Waits for all clients, and serves them until all have closed; gives how many went away without that."""
        self.meet()
        while self.clients:
            for client in self.due():
                self.attend(client)
            if self.clients:
                self.go_on()
        return self.lost

    def meet(self) -> None:
        """Waits until all clients are there. Where there are several, each tells its place in their order first."""
        met = Meeting(self.listening, self.count, self.warn).clients_met()
        self.clients += [TraciClient(connection, unread=received) for connection, received in met]
        self.listening.close()
        if self.count > 1:
            for client in list(self.clients):
                self.attend(client, ordering=True)
        self.clients.sort(key=lambda client: client.order)

    def due(self) -> list[TraciClient]:
        """The clients that are to be heard at the clock, in their order."""
        clock = traci.simulation.getTime()
        return [client for client in self.clients if client.target <= clock]

    def go_on(self) -> None:
        """Goes on to the next clock at which a client is to be heard."""
        clock = traci.simulation.getTime()
        target = min(client.target for client in self.clients)
        if target > clock:
            traci.simulationStep(target)
        elif len(self.clients) == 1:
            traci.simulationStep(-1)  # no step, after which nobody has departed or arrived

    def attend(self, client: TraciClient, ordering: bool = False) -> None:
        """Hears a client until it asks for a step, closes or, where ordering, tells its place."""
        try:
            heard = self.answer_step(client)
            while heard and not (ordering and client.order != LAST_IN_ORDER):
                heard = self.hear_client(client)
        except ClientGone:
            self.lost += 1
            self.warn(f"warning: a client went away without closing; {len(self.clients) - 1} go on")
            self.drop(client)
        except BadMessage as fault:
            self.lost += 1
            client.refuse(str(fault))
            self.warn(f"warning: a client was cut off: {fault}")
            self.drop(client)
        except FATAL_ERRORS as fault:
            client.refuse(str(fault))
            raise

    def drop(self, client: TraciClient) -> None:
        """Ends the conversation with a client."""
        client.socket.close()
        self.clients.remove(client)

    def answer_step(self, client: TraciClient) -> bool:
        """Answers the step that a client waits for, where it does; gives as `hear` does."""
        if not client.steps:
            return True
        client.steps = False
        client.answer += OK_STATES[tc.CMD_SIMSTEP] + client.subscriptions.answers_after_step()
        return self.obey(client)

    def hear_client(self, client: TraciClient) -> bool:
        """Hears a client's messages that are known, and the next other one; gives whether it is to be heard further at
        this clock."""
        if not client.unread:
            self.answer_known(client)
        unread = client.unread
        client.next_message()
        self.learn(unread, client)
        return self.obey(client)

    def answer_known(self, client: TraciClient) -> None:
        """Answers messages of a client that are known, as they come, until there is another one. ClientGone where it
        goes away."""
        receive, send_all, message_of = client.socket.recv, client.socket.sendall, self.known_messages.get
        try:
            while (known_message := message_of(message := receive(AT_ONCE))) is not None:
                code, answer = known_message
                try:
                    answer_bytes = answer()
                except CALL_ERRORS as fault:
                    answer_bytes = whole_message(state_after(code, fault))
                send_all(answer_bytes)
        except OSError:
            message = b""
        if not message:
            raise ClientGone
        client.unread = message

    def learn(self, message: bytes, client: TraciClient) -> None:
        """Keeps what a message asks for by its bytes (message), where these are of it alone, and it has one command
        that tells or changes something, whose words nobody changes."""
        size = INT.size + len(client.message)
        if client.unread or len(client.pending) != 1 or len(message) != size or size > SHORT:
            return
        (position, end), = client.pending
        code = client.message[position]
        read_command = read_get_command if code in GET_OF else read_set_command if code in SET_OF else None
        if read_command is None:
            return
        try:
            call = read_command(code, ValueReader(client.message, position + 1, end))
            if all(isinstance(argument, (str, int, float)) for argument in call.arguments):
                if len(self.known_messages) >= MOST_KNOWN:
                    self.known_messages.clear()
                self.known_messages[message] = code, call.message()
        except CALL_ERRORS:
            pass  # which is told when the command is done

    def obey(self, client: TraciClient) -> bool:
        """Does the rest of a client's message, and answers it where no step is asked for; gives as `hear` does."""
        while client.pending:
            position, end = client.pending.pop()
            code = client.message[position]
            reader = ValueReader(client.message, position + 1, end)
            if code == tc.CMD_SIMSTEP:
                if self.note_step(client, reader):
                    return False
                continue
            if code == tc.CMD_CLOSE:
                client.send_answer(client.answer + OK_STATES[code])
                self.drop(client)
                return False
            client.answer += self.answer_command(client, code, reader)
            if len(client.answer) > MOST_ANSWER:
                raise BadMessage(f"the answer to one message would have more than {MOST_ANSWER:,} bytes")
        client.send_answer(client.answer)
        return not client.steps

    def note_step(self, client: TraciClient, reader: ValueReader) -> bool:
        """Notes until when a client steps; gives whether it does: not for a clock beyond the machine's."""
        (target,) = reader.unpack(DOUBLE)
        clock = traci.simulation.getTime()
        if not target <= LAST_CLOCK:
            client.answer += state_of(tc.CMD_SIMSTEP, tc.RTYPE_ERR, f"{target:g} s is beyond the last clock")
            return False
        client.target, client.steps = clock + 1 if target == 0 else max(target, clock), True
        return True

    def answer_command(self, client: TraciClient, code: int, reader: ValueReader) -> bytes:
        """The answer to a command: its state, and what it tells."""
        try:
            return self.perform(client, code, reader)
        except CALL_ERRORS as fault:
            return state_after(code, fault)

    def perform(self, client: TraciClient, code: int, reader: ValueReader) -> bytes:
        """As `answer_command`; raises what a call raises, and BadMessage for wrong values."""
        if code in GET_OF or code in SET_OF:
            return (read_get_command if code in GET_OF else read_set_command)(code, reader).answer()
        if code in SUBSCRIBE_OF:
            return OK_STATES[code] + client.subscriptions.subscribe(code, reader)
        if code in CONTEXT_OF:
            return OK_STATES[code] + client.subscriptions.subscribe_context(code, reader)
        return self.answer_general(client, code, reader)

    def answer_general(self, client: TraciClient, code: int, reader: ValueReader) -> bytes:
        """The answer to a command that is of no domain; NotHere for an unknown one."""
        if code == tc.CMD_GETVERSION:
            number, name = traci.getVersion()
            return OK_STATES[code] + command(code, INT.pack(number) + text(name))
        if code == tc.CMD_SETORDER:
            (order,) = reader.unpack(INT)
            if any(another.order == order for another in self.clients if another is not client):
                raise TraCIException(f"another client has the place {order} in the order")
            client.order = order
            return OK_STATES[code]
        if code == tc.CMD_LOAD:
            self.load(reader)
            return OK_STATES[code]
        raise NotHere(f"command {code:#04x} is not here")

    def load(self, reader: ValueReader) -> None:
        """Begins the run anew, by other words. TraCIException where these are wrong, FatalTraCIError where it cannot
        begin."""
        (arguments,) = reader.typed_values("l")
        try:
            options = read_options(arguments)
        except FatalTraCIError as fault:
            raise TraCIException(str(fault)) from None
        if not os.path.exists(net := options.get("net-file", "")):
            raise TraCIException(f"load: no network {net!r}")
        why = "--writes is no word of a client's" if "writes" in options else why_not_written(written_paths(options))
        if why is not None:
            raise TraCIException(f"load: {why}")
        traci.load(arguments)
        for client in self.clients:
            client.subscriptions, client.target = Subscriptions(), -1.0


def state_after(code: int, fault: Exception) -> bytes:
    """The state of a command that cannot be done."""
    if isinstance(fault, NotHere):
        return state_of(code, tc.RTYPE_NOTIMPLEMENTED, str(fault))
    reason = str(fault) if isinstance(fault, (BadMessage, TraCIException)) else repr(fault)
    return state_of(code, tc.RTYPE_ERR, reason)


def turn_away(listening: socket.socket) -> None:
    """Closes the connection of the first client, where one comes within WAIT seconds: it then knows that no run has
    begun, and begins none anew."""
    listening.settimeout(WAIT)
    try:
        listening.accept()[0].close()
    except OSError:
        pass
    listening.close()


def listen(port: int) -> socket.socket:
    """A socket that listens on a port of the loopback address; Fault where the port is taken."""
    listening = socket.socket()
    listening.setsockopt(socket.SOL_SOCKET, socket.SO_REUSEADDR, 1)
    try:
        listening.bind((HOST, port))
        listening.listen()
    except (OSError, OverflowError) as fault:
        listening.close()
        raise Fault(f"--remote-port {port}: {fault}") from None
    return listening
