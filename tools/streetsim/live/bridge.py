"""A bridge between a page and the simulator: http on 127.0.0.1, for one page at a time.

The page's address holds a token that only who started the bridge knows, so that no other user and no other
site can reach the simulator: the token, the host and the origin of each request are checked, and what a
request may send is bounded."""
import hmac
import json
import secrets
import sys
import threading
from collections.abc import Callable, Iterable
from http import HTTPStatus
from http.server import BaseHTTPRequestHandler, ThreadingHTTPServer
from typing import Any

from streetsim.base import limits
from streetsim.base.client import ProgramEnded
from streetsim.base.files import Fault, Json
from streetsim.control.merging_links import CLOSING
from streetsim.live.hand import HAND_COMMANDS
from streetsim.live.session import PageSession
from streetsim.live.world import PageRun

HOST = "127.0.0.1"
MOST_BODY = 1 << 20  # bytes of one request; a line of the program has no more
HEARD_EVERY = 1.0  # seconds between the bytes by which the bridge notices that its page is gone
PATIENCE = 60.0  # seconds that a connection may say nothing
MOST_PASSED_OVER = 4 * MOST_BODY  # bytes of a refused body that are still read
PASSED_OVER_FOR = 2.0  # seconds that the bridge waits for them
Join = Callable[[Iterable[str]], tuple[bytes, PageRun]]  # the page and its run with some lanes joint
# What a page sends of its session, by the verbs, which are methods of PageSession: what each is given.
REQUEST_FIELDS: dict[str, dict[str, Any]] = {
    "step": {"steps": int}, "change": {"text": str, "commands": list}, "works": {"wish": dict},
    "go_back": {"clock": int}, "undo": {"number": int}, "compare": {"wanted": (bool, type(None)), "shows_was": bool},
    "watch": {"node": int}, "ask": {"commands": list}, "text": {"which": int},
}  # fmt: skip
VERBS = ("begin", "stay", "take", "leave", "join", *REQUEST_FIELDS)
SPAN = ("link", "lane", "first", "last")
QUESTIONS = ("vehicle", "lane", "count", "read")  # commands that change nothing
POLICY = (
    "default-src 'none'; script-src 'unsafe-inline'; style-src 'unsafe-inline'; img-src data: blob:; connect-src 'self'"
)


class Refusal(Exception):
    """A request that is not served: its status, and why in a sentence."""

    def __init__(self, status: HTTPStatus, why: str) -> None:
        """status: of the answer; why: a sentence for the user."""
        super().__init__(why)
        self.status, self.why = status, why


class Bridge(ThreadingHTTPServer):
    """Serves one page, and does what it asks of its session."""

    daemon_threads = True

    def __init__(self, session: PageSession, page: bytes, port: int = 0, join: Join | None = None) -> None:
        """page: its HTML; port: OSError where it cannot be had, 0: any; join: imports the run anew, None: that is
        refused, as for a session that is kept."""
        super().__init__((HOST, port), Handler)
        self.session, self.page, self.join = session, page, join
        self.token, self.owner, self.lock = secrets.token_urlsafe(24), "", threading.Condition()

    @property
    def address(self) -> str:
        """The page's address, with its token."""
        return f"http://{HOST}:{self.server_port}/{self.token}/"

    def handle_error(self, request: object, client_address: object) -> None:
        """Passes over errors of the connection, as of a page that goes while it is answered."""
        if not isinstance(sys.exc_info()[1], OSError):
            super().handle_error(request, client_address)  # type: ignore[arg-type]

    def claim_page(self, name: str, from_another: bool = False) -> None:
        """Makes the page of this name the one that is served; Refusal where another one is, unless from_another allows
        to take over from it."""
        with self.lock:
            if self.owner not in ("", name) and not from_another:
                why = "another page is open at this bridge: close it and reload this one, or take over from it"
                raise Refusal(HTTPStatus.CONFLICT, why)
            self.owner = name
            self.lock.notify_all()

    def join_lanes(self, names: Iterable[str]) -> None:
        """Has the run imported anew with further lanes (names) joint, and ends what runs; the page gets it when it is
        loaded again. Refusal for a session that is kept, Fault where they cannot be joint."""
        if self.join is None:
            advice = "start streetsim-live with --joint and another file"
            raise Refusal(HTTPStatus.NOT_FOUND, f"a session that is kept stays as it was imported: {advice}")
        self.page, run = self.join(names)
        self.session.replace_run(run)

    def release_page(self, name: str) -> None:
        """Has no page served, where it was the one of this name."""
        with self.lock:
            if self.owner == name:
                self.owner = ""
                self.lock.notify_all()

    def is_owner(self, name: str, wait: float = 0) -> bool:
        """Whether the page of this name is the one that is served, and stays so for so many seconds (wait)."""
        with self.lock:
            return not self.lock.wait_for(lambda: self.owner != name, wait) if name else False

    def check_owner(self, name: str) -> None:
        """Refusal where the page of this name is not the one that is served."""
        if not self.is_owner(name):
            raise Refusal(HTTPStatus.CONFLICT, "this page is not the one that the bridge serves: reload it")


class Handler(BaseHTTPRequestHandler):
    """A request: GET /TOKEN/ is the page; POST /TOKEN/PAGE/VERB is what the page of that name sends, as JSON. begin
    makes the page the one that is served, unless another one is; take makes it that one in any case, and leave has none
    served; stay is answered as long as it is that one; join has lanes joint. The others are of its session."""

    protocol_version = "HTTP/1.1"
    # An answer goes out at once and in one piece: the system else holds the second piece back for 40 ms.
    disable_nagle_algorithm = True
    wbufsize = -1
    timeout = PATIENCE
    server: Bridge
    unread = 0  # bytes of the request's body that were not read yet

    def do_GET(self) -> None:
        """Answers a GET: the page."""
        self.serve(self.get)

    def do_POST(self) -> None:
        """Answers a POST: what the page sends."""
        self.serve(self.post)

    def serve(self, answer: Callable[[list[str]], tuple[bytes, str] | None]) -> None:
        """Sends what an answer gives, (body, type), for the path's words; None: it was sent already. A Refusal, Fault
        or ProgramEnded is sent as JSON with its status."""
        length = self.headers.get("Content-Length", "")
        self.unread = int(length) if length.isdecimal() else 0
        try:
            answered = answer(self.checked_path())
            if answered:
                self.send_body(HTTPStatus.OK, *answered)
        except Refusal as refusal:
            self.refuse(refusal.status, refusal.why)
        except (Fault, ProgramEnded) as fault:
            self.refuse(HTTPStatus.INTERNAL_SERVER_ERROR, str(fault))
        if self.unread:
            self.pass_over()

    def pass_over(self) -> None:
        """Ends the connection behind a body that was refused unread, as soon as it was sent: who still sends when the
        connection ends may never read the answer. Of a body that is too long or too slow a part is passed over."""
        self.close_connection = True
        self.connection.settimeout(PASSED_OVER_FOR)
        bytes_left = min(self.unread, MOST_PASSED_OVER)
        while bytes_left and (passed := self.rfile.read(min(bytes_left, 1 << 16))):
            bytes_left -= len(passed)

    def checked_path(self) -> list[str]:
        """The words of the path behind the token; Refusal where the host, the origin or the token is wrong."""
        host = f"{HOST}:{self.server.server_port}"
        if self.headers.get("Host") != host:
            raise Refusal(HTTPStatus.FORBIDDEN, f"the bridge serves {host} alone")
        if self.headers.get("Origin", f"http://{host}") != f"http://{host}":
            raise Refusal(HTTPStatus.FORBIDDEN, "the bridge serves its own page alone")
        token, *path_parts = self.path.removeprefix("/").split("/")
        if not hmac.compare_digest(token.encode(), self.server.token.encode()):
            why = "the address lacks the bridge's token: take the address that streetsim-live printed"
            raise Refusal(HTTPStatus.FORBIDDEN, why)
        return path_parts

    def get(self, path_parts: list[str]) -> tuple[bytes, str]:
        """(the page, its type); Refusal for any other path."""
        if path_parts != [""]:
            raise Refusal(HTTPStatus.NOT_FOUND, "there is one page, at the address that streetsim-live printed")
        return self.server.page, "text/html; charset=utf-8"

    def post(self, path_parts: list[str]) -> tuple[bytes, str] | None:
        """Does what the page's words ask, its name and a verb; gives (body, type), None where all was sent already.
        Refusal for other words, and where the page must be the one that is served."""
        body, server = self.body(), self.server
        if len(path_parts) != 2 or not path_parts[0] or path_parts[1] not in VERBS:
            raise Refusal(HTTPStatus.NOT_FOUND, f"a page sends {', '.join(VERBS)}")
        name, verb = path_parts
        answer = b""
        if verb not in ("leave", "take", "begin"):
            server.check_owner(name)
        if verb == "leave":
            server.release_page(name)
        elif verb == "take":
            server.claim_page(name, True)
        elif verb == "begin":
            server.claim_page(name)
            answer = server.session.begin()
        elif verb == "join":
            server.join_lanes(body.decode(errors="replace").split())
        elif verb == "stay":
            self.keep_open(name)
            return None
        else:
            answer = getattr(server.session, verb)(**read_request(verb, body, server.session))
        return answer, "application/octet-stream"

    def keep_open(self, name: str) -> None:
        """Sends a byte each HEARD_EVERY seconds as long as this page is served; where it cannot, the page is gone."""
        self.close_connection = True
        self.send_response(HTTPStatus.OK)
        self.send_header("Content-Type", "text/plain")
        self.send_header("Cache-Control", "no-store")
        self.send_header("Connection", "close")
        self.end_headers()
        try:
            while self.server.is_owner(name, HEARD_EVERY):
                self.wfile.write(b".")
                self.wfile.flush()
        except OSError:
            self.server.release_page(name)

    def body(self) -> bytes:
        """The body of a request; Refusal where it has no length, or is longer than MOST_BODY."""
        length = self.headers.get("Content-Length", "")
        if not length.isdecimal():
            raise Refusal(HTTPStatus.LENGTH_REQUIRED, "a request says how long it is")
        if int(length) > MOST_BODY:
            raise Refusal(HTTPStatus.REQUEST_ENTITY_TOO_LARGE, f"a request has at most {MOST_BODY:,} bytes")
        self.unread = 0
        return self.rfile.read(int(length))

    def refuse(self, status: HTTPStatus, why: str) -> None:
        """Sends a status, and why as JSON."""
        self.send_body(status, json.dumps({"fault": why}).encode(), "application/json")

    def send_body(self, status: HTTPStatus, body: bytes, kind: str) -> None:
        """Sends a status, a body and its type, with headers that keep the page to this bridge."""
        self.send_response(status)
        headers = {
            "Content-Type": kind, "Content-Length": str(len(body)), "Content-Security-Policy": POLICY,
            "Cache-Control": "no-store", "Referrer-Policy": "no-referrer", "X-Content-Type-Options": "nosniff",
            "X-Frame-Options": "DENY",
        } | ({"Connection": "close"} if self.unread else {})
        for name, value in headers.items():
            self.send_header(name, value)
        self.end_headers()
        self.wfile.write(body)
        self.wfile.flush()

    def log_message(self, *_arguments: object) -> None:
        """Writes nothing: requests are not logged."""


def read_request(verb: str, body: bytes, session: PageSession) -> Json:
    """What a page sends with a verb of REQUEST_FIELDS, by name; Refusal where it is of another form, or out of its
    bounds in the session. What the program refuses is left to it."""
    try:
        arguments = json.loads(body)
        kinds = REQUEST_FIELDS[verb]
        if arguments.keys() != kinds.keys() or not all(is_a(arguments[name], kind) for name, kind in kinds.items()):
            raise ValueError("other names or kinds of values")
        check_bounds(verb, arguments, session)
    except (ValueError, LookupError, TypeError, AttributeError, RecursionError) as fault:
        raise Refusal(HTTPStatus.BAD_REQUEST, f"{verb} is not of its form: {fault}") from None
    return dict(arguments)


def check_bounds(verb: str, arguments: Json, session: PageSession) -> None:
    """ValueError, or another of the errors of a wrong form, where arguments of a verb are out of their bounds: nobody
    goes back to a clock that has not come, which would take as long as the way there."""
    page_run = session.page_run
    if verb == "works":
        works, link = arguments["wish"], page_run.mapping.links[arguments["wish"]["link"]]
        numbers = [works["link"], works["begin"], works["end"], works["from"], *works["lanes"]]
        numbers += [] if works["until"] is None else [works["until"]]
        is_within = all(is_a(number, int) and number >= 0 for number in numbers) and is_a(works["text"], str)
        is_within = is_within and works["cmd"] in CLOSING and 0 <= max(works["lanes"]) < len(link.lanes)
    elif verb == "change":
        is_within = bool(arguments["commands"]) and all(map(is_change, arguments["commands"]))
    elif verb == "ask":
        is_within = all(command["cmd"] in QUESTIONS for command in arguments["commands"])
    else:
        most = {"steps": limits.STEPS, "clock": session.clock, "which": 1, "node": len(page_run.mapping.nodes) - 1}
        numbers_by_name = {name: value for name, value in arguments.items() if is_a(value, int)}
        is_within = all(0 <= value <= most.get(name, limits.CLOCK) for name, value in numbers_by_name.items())
        is_within = is_within and numbers_by_name.get("steps", 1) > 0
    if not is_within:
        raise ValueError("a value is out of its bounds")


def is_change(change: Json) -> bool:
    """Whether one of the commands of a change has its form: {clock, command}."""
    command = change["command"]
    fields = SPAN if command["cmd"] in CLOSING else ("node",) if command["cmd"] == "signal" else ()
    is_known = is_a(change["clock"], int) and command["cmd"] in HAND_COMMANDS
    return is_known and all(is_a(command[name], int) for name in fields)


def is_a(value: object, kind: Any) -> bool:
    """Whether a value is of a kind; true and false are no numbers."""
    return isinstance(value, kind) and (kind is not int or not isinstance(value, bool))
