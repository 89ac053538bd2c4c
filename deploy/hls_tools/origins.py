"""A client of an origin, directly or through an edge: requests over one connection, which is opened again if it breaks.

Responses aren't trusted: their length and time are limited, and what no origin sends is a failure.
"""
import base64
import contextlib
import functools
import http.client
import netrc
import re
import socket
import ssl
import threading
import time
import urllib.parse
from collections.abc import Callable
from typing import NamedTuple

from .channels import HOST, address_of_file, split_url
from .failures import Failure

TIMEOUT = 45.0                                  # seconds that an origin may be silent: it may plan a programme for 30
PATIENCE = 5.0                                  # seconds for which an unreachable origin is tried
BUSY = 60.0                                     # seconds for which a deferred request (429, or 503 with Retry-After) is retried
PAUSE = 0.2                                     # seconds between two attempts
SLOWEST = 16 << 10                              # bytes a second of the slowest link
LONG = 1 << 18                                  # bytes for which every response has time on the slowest link
SHORT = 4096                                    # bytes of a line
TEXT = 1 << 24                                  # bytes of a playlist or a certificate
BROKEN = (OSError, http.client.HTTPException, ValueError)


class Response(NamedTuple):
    """A complete response."""

    status: int
    headers: http.client.HTTPMessage
    body: bytes


def printable(content: bytes) -> str:
    """Returns the beginning of what an origin sent, with only printable characters."""
    return re.sub(r"[^ -~]", ".", content[:200].decode("ascii", "replace").strip()) or "nothing"


def url_of(word: str) -> str:
    """Returns the URL of an origin that is given as a URL, as HOST:PORT, or as a channel's file."""
    if "://" in word:
        return word
    if re.fullmatch(HOST + r":[1-9][0-9]{0,4}/?", word):
        return "http://" + word
    return "http://" + address_of_file(word)


def trust(authority: str | None) -> ssl.SSLContext:
    """Returns a TLS context that trusts the machine's certificate authorities, or those of a file instead."""
    try:
        return ssl.create_default_context(cafile=authority)
    except OSError as fault:
        raise Failure(f"--ca {authority}: {fault.strerror if fault.errno else 'it has no PEM certificate'}", 2) from fault


class PlacedConnection(http.client.HTTPConnection):
    """A connection to a host at an address of this machine, whatever its name resolves to."""

    def __init__(self, host: str, port: int | None, *, place: tuple[str, int], context: ssl.SSLContext | None, timeout: float) -> None:
        super().__init__(host, port, timeout=timeout)
        self.place, self.context = place, context

    def connect(self) -> None:
        self.sock = socket.create_connection(self.place, self.timeout)
        if self.context:
            self.sock = self.context.wrap_socket(self.sock, server_hostname=self.host)


class Origin:
    """An origin, by its own address or by a channel's URL at an edge. A user and a password are taken from the URL or from ~/.netrc.
    With a patience of 0 each request is made once, and has no more time than the timeout."""

    def __init__(self, word: str, *, authority: str | None = None, agent: str = "hls_tools", timeout: float = TIMEOUT, patience: float = PATIENCE) -> None:
        url = split_url(url_of(word))
        if url is None:
            raise Failure(f"{word} isn't an origin's address: write 10.0.0.1:8080, or a channel's URL at an edge, https://edge.example.org/news", 2)
        self.prefix = url.path.rstrip("/")
        place = url.netloc.rpartition("@")[2]
        self.url = f"{url.scheme}://{place}{self.prefix}"
        self.name = place if url.scheme == "http" and not self.prefix else self.url
        self.timeout, self.patience = timeout, patience
        self.headers = {"User-Agent": agent, **self._authorization(url)}
        kind: Callable[..., http.client.HTTPConnection] = http.client.HTTPConnection
        if url.scheme == "https":
            kind = functools.partial(http.client.HTTPSConnection, context=trust(authority))
        self.connection = kind(url.hostname or "", url.port, timeout=timeout)
        self.line: socket.socket | None = None
        self.is_late = False

    def connect_at(self, place: tuple[str, int], context: ssl.SSLContext | None) -> None:
        """Has requests go to this address, whatever the host's name resolves to."""
        self.connection = PlacedConnection(self.connection.host, self.connection.port, place=place, context=context, timeout=self.timeout)

    @staticmethod
    def _authorization(url: urllib.parse.SplitResult) -> dict[str, str]:
        known = (url.username, url.password or "") if url.username else None
        with contextlib.suppress(OSError, netrc.NetrcParseError):
            found = None if known else netrc.netrc().authenticators(url.hostname or "")
            known = (found[0], found[2] or "") if found else known
        if known is None:
            return {}
        pair = ":".join(urllib.parse.unquote(one) for one in known)
        return {"Authorization": "Basic " + base64.b64encode(pair.encode()).decode()}

    def ask(self, path: str, limit: int = SHORT, expected: int = 0) -> Response:
        """Requests a path, and retries for some seconds if the connection breaks. The response has at most `limit` bytes, and as much time
        as the slowest link takes for `expected` bytes, or for LONG ones if that is more."""
        begun = time.monotonic()
        while True:
            try:
                response = self._once(path, limit, self.timeout + (max(expected, LONG) / SLOWEST if self.patience else 0))
            except ssl.SSLCertVerificationError as fault:
                raise Failure(f"{self.url}: the edge's certificate isn't trusted ({fault.verify_message}): use --ca FILE with the authority that "
                              "signed it, or with the certificate itself if it is self-signed") from fault
            except BROKEN as fault:
                if time.monotonic() - begun >= self.patience:
                    raise Failure(f"{self.name} doesn't answer GET {path}: {printable(str(fault).encode()) if str(fault) else type(fault).__name__}") from None
                time.sleep(PAUSE)
                continue
            wait = self._put_off(response)
            if wait is None or not self.patience or time.monotonic() - begun > (self.patience if response.status in (502, 504) else BUSY):
                return response
            time.sleep(wait)

    @staticmethod
    def _put_off(response: Response) -> float | None:
        """Returns the seconds after which to retry a deferred request, or None if the response is final."""
        if response.status == 503 and (found := re.fullmatch(r"[0-9]{1,3}", response.headers.get("Retry-After", ""))):
            return min(10.0, float(found[0]))
        # an edge that limits requests, or can't reach its origin at the moment
        return {429: 1.0, 502: PAUSE, 504: PAUSE}.get(response.status)

    def _once(self, path: str, limit: int, seconds: float) -> Response:
        late, self.is_late = threading.Timer(seconds, self._cut), False
        late.start()
        try:
            self.connection.request("GET", self.prefix + path, headers=self.headers)
            # the connection forgets it if the response ends with it
            self.line = self.connection.sock
            reply = self.connection.getresponse()
            content = reply.read(limit + 1)
            if len(content) > limit:
                self.connection.close()
                raise Failure(f"{self.name}: {path} has more than {limit} bytes: this isn't an origin")
            if reply.length or self.is_late:
                raise http.client.IncompleteRead(content)
            if reply.will_close or not reply.isclosed():
                self.connection.close()
            return Response(reply.status, reply.headers, content)
        except BROKEN:
            self.connection.close()
            if self.is_late:
                raise Failure(f"{self.name} doesn't answer: {path} took more than {seconds:.0f} s") from None
            raise
        finally:
            late.cancel()

    def _cut(self) -> None:
        """Ends a response that takes too long."""
        self.is_late = True
        with contextlib.suppress(OSError):
            if self.line:
                self.line.shutdown(socket.SHUT_RDWR)

    def text(self, path: str) -> str:
        """Returns the text at a path. Failure if there is none."""
        return self.text_of(path, self.ask(path, TEXT))

    def text_of(self, path: str, response: Response) -> str:
        if response.status != 200:
            raise Failure(f"{self.name}: {path} is {response.status}: {printable(response.body)}")
        try:
            return response.body.decode("ascii")
        except UnicodeDecodeError:
            raise Failure(f"{self.name}: {path} isn't ASCII: this isn't an origin") from None
