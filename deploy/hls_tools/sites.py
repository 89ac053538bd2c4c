"""The site of this machine's edge: the server block of nginx that includes hls_server.conf, by its name, its address and its certificate."""
import contextlib
import glob
import os
import re
from collections.abc import Iterator
from typing import NamedTuple

from .failures import Failure, run

NGINX = "/etc/nginx"
OWN = "sites-enabled/hls_site.conf"                   # the site that `hls_channel site` writes
LISTEN = re.compile(r"\blisten\s+(?:(?P<host>[0-9.]+|\[[0-9a-f:]*\]|\*|localhost):)?(?P<port>[0-9]+)(?P<flags>[^;]*);")


class Site(NamedTuple):
    """How a viewer on this machine reaches the edge."""

    path: str                   # its file
    host: str                   # its first name
    address: tuple[str, int]
    certificate: str            # the file of its certificate; "" for one without TLS

    def split(self, place: str) -> tuple[str, str]:
        """Returns the host and the prefix of a channel's place."""
        return (self.host, place.rstrip("/")) if place.startswith("/") else (place, "")

    def url(self, place: str) -> str:
        """Returns the URL of a channel's place."""
        port = self.address[1]
        host, prefix = self.split(place)
        return f"http{'s' * bool(self.certificate)}://{host}" + f":{port}" * (port != (443 if self.certificate else 80)) + prefix


def read_text(path: str) -> str:
    """Returns a file of nginx's configuration without its comments."""
    with open(path, encoding="utf-8", errors="surrogateescape") as file:
        return re.sub(r"(^|\s)#.*", "", file.read())


def blocks(text: str) -> Iterator[str]:
    """Yields each server block of a configuration."""
    for found in re.finditer(r"\bserver\s*\{", text):
        depth, at = 1, found.end()
        while depth and at < len(text):
            depth += {"{": 1, "}": -1}.get(text[at], 0)
            at += 1
        yield text[found.end():at]


def read_site(path: str) -> Site | None:
    """Returns the edge's site if this file has it."""
    for block in blocks(read_text(path)):
        if "nginx/hls_server.conf;" not in block:
            continue
        listens = sorted(LISTEN.finditer(block), key=lambda one: " ssl" not in one["flags"])
        names, certificate = re.search(r"\bserver_name\s+([^\s;]+)", block), re.search(r"\bssl_certificate\s+([^\s;]+)", block)
        host = listens[0]["host"] if listens else None
        reached = "::1" if host == "[::]" else "127.0.0.1" if host in (None, "*", "0.0.0.0", "localhost") else str(host).strip("[]")
        has_tls = bool(listens) and " ssl" in listens[0]["flags"]
        return Site(path, names[1] if names else "localhost", (reached, int(listens[0]["port"]) if listens else 80), certificate[1] if certificate and has_tls else "")
    return None


def find_site(folder: str = NGINX) -> Site | None:
    """Returns the edge's site: that of `hls_channel site`, or else another one that includes the edge's locations."""
    for path in [os.path.join(folder, OWN), *sorted(glob.glob(os.path.join(glob.escape(folder), "sites-enabled", "*"))), *sorted(glob.glob(os.path.join(glob.escape(folder), "conf.d", "*.conf")))]:
        with contextlib.suppress(OSError):
            if site := read_site(path):
                return site
    return None


def is_self_signed(certificate: str, host: str) -> bool:
    """Returns whether a certificate is one that `hls_channel site` made for a host."""
    with contextlib.suppress(Failure):
        names = [line.partition("=")[2].replace(" ", "") for line in run("openssl", "x509", "-in", certificate, "-noout", "-subject", "-issuer").split("\n") if line]
        return names == [f"CN={host}"] * 2
    return False


def covers(certificate: str, host: str) -> bool:
    """Returns whether a certificate is for a host."""
    with contextlib.suppress(Failure):
        return "does match" in run("openssl", "x509", "-in", certificate, "-noout", "-checkhost", host)
    return False


def renamed(text: str, before: str, after: str) -> str | None:
    """Returns a site's text with another name; None if it has other names too, or none."""
    names = re.findall(r"^[^#\n]*\bserver_name\s+([^;]*);", text, re.M)
    if not names or any(one.split() != [before] for one in names):
        return None
    return re.sub(rf"(?<![A-Za-z0-9.-]){re.escape(before)}(?![A-Za-z0-9.-])", after, text)
