"""A channel's file, /etc/hls_origin/CHANNEL.conf: read as systemd reads it, and validated before anything runs."""
import ipaddress
import os
import re
import shlex
import stat
import urllib.parse
from fractions import Fraction
from typing import NamedTuple

from .failures import Failure

FOLDER = "/etc/hls_origin"
SOUND_RATE = 48000
AAC_FRAME = 1024            # samples in an AAC frame; the encoder puts one frame before its input
BYTE = "(?:25[0-5]|2[0-4][0-9]|1[0-9]{2}|[1-9]?[0-9])"
ADDRESS = rf"{BYTE}(?:\.{BYTE}){{3}}:(?:[1-9][0-9]{{0,3}}|[1-5][0-9]{{4}}|6[0-4][0-9]{{3}}|65[0-4][0-9]{{2}}|655[0-2][0-9]|6553[0-5])"
INNER_PORT = 8079           # the edge's inner server listens at it on loopback (edge/hls_http.conf)
NAME = "[a-z0-9][a-z0-9_-]{0,23}"
# (it is an argument of serve, and must be no option)
RENDITION_NAME = "[A-Za-z0-9_][A-Za-z0-9_-]{0,31}"
HOST = r"[A-Za-z0-9_]+(?:(?:\.|-+)[A-Za-z0-9_]+)*"


class Wrong(Failure):
    """A value of the file that is wrong, and what to write instead."""

    def __init__(self, text: object) -> None:
        super().__init__(text, 2)


class Rendition(NamedTuple):
    """A rendition as `serve` takes it: a tolerance is in µs."""

    name: str
    kind: str
    bits: int
    tolerance: int


def read_regular(path: str, limit: int, place: int = 0, flags: int = 0) -> bytes:
    """Returns what a regular file has from a place on. A pipe or a device, which might never answer, is an OSError. With O_NOFOLLOW a link
    isn't followed: another user's link may lead to a device that does something once it is opened."""
    with open(path, "rb", opener=lambda *_: os.open(path, os.O_RDONLY | os.O_NONBLOCK | os.O_CLOEXEC | flags)) as file:
        if not stat.S_ISREG(os.fstat(file.fileno()).st_mode):
            raise OSError("it isn't a regular file")
        file.seek(place)
        return file.read(limit)


def read_values(path: str) -> dict[str, str]:
    """Reads KEY=value or KEY="value" lines, as systemd reads an EnvironmentFile."""
    found: dict[str, str] = {}
    try:
        text = read_regular(path, 1 << 20).decode()
        if text.startswith("\ufeff"):
            raise ValueError("it begins with a byte order mark, after which systemd reads no key: save it without")
        if "\0" in text:
            raise ValueError("it has bytes that are no text")
        for line in text.split("\n"):
            if line.strip() and line.lstrip()[0] not in "#;":
                key, _, value = line.strip().partition("=")
                found[key] = " ".join(shlex.split(value))
    except (OSError, ValueError) as why:
        raise Wrong(f"{path} can't be read: {why}") from why
    return found


def name_of(path: str) -> str:
    """Returns a channel's name: that of its file."""
    return os.path.splitext(os.path.basename(path))[0]


def reachable(address: str) -> str:
    """Returns the address at which this machine reaches a listener: 127.0.0.1 for one that listens at all addresses."""
    return address.strip().replace("0.0.0.0:", "127.0.0.1:")


def address_of_file(path: str) -> str:
    """Returns the address of the process that serves a channel, by its file."""
    if not os.path.exists(path):
        raise Failure(f"{path} is neither an origin's address (http://HOST:PORT) nor a channel's file", 2)
    address = read_values(path).get("ADDRESS", "")
    if not re.fullmatch(ADDRESS, address):
        raise Wrong(f"{path}: ADDRESS isn't a.b.c.d:port")
    return reachable(address)


def check_use(address: str) -> None:
    """Tests that an origin can have an address of the form IP:PORT. Wrong if it is the edge's own, or one that no other machine reaches."""
    host, _, port = address.rpartition(":")
    there = ipaddress.IPv4Address(host)
    if int(port) == INNER_PORT and (there.is_loopback or there.is_unspecified):
        raise Wrong(f"{address}: port {INNER_PORT} is the edge's own: use another one")
    if there.is_link_local or there.is_multicast or there.is_reserved:
        raise Wrong(f"{address} can't be an origin's address: use one of the network")


def option(values: dict[str, str], name: str, default: str) -> str:
    """Returns the value of an option of serve."""
    options = values.get("OPTIONS", "").split()
    joined = [one.removeprefix(name + "=") for one in options if one.startswith(name + "=")]
    return options[options.index(name) + 1] if name in options[:-1] else joined[0] if joined else default


def number(values: dict[str, str], name: str, default: int) -> int:
    """Returns the number after an option of serve."""
    text = option(values, name, str(default))
    if not re.fullmatch("[0-9]{1,16}", text):
        raise Wrong(f"OPTIONS: {name} {text} isn't a number")
    return int(text)


def read_rendition(spec: str) -> Rendition:
    """Reads a rendition as an argument of serve."""
    if not (found := re.fullmatch(rf"({RENDITION_NAME}):(video|audio):([1-9][0-9]{{3,12}}):([0-9]{{1,6}})", spec)):
        raise Wrong(f"RENDITIONS: {spec} isn't name:kind:bandwidth:tolerance, with a bandwidth of at least 1000 bits per second")
    return Rendition(found[1], found[2], int(found[3]), int(found[4]))


def split_url(text: str) -> urllib.parse.SplitResult | None:
    """Reads the URL of an origin, or of a channel at an edge; None if it isn't one."""
    try:
        url = urllib.parse.urlsplit(text)
        good = text.isascii() and url.scheme in ("http", "https") and re.fullmatch(HOST + "|[0-9a-f:.]+", url.hostname or "") and url.port != 0
    except ValueError:
        return None
    return url if good and not url.query and not url.fragment else None


def origins_of(values: dict[str, str]) -> list[str]:
    """Returns the URLs of the origins that get a channel's units."""
    found = values.get("ORIGINS", "").split() or ["http://" + reachable(values["ADDRESS"])]
    for place, origin in enumerate(found, 1):
        # the text may have a password, so it isn't printed
        if split_url(origin) is None:
            raise Wrong(f"ORIGINS: address {place} isn't a URL such as http://HOST:PORT or https://HOST/PATH")
    return found


class Ladder:
    """A channel's input and ladder, read from its file and validated."""

    def __init__(self, values: dict[str, str], path: str) -> None:
        self.path, self.values = path, values
        for key in ("RENDITIONS", "ADDRESS", "SIZES", "RATE", "GROUP", "INPUT"):
            if not values.get(key, "").strip():
                raise Wrong(f"{key} is missing; see hls_ingest --help")
        self.input_options, self.video_options = self.split("INPUT_OPTIONS", ""), self.split("VIDEO_OPTIONS", "-c:v libx264 -preset veryfast")
        self.renditions = [read_rendition(spec) for spec in values["RENDITIONS"].split()]
        self.videos = [one for one in self.renditions if one.kind == "video"]
        self.audios = [one for one in self.renditions if one.kind == "audio"]
        self.sizes = [self.size(text) for text in values["SIZES"].split()]
        if self.renditions[0].kind != "video" or len(self.sizes) != len(self.videos):
            raise Wrong(f"SIZES has {len(self.sizes)} sizes for {len(self.videos)} videos: it needs one for each, and RENDITIONS must begin with a video")
        self.canvas = max(self.sizes)
        try:
            self.rate, self.pictures = Fraction(values["RATE"]), int(values["GROUP"])
            self.group = self.pictures / self.rate
            if not (1 <= self.rate <= 240 and self.pictures > 0):
                raise ValueError
        except (ValueError, ZeroDivisionError) as why:
            raise Wrong("RATE must be a number from 1 to 240, such as 25 or 30000/1001, and GROUP a number of pictures, 1 or more") from why
        if not re.fullmatch(ADDRESS, values["ADDRESS"].strip()):
            raise Wrong(f"ADDRESS: {values['ADDRESS']} isn't a.b.c.d:port")
        self.origins = origins_of(values)
        self.check_lengths()

    def input_place(self) -> str:
        """Returns the input's address without its passphrase, key or password."""
        found = re.match(r"([a-z]+)://(?:[^/?#]*@)?([^/?#@]*)", self.values["INPUT"])
        return f"{found[1]}://{found[2]}" if found else self.values["INPUT"]

    def split(self, key: str, default: str) -> list[str]:
        """Splits a value with ffmpeg's options into arguments."""
        try:
            return shlex.split(self.values.get(key, default))
        except ValueError as why:
            raise Wrong(f"{key}: {why}") from why

    @staticmethod
    def size(text: str) -> tuple[int, int]:
        """Reads a picture's width and height."""
        found = re.fullmatch(r"([0-9]{2,4})x([0-9]{2,4})", text)
        if not found or any(int(found[at]) % 2 or int(found[at]) < 16 for at in (1, 2)):
            raise Wrong(f"SIZES: {text} isn't WIDTHxHEIGHT, two even numbers, each 16 or more")
        return int(found[1]), int(found[2])

    def check_lengths(self) -> None:
        """Tests that groups of pictures, audio units, segments and dates fit together."""
        length = self.group * 1_000_000
        if length.denominator != 1:
            raise Wrong(f"GROUP: {self.pictures} pictures don't last a whole number of microseconds at RATE {self.rate}; at 30000/1001 write 60")
        target, preferred = number(self.values, "--target", 6), number(self.values, "--preferred", 4_000_000)
        if preferred == 0 or preferred % length:
            better = max(1, int(preferred / length)) * int(length)
            raise Wrong(f"OPTIONS: --preferred {preferred} isn't a whole number of groups of {length} µs; write --preferred {better}")
        if preferred > target * 1_000_000:
            raise Wrong(f"OPTIONS: --preferred {preferred} is longer than --target {target}")
        if option(self.values, "--epoch", "") != "1970-01-01T00:00:00Z":
            raise Wrong("OPTIONS: the encoders' clock counts from 1970; write --epoch 1970-01-01T00:00:00Z")
        for one in self.audios:
            # an audio unit begins with the first AAC frame that begins at or after the start of a group of pictures
            if one.tolerance < AAC_FRAME * 1_000_000 // SOUND_RATE + 1:
                raise Wrong(f"RENDITIONS: {one.name} has tolerance {one.tolerance}, less than an AAC frame; write 22000")

    def samples(self, pictures: int) -> int:
        """Returns the number of sound samples in a number of pictures."""
        return pictures * SOUND_RATE * self.rate.denominator // self.rate.numerator
