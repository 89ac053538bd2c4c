"""Programmes by address (docs/HTTP.md): requested from an origin or an edge, checked against their certificate, and stored as files."""
import contextlib
import os
import re
import subprocess
from typing import NamedTuple

from .boxes import count_units, init_length
from .certificates import PROGRAM, Certificate, check_certificate
from .failures import Failure
from .origins import TEXT, Origin, printable

INIT_LIMIT = 1 << 20                            # bytes of the largest init section
SEGMENT_LIMIT = 1 << 30                         # bytes of the largest segment, which is checked in memory
# A segment and an init section in a programme's playlist: ../../../RUN/R/FILE.
SEGMENT = re.compile(r"#EXTINF:(\d{1,4})\.(\d{6}),\n\.\./\.\./\.\./([A-Za-z0-9]{1,16})/(\d{1,2})/(\d{1,15})-(\d{1,15})\.m4s\n")
INIT = re.compile(r'#EXT-X-MAP:URI="\.\./\.\./\.\./([A-Za-z0-9]{1,16})/(\d{1,2})/init\.mp4"\n')
GONE, NO_CUT = "Gone", "NoCut"


class Refused(Failure):
    """A refusal of the origin, by its name."""

    def __init__(self, name: str, text: str, status: int = 3) -> None:
        super().__init__(text, status)
        self.name = name


class Wish(NamedTuple):
    """A programme's times as the origin reads them."""

    begin: str
    end: str

    def path(self, name: str) -> str:
        """Returns the path of one of its files."""
        return f"/hls/programme/{self.begin}/{self.end}/{name}"


def explain(name: str) -> str:
    """Returns what `hls_origin explain` prints for a refusal, or its name."""
    with contextlib.suppress(OSError):
        return subprocess.run([PROGRAM, "explain", name], capture_output=True, text=True).stdout.strip() or name
    return name


def programmes_of(word: str, authority: str | None = None, agent: str = "hls_tools") -> Origin:
    """Returns the client for an origin, or for a channel at an edge, where programmes have viewers' URLs."""
    origin = Origin(word, authority=authority, agent=agent)
    if found := re.search(r"/origin/[12]$", origin.prefix):
        raise Failure(f"{origin.url}: at an edge use the channel's own URL for programmes: {origin.url.removesuffix(found[0])}", 2)
    return origin


def request_certificate(origin: Origin, wish: Wish) -> str:
    """Returns the text of a programme's certificate. Raises Refused if the channel doesn't have the programme."""
    for word in (wish.begin, wish.end):
        if not re.fullmatch(r"[0-9TZ:.+-]{1,40}", word):
            raise Refused("BadQuery", f"refused: {word!r} isn't a time: {explain('BadQuery')}")
    path = wish.path("certificate.txt")
    response = origin.ask(path, TEXT)
    if response.status in (400, 404, 410) and (found := re.fullmatch(r"refused (\w{1,40})", printable(response.body))):
        raise Refused(found[1], "refused: " + explain(found[1]))
    return origin.text_of(path, response)


def refusal_of(origin: Origin, wish: Wish) -> str | None:
    """Returns the name of the refusal of a programme, or None if the channel has it."""
    try:
        request_certificate(origin, wish)
    except Refused as refusal:
        return refusal.name
    return None


def read_certificate(text: str) -> Certificate:
    """Checks a certificate and reads it. Raises Refused if it shows that there is no cut."""
    verdict = check_certificate(text)
    certificate = Certificate(text)
    if verdict[0] == "none":
        raise Refused(NO_CUT, certificate.explain_no_cut(), 4)
    return certificate


class Segment(NamedTuple):
    """A segment in a programme's playlist: its length in µs, the run, and its first and last byte in the channel's recording."""

    duration_us: int
    run: str
    first: int
    last: int


def segments_of(playlist: str, number: int) -> list[Segment]:
    """Reads a rendition's playlist. ValueError if it isn't a programme's, or has more than segments that follow each other."""
    named = list(SEGMENT.finditer(playlist))
    found = [Segment(int(one[1]) * 1_000_000 + int(one[2]), one[3], int(one[5]), int(one[6])) for one in named]
    if not playlist.startswith("#EXTM3U\n") or "#EXT-X-PLAYLIST-TYPE:VOD\n" not in playlist or not playlist.endswith("#EXT-X-ENDLIST\n"):
        raise ValueError("it is incomplete")
    if {one.groups()[2:4] for one in named} != set(inits := INIT.findall(playlist)) or len(inits) != 1 or inits[0][1] != str(number):
        raise ValueError("it names more than one run or rendition")
    if names_in(SEGMENT.sub("", INIT.sub("", playlist))):
        raise ValueError("it names something else")
    if any(not 0 <= one.last - one.first < SEGMENT_LIMIT for one in found) or any(before.last + 1 != after.first for before, after in zip(found, found[1:])):
        raise ValueError("its segments don't follow each other")
    return found


def names_in(playlist: str) -> list[str]:
    """Returns the URIs that a playlist names, in their order."""
    return [one or other for one, other in re.findall(r'^([^#\n].*)$|URI="([^"]*)"', playlist, re.M)]


def count_renditions(master: str) -> int:
    """Returns the number of renditions in a master playlist, which names 0.m3u8, 1.m3u8, .. without a gap."""
    names = set(names_in(master))
    if not names or names != {f"{number}.m3u8" for number in range(len(names))}:
        raise ValueError("it doesn't name 0.m3u8, 1.m3u8, ..")
    return len(names)


def fetch(origin: Origin, path: str, length: int | None = None) -> bytes:
    """Loads a file of the channel: of the given length, or an init section."""
    response = origin.ask(path, length or INIT_LIMIT, length or 0)
    if response.status == 410:
        raise Refused(GONE, "refused: " + explain(GONE))
    if response.status != 200 or len(response.body) != (length or len(response.body)):
        raise Failure(f"{path} is {response.status} with {len(response.body)} bytes: {printable(response.body)[:80] if response.status != 200 else 'wrong length'}")
    return response.body


def load_rendition(origin: Origin, number: int, playlist: str, planned: list[tuple[int, int]], folder: str) -> str:
    """Writes a rendition's media file (its init section and segments) and its playlist. `planned` are the certificate's segments.
    Returns the run of its paths."""
    segments = segments_of(playlist, number)
    if [one.duration_us for one in segments] != [length for _, length in planned]:
        raise ValueError("its segments aren't those of the certificate's plan")
    name, path = f"{number}.mp4", f"/hls/{segments[0].run}/{number}/"
    init = fetch(origin, path + "init.mp4")
    if init_length(init) != len(init):
        raise Failure(f"the init section of rendition {number} is malformed")
    offset, ranges = len(init), []
    with open(os.path.join(folder, name), "xb") as file:
        file.write(init)
        for one, (count, _) in zip(segments, planned):
            content = fetch(origin, f"{path}{one.first}-{one.last}.m4s", one.last - one.first + 1)
            if count_units(content) != count:
                raise Failure(f"{path}{one.first}-{one.last}.m4s isn't {count} complete units")
            file.write(content)
            ranges.append(f"#EXT-X-BYTERANGE:{len(content)}@{offset}\n{name}\n")
            offset += len(content)
    written = INIT.sub(f'#EXT-X-MAP:URI="{name}",BYTERANGE="{len(init)}@0"\n', playlist)
    store(folder, f"{number}.m3u8", SEGMENT.sub(lambda found: found[0].partition("\n")[0] + "\n" + ranges.pop(0), written))
    return segments[0].run


def store(folder: str, name: str, text: str) -> str:
    """Writes a new file. Returns its text."""
    with open(os.path.join(folder, name), "x", encoding="ascii") as file:
        file.write(text)
    return text


def load_programme(origin: Origin, wish: Wish, folder: str) -> tuple[str, int]:
    """Loads a programme into an empty folder: master.m3u8, a playlist and a file for each rendition, and the certificate. Returns a line
    that describes it, and the time in µs at which its media begin."""
    certificate = read_certificate(store(folder, "certificate.txt", request_certificate(origin, wish)))
    try:
        count = count_renditions(store(folder, "master.m3u8", origin.text(wish.path("master.m3u8"))))
        if count != len(certificate.places[0]):
            raise ValueError(f"it has {count} renditions, the certificate {len(certificate.places[0])}")
        runs = {load_rendition(origin, number, origin.text(wish.path(f"{number}.m3u8")), certificate.segments(number), folder) for number in range(count)}
    except ValueError as fault:
        raise Failure(f"{origin.name}: a playlist of the programme isn't valid: {fault}") from None
    if len(runs) > 1:
        raise Failure("its renditions are from different runs: the origin was restarted meanwhile")
    lengths = [length for _, length in certificate.segments(0)]
    size = sum(os.path.getsize(os.path.join(folder, f"{number}.mp4")) for number in range(count))
    return f"{len(lengths)} segments, {sum(lengths) / 1e6:.6f} s, {count} renditions, {size} bytes, the certificate holds", certificate.begins
