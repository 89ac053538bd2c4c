"""Serves what is whole of a journal that no start takes, from an origin that ends with the tool (docs/FORMATS.md, "The journal")."""
import concurrent.futures
import contextlib
import datetime
import http.client
import os
import re
import struct
import subprocess
import sys
import tempfile
import time
from collections.abc import Iterator
from typing import NamedTuple

from .certificates import PROGRAM
from .channels import RENDITION_NAME, read_regular
from .failures import Failure, end_by_signals

CHANNEL, BEGUN, ACCEPTED, TRIMMED = 0, 1, 2, 5          # kinds of records
FILE = 1 << 26                                          # bytes of a media file
LOG = 1 << 30                                           # bytes of a log that are read: a longer one isn't an origin's
LONGEST = 1 << 27                                       # bytes of a record
RECORDS = 5 << 20                                       # records of a log that are read: 4194304 events, and notes of what is synced
UNIT_LIMIT = 1 << 26
BASE_BYTES, CONFIGURATION, SPECIFICATIONS, RENDITION = 60, 188, 213, 49        # places in a channel's record, and the length of a rendition
START, WORD, FIRST, SECOND = 0x243f6a8885a308d3, (1 << 64) - 1, 0x9e3779b97f4a7c15, 0xbf58476d1ce4e5b9
EPOCH = datetime.datetime(1970, 1, 1, tzinfo=datetime.timezone.utc)
KEEP = "1000000000000"                                  # more microseconds than a journal has
PATIENCE = 30                                           # seconds that the origin may take to listen


class Unit(NamedTuple):
    """A unit that a record names: where its bytes are in the stored media, and their checksum with that of their offset."""

    rendition: int
    place: int
    offset: int
    length: int
    checksum: int


class Stored(NamedTuple):
    """A channel as its records describe it."""

    options: list[str]
    renditions: list[str]
    inits: dict[int, bytes]
    units: list[Unit]


def checksum(number: int, text: bytes) -> int:
    """Returns the checksum of a number and a text."""
    state = START
    padded = text + bytes(-len(text) % 8)
    for word in (number, len(text), *struct.unpack(f"<{len(padded) // 8}Q", padded)):
        state ^= word * FIRST & WORD
        state = (state << 31 | state >> 33) & WORD
        state = state * SECOND & WORD
    return state


def bodies_of(log: bytes) -> Iterator[bytes]:
    """Yields the bodies of a log's records, up to the first that isn't whole."""
    place, number = 0, 0
    while place + 12 <= len(log):
        length, expected = struct.unpack_from("<IQ", log, place)
        body = log[place + 12:place + 12 + length]
        if number > RECORDS or length > LONGEST or len(body) < length or checksum(number, body) != expected:
            return
        yield body
        place, number = place + 12 + length, number + 1


def options_of(body: bytes) -> list[str]:
    """Returns the options of serve that describe the channel of a journal's first record."""
    if len(body) < SPECIFICATIONS or body[0] != CHANNEL or (len(body) - SPECIFICATIONS) % RENDITION:
        raise Failure("its log doesn't begin with a channel")
    target, preferred, has_epoch, epoch = struct.unpack_from("<QQ?Q", body, CONFIGURATION)
    words = ["--target", str(target), "--preferred", str(preferred)]
    with contextlib.suppress(OverflowError):
        words += ["--epoch", (EPOCH + datetime.timedelta(microseconds=epoch)).isoformat().replace("+00:00", "Z")] if has_epoch else []
    return words


def renditions_of(body: bytes) -> list[str]:
    """Returns the specifications of the renditions."""
    found = []
    for place in range(SPECIFICATIONS, len(body) - RENDITION + 1, RENDITION):
        name, video, bandwidth, tolerance = struct.unpack_from("<32s?QQ", body, place)
        text = name.rstrip(bytes(1)).decode("ascii", "replace")
        if not re.fullmatch(RENDITION_NAME, text):
            raise Failure("its log has a rendition without a name")
        found.append(f"{text}:{'video' if video else 'audio'}:{bandwidth}:{tolerance}")
    return found


def read_log(path: str) -> Stored:
    """Reads a log. Its units are those that no record trims."""
    bodies = list(bodies_of(read_regular(path, LOG, flags=os.O_NOFOLLOW)))
    if not bodies:
        raise Failure("its log has no whole record")
    stored = Stored(options_of(bodies[0]), renditions_of(bodies[0]), {}, [])
    floors = {body[3]: struct.unpack_from("<Q", body, 4)[0] for body in bodies if body[:1] == bytes([TRIMMED]) and len(body) == 12}
    starts = struct.unpack_from("<16Q", bodies[0], BASE_BYTES)
    totals, counts = [0] * 16, [0] * 16
    for body in bodies:
        if len(body) < 4 or body[0] not in (BEGUN, ACCEPTED) or body[3] > 15:
            continue
        rendition = body[3]
        if body[0] == BEGUN:
            stored.inits[rendition] = body[4:]
            totals[rendition] += len(body) - 4
        elif len(body) >= 16:
            length, expected = struct.unpack_from("<IQ", body, 4)
            if counts[rendition] >= floors.get(rendition, 0):
                stored.units.append(Unit(rendition, starts[rendition] + totals[rendition], totals[rendition], length, expected))
            totals[rendition] += length
            counts[rendition] += 1
    return stored


def read_unit(folder: str, unit: Unit) -> bytes | None:
    """Reads a unit; None if the media don't have it whole."""
    found = bytearray()
    with contextlib.suppress(OSError):
        while len(found) < unit.length <= UNIT_LIMIT:
            number, place = divmod(unit.place + len(found), FILE)
            path = os.path.join(folder, "media", str(unit.rendition), f"{number:05}")
            piece = read_regular(path, min(unit.length - len(found), FILE - place), place, os.O_NOFOLLOW)
            if not piece:
                return None
            found += piece
    return bytes(found) if len(found) == unit.length and checksum(unit.offset, bytes(found)) == unit.checksum else None


def is_whole(folder: str, unit: Unit) -> bool:
    return read_unit(folder, unit) is not None


def send(port: int, folder: str, init: bytes, units: list[Unit]) -> None:
    """Sends a rendition as its encoder did."""
    def body() -> Iterator[bytes]:
        yield init
        for unit in units:
            yield read_unit(folder, unit) or b""

    connection = http.client.HTTPConnection("127.0.0.1", port, timeout=60)
    try:
        connection.request("PUT", f"/ingest/{units[0].rendition}", body(), encode_chunked=True, headers={"Transfer-Encoding": "chunked"})
        response = connection.getresponse()
        text = response.read(200)
        if response.status != 200:
            raise Failure(f"rendition {units[0].rendition}: {text.decode('ascii', 'replace').strip()}")
    except (OSError, http.client.HTTPException) as fault:
        raise Failure(f"rendition {units[0].rendition}: {fault}") from fault
    finally:
        connection.close()


def listening_port(process: "subprocess.Popen[bytes]", log: str) -> int:
    """Returns the port at which the origin listens, by its log."""
    for _ in range(PATIENCE * 20):
        has_ended = process.poll() is not None
        with open(log, encoding="utf-8", errors="replace") as file:
            text = file.read()
        if found := re.search(r"127\.0\.0\.1:(\d+)", text):
            return int(found[1])
        if has_ended:
            raise Failure(f"{PROGRAM}: {text.strip()[-300:]}")
        time.sleep(0.05)
    raise Failure(f"{PROGRAM} doesn't listen")


def origin_at(word: str) -> contextlib.AbstractContextManager[str]:
    """Returns what yields the origin that a tool is given: the folder of a journal is served meanwhile."""
    return served(word) if os.path.isdir(word) else contextlib.nullcontext(word)


@contextlib.contextmanager
def served(folder: str) -> Iterator[str]:
    """Serves the channel of a journal's folder, which isn't changed. Yields the origin's URL, and prints what is missing."""
    try:
        stored = read_log(os.path.join(folder, "log"))
    except (Failure, OSError) as fault:
        raise Failure(f"{folder}: {fault}") from None
    # (a unit takes half a GiB meanwhile, if it is as long as one may be)
    with concurrent.futures.ProcessPoolExecutor(min(4, os.cpu_count() or 1), initializer=end_by_signals) as pool:
        whole = list(pool.map(is_whole, [folder] * len(stored.units), stored.units, chunksize=16))
    if missing := whole.count(False):
        print(f"{folder}: {missing} of {len(whole)} units are damaged or missing, and are left out", file=sys.stderr)
    with tempfile.TemporaryDirectory(prefix="hls_stored-") as spool:
        log = os.path.join(spool, "log")
        # (the rates of encoders would hold an hour's units for minutes)
        words = [PROGRAM, "serve", "--unit-rate", "0", "--keep", KEEP, *stored.options, "127.0.0.1:0", *stored.renditions]
        with open(log, "wb") as file:
            process = subprocess.Popen(words, stdin=subprocess.DEVNULL, stdout=subprocess.DEVNULL, stderr=file)
        try:
            port = listening_port(process, log)
            for rendition, init in stored.inits.items():
                if units := [unit for unit, is_there in zip(stored.units, whole) if is_there and unit.rendition == rendition]:
                    send(port, folder, init, units)
            yield f"http://127.0.0.1:{port}"
        finally:
            process.terminate()
            process.wait()
