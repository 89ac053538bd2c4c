"""The health of channels: what their viewers get now, and what they will soon miss, for `hls_channel status` and `watch`. The page of all
channels has the same rules and limits (edge/pages/operate_health.js): a change of one is a change of both.

`look` reads the edge's files and the states of services once for all channels, and then asks each channel's origin, and its edge as a
viewer would. Nothing is changed. The limits are those of the alerts (deploy/prometheus/hls_rules.yml).
"""
import concurrent.futures
import contextlib
import dataclasses
import os
import re
import ssl
import time
from collections.abc import Container, Iterator, Mapping, Sequence
from typing import NamedTuple

from . import edge
from .channel_checks import origins_at_edge, places_of
from .channels import RENDITION_NAME, Wrong, address_of_file, name_of, option, read_values
from .failures import Failure
from .origins import Origin, Response
from .services import Unit, arguments_of, filled_renditions, read_units, room_of
from .sites import Site, find_site

TIMEOUT = 3.0               # seconds that an origin or the edge may take for a response
FRESH = 2.0                 # seconds for which an origin's measurements of times hold
STILL = 3                   # targets after which players have emptied their buffers
BEHIND = 12                 # seconds that a rendition may lag the others
FULL = 0.9                  # share of its memory limit that an origin may use
ROOM, SHARE = 5e8, 0.1      # bytes, or share of a disk, that must be free
MEMORY = 0.05               # share of the machine's memory that must be available
CACHES, LEAST = "/var/lib/nginx/hls", 16 << 20      # the edge's caches, and the bytes that must be free there
LISTS = 1 << 20             # bytes of a live list or of the metrics
# Kinds of faults, the one first that is to be corrected first.
KINDS = ("file", "origin", "edge", "list", "encoder", "input", "memory", "disk", "journal", "standby")
Metrics = dict[str, dict[str, float]]       # by metric and rendition; "" for one without


class Fault(NamedTuple):
    """What is wrong, its kind (one of KINDS), and what to type next."""

    kind: str
    text: str
    command: str


@dataclasses.dataclass
class Health:
    """A channel's state. Numbers are None where nothing answered. The first fault is the one to correct first."""

    name: str
    address: str = ""                   # its origin's
    url: str = ""                       # its master playlist's at the edge; "" without an edge
    version: int | None = None          # of its log
    still: float | None = None          # seconds since its lists had a new segment
    lag: float | None = None            # seconds by which its last rendition is behind its first one
    filled: list[str] = dataclasses.field(default_factory=list)     # renditions that are filled
    input: str = ""                     # what hls_ingest says of its input; "" without one
    journal: str = "none"               # none, kept or lost
    memory: float | None = None         # share of its limit
    room: float | None = None           # share of its journal's disk that is free
    faults: list[Fault] = dataclasses.field(default_factory=list)

    def add(self, kind: str, text: str, command: str) -> None:
        self.faults.append(Fault(kind, text, command))

    def line(self) -> str:
        """Returns the state as one line, without the name: the faults and what to type, or that all is well."""
        if self.faults:
            return f"{'; '.join(one.text for one in self.faults)}. Type: {self.faults[0].command}"
        parts = [f"origin at {self.address}, version {self.version}", f"lists {self.still or 0:.0f} s old" + f" at {self.url}" * bool(self.url), self.input.partition(";")[0]]
        parts += [f"journal {self.journal}" if self.journal != "none" else "no journal", f"memory {self.memory:.0%}" if self.memory is not None else ""]
        return "; ".join(one for one in parts if one)


# What is asked

def read_metrics(response: Response) -> Metrics:
    """Reads the values of /metrics, by the renditions' names. What answers may be another program: names go into lines and commands that an
    operator types, so only those that a rendition may have are read."""
    found: Metrics = {}
    for name, labels, value in re.findall(r'^(\w+)(?:\{([^}\n]*)\})? ([0-9]{1,20}(?:\.[0-9]{1,20})?(?:e-[0-9]{1,3})?)$', response.body.decode("ascii", "replace"), re.M):
        rendition = re.search(r'\bname="([^"]*)"', labels)
        if not rendition or re.fullmatch(RENDITION_NAME, rendition[1]):
            found.setdefault(name, {})[rendition[1] if rendition else ""] = float(value)
    return found


def next_segment(text: str) -> int:
    """Returns the media sequence number that a live list's next segment will have."""
    first = re.search(r"^#EXT-X-MEDIA-SEQUENCE:(\d{1,16})$", text, re.M)
    return int(first[1] if first else 0) + len(re.findall(r"^#EXTINF:", text, re.M))


# The rules

class Machine(NamedTuple):
    """What this machine's channels share: the edge's site, the channels that it serves, and the states of services."""

    site: Site | None
    served: Container[str]
    units: Mapping[str, Unit]

    def unit(self, name: str) -> Unit:
        return self.units.get(name, {})

    def look(self, path: str) -> Health:
        """Returns the health of a channel, by its file."""
        health = Health(name_of(path))
        try:
            values = read_values(path)
            health.address = address_of_file(path)
            metrics = self.look_at_origin(health, values)
            self.look_at_edge(health, values, is_up=metrics is not None)
            self.look_at_input(health, values)
            if metrics is not None:
                look_at_encoders(health, values, metrics)
                look_at_memory(health, values, metrics)
                look_at_lists(health, metrics)
            self.look_at_journal(health, values, metrics)
            look_at_standby(health, values)
        except Failure as fault:
            health.add("file", str(fault).removeprefix(path + ": "), f"hls_channel check {health.name}")
        health.faults.sort(key=lambda one: KINDS.index(one.kind))
        return health

    def look_at_origin(self, health: Health, values: dict[str, str]) -> Metrics | None:
        """Asks the origin for its metrics."""
        response = ask_metrics(health.address)
        if response is not None and age_of(read_metrics(response)) > FRESH:
            # an origin to which nothing happens measures times again once it is asked
            time.sleep(FRESH / 4)
            response = ask_metrics(health.address)
        if response is not None and response.status == 200:
            metrics = read_metrics(response)
            health.version = int(metrics.get("hls_log_entries", {}).get("", 0))
            return metrics
        if response is not None and b"refused Memory" in response.body:
            health.add("origin", "the origin is out of memory, and refuses encoders and viewers", relieve(health.name, values))
        elif response is not None:
            health.add("origin", f"{health.address} answers {response.status}: it isn't this channel's origin", f"ss -ltnp 'sport = :{health.address.rpartition(':')[2]}'")
        else:
            health.add("origin", *self.why_silent(health, values))
        return None

    def why_silent(self, health: Health, values: dict[str, str]) -> tuple[str, str]:
        """Returns why an origin doesn't answer, by its service, and what to type."""
        service = f"hls_origin@{health.name}"
        unit = self.unit(service)
        state, text = unit.get("ActiveState", ""), f"the origin doesn't answer at {health.address}"
        if state == "active":
            return f"{text}, though it runs", f"systemctl restart {service}" if option(values, "--journal", "") else f"journalctl -u {service} -n 20"
        if state in ("activating", "deactivating", "reloading"):
            restarts = unit.get("NRestarts", "0")
            return f"{text}: it is starting" + f", after {restarts} restart{'s' * (restarts != '1')}" * (restarts not in ("", "0")), f"journalctl -u {service} -n 20"
        if unit.get("Result") == "exit-code" and unit.get("ExecMainStatus") == "2":
            return f"{text}: a wrong argument ended it", f"hls_channel check {health.name}"
        if unit.get("Result", "success") != "success":
            return f"{text}: it failed", f"journalctl -u {service} -n 20"
        if unit.get("UnitFileState") in ("enabled", "enabled-runtime"):
            return f"{text}: it was stopped", f"systemctl start {service}"
        return f"{text}: the channel isn't added to this machine", f"hls_channel add {health.name}"

    def look_at_edge(self, health: Health, values: dict[str, str], is_up: bool) -> None:
        """Requests a live list as a viewer would, at each of the channel's places, if the origin is up."""
        places, state = places_of(values), self.unit("nginx").get("ActiveState", "active")
        if places and self.site is None:
            health.add("edge", "this machine's nginx isn't an edge", "hls_channel site HOST")
        elif places and self.site is not None:
            health.url = self.site.url(places[0]) + "/hls/master.m3u8"
            if health.name not in self.served:
                health.add("edge", "the edge doesn't serve it", f"hls_channel add {health.name}")
            elif state != "active":
                health.add("edge", "nginx isn't running", "systemctl start nginx" if state == "inactive" else "nginx -t && systemctl restart nginx")
            elif is_up:
                found = (ask_edge(self.site, place, health.address) for place in places)
                health.faults += [one for one in found if one][:1]

    def look_at_input(self, health: Health, values: dict[str, str]) -> None:
        """Reads what hls_ingest reports of its input to systemd. In a container there is none."""
        if not values.get("INPUT") or not self.units:
            return
        service = f"hls_ingest@{health.name}"
        unit = self.unit(service)
        health.input = unit.get("StatusText", "")
        if unit.get("ActiveState", "active") in ("inactive", "failed"):
            health.input = ""
            health.add("input", "hls_ingest isn't running", f"systemctl start {service}")
        elif not health.input.startswith("input shown"):
            health.add("input", health.input or "hls_ingest is starting", f"journalctl -u {service} -n 20")

    def look_at_journal(self, health: Health, values: dict[str, str], metrics: Metrics | None) -> None:
        """Compares the journal that the channel should have with that of its process, and measures its disk."""
        folder, service = option(values, "--journal", ""), f"hls_origin@{health.name}"
        if not folder:
            return
        running = arguments_of(self.unit(service).get("MainPID", ""))
        if metrics is not None:
            health.journal = "lost" if metrics.get("hls_journal_lost", {}).get("") or running and folder not in running else "kept"
        if found := room_of(folder):
            room, health.room = found
            if room < ROOM and health.room < SHARE:
                health.add("disk", f"{room / 1e6:.0f} MB are left on the disk of {folder}", f"du -xah $(df --output=target {folder} | tail -1) | sort -h | tail -20")
        if health.journal == "lost":
            is_lost = metrics is not None and metrics.get("hls_journal_lost", {}).get("")
            what = "the journal is lost" if is_lost else "it runs without its journal"
            health.add("journal", f"{what}: once its disk has room (df -h {folder}), begin an empty channel at a quiet time", f"hls_channel anew {health.name}")


def ask_metrics(address: str) -> Response | None:
    """Requests an origin's metrics; None if it doesn't answer."""
    with contextlib.suppress(Failure):
        return asked(address).ask("/metrics", LISTS)
    return None


def age_of(metrics: Metrics) -> float:
    """Returns how many seconds ago an origin measured times."""
    begun, uptime = (metrics.get(name, {}).get("") for name in ("process_start_time_seconds", "hls_uptime_seconds"))
    return time.time() - begun - uptime if begun and uptime else 0.0


def is_marked(folder: str) -> bool:
    """Returns whether players have seen more than the journal in a folder has."""
    with contextlib.suppress(OSError):
        if os.lstat(os.path.join(folder, "lock")).st_size:
            return True
    return os.path.lexists(os.path.join(folder, "behind"))


def relieve(name: str, values: dict[str, str]) -> str:
    """Returns what to type if an origin's memory is full. With a journal a restart costs two seconds, and nothing that is kept, unless the
    journal is lost, and its folder so marked."""
    service, folder = f"hls_origin@{name}", option(values, "--journal", "")
    return f"systemctl restart {service}" if folder and not is_marked(folder) else f"prlimit --pid $(systemctl show -P MainPID {service}) --as=unlimited"


def encoder_of(name: str, values: dict[str, str], rendition: str) -> str:
    """Returns what shows why a rendition's encoder doesn't send."""
    return f"journalctl -u hls_ingest@{name} -n 20" if values.get("INPUT") else f"journalctl -u hls_origin@{name} -g 'ingest {rendition}' -n 5"


def look_at_encoders(health: Health, values: dict[str, str], metrics: Metrics) -> None:
    """Finds renditions that have not begun, that lag the others, and that are filled."""
    begun, ends, finished = (metrics.get(name, {}) for name in ("hls_rendition_begun", "hls_rendition_end_seconds", "hls_rendition_finished"))
    missing = [name for name, value in begun.items() if not value]
    if missing:
        who = "no encoder has sent anything" if len(missing) == len(begun) else f"{', '.join(missing)} {'have' if missing[1:] else 'has'} not begun"
        health.add("encoder", f"{who}: there is no live list yet", encoder_of(health.name, values, missing[0]))
        return
    behind = {name: max(ends.values()) - end for name, end in ends.items() if not finished.get(name)}
    health.lag = max(behind.values(), default=0)
    late = [name for name, by in behind.items() if by > BEHIND]
    if late:
        health.add("encoder", f"{', '.join(late)} {'are' if late[1:] else 'is'} {health.lag:.0f} s behind, and the lists of all renditions wait", encoder_of(health.name, values, late[0]))
    health.filled = filled_renditions(health.name) if "--mend" in values.get("OPTIONS", "").split() else []
    if health.filled:
        health.add("encoder", f"{', '.join(health.filled)} {'are' if health.filled[1:] else 'is'} filled: nothing comes from the encoder", encoder_of(health.name, values, health.filled[0]))


def look_at_memory(health: Health, values: dict[str, str], metrics: Metrics) -> None:
    used, limit = (metrics.get(f"process_virtual_memory_{name}", {}).get("", 0.0) for name in ("bytes", "max_bytes"))
    if limit > 0:
        health.memory = used / limit
        if health.memory > FULL:
            health.add("memory", f"memory is {health.memory:.0%} of its limit", relieve(health.name, values))


def look_at_lists(health: Health, metrics: Metrics) -> None:
    """Compares how long the live lists have been still with their target. What was found before says why, if it does."""
    health.still = metrics.get("hls_list_still_seconds", {}).get("", 0.0)
    if health.still > STILL * metrics.get("hls_list_target_seconds", {}).get("", 6.0) and not metrics.get("hls_channel_ended", {}).get(""):
        why = [one.command for one in health.faults if one.kind in ("encoder", "memory", "input")]
        health.add("list", f"the lists have been still for {health.still:.0f} s", [*why, f"journalctl -u 'hls_*@{health.name}.service' -g 'refused|wait for|ingest' -n 5"][0])


def look_at_standby(health: Health, values: dict[str, str]) -> None:
    """Asks the channel's other origin, if there are two."""
    for other in origins_at_edge(values)[1:]:
        try:
            asked(other).ask("/status")
        except Failure:
            health.add("standby", f"its other origin {other} doesn't answer", f"ssh {other.rpartition(':')[0]} hls_channel status {health.name}")


def asked(where: str) -> Origin:
    """Returns a client that makes each request once."""
    return Origin(where, agent="hls_channel", timeout=TIMEOUT, patience=0)


def ask_edge(site: Site, place: str, address: str) -> Fault | None:
    """Requests a list of a channel at a place, and returns what is wrong with it."""
    try:
        context = trust_site(site.certificate) if site.certificate else None
    except OSError as fault:
        return Fault("edge", f"{site.certificate}: {fault.strerror or fault}", f"hls_channel site {site.host}")
    client = asked(site.url(place))
    client.connect_at(site.address, context)
    newest = None
    for _ in range(2):
        with contextlib.suppress(Failure):
            newest = next_segment(asked(address).text("/hls/0.m3u8"))
        try:
            response = client.ask("/hls/0.m3u8", LISTS)
        except Failure as fault:
            if isinstance(fault.__cause__, ssl.SSLCertVerificationError):
                return Fault("edge", f"players refuse the edge's certificate: {fault.__cause__.verify_message}", f"openssl x509 -in {site.certificate} -noout -subject -enddate")
            return Fault("edge", f"the edge doesn't answer at {site.url(place)}", "nginx -t; systemctl status nginx")
        if response.status != 200:
            # without a segment there is no list at the origin either
            return Fault("edge", f"the edge answers {response.status} at {site.url(place)}", "tail -5 /var/log/nginx/error.log") if newest or response.status != 404 else None
        # the origin may have got another segment meanwhile, and the edge keeps a list for a second
        if newest is None or next_segment(response.body.decode("ascii", "replace")) >= newest - 1:
            return None
    return Fault("edge", f"the edge serves an old list at {site.url(place)}", "rm -rf /var/lib/nginx/hls/lists/*; systemctl reload nginx")


def trust_site(certificate: str) -> ssl.SSLContext:
    """Returns a TLS context that trusts the machine's authorities, and this certificate, which may be self-signed."""
    context = ssl.create_default_context()
    context.load_verify_locations(certificate)
    context.verify_flags = ssl.VERIFY_X509_TRUSTED_FIRST | ssl.VERIFY_X509_PARTIAL_CHAIN
    return context


def machine_faults() -> Iterator[Fault]:
    """Yields what is wrong with the machine itself."""
    with contextlib.suppress(OSError, KeyError, ValueError):
        with open("/proc/meminfo", encoding="ascii") as file:
            sizes = {key: int(value.split()[0]) for key, _, value in (line.partition(":") for line in file)}
        if sizes["MemAvailable"] < MEMORY * sizes["MemTotal"]:
            yield Fault("memory", f"only {sizes['MemAvailable'] >> 10} MiB of its memory are available", "ps -eo rss,args --sort=-rss | head")
    if os.path.isdir(CACHES) and (found := room_of(CACHES)) and found[0] < LEAST:
        yield Fault("disk", "the edge's caches are full", f"df -h {CACHES}; tail -5 /var/log/nginx/error.log")


def look(paths: Sequence[str]) -> list[Health]:
    """Returns the health of channels, by their files, in their order."""
    names, served = [name_of(path) for path in paths], {}
    with contextlib.suppress(OSError, Wrong):
        served = edge.read_channels(os.path.join(edge.FOLDER, "channels"))
    machine = Machine(find_site(), served, read_units(["nginx", *(f"hls_{part}@{name}" for name in names for part in ("origin", "ingest"))]))
    with concurrent.futures.ThreadPoolExecutor(16) as pool:
        return list(pool.map(machine.look, paths))
