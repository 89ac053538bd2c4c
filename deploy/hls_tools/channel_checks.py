"""Finds the faults of a channel's file before anything runs: wrong values, and collisions with other channels of the machine."""
import contextlib
import glob
import ipaddress
import os
import re
import socket
import subprocess
import tempfile
import urllib.parse
from collections.abc import Callable, Sequence

from . import edge
from .certificates import PROGRAM
from .channels import FOLDER, NAME, Ladder, Wrong, name_of, option, read_values

# The keys of a channel's file: those of the origin, of its input, and of the machine around it.
KEYS = ("OPTIONS", "ADDRESS", "RENDITIONS", "SIZES", "RATE", "GROUP", "INPUT", "INPUT_OPTIONS", "ORIGINS", "VIDEO_OPTIONS", "EDGE", "STANDBY", "SENDERS")
PRIVATE = "10.0.0.0/8 172.16.0.0/12 192.168.0.0/16"       # who may connect to an origin if SENDERS isn't given


def places_of(values: dict[str, str]) -> list[str]:
    """Returns the channel's places at the edge. Wrong if one isn't valid."""
    return [edge.where(one) for one in values.get("EDGE", "").replace(",", " ").split()]


def origins_at_edge(values: dict[str, str]) -> list[str]:
    """Returns the addresses of the edge's upstreams: the channel's own on this machine, and its standby's. Wrong if one isn't valid."""
    own = values.get("ADDRESS", "").replace("0.0.0.0:", "127.0.0.1:")
    return [edge.address(one) for one in (own, *values.get("STANDBY", "").split())]


def senders_of(values: dict[str, str]) -> list[str]:
    """Returns the networks that may connect to the origin, and so send to it, with the other origin's address. Wrong if one isn't valid."""
    try:
        found = [ipaddress.IPv4Network(one) for one in values.get("SENDERS", PRIVATE).split()]
    except ValueError as fault:
        raise Wrong(f"SENDERS: {fault}") from None
    others = [ipaddress.IPv4Network(edge.address(one).rpartition(":")[0]) for one in values.get("STANDBY", "").split()]
    return [str(one) for one in [*found, *(one for one in others if not any(one.subnet_of(there) for there in found))]]


def listens_at(values: dict[str, str]) -> str | None:
    """Returns the protocol and port at which hls_ingest listens for the input, or None if it connects to it."""
    try:
        url = urllib.parse.urlsplit(values.get("INPUT", ""))
        port = url.port
    except ValueError:
        return None
    if url.scheme == "srt" and "mode=listener" in url.query or url.scheme == "udp":
        return f"udp {port}"
    return f"tcp {port or 1935}" if url.scheme.startswith("rtmp") and "-listen" in values.get("INPUT_OPTIONS", "") else None


def journal_of(values: dict[str, str], name: str) -> str | None:
    """Returns the folder of a channel's journal. Wrong if it is in another channel's state folder, as after copying a file."""
    folder = option(values, "--journal", "")
    if origins_at_edge(values)[1:] and not folder:
        raise Wrong(f"OPTIONS: a channel with two origins needs a journal: write --journal /var/lib/hls_origin/{name}/channel")
    if (found := re.match(r"/var/lib/hls_origin/([^/]+)/", folder)) and found[1] != name:
        raise Wrong(f"OPTIONS: --journal {folder} is in the folder of {found[1]}: write /var/lib/hls_origin/{name}/channel")
    return folder or None


def said_by(command: str, arguments: list[str]) -> str:
    """Returns what a command of the program prints for arguments of serve; nothing if it starts to serve. Wrong names a wrong argument."""
    try:
        done = subprocess.run([PROGRAM, command, *arguments], stdin=subprocess.DEVNULL, capture_output=True, text=True, errors="replace", timeout=5)
    except subprocess.TimeoutExpired:
        return ""
    except OSError as fault:
        raise Wrong(f"{PROGRAM} can't be run: {fault}") from fault
    if done.returncode == 2:
        raise Wrong("OPTIONS, ADDRESS or RENDITIONS: " + re.sub(r"^\w+: ", "", done.stderr.strip().split("\n")[0]))
    return done.stdout


def need_of(values: dict[str, str]) -> tuple[str, str]:
    """Returns the address space and the memory that a channel needs, by `hls_origin size`, in systemd's notation."""
    text = said_by("size", [*values.get("OPTIONS", "").split(), values.get("ADDRESS", ""), *values.get("RENDITIONS", "").split()])
    found = dict(re.findall(r"^(LimitAS|MemoryMax)=(\d+[KMGT]?)$", text, re.M))
    if len(found) != 2:
        raise Wrong(f"{PROGRAM} size doesn't print LimitAS= and MemoryMax=")
    return found["LimitAS"], found["MemoryMax"]


def check_own(values: dict[str, str]) -> None:
    """Tests that the options have none that belongs to a single start, or to the service."""
    for word in values.get("OPTIONS", "").split():
        if word == "--anew":
            raise Wrong("OPTIONS: --anew would empty the channel at each start: remove it; `hls_channel anew` begins an empty channel once")
        if word.partition("=")[0] in ("--base", "--run"):
            raise Wrong(f"OPTIONS: {word.partition('=')[0]} is the service's own: remove it")


def check_start(values: dict[str, str]) -> None:
    """Starts the program with a channel's options, at an address that no machine has and with a temporary journal, so that it ends at once."""
    options = values.get("OPTIONS", "").split()
    with tempfile.TemporaryDirectory() as folder:
        there = os.path.join(folder, "channel")
        elsewhere = [there if before == "--journal" and word else re.sub("^--journal=.+", f"--journal={there}", word) for before, word in zip(["", *options], options)]
        said_by("serve", [*elsewhere, "203.0.113.1:9", *values.get("RENDITIONS", "").split()])


def listener_at(host: str, port: str) -> str | None:
    """Returns the name of the process that listens at an address of this machine, if there is one and this user may know it."""
    with contextlib.suppress(OSError, subprocess.TimeoutExpired):
        text = subprocess.run(["ss", "-Hltnp", f"sport = :{port}"], stdin=subprocess.DEVNULL, capture_output=True, text=True, errors="replace", timeout=5).stdout
        for there, name in re.findall(r'^\S+ +\d+ +\d+ +(\S+):\d+ .*users:\(\("([^"]*)"', text, re.M):
            if host == "0.0.0.0" or there in (host, "0.0.0.0", "*"):
                return str(name)
    return None


def check_address(values: dict[str, str]) -> None:
    """Tests that the address belongs to this machine, and that no other program listens there. (Another channel's file is compared.)"""
    host, _, port = values.get("ADDRESS", "").rpartition(":")
    if (name := listener_at(host, port)) not in (None, "hls_origin"):
        raise Wrong(f"ADDRESS: {name} listens at {host}:{port}: use another port")
    try:
        with socket.socket() as one:
            one.bind((host, 0))
    except OSError:
        raise Wrong(f"ADDRESS: {host} isn't an address of this machine") from None


def others(path: str, folder: str) -> dict[str, dict[str, str]]:
    """Returns the values of the machine's other channels whose files can be read, by name."""
    found = {}
    for other in sorted(glob.glob(os.path.join(glob.escape(folder), "*.conf"))):
        if name_of(other) != name_of(path):
            with contextlib.suppress(Wrong):
                found[name_of(other)] = read_values(other)
    return found


def collisions(values: dict[str, str], other: dict[str, str]) -> list[str]:
    """Returns the values that two channels of a machine can't share."""
    found = []
    (host, _, port), (other_host, _, other_port) = (one.get("ADDRESS", "").rpartition(":") for one in (values, other))
    if port == other_port and (host == other_host or "0.0.0.0" in (host, other_host)):
        found.append(f"ADDRESS: port {port}")
    if (listens := listens_at(values)) and listens == listens_at(other):
        found.append(f"INPUT: {listens.split()[0].upper()} port {listens.split()[1]}")
    if (folder := option(values, "--journal", "")) and folder == option(other, "--journal", ""):
        found.append(f"OPTIONS: --journal {folder}")
    both = set(values.get("EDGE", "").replace(",", " ").split()) & set(other.get("EDGE", "").replace(",", " ").split())
    return found + [f"EDGE: {one}" for one in sorted(both)]


def wrong_values(values: dict[str, str], path: str, is_served_here: bool) -> list[str]:
    """Returns the faults of a file's values."""
    # a wrong argument of the program is reported without what depends on it, such as lengths that don't fit together
    arguments: list[Callable[[dict[str, str]], object]] = [check_own, need_of, check_start] + [lambda values: Ladder(values, path)] * bool(values.get("INPUT"))
    rest: list[Callable[[dict[str, str]], object]] = [places_of, origins_at_edge, senders_of, lambda values: journal_of(values, name_of(path))]
    rest += [check_address] * is_served_here
    found = []
    for group in [arguments, *([one] for one in rest)]:
        try:
            for check in group:
                check(values)
        except Wrong as fault:
            found += [str(fault)] * (str(fault) not in found)
    return found


def faults_of(path: str, folder: str = FOLDER, channels: str | None = None, is_served_here: bool = False) -> list[str]:
    """Returns the faults of a channel's file, a line for each. `channels` is the edge's file of channels."""
    try:
        values = read_values(path)
    except Wrong as fault:
        return [str(fault)]
    found = [] if re.fullmatch(NAME, name_of(path)) else [f"{name_of(path)!r} isn't a valid name: a-z, 0-9, _ and -, at most 24 characters"]
    found += [f"{key}: unknown key; the keys are {' '.join(KEYS)}" for key in values if key not in KEYS]
    found += [f"{key} is missing" for key in ("ADDRESS", "RENDITIONS") if not values.get(key)]
    found = found or wrong_values(values, path, is_served_here)
    for name, other in others(path, folder).items():
        found += [f"{one} is already used by {name}" for one in collisions(values, other)]
    if channels and os.path.exists(channels) and not found:
        try:
            for name, (places, _) in edge.read_channels(channels).items():
                found += [f"EDGE: {one} is already used by {name} in {channels}" for one in places_of(values) if one in places and name != name_of(path)]
        except Wrong as fault:
            found.append(str(fault))
    return found


def in_bytes(text: str) -> int:
    """Reads a number of bytes as systemd writes it."""
    return int(text.rstrip("KMGT")) << {"K": 10, "M": 20, "G": 30, "T": 40}.get(text[-1:], 0)


def warnings_of(path: str) -> list[str]:
    """Returns warnings for a file without faults: what works, but is rarely intended."""
    values = read_values(path)
    url = values.get("INPUT", "")
    if listens_at(values) and url.startswith("srt") and "passphrase=" not in url and not re.match(r"srt://(127\.|localhost)", url):
        return ["INPUT: anyone who can reach this port may send: add &passphrase=.. (10 to 79 characters)"]
    return []


def memory_warning(paths: Sequence[str], folder: str = FOLDER, memory: int | None = None) -> str | None:
    """Returns a warning if the machine has less memory than its channels may need, these ones included."""
    memory = os.sysconf("SC_PHYS_PAGES") * os.sysconf("SC_PAGE_SIZE") if memory is None else memory
    channels = {name_of(path): read_values(path) for path in paths}
    channels |= {name: values for path in paths[:1] for name, values in others(path, folder).items() if name not in channels}
    total = memory // 4 if any(one.get("EDGE") for one in channels.values()) else 0       # nginx's caches (docs/EDGE.md)
    # without sockets: the system limits those of all channels together (net.ipv4.tcp_mem)
    for one in channels.values():
        with contextlib.suppress(Wrong):
            total += in_bytes(need_of(one)[0])
    if total <= memory:
        return None
    count = f"the {len(channels)} channels" if len(channels) > 1 else "the channel"
    return f"{count} and the edge's caches together may need {total >> 20} MiB, and the machine has {memory >> 20} MiB: shorten --keep, or use more machines"
