"""The file of a new channel, from the example's or another channel's: with free ports, and a journal and a place of its own."""
import contextlib
import re
import socket
from collections.abc import Collection, Sequence

from .channel_checks import listens_at
from .channels import INNER_PORT, Wrong, read_values

EXAMPLE = "/usr/share/doc/hls-origin/examples/channel.conf"
# Keys that name other machines' places for the other channel.
NOT_COPIED = ("STANDBY", "ORIGINS")


def is_free(protocol: str, port: int) -> bool:
    """Returns whether no process of this machine listens at a port."""
    with socket.socket(type=socket.SOCK_DGRAM if protocol == "udp" else socket.SOCK_STREAM) as one:
        try:
            one.setsockopt(socket.SOL_SOCKET, socket.SO_REUSEADDR, protocol == "tcp")
            one.bind(("0.0.0.0", port))
        except OSError:
            return False
    return True


def free_port(first: int, protocol: str, taken: Collection[str]) -> int:
    """Returns the first free port from a number on that no channel's file has."""
    return next((port for port in range(first, 65536) if port != INNER_PORT and f"{protocol} {port}" not in taken and is_free(protocol, port)), first)


def taken_ports(paths: Sequence[str]) -> set[str]:
    """Returns the ports in channels' files, with their protocols."""
    found = set()
    for path in paths:
        with contextlib.suppress(Wrong):
            values = read_values(path)
            found |= {f"tcp {values.get('ADDRESS', '').rpartition(':')[2]}", listens_at(values) or ""}
    return found


def set_value(text: str, key: str, before: str, after: str) -> str:
    """Replaces a part of a key's value, and nothing in other lines."""
    return re.sub(rf"^{key}=.*$", lambda line: line[0].replace(before, after), text, flags=re.M)


def new_text(path: str, name: str, taken: Collection[str]) -> tuple[str, list[str]]:
    """Returns the text of a new channel's file, like that at a path, and what its user has to look at."""
    values, notes = read_values(path), []
    with open(path, encoding="utf-8") as file:
        text = file.read()
    host, _, port = values.get("ADDRESS", "").rpartition(":")
    if port.isdecimal():
        text = set_value(text, "ADDRESS", f"{host}:{port}", f"{host}:{free_port(int(port), 'tcp', taken)}")
    protocol, _, port = (listens_at(values) or "").partition(" ")
    if port.isdecimal() and f":{port}" in values["INPUT"]:
        text = set_value(text, "INPUT", f":{port}", f":{free_port(int(port), protocol, taken)}")
    elif values.get("INPUT"):
        notes.append("INPUT is that of the other channel: change it")
    text = re.sub(r"(?<=/var/lib/hls_origin/)[^/\s\"]+(?=/)", name, text)
    text = re.sub(r"^EDGE=.*$", f'EDGE="/{name}"', text, flags=re.M)
    for key in NOT_COPIED:
        if key in values:
            text = re.sub(rf"^({key}=.*)$", r"#\1", text, flags=re.M)
            notes.append(f"{key} names the other channel's: it is a comment now")
    return text, notes
