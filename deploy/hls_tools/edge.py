"""The edge's files for nginx: the file of channels, and the maps and upstreams that are generated from it (docs/EDGE.md)."""
import fcntl
import json
import os
import re
import secrets
import shutil
from collections.abc import Iterable, Mapping, Sequence
from typing import IO

from .channels import ADDRESS, NAME, Wrong, check_use
from .failures import Failure, run
from .passwords import Rendition, User, read_users, renditions_of

FOLDER = "/etc/nginx/hls_origin"
LOCK = "/run/hls_edge.lock"
HOST = r"[a-z0-9]([a-z0-9-]*[a-z0-9])?(\.[a-z0-9]([a-z0-9-]*[a-z0-9])?)*"
# First segments of the edge's own paths: a channel at one of these would hide them.
TAKEN = {"/hls", "/origin"}
Channel = tuple[list[str], list[str]]       # a channel's places at the edge, and its origins' addresses


def address(text: str) -> str:
    """Returns an origin's address if it is valid. A name isn't: nginx would have to resolve it when it starts. Nor is what can't be an
    origin, and would give clients access to something else: the edge itself, or a link's own services such as a cloud's metadata."""
    if not re.fullmatch(ADDRESS, text):
        raise Wrong(f"{text!r} isn't IP:PORT")
    check_use(text)
    return text


def where(text: str) -> str:
    """Returns a channel's place if it is valid: a path of every host, a host of its own, or every other host."""
    if not (text == "/" or re.fullmatch("/" + NAME, text) or re.fullmatch(HOST, text)):
        raise Wrong(f"{text!r} is neither /PREFIX (a-z, 0-9, _ and -, at most 24 characters) nor a HOST in lower case nor /")
    if text in TAKEN:
        raise Wrong(f"{text!r} is one of the edge's own paths")
    return text


def read_channels(path: str) -> dict[str, Channel]:
    """Returns the channels by name, each with its places and origins, in the order of the file."""
    channels: dict[str, Channel] = {}
    seen: dict[str, str] = {}
    with open(path, encoding="utf-8", errors="replace") as file:
        for number, line in enumerate(file, 1):
            words = line.split("#")[0].split()
            if not words:
                continue
            try:
                if len(words) != 3:
                    raise Wrong("a line must have three words: NAME WHERE[,WHERE..] ORIGIN[,ORIGIN]")
                name, places, origins = words[0], [where(one) for one in words[1].split(",")], [address(one) for one in words[2].split(",")]
                if not re.fullmatch(NAME, name) or name in channels:
                    raise Wrong(f"{name!r} already has a line" if name in channels else f"{name!r} isn't a valid name: a-z, 0-9, _ and -, at most 24 characters")
                if len(origins) > 2 or len(set(origins)) != len(origins):
                    raise Wrong("a channel must have one origin or two different ones")
                # a copied line that wasn't changed completely
                for one in places + origins:
                    if one in seen:
                        raise Wrong(f"{one} is already used by {seen[one]}")
                    seen[one] = name
            except Wrong as fault:
                raise Wrong(f"{path}, line {number}: {fault}") from None
            channels[name] = places, origins
    return channels


def write_whole(path: str, text: str, mode: int) -> None:
    """Writes a file atomically."""
    with open(os.open(path + ".new", os.O_WRONLY | os.O_CREAT | os.O_TRUNC | os.O_NOFOLLOW, mode), "w", encoding="utf-8", errors="surrogateescape") as file:
        os.fchmod(file.fileno(), mode)
        file.write(text)
        file.flush()
        os.fsync(file.fileno())
    os.replace(path + ".new", path)


def map_of(key: str, value: str, default: str, lines: Iterable[str]) -> str:
    return "\n".join([f"map {key} {value} {{", f"    default {default};", *(f"    {line};" for line in lines), "}"])


def places_of(channels: Mapping[str, Channel]) -> list[str]:
    """Returns the maps from a prefix and a host to a channel. Hosts may be longer than a hash's buckets, so they are patterns."""
    places = [(place, name) for name, (found, _) in channels.items() for place in found]
    others = next((name for place, name in places if place == "/"), '""')
    hosts = [(f'"~^{re.escape(place)}$"', name) for place, name in places if place[0] != "/"]
    return [map_of("$host", "$hls_channel_of_host", others, [f"{place} {name}" for place, name in hosts]), map_of("$host", "$hls_at_host", '""', [f"{place} 1" for place, _ in hosts]),
            map_of("$hls_prefix", "$hls_channel", '""', [f'"" {"$hls_channel_of_host" if hosts else others}'] + [f"{place} {name}" for place, name in places if place[0] == "/" != place])]


def upstreams(name: str, origins: Sequence[str]) -> str:
    """Returns a channel's upstreams: NAME.0 fails over between its origins, NAME.1 and NAME.2 are each of them. (No channel name has a dot.) NAME.0 has the first origin
    twice, so that one lost packet is retried there. With one origin there is nothing to fail over to, so it is always tried."""
    servers = [f"server {origins[0]} max_fails=0;"] * 2 if len(origins) == 1 else [f"server {origins[0]} max_fails=5 fail_timeout=10s;"] * 2 + [f"server {origins[1]} max_fails=0 backup;"]
    blocks = [(f"hls_{name}.0", servers)] + [(f"hls_{name}.{number}", [f"server {one} max_fails=0;"]) for number, one in enumerate(origins, 1)]
    return "\n".join(f"upstream {block} {{\n    zone {block} 64k;\n    " + "\n    ".join(lines) + "\n}" for block, lines in blocks)


def known(users: Mapping[str, Sequence[User]]) -> list[str]:
    """Returns the maps to a user with separate limits: by the beginning of the password, or by the name if the file lacks that. Names are
    patterns, since nginx compares other keys in any case: users whose names differ in case alone would be one, and a conflict."""
    of_all = [(name, user) for name, found in users.items() for user in found]
    return [map_of('"$hls_channel $remote_user"', "$hls_named_user", '""', [f'"~^{name} {re.escape(user.name)}\\z" {user.name}' for name, user in of_all if not user.begins]),
            map_of('"$hls_channel $http_authorization"', "$hls_known_user", "$hls_named_user",
                   [f'"~^{name} (?i:basic) +{re.escape(user.begins)}" {user.name}' for name, user in of_all if user.begins])]


def secret_of(text: str | None) -> str:
    """Returns the secret that the edge's two servers share: that of the file before, since during a reload both versions run, or a new one."""
    found = re.search(r'^map "" \$hls_secret \{\n    default ([0-9a-f]{32});', text or "", re.M)
    return found[1] if found else secrets.token_hex(16)


def generated(channels: Mapping[str, Channel], users: Mapping[str, Sequence[User]], renditions: Iterable[Rendition], secret: str) -> str:
    """Returns the text of generated.conf."""
    stand_ins = [one for _, origins in channels.values() for one in origins[1:]]
    return "\n\n".join([
        "# Generated from `channels` by hls_channel, which overwrites changes.",
        *places_of(channels),
        *known(users),
        map_of('"$hls_kind $hls_channel $hls_rendition"', "$hls_passwords", "$hls_channel", [f'"encoders {name} {number}" {name}.{number}' for name, number in renditions]),
        map_of('""', "$hls_secret", secret, []),
        map_of("$http_x_edge", "$in_is_own", '""', [f"{secret} 1"]),
        map_of('"$hls_channel $hls_number"', "$hls_process", '""', [f'"{name} {n}" {name}.{n}' for name, (_, origins) in channels.items() for n in range(1, len(origins) + 1)]),
        map_of("$upstream_addr", "$in_stand_in", '""', [f'"~(^|[ ,]){re.escape(one)}$" 1' for one in stand_ins]),
        *(upstreams(name, origins) for name, (_, origins) in channels.items()),
    ]) + "\n"


def write_operated(channels: Mapping[str, Channel]) -> None:
    """Writes a file for each operator, with the channels that the user operates, which the page of all channels reads
    (edge/pages/operate_all.js). Those who may read the passwords may read it."""
    passwords, folder = os.path.join(FOLDER, "operators"), os.path.join(FOLDER, "operated")
    if not os.path.isdir(passwords):
        return
    operated: dict[str, list[dict[str, object]]] = {}
    for name, (places, origins) in channels.items():
        for user in read_users(FOLDER, name, ("operators",)):
            operated.setdefault(user.name + ".json", []).append({"name": name, "place": places[0], "origins": len(origins)})
    os.makedirs(folder, exist_ok=True)
    shutil.copymode(passwords, folder)
    os.chown(folder, -1, os.stat(passwords).st_gid)
    for old in set(os.listdir(folder)) - set(operated):
        os.remove(os.path.join(folder, old))
    for file, found in operated.items():
        write_whole(os.path.join(folder, file), json.dumps(found) + "\n", 0o644)


def locked() -> IO[str]:
    """Locks the edge's files against other commands. Only root may open the lock file, since whoever can open it can hold the lock."""
    lock = open(os.open(LOCK, os.O_WRONLY | os.O_CREAT, 0o600), "w", encoding="utf-8")
    fcntl.flock(lock, fcntl.LOCK_EX)
    return lock


def apply(reload: bool = True) -> None:
    """Writes generated.conf, has nginx test it, and reloads nginx. The caller holds the lock."""
    channels, path = read_channels(os.path.join(FOLDER, "channels")), os.path.join(FOLDER, "generated.conf")
    before = open(path, encoding="utf-8").read() if os.path.isfile(path) else None
    users, renditions = {name: read_users(FOLDER, name) for name in channels}, [one for name in channels for one in renditions_of(FOLDER, name)]
    write_whole(path, generated(channels, users, renditions, secret_of(before)), 0o600)
    try:
        run("nginx", "-t")
    except Failure as fault:
        os.rename(path, path + ".refused")
        if before is not None:
            write_whole(path, before, 0o600)
        raise Failure(f"{fault}\nnginx rejected the configuration, and keeps the old one; the rejected file is {path}.refused") from None
    write_operated(channels)
    if reload:
        run("nginx", "-s", "reload")
