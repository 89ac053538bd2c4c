"""The sizes of the edge's caches, each a share of its file system, and the edge's logs: what `hls_channel site` computes (docs/EDGE.md)."""
import contextlib
import os
import re
import shutil
from collections.abc import Callable

from .failures import Failure, run

FOLDER = "/var/lib/nginx/hls"
LOGS = "/var/log/nginx/hls_origin.log", "/var/log/nginx/hls_origin_failover.log"
ROTATION = "/etc/logrotate.d/hls_origin"
# The percentage of the machine's memory that each file system may take (mount_caches).
FILE_SYSTEMS = {"": 20, "lists": 1, "recorded": 4}
# The percentage of its file system that each cache may take, and that the segments' one leaves free. The rest is for responses that are
# being written, and for what arrives until nginx looks again.
SHARES = {"lists": 60, "recorded": 60, "media": 45, "fetched": 10}
MIN_FREE = 15


def mount() -> None:
    """Mounts the file systems of the caches, as nginx's service does. A machine that can't, such as a container, has its disk there."""
    with contextlib.suppress(Failure):
        run(os.path.join(os.path.dirname(os.path.dirname(os.path.realpath(__file__))), "mount_caches"))


def size_of(cache: str) -> int:
    """Returns the size of a cache's file system: of one that is mounted there, or else what it may take of the memory."""
    system = cache if cache in FILE_SYSTEMS else ""
    folder = os.path.join(FOLDER, system)
    if os.path.ismount(folder):
        found = os.statvfs(folder)
        return found.f_blocks * found.f_frsize
    return os.sysconf("SC_PHYS_PAGES") * os.sysconf("SC_PAGE_SIZE") * FILE_SYSTEMS[system] // 100


def sized(text: str, size: Callable[[str], int] = size_of) -> str:
    """Returns nginx's configuration with the caches' sizes computed from their file systems."""
    def line(found: re.Match[str]) -> str:
        cache, words = found[1], found[0]
        for word, share in (("max_size", SHARES[cache]), ("min_free", MIN_FREE)):
            words = re.sub(rf"\b{word}=\w+", f"{word}={max(1, size(cache) * share // 100 >> 20)}m", words)
        return words
    return re.sub(rf"^proxy_cache_path {re.escape(FOLDER)}/({'|'.join(SHARES)}) .*$", line, text, flags=re.M)


def make_logs() -> None:
    """Creates the edge's logs, which have viewers' addresses, so that only nginx and the group `adm` may read them. nginx's own would be
    readable by all."""
    # in an image they are links to its output
    for path in (one for one in LOGS if not os.path.islink(one)):
        with open(os.open(path, os.O_WRONLY | os.O_CREAT | os.O_APPEND | os.O_NOFOLLOW, 0o640), "a", encoding="ascii") as file:
            os.fchmod(file.fileno(), 0o640)
        with contextlib.suppress(LookupError):
            shutil.chown(path, "www-data", "adm")
