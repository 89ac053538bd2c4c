"""What this machine's services report: systemd's states, a process's arguments, an origin's log, and the room on a disk."""
import contextlib
import os
import re
import subprocess
from collections.abc import Sequence

from .channels import RENDITION_NAME

FILLED = re.compile(rf"serve: ({RENDITION_NAME}) is (away and is filled|back after)")
PROPERTIES = ("ActiveState", "Result", "UnitFileState", "ExecMainStatus", "MainPID", "NRestarts", "StatusText")
Unit = dict[str, str]


def read_units(names: Sequence[str]) -> dict[str, Unit]:
    """Returns the states of systemd's units; nothing where there is no systemd."""
    if not names:
        return {}
    with contextlib.suppress(OSError, subprocess.TimeoutExpired):
        done = subprocess.run(["systemctl", "show", "-p", ",".join(PROPERTIES), *names], stdin=subprocess.DEVNULL, capture_output=True, text=True, errors="replace", timeout=10)
        parts = [dict(line.partition("=")[::2] for line in part.split("\n")) for part in done.stdout.strip("\n").split("\n\n")]
        if len(parts) == len(names):
            return dict(zip(names, parts))
    return {}


def arguments_of(pid: str) -> list[str]:
    """Returns the arguments with which a process was started."""
    with contextlib.suppress(OSError):
        if int(pid or 0) > 0:
            with open(f"/proc/{int(pid)}/cmdline", "rb") as file:
                return file.read(1 << 20).decode(errors="replace").split("\0")[:-1]
    return []


def filled_renditions(name: str) -> list[str]:
    """Returns the renditions that an origin fills, by its log: it has a line a minute for each of them."""
    with contextlib.suppress(OSError, subprocess.TimeoutExpired):
        command = ["journalctl", "-q", "-o", "cat", "-u", f"hls_origin@{name}", "--since", "-75s", "-n", "1000"]
        text = subprocess.run(command, stdin=subprocess.DEVNULL, capture_output=True, text=True, errors="replace", timeout=5).stdout
        newest = dict(FILLED.findall(text))
        return sorted(rendition for rendition, what in newest.items() if what.startswith("away"))
    return []


def room_of(folder: str) -> tuple[float, float] | None:
    """Returns the free bytes and the free share of a folder's file system. A folder that this user can't see is judged by its parent."""
    while folder not in ("", "/"):
        with contextlib.suppress(OSError):
            found = os.statvfs(folder)
            return found.f_bavail * found.f_frsize, found.f_bavail / max(1, found.f_blocks)
        folder = os.path.dirname(folder)
    return None
