"""What a restart with a channel's file costs: whether the channel in its journal continues, with all that is kept, or an empty one begins."""
import os
import re
import subprocess
from typing import NamedTuple

from .certificates import PROGRAM
from .channels import number, option
from .failures import Failure, run
from .services import arguments_of, read_units

STATE, RUN = "/var/lib/hls_origin", "/run/hls_origin"
SCRIPTS = os.path.dirname(os.path.dirname(os.path.abspath(__file__)))      # those of the service
PATIENCE = 300              # seconds that the program may take to read a journal
KEEP = 3_600_000_000        # --keep of serve, in microseconds, if it isn't given
LOST = re.compile(r"(?P<why>.*); (?P<seconds>\d+) s would be lost")


class Comparison(NamedTuple):
    """What `hls_origin journal --check` says of a start: whether it continues the journal's channel, why not, and how many seconds of
    recordings the journal has, if that is known."""

    continues: bool
    why: str
    seconds: int | None


def running_options(name: str) -> list[str]:
    """Returns the arguments of the process that serves a channel now, without those of a single start; nothing if there is none."""
    service = f"hls_origin@{name}"
    words = arguments_of(read_units([service]).get(service, {}).get("MainPID", ""))
    if words[1:2] != ["serve"]:
        return []
    return [word for before, word in zip(words[1:], words[2:]) if word not in ("--base", "--anew") and before != "--base"]


def journal_now(name: str) -> str | None:
    """Returns the folder of the channel's journal: that of the running process, or else the one that the service left."""
    if words := running_options(name):
        return option({"OPTIONS": " ".join(words)}, "--journal", "") or None
    folder = os.path.join(STATE, name, "channel")
    return folder if os.path.lexists(os.path.join(folder, "log")) else None


def compare(name: str, arguments: list[str]) -> Comparison | None:
    """Compares a start with these arguments with the journal that they name; None if the program can't compare them. The base
    has the numbers that players have seen. One of other renditions isn't comparable. Fails if the program gives no answer."""
    base = os.path.join(RUN, name + ".base")
    for words in [["--base", base, *arguments]] * os.path.exists(base) + [arguments]:
        try:
            done = subprocess.run([PROGRAM, "journal", "--check", *words], stdin=subprocess.DEVNULL, capture_output=True, text=True, errors="replace", timeout=PATIENCE)
        except OSError as fault:
            raise Failure(f"{name}: {PROGRAM} can't be run: {fault.strerror}, so what a restart would cost isn't known: nothing was changed") from fault
        except subprocess.TimeoutExpired as fault:
            raise Failure(f"{name}: the journal wasn't read within {PATIENCE} s, so what a restart would cost isn't known: nothing was changed; type: {' '.join(fault.cmd)}") from fault
        if done.returncode == 0 and (found := re.search(r"^continues (\d+) s$", done.stdout, re.M)):
            return Comparison(True, "", int(found[1]))
        if done.returncode == 1 and (lost := LOST.search(done.stdout)):
            return Comparison(False, lost["why"], int(lost["seconds"]))
        if done.returncode < 0:
            raise Failure(f"{name}: signal {-done.returncode} ended {PROGRAM}, so what a restart would cost isn't known: nothing was changed; type: {' '.join(done.args)}")
    return None


def arguments_in(values: dict[str, str]) -> list[str]:
    """Returns the arguments of serve that a channel's file gives."""
    return [*values.get("OPTIONS", "").split(), values.get("ADDRESS", ""), *values.get("RENDITIONS", "").split()]


def kept_seconds(name: str, values: dict[str, str]) -> int | None:
    """Returns how many seconds of recordings a restart with these values continues with; None if it continues none."""
    found = compare(name, arguments_in(values))
    return found.seconds if found and found.continues else None


def cost_of_keep(name: str, values: dict[str, str], kept: int) -> str | None:
    """Returns what ends by a --keep that is shorter than that of the running process; None if nothing does, or if none is running."""
    running = running_options(name)
    before, after = (number({"OPTIONS": options}, "--keep", KEEP) // 1_000_000 for options in (" ".join(running), values.get("OPTIONS", "")))
    lost = min(kept, before) - after
    if not running or lost <= 0:
        return None
    return f"--keep is {after} s instead of {before} s: {lost} s of recordings end; `systemctl restart hls_origin@{name}` does that"


def cost_of(name: str, values: dict[str, str]) -> str | None:
    """Returns what ends if the channel restarts with these values; None if nothing does, or if nothing is kept now."""
    folder, now = option(values, "--journal", ""), journal_now(name)
    if now and folder != now:
        kept = compare(name, running_options(name) or ["--journal", now, *arguments_in(values)])
        found: Comparison | None = Comparison(False, f"OPTIONS has no --journal {now}", kept.seconds if kept else None)
    elif folder and os.path.lexists(os.path.join(folder, "log")):
        found = compare(name, arguments_in(values))
    else:
        return None
    if found is None:
        return None
    if found.continues:
        return cost_of_keep(name, values, found.seconds or 0)
    what = "its recordings" if found.seconds is None else f"{found.seconds} s of recordings"
    return f"this begins an empty channel: {what} end ({found.why}); `hls_channel anew {name}` does that"


def set_aside(folder: str) -> str:
    """Renames the journal of a channel that was stopped, so that no start continues it. Returns its new name."""
    parent, name = os.path.split(folder)
    run("env", f"STATE_DIRECTORY={parent}", os.path.join(SCRIPTS, "as_owner"), os.path.join(SCRIPTS, "set_aside"), name)
    return folder + ".aside"
