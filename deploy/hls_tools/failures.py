"""How a tool ends early: by a failure with its line and exit status, by a failed command, or by a signal."""
import signal
import subprocess
import sys
from collections.abc import Callable
from types import FrameType

SIGNALS = (signal.SIGINT, signal.SIGTERM, signal.SIGHUP)


class Failure(Exception):
    """A reason to end, as one line, with the exit status."""

    def __init__(self, text: object, status: int = 1) -> None:
        super().__init__(str(text))
        self.status = status


def run(*words: str) -> str:
    """Runs a command. Returns what it prints."""
    try:
        done = subprocess.run(words, stdin=subprocess.DEVNULL, capture_output=True, text=True, errors="replace")
    except OSError as fault:
        raise Failure(f"{words[0]} can't be run: {fault.strerror}") from fault
    if done.returncode:
        raise Failure(f"{words[0]}: {(done.stderr or done.stdout).strip()[-600:] or done.returncode}")
    return done.stdout


def leave(number: int, _: FrameType | None) -> None:
    """Ends the tool at the first signal. Later ones are ignored, so that it can clean up."""
    for one in SIGNALS:
        signal.signal(one, signal.SIG_IGN)
    sys.exit(128 + number)


def end_by_signals() -> None:
    """Has signals end this process at once: one of several that work for a tool, which cleans up itself."""
    for one in SIGNALS:
        signal.signal(one, signal.SIG_DFL)


def run_tool(name: str, work: Callable[[], None]) -> None:
    """Does a tool's work. After a failure, prints its line and exits with its status."""
    for one in SIGNALS:
        signal.signal(one, leave)
    try:
        work()
    except (Failure, OSError) as fault:
        print(f"{name}: {fault}", file=sys.stderr)
        sys.exit(getattr(fault, "status", 1))
