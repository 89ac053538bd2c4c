"""Runs a channel's origin in the foreground, for a container image, or under another init than systemd: what its service's unit,
hls_origin@.service, runs before a start, at the start and after an end, so that both do the same. Only the Exec lines and the environment
of the unit are read; its sandbox isn't. As root the steps run as root, and the origin as the owner of the channel's state directory, or as
nobody if there is none; never as root.
"""
import contextlib
import os
import re
import resource
import shlex
import signal
import subprocess
import sys
import threading
import time
from collections.abc import Mapping
from types import FrameType

from .channel_checks import in_bytes, need_of
from .channels import NAME, name_of, read_values
from .failures import SIGNALS, Failure

UNIT = "hls_origin@.service"
UNITS = "/usr/lib/systemd/system"
STATE = "/var/lib/hls_origin"
PRIVATE = "/var/lib/private/"       # where systemd keeps the state of a service with DynamicUser=
NOBODY = 65534
AGAIN = 60.0                # seconds in which an origin that can't take its journal is started again only once
# The memory that the container's control group may use, by version 2 and 1.
LIMITS = ("/sys/fs/cgroup/memory.max", "/sys/fs/cgroup/memory/memory.limit_in_bytes")


def read_unit(path: str) -> dict[str, list[str]]:
    """Returns the values of a unit's keys, each in the order of its lines."""
    found: dict[str, list[str]] = {}
    with open(path, encoding="utf-8") as file:
        for key, value in re.findall(r"^(\w+)=(.*)$", file.read(), re.M):
            found.setdefault(key, []).append(value)
    return found


def words_of(command: str, name: str, environment: Mapping[str, str]) -> list[str]:
    """Returns the arguments of a unit's command. $KEY becomes one for each word of its value, ${KEY} is part of one."""
    words = []
    for word in shlex.split(command.lstrip("-+!:@")):
        word = word.replace("%i", name).replace("%n", UNIT.replace("@", f"@{name}"))
        if found := re.fullmatch(r"\$(\w+)", word):
            words += environment.get(found[1], "").split()
        else:
            words.append(re.sub(r"\$\{(\w+)\}", lambda key: environment.get(key[1], ""), word))
    return words


def container_memory() -> int | None:
    """Returns the memory that this process's control group may use, if it is limited."""
    for path in LIMITS:
        with contextlib.suppress(OSError, ValueError), open(path, encoding="ascii") as file:
            found = int(file.read())
            return found if found < 1 << 60 else None
    return None


def limit_memory(values: dict[str, str]) -> int:
    """Returns the address space that an origin gets: what its options need, or what there is, if that is less. At that limit, which its
    user may raise, it refuses units; above the container's the kernel would end it. A limit that is set already is kept."""
    limits = [in_bytes(one) for one in need_of(values)]
    there = container_memory()
    if there is not None and there < limits[1]:
        print(f"hls_channel: the channel may need {limits[1] >> 20} MiB of memory, and its container may use {there >> 20} MiB", file=sys.stderr, flush=True)
    soft, hard = resource.getrlimit(resource.RLIMIT_AS)
    if soft != resource.RLIM_INFINITY:
        return soft
    return min(one for one in (limits[0], there, hard) if one is not None and one != resource.RLIM_INFINITY)


class Foreground:
    """A channel's origin and the steps around it. A signal ends it, as `systemctl stop` does."""

    def __init__(self, path: str, units: str) -> None:
        self.path, self.name = path, name_of(path)
        if not re.fullmatch(NAME, self.name):
            raise Failure(f"{path}: {self.name!r} is not a channel's name", 2)
        read_values(path)
        self.lines = read_unit(os.path.join(units, UNIT))
        self.process: subprocess.Popen[bytes] | None = None
        self.is_stopping = False
        self.state = os.path.join(STATE, self.name)
        self.owner = self.make_state()
        self.environment = self.read_environment()

    def make_state(self) -> tuple[int, int] | None:
        """Makes the state directory, if there is none. Returns the user and the group that the origin runs as, if this process is root."""
        is_root = os.geteuid() == 0
        # without one, an origin whose file has no --journal works
        with contextlib.suppress(OSError):
            os.makedirs(self.state, 0o700, exist_ok=True)
            # an empty one may be a volume that was just made
            if is_root and os.stat(self.state).st_uid == 0 and not os.listdir(self.state):
                os.chown(self.state, NOBODY, NOBODY)
        if not is_root:
            return None
        if not os.path.isdir(self.state):
            return NOBODY, NOBODY
        if os.path.realpath(self.state).startswith(PRIVATE):
            raise Failure(f"{self.state} is in {PRIVATE}, which systemd opens to its own service alone: type systemctl start hls_origin@{self.name}, or "
                          f"once it is disabled: rm {STATE}; mv {PRIVATE}hls_origin {STATE}")
        found = os.stat(self.state)
        if not found.st_uid:
            raise Failure(f"{self.state} is root's, and an origin doesn't run as root: type chown -R nobody:nogroup {self.state}")
        return found.st_uid, found.st_gid

    def read_environment(self) -> dict[str, str]:
        """Returns the environment of the next start: the unit's, the channel's file, and the arguments that are for one start only."""
        environment = {**os.environ, **dict(one.split("=", 1) for one in self.lines.get("Environment", [])), "RUNNER": "foreground"}
        if os.path.isdir(self.state):
            environment["STATE_DIRECTORY"] = self.state
        once = self.once()
        for path in (self.path, once):
            if path == self.path or os.path.exists(path):
                environment |= read_values(path)
        with contextlib.suppress(OSError):
            os.remove(once)
        return environment

    def once(self) -> str:
        """Returns the file with arguments for the next start only."""
        return os.path.join(os.environ.get("RUNTIME_DIRECTORY", "/run/hls_origin"), self.name + ".once")

    def stop(self, _number: int, _frame: FrameType | None) -> None:
        """Ends what runs, and then this process."""
        if self.is_stopping:
            return
        self.is_stopping = True
        if self.environment.get("MAINPID"):
            for line in self.lines.get("ExecStop", []):
                subprocess.run(words_of(line, self.name, self.environment), env=self.environment, stdin=subprocess.DEVNULL, check=False)
        if self.process:
            with contextlib.suppress(ProcessLookupError):
                self.process.terminate()

    def step(self, line: str) -> int:
        """Runs one step. Returns its status, 0 if that doesn't matter."""
        words = words_of(line, self.name, self.environment)
        try:
            self.process = subprocess.Popen(words, env=self.environment, stdin=subprocess.DEVNULL)
        except OSError as fault:
            raise Failure(f"{words[0]} can't be run: {fault.strerror}") from fault
        status = self.process.wait()
        return 0 if line.startswith("-") else status

    def follow(self, pid: int) -> None:
        """Runs the steps after a start, beside the origin."""
        environment = {**self.environment, "MAINPID": str(pid)}
        for line in self.lines.get("ExecStartPost", []):
            subprocess.run(words_of(line, self.name, environment), env=environment, stdin=subprocess.DEVNULL, check=False)

    def start(self) -> int:
        """Runs the origin once, with the steps before and after it. Returns how its process ended, as subprocess does."""
        space = limit_memory(self.environment)
        for line in self.lines.get("ExecStartPre", []):
            if status := self.step(line):
                self.after(status)
                return status
        if self.is_stopping:
            return 0
        user, group = self.owner or (None, None)
        words = words_of(self.lines["ExecStart"][0], self.name, self.environment)
        hard = resource.getrlimit(resource.RLIMIT_AS)[1]
        self.process = origin = subprocess.Popen(words, env=self.environment, stdin=subprocess.DEVNULL, umask=0o077, preexec_fn=lambda: resource.setrlimit(resource.RLIMIT_AS, (space, hard)),
                                                 user=user, group=group, extra_groups=[] if self.owner else None)
        self.environment["MAINPID"] = str(origin.pid)
        threading.Thread(target=self.follow, args=(origin.pid,), daemon=True).start()
        status = origin.wait()
        self.process = None
        del self.environment["MAINPID"]
        self.after(status)
        return status

    def after(self, status: int) -> None:
        """Runs the steps after an end, which see it as they do under systemd."""
        is_well = status == 0 or self.is_stopping
        result = "success" if is_well else "exit-code" if status > 0 else "signal"
        code = ("exited", str(status)) if status >= 0 else ("killed", signal.Signals(-status).name.removeprefix("SIG"))
        environment = {**self.environment, "SERVICE_RESULT": result, "EXIT_CODE": code[0], "EXIT_STATUS": code[1]}
        for line in self.lines.get("ExecStopPost", []):
            subprocess.run(words_of(line, self.name, environment), env=environment, stdin=subprocess.DEVNULL, check=False)

    def run(self) -> int:
        """Runs the origin until it ends or a signal comes. Starts it again only if it couldn't take its journal and the next start can:
        restarts are the caller's. Returns the exit status."""
        for number in SIGNALS:
            signal.signal(number, self.stop)
        last = -AGAIN
        while True:
            status = self.start()
            if self.is_stopping:
                return 0
            if not os.path.exists(self.once()) or time.monotonic() - last < AGAIN:
                return status if status >= 0 else 128 - status
            last, self.environment = time.monotonic(), self.read_environment()


def serve(path: str, tools: str) -> int:
    """Runs the origin of a channel's file. The unit is beside the tools in a clone, and systemd's in the package."""
    units = tools if os.path.exists(os.path.join(tools, UNIT)) else UNITS
    return Foreground(path, units).run()
