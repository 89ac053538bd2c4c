"""A Debian of its own, made by debootstrap and booted by systemd-nspawn, with the package installed."""
import datetime
import os
import re
import shutil
import subprocess
import tempfile
import time

from harness import ROOT, SLACK, check

# What START.md's last command calls: plays for eight seconds, and says how many pictures there were.
PLAYER = """#!/bin/bash
exec ffmpeg -nostdin -v error -stats "${@:1:$#-1}" -i "${@: -1}" -t 8 -map 0:v:0 -map '0:a:0?' -f null - 2>&1 | tr '\\r' '\\n' | tail -3
"""


# Where allow_sanitizers writes.
LIMIT_FILE = "/etc/systemd/system/hls_origin@.service.d/zz.conf"

# The hierarchies of control groups in which a systemd keeps its units: one, or those of version 1 and 2 side by side.
HIERARCHIES = [top for top in ("/sys/fs/cgroup/systemd", "/sys/fs/cgroup/unified", "/sys/fs/cgroup") if os.path.exists(top + "/cgroup.procs")]


class ControlGroup:
    """A machine's own control group in each hierarchy. Two machines in one group would share the groups of their units, and a systemd that
    finds another one's process in a unit's group ends none of that unit's processes."""

    def __init__(self):
        first = tempfile.mkdtemp(prefix="machine-", dir=HIERARCHIES[0])
        self.folders = [first, *(os.path.join(top, os.path.basename(first)) for top in HIERARCHIES[1:])]
        for folder in self.folders[1:]:
            os.mkdir(folder)

    def enter(self):
        """Moves the calling process into the group."""
        for folder in self.folders:
            with open(folder + "/cgroup.procs", "w") as file:
                file.write("0")

    def remove(self):
        """Removes the group and those below it, once the last of its processes has ended, which takes the kernel its time."""
        if wait(30, lambda: all([is_removed(at) for folder in self.folders for at, _, _ in os.walk(folder, topdown=False)])) is None:
            raise SystemExit(f"{self.folders[0]} isn't empty")


def is_removed(group):
    """Removes a control group that has no processes and no group below it. Returns whether it did."""
    try:
        os.rmdir(group)
    except OSError:
        return False
    return True


class Machine:
    """A booted Debian, by its own systemd's process."""

    def __init__(self, root, network=None):
        self.root, self.group = root, ControlGroup()
        # one with a name outlives the machine, and so do viewers in it
        words = f"--network-namespace-path=/run/netns/{network}" if network else "--private-network"
        # a machine has the call that keep_sockets makes; systemd-nspawn refuses it
        self.nspawn = subprocess.Popen(["systemd-nspawn", "--quiet", "--boot", "-D", root, words, "--register=no", "--keep-unit", "--system-call-filter=pidfd_getfd"],
                                       preexec_fn=self.group.enter, stdin=subprocess.DEVNULL, stdout=subprocess.DEVNULL, stderr=subprocess.DEVNULL)
        self.leader, self.senders = None, {}
        for _ in range(100):
            time.sleep(0.5)
            with open(f"/proc/{self.nspawn.pid}/task/{self.nspawn.pid}/children") as file:
                self.leader = (file.read().split() or [None])[0]
            if self.leader and self.run("systemctl", "is-system-running").stdout.strip() in ("running", "degraded"):
                return
        raise SystemExit("the machine doesn't boot")

    def inside(self, *words):
        return ["nsenter", "-t", self.leader, "-m", "-u", "-i", "-n", "-p", "-C", "-r", "-w", "/usr/bin/env", "-i", "PATH=/usr/sbin:/usr/bin:/sbin:/bin",
                "HOME=/srv", "LC_ALL=C.UTF-8", "DEBIAN_FRONTEND=noninteractive", *words]

    def run(self, *words, seconds=300):
        return subprocess.run(["timeout", "-k", "5", str(seconds), *self.inside(*words)], cwd="/", capture_output=True, text=True, errors="replace", stdin=subprocess.DEVNULL)

    def said(self, *words, **more):
        done = self.run(*words, **more)
        return done.stdout + done.stderr

    def write(self, path, text, mode=0o644):
        with open(self.root + path, "w") as file:
            file.write(text)
        os.chmod(self.root + path, mode)

    def send(self, name, to):
        """An encoder somewhere that sends H.264 and AAC in a transport stream, begun again where nobody listens yet."""
        coded = f"ffmpeg -nostdin -v error -re -f lavfi -i testsrc=s=320x180:r=25 -f lavfi -i sine=r=48000 -c:v libx264 -preset ultrafast -g 25 -pix_fmt yuv420p -c:a aac -f mpegts '{to}'"
        self.senders[name] = subprocess.Popen(self.inside("nice", "-n", "3", "bash", "-c", f"trap 'kill $!; exit' TERM; while :; do {coded} & wait; sleep 0.5; done"),
                                              cwd="/", stdin=subprocess.DEVNULL, stderr=subprocess.DEVNULL)

    def stop_sending(self, name):
        self.run("pkill", "-f", "mpegts .*" + {"news": ":9000", "sport": ":9001"}[name])
        if sender := self.senders.pop(name, None):
            sender.kill()
            sender.wait()
        self.run("pkill", "-f", "mpegts .*" + {"news": ":9000", "sport": ":9001"}[name])

    def segments(self, port, rendition=0):
        """Date and length of each listed segment, and whether it has a mark."""
        text = self.run("curl", "-s", f"http://127.0.0.1:{port}/live/{rendition}.m3u8").stdout
        return [(datetime.datetime.fromisoformat(date + "+00:00").timestamp(), float(length), bool(mark)) for mark, date, length in
                re.findall(r"(#EXT-X-DISCONTINUITY\n)?#EXT-X-PROGRAM-DATE-TIME:(\S+)Z\n#EXTINF:([0-9.]+),", text)]

    def last_end(self, port):
        found = self.segments(port)
        return found[-1][0] + found[-1][1] if found else 0

    def until(self, port, instant, seconds=60):
        """How long it takes until lists reach an instant."""
        begun = time.monotonic()
        while time.monotonic() - begun < seconds:
            if self.last_end(port) >= instant:
                return time.monotonic() - begun
            time.sleep(0.3)
        return None

    def child(self, unit, word):
        """The process that a service's own one started with this word."""
        main = self.main_pid(unit)
        for pid in self.run("cat", f"/proc/{main}/task/{main}/children").stdout.split():
            if word in self.run("cat", f"/proc/{pid}/cmdline").stdout.split("\0"):
                return pid
        raise SystemExit(f"{unit} runs no {word}")

    def main_pid(self, unit):
        return self.run("systemctl", "show", "-P", "MainPID", unit).stdout.strip()

    def journal(self, unit):
        return self.run("journalctl", "-o", "cat", "--no-pager", "-u", unit).stdout

    def stop(self):
        for name in list(self.senders):
            self.stop_sending(name)
        # systemd's own signal for a power-off
        subprocess.run(["kill", "-RTMIN+4", self.leader])
        try:
            self.nspawn.wait(60 * SLACK)
        except subprocess.TimeoutExpired:
            # and all of its processes with it
            subprocess.run(["kill", "-KILL", self.leader])
            self.nspawn.kill()
            self.nspawn.wait()
        self.group.remove()


def wait(seconds, enough):
    """Waits until something is so, for SLACK times as many seconds at most. Returns how long that took, or None."""
    begun = time.monotonic()
    while time.monotonic() - begun < seconds * SLACK:
        if enough():
            return time.monotonic() - begun
        time.sleep(0.3)
    return None


def is_sanitized(program):
    """Whether a program was built with sanitizers, such as an unproved one."""
    with open(program, "rb") as file:
        return b"AddressSanitizer" in file.read()


def make(program, *words, **more):
    """deploy/package with these arguments."""
    return subprocess.run([*more.pop("before", []), "bash", os.path.join(ROOT, "deploy", "package"), *words],
                          env={**os.environ, "HLS_ORIGIN": os.path.abspath(program)}, capture_output=True, text=True, **more)


def debian(base, root, wanted, more=""):
    """A fresh Debian, with what is wanted and what that needs downloaded, not installed, and so what it shall have more."""
    if not os.path.isdir(base):
        done = subprocess.run(["debootstrap", "--variant=minbase", "--include=systemd,systemd-sysv,dbus,procps,man-db", "bookworm", base, "http://deb.debian.org/debian"],
                              capture_output=True, text=True)
        if done.returncode:
            raise SystemExit(done.stdout[-500:])
    subprocess.run(["cp", "-a", base, root], check=True)
    if wanted.endswith(".deb"):
        shutil.copy(wanted, os.path.join(root, "srv"))
        wanted = f"./{os.path.basename(wanted)}"
    # which debootstrap leaves to the installer
    with open(os.path.join(root, "etc", "hosts"), "w") as file:
        file.write("127.0.0.1 localhost\n::1 localhost\n")
    done = subprocess.run(["systemd-nspawn", "--quiet", "-D", root, "--register=no", "--keep-unit", "--pipe", "bash", "-c",
                           f"cd /srv && apt-get -q update && apt-get install -q -y --download-only {wanted} {more}"],
                          capture_output=True, text=True, stdin=subprocess.DEVNULL)
    if done.returncode:
        raise SystemExit(done.stdout[-500:] + done.stderr[-500:])


def unsynced(root):
    """Has a machine's dpkg sync no file: it shall not survive a power cut, and a busy disk makes each package wait."""
    with open(os.path.join(root, "etc/dpkg/dpkg.cfg.d/unsynced"), "w") as file:
        file.write("force-unsafe-io\n")


def allow_sanitizers(root, program):
    """Lifts the service's limit of its address space for a program with sanitizers, which map more than any limit allows. Returns whether it is
    one."""
    if not is_sanitized(program):
        return False
    print("   a program with sanitizers: its address space isn't limited here")
    os.makedirs(os.path.dirname(root + LIMIT_FILE), exist_ok=True)
    with open(root + LIMIT_FILE, "w") as file:
        file.write("[Service]\nLimitAS=100T\n")
    return True


def start_commands():
    """The commands of docs/START.md's steps, each a line."""
    text = open(os.path.join(ROOT, "docs", "START.md")).read()
    steps = text[:text.index("## Look at it")]
    return [line for one in re.findall(r"```\n(.*?)```", steps, re.S) for line in one.strip().split("\n")]


def watch_commands():
    """The commands that put the watchers in place, each a line of docs/RUNBOOK.md."""
    text = open(os.path.join(ROOT, "docs", "RUNBOOK.md")).read()
    return re.search(r"```\n(apt-get install .*?)\n```", text[text.index("## What is watched"):], re.S)[1].split("\n")


def run_of(machine):
    """The run that the edge's list of news names."""
    found = re.search(r"^([A-Za-z0-9]+)/0/", machine.said("curl", "-m", "3", "-sk", "https://localhost/news/hls/0.m3u8"), re.M)
    return found[1] if found else None


def counted_once(machine, what, before):
    """That players get lists of another run, by themselves, and of one alone."""
    found = wait(60, lambda: run_of(machine) not in (None, before))
    check(f"{what}: the next run is served", found is not None, machine.said("curl", "-m", "3", "-sk", "https://localhost/news/hls/0.m3u8")[-300:])
    text, own = machine.said("curl", "-m", "3", "-sk", "https://localhost/news/hls/0.m3u8"), machine.said("cat", "/run/hls_origin/news.base")
    check(f"{what}: it is the new process's", set(re.findall(r"^([A-Za-z0-9]+)/0/", text, re.M)) == {re.search(r"run (\S+)", own)[1]}, (text[-300:], own))
