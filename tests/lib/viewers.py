"""Viewers of an edge that runs in a network namespace: ffmpeg and Chromium, and how long their pictures stood still."""
import ctypes
import re
import subprocess
import threading
import time

from browser import NOTE_TIMES, Browser

CLONE_NEWNET = 0x40000000


def make_network(name):
    """Makes a named network namespace, which has a loopback alone, and enters it: what is started from now on is in it."""
    subprocess.run(["ip", "netns", "add", name], check=True)
    subprocess.run(["ip", "-n", name, "link", "set", "lo", "up"], check=True)
    with open(f"/run/netns/{name}") as file:
        if ctypes.CDLL(None, use_errno=True).setns(file.fileno(), CLONE_NEWNET):
            raise OSError(ctypes.get_errno(), "setns")


def longest_pause(times, since):
    """The longest time in seconds, after an instant, for which the second of (when, position) stayed the same."""
    longest, moved, at = 0, since, None
    for now, position in times:
        if now >= since:
            longest = max(longest, now - moved)
        if position != at:
            moved, at = max(now, since), position
    return longest


class Ffmpeg:
    """ffmpeg as a viewer in real time, of one video and the audio."""

    def __init__(self, url, *options):
        self.times = []
        self.process = subprocess.Popen(["ffmpeg", "-nostdin", "-v", "error", "-tls_verify", "0", *options, "-re", "-i", url, "-map", "0:v:0", "-map", "0:a:0?", "-c", "copy",
                                         "-f", "null", "-progress", "pipe:1", "-stats_period", "0.1", "-"], stdout=subprocess.PIPE, stderr=subprocess.PIPE, stdin=subprocess.DEVNULL, text=True)
        self.errors = []
        threading.Thread(target=self.note, daemon=True).start()
        threading.Thread(target=lambda: self.errors.extend(self.process.stderr), daemon=True).start()

    def note(self):
        for line in self.process.stdout:
            if found := re.match(r"frame=(\d+)", line):
                self.times.append((time.monotonic(), int(found[1])))

    def pause(self, since):
        """How long its pictures stood still at most; infinite where it ended."""
        return float("inf") if self.process.poll() is not None else longest_pause([*self.times, (time.monotonic(), self.times[-1][1] if self.times else None)], since)

    def close(self):
        self.process.kill()
        self.process.wait()


class Chromium:
    """The viewers' page in Chromium."""

    def __init__(self, url):
        self.browser = Browser()
        self.page = self.browser.open(url, before=NOTE_TIMES)
        self.ahead = self.page.run("performance.now() / 1000") - time.monotonic()

    def pause(self, since):
        times = self.page.run("window.times")
        return longest_pause([(now - self.ahead, position) for now, position, _ in times], since)

    def faults(self):
        return [fault for *_, fault in self.page.run("window.times") if fault]

    def close(self):
        self.browser.close()
