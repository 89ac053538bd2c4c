"""Origins, and what their runs share: generated streams, servers, real encoders, Chromium. Checks are in harness.py, an edge in edge_site.py."""
import os
import re
import shutil
import struct
import subprocess
import sys
import time

import harness
from harness import free_port


def need(**packages):
    """Installs the Debian packages of the commands that are missing."""
    missing = sorted({package for command, names in packages.items() if not shutil.which(command) for package in names.split()})
    if missing:
        harness.install(missing)


def end():
    """Says how many checks were right, and ends: with status 1 if one was wrong, or none was made."""
    right, wrong = harness.right, harness.wrong
    print(f"{right} of {right + len(wrong)} right")
    sys.exit(1 if wrong or not right else 0)


# Generated streams: a track of one kind, units of one sample each.

def box(kind, *parts):
    content = b"".join(parts)
    return struct.pack(">I4s", 8 + len(content), kind) + content


def words(kind, *numbers):
    return box(kind, struct.pack(f">{len(numbers)}I", *numbers))


def init_section(kind="video", scale=90000):
    handler = {"video": b"vide", "audio": b"soun"}[kind]
    track = box(b"trak", box(b"tkhd", struct.pack(">4I", 3, 0, 0, 1), bytes(68)),
                box(b"mdia", words(b"mdhd", 0, 0, 0, scale, 0, 0x55c40000), box(b"hdlr", bytes(8), handler, bytes(13))))
    return box(b"ftyp", b"isom", bytes(4)) + box(b"moov", track, box(b"mvex", words(b"trex", 0, 1, 1, 0, 0, 0)))


def unit(start, ticks, size, fill=0xaa, sync=True):
    """A unit of one sample, of the given number of bytes in all."""
    fragment = box(b"traf", words(b"tfhd", 0x20000, 1), box(b"tfdt", b"\1\0\0\0", struct.pack(">Q", start)),
                   words(b"trun", 0x701, 1, 108, ticks, size - 108, 0x02000000 if sync else 0x01010000))
    return box(b"moof", words(b"mfhd", 0, 1), fragment) + box(b"mdat", bytes([fill]) * (size - 108))


# Servers

def wait_for(port, seconds=20):
    import socket
    for _ in range(seconds * 20):
        try:
            socket.create_connection(("127.0.0.1", port)).close()
            return
        except OSError:
            time.sleep(0.05)
    raise SystemExit(f"nothing listens on port {port}")


class Origin:
    """A server of its own process, and its log. Encoders send generated streams faster than in real time, so their rates aren't limited unless
    the options say so."""

    def __init__(self, program, folder, options, renditions, port=None, name="origin", environment={}):
        self.port, self.environment = port or free_port(), {**environment, **os.environ}
        rate = [] if "--unit-rate" in options else ["--unit-rate", "0"]
        self.words = [program, "serve", *rate, *options, f"127.0.0.1:{self.port}", *renditions]
        self.log = os.path.join(folder, f"{name}.log")
        self.start()

    def start(self):
        self.process = harness.run(*self.words, stderr=open(self.log, "a"), stdin=subprocess.DEVNULL, env=self.environment)
        wait_for(self.port)

    def kill(self):
        self.process.kill()
        self.process.wait()

    def stop(self):
        self.process.terminate()
        self.process.wait()

    def lines(self):
        with open(self.log) as file:
            return file.read().split("\n")

    def requests(self):
        """The requests that it has logged so far."""
        return [line for line in self.lines() if line.startswith("serve: request ")]


def resident(pid):
    """Resident bytes of a process."""
    with open(f"/proc/{pid}/status") as file:
        return int(re.search(r"VmRSS:\s+(\d+)", file.read())[1]) * 1024


def part(values, share):
    """The value below which this share of the values lies."""
    values = sorted(values)
    return values[min(len(values) - 1, int(len(values) * share))] if values else float("nan")


# Real encoders and a real browser

def push_real(port, seconds, size="320x180", more=(), paths=("/ingest/0", "/ingest/1"), url=None, flags=""):
    """ffmpeg in real time: videos in groups of two seconds, and an audio, which has the last path; each by its own PUT. Without
    `+frag_discont` among further flags its times begin at 0, whatever -output_ts_offset says."""
    url = url or f"http://127.0.0.1:{port}"
    clip = ["-re", "-f", "lavfi", "-i", f"testsrc=s={size}:r=25", "-re", "-f", "lavfi", "-i", "sine=f=440:r=48000"]
    pushed = []
    videos = [(harness.VIDEO, "+cmaf+frag_keyframe+skip_trailer", path) for path in paths[:-1]]
    for kind, kind_flags, path in [*videos, (harness.AUDIO, "+cmaf+skip_trailer", paths[-1])]:
        pushed.append(subprocess.Popen(
            ["ffmpeg", "-v", "error", *clip, *kind, "-t", str(seconds), *more, "-f", "mp4", "-movflags", kind_flags + flags,
             *(["-frag_duration", "200000"] if kind is harness.AUDIO else []), "-method", "PUT", url + path],
            stdin=subprocess.DEVNULL, stderr=subprocess.DEVNULL))
    return pushed


def browser_page(url, seconds, enough):
    """Opens a page of `edge/player.html` in Chromium without a window, and gives the last state that it said: the first that
    is enough, or the one after that number of seconds."""
    import json
    import tempfile
    import threading
    with tempfile.TemporaryDirectory() as profile:
        browser = subprocess.Popen(
            ["chromium", "--headless=new", "--no-sandbox", "--disable-gpu", "--enable-logging=stderr", "--ignore-certificate-errors",
             "--autoplay-policy=no-user-gesture-required", "--disable-dev-shm-usage", f"--user-data-dir={profile}", url],
            stdin=subprocess.DEVNULL, stdout=subprocess.DEVNULL, stderr=subprocess.PIPE, text=True, errors="replace", start_new_session=True)
        timer = threading.Timer(seconds + 20, browser.terminate)
        timer.start()
        begun, last = None, None
        try:
            for line in browser.stderr:
                if found := re.search(r'"state (\{.*?\})"', line):
                    last = json.loads(found[1])
                    begun = begun or time.monotonic()
                    if enough(last) or last["error"] or time.monotonic() - begun > seconds:
                        break
        finally:
            timer.cancel()
            browser.terminate()
            try:
                browser.wait(10)
            except subprocess.TimeoutExpired:
                browser.kill()
                browser.wait()
    return last
