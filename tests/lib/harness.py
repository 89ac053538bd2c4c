"""What every run through sockets needs: counted checks, processes that end with the run, requests, live lists, and ffmpeg's options."""
import atexit
import http.client
import os
import random
import shutil
import signal
import socket
import subprocess
import sys
import time

ROOT = os.path.dirname(os.path.dirname(os.path.dirname(os.path.abspath(__file__))))
PROGRAM = os.environ.get("HLS_ORIGIN") or os.path.join(ROOT, "crates", "hls_origin", "out", "hls_origin")
CLIP = ["-f", "lavfi", "-i", "testsrc=s=320x180:r=25", "-f", "lavfi", "-i", "sine=f=440:r=48000"]
VIDEO = ["-map", "0:v", "-c:v", "libx264", "-preset", "ultrafast", "-g", "50", "-sc_threshold", "0"]
AUDIO = ["-map", "1:a", "-c:a", "aac"]
# what is waited for may take so many times longer, on a machine that has much else to do
SLACK = float(os.environ.get("SLACK", "1"))

wrong = []
right = 0
started = []


def end_all():
    """Ends what still runs: nginx takes its workers with it if it is asked to."""
    left = [process for process in started if process.poll() is None]
    for process in left:
        process.terminate()
    for process in left:
        try:
            process.wait(2)
        except subprocess.TimeoutExpired:
            process.kill()


atexit.register(end_all)
# as at its end, where it is ended
signal.signal(signal.SIGTERM, lambda *_: sys.exit(143))


def run(*words, **how):
    """A process that is ended with this one at the latest."""
    process = subprocess.Popen(words, **how)
    started.append(process)
    return process


def ends_well(process, seconds):
    """Whether a process ends by itself within a time, and well."""
    try:
        return process.wait(timeout=seconds) == 0
    except subprocess.TimeoutExpired:
        process.kill()
        return False


def check(name, holds, more=""):
    global right
    if holds:
        right += 1
    else:
        wrong.append(name)
        print(f"wrong: {name} {str(more)[:500]}")


def free_port():
    """A port that nothing has, where there are some below those that the system gives to connections: there a server that is stopped
    and started again finds it free, however many connections came and went meanwhile."""
    with open("/proc/sys/net/ipv4/ip_local_port_range", encoding="ascii") as it:
        given = int(it.read().split()[0])
    for port in [*(random.randrange(10000, given) for _ in range(100) if given > 11000), 0]:
        with socket.socket() as s:
            try:
                s.bind(("127.0.0.1", port))
            except OSError:
                continue
            return s.getsockname()[1]
    raise SystemExit("no port is free")


def ask(port, method, path, body=None, headers={}):
    connection = http.client.HTTPConnection("127.0.0.1", port, timeout=20 * SLACK)
    try:
        connection.request(method, path, body, headers)
        reply = connection.getresponse()
        return reply.status, reply.read()
    finally:
        connection.close()


def media_list(text):
    """Sequence, discontinuities, segments and whether it is ended, of a live list."""
    sequence, marks, segments, one = 0, 0, [], []
    for line in text.decode().split("\n"):
        if line.startswith("#EXT-X-MEDIA-SEQUENCE:"):
            sequence = int(line.split(":")[1])
        elif line.startswith("#EXT-X-DISCONTINUITY-SEQUENCE:"):
            marks = int(line.split(":")[1])
        elif line.startswith(("#EXTINF", "#EXT-X-BYTERANGE")) or line == "#EXT-X-DISCONTINUITY":
            one.append(line)
        elif line and not line.startswith("#"):
            segments.append((*one, line))
            one = []
    return sequence, marks, segments, b"#EXT-X-ENDLIST" in text


def is_later(a, b):
    """Whether a list may stand after another one: what slid away is counted, and what stays is the same."""
    (sequence_a, marks_a, segments_a, ended_a), (sequence_b, marks_b, segments_b, ended_b) = a, b
    gone = sequence_b - sequence_a
    if gone < 0 or gone > len(segments_a) or (ended_a and not ended_b):
        return False
    stayed = segments_a[gone:]
    slid = sum("#EXT-X-DISCONTINUITY" in segment for segment in segments_a[:gone])
    return segments_b[:len(stayed)] == stayed and marks_b == marks_a + slid


def wait_for_list(port, rendition):
    for _ in range(300):
        if ask(port, "GET", f"/live/{rendition}.m3u8")[0] == 200:
            return
        time.sleep(0.1)


def install(packages):
    """Installs Debian packages, without a start of what they serve; where that can't be, ends and says what is wanted."""
    apt = ["apt-get", "-q", "-o", "DPkg::Lock::Timeout=600"]
    how = {"stdout": subprocess.DEVNULL, "env": {**os.environ, "DEBIAN_FRONTEND": "noninteractive", "RUNLEVEL": "1"}}
    if shutil.which("apt-get"):
        # a new machine has no lists of packages, and an old one's name some that are gone
        subprocess.run([*apt, "update"], **how)
        if not subprocess.run([*apt, "install", "-y", "--no-install-recommends", *packages], **how).returncode:
            return
    raise SystemExit(f"these are wanted and can't be installed (Debian, as root): {' '.join(packages)}")
