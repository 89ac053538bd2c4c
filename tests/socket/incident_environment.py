"""What fails around a server: standard error that nobody reads, that is closed or full, too few descriptors, clients that half-close,
that are reset in crowds or request jobs without end, an idle timeout of a second, a stop of more than a minute.

Not a script: tests/socket/incidents imports it and runs its PARTS, each a function of a program and a folder of its own.
"""
import fcntl
import os
import re
import select
import signal
import socket
import struct
import subprocess
import threading
import time

import harness
from harness import ask, check, free_port, media_list
from origins import Origin, init_section, unit, wait_for

ONE = ["v0:video:400000:0"]
STATUS = b"GET /status HTTP/1.1\r\nHost: a\r\n\r\n"
PAGE = 4096


def units(begin, end, size=400):
    """Units of a second, from one second to another."""
    return b"".join(unit(n * 90000, 90000, size) for n in range(begin, end))


def put(port, begin, end, size=400, rendition=0):
    return ask(port, "PUT", f"/ingest/{rendition}", init_section() + units(begin, end, size))


class Deaf(Origin):
    """A server whose standard error is another file than its log."""

    def __init__(self, program, error, options=(), renditions=ONE):
        self.port = free_port()
        words = [program, "serve", *options, f"127.0.0.1:{self.port}", *renditions]
        self.process = harness.run(*words, stderr=error, stdin=subprocess.DEVNULL)
        wait_for(self.port)


def serves(name, origin, seconds=0):
    """A channel of twenty seconds, its list, a job of it and its end: which none of the server's log lines may block."""
    check(f"{name}: units are taken", put(origin.port, seconds, seconds + 20)[0] == 200)
    status, text = ask(origin.port, "GET", "/live/0.m3u8")
    check(f"{name}: there is a list", status == 200 and media_list(text)[2], status)
    status, text = ask(origin.port, "POST", "/catchup?from=4000000&to=12000000")
    check(f"{name}: a job is taken", status == 202, (status, text))
    job = text.split()[1].decode()
    for _ in range(100):
        if ask(origin.port, "GET", f"/job/{job}")[1].startswith(b"cut "):
            break
        time.sleep(0.05)
    check(f"{name}: it is cut", ask(origin.port, "GET", f"/job/{job}/0.m3u8")[0] == 200)
    check(f"{name}: it is deleted", ask(origin.port, "DELETE", f"/job/{job}")[0] == 204)
    check(f"{name}: it runs", origin.process.poll() is None)


def closed_stderr(program, folder):
    """A pipe whose reader went away, and a disk that is full: lines are dropped."""
    reads, writes = os.pipe()
    origin = Deaf(program, writes)
    os.close(writes)
    said = os.read(reads, 65536)
    check("it said that it listens", said.startswith(b"serve: listening on "), said)
    os.close(reads)
    serves("standard error of a reader that went away", origin)
    origin.stop()
    with open("/dev/full", "wb") as full:
        origin = Deaf(program, full, ["--log", "requests"])
        serves("standard error on a full disk", origin)
        origin.stop()


def unread_stderr(program, folder):
    """A pipe that nobody reads: a thread that writes to it waits, others are served, and once it is read everything continues and nothing was lost."""
    reads, writes = os.pipe()
    fcntl.fcntl(writes, fcntl.F_SETPIPE_SZ, PAGE)
    origin = Deaf(program, writes, ["--workers", "8"])
    os.close(writes)
    held = []
    for number in range(200):
        s = socket.create_connection(("127.0.0.1", origin.port), timeout=2)
        body = (init_section() if number == 0 else b"") + units(number, number + 1)
        s.sendall(b"PUT /ingest/0 HTTP/1.1\r\nHost: a\r\nConnection: close\r\nContent-Length: %d\r\n\r\n" % len(body) + body)
        try:
            s.recv(65536)
        except TimeoutError:
            held.append(s)
            break
        s.close()
    check("an encoder's body waits for its line at last", held, number)
    check("others are served", ask(origin.port, "GET", "/status")[0] == 200)
    got, ends = b"", time.monotonic() + 5
    while time.monotonic() < ends and select.select([reads], [], [], 0.5)[0]:
        got += os.read(reads, 65536)
    for s in held:
        s.settimeout(5)
        check("it is answered once the pipe is read", s.recv(65536).startswith(b"HTTP/1.1 200 "))
        s.close()
    while select.select([reads], [], [], 0.5)[0]:
        got += os.read(reads, 65536)
    lines = re.findall(rb"^serve: ingest v0 from \S+: done init ", got, re.M)
    check("no line was lost", len(lines) == number + 1, (len(lines), number + 1))
    check("no unit was lost", int(ask(origin.port, "GET", "/status")[1].split()[1]) >= number + 2)
    os.close(reads)
    origin.stop()


def half_closes(program, folder):
    """Clients that close their half of the connection after a request, inside one, or at once."""
    origin = Origin(program, folder, [], ONE)
    check("units are taken", put(origin.port, 0, 20, 200000)[0] == 200)

    def said(text, wait=0):
        with socket.create_connection(("127.0.0.1", origin.port), timeout=10) as s:
            s.sendall(text)
            time.sleep(wait)
            s.shutdown(socket.SHUT_WR)
            got = b""
            while piece := s.recv(1 << 20):
                got += piece
            return got

    for wait in (0, 0.2):
        check("a reply to a half-closed line", said(STATUS, wait).startswith(b"HTTP/1.1 200 "))
        media = said(b"GET /media/0.mp4 HTTP/1.1\r\nHost: a\r\n\r\n", wait)
        check("a large one", len(media) > 20 * 200000, len(media))
        check("several", said(STATUS * 3, wait).count(b"HTTP/1.1 200 ") == 3)
        check("half a head", said(STATUS[:20], wait) == b"")
        check("nothing", said(b"", wait) == b"")
    body = units(20, 21)
    head = b"PUT /ingest/0 HTTP/1.1\r\nHost: a\r\nContent-Length: %d\r\n\r\n"
    check("a whole body", b"accepted 1 " in said(head % len(body) + body))
    check("half a body", said(head % len(body) + body[:-1]) == b"")
    chunked = b"PUT /ingest/0 HTTP/1.1\r\nHost: a\r\nTransfer-Encoding: chunked\r\n\r\n%x\r\n" % len(body)
    check("a body in chunks without its end", said(chunked + units(21, 22) + b"\r\n") == b"")
    time.sleep(0.3)
    ends = [line.split(": ")[2] for line in origin.lines() if line.startswith("serve: ingest ")]
    check("the log says how each ended", [end.split(" init ")[0] for end in ends] == ["done", "done", "cut short", "cut short"], ends)
    check("what came whole is there", ask(origin.port, "GET", "/status")[1].startswith(b"version 23\n"))
    origin.stop()


def a_second_of_patience(program, folder):
    """--patience 1: an encoder that sends each half second stays, one that is silent for longer is closed, and returns on the same clock."""
    origin = Origin(program, folder, ["--patience", "1"], ONE)
    head = b"PUT /ingest/0 HTTP/1.1\r\nHost: a\r\nTransfer-Encoding: chunked\r\n\r\n"

    def chunk(text):
        return b"%x\r\n" % len(text) + text + b"\r\n"

    with socket.create_connection(("127.0.0.1", origin.port), timeout=10) as s:
        s.sendall(head + chunk(init_section()))
        for n in range(12):
            s.sendall(chunk(units(n, n + 1)))
            time.sleep(0.5)
        s.sendall(b"0\r\n\r\n")
        check("an encoder that sends twice a second stays", b"accepted 12 " in s.recv(65536))
    with socket.create_connection(("127.0.0.1", origin.port), timeout=10) as s:
        s.sendall(head + chunk(init_section()) + chunk(units(12, 13)))
        begun = time.monotonic()
        try:
            got = s.recv(65536)
        except ConnectionError:
            got = b""
        check("one that is silent is cut", got == b"" and 0.9 < time.monotonic() - begun < 2, (got, time.monotonic() - begun))
    status, said = put(origin.port, 10, 20)
    check("and comes back", (status, said) == (200, b"init 0 accepted 7 repeated 4\n"), said)
    time.sleep(0.2)
    ends = [line.split(": ")[2].split(" init ")[0] for line in origin.lines() if line.startswith("serve: ingest ")]
    check("the log says so", ends == ["done", "read failed", "done"], ends)
    origin.stop()


def jobs_under_load(program, folder):
    """Eight clients that ask for jobs and delete them without end, more than there are places, while units come and lists are read."""
    origin = Origin(program, folder, ["--workers", "16", "--planners", "4", "--keep", "60000000"], ONE)
    check("units are taken", put(origin.port, 0, 60, 4000)[0] == 200)
    stop, odd, counts, given = threading.Event(), [], {"taken": 0, "full": 0, "lists": 0}, []
    lock = threading.Lock()

    def asks(number):
        mine = []
        while not stop.is_set():
            status, text = ask(origin.port, "POST", "/catchup?from=%d&to=%d" % ((number * 1000000, 40000000 + number) if number % 2 else (50000000, 58000000)))
            with lock:
                if status == 202:
                    counts["taken"] += 1
                    mine.append(int(text.split()[1]))
                    given.append(mine[-1])
                elif (status, text) == (503, b"refused TableFull\n"):
                    counts["full"] += 1
                else:
                    odd.append((status, text))
            if len(mine) > 9 or status == 503:
                while mine:
                    one = mine.pop(0)
                    line = ask(origin.port, "GET", f"/job/{one}")
                    if line[0] not in (200, 503):
                        odd.append(("told", one, line))
                    for expected in (204, 404):
                        if (found := ask(origin.port, "DELETE", f"/job/{one}"))[0] != expected:
                            odd.append(("deleted", one, expected, found))
        for one in mine:
            ask(origin.port, "DELETE", f"/job/{one}")

    def reads():
        before = None
        while not stop.is_set():
            status, text = ask(origin.port, "GET", "/live/0.m3u8")
            now = media_list(text) if status == 200 else None
            if now is None or (before and not harness.is_later(before, now)):
                odd.append(("list", status, text))
            before = now
            counts["lists"] += 1
            time.sleep(0.01)

    clients = [threading.Thread(target=asks, args=(n,)) for n in range(8)] + [threading.Thread(target=reads)]
    for client in clients:
        client.start()
    slowest = 0
    for n in range(60, 260):
        begun = time.monotonic()
        status, said = put(origin.port, n, n + 1, 4000)
        if (status, said) != (200, b"init 0 accepted 1 repeated 1\n"):
            odd.append(("unit", n, status, said))
        slowest = max(slowest, time.monotonic() - begun)
        time.sleep(0.05)
    stop.set()
    for client in clients:
        client.join()
    check("each reply is one that may be", not odd, odd[:5])
    check("jobs were taken, and refused for room", counts["taken"] > 64 and counts["full"] > 0, counts)
    check("no number was given twice", len(set(given)) == len(given), (len(set(given)), len(given)))
    check("units were taken in time", slowest < 5, slowest)
    status, text = ask(origin.port, "GET", "/status")
    check("no job is left", text.endswith(b"jobs 0\n"), text)
    print(f"jobs under load: {counts['taken']} taken, {counts['full']} refused, {counts['lists']} lists, the slowest unit {slowest:.2f} s")
    origin.stop()


class Poor(Origin):
    """A server with a limit on descriptors."""

    def start(self):
        self.words = ["sh", "-c", 'ulimit -n 64; exec "$@"', "sh", *self.words]
        super().start()


def few_descriptors(program, folder):
    """More connections than descriptors: fewer are held, which is said at the start; the others wait, and are served when there are places."""
    origin = Poor(program, folder, ["--workers", "4"], ONE)
    found = []
    for _ in range(100):
        found = [line for line in origin.lines() if line.endswith("that this process may have open: at most 16 are accepted")]
        if found:
            break
        time.sleep(0.05)
    check("it is told at the start", len(found) == 1, origin.lines())
    held = []
    for _ in range(40):
        s = socket.create_connection(("127.0.0.1", origin.port))
        s.sendall(b"PUT /ingest/0 HTTP/1.1\r\nHost: a\r\nContent-Length: 9\r\n\r\n")
        held.append(s)
    time.sleep(2)
    found = len(os.listdir(f"/proc/{origin.process.pid}/fd"))
    check("no more descriptors are taken than there are", found < 64, found)
    spent = cpu(origin.process.pid)
    time.sleep(2)
    check("waiting for places takes little", cpu(origin.process.pid) - spent < 1, cpu(origin.process.pid) - spent)
    for s in held:
        s.close()
    time.sleep(0.5)
    serves("places again", origin)
    failed = [line for line in origin.lines() if "accept failed" in line]
    check("no accept failed", not failed, failed)
    origin.stop()


def cpu(pid):
    """Seconds of a processor that a process has used."""
    with open(f"/proc/{pid}/stat") as file:
        words = file.read().rsplit(")", 1)[1].split()
    return (int(words[11]) + int(words[12])) / os.sysconf("SC_CLK_TCK")


def resets(program, folder):
    """Clients that connect and reset their line, in crowds, before and after a request."""
    origin = Origin(program, folder, ["--workers", "8"], ONE)
    check("units are taken", put(origin.port, 0, 20)[0] == 200)
    descriptors = len(os.listdir(f"/proc/{origin.process.pid}/fd"))
    reset = struct.pack("ii", 1, 0)
    for text in (b"", STATUS[:10], STATUS, STATUS * 20, b"GET /media/0.mp4 HTTP/1.1\r\nHost: a\r\n\r\n",
                 b"PUT /ingest/0 HTTP/1.1\r\nHost: a\r\nContent-Length: 100000\r\n\r\n" + units(20, 21)[:100]):
        for _ in range(300):
            s = socket.create_connection(("127.0.0.1", origin.port), timeout=20)
            s.setsockopt(socket.SOL_SOCKET, socket.SO_LINGER, reset)
            s.sendall(text)
            s.close()
        begun = time.monotonic()
        check("it answers behind a crowd of resets", ask(origin.port, "GET", "/status")[0] == 200 and time.monotonic() - begun < 5, time.monotonic() - begun)
    serves("behind resets", origin, 20)
    time.sleep(1)
    now = len(os.listdir(f"/proc/{origin.process.pid}/fd"))
    check("no descriptor is left behind", now <= descriptors, (descriptors, now))
    origin.stop()


def stopped_for_long(program, folder):
    """A stop of more than a minute, twice the patience, while encoders push and an edge holds idle connections."""
    origin = Origin(program, folder, [], ["v180:video:400000:0", "en:audio:128000:110000"])
    often = ["-frag_duration", "200000", "-movflags", "+cmaf+skip_trailer"]
    video = ["-i", "testsrc=s=320x180:r=25", "-c:v", "libx264", "-preset", "ultrafast", "-tune", "zerolatency", "-g", "50"]
    audio = ["-i", "sine=f=440:r=48000", "-c:a", "aac"]
    pushed = [harness.run("ffmpeg", "-nostdin", "-v", "error", "-re", "-f", "lavfi", *words, *often, "-t", "95", "-f", "mp4", "-method", "PUT",
                           f"http://127.0.0.1:{origin.port}/ingest/{n}", stderr=subprocess.DEVNULL) for n, words in enumerate((video, audio))]
    time.sleep(12)
    before = harness.ask(origin.port, "GET", "/live/0.m3u8")
    check("there is a list before", before[0] == 200, before[0])
    os.kill(origin.process.pid, signal.SIGSTOP)
    time.sleep(70)
    os.kill(origin.process.pid, signal.SIGCONT)
    begun = time.monotonic()
    check("it answers at once behind it", ask(origin.port, "GET", "/status")[0] == 200 and time.monotonic() - begun < 5, time.monotonic() - begun)
    for encoder in pushed:
        check("the encoder ends well", harness.ends_well(encoder, 60))
    time.sleep(0.5)
    said = [line for line in origin.lines() if line.startswith("serve: ingest ")]
    check("each body is whole", len(said) == 2 and all(re.search(r": done init 1 accepted [1-9]\d* repeated 0$", line) for line in said), said)
    rest = [line for line in origin.lines() if line and not line.startswith(("serve: ingest ", "serve: listening "))]
    check("nothing else is told", all("live lists" in line for line in rest), rest)
    after = harness.ask(origin.port, "GET", "/live/0.m3u8")
    check("the list goes on", after[0] == 200 and media_list(after[1])[0] > media_list(before[1])[0], after)
    check("nothing is missing in it", b"#EXT-X-DISCONTINUITY\n" not in after[1], after[1])
    origin.stop()


PARTS = [closed_stderr, unread_stderr, half_closes, a_second_of_patience, jobs_under_load, few_descriptors, resets, stopped_for_long]
