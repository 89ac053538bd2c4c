"""Strangers make the edge fetch what isn't in its caches: segments, programmes' certificates, and playlists from a time on, from some
addresses of IPv4 or from many networks of IPv6, until a file system of the caches would be full. Meanwhile a viewer of another channel
plays.

Not a script: tests/edge/attacks runs it. The file systems are small ones, and segments are as large beside them as those of 16 Mbit/s
beside the ones of a machine of 4 GB.
"""
import contextlib
import os
import re
import resource
import socket
import subprocess
import sys
import threading
import time

import abuse
import harness
from edge_site import TICKS, WORDS, Edge, bytes_of, feed, media_of, names
from harness import ROOT, ask, check, free_port
from origins import Origin, init_section, unit

sys.path.insert(0, os.path.join(ROOT, "deploy"))
from hls_tools import caches

SYSTEMS = {"": 320, "lists": 16, "recorded": 16}           # MB of each file system; of what is past a quarter of what a machine with the others has
LARGE, UNITS, RUN = 400_000, 120, 8                        # bytes of a large unit, how many there are, and in the longest segment
LATE = 3                                                   # seconds until a late origin answers HEAD
PREFIX = "2001:db8:77"                                     # the networks of IPv6 that strangers have
# What nginx logs of files that close_slow_readers has emptied or removed, of those that it can't evict because they are read, and of its own connections
# that a reload closes
BROKEN_OFF = re.compile(r"ignore long locked inactive cache entry|unlink\(\) .* failed \(2: |sendfile\(\) reported that .* was truncated|pread\(\) read only|"
                        r"recv\(\) failed \(104: .* while reading response header from upstream, .* host: \"hls_inner\"")


class Floods:
    """Two channels whose caches are on small file systems: `large`, which strangers attack, and `news`, which a viewer plays."""

    def __init__(self, program, folder):
        self.folder = os.path.join(folder, "floods")
        os.makedirs(self.folder)
        options = ["--workers", "4", "--target", "2", "--preferred", "2000000", "--window", "60000000", "--keep", "600000000"]
        self.news = Origin(program, self.folder, options, WORDS, name="news")
        self.large = Origin(program, self.folder, ["--workers", "4", "--target", "4", "--preferred", "4000000", "--window", "60000000", "--keep", "60000000"],
                            ["v:video:16000000:0", "en:audio:16000:0"], name="large")
        self.fed = 8
        feed(self.news.port, 0, 0, self.fed)
        body = init_section() + b"".join(unit(number * TICKS // 4, TICKS // 4, LARGE, number) for number in range(UNITS))
        assert ask(self.large.port, "PUT", "/ingest/0", body)[0] == 200
        assert ask(self.large.port, "PUT", "/ingest/1", media_of(0, 1, UNITS // 4))[0] == 200
        self.mounted, self.six, self.heads, self.late, self.endless = [], free_port(), Heads(), Late(), Endless()
        self.edge = self.make_edge()
        # with the rights of its service
        words = ["setpriv", "--reuid", "www-data", "--regid", "www-data", "--clear-groups", "--bounding-set=-all", "--no-new-privs", os.path.join(ROOT, "deploy", "close_slow_readers")]
        self.tool = harness.run(*words, os.path.join(self.edge.folder, "cache"), stderr=subprocess.PIPE, text=True)

    def make_edge(self):
        """An edge whose caches have the shares that `hls_channel site` computes."""
        with open(os.path.join(ROOT, "edge", "hls_origin.conf"), encoding="utf-8") as file:
            text = file.read()
        sized = caches.sized(text, lambda cache: SYSTEMS.get(cache, SYSTEMS[""]) << 20)
        changes = [(old, new) for old, new in zip(text.split("\n"), sized.split("\n")) if old != new]
        six = f"server {{ listen [::]:{self.six}; server_name localhost; include {self.folder}/edge/nginx/hls_server.conf; location / {{ return 404; }} }}\n"
        edge = Edge(self.folder, f"news /news 127.0.0.1:{self.news.port}\nlarge /large 127.0.0.1:{self.large.port}\nheads /heads 127.0.0.1:{self.heads.port}\nlate /late 127.0.0.1:{self.late.port}\nendless /endless 127.0.0.1:{self.endless.port}\n", more=six, changes=changes)
        edge.stop()
        for name, size in SYSTEMS.items():
            path = os.path.join(edge.folder, "cache", name)
            os.makedirs(path, exist_ok=True)
            subprocess.run(["mount", "-t", "tmpfs", "-o", f"size={size}m,mode=755,strictatime", "tmpfs", path], check=True)
            self.mounted.append(path)
        edge.start()
        return edge

    def stop(self):
        self.tool.kill()
        self.edge.stop()
        for path in reversed(self.mounted):
            subprocess.run(["umount", "-l", path], check=True)
        self.news.stop()
        self.large.stop()

    def used(self, name=""):
        """The share of a file system that is taken."""
        found = os.statvfs(os.path.join(self.edge.folder, "cache", name))
        return 1 - found.f_bfree / found.f_blocks

    def sent(self):
        """The bytes that the attacked channel's origin has sent."""
        return int(re.search(r"^hls_sent_bytes_total (\d+)$", ask(self.large.port, "GET", "/metrics")[1].decode(), re.M)[1])

    def settled(self):
        """The same, once what is still requested by nobody has come."""
        before, ends = -1, time.monotonic() + 20
        while before != (now := self.sent()) and time.monotonic() < ends:
            before = now
            time.sleep(0.5)
        return now

    def made_up(self):
        """Paths of segments of the large channel that no list has, the longest ones first."""
        text = ask(self.large.port, "GET", "/hls/0.m3u8")[1].decode()
        run, first = re.search(r"([A-Za-z0-9]+)/0/init\.mp4", text)[1], len(init_section())
        return [f"/large/hls/{run}/0/{first + at * LARGE}-{first + (at + length) * LARGE - 1}.m4s" for length in range(RUN, 0, -1) for at in range(UNITS - length + 1)]


class Heads(threading.Thread):
    """An origin that has nothing, and keeps the heads of its requests."""

    def __init__(self):
        super().__init__(daemon=True)
        self.listener, self.heads = socket.create_server(("127.0.0.1", 0)), []
        self.port = self.listener.getsockname()[1]
        self.start()

    def run(self):
        while True:
            near, _ = self.listener.accept()
            with near:
                self.heads.append(near.recv(65536).decode("latin-1"))
                near.sendall(b"HTTP/1.1 404 Not Found\r\nContent-Length: 0\r\nConnection: close\r\n\r\n")

    def client(self):
        """The client that the last request names."""
        found = re.search(r"^X-Client: (.*)\r$", self.heads[-1] if self.heads else "", re.M)
        return found and found[1]


class Late(threading.Thread):
    """An origin that answers HEAD late, and has four bytes wherever they are asked for."""

    def __init__(self):
        super().__init__(daemon=True)
        self.listener, self.asked = socket.create_server(("127.0.0.1", 0)), []
        self.port = self.listener.getsockname()[1]
        self.start()

    def run(self):
        while True:
            near, _ = self.listener.accept()
            threading.Thread(target=self.answer, args=(near,), daemon=True).start()

    def answer(self, near):
        with near:
            line = near.recv(65536).partition(b" HTTP/")[0].decode()
            self.asked.append(line)
            is_head = line.startswith("HEAD")
            time.sleep(LATE if is_head else 0)
            head = b"HTTP/1.1 200 OK\r\nContent-Type: video/mp4\r\nCache-Control: max-age=86400\r\nContent-Length: 4\r\nConnection: close\r\n\r\n"
            near.sendall(head + b"late" * (not is_head))


class Endless(threading.Thread):
    """An origin that begins each response, and ends none before it is released."""

    def __init__(self):
        super().__init__(daemon=True)
        self.listener, self.held = socket.create_server(("127.0.0.1", 0), backlog=2000), []
        self.port = self.listener.getsockname()[1]
        self.start()

    def run(self):
        while True:
            near, _ = self.listener.accept()
            near.recv(65536)
            near.sendall(b"HTTP/1.1 200 OK\r\nContent-Type: video/mp4\r\nCache-Control: max-age=86400\r\nConnection: close\r\n\r\na")
            self.held.append(near)

    def release(self):
        for near in self.held:
            near.close()
        self.held = []


class Viewer(threading.Thread):
    """Plays news: two new segments for each that arrives, and each must come completely."""

    def __init__(self, floods):
        super().__init__(daemon=True)
        self.floods, self.over, self.bad, self.right, self.slowest, self.fullest = floods, threading.Event(), {}, 0, 0.0, 0.0

    def run(self):
        while not self.over.wait(0.4):
            feed(self.floods.news.port, 0, self.floods.fed, 1)
            self.floods.fed += 1
            for rendition in (0, 1):
                self.play(rendition)
            self.fullest = max(self.fullest, self.floods.used())

    def play(self, rendition):
        status, _, text = self.floods.edge.raw(f"/news/hls/{rendition}.m3u8", here="127.9.90.1")
        if status != 200:
            self.fails(f"list {status}")
            return
        path, begun = names(text.decode(), "/news")[-1], time.monotonic()
        status, _, got = self.floods.edge.raw(path, here="127.9.90.1")
        first, last = bytes_of(path)
        self.slowest = max(self.slowest, time.monotonic() - begun)
        if status == 200 and got == media_of(0, rendition, self.floods.fed)[first:last + 1]:
            self.right += 1
        else:
            self.fails(f"segment {status}")

    def fails(self, name):
        self.bad[name] = self.bad.get(name, 0) + 1

    def end(self):
        self.over.set()
        self.join()


class Stranger(threading.Thread):
    """Requests one path after the other from an address, and takes no response to its end."""

    def __init__(self, floods, here, paths, method="GET"):
        super().__init__(daemon=True)
        self.port, self.here, self.paths, self.method, self.over = floods.six if ":" in here else floods.edge.open, here, paths, method, False
        self.statuses, self.sent, self.answered = {}, 0, set()

    def run(self):
        while not self.over:
            with contextlib.suppress(OSError):
                self.ask(self.paths[self.sent % len(self.paths)])

    def ask(self, path):
        self.sent += 1
        with socket.socket(socket.AF_INET6 if ":" in self.here else socket.AF_INET) as s:
            if ":" in self.here:
                s.setsockopt(socket.IPPROTO_IPV6, 78, 1)           # IPV6_FREEBIND
            s.settimeout(10)
            s.setsockopt(socket.IPPROTO_TCP, socket.TCP_MAXSEG, 1448)
            s.bind((self.here, 0))
            s.connect((PREFIX + "::1" if ":" in self.here else "127.0.0.1", self.port))
            s.sendall(f"{self.method} {path} HTTP/1.1\r\nHost: localhost\r\nConnection: close\r\n\r\n".encode())
            status = s.recv(1000)[9:12].decode()
        self.statuses[status] = self.statuses.get(status, 0) + 1
        if status != "429":
            self.answered.add(path)


def attack(floods, seconds, addresses, paths_of, method="GET", each=4):
    """Attacks from some addresses beside the viewer. Returns the viewer, the number of each status, and the paths that no limit refused."""
    viewer = Viewer(floods)
    viewer.start()
    strangers = [Stranger(floods, here, paths_of(n), method) for n, here in enumerate(addresses) for _ in range(each)]
    for one in strangers:
        one.start()
    time.sleep(seconds)
    for one in strangers:
        one.over = True
    viewer.end()
    statuses = {}
    for one in strangers:
        for status, count in one.statuses.items():
            statuses[status] = statuses.get(status, 0) + count
    return viewer, statuses, set().union(*(one.answered for one in strangers))


def turned(paths, n):
    """The same paths from another one on."""
    at = n * 97 % len(paths)
    return paths[at:] + paths[:at]


def segments(floods):
    """1, 3, 4 and 30 addresses that request made-up segments of one channel."""
    paths = floods.made_up()
    for count in (1, 3, 4, 30):
        for method in ("HEAD", "GET"):
            addresses = [f"127.9.{91 + count}.{n + 1}" for n in range(count)]
            before = floods.settled()
            viewer, statuses, _ = attack(floods, 12, addresses, lambda n: turned(paths, n), method)
            sent = floods.sent() - before
            print(f"{method} of made-up segments by {count} addresses: {statuses}; the file system is full to {viewer.fullest:.0%}; the viewer: {viewer.right} right, {viewer.bad}, at most {viewer.slowest:.1f} s; {sent / 1e6:.0f} MB from the origin")
            check(f"{count} addresses that {method} made-up segments leave another channel's viewer all of its own", not viewer.bad and viewer.right > 5, (viewer.bad, viewer.right))
            check("and the file system isn't full", viewer.fullest < 1, viewer.fullest)
            check("and HEAD fetches no body", method == "GET" or sent < 1000 * (statuses.get("200", 0) + 100), (sent, statuses))


def above_rate(floods):
    """An address that requests many segments gets them, but they aren't cached, and what it doesn't read isn't fetched."""
    edge, here, paths = floods.edge, "127.9.141.1", floods.made_up()[:60]
    time.sleep(5)
    begun = time.monotonic()
    found = [edge.raw(path, here=here) for path in paths[:40]]
    admitted = 13 + 2 * (time.monotonic() - begun)
    check("an address that loads 40 segments at once gets all", all(one[0] == 200 and len(one[2]) == RUN * LARGE for one in found), [one[0] for one in found])
    kept = [edge.raw(path, "Range: bytes=0-9\r\n", here="127.9.141.2")[1].get("x-cache") for path in paths[:40]]
    check("of which the first are cached, and then two a second", kept[:12] == ["HIT"] * 12 and kept.count("HIT") <= admitted, (admitted, kept))
    before = floods.sent()
    found = [edge.raw(path, "Range: bytes=5-14\r\n", here=here) for path in paths[44:54]]
    said = [(one[0], len(one[2]), one[1].get("content-range")) for one in found]
    check("a range is that range", said == [(206, 10, f"bytes 5-14/{RUN * LARGE}")] * 10, said[:2])
    check("and only that is fetched", floods.sent() - before < 3 * RUN * LARGE, floods.sent() - before)
    statuses = hold(floods, [(here, path) for path in paths[:36:-1][:12]])
    check("it holds at most eight of an origin's connections", statuses.count("200") <= 10 and "429" in statuses, statuses)
    statuses = hold(floods, [(f"{PREFIX}:15{n:02x}::1", path) for n, path in enumerate(floods.made_up()[60:200])])
    check("140 networks of a /56 don't hold a place each", statuses[-60:].count("429") > 20, statuses)


def of_channel(floods):
    """Segments of one channel that aren't cached, eight at once for each address: 40 addresses get all, and no number of addresses holds more than 1024."""
    most = resource.getrlimit(resource.RLIMIT_NOFILE)[1]
    resource.setrlimit(resource.RLIMIT_NOFILE, (most, most))
    origin, begun, lines = floods.endless, time.monotonic(), []
    try:
        refused = request_of_many(floods, lines, 40)
        check("40 addresses have eight segments each that aren't cached", (len(origin.held), refused) == (320, 0), (len(origin.held), refused))
        refused = request_of_many(floods, lines, 120)
        # the first ones, and twelve a second, are cached, and don't count
        admitted = 1024 + 25 + 12 * (time.monotonic() - begun)
        check("160 addresses have 1024 together", 1024 <= len(origin.held) <= admitted and len(origin.held) + refused == 1280, (len(origin.held), refused, admitted))
    finally:
        origin.release()
        for s in lines:
            s.close()
    time.sleep(1)


def request_of_many(floods, lines, count):
    """Requests eight segments from each of further addresses, and waits until each request is with the origin or refused. Returns how many are refused."""
    first = len(lines) // 8
    for n in range(first * 8, (first + count) * 8):
        s = socket.create_connection(("127.0.0.1", floods.edge.open), timeout=20, source_address=(f"127.9.160.{n // 8 + 1}", 0))
        s.sendall(abuse.request(f"/endless/hls/0123456789abcdef/0/{n * 4}-{n * 4 + 3}.m4s").encode())
        lines.append(s)
    own, refused, ends = lines[first * 8:], 0, time.monotonic() + 4
    while len(floods.endless.held) + refused < len(lines) and time.monotonic() < ends:
        time.sleep(0.1)
        refused = [abuse.answered_so_far(s) for s in own].count(429)
    return refused


def hold(floods, requests):
    """Requests one segment after the other, each from an address, without reading them. Returns the statuses."""
    held, statuses = [], []
    for here, path in requests:
        held.append(request_slowly(floods, here, path))
        statuses.append(held[-1].recv(1000)[9:12].decode())
    for s in held:
        s.close()
    time.sleep(1)
    return statuses


class SlowReader(threading.Thread):
    """Holds made-up segments for an address, and reads only as much as keeps nginx from closing their connections."""

    def __init__(self, floods, here, paths):
        super().__init__(daemon=True)
        self.floods, self.here, self.paths, self.held, self.over = floods, here, paths[::-1], [], threading.Event()

    def run(self):
        read = time.monotonic()
        while not self.over.wait(0.2):
            with contextlib.suppress(OSError):
                self.hold(self.paths.pop())
            if time.monotonic() - read > 8:
                read = time.monotonic()
                for s in list(self.held):
                    self.read(s)
        for s in self.held:
            s.close()

    def hold(self, path):
        """Requests one more segment."""
        self.held.append(request_slowly(self.floods, self.here, path))

    def read(self, s):
        """Reads what is there, up to some hundred kilobytes."""
        s.setblocking(False)
        try:
            for _ in range(100):
                if not s.recv(4096):
                    raise ConnectionResetError
        except BlockingIOError:
            pass
        except OSError:
            self.held.remove(s)


class SlowReaderOfCached(SlowReader):
    """Holds segments that it has read before, so that they are in the cache."""

    def hold(self, path):
        self.floods.edge.raw(path, here=self.here)
        super().hold(path)


class SlowReaderByTwo(SlowReader):
    """Holds segments as streams of HTTP/2 without a window, so that there is nothing to send in their connections."""

    def __init__(self, floods, here, paths):
        super().__init__(floods, here, paths)
        self.streams = 128      # of the last connection

    def hold(self, path):
        if self.streams == 128:
            self.held.append(abuse.Two(self.floods.edge, self.here).line)
            self.streams = 0
        self.held[-1].sendall(abuse.head_frame(2 * self.streams + 1, path.encode()))
        self.streams += 1

    def read(self, s):
        """Opens the windows by a byte each."""
        try:
            for stream in range(self.streams if s is self.held[-1] else 128):
                s.sendall(abuse.frame(8, 0, 2 * stream + 1, (1).to_bytes(4, "big")))
        except OSError:
            self.held.remove(s)
            self.streams = self.streams if self.held else 128


def request_slowly(floods, here, path):
    """Requests a segment in packets of a network's size, with a small window. Returns the connection."""
    s = socket.socket(socket.AF_INET6 if ":" in here else socket.AF_INET)
    if ":" in here:
        s.setsockopt(socket.IPPROTO_IPV6, 78, 1)               # IPV6_FREEBIND
    # for packets of loopback's size the kernel buffers a whole segment
    s.setsockopt(socket.IPPROTO_TCP, socket.TCP_MAXSEG, 1428)
    s.setsockopt(socket.SOL_SOCKET, socket.SO_RCVBUF, 4096)
    s.settimeout(20)
    s.bind((here, 0))
    s.connect((PREFIX + "::1", floods.six) if ":" in here else ("127.0.0.1", floods.edge.open))
    s.sendall(f"GET {path} HTTP/1.1\r\nHost: localhost\r\nConnection: close\r\n\r\n".encode())
    return s


def slow_readers(floods):
    """Three addresses hold segments: close_slow_readers, with the rights of its service, bounds what these take, and breaks off no client that reads."""
    edge, paths = floods.edge, floods.made_up()
    for at, kind in enumerate((SlowReader, SlowReaderOfCached, SlowReaderByTwo)):
        viewer, strangers = Viewer(floods), [kind(floods, f"127.9.15{at}.{n + 1}", paths[1:][n::3]) for n in range(3)]
        for one in (viewer, *strangers):
            one.start()
        time.sleep(25)
        # nginx takes its connections with the processes that it had before, too
        check("nginx reloads meanwhile", edge.edge().returncode == 0)
        # a viewer whose network takes 400 kB a second
        right, got, last = paths[0], b"", time.monotonic() + 30
        check("a segment is cached for a viewer", len(edge.raw(right, here="127.9.155.2")[2]) == RUN * LARGE)
        with request_slowly(floods, "127.9.155.1", right) as s:
            while time.monotonic() < last and (part := s.recv(40000)):
                got += part
                time.sleep(len(part) / 400000)
        first, end = bytes_of(right)
        for one in strangers:
            one.over.set()
        for one in strangers:
            one.join()
        viewer.end()
        print(f"{kind.__name__}: the file system was full to {viewer.fullest:.0%}; the viewer: {viewer.right} right, {viewer.bad}")
        check(f"{kind.__name__} leaves a viewer all of its own", not viewer.bad and viewer.right > 5, (viewer.bad, viewer.right))
        check("and doesn't fill the file system", viewer.fullest < 0.9, viewer.fullest)
        check("and nobody who reads faster is", len(got.partition(b"\r\n\r\n")[2]) == end - first + 1, len(got))
    floods.tool.terminate()
    said = floods.tool.stderr.read()
    check("the slowest responses are broken off, which is logged once a minute", 0 < said.count("the slowest ones are broken off") < 5, said)


def recorded(floods):
    """Certificates of made-up programmes, and lists from made-up times on, for 30 addresses of IPv4 and for 96 networks of one line of IPv6."""
    for what, path_of, rate, burst in (("programmes", lambda n: f"/large/hls/programme/{n}/{n + 50_000_000}/certificate.txt", 1, 20), ("lists from a time on", lambda n: f"/large/hls/since/{n}/0.m3u8", 4, 40)):
        paths = [path_of(n) for n in range(40000)]
        for name, addresses in (("30 addresses", [f"127.9.130.{n + 1}" for n in range(30)]), ("96 networks of a /56", [f"{PREFIX}:12{n:02x}::1" for n in range(96)])):
            own = paths[:9000] if len(addresses) == 30 else paths[9000:]
            begun = time.monotonic()
            viewer, statuses, answered = attack(floods, 12, addresses, lambda n, own=own: own[300 * n:300 * n + 300], "HEAD", 1)
            seconds = time.monotonic() - begun
            print(f"HEAD of made-up {what} by {name}: {statuses}; their file system is full to {floods.used('recorded'):.0%}; the viewer: {viewer.right} right, {viewer.bad}, at most {viewer.slowest:.1f} s")
            check(f"made-up {what} for {name} leave a viewer all of its own", not viewer.bad and viewer.right > 5, (viewer.bad, viewer.right))
            check("and take nothing of the segments' and live lists' file systems", viewer.fullest < 0.9 and floods.used("lists") < 0.5, (viewer.fullest, floods.used("lists")))
            # each by its own path, since one that is cached meanwhile is answered again
            admitted = 2 * burst + 1 + 2 * rate * seconds if ":" in addresses[0] else 30 * (burst + 1 + rate * seconds)
            check("they are as many as the networks' limits allow", burst < len(answered) <= admitted, (len(answered), admitted, statuses))


def heads(floods):
    """A HEAD stores nothing: a viewer that wants the same segment doesn't wait for it, and the channel may store as much as without. An
    address has few that are unanswered, so those of a silent origin take no connections from other channels."""
    statuses = []

    def path_of(n):
        return f"/hls/0123456789abcdef/0/{n * 4}-{n * 4 + 3}.m4s"

    def head_of(n, here):
        one = threading.Thread(target=lambda: statuses.append(floods.edge.raw("/late" + path_of(n), here=here, method="HEAD")[0]))
        one.start()
        return one

    several = [head_of(200 + n, "127.9.150.4") for n in range(12)]
    for one in several:
        one.join()
    check("an address has eight HEADs that are unanswered", sorted(statuses) == [200] * 8 + [429] * 4, statuses)
    several, fetched = [], []
    for n in range(84):
        several.append(head_of(100 + n, f"127.9.151.{n % 7}"))
        time.sleep(0.03)
        if n >= 60 and n % 4 == 0:
            twice = [floods.edge.raw("/late" + path_of(n), here="127.9.150.3")[0] for _ in range(2)]
            fetched.append((twice, floods.late.asked.count("GET " + path_of(n))))
    check("segments are stored beside many HEADs of others", fetched == [([200, 200], 1)] * 6, fetched)
    for one in several:
        one.join()
    for n in range(3):
        path = "/late" + path_of(n)
        first = head_of(n, "127.9.150.1")
        time.sleep(0.3)
        begun = time.monotonic()
        status, _, body = floods.edge.raw(path, here="127.9.150.2")
        took = time.monotonic() - begun
        check("a segment comes while somebody's HEAD of it is unanswered", (status, body) == (200, b"late") and took < LATE / 2, (status, body, took))
        first.join()


def networks(floods):
    """The limits of IPv6 also count lines and what a rented machine has; and an origin gets each client's network."""
    for path, name, addresses, rate, burst in ((path, *one) for path in (["/news/hls/0.m3u8"], ["/news/none.html"]) for one in (("256 networks of a /56", [f"{PREFIX}:13{n:02x}::1" for n in range(256)], 400, 801),
                                         ("64 lines of a /48", [f"{PREFIX}:{n:02x}00::1" for n in range(64)], 1600, 3201))):
        size, begun = log_size(floods), time.monotonic()
        statuses = attack(floods, 6, addresses, lambda _, path=path: path, "HEAD", 1)[1]
        seconds = time.monotonic() - begun
        time.sleep(5.6)
        grown = log_size(floods) - size
        print(f"HEAD of {path[0]} by {name}: {statuses} in {seconds:.1f} s; {grown} bytes of log")
        check(f"{name} have the limit of one", statuses.get("200", 0) + statuses.get("404", 0) <= burst + rate * seconds, (statuses, seconds))
        check("and the log has what was admitted, and little of the rest", grown < 500 * (statuses.get("200", 0) + statuses.get("404", 0) + statuses.get("429", 0) / 50 + 400), (grown, statuses))
    for here, want in (("127.9.140.1", "127.9.140.1"), (f"{PREFIX}:1234::1", "2001:db8:77:1200::"), (f"{PREFIX}:12ff:1:2:3:4", "2001:db8:77:1200::"), (f"{PREFIX}::5", "2001:db8:77:00::"),
                       (f"{PREFIX}:34:a:b:c:d", "2001:db8:77:00::"), (f"{PREFIX}:134::", "2001:db8:77:100::")):
        one = Stranger(floods, here, [f"/heads/hls/programme/{len(floods.heads.heads)}/9000000/master.m3u8"])
        one.ask(one.paths[0])
        check(f"the network of {here} at an origin", floods.heads.client() == want, (floods.heads.client(), one.statuses))


def log_size(floods):
    return os.path.getsize(os.path.join(floods.edge.folder, "hls_origin.log"))


def inner(floods):
    """The inner server believes no other process of this machine than nginx."""
    for head in ("", "X-Client: 192.0.2.1\r\n", "X-Client: 192.0.2.1\r\nX-Edge: 0\r\n", "X-Edge:\r\n"):
        for path in ("/-/news/hls/0.m3u8", "/-/-/news.0/hls/0.m3u8", "/nothing"):
            with socket.create_connection(("127.0.0.1", floods.edge.inner)) as s:
                s.sendall(f"GET {path} HTTP/1.1\r\nHost: hls_inner\r\nConnection: close\r\n{head}\r\n".encode())
                status = s.recv(1000)[9:12]
            check(f"{path} of a local account with {head.split()}", status == b"403", status)
    with open(os.path.join(floods.edge.files, "generated.conf"), encoding="utf-8") as file:
        before = re.search(r"[0-9a-f]{32}", file.read())[0]
    check("it is the same secret after a reload", floods.edge.edge().returncode == 0 and before in open(os.path.join(floods.edge.files, "generated.conf"), encoding="utf-8").read())
    check("which goes on serving", floods.edge.raw("/news/hls/0.m3u8")[0] == 200)


@contextlib.contextmanager
def addresses_of_strangers():
    """All addresses of a network of IPv6 are this machine's meanwhile."""
    words = ["ip", "-6", "route", "add", "local", PREFIX + "::/48", "dev", "lo"]
    subprocess.run(words, check=True)
    try:
        yield
    finally:
        subprocess.run([*words[:3], "del", *words[4:]], check=True)


def cache_floods(program, folder):
    """All of them, on an edge of their own."""
    floods = Floods(program, folder)
    try:
        with addresses_of_strangers():
            for group in (inner, heads, above_rate, of_channel, segments, recorded, networks, slow_readers):
                group(floods)
        said = [line for line in floods.edge.errors() if "signal process started" not in line and not BROKEN_OFF.search(line)]
        check("nginx has nothing to say of all that", not said, said[:3])
    finally:
        floods.stop()
