"""What the runs of the pages share: clips whose pictures show their number, encoders that send them, what is in front of an origin, and
what a page shows.

Not a script: tests/player/pages and tests/player/pages_other_browsers import it.
"""
import http.server
import os
import re
import shutil
import socket
import ssl
import struct
import subprocess
import threading
import time

from browser import SLACK, Browser
from harness import ROOT, ask, check, free_port
from origins import Origin, wait_for

PAGES = os.path.join(ROOT, "edge", "pages")
LOOP = 64  # seconds of a clip: 3000 frames of AAC at 48 kHz, 32 groups of two seconds
BARS = 15
CSP = ("default-src 'none'; script-src 'self'; style-src 'self'; img-src 'self' data: blob:; media-src 'self' blob:; connect-src 'self'; "
       "base-uri 'none'; form-action 'none'; frame-ancestors 'none'")
SPECS = ["v360:video:1200000:0", "v180:video:400000:20000", "en:audio:128000:170000", "de:audio:96000:170000"]
OPTIONS = ["--workers", "40", "--target", "4", "--preferred", "2000000", "--window", "40000000", "--epoch", "1970-01-01T00:00:00Z"]


# Media: pictures that say their number, encoded once.

def bars(number, width, height):
    """A strip of bars, one for each bit of a number."""
    return b"".join((b"\xeb" if number >> i & 1 else b"\x10") * (width // BARS) for i in range(BARS)).ljust(width, b"\x10") * height


def encode_video(path, seconds, rate, width, height, more=()):
    """Something that moves, and above it each picture's number."""
    strip = height // 9
    ffmpeg = subprocess.Popen(["nice", "ffmpeg", "-v", "error", "-y", "-f", "rawvideo", "-pix_fmt", "gray", "-s", f"{width}x{strip}", "-r", str(rate), "-i", "-",
                               "-f", "lavfi", "-i", f"gradients=s={width}x{height}:r={rate}:n=4:seed=7:speed={0.4 / rate}", "-filter_complex", "[1:v][0:v]overlay=shortest=1",
                               "-c:v", "libx264", "-preset", "ultrafast", "-pix_fmt", "yuv420p", "-bf", "0", "-sc_threshold", "0", "-g", str(2 * rate), *more,
                               "-f", "mp4", "-movflags", "+cmaf+frag_keyframe+skip_trailer", path], stdin=subprocess.PIPE)
    for number in range(seconds * rate):
        ffmpeg.stdin.write(bars(number, width, strip))
    ffmpeg.stdin.close()
    if ffmpeg.wait():
        raise SystemExit("ffmpeg failed")


def encode_audio(path, seconds, tone, more=("-c:a", "aac", "-b:a", "64k")):
    subprocess.run(["nice", "ffmpeg", "-v", "error", "-y", "-f", "lavfi", "-i", f"sine=f={tone}:r=48000:d={seconds + 1}", *more, "-frag_duration", "320000",
                    "-f", "mp4", "-movflags", "+cmaf+skip_trailer", path], check=True)


def boxes(text, at=0):
    while at + 8 <= len(text):
        size, = struct.unpack_from(">I", text, at)
        yield text[at + 4:at + 8], at, at + size
        at += size


class Clip:
    """An encoded clip's init section and its units, each with its time in ticks and the place where that stands."""

    def __init__(self, path, scale):
        with open(path, "rb") as file:
            text = file.read()
        self.init, self.units, self.scale, begun = b"", [], scale, 0
        for kind, _, to in boxes(text):
            if kind == b"moov":
                self.init, begun = text[:to], to
            if kind == b"mdat":
                unit = text[begun:to]
                at = unit.index(b"tfdt") + 8
                if unit[at - 4] != 1:
                    raise SystemExit("a tfdt of 32 bits")
                time_, = struct.unpack_from(">Q", unit, at)
                if time_ < LOOP * scale:
                    self.units.append((time_, at, unit))
                begun = to

    def unit(self, number, begins):
        """The unit of a number, counted on from loop to loop, `begins` seconds later."""
        loop, at = divmod(number, len(self.units))
        ticks, place, unit = self.units[at]
        ticks += loop * LOOP * self.scale
        return ticks / self.scale, unit[:place] + struct.pack(">Q", ticks + round(begins * self.scale)) + unit[place + 8:]


class Encoder(threading.Thread):
    """Sends a clip to a rendition again and again, in real time or faster, by one PUT, until it is stopped."""

    def __init__(self, port, rendition, clip, begins, speed=1, first=0):
        super().__init__(daemon=True)
        self.port, self.rendition, self.clip, self.begins, self.speed, self.first = port, rendition, clip, begins, speed, first
        self.over = threading.Event()
        self.start()

    def run(self):
        try:
            self.send_all()
        except OSError:
            pass  # the origin was ended

    def send_all(self):
        with socket.create_connection(("127.0.0.1", self.port)) as line:
            line.sendall(f"PUT /ingest/{self.rendition} HTTP/1.1\r\nHost: a\r\nTransfer-Encoding: chunked\r\n\r\n".encode())
            number, began = 0, time.monotonic()
            while self.clip.unit(number, 0)[0] < self.first:
                number += 1
            self.send(line, self.clip.init)
            while True:
                at, unit = self.clip.unit(number, self.begins)
                if self.over.wait(max(0, began + (at - self.first) / self.speed - time.monotonic())):
                    break
                self.send(line, unit)
                number += 1
            line.sendall(b"0\r\n\r\n")
            line.recv(1000)

    @staticmethod
    def send(line, content):
        line.sendall(b"%x\r\n%b\r\n" % (len(content), content))

    def stop(self):
        self.over.set()
        self.join(10)


def stop(encoders):
    for encoder in encoders:
        encoder.over.set()
    for encoder in encoders:
        encoder.stop()


# What is in front of an origin: the edge, or a proxy that passes its lists on as they are.

class Proxy:
    """nginx with TLS that serves the pages and passes everything else to an origin, without a cache."""

    def __init__(self, folder, port):
        self.folder, self.port = os.path.join(folder, "proxy"), free_port()
        os.makedirs(self.folder)
        certify(self.folder)
        temporary = "".join(f"{kind}_temp_path {self.folder}/{kind}; " for kind in ("client_body", "proxy", "fastcgi", "uwsgi", "scgi"))
        with open(os.path.join(self.folder, "nginx.conf"), "w") as file:
            file.write(f"""pid {self.folder}/pid; error_log {self.folder}/error.log warn; worker_processes 1; daemon off; user root;
events {{ worker_connections 1024; }}
http {{ include /etc/nginx/mime.types; access_log off; {temporary}
server {{ listen 127.0.0.1:{self.port} ssl http2; ssl_certificate {self.folder}/edge.crt; ssl_certificate_key {self.folder}/edge.key;
location / {{ root {PAGES}; add_header Content-Security-Policy "{CSP}" always; }}
location ~ ^/(hls|live|media|job|status|catchup)(/|$) {{ proxy_pass http://127.0.0.1:{port}; proxy_http_version 1.1; proxy_set_header Connection ""; proxy_read_timeout 10s; }}
location /origin/1/ {{ proxy_pass http://127.0.0.1:{port}/; proxy_http_version 1.1; proxy_set_header Connection ""; }} }} }}""")
        self.url = f"https://localhost:{self.port}"
        self.start()

    def start(self):
        self.process = subprocess.Popen(["nginx", "-c", f"{self.folder}/nginx.conf", "-p", self.folder], stdin=subprocess.DEVNULL, stderr=subprocess.DEVNULL)
        wait_for(self.port)

    def stop(self):
        self.process.terminate()
        self.process.wait()


def certify(folder):
    subprocess.run(["openssl", "req", "-x509", "-newkey", "ec", "-pkeyopt", "ec_paramgen_curve:prime256v1", "-nodes", "-keyout", f"{folder}/edge.key",
                    "-out", f"{folder}/edge.crt", "-days", "2", "-subj", "/CN=localhost", "-addext", "subjectAltName=DNS:localhost"],
                   check=True, stderr=subprocess.DEVNULL)


def edge_of(folder, origin, more=""):
    """The edge, with the pages and one channel, or others too: lines of the file of channels."""
    from edge_site import Edge
    edge = Edge(folder, f"main / 127.0.0.1:{origin.port}\n{more}")
    for name in os.listdir(PAGES):
        shutil.copy(os.path.join(PAGES, name), os.path.join(edge.folder, "pages", name))
    return edge


def operator():
    from edge_site import OPERATOR
    return OPERATOR


class Canned:
    """A server of the pages and of answers that are given to it: a path's status, type, bytes, and seconds before them."""

    def __init__(self, folder):
        self.answers, self.asked, canned = {}, [], self

        class Handler(http.server.BaseHTTPRequestHandler):
            def do_GET(self):
                path = self.path.split("?")[0]
                canned.asked.append(path)
                status, kind, content, delay = canned.answers.get(path) or canned.page(path)
                if callable(content):
                    content = content()
                time.sleep(delay)
                try:
                    first, last = re.match(r"bytes=(\d+)-(\d+)", self.headers.get("Range", "")).groups()
                    content, status = content[int(first):int(last) + 1], 206
                except AttributeError:
                    pass
                self.send_response(status)
                for name, value in [("Content-Type", kind), ("Content-Length", str(len(content))), ("Content-Security-Policy", CSP), ("Cache-Control", "no-store")]:
                    self.send_header(name, value)
                self.end_headers()
                try:
                    self.wfile.write(content)
                except OSError:
                    pass

            def log_message(self, *_):
                pass

        folder = os.path.join(folder, "canned")
        os.makedirs(folder)
        certify(folder)
        self.server = http.server.ThreadingHTTPServer(("127.0.0.1", 0), Handler)
        self.server.daemon_threads = True
        context = ssl.SSLContext(ssl.PROTOCOL_TLS_SERVER)
        context.load_cert_chain(f"{folder}/edge.crt", f"{folder}/edge.key")
        self.server.socket = context.wrap_socket(self.server.socket, server_side=True)
        threading.Thread(target=self.server.serve_forever, daemon=True).start()
        self.url = f"https://localhost:{self.server.server_address[1]}"

    @staticmethod
    def page(path):
        file = os.path.join(PAGES, os.path.basename(path))
        kinds = {".html": "text/html", ".js": "text/javascript", ".css": "text/css"}
        if os.path.splitext(file)[1] in kinds and os.path.exists(file):
            with open(file, "rb") as found:
                return 200, kinds[os.path.splitext(file)[1]], found.read(), 0
        return 404, "text/plain", b"refused NotFound\n", 0

    def give(self, path, content, status=200, kind="application/vnd.apple.mpegurl", delay=0):
        self.answers[path] = status, kind, content.encode() if isinstance(content, str) else content, delay

    def stop(self):
        self.server.shutdown()


# What a page shows.

SEEN = """(() => {
  const video = document.querySelector("video"), text = (id) => document.getElementById(id)?.textContent ?? "";
  const canvas = document.createElement("canvas"), [bars, wide] = [%d, 320];
  [canvas.width, canvas.height] = [wide, 180];
  const pen = canvas.getContext("2d", { willReadFrequently: true });
  pen.drawImage(video, 0, 0, wide, 180);
  let number = 0;
  const bar = Math.floor(video.videoWidth / bars) / (video.videoWidth || 1) * wide;
  for (let i = 0; i < bars; i++) if (pen.getImageData(Math.floor(bar * (i + .5)), 8, 1, 1).data[0] > 128) number += 2 ** i;
  return { time: video.currentTime, paused: video.paused, ended: video.ended, ready: video.readyState, muted: video.muted, duration: video.duration,
    width: video.videoWidth, number: video.readyState > 1 ? number : -1, frames: video.getVideoPlaybackQuality().totalVideoFrames,
    words: text("words"), where: text("where"), clock: text("time"), live: document.getElementById("live")?.classList.contains("now") ?? false,
    buffered: [...Array(video.buffered.length).keys()].map((i) => [video.buffered.start(i), video.buffered.end(i)]) };
})()""" % BARS


def seen(page):
    return page.run(SEEN)


def wait_seen(page, holds, seconds):
    """What is seen once that holds, or after the timeout."""
    ends = time.monotonic() + seconds * SLACK
    while True:
        found = seen(page)
        if holds(found) or time.monotonic() > ends:
            return found
        time.sleep(0.2)


def plays_on(page, seconds, least=0.5):
    """Whether pictures continue for that long: at least that share of the time is shown."""
    before = seen(page)
    time.sleep(seconds * SLACK)
    after = seen(page)
    return after["time"] - before["time"] > least * seconds and after["frames"] > before["frames"]


def is_clean(name, page, hosts=1):
    """No fault in the page, and nothing asked of another host."""
    check(f"{name}: no fault of a script, nothing against the policy", not page.faults, page.faults[:3])
    found = {url.split("/")[2] for url in page.requests if url.startswith("http")}
    check(f"{name}: one host is asked", len(found) == hosts, found)


class World:
    """What the parts share: clips, a folder, a browser."""

    def __init__(self, folder, media, program, pictures):
        self.folder, self.media, self.program, self.pictures, self.kept = folder, media, program, pictures, []
        self.clips = [Clip(self.encoded(name, encode, LOOP, *how), scale) for name, encode, how, scale in (
            ("v360.mp4", encode_video, (25, 480, 270, ["-b:v", "500k"]), 12800), ("v180.mp4", encode_video, (25, 240, 134, ["-b:v", "150k"]), 12800),
            ("en.mp4", encode_audio, (440,), 48000), ("de.mp4", encode_audio, (330,), 48000))]
        self.browser = Browser()

    def encoded(self, name, encode, *how):
        """The path of a clip, which is encoded where it isn't there yet."""
        path = os.path.join(self.media, name)
        if not os.path.exists(path):
            print(f"encoding {name} ..", flush=True)
            encode(path + ".part", *how)
            os.rename(path + ".part", path)
        return path

    def path(self, name):
        return os.path.join(self.folder, name)

    def origin(self, options=OPTIONS, specs=SPECS, port=None):
        return self.keep(Origin(self.program, self.folder, options, specs, port=port, name=f"origin{len(self.kept)}"))

    def keep(self, server):
        """A server that is stopped at the end, whatever comes."""
        self.kept.append(server)
        return server

    def encoders(self, port, begins=None, speed=1, first=0):
        begins = time.time() if begins is None else begins
        return [Encoder(port, rendition, clip, begins, speed, first) for rendition, clip in enumerate(self.clips)]

    def shot(self, page, name):
        if self.pictures:
            page.shot(os.path.join(self.pictures, name))

    def close(self):
        if self.browser.process.poll() is None:
            self.browser.close()
        for server in self.kept:
            server.stop()


def part(name):
    print(f"-- {name}", flush=True)


def ask_for(port, start, stop_, more=""):
    """A job's number, once it is cut."""
    status, body = ask(port, "POST", f"/catchup?from={start}&to={stop_}{more}", b"")
    if status != 202:
        raise SystemExit(f"catchup: {body}")
    job = int(body.split()[1])
    for _ in range(300):
        line = ask(port, "GET", f"/job/{job}")[1]
        if line.split()[0] not in (b"waiting", b"running"):
            break
        time.sleep(0.1)
    check(f"job {job} is cut", line.startswith(b"cut "), line)
    return job


def list_of(segments, target=4, more=()):
    return "\n".join(["#EXTM3U", "#EXT-X-VERSION:6", f"#EXT-X-TARGETDURATION:{target}", "#EXT-X-MEDIA-SEQUENCE:0", *more,
                      '#EXT-X-MAP:URI="init.mp4"', *(line for length, uri in segments for line in (f"#EXTINF:{length:.6f},", uri)), "#EXT-X-ENDLIST", ""])
