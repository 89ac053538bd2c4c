"""What the tests of programmes share: a channel of a real encoder, origins that are slow or false, the tools that are tried.

Not a script: tests/edge/programmes and programme_faults.py import it.
"""
import contextlib
import datetime
import http.client
import http.server
import os
import re
import socket
import ssl
import subprocess
import threading
import time

import av_sync
import harness
from harness import ROOT, ask
from scripts import load_script

PROGRAM = harness.PROGRAM
DEPLOY = os.path.join(ROOT, "deploy")
EPOCH = ["--epoch", "1970-01-01T00:00:00Z"]
WORDS = [*EPOCH, "--workers", "32"]
SPECS = ["v180:video:400000:0", "v90:video:100000:20000", "en:audio:128000:60000"]
CLIP = 120                                      # seconds of channel
MINUTES = 0.1                                   # how old a job is when it goes, here


def use(program):
    """The program that the tools run."""
    global PROGRAM
    PROGRAM = os.environ["HLS_ORIGIN"] = os.path.abspath(program)


def run(tool, *words, seconds=240, **more):
    done = subprocess.run([os.path.join(DEPLOY, tool), *map(str, words)], capture_output=True, text=True, timeout=seconds,
                          env=os.environ, **more)
    return done.returncode, done.stdout, done.stderr


def tool(name):
    """A tool as a module."""
    return load_script(os.path.join(DEPLOY, name))


def background(tool, *words):
    return harness.run(os.path.join(DEPLOY, tool), *map(str, words), env=os.environ, stdin=subprocess.DEVNULL,
                        stdout=subprocess.DEVNULL, stderr=subprocess.PIPE)


def url(port):
    return f"http://127.0.0.1:{port}"


def jobs(port):
    return int(re.search(rb"jobs (\d+)", ask(port, "GET", "/status")[1])[1])


def moment(seconds):
    return datetime.datetime.utcfromtimestamp(seconds).isoformat() + "Z"


# A channel of a real encoder

class Clip:
    """Two minutes of three renditions as an encoder wrote them, that ended just now; they are made once."""

    def __init__(self, folder):
        self.files = [os.path.join(folder, f"sent{n}.mp4") for n in range(3)]
        video = ["-c:v", "libx264", "-preset", "veryfast", "-pix_fmt", "yuv420p", "-g", "48", "-sc_threshold", "0"]
        kinds = [("0:v", size, video, "+frag_keyframe", []) for size in ("160x90", "80x44")] + [("1:a", "16x16", ["-c:a", "aac"], "", ["-frag_duration", "100000"])]
        for (track, size, kind, _, _), path in zip(kinds, self.files):
            subprocess.run(["ffmpeg", "-nostdin", "-v", "error", *av_sync.source("25", 48, CLIP, size), "-map", track, *kind, "-f", "mp4", path + ".mp4"], check=True)
        self.begins = int(time.time()) - CLIP - 5
        for (_, _, _, flags, more), path in zip(kinds, self.files):
            subprocess.run(["ffmpeg", "-nostdin", "-v", "error", "-i", path + ".mp4", "-c", "copy", "-f", "mp4",
                            "-movflags", flags + "+delay_moov+default_base_moof+frag_discont+skip_trailer", *more, "-output_ts_offset", str(self.begins), path], check=True)
        self.sent = [open(path, "rb").read() for path in self.files]

    def send(self, port, numbers=(0, 1, 2)):
        for number in numbers:
            status, text = ask(port, "PUT", f"/ingest/{number}", self.sent[number])
            if status != 200:
                raise SystemExit(f"the clip isn't taken: {text}")

    def at(self, seconds):
        return moment(self.begins + seconds)


def init_of(data):
    """Bytes up to the end of the init section."""
    at = 0
    while at < len(data):
        size, kind = int.from_bytes(data[at:at + 4], "big"), data[at + 4:at + 8]
        at += size
        if kind == b"moov":
            return data[:at]
    raise SystemExit("no init section")


def ranges(text):
    return [tuple(map(int, found)) for found in re.findall(r"#EXT-X-BYTERANGE:(\d+)@(\d+)", text)]


def packets(path, stream, folder=None):
    """Each packet's hash, and the steps of their times."""
    told = subprocess.run(["ffmpeg", "-nostdin", "-v", "error", "-copyts", "-i", path, "-map", f"0:{stream}", "-c", "copy", "-f", "framemd5", "-"],
                          capture_output=True, text=True, check=True, cwd=folder).stdout
    lines = [line.split(",") for line in told.split("\n") if line and not line.startswith("#")]
    times = [int(line[1]) for line in lines]
    return [line[5].strip() for line in lines], {b - a for a, b in zip(times, times[1:])}


# Origins that are slow, or none

class Slow:
    """Hands connections on to an origin, so slowly that a tool can be ended in the middle; by TLS, where it has a certificate for that."""

    def __init__(self, port, bytes_a_second, context=None):
        self.to, self.pace, self.context = port, bytes_a_second, context
        self.listener = socket.create_server(("127.0.0.1", 0))
        self.port = self.listener.getsockname()[1]
        threading.Thread(target=self.accept, daemon=True).start()

    def accept(self):
        while True:
            one = self.listener.accept()[0]
            if self.context:
                try:
                    one = self.context.wrap_socket(one, server_side=True)
                except (OSError, ssl.SSLError):
                    continue
            other = socket.create_connection(("127.0.0.1", self.to))
            threading.Thread(target=self.pump, args=(one, other, None), daemon=True).start()
            threading.Thread(target=self.pump, args=(other, one, self.pace), daemon=True).start()

    def pump(self, one, other, pace):
        with contextlib.suppress(OSError):
            while piece := one.recv(4096):
                other.sendall(piece)
                if pace:
                    time.sleep(len(piece) / pace)
            other.shutdown(socket.SHUT_WR)


class False_:
    """An origin that says what it likes: a path's reply is status, fields, body, where a body may be endless."""

    def __init__(self, replies, other=lambda command, path: (404, {}, b"refused NotFound\n"), prefix=""):
        self.asked = []
        outer = self

        class Handler(http.server.BaseHTTPRequestHandler):
            protocol_version = "HTTP/1.1"

            def reply(self):
                path = self.path.partition("?")[0].removeprefix(prefix)
                outer.asked.append(f"{self.command} {path}")
                status, fields, body = replies.get(f"{self.command} {path}", replies.get(path) or other(self.command, path))
                if callable(body):
                    status, fields, body = body(self.headers)
                self.send_response(status)
                for name, value in fields.items():
                    self.send_header(name, value)
                if body is not None:
                    self.send_header("Content-Length", str(len(body)))
                else:
                    self.send_header("Connection", "close")
                    self.close_connection = True
                self.end_headers()
                with contextlib.suppress(OSError):
                    if body is not None:
                        self.wfile.write(body)
                    else:
                        while True:
                            self.wfile.write(bytes(65536))
            do_GET = do_POST = do_DELETE = reply

            def log_message(self, *_):
                pass
        self.server = http.server.ThreadingHTTPServer(("127.0.0.1", 0), Handler)
        self.server.daemon_threads = True
        self.port = self.server.server_address[1]
        threading.Thread(target=self.server.serve_forever, daemon=True).start()
