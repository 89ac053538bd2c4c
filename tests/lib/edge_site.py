"""An edge for tests: Debian's nginx with the files of edge/; only addresses and paths are changed.

Not a script: tests/edge/attacks, tests/player/players and tests/edge/failover import it.
"""
import base64
import hashlib
import http.client
import os
import re
import resource
import shutil
import socket
import ssl
import subprocess
import threading
import time

import harness
from harness import ROOT, ask, free_port
from origins import init_section, need, unit, wait_for

# How long a list is kept at most: a second, and nginx counts whole ones.
KEPT = 2.2
OPERATOR, ENCODER = ("olga", "open sesame"), ("emil", "encode me")

NGINX = """
user {user};
worker_processes {workers};
worker_rlimit_nofile {files};
pcre_jit on;
pid {folder}/pid;
error_log {folder}/error.log warn;
events {{ worker_connections 16384; }}
http {{
    include /etc/nginx/mime.types;
    default_type application/octet-stream;
    client_body_temp_path {folder}/temporary_body;
    proxy_temp_path {folder}/temporary_proxy;
    fastcgi_temp_path {folder}/temporary_fastcgi;
    uwsgi_temp_path {folder}/temporary_uwsgi;
    scgi_temp_path {folder}/temporary_scgi;
    sendfile on;
    tcp_nopush on;
    access_log {folder}/access.log;
    include {folder}/conf.d/*.conf;
    include {folder}/sites-enabled/*;
}}
"""


def install():
    """nginx, without a server of the whole system."""
    need(nginx="nginx", openssl="openssl")


def write(path, text, mode=0o644):
    os.makedirs(os.path.dirname(path), exist_ok=True)
    with open(path, "w", encoding="utf-8") as file:
        file.write(text)
    os.chmod(path, mode)


def hashed(password):
    """As `htpasswd -s` has it."""
    return "{SHA}" + base64.b64encode(hashlib.sha1(password.encode()).digest()).decode()


class Edge:
    """nginx with the edge's files. `channels` is the text of the file of channels, `more` another site's configuration."""

    def __init__(self, folder, channels, more="", workers=2, changes=(), site_changes=()):
        install()
        self.folder, self.process = os.path.join(folder, "edge"), None
        self.files = os.path.join(self.folder, "hls_origin")
        self.port, self.open, self.plain, self.inner = (free_port() for _ in range(4))
        for name in ("conf.d", "sites-enabled", "nginx", "cache", "hls_origin", "pages"):
            os.makedirs(os.path.join(self.folder, name))
        for path in (folder, self.folder):
            os.chmod(path, 0o755)
        self.certificate = os.path.join(self.folder, "edge.crt")
        subprocess.run(["openssl", "req", "-x509", "-newkey", "ec", "-pkeyopt", "ec_paramgen_curve:prime256v1", "-nodes",
                        "-keyout", os.path.join(self.folder, "edge.key"), "-out", self.certificate, "-days", "2", "-subj", "/CN=localhost",
                        "-addext", "subjectAltName=DNS:localhost,DNS:sport.localhost,IP:127.0.0.1"], check=True, stderr=subprocess.DEVNULL)
        self.set_channels(channels)
        self.copy("conf.d", "hls_origin.conf", [one for one in changes if one[0] in self.text("hls_origin.conf")])
        self.copy("sites-enabled", "hls_site.conf", [
            ("listen 80;", f"listen 127.0.0.1:{self.plain};"), ("listen [::]:80;", f"listen [::1]:{self.plain};"),
            # without TLS too, for players that don't take a certificate of today
            ("listen 443 ", f"listen 127.0.0.1:{self.open};\n    listen 127.0.0.1:{self.port} "), ("listen [::]:443 ", f"listen [::1]:{self.port} "),
            ("edge.example.org;", "localhost 127.0.0.1 \"\";"), ("/var/www/acme", f"{self.folder}/acme"),
            ("/etc/nginx/edge.crt", self.certificate), ("/etc/nginx/edge.key", f"{self.folder}/edge.key"), *site_changes])
        for name in os.listdir(os.path.join(ROOT, "edge")):
            if re.fullmatch(r"hls_(server|fields|lists|viewers|operators|pages)\.conf", name):
                self.copy("nginx", name)
        self.copy("nginx", "hls_http.conf", [one for one in changes if one[0] not in self.text("hls_origin.conf")])
        write(os.path.join(self.folder, "sites-enabled", "other"), more)
        self.conf = os.path.join(self.folder, "nginx.conf")
        write(self.conf, NGINX.format(folder=self.folder, workers=workers, user="www-data" if os.getuid() == 0 else "nobody",
                                      files=resource.getrlimit(resource.RLIMIT_NOFILE)[1]))
        self.words = ["nginx", "-c", self.conf, "-p", self.folder, "-e", f"{self.folder}/error.log"]
        # the tools' nginx is this one
        self.environment = {**os.environ, "PATH": f"{self.folder}/bin:{os.environ['PATH']}"}
        write(f"{self.folder}/bin/nginx", f'#!/bin/sh\nexec {shutil.which("nginx")} {" ".join(self.words[1:])} "$@"\n', 0o755)
        tried = self.edge("--no-reload")
        if tried.returncode:
            raise SystemExit(tried.stderr)
        self.start()
        self.url, self.open_url = f"https://localhost:{self.port}", f"http://127.0.0.1:{self.open}"

    def text(self, name):
        """A file of edge/."""
        with open(os.path.join(ROOT, "edge", name), encoding="utf-8") as file:
            return file.read()

    def copy(self, to, name, changes=()):
        """A file of edge/ with this edge's addresses and paths; each change must have something to change."""
        text = self.text(name)
        for old, new in changes:
            if old not in text:
                raise SystemExit(f"edge/{name} has no {old}")
            text = text.replace(old, new)
        for old, new in [("/etc/nginx/hls_origin", self.files), ("/usr/share/hls_origin", self.folder), ("/var/lib/nginx/hls", f"{self.folder}/cache"),
                         ("/var/log/nginx", self.folder), ("127.0.0.1:8079", f"127.0.0.1:{self.inner}")]:
            text = text.replace(old, new)
        write(os.path.join(self.folder, to, name), text)

    def tool(self, name, *words):
        """A tool on this edge's files; where it has told nginx to reload, once nginx has done so."""
        before, written = self.serving(), self.written()
        done = subprocess.run([os.path.join(ROOT, "deploy", name), *words, "--folder", self.files],
                              env=self.environment, capture_output=True, text=True, timeout=60)
        begun = time.monotonic()
        while done.returncode == 0 and self.written() != written and self.serving() & before and time.monotonic() - begun < 30:
            time.sleep(0.05)
        return done

    def written(self):
        """When the tools last wrote something for nginx."""
        path = os.path.join(self.files, "generated.conf")
        return os.stat(path).st_mtime_ns if os.path.exists(path) else None

    def serving(self):
        """nginx's processes that take connections: after a reload others than before."""
        found = set()
        for pid in subprocess.run(["pgrep", "-P", str(self.process.pid)], capture_output=True, text=True).stdout.split() if self.process else []:
            try:
                with open(f"/proc/{pid}/cmdline", "rb") as file:
                    found |= {pid} if file.read().rstrip(b"\0 ") == b"nginx: worker process" else set()
            except OSError:
                pass
        return found

    def edge(self, *words):
        return self.tool("hls_channel", "edge", *words)

    def set_channels(self, text):
        """The file of channels, and passwords for those that have none."""
        write(os.path.join(self.files, "channels"), text)
        names = re.findall(r"^[a-z0-9_-]+", text, re.M)
        self.set_passwords(*(name for name in names if not os.path.exists(os.path.join(self.files, "operators", f"{name}.htpasswd"))))

    def set_passwords(self, *names, users=(OPERATOR, ENCODER)):
        """An operator and an encoder of each channel."""
        for name in names:
            for door, (user, password) in zip(("operators", "encoders"), users):
                write(os.path.join(self.files, door, f"{name}.htpasswd"), f"{user}:{hashed(password)}\n")

    def start(self):
        self.process = harness.run(*self.words, "-g", "daemon off;", stdin=subprocess.DEVNULL, stderr=subprocess.DEVNULL)
        wait_for(self.port)

    def lines(self, name):
        path = os.path.join(self.folder, name)
        if not os.path.exists(path):
            return []
        # what a stranger sends is in logs as it was sent
        with open(path, encoding="utf-8", errors="replace") as file:
            return [line for line in file.read().split("\n") if line]

    def errors(self):
        return self.lines("error.log")

    def ask(self, method, path, headers={}, body=None, here="127.0.0.1", user=None, host=None, timeout=20):
        """One request through TLS: status, fields in small letters, body."""
        connection = http.client.HTTPSConnection("localhost", self.port, timeout=timeout, source_address=(here, 0), context=self.context())
        fields = dict(headers)
        if user:
            fields["Authorization"] = "Basic " + base64.b64encode(":".join(user).encode()).decode()
        if host:
            fields["Host"] = host
        connection.request(method, path, body, fields)
        reply = connection.getresponse()
        answer = reply.status, {name.lower(): value for name, value in reply.getheaders()}, reply.read()
        connection.close()
        return answer

    def raw(self, target, more="", here="127.0.0.1", method="GET"):
        """One request without TLS, its target just as it is given: status, fields, body."""
        with socket.create_connection(("127.0.0.1", self.open), timeout=20, source_address=(here, 0)) as connection:
            connection.sendall(f"{method} {target} HTTP/1.1\r\nHost: localhost\r\nConnection: close\r\n{more}\r\n".encode("latin-1"))
            reply = http.client.HTTPResponse(connection, method=method)
            try:
                reply.begin()
                return reply.status, {name.lower(): value for name, value in reply.getheaders()}, reply.read()
            except (http.client.HTTPException, OSError) as fault:
                return 0, {}, repr(fault).encode()

    def context(self):
        return ssl.create_default_context(cafile=self.certificate)

    def stop(self):
        self.process.terminate()
        self.process.wait()


# A channel whose every byte is known, without an encoder: units of two seconds, as fast as they are wanted.

SIZES, KINDS, TICKS = (20000, 4000), ("video", "audio"), 180000
WORDS = ["v:video:80000:0", "en:audio:16000:0"]


def unit_of(fill, rendition, number):
    return unit(number * TICKS, TICKS, SIZES[rendition], (fill * 64 + rendition * 16 + number % 16) % 256)


def feed(port, fill, first, count):
    """Sends a number of units of each rendition; the media of two channels of another `fill` differ."""
    for rendition, kind in enumerate(KINDS):
        body = init_section(kind) + b"".join(unit_of(fill, rendition, number) for number in range(first, first + count))
        status, said = ask(port, "PUT", f"/ingest/{rendition}", body)
        assert status == 200, said


def media_of(fill, rendition, count):
    """The recording after a number of units."""
    return init_section(KINDS[rendition]) + b"".join(unit_of(fill, rendition, number) for number in range(count))


def names(text, prefix=""):
    """The public paths of a list's segments."""
    return [f"{prefix}/hls/{line}" for line in text.split("\n") if line and not line.startswith("#")]


def bytes_of(path):
    """First and last byte that a segment's path names."""
    return tuple(map(int, re.search(r"/([0-9]+)-([0-9]+)\.m4s", path).groups()))


class Wire(threading.Thread):
    """What lies between the edge and an origin: connections go through, are reset, refused, left without an answer, or end in the middle
    of a reply (`cut`: of what was said so far, how much is passed on; None for all)."""

    def __init__(self, to):
        super().__init__(daemon=True)
        self.to, self.heads, self.bytes, self.sent, self.open, self.resets, self.fault, self.silences, self.cut = to, [], 0, 0, 0, 0, None, 0, None
        self.lock = threading.Lock()
        self.listener = socket.create_server(("127.0.0.1", 0))
        self.port = self.listener.getsockname()[1]
        self.start()

    def run(self):
        while True:
            near, _ = self.listener.accept()
            threading.Thread(target=self.carry, args=(near,), daemon=True).start()

    def carry(self, near):
        with self.lock:
            reset = self.resets > 0 or self.fault == "reset"
            self.resets = max(0, self.resets - 1)
            silent = self.fault == "silent"
            self.silences += silent
        if reset:
            near.recv(65536)
            near.setsockopt(socket.SOL_SOCKET, socket.SO_LINGER, b"\1\0\0\0\0\0\0\0")
            near.close()
            return
        if silent:
            time.sleep(30)
            near.close()
            return
        with self.lock:
            self.open += 1
        try:
            far = socket.create_connection(("127.0.0.1", self.to))
            threading.Thread(target=self.pump, args=(near, far, True), daemon=True).start()
            self.pump(far, near, False)
        except OSError:
            near.close()
        finally:
            with self.lock:
                self.open -= 1

    def pump(self, a, b, asked):
        said = b""
        try:
            while part := a.recv(65536):
                with self.lock:
                    cut = self.cut
                    if asked:
                        self.heads += [line.decode("latin-1") for line in part.split(b"\r\n") if line.endswith(b" HTTP/1.1")]
                        self.sent += len(part)
                    else:
                        self.bytes += len(part)
                if cut and not asked:
                    said += part
                    end = cut(said)
                    if end is not None:
                        b.sendall(part[:max(0, end - len(said) + len(part))])
                        break
                b.sendall(part)
        except OSError:
            pass
        for side in (a, b):
            try:
                side.shutdown(socket.SHUT_RDWR)
            except OSError:
                pass
            side.close() if not asked else None

    def asked(self):
        """The targets that were asked for since the last call."""
        with self.lock:
            heads, self.heads = self.heads, []
        return [head.split(" ")[1] for head in heads]
