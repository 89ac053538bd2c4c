"""A small site for tests of its alerts: channels of generated units, what watches them, and a Prometheus of the test's own.

Not a script: tests/edge/alerts imports it. The edge's part is in edge_site.py.
"""
import base64
import http.client
import json
import os
import re
import shutil
import signal
import subprocess
import tempfile
import threading
import time
import urllib.parse
import urllib.request

import harness
from edge_site import OPERATOR, Edge
from harness import ROOT, check, free_port
from origins import Origin, init_section, unit, wait_for

RULES = os.path.join(ROOT, "deploy", "prometheus", "hls_rules.yml")
# as the service has it, so that what is freed goes back to the system
HEAP = {"GLIBC_TUNABLES": "glibc.malloc.arena_max=1:glibc.malloc.mmap_threshold=131072"}
SCALE = 90000                                   # ticks a second of the generated units
OPTIONS = ["--epoch", "1970-01-01T00:00:00Z", "--workers", "8", "--target", "2", "--preferred", "2000000", "--window", "6000000", "--keep", "6000000"]
KNOWN = "Authorization: Basic " + base64.b64encode(":".join(OPERATOR).encode()).decode() + "\r\n"
TWO = ["v:video:400000:0", "en:audio:64000:30000"]


# Encoders

class Feed(threading.Thread):
    """An encoder of one rendition: a unit as soon as its time is over, on a clock that counts from 1970. Units begin at multiples of
    their length. The clock can be ahead of this machine's, and slower or faster; what airs while it is stopped isn't sent later."""

    def __init__(self, port, rendition, kind="video", seconds=0.5, size=2000, ahead=0.0):
        super().__init__(daemon=True)
        self.port, self.rendition, self.size, self.ticks, self.init = port, rendition, size, round(seconds * SCALE), init_section(kind)
        self.hand = time.time() + ahead, time.time(), 1.0
        self.stopped, self.ended, self.sync = False, False, True
        self.connection = http.client.HTTPConnection("127.0.0.1", port, timeout=20)
        self.start()

    def clock(self):
        base, since, pace = self.hand
        return base + (time.time() - since) * pace

    def go(self, pace):
        """Continues from where the clock is now, faster by this factor."""
        self.hand = self.clock(), time.time(), pace

    def run(self):
        number = int(self.clock() * SCALE) // self.ticks + 1
        while not self.ended:
            if (number + 1) * self.ticks > self.clock() * SCALE:
                time.sleep(0.02)
            elif self.stopped:
                number = int(self.clock() * SCALE) // self.ticks
                time.sleep(0.02)
            else:
                number += self.send(unit(number * self.ticks, self.ticks, self.size, sync=self.sync))

    def send(self, body):
        """Sends a unit behind its init section, which an origin that was started again needs."""
        try:
            self.connection.request("PUT", f"/ingest/{self.rendition}", self.init + body)
            self.connection.getresponse().read()
            return 1
        except (OSError, http.client.HTTPException):
            self.connection.close()
            time.sleep(0.2)
            return 0


def both(port, **more):
    """A video and an audio, whose units are cut where those of the video are."""
    return [Feed(port, 0, **more), Feed(port, 1, "audio", 0.5, 500)]


# Channels

class Channel:
    """An origin, its file, and the one by which Prometheus finds it."""

    def __init__(self, site, name, specs=TWO, options=OPTIONS):
        self.name, self.site, self.options, self.specs = name, site, options, list(specs)
        self.origin = Origin(site.program, site.folder, options, specs, name=name, environment=HEAP)
        self.tell()

    def tell(self):
        """Writes its files."""
        self.site.target(self.name, self.origin.port)
        with open(os.path.join(self.site.words, f"{self.name}.conf"), "w", encoding="utf-8") as file:
            file.write(f'# {self.name}\nOPTIONS="{" ".join(self.options)}"\nADDRESS="127.0.0.1:{self.origin.port}"\nRENDITIONS="{" ".join(self.specs)}"\n')

    def anew(self, specs=None):
        """The channel restarts, with other renditions if they are given."""
        self.origin.kill()
        if specs:
            self.origin.words[-len(self.specs):] = specs
            self.specs = list(specs)
        self.origin.start()
        self.tell()


# Who watches

class Reports(threading.Thread):
    """What an hls_ingest reports, each second, without one: it can count."""

    def __init__(self, site, name, stop=None):
        super().__init__(daemon=True)
        self.site, self.name, self.a_second, self.stop, self.left_out = site, name, 0, stop or site.stop, 0
        self.say()
        self.start()

    def say(self):
        self.site.text_file(f"hls_ingest_{self.name}", f'hls_ingest_input_up{{channel="{self.name}"}} 1\nhls_ingest_pictures_left_out_total{{channel="{self.name}"}} {self.left_out}\n')

    def run(self):
        while not self.stop.wait(1):
            self.left_out += self.a_second
            try:
                self.say()
            except FileNotFoundError:
                return              # the site's folder is gone: all is over


class Site:
    """A folder, and what runs in it beside channels."""

    def __init__(self, program, folder):
        self.program, self.folder = program, folder
        self.words, self.texts, self.targets = (os.path.join(folder, name) for name in ("words", "texts", "prometheus/hls_channels"))
        for path in (self.words, self.texts, self.targets):
            os.makedirs(path)
        self.ports = {"node": free_port(), "mtail": free_port(), "blackbox": free_port()}
        self.edge, self.has_disk, self.stop = None, False, threading.Event()
        self.systemd()

    def edge_of(self, channels, changes=()):
        self.edge = Edge(self.folder, channels, changes=changes)
        self.certify(90)
        return self.edge

    def certify(self, days):
        """A certificate that lasts so long, which nginx presents from now on."""
        subprocess.run(["openssl", "req", "-x509", "-newkey", "ec", "-pkeyopt", "ec_paramgen_curve:prime256v1", "-nodes", "-keyout", os.path.join(self.edge.folder, "edge.key"),
                        "-out", self.edge.certificate, "-days", str(days), "-subj", "/CN=localhost", "-addext", "subjectAltName=DNS:localhost,IP:127.0.0.1"],
                       check=True, stderr=subprocess.DEVNULL)
        self.edge.process.send_signal(signal.SIGHUP)

    def target(self, name, *ports):
        """A channel's origins, as `hls_channel add` writes them for Prometheus."""
        path = os.path.join(self.targets, f"{name}.json")
        # Prometheus reads it as soon as it is there
        with open(path + ".new", "w", encoding="ascii") as file:
            json.dump([{"targets": [f"127.0.0.1:{port}" for port in ports], "labels": {"channel": name}}], file)
        os.replace(path + ".new", path)

    def text_file(self, name, text):
        """Metrics that the node exporter reads from a file."""
        path = os.path.join(self.texts, f"{name}.prom")
        with open(path + ".new", "w", encoding="ascii") as file:
            file.write(text)
        os.replace(path + ".new", path)

    def systemd(self, **services):
        """What the node exporter's systemd collector reports: each service's state. tests/manual/runbook has the real one."""
        states = ("active", "activating", "deactivating", "failed", "inactive")
        rows = [f'node_systemd_unit_state{{name="{name.replace("__", "@")}.service",state="{one}"}} {int(one == state)}\n' for name, state in services.items() for one in states]
        self.text_file("units", "# HELP node_scrape_collector_success node_exporter: Whether a collector succeeded.\n# TYPE node_scrape_collector_success gauge\n"
                       'node_scrape_collector_success{collector="systemd"} 1\n' + "".join(rows))

    def watch(self):
        """The exporters that look at all of it; the node exporter is returned."""
        at = {name: f"127.0.0.1:{port}" for name, port in self.ports.items()}
        # file systems that other causes fill meanwhile are none of this one's
        others = "^/(dev|proc|sys)($|/)" if self.has_disk else f"^(/dev|/proc|/sys|{tempfile.gettempdir()})($|/)"
        node = self.exporter("node", "prometheus-node-exporter", f"--web.listen-address={at['node']}", "--collector.disable-defaults", "--collector.filesystem",
                             f"--collector.filesystem.mount-points-exclude={others}", "--collector.textfile", f"--collector.textfile.directory={self.texts}")
        if self.edge:
            shipped, programs = os.path.join(ROOT, "deploy", "prometheus"), os.path.join(self.folder, "mtail")
            os.makedirs(programs)
            shutil.copy(os.path.join(shipped, "hls_edge.mtail"), programs)
            self.exporter("mtail", "mtail", "--progs", programs, "--address", "127.0.0.1", "--port", str(self.ports["mtail"]), "--log_dir", self.folder, "--logs", os.path.join(self.edge.folder, "hls_origin.log"))
            self.exporter("blackbox", "prometheus-blackbox-exporter", f"--web.listen-address={at['blackbox']}", f"--config.file={shipped}/blackbox.yml")
        return node

    def exporter(self, name, *words):
        process = harness.run(*words, stdin=subprocess.DEVNULL, stdout=subprocess.DEVNULL, stderr=open(os.path.join(self.folder, f"{name}.log"), "a", encoding="utf-8"))
        wait_for(self.ports[name])
        return process

    def every(self, seconds, act):
        """Does something again and again beside all else."""
        def loop():
            while not self.stop.is_set():
                try:
                    act()
                except (OSError, http.client.HTTPException):
                    pass
                self.stop.wait(seconds)
        threading.Thread(target=loop, daemon=True).start()


def divided(text, by):
    """The rules with every duration that they wait and look back divided."""
    second = {"s": 1000, "m": 60000, "h": 3600000, "d": 86400000}
    return re.sub(r"(\[|for: |offset )(\d+)([smhd])", lambda found: f"{found[1]}{round(int(found[2]) * second[found[3]] / by)}ms", text)


class Prometheus:
    """Debian's, with the rules and the scrapes of deploy/prometheus, faster by this factor."""

    def __init__(self, site, by):
        self.folder, self.port = os.path.join(site.folder, "prometheus"), free_port()
        with open(RULES, encoding="utf-8") as rules, open(os.path.join(self.folder, "hls_rules.yml"), "w", encoding="utf-8") as file:
            file.write(divided(rules.read(), by))
        with open(os.path.join(ROOT, "deploy", "prometheus", "prometheus.yml"), encoding="utf-8") as file:
            config = file.read().replace("15s", f"{round(15000 / by)}ms")
        # without an Alertmanager, which tests/manual/runbook has
        config = re.sub(r"  alertmanagers:\n.*\n", "", config)
        if not site.edge:
            config = config[:config.index("  # mtail: ")]
        for name, usual in (("node", 9100), ("mtail", 3903), ("blackbox", 9115)):
            config = config.replace(f"127.0.0.1:{usual}", f"127.0.0.1:{site.ports[name]}")
        if site.edge:
            config = config.replace("https://127.0.0.1", f"https://127.0.0.1:{site.edge.port}")
        with open(os.path.join(self.folder, "prometheus.yml"), "w", encoding="utf-8") as file:
            file.write(config)
        told = subprocess.run(["promtool", "check", "config", os.path.join(self.folder, "prometheus.yml")], capture_output=True, text=True)
        check("promtool takes the configuration", told.returncode == 0, told.stdout + told.stderr)
        self.process = harness.run("prometheus", f"--config.file={self.folder}/prometheus.yml", f"--storage.tsdb.path={self.folder}/data",
                                    f"--web.listen-address=127.0.0.1:{self.port}", "--log.level=error", stdin=subprocess.DEVNULL, stderr=open(os.path.join(self.folder, "log"), "w", encoding="utf-8"))
        wait_for(self.port)

    def get(self, path, **query):
        for left in (2, 1, 0):
            try:
                with urllib.request.urlopen(f"http://127.0.0.1:{self.port}/api/v1/{path}?{urllib.parse.urlencode(query)}", timeout=20) as reply:
                    return json.load(reply)["data"]
            except OSError:
                if not left:
                    raise

    def value(self, query):
        """The values that an expression has now, each behind its labels."""
        return {tuple(sorted(one["metric"].items())): float(one["value"][1]) for one in self.get("query", query=query)["result"]}

    def alerts(self, name):
        """The labels of an alert that has come, of each time that it has."""
        return [one["labels"] for one in self.get("alerts")["alerts"] if one["state"] == "firing" and one["labels"]["alertname"] == name]

    def firing(self):
        """The alerts that have come, each with whose it is, and its annotations."""
        return {(one["labels"]["alertname"], one["labels"].get("channel", "")): one["annotations"] for one in self.get("alerts")["alerts"] if one["state"] == "firing"}


class Watch(threading.Thread):
    """Each alert's coming and going, from the beginning on."""

    def __init__(self, prometheus):
        super().__init__(daemon=True)
        self.prometheus, self.begun, self.now, self.seen, self.came, self.went, self.stop = prometheus, time.time(), {}, {}, {}, {}, False
        self.start()

    def run(self):
        while not self.stop:
            try:
                now = self.prometheus.firing()
            except (OSError, ValueError):
                now = self.now
            for key in now.keys() - self.now.keys():
                self.seen[key] = now[key]
                self.came.setdefault(key, time.time() - self.begun)
            for key in self.now.keys() - now.keys():
                self.went[key] = time.time() - self.begun
            self.now = now
            time.sleep(0.3)

    def wait(self, holds, seconds):
        ends = time.time() + seconds
        while time.time() < ends and not holds(self.now):
            time.sleep(0.2)
        return holds(self.now)

    def lines(self):
        for (name, channel), when in sorted(self.came.items(), key=lambda one: one[1]):
            went = self.went.get((name, channel))
            yield f"  {name:22} {channel:10} came after {when:4.0f} s, " + (f"went after {went:4.0f} s" if went else "stands") + f": {self.seen[name, channel]['summary']}"
