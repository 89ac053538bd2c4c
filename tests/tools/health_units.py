"""Unit tests of what `hls_channel status`, `watch`, `check`, `new`, `add` and `site` decide: health, changes, templates, sites.

    bash tests/lint_tools

Origins and edges are stand-ins on this machine; so are the program, systemctl, journalctl and nginx.
"""
import contextlib
import http.server
import io
import json
import os
import re
import shlex
import socket
import ssl
import subprocess
import sys
import tempfile
import threading
import time
import unittest
import unittest.mock

sys.path.insert(0, os.path.join(os.path.dirname(os.path.abspath(__file__)), "..", "lib"))
from scripts import DEPLOY, load_script, use_tools  # noqa: E402

use_tools()
from hls_tools import changes, channel_checks, edge, foreground, health, health_table, journals, services, sites, templates  # noqa: E402
from hls_tools.failures import Failure  # noqa: E402

LIST = "#EXTM3U\n#EXT-X-MEDIA-SEQUENCE:{first}\n" + "#EXTINF:3.840000,\na.m4s\n" * 3
WELL = {"hls_log_entries": 1234, "hls_list_still_seconds": 2, "hls_list_target_seconds": 4, "hls_channel_ended": 0, "hls_journal_lost": 0, "process_virtual_memory_bytes": 12,
        "process_virtual_memory_max_bytes": 100, 'hls_rendition_begun{rendition="0",name="v720"}': 1, 'hls_rendition_begun{rendition="1",name="en"}': 1,
        'hls_rendition_end_seconds{rendition="0",name="v720"}': 1796085000.0, 'hls_rendition_end_seconds{rendition="1",name="en"}': 1796084999.5}
SITE = """server {{
    listen 80;
    server_name {host};                 # here:
}}
server {{
    listen 443 ssl http2 backlog=4096;
    listen [::]:443 ssl;
    server_name {host};
    ssl_certificate {certificate};
    include /usr/share/hls_origin/nginx/hls_server.conf;
    location / {{ return 404; }}
}}
"""


def metrics(**changed):
    """The text of /metrics of a channel that is well, with changes. `en__begun=0` is that of one rendition."""
    values = dict(WELL)
    for name, value in changed.items():
        rendition, _, short = name.rpartition("__")
        key = next((one for one in values if one.startswith(f"hls_rendition_{short}{{") and f'"{rendition}"' in one), name) if rendition else name
        values[key] = value
    return "".join(f"# TYPE x gauge\n{name} {value}\n" for name, value in values.items()).encode()


def trickle(listener, fields):
    """Answers one request with a byte every fifth of a second."""
    near, _ = listener.accept()
    with near, contextlib.suppress(OSError):
        near.recv(65536)
        near.sendall(b"HTTP/1.1 200 OK\r\n" + fields + b"\r\n")
        for _ in range(50):
            time.sleep(0.2)
            near.sendall(b"a")


class Served(unittest.TestCase):
    """A folder, and stand-ins that serve."""

    def setUp(self):
        temporary = tempfile.TemporaryDirectory()
        self.addCleanup(temporary.cleanup)
        self.folder = temporary.name
        self.tools = os.path.join(self.folder, "bin")
        os.mkdir(self.tools)
        self.use(unittest.mock.patch.dict(os.environ, {"PATH": self.tools + ":" + os.environ["PATH"]}))

    def use(self, patch):
        patch.start()
        self.addCleanup(patch.stop)

    def write(self, name, text, mode=0o644):
        path = os.path.join(self.folder, name)
        os.makedirs(os.path.dirname(path), exist_ok=True)
        with open(path, "w", encoding="utf-8") as file:
            file.write(text)
        os.chmod(path, mode)
        return path

    def read(self, name):
        with open(os.path.join(self.folder, name), encoding="utf-8") as file:
            return file.read()

    def stand_in(self, name, script):
        """A command that notes its arguments in a file of its name."""
        self.write(f"bin/{name}", f'#!/bin/sh\necho "$*" >> {self.folder}/{name}.log\n{script}\n', 0o755)

    def serve(self, replies, certificate=None):
        """Serves replies by their paths. Returns the port."""
        class Handler(http.server.BaseHTTPRequestHandler):
            def do_GET(self):
                status, body = replies.get(self.path, (404, b"refused NotYet\n"))
                self.send_response(status)
                self.send_header("Content-Length", str(len(body)))
                self.end_headers()
                self.wfile.write(body)

            def log_message(self, *_):
                pass
        server = http.server.ThreadingHTTPServer(("127.0.0.1", 0), Handler)
        server.daemon_threads = True
        if certificate:
            context = ssl.SSLContext(ssl.PROTOCOL_TLS_SERVER)
            context.load_cert_chain(certificate, certificate + ".key")
            server.socket = context.wrap_socket(server.socket, server_side=True)
        threading.Thread(target=server.serve_forever, args=(0.02,), daemon=True).start()
        self.addCleanup(server.server_close)
        self.addCleanup(server.shutdown)
        return server.server_address[1]

    def certificate(self, host):
        path = os.path.join(self.folder, host)
        subprocess.run(["openssl", "req", "-x509", "-newkey", "ec", "-pkeyopt", "ec_paramgen_curve:prime256v1", "-nodes", "-days", "30", "-subj", f"/CN={host}", "-addext", f"subjectAltName=DNS:{host}", "-keyout", path + ".key", "-out", path],
                       check=True, capture_output=True)
        return path


class Looking(Served):
    """A channel at an edge, with one fault at a time."""

    def setUp(self):
        super().setUp()
        self.crt = self.certificate("localhost")
        self.origin = {"/metrics": (200, metrics()), "/status": (200, b"version 1\n"), "/hls/0.m3u8": (200, LIST.format(first=100).encode())}
        self.edge = {"/news/hls/0.m3u8": self.origin["/hls/0.m3u8"]}
        self.port = self.serve(self.origin)
        self.site = sites.Site("site", "localhost", ("127.0.0.1", self.serve(self.edge, self.crt)), self.crt)
        self.units = {"nginx": {"ActiveState": "active"}, "hls_origin@news": {"ActiveState": "active", "UnitFileState": "enabled"},
                      "hls_ingest@news": {"ActiveState": "active", "StatusText": "input shown since 2026-12-01 00:00:00 UTC; 0 pictures left out; 0 restarts of the encoder"}}
        self.conf(f'OPTIONS="--target 4"\nADDRESS="127.0.0.1:{self.port}"\nRENDITIONS="v720:video:3000000:0 en:audio:128000:22000"\nINPUT="srt://0.0.0.0:9000?mode=listener"\nEDGE="/news"\n')

    def conf(self, text):
        self.text, self.path = text, self.write("news.conf", text)

    def look(self, served=("news",)):
        return health.Machine(self.site, served, self.units).look(self.path)

    def one(self, kind, text, command, **more):
        """The first fault is this one."""
        found = self.look(**more)
        self.assertTrue(found.faults, found)
        first = found.faults[0]
        self.assertEqual((first.kind, first.command), (kind, command), found.faults)
        self.assertIn(text, first.text)
        self.assertEqual(found.line(), "; ".join(one.text for one in found.faults) + f". Type: {command}")
        return found

    def answer(self, **changed):
        self.origin["/metrics"] = (200, metrics(**changed))

    def test_well(self):
        found = self.look()
        self.assertEqual(found.faults, [])
        self.assertEqual((found.version, found.still, found.lag, found.memory, found.journal), (1234, 2.0, 0.5, 0.12, "none"))
        self.assertIn(f"origin at 127.0.0.1:{self.port}, version 1234; lists 2 s old at https://localhost:", found.line())
        self.assertIn("input shown", found.line())

    def test_nginx(self):
        self.units["nginx"] = {"ActiveState": "inactive"}
        self.one("edge", "nginx isn't running", "systemctl start nginx")
        for state in ("failed", "activating"):
            self.units["nginx"] = {"ActiveState": state}
            self.one("edge", "nginx isn't running", "nginx -t && systemctl restart nginx")

    def test_edge(self):
        self.one("edge", "doesn't serve it", "hls_channel add news", served=())
        self.edge["/news/hls/0.m3u8"] = (502, b"")
        self.one("edge", "the edge answers 502", "tail -5 /var/log/nginx/error.log")
        self.edge["/news/hls/0.m3u8"] = (200, LIST.format(first=90).encode())
        self.one("edge", "an old list", "rm -rf /var/lib/nginx/hls/lists/*; systemctl reload nginx")
        self.edge["/news/hls/0.m3u8"] = (200, LIST.format(first=99).encode())
        self.assertEqual(self.look().faults, [])
        self.site = self.site._replace(address=("127.0.0.1", 9))
        self.one("edge", "the edge doesn't answer", "nginx -t; systemctl status nginx")
        self.site = None
        self.one("edge", "isn't an edge", "hls_channel site HOST")

    def test_certificate(self):
        self.site = self.site._replace(host="edge.example.org")
        self.one("edge", "players refuse the edge's certificate", f"openssl x509 -in {self.crt} -noout -subject -enddate")
        self.site = self.site._replace(host="localhost", certificate=self.certificate("other"))
        self.one("edge", "players refuse the edge's certificate", f"openssl x509 -in {self.folder}/other -noout -subject -enddate")

    def test_lists(self):
        self.answer(hls_list_still_seconds=62)
        self.one("list", "still for 62 s", "journalctl -u 'hls_*@news.service' -g 'refused|wait for|ingest' -n 5")
        self.answer(hls_list_still_seconds=62, hls_channel_ended=1)
        self.assertEqual(self.look().faults, [])
        self.answer(hls_list_still_seconds=12)
        self.assertEqual(self.look().faults, [])

    def test_old_measurements(self):
        """An origin to which nothing happens measures how long its lists have been still once it is asked."""
        old = metrics(process_start_time_seconds=time.time() - 1000, hls_uptime_seconds=900)
        replies = [old, metrics(process_start_time_seconds=time.time() - 1000, hls_uptime_seconds="1000000000e-6", hls_list_still_seconds="62000000e-6")]
        with unittest.mock.patch.object(health, "ask_metrics", lambda address: health.Response(200, None, replies.pop(0))):
            self.one("list", "still for 62 s", "journalctl -u 'hls_*@news.service' -g 'refused|wait for|ingest' -n 5")

    def test_memory(self):
        self.answer(hls_list_still_seconds=62, process_virtual_memory_bytes=97)
        found = self.one("list", "still for 62 s", "prlimit --pid $(systemctl show -P MainPID hls_origin@news) --as=unlimited")
        self.assertEqual([one.kind for one in found.faults], ["list", "memory"])
        self.conf(self.text.replace("--target 4", f"--target 4 --journal {self.folder}"))
        self.one("list", "still for 62 s", "systemctl restart hls_origin@news")
        self.origin["/metrics"] = (503, b"refused Memory\n")
        self.one("origin", "out of memory", "systemctl restart hls_origin@news")

    def test_journal(self):
        self.conf(self.text.replace("--target 4", f"--target 4 --journal {self.folder}"))
        self.assertEqual(self.look().journal, "kept")
        self.answer(hls_journal_lost=1)
        self.one("journal", "the journal is lost", "hls_channel anew news")
        self.answer()
        with unittest.mock.patch.object(health, "arguments_of", lambda pid: ["hls_origin", "serve", "--target", "4"]):
            self.one("journal", "runs without its journal", "hls_channel anew news")
        with unittest.mock.patch.object(health, "room_of", lambda folder: (12e6, 0.001)):
            found = self.one("disk", f"12 MB are left on the disk of {self.folder}", f"du -xah $(df --output=target {self.folder} | tail -1) | sort -h | tail -20")
            self.assertEqual(found.room, 0.001)
            # an empty channel needs room first
            self.answer(hls_journal_lost=1)
            self.assertEqual([one.kind for one in self.one("disk", f"12 MB are left on the disk of {self.folder}", f"du -xah $(df --output=target {self.folder} | tail -1) | sort -h | tail -20").faults], ["disk", "journal"])

    def test_encoders(self):
        self.origin["/hls/0.m3u8"] = self.edge["/news/hls/0.m3u8"] = (404, b"refused NotYet\n")
        self.answer(v720__begun=0, en__begun=0)
        self.one("encoder", "no encoder has sent anything", "journalctl -u hls_ingest@news -n 20")
        self.answer(en__begun=0)
        self.one("encoder", "en has not begun", "journalctl -u hls_ingest@news -n 20")
        self.conf("".join(line for line in self.text.splitlines(True) if not line.startswith("INPUT")))
        self.one("encoder", "en has not begun", "journalctl -u hls_origin@news -g 'ingest en' -n 5")
        self.answer(en__end_seconds=1796084980, hls_list_still_seconds=20)
        found = self.one("list", "still for 20 s", "journalctl -u hls_origin@news -g 'ingest en' -n 5")
        self.assertIn("en is 20 s behind", found.line())

    def test_filled(self):
        self.stand_in("journalctl", "printf '%s\\n' 'serve: en is away and is filled, 3 fillers so far' 'serve: v720 is away and is filled, 1 fillers so far' 'serve: v720 is back after 7 fillers'")
        self.assertEqual(self.look().filled, [])
        self.conf(self.text.replace("--target 4", "--target 4 --mend"))
        found = self.one("encoder", "en is filled", "journalctl -u hls_ingest@news -n 20")
        self.assertEqual(found.filled, ["en"])

    def test_input(self):
        self.units["hls_ingest@news"] = {"ActiveState": "active", "StatusText": "input gone since 2026-12-01 00:00:00 UTC; 0 pictures left out"}
        self.one("input", "input gone since", "journalctl -u hls_ingest@news -n 20")
        self.units["hls_ingest@news"] = {"ActiveState": "inactive", "StatusText": ""}
        self.one("input", "hls_ingest isn't running", "systemctl start hls_ingest@news")

    def test_silent(self):
        self.conf(self.text.replace(str(self.port), "9"))
        for unit, text, command in (({"ActiveState": "active"}, "though it runs", "journalctl -u hls_origin@news -n 20"),
                                    ({"ActiveState": "activating", "NRestarts": "7"}, "starting, after 7 restarts", "journalctl -u hls_origin@news -n 20"),
                                    ({"ActiveState": "failed", "Result": "exit-code", "ExecMainStatus": "2"}, "a wrong argument", "hls_channel check news"),
                                    ({"ActiveState": "failed", "Result": "exit-code", "ExecMainStatus": "1", "UnitFileState": "enabled"}, "it failed", "journalctl -u hls_origin@news -n 20"),
                                    ({"ActiveState": "inactive", "UnitFileState": "enabled"}, "it was stopped", "systemctl start hls_origin@news"),
                                    ({"ActiveState": "inactive", "UnitFileState": "disabled"}, "isn't added", "hls_channel add news")):
            self.units["hls_origin@news"] = unit
            self.one("origin", text, command)
        self.conf('OPTIONS="--keep\n')
        self.one("file", "can't be read", "hls_channel check news")

    def test_standby(self):
        self.conf(self.text + 'STANDBY="127.0.0.1:9"\n')
        self.one("standby", "127.0.0.1:9 doesn't answer", "ssh 127.0.0.1 hls_channel status news")

    def test_false_names(self):
        """What answers may be another program. A name that no rendition may have is in no line, and in no command that an operator types."""
        names = ("$(reboot)", "`reboot`", "en; reboot", "en' -x", "en\\", "--help", "-n", "", "en\n", "en\x1b[2J", "en\xff", "e" * 33, "../en")
        for metric, value in (("begun", 0), ("end_seconds", 1796084000)):
            lines = "".join(f'hls_rendition_{metric}{{rendition="2",name="{name}"}} {value}\n' for name in names)
            self.origin["/metrics"] = (200, metrics() + lines.encode("latin-1"))
            self.assertEqual(self.look().faults, [], metric)
        lines = "".join(f"serve: {name} is away and is filled, 3 fillers so far\n" for name in names)
        self.stand_in("journalctl", f"printf '%s' {shlex.quote(lines)}")
        self.assertEqual(services.filled_renditions("news"), [])

    def test_false_numbers(self):
        """Numbers that no origin has, in metrics and in lists, end neither a channel's status nor that of the others."""
        for number in ("9" * 5000, "-1", "1.5", "x"):
            found = self.look_beside(metrics(), LIST.format(first=number))
            self.assertEqual([[fault.kind for fault in one.faults] for one in found], [[], []], number[:9])
        self.conf(self.text.replace('EDGE="/news"\n', ""))
        for number in ("9" * 400, "-1", "NaN", "+Inf", "1e999", "0x10", "1 2", "1." + "9" * 400, "$(reboot)"):
            found = self.look_beside(metrics().replace(b"hls_log_entries 1234", f"hls_log_entries {number}".encode()))
            self.assertEqual([(one.version, one.faults) for one in found], [(0, []), (1234, [])], number[:9])
        for name in ("hls_list_still_seconds", "process_virtual_memory_bytes", "hls_rendition_end_seconds"):
            found = self.look_beside(re.sub(rf"^({name}\S*) .*$".encode(), rb"\1 " + b"9" * 400, metrics(), flags=re.M))
            self.assertEqual([one.faults for one in found], [[], []], name)

    def look_beside(self, body, text=LIST.format(first=100)):
        """Returns the health of this channel, with these metrics and a list, and that of another one, which is well."""
        well = self.write("well.conf", f'ADDRESS="127.0.0.1:{self.port}"\nRENDITIONS="v:video:3000000:0"\n')
        self.edge["/news/hls/0.m3u8"] = (200, text.encode())
        false = self.serve({"/metrics": (200, body), "/hls/0.m3u8": (200, text.encode())})
        path = self.write("false/news.conf", self.text.replace(f"127.0.0.1:{self.port}", f"127.0.0.1:{false}"))
        with unittest.mock.patch.object(health, "find_site", lambda: self.site), unittest.mock.patch.object(health, "read_units", lambda names: self.units), \
             unittest.mock.patch.object(edge, "read_channels", lambda path: ("news",)):
            return health.look([path, well])

    def test_slow_answer(self):
        """An origin that never ends its answer has no more than the time of a request."""
        for fields in (b"Content-Length: 9999\r\n", b"Connection: close\r\n", b"Connection: close\r\nContent-Length: 9999\r\n"):
            with self.subTest(fields), socket.create_server(("127.0.0.1", 0)) as listener, unittest.mock.patch.object(health, "TIMEOUT", 0.5):
                threading.Thread(target=trickle, args=(listener, fields), daemon=True).start()
                begun = time.monotonic()
                self.assertIsNone(health.ask_metrics(f"127.0.0.1:{listener.getsockname()[1]}"))
                self.assertLess(time.monotonic() - begun, 2)

    def test_table(self):
        well = self.look()
        self.units["nginx"] = {"ActiveState": "inactive"}
        ill = self.look()
        text = health_table.rows([well, ill])
        self.assertIn("Type: systemctl start nginx", text[1])
        self.assertRegex(text[2], "^news +2 s +0 s +shown +none +12%$")
        screen = health_table.screen([well, ill], [], os.terminal_size((40, 4)))
        self.assertEqual(screen.count("\n"), 3)
        self.assertTrue(all(len(line) < 60 for line in screen.split("\n")))


class Units(Served):
    def test_read(self):
        self.stand_in("systemctl", "printf 'ActiveState=active\\nMainPID=7\\n\\nActiveState=inactive\\nStatusText=a=b\\n'")
        self.assertEqual(services.read_units(["a", "b"]), {"a": {"ActiveState": "active", "MainPID": "7"}, "b": {"ActiveState": "inactive", "StatusText": "a=b"}})
        self.assertEqual(services.read_units(["a", "b", "c"]), {})
        self.stand_in("systemctl", "echo 'System has not been booted' >&2; exit 1")
        self.assertEqual(services.read_units(["a", "b"]), {})

    def test_arguments(self):
        with open("/proc/self/cmdline", encoding="utf-8") as file:
            self.assertEqual(services.arguments_of(str(os.getpid())), file.read().split("\0")[:-1])
        for pid in ("", "0", "999999999"):
            self.assertEqual(services.arguments_of(pid), [])


class Machine(unittest.TestCase):
    def test_caches(self):
        with unittest.mock.patch.object(health, "CACHES", "/"), unittest.mock.patch.object(health, "MEMORY", 0):
            for room, count in ((1 << 20, 1), (1 << 30, 0)):
                with unittest.mock.patch.object(health, "room_of", lambda folder, room=room: (room, 0.5)):
                    self.assertEqual(len(list(health.machine_faults())), count)

    def test_memory(self):
        with unittest.mock.patch.object(health, "CACHES", "/nowhere"), unittest.mock.patch.object(health, "MEMORY", 2):
            self.assertEqual([one.kind for one in health.machine_faults()], ["memory"])


class Ports(Served):
    def test_other_program(self):
        """A port at which another program listens; at an origin's own a running channel is checked."""
        values = {"ADDRESS": "127.0.0.1:8080"}
        for there, name in (("127.0.0.1", "nginx"), ("0.0.0.0", "nginx"), ("*", "nginx")):
            self.stand_in("ss", f"""echo 'LISTEN 0 4096 {there}:8080 0.0.0.0:* users:(("{name}",pid=7,fd=8),("{name}",pid=9,fd=8))'""")
            with self.assertRaisesRegex(Failure, "ADDRESS: nginx listens at 127.0.0.1:8080"):
                channel_checks.check_address(values)
        for line in ("""LISTEN 0 4096 127.0.0.1:8080 0.0.0.0:* users:(("hls_origin",pid=7,fd=8))""", """LISTEN 0 4096 10.0.0.1:8080 0.0.0.0:* users:(("nginx",pid=7,fd=8))""", "LISTEN 0 4096 127.0.0.1:8080 0.0.0.0:*", ""):
            self.stand_in("ss", f"echo '{line}'")
            channel_checks.check_address(values)


class Sites(Served):
    def test_read(self):
        path = self.write("sites-enabled/hls_site.conf", SITE.format(host="edge.example.org", certificate="/etc/nginx/edge.crt"))
        site = sites.find_site(self.folder)
        self.assertEqual(site, sites.Site(path, "edge.example.org", ("127.0.0.1", 443), "/etc/nginx/edge.crt"))
        self.assertEqual([site.url(place) for place in ("/news", "/", "tv.example.org")], ["https://edge.example.org/news", "https://edge.example.org", "https://tv.example.org"])
        self.assertEqual(site._replace(address=("10.0.0.1", 8443)).url("/news"), "https://edge.example.org:8443/news")

    def test_other_sites(self):
        self.assertIsNone(sites.find_site(self.folder))
        self.write("sites-enabled/default", "server { listen 80; # include /usr/share/hls_origin/nginx/hls_server.conf;\n }")
        self.assertIsNone(sites.find_site(self.folder))
        self.write("conf.d/tv.conf", "server { listen 10.0.0.1:8080; server_name tv other; include /usr/share/hls_origin/nginx/hls_server.conf; }")
        self.assertEqual(sites.find_site(self.folder), sites.Site(os.path.join(self.folder, "conf.d", "tv.conf"), "tv", ("10.0.0.1", 8080), ""))

    def test_renamed(self):
        text = SITE.format(host="localhost", certificate="/etc/nginx/localhost.crt")
        changed = sites.renamed(text, "localhost", "edge.example.org")
        self.assertEqual(changed.count("server_name edge.example.org;"), 2)
        self.assertIn("/etc/nginx/localhost.crt", changed)
        self.assertIsNone(sites.renamed(text.replace("server_name localhost;  ", "server_name localhost tv;", 1), "localhost", "edge.example.org"))
        self.assertIsNone(sites.renamed("", "localhost", "edge.example.org"))

    def test_certificates(self):
        path = self.certificate("localhost")
        self.assertTrue(sites.is_self_signed(path, "localhost") and sites.covers(path, "localhost"))
        self.assertFalse(sites.is_self_signed(path, "other") or sites.covers(path, "other") or sites.covers(path + ".none", "other"))


class Changes(Served):
    """What a restart costs, by the program's comparison."""

    def setUp(self):
        super().setUp()
        self.journal = os.path.join(self.folder, "state", "news", "channel")
        self.write("state/news/channel/log", "")
        for name in ("STATE", "RUN"):
            self.use(unittest.mock.patch.object(changes, name, os.path.join(self.folder, name.lower())))
        self.write("program", f'''#!/bin/sh
echo "$*" >> {self.folder}/program.log
case "$*" in
    *--wrong* | *--base*none*) echo "serve: unrecognized option --wrong" >&2; exit 2 ;;
    *--base*) echo "JournalStale: its next segment is 7, and players have seen those below 9; 60 s would be lost"; exit 1 ;;
    *"--target 4"*) echo "continues 3600 s" ;;
    *) echo "JournalOther: target 4, not 5; 3600 s would be lost"; exit 1 ;;
esac
''', 0o755)
        self.use(unittest.mock.patch.object(changes, "PROGRAM", os.path.join(self.folder, "program")))
        self.stand_in("systemctl", "echo MainPID=0")

    def values(self, options):
        return {"OPTIONS": options, "ADDRESS": "127.0.0.1:8080", "RENDITIONS": "v:video:1000000:0"}

    def running(self, *options):
        """A process that was started with these options."""
        words = ["hls_origin", "serve", "--base", "/run/x", "--anew", *options, "127.0.0.1:8080", "v:video:1000000:0"]
        return unittest.mock.patch.object(changes, "arguments_of", lambda pid: words)

    def test_continues(self):
        values = self.values(f"--target 4 --journal {self.journal}")
        self.assertIsNone(changes.cost_of("news", values))
        self.assertEqual(changes.kept_seconds("news", values), 3600)
        self.assertEqual(self.read("program.log").split("\n")[0], f"journal --check --target 4 --journal {self.journal} 127.0.0.1:8080 v:video:1000000:0")

    def test_other_target(self):
        values = self.values(f"--target 5 --journal {self.journal}")
        said = "this begins an empty channel: 3600 s of recordings end (JournalOther: target 4, not 5); `hls_channel anew news` does that"
        self.assertEqual(changes.cost_of("news", values), said)
        self.assertIsNone(changes.kept_seconds("news", values))
        with self.running("--target", "4", "--journal", self.journal):
            self.assertEqual(changes.cost_of("news", values), said)

    def test_shorter_keep(self):
        """A zero is missing, or the option is taken out. Without a running process there is nothing to compare with."""
        values = self.values(f"--target 4 --keep 360000000 --journal {self.journal}")
        self.assertIsNone(changes.cost_of("news", values))
        with self.running("--target", "4", "--journal", self.journal):
            said = "--keep is 360 s instead of 3600 s: 3240 s of recordings end; `systemctl restart hls_origin@news` does that"
            self.assertEqual(changes.cost_of("news", values), said)
        with self.running("--target", "4", "--keep", "7200000000", "--journal", self.journal):
            self.assertIsNone(changes.cost_of("news", self.values(f"--target 4 --journal {self.journal}")))
            self.assertIn("1800 s of recordings end", changes.cost_of("news", self.values(f"--keep 1800000000 --target 4 --journal {self.journal}")))

    def test_no_journal(self):
        """The journal is taken out, or moved."""
        with self.running("--target", "4", "--journal", self.journal):
            self.assertEqual(changes.running_options("news"), ["--target", "4", "--journal", self.journal, "127.0.0.1:8080", "v:video:1000000:0"])
            self.assertIn(f"3600 s of recordings end (OPTIONS has no --journal {self.journal})", changes.cost_of("news", self.values("--target 4")))
            self.assertIn("OPTIONS has no --journal", changes.cost_of("news", self.values("--target 4 --journal /elsewhere")))
        with self.running("--target", "4"):
            self.assertIsNone(changes.cost_of("news", self.values("--target 5")))
        self.assertIn("3600 s of recordings end", changes.cost_of("news", self.values("--target 4")))
        self.assertIn("its recordings end", changes.cost_of("news", self.values("--wrong")))
        self.assertIsNone(changes.cost_of("other", self.values("--target 5")))

    def test_put_back(self):
        """A journal of before a time without one is behind what players have seen. A base of other renditions says nothing."""
        path = self.write("run/news.base", "")
        with self.running("--target", "4"):
            self.assertIn("60 s of recordings end (JournalStale: ", changes.cost_of("news", self.values(f"--target 4 --journal {self.journal}")))
        os.rename(path, self.write("run/none.base", ""))
        self.assertIsNone(changes.cost_of("none", self.values(f"--target 4 --journal {self.journal}")))

    def test_wrong(self):
        self.assertIsNone(changes.cost_of("news", self.values(f"--wrong --journal {self.journal}")))

    def test_no_answer(self):
        """A program that hangs, is killed or isn't there says nothing of the cost."""
        values = self.values(f"--target 4 --journal {self.journal}")
        for text, said in (("sleep 9", "wasn't read within 0.2 s"), ("kill -9 $$", "signal 9 ended"), (None, "can't be run")):
            path = os.path.join(self.folder, "program")
            if text:
                self.write("program", f"#!/bin/sh\n{text}\n", 0o755)
            else:
                os.remove(path)
            with unittest.mock.patch.object(changes, "PATIENCE", 0.2), self.assertRaisesRegex(Failure, f"{said}.* isn't known: nothing was changed"):
                changes.cost_of("news", values)

    def test_set_aside(self):
        for text in ("first", "second", "third"):
            self.write("state/news/channel/log", text)
            self.assertEqual(changes.set_aside(self.journal), self.journal + ".aside")
        self.assertEqual([self.read(f"state/news/{name}/log") for name in ("channel.aside", "channel.aside.1")], ["third", "second"])
        self.assertEqual(len(os.listdir(os.path.join(self.folder, "state", "news"))), 2)

    def test_links(self):
        """What a process left in its folder isn't followed."""
        self.write("etc/kept", "")
        for name in (".aside", ".aside.1"):
            os.symlink(os.path.join(self.folder, "etc"), self.journal + name)
        changes.set_aside(self.journal)
        self.assertEqual(os.listdir(os.path.join(self.folder, "etc")), ["kept"])
        os.symlink(os.path.join(self.folder, "etc"), self.journal)
        with self.assertRaisesRegex(Failure, "is a link"):
            journals.copy("/nowhere", self.journal)


@unittest.skipIf(os.geteuid(), "as root, which these are about")
class ForegroundUser(Served):
    """The user that `hls_channel serve` gives the origin, if it is root itself."""

    def user(self, name):
        with unittest.mock.patch.object(foreground, "STATE", os.path.join(self.folder, "state")):
            return foreground.Foreground(self.write(f"{name}.conf", "OPTIONS='--target 4'\n"), DEPLOY).owner

    def test_users(self):
        nobody = (foreground.NOBODY, foreground.NOBODY)
        self.assertEqual(self.user("made"), nobody)
        os.mkdir(os.path.join(self.folder, "state", "volume"))
        self.assertEqual(self.user("volume"), nobody)
        path = self.write("state/own/channel/log", "")
        os.chown(os.path.join(self.folder, "state", "own"), 1234, 5678)
        self.assertEqual(self.user("own"), (1234, 5678))
        self.write("state/file", "")
        self.assertEqual(self.user("file"), nobody)
        os.chown(os.path.join(self.folder, "state", "own"), 0, 0)
        with self.assertRaisesRegex(Failure, "is root's, and an origin doesn't run as root: type chown -R"):
            self.user("own")
        self.assertEqual(os.stat(path).st_uid, 0)


class Templates(Served):
    def test_example(self):
        source = os.path.join(DEPLOY, "hls_origin.conf")
        with unittest.mock.patch.object(templates, "is_free", lambda protocol, port: port != 8082):
            text, notes = templates.new_text(source, "sport", {"tcp 8080", "tcp 8081", "udp 9000"})
        self.assertEqual(notes, [])
        for line in ('ADDRESS="127.0.0.1:8083"', 'EDGE="/sport"', 'INPUT="srt://0.0.0.0:9001?mode=listener"'):
            self.assertIn(f"\n{line}\n", text)
        self.assertIn("--journal /var/lib/hls_origin/sport/channel", text)

    def test_like(self):
        path = self.write("news.conf", 'ADDRESS="127.0.0.1:8078"\nRENDITIONS="v:video:1000000:0"\nINPUT="/srv/news.ts"\nSTANDBY="10.0.0.2:8080"\nORIGINS="http://10.0.0.1:8080"\nEDGE="tv.example.org"\n')
        with unittest.mock.patch.object(templates, "is_free", lambda *_: True):
            text, notes = templates.new_text(path, "sport", templates.taken_ports([path]))
        self.assertEqual(text, 'ADDRESS="127.0.0.1:8080"\nRENDITIONS="v:video:1000000:0"\nINPUT="/srv/news.ts"\n#STANDBY="10.0.0.2:8080"\n#ORIGINS="http://10.0.0.1:8080"\nEDGE="/sport"\n')
        self.assertEqual(len(notes), 3)

    def test_free(self):
        port = self.serve({})
        self.assertFalse(templates.is_free("tcp", port))
        self.assertNotEqual(templates.free_port(port, "tcp", set()), port)


class Tool(Served):
    """hls_channel itself, with a folder of its own."""

    def setUp(self):
        super().setUp()
        self.tool = load_script(os.path.join(DEPLOY, "hls_channel"))
        self.conf, self.nginx = (os.path.join(self.folder, name) for name in ("conf", "nginx"))
        for one in (self.conf, os.path.join(self.nginx, "sites-enabled"), os.path.join(self.nginx, "hls_origin")):
            os.makedirs(one)
        limits = self.write("nginx/limits", "")
        for name, value in (("FOLDER", self.conf), ("DROP_INS", os.path.join(self.folder, "units")), ("NGINX", self.nginx), ("LIMITS", limits), ("PROMETHEUS", "/nowhere"), ("TEXT_FILES", "/nowhere"),
                            ("SITE", os.path.join(self.nginx, "sites-enabled", "hls_site.conf")), ("faults_of", lambda *_, **__: []), ("memory_warning", lambda *_: "all may need 9 MiB"),
                            ("need_of", lambda values: ("1M", "1M"))):
            self.use(unittest.mock.patch.object(self.tool, name, value))
        self.use(unittest.mock.patch.object(edge, "FOLDER", os.path.join(self.nginx, "hls_origin")))
        self.use(unittest.mock.patch.object(edge, "LOCK", os.path.join(self.folder, "lock")))
        self.use(unittest.mock.patch.object(changes, "STATE", os.path.join(self.folder, "state")))
        self.write("nginx/hls_origin/channels", "# remark\nold /old 10.0.0.1:8080\n")
        self.stand_in("systemctl", '[ "$1" != is-active ]')
        self.stand_in("nginx", "")

    def channels(self, *names):
        for at, name in enumerate(names):
            self.write(f"conf/{name}.conf", f'ADDRESS="127.0.0.1:{8080 + at}"\nRENDITIONS="v:video:1000000:0"\nEDGE="/{name}"\n')

    def printed(self, work):
        """Returns what a call prints, and its failure."""
        out, fault = io.StringIO(), None
        with contextlib.redirect_stdout(out), contextlib.redirect_stderr(out):
            try:
                work()
            except Failure as found:
                fault = found
        return out.getvalue(), fault

    def test_add_many(self):
        names = ["a", "b", "c"]
        self.channels(*names)
        text, fault = self.printed(lambda: self.tool.add(names))
        self.assertIsNone(fault)
        self.assertEqual(text.count("may need"), 1)
        self.assertEqual(self.read("nginx/hls_origin/channels"), "# remark\nold /old 10.0.0.1:8080\na /a 127.0.0.1:8080\nb /b 127.0.0.1:8081\nc /c 127.0.0.1:8082\n")
        self.assertEqual(self.read("nginx.log").split("\n"), ["-t", "-s reload", ""])
        self.assertIn("enable --now hls_origin@a hls_origin@b hls_origin@c\n", self.read("systemctl.log"))
        self.printed(lambda: self.tool.add(names))
        self.assertEqual(self.read("nginx.log").split("\n"), ["-t", "-s reload", ""])

    def test_rejected(self):
        self.channels("a")
        self.stand_in("nginx", "echo no >&2; exit 1")
        _, fault = self.printed(lambda: self.tool.add(["a"]))
        self.assertIn("the edge: ", str(fault))
        self.assertEqual(self.read("nginx/hls_origin/channels"), "# remark\nold /old 10.0.0.1:8080\n")

    def test_costs(self):
        self.channels("a", "b")
        with unittest.mock.patch.object(changes, "cost_of", lambda name, values: "this begins an empty channel" if name == "a" else None):
            text, fault = self.printed(lambda: self.tool.check(["a", "b"]))
            self.assertEqual((fault.status, str(fault)), (1, "1 channel would lose recordings: nothing was changed"))
            self.assertIn("a.conf: this begins an empty channel\n", text)
            _, fault = self.printed(lambda: self.tool.add(["a", "b"]))
        self.assertEqual(fault.status, 1)
        self.assertFalse(os.path.exists(os.path.join(self.folder, "nginx", "hls_origin", "generated.conf")))

    def test_status(self):
        self.channels("a", "b")
        found = [health.Health("a", address="127.0.0.1:8080", version=1, still=2.0), health.Health("b", faults=[health.Fault("edge", "nginx isn't running", "systemctl start nginx")])]
        with unittest.mock.patch.object(health, "look", lambda paths: found), unittest.mock.patch.object(health, "machine_faults", lambda: []):
            text, fault = self.printed(lambda: self.tool.status([], False))
            self.assertEqual(text, "a: origin at 127.0.0.1:8080, version 1; lists 2 s old; no journal\nb: nginx isn't running. Type: systemctl start nginx\n")
            self.assertEqual((fault.status, str(fault)), (1, "1 channel of 2 has a fault"))
            text, _ = self.printed(lambda: self.tool.status([], True))
            self.assertEqual(json.loads(text)["channels"][1]["faults"], [{"kind": "edge", "text": "nginx isn't running", "command": "systemctl start nginx"}])

    def test_new(self):
        self.channels("news")
        text, fault = self.printed(lambda: self.tool.new(["sport"], "news"))
        self.assertIsNone(fault)
        self.assertIn("hls_channel add sport", text)
        self.assertIn('EDGE="/sport"', self.read("conf/sport.conf"))
        for words in (["sport"], ["News"], [], ["a", "b"]):
            _, fault = self.printed(lambda: self.tool.new(words, "news"))
            self.assertEqual(fault.status, 2)

    def test_rename(self):
        self.write("nginx/edge.crt", "")
        os.replace(self.certificate("localhost"), os.path.join(self.nginx, "edge.crt"))
        self.write("nginx/edge.key", "old")
        path = os.path.join(self.nginx, "edge.crt")
        before = SITE.format(host="localhost", certificate=path)
        self.write("nginx/sites-enabled/hls_site.conf", before)
        rename = lambda: self.tool.rename_site(sites.read_site(self.tool.SITE), "edge.example.org")  # noqa: E731
        self.stand_in("nginx", "echo no >&2; exit 1")
        _, fault = self.printed(rename)
        self.assertIn("nothing was changed", str(fault))
        self.assertEqual((self.read("nginx/sites-enabled/hls_site.conf"), self.read("nginx/edge.key")), (before, "old"))
        self.stand_in("nginx", "")
        _, fault = self.printed(rename)
        self.assertIsNone(fault)
        self.assertEqual(sites.read_site(self.tool.SITE).host, "edge.example.org")
        self.assertTrue(sites.is_self_signed(path, "edge.example.org"))
        # a certificate of the site's own, for another name
        self.write("nginx/sites-enabled/hls_site.conf", SITE.format(host="localhost", certificate=self.certificate("tv")))
        _, fault = self.printed(rename)
        self.assertIn("is no certificate for edge.example.org", str(fault))


if __name__ == "__main__":
    unittest.main()
