"""Faults for the tools of programmes: false origins, origins that hang, signals at each step, and odd folders.

Not a script: tests/edge/programmes imports it.
"""
import os
import shutil
import signal
import subprocess
import threading
import time

import harness
from harness import check
from origins import Origin
from programme_tools import DEPLOY, SPECS, WORDS, False_, background, run, url

CERTIFICATE = """HLS-CUT-CERTIFICATE 1
target 6
preferred 4000000
renditions 1
places 2
0 0 0 0 0
2 4000000 4000000 0 0
cut 0
plan 0 1
price 0 0
price 1 0
end
"""
ADDRESS = "/hls/programme/0/4000000/"


def box(kind, content):
    return (len(content) + 8).to_bytes(4, "big") + kind + content


INIT, UNITS = box(b"ftyp", bytes(12)) + box(b"moov", bytes(500)), (box(b"moof", bytes(80)) + box(b"mdat", bytes(400))) * 2
SEGMENT = f"{len(INIT)}-{len(INIT) + len(UNITS) - 1}.m4s"
LIST = '#EXTM3U\n#EXT-X-VERSION:6\n#EXT-X-TARGETDURATION:6\n#EXT-X-MEDIA-SEQUENCE:0\n#EXT-X-DISCONTINUITY-SEQUENCE:0\n#EXT-X-PLAYLIST-TYPE:VOD\n' \
       '#EXT-X-MAP:URI="../../../Run1/0/init.mp4"\n#EXTINF:4.000000,\n../../../Run1/0/' + SEGMENT + '\n#EXT-X-ENDLIST\n'
MASTER = "#EXTM3U\n#EXT-X-VERSION:6\n#EXT-X-STREAM-INF:BANDWIDTH=1000\n0.m3u8\n"
MEDIA = "/hls/Run1/0/" + SEGMENT


HONEST = {ADDRESS + "certificate.txt": (200, {}, CERTIFICATE.encode()), ADDRESS + "master.m3u8": (200, {}, MASTER.encode()), ADDRESS + "0.m3u8": (200, {}, LIST.encode()),
          "/hls/Run1/0/init.mp4": (200, {}, INIT), MEDIA: (200, {}, UNITS)}


def strangers(_, folder):
    """A tool that is pointed at something else writes nothing, and ends by itself."""
    def text(name, body):
        return {ADDRESS + name: (200, {}, body.encode())}
    lies = {
        "nothing": ({}, 0),
        "a longer file": ({MEDIA: (200, {}, UNITS + b"x")}, 1),
        "a shorter file": ({MEDIA: (200, {}, UNITS[:-1])}, 1),
        "half of the units": ({MEDIA: (200, {}, UNITS[:len(UNITS) // 2])}, 1),
        "other bytes of the same length": ({MEDIA: (200, {}, bytes(len(UNITS)))}, 1),
        "a range": ({MEDIA: (206, {"Content-Range": f"bytes 0-{len(UNITS) - 1}/{len(UNITS)}"}, UNITS)}, 1),
        "a segment of petabytes": (text("0.m3u8", LIST.replace(SEGMENT, f"{len(INIT)}-999999999999999.m4s")), 1),
        "a list with another rendition's segment, too": (text("0.m3u8", LIST.replace("#EXT-X-ENDLIST", "#EXTINF:4.000000,\n../../../Run1/1/1520-1600.m4s\n#EXT-X-ENDLIST")), 1),
        "a list with a key": (text("0.m3u8", LIST.replace("#EXTINF", '#EXT-X-KEY:METHOD=AES-128,URI="http://192.0.2.1/key"\n#EXTINF')), 1),
        "media that were trimmed meanwhile": ({MEDIA: (410, {}, b"refused Gone\n")}, 3),
        "an endless file": ({MEDIA: (200, {}, None)}, 1),
        "an init section that is none": ({"/hls/Run1/0/init.mp4": (200, {}, UNITS)}, 1),
        "an endless list": ({ADDRESS + "0.m3u8": (200, {}, None)}, 1),
        "an endless certificate": ({ADDRESS + "certificate.txt": (200, {}, None)}, 1),
        "a list that names a path": (text("0.m3u8", LIST.replace("../../../Run1/0/" + SEGMENT, "../../../../" + SEGMENT)), 1),
        "a list that names a URL": (text("0.m3u8", LIST.replace("../../../Run1/0/" + SEGMENT, "http://192.0.2.1/" + SEGMENT)), 1),
        "a list that names another rendition": (text("0.m3u8", LIST.replace("/0/" + SEGMENT, "/1/" + SEGMENT)), 1),
        "a list with the media of another run": (text("0.m3u8", LIST.replace("Run1/0/" + SEGMENT, "Run2/0/" + SEGMENT)), 1),
        "a list with one byte less": (text("0.m3u8", LIST.replace("-1519.", "-1518.")) | {MEDIA.replace("-1519.", "-1518."): (200, {}, UNITS)}, 1),
        "a list that isn't ended": (text("0.m3u8", LIST.replace("#EXT-X-ENDLIST\n", "")), 1),
        "another length than the plan's": (text("0.m3u8", LIST.replace("4.000000", "4.000001")), 1),
        "a master that names a path": (text("master.m3u8", MASTER.replace("0.m3u8", "../0.m3u8")), 1),
        "a master of forty lists": (text("master.m3u8", MASTER + "".join(f"{n}.m3u8\n" for n in range(1, 40))), 1),
        "a certificate that claims more": (text("certificate.txt", CERTIFICATE.replace("4000000 4000000", "5000000 5000000")), 1),
        "a certificate that is none": (text("certificate.txt", "none\n"), 1),
        "bytes that are no text": ({ADDRESS + "0.m3u8": (200, {}, b"\xff\xfe" * 50)}, 1),
        "a refusal with control characters": ({ADDRESS + "certificate.txt": (404, {}, b"refused \x1b[2J\n")}, 1),
        "a refusal of another name": ({ADDRESS + "certificate.txt": (404, {}, b"refused Nothing\n")}, 3),
        "an edge that wants fewer requests": ({ADDRESS + "0.m3u8": by_turns((429, {}, b""), (503, {"Retry-After": "1"}, b"refused Busy\n"), HONEST[ADDRESS + "0.m3u8"])}, 0),
        "an edge that has lost its origin for a moment": ({ADDRESS + "0.m3u8": by_turns((502, {}, b""), (504, {}, b""), HONEST[ADDRESS + "0.m3u8"])}, 0),
    }
    for number, (name, (changed, wanted)) in enumerate(lies.items()):
        false, spool = False_({**HONEST, **changed}), os.path.join(folder, f"false{number}")
        os.mkdir(spool)
        begun = time.time()
        status, out, err = run("hls_programme", url(false.port), "--from", 0, "--to", 4000000, "-o", os.path.join(spool, "show"))
        left = os.listdir(spool)
        check(f"{name}: status {wanted}", status == wanted and (left == ["show"] if wanted == 0 else left == []), (status, out, err, left))
        check(f"{name}: in time, in a clean line", time.time() - begun < 20 and "\x1b" not in err and "Traceback" not in err and len(err) < 2000, (time.time() - begun, err))
        check(f"{name}: it only reads", all(one.startswith("GET /hls/") for one in false.asked), false.asked)
        false.server.shutdown()
    false = False_(HONEST)
    for words in (["--from", "../..", "--to", "1"], ["--from", "0", "--to", "1?x=1"], ["--from", "1 HTTP/1.1\r\nX: y", "--to", "2"]):
        status, _, err = run("hls_programme", url(false.port), *words, "-o", os.path.join(folder, "none"))
        check(f"{words[1]!r} is no time", status == 3 and "Traceback" not in err and all("programme/0/4000000" in one or "/hls/Run1/" in one for one in false.asked), (status, err, false.asked))
    status, _, err = run("hls_programme", url(harness.free_port()), "--from", 0, "--to", 1, "-o", os.path.join(folder, "none"))
    check("nobody there is 1", status == 1 and "Traceback" not in err, err)


def by_turns(*replies):
    """A reply that is another each time, and then the last."""
    left = list(replies)

    def reply(headers):
        status, fields, body = left.pop(0) if len(left) > 1 else left[0]
        return body(headers) if callable(body) else (status, fields, body)
    return 200, {}, reply


# Signals

def hangs(_):
    time.sleep(60)
    return 200, {}, b""


STEPS = {"the certificate is fetched": ADDRESS + "certificate.txt", "the master is fetched": ADDRESS + "master.m3u8", "a list is fetched": ADDRESS + "0.m3u8", "media are fetched": MEDIA}


def signals(_, folder):
    """^C, once and again and again, at each step, while the origin hangs there: the tool ends in time, and nothing is left."""
    threads = [threading.Thread(target=leave_at, args=(step, path, number, os.path.join(folder, f"{at}-{int(number)}")))
               for at, (step, path) in enumerate(STEPS.items()) for number in (signal.SIGINT, signal.SIGTERM)]
    for thread in threads:
        thread.start()
    for thread in threads:
        thread.join()
    joining(folder)


def reached(false, path):
    """Waits until an origin was asked for a path."""
    for _ in range(400):
        if f"GET {path}" in false.asked:
            return True
        time.sleep(0.05)
    return False


def asks(false):
    """Waits until an origin was asked for anything."""
    for _ in range(400):
        if false.asked:
            return True
        time.sleep(0.05)
    return False


def leave_at(step, path, number, spool):
    os.mkdir(spool)
    false = False_({**HONEST, path: (200, {}, hangs)})
    tool = background("hls_programme", url(false.port), "--from", 0, "--to", 4000000, "-o", os.path.join(spool, "show"))
    there, begun = reached(false, path), time.time()
    time.sleep(0.2)
    while tool.poll() is None and time.time() - begun < 5:
        # an impatient hand
        tool.send_signal(number)
        time.sleep(0.05)
    said = tool.communicate(timeout=60)[1].decode()
    took = time.time() - begun
    check(f"signal {int(number)} while {step}: ends in time", there and took < 5 and tool.returncode == 128 + number, (took, tool.returncode, said))
    check(f"signal {int(number)} while {step}: nothing is left, and no traceback is shown", os.listdir(spool) == [] and "Traceback" not in said, (os.listdir(spool), said))
    false.server.shutdown()


def joining(folder):
    """Where ffmpeg hangs, ^C ends it too."""
    spool, tools = os.path.join(folder, "joining"), os.path.join(folder, "tools")
    os.mkdir(spool)
    os.mkdir(tools)
    with open(os.path.join(tools, "ffmpeg"), "w", encoding="ascii") as file:
        file.write(f"#!/bin/sh\necho $$ > {tools}/pid\nexec sleep 60\n")
    os.chmod(os.path.join(tools, "ffmpeg"), 0o755)
    false = False_(HONEST)
    tool = harness.run(os.path.join(DEPLOY, "hls_programme"), url(false.port), "--from", "0", "--to", "4000000", "--mp4", os.path.join(spool, "one.mp4"), stdin=subprocess.DEVNULL,
                        env={**os.environ, "PATH": f"{tools}:{os.environ['PATH']}"}, stdout=subprocess.DEVNULL, stderr=subprocess.PIPE)
    for _ in range(200):
        if os.path.exists(os.path.join(tools, "pid")) and open(os.path.join(tools, "pid")).read():
            break
        time.sleep(0.05)
    tool.send_signal(signal.SIGINT)
    status = tool.wait(10)
    pid = open(os.path.join(tools, "pid")).read().strip()
    check("^C while ffmpeg hangs", status == 130 and os.listdir(spool) == [] and not os.path.exists(f"/proc/{pid}"), (status, false.asked, os.listdir(spool)))


# Folders

def odd_folders(clip, folder):
    """Archives in folders of strange names, that hold strange things, that an editor works in, that are being removed."""
    origin = Origin(os.environ["HLS_ORIGIN"], folder, WORDS, SPECS, name="odd")
    clip.send(origin.port)
    for name in ("a b", "-x", "line\nbreak", "$(touch x)'\"", "\u00e9\u4e2d", "#EXTM3U", "a:b"):
        store = os.path.join(folder, name)
        status, _, err = run("hls_archive", url(origin.port), "--to", f"./{name}", "--length", 20, cwd=folder)
        pieces = sorted(one for one in os.listdir(store) if one.isdigit())
        played = subprocess.run(["ffprobe", "-v", "error", "-allowed_extensions", "ALL", "-show_entries", "format=duration", f"file:{store}/0.m3u8"], capture_output=True, text=True)
        # what ffprobe makes of a colon and a # in a file's name is its own
        check(f"an archive in {name!r}", status == 0 and len(pieces) > 2 and (played.returncode == 0 or name in ("a:b", "#EXTM3U")), (status, err, pieces, played.stderr))
    store = os.path.join(folder, "a b")
    whole = sorted(one for one in os.listdir(store) if one.isdigit())
    first, media = whole[0], os.path.join(store, ".programme-of-an-editor")
    os.mkdir(media)
    for odd, files in {"0000000000000001": {}, "0000000000000002": {"certificate.txt": "places 1\n"}, "0000000000000003": {"certificate.txt": "no certificate"},
                       "0000000000000004": {"certificate.txt": "places 2\n0 0 0 0 0\n2 4000000 4000000 0 0\n", "0.m3u8": "none"}, "\u0661" * 16: {}}.items():
        os.mkdir(os.path.join(store, odd))
        for name, text in files.items():
            with open(os.path.join(store, odd, name), "w", encoding="ascii") as file:
                file.write(text)
    with open(os.path.join(store, "9" * 16), "w", encoding="ascii") as file:
        file.write("a file")
    before = open(os.path.join(store, "0.m3u8")).read()
    status, _, err = run("hls_archive", url(origin.port), "--to", store, "--length", 20)
    check("what is no piece is told and left out", status == 0 and "Traceback" not in err and err.count("is left out") >= 5 and open(os.path.join(store, "0.m3u8")).read() == before, (status, err))
    check("what an editor makes there isn't touched", os.path.isdir(media) and os.path.isdir(os.path.join(store, "0000000000000001")), os.listdir(store))
    shutil.rmtree(os.path.join(store, first))
    status, _, err = run("hls_archive", url(origin.port), "--to", store, "--length", 20)
    check("lists are without a piece that was taken away", status == 0 and f"{first}/" not in open(os.path.join(store, "0.m3u8")).read(), (status, err))
    last = os.path.join(store, whole[-1])
    os.remove(os.path.join(last, "certificate.txt"))
    status, _, err = run("hls_archive", url(origin.port), "--to", store, "--length", 20)
    check("a last piece that is broken is in the way, in a line", status == 1 and "is in the way" in err and "Traceback" not in err, (status, err))
    with open(os.path.join(folder, "file"), "w", encoding="ascii") as file:
        file.write("x")
    for words, wanted in ((["--to", os.path.join(folder, "file")], 1), (["--to", os.path.join(folder, "file", "below")], 1), (["--to", "/proc/none"], 1), (["--to", store, "--length", "0"], 2),
                          (["--to", store, "--length", "-5"], 2)):
        status, _, err = run("hls_archive", url(origin.port), *words)
        check(f"{words[1:]} is {wanted}, in a line", status == wanted and "Traceback" not in err and len(err) < 1000, (status, err))
    archive_left(clip, folder)
    origin.stop()


def archive_left(clip, folder):
    """^C, again and again, while a piece is made by an origin that hangs; and an origin that is killed meanwhile."""
    store = os.path.join(folder, "left")
    false = False_(HONEST, lambda command, path: (200, {}, hangs) if path.endswith("certificate.txt") else (404, {}, b"refused NotFound\n"))
    tool = background("hls_archive", url(false.port), "--to", store)
    there = asks(false)
    for _ in range(10):
        tool.send_signal(signal.SIGINT)
        time.sleep(0.05)
    said = tool.communicate(timeout=30)[1].decode()
    check("^C at an archive leaves no traceback", there and tool.returncode == 130 and "Traceback" not in said, (tool.returncode, said, false.asked))
    check("and nothing else", os.listdir(store) in ([], [".lock"]), os.listdir(store))
    dies = Origin(os.environ["HLS_ORIGIN"], folder, WORDS, SPECS, name="dies")
    clip.send(dies.port)
    tool = background("hls_archive", url(dies.port), "--to", os.path.join(folder, "dies"), "--length", 20)
    for _ in range(400):
        if os.path.isdir(os.path.join(folder, "dies", ".spool")):
            break
        time.sleep(0.01)
    dies.kill()
    begun, said = time.time(), tool.communicate(timeout=60)[1].decode()
    check("an origin that dies meanwhile is 1, in time, in words", tool.returncode == 1 and "Traceback" not in said and time.time() - begun < 30, (tool.returncode, said, time.time() - begun))
