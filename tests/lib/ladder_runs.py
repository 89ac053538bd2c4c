"""A ladder between a sender and an origin: `deploy/hls_ingest` with its processes, and what is looked at in the channel."""
import datetime
import os
import re
import subprocess
import time
from fractions import Fraction
import av_sync
from harness import ROOT, ask, check, free_port
from origins import wait_for


INGEST = os.path.join(ROOT, "deploy", "hls_ingest")
RATES = {"25": ("25", 48, 3840000, 4), "29.97": ("30000/1001", 60, 4004000, 5), "50": ("50", 96, 3840000, 4)}
WHITE = 5       # seconds: the sender's picture is white, and its sound a tone, in the first second of each five or so by the clock


def period(rate):
    """Returns about five seconds: a whole number of pictures, so that a tone can begin with a picture."""
    return Fraction(round(WHITE * Fraction(rate))) / Fraction(rate)


def flash_and_beep(rate, ahead=0, more=""):
    """Returns ffmpeg's inputs: a picture that is white and two tones in the first second of each period, beginning `ahead` seconds into one."""
    ahead = Fraction(round(ahead * Fraction(rate))) / Fraction(rate)
    into = f"mod(t+{float(ahead + Fraction(1, 100000)):.9f},{float(period(rate)):.9f})"
    inputs = [f"color=c=black:s=320x180:r={rate}{more},drawbox=c=white:t=fill:enable='lt({into},1)'"]
    inputs += [f"aevalsrc='if(lt({into},1),0.5*sin(2*PI*{hertz}*({into}+0.0003)),0)':s=48000{more}" for hertz in (880, 1320)]
    return [word for one in inputs for word in ("-f", "lavfi", "-i", one)]


def metrics(port):
    """Returns the metrics of an origin by their names, with the number of a rendition where they have one. The housekeeper measures once a second."""
    for _ in range(2):
        ask(port, "GET", "/metrics")
        time.sleep(1.2)
    text = ask(port, "GET", "/metrics")[1].decode()
    rows = re.findall(r'^(\w+)(?:\{rendition="(\d+)"[^}]*\})? ([0-9e-]+)$', text, re.M)
    return {f"{name} {number}".strip(): float(value) for name, number, value in rows}


class Sender:
    """ffmpeg as whoever sends to the ingest, begun again as long as it is wanted."""

    def __init__(self, kind, rate, port):
        coded = ["-c:v", "libx264", "-preset", "ultrafast", "-tune", "zerolatency", "-g", "25", "-pix_fmt", "yuv420p", "-c:a", "aac"]
        out = {"srt": ["-map", "2", "-f", "mpegts", f"srt://127.0.0.1:{port}?mode=caller&pkt_size=1316"],
               "ts": ["-map", "2", "-f", "mpegts", f"udp://127.0.0.1:{port}?pkt_size=1316"],
               "rtmp": ["-f", "flv", f"rtmp://127.0.0.1:{port}/live/key"]}[kind]
        self.kind, self.rate, self.port = kind, rate, int(port)
        self.words = ["nice", "-n", "3", "ffmpeg", "-v", "error", "-nostdin", "-re", "INPUTS", "-map", "0", "-map", "1", *coded, *out]
        self.process = None

    def keep(self):
        """Starts it where it isn't running. An SRT caller waits until the ingest listens, so it would begin later than it was told."""
        if self.is_awaited() and (not self.process or self.process.poll() is not None):
            at = self.words.index("INPUTS") if "INPUTS" in self.words else None
            words = self.words if at is None else [*self.words[:at], *flash_and_beep(self.rate, time.time() % period(self.rate)), *self.words[at + 1:]]
            self.process = subprocess.Popen(words, stdin=subprocess.DEVNULL, stderr=subprocess.DEVNULL)

    def is_awaited(self):
        with open("/proc/net/udp") as file:
            return self.kind != "srt" or any(line.split()[1].endswith(f":{self.port:04X}") for line in file.readlines()[1:])

    def stop(self):
        if self.process:
            self.process.kill()
            self.process.wait()


class Ladder:
    """An origin, the ingest in front of it, and its input."""

    def __init__(self, program, kind, rate, folder, environment={}, **more):
        """More: words of the channel's file that differ, or what gives one of a ladder."""
        self.folder, self.kind, self.program = folder, kind, program
        self.rate, self.group, self.preferred, target = RATES[rate]
        self.port, port = free_port(), free_port()
        options, place = {"srt": ("", f"srt://127.0.0.1:{port}?mode=listener"), "ts": ("", f"udp://127.0.0.1:{port}"),
                          "rtmp": ("-listen 1", f"rtmp://127.0.0.1:{port}/live/key"), "file": ("-re -stream_loop -1", self.file())}[kind]
        self.conf = os.path.join(folder, "channel.conf")
        self.words = {"OPTIONS": f"--workers 16 --target {target} --preferred {self.preferred} --window 60000000 --epoch 1970-01-01T00:00:00Z",
                      "ADDRESS": f"127.0.0.1:{self.port}", "SIZES": "320x180 256x144 192x108", "RATE": self.rate, "GROUP": self.group,
                      "RENDITIONS": "v180:video:400000:0 v144:video:250000:0 v108:video:150000:0 en:audio:96000:22000 fr:audio:96000:22000",
                      "INPUT": place, "INPUT_OPTIONS": options}
        self.words.update({key: value if isinstance(value, str) else value(self) for key, value in more.items()})
        with open(self.conf, "w") as file:
            file.writelines(f'{key}="{value}"\n' for key, value in self.words.items())
        self.log = os.path.join(folder, "ingest.log")
        self.sender = None if kind == "file" else Sender(kind, self.rate, port)
        self.start_origin()
        self.ingest = subprocess.Popen([INGEST, self.conf], stderr=open(self.log, "w"), stdin=subprocess.DEVNULL, env={**os.environ, **environment})

    def file(self):
        path = os.path.join(self.folder, "clip.mp4")
        subprocess.run(["nice", "ffmpeg", "-v", "error", "-y", *flash_and_beep(self.rate, more=f":d={20 * float(period(self.rate))}"), "-map", "0", "-map", "1", "-map", "2",
                        "-c:v", "libx264", "-preset", "ultrafast", "-pix_fmt", "yuv420p", path], check=True)
        return path

    def start_origin(self):
        self.origin = subprocess.Popen([self.program, "serve", *self.words["OPTIONS"].split(), self.words["ADDRESS"], *self.words["RENDITIONS"].split()],
                                       stderr=open(os.path.join(self.folder, "origin.log"), "a"), stdin=subprocess.DEVNULL)
        wait_for(self.port)

    def lines(self):
        with open(self.log) as file:
            return file.read()

    def child(self, word):
        """The ingest's ffmpeg whose command has a word."""
        with open(f"/proc/{self.ingest.pid}/task/{self.ingest.pid}/children") as file:
            for child in file.read().split():
                with open(f"/proc/{child}/cmdline") as command:
                    if word in command.read().split("\0"):
                        return int(child)
        raise SystemExit(f"the ingest runs no {word}")

    def wait(self, seconds, enough):
        """Goes on, with the sender kept running, until it is enough; how long that took, or None."""
        begun = time.monotonic()
        while time.monotonic() - begun < seconds:
            if self.sender:
                self.sender.keep()
            if enough():
                return time.monotonic() - begun
            time.sleep(0.2)
        return None

    def segments(self, rendition=0):
        """Date, length, mark and bytes of each listed segment."""
        status, text = ask(self.port, "GET", f"/live/{rendition}.m3u8")
        if status != 200:
            return []
        form = (r"(#EXT-X-DISCONTINUITY\n)?#EXT-X-PROGRAM-DATE-TIME:(\S+)Z\n#EXTINF:([0-9.]+),\n#EXT-X-BYTERANGE:(\d+)@(\d+)")
        return [(datetime.datetime.fromisoformat(date + "+00:00").timestamp(), float(length), bool(mark), (int(at), int(at) + int(size) - 1))
                for mark, date, length, size, at in re.findall(form, text.decode())]

    def last_end(self):
        found = self.segments()
        return found[-1][0] + found[-1][1] if found else 0

    def until(self, instant, seconds=60):
        """Waits until the lists reach an instant."""
        return self.wait(seconds, lambda: self.last_end() >= instant)

    def media(self, segments, rendition):
        """Writes segments' media to a file and returns its path."""
        name = f"/media/{rendition}.mp4"
        size = int(re.search(rb'BYTERANGE="(\d+)@0"', ask(self.port, "GET", f"/live/{rendition}.m3u8")[1])[1])
        path = os.path.join(self.folder, f"media{rendition}.mp4")
        with open(path, "wb") as file:
            for first, last in [(0, size - 1), *(one[3] for one in segments)]:
                file.write(ask(self.port, "GET", name, headers={"Range": f"bytes={first}-{last}"})[1])
        return path

    def white(self, segments):
        """Returns the instants, by the encoders' clock, at which the picture turns white."""
        return av_sync.flashes(av_sync.pictures(self.media(segments, 0))) if segments else []

    def tones(self, segments, rendition):
        """Returns the instants at which an audio rendition's tone begins."""
        return av_sync.beeps(av_sync.sounds(self.media(segments, rendition))) if segments else []

    def stop(self):
        if self.sender:
            self.sender.stop()
        for process in (self.ingest, self.origin):
            process.terminate()
            process.wait()


def looked_at(name, ladder, marks, since=0.0, flashes=True):
    """What must hold of the lists at any time."""
    found = ladder.segments()
    length = ladder.preferred / 1000000
    check(f"{name}: there are segments", len(found) >= 3, found)
    # a hole ends the segment before it
    whole = [one for one, after in zip(found, found[1:]) if not after[2]] + found[-1:]
    check(f"{name}: of one length", all(one[1] == length for one in whole), [one[1] for one in found])
    check(f"{name}: {marks} marks", sum(one[2] for one in found) == marks, found)
    holes = [after for before, after in zip(found, found[1:]) if not after[2] and abs(after[0] - before[0] - before[1]) > 0.0015]
    check(f"{name}: dates go on by the lengths", not holes, holes)
    behind = time.time() - ladder.last_end()
    check(f"{name}: and reach the present", 0 < behind < 3 * length + 4, behind)
    for rendition in range(1, 5):
        other = {round(one[0], 3): one[1] for one in ladder.segments(rendition)}
        check(f"{name}: rendition {rendition} goes with it", all(any(abs(date - one[0]) < 0.023 for date in other) for one in found[:-1]), (found, other))
    measured = metrics(ladder.port)
    check(f"{name}: each sync sample is a place", measured["hls_sync_samples"] > 0 and measured["hls_sync_samples_unplaced"] == 0, measured)
    if not flashes:
        return found
    shown = [one for one in found if one[0] >= since]
    av_sync.in_step(name, ladder.media(shown, 0), ladder.media([one for one in ladder.segments(3) if one[0] >= since], 3))
    first = [av_sync.pictures(ladder.media([one], 0))[0][0] - one[0] for one in shown[:2]]
    check(f"{name}: a segment's date is that of its first picture", first and max(map(abs, first)) < 0.0015, first)
    if ladder.sender:
        late = [instant % float(period(ladder.rate)) for instant in ladder.white(shown)]
        check(f"{name}: pictures are dated by the clock", late and all(0.2 < one < 4 for one in late), late)
        print(f"   {name}: white pictures are dated {', '.join(f'{one:.2f}' for one in late)} s after the sender made them")
    return found
