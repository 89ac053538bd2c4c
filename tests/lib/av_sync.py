"""When ffmpeg, GStreamer and Chromium present a flash and a beep of media files.

Not a script: tests/player/ladder and tests/edge/programmes import it. A file turns white and plays a tone at the start of each period of some
seconds, both at the same instant. The tests compare what a reader presents, never what was written.
"""
import array
import base64
import json
import os
import re
import subprocess
import tempfile

import browser
from harness import check

# the Debian packages of each command
NEEDED = {"ffmpeg": "ffmpeg", "chromium": "chromium", "gst-launch-1.0": " ".join(
    ["gstreamer1.0-tools", "gstreamer1.0-libav", *(f"gstreamer1.0-plugins-{kind}" for kind in ("base", "good", "bad"))])}
MOST = 0.025                # seconds between a flash and its beep at most
LOUD = 3000                 # of 32767: a tone's samples, not the ringing of a codec before it
TONE = 0.2                  # seconds of white, and of the tone


def source(rate, pictures, seconds, size="320x180"):
    """Returns ffmpeg's options for a picture and a sound: white and a tone begin with each group of `pictures` pictures."""
    period = f"({pictures}/({rate}))"
    shown = f"color=c=black:s={size}:r={rate}:d={seconds},drawbox=c=white:t=fill:enable='lt(mod(t+0.0001,{period}),{TONE})'"
    heard = f"aevalsrc='if(lt(mod(t+0.000001,{period}),{TONE}),0.5*sin(2*PI*1000*mod(t,{period})),0)':s=48000:d={seconds}"
    return ["-f", "lavfi", "-i", shown, "-f", "lavfi", "-i", heard]


def onsets(levels, least, quiet):
    """Returns the instants at which the level reaches `least` after more than `quiet` seconds below it. Levels are pairs of instant and level."""
    found, below = [], None
    for instant, level in levels:
        if level < least:
            below = instant if below is None else below
        else:
            if below is not None and instant - below > quiet:
                found.append(instant)
            below = None
    return found


def flashes(levels):
    return onsets(levels, 128, 0.5)


def beeps(samples):
    return onsets(samples, LOUD, 0.5)


# ffmpeg, and with it ffplay, mpv and yt-dlp

def printed(path, stream, *filters):
    """Returns what filters print of a stream, as pairs of instant and number."""
    done = subprocess.run(["nice", "ffmpeg", "-nostdin", "-v", "error", "-copyts", "-i", path, "-map", f"0:{stream}", *filters, "-f", "null", "-"],
                          capture_output=True, text=True, check=True)
    return [(int(microseconds) / 1e6, float(level)) for microseconds, level in re.findall(r"pts:(-?\d+) .*\n[a-z_.A-Z0-9]+=(\S+)", done.stdout)]


def pictures(path, stream="v:0"):
    return printed(path, stream, "-vf", "signalstats,settb=AVTB,metadata=mode=print:key=lavfi.signalstats.YAVG:file=-", "-vsync", "passthrough")


def sounds(path, stream="a:0"):
    found = printed(path, stream, "-af", "asetnsamples=n=48:p=0,astats=metadata=1:reset=1,asettb=AVTB,ametadata=mode=print:key=lavfi.astats.1.Max_level:file=-")
    return [(instant, level * 32767) for instant, level in found]


def by_ffmpeg(video, audio):
    """Returns the instants of flashes and beeps of two files."""
    return flashes(pictures(video)), beeps(sounds(audio))


# GStreamer

def seen(path, form, *elements):
    """Returns what GStreamer presents of a file, as pairs of instant and buffer."""
    with tempfile.TemporaryDirectory() as folder:
        raw = os.path.join(folder, "raw")
        words = ["nice", "gst-launch-1.0", "-v", "filesrc", f"location={os.path.abspath(path)}", "!", "qtdemux", "!", *elements, "!", form, "!",
                 "identity", "silent=false", "!", "filesink", f"location={raw}"]
        said = subprocess.run(words, capture_output=True, text=True, check=True).stdout
        found, at, shift = [], 0, 0
        with open(raw, "rb") as file:
            content = file.read()
        # an edit list is several segments, each with a time of its own
        for start, time, size, hours, minutes, seconds in re.findall(r"type: segment.*?start=\(guint64\)(\d+),.*?time=\(guint64\)(\d+)|"
                                                                     r"chain .*?\((\d+) bytes, .*?pts: (\d+):(\d+):([\d.]+)", said):
            if start:
                shift = int(time) - int(start)
                continue
            found.append((int(hours) * 3600 + int(minutes) * 60 + float(seconds) + shift / 1e9, content[at:at + int(size)]))
            at += int(size)
        return found


def by_gstreamer(video, audio):
    shown = seen(video, "video/x-raw,format=GRAY8,width=4,height=4", "h264parse", "!", "avdec_h264", "!", "videoconvert", "!", "videoscale")
    heard = seen(audio, "audio/x-raw,format=S16LE,channels=1,rate=48000", "aacparse", "!", "avdec_aac", "!", "audioconvert")
    samples = [(instant + at / 48000, max(map(abs, array.array("h", content[2 * at:2 * at + 96])), default=0))
               for instant, content in heard for at in range(0, len(content) // 2, 48)]
    return flashes([(instant, max(content)) for instant, content in shown]), beeps(samples)


# Chromium

PAGE = """<!doctype html><script>
async function starts(kind, text) {
    const source = new MediaSource(), video = document.createElement("video");
    video.src = URL.createObjectURL(source);
    await new Promise((done) => { source.onsourceopen = done; });
    const buffer = source.addSourceBuffer(kind);
    buffer.appendBuffer(Uint8Array.from(atob(text), (one) => one.charCodeAt(0)));
    await new Promise((done, failed) => { buffer.onupdateend = done; buffer.onerror = () => failed(new Error("append")); });
    return buffer.buffered.start(0);
}
</script>"""


def by_chromium(video, audio):
    """Returns flashes and beeps by where a SourceBuffer puts each file's first sample; ffmpeg decodes how long after it they come."""
    one = browser.Browser()
    try:
        page = browser.Page(one, "data:text/html;base64," + base64.b64encode(PAGE.encode()).decode())
        begins = []
        for path, kind in ((video, 'video/mp4; codecs="avc1.64000d"'), (audio, 'audio/mp4; codecs="mp4a.40.2"')):
            with open(path, "rb") as file:
                text = base64.b64encode(file.read()).decode()
            begins.append(page.run(f"starts({json.dumps(kind)}, {json.dumps(text)})"))
    finally:
        one.close()
    shown, heard = pictures(video), sounds(audio)
    # what an edit list puts before 0 isn't buffered
    shifts = [begin - max(0, levels[0][0]) for begin, levels in zip(begins, (shown, heard))]
    return [one + shifts[0] for one in flashes(shown)], [one + shifts[1] for one in beeps(heard)]


def late(found):
    """Returns by how many seconds each beep follows its flash. One without a counterpart is at an end of the files, and left out."""
    white, tones = found
    nearest = [min((tone - one for tone in tones), key=abs, default=9) for one in white]
    return [one for one in nearest if abs(one) < 0.7]


READERS = {"ffmpeg": by_ffmpeg, "GStreamer": by_gstreamer, "Chromium": by_chromium}


def in_step(name, video, audio, readers=READERS):
    """Checks that sound and picture of two files are in sync in each reader."""
    for reader in readers:
        found = late(READERS[reader](video, audio))
        check(f"{name}: sound and picture are in step by {reader}", len(found) >= 2 and max(map(abs, found)) <= MOST, found)
        if found:
            print(f"   {name}: by {reader} sound is {1000 * min(found):+.0f} to {1000 * max(found):+.0f} ms after its picture, {len(found)} times")
