"""Players on a list: each plays for some seconds, and says for how many of them it showed pictures."""
import os
import re
import subprocess
import threading
import time
import urllib.request

from harness import free_port
from origins import browser_page

RATE = 25


def run(words, seconds, more={}, typed=()):
    """Runs for so long at most, or to its end; what it said. Lines are typed at their second."""
    process = subprocess.Popen(words, stdin=subprocess.PIPE if typed else subprocess.DEVNULL, stdout=subprocess.PIPE, stderr=subprocess.STDOUT,
                               text=True, errors="replace", env={**os.environ, **more}, start_new_session=True)
    said = []
    reader = threading.Thread(target=lambda: said.extend(process.stdout), daemon=True)
    reader.start()
    begun = time.monotonic()
    try:
        for after, line in typed:
            time.sleep(max(0, begun + after - time.monotonic()))
            process.stdin.write(line + "\n")
            process.stdin.flush()
        process.wait(seconds)
    except (subprocess.TimeoutExpired, BrokenPipeError):
        pass
    process.terminate()
    try:
        process.wait(5)
    except subprocess.TimeoutExpired:
        process.kill()
        process.wait()
    reader.join(5)
    return "".join(said)


def first_fault(said, words):
    """The first line that says one of these words."""
    found = [line.strip() for line in re.split(r"[\r\n]", said) if re.search(words, line, re.I)]
    return found[0][:160] if found else ""


def play_ffmpeg(url, seconds, folder):
    said = run(["ffmpeg", "-v", "error", "-stats", "-re", "-i", url, "-map", "0:v:0", "-map", "0:a:0", "-t", str(seconds), "-f", "null", "-"], seconds + 15)
    frames = [int(n) for n in re.findall(r"frame=\s*(\d+)", said)]
    return max(frames, default=0) / RATE, first_fault(re.sub(r"frame=[^\r\n]*", "", said), r"\S")


def play_mpv(url, seconds, folder):
    script = os.path.join(folder, "say.lua")
    with open(script, "w") as file:
        file.write('mp.add_periodic_timer(0.5, function() print("at", mp.get_property("time-pos"), mp.get_property("video-params/w")) end)\n')
    said = run(["mpv", "--no-config", "--vo=null", "--ao=null", f"--script={script}", f"--length={seconds}", url], seconds + 15)
    times = [float(at) for at in re.findall(r"at\s+([0-9.]+)\s+\d+", said)]
    return (times[-1] - times[0] if times else 0), first_fault(said, r"error|failed")


def shown(said):
    return len(re.findall(r"pictures\W.*last-message = chain", said)) / RATE, first_fault(said, r"^ERROR|error:")


def play_hlsdemux2(url, seconds, folder):
    return shown(run(["gst-launch-1.0", "-v", "playbin3", f"uri={url}", "video-sink=fakesink name=pictures sync=true silent=false",
                      "audio-sink=fakesink sync=true"], seconds, {"GST_PLUGIN_FEATURE_RANK": "hlsdemux:NONE"}))


# The edge lets pages of other sites read, the origin doesn't.
OWN = """<video id="video" muted autoplay {cors} src="{url}"></video><script>
setInterval(() => console.info("state " + JSON.stringify({{ time: video.currentTime, frames: video.getVideoPlaybackQuality().totalVideoFrames,
    ended: video.ended, error: video.error ? "error " + video.error.code + " " + video.error.message : "" }})), 1000);
</script>"""


def has_cors(url):
    with urllib.request.urlopen(url) as reply:
        return "Access-Control-Allow-Origin" in reply.headers


def play_chromium_own(url, seconds, folder):
    page = os.path.join(folder, f"own{free_port()}.html")
    with open(page, "w") as file:
        file.write(OWN.format(url=url, cors="crossorigin=anonymous" if has_cors(url) else ""))
    last = browser_page("file://" + page, seconds, lambda state: state["ended"]) or {"frames": 0, "error": "said nothing"}
    return last["frames"] / RATE, last["error"][:160]
