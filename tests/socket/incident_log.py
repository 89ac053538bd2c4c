"""What a running server logs in a night: each line once, and none if nothing is wrong.

Not a script: tests/socket/incidents imports it and runs its PARTS, each a function of a program and a folder of its own. All but
the part that stops a real encoder send generated streams, faster than in real time; the log that is nearly full takes 450 MB,
a minute or two and a GiB of memory.
"""
import re
import socket
import struct
import subprocess
import time

import harness
from harness import ask, check, media_list
from origins import Origin, init_section, unit

ENTRIES = 4194304
SCALE = 90000
BATCH = 8192
LOOK = 1.2  # seconds in which the housekeeper looks again
THREE = ["v720:video:3000000:0", "v360:video:800000:20000", "en:audio:128000:30000"]


def told(origin, pattern):
    """The lines of a server that are just so."""
    return [line for line in origin.lines() if re.fullmatch(pattern, line)]


def seen_once(origin, name, pattern):
    found = told(origin, pattern)
    check(f"{name} is told once", len(found) == 1, found or origin.lines())


def never(origin, name, pattern):
    check(f"{name} isn't told", not told(origin, pattern), told(origin, pattern))


def send(origin, rendition, starts, kind="video", size=400):
    """Units from each start to the next, in seconds, by a PUT of their own; the last start is the last one's end."""
    ticks = [round(start * SCALE) for start in starts]
    body = init_section(kind) + b"".join(unit(at, until - at, size) for at, until in zip(ticks, ticks[1:]))
    status, said = ask(origin.port, "PUT", f"/ingest/{rendition}", body)
    check("units are taken", status == 200, (status, said))


def even(begin, end, step=2):
    return range(begin, end + 1, step)


def segments(origin, rendition=0):
    """How many segments the live list ever had; 0 where there is none."""
    status, text = ask(origin.port, "GET", f"/live/{rendition}.m3u8")
    if status != 200:
        return 0
    sequence, _, now, _ = media_list(text)
    return sequence + len(now)


def send_all(origin, begin, end):
    """All three renditions, in steps that leave none three targets of two seconds behind, whenever the housekeeper looks."""
    for first in range(begin, end, 4):
        for rendition in range(3):
            send(origin, rendition, even(first, min(first + 4, end)), "audio" if rendition == 2 else "video")


def one_stops(program, folder):
    """One of three encoders stops for 20 s of the others' time, and comes back; lists continue."""
    waits, goes_on = r"serve: live lists wait for en, \d+ s behind", "serve: live lists continue"
    origin = Origin(program, folder, ["--target", "2", "--preferred", "2000000", "--window", "60000000"], THREE)
    send_all(origin, 0, 20)
    time.sleep(LOOK)
    before = segments(origin)
    check("lists begin", before > 0)
    for end in range(22, 42, 2):
        send(origin, 0, even(end - 2, end))
        send(origin, 1, even(end - 2, end))
        time.sleep(LOOK / 4)
    time.sleep(LOOK)
    send(origin, 0, even(40, 42))
    time.sleep(LOOK)
    seen_once(origin, "an encoder that stopped", waits)
    check("its lists wait", segments(origin) <= before + 1, (before, segments(origin)))
    behind = int(re.search(r"(\d+) s behind", (told(origin, waits) or ["0 s behind"])[0])[1])
    check("more than three targets behind", 6 < behind <= 22, behind)
    never(origin, "that lists go on", goes_on)
    send(origin, 2, even(40, 42), "audio")
    send(origin, 1, even(40, 42))
    send_all(origin, 42, 60)
    time.sleep(LOOK)
    send_all(origin, 60, 62)
    time.sleep(LOOK)
    seen_once(origin, "that it is over", goes_on)
    seen_once(origin, "an encoder that stopped", waits)
    check("lists go on", segments(origin) > before + 5, (before, segments(origin)))
    origin.stop()


def one_never_begins(program, folder):
    """A rendition that nobody sends, and one whose encoder comes late."""
    origin = Origin(program, folder, ["--target", "2", "--preferred", "2000000"], THREE)
    for end in range(4, 24, 4):
        send(origin, 0, even(end - 4, end))
        send(origin, 1, even(end - 4, end))
        time.sleep(LOOK / 2)
    seen_once(origin, "a rendition that has not begun", "serve: live lists wait for en, which has not begun")
    send(origin, 2, even(16, 20), "audio")
    time.sleep(LOOK)
    send_all(origin, 20, 32)
    time.sleep(LOOK)
    seen_once(origin, "that it is over", "serve: live lists continue")
    never(origin, "that renditions begin at different moments", r"serve: .* are no places.*")
    origin.stop()


def real_encoder_stops(program, folder):
    """ffmpeg for each of three renditions in real time: one is killed, and another replaces it on the same clock."""
    origin = Origin(program, folder, ["--target", "2", "--preferred", "2000000", "--patience", "60"], THREE)

    def push(rendition, seconds, offset=0.0):
        video = ["-i", "testsrc=s=320x180:r=25", "-c:v", "libx264", "-preset", "ultrafast", "-g", "25", "-sc_threshold", "0"]
        audio = ["-i", "sine=f=440:r=48000", "-c:a", "aac", "-frag_duration", "40000"]
        return harness.run("ffmpeg", "-nostdin", "-v", "error", "-re", "-f", "lavfi", *(audio if rendition == 2 else video),
                            "-t", str(seconds), "-output_ts_offset", str(offset), "-f", "mp4", "-movflags",
                            "+cmaf+frag_discont" + ("" if rendition == 2 else "+frag_keyframe"), "-method", "PUT",
                            f"http://127.0.0.1:{origin.port}/ingest/{rendition}", stderr=subprocess.DEVNULL)

    begun = time.monotonic()
    pushed = [push(0, 50), push(1, 50), push(2, 50, 0.0213334)]
    time.sleep(12)
    pushed[2].kill()
    before = segments(origin)
    time.sleep(14)
    seen_once(origin, "an encoder that was killed", r"serve: live lists wait for en, \d+ s behind")
    check("lists wait for it", segments(origin) <= before + 2, (before, segments(origin)))
    pushed[2] = push(2, 20, round(time.monotonic() - begun))
    time.sleep(14)
    seen_once(origin, "that it is back", "serve: live lists continue")
    check("lists go on", segments(origin) > before + 4, (before, segments(origin)))
    for encoder in pushed:
        encoder.kill()
    origin.stop()


def uneven_cuts(program, folder):
    """A quarter of the audio's units begin 53 ms too late; then groups of pictures that are longer than the target."""
    origin = Origin(program, folder, [], ["v720:video:3000000:0", "en:audio:128000:30000"])
    send(origin, 0, even(0, 240))
    send(origin, 1, [at + (0.053 if at % 8 == 6 else 0) for at in even(0, 240)], "audio")
    time.sleep(LOOK)
    send(origin, 0, even(240, 248))
    send(origin, 1, even(240, 248), "audio")
    time.sleep(LOOK)
    line = (r"serve: (\d+) of the last (\d+) sync samples of v720 are no places: "
            r"en's units begin up to 53 ms away and its tolerance is 30 ms")
    seen_once(origin, "uneven cuts", line)
    found = [re.fullmatch(line, text) for text in told(origin, line)]
    check("a quarter of them", all(abs(4 * int(one[1]) - int(one[2])) <= 8 for one in found), [one[0] for one in found])
    origin.stop()
    origin = Origin(program, folder, ["--target", "3", "--preferred", "3000000"], THREE[:1], name="long")
    send(origin, 0, [*even(0, 20), *even(30, 60, 10)])
    time.sleep(LOOK)
    send(origin, 0, even(60, 80))
    time.sleep(LOOK)
    seen_once(origin, "a group of pictures past the target",
              r"serve: \d+ of the last \d+ sync samples of v720 are in no live segment: no place follows within the target of 3 s")
    origin.stop()


def even_channel(program, folder):
    """A channel about which nothing is to be logged, for ten minutes of its time; one rendition begins later than the others."""
    origin = Origin(program, folder, ["--workers", "5", "--keep", "60000000"], THREE)
    for begin in range(0, 600, 10):
        for rendition in range(3):
            if rendition < 2 or begin >= 20:
                send(origin, rendition, even(begin, begin + 10), "audio" if rendition == 2 else "video")
        time.sleep(0.1)
    time.sleep(LOOK)
    said = [line for line in origin.lines() if line and not re.match("serve: (listening|ingest) ", line)]
    wrong = [line for line in said if not re.fullmatch(r"serve: live lists (wait for en, which has not begun|go on)", line)]
    check("nothing else is told", not wrong, wrong)
    origin.stop()


def many_jobs(program, folder):
    """64 jobs, and fewer again; on a journal's socket, as the environment says it."""
    origin = Origin(program, folder, [], THREE[:1], environment={"JOURNAL_STREAM": "8:1"})
    send(origin, 0, even(0, 40))
    statuses = [ask(origin.port, "POST", "/catchup?from=0&to=8000000")[0] for _ in range(65)]
    check("64 jobs are taken", statuses == [202] * 64 + [503], statuses)
    time.sleep(LOOK)
    for begin in (40, 44):
        send(origin, 0, even(begin, begin + 4))
        time.sleep(LOOK)
    seen_once(origin, "a full table of jobs", r"<4>serve: catch-up jobs hold 64 of 64 places: each stays until it is deleted")
    for job in range(1, 33):
        check("a job is deleted", ask(origin.port, "DELETE", f"/job/{job}")[0] == 204)
    for begin in (48, 52):
        send(origin, 0, even(begin, begin + 4))
        time.sleep(LOOK)
    seen_once(origin, "that it is over", "serve: catch-up jobs hold 32 of 64 places again")
    origin.stop()


class LimitedOrigin(Origin):
    """A server whose address space is limited to a GB."""

    def start(self):
        self.words = ["sh", "-c", 'ulimit -v 1000000; ulimit -n 1024; exec "$@"', "sh", *self.words]
        super().start()


def told_at_the_start(program, folder):
    """Settings that no machine keeps to."""
    origin = Origin(program, folder, ["--workers", "4", "--keep", "9000000000000000"], THREE)
    seen_once(origin, "too much kept", r"serve: these renditions need \d+ MB for --keep and --window, and this machine has \d+ MB")
    wanted = int(re.search(r"need (\d+) MB", "\n".join(origin.lines()))[1])
    check("as the formula has it", abs(wanted - 3928000 / 8 * 9000000052 / 1e6) < 2, wanted)
    origin.stop()
    origin = LimitedOrigin(program, folder, [], THREE, name="limited")
    seen_once(origin, "a limit on the address space",
              r"serve: these renditions need 1\d{3} MB for --keep and --window, and this process's address space is limited to 1024 MB")
    seen_once(origin, "a limit on open files", "serve: --connections 4096 needs more than the 1024 files that this process may have open: at most 960 are accepted")
    origin.stop()


def short_units(begin, end):
    """Units of a millisecond without media data, where only the very first begins with a sync sample."""
    one = unit(1 << 60, 90, 108)
    front, back = one.split(struct.pack(">Q", 1 << 60))
    plain = back.replace(struct.pack(">I", 0x02000000), struct.pack(">I", 0x01010000))
    for first in range(begin, end, BATCH):
        yield b"".join(front + struct.pack(">Q", n * 90) + (plain if n else back) for n in range(first, min(first + BATCH, end)))


def nearly_full_log(program, folder):
    """One encoder that sends as many units as the log takes, with a pause after each level."""
    origin = Origin(program, folder, ["--workers", "3", "--keep", "36000000000"], THREE[:1])
    head = init_section()
    with socket.create_connection(("127.0.0.1", origin.port), timeout=600) as s:
        s.sendall(b"PUT /ingest/0 HTTP/1.1\r\nHost: a\r\nContent-Length: %d\r\n\r\n" % (len(head) + 108 * (ENTRIES - 1)) + head)
        begin = 0
        for share in (790, 810, 910, 960, 995, 1000):
            end = min(ENTRIES * share // 1000, ENTRIES - 1)
            for batch in short_units(begin, end):
                s.sendall(batch)
            begin = end
            time.sleep(LOOK)
            if share == 790:
                never(origin, "a level before it comes", r".*% of .*")
        check("all are taken", b" accepted %d " % (ENTRIES - 1) in s.recv(65536))
    for percent in (80, 90, 95, 99):
        seen_once(origin, f"{percent} %", rf"serve: {percent} % of the log's 4194304 entries are used: at this rate the rest lasts 0 h \d+ min")
    origin.stop()


PARTS = [one_stops, one_never_begins, real_encoder_stops, uneven_cuts, even_channel, many_jobs, told_at_the_start, nearly_full_log]
