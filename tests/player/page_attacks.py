"""Attacks on the pages that need no origin: lists, media and certificates that are made to hurt, renditions of which one stalls, a
clock that is off, small windows and the keyboard alone. No script of its own: tests/player/pages runs `hostile` and `small`.
"""
import os
import time

from harness import check
from origins import box, words as box_of
from page_site import Canned, is_clean, list_of, part, plays_on, seen, wait_seen

# The longest time for which the page's own thread was held up, in milliseconds, from the first to the second.
WATCH_PAUSES = ("window.longest = 0; window.before = performance.now(); window.timer = setInterval(() => { const now = performance.now(); "
                "window.longest = Math.max(window.longest, now - window.before); window.before = now; }, 10)")
LONGEST_PAUSE = "clearInterval(window.timer), window.longest"


class Ladder:
    """Two video renditions of the same clip, and sound, at a canned server: segments of two seconds, counted on over the loop."""

    def __init__(self, world, canned, name, count=32):
        self.canned, self.base, self.count = canned, f"/{name}", count
        for rendition, clip in enumerate(world.clips[:2]):
            canned.give(f"{self.base}/{rendition}/init.mp4", clip.init, kind="video/mp4")
            for i in range(count):
                canned.give(f"{self.base}/{rendition}/{i}.m4s", clip.unit(i, 0)[1], kind="video/mp4")
        self.list(0)
        self.list(1)
        self.master()

    def master(self, bandwidths=(1200000, 400000)):
        lines = [f"#EXT-X-STREAM-INF:BANDWIDTH={bandwidth}\n{rendition}.m3u8\n" for rendition, bandwidth in enumerate(bandwidths)]
        self.canned.give(f"{self.base}/master.m3u8", "#EXTM3U\n" + "".join(lines))

    def text(self, rendition, first, end, ended=True):
        text = list_of([(2, f"{rendition}/{i}.m4s") for i in range(first, end)]).replace("init.mp4", f"{rendition}/init.mp4")
        text = text.replace("MEDIA-SEQUENCE:0", f"MEDIA-SEQUENCE:{first}")
        return text if ended else text.replace("#EXT-X-ENDLIST\n", "")

    def list(self, rendition, first=0, end=None, ended=True):
        self.canned.give(f"{self.base}/{rendition}.m3u8", self.text(rendition, first, end or self.count, ended))

    def live(self, begun, upto):
        """Lists of a live channel that get another segment every two seconds, up to a number that may change."""
        for rendition in (0, 1):
            def now(rendition=rendition):
                end = min(8 + int((time.monotonic() - begun) / 2), upto[0])
                return self.text(rendition, max(0, end - 20), end, ended=False).encode()
            self.canned.give(f"{self.base}/{rendition}.m3u8", now)

    def url(self, file="master.m3u8"):
        return f"{self.canned.url}/watch.html?list={self.base}/{file}"


def hostile(world):
    """Lists, media, renditions, certificates and a clock that are made to hurt."""
    part("hostile")
    canned = world.keep(Canned(world.folder))
    for attack in (a_line_without_end, a_target_of_months, runs_that_overlap, a_channel_that_stands, a_rendition_that_stalls, a_rendition_of_another_codec, sound_of_another_codec,
                   a_list_that_is_old, many_damaged, a_clock_that_is_off, a_plan_without_end):
        attack(world, canned)
    canned.stop()


def answers(page, seconds=15):
    """Whether the page's script still runs."""
    try:
        return page.run("true", seconds)
    except TimeoutError:
        return False


def a_line_without_end(world, canned):
    ladder = Ladder(world, canned, "line")
    for name, text in [("a list", ladder.text(0, 0, 8).replace("#EXT-X-MAP:", f"#EXT-X-MAP:{'A' * 4000000},")),
                       ("a master", f"#EXTM3U\n#EXT-X-STREAM-INF:{'A' * 4000000},BANDWIDTH=1000\n0.m3u8\n")]:
        canned.give("/line/bad.m3u8", text)
        page = world.browser.open(ladder.url("bad.m3u8"), wait=False)
        time.sleep(3)
        held = not answers(page)
        check(f"{name} with an attribute of 4 MB doesn't hold the page up", not held)
        if not held:
            is_clean(f"an attribute of 4 MB in {name}", page)
        page.close()


def a_target_of_months(world, canned):
    """Times beyond what a browser's timers can wait are over at once: half of this one too."""
    ladder = Ladder(world, canned, "month")
    canned.give("/month/live.m3u8", ladder.text(0, 0, 8, ended=False).replace("TARGETDURATION:4", "TARGETDURATION:7000000"))
    asked = canned.asked.count("/month/live.m3u8")
    page = world.browser.open(ladder.url("live.m3u8"))
    said = wait_seen(page, lambda s: "target" in s["words"], 6)
    time.sleep(4)
    asked = canned.asked.count("/month/live.m3u8") - asked
    check("a target of months is refused in words", "target duration" in said["words"], said)
    check("and the list isn't asked for again and again", asked < 20, asked)
    page.close()


def runs_that_overlap(world, canned):
    """A unit of 2 MB of runs of samples, each of which claims to reach to the unit's end."""
    ladder = Ladder(world, canned, "runs")
    size, width = 2000000, 20
    head = box(b"traf", box_of(b"tfhd", 0x20000, 1), box_of(b"tfdt", 0, 0))
    runs = b"".join(box_of(b"trun", 0x100, (size - at) // 4, 0) for at in range(0, size - 400, width))
    moof = box(b"moof", box(b"traf", head[8:], runs))
    canned.give("/runs/0/3.m4s", moof + box(b"mdat", bytes(4000)), kind="video/mp4")
    page = world.browser.open(ladder.url("0.m3u8"))
    page.run(WATCH_PAUSES)
    time.sleep(4)
    held = not answers(page)
    longest = None if held else page.run(LONGEST_PAUSE)
    check("runs of samples that overlap don't hold the page up", not held and longest < 1500, longest)
    if not held:
        check("and are left out", wait_seen(page, lambda s: s["time"] > 12, 30)["time"] > 12, seen(page))
    page.close()


def a_channel_that_stands(world, canned):
    """As where one encoder stalls: no rendition has another segment. Then it continues."""
    ladder = Ladder(world, canned, "stands", 80)
    upto = [14]
    ladder.live(time.monotonic(), upto)
    page = world.browser.open(ladder.url())
    check("a channel plays", wait_seen(page, lambda s: s["frames"] > 25, 20)["frames"] > 25, seen(page))
    said = wait_seen(page, lambda s: s["words"] != "", 45)
    check("where nothing new comes the page says so", "sending anything new" in said["words"], said)
    check("on the picture too", page.run("!document.getElementById('note').hidden"))
    world.shot(page, "watch_stands.png")
    upto[0] = 80
    said = wait_seen(page, lambda s: s["ready"] > 2 and s["words"] == "", 20)
    check("and goes on when something comes, saying nothing more", said["words"] == "" and plays_on(page, 4), seen(page))
    is_clean("a channel that stands", page)
    page.close()


def a_rendition_that_stalls(world, canned):
    """The segments of the better rendition are asked for and never come, or aren't there; the other's are there."""
    for name, status, delay in [("never come", 200, 300), ("are refused", 404, 0), ("can't be had", 503, 0)]:
        ladder = Ladder(world, canned, f"stall{status}")
        for i in range(4, ladder.count):
            canned.give(f"{ladder.base}/0/{i}.m4s", b"", status=status, delay=delay)
        page = world.browser.open(ladder.url())
        said = wait_seen(page, lambda s: s["time"] > 16, 60)
        check(f"where a rendition's segments {name} the other one goes on", said["time"] > 16 and said["width"] == 240, said)
        said = wait_seen(page, lambda s: s["time"] > 22, 20)
        check("with nothing left out, and nothing more to say", said["time"] > 22 and said["words"] == "" and wait_seen(page, lambda s: s["number"] >= 0, 2)["number"] // 25 in
              range(int(said["time"]) - 1, int(said["time"]) + 4), said)
        is_clean(f"a rendition whose segments {name}", page)
        page.close()


def a_rendition_of_another_codec(world, canned):
    """A ladder whose better rendition this browser can't play."""
    ladder = Ladder(world, canned, "codec")
    canned.give("/codec/0/init.mp4", world.clips[0].init.replace(b"avc1", b"zzzz"), kind="video/mp4")
    page = world.browser.open(ladder.url())
    said = wait_seen(page, lambda s: s["time"] > 6, 30)
    check("of a ladder with a codec that the browser hasn't the rest is played", said["time"] > 6 and said["width"] == 240 and said["words"] == "", said)
    page.run("(() => { const s = document.getElementById('videos'); s.value = 1; s.dispatchEvent(new Event('change')); })()")
    said = wait_seen(page, lambda s: "can't play" in s["words"], 10)
    check("who chooses it is told", "can't play zzzz" in said["words"], said)
    check("and sees the other one on", plays_on(page, 4) and seen(page)["width"] == 240, seen(page))
    page.close()


def give_sound(world, canned, base, codec=b"mp4a", of=b"mp4a"):
    """A list of sound, whose init section may say another codec."""
    clip = world.clips[2]
    canned.give(f"{base}/sound_init_{codec.decode()}.mp4", clip.init.replace(of, codec), kind="video/mp4")
    for i in range(8):
        of_two_seconds = b"".join(unit for at, _, unit in clip.units if 2 * i <= at / clip.scale + 0.1 < 2 * i + 2)
        canned.give(f"{base}/sound{i}.m4s", of_two_seconds, kind="video/mp4")
    text = list_of([(2, f"{base}/sound{i}.m4s") for i in range(8)]).replace("init.mp4", f"{base}/sound_init_{codec.decode()}.mp4")
    canned.give(f"{base}/sound.m3u8" if codec == of else f"{base}/sound_{codec.decode()}.m3u8", text)
    return True


def sound_of_another_codec(world, canned):
    """Two languages; the browser can't play the first."""
    ladder = Ladder(world, canned, "sound", 8)
    give_sound(world, canned, "/sound")
    give_sound(world, canned, "/sound", b"zzza")
    canned.give("/sound/master.m3u8", "#EXTM3U\n" + "".join(f'#EXT-X-MEDIA:TYPE=AUDIO,GROUP-ID="a",NAME="{name}",DEFAULT={default},URI="/sound/{uri}.m3u8"\n' for name, default, uri in (
        ("first", "YES", "sound_zzza"), ("second", "NO", "sound"))) + '#EXT-X-STREAM-INF:BANDWIDTH=1000,AUDIO="a"\n/sound/0.m3u8\n')
    page = world.browser.open(ladder.url())
    said = wait_seen(page, lambda s: s["time"] > 5, 20)
    check("where the first sound's codec is one that the browser hasn't, the second is heard", said["time"] > 5 and "/sound/sound0.m4s" in canned.asked, said)
    name = page.run("document.getElementById('audios').selectedOptions[0].text")
    check("and it's the second that is shown as chosen", name == "second", name)
    is_clean("sound of another codec", page)
    page.close()


def dated(text, begins):
    """A list whose segments have dates."""
    lines, at = [], begins
    for line in text.split("\n"):
        if line.startswith("#EXTINF"):
            lines.append(f"#EXT-X-PROGRAM-DATE-TIME:{time.strftime('%Y-%m-%dT%H:%M:%S', time.gmtime(at))}.000Z")
            at += 2
        lines.append(line)
    return "\n".join(lines)


def a_list_that_is_old(world, canned):
    """A restarted channel, where the rendition that is seen has its old list for some seconds more, with the same numbers."""
    ladder = Ladder(world, canned, "old")
    begun, begins = time.monotonic(), 1700000000

    def now(rendition, changes):
        passed = time.monotonic() - begun
        if passed < changes:
            return dated(ladder.text(rendition, 0, min(8 + int(passed / 2), 16), ended=False), begins).encode()
        # anew, from number 0: other segments, half an hour later
        text = ladder.text(rendition, 16, min(23 + int((passed - 16) / 2), 32), ended=False).replace("MEDIA-SEQUENCE:16", "MEDIA-SEQUENCE:0")
        return dated(text, begins + 1800).encode()
    canned.give("/old/0.m3u8", lambda: now(0, 16))
    canned.give("/old/1.m3u8", lambda: now(1, 30))
    page = world.browser.open(ladder.url())
    wait_seen(page, lambda s: s["frames"] > 10, 20)
    page.run("(() => { const s = document.getElementById('videos'); s.value = 2; s.dispatchEvent(new Event('change')); })()")
    wrong, last = [], 0
    ends = time.monotonic() + 45
    while time.monotonic() < ends:
        said = seen(page)
        # pictures 800 on are those of the restarted channel
        if said["clock"] and said["number"] >= 0 and said["ready"] > 2:
            is_new = said["clock"] >= time.strftime("%H:%M:%S", time.localtime(begins + 1800))
            last = said["number"]
            if is_new != (said["number"] >= 800) and said["width"] == 240:
                wrong.append((said["clock"], said["number"]))
        time.sleep(0.25)
    # one look may fall between two pictures
    check("no old segment is shown under a new one's number", len(wrong) < 2, wrong[:6])
    check("and the channel that began anew is seen", last >= 800, last)
    page.close()


def many_damaged(world, canned):
    """More damaged segments than the page restarts for in a row."""
    ladder = Ladder(world, canned, "damaged")
    for i in range(3, 31, 2):
        unit = canned.answers[f"/damaged/0/{i}.m4s"][2]
        at = unit.index(b"mdat") + 4
        canned.give(f"/damaged/0/{i}.m4s", unit[:at] + os.urandom(len(unit) - at), kind="video/mp4")
    page = world.browser.open(ladder.url("0.m3u8"))
    said = wait_seen(page, lambda s: s["ended"] or "couldn't play" in s["words"], 150)
    check("fourteen damaged segments of 32 are left out, and the end is reached", said["ended"], said)
    page.close()


OFF = """globalThis.Date = class extends Date {
  constructor(...words) { if (words.length > 0) super(...words); else super(new.target.now()); }
  static now() { return super.now() - 93784000; }
};"""


def a_clock_that_is_off(world, canned):
    ladder = Ladder(world, canned, "clock")
    canned.give("/clock/dated.m3u8", dated(ladder.text(0, 0, 32), 1700000000))
    page = world.browser.open(ladder.url("dated.m3u8"), before=OFF)
    said = wait_seen(page, lambda s: s["time"] > 3, 20)
    expected = [time.strftime("%H:%M:%S", time.localtime(1700000000 + said["time"] + more)) for more in (-1, 0, 1)]
    check("where this machine's clock is a day off the picture's is shown", said["time"] > 3 and said["clock"] in expected, (said, expected))
    page.close()


def a_plan_without_end(world, canned):
    """A certificate of 60 MB whose plan has 29 million places."""
    page = world.browser.open(f"{canned.url}/operate.html")
    node = page.ask("DOM.querySelector", nodeId=page.ask("DOM.getDocument")["root"]["nodeId"], selector="#file")["nodeId"]
    head = "HLS-CUT-CERTIFICATE 1\ntarget 6\npreferred 4000000\nrenditions 1\nplaces 2\n0 0 0 0 0\n1 3000000 3000000 0 0\ncut 0\nplan 0"
    with open(world.path("plan.cert"), "w") as file:
        file.write(head + " 0" * 29000000 + " 1\nprice 0 0\nprice 1 1000000\nend\n")
    page.run(WATCH_PAUSES)
    page.ask("DOM.setFileInputFiles", files=[world.path("plan.cert")], nodeId=node)
    said = page.wait("/PlanStep 0 0/.test(document.getElementById('verdict').textContent)", 60)
    held = page.run(LONGEST_PAUSE)
    check("a plan of 29 million places is refused", said, page.run("document.getElementById('verdict').textContent"))
    check("and the page isn't held up", held < 1500, held)
    print(f"a plan of 29 million places: the page's longest pause {held:.0f} ms")
    # a small one chosen while a large one is checked: the last one's verdict stays
    with open(world.path("large.cert"), "w") as file:
        file.write(head + " 0" * 29000000 + " 1\nprice 0 0\nprice 1 1000000\nend\n")
    with open(os.path.join(os.path.dirname(os.path.abspath(__file__)), "..", "..", "samples", "five_units.cert")) as sample, open(world.path("small.cert"), "w") as file:
        file.write(sample.read())
    page.ask("DOM.setFileInputFiles", files=[world.path("large.cert")], nodeId=node)
    page.wait("/Checking large.cert/.test(document.getElementById('verdict').textContent)", 10)
    page.ask("DOM.setFileInputFiles", files=[world.path("small.cert")], nodeId=node)
    page.wait("/small.cert: Checked/.test(document.getElementById('verdict').textContent)", 20)
    time.sleep(6)
    said = page.run("document.getElementById('verdict').textContent")
    check("the verdict is that of the last file chosen", said.startswith("small.cert: Checked here"), said)
    page.close()


def largest_certificates():
    """As many places, renditions and digits as there may be: a good one, one whose steps are all looked at in all renditions, one out of order."""
    places, renditions, top = 16384, 16, 9007199254740991
    last = places - 1

    def certificate(spot, price):
        rows = "\n".join(" ".join(spot(p, r) for r in range(renditions)) for p in range(places))
        return (f"HLS-CUT-CERTIFICATE 1\ntarget 3600\npreferred 3600000000\nrenditions {renditions}\nplaces {places}\n{rows}\n"
                f"cut 1961700000\nplan 0 {last}\n" + "".join(f"price {p} {price(p)}\n" for p in range(places)) + "end\n")

    def spot_of(p, r, end=None, runs=f"{top} {top}"):
        at = top - (last - p) * 100000
        return f"{top - (last - p)} {at if end is None else end} {at} {runs}"

    def forbids(p, r):
        """Of each two steps that are next to each other another rendition forbids the one."""
        return p != last and r == (15 if p % 2 else 14)

    def dear(p):
        return 0 if p == 0 else 1961700000 if p == last else p * 4000000000
    good = certificate(spot_of, lambda p: 3600000000 - p * 100000 if p else 0)
    yield "large.cert", good
    yield "gaps.cert", certificate(lambda p, r: spot_of(p, r, None, f"{top - 1 if forbids(p, r) else top} {top}"), dear)
    yield "lengths.cert", certificate(lambda p, r: spot_of(p, r, 0 if forbids(p, r) else None), dear)
    yield "order.cert", good.replace(f"\n{top - last} ", f"\n{top} ", 1)


# What is wider than the window, and what can be used and lies outside of it or under something else.
LOST = """[...document.querySelectorAll('button, select, input, a[href], summary')].filter((e) => e.checkVisibility() && e.type !== 'file' && !e.disabled).filter((e) => {
  e.scrollIntoView({ block: 'center' });
  const { left, right, top, width, height } = e.getBoundingClientRect();
  const found = document.elementFromPoint(left + width / 2, top + height / 2);
  return left < -0.5 || right > innerWidth + 0.5 && !e.closest('.scroll') || !(found && (e.contains(found) || e.closest('label')?.contains(found) || e.closest('.scroll')));
}).map((e) => e.id || e.textContent)"""


def fits(name, page, sizes=((640, 400), (320, 568), (568, 320))):
    """At 200 % of 1280 by 800 points, and in the narrowest windows: nothing beside the window, all there to be used."""
    for width, height in sizes:
        page.size(width, height)
        time.sleep(0.7)
        wide = page.run("document.documentElement.scrollWidth - window.innerWidth")
        check(f"{name}: nothing is wider than {width} points", wide <= 0, wide)
        lost = page.run(LOST)
        check(f"{name}: at {width} by {height} all can be used", not lost, lost)
    rules = page.run("[...document.styleSheets].flatMap((sheet) => [...sheet.cssRules]).filter((rule) => rule.selectorText === 'html').map((rule) => rule.style.fontSize)")
    check(f"{name}: text is as large as the reader has chosen", rules and all(not rule.endswith("px") for rule in rules), rules)
    page.size(1280, 800)


def far_away(page):
    """As near and as far as the buttons go, and along by the keys: the picture is drawn at once."""
    page.run(WATCH_PAUSES)
    for name, script in [("farther", "for (let i = 0; i < 80; i++) document.getElementById('farther').click()"), ("nearer", "for (let i = 0; i < 80; i++) document.getElementById('nearer').click()"),
                         ("along", "for (let i = 0; i < 400; i++) document.getElementById('lanes').dispatchEvent(new KeyboardEvent('keydown', { key: 'ArrowLeft', cancelable: true }))"),
                         ("wide", "document.getElementById('viewAll').click(), document.getElementById('viewLast').click()")]:
        begun = time.monotonic()
        page.ask("Runtime.evaluate", expression=f"setTimeout(() => {{ {script} }})")
        held = not answers(page, 20)
        check(f"the picture eighty times {name}: the page answers" if name != "wide" else "and it is brought back", not held and time.monotonic() - begun < 10, time.monotonic() - begun)
        if held:
            return
    page.run("clearInterval(window.timer)")
    # a finger that began on the picture, and scrolled the page
    before = page.run("document.getElementById('from').value")
    page.run("""(() => { const canvas = document.getElementById('lanes'), say = (name, x) => canvas.dispatchEvent(new PointerEvent(name, { clientX: x, button: 0, pointerId: 1, bubbles: true }));
      canvas.setPointerCapture = () => {}; say('pointerdown', 400); say('pointercancel', 400); say('pointermove', 500); delete canvas.setPointerCapture; })()""")
    check("a touch that was given up chooses nothing", page.run("document.getElementById('from').value") == before)


def small(world):
    """The viewers' page in small windows, at 200 %, and by the keyboard alone."""
    part("small")
    canned = world.keep(Canned(world.folder))
    ladder = Ladder(world, canned, "small")
    canned.give("/small/list.m3u8", ladder.text(0, 0, 32))
    page = world.browser.open(ladder.url())
    wait_seen(page, lambda s: s["frames"] > 10, 20)
    fits("watch", page)
    page.size(390, 780)
    time.sleep(0.5)
    check("a phone has no slider for the volume: it has keys", page.run("!document.getElementById('volume').checkVisibility()"))
    page.size(640, 400)
    time.sleep(0.5)
    world.shot(page, "watch_zoomed.png")
    page.size(1280, 800)
    page.run("document.activeElement.blur(), document.body.focus()")
    names = []
    for _ in range(14):
        page.key("Tab")
        names.append(page.run("document.activeElement.id || document.activeElement.tagName"))
    check("Tab goes from the player's left to its right", [name for name in names if name in ("seek", "play", "back", "forth", "videos", "mute", "volume", "full")][:8] ==
          ["seek", "play", "back", "forth", "videos", "mute", "volume", "full"], names)
    for name, key, text, after in [("mute", " ", " ", lambda s: s["muted"] and not s["paused"]), ("mute", "Enter", "\r", lambda s: not s["muted"] and not s["paused"]),
                                   ("play", " ", " ", lambda s: s["paused"]), ("play", "Enter", "\r", lambda s: not s["paused"]),
                                   ("seek", "ArrowRight", None, lambda s: s["time"] > 9), ("seek", "Home", None, lambda s: s["time"] < 6)]:
        page.run(f"document.getElementById('{name}').focus()")
        page.key(key, text)
        check(f"{key.strip() or 'Space'} on {name} does what it says, once", after(wait_seen(page, after, 5)), seen(page))
    page.run("document.getElementById('videos').focus()")
    page.key("End")
    said = wait_seen(page, lambda s: s["width"] == 240, 15)
    check("a rendition is chosen by the keyboard", said["width"] == 240 and said["time"] < 40, said)
    page.run("document.querySelector('.keys summary').focus()")
    page.key("Enter", "\r")
    check("the list of keys opens by Enter", page.wait("document.querySelector('.keys').open", 3))
    is_clean("small", page)
    page.close()
    canned.stop()
