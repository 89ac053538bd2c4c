"""Chromium without a window, driven by its DevTools protocol over a pipe (file descriptors 3 and 4 of the browser): no port, no
websocket, no driver. Not a script: tests/player/pages imports it.
"""
import base64
import fcntl
import json
import os
import subprocess
import tempfile
import threading
import time

from harness import SLACK

# Before a page's own script: it notes four times a second where its video is.
NOTE_TIMES = """window.times = []; setInterval(() => {
    const video = document.querySelector("video");
    if (video) window.times.push([performance.now() / 1000, video.currentTime, video.error ? video.error.message || String(video.error.code) : ""]);
}, 250);"""
# .. and that the page has no Media Source, so that the browser's own player plays
NO_MEDIA_SOURCE = "delete window.MediaSource; delete window.ManagedMediaSource;"


def longest_stall(times):
    """The longest time, in seconds, that a video stood still, once it had begun."""
    longest, moved, at = 0, None, 0
    for now, time_of_video, _ in times:
        if time_of_video != at:
            longest = max(longest, now - moved if moved else 0)
            moved, at = now, time_of_video
    return max(longest, times[-1][0] - moved) if moved else float("inf")


class Browser:
    """A browser with a profile of its own; requests, faults and what the console says are kept for each page."""

    def __init__(self, *more):
        self.profile = tempfile.TemporaryDirectory(prefix="browser-")
        reads, self.writes = os.pipe()
        self.reads, writes = os.pipe()
        # dup2 in the child needs numbers above the ones that it sets
        reads, writes = (fcntl.fcntl(n, fcntl.F_DUPFD, 10) for n in (reads, writes))

        def hand_over():
            os.dup2(reads, 3)
            os.dup2(writes, 4)
        self.process = subprocess.Popen(
            ["chromium", "--headless=new", "--no-sandbox", "--disable-gpu", "--ignore-certificate-errors", "--disable-dev-shm-usage", "--mute-audio",
             "--autoplay-policy=no-user-gesture-required", "--disable-background-networking", "--no-first-run", "--force-color-profile=srgb",
             "--js-flags=--expose-gc", f"--user-data-dir={self.profile.name}", "--remote-debugging-pipe", *more],
            stdin=subprocess.DEVNULL, stdout=subprocess.DEVNULL, stderr=subprocess.DEVNULL, preexec_fn=hand_over, close_fds=False, start_new_session=True)
        os.close(reads)
        os.close(writes)
        self.number, self.answers, self.pages, self.lock = 0, {}, {}, threading.Condition()
        threading.Thread(target=self.listen, daemon=True).start()

    def listen(self):
        rest = b""
        while True:
            try:
                more = os.read(self.reads, 1 << 20)
            except OSError:
                more = b""
            if not more:
                break
            *texts, rest = (rest + more).split(b"\0")
            for text in texts:
                said = json.loads(text)
                with self.lock:
                    if "id" in said:
                        self.answers[said["id"]] = said
                        self.lock.notify_all()
                page = self.pages.get(said.get("sessionId"))
                if page and "method" in said:
                    page.hear(said["method"], said["params"])
        with self.lock:
            self.answers["ended"] = True
            self.lock.notify_all()

    def tell(self, method, session=None, **params):
        """Sends a command and doesn't wait for its answer; its number."""
        with self.lock:
            self.number += 1
            number = self.number
        message = {"id": number, "method": method, "params": params, **({"sessionId": session} if session else {})}
        os.write(self.writes, json.dumps(message).encode() + b"\0")
        return number

    def ask(self, method, session=None, seconds=30 * SLACK, **params):
        number = self.tell(method, session, **params)
        with self.lock:
            if not self.lock.wait_for(lambda: number in self.answers or "ended" in self.answers, seconds) or number not in self.answers:
                raise TimeoutError(f"the browser doesn't answer {method}")
            answer = self.answers.pop(number)
        if "error" in answer:
            raise RuntimeError(f"{method}: {answer['error']['message']}")
        return answer["result"]

    def open(self, url, **words):
        return Page(self, url, **words)

    def close(self):
        self.process.terminate()
        try:
            self.process.wait(10)
        except subprocess.TimeoutExpired:
            self.process.kill()
            self.process.wait()
        os.close(self.writes)
        for _ in range(20):
            try:
                self.profile.cleanup()
                break
            except OSError:
                time.sleep(0.2)


class Page:
    """A page, of so many points, dark or light. `before` runs before the page's own script."""

    def __init__(self, browser, url, width=1280, height=800, scheme="dark", before="", password=None, wait=True):
        self.browser, self.requests, self.faults, self.password = browser, [], [], password
        target = browser.ask("Target.createTarget", url="about:blank", newWindow=True)["targetId"]
        self.target = target
        self.session = browser.ask("Target.attachToTarget", targetId=target, flatten=True)["sessionId"]
        browser.pages[self.session] = self
        for domain in ("Page", "Runtime", "Network", "Log"):
            self.ask(f"{domain}.enable")
        if password:
            self.ask("Fetch.enable", handleAuthRequests=True)
        self.size(width, height)
        self.ask("Emulation.setEmulatedMedia", features=[{"name": "prefers-color-scheme", "value": scheme}])
        if before:
            self.ask("Page.addScriptToEvaluateOnNewDocument", source=before)
        self.ask("Page.navigate", url=url)
        if wait:
            self.wait("document.readyState === 'complete'", 20)

    def ask(self, method, **params):
        return self.browser.ask(method, self.session, **params)

    def hear(self, method, params):
        if method == "Network.requestWillBeSent":
            self.requests.append(params["request"]["url"])
        elif method == "Runtime.exceptionThrown":
            details = params["exceptionDetails"]
            self.faults.append(details.get("exception", {}).get("description", details["text"]))
        elif method == "Log.entryAdded" and params["entry"]["source"] in ("security", "javascript"):
            self.faults.append(params["entry"]["text"])
        elif method == "Fetch.requestPaused":
            self.browser.tell("Fetch.continueRequest", self.session, requestId=params["requestId"])
        elif method == "Fetch.authRequired":
            user, password = self.password
            self.browser.tell("Fetch.continueWithAuth", self.session, requestId=params["requestId"],
                              authChallengeResponse={"response": "ProvideCredentials", "username": user, "password": password})

    def size(self, width, height, mobile=False):
        self.ask("Emulation.setDeviceMetricsOverride", width=width, height=height, deviceScaleFactor=1, mobile=mobile)

    def run(self, script, seconds=30 * SLACK):
        """What an expression gives; promises are awaited."""
        found = self.browser.ask("Runtime.evaluate", self.session, seconds, expression=script, awaitPromise=True, returnByValue=True, userGesture=True)
        if "exceptionDetails" in found:
            raise RuntimeError(found["exceptionDetails"].get("exception", {}).get("description", found["exceptionDetails"]["text"]))
        return found["result"].get("value")

    def wait(self, script, seconds):
        """Asks until it is true, and for so long at most; what it was at last."""
        ends = time.monotonic() + seconds * SLACK
        while True:
            try:
                found = self.run(script)
            except RuntimeError:
                found = None
            if found or time.monotonic() > ends:
                return found
            time.sleep(0.1)

    def key(self, key, text=None):
        for kind in ("keyDown", "keyUp"):
            self.ask("Input.dispatchKeyEvent", type=kind, key=key, code=key if len(key) > 1 else "", **({"text": text} if text and kind == "keyDown" else {}))

    def mouse(self, kind, x, y, buttons=0):
        self.ask("Input.dispatchMouseEvent", type=kind, x=x, y=y, button="left" if buttons or kind != "mouseMoved" else "none", buttons=buttons,
                 clickCount=1 if kind != "mouseMoved" else 0)

    def offline(self, is_offline):
        self.ask("Network.emulateNetworkConditions", offline=is_offline, latency=0, downloadThroughput=-1, uploadThroughput=-1)

    def throttle(self, bytes_a_second):
        self.ask("Network.emulateNetworkConditions", offline=False, latency=5, downloadThroughput=bytes_a_second, uploadThroughput=-1)

    def shot(self, path):
        picture = base64.b64decode(self.ask("Page.captureScreenshot", format="png")["data"])
        with open(path, "wb") as file:
            file.write(picture)

    def close(self):
        self.browser.ask("Target.closeTarget", targetId=self.target)
        self.browser.pages.pop(self.session, None)
