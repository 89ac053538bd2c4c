"""Firefox without a window, driven by Marionette: no driver, one connection."""
import json
import os
import socket
import subprocess

from harness import free_port
from origins import wait_for


class Firefox:
    """A browser with a profile in a folder. Messages are a length, a colon and JSON."""

    def __init__(self, folder):
        profile, port = os.path.join(folder, "firefox"), free_port()
        os.makedirs(profile)
        with open(os.path.join(profile, "user.js"), "w") as file:
            for name, value in [("marionette.port", port), ("media.autoplay.default", 0), ("media.autoplay.blocking_policy", 0), ("datareporting.policy.dataSubmissionEnabled", False),
                                ("app.update.enabled", False), ("network.captive-portal-service.enabled", False), ("browser.shell.checkDefaultBrowser", False)]:
                file.write(f"user_pref({json.dumps(name)}, {json.dumps(value)});\n")
        self.process = subprocess.Popen(["firefox-esr", "--headless", "--marionette", "--no-remote", "--profile", profile], stdin=subprocess.DEVNULL, stdout=subprocess.DEVNULL,
                                        stderr=subprocess.DEVNULL, env={**os.environ, "HOME": folder, "MOZ_DISABLE_CONTENT_SANDBOX": "1"}, start_new_session=True)
        wait_for(port, 90)
        self.line, self.number = socket.create_connection(("127.0.0.1", port)), 0
        self.line.settimeout(90)
        self.read()
        self.say("WebDriver:NewSession", acceptInsecureCerts=True)

    def read(self):
        length = b""
        while not length.endswith(b":"):
            length += self.line.recv(1)
        text = b""
        while len(text) < int(length[:-1]):
            text += self.line.recv(65536)
        return json.loads(text)

    def say(self, command, **words):
        self.number += 1
        text = json.dumps([0, self.number, command, words]).encode()
        self.line.sendall(b"%d:%b" % (len(text), text))
        _, _, fault, answer = self.read()
        if fault:
            raise RuntimeError(f"{command}: {fault.get('error')} {fault.get('message')}")
        return answer

    def open(self, url):
        self.say("WebDriver:Navigate", url=url)

    def run(self, script):
        return self.say("WebDriver:ExecuteScript", script=script, args=[])["value"]

    def close(self):
        self.line.close()
        stop(self.process)


def stop(process):
    process.terminate()
    try:
        process.wait(15)
    except subprocess.TimeoutExpired:
        process.kill()
        process.wait()
