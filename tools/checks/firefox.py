"""A Firefox without a window, spoken to by its Marionette protocol in the words of WebDriver, as page.py speaks to chromedriver."""
import json
import os
import socket
import subprocess
import time

from office import free_port

WORDS = {
    "POST url": "Navigate",
    "POST sync": "ExecuteScript",
    "POST element": "FindElement",
    "POST click": "ElementClick",
    "POST value": "ElementSendKeys",
    "POST actions": "PerformActions",
    "GET window": "GetWindowHandle",
    "POST window": "SwitchToWindow",
    "DELETE window": "CloseWindow",
    "POST new": "NewWindow",
}
PREFS = {
    "browser.download.folderList": 2,
    "browser.download.always_ask_before_handling_new_types": False,
    "browser.download.alwaysOpenPanel": False,
    "network.auth.confirmAuth.enabled": False,
    "dom.disable_beforeunload": True,
}


class Firefox:
    def __init__(self, folder):
        port, profile = free_port(), f"{folder}/firefox"
        os.mkdir(profile)
        prefs = {**PREFS, "marionette.port": port, "browser.download.dir": f"{folder}/saved"}
        with open(f"{profile}/user.js", "w") as file:
            file.writelines(f"user_pref({json.dumps(key)}, {json.dumps(value)});\n" for key, value in prefs.items())
        quiet = {"stdout": subprocess.DEVNULL, "stderr": subprocess.DEVNULL, "env": {**os.environ, "HOME": folder}}
        self.ran, self.count = subprocess.Popen(["firefox-esr", "--headless", "--marionette", "--profile", profile], **quiet), 0
        self.link = self.joined(port)
        self.stream = self.link.makefile("rb")
        self.answer()
        self.ask("NewSession", {})

    def joined(self, port):
        for _ in range(600):
            try:
                return socket.create_connection(("127.0.0.1", port), timeout=180)
            except OSError:
                time.sleep(0.1)
        raise SystemExit("page.py: Firefox does not answer")

    def answer(self):
        length = b""
        while (byte := self.stream.read(1)) != b":":
            length += byte
        return json.loads(self.stream.read(int(length)))

    def ask(self, word, given):
        self.count += 1
        text = json.dumps([0, self.count, f"WebDriver:{word}", given]).encode()
        self.link.sendall(b"%d:%s" % (len(text), text))
        _, _, wrong, value = self.answer()
        if wrong:
            raise SystemExit(f"page.py: {word}: {wrong['message'][:300]}")
        return value["value"] if isinstance(value, dict) and "value" in value else value

    def send(self, method, path, body):
        """What a request of WebDriver answers, of those that the trials make; the path of what is done to an element has its id."""
        *of, word = path.strip("/").split("/")
        return self.ask(WORDS[f"{method} {word}"], {**(body or {}), **({"id": of[-1]} if word in ("click", "value") else {})})

    def end(self):
        self.ran.terminate()
        self.ran.wait(timeout=60)
