"""Browsers that a page is tried in, over the protocols that they have for that."""
import base64
import json
import shutil
import socket
import struct
import subprocess
import tempfile
import time
import urllib.request
import zlib

import mock


def free_port():
    with socket.socket() as taken:
        taken.bind(("127.0.0.1", 0))
        return taken.getsockname()[1]


def tried(act, seconds=20):
    """What `act` answers once it no longer fails for want of a server."""
    end = time.monotonic() + seconds
    while True:
        try:
            return act()
        except OSError:
            if time.monotonic() > end:
                raise
            time.sleep(0.1)


def key_actions(keys):
    downs = [{"type": "keyDown", "value": key} for key in keys]
    ups = [{"type": "keyUp", "value": key} for key in reversed(keys)]
    return [{"type": "key", "id": "keys", "actions": downs + ups}]


def drag_actions(points, kind):
    """A pointer that goes down at the first point, through all, and up."""
    moves = [{"type": "pointerMove", "x": round(x), "y": round(y), "duration": 20} for x, y in points]
    held = {"type": "pause", "duration": 80}
    actions = [moves[0], {"type": "pointerDown", "button": 0}, held, *moves[1:], {"type": "pointerUp", "button": 0}]
    return [{"type": "pointer", "id": kind, "parameters": {"pointerType": kind}, "actions": actions}]


class Chromium:
    """A page in chromium, over chromedriver's WebDriver protocol."""

    def __init__(self, folder, is_phone=False):
        port = free_port()
        self.address = f"http://127.0.0.1:{port}"
        self.driver = subprocess.Popen(["nice", "-n", "19", "chromedriver", f"--port={port}"], stdout=subprocess.DEVNULL,
                                       stderr=subprocess.DEVNULL)
        tried(lambda: self.call("GET", "/status"))
        options = {"args": ["--headless", "--no-sandbox", "--disable-gpu", "--window-size=1000,900"],
                   "prefs": {"download.default_directory": folder}}
        if is_phone:
            options["mobileEmulation"] = {"deviceMetrics": {"width": 390, "height": 844, "pixelRatio": 2, "touch": True}}
        made = self.call("POST", "/session", {"capabilities": {"alwaysMatch": {"goog:chromeOptions": options}}})
        self.session = "/session/" + made["sessionId"]

    def call(self, method, path, body=None):
        data = None if body is None else json.dumps(body).encode()
        request = urllib.request.Request(self.address + path, method=method, data=data,
                                         headers={"Content-Type": "application/json"})
        return json.loads(urllib.request.urlopen(request, timeout=60).read())["value"]

    def post(self, path, body):
        return self.call("POST", self.session + path, body)

    def open(self, url):
        self.post("/url", {"url": url})

    def run(self, script):
        return self.post("/execute/sync", {"script": script, "args": []})

    def act(self, actions):
        self.post("/actions", {"actions": actions})

    def protocol(self, command, **words):
        """A command of the browser's own protocol."""
        return self.post("/goog/cdp/execute", {"cmd": command, "params": words})

    def hide(self):
        """Another tab is shown; what it answers shows this one again."""
        own = self.call("GET", self.session + "/window")
        other = self.post("/window/new", {"type": "tab"})["handle"]
        self.post("/window", {"handle": other})
        return lambda: (self.call("DELETE", self.session + "/window"), self.post("/window", {"handle": own}))

    def shot(self):
        return base64.b64decode(self.call("GET", self.session + "/screenshot"))

    def end(self):
        self.call("DELETE", self.session)
        self.driver.terminate()
        self.driver.wait()


class Firefox:
    """A page in firefox, over WebDriver BiDi, which it speaks by itself on a WebSocket."""

    def __init__(self, folder, is_phone=False):
        self.profile = tempfile.mkdtemp()
        settings = {"browser.download.folderList": 2, "browser.download.dir": folder,
                    "browser.download.always_ask_before_handling_new_types": False, "dom.w3c_touch_events.enabled": 1}
        with open(f"{self.profile}/user.js", "w", encoding="utf-8") as out:
            out.writelines(f"user_pref({json.dumps(name)}, {json.dumps(value)});\n" for name, value in settings.items())
        port = free_port()
        self.program = subprocess.Popen(
            ["nice", "-n", "19", "firefox-esr", "--headless", "--no-remote", "--profile", self.profile,
             "--remote-debugging-port", str(port), "--width", "1000", "--height", "900"],
            stdout=subprocess.DEVNULL, stderr=subprocess.DEVNULL)
        self.socket = tried(lambda: socket.create_connection(("127.0.0.1", port)), 120)
        self.stream, self.number = self.socket.makefile("rb"), 0
        self.socket.sendall(f"GET /session HTTP/1.1\r\nHost: 127.0.0.1:{port}\r\nUpgrade: websocket\r\n"
                            "Connection: Upgrade\r\nSec-WebSocket-Version: 13\r\n"
                            "Sec-WebSocket-Key: AAAAAAAAAAAAAAAAAAAAAA==\r\n\r\n".encode())
        while self.stream.readline() != b"\r\n":
            pass
        self.call("session.new", capabilities={})
        self.context = self.call("browsingContext.getTree")["contexts"][0]["context"]
        if is_phone:
            self.call("browsingContext.setViewport", context=self.context, viewport={"width": 390, "height": 844})

    def call(self, method, **words):
        self.number += 1
        told = json.dumps({"id": self.number, "method": method, "params": words}).encode()
        self.socket.sendall(mock.frame(mock.TEXT, told, is_masked=True))
        while True:
            answer = json.loads(mock.read_frame(self.stream)[1])
            if answer.get("id") == self.number:
                if answer["type"] == "error":
                    raise ValueError(f"{method}: {answer['message']}")
                return answer["result"]

    def open(self, url):
        self.call("browsingContext.navigate", context=self.context, url=url, wait="complete")

    def run(self, script):
        done = self.call("script.callFunction", functionDeclaration=f"() => JSON.stringify((() => {{ {script} }})() ?? null)",
                         awaitPromise=False, target={"context": self.context}, userActivation=True)
        if done["type"] != "success":
            raise ValueError(done["exceptionDetails"]["text"])
        return json.loads(done["result"]["value"])

    def act(self, actions):
        self.call("input.performActions", context=self.context, actions=actions)

    def hide(self):
        other = self.call("browsingContext.create", type="tab", background=False)["context"]
        return lambda: (self.call("browsingContext.activate", context=self.context),
                        self.call("browsingContext.close", context=other))

    def shot(self):
        return base64.b64decode(self.call("browsingContext.captureScreenshot", context=self.context)["data"])

    def end(self):
        self.program.terminate()
        self.program.wait()
        shutil.rmtree(self.profile, ignore_errors=True)


def unfiltered(kind, row, above, size):
    """A row of a PNG as it was before its filter (PNG, section 9), of so many bytes a pixel."""
    out = bytearray()
    for i, byte in enumerate(row):
        left, up, corner = (out[i - size], above[i], above[i - size]) if i >= size else (0, above[i], 0)
        nearest = min((left, up, corner), key=lambda near: abs(left + up - corner - near))
        out.append((byte + (0, left, up, (left + up) // 2, nearest)[kind]) & 255)
    return bytes(out)


def picture_of(data):
    """The colours of a PNG file, as hexadecimal digits."""
    wide, _, _, form = struct.unpack(">IIBB", data[16:26])
    size, at, stream = {2: 3, 6: 4}[form], 8, b""
    while at < len(data):
        length = int.from_bytes(data[at:at + 4], "big")
        stream += data[at + 8:at + 8 + length] if data[at + 4:at + 8] == b"IDAT" else b""
        at += 12 + length
    stream, row, colors = zlib.decompress(stream), bytes(wide * size), ""
    for at in range(0, len(stream), wide * size + 1):
        row = unfiltered(stream[at], stream[at + 1:at + 1 + wide * size], row, size)
        colors += "".join(row[i:i + 3].hex() for i in range(0, len(row), size))
    return colors
