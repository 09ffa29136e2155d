"""Firefox and WebKit, driven by the protocols that they have: WebDriver BiDi over a web socket, and WebDriver over
HTTP.

Each has `open(url)`, `ask(text)` for the value of an expression in the page, `type(text)` for keys, and `close()`.
"""
import base64
import glob
import json
import os
import re
import select
import shutil
import socket
import struct
import subprocess
import tempfile
import time
import urllib.error
import urllib.request

KEYS = {"\t": "\ue004", "\n": "\ue007"}
SECONDS = 240


class Failed(Exception):
    """The browser refused something, or gave no answer in time."""


def free_port():
    with socket.socket() as one:
        one.bind(("127.0.0.1", 0))
        return one.getsockname()[1]


class WebSocket:
    """A web socket's client: texts are sent and taken whole."""

    def __init__(self, port, path):
        self.socket, self.rest = socket.create_connection(("127.0.0.1", port), 20), b""
        key = base64.b64encode(os.urandom(16)).decode()
        lines = [f"GET {path} HTTP/1.1", f"Host: 127.0.0.1:{port}", "Upgrade: websocket", "Connection: Upgrade",
            f"Sec-WebSocket-Key: {key}", "Sec-WebSocket-Version: 13", "", ""]
        self.socket.sendall("\r\n".join(lines).encode())
        while b"\r\n\r\n" not in self.rest:
            self.more(time.monotonic() + 20)
        head, self.rest = self.rest.split(b"\r\n\r\n", 1)
        if b" 101 " not in head.split(b"\r\n")[0]:
            raise Failed(f"no web socket: {head[:80]}")

    def more(self, end):
        if not select.select([self.socket], [], [], max(0, end - time.monotonic()))[0]:
            raise Failed("the browser gave no answer")
        piece = self.socket.recv(1 << 20)
        if not piece:
            raise Failed("the browser has ended")
        self.rest += piece

    def take(self, count, end):
        while len(self.rest) < count:
            self.more(end)
        part, self.rest = self.rest[:count], self.rest[count:]
        return part

    def send(self, text):
        data, mask = text.encode(), os.urandom(4)
        size = bytes([0x80 | len(data)]) if len(data) < 126 else b"\xfe" + struct.pack(">H",
            len(data)) if len(data) < 1 << 16 else b"\xff" + struct.pack(">Q", len(data))
        masked = (int.from_bytes(data, "big") ^ int.from_bytes((mask * (len(data) // 4 + 1))[:len(data)],
            "big")).to_bytes(len(data), "big") if data else b""
        self.socket.sendall(b"\x81" + size + mask + masked)

    def receive(self, seconds):
        """The next text; what only keeps the line alive is passed over."""
        end, text = time.monotonic() + seconds, b""
        while True:
            first, size = self.take(2, end)
            size &= 127
            if size > 125:
                size = struct.unpack(">H" if size == 126 else ">Q", self.take(2 if size == 126 else 8, end))[0]
            part = self.take(size, end)
            if first & 15 in (0, 1):
                text += part
                if first & 128:
                    return text.decode()


class Firefox:
    name = "firefox"

    @staticmethod
    def found():
        return shutil.which("firefox-esr") or shutil.which("firefox")

    def __init__(self):
        self.folder = tempfile.mkdtemp()
        words = [self.found(), "--headless", "--no-remote", "--profile", self.folder, "--remote-debugging-port",
            str(free_port()), "about:blank"]
        self.process = subprocess.Popen(words, stdout=subprocess.DEVNULL, stderr=subprocess.PIPE,
            env={**os.environ, "HOME": self.folder, "MOZ_HEADLESS_WIDTH": "1400", "MOZ_HEADLESS_HEIGHT": "900"})
        self.socket, self.number = WebSocket(self.port(), "/session"), 0
        self.call("session.new", capabilities={})
        self.context = self.call("browsingContext.getTree")["contexts"][0]["context"]

    def port(self):
        end, said = time.monotonic() + 90, ""
        while time.monotonic() < end:
            if select.select([self.process.stderr], [], [], 1)[0]:
                said += os.read(self.process.stderr.fileno(), 4096).decode(errors="replace")
                found = re.search(r"WebDriver BiDi listening on ws://[^:]+:(\d+)", said)
                if found:
                    return int(found[1])
        raise Failed(f"Firefox does not listen: {said[-300:]}")

    def call(self, method, **words):
        self.number += 1
        self.socket.send(json.dumps({"id": self.number, "method": method, "params": words}))
        while True:
            answer = json.loads(self.socket.receive(SECONDS))
            if answer.get("id") == self.number:
                if answer["type"] == "error":
                    raise Failed(f"{method}: {answer['message'][:300]}")
                return answer["result"]

    def open(self, url):
        self.call("browsingContext.navigate", context=self.context, url="about:blank", wait="complete")
        self.call("browsingContext.navigate", context=self.context, url=url, wait="complete")

    def ask(self, text):
        made = self.call("script.evaluate", expression=f"(async () => JSON.stringify(await ({text})) ?? 'null')()",
            target={"context": self.context}, awaitPromise=True)
        if made["type"] != "success":
            raise Failed(made["exceptionDetails"]["text"])
        return json.loads(made["result"]["value"])

    def type(self, text):
        strokes = [{"type": kind, "value": KEYS.get(letter, letter)} for letter in text
            for kind in ("keyDown", "keyUp")]
        self.call("input.performActions", context=self.context, actions=[
            {"type": "key", "id": "keys", "actions": strokes}])

    def picture(self, path):
        with open(path, "wb") as file:
            file.write(base64.b64decode(self.call("browsingContext.captureScreenshot", context=self.context)["data"]))

    def close(self):
        self.process.terminate()
        try:
            self.process.wait(20)
        except subprocess.TimeoutExpired:
            self.process.kill()
        self.process.stderr.close()
        shutil.rmtree(self.folder, ignore_errors=True)


class WebKit:
    name = "webkit"

    @staticmethod
    def found():
        return shutil.which("WebKitWebDriver") and (shutil.which("Xvfb")
            or os.environ.get("DISPLAY")) and WebKit.binary()

    @staticmethod
    def binary():
        return next(iter(sorted(glob.glob("/usr/lib/*/webkit2gtk-4.*/MiniBrowser"), reverse=True)), None)

    def __init__(self):
        self.folder = tempfile.mkdtemp()
        env = {**os.environ, "HOME": self.folder, "XDG_RUNTIME_DIR": self.folder, "LIBGL_ALWAYS_SOFTWARE": "1",
            "WEBKIT_DISABLE_COMPOSITING_MODE": "1", "WEBKIT_DISABLE_DMABUF_RENDERER": "1", "GDK_BACKEND": "x11"}
        self.screen = None
        if shutil.which("Xvfb"):
            display = f":{100 + os.getpid() % 800}"
            self.screen = subprocess.Popen(["Xvfb", display, "-screen", "0", "1400x1000x24", "-nolisten", "tcp"],
                stdout=subprocess.DEVNULL, stderr=subprocess.DEVNULL)
            env["DISPLAY"] = display
            time.sleep(1)
        self.port = free_port()
        self.process = subprocess.Popen(["WebKitWebDriver", "-p", str(self.port)], env=env, stdout=subprocess.DEVNULL,
            stderr=subprocess.DEVNULL, start_new_session=True)
        options = {"binary": self.binary(), "args": ["--automation"]}
        self.session = None
        end = time.monotonic() + 60
        while self.session is None:
            try:
                made = self.call("POST", "/session", {"capabilities": {"alwaysMatch": {
                    "webkitgtk:browserOptions": options}}})
                self.session = made["sessionId"]
            except (OSError, Failed):
                if time.monotonic() > end:
                    self.close()
                    raise
                time.sleep(0.5)
        self.call("POST", f"/session/{self.session}/timeouts", {"script": SECONDS * 1000, "pageLoad": 120000,
            "implicit": 0})

    def call(self, method, path, body=None):
        data = None if body is None else json.dumps(body).encode()
        request = urllib.request.Request(f"http://127.0.0.1:{self.port}{path}", data,
            {"Content-Type": "application/json"}, method=method)
        opener = urllib.request.build_opener(urllib.request.ProxyHandler({}))
        try:
            with opener.open(request, timeout=SECONDS) as answer:
                return json.load(answer)["value"]
        except urllib.error.HTTPError as error:
            raise Failed(error.read().decode(errors="replace")[:400]) from error

    def open(self, url):
        self.call("POST", f"/session/{self.session}/url", {"url": "about:blank"})
        self.call("POST", f"/session/{self.session}/url", {"url": url})

    def ask(self, text):
        script = f"const done = arguments[arguments.length - 1]; (async () => ({text}))().then((value) => done(JSON.stringify([value ?? null])), (error) => done(JSON.stringify({{ error: String(error) }})));"
        made = json.loads(self.call("POST", f"/session/{self.session}/execute/async", {"script": script, "args": []}))
        if isinstance(made, dict):
            raise Failed(made["error"])
        return made[0]

    def type(self, text):
        strokes = [{"type": kind, "value": KEYS.get(letter, letter)} for letter in text
            for kind in ("keyDown", "keyUp")]
        self.call("POST", f"/session/{self.session}/actions", {"actions": [
            {"type": "key", "id": "keys", "actions": strokes}]})

    def picture(self, path):
        with open(path, "wb") as file:
            file.write(base64.b64decode(self.call("GET", f"/session/{self.session}/screenshot")))

    def close(self):
        if self.session:
            try:
                self.call("DELETE", f"/session/{self.session}")
            except (OSError, Failed):
                pass
        for process in (self.process, self.screen):
            if process is None:
                continue
            process.terminate()
            try:
                process.wait(20)
            except subprocess.TimeoutExpired:
                process.kill()
        shutil.rmtree(self.folder, ignore_errors=True)
