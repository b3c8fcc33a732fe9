"""Chromium without a window, asked through its DevTools protocol over two pipes."""
import base64
import json
import os
import re
import select
import shutil
import struct
import subprocess
import tempfile
import time
import zlib

SECONDS = 60
# The keys that are pressed: their codes.
KEYS = {"Tab": 9, "Enter": 13, " ": 32, "PageUp": 33, "PageDown": 34, "End": 35, "Home": 36}
KEYS |= {"ArrowUp": 38, "ArrowDown": 40}
SHIFT = 8

# The size of a picture, its 64 most frequent colours, and for each point the place of the nearest of these.
PALETTE = """async (data) => {
  const image = Object.assign(new Image(), { src: `data:image/png;base64,${data}` });
  await image.decode();
  const { width, height } = image;
  const context = new OffscreenCanvas(width, height).getContext("2d");
  context.drawImage(image, 0, 0);
  const points = new Uint32Array(context.getImageData(0, 0, width, height).data.buffer);
  const counts = new Map();
  for (const colour of points) counts.set(colour, (counts.get(colour) ?? 0) + 1);
  const palette = [...counts].sort((a, b) => b[1] - a[1]).slice(0, 64).map(([colour]) => colour);
  const part = (colour, bits) => (colour >> bits) & 255;
  const far = (a, b) => [0, 8, 16].reduce((sum, bits) => sum + (part(a, bits) - part(b, bits)) ** 2, 0);
  const places = new Map();
  for (const colour of counts.keys()) {
    let best = 0;
    palette.forEach((its, place) => { if (far(its, colour) < far(palette[best], colour)) best = place; });
    places.set(colour, best);
  }
  let text = "";
  for (const colour of points) text += String.fromCharCode(places.get(colour));
  return [width, height, palette, btoa(text)];
}"""


class Gone(Exception):
    """The browser answers no more, or shows no page."""


class Browser:
    """A browser with one page. Its errors are kept in `errors`, and the addresses that it asked for in `asked`."""

    def __init__(self):
        self.folder = tempfile.mkdtemp()
        to_read, self._to = os.pipe()
        self._from, to_write = os.pipe()
        words = ["chromium", "--headless", "--remote-debugging-pipe", f"--user-data-dir={self.folder}", "--no-first-run"]
        words += ["--disable-gpu", "--hide-scrollbars", "--force-color-profile=srgb", "--disable-lcd-text"]
        words.append("--disable-background-networking")
        if os.geteuid() == 0:
            words.append("--no-sandbox")
        # The shell gives the pipes the numbers that the browser takes.
        command = ["bash", "-c", f'exec "$@" 3<&{to_read} 4>&{to_write}', "-", *words, "about:blank"]
        quiet = {"stdin": subprocess.DEVNULL, "stdout": subprocess.DEVNULL, "stderr": subprocess.DEVNULL}
        self._process = subprocess.Popen(command, pass_fds=(to_read, to_write), start_new_session=True, **quiet)
        os.close(to_read)
        os.close(to_write)
        self._rest = b""
        self._number = 0
        self._session = None
        self.errors = []
        self.asked = []
        (page,) = [it for it in self.call("Target.getTargets")["targetInfos"] if it["type"] == "page"]
        self._session = self.call("Target.attachToTarget", targetId=page["targetId"], flatten=True)["sessionId"]
        for domain in ("Page", "Runtime", "Log", "Network"):
            self.call(f"{domain}.enable")

    def call(self, method, **parameters):
        """What a method returns. Events that come before are kept."""
        self._number += 1
        message = {"id": self._number, "method": method, "params": parameters}
        if self._session:
            message["sessionId"] = self._session
        data = json.dumps(message).encode() + b"\0"
        while data:
            data = data[os.write(self._to, data) :]
        while True:
            answer = self._read()
            if answer.get("id") == self._number:
                if "error" in answer:
                    raise RuntimeError(f"{method}: {answer['error']}")
                return answer["result"]
            self._keep(answer)

    def _read(self):
        pieces = [self._rest]
        while b"\0" not in pieces[-1]:
            if not select.select([self._from], [], [], SECONDS)[0]:
                raise Gone(f"the browser said nothing for {SECONDS} seconds")
            piece = os.read(self._from, 1 << 20)
            if not piece:
                raise Gone("the browser ended")
            pieces.append(piece)
        message, _, self._rest = b"".join(pieces).partition(b"\0")
        return json.loads(message)

    def _keep(self, event):
        name, its = event["method"], event["params"]
        if name == "Runtime.exceptionThrown":
            self.errors.append(its["exceptionDetails"].get("exception", {}).get("description", str(its)))
        if name == "Log.entryAdded" and its["entry"]["level"] == "error":
            self.errors.append(its["entry"]["text"])
        if name == "Network.requestWillBeSent":
            self.asked.append(its["request"]["url"])

    def open(self, address):
        self.call("Page.navigate", url=address)

    def ask(self, script):
        """The value of an expression in the page, waited for where it is a promise."""
        answer = self.call("Runtime.evaluate", expression=script, awaitPromise=True, returnByValue=True)
        if "exceptionDetails" in answer:
            raise RuntimeError(answer["exceptionDetails"].get("exception", {}).get("description", str(answer)))
        return answer["result"].get("value")

    def wait(self, script, seconds=SECONDS):
        """Waits until an expression is true. Returns whether it became so."""
        end = time.monotonic() + seconds
        while time.monotonic() < end:
            if self.ask(f"Boolean({script})"):
                return True
            time.sleep(0.02)
        return False

    def insert(self, text):
        """Types a text into what has the focus."""
        self.call("Input.insertText", text=text)

    def press(self, key, modifiers=0, commands=()):
        """Presses a key, with the commands of an editor that go with it."""
        its = {"key": key, "code": "Space" if key == " " else key, "windowsVirtualKeyCode": KEYS.get(key, 0)}
        its["modifiers"] = modifiers
        text = {" ": {"text": " "}, "Enter": {"text": "\r"}}.get(key, {})
        self.call("Input.dispatchKeyEvent", type="keyDown" if text else "rawKeyDown", commands=list(commands), **its, **text)
        self.call("Input.dispatchKeyEvent", type="keyUp", **its)

    def click(self, selector):
        """Clicks the middle of the first element of a selector, after it was brought into sight."""
        found = f"document.querySelector({json.dumps(selector)})"
        self.ask(f"{found}.scrollIntoView({{block: 'center'}})")
        box = self.ask(f"(({{x, y, width, height}}) => [x + width / 2, y + height / 2])({found}.getBoundingClientRect())")
        for kind in ("mousePressed", "mouseReleased"):
            self.call("Input.dispatchMouseEvent", type=kind, x=box[0], y=box[1], button="left", clickCount=1)

    def look(self, scheme="light", width=1280, height=1000):
        """Sets the size of the window and its colours."""
        self.call("Emulation.setDeviceMetricsOverride", width=width, height=height, deviceScaleFactor=1, mobile=False)
        self.call("Emulation.setEmulatedMedia", features=[{"name": "prefers-color-scheme", "value": scheme}])

    def picture(self, file):
        """Writes what is in sight as a small PNG: of its colours the 64 most frequent are kept."""
        data = self.call("Page.captureScreenshot", format="png")["data"]
        width, height, palette, places = self.ask(f"({PALETTE})('{data}')")
        places = base64.b64decode(places)
        lines = b"".join(b"\0" + places[at : at + width] for at in range(0, len(places), width))
        colours = b"".join(colour.to_bytes(4, "little")[:3] for colour in palette)
        chunks = (b"IHDR", struct.pack(">IIBBBBB", width, height, 8, 3, 0, 0, 0)), (b"PLTE", colours)
        chunks += (b"IDAT", zlib.compress(lines, 9)), (b"IEND", b"")
        data = b"\x89PNG\r\n\x1a\n"
        for name, its in chunks:
            data += struct.pack(">I", len(its)) + name + its + struct.pack(">I", zlib.crc32(name + its))
        file.write_bytes(data)

    def end(self):
        try:
            self._session = None
            self.call("Browser.close")
        except (Gone, RuntimeError, OSError):
            self._process.kill()
        self._process.wait(timeout=SECONDS)
        os.close(self._to)
        os.close(self._from)
        shutil.rmtree(self.folder, ignore_errors=True)


def major_version():
    """The first number of the browser's version, or 0."""
    said = subprocess.run(["chromium", "--version"], stdout=subprocess.PIPE, stderr=subprocess.DEVNULL, text=True).stdout
    found = re.search(r"(\d+)\.", said)
    return int(found[1]) if found else 0
