"""Headless Chromium, asked by the DevTools protocol over two pipes."""

import base64
import fcntl
import functools
import json
import os
import select
import shutil
import signal
import subprocess
import tempfile
import time
from pathlib import Path
from typing import Any

from suite import LeftOut

Value = dict[str, Any]
NAMES = "chromium", "chromium-browser", "google-chrome"
WAIT = 120.0
OPTIONS = (
    "--headless=new", "--no-sandbox", "--disable-gpu", "--disable-dev-shm-usage", "--no-first-run", "--remote-debugging-pipe",
    "--disable-background-networking", "--disable-component-update", "--disable-sync", "--disable-default-apps", "--mute-audio",
    "--hide-scrollbars", "--font-render-hinting=none",
)
KEYS = {"ArrowDown": 40, "ArrowUp": 38, "ArrowLeft": 37, "ArrowRight": 39, "Home": 36, "End": 35, "Enter": 13, "Escape": 27}


@functools.cache
def install() -> None:
    """Installs the browser where this may be done; tried once."""
    if os.geteuid() == 0 and shutil.which("apt-get"):
        print("installing chromium", flush=True)
        quiet = {"stdout": subprocess.DEVNULL, "stderr": subprocess.DEVNULL}
        subprocess.run(["apt-get", "update"], check=False, **quiet)
        subprocess.run(["apt-get", "install", "-y", "--no-install-recommends", "chromium", "fonts-dejavu-core"], check=False, **quiet)


def chromium() -> str:
    """The browser. `LeftOut` where there is none and none can be installed."""
    if not any(map(shutil.which, NAMES)):
        install()
    for name in NAMES:
        if path := shutil.which(name):
            return path
    raise LeftOut("there is no Chromium")


class Browser:
    """One browser with one tab; what the tab says and asks for is kept."""

    def __init__(self) -> None:
        self.home = tempfile.mkdtemp(prefix="room_page.")
        ours_in, theirs_out = os.pipe()
        theirs_in, ours_out = os.pipe()
        high = [fcntl.fcntl(end, fcntl.F_DUPFD, 20) for end in (theirs_in, theirs_out)]

        def pipes() -> None:
            os.dup2(high[0], 3)
            os.dup2(high[1], 4)

        words = [chromium(), *OPTIONS, f"--user-data-dir={self.home}", "about:blank"]
        self.log = open(Path(self.home) / "stderr", "wb")
        self.process = subprocess.Popen(words, preexec_fn=pipes, pass_fds=(3, 4), close_fds=True, stdin=subprocess.DEVNULL,
                                        stdout=self.log, stderr=self.log, start_new_session=True)
        for end in (theirs_in, theirs_out, *high):
            os.close(end)
        self.reads, self.writes, self.rest, self.count = ours_in, ours_out, b"", 0
        self.session: str | None = None
        self.happened: list[Value] = []
        target = self.ask("Target.createTarget", url="about:blank")["targetId"]
        self.session = self.ask("Target.attachToTarget", targetId=target, flatten=True)["sessionId"]
        for part in ("Page", "Runtime", "Log", "Network"):
            self.ask(f"{part}.enable")
        self.ask("Page.setLifecycleEventsEnabled", enabled=True)

    def close(self) -> None:
        try:
            os.killpg(self.process.pid, signal.SIGKILL)
        except ProcessLookupError:
            pass
        self.process.wait()
        self.log.close()
        shutil.rmtree(self.home, ignore_errors=True)

    def __enter__(self) -> "Browser":
        return self

    def __exit__(self, *_: object) -> None:
        self.close()

    def next_message(self) -> Value:
        end = time.monotonic() + WAIT
        while b"\0" not in self.rest:
            if not select.select([self.reads], [], [], max(0.0, end - time.monotonic()))[0]:
                raise TimeoutError("chromium says nothing")
            read = os.read(self.reads, 1 << 20)
            if not read:
                raise ConnectionError("chromium ended")
            self.rest += read
        message, self.rest = self.rest.split(b"\0", 1)
        return json.loads(message)

    def ask(self, method: str, **params: Any) -> Value:
        self.count += 1
        message: Value = {"id": self.count, "method": method, "params": params}
        if self.session is not None:
            message["sessionId"] = self.session
        os.write(self.writes, json.dumps(message).encode() + b"\0")
        while True:
            got = self.next_message()
            if got.get("id") == self.count:
                if "error" in got:
                    raise RuntimeError(f"{method}: {got['error']}")
                return got["result"]
            self.happened.append(got)

    def open(self, page: Path, mark: str = "") -> float:
        """Opens a page, and answers how many seconds passed until its script had run and a frame was drawn."""
        self.load("about:blank")
        self.happened.clear()
        start = time.monotonic()
        self.load(page.resolve().as_uri() + mark)
        self.value("new Promise((done) => requestAnimationFrame(() => setTimeout(() => done(1), 0)))")
        return time.monotonic() - start

    def load(self, address: str) -> None:
        loader = self.ask("Page.navigate", url=address).get("loaderId")
        if loader is None:
            raise RuntimeError(f"{address}: only another place of the page that is open")

        def loaded(event: Value) -> bool:
            params = event.get("params", {})
            return event.get("method") == "Page.lifecycleEvent" and params["name"] == "load" and params["loaderId"] == loader

        while not any(loaded(event) for event in self.happened):
            self.happened.append(self.next_message())

    def value(self, expression: str) -> Any:
        """What an expression of JavaScript answers."""
        got = self.ask("Runtime.evaluate", expression=expression, returnByValue=True, awaitPromise=True)
        if "exceptionDetails" in got:
            raise AssertionError(f"{expression}: {got['exceptionDetails']}")
        return got["result"].get("value")

    def press(self, key: str, shift: bool = False) -> None:
        text = key if len(key) == 1 else "\r" if key == "Enter" else ""
        code = KEYS.get(key, ord(key.upper()) if len(key) == 1 else 0)
        for kind in ("keyDown", "keyUp"):
            more = {"text": text} if text and kind == "keyDown" else {}
            self.ask("Input.dispatchKeyEvent", type=kind, key=key, windowsVirtualKeyCode=code, modifiers=8 if shift else 0, **more)

    def type(self, text: str) -> None:
        self.ask("Input.insertText", text=text)

    def click(self, selector: str, shift: bool = False) -> None:
        place = self.value(f"(() => {{ const e = document.querySelector({json.dumps(selector)}); e.scrollIntoView({{block: 'nearest'}});"
                           " const b = e.getBoundingClientRect(); return [b.x + Math.min(b.width / 2, 40), b.y + b.height / 2]; })()")
        for kind in ("mousePressed", "mouseReleased"):
            self.ask("Input.dispatchMouseEvent", type=kind, x=place[0], y=place[1], button="left", clickCount=1,
                     modifiers=8 if shift else 0)

    def size(self, width: int, height: int) -> None:
        self.ask("Emulation.setDeviceMetricsOverride", width=width, height=height, deviceScaleFactor=1, mobile=False)

    def scheme(self, name: str) -> None:
        self.ask("Emulation.setEmulatedMedia", features=[{"name": "prefers-color-scheme", "value": name}])

    def picture(self, file: Path) -> None:
        file.write_bytes(base64.b64decode(self.ask("Page.captureScreenshot", format="png")["data"]))

    def processor_time(self) -> float:
        """Seconds of a processor that the browser's processes took so far."""
        ticks = 0
        for file in Path("/proc").glob("[0-9]*/stat"):
            try:
                fields = file.read_text().rsplit(")", 1)[1].split()
            except OSError:
                continue
            if int(fields[2]) == self.process.pid:
                ticks += int(fields[11]) + int(fields[12])
        return ticks / os.sysconf("SC_CLK_TCK")

    def said(self) -> list[str]:
        """Messages on the console, exceptions, and what the browser logs of the page."""
        self.value("new Promise((done) => setTimeout(() => done(1), 30))")
        kinds = ("Runtime.consoleAPICalled", "Runtime.exceptionThrown", "Log.entryAdded")
        return [json.dumps(event["params"])[:400] for event in self.happened if event.get("method") in kinds]

    def asked_for(self) -> list[str]:
        """The addresses that the page asked for, beside its own."""
        sent = [event["params"] for event in self.happened if event.get("method") == "Network.requestWillBeSent"]
        addresses = [params["request"]["url"] for params in sent]
        return [address for address in addresses if not address.startswith(("about:", "file:"))] + addresses[1:]
