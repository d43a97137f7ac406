"""A headless Chromium that opens a page from disk, over the pipes of its debugging protocol."""

from __future__ import annotations

import base64
import json
import os
import shutil
import subprocess
import tempfile
from pathlib import Path
from typing import Any, Dict, List, Optional

NAMES = ("chromium", "chromium-browser", "google-chrome")
SECONDS = 60


def chromium() -> Optional[str]:
    return next((found for it in NAMES if (found := shutil.which(it))), None)


class Browser:
    """One page of a browser, without network. `messages` has what was written to its console, and what failed."""

    def __init__(self, program: str):
        self.folder = tempfile.TemporaryDirectory(prefix="strip122-browser-", ignore_cleanup_errors=True)
        given, self._sent = os.pipe()
        self._received, answers = os.pipe()

        def connect() -> None:  # the protocol is on descriptors 3 and 4
            low, high = os.dup(given), os.dup(answers)
            os.dup2(low, 3)
            os.dup2(high, 4)

        flags = ["--headless=new", "--no-sandbox", "--disable-gpu", "--remote-debugging-pipe", "--no-first-run"]
        flags += ["--disable-extensions", "--disable-background-networking", "--hide-scrollbars", "--force-color-profile=srgb"]
        words = [program, *flags, f"--user-data-dir={self.folder.name}", "about:blank"]
        null = subprocess.DEVNULL
        self._process = subprocess.Popen(words, stdin=null, stdout=null, stderr=null, pass_fds=(3, 4, given, answers), preexec_fn=connect)
        os.close(given)
        os.close(answers)
        self._number, self._rest = 0, b""
        self.messages: List[str] = []
        self.events: List[str] = []
        target = next(it for it in self.call("Target.getTargets")["targetInfos"] if it["type"] == "page")
        self._session: Optional[str] = None
        self._session = self.call("Target.attachToTarget", targetId=target["targetId"], flatten=True)["sessionId"]
        for domain in ("Page", "Runtime", "Log", "Network"):
            self.call(f"{domain}.enable")
        self.call("Network.emulateNetworkConditions", offline=True, latency=0, downloadThroughput=-1, uploadThroughput=-1)

    def __enter__(self) -> "Browser":
        return self

    def __exit__(self, *_: object) -> None:
        self._process.terminate()
        self._process.wait()
        os.close(self._sent)
        os.close(self._received)
        self.folder.cleanup()

    def _message(self) -> Dict[str, Any]:
        while b"\0" not in self._rest:
            piece = os.read(self._received, 1 << 16)
            if not piece:
                raise RuntimeError("the browser ended")
            self._rest += piece
        line, _, self._rest = self._rest.partition(b"\0")
        return dict(json.loads(line))

    def call(self, method: str, **words: Any) -> Dict[str, Any]:
        """Calls a method of the protocol, and returns its result."""
        self._number += 1
        call: Dict[str, Any] = {"id": self._number, "method": method, "params": words}
        if getattr(self, "_session", None):
            call["sessionId"] = self._session
        os.write(self._sent, json.dumps(call).encode() + b"\0")
        while True:
            message = self._message()
            if message.get("id") == self._number:
                if "error" in message:
                    raise RuntimeError(f"{method}: {message['error']['message']}")
                return dict(message["result"])
            self.note(message)

    def note(self, message: Dict[str, Any]) -> None:
        """Keeps an event, if it is a message of the page."""
        words = message.get("params", {})
        self.events.append(message.get("method", ""))
        if message.get("method") == "Runtime.consoleAPICalled":
            self.messages.append(" ".join(str(it.get("value", it.get("description"))) for it in words["args"]))
        elif message.get("method") == "Runtime.exceptionThrown":
            self.messages.append(words["exceptionDetails"]["text"])
        elif message.get("method") == "Log.entryAdded":
            self.messages.append(words["entry"]["text"])
        elif message.get("method") == "Network.loadingFailed":
            self.messages.append(f"not loaded: {words['errorText']}")

    def run(self, script: str) -> Any:
        """Returns the value of a script, which may be a promise."""
        answer = self.call("Runtime.evaluate", expression=script, awaitPromise=True, returnByValue=True)
        if "exceptionDetails" in answer:
            raise RuntimeError(str(answer["exceptionDetails"]))
        return answer["result"].get("value")

    def open(self, page: Path) -> None:
        """Opens a file, and waits until it is loaded with all its pictures."""
        self.events.clear()
        self.call("Page.navigate", url=page.resolve().as_uri())
        while "Page.loadEventFired" not in self.events:
            self.note(self._message())
        self.run(
            "Promise.all([...document.images].map(it => { it.loading = 'eager'; return it.complete ? 0 :"
            " new Promise(done => { it.onload = it.onerror = done; }); }))"
        )

    def show(self, width: int, height: int, is_dark: bool = False, scale: float = 1, is_phone: bool = False) -> None:
        """Sets the size of the window, and whether the page is dark."""
        self.call("Emulation.setDeviceMetricsOverride", width=width, height=height, deviceScaleFactor=scale, mobile=is_phone)
        scheme = {"name": "prefers-color-scheme", "value": "dark" if is_dark else "light"}
        self.call("Emulation.setEmulatedMedia", features=[scheme])

    def press(self, key: str, code: int) -> None:
        """Presses a key, as Tab with the code 9."""
        words = {"key": key, "code": key, "windowsVirtualKeyCode": code}
        text = {"text": "\r" if key == "Enter" else " "} if key in ("Enter", " ") else {}
        self.call("Input.dispatchKeyEvent", type="keyDown", **words, **text)
        self.call("Input.dispatchKeyEvent", type="keyUp", **words)

    def picture(self) -> bytes:
        """Returns a PNG of the window."""
        return base64.b64decode(self.call("Page.captureScreenshot", format="png")["data"])
