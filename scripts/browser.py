"""A headless Chromium that a test drives: it opens an address, presses keys, evaluates expressions, and tells how the page is named
for a screen reader. It is spoken to by a pair of pipes (the DevTools protocol), so nothing is served and nothing is installed. Where
there is no browser, `found` is None.
"""
import json
import os
import shutil
import signal
import subprocess
import tempfile
import time

found = next((path for path in map(shutil.which, ("chromium", "chromium-browser", "google-chrome")) if path), None)
KEYS = {"Tab": 9, "Enter": 13, "Escape": 27, "ArrowDown": 40, "ArrowRight": 39}


class Browser:
    """One page of a browser of its own. It is ended by `with`."""

    def __init__(self, width=1400, height=900):
        self.folder = tempfile.TemporaryDirectory(prefix="ffox-browser-")
        out_read, out_write = os.pipe()
        in_read, in_write = os.pipe()

        def pipes():
            """The browser reads descriptor 3 and writes descriptor 4."""
            reads, writes = os.dup(out_read), os.dup(in_write)
            os.dup2(reads, 3)
            os.dup2(writes, 4)

        words = [found, "--headless", "--no-sandbox", "--disable-gpu", "--remote-debugging-pipe", "--user-data-dir=" + self.folder.name,
                 "--window-size=%d,%d" % (width, height), "about:blank"]
        self.process = subprocess.Popen(words, stdout=subprocess.DEVNULL, stderr=subprocess.DEVNULL, preexec_fn=pipes, close_fds=False, start_new_session=True)
        os.close(out_read)
        os.close(in_write)
        self.writes, self.reads, self.rest, self.number, self.session = out_write, in_read, b"", 0, None
        target = next(one for one in self.call("Target.getTargets")["targetInfos"] if one["type"] == "page")
        self.session = self.call("Target.attachToTarget", targetId=target["targetId"], flatten=True)["sessionId"]
        self.call("Page.enable")

    def __enter__(self):
        return self

    def __exit__(self, *_):
        os.close(self.writes)
        try:
            os.killpg(self.process.pid, signal.SIGKILL)
        except ProcessLookupError:
            pass
        self.process.wait()
        os.close(self.reads)
        self.folder.cleanup()

    def call(self, method, **params):
        """What the browser answers to a call of the protocol."""
        self.number += 1
        said = {"id": self.number, "method": method, "params": params, **({"sessionId": self.session} if self.session else {})}
        os.write(self.writes, json.dumps(said).encode() + b"\0")
        while True:
            while b"\0" not in self.rest:
                piece = os.read(self.reads, 1 << 16)
                if not piece:
                    raise OSError("the browser has ended")
                self.rest += piece
            text, _, self.rest = self.rest.partition(b"\0")
            answer = json.loads(text)
            if answer.get("id") == self.number:
                return answer.get("result", {})

    def open(self, address):
        self.call("Page.navigate", url=address)

    def value(self, expression):
        """The value of an expression of the page."""
        return self.call("Runtime.evaluate", expression=expression, returnByValue=True, awaitPromise=True).get("result", {}).get("value")

    def wait(self, expression, seconds=20):
        """Whether an expression becomes true in this time."""
        end = time.time() + seconds
        while time.time() < end:
            if self.value(expression):
                return True
            time.sleep(0.05)
        return False

    def press(self, key, times=1):
        for _ in range(times):
            code = {"key": key, "code": key, "windowsVirtualKeyCode": KEYS[key], **({"text": "\r"} if key == "Enter" else {})}
            self.call("Input.dispatchKeyEvent", type="keyDown", **code)
            self.call("Input.dispatchKeyEvent", type="keyUp", **code)

    def type(self, text):
        self.call("Input.insertText", text=text)

    def unnamed(self):
        """The roles of what one can act on that has no name for a screen reader."""
        wanted = ("button", "textbox", "combobox", "checkbox", "link", "dialog", "region")
        found_nodes = self.call("Accessibility.getFullAXTree").get("nodes", [])
        return [node["role"]["value"] for node in found_nodes
                if not node.get("ignored") and node.get("role", {}).get("value") in wanted and not node.get("name", {}).get("value")]
