"""A page in headless Chromium, driven by its debugging protocol over pipes, and the server for its files."""
import functools
import http.server
import json
import os
import select
import shutil
import subprocess
import threading
import time

SECONDS = 120  # for one answer, also on a busy machine


def chromium():
    """The program, or None."""
    return next(filter(None, map(shutil.which, ("chromium", "chromium-browser", "google-chrome"))), None)


class Files(http.server.SimpleHTTPRequestHandler):
    """The files of a folder; one of them may be elsewhere."""

    def __init__(self, *arguments, module, **named):
        self.module = module
        super().__init__(*arguments, **named)

    def translate_path(self, path):
        return self.module if path == "/bin/rope_search.wasm" else super().translate_path(path)

    def log_message(self, *_):
        pass


class Served:
    """A server of a folder on its own port, like python3 -m http.server."""

    def __init__(self, folder, module):
        handler = functools.partial(Files, directory=folder, module=module)
        self.server = http.server.ThreadingHTTPServer(("127.0.0.1", 0), handler)
        threading.Thread(target=self.server.serve_forever, daemon=True).start()
        self.at = f"http://127.0.0.1:{self.server.server_port}"

    def __enter__(self):
        return self

    def __exit__(self, *_):
        self.server.shutdown()
        self.server.server_close()


class Page:
    """A page in its own browser."""

    def __init__(self, url, home, *flags):
        commands, to = os.pipe()
        at, answers = os.pipe()
        os.set_inheritable(commands, True)
        os.set_inheritable(answers, True)
        words = [chromium(), "--headless", "--no-sandbox", "--disable-gpu", "--disable-dev-shm-usage",
                 "--remote-debugging-pipe", f"--user-data-dir={home}", "--window-size=1100,800", *flags, "about:blank"]
        # The browser reads commands at 3 and writes answers to 4.
        shell = ["sh", "-c", f"exec 3<&{commands} 4>&{answers}; exec \"$@\"", "sh", *words]
        self.process = subprocess.Popen(shell, pass_fds=(commands, answers), stdin=subprocess.DEVNULL,
                                        stdout=subprocess.DEVNULL, stderr=subprocess.DEVNULL, start_new_session=True)
        os.close(commands)
        os.close(answers)
        self.to, self.at, self.held, self.number, self.session, self.events = to, at, b"", 0, None, set()
        target = self.ask("Target.createTarget", url="about:blank")["targetId"]
        self.session = self.ask("Target.attachToTarget", targetId=target, flatten=True)["sessionId"]
        self.ask("Page.enable")
        self.ask("Page.navigate", url=url)
        while "Page.loadEventFired" not in self.events:
            self.message()

    def __enter__(self):
        return self

    def __exit__(self, *_):
        os.close(self.to)
        try:
            self.process.wait(10)
        except subprocess.TimeoutExpired:
            self.process.kill()
            self.process.wait()
        os.close(self.at)

    def message(self):
        """The next answer or event."""
        until = time.monotonic() + SECONDS
        while b"\0" not in self.held:
            if not select.select([self.at], [], [], max(0, until - time.monotonic()))[0]:
                raise TimeoutError(f"the browser says nothing within {SECONDS} seconds")
            more = os.read(self.at, 1 << 16)
            if not more:
                raise EOFError("the browser has ended")
            self.held += more
        one, _, self.held = self.held.partition(b"\0")
        told = json.loads(one)
        self.events.add(told.get("method"))
        return told

    def ask(self, method, **parameters):
        self.number += 1
        sent = {"id": self.number, "method": method, "params": parameters}
        if self.session:
            sent["sessionId"] = self.session
        os.write(self.to, json.dumps(sent).encode() + b"\0")
        while True:
            answer = self.message()
            if answer.get("id") == self.number:
                if "error" in answer:
                    raise RuntimeError(f"{method}: {answer['error']}")
                return answer["result"]

    def value(self, expression):
        """The value of an expression in the page, also of a promise."""
        told = self.ask("Runtime.evaluate", expression=expression, awaitPromise=True, returnByValue=True)
        if "exceptionDetails" in told:
            raise RuntimeError(json.dumps(told["exceptionDetails"])[:500])
        return told["result"].get("value")

    def wait(self, expression, seconds=SECONDS):
        """Waits until an expression is true, and returns it."""
        until = time.monotonic() + seconds
        while not (found := self.value(expression)):
            if time.monotonic() > until:
                raise TimeoutError(f"{expression} isn't so within {seconds} seconds")
            time.sleep(0.02)
        return found

    def type(self, text):
        """Types text at the focus."""
        self.ask("Input.insertText", text=text)

    def press(self, key, control=False, shift=False):
        code = {"Enter": 13, "Tab": 9, "Backspace": 8, "Delete": 46, "Escape": 27, "Home": 36, "End": 35, "F3": 114,
                "ArrowLeft": 37, "ArrowUp": 38, "ArrowRight": 39, "ArrowDown": 40, "PageUp": 33, "PageDown": 34}
        number = code.get(key) or ord(key.upper())
        both = {"key": key, "windowsVirtualKeyCode": number, "modifiers": 2 * control + 8 * shift}
        self.ask("Input.dispatchKeyEvent", type="rawKeyDown", **both)
        self.ask("Input.dispatchKeyEvent", type="keyUp", **both)
