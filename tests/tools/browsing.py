"""A browser without a window, Debian's chromium, that is asked by the DevTools protocol over two pipes. It is alone with its
profile in a temporary folder, and finds no address but this machine's."""
import base64
import contextlib
import json
import os
import pathlib
import select
import shutil
import signal
import subprocess
import tempfile
import time

COMMAND = "chromium"
IS_MISSING = shutil.which(COMMAND) is None
PATIENCE = 60  # seconds for what takes a moment where the machine has nothing else to do
LAST_SECONDS = 5  # for it to end by itself
PIECE = 1 << 16
COMMANDS, ANSWERS = 3, 4  # the files by which it is asked, and answers
FLAGS = ["--headless=new", "--no-sandbox", "--no-first-run", "--no-default-browser-check", "--disable-gpu", "--mute-audio",
         "--disable-dev-shm-usage", "--disable-background-networking", "--disable-component-update", "--disable-default-apps",
         "--disable-extensions", "--disable-sync", "--disable-domain-reliability", "--disable-client-side-phishing-detection",
         "--metrics-recording-only", "--no-pings", "--disable-breakpad",
         "--disable-features=OptimizationHints,Translate,MediaRouter",
         "--host-resolver-rules=MAP * ~NOTFOUND, EXCLUDE 127.0.0.1", "--hide-scrollbars", "--remote-debugging-pipe"]


class Browser:
    """A browser with one page. Used as a context, it ends with it."""

    def __init__(self):
        self.ends = contextlib.ExitStack()
        folder = pathlib.Path(self.ends.enter_context(tempfile.TemporaryDirectory(ignore_cleanup_errors=True)))
        asked, self.asking = os.pipe()
        self.hearing, answers = os.pipe()
        for file in (self.asking, self.hearing):
            self.ends.callback(os.close, file)
        words = ["sh", "-c", 'exec "$@" %d<&%d %d>&%d' % (COMMANDS, asked, ANSWERS, answers), "sh", COMMAND, *FLAGS,
                 "--user-data-dir=%s" % (folder / "profile"), "about:blank"]
        self.process = subprocess.Popen(
            words, pass_fds=(asked, answers), start_new_session=True, stdin=subprocess.DEVNULL, stdout=subprocess.DEVNULL,
            stderr=subprocess.DEVNULL, env={"PATH": os.environ["PATH"], "HOME": str(folder), "LANG": "C.UTF-8"})
        os.close(asked)
        os.close(answers)
        self.count, self.rest, self.events, self.session = 0, b"", [], None

    def __enter__(self):
        try:
            target = self.ask("Target.createTarget", url="about:blank")["targetId"]
            self.session = self.ask("Target.attachToTarget", targetId=target, flatten=True)["sessionId"]
            self.ask("Page.enable")
            self.ask("Page.setLifecycleEventsEnabled", enabled=True)
        except BaseException:
            self.__exit__()
            raise
        return self

    def __exit__(self, *_):
        with contextlib.suppress(OSError, AssertionError):
            self.session = None
            self.ask("Browser.close")
            self.process.wait(LAST_SECONDS)
        with contextlib.suppress(ProcessLookupError):
            os.killpg(self.process.pid, signal.SIGKILL)  # what it started is in a session of its own
        self.process.wait()
        self.ends.close()

    # The protocol: JSON with an octet 0 after each message.

    def ask(self, method, **given):
        """What it answers."""
        self.count += 1
        asked = {"id": self.count, "method": method, "params": given} | ({"sessionId": self.session} if self.session else {})
        os.write(self.asking, json.dumps(asked).encode() + b"\0")
        number = self.count
        answer = self.until(lambda told: told.get("id") == number)
        assert "result" in answer, answer
        return answer["result"]

    def until(self, holds):
        """The first message that wasn't taken yet for which something holds."""
        end = time.monotonic() + PATIENCE
        while (event := next(filter(holds, self.events), None)) is None:
            assert select.select([self.hearing], [], [], max(0.0, end - time.monotonic()))[0], "not within %d s" % PATIENCE
            piece = os.read(self.hearing, PIECE)
            assert piece, "the browser ended"
            *told, self.rest = (self.rest + piece).split(b"\0")
            self.events += map(json.loads, told)
        self.events.remove(event)
        return event

    def until_loaded(self, loader):
        """Waits for a page, which isn't loaded again by itself then."""
        self.until(lambda told: told.get("method") == "Page.lifecycleEvent" and told["params"]["name"] == "load"
                   and told["params"]["loaderId"] == loader)
        self.ask("Page.stopLoading")

    # The page.

    def open(self, address, width, height=900):
        """Opens a page on a screen of this size, which is that of a phone where it is narrow."""
        self.ask("Emulation.setDeviceMetricsOverride", width=width, height=height, deviceScaleFactor=1, mobile=width < 600)
        told = self.ask("Page.navigate", url=address)
        assert "errorText" not in told, told
        self.until_loaded(told["loaderId"])

    def click(self, selector):
        """Clicks on the first of these, and waits for the page that it leads to."""
        across, down = self.value("""(() => { const found = document.querySelector(%s); found.scrollIntoView({block: "center"});
            const box = found.getBoundingClientRect(); return [box.x + box.width / 2, box.y + box.height / 2]; })()"""
                                  % json.dumps(selector))
        self.events.clear()
        for kind in ("mousePressed", "mouseReleased"):
            self.ask("Input.dispatchMouseEvent", type=kind, x=across, y=down, button="left", clickCount=1)
        self.until_loaded(self.until(lambda told: told.get("method") == "Page.frameNavigated")["params"]["frame"]["loaderId"])

    def value(self, script):
        """What a script gives in the page."""
        told = self.ask("Runtime.evaluate", expression=script, returnByValue=True)
        assert "exceptionDetails" not in told, told
        return told["result"].get("value")

    def picture(self, path):
        """Writes the whole page as PNG."""
        told = self.ask("Page.captureScreenshot", format="png", captureBeyondViewport=True)
        pathlib.Path(path).write_bytes(base64.b64decode(told["data"]))
