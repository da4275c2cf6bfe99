"""Browsers without a screen, for the scripts that try pages: Chromium and WebKit by their drivers, and Firefox by
Marionette. `kinds()` gives those that are here, and `missing()` the packages of Debian that have the others."""
import base64
import contextlib
import json
import os
import pathlib
import shutil
import socket
import subprocess
import tempfile
import time
import urllib.error
import urllib.request

SECONDS = 60
ENTER, SHIFT, CONTROL, ESCAPE, TAB = "\ue007", "\ue008", "\ue009", "\ue00c", "\ue004"
LEFT, RIGHT, HOME, END, F9 = "\ue012", "\ue014", "\ue011", "\ue010", "\ue039"
ELEMENT = "element-6066-11e4-a52e-4f735466cecf"


def free_port():
    with socket.socket() as free:
        free.bind(("127.0.0.1", 0))
        return free.getsockname()[1]


class Browser:
    """What the scripts do with a browser. `command` is a call of its protocol."""

    name = ""

    def open(self, url):
        self.command("open", {"url": url})

    def run(self, script, *arguments):
        """The answer of a script in the page, which may wait; None where the page went away meanwhile."""
        text = ("const done = arguments[arguments.length - 1]; "
                f"(async (...given) => {{ {script} }})(...[...arguments].slice(0, -1)).then("
                "it => done({value: it === undefined ? null : it}), it => done({error: `${it}\n${it.stack ?? ''}`}))")
        answer = self.command("run", {"script": text, "args": list(arguments)})
        if answer and "error" in answer:
            raise AssertionError(f"{self.name}: {answer['error']}")
        return answer["value"] if answer else None

    def until(self, script, *arguments, seconds=SECONDS):
        end = time.monotonic() + seconds
        while not (answer := self.run(f"return {script}", *arguments)):
            if time.monotonic() > end:
                raise AssertionError(f"{self.name}: never true: {script}")
            time.sleep(0.03)
        return answer

    def click(self, selector):
        found = self.command("find", {"using": "css selector", "value": selector})
        self.command("click", {"id": found[ELEMENT]})

    def press(self, *keys, held=""):
        """Presses keys one after the other, with a key held down if one is given."""
        down = [{"type": "keyDown", "value": held}] if held else []
        up = [{"type": "keyUp", "value": held}] if held else []
        each = [{"type": kind, "value": key} for key in keys for kind in ("keyDown", "keyUp")]
        self.command("actions", {"actions": [{"type": "key", "id": "keys", "actions": down + each + up}]})

    def type(self, text):
        self.press(*(ENTER if it == "\n" else it for it in text))

    def resize(self, width, height):
        """Gives the page itself this size, or the smallest one that the browser has: Firefox is never below 500."""
        self.command("size", {"width": width, "height": height})
        inner = self.run("return [innerWidth, innerHeight]")
        self.command("size", {"width": 2 * width - inner[0], "height": 2 * height - inner[1]})

    def frame(self, selector):
        """What is done within it is done in a frame of the page."""
        return Frame(self, selector)

    def picture(self, path):
        pathlib.Path(path).write_bytes(base64.b64decode(self.command("picture", {})))

    def __enter__(self):
        return self

    def __exit__(self, *_):
        self.close()


class Frame:
    def __init__(self, browser, selector):
        self.browser, self.selector = browser, selector

    def __enter__(self):
        found = self.browser.command("find", {"using": "css selector", "value": self.selector})
        self.browser.command("frame", {"id": found})

    def __exit__(self, *_):
        self.browser.command("frame", {"id": None})


class Driven(Browser):
    """A browser with a driver of its own, which speaks WebDriver."""

    ROADS = {"open": "url", "run": "execute/async", "find": "element", "actions": "actions", "size": "window/rect",
             "picture": "screenshot", "frame": "frame"}

    def __init__(self, words, wanted, environment=None):
        port = free_port()
        self.address = f"http://127.0.0.1:{port}"
        self.opener = urllib.request.build_opener(urllib.request.ProxyHandler({}))
        self.driver = subprocess.Popen([*words, f"--port={port}"], env=environment, stdout=subprocess.DEVNULL,
                                       stderr=subprocess.DEVNULL)
        try:
            self.begin({**wanted, "timeouts": {"script": 120000}})
        except BaseException:
            self.driver.kill()
            raise

    def begin(self, wanted):
        for _ in range(200):
            try:
                if self.call("GET", "/status")["ready"]:
                    break
            except OSError:
                pass
            time.sleep(0.05)
        answer = self.call("POST", "/session", {"capabilities": {"alwaysMatch": wanted}})
        self.session = "/session/" + answer["sessionId"]

    def call(self, method, path, body=None):
        data = None if body is None else json.dumps(body).encode()
        request = urllib.request.Request(self.address + path, data, {"Content-Type": "application/json"}, method=method)
        try:
            with self.opener.open(request, timeout=150) as answer:
                return json.load(answer)["value"]
        except urllib.error.HTTPError as fault:
            raise AssertionError(f"{self.name}: {fault.read().decode()[:500]}") from None

    def command(self, name, parts):
        if name == "click":
            return self.call("POST", f"{self.session}/element/{parts['id']}/click", {})
        if name == "picture":
            return self.call("GET", f"{self.session}/screenshot")
        return self.call("POST", f"{self.session}/{self.ROADS[name]}", parts)

    def complaints(self):
        return []

    def close(self):
        try:
            self.call("DELETE", self.session)
        except (AssertionError, OSError):
            pass
        finally:
            self.driver.terminate()
            self.driver.wait()
            # A desktop's portal may have mounted a folder of its own in it.
            with contextlib.suppress(OSError):
                self.folder.cleanup()


class Chromium(Driven):
    name = "Chromium"

    def __init__(self, *arguments):
        self.folder = tempfile.TemporaryDirectory(prefix="chromium-", ignore_cleanup_errors=True)
        flags = ["--headless=new", "--no-sandbox", "--disable-gpu", "--disable-dev-shm-usage",
                 f"--user-data-dir={self.folder.name}/profile", *arguments]
        options = {"args": flags, "prefs": {"download.default_directory": self.folder.name}}
        super().__init__(["chromedriver", "--log-level=OFF"],
                         {"goog:chromeOptions": options, "goog:loggingPrefs": {"browser": "ALL"}})

    def tools(self, name, **parts):
        """A command of the protocol of the browser's own tools."""
        return self.call("POST", f"{self.session}/goog/cdp/execute", {"cmd": name, "params": parts})

    def complaints(self):
        """What the page has put into the console since the last call."""
        return [it["message"] for it in self.call("POST", f"{self.session}/se/log", {"type": "browser"})]


def mini_browser():
    return next(pathlib.Path("/usr/lib").glob("*/webkit2gtk-4.1/MiniBrowser"), None)


class WebKit(Driven):
    """WebKitGTK's small browser, on a screen of Xvfb: the engine that Safari has, too."""

    name = "WebKit"

    def __init__(self):
        self.folder = tempfile.TemporaryDirectory(prefix="webkit-", ignore_cleanup_errors=True)
        reading, writing = os.pipe()
        self.screen = subprocess.Popen(["Xvfb", "-displayfd", str(writing), "-screen", "0", "1600x1000x24"],
                                       pass_fds=[writing], stderr=subprocess.DEVNULL)
        os.close(writing)
        with os.fdopen(reading) as told:
            display = told.readline().strip()
        # Without these its processes want a bus and a graphics card.
        environment = {**os.environ, "DISPLAY": f":{display}", "HOME": self.folder.name,
                       "WEBKIT_DISABLE_COMPOSITING_MODE": "1", "WEBKIT_DISABLE_SANDBOX_THIS_IS_DANGEROUS": "1"}
        options = {"binary": str(mini_browser()), "args": ["--automation"]}
        try:
            super().__init__(["WebKitWebDriver"], {"webkitgtk:browserOptions": options}, environment)
        except BaseException:
            self.screen.kill()
            raise

    def picture(self, path):
        """Its driver waits for ever for a picture."""

    def close(self):
        super().close()
        self.screen.terminate()
        self.screen.wait()


class Firefox(Browser):
    name = "Firefox"
    NAMES = {"open": "WebDriver:Navigate", "run": "WebDriver:ExecuteAsyncScript", "find": "WebDriver:FindElement",
             "click": "WebDriver:ElementClick", "actions": "WebDriver:PerformActions",
             "size": "WebDriver:SetWindowRect",
             "picture": "WebDriver:TakeScreenshot", "frame": "WebDriver:SwitchToFrame"}

    def __init__(self):
        port = free_port()
        self.folder = tempfile.TemporaryDirectory(prefix="firefox-", ignore_cleanup_errors=True)
        wishes = {"marionette.port": port, "browser.shell.checkDefaultBrowser": False, "browser.download.folderList": 2,
                  "browser.download.dir": self.folder.name, "datareporting.policy.dataSubmissionEnabled": False}
        text = "".join(f"user_pref({json.dumps(name)}, {json.dumps(value)});\n" for name, value in wishes.items())
        (pathlib.Path(self.folder.name) / "user.js").write_text(text)
        words = ["firefox-esr", "--headless", "--marionette", "--profile", self.folder.name, "--no-remote"]
        self.process = subprocess.Popen(words, stdout=subprocess.DEVNULL, stderr=subprocess.DEVNULL)
        try:
            self.socket = self.connected(port)
            self.kept, self.last = b"", 0
            self.message()
            self.send("WebDriver:NewSession", {"timeouts": {"script": 120000}})
        except BaseException:
            self.process.kill()
            raise

    def connected(self, port):
        for _ in range(600):
            try:
                return socket.create_connection(("127.0.0.1", port), timeout=150)
            except OSError:
                time.sleep(0.1)
        raise AssertionError("Firefox doesn't answer")

    def message(self):
        while b":" not in self.kept:
            self.kept += self.socket.recv(65536)
        size, _, rest = self.kept.partition(b":")
        while len(rest) < int(size):
            rest += self.socket.recv(1 << 20)
        self.kept = rest[int(size):]
        return json.loads(rest[:int(size)])

    def send(self, name, parts):
        self.last += 1
        text = json.dumps([0, self.last, name, parts]).encode()
        self.socket.sendall(b"%d:" % len(text) + text)
        while (answer := self.message())[1] != self.last:
            pass
        if answer[2]:
            raise AssertionError(f"{self.name}: {json.dumps(answer[2])[:500]}")
        return answer[3]

    def command(self, name, parts):
        if name == "run":
            parts = {**parts, "sandbox": None, "newSandbox": False}
        if name == "picture":
            parts = {"full": False}
        if name == "frame" and parts["id"]:
            parts = {"element": parts["id"][ELEMENT]}
        answer = self.send(self.NAMES[name], parts)
        return answer["value"] if isinstance(answer, dict) and "value" in answer else answer

    def complaints(self):
        return []

    def close(self):
        try:
            self.send("Marionette:Quit", {"flags": ["eForceQuit"]})
        except (OSError, AssertionError, ValueError):
            self.process.terminate()
        finally:
            try:
                self.process.wait(10)
            except subprocess.TimeoutExpired:
                self.process.kill()
            self.folder.cleanup()


def started(kind):
    """A browser of this kind. On a machine with much to do one may not start in time, so it is tried three times."""
    for left in (2, 1, 0):
        try:
            return kind()
        except (AssertionError, OSError):
            if not left:
                raise
            time.sleep(2)
    return None


# The browsers, with the programs and the packages of Debian that each one takes.
KINDS = [
    (Chromium, ["chromedriver"], "chromium chromium-driver"),
    (Firefox, ["firefox-esr"], "firefox-esr"),
    (WebKit, ["WebKitWebDriver", "Xvfb"], "webkit2gtk-driver xvfb"),
]


def is_here(programs):
    return all(shutil.which(it) for it in programs)


def missing():
    """The packages of the browsers that aren't here."""
    return [packages for _, programs, packages in KINDS if not is_here(programs)]


def kinds():
    """The browsers that are here."""
    return [kind for kind, programs, _ in KINDS if is_here(programs)]
