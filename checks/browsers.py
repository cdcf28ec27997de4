#!/usr/bin/env python3
"""browsers.py: drives Chromium by its DevTools protocol, and Firefox by WebDriver BiDi, without a window.

Both offer the same calls. Network requests and console errors of a page are recorded.
"""
import base64
import json
import os
import pathlib
import re
import secrets
import socket
import struct
import subprocess
import tempfile
import time

STARTS_WITHIN, ANSWERS_WITHIN = 60, 300
RESTS = 0.4  # seconds for which a finger rests on a piece that it drags
# Firefox saves files without asking where.
PREFERENCES = """user_pref("browser.download.folderList", 2);
user_pref("browser.download.dir", "{folder}");
user_pref("browser.download.always_ask_before_handling_new_types", false);
user_pref("browser.download.alwaysOpenPanel", false);
"""
# What lies in the page's own file or memory.
OWN = ("file:", "blob:", "data:", "about:", "chrome:", "resource:", "moz-extension:")
KEYS = {"Enter": ("\ue006", 13), "Backspace": ("\ue003", 8),
        "Tab": ("\ue004", 9), "ArrowLeft": ("\ue012", 37), "ArrowUp": ("\ue013", 38),
        "ArrowRight": ("\ue014", 39), "ArrowDown": ("\ue015", 40), "Delete": ("\ue017", 46), " ": (" ", 32),
        "Home": ("\ue011", 36), "End": ("\ue010", 35), "Escape": ("\ue00c", 27)}


class WebSocket:
    """The client's side of a connection over which texts go both ways."""

    def __init__(self, url):
        host, port, path = re.fullmatch(r"ws://([^:/]+):(\d+)(/.*)", url).groups()
        self.socket = socket.create_connection((host, int(port)), timeout=ANSWERS_WITHIN)
        key = base64.b64encode(secrets.token_bytes(16)).decode()
        self.socket.sendall(f"GET {path} HTTP/1.1\r\nHost: {host}:{port}\r\nUpgrade: websocket\r\n"
                            "Connection: Upgrade\r\n"
                            f"Sec-WebSocket-Key: {key}\r\nSec-WebSocket-Version: 13\r\n\r\n".encode())
        self.buffer = b""
        while b"\r\n\r\n" not in self.buffer:
            self.buffer += self.socket.recv(4096)
        head, self.buffer = self.buffer.split(b"\r\n\r\n", 1)
        assert b" 101 " in head.split(b"\r\n")[0], head

    def send(self, text):
        payload, mask = text.encode(), secrets.token_bytes(4)
        size = len(payload)
        if size < 126:
            head = struct.pack("!BB", 0x81, 0x80 | size)
        elif size < 65536:
            head = struct.pack("!BBH", 0x81, 0xFE, size)
        else:
            head = struct.pack("!BBQ", 0x81, 0xFF, size)
        masks = (mask * (size // 4 + 1))[:size]
        masked = (int.from_bytes(payload, "big") ^ int.from_bytes(masks, "big")).to_bytes(size, "big")
        self.socket.sendall(head + mask + masked)

    def take(self, count):
        while len(self.buffer) < count:
            piece = self.socket.recv(1 << 20)
            assert piece, "the browser has closed the connection"
            self.buffer += piece
        taken, self.buffer = self.buffer[:count], self.buffer[count:]
        return taken

    def receive(self):
        """The next text."""
        text = b""
        while True:
            first, second = self.take(2)
            size = second & 0x7F
            if size == 126:
                size, = struct.unpack("!H", self.take(2))
            elif size == 127:
                size, = struct.unpack("!Q", self.take(8))
            payload = self.take(size)
            if first & 0x0F in (0, 1, 2):
                text += payload
                if first & 0x80:
                    return text.decode()


class Browser:
    """What both have in common: a process, and questions with numbers over a connection."""
    name = ""

    def __init__(self, words, mark):
        self.folder = tempfile.TemporaryDirectory(prefix="browser", ignore_cleanup_errors=True)
        home = pathlib.Path(self.folder.name)
        self.downloads = home / "downloads"
        self.downloads.mkdir()
        (home / "user.js").write_text(PREFERENCES.format(folder=self.downloads))
        log = home / "log"
        with log.open("w", encoding="utf-8") as out:
            words = [word.replace("{home}", str(home)) for word in words]
            self.process = subprocess.Popen(words, stdout=out, stderr=out, stdin=subprocess.DEVNULL,
                                            env={**os.environ, "HOME": str(home)})
        until = time.monotonic() + STARTS_WITHIN
        while not (found := re.search(mark, log.read_text(errors="replace"))):
            assert self.process.poll() is None and time.monotonic() < until, log.read_text(errors="replace")
            time.sleep(0.05)
        self.socket, self.number = WebSocket(self.address(found[1])), 0
        self.errors, self.requests = [], []

    def address(self, found):
        return found

    def ask(self, method, more=None, **params):
        self.number += 1
        number = self.number
        self.socket.send(json.dumps({"id": number, "method": method, "params": params, **(more or {})}))
        while True:
            said = json.loads(self.socket.receive())
            if said.get("id") == number:
                assert "error" not in said, (self.name, method, said)
                return said.get("result", {})
            self.note(said.get("method", ""), said.get("params", {}))

    def note(self, method, params):
        raise NotImplementedError

    def run(self, script):
        """The value of a script, which may be a promise."""
        raise NotImplementedError

    def wait(self, condition, seconds=ANSWERS_WITHIN):
        """Waits until a condition holds in the page."""
        said = self.run(f"""new Promise((resolve) => {{
            const end = Date.now() + {seconds * 1000};
            const look = () => {{
                const value = {condition};
                if (value || Date.now() > end) resolve(Boolean(value)); else setTimeout(look, 15);
            }};
            look();
        }})""")
        assert said, (self.name, "not within", seconds, "s:", condition)

    def middle(self, selector):
        """Where the middle of an element is, once it is in sight and the page has drawn itself."""
        place = self.run(f"""(async () => {{
            const found = document.querySelector({json.dumps(selector)});
            found.scrollIntoView({{block: 'center'}});
            const drawn = new Promise((resolve) => requestAnimationFrame(() => requestAnimationFrame(resolve)));
            await Promise.race([drawn, new Promise((resolve) => setTimeout(resolve, 500))]);
            const box = found.getBoundingClientRect();
            return [box.left + box.width / 2, box.top + box.height / 2];
        }})()""")
        return tuple(round(number) for number in place)

    def type(self, text):
        self.press(*text)

    def replace(self, selector, text):
        """Types a text into a field, in place of what stands there."""
        self.click(selector)
        self.select_all()
        self.press("Backspace")
        self.type(text)

    def choose(self, selector, value):
        """Chooses an option of a list by keys. A click on the words beside it leaves it shut."""
        self.click(f"label:has({selector}) span")
        keys = self.run(f"""(() => {{
            const found = document.querySelector({json.dumps(selector)});
            const step = [...found.options].findIndex((option) => option.value === {json.dumps(value)});
            return step - found.selectedIndex;
        }})()""")
        self.press(*["ArrowDown" if keys > 0 else "ArrowUp"] * abs(keys))
        self.wait(f"document.querySelector({json.dumps(selector)}).value === {json.dumps(value)}", 10)

    def saved(self, name):
        """What the page has saved under a name."""
        file, until = self.downloads / name, time.monotonic() + STARTS_WITHIN
        while not file.exists() or not file.stat().st_size:
            assert time.monotonic() < until, (self.name, name, "is not saved")
            time.sleep(0.05)
        return file

    def fetched(self):
        """What was asked of the network."""
        return [url for url in self.requests if not url.startswith(OWN)]

    def close(self):
        self.process.terminate()
        try:
            self.process.wait(timeout=20)
        except subprocess.TimeoutExpired:
            self.process.kill()
            self.process.wait()
        self.folder.cleanup()

    def __enter__(self):
        return self

    def __exit__(self, *_):
        self.close()


class Chromium(Browser):
    name = "chromium"

    def __init__(self):
        super().__init__(["chromium", "--headless", "--no-sandbox", "--disable-gpu", "--hide-scrollbars",
                          "--disable-background-networking", "--no-first-run", "--remote-debugging-port=0",
                          "--user-data-dir={home}/profile", "--lang=en-US", "about:blank"],
                         r"DevTools listening on (ws://\S+)")
        self.session, self.preloaded = {}, None
        self.ask("Browser.setDownloadBehavior", behavior="allow", downloadPath=str(self.downloads))
        self.tab()

    def tab(self):
        target = self.ask("Target.createTarget", url="about:blank")["targetId"]
        session = self.ask("Target.attachToTarget", targetId=target, flatten=True)["sessionId"]
        self.session = {"sessionId": session}
        for domain in ("Page", "Runtime", "Log", "Network", "DOM"):
            self.ask(f"{domain}.enable", self.session)
        self.resize(1200, 900)

    def tab_now(self):
        return self.session

    def show_tab(self, tab):
        self.session = tab
        self.ask("Page.bringToFront", tab)

    def preload(self, script):
        """Has a script run at the beginning of each page from now on; without one it runs no more."""
        if self.preloaded:
            self.ask("Page.removeScriptToEvaluateOnNewDocument", self.session, identifier=self.preloaded)
        self.preloaded = script and self.ask("Page.addScriptToEvaluateOnNewDocument", self.session,
                                             source=script)["identifier"]

    def note(self, method, params):
        if method == "Runtime.exceptionThrown":
            self.errors.append(json.dumps(params["exceptionDetails"])[:600])
        elif method == "Log.entryAdded" and params["entry"]["level"] == "error":
            self.errors.append(json.dumps(params["entry"])[:600])
        elif method == "Runtime.consoleAPICalled" and params["type"] in ("error", "assert"):
            self.errors.append(json.dumps(params["args"])[:600])
        elif method == "Network.requestWillBeSent":
            self.requests.append(params["request"]["url"])
        elif method == "Tracing.dataCollected":
            self.traced += params["value"]
        elif method == "Tracing.tracingComplete":
            self.traced.append(None)

    def goto(self, url):
        self.ask("Page.navigate", self.session, url=url)

    def run(self, script):
        said = self.ask("Runtime.evaluate", self.session, expression=script, awaitPromise=True, returnByValue=True,
                        timeout=ANSWERS_WITHIN * 1000)
        assert "exceptionDetails" not in said, (script[:300], said["exceptionDetails"])
        return said["result"].get("value")

    def longest_task(self, act):
        """The longest task of the page's own thread while something is done, in milliseconds of the processor."""
        self.traced = []
        self.ask("Tracing.start", traceConfig={"includedCategories": ["toplevel", "__metadata"],
                                               "excludedCategories": ["*"]})
        act()
        self.ask("Tracing.end")
        while None not in self.traced:
            self.run("0")
        events = [event for event in self.traced if event]
        threads = {(event["pid"], event["tid"]) for event in events if event["name"] == "thread_name"
                   and event["args"]["name"] == "CrRendererMain"}
        # (the clock of the processor sometimes says more than that on the wall)
        return max(min(event.get("tdur", 0), event["dur"]) / 1000 for event in events if event["ph"] == "X"
                   and (event["pid"], event["tid"]) in threads and "RunTask" in event["name"])

    def resize(self, width, height, is_phone=False):
        self.ask("Emulation.setDeviceMetricsOverride", self.session, width=width, height=height, deviceScaleFactor=1,
                 mobile=is_phone)
        self.ask("Emulation.setTouchEmulationEnabled", self.session, enabled=is_phone)

    def colours(self, scheme):
        self.ask("Emulation.setEmulatedMedia", self.session,
                 features=[{"name": "prefers-color-scheme", "value": scheme}])

    def mouse(self, kind, place, button="left", count=1):
        self.ask("Input.dispatchMouseEvent", self.session, type=kind, x=place[0], y=place[1], button=button,
                 buttons={"left": 1, "right": 2, "none": 0}[button], clickCount=count)

    def click(self, selector, button="left"):
        place = self.middle(selector)
        self.mouse("mousePressed", place, button)
        self.mouse("mouseReleased", place, button)

    def drag(self, start, end):
        self.mouse("mousePressed", start)
        for part in (0.2, 0.6, 1):
            self.mouse("mouseMoved", [round(a + (b - a) * part) for a, b in zip(start, end)])
        self.mouse("mouseReleased", end)

    def tap(self, selector):
        x, y = self.middle(selector)
        self.ask("Input.dispatchTouchEvent", self.session, type="touchStart", touchPoints=[{"x": x, "y": y}])
        self.ask("Input.dispatchTouchEvent", self.session, type="touchEnd", touchPoints=[])

    def press(self, *keys):
        for key in keys:
            code = KEYS.get(key, ("", 0))[1] or (ord(key.upper()) if key.isalnum() and key.isascii() else 0)
            text = {"Enter": "\r"}.get(key, key if len(key) == 1 else "")
            more = {"key": key, "windowsVirtualKeyCode": code, "modifiers": 8 if key.isupper() and len(key) == 1 else 0}
            kind = "keyDown" if text else "rawKeyDown"
            self.ask("Input.dispatchKeyEvent", self.session, type=kind, text=text, **more)
            self.ask("Input.dispatchKeyEvent", self.session, type="keyUp", **more)

    def select_all(self):
        """Selects all of the text where the cursor is."""
        for kind in ("rawKeyDown", "keyUp"):
            more = {"commands": ["selectAll"]} if kind == "rawKeyDown" else {}
            self.ask("Input.dispatchKeyEvent", self.session, type=kind, key="a", windowsVirtualKeyCode=65, modifiers=2,
                     **more)

    def tab_back(self):
        """Goes to the control before."""
        for kind in ("rawKeyDown", "keyUp"):
            self.ask("Input.dispatchKeyEvent", self.session, type=kind, key="Tab", windowsVirtualKeyCode=9, modifiers=8)

    def finger(self, *places, rests=RESTS):
        """A finger that comes down, rests for some seconds, moves, and goes up."""
        for kind, (x, y) in zip(("touchStart", *["touchMove"] * len(places)), (*places, places[-1])):
            self.ask("Input.dispatchTouchEvent", self.session, type=kind, touchPoints=[{"x": x, "y": y}])
            # One that goes up while it moves is a fling, and the browser takes the next tap as its end.
            time.sleep(rests if kind == "touchStart" else 0.05)
        self.ask("Input.dispatchTouchEvent", self.session, type="touchEnd", touchPoints=[])

    def upload(self, selector, file):
        root = self.ask("DOM.getDocument", self.session)["root"]["nodeId"]
        node = self.ask("DOM.querySelector", self.session, nodeId=root, selector=selector)["nodeId"]
        self.ask("DOM.setFileInputFiles", self.session, nodeId=node, files=[str(file)])

    def picture(self, file, whole=False):
        said = self.ask("Page.captureScreenshot", self.session, format="png", captureBeyondViewport=whole)
        pathlib.Path(file).write_bytes(base64.b64decode(said["data"]))


def value_of(said):
    """The value that BiDi tells of."""
    kind, value = said["type"], said.get("value")
    if kind == "array":
        return [value_of(item) for item in value]
    if kind == "object":
        return {name: value_of(item) for name, item in value}
    return value


class Firefox(Browser):
    name = "firefox"

    def __init__(self):
        super().__init__(["firefox-esr", "--headless", "--no-remote", "--remote-debugging-port=0", "--profile",
                          "{home}", "about:blank"], r"WebDriver BiDi listening on (ws://\S+)")
        self.ask("session.new", capabilities={"alwaysMatch": {"acceptInsecureCerts": False}})
        self.ask("session.subscribe", events=["log.entryAdded", "network.beforeRequestSent"])
        self.preloaded = None
        # The first window has no focus, but one that is made later has.
        self.context = self.ask("browsingContext.create", type="window")["context"]
        self.resize(1200, 900)

    def address(self, found):
        return f"{found}/session"

    def tab(self):
        self.context = self.ask("browsingContext.create", type="tab")["context"]
        self.resize(1200, 900)

    def tab_now(self):
        return self.context

    def show_tab(self, tab):
        self.context = tab
        self.ask("browsingContext.activate", context=tab)

    def preload(self, script):
        """Has a script run at the beginning of each page from now on; without one it runs no more."""
        if self.preloaded:
            self.ask("script.removePreloadScript", script=self.preloaded)
        self.preloaded = script and self.ask("script.addPreloadScript",
                                             functionDeclaration=f"() => {{{script}}}")["script"]

    def note(self, method, params):
        if method == "log.entryAdded" and params["level"] == "error":
            self.errors.append(json.dumps(params)[:600])
        elif method == "network.beforeRequestSent" and params.get("context") == self.context:
            self.requests.append(params["request"]["url"])

    def goto(self, url):
        self.ask("browsingContext.navigate", context=self.context, url=url, wait="complete")

    def run(self, script):
        said = self.ask("script.evaluate", expression=script, awaitPromise=True, userActivation=True,
                        target={"context": self.context}, serializationOptions={"maxObjectDepth": 20})
        assert said["type"] == "success", (script[:300], said)
        return value_of(said["result"])

    def resize(self, width, height, is_phone=False):
        del is_phone
        self.ask("browsingContext.setViewport", context=self.context, viewport={"width": width, "height": height},
                 devicePixelRatio=1)

    def pointer(self, actions, kind="mouse"):
        self.ask("input.performActions", context=self.context, actions=[
            {"type": "pointer", "id": kind, "parameters": {"pointerType": kind}, "actions": actions}])
        self.ask("input.releaseActions", context=self.context)

    def click(self, selector, button="left"):
        x, y = self.middle(selector)
        number = {"left": 0, "right": 2}[button]
        self.pointer([{"type": "pointerMove", "x": x, "y": y}, {"type": "pointerDown", "button": number},
                      {"type": "pointerUp", "button": number}])

    def tap(self, selector):
        x, y = self.middle(selector)
        self.pointer([{"type": "pointerMove", "x": x, "y": y}, {"type": "pointerDown", "button": 0},
                      {"type": "pointerUp", "button": 0}], "touch")

    def drag(self, start, end):
        moves = [{"type": "pointerMove", "x": round(start[0] + (end[0] - start[0]) * part),
                  "y": round(start[1] + (end[1] - start[1]) * part), "duration": 20} for part in (0.2, 0.6, 1)]
        self.pointer([{"type": "pointerMove", "x": start[0], "y": start[1]}, {"type": "pointerDown", "button": 0},
                      *moves, {"type": "pointerUp", "button": 0}])

    def press(self, *keys):
        actions = []
        for key in keys:
            value = KEYS.get(key, (key, 0))[0]
            actions += [{"type": "keyDown", "value": value}, {"type": "keyUp", "value": value}]
        self.ask("input.performActions", context=self.context,
                 actions=[{"type": "key", "id": "keys", "actions": actions}])

    def press_with(self, held, key):
        keys = [("keyDown", held), ("keyDown", key), ("keyUp", key), ("keyUp", held)]
        self.ask("input.performActions", context=self.context, actions=[
            {"type": "key", "id": "keys", "actions": [{"type": kind, "value": value} for kind, value in keys]}])

    def select_all(self):
        self.press_with("\ue009", "a")

    def tab_back(self):
        self.press_with("\ue008", KEYS["Tab"][0])

    def finger(self, *places, rests=RESTS):
        (x, y), *others = places
        moves = [{"type": "pause", "duration": round(rests * 1000)}]
        moves += [{"type": "pointerMove", "x": a, "y": b, "duration": 20} for a, b in others]
        self.pointer([{"type": "pointerMove", "x": x, "y": y}, {"type": "pointerDown", "button": 0}, *moves,
                      {"type": "pointerUp", "button": 0}], "touch")

    def upload(self, selector, file):
        found = self.ask("browsingContext.locateNodes", context=self.context,
                         locator={"type": "css", "value": selector})
        element = {"sharedId": found["nodes"][0]["sharedId"]}
        self.ask("input.setFiles", context=self.context, element=element, files=[str(file)])

    def picture(self, file, whole=False):
        said = self.ask("browsingContext.captureScreenshot", context=self.context,
                        origin="document" if whole else "viewport")
        pathlib.Path(file).write_bytes(base64.b64decode(said["data"]))
