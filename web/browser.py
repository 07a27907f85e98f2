"""A headless Chromium, by its debugging protocol over two pipes, and a headless Firefox, by Marionette: tabs, and what JavaScript answers in them."""

import base64
import json
import os
import pathlib
import select
import shutil
import signal
import socket
import subprocess
import time

# how long anything may take, in seconds, on a machine that is busy with other things
PATIENCE = int(os.environ.get("STMFLASH_PATIENCE", "120"))
# without what a window loads of its own before anybody opens it, which takes half of a start
WORDS = ["--headless=new", "--no-sandbox", "--disable-gpu", "--no-first-run", "--disable-extensions", "--disable-background-networking",
         "--disable-component-update", "--no-startup-window", "--remote-debugging-pipe",
         "--disable-features=WebUIOmniboxPopup,WebUIOmniboxAimPopup,WebUIOmniboxFullPopup,PreloadTopChromeWebUI,SpareRendererForSitePerProcess"]


# what Firefox neither asks nor restores
QUIET = {"marionette.port": 0, "browser.shell.checkDefaultBrowser": False, "browser.sessionstore.resume_from_crash": False, "toolkit.startup.max_resumed_crashes": -1,
         "app.update.enabled": False, "datareporting.policy.dataSubmissionEnabled": False}


class Browser:
    """A Chromium. It is killed in the end, and its profile stays."""

    program = "chromium"

    def __init__(self, profile):
        self.count, self.answers, self.rest = 0, {}, b""
        theirs, self.out = os.pipe()
        self.come, other = os.pipe()

        def hand_over():
            """Chromium reads from 3 and writes to 4."""
            one, two = os.dup(theirs), os.dup(other)
            os.dup2(one, 3)
            os.dup2(two, 4)

        self.begin([*WORDS, f"--user-data-dir={profile}"], close_fds=False, preexec_fn=hand_over)
        os.close(theirs)
        os.close(other)

    def begin(self, words, **how):
        nothing = subprocess.DEVNULL
        self.process = subprocess.Popen([shutil.which(self.program), *words], stdin=nothing, stdout=nothing, stderr=nothing, start_new_session=True, **how)

    def call(self, method, session=None, **given):
        """What the browser answers."""
        self.count += 1
        mine, said = self.count, {"id": self.count, "method": method, "params": given} | ({"sessionId": session} if session else {})
        os.write(self.out, json.dumps(said).encode() + b"\0")
        ends = time.monotonic() + PATIENCE
        while mine not in self.answers:
            ready = select.select([self.come], [], [], max(0, ends - time.monotonic()))[0]
            data = ready and os.read(self.come, 1 << 20)
            if not data:
                raise TimeoutError(f"no answer to {method}: {given}")
            *whole, self.rest = (self.rest + data).split(b"\0")
            self.answers |= {it["id"]: it for it in map(json.loads, whole) if "id" in it}
        answer = self.answers.pop(mine)
        if "error" in answer:
            raise RuntimeError(f"{method}: {answer['error']}")
        return answer["result"]

    def tab(self, address, **context):
        return Tab(self, address, **context)

    def close(self):
        for it in (self.out, self.come):
            os.close(it)

    def kill(self):
        """At once, as a loss of power ends it: the browser, and all that it began."""
        if self.process.poll() is None:
            os.killpg(self.process.pid, signal.SIGKILL)
        self.process.wait()
        self.close()


class Firefox(Browser):
    """It says at which port it is called in a file of its profile. A call goes to the window that was switched to last."""

    program = "firefox-esr"

    def __init__(self, profile):
        port, ends = pathlib.Path(profile, "MarionetteActivePort"), time.monotonic() + PATIENCE
        port.parent.mkdir(exist_ok=True)
        port.unlink(missing_ok=True)
        port.with_name("user.js").write_text("".join(f"user_pref({json.dumps(name)}, {json.dumps(value)});\n" for name, value in QUIET.items()))
        self.begin(["--headless", "--marionette", "--no-remote", "--profile", profile])
        while not (port.exists() and port.read_text()) and time.monotonic() < ends:
            time.sleep(0.05)
        self.line = socket.create_connection(("127.0.0.1", int(port.read_text())), PATIENCE)
        self.come, self.count = self.line.makefile("rb"), 0
        self.hear()
        self.call("WebDriver:NewSession")

    def hear(self):
        size = b""
        while (it := self.come.read(1)) != b":":
            if not it:
                raise TimeoutError("Firefox has gone")
            size += it
        return json.loads(self.come.read(int(size)))

    def call(self, method, **given):
        self.count += 1
        said = json.dumps([0, self.count, method, given]).encode()
        self.line.sendall(b"%d:%s" % (len(said), said))
        _, _, wrong, answer = self.hear()
        if wrong:
            raise RuntimeError(f"{method}: {wrong}")
        return answer

    def tab(self, address):
        return FirefoxTab(self, address)

    def close(self):
        self.line.close()
        self.come.close()


class Tab:
    def __init__(self, browser, address, **context):
        self.browser = browser
        self.target = browser.call("Target.createTarget", url="about:blank", **context)["targetId"]
        self.session = browser.call("Target.attachToTarget", targetId=self.target, flatten=True)["sessionId"]
        self.call("Page.enable")
        self.call("Page.navigate", url=address)

    def call(self, method, **given):
        return self.browser.call(method, self.session, **given)

    def js(self, text):
        """What an expression is, once it is no promise any more."""
        it = self.call("Runtime.evaluate", expression=text, awaitPromise=True, returnByValue=True)
        if "exceptionDetails" in it:
            raise RuntimeError(json.dumps(it["exceptionDetails"])[:1000])
        return it["result"].get("value")

    def until(self, text, why=""):
        """Waits until an expression is true."""
        ends = time.monotonic() + PATIENCE
        while not (it := self.looked(text)):
            if time.monotonic() > ends:
                raise TimeoutError(f"{why or text}: {it!r}; the page says: {self.said()}")
            time.sleep(0.1)
        return it

    def looked(self, text):
        """What an expression is; nothing between two pages."""
        try:
            return self.js(text)
        except RuntimeError as fault:
            if "navigated" not in str(fault) and "context" not in str(fault):
                raise

    def said(self):
        """What was told last, and all that the program said."""
        return self.js("['state', 'told', 'said'].map((it) => document.getElementById(it)?.textContent).join('\\n')")[-3000:]

    def picture(self, path, width=720, height=None, dark=False):
        self.call("Emulation.setEmulatedMedia", features=[{"name": "prefers-color-scheme", "value": "dark" if dark else "light"}])
        self.call("Emulation.setScrollbarsHidden", hidden=True)
        self.call("Emulation.setDeviceMetricsOverride", width=width, height=height or 900, deviceScaleFactor=1, mobile=False)
        with open(path, "wb") as file:
            file.write(base64.b64decode(self.call("Page.captureScreenshot", format=path.rpartition(".")[2], quality=60, captureBeyondViewport=height is None)["data"]))

    def reload(self):
        """Loads it anew, as a reader does."""
        began = self.js("performance.timeOrigin")
        self.call("Page.reload")
        self.until(f"performance.timeOrigin !== {began}")

    def close(self):
        """At once: no page is asked whether it may."""
        self.browser.call("Target.closeTarget", targetId=self.target)


class FirefoxTab(Tab):
    def __init__(self, browser, address):
        self.browser = browser
        self.target = browser.call("WebDriver:NewWindow", type="tab")["handle"]
        self.call("WebDriver:Navigate", url=address)

    def call(self, method, **given):
        self.browser.call("WebDriver:SwitchToWindow", handle=self.target)
        return self.browser.call(method, **given)

    def js(self, text):
        script = f"const end = arguments[0]; (async () => ({text}))().then((it) => end({{ it }}), (it) => end({{ wrong: `${{it}}` }}))"
        it = self.call("WebDriver:ExecuteAsyncScript", script=script, args=[], scriptTimeout=PATIENCE * 1000)["value"]
        if "wrong" in it:
            raise RuntimeError(it["wrong"])
        return it.get("it")

    def close(self):
        """A call needs a window that is there: the first one stays."""
        self.browser.call("WebDriver:SwitchToWindow", handle=self.call("WebDriver:CloseWindow")[0])
