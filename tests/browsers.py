"""Browsers that a program drives: Chromium by its own driver, Firefox over Marionette, its own protocol. Both open addresses, run scripts in the
page, press keys, take files and tell what the console has as errors."""

import base64
import importlib.util
import json
import pathlib
import shutil
import socket
import subprocess
import tempfile
import time

WIDE, HIGH = 1400, 900
PATIENCE = 120_000  # milliseconds that a script may take
# The arguments are `given`; `page` is what the page has for its tests.
SCRIPT = """const done = arguments[arguments.length - 1], given = [...arguments].slice(0, -1);
const own = window.wrappedJSObject || window, page = own.page, $ = (id) => document.getElementById(id);
const wait = (time) => new Promise((resolve) => setTimeout(resolve, time));
async function until(what, limit = 60000) {
  for (const end = Date.now() + limit; Date.now() < end && !what();) await wait(5);
  return what();
}
async function idle() {
  await wait(20);
  await until(() => page.quick.waiting.size + page.long.waiting.size === 0);
  await wait(40);
}
(async () => { %s })().then(done, (error) => done(`ERROR ${error} ${error && error.stack}`));"""


class Chromium:
    name = "chromium"
    needs = ["chromium", "chromedriver"]

    def __init__(self):
        from selenium import webdriver
        from selenium.webdriver.chrome.service import Service

        self.downloads = tempfile.mkdtemp()
        options = webdriver.ChromeOptions()
        for it in ["--headless=new", "--no-sandbox", "--disable-gpu", "--hide-scrollbars", f"--window-size={WIDE},{HIGH}"]:
            options.add_argument(it)
        options.add_experimental_option("prefs", {"download.default_directory": self.downloads})
        options.set_capability("goog:loggingPrefs", {"browser": "ALL"})
        self.driver = webdriver.Chrome(service=Service(shutil.which("chromedriver")), options=options)
        self.driver.set_script_timeout(PATIENCE / 1000)

    def open(self, address):
        self.driver.get("about:blank")
        self.driver.get(address)

    def run(self, script, *given):
        return self.driver.execute_async_script(SCRIPT % script, *given)

    def press(self, keys):
        from selenium.webdriver.common.action_chains import ActionChains

        ActionChains(self.driver).send_keys(keys).perform()

    def take_file(self, element, path):
        self.driver.find_element("id", element).send_keys(str(path))

    def name_of(self, element):
        """The name of a control, as one hears it."""
        return self.driver.find_element("id", element).accessible_name

    def errors(self):
        return [it["message"] for it in self.driver.get_log("browser") if it["level"] == "SEVERE"]

    def prefer(self, theme):
        self.driver.execute_cdp_cmd("Emulation.setEmulatedMedia", {"features": [{"name": "prefers-color-scheme", "value": theme}]})

    def picture(self, path):
        self.driver.save_screenshot(str(path))

    def quit(self):
        self.driver.quit()
        shutil.rmtree(self.downloads, ignore_errors=True)


class Firefox:
    """Each message of Marionette is its length, a colon and JSON: a list of its direction, its number, and what it says."""

    name = "firefox"
    needs = ["firefox-esr"]

    def __init__(self):
        self.profile = pathlib.Path(tempfile.mkdtemp())
        self.downloads = self.profile / "downloads"
        self.downloads.mkdir()
        settings = {"marionette.port": 0, "browser.download.folderList": 2, "browser.download.dir": str(self.downloads),
                    "browser.download.always_ask_before_handling_new_types": False, "browser.download.alwaysOpenPanel": False,
                    "dom.file.createInChild": True}
        (self.profile / "user.js").write_text("".join(f"user_pref({json.dumps(key)}, {json.dumps(it)});\n" for key, it in settings.items()))
        words = ["firefox-esr", "--headless", "--marionette", "-remote-allow-system-access", "--width", str(WIDE), "--height", str(HIGH),
                 "--profile", str(self.profile)]
        self.process = subprocess.Popen(words, stdout=subprocess.DEVNULL, stderr=subprocess.DEVNULL)
        self.file, self.count = self.joined(), 0
        self.taken()
        self.ask("WebDriver:NewSession", {"capabilities": {"alwaysMatch": {"strictFileInteractability": False}}})
        self.ask("WebDriver:SetTimeouts", {"script": PATIENCE})

    def joined(self):
        """The other end of Marionette, of which Firefox writes the port to a file."""
        port = self.profile / "MarionetteActivePort"
        for _ in range(600):
            if port.exists() and port.read_text().strip():
                return socket.create_connection(("127.0.0.1", int(port.read_text()))).makefile("rwb")
            time.sleep(0.1)
        raise RuntimeError("firefox does not answer")

    def taken(self):
        length = b""
        while (one := self.file.read(1)) not in (b":", b""):
            length += one
        return json.loads(self.file.read(int(length)))

    def ask(self, what, values):
        self.count += 1
        text = json.dumps([0, self.count, what, values]).encode()
        self.file.write(b"%d:%s" % (len(text), text))
        self.file.flush()
        _, _, error, result = self.taken()
        if error:
            raise RuntimeError(f"{what}: {error}")
        return result

    def open(self, address):
        self.ask("WebDriver:Navigate", {"url": "about:blank"})
        self.ask("WebDriver:Navigate", {"url": address})

    def run(self, script, *given):
        return self.ask("WebDriver:ExecuteAsyncScript", {"script": SCRIPT % script, "args": list(given)})["value"]

    def press(self, keys):
        actions = [{"type": kind, "value": key} for key in keys for kind in ("keyDown", "keyUp")]
        self.ask("WebDriver:PerformActions", {"actions": [{"type": "key", "id": "keys", "actions": actions}]})

    def found(self, element):
        return next(iter(self.ask("WebDriver:FindElement", {"using": "css selector", "value": f"#{element}"})["value"].values()))

    def take_file(self, element, path):
        self.ask("WebDriver:ElementSendKeys", {"id": self.found(element), "text": str(path)})

    def name_of(self, element):
        return self.ask("WebDriver:GetComputedLabel", {"id": self.found(element)})["value"]

    def errors(self):
        """What the console has of the page, and it is emptied."""
        self.ask("Marionette:SetContext", {"value": "chrome"})
        script = """const isOwn = (it) => it instanceof Ci.nsIScriptError && /gtpshow[^/]*html/.test(it.sourceName);
          const all = Services.console.getMessageArray().filter((it) => isOwn(it) && !(it.flags & Ci.nsIScriptError.warningFlag));
          Services.console.reset();
          return all.map((it) => it.errorMessage);"""
        found = self.ask("WebDriver:ExecuteScript", {"script": script, "args": []})["value"]
        self.ask("Marionette:SetContext", {"value": "content"})
        return found

    def prefer(self, theme):
        self.ask("Marionette:SetContext", {"value": "chrome"})
        script = "Services.prefs.setIntPref('layout.css.prefers-color-scheme.content-override', arguments[0]);"
        self.ask("WebDriver:ExecuteScript", {"script": script, "args": [0 if theme == "dark" else 1]})
        self.ask("Marionette:SetContext", {"value": "content"})

    def picture(self, path):
        pathlib.Path(path).write_bytes(base64.b64decode(self.ask("WebDriver:TakeScreenshot", {"full": False})["value"]))

    def quit(self):
        try:
            self.ask("Marionette:Quit", {"flags": ["eForceQuit"]})
        except (OSError, ValueError, RuntimeError):
            pass
        try:
            self.process.wait(20)
        except subprocess.TimeoutExpired:
            self.process.kill()
        shutil.rmtree(self.profile, ignore_errors=True)


BROWSERS = [Chromium, Firefox]


def missing(browser):
    """What a browser needs and is not there."""
    found = [it for it in browser.needs if not shutil.which(it)]
    if browser is Chromium and not importlib.util.find_spec("selenium"):
        found.append("python3-selenium")
    return found
