"""Two browsers under one set of calls: Chromium by its driver, Firefox by WebDriver BiDi. And node, for the module alone."""
import asyncio
import base64
import glob
import json
import os
import re
import shutil
import subprocess
import tempfile
import threading

KEYS = {"ArrowRight": "\ue014", "ArrowLeft": "\ue012", "ArrowUp": "\ue013", "ArrowDown": "\ue015", "Home": "\ue011",
        "End": "\ue010", "Tab": "\ue004", "Enter": "\ue007", "Escape": "\ue00c"}

CONTROL = "\ue009"


class Chromium:
    name = "chromium"

    def __init__(self, look):
        from selenium import webdriver
        from selenium.webdriver.chrome.service import Service

        options = webdriver.ChromeOptions()
        for it in ["--headless=new", "--no-sandbox", "--disable-gpu", "--disable-dev-shm-usage", "--hide-scrollbars"]:
            options.add_argument(it)
        options.set_capability("goog:loggingPrefs", {"browser": "ALL"})
        self.driver = webdriver.Chrome(service=Service("/usr/bin/chromedriver"), options=options)
        self.driver.set_script_timeout(120)
        scheme = [{"name": "forced-colors", "value": "active"} if look == "forced" else {"name": "prefers-color-scheme", "value": look}]
        self.driver.execute_cdp_cmd("Emulation.setEmulatedMedia", {"features": scheme})

    def size(self, width, height):
        metrics = {"width": width, "height": height, "deviceScaleFactor": 1, "mobile": False}
        self.driver.execute_cdp_cmd("Emulation.setDeviceMetricsOverride", metrics)

    def go(self, address):
        self.driver.get("about:blank")
        self.driver.get(address)

    def run(self, script):
        """What the body of an async function answers."""
        told = self.driver.execute_async_script(
            f"const done = arguments[0]; (async () => {{ {script} }})().then(it => done(JSON.stringify([it ?? null])), it => done('!' + it + it.stack))")
        return answered(told)

    def keys(self, *names):
        from selenium.webdriver.common.action_chains import ActionChains

        ActionChains(self.driver, duration=0).send_keys(*[KEYS.get(it, it) for it in names]).perform()

    def chord(self, letter):
        """That letter with the control key held."""
        from selenium.webdriver.common.action_chains import ActionChains

        ActionChains(self.driver, duration=0).key_down(CONTROL).send_keys(letter).key_up(CONTROL).perform()

    def put_files(self, selector, files):
        self.driver.find_element("css selector", selector).send_keys("\n".join(files))

    def shoot(self, file):
        self.driver.save_screenshot(file)

    def errors(self):
        return [it["message"] for it in self.driver.get_log("browser") if it["level"] in ("SEVERE", "WARNING")]

    def close(self):
        self.driver.quit()


class Firefox:
    name = "firefox"

    def __init__(self, look):
        self.folder = tempfile.TemporaryDirectory()
        with open(f"{self.folder.name}/user.js", "w", encoding="ascii") as file:
            file.write(f'user_pref("layout.css.prefers-color-scheme.content-override", {0 if look == "dark" else 1});\n'
                       f'user_pref("browser.display.document_color_use", {2 if look == "forced" else 0});\n'
                       'user_pref("remote.prefs.recommended", true);\nuser_pref("browser.shell.checkDefaultBrowser", false);\n'
                       'user_pref("datareporting.policy.dataSubmissionEnabled", false);\n'
                       'user_pref("browser.startup.homepage_override.mstone", "ignore");\n')
        words = ["firefox-esr", "--headless", "--no-remote", "--profile", self.folder.name, "--remote-debugging-port=0", "about:blank"]
        self.process = subprocess.Popen(words, stdout=subprocess.DEVNULL, stderr=subprocess.PIPE, text=True)
        address = next(it for line in self.process.stderr if (it := re.search(r"ws://\S+", line)))[0]
        threading.Thread(target=self.process.stderr.read, daemon=True).start()
        self.loop, self.waiting, self.logged, self.count = asyncio.new_event_loop(), {}, [], 0
        threading.Thread(target=self.loop.run_forever, daemon=True).start()
        self.later(self.connect(f"{address}/session"))
        self.call("session.new", capabilities={})
        self.call("session.subscribe", events=["log.entryAdded"])
        self.tab = self.call("browsingContext.getTree")["contexts"][0]["context"]

    def later(self, task):
        return asyncio.run_coroutine_threadsafe(task, self.loop).result(150)

    async def connect(self, address):
        import websockets

        self.socket = await websockets.connect(address, max_size=None)
        self.reader = asyncio.ensure_future(self.read())

    async def read(self):
        async for text in self.socket:
            message = json.loads(text)
            if message.get("id") in self.waiting:
                self.waiting.pop(message["id"]).set_result(message)
            elif message.get("method") == "log.entryAdded" and message["params"]["level"] in ("error", "warn"):
                self.logged.append(message["params"]["text"])

    async def send(self, method, given):
        self.count += 1
        self.waiting[self.count] = waits = self.loop.create_future()
        await self.socket.send(json.dumps({"id": self.count, "method": method, "params": given}))
        return await waits

    def call(self, method, **given):
        message = self.later(self.send(method, given))
        if message["type"] == "error":
            raise RuntimeError(f"{method}: {message['error']}: {message['message']}")
        return message["result"]

    def size(self, width, height):
        self.call("browsingContext.setViewport", context=self.tab, viewport={"width": width, "height": height})

    def go(self, address):
        for it in ["about:blank", address]:
            self.call("browsingContext.navigate", context=self.tab, url=it, wait="complete")

    def run(self, script):
        told = self.call("script.evaluate", target={"context": self.tab}, awaitPromise=True, userActivation=True, expression=(
            f"(async () => {{ {script} }})().then(it => JSON.stringify([it ?? null]), it => '!' + it + it.stack)"))
        return answered(told["result"]["value"] if told["type"] == "success" else f"!{told['exceptionDetails']['text']}")

    def keys(self, *names):
        typed = [KEYS.get(it, it) for it in names]
        self.press([(kind, letter) for word in typed for letter in word for kind in ("keyDown", "keyUp")])

    def chord(self, letter):
        """That letter with the control key held."""
        self.press([("keyDown", CONTROL), ("keyDown", letter), ("keyUp", letter), ("keyUp", CONTROL)])

    def press(self, done):
        pressed = [{"type": kind, "value": letter} for kind, letter in done]
        self.call("input.performActions", context=self.tab, actions=[{"type": "key", "id": "keys", "actions": pressed}])

    def put_files(self, selector, files):
        found = self.call("browsingContext.locateNodes", context=self.tab, locator={"type": "css", "value": selector})
        self.call("input.setFiles", context=self.tab, element={"sharedId": found["nodes"][0]["sharedId"]}, files=files)

    def shoot(self, file):
        with open(file, "wb") as out:
            out.write(base64.b64decode(self.call("browsingContext.captureScreenshot", context=self.tab)["data"]))

    def errors(self):
        found, self.logged = self.logged, []
        return found

    def close(self):
        try:
            self.call("browser.close")
        except Exception:
            self.process.terminate()
        self.process.wait(20)
        self.folder.cleanup()


class Node:
    """The module and the kept cut under node, with no page."""

    name = "node"
    # In place of the page's: there is no document.
    PAGE = """
import { readFileSync } from "node:fs";
import { Blob } from "node:buffer";
globalThis.Blob ??= Blob;
const [folder] = process.argv.slice(-1);
const [{ Codec }, { bytesOf }, { Survey, guessAt }, { repairedOf }] = await Promise.all(["codec", "input", "survey", "repair"].map((it) => import(`${folder}/${it}.js`)));
const { instance } = await WebAssembly.instantiate(readFileSync(`${folder}/noddychest.wasm`));
const codec = new Codec(instance.exports);
globalThis.window = { noddychest: { codec, bytesOf, Survey, guessAt, repairedOf } };
"""

    def __init__(self, top):
        self.folder = tempfile.TemporaryDirectory()
        os.mkdir(f"{self.folder.name}/page")
        for it in [*glob.glob(f"{top}/page/files/*.js"), *(f"{top}/js/{name}" for name in ("bytes.js", "codec.js", "guess.js", "loading.js", "noddychest.wasm"))]:
            shutil.copy(it, f"{self.folder.name}/page")
        with open(f"{self.folder.name}/page/package.json", "w", encoding="ascii") as file:
            file.write('{ "type": "module" }')

    def run(self, script):
        """What the body of an async function answers."""
        file = f"{self.folder.name}/asked.mjs"
        with open(file, "w", encoding="utf-8") as asked:
            asked.write(f"{self.PAGE}\nconsole.log(JSON.stringify([await (async () => {{ {script} }})() ?? null]));\n")
        ran = subprocess.run(["node", file, f"{self.folder.name}/page"], capture_output=True, text=True, timeout=150)
        return answered(ran.stdout if ran.returncode == 0 else f"!{ran.stderr[-2000:]}")


def node(top):
    """Node over the page's modules below that folder, where one is there that knows WebAssembly's 64-bit integers: from 16 on."""
    test = "process.exit(process.versions.node.split('.')[0] >= 16 ? 0 : 1)"
    return Node(top) if shutil.which("node") and subprocess.run(["node", "-e", test], capture_output=True).returncode == 0 else None


def answered(told):
    if told.startswith("!"):
        raise RuntimeError(told)
    return json.loads(told)[0]


def are_there():
    """The classes of the browsers that can run here."""
    found = []
    if os.path.exists("/usr/bin/chromium") and os.path.exists("/usr/bin/chromedriver"):
        found.append(Chromium)
    if os.path.exists("/usr/bin/firefox-esr"):
        found.append(Firefox)
    return found
