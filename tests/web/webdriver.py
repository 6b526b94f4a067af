"""A browser that a test drives: Debian's chromium, headless, by its driver over HTTP."""
import base64
import json
import os
import re
import shutil
import subprocess
import tempfile
import urllib.request

ELEMENT = "element-6066-11e4-a52e-4f735466cecf"
SECONDS = 300


class Browser:
    """A window of chromium. Its profile and downloads are in a folder that is removed at the end."""

    def __init__(self, width=1280, height=900):
        self.room = tempfile.mkdtemp(prefix="web-browser-")
        self.downloads = os.path.join(self.room, "downloads")
        os.mkdir(self.downloads)
        self.log = open(os.path.join(self.room, "driver.log"), "wb")
        self.driver = subprocess.Popen([shutil.which("chromedriver"), "--port=0"], stdout=subprocess.PIPE, stderr=self.log)
        line = ""
        while "started successfully" not in line:
            line = self.driver.stdout.readline().decode()
            if not line:
                raise RuntimeError("chromedriver didn't start")
        self.address = "http://127.0.0.1:" + re.search(r"port ([0-9]+)", line)[1]
        arguments = ["--headless=new", "--no-sandbox", "--disable-gpu", "--disable-dev-shm-usage", f"--window-size={width},{height}",
                     f"--user-data-dir={self.room}/profile", "--no-first-run", "--disable-background-networking", "--hide-scrollbars"]
        options = {"args": arguments, "prefs": {"download.default_directory": self.downloads, "download.prompt_for_download": False}}
        wanted = {"browserName": "chrome", "goog:chromeOptions": options, "goog:loggingPrefs": {"browser": "ALL", "performance": "ALL"}}
        self.session = self.call("POST", "/session", {"capabilities": {"alwaysMatch": wanted}}, "")["sessionId"]
        self.command("Browser.setDownloadBehavior", {"behavior": "allow", "downloadPath": self.downloads})

    def __enter__(self):
        return self

    def __exit__(self, *_):
        try:
            self.call("DELETE", "")
        except OSError:
            pass
        self.driver.terminate()
        self.driver.wait()
        self.driver.stdout.close()
        self.log.close()
        shutil.rmtree(self.room, ignore_errors=True)

    def call(self, method, path, body=None, before=None):
        """One call of the driver, and its value."""
        where = self.address + (f"/session/{self.session}" if before is None else before) + path
        content = None if method in ("GET", "DELETE") else json.dumps(body or {}).encode()
        request = urllib.request.Request(where, content, {"Content-Type": "application/json"}, method=method)
        try:
            with urllib.request.urlopen(request, timeout=SECONDS) as reply:
                return json.load(reply)["value"]
        except urllib.error.HTTPError as fault:
            raise RuntimeError(json.load(fault)["value"]["message"].split("\n")[0]) from None

    def open(self, address):
        self.call("POST", "/url", {"url": address})

    def run(self, script, *arguments):
        """What a script in the page answers."""
        return self.call("POST", "/execute/sync", {"script": script, "args": list(arguments)})

    def find(self, selector):
        return self.call("POST", "/element", {"using": "css selector", "value": selector})[ELEMENT]

    def click(self, selector):
        self.call("POST", f"/element/{self.find(selector)}/click")

    def type(self, selector, text):
        """Replaces what is in a field, key by key."""
        found = self.find(selector)
        self.call("POST", f"/element/{found}/clear")
        self.call("POST", f"/element/{found}/value", {"text": text})

    def text(self, selector):
        return self.run("return document.querySelector(arguments[0]).innerText", selector)

    def count(self, selector):
        return self.run("return document.querySelectorAll(arguments[0]).length", selector)

    def size(self, width, height):
        self.command("Emulation.setDeviceMetricsOverride", {"width": width, "height": height, "deviceScaleFactor": 1, "mobile": width < 600})

    def command(self, name, words):
        """A command of the browser's own protocol."""
        return self.call("POST", "/goog/cdp/execute", {"cmd": name, "params": words})

    def busy(self):
        """The seconds of the processor that the page's thread has taken."""
        self.command("Performance.enable", {"timeDomain": "threadTicks"})
        metrics = {metric["name"]: metric["value"] for metric in self.command("Performance.getMetrics", {})["metrics"]}
        return metrics["TaskDuration"]

    def picture(self, path, whole=False, clip=None):
        """A picture of the window or of the whole page, in a file."""
        words = {"format": "png", "captureBeyondViewport": whole}
        if clip:
            words["clip"] = {**clip, "scale": 1}
            words["captureBeyondViewport"] = True
        with open(path, "wb") as out:
            out.write(base64.b64decode(self.command("Page.captureScreenshot", words)["data"]))

    def printed(self):
        """The page as PDF."""
        return base64.b64decode(self.command("Page.printToPDF", {"printBackground": True, "preferCSSPageSize": False})["data"])

    def messages(self):
        """The messages of the console."""
        return [entry["message"] for entry in self.call("POST", "/se/log", {"type": "browser"})]

    def requests(self):
        """The addresses that were requested since the last call, without those of documents and data."""
        found = []
        for entry in self.call("POST", "/se/log", {"type": "performance"}):
            message = json.loads(entry["message"])["message"]
            if message["method"] == "Network.requestWillBeSent":
                found.append(message["params"]["request"]["url"])
        return found
