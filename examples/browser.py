"""What the scripts beside this file share: packages, free ports, a page in a headless browser, and a wait."""
import asyncio
import base64
import json
import os
import random
import re
import shutil
import socket
import subprocess
import sys
import urllib.request


def packages(*more, browser=True):
    """Installs what is missing: websockets, Chromium, and the Debian packages of these names, each beside a program or file of it."""
    wanted = [("chromium", "chromium")] if browser else []
    missing = [package for sign, package in (*wanted, *more) if not (shutil.which(sign) or os.path.exists(sign))]
    try:
        import websockets  # noqa: F401
    except ImportError:
        missing.append("python3-websockets")
    if missing:
        quiet = {**os.environ, "DEBIAN_FRONTEND": "noninteractive"}
        subprocess.run(["apt-get", "update", "-qq"], check=True)
        subprocess.run(["apt-get", "install", "-y", "-qq", *missing], check=True, env=quiet, stdout=subprocess.DEVNULL)


def free_ports(count):
    """The first of so many ports that are free, one behind another."""
    for first in random.sample(range(20000, 30000, 10), 500):
        try:
            for port in range(first, first + count):
                with socket.socket() as one:
                    one.bind(("127.0.0.1", port))
            return first
        except OSError:
            continue
    sys.exit("no ports are free")


class Page:
    """The page in a headless browser, driven by its debugging protocol."""

    def __init__(self, room, width=900, height=1000):
        self.size = {"width": width, "height": height}
        self.browser = subprocess.Popen(
            ["chromium", "--headless=new", "--no-sandbox", "--disable-gpu", "--ignore-certificate-errors", "--remote-debugging-port=0",
             f"--window-size={width},{height}", "--user-data-dir=" + os.path.join(room, "profile"), "about:blank"],
            stderr=subprocess.PIPE, text=True)
        for line in self.browser.stderr:
            found = re.search(r"ws://127\.0\.0\.1:(\d+)/", line)
            if found:
                self.port = int(found.group(1))
                break
        self.last = 0

    async def open(self, address):
        import websockets
        pages = json.load(urllib.request.urlopen(f"http://127.0.0.1:{self.port}/json"))
        page = next(one for one in pages if one["type"] == "page")
        self.socket = await websockets.connect(page["webSocketDebuggerUrl"], max_size=None)
        await self.call("Page.enable")
        await self.resize(**self.size)
        await self.call("Page.navigate", url=address)

    async def resize(self, width, height):
        await self.call("Emulation.setDeviceMetricsOverride", width=width, height=height, deviceScaleFactor=1, mobile=False)

    async def call(self, method, **params):
        self.last += 1
        await self.socket.send(json.dumps({"id": self.last, "method": method, "params": params}))
        while True:
            answer = json.loads(await self.socket.recv())
            if answer.get("id") == self.last:
                return answer.get("result", {})

    async def run(self, script):
        result = await self.call("Runtime.evaluate", expression=f"{{{script}}}", returnByValue=True)
        return result["result"].get("value")

    async def state(self):
        """What the chat page says of its connection."""
        return await self.run("document.getElementById('state').textContent") or ""

    async def messages(self):
        """Offset and text of each message that the chat page shows."""
        script = ("[...document.querySelectorAll('#rows li:not(.note)')]"
                  ".map(line => [Number(line.querySelector('.offset').textContent), line.querySelector('.text').textContent])")
        return [tuple(line) for line in await self.run(script) or []]

    async def notes(self):
        """What the chat page says between the messages."""
        return await self.run("[...document.querySelectorAll('#rows li.note')].map(line => line.textContent)") or []

    async def say(self, text):
        await self.type(text)
        await self.press("send")

    async def type(self, text):
        await self.run(f"const text = document.getElementById('text'); text.value = {json.dumps(text)}; text.dispatchEvent(new Event('input'))")

    async def press(self, name):
        await self.run(f"document.getElementById('{name}').click()")

    async def picture(self, path):
        data = (await self.call("Page.captureScreenshot", format="png"))["data"]
        with open(path, "wb") as file:
            file.write(base64.b64decode(data))


async def until(what, test, seconds=30):
    """Waits until the test holds; ends the script if it doesn't in time."""
    for _ in range(seconds * 10):
        if await test():
            return
        await asyncio.sleep(0.1)
    sys.exit(f"not within {seconds} seconds: {what}")
