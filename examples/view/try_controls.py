#!/usr/bin/env python3
"""Tries each control of a page of view.py in Chromium without a screen, by its driver, and looks at what is drawn.

    examples/view/try_controls.py PAGE [--driver PROGRAM]

The page needs two meshes or more. What is tried: the slider, the keys, play and stop, edges, faces, a drag and the wheel, a narrow window, and that
the surface has a colour; each by what the page then says or draws. Prints a line for each, and ends with status 1 where one fails. Needs `chromedriver`.
"""
import argparse
import json
import os
import shutil
import subprocess
import sys
import time
import urllib.error
import urllib.request

sys.dont_write_bytecode = True
from screenshot import DRAWN  # noqa: E402

# what is drawn, as a number that another picture hardly has; how many of its pixels have a colour, and how many are dark
DRAWN_NOW = """
draw();
const wide = gl.drawingBufferWidth, high = gl.drawingBufferHeight, its = new Uint8Array(4 * wide * high);
gl.readPixels(0, 0, wide, high, gl.RGBA, gl.UNSIGNED_BYTE, its);
let sum = 0, coloured = 0, dark = 0;
for (let i = 0; i < its.length; i += 4) {
    sum = (31 * sum + its[i] + 3 * its[i + 1] + 7 * its[i + 2]) % 1000000007;
    coloured += Math.max(its[i], its[i + 1], its[i + 2]) - Math.min(its[i], its[i + 1], its[i + 2]) > 30;
    dark += its[i] + its[i + 1] + its[i + 2] < 200;
}
return { sum, coloured, dark, pixels: wide * high };
"""
SET_SLIDER = 'slider.value = arguments[0]; slider.dispatchEvent(new Event("input")); return at("which").textContent + "|" + at("log").textContent;'
CHECKS = []


class Browser:
    """A session of a driver, by the protocol that drivers of browsers share (WebDriver)."""

    def __init__(self, driver, port):
        self.process = subprocess.Popen([driver, f"--port={port}"], stdout=subprocess.DEVNULL, stderr=subprocess.DEVNULL)
        self.at = f"http://127.0.0.1:{port}/session"
        options = {"args": [*DRAWN, "--window-size=800,500"]}
        wanted = {"capabilities": {"alwaysMatch": {"browserName": "chrome", "goog:chromeOptions": options, "timeouts": {"script": 600000, "pageLoad": 600000}}}}
        for _ in range(120):
            try:
                self.at += "/" + self.said("", wanted)["sessionId"]
                return
            except ConnectionError:
                time.sleep(0.5)
        sys.exit("try_controls: the driver does not answer")

    def said(self, path, words):
        request = urllib.request.Request(self.at + path, json.dumps(words).encode(), {"Content-Type": "application/json"})
        try:
            with urllib.request.urlopen(request, timeout=900) as it:
                return json.load(it)["value"]
        except urllib.error.HTTPError as why:
            sys.exit(f"try_controls: {json.load(why)['value']['message'][:400]}")
        except urllib.error.URLError as why:
            raise ConnectionError(why) from None

    def run(self, script, *words):
        return self.said("/execute/sync", {"script": script, "args": list(words)})

    def act(self, *sources):
        self.said("/actions", {"actions": list(sources)})

    def click(self, name):
        found = self.said("/element", {"using": "css selector", "value": "#" + name})
        self.said(f"/element/{next(iter(found.values()))}/click", {})

    def key(self, code):
        self.act({"type": "key", "id": "keys", "actions": [{"type": "keyDown", "value": code}, {"type": "keyUp", "value": code}]})

    def end(self):
        try:
            urllib.request.urlopen(urllib.request.Request(self.at, method="DELETE"), timeout=60).close()
        finally:
            self.process.terminate()
            self.process.wait()


def told(what, good):
    CHECKS.append(bool(good))
    print(("ok      " if good else "FAILED  ") + what, flush=True)


def drag(browser, shift):
    """The left button goes down on the surface, moves and goes up; with the key for capitals held where `shift` says so."""
    moves = [{"type": "pointerMove", "x": 300, "y": 200}, {"type": "pointerDown", "button": 0}, {"type": "pointerMove", "x": 380, "y": 230}, {"type": "pointerUp", "button": 0}]
    hold = [{"type": "keyDown" if shift else "pause", **({"value": "\ue008"} if shift else {})}, {"type": "pause"}, {"type": "pause"}, {"type": "pause"}, {"type": "keyUp" if shift else "pause", **({"value": "\ue008"} if shift else {})}]
    browser.act({"type": "pointer", "id": "mouse", "actions": moves if not shift else [{"type": "pause"}, *moves]}, {"type": "key", "id": "hold", "actions": hold})


def tried(browser, page):
    browser.said("/url", {"url": "file://" + os.path.abspath(page)})
    drawn = lambda: browser.run(DRAWN_NOW)
    count, which = browser.run("return meshes.length"), lambda: browser.run('return [now, Number(slider.value), at("which").textContent, at("log").textContent]')
    first = drawn()
    told(f"the surface is drawn, with colours: {first['coloured']} of {first['pixels']} pixels", first["coloured"] > first["pixels"] / 50)
    told("without a fault of WebGL", browser.run("return gl.getError()") == 0)
    seen = []
    for k in range(count):
        text, log = browser.run(SET_SLIDER, k).split("|", 1)
        seen.append((text.startswith(f"{k} of {count - 1}: ") and browser.run("return meshes[now].name") == log.split("\n")[0], drawn()["sum"]))
    told(f"the slider shows each of {count} meshes, with its name and log", all(so for so, _ in seen))
    told("their pictures differ", len({it for _, it in seen}) > 1)
    browser.run("document.activeElement.blur()")
    browser.key("\ue012")
    told("the left key goes back", which()[:2] == [count - 2, count - 2])
    browser.key("\ue014")
    told("the right key goes on", which()[:2] == [count - 1, count - 1])
    browser.run(SET_SLIDER, 0)
    browser.click("play")
    told("play says stop", browser.run('return at("play").textContent') == "stop")
    places = set()
    for _ in range(200):
        places.add(which()[0])
        if len(places) > 1:
            break
        time.sleep(0.1)
    told("play goes on", len(places) > 1)
    browser.click("play")
    stood = which()[0]
    time.sleep(1.5)
    told("stop stops", which()[0] == stood and browser.run('return at("play").textContent') == "play")
    browser.run(SET_SLIDER, 0)
    browser.click("edges")
    smooth = drawn()
    told("without edges it is brighter", smooth["dark"] < first["dark"] and smooth["coloured"] > first["pixels"] / 50)
    browser.click("edges")
    told("with them it is as before", drawn() == first)
    browser.click("faces")
    wire = drawn()
    told("without faces there is less", 0 < wire["dark"] and wire["coloured"] < 0.9 * first["coloured"])
    browser.click("edges")
    none = drawn()
    told("without faces and edges there is nothing", none["coloured"] == none["dark"] == 0)
    browser.click("edges")
    told("with edges it is the edges that were left", drawn() == wire)
    browser.click("faces")
    drag(browser, False)
    turned = drawn()
    told("a drag turns it", turned["sum"] != first["sum"] and browser.run("return eye.yaw") != 0.5)
    drag(browser, True)
    told("with shift it moves it", drawn()["sum"] != turned["sum"] and browser.run("return eye.x") != 0)
    browser.act({"type": "wheel", "id": "wheel", "actions": [{"type": "scroll", "x": 300, "y": 200, "deltaX": 0, "deltaY": -300}]})
    told("the wheel goes nearer", browser.run("return eye.far") < 3)
    browser.key("f")
    told("the key f looks at the mesh that is shown", browser.run("return eye.x") == 0 and drawn()["coloured"] > first["pixels"] / 50)
    browser.said("/goog/cdp/execute", {"cmd": "Emulation.setDeviceMetricsOverride", "params": {"width": 380, "height": 700, "deviceScaleFactor": 1, "mobile": False}})
    browser.said("/url", {"url": "about:blank"})
    browser.said("/url", {"url": "file://" + os.path.abspath(page)})
    wide, high = browser.run('return [document.documentElement.scrollWidth, canvas.clientHeight]')
    told("a narrow window has all of it, the log below", wide == 380 and high > 200 and browser.run('return at("log").offsetTop') > high)


def main():
    parser = argparse.ArgumentParser(description=__doc__, formatter_class=argparse.RawDescriptionHelpFormatter)
    parser.add_argument("page", metavar="PAGE")
    parser.add_argument("--driver", metavar="PROGRAM", default=shutil.which("chromedriver"))
    parser.add_argument("--port", metavar="N", type=int, default=19515)
    words = parser.parse_args()
    if words.driver is None:
        sys.exit("try_controls: `chromedriver` is not there")
    browser = Browser(words.driver, words.port)
    try:
        tried(browser, words.page)
    finally:
        browser.end()
    print(f"{sum(CHECKS)} passed, {len(CHECKS) - sum(CHECKS)} failed")
    sys.exit(0 if all(CHECKS) else 1)


if __name__ == "__main__":
    main()
