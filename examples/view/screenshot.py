#!/usr/bin/env python3
"""Takes a picture of a page of view.py by a browser without a screen, and looks whether there is a surface in it.

    examples/view/screenshot.py PAGE PICTURE [--mesh K] [--size W,H] [--browser PROGRAM]

The browser is Chromium or Chrome; its own software draws, so that no graphics card is needed. Ends with status 1 where the browser takes no picture, or
less than a hundredth of the picture has a colour: the page itself is grey.
"""
import argparse
import os
import shutil
import struct
import subprocess
import sys
import tempfile
import zlib

BROWSERS = ("chromium", "chromium-browser", "google-chrome", "google-chrome-stable")
DRAWN = ("--headless", "--no-sandbox", "--hide-scrollbars", "--use-angle=swiftshader", "--enable-unsafe-swiftshader", "--ignore-gpu-blocklist", "--no-first-run", "--disable-extensions", "--disable-background-networking", "--disable-component-update", "--disable-sync")


def unfiltered(kind, row, above, width):
    """A row of a picture's bytes, with what the row above and the pixel before say undone."""
    for i in range(len(row)):
        left, up, corner = (row[i - width] if i >= width else 0), above[i], (above[i - width] if i >= width else 0)
        if kind == 4:
            guess = left + up - corner
            told = min((abs(guess - left), 0, left), (abs(guess - up), 1, up), (abs(guess - corner), 2, corner))[2]
        else:
            told = (0, left, up, (left + up) // 2)[kind]
        row[i] = (row[i] + told) & 255
    return row


def coloured(picture):
    """Which part of the pixels of a PNG has a colour that is not grey."""
    width, height, depth, kind = struct.unpack(">IIBB", picture[16:26])
    size = {2: 3, 6: 4}[kind] if depth == 8 else sys.exit("screenshot: a picture of another kind than is read here")
    packed, place = b"", 8
    while place < len(picture):
        length, name = struct.unpack(">I4s", picture[place : place + 8])
        packed += picture[place + 8 : place + 8 + length] if name == b"IDAT" else b""
        place += length + 12
    flat, above, count = zlib.decompress(packed), bytes(width * size), 0
    for y in range(height):
        row = bytearray(flat[y * (width * size + 1) + 1 : (y + 1) * (width * size + 1)])
        above = unfiltered(flat[y * (width * size + 1)], row, above, size)
        count += sum(max(r, g, b) - min(r, g, b) > 30 for r, g, b in zip(above[::size], above[1::size], above[2::size]))
    return count / (width * height)


def taken(browser, page, picture, mesh, size):
    with tempfile.TemporaryDirectory() as folder:
        words = [browser, *DRAWN, f"--user-data-dir={folder}", f"--window-size={size}", f"--screenshot={os.path.abspath(picture)}", f"file://{os.path.abspath(page)}#{mesh}"]
        return subprocess.run(words, stdout=subprocess.PIPE, stderr=subprocess.PIPE, timeout=600)


def main():
    parser = argparse.ArgumentParser(description=__doc__, formatter_class=argparse.RawDescriptionHelpFormatter)
    parser.add_argument("page", metavar="PAGE")
    parser.add_argument("picture", metavar="PICTURE")
    parser.add_argument("--mesh", metavar="K", type=int, default=0)
    parser.add_argument("--size", metavar="W,H", default="1000,560")
    parser.add_argument("--browser", metavar="PROGRAM", default=next(filter(shutil.which, BROWSERS), None))
    words = parser.parse_args()
    if words.browser is None:
        sys.exit(f"screenshot: none of {', '.join(BROWSERS)} is there")
    if os.path.exists(words.picture):
        os.remove(words.picture)
    ran = taken(words.browser, words.page, words.picture, words.mesh, words.size)
    if not os.path.exists(words.picture):
        sys.exit(f"screenshot: {words.browser} ended with {ran.returncode} and took no picture\n{ran.stderr.decode(errors='replace')[-1000:]}")
    with open(words.picture, "rb") as it:
        part = coloured(it.read())
    print(f"{words.picture}: {part:.1%} of it has a colour")
    sys.exit(0 if part >= 0.01 else "screenshot: no surface is seen in it")


if __name__ == "__main__":
    main()
