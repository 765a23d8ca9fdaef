"""Chromium and poppler, for tests that look at pages as a person does.

    browser.py FOLDER PAGE..    pictures of pages, at a screen's, a phone's and a sheet's width
"""

from __future__ import annotations

import base64
import html
import json
import os
import re
import select
import shutil
import subprocess
import sys
import tempfile
import unicodedata
from html.parser import HTMLParser
from pathlib import Path
from typing import Any, NamedTuple, Optional

NAMES = ("chromium", "chromium-browser", "google-chrome")
BROWSER = next((found for name in NAMES if (found := shutil.which(name))), None)
POPPLER = all(map(shutil.which, ("pdftotext", "pdftoppm")))
MISSING = "no Chromium" if BROWSER is None else "" if POPPLER else "no poppler-utils"

SCREEN, PHONE = 1280, 390  # widths of a window
HIGH = {SCREEN: 900, PHONE: 844}
POINTS = {"A4": (595.3, 841.9), "letter": (612.0, 792.0)}
MARGIN = 15 / 25.4 * 72  # of a printed page's sides, in points
FOOT = 18 / 25.4 * 72  # the margin at its foot
DPI = 96  # of a sheet's picture: a letter's strokes are then as dark as they are

# What is wrong with a page: text beyond the edges, over other text, or with a word broken in
# two, but at a hyphen; or the line around a bold text, through another. It looks at each
# word's boxes.
LOOK = """(() => {
  const wide = innerWidth, wrong = [], boxes = [];
  const walk = document.createTreeWalker(document.body, NodeFilter.SHOW_TEXT);
  if (document.documentElement.scrollWidth > wide) wrong.push('wider than ' + wide);
  for (let node; node = walk.nextNode();) {
    for (const word of node.data.matchAll(/[^\\s-]+-?/g)) {
      const range = document.createRange();
      range.setStart(node, word.index);
      range.setEnd(node, word.index + word[0].length);
      const found = [...range.getClientRects()].filter(box => box.width && box.height);
      if (found.length > 1 && word[0].length < 40) wrong.push('broken: ' + word[0]);
      for (const box of found) boxes.push([box, word[0], node]);
    }
  }
  boxes.sort((a, b) => a[0].top - b[0].top);
  boxes.forEach(([box, word], at) => {
    if (box.left < 0 || box.right > wide + 0.5) wrong.push('cut off: ' + word);
    for (let next = at + 1; next < boxes.length && boxes[next][0].top < box.bottom - 3; next++) {
      const other = boxes[next][0];
      if (other.left < box.right - 1 && box.left < other.right - 1 && other.bottom > box.top + 3)
        wrong.push('over each other: ' + word + ' ' + boxes[next][1]);
    }
  });
  for (const bold of document.querySelectorAll('b')) {
    const style = getComputedStyle(bold);
    if (style.outlineStyle == 'none') continue;
    const more = parseFloat(style.outlineWidth) + parseFloat(style.outlineOffset);
    for (const line of bold.getClientRects()) {
      for (const [box, word, node] of boxes) {
        if (!bold.contains(node) && box.left < line.right + more && line.left - more < box.right
            && box.top + 3 < line.bottom && line.top < box.bottom - 3)
          wrong.push('a line through: ' + word);
      }
    }
  }
  if (!boxes.length) wrong.push('empty');
  return JSON.stringify(wrong);
})()"""


class Browser:
    """A Chromium that takes orders from a pipe, by the DevTools protocol."""

    def __init__(self) -> None:
        """Starts it, with one page."""
        self.folder = tempfile.TemporaryDirectory()
        orders, self.orders = os.pipe()
        self.answers, answers = os.pipe()
        self.process = subprocess.Popen(
            ["bash", "-c", f'exec "$@" 3<&{orders} 4>&{answers}', "bash", BROWSER or "",
             "--headless=new", "--no-sandbox", "--disable-gpu", "--hide-scrollbars", "--no-first-run",
             f"--user-data-dir={self.folder.name}", "--remote-debugging-pipe", "about:blank"],
            pass_fds=(orders, answers), stdin=subprocess.DEVNULL,
            stdout=subprocess.DEVNULL, stderr=subprocess.DEVNULL,
        )  # fmt: skip
        os.close(orders)
        os.close(answers)
        self.read = b""
        self.number = 0
        self.session = ""
        target = self.order("Target.createTarget", url="about:blank")["targetId"]
        self.session = self.order("Target.attachToTarget", targetId=target, flatten=True)["sessionId"]
        self.order("Page.enable")

    def close(self) -> None:
        """Ends it."""
        self.session = ""
        self.order("Browser.close")
        self.process.wait(30)
        os.close(self.orders)
        os.close(self.answers)
        self.folder.cleanup()

    def _message(self) -> dict[str, Any]:
        while b"\0" not in self.read:
            assert select.select([self.answers], [], [], 60)[0], "Chromium says nothing"
            more = os.read(self.answers, 1 << 20)
            assert more, "Chromium has ended"
            self.read += more
        message, _, self.read = self.read.partition(b"\0")
        return dict(json.loads(message))

    def order(self, method: str, **parameters: Any) -> dict[str, Any]:
        """Gives an order, and waits for its answer."""
        self.number += 1
        order = {"id": self.number, "method": method, "params": parameters}
        session = {"sessionId": self.session} if self.session else {}
        data = json.dumps({**order, **session}).encode() + b"\0"
        while data:
            data = data[os.write(self.orders, data) :]
        while True:
            message = self._message()
            if message.get("id") == self.number:
                assert "result" in message, message
                return dict(message["result"])

    def open(self, page: Path, width: int = SCREEN) -> None:
        """Shows a page in a window of a width; a phone's is a phone's."""
        self.order(
            "Emulation.setDeviceMetricsOverride",
            width=width, height=HIGH[width], deviceScaleFactor=1, mobile=width == PHONE,
        )  # fmt: skip
        self.order("Page.navigate", url=page.resolve().as_uri())
        while self._message().get("method") != "Page.loadEventFired":
            pass

    def look(self) -> list[str]:
        """What is wrong with the page."""
        answer = self.order("Runtime.evaluate", expression=LOOK)
        return list(json.loads(answer["result"]["value"]))

    def picture(self) -> bytes:
        """The whole page as PNG."""
        answer = self.order("Page.captureScreenshot", captureBeyondViewport=True)
        return base64.b64decode(answer["data"])

    def print(self, paper: str) -> bytes:
        """The page as PDF."""
        size = f"@page {{ size: {paper}; }}"
        style = "document.head.append(Object.assign(document.createElement('style'), {id: 'size'}))"
        self.order("Runtime.evaluate", expression=f"window.size || {style}")
        self.order("Runtime.evaluate", expression=f"size.textContent = {size!r}")
        answer = self.order("Page.printToPDF", preferCSSPageSize=True)
        return base64.b64decode(answer["data"])


class Words(HTMLParser):
    """A page's texts and headings: what stands in h1 to h3, rows of heads and legends."""

    VOID = ("meta", "rect", "path", "line", "br", "wbr")
    HEADINGS = {"h1", "h2", "h3", "thead", "legend"}

    def __init__(self, page: str) -> None:
        super().__init__()
        self.open: list[str] = []
        self.texts: list[str] = []
        self.headings: list[str] = []
        self.feed(page)

    def handle_starttag(self, tag: str, attrs: list[tuple[str, Optional[str]]]) -> None:
        name = "legend" if ("class", "legend") in attrs else tag
        if tag not in self.VOID:
            self.open.append(name)
        if name in self.HEADINGS - {"thead"} or (tag == "tr" and "thead" in self.open):
            self.headings.append("")

    def handle_startendtag(self, tag: str, attrs: list[tuple[str, Optional[str]]]) -> None:
        pass

    def handle_endtag(self, tag: str) -> None:
        self.open.pop()

    def handle_data(self, data: str) -> None:
        if self.open and self.open[-1] not in ("style", "title"):
            self.texts.append(data)
            if self.HEADINGS & set(self.open):
                self.headings[-1] += f" {data}"


class Printed(NamedTuple):
    """A page on paper: the lines of each sheet, and what is wrong."""

    sheets: list[list[str]]
    wrong: list[str]


def _plain(text: str) -> str:
    return " ".join(unicodedata.normalize("NFKC", text).split())


def _words(text: str) -> list[str]:
    """A text's words, which may be broken after a hyphen."""
    return re.findall("[^ -]+-?|-", _plain(text))


def poppler(program: str, pdf: bytes, *options: str) -> bytes:
    """What a program of poppler makes of a PDF."""
    command = [program, *options, "-", *(["-"] if program == "pdftotext" else [])]
    return subprocess.run(command, input=pdf, capture_output=True, check=True, timeout=120).stdout


def printed(browser: Browser, page: Path, paper: str) -> Printed:
    """The page that the browser shows, printed on A4 or letter.

    Wrong are words that are lost or beyond the margins, a sheet that has no words, shows
    nothing dark above its foot, or ends in a heading (at its top lines to write on may
    follow), and colours, which black and white would lose.
    """
    # A word that may be broken is one word.
    words = Words(page.read_text().replace("<wbr>", ""))
    wrong: list[str] = []
    pdf = browser.print(paper)
    lines = poppler("pdftotext", pdf, "-layout").decode()
    boxes = poppler("pdftotext", pdf, "-bbox").decode()
    wide, high = POINTS[paper]
    sizes = re.findall(r'<page width="([\d.]+)"', boxes)
    wrong += [f"a sheet {size} wide" for size in sizes if abs(float(size) - wide) > 1]
    for left, right, word in re.findall(r'<word xMin="([\d.-]+)".*?xMax="([\d.]+)".*?>(.*?)</', boxes):
        if float(left) < MARGIN - 2 or float(right) > wide - MARGIN + 2:
            wrong.append(f"beyond the margin: {html.unescape(word)}")
    lost = {word for said in words.texts for word in _words(said)} - set(_words(lines))
    wrong += [f"lost: {word}" for word in sorted(lost) if len(word) < 40]
    headings = {_plain(heading) for heading in words.headings}
    sheets = [[_plain(line) for line in sheet.splitlines() if line.strip()] for sheet in lines.split("\f")]
    sheets = sheets[:-1]
    lowest = [
        max((float(at) for at in re.findall(r'yMax="([\d.]+)"', each) if float(at) < high - 45), default=0)
        for each in boxes.split("<page ")[1:]
    ]
    for number, (sheet, low) in enumerate(zip(sheets, lowest), 1):
        assert sheet and sheet[-1].endswith(f"{number} of {len(sheets)}"), sheet[-1:]
        body = sheet[:-1]
        if not body:
            wrong.append(f"sheet {number} is blank")
        elif body[-1] in headings and low > high / 4:
            wrong.append(f"sheet {number} ends in the heading {body[-1]!r}")
    shots = pictures(poppler("pdftoppm", pdf, "-r", str(DPI)))
    foot = round((high - MARGIN) / 72 * DPI)
    wrong += [f"sheet {number} shows nothing" for number, shot in enumerate(shots, 1) if not _dark(shot, foot)]
    if not all(map(_grey, shots)):
        wrong.append("colours")
    return Printed(sheets, wrong)


def full(pdf: bytes, paper: str) -> list[float]:
    """How far down each sheet of a PDF is printed on, of its height between the margins."""
    top, bottom = (round(at / 72 * DPI) for at in (MARGIN, POINTS[paper][1] - FOOT))
    made = []
    for shot in pictures(poppler("pdftoppm", pdf, "-gray", "-r", str(DPI))):
        rows = (shot.points[at * shot.wide : (at + 1) * shot.wide] for at in range(top, bottom))
        lowest = max((at for at, row in enumerate(rows, 1) if min(row) < 200), default=0)
        made.append(lowest / (bottom - top))
    return made


class Picture(NamedTuple):
    """A picture in rows of points, each of one byte (P5) or three (P6)."""

    wide: int
    points: bytes


def pictures(data: bytes) -> list[Picture]:
    """The pictures that pdftoppm writes one after the other."""
    made = []
    while data:
        match = re.match(rb"P([56])\s+(\d+)\s+(\d+)\s+255\s", data)
        assert match
        size = int(match[2]) * int(match[3]) * (3 if match[1] == b"6" else 1)
        made.append(Picture(int(match[2]), data[match.end() : match.end() + size]))
        data = data[match.end() + size :]
    return made


def _grey(picture: Picture) -> bool:
    """Whether no point of a picture in colours is coloured."""
    red, green, blue = (picture.points[at::3] for at in range(3))
    return red == green == blue


def _dark(picture: Picture, rows: int) -> bool:
    """Whether the first rows of a picture in colours have a dark point."""
    return min(picture.points[: rows * picture.wide * 3]) < 128


def main() -> None:
    """Writes pictures of pages."""
    folder, *pages = map(Path, sys.argv[1:])
    folder.mkdir(parents=True, exist_ok=True)
    browser = Browser()
    for page in pages:
        for width, name in ((PHONE, "phone"), (SCREEN, "screen")):
            browser.open(page, width)
            (folder / f"{page.stem}.{name}.png").write_bytes(browser.picture())
        for paper in POINTS:
            command = ["pdftoppm", "-gray", "-r", "70", "-png", "-", str(folder / f"{page.stem}.{paper}")]
            subprocess.run(command, input=browser.print(paper), check=True, timeout=120)
    browser.close()


if __name__ == "__main__":
    main()
