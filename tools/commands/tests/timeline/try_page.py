#!/usr/bin/env python3
"""Shows pages of timelines in Debian's chromium, and compares what is seen of their lanes with their tables.

  try_page.py [--keep FOLDER] [RECORDING ..]

Of each recording (left out: some of examples/strace) the page is made by credaudit-timeline --html, shown without a
window in the light and in the dark, and a picture of it is taken. In it each row of the lanes must have the colours of
the table's classes, from left to right, and each border must stand in its column. --keep leaves the pages and the
pictures in a folder. Needs chromium, and a built program (CREDAUDIT). Status 0: all is seen so; 1: something isn't;
2: chromium or the program isn't there.
"""
import argparse
import os
import re
import shutil
import subprocess
import sys
import tempfile
from collections.abc import Iterator
from dataclasses import dataclass

import tools_path  # noqa: F401
from commands.tests.timeline import png
from commands.tests.timeline.page_reader import Element, Reader
from commands.tests.timeline.png import Colour, Picture
from credaudit_tools.command_line.command import Failure
from credaudit_tools.replay import program
from credaudit_tools.timeline import timeline_command
from credaudit_tools.timeline.picture import COLOURS

HERE = os.path.dirname(os.path.abspath(__file__))
EXAMPLES = os.path.normpath(os.path.join(HERE, "..", "..", "..", "..", "examples", "strace"))
SHOWN = ("nginx", "chronyd", "sshd", "unshare_and_drop")
WIDTH, ROW, LANE = 1100, 44, 60        # of the window; its height is enough for so many rows and lanes
# Of the page the bars stay alone: a text can have a bar's colour.
ALONE = """<style>main > :not(section), section > :not(.picture) { display: none; }
  main, body { margin: 0; padding: 0; max-width: none; } .picture { border-radius: 0; border: 0; overflow: visible; }
  .mark, .axis { visibility: hidden; } .name, h4, .span { color: transparent !important; }
  .span { background-image: none !important; border-radius: 0; }</style>"""
POLICY = re.compile(r'<meta http-equiv="Content-Security-Policy"[^>]*>')
NEAR = 12           # so far may a part of a colour be from what is wanted
APART = 3           # so many pixels may a border stand beside its column


@dataclass(frozen=True)
class Bar:
    """A span as it is drawn: its class, and from where to where."""
    kind: str
    begin: float
    end: float


def colour_of(text: str) -> Colour:
    """The parts of a colour."""
    red, green, blue = (int(text[at:at + 2], 16) for at in (1, 3, 5))
    return red, green, blue


def kind_at(own: Colour, colours: dict[str, Colour]) -> str | None:
    """The class whose colour this is."""
    return next((kind for kind, wanted in colours.items()
                 if all(abs(one - other) <= NEAR for one, other in zip(own, wanted))), None)


def bars_at(picture: Picture, top: int, colours: dict[str, Colour]) -> list[Bar]:
    """What is seen on a line of pixels."""
    found, known = list[Bar](), dict[Colour, str | None]()
    kind, begin = None, 0
    for left in range(picture.width + 1):
        own = None
        if left < picture.width:
            pixel = picture.at(left, top)
            own = known[pixel] if pixel in known else known.setdefault(pixel, kind_at(pixel, colours))
        if own != kind:
            if kind is not None and left - begin > 2:
                found.append(Bar(kind, begin, left))
            kind, begin = own, left
    return found


def seen(picture: Picture, colours: dict[str, Colour]) -> list[list[Bar]]:
    """The rows of bars, from top to bottom: lines of pixels with bars, that one without parts from others."""
    rows, within, bars = list[list[Bar]](), False, list[Bar]()
    for top, line in enumerate(picture.lines):
        if top == 0 or line != picture.lines[top - 1]:      # most lines are as the one above
            bars = bars_at(picture, top, colours)
        if bars and not within:
            rows.append(bars)
        within = bool(bars)
    return rows


def wanted(page: Element) -> tuple[list[list[Bar]], int]:
    """The rows that the page's links have, in columns, and how many columns there are."""
    rows = list[list[Bar]]()
    for track in page.every("div", "of-spans"):
        places = [(each.attributes["class"].split()[1], re.findall(r" [be](\d+)", each.attributes["class"]))
                  for each in track.every("a")]
        rows.append([Bar(kind, int(begin) - 1, int(end) - 1) for kind, (begin, end) in places])
    return rows, max((int(bar.end) for row in rows for bar in row), default=1)


def differences(found: list[list[Bar]], rows: list[list[Bar]], columns: int) -> Iterator[str]:
    """Where what is seen isn't what the table says."""
    if len(found) != len(rows):
        yield f"{len(found)} rows are seen, and there are {len(rows)}"
        return
    left, right = min(row[0].begin for row in found), max(row[-1].end for row in found)
    for number, (own, row) in enumerate(zip(found, rows), 1):
        if [bar.kind for bar in own] != [bar.kind for bar in row]:
            yield f"row {number}: {[bar.kind for bar in own]} is seen, and the table has {[bar.kind for bar in row]}"
            continue
        for bar, place in zip(own, row):
            far = max(abs(left + (right - left) * column / columns - pixel)
                      for pixel, column in ((bar.begin, place.begin), (bar.end, place.end)))
            if far > APART:
                yield f"row {number}: a bar of {bar.kind} stands {far:.0f} pixels beside its column"


def taken(page: str, path: str, height: int, dark: bool) -> Picture:
    """A picture of a page, as chromium shows it. Fails where it shows none."""
    scheme = ["--blink-settings=preferredColorScheme=0"] if dark else []
    with tempfile.TemporaryDirectory() as profile:
        done = subprocess.run(["chromium", "--headless=new", "--no-sandbox", "--disable-gpu", "--hide-scrollbars",
                               f"--user-data-dir={profile}", f"--window-size={WIDTH},{height}",
                               f"--screenshot={path}", *scheme, "file://" + page], stdout=subprocess.DEVNULL,
                              stderr=subprocess.PIPE, check=False, timeout=120)
    if done.returncode or not os.path.exists(path):
        raise Failure(f"chromium shows no page: {done.stderr[-300:]!r}")
    with open(path, "rb") as file:
        return png.read(file.read())


def tried(folder: str, recording: str) -> list[str]:
    """What isn't as it should be of a recording's page."""
    name = os.path.basename(os.path.normpath(recording))
    path, alone = (os.path.join(folder, name + end) for end in (".html", ".alone.html"))
    with open(os.devnull, "w", encoding="ascii") as nowhere:
        before, sys.stdout = sys.stdout, nowhere
        try:
            timeline_command.main(["--html", path, recording])
        finally:
            sys.stdout = before
    with open(path, encoding="ascii") as file:
        text = file.read()
    with open(alone, "w", encoding="ascii") as file:
        file.write(POLICY.sub("", text).replace("</head>", ALONE + "</head>"))
    read = Reader(text).open[0]
    rows, columns = wanted(read)
    height = 100 + ROW * len(rows) + LANE * len(read.every("div", "lane"))
    found = list[str]()
    for place, light in enumerate(("light", "dark")):
        colours = {kind: colour_of(both[place]) for kind, both in COLOURS.items() if kind != "not-yet"}
        picture = taken(alone, os.path.join(folder, f"{name}.{light}.png"), height, place == 1)
        drawn = [[bar for bar in row if bar.kind != "not-yet"] for row in rows]
        found += [f"{name}, {light}: {each}" for each in
                  differences(seen(picture, colours), [row for row in drawn if row], columns)]
        print(f"{name:20} {light:6} {len(rows)} rows, {columns} columns: {'differs' if found else 'as the table says'}")
    return found


def main() -> int:
    """Tries all; the status."""
    ask = argparse.ArgumentParser(description=(__doc__ or "").split("\n", 1)[0])
    ask.add_argument("--keep", metavar="FOLDER")
    ask.add_argument("recordings", nargs="*", metavar="RECORDING")
    asked = ask.parse_args()
    if shutil.which("chromium") is None:
        print("chromium isn't there: apt-get install chromium", file=sys.stderr)
        return 2
    try:
        program.find()
        with tempfile.TemporaryDirectory() as made:
            folder = asked.keep or made
            os.makedirs(folder, exist_ok=True)
            found = [each for recording in asked.recordings or [os.path.join(EXAMPLES, name) for name in SHOWN]
                     for each in tried(os.path.abspath(folder), recording)]
    except Failure as failure:
        print(f"try_page.py: {failure}", file=sys.stderr)
        return 2
    for each in found:
        print(each)
    return 1 if found else 0


if __name__ == "__main__":
    sys.exit(main())
