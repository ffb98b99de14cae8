"""The page and the drawing of a timeline: the table says what the JSON says, the picture leads to it, nothing is loaded
from elsewhere, and no name of a log is anything but text."""
import base64
import hashlib
import os
import re
import struct
import tomllib
import xml.etree.ElementTree
import zlib
from typing import Any
from unittest import mock

from credaudit_tools.command_line.command import FAILED, GOOD
from credaudit_tools.command_line.printable import shown
from credaudit_tools.formats.rights import Right
from credaudit_tools.formats.strace_lines import quoted
from credaudit_tools.timeline import timeline

from .. import support
from . import png
from .page_reader import Element, Reader, flat
from .timeline_case import LOG, WORLD, Case
from .test_timeline import MASTER, WORKERS

NAMES: list[str] = tomllib.loads(support.data("hostile_names.toml").decode())["names"]
# What a page has, and no more: nothing that loads, runs or sends.
TAGS = {"html", "head", "meta", "title", "style", "body", "main", "h1", "h2", "h3", "h4", "p", "section", "ul", "li",
        "span", "div", "a", "table", "caption", "thead", "tbody", "tr", "th", "td", "code", "br", "details", "summary",
        "script"}
ATTRIBUTES = {"class", "id", "href", "title", "role", "tabindex", "aria-label", "aria-hidden", "scope", "lang",
              "hidden", "charset", "http-equiv", "content", "name"}
DRAWN = {"svg", "title", "style", "defs", "pattern", "rect", "text", "line", "g"}


class Page(Case):
    def made(self, *words: str) -> tuple[Element, dict[str, Any], str]:
        """The page, the JSON and the drawing of one call."""
        page, drawing = (os.path.join(self.work, name) for name in ("page.html", "drawing.svg"))
        document = self.document("--html", page, "--svg", drawing, *words)
        with open(page, encoding="ascii") as one, open(drawing, encoding="ascii") as other:
            return Reader(one.read()).open[0], document, other.read()

    def rows(self, top: Element) -> list[list[str]]:
        """The rows of the table of spans, cell by cell; of rights and of runs a word for each."""
        found = []
        for row in [each for table in top.every("table", "spans") for each in table.every("tbody")[0].every("tr")]:
            cells = row.every("td")
            names = [code.words() for code in cells[1].every("code")]
            found.append([cells[0].words(), " ".join(names), cells[2].every("span", "key")[0].attributes["class"],
                          cells[3].words(), cells[4].words(), cells[5].words(),
                          "; ".join(code.words() for code in cells[7].every("code")), cells[8].words()])
        return found

    def wanted(self, document: dict[str, Any]) -> list[list[str]]:
        """The same by the JSON."""
        return [[", ".join(map(str, lane["processes"])), " ".join(row["rights"]), f"key {span['class']}",
                 str(span["from"]), "" if span["to"] is None else str(span["to"]), span["call"] or "",
                 "; ".join(span["run"]), span["certificate"] or ""]
                for answer in document["answers"] for lane in answer["lanes"] for row in lane["rights"]
                for span in row["spans"]]

    def test_the_table_says_what_the_json_says(self) -> None:
        for world, log, pid in ((WORLD, LOG, "100"), (WORLD, LOG, "101"), (MASTER, WORKERS, "100"),
                                (MASTER, "", "100")):
            with self.subTest(log, pid=pid):
                page, document, _ = self.made(*self.names(world, log), pid)
                self.assertEqual(self.rows(page), self.wanted(document))

    def test_the_picture_leads_to_the_table(self) -> None:
        """Without a script too: each span is a link to its row, and each row leads back where the span is drawn."""
        page, document, _ = self.made(*self.names(), "100")
        ids = {each.attributes["id"] for each in flat(page) if "id" in each.attributes}
        spans = page.every("a", "span")
        self.assertEqual([each.attributes["href"] for each in spans],
                         [f"#r{number}" for number in range(1, len(self.wanted(document)) + 1)])
        links = [each.attributes["href"] for each in page.every("a")]
        self.assertLessEqual({link.removeprefix("#") for link in links}, ids)
        kinds = [each.attributes["class"].split()[1] for each in spans]
        self.assertEqual([f"key {kind}" for kind in kinds], [row[2] for row in self.wanted(document)])
        self.assertTrue(all(each.attributes["aria-label"] for each in spans))

    def test_spans_stand_side_by_side(self) -> None:
        """In each row of the picture each span begins in the column in which the one before it ends."""
        page, _, _ = self.made(*self.names(), "100")
        for track in page.every("div", "of-spans"):
            places = [re.search(r" b(\d+) e(\d+)$", each.attributes["class"]) for each in track.every("a")]
            found = [(int(place[1]), int(place[2])) for place in places if place is not None]
            self.assertEqual(len(found), len(track.every("a")))
            self.assertTrue(all(begin < end for begin, end in found))
            self.assertEqual([begin for begin, _ in found[1:]], [end for _, end in found[:-1]])

    def test_nothing_comes_from_elsewhere(self) -> None:
        page, _, _ = self.made(*self.names(), "100")
        every = flat(page)[1:]
        self.assertLessEqual({each.name for each in every}, TAGS)
        self.assertLessEqual({name for each in every for name in each.attributes}, ATTRIBUTES)
        self.assertTrue(all(each.attributes["href"].startswith("#") for each in page.every("a")))
        [style], [script] = page.every("style"), page.every("script")
        self.assertNotRegex(style.text, r"url\(|@import|//")
        self.assertNotRegex(script.text, r"https?:|fetch|XMLHttp|innerHTML|eval|import")
        policy = next(each.attributes["content"] for each in page.every("meta") if "http-equiv" in each.attributes)
        for name, code in (("style-src", style.text), ("script-src", script.text)):
            told = base64.b64encode(hashlib.sha256(code.encode()).digest()).decode()
            self.assertIn(f"{name} 'sha256-{told}'", policy)
        self.assertTrue(policy.startswith("default-src 'none'; "))
        self.assertNotIn("unsafe", policy)

    def test_marks(self) -> None:
        log = LOG.replace("; a remark, which is a line too", "; mark 100 accept4 3 = 5")
        page, document, drawing = self.made(*self.names(WORLD, log), "100")
        self.assertEqual([each.words() for each in page.every("span", "mark")], ["accept4, line 2"])
        self.assertIn("accept4 (line 2)", drawing)
        self.assertEqual([mark["line"] for mark in document["answers"][0]["lanes"][0]["marks"]], [2])

    def hostile(self, name: str) -> list[str]:
        """The words for a log in which a program has this path."""
        world = 'log = "strace"\n[[process]]\npid = 100\n'
        log = b"100 execve(" + quoted(name.encode("latin-1")) + b", [], NULL) = 0\n100 setuid(33) = 0\n"
        return [self.put("world.toml", world.encode()), self.put("log", log), "100"]

    def test_hostile_names(self) -> None:
        """Each stored name, as the path of a program: the page has the elements that it has for a plain one, and the
        name stands in it as it is shown everywhere."""
        self.enterContext(mock.patch.object(timeline, "rights_had", lambda *_: [Right("uid", 0)]))
        plain = [each.name for each in flat(self.made(*self.hostile("/bin/plain"))[0])]
        for name in [*NAMES, "</script><script>alert(1)</script>", '" onfocus="alert(1)', "]]>--><svg onload=x>",
                     "&lt;"]:
            with self.subTest(name):
                page, _, drawing = self.made(*self.hostile(name))
                every = flat(page)
                self.assertEqual([each.name for each in every], plain)
                self.assertLessEqual({key for each in every for key in each.attributes}, ATTRIBUTES)
                self.assertIn(shown(name.encode("latin-1")), page.every("h4")[0].words())
                self.assertTrue(all(each.words().replace("\n", "").isprintable() for each in page.every("td")))
                top = xml.etree.ElementTree.fromstring(drawing)
                self.assertLessEqual({each.tag.partition("}")[2] for each in top.iter()}, DRAWN)

    def test_the_drawing(self) -> None:
        """A bar for each span, with its title; no address, and nothing that runs."""
        _, document, drawing = self.made(*self.names(), "100")
        top = xml.etree.ElementTree.fromstring(drawing)
        groups = [each for each in top.iter() if each.tag.endswith("}g")]
        self.assertEqual(len(groups), len(self.wanted(document)))
        kinds = [next(part.attrib["class"] for part in each if part.tag.endswith("rect")) for each in groups]
        self.assertEqual([f"key {kind}" for kind in kinds], [row[2] for row in self.wanted(document)])
        self.assertEqual(re.findall(r"https?:[^\"]*", drawing), ["http://www.w3.org/2000/svg"])
        for each in top.iter():
            self.assertEqual([name for name in each.attrib if name.startswith("on") or "href" in name], [])

    def test_where_nothing_can_be_put(self) -> None:
        """It is told before long work."""
        for option in ("--html", "--svg"):
            status, out, errors = self.command(option, os.path.join(self.work, "none", "x"), *self.names(), "100")
            self.assertEqual((status, out), (FAILED, ""))
            self.assertIn("there is no folder", errors)

    def test_png(self) -> None:
        """A picture of two pixels in five lines, each with another filter, by hand from the specification."""
        lines = [bytes([0, 10, 20, 30, 40, 50, 60]), bytes([1, 10, 20, 30, 30, 30, 30]), bytes([2, 1, 1, 1, 1, 1, 1]),
                 bytes([3, 5, 10, 15, 0, 0, 0]), bytes([4, 1, 1, 1, 2, 2, 2])]
        chunk = {b"IHDR": struct.pack(">IIBBBBB", 2, 5, 8, 2, 0, 0, 0), b"IDAT": zlib.compress(b"".join(lines)),
                 b"IEND": b""}
        data = png.SIGNATURE + b"".join(struct.pack(">I4s", len(told), name) + told + b"\0\0\0\0"
                                        for name, told in chunk.items())
        read = png.read(data)
        self.assertEqual([[read.at(left, top) for left in (0, 1)] for top in range(5)], [
            [(10, 20, 30), (40, 50, 60)], [(10, 20, 30), (40, 50, 60)], [(11, 21, 31), (41, 51, 61)],
            [(10, 20, 30), (25, 35, 45)], [(11, 21, 31), (27, 37, 47)]])
        for odd in (b"", data[1:], data.replace(b"\x08\x02\0\0\0", b"\x10\x02\0\0\0")):
            with self.assertRaises(ValueError):
                png.read(odd)

    def test_words_come_too(self) -> None:
        path = os.path.join(self.work, "page.html")
        status, out, _ = self.command("--html", path, *self.names(), "100")
        self.assertEqual(status, GOOD)
        self.assertTrue(out.startswith("process 100: "))
