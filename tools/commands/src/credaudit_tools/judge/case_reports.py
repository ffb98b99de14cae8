"""Expected classes as a report of tests, a case for each right: by the Test Anything Protocol, as prove(1) reads it,
and as the XML that JUnit writes, as jobs for CI read it."""
import xml.etree.ElementTree
from collections.abc import Iterable, Sequence
from dataclasses import dataclass

from ..command_line.printable import shown
from .classes import Outcome
from .expected_classes import GROUPS, Unexpected


@dataclass(frozen=True)
class Case:
    """A right of an answer, or its groups: of which process, what it is, and why it isn't as expected; None: it is."""
    process: int
    name: str
    kind: str
    why: str | None = None


def cases(answers: Iterable[tuple[int, Sequence[Outcome]]], new: Sequence[Unexpected]) -> list[Case]:
    """The cases of all answers, each the process and what is known of its rights: what isn't expected is one too where
    it is no right's."""
    odd = {(each.process, each.right): each for each in new}
    found = list[Case]()
    for pid, outcomes in answers:
        for name, kind in [*((each.right.text(), each.kind) for each in outcomes), (GROUPS, "seen")]:
            wrong = odd.pop((pid, name), None)
            found.append(Case(pid, name, kind) if wrong is None else Case(pid, name, wrong.kind, wrong.why))
    return found + [Case(each.process, each.right, each.kind, each.why) for each in odd.values()]


def marked(text: str) -> str:
    """A text of a line of TAP, in which nothing begins a directive such as TODO."""
    return shown(text).replace("\\", "\\\\").replace("#", "\\#")


def tap(every: Sequence[Case]) -> list[str]:
    """The lines of TAP: the plan, a line for each case, and below one that fails why."""
    lines = ["TAP version 13", f"1..{len(every)}"]
    for number, each in enumerate(every, 1):
        front = "ok" if each.why is None else "not ok"
        lines.append(f"{front} {number} - process {each.process}, {marked(f'{each.name} is {each.kind}')}")
        lines += [f"# {shown(each.why)}"] if each.why is not None else []
    return lines


def junit(name: str, every: Sequence[Case]) -> bytes:
    """The document of JUnit: a suite with the command's name."""
    counts = {"tests": str(len(every)), "failures": str(sum(each.why is not None for each in every)), "errors": "0"}
    top = xml.etree.ElementTree.Element("testsuites", counts)
    suite = xml.etree.ElementTree.SubElement(top, "testsuite", {"name": name, **counts, "skipped": "0"})
    for each in every:
        case = xml.etree.ElementTree.SubElement(suite, "testcase", {"classname": f"process {each.process}",
                                                                    "name": shown(each.name)})
        if each.why is not None:
            why = shown(each.why)
            xml.etree.ElementTree.SubElement(case, "failure", {"type": shown(each.kind), "message": why}).text = why
    xml.etree.ElementTree.indent(top)
    text: bytes = xml.etree.ElementTree.tostring(top, "us-ascii", xml_declaration=False)
    return b'<?xml version="1.0" encoding="UTF-8"?>\n' + text + b"\n"
