"""What a program is, by its stamp: proved, of this tree or of another, or not proved.

A stamp says what was built; it proves nothing: `make` does, in building the program anew.
"""
from dataclasses import dataclass

from . import places, stamp
from .sources import sum_of_file
from .stamp import Build, Tree

THIS_TREE, OTHER_TREE, NOT_PROVED = "proved, of this tree", "proved, of another tree", "not proved"
PROVED = "proved; which tree these commands are of isn't known"


@dataclass(frozen=True)
class Found:
    """What a program is: its kind, in the words above, why or of which tree, and its stamp, where that is its own."""
    kind: str
    why: str = ""
    build: Build | None = None

    def __str__(self) -> str:
        return f"{self.kind} ({self.why})" if self.why else self.kind


def kind(build: Build, tree: Tree | None) -> Found:
    """What a program is whose stamp this is, for commands of that tree."""
    if not build.proved:
        return Found(NOT_PROVED, "built by make try", build)
    of = f"version {build.tree.version}, commit {build.tree.commit}"
    if tree is None:
        return Found(PROVED, of, build)
    return Found(THIS_TREE, "", build) if build.tree.sources == tree.sources else Found(OTHER_TREE, of, build)


def look(program: str, tree: Tree | None, stamps: list[str] | None = None) -> Found:
    """What the program of a path is. OSError where it can't be read."""
    own, why = sum_of_file(program), "it has no stamp"
    for path in places.stamps_of(program) if stamps is None else stamps:
        text = stamp.text_of(path)
        if text is None:
            continue
        try:
            build = stamp.read_build(text)
        except ValueError:
            why = "its stamp can't be read"
            continue
        if build.program == own:
            return kind(build, tree)
        why = "its stamp is another program's"
    return Found(NOT_PROVED, why)
