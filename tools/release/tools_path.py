"""Puts the folders of tools/ in Python's path. Each script that is run by its own path imports this first, from the
copy that lies beside it (all copies are alike); so `tools/plain/bounds.py` finds `plain.rules` from any folder.
"""
import os
import sys


def _top() -> str:
    """The checkout that this file is in: the nearest folder above it that has tools/layers.txt."""
    folder = os.path.dirname(os.path.realpath(__file__))
    while not os.path.isfile(os.path.join(folder, "tools", "layers.txt")):
        above = os.path.dirname(folder)
        if above == folder:
            raise ImportError(f"no folder above {__file__} has tools/layers.txt")
        folder = above
    return folder


TOP = _top()
TOOLS = os.path.join(TOP, "tools")

for _folder in (os.path.join(TOOLS, "checker", "src"), os.path.join(TOOLS, "commands", "src"), TOOLS):
    if _folder not in sys.path:
        sys.path.insert(0, _folder)
