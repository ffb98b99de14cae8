"""The two packages of tools/: their pyproject.toml name what the launchers call, and pip installs both without a
network."""
import glob
import importlib.util
import os
import shutil
import subprocess
import sys
import tomllib
import unittest

from commands.tests.support import Case

from ..layers import PACKAGES, TOOLS

FOLDERS = {name: path.split(os.sep)[0] for name, path in PACKAGES.items()}
NEEDED = ("pip", "setuptools", "wheel")
LAUNCHER = """#!/usr/bin/env python3
\"\"\"See {name}(1).\"\"\"
{{path}}from {module} import {function}{{noqa}}

{function}()
"""
PATH = """import os
import sys

sys.path.insert(0, os.path.join(os.path.dirname(os.path.realpath(__file__)), "{folder}", "src"))
"""
# What is loaded makes no garbage, and to look for it takes a tenth of a recording's start.
QUICK, OFF = ("credaudit-trace",), "gc.disable()        # while modules are loaded, which makes none\n"


def front(name: str, path: str) -> str:
    """What stands in a launcher before its import."""
    if name not in QUICK:
        return path
    return "import gc\n" + (path.replace("sys\n\n", f"sys\n\n{OFF}") if path else f"\n{OFF}")


def scripts(folder: str) -> dict[str, str]:
    """The commands of a package, each with the function that it calls."""
    with open(os.path.join(TOOLS, folder, "pyproject.toml"), "rb") as file:
        found: dict[str, str] = tomllib.load(file)["project"]["scripts"]
    return found


class Packages(Case):
    def test_launchers_call_what_is_installed(self) -> None:
        there = set[str]()
        for folder in FOLDERS.values():
            for name, entry in scripts(folder).items():
                module, _, function = entry.partition(":")
                text = LAUNCHER.format(name=name, module=module, function=function)
                for path, before in ((os.path.join(folder, "src", name), front(name, "")),
                                     (name, front(name, PATH.format(folder=folder)))):
                    wanted = text.format(path=before, noqa="  # noqa: E402" if before else "")
                    with open(os.path.join(TOOLS, path), encoding="ascii") as file:
                        self.assertEqual(file.read(), wanted, path)
                there.add(name)
        self.assertEqual({os.path.basename(path) for path in glob.glob(os.path.join(TOOLS, "credaudit-*"))}, there)

    @unittest.skipUnless(all(map(importlib.util.find_spec, NEEDED)), "pip, setuptools or wheel isn't there")
    def test_by_pip(self) -> None:
        into = os.path.join(self.work, "installed")
        for folder in FOLDERS.values():
            shutil.copytree(os.path.join(TOOLS, folder), os.path.join(self.work, folder),
                            ignore=shutil.ignore_patterns("tests", "build", "*.egg-info", "__pycache__"))
        done = subprocess.run([sys.executable, "-m", "pip", "install", "--quiet", "--root-user-action", "ignore",
                               "--no-index", "--no-build-isolation", "--no-cache-dir", "--target", into,
                               *(os.path.join(self.work, folder) for folder in FOLDERS.values())],
                              capture_output=True, text=True, check=False, cwd=self.work)
        self.assertEqual(done.returncode, 0, done.stderr)
        for package, folder in FOLDERS.items():
            self.assertEqual(*({os.path.relpath(path, top) for path in glob.glob(
                os.path.join(top, "**", "*.py"), recursive=True)}
                for top in (os.path.join(into, package), os.path.join(TOOLS, folder, "src", package))))
            for name in scripts(folder):
                asked = subprocess.run([os.path.join(into, "bin", name), "--help"], capture_output=True, text=True,
                                       check=False, cwd=self.work, env={**os.environ, "PYTHONPATH": into})
                self.assertTrue(asked.stdout.startswith(f"usage: {name} "), (name, asked.stderr))


if __name__ == "__main__":
    unittest.main()
