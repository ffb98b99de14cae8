"""Libraries that are proved side by side: libraries.py, rooms.py, kept.py, with the stand-in for the kit (fake_rt)."""
import contextlib
import fcntl
import io
import os
import shutil
import signal
import subprocess
import threading
import unittest
from unittest import mock

from commands.tests.support import Case
from make import libraries, machine, rooms
from make.crate_list import Crates
from make.kit import Failed
from make.tests.test_make import FAKE, TOP

LIST = "base:\nleft: base\nright: base\nside: base\nboth: left right base  # a remark\ncredaudit: both side\nother:\n"
# Of the three that stand on base alone, the first waits until a second one runs too.
MEETS = """
if [ "$name" != base ] && [ "$name" != both ]; then
  for _ in $(seq 400); do [ $(grep -cE '^begin (left|right|side)' "$here/log") -ge 2 ] && break; sleep 0.05; done
fi
"""


class Libraries(Case):
    """A tree of a few crates."""

    def setUp(self) -> None:
        super().setUp()
        self.top, self.kit = os.path.join(self.work, "tree"), os.path.join(self.work, "kit")
        self.put("tree/crates.txt", LIST.encode())
        for name in ("base", "left", "right", "side", "both", "credaudit", "other"):
            self.put(f"tree/crates/{name}/src/lib.rt", f"text of {name}\n".encode())
        self.put("kit/rt", b"")
        self.last = ""
        self.enterContext(mock.patch.object(machine, "memory", lambda: 99e9))
        shutil.copy(FAKE, os.path.join(self.kit, "rt"))
        self.enterContext(mock.patch.dict(os.environ, {"PATH": f"{self.kit}:{os.environ['PATH']}"}))

    def proved(self, lanes: int = 2, version: str = "kit-1") -> tuple[list[str], str]:
        """What was begun and ended, in turn, and what was told."""
        with contextlib.suppress(FileNotFoundError):
            os.remove(os.path.join(self.kit, "log"))
        told = io.StringIO()
        with contextlib.redirect_stderr(told):
            try:
                libraries.prove_below(self.top, "credaudit", lanes, version)
            finally:
                self.last = told.getvalue()
        return self.log(), told.getvalue()

    def log(self) -> list[str]:
        """What the stand-in noted."""
        with contextlib.suppress(FileNotFoundError), open(os.path.join(self.kit, "log"), encoding="ascii") as file:
            return file.read().splitlines()
        return []

    def begun(self, log: list[str]) -> list[str]:
        """The names of those that begun, in turn."""
        return [line.split()[1] for line in log if line.startswith("begin")]

    def most(self, log: list[str]) -> int:
        """How many ran at once."""
        steps = [1 if line.startswith("begin") else -1 for line in log]
        return max(sum(steps[:end]) for end in range(len(steps) + 1))

    def left(self, name: str) -> set[str]:
        """What stands in out/ of a crate."""
        return set(os.listdir(os.path.join(self.top, "crates", name, "out")))

    def test_side_by_side(self) -> None:
        """Two at once and never three; each once those below it are built; nothing but what credaudit stands on."""
        self.put("kit/during", MEETS.encode())
        log, told = self.proved(lanes=2)
        self.assertEqual(self.most(log), 2, log)
        self.assertEqual(sorted(self.begun(log)), ["base", "both", "left", "right", "side"])
        self.assertEqual(log[0:2], ["begin base 2", "end base"])
        for below in ("left", "right"):
            self.assertLess(log.index(f"end {below}"), self.begins(log, "both"))
        self.assertIn("told of side\nside: proved; ", told)
        self.assertIn("libraries: 5, of which 0 are proved already; at most 2 at once\n", told)
        for name in ("base", "both"):
            self.assertEqual(self.left(name), {"rlib", "incremental", "kept-by-make"})

    def begins(self, log: list[str], name: str) -> int:
        """Where it begins."""
        return next(at for at, line in enumerate(log) if line.startswith(f"begin {name} "))

    def test_one_at_a_time(self) -> None:
        log, _ = self.proved(lanes=1)
        self.assertEqual((self.most(log), len(self.begun(log))), (1, 5))

    def test_kept(self) -> None:
        self.proved()
        self.assertEqual(self.proved(), ([], ""))
        self.put("tree/crates/left/src/lib.rt", b"another text\n")
        self.assertEqual(self.begun(self.proved()[0]), ["left", "both"])
        self.put("tree/crates.txt", LIST.replace("side: base", "side:").encode())
        self.assertEqual(self.begun(self.proved()[0]), ["side"])
        shutil.rmtree(os.path.join(self.top, "crates", "right", "out", "rlib"))
        self.assertEqual(self.begun(self.proved()[0]), ["right"])
        self.put("tree/crates/both/out/rlib/stamp", b"of another build\n")
        self.assertEqual(self.begun(self.proved()[0]), ["both"])
        self.assertEqual(len(self.begun(self.proved(version="kit-2")[0])), 5)

    def test_failed(self) -> None:
        self.put("kit/failing", b"left\n")
        with self.assertRaisesRegex(Failed, r"^not proved: left; not begun, since they stand on it: both$"):
            self.proved()
        self.assertEqual(sorted(self.begun(self.log())), ["base", "left", "right", "side"])
        self.assertIn("told of left\nleft: not proved (status 1); ", self.last)
        os.remove(os.path.join(self.kit, "failing"))
        self.assertEqual(self.begun(self.proved()[0]), ["left", "both"])

    def test_killed(self) -> None:
        once = b'[ "$name" = left ] && ! [ -f "$here/again" ] && { touch "$here/again"; kill -9 $$; }\n'
        self.put("kit/during", once)
        log, told = self.proved()
        self.assertEqual(self.begun(log).count("left"), 2)
        self.assertIn("left was killed, most likely for memory: once more, alone\n", told)
        self.put("kit/during", b'[ "$name" = left ] && kill -9 $$\n')
        self.put("tree/crates/left/src/lib.rt", b"another text\n")
        with self.assertRaisesRegex(Failed, "^not proved: left; "):
            self.proved()

    def test_changed_meanwhile(self) -> None:
        """What was built of another text than stands there now gets no note, so it is asked for again."""
        self.put("kit/during", f'[ "$name" = side ] && echo more >>{self.top}/crates/side/src/lib.rt\n'.encode())
        self.proved()
        os.remove(os.path.join(self.kit, "during"))
        self.assertEqual(self.begun(self.proved()[0]), ["side"])

    def test_what_a_killed_run_left(self) -> None:
        """What was kept in a room goes back to the crate."""
        self.put("tree/crates/side/out/room/crates/side/out/incremental/work", b"kept")
        self.put("kit/during", b'[ "$name" = side ] && [ -f out/incremental/work ] && touch "$here/found"\n')
        self.proved()
        self.assertTrue(os.path.exists(os.path.join(self.kit, "found")))
        self.assertEqual(self.left("side"), {"rlib", "incremental", "kept-by-make"})

    def test_waits_for_other_commands(self) -> None:
        """The folders of crates are locked as the kit locks them."""
        held = os.open(os.path.join(self.top, "crates", "right"), os.O_RDONLY)
        fcntl.flock(held, fcntl.LOCK_EX)
        running = threading.Thread(target=self.proved)
        running.start()
        running.join(0.3)
        self.assertEqual((running.is_alive(), self.log()), (True, []))
        os.close(held)
        running.join(60)
        self.assertEqual(len(self.begun(self.log())), 5)

    def test_interrupted(self) -> None:
        """What runs is ended, and no room is left."""
        self.put("kit/during", b'touch "$here/runs"; sleep 60 & wait\n')
        for name in ("tools/commands/src", "tools/checker/src", "tools/make"):
            shutil.copytree(os.path.join(TOP, name), os.path.join(self.top, name),
                            ignore=shutil.ignore_patterns("__pycache__", "tests"))
        shutil.copy(os.path.join(TOP, "tools", "layers.txt"), os.path.join(self.top, "tools", "layers.txt"))
        self.put("kit/logic", b"0123456789abcdef")
        with subprocess.Popen([os.path.join(self.top, "tools", "make", "prove.py")], stdin=subprocess.DEVNULL,
                              stderr=subprocess.PIPE) as running:
            while not os.path.exists(os.path.join(self.kit, "runs")):
                self.assertIsNone(running.poll())
            running.send_signal(signal.SIGTERM)
            running.communicate(timeout=30)
        self.assertEqual((running.returncode, self.begun(self.log())), (130, ["base"]))
        self.assertNotIn("room", self.left("base"))

    def test_lists(self) -> None:
        crates = Crates(self.top)
        self.assertEqual(crates.below("credaudit"), ["base", "left", "right", "both", "side"])
        self.assertEqual(crates.lines("base", ".rt"), 1)
        for text, why in (("a: b\nb: a\n", "stands on itself"), ("b:\n", "doesn't list a")):
            self.put("tree/crates.txt", text.encode())
            with self.subTest(why), self.assertRaisesRegex(Failed, why):
                Crates(self.top).below("a")

    def test_memory(self) -> None:
        """What a process holds that was started counts for this one, and doesn't for what is free."""
        hold = "import sys; held = b'x' * 200_000_000; print(flush=True); sys.stdin.read()"
        before = machine.held()
        with subprocess.Popen(["sh", "-c", 'python3 -c "$0"; :', hold], stdin=subprocess.PIPE,
                              stdout=subprocess.PIPE) as running:
            assert running.stdout is not None and running.stdin is not None
            running.stdout.readline()
            self.assertEqual(len(machine.begun_by(running.pid)), 1)
            self.assertTrue(200e6 < machine.held() - before < 300e6)
            running.stdin.close()

    def test_a_room(self) -> None:
        """It has the list, sources and libraries of the crate and of those below alone, and ends."""
        self.proved()
        crates = Crates(self.top)
        with rooms.room(crates, "left") as folder:
            top = os.path.dirname(os.path.dirname(folder))
            self.assertEqual(sorted(os.listdir(os.path.join(top, "crates"))), ["base", "left"])
            with open(os.path.join(top, "crates.txt"), encoding="ascii") as file:
                self.assertEqual(file.read(), "base:\nleft: base\n")
            self.assertEqual(os.listdir(os.path.join(top, "crates", "base", "out")), ["rlib"])
            self.assertEqual(self.left("left"), {"room", "kept-by-make"})
        self.assertEqual(self.left("left"), {"rlib", "incremental", "kept-by-make"})


if __name__ == "__main__":
    unittest.main()
