"""Capabilities that act without a listed call: nothing is gone of a family that can have one over the initial
namespace, whoever holds it now. The sentences are those of capabilities(7), by hand."""
import json
from unittest import mock

from credaudit_tools.command_line.command import GOOD
from credaudit_tools.summary import summary_command

from .. import support
from ..plain_program import Plain
from ..told_program import CERTIFICATE, Answers, Told, no

# What capabilities(7) has in the line of each.
WORDS = {
    "CAP_CHOWN": "gives any file to any owner", "CAP_DAC_OVERRIDE": "reads, writes and executes any file",
    "CAP_FOWNER": "sets the mode of any file", "CAP_FSETID": "keeps set-id bits",
    "CAP_SETFCAP": "capabilities on a file",
    "CAP_MKNOD": "makes device files", "CAP_SYS_ADMIN": "mounts filesystems", "CAP_SYS_MODULE": "loads code into the",
    "CAP_SYS_PTRACE": "memory of any process", "CAP_SYS_RAWIO": "input and output ports",
    "CAP_SYS_BOOT": "loads another kernel", "CAP_BPF": "programs of its own into the kernel"}
OTHERS = ("CAP_KILL", "CAP_NET_RAW", "CAP_NET_BIND_SERVICE", "CAP_SYS_TIME", "CAP_AUDIT_WRITE")
WORLD = 'log = "script"\n[[process]]\npid = 100\nuid = 33\ngid = 33\npermitted = "{}"\neffective = "none"\n'
RUN = "100 execve /usr/bin/tool = 0"


class Power(support.Case):
    def line(self, answers: Answers, kept: str = "CAP_KILL") -> str:
        """What is told of uid:0, of a daemon that keeps a capability, where the program answers so."""
        world = WORLD.format(kept)
        names = self.put("world.toml", world.encode()), self.put("log")
        program = Told(None, answers, confirms=lambda *_: 100)
        with mock.patch.object(summary_command, "Program", lambda: program), \
                mock.patch.object(Told, "run", Plain().run):
            status, out, errors = self.told(summary_command.main, *names, "100", "--right", "uid:0", "--json")
        self.assertEqual(status, GOOD, errors)
        [told] = [each for each in json.loads(out)["answers"][0]["rights"] if each["right"] == "uid:0"]
        return f"{told['class']}: {'; '.join(told['reasons'])}"

    def test_each_that_is_held(self) -> None:
        for name, words in WORDS.items():
            with self.subTest(name):
                line = self.line({("real", f"cap:{name}@init"): no(100)}, name)
                self.assertRegex(line, f"^doubted: power: {name} over the initial namespace can be had, which"
                                       f" [^;]*{words}")

    def test_each_that_can_be_had(self) -> None:
        """It is enough that a run gets it, or that nobody knows."""
        for name in WORDS:
            for answer in (no(100, RUN), f"undecided exec_caps init\n{CERTIFICATE}\n"):
                with self.subTest(name, answer=answer):
                    self.assertIn(f"doubted: power: {name} over",
                                  self.line({("real", f"cap:{name}@init"): answer}))

    def test_others(self) -> None:
        self.assertEqual(self.line({}), "gone-by-own-calls: ")
        for name in OTHERS:
            self.assertEqual(self.line({("real", f"cap:{name}@init"): no(100)}, name), "gone-by-own-calls: ")
