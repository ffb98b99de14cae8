"""credaudit-check-certificate: the example by hand of docs/CERTIFICATE.md, refusals one by one, JSON's odd cases, and
worlds, logs and queries that are refused."""
import ast
import json
import os
import re
import subprocess
import sys
import unittest
from typing import Any

from commands.tests.support import Case
from credaudit_check.bounds.rows import Row, text_of
from credaudit_check.command import USAGE, answer
from credaudit_check.texts import strict_json

TOOLS = os.path.normpath(os.path.join(os.path.dirname(os.path.abspath(__file__)), "..", ".."))
PAGE = os.path.join(TOOLS, "..", "docs", "CERTIFICATE.md")
WORLD = """log = "script"
[[process]]
pid = 100
uid = 1000
gid = 1000
bounding = "none"
no_new_privs = true
"""
FILTERED = WORLD + '[filter]\nexclude = ["unshare", "clone_user"]\n'
ALL = "000001ffffffffff"
Rows = list[dict[str, Any]]


def samples() -> list[str]:
    """The blocks of the page that are bounds, or a row of them, as one line each."""
    with open(PAGE, encoding="utf-8") as file:
        blocks = re.findall(r"```\n(\{.*?)```", file.read(), re.DOTALL)
    return [block.replace("\n", "") for block in blocks]


SAMPLE, GROWN = samples()


def rows() -> Rows:
    """The rows of the sample, to be changed."""
    found: Rows = json.loads(SAMPLE)["rows"]
    return found


def text(changed: Rows) -> str:
    """A certificate of rows."""
    return json.dumps({"format": 1, "rows": changed})


class Answers(Case):
    """What certificates are answered with."""

    def ask(self, certificate: str | bytes, right: str = "uid:0", world: str | bytes = FILTERED, log: str | bytes = b"",
            pid: str = "100") -> tuple[str | None, int]:
        """The line and the status."""
        names = [self.put(name, one.encode() if isinstance(one, str) else one)
                 for name, one in (("world", world), ("log", log), ("certificate", certificate))]
        return answer([names[0], names[1], pid, right, names[2]])

    def is_told(self, told: str, certificate: str | bytes, right: str = "uid:0", world: str | bytes = FILTERED,
                log: str | bytes = b"", pid: str = "100", status: int = 11) -> None:
        """One line and its status."""
        self.assertEqual(self.ask(certificate, right, world, log, pid), (told, status), certificate)

    # ---- by hand

    def test_sample(self) -> None:
        self.is_told("holds", SAMPLE, status=0)
        self.is_told("holds", SAMPLE, "cap:CAP_KILL@init", status=0)
        self.is_told("refused meets init", SAMPLE, "uid:1000")
        self.is_told("refused meets init", SAMPLE, "gid:1000")

    def test_sample_without_filter(self) -> None:
        self.is_told("refused not-closed create fresh(init)", SAMPLE, world=WORLD)
        grown = rows()
        grown[1] = json.loads(GROWN)
        for right in ("uid:0", "cap:CAP_KILL@init", "cap:CAP_SYS_ADMIN@#0", "gid:0"):
            self.is_told("holds", text(grown), right, WORLD, status=0)
        self.is_told("refused meets init", text(grown), "uid:1000", WORLD)

    def test_smaller_than_grown(self) -> None:
        """Each part of the row that the page comes to is needed."""
        for key, smaller, rule in (
                ("b", "000001fffffffffe", "create"), ("eg", [], "create"), ("eu", [], "create"), ("fg", [], "setgid"),
                ("fu", [], "setuid"), ("g", [], "setgid"), ("i", "0000000000000000", "capset"), ("k", False, "create"),
                ("mg", [], "maps"), ("mu", [], "maps"), ("p", "0000000000000000", "capset"), ("r", False, "securebits"),
                ("s", [], "setgroups"), ("u", [], "setuid")):
            grown = rows()
            grown[1] = json.loads(GROWN)
            grown[1][key] = smaller
            told, status = self.ask(text(grown), world=WORLD)
            self.assertEqual(status, 11, key)
            assert told is not None
            self.assertTrue(told.startswith("refused not-closed "), told)
            if key in ("mg", "mu", "s", "i", "fu", "fg", "u", "g", "r"):
                self.assertEqual(told, f"refused not-closed {rule} fresh(init)", key)

    def test_larger(self) -> None:
        """Larger bounds hold as well, where they are closed and don't meet the right."""
        larger = rows()
        larger[0]["s"] = [[5, 5]]
        self.is_told("holds", text(larger), status=0)
        self.is_told("refused meets init", text(larger), "gid:5")

    def test_written(self) -> None:
        empty = Row()
        self.assertEqual(SAMPLE, text_of([Row(
            eg=((1000, 1000),), eu=((1000, 1000),), fg=((1000, 1000),), fu=((1000, 1000),), g=((1000, 1000),),
            u=((1000, 1000),), k=True, r=True, mg=((0, 4294967294),), mu=((0, 4294967294),)), empty]))

    # ---- refusals, one by one

    def test_not_start(self) -> None:
        for key, smaller in (("eu", []), ("u", []), ("fu", [[999, 999]]), ("g", []), ("eg", []), ("fg", []),
                             ("mu", [[0, 4294967293]]), ("mg", [[1, 4294967294]]), ("k", False), ("r", False)):
            changed = rows()
            changed[0][key] = smaller
            self.is_told("refused not-start init", text(changed))
        for line, key in (('permitted = "CAP_KILL"', "p"), ('inheritable = "CAP_KILL"', "i"),
                          ("groups = [7]", "s")):
            self.assertIn(key, rows()[0])
            self.is_told("refused not-start init", SAMPLE, world=FILTERED.replace("uid = 1000", f"uid = 1000\n{line}"))
        self.is_told("refused not-start init", SAMPLE, world=FILTERED.replace('bounding = "none"\n', ""))
        self.is_told("refused not-start init", SAMPLE, world=FILTERED.replace("= true", "= false"))

    def test_not_closed(self) -> None:
        changed = rows()
        changed[0]["u"] = [[1000, 1001]]
        self.is_told("refused not-closed setuid init", text(changed))
        changed = rows()
        changed[0]["p"] = f"{1 << 6:016x}"
        self.is_told("refused not-closed setgid init", text(changed))
        changed = rows()
        changed[0]["b"] = changed[0]["p"] = f"{1 << 8:016x}"
        self.is_told("refused not-closed capset init", text(changed))
        changed = rows()
        changed[1]["eu"] = [[3, 3]]
        self.is_told("refused not-closed setuid fresh(init)", text(changed))

    def test_shape_of_document(self) -> None:
        for certificate in ("[]", "1", "null", '"rows"', "{}", '{"format":1}', '{"format":1,"rows":[]}',
                            SAMPLE.replace('"format":1', '"format":1.0'), SAMPLE.replace('"format":1', '"format":1e0'),
                            SAMPLE.replace('"format":1', '"format":true'), SAMPLE.replace('"format":1', '"format":2'),
                            SAMPLE.replace('"format":1', '"format":1,"more":0'), text(rows()[:1]), text(rows() * 2)):
            self.is_told("refused shape document", certificate)

    def test_shape_of_row(self) -> None:
        for place, told in ((0, "init"), (1, "fresh(init)")):
            for key, value in (("b", "0" * 15), ("b", "0" * 17), ("p", "000002" + "0" * 10), ("i", ALL.upper()),
                               ("b", 0), ("k", 1), ("n", None), ("r", "true"), ("u", {}), ("u", [1, 2]),
                               ("u", [[1]]), ("u", [[1, 2, 3]]), ("u", [[-1, 2]]), ("u", [[1, 4294967296]]),
                               ("u", [[1.0, 2]]), ("u", [[True, True]]), ("s", "[]")):
                changed = rows()
                changed[place][key] = value
                self.is_told(f"refused shape {told}", text(changed))
            changed = rows()
            del changed[place]["s"]
            self.is_told(f"refused shape {told}", text(changed))
            changed[place]["t"] = []
            self.is_told(f"refused shape {told}", text(changed))
            self.is_told(f"refused shape {told}", json.dumps(
                {"format": 1, "rows": [[] if number == place else row for number, row in enumerate(rows())]}))

    def test_order(self) -> None:
        for value in ([[2, 1]], [[4294967295, 4294967295]], [[1, 2], [3, 4]], [[1, 5], [5, 6]], [[5, 6], [1, 2]],
                      [[0, 4294967295]]):
            changed = rows()
            changed[1]["mu"] = value
            self.is_told("refused order fresh(init)", text(changed))
        changed = rows()
        changed[0]["s"], changed[1]["k"] = [[2, 1]], 0
        self.is_told("refused shape fresh(init)", text(changed))
        changed = rows()
        changed[0]["s"] = [[1, 2], [4, 4]]
        self.is_told("holds", text(changed), status=0)

    def test_spelled_otherwise(self) -> None:
        for certificate in (SAMPLE + "\r\n", " \t" + SAMPLE, SAMPLE.replace(",", " ,\n"),
                            SAMPLE.replace('"b"', r'"\u0062"'), SAMPLE.replace('"b":"0', r'"b":"\u0030'),
                            SAMPLE.replace('"format":1', '"format":[],"format":1'),
                            json.dumps(json.loads(SAMPLE), sort_keys=False, indent=1)):
            self.is_told("holds", certificate, status=0)

    def test_no_json(self) -> None:
        for data in (b"\xef\xbb\xbf" + SAMPLE.encode(), SAMPLE.encode("utf-16")):
            self.is_told("refused json", data)
        for certificate in ("", " ", SAMPLE + "x", SAMPLE + ",", SAMPLE[:-1], SAMPLE.replace("true", "True"),
                            SAMPLE.replace('"format":1', '"format":01'), SAMPLE.replace('"format":1', '"format":NaN'),
                            SAMPLE.replace('"format":1', '"format":1e999,"format":1')):
            self.is_told("refused json", certificate)

    # ---- what stands before

    def test_order_of_refusals(self) -> None:
        self.is_told("bad world process 1: MissingKey", "", world='log = "script"\n[[process]]\nuid = 3\n', log="x",
                     status=4)
        self.is_told("bad log line 1: pid", "", log="x", pid="5", status=5)
        self.is_told("impossible line 2: the rules give EPERM", "", log="; remark\n100 setuid 0 = 0\n", pid="5",
                     status=3)
        self.is_told("bad query: pid", "", "x", pid="5", status=12)
        self.is_told("bad query: right", "", "x", status=12)
        self.is_told("bad query: space", "", "cap:CAP_KILL@#1", status=12)
        self.is_told("refused json", "")

    def test_world_refused(self) -> None:
        for world, told in (
                ("log = ", "whole 0: Toml"), ("", "whole 0: MissingKey"), ('log = "other"', "whole 0: WrongType"),
                ('log = "script"\nspace = 1', "whole 0: WrongType"),
                ('log = "script"\nspace = [1]', "space 1: WrongType"),
                ('log = "script"\nmore = 1', "whole 0: UnknownKey"),
                ('log = "script"\n[[space]]\nname = "init"\nparent = "init"\nowner = 0', "space 1: BadName"),
                ('log = "script"\n[[space]]\nname = "a"\nparent = "b"\nowner = 0', "space 1: NoSuchParent"),
                ('log = "script"\n[[space]]\nname = "a"\nparent = "init"\nowner = 4294967295', "space 1: BadNumber"),
                ('log = "script"\n[[space]]\nname = "a"\nparent = "init"\nowner = 0\nuid_map = []', "space 1: BadMap"),
                ('log = "script"\n[[process]]\npid = 1\npid = 1', "whole 0: Toml"),
                ('log = "script"\n[[process]]\npid = 1\nuid = 9223372036854775808', "whole 0: Toml"),
                ('log = "script"\n[[process]]\npid = true', "process 1: WrongType"),
                ('log = "script"\n[[process]]\npid = 1\nuid = 5\neffective = "all"', "process 1: NotIncluded"),
                ('log = "script"\n[[mount]]\nname = "root"', "mount 1: TwiceNamed"),
                ('log = "script"\n[[file]]\npath = "/a"\nuid = 0\ngid = 0\nmode = "8"', "file 1: BadMode"),
                ('log = "script"\n[filter]\nexclude = ["x"]', "filter 0: NoSuchCall")):
            self.is_told(f"bad world {told}", "", world=world, status=4)
        self.is_told("limit world 1048576", "", world=b"#" * 1048577, status=9)

    def test_log_refused(self) -> None:
        for log, told in (("0 setuid 1 = 0", "pid"), ("1 setuiD 1 = 0", "call"), ("1 setuid 1 = 0 0", "shape"),
                          ("1 setuid = 0", "count"), ("1 setresuid 1 -1 -2 = 0", "argument 3"),
                          ("1 setuid 1 = 00", "result"), ("1 setns #x = 0", "argument 1"), ("1 exit = EIO", "result")):
            self.is_told(f"bad log line 2: {told}", "", log="\r\n" + log, status=5)
        self.is_told("limit line 1048576", "", log=b";" * 1048577, status=9)
        self.is_told("limit groups 1024", "", log="1 setgroups " + "1 " * 1025 + "= 0", status=9)

    def test_log_replayed(self) -> None:
        """The state after the log counts, and its family."""
        self.is_told("refused shape document", SAMPLE, log="100 setuid -1 = EINVAL\n100 unshare = 0\n")
        self.is_told("holds", SAMPLE, log="100 setuid 1000 = 0\n100 fork = 7\n7 exit = 0\n", status=0)
        self.is_told("impossible line 1: no process", "", log="7 exit = 0", status=3)
        self.is_told("impossible line 1: no space", "", log="100 setns #1 = 0", status=3)
        self.is_told("impossible line 1: pid in use", "", log="100 fork = 100", status=3)
        self.is_told("impossible line 1: the rules give 1", "", log="100 fork = EPERM", status=3)

    def test_filters_replayed(self) -> None:
        """What processes exclude: themselves, their children, and bounds where all members exclude it."""
        install = "100 install clone_user unshare clone_user = 0\n"
        self.is_told("holds", SAMPLE, world=WORLD, log=install + "100 fork = 7\n7 unshare = EPERM\n", status=0)
        self.is_told("refused not-closed create fresh(init)", SAMPLE, world=WORLD, log="100 fork = 7\n" + install)
        self.is_told("impossible line 2: the rules give EPERM", "", log=install + "100 unshare = ENOMEM", status=3)
        self.is_told("impossible line 3: the rules give EPERM", "", status=3,
                     log="100 install setfsuid = 0\n100 setfsuid 5 = EPERM\n100 setfsuid 5 = 1000\n")
        self.is_told("impossible line 1: the rules give EACCES", "", status=3, log="100 install = 0\n",
                     world=WORLD.replace("no_new_privs = true\n", ""))
        self.is_told("bad log line 1: argument 2", "", log="100 install fork exit = 0\n", status=5)

    def test_not_judged(self) -> None:
        self.is_told("not judged: line 1: call", SAMPLE, world=FILTERED.replace('"script"', '"strace"'), status=14,
                     log="100 setuid 1000 = 0\n")
        told, status = self.ask("", world='log = "script"\nfilter = {exclude = [],}\n')
        self.assertEqual(status, 14)
        self.assertTrue(told and told.startswith("not judged: "), told)

    def test_files_not_there(self) -> None:
        self.assertEqual(answer([os.path.join(self.work, "none")] * 2 + ["1", "uid:0", "none"]), (None, 7))
        self.assertEqual(answer(["--help"]), (USAGE, 6))
        self.assertEqual(answer(["\udcff"] * 5), (USAGE, 6))

    def test_as_a_command(self) -> None:
        words = [self.put(name, one) for name, one in
                 (("world", FILTERED.encode()), ("log", b""), ("certificate", SAMPLE.encode()))]
        made = subprocess.run([sys.executable, os.path.join(TOOLS, "credaudit-check-certificate"), *words[:2], "100",
                               "uid:0", words[2]], capture_output=True, text=True)
        self.assertEqual((made.stdout, made.returncode), ("holds\n", 0))


class Apart(unittest.TestCase):
    """The checker stands on the documents and the standard library alone."""

    def test_nothing_else_is_imported(self) -> None:
        folder = os.path.join(TOOLS, "checker", "src", "credaudit_check")
        names = [os.path.join(where, name) for where, _, found in os.walk(folder) for name in found
                 if name.endswith(".py")]
        self.assertGreater(len(names), 10)
        for name in names:
            with open(name, encoding="utf-8") as file:
                nodes = list(ast.walk(ast.parse(file.read())))
            for node in nodes:
                modules = [one.name for one in node.names] if isinstance(node, ast.Import) else []
                if isinstance(node, ast.ImportFrom) and node.level == 0:
                    modules.append(node.module or "")
                for module in modules:
                    self.assertIn(module.split(".")[0], sys.stdlib_module_names, name)


class Json(unittest.TestCase):
    """JSON as the page reads it."""

    def reads(self, data: bytes, value: object) -> None:
        """A text is read as a value, and of its type."""
        found = strict_json.read_json(data)
        self.assertEqual((found, type(found)), (value, type(value)), data)

    def test_read(self) -> None:
        for data, value in (
                (b"0", 0), (b"18446744073709551615", 18446744073709551615), (b"18446744073709551616", 2.0 ** 64),
                (b"-0", -0.0), (b"-1", -1), (b"1.0", 1.0), (b"1e0", 1.0), (b"0e999", 0.0), (b"1e-999", 0.0),
                (b" [ ] ", []), (b"{ }", {}), (b'"\\ud83d\\ude00"', "\U0001f600"), (b'{"a":1,"a":2}', {"a": 2}),
                (b'{"a":1,"\\u0061":2}', {"a": 2}), (b'"\x7f"', "\x7f"), ('"\u00e9"'.encode(), "\u00e9"),
                (b"true", True), (b"null", None), (b'"\\/\\b\\f\\n\\r\\t\\"\\\\"', "/\b\f\n\r\t\"\\"),
                (b"9" * 5000 + b"e-5000", float("9" * 5000 + "e-5000"))):
            self.reads(data, value)

    def test_not_read(self) -> None:
        for data in (b"01", b"+1", b".5", b"1.", b"-", b"1e", b"0x1", b"[1,]", b"[,]", b'{"a":1,}', b'{"a"}', b"{a:1}",
                     b"1 2", b"NaN", b"-Infinity", b"Infinity", b"tru", b'"\t"', b'"\\x41"', b'"\\u12"', b'"\\ud800"',
                     b'"\\udc00"', b'"\\ud800\\u0041"', b'{"\\ud800":1,"a":2}', b'"', b"'a'", b"\xff", b'"\xc0\x80"',
                     b'"\xed\xa0\x80"', b"\x0b1", b"1\x0c", b"1e999", b"-1e999", b"1" + b"0" * 309,
                     str(2 ** 1024 - 2 ** 970).encode(), b"/**/1", b"[1 2]", b'{"a":1 "b":2}'):
            with self.assertRaises(strict_json.NoJson, msg=data):
                strict_json.read_json(data)
        self.reads(str(2 ** 1024 - 2 ** 970 - 1).encode(), float(2 ** 1024 - 2 ** 970 - 1))

    def test_depth(self) -> None:
        strict_json.read_json(b"[" * 127 + b"]" * 127)
        strict_json.read_json(b'{"a":' * 126 + b"[]" + b"}" * 126)
        for data in (b"[" * 128 + b"]" * 128, b'{"a":' * 127 + b"[]" + b"}" * 127, b"[" * 100000):
            with self.assertRaises(strict_json.NoJson):
                strict_json.read_json(data)


if __name__ == "__main__":
    unittest.main()
