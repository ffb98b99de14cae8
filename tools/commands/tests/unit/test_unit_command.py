"""credaudit-unit as a whole, with answers of the program that are told by hand from the formats."""
import contextlib
import json
import os
import tomllib
from unittest import mock

from credaudit_tools.command_line import schemas
from credaudit_tools.command_line.command import BROKEN, FAILED, FOUND, GOOD, USAGE
from credaudit_tools.formats import report, worlds
from credaudit_tools.formats.worlds import File, World
from credaudit_tools.unit import unit_command

from .. import support
from ..told_program import CERTIFICATE, Told, no

STANDING = ("> 100 init uid=33,33,33,33 gid=34,34,34,34 groups=34 inh={0} prm={0} eff={0} bnd=000001ffffffffff amb={0}"
            " sec=00 nnp=0\n").format("0000000000000400")
REPLAY = f"{STANDING}1: 100 execve - = 0\n{STANDING}end 1\n"
UNIT = b"[Service]\nExecStart=/usr/sbin/web\nUser=web\nAmbientCapabilities=CAP_NET_BIND_SERVICE\n"
ANSWERS = {("real", "cap:CAP_NET_BIND_SERVICE@init"): no(100),
           ("real", "uid:0"): no(100, "100 execve /usr/bin/su = 0"),
           ("real", "gid:0"): f"undecided exec_gid init\n{CERTIFICATE}\n"}


class Whole(support.Case):
    """The command, with answers of the program that are told by hand."""

    def setUp(self) -> None:
        super().setUp()
        self.put("/etc/passwd", b"web:x:33:34::/:/x\n")
        self.put("/etc/group", b"web:x:34:\n")
        self.put("/lib/systemd/system/web.service", UNIT)
        self.program = Told(REPLAY, ANSWERS)

    def command(self, *given: str) -> tuple[int, str, str]:
        with mock.patch.object(unit_command, "Program", lambda: self.program):
            return self.told(unit_command.main, "--root", self.work, *given)

    def scan(self) -> str:
        return self.put_scan("host.toml", World("script", files=[File("/usr/bin/su", 0, 0, 0o4755)]))

    def test_a_word_for_each_right(self) -> None:
        self.program = Told(REPLAY, {key: told for key, told in ANSWERS.items() if key[1] != "uid:0"})
        status, out, errors = self.command("web")
        lines = support.unfolded(out).split("\n")
        self.assertEqual((status, errors), (GOOD, ""))
        self.assertEqual(lines[0], "unit web.service: of 43 rights 1 is open, 1 is held, 41 are gone by its own calls")
        self.assertEqual(lines[1], "process 100: user 33; group 34; groups 34; CAP_NET_BIND_SERVICE;"
                                   " bounding set all capabilities; inheritable CAP_NET_BIND_SERVICE; ambient"
                                   " CAP_NET_BIND_SERVICE")
        self.assertEqual(len(lines), 2 + 4 + 3 + 1)
        self.assertIn("40 capabilities over init (all but CAP_NET_BIND_SERVICE): gone by its own calls", lines)
        self.assertIn("cap:CAP_NET_BIND_SERVICE@init: held by process 100 (effective set)", lines)
        self.assertIn("gid:0 open: a set-group-ID program that a member may run lets it in,"
                      " in init (rule exec_gid, row init): set no_new_privs in every member; mount nosuid; exclude"
                      " execve", lines)
        self.assertIn("with no_new_privs 1 of 1 gone by its own calls", lines)

    def test_with_the_files_of_a_scan(self) -> None:
        _, out, _ = self.command("web.service", "--files", self.scan())
        self.assertIn("\nuid:0 regained through /usr/bin/su: process 100 executes /usr/bin/su (set-user-ID 0)\n",
                      support.unfolded(out))
        self.assertIn("(all but CAP_NET_BIND_SERVICE): gone\n", support.unfolded(out))
        self.assertEqual([each.path for each in self.program.worlds["real"].files], ["/usr/bin/su"])
        self.assertEqual(self.program.worlds["own"].files, [])

    def test_a_scan_with_doubts_is_none(self) -> None:
        path = self.put_scan("host.toml", World("script"), "/srv can't be read")
        _, out, errors = self.command("web.service", "--files", path)
        self.assertIn("(all but CAP_NET_BIND_SERVICE): gone by its own calls\n", support.unfolded(out))
        self.assertIn("/srv can't be read", errors)

    def test_the_world_alone(self) -> None:
        status, out, _ = self.command("web", "--world")
        self.assertEqual((status, self.program.asked), (GOOD, []))
        [only] = worlds.read(out.encode()).processes
        self.assertEqual(only.credential.uid, (33,) * 4)

    def test_a_file(self) -> None:
        self.assertEqual(self.command(self.put("x.service", UNIT), "--classes", "-")[0], GOOD)
        with contextlib.chdir(self.work):
            self.assertEqual(self.command("x.service", "--classes", "-")[0], GOOD)

    def test_names_below_the_root_directory(self) -> None:
        """Users and groups are those of the root directory; root's groups are asked about."""
        self.put("/etc/group", b"web:x:34:\nbackup:x:35:root,x\n")
        status, out, errors = self.command("web", "--classes", "-", "--right", "uid:web", "--right", "gid:web")
        self.assertEqual(status, GOOD, errors)
        self.assertEqual([line.split()[0] for line in out.split("\n") if line.startswith(("uid", "gid"))],
                         ["uid:0", "gid:0", "gid:35", "uid:33", "gid:34"])
        self.assertIn("note: uid:web is uid:33 here\n", errors)
        self.assertEqual(self.command("web", "--right", "gid:nobody-has-this")[0], FAILED)

    def test_json(self) -> None:
        status, out, _ = self.command("web", "--json", "--expect", self.put("expect", b"* gone\n"))
        self.assertEqual(status, FOUND)
        self.assertTrue(out.startswith('{\n "format": 2,'))
        self.assertTrue(schemas.fits(json.loads(out), unit_command.SCHEMA), out)

    def test_statuses(self) -> None:
        classes = self.command("web", "--classes", "-")[1]
        good, other = self.put("good", classes.encode()), self.put("new", b"uid:0 gone\n")
        rows: list[tuple[int, list[str]]] = [
            (GOOD, ["web", "--expect", good]), (FOUND, ["web", "--expect", other]), (USAGE, []),
            (USAGE, ["web", "--right", "x"]), (FAILED, ["web", "--expect", good + "x"]),
            (FAILED, ["web", "--expect", self.put("odd", b"uid:0 gon\n")]), (FAILED, ["web", "--files", good]),
            (FAILED, ["none"]), (FAILED, [os.path.join(self.work, "none.service")]),
            (BROKEN, [self.put("odd.service", b"[Service]\nUser=none\n")])]
        for status, given in rows:
            with self.subTest(given):
                self.assertEqual(self.command(*given)[0], status)
        self.program = Told("impossible line 1: the rules give EACCES\n", {})
        self.assertEqual(self.command("web")[0], BROKEN)
        self.program = Told("", {})
        with mock.patch.object(Told, "run", lambda *_: report.read("bad world process 1: BadNumber\n", 4)):
            self.assertEqual(self.command("web")[0], FAILED)
        self.program = Told(REPLAY, {}, "bad query: right\n")
        self.assertEqual(self.command("web")[0], FAILED)

    def test_certificates_are_kept(self) -> None:
        folder = os.path.join(self.work, "kept")
        self.put("kept/uid:0.json", b"old")
        _, out, _ = self.command("web", "--files", self.scan(), "--certificates", folder)
        self.assertIn(f"gone (certificate in {folder})", support.unfolded(out))
        self.assertEqual(len(os.listdir(folder)), 42)
        with open(os.path.join(folder, "world.toml"), "rb") as file:
            self.assertEqual(worlds.read(file.read()).files[0].path, "/usr/bin/su")
        with open(os.path.join(folder, "cap:CAP_CHOWN@init.json"), encoding="ascii") as file:
            self.assertEqual(file.read(), CERTIFICATE + "\n")
        self.assertEqual(self.command("web", "--certificates", self.put("file"))[0], FAILED)

    def test_hostile_names(self) -> None:
        names: list[str] = tomllib.loads(support.data("hostile_names.toml").decode())["names"]
        plain = set(map(chr, range(0x20, 0x7f))) | {"\n"}
        for name in names:
            raw = name.encode("latin-1")
            for text in (b"User=", b"ExecStart=/", b"SystemCallFilter=~", b"CapabilityBoundingSet=", b"RootDirectory=/",
                         b"SecureBits=", b"PrivateUsers=", b"ExecStart=+/"):
                with self.subTest(name=name, text=text):
                    path = self.put("odd.service", b"[Service]\n" + text + raw + b"\n")
                    _, out, errors = self.command(path, "--world")
                    self.assertFalse(set(out + errors) - plain, out + errors)
            if name not in ("..", "-"):
                path = self.put(b"odd/" + raw + b".service", UNIT)
                _, out, errors = self.command(path)
                self.assertFalse(set(out + errors) - plain, out + errors)
