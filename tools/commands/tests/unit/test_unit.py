"""credaudit-unit: the text of units, where they are looked for, and what their settings say, by systemd.syntax(7),
systemd.unit(5) and systemd.exec(5). Expected values were worked out by hand from these pages."""
import errno
import json
import unittest
from collections.abc import Sequence

from credaudit_tools.command_line import users
from credaudit_tools.command_line.command import Failure
from credaudit_tools.formats import worlds
from credaudit_tools.formats.credential import Credential
from credaudit_tools.formats.kernel_names import ALL, CAPABILITIES, NUMBERS
from credaudit_tools.formats.world_remarks import SCANNED
from credaudit_tools.formats.worlds import File, Mount, World
from credaudit_tools.unit import unit_calls, unit_files, unit_keys, unit_settings, unit_world
from credaudit_tools.unit.unit_calls import Filter
from credaudit_tools.unit.unit_files import Unit
from credaudit_tools.unit.unit_settings import Command, Settings
from credaudit_tools.unit.unit_text import Unfinished, assignments, boolean, words, words_before

from .. import support

PASSWD = "root:x:0:0::/root:/bin/sh\nweb:x:33:34::/:/x\nbad row\nodd:x:y:z\nbackup:x:34:34::/:/x\n"
GROUP = "root:x:0:\nweb:x:34:\nssl:x:40:web,other\nadm:x:4:other,web,\nx:x:y:\n"
CHOWN, KILL, BIND, NET_RAW, SYS_CHROOT = (1 << CAPABILITIES.index(name) for name in (
    "CHOWN", "KILL", "NET_BIND_SERVICE", "NET_RAW", "SYS_CHROOT"))


def known() -> users.Users:
    return users.Users([users.User("root", 0, 0), users.User("web", 33, 34), users.User("backup", 34, 34)],
                       {"root": 0, "web": 34, "ssl": 40, "adm": 4}, {40: {"web", "other"}, 4: {"web"}})


def unit_of(text: str, name: str = "x.service") -> Unit:
    return Unit(name, given=assignments("[Service]\n" + text))


def made_of(text: str, name: str = "x.service") -> Settings:
    return unit_settings.settings(unit_of(text, name), known())


class Odd(unittest.TestCase):
    """What systemd passes over with a warning (`systemd-analyze verify` has the same words for it)."""

    def notes(self, text: str) -> list[str]:
        unit = Unit("x.service", given=assignments(text, "/etc/x.service"))
        return [*unit_keys.odd_keys(unit), *unit_keys.odd_values(unit)]

    def test_keys(self) -> None:
        for text, told in (
                ("[Service]\nNoNewPriviliges=yes\n", "line 2: 'NoNewPriviliges' is no key of [Service] that is known"
                                                     " here, and is passed over: NoNewPrivileges= may be meant"),
                ("[Service]\nnonewprivileges=yes\n", ": NoNewPrivileges= may be meant"),
                ("[Service]\nCapabilityBoundSet=\n", ": CapabilityBoundingSet= may be meant"),
                ("[Service]\nQwertz=1\n", "'Qwertz' is no key of [Service] that is known here, and is passed over"),
                ("[Unit]\nNoNewPrivileges=yes\n", "stands in [Unit], and is passed over: [Service] has it"),
                ("[service]\nUser=web\n", "'User' stands in [service], which is no section of a service")):
            with self.subTest(text):
                [note] = self.notes(text)
                self.assertIn(told, note)
        for text in ("[Unit]\nDescription=x\nAfter=y\n[Service]\nUser=web\nX-Mine=1\n[X-Own]\nUser=a\n[Install]\n"
                     "WantedBy=multi-user.target\n", "[Service]\nNoNewPrivileges=yes\nLimitNOFILE=7\n"):
            self.assertEqual(self.notes(text), [])

    def test_truth_values_that_are_none(self) -> None:
        """NoNewPrivileges=maybe sets nothing, and that is told."""
        for value in ("maybe", "2", "yes please"):
            [note] = self.notes(f"[Service]\nNoNewPrivileges={value}\n")
            self.assertEqual(note,
                             f"NoNewPrivileges=: '{value}' is no truth value, and is passed over, as systemd does")
            self.assertIn(note, made_of(f"NoNewPrivileges={value}\n").notes)
            self.assertFalse(made_of(f"NoNewPrivileges={value}\n").no_new_privs)

    def test_keys_that_are_counted_are_keys(self) -> None:
        self.assertEqual(unit_keys.COUNTED - unit_keys.KEYS, set())
        self.assertEqual(set(unit_settings.PASSED_OVER) - unit_keys.KEYS, set())


class Text(unittest.TestCase):
    """systemd.syntax(7)."""

    def pairs(self, text: str) -> list[tuple[str, str, str]]:
        return [(each.section, each.key, each.value) for each in assignments(text)]

    def test_the_example_of_the_page(self) -> None:
        self.assertEqual(self.pairs("""[Section A]
KeyOne=value 1
KeyTwo=value 2

# a comment

[Section B]
Setting="something" "some thing" "..."
KeyTwo=value 2 \\
       value 2 continued

[Section C]
KeyThree=value 3\\
# this line is ignored
; this line is ignored too
       value 3 continued
"""), [("Section A", "KeyOne", "value 1"), ("Section A", "KeyTwo", "value 2"),
            ("Section B", "Setting", '"something" "some thing" "..."'),
            ("Section B", "KeyTwo", "value 2         value 2 continued"),
            ("Section C", "KeyThree", "value 3        value 3 continued")])

    def test_lines(self) -> None:
        for text, wanted in (("User=a\n[Service]\nUser=b", [("Service", "User", "b")]),
                             ("\ufeff[Service]\n User \t=\t b = c \r\n", [("Service", "User", "b = c")]),
                             ("[Service]\n=b\nnothing\n[broken\nUser=a", [("Service", "User", "a")]),
                             ("[Service]\n  # User=b\n ;x\nUser=", [("Service", "User", "")]),
                             ("[Service]\nUser=a\\\\\nGroup=b",
                              [("Service", "User", "a\\\\"), ("Service", "Group", "b")]),
                             ("[Service]\nUser=a\\\n\n b=c", [("Service", "User", "a"), ("Service", "b", "c")]),
                             ("[Service]\nUser=a\\", [("Service", "User", "a")])):
            self.assertEqual(self.pairs(text), wanted, text)

    def test_places(self) -> None:
        [only] = assignments("# x\n[Service]\n\nUser=\\\n b\n", "file")
        self.assertEqual((only.file, only.line), ("file", 4))

    def test_truth_values(self) -> None:
        self.assertEqual([boolean(word) for word in ("1", "yes", "TRUE", "on", "0", "no", "False", "off", "", "maybe")],
                         [True] * 4 + [False] * 4 + [None] * 2)

    def test_words(self) -> None:
        rows: list[tuple[str, list[str]]] = [
            ("a  b\tc", ["a", "b", "c"]), ("\"a b\" 'c \" d'", ["a b", 'c " d']), ('""', [""]), ("", []),
            (r'"a\"b" \x41 a\ b', ['a"b', "x41", "a b"]), ('CAP_"NET_RAW"', ["CAP_NET_RAW"])]
        for value, wanted in rows:
            self.assertEqual(words(value), wanted, value)
        for value, wanted in ((r"a\tb \x41 \101 \u0042 \U00000043 \" \s", ["a\tb", "A", "A", "B", "C", '"', " "]),
                              (r"\q \xZZ", ["\\q", "\\xZZ"])):
            self.assertEqual(words(value, escapes=True), wanted, value)
        self.assertEqual(words_before('a b "c'), ["a", "b"])
        with self.assertRaises(Unfinished):
            words("'a")


class Files(support.Case):
    """systemd.unit(5)."""

    def unit(self, name: str) -> Unit:
        return unit_files.named(name, self.work)

    def test_the_first_folder_counts(self) -> None:
        self.put("/lib/systemd/system/x.service", b"[Service]\nUser=lib")
        self.assertEqual(self.unit("x.service").values("User"), ["lib"])
        self.put("/etc/systemd/system/x.service", b"[Service]\nUser=etc")
        self.assertEqual(self.unit("x.service").values("User"), ["etc"])

    def test_drop_ins(self) -> None:
        self.put("/lib/systemd/system/a-b.service", b"[Service]\nUser=0")
        rows = {"/lib/systemd/system/a-b.service.d/20-x.conf": "2", "/etc/systemd/system/a-b.service.d/10-x.conf": "1",
                "/run/systemd/system/a-b.service.d/20-x.conf": "run", "/etc/systemd/system/a-.service.d/30-x.conf": "3",
                "/etc/systemd/system/a-.service.d/10-x.conf": "hidden", "/etc/systemd/system/service.d/05-x.conf": "5",
                "/etc/systemd/system/service.d/30-x.conf": "hidden", "/etc/systemd/system/a-b.service.d/x.txt": "no"}
        for path, value in rows.items():
            self.put(path, f"[Service]\nUser={value}".encode())
        self.assertEqual(self.unit("a-b.service").values("User"), ["0", "5", "1", "run", "3"])

    def test_a_masked_drop_in_has_no_effect(self) -> None:
        self.put("/lib/systemd/system/x.service", b"[Service]\nUser=0")
        self.put("/lib/systemd/system/x.service.d/1.conf", b"[Service]\nUser=1")
        self.link("/etc/systemd/system/x.service.d/1.conf", "/dev/null")
        self.assertEqual(self.unit("x.service").values("User"), ["0"])

    def test_instances(self) -> None:
        self.put("/lib/systemd/system/web@.service", b"[Service]\nUser=%i")
        self.put("/etc/systemd/system/web@.service.d/1.conf", b"[Service]\nGroup=1")
        self.put("/etc/systemd/system/web@one.service.d/1.conf", b"[Service]\nGroup=2")
        unit = self.unit("web@one.service")
        self.assertEqual((unit.values("User"), unit.values("Group"), unit.instance()), (["%i"], ["2"], "one"))
        self.assertEqual(unit_files.folders("a-b@c-d.service"),
                         ["a-b@c-d.service.d", "a-b@.service.d", "a-@.service.d"])

    def test_aliases(self) -> None:
        self.put("/lib/systemd/system/real.service", b"[Service]\nUser=0")
        self.link("/lib/systemd/system/alias.service", "real.service")
        self.put("/etc/systemd/system/real.service.d/1.conf", b"[Service]\nUser=1")
        self.put("/etc/systemd/system/alias.service.d/2.conf", b"[Service]\nUser=2")
        self.assertEqual(self.unit("alias.service").values("User"), ["0", "1", "2"])
        self.assertEqual(self.unit("real.service").values("User"), ["0", "1", "2"])

    def test_what_is_not_there(self) -> None:
        self.put("/etc/systemd/system/keep")
        self.link("/etc/systemd/system/masked.service", "/dev/null")
        for name, why in (("none.service", "there is no unit"), ("masked.service", "is masked")):
            with self.assertRaisesRegex(Failure, why):
                self.unit(name)

    def test_links(self) -> None:
        path = self.put("/opt/other.service", b"[Service]\nUser=opt")
        self.link("/etc/systemd/system/x.service", path)
        self.link("/etc/systemd/system/round.service", "around.service")
        self.link("/etc/systemd/system/around.service", "round.service")
        self.assertEqual(self.unit("x.service").values("User"), ["opt"])
        for number in range(50):
            self.link(f"/etc/systemd/system/{number}.service", f"{number + 1}.service")
        self.put("/etc/systemd/system/50.service")
        with self.assertRaisesRegex(Failure, "too often"):
            self.unit("0.service")

    def test_users_of_a_folder(self) -> None:
        self.put("/etc/passwd", PASSWD.encode())
        self.put("/etc/group", GROUP.encode())
        found = users.of_root(self.work)
        self.assertEqual(found.user("web"), users.User("web", 33, 34))
        self.assertEqual((found.user("33"), found.user("odd"), found.user("7")), (found.user("web"), None, None))
        self.assertEqual((found.group("ssl"), found.group("77"), found.group("none")), (40, 77, None))
        self.assertEqual(found.groups_of("web"), {40, 4})
        self.assertEqual(users.of_root(self.put("nothing")).user("nobody"), users.User("nobody", 65534, 65534))
        self.assertIsNotNone(users.of_machine().user("root"))


class Ids(unittest.TestCase):
    def ids(self, text: str, name: str = "x.service") -> tuple[int, int, list[int]]:
        made = made_of(text, name)
        return made.uid, made.gid, sorted(made.groups)

    def test_users_and_groups(self) -> None:
        rows: list[tuple[str, tuple[int, int, list[int]]]] = [
            ("", (0, 0, [])), ("User=web", (33, 34, [4, 34, 40])), ("User=33", (33, 34, [4, 34, 40])),
            ("User=web\nGroup=ssl", (33, 40, [4, 40])), ("User=web\nGroup=77", (33, 77, [4, 40, 77])),
            ("Group=ssl", (0, 40, [])), ("User=web\nUser=", (0, 0, [])), ("User=root", (0, 0, [])),
            ("User=nobody", (65534, 65534, [65534])), ("User=web\nGroup=root", (33, 0, [])),
            ("User=web\nSupplementaryGroups=root 9\nSupplementaryGroups=8", (33, 34, [0, 4, 8, 9, 34, 40])),
            ("SupplementaryGroups=8\nSupplementaryGroups=\nSupplementaryGroups=9", (0, 0, [9])),
            ("DynamicUser=yes", (61184, 61184, [61184])), ("DynamicUser=yes\nUser=new", (61184, 61184, [61184])),
            ("DynamicUser=yes\nUser=web", (33, 34, [4, 34, 40])),
            ("DynamicUser=yes\nGroup=new", (61184, 61184, [61184])), ("DynamicUser=yes\nDynamicUser=no", (0, 0, []))]
        for text, wanted in rows:
            self.assertEqual(self.ids(text), wanted, text)
        self.assertEqual(self.ids("DynamicUser=1", "backup.service"), (34, 34, [34]))
        self.assertEqual(self.ids("User=%i\nGroup=%p", "web@33.service"), (33, 34, [4, 34, 40]))

    def test_what_does_not_start(self) -> None:
        for text in ("User=none", "User=4000", "Group=none", "SupplementaryGroups=none", "SupplementaryGroups=\"root\"",
                     "User=%q", "ExecStart=x/y", "ExecStart=+/bin/x", "DynamicUser=what", "DynamicUser=",
                     "User=65535\nUser=", "Group=-1\nGroup=", "Group=4294967295", "RootDirectory=x",
                     "RootDirectory=/x/../y\nRootDirectory="):
            with self.assertRaises(Failure, msg=text):
                made_of(text)

    def test_specifiers(self) -> None:
        unit = Unit("a-b\\x2dc@d-e.service")
        for text, wanted in (("%n", unit.name), ("%N", "a-b\\x2dc@d-e"), ("%p", "a-b\\x2dc"), ("%P", "a/b-c"),
                             ("%i", "d-e"), ("%I", "d/e"), ("%j", "b\\x2dc"), ("%J", "b-c"), ("100%%", "100%")):
            self.assertEqual(unit_settings.expanded(unit, text), wanted)

    def test_no_new_privs(self) -> None:
        for text, wanted in (("", False), ("NoNewPrivileges=yes", True),
                             ("NoNewPrivileges=yes\nNoNewPrivileges=", True),
                             ("NoNewPrivileges=yes\nNoNewPrivileges=no", False),
                             ("DynamicUser=yes\nNoNewPrivileges=no", True),
                             ("User=web\nSystemCallFilter=@setuid", False)):
            self.assertEqual(made_of(text).no_new_privs, wanted, text)
        told = "\n".join(made_of("User=web\nSystemCallFilter=@known\nProtectClock=yes\nRestrictRealtime=no").notes)
        self.assertIn("ProtectClock=: some versions of systemd set no_new_privs", told)
        self.assertNotIn("RestrictRealtime", told)


class Sets(unittest.TestCase):
    def bounding(self, *values: str) -> int:
        return made_of("\n".join(f"CapabilityBoundingSet={value}" for value in values)).bounding

    def ambient(self, *values: str) -> int:
        return made_of("\n".join(f"AmbientCapabilities={value}" for value in values)).ambient

    def test_the_examples_of_the_page(self) -> None:
        self.assertEqual(self.bounding("CAP_CHOWN CAP_KILL", "CAP_KILL CAP_NET_RAW"), CHOWN | KILL | NET_RAW)
        self.assertEqual(self.bounding("CAP_CHOWN CAP_KILL", "~CAP_KILL CAP_NET_RAW"), CHOWN)

    def test_bounding_sets(self) -> None:
        every = " ".join("CAP_" + name for name in CAPABILITIES)
        rows: list[tuple[Sequence[str], int]] = [
            ((), ALL), (("",), 0), (("~",), ALL), (("CAP_CHOWN", ""), 0), (("CAP_CHOWN", "~"), ALL),
            (("~CAP_CHOWN",), ALL & ~CHOWN), (("~CAP_CHOWN", "~CAP_KILL"), ALL & ~CHOWN & ~KILL),
            (("~CAP_CHOWN", "CAP_CHOWN"), ALL), (("", "CAP_KILL"), KILL), (("", "~CAP_KILL"), 0),
            (("cap_chown 5",), CHOWN | KILL), (("CAP_NONE",), 0), (("CAP_NONE CAP_KILL",), KILL), (("99",), 0),
            (("\"CAP_CHOWN\" 'CAP_KILL'",), CHOWN | KILL), (("CAP_KILL \"CAP_CHOWN",), KILL),
            (("\"CAP_KILL CAP_CHOWN\"",), 0), (("\\x43AP_KILL",), 0), ((every, "CAP_KILL"), ALL),
            (("~", "CAP_KILL"), KILL)]
        for values, wanted in rows:
            self.assertEqual(self.bounding(*values), wanted, values)

    def test_ambient_sets(self) -> None:
        rows: list[tuple[Sequence[str], int]] = [
            ((), 0), (("CAP_KILL",), KILL), (("CAP_KILL", "CAP_CHOWN"), KILL | CHOWN), (("CAP_KILL", ""), 0),
            (("~CAP_KILL",), ALL & ~KILL), (("~",), ALL), (("CAP_KILL CAP_CHOWN", "~CAP_KILL"), CHOWN)]
        for values, wanted in rows:
            self.assertEqual(self.ambient(*values), wanted, values)

    def test_units_as_systemd_reads_them(self) -> None:
        """Drawn units, with what systemd 252 was seen to make of them (tools/commands/tests/unit/record_units.py)."""
        stored = json.loads(support.data("unit", "read_by_systemd.json"))
        self.assertGreaterEqual(len(stored["units"]), 200)
        for row in stored["units"]:
            unit, told = Unit("x.service", given=assignments(row["unit"])), row["read"]
            with self.subTest(row["unit"]):
                if told is None:
                    self.assertRaises(Failure, unit_settings.settings, unit, known())
                    continue
                made = unit_settings.settings(unit, users.Users(groups={"daemon": 1}))
                seen = [name for name in stored["capabilities"] if made.bounding >> NUMBERS[name] & 1]
                self.assertEqual([seen, made.ambient == 0, made.no_new_privs, bool(made.private_users),
                                  bool(made.root)], list(told.values()))

    def test_securebits(self) -> None:
        for text, wanted in (("SecureBits=noroot noroot-locked", 0x03),
                             ("SecureBits=keep-caps\nSecureBits=noroot", 0x11),
                             ("SecureBits=noroot\nSecureBits=\nSecureBits='no-setuid-fixup' keep-caps-locked", 0x24),
                             ("SecureBits=no-setuid-fixup-locked what", 0x08)):
            self.assertEqual(made_of(text).securebits, wanted, text)


class Calls(unittest.TestCase):
    """What counts as excluded: what is refused with EPERM by every name that a call has, whatever its arguments."""

    def filter(self, *values: str, error: str = "EPERM") -> Filter:
        made = Filter()
        for value in values:
            made.assign(value)
        made.set_error(error)
        return made

    def test_killed_calls_are_not_excluded(self) -> None:
        made = self.filter("~@setuid", error="")
        self.assertEqual(made.excluded(), [])
        self.assertIn("setuid, setreuid, setresuid, setgid, setregid, setresgid, setgroups (all is killed)",
                      made.others())
        self.assertEqual(self.filter("~@setuid", error="kill").excluded(), [])

    def test_denied_groups(self) -> None:
        seven = ["setuid", "setreuid", "setresuid", "setgid", "setregid", "setresgid", "setgroups"]
        self.assertEqual(self.filter("~@setuid").excluded(), seven)
        self.assertEqual(self.filter("~@privileged").excluded(),
                         ["setuid", "setreuid", "setresuid", "setfsuid", "setgroups", "capset"])
        self.assertEqual(self.filter("~@setuid:EPERM", error="").excluded(), seven)
        self.assertEqual(self.filter("~@setuid:1", error="EACCES").excluded(), seven)
        self.assertEqual(self.filter("~@setuid", error="EACCES").excluded(), [])
        self.assertEqual(self.filter("~@setuid:EACCES").excluded(), [])

    def test_names_of_32_bit_architectures(self) -> None:
        made = self.filter("~setuid")
        self.assertEqual(made.excluded(), [])
        self.assertIn("setuid (setuid gets error 1, setuid32 is made)", made.others())
        self.assertEqual(self.filter("~setuid setuid32").excluded(), ["setuid"])

    def test_calls_by_several_names(self) -> None:
        self.assertEqual(self.filter("~clone").excluded(), [])
        self.assertEqual(self.filter("~clone clone3").excluded(), ["clone_user"])
        self.assertEqual(self.filter("~clone clone3 fork vfork").excluded(), ["fork", "clone_user"])
        self.assertEqual(self.filter("~execveat").excluded(), [])
        self.assertEqual(self.filter("~unshare setns").excluded(), ["unshare", "setns"])
        self.assertEqual(self.filter("~prctl").excluded(), ["bset_drop", "amb_raise", "amb_lower", "amb_clear",
                                                            "securebits", "keepcaps", "no_new_privs"])

    def test_allowed_lists(self) -> None:
        every = [name for name in unit_calls.CARRIED if name != "execve"]
        self.assertEqual(self.filter("read").excluded(), every)
        self.assertEqual(self.filter("@system-service").excluded(), [])
        self.assertEqual(self.filter("@basic-io @process").excluded(),
                         ["setuid", "setreuid", "setresuid", "setfsuid", "setgid", "setregid", "setresgid", "setfsgid",
                          "setgroups", "capset"])
        self.assertEqual(self.filter("@system-service", "~@process").excluded(),
                         ["bset_drop", "amb_raise", "amb_lower", "amb_clear", "securebits", "keepcaps", "no_new_privs",
                          "fork", "clone_user", "unshare", "setns"])
        self.assertEqual(self.filter("@system-service", "~capset:EPERM", error="").excluded(), ["capset"])
        self.assertEqual(self.filter("@known", "~capset").excluded(), ["capset"])
        self.assertEqual(self.filter("@known capset:EPERM").excluded(), [])

    def test_the_first_list_says_which_kind_it_is(self) -> None:
        self.assertEqual(self.filter("~capset unshare", "unshare").excluded(), ["capset"])
        self.assertEqual(self.filter("~capset", "").excluded(), [])
        self.assertEqual(self.filter("~capset", "", "@known").excluded(), [])
        self.assertEqual(self.filter("").excluded(), [])

    def test_groups_that_are_not_known(self) -> None:
        for values in (["@new"], ["~capset", "@new"], ["@basic-io @new", "~@process"]):
            self.assertEqual(self.filter(*values).excluded(), [], values)
        self.assertEqual(self.filter("~@new capset").excluded(), ["capset"])
        self.assertIn("isn't known here", self.filter("@new").notes[0])

    def test_success_without_the_call_is_none(self) -> None:
        made = self.filter("~capset:0")
        self.assertEqual((made.excluded(), made.others()), ([], ["capset (all gets success without being made)"]))

    def test_errors(self) -> None:
        rows: list[tuple[str, int | str | None]] = [
            ("EPERM", errno.EPERM), ("1", 1), ("4095", 4095), ("4096", None), ("EWHAT", None), ("kill", "kill"),
            ("", None), ("errorcode", None), ("-1", None)]
        for word, wanted in rows:
            self.assertEqual(unit_calls.error_number(word), wanted, word)
        made = self.filter("~capset:EWHAT", error="0")
        self.assertEqual((made.excluded(), len(made.notes)), ([], 2))

    def test_groups_are_those_of_systemd(self) -> None:
        """The stored list of systemd 252, cut down to the calls that matter here."""
        told = dict[str, set[str]]()
        for line in support.data("unit", "groups.txt").decode().split("\n"):
            if line and not line.startswith("#"):
                name, *calls = line.split()
                told[name] = set(calls)
        self.assertEqual({name: set(calls) for name, calls in unit_calls.GROUPS.items()}, told)


class Worlds(support.Case):
    def made(self, text: str, *files: File, mounts: Sequence[Mount] = (), remark: str = "") -> unit_world.Made:
        scan = World("script", files=list(files), mounts=list(mounts)) if files else None
        evidence = support.scanned() if files else None
        return unit_world.world_of(unit_of(text), made_of(text), scan, remark, evidence, self.work)

    def test_what_stands_before_the_execve(self) -> None:
        made = self.made("User=web\nAmbientCapabilities=CAP_KILL\nCapabilityBoundingSet=CAP_KILL\nSecureBits=noroot\n"
                         "NoNewPrivileges=1\nSystemCallFilter=~capset:EPERM\nExecStart=/usr/bin/x\n"
                         "SystemCallArchitectures=native")
        [only] = made.world.processes
        self.assertEqual(only.credential, Credential((33,) * 4, (34,) * 4, frozenset([4, 34, 40]), KILL, KILL, KILL,
                                                     KILL, KILL, 1, True))
        self.assertEqual((made.world.exclude, made.log, only.space), (["capset"], b"100 execve - = 0\n", "init"))
        self.assertEqual(self.made("").world.processes[0].credential,
                         Credential((0,) * 4, (0,) * 4, frozenset(), 0, ALL, ALL, ALL, 0, 0, False))

    def test_other_architectures_get_round_a_filter(self) -> None:
        front = "SystemCallFilter=~capset\nSystemCallErrorNumber=EPERM\n"
        for text, excluded in (("", None), ("SystemCallArchitectures=native", ["capset"]),
                               ("SystemCallArchitectures=native x86", None),
                               ("SystemCallArchitectures=native\nSystemCallArchitectures=", None),
                               ("SystemCallArchitectures=x86\nSystemCallArchitectures=\nSystemCallArchitectures=native",
                                ["capset"])):
            self.assertEqual(self.made(front + text).world.exclude, excluded, text)
            told = [each for each in made_of(front + text).notes if "get round" in each]
            self.assertEqual(len(told), int(excluded is None), text)

    def test_private_users(self) -> None:
        for text, maps in (("User=web\nPrivateUsers=yes", (((0, 0, 1), (33, 33, 1)), ((0, 0, 1), (34, 34, 1)))),
                           ("PrivateUsers=1", (((0, 0, 1),), ((0, 0, 1),))),
                           ("PrivateUsers=self", (((0, 0, 1),), ((0, 0, 1),))),
                           ("PrivateUsers=identity", (((0, 0, 65536),),) * 2),
                           ("PrivateUsers=full", (((0, 0, 4294967295),),) * 2)):
            made = self.made(text).world
            self.assertEqual([(each.name, each.parent, each.owner, each.uid_map, each.gid_map, each.creator_setfcap)
                              for each in made.spaces], [("private", "init", 0, *maps, True)], text)
            self.assertEqual(made.processes[0].space, "private")
        for text in ("PrivateUsers=no", "PrivateUsers=yes\nPrivateUsers=no", "PrivateUsers=pick"):
            self.assertEqual(self.made(text).world.spaces, [], text)

    def test_programs(self) -> None:
        su, sh = File("/usr/bin/su", 0, 0, 0o4755), File("/opt/set", 7, 7, 0o4755)
        made = self.made("ExecStartPre=-/usr/bin/true\nExecStart=@/usr/bin/su su\nExecStop=set", su, sh)
        self.assertEqual(made.log, b"100 execve /usr/bin/su = 0\n101 execve - = 0\n")
        self.assertEqual([(each.pid, each.parent) for each in made.world.processes], [(100, None), (101, 100)])
        made = self.made('ExecStart=\nExecStart=su ; "/opt/set" x', su, sh)
        self.assertEqual(made.log, b"100 execve /usr/bin/su = 0\n101 execve /opt/set = 0\n")
        self.assertEqual(self.made("ExecStart=/a\nExecStart=").log, b"100 execve - = 0\n")
        self.put("/usr/bin/su")
        self.link("/usr/bin/alias", "su")
        self.assertEqual(self.made("ExecStart=/usr/bin/alias", su).log, b"100 execve /usr/bin/su = 0\n")

    def test_commands_with_full_privileges(self) -> None:
        made = made_of("ExecStartPre=+/bin/a\nExecStartPre=@!/bin/b b\nExecStart=!!/bin/c")
        self.assertEqual(made.commands, [Command("/bin/c"), Command("/bin/b", as_root=True)])
        told = [note for note in made.notes if note.startswith("Exec")]
        self.assertEqual(told, ["ExecStartPre=: /bin/a runs with full privileges (+): it isn't in this answer",
                                "ExecStartPre=: /bin/b begins as root (@!): of User=, Group= and"
                                " SupplementaryGroups= it has the user's groups alone"])

    def test_commands_as_root(self) -> None:
        """`!` exclusively alters the effect of User=, Group= and SupplementaryGroups= (systemd.service(5)). Of these
        systemd 252 leaves the groups of the user, as try_units.py saw it start chrony."""
        text = ("User=web\nSupplementaryGroups=8\nCapabilityBoundingSet=CAP_KILL CAP_CHOWN\nNoNewPrivileges=1\n"
                "AmbientCapabilities=CAP_KILL\nSecureBits=noroot\nPrivateUsers=yes\nSystemCallFilter=~capset:EPERM\n"
                "SystemCallArchitectures=native\nExecStart=!/bin/x\n")
        [only] = self.made(text).world.processes
        self.assertEqual((only.credential, only.space), (Credential((0,) * 4, (0,) * 4, frozenset([4, 34, 40]), KILL,
                                                                    ALL, ALL, KILL | CHOWN, KILL, 1, True), "private"))
        for ids, groups in (("", []), ("User=web\nGroup=root\n", []), ("User=web\nGroup=ssl\n", [4, 40]),
                            ("DynamicUser=yes\n", [61184]), ("SupplementaryGroups=8\n", [])):
            [only] = self.made(ids + "ExecStart=!/bin/x").world.processes
            self.assertEqual((only.credential.gid[0], sorted(only.credential.groups)), (0, groups), ids)
        made = self.made(text).world
        self.assertEqual((made.exclude, made.spaces[0].uid_map), (["capset"], ((0, 0, 1), (33, 33, 1))))
        made = self.made(text + "ExecStartPre=/bin/y\nExecStop=!/bin/z\n").world
        self.assertEqual([(each.pid, each.credential.uid[0]) for each in made.processes], [(100, 0), (101, 33)])

    def test_paths_without_execution(self) -> None:
        for path in ("/usr/bin/su", "/opt/in/set", "/opt/out"):
            self.put(path)
        rows = [File("/usr/bin/su", 0, 0, 0o4755), File("/opt/in/set", 0, 0, 0o4755, mount="m"),
                File("/opt/out", 0, 0, 0o4755)]
        mounts = [Mount("m", nosuid=True)]
        rules = (("NoExecPaths=/", [True] * 3), ("NoExecPaths=/\nExecPaths=/usr", [False, True, True]),
                 ("NoExecPaths=/opt", [False, True, True]),
                 ("NoExecPaths=/opt\nExecPaths=+/opt/in", [False, False, True]),
                 ("NoExecPaths=-/none", [False] * 3), ("NoExecPaths=/\nExecPaths=/none", [False] * 3),
                 ("NoExecPaths=/\nNoExecPaths=", [False] * 3), ("NoExecPaths=opt '/opt", [False] * 3),
                 ("NoExecPaths=/opt '/", [False, True, True]), ("ExecPaths=/opt", [False] * 3),
                 ("NoExecPaths=/op", [False] * 3), ("NoExecPaths=/opt/out", [False, False, True]))
        for text, wanted in rules:
            made = self.made(text, *rows, mounts=mounts).world
            closed = {each.name for each in made.mounts if each.noexec}
            self.assertEqual([each.mount in closed for each in made.files], wanted, text)
            inside = next(each for each in made.mounts if each.name == made.files[1].mount)
            self.assertTrue(inside.nosuid)

    def test_links_are_followed(self) -> None:
        self.put("/usr/bin/su")
        self.link("/bin", "usr/bin")
        su = File("/usr/bin/su", 0, 0, 0o4755)
        made = self.made("NoExecPaths=/\nExecPaths=/bin", su).world
        self.assertEqual(made.files[0].mount, "root")

    def test_a_root_directory(self) -> None:
        self.put("/srv/jail/bin/su")
        rows = [File("/usr/bin/su", 0, 0, 0o4755), File("/srv/jail/bin/sh", 0, 0, 0o755),
                File("/srv/jail/bin/su", 0, 0, 0o4755, interpreter="/srv/jail/bin/sh"),
                File("/srv/jail/x", 0, 0, 0o4755, interpreter="/usr/bin/su")]
        every = [each.path for each in rows]
        for text, wanted in (("User=web\nRootDirectory=/srv/jail", ["/bin/sh", "/bin/su"]),
                             ("RootDirectory=/srv/jail", every), ("User=web\nRootDirectory=/none", every),
                             ("CapabilityBoundingSet=~CAP_SYS_CHROOT\nRootDirectory=/srv/jail", ["/bin/sh", "/bin/su"]),
                             ("User=web\nAmbientCapabilities=CAP_SYS_CHROOT\nRootDirectory=/srv/jail", every),
                             ("User=web\nRootDirectory=/srv/jail\nExecStartPre=!/bin/x", every),
                             ("User=web\nRootDirectory=/srv/jail\nBindPaths=/usr", every),
                             ("User=web\nRootDirectory=/srv/jail\nRootDirectory=", every)):
            made = self.made(text, *rows)
            self.assertEqual([each.path for each in made.world.files], wanted, text)
        made = self.made("User=web\nRootDirectory=/srv/jail", *rows)
        self.assertEqual(made.world.files[1].interpreter, "/bin/sh")
        made = self.made("User=web\nRootDirectory=/srv/jail\nNoExecPaths=+/bin", *rows)
        self.assertEqual([each.noexec for each in made.world.mounts], [True])

    def test_merged_scans_have_no_paths_to_go_by(self) -> None:
        su = File("/usr/bin/su", 0, 0, 0o4755)
        made = self.made("NoExecPaths=/", su, remark="# merged: equal members stand once\n")
        self.assertEqual((made.world.files, made.world.mounts), ([su], []))
        self.assertIn("--merge", made.notes[0])

    def test_names_that_are_taken(self) -> None:
        scan = World("script", spaces=[worlds.Space("private", "init", 5)], mounts=[Mount("noexec", space="private")],
                     files=[File("/a", 0, 0, 0o4755, mount="noexec")])
        made = unit_world.world_of(unit_of("PrivateUsers=1\nNoExecPaths=/"), made_of("PrivateUsers=1\nNoExecPaths=/"),
                                   scan, "", support.scanned(), self.work).world
        self.assertEqual([each.name for each in made.spaces], ["private", "private-2"])
        self.assertEqual((made.files[0].mount, made.processes[0].space), ("noexec-2", "private-2"))

    def test_the_mark_of_a_scan(self) -> None:
        self.assertIn("# " + SCANNED, worlds.written(self.made("", File("/a", 0, 0, 0o755)).world).decode())
        self.assertNotIn("# " + SCANNED, worlds.written(self.made("").world).decode())

    def test_what_is_passed_over_is_told(self) -> None:
        for key in unit_settings.PASSED_OVER:
            told = [each for each in made_of(f"{key}=x").notes if each.startswith(key + "=: ")]
            self.assertEqual(len(told), 1, key)
            self.assertEqual([each for each in made_of(f"{key}=").notes if each.startswith(key + "=: ")], [], key)
        self.assertEqual(made_of("Restart=always\nPrivateDevices=no").notes, [])
        more = made_of("AmbientCapabilities=CAP_KILL\nCapabilityBoundingSet=")
        self.assertIn("the unit may not start", more.notes[0])
