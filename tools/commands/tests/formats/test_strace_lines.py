"""strace's lines: pids, calls, quotes and decorations, with names that try to end them."""
import unittest

from credaudit_tools.formats import strace_lines

# A name's bytes, as strace writes them between quotes and in a decoration.
NAMES = [
    (b"plain", rb"plain", rb"plain"), (b"a<b>c", rb"a<b>c", rb"a\74b\76c"), (b'q"u', rb'q\"u', rb'q\"u'),
    (b"esc\x1b[31m", rb"esc\33[31m", rb"esc\33[31m"), (b"lf\nx", rb"lf\nx", rb"lf\nx"),
    (b"bs\\n", rb"bs\\n", rb"bs\\n"),
    (b"\xff\xfe", rb"\377\376", rb"\377\376"), (b"b) = 0", rb"b) = 0", rb"b) = 0"), (b"x-", rb"x-", rb"x-"),
    (b"), 1", rb"), 1", rb"), 1"), (b"[x", rb"[x", rb"[x"), (b"}", rb"}", rb"}"), (b"TCP:[x", rb"TCP:[x", rb"TCP:[x"),
]


class Names(unittest.TestCase):
    def test_a_name_ends_no_argument(self) -> None:
        for name, quoted, decorated in NAMES:
            with self.subTest(name=name):
                body = b'openat(AT_FDCWD</t>, "' + quoted + b'", O_WRONLY) = 3</t/' + decorated + b">"
                call = strace_lines.call_of(body)
                assert call is not None
                self.assertEqual(len(call.arguments), 3)
                self.assertEqual(strace_lines.text_of(call.arguments[1]), (name, True))
                self.assertEqual(strace_lines.descriptor(call.result), (b"3", b"/t/" + name))

    def test_a_name_in_a_first_argument(self) -> None:
        for name, _, decorated in NAMES:
            with self.subTest(name=name):
                call = strace_lines.call_of(b"write(3</t/" + decorated + b'>(deleted), "text", 4) = 4')
                assert call is not None
                self.assertEqual(strace_lines.descriptor(call.arguments[0]), (b"3", b"/t/" + name))
                self.assertEqual(call.done, 4)

    def test_what_is_quoted_is_read_again(self) -> None:
        for name, _, _ in NAMES:
            self.assertEqual(strace_lines.text_of(strace_lines.quoted(name)), (name, True))


class Decorations(unittest.TestCase):
    def test_of_sockets_devices_and_namespaces(self) -> None:
        rows = [
            (rb"4<UNIX-STREAM:[32104->32105]>", b"UNIX-STREAM:[32104->32105]"),
            (rb'5<UNIX-STREAM:[32105->32104,"sock<>\"name"]>', b'UNIX-STREAM:[32105->32104,"sock<>"name"]'),
            (rb"7<TCP:[127.0.0.1:53108->127.0.0.1:37089]>", b"TCP:[127.0.0.1:53108->127.0.0.1:37089]"),
            (rb"8</dev/null<char 1:3>>", b"/dev/null<char 1:3>"), (rb"9<user:[4026531837]>", b"user:[4026531837]"),
            (rb"1<pipe:[12]>", b"pipe:[12]"), (rb"2<anon_inode:[eventfd]>", b"anon_inode:[eventfd]"),
            (rb"3<pid:77>", b"pid:77"), (rb"AT_FDCWD</>", b"/"), (rb"11</memfd:mem\74x\76>(deleted)", b"/memfd:mem<x>"),
        ]
        for text, told in rows:
            with self.subTest(text=text):
                found = strace_lines.descriptor(text)
                assert found is not None
                self.assertEqual(found[1], told)

    def test_of_none(self) -> None:
        self.assertEqual(strace_lines.descriptor(b"3"), (b"3", None))
        self.assertIsNone(strace_lines.descriptor(b'"3"'))
        self.assertIsNone(strace_lines.descriptor(b"3 x"))
        self.assertIsNone(strace_lines.descriptor(b"3<unclosed"))


class Calls(unittest.TestCase):
    def test_parts(self) -> None:
        call = strace_lines.call_of(b"setgroups(2, [1, 2])          = -1 EPERM (Operation not permitted)")
        assert call is not None
        self.assertEqual((call.name, call.arguments, call.done), (b"setgroups", (b"2", b"[1, 2]"), None))
        call = strace_lines.call_of(b"fork() = 12")
        assert call is not None
        self.assertEqual((call.arguments, call.done), ((), 12))
        call = strace_lines.call_of(b"prctl(PR_GET_SECUREBITS) = 0x10 (SECBIT_KEEP_CAPS)")
        assert call is not None
        self.assertEqual(call.done, 16)

    def test_what_is_no_call(self) -> None:
        for body in (b"", b"+++ exited with 0 +++", b"setuid(7", b"setuid 7 = 0", b"setuid(7) 0", b"setuid([7) = 0",
                     b'execve("/x = 0', b"setuid(7)) = 0"):
            self.assertIsNone(strace_lines.call_of(body), body)

    def test_texts(self) -> None:
        self.assertEqual(strace_lines.text_of(rb'"0 0 1\n"...'), (b"0 0 1\n", False))
        self.assertEqual(strace_lines.text_of(rb'"\x2f\x62"'), (b"/b", True))
        for text in (rb'"\q"', rb'"\777"', b"0x7ffe", rb'"x" /* 3 vars */'):
            self.assertIsNone(strace_lines.text_of(text), text)

    def test_pids(self) -> None:
        self.assertEqual(strace_lines.parted(b"100  getuid() = 0 \r"), (100, b"getuid() = 0"))
        for line in (b"getuid() = 0", b"[pid 100] getuid() = 0", b"0 getuid() = 0", b"100<x> getuid() = 0", b""):
            self.assertIsNone(strace_lines.parted(line), line)

    def test_flags(self) -> None:
        rows = [(b"clone(child_stack=NULL, flags=CLONE_VM|SIGCHLD) = 1", [b"CLONE_VM", b"SIGCHLD"]),
                (b"clone3({flags=CLONE_NEWUSER, exit_signal=SIGCHLD} => {parent_tid=[7]}, 88) = 1", [b"CLONE_NEWUSER"]),
                (b"clone3({flags=CLONE_NEWUSER, exit_signal=SIGCHLD}, 88) = 1", [b"CLONE_NEWUSER"]),
                (b"fork() = 1", []),
                (b"clone(0x7ffe) = 1", None)]
        for body, flags in rows:
            call = strace_lines.call_of(body)
            assert call is not None
            self.assertEqual(strace_lines.flags_of(call), flags, body)
