"""The walks of a line and of what follows a log, of a program whose functions say by their names where they stand."""
import os
import platform
import shutil
import subprocess
import unittest

from commands.tests.support import Case

from .. import walks

# A program that reads the lines of a file. It calls some functions at certain lines alone, and one at the end.
PROGRAM = r"""
#include <stdio.h>
#define FUNCTION(name) __attribute__((noinline)) void name(void) { __asm__(""); }
FUNCTION(next_line) FUNCTION(first) FUNCTION(each) FUNCTION(again) FUNCTION(third) FUNCTION(dropped) FUNCTION(other)
FUNCTION(after)
int main(int count, char **words)
{
    FILE *file = fopen(words[count - 1], "r");
    int line = 0, byte;
    for (next_line(); (byte = getc(file)) != EOF;)
        if (byte == '\n') {
            each(), again(), dropped(), other();
            if (++line == 1)
                first();
            if (line == 3)
                third();
            next_line();
        }
    after();
    return line == 4;
}
"""
NAMES = {"next_line": "cm_io::cutter::LineCutter::next_line::<#1>", "first": "cm_script::first",
         "each": "cm_script::reading::each::<i32,u8>", "again": "cm_script::reading::each::<i64,u8>",
         "third": "cm_script::reading::calls::third", "dropped": "cm_script::Destruct++none::drop::<i32>",
         "other": "std_io::reading::each", "after": "cm_log::after"}
KNOWN = {"cm_io::cutter::LineCutter::next_line", "cm_script::first", "cm_script::reading::each",
         "cm_script::reading::calls::third", "cm_log::after"}


@unittest.skipUnless(all(map(shutil.which, ("cc", "nm", "objcopy", "strip"))), "cc or what goes with it isn't there")
@unittest.skipUnless(platform.machine() == "x86_64", "another processor")
class Walks(Case):
    def setUp(self) -> None:
        super().setUp()
        self.program = os.path.join(self.work, "program")
        subprocess.run(["cc", "-O0", "-o", self.program, "-xc", "-"], input=PROGRAM.encode(), check=True)
        renamed = [f"--redefine-sym={name}={symbol}" for name, symbol in NAMES.items()]
        subprocess.run(["objcopy", *renamed, self.program], check=True)
        for path in ("cm_io/src/cutter.rt", "cm_script/src/lib.rt", "cm_script/src/reading.rt", "cm_log/src/lib.rt"):
            self.put(f"crates/{path}", b"")
        self.known = walks.functions(self.program, self.work)

    def walk(self, lines: int, line: int, to_end: bool) -> set[str]:
        """What a walk over a log of so many lines goes through."""
        log = self.put("log", lines * b"line\n")
        what = walks.Walk("a walk", (log,), line, to_end)
        return walks.walk(self.program, what, self.known, os.path.join(self.work, "output"))

    def test_functions_are_those_of_the_repository_without_types(self) -> None:
        self.assertEqual(set(self.known.values()), KNOWN)

    def test_a_line_is_what_runs_from_its_reading_to_the_next_one(self) -> None:
        line = {"cm_io::cutter::LineCutter::next_line", "cm_script::reading::each"}
        self.assertEqual(self.walk(3, 2, False), line)
        self.assertEqual(self.walk(3, 1, False), line | {"cm_script::first"})
        self.assertEqual(self.walk(3, 3, False), line | {"cm_script::reading::calls::third"})

    def test_what_follows_a_log_runs_to_the_end(self) -> None:
        self.assertEqual(self.walk(0, 1, True), {"cm_io::cutter::LineCutter::next_line", "cm_log::after"})

    def test_a_log_of_other_lines_and_another_status_are_no_answer(self) -> None:
        for lines, line, to_end in ((1, 3, False), (2, 1, True), (4, 1, True)):
            with self.subTest(lines=lines), self.assertRaises(walks.Failed):
                self.walk(lines, line, to_end)

    def test_a_program_without_symbols_is_no_answer(self) -> None:
        subprocess.run(["strip", self.program], check=True)
        with self.assertRaises(walks.Failed):
            walks.functions(self.program, self.work)

    def test_files(self) -> None:
        found = {walks.file_of(name, self.work) for name in KNOWN}
        self.assertEqual(found, {"cm_io/src/cutter.rt", "cm_script/src/lib.rt", "cm_script/src/reading.rt",
                                 "cm_log/src/lib.rt"})
