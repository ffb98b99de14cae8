"""What a recording waits for before it begins."""
import subprocess
import sys
import unittest

# What isn't needed before the program runs; what the end alone needs is loaded meanwhile.
SLOW = ("hashlib", "tomllib", "credaudit_tools.strace_log.line_filter", "credaudit_tools.verify",
        "credaudit_tools.provenance.sources")
LOADED = f"""
import sys
before = set(sys.modules)
import credaudit_tools.trace.trace_command
print(sorted(set({SLOW!r}) & set(sys.modules) - before))
"""


class Loaded(unittest.TestCase):
    def test_a_recording_begins_without_what_takes_long(self) -> None:
        done = subprocess.run([sys.executable, "-c", LOADED], env={"PYTHONPATH": ":".join(sys.path)}, check=True,
                              stdout=subprocess.PIPE)
        self.assertEqual(done.stdout, b"[]\n")


if __name__ == "__main__":
    unittest.main()
