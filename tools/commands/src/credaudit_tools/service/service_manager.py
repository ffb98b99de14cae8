"""systemd, as systemctl(1) speaks for it: what it knows of a unit, and what it is asked to do."""
import os
import shutil
import subprocess
from dataclasses import dataclass, field

from ..command_line.command import Failure
from ..command_line.printable import shown

BOOTED, FOLDER = "/run/systemd/system", "/run/systemd/system"
PATIENCE = 120.0


@dataclass
class Manager:
    """The service manager of this machine: its command, and the folder of units that are gone at the next start."""
    command: list[str] = field(default_factory=lambda: [shutil.which("systemctl") or "systemctl"])
    folder: str = FOLDER

    def asked(self, *words: str) -> str:
        """What systemctl answers. Fails where it refuses."""
        try:
            done = subprocess.run([*self.command, *words], stdin=subprocess.DEVNULL, stdout=subprocess.PIPE,
                                  stderr=subprocess.PIPE, check=False, timeout=PATIENCE,
                                  env={**os.environ, "LC_ALL": "C", "SYSTEMD_COLORS": "0", "SYSTEMD_PAGER": ""})
        except subprocess.TimeoutExpired as error:
            raise Failure(f"systemctl {' '.join(words)}: no answer in {PATIENCE:.0f} s") from error
        if done.returncode != 0:
            said = shown(done.stderr.strip().replace(b"\n", b"; ")) or f"status {done.returncode}"
            raise Failure(f"systemctl {' '.join(words)}: {said}")
        return done.stdout.decode("utf-8", "replace")

    def check_is_there(self) -> None:
        """Fails where no systemd runs this machine (sd_booted(3))."""
        if not os.path.isdir(self.folder) or shutil.which(self.command[0]) is None:
            raise Failure("no systemd runs here, so there is no unit to be started",
                          "record the program itself, or what runs by -p")

    def show(self, unit: str, *keys: str) -> dict[str, list[str]]:
        """What is known of a unit, by key: a line for each value, none where it is empty."""
        told: dict[str, list[str]] = {key: [] for key in keys}
        for line in self.asked("show", "--no-pager", "--property=" + ",".join(keys), "--", unit).split("\n"):
            key, equals, value = line.partition("=")
            if equals and value and key in told:
                told[key].append(value)
        return told

    def reload(self) -> None:
        """Has all units read again."""
        self.asked("daemon-reload")

    def start(self, unit: str) -> None:
        """Has a unit started, and doesn't wait for it."""
        self.asked("start", "--no-block", "--", unit)
