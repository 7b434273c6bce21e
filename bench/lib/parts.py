"""Commands that end with 'N passed, M failed', run as parts of one command, and what each passed, failed and took."""
import os
import re
import subprocess
import time
from dataclasses import dataclass

from lib.kit import TOP


@dataclass
class Part:
    """A command, and the name of the part without which it can't be run."""

    name: str
    command: list
    after: str = ""
    passed: int = 0
    failed: int = 0
    minutes: float = 0.0
    processor: float = 0.0

    def __str__(self):
        return f"{self.name}: {self.passed} passed, {self.failed} failed, {self.minutes:.1f} minutes, {self.processor:.1f} processor minutes"

    def run(self, say):
        """Runs it, and hands on each line that it prints. Its last line says how many passed and failed; one without such a line counts once."""
        begin, last = time.monotonic(), ""
        say(f"== {' '.join(self.command)}\n")
        with subprocess.Popen(self.command, cwd=TOP, stdout=subprocess.PIPE, stderr=subprocess.STDOUT, text=True, errors="replace") as started:
            for line in started.stdout:
                say(line)
                last = line.strip() or last
            _, ended, used = os.wait4(started.pid, 0)
            started.returncode = os.waitstatus_to_exitcode(ended)
        counted = re.fullmatch(r"(\d+) passed, (\d+) failed", last)
        is_well = started.returncode == 0
        self.passed, self.failed = (int(counted[1]), int(counted[2])) if counted else (int(is_well), int(not is_well))
        if not is_well and not self.failed:
            self.failed = 1
        self.minutes, self.processor = (time.monotonic() - begin) / 60, (used.ru_utime + used.ru_stime) / 60

    def leave_out(self, say):
        """Counts it as failed, since the part that it needs has failed."""
        say(f"== {' '.join(self.command)}: not run, since {self.after} failed\n")
        self.failed = 1


def lines_of(parts, minutes):
    """Returns a line for each part, and one for all together, which took so many minutes."""
    processor = sum(it.processor for it in parts)
    return [*map(str, parts), f"{minutes:.1f} minutes on {len(os.sched_getaffinity(0))} processors, {processor:.1f} processor minutes"]


def last_line(parts):
    return f"{sum(it.passed for it in parts)} passed, {sum(it.failed for it in parts)} failed"
