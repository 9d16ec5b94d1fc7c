"""The gate, which CI runs: `.ci/check`, `.ci/test`, `rt ci` in the tree as it stands, and the programs of stress/.

`rt ci` proves what the kit has not kept from an earlier run of the same files, tries all mutants that such a run has not tried, and
runs all proved tests and the stored runs of programs. What BESIDE names runs beside it, since its first proof leaves processors
idle. The gate prints a line for each part that ends, with the minute, and the whole text of a part that fails. A log, whose path it
prints, keeps all that was said. The last line is that of `rt ci`, `N passed, M failed`, with what failed beside it in M.
"""

import os
import re
import subprocess
import sys
import tempfile
import threading
import time

from crates import ROOT, files, libraries_of_crates, read

BESIDE = (".ci/check-test", ".ci/first-program", "stress/refusals 80")
AFTER = "stress/devices"
PART = re.compile(r"^rt: (\w+)(?:: its tests are)? (proved|NOT PROVED|is kept)\b")
LAST = re.compile(r"^(\d+) passed, (\d+) failed$")
# What `rt ci` says of tests that passed, and of mutants that were refused.
QUIET = re.compile(r"^(test .* ok|tests: \d+|test result: ok\b.*|rt: must-fail \S+: refused\b.*|rt: \w+: \d+ of its \d+ must-fail .*)$")


class Gate:
    """What has ended, how many commands beside `rt ci` failed, and the log of all that was said."""

    def __init__(self, log, uses):
        self.log, self.start, self.lock = log, time.monotonic(), threading.Lock()
        tests = [it for it in uses if any(b"#[test]" in read(path) for path in files(it, ["src"]))]
        self.parts, self.ended, self.failed = len(BESIDE) + len(uses) + len(tests) + 3, 0, 0

    def say(self, text):
        with self.lock:
            print(text, flush=True)

    def end(self, name, is_well, text=""):
        """Counts a part, and prints its line, and its text if it failed."""
        with self.lock:
            self.ended += 1
            minutes = (time.monotonic() - self.start) / 60
            print(f"{minutes:4.0f} min  {self.ended} of {self.parts}  {name}" + ("" if is_well else f" FAILED\n{text}"), flush=True)

    def lines(self, command, result):
        """Yields what a command says, line by line, logs it, and appends its status to `result`."""
        streams = {"stdin": subprocess.DEVNULL, "stdout": subprocess.PIPE, "stderr": subprocess.STDOUT}
        with subprocess.Popen(command.split(), cwd=ROOT, text=True, errors="replace", **streams) as process:
            for line in process.stdout:
                with self.lock:
                    self.log.write(line)
                yield line
        result.append(process.returncode)

    def run(self, command, is_shown=False):
        """Runs a command as a part, and returns whether it is well. All that it says is printed at once if it is shown."""
        said, result = [], []
        for line in self.lines(command, result):
            said.append(line)
            if is_shown:
                self.say(line.rstrip("\n"))
        is_well = result == [0]
        self.failed += not is_well
        self.end(command, is_well, "" if is_shown else "".join(said))
        return is_well

    def prove(self):
        """Runs `rt ci`, with a line for each proof that ends, and returns its last line and status. What it says of a crate begins with
        `== ` and its name, and is printed if it is not proved."""
        block, last, result = None, "0 passed, 1 failed", []
        for line in self.lines("rt ci", result):
            part = PART.match(line)
            if line.startswith("== "):
                block = []
            if part:
                self.end(line[4:].rstrip("\n"), part[2] != "NOT PROVED", "".join(block or []))
                block = None
            elif block is not None:
                block.append(line)
            elif LAST.match(line):
                last = line.rstrip("\n")
            elif not QUIET.match(line):
                self.say(line.rstrip("\n"))
        return last, result[0]


def main():
    if sys.argv[1:]:
        print(__doc__, end="", file=sys.stderr)
        return 2
    with tempfile.NamedTemporaryFile("w", prefix="gate-", suffix=".log", delete=False) as log:
        gate = Gate(log, libraries_of_crates())
        gate.say(f"The gate: {gate.parts} parts. All that they say is in {log.name}")
        if not (gate.run(".ci/check") and gate.run(".ci/test", is_shown=True)):
            print("0 passed, 1 failed")
            return 1
        beside = threading.Thread(target=lambda: [gate.run(it) for it in BESIDE])
        beside.start()
        last, status = gate.prove()
        beside.join()
        gate.run(AFTER)
        passed, failed = map(int, LAST.match(last).groups())
        print(f"{passed} passed, {failed + gate.failed} failed")
        return int(status != 0 or gate.failed > 0)


if __name__ == "__main__":
    sys.exit(main())
