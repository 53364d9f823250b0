"""Timed runs of commands: time by the clock, processor time and memory.

/usr/bin/time starts each command, because it reports the memory of the command alone. Its own start, about a millisecond, is in each time.
"""
import os
import statistics
import subprocess
import tempfile
import time
from typing import NamedTuple

TOP = os.path.dirname(os.path.dirname(os.path.abspath(__file__)))


def program():
    """The path of the proved program, or of the one that SCL names. Ends the script where there is none."""
    path = os.environ.get("SCL", os.path.join(TOP, "crates", "scl", "out", "scl"))
    if not os.path.exists(path):
        raise SystemExit("first prove and build the program: cd crates/scl && rt run")
    return path


class Run(NamedTuple):
    """What a run took: seconds by the clock, seconds of processor time and KiB of memory; and the bytes that it wrote, where they were counted."""

    clock: float
    processor: float
    memory: int
    size: int = 0


class Timed:
    """A command that was started. If its output is a pipe, the caller reads that before `end`."""

    def __init__(self, command, source=os.devnull, output=subprocess.DEVNULL, piped=False, notes=None):
        """Starts it with the file `source` as its input, through a pipe if `piped`; `notes` is its standard error."""
        self.command, self.usage, self.feeder = command, tempfile.NamedTemporaryFile("r"), None
        watched = ["/usr/bin/time", "-f", "%M", "-o", self.usage.name, *command]
        with open(source, "rb") as file:
            self.began = time.monotonic()
            if piped:
                self.feeder = subprocess.Popen(["cat"], stdin=file, stdout=subprocess.PIPE)
            self.child = subprocess.Popen(watched, stdin=self.feeder.stdout if piped else file, stdout=output, stderr=notes)
        if piped:
            self.feeder.stdout.close()

    def end(self, statuses=(0,)):
        """Waits for its end and returns its Run. Ends the script if its status isn't one of these."""
        _, status, usage = os.wait4(self.child.pid, 0)
        clock = time.monotonic() - self.began
        self.child.returncode = os.waitstatus_to_exitcode(status)
        if self.feeder:
            self.feeder.wait()
        if self.child.returncode not in statuses:
            raise SystemExit(f"{' '.join(self.command)} ended with {self.child.returncode}")
        with self.usage as file:
            memory = int(file.read().split()[-1])
        return Run(clock, usage.ru_utime + usage.ru_stime, memory)


def run(command, source=os.devnull, target=os.devnull, piped=False, notes=None):
    """One run, with its output in the file `target`."""
    with open(target, "wb") as out:
        return Timed(command, source, out, piped, notes).end()


def counted(command, source=os.devnull):
    """One run whose output is read through a pipe, to count its bytes."""
    timed = Timed(command, source, subprocess.PIPE)
    size = 0
    with timed.child.stdout as output:
        while piece := output.read(1 << 20):
            size += len(piece)
    return timed.end()._replace(size=size)


def middle(runs):
    """The medians of these runs, and their greatest memory."""
    clock, processor = (statistics.median(one[at] for one in runs) for at in (0, 1))
    return Run(clock, processor, max(one.memory for one in runs), runs[0].size)


def in_turn(rounds, makers):
    """Calls each of these functions, which return a Run, once in every round. Returns the medians by their names."""
    runs = {name: [] for name in makers}
    for _ in range(rounds):
        for name, make in makers.items():
            runs[name].append(make())
    return {name: middle(found) for name, found in runs.items()}
