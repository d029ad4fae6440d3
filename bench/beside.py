#!/usr/bin/env python3
"""Measures programs side by side: wall and processor seconds, and peak memory in MiB. Other scripts here use it."""
import os
import statistics
import subprocess
import sys
import time

HOME = os.path.dirname(os.path.dirname(os.path.abspath(__file__)))
PROGRAM = os.path.join(HOME, "crates", "sts", "out", "sts")


class Run:
    """What one run of a program came to."""

    def __init__(self, status, wall, processor, memory):
        self.status, self.wall, self.processor, self.memory = status, wall, processor, memory


def build():
    """Has the program proved and built, if it is not yet."""
    with open(os.path.join(HOME, "examples", "one_packet_lost.log.json"), "rb") as log:
        subprocess.run([os.path.join(HOME, "sts"), "replay"], stdin=log, stdout=subprocess.DEVNULL, check=True)


def other_program(place):
    """The path of another program of the same words: an argument of the script, else what YARDSTICK names, else none."""
    return sys.argv[place] if len(sys.argv) > place else os.environ.get("YARDSTICK")


def measure(path, command):
    """Prints what a command on a file came to."""
    with open(path, "rb") as source:
        start = time.monotonic()
        child = subprocess.Popen(command, stdin=source, stdout=subprocess.DEVNULL, stderr=subprocess.DEVNULL)
        _, status, usage = os.wait4(child.pid, 0)
        wall = time.monotonic() - start
    child.returncode = os.waitstatus_to_exitcode(status)
    print(child.returncode, wall, usage.ru_utime + usage.ru_stime, usage.ru_maxrss / 1024)


def measured(command, path):
    """The run of a command on a file, from a small process: a child's peak counts what its parent held when it was started."""
    out = subprocess.run([sys.executable, "-S", os.path.abspath(__file__), path, *command],
                         capture_output=True, text=True, check=True).stdout.split()
    return Run(int(out[0]), *map(float, out[1:]))


def medians(commands, path, times):
    """For each command on a file the medians of so many runs. The commands take turns, so that all meet the same machine."""
    runs = [[] for _ in commands]
    for _ in range(times):
        for command, done in zip(commands, runs):
            done.append(measured(command, path))
    return [Run(done[0].status, *(statistics.median(getattr(run, what) for run in done)
                                  for what in ("wall", "processor", "memory"))) for done in runs]


def output(command, path):
    """What a command on a file writes to standard output."""
    with open(path, "rb") as source:
        return subprocess.run(command, stdin=source, capture_output=True, check=False).stdout


if __name__ == "__main__":
    measure(sys.argv[1], sys.argv[2:])
