#!/usr/bin/env python3
"""Times `sts record` on scenarios with one, two and four workers, beside another program of the same words.

Usage: bench/record.py FOLDER [PROGRAM]    FOLDER has the scenarios, one in each file. PROGRAM is what YARDSTICK names, where none is
given. Prints the medians of 21 runs in milliseconds, and how many entries of the log each worker made.
"""
import collections
import json
import os
import sys
import tempfile

from beside import PROGRAM, build, medians, other_program, output

TIMES = 21
WAYS = [(1, 0), (1, 1000), (2, 1000), (4, 1000)]


def shares(log):
    """How many entries name each worker, from worker 0 on."""
    count = collections.Counter(entry[0] for entry in json.loads(log)["entries"])
    return " ".join(str(count[worker]) for worker in range(max(count, default=0) + 1))


def main():
    build()
    commands = {"sts": [PROGRAM, "record"]}
    beside = other_program(2)
    if beside:
        commands["other"] = [beside, "record"]
    print(f"{'scenario':16} {'workers':>7} {'patience':>8}", *(f"{name + ' wall':>11} {name + ' cpu':>11}" for name in commands), " entries of workers")
    with tempfile.TemporaryDirectory() as scratch:
        for name in sorted(os.listdir(sys.argv[1])):
            with open(os.path.join(sys.argv[1], name), encoding="ascii") as file:
                scenario = json.load(file)
            for workers, patience in WAYS:
                path = os.path.join(scratch, name)
                with open(path, "w", encoding="ascii") as file:
                    json.dump(scenario | {"workers": workers, "patience": patience}, file)
                runs = medians(list(commands.values()), path, TIMES)
                cells = (f"{run.wall * 1000:11.2f} {run.processor * 1000:11.2f}" for run in runs)
                print(f"{name:16} {workers:7} {patience:8}", *cells, "", shares(output(commands["sts"], path)), flush=True)


if __name__ == "__main__":
    main()
