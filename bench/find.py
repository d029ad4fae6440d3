#!/usr/bin/env python3
"""Times `sts find`, `sts reduce` and `sts gen 7 64` beside another program of the same words.

Usage: bench/find.py FOLDER [PROGRAM]    FOLDER has scenarios, one in each file. PROGRAM is what YARDSTICK names, where none is given.
Prints the medians of 21 runs of each program by turns: wall and processor time in milliseconds, peak memory in MiB; where valgrind is
there, how many sets of inputs were tried by a replay; and says where the two write different texts. A scenario runs with one worker and
no patience, so that both programs find the same log. `reduce` reads the log that the other program records.
"""
import json
import os
import re
import shutil
import subprocess
import sys
import tempfile

from beside import PROGRAM, build, medians, other_program, output

TIMES = 21
TEST = "causal_minimizer::trial::ends_in_violation"


def tests(words, path, scratch):
    """How often a command tried some inputs by a replay, counted by callgrind; nothing where that is not there."""
    if not shutil.which("valgrind"):
        return "-"
    profile = os.path.join(scratch, "callgrind.out")
    with open(path, "rb") as source:
        subprocess.run(["valgrind", "--tool=callgrind", f"--callgrind-out-file={profile}", PROGRAM, *words],
                       stdin=source, stdout=subprocess.DEVNULL, stderr=subprocess.DEVNULL, check=False)
    count, names, called = 0, {}, ""
    with open(profile, encoding="utf-8") as lines:
        for line in lines:
            function = re.match(r"c?fn=\((\d+)\)(?: (.*))?", line)
            if function:
                names.setdefault(function[1], function[2] or "")
                called = names[function[1]]
            elif line.startswith("calls=") and called.startswith(TEST):
                count += int(line[len("calls="):].split()[0])
    return count


def row(name, words, path, beside, scratch):
    """Times one command on a file in both programs."""
    commands = [[PROGRAM, *words], [beside, *words]]
    runs = medians(commands, path, TIMES)
    cells = (f"{run.wall * 1000:9.2f} {run.processor * 1000:9.2f} {run.memory:9.1f}" for run in runs)
    same = output(commands[0], path) == output(commands[1], path)
    print(f"{name:16} {' '.join(words):8} {runs[0].status:6}", *cells, f"{tests(words, path, scratch):>6}",
          "" if same else " the texts differ", flush=True)


def main():
    build()
    beside = other_program(2)
    if not beside:
        sys.exit("name another program of the same words")
    heads = (f"{who + what:>9}" for who in ("sts ", "other ") for what in ("wall", "cpu", "MiB"))
    print(f"{'scenario':16} {'words':8} {'status':>6}", *heads, f"{'tests':>6}")
    with tempfile.TemporaryDirectory() as scratch:
        for name in sorted(os.listdir(sys.argv[1])):
            with open(os.path.join(sys.argv[1], name), encoding="ascii") as file:
                scenario = json.load(file) | {"workers": 1, "patience": 0}
            path = os.path.join(scratch, name)
            with open(path, "w", encoding="ascii") as file:
                json.dump(scenario, file)
            log = os.path.join(scratch, name + ".log")
            with open(log, "wb") as file:
                file.write(output([beside, "record"], path))
            row(name, ["find"], path, beside, scratch)
            row(name, ["reduce"], log, beside, scratch)
        row("made up", ["gen", "7", "64"], os.devnull, beside, scratch)


if __name__ == "__main__":
    main()
