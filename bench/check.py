#!/usr/bin/env python3
"""Times `sts check` and `sts replay` on the logs that another program of the same words records of scenarios, beside that program.

Usage: bench/check.py FOLDER [PROGRAM]    FOLDER has the scenarios, one in each file. PROGRAM is what YARDSTICK names, where none is
given. Prints the medians of 21 runs in milliseconds and in MiB, and says where the two write different texts.
"""
import os
import sys
import tempfile

from beside import PROGRAM, build, medians, other_program, output

TIMES = 21


def main():
    build()
    beside = other_program(2)
    if not beside:
        sys.exit("name another program of the same words")
    print(f"{'scenario':16} {'word':6} {'status':>6} {'sts ms':>9} {'sts MiB':>9} {'other ms':>9} {'other MiB':>9}")
    with tempfile.TemporaryDirectory() as scratch:
        for name in sorted(os.listdir(sys.argv[1])):
            path = os.path.join(scratch, name)
            with open(path, "wb") as log:
                log.write(output([beside, "record"], os.path.join(sys.argv[1], name)))
            for word in ("check", "replay"):
                commands = [[PROGRAM, word], [beside, word]]
                runs = medians(commands, path, TIMES)
                cells = (f"{run.wall * 1000:9.2f} {run.memory:9.1f}" for run in runs)
                same = output(commands[0], path) == output(commands[1], path)
                print(f"{name:16} {word:6} {runs[0].status:6}", *cells, "" if same else " the texts differ", flush=True)


if __name__ == "__main__":
    main()
