#!/usr/bin/env python3
"""Makes large documents, runs `sts replay` on each beside Python's json.load, and prints seconds and peak memory.

Usage: bench/documents.py [FOLDER [PROGRAM]]    The documents are kept in FOLDER, else in a temporary folder that goes
away. PROGRAM, else what YARDSTICK names, is another program of the same words to measure beside it.
"""
import json
import os
import sys
import tempfile
from collections import deque

from beside import PROGRAM, build, measured, other_program

MOST = 16_777_216
JSON_LOAD = [sys.executable, "-c", "import json,sys; json.load(sys.stdin)"]


def compact(document):
    return json.dumps(document, separators=(",", ":"), sort_keys=True)


def scenario(**given):
    """One switch and two hosts, but for what is given."""
    return {"budget": 0, "controllers": [], "hosts": [[0, 1, 1], [0, 2, 2]], "invariants": [], "links": [],
            "max_events": 16384, "patience": 0, "script": [], "sts": 1, "switches": [[2, None, []]], "workers": 1} | given


def record(tag):
    """The 36 bytes of a packet from host 1 to host 2, in hexadecimal digits."""
    return "000000000001" "000000000002" "ffff" "00" "0800" "00" "06" "0000000a" "00000014" "03e8" "0050" + f"{tag:08x}" + "00"


def inject(host, tag):
    return [0, "inject", host, [1, 2, 65535, 0, 2048, 0, 6, 10, 20, 1000, 80], tag]


def lost_packets():
    """256 packets that are sent and lost: 512 entries."""
    entries = []
    for k in range(256):
        entries.append([0, 2 * k, "in", k])
        entries.append([0, 2 * k + 1, "pkt", 0, 1, k, record(k)])
    script = [inject(0, k) for k in range(256)]
    return compact({"end": "quiet", "entries": entries, "scenario": scenario(script=script), "sts": 1})


def packets_in_rings():
    """128 packets that presets send round four rings of 64 switches until the log is full: 16,384 entries."""
    size, most = 64, 16_384
    # A packet goes from one ring to the next with each switch: it comes in by the first port and goes out by the second.
    ways = {2: 3, 4: 5, 6: 7, 8: 1, 47: 1, 48: 3}
    links = [[s, port, (s + 1) % size, port + 1] for s in range(size) for port in (1, 3, 5, 7)]
    hosts = [[h // 2, 47 + h % 2, h + 1] for h in range(2 * size)]
    presets = [[[way] + [None] * 11, 100, [["output", out, 0]], 0, 0, 0, 0] for way, out in ways.items()]

    entries, waiting, put = [], deque(), {}

    def arrives(s, port, tag):
        item = put[s, port] = put.get((s, port), -1) + 1
        waiting.append((s, port, item, tag))

    for h, (s, port, _) in enumerate(hosts):
        entries.append([0, h, "in", h])
        arrives(s, port, h)
    while len(entries) < most:
        s, port, item, tag = waiting.popleft()
        entries.append([0, len(entries), "pkt", s, port, item, record(tag)])
        arrives((s + 1) % size, ways[port] + 1, tag)

    script = [inject(h, h) for h in range(2 * size)]
    rings = scenario(hosts=hosts, links=links, script=script, switches=[[48, None, presets]] * size)
    return compact({"end": "full", "entries": entries, "scenario": rings, "sts": 1})


def big_items():
    """16,384 entries, each an ECHO_REQUEST of 499 bytes: each is read, and the first is not legal."""
    echo = "010201f3" + "0" * 8 + "5a" * 491
    entries = [[0, k, "ctl", 0, k, echo] for k in range(16_384)]
    return compact({"end": "full", "entries": entries, "scenario": scenario(), "sts": 1})


def list_of(element):
    """A list of as many of these as a document may hold."""
    return "[" + ",".join([element] * ((MOST - 1) // (len(element) + 1))) + "]"


def documents():
    log = lost_packets()
    yield "lost packets", log
    yield "log and spaces", log + " " * (MOST - len(log))
    yield "packets in rings", packets_in_rings()
    yield "big items", big_items()
    yield "a million numbers", "[" + ",".join(str(10**14 + k) for k in range(1_048_575)) + "]"
    yield "deep lists", list_of("[" * 126 + "]" * 126)
    yield "small numbers", list_of("1")
    yield "small objects", list_of('{"a":1}')


def main():
    build()
    commands = {"sts": [PROGRAM, "replay"], "json": JSON_LOAD}
    beside = other_program(2)
    if beside:
        commands["other"] = [beside, "replay"]

    with tempfile.TemporaryDirectory() as scratch:
        folder = sys.argv[1] if len(sys.argv) > 1 else scratch
        os.makedirs(folder, exist_ok=True)
        heads = [f"{name + ' s':>9} {name + ' MiB':>9}" for name in commands]
        print(f"{'document':18} {'bytes':>10} {'status':>6}", *heads)
        for name, text in documents():
            path = os.path.join(folder, name.replace(" ", "_") + ".json")
            with open(path, "w", encoding="ascii") as file:
                file.write(text)
            runs = [measured(command, path) for command in commands.values()]
            cells = [f"{run.wall:9.3f} {run.memory:9.1f}" for run in runs]
            print(f"{name:18} {len(text):10} {runs[0].status:6}", *cells, flush=True)


if __name__ == "__main__":
    main()
