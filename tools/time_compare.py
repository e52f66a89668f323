#!/usr/bin/env python3
"""Times the program `compare` from end to end, on the largest sheets that there are.

It builds the program, writes the sheets, runs each many times, and prints for each what `compare` says in its first line, and how
many milliseconds a run takes from start to exit: the least and the median. The start of a process is among them, so the empty
sheet stands first, for comparison. The gate does not run it. An argument says how many times each sheet is run.
"""
import statistics
import subprocess
import sys
import time
from pathlib import Path

PROGRAM = Path(__file__).resolve().parent.parent / "crates" / "compare"


def sheet(names, left, right):
    lines = [f"cues {len(names)}", *names, f"left {len(left)}", *left, f"right {len(right)}", *right]
    return "".join(line + "\n" for line in lines)


def names(count):
    """Names of sixteen bytes, as long as names may be."""
    return [f"LONG-ENOUGH---{cue:02}" for cue in range(count)]


def counted(*times):
    """That the first cues stand so many times at least, as often as a book has room for rules."""
    rules = [f"existence {name} {n}" for name, n in zip(names(len(times)), times)]
    return [rules[i % len(rules)] for i in range(16)]


def longest_rules():
    cues = names(32)
    return [f"not-chain-succession {cues[i]} {cues[31 - i]}" for i in range(16)]


SHEETS = {
    "nothing at all": "",
    "three cues, a rule a side": sheet(["LOAD", "HOLD", "FLY"], ["response LOAD HOLD"], ["chain-response LOAD HOLD"]),
    "the most bytes of a sheet in form": sheet(names(32), longest_rules(), longest_rules()),
    "16,384 bytes, not in form": "A" * 16_384,
    "2,025 positions, three cues": sheet(names(3), counted(14, 14, 8)[:3], counted(14, 14, 8)[:3]),
    "2,025 positions, 32 cues, 16 rules a side": sheet(names(32), counted(14, 14, 8), counted(14, 14, 8)),
    "more than 2,048, 32 cues, 16 rules a side": sheet(names(32), counted(14, 14, 9), counted(14, 14, 9)),
    "a show of 35 cues, 32 cues, 16 rules a side": sheet(names(32), counted(14, 14, 8), counted(14, 14, 7)),
}


def run(text):
    start = time.perf_counter()
    done = subprocess.run([PROGRAM / "out" / "compare"], input=text.encode(), stdout=subprocess.PIPE, check=True)
    return (time.perf_counter() - start) * 1000, done.stdout.decode()


def main():
    times = int(sys.argv[1]) if len(sys.argv) > 1 else 50
    subprocess.run(["rt", "run"], cwd=PROGRAM, stdin=subprocess.DEVNULL, stdout=subprocess.DEVNULL, stderr=subprocess.DEVNULL, check=True)
    print(f"{times} runs of each sheet; milliseconds, least and median")
    for title, text in SHEETS.items():
        runs = [run(text) for _ in range(times)]
        took = [milliseconds for milliseconds, _ in runs]
        said = runs[0][1].splitlines()[0]
        print(f"{min(took):8.2f} {statistics.median(took):8.2f}  {title}: {len(text)} bytes, {said}")


if __name__ == "__main__":
    main()
