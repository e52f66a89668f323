#!/usr/bin/env python3
"""Runs `rt ci --anew` at the top of the repository, and prints each crate's share of it in seconds of processor time.

    tools/shares.py [ARGUMENTS OF rt ci, in place of --anew]

The table has a row for each crate: its proof, that of its tests, and its must-fail edits together with the proof that these
begin with; then the whole, and how long the run took. It looks at the processes a few times a second (Linux's /proc), so what
a process did in its last moment is missed. Meant for a machine on which nothing else runs; the gate does not run it.
"""
import collections
import os
import re
import subprocess
import sys
import threading
import time

TOP = os.path.dirname(os.path.dirname(os.path.abspath(__file__)))
TICKS = os.sysconf("SC_CLK_TCK")
KINDS = ("proof", "tests", "edits")


def read(path):
    with open(path, "rb") as file:
        return file.read().decode(errors="replace")


def look(seen):
    """Notes the processor time of each process that checks or builds a crate."""
    for process in filter(str.isdigit, os.listdir("/proc")):
        try:
            words = read(f"/proc/{process}/cmdline").split("\0")
            named = re.search(r"--crate-name (\w+)", " ".join(words))
            folder = os.readlink(f"/proc/{process}/cwd")
            fields = read(f"/proc/{process}/stat").rpartition(") ")[2].split()
        except OSError:
            continue
        if not named or not words[0].endswith("rattle"):
            continue
        tries = "/rt-edit" in folder
        if not tries and not folder.startswith(TOP) and "/rt-pro" not in " ".join(words):
            continue
        kind = "edits" if tries else "tests" if "--test" in words else "proof"
        seen[process, fields[19]] = named[1], kind, (int(fields[11]) + int(fields[12])) / TICKS


def watch(seen, ended):
    while not ended.wait(0.25):
        look(seen)


def table(seen, began):
    """Prints the shares that were seen."""
    shares = collections.defaultdict(collections.Counter)
    for crate, kind, seconds in seen.values():
        shares[crate][kind] += seconds
    print("\n| Crate | Proof | Tests | Edits | All |\n|---|---|---|---|---|")
    for crate, own in sorted(shares.items(), key=lambda it: -it[1].total()):
        print(f"| `{crate}` |", " | ".join(f"{own[kind]:.0f}" for kind in KINDS), f"| {own.total():.0f} |")
    whole = [sum(own[kind] for own in shares.values()) for kind in KINDS]
    print("| all |", " | ".join(f"{it:.0f}" for it in whole), f"| {sum(whole):.0f} |")
    minutes, seconds = divmod(round(time.time() - began), 60)
    print(f"\nIt took {minutes} minutes {seconds} seconds on {len(os.sched_getaffinity(0))} cores.")


def main():
    seen, ended, began = {}, threading.Event(), time.time()
    watcher = threading.Thread(target=watch, args=(seen, ended))
    watcher.start()
    try:
        status = subprocess.run(["rt", "ci", *(sys.argv[1:] or ["--anew"])], cwd=TOP, stdin=subprocess.DEVNULL).returncode
    finally:
        ended.set()
        watcher.join()
    table(seen, began)
    sys.exit(status)


if __name__ == "__main__":
    main()
