#!/usr/bin/env python3
"""What a gate takes, crate by crate: gate_times.py COMMAND..

    python3 bench/gate_times.py make test

Runs a command and looks every second at the processes that prove: told are, for each crate and for its tests, the
processor seconds and the greatest resident set, behind that the same of the checks of wrong bodies together, and the
command's wall time and status. What ends within a second of its start is not seen.
"""
import os
import re
import subprocess
import sys
import time

TICKS = os.sysconf("SC_CLK_TCK")
PAGE = os.sysconf("SC_PAGE_SIZE")


def looked_at():
    """Each process that proves: its number and start, its crate, and the seconds and bytes that it has by now. A copy that
    one made of itself has its own bytes, and its seconds are counted where it was made, once it has ended."""
    found = {it[0][0]: it for it in proving()}
    for process, parent, what, seconds, held in found.values():
        yield process, what, 0 if parent in found else seconds, held


def proving():
    for pid in filter(str.isdigit, os.listdir("/proc")):
        try:
            with open(f"/proc/{pid}/cmdline", "rb") as it:
                words = it.read().decode(errors="replace").split("\0")
            if not words[0].endswith("/rattle") or "--crate-name" not in words:
                continue
            with open(f"/proc/{pid}/stat", encoding="ascii", errors="replace") as it:
                fields = it.read().rpartition(")")[2].split()
            room = os.readlink(f"/proc/{pid}/cwd")
        except OSError:
            continue
        crate = words[words.index("--crate-name") + 1]
        # (its own time, and that of copies of it that have ended)
        seconds = sum(map(int, fields[11:15])) / TICKS
        is_edit = re.search(r"/(rt-edit|edits|wrong)-", room)
        what = "wrong bodies" if is_edit else f"{crate}, tests" if "--test" in words else crate
        yield (int(pid), fields[19]), int(fields[1]), what, seconds, int(fields[21]) * PAGE


def main(words):
    if not words:
        print(__doc__, end="", file=sys.stderr)
        return 2
    begun, found = time.monotonic(), {}
    ran = subprocess.Popen(words)
    while ran.poll() is None:
        for process, what, seconds, held in looked_at():
            _, _, most = found.get(process, ("", 0, 0))
            found[process] = (what, seconds, max(most, held))
        time.sleep(1)
    totals = {}
    for what, seconds, held in found.values():
        before = totals.get(what, (0, 0))
        totals[what] = (before[0] + seconds, max(before[1], held))
    print("| crate | s | GiB |\n|---|---|---|")
    for what, (seconds, held) in totals.items():
        print(f"| {what} | {seconds:.0f} | {held / (1 << 30):.1f} |")
    proofs = sum(seconds for what, (seconds, _) in totals.items() if what != "wrong bodies")
    print(f"{proofs:.0f} processor seconds of proofs, {time.monotonic() - begun:.0f} s of wall time, status {ran.returncode}")
    return ran.returncode


if __name__ == "__main__":
    sys.exit(main(sys.argv[1:]))
