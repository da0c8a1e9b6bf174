#!/usr/bin/env python3
"""Which functions of a crate take long to prove: proof_times.py CRATE [--test] [PATH ..].

    python3 bench/proof_times.py acpi_words
    python3 bench/proof_times.py acpi_words words::command

The crate is proved anew in a folder of its own, with its tests where that is asked for, over the libraries that
`make test` or `rt check` left; with PATHS the functions alone that they name, and those that they call. Told are the
seconds of those that took longest, by the wall's clock. A function has with it what was read before it and by none
before: the start of the check, specifications, lemmas and laws. So look at one that stands out alone, by its PATH, before
its goals are blamed. A function of a cycle of calls has the whole cycle.

A goal without an answer is tried by one tactic after another. One that only the last of them closes takes as long as all
of them together, a minute at worst, where an answer that says what the goal follows from takes less than a second.
"""
import subprocess
import sys
import tempfile
import time

import edit_checks
import edit_texts
import edits as script

MOST_TOLD = 20


def proof_times(room, words):
    """The lines of a check but for those of its progress, and the seconds of each function as its proof ended."""
    words = [*room.words(), "--jobs", "1", "--progress", *words]
    ran = subprocess.Popen(words, cwd=room.folder, stdout=subprocess.PIPE, stderr=subprocess.STDOUT, text=True)
    lines, found, last = [], [], time.monotonic()
    for line in ran.stdout:
        if line.startswith("checked "):
            now = time.monotonic()
            found.append((now - last, line.removeprefix("checked ").rpartition(",")[0]))
            last = now
        else:
            lines.append(line.rstrip())
    return lines, found, ran.wait()


def main(words):
    tests, words = "--test" in words, [it for it in words if it != "--test"]
    crates = edit_texts.crates_of(script.TOP)
    if not words or words[0] not in crates:
        print(__doc__, end="", file=sys.stderr)
        return 2
    crate, *paths = words
    with tempfile.TemporaryDirectory(prefix="proof-times-") as place:
        room = edit_checks.Room(script.TOP, place, crate, crates, True, 1)
        why = room.build_below()
        if why:
            print(why)
            return 1
        only = [word for path in paths for word in ("--only", path)]
        lines, found, status = proof_times(room, [*(["--test"] if tests else []), *only])
    for seconds, name in sorted(found, reverse=True)[:MOST_TOLD]:
        print(f"{seconds:7.1f} s  {name}")
    print(f"{sum(seconds for seconds, _ in found):7.1f} s  {len(found)} functions")
    if status:
        print("\n".join(lines[-5:]))
    return status


if __name__ == "__main__":
    sys.exit(main(sys.argv[1:]))
