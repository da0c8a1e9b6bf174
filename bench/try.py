#!/usr/bin/env python3
"""Builds acpicheck from its sources without a proof and runs it, in about a minute.

    python3 bench/try.py                    the example: its names, its verdicts, and one evaluation
    python3 bench/try.py names my.dat       any words of the program; each that names a file takes that file

`rt try` builds the program with checks of its own and gives it copies of the files. It says on standard error that
nothing is proved; with words of your own the status is the program's.
"""
import os
import shutil
import subprocess
import sys
import tempfile

TOP = os.path.dirname(os.path.dirname(os.path.abspath(__file__)))
EXAMPLE = f"{TOP}/examples"
TMP = "\\_SB_.PCI0.SENS._TMP"
RUNS = [
    ["names", f"{EXAMPLE}/board.dat"],
    ["verify", f"{EXAMPLE}/board.dat"],
    ["eval", "--method", TMP, "--regs", f"{EXAMPLE}/board.regs", f"{EXAMPLE}/board.dat"],
]


def shown(words):
    """The words as a shell takes them, files by their last names."""
    short = [os.path.basename(word) if os.path.isfile(word) else word for word in words]
    return " ".join(f"'{word}'" if "\\" in word else word for word in short)


def copied(words, data):
    """The words with each file under a name of its own, which `data` then has with the file's path."""
    names = []
    for word in words:
        if not os.path.isfile(word):
            names.append(word)
            continue
        name = os.path.basename(word)
        while data.get(name, os.path.abspath(word)) != os.path.abspath(word):
            name = f"other-{name}"
        data[name] = os.path.abspath(word)
        names.append(name)
    return names


def flags_of(data):
    return [flag for name, path in data.items() for flag in ("--data", f"{name}={path}")]


def rt_try(words, **more):
    return subprocess.run([sys.executable, f"{TOP}/bench/kit.py", "try", *words], cwd=f"{TOP}/crates/acpicheck", **more)


def try_words(words):
    """Runs the program on these words; what it writes and its status are those of `rt try`."""
    data = {}
    names = copied(words, data)
    return rt_try([*flags_of(data), "--", *names]).returncode


def try_example():
    """Builds the program once and runs it on the example."""
    data = {}
    with tempfile.TemporaryDirectory() as room:
        for number, words in enumerate(RUNS):
            open(f"{room}/{number}", "w").close()
            with open(f"{room}/{number}.args", "w") as it:
                it.writelines(f"{name}\n" for name in copied(words, data))
        print("acpicheck is built without proofs, which takes about a minute ..", flush=True)
        ran = rt_try([*flags_of(data), "--cases", room], stdout=subprocess.PIPE, stderr=subprocess.PIPE, text=True)
    if ran.returncode != 0:
        print(ran.stderr, file=sys.stderr)
    for line in ran.stdout.splitlines():
        if line.startswith("== "):
            print(f"\n$ acpicheck {shown(RUNS[int(line[3:])])}")
        elif not line.startswith(("case=", "cases=")):
            print(line)
    return ran.returncode


def main():
    if shutil.which("rt") is None:
        sys.exit("make try: the Rattle kit's command `rt` is not on the path")
    words = sys.argv[1:]
    sys.exit(try_words(words) if words else try_example())


if __name__ == "__main__":
    main()
