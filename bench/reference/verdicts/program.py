"""The built program and its verdicts, and what each script of this folder begins with."""
import argparse
import os
import subprocess
import sys
import threading

TOP = os.path.dirname(os.path.dirname(os.path.dirname(os.path.dirname(os.path.abspath(__file__)))))
PROGRAM = f"{TOP}/crates/acpicheck/out/acpicheck"
SECONDS = 120
FOREVER = 1e9


class Program:
    """The program at a path, which is run in a folder of its own."""

    def __init__(self, path, folder):
        self.path = os.path.abspath(path)
        self.folder = folder

    def lines(self, tables, signatures=""):
        """What it prints of some tables."""
        files = []
        datas = [("kinds.txt", signatures.encode())] + [(f"table{i}.dat", table) for i, table in enumerate(tables)]
        for name, data in datas:
            files.append(os.path.join(self.folder, name))
            with open(files[-1], "wb") as out:
                out.write(data)
        run = subprocess.run([self.path, "verify", "--kinds", *files], capture_output=True, timeout=SECONDS)
        if run.returncode not in (0, 3):
            raise RuntimeError(f"status {run.returncode}: {run.stdout[-300:]} {run.stderr[-300:]}")
        return run.stdout.decode("latin1").splitlines()


def words_of(description):
    """A parser of the words that all scripts have."""
    words = argparse.ArgumentParser(description=description, formatter_class=argparse.RawDescriptionHelpFormatter)
    words.add_argument("--program", default=PROGRAM)
    return words


def given_words(words):
    """The words that were given; without a program there is nothing to compare."""
    given = words.parse_args()
    if not os.path.isfile(given.program):
        sys.exit(f"there is no program {given.program}")
    return given


def run_deeply(main):
    """Runs a script's main, in which calls go deep where bodies do, and ends with its status."""
    sys.setrecursionlimit(200_000)
    threading.stack_size(512 << 20)
    statuses = []
    worker = threading.Thread(target=lambda: statuses.append(main()))
    worker.start()
    worker.join()
    sys.exit(statuses[0] if statuses else 1)
