"""The built program, and what each script of this folder begins with."""
import argparse
import os
import subprocess
import sys
import threading

TOP = os.path.dirname(os.path.dirname(os.path.dirname(os.path.dirname(os.path.abspath(__file__)))))
PROGRAM = f"{TOP}/crates/acpicheck/out/acpicheck"
SECONDS = 60


class Program:
    """The program at a path."""

    def __init__(self, path):
        self.path = os.path.abspath(path)

    def run(self, words):
        """Its status, its lines and what it notes."""
        done = subprocess.run([self.path, *words], capture_output=True, timeout=SECONDS, close_fds=False)
        return done.returncode, done.stdout.decode("latin1").splitlines(), done.stderr.decode("latin1")


def words_of(description):
    """A parser of the words that all scripts have."""
    words = argparse.ArgumentParser(description=description, formatter_class=argparse.RawDescriptionHelpFormatter)
    words.add_argument("--program", default=PROGRAM)
    return words


def given_words(words):
    """The words that were given; without a program there is nothing to compare."""
    given = words.parse_args()
    if not os.path.isfile(given.program):
        sys.exit(f"there is no program {given.program}")
    return given


def run_deeply(main):
    """Runs a script's main and ends with its status: for each term of an evaluation a few functions call one another."""
    sys.setrecursionlimit(1_000_000)
    threading.stack_size(512 << 20)
    statuses = []
    worker = threading.Thread(target=lambda: statuses.append(main()))
    worker.start()
    worker.join()
    sys.exit(statuses[0] if statuses else 1)
