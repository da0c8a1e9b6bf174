#!/usr/bin/env python3
"""Tries the must-fail edits of each crate, many in one check: edits.py [CRATE [EDIT]].

    python3 bench/edits.py [CRATE [EDIT]]
    rt ci | python3 bench/edits.py after [MINUTES] [CRATE ..]

An edit, `crates/NAME/edits/*.edit` or `crates/NAME/further/*.edit`, turns the meaning of a function, and the check must
refuse it. Edits of different functions are laid in together, and one check of these functions says of each which goals of
its own were not proved, and which it lacks only since it calls one that is refused. An edit whose function has a goal of
its own refused is refused. One that inherited its refusal, or whose function was not reached, goes into another check
without those that it calls, and in the end alone; so does one of a constant, at first by a check of the functions that
name it, and one of a definition, by a check of the whole crate. Where the function's proof file answers goals that the
edit took away, it is refused if a goal is open there that the prover finds to be false, or if no answer lost what it
names.

It fails where an edit is still proved, where an old text does not stand just once, where it does not compile (what the
front end refused with others it reads again alone) or its definitions are not read, where it fell only by a name that
went, which a proof file cites (a goal that is open beside it might be proved by that answer under another name), and
where the prover met only a limit of its own, and gave no verdict.

What was refused is kept, in the folder acpicheck-edits of $XDG_CACHE_HOME or else in /var/tmp, by a checksum of all that
it stands on: the toolchain, the crate and those below, the edit and these scripts. With the word `after` the lines of
what ran before are read from standard input and printed, the last line counts its checks too, and libraries that the
gate has just built are used; crates that are named are tried, or else all. As soon as a line says that a crate is
proved, its edits are tried on what processors the gate leaves idle, and those of the rest when it has ended: in each
crate first one edit of each function, in one check, and when that is done for all crates what is left, where checks are
short first. With two processors or one the first check has none of those in further, whose time comes behind all others.
MINUTES behind the start no check of what is left is begun, nor a first one half an hour later (in the evaluators a
quarter), and what was not tried is told: on a slow machine the gate ends all the same, and the next one there goes on
from what is kept. The crates whose checks are long come first where three or more go on at once, else last. Nothing in
the work tree changes. With the word `clear` the libraries that an earlier gate left are removed, so that those that are
found later are of the gate that ran in between.
"""
import concurrent.futures
import glob
import os
import re
import shutil
import subprocess
import sys
import tempfile
import threading
import time

import edit_checks
import edit_kept
import edit_texts
import edit_trials
from edit_checks import REFUSED, UNSURE

TOP = os.path.dirname(os.path.dirname(os.path.abspath(__file__)))
COUNTS = re.compile(r"(\d+) passed, (\d+) failed\n?")
IS_PROVED = re.compile(r"rt: (\w+) proved\n?")
# Bytes free on the disk, below which what a crate's first check kept makes room for others.
ROOM = 20_000_000_000
# The evaluators, in whose cycles of calls a check of any function is one of all, and takes some minutes.
LONG = ("aml_direct", "aml_plain")
# With fewer processors than these, further edits come behind all others.
FEW = 3
# How many minutes later than others a crate's first check may still begin, and one of those that are long.
LATER, LATER_IF_LONG = 30, 15


def free_memory():
    with open("/proc/meminfo", encoding="ascii") as it:
        return 1024 * int(re.search(r"MemAvailable:\s+(\d+)", it.read())[1])


def cores():
    return len(os.sched_getaffinity(0))


def lanes(count):
    """How many crates are tried at once, and the jobs of each: 4 GB for a crate, and as much for all else."""
    at_once = max(1, min(cores(), count, (free_memory() - 4_000_000_000) // 4_000_000_000))
    jobs = os.environ.get("EDITS_JOBS", "")
    return at_once, int(jobs) if jobs.isdigit() else max(1, min(4, cores() // at_once))


class Edits:
    """The edits of a crate, as they are tried: what is told of them, and how many were refused and how many not."""

    def __init__(self, top, crates, crate, only, kept, after_gate):
        self.top, self.crates, self.crate, self.kept, self.after_gate = top, crates, crate, kept, after_gate
        self.told, self.passed, self.failed, self.edits, self.trial, self.place = [], 0, 0, [], None, None
        for file in edit_texts.edit_files(top, crate):
            name = os.path.basename(file).removesuffix(".edit")
            if not only or name == only:
                self.add(name, file)

    def add(self, name, file):
        """Reads an edit, and looks whether it was refused before."""
        try:
            edit = edit_texts.read_edit(self.top, self.crate, file)
            if any(it.name == name for it in self.edits):
                raise edit_texts.BadEdit("two edits have that name")
        except (edit_texts.BadEdit, OSError, ValueError) as why:
            self.told.append(f"edit {self.crate}/{name}: BAD EDIT: {why}")
            self.failed += 1
            return
        where = self.kept.where(edit) if self.kept else None
        if where is None:
            self.edits.append(edit)
        else:
            self.count(edit, REFUSED, f"{where} (kept)")

    def first(self, jobs, prefix=()):
        """Tries one edit of each function, where processors are few no further ones; whether any are left."""
        if not self.edits:
            return False
        self.place = tempfile.TemporaryDirectory(prefix="edits-")
        room = edit_checks.Room(self.top, self.place.name, self.crate, self.crates, self.after_gate, jobs, prefix)
        why = room.build_below()
        if why:
            self.told.append(f"edits of {self.crate}: NOT TRIED: the crate as it stands is not read, or a library below it is not built: {why}")
            self.failed += len(self.edits)
            return False
        self.trial = edit_trials.Trial(room, self.edits)
        self.trial.first(with_further=cores() >= FEW)
        self.keep()
        if shutil.disk_usage(room.folder).free < ROOM:
            shutil.rmtree(f"{room.folder}/out/incremental")
            os.makedirs(f"{room.folder}/out/incremental")
        return bool(self.trial.left)

    def rest(self, jobs, may_go_on):
        """Tries those that are left, and tells of those for which there is no more time."""
        self.trial.room.jobs, self.trial.room.prefix = jobs, edit_checks.prefix_of(())
        if not self.trial.rest(may_go_on):
            left = len(self.trial.left)
            self.told.append(f"edits of {self.crate}: {left} of {len(self.edits)} not tried, as the time for them is over: make edits CRATE={self.crate} does")

    def keep(self):
        """Keeps which were refused so far."""
        for edit in self.edits if self.kept else []:
            kind, text = self.trial.found.get(edit.name, (UNSURE, ""))
            if kind == REFUSED:
                self.kept.keep(edit, text)

    def end(self):
        """Counts and keeps what was found, and removes the room that it was found in."""
        if self.trial:
            left, room = {it.name for it in self.trial.left}, self.trial.room
            for edit in self.edits:
                if edit.name not in left:
                    self.count(edit, *self.trial.found.get(edit.name, (UNSURE, "nothing was said of it")))
            self.told.append(f"edits of {self.crate}: {len(self.edits) - len(left)} in {len(self.trial.batches)} checks of {self.trial.batches} edits, "
                             f"{room.seconds:.0f} processor seconds, {room.most / 1048576:.1f} GiB")
            self.keep()
        if self.place:
            self.place.cleanup()

    def count(self, edit, kind, text):
        """Counts what was found of an edit, and tells it."""
        self.told.append(f"edit {self.crate}/{edit.name}: {'refused: ' if kind == REFUSED else 'NOT REFUSED: '}{text}")
        self.passed, self.failed = self.passed + (kind == REFUSED), self.failed + (kind != REFUSED)


class Runs:
    """The crates whose edits are tried, one edit of each function at first, and how many edits passed and failed."""

    def __init__(self, edits_of, minutes):
        self.edits_of, self.lock, self.begun, self.left = edits_of, threading.Lock(), set(), []
        self.passed = self.failed = 0
        self.end = time.monotonic() + 60 * minutes

    def may_go_on(self, later=0):
        return time.monotonic() <= self.end + 60 * later

    def first(self, crate, jobs, prefix=(), least=0):
        """Tries one edit of each function of a crate, unless less memory is free or they were tried already."""
        with self.lock:
            if crate in self.begun or free_memory() < least:
                return
            self.begun.add(crate)
            if not self.may_go_on(LATER_IF_LONG if crate in LONG else LATER):
                print(f"edits of {crate}: not tried, as the time for them is over: make edits CRATE={crate} does", flush=True)
                return
        self.told(crate, lambda: self.try_first(self.edits_of(crate), jobs, prefix))

    def try_first(self, edits, jobs, prefix):
        if edits.first(jobs, prefix):
            with self.lock:
                self.left.append(edits)
        else:
            self.ended(edits)

    def rest(self, edits, jobs):
        """Tries the edits of a crate that are left."""

        def to_the_end():
            edits.rest(jobs, self.may_go_on)
            self.ended(edits)

        self.told(edits.crate, to_the_end)

    def ended(self, edits):
        edits.end()
        with self.lock:
            print("\n".join(edits.told), flush=True)
            self.passed, self.failed = self.passed + edits.passed, self.failed + edits.failed

    def told(self, crate, tries):
        """Has what went wrong with the trial itself told as a failure."""
        try:
            tries()
        except (OSError, ValueError, KeyError, IndexError, subprocess.SubprocessError, shutil.Error) as why:
            with self.lock:
                print(f"edits of {crate}: NOT TRIED: {why!r}", flush=True)
                self.failed += 1


def can_begin_early(top):
    """Whether what a gate builds stays: in a checkout where checks kept something, the gate gives that back as it ends."""
    aside = f"{top}/.git/rt-aside"
    return os.path.isdir(aside) and not glob.glob(f"{aside}/*/rlib") and not glob.glob(f"{aside}/*/incremental")


def counts_of(lines, top, chosen, runs):
    """Prints the lines of what ran before, and returns how many passed and failed. Each crate's edits are tried as it is
    proved, on half of the processors, behind all else that runs there; those that go on are returned too."""
    last, begun = "", []
    pool = concurrent.futures.ThreadPoolExecutor(max(1, cores() // 2))
    for last in lines:
        print(last, end="", flush=True)
        proved = IS_PROVED.fullmatch(last)
        if proved and proved[1] in chosen and (proved[1] not in LONG or cores() > 2) and can_begin_early(top):
            begun.append(pool.submit(runs.first, proved[1], 1, ("nice", "-n", "19"), 6_000_000_000))
    pool.shutdown(wait=False, cancel_futures=True)
    counts = COUNTS.fullmatch(last)
    return (int(counts[1]), int(counts[2])) if counts else (0, 1), [it for it in begun if not it.cancelled()]


def clear(top):
    """Removes the libraries that an earlier gate left, which have no stamp and serve no other command."""
    for crate in edit_texts.crates_of(top):
        out = f"{top}/crates/{crate}/out/rlib"
        if os.path.isdir(out) and not os.path.exists(f"{out}/stamp"):
            shutil.rmtree(out)


def main(words, top=TOP, kept=None):
    crates = edit_texts.crates_of(top)
    if words == ["clear"]:
        clear(top)
        return 0
    after = words[:1] == ["after"]
    minutes = float(words.pop(1)) if after and words[1:] and words[1].isdigit() else float("inf")
    wanted = words[1:] if after else words[:1]
    only_edit = "" if after else "".join(words[1:2])
    if not after and len(words) > 2 or not set(wanted) <= set(crates):
        print(__doc__, end="", file=sys.stderr)
        return 2
    chosen = [it for it in crates if (not wanted or it in wanted) and edit_texts.edit_files(top, it)]
    kept = None if only_edit else kept or edit_kept.Kept(top, crates)
    runs = Runs(lambda crate: Edits(top, crates, crate, only_edit, kept, after), minutes)
    (passed, failed), early = counts_of(sys.stdin, top, chosen, runs) if after else ((0, 0), [])
    before = passed + failed
    if failed:
        concurrent.futures.wait(early)
        print("edits: no more are tried, since what ran before failed")
        print(f"{passed + runs.passed} passed, {failed + runs.failed} failed")
        return 1
    at_once, jobs = lanes(len(chosen) or 1)
    if after:
        import edits_test

        found = edits_test.differences_once(kept)
        print("\n".join(f"edits_test: {it}" for it in found or ["passed"]), flush=True)
        passed, failed = passed + (not found), failed + bool(found)
    with concurrent.futures.ThreadPoolExecutor(at_once) as pool:
        # those with the most edits first; the long ones before them, or where few go on at once behind all
        for it in sorted(chosen, key=lambda it: ((it in LONG) == (at_once < 3), -len(edit_texts.edit_files(top, it)))):
            pool.submit(runs.first, it, jobs)
    concurrent.futures.wait(early)
    with concurrent.futures.ThreadPoolExecutor(at_once) as pool:
        # those whose checks are short first, so that as many as may be are tried
        for it in sorted(runs.left, key=lambda it: it.trial.room.seconds):
            pool.submit(runs.rest, it, jobs)
    passed, failed = passed + runs.passed, failed + runs.failed
    if before == passed + failed:
        print("edits: there is none")
        failed += 1
    print(f"{passed} passed, {failed} failed")
    return 1 if failed else 0


if __name__ == "__main__":
    sys.exit(main(sys.argv[1:]))
