#!/usr/bin/env python3
"""Runs the toolchain's `rt` with these words, and lets it ask once what it asks of a crate again and again.

    python3 bench/kit.py ci
    cd crates/NAME && python3 ../../bench/kit.py check

Some kits' `rt` walks every chain of libraries below a crate, and not every library: for the sum of the texts that a
library is made from (`stamp`), and for the list of what lies below (`below`). This repository has layers enough that
there are some 960,000 such chains below the listing, and reading the same files once for each takes hours, of which no
proof has any. So within one call of `stamp` each library's sum is made once, and `below`, which never changes once a
crate is read, is kept. Nothing else is touched: what is checked, in which order, and what is said of it is the kit's
own. Where the kit is built otherwise, `rt` runs as it is.
"""
import functools
import importlib.machinery
import importlib.util
import os
import shutil
import sys
import threading

sys.dont_write_bytecode = True
INSIDE = threading.local()


def loaded(path):
    """The kit's `rt` as a module, or None where it is no script of Python's."""
    with open(path, "rb") as it:
        if b"python" not in it.readline():
            return None
    loader = importlib.machinery.SourceFileLoader("kit_rt", os.path.realpath(path))
    module = importlib.util.module_from_spec(importlib.util.spec_from_loader("kit_rt", loader))
    sys.modules["kit_rt"] = module
    loader.exec_module(module)
    return module


def once_a_call(stamp):
    """The sum of a crate, those of the libraries below made once in each outermost call."""

    @functools.wraps(stamp)
    def made(crate):
        known = getattr(INSIDE, "known", None)
        if known is None:
            INSIDE.known = {}
            try:
                return stamp(crate)
            finally:
                INSIDE.known = None
        if crate.folder not in known:
            known[crate.folder] = stamp(crate)
        return known[crate.folder]

    return made


def once_a_crate(below):
    """The libraries below a crate, listed once for the same list of its own."""

    @functools.wraps(below)
    def made(crate):
        kept = vars(crate).get("kept_below")
        if kept is None or kept[0] != crate.deps:
            kept = vars(crate)["kept_below"] = (list(crate.deps), below(crate))
        return list(kept[1])

    return made


def main(words):
    path = shutil.which("rt")
    if path is None:
        print("kit: there is no rt on the path", file=sys.stderr)
        return 2
    kit = loaded(path)
    crate = getattr(getattr(kit, "rtlib", None), "Crate", None)
    if crate is None or not all(callable(getattr(crate, it, None)) for it in ("stamp", "below")):
        os.execv(path, [path, *words])
    crate.stamp, crate.below = once_a_call(crate.stamp), once_a_crate(crate.below)
    return kit.main(words)


if __name__ == "__main__":
    sys.exit(main(sys.argv[1:]))
