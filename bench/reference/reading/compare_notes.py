"""Compares what people are told on standard error. Of definitions that are refused, by `names` over sets of tables with
slips in their names: of a path that is defined twice both places, of a name that is missing which path it wants. Of paths
that are no method's, by `eval`: which path may be meant, or how far it leads."""
import os
import subprocess

import generate
import namespace
from faults import Fault

SECONDS = 30


def wanted_notes(files, counts):
    """The fault that the reference meets, with what is told of it: none where it says nothing of a definition."""
    try:
        namespace.Namespace(files)
    except Fault as fault:
        counts.faults[fault.number] += 1
        return [f"acpicheck: file{fault.places[0]}: {fault.note}"] if fault.note else None
    counts.faults["loaded"] += 1
    return []


def told_notes(path, folder, command, files):
    """The lines of standard error of a command."""
    names = [f"file{number}" for number in range(len(files))]
    for name, data in zip(names, files):
        with open(os.path.join(folder, name), "wb") as file:
            file.write(data)
    done = subprocess.run([path, *command, *names], stdout=subprocess.DEVNULL, stderr=subprocess.PIPE, cwd=folder,
                          timeout=SECONDS)
    return done.stderr.decode("latin1").splitlines()


def notes_input(rng):
    """A set of tables whose definitions slip more often than not."""
    return generate.Tables(rng, rng.choice((0.02, 0.05, 0.1, 0.2))).set_of_tables()


def compare_notes(program, counts, rng, cases):
    """What is told of definitions that are refused."""
    inputs = [notes_input(rng) for _ in range(cases)]
    started = [program.start(lambda folder, files=files: told_notes(program.path, folder, ["names"], files))
               for files in inputs]
    for files, run in zip(inputs, started):
        wanted, got = wanted_notes(files, counts), run.result()
        if wanted is None:
            continue
        counts.cases += 1
        counts.read.update("missing" if " wants " in line else "predefined" if "beginning" in line else "twice"
                           for line in wanted)
        if wanted != got:
            counts.tell("notes", files, wanted, got)


def printed_form(word):
    """The path as it is printed that a word may mean."""
    below = word.removeprefix("\\")
    return "\\" + ".".join(segment.upper().ljust(4, "_") for segment in below.split(".")) if below else "\\"


def wanted_of_path(there, word):
    """What is told of a path, of what stands at each that there is: nothing of a method's."""
    if word in there:
        return [] if there[word].startswith("method ") else [f"acpicheck: {word} is no method of a table: names shows what it is"]
    form = printed_form(word)
    if form != word and form in there:
        return [f"acpicheck: nothing has the path {word}; {form} is there"]
    parts = form.split(".")
    fronts = [".".join(parts[:count]) for count in range(len(parts) - 1, 0, -1)]
    front = next((it for it in fronts if it in there), "\\")
    return [f"acpicheck: nothing has the path {word}; of it {front} is there"]


def asked_path(rng, paths):
    """A path that there is, or one that somebody may write for it, or one that leads beyond it."""
    word = rng.choice(paths)
    for change in rng.sample(range(6), rng.randrange(4)):
        if change == 0:
            word = word.removeprefix("\\")
        elif change == 1:
            word = word.lower()
        elif change == 2:
            word = word.rstrip("_")
        elif change == 3:
            word = word.replace("_.", ".").replace("_.", ".")
        elif change == 4:
            word += "." + rng.choice(("_STA", "AAAA", "X", "toolong", ""))
        else:
            word = word[:-1] + rng.choice("AZ09_")
    return word


def compare_asked(program, counts, rng, cases):
    """What is told of paths that `eval` is asked for."""
    for _ in range(cases):
        files = generate.Tables(rng, 0.0).set_of_tables()
        try:
            space = namespace.Namespace(files)
        except Fault as fault:
            counts.faults[fault.number] += 1
            continue
        there = {namespace.printed(path): found.text for path, found in space.objects.items()}
        words = [asked_path(rng, list(there)) for _ in range(20)]
        words = [it for it in words if it and it[0] != "-"]
        started = [program.start(lambda folder, word=word: told_notes(program.path, folder, ["eval", "--plain", "0",
                                 "--method", word], files)) for word in words]
        for word, run in zip(words, started):
            wanted, got = wanted_of_path(there, word), run.result()
            if not wanted and word in there:
                continue
            counts.cases += 1
            counts.read.update("no method" if line.endswith("method") else "how far" if "; of it" in line else "near"
                               for line in wanted)
            if wanted != got:
                counts.tell("asked", [*files, word], wanted, got)
