"""Checks of a crate with edits laid in: the room they run in, and what the prover's lines say of each edit.

A check here proves over a room of its own, a copy of the crate's files. Each check of one crate begins with what those
before it proved there. The libraries below are those that the gate built just before, where it did, and else those that
`rt check` builds over what the checkout keeps. The commands run behind the words of EDITS_PREFIX, where it is set.
"""
import os
import re
import shlex
import shutil
import signal
import subprocess
import sys
import threading

import edit_texts

HERE = os.path.dirname(os.path.abspath(__file__))
PARTS = ("src", "specs", "proofs")
TOLD = re.compile(r"(?:fn|cycle) (\S+): (.*)")
AT = re.compile(r"(?:note: )?(?:\./)?((?:src|specs|proofs)/\S+?):(\d+):\d+: (.*)")
# What a note says of an open goal, with the goal's name, and of one that the prover finds to be false.
IS_OPEN = re.compile(r"note: .*?: it is not proved that .*\(`([^`]+)`\)")
IS_FALSE = re.compile(IS_OPEN.pattern + "; the facts known there allow values at which this goal is false")
# What is said where a name went that a proof file cites: it shows nothing of the contract. (A goal that is shown may have
# names that its reader could not write, which is told in the same words.)
A_NAME = re.compile(r"has no field|is not in scope(?! here, so what is shown)|has no `|was not admitted|cannot find")
# The prover's own limits, which it meets wherever it checks the same.
LIMIT = re.compile(r"antt ran out of (stack|the (steps|memory) that)|(outgrew the memory limit|stopped at the step limit) \(")

REFUSED, PROVED, UNSURE = "refused", "proved", "unsure"


def kit():
    """The folder of the toolchain."""
    ran = subprocess.run(["rt", "doc"], capture_output=True, text=True, check=True)
    return os.path.dirname(ran.stdout.strip())


def prefix_of(words):
    """The words behind which a command runs: these, and those of EDITS_PREFIX."""
    return [*words, *shlex.split(os.environ.get("EDITS_PREFIX", ""))]


def linked(folder, to):
    """Copies what checks kept: what was proved by links, since a check replaces such a file and changes none."""

    def copy(one, other):
        try:
            return os.link(one, other)
        except OSError:
            return shutil.copy2(one, other)

    shutil.copytree(folder, to, symlinks=True, copy_function=lambda one, other: copy(one, other) if
                    one.endswith((".oantt", ".a")) else shutil.copy2(one, other))


def heads_of(name):
    """How the names of goals and answers begin that are of a function, in a cycle of calls: by its path or the end of it."""
    parts = name.split("::")[1:]
    return tuple("::".join(parts[at:]) + "-" for at in range(len(parts)))


def lines_of(text):
    """The lines of a check, the first and the second of an error that is told over more than one as one."""
    lines = text.split("\n")
    return [f"{line} {behind.strip()}" if ": error: " in line and behind.startswith("  ") else line
            for line, behind in zip(lines, [*lines[1:], ""])]


class Said:
    """What a check said, by its lines."""

    def __init__(self, status, text):
        self.status, self.lines = status, lines_of(text)
        self.states = {it[1]: it[2] for it in map(TOLD.fullmatch, self.lines) if it}
        self.places = [(it[1], int(it[2]) - 1, it[0]) for it in map(AT.match, self.lines) if it]
        self.ended = status in (0, 1) and any(re.match(r"only=\d|logic=(not-)?proved", it) for it in self.lines[-5:])

    def compile_errors(self):
        """What the front end refuses: the path and the line, from 0, and what it says."""
        return [it for it in self.places if it[0].startswith("src/") and re.search(r": error\[[\w-]+\]", it[2])]

    def finds_no_function(self):
        """Whether it was asked for a function that it knows by no such path, and so said nothing else."""
        return self.status == 2 and any(re.search("has no function|several functions are named", it) for it in self.lines)

    def goals(self, name):
        """The goals of its own that a function's line names; of a cycle of calls those that bear the function's name."""
        # (what follows these words is of another function of the cycle)
        state = self.states.get(name, "").partition(", of this cycle of calls")[0]
        found = re.search(r"did not prove (.*?)(?:; |$)", state)
        goals = re.findall(r"`([^`]+)`", found[1]) if found else []
        return [it for it in goals if "/+" not in state or it.startswith(heads_of(name))]

    def answers(self, name):
        """The errors in the proof files of a function alone, or of a cycle of calls at an answer that bears its name."""
        folder = f"proofs/{name.partition('::')[2].replace('::', '/')}/"
        found = []
        for path, _, line in self.places:
            answer = re.search(r": error: `([^`]+)`", line)
            if path.startswith(folder) and ": error" in line:
                found.append(line)
            elif "/+" in path and answer and answer[1].startswith(heads_of(name)):
                found.append(line)
        return found

    def callees(self, name):
        """The functions whose refusal a function inherits, down to those that have goals of their own."""
        found, left = set(), [name]
        while left:
            here = left.pop()
            told = re.findall(r"it (?:calls|passes the block) (.*?), which", self.states.get(here, ""))
            for it in re.findall(r"`([^`]+)`", " ".join(told)):
                if it not in found:
                    found.add(it)
                    left.append(it)
        return found

    def of_function(self, name):
        """What this says of a function: that it is proved, that it is refused by a goal of its own, and at which, or that nothing is sure."""
        state = self.states.get(name, "")
        if re.match(r"proved\b", state):
            return PROVED, name
        goals, answers = self.goals(name), [it for it in self.answers(name) if not A_NAME.search(it)]
        if goals:
            return REFUSED, f"{name} at {', '.join(goals)}"
        if answers:
            return REFUSED, f"{name} at {AT.match(answers[0])[3].removeprefix('error: ')[:120]}"
        return UNSURE, f"{name}: {state[:160] or 'nothing was said of it'}"

    def lost(self, name):
        """What is said of a function's answers to goals that are not there, or that cite what is not."""
        return [it for it in self.answers(name) if A_NAME.search(it)]

    def open_goals(self, path, function, names):
        """The goals of which a note tells, at a place in a function, that they are not proved: no line names them where an
        answer in the function's proof file fails. Where an answer lost what it names it might have proved one of them, so
        those count alone that are told to be false."""
        told = [line for at, number, line in self.places if at == path and function.first <= number <= function.last]
        notes = map((IS_FALSE if any(map(self.lost, names)) else IS_OPEN).match, told)
        return list(dict.fromkeys(it[1] for it in notes if it))

    def of_edit(self, sources, edit):
        """What this says of an edit by its own functions, or by those that name the constants that it changes."""
        told = []
        for path, function in sources.reached_at(edit):
            names = edit_texts.names_of(sources.crate, function, self.states)
            said = [self.of_function(it) for it in names] or [(UNSURE, f"the check names no function {function.name}")]
            goals = self.open_goals(path, function, names)
            if goals and all(kind == UNSURE for kind, _ in said):
                said = [(REFUSED, f"{sources.crate}::{edit_texts.path_of(function)} at {', '.join(goals)}")]
            told += said
        for kind in (REFUSED, UNSURE, PROVED):
            found = [text for it, text in told if it == kind]
            if found:
                return kind, found[0]
        return UNSURE, "it stands in no function"


class Room:
    """A folder in which one crate is checked with edits laid in."""

    def __init__(self, top, room, crate, crates, after_gate, jobs, prefix=()):
        self.top, self.room, self.crate, self.jobs, self.kit = top, room, crate, jobs, kit()
        self.prefix = prefix_of(prefix)
        self.crates, self.seconds, self.checks, self.most = crates, 0.0, 0, 0
        self.folder = f"{room}/crates/{crate}"
        self.sources = edit_texts.Sources(top, crate)
        below = edit_texts.below(crates, crate)
        # what the gate built has no stamp, which rt check and rt lib write
        is_gates = lambda it: os.path.isdir(self.rlib(top, it)) and not os.path.exists(f"{top}/crates/{it}/out/rlib/stamp")
        self.home = top if after_gate and all(map(is_gates, below)) else room
        os.makedirs(f"{room}/.git")
        if os.path.isfile(f"{top}/HANDLES"):
            shutil.copy2(f"{top}/HANDLES", room)
        # of crates.txt the lines of the crates that are here
        with open(f"{top}/crates.txt", encoding="utf-8") as it:
            lines = [line for line in it if line.partition(":")[0].split()[:1] in ([name] for name in [*below, crate])]
        with open(f"{room}/crates.txt", "w", encoding="utf-8") as it:
            it.writelines(lines)
        for it in [crate] if self.home == top else [*below, crate]:
            for part in PARTS:
                if os.path.isdir(f"{top}/crates/{it}/{part}"):
                    shutil.copytree(f"{top}/crates/{it}/{part}", f"{room}/crates/{it}/{part}")
            for part in ("rlib", "incremental"):
                kept = f"{top}/crates/{it}/out/{part}"
                if os.path.isdir(kept) and (part == "incremental" or os.path.exists(f"{kept}/stamp")):
                    linked(kept, f"{room}/crates/{it}/out/{part}")
        os.makedirs(f"{self.folder}/out/incremental", exist_ok=True)

    def rlib(self, home, crate):
        return f"{home}/crates/{crate}/out/rlib/{crate}.rlib"

    def build_below(self):
        """Has rt build the libraries below, where the gate has not, and returns what it said if it could not."""
        if self.home == self.top:
            return ""
        status, text = self.run([sys.executable, f"{HERE}/kit.py", "check", "--only", ""])
        return text[-600:] or "it failed" if status else ""

    def words(self):
        root = "src/main.rt" if os.path.isfile(f"{self.folder}/src/main.rt") else "src/lib.rt"
        own = [it for it in self.crates[self.crate] if it in self.crates]
        of_kit = ["std", *[it for it in self.crates[self.crate] if it not in self.crates and "=" not in it]]
        words = [f"{self.kit}/bin/rattle", "check", "--crate-name", self.crate, root]
        for it in of_kit:
            words += ["--extern", f"{it}={self.kit}/rlibs/{it}.rlib"]
        words += ["-L", f"dependency={self.kit}/rlibs"]
        for it in own:
            words += ["--extern", f"{it}={self.rlib(self.home, it)}"]
        for it in edit_texts.below(self.crates, self.crate):
            words += ["-L", f"dependency={os.path.dirname(self.rlib(self.home, it))}"]
        words += ["--antt-project", f"{self.kit}/rattle/logic/antt-project.json", "--logic-built", f"{self.kit}/logic_built"]
        return [*words, "--incremental", "out/incremental"]

    def run(self, words, proves=True):
        """Runs a command in the crate's folder, and counts its processor time."""
        words = [*(self.prefix if proves else []), *words]
        how = {"stdin": subprocess.DEVNULL, "stdout": subprocess.PIPE, "stderr": subprocess.STDOUT}
        ran = subprocess.Popen(words, cwd=self.folder, text=True, errors="replace", **how)
        text = []
        reader = threading.Thread(target=lambda: text.append(ran.stdout.read()))
        reader.start()
        _, status, used = os.wait4(ran.pid, 0)
        reader.join()
        ran.returncode = os.waitstatus_to_exitcode(status)
        self.seconds += used.ru_utime + used.ru_stime
        self.most, self.checks = max(self.most, used.ru_maxrss), self.checks + 1
        return ran.returncode, text[0]

    def check(self, edits, only=None):
        """What the check says of the crate with these edits, of all its functions or of those that the paths name."""
        changed = self.sources.with_edits(edits)
        for path, text in changed.items():
            with open(f"{self.folder}/{path}", "w", encoding="utf-8", newline="") as it:
                it.write(text)
        only = [word for path in only or [] for word in ("--only", path)]
        for jobs in (self.jobs, 1):
            status, text = self.run([*self.words(), "--jobs", str(jobs), *only], proves=only != ["--only", ""])
            if status != -signal.SIGKILL and status != 128 + signal.SIGKILL:
                # (else most likely for memory)
                break
        for path in changed:
            shutil.copyfile(f"{self.top}/crates/{self.crate}/{path}", f"{self.folder}/{path}")
        keep = os.environ.get("EDITS_LOGS")
        if keep:
            os.makedirs(keep, exist_ok=True)
            with open(f"{keep}/{self.crate}-{self.checks}.log", "w", encoding="utf-8") as it:
                it.write(" ".join(edit.name for edit in edits) + f"\nstatus {status}\n{text}")
        return Said(status, text)
