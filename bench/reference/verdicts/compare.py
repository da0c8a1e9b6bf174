#!/usr/bin/env python3
"""Compares the program's verdicts with those of this reading, over random tables.

    python3 compare.py [--program PATH] [--tables N] [--seed S] [--methods M] [--seconds T] [--styles A,B] [--shrink]

Each table has M methods, 400 if it is not given, and further ones that hand on what these give, at its greatest value
and one below: so the kind of a result shows in a verdict too. A style says how bodies are made:

| style | bodies |
|---|---|
| `long` | as firmware has them, with slips |
| `pairs`, `two` | one operator, call or list in which several causes meet |
| `flow` | exits, loops and locks |
| `kinds` | two kinds that meet in a local |
| `args` | arguments of told kinds with great lengths |
| `fields` | one field, used once |
| `deep` | at the greatest depth |
| `faults` | cut and spoilt bytes |
| `mutated` | bodies of other styles with bytes changed |

A difference is told with the seed of its table and the body; with --shrink the body is made smaller first. Behind
all stands how often each verdict came, and around which operators.
"""
import collections
import copy
import tempfile
import time

import aml
from generate import Case
from judge import Body, Judge, read_signatures
from names import Namespace
from program import FOREVER, Program, given_words, run_deeply, words_of

STYLES = "long,pairs,flow,two,kinds,args,fields,deep,faults,mutated"


class Counts:
    """How often each verdict, operator and loop shape came."""

    def __init__(self):
        self.verdicts = collections.Counter()
        self.operators = collections.Counter()
        self.places = collections.Counter()
        self.shapes = collections.Counter()
        self.methods = 0

    def note(self, judge, method):
        self.methods += 1
        verdict = judge.verdict(method)
        nodes = judge.bodies[method][0]
        self.verdicts["accepted" if verdict.accepted else verdict.cause] += 1
        if isinstance(nodes, aml.Fault):
            return
        if verdict.accepted:
            for node in every_node(nodes):
                self.operators[node.op] += 1
        else:
            for path in paths_to(nodes, verdict.at, ()):
                self.places[(verdict.cause, path)] += 1
                break

    def show(self):
        print("methods", self.methods)
        print("verdicts", dict(sorted(self.verdicts.items())))
        print("operators in accepted", dict(sorted(self.operators.items())))
        print("shapes of loops in all judged", dict(self.shapes))
        by_cause = collections.defaultdict(list)
        for (cause, path), count in self.places.most_common():
            by_cause[cause].append(f"{path} {count}")
        for cause, found in sorted(by_cause.items()):
            print(cause, len(found), "; ".join(found[:60]))


def every_node(nodes):
    for node in nodes:
        yield node
        yield from every_node(aml.children(node))


def paths_to(nodes, at, around):
    """The operator at a place and those around it."""
    for node in nodes:
        if node.at == at:
            yield (around[-1] if around else "") + ">" + node.op
        elif node.at < at < node.end:
            yield from paths_to(aml.children(node), at, around + (node.op,))


def reference_lines(tables, signatures):
    judge = Judge(Namespace(tables), read_signatures(signatures))
    return list(judge.lines()), judge


def differ(case, name, body, program):
    """Both answers on one method with this body, where they differ."""
    table = case.all_tables(name, body)
    try:
        mine, _ = reference_lines(table, case.signatures)
        theirs = program.lines(table, case.signatures)
    except (RuntimeError, AssertionError, ValueError, KeyError):
        return None
    for a, b in zip(mine, theirs):
        if a != b and a.split(" ")[0] == name:
            return a, b
    return None


def smaller(nodes):
    """Lists of statements that are a little less than these."""
    for i, node in enumerate(nodes):
        yield nodes[:i] + nodes[i + 1:]
    for i, node in enumerate(nodes):
        for made in smaller_nodes(node):
            yield nodes[:i] + made + nodes[i + 1:]


def smaller_nodes(node):
    """What may stand in a statement's place instead of it."""
    for part in node.parts:
        if isinstance(part, list) and part and all(isinstance(p, aml.Node) for p in part):
            yield part
        elif isinstance(part, aml.Node) and node.parts and part.op not in ("none", "Debug"):
            yield [part]
    for i, part in enumerate(node.parts):
        if isinstance(part, list) and all(isinstance(p, aml.Node) for p in part):
            for made in smaller(part):
                yield [copy_with(node, i, made)]
        elif isinstance(part, aml.Node):
            if part.op not in ("none", "int", "Local", "Arg", "Debug"):
                for made in smaller_nodes(part):
                    if len(made) == 1:
                        yield [copy_with(node, i, made[0])]
                yield [copy_with(node, i, aml.Node("int", 0, value=1))]


def copy_with(node, number, part):
    parts = list(node.parts)
    parts[number] = part
    return aml.Node(node.op, node.at, node.end, parts, node.value, node.own)


def shrink(case, name, body, judge, method, program, tries=400):
    """A smaller body on which the answers differ."""
    nodes = judge.bodies[method][0]
    if isinstance(nodes, aml.Fault):
        return body
    try:
        if aml.encode_list(nodes) != body and not differ(case, name, aml.encode_list(nodes), program):
            return body
    except Exception:
        return body
    found = True
    while found and tries > 0:
        found = False
        for made in smaller(nodes):
            tries -= 1
            if tries <= 0:
                break
            try:
                code = aml.encode_list(made)
                answers = differ(case, name, code, program)
            except Exception:
                continue
            if answers:
                reread, _ = reread_body(case, name, code)
                if isinstance(reread, list):
                    nodes, found = reread, True
                    break
    return aml.encode_list(nodes)


def reread_body(case, name, code):
    table = case.all_tables(name, code)
    judge = Judge(Namespace(table), read_signatures(case.signatures))
    for method in judge.namespace.methods:
        if "\\" + ".".join(method.path) == name:
            return judge.bodies[method][0], judge
    return None, judge


def alone(case, name):
    """The case with that one method and no other beside the callees that every table has."""
    made = copy.copy(case)
    made.made = [m for m in case.made if m.name() == name]
    return made


def show_difference(case, seed, name, judge, method, mine, theirs, program, shrinks):
    bodies = {made.name(): made.body for made in case.made}
    print(f"DIFFERENCE seed {seed} revision {case.revision}\n  reference {mine}\n  program   {theirs}")
    if name not in bodies:
        return
    nodes = judge.bodies[method][0]
    print(f"  bytes {bodies[name].hex(' ')[:3000]}")
    if isinstance(nodes, list):
        print("\n".join(list(aml.lines(nodes))[:60]))
    if not shrinks:
        return
    case = alone(case, name) if differ(alone(case, name), name, bodies[name], program) else case
    body = shrink(case, name, bodies[name], judge, method, program)
    answers = differ(case, name, body, program)
    nodes, _ = reread_body(case, name, body)
    print(f"  shrunk: {answers}\n  bytes {body.hex(' ')[:3000]}")
    if isinstance(nodes, list):
        print("\n".join(list(aml.lines(nodes))[:60]))


def compare(seed, methods, counts, program, styles, shrinks, most=3):
    """How many verdicts of one table differ."""
    case = Case(seed, methods, styles)
    table = case.all_tables()
    judge = case.judge
    mine = list(judge.lines())
    theirs = program.lines(table, case.signatures)
    if len(mine) != len(theirs):
        print("DIFFERENCE in the number of lines", seed, len(mine), len(theirs))
        return 1
    found = 0
    for a, b, method in zip(mine, theirs, judge.namespace.methods):
        counts.note(judge, method)
        if a != b:
            found += 1
            if found <= most:
                show_difference(case, seed, a.split(" ")[0], judge, method, a, b, program, shrinks)
    return found


def count_shapes(counts):
    """From now on each loop that is judged is counted by its shape."""
    turns = Body.turns

    def counted(body, node, env):
        found = turns(body, node, env)
        test = node.parts[0].op
        counts.shapes["none" if found[0] is None else "once" if found[1] else "up" if test == "LLess" else "down"] += 1
        return found
    Body.turns = counted


def main():
    words = words_of(__doc__)
    words.add_argument("--tables", type=int, default=10)
    words.add_argument("--seed", type=int, default=1)
    words.add_argument("--methods", type=int, default=400)
    words.add_argument("--seconds", type=float, default=FOREVER)
    words.add_argument("--styles", default=STYLES)
    words.add_argument("--shrink", action="store_true")
    given = given_words(words)
    counts, found, began = Counts(), 0, time.time()
    count_shapes(counts)
    with tempfile.TemporaryDirectory() as folder:
        program = Program(given.program, folder)
        for seed in range(given.seed, given.seed + given.tables):
            if time.time() - began > given.seconds:
                break
            found += compare(seed, given.methods, counts, program, given.styles.split(","), given.shrink)
    counts.show()
    print(f"{counts.methods} compared, {found} differences")
    return 1 if found else 0


if __name__ == "__main__":
    run_deeply(main)
