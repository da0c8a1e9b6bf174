"""The verdict on each method: accepted with the most steps that it takes, or the first cause against it."""
from aml import CREATE_FORMS, LETTERS, PART_LETTERS, Fault, children, read_body, read_module
from names import Namespace, read_events, sound, write_events

CAUSES = {
    "V1": "Unresolved", "V2": "OutsideProfile", "V3": "Kind", "V4": "Unset", "V5": "Cycle", "V6": "LoopShape",
    "V7": "Index", "V8": "Divisor", "V9": "Region", "V10": "NoResult", "V11": "BoundTooLarge",
    "V12": "CalleeRefused", "V13": "LocalName", "V14": "Depth", "V15": "Level", "V16": "NotHeld",
    "V17": "StillHeld", "V18": "HeldDiffers", "E201": "Truncated", "E202": "BadPkgLength", "E203": "BadName",
    "E204": "UnknownOpcode", "E205": "TooDeep", "E206": "BadString", "E207": "Overrun", "E208": "TooLarge",
}
MOST_STEPS = 2 ** 63
LONGEST_CHAIN = 64
LARGEST_VALUE = 65536

ANY_PACKAGE = ("any",)
MIXED = ("mixed",)
NAME = ("name",)
UNSET = None

INTEGER_OPERATORS = {"Add", "Subtract", "Multiply", "ShiftLeft", "ShiftRight", "And", "Nand", "Or", "Nor", "Xor"}
COMPARISONS = {"LAnd", "LOr", "LGreater", "LLess"}
# What stands in a supername's place and is no name, local or argument.
MISPLACED = {"Debug", "RefOf", "DerefOf", "Index"}
SIMPLE_STATEMENTS = {"Noop", "BreakPoint"}


def join(a, b):
    """The kind of what may be of either kind."""
    if a is UNSET or b is UNSET:
        return UNSET
    if a == b:
        return a
    if a[0] == "int" and b[0] == "int":
        return a if a[1] > b[1] else b
    if a[0] in ("pkg", "any") and b[0] in ("pkg", "any"):
        return ANY_PACKAGE
    return MIXED


def join_elements(a, b):
    """The same of two places in a package."""
    if a is UNSET or b is UNSET:
        return UNSET
    if NAME in (a, b):
        return NAME
    return join(a, b)


def within(a, b):
    return b is UNSET or join(a, b) == b


def low_ones(value):
    """The least number of ones in binary that is at least this value."""
    return (1 << value.bit_length()) - 1


class Stop(Exception):
    """The first cause against a method, and its place."""

    def __init__(self, cause, at):
        super().__init__(cause, at)
        self.cause = cause
        self.at = at


class Env:
    """What is known at a point: the kind of each local and argument, and the mutexes that are held."""
    __slots__ = ("kinds", "held")

    def __init__(self, kinds, held=()):
        self.kinds = kinds
        self.held = held

    def copy(self):
        return Env(list(self.kinds), self.held)

    def join(self, other):
        self.kinds = [join(a, b) for a, b in zip(self.kinds, other.kinds)]


class Loop:
    """A While whose body is judged: what stood where it was left or gone on with."""

    def __init__(self):
        self.breaks = []
        self.continues = []


def slot(node):
    """The number of a local or argument in an environment, or None."""
    if node.op == "Local":
        return node.value
    if node.op == "Arg":
        return 8 + node.value
    return None


def walk(nodes):
    """All nodes in some nodes, themselves included."""
    waiting = list(nodes)
    while waiting:
        node = waiting.pop()
        yield node
        waiting.extend(children(node))


def written_places(nodes):
    """The targets, and the operands of Increment and Decrement, that stand anywhere in some nodes."""
    for node in walk(nodes):
        if node.op in ("Increment", "Decrement"):
            yield node.parts[0]
        elif "g" in LETTERS.get(node.op, ""):
            for letter, part in zip(PART_LETTERS[node.op], node.parts):
                if letter == "g":
                    yield part


def own_statements(nodes, wanted):
    """The Break or Continue statements that belong to the loop with this body, those of inner loops left out."""
    for node in nodes:
        if node.op == wanted:
            yield node
        if node.op != "While":
            yield from own_statements(children(node), wanted)


class Judge:
    """Verdicts on the methods of a namespace."""

    def __init__(self, namespace, signatures=None):
        self.namespace = namespace
        self.signatures = signatures or {}
        self.verdicts = {}
        self.bodies = {}
        self.reached = {}
        self.chains = {}
        for method in namespace.methods:
            self.bodies[method] = self.read(method)

    def extend(self, tables, size, signatures):
        """Methods of so many bytes were put at the first table's end; the others' verdicts stay."""
        namespace = self.namespace
        namespace.tables, self.signatures = tables, read_signatures(signatures)
        known = set(namespace.methods)
        namespace.define_all((), read_module(tables[0], len(tables[0]) - size), 0)
        namespace.methods.sort(key=lambda method: method.table)
        for method in namespace.methods:
            if method not in known:
                self.bodies[method] = self.read(method)

    def read(self, method):
        """The body's statements and callees, or its fault."""
        namespace = self.namespace
        table = namespace.tables[method.table]
        try:
            nodes, names = read_body(table, method.start, method.end, lambda n: namespace.arity(method.path, n))
        except Fault as fault:
            return fault, set()
        callees = {namespace.resolve(method.path, n.value) for n in names}
        return nodes, {c for c in callees if c is not None and c.kind == "method"}

    def reaches(self, start, goal):
        """Whether a chain of calls leads from one method to another; each reaches itself."""
        if start is goal:
            return True
        if start not in self.reached:
            seen, waiting = {start}, [start]
            while waiting:
                for callee in self.bodies[waiting.pop()][1]:
                    if callee not in seen:
                        seen.add(callee)
                        waiting.append(callee)
            self.reached[start] = seen
        return goal in self.reached[start]

    def chain(self, method):
        """How many methods the longest chain from an accepted method has."""
        if method not in self.chains:
            self.chains[method] = 1 + max((self.chain(c) for c in self.bodies[method][1]), default=0)
        return self.chains[method]

    def argument_kinds(self, method):
        """The kinds of a method's arguments by its signature, integers where nothing is said."""
        path = "\\" + ".".join(method.path)
        told = self.signatures.get(path)
        if told is None and method.path[-1] == "_DSM" and method.arguments == 4:
            told = [("buf", 16), ("int", None), ("int", None), ANY_PACKAGE]
        greatest = self.namespace.greatest
        kinds = []
        for i in range(method.arguments):
            kind = told[i] if told is not None and i < len(told) else ("int", None)
            if kind[0] == "int":
                kind = ("int", greatest if kind[1] is None else min(kind[1], greatest))
            kinds.append(kind)
        return kinds

    def verdict(self, method):
        if method not in self.verdicts:
            self.verdicts[method] = self.judge(method)
        return self.verdicts[method]

    def judge(self, method):
        nodes, _ = self.bodies[method]
        if isinstance(nodes, Fault):
            return Refused(method.table, nodes.at, nodes.number)
        try:
            return Body(self, method).judge(nodes)
        except Stop as stop:
            return Refused(method.table, stop.at, stop.cause)

    def lines(self):
        """What the program prints of each method."""
        for method in self.namespace.methods:
            yield f"\\{'.'.join(method.path)} {self.verdict(method)}"


class Refused:
    """The cause against a method, and its place."""

    accepted = False

    def __init__(self, table, at, cause):
        self.table, self.at, self.cause = table, at, cause

    def __str__(self):
        return f"refused {self.table} {self.at} {self.cause} {CAUSES[self.cause]}"


class Accepted:
    """What is known of an accepted method: its steps, its arguments, what it gives, and the least level it acquires."""

    accepted = True

    def __init__(self, arguments, result, always, steps, least):
        self.arguments, self.result, self.always, self.steps, self.least = arguments, result, always, steps, least

    def __str__(self):
        return f"accepted {self.steps}"


class Body:
    """One walk through a method's body, in order of evaluation."""

    def __init__(self, judge, method):
        self.judge_all = judge
        self.namespace = judge.namespace
        self.method = method
        self.greatest = judge.namespace.greatest
        self.own = {}
        self.loops = []
        self.returns = []
        self.least = None

    def judge(self, nodes):
        arguments = self.judge_all.argument_kinds(self.method)
        env = Env([UNSET] * 8 + arguments + [UNSET] * (7 - len(arguments)))
        steps, live = self.statements(nodes, env, True, True)
        if live and env.held:
            raise Stop("V17", self.method.at)
        if steps >= MOST_STEPS:
            raise Stop("V11", self.method.at)
        result = None
        for kind in self.returns:
            result = kind if result is None else join(result, kind)
        return Accepted(arguments, result, not live, steps, self.least)

    # Names.

    def lookup(self, node):
        """What a name in the body names: an own name or an object, or None."""
        if node.own:
            return self.own[node.value.lone()]
        return self.namespace.resolve(self.method.path, node.value)

    def named(self, node):
        there = self.lookup(node)
        if there is None:
            raise Stop("V1", node.at)
        return there

    def data_kind(self, there):
        """The kind of a data name: an integer name may hold every integer."""
        return ("int", self.greatest) if there.content[0] == "int" else there.content

    def field_kind(self, bits):
        return ("int", 2 ** bits - 1) if bits <= self.namespace.width else ("buf", (bits + 7) // 8)

    def check_field(self, there, at):
        """The causes of a field's use that do not hang on what is stored."""
        if there.kind == "field":
            if not sound(there):
                raise Stop("V9", at)
            return
        if not 1 <= there.bits <= 2048:
            raise Stop("V9", at)
        if there.source is None or there.source[0] != "buf":
            raise Stop("V3", at)
        if there.offset + there.bits > 8 * there.source[1]:
            raise Stop("V7", at)

    # Terms.

    def integer(self, node, env):
        """An operand that must be an integer: its greatest value and its steps."""
        kind, steps = self.term(node, env)
        self.want_integer(kind, node)
        return kind[1], steps

    def want_integer(self, kind, node):
        if kind[0] != "int":
            raise Stop("V3", node.at)

    def literal(self, node):
        return node.value & self.greatest if node.op == "int" else None

    def term(self, node, env, wanted=True):
        """The kind and the steps of a term; the kind of a call whose value isn't wanted may be None."""
        op = node.op
        if op == "int":
            return ("int", node.value & self.greatest), 1
        if op == "string":
            return ("str", len(node.value)), 1
        if op in ("Buffer", "Package", "VarPackage"):
            self.check_literal(node)
            return self.namespace.content(node), 1
        if op in ("Local", "Arg"):
            return self.read_slot(node, env), 1
        if op == "name":
            return self.name_term(node, env, wanted)
        if op in INTEGER_OPERATORS:
            return self.arithmetic(node, env)
        if op in COMPARISONS:
            _, first = self.term_pair(node, env)
            return ("int", self.greatest), 1 + first
        handler = getattr(self, "term_" + op, None)
        if handler is None:
            raise Stop("V2", node.at)
        if op == "Store":
            return handler(node, env, wanted)
        return handler(node, env)

    def read_slot(self, node, env):
        kind = env.kinds[slot(node)]
        if kind is UNSET:
            raise Stop("V4", node.at)
        return kind

    def check_literal(self, node):
        """Literal data has literal sizes, to its innermost parts."""
        if node.op in ("Buffer", "VarPackage") and node.parts[0].op != "int":
            raise Stop("V2", node.at)
        if node.op == "Revision":
            raise Stop("V2", node.at)
        if node.op in ("Package", "VarPackage"):
            for element in node.parts[1]:
                if element.op != "name":
                    self.check_literal(element)

    def name_term(self, node, env, wanted):
        there = self.named(node)
        if there.kind == "data":
            return self.data_kind(there), 1
        if there.kind in ("field", "bufferfield"):
            self.check_field(there, node.at)
            events = read_events(there) if there.kind == "field" else 0
            return self.field_kind(there.bits), 1 + events
        if there.kind == "method":
            return self.call(there, node, env, wanted)
        if there.kind == "osi":
            kind, steps = self.term(node.parts[0], env)
            if kind[0] != "str":
                raise Stop("V3", node.parts[0].at)
            return ("int", self.greatest), 1 + steps
        raise Stop("V3", node.at)

    def call(self, callee, node, env, wanted):
        everything = self.judge_all
        if everything.reaches(callee, self.method):
            raise Stop("V5", node.at)
        kinds, steps = [], 1
        for part in node.parts:
            kind, cost = self.term(part, env)
            kinds.append(kind)
            steps += cost
        verdict = everything.verdict(callee)
        if verdict.accepted and wanted and not verdict.always:
            raise Stop("V10", node.at)
        if not verdict.accepted:
            raise Stop("V12", node.at)
        if everything.chain(callee) >= LONGEST_CHAIN:
            raise Stop("V14", node.at)
        for kind, asked, part in zip(kinds, verdict.arguments, node.parts):
            if not within(kind, asked):
                raise Stop("V3", part.at)
        if verdict.least is not None and any(mutex.level > verdict.least for mutex in env.held):
            raise Stop("V15", node.at)
        self.note_level(verdict.least)
        return verdict.result, steps + verdict.steps

    def note_level(self, level):
        if level is not None and (self.least is None or level < self.least):
            self.least = level

    def term_pair(self, node, env):
        """Two integer operands: their greatest values, and the steps of both."""
        first, first_steps = self.term(node.parts[0], env)
        second, second_steps = self.term(node.parts[1], env)
        self.want_integer(first, node.parts[0])
        self.want_integer(second, node.parts[1])
        return (first[1], second[1]), first_steps + second_steps

    def arithmetic(self, node, env):
        (a, b), steps = self.term_pair(node, env)
        kind = ("int", self.greatest_result(node, a, b))
        return kind, 1 + steps + self.store(node.parts[2], kind, env)

    def greatest_result(self, node, a, b):
        op, count = node.op, self.literal(node.parts[1])
        made = self.greatest
        if op == "Add":
            made = a + b
        elif op == "Multiply":
            made = a * b
        elif op == "And":
            made = min(a, b)
        elif op in ("Or", "Xor"):
            made = low_ones(max(a, b))
        elif op == "ShiftLeft" and count is not None:
            # A shift by the width and more leaves nothing but zero within the width.
            made = 0 if a == 0 else a << min(count, self.namespace.width)
        elif op == "ShiftRight":
            made = a if count is None else a >> min(count, self.namespace.width)
        return made if made <= self.greatest else self.greatest

    def term_Store(self, node, env, wanted):
        target = node.parts[1]
        if wanted and target.op not in ("Local", "Arg", "none", "Debug"):
            raise Stop("V2", node.at)
        kind, steps = self.term(node.parts[0], env)
        return kind, 1 + steps + self.store(target, kind, env)

    def term_Not(self, node, env):
        _, steps = self.integer(node.parts[0], env)
        kind = ("int", self.greatest)
        return kind, 1 + steps + self.store(node.parts[1], kind, env)

    def bit_search(self, node, env):
        _, steps = self.integer(node.parts[0], env)
        kind = ("int", self.namespace.width)
        return kind, 1 + steps + self.store(node.parts[1], kind, env)

    term_FindSetLeftBit = bit_search
    term_FindSetRightBit = bit_search

    def term_LNot(self, node, env):
        _, steps = self.integer(node.parts[0], env)
        return ("int", self.greatest), 1 + steps

    def agreeing_pair(self, node, env, allowed):
        """Two operands of the same one of some kinds."""
        first, first_steps = self.term(node.parts[0], env)
        second, second_steps = self.term(node.parts[1], env)
        if first[0] not in allowed:
            raise Stop("V3", node.parts[0].at)
        if second[0] != first[0]:
            raise Stop("V3", node.parts[1].at)
        return first, second, first_steps + second_steps

    def term_LEqual(self, node, env):
        _, _, steps = self.agreeing_pair(node, env, ("int", "str", "buf"))
        return ("int", self.greatest), 1 + steps

    def term_Concatenate(self, node, env):
        first, second, steps = self.agreeing_pair(node, env, ("str", "buf"))
        if first[1] + second[1] > LARGEST_VALUE:
            raise Stop("V2", node.at)
        kind = (first[0], first[1] + second[1])
        return kind, 1 + steps + self.store(node.parts[2], kind, env)

    def divisor(self, node):
        value = self.literal(node)
        if not value:
            raise Stop("V8", node.at)
        return value

    def term_Divide(self, node, env):
        (a, _), steps = self.term_pair(node, env)
        c = self.divisor(node.parts[1])
        quotient = ("int", a // c)
        steps += self.store(node.parts[2], ("int", min(a, c - 1)), env)
        return quotient, 1 + steps + self.store(node.parts[3], quotient, env)

    def term_Mod(self, node, env):
        (a, _), steps = self.term_pair(node, env)
        kind = ("int", min(a, self.divisor(node.parts[1]) - 1))
        return kind, 1 + steps + self.store(node.parts[2], kind, env)

    def term_ToInteger(self, node, env):
        kind, steps = self.term(node.parts[0], env)
        if kind[0] == "buf":
            if kind[1] == 0:
                raise Stop("V7", node.at)
            kind = ("int", 2 ** min(8 * kind[1], self.namespace.width) - 1)
        self.want_integer(kind, node.parts[0])
        return kind, 1 + steps + self.store(node.parts[1], kind, env)

    def term_ToBuffer(self, node, env):
        kind, steps = self.term(node.parts[0], env)
        if kind[0] == "int":
            kind = ("buf", self.namespace.width // 8)
        if kind[0] != "buf":
            raise Stop("V3", node.parts[0].at)
        return kind, 1 + steps + self.store(node.parts[1], kind, env)

    def term_DerefOf(self, node, env):
        index = node.parts[0]
        if index.op != "Index":
            raise Stop("V2", node.at)
        if index.parts[2].op != "none":
            raise Stop("V2", index.at)
        kind, kind_steps = self.term(index.parts[0], env)
        position, steps = self.term(index.parts[1], env)
        if kind[0] not in ("buf", "str", "pkg", "any"):
            raise Stop("V3", index.parts[0].at)
        self.want_integer(position, index.parts[1])
        return self.element(kind, position[1], index), 2 + kind_steps + steps

    def element(self, kind, greatest, index):
        """The kind of what stands at an index."""
        if kind[0] == "any":
            raise Stop("V7", index.at)
        length = kind[1] if kind[0] != "pkg" else len(kind[1])
        if greatest >= length:
            raise Stop("V7", index.at)
        if kind[0] != "pkg":
            return ("int", 255)
        literal = self.literal(index.parts[1])
        if literal is not None:
            found = kind[1][literal]
        else:
            found = kind[1][0]
            for other in kind[1][1:]:
                found = join_elements(found, other)
        if found is UNSET:
            raise Stop("V4", index.at)
        if found == NAME:
            raise Stop("V3", index.at)
        return found

    def term_SizeOf(self, node, env):
        operand = node.parts[0]
        self.refuse_misplaced(operand)
        if slot(operand) is not None:
            kind = self.read_slot(operand, env)
        else:
            there = self.named(operand)
            if there.kind != "data":
                raise Stop("V3", operand.at)
            kind = self.data_kind(there)
        if kind == ANY_PACKAGE:
            return ("int", 65535), 1
        if kind[0] not in ("buf", "str", "pkg"):
            raise Stop("V3", operand.at)
        length = len(kind[1]) if kind[0] == "pkg" else kind[1]
        return ("int", length & self.greatest), 1

    def term_CondRefOf(self, node, env):
        operand, target = node.parts
        if operand.op != "name" or target.op != "none":
            raise Stop("V2", node.at)
        return ("int", self.greatest), 1

    def refuse_misplaced(self, node):
        if node.op in MISPLACED:
            raise Stop("V2", node.at)

    def term_Increment(self, node, env):
        return self.count(node, env, 1)

    def term_Decrement(self, node, env):
        return self.count(node, env, None)

    def count(self, node, env, more):
        """Increment and Decrement: the operand is read, and then written."""
        operand = node.parts[0]
        self.refuse_misplaced(operand)
        kind, steps = self.read_operand(operand, env)
        self.want_integer(kind, operand)
        made = self.greatest if more is None or kind[1] + 1 > self.greatest else kind[1] + 1
        kind = ("int", made)
        return kind, 1 + steps + self.store(operand, kind, env)

    def read_operand(self, node, env):
        """A supername that is read: a method's name isn't called there."""
        if slot(node) is not None:
            return self.read_slot(node, env), 1
        if self.named(node).kind in ("method", "osi"):
            raise Stop("V3", node.at)
        return self.name_term(node, env, True)

    def mutex(self, node):
        """The mutex that Acquire or Release names."""
        operand = node.parts[0]
        self.refuse_misplaced(operand)
        if operand.op != "name":
            raise Stop("V3", operand.at)
        there = self.named(operand)
        if there.kind != "mutex":
            raise Stop("V3", operand.at)
        if there.path == ("_GL_",):
            raise Stop("V2", node.at)
        return there

    def term_Acquire(self, node, env):
        there = self.mutex(node)
        if any(other.level > there.level for other in env.held):
            raise Stop("V15", node.at)
        env.held = env.held + (there,)
        self.note_level(there.level)
        return ("int", 0), 1

    # Targets.

    def store(self, node, kind, env):
        """A value of this kind goes to a target; its steps."""
        if node.op == "none":
            return 0
        if node.op == "Debug":
            return 1
        if slot(node) is not None:
            env.kinds[slot(node)] = kind
            return 1
        if node.op == "Index":
            return self.store_byte(node, kind, env)
        if node.op in MISPLACED:
            raise Stop("V2", node.at)
        there = self.named(node)
        if there.kind == "data":
            self.store_data(there, kind, node)
            return 1
        if there.kind in ("field", "bufferfield"):
            self.check_field(there, node.at)
            self.store_field(there.bits, kind, node)
            return 1 + (write_events(there) if there.kind == "field" else 0)
        raise Stop("V3", node.at)

    def store_data(self, there, kind, node):
        asked = self.data_kind(there)
        if asked[0] not in ("int", "buf", "str") or not within(kind, asked):
            raise Stop("V3", node.at)

    def store_field(self, bits, kind, node):
        """An integer goes into every field, a buffer into a wide one of just its length."""
        if kind[0] == "int":
            return
        if bits <= self.namespace.width or kind != ("buf", (bits + 7) // 8):
            raise Stop("V3", node.at)

    def store_byte(self, node, kind, env):
        name, index, target = node.parts
        if target.op != "none" or name.op != "name":
            raise Stop("V2", node.at)
        there = self.named(name)
        position, steps = self.term(index, env)
        if there.kind != "data" or there.content[0] != "buf":
            raise Stop("V3", name.at)
        self.want_integer(position, index)
        if position[1] >= there.content[1]:
            raise Stop("V7", node.at)
        if kind[0] != "int":
            raise Stop("V3", node.at)
        return 1 + steps

    # Statements.

    def statements(self, nodes, env, live, top=False):
        """The steps of a list, and whether its end counts."""
        total = 0
        for node in nodes:
            steps, live = self.statement(node, env, live, top)
            total += steps
        return total, live

    def statement(self, node, env, live, top):
        op = node.op
        if op in SIMPLE_STATEMENTS:
            return 1, live
        if op in ("If", "While"):
            return (self.branch if op == "If" else self.loop)(node, env, live)
        if op in ("Break", "Continue"):
            return self.leave(node, env, live), False
        if op == "Return":
            return self.leave_method(node, env, live), False
        if op == "Name" or op in CREATE_FORMS:
            return self.definition(node, top), live
        if op == "Notify":
            return self.notify(node, env), live
        if op in ("Sleep", "Stall"):
            _, steps = self.integer(node.parts[0], env)
            return 2 + steps, live
        if op == "Release":
            return self.release(node, env), live
        _, steps = self.term(node, env, wanted=False)
        return steps, live

    def leave(self, node, env, live):
        if not self.loops:
            raise Stop("V2", node.at)
        if live:
            loop = self.loops[-1]
            (loop.breaks if node.op == "Break" else loop.continues).append(env.copy())
        return 1

    def leave_method(self, node, env, live):
        kind, steps = self.term(node.parts[0], env)
        if live:
            if env.held:
                raise Stop("V17", node.at)
            self.returns.append(kind)
        return 1 + steps

    def notify(self, node, env):
        what, value = node.parts
        self.refuse_misplaced(what)
        there = self.named(what) if what.op == "name" else None
        kind, steps = self.term(value, env)
        if there is None or there.kind not in ("device", "processor", "thermal"):
            raise Stop("V3", what.at)
        self.want_integer(kind, value)
        return 2 + steps

    def release(self, node, env):
        there = self.mutex(node)
        if not env.held or env.held[-1] is not there:
            raise Stop("V16", node.at)
        env.held = env.held[:-1]
        return 1

    def definition(self, node, top):
        """A name of the body's own."""
        name = node.parts[0 if node.op == "Name" else -1].value
        if not top or name.lone() is None or name.lone() in self.own:
            raise Stop("V13", node.at)
        if node.op == "Name":
            self.check_literal(node.parts[1])
            self.own[name.lone()] = OwnData(self.namespace.content(node.parts[1]))
            return 2
        source, numbers = node.parts[0], node.parts[1:-1]
        there = self.lookup(source) if source.op == "name" and not source.parts else None
        if there is None or there.kind != "data" or any(number.op != "int" for number in numbers):
            raise Stop("V2", node.at)
        offset, bits = self.namespace.create_numbers(node)
        self.own[name.lone()] = OwnField(offset, bits, there.content)
        return 1

    def narrow(self, test, env):
        """What a comparison that held says of the local or argument in it."""
        if test.op != "LLess" or slot(test.parts[0]) is None:
            return
        c = self.literal(test.parts[1])
        if c:
            place = slot(test.parts[0])
            env.kinds[place] = ("int", min(env.kinds[place][1], c - 1))

    def branch(self, node, env, live):
        test, block, otherwise = node.parts
        _, steps = self.integer(test, env)
        first, second = env.copy(), env.copy()
        self.narrow(test, first)
        first_steps, first_live = self.statements(block, first, live)
        second_steps, second_live = self.statements(otherwise or [], second, live)
        if first_live and second_live and first.held != second.held:
            raise Stop("V18", node.at)
        end = second if second_live and not first_live else first
        env.kinds, env.held = end.kinds, end.held
        if first_live == second_live:
            env.join(second)
        return 1 + steps + max(first_steps, second_steps), first_live or second_live

    def loop(self, node, env, live):
        test, block = node.parts
        turns, is_once = self.turns(node, env)
        if turns is None:
            raise Stop("V6", node.at)
        if not is_once:
            self.widen(block, env)
        _, test_steps = self.integer(test, env)
        begin, inner, loop = env.copy(), env.copy(), Loop()
        self.narrow(test, inner)
        self.loops.append(loop)
        steps, end_live = self.statements(block, inner, live)
        self.loops.pop()
        goes_on = loop.continues + ([inner] if end_live else [])
        for end in goes_on:
            if not is_once and not all(map(within, end.kinds, begin.kinds)):
                raise Stop("V3", node.at)
        if any(end.held != begin.held for end in goes_on + loop.breaks):
            raise Stop("V18", node.at)
        for end in loop.breaks:
            env.join(end)
        if is_once:
            return 1 + test_steps + steps, live
        return 1 + (turns + 1) * test_steps + turns * steps, live

    def widen(self, block, env):
        for place in written_places(block):
            number = slot(place)
            if number is not None and env.kinds[number] is not UNSET and env.kinds[number][0] == "int":
                env.kinds[number] = ("int", self.greatest)

    # Shapes of loops.

    def turns(self, node, env):
        """How many turns a loop takes at most (None: it has no shape), and whether it is left in its first turn."""
        test, block = node.parts
        if block and block[-1].op in ("Break", "Return") and not any(own_statements(block, "Continue")):
            return 1, True
        counted = self.counted(test)
        if counted is None:
            return None, False
        upward, local, limit = counted
        if not self.counts(block, local, upward):
            return None, False
        if upward:
            return limit, False
        kind = env.kinds[local]
        start = kind[1] if kind is not UNSET and kind[0] == "int" else 0
        return max(start - limit, 0), False

    def counted(self, test):
        """The local that a loop's test counts: (upward, local, limit)."""
        if test.op == "Local":
            return False, test.value, 0
        if test.op in ("LLess", "LGreater") and test.parts[0].op == "Local":
            limit = self.literal(test.parts[1])
            if limit is not None:
                return test.op == "LLess", test.parts[0].value, limit
        return None

    def counts(self, block, local, upward):
        """Whether a body has just one step of this local, before which no Continue stands."""
        steps = [node for node in block if self.is_step(node, local, upward)]
        if len(steps) != 1:
            return False
        writes = sum(1 for place in written_places(block) if place.op == "Local" and place.value == local)
        return writes == 1 and all(c.at > steps[0].at for c in own_statements(block, "Continue"))

    def is_step(self, node, local, upward):
        def is_local(part):
            return part.op == "Local" and part.value == local

        def is_one(part):
            return self.literal(part) == 1
        if node.op == ("Increment" if upward else "Decrement"):
            return is_local(node.parts[0])
        if node.op != ("Add" if upward else "Subtract") or not is_local(node.parts[2]):
            return False
        first, second, _ = node.parts
        return (is_local(first) and is_one(second)) or (upward and is_one(first) and is_local(second))


class OwnData:
    """A data name of the method's own."""
    kind = "data"
    path = None

    def __init__(self, content):
        self.content = content


class OwnField:
    """A buffer field of the method's own."""
    kind = "bufferfield"
    path = None

    def __init__(self, offset, bits, source):
        self.offset, self.bits, self.source = offset, bits, source


def read_signatures(text):
    """The kinds of arguments by path; the text must be well formed."""
    found = {}
    for line in text.splitlines():
        if line and not line.startswith("#"):
            path, *words = line.split(" ")
            found[path] = [read_kind(word) for word in words]
    return found


def read_kind(word):
    name, _, number = word.partition(":")
    if name == "pkg":
        return ANY_PACKAGE
    return (name, int(number) if number else None)


def verdict_lines(tables, signatures=""):
    """What the program prints of some tables."""
    judge = Judge(Namespace(tables), read_signatures(signatures))
    return list(judge.lines())
