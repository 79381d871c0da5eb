"""The graphs of functions by the definitions, written apart from the crates, and how they run.

It is the second opinion of `check_code.py` and `compare_graphs.py`. A term is a tuple of its operator, as the crates name
it, and its arguments; ("word", width, number) and ("var", name) are the leaves. A node is ("basic", bindings, next),
("cond", test, next, next) or ("call", graph, inputs, outputs, next), a binding a name and a term, a next the number of a
node, "Ret" or "Err". `graph` makes the nodes of a function of a `Code` of `reach.py`; `ran` runs graphs.
"""

from collections import namedtuple

from reach import BRANCHES, LOADS, SPACE, STORES
from terms import operate

TABLE_INDEX = "x32"

Graph = namedtuple("Graph", "nodes firsts")  # the nodes, of which the first is the entrance; the first node of each instruction


# ---- terms


def number(n, width=32):
    return "word", width, n % 2**width


def register(r):
    return ("var", f"x{r}") if r else number(0)


def past(a, count):
    return "WordAdd", a, number(count)


def less_signed(x, y):
    flip = lambda t: ("WordXor", t, number(2**31))
    return "Less", flip(x), flip(y)


def is_positive(x):
    return "Less", x, number(2**31)


def negated(x):
    return "WordSubtract", number(0), x


def magnitude(x):
    return "Choose", is_positive(x), x, negated(x)


def quotient(x, y):
    found = "WordDivide", magnitude(x), magnitude(y)
    differ = "And", ("Not", ("Equal", is_positive(x), is_positive(y))), ("Not", ("Equal", y, number(0)))
    return "Choose", differ, negated(found), found


def remainder(x, y):
    found = "WordRemainder", magnitude(x), magnitude(y)
    return "Choose", is_positive(x), found, negated(found)


def high(x, y, *extensions):
    """Bytes 4 to 7 of the product of words of 64 bits."""
    product = "WordMultiply", (f"{extensions[0]}(W64)", x), (f"{extensions[1]}(W64)", y)
    return ("Join", *[(f"Byte({k})", product) for k in range(4, 8)])


def one_if(test):
    return "Choose", test, number(1), number(0)


def computed(name, x, y):
    places = "WordAnd", y, number(31)
    plain = dict(add="Add", sub="Subtract", xor="Xor", mul="Multiply", divu="Divide", remu="Remainder")
    plain |= {"or": "Or", "and": "And"}
    shifts = dict(sll="ShiftLeft", srl="ShiftRight", sra="ShiftRightSigned")
    if name in plain:
        return f"Word{plain[name]}", x, y
    if name in shifts:
        return f"Word{shifts[name]}", x, places
    if name in ("slt", "sltu"):
        return one_if(less_signed(x, y) if name == "slt" else ("Less", x, y))
    if name in ("div", "rem"):
        return (quotient if name == "div" else remainder)(x, y)
    extensions = dict(mulh=("SignExtend", "SignExtend"), mulhsu=("SignExtend", "ZeroExtend"), mulhu=("ZeroExtend", "ZeroExtend"))
    return high(x, y, *extensions[name])


def taken(name, x, y):
    """Whether a branch is taken."""
    test = ("Equal", x, y) if name in ("beq", "bne") else less_signed(x, y) if name in ("blt", "bge") else ("Less", x, y)
    return test if name in ("beq", "blt", "bltu") else ("Not", test)


MEMORY = ("var", "m")


def loaded(name, a):
    size = {"b": 1, "h": 2, "w": 4}[name[1]]
    parts = [("Load", MEMORY, past(a, k) if k else a) for k in range(size)]
    whole = parts[0] if size == 1 else ("Join", *parts)
    return whole if size == 4 else ("ZeroExtend(W32)" if name.endswith("u") else "SignExtend(W32)", whole)


def stored(name, a, x):
    memory = MEMORY
    for k in range({"sb": 1, "sh": 2, "sw": 4}[name]):
        memory = "Store", memory, past(a, k) if k else a, (f"Byte({k})", x)
    return memory


def effect(address, name, *operands):
    """What an instruction binds that continues at the next one."""
    if name in STORES.values():
        source, base, offset = operands
        return [("m", stored(name, past(register(base), offset), register(source)))]
    if name == "fence" or operands[0] == 0:
        return []
    rd, *operands = operands
    if name in ("lui", "auipc"):
        term = number(operands[0] + (address if name == "auipc" else 0))
    elif name in LOADS.values():
        term = loaded(name, past(register(operands[0]), operands[1]))
    else:
        immediate = dict(addi="add", slti="slt", sltiu="sltu", xori="xor", ori="or", andi="and", slli="sll", srli="srl", srai="sra")
        second = number(operands[1]) if name in immediate else register(operands[1])
        term = computed(immediate.get(name, name), register(operands[0]), second)
    return [(f"x{rd}", term)]


def tests(runs, name, *operands):
    """What has to hold before a load or a store: alignment, then that each run of fixed bytes is avoided."""
    if name not in LOADS.values() and name not in STORES.values():
        return []
    a, size = past(register(operands[1]), operands[2]), {"b": 1, "h": 2, "w": 4}[name[1]]
    aligned = [("Equal", ("WordAnd", a, number(size - 1)), number(0))] if size > 1 else []
    last = past(a, size - 1) if size > 1 else a
    avoided = [("Or", ("Less", number(end), a), ("Less", last, number(start))) for start, end in runs]
    return aligned + (avoided if name in STORES.values() else [])


HOME = ("Equal", ("var", "x1"), ("var", "e1"))


def entry_bindings(registers):
    return [(f"e{r}", ("var", f"x{r}")) for r in registers]


def call_inputs(back):
    return [("x1", number(back)), ("e1", number(back))] + entry_bindings(range(2, 32))


# ---- a function


def fixed_runs(fixed):
    """The first and the last address of each run of fixed bytes."""
    found = []
    for address in sorted(fixed):
        if found and found[-1][1] + 1 == address:
            found[-1][1] = address
        else:
            found.append([address, address])
    return found


class Graphs:
    """The graph of a function of a `Code`, in which the functions at some entries have these places."""

    def __init__(self, code, entry, places):
        self.code, self.entry, self.places, self.runs = code, entry, places, fixed_runs(code.fixed)
        self.addresses = code.function(entry).addresses
        flows = {address: code.flow(entry, address) for address in self.addresses}
        self.kept = {flow[1].branch for flow in flows.values() if flow and flow[0] == "switches"}
        self.firsts, size = {}, 1
        for address in self.addresses:
            self.firsts[address] = size
            size += len(self.block(address, lambda index: 0, lambda target: 0))

    def is_tail(self, kind, target):
        return kind == "jumps" and target % 4 == 0 and not self.code.is_inside(self.entry, target)

    def block(self, address, own, toward):
        """The nodes of the instruction at an address, its landing node after them, given the number of each of them and
        of the first of another instruction."""
        instruction = self.code.instruction(address)
        kind, target = self.code.flow(self.entry, address)
        before, after = [], []
        if kind == "falls":
            before = tests(self.runs, *instruction)
            after = [("basic", effect(address, *instruction), toward(address + 4))]
        elif kind == "branches":
            test, keeps = taken(instruction[0], register(instruction[1]), register(instruction[2])), address in self.kept
            after = [("cond", test, toward(target), own(1) if keeps else toward(address + 4))]
            if keeps:
                index = register(instruction[2 if instruction[0] == "bltu" else 1])
                after.append(("basic", [(TABLE_INDEX, index)], toward(address + 4)))
        elif kind == "calls" and target % 4 == 0:
            after = [("call", self.places[target], call_inputs(address + 4), [], own(1)), ("basic", [], toward(address + 4))]
        elif self.is_tail(kind, target):
            before = [HOME]
            after = [("call", self.places[target], entry_bindings(range(1, 32)), [], own(2)), ("basic", [], "Ret")]
        elif kind == "jumps":
            after = [("basic", [], toward(target))]
        elif kind == "returns":
            return [("cond", HOME, "Ret", "Err")]
        elif kind == "switches":
            count, index = len(target.targets), ("var", TABLE_INDEX)
            after = [("cond", ("Equal", index, number(k)), toward(to), own(k + 1) if k + 1 < count else "Err") for k, to in enumerate(target.targets)]
        else:
            after = [("basic", [], "Err")]
        return [("cond", test, own(k + 1), "Err") for k, test in enumerate(before)] + after

    def graph(self):
        toward = lambda target: self.firsts.get(target, "Err")
        nodes = [("basic", [], self.firsts[self.entry])]
        for address in self.addresses:
            first = self.firsts[address]
            nodes += self.block(address, lambda index: first + index, toward)
        return Graph(nodes, self.firsts)


def graphs(code, entry):
    """The graphs of the functions that the one at an entry reaches, in the order of their entries."""
    found, _ = code.reach(entry)
    places = {one: place for place, one in enumerate(sorted(found))}
    return places, [Graphs(code, one, places).graph() for one in sorted(found)]


def variables(nodes):
    """The names of a graph's variables, each where it first occurs."""
    found = {}

    def put(t):
        if t[0] == "var":
            found.setdefault(t[1])
        elif t[0] != "word":
            for a in t[1:]:
                put(a)

    for kind, *parts in nodes:
        if kind == "cond":
            put(parts[0])
        for name, term in [binding for part in parts if isinstance(part, list) for binding in part]:
            found.setdefault(name)
            put(term)
    return list(found)


# ---- how they run

OPERATORS = dict(
    Not="not", Complement="bnot", And="and", Or="or", Equal="eq", Less="ult", Join="join", Choose="ite", WordAdd="add", WordSubtract="sub",
    WordMultiply="mul", WordAnd="band", WordOr="bor", WordXor="bxor", WordShiftLeft="shl", WordShiftRight="shr", WordShiftRightSigned="sar",
    WordDivide="udiv", WordRemainder="urem", ZeroExtend="zext", SignExtend="sext", Low="low", Byte="byte",
)


def width(t):
    return t[1] if t[0] == "word" else 8 if t[0] == "Load" or t[0].startswith("Byte") else 8 * (len(t) - 1) if t[0] == "Join" \
        else int(t[0].split("W")[1][:-1]) if t[0].startswith(("ZeroExtend", "SignExtend", "Low")) else width(t[2]) if t[0] == "Choose" \
        else width(t[1]) if len(t) > 2 and t[0].startswith("Word") or t[0] == "Complement" else 32


def value(t, values):
    """Of a memory the value is a dictionary; one that is absent has 0."""
    if t[0] == "word":
        return t[2]
    if t[0] == "var":
        return values.get(t[1], 0)
    found = [value(a, values) for a in t[1:]]
    if t[0] == "Load":
        return found[0].get(found[1], 0)
    if t[0] == "Store":
        return {**found[0], found[1]: found[2]}
    name, _, rest = t[0].partition("(")
    return operate(OPERATORS[name], int(rest.strip("W)")) if rest else None, found, width(t[1]))


def bind(bindings, values, rest):
    return {**rest, **{name: value(term, values) for name, term in bindings}}


def is_shared(name):
    return name == "m" or name[0] == "x"


class Run:
    """A run over graphs, each its first node and its nodes: where it stands, `end` ("Ret" or "Err") where it has ended."""

    def __init__(self, graphs, outermost, values):
        self.graphs, self.graph, self.node, self.values = graphs, outermost, graphs[outermost][0], values
        self.below, self.end = [], None

    def step(self):
        kind, *parts = self.graphs[self.graph][1][self.node]
        if kind == "call":
            callee, inputs, outputs, landing = parts
            self.below.append((self.graph, outputs, landing, self.values))
            self.values = bind(inputs, self.values, {name: v for name, v in self.values.items() if is_shared(name)})
            self.graph, self.node = callee, self.graphs[callee][0]
            return
        if kind == "basic":
            self.values, to = bind(parts[0], self.values, self.values), parts[1]
        else:
            to = parts[1] if value(parts[0], self.values) else parts[2]
        if to not in ("Ret", "Err"):
            self.node = int(to)
        elif to == "Err" or not self.below:
            self.end = to
        else:
            self.graph, outputs, to, waited = self.below.pop()
            kept = {name: v for name, v in waited.items() if not is_shared(name)} | {name: v for name, v in self.values.items() if is_shared(name)}
            self.values, self.node = bind(outputs, self.values, kept), int(to)
