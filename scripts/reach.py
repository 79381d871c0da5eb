"""What the functions of an executable reach, by the definitions, written apart from the crates.

It is the second opinion of `check_code.py`, `compare_files.py` and `compare_graphs.py`. An instruction is a tuple: the
assembler's name of it and its operands in the assembler's order, registers as numbers, the value of LUI and AUIPC
shifted already; the offset of a load, a store and a JALR comes last. A flow is a tuple of its kind and its target, which
is a `TableJump` where a table gives them.
"""

from collections import namedtuple

SPACE = 2**32
KINDS = ["NoFunction", "Ambiguous", "Empty", "Writable", "Misplaced", "Undecoded", "Indirect", "Leaves", "Overlap"]
BRANCHES = {0: "beq", 1: "bne", 4: "blt", 5: "bge", 6: "bltu", 7: "bgeu"}
LOADS = {0: "lb", 1: "lh", 2: "lw", 4: "lbu", 5: "lhu"}
STORES = {0: "sb", 1: "sh", 2: "sw"}
IMMEDIATES = {0: "addi", 2: "slti", 3: "sltiu", 4: "xori", 6: "ori", 7: "andi"}
SHIFTS = {(1, 0): "slli", (5, 0): "srli", (5, 32): "srai"}
ARITHMETIC = {(funct3, 0): name for funct3, name in enumerate("add sll slt sltu xor srl or and".split())}
ARITHMETIC |= {(funct3, 1): name for funct3, name in enumerate("mul mulh mulhsu mulhu div divu rem remu".split())}
ARITHMETIC |= {(0, 32): "sub", (5, 32): "sra"}
ENDS = ("jal", "jalr", "ecall", "ebreak")
MOST_TARGETS = 1024


def signed(value, bits):
    return value - (1 << bits) if value >> (bits - 1) & 1 else value


def decode(word):
    """The instruction of a word of RV32IM; None for other words."""
    op, rd, funct3, left, right, funct7 = word & 127, word >> 7 & 31, word >> 12 & 7, word >> 15 & 31, word >> 20 & 31, word >> 25
    immediate = signed(word >> 20, 12)
    if op in (0x37, 0x17):
        return "lui" if op == 0x37 else "auipc", rd, word & 0xFFFFF000
    if op == 0x6F:
        return "jal", rd, signed((word >> 31) << 20 | (word >> 12 & 255) << 12 | (word >> 20 & 1) << 11 | (word >> 21 & 1023) << 1, 21)
    if op == 0x67 and funct3 == 0:
        return "jalr", rd, left, immediate
    if op == 0x63 and funct3 in BRANCHES:
        return BRANCHES[funct3], left, right, signed((word >> 31) << 12 | (word >> 7 & 1) << 11 | (word >> 25 & 63) << 5 | (word >> 8 & 15) << 1, 13)
    if op == 0x03 and funct3 in LOADS:
        return LOADS[funct3], rd, left, immediate
    if op == 0x23 and funct3 in STORES:
        return STORES[funct3], right, left, signed(funct7 << 5 | rd, 12)
    if op == 0x13 and funct3 in IMMEDIATES:
        return IMMEDIATES[funct3], rd, left, immediate
    if op == 0x13 and (funct3, funct7) in SHIFTS:
        return SHIFTS[funct3, funct7], rd, left, right
    if op == 0x33 and (funct3, funct7) in ARITHMETIC:
        return ARITHMETIC[funct3, funct7], rd, left, right
    if op == 0x0F and funct3 == 0:
        return ("fence",)
    return {0x73: ("ecall",), 0x100073: ("ebreak",)}.get(word)


# ---- tables

TableJump = namedtuple("TableJump", "before branch first targets")  # words before the jump, the bounding branch, the table
Bound = namedtuple("Bound", "branch index count")  # where the branch falls through the index is below the count


class Trees:
    """What registers have in straight code: trees in normal form, equal ones by one number."""

    def __init__(self):
        self.numbers, self.nodes = {}, []

    def make(self, *node):
        if node not in self.numbers:
            self.numbers[node] = len(self.nodes)
            self.nodes.append(node)
        return self.numbers[node]

    def constant(self, n):
        return self.make("constant", n % SPACE)

    def constant_of(self, a):
        return self.nodes[a][1] if self.nodes[a][0] == "constant" else None

    def parts_of(self, a):
        """What a constant is added to, and the constant."""
        kind, *parts = self.nodes[a]
        return (parts[0], self.constant_of(parts[1])) if kind == "sum" and self.constant_of(parts[1]) is not None else None

    def plus(self, a, n):
        a, m = self.parts_of(a) or (a, 0)
        return self.make("sum", a, self.constant(m + n)) if (m + n) % SPACE else a

    def sum(self, a, b):
        m, n = self.constant_of(a), self.constant_of(b)
        if m is not None:
            return self.plus(b, m) if n is None else self.constant(m + n)
        return self.make("sum", a, b) if n is None else self.plus(a, n)

    def difference(self, a, b):
        m, n = self.constant_of(a), self.constant_of(b)
        if n is not None:
            return self.plus(a, -n) if m is None else self.constant(m - n)
        return self.constant(0) if a == b else self.make("difference", a, b)

    def shifted(self, a, amount):
        n = self.constant_of(a)
        return self.constant(n << amount) if n is not None else a if amount == 0 else self.make("shifted", a, amount)

    def masked(self, a, mask):
        n = self.constant_of(a)
        return self.constant(n & mask) if n is not None else self.constant(0) if mask == 0 else a if mask == SPACE - 1 else self.make("masked", a, mask)


class Followed:
    """What is followed of straight code that leads to a jump by a register."""

    def __init__(self, register):
        self.trees, self.register, self.source, self.bounds = Trees(), register, None, []
        self.registers = [self.trees.constant(0)] + [self.trees.make("initial", r) for r in range(1, 32)]

    def result(self, address, name, *operands):
        """What an instruction that has a register puts into it."""
        of, trees = self.registers, self.trees
        if name in ("lui", "auipc"):
            return trees.constant(operands[1] + (address if name == "auipc" else 0))
        if name in ("add", "sub"):
            return (trees.sum if name == "add" else trees.difference)(of[operands[1]], of[operands[2]])
        if name == "addi":
            return trees.sum(of[operands[1]], trees.constant(operands[2]))
        if name == "slli":
            return trees.shifted(of[operands[1]], operands[2])
        if name == "andi":
            return trees.masked(of[operands[1]], operands[2] % SPACE)
        return trees.make("unknown", address)

    def step(self, address, instruction):
        name, *operands = instruction
        if name in ("bltu", "bgeu"):
            constant, index = operands[:2] if name == "bltu" else operands[1::-1]
            c = self.trees.constant_of(self.registers[constant])
            if c is not None:
                self.bounds.append(Bound(address, self.registers[index], c + 1 if name == "bltu" else c))
        elif operands and name not in BRANCHES.values() and name not in STORES.values() and operands[0] != 0:
            put = self.result(address, *instruction)
            if operands[0] == self.register:
                self.source = self.trees.sum(self.registers[operands[1]], self.trees.constant(operands[2])) if name == "lw" else None
            self.registers[operands[0]] = put

    def table(self):
        """Where the table begins from which the register was last loaded, and the last bound of its index."""
        shifted = None if self.source is None else self.trees.parts_of(self.source)
        if shifted is None or self.trees.nodes[shifted[0]][0] != "shifted" or self.trees.nodes[shifted[0]][2] != 2:
            return None
        bounds = [bound for bound in self.bounds if bound.index == self.trees.nodes[shifted[0]][1]]
        return (shifted[1], bounds[-1]) if bounds else None


# ---- functions

# The addresses that a function reaches, ascending; the entries that it calls or ends by a jump to; its faults, each
# an address and the place of its kind in KINDS; and by how much it lowers the stack pointer.
Function = namedtuple("Function", "addresses calls faults opening")


class Code:
    """The code of a file: its fixed bytes by address, and the sizes of its functions by entry."""

    def __init__(self, fixed, sizes, with_tables=True):
        self.fixed, self.sizes, self.with_tables, self.known = fixed, sizes, with_tables, {}

    def word(self, address):
        there = [self.fixed.get(address + k) for k in range(4)]
        return None if None in there else int.from_bytes(bytes(there), "little")

    def instruction(self, address):
        word = self.word(address)
        return None if word is None else decode(word)

    # ---- flow

    def table_from(self, register, start, address, before):
        followed = Followed(register)
        for place in range(start, address, 4):
            followed.step(place, self.instruction(place))
        first, bound = followed.table() or (None, None)
        if bound is None or first % 4 or not 1 <= bound.count <= MOST_TARGETS or first + 4 * bound.count > SPACE:
            return None
        targets = [self.word(first + 4 * k) for k in range(bound.count)]
        return None if None in targets else TableJump(before, bound.branch, first, targets)

    def table_jump(self, entry, address, rd, base, offset):
        """The table by which a JALR jumps, by the shortest straight code before it that shows one."""
        if not self.with_tables or rd != 0 or base == 1 or offset != 0:
            return None
        for before in range(1, (address - entry) // 4 + 1):
            start = address - 4 * before
            instruction = self.instruction(start)
            if instruction is None or instruction[0] in ENDS:
                return None
            jump = self.table_from(base, start, address, before)
            if jump:
                return jump
        return None

    def flow(self, entry, address):
        """Where control goes after the instruction at an address of the function at an entry; None where there is none."""
        if (entry, address) not in self.known:
            self.known[entry, address] = self.flow_of(entry, address, self.instruction(address))
        return self.known[entry, address]

    def flow_of(self, entry, address, instruction):
        if instruction is None:
            return None
        name, *operands = instruction
        if name in BRANCHES.values():
            return "branches", (address + operands[2]) % SPACE
        if name == "jal":
            return {0: "jumps", 1: "calls"}.get(operands[0], "links"), (address + operands[1]) % SPACE
        if name in ("ecall", "ebreak"):
            return "stops", None
        if name != "jalr":
            return "falls", None
        rd, base, offset = operands
        if (rd, base, offset) == (0, 1, 0):
            return "returns", None
        before = self.instruction(address - 4) if address >= entry + 4 else None
        if before and before[0] == "auipc" and before[1] == base != 0 and rd <= 1:
            return ("jumps", "calls")[rd], (address - 4 + before[2] + offset) % SPACE & ~1
        jump = self.table_jump(entry, address, rd, base, offset)
        return ("switches", jump) if jump else ("stops", None)

    # ---- what is reached

    def range_fault(self, entry):
        size = self.sizes[entry]
        if size == 0:
            return "Empty"
        if entry + size > SPACE or any(k not in self.fixed for k in range(entry, entry + size)):
            return "Writable"
        return "Misplaced" if entry % 4 or size % 4 else None

    def function(self, entry):
        fault, size = self.range_fault(entry), self.sizes[entry]
        if fault:
            return Function([], set(), [(entry, KINDS.index(fault))], 0)
        seen, left, reached = set(), [entry], set()
        while left:
            address = left.pop()
            if address in seen or not entry <= address < entry + size:
                continue
            seen.add(address)
            kind, target = self.flow(entry, address) or ("stops", None)
            if kind in ("falls", "branches", "calls"):
                left.append(address + 4)
            targets = target.targets if kind == "switches" else [target] if kind in ("branches", "jumps", "links") else []
            reached.update(targets)
            left += [target for target in targets if target % 4 == 0]
        calls, faults, opening = set(), [], 0
        for address in sorted(seen):
            faults += [(address, KINDS.index(name)) for name in self.faults(entry, address, reached)]
            if self.callee(entry, address) is not None:
                calls.add(self.callee(entry, address))
            opening += max(0, -self.instruction(address)[3]) if (self.instruction(address) or ())[:3] == ("addi", 2, 2) else 0
        return Function(sorted(seen), calls, faults, opening)

    def is_inside(self, entry, target):
        return entry <= target < entry + self.sizes[entry]

    def is_tail_call(self, entry, kind, target):
        return kind == "jumps" and not self.is_inside(entry, target) and target in self.sizes

    def callee(self, entry, address):
        """The entry of what the instruction at an address calls, or ends its function by a jump to."""
        kind, target = self.flow(entry, address) or ("stops", None)
        return target if kind == "calls" and target in self.sizes or self.is_tail_call(entry, kind, target) else None

    def faults(self, entry, address, reached):
        """The kinds of what is wrong with an instruction, given the targets that its function reaches."""
        instruction, flow = self.instruction(address), self.flow(entry, address)
        if instruction is None:
            return ["Undecoded"]
        kind, target = flow
        entered = range(address, address - 4 * target.before, -4) if kind == "switches" else [address]
        known = instruction[0] == "jalr" and kind in ("jumps", "calls", "switches")
        goes = {"falls": [address + 4], "branches": [address + 4, target], "jumps": [target]}.get(kind, target.targets if kind == "switches" else [])
        outside = any(not self.is_inside(entry, target) for target in goes) and not self.is_tail_call(entry, kind, target)
        odd = kind == "switches" and any(target % 4 for target in goes)
        tests = {
            "NoFunction": kind == "calls" and target not in self.sizes,
            "Indirect": kind == "links" or kind == "stops" and instruction[0] == "jalr" or known and any(place in reached for place in entered),
            "Leaves": outside or odd,
        }
        return [name for name, holds in tests.items() if holds]

    def reach(self, entry):
        """The functions that calls and tail calls reach from an entry, by theirs, and all faults."""
        found, left = {}, [entry]
        while left:
            one = left.pop()
            if one not in found:
                found[one] = self.function(one)
                left += found[one].calls
        faults = [fault for function in found.values() for fault in function.faults]
        for upper in found:
            if self.sizes[upper] and any(lower < upper < lower + self.sizes[lower] for lower in found):
                faults.append((upper, KINDS.index("Overlap")))
        return found, faults


def stack(found, entry, above=frozenset(), known=None):
    """How deep the stack goes; None where a cycle of calls is reached."""
    known = {} if known is None else known
    if entry in above:
        return None
    if entry not in known:
        below = [stack(found, callee, above | {entry}, known) for callee in found[entry].calls]
        known[entry] = None if None in below else found[entry].opening + max(below, default=0)
    return known[entry]


def first(faults):
    """The first fault's kind and address."""
    address, kind = min(faults)
    return KINDS[kind], address
