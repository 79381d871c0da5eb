"""Random executables: functions of straight code, branches, calls and tail calls by one word and by pairs, and tables.

`executable` makes one, some of whose jumps by tables are wrong on purpose. `encode` is the inverse of `reach.decode`.
"""

from machine import executable as written
from reach import ARITHMETIC, BRANCHES, IMMEDIATES, LOADS, SHIFTS, STORES

CODE, TABLES, DATA, WORDS = 0x10000, 0x30000, 0x40000, 128
STACK_POINTER, POINTER = 2, 8  # the pointer to data, which nothing changes
POOL = [5, 6, 7, 10, 11, 12, 13, 14, 15]

FORMS = {"lui": (0x37, 0, 0), "auipc": (0x17, 0, 0), "jal": (0x6F, 0, 0), "jalr": (0x67, 0, 0)}
FORMS |= {name: (opcode, funct3, 0) for opcode, names in ((0x63, BRANCHES), (3, LOADS), (0x23, STORES), (0x13, IMMEDIATES)) for funct3, name in names.items()}
FORMS |= {name: (opcode, *key) for opcode, names in ((0x13, SHIFTS), (0x33, ARITHMETIC)) for key, name in names.items()}


def encode(name, *operands):
    """The word of an instruction."""
    if name in ("fence", "ecall", "ebreak"):
        return {"fence": 0x0FF0000F, "ecall": 0x73, "ebreak": 0x100073}[name]
    (opcode, funct3, funct7), (first, second, last) = FORMS[name], (*operands, 0, 0)[:3]
    word = opcode | funct3 << 12
    if name in ("lui", "auipc"):
        return word | first << 7 | second & 0xFFFFF000
    if name == "jal":
        bits = second >> 20 & 1, second >> 1 & 1023, second >> 11 & 1, second >> 12 & 255
        return word | first << 7 | bits[0] << 31 | bits[1] << 21 | bits[2] << 20 | bits[3] << 12
    if opcode == 0x63:
        return word | first << 15 | second << 20 | (last >> 12 & 1) << 31 | (last >> 5 & 63) << 25 | (last >> 1 & 15) << 8 | (last >> 11 & 1) << 7
    if opcode == 0x23:
        return word | second << 15 | first << 20 | (last >> 5 & 127) << 25 | (last & 31) << 7
    return word | first << 7 | second << 15 | funct7 << 25 | ((last & 4095) << 20 if (name not in SHIFTS.values() and opcode != 0x33) else last << 20)


def upper(offset):
    return offset + 0x800 & 0xFFFFF000


def lower(offset):
    return (offset - upper(offset) + 2**31) % 2**32 - 2**31


class Function:
    """The words of a function, in which addresses are functions of the places of labels, functions and tables."""

    def __init__(self, maker, number):
        self.maker, self.pick, self.number, self.words, self.labels = maker, maker.pick, number, [], {}
        self.count = self.pick.randrange(2, 8)
        self.has_frame = self.pick.random() < 0.9
        if self.has_frame:
            self.put("addi", STACK_POINTER, STACK_POINTER, -16)
            self.put("sw", 1, STACK_POINTER, 12)
        for block in range(self.count):
            self.labels[block] = len(self.words)
            for _ in range(self.pick.randrange(4)):
                self.straight()
            self.end(block)

    def put(self, *instruction):
        self.words.append(instruction)

    def register(self, among=POOL):
        return self.pick.choice(among) if self.pick.random() < 0.95 else 0

    def label(self, block):
        """A block, mostly a later one."""
        later = self.pick.random() < 0.85 and block + 1 < self.count
        return self.pick.randrange(block + 1 if later else 0, self.count)

    def to(self, block):
        return lambda here, at: at(self.number, self.labels[block]) - here

    # ---- blocks

    def straight(self, among=POOL):
        """An instruction that writes none but these registers."""
        pick, rd = self.pick, self.register(among)
        kind = pick.randrange(10)
        if kind < 4:
            self.put(pick.choice(list(ARITHMETIC.values())), rd, self.register(), self.register())
        elif kind < 6:
            self.put(pick.choice(list(IMMEDIATES.values())), rd, self.register(), pick.choice([0, 1, -1, 7, 255, 2047, -2048]))
        elif kind == 6:
            self.put(pick.choice(list(SHIFTS.values())), rd, self.register(), pick.randrange(32))
        elif kind == 7:
            self.put(pick.choice(["lui", "auipc"]), rd, pick.getrandbits(20) << 12)
        elif pick.random() < 0.05:
            self.put("fence")
        else:
            base = POINTER if pick.random() < 0.97 else self.register()
            name = pick.choice(list((LOADS if kind == 8 else STORES).values()))
            aligned = 4 if pick.random() < 0.95 else 1
            self.put(name, rd if kind == 8 else self.register(), base, pick.randrange(64) * 4 // aligned * aligned + (aligned == 1) * pick.randrange(4))

    def end(self, block):
        if block + 1 == self.count:
            return self.leave()
        kind = self.pick.choice(["falls", "branch", "branch", "branch", "jump", "pair", "call", "call", "table", "table", "leave", "stop"])
        if kind == "branch":
            self.put(self.pick.choice(list(BRANCHES.values())), self.register(), self.register(), self.to(self.label(block)))
        elif kind == "jump":
            self.put("jal", 0, self.to(self.label(block)))
        elif kind == "pair":
            self.pair(0, self.register(), self.to(self.label(block)))
        elif kind == "call":
            self.go(1)
        elif kind == "table":
            self.table(block)
        elif kind == "leave":
            self.leave()
        elif kind == "stop" and self.pick.random() < 0.2:
            self.put(self.pick.choice(["ecall", "ebreak"]))

    def pair(self, rd, register, offset):
        """AUIPC and JALR, to an offset from the first."""
        register = register or 5
        self.put("auipc", register, lambda here, at: upper(offset(here, at)))
        self.put("jalr", rd, register, lambda here, at: lower(offset(here - 4, at)))

    def go(self, rd):
        """A call, or a tail call, of a later function, by one word or two; of any in a while."""
        callee = self.pick.randrange(self.number + 1 if self.pick.random() < 0.9 and self.number + 1 < self.maker.count else 0, self.maker.count)
        offset = lambda here, at: at(callee, 0) - here
        if self.pick.random() < 0.5:
            self.put("jal", rd, offset)
        else:
            self.pair(rd, rd or self.register(), offset)

    def leave(self):
        if self.has_frame:
            self.put("lw", 1, STACK_POINTER, 12)
            self.put("addi", STACK_POINTER, STACK_POINTER, 16)
        if self.pick.random() < 0.3 and self.number + 1 < self.maker.count:
            self.go(0)
        else:
            self.put("jalr", 0, 1, 0)

    def table(self, block):
        pick, count = self.pick, self.pick.choice([1, 2, 3, 4, 5, 8])
        wrong = pick.choice("bound shift index entered offset load".split()) if pick.random() < 0.12 else ""
        index, base, scaled, word = pick.sample(POOL, 4)
        rest = [r for r in POOL if r not in (index, base)]
        noise = lambda registers: [self.straight(registers) for _ in range(pick.choice([0, 0, 0, 1, 2]))]
        if pick.random() < 0.8:
            self.put("andi", index, index, 7)
        if pick.random() < 0.2:
            self.put("addi", index, index, pick.choice([-97, 1, -1]))
        bound = count + (3 if wrong == "bound" else 0)
        after = self.to(self.label(block))
        if pick.random() < 0.5:
            constant = 0 if bound == 1 and pick.random() < 0.5 else base
            self.put("addi", base, 0, bound - 1)
            self.put("bltu", constant, index, after)
        else:
            self.put("addi", base, 0, bound)
            self.put("bgeu", index, base, after)
        noise(rest + [base])
        if wrong == "index":
            self.put("xori", index, index, 1)
        if wrong == "entered":
            self.labels[pick.randrange(self.count)] = len(self.words)
        place = self.maker.place_of_table(self, [self.label(block) for _ in range(count)])
        self.put("slli", scaled, index, 3 if wrong == "shift" else 2)
        if pick.random() < 0.5:
            self.put("lui", base, upper(place))
        else:
            self.put("auipc", base, lambda here, at: upper(upper(place) - here))
            self.put("addi", base, base, lambda here, at: lower(upper(place) - here + 4))
        noise([r for r in rest if r != scaled])
        self.put("add", scaled, *pick.sample([scaled, base], 2))
        self.put("lhu" if wrong == "load" else "lw", word, scaled, lower(place))
        noise([r for r in POOL if r != word])
        self.put("jalr", 0, word, 4 if wrong == "offset" else 0)


class Maker:
    def __init__(self, pick, count):
        self.pick, self.count, self.tables, self.words = pick, count, [], 0
        self.functions = [Function(self, number) for number in range(count)]

    def place_of_table(self, function, blocks):
        place = TABLES + 4 * self.words
        self.tables += [(function, block) for block in blocks]
        self.words += len(blocks)
        return place

    def file(self):
        starts, here = [], CODE
        for function in self.functions:
            starts.append(here)
            here += 4 * len(function.words)
        at = lambda number, word: starts[number] + 4 * word
        code, place = [], CODE
        for function in self.functions:
            for name, *operands in function.words:
                code.append(encode(name, *[operand(place, at) if callable(operand) else operand for operand in operands]))
                place += 4
        words = [at(function.number, function.labels[block]) for function, block in self.tables]
        segments = [(CODE, code, 5), (TABLES, words, 4)] if words else [(CODE, code, 5)]
        names = [(f"f{number}", start, 4 * len(function.words)) for number, (function, start) in enumerate(zip(self.functions, starts))]
        return written(segments, names)


def executable(pick, count):
    """An executable of so many functions, each of which calls later ones mostly."""
    return Maker(pick, count).file()
