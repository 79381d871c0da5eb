"""RV32IM, executables and calls, written apart from the crates: what `compare_compilers.py`, `compare_loops.py` and `check_idioms.py` run code with.

A call is run on a memory in which every byte has a value, drawn by its address and a seed, until it returns, traps or
takes too many steps. `Image` reads the segments and symbols of an executable, `tiny` writes one.
"""

import hashlib
import struct

MASK = 2**32 - 1
KEPT = [2, 3, 4, 8, 9, *range(18, 28)]
RETURN = 0x00000100
STEPS = 10000


def signed(x, width=32):
    x &= 2**width - 1
    return x - 2**width if x >> width - 1 else x


class Image:
    """The loaded segments, functions, global objects and fixed bytes of an executable."""

    def __init__(self, data):
        self.data = data
        phoff, shoff = struct.unpack_from("<II", data, 28)
        phnum, _, shnum = struct.unpack_from("<HHH", data, 44)
        self.segments = []
        for i in range(phnum):
            kind, offset, vaddr, _, filesz, memsz, flags, _ = struct.unpack_from("<8I", data, phoff + 32 * i)
            if kind == 1:
                self.segments.append((vaddr, memsz, flags, offset, data[offset : offset + filesz]))
        self.functions, self.objects, self.pointer = {}, {}, None
        tables = [struct.unpack_from("<10I", data, shoff + 40 * i) for i in range(shnum)]
        for _, kind, _, _, offset, size, link, _, _, _ in tables:
            if kind != 2:
                continue
            for at in range(offset, offset + size, 16):
                name, value, extent, info, _, section = struct.unpack_from("<IIIBBH", data, at)
                begin = tables[link][4] + name
                text = data[begin : data.index(b"\0", begin)].decode()
                if section and info & 15 == 2:
                    self.functions.setdefault(text, (value, extent))
                if section and info & 15 == 1:
                    self.objects.setdefault(text, (value, extent))
                if section and text == "__global_pointer$" and self.pointer is None:
                    self.pointer = value
        self.fixed = {}
        for vaddr, _, flags, _, held in self.segments:
            if not flags & 2:
                self.fixed.update(enumerate(held, vaddr))

    def words(self, name):
        """The addresses and words of a function, in a row."""
        entry, size = self.functions[name]
        return [(a, int.from_bytes(bytes(self.fixed[a + i] for i in range(4)), "little")) for a in range(entry, entry + size, 4)]

    def with_word(self, address, word):
        """The file with another word at an address."""
        for vaddr, _, _, offset, held in self.segments:
            if vaddr <= address < vaddr + len(held):
                at = offset + address - vaddr
                return self.data[:at] + word.to_bytes(4, "little") + self.data[at + 4 :]
        raise ValueError(f"no byte of the file at {address:x}")

    def stack(self, name):
        """By how many bytes the function itself lowers x2."""
        return sum(max(0, -signed(w >> 20, 12)) for _, w in self.words(name) if w & 0xFFFFF == 0x10113)


def tiny(words, entry=0x10000, objects=(), flags=5):
    """An executable with one function f of these words, and global objects (name, address, size) in a segment for writing."""
    code = b"".join(w.to_bytes(4, "little") for w in words)
    names = b"\0f\0" + b"".join(name.encode() + b"\0" for name, _, _ in objects)
    segments = [(entry, code, len(code), flags)]
    if objects:
        low, high = min(a for _, a, _ in objects), max(a + n for _, a, n in objects)
        segments.append((low, b"", high - low, 6))
    symbols, at = struct.pack("<IIIBBH", 0, 0, 0, 0, 0, 0), 3
    symbols += struct.pack("<IIIBBH", 1, entry, len(code), 0x12, 0, 1)
    for name, address, size in objects:
        symbols += struct.pack("<IIIBBH", at, address, size, 0x11, 0, 1)
        at += len(name) + 1
    begin = 52 + 32 * len(segments)
    table = begin + len(code)
    strings = table + len(symbols)
    sections = strings + len(names) + -len(names) % 4
    header = b"\x7fELF\1\1\1" + bytes(9)
    header += struct.pack("<HHIIIIIHHHHHH", 2, 243, 1, 0, 52, sections, 0, 52, 32, len(segments), 40, 3, 0)
    for address, held, size, flag in segments:
        header += struct.pack("<8I", 1, begin, address, address, len(held), size, flag, 4)
    made = header + code + symbols + names + bytes(-len(names) % 4) + bytes(40)
    made += struct.pack("<10I", 0, 2, 0, 0, table, len(symbols), 2, 1, 4, 16)
    return made + struct.pack("<10I", 0, 3, 0, 0, strings, len(names), 0, 0, 1, 0)


def executable(segments, functions):
    """An executable of segments, each an address, words and flags, and of functions, each a name, an entry and a size."""
    contents = [b"".join(word.to_bytes(4, "little") for word in words) for _, words, _ in segments]
    names, symbols = b"\0", bytes(16)
    for name, value, size in functions:
        symbols += struct.pack("<IIIBBH", len(names), value, size, 0x12, 0, 1)
        names += name.encode() + b"\0"
    begin = 52 + 32 * len(segments)
    table = begin + sum(map(len, contents))
    strings = table + len(symbols)
    sections = strings + len(names) + -len(names) % 4
    made = b"\x7fELF\1\1\1" + bytes(9) + struct.pack("<HHIIIIIHHHHHH", 2, 243, 1, 0, 52, sections, 0, 52, 32, len(segments), 40, 3, 0)
    for (address, _, flags), held in zip(segments, contents):
        made += struct.pack("<8I", 1, begin, address, address, len(held), len(held), flags, 4)
        begin += len(held)
    made += b"".join(contents) + symbols + names + bytes(-len(names) % 4) + bytes(40)
    made += struct.pack("<10I", 0, 2, 0, 0, table, len(symbols), 2, 1, 4, 16)
    return made + struct.pack("<10I", 0, 3, 0, 0, strings, len(names), 0, 0, 1, 0)


class Memory:
    """Bytes drawn by place and seed under those that are written. A global's bytes go by its name, so that they are the
    same in each executable."""

    def __init__(self, image, seed, given):
        self.image, self.seed, self.given = image, seed, given
        self.written, self.drawn = {}, {}
        self.places = sorted((a, a + n, name) for name, (a, n) in image.objects.items() if a not in image.fixed)

    def place(self, address):
        for low, high, name in self.places:
            if low <= address < high:
                return name, address - low
        return "", address

    def first(self, address):
        if address in self.image.fixed:
            return self.image.fixed[address]
        if address not in self.drawn:
            name, offset = self.place(address)
            block = self.given(name, offset & ~3, self.seed)
            self.drawn[address] = block >> 8 * (offset & 3) & 255
        return self.drawn[address]

    def byte(self, address):
        address &= MASK
        return self.written[address] if address in self.written else self.first(address)

    def load(self, address, count):
        return sum(self.byte(address + i) << 8 * i for i in range(count))

    def store(self, address, value, count):
        for i in range(count):
            self.written[address + i & MASK] = value >> 8 * i & 255

    def changes(self, low, high):
        """What is other than at the start, outside the addresses from low to below high, by name and offset."""
        return {self.place(a): b for a, b in self.written.items() if not low <= a < high and b != self.first(a)}


def drawn(pool):
    """The words of memory: some are small, some are of the pool, and some are anything."""

    def word(name, offset, seed):
        n = int.from_bytes(hashlib.blake2b(f"{seed} {name} {offset}".encode(), digest_size=8).digest(), "little")
        kind, x = n >> 60, n & MASK
        if kind < 4:
            return pool[x % len(pool)] if pool else x
        return x % 256 if kind < 6 else MASK - x % 3 if kind < 7 else x

    return word


class Trap(Exception):
    pass


def result_of(op, funct7, a, b):
    """A register computation: its funct3 and funct7."""
    if funct7 == 1:
        s, t = signed(a), signed(b)
        if op == 0:
            return a * b
        if op < 4:
            return ((s if op < 3 else a) * (t if op == 1 else b)) >> 32
        if op in (4, 6):
            if t == 0:
                return MASK if op == 4 else a
            q = abs(s) // abs(t) * (1 if (s < 0) == (t < 0) else -1)
            return q if op == 4 else s - q * t
        return (MASK if op == 5 else a) if b == 0 else a // b if op == 5 else a % b
    if funct7 not in (0, 32) or funct7 == 32 and op not in (0, 5):
        raise Trap
    return [lambda: a - b if funct7 else a + b, lambda: a << (b & 31), lambda: int(signed(a) < signed(b)), lambda: int(a < b), lambda: a ^ b,
            lambda: signed(a) >> (b & 31) if funct7 else a >> (b & 31), lambda: a | b, lambda: a & b][op]()


def step(x, pc, memory):
    """Executes the instruction at pc; the next one's address."""
    if pc & 3 or any(pc + i not in memory.image.fixed for i in range(4)):
        raise Trap
    w = memory.load(pc, 4)
    opcode, rd, op, a, b = w & 127, w >> 7 & 31, w >> 12 & 7, x[w >> 15 & 31], x[w >> 20 & 31]
    i, funct7, put, to = signed(w >> 20, 12), w >> 25, None, pc + 4
    if opcode == 0x37:
        put = w & 0xFFFFF000
    elif opcode == 0x17:
        put = pc + (w & 0xFFFFF000)
    elif opcode == 0x6F:
        put, to = pc + 4, pc + signed((w >> 31) << 20 | (w >> 12 & 255) << 12 | (w >> 20 & 1) << 11 | (w >> 21 & 1023) << 1, 21)
    elif opcode == 0x67 and op == 0:
        put, to = pc + 4, a + i & ~1
    elif opcode == 0x63 and op not in (2, 3):
        s, t = (signed(a), signed(b)) if op < 6 else (a, b)
        if [s == t, s != t, 0, 0, s < t, s >= t, s < t, s >= t][op]:
            to = pc + signed((w >> 31) << 12 | (w >> 7 & 1) << 11 | (w >> 25 & 63) << 5 | (w >> 8 & 15) << 1, 13)
    elif opcode == 3 and op in (0, 1, 2, 4, 5):
        size, address = 1 << (op & 3), a + i & MASK
        if address % size:
            raise Trap
        put = memory.load(address, size)
        put = signed(put, 8 * size) if op < 4 else put
    elif opcode == 0x23 and op < 3:
        size, address = 1 << op, a + signed(funct7 << 5 | rd, 12) & MASK
        if address % size or any(address + k & MASK in memory.image.fixed for k in range(size)):
            raise Trap
        memory.store(address, b, size)
    elif opcode == 0x13:
        if op in (1, 5) and funct7 not in ((0,) if op == 1 else (0, 32)):
            raise Trap
        put = result_of(op, funct7 if op == 5 else 0, a, i & MASK)
    elif opcode == 0x33:
        put = result_of(op, funct7, a, b)
    elif opcode != 0x0F or op != 0:
        raise Trap
    if rd and put is not None:
        x[rd] = put & MASK
    return to & MASK


class Call:
    """How a call of a function ends: `trapped`, `endless`, or what x10, kept registers and memory are."""

    def __init__(self, image, name, arguments, seed, words, stack=None):
        draw = lambda i: int.from_bytes(hashlib.blake2b(f"{seed} x{i}".encode(), digest_size=4).digest(), "little")
        x = [0] + [draw(i) for i in range(1, 32)]
        x[1], x[2] = RETURN, 0x7FFF0000
        if image.pointer is not None:
            x[3] = image.pointer
        for i, value in enumerate(arguments):
            x[10 + i] = value & MASK
        before, pc = list(x), image.functions[name][0]
        self.memory = Memory(image, seed, words)
        lowest = x[2] - (image.stack(name) if stack is None else stack)
        self.end, self.value, self.changed, self.kept = "endless", None, None, None
        try:
            for _ in range(STEPS):
                if pc == RETURN:
                    self.end, self.value = "returned", x[10]
                    self.changed = self.memory.changes(lowest, before[2])
                    self.kept = all(x[i] == before[i] for i in KEPT)
                    return
                pc = step(x, pc, self.memory)
        except Trap:
            self.end = "trapped"
