"""Random functions of the subset without loops and calls, for `compare_compilers.py`: words, narrow types, two globals, a
struct behind a pointer, assignments, `if`, `?:`, comparisons, shifts, masks."""

import random

TYPES = ["unsigned", "int", "unsigned char", "signed char", "unsigned short", "short"]
HEAD = """struct s { unsigned a; short b; unsigned char c, d; int e[4]; };
unsigned total;
short levels[4];
"""
PLACES = ["total", "levels[1]", "levels[3]", "p->a", "p->b", "p->c", "p->d", "p->e[2]"]


class Text:
    def __init__(self, seed):
        self.made = random.Random(f"function {seed}")
        self.names = []

    def constant(self):
        n = self.made.choice([0, 1, 2, 3, 5, 7, 8, 12, 31, 100, 127, 128, 255, 256, 1000, 65535, 0x7FFFFFFF, 0x80000000, 0xFFFF0000])
        return f"{n}u" if n > 0x7FFFFFFF or self.made.random() < 0.5 else str(n)

    def operand(self):
        kind = self.made.random()
        if kind < 0.65:
            return self.made.choice(self.names)
        return self.constant() if kind < 0.85 else self.made.choice(PLACES + ["levels[i & 3]"] if "i" in self.names else PLACES)

    def expression(self, depth):
        if depth == 0 or self.made.random() < 0.2:
            return self.operand()
        a, b = self.expression(depth - 1), self.expression(depth - 1)
        kind = self.made.randrange(12)
        if kind < 5:
            return f"({a} {self.made.choice(['+', '-', '&', '|', '^', '&', '+'])} {b})"
        if kind == 5:
            return f"({a} {self.made.choice(['<<', '>>'])} {self.made.randrange(32)})"
        if kind == 6:
            return f"({a} {self.made.choice(['<', '<=', '>', '>=', '==', '!='])} {b})"
        if kind == 7:
            return f"({self.expression(depth - 1)} ? {a} : {b})"
        if kind == 8:
            return f"({a} {self.made.choice(['&&', '||'])} {b})"
        if kind == 9:
            return f"({self.made.choice(TYPES)})({a})"
        return f"({a} * {self.made.choice([2, 3, 4, 5, 10])}u)" if kind == 10 else f"({self.made.choice('~-!')}{a})"

    def statement(self, depth):
        kind = self.made.random()
        if kind < 0.3 and depth:
            other = f" else {{ {self.statement(depth - 1)} }}" if self.made.random() < 0.5 else ""
            return f"if ({self.expression(2)}) {{ {self.statement(depth - 1)} }}{other}"
        target = self.made.choice(self.names) if kind < 0.75 else self.made.choice(PLACES)
        return f"{target} {self.made.choice(['=', '=', '+=', '^=', '|=', '&='])} {self.expression(2)};"

    def function(self):
        types = [self.made.choice(TYPES) for _ in range(self.made.randrange(2, 4))]
        self.names = ["i", "x", "y"][: len(types)]
        parameters = ", ".join(f"{t} {n}" for t, n in zip(types, self.names))
        lines = []
        for n in range(self.made.randrange(1, 3)):
            lines.append(f"    {self.made.choice(TYPES)} v{n} = {self.expression(2)};")
            self.names.append(f"v{n}")
        lines += [f"    {self.statement(1)}" for _ in range(self.made.randrange(1, 4))]
        lines.append(f"    return {self.expression(2)};")
        return f"{HEAD}{self.made.choice(TYPES)} f(struct s *p, {parameters})\n{{\n" + "\n".join(lines) + "\n}\n"


def functions(count, seed):
    """Names and texts."""
    for number in range(count):
        yield f"random {seed} {number}", Text(f"{seed} {number}").function()
