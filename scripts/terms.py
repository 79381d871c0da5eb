"""Terms, their values, normal forms and clauses, written apart from the crates: the second opinion of `compare_terms.py`.

A term is a tuple: its operator, an operator's number where it has one (`zext`, `sext`, `low`: a width; `byte`: a
place), and its arguments. Leaves are ("true",), ("false",), ("word", width, number) and ("var", name, sort), where a
sort is "bool", "memory" or a width.
"""

NUMBERED = ("zext", "sext", "low", "byte")
SAME_WIDTH = ("add", "sub", "mul", "band", "bor", "bxor", "bnot", "shl", "shr", "sar", "udiv", "urem")


def arguments(t):
    return () if t[0] in ("true", "false", "word", "var") else t[2:] if t[0] in NUMBERED else t[1:]


def sort(t):
    op = t[0]
    if op == "word":
        return t[1]
    if op == "var":
        return t[2]
    if op in ("true", "false", "not", "and", "or", "eq", "ult"):
        return "bool"
    if op in ("zext", "sext", "low"):
        return t[1]
    if op in ("byte", "load8"):
        return 8
    if op in ("store8", "over"):
        return "memory"
    if op == "join":
        return 8 * len(t[1:])
    return sort(t[2]) if op == "ite" else sort(t[1])


def truth(value):
    return ("true",) if value else ("false",)


def text(t):
    """The term as a certificate spells it."""
    if t[0] == "word":
        return f"{t[1]}:{t[2]}"
    if t[0] == "var":
        return t[1]
    if not arguments(t):
        return t[0]
    head = f"{t[0]} {t[1]}" if t[0] in NUMBERED else t[0]
    return f"({head} {' '.join(text(a) for a in arguments(t))})"


# ---- values


def signed(number, width):
    return number - 2**width if number >> width - 1 else number


def operate(op, number, values, width):
    """The value of an operator on words and truth values; `width` is that of the first argument."""
    a, b = (list(values) + [0, 0])[:2]
    mask = 2**width - 1 if isinstance(width, int) else 1
    if op == "join":
        return sum(byte << 8 * i for i, byte in enumerate(values))
    if op == "ite":
        return values[1] if a else values[2]
    return {
        "not": lambda: not a,
        "and": lambda: a and b,
        "or": lambda: a or b,
        "eq": lambda: a == b,
        "ult": lambda: a < b,
        "add": lambda: a + b & mask,
        "sub": lambda: a - b & mask,
        "mul": lambda: a * b & mask,
        "band": lambda: a & b,
        "bor": lambda: a | b,
        "bxor": lambda: a ^ b,
        "bnot": lambda: a ^ mask,
        "shl": lambda: a << b & mask if b < width else 0,
        "shr": lambda: a >> b if b < width else 0,
        "sar": lambda: signed(a, width) >> min(b, width - 1) & mask,
        "udiv": lambda: a // b if b else mask,
        "urem": lambda: a % b if b else a,
        "zext": lambda: a,
        "sext": lambda: signed(a, width) & 2**number - 1,
        "low": lambda: a & 2**number - 1,
        "byte": lambda: a >> 8 * number & 255,
    }[op]()


def value(t, assignment):
    """Of a memory the value is a function from addresses to bytes."""
    op = t[0]
    if op in ("true", "false"):
        return op == "true"
    if op == "word":
        return t[2]
    if op == "var":
        return assignment[t[1]]
    found = [value(a, assignment) for a in arguments(t)]
    if op == "load8":
        return found[0](found[1])
    if op == "store8":
        memory, address, byte = found
        return lambda d: byte if d == address else memory(d)
    if op == "over":
        below, above, low, high = found
        return lambda d: above(d) if low <= d < high else below(d)
    return operate(op, t[1] if op in NUMBERED else None, found, sort(arguments(t)[0]))


# ---- the normal form


def is_word(t, number=None):
    return t[0] == "word" and number in (None, t[2])


def is_constant(t):
    return t[0] in ("true", "false", "word")


def zero_of(t):
    return ("false",) if sort(t) == "bool" else ("word", sort(t), 0)


def one_of(t):
    return ("true",) if sort(t) == "bool" else ("word", sort(t), 2 ** sort(t) - 1)


def negates(x, y):
    return x[0] in ("not", "bnot") and x[1] == y


def parted(x):
    """A sum with a constant as its term and the constant; another term with 0."""
    return (x[1], x[2][2]) if x[0] == "add" and is_word(x[2]) else (x, 0)


def rule(t, fixed):
    """What the first rule that applies makes of a term whose arguments are in normal form, or None."""
    op, args = t[0], arguments(t)
    step = lambda *u: once(u, fixed)
    if args and all(map(is_constant, args)):
        found = operate(op, t[1] if op in NUMBERED else None, [value(a, {}) for a in args], sort(args[0]))
        return truth(found) if sort(t) == "bool" else ("word", sort(t), found)
    if op in ("not", "bnot") and args[0][0] == op:
        return args[0][1]
    if op in ("and", "band", "or", "bor"):
        x, y = args
        zero, one = (zero_of(x), one_of(x)) if op in ("and", "band") else (one_of(x), zero_of(x))
        if zero in args:
            return zero
        if one in args:
            return y if x == one else x
        if x == y:
            return x
        if negates(x, y) or negates(y, x):
            return zero
    if op == "bxor":
        x, y = args
        if x == y:
            return zero_of(x)
        if zero_of(x) in args:
            return y if x == zero_of(x) else x
    if op == "sub":
        x, y = args
        if x == y:
            return zero_of(x)
        if is_word(y):
            return step("add", x, ("word", y[1], -y[2] % 2 ** y[1]))
    if op == "add":
        x, y = args
        if is_word(x):
            return step("add", y, x)
        if is_word(y, 0):
            return x
        if is_word(y) and x[0] == "add" and is_word(x[2]):
            return step("add", x[1], ("word", y[1], (x[2][2] + y[2]) % 2 ** y[1]))
    if op == "mul":
        x, y = args
        if is_word(x):
            return step("mul", y, x)
        if is_word(y, 0):
            return y
        if is_word(y, 1):
            return x
    if op == "eq":
        x, y = args
        if x == y:
            return ("true",)
        for a, b in ((x, y), (y, x)):
            if a == ("true",):
                return b
            if a == ("false",):
                return step("not", b)
        if isinstance(sort(x), int):
            (a, c), (b, d) = parted(x), parted(y)
            if a == b and c != d and not is_constant(a):
                return ("false",)
    if op == "ult" and (args[0] == args[1] or is_word(args[1], 0)):
        return ("false",)
    if op == "ite":
        c, x, y = args
        if is_constant(c):
            return x if c == ("true",) else y
        if x == y:
            return x
        if x == ("true",) and y == ("false",):
            return c
        if c[0] == "not":
            return step("ite", c[1], y, x)
    if op in ("shl", "shr", "sar") and is_word(args[1], 0):
        return args[0]
    if op in ("zext", "sext", "low") and sort(args[0]) == t[1]:
        return args[0]
    if op == "low" and args[0][0] in ("zext", "sext") and sort(args[0][2]) == t[1]:
        return args[0][2]
    if op == "join" and all(a[0] == "byte" and a[1] == i and a[2] == args[0][2] for i, a in enumerate(args)):
        if sort(args[0][2]) == sort(t):
            return args[0][2]
    if op == "byte" and args[0][0] == "join":
        return args[0][1 + t[1]]
    if op == "load8":
        memory, d = args
        if memory[0] == "store8":
            _, below, a, b = memory
            return step("ite", step("eq", d, a), b, step("load8", below, d))
        if memory[0] == "over":
            _, below, above, low, high = memory
            inside = step("and", step("not", step("ult", d, low)), step("ult", d, high))
            return step("ite", inside, step("load8", above, d), step("load8", below, d))
        if memory[0] == "ite":
            return step("ite", memory[1], step("load8", memory[2], d), step("load8", memory[3], d))
        if memory[0] == "var" and memory[1].startswith("m") and is_word(d) and d[2] in fixed:
            return ("word", 8, fixed[d[2]])
    return None


def once(t, fixed):
    found = rule(t, fixed)
    return t if found is None else found


def normal(t, fixed):
    """The normal form; memory variables whose names begin with m are the source's, and hold the fixed bytes."""
    if not arguments(t):
        return t
    head = t[:2] if t[0] in NUMBERED else t[:1]
    return once(head + tuple(normal(a, fixed) for a in arguments(t)), fixed)


# ---- the clauses of a goal in normal form


class Clauses:
    def __init__(self):
        self.last = 1
        self.clauses = [[1]]
        self.bits = {}
        self.quotients = {}
        self.loads = []

    def new(self, count=1):
        self.last += count
        return list(range(self.last - count + 1, self.last + 1))

    def gate(self, rows):
        (o,) = self.new()
        self.clauses += rows(o)
        return o

    def both(self, a, b):
        return self.gate(lambda o: [[-o, a], [-o, b], [o, -a, -b]])

    def either(self, a, b):
        return -self.both(-a, -b)

    def unlike(self, a, b):
        return self.gate(lambda o: [[-o, a, b], [-o, -a, -b], [o, -a, b], [o, a, -b]])

    def choice(self, c, a, b):
        return self.gate(lambda o: [[-c, -a, o], [-c, a, -o], [c, -b, o], [c, b, -o]])

    def majority(self, a, b, c):
        return self.gate(lambda o: [[-a, -b, o], [-a, -c, o], [-b, -c, o], [a, b, -o], [a, c, -o], [b, c, -o]])

    @staticmethod
    def fold(gate, bits):
        found = bits[0]
        for bit in bits[1:]:
            found = gate(found, bit)
        return found

    def equal(self, x, y):
        unlike = [self.unlike(a, b) for a, b in zip(x, y)]
        return self.fold(self.both, [-bit for bit in unlike])

    def sum(self, x, y, carry):
        found = []
        for a, b in zip(x, y):
            half = self.unlike(a, b)
            found.append(self.unlike(half, carry))
            carry = self.majority(a, b, carry)
        return found

    def less(self, x, y):
        carry = 1
        for a, b in zip(x, y):
            carry = self.majority(a, -b, carry)
        return -carry

    def product(self, x, y):
        found = [self.both(a, y[0]) for a in x]
        for k in range(1, len(x)):
            row = [-1] * k + [self.both(x[i - k], y[k]) for i in range(k, len(x))]
            found = self.sum(found, row, -1)
        return found

    def shift(self, op, x, count):
        width, fill = len(x), x[-1] if op == "sar" else -1
        k = 0
        while 2**k < width:
            moved = [fill] * 2**k
            moved = moved + x[: -(2**k)] if op == "shl" else x[2**k :] + moved
            x = [self.choice(count[k], a, b) for a, b in zip(moved, x)]
            k += 1
        past = self.fold(self.either, count[k:])
        return [self.choice(past, fill, bit) if op == "sar" else self.both(-past, bit) for bit in x]

    def divided(self, terms, x, y):
        """The quotient and the remainder of two terms, which share their variables."""
        if terms not in self.quotients:
            width = len(x)
            q, r = self.new(width), self.new(width)
            wide = lambda bits: bits + [-1] * width
            n = self.fold(self.either, y)
            e1 = self.equal(self.sum(self.product(wide(q), wide(y)), wide(r), -1), wide(x))
            e2 = self.less(r, y)
            self.clauses += [[-n, e1], [-n, e2]]
            for a, b, c in zip(q, r, x):
                self.clauses += [[n, a], [n, -b, c], [n, b, -c]]
            self.quotients[terms] = q, r
        return self.quotients[terms]

    def of(self, t):
        """The literals of a term, lowest first, one of a truth value; none of a memory."""
        if t not in self.bits:
            found = [self.of(a) for a in arguments(t)]
            self.bits[t] = self.made(t, found)
        return self.bits[t]

    def made(self, t, found):
        op = t[0]
        width = sort(t)
        if op == "true":
            return [1]
        if op == "false":
            return [-1]
        if op == "word":
            return [1 if t[2] >> i & 1 else -1 for i in range(width)]
        if op == "var":
            return self.new(1 if width == "bool" else width) if width != "memory" else []
        if op == "load8":
            bits = self.new(8)
            self.loads.append((t[1], found[1], bits))
            return bits
        x, y = (found + [[], []])[:2]
        if op in ("not", "bnot"):
            return [-bit for bit in x]
        if op in ("and", "band"):
            return [self.both(a, b) for a, b in zip(x, y)]
        if op in ("or", "bor"):
            return [self.either(a, b) for a, b in zip(x, y)]
        if op == "bxor":
            return [self.unlike(a, b) for a, b in zip(x, y)]
        if op == "eq":
            return [self.equal(x, y)]
        if op == "ult":
            return [self.less(x, y)]
        if op == "ite":
            return [self.choice(x[0], a, b) for a, b in zip(y, found[2])]
        if op == "add":
            return self.sum(x, y, -1)
        if op == "sub":
            return self.sum(x, [-bit for bit in y], 1)
        if op == "mul":
            return self.product(x, y)
        if op in ("shl", "shr", "sar"):
            return self.shift(op, x, y)
        if op in ("udiv", "urem"):
            return self.divided(t[1:], x, y)[op == "urem"]
        if op == "zext":
            return x + [-1] * (width - len(x))
        if op == "sext":
            return x + [x[-1]] * (width - len(x))
        if op == "low":
            return x[:width]
        if op == "byte":
            return x[8 * t[1] : 8 * t[1] + 8]
        assert op == "join"
        return sum(found, [])

    def tie_loads(self):
        """Loads of one memory at equal addresses are equal."""
        memories = list(dict.fromkeys(memory for memory, _, _ in self.loads))
        for memory in memories:
            loads = [(address, bits) for one, address, bits in self.loads if one == memory]
            for i, (a, first) in enumerate(loads):
                for b, second in loads[i + 1 :]:
                    same = self.equal(a, b)
                    for x, y in zip(first, second):
                        self.clauses += [[-same, -x, y], [-same, x, -y]]


def clauses(goal):
    """How many variables there are, and the clauses."""
    made = Clauses()
    (literal,) = made.of(goal)
    made.tie_loads()
    made.clauses.append([-literal])
    return made.last, made.clauses
