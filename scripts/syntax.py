"""The C subset once more, as a grammar that is data and a chart parser over it: the second opinion on syntax.

`fault(tokens)` is None for a unit, and else the number of the first token with which those before begin no unit (the
number of tokens at the end), and its kind. Limits of depth are not looked at. A token is its text; a name, a number and
a character constant are told apart by their first character. Whether a name is a typedef name depends on the declarations
before it.
"""

import itertools
import re

INTEGERS = [
    "char", "signed char", "unsigned char", "short", "signed short", "short int", "signed short int", "unsigned short",
    "unsigned short int", "int", "signed", "signed int", "unsigned", "unsigned int", "long", "signed long", "long int",
    "signed long int", "unsigned long", "unsigned long int", "long long", "signed long long", "long long int",
    "signed long long int", "unsigned long long", "unsigned long long int",
]
WORDS = sorted({order for names in INTEGERS for order in itertools.permutations(names.split())})

# NAME is no typedef name, TYPE is one, ANY is either. A name that ends in -T is of an item with `typedef`.
GRAMMAR = r"""
unit    = { item }
item    = ";" | specsT ";" | specsN ";" | specsN fdeclr block
        | specsN globalN { "," globalN } ";" | specsT globalT { "," globalT } ";"
globalN = ( odeclr | fdeclr ) [ "=" init ]
globalT = newtype [ "=" init ]
newtype = odeclr
wordN   = "extern" | "static" | "inline" | "const"
specsN  = { wordN } base { wordN }
specsT  = { wordN } "typedef" { wordN | "typedef" } base { wordN | "typedef" } | { wordN } base { wordN } "typedef" { wordN | "typedef" }
specsL  = { "static" | "const" } base { "static" | "const" }
specs   = { "const" } base { "const" }
base    = "void" | integer | TYPE | struct | enum
struct  = "struct" NAME | "struct" [ NAME ] "{" { specs member { "," member } ";" } "}"
member  = ptr mname [ dims ]
mname   = ANY
enum    = "enum" NAME | "enum" [ NAME ] "{" one { "," one } [ "," ] "}"
one     = NAME [ "=" cond ]
ptr     = { "*" { "const" } }
dname   = NAME
odeclr  = ptr dname [ dims ]
fdeclr  = ptr dname "(" [ "void" | param { "," param } ] ")"
param   = specs ptr [ dname ] [ dims ]
dims    = "[" [ cond ] "]" { "[" cond "]" }
init    = cond | "{" [ ini { "," ini } [ "," ] ] "}"
ini     = [ ( "." ANY | "[" cond "]" ) { "." ANY | "[" cond "]" } "=" ] init
block   = "{" { local ";" | stmt } "}"
local   = specsL odeclr [ "=" ( call | cond ) ] { "," odeclr [ "=" ( call | cond ) ] }
stmt    = block | ";" | whole ";" | "break" ";" | "continue" ";" | "return" [ call | cond ] ";"
        | "if" "(" cond ")" stmt [ "else" stmt ] | "while" "(" cond ")" stmt
        | "do" stmt "while" "(" cond ")" ";"
        | "for" "(" [ local | simple ] ";" [ cond ] ";" [ simple ] ")" stmt
        | "switch" "(" cond ")" "{" { label { label } { local ";" | stmt } } "}"
whole   = simple
label   = "case" cond ":" | "default" ":"
simple  = unary ( "=" ( call | cond ) | assign cond ) | postfix ( "++" | "--" ) | ( "++" | "--" ) unary | call | cond
assign  = "*=" | "/=" | "%=" | "+=" | "-=" | "<<=" | ">>=" | "&=" | "^=" | "|="
call    = NAME "(" [ cond { "," cond } ] ")"
cond    = binary [ "?" cond ":" cond ]
binary  = cast { operator cast }
operator = "||" | "&&" | "|" | "^" | "&" | "==" | "!=" | "<" | ">" | "<=" | ">=" | "<<" | ">>" | "+" | "-" | "*" | "/" | "%"
cast    = "(" type ")" cast | unary
type    = specs ptr
unary   = ( "&" | "*" | "+" | "-" | "~" | "!" ) cast | "sizeof" ( "(" type ")" | unary ) | postfix
postfix = primary | postfix "[" cond "]" | postfix "." ANY | postfix "->" ANY
primary = NAME | NUMBER | CHARACTER | "(" cond ")"
"""

KEYWORDS = set(
    "auto break case char const continue default do double else enum extern float for goto if inline int long register "
    "restrict return short signed sizeof static struct switch typedef union unsigned void volatile while _Alignas _Alignof "
    "_Atomic _Bool _Complex _Generic _Imaginary _Noreturn _Static_assert _Thread_local asm __asm __asm__ __attribute__".split()
)
LEFT_OUT = {
    "goto": "Goto", "union": "Union", "float": "Float", "double": "Float", "_Complex": "Float", "volatile": "Volatile", "asm": "Asm",
    "__asm": "Asm", "__asm__": "Asm", "...": "Variadic", "_Bool": "Bool", "__attribute__": "Attribute",
} | dict.fromkeys("auto register restrict _Alignas _Alignof _Atomic _Generic _Imaginary _Noreturn _Static_assert _Thread_local".split(), "Keyword")
OPERATORS = set("sizeof . -> ++ -- & * + - ~ ! / % << >> < > <= >= == != ^ | && || ? = *= /= %= += -= <<= >>= &= ^= |= ( [".split())
TERMINALS = ("NAME", "TYPE", "ANY", "NUMBER", "CHARACTER")


def productions():
    """The grammar without braces and brackets: for each nonterminal its right sides."""
    rules = {"integer": [tuple(f'"{word}"' for word in words) for words in WORDS]}
    fresh = itertools.count()

    def alternatives(text):
        """Right sides of the text up to what closes it, and what is left."""
        sides, side = [], ()
        while text:
            head, text = text[0], text[1:]
            if head in ("]", "}", ")"):
                break
            if head == "|":
                sides, side = sides + [side], ()
            elif head in ("[", "{", "("):
                inner, text = alternatives(text)
                name = f"~{next(fresh)}"
                rules[name] = {"(": inner, "[": inner + [()], "{": [()] + [(name,) + one for one in inner]}[head]
                side += (name,)
            else:
                side += (head,)
        return sides + [side], text

    lines = re.sub(r"\n +\|", " |", GRAMMAR).strip().splitlines()
    for line in lines:
        name, text = line.split(" = ", 1)
        rules[name.strip()] = alternatives(text.split())[0]
    return rules


RULES = productions()
NULLABLE = set()
while True:
    found = {name for name, sides in RULES.items() if any(all(part in NULLABLE for part in side) for side in sides)}
    if found == NULLABLE:
        break
    NULLABLE = found


def fits(terminal, token, types):
    if terminal[0] == '"':
        return token == terminal[1:-1]
    is_name = (token[0].isalpha() or token[0] == "_") and token not in KEYWORDS
    if terminal in ("NAME", "TYPE", "ANY"):
        return is_name and (terminal == "ANY" or (token in types) == (terminal == "TYPE"))
    return token[0].isdigit() if terminal == "NUMBER" else token[0] == "'"


class Chart:
    """The sets of states after each token: a nonterminal, its right side, a place in it, and where it began."""

    def __init__(self, start="unit", types=()):
        self.start, self.types, self.tokens, self.sets = start, set(types), [], []
        self.close({(start, side, 0, 0) for side in RULES[start]})

    def close(self, states):
        here, waiting = set(states), list(states)
        number = len(self.sets)
        self.sets.append(here)
        while waiting:
            name, side, dot, origin = waiting.pop()
            if dot < len(side) and side[dot] in RULES:
                new = [(side[dot], other, 0, number) for other in RULES[side[dot]]]
                new += [(name, side, dot + 1, origin)] if side[dot] in NULLABLE else []
            elif dot == len(side):
                new = [(n, s, d + 1, o) for n, s, d, o in self.sets[origin] if d < len(s) and s[d] == name]
            else:
                continue
            for state in new:
                if state not in here:
                    here.add(state)
                    waiting.append(state)

    def expected(self):
        return {side[dot] for _, side, dot, _ in self.sets[-1] if dot < len(side) and side[dot] not in RULES}

    def push(self, token):
        """Takes a token, or answers that those before and it begin nothing."""
        next_states = {(n, s, d + 1, o) for n, s, d, o in self.sets[-1] if d < len(s) and s[d] not in RULES and fits(s[d], token, self.types)}
        if not next_states:
            return False
        if token in (",", "=", ";"):
            self.declare()
        self.tokens.append(token)
        self.close(next_states)
        return True

    def declare(self):
        """A typedef name is in scope from the end of its declarator."""
        for name, side, dot, origin in self.sets[-1]:
            if name == "newtype" and dot == len(side):
                self.types.add(next(token for token in self.tokens[origin:] if token not in ("*", "const")))

    def ended(self, name):
        """Where the parts of this name that end here began."""
        return {origin for n, side, dot, origin in self.sets[-1] if n == name and dot == len(side)}

    def is_whole(self):
        return 0 in self.ended(self.start)

    def kind(self, token):
        """The kind of the fault at a token that can't come here."""
        if token is None:
            return "Unexpected"
        here = len(self.tokens)
        is_name = lambda at: fits("NAME", self.tokens[at], self.types)
        if token in LEFT_OUT:
            return "LeftOut." + LEFT_OUT[token]
        expects = lambda name: any(d < len(s) and s[d] == name for _, s, d, _ in self.sets[-1])
        if token == "(" and (expects("dname") or expects("mname")):
            return "LeftOut.FunctionPointer"
        if token == ":" and self.ended("mname"):
            return "LeftOut.BitField"
        wholes = self.ended("whole")
        if token == ":" and here - 1 in wholes and is_name(here - 1):
            return "LeftOut.Goto"
        if token == "," and wholes:
            return "LeftOut.Comma"
        calls = self.ended("call") and self.tokens[here - 1] == ")"
        operand = any(self.ended(name) for name in ("primary", "postfix", "unary", "cond", "simple", "call"))
        if token == "(" and operand or calls and token in OPERATORS:
            return "LeftOut.Call"
        return "Unexpected"


def fault(tokens, start="unit", types=()):
    chart = Chart(start, types)
    for number, token in enumerate(tokens):
        if not chart.push(token):
            return number, chart.kind(token)
    return None if chart.is_whole() else (len(tokens), "Unexpected")
