"""How terms are given to the crates: as words, and the part of a program that reads them into a bank."""

from terms import NUMBERED, arguments

# the part of a program, after its own uses, that reads a term; AllocError is among these
READER = r"""use term_bank::{Bank, TermId, TermNode};
use term_core_spec::{
    Atom, BinaryOperator, Family, QuaternaryOperator, Sort, TernaryOperator, UnaryOperator,
    Variable, Width, WordOperator,
};

fn width(text: &str) -> Width {
    match text {
        "8" => Width::W8,
        "16" => Width::W16,
        "32" => Width::W32,
        _ => Width::W64,
    }
}

fn number(text: &str) -> u64 {
    let mut n: u64 = 0;
    for b in text.bytes() {
        n = n.wrapping_mul(10).wrapping_add(u64::from(b.wrapping_sub(b'0')));
    }
    n
}

fn open(family: Family, index: usize, sort: Sort) -> Atom {
    Atom::Open(Variable {
        family,
        index,
        instance: 0,
        sort,
    })
}

fn atom(name: &str, rest: &str) -> Atom {
    match name {
        "true" => Atom::Truth(true),
        "false" => Atom::Truth(false),
        "m0" => open(Family::SourceMemory, 0, Sort::Memory),
        "m1" => open(Family::SourceMemory, 1, Sort::Memory),
        "z0" => open(Family::BinaryMemory, 0, Sort::Memory),
        "z1" => open(Family::ZoneMemory, 0, Sort::Memory),
        "p" => open(Family::IsSet, 0, Sort::Truth),
        "q" => open(Family::IsSet, 1, Sort::Truth),
        "r" => open(Family::IsSet, 2, Sort::Truth),
        "a" => open(Family::Register, 0, Sort::Word(width(rest))),
        "b" => open(Family::Register, 1, Sort::Word(width(rest))),
        "c" => open(Family::Register, 2, Sort::Word(width(rest))),
        _ => Atom::Constant(width(name), number(rest)),
    }
}

fn unary(name: &str, rest: &str) -> Option<UnaryOperator> {
    match name {
        "not" => Some(UnaryOperator::Not),
        "bnot" => Some(UnaryOperator::Complement),
        "zext" => Some(UnaryOperator::ZeroExtend(width(rest))),
        "sext" => Some(UnaryOperator::SignExtend(width(rest))),
        "low" => Some(UnaryOperator::Low(width(rest))),
        "byte" => Some(UnaryOperator::Byte(number(rest) as u8)),
        _ => None,
    }
}

fn on_words(name: &str) -> Option<WordOperator> {
    match name {
        "add" => Some(WordOperator::Add),
        "sub" => Some(WordOperator::Subtract),
        "mul" => Some(WordOperator::Multiply),
        "band" => Some(WordOperator::And),
        "bor" => Some(WordOperator::Or),
        "bxor" => Some(WordOperator::Xor),
        "shl" => Some(WordOperator::ShiftLeft),
        "shr" => Some(WordOperator::ShiftRight),
        "sar" => Some(WordOperator::ShiftRightSigned),
        "udiv" => Some(WordOperator::Divide),
        "urem" => Some(WordOperator::Remainder),
        _ => None,
    }
}

fn binary(name: &str) -> Option<BinaryOperator> {
    match name {
        "and" => Some(BinaryOperator::And),
        "or" => Some(BinaryOperator::Or),
        "eq" => Some(BinaryOperator::Equal),
        "ult" => Some(BinaryOperator::Less),
        "load8" => Some(BinaryOperator::Load),
        "join2" => Some(BinaryOperator::Join),
        _ => Some(BinaryOperator::Word(on_words(name)?)),
    }
}

fn next(read: &mut Vec<TermId>) -> TermId {
    read.pop().unwrap_or(0)
}

fn node(read: &mut Vec<TermId>, word: &str) -> TermNode {
    let (name, rest) = word.split_once(':').unwrap_or((word, ""));
    if let Some(operator) = unary(name, rest) {
        return TermNode::Unary(operator, next(read));
    }
    if let Some(operator) = binary(name) {
        let (a, b) = (next(read), next(read));
        return TermNode::Binary(operator, a, b);
    }
    let (a, b, c) = match name {
        "ite" | "store8" | "over" | "join4" | "join8" => (next(read), next(read), next(read)),
        _ => return TermNode::Leaf(atom(name, rest)),
    };
    match name {
        "ite" => return TermNode::Ternary(TernaryOperator::Choose, a, b, c),
        "store8" => return TermNode::Ternary(TernaryOperator::Store, a, b, c),
        _ => {}
    }
    let d = next(read);
    match name {
        "over" => TermNode::Quaternary(QuaternaryOperator::Over, a, b, c, d),
        "join4" => TermNode::Quaternary(QuaternaryOperator::Join, a, b, c, d),
        _ => {
            let (e, f, g, h) = (next(read), next(read), next(read), next(read));
            TermNode::Octonary(a, b, c, d, e, f, g, h)
        }
    }
}

fn term(bank: &mut Bank, read: &mut Vec<TermId>, text: &str) -> Result<TermId, AllocError> {
    for word in text.split(' ') {
        let made = node(read, word);
        let id = bank.add(made)?;
        read.push(id)?;
    }
    Ok(next(read))
}
"""


def backwards(t):
    """The words of a term from the last on, each operator before its arguments."""
    head = t[0] + str(len(t) - 1) * (t[0] == "join")
    if t[0] in NUMBERED:
        head = f"{t[0]}:{t[1]}"
    if t[0] == "word":
        head = f"{t[1]}:{t[2]}"
    if t[0] == "var":
        head = t[1] if t[2] in ("bool", "memory") else f"{t[1][0]}:{t[2]}"
    words = []
    for part in reversed(arguments(t)):
        words += backwards(part)
    return words + [head]
