//! The kinds of lines: word, sort, operands.

/// What an operand of a line is.
#[derive(Clone, Copy, PartialEq, Eq, Debug)]
pub enum Place {
    /// A plain number: a width, a value, a bound, extra bits.
    Number,
    /// A line of kind 1.
    WordSort,
    /// A line of kind 2.
    ArraySort,
    /// Either.
    AnySort,
    /// A line of kind 5.
    State,
    /// A value line of a word sort.
    Word,
    /// A value line of an array sort.
    Array,
    /// A value line.
    Value,
}
use Place::*;

pub struct Kind {
    pub word: &'static str,
    /// The class of the line's sort, where it has one.
    pub sort: Option<Place>,
    pub operands: &'static [Place],
}

const fn kind(word: &'static str, sort: Option<Place>, operands: &'static [Place]) -> Kind {
    Kind { word, sort, operands }
}

const UNARY: &[Place] = &[Word];
const BINARY: &[Place] = &[Word, Word];
const W: Option<Place> = Some(WordSort);
const A: Option<Place> = Some(ArraySort);
const ANY: Option<Place> = Some(AnySort);

/// Row k - 1 describes kind k. Kind 56, the mask, stands in programs alone and has no word.
pub const KINDS: [Kind; 63] = [
    kind("sort bitvec", None, &[Number]),
    kind("sort array", None, &[WordSort, WordSort]),
    kind("constd", W, &[Number]),
    kind("input", W, &[]),
    kind("state", ANY, &[]),
    kind("init", ANY, &[State, Word]),
    kind("next", ANY, &[State, Value]),
    kind("bad", None, UNARY),
    kind("constraint", None, UNARY),
    kind("output", None, UNARY),
    kind("not", W, UNARY),
    kind("neg", W, UNARY),
    kind("inc", W, UNARY),
    kind("dec", W, UNARY),
    kind("redand", W, UNARY),
    kind("redor", W, UNARY),
    kind("redxor", W, UNARY),
    kind("slice", W, &[Word, Number, Number]),
    kind("uext", W, &[Word, Number]),
    kind("sext", W, &[Word, Number]),
    kind("eq", W, &[Value, Value]),
    kind("neq", W, &[Value, Value]),
    kind("ult", W, BINARY),
    kind("ulte", W, BINARY),
    kind("ugt", W, BINARY),
    kind("ugte", W, BINARY),
    kind("slt", W, BINARY),
    kind("slte", W, BINARY),
    kind("sgt", W, BINARY),
    kind("sgte", W, BINARY),
    kind("iff", W, BINARY),
    kind("implies", W, BINARY),
    kind("and", W, BINARY),
    kind("or", W, BINARY),
    kind("xor", W, BINARY),
    kind("nand", W, BINARY),
    kind("nor", W, BINARY),
    kind("xnor", W, BINARY),
    kind("add", W, BINARY),
    kind("sub", W, BINARY),
    kind("mul", W, BINARY),
    kind("udiv", W, BINARY),
    kind("urem", W, BINARY),
    kind("sdiv", W, BINARY),
    kind("srem", W, BINARY),
    kind("smod", W, BINARY),
    kind("sll", W, BINARY),
    kind("srl", W, BINARY),
    kind("sra", W, BINARY),
    kind("rol", W, BINARY),
    kind("ror", W, BINARY),
    kind("concat", W, BINARY),
    kind("ite", ANY, &[Word, Value, Value]),
    kind("read", W, &[Array, Word]),
    kind("write", A, &[Array, Word, Word]),
    kind("", W, UNARY),
    kind("uaddo", W, BINARY),
    kind("saddo", W, BINARY),
    kind("usubo", W, BINARY),
    kind("ssubo", W, BINARY),
    kind("umulo", W, BINARY),
    kind("smulo", W, BINARY),
    kind("sdivo", W, BINARY),
];

/// The row of a kind from 1 to 63.
pub fn row(kind: u64) -> &'static Kind {
    &KINDS[kind as usize - 1]
}

/// Kinds 3 to 5 and 11 to 63 are value lines.
pub fn is_value(kind: u64) -> bool {
    matches!(kind, 3..=5 | 11..=63)
}

/// Kinds 1 to 55 and 57 to 63 stand in circuits.
pub fn in_circuits(kind: u64) -> bool {
    matches!(kind, 1..=55 | 57..=63)
}

/// Kinds 3 to 53 and 56 to 63 stand in programs.
pub fn in_programs(kind: u64) -> bool {
    matches!(kind, 3..=53 | 56..=63)
}
