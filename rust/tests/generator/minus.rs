//! Minus operands: texts that have them where they may stand and where they may not, and the same circuits with the
//! complements written out.

use super::*;

/// A circuit, and the operands that have a minus in its text.
pub struct Minus {
    pub lines: Lines,
    /// For each record, beside its words.
    pub signs: Vec<[bool; 5]>,
}

/// What a token of a line is, to a minus before it.
#[derive(Clone, Copy, PartialEq, Eq, Debug)]
pub(super) enum Role {
    Id,
    Word,
    /// A width, a bound, extra bits, a constant.
    Number,
    Sort,
    Array,
    InitValue,
    /// The state that an init or a next sets.
    State,
    /// A word that may have a minus.
    Operand,
}

/// What may stand for a token n: a complement, what is malformed, and numbers that no line has.
pub(super) const FORMS: &[&str] = &[
    "-n",
    "--n",
    "-0n",
    "+n",
    "-+n",
    "+-n",
    "n-",
    "-n-",
    "- n",
    "-",
    "-00",
    "-0",
    "0",
    "-18446744073709551615",
    "-18446744073709551616",
];

pub(super) fn formed(form: &str, token: &[u8]) -> Vec<u8> {
    form.bytes().flat_map(|byte| if byte == b'n' { token.to_vec() } else { vec![byte] }).collect()
}

/// The roles of tokens that are damaged, some more often than others.
const ROLES: [Role; 12] = [
    Role::Id,
    Role::Word,
    Role::Number,
    Role::Number,
    Role::Sort,
    Role::Array,
    Role::InitValue,
    Role::State,
    Role::Operand,
    Role::Operand,
    Role::Operand,
    Role::Operand,
];

/// The role of each word of a record that a line has a token for: the word's place, and the role.
pub(super) fn roles(lines: &Lines, r: &Record) -> Vec<(usize, Role)> {
    let places = row(r[0]).sort.iter().map(|place| (1, place)).chain((2..).zip(row(r[0]).operands));
    let of = |(at, place): (usize, &Place)| {
        let role = match place {
            Place::Number => Role::Number,
            Place::WordSort | Place::ArraySort | Place::AnySort => Role::Sort,
            Place::State => Role::State,
            _ if r[0] == 6 => Role::InitValue,
            _ if matches!(lines.line(r[at]).and_then(|l| l.sort), Some(Sort::Array(..))) => Role::Array,
            _ => Role::Operand,
        };
        (at, role)
    };
    places.map(of).collect()
}

/// Where the token of a record's word stands in its line.
pub(super) fn token_of(r: &Record, at: usize) -> usize {
    let kind = row(r[0]);
    1 + kind.word.split(' ').count() + at - if kind.sort.is_some() { 1 } else { 2 }
}

pub(super) fn sign(tokens: &mut [Vec<u8>], r: &Record, signs: &[bool; 5]) {
    for at in (0..5).filter(|&at| signs[at]) {
        tokens[token_of(r, at)].insert(0, b'-');
    }
}

/// A circuit with many minus operands, with few, or with all that may be.
pub fn minus_circuit(random: &mut Random, size: Size) -> Minus {
    let lines = circuit(random, size);
    let share = random.pick(&[1, 2, 2, 4, 12]);
    with_minus(random, lines, share)
}

/// A circuit in whose text one in so many operands that may have a minus has one.
pub fn with_minus(random: &mut Random, lines: Lines, share: usize) -> Minus {
    let of = |r: &Record| {
        let mut signs = [false; 5];
        for (at, _) in roles(&lines, r).into_iter().filter(|(_, role)| *role == Role::Operand) {
            signs[at] = random.one_in(share);
        }
        signs
    };
    let signs = lines.records.iter().map(of).collect();
    Minus { lines, signs }
}

impl Minus {
    pub fn text(&self, random: &mut Random) -> Vec<u8> {
        let names = Names::apart(random);
        self.text_with(random, names)
    }

    pub fn text_with(&self, random: &mut Random, names: Names) -> Vec<u8> {
        text_by(random, &self.lines, names, |i, tokens| sign(tokens, &self.lines.records[i], &self.signs[i]))
    }

    /// The text as writing prints one, but for the ids and the minus operands.
    pub fn plain_text(&self) -> Vec<u8> {
        join(&self.tokens())
    }

    fn tokens(&self) -> Vec<Vec<Vec<u8>>> {
        let mut printed = all_tokens(&self.lines.records, &self.lines.ids);
        for (i, tokens) in printed.iter_mut().enumerate() {
            sign(tokens, &self.lines.records[i], &self.signs[i]);
        }
        printed
    }

    /// The circuit with a not record, of the id 0, for each minus operand; and how many records there are before each line.
    pub fn written_out(&self) -> (Lines, Vec<usize>) {
        let (mut out, mut before, mut place) = (Lines::default(), Vec::new(), vec![0]);
        for (i, r) in self.lines.records.iter().enumerate() {
            before.push(out.records.len());
            let mut own = *r;
            for (at, _) in roles(&self.lines, r).into_iter().filter(|(_, role)| *role != Role::Number) {
                own[at] = place[r[at] as usize];
            }
            for at in (2..5).filter(|&at| self.signs[i][at]) {
                let sort = out.records[own[at] as usize - 1][1];
                out.add_as([11, sort, own[at], 0, 0], 0);
                own[at] = out.records.len() as u64;
            }
            out.add_as(own, self.lines.ids[i]);
            place.push(out.records.len() as u64);
        }
        (out, before)
    }

    /// A text that is right or damaged, and a number of records that the table may have room for.
    pub fn any_text(&self, random: &mut Random) -> (Vec<u8>, usize) {
        if random.below(5) < 3 {
            return self.damaged_text(random);
        }
        let exact = self.written_out().0.records.len();
        (self.text(random), minus_room(random, exact))
    }

    /// A text that most often is refused, and a number of records that the table may have room for: all there can be, about as
    /// many as there are up to a fault, or as there should be.
    fn damaged_text(&self, random: &mut Random) -> (Vec<u8>, usize) {
        let (all, before) = self.written_out();
        let mut room = 4 * all.records.len() + 8;
        if self.lines.records.is_empty() || random.one_in(3) {
            return (self.text_of_damaged_records(random), room);
        }
        if random.one_in(6) {
            return (self.text_with_line_twice(random), all.records.len() + random.below(4));
        }
        let (mut printed, way) = (self.tokens(), random.below(4));
        for _ in 0..1 + usize::from(random.one_in(4)) {
            let role = random.pick(&ROLES);
            let tokens = self.tokens_of(role);
            if !tokens.is_empty() {
                let (i, at) = random.pick(&tokens);
                self.damage_token(random, (i, at, role), &mut printed[i]);
                room = if way == 0 { before[i] + random.below(5) } else { room };
            }
        }
        if way == 1 {
            room = minus_room(random, all.records.len());
        }
        let names = if random.one_in(3) { Names::any(random) } else { Names::apart(random) };
        (text_by(random, &self.lines, names, |i, tokens| *tokens = printed[i].clone()), room)
    }

    /// The tokens of a role, each by its line, from 0, and its place there.
    fn tokens_of(&self, role: Role) -> Vec<(usize, usize)> {
        let of = |(i, r): (usize, &Record)| -> Vec<(usize, usize)> {
            match role {
                Role::Id => vec![(i, 0)],
                Role::Word => vec![(i, 1)],
                _ => {
                    let those = roles(&self.lines, r).into_iter().filter(|(_, other)| *other == role);
                    those.map(|(at, _)| (i, token_of(r, at))).collect()
                }
            }
        };
        self.lines.records.iter().enumerate().flat_map(of).collect()
    }

    fn damage_token(&self, random: &mut Random, (i, at, role): (usize, usize, Role), tokens: &mut Vec<Vec<u8>>) {
        let (r, ids) = (&self.lines.records[i], &self.lines.ids);
        if role == Role::Number && tokens[1] == b"constd" {
            // The digits of const and consth as well.
            constant_form(random, tokens, r[2], self.lines.sort(r[1]).width());
        }
        let at = at.min(tokens.len() - 1);
        let bare = tokens[at].strip_prefix(b"-").unwrap_or(&tokens[at]).to_vec();
        let minus = |token: Vec<u8>| [b"-".to_vec(), token].concat();
        tokens[at] = match random.below(if role == Role::Operand { 10 } else { 16 }) {
            0..=4 => formed(random.pick(FORMS), &bare),
            5..=7 => minus(wrong_operand(random, ids, i)),
            8 => wrong_operand(random, ids, i),
            // Another line, of any class and width, before or behind.
            9 => minus(random.pick(ids).to_string().into_bytes()),
            _ => minus(bare),
        };
    }

    /// The text with a line once more at its end, a next where there is one.
    fn text_with_line_twice(&self, random: &mut Random) -> Vec<u8> {
        let lines = self.lines.records.len();
        let nexts: Vec<usize> = (0..lines).filter(|&i| self.lines.records[i][0] == 7).collect();
        let line = if nexts.is_empty() { random.below(lines) } else { random.pick(&nexts) };
        let mut printed = self.tokens();
        let mut again = printed[line].clone();
        again[0] = (self.lines.ids[lines - 1] + 1).to_string().into_bytes();
        printed.push(again);
        add_names(random, &mut printed);
        join(&printed)
    }

    /// A fault of the records, in valid syntax, and a minus before any tokens that name lines.
    fn text_of_damaged_records(&self, random: &mut Random) -> Vec<u8> {
        let mut rows = self.lines.rows();
        damage_records(random, &mut rows, false);
        let (table, n) = (columns(&rows, false), rows.len() / record_size(false));
        let records = records(&table, n, false);
        if !records.iter().all(|r| in_circuits(r[0])) {
            return self.text(random);
        }
        let (mut printed, others) = (all_tokens(&records, &ids(&table, n)), random.one_in(4));
        for (r, tokens) in records.iter().zip(&mut printed) {
            let mut signs = [false; 5];
            for (at, role) in roles(&self.lines, r) {
                signs[at] = match role {
                    Role::Number => false,
                    Role::Operand => random.one_in(3),
                    _ => others && random.one_in(50),
                };
            }
            sign(tokens, r, &signs);
        }
        add_names(random, &mut printed);
        join(&printed)
    }
}

/// A number of records that a table may have room for where so many are wanted: just them, up to three fewer, or any.
pub fn minus_room(random: &mut Random, exact: usize) -> usize {
    match random.below(10) {
        0..=3 => exact,
        4..=6 => exact.saturating_sub(1 + random.below(3)),
        7 => exact + random.below(9),
        _ => random.below(exact + 1),
    }
}
