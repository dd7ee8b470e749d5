//! Reading, writing and naming.

use super::kinds::{in_circuits, row, Place};
use super::rules::{check_table, ones, Lines, Sort};
use super::{is_whole, room, store, Record, MOST_TEXT};
use std::collections::HashSet;

/// The lines of a text, each with its number from 1 and its tokens.
fn lines(text: &[u8]) -> impl Iterator<Item = (u64, Vec<&[u8]>)> {
    (1u64..).zip(text.split(|&b| b == b'\n')).map(|(number, line)| {
        let code = line.split(|&b| b == b';').next().unwrap();
        (number, code.split(|&b| b == b' ').filter(|t| !t.is_empty()).collect())
    })
}

/// How the value of a constant is given.
#[derive(Clone, Copy, PartialEq, Eq)]
enum Constant {
    Binary,
    Decimal,
    Hex,
    Zero,
    One,
    Ones,
}

/// What a word promises of its line.
struct Form {
    kind: u64,
    constant: Constant,
    /// How many tokens stand for the id and the word.
    head: usize,
}

impl Form {
    /// The classes of the tokens after the word.
    fn places(&self) -> Vec<Place> {
        let mut places: Vec<Place> = row(self.kind).sort.into_iter().collect();
        if !matches!(self.constant, Constant::Zero | Constant::One | Constant::Ones) {
            places.extend(row(self.kind).operands);
        }
        places
    }
}

fn form(tokens: &[&[u8]]) -> Option<Form> {
    let word = *tokens.get(1)?;
    let known = |kind, constant, head| Some(Form { kind, constant, head });
    match word {
        b"sort" => match *tokens.get(2)? {
            b"bitvec" => known(1, Constant::Decimal, 3),
            b"array" => known(2, Constant::Decimal, 3),
            _ => None,
        },
        b"const" => known(3, Constant::Binary, 2),
        b"consth" => known(3, Constant::Hex, 2),
        b"zero" => known(3, Constant::Zero, 2),
        b"one" => known(3, Constant::One, 2),
        b"ones" => known(3, Constant::Ones, 2),
        _ => {
            let kind = (3..=63).filter(|&kind| in_circuits(kind)).find(|&kind| row(kind).word.as_bytes() == word)?;
            known(kind, Constant::Decimal, 2)
        }
    }
}

enum Number {
    Malformed,
    TooLarge,
    Is(u64),
}

fn digits(token: &[u8], base: u32) -> Option<Vec<u32>> {
    token.iter().map(|&b| (b as char).to_digit(base)).collect()
}

fn value(digits: &[u32], base: u64) -> Option<u64> {
    digits.iter().try_fold(0u64, |n, &d| n.checked_mul(base)?.checked_add(u64::from(d)))
}

fn number(token: &[u8]) -> Number {
    match digits(token, 10) {
        Some(d) if token == b"0" || d.first().is_some_and(|&d| d != 0) => {
            value(&d, 10).map_or(Number::TooLarge, Number::Is)
        }
        _ => Number::Malformed,
    }
}

/// Digits in base two or sixteen, at most so many.
fn digits_number(token: &[u8], base: u32, most: usize) -> Number {
    match digits(token, base) {
        None => Number::Malformed,
        Some(d) if d.len() > most => Number::TooLarge,
        Some(d) => Number::Is(value(&d, u64::from(base)).unwrap()),
    }
}

/// A token that names a line: the number, and whether a minus stands before it.
fn operand(token: &[u8]) -> (Number, bool) {
    match token.strip_prefix(b"-") {
        Some(digits) => (number(digits), true),
        None => (number(token), false),
    }
}

/// The lines read so far.
#[derive(Default)]
struct Known<'t> {
    lines: Lines,
    /// The ids as written, rising, each with its line's place.
    named: Vec<(u64, u64)>,
    /// The names, of lines of all kinds.
    names: HashSet<&'t [u8]>,
}

/// What a line adds: its records, each with its id, and its name where it has one.
struct Added<'t> {
    records: Vec<(Record, u64)>,
    name: Option<&'t [u8]>,
}

impl<'t> Known<'t> {
    /// The place of the line that a number names; 0 where it names none.
    fn place(&self, id: u64) -> u64 {
        self.named.binary_search_by_key(&id, |named| named.0).map_or(0, |i| self.named[i].1)
    }

    /// The minus is refused before a sort, an array, an init value, and the state that an init or next sets. `at` is the
    /// operand's place in the record, of which rule 8 holds.
    fn bars_minus(&self, r: &Record, at: usize) -> bool {
        let line = self.lines.line(r[at]).unwrap();
        let sort = line.kind <= 2;
        let array = matches!(line.sort, Some(Sort::Array(..)));
        let init_value = r[0] == 6 && at == 3;
        let state = matches!(r[0], 6 | 7) && at == 2;
        sort || array || init_value || state
    }

    fn add(&mut self, added: Added<'t>) {
        self.names.extend(added.name);
        for (r, id) in added.records {
            self.lines.add_as(r, id);
            if id > 0 {
                self.named.push((id, self.lines.records.len() as u64));
            }
        }
    }
}

/// What a line adds, a not record for each minus operand, then its own; or the refusal's number.
fn added<'t>(tokens: &[&'t [u8]], known: &Known, room: usize) -> Result<Added<'t>, u64> {
    let lines = &known.lines;
    let id = match number(tokens[0]) {
        Number::Is(id) if lines.id_rises(id) => id,
        _ => return Err(3),
    };
    if lines.records.len() >= room {
        return Err(4);
    }
    let form = form(tokens).ok_or(5u64)?;
    let places = form.places();
    let rest = &tokens[form.head..];
    if rest.len() < places.len() || rest.len() > places.len() + 1 {
        return Err(6);
    }
    let numbers: Vec<(Number, bool)> = (0..places.len())
        .map(|i| match (form.constant, i) {
            (Constant::Binary, 1) => (digits_number(rest[i], 2, 64), false),
            (Constant::Hex, 1) => (digits_number(rest[i], 16, 16), false),
            _ if places[i] == Place::Number => (number(rest[i]), false),
            _ => operand(rest[i]),
        })
        .collect();
    if numbers.iter().any(|(n, _)| matches!(n, Number::Malformed)) {
        return Err(6);
    }
    let (mut r, mut minus): (Record, [bool; 5]) = ([form.kind, 0, 0, 0, 0], [false; 5]);
    let first = if row(form.kind).sort.is_some() { 1 } else { 2 };
    for (at, (n, sign)) in (first..).zip(&numbers) {
        match n {
            Number::Is(v) => (r[at], minus[at]) = (*v, *sign),
            _ => return Err(7),
        }
    }
    if form.kind == 1 && !(1..=64).contains(&r[2]) {
        return Err(7);
    }
    // Tokens name ids, the record holds places.
    for i in (0..places.len()).filter(|&i| places[i] != Place::Number) {
        r[first + i] = known.place(r[first + i]);
    }
    if !lines.classes_fit(&r) || (0..5).any(|at| minus[at] && known.bars_minus(&r, at)) {
        return Err(8);
    }
    if form.kind == 3 {
        let Sort::Word(w) = lines.sort(r[1]) else { unreachable!() };
        match form.constant {
            Constant::Binary if rest[1].len() as u64 != w => return Err(9),
            Constant::One => r[2] = 1,
            Constant::Ones => r[2] = ones(w),
            _ => {}
        }
    }
    if !lines.widths_fit(&r) {
        return Err(9);
    }
    if !lines.states_fit(&r) {
        return Err(10);
    }
    let name = rest.get(places.len()).copied();
    if name.is_some_and(|name| known.names.contains(name)) {
        return Err(22);
    }
    let mut records = Vec::new();
    for at in (2..5).filter(|&at| minus[at]) {
        let sort = lines.records[r[at] as usize - 1][1];
        records.push(([11, sort, r[at], 0, 0], 0));
        r[at] = (lines.records.len() + records.len()) as u64;
    }
    records.push((r, id));
    // Only the not records lack a place: 4 comes last.
    if lines.records.len() + records.len() > room {
        return Err(4);
    }
    Ok(Added { records, name })
}

/// answer[0] is the count, or the text line with 3 to 10 and 22.
pub fn read(text: &[u8], table: &mut [u64], answer: &mut [u64]) -> u64 {
    table.fill(0);
    answer.fill(0);
    if answer.len() != 3 || !is_whole(table, false) {
        return 1;
    }
    if text.len() > MOST_TEXT {
        return 2;
    }
    let room = room(table, false);
    let mut known = Known::default();
    for (number, tokens) in lines(text) {
        if tokens.is_empty() {
            continue;
        }
        match added(&tokens, &known, room) {
            Ok(added) => known.add(added),
            Err(refusal) => {
                answer[0] = number;
                return refusal;
            }
        }
    }
    store(&known.lines.rows(), table, false);
    answer[0] = known.lines.records.len() as u64;
    0
}

/// The text of some records, numbered 1, 2, 3.
pub fn print(records: &[Record]) -> Vec<u8> {
    use std::io::Write;
    let mut text = Vec::new();
    for (i, r) in records.iter().enumerate() {
        let kind = row(r[0]);
        write!(text, "{} {}", i + 1, kind.word).unwrap();
        if kind.sort.is_some() {
            write!(text, " {}", r[1]).unwrap();
        }
        for operand in &r[2..2 + kind.operands.len()] {
            write!(text, " {operand}").unwrap();
        }
        text.push(b'\n');
    }
    text
}

/// answer[0] is the number of bytes.
pub fn write(table: &[u64], count: usize, text: &mut [u8], answer: &mut [u64]) -> u64 {
    text.fill(0);
    answer.fill(0);
    if answer.len() != 3 || !is_whole(table, false) {
        return 1;
    }
    let Some(lines) = check_table(table, count) else { return 11 };
    let printed = print(&lines.records);
    if printed.len() > text.len() {
        return 21;
    }
    text[..printed.len()].copy_from_slice(&printed);
    answer[0] = printed.len() as u64;
    0
}

/// The name in the first line with this id as written: where it starts in the text, and its length.
pub fn find_name(text: &[u8], id: u64) -> Option<(usize, usize)> {
    let wanted = id.to_string();
    let (_, tokens) = lines(text).find(|(_, t)| t.first().is_some_and(|t| *t == wanted.as_bytes()))?;
    let form = form(&tokens)?;
    if tokens.len() != form.head + form.places().len() + 1 {
        return None;
    }
    let name = tokens.last().unwrap();
    Some((name.as_ptr() as usize - text.as_ptr() as usize, name.len()))
}

/// answer[0] is the start of the name in the text, answer[1] its length. Where there is none, the length is 0 and the start free.
pub fn name(text: &[u8], id: u64, answer: &mut [u64]) -> u64 {
    answer.fill(0);
    if answer.len() != 3 {
        return 1;
    }
    if let Some((start, length)) = find_name(text, id) {
        answer[0] = start as u64;
        answer[1] = length as u64;
    }
    0
}
