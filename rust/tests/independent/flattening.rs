//! Flattening: a circuit without arrays that runs as its circuit does.

use super::kinds::{row, Place};
use super::rules::{check_table, Lines, Sort};
use super::{is_whole, numbered_rows, room, store, Record};

/// What the flat circuit has for a line of the circuit.
#[derive(Clone, Default)]
struct Flat {
    /// The flat lines of a value's cells, one for a word; the line of a word sort; of an array sort, its element sort.
    lines: Vec<u64>,
    /// Of an array sort: its width-1 sort and its index constants.
    bit: u64,
    constants: Vec<u64>,
}

struct Flattener<'a> {
    lines: &'a Lines,
    out: Vec<Record>,
    flats: Vec<Flat>,
}

impl Flattener<'_> {
    fn emit(&mut self, record: Record) -> u64 {
        self.out.push(record);
        self.out.len() as u64
    }

    fn flat(&self, number: u64) -> &Flat {
        &self.flats[number as usize - 1]
    }

    /// The only flat line of a word or a word sort, the element sort of an array sort.
    fn one(&self, number: u64) -> u64 {
        self.flat(number).lines[0]
    }

    fn is_array(&self, number: u64) -> bool {
        matches!(self.lines.sort(number), Sort::Array(..))
    }

    /// The value of an index line of kind 3.
    fn constant_index(&self, number: u64) -> Option<usize> {
        let r = &self.lines.records[number as usize - 1];
        (r[0] == 3).then_some(r[2] as usize)
    }

    /// `eq` of an index and an array sort's constant k.
    fn compare(&mut self, array_sort: u64, index: u64, k: usize) -> u64 {
        let sort = self.flat(array_sort);
        let record = [21, sort.bit, self.one(index), sort.constants[k], 0];
        self.emit(record)
    }

    fn line(&mut self, r: &Record) -> Flat {
        let cells = |lines| Flat { lines, ..Flat::default() };
        match r[0] {
            2 => {
                let bit = self.emit([1, 0, 1, 0, 0]);
                let Sort::Word(w) = self.lines.sort(r[2]) else { unreachable!() };
                let index_sort = self.one(r[2]);
                let constants = (0..1u64 << w).map(|k| self.emit([3, index_sort, k, 0, 0])).collect();
                Flat { lines: vec![self.one(r[3])], bit, constants }
            }
            5 => {
                let sort = self.one(r[1]);
                cells((0..self.lines.sort(r[1]).cells()).map(|_| self.emit([5, sort, 0, 0, 0])).collect())
            }
            6 => {
                let (sort, value) = (self.one(r[1]), self.one(r[3]));
                for state in self.flat(r[2]).lines.clone() {
                    self.emit([6, sort, state, value, 0]);
                }
                cells(vec![])
            }
            7 => {
                let sort = self.one(r[1]);
                let values = self.flat(r[3]).lines.clone();
                for (state, value) in self.flat(r[2]).lines.clone().into_iter().zip(values) {
                    self.emit([7, sort, state, value, 0]);
                }
                cells(vec![])
            }
            53 => {
                let (sort, condition) = (self.one(r[1]), self.one(r[2]));
                let others = self.flat(r[4]).lines.clone();
                let pairs = self.flat(r[3]).lines.clone().into_iter().zip(others);
                cells(pairs.map(|(a, b)| self.emit([53, sort, condition, a, b])).collect())
            }
            54 => {
                let array = self.flat(r[2]).lines.clone();
                if let Some(k) = self.constant_index(r[3]) {
                    return cells(vec![array[k]]);
                }
                let sort = self.one(r[1]);
                let array_sort = self.lines.records[r[2] as usize - 1][1];
                let mut result = *array.last().unwrap();
                for k in (0..array.len() - 1).rev() {
                    let condition = self.compare(array_sort, r[3], k);
                    result = self.emit([53, sort, condition, array[k], result]);
                }
                cells(vec![result])
            }
            55 => {
                let mut array = self.flat(r[2]).lines.clone();
                let value = self.one(r[4]);
                if let Some(k) = self.constant_index(r[3]) {
                    array[k] = value;
                    return cells(array);
                }
                let sort = self.one(r[1]);
                for (k, cell) in array.iter_mut().enumerate() {
                    let condition = self.compare(r[1], r[3], k);
                    *cell = self.emit([53, sort, condition, value, *cell]);
                }
                cells(array)
            }
            21 | 22 if self.is_array(r[2]) => {
                let sort = self.one(r[1]);
                let others = self.flat(r[3]).lines.clone();
                let pairs = self.flat(r[2]).lines.clone().into_iter().zip(others);
                let tests: Vec<u64> = pairs.map(|(a, b)| self.emit([r[0], sort, a, b, 0])).collect();
                let joined = if r[0] == 21 { 33 } else { 34 };
                let all = tests[1..].iter().fold(tests[0], |sofar, &t| self.emit([joined, sort, sofar, t, 0]));
                cells(vec![all])
            }
            kind => {
                let mut copy = *r;
                if row(kind).sort.is_some() {
                    copy[1] = self.one(r[1]);
                }
                for (i, &place) in row(kind).operands.iter().enumerate() {
                    if place != Place::Number {
                        copy[2 + i] = self.one(r[2 + i]);
                    }
                }
                cells(vec![self.emit(copy)])
            }
        }
    }
}

/// The flat records, or nothing where they pass `most`.
pub fn flat_records(lines: &Lines, most: usize) -> Option<Vec<Record>> {
    let mut flattener = Flattener { lines, out: Vec::new(), flats: Vec::new() };
    for r in &lines.records {
        let flat = flattener.line(r);
        flattener.flats.push(flat);
        if flattener.out.len() > most {
            return None;
        }
    }
    Some(flattener.out)
}

/// answer[0] is the count.
pub fn flatten(table: &[u64], count: usize, target: &mut [u64], answer: &mut [u64]) -> u64 {
    target.fill(0);
    answer.fill(0);
    if answer.len() != 3 || !is_whole(table, false) || !is_whole(target, false) {
        return 1;
    }
    let Some(lines) = check_table(table, count) else { return 11 };
    let Some(flat) = flat_records(&lines, room(target, false)) else { return 12 };
    store(&numbered_rows(&flat), target, false);
    answer[0] = flat.len() as u64;
    0
}
