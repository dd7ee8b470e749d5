//! Overflow detectors: operands near the limits of their width, and faults of their records.

use super::*;
use crate::independent::meaning::{modulo, signed};
use std::ops::RangeInclusive;

pub const DETECTORS: RangeInclusive<u64> = 57..=63;

/// Words that, with one of width w, have a sum, a difference or a product near a limit, signed or not.
pub fn partners(word: u64, w: u64) -> Vec<u64> {
    let mut found = Vec::new();
    for limit in [(1 << w) - 1, (1 << (w - 1)) - 1, -1i128 << (w - 1)] {
        for value in [i128::from(word), signed(word, w)] {
            let exact = [Some(limit - value), Some(value - limit), limit.checked_div(value)];
            found.extend(exact.iter().flatten().flat_map(|near| (-2..=2).map(move |d| modulo(near + d, w))));
        }
    }
    found
}

/// Words of a width at the limits and about their square roots, and the negatives of these.
pub fn edge_words(w: u64) -> Vec<u64> {
    let limits = [0, 1 << w, 1 << (w - 1)];
    let roots = limits.map(|limit: i128| (limit as f64).sqrt() as i128);
    let near = limits.into_iter().chain(roots).flat_map(|n| (-3..=3).map(move |d| n + d));
    let mut words: Vec<u64> = near.flat_map(|n| [modulo(n, w), modulo(-n, w)]).collect();
    words.sort_unstable();
    words.dedup();
    words
}

/// A word of a width, often at an edge, and one of its partners; for a division words about the least and -1.
pub fn near_limit(random: &mut Random, kind: u64, w: u64) -> (u64, u64) {
    if kind == 63 {
        let least = -1 << (w - 1);
        return (modulo(least + random.pick(&[0, 0, 1, -1]), w), modulo(random.pick(&[-1, -1, 0, 1, -2]), w));
    }
    let word = random.word_of(w);
    (word, random.pick(&partners(word, w)))
}

impl Builder<'_> {
    fn constant_of(&mut self, w: u64, value: u64) -> u64 {
        let sort = self.sort_line(Sort::Word(w));
        self.emit([3, sort, value, 0, 0])
    }

    /// A detector on a word of width w and another one, which is a constant near the limits half of the time, or on two
    /// constants near them. A word of width 1 makes way for one of another width most often.
    pub(super) fn detector(&mut self, kind: u64, mut word: u64, mut w: u64) {
        if w == 1 && self.cones.is_none() && !self.random.one_in(4) {
            w = self.random.width();
            word = self.word(w);
        }
        let record = self.lines.records[word as usize - 1];
        let (a, b) = match self.random.below(8) {
            0..=3 => (word, self.word(w)),
            4..=6 => {
                let of = if record[0] == 3 { record[2] } else { self.random.word_of(w) };
                let value = self.random.pick(&partners(of, w));
                (word, self.constant_of(w, value))
            }
            _ => {
                let (a, b) = near_limit(self.random, kind, w);
                (self.constant_of(w, a), self.constant_of(w, b))
            }
        };
        let (a, b) = if self.random.one_in(3) { (b, a) } else { (a, b) };
        let own = self.sort_line(Sort::Word(1));
        self.emit([kind, own, a, b, 0]);
    }
}

/// A fault of a detector's record, where there is one: its kind, its sort, an operand of another width or an array; some are
/// none.
pub fn damage(random: &mut Random, rows: &mut [u64], program: bool) {
    let size = record_size(program);
    let n = rows.len() / size;
    let those = |rows: &[u64], test: &dyn Fn(&[u64]) -> bool| -> Vec<u64> {
        (1..=n as u64).filter(|&line| test(&rows[size * (line as usize - 1)..][..size])).collect()
    };
    let held = those(rows, &|r| DETECTORS.contains(&r[0]));
    if held.is_empty() {
        return;
    }
    let at = size * (random.pick(&held) as usize - 1);
    let sorts = those(rows, &|r| r[0] <= 2);
    let array_sorts = those(rows, &|r| r[0] == 2);
    let arrays = those(rows, &|r| is_value(r[0]) && array_sorts.contains(&r[1]));
    let operand = at + 2 + random.below(2);
    match random.below(8) {
        0 => rows[at] = random.pick(&[54, 55, 56, 64]),
        1 => rows[at] = 57 + random.next() % 7,
        2 if program => rows[at + 1] = 1 + random.next() % 5,
        2 if !sorts.is_empty() => rows[at + 1] = random.pick(&sorts),
        3 if !arrays.is_empty() => rows[operand] = random.pick(&arrays),
        4 => rows[at + 4] = rows[operand],
        5 => rows[operand] = random.pick(&[0, n as u64, n as u64 + 1]),
        _ => rows[operand] = 1 + random.next() % n as u64,
    }
}
