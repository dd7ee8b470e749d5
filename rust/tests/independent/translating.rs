//! Translating a flat circuit into a program on 64-bit words.

use super::kinds::{is_value, row, Place};
use super::rules::{check_table, Lines};
use super::{is_whole, room, store, Record};

/// For each line, whether bits above its width may be set.
fn loose_lines(lines: &Lines) -> Vec<bool> {
    let mut loose: Vec<bool> = Vec::new();
    for (r, line) in lines.records.iter().zip(&lines.lines) {
        let of = |operand: usize| loose[r[1 + operand] as usize - 1];
        let full = line.sort.is_some_and(|s| s.width() == 64);
        let own = is_value(r[0])
            && !full
            && match r[0] {
                4 | 11..=14 | 18 | 31 | 32 | 36..=41 | 47 => true,
                33 => of(1) && of(2),
                34 | 35 => of(1) || of(2),
                53 => of(2) || of(3),
                52 => of(1),
                _ => false,
            };
        loose.push(own);
    }
    loose
}

/// Whether a kind needs its operand, from 1, clean.
fn needs_clean(kind: u64, operand: usize) -> bool {
    match kind {
        6..=10 | 15..=17 | 19..=30 | 42..=46 | 48..=51 | 57..=63 => true,
        47 | 52 => operand == 2,
        53 => operand == 1,
        _ => false,
    }
}

/// The program of a flat circuit.
pub fn program_records(lines: &Lines) -> Vec<Record> {
    let loose = loose_lines(lines);
    let mut masked = vec![false; loose.len()];
    for r in &lines.records {
        for (i, &place) in row(r[0]).operands.iter().enumerate() {
            if !matches!(place, Place::Number | Place::WordSort) {
                let used = r[2 + i] as usize - 1;
                masked[used] |= loose[used] && needs_clean(r[0], i + 1);
            }
        }
    }
    let mut out: Vec<Record> = Vec::new();
    // The instruction that stands for a line.
    let mut number = vec![0u64; loose.len()];
    for (n, r) in lines.records.iter().enumerate() {
        if r[0] == 1 {
            continue;
        }
        let kind = row(r[0]);
        let mut copy = *r;
        if kind.sort.is_some() {
            copy[1] = lines.sort(r[1]).width();
        }
        for (i, &place) in kind.operands.iter().enumerate() {
            if place != Place::Number {
                copy[2 + i] = number[r[2 + i] as usize - 1];
            }
        }
        out.push(copy);
        number[n] = out.len() as u64;
        if masked[n] {
            out.push([56, copy[1], number[n], 0, 0]);
            number[n] += 1;
        }
    }
    out
}

/// answer[0] is the count.
pub fn translate(table: &[u64], count: usize, target: &mut [u64], answer: &mut [u64]) -> u64 {
    target.fill(0);
    answer.fill(0);
    if answer.len() != 3 || !is_whole(table, false) || !is_whole(target, true) {
        return 1;
    }
    let Some(lines) = check_table(table, count) else { return 11 };
    if lines.records.iter().any(|r| r[0] == 2) {
        return 19;
    }
    let program = program_records(&lines);
    if program.len() > room(target, true) {
        return 12;
    }
    store(&program.concat(), target, true);
    answer[0] = program.len() as u64;
    0
}
