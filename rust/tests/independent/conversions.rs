//! Conversions between records one behind the other and records in columns. The count alone is looked at, never the records.

use super::layout::{gather, put};
use super::{is_whole, room, size};

/// Puts so many records of a list into a cleared target; the last number is the size of a record.
type Layout = fn(&[u64], usize, &mut [u64], usize);

fn to_columns(records: &[u64], count: usize, target: &mut [u64], size: usize) {
    put(&records[..size * count], target, size);
}

fn to_records(table: &[u64], count: usize, target: &mut [u64], size: usize) {
    target[..size * count].copy_from_slice(&gather(table, count, size));
}

/// answer[0] is the count.
fn convert(program: bool, layout: Layout, list: &[u64], count: usize, target: &mut [u64], answer: &mut [u64]) -> u64 {
    target.fill(0);
    answer.fill(0);
    if answer.len() != 3 || !is_whole(list, program) || !is_whole(target, program) {
        return 1;
    }
    if count > room(list, program) {
        return if program { 20 } else { 11 };
    }
    if count > target.len() / size(program) {
        return 12;
    }
    layout(list, count, target, size(program));
    answer[0] = count as u64;
    0
}

pub fn circuit_to_columns(records: &[u64], count: usize, target: &mut [u64], answer: &mut [u64]) -> u64 {
    convert(false, to_columns, records, count, target, answer)
}

pub fn circuit_to_records(table: &[u64], count: usize, target: &mut [u64], answer: &mut [u64]) -> u64 {
    convert(false, to_records, table, count, target, answer)
}

pub fn program_to_columns(records: &[u64], count: usize, target: &mut [u64], answer: &mut [u64]) -> u64 {
    convert(true, to_columns, records, count, target, answer)
}

pub fn program_to_records(table: &[u64], count: usize, target: &mut [u64], answer: &mut [u64]) -> u64 {
    convert(true, to_records, table, count, target, answer)
}
