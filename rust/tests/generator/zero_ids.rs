//! Tables in which not records have the id 0, and such in which other records have it or ids do not rise.

use super::*;

/// Ids for some records: 0 for some of the not records, for all of them or for none; the others rise.
pub fn ids_with_zeros(random: &mut Random, records: &[Record]) -> Vec<u64> {
    let share = random.pick(&[1, 2, 8]);
    let zero: Vec<bool> = records.iter().map(|r| r[0] == 11 && random.one_in(share)).collect();
    let mut rising = rising_ids(random, zero.iter().filter(|zero| !**zero).count()).into_iter();
    zero.iter().map(|&zero| if zero { 0 } else { rising.next().unwrap() }).collect()
}

/// The rows of a circuit with not records of the id 0; in half of them something is then done about an id, which most often
/// breaks a rule.
pub fn rows_with_zeros(random: &mut Random, lines: &Lines) -> Vec<u64> {
    let size = record_size(false);
    let ids = ids_with_zeros(random, &lines.records);
    let mut rows = crate::independent::rows(&lines.records, &ids);
    let n = ids.len();
    if n == 0 || random.one_in(2) {
        return rows;
    }
    let at = |record: usize| size * record + 5;
    let last = |rows: &[u64], record: usize| (0..record).rev().map(|i| rows[at(i)]).find(|&id| id > 0).unwrap_or(0);
    let any = random.below(n);
    let named: Vec<usize> = (1..n).filter(|&i| ids[i] > 0 && ids[i - 1] == 0).collect();
    let nots: Vec<usize> = (0..n).filter(|&i| ids[i] == 0).collect();
    match random.below(10) {
        // 0 on any record: the first, the last.
        0 => rows[at(any)] = 0,
        1 => rows[at(0)] = 0,
        2 => rows[at(n - 1)] = 0,
        // An id behind records of the id 0 that does not rise, or that is too large.
        3 | 4 if !named.is_empty() => {
            let record = random.pick(&named);
            let last = last(&rows, record);
            rows[at(record)] = random.pick(&[last, last.saturating_sub(1), 1, MOST_ID + 1, last + 1]);
        }
        // A record that is no not any more.
        5 if !nots.is_empty() => rows[size * random.pick(&nots)] = random.pick(&[12, 13, 14, 10, 15]),
        // A not record of an id that others have; an id of its own.
        6 if !nots.is_empty() => {
            let record = random.pick(&nots);
            rows[at(record)] = last(&rows, record) + random.next() % 2;
        }
        // A not record at the end, which nothing uses; at the beginning, where it has no operand.
        7 | 8 => {
            let is_word = |i: &usize| is_value(lines.records[*i][0]) && lines.sort(*i as u64 + 1).cells() == 1;
            let words: Vec<usize> = (0..n).filter(is_word).collect();
            let operand = if words.is_empty() { any } else { random.pick(&words) };
            let not = [11, lines.records[operand][1], operand as u64 + 1, 0, 0, 0];
            if random.one_in(6) {
                rows.splice(0..0, not);
            } else {
                rows.extend(not);
            }
        }
        _ => damage_id(random, &mut rows, any),
    }
    rows
}
