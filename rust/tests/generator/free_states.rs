//! Free states: next lines that come late, circuits that show every bit of their states, and faults of next lines.

use super::*;
use crate::independent::numbered;

impl Builder<'_> {
    /// Next lines behind all others, for some of the states that have none yet, or for all of them. A value may be the state
    /// itself.
    pub(super) fn late_next_lines(&mut self) {
        let share = self.random.pick(&[0, 0, 1, 2]);
        let mut states = self.those(|_, l| l.kind == 5 && !l.next);
        states.retain(|_| share > 0 && self.random.one_in(share));
        for state in states {
            let sort = self.lines.sort(state);
            let old = self.values(sort);
            let value = if self.random.one_in(4) { state } else { self.choose(&old).unwrap_or(state) };
            let own = self.sort_line(sort);
            self.emit([7, own, state, value, 0]);
        }
    }
}

/// A state line of a circuit, as its records tell it.
#[derive(Clone, Copy)]
pub struct State {
    pub line: u64,
    pub sort: Sort,
    /// The value lines of its init and its next.
    pub init: Option<u64>,
    pub next: Option<u64>,
}

/// The states in line order, found by looking through the whole table for each.
pub fn states(lines: &Lines) -> Vec<State> {
    let value = |kind: u64, line: u64| lines.records.iter().find(|r| r[0] == kind && r[2] == line).map(|r| r[3]);
    let all = (1u64..).zip(&lines.records).filter(|(_, r)| r[0] == 5);
    all.map(|(line, _)| State { line, sort: lines.sort(line), init: value(6, line), next: value(7, line) }).collect()
}

/// A circuit with a bad line behind it for each bit of each cell of its states: states in line order, cells and bits rising.
/// The ids rise anew.
pub fn watched(random: &mut Random, lines: &Lines) -> Lines {
    let mut records = lines.records.clone();
    let push = |records: &mut Vec<Record>, r: Record| {
        records.push(r);
        records.len() as u64
    };
    let bit = push(&mut records, [1, 0, 1, 0, 0]);
    for State { line, sort, .. } in states(lines) {
        let mut words = vec![line];
        if let Sort::Array(i, e) = sort {
            let index_sort = push(&mut records, [1, 0, i, 0, 0]);
            let word_sort = push(&mut records, [1, 0, e, 0, 0]);
            let read = |cell: usize| {
                let index = push(&mut records, [3, index_sort, cell as u64, 0, 0]);
                push(&mut records, [54, word_sort, line, index, 0])
            };
            words = (0..sort.cells()).map(read).collect();
        }
        for word in words {
            for i in 0..sort.width() {
                let slice = push(&mut records, [18, bit, word, i, i]);
                push(&mut records, [8, 0, slice, 0, 0]);
            }
        }
    }
    let mut watched = check_table(&numbered(&records), records.len()).expect("watching a circuit breaks no rule");
    watched.ids = rising_ids(random, records.len());
    watched
}

/// How many bits the states of a circuit have.
pub fn state_bits(lines: &Lines) -> usize {
    states(lines).iter().map(|state| state.sort.cells() * state.sort.width() as usize).sum()
}

/// A circuit of lines of all kinds with a bad line for each bit of its states, of which there are some.
pub fn watched_circuit(random: &mut Random) -> Lines {
    loop {
        let lines = 4 + random.below(40);
        let size = Size { lines, arrays: random.below(4) > 0 };
        let lines = circuit(random, size);
        if (1..1500).contains(&state_bits(&lines)) {
            return watched(random, &lines);
        }
    }
}

/// The widths of the words of a row behind its inputs.
pub fn free_widths(lines: &Lines) -> Vec<u64> {
    let free = states(lines).into_iter().filter(|state| state.next.is_none());
    free.flat_map(|state| vec![state.sort.width(); state.sort.cells()]).collect()
}

/// Something is done about which states are free, or about what a row holds: to a next line, to a state, to an input. Often it
/// breaks no rule.
pub fn damage(random: &mut Random, rows: &mut Vec<u64>, program: bool) {
    let size = record_size(program);
    let n = rows.len() / size;
    let those = |rows: &[u64], kind: u64| -> Vec<usize> { (0..n).filter(|&i| rows[size * i] == kind).collect() };
    let (inputs, states, nexts) = (those(rows, 4), those(rows, 5), those(rows, 7));
    let way = random.below(10);
    let from = match way {
        0 => &inputs,
        1 | 2 => &states,
        _ => &nexts,
    };
    if from.is_empty() || states.is_empty() {
        return;
    }
    let at = size * random.pick(from);
    // A record that breaks no rule wherever it stands: a sort, in a program a constant.
    let neutral: Record = if program { [3, 1, 0, 0, 0] } else { [1, 0, 1, 0, 0] };
    match way {
        // An input becomes a state, a state an input.
        0 => rows[at] = 5,
        1 => rows[at] = 4,
        // A next line by its own value for a state that may have one already.
        2 => {
            let (sort, line) = (rows[at + 1], (at / size) as u64 + 1);
            extend(random, rows, [7, sort, line, line, 0], program);
        }
        // A next line becomes an init, another line, the next line of another state, one by its state's own value.
        3 => rows[at] = 6,
        4 | 5 => rows[at..at + 5].copy_from_slice(&neutral),
        6 | 7 => rows[at + 2] = random.pick(&states) as u64 + 1,
        8 => rows[at + 3] = rows[at + 2],
        // All next lines from it on become other lines.
        _ => {
            let behind = nexts.iter().map(|i| size * i).filter(|&other| other >= at);
            behind.for_each(|at| rows[at..at + 5].copy_from_slice(&neutral));
        }
    }
}
