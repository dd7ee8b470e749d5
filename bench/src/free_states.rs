//! Runs of circuits whose states are all free, and of their programs, behind those of the same states kept by next lines. The
//! states are words, few and many, or memories of 256 cells.

use crate::independent::flattening::flat_records;
use crate::independent::rules::{check_program, check_table};
use crate::independent::translating::program_records;
use crate::independent::{numbered, program_list, MOST_RECORDS};
use crate::{proved, run_row, sizes, Lines, Table};

/// How many states there are, and whether they are memories.
const STATES: [(usize, bool); 3] = [(10, false), (1000, false), (4, true)];

/// Two numbers of steps: what a call costs once falls out of the difference.
const STEPS: [usize; 2] = [100, 300];

/// States of 8 bits, and an input that is a bad.
fn lines_of(states: usize, memories: bool, free: bool) -> Lines {
    let mut all = Lines::default();
    let before = [[1, 0, 1, 0, 0], [4, 1, 0, 0, 0], [8, 0, 2, 0, 0], [1, 0, 8, 0, 0], [2, 0, 4, 4, 0]];
    let sort = if memories { 5 } else { 4 };
    before[..sort].iter().for_each(|&r| all.add(r));
    let (first, sort) = (all.lines.len() as u64 + 1, sort as u64);
    let states = first..first + states as u64;
    states.clone().for_each(|_| all.add([5, sort, 0, 0, 0]));
    if !free {
        states.for_each(|state| all.add([7, sort, state, state, 0]));
    }
    all
}

/// The states, whether they are memories and free, whether the program runs, and the steps.
fn runs() -> Vec<((usize, bool), bool, bool, usize)> {
    let forms = STATES.into_iter().flat_map(|states| [(states, false), (states, true)]);
    let forms = forms.flat_map(|(states, free)| [(states, free, false), (states, free, true)]);
    forms.flat_map(|(states, free, program)| STEPS.map(|steps| (states, free, program, steps))).collect()
}

pub fn rows() {
    for &((states, memories), free, program, steps) in sizes(&runs()) {
        if !crate::profiled() && steps != STEPS[1] {
            continue;
        }
        let circuit = lines_of(states, memories, free);
        if crate::profiled() {
            println!("lines {}", circuit.state_cells());
        }
        if program {
            let flat = flat_records(&circuit, MOST_RECORDS).unwrap();
            let records = program_records(&check_table(&numbered(&flat), flat.len()).unwrap());
            let lines = check_program(&program_list(&records), records.len()).unwrap();
            run_row(&mut Table::new(), "  program", proved::run_program, true, &lines, steps);
        } else {
            let name = if free { "free states" } else { "kept states" };
            run_row(&mut Table::new(), name, proved::run_circuit, false, &circuit, steps);
        }
    }
}
