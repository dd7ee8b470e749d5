//! Runs of circuits whose lines are all one overflow detector, on four inputs, and of their programs; beside lines that are
//! all one addition.

use crate::independent::translating::program_records;
use crate::independent::{kinds, program_list, rules};
use crate::{proved, run_row, sizes, Lines, Random, Table};

const KINDS: [u64; 8] = [39, 57, 58, 59, 60, 61, 62, 63];

/// Two numbers of steps: what a call costs once falls out of the difference.
const STEPS: [usize; 2] = [100, 300];

/// Lines of one kind on four inputs of 32 bits, and a bad line.
fn lines_of(kind: u64, lines: usize) -> Lines {
    let mut random = Random::new(lines as u64);
    let mut all = Lines::default();
    [[1, 0, 1, 0, 0], [1, 0, 32, 0, 0]].into_iter().for_each(|r| all.add(r));
    (0..4).for_each(|_| all.add([4, 2, 0, 0, 0]));
    let own = if kind == 39 { 2 } else { 1 };
    while all.lines.len() < lines {
        let mut input = || 3 + random.next() % 4;
        let (a, b) = (input(), input());
        all.add([kind, own, a, b, 0]);
    }
    let last = all.lines.len() as u64;
    all.add([16, 1, last, 0, 0]);
    all.add([8, 0, last + 1, 0, 0]);
    all
}

/// A kind, whether its program runs, and the steps.
fn runs() -> Vec<(u64, bool, usize)> {
    let each = KINDS.into_iter().flat_map(|kind| [(kind, false), (kind, true)]);
    each.flat_map(|(kind, program)| STEPS.map(|steps| (kind, program, steps))).collect()
}

pub fn rows() {
    for &(kind, program, steps) in sizes(&runs()) {
        if !crate::profiled() && steps != STEPS[1] {
            continue;
        }
        let circuit = lines_of(kind, 1000);
        if program {
            let records = program_records(&circuit);
            let lines = rules::check_program(&program_list(&records), records.len()).unwrap();
            run_row(&mut Table::new(), "  program", proved::run_program, true, &lines, steps);
        } else {
            run_row(&mut Table::new(), kinds::row(kind).word, proved::run_circuit, false, &circuit, steps);
        }
    }
}
