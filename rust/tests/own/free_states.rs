//! Free states by the independent implementation alone: the request's vector, edges by hand, and what the generator makes of
//! them.

use super::generator::free_states::{damage, states, watched_circuit};
use super::generator::{self, Random};
use super::*;
use std::collections::BTreeMap;

/// Two free states, an array and one with an init, and a state that is kept; the array stands before the input.
const CIRCUIT: &str = "1 sort bitvec 1
2 sort bitvec 3
3 sort array 1 2
4 constd 2 5
5 state 3
6 state 2
7 init 2 6 4
8 input 1
9 state 2
10 next 2 9 9
11 read 2 5 8
12 eq 1 11 6
13 bad 12
14 eq 1 6 9
15 bad 14
";

/// The number, the answer and the signals of a run with a work area of so many words.
fn run(program: bool, list: &[u64], count: usize, steps: usize, starts: &[u64], inputs: &[u64], work: usize) -> Told {
    let run = if program { run_program } else { run_circuit };
    let lines = if program { rules::check_program(list, count) } else { rules::check_table(list, count) };
    let (mut signals, mut answer) = (vec![9; steps * lines.unwrap().signals()], [9; 3]);
    let number = run(list, count, steps, starts, inputs, &mut signals, &mut vec![9; work], &mut answer);
    (number, answer, signals)
}

type Told = (u64, [u64; 3], Vec<u8>);

/// Circuit, flat circuit and program: each with its count.
fn forms(text: &str) -> [(bool, Vec<u64>, usize); 3] {
    let (circuit, count) = table(text);
    let (mut flat, mut program, mut answer) = (vec![9; 6 * 4000], vec![9; 5 * 4000], [9; 3]);
    assert_eq!(flatten(&circuit, count, &mut flat, &mut answer), 0);
    let flat_count = answer[0] as usize;
    assert_eq!(translate(&flat, flat_count, &mut program, &mut answer), 0);
    [(false, circuit, count), (false, flat, flat_count), (true, program, answer[0] as usize)]
}

#[test]
fn the_vector() {
    let forms = forms(CIRCUIT);
    assert_eq!(forms.each_ref().map(|of| of.2), [15, 19, 17]);
    let inputs = [1, 7, 7, 7, 0, 11, 3, 3, 1, 4, 6, 14];
    for ((program, list, count), work) in forms.iter().zip([13, 16, 17]) {
        let of = |steps, starts: &[u64], inputs: &[u64], work| run(*program, list, *count, steps, starts, inputs, work);
        let starts = [1, 2, 0, 5];
        assert_eq!(of(3, &starts, &inputs, work), (0, [1, 0, 2], vec![0, 1, 1, 0, 1, 0]));
        assert_eq!(of(3, &starts, &inputs, work - 1), (17, [0; 3], vec![0; 6]));
        for length in [0, 3, 9, 11] {
            assert_eq!(of(3, &starts, &inputs[..length], work), (15, [0; 3], vec![0; 6]), "{length}");
        }
        assert_eq!(of(3, &starts, &[&inputs[..], &[0]].concat(), work).0, 15);
        // A start word for each state cell, free or not.
        for length in [0, 1, 2, 3] {
            assert_eq!(of(3, &starts[..length], &inputs, work).0, 14, "{length}");
        }
        assert_eq!(of(0, &starts, &[], work), (0, [0; 3], vec![]));
        assert_eq!(of(0, &starts, &inputs[..4], work).0, 15);
        // The free words of row 0 make no difference, nor do the start words and the init from step 1 on.
        let other = [1, 0, 6, 1, 0, 11, 3, 3, 1, 4, 6, 14];
        assert_eq!(of(3, &starts, &other, work), (0, [1, 0, 2], vec![0, 1, 1, 0, 1, 0]));
        assert_eq!(of(3, &[9, 10, 7, 13], &inputs, work), (0, [1, 0, 2], vec![0, 1, 1, 0, 1, 0]));
        assert_eq!(of(3, &[1, 5, 0, 5], &inputs, work), (0, [1, 0, 1], vec![1, 1, 1, 0, 1, 0]));
    }
    let (_, circuit, count) = &forms[0];
    let mut answer = [9; 3];
    for (row, told) in [(&[1][..], 15), (&[1, 7, 7], 15), (&[1, 7, 7, 7], 0), (&[1, 7, 7, 7, 7], 15)] {
        assert_eq!(peek(circuit, *count, 11, 0, &[1, 2, 0, 5], row, &mut answer), told);
        assert_eq!(answer[0], if told == 0 { 2 } else { 0 });
    }
    for (line, cell, value) in [(5, 0, 1), (5, 1, 2), (6, 0, 5), (9, 0, 5), (12, 0, 0), (14, 0, 1)] {
        assert_eq!(peek(circuit, *count, line, cell, &[1, 2, 0, 5], &[1, 7, 7, 7], &mut answer), 0);
        assert_eq!(answer[0], value, "line {line}");
    }
}

/// A state of width 3 whose bits are signals, and lines behind it; from start words 5, rows of all words.
#[test]
fn free_and_driven() {
    let start = "1 sort bitvec 1\n2 sort bitvec 3\n3 one 2\n4 state 2\n";
    let bits = "10 slice 1 4 0 0\n11 slice 1 4 1 1\n12 slice 1 4 2 2\n13 bad 10\n14 bad 11\n15 bad 12\n";
    let lines = "20 input 2\n21 input 2\n";
    for (between, behind, row, words) in [
        // Free; with an init; kept; kept by a line at the end of the table; driven by an input.
        ("", "", vec![6, 7, 10], vec![5, 2, 2]),
        ("5 init 2 4 3\n", "", vec![6, 7, 10], vec![1, 2, 2]),
        ("", "30 init 2 4 3\n", vec![6, 7, 10], vec![1, 2, 2]),
        ("5 next 2 4 4\n", "", vec![6, 7], vec![5, 5, 5]),
        ("", "4000 next 2 4 4\n", vec![6, 7], vec![5, 5, 5]),
        ("5 init 2 4 3\n", "4000 next 2 4 4\n", vec![6, 7], vec![1, 1, 1]),
        ("", "4000 next 2 4 21\n", vec![6, 15], vec![5, 7, 7]),
    ] {
        let text = [start, between, bits, lines, behind].concat();
        for (program, list, count) in forms(&text) {
            let (number, _, signals) = run(program, &list, count, 3, &[13], &row.repeat(3), 99);
            let shown = signals.chunks(3).map(|b| u64::from(b[0]) + 2 * u64::from(b[1]) + 4 * u64::from(b[2]));
            assert_eq!((number, shown.collect::<Vec<u64>>()), (0, words.clone()), "{text}");
        }
    }
}

/// A program by hand: an input is a whole word, a start word and a free word are taken modulo 2^w, and what a next line stores
/// is a whole word again.
#[test]
fn words_of_programs() {
    // Input, free state, state that takes the input; each is a bad.
    let program = [[4, 1, 0, 0, 0], [5, 1, 0, 0, 0], [5, 1, 0, 0, 0], [7, 1, 3, 1, 0]];
    let bads = [1, 2, 3].map(|line| [8, 0, line, 0, 0]);
    let list = program_list(&[&program[..], &bads].concat());
    let told = run(true, &list, 7, 3, &[2, 2], &[2, 1, 0, 2, 4, 3], 5);
    assert_eq!(told, (0, [1, 0, 1], vec![1, 0, 0, 0, 0, 1, 1, 1, 0]));
    let told = run(true, &list, 7, 3, &[2, 2], &[0, 1, u64::MAX, u64::MAX - 1, 0, 1], 5);
    assert_eq!(told, (0, [1, 1, 1], vec![0, 0, 0, 1, 0, 0, 0, 1, 1]));
    // Without its next line the second state is free too.
    assert_eq!(run(true, &program_list(&program[..3]), 3, 1, &[2, 2], &[2, 1, 0], 5).0, 0);
    assert_eq!(run(true, &program_list(&program[..3]), 3, 1, &[2, 2], &[2, 1], 5).0, 15);
    // The whole list is looked at, as far as records count.
    assert_eq!(run(true, &program_list(&program), 4, 1, &[2, 2], &[2, 1], 5).0, 0);
    assert_eq!(run(true, &program_list(&program), 3, 1, &[2, 2], &[2, 1], 5).0, 15);
}

/// The generator makes free words and free arrays, with an init and without, before, between and behind inputs; states that are
/// kept; next lines far behind their states; and tables and programs that are damaged in what is free.
#[test]
fn generator_reaches_free_states() {
    let mut random = Random::new(11);
    let mut reached: BTreeMap<String, usize> = BTreeMap::new();
    let mut add = |key: String| *reached.entry(key).or_default() += 1;
    for case in 0..8000 {
        let size = generator::size(&mut random);
        let mut lines =
            if case % 4 == 0 { watched_circuit(&mut random) } else { generator::circuit(&mut random, size) };
        if case % 3 == 0 {
            let flat = flattening::flat_records(&lines, MOST_RECORDS).unwrap();
            let flat = rules::check_table(&numbered(&flat), flat.len()).unwrap();
            let program = generator::wild_program(&mut random, &flat);
            lines = rules::check_program(&program_list(&program), program.len()).unwrap();
        }
        let of = if lines.program { "program" } else { "circuit" };
        let all = states(&lines);
        let free = all.iter().filter(|state| state.next.is_none()).count();
        assert!(all.iter().all(|state| lines.line(state.line).unwrap().is_free() == state.next.is_none()));
        add(match (all.len(), free) {
            (0, _) => format!("{of}: no states"),
            (_, 0) => format!("{of}: all driven"),
            (n, free) if n == free => format!("{of}: all free"),
            _ => format!("{of}: some free"),
        });
        let inputs: Vec<u64> = (1..).zip(&lines.records).filter(|(_, r)| r[0] == 4).map(|(line, _)| line).collect();
        for state in all {
            let sort = if state.sort.cells() > 1 { "array" } else { "word" };
            let init = if state.init.is_some() { "with an init" } else { "without" };
            let place = match (inputs.first(), inputs.last()) {
                (Some(&first), _) if state.line < first => "before inputs",
                (_, Some(&last)) if state.line < last => "between inputs",
                _ => "behind inputs",
            };
            let next = lines.records.iter().position(|r| r[0] == 7 && r[2] == state.line);
            add(match next.map(|at| (at as u64 - state.line, state.next == Some(state.line))) {
                None => format!("{of}: free {sort} {init}, {place}"),
                Some((20.., true)) => format!("{of}: {sort} kept by a late line"),
                Some((_, true)) => format!("{of}: {sort} kept"),
                Some((20.., false)) => format!("{of}: {sort} driven by a late line"),
                _ => format!("{of}: {sort} driven"),
            });
        }
        let mut rows = lines.rows();
        damage(&mut random, &mut rows, lines.program);
        if rows != lines.rows() {
            let (list, n) = (columns(&rows, lines.program), rows.len() / independent::size(lines.program));
            let check = if lines.program { rules::check_program } else { rules::check_table };
            add(match check(&list, n).map(|damaged| damaged.row_words() == lines.row_words()) {
                None => format!("{of}: damaged, refused"),
                Some(true) => format!("{of}: damaged, rows of the same length"),
                Some(false) => format!("{of}: damaged, rows of another length"),
            });
        }
    }
    println!("{reached:#?}");
    // Classes of circuits, of free states, of driven ones, of damage; a program has no arrays.
    assert_eq!(reached.len(), 2 * 4 + (12 + 6) + (8 + 4) + 2 * 3);
    assert!(reached.values().all(|&n| n > 30));
}
