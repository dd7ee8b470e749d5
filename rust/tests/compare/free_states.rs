//! Free states: the proved tool against the independent implementation, in circuits, flat circuits and programs, and both
//! against what a row's words say. Every bit of every state is a signal of its own in most of these circuits.
#![cfg(all(
    feature = "read",
    feature = "write",
    feature = "flatten",
    feature = "translate",
    feature = "run_circuit",
    feature = "run_program",
    feature = "peek"
))]

use super::detectors::{both_forms, both_run_steps, running};
use super::generator::free_states::{damage, free_widths, states, watched, watched_circuit, State};
use super::*;
use independent::rules::{check_program, check_table, ones};

/// A circuit, its flat circuit, its program, and one with masks anywhere or nowhere, whose inputs are whole words.
fn forms(random: &mut Random, lines: &Lines) -> [Lines; 4] {
    let (flat, program) = both_forms(random, lines);
    let wild = wild_program(random, &flat);
    let wild = check_program(&program_list(&wild), wild.len()).unwrap();
    [lines.clone(), flat, program, wild]
}

/// The signals of circuit, flat circuit and program by both implementations, which are the same for all three.
fn alike_in(random: &mut Random, lines: &Lines, steps: usize, starts: &[u64], inputs: &[u64]) -> Vec<u8> {
    let (flat, program) = both_forms(random, lines);
    let [of_circuit, of_flat, of_program] =
        [lines, &flat, &program].map(|of| both_run_steps(random, of, steps, starts, inputs));
    assert!(of_circuit == of_flat && of_flat == of_program, "{}", show(&lines.words(), 400, false));
    of_circuit
}

/// The state words that the bad lines of a watched circuit show, step by step, by each state's cells.
fn shown(lines: &Lines, steps: usize, signals: &[u8]) -> Vec<Vec<Vec<u64>>> {
    let states = states(lines);
    let bits: usize = states.iter().map(|state| state.sort.cells() * state.sort.width() as usize).sum();
    let word = |bits: &[u8]| (0..).zip(bits).map(|(i, &bit)| u64::from(bit) << i).sum();
    let step = |bytes: &[u8]| {
        let mut rest = &bytes[bytes.len() - bits..];
        let mut cells = |state: &State| {
            let (own, behind) = rest.split_at(state.sort.cells() * state.sort.width() as usize);
            rest = behind;
            own.chunks(state.sort.width() as usize).map(word).collect()
        };
        states.iter().map(&mut cells).collect()
    };
    (0..steps).map(|k| step(&signals[k * lines.signals()..(k + 1) * lines.signals()])).collect()
}

/// Holds what a watched circuit showed to the request's sentences, for the states that are free or are their own next values:
/// a run of one step or more. The numbers of free words, of free arrays, and of the others.
fn hold(lines: &Lines, steps: usize, starts: &[u64], inputs: &[u64], signals: &[u8]) -> [usize; 3] {
    let (ins, row) = (lines.inputs(), lines.row_words());
    let values = lines.evaluate(&lines.start(starts), &inputs[..row]);
    let init = |line: u64| values[line as usize - 1][0];
    let (mut start, mut free, mut held) = (0, 0, [0; 3]);
    let shown = shown(lines, steps, signals);
    for (at, state) in states(lines).into_iter().enumerate() {
        let (n, own) = (state.sort.cells(), state.next == Some(state.line));
        for (k, cells) in shown.iter().map(|step| &step[at]).enumerate() {
            let from_row = |cell: usize| inputs[k * row + ins + free + cell];
            let first = |cell: usize| state.init.map_or(starts[start + cell], init);
            for (cell, &word) in cells.iter().enumerate() {
                let expected = match state.next {
                    Some(_) if !own => continue,
                    None if k > 0 => from_row(cell),
                    _ => first(cell),
                };
                let place = format!("step {k}, line {}, cell {cell}", state.line);
                assert!(word == expected & ones(state.sort.width()), "{place}\n{}", show(&lines.words(), 99, false));
            }
        }
        match state.next {
            None => held[usize::from(n > 1)] += 1,
            Some(_) => held[2] += usize::from(own),
        }
        start += n;
        free += if state.next.is_none() { n } else { 0 };
    }
    assert_eq!((start, ins + free), (lines.state_cells(), row));
    held
}

/// 0 stands for a circuit without free states, 1 for one with free words alone, 2 for one with free arrays.
#[test]
fn free_states_take_the_words_of_rows() {
    many_cases("free states", 4_000, &[0, 1, 2], 10, |random| {
        let lines = watched_circuit(random);
        let steps = 1 + random.below(6);
        let (starts, inputs) = (random.words(lines.state_cells()), random.words(steps * lines.row_words()));
        let signals = alike_in(random, &lines, steps, &starts, &inputs);
        let [words, arrays, _] = hold(&lines, steps, &starts, &inputs, &signals);
        if arrays > 0 {
            2
        } else {
            words.min(1) as u64
        }
    });
}

/// What may come of a state in a small circuit.
#[derive(Clone, Copy, PartialEq)]
enum Next {
    None,
    Itself,
    /// By an input, or with one cell written.
    Other,
}

/// An input, a word and an array of two cells, of one width, in some order; inits or not; next lines at the end of the table,
/// those of a state's own value also right behind it.
fn small(w: u64, order: [usize; 3], inits: [bool; 2], nexts: [Next; 2], late: bool) -> Lines {
    // Sorts of widths 1 and w, an array sort, constants of both widths.
    let mut records =
        vec![[1, 0, 1, 0, 0], [1, 0, w, 0, 0], [2, 0, 1, 2, 0], [3, 1, 0, 0, 0], [3, 2, ones(w) / 3, 0, 0]];
    let (mut places, mut behind) = ([0; 3], Vec::new());
    for item in order {
        places[item] = records.len() as u64 + 1;
        records.push([[4, 2, 0, 0, 0], [5, 2, 0, 0, 0], [5, 3, 0, 0, 0]][item]);
        if item == 0 {
            continue;
        }
        let (state, sort) = (places[item], item as u64 + 1);
        if inits[item - 1] {
            records.push([6, sort, state, 5, 0]);
        }
        match nexts[item - 1] {
            Next::None => {}
            Next::Itself if late => behind.push([7, sort, state, state, 0]),
            Next::Itself => records.push([7, sort, state, state, 0]),
            Next::Other => behind.push([7, sort, state, 0, 0]),
        }
    }
    for mut next in behind {
        if next[3] == 0 && next[1] == 2 {
            next[3] = places[0];
        } else if next[3] == 0 {
            records.push([55, 3, next[2], 4, 5]);
            next[3] = records.len() as u64;
        }
        records.push(next);
    }
    check_table(&numbered(&records), records.len()).unwrap()
}

/// Every order of an input, a word and an array, each state with and without an init, free, kept and driven: all words of all
/// steps are known. A next line that writes one cell drives them all.
#[test]
fn free_states_of_every_shape() {
    on_stack(|| {
        let (mut random, mut circuits) = (Random::new(30), 0);
        let orders = [[0, 1, 2], [0, 2, 1], [1, 0, 2], [1, 2, 0], [2, 0, 1], [2, 1, 0]];
        let fates = [Next::None, Next::Itself, Next::Other];
        let shapes = (0..orders.len() * 4 * 9 * 2).map(|n| {
            let (inits, n) = ([n % 2 == 0, n / 2 % 2 == 0], n / 4);
            let (nexts, n) = ([fates[n % 3], fates[n / 3 % 3]], n / 9);
            (orders[n / 2], inits, nexts, n % 2 == 0)
        });
        for (order, inits, nexts, late) in shapes {
            for w in [1, 3, 63, 64] {
                let lines = watched(&mut random, &small(w, order, inits, nexts, late));
                let steps = 5;
                let free = [1, 2].iter().zip(nexts).map(|(n, next)| if next == Next::None { *n } else { 0 }).sum();
                assert_eq!((lines.inputs(), lines.free_cells(), lines.state_cells()), (1, free, 3));
                let (starts, inputs) = (random.words(3), random.words(steps * (1 + free)));
                let signals = alike_in(&mut random, &lines, steps, &starts, &inputs);
                hold(&lines, steps, &starts, &inputs, &signals);
                // The states that something drives.
                let constant = ones(w) / 3;
                let word_first = order.iter().position(|&item| item == 1) < order.iter().position(|&item| item == 2);
                let (word, array) = if word_first { (0, 1) } else { (1, 0) };
                let shown = shown(&lines, steps, &signals);
                for k in 1..steps {
                    if nexts[0] == Next::Other {
                        assert_eq!(shown[k][word], [inputs[(k - 1) * (1 + free)] & ones(w)]);
                    }
                    if nexts[1] == Next::Other {
                        assert_eq!(shown[k][array], [constant, shown[0][array][1]]);
                    }
                }
                circuits += 1;
            }
        }
        println!("free states of every shape: {circuits} circuits");
        assert_eq!(circuits, 1728);
    });
}

/// Runs of circuit, flat circuit, program and a program with masks anywhere, on rows that differ where no word is read: in the
/// free words of row 0, and above the widths of the free words of the others. Start words differ above their widths, and where
/// there is an init. The signals are the same.
fn unread_case(random: &mut Random) -> u64 {
    let lines = watched_circuit(random);
    let (ins, widths) = (lines.inputs(), free_widths(&lines));
    let (row, steps) = (lines.row_words(), 1 + random.below(5));
    let (mut starts, mut inputs) = (random.words(lines.state_cells()), random.words(steps * row));
    let forms = forms(random, &lines);
    let before = forms.each_ref().map(|of| both_run_steps(random, of, steps, &starts, &inputs));
    for (at, word) in inputs.iter_mut().enumerate().filter(|(at, _)| at % row >= ins) {
        let above = if at < row { u64::MAX } else { !ones(widths[at % row - ins]) };
        *word ^= random.next() & above;
    }
    let mut place = 0;
    for state in states(&lines) {
        for word in &mut starts[place..place + state.sort.cells()] {
            *word ^= random.next() & if state.init.is_some() { u64::MAX } else { !ones(state.sort.width()) };
        }
        place += state.sort.cells();
    }
    let after = forms.each_ref().map(|of| both_run_steps(random, of, steps, &starts, &inputs));
    assert!(before == after, "{}", show(&lines.words(), 99, false));
    u64::from(widths.iter().any(|&w| w < 64)) * if steps > 1 { 2 } else { 1 }
}

/// 1 stands for a run of row 0 alone, 2 for one with free words that may be above their widths.
#[test]
fn words_that_are_not_read() {
    many_cases("words that are not read", 2_000, &[0, 1, 2], 5, unread_case);
}

/// Words that are read: one free word of a later row, changed below its width, shows.
#[test]
fn words_that_are_read() {
    many_cases("words that are read", 2_000, &[1], 40, |random| {
        let lines = watched_circuit(random);
        let (ins, widths, row, steps) = (lines.inputs(), free_widths(&lines), lines.row_words(), 2 + random.below(4));
        if widths.is_empty() {
            return 0;
        }
        let (starts, mut inputs) = (random.words(lines.state_cells()), random.words(steps * row));
        // Without the fourth: where there is no mask, a bad line does not show one bit alone.
        let [circuit, flat, program, _] = forms(random, &lines);
        let forms = [circuit, flat, program];
        let before = forms.each_ref().map(|of| both_run_steps(random, of, steps, &starts, &inputs));
        let (k, place) = (1 + random.below(steps - 1), random.below(widths.len()));
        inputs[k * row + ins + place] ^= 1 << (random.next() % widths[place]);
        let after = forms.each_ref().map(|of| both_run_steps(random, of, steps, &starts, &inputs));
        for (before, after) in before.iter().zip(&after) {
            let (same, first) = (k * lines.signals(), before.iter().zip(after).position(|(a, b)| a != b));
            assert!(first.is_some_and(|at| (same..same + lines.signals()).contains(&at)));
        }
        1
    });
}

/// Lengths that the rows of some steps do not have: the inputs alone, the free words alone, a word too few or too many, no free
/// words in one row, a row too few or too many, as many words as if all states were free, or as if just the others were.
fn wrong_lengths(lines: &Lines, steps: usize) -> Vec<usize> {
    let (ins, free, cells) = (lines.inputs(), lines.free_cells(), lines.state_cells());
    let (row, exact) = (ins + free, steps * (ins + free));
    let mut lengths = vec![exact + 1, exact + free, exact + row, steps * (row + 1), steps * ins, steps * free];
    lengths.extend([steps * (ins + cells), steps * (ins + cells - free), 0, ins, row, free]);
    lengths.extend([1, free, row, ins].map(|less| exact.saturating_sub(less)));
    lengths.retain(|&length| length != exact);
    lengths.sort_unstable();
    lengths.dedup();
    lengths
}

/// A run with rows of wrong lengths is refused by 15; by 13 and 14 before that, and not by 16 and 17.
#[test]
fn rows_of_other_lengths() {
    many_cases("rows of other lengths", 1_500, &[1], 40, |random| {
        let size = Size { lines: 5 + random.below(40), ..size(random) };
        let lines = circuit(random, size);
        if flat_of(&lines).is_none_or(|flat| program_of(&flat).is_none()) {
            return 12;
        }
        let steps = if random.one_in(8) { 0 } else { 1 + random.below(5) };
        for of in forms(random, &lines) {
            let (table, n) = (roomy(random, &of), of.records.len());
            for length in wrong_lengths(&of, steps) {
                let mut run = Run {
                    steps,
                    starts: random.words(of.state_cells()),
                    inputs: random.words(length),
                    signals: steps * of.signals() + usize::from(random.one_in(3)),
                    work: of.work() - usize::from(random.one_in(3)).min(of.work()),
                    answer: 3,
                };
                let both = running(of.program);
                assert_eq!(both_run(random, both, (&table, n, of.program), &run), 15);
                if random.one_in(4) {
                    run.starts.push(7);
                    assert_eq!(both_run(random, both, (&table, n, of.program), &run), 14);
                    run.steps = 4_097;
                    assert_eq!(both_run(random, both, (&table, n, of.program), &run), 13);
                }
            }
        }
        u64::from(lines.free_cells() > 0)
    });
}

/// Every line's first and last cells, and some between, from two rows that differ in their free words; and rows of other lengths.
#[test]
fn peeking_with_free_states() {
    many_cases("peeks with free states", 2_000, &[1], 40, |random| {
        let size = Size { lines: 4 + random.below(45), arrays: true };
        let lines = circuit(random, size);
        let (table, n) = (roomy(random, &lines), lines.records.len());
        let (starts, row) = (random.words(lines.state_cells()), random.words(lines.row_words()));
        let mut other = row.clone();
        other[lines.inputs()..].iter_mut().for_each(|word| *word = random.word());
        for line in 1..=n {
            let cells = if independent::kinds::is_value(lines.lines[line - 1].kind) {
                lines.lines[line - 1].sort.unwrap().cells()
            } else {
                0
            };
            for cell in (0..=cells).filter(|&cell| cell < 6 || cell + 2 > cells || cell % 29 == 0) {
                for row in [&row, &other] {
                    let told = both_peek(random, (&table, n), (line, cell), (&starts, row), 3);
                    assert_eq!(told, if n > 64 || cell == cells { 18 } else { 0 });
                }
                let peek = |row: &[u64]| gofeshan::peek(&table, n, line, cell, &starts, row);
                assert_eq!(peek(&row), peek(&other));
            }
        }
        for length in wrong_lengths(&lines, 1) {
            let row = random.words(length);
            let (line, more) = (1 + random.below(n), usize::from(random.one_in(3)));
            let starts = random.words(lines.state_cells() + more);
            let told = both_peek(random, (&table, n), (line, 0), (&starts, &row), 3);
            assert_eq!(told, if more == 0 { 15 } else { 14 });
        }
        u64::from(lines.free_cells() > 0)
    });
}

/// Circuits of all kinds of lines, which show of their states what their own bad and constraint lines do. 1 stands for one with
/// free states.
#[test]
fn free_states_among_all_lines() {
    many_cases("free states among all lines", 3_000, &[0, 1], 15, |random| {
        let size = size(random);
        let lines = circuit(random, size);
        if flat_of(&lines).is_none_or(|flat| program_of(&flat).is_none()) {
            return 12;
        }
        let steps = random.below(8);
        let (starts, inputs) = (random.words(lines.state_cells()), random.words(steps * lines.row_words()));
        alike_in(random, &lines, steps, &starts, &inputs);
        u64::from(lines.free_cells() > 0)
    });
}

/// A circuit, or its program, in which something is done about the next lines, the states or the inputs. The lists fit it, where
/// it is accepted, or what it was before.
fn damaged_case(random: &mut Random) -> u64 {
    let size = Size { lines: 5 + random.below(40), ..size(random) };
    let lines = circuit(random, size);
    let program = random.one_in(2);
    let lines = if program {
        let Some(flat) = flat_of(&lines) else { return 12 };
        let records = wild_program(random, &flat);
        let Some(program) = check_program(&program_list(&records), records.len()) else { return 12 };
        program
    } else {
        lines
    };
    let mut rows = lines.rows();
    (0..1 + random.below(2)).for_each(|_| damage(random, &mut rows, program));
    let (mut table, size) = (independent::columns(&rows, program), independent::size(program));
    let mut n = rows.len() / size;
    if random.one_in(4) {
        // The last records do not count; words behind them are no matter.
        n = n.saturating_sub(random.below(9));
        rows.truncate(size * n);
        rows.extend(random.words(3 * size));
        table = independent::columns(&rows, program);
    }
    let check = if program { check_program } else { check_table };
    let fitting = check(&table, n).filter(|_| random.below(4) > 0).unwrap_or(lines);
    let steps = random.below(5);
    let run = Run {
        steps,
        starts: random.words(fitting.state_cells()),
        inputs: random.words(steps * fitting.row_words()),
        signals: steps * fitting.signals(),
        work: fitting.work(),
        answer: 3,
    };
    if !program && n <= 64 && random.one_in(4) {
        let (line, row) = (1 + random.below(n), random.words(fitting.row_words()));
        return both_peek(random, (&table, n), (line, 0), (&run.starts, &row), 3);
    }
    both_run(random, running(program), (&table, n, program), &run)
}

#[test]
fn damaged_free_states() {
    cases("damaged free states", 12_000, &[0, 11, 14, 15, 16, 17, 18, 20, 100], damaged_case);
}

/// As many records as count. The next line of the first state is the last record of all; where it is not counted, the state is
/// free.
#[test]
fn next_lines_at_the_end_of_a_table() {
    on_stack(|| {
        let (mut random, most) = (Random::new(31), independent::MOST_RECORDS);
        for program in [false, true] {
            let (bit, sort) = if program { (1, 8) } else { (1, 2) };
            let mut records = if program { vec![] } else { vec![[1, 0, 1, 0, 0], [1, 0, 8, 0, 0]] };
            let state = records.len() as u64 + 1;
            records.extend([[5, sort, 0, 0, 0], [4, sort, 0, 0, 0], [5, sort, 0, 0, 0]]);
            records.push([21, bit, state, state + 1, 0]);
            records.push([8, 0, state + 3, 0, 0]);
            while records.len() < most - 1 {
                let (a, b) = (state + random.next() % 3, state + random.next() % 3);
                records.push([35, sort, a, b, 0]);
            }
            records.push([7, sort, state, state + 1, 0]);
            let table = if program { program_list(&records) } else { numbered(&records) };
            let check = if program { check_program } else { check_table };
            for (n, free) in [(most, 1), (most - 1, 2)] {
                let lines = check(&table, n).unwrap();
                assert_eq!(lines.free_cells(), free);
                for row in 0..=4 {
                    let run = Run {
                        steps: 3,
                        starts: vec![1, 2],
                        inputs: random.words(3 * row),
                        signals: 3,
                        work: lines.work(),
                        answer: 3,
                    };
                    let told = both_run(&mut random, running(program), (&table, n, program), &run);
                    assert_eq!(told == 15, row != 1 + free);
                }
            }
        }
    });
}

/// Memories of 256 cells, all free. Lengths do not wrap: 2^20 free cells and 4,096 steps are 2^32 words.
#[test]
fn as_many_free_cells_as_there_may_be() {
    on_stack(|| {
        let mut random = Random::new(32);
        for (arrays, runs) in
            [(4_096, vec![(4_096, 0, 15), (1, 1 << 20, 0)]), (16_382, vec![(4_096, 0, 15), (1, 0, 15)])]
        {
            let mut records = vec![[1, 0, 8, 0, 0], [2, 0, 1, 1, 0]];
            records.resize(arrays + 2, [5, 2, 0, 0, 0]);
            let (table, n, cells) = (numbered(&records), arrays + 2, 256 * arrays);
            for (steps, inputs, told) in runs {
                let (inputs, work) = (vec![7; inputs], if told == 0 { 2 * cells } else { 0 });
                let run = Run { steps, starts: vec![5; cells], inputs, signals: 0, work, answer: 3 };
                assert_eq!(both_run(&mut random, running(false), (&table, n, false), &run), told);
            }
            assert_eq!(both_peek(&mut random, (&table, n), (3, 0), (&vec![5; cells], &[]), 3), 15);
            assert_eq!(both_peek(&mut random, (&table, n), (3, 0), (&vec![5; cells], &vec![5; cells]), 3), 18);
        }
        // The longest run, of a word and a memory that are both free and a counter.
        let text = "1 sort bitvec 8\n2 sort array 1 1\n3 state 2\n4 state 1\n5 state 1\n6 inc 1 5\n7 next 1 5 6\n8 read 1 3 5\n9 sort bitvec 1\n10 eq 9 8 4\n11 bad 10\n";
        let mut table = vec![0; 11 * RECORD];
        assert_eq!(gofeshan::read(text.as_bytes(), &mut table), Ok(11));
        let (lines, steps) = (check_table(&table, 11).unwrap(), independent::MOST_STEPS);
        assert_eq!(lines.row_words(), 257);
        let (starts, inputs) = (random.words(258), random.words(257 * steps));
        let signals = alike_in(&mut random, &lines, steps, &starts, &inputs);
        // The cell that the counter names, and the word, of the same row.
        for (k, &signal) in signals.iter().enumerate().skip(1) {
            let (row, cell) = (&inputs[257 * k..257 * (k + 1)], (starts[257] as usize + k) % 256);
            assert_eq!(signal, u8::from(row[cell] % 256 == row[256] % 256));
        }
    });
}
