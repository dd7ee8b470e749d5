//! Overflow detectors: the proved tool against the independent implementation, in circuits, flat circuits and programs.
#![cfg(all(
    feature = "read",
    feature = "write",
    feature = "flatten",
    feature = "translate",
    feature = "run_circuit",
    feature = "run_program",
    feature = "peek"
))]

use super::generator::detectors::{damage, edge_words, near_limit, partners, DETECTORS};
use super::generator::minus::with_minus;
use super::*;

/// The widths beyond those of which all operands are taken.
const WIDTHS: [u64; 8] = [7, 8, 31, 32, 33, 62, 63, 64];

/// How often each detector gave 0 and 1.
#[derive(Default)]
struct Tally([[u64; 2]; 7]);

impl Tally {
    /// The signals of runs with one bad line for each detector in their order, once or more in a step.
    fn add(&mut self, signals: &[u8]) {
        for (at, &signal) in signals.iter().enumerate() {
            self.0[at % 7][signal as usize] += 1;
        }
    }

    fn floor(&self, name: &str, least: u64) {
        println!("{name}: {:?} times 0 and 1", self.0);
        assert!(self.0.iter().flatten().all(|&n| n > least), "{name}: {:?}", self.0);
    }
}

fn lines_of(records: &[[u64; 5]]) -> Lines {
    let mut lines = Lines::default();
    for r in records {
        assert!(lines.classes_fit(r) && lines.widths_fit(r) && lines.states_fit(r), "{r:?}");
        lines.add(*r);
    }
    lines
}

/// Sorts of widths 1 and w, two inputs of width w as lines 3 and 4.
fn inputs_of(w: u64) -> Vec<[u64; 5]> {
    vec![[1, 0, 1, 0, 0], [1, 0, w, 0, 0], [4, 2, 0, 0, 0], [4, 2, 0, 0, 0]]
}

/// Adds all detectors on two lines; the sort of width 1 is line 1.
fn add_detectors(records: &mut Vec<[u64; 5]>, a: u64, b: u64) {
    records.extend(DETECTORS.map(|kind| [kind, 1, a, b, 0]));
}

/// Adds a bad line for each detector.
fn add_bads(records: &mut Vec<[u64; 5]>) {
    let detectors: Vec<u64> = (1..).zip(&*records).filter(|(_, r)| DETECTORS.contains(&r[0])).map(|(n, _)| n).collect();
    records.extend(detectors.into_iter().map(|line| [8, 0, line, 0, 0]));
}

/// All detectors on two inputs.
fn on_inputs(w: u64) -> Lines {
    let mut records = inputs_of(w);
    add_detectors(&mut records, 3, 4);
    add_bads(&mut records);
    lines_of(&records)
}

/// The pairs of operands that are tried at a width: all, or edges and their partners, and random ones.
fn pairs(random: &mut Random, w: u64) -> Vec<u64> {
    if w <= 5 {
        return (0..1u64 << w).flat_map(|a| (0..1u64 << w).flat_map(move |b| [a, b])).collect();
    }
    let edges = edge_words(w);
    let mut found: Vec<u64> = edges.iter().flat_map(|&a| edges.iter().flat_map(move |&b| [a, b])).collect();
    found.extend(edges.iter().flat_map(|&a| partners(a, w).into_iter().flat_map(move |b| [a, b, b, a])));
    for kind in DETECTORS {
        found.extend((0..300).flat_map(|_| <[u64; 2]>::from(near_limit(random, kind, w))));
    }
    found.extend((0..2000).map(|_| random.word_of(w)));
    found
}

pub fn running(program: bool) -> (Running, Running) {
    if program {
        (independent::run_program, proved::run_program)
    } else {
        (independent::run_circuit, proved::run_circuit)
    }
}

/// Runs some lines by both implementations; the signals.
pub fn both_run_steps(random: &mut Random, lines: &Lines, steps: usize, starts: &[u64], rows: &[u64]) -> Vec<u8> {
    let (table, n) = (roomy(random, lines), lines.records.len());
    let run = Run {
        steps,
        starts: starts.to_vec(),
        inputs: rows.to_vec(),
        signals: steps * lines.signals(),
        work: lines.work(),
        answer: 3,
    };
    assert!(matches!(both_run(random, running(lines.program), (&table, n, lines.program), &run), 0 | 100));
    lines.run(steps, starts, rows)
}

/// Runs some lines on rows of words, of which there are some in a row, as many steps in a run as there may be; the signals.
fn both_run_rows(random: &mut Random, lines: &Lines, starts: &[u64], inputs: &[u64]) -> Vec<u8> {
    let row = lines.row_words();
    let runs = inputs.chunks(row * independent::MOST_STEPS);
    runs.flat_map(|rows| both_run_steps(random, lines, rows.len() / row, starts, rows)).collect()
}

/// Flattens and translates by both implementations; the flat circuit and its program.
pub fn both_forms(random: &mut Random, lines: &Lines) -> (Lines, Lines) {
    let flat = flat_of(lines).unwrap();
    let (table, n) = (roomy(random, lines), lines.records.len());
    let both: (Changing, Changing) = (independent::flatten, proved::flatten);
    assert_eq!(both_change(random, both, &table, n, RECORD * flat.records.len(), 3), 0);
    let program = program_of(&flat).unwrap();
    let (table, n) = (roomy(random, &flat), flat.records.len());
    let both: (Changing, Changing) = (independent::translate, proved::translate);
    assert_eq!(both_change(random, both, &table, n, PROGRAM_RECORD * program.records.len(), 3), 0);
    (flat, program)
}

/// Circuit, flat circuit and program on rows of words: the signals, which are the same for all three.
fn alike_on(random: &mut Random, lines: &Lines, starts: &[u64], inputs: &[u64]) -> Vec<u8> {
    let (flat, program) = both_forms(random, lines);
    let of_circuit = both_run_rows(random, lines, starts, inputs);
    let of_flat = both_run_rows(random, &flat, starts, inputs);
    let of_program = both_run_rows(random, &program, starts, inputs);
    assert!(of_circuit == of_flat && of_flat == of_program, "{}", show(&lines.words(), 400, false));
    of_circuit
}

/// All operands of widths 1 to 5, edges and random ones of larger widths. The flat circuit is the circuit, and the program has
/// a mask for each input below width 64.
#[test]
fn detectors_in_circuits_and_programs() {
    on_stack(|| {
        let (mut random, mut tally) = (Random::new(15), Tally::default());
        for w in (1..=5).chain(WIDTHS) {
            let (lines, inputs) = (on_inputs(w), pairs(&mut random, w));
            let (flat, program) = both_forms(&mut random, &lines);
            let masks = program.records.iter().filter(|r| r[0] == 56).count();
            assert_eq!((flat.records == lines.records, masks), (true, if w == 64 { 0 } else { 2 }));
            let signals = alike_on(&mut random, &lines, &[], &inputs);
            for (row, bytes) in inputs.chunks(2).zip(signals.chunks(7)) {
                let exact = DETECTORS.map(|kind| independent::meaning::overflows(kind, w, row[0], row[1]));
                assert!(exact.eq(bytes.iter().map(|&byte| byte == 1)), "width {w}, {row:?}: {bytes:?}");
            }
            tally.add(&signals);
        }
        tally.floor("detectors in circuits and programs", 100);
    });
}

/// The program of a circuit of words as it stands, without masks; its only sorts are lines 1 and 2.
fn unmasked(records: &[[u64; 5]]) -> Vec<[u64; 5]> {
    let width = |sort: u64| if sort == 0 { 0 } else { records[sort as usize - 1][2] };
    let instruction = |r: &[u64; 5]| match r[0] {
        3 => [3, width(r[1]), r[2], 0, 0],
        kind => [kind, width(r[1]), r[2].saturating_sub(2), r[3].saturating_sub(2), 0],
    };
    records[2..].iter().map(instruction).collect()
}

/// The same as lines.
fn unmasked_lines(records: &[[u64; 5]]) -> Lines {
    let program = unmasked(records);
    independent::rules::check_program(&program_list(&program), program.len()).unwrap()
}

/// Operands with bits above their width: a program made by hand has no masks. The inputs, and what add, sub, mul, not and neg
/// leave of them, give the signals of the circuit.
#[test]
fn detectors_on_loose_words() {
    on_stack(|| {
        let (mut random, mut tally, mut apart) = (Random::new(16), Tally::default(), 0);
        for w in (1..=5).chain(WIDTHS) {
            let mut records = inputs_of(w);
            records.extend([[39, 2, 3, 4, 0], [40, 2, 3, 4, 0], [41, 2, 3, 4, 0], [11, 2, 3, 0, 0], [12, 2, 4, 0, 0]]);
            for (a, b) in [(3, 4), (4, 3), (5, 4), (3, 6), (7, 5), (8, 9), (9, 9), (6, 8)] {
                add_detectors(&mut records, a, b);
            }
            add_bads(&mut records);
            let junk = |random: &mut Random, word: u64| word | random.next() & !independent::rules::ones(w);
            let some = if w <= 5 { 1 } else { 3 };
            let rows: Vec<u64> = pairs(&mut random, w).chunks(2).step_by(some).flatten().copied().collect();
            let inputs: Vec<u64> = rows.into_iter().map(|word| junk(&mut random, word)).collect();
            let of_circuit = alike_on(&mut random, &lines_of(&records), &[], &inputs);
            let of_program = both_run_rows(&mut random, &unmasked_lines(&records), &[], &inputs);
            assert!(of_circuit == of_program, "width {w}");
            apart += inputs.iter().filter(|&&word| word > independent::rules::ones(w)).count();
            tally.add(&of_program);
        }
        println!("detectors on loose words: {apart} inputs above their width");
        assert!(apart > 10_000);
        tally.floor("detectors on loose words", 100);
    });
}

/// Detectors as data: each is masked nowhere, and is a condition, an index, a next value and an operand of others.
#[test]
fn detectors_as_operands() {
    on_stack(|| {
        let (mut random, mut tally) = (Random::new(17), Tally::default());
        for w in [1, 3, 8, 63, 64] {
            // Detectors 5 to 11; an array of two cells by an index that is a detector, and one by a constant.
            let mut records = inputs_of(w);
            add_detectors(&mut records, 3, 4);
            records.extend([[2, 0, 1, 2, 0], [5, 12, 0, 0, 0], [5, 1, 0, 0, 0]]);
            records.extend([[54, 2, 13, 9, 0], [53, 2, 6, 15, 3], [55, 12, 13, 11, 16], [7, 12, 13, 17, 0]]);
            records.extend([[33, 1, 5, 14, 0], [7, 1, 14, 19, 0], [3, 1, 1, 0, 0], [54, 2, 17, 21, 0]]);
            add_detectors(&mut records, 15, 22);
            add_detectors(&mut records, 16, 15);
            add_bads(&mut records);
            let (lines, inputs) = (lines_of(&records), pairs(&mut random, w));
            let (_, program) = both_forms(&mut random, &lines);
            let kind = |line: u64| program.records[line as usize - 1][0];
            assert!(program.records.iter().all(|r| r[0] != 56 || !DETECTORS.contains(&kind(r[2]))));
            let starts = random.words(3);
            tally.add(&alike_on(&mut random, &lines, &starts, &inputs));
        }
        tally.floor("detectors as operands", 30);
    });
}

/// Every detector's word, and that of a line above it, from one row; and as a cell of a write above it.
#[test]
fn peeking_at_detectors() {
    on_stack(|| {
        let (mut random, mut tally) = (Random::new(18), Tally::default());
        for w in (1..=2).chain(WIDTHS) {
            let mut records = inputs_of(w);
            add_detectors(&mut records, 3, 4);
            // Above each detector a not; an array of two bits with detectors in its cells.
            records.extend((5..=11).map(|line| [11, 1, line, 0, 0]));
            records.extend([[2, 0, 1, 1, 0], [5, 19, 0, 0, 0], [55, 19, 20, 5, 10]]);
            add_bads(&mut records);
            let lines = lines_of(&records);
            let (table, n) = (lines.words(), lines.records.len());
            for case in 0..105 {
                let (a, b) = near_limit(&mut random, 57 + case % 7, w);
                // The words of the array state, which is free, stand behind the inputs.
                let (row, starts) = (&[a, b, random.word(), random.word()], random.words(2));
                for (line, cell) in (5..=18).map(|line| (line, 0)).chain([(21, 0), (21, 1), (21, 2), (5, 1)]) {
                    let told = both_peek(&mut random, (&table, n), (line, cell), (&starts, row), 3);
                    assert_eq!(told, if cell == 2 || line == 5 && cell == 1 { 18 } else { 0 });
                }
                tally.add(&lines.run(1, &starts, row));
            }
        }
        tally.floor("peeking at detectors", 30);
    });
}

/// Seven states of width 1, each with its init by a detector, its next and a bad line, behind two lines of width w.
fn init_records(w: u64, operands: [[u64; 5]; 2]) -> Vec<[u64; 5]> {
    let mut records = [vec![[1, 0, 1, 0, 0], [1, 0, w, 0, 0]], operands.to_vec()].concat();
    add_detectors(&mut records, 3, 4);
    records.extend((12..=18).map(|_| [5, 1, 0, 0, 0]));
    records.extend((12..=18).map(|state| [6, 1, state, state - 7, 0]));
    records.extend((12..=18).map(|state| [7, 1, state, state, 0]));
    records.extend((12..=18).map(|state| [8, 0, state, 0, 0]));
    records
}

/// The line of the first init in such records.
const FIRST_INIT: u64 = 19;

/// What is accepted starts from the detectors' words, in a circuit, its flat circuit, its program, and one without masks.
fn init_run(random: &mut Random, records: &[[u64; 5]]) -> Vec<u8> {
    let (lines, starts) = (lines_of(records), random.words(7));
    let (table, n, state) = (lines.words(), records.len(), 12 + random.below(7));
    assert_eq!(both_peek(random, (&table, n), (state, 0), (&starts, &[]), 3), 0);
    let (flat, program) = both_forms(random, &lines);
    for of in [&lines, &flat, &program, &unmasked_lines(records)] {
        let run = Run { steps: 2, starts: starts.clone(), inputs: vec![], signals: 14, work: of.work(), answer: 3 };
        let told = both_run(random, running(of.program), (&of.words(), of.records.len(), of.program), &run);
        assert!(matches!(told, 0 | 100));
    }
    lines.run(1, &starts, &[])
}

/// With an input or a state as an operand of a detector the init is refused: by 10 in a text, by 11 in a table, by 20 in a
/// program.
fn init_refused(random: &mut Random, records: &[[u64; 5]]) {
    let n = records.len();
    assert_eq!(both_write(random, &numbered(records), n, 2000, 3), 11);
    let program = unmasked(records);
    let run = Run { steps: 0, starts: vec![], inputs: vec![], signals: 0, work: 99, answer: 3 };
    assert_eq!(both_run(random, running(true), (&program_list(&program), program.len(), true), &run), 20);
    let told = gofeshan::read(&independent::texts::print(records), &mut random.words(RECORD * n));
    assert_eq!(told.map_err(|refusal| refusal.line), Err(FIRST_INIT));
}

#[test]
fn init_values_by_detectors() {
    on_stack(|| {
        let (mut random, mut tally, mut refused) = (Random::new(19), Tally::default(), 0);
        for w in (1..=5).chain(WIDTHS) {
            for case in 0..140 {
                let (a, b) = near_limit(&mut random, 57 + case % 7, w);
                let mut operands = [[3, 2, a, 0, 0], [3, 2, b, 0, 0]];
                let fixed = random.one_in(2);
                if !fixed {
                    operands[random.below(2)] = [random.pick(&[4, 5]), 2, 0, 0, 0];
                }
                let records = init_records(w, operands);
                let text = independent::texts::print(&records);
                let told = both_read(&mut random, &text, RECORD * records.len(), 3);
                assert_eq!(told, if fixed { 0 } else { 10 });
                if fixed {
                    tally.add(&init_run(&mut random, &records));
                } else {
                    init_refused(&mut random, &records);
                    refused += 1;
                }
            }
        }
        println!("init values by detectors: {refused} refused");
        assert!(refused > 500);
        tally.floor("init values by detectors", 20);
    });
}

/// Minus operands: a not record of the operand's sort before the detector's own.
#[test]
fn detectors_on_complements() {
    on_stack(|| {
        let (mut random, mut tally, mut added) = (Random::new(20), Tally::default(), 0);
        for w in (1..=5).chain(WIDTHS) {
            for share in [1, 2, 2, 3] {
                let plain = on_inputs(w);
                // The bad lines have no minus, so that signals are the detectors' words.
                let mut minus = with_minus(&mut random, plain.clone(), share);
                (0..18).filter(|&i| plain.records[i][0] == 8).for_each(|i| minus.signs[i] = [false; 5]);
                let (text, known) = (minus.text(&mut random), minus.written_out().0);
                let n = known.records.len();
                for room in [n - 1, n, n + 2] {
                    let told = both_read(&mut random, &text, RECORD * room, 3);
                    assert_eq!(told, if room < n { 4 } else { 0 });
                }
                added += n - plain.records.len();
                let inputs: Vec<u64> = pairs(&mut random, w).into_iter().take(4000).collect();
                tally.add(&alike_on(&mut random, &known, &[], &inputs));
            }
        }
        println!("detectors on complements: {added} not records");
        assert!(added > 200);
        tally.floor("detectors on complements", 100);
    });
}

/// What the detectors of a circuit give in a run of some steps: 0 where there is none, 1 where all give 0, 2 where all give 1,
/// 3 where some give either.
fn given(lines: &Lines, steps: usize, starts: &[u64], inputs: &[u64]) -> u64 {
    let (mut states, mut results) = (lines.start(starts), 0);
    for k in 0..steps {
        let row = &inputs[k * lines.row_words()..(k + 1) * lines.row_words()];
        if k > 0 {
            states = lines.later(&states, row);
        }
        let values = lines.evaluate(&states, row);
        let detectors = lines.records.iter().zip(&values).filter(|(r, _)| DETECTORS.contains(&r[0]));
        results = detectors.fold(results, |results, (_, value)| results | 1 << value[0]);
        states = lines.step(&states, row).1;
    }
    results
}

/// Circuits of all kinds of lines with detectors among them.
#[test]
fn detectors_among_all_lines() {
    many_cases("detectors among all lines", 4_000, &[1, 3], 15, |random| {
        let size = Size { lines: 10 + random.below(60), ..size(random) };
        let lines = circuit(random, size);
        let steps = 1 + random.below(6);
        let (starts, inputs) = (random.words(lines.state_cells()), random.words(steps * lines.row_words()));
        let fits = flat_of(&lines).is_some_and(|flat| program_of(&flat).is_some());
        if fits && lines.row_words() > 0 {
            alike_on(random, &lines, &starts, &inputs);
        }
        given(&lines, steps, &starts, &inputs)
    });
}

/// A circuit's records in which something is done about a detector's record: as a table, as a text; and of its program's. An
/// answer other than a refusal of records counts as 0.
fn damaged_case(random: &mut Random) -> u64 {
    let lines = loop {
        let size = Size { lines: 10 + random.below(40), ..size(random) };
        let lines = circuit(random, size);
        if lines.records.iter().any(|r| DETECTORS.contains(&r[0])) {
            break lines;
        }
    };
    let damaged = |random: &mut Random, rows: &mut Vec<u64>, program: bool| {
        (0..1 + random.below(2)).for_each(|_| damage(random, rows, program));
        independent::columns(rows, program)
    };
    if random.one_in(3) {
        let Some(program) = flat_of(&lines).and_then(|flat| program_of(&flat)) else { return 0 };
        let (table, run) = (damaged(random, &mut program.rows(), true), run_of(random, &program));
        return match both_run(random, running(true), (&table, program.records.len(), true), &run) {
            20 => 20,
            _ => 0,
        };
    }
    let (table, n) = (damaged(random, &mut lines.rows(), false), lines.records.len());
    let records = independent::records(&table, n, false);
    if random.one_in(2) && records.iter().all(|r| independent::kinds::in_circuits(r[0])) {
        return both_read(random, &independent::texts::print(&records), RECORD * n, 3);
    }
    both_take(random, &lines, &table, n)
}

#[test]
fn damaged_detectors() {
    many_cases("damaged detectors", 6_000, &[0, 8, 9, 11, 20], 3, damaged_case);
}

/// Each of the kinds about the detectors, with operands of every class, as a record of a circuit and of a program.
#[test]
fn kinds_about_the_detectors() {
    on_stack(|| {
        let (mut random, mut answers) = (Random::new(21), BTreeMap::new());
        // Sorts of widths 1 and 4, an array sort, two inputs of each width, an array state, a bad line.
        let mut before = vec![[1, 0, 1, 0, 0], [1, 0, 4, 0, 0], [2, 0, 1, 2, 0], [4, 1, 0, 0, 0], [4, 1, 0, 0, 0]];
        before.extend([[4, 2, 0, 0, 0], [4, 2, 0, 0, 0], [5, 3, 0, 0, 0], [8, 0, 4, 0, 0]]);
        for kind in (52..=66).chain([120, 127, 128, 313, 319, 1 << 32 | 57, u64::MAX]) {
            for sort in 0..=9 {
                for (a, b) in (0..=11).flat_map(|a| (0..=11).map(move |b| (a, b))) {
                    let mut records = before.clone();
                    records.push([kind, sort, a, b, u64::from(random.one_in(20))]);
                    let told = both_write(&mut random, &numbered(&records), 10, 400, 3);
                    *answers.entry(told).or_insert(0) += 1;
                    // Inputs of widths 1 and 4 as instructions 1 to 4, a bad as the fifth.
                    let bit = [8, 0, 1, 0, 0];
                    let mut program: Vec<[u64; 5]> = [1, 1, 4, 4].map(|w| [4, w, 0, 0, 0]).into();
                    program.extend([bit, [kind, sort, a, b, 0]]);
                    let run = Run { steps: 1, starts: vec![], inputs: random.words(4), signals: 1, work: 6, answer: 3 };
                    let told = both_run(&mut random, running(true), (&program_list(&program), 6, true), &run);
                    *answers.entry(told).or_insert(0) += 1;
                }
            }
        }
        println!("kinds about the detectors: answers {answers:?}");
        assert!([0, 11, 20, 100].iter().all(|number| answers.get(number) > Some(&20)), "{answers:?}");
    });
}
