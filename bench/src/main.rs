//! The proved library against plain Rust: `bash bench/run` in the repository's root.
//!
//! Reading, writing, flattening, translating and conversions are compared with the independent implementation of
//! rust/tests, runs with the two interpreters of this crate. Each is measured at three sizes, the sides taking turns. Texts
//! with gaps in their ids are measured beside texts of the same lines without, register files with inits beside the same
//! files with nexts, which need no cone; the independent implementation searches the cone of each init value. Texts with
//! minus operands stand by themselves (`minus.rs`); texts full of names stand beside the same lines without (`names.rs`). Runs
//! of one overflow detector each stand behind additions alone (`detectors.rs`), runs of free states behind the same states kept
//! by next lines (`free_states.rs`).
//! `bash bench/run -- write` measures one operation alone, `-- edges` the inputs that could take long. `bench profile write` calls the proved one at its largest size
//! and measures nothing; `bench/profile` runs that under callgrind.
#![allow(dead_code, unused_imports)]

mod clock;
#[cfg(all(
    feature = "read",
    feature = "flatten",
    feature = "translate",
    feature = "run_circuit",
    feature = "run_program"
))]
mod designs;
#[cfg(all(feature = "run_circuit", feature = "run_program"))]
mod detectors;
#[cfg(all(feature = "run_circuit", feature = "run_program"))]
mod free_states;
#[path = "../../rust/tests/generator/mod.rs"]
mod generator;
#[path = "../../rust/tests/independent/mod.rs"]
mod independent;
mod interpreter;
mod minus;
mod names;

use generator::Random;
use gofeshan::interface as proved;
use gofeshan::{PROGRAM_RECORD, RECORD};
use independent::rules::{check_table, Lines};
use independent::{numbered, program_list, Record};
use std::time::{Duration, Instant};

/// Whether nothing is measured, and the proved operations alone are called.
fn profiled() -> bool {
    std::env::args().nth(1).is_some_and(|word| word == "profile")
}

/// The time of a call of each of some functions that only one call in twenty undercuts; they take turns for some time. The
/// first is the proved operation.
fn measure<const N: usize>(mut calls: [&mut dyn FnMut(); N]) -> [f64; N] {
    if profiled() {
        (0..3).for_each(|_| calls[0]());
        calls[1..].iter_mut().for_each(|call| call());
        return [1.0; N];
    }
    let (mut times, began) = ([(); N].map(|_| Vec::new()), Instant::now());
    while times[0].len() < 5 || began.elapsed() < Duration::from_millis(1500) {
        for (call, times) in calls.iter_mut().zip(&mut times) {
            let began = clock::thread();
            call();
            times.push(clock::thread() - began);
        }
    }
    times.map(|mut times| {
        times.sort_by(f64::total_cmp);
        times[times.len() / 20]
    })
}

/// The sizes to measure; to profile, one alone: that of the third word's place, or the last.
fn sizes<T>(all: &[T]) -> &[T] {
    if !profiled() {
        return all;
    }
    let last = all.len() - 1;
    let at = std::env::args().nth(3).map_or(last, |word| word.parse::<usize>().unwrap().min(last));
    &all[at..=at]
}

/// Prints the rows of an operation and how its time grows.
struct Table {
    /// The units and the first two times of the row above.
    last: Option<(f64, f64, f64)>,
}

impl Table {
    fn new() -> Table {
        Table { last: None }
    }

    /// `units` says how large the work is; the times are of the proved operation, the plain one, and for runs of the
    /// interpreter of the same shape.
    fn row(&mut self, operation: &str, size: &str, units: f64, unit: &str, times: &[f64]) {
        if profiled() {
            println!("units {units}");
            return;
        }
        let (proved, plain) = (times[0], times[1]);
        let growth = |now: f64, last: fn((f64, f64, f64)) -> f64| match self.last {
            Some(row) => format!("{:.2}", now / last(row) / (units / row.0)),
            None => "-".to_string(),
        };
        let (shape, shape_ratio) = match times.get(2) {
            Some(shape) => (format!("{:.1}", shape * 1e6), format!("{:.2}", proved / shape)),
            None => ("-".to_string(), "-".to_string()),
        };
        println!(
            "{operation:<12} {size:<34} {:>10.1} {:>10.1} {:>6.2} {shape:>10} {shape_ratio:>6} {:>9.2} ns/{unit:<11} {:>6} {:>6}",
            proved * 1e6,
            plain * 1e6,
            proved / plain,
            proved * 1e9 / units,
            growth(proved, |row| row.1),
            growth(plain, |row| row.2)
        );
        self.last = Some((units, proved, plain));
    }
}

/// A circuit of about so many lines, in linear time: some sorts, inputs and states, then lines of every kind. No state has an init.
fn circuit(lines: usize, arrays: Option<u64>) -> Lines {
    mixed(lines, arrays, false)
}

/// The same, where the states have inits or not.
fn mixed(lines: usize, arrays: Option<u64>, inits: bool) -> Lines {
    let mut random = Random::new(lines as u64);
    let mut all = Lines::default();
    let widths = [1u64, 8, 32, 64];
    fn add(all: &mut Lines, r: Record) -> u64 {
        assert!(all.classes_fit(&r) && all.widths_fit(&r) && all.states_fit(&r), "{r:?}");
        all.add(r);
        all.lines.len() as u64
    }
    let sorts: Vec<u64> = widths.iter().map(|&w| add(&mut all, [1, 0, w, 0, 0])).collect();
    let mut words: Vec<Vec<u64>> = vec![vec![]; 4];
    let mut states: Vec<(usize, u64)> = vec![];
    for (i, &sort) in sorts.iter().enumerate() {
        let one = inits.then(|| add(&mut all, [3, sort, 1, 0, 0]));
        for _ in 0..3 {
            words[i].push(add(&mut all, [4, sort, 0, 0, 0]));
            let state = add(&mut all, [5, sort, 0, 0, 0]);
            if let Some(one) = one {
                add(&mut all, [6, sort, state, one, 0]);
            }
            words[i].push(state);
            states.push((i, state));
        }
    }
    // An array sort of 32-bit elements.
    let memory = arrays.map(|index| {
        let index_sort = add(&mut all, [1, 0, index, 0, 0]);
        let sort = add(&mut all, [2, 0, index_sort, sorts[2], 0]);
        let memory = add(&mut all, [5, sort, 0, 0, 0]);
        (index, index_sort, sort, memory)
    });
    let mut memories: Vec<u64> = memory.iter().map(|m| m.3).collect();
    let recent = |random: &mut Random, from: &[u64]| from[from.len() - 1 - random.below(from.len().min(40))];
    while all.lines.len() + 30 < lines {
        let i = random.below(4);
        let (a, b) = (recent(&mut random, &words[i]), recent(&mut random, &words[i]));
        let (bit, middle) = (recent(&mut random, &words[0]), recent(&mut random, &words[2]));
        if let (Some((index, index_sort, sort, _)), true) = (memory, random.one_in(4)) {
            let address = add(&mut all, [18, index_sort, recent(&mut random, &words[1]), index - 1, 0]);
            let array = recent(&mut random, &memories);
            if random.one_in(2) {
                words[2].push(add(&mut all, [54, sorts[2], array, address, 0]));
            } else {
                let value = recent(&mut random, &words[2]);
                memories.push(add(&mut all, [55, sort, array, address, value]));
            }
            continue;
        }
        match random.below(12) {
            0 => words[i].push(add(&mut all, [11 + random.next() % 4, sorts[i], a, 0, 0])),
            1 => words[0].push(add(&mut all, [15 + random.next() % 3, sorts[0], a, 0, 0])),
            2 => words[1].push(add(&mut all, [18, sorts[1], middle, 15, 8])),
            3 => words[3].push(add(&mut all, [19 + random.next() % 2, sorts[3], middle, 32, 0])),
            4 => words[0].push(add(&mut all, [21 + random.next() % 10, sorts[0], a, b, 0])),
            5 => words[i].push(add(&mut all, [53, sorts[i], bit, a, b])),
            6 => words[i].push(add(&mut all, [39 + random.next() % 3, sorts[i], a, b, 0])),
            7 => words[i].push(add(&mut all, [47 + random.next() % 5, sorts[i], a, b, 0])),
            8 => {
                let low = recent(&mut random, &words[2]);
                words[3].push(add(&mut all, [52, sorts[3], middle, low, 0]));
            }
            9 if random.one_in(3) => words[i].push(add(&mut all, [42 + random.next() % 5, sorts[i], a, b, 0])),
            _ => words[i].push(add(&mut all, [33 + random.next() % 6, sorts[i], a, b, 0])),
        }
    }
    for (i, state) in states {
        let value = recent(&mut random, &words[i]);
        add(&mut all, [7, sorts[i], state, value, 0]);
    }
    if let Some((_, _, sort, state)) = memory {
        add(&mut all, [7, sort, state, *memories.last().unwrap(), 0]);
    }
    for _ in 0..4 {
        let bit = recent(&mut random, &words[0]);
        add(&mut all, [8, 0, bit, 0, 0]);
    }
    all
}

fn read_rows() {
    #[cfg(feature = "read")]
    {
        let mut table = Table::new();
        for &lines in sizes(&[80, 500, 2900]) {
            let c = circuit(lines, Some(3));
            read_row(&mut table, "reading", "", &c);
        }
    }
}

#[cfg(feature = "read")]
fn read_row(table: &mut Table, name: &str, size: &str, lines: &Lines) {
    let text = generator::plain_text(lines);
    let size = format!("{size}{} bytes, {} lines", text.len(), lines.records.len());
    text_row(table, name, &size, &text, lines);
}

/// The row of a text and of the records that it gives; the times.
#[cfg(feature = "read")]
fn text_row(table: &mut Table, name: &str, size: &str, text: &[u8], lines: &Lines) -> [f64; 2] {
    let words = lines.words();
    let (mut a, mut b) = (vec![1; words.len()], vec![2; words.len()]);
    let (mut x, mut y) = ([1; 3], [2; 3]);
    let times = measure([&mut || assert_eq!(proved::read(text, &mut a, &mut x), 0), &mut || {
        assert_eq!(independent::read(text, &mut b, &mut y), 0)
    }]);
    assert!(a == b && x == y && a == words);
    table.row(name, size, text.len() as f64, "byte", &times);
    times
}

/// The ids of so many lines: 1, 2, 3; 2, 4, 6; or anywhere up to 4,294,967,295, so that a gap is some millions.
fn ids(style: &str, n: usize) -> Vec<u64> {
    match style {
        "no gaps" => (1..=n as u64).collect(),
        "small gaps" => (1..=n as u64).map(|i| 2 * i).collect(),
        _ => {
            let (mut random, step) = (Random::new(n as u64), gofeshan::MOST_ID / n as u64);
            (0..n as u64).map(|i| 1 + step * i + random.next() % step).collect()
        }
    }
}

/// Texts with gaps before all ids, each behind the text of the same circuit without gaps. Small gaps make hardly more
/// bytes, so that the times of the two texts can be compared: they differ in how an operand's line is found. With large
/// gaps there are more digits to read, and the times for a byte can be compared.
const GAPS: [(usize, &str); 4] = [(3010, "no gaps"), (3010, "small gaps"), (1512, "no gaps"), (1512, "large gaps")];

fn gap_rows() {
    #[cfg(feature = "read")]
    for (lines, style) in sizes(&GAPS) {
        let mut c = circuit(*lines, Some(3));
        c.ids = ids(style, c.records.len());
        read_row(&mut Table::new(), style, "", &c);
    }
}

/// The cones that the values of a register file have, all over one constant.
#[derive(Clone, Copy, PartialEq)]
enum Cones {
    /// All values are the last line of a chain of 1,000.
    Chain,
    /// Each value is a line over the value before it: the cone of the i-th has i lines.
    Deep,
}

const INIT: u64 = 6;
const NEXT: u64 = 7;

/// A register file of so many states, each with an init or with a next. A table that is to be refused by 19 has an array sort.
fn registers(cones: Cones, count: usize, kind: u64, array_sort: bool) -> Lines {
    let mut all = Lines::default();
    all.add([1, 0, 8, 0, 0]);
    if array_sort {
        all.add([2, 0, 1, 1, 0]);
    }
    all.add([3, 1, 5, 0, 0]);
    let constant = all.lines.len() as u64;
    let line_over = |all: &mut Lines, value: u64| {
        all.add([[39, 1, value, constant, 0], [35, 1, constant, value, 0], [11, 1, value, 0, 0]][value as usize % 3]);
        all.lines.len() as u64
    };
    let mut value = constant;
    if cones == Cones::Chain {
        (1..1000).for_each(|_| value = line_over(&mut all, value));
    }
    for place in 0..count {
        if cones == Cones::Deep && place > 0 {
            value = line_over(&mut all, value);
        }
        all.add([5, 1, 0, 0, 0]);
        let state = all.lines.len() as u64;
        all.add([kind, 1, state, value, 0]);
    }
    all
}

/// Register files: 100 and 1,000 states, and as many as fit.
fn register_files() -> Vec<(Cones, u64, Option<usize>)> {
    let counts = [Some(100), Some(1000), None];
    let kinds = [Cones::Chain, Cones::Deep].into_iter().flat_map(|cones| [(cones, INIT), (cones, NEXT)]);
    kinds.flat_map(|(cones, kind)| counts.map(|count| (cones, kind, count))).collect()
}

/// Makes each file, of as many states as fit by the first function, and calls the other with the rows' table, a name, the
/// number of states, and the file.
fn each_register_file(array_sort: bool, most: fn(Cones) -> usize, row: fn(&mut Table, &str, usize, &Lines)) {
    let mut table = Table::new();
    for &(cones, kind, count) in sizes(&register_files()) {
        if count == Some(100) {
            table = Table::new();
        }
        let name = match (cones, kind) {
            (Cones::Chain, INIT) => "chain inits",
            (Cones::Chain, _) => "chain nexts",
            (Cones::Deep, INIT) => "deep inits",
            (Cones::Deep, _) => "deep nexts",
        };
        let count = count.unwrap_or_else(|| most(cones));
        let lines = registers(cones, count, kind, array_sort);
        if profiled() {
            println!("registers {count}\nlines {}", lines.records.len());
        }
        row(&mut table, name, count, &lines);
    }
}

fn init_rows() {
    // As many states as a text holds.
    fn most(cones: Cones) -> usize {
        let long = registers(cones, 3000, INIT, false);
        let text = generator::plain_text(&long);
        let lines = text[..gofeshan::MOST_TEXT].iter().filter(|&&byte| byte == b'\n').count();
        long.records[..lines].iter().filter(|r| r[0] == INIT).count()
    }
    #[cfg(feature = "read")]
    each_register_file(false, most, |table, name, count, lines| read_row(table, name, &format!("{count} in "), lines));
}

/// The check of a table: translating checks it, and then refuses it by 19, as an array sort is present.
fn check_rows() {
    // As many states as a table holds.
    fn most(cones: Cones) -> usize {
        let long = registers(cones, 8000, INIT, true);
        long.records[..independent::MOST_RECORDS].iter().filter(|r| r[0] == INIT).count()
    }
    #[cfg(feature = "translate")]
    each_register_file(true, most, |table, name, count, lines| {
        let (words, n) = (lines.words(), lines.records.len());
        let (mut x, mut y) = ([1; 3], [2; 3]);
        let times = measure([&mut || assert_eq!(proved::translate(&words, n, &mut [], &mut x), 19), &mut || {
            assert_eq!(independent::translate(&words, n, &mut [], &mut y), 19)
        }]);
        assert!(x == y);
        table.row(name, &format!("{count} in a table of {n} records"), n as f64, "record", &times);
    });
}

fn write_rows() {
    #[cfg(feature = "write")]
    {
        let mut table = Table::new();
        for &lines in sizes(&[250, 2000, 16_000]) {
            let c = circuit(lines, Some(3));
            let (words, n) = (c.words(), c.records.len());
            let length = independent::texts::print(&c.records).len();
            let (mut a, mut b) = (vec![1; length], vec![2; length]);
            let (mut x, mut y) = ([1; 3], [2; 3]);
            let times = measure([&mut || assert_eq!(proved::write(&words, n, &mut a, &mut x), 0), &mut || {
                assert_eq!(independent::write(&words, n, &mut b, &mut y), 0)
            }]);
            assert!(a == b && x == y);
            table.row("writing", &format!("{n} records, {length} bytes"), n as f64, "record", &times);
        }
    }
}

fn flatten_rows() {
    #[cfg(feature = "flatten")]
    {
        let mut table = Table::new();
        for &lines in sizes(&[90, 600, 4000]) {
            let c = circuit(lines, Some(3));
            let (words, n) = (c.words(), c.records.len());
            let flat = independent::flattening::flat_records(&c, independent::MOST_RECORDS).unwrap().len();
            let (mut a, mut b) = (vec![1; RECORD * flat], vec![2; RECORD * flat]);
            let (mut x, mut y) = ([1; 3], [2; 3]);
            let times = measure([&mut || assert_eq!(proved::flatten(&words, n, &mut a, &mut x), 0), &mut || {
                assert_eq!(independent::flatten(&words, n, &mut b, &mut y), 0)
            }]);
            assert!(a == b && x == y);
            table.row("flattening", &format!("{n} records to {flat}"), flat as f64, "record", &times);
        }
    }
}

fn translate_rows() {
    #[cfg(feature = "translate")]
    {
        let mut table = Table::new();
        for &lines in sizes(&[200, 1500, 11_000]) {
            let c = circuit(lines, None);
            let (words, n) = (c.words(), c.records.len());
            let program = independent::translating::program_records(&c).len();
            let (mut a, mut b) = (vec![1; PROGRAM_RECORD * program], vec![2; PROGRAM_RECORD * program]);
            let (mut x, mut y) = ([1; 3], [2; 3]);
            let times = measure([&mut || assert_eq!(proved::translate(&words, n, &mut a, &mut x), 0), &mut || {
                assert_eq!(independent::translate(&words, n, &mut b, &mut y), 0)
            }]);
            assert!(a == b && x == y);
            table.row("translating", &format!("{n} records to {program}"), program as f64, "record", &times);
        }
    }
}

#[cfg(feature = "convert")]
type Conversion = fn(&[u64], usize, &mut [u64], &mut [u64]) -> u64;

/// A circuit's records to columns or back, in lists with room for them alone.
#[cfg(feature = "convert")]
fn convert_rows(name: &str, ours: Conversion, plain: Conversion, list: fn(&Lines) -> Vec<u64>) {
    let mut table = Table::new();
    for &lines in sizes(&[250, 2000, 16_000]) {
        let c = circuit(lines, Some(3));
        let (words, n) = (list(&c), c.records.len());
        let (mut a, mut b) = (vec![1; words.len()], vec![2; words.len()]);
        let (mut x, mut y) = ([1; 3], [2; 3]);
        let times = measure([&mut || assert_eq!(ours(&words, n, &mut a, &mut x), 0), &mut || {
            assert_eq!(plain(&words, n, &mut b, &mut y), 0)
        }]);
        assert!(a == b && x == y);
        table.row(name, &format!("{n} records"), n as f64, "record", &times);
    }
}

fn to_columns_rows() {
    #[cfg(feature = "convert")]
    convert_rows("to columns", proved::circuit_to_columns, independent::circuit_to_columns, Lines::rows);
}

fn to_records_rows() {
    #[cfg(feature = "convert")]
    convert_rows("to records", proved::circuit_to_records, independent::circuit_to_records, Lines::words);
}

#[cfg(any(feature = "run_circuit", feature = "run_program"))]
type Running = fn(&[u64], usize, usize, &[u64], &[u64], &mut [u8], &mut [u64], &mut [u64]) -> u64;

#[cfg(any(feature = "run_circuit", feature = "run_program"))]
fn run_row(rows: &mut Table, operation: &str, run: Running, program: bool, lines: &Lines, steps: usize) {
    let mut random = Random::new(3);
    let (table, n) = (lines.words(), lines.records.len());
    let (starts, inputs) = (random.words(lines.state_cells()), random.words(steps * lines.row_words()));
    let length = steps * lines.signals();
    let (mut a, mut b, mut c) = (vec![1; length], vec![2; length], vec![3; length]);
    let (mut x, mut y, mut z, mut work) = ([1; 3], [2; 3], [3; 3], vec![3; lines.work()]);
    let times = measure([
        &mut || assert_eq!(run(&table, n, steps, &starts, &inputs, &mut a, &mut work, &mut x), 0),
        &mut || {
            let told = interpreter::run_table::<true>(program, &table, n, steps, &starts, &inputs, &mut b, &mut y);
            assert_eq!(told, 0)
        },
        &mut || {
            let told = interpreter::run_table::<false>(program, &table, n, steps, &starts, &inputs, &mut c, &mut z);
            assert_eq!(told, 0)
        },
    ]);
    assert!(a == b && x == y && a == c && x == z, "a plain interpreter disagrees");
    let size = format!("{n} records, {} cells, {steps} steps", lines.work());
    rows.row(operation, &size, (n * steps) as f64, "record·step", &times);
}

/// Records and steps. The first circuit is so short that the processor foresees its branches; the others show how the cost grows.
const RUNS: [(usize, usize); 4] = [(100, 300), (2000, 300), (5000, 300), (13_000, 300)];

/// Whether states have inits, and records.
const ONCE: [(bool, usize); 6] = [(false, 100), (false, 2000), (false, 13_000), (true, 100), (true, 2000), (true, 13_000)];

/// A circuit of additions alone.
fn adds(lines: usize) -> Lines {
    let mut random = Random::new(lines as u64);
    let mut all = Lines::default();
    all.add([1, 0, 32, 0, 0]);
    (0..4).for_each(|_| all.add([4, 1, 0, 0, 0]));
    while all.lines.len() + 2 < lines {
        let n = all.lines.len();
        let mut operand = || (n - random.below(n.min(40) - 1)) as u64;
        let (a, b) = (operand(), operand());
        all.add([39, 1, a, b, 0]);
    }
    let last = all.lines.len() as u64;
    all.add([1, 0, 1, 0, 0]);
    all.add([17, last + 1, last, 0, 0]);
    all.add([8, 0, last + 2, 0, 0]);
    all
}

fn circuit_rows() {
    #[cfg(feature = "run_circuit")]
    {
        let mut table = Table::new();
        for &(lines, steps) in sizes(&RUNS) {
            run_row(&mut table, "adds alone", proved::run_circuit, false, &adds(lines), steps);
        }
    }
    #[cfg(feature = "run_circuit")]
    for (name, arrays) in [("circuits", None), ("with arrays", Some(3))] {
        let mut table = Table::new();
        for &(lines, steps) in sizes(&RUNS) {
            run_row(&mut table, name, proved::run_circuit, false, &circuit(lines, arrays), steps);
        }
    }
}

/// Runs of one step, of circuits without inits and with: what a call costs once, and the start.
fn once_rows() {
    #[cfg(feature = "run_circuit")]
    for &(inits, lines) in sizes(&ONCE) {
        let name = if inits { "once, inits" } else { "once" };
        run_row(&mut Table::new(), name, proved::run_circuit, false, &mixed(lines, None, inits), 1);
    }
}

fn detector_rows() {
    #[cfg(all(feature = "run_circuit", feature = "run_program"))]
    detectors::rows();
}

fn free_state_rows() {
    #[cfg(all(feature = "run_circuit", feature = "run_program"))]
    free_states::rows();
}

fn program_rows() {
    #[cfg(feature = "run_program")]
    {
        let mut table = Table::new();
        for &(lines, steps) in sizes(&RUNS) {
            let program = independent::translating::program_records(&circuit(lines, None));
            let lines = independent::rules::check_program(&program_list(&program), program.len()).unwrap();
            run_row(&mut table, "programs", proved::run_program, true, &lines, steps);
        }
    }
}

/// Writes by one constant index, each to the array before it; then reads of another cell of the last of them, or ites between it and itself. An array has
/// 256 cells, as many as it may have.
fn chain(writes: u64, reads: u64, ites: u64) -> Vec<Record> {
    let mut records = vec![[1, 0, 8, 0, 0], [2, 0, 1, 1, 0], [3, 1, 0, 0, 0], [3, 1, 1, 0, 0], [5, 2, 0, 0, 0]];
    records.extend([[1, 0, 1, 0, 0], [4, 6, 0, 0, 0]]);
    (7..7 + writes).for_each(|n| records.push([55, 2, if n == 7 { 5 } else { n }, 3, 4]));
    (0..reads).for_each(|_| records.push([54, 1, 7 + writes, 4, 0]));
    (0..ites).for_each(|_| records.push([53, 2, 7, 7 + writes, 7 + writes]));
    records
}

/// Inputs that could take long.
fn edges() {
    #[cfg(feature = "read")]
    {
        let shortest = |gap: u64| {
            let (mut text, mut id) = (b"1 sort bitvec 1\n2 input 1\n".to_vec(), 2);
            while text.len() + 11 + (gap as usize - 1) <= 65_536 {
                id += gap;
                text.extend(format!("{id} bad 2\n").bytes());
            }
            text
        };
        let lines = |text: &[u8]| text.iter().filter(|&&byte| byte == b'\n').count();
        let (dense, gaps) = (shortest(1), shortest(2));
        let dense_name = format!("reading {} shortest lines", lines(&dense));
        let gaps_name = format!("reading {} shortest lines, gaps", lines(&gaps));
        let texts: [(&str, Vec<u8>); 7] = [
            ("reading 65,536 semicolons", vec![b';'; 65_536]),
            ("reading 65,536 spaces", vec![b' '; 65_536]),
            ("reading 65,536 LFs", vec![b'\n'; 65_536]),
            ("reading one token of 65,536 digits", vec![b'1'; 65_536]),
            ("reading a number of 65,520 digits", [b"1 sort bitvec ".to_vec(), vec![b'1'; 65_520]].concat()),
            (&dense_name, dense),
            (&gaps_name, gaps),
        ];
        let mut table = vec![1; RECORD * independent::MOST_RECORDS];
        for (name, text) in texts {
            let began = Instant::now();
            let number = proved::read(&text, &mut table, &mut [0; 3]);
            println!("{name:<40} {:>8.3} ms, answer {number}", began.elapsed().as_secs_f64() * 1e3);
        }
    }
    #[cfg(feature = "flatten")]
    for (writes, reads, ites) in
        [(8_188, 8_188, 0), (16_310, 0, 61), (500, 500, 0), (1_000, 1_000, 0), (2_000, 2_000, 0)]
    {
        let records = chain(writes, reads, ites);
        let (table, count) = (numbered(&records), records.len());
        let mut target = vec![1; RECORD * independent::MOST_RECORDS];
        let began = clock::thread();
        let number = proved::flatten(&table, count, &mut target, &mut [0; 3]);
        let name = format!("flattening {writes} writes, {reads} reads, {ites} ites");
        println!("{name:<40} {:>8.3} ms, answer {number}", (clock::thread() - began) * 1e3);
    }
    #[cfg(feature = "peek")]
    {
        let mut records = vec![[1, 0, 64, 0, 0], [4, 1, 0, 0, 0]];
        (2..64).for_each(|i| records.push([39, 1, i, i, 0]));
        let table = numbered(&records);
        let began = Instant::now();
        let number = proved::peek(&table, 64, 64, 0, &[], &[1], &mut [0; 3]);
        println!(
            "{:<40} {:>8.3} ms, answer {number}",
            "peek on 64 doubling lines",
            began.elapsed().as_secs_f64() * 1e3
        );
    }
}

fn main() {
    println!("Times are processor time in microseconds that one call in twenty undercuts, release builds, one thread, one machine, in turns.");
    println!("Every operation clears what is lent for writing first, on both sides; that is part of the times.");
    println!(
        "Growth, of either side: the time against the row above, divided by the growth of the work; 1.00 is linear."
    );
    println!("Runs: `plain` decodes the lines once, `same shape` walks the columns and looks up places and widths, as the proved run does.");
    println!("Circuits of one kind of line (`adds alone`) stand beside those of all kinds, where branches are hard to foresee.");
    println!("Minus operands: `ites` are lines `n ite 1 -2 -2 -2`, `mixed` are lines of all kinds in which about every second operand that may have a minus has one.");
    println!("Names: lines `n bad 2 NAME` beside the lines `n bad 2`; the names of `one hash` are all looked through for each of them.");
    println!("Once: runs of one step, without init lines and with.");
    println!("Overflow detectors: lines that are all one detector on four inputs, and their program, behind such of additions.");
    println!("Free states: states that are all free, as words or as memories of 256 cells, and their program, behind the same states kept by next lines.");
    println!("Register files, as texts and as tables: the values are all the last line of one chain (`chain`), or each a line over the one before (`deep`).\n");
    println!(
        "{:<12} {:<34} {:>10} {:>10} {:>6} {:>10} {:>6} {:>24} {:>6} {:>6}",
        "operation", "size", "proved", "plain", "ratio", "same shape", "ratio", "proved per unit", "growth", "plain"
    );
    let rows: [(&str, fn()); 16] = [
        ("read", read_rows),
        ("read_gaps", gap_rows),
        ("read_minus", minus::rows),
        ("read_names", names::rows),
        ("read_inits", init_rows),
        ("check_inits", check_rows),
        ("write", write_rows),
        ("flatten", flatten_rows),
        ("translate", translate_rows),
        ("circuit_to_columns", to_columns_rows),
        ("circuit_to_records", to_records_rows),
        ("run_circuit", circuit_rows),
        ("run_program", program_rows),
        ("run_once", once_rows),
        ("run_detectors", detector_rows),
        ("run_free_states", free_state_rows),
    ];
    let only = std::env::args().nth(if profiled() { 2 } else { 1 });
    for (operation, rows) in rows {
        if only.as_deref().is_none_or(|word| word == operation) {
            rows();
        }
    }
    if let Some(word) = only {
        if word == "edges" {
            edges();
        }
        return;
    }
    println!();
    #[cfg(all(
        feature = "read",
        feature = "flatten",
        feature = "translate",
        feature = "run_circuit",
        feature = "run_program"
    ))]
    designs::rows();
    println!();
    edges();
}
