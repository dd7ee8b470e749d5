//! Inputs that could take long: each call has to end within 10 ms, or 100 ms where all the lines of the largest tables are
//! flattened, and where all names of a text have one hash. The time is the least of some calls, as other tests may run beside
//! it.
#![allow(unused_imports, dead_code)]

use std::time::{Duration, Instant};

mod generator;
mod independent;

const MOST: Duration = Duration::from_millis(10);

fn least(mut call: impl FnMut()) -> Duration {
    let once = |call: &mut dyn FnMut()| {
        let began = Instant::now();
        call();
        began.elapsed()
    };
    (0..7).map(|_| once(&mut call)).min().unwrap()
}

fn on_stack(work: impl FnOnce() + Send + 'static) {
    let thread = std::thread::Builder::new().stack_size(gofeshan::STACK).spawn(work).unwrap();
    if let Err(panic) = thread.join() {
        std::panic::resume_unwind(panic);
    }
}

/// Many of the shortest lines.
fn shortest_lines() -> Vec<u8> {
    let mut text = b"1 sort bitvec 1\n2 input 1\n".to_vec();
    for id in 3..=6000 {
        text.extend(format!("{id} bad 2\n").bytes());
    }
    text
}

/// As many lines as a text holds, in which each operand is looked up among ids with gaps everywhere.
fn lines_with_gaps(first: u64, gap: u64) -> (Vec<u8>, usize) {
    let mut text = format!("{first} sort bitvec 1\n{} input {first}\n", first + gap).into_bytes();
    for count in 2.. {
        let id = |i: u64| first + gap * i;
        let line = format!("{} ite {first} {} {} {}\n", id(count), id(count / 2), id(count - 1), id(1 + count / 3));
        if text.len() + line.len() > gofeshan::MOST_TEXT {
            return (text, count as usize);
        }
        text.extend(line.bytes());
    }
    unreachable!("a text has an end")
}

/// As many lines as a text holds that each have three minus operands, and so four records; the number of records, and of
/// lines.
fn minus_lines(gap: u64) -> (Vec<u8>, usize, u64) {
    let mut text = format!("1 sort bitvec 1\n{} input 1\n", 1 + gap).into_bytes();
    for lines in 2.. {
        let line = format!("{} ite 1 -{operand} -{operand} -{operand}\n", 1 + gap * lines, operand = 1 + gap);
        if text.len() + line.len() > gofeshan::MOST_TEXT {
            return (text, 4 * lines as usize - 6, lines);
        }
        text.extend(line.bytes());
    }
    unreachable!("a text has an end")
}

/// A register file of so many lines: first lines that each use the line before twice, over a constant or an input, half of
/// all; then states, each with its init by the last of those. A search that comes to a line once for each use does not end.
fn doubling_registers(lines: u64, input: bool) -> Vec<independent::Record> {
    let bottom = if input { [4, 1, 0, 0, 0] } else { [3, 1, 1, 0, 0] };
    let (mut records, last) = (vec![[1, 0, 64, 0, 0], bottom], lines / 2);
    (2..last).for_each(|n| records.push([39, 1, n, n, 0]));
    for state in (last + 1..lines).step_by(2) {
        records.extend([[5, 1, 0, 0, 0], [6, 1, state, last, 0]]);
    }
    records
}

/// The largest such file that fits a text, its count, and the text line of its first init.
fn doubling_text(input: bool) -> (Vec<u8>, usize, u64) {
    let mut lines = 4;
    let text = |lines| independent::texts::print(&doubling_registers(lines, input));
    while text(lines + 4).len() <= gofeshan::MOST_TEXT {
        lines += 4;
    }
    let records = doubling_registers(lines, input);
    let first = records.iter().position(|r| r[0] == 6).unwrap();
    (text(lines), records.len(), first as u64 + 1)
}

#[cfg(feature = "read")]
#[test]
fn reading() {
    on_stack(|| {
        let full = |start: &str, byte: u8| {
            let mut text = start.as_bytes().to_vec();
            text.resize(gofeshan::MOST_TEXT, byte);
            text
        };
        let ((small, small_count), (large, large_count)) =
            (lines_with_gaps(1000, 3), lines_with_gaps(1 << 31, 1 << 19));
        let ((constant, count, _), (input, _, first)) = (doubling_text(false), doubling_text(true));
        let ((minus, minus_count, _), (minus_gaps, gaps_count, _)) = (minus_lines(1), minus_lines(3));
        assert!((13_000..13_400).contains(&minus_count));
        let texts = [
            ("semicolons", full("", b';'), Ok(0)),
            ("spaces", full("", b' '), Ok(0)),
            ("LFs", full("", b'\n'), Ok(0)),
            ("one token", full("", b'x'), Err((3, 1))),
            ("one token of digits", full("", b'1'), Err((3, 1))),
            ("a long word", full("1 ", b'x'), Err((5, 1))),
            ("a long number", full("1 sort bitvec ", b'1'), Err((7, 1))),
            ("a long name", full("1 sort bitvec 1 ", b'x'), Ok(1)),
            (
                "tokens of one letter",
                b"1 sort bitvec 1 ".iter().copied().chain(b"x ".repeat(32_760)).collect(),
                Err((6, 1)),
            ),
            ("6,000 shortest lines", shortest_lines(), Ok(6000)),
            ("lines with small gaps", small, Ok(small_count)),
            ("lines with large gaps", large, Ok(large_count)),
            ("inits over doubling lines", constant, Ok(count)),
            ("inits over doubling lines and an input", input, Err((10, first))),
            ("lines with three minus operands", minus, Ok(minus_count)),
            ("lines with three minus operands and gaps", minus_gaps, Ok(gaps_count)),
        ];
        let mut table = vec![1; gofeshan::RECORD * gofeshan::MOST_RECORDS];
        for (name, text, told) in texts {
            assert!(text.len() <= gofeshan::MOST_TEXT);
            let mut answer = Ok(0);
            let took = least(|| answer = gofeshan::read(&text, &mut table));
            assert_eq!(answer.map_err(|r| (r.number, r.line)), told, "{name}");
            println!("reading {name}, {} bytes: {took:?}", text.len());
            assert!(took < MOST, "reading {name} took {took:?}");
        }
    });
}

/// Texts full of names that all differ; and with the first of them once more on the last line. Names of one hash are all looked
/// through for each of them.
#[cfg(feature = "read")]
#[test]
fn reading_names() {
    use generator::names::{bad_lines, fitting, SERIES};
    on_stack(|| {
        let mut table = vec![1; gofeshan::RECORD * gofeshan::MOST_RECORDS];
        for (name, series) in SERIES {
            let mut names = fitting(series, gofeshan::MOST_TEXT);
            let n = names.len() + 2;
            for told in [Ok(n), Err((22, n as u64))] {
                if told.is_err() {
                    *names.last_mut().unwrap() = names[0].clone();
                }
                let (text, mut answer) = (bad_lines(&names), Ok(0));
                let took = least(|| answer = gofeshan::read(&text, &mut table));
                assert_eq!(answer.map_err(|r| (r.number, r.line)), told, "{name}");
                println!("reading {} names, {name}, {} bytes: {took:?}", names.len(), text.len());
                let most = if name == "one hash" { 10 * MOST } else { MOST };
                assert!(took < most, "reading names, {name}, took {took:?}");
            }
        }
    });
}

/// Lines of three minus operands in a table that lacks one place: 4 comes last, and all of it is zero.
#[cfg(feature = "read")]
#[test]
fn reading_into_one_place_too_few() {
    on_stack(|| {
        for gap in [1, 3] {
            let (text, count, lines) = minus_lines(gap);
            let mut table = vec![1; gofeshan::RECORD * (count - 1)];
            let mut answer = Ok(0);
            let took = least(|| answer = gofeshan::read(&text, &mut table));
            assert_eq!(answer.map_err(|r| (r.number, r.line)), Err((4, lines)));
            assert!(table.iter().all(|&word| word == 0));
            println!("reading {lines} lines into {} records: {took:?}", count - 1);
            assert!(took < MOST, "reading took {took:?}");
        }
    });
}

/// As many records as count, half of them states and inits over doubling lines: the check of the table, and then no room.
#[cfg(feature = "write")]
#[test]
fn checking() {
    on_stack(|| {
        for (input, told) in [(false, 21), (true, 11)] {
            let records = doubling_registers(gofeshan::MOST_RECORDS as u64, input);
            let (table, count) = (independent::numbered(&records), records.len());
            assert_eq!(count, gofeshan::MOST_RECORDS);
            let mut answer = Ok(0);
            let took = least(|| answer = gofeshan::write(&table, count, &mut []));
            assert_eq!(answer.map_err(|r| r.number), Err(told));
            println!("checking {count} records, refused by {told}: {took:?}");
            assert!(took < MOST, "the check took {took:?}");
        }
    });
}

#[cfg(feature = "name")]
#[test]
fn naming() {
    on_stack(|| {
        for text in [shortest_lines(), vec![b'1'; 65_536], vec![b' '; 65_536], b"1 ".repeat(32_768)] {
            let took = least(|| assert_eq!(gofeshan::name(&text, 6000), b""));
            println!("naming in {} bytes: {took:?}", text.len());
            assert!(took < MOST, "naming took {took:?}");
        }
    });
}

/// 64 lines of which each uses the line before twice.
#[cfg(feature = "peek")]
#[test]
fn peeking() {
    on_stack(|| {
        let mut records = vec![[1, 0, 64, 0, 0], [4, 1, 0, 0, 0]];
        (2..64).for_each(|i| records.push([39, 1, i, i, 0]));
        let table = independent::numbered(&records);
        let took = least(|| assert_eq!(gofeshan::peek(&table, 64, 64, 0, &[], &[1]), Ok(1 << 62)));
        println!("a peek at 64 doubling lines: {took:?}");
        assert!(took < MOST, "the peek took {took:?}");
    });
}

/// 64 lines of arrays of 256 cells: each pair compares the two arrays before it and chooses by the result.
#[cfg(feature = "peek")]
#[test]
fn peeking_through_arrays() {
    on_stack(|| {
        let mut records = vec![[1, 0, 8, 0, 0], [2, 0, 1, 1, 0], [1, 0, 1, 0, 0], [5, 2, 0, 0, 0], [5, 2, 0, 0, 0]];
        let (mut a, mut b, mut n) = (4, 5, 5);
        while n + 2 < 64 {
            records.extend([[21, 3, a, b, 0], [53, 2, n + 1, b, a]]);
            (a, b, n) = (b, n + 2, n + 2);
        }
        records.push([21, 3, a, b, 0]);
        let table = independent::numbered(&records);
        // All cells alike, so that every comparison goes through all of them. Both states are free, and have words in the row.
        let (starts, row, last) = (vec![7; 512], vec![3; 512], n as usize + 1);
        let took = least(|| assert_eq!(gofeshan::peek(&table, last, last, 0, &starts, &row), Ok(1)));
        println!("a peek through {} lines of arrays: {took:?}", n + 1);
        assert!(took < MOST, "the peek took {took:?}");
    });
}

/// As many states as there may be, free or with next lines behind all of them, the last state's first: which states are free is
/// not looked up in the whole table for each.
#[cfg(all(feature = "run_circuit", feature = "peek"))]
#[test]
fn running_free_states() {
    on_stack(|| {
        let most = gofeshan::MOST_RECORDS as u64;
        let states = |n: u64, sort: u64| {
            let mut records = vec![[1, 0, 8, 0, 0], [2, 0, 1, 1, 0]];
            (0..n).for_each(|_| records.push([5, sort, 0, 0, 0]));
            records
        };
        let nexts = |n: u64, share: u64| {
            let mut records = states(n, 1);
            (3..n + 3).rev().filter(|state| state % share == 0).for_each(|state| records.push([7, 1, state, state, 0]));
            records
        };
        for (name, records) in [
            ("16,382 free states", states(most - 2, 1)),
            ("8,191 states with next lines", nexts(8_191, 1)),
            ("10,900 states, half of them free", nexts(10_900, 2)),
            ("100 free memories", states(100, 2)),
        ] {
            let (table, count) = (independent::numbered(&records), records.len());
            let lines = independent::rules::check_table(&table, count).unwrap();
            let (starts, row, steps) = (vec![5; lines.state_cells()], vec![300; lines.row_words()], 3);
            let (inputs, mut work) = (row.repeat(steps), vec![1; lines.work()]);
            let run = || {
                assert_eq!(gofeshan::run_circuit(&table, count, steps, &starts, &inputs, &mut [], &mut work), Ok(None))
            };
            let took = least(run);
            println!("running {name}, {steps} steps: {took:?}");
            assert!(took < MOST, "running {name} took {took:?}");
            // Above 64 records.
            let peek = || assert_eq!(gofeshan::peek(&table, count, 3, 0, &starts, &row).map_err(|r| r.number), Err(18));
            let took = least(peek);
            println!("a peek among {name}: {took:?}");
            assert!(took < MOST, "a peek among {name} took {took:?}");
        }
    });
}

/// A table with an array of 256 cells and the constants 0 to 255 as indexes and values, and writes, reads and ites of it.
#[cfg(feature = "flatten")]
struct Arrays(Vec<independent::Record>);

#[cfg(feature = "flatten")]
impl Arrays {
    const ARRAY: u64 = 3;

    fn new() -> Self {
        let mut records = vec![[1, 0, 8, 0, 0], [2, 0, 1, 1, 0], [5, 2, 0, 0, 0], [1, 0, 1, 0, 0], [4, 4, 0, 0, 0]];
        (0..256).for_each(|v| records.push([3, 1, v, 0, 0]));
        Arrays(records)
    }

    /// The table and its count.
    fn table(&self) -> (Vec<u64>, usize) {
        (independent::numbered(&self.0), self.0.len())
    }

    fn line(&mut self, record: independent::Record) -> u64 {
        self.0.push(record);
        self.0.len() as u64
    }

    fn write(&mut self, array: u64, index: u64, value: u64) -> u64 {
        self.line([55, 2, array, 6 + index % 256, 6 + value % 256])
    }

    fn read(&mut self, array: u64, index: u64) -> u64 {
        self.line([54, 1, array, 6 + index % 256, 0])
    }

    fn ite(&mut self, a: u64, b: u64) -> u64 {
        self.line([53, 2, 5, a, b])
    }

    /// `n` writes, each over the one before, by the indexes that `index` gives; the last of them.
    fn chain(&mut self, array: u64, n: u64, index: impl Fn(u64) -> u64) -> u64 {
        (0..n).fold(array, |a, i| self.write(a, index(i), i))
    }
}

/// Long chains of writes by constant indexes: a cell is not looked up along all of them.
#[cfg(feature = "flatten")]
#[test]
fn flattening_chains() {
    let reads = |index: fn(u64) -> u64| {
        let mut t = Arrays::new();
        let last = t.chain(Arrays::ARRAY, 8_000, index);
        (0..8_000).for_each(|_| _ = t.read(last, 200));
        t
    };
    let ites = || {
        let mut t = Arrays::new();
        let last = t.chain(Arrays::ARRAY, 16_000, |_| 0);
        (0..60).for_each(|_| _ = t.ite(last, last));
        t
    };
    // Writes over one line that `deep` writes lie above, and ites of the last of them.
    let tree = |deep: u64| {
        let mut t = Arrays::new();
        let stem = t.chain(Arrays::ARRAY, deep, |_| 0);
        let last = (0..15_000).fold(stem, |_, i| t.write(stem, 1, i));
        (0..60).for_each(|_| _ = t.ite(last, stem));
        t
    };
    on_stack(move || {
        let tables = [
            ("8,000 writes and reads", reads(|_| 0)),
            ("8,000 writes by two indexes in turn, and reads", reads(|i| i % 2)),
            ("16,000 writes and 60 ites", ites()),
            ("15,000 writes over one after 300", tree(300)),
            ("15,000 writes over one after 511", tree(511)),
            ("15,000 writes over one after 1,000", tree(1_000)),
        ];
        let mut target = vec![1; gofeshan::RECORD * gofeshan::MOST_RECORDS];
        for (name, arrays) in tables {
            let (table, count) = arrays.table();
            let took = least(|| assert!(gofeshan::flatten(&table, count, &mut target).is_ok(), "{name}"));
            println!("flattening {name}: {took:?}");
            assert!(took < 10 * MOST, "flattening {name} took {took:?}");
        }
    });
}

/// The flat circuits of chains, trees and what reads them, beside those of the independent implementation.
#[cfg(feature = "flatten")]
#[test]
fn flattening_chains_alike() {
    let mut tables = Vec::new();
    for index in [|_| 0, |i| i % 2, |i| i, |i| 97 * i, |i: u64| i * i / 3] {
        let mut t = Arrays::new();
        let last = t.chain(Arrays::ARRAY, 2_000, index);
        (0..2_000).for_each(|i| _ = t.read(last - i, 5 * i));
        tables.push(t);
        let mut t = Arrays::new();
        let last = t.chain(Arrays::ARRAY, 1_200, index);
        (0..58).for_each(|i| _ = t.ite(last - 20 * i, last - 7 * i));
        tables.push(t);
    }
    for deep in [1, 255, 256, 257, 300, 511, 512, 513, 1_000] {
        let mut t = Arrays::new();
        let stem = t.chain(Arrays::ARRAY, deep, |i| 3 * i);
        let lasts: Vec<u64> = (0..20).map(|i| t.chain(stem, 200 * (i % 4), |k| k + i)).collect();
        lasts.iter().for_each(|&a| _ = t.ite(a, stem));
        lasts.iter().for_each(|&a| (0..256).for_each(|i| _ = t.read(a, i)));
        let joined = t.ite(lasts[3], lasts[7]);
        let last = t.chain(joined, 600, |i| 5 * i);
        (0..20).for_each(|_| _ = t.ite(last, lasts[2]));
        tables.push(t);
    }
    on_stack(move || {
        for arrays in tables {
            let (table, count) = arrays.table();
            let room = gofeshan::RECORD * gofeshan::MOST_RECORDS;
            let (mut ours, mut theirs, mut answer) = (vec![1; room], vec![2; room], [0; 3]);
            assert_eq!(independent::flatten(&table, count, &mut theirs, &mut answer), 0);
            assert_eq!(gofeshan::flatten(&table, count, &mut ours), Ok(answer[0] as usize));
            assert!(ours == theirs);
        }
    });
}

/// As many records as count, of lists that are longer, to columns and back.
#[cfg(feature = "convert")]
#[test]
fn converting() {
    use gofeshan::{circuit_to_columns, circuit_to_records, program_to_columns, program_to_records, MOST_RECORDS};
    type Conversion = fn(&[u64], usize, &mut [u64]) -> Result<usize, gofeshan::Refusal>;
    on_stack(|| {
        let conversions: [(&str, Conversion, usize); 4] = [
            ("a circuit to columns", circuit_to_columns, gofeshan::RECORD),
            ("a circuit to records", circuit_to_records, gofeshan::RECORD),
            ("a program to columns", program_to_columns, gofeshan::PROGRAM_RECORD),
            ("a program to records", program_to_records, gofeshan::PROGRAM_RECORD),
        ];
        for (name, convert, size) in conversions {
            let (list, mut target) = (vec![7; size * 20_000], vec![1; size * 18_000]);
            let took = least(|| assert_eq!(convert(&list, MOST_RECORDS, &mut target), Ok(MOST_RECORDS)));
            println!("converting {name}: {took:?}");
            assert!(took < MOST, "converting {name} took {took:?}");
        }
    });
}
