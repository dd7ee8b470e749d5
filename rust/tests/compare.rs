//! The proved tool against the independent implementation.
//!
//!     cargo test --release --test compare                                        a fixed seed
//!     GOFESHAN_SEED=7 GOFESHAN_CASES=200000 cargo test --release --test compare -- --nocapture
//!
//! The second is the longer run: another seed, and so many cases for every operation. Every case has its own seed; a
//! failure prints it, and GOFESHAN_CASE=n runs that case alone. An archive that lacks some operations is tested with
//! `--no-default-features --features "read write"`.
//!
//! Compared are the number, the answer's words and every lent list, byte for byte and word for word; lists lent for
//! writing are dirty before each call.
#![allow(unused_imports, dead_code)]

#[path = "compare/detectors.rs"]
mod detectors;
#[path = "compare/free_states.rs"]
mod free_states;
mod generator;
mod independent;
#[path = "compare/minus.rs"]
mod minus;
#[path = "compare/names.rs"]
mod names;

use generator::*;
use gofeshan::interface as proved;
use gofeshan::{PROGRAM_RECORD, RECORD};
use independent::rules::Lines;
use independent::{numbered, program_list};
use std::collections::BTreeMap;

/// What an operation told: the number, and every list that was lent for writing, the answer first.
#[derive(PartialEq)]
struct Told {
    number: u64,
    words: Vec<Vec<u64>>,
    bytes: Vec<u8>,
}

fn first_difference<T: PartialEq + std::fmt::Debug>(a: &[T], b: &[T]) -> String {
    match a.iter().zip(b).position(|(x, y)| x != y) {
        Some(i) => format!("at {i}: independent {:?}, proved {:?}", a[i], b[i]),
        None => "none".to_string(),
    }
}

fn same(independent: &Told, proved: &Told, input: impl Fn() -> String) {
    if independent == proved {
        return;
    }
    let mut report = format!(
        "DISAGREEMENT\nindependent: {} {:?}\nproved:      {} {:?}\n",
        independent.number, independent.words[0], proved.number, proved.words[0]
    );
    for (a, b) in independent.words.iter().zip(&proved.words) {
        report += &format!("first difference of words: {}\n", first_difference(a, b));
    }
    report += &format!("first difference of bytes: {}\n", first_difference(&independent.bytes, &proved.bytes));
    panic!("{report}{}", input());
}

/// Says which case failed.
struct Case<'a> {
    operation: &'a str,
    seed: u64,
    case: u64,
}

impl Drop for Case<'_> {
    fn drop(&mut self) {
        if std::thread::panicking() {
            eprintln!("operation {}, GOFESHAN_SEED={} GOFESHAN_CASE={}", self.operation, self.seed, self.case);
        }
    }
}

fn environment(name: &str) -> Option<u64> {
    std::env::var(name).ok().map(|v| v.parse().unwrap_or_else(|_| panic!("{name} is no number")))
}

/// Runs cases of an operation, each with its own seed, and sees that every listed answer was given. 100 stands for a run
/// with a counted bad, and for a name that was found.
fn cases(operation: &'static str, default: u64, listed: &'static [u64], case: fn(&mut Random) -> u64) {
    many_cases(operation, default, listed, 0, case);
}

/// The same; every listed answer was given in more than so many cases of a hundred.
fn many_cases(operation: &'static str, default: u64, listed: &'static [u64], share: u64, case: fn(&mut Random) -> u64) {
    on_stack(move || {
        let seed = environment("GOFESHAN_SEED").unwrap_or(1);
        let count = environment("GOFESHAN_CASES").unwrap_or(default);
        let only = environment("GOFESHAN_CASE");
        let began = std::time::Instant::now();
        let mut answers: BTreeMap<u64, u64> = BTreeMap::new();
        for n in only.map_or(0..count, |n| n..n + 1) {
            let _guard = Case { operation, seed, case: n };
            let mixed = operation.bytes().fold(seed, |h, b| h.wrapping_mul(1_000_003) ^ u64::from(b));
            let mut random = Random::new(Random::new(mixed).next() ^ Random::new(n).next());
            *answers.entry(case(&mut random)).or_default() += 1;
        }
        println!(
            "{operation}: seed {seed}, {count} cases in {:.1} s, answers {answers:?}",
            began.elapsed().as_secs_f64()
        );
        if only.is_none() && count >= default {
            for number in listed {
                let given = answers.get(number).copied().unwrap_or(0);
                assert!(given > count * share / 100, "{operation}: {given} cases gave {number}");
            }
        }
    });
}

/// The operations run with the stack that is said to be enough for them.
fn on_stack(work: impl FnOnce() + Send + 'static) {
    let thread = std::thread::Builder::new().stack_size(gofeshan::STACK).spawn(work).unwrap();
    if let Err(panic) = thread.join() {
        std::panic::resume_unwind(panic);
    }
}

/// The records of a circuit's table, or of a program's.
fn show(table: &[u64], count: usize, program: bool) -> String {
    let size = independent::size(program);
    let rows = independent::layout::gather(table, count.min(table.len() / size).min(400), size);
    let records: Vec<String> = (1..).zip(rows.chunks(size)).map(|(i, r)| format!("{i}: {r:?}")).collect();
    format!("table of {} words, count {count}\n{}\n", table.len(), records.join("\n"))
}

fn flat_of(lines: &Lines) -> Option<Lines> {
    let flat = independent::flattening::flat_records(lines, independent::MOST_RECORDS)?;
    independent::rules::check_table(&numbered(&flat), flat.len())
}

/// The program of a flat circuit, where it has at most 16,384 records.
fn program_of(flat: &Lines) -> Option<Lines> {
    let records = independent::translating::program_records(flat);
    let program = independent::rules::check_program(&program_list(&records), records.len());
    assert!(program.is_some() || records.len() > independent::MOST_RECORDS);
    program
}

// Reading.

#[cfg(feature = "read")]
fn both_read(random: &mut Random, text: &[u8], length: usize, answer: usize) -> u64 {
    let dirt = (random.words(length), random.words(answer));
    let (mut table, mut words) = dirt.clone();
    let number = independent::read(text, &mut table, &mut words);
    let ours = Told { number, words: vec![words, table], bytes: vec![] };
    let (mut table, mut words) = dirt;
    let number = proved::read(text, &mut table, &mut words);
    let theirs = Told { number, words: vec![words, table], bytes: vec![] };
    same(&ours, &theirs, || {
        format!("read, table of {length} words, answer of {answer}\n{}\n{text:?}", String::from_utf8_lossy(text))
    });
    ours.number
}

#[cfg(feature = "read")]
fn read_case(random: &mut Random) -> u64 {
    let size = size(random);
    let lines = circuit(random, size);
    let text = match random.below(20) {
        0 => {
            let n = random.below(40);
            (0..n).map(|_| random.pick(b"0123 ;\nsortbivec\t")).collect()
        }
        1 => babble(random),
        2..=4 => text(random, &lines),
        5 | 6 => named_text(random, &lines),
        7 if random.one_in(20) => {
            let mut text = text(random, &lines);
            text.resize(65_536 + random.below(3), random.pick(b" \n;x"));
            text
        }
        _ => damaged_text(random, &lines),
    };
    let n = lines.records.len();
    let length = if random.one_in(4) { table_length(random, n, false) } else { RECORD * (n + random.below(9)) };
    let answer = answer_length(random);
    both_read(random, &text, length, answer)
}

#[cfg(feature = "read")]
#[test]
fn reading() {
    cases("read", 20_000, &[0, 1, 2, 3, 4, 5, 6, 7, 8, 9, 10, 22], read_case);
}

#[cfg(feature = "read")]
#[test]
fn reading_at_the_edges() {
    on_stack(|| {
        let mut random = Random::new(5);
        let mut texts: Vec<Vec<u8>> = vec![vec![], b"\n".to_vec(), b" ".to_vec(), b";".to_vec(), b"1".to_vec()];
        for n in [65_535, 65_536, 65_537] {
            for byte in b"; \n1x0\xff" {
                texts.push(vec![*byte; n]);
            }
            // The shortest lines, as many as fit, without gaps and with gaps of all sizes.
            for gap in [1, 2, 7, 715_000] {
                let mut text = b"1 sort bitvec 1\n2 input 1\n".to_vec();
                let mut id = 2 + gap;
                while text.len() + format!("{id} bad 2\n").len() <= n {
                    text.extend(format!("{id} bad 2\n").bytes());
                    id += gap;
                }
                text.resize(n, b' ');
                texts.push(text);
            }
        }
        for w in 0..=66 {
            texts.push(format!("1 sort bitvec {w}").into_bytes());
            texts.push(format!("1 sort bitvec {w}\n2 sort array 1 1\n").into_bytes());
            for digits in 0..=66 {
                for digit in ["1", "0", "f", "9"] {
                    for word in ["const", "constd", "consth"] {
                        let token = digit.repeat(digits);
                        texts.push(format!("1 sort bitvec {w}\n2 {word} 1 {token}").into_bytes());
                    }
                }
            }
        }
        // Every kind of line, with too few, enough, one extra and two extra tokens, behind lines of every class.
        let start = "1 sort bitvec 1\n2 sort bitvec 3\n3 sort array 1 2\n4 input 1\n5 input 2\n6 constd 1 1\n7 state 1\n8 state 3\n9 bad 4\n10 next 1 7 4\n";
        let mut words: Vec<&str> = independent::kinds::KINDS.iter().map(|k| k.word).collect();
        words.extend(["const", "consth", "zero", "one", "ones", "sort", "add;", "justice", "mask", "udivo", "sddivo"]);
        for word in words {
            for n in 0..=6 {
                for strange in 0..90 {
                    let mut text = format!("{start}11 {word}").into_bytes();
                    for _ in 0..n {
                        text.push(b' ');
                        if strange < 40 && random.one_in(2) {
                            text.extend(random.pick(STRANGE));
                        } else {
                            text.extend(random.below(12).to_string().bytes());
                        }
                    }
                    texts.push(text);
                }
            }
        }
        // Every id, and every operand, before and behind ids at the edges.
        let edges = ["0", "1", "2", "3", "4", "5", "6", "07", "4294967294", "4294967295", "4294967296", "4294967297"];
        let edges = edges.into_iter().chain(["18446744073709551615", "18446744073709551616", "-3", "+3", "3\r", "x"]);
        let edges: Vec<&str> = edges.collect();
        for first in &edges {
            for second in &edges {
                for operand in &edges {
                    texts.push(format!("{first} sort bitvec 1\n{second} input {operand}\n").into_bytes());
                    texts.push(format!("1 sort bitvec 1\n{first} input 1\n{second} bad {operand}\n").into_bytes());
                }
            }
        }
        let count = texts.len();
        for text in texts {
            let lengths =
                if text.len() < 1000 { [2 * RECORD, 11 * RECORD] } else { [RECORD * 16_384, RECORD * 16_385] };
            for length in lengths {
                both_read(&mut random, &text, length, 3);
            }
        }
        println!("reading at the edges: {count} texts, each twice");
    });
}

// Writing.

#[cfg(feature = "write")]
fn both_write(random: &mut Random, table: &[u64], count: usize, length: usize, answer: usize) -> u64 {
    let dirt = (random.bytes(length), random.words(answer));
    let (mut text, mut words) = dirt.clone();
    let number = independent::write(table, count, &mut text, &mut words);
    let ours = Told { number, words: vec![words], bytes: text };
    let (mut text, mut words) = dirt;
    let number = proved::write(table, count, &mut text, &mut words);
    let theirs = Told { number, words: vec![words], bytes: text };
    same(&ours, &theirs, || {
        format!("write, text of {length} bytes, answer of {answer}\n{}", show(table, count, false))
    });
    ours.number
}

#[cfg(feature = "write")]
fn write_case(random: &mut Random) -> u64 {
    let size = size(random);
    let lines = circuit(random, size);
    let (table, count) = table_of(random, &lines);
    let exact = independent::texts::print(&lines.records).len();
    let (length, answer) = (length(random, exact), answer_length(random));
    both_write(random, &table, count, length, answer)
}

#[cfg(feature = "write")]
#[test]
fn writing() {
    cases("write", 20_000, &[0, 1, 11, 21], write_case);
}

#[cfg(feature = "write")]
#[test]
fn writing_at_the_edges() {
    on_stack(|| {
        let mut random = Random::new(6);
        let (n, mut records) = (16_384, vec![[1, 0, 64, 0, 0]]);
        while records.len() < n + 1 {
            records.push([3, 1, random.word(), 0, 0]);
        }
        let table = numbered(&records);
        assert_eq!(both_write(&mut random, &table, n, 1_000_000, 3), 0);
        assert_eq!(both_write(&mut random, &table, n + 1, 1_000_000, 3), 11);
        assert_eq!(both_write(&mut random, &table, n, 65_536, 3), 21);
        assert_eq!(both_write(&mut random, &numbered(&records[..n]), n, 1_000_000, 3), 0);
        // The same list cut: by a record, which moves all words, and by five words.
        assert_eq!(both_write(&mut random, &table[..RECORD * n], n, 1_000_000, 3), 11);
        assert_eq!(both_write(&mut random, &table[..RECORD * n + 1], n, 1_000_000, 3), 1);
        assert_eq!(both_write(&mut random, &[], 0, 0, 3), 0);
        assert_eq!(both_write(&mut random, &[], 1, 0, 3), 11);
        // Every word of every record of a circuit with all classes, set to edge values.
        for _ in 0..20 {
            let lines = circuit(&mut random, Size { lines: 25, arrays: true });
            let table = lines.words();
            for at in 0..table.len() {
                for value in [0, 1, 2, 3, 6, 7, 55, 56, 57, 63, 64, 65, (1 << 32) - 1, 1 << 32, u64::MAX] {
                    let mut changed = table.clone();
                    changed[at] = value;
                    both_write(&mut random, &changed, lines.records.len(), 2000, 3);
                }
            }
        }
    });
}

/// What is written is read back, with the ids 1, 2, 3.
#[cfg(all(feature = "read", feature = "write"))]
#[test]
fn writing_then_reading() {
    cases("write then read", 3_000, &[0], |random| {
        let size = size(random);
        let lines = circuit(random, size);
        let (table, n) = (lines.words(), lines.records.len());
        let mut text = vec![1; 40 * n + 1];
        let length = gofeshan::write(&table, n, &mut text).unwrap();
        let mut back = random.words(RECORD * n);
        assert_eq!(gofeshan::read(&text[..length], &mut back), Ok(n));
        assert!(back == numbered(&lines.records));
        0
    });
}

// Flattening and translating, and conversions: from a list to a target.

type Changing = fn(&[u64], usize, &mut [u64], &mut [u64]) -> u64;

fn both_change(
    random: &mut Random,
    operations: (Changing, Changing),
    table: &[u64],
    count: usize,
    length: usize,
    answer: usize,
) -> u64 {
    let dirt = (random.words(length), random.words(answer));
    let (mut target, mut words) = dirt.clone();
    let number = operations.0(table, count, &mut target, &mut words);
    let ours = Told { number, words: vec![words, target], bytes: vec![] };
    let (mut target, mut words) = dirt;
    let number = operations.1(table, count, &mut target, &mut words);
    let theirs = Told { number, words: vec![words, target], bytes: vec![] };
    same(&ours, &theirs, || format!("target of {length} words, answer of {answer}\n{}", show(table, count, false)));
    ours.number
}

#[cfg(feature = "flatten")]
fn flatten_case(random: &mut Random) -> u64 {
    let size = size(random);
    let lines = circuit(random, size);
    let exact = flat_of(&lines).map_or(0, |f| f.records.len());
    let (table, count) = table_of(random, &lines);
    let (length, answer) = (table_length(random, exact, false), answer_length(random));
    both_change(random, (independent::flatten, proved::flatten), &table, count, length, answer)
}

#[cfg(feature = "flatten")]
#[test]
fn flattening() {
    cases("flatten", 10_000, &[0, 1, 11, 12], flatten_case);
}

#[cfg(feature = "flatten")]
#[test]
fn flattening_at_the_edges() {
    on_stack(|| {
        let mut random = Random::new(7);
        let both: (Changing, Changing) = (independent::flatten, proved::flatten);
        for i in 1..=8u64 {
            for e in [1, 3, 8, 63, 64] {
                // Arrays of every index width, with everything that flattening unfolds.
                let text = format!(
                    "1 sort bitvec 1\n2 sort bitvec {i}\n3 sort bitvec {e}\n4 sort array 2 3\n5 sort array 2 3\n6 zero 3\n7 state 4\n8 state 5\n9 init 5 7 6\n10 input 2\n11 input 3\n12 write 5 7 10 11\n13 ones 2\n14 write 4 12 13 11\n15 input 1\n16 ite 4 15 14 8\n17 next 4 8 16\n18 read 3 16 10\n19 read 3 12 13\n20 eq 1 7 8\n21 neq 1 16 12\n22 bad 20\n23 bad 21\n24 next 5 7 12\n25 eq 1 18 19\n26 constraint 25\n"
                );
                let mut table = vec![0; RECORD * 26];
                assert_eq!(independent::read(text.as_bytes(), &mut table, &mut [0; 3]), 0);
                for records in [0, 1, 4000, 6144, 16_384, 20_000] {
                    both_change(&mut random, both, &table, 26, RECORD * records, 3);
                }
            }
        }
        // As many records as count, one fewer and one more.
        for n in [16_382, 16_383, 16_384, 16_385] {
            let mut records = vec![[1, 0, 64, 0, 0]];
            records.resize(n, [5, 1, 0, 0, 0]);
            let table = numbered(&records);
            for records in [16_383, 16_384, 16_385, 20_000] {
                both_change(&mut random, both, &table, n, RECORD * records, 3);
            }
        }
        // States of 256 cells until the target is full.
        for states in [62, 63, 64, 200] {
            let mut records = vec![[1, 0, 8, 0, 0], [2, 0, 1, 1, 0]];
            records.resize(states + 2, [5, 2, 0, 0, 0]);
            let table = numbered(&records);
            for records in [2 + 256 + 256 * 62, 16_384, 40_000] {
                both_change(&mut random, both, &table, states + 2, RECORD * records, 3);
            }
        }
    });
}

#[cfg(feature = "translate")]
fn translate_case(random: &mut Random) -> u64 {
    let size = size(random);
    let mut lines = circuit(random, size);
    if !random.one_in(12) {
        lines = match flat_of(&lines) {
            Some(flat) => flat,
            None => return 0,
        };
    }
    let exact = independent::translating::program_records(&flat_of(&lines).unwrap_or_default()).len();
    if random.one_in(2) {
        lines.ids = rising_ids(random, lines.records.len());
    }
    let (table, count) = table_of(random, &lines);
    let (length, answer) = (table_length(random, exact, true), answer_length(random));
    both_change(random, (independent::translate, proved::translate), &table, count, length, answer)
}

#[cfg(feature = "translate")]
#[test]
fn translating() {
    cases("translate", 10_000, &[0, 1, 11, 12, 19], translate_case);
}

#[cfg(feature = "translate")]
#[test]
fn translating_at_the_edges() {
    on_stack(|| {
        let mut random = Random::new(8);
        let both: (Changing, Changing) = (independent::translate, proved::translate);
        for n in [16_382, 16_383, 16_384, 16_385] {
            for masked in [0, 1, 2, 3] {
                // A sort, inputs, and outputs that each ask for a mask.
                let mut records = vec![[1, 0, 8, 0, 0]];
                records.resize(n - masked, [4, 1, 0, 0, 0]);
                (0..masked).for_each(|i| records.push([10, 0, 2 + i as u64, 0, 0]));
                let table = numbered(&records);
                for records in [16_383, 16_384, 16_385, 20_000] {
                    both_change(&mut random, both, &table, n, PROGRAM_RECORD * records, 3);
                }
            }
        }
    });
}

/// Both implementations of each conversion, and whether it is one of programs.
#[cfg(feature = "convert")]
const CONVERSIONS: [((Changing, Changing), bool); 4] = [
    ((independent::circuit_to_columns, proved::circuit_to_columns), false),
    ((independent::circuit_to_records, proved::circuit_to_records), false),
    ((independent::program_to_columns, proved::program_to_columns), true),
    ((independent::program_to_records, proved::program_to_records), true),
];

#[cfg(feature = "convert")]
fn conversion_case(random: &mut Random, conversion: usize) -> u64 {
    let (both, program) = CONVERSIONS[conversion];
    let (list, count, length) = generator::conversion(random, program);
    let answer = answer_length(random);
    both_change(random, both, &list, count, length, answer)
}

#[cfg(feature = "convert")]
#[test]
fn converting_circuits_to_columns() {
    cases("circuit_to_columns", 10_000, &[0, 1, 11, 12], |random| conversion_case(random, 0));
}

#[cfg(feature = "convert")]
#[test]
fn converting_circuits_to_records() {
    cases("circuit_to_records", 10_000, &[0, 1, 11, 12], |random| conversion_case(random, 1));
}

#[cfg(feature = "convert")]
#[test]
fn converting_programs_to_columns() {
    cases("program_to_columns", 10_000, &[0, 1, 12, 20], |random| conversion_case(random, 2));
}

#[cfg(feature = "convert")]
#[test]
fn converting_programs_to_records() {
    cases("program_to_records", 10_000, &[0, 1, 12, 20], |random| conversion_case(random, 3));
}

/// Lists and targets of every length up to four records, with every count up to six; and counts about 16,384.
#[cfg(feature = "convert")]
#[test]
fn converting_at_the_edges() {
    on_stack(|| {
        let mut random = Random::new(11);
        for (both, program) in CONVERSIONS {
            let size = independent::size(program);
            for (from, to) in (0..=4 * size).flat_map(|from| (0..=4 * size).map(move |to| (from, to))) {
                let list = random.words(from);
                (0..=6).for_each(|count| _ = both_change(&mut random, both, &list, count, to, 3));
            }
            for (from, to) in [(16_384, 16_384), (16_400, 16_383), (16_384, 16_400), (16_400, 16_400), (40_000, 16_384)]
            {
                let list = random.words(size * from);
                for count in [16_383, 16_384, 16_385, 40_000] {
                    both_change(&mut random, both, &list, count, size * to, 3);
                }
            }
        }
    });
}

/// A circuit's records go to a table of any length, whose text is theirs, and from there back.
#[cfg(all(feature = "convert", feature = "write"))]
#[test]
fn converting_there_and_back() {
    cases("there and back", 3_000, &[0], |random| {
        let size = size(random);
        let lines = circuit(random, size);
        let (rows, n) = (lines.rows(), lines.records.len());
        let (room, other) = (n + random.below(30), n + random.below(30));
        let mut table = random.words(RECORD * room);
        assert_eq!(gofeshan::circuit_to_columns(&rows, n, &mut table), Ok(n));
        let text = independent::texts::print(&lines.records);
        let mut written = random.bytes(text.len());
        assert_eq!(gofeshan::write(&table, n, &mut written), Ok(text.len()));
        assert!(written == text, "{}", show(&table, n, false));
        let mut back = random.words(RECORD * other);
        assert_eq!(gofeshan::circuit_to_records(&table, n, &mut back), Ok(n));
        assert!(back[..rows.len()] == rows && back[rows.len()..].iter().all(|&word| word == 0));
        0
    });
}

// Runs.

#[cfg(any(feature = "run_circuit", feature = "run_program"))]
type Running = fn(&[u64], usize, usize, &[u64], &[u64], &mut [u8], &mut [u64], &mut [u64]) -> u64;

#[cfg(any(feature = "run_circuit", feature = "run_program"))]
struct Run {
    steps: usize,
    starts: Vec<u64>,
    inputs: Vec<u64>,
    signals: usize,
    work: usize,
    answer: usize,
}

#[cfg(any(feature = "run_circuit", feature = "run_program"))]
fn both_run(
    random: &mut Random,
    operations: (Running, Running),
    (table, count, program): (&[u64], usize, bool),
    run: &Run,
) -> u64 {
    let dirt = (random.bytes(run.signals), random.words(run.work), random.words(run.answer));
    let (mut signals, mut work, mut words) = dirt.clone();
    let (k, s, i) = (run.steps, &run.starts, &run.inputs);
    let number = operations.0(table, count, k, s, i, &mut signals, &mut work, &mut words);
    let ours = Told { number, words: vec![words, work], bytes: signals };
    let (mut signals, mut work, mut words) = dirt;
    let number = operations.1(table, count, k, s, i, &mut signals, &mut work, &mut words);
    let theirs = Told { number, words: vec![words, work], bytes: signals };
    same(&ours, &theirs, || {
        format!("steps {k}, starts {s:?}, inputs {i:?}, work of {} words\n{}", run.work, show(table, count, program))
    });
    if ours.words[0].first() == Some(&1) {
        100
    } else {
        ours.number
    }
}

/// A run of some lines, with lists of the exact lengths or, seldom, of others.
#[cfg(any(feature = "run_circuit", feature = "run_program"))]
fn run_of(random: &mut Random, lines: &Lines) -> Run {
    let steps = match random.below(60) {
        0 => random.pick(&[4_096, 4_097, 4_098, usize::MAX, 1 << 32]),
        1..=6 => 0,
        7..=12 => 10 + random.below(40),
        _ => 1 + random.below(8),
    };
    let steps = if steps == 4_096 && lines.work() > 60 { 4_097 } else { steps };
    let rows = if steps > 4_096 { 1 } else { steps };
    let exact = |random: &mut Random, n| if random.one_in(3) { length(random, n) } else { n };
    let starts = exact(random, lines.state_cells());
    // Seldom the inputs alone, without the words of free states.
    let inputs = if random.one_in(12) { rows * lines.inputs() } else { exact(random, rows * lines.row_words()) };
    Run {
        steps,
        starts: random.words(starts),
        inputs: random.words(inputs),
        signals: exact(random, rows * lines.signals()),
        work: length(random, lines.work()),
        answer: answer_length(random),
    }
}

#[cfg(feature = "run_circuit")]
fn run_circuit_case(random: &mut Random) -> u64 {
    let size = size(random);
    let mut lines = circuit(random, size);
    if random.one_in(5) {
        lines = flat_of(&lines).unwrap_or_default();
    }
    let (table, count) =
        if random.one_in(3) { table_of(random, &lines) } else { (roomy(random, &lines), lines.records.len()) };
    // The lists fit what is counted, where it is accepted, or the lines as they were.
    let counted = independent::rules::check_table(&table, count).filter(|_| table.len() % RECORD == 0);
    let fitting = counted.filter(|_| random.one_in(2)).unwrap_or(lines);
    let run = run_of(random, &fitting);
    both_run(random, (independent::run_circuit, proved::run_circuit), (&table, count, false), &run)
}

#[cfg(feature = "run_circuit")]
#[test]
fn running_circuits() {
    cases("run_circuit", 10_000, &[0, 1, 11, 13, 14, 15, 16, 17, 100], run_circuit_case);
}

#[cfg(feature = "run_program")]
fn run_program_case(random: &mut Random) -> u64 {
    let size = size(random);
    let lines = flat_of(&circuit(random, size)).unwrap_or_default();
    let records =
        if random.one_in(2) { independent::translating::program_records(&lines) } else { wild_program(random, &lines) };
    let Some(lines) = independent::rules::check_program(&program_list(&records), records.len()) else {
        // Masks past 16,384 records.
        assert!(records.len() > independent::MOST_RECORDS);
        return 20;
    };
    let (table, count) =
        if random.one_in(3) { table_of(random, &lines) } else { (roomy(random, &lines), lines.records.len()) };
    let counted = independent::rules::check_program(&table, count).filter(|_| table.len() % PROGRAM_RECORD == 0);
    let fitting = counted.filter(|_| random.one_in(2)).unwrap_or(lines);
    let run = run_of(random, &fitting);
    both_run(random, (independent::run_program, proved::run_program), (&table, count, true), &run)
}

#[cfg(feature = "run_program")]
#[test]
fn running_programs() {
    cases("run_program", 10_000, &[0, 1, 13, 14, 15, 16, 17, 20, 100], run_program_case);
}

/// Every operator on all words of widths 1 to 3, and on edge words of larger widths, in circuits.
#[cfg(feature = "run_circuit")]
#[test]
fn operators_in_circuits() {
    on_stack(|| operators(&mut Random::new(9), (independent::run_circuit, proved::run_circuit), false));
}

/// The same in programs, with any bits above the widths.
#[cfg(feature = "run_program")]
#[test]
fn operators_in_programs() {
    on_stack(|| operators(&mut Random::new(10), (independent::run_program, proved::run_program), true));
}

/// A run whose signals are the bits of an operator's result, for many operands.
#[cfg(any(feature = "run_circuit", feature = "run_program"))]
fn operators(random: &mut Random, both: (Running, Running), program: bool) {
    let mut compared = 0;
    for w in (1..=8).chain([15, 16, 31, 32, 33, 47, 62, 63, 64]) {
        for kind in (11..=53).chain(57..=63).chain(if program { Some(56) } else { None }) {
            for _ in 0..if matches!(kind, 18..=20 | 52) { 6 } else { 1 } {
                // Widths of the operands and of the result, and the plain numbers.
                let (mut widths, mut result, mut numbers) = ([w, w, w], w, [0, 0]);
                match kind {
                    15..=17 | 21..=30 | 57..=63 => result = 1,
                    31 | 32 => (widths, result) = ([1; 3], 1),
                    18 => {
                        let upper = random.next() % w;
                        let lower = random.next() % (upper + 1);
                        (numbers, result) = ([upper, lower], upper - lower + 1);
                    }
                    19 | 20 => {
                        numbers[0] = random.next() % (65 - w);
                        result = w + numbers[0];
                    }
                    52 if w == 64 => continue,
                    52 => {
                        widths[1] = 1 + random.next() % (64 - w);
                        result = w + widths[1];
                    }
                    53 => widths[0] = 1,
                    _ => {}
                }
                let n = match kind {
                    11..=20 | 56 => 1,
                    53 => 3,
                    _ => 2,
                };
                // Inputs, the operator, a slice for each bit of the result (in a program a mask of width 1 behind it).
                let mut table: Vec<[u64; 5]> = Vec::new();
                let sort = |table: &mut Vec<[u64; 5]>, w: u64| {
                    if program {
                        return w;
                    }
                    table.push([1, 0, w, 0, 0]);
                    table.len() as u64
                };
                let mut operands = [0; 3];
                for (i, operand) in operands.iter_mut().enumerate().take(n) {
                    let s = sort(&mut table, widths[i]);
                    table.push([4, s, 0, 0, 0]);
                    *operand = table.len() as u64;
                }
                if matches!(kind, 18..=20) {
                    operands[1..].copy_from_slice(&numbers);
                }
                let s = sort(&mut table, result);
                table.push([kind, s, operands[0], operands[1], operands[2]]);
                let line = table.len() as u64;
                let bit = sort(&mut table, 1);
                for i in 0..result {
                    table.push([18, bit, line, i, i]);
                    let mut last = table.len() as u64;
                    if program {
                        table.push([56, bit, last, 0, 0]);
                        last += 1;
                    }
                    table.push([8, 0, last, 0, 0]);
                }
                let all = widths[..n].iter().sum::<u64>() <= 7;
                let rows: Vec<u64> = if all && !program {
                    (0..1u64 << widths[..n].iter().sum::<u64>())
                        .flat_map(|x| {
                            let mut rest = x;
                            widths[..n]
                                .iter()
                                .map(move |&w| {
                                    let word = rest & ((1 << w) - 1);
                                    rest >>= w;
                                    word
                                })
                                .collect::<Vec<u64>>()
                        })
                        .collect()
                } else {
                    (0..200 * n)
                        .map(|_| match random.below(6) {
                            0 => random.next() % (2 * w),
                            1 => random.word_of(w),
                            2 => 0u64.wrapping_sub(random.next() % 4) & independent::rules::ones(w),
                            3 => 1 << (w - 1),
                            _ => random.word(),
                        })
                        .collect()
                };
                let steps = rows.len() / n;
                let run = Run {
                    steps,
                    starts: vec![],
                    inputs: rows,
                    signals: steps * result as usize,
                    work: table.len(),
                    answer: 3,
                };
                compared += steps;
                let words = if program { program_list(&table) } else { numbered(&table) };
                assert!(matches!(both_run(random, both, (&words, table.len(), program), &run), 0 | 100));
            }
        }
    }
    println!("operators: {compared} results compared");
}

/// What the operations give for a table: the flat table, the text, and a run with its first counted bad; for a table
/// without arrays the program; for one of at most 64 records a value.
#[cfg(all(feature = "write", feature = "flatten", feature = "translate", feature = "run_circuit", feature = "peek"))]
fn all_results(random: &mut Random, lines: &Lines) -> Vec<(Vec<u64>, Vec<u8>)> {
    let (table, n) = (roomy(random, lines), lines.records.len());
    let room = flat_of(lines).map_or(0, |flat| flat.records.len());
    let mut results = Vec::new();
    let mut keep = |number: u64, answer: [u64; 3], words: Vec<u64>, bytes: Vec<u8>| {
        results.push(([vec![number], answer.to_vec(), words].concat(), bytes));
    };
    let (mut target, mut answer) = (random.words(RECORD * room), [7; 3]);
    let number = proved::flatten(&table, n, &mut target, &mut answer);
    keep(number, answer, target, vec![]);
    let mut target = random.words(PROGRAM_RECORD * (2 * n).min(16_384));
    let number = proved::translate(&table, n, &mut target, &mut answer);
    keep(number, answer, target, vec![]);
    let mut text = random.bytes(40 * n + 1);
    let number = proved::write(&table, n, &mut text, &mut answer);
    keep(number, answer, vec![], text);
    let (k, s) = (3, Random::new(n as u64).words(lines.state_cells()));
    let i = Random::new(n as u64 + 1).words(k * lines.row_words());
    let (mut signals, mut work) = (random.bytes(k * lines.signals()), random.words(lines.work()));
    let number = proved::run_circuit(&table, n, k, &s, &i, &mut signals, &mut work, &mut answer);
    keep(number, answer, work, signals);
    for line in 0..=n.min(64) + 1 {
        let number = proved::peek(&table, n, line, 0, &s, &i[..lines.row_words()], &mut answer);
        keep(number, answer, vec![], vec![]);
    }
    results
}

/// Two tables that differ in their ids, their lengths and what stands past the count give the same flat table, program,
/// text, run and values.
#[cfg(all(feature = "write", feature = "flatten", feature = "translate", feature = "run_circuit", feature = "peek"))]
#[test]
fn ids_and_lengths_make_no_difference() {
    cases("ids", 2_000, &[0, 19], |random| {
        let size = size(random);
        let mut lines = circuit(random, size);
        let ours = all_results(random, &lines);
        lines.ids = rising_ids(random, lines.ids.len());
        let theirs = all_results(random, &lines);
        assert!(ours == theirs, "{}", show(&lines.words(), 400, false));
        // The translation's number.
        ours[1].0[0]
    });
}

/// A circuit, its flat circuit and its program give the same signals and the same first counted bad.
#[cfg(all(feature = "flatten", feature = "translate", feature = "run_circuit", feature = "run_program"))]
fn alike(random: &mut Random, lines: &Lines) -> u64 {
    let (c, n) = (roomy(random, lines), lines.records.len());
    let Some(known) = flat_of(lines) else { return 12 };
    let room = known.records.len() + random.below(3);
    let mut f = random.words(RECORD * room);
    let flat = gofeshan::flatten(&c, n, &mut f).unwrap();
    // A mask behind each line at the most.
    let mut p = random.words(PROGRAM_RECORD * (2 * flat).min(16_384));
    let Ok(program) = gofeshan::translate(&f, flat, &mut p) else { return 12 };
    let k = 1 + random.below(12);
    let (starts, inputs) = (random.words(lines.state_cells()), random.words(k * lines.row_words()));
    let length = k * lines.signals();
    let run = |of: usize, random: &mut Random| {
        let (mut signals, mut work) = (random.bytes(length), random.words(3 * room.max(lines.work())));
        let bad = match of {
            0 => gofeshan::run_circuit(&c, n, k, &starts, &inputs, &mut signals, &mut work),
            1 => gofeshan::run_circuit(&f, flat, k, &starts, &inputs, &mut signals, &mut work),
            _ => gofeshan::run_program(&p, program, k, &starts, &inputs, &mut signals, &mut work),
        };
        (signals, bad.unwrap())
    };
    let (of_c, of_f, of_p) = (run(0, random), run(1, random), run(2, random));
    assert!(of_c == of_f && of_f == of_p, "{of_c:?}\n{of_f:?}\n{of_p:?}\n{}", show(&c, n, false));
    let signals = lines.run(k, &starts, &inputs);
    let bad = lines.first_bad(k, &signals).map(|(step, place)| gofeshan::FirstBad { step, place });
    assert!(of_c == (signals, bad));
    100 * u64::from(bad.is_some())
}

#[cfg(all(feature = "flatten", feature = "translate", feature = "run_circuit", feature = "run_program"))]
#[test]
fn circuit_flat_circuit_and_program() {
    cases("C, F and P", 10_000, &[0, 100], |random| {
        let size = size(random);
        let lines = circuit(random, size);
        alike(random, &lines)
    });
}

/// The proved runs on flat circuits and programs that the independent implementation made.
#[cfg(all(feature = "run_circuit", feature = "run_program"))]
#[test]
fn runs_of_circuit_flat_circuit_and_program() {
    cases("runs of C, F and P", 10_000, &[0, 100], |random| {
        let size = size(random);
        let lines = circuit(random, size);
        let Some(flat) = flat_of(&lines) else { return 12 };
        let Some(program) = program_of(&flat) else { return 12 };
        let k = 1 + random.below(12);
        let (starts, inputs) = (random.words(lines.state_cells()), random.words(k * lines.row_words()));
        let expected = lines.run(k, &starts, &inputs);
        let bad = lines.first_bad(k, &expected).map(|(step, place)| gofeshan::FirstBad { step, place });
        for of in [&lines, &flat, &program] {
            let run = if of.program { gofeshan::run_program } else { gofeshan::run_circuit };
            let (mut signals, mut work) = (random.bytes(expected.len()), random.words(of.work()));
            let told = run(&roomy(random, of), of.records.len(), k, &starts, &inputs, &mut signals, &mut work);
            assert!(told == Ok(bad) && signals == expected, "{told:?}\n{}", show(&lines.words(), 400, false));
        }
        100 * u64::from(bad.is_some())
    });
}

/// The same of the independent implementation alone.
#[test]
fn independent_circuit_flat_circuit_and_program() {
    cases("C, F and P, independent", 3_000, &[0], |random| {
        let size = size(random);
        let lines = circuit(random, size);
        let Some(flat) = flat_of(&lines) else { return 12 };
        let Some(program) = program_of(&flat) else { return 12 };
        let k = 1 + random.below(12);
        let (starts, inputs) = (random.words(lines.state_cells()), random.words(k * lines.row_words()));
        let of = |lines: &Lines| {
            let signals = lines.run(k, &starts, &inputs);
            let bad = lines.first_bad(k, &signals);
            (signals, bad)
        };
        assert!(of(&lines) == of(&flat) && of(&flat) == of(&program), "{}", show(&lines.words(), 400, false));
        0
    });
}

// Register files: many inits over shared cones. A file is accepted, or refused by 10, as a table by 11, as a program by 20.

#[cfg(feature = "read")]
fn read_file_case(random: &mut Random) -> u64 {
    let arrays = random.below(3) > 0;
    let lines = register_file(random, arrays);
    let (text, room) = (text(random, &lines), lines.records.len() + random.below(9));
    both_read(random, &text, RECORD * room, 3)
}

#[cfg(feature = "read")]
#[test]
fn reading_register_files() {
    many_cases("read register files", 10_000, &[0, 10], 25, read_file_case);
}

/// An operation on a table; `lines` are those that it holds, or about as many. Gives 11 or, for all other answers, 0.
#[cfg(all(feature = "write", feature = "flatten", feature = "translate", feature = "run_circuit"))]
fn both_take(random: &mut Random, lines: &Lines, table: &[u64], n: usize) -> u64 {
    let number = match random.below(4) {
        0 => {
            let length = independent::texts::print(&lines.records).len();
            both_write(random, table, n, length, 3)
        }
        1 => {
            let room = flat_of(lines).map_or(0, |flat| flat.records.len());
            both_change(random, (independent::flatten, proved::flatten), table, n, RECORD * room, 3)
        }
        2 => {
            let room = (2 * n).min(16_384);
            both_change(random, (independent::translate, proved::translate), table, n, PROGRAM_RECORD * room, 3)
        }
        _ => {
            let run = run_of(random, lines);
            both_run(random, (independent::run_circuit, proved::run_circuit), (table, n, false), &run)
        }
    };
    if number == 11 {
        11
    } else {
        0
    }
}

#[cfg(all(feature = "write", feature = "flatten", feature = "translate", feature = "run_circuit"))]
fn table_file_case(random: &mut Random) -> u64 {
    let arrays = random.below(3) > 0;
    let lines = register_file(random, arrays);
    let table = roomy(random, &lines);
    both_take(random, &lines, &table, lines.records.len())
}

/// An answer other than 11 counts as 0.
#[cfg(all(feature = "write", feature = "flatten", feature = "translate", feature = "run_circuit"))]
#[test]
fn tables_of_register_files() {
    many_cases("tables of register files", 10_000, &[0, 11], 25, table_file_case);
}

#[cfg(feature = "run_program")]
fn program_file_case(random: &mut Random) -> u64 {
    let circuit = register_file(random, false);
    let program = Lines { records: wild_program(random, &circuit), program: true, ..Lines::default() };
    let n = program.records.len();
    let accepted = independent::rules::check_program(&program_list(&program.records), n);
    let (table, run) = (roomy(random, &program), run_of(random, &accepted.unwrap_or_default()));
    match both_run(random, (independent::run_program, proved::run_program), (&table, n, true), &run) {
        20 => 20,
        _ => 0,
    }
}

/// An answer other than 20 counts as 0.
#[cfg(feature = "run_program")]
#[test]
fn programs_of_register_files() {
    many_cases("programs of register files", 10_000, &[0, 20], 25, program_file_case);
}

// Peek.

#[cfg(feature = "peek")]
fn both_peek(
    random: &mut Random,
    (table, count): (&[u64], usize),
    (line, cell): (usize, usize),
    (starts, row): (&[u64], &[u64]),
    answer: usize,
) -> u64 {
    let dirt = random.words(answer);
    let mut words = dirt.clone();
    let number = independent::peek(table, count, line, cell, starts, row, &mut words);
    let ours = Told { number, words: vec![words], bytes: vec![] };
    let mut words = dirt;
    let number = proved::peek(table, count, line, cell, starts, row, &mut words);
    let theirs = Told { number, words: vec![words], bytes: vec![] };
    same(&ours, &theirs, || {
        format!("peek, line {line}, cell {cell}, starts {starts:?}, row {row:?}\n{}", show(table, count, false))
    });
    ours.number
}

#[cfg(feature = "peek")]
fn peek_case(random: &mut Random) -> u64 {
    let lines = {
        let size =
            Size { lines: if random.one_in(8) { 60 + random.below(8) } else { random.below(50) }, ..size(random) };
        circuit(random, size)
    };
    let n = lines.records.len();
    let (table, count) = if random.one_in(4) { table_of(random, &lines) } else { (roomy(random, &lines), n) };
    // A place; seldom a place that there is not, or an id.
    let line = match random.below(30) {
        0 | 1 => random.pick(&[0, n + 1, usize::MAX, 1 << 32]),
        2 if n > 0 => random.pick(&lines.ids) as usize,
        _ => 1 + random.below(n),
    };
    let cells = lines.line(line as u64).and_then(|l| l.sort).map_or(1, |s| s.cells());
    let cell = if random.one_in(12) { random.pick(&[cells, usize::MAX, 1 << 32]) } else { random.below(cells) };
    let (starts, row) = (lines.state_cells(), if random.one_in(12) { lines.inputs() } else { lines.row_words() });
    let (starts, row) = if random.one_in(4) { (length(random, starts), length(random, row)) } else { (starts, row) };
    let answer = answer_length(random);
    let (starts, row) = (random.words(starts), random.words(row));
    both_peek(random, (&table, count), (line, cell), (&starts, &row), answer)
}

#[cfg(feature = "peek")]
#[test]
fn peeking() {
    cases("peek", 30_000, &[0, 1, 11, 14, 15, 18], peek_case);
}

/// Lines that each use the line before twice: every peek ends at once.
#[cfg(feature = "peek")]
#[test]
fn peeking_at_doubling_lines() {
    on_stack(|| {
        let mut records = vec![[1, 0, 64, 0, 0], [4, 1, 0, 0, 0]];
        (2..64).for_each(|i| records.push([39, 1, i, i, 0]));
        let table = numbered(&records);
        let began = std::time::Instant::now();
        assert_eq!(gofeshan::peek(&table, 64, 64, 0, &[], &[1]), Ok(1 << 62));
        println!("a peek at 64 doubling lines: {:?}", began.elapsed());
        assert!(began.elapsed().as_millis() < 10);
        // The same through an array: each line writes what it reads.
        let mut records = vec![[1, 0, 8, 0, 0], [2, 0, 1, 1, 0], [5, 2, 0, 0, 0], [4, 1, 0, 0, 0]];
        let (mut array, mut n) = (3, 4);
        while n + 3 <= 64 {
            records.extend([[54, 1, array, 4, 0], [39, 1, n + 1, n + 1, 0], [55, 2, array, n + 2, n + 2]]);
            (array, n) = (n + 3, n + 3);
        }
        let table = numbered(&records);
        let starts: Vec<u64> = (0..256).map(|i| i * 7 % 256).collect();
        // The array is free: its words stand behind the input.
        let row = vec![3; 257];
        for cell in 0..256 {
            let mut words = [0; 3];
            let number = independent::peek(&table, n as usize, array as usize, cell, &starts, &row, &mut words);
            assert_eq!(number, 0);
            assert_eq!(gofeshan::peek(&table, n as usize, array as usize, cell, &starts, &row), Ok(words[0]));
        }
    });
}

// Name.

#[cfg(feature = "name")]
fn both_name(random: &mut Random, text: &[u8], id: u64, answer: usize) -> u64 {
    let dirt = random.words(answer);
    let (mut ours, mut theirs) = (dirt.clone(), dirt);
    let number = independent::name(text, id, &mut ours);
    let other = proved::name(text, id, &mut theirs);
    if number == 0 && ours[1] == 0 && other == 0 && theirs[1] == 0 {
        // Where the empty part stands is free.
        assert!(theirs[0] <= text.len() as u64);
        theirs[0] = 0;
    }
    let named = u64::from(number == 0 && ours[1] > 0);
    same(
        &Told { number, words: vec![ours], bytes: vec![] },
        &Told { number: other, words: vec![theirs], bytes: vec![] },
        || format!("name of {id}\n{}", String::from_utf8_lossy(text)),
    );
    if named == 1 {
        100
    } else {
        number
    }
}

#[cfg(feature = "name")]
fn name_case(random: &mut Random) -> u64 {
    let size = size(random);
    let lines = circuit(random, size);
    let form = random.below(6);
    let text = match form {
        0 | 1 => damaged_text(random, &lines),
        2 => {
            // Any text has names, one that is too long to read as well.
            let mut text = babble(random);
            if random.one_in(100) {
                text.splice(0..0, vec![b'\n'; 70_000]);
            }
            text
        }
        3 => named_text(random, &lines),
        _ => text(random, &lines),
    };
    let id = match random.below(20) {
        0 => random.word(),
        1..=4 => random.pick(ODD_IDS),
        5..=12 if form == 2 => random.pick(ODD_IDS),
        5..=9 => random.below(lines.records.len() + 2) as u64,
        _ if lines.ids.is_empty() => 1,
        _ => random.pick(&lines.ids),
    };
    let answer = answer_length(random);
    both_name(random, &text, id, answer)
}

#[cfg(feature = "name")]
#[test]
fn naming() {
    cases("name", 30_000, &[0, 1, 100], name_case);
}
