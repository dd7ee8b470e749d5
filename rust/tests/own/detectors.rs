//! Overflow detectors by the independent implementation alone: the request's vectors, the wrapped results, and what the
//! generator makes of them.

use super::generator::detectors::{damage, edge_words, partners, DETECTORS};
use super::generator::{self, Random};
use super::*;
use std::collections::BTreeMap;

/// The detectors in their order.
const WORDS: [&str; 7] = ["uaddo", "saddo", "usubo", "ssubo", "umulo", "smulo", "sdivo"];

const CIRCUIT: &str = "1 sort bitvec 1
2 sort bitvec 3
3 input 2
4 input 2
5 uaddo 1 3 4
6 saddo 1 3 4
7 usubo 1 3 4
8 ssubo 1 3 4
9 umulo 1 3 4
10 smulo 1 3 4
11 sdivo 1 3 4
12 bad 5
13 bad 6
14 bad 7
15 bad 8
16 bad 9
17 bad 10
18 bad 11
";

/// A detector's word on two words of a width, in a circuit and in a program.
fn detected(word: &str, w: u64, a: u64, b: u64) -> u64 {
    let kind = 57 + WORDS.iter().position(|other| *other == word).unwrap() as u64;
    let meant = meaning::apply(kind, 1, [w, w, 0], [a, b, 0]);
    assert_eq!(words::apply(kind, 1, [w, w, 0], [a, b, 0]), meant);
    meant
}

#[test]
fn all_detectors() {
    let (circuit, count) = table(CIRCUIT);
    let (mut flat, mut program, mut answer) = (vec![9; 6 * 18], vec![9; 5 * 18], [9; 3]);
    assert_eq!((flatten(&circuit, count, &mut flat, &mut answer), answer), (0, [18, 0, 0]));
    assert!(count == 18 && flat == circuit);
    let mut text = vec![9; CIRCUIT.len()];
    assert_eq!(write(&flat, 18, &mut text, &mut answer), 0);
    assert_eq!(String::from_utf8(text).unwrap(), CIRCUIT);
    assert_eq!((translate(&flat, 18, &mut program, &mut answer), answer), (0, [18, 0, 0]));
    let masked = [[4, 3, 0, 0, 0], [56, 3, 1, 0, 0], [4, 3, 0, 0, 0], [56, 3, 3, 0, 0]];
    let detectors = DETECTORS.map(|kind| [kind, 1, 2, 4, 0]);
    let bads = (5..=11).map(|line| [8, 0, line, 0, 0]);
    let whole: Vec<Record> = masked.into_iter().chain(detectors).chain(bads).collect();
    assert_eq!(records(&program, 18, true), whole);
    let inputs = [4, 7, 2, 2, 12, 15, 3, 0];
    let signals = [[1, 1, 1, 0, 1, 1, 1], [0, 1, 0, 0, 0, 1, 0], [1, 1, 1, 0, 1, 1, 1], [0; 7]].concat();
    let (mut of_circuit, mut of_program) = ([9; 28], [9; 28]);
    assert_eq!(run_circuit(&circuit, 18, 4, &[], &inputs, &mut of_circuit, &mut [9; 9], &mut answer), 0);
    assert_eq!(run_program(&program, 18, 4, &[], &inputs, &mut of_program, &mut [9; 11], &mut answer), 0);
    assert!(of_circuit[..] == signals && of_program[..] == signals && answer == [1, 0, 1]);
    // A word for each detector is in the work area.
    assert_eq!(run_circuit(&circuit, 18, 4, &[], &inputs, &mut of_circuit, &mut [9; 8], &mut answer), 17);
    assert_eq!(run_program(&program, 18, 4, &[], &inputs, &mut of_program, &mut [9; 10], &mut answer), 17);
}

#[test]
fn words_at_the_limits() {
    let (least, minus) = (1 << 63, u64::MAX);
    for (word, a, b, result) in [
        ("uaddo", minus, 1, 1),
        ("uaddo", minus, 0, 0),
        ("saddo", least, minus, 1),
        ("saddo", least, least - 1, 0),
        ("usubo", 0, minus, 1),
        ("usubo", minus, minus, 0),
        ("ssubo", 0, least, 1),
        ("ssubo", minus, least, 0),
        ("umulo", 1 << 32, 1 << 32, 1),
        ("umulo", 1 << 32, (1 << 32) - 1, 0),
        ("umulo", 6_148_914_691_236_517_205, 3, 0),
        ("umulo", 6_148_914_691_236_517_206, 3, 1),
        ("umulo", minus, minus, 1),
        ("smulo", least, 1, 0),
        ("smulo", least, minus, 1),
        ("smulo", 1 << 62, minus - 1, 0),
        ("smulo", 1 << 62, 2, 1),
        ("smulo", 3_037_000_499, 3_037_000_499, 0),
        ("smulo", 3_037_000_500, 3_037_000_500, 1),
        ("sdivo", least, minus, 1),
        ("sdivo", least, 0, 0),
        ("sdivo", least, 1, 0),
        ("sdivo", minus, least, 0),
    ] {
        assert_eq!(detected(word, 64, a, b), result, "{word} {a} {b}");
    }
    // By the operands: 0 0, 0 1, 1 0, 1 1.
    for (word, results) in WORDS.iter().zip([
        [0, 0, 0, 1],
        [0, 0, 0, 1],
        [0, 1, 0, 0],
        [0, 1, 0, 0],
        [0, 0, 0, 0],
        [0, 0, 0, 1],
        [0, 0, 0, 1],
    ]) {
        assert_eq!([(0, 0), (0, 1), (1, 0), (1, 1)].map(|(a, b)| detected(word, 1, a, b)), results, "{word}");
    }
    // A program reads the low bits of each operand.
    assert_eq!(words::apply(57, 1, [3, 3, 0], [9, 10, 0]), 0);
    assert_eq!(words::apply(57, 1, [3, 3, 0], [15, 15, 0]), 1);
}

/// A detector is 0 exactly where the word of its operator, read back as a whole number, is the exact result.
#[test]
fn wrapped_results() {
    let (mut zeros, mut ones) = ([0; 7], [0; 7]);
    for w in (1..=6).chain([8, 31, 32, 33, 62, 63, 64]) {
        let all = || (0..1 << w).flat_map(|a| (0..1 << w).map(move |b| (a, b)));
        let near = |a: u64| partners(a, w).into_iter().map(move |b| (a, b));
        let edges = edge_words(w);
        let pairs: Vec<(u64, u64)> =
            if w <= 6 { all().collect() } else { edges.iter().flat_map(|&a| near(a)).collect() };
        for (a, b) in pairs {
            let wide = [(a.into(), b.into()), (meaning::signed(a, w), meaning::signed(b, w))];
            for (i, (operator, signed)) in
                [(39, 0), (39, 1), (40, 0), (40, 1), (41, 0), (41, 1), (44, 1)].into_iter().enumerate()
            {
                let (x, y): (i128, i128) = wide[signed];
                let exact = match operator {
                    39 => x + y,
                    40 => x - y,
                    41 => x.saturating_mul(y),
                    _ if y == 0 => 0,
                    _ => x / y,
                };
                let wrapped = meaning::apply(operator, w, [w, w, 0], [a, b, 0]);
                let back = if signed == 1 { meaning::signed(wrapped, w) } else { wrapped.into() };
                let lost = u64::from(back != exact && (operator, y) != (44, 0));
                assert_eq!(detected(WORDS[i], w, a, b), lost, "{} {a} {b} of width {w}", WORDS[i]);
                if lost == 1 {
                    ones[i] += 1;
                } else {
                    zeros[i] += 1;
                }
            }
        }
    }
    println!("detectors: {zeros:?} times 0, {ones:?} times 1");
    assert!(zeros.iter().chain(&ones[..6]).all(|&n| n > 1000) && ones[6] > 10, "{zeros:?} {ones:?}");
}

/// A line 11 behind lines of every class: line 4 has the width 3, line 6 the width 1, line 9 is an array.
#[test]
fn where_a_detector_may_stand() {
    for word in WORDS {
        for (operands, number) in [
            ("1 4 5", 0),
            ("1 6 6", 0),
            ("1 -4 -5", 0),
            ("1 4 5 name", 0),
            ("1 4 5 two names", 6),
            ("1 4", 6),
            ("1 4 +5", 6),
            ("1 4 18446744073709551616", 7),
            ("1 9 9", 8),
            ("1 4 9", 8),
            ("1 4 -9", 8),
            ("1 4 2", 8),
            ("1 4 10", 8),
            ("1 4 11", 8),
            ("8 4 5", 8),
            ("4 4 5", 8),
            ("1 4 6", 9),
            ("1 6 4", 9),
            ("2 4 5", 9),
            ("7 6 6", 9),
        ] {
            assert_eq!(last(&format!("11 {word} {operands}")), number, "{word} {operands}");
        }
        assert_eq!(last(&format!("11 {} 1 4 5", word.to_uppercase())), 5);
        assert_eq!(find_name_of(format!("7 {word} 1 4 5 over").as_bytes(), 7), Some(&b"over"[..]));
    }
    for word in ["mask", "udivo", "sddivo", "uaddo1", "addo", "saddo,", "sdiv o"] {
        assert_eq!(last(&format!("11 {word} 1 4 5")), if word == "sdiv o" { 6 } else { 5 }, "{word}");
        assert_eq!(find_name_of(format!("7 {word} 1 4 5 over").as_bytes(), 7), None);
    }
}

/// Kinds as records: 57 to 63 in circuits and in programs, 56 in programs alone, 64 in neither.
#[test]
fn kinds_of_detectors() {
    for kind in 53..=66 {
        let detector = DETECTORS.contains(&kind);
        let circuit = numbered(&[[1, 0, 1, 0, 0], [4, 1, 0, 0, 0], [kind, 1, 2, 2, 0]]);
        let told = write(&circuit, 3, &mut [9; 99], &mut [9; 3]);
        assert_eq!(told, if detector { 0 } else { 11 }, "{kind}");
        let program = program_list(&[[4, 1, 0, 0, 0], [kind, 1, 1, 1, 0]]);
        let told = run_program(&program, 2, 1, &[], &[1], &mut [], &mut [9; 9], &mut [9; 3]);
        assert_eq!(told, if detector { 0 } else { 20 }, "{kind}");
    }
}

/// An init value's cone goes through both operands of a detector.
#[test]
fn cones_through_detectors() {
    for (a, b, number) in [(4, 4, 0), (3, 4, 10), (4, 3, 10), (4, 5, 10), (5, 4, 10)] {
        let start = "1 sort bitvec 1\n2 sort bitvec 3\n3 input 2\n4 constd 2 5\n5 state 2\n";
        let text = format!("{start}6 smulo 1 {a} {b}\n7 state 1\n8 init 1 7 6\n9 bad 7\n");
        assert_eq!(reading(&text).0, number, "{a} {b}");
    }
}

/// The generator makes every detector at small, middling and large widths, with results of 0 and of 1, on loose operands, on
/// operands with a minus, as init values; and detectors with each fault.
#[test]
fn generator_reaches_detectors() {
    let mut random = Random::new(10);
    // By the detector and the result; and by the widths of the operands.
    let (mut results, mut widths) = ([[0; 2]; 7], [[0; 7]; 5]);
    let (mut masked, mut inits, mut conditions, mut texts) = (0, 0, 0, BTreeMap::new());
    let (mut tables, mut programs) = ([0; 2], [0; 2]);
    for case in 0..3000 {
        let size = generator::size(&mut random);
        let lines = generator::circuit(&mut random, size);
        let (starts, row) = (random.words(lines.state_cells()), random.words(lines.row_words()));
        let values = lines.evaluate(&lines.start(&starts), &row);
        let is_detector = |line: u64| DETECTORS.contains(&lines.records[line as usize - 1][0]);
        for (r, value) in lines.records.iter().zip(&values) {
            if let Some(i) = DETECTORS.clone().position(|kind| kind == r[0]) {
                results[i][value[0] as usize] += 1;
                let class = [1, 8, 62, 63, 64].iter().position(|&most| lines.sort(r[2]).width() <= most).unwrap();
                widths[class][i] += 1;
            }
            conditions += usize::from(r[0] == 53 && is_detector(r[2]));
        }
        let file = generator::register_file(&mut random, case % 2 == 0);
        let kind = |line: u64| file.records[line as usize - 1][0];
        inits += file.records.iter().filter(|r| r[0] == 6 && DETECTORS.contains(&kind(r[3]))).count();

        let flat = flattening::flat_records(&lines, MOST_RECORDS).unwrap();
        let flat = rules::check_table(&numbered(&flat), flat.len()).unwrap();
        let program = translating::program_records(&flat);
        let is_mask = |line: u64| program[line as usize - 1][0] == 56;
        masked += program.iter().filter(|r| DETECTORS.contains(&r[0]) && (is_mask(r[2]) || is_mask(r[3]))).count();

        let mut rows = lines.rows();
        damage(&mut random, &mut rows, false);
        let (list, n) = (columns(&rows, false), lines.records.len());
        let accepted = rules::check_table(&list, n).is_some();
        if rows != lines.rows() {
            tables[usize::from(accepted)] += 1;
        }
        if records(&list, n, false).iter().all(|r| kinds::in_circuits(r[0])) && rows != lines.rows() {
            let text = texts::print(&records(&list, n, false));
            *texts.entry(read(&text, &mut vec![9; 6 * n], &mut [9; 3])).or_insert(0) += 1;
        }
        let mut rows = program.concat();
        damage(&mut random, &mut rows, true);
        if rows != program.concat() {
            programs[usize::from(rules::check_program(&columns(&rows, true), program.len()).is_some())] += 1;
        }
    }
    println!("detectors, results of 0 and 1: {results:?}; by widths up to 1, 8, 62, 63, 64: {widths:?}");
    println!("{masked} with a masked operand, {inits} as init values, {conditions} as conditions");
    println!("damaged, refused and accepted: tables {tables:?}, programs {programs:?}; texts {texts:?}");
    assert!(results.iter().flatten().all(|&n| n > 60), "{results:?}");
    assert!(widths.iter().flatten().all(|&n| n > 30), "{widths:?}");
    assert!(masked > 1000 && inits > 1000 && conditions > 100, "{masked} {inits} {conditions}");
    assert!(tables.iter().chain(&programs).all(|&n| n > 200), "{tables:?} {programs:?}");
    assert!([0, 8, 9].iter().all(|number| texts.get(number) > Some(&100)), "{texts:?}");
}
