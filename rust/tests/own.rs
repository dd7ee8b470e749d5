//! The independent implementation alone, on the request's example, its marked values and its edges.
//! `cargo test --release --test own`

#[path = "own/detectors.rs"]
mod detectors;
#[path = "own/free_states.rs"]
mod free_states;
mod generator;
mod independent;
#[path = "own/minus.rs"]
mod minus;

use independent::meaning;
use independent::*;

const EXAMPLE: &str = "1 sort bitvec 1
2 sort bitvec 3
3 sort array 1 2
4 state 3
5 input 1
6 constd 2 5
7 write 3 4 5 6
8 next 3 4 7
9 read 2 4 5
10 eq 1 9 6
11 bad 10
";

const FLAT: &str = "1 sort bitvec 1
2 sort bitvec 3
3 sort bitvec 1
4 constd 1 0
5 constd 1 1
6 state 2
7 state 2
8 input 1
9 constd 2 5
10 eq 3 8 4
11 ite 2 10 9 6
12 eq 3 8 5
13 ite 2 12 9 7
14 next 2 6 11
15 next 2 7 13
16 eq 3 8 4
17 ite 2 16 6 7
18 eq 1 17 9
19 bad 18
";

/// The number, the text line, and the records.
fn reading(text: &str) -> (u64, u64, Vec<Record>) {
    let (mut table, mut answer) = (vec![7; 6 * 20_000], [7; 3]);
    let number = read(text.as_bytes(), &mut table, &mut answer);
    let count = if number == 0 { answer[0] as usize } else { 0 };
    assert!(table.chunks(20_000).all(|column| column[count..].iter().all(|&x| x == 0)));
    (number, answer[0], records(&table, count, false))
}

/// The table of an accepted text, with room for its records alone, and the count.
fn table(text: &str) -> (Vec<u64>, usize) {
    let (mut table, mut answer) = (vec![7; 6 * 20_000], [7; 3]);
    assert_eq!(read(text.as_bytes(), &mut table, &mut answer), 0, "{text}");
    let count = answer[0] as usize;
    (columns(&layout::gather(&table, count, 6), false), count)
}

/// The refusal of a last line after a fixed beginning.
fn last(line: &str) -> u64 {
    let start = "1 sort bitvec 1\n2 sort bitvec 3\n3 sort array 2 2\n4 input 2\n5 state 2\n6 input 1\n";
    let array = "7 sort bitvec 2\n8 sort array 7 2\n9 state 8\n10 next 2 5 4\n";
    assert_eq!(reading("1 sort bitvec 1\n2 sort bitvec 3\n3 sort array 2 2\n").0, 0);
    let (number, at, _) = reading(&format!("{start}{array}{line}"));
    assert!(number == 0 || at == 11, "{line}: {number} at {at}");
    number
}

#[test]
fn example() {
    let (circuit, count) = table(EXAMPLE);
    assert_eq!(count, 11);
    let mut flat = vec![9; 6 * 19];
    let mut answer = [9; 3];
    assert_eq!(flatten(&circuit, count, &mut flat, &mut answer), 0);
    assert_eq!(answer, [19, 0, 0]);
    let mut text = vec![9; FLAT.len()];
    assert_eq!(write(&flat, 19, &mut text, &mut answer), 0);
    assert_eq!(answer, [FLAT.len() as u64, 0, 0]);
    assert_eq!(String::from_utf8(text).unwrap(), FLAT);
    assert_eq!(flatten(&circuit, count, &mut [9; 6 * 18], &mut answer), 12);

    let mut program = vec![9; 5 * 17];
    assert_eq!(translate(&flat, 19, &mut program, &mut answer), 0);
    assert_eq!(answer, [17, 0, 0]);
    let masks: Vec<usize> = (1..=17).filter(|i| program[i - 1] == 56).collect();
    assert_eq!(masks, [6]);
    assert_eq!(translate(&circuit, count, &mut program, &mut answer), 19);

    let (mut signals, mut work) = ([9; 3], [9; 40]);
    assert_eq!(run_circuit(&circuit, count, 3, &[0, 0], &[0, 0, 1], &mut signals, &mut work, &mut answer), 0);
    assert_eq!((signals, answer, work), ([0, 1, 0], [1, 1, 1], [0; 40]));
    translate(&flat, 19, &mut program, &mut answer);
    assert_eq!(run_circuit(&flat, 19, 3, &[0, 0], &[0, 0, 1], &mut signals, &mut work, &mut answer), 0);
    assert_eq!((signals, answer), ([0, 1, 0], [1, 1, 1]));
    assert_eq!(run_program(&program, 17, 3, &[0, 0], &[0, 0, 1], &mut signals, &mut work, &mut answer), 0);
    assert_eq!((signals, answer), ([0, 1, 0], [1, 1, 1]));
    // Value cells: state 2, input, constant, write 2, read, eq; state cells: 2.
    assert_eq!(run_circuit(&circuit, count, 3, &[0, 0], &[0, 0, 1], &mut signals, &mut work[..9], &mut answer), 17);
    assert_eq!(run_circuit(&circuit, count, 3, &[0, 0], &[0, 0, 1], &mut signals, &mut work[..10], &mut answer), 0);
}

#[test]
fn marked_values() {
    let values = [
        (42, 5, 0, 7),
        (43, 5, 0, 5),
        (44, 4, 7, 4),
        (44, 5, 0, 1),
        (45, 5, 2, 7),
        (46, 5, 2, 1),
        (46, 3, 6, 7),
        (49, 4, 3, 7),
        (47, 1, 3, 0),
        (50, 1, 4, 2),
        (39, 7, 1, 0),
    ];
    for (kind, a, b, result) in values {
        assert_eq!(meaning::apply(kind, 3, [3, 3, 0], [a, b, 0]), result, "kind {kind} of {a} and {b}");
        assert_eq!(words::apply(kind, 3, [3, 3, 0], [a, b, 0]) & 7, result, "kind {kind} of {a} and {b}");
    }
    assert_eq!(meaning::apply(27, 1, [3, 3, 0], [4, 3, 0]), 1);
    assert_eq!(words::apply(27, 1, [3, 3, 0], [4, 3, 0]), 1);
    let least = 1 << 63;
    assert_eq!(meaning::apply(44, 64, [64, 64, 0], [least, u64::MAX, 0]), least);
    assert_eq!(meaning::apply(45, 64, [64, 64, 0], [least, u64::MAX, 0]), 0);
    assert_eq!(meaning::apply(41, 64, [64, 64, 0], [u64::MAX, u64::MAX, 0]), 1);
    assert_eq!(meaning::apply(50, 64, [64, 64, 0], [least, 65, 0]), 1);
    assert_eq!(meaning::apply(50, 1, [1, 1, 0], [1, 1, 0]), 1);
}

/// The operators on words with junk above the width agree with the meaning, where operands that must be clean are.
#[test]
fn programs_mean_the_same() {
    for w in 1..=3u64 {
        let m = (1 << w) - 1;
        for kind in (11..=17).chain(21..=51).chain(57..=63) {
            let result = if matches!(kind, 15..=17 | 21..=30 | 57..=63) { 1 } else { w };
            if matches!(kind, 31 | 32) && w != 1 {
                continue;
            }
            for (a, b) in (0..=m).flat_map(|a| (0..=m).map(move |b| (a, b))) {
                let meant = meaning::apply(kind, result, [w, w, 0], [a, b, 0]);
                assert!(meant <= independent::rules::ones(result));
                let needs = |i| match kind {
                    15..=17 | 21..=30 | 42..=46 | 48..=51 => true,
                    47 => i == 2,
                    _ => false,
                };
                let junk = |i, x: u64| if needs(i) { x } else { x | 0xdead_beef_1234_5670 << 4 & !m };
                let word = words::apply(kind, result, [w, w, 0], [junk(1, a), junk(2, b), 0]);
                assert_eq!(word & independent::rules::ones(result), meant, "kind {kind}, width {w}, {a} {b}");
            }
        }
    }
}

#[test]
fn tokens_and_numbers() {
    assert_eq!(reading(""), (0, 0, vec![]));
    assert_eq!(reading("\n"), (0, 0, vec![]));
    assert_eq!(reading("  ; x\n\n1 sort bitvec 64").1, 1);
    assert_eq!((reading("1 sort bitvec 65").0, reading("1 sort bitvec 0").0, reading("1 sort bitvec 00").0), (7, 7, 6));
    assert_eq!(reading("\n\n2 sort bitvec 3"), (0, 1, vec![[1, 0, 3, 0, 0]]));
    assert_eq!(reading("\n\n0 sort bitvec 3"), (3, 3, vec![]));
    assert_eq!(reading("\t"), (3, 1, vec![]));
    assert_eq!(reading("18446744073709551616 x").0, 3);
    for (line, number) in [
        ("11 bad 6\r", 6),
        ("11 bad 6 \r", 0),
        ("11 bad 6;x", 0),
        ("11;", 5),
        ("11 bad 6 6", 0),
        ("11 bad 6 6 6", 6),
        ("11 add 2 4 foo", 6),
        ("11 bad 06", 6),
        ("11 bad +6", 6),
        ("11 bad 0", 8),
        ("11 bad 11", 8),
        ("11 bad 18446744073709551615", 8),
        ("11 bad 18446744073709551616", 7),
        ("11 bad 4", 9),
        ("11 bad 9", 8),
        ("11 output 4", 0),
        ("11 sort", 5),
        ("11 sort foo", 5),
        ("11 sort bitvec", 6),
        ("11 input", 6),
        ("11 input 0", 8),
        ("11 input 8", 8),
        ("11 justice 1 6", 5),
        ("11 BAD 6", 5),
        ("11 const 2 101", 0),
        ("11 const 2 12", 6),
        ("11 const 2 1010", 9),
        ("11 const 2 0", 9),
        ("11 consth 2 7", 0),
        ("11 consth 2 0000000000000007", 0),
        ("11 consth 2 00000000000000007", 7),
        ("11 consth 2 8", 9),
        ("11 consth 2 A", 9),
        ("11 consth 2 g", 6),
        ("11 constd 2 07", 6),
        ("11 constd 2 -1", 6),
        ("11 constd 2 8", 9),
        ("11 zero 8", 8),
        ("11 ones 2 2", 0),
        ("11 ones 2 2 2", 6),
        ("11 add 18446744073709551616 x 4", 6),
        ("11 add 8 4 18446744073709551616", 7),
        ("11 add 1 4 9", 8),
        ("11 eq 1 4 9", 9),
        ("11 ite 8 6 4 4", 9),
        ("11 ite 2 6 9 9", 9),
        ("11 next 8 9 4", 9),
        ("11 next 2 5 4", 10),
        ("11 next 2 4 4", 8),
        ("11 init 8 9 9", 8),
        ("11 init 8 9 4", 10),
        ("11 init 2 5 4", 10),
        ("11 init 1 5 4", 9),
        ("11 read 8 9 4", 8),
        ("11 read 1 9 4", 9),
        ("11 write 2 9 4 4", 8),
        ("11 iff 2 4 4", 9),
        ("11 implies 1 6 6", 0),
        ("11 slice 1 4 2 2", 0),
        ("11 slice 1 4 3 3", 9),
        ("11 slice 2 4 1 2", 9),
        ("11 uext 2 4 0", 0),
        ("11 uext 2 4 18446744073709551615", 9),
        ("11 sort array 4 2", 8),
        ("11 sort array 8 2", 8),
    ] {
        assert_eq!(last(line), number, "{line}");
    }
    assert_eq!(reading("1 sort bitvec 8\n2 sort array 1 1").0, 0);
    assert_eq!(reading("1 sort bitvec 9\n2 sort array 1 1").0, 9);
}

#[test]
fn names() {
    let text = b"x\n7 bad foo one two\n7 bad 6 late\n8 sort bitvec 1 n;ote\n9 sort foo 1 x\n10 zero 1 z";
    let named = |id| find_name_of(text, id);
    assert_eq!(named(7), None);
    assert_eq!(named(8), Some(&b"n"[..]));
    assert_eq!(named(9), None);
    assert_eq!(named(10), Some(&b"z"[..]));
    assert_eq!(named(11), None);
}

/// The lines of the request for names used twice, behind six of all classes.
#[test]
fn names_twice() {
    let before = "2 sort bitvec 1\n3 input 2\n4 sort array 2 2\n5 state 4\n6 zero 2\n7 state 2\n";
    for (lines, room, told) in [
        ("8 bad 3 a\n9 bad 3 a\n", 8, (22, 8)),
        ("8 bad 3 a\n9 bad -3 a\n", 8, (22, 8)),
        ("8 bad 3 a\n9 bad -3 b\n", 8, (4, 8)),
        ("8 bad 3 a\n9 bad -3 b\n", 7, (4, 8)),
        ("8 bad 3 a\n9 bad -3 b\n", 9, (0, 9)),
        ("8 bad 3 a\n9 bad 3 a a\n", 8, (6, 8)),
        ("8 bad 3 a\n9 bad 4 a\n", 8, (8, 8)),
        ("8 next 2 7 3 a\n9 next 2 7 3 a\n", 8, (10, 8)),
        ("8 bad 3 a\n9 bad 3 a\n", 7, (4, 8)),
        ("8 bad 3 a;b\n9 bad 3 a\n", 8, (22, 8)),
        ("8 bad 3 ;a\n9 bad 3 a\n", 8, (0, 8)),
        ("8 bad 3 a\n\n9 bad 3 A\n", 8, (0, 8)),
        ("8 bad 3 a\n\n; a\n9 sort bitvec 1 a\n", 8, (22, 10)),
        ("8 bad 3 a\n9 bad 3 b\n10 bad 3\n11 state 2 a\n12 bad 3 a", 20, (22, 10)),
        ("8 bad 3 20\n9 bad 3 020\n10 bad 3 -7\n11 bad 3 7\n", 10, (0, 10)),
    ] {
        let text = format!("{before}{lines}");
        let (mut table, mut answer) = (vec![9; 6 * room], [9; 3]);
        let number = read(text.as_bytes(), &mut table, &mut answer);
        assert_eq!((number, answer), (told.0, [told.1, 0, 0]), "{lines}");
        assert!(number == 0 || table.iter().all(|&word| word == 0));
        // Names are told all the same.
        assert_eq!(find_name_of(text.as_bytes(), 9).is_some(), !lines.contains("a a"), "{lines}");
    }
}

fn find_name_of(text: &[u8], id: u64) -> Option<&[u8]> {
    texts::find_name(text, id).map(|(start, length)| &text[start..start + length])
}

#[test]
fn constraints_bar_bads() {
    let (t, n) = table("1 sort bitvec 1\n2 input 1\n3 input 1\n4 bad 2\n5 constraint 3\n6 bad 3\n");
    let (mut signals, mut work, mut answer) = ([0; 9], [0; 2], [0; 3]);
    assert_eq!(run_circuit(&t, n, 3, &[], &[1, 0, 1, 1, 1, 1], &mut signals, &mut work, &mut answer), 0);
    assert_eq!((signals, answer), ([1, 0, 0, 1, 1, 1, 1, 1, 1], [0; 3]));
    assert_eq!(run_circuit(&t, n, 3, &[], &[0, 1, 1, 1, 1, 1], &mut signals, &mut work, &mut answer), 0);
    assert_eq!((signals, answer), ([0, 1, 1, 1, 1, 1, 1, 1, 1], [1, 0, 2]));
    assert_eq!(run_circuit(&t, n, 4097, &[], &[], &mut signals, &mut work, &mut answer), 13);
    assert_eq!(run_circuit(&t, n, 0, &[], &[], &mut [], &mut work, &mut answer), 0);
}

#[test]
fn next_values_together() {
    // Two states that swap, an init below its state, and a free state, which takes the words 2 and 3 at the steps 1 and 2.
    let text = "1 sort bitvec 1\n2 one 1\n3 state 1\n4 state 1\n5 init 1 3 2\n6 next 1 3 4\n7 next 1 4 3\n8 bad 3\n9 bad 4\n10 state 1\n11 bad 10\n";
    let (t, n) = table(text);
    let (mut signals, mut work, mut answer) = ([0; 9], [0; 7], [0; 3]);
    assert_eq!(run_circuit(&t, n, 3, &[0, 0, 5], &[0, 2, 3], &mut signals, &mut work, &mut answer), 0);
    assert_eq!((signals, answer), ([1, 0, 1, 0, 1, 0, 1, 0, 1], [1, 0, 1]));
    assert_eq!(peek(&t, n, 3, 0, &[0, 2, 5], &[0], &mut answer), 0);
    assert_eq!(answer, [1, 0, 0]);
    assert_eq!(peek(&t, n, 3, 1, &[0, 2, 5], &[0], &mut answer), 18);
    assert_eq!(peek(&t, n, 5, 0, &[0, 2, 5], &[0], &mut answer), 18);
    assert_eq!(peek(&t, n, 0, 0, &[0, 2, 5], &[0], &mut answer), 18);
}

/// The example with gaps in its ids; line 8 has a name.
const GAPS: &str = include_str!("../../examples/gaps.btor2");

#[test]
fn gaps() {
    let (gapped, count) = table(GAPS);
    let (plain, _) = table(EXAMPLE);
    let written = [5, 9, 10, 40, 41, 50, 70, 71, 90, 100, 4_294_967_295];
    assert_eq!((count, ids(&gapped, count)), (11, written.to_vec()));
    assert_eq!(ids(&plain, count), (1..=11).collect::<Vec<u64>>());
    assert_eq!(records(&gapped, count, false), records(&plain, count, false));
    assert_eq!(layout::gather(&gapped, count, 6)[36..42], [55, 3, 4, 5, 6, 70]);
    let mut answer = [9; 3];
    let mut text = vec![9; 146];
    assert_eq!((write(&gapped, count, &mut text, &mut answer), answer), (0, [146, 0, 0]));
    assert_eq!(String::from_utf8(text).unwrap(), EXAMPLE);
    let mut flat = vec![9; 120];
    assert_eq!((flatten(&gapped, count, &mut flat, &mut answer), answer), (0, [19, 0, 0]));
    assert_eq!(ids(&flat, 19), (1..=19).collect::<Vec<u64>>());
    assert!(flat.chunks(20).all(|column| column[19] == 0));
    assert_eq!((translate(&flat, 19, &mut [9; 85], &mut answer), answer), (0, [17, 0, 0]));
    assert_eq!(translate(&flat, 19, &mut [9; 84], &mut answer), 1);
    let named = |id| find_name_of(GAPS.as_bytes(), id);
    assert_eq!((named(71), named(8)), (Some(&b"store"[..]), None));
    assert_eq!((peek(&gapped, count, 9, 0, &[2, 6], &[1], &mut answer), answer), (0, [6, 0, 0]));
    assert_eq!(peek(&gapped, count, 90, 0, &[2, 6], &[1], &mut answer), 18);
}

/// Every id and every operand behind a sort with the id 5 and an input with the id 7.
#[test]
fn ids_and_operands_at_the_edges() {
    for (line, number) in [
        ("8 input 5", 0),
        ("4294967295 input 5", 0),
        ("4294967296 input 5", 3),
        ("18446744073709551615 input 5", 3),
        ("18446744073709551616 input 5", 3),
        ("7 input 5", 3),
        ("6 input 5", 3),
        ("0 input 5", 3),
        ("08 input 5", 3),
        ("+8 input 5", 3),
        ("-8 input 5", 3),
        ("8\r input 5", 3),
        ("9 bad 7", 0),
        // A hole, 0, the line itself, later lines.
        ("9 bad 6", 8),
        ("9 bad 8", 8),
        ("9 bad 1", 8),
        ("9 bad 2", 8),
        ("9 bad 0", 8),
        ("9 bad 9", 8),
        ("9 bad 10", 8),
        ("9 bad 4294967303", 8),
        ("9 bad 18446744073709551615", 8),
        ("9 bad 18446744073709551616", 7),
        ("9 input 1", 8),
        ("9 input 6", 8),
        // Plain numbers are no operand tokens.
        ("9 slice 5 7 0 0", 0),
        ("9 uext 5 7 0", 0),
        ("9 constd 5 1", 0),
        ("9 sort bitvec 6", 0),
    ] {
        let text = format!("5 sort bitvec 1\n7 input 5\n\n; 8 a comment\n{line}\n");
        let (told, at, _) = reading(&text);
        assert_eq!((told, at), (number, if number == 0 { 3 } else { 5 }), "{line}");
    }
    // A wrong id in a line without a record left is 3; a right one 4.
    let mut answer = [9; 3];
    for (text, words, number, line) in [
        ("5 sort bitvec 1\n6 input 5\n", 10, 1, 0),
        ("5 sort bitvec 1\n6 input 5\n", 6, 4, 2),
        ("5 sort bitvec 1\n5 input 5\n", 6, 3, 2),
        ("5 sort bitvec 1\n6 input 5\n", 12, 0, 2),
        ("6 sort bitvec 1\n", 0, 4, 1),
        ("0 sort bitvec 1\n", 0, 3, 1),
    ] {
        assert_eq!(read(text.as_bytes(), &mut vec![9; words], &mut answer), number, "{text}");
        assert_eq!(answer, [line, 0, 0], "{text}");
    }
}

/// A table's ids: 11 where those of the counted records break the rule, in every operation on circuits; programs have none.
#[test]
fn ids_of_tables() {
    for (first, second, number) in
        [(5, 6, 0), (1, MOST_ID, 0), (5, 5, 11), (5, 4, 11), (0, 1, 11), (5, 0, 11), (5, MOST_ID + 1, 11)]
    {
        let table = [1, 4, 0, 1, 1, 0, 0, 0, 0, 0, first, second];
        let mut answer = [9; 3];
        assert_eq!(write(&table, 2, &mut [9; 60], &mut answer), number);
        assert_eq!(flatten(&table, 2, &mut [9; 60], &mut answer), number);
        assert_eq!(translate(&table, 2, &mut [9; 60], &mut answer), number);
        assert_eq!(run_circuit(&table, 2, 1, &[], &[1], &mut [], &mut [9; 4], &mut answer), number);
        assert_eq!(peek(&table, 2, 2, 0, &[], &[1], &mut answer), number);
        // Records past the count are not looked at.
        let number = if first == 0 { 11 } else { 0 };
        assert_eq!(write(&table, 1, &mut [9; 60], &mut answer), number);
    }
    // Thirty words are five records of a circuit and six of a program.
    let (circuit, program) = (numbered(&[[1, 0, 1, 0, 0]; 5]), program_list(&[[3, 1, 0, 0, 0]; 6]));
    assert_eq!((circuit.len(), program.len()), (30, 30));
    let mut answer = [9; 3];
    let mut run = |list: &[u64], count| {
        let circuit = run_circuit(list, count, 1, &[], &[], &mut [], &mut [9; 8], &mut answer);
        (circuit, run_program(list, count, 1, &[], &[], &mut [], &mut [9; 8], &mut answer))
    };
    assert_eq!((run(&circuit, 5), run(&circuit, 6)), ((0, 20), (11, 20)));
    assert_eq!((run(&program, 5), run(&program, 6), run(&program, 7)), ((11, 0), (11, 0), (11, 20)));
    let (circuit, program) = (numbered(&[[1, 0, 1, 0, 0]; 4]), program_list(&[[3, 1, 0, 0, 0]; 5]));
    assert_eq!((run(&program, 5), run(&circuit, 4)), ((1, 0), (0, 1)));
}

/// Two tables that differ in their ids alone give the same; a written text gives the first five words back.
#[test]
fn ids_make_no_difference() {
    let mut random = generator::Random::new(2);
    for _ in 0..500 {
        let size = generator::size(&mut random);
        let mut lines = generator::circuit(&mut random, size);
        let n = lines.records.len();
        let mut results = Vec::new();
        for _ in 0..2 {
            let (words, mut answer) = (lines.words(), [9; 3]);
            let (mut text, mut flat, mut program) = (vec![9; 40 * n + 1], vec![9; 6 * 20_000], vec![9; 5 * 20_000]);
            assert_eq!(write(&words, n, &mut text, &mut answer), 0);
            text.truncate(answer[0] as usize);
            let flat_number = flatten(&words, n, &mut flat, &mut answer);
            let program_number = translate(&words, n, &mut program, &mut answer);
            results.push((text, flat_number, flat, program_number, program));
            lines.ids = generator::rising_ids(&mut random, n);
        }
        assert!(results[0] == results[1]);
        let (mut back, mut answer) = (vec![9; 6 * n], [9; 3]);
        assert_eq!(read(&results[0].0, &mut back, &mut answer), 0);
        assert!(answer[0] == n as u64 && back == numbered(&lines.records));
        // A text with the ids gives them back too.
        let text = generator::text(&mut random, &lines);
        assert_eq!(read(&text, &mut back, &mut answer), 0);
        assert!(answer[0] == n as u64 && back == lines.words());
    }
}

/// The generator makes gaps of all sizes, and texts and tables that break the rule for ids.
#[test]
fn generator_reaches_gaps() {
    let mut random = generator::Random::new(3);
    let (mut gaps, mut late, mut last, mut wide) = (0, 0, 0, 0);
    let mut read_answers = std::collections::BTreeMap::new();
    let mut ids_alone = 0;
    for _ in 0..2000 {
        let size = generator::size(&mut random);
        let lines = generator::circuit(&mut random, size);
        gaps += usize::from(lines.ids.iter().zip(1..).any(|(&id, place)| id != place));
        late += usize::from(lines.ids.first().is_some_and(|&id| id > 1));
        last += usize::from(lines.ids.last() == Some(&MOST_ID));
        wide += usize::from(lines.ids.windows(2).any(|pair| pair[1] - pair[0] > 1 << 20));
        let text = generator::damaged_text(&mut random, &lines);
        let number = read(&text, &mut vec![9; 6 * 400], &mut [9; 3]);
        *read_answers.entry(number).or_insert(0) += 1;
        let mut rows = lines.rows();
        generator::damage_records(&mut random, &mut rows, false);
        let (words, n) = (columns(&rows, false), rows.len() / 6);
        let renumbered = numbered(&records(&words, n, false));
        let accepted = |words: &[u64]| rules::check_table(words, n).is_some();
        ids_alone += usize::from(accepted(&renumbered) && !accepted(&words));
    }
    assert!((800..1100).contains(&gaps), "{gaps}");
    for n in [late, last, wide, ids_alone] {
        assert!(n > 50, "{late} {last} {wide} {ids_alone}");
    }
    assert!([3, 5, 6, 7, 8, 9, 10].iter().all(|n| read_answers.get(n) > Some(&10)), "{read_answers:?}");
}

/// The generator makes lines of every kind, and the cases that are easy to get wrong.
#[test]
fn generator_reaches() {
    let mut random = generator::Random::new(1);
    let (mut kinds, mut program_kinds) = ([0; 64], [0; 64]);
    let (mut other_sort, mut array_init, mut constant_read, mut loose_ite, mut counted) = (0, 0, 0, 0, 0);
    for _ in 0..1000 {
        let size = generator::size(&mut random);
        let lines = generator::circuit(&mut random, size);
        for r in &lines.records {
            kinds[r[0] as usize] += 1;
            let record = |n: u64| &lines.records[n as usize - 1];
            other_sort += usize::from(r[0] == 55 && record(r[2])[1] != r[1]);
            array_init += usize::from(r[0] == 6 && lines.sort(r[1]).cells() > 1);
            constant_read += usize::from(r[0] == 54 && record(r[3])[0] == 3);
            loose_ite += usize::from(r[0] == 53 && record(r[2])[0] == 4);
        }
        let k = 4;
        let (starts, inputs) = (random.words(lines.state_cells()), random.words(k * lines.row_words()));
        let signals = lines.run(k, &starts, &inputs);
        counted += usize::from(lines.first_bad(k, &signals).is_some());
        let flat = flattening::flat_records(&lines, MOST_RECORDS).unwrap();
        let flat = rules::check_table(&numbered(&flat), flat.len()).expect("a flat circuit is accepted");
        generator::wild_program(&mut random, &flat).iter().for_each(|r| program_kinds[r[0] as usize] += 1);
    }
    let reached = |counts: &[i32; 64], of: fn(u64) -> bool| (1..=63).all(|k| counts[k as usize] > 20 || !of(k));
    assert!(reached(&kinds, kinds::in_circuits), "{kinds:?}");
    assert!(reached(&program_kinds, kinds::in_programs), "{program_kinds:?}");
    for n in [other_sort, array_init, constant_read, loose_ite, counted] {
        assert!(n > 50, "{other_sort} {array_init} {constant_read} {loose_ite} {counted}");
    }
}

/// Cones by hand, and the init rule.
#[test]
fn cones() {
    let text =
        "1 sort bitvec 4\n2 input 1\n3 constd 1 5\n4 add 1 3 3\n5 add 1 2 3\n6 state 1\n7 init 1 6 4\n8 state 1\n";
    let (told, at, found) = reading(text);
    assert_eq!((told, at), (0, 8));
    assert_eq!(reading(&format!("{text}9 init 1 8 5\n")), (10, 9, vec![]));
    assert_eq!(reading("1 sort bitvec 4\n2 zero 1\n3 state 1\n4 not 1 2\n5 init 1 3 4\n"), (10, 5, vec![]));
    let lines = rules::check_table(&numbered(&found), 8).unwrap();
    let cone = |line| {
        let mut cone = lines.cone(line);
        cone.sort_unstable();
        cone
    };
    assert_eq!((cone(3), cone(4), cone(5)), (vec![3], vec![3, 4], vec![2, 3, 5]));
    assert_eq!([2, 3, 4, 5, 6, 8].map(|line| lines.has_fixed_cone(line)), [false, true, true, false, false, false]);
    // Each line uses the line before three times; a plain number that is the place of an input is no operand.
    let mut lines = rules::Lines::default();
    [[1, 0, 1, 0, 0], [4, 1, 0, 0, 0], [3, 1, 1, 0, 0]].iter().for_each(|&r| lines.add(r));
    (3..16_000).for_each(|n| lines.add([53, 1, n, n, n]));
    lines.add([1, 0, 3, 0, 0]);
    lines.add([20, 16_001, 16_000, 2, 0]);
    assert_eq!((lines.cone(16_002).len(), lines.has_fixed_cone(16_002)), (15_999, true));
}

/// The generator makes register files that keep the init rule and such that break it in each way: inputs and states far
/// below a value, by way of each operand.
#[test]
fn generator_reaches_register_files() {
    let mut random = generator::Random::new(7);
    let (mut kept, mut broken, mut inits, mut most, mut array_inits) = (0, 0, 0, 0, 0);
    let (mut second, mut behind, mut deep) = (0, 0, [0; 9]);
    // By way of one operand alone, by its place and the kind of the line above; and what is found there.
    let (mut places, mut kinds, mut sources) = ([0; 3], [0; 64], [0; 6]);
    for case in 0..3000 {
        let lines = generator::register_file(&mut random, case % 3 > 0);
        let held: Vec<&Record> = lines.records.iter().filter(|r| r[0] == 6).collect();
        (inits, most) = (inits + held.len(), most.max(held.len()));
        array_inits += held.iter().filter(|r| lines.sort(r[1]).cells() > 1).count();
        match rules::check_table(&lines.words(), lines.records.len()) {
            Some(_) => kept += 1,
            None => broken += 1,
        }
        for (i, r) in held.iter().enumerate() {
            second += usize::from(held[..i].iter().any(|other| other[2] == r[2]));
            behind += usize::from(r[3] > r[2]);
            // The way to an input or a state, as long as one operand alone leads there.
            let (mut line, mut length) = (r[3], 0);
            while !lines.has_fixed_cone(line) {
                let record = lines.records[line as usize - 1];
                let operands: Vec<u64> = lines.operands(line).collect();
                let lead: Vec<usize> = (0..operands.len()).filter(|&j| !lines.has_fixed_cone(operands[j])).collect();
                if lead.len() != 1 {
                    sources[record[0].min(5) as usize] += usize::from(lead.is_empty());
                    deep[length.min(8)] += 1;
                    break;
                }
                places[lead[0]] += 1;
                kinds[record[0] as usize] += 1;
                (line, length) = (operands[lead[0]], length + 1);
            }
        }
    }
    println!("register files: {kept} keep the rules, {broken} break rule 10; {inits} inits, at most {most} in a file, {array_inits} of arrays");
    println!("second inits {second}, values behind their states {behind}, lengths of ways {deep:?}, operands {places:?}, inputs and states {:?}", &sources[4..]);
    assert!(kept > 1000 && broken > 1000, "{kept} {broken}");
    assert!(inits > 60_000 && most > 150 && array_inits > 5000, "{inits} {most} {array_inits}");
    for n in [second, behind].iter().chain(&deep).chain(&places).chain(&sources[4..]) {
        assert!(*n > 30, "{second} {behind} {deep:?} {places:?} {sources:?}");
    }
    assert!(kinds[11..55].iter().chain(&kinds[57..]).all(|&n| n > 20) && kinds[55] > 3, "{kinds:?}");
}

type Conversion = fn(&[u64], usize, &mut [u64], &mut [u64]) -> u64;

/// The number, the answer's first word, and the target of a conversion.
fn converted(conversion: Conversion, list: &[u64], count: usize, length: usize) -> (u64, u64, Vec<u64>) {
    let (mut target, mut answer) = (vec![9; length], [9; 3]);
    let number = conversion(list, count, &mut target, &mut answer);
    assert_eq!(answer[1..], [0, 0]);
    (number, answer[0], target)
}

#[test]
fn columns_of_the_example() {
    let (mut table, mut answer) = (vec![9; 72], [9; 3]);
    assert_eq!((read(GAPS.as_bytes(), &mut table, &mut answer), answer), (0, [11, 0, 0]));
    let columns = [
        [1, 1, 2, 5, 4, 3, 55, 7, 54, 21, 8, 0],
        [0, 0, 0, 3, 1, 2, 3, 3, 2, 1, 0, 0],
        [1, 3, 1, 0, 0, 5, 4, 4, 4, 9, 10, 0],
        [0, 0, 2, 0, 0, 0, 5, 7, 5, 6, 0, 0],
        [0, 0, 0, 0, 0, 0, 6, 0, 0, 0, 0, 0],
        [5, 9, 10, 40, 41, 50, 70, 71, 90, 100, 4_294_967_295, 0],
    ];
    assert_eq!(table, columns.concat());
}

#[test]
fn conversions() {
    let records = [1, 0, 1, 0, 0, 5, 4, 1, 0, 0, 0, 9, 8, 0, 2, 0, 0, 11];
    let wide = vec![1, 4, 0, 0, 0, 1, 0, 0, 1, 0, 0, 0, 0, 0, 0, 0, 0, 0, 0, 0, 5, 9, 0, 0];
    let narrow = vec![1, 4, 0, 1, 1, 0, 0, 0, 0, 0, 5, 9];
    assert_eq!(converted(circuit_to_columns, &records, 2, 24), (0, 2, wide.clone()));
    assert_eq!(converted(circuit_to_columns, &records, 2, 12), (0, 2, narrow));
    assert_eq!(converted(circuit_to_columns, &records, 3, 12), (12, 0, vec![0; 12]));
    assert_eq!(converted(circuit_to_columns, &records, 4, 24), (11, 0, vec![0; 24]));
    assert_eq!(converted(circuit_to_columns, &records, 2, 13), (1, 0, vec![0; 13]));
    assert_eq!(converted(circuit_to_columns, &records, 0, 0), (0, 0, vec![]));
    assert_eq!(converted(circuit_to_columns, &[], 0, 6), (0, 0, vec![0; 6]));
    assert_eq!(converted(circuit_to_records, &wide, 2, 12), (0, 2, records[..12].to_vec()));
    assert_eq!(converted(circuit_to_records, &wide, 1, 12), (0, 1, vec![1, 0, 1, 0, 0, 5, 0, 0, 0, 0, 0, 0]));
    assert_eq!(converted(circuit_to_records, &wide, 4, 18), (12, 0, vec![0; 18]));
    assert_eq!(converted(circuit_to_records, &wide, 5, 18), (11, 0, vec![0; 18]));
    assert_eq!(converted(circuit_to_records, &wide[..23], 5, 18), (1, 0, vec![0; 18]));
    let program = [4, 3, 0, 0, 0, 56, 3, 1, 0, 0];
    let laid_out = vec![4, 56, 3, 3, 0, 1, 0, 0, 0, 0];
    assert_eq!(converted(program_to_columns, &program, 2, 10), (0, 2, laid_out.clone()));
    assert_eq!(converted(program_to_columns, &program, 3, 10), (20, 0, vec![0; 10]));
    assert_eq!(converted(program_to_columns, &program, 2, 5), (12, 0, vec![0; 5]));
    assert_eq!(converted(program_to_columns, &program, 2, 12), (1, 0, vec![0; 12]));
    assert_eq!(converted(program_to_records, &laid_out, 2, 10), (0, 2, program.to_vec()));
    // 16,400 places, of which 16,384 count; the ids start at 82,000.
    let mut long = vec![0; 98_400];
    (long[0], long[2 * 16_400], long[82_000]) = (1, 7, 3);
    assert_eq!(converted(circuit_to_records, &long, 16_384, 98_304).1, 16_384);
    assert_eq!(converted(circuit_to_records, &long, 16_385, 98_400).0, 11);
    assert_eq!(converted(circuit_to_records, &long, 1, 6), (0, 1, vec![1, 0, 7, 0, 0, 3]));
    // Another length of the answer.
    assert_eq!(circuit_to_columns(&records, 2, &mut [9; 24], &mut [9; 2]), 1);
}

/// There and back: the counted records and zeros, for any words and any lengths.
#[test]
fn converted_there_and_back() {
    let mut random = generator::Random::new(4);
    for case in 0..2000 {
        let program = case % 2 == 1;
        let [there, back]: [Conversion; 2] =
            if program { [program_to_columns, program_to_records] } else { [circuit_to_columns, circuit_to_records] };
        let (size, n) = (size(program), random.below(30));
        let (length, room, other) = (n + random.below(9), n + random.below(9), n + random.below(9));
        let list = random.words(size * length);
        let (number, count, columns) = converted(there, &list, n, size * room);
        assert_eq!((number, count), (0, n as u64));
        assert!(columns.chunks(room.max(1)).all(|column| column[n..].iter().all(|&word| word == 0)));
        let (_, _, rows) = converted(back, &columns, n, size * other);
        assert!(rows[..size * n] == list[..size * n] && rows[size * n..].iter().all(|&word| word == 0));
        // The other way round: words of a list in columns, to records and to columns of the same length.
        let (_, _, rows) = converted(back, &list, n, size * room);
        let (_, _, again) = converted(there, &rows, n, list.len());
        assert!((0..list.len()).all(|at| again[at] == if at % length < n { list[at] } else { 0 }));
    }
}

/// A circuit that goes through its records to lists of other lengths stays what it is.
#[test]
fn converted_circuits() {
    let mut random = generator::Random::new(5);
    for _ in 0..300 {
        let size = generator::size(&mut random);
        let lines = generator::circuit(&mut random, size);
        let (table, n) = (generator::roomy(&mut random, &lines), lines.records.len());
        let (_, _, rows) = converted(circuit_to_records, &table, n, 6 * n);
        assert!(rows == lines.rows());
        let (_, _, longer) = converted(circuit_to_columns, &rows, n, 6 * (n + 1 + random.below(40)));
        let of = |table: &[u64]| {
            let (mut text, mut flat, mut answer) = (vec![9; 40 * n + 1], vec![9; 6 * 16_384], [9; 3]);
            let numbers = [write(table, n, &mut text, &mut answer), flatten(table, n, &mut flat, &mut answer)];
            (numbers, text, flat)
        };
        let ours = of(&longer);
        assert!(ours.0[0] == 0 && ours == of(&table) && ours == of(&lines.words()));
        assert!(ours.1.starts_with(&texts::print(&lines.records)));
    }
}

/// The generator makes lists that are longer than they have to be, and lists whose words stand in wrong places.
#[test]
fn generator_reaches_layouts() {
    let mut random = generator::Random::new(12);
    let (mut longer, mut far, mut wrong, mut right, mut accepted) = (0, 0, 0, 0, 0);
    for _ in 0..6000 {
        let size = generator::size(&mut random);
        let lines = generator::circuit(&mut random, size);
        let n = lines.records.len();
        let roomy = generator::roomy(&mut random, &lines);
        assert!(rules::check_table(&roomy, n).is_some_and(|held| held.rows() == lines.rows()));
        longer += usize::from(roomy.len() > 6 * n);
        let misplaced = generator::misplaced(&mut random, &lines.rows(), false);
        let held = n.min(misplaced.len() / 6);
        match rules::check_table(&misplaced, held) {
            None => wrong += 1,
            Some(_) => right += 1,
        }
        let (list, count) = generator::table_of(&mut random, &lines);
        far += usize::from(list.len() > 6 * MOST_RECORDS);
        let held = list.len() % 6 == 0 && rules::check_table(&list, count).is_some();
        accepted += usize::from(held && count > 1 && list.len() > 6 * count);
    }
    assert!((3000..5250).contains(&longer) && wrong > 3000 && right > 150, "{longer} {wrong} {right}");
    assert!(far > 5 && accepted > 750, "{far} {accepted}");
}
