//! Minus operands and not records of the id 0, by the independent implementation alone: the request's vectors, and what the
//! generator makes of them.

use super::generator::minus::minus_circuit;
use super::generator::zero_ids::rows_with_zeros;
use super::generator::{self, Random};
use super::*;
use std::collections::BTreeMap;

const CIRCUIT: &str = "2 sort bitvec 1
3 sort bitvec 4
4 sort bitvec 4
10 input 3
11 input 2
12 state 4
20 ite 3 -11 -10 12
21 next 4 12 -20
30 ult 2 -12 -12
31 bad -30
";

const RECORDS: [[u64; 6]; 16] = [
    [1, 0, 1, 0, 0, 2],
    [1, 0, 4, 0, 0, 3],
    [1, 0, 4, 0, 0, 4],
    [4, 2, 0, 0, 0, 10],
    [4, 1, 0, 0, 0, 11],
    [5, 3, 0, 0, 0, 12],
    [11, 1, 5, 0, 0, 0],
    [11, 2, 4, 0, 0, 0],
    [53, 2, 7, 8, 6, 20],
    [11, 2, 9, 0, 0, 0],
    [7, 3, 6, 10, 0, 21],
    [11, 3, 6, 0, 0, 0],
    [11, 3, 6, 0, 0, 0],
    [23, 1, 12, 13, 0, 30],
    [11, 1, 14, 0, 0, 0],
    [8, 0, 15, 0, 0, 31],
];

const FLAT: &str = "1 sort bitvec 1
2 sort bitvec 4
3 sort bitvec 4
4 input 2
5 input 1
6 state 3
7 not 1 5
8 not 2 4
9 ite 2 7 8 6
10 not 2 9
11 next 3 6 10
12 not 3 6
13 not 3 6
14 ult 1 12 13
15 not 1 14
16 bad 15
";

/// The number and the answer's first word of a reading into a table with room for so many records.
fn reading_into(text: &str, room: usize) -> (u64, u64) {
    let (mut table, mut answer) = (vec![7; 6 * room], [7; 3]);
    let number = read(text.as_bytes(), &mut table, &mut answer);
    assert!(number == 0 || table.iter().all(|&word| word == 0));
    (number, answer[0])
}

#[test]
fn complements() {
    let (circuit, count) = table(CIRCUIT);
    assert_eq!((count, layout::gather(&circuit, 16, 6)), (16, RECORDS.concat()));
    // Only the added records lack a place; then the line's own does too.
    let rooms = [(16, (0, 16)), (15, (4, 10)), (14, (4, 10)), (13, (4, 9)), (12, (4, 9)), (11, (4, 9))];
    let fewer = [(10, (4, 8)), (9, (4, 8)), (8, (4, 7)), (7, (4, 7)), (6, (4, 7)), (5, (4, 6))];
    for (room, told) in rooms.into_iter().chain(fewer) {
        assert_eq!(reading_into(CIRCUIT, room), told, "{room}");
    }
    let mut answer = [9; 3];
    let (mut flat, mut text) = (vec![9; 96], vec![9; FLAT.len()]);
    assert_eq!((flatten(&circuit, 16, &mut flat, &mut answer), answer), (0, [16, 0, 0]));
    assert_eq!(ids(&flat, 16), (1..=16).collect::<Vec<u64>>());
    assert_eq!(write(&flat, 16, &mut text, &mut answer), 0);
    assert_eq!(String::from_utf8(text.clone()).unwrap(), FLAT);
    assert_eq!((write(&circuit, 16, &mut text, &mut answer), String::from_utf8(text).unwrap()), (0, FLAT.to_string()));
    // The not records' values, from an input of 5, an input of 1 and a state of 3.
    for (line, value) in [(7, 0), (8, 10), (9, 3), (10, 12), (12, 12), (14, 0), (15, 1)] {
        assert_eq!((peek(&circuit, 16, line, 0, &[3], &[5, 1], &mut answer), answer[0]), (0, value), "{line}");
    }
}

/// A line 8 behind lines of every class.
#[test]
fn where_a_minus_may_stand() {
    let start = "2 sort bitvec 1\n3 input 2\n4 sort array 2 2\n5 state 4\n6 zero 2\n7 state 2\n";
    for (line, number) in [
        ("8 bad -3", 0),
        ("8 bad -0", 8),
        ("8 bad 0", 8),
        ("8 bad -00", 6),
        ("8 bad --3", 6),
        ("8 bad -", 6),
        ("8 bad -03", 6),
        ("8 bad +3", 6),
        ("8 bad -+3", 6),
        ("8 bad 3-", 6),
        ("8 bad - 3", 6),
        ("8 bad -9", 8),
        ("8 bad -8", 8),
        ("8 bad -18446744073709551615", 8),
        ("8 bad -18446744073709551616", 7),
        ("8 bad -018446744073709551616", 6),
        ("8 bad -2", 8),
        ("8 bad -5", 8),
        ("8 bad -3 -3", 0),
        ("8 bad -3 -3 -3", 6),
        ("-8 bad 3", 3),
        ("8 -bad 3", 5),
        ("8 input -2", 8),
        ("8 state -4", 8),
        ("8 zero -2", 8),
        ("8 const -2 0", 8),
        ("8 sort bitvec -1", 6),
        ("8 sort array -2 2", 8),
        ("8 sort array 2 -2", 8),
        ("8 init 2 7 6", 0),
        ("8 init 2 7 -6", 8),
        ("8 init 2 -7 6", 8),
        ("8 init 4 5 -6", 8),
        ("8 next 2 -7 3", 8),
        ("8 next 2 7 -3", 0),
        ("8 next 4 5 -5", 8),
        ("8 eq 2 -5 3", 8),
        ("8 eq 2 5 -3", 9),
        ("8 eq 2 -5 5", 8),
        ("8 read 2 5 -3", 0),
        ("8 read 2 -5 3", 8),
        ("8 write 4 5 -3 -6", 0),
        ("8 write 4 -5 3 6", 8),
        ("8 ite 4 -3 5 5", 0),
        ("8 ite 4 3 5 -5", 8),
        ("8 ite 2 -3 -3 -3", 0),
        ("8 slice 2 -3 0 0", 0),
        ("8 slice 2 3 -0 0", 6),
        ("8 slice 2 3 0 -0", 6),
        ("8 uext 2 -3 0", 0),
        ("8 uext 2 3 -0", 6),
        ("8 constd 2 -1", 6),
        ("8 const 2 -1", 6),
        ("8 consth 2 -1", 6),
        ("8 output -3", 0),
        ("8 constraint -3", 0),
    ] {
        let (told, at) = reading_into(&format!("{start}{line}\n"), 12);
        assert!(told == number && (told == 0 || at == 7), "{line}: {told} {at}");
    }
    // 8 comes before 10: a second init, a second next.
    let twice = format!("{start}8 init 2 7 6\n9 next 2 7 3\n");
    for (line, number) in [("init 2 7 6", 10), ("init 2 7 -6", 8), ("next 2 7 -3", 10), ("next 2 -7 3", 8)] {
        assert_eq!(reading_into(&format!("{twice}10 {line}\n"), 12), (number, 9), "{line}");
        assert_eq!(reading_into(&format!("{twice}10 {line}\n"), 9), (number, 9), "{line}");
    }
    // 4 comes last where a place is lacking for an added record alone.
    for (line, room, number) in [
        ("8 and 2 -3 -3", 6, 4),
        ("8 foo 2 -3 -3", 6, 4),
        ("8 foo 2 -3 -3", 7, 5),
        ("8 and 2 -3 --3", 7, 6),
        ("8 and 2 -3 -5", 7, 8),
        ("8 and 4 -3 -3", 7, 8),
        ("8 concat 2 -3 -3", 7, 9),
        ("8 and 2 -3 -3", 7, 4),
        ("8 and 2 -3 -3", 8, 4),
        ("8 and 2 3 -3", 8, 0),
        ("8 and 2 -3 -3", 9, 0),
    ] {
        assert_eq!(reading_into(&format!("{start}{line}\n"), room).0, number, "{line} in {room}");
    }
}

/// A sort, an input, and records with ids behind them.
#[test]
fn ids_of_0() {
    let not = |id: u64| [11, 1, 2, 0, 0, id];
    let neg = |id: u64| [12, 1, 2, 0, 0, id];
    for (first, second, behind, number) in [
        (5, 6, vec![not(0)], 0),
        (5, 6, vec![not(0), not(0)], 0),
        (5, 6, vec![not(7)], 0),
        (5, 6, vec![not(0), neg(7)], 0),
        (5, 6, vec![not(0), not(7), not(0), neg(MOST_ID), not(0)], 0),
        (5, 6, vec![neg(0)], 11),
        (5, 6, vec![[39, 1, 2, 2, 0, 0]], 11),
        (5, 6, vec![[3, 1, 7, 0, 0, 0]], 11),
        (5, 6, vec![[10, 0, 2, 0, 0, 0]], 11),
        (5, 6, vec![not(0), neg(6)], 11),
        (5, 6, vec![not(0), neg(5)], 11),
        (5, 6, vec![not(0), not(6)], 11),
        (5, 6, vec![not(0), not(0), neg(MOST_ID + 1)], 11),
        (5, 6, vec![neg(7), not(0), neg(7)], 11),
        (0, 6, vec![not(0)], 11),
        (5, 0, vec![not(0)], 11),
    ] {
        let rows = [vec![1, 0, 3, 0, 0, first, 4, 1, 0, 0, 0, second], behind.concat()].concat();
        let (table, n) = (columns(&rows, false), rows.len() / 6);
        let mut answer = [9; 3];
        assert_eq!(write(&table, n, &mut [9; 99], &mut answer), number, "{rows:?}");
        assert_eq!(flatten(&table, n, &mut [9; 60], &mut answer), number);
        assert_eq!(translate(&table, n, &mut [9; 60], &mut answer), number);
        assert_eq!(run_circuit(&table, n, 1, &[], &[1], &mut [], &mut [9; 9], &mut answer), number);
        assert_eq!(peek(&table, n, 3, 0, &[], &[1], &mut answer), number);
        // A program has no ids.
        if number == 0 {
            let program: Vec<Record> =
                records(&table, n, false)[1..].iter().map(|r| [r[0], 3, r[2] / 2, 0, 0]).collect();
            let list = program_list(&program);
            assert_eq!(run_program(&list, n - 1, 1, &[], &[1], &mut [], &mut [9; 9], &mut answer), 0);
        }
    }
    // A not record first has no operand.
    assert_eq!(write(&columns(&[not(0)].concat(), false), 1, &mut [9; 99], &mut [9; 3]), 11);
}

/// A text with minus operands gives the records of the circuit with its complements written out.
#[test]
fn written_out() {
    let mut random = Random::new(8);
    for _ in 0..500 {
        let size = generator::size(&mut random);
        let minus = minus_circuit(&mut random, size);
        let (lines, _) = minus.written_out();
        let n = lines.records.len();
        let (mut table, mut answer) = (vec![9; 6 * n], [9; 3]);
        assert_eq!(read(&minus.text(&mut random), &mut table, &mut answer), 0);
        assert!(answer[0] == n as u64 && table == lines.words());
        assert_eq!(read(&minus.plain_text(), &mut table, &mut answer), 0);
        assert!(table == lines.words());
    }
}

/// The generator makes texts with minus operands of every kind of line, in every place, and such that are refused for each
/// reason; a 4 that comes last; tables that keep the rule for ids and that break it.
#[test]
fn generator_reaches_minus_operands() {
    let mut random = Random::new(9);
    let (mut signs, mut kinds, mut equal, mut other_sort, mut index) = ([0; 5], [0; 64], 0, 0, 0);
    let (mut answers, mut late, mut zeros, mut kept, mut broken) = (BTreeMap::new(), 0, 0, 0, 0);
    for _ in 0..3000 {
        let size = generator::size(&mut random);
        let minus = minus_circuit(&mut random, size);
        for (r, of) in minus.lines.records.iter().zip(&minus.signs) {
            (0..5).for_each(|at| signs[at] += usize::from(of[at]));
            kinds[r[0] as usize] += usize::from(of.contains(&true));
            equal += usize::from(of[2] && of[3] && r[2] == r[3]);
            other_sort += usize::from(of[2] && minus.lines.records[r[2] as usize - 1][1] != r[1]);
            index += usize::from(matches!(r[0], 54 | 55) && of[3] && minus.lines.records[r[3] as usize - 1][0] == 3);
        }
        let (text, room) = minus.any_text(&mut random);
        let mut answer = [9; 3];
        let number = read(&text, &mut vec![9; 6 * room], &mut answer);
        *answers.entry(number).or_insert(0) += 1;
        if number == 4 {
            // Whether the line's own record had a place.
            let lines: Vec<&[u8]> = text.split(|&byte| byte == b'\n').collect();
            let before = lines[..answer[0] as usize - 1].join(&b'\n');
            assert_eq!(read(&before, &mut vec![9; 6 * room], &mut answer), 0);
            late += usize::from(answer[0] < room as u64);
        }
        let rows = rows_with_zeros(&mut random, &minus.written_out().0);
        let table = columns(&rows, false);
        zeros += ids(&table, rows.len() / 6).iter().filter(|&&id| id == 0).count();
        match rules::check_table(&table, rows.len() / 6) {
            Some(_) => kept += 1,
            None => broken += 1,
        }
    }
    println!("minus operands by place {:?}, twice one {equal}, of another sort line {other_sort}, of a constant index {index}", &signs[2..]);
    println!("answers {answers:?}, {late} times 4 came last; tables: {kept} keep the rules, {broken} break them, {zeros} ids of 0");
    assert!(signs[..2] == [0, 0] && signs[2..].iter().all(|&n| n > 1000), "{signs:?}");
    let signed = kinds[7..56].iter().chain(&kinds[57..]);
    assert!(signed.into_iter().all(|&n| n > 20) && kinds[..7].iter().all(|&n| n == 0), "{kinds:?}");
    for n in [equal, other_sort, index, late, zeros] {
        assert!(n > 50, "{equal} {other_sort} {index} {late} {zeros}");
    }
    assert!([0, 3, 4, 5, 6, 7, 8, 9, 10].iter().all(|n| answers.get(n) > Some(&10)), "{answers:?}");
    assert!(kept > 1000 && broken > 600, "{kept} {broken}");
}
