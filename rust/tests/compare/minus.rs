//! Minus operands, and not records of the id 0: the proved tool against the independent implementation, and against the
//! same circuits with the complements written out.

use super::generator::minus::minus_circuit;
use super::generator::minus_edges::Edge;
use super::generator::zero_ids::*;
use super::*;

#[cfg(feature = "read")]
fn read_case(random: &mut Random) -> u64 {
    let size = size(random);
    let (text, room) = minus_circuit(random, size).any_text(random);
    let length = if random.one_in(12) { table_length(random, room, false) } else { RECORD * room };
    both_read(random, &text, length, 3)
}

#[cfg(feature = "read")]
#[test]
fn reading_minus_operands() {
    many_cases("read minus operands", 12_000, &[0, 4, 6, 8], 8, read_case);
}

/// A line of every kind behind lines of every class, with a minus before any of its tokens, in tables with room for all its
/// records and for fewer.
#[cfg(feature = "read")]
#[test]
fn reading_minus_operands_at_the_edges() {
    on_stack(|| {
        let (mut random, mut answers) = (Random::new(12), BTreeMap::new());
        for kind in (1..=63).filter(|&kind| independent::kinds::in_circuits(kind)) {
            let edge = Edge::new(&mut random);
            let n = edge.count();
            for r in edge.records(&mut random, kind) {
                let (signed, strange) = edge.texts(&r);
                let rooms = |text| (n..=n + 4).map(move |room| (text, room));
                let cases = signed.iter().flat_map(rooms).chain(strange.iter().map(|text| (text, n + 4)));
                for (text, room) in cases {
                    *answers.entry(both_read(&mut random, text, RECORD * room, 3)).or_insert(0) += 1;
                }
            }
        }
        println!("reading minus operands at the edges: answers {answers:?}");
        assert!([0, 3, 4, 5, 6, 7, 8, 9, 10].iter().all(|number| answers.get(number) > Some(&30)), "{answers:?}");
    });
}

/// A text with minus operands and the text of the same circuit with a not line for each of them give the same records, but
/// for their ids.
#[cfg(feature = "read")]
#[test]
fn minus_operands_written_out() {
    cases("minus operands written out", 3_000, &[0], |random| {
        let size = size(random);
        let minus = minus_circuit(random, size);
        let (mut known, _) = minus.written_out();
        let n = known.records.len();
        known.ids = rising_ids(random, n);
        for text in [minus.text(random), text(random, &known)] {
            let mut table = random.words(RECORD * n);
            assert_eq!(gofeshan::read(&text, &mut table), Ok(n), "{}", String::from_utf8_lossy(&text));
            let read = independent::records(&table, n, false);
            assert!(read == known.records, "{}{}", String::from_utf8_lossy(&text), show(&table, n, false));
        }
        0
    });
}

/// What is read goes through all operations.
#[cfg(all(
    feature = "read",
    feature = "write",
    feature = "flatten",
    feature = "translate",
    feature = "run_circuit",
    feature = "run_program",
    feature = "peek",
    feature = "name"
))]
fn accepted_case(random: &mut Random) -> u64 {
    let size = Size { lines: if random.one_in(2) { random.below(30) } else { size(random).lines }, ..size(random) };
    let minus = minus_circuit(random, size);
    let (text, (lines, _)) = (minus.text(random), minus.written_out());
    let n = lines.records.len();
    let room = n + random.below(4);
    assert_eq!(both_read(random, &text, RECORD * room, 3), 0);
    let mut table = random.words(RECORD * room);
    assert_eq!(gofeshan::read(&text, &mut table), Ok(n));
    assert!(independent::layout::gather(&table, n, RECORD) == lines.rows());
    // Written and read back, with the ids 1, 2, 3.
    let printed = independent::texts::print(&lines.records);
    assert_eq!(both_write(random, &table, n, printed.len(), 3), 0);
    let mut back = random.words(RECORD * n);
    assert_eq!(gofeshan::read(&printed, &mut back), Ok(n));
    assert!(back == numbered(&lines.records));
    let named = if n == 0 { 0 } else { random.pick(&minus.lines.ids) };
    both_name(random, &text, named, 3);
    // One value, that of a not record most often.
    let nots: Vec<usize> = (1..=n).filter(|&line| lines.ids[line - 1] == 0).collect();
    let line = if nots.is_empty() || random.one_in(4) { random.below(n + 2) } else { random.pick(&nots) };
    let (starts, row) = (random.words(lines.state_cells()), random.words(lines.row_words()));
    both_peek(random, (&table, n), (line, 0), (&starts, &row), 3);
    assert_eq!(both_take(random, &lines, &table, n), 0);
    alike(random, &lines)
}

#[cfg(all(
    feature = "read",
    feature = "write",
    feature = "flatten",
    feature = "translate",
    feature = "run_circuit",
    feature = "run_program",
    feature = "peek",
    feature = "name"
))]
#[test]
fn minus_operands_in_all_operations() {
    many_cases("minus operands in all operations", 3_000, &[0, 100], 10, accepted_case);
}

#[cfg(all(feature = "write", feature = "flatten", feature = "translate", feature = "run_circuit", feature = "peek"))]
fn table_case(random: &mut Random) -> u64 {
    let size = Size { lines: random.below(60), ..size(random) };
    let minus = minus_circuit(random, size);
    let lines = if random.one_in(3) { minus.lines } else { minus.written_out().0 };
    let mut rows = rows_with_zeros(random, &lines);
    let n = rows.len() / RECORD;
    let more = if random.one_in(2) { 0 } else { random.below(20) };
    rows.extend(random.words(RECORD * more));
    let table = independent::columns(&rows, false);
    let lines = independent::rules::check_table(&table, n).unwrap_or(lines);
    if random.one_in(4) {
        let (line, starts, row) =
            (1 + random.below(n), random.words(lines.state_cells()), random.words(lines.row_words()));
        return match both_peek(random, (&table, n), (line, 0), (&starts, &row), 3) {
            11 => 11,
            _ => 0,
        };
    }
    both_take(random, &lines, &table, n)
}

/// An answer other than 11 counts as 0.
#[cfg(all(feature = "write", feature = "flatten", feature = "translate", feature = "run_circuit", feature = "peek"))]
#[test]
fn tables_with_ids_of_0() {
    many_cases("tables with ids of 0", 10_000, &[0, 11], 25, table_case);
}

/// Two tables that differ in their ids, those of not records being 0 or not, give the same.
#[cfg(all(feature = "write", feature = "flatten", feature = "translate", feature = "run_circuit", feature = "peek"))]
#[test]
fn ids_of_0_make_no_difference() {
    cases("ids of 0", 600, &[0, 19], |random| {
        let size = size(random);
        let (mut lines, _) = minus_circuit(random, size).written_out();
        let ours = all_results(random, &lines);
        lines.ids = random_ids(random, &lines);
        let theirs = all_results(random, &lines);
        assert!(ours == theirs, "{}", show(&lines.words(), 400, false));
        ours[1].0[0]
    });
}

/// Ids of which none is 0, or some of those of not records are.
fn random_ids(random: &mut Random, lines: &Lines) -> Vec<u64> {
    if random.one_in(2) {
        rising_ids(random, lines.records.len())
    } else {
        ids_with_zeros(random, &lines.records)
    }
}
