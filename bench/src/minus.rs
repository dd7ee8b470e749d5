//! Reading texts with minus operands.

use crate::generator::minus::{with_minus, Minus};
use crate::{circuit, ids, profiled, sizes, Lines, Random, Table};

/// Lines `n ite 1 -2 -2 -2`, the most records for a byte; or lines of all kinds in which about every second operand that may
/// have a minus has one.
fn file(mixed: bool, lines: usize, style: &str) -> Minus {
    let mut all = Lines::default();
    if mixed {
        all = circuit(lines, Some(3));
    } else {
        all.add([1, 0, 1, 0, 0]);
        all.add([4, 1, 0, 0, 0]);
        (2..lines).for_each(|_| all.add([53, 1, 2, 2, 2]));
    }
    all.ids = ids(style, all.records.len());
    with_minus(&mut Random::new(lines as u64), all, if mixed { 2 } else { 1 })
}

/// Each file without gaps in its ids and with small ones, at three sizes, of which the last about fills a text.
const FILES: [(&str, bool, &str, [usize; 3]); 4] = [
    ("ites", false, "no gaps", [100, 1000, 3200]),
    ("ites, gaps", false, "small gaps", [100, 1000, 3200]),
    ("mixed", true, "no gaps", [100, 700, 2800]),
    ("mixed, gaps", true, "small gaps", [100, 700, 2800]),
];

#[cfg(feature = "read")]
pub fn rows() {
    let of = |(name, mixed, style, lines): (&'static str, bool, &'static str, [usize; 3])| {
        lines.map(|lines| (name, mixed, style, lines))
    };
    let (all, mut table, mut last) = (FILES.map(of).concat(), Table::new(), "");
    for &(name, mixed, style, lines) in sizes(&all) {
        if name != last {
            (table, last) = (Table::new(), name);
        }
        let minus = file(mixed, lines, style);
        let (text, records) = (minus.plain_text(), minus.written_out().0);
        let n = records.records.len();
        if profiled() {
            println!("records {n}");
        }
        crate::text_row(&mut table, name, &format!("{} bytes, {n} records", text.len()), &text, &records);
    }
}

#[cfg(not(feature = "read"))]
pub fn rows() {}
