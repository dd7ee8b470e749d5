//! Reading texts full of names, all different, beside the same lines without names.

use crate::generator::names::{bad_lines, fitting, SERIES};
use crate::{sizes, Lines, Table};

/// The bytes of a text with names: some, and as many as a text may have.
const BYTES: [usize; 2] = [8_192, gofeshan::MOST_TEXT];

/// The series of a text, the bytes that it may have with its names, and whether it has them: each with them and without.
fn texts() -> Vec<(usize, usize, bool)> {
    let sized = (0..SERIES.len()).flat_map(|series| BYTES.map(|bytes| (series, bytes)));
    sized.flat_map(|(series, bytes)| [(series, bytes, true), (series, bytes, false)]).collect()
}

#[cfg(feature = "read")]
pub fn rows() {
    // Rows with names and rows without have a growth of their own.
    let (mut tables, mut named) = ([Table::new(), Table::new()], [1.0; 2]);
    for &(series, bytes, with) in sizes(&texts()) {
        let (name, series) = SERIES[series];
        if bytes == BYTES[0] {
            tables[usize::from(with)] = Table::new();
        }
        let mut names = fitting(series, bytes);
        let mut lines = Lines::default();
        [[1, 0, 1, 0, 0], [4, 1, 0, 0, 0]].into_iter().for_each(|r| lines.add(r));
        names.iter().for_each(|_| lines.add([8, 0, 2, 0, 0]));
        if !with {
            names.fill(vec![]);
        }
        let (text, n) = (bad_lines(&names), names.len());
        if crate::profiled() {
            println!("lines {n}");
        }
        let size = format!("{} bytes, {n} {}", text.len(), if with { "names" } else { "lines" });
        let label = if with { name } else { "no names" };
        let times = crate::text_row(&mut tables[usize::from(with)], label, &size, &text, &lines);
        if with {
            named = times;
        } else if !crate::profiled() {
            let ratio = |side: usize| named[side] / times[side];
            println!("{:<12} {:<34} {:>10.2} {:>10.2}", "", "with names against without", ratio(0), ratio(1));
        }
    }
}

#[cfg(not(feature = "read"))]
pub fn rows() {}
