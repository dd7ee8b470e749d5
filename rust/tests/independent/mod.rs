//! An independent implementation of the request, to compare the proved tool with.
//!
//! It is written from the request's sentences and not from the project's
//! definitions: plain Rust, vectors, and 128-bit integers for arithmetic.
//! Every operation has the shape of its function in the C interface: it clears
//! what is lent for writing, and returns the refusal's number, 0 when done.
#![allow(dead_code, unused_imports)]

pub mod conversions;
pub mod flattening;
pub mod kinds;
pub mod layout;
pub mod meaning;
pub mod rules;
pub mod runs;
pub mod texts;
pub mod translating;
pub mod words;

pub use conversions::{circuit_to_columns, circuit_to_records, program_to_columns, program_to_records};
pub use flattening::flatten;
pub use runs::{peek, run_circuit, run_program};
pub use texts::{name, read, write};
pub use translating::translate;

/// Kind, sort line (in a program: width), three operands.
pub type Record = [u64; 5];

/// The greatest id that a line may have.
pub const MOST_ID: u64 = 4_294_967_295;
/// At most this many records count.
pub const MOST_RECORDS: usize = 16_384;
pub const MOST_TEXT: usize = 65_536;
pub const MOST_STEPS: usize = 4_096;

/// Words of a record in a list: in a circuit's the id as written stands behind the five, in a program's nothing does.
pub fn size(program: bool) -> usize {
    if program {
        5
    } else {
        6
    }
}

/// The counted records of a list in columns.
pub fn records(list: &[u64], count: usize, program: bool) -> Vec<Record> {
    let height = layout::height(list.len(), size(program));
    (0..count).map(|i| std::array::from_fn(|j| list[layout::place(height, i, j)])).collect()
}

/// The ids of the counted records of a circuit's list.
pub fn ids(table: &[u64], count: usize) -> Vec<u64> {
    let height = layout::height(table.len(), size(false));
    (0..count).map(|i| table[layout::place(height, i, 5)]).collect()
}

/// A circuit's records with their ids, one behind the other.
pub fn rows(records: &[Record], ids: &[u64]) -> Vec<u64> {
    records.iter().zip(ids).flat_map(|(&[kind, sort, a, b, c], &id)| [kind, sort, a, b, c, id]).collect()
}

/// A circuit's records with the ids 1, 2, 3, one behind the other.
fn numbered_rows(records: &[Record]) -> Vec<u64> {
    rows(records, &(1..=records.len() as u64).collect::<Vec<u64>>())
}

/// A list in columns that has room for just some records, given one behind the other.
pub fn columns(rows: &[u64], program: bool) -> Vec<u64> {
    layout::spread(rows, rows.len(), size(program))
}

/// The list of a circuit of some records, with the ids 1, 2, 3.
pub fn numbered(records: &[Record]) -> Vec<u64> {
    columns(&numbered_rows(records), false)
}

/// The list of a program of some records.
pub fn program_list(records: &[Record]) -> Vec<u64> {
    columns(&records.concat(), true)
}

/// Puts records, given one behind the other, into a cleared list.
pub fn store(rows: &[u64], target: &mut [u64], program: bool) {
    layout::put(rows, target, size(program));
}

/// Whether a list may hold records.
pub fn is_whole(list: &[u64], program: bool) -> bool {
    list.len() % size(program) == 0
}

/// How many records a list lent for them can hold.
pub fn room(list: &[u64], program: bool) -> usize {
    (list.len() / size(program)).min(MOST_RECORDS)
}
