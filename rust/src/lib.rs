//! Safe functions over the C interface of Gofeshan, a proved tool for BTOR2
//! circuits with small memories.
//!
//! A *table* is a list that holds a circuit's records, six words each ([`RECORD`]):
//! kind, sort line, three operands, and the id as written in the text. A *program*
//! holds records of five words each ([`PROGRAM_RECORD`]): kind, width, three
//! operands. At most 16,384 records count.
//!
//! The words of a table or a program stand in columns, all kinds first, each column
//! as long as the number of records that the list can hold: word j of record i, both
//! from 0, is `table[table.len() / RECORD * j + i]`, in a program
//! `program[program.len() / PROGRAM_RECORD * j + i]`. So the list's length says where
//! a column starts: a part of a list, or a longer list with the same words in front,
//! holds other records. [`circuit_to_columns`], [`circuit_to_records`],
//! [`program_to_columns`] and [`program_to_records`] go from records one behind the
//! other to columns and back.
//!
//! A record's number is its place, from 1, and records tell lines by their
//! places. Ids only rise, from 1 up to 4,294,967,295 ([`MOST_ID`]),
//! with or without gaps; the operands of a text's lines name ids. An operand
//! with a minus is the complement of the line that it names: for each, reading
//! puts a not record with the id 0 before the line's own record. Only not records
//! may have that id, and no operand names it. Flat circuits and written texts are
//! numbered 1, 2, 3, their not lines too. A line may have a name, one token behind
//! its numbers, that no earlier line has; tables hold no names.
//!
//! A state is *free* where no counted record is a next line of it; a next line with the
//! state as its own value does set it. A *row* has a word for each input line, in line
//! order, and behind them one for each cell of each free state, states in line order,
//! cells rising. At step 0 every state has its start word or init value, and the row's
//! words for free states are present and not read; from step 1 on they are, modulo 2^w,
//! what the free states hold, in a circuit and in a program.
//!
//! Every operation ends with a listed answer. A refusal is a number
//! ([`Refusal::number`], documented by [`Refusal::reason`]); after it
//! everything lent for writing is zero. Past the end of a result everything
//! lent for writing is zero too, and a work area is zero after any call. What
//! a list lent for writing held before makes no difference.
//!
//! The archive `libexports.a` is built by `rt lib` in `crates/exports`, which
//! leaves it in `crates/exports/out`; the environment variable `GOFESHAN_LIB`
//! names another folder that holds it. The functions keep their notes on the stack, less than
//! 1 MB: call them from the main thread or from a thread with 2 MB ([`STACK`]),
//! which a thread of Rust has unless told otherwise.
//!
//! The functions of [`interface`] are the C functions on slices, one for one.
//! Those beside them give the same answers as Rust values:
//!
//! ```
//! let mut table = [0; gofeshan::RECORD * 100];
//! let count = gofeshan::read(b"1 sort bitvec 1\n2 input 1\n7 bad 2\n", &mut table).unwrap();
//! assert_eq!(table[..4], [1, 4, 8, 0]);
//! assert_eq!(table[5 * 100 + 2], 7);
//! let mut records = [0; gofeshan::RECORD * 3];
//! gofeshan::circuit_to_records(&table, count, &mut records).unwrap();
//! assert_eq!(records[12..], [8, 0, 2, 0, 0, 7]);
//! let mut signals = [0; 2];
//! let mut work = [0; 100];
//! let bad = gofeshan::run_circuit(&table, count, 2, &[], &[0, 1], &mut signals, &mut work).unwrap();
//! assert_eq!(bad, Some(gofeshan::FirstBad { step: 1, place: 1 }));
//! ```

/// Words in a circuit's record.
pub const RECORD: usize = 6;
/// Words in a program's record.
pub const PROGRAM_RECORD: usize = 5;
/// The greatest id of a line.
pub const MOST_ID: u64 = 4_294_967_295;
/// At most this many records count.
pub const MOST_RECORDS: usize = 16_384;
/// The longest text that is read, in bytes.
pub const MOST_TEXT: usize = 65_536;
/// The longest run, in steps.
pub const MOST_STEPS: usize = 4_096;
/// A stack that is large enough for every operation, in bytes.
pub const STACK: usize = 2 << 20;

/// The C functions on slices. Each returns the refusal's number, 0 when done,
/// and writes its further values to `answer`, a list of three words; words
/// that it does not use are 0. An `answer` of another length is refused by 1.
///
/// None of them asks anything of its arguments, so that all are safe.
pub mod interface {
    #[rustfmt::skip]
    mod c {
        #[allow(dead_code)]
        extern "C" {
            pub fn gofeshan_read(
                text: *const u8, text_len: usize,
                table: *mut u64, table_len: usize,
                answer: *mut u64, answer_len: usize,
            ) -> u64;
            pub fn gofeshan_write(
                table: *const u64, table_len: usize, count: usize,
                text: *mut u8, text_len: usize,
                answer: *mut u64, answer_len: usize,
            ) -> u64;
            pub fn gofeshan_flatten(
                table: *const u64, table_len: usize, count: usize,
                target: *mut u64, target_len: usize,
                answer: *mut u64, answer_len: usize,
            ) -> u64;
            pub fn gofeshan_translate(
                table: *const u64, table_len: usize, count: usize,
                target: *mut u64, target_len: usize,
                answer: *mut u64, answer_len: usize,
            ) -> u64;
            pub fn gofeshan_run_circuit(
                table: *const u64, table_len: usize, count: usize, steps: usize,
                starts: *const u64, starts_len: usize,
                inputs: *const u64, inputs_len: usize,
                signals: *mut u8, signals_len: usize,
                work: *mut u64, work_len: usize,
                answer: *mut u64, answer_len: usize,
            ) -> u64;
            pub fn gofeshan_run_program(
                table: *const u64, table_len: usize, count: usize, steps: usize,
                starts: *const u64, starts_len: usize,
                inputs: *const u64, inputs_len: usize,
                signals: *mut u8, signals_len: usize,
                work: *mut u64, work_len: usize,
                answer: *mut u64, answer_len: usize,
            ) -> u64;
            pub fn gofeshan_peek(
                table: *const u64, table_len: usize, count: usize, line: usize, cell: usize,
                starts: *const u64, starts_len: usize,
                row: *const u64, row_len: usize,
                answer: *mut u64, answer_len: usize,
            ) -> u64;
            pub fn gofeshan_name(
                text: *const u8, text_len: usize, id: u64,
                answer: *mut u64, answer_len: usize,
            ) -> u64;
            pub fn gofeshan_circuit_to_columns(
                records: *const u64, records_len: usize, count: usize,
                target: *mut u64, target_len: usize,
                answer: *mut u64, answer_len: usize,
            ) -> u64;
            pub fn gofeshan_circuit_to_records(
                table: *const u64, table_len: usize, count: usize,
                target: *mut u64, target_len: usize,
                answer: *mut u64, answer_len: usize,
            ) -> u64;
            pub fn gofeshan_program_to_columns(
                records: *const u64, records_len: usize, count: usize,
                target: *mut u64, target_len: usize,
                answer: *mut u64, answer_len: usize,
            ) -> u64;
            pub fn gofeshan_program_to_records(
                table: *const u64, table_len: usize, count: usize,
                target: *mut u64, target_len: usize,
                answer: *mut u64, answer_len: usize,
            ) -> u64;
        }
    }

    /// A C function that goes from so many records of a list to a target.
    type Changing = unsafe extern "C" fn(*const u64, usize, usize, *mut u64, usize, *mut u64, usize) -> u64;

    #[allow(dead_code)]
    fn change(function: Changing, list: &[u64], count: usize, target: &mut [u64], answer: &mut [u64]) -> u64 {
        // SAFETY: each pointer comes with the length of its slice, and the functions ask nothing else.
        unsafe {
            function(
                list.as_ptr(),
                list.len(),
                count,
                target.as_mut_ptr(),
                target.len(),
                answer.as_mut_ptr(),
                answer.len(),
            )
        }
    }

    /// Reads a text into a table. `answer[0]` is the number of records, one for each
    /// line and one for each minus operand, or with a refusal from 3 to 10 or 22 the
    /// text line's number, from 1.
    #[cfg(feature = "read")]
    pub fn read(text: &[u8], table: &mut [u64], answer: &mut [u64]) -> u64 {
        // SAFETY: each pointer comes with the length of its slice.
        unsafe {
            c::gofeshan_read(
                text.as_ptr(),
                text.len(),
                table.as_mut_ptr(),
                table.len(),
                answer.as_mut_ptr(),
                answer.len(),
            )
        }
    }

    /// Writes the first `count` records of a table as text, numbered 1, 2, 3. `answer[0]` is the number of bytes.
    #[cfg(feature = "write")]
    pub fn write(table: &[u64], count: usize, text: &mut [u8], answer: &mut [u64]) -> u64 {
        // SAFETY: each pointer comes with the length of its slice.
        unsafe {
            c::gofeshan_write(
                table.as_ptr(),
                table.len(),
                count,
                text.as_mut_ptr(),
                text.len(),
                answer.as_mut_ptr(),
                answer.len(),
            )
        }
    }

    /// Flattens a circuit. `answer[0]` is the number of records in the target, a table with the ids 1, 2, 3.
    #[cfg(feature = "flatten")]
    pub fn flatten(table: &[u64], count: usize, target: &mut [u64], answer: &mut [u64]) -> u64 {
        change(c::gofeshan_flatten, table, count, target, answer)
    }

    /// Translates a flat circuit into a program. `answer[0]` is the number of records in the target, which has five words
    /// for each.
    #[cfg(feature = "translate")]
    pub fn translate(table: &[u64], count: usize, target: &mut [u64], answer: &mut [u64]) -> u64 {
        change(c::gofeshan_translate, table, count, target, answer)
    }

    /// Runs a circuit; `inputs` are rows: inputs, then the cells of free states. `answer` is 1, step, place of the first
    /// counted bad, or three zeros.
    #[cfg(feature = "run_circuit")]
    #[allow(clippy::too_many_arguments)]
    pub fn run_circuit(
        table: &[u64],
        count: usize,
        steps: usize,
        starts: &[u64],
        inputs: &[u64],
        signals: &mut [u8],
        work: &mut [u64],
        answer: &mut [u64],
    ) -> u64 {
        // SAFETY: each pointer comes with the length of its slice.
        unsafe {
            c::gofeshan_run_circuit(
                table.as_ptr(),
                table.len(),
                count,
                steps,
                starts.as_ptr(),
                starts.len(),
                inputs.as_ptr(),
                inputs.len(),
                signals.as_mut_ptr(),
                signals.len(),
                work.as_mut_ptr(),
                work.len(),
                answer.as_mut_ptr(),
                answer.len(),
            )
        }
    }

    /// Runs a program. `answer` is 1, step, place of the first counted bad, or three zeros.
    #[cfg(feature = "run_program")]
    #[allow(clippy::too_many_arguments)]
    pub fn run_program(
        table: &[u64],
        count: usize,
        steps: usize,
        starts: &[u64],
        inputs: &[u64],
        signals: &mut [u8],
        work: &mut [u64],
        answer: &mut [u64],
    ) -> u64 {
        // SAFETY: each pointer comes with the length of its slice.
        unsafe {
            c::gofeshan_run_program(
                table.as_ptr(),
                table.len(),
                count,
                steps,
                starts.as_ptr(),
                starts.len(),
                inputs.as_ptr(),
                inputs.len(),
                signals.as_mut_ptr(),
                signals.len(),
                work.as_mut_ptr(),
                work.len(),
                answer.as_mut_ptr(),
                answer.len(),
            )
        }
    }

    /// The value of a line's cell at step 0, from one row; the line is told by its record's place. `answer[0]` is the value.
    #[cfg(feature = "peek")]
    pub fn peek(
        table: &[u64],
        count: usize,
        line: usize,
        cell: usize,
        starts: &[u64],
        row: &[u64],
        answer: &mut [u64],
    ) -> u64 {
        // SAFETY: each pointer comes with the length of its slice.
        unsafe {
            c::gofeshan_peek(
                table.as_ptr(),
                table.len(),
                count,
                line,
                cell,
                starts.as_ptr(),
                starts.len(),
                row.as_ptr(),
                row.len(),
                answer.as_mut_ptr(),
                answer.len(),
            )
        }
    }

    /// Converts records of a circuit, one behind the other, into a table. `answer[0]` is the count.
    #[cfg(feature = "convert")]
    pub fn circuit_to_columns(records: &[u64], count: usize, target: &mut [u64], answer: &mut [u64]) -> u64 {
        change(c::gofeshan_circuit_to_columns, records, count, target, answer)
    }

    /// Converts a table into its records, one behind the other. `answer[0]` is the count.
    #[cfg(feature = "convert")]
    pub fn circuit_to_records(table: &[u64], count: usize, target: &mut [u64], answer: &mut [u64]) -> u64 {
        change(c::gofeshan_circuit_to_records, table, count, target, answer)
    }

    /// Converts records of a program, one behind the other, into a program. `answer[0]` is the count.
    #[cfg(feature = "convert")]
    pub fn program_to_columns(records: &[u64], count: usize, target: &mut [u64], answer: &mut [u64]) -> u64 {
        change(c::gofeshan_program_to_columns, records, count, target, answer)
    }

    /// Converts a program into its records, one behind the other. `answer[0]` is the count.
    #[cfg(feature = "convert")]
    pub fn program_to_records(table: &[u64], count: usize, target: &mut [u64], answer: &mut [u64]) -> u64 {
        change(c::gofeshan_program_to_records, table, count, target, answer)
    }

    /// The name of a line, which is told by its id as written. `answer[0]` is the start of the name in the text,
    /// `answer[1]` its length; where there is none, the length is 0.
    #[cfg(feature = "name")]
    pub fn name(text: &[u8], id: u64, answer: &mut [u64]) -> u64 {
        // SAFETY: each pointer comes with the length of its slice.
        unsafe { c::gofeshan_name(text.as_ptr(), text.len(), id, answer.as_mut_ptr(), answer.len()) }
    }
}

/// Why an operation refused.
#[derive(Clone, Copy, PartialEq, Eq, Debug)]
pub struct Refusal {
    /// From 1 to 22.
    pub number: u64,
    /// The text line, from 1, with the numbers 3 to 10 and 22; else 0.
    pub line: u64,
}

impl Refusal {
    /// The refusal in words.
    pub fn reason(self) -> &'static str {
        match self.number {
            1 => "a list is no table, whose length is a multiple of six, or no program, whose length is one of five",
            2 => "the text is above 65,536 bytes",
            3 => "the id is no number above the one before, up to 4,294,967,295",
            4 => "no record is left",
            5 => "the word is unknown or missing",
            6 => "an operand is missing or malformed, or there are two extra tokens",
            7 => "a number is too large, or a bitvec width is not 1 to 64",
            8 => "an operand is not the id of an earlier line of the right class, or may not have a minus",
            9 => "sorts, widths, bounds or a constant do not fit",
            10 => "a second init or next of a state, or the init rule",
            11 => "the count exceeds the table, a record breaks a rule, or its id does",
            12 => "more records than the target holds",
            13 => "more than 4,096 steps",
            14 => "not one start word for each state cell",
            15 => "not a row of words, one for each input and each cell of each free state, for each step",
            16 => "not one signal byte for each bad and constraint line and step",
            17 => "the work area is too small",
            18 => "no such value or cell, or more than 64 records",
            19 => "an array sort is present",
            20 => "the count exceeds the program, or a record breaks a rule",
            21 => "the text buffer is too short",
            22 => "the name stands on an earlier line already",
            _ => "no refusal",
        }
    }
}

impl std::fmt::Display for Refusal {
    fn fmt(&self, f: &mut std::fmt::Formatter<'_>) -> std::fmt::Result {
        write!(f, "refused {} {}: {}", self.number, self.line, self.reason())
    }
}

impl std::error::Error for Refusal {}

/// The first counted bad of a run.
#[derive(Clone, Copy, PartialEq, Eq, Debug)]
pub struct FirstBad {
    /// From 0.
    pub step: u64,
    /// The bad line's place among the bad lines, from 1.
    pub place: u64,
}

#[allow(dead_code)]
fn counted(number: u64, answer: [u64; 3]) -> Result<usize, Refusal> {
    match number {
        0 => Ok(answer[0] as usize),
        number => Err(Refusal { number, line: answer[0] }),
    }
}

#[allow(dead_code)]
fn first_bad(number: u64, answer: [u64; 3]) -> Result<Option<FirstBad>, Refusal> {
    match number {
        0 => Ok((answer[0] == 1).then_some(FirstBad { step: answer[1], place: answer[2] })),
        number => Err(Refusal { number, line: 0 }),
    }
}

/// Reads a text into a table and gives the number of records: one for each line and, before it, one for each of its minus
/// operands.
#[cfg(feature = "read")]
pub fn read(text: &[u8], table: &mut [u64]) -> Result<usize, Refusal> {
    let mut answer = [0; 3];
    counted(interface::read(text, table, &mut answer), answer)
}

/// Writes the first `count` records of a table as text, numbered 1, 2, 3 whatever their ids are, and gives the number of
/// bytes.
#[cfg(feature = "write")]
pub fn write(table: &[u64], count: usize, text: &mut [u8]) -> Result<usize, Refusal> {
    let mut answer = [0; 3];
    counted(interface::write(table, count, text, &mut answer), answer)
}

/// Flattens a circuit and gives the number of records in the target, whose ids are 1, 2, 3.
#[cfg(feature = "flatten")]
pub fn flatten(table: &[u64], count: usize, target: &mut [u64]) -> Result<usize, Refusal> {
    let mut answer = [0; 3];
    counted(interface::flatten(table, count, target, &mut answer), answer)
}

/// Translates a flat circuit into a program and gives the number of records in the target, five words each.
#[cfg(feature = "translate")]
pub fn translate(table: &[u64], count: usize, target: &mut [u64]) -> Result<usize, Refusal> {
    let mut answer = [0; 3];
    counted(interface::translate(table, count, target, &mut answer), answer)
}

/// Runs a circuit: `starts` has a word for each state cell in line order,
/// `inputs` a row of words for each step, `signals` gets a byte for each bad
/// and constraint line and step, and `work` has a word for each cell of each
/// value line plus each state cell, or more.
///
/// A row is the words of the inputs and then those of the free states, which take them from step 1 on:
///
/// ```
/// let mut table = [0; gofeshan::RECORD * 9];
/// let text = b"1 sort bitvec 4\n2 state 1\n3 input 1\n4 sort bitvec 1\n5 eq 4 2 3\n6 bad 5\n";
/// let count = gofeshan::read(text, &mut table).unwrap();
/// // Two words a row: the input, and then the state, which is 7, 2 and 18 modulo 16 in turn.
/// let (starts, inputs) = ([7], [7, 0, 3, 2, 2, 18]);
/// let (mut signals, mut work) = ([0; 3], [0; 4]);
/// gofeshan::run_circuit(&table, count, 3, &starts, &inputs, &mut signals, &mut work).unwrap();
/// assert_eq!(signals, [1, 0, 1]);
/// ```
#[cfg(feature = "run_circuit")]
pub fn run_circuit(
    table: &[u64],
    count: usize,
    steps: usize,
    starts: &[u64],
    inputs: &[u64],
    signals: &mut [u8],
    work: &mut [u64],
) -> Result<Option<FirstBad>, Refusal> {
    let mut answer = [0; 3];
    let number = interface::run_circuit(table, count, steps, starts, inputs, signals, work, &mut answer);
    first_bad(number, answer)
}

/// Runs a program, as [`run_circuit`] runs a circuit.
#[cfg(feature = "run_program")]
pub fn run_program(
    table: &[u64],
    count: usize,
    steps: usize,
    starts: &[u64],
    inputs: &[u64],
    signals: &mut [u8],
    work: &mut [u64],
) -> Result<Option<FirstBad>, Refusal> {
    let mut answer = [0; 3];
    let number = interface::run_program(table, count, steps, starts, inputs, signals, work, &mut answer);
    first_bad(number, answer)
}

/// The value of a line's cell at step 0, from start words and one row, in a
/// circuit of at most 64 records. The row is that of a run, as long as any: its
/// words for free states make no difference at step 0. The line is told by its
/// record's place, not by its id; a word has cell 0 only.
#[cfg(feature = "peek")]
pub fn peek(
    table: &[u64],
    count: usize,
    line: usize,
    cell: usize,
    starts: &[u64],
    row: &[u64],
) -> Result<u64, Refusal> {
    let mut answer = [0; 3];
    match interface::peek(table, count, line, cell, starts, row, &mut answer) {
        0 => Ok(answer[0]),
        number => Err(Refusal { number, line: 0 }),
    }
}

/// The name of the first line whose id, as written, is the given number, as that part of
/// the text; empty where the line is missing, has an unknown word or has not
/// just one extra token.
#[cfg(feature = "name")]
pub fn name(text: &[u8], id: u64) -> &[u8] {
    let mut answer = [0; 3];
    interface::name(text, id, &mut answer);
    let start = answer[0] as usize;
    &text[start..start + answer[1] as usize]
}

/// Converts the first `count` records of a circuit, six words each, one behind the other, into the columns of the target,
/// and gives the count. The target may have another length. Records and ids are not checked: any words are carried over.
///
/// Refused are, in this order, a list or a target whose length is no multiple of six (1), a count above the list's records
/// or 16,384 (11), and one above the target's (12).
#[cfg(feature = "convert")]
pub fn circuit_to_columns(records: &[u64], count: usize, target: &mut [u64]) -> Result<usize, Refusal> {
    let mut answer = [0; 3];
    counted(interface::circuit_to_columns(records, count, target, &mut answer), answer)
}

/// Converts the first `count` records of a table back into records one behind the other, as [`circuit_to_columns`] converts
/// them into columns.
#[cfg(feature = "convert")]
pub fn circuit_to_records(table: &[u64], count: usize, target: &mut [u64]) -> Result<usize, Refusal> {
    let mut answer = [0; 3];
    counted(interface::circuit_to_records(table, count, target, &mut answer), answer)
}

/// As [`circuit_to_columns`], for the records of a program: lengths are multiples of five, and 20 stands for 11.
#[cfg(feature = "convert")]
pub fn program_to_columns(records: &[u64], count: usize, target: &mut [u64]) -> Result<usize, Refusal> {
    let mut answer = [0; 3];
    counted(interface::program_to_columns(records, count, target, &mut answer), answer)
}

/// As [`circuit_to_records`], for a program: lengths are multiples of five, and 20 stands for 11.
#[cfg(feature = "convert")]
pub fn program_to_records(table: &[u64], count: usize, target: &mut [u64]) -> Result<usize, Refusal> {
    let mut answer = [0; 3];
    counted(interface::program_to_records(table, count, target, &mut answer), answer)
}
