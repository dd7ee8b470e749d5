//! Runs the files of `../cases`: calls, and under each what it has to answer and to leave, written by hand.
//! `cases/README.md` says what the lines are. A call that answers otherwise is told with its file and line.
#![cfg(all(
    feature = "read",
    feature = "write",
    feature = "flatten",
    feature = "translate",
    feature = "run_circuit",
    feature = "run_program",
    feature = "peek",
    feature = "name",
    feature = "convert"
))]
#![allow(dead_code)]

#[path = "independent/layout.rs"]
mod layout;

use gofeshan::{interface, PROGRAM_RECORD, RECORD};
use std::path::Path;

/// What the lines of a file have set so far.
#[derive(Default)]
struct Lists {
    text: Vec<u8>,
    kept: Vec<u8>,
    table: Table,
    target: Vec<u64>,
    starts: Vec<u64>,
    inputs: Vec<u64>,
}

/// The table: records one behind the other, or words that stand as they are to stand in the list.
#[derive(Default)]
struct Table {
    words: Vec<u64>,
    placed: bool,
}

impl Table {
    fn add(&mut self, words: Vec<u64>, placed: bool) {
        assert!(self.words.is_empty() || self.placed == placed, "words and placed words in one table");
        self.words.extend(words);
        self.placed = placed;
    }

    /// The list that a call takes: records in columns; words as they are, where they are placed or no whole records.
    fn list(&self, size: usize) -> Vec<u64> {
        if self.placed || self.words.len() % size != 0 {
            return self.words.clone();
        }
        layout::spread(&self.words, self.words.len(), size)
    }
}

/// The numbers of a line; `v*n` is n times v.
fn numbers(words: &str) -> Vec<u64> {
    let number = |digits: &str| digits.parse::<u64>().unwrap_or_else(|_| panic!("no number: {digits}"));
    let mut list = Vec::new();
    for word in words.split_ascii_whitespace() {
        match word.split_once('*') {
            Some((value, times)) => list.extend(vec![number(value); number(times) as usize]),
            None => list.push(number(word)),
        }
    }
    list
}

/// Words parted by spaces, a run of four or more equal ones as `v*n`.
fn listed(words: &[u64]) -> String {
    let mut said = String::new();
    let mut rest = words;
    while let Some(&value) = rest.first() {
        let run = rest.iter().take_while(|&&word| word == value).count();
        let told = if run < 4 { 1 } else { run };
        said += &if told == 1 { format!(" {value}") } else { format!(" {value}*{run}") };
        rest = &rest[told..];
    }
    said
}

fn listed_bytes(bytes: &[u8]) -> String {
    listed(&bytes.iter().map(|&byte| byte.into()).collect::<Vec<u64>>())
}

/// The records of a list in columns, or its words where it has no whole records, from a word on, a record to a line; zeros
/// up to the end are one line.
fn records(list: &[u64], from: usize, size: usize) -> Vec<String> {
    let whole = list.len() % size == 0;
    let rows = if whole { layout::gather(list, list.len() / size, size) } else { list.to_vec() };
    let mut said = Vec::new();
    let mut rest = &rows[from..];
    while !rest.is_empty() {
        if rest.iter().all(|&word| word == 0) {
            said.push(format!("0*{}", rest.len()));
            break;
        }
        let (record, after) = rest.split_at(rest.len().min(size));
        said.push(record.iter().map(u64::to_string).collect::<Vec<_>>().join(" "));
        rest = after;
    }
    said
}

/// The lines of a text, each behind a bar.
fn lines(text: &[u8]) -> Vec<String> {
    let text = text.strip_suffix(b"\n").unwrap_or(text);
    text.split(|&byte| byte == b'\n').map(|line| format!("|{}", String::from_utf8_lossy(line))).collect()
}

/// A list that is lent for writing holds nines before.
fn lent(length: u64) -> Vec<u64> {
    vec![9; length as usize]
}

/// The calls from a list to a target. A conversion takes its list as it stands.
const CHANGES: [(&str, fn(&[u64], usize, &mut [u64], &mut [u64]) -> u64); 6] = [
    ("flatten", interface::flatten),
    ("translate", interface::translate),
    ("circuit_to_columns", interface::circuit_to_columns),
    ("circuit_to_records", interface::circuit_to_records),
    ("program_to_columns", interface::program_to_columns),
    ("program_to_records", interface::program_to_records),
];

/// What one line prints.
fn call(line: &str, lists: &mut Lists) -> Vec<String> {
    let Lists { text, kept, table, target, starts, inputs } = lists;
    if let Some(more) = line.strip_prefix('|').or(line.strip_prefix('.')) {
        text.extend(more.bytes());
        text.extend(line.starts_with('|').then_some(b'\n'));
        return Vec::new();
    }
    let (word, rest) = line.split_once(' ').unwrap_or((line, ""));
    let given = numbers(rest);
    let size = |place: usize| given[place] as usize;
    let mut answer = [9; 3];
    let told = |number: u64, answer: [u64; 3]| vec![format!("{number}; {} {} {}", answer[0], answer[1], answer[2])];
    match word {
        "text" => text.clear(),
        "keep" => *kept = text.clone(),
        "again" => *text = kept.clone(),
        "bytes" => text.extend(given.iter().map(|&word| u8::try_from(word).unwrap())),
        "table" => *table = Table::default(),
        "words" => table.add(given, false),
        "placed" => table.add(given, true),
        "starts" => *starts = given,
        "inputs" => *inputs = given,
        "take" => *table = Table { words: target.clone(), placed: true },
        "show" => return records(target, size(0), RECORD),
        "show_program" => return records(target, size(0), PROGRAM_RECORD),
        "show_words" => {
            return target[size(0)..].chunks(size(1)).map(|words| listed(words).trim_start().to_string()).collect()
        }
        "read" => {
            *target = lent(given[0]);
            let number = interface::read(text, target, &mut answer);
            return told(number, answer);
        }
        "write" => {
            let mut written = vec![9; size(1)];
            let number = interface::write(&table.list(RECORD), size(0), &mut written, &mut answer);
            let (said, past) = written.split_at(answer[0] as usize);
            let mut out = told(number, answer);
            out.extend(if said.is_empty() { Vec::new() } else { lines(said) });
            out.extend((!past.is_empty()).then(|| format!("bytes{}", listed_bytes(past))));
            return out;
        }
        "name" => {
            let number = interface::name(text, given[0], &mut answer);
            let (from, length) = (answer[0] as usize, answer[1] as usize);
            if length == 0 {
                return vec![format!("{number}; none")];
            }
            let mut out = told(number, answer);
            out.extend(lines(&text[from..from + length]));
            return out;
        }
        "run_circuit" | "run_program" => {
            let program = word == "run_program";
            let run = if program { interface::run_program } else { interface::run_circuit };
            let list = table.list(if program { PROGRAM_RECORD } else { RECORD });
            let (mut signals, mut work) = (vec![9; size(2)], lent(given[3]));
            let number = run(&list, size(0), size(1), starts, inputs, &mut signals, &mut work, &mut answer);
            let mut out = told(number, answer);
            out.push(format!("signals{}", listed_bytes(&signals)));
            out.push(format!("work{}", listed(&work)));
            return out;
        }
        "peek" => {
            let list = table.list(RECORD);
            let number = interface::peek(&list, size(0), size(1), size(2), starts, inputs, &mut answer);
            return told(number, answer);
        }
        _ => {
            let Some((_, change)) = CHANGES.iter().find(|(name, _)| *name == word) else {
                return vec![format!("no such call: {word}")];
            };
            *target = lent(given[1]);
            let list = if word.contains("_to_") { table.words.clone() } else { table.list(RECORD) };
            let number = change(&list, size(0), target, &mut answer);
            return told(number, answer);
        }
    }
    Vec::new()
}

/// Runs a file and gives the number of its calls that answer, and what differs.
fn run(file: &Path) -> (usize, Vec<String>) {
    let source = std::fs::read_to_string(file).unwrap();
    let mut lists = Lists::default();
    let (mut calls, mut differ) = (0, Vec::new());
    let mut rest = source.lines().enumerate().peekable();
    while let Some((place, line)) = rest.next() {
        if line.is_empty() || line.starts_with(['#', ';']) {
            continue;
        }
        let got = call(line, &mut lists);
        let mut wanted = Vec::new();
        while let Some((_, line)) = rest.next_if(|(_, line)| line.starts_with('>')) {
            wanted.push(line.strip_prefix("> ").unwrap_or("").to_string());
        }
        calls += usize::from(!got.is_empty());
        if got != wanted {
            differ.push(format!("{}:{}: {line}\n    wanted {wanted:?}\n    got    {got:?}", file.display(), place + 1));
        }
    }
    (calls, differ)
}

#[test]
fn files() {
    let work = || {
        let mut files: Vec<_> = std::fs::read_dir("../cases").unwrap().map(|file| file.unwrap().path()).collect();
        files.retain(|file| file.extension().is_some_and(|word| word == "txt"));
        files.sort();
        assert!(!files.is_empty(), "no files of cases");
        let mut differ = Vec::new();
        for file in files {
            let (calls, more) = run(&file);
            println!("{}: {calls} calls, {} differ", file.display(), more.len());
            assert!(calls > 0, "{} has no call", file.display());
            differ.extend(more);
        }
        assert!(differ.is_empty(), "{}", differ.join("\n"));
    };
    std::thread::Builder::new().stack_size(gofeshan::STACK).spawn(work).unwrap().join().unwrap();
}
