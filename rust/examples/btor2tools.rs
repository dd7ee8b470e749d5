//! Texts and runs against btor2tools: `bash rust/outside.sh` in the repository's root, where `catbtor` and `btorsim` are on
//! the PATH.
//!
//! `catbtor` parses and prints the text of each circuit and of its flat circuit; it has to print the same tokens. `btorsim`
//! gets the first counted bad of each run as a witness, with all start words, the words of free states at each later step, and
//! all input words, and has to agree; a witness that claims the bad one step earlier has to be refused. Every second circuit
//! has minus operands in its text. Half of the circuits have no overflow detectors: a `btorsim` that does not support them
//! says so, and such runs are counted apart.

#[path = "../tests/generator/mod.rs"]
mod generator;
#[path = "../tests/independent/mod.rs"]
mod independent;

use generator::{detectors::DETECTORS, minus, Random};
use independent::rules::{Lines, Sort};
use std::path::Path;
use std::process::{Command, Output};

fn run(program: &str, files: &[&Path]) -> Option<Output> {
    Command::new(program).args(files).output().ok()
}

/// The text of records by the proved writer, without comments or names.
fn text(table: &[u64], count: usize) -> String {
    let mut text = vec![0; 120 * count + 1];
    let length = gofeshan::write(table, count, &mut text).unwrap();
    String::from_utf8(text[..length].to_vec()).unwrap()
}

fn same_tokens(a: &str, b: &str) -> bool {
    let tokens = |s: &str| -> Vec<Vec<String>> {
        s.lines()
            .map(|l| l.split_whitespace().map(str::to_string).collect())
            .filter(|l: &Vec<String>| !l.is_empty())
            .collect()
    };
    tokens(a) == tokens(b)
}

/// A witness: the claimed bad line, the start words of states without init, the words of free states at each later step, the
/// input words of every step.
fn witness(lines: &Lines, place: u64, steps: usize, starts: &[u64], inputs: &[u64]) -> String {
    let mut out = format!("sat\nb{}\n", place - 1);
    let binary = |x: u64, w: u64| format!("{:0width$b}", x & independent::rules::ones(w), width = w as usize);
    let widths: Vec<u64> = lines.lines.iter().filter(|l| l.kind == 4).map(|l| l.sort.unwrap().width()).collect();
    for k in 0..steps {
        let row = &inputs[k * lines.row_words()..(k + 1) * lines.row_words()];
        let (ins, mut words) = row.split_at(widths.len());
        if k == 0 {
            words = starts;
        }
        if k == 0 || lines.free_cells() > 0 {
            out += &format!("#{k}\n");
        }
        for (state, line) in lines.lines.iter().filter(|l| l.kind == 5).enumerate() {
            // The start words are those of all states, a row's those of the free ones.
            if k > 0 && !line.is_free() {
                continue;
            }
            let (own, behind) = words.split_at(line.sort.unwrap().cells());
            words = behind;
            if k == 0 && line.init {
                continue;
            }
            for (cell, &word) in own.iter().enumerate() {
                match line.sort.unwrap() {
                    Sort::Word(w) => out += &format!("{state} {}\n", binary(word, w)),
                    Sort::Array(i, w) => out += &format!("{state} [{}] {}\n", binary(cell as u64, i), binary(word, w)),
                }
            }
        }
        out += &format!("@{k}\n");
        for (i, (&word, &w)) in ins.iter().zip(&widths).enumerate() {
            out += &format!("{i} {}\n", binary(word, w));
        }
    }
    out + ".\n"
}

/// A circuit, with overflow detectors or without.
fn circuit(random: &mut Random, detectors: bool) -> Lines {
    loop {
        let size = generator::size(random);
        let lines = generator::circuit(random, size);
        if detectors || !lines.records.iter().any(|r| DETECTORS.contains(&r[0])) {
            return lines;
        }
    }
}

fn main() {
    let number = |name: &str, default: u64| std::env::var(name).map_or(default, |s| s.parse().unwrap());
    let (seed, cases) = (number("GOFESHAN_SEED", 1), number("GOFESHAN_CASES", 300));
    let folder = std::env::temp_dir().join(format!("gofeshan-{}", std::process::id()));
    std::fs::create_dir_all(&folder).unwrap();
    let (btor, wit) = (folder.join("circuit.btor2"), folder.join("run.wit"));
    let (cat, sim) = (run("catbtor", &[Path::new("-h")]).is_some(), run("btorsim", &[Path::new("-h")]).is_some());
    if !cat && !sim {
        println!("btor2tools: neither catbtor nor btorsim is on the PATH, nothing was compared");
        return;
    }
    let mut random = Random::new(seed);
    let (mut texts, mut runs, mut unsupported, mut wrong) = (0, 0, 0, 0);
    for case in 0..cases {
        let mut lines = circuit(&mut random, case % 4 < 2);
        let (mut table, mut count) = (lines.words(), lines.records.len());
        let mut circuit_text = text(&table, count);
        if case % 2 == 1 {
            lines.ids = (1..=count as u64).collect();
            let printed = minus::with_minus(&mut random, lines, 3).plain_text();
            table = vec![0; 4 * gofeshan::RECORD * count];
            count = gofeshan::read(&printed, &mut table).unwrap();
            lines = independent::rules::check_table(&table, count).unwrap();
            circuit_text = String::from_utf8(printed).unwrap();
        }
        let mut flat = vec![0; gofeshan::RECORD * independent::MOST_RECORDS];
        let Ok(flat_count) = gofeshan::flatten(&table, count, &mut flat) else { continue };
        let steps = 1 + random.below(6);
        let (starts, inputs) = (random.words(lines.state_cells()), random.words(steps * lines.row_words()));
        let (mut signals, mut work) = (vec![0; steps * lines.signals()], vec![0; lines.work()]);
        let bad = gofeshan::run_circuit(&table, count, steps, &starts, &inputs, &mut signals, &mut work).unwrap();
        let flat_text = text(&flat, flat_count);
        for (table, count, written) in [(&table, count, circuit_text), (&flat, flat_count, flat_text)] {
            std::fs::write(&btor, &written).unwrap();
            if cat {
                let said = run("catbtor", &[&btor]).unwrap();
                texts += 1;
                if !said.status.success() || !same_tokens(&String::from_utf8_lossy(&said.stdout), &written) {
                    wrong += 1;
                    println!("case {case}: catbtor prints another text\n{written}");
                }
            }
            let lines = independent::rules::check_table(table, count).unwrap();
            if let (true, Some(bad)) = (sim, bad) {
                for (k, right) in [(bad.step as usize + 1, true), (bad.step as usize, false)] {
                    if k == 0 {
                        continue;
                    }
                    std::fs::write(&wit, witness(&lines, bad.place, k, &starts, &inputs)).unwrap();
                    let said = Command::new("btorsim").arg("-c").args([&btor, &wit]).output().unwrap();
                    if String::from_utf8_lossy(&said.stderr).contains("unsupported") {
                        unsupported += 1;
                        continue;
                    }
                    runs += 1;
                    if said.status.success() != right {
                        wrong += 1;
                        println!(
                            "case {case}: btorsim on {bad:?} with {k} steps\n{written}{}",
                            String::from_utf8_lossy(&said.stdout)
                        );
                    }
                }
            }
        }
    }
    std::fs::remove_dir_all(&folder).unwrap();
    println!("btor2tools: {texts} texts and {runs} witnesses compared, {wrong} differ; {unsupported} unsupported");
    std::process::exit(i32::from(wrong > 0));
}
