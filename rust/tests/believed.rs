//! What has to be believed: the files of definitions that the promises of the public operations, demand 3 and the theorem on ids rest on.
//! They are found by the `use` lines, from the contracts on; docs/PROOFS.md lists them with their lines, and this test holds it to that.
//! `cargo test --test believed -- --nocapture` prints them.
use std::collections::{BTreeMap, BTreeSet};
use std::path::{Path, PathBuf};

/// The crates whose public functions without a `requires` are the operations; each keeps them in `src/lib.rt`.
const OPERATIONS: [&str; 10] =
    ["reading", "writing", "naming", "flatten", "translating", "runs", "peeking", "layouts", "exports", "flat_text"];

/// Demand 3 is stated there, and that ids are of no matter.
const THEOREMS: [&str; 2] = ["crates/agreement/specs/Comparison.antt", "crates/agreement/specs/Ids.antt"];

fn root() -> PathBuf {
    Path::new(env!("CARGO_MANIFEST_DIR")).join("..")
}

fn read(file: &str) -> String {
    std::fs::read_to_string(root().join(file)).unwrap_or_else(|error| panic!("{file}: {error}"))
}

/// The file of a module of definitions, as `Rattle.tables.specs.Lines`, from its own crate or another. Types that the code declares have no
/// file of definitions, and the library's are not the repository's.
fn file_of(module: &str) -> Option<String> {
    let (name, path) = module.strip_prefix("Rattle.")?.split_once('.')?;
    let path = path.strip_prefix("specs.")?;
    let file = format!("crates/{name}/specs/{}.antt", path.replace('.', "/"));
    (root().join("crates").join(name).is_dir() && !path.starts_with("declared")).then_some(file)
}

/// What the `use` lines of a file say, each in one line: a list of names may go over several.
fn uses(text: &str) -> Vec<String> {
    let mut found = Vec::new();
    let mut lines = text.lines();
    while let Some(line) = lines.next() {
        let line = ["ghost ", "pub "].iter().fold(line, |line, word| line.strip_prefix(word).unwrap_or(line));
        let Some(line) = line.strip_prefix("use ") else { continue };
        let mut said = line.to_string();
        while said.contains('{') && !said.contains('}') {
            said += lines.next().expect("a list of names ends");
        }
        found.push(said);
    }
    found
}

/// The definitions that a file takes from others: their file and their names.
fn imports(text: &str) -> Vec<(String, Vec<String>)> {
    let mut found = Vec::new();
    for line in uses(text) {
        let line = line.trim_end_matches(';');
        let (module, names) = line.split_once(".{").unwrap_or((line, ""));
        let names = names.trim_end_matches('}').split(',');
        if let Some(file) = file_of(module) {
            let last = |name: &str| name.split(" as ").last().unwrap_or(name).trim().to_string();
            found.push((file, names.map(last).collect()));
        }
    }
    found
}

/// The contracts of a file's public functions that have no `requires`, as the words in them.
fn promises(text: &str) -> BTreeSet<String> {
    let mut words = BTreeSet::new();
    for item in text.split("\npub ").skip(1) {
        let head = item.split("\n{\n").next().unwrap_or(item);
        let function = head.starts_with("fn ") || head.starts_with("extern \"C\" fn ");
        let asks = head.lines().any(|line| line.trim_start().starts_with("requires "));
        if function && !asks {
            let parted = head.split(|c: char| c.is_whitespace() || "(){}.,;".contains(c));
            words.extend(parted.map(str::to_string));
        }
    }
    words
}

fn believed() -> BTreeMap<String, usize> {
    let mut ahead: Vec<String> = THEOREMS.iter().map(|file| file.to_string()).collect();
    for name in OPERATIONS {
        let text = read(&format!("crates/{name}/src/lib.rt"));
        let words = promises(&text);
        assert!(!words.is_empty(), "{name} promises nothing");
        for (file, names) in imports(&text) {
            if names.iter().any(|name| words.contains(name)) {
                ahead.push(file);
            }
        }
    }
    let mut found = BTreeMap::new();
    while let Some(file) = ahead.pop() {
        if !found.contains_key(&file) {
            let text = read(&file);
            ahead.extend(imports(&text).into_iter().map(|(file, _)| file));
            found.insert(file, text.lines().count());
        }
    }
    found
}

/// The rows of docs/PROOFS.md that name a file of definitions and its lines.
fn listed() -> BTreeMap<String, usize> {
    let mut rows = BTreeMap::new();
    for line in read("docs/PROOFS.md").lines() {
        let cells: Vec<&str> = line.split('|').map(str::trim).collect();
        if let [_, file, lines, ..] = cells[..] {
            let file = file.trim_matches('`');
            if let (true, Ok(lines)) = (file.starts_with("crates/"), lines.parse()) {
                rows.insert(file.to_string(), lines);
            }
        }
    }
    rows
}

#[test]
fn the_list_in_the_documents_is_what_the_promises_rest_on() {
    let (believed, listed) = (believed(), listed());
    let lines: usize = believed.values().sum();
    let rows: Vec<String> = believed.iter().map(|(file, lines)| format!("| `{file}` | {lines} |")).collect();
    println!("{}\n{} files, {lines} lines", rows.join("\n"), believed.len());
    assert!(believed == listed, "docs/PROOFS.md should list\n{}", rows.join("\n"));
    let total = format!("{} files of {lines} lines", believed.len());
    assert!(read("docs/PROOFS.md").contains(&total), "docs/PROOFS.md should say: {total}");
}

#[test]
fn the_model_is_not_believed() {
    for file in believed().keys() {
        assert!(!file.contains("/specs/Model"), "{file} is a model of the code, and a promise rests on it");
    }
}
