//! What docs/PROOFS.md names is there: every file, and every definition, law and function, in some file of the crates.
use std::collections::BTreeSet;
use std::path::{Path, PathBuf};

fn root() -> PathBuf {
    Path::new(env!("CARGO_MANIFEST_DIR")).join("..")
}

/// The files below a folder of the repository, by their paths from its root, but for what checks and builds leave in `out` and `target`.
fn files(folder: &str, found: &mut Vec<String>) {
    for entry in std::fs::read_dir(root().join(folder)).unwrap() {
        let entry = entry.unwrap();
        let name = entry.file_name().to_string_lossy().to_string();
        let path = format!("{folder}/{name}");
        found.push(path.clone());
        if entry.file_type().unwrap().is_dir() && !["out", "target"].contains(&name.as_str()) {
            files(&path, found);
        }
    }
}

/// The words of all files of Rattle and antt.
fn words(files: &[String]) -> BTreeSet<String> {
    let mut words = BTreeSet::new();
    for file in files.iter().filter(|file| file.ends_with(".rt") || file.ends_with(".antt")) {
        let text = std::fs::read_to_string(root().join(file)).unwrap();
        let parted = text.split(|c: char| c.is_whitespace() || "(){}[];,.:".contains(c));
        words.extend(parted.map(str::to_string));
    }
    words
}

#[test]
fn what_the_page_of_proofs_names_is_there() {
    let mut all = Vec::new();
    ["crates", "rust", "cases"].iter().for_each(|folder| files(folder, &mut all));
    let words = words(&all);
    let text = std::fs::read_to_string(root().join("docs/PROOFS.md")).unwrap();
    let named: BTreeSet<&str> = text.split('`').skip(1).step_by(2).filter(|name| !name.contains([' ', '*'])).collect();
    let is_there = |name: &str| {
        let name = name.trim_end_matches('/');
        let last = name.rsplit("::").next().unwrap_or(name);
        all.iter().any(|file| file == name || file.ends_with(&format!("/{name}"))) || words.contains(last)
    };
    let missing: Vec<&str> = named.iter().copied().filter(|name| !is_there(name)).collect();
    assert!(named.len() > 100, "the page names {} things", named.len());
    assert!(missing.is_empty(), "docs/PROOFS.md names what is not there: {missing:?}");
}
