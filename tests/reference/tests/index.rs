//! `tests/index` finds every name that is declared for other files, and says where.

use std::fs;
use std::path::{Path, PathBuf};
use std::process::{Command, Output};

fn root() -> PathBuf {
    Path::new(env!("CARGO_MANIFEST_DIR")).join("../..")
}

fn index(name: &[&str]) -> Output {
    let mut command = Command::new(root().join("tests/index"));
    command.args(name).output().expect("tests/index")
}

/// The files below a folder with this ending.
fn files(folder: &Path, ending: &str, found: &mut Vec<PathBuf>) {
    for entry in fs::read_dir(folder).unwrap() {
        let path = entry.unwrap().path();
        if path.is_dir() && !path.ends_with("out") {
            files(&path, ending, found);
        } else if path.to_str().unwrap().ends_with(ending) {
            found.push(path);
        }
    }
}

/// The public declarations of a file of definitions, as `file:line`.
fn declared(file: &Path, place: &str) -> Vec<String> {
    let text = fs::read_to_string(file).unwrap();
    let lines = text.lines().enumerate().filter(|(_, line)| {
        let words: Vec<&str> = line.split_whitespace().collect();
        let first = words
            .iter()
            .position(|w| !["pub", "abbrev", "unfoldable"].contains(w));
        let rest = &words[first.unwrap_or(0)..];
        let public = words[..first.unwrap_or(0)].contains(&"pub");
        let named = rest.get(1) == Some(&":") || matches!(rest.first(), Some(&"record" | &"data"));
        public && named
    });
    lines.map(|(n, _)| format!("{place}:{}", n + 1)).collect()
}

#[test]
fn every_public_declaration_is_in_the_index() {
    let output = String::from_utf8(index(&[]).stdout).unwrap();
    let places: Vec<&str> = output
        .lines()
        .filter_map(|line| line.split(": ").next())
        .collect();
    let mut specs = Vec::new();
    files(&root().join("crates"), ".antt", &mut specs);
    let mut count = 0;
    // Definitions and laws: all of specs/, and of proofs/ what is no proof of a function.
    let proof = ["Answers.antt", "Invariants.antt", "Proof.antt"];
    for file in specs.iter().filter(|file| {
        let law = !proof.contains(&file.file_name().unwrap().to_str().unwrap());
        file.iter().any(|part| part == "specs") || file.iter().any(|part| part == "proofs") && law
    }) {
        let place = file.strip_prefix(root()).unwrap().to_str().unwrap();
        for declaration in declared(file, place) {
            assert!(places.contains(&declaration.as_str()), "{declaration}");
            count += 1;
        }
    }
    assert!(count > 1000, "only {count} declarations");
}

#[test]
fn a_name_is_found_where_it_stands() {
    let found = String::from_utf8(index(&["judged"]).stdout).unwrap();
    assert!(found.starts_with("crates/judge/specs/Judged.antt:"));
    assert_eq!(found.lines().count(), 1);
    let found = String::from_utf8(index(&["isolation"]).stdout).unwrap();
    assert!(found.starts_with("crates/isolation/proofs/Theorem.antt:"));
    let found = String::from_utf8(index(&["apply"]).stdout).unwrap();
    assert!(found.starts_with("crates/apply/src/lib.rt:"));
    let none = index(&["no-such-name"]);
    assert_eq!(none.status.code(), Some(1));
    assert!(none.stdout.is_empty() && !none.stderr.is_empty());
}
