//! docs/TRACE.md and docs/TRACE-02.md stay true: every path in them exists, and every name stands in the file beside it.

use std::fs;
use std::path::{Path, PathBuf};

fn root() -> PathBuf {
    Path::new(env!("CARGO_MANIFEST_DIR")).join("../..")
}

/// The texts between backticks.
fn quoted(text: &str) -> Vec<&str> {
    text.split('`').skip(1).step_by(2).collect()
}

fn word(c: char) -> bool {
    c.is_alphanumeric() || c == '_' || c == '-' || c == '′'
}

/// Whether the name stands in the text, not as a part of a longer one.
fn stands(text: &str, name: &str) -> bool {
    let whole = name.chars().all(word);
    text.match_indices(name).any(|(at, _)| {
        let before = text[..at].chars().next_back().is_some_and(word);
        let behind = text[at + name.len()..].chars().next().is_some_and(word);
        !whole || !(before || behind)
    })
}

/// What is wrong with one group of names and the file beside it.
fn wrong(names: &str, file: &str) -> Option<String> {
    let paths = quoted(file);
    let [path] = paths[..] else {
        return Some(format!("no single file in {file}"));
    };
    let Ok(text) = fs::read_to_string(root().join(path)) else {
        return Some(format!("no file {path}"));
    };
    if names == "edit" {
        return (!path.ends_with(".edit")).then(|| format!("{path} is no edit"));
    }
    let names = quoted(names);
    if names.is_empty() {
        return Some(format!("no name beside {path}"));
    }
    let missing = names.into_iter().find(|name| !stands(&text, name))?;
    Some(format!("{missing} is not in {path}"))
}

/// What is wrong with a row of a table, as its cells.
fn wrong_row(cells: &[&str]) -> Option<String> {
    let [_, names, files] = cells else {
        return Some("no row of three cells".into());
    };
    let names: Vec<&str> = names.split(';').map(str::trim).collect();
    let files: Vec<&str> = files.split(';').map(str::trim).collect();
    if names.len() != files.len() {
        return Some(format!(
            "{} groups of names, {} files",
            names.len(),
            files.len()
        ));
    }
    names
        .iter()
        .zip(files)
        .find_map(|(names, file)| wrong(names, file))
}

fn is_row(line: &str) -> bool {
    line.starts_with('|') && !line.starts_with("|---") && !line.starts_with("| What the paper")
}

/// The names in a document stand where it says, in so many rows at least.
fn stays_true(document: &str, rows: usize) {
    let trace = fs::read_to_string(root().join(document)).expect(document);
    let lines = trace.lines().enumerate().filter(|(_, line)| is_row(line));
    let found: Vec<String> = lines
        .filter_map(|(n, line)| {
            let cells: Vec<&str> = line.trim_matches('|').split('|').map(str::trim).collect();
            wrong_row(&cells).map(|why| format!("line {}: {why}", n + 1))
        })
        .collect();
    assert!(found.is_empty(), "{document}\n{}", found.join("\n"));
    let count = trace.lines().filter(|line| is_row(line)).count();
    assert!(count >= rows, "{document}: tables are missing");
}

#[test]
fn trace_names_stand_where_it_says() {
    stays_true("docs/TRACE.md", 100);
    stays_true("docs/TRACE-02.md", 40);
}

#[test]
fn a_wrong_row_is_found() {
    assert!(wrong("`bench`", "`Makefile`").is_none());
    assert!(wrong("`benc`", "`Makefile`").is_some());
    assert!(wrong("`bench`", "`Makefiles`").is_some());
    assert!(wrong("edit", "`Makefile`").is_some());
    assert!(wrong_row(&["a", "`bench`; `run`", "`Makefile`"]).is_some());
}
