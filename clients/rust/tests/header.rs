//! The crate beside include/reshqobi.h: the same lengths and answers, the same
//! functions with the same parameters; and its words beside the documents'.

use reshqobi::*;
use std::collections::BTreeMap;

const HEADER: &str = include_str!("../../../include/reshqobi.h");
const SYS: &str = include_str!("../src/sys.rs");
const CALLS: &str = include_str!("../../../docs/CALLS.md");
const IMAGE: &str = include_str!("../../../docs/IMAGE.md");

/// The header without its comments.
fn header() -> String {
    let mut text = String::new();
    for (i, piece) in HEADER.split("/*").enumerate() {
        let code = match i {
            0 => piece,
            _ => piece.split_once("*/").expect("a comment ends").1,
        };
        text += code;
    }
    text
}

/// The numbers that the header defines, by their names without RESHQOBI_.
fn numbers() -> BTreeMap<String, u64> {
    let header = header();
    let lines = header.lines().filter_map(|line| {
        let mut words = line.strip_prefix("#define RESHQOBI_")?.split_whitespace();
        Some((words.next()?.to_string(), words.next()?.parse().ok()?))
    });
    lines.collect()
}

/// A name of the crate in the header's form: NoDomain as NO_DOMAIN.
fn in_capitals(name: &str) -> String {
    let mut text = String::new();
    for c in name.chars() {
        if c.is_uppercase() && !text.is_empty() {
            text.push('_');
        }
        text.push(c.to_ascii_uppercase());
    }
    text
}

#[test]
fn the_numbers_are_the_header_s() {
    let mut mine: BTreeMap<String, u64> = [
        ("IMAGE_BYTES", IMAGE_BYTES as u64),
        ("STORE_BYTES", STORE_BYTES as u64),
        ("VALUES_BYTES", VALUES_BYTES as u64),
        ("STORE_WORDS", STORE_WORDS as u64),
        ("VALUES", VALUES as u64),
        ("DONE", DONE),
        ("WHOLE_LOCK", WHOLE_LOCK),
    ]
    .map(|(name, number)| (name.to_string(), number))
    .into();
    for refusal in Refusal::ALL {
        mine.insert(in_capitals(&format!("{refusal:?}")), refusal.number());
    }
    assert_eq!(mine, numbers());
}

/// RESHQOBI_AMPLE has the limits, then each domain's account and set.
#[test]
fn the_ample_plan_is_the_header_s() {
    let header = header();
    let (_, ample) = header
        .split_once("#define RESHQOBI_AMPLE ")
        .expect("the ample accounts");
    let numbers = ample.lines().next().expect("a line").split(", ");
    let numbers: Vec<u64> = numbers.map(|n| n.parse().expect("a number")).collect();
    let plan = Plan::ample([5, 6, 7, 8]);
    assert_eq!(plan.homes, [5, 6, 7, 8]);
    let domains = (0..4).flat_map(|d| [plan.accounts[d], plan.sets[d]]);
    let mine: Vec<u64> = plan.limits.into_iter().chain(domains).collect();
    assert_eq!(mine, numbers);
}

/// A function's name, and its parameters as name and Rust type.
type Function = (String, Vec<(String, String)>);

/// The functions of a text: a word before each name, and a reading of a
/// parameter.
fn functions(text: &str, word: &str, parameter: fn(&str) -> (String, String)) -> Vec<Function> {
    let start = format!("{word} reshqobi_");
    let pieces = text.split(&start).skip(1);
    let function = |piece: &str| {
        let (name, rest) = piece.split_once('(').expect("parameters");
        let (inside, _) = rest.split_once(')').expect("an end");
        let inside = inside.split(',').map(str::trim).filter(|p| !p.is_empty());
        (name.to_string(), inside.map(parameter).collect())
    };
    pieces.map(function).collect()
}

fn of_rust(parameter: &str) -> (String, String) {
    let (name, kind) = parameter.split_once(": ").expect("a type");
    (name.to_string(), kind.to_string())
}

fn of_c(parameter: &str) -> (String, String) {
    let at = parameter.rfind([' ', '*']).expect("a type") + 1;
    let (kind, name) = parameter.split_at(at);
    let kind = match kind.trim() {
        "uint8_t *" => "*mut u8",
        "size_t" => "usize",
        "uint64_t" => "u64",
        other => other,
    };
    (name.to_string(), kind.to_string())
}

#[test]
fn the_functions_are_the_header_s() {
    let header = header();
    let (_, slices) = header
        .split_once("#define RESHQOBI_SLICES")
        .expect("the slices");
    let slices = slices.replace("\\\n", "");
    let slices = slices.lines().next().expect("a line").trim();
    let whole = header.replace("(RESHQOBI_SLICES", &format!("({slices}"));
    let theirs = functions(&whole, "uint64_t", of_c);
    assert_eq!(theirs.len(), 16);
    assert!(theirs.iter().all(|(_, parameters)| parameters.len() > 6));
    assert_eq!(functions(SYS, "pub fn", of_rust), theirs);
}

/// A text with one blank wherever it has any.
fn plain(text: &str) -> String {
    text.split_whitespace().collect::<Vec<_>>().join(" ")
}

#[test]
fn the_words_are_the_documents() {
    for refusal in Refusal::ALL {
        let number = refusal.number();
        let found = match refusal {
            Refusal::Unreadable => plain(IMAGE).contains(&format!("{number} where {refusal};")),
            _ => CALLS.contains(&format!("\n| {number} | {refusal} |\n")),
        };
        assert!(found, "{number}: {refusal}");
        assert_eq!(Refusal::of(number), Some(refusal));
    }
    assert_eq!([0, 1, 3, 16, u64::MAX].map(Refusal::of), [None; 5]);
}
