//! A difference in print.

use super::difference::{line_count, Difference};

/// Of a long text the report shows so many lines at the start and the end, and
/// of a long line so many bytes.
const SHOWN: usize = 40;
const WIDE: usize = 1000;

/// Bytes in print, a line on a line.
fn show(bytes: &[u8]) -> String {
    let lines: Vec<&[u8]> = bytes.split_inclusive(|&b| b == b'\n').collect();
    if lines.is_empty() {
        return "(nothing)\n".to_string();
    }
    let mut text = String::new();
    for (i, line) in lines.iter().enumerate() {
        if i == SHOWN && lines.len() > 2 * SHOWN {
            text += &format!("(and {} lines)\n", lines.len() - 2 * SHOWN);
        }
        if i >= SHOWN && i + SHOWN < lines.len() {
            continue;
        }
        let ended = line.strip_suffix(b"\n");
        let shown = ended.unwrap_or(line).escape_ascii().to_string();
        if shown.len() > WIDE {
            let (head, rest) = shown.split_at(WIDE);
            text += &format!("{head}... and {} more", rest.len());
        } else {
            text += &shown;
        }
        text += if ended.is_some() {
            "\n"
        } else {
            "  (no line feed)\n"
        };
    }
    text
}

/// A report of a difference.
pub fn report(difference: &Difference) -> String {
    let mut text = format!(
        "from: {}\ninput, {} lines:\n{}reference:\n{}program:\n{}",
        difference.name,
        line_count(&difference.input),
        show(&difference.input),
        show(&difference.expected),
        show(&difference.got.output),
    );
    if let Some(trouble) = &difference.got.trouble {
        text += &format!("program ended with: {trouble}\n");
    }
    text
}
