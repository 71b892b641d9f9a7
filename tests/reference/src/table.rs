//! Tables in the form in which docs/PERFORMANCE.md has them.

/// Prints a table, its columns as wide as they must be, numbers to the right.
pub fn table(rows: &[Vec<String>]) {
    let width = |i: usize| rows.iter().map(|row| row[i].chars().count()).max();
    for (at, row) in rows.iter().enumerate() {
        let cells = row.iter().enumerate().map(|(i, cell)| {
            let wide = width(i).unwrap_or(0);
            match cell.starts_with(|c: char| c.is_ascii_digit()) {
                true => format!("{cell:>wide$}"),
                false => format!("{cell:wide$}"),
            }
        });
        println!("| {} |", cells.collect::<Vec<_>>().join(" | "));
        if at == 0 {
            println!("|{}", "---|".repeat(row.len()));
        }
    }
    println!();
}

/// A row of texts.
pub fn texts(cells: &[&str]) -> Vec<String> {
    cells.iter().map(|cell| cell.to_string()).collect()
}

/// A number with commas between the thousands.
pub fn thousands(n: f64) -> String {
    let digits = format!("{:.0}", n.abs());
    let mut text = String::from(if n <= -0.5 { "-" } else { "" });
    for (i, c) in digits.chars().enumerate() {
        if i > 0 && (digits.len() - i) % 3 == 0 {
            text.push(',');
        }
        text.push(c);
    }
    text
}

#[test]
fn commas_between_the_thousands() {
    let numbers = [0.4, 999.0, 1_000.0, 1_234_567.0, -999.0, -1_000.0, -0.4];
    let texts = ["0", "999", "1,000", "1,234,567", "-999", "-1,000", "0"];
    assert_eq!(numbers.map(thousands), texts);
}
