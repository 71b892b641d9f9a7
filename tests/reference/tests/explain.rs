//! Call lines beside their answers in words.

use refmonitor::coverage::TABLE;
use refmonitor::damage::register_line;
use refmonitor::explain::{explain, refusal};
use refmonitor::inputs;
use refmonitor::lines::{run_bytes, BOOT};
use std::fs;
use std::io::Write;
use std::path::Path;
use std::process::{Command, Output, Stdio};

/// The rows for an input, with the answers of the reference.
fn rows(input: &[u8]) -> String {
    explain(input, &run_bytes(input)).unwrap()
}

#[test]
fn a_row_for_a_line() {
    let input = b"\
0,GT
0,BT,11,12,13,14,5,4,4,4,0,3,0,15,0,15,0,15
0,RD,0
0,EX,0
0,LK,0,3
0,WR,64,5
0,CR,1,1,21,2
0,CR,1,2,21,0
0,IN,1,32,12
0,LO,0
0,LO,255
0,GT
0,CA,0,0
4,RT
0,RT
";
    let wanted = "
 1  0,GT            0  done: 0 slots, 0 locked, whole lock not set
 2  0,BT,11,12,13,14,5,4,4,4,0,3,0,15,0,15,0,15   0  done
 3  0,RD,0          0  done, value 15
 4  0,EX,0          0  done, address 0
 5  0,LK,0,3        0  done, granted by the pair at 0
 6  0,WR,64,5       7  refused: the rights are not granted
 7  0,CR,1,1,21,2  14  refused: the account is not in the caller's set
 8  0,CR,1,2,21,0  15  refused: the account's pages would pass its limit
 9  0,IN,1,32,12    0  done
10  0,LO,0          0  done
11  0,LO,255        0  done
12  0,GT            0  done: 2 slots, 1 locked, whole lock set; pages 0, 32
13  0,CA,0,0        6  refused: the whole lock is set
14  4,RT            4  refused: the domain is above 3
15  0,RT           12  refused: nothing saved
";
    assert_eq!(rows(input), wanted[1..]);
    assert_eq!(rows(b""), "");
}

#[test]
fn calls_of_procedures() {
    let input = format!("{BOOT}\n0,RG,0,5,0,11,9\n0,WR,2,0\n0,WR,3,5\n0,CA,8,1\n0,CA,9,1\n0,GT\n");
    let rows = rows(input.as_bytes());
    let last: Vec<&str> = rows.lines().skip(4).collect();
    assert_eq!(
        last,
        [
            "5  0,CA,8,1          8  refused: the address is no entry",
            "6  0,CA,9,1          0  done, entered at 9",
            "7  0,GT              0  done: 1 slot, 0 locked, whole lock not set; page 0",
        ]
    );
}

#[test]
fn lines_that_cannot_be_read() {
    let wanted = "
1  \\xff,GT\\r    1  refused: the line is not readable
2               1  refused: the line is not readable
3  0,\\x00\\tgt   1  refused: the line is not readable
4  0,GT         1  refused: the line is not readable (no line feed)
";
    assert_eq!(rows(b"\xff,GT\r\n\n0,\0\tgt\n0,GT"), wanted[1..]);
}

/// Long lines are whole as far as they can be read, and widen no other row.
#[test]
fn long_lines() {
    let mut input = b"0,GT\n".to_vec();
    for length in [200, 201, 70_000] {
        input.extend(register_line(length));
        input.push(b'\n');
    }
    let rows = rows(&input);
    let rows: Vec<&str> = rows.lines().collect();
    assert!(rows[0].starts_with("1  0,GT   0  done"));
    let whole = String::from_utf8(register_line(200)).unwrap();
    assert!(rows[1].starts_with(&format!("2  {whole}   5  refused: ")));
    assert!(rows[2].contains("... (201 bytes)   1  refused: "));
    assert!(rows[3].contains("... (70000 bytes)   1  refused: "));
}

/// Every line of generated and damaged inputs has its row.
#[test]
fn any_input() {
    let seeds = 0..inputs::RUBBISH;
    let damaged = seeds.clone().map(|seed| inputs::rubbish(seed, 300));
    for input in seeds.map(|seed| inputs::input(seed, 500)).chain(damaged) {
        let output = String::from_utf8(run_bytes(&input)).unwrap();
        let rows = rows(&input);
        assert_eq!(rows.lines().count() + 1, output.lines().count());
        assert!(!rows.contains("no words"));
        for (row, answer) in rows.lines().zip(output.lines().skip(1)) {
            let fields: Vec<&str> = answer.split(',').collect();
            assert!(row.trim_start().starts_with(&format!("{}  ", fields[0])));
            let done = fields[1] == "0";
            let words = if done { "  done" } else { "  refused: " };
            assert!(row.contains(&format!(" {}{words}", fields[1])), "{row}");
        }
    }
}

#[test]
fn answers_to_something_else() {
    let answers = run_bytes(b"0,GT\n0,GT\n");
    assert!(explain(b"0,GT\n0,GT\n", &answers).is_some());
    assert!(explain(b"0,GT\n", &answers).is_none());
    assert!(explain(b"0,GT\n0,GT\n", &answers[..answers.len() - 1]).is_none());
    assert!(explain(b"", b"").is_none());
}

/// The numbers and letters of a text, word by word.
fn words(text: &str) -> Vec<&str> {
    let words = text.split(|c: char| !c.is_ascii_alphanumeric());
    words.filter(|word| !word.is_empty()).collect()
}

/// Every refusal that can occur has words, and they stand in that order in the
/// table of docs/CALLS.md.
#[test]
fn the_words_are_those_of_the_table() {
    let path = Path::new(env!("CARGO_MANIFEST_DIR")).join("../../docs/CALLS.md");
    let page = fs::read_to_string(path).unwrap();
    let table = page
        .split("\n## ")
        .find(|part| part.starts_with("The answers"));
    let reason = |answer: u8| {
        let row = format!("| {answer} | ");
        let mut lines = table.unwrap().lines();
        lines.find_map(|line| line.strip_prefix(&row)).unwrap()
    };
    for (letters, answers) in TABLE {
        for &answer in answers.iter().filter(|&&answer| answer != 0) {
            let said = refusal(letters, u64::from(answer));
            let mut there = words(reason(answer)).into_iter();
            let agree = words(said).iter().all(|word| there.any(|w| w == *word));
            assert!(agree, "{letters}, {answer}: {said}");
        }
    }
}

/// The program on a call file, with the answers as its standard input.
fn run(calls: &str, answers: &[u8]) -> Output {
    let mut child = Command::new(env!("CARGO_BIN_EXE_explain"))
        .arg(calls)
        .stdin(Stdio::piped())
        .stdout(Stdio::piped())
        .stderr(Stdio::piped())
        .spawn()
        .unwrap();
    // A program that does not read them shows in its output.
    drop(child.stdin.take().unwrap().write_all(answers));
    child.wait_with_output().unwrap()
}

#[test]
fn explain_as_a_process() {
    let path = Path::new(env!("CARGO_MANIFEST_DIR")).join("../../examples/booking.calls");
    let input = fs::read(&path).unwrap();
    let calls = path.to_str().unwrap();
    let ran = run(calls, &run_bytes(&input));
    assert!(ran.status.success());
    assert_eq!(String::from_utf8(ran.stdout).unwrap(), rows(&input));

    let ran = run(calls, b"line,answer,value\n");
    assert_eq!(ran.status.code(), Some(1));
    assert!(ran.stdout.is_empty());
    assert!(String::from_utf8(ran.stderr)
        .unwrap()
        .contains("line for a line"));
    assert_eq!(run("no-such-file", b"").status.code(), Some(1));
}
