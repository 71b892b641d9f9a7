//! Every form of an unreadable line, and lines that are only just readable.

use refmonitor::damage::{boot_line, damage, register_line, FORMS};
use refmonitor::generate::Line;
use refmonitor::inputs;
use refmonitor::lines::{number, read, run_bytes, BOOT, LETTERS};
use refmonitor::random::Random;

fn output(input: &[u8]) -> String {
    String::from_utf8(run_bytes(input)).unwrap()
}

/// The answer and value of a line after a boot.
fn answer(line: &[u8]) -> String {
    let mut input = format!("{BOOT}\n").into_bytes();
    input.extend_from_slice(line);
    input.push(b'\n');
    let output = output(&input);
    output.lines().nth(2).unwrap()[2..].to_string()
}

#[test]
fn every_form_of_damage() {
    let mut random = Random::new(7);
    for (letters, count) in LETTERS {
        for extra in 0..3 {
            let mut args: Vec<u64> = (1..=count as u64).collect();
            if letters == "RG" {
                args.extend(0..extra);
            }
            let line = Line::new(random.below(4), letters, &args);
            assert!(read(&line.bytes()).is_some());
            for form in FORMS {
                for _ in 0..20 {
                    let bytes = damage(&line, form, &mut random);
                    assert!(!bytes.contains(&b'\n'));
                    let text = bytes.escape_ascii();
                    assert!(read(&bytes).is_none(), "{form:?}: {text}");
                }
            }
        }
    }
}

#[test]
fn field_counts() {
    // Only RG is readable with more than its fields.
    for (letters, count) in LETTERS {
        for have in 0..20 {
            let line = Line::new(0, letters, &vec![1; have]).bytes();
            let readable = have == count || letters == "RG" && have > 4;
            assert_eq!(read(&line).is_some(), readable, "{letters} {have}");
        }
    }
}

#[test]
fn two_hundred_bytes() {
    for length in 14..=200 {
        let line = register_line(length);
        assert_eq!(line.len(), length);
        assert!(read(&line).is_some(), "{length}");
    }
    for length in 36..=200 {
        let line = boot_line(length);
        assert_eq!(line.len(), length);
        assert!(read(&line).is_some(), "{length}");
    }
    assert_eq!(answer(&boot_line(200)), "5,0");
    assert_eq!(answer(&boot_line(201)), "1,0");
    assert_eq!(answer(&boot_line(340)), "1,0");
    assert_eq!(answer(&register_line(200)), "5,0");
    assert_eq!(answer(&register_line(201)), "1,0");
    assert_eq!(answer(&register_line(202)), "1,0");
    assert_eq!(answer(&register_line(100_000)), "1,0");
    // A longer line is one line, and the next is read as usual.
    let mut input = vec![b'0'; 70_000];
    input.extend_from_slice(b"\n0,GT\n");
    assert_eq!(output(&input), "line,answer,value\n1,1,0\n2,0,0,0,0\n");
    // Not its first 200 bytes, nor its last.
    let mut input = b"0,GT".to_vec();
    input.resize(70_000, b' ');
    input.extend_from_slice(b"0,GT\n");
    assert_eq!(output(&input), "line,answer,value\n1,1,0\n");
}

#[test]
fn last_line_without_its_line_feed() {
    let header = "line,answer,value\n";
    assert_eq!(output(b"0,GT"), format!("{header}1,1,0\n"));
    assert_eq!(output(b"0"), format!("{header}1,1,0\n"));
    assert_eq!(output(b"0,GT\n0,GT"), format!("{header}1,0,0,0,0\n2,1,0\n"));
    assert_eq!(output(b"0,GT\n"), format!("{header}1,0,0,0,0\n"));
    assert_eq!(output(b"\n"), format!("{header}1,1,0\n"));
    assert_eq!(output(b"\n\n"), format!("{header}1,1,0\n2,1,0\n"));
    // It has no effect.
    assert_eq!(output(b"0,LO,255"), format!("{header}1,1,0\n"));
    assert_eq!(output(&register_line(200)), format!("{header}1,1,0\n"));
    assert_eq!(output(&register_line(9999)), format!("{header}1,1,0\n"));
}

#[test]
fn numbers() {
    assert_eq!(number(b"0"), Some(0));
    assert_eq!(number(b"10"), Some(10));
    assert_eq!(number(b"18446744073709551615"), Some(u64::MAX));
    for bad in [
        "",
        "00",
        "01",
        "18446744073709551616",
        "18446744073709551620",
        "99999999999999999999",
        "100000000000000000000",
        "1 ",
        "a",
        "/",
        ":",
    ] {
        assert_eq!(number(bad.as_bytes()), None, "{bad}");
    }
}

#[test]
fn generated_ends() {
    // Some generated inputs leave off the last line feed.
    let cut = inputs::input(3, 50);
    assert!(inputs::cuts_end(3) && cut.last() != Some(&b'\n'));
    let whole = inputs::input(4, 50);
    assert_eq!(whole.last(), Some(&b'\n'));
    assert_eq!(whole.iter().filter(|&&b| b == b'\n').count(), 50);
    assert_eq!(inputs::input(4, 0), b"");
}

#[test]
fn any_buffer_size_reads_the_same() {
    use refmonitor::lines::run;
    use std::io::BufReader;
    for seed in 0..inputs::RUBBISH {
        let input = inputs::rubbish(seed, 100);
        let input = &input[..input.len().min(40_000)];
        let whole = run_bytes(input);
        for size in [1, 2, 7, 200, 201, 4096] {
            let mut output = Vec::new();
            run(BufReader::with_capacity(size, input), &mut output).unwrap();
            assert_eq!(output, whole, "way {seed}, buffer {size}");
        }
    }
}
