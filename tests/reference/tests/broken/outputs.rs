//! Outputs out of form, and unusual ends.

use crate::found;
use refmonitor::compare::{in_form, report, Ran};
use refmonitor::lines::run_bytes;

type Fault = fn(Vec<u8>) -> Vec<u8>;

#[test]
fn a_line_for_a_line() {
    assert!(in_form(b"", b"line,answer,value\n"));
    assert!(in_form(
        b"0,GT\nx",
        b"line,answer,value\n1,0,1,2,0\n2,1,0\n"
    ));
    for bad in [
        "",
        "line,answer,value\n",
        "line,answer,value\n1,1,0",
        "line,answer,value\n1,1,0\n2,1,0\n",
        "line,answer,value\n0,1,0\n",
        "line,answer,value\n1,2,0\n",
        "line,answer,value\n1,1,5\n",
        "line,answer,value\n1,1\n",
        "line,answer,value\n1,01,0\n",
        "line,answer,value\n1,0,18446744073709551616\n",
        "line,answer,values\n1,1,0\n",
    ] {
        assert!(!in_form(b"x", bad.as_bytes()), "{bad}");
    }
}

#[test]
fn output_faults_are_found() {
    let ways: [(&str, Fault); 4] = [
        ("no header", |out| out[18..].to_vec()),
        ("carriage returns", |out| {
            String::from_utf8(out).unwrap().replace('\n', "\r\n").into()
        }),
        ("no last line feed", |mut out| {
            out.pop();
            out
        }),
        ("one line too many", |mut out| {
            out.push(b'\n');
            out
        }),
    ];
    for (name, fault) in ways {
        let mut other = |input: &[u8], _| Ran::well(fault(run_bytes(input)));
        found(name, &mut other, 1);
    }
}

#[test]
fn a_crash_is_found() {
    let mut other = |input: &[u8], _| {
        let crash = input.windows(4).any(|w| w == b",LO,");
        Ran {
            output: run_bytes(input),
            trouble: crash.then(|| "a crash".to_string()),
        }
    };
    let short = found("crash", &mut other, 1);
    assert!(report(&short).contains("a crash"));
}
