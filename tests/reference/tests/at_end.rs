//! The programs that print at the end alone, as processes and on the examples.

use refmonitor::compare::{run_program, Feed, Ran, Reference, FIGURES, OBJECTS};
use refmonitor::inputs;
use std::fs;
use std::path::Path;

/// A program, what it should print, what it prints before a boot, and how the
/// files beside the examples end.
type Program = (&'static str, Reference, &'static str, &'static str);

const PROGRAMS: [Program; 2] = [
    (
        env!("CARGO_BIN_EXE_accounts"),
        FIGURES,
        "0,0\n1,0\n2,0\n3,0\n",
        "figures",
    ),
    (
        env!("CARGO_BIN_EXE_objects"),
        OBJECTS,
        "base,pages,account,passwords,pdx\n",
        "objects",
    ),
];

#[test]
fn as_processes() {
    for (program, reference, before, _) in PROGRAMS {
        for seed in [3, 4, 5] {
            let input = inputs::input(seed, 700);
            let expected = (reference.output)(&input);
            assert!((reference.in_form)(&input, &expected));
            for feed in [Feed::File, Feed::Pipe, Feed::Pieces(100)] {
                let ran = run_program(program, &input, feed).unwrap();
                assert_eq!(ran, Ran::well(expected.clone()));
            }
        }
        for input in [&b""[..], b"0,GT\n0,CR,0,1,5,0\n"] {
            let ran = run_program(program, input, Feed::Pipe).unwrap();
            assert_eq!(ran, Ran::well(before.into()));
        }
    }
}

/// What is printed for each example is written down beside it.
#[test]
fn of_the_examples() {
    let folder = Path::new(env!("CARGO_MANIFEST_DIR")).join("../../examples");
    let mut count = 0;
    for entry in fs::read_dir(folder).unwrap() {
        let path = entry.unwrap().path();
        if path.extension().is_some_and(|kind| kind == "calls") {
            let input = fs::read(&path).unwrap();
            for (_, reference, _, kind) in PROGRAMS {
                let written = fs::read(path.with_extension(kind)).unwrap();
                let printed = (reference.output)(&input);
                assert_eq!(written, printed, "{}", path.display());
            }
            count += 1;
        }
    }
    assert!(count >= 6);
}
