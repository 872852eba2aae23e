//! `compare`, on the oracle's own two other voices: `rules` is the same, and `raw` departs where the rules do.
use std::process::{Command, Output};

fn compare(mode: &str, part: &str) -> Output {
    let oracle = env!("CARGO_BIN_EXE_oracle");
    let options = [
        "compare", "--seed", "1", "--calls", "9000", "--part", part, oracle, mode,
    ];
    Command::new(oracle).args(options).output().unwrap()
}

#[test]
fn the_same_answers_show_no_difference() {
    let output = compare("rules", "all");
    let text = String::from_utf8(output.stdout).unwrap();
    assert!(output.status.success(), "{text}");
    let words: Vec<&str> = text.split(' ').collect();
    let (lines, calls, own): (usize, usize, usize) = (
        words[0].parse().unwrap(),
        words[5].parse().unwrap(),
        words[13].parse().unwrap(),
    );
    assert!(own <= calls && 9000 <= calls && calls < lines, "{text}");
    assert!(text.contains(" no difference;"), "{text}");
}

/// Each part has a departure that some seed meets, and it comes down to a handful of calls.
#[test]
fn a_difference_is_made_small() {
    for part in ["alloc", "reader", "writer", "cursor"] {
        let output = compare("raw", part);
        let text = String::from_utf8(output.stdout).unwrap();
        assert_eq!(output.status.code(), Some(1), "{part}: {text}");
        let calls = text.lines().filter(|line| !line.starts_with('#')).count();
        assert!((1..=8).contains(&calls), "{part}: {text}");
        assert_eq!(
            text.lines().filter(|line| line.starts_with('#')).count(),
            2,
            "{part}: {text}"
        );
    }
}

#[test]
fn a_program_that_is_not_there_is_said() {
    let oracle = env!("CARGO_BIN_EXE_oracle");
    let options = [
        "compare",
        "--seed",
        "1",
        "--calls",
        "9",
        "--part",
        "crc",
        "no-such-program",
    ];
    let output = Command::new(oracle).args(options).output().unwrap();
    assert_eq!(output.status.code(), Some(1));
    assert!(String::from_utf8(output.stderr)
        .unwrap()
        .starts_with("oracle: no-such-program: "));
}
