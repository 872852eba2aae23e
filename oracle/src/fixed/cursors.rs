//! The cursor: bounds of all kinds, the shortest and the longest keys and values, 17 runs, and every refusal.
use super::any;
use crate::images::record;
use crate::rng::Rng;
use crate::script::hex;
use std::collections::BTreeMap;

pub fn cursors() -> Vec<String> {
    let mut list = split("cursor state|cursor new none -|cursor next none - 1 1");
    list.extend(document_01());
    list.extend(bounds());
    list.extend(limits());
    for count in [2, 3, 9, 17] {
        list.extend(many(&mut Rng::new(count), count as usize));
    }
    list.extend(bad_records());
    list.extend(bad_runs());
    list
}

fn split(lines: &str) -> Vec<String> {
    lines.split('|').map(String::from).collect()
}

fn runs(runs: &[Vec<u8>]) -> Vec<String> {
    let mut list = split("runs new");
    let mut end = 0;
    for run in runs {
        end += run.len();
        list.extend([format!("runs bytes {}", hex(run)), format!("runs end {end}")]);
    }
    list
}

/// Calls of next, one more than there can be entries.
fn steps(count: usize, upper: &str) -> Vec<String> {
    vec![format!("cursor next {upper} 64 1024"); count + 1]
}

fn document_01() -> Vec<String> {
    let first = [record(0, b"a", b"1"), record(0, b"c", b"3")].concat();
    let second = [record(1, b"a", b""), record(0, b"b", b"2")].concat();
    let mut list = runs(&[first, second]);
    list.extend(split(
        "cursor new none -|cursor next none - 8 8|cursor next none - 8 8|cursor next none - 8 8",
    ));
    list.extend(split(
        "cursor new none -|cursor next none - 0 8|cursor state|cursor next none - 0 0|cursor state",
    ));
    list.extend(split(
        "cursor next none - 1 0|cursor next none - 1 1|cursor next none - 1 1|cursor next none - 0 0",
    ));
    list.extend(split("cursor state"));
    list
}

/// Every kind of lower bound with every kind of upper one, at a key that is there and at one that is not.
fn bounds() -> Vec<String> {
    let keys: [&[u8]; 5] = [b"", b"b", b"ba", b"c", b"d"];
    let first = keys.map(|key| record(0, key, b"1")).concat();
    let second = [record(1, b"b", b"gone"), record(0, b"bb", b"2"), record(0, b"d", b"2")].concat();
    let mut list = runs(&[first, Vec::new(), second]);
    let kinds = [
        "none -",
        "included 62",
        "excluded 62",
        "included 6261",
        "excluded 63",
        "included -",
        "excluded -",
    ];
    for lower in kinds {
        for upper in [
            "none 62",
            "included 6262",
            "excluded 6262",
            "included 64",
            "excluded 64",
            "excluded -",
        ] {
            list.extend([format!("cursor new {lower}"), "cursor state".into()]);
            list.extend(steps(6, upper));
        }
    }
    list.extend(split(
        "cursor new none -|cursor next excluded 62 8 8|cursor next included 62 8 8|cursor state",
    ));
    list.extend(split("cursor next none - 8 8|cursor state"));
    list
}

/// Empty keys and values, keys of 64, values of 1024, a bound longer than any key.
fn limits() -> Vec<String> {
    let (key, value) = ([0xFF; 64], [0x77; 1024]);
    let first = [
        record(0, b"", b""),
        record(0, &key[..63], &value[..1023]),
        record(0, &key, b""),
    ]
    .concat();
    let second = [record(1, b"", &value), record(0, b"\x00", b""), record(0, &key, &value)].concat();
    let mut list = runs(&[first, second]);
    list.extend(split(
        "cursor new none -|cursor next none - 0 0|cursor next none - 64 1024|cursor next none - 63 1022",
    ));
    list.extend(split(
        "cursor next none - 63 1023|cursor next none - 63 1024|cursor next none - 64 1023|cursor state",
    ));
    list.extend(steps(1, "none -"));
    let bound = hex(&[0xFF; 65]);
    list.extend(split(&format!(
        "cursor new included {bound}|cursor state|cursor new none -"
    )));
    list.extend(steps(4, &format!("excluded {bound}")));
    list
}

/// So many runs of random records with few keys, a third of them deletions.
fn many(rng: &mut Rng, count: usize) -> Vec<String> {
    let mut all = Vec::new();
    for _ in 0..count {
        let keys: BTreeMap<u8, Vec<u8>> = (0..rng.below(9)).map(|_| (rng.below(12) as u8, vec![])).collect();
        let one = |key: &u8| {
            let (deleted, length) = (rng.once_in(3), rng.below(4));
            record(u8::from(deleted), &[b'a' + key], &any(rng, length))
        };
        all.push(keys.keys().flat_map(one).collect());
    }
    let mut list = runs(&all);
    for (lower, upper) in [
        ("none -", "none -"),
        ("included 63", "excluded 6a"),
        ("excluded 63", "included 6a"),
    ] {
        list.extend([format!("cursor new {lower}"), "cursor state".into()]);
        list.extend(steps(12, upper));
    }
    list
}

/// Each check of a record, behind a good record of the same run and beside a run with a lower and a higher key.
fn bad_records() -> Vec<String> {
    let good = record(0, b"c", b"xyz");
    let mut bad: Vec<Vec<u8>> = [2, 127, 128, 255].map(|kind| record(kind, b"c", b"")).to_vec();
    bad.extend([
        record(0, &[b'c'; 65], b""),
        record(0, b"c", &[0; 1025]),
        record(3, &[b'c'; 65], b""),
    ]);
    bad.extend([1, 5, 6, 9].map(|length| good[..length].to_vec()));
    bad.extend([0, 1].map(|at| [&good[..at], &[0x57], &good[at + 1..]].concat()));
    let mut list = Vec::new();
    for bytes in bad {
        let first = [record(0, b"a", b"1"), bytes].concat();
        let second = [record(0, b"a", b"2"), record(1, b"b", b""), record(0, b"d", b"4")].concat();
        list.extend(runs(&[record(0, b"", b"0"), first, second]));
        list.extend(split(
            "cursor new none -|cursor next none - 8 8|cursor next none - 8 8|cursor next none - 8 8",
        ));
        list.extend(split(
            "cursor state|cursor next none - 8 8|cursor new included 62|cursor state|cursor new included 61",
        ));
        list.extend(split("cursor state|cursor next none - 8 8"));
    }
    list
}

/// Ends that fall, that pass the buffer, and one too many; places out of their runs.
fn bad_runs() -> Vec<String> {
    let run = record(0, b"a", b"1");
    let mut list = runs(&[run.clone(), run]);
    let gone = " gone".repeat(15);
    for places in ["0 0", "8 8", "9 0", "0 9", "gone 3", "gone gone"] {
        list.extend([format!("cursor forge {places}{gone}"), "cursor next none - 8 8".into()]);
    }
    list.push(format!("cursor forge 0 0 0{}", " gone".repeat(14)));
    list.extend(split(
        "cursor next none - 8 8|runs end 8|cursor new none -|cursor next none - 8 8|cursor state",
    ));
    list.extend(runs(&[record(0, b"a", b"1")]));
    list.extend(split(
        "runs end 9|cursor new none -|runs new|runs bytes 4856|cursor new none -|cursor next none - 8 8",
    ));
    list.extend(vec!["runs end 0".into(); 17]);
    list.extend(split(
        "cursor new none -|cursor state|cursor next none - 8 8|runs end 0|cursor new none -",
    ));
    list.extend(split("cursor next none - 8 8"));
    list
}
