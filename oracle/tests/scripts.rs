//! Whole scripts: random ones, those to record, and those in docs/FINDINGS.md.
use oracle::script::MAX_LINE;
use oracle::world::{answers, Mode};
use oracle::{fixed, gen};
use std::collections::BTreeMap;

const PARTS: [&str; 5] = ["crc", "alloc", "reader", "writer", "cursor"];

fn random(seed: u64, calls: usize, part: &str) -> String {
    let mut out = Vec::new();
    assert!(gen::script(seed, calls, part, &mut out));
    String::from_utf8(out).unwrap()
}

#[test]
fn the_same_seed_gives_the_same_script() {
    for part in PARTS {
        let script = random(5, 500, part);
        assert_eq!(script, random(5, 500, part));
        assert_ne!(script, random(6, 500, part));
        assert_eq!(script.lines().count(), 500);
        assert!(script.lines().all(|line| line.len() <= MAX_LINE));
    }
    assert!(!gen::script(5, 500, "nothing", &mut Vec::new()));
}

/// In range, the original never panics, and the rules have an answer to everything.
#[test]
fn run_and_rules_agree_where_both_answer() {
    for (seed, part) in PARTS.iter().enumerate() {
        let script = random(seed as u64, 8000, part);
        let (run, rules) = (
            answers(Mode::Run, &script).unwrap(),
            answers(Mode::Rules, &script).unwrap(),
        );
        assert_eq!(run.len(), 8000);
        for ((line, run), rules) in script.lines().zip(&run).zip(&rules) {
            assert!(
                run == rules || run == "unsupported",
                "{line:.100}: {run:.100}, {rules:.100}"
            );
            assert!(run != "panic" && rules != "unsupported", "{line:.100}");
        }
    }
}

/// Up to the first refusal, or the first state that only the rules have, the raw original answers the same.
#[test]
fn raw_agrees_up_to_the_first_refusal() {
    for seed in 0..60 {
        for part in PARTS {
            let script = random(seed, 150, part);
            let (run, raw) = (
                answers(Mode::Run, &script).unwrap(),
                answers(Mode::Raw, &script).unwrap(),
            );
            for ((line, run), raw) in script.lines().zip(&run).zip(&raw) {
                if run.starts_with("no ") || run == "unsupported" || raw == "unsupported" {
                    break;
                }
                assert!(run == raw, "{line:.100}: {run:.100}, {raw:.100}");
            }
        }
    }
}

/// Of those to record, the sums and the allocators are the original's alone; the rules answer the rest.
#[test]
fn the_scripts_to_record() {
    for name in PARTS {
        let lines = fixed::script(name).unwrap();
        assert!(lines.iter().all(|line| line.len() <= MAX_LINE));
        let told = answers(Mode::Rules, &lines.join("\n")).unwrap();
        assert!(told.iter().all(|answer| answer != "unsupported" && answer != "panic"));
        if ["crc", "alloc"].contains(&name) {
            assert_eq!(told, answers(Mode::Run, &lines.join("\n")).unwrap());
            assert_eq!(told, answers(Mode::Raw, &lines.join("\n")).unwrap());
        }
    }
    let calls = fixed::script("alloc").unwrap().join("\n");
    assert!((1..=256).all(|count| calls.contains(&format!("alloc reset {count} "))));
}

/// What a merge of sorted runs is, without a merge: the newest entry of each key, the deleted ones left out.
#[test]
fn a_merge_is_the_newest_of_each_key() {
    let mut state = 1u32;
    let mut below = |n: u32| {
        state = state.wrapping_mul(1664525).wrapping_add(1013904223);
        (state >> 16) % n
    };
    for _ in 0..200 {
        let mut newest = BTreeMap::new();
        let mut script = String::new();
        let mut end = 0;
        for _ in 0..below(18) {
            let run: BTreeMap<String, (u8, String)> = (0..below(6))
                .map(|_| {
                    (
                        format!("{:02x}", below(9)),
                        (u8::from(below(3) == 0), format!("{:04x}", below(65536))),
                    )
                })
                .collect();
            for (key, (kind, value)) in &run {
                script += &format!("runs bytes 4856{kind:02x}010200{key}{value}\n");
                end += 9;
            }
            script += &format!("runs end {end}\n");
            newest.extend(run);
        }
        let live = newest.iter().filter(|(_, (kind, _))| *kind == 0);
        let mut wanted: Vec<String> = live.map(|(key, (_, value))| format!("ok {key} {value}")).collect();
        wanted.push("end".into());
        script += "cursor new none -\n";
        script += &"cursor next none - 1 2\n".repeat(wanted.len());
        let told = answers(Mode::Run, &script).unwrap();
        assert_eq!(told[told.len() - wanted.len()..], wanted);
    }
}

/// Each block of calls in the document, with the answers that stand under a call: `# ` for both ways of asking, `# raw `
/// and `# rules ` for one.
#[test]
fn the_scripts_of_the_document() {
    let text = include_str!("../../docs/FINDINGS.md");
    let blocks: Vec<&str> = text
        .split("```script\n")
        .skip(1)
        .map(|rest| rest.split("```").next().unwrap())
        .collect();
    assert!(blocks.len() > 10);
    for block in blocks {
        for (mode, word, other) in [(Mode::Raw, "raw ", "rules "), (Mode::Rules, "rules ", "raw ")] {
            let mut told = answers(mode, block).unwrap().into_iter();
            let mut answer = String::new();
            for line in block.lines() {
                match line.strip_prefix("# ") {
                    None => answer = told.next().unwrap(),
                    Some(said) if said.starts_with(other) => {}
                    Some(said) => assert_eq!(said.strip_prefix(word).unwrap_or(said), answer, "{block}"),
                }
            }
        }
    }
}
