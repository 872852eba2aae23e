//! `oracle run`, `rules` or `raw` answers a script from standard input; `gen` makes a random one, `fixed` one to record;
//! `compare` holds another program's answers to ours.
use oracle::compare::{Compared, Difference, Program};
use oracle::world::{Mode, World};
use oracle::{compare, fixed, gen};
use std::io::{BufRead, BufWriter, Write};

const USAGE: &str = "usage: oracle run|rules|raw < SCRIPT
       oracle gen --seed S --calls N --part crc|alloc|reader|writer|cursor|all
       oracle fixed crc|alloc|reader|writer|cursor
       oracle compare --seed S --calls N --part crc|alloc|reader|writer|cursor|all PROGRAM [ARGUMENT..]";

fn main() {
    let arguments: Vec<String> = std::env::args().skip(1).collect();
    let words: Vec<&str> = arguments.iter().map(String::as_str).collect();
    match words[..] {
        ["run"] => answer(Mode::Run),
        ["rules"] => answer(Mode::Rules),
        ["raw"] => answer(Mode::Raw),
        ["gen", "--seed", seed, "--calls", calls, "--part", part] => generate(seed, calls, part),
        ["fixed", name] => record(name),
        ["compare", "--seed", seed, "--calls", calls, "--part", part, ref program @ ..] if !program.is_empty() => {
            hold(seed, calls, part, program)
        }
        _ => stop(USAGE),
    }
}

fn answer(mode: Mode) {
    let mut world = World::new(mode);
    let mut out = BufWriter::new(std::io::stdout().lock());
    for (i, line) in std::io::stdin().lock().lines().enumerate() {
        match line.map_err(|e| e.to_string()).and_then(|line| world.line(&line)) {
            Ok(Some(text)) => writeln!(out, "{text}").unwrap(),
            Ok(None) => {}
            Err(why) => {
                out.flush().unwrap();
                stop(&format!("oracle: line {}: {why}", i + 1))
            }
        }
    }
}

fn generate(seed: &str, calls: &str, part: &str) {
    let (Ok(seed), Ok(calls)) = (seed.parse(), calls.parse()) else {
        stop(USAGE)
    };
    let mut out = BufWriter::new(std::io::stdout().lock());
    if !gen::script(seed, calls, part, &mut out) {
        stop(USAGE);
    }
}

fn record(name: &str) {
    let Some(lines) = fixed::script(name) else { stop(USAGE) };
    let mut out = BufWriter::new(std::io::stdout().lock());
    for line in lines {
        writeln!(out, "{line}").unwrap();
    }
}

fn hold(seed: &str, calls: &str, part: &str, program: &[&str]) {
    let (Ok(seed), Ok(calls)) = (seed.parse(), calls.parse()) else {
        stop(USAGE)
    };
    let program = Program {
        words: program.to_vec(),
    };
    let mut compared = Compared::default();
    match compare::compare(&program, seed, calls, part, &mut compared) {
        Ok(None) => {
            let Compared {
                lines,
                calls,
                by_the_original,
            } = compared;
            println!(
                "{lines} lines compared, no difference; {calls} are calls of the original, which answered {by_the_original} of them by itself"
            );
        }
        Ok(Some(Difference { script, ours, theirs })) => {
            println!("{}", script.join("\n"));
            println!("# the oracle: {ours}");
            println!("# {}: {theirs}", program.words.join(" "));
            stop(&format!(
                "oracle: a difference after {} lines without one",
                compared.lines
            ))
        }
        Err(why) => stop(&format!("oracle: {why}")),
    }
}

fn stop(why: &str) -> ! {
    eprintln!("{why}");
    std::process::exit(1)
}
