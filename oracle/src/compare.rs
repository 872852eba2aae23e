//! Random scripts through a program over the proved library, its lines held to ours.
mod shrink;

use crate::gen;
use crate::world::{answers, Mode};
use std::io::Write;
use std::process::{Command, Stdio};
use std::thread;

/// Lines of one script, and the bytes that `replay` has room for.
const SCRIPT_LINES: usize = 3000;
const SCRIPT_BYTES: usize = 1_048_575;

/// The program that is compared: its name and its arguments.
pub struct Program<'a> {
    pub words: Vec<&'a str>,
}

/// What was compared: lines, those of them that ask something which the original has, and those that it answered by itself.
#[derive(Default)]
pub struct Compared {
    pub lines: usize,
    pub calls: usize,
    pub by_the_original: usize,
}

/// Whether a line is a call of the original, and not one that sets a state up, shows it, or asks what only the rules have.
fn asks_the_original(line: &str) -> bool {
    let mut words = line.split(' ');
    match (words.next(), words.next()) {
        (Some("crc"), _) => true,
        (Some("alloc" | "reader" | "writer" | "cursor"), Some(call)) => !matches!(
            call,
            "forge" | "state" | "left" | "margin" | "try_allocate_each" | "free_each"
        ),
        _ => false,
    }
}

/// The smallest script found whose last call gets another answer, and both answers.
#[derive(Debug)]
pub struct Difference {
    pub script: Vec<String>,
    pub ours: String,
    pub theirs: String,
}

impl Program<'_> {
    /// The lines that the program prints for a script, and where it says something on standard error, that in the end.
    fn lines(&self, script: &str) -> Result<Vec<String>, String> {
        let said = |e: std::io::Error| format!("{}: {e}", self.words[0]);
        let mut child = Command::new(self.words[0])
            .args(&self.words[1..])
            .stdin(Stdio::piped())
            .stdout(Stdio::piped())
            .stderr(Stdio::piped())
            .spawn()
            .map_err(said)?;
        let mut stdin = child.stdin.take().unwrap();
        let script = script.to_string();
        // A program that stops early closes its end: what it printed until then is compared.
        let feeding = thread::spawn(move || drop(stdin.write_all(script.as_bytes())));
        let output = child.wait_with_output().map_err(said)?;
        feeding.join().unwrap();
        let text = |bytes: &[u8]| String::from_utf8_lossy(bytes).into_owned();
        let mut lines: Vec<String> = text(&output.stdout).lines().map(String::from).collect();
        if !output.stderr.is_empty() {
            lines.push(text(&output.stderr).trim_end().into());
        }
        Ok(lines)
    }

    /// The first call of a script that gets another answer, with our answer and theirs.
    fn first_difference(&self, script: &[String]) -> Result<Option<(usize, String, String)>, String> {
        let text: String = script.iter().flat_map(|line| [line.as_str(), "\n"]).collect();
        let (ours, theirs) = (answers(Mode::Rules, &text)?, self.lines(&text)?);
        let none = || "nothing".to_string();
        let differs = (0..ours.len().max(theirs.len())).find(|&i| ours.get(i) != theirs.get(i));
        Ok(differs.map(|i| {
            let answer = |lines: &[String]| lines.get(i).cloned().unwrap_or_else(none);
            (i.min(script.len() - 1), answer(&ours), answer(&theirs))
        }))
    }

    /// Compares a script. Each of its lines is a call.
    fn compare(&self, script: &[String]) -> Result<Option<Difference>, String> {
        let Some((at, ..)) = self.first_difference(script)? else {
            return Ok(None);
        };
        let script = shrink::smallest(&script[..=at], |script| {
            Ok(matches!(self.first_difference(script), Ok(Some((at, ..))) if at + 1 == script.len()))
        })?;
        let (_, ours, theirs) = self.first_difference(&script)?.ok_or("it differs only now and then")?;
        Ok(Some(Difference { script, ours, theirs }))
    }
}

/// A random script that `replay` has room for.
fn script(seed: u64, lines: usize, part: &str) -> Result<Vec<String>, String> {
    let mut out = Vec::new();
    if !gen::script(seed, lines, part, &mut out) {
        return Err(format!("no part is called {part}"));
    }
    let mut room = SCRIPT_BYTES;
    let text = String::from_utf8(out).unwrap();
    let fits = |line: &&str| {
        let before = room;
        room = room.saturating_sub(line.len() + 1);
        before > line.len()
    };
    Ok(text.lines().take_while(fits).map(String::from).collect())
}

/// Compares so many calls of the original, in scripts from this seed on, up to the first difference.
pub fn compare(
    program: &Program,
    seed: u64,
    calls: usize,
    part: &str,
    compared: &mut Compared,
) -> Result<Option<Difference>, String> {
    for seed in seed.. {
        if compared.calls >= calls {
            break;
        }
        let script = script(seed, SCRIPT_LINES, part)?;
        if let Some(difference) = program.compare(&script)? {
            return Ok(Some(difference));
        }
        let text: String = script.iter().flat_map(|line| [line.as_str(), "\n"]).collect();
        let own = answers(Mode::Run, &text)?;
        let asked = || script.iter().zip(&own).filter(|(line, _)| asks_the_original(line));
        compared.lines += script.len();
        compared.calls += asked().count();
        compared.by_the_original += asked().filter(|(_, answer)| *answer != "unsupported").count();
    }
    Ok(None)
}
