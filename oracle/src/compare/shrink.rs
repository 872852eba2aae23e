//! The smallest script that still shows something: lines are left out, then words of bytes are made shorter.

type Shows<'a> = &'a mut dyn FnMut(&[String]) -> Result<bool, String>;

/// The script without all that it does not need. Its last line stays.
pub fn smallest(
    script: &[String],
    mut shows: impl FnMut(&[String]) -> Result<bool, String>,
) -> Result<Vec<String>, String> {
    let mut script = script.to_vec();
    loop {
        let before = script.clone();
        fewer_lines(&mut script, &mut shows)?;
        shorter_words(&mut script, &mut shows)?;
        if script == before {
            return Ok(script);
        }
    }
}

/// Leaves out stretches of lines, half of them at first and single ones in the end.
fn fewer_lines(script: &mut Vec<String>, shows: Shows) -> Result<(), String> {
    let mut stretch = script.len() / 2;
    while stretch > 0 {
        let mut at = 0;
        while at + 1 < script.len() {
            let end = (at + stretch).min(script.len() - 1);
            let without = [&script[..at], &script[end..]].concat();
            if shows(&without)? {
                *script = without;
            } else {
                at = end;
            }
        }
        stretch /= 2;
    }
    Ok(())
}

/// Makes each word that is bytes in hex half as long, as often as that still shows it, and then a byte shorter.
fn shorter_words(script: &mut [String], shows: Shows) -> Result<(), String> {
    for i in 0..script.len() {
        for k in 1..script[i].split(' ').count() {
            for part in [2, 4096] {
                while let Some(line) = shorter(&script[i], k, part) {
                    let former = std::mem::replace(&mut script[i], line);
                    if !shows(script)? {
                        script[i] = former;
                        break;
                    }
                }
            }
        }
    }
    Ok(())
}

/// The line with its k-th word shorter by that part of its bytes, and by one at least.
fn shorter(line: &str, k: usize, part: usize) -> Option<String> {
    let mut words: Vec<&str> = line.split(' ').collect();
    let pairs = words[k].len() / 2;
    let hex = words[k].bytes().all(|b| matches!(b, b'0'..=b'9' | b'a'..=b'f'));
    if !hex || words[k].len() % 2 == 1 || pairs < 2 {
        return None;
    }
    words[k] = &words[k][..2 * (pairs - (pairs / part).max(1))];
    Some(words.join(" "))
}
