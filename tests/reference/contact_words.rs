//! Inputs of the program debouncer as text: `run NAME` before each; `settings 2/3 8/1 ..`, n and p of each contact, `all 2/3` for eight
//! alike, or `bytes 01 00 ..` for settings that are none; then the raw bits of each tick in hexadecimal, `5 times 0f` where they
//! stay for some. A line `= 3 1 0 0 0 0 0 0 0` says what is printed for the tick before it, `= 17` all that is printed for bad settings.

use crate::contacts;
use crate::debounce::{Setting, CONTACTS, SETTINGS};

pub struct Run {
    pub name: String,
    pub input: Vec<u8>,
    /// Lines that must be printed, with their numbers from 1 on; one without a number is all that is printed.
    pub expected: Vec<(Option<usize>, String)>,
}

pub fn read_file(text: &str) -> Result<Vec<Run>, String> {
    let mut runs: Vec<Run> = Vec::new();
    for (number, line) in text.lines().enumerate() {
        let line = line.split('#').next().unwrap_or("").trim();
        if line.is_empty() {
            continue;
        }
        if let Some(name) = line.strip_prefix("run ") {
            runs.push(Run { name: name.to_string(), input: Vec::new(), expected: Vec::new() });
            continue;
        }
        let read = runs.last_mut().and_then(|run| read_line(line, run));
        read.ok_or_else(|| format!("line {}: not understood: {line}", number + 1))?;
    }
    Ok(runs)
}

fn read_line(line: &str, run: &mut Run) -> Option<()> {
    if let Some(expected) = line.strip_prefix("= ") {
        let ticks = expected.contains(' ').then(|| run.input.len().saturating_sub(SETTINGS));
        run.expected.push((ticks, expected.to_string()));
        return Some(());
    }
    let words: Vec<&str> = line.split_whitespace().collect();
    match words[..] {
        ["settings", ref all @ ..] if all.len() == CONTACTS => {
            let settings: Vec<Setting> = all.iter().filter_map(|word| to_setting(word)).collect();
            run.input.extend(contacts::of_settings(&settings));
        }
        ["all", word] => run.input.extend(contacts::of_settings(&[to_setting(word)?; CONTACTS])),
        [times, "times", bits] => run.input.extend(vec![to_byte(bits)?; times.parse().ok()?]),
        ["bytes", ref bytes @ ..] | ref bytes => {
            for byte in bytes {
                run.input.push(to_byte(byte)?);
            }
        }
    }
    Some(())
}

fn to_byte(word: &str) -> Option<u8> {
    u8::from_str_radix(word, 16).ok()
}

fn to_setting(word: &str) -> Option<Setting> {
    let (n, p) = word.split_once('/')?;
    Some(Setting { n: n.parse().ok()?, p: p.parse().ok()? })
}
