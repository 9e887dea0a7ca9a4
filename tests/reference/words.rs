//! Logs as text in the words of document 01, both ways.
//!
//! CREATE 5 1 / DELAY -1 / CALL 1 1 timed 3 / SELECT 1,2 delay 2 / SELECT none plain / END / FINISH / TICK / ADVANCE 1000; raw bytes are
//! `bytes 07 00`. A file of logs has `log NAME` before each, then perhaps `clock N`, then the calls, `N times CALL` where
//! one comes N times; a line `= 0 10 0 0 0 1 | 2 3 1 1` says what is printed for the call before it, behind its step
//! number.

use crate::calls::{self, Call, CallMode, Read, SelectMode};
use crate::logs::Log;

pub fn of_call(call: &Call) -> String {
    match *call {
        Call::Create { priority, entries } => format!("CREATE {priority} {entries}"),
        Call::Delay(d) => format!("DELAY {d}"),
        Call::Call { target, entry, mode: CallMode::Simple } => format!("CALL {target} {entry} simple"),
        Call::Call { target, entry, mode: CallMode::Timed(d) } => format!("CALL {target} {entry} timed {d}"),
        Call::Call { target, entry, mode: CallMode::Conditional } => format!("CALL {target} {entry} conditional"),
        Call::Select { open, mode: SelectMode::Plain } => format!("SELECT {} plain", of_set(open)),
        Call::Select { open, mode: SelectMode::Delay(d) } => format!("SELECT {} delay {d}", of_set(open)),
        Call::Select { open, mode: SelectMode::Else } => format!("SELECT {} else", of_set(open)),
        Call::End => "END".to_string(),
        Call::Finish => "FINISH".to_string(),
        Call::Tick => "TICK".to_string(),
        Call::Advance(n) => format!("ADVANCE {n}"),
    }
}

fn of_set(open: u8) -> String {
    let names: Vec<String> = (1..=8).filter(|k| open & (1 << (k - 1)) != 0).map(|k| k.to_string()).collect();
    if names.is_empty() {
        return "none".to_string();
    }
    names.join(",")
}

/// A log's lines: its clock, its calls, and the bytes that are no good record.
pub fn of_log(log: &Log) -> String {
    let mut text = format!("clock {}\n", log.clock);
    let (records, rest) = log.records();
    for record in records {
        if let Read::Good(call, _) = calls::read(record) {
            text += &format!("{}\n", of_call(&call));
        }
    }
    if !rest.is_empty() {
        let bytes: Vec<String> = rest.iter().map(|byte| format!("{byte:02x}")).collect();
        text += &format!("bytes {}\n", bytes.join(" "));
    }
    text
}

/// A log of a file of logs, with what the file says is printed: step number and line.
pub struct Told {
    pub name: String,
    pub log: Log,
    pub expected: Vec<(usize, String)>,
}

pub fn read_file(text: &str) -> Result<Vec<Told>, String> {
    let mut told: Vec<Told> = Vec::new();
    let mut steps = 0;
    for (number, line) in text.lines().enumerate() {
        let line = line.split('#').next().unwrap_or("").trim();
        if line.is_empty() {
            continue;
        }
        if let Some(name) = line.strip_prefix("log ") {
            let log = Log { clock: 0, bytes: Vec::new() };
            told.push(Told { name: name.to_string(), log, expected: Vec::new() });
            steps = 0;
            continue;
        }
        let read = told.last_mut().and_then(|last| read_line(line, last, &mut steps));
        read.ok_or_else(|| format!("line {}: not understood: {line}", number + 1))?;
    }
    Ok(told)
}

fn read_line(line: &str, told: &mut Told, steps: &mut usize) -> Option<()> {
    if let Some(expected) = line.strip_prefix("= ") {
        told.expected.push((*steps, format!("{steps} {expected}")));
        return Some(());
    }
    let words: Vec<&str> = line.split_whitespace().collect();
    match words[..] {
        ["clock", clock] => told.log.clock = clock.parse().ok()?,
        ["bytes", ref bytes @ ..] => {
            for byte in bytes {
                told.log.bytes.push(u8::from_str_radix(byte, 16).ok()?);
            }
            *steps += 1;
        }
        [times, "times", ref call @ ..] => {
            let times: usize = times.parse().ok()?;
            told.log.bytes.extend(calls::record(&to_call(call)?).repeat(times));
            *steps += times;
        }
        ref call => {
            told.log.bytes.extend(calls::record(&to_call(call)?));
            *steps += 1;
        }
    }
    Some(())
}

fn to_call(words: &[&str]) -> Option<Call> {
    Some(match *words {
        ["CREATE", p, e] => Call::Create { priority: p.parse().ok()?, entries: e.parse().ok()? },
        ["DELAY", d] => Call::Delay(d.parse().ok()?),
        ["CALL", target, entry, ref mode @ ..] => {
            let mode = match *mode {
                ["simple"] => CallMode::Simple,
                ["timed", d] => CallMode::Timed(d.parse().ok()?),
                ["conditional"] => CallMode::Conditional,
                _ => return None,
            };
            Call::Call { target: target.parse().ok()?, entry: entry.parse().ok()?, mode }
        }
        ["SELECT", open, ref mode @ ..] => {
            let mode = match *mode {
                ["plain"] => SelectMode::Plain,
                ["delay", d] => SelectMode::Delay(d.parse().ok()?),
                ["else"] => SelectMode::Else,
                _ => return None,
            };
            Call::Select { open: to_set(open)?, mode }
        }
        ["END"] => Call::End,
        ["FINISH"] => Call::Finish,
        ["TICK"] => Call::Tick,
        ["ADVANCE", n] => Call::Advance(n.parse().ok()?),
        _ => return None,
    })
}

fn to_set(text: &str) -> Option<u8> {
    if text == "none" {
        return Some(0);
    }
    let mut open = 0;
    for name in text.split(',') {
        let entry: u8 = name.parse().ok().filter(|entry| (1..=8).contains(entry))?;
        open |= 1 << (entry - 1);
    }
    Some(open)
}
