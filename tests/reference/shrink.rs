//! Makes the first log on which a program differs from the reference small, and tells it in words.

use crate::calls::{self, Call, CallMode, Read, SelectMode};
use crate::logs::{self, Log, HEADER};
use crate::numbers::ROOM;
use crate::supervisor::Supervisor;
use crate::words;
use std::io::{Read as _, Write};
use std::process::{Command, Stdio};

/// What the command writes when it is given these logs as its replay input.
fn answer_of(command: &[&str], logs: &[Log]) -> Result<String, String> {
    let mut child = Command::new(command[0])
        .args(&command[1..])
        .stdin(Stdio::piped())
        .stdout(Stdio::piped())
        .stderr(Stdio::null())
        .spawn()
        .map_err(|e| format!("{}: {e}", command[0]))?;
    let mut stdin = child.stdin.take().ok_or("no standard input")?;
    let input = logs::pack(logs);
    // a program that stops early closes its input: what it wrote is the answer
    let writer = std::thread::spawn(move || drop(stdin.write_all(&input)));
    let mut written = Vec::new();
    if let Some(mut stdout) = child.stdout.take() {
        stdout.read_to_end(&mut written).map_err(|e| e.to_string())?;
    }
    drop(writer.join());
    child.wait().map_err(|e| e.to_string())?;
    Ok(String::from_utf8_lossy(&written).into_owned())
}

/// The first log for which something else is written than the reference prints.
fn first_difference(logs: &[Log], written: &str) -> Option<usize> {
    let mut rest = written;
    for (i, log) in logs.iter().enumerate() {
        let Some(behind) = rest.strip_prefix(&log.printed()) else {
            return Some(i);
        };
        if !behind.is_empty() && !behind.starts_with(HEADER) {
            return Some(i);
        }
        rest = behind;
    }
    (!rest.is_empty()).then_some(logs.len().saturating_sub(1))
}

/// A log in pieces that can be taken out and changed.
#[derive(Clone)]
struct Pieces {
    clock: u32,
    calls: Vec<Call>,
    tail: Vec<u8>,
}

impl Pieces {
    fn of(log: &Log) -> Pieces {
        let (records, rest) = log.records();
        let call = |record: &&[u8]| match calls::read(record) {
            Read::Good(call, _) => Some(call),
            _ => None,
        };
        Pieces { clock: log.clock, calls: records.iter().filter_map(call).collect(), tail: rest.to_vec() }
    }

    fn log(&self) -> Log {
        let records = self.calls.iter().flat_map(calls::record);
        Log { clock: self.clock, bytes: records.chain(self.tail.iter().copied()).collect() }
    }

    fn without(&self, from: usize, size: usize) -> Pieces {
        let mut less = self.clone();
        less.calls.drain(from..(from + size).min(self.calls.len()));
        less
    }

    /// The task that runs at each call.
    fn runners(&self) -> Vec<u8> {
        let mut state = Supervisor::empty(self.clock);
        let mut before = |call: &Call| {
            let running = state.running();
            state.step(call, &mut [0; ROOM]);
            running
        };
        self.calls.iter().map(|call| before(call)).collect()
    }

    /// Without the CREATE at that place, the tasks made later numbered anew; and, as another, without the calls that the task makes or
    /// that name it.
    fn without_task(&self, at: usize) -> Vec<Pieces> {
        let made = |call: &&Call| matches!(call, Call::Create { .. });
        if !self.calls.get(at).is_some_and(|call| made(&call)) {
            return Vec::new();
        }
        let number = self.calls[..at].iter().filter(made).count() as u8 + 1;
        let from_outside = |call: &Call| matches!(call, Call::Create { .. } | Call::Tick | Call::Advance(_));
        let names = |call: &Call| matches!(call, Call::Call { target, .. } if *target == number);
        let own = |(call, runs): (&Call, u8)| names(call) || runs == number && !from_outside(call);
        let mut alone = self.clone();
        let own: Vec<bool> = self.calls.iter().zip(self.runners()).map(own).collect();
        alone.calls = (0..own.len()).filter(|&i| i != at && !own[i]).map(|i| self.calls[i]).collect();
        let mut less = vec![self.without(at, 1), alone];
        for call in less.iter_mut().flat_map(|less| &mut less.calls) {
            match call {
                Call::Call { target, .. } if *target > number => *target -= 1,
                _ => {}
            }
        }
        less
    }

    /// The same with simpler numbers at one place.
    fn simpler(&self, at: usize) -> Vec<Pieces> {
        let simple: &[Call] = match self.calls[at] {
            Call::Advance(n) if n > 0 => &[Call::Tick, Call::Advance(n / 2), Call::Advance(n - 1)],
            Call::Delay(d) if d > 1 => &[Call::Delay(1), Call::Delay(d / 2), Call::Delay(d - 1)],
            Call::Call { target, entry, mode: CallMode::Timed(d) } => &[
                Call::Call { target, entry, mode: CallMode::Simple },
                Call::Call { target, entry, mode: CallMode::Timed(d / 2) },
            ],
            Call::Select { open, mode: SelectMode::Delay(d) } => {
                &[Call::Select { open, mode: SelectMode::Plain }, Call::Select { open, mode: SelectMode::Delay(d / 2) }]
            }
            _ => &[],
        };
        let changed = |&call: &Call| {
            let mut other = self.clone();
            other.calls[at] = call;
            other
        };
        let wanted = |call: &&Call| **call != self.calls[at];
        simple.iter().filter(wanted).map(changed).collect()
    }
}

fn differs_alone(command: &[&str], log: &Log) -> Result<bool, String> {
    let one = std::slice::from_ref(log);
    Ok(first_difference(one, &answer_of(command, one)?).is_some())
}

/// The first log on which the program differs when it is given nothing else, as its place among the logs. All are put
/// to it in one run first; a program that breaks off may lose what it had to say of logs before.
fn first_alone(command: &[&str], logs: &[Log]) -> Result<Option<usize>, String> {
    let Some(i) = first_difference(logs, &answer_of(command, logs)?) else {
        return Ok(None);
    };
    if differs_alone(command, &logs[i])? {
        return Ok(Some(i));
    }
    for (i, log) in logs.iter().enumerate() {
        if differs_alone(command, log)? {
            return Ok(Some(i));
        }
    }
    Ok(None)
}

/// The first of these that still shows a difference.
fn still_differs(command: &[&str], candidates: &[Pieces]) -> Result<Option<Pieces>, String> {
    let logs: Vec<Log> = candidates.iter().map(Pieces::log).collect();
    Ok(first_alone(command, &logs)?.map(|i| candidates[i].clone()))
}

/// Takes out what can be taken out: halves first, then smaller parts, then single calls and tasks.
fn smaller(command: &[&str], start: Pieces) -> Result<Pieces, String> {
    let mut small = start;
    let mut size = small.calls.len().div_ceil(2);
    while size > 0 {
        let mut candidates: Vec<Pieces> =
            (0..small.calls.len()).step_by(size).map(|from| small.without(from, size)).collect();
        if size == 1 {
            candidates.extend((0..small.calls.len()).flat_map(|at| small.without_task(at)));
            candidates.extend((0..small.calls.len()).flat_map(|at| small.simpler(at)));
        }
        match still_differs(command, &candidates)? {
            Some(found) => small = found,
            None => size /= 2,
        }
    }
    let zero = Pieces { clock: 0, ..small.clone() };
    let whole = Pieces { tail: Vec::new(), ..small.clone() };
    let both = Pieces { clock: 0, ..whole.clone() };
    Ok(still_differs(command, &[both, whole, zero])?.unwrap_or(small))
}

/// The first log of the input that the command answers otherwise than the reference, made small, in words;
/// nothing if there is none.
pub fn shrink(input: &[u8], command: &[&str]) -> Result<Option<String>, String> {
    let logs = logs::unpack(input);
    let Some(i) = first_alone(command, &logs)? else {
        let whole = first_difference(&logs, &answer_of(command, &logs)?);
        return Ok(whole.map(|i| format!("log {} differs, but no log does alone", i + 1)));
    };
    let log = smaller(command, Pieces::of(&logs[i]))?.log();
    let theirs = answer_of(command, std::slice::from_ref(&log))?;
    let head = format!("log {} of {} differs; small:\n", i + 1, logs.len());
    let printed = format!("the reference prints\n{}the program prints\n{theirs}\n", log.printed());
    Ok(Some(head + &words::of_log(&log) + &printed))
}
