//! Logs: a start clock and the bytes of records; sequences of them as bytes, and what the stepper prints for each.

use crate::calls::{self, Read};
use crate::numbers::{refusal, ROOM};
use crate::supervisor::{Answer, Supervisor};
use std::fmt::Write;

#[derive(Clone, Debug, PartialEq, Eq)]
pub struct Log {
    pub clock: u32,
    pub bytes: Vec<u8>,
}

const HEAD: usize = 8;
pub const HEADER: &str = "step refusal result task entry partner next";

impl Log {
    /// The log as a part of a replay input: start clock, length, records.
    pub fn packed(&self) -> Vec<u8> {
        let length = self.bytes.len() as u32;
        [&self.clock.to_be_bytes()[..], &length.to_be_bytes()[..], &self.bytes].concat()
    }

    /// The bytes of each good record, and what is left behind the last of them.
    pub fn records(&self) -> (Vec<&[u8]>, &[u8]) {
        let mut records = Vec::new();
        let mut rest = &self.bytes[..];
        while let Read::Good(_, taken) = calls::read(rest) {
            records.push(&rest[..taken]);
            rest = &rest[taken..];
        }
        (records, rest)
    }

    /// What the stepper prints for this log.
    pub fn printed(&self) -> String {
        let mut supervisor = Supervisor::empty(self.clock);
        let mut room = [0; ROOM];
        let mut text = format!("{HEADER}\n");
        let mut rest = &self.bytes[..];
        for step in 1.. {
            match calls::read(rest) {
                Read::Good(call, taken) => {
                    let answer = supervisor.step(&call, &mut room);
                    text += &line(step, &answer, &room);
                    rest = &rest[taken..];
                }
                Read::Bad(_) => {
                    let answer = Answer::refused(refusal::BAD_RECORD, supervisor.running());
                    text += &line(step, &answer, &room);
                    break;
                }
                Read::EndOfLog => break,
            }
        }
        text
    }
}

fn line(step: usize, a: &Answer, room: &[u8]) -> String {
    let mut text = format!("{step} {} {} {} {} {} {}", a.refusal, a.result, a.task, a.entry, a.partner, a.next);
    for item in room.chunks(4).take(a.ended as usize) {
        let _ = write!(text, " | {} {} {} {}", item[0], item[1], item[2], item[3]);
    }
    text.push('\n');
    text
}

/// The logs of a replay input. A head that is cut off is no log; of cut-off bytes those that are there count.
pub fn unpack(input: &[u8]) -> Vec<Log> {
    let mut logs = Vec::new();
    let mut rest = input;
    while rest.len() >= HEAD {
        let clock = calls::number(rest);
        let length = calls::number(&rest[4..]) as usize;
        let end = rest.len().min(HEAD + length);
        logs.push(Log { clock, bytes: rest[HEAD..end].to_vec() });
        rest = &rest[end..];
    }
    logs
}

pub fn pack(logs: &[Log]) -> Vec<u8> {
    logs.iter().flat_map(Log::packed).collect()
}

pub fn replayed(logs: &[Log]) -> String {
    logs.iter().map(Log::printed).collect()
}
