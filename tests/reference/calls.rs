//! The service calls, and the records they are read from and written to.

use crate::numbers::refusal;

#[derive(Clone, Copy, Debug, PartialEq, Eq)]
pub enum CallMode {
    Simple,
    Timed(i32),
    Conditional,
}

#[derive(Clone, Copy, Debug, PartialEq, Eq)]
pub enum SelectMode {
    Plain,
    Delay(i32),
    Else,
}

#[derive(Clone, Copy, Debug, PartialEq, Eq)]
pub enum Call {
    Create { priority: u8, entries: u8 },
    Delay(i32),
    Call { target: u8, entry: u8, mode: CallMode },
    Select { open: u8, mode: SelectMode },
    End,
    Finish,
    Tick,
    Advance(u32),
}

/// Why a record is bad; the reader's answer is 11 for each.
#[derive(Clone, Copy, Debug, PartialEq, Eq)]
pub enum Fault {
    ShortHead,
    UnknownTag,
    WrongLength,
    ShortBody,
    ModeAbove2,
    UnusedDuration,
}

#[derive(Clone, Copy, Debug, PartialEq, Eq)]
pub enum Read {
    /// A call and the number of bytes its record takes.
    Good(Call, usize),
    Bad(Fault),
    EndOfLog,
}

const HEAD: usize = 3;

/// The length of the fields behind each tag.
fn length_of(tag: u8) -> Option<usize> {
    match tag {
        1 => Some(2),
        2 => Some(4),
        3 => Some(7),
        4 => Some(6),
        5 | 6 | 7 => Some(0),
        8 => Some(4),
        _ => None,
    }
}

/// The number in the first four bytes, high byte first.
pub fn number(bytes: &[u8]) -> u32 {
    u32::from_be_bytes([bytes[0], bytes[1], bytes[2], bytes[3]])
}

/// Reads the record at the start of `bytes`; what stands behind it is not looked at.
pub fn read(bytes: &[u8]) -> Read {
    if bytes.is_empty() {
        return Read::EndOfLog;
    }
    if bytes.len() < HEAD {
        return Read::Bad(Fault::ShortHead);
    }
    let Some(length) = length_of(bytes[0]) else {
        return Read::Bad(Fault::UnknownTag);
    };
    if u16::from_be_bytes([bytes[1], bytes[2]]) as usize != length {
        return Read::Bad(Fault::WrongLength);
    }
    if bytes.len() < HEAD + length {
        return Read::Bad(Fault::ShortBody);
    }
    match fields(bytes[0], &bytes[HEAD..HEAD + length]) {
        Ok(call) => Read::Good(call, HEAD + length),
        Err(fault) => Read::Bad(fault),
    }
}

fn fields(tag: u8, f: &[u8]) -> Result<Call, Fault> {
    Ok(match tag {
        1 => Call::Create { priority: f[0], entries: f[1] },
        2 => Call::Delay(number(f) as i32),
        3 => Call::Call { target: f[0], entry: f[1], mode: call_mode(f[2], number(&f[3..]) as i32)? },
        4 => Call::Select { open: f[0], mode: select_mode(f[1], number(&f[2..]) as i32)? },
        5 => Call::End,
        6 => Call::Finish,
        7 => Call::Tick,
        _ => Call::Advance(number(f)),
    })
}

fn call_mode(mode: u8, d: i32) -> Result<CallMode, Fault> {
    match (mode, d) {
        (1, d) => Ok(CallMode::Timed(d)),
        (0, 0) => Ok(CallMode::Simple),
        (2, 0) => Ok(CallMode::Conditional),
        (0 | 2, _) => Err(Fault::UnusedDuration),
        _ => Err(Fault::ModeAbove2),
    }
}

fn select_mode(mode: u8, d: i32) -> Result<SelectMode, Fault> {
    match (mode, d) {
        (1, d) => Ok(SelectMode::Delay(d)),
        (0, 0) => Ok(SelectMode::Plain),
        (2, 0) => Ok(SelectMode::Else),
        (0 | 2, _) => Err(Fault::UnusedDuration),
        _ => Err(Fault::ModeAbove2),
    }
}

/// The record of a call.
pub fn record(call: &Call) -> Vec<u8> {
    let (tag, fields) = match *call {
        Call::Create { priority, entries } => (1, vec![priority, entries]),
        Call::Delay(d) => (2, d.to_be_bytes().to_vec()),
        Call::Call { target, entry, mode } => {
            let (mode, d) = match mode {
                CallMode::Simple => (0, 0),
                CallMode::Timed(d) => (1, d),
                CallMode::Conditional => (2, 0),
            };
            (3, [&[target, entry, mode], &d.to_be_bytes()[..]].concat())
        }
        Call::Select { open, mode } => {
            let (mode, d) = match mode {
                SelectMode::Plain => (0, 0),
                SelectMode::Delay(d) => (1, d),
                SelectMode::Else => (2, 0),
            };
            (4, [&[open, mode], &d.to_be_bytes()[..]].concat())
        }
        Call::End => (5, vec![]),
        Call::Finish => (6, vec![]),
        Call::Tick => (7, vec![]),
        Call::Advance(n) => (8, n.to_be_bytes().to_vec()),
    };
    [&[tag, 0, fields.len() as u8], &fields[..]].concat()
}

/// Writes a call's record to the start of `room` and says how many bytes it takes, or refuses.
pub fn write(call: &Call, room: &mut [u8]) -> Result<usize, u8> {
    let bytes = record(call);
    if room.len() < bytes.len() {
        return Err(refusal::SHORT_ROOM);
    }
    room[..bytes.len()].copy_from_slice(&bytes);
    Ok(bytes.len())
}
