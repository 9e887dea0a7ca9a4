//! Ends of logs that are no good record: one fault of each kind, and tails cut off.

use crate::calls::{self, Call, CallMode, SelectMode};
use crate::random::Random;

/// A good record to be spoilt.
fn some_record(random: &mut Random) -> Vec<u8> {
    let call = match random.below(8) {
        0 => Call::Create { priority: 5, entries: 2 },
        1 => Call::Delay(random.next() as i32),
        2 => Call::Call { target: 1, entry: 1, mode: CallMode::Timed(random.next() as i32) },
        3 => Call::Select { open: 0, mode: SelectMode::Delay(random.next() as i32) },
        4 => Call::End,
        5 => Call::Finish,
        6 => Call::Advance(random.next() as u32),
        _ => Call::Tick,
    };
    calls::record(&call)
}

/// A CALL or a SELECT with the given mode and duration.
fn with_mode(random: &mut Random, mode: u8, d: u32) -> Vec<u8> {
    let fields = [&[mode][..], &d.to_be_bytes()].concat();
    match random.once_in(2) {
        true => [&[3, 0, 7, 1, 1][..], &fields].concat(),
        false => [&[4, 0, 6, 0][..], &fields].concat(),
    }
}

/// A length that is not the tag's: one more, one less, or in the high byte.
fn with_length(random: &mut Random) -> Vec<u8> {
    let mut record = some_record(random);
    match random.below(3) {
        0 => record[2] = record[2].wrapping_add(1),
        1 => record[2] = record[2].wrapping_sub(1),
        _ => record[1] = 1 + random.below(255) as u8,
    }
    record.extend([0; 8]);
    record
}

/// A tag next to the known ones, with the fields of one that is known.
fn with_tag(random: &mut Random) -> Vec<u8> {
    let tag = random.one_of(&[0, 0, 9, 9, 255]);
    let call = random.one_of(&[Call::Create { priority: 5, entries: 2 }, Call::Tick, Call::Advance(2)]);
    [&[tag][..], &calls::record(&call)[1..]].concat()
}

/// Puts bytes behind a log's records that are a bad record, good records behind it or not.
pub fn tail(random: &mut Random, bytes: &mut Vec<u8>) {
    let d = 1 << random.below(32);
    let mode = 3 + random.below(253) as u8;
    let bad = match random.below(8) {
        0 => some_record(random)[..1 + random.below(2)].to_vec(),
        1 => with_tag(random),
        2 => with_length(random),
        3 => {
            let whole = with_mode(random, 1, d);
            whole[..3 + random.below(whole.len() - 3)].to_vec()
        }
        4 => with_mode(random, mode, 0),
        5 => with_mode(random, 0, d),
        6 => with_mode(random, 2, d),
        _ => {
            let record = some_record(random);
            record[..record.len() - 1].to_vec()
        }
    };
    bytes.extend(&bad);
    let cut_off = matches!(calls::read(&bad), calls::Read::Bad(calls::Fault::ShortHead | calls::Fault::ShortBody));
    if !cut_off && random.once_in(2) {
        bytes.extend(some_record(random));
    }
}
