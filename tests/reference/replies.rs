//! What the reference answers to a case: one step of a state given as bytes, and the questions about it.
//!
//! A case is a state of an engine; seven bytes, which are the lengths lent for the state (two bytes, high byte first), for
//! the room, for the answer and for the record, and the task and the entry that are asked about; and ten bytes that begin
//! with the record. What is lent lies at the start of a longer stretch that is filled with 165. A reply is the refusal that the
//! step returns; 1 if the state is sound; the stretches of the answer (9), of the state (9 more than it has) and of
//! the room (255) afterwards; refusal and number of COUNT, of CALLABLE, of the dispatched task and of the priority.

use crate::calls::{self, Read};
use crate::engines::Engine;
use crate::numbers::{refusal, ROOM};
use crate::supervisor::{Answer, Supervisor};

pub const ANSWER_STRETCH: usize = 9;
const ROOM_STRETCH: usize = 255;
/// By what the stretch of a state is longer.
const BEHIND: usize = 9;
/// What lent bytes hold before.
const BEFORE: u8 = 165;
const END_OF_LOG: u8 = 12;
/// Bytes of the replies to the questions.
const QUESTIONS: usize = 8;

/// The bytes of a case.
pub fn case_size(engine: Engine) -> usize {
    engine.size() + 17
}

pub fn reply_size(engine: Engine) -> usize {
    2 + ANSWER_STRETCH + engine.size() + BEHIND + ROOM_STRETCH + QUESTIONS
}

/// How much is lent, and what is asked.
#[derive(Clone, Copy)]
pub struct Lent {
    pub state: usize,
    pub room: usize,
    pub answer: usize,
    pub asked: [u8; 2],
}

/// The parts of a case: the state's bytes, what is lent, and the record.
pub fn parts(engine: Engine, case: &[u8]) -> (&[u8], Lent, &[u8]) {
    let (state, rest) = case.split_at(engine.size());
    let lent = Lent {
        state: usize::from(rest[0]) << 8 | usize::from(rest[1]),
        room: rest[2] as usize,
        answer: rest[3] as usize,
        asked: [rest[5], rest[6]],
    };
    (state, lent, &rest[7..7 + rest[4] as usize])
}

/// The state of lent bytes, if there are enough and they are sound.
pub fn state_of(engine: Engine, bytes: &[u8], length: usize) -> Option<Supervisor> {
    if length < engine.size() {
        return None;
    }
    engine.read(bytes)
}

/// The step's answer; the reader's refusals come before the step's.
fn step(state: &mut Option<Supervisor>, record: &[u8], room: &mut [u8]) -> Answer {
    let call = match calls::read(record) {
        Read::Good(call, _) => call,
        Read::Bad(_) => return Answer::refused(refusal::BAD_RECORD, 0),
        Read::EndOfLog => return Answer::refused(END_OF_LOG, 0),
    };
    match state {
        Some(state) => state.step(&call, room),
        None if room.len() < ROOM => Answer::refused(refusal::SHORT_ROOM, 0),
        None => Answer::refused(refusal::BAD_STATE, 0),
    }
}

/// What the reference answers to a case.
pub fn reply_to(engine: Engine, case: &[u8]) -> Vec<u8> {
    let (bytes, lent, record) = parts(engine, case);
    let mut state = state_of(engine, bytes, lent.state);
    let [task, entry] = lent.asked;
    let questions = match &state {
        Some(s) => [0, s.count(task, entry), 0, u8::from(s.callable(task)), 0, s.running(), 0, s.priority(task)],
        None => [refusal::BAD_STATE, 0].repeat(QUESTIONS / 2).try_into().unwrap_or([0; QUESTIONS]),
    };
    let sound = u8::from(state.is_some());
    let mut answer = [BEFORE; ANSWER_STRETCH];
    let mut after = bytes.to_vec();
    after.resize(engine.size() + BEHIND, BEFORE);
    let mut room = [BEFORE; ROOM_STRETCH];
    let mut returned = refusal::SHORT_ROOM;
    if lent.answer >= 7 {
        let a = step(&mut state, record, &mut room[..lent.room]);
        returned = a.refusal;
        answer[..7].copy_from_slice(&[a.refusal, a.result, a.task, a.entry, a.partner, a.ended, a.next]);
        if let Some(state) = &state {
            after[..engine.size()].copy_from_slice(&engine.write(state));
        }
    }
    [&[returned, sound][..], &answer, &after, &room, &questions].concat()
}

/// What the reference answers to each of the cases.
pub fn replies(engine: Engine, cases: &[u8]) -> Vec<u8> {
    cases.chunks_exact(case_size(engine)).flat_map(|case| reply_to(engine, case)).collect()
}
