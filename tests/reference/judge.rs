//! Cases for the library that steps states given as bytes, and the first one that it answers otherwise than the reference.

use crate::advances::{self, Stretch};
use crate::aims;
use crate::calls::{self, Call, Read};
use crate::damage;
use crate::engines::Engine;
use crate::flat::{self, Flat};
use crate::generate;
use crate::numbers::{refusal, ROOM, TASKS};
use crate::random::Random;
use crate::replies::{self, Lent, ANSWER_STRETCH};
use crate::spoil;
use crate::supervisor::Supervisor;
use crate::words;

const ANSWER: usize = 7;

fn enough(engine: Engine) -> Lent {
    Lent { state: engine.size(), room: ROOM, answer: ANSWER, asked: [1, 1] }
}

/// `count` cases: states as for the soundness test, with calls that suit them, an ADVANCE now and then; sometimes too
/// little is lent, or the record is bad.
pub fn cases(engine: Engine, seed: u64, count: usize) -> Vec<u8> {
    let mut random = Random::new(!seed);
    let mut bytes = Vec::new();
    let size = engine.size();
    for first in damage::states(seed, count) {
        let met = Engine::Card.read(&first).unwrap_or(Supervisor::empty(0));
        let mut state = engine.bytes(first);
        let call = match random.once_in(6) {
            true => aims::advance(&mut random, &met),
            false => generate::some_call(&mut random, &met),
        };
        let mut record = calls::record(&call);
        let mut lent = Lent { asked: [random.below(34) as u8, random.below(10) as u8], ..enough(engine) };
        match random.below(24) {
            0 | 1 => lent.room = random.one_of(&[0, 123]),
            2 | 3 => lent.room = random.one_of(&[125, 255]),
            4 => lent.answer = random.one_of(&[0, 6, 9]),
            5 => lent.state = random.one_of(&[0, size - 1, size + 1, size + 9]),
            6 => {
                record.clear();
                spoil::tail(&mut random, &mut record);
                record.truncate(10);
            }
            7 => record.clear(),
            8 | 9 if engine == Engine::Second => damage::one_row(&mut random, &mut state),
            _ => {}
        }
        bytes.extend(case(&state, &lent, &record));
    }
    bytes
}

/// One full state with each of its bytes set to each value; that of the second engine, which is longer, to some.
pub fn each_byte(engine: Engine, seed: u64) -> Vec<u8> {
    let state = engine.bytes(damage::full_state(seed));
    let mut bytes = Vec::new();
    for at in 0..engine.size() {
        let own = state[at];
        let values = match engine {
            Engine::Card => (0..=255).collect(),
            Engine::Second => vec![0, 1, 2, own.wrapping_sub(1), own.wrapping_add(1), own ^ 128, 31, 32, 255],
        };
        for value in values {
            let mut other = state.clone();
            other[at] = value;
            bytes.extend(plain_case(engine, &other, &Call::Tick));
        }
    }
    bytes
}

/// A case in which enough is lent.
pub fn plain_case(engine: Engine, state: &[u8], call: &Call) -> Vec<u8> {
    case(state, &enough(engine), &calls::record(call))
}

fn case(state: &[u8], lent: &Lent, record: &[u8]) -> Vec<u8> {
    let lengths = [(lent.state >> 8) as u8, lent.state as u8, lent.room as u8, lent.answer as u8, record.len() as u8];
    let mut bytes = [state, &lengths, &lent.asked, record].concat();
    bytes.resize(state.len() + 17, 0);
    bytes
}

/// How many of the cases are an ADVANCE that meets each event, or that is refused. Where the answer's room is too short,
/// the library makes no step.
pub fn advances(engine: Engine, cases: &[u8]) -> Vec<(&'static str, usize)> {
    let mut counts: Vec<(&str, usize)> = advances::EVENTS.map(|(event, _)| (event, 0)).to_vec();
    counts.extend([("ADVANCE with too little room", 0), ("ADVANCE in a state that is not sound", 0)]);
    for case in cases.chunks_exact(replies::case_size(engine)) {
        let (state, lent, record) = replies::parts(engine, case);
        let Read::Good(Call::Advance(n), _) = calls::read(record) else { continue };
        if lent.answer >= ANSWER {
            let before = replies::state_of(engine, state, lent.state);
            counts.iter_mut().zip(met(before, &lent, n)).for_each(|((_, count), met)| *count += usize::from(met));
        }
    }
    counts
}

/// Which of the events above the step of ADVANCE n is.
fn met(before: Option<Supervisor>, lent: &Lent, n: u32) -> Vec<bool> {
    let mut room = vec![0; lent.room];
    let refused = [room.len() < ROOM, room.len() >= ROOM && before.is_none()];
    let occurs = |before: Supervisor| {
        let mut after = before.clone();
        let answer = after.step(&Call::Advance(n), &mut room);
        let items: Vec<&[u8]> = room.chunks(4).take(answer.ended as usize).collect();
        let stretch = Stretch::new(n, &before, &after, &answer, &items);
        advances::EVENTS.map(|(_, occurs)| answer.refusal == refusal::NONE && occurs(&stretch))
    };
    let accepted = before.map_or([false; advances::EVENTS.len()], occurs);
    [&accepted[..], &refused].concat()
}

/// The first case to which something else is answered, in words.
pub fn first_difference(engine: Engine, cases: &[u8], written: &[u8]) -> Option<String> {
    let (case_size, size) = (replies::case_size(engine), replies::reply_size(engine));
    for (i, case) in cases.chunks_exact(case_size).enumerate() {
        let expected = replies::reply_to(engine, case);
        let theirs = written.get(i * size..(i + 1) * size).unwrap_or(&[]);
        if theirs != expected {
            return Some(format!("case {} differs\n{}{}", i + 1, told(engine, case), told_replies(&expected, theirs)));
        }
    }
    (written.len() != cases.len() / case_size * size).then(|| "more is written than there are cases".to_string())
}

fn told(engine: Engine, case: &[u8]) -> String {
    let (state, lent, record) = replies::parts(engine, case);
    let flat = Flat(state);
    let mut text = format!("clock {}, {} tasks\n", flat.clock(), flat.created());
    for task in 1..=flat.created().min(31) {
        text += &format!("task {task}: {:?}\n", flat.task(task));
    }
    text += &format!("lines {:?}\n", state[flat::LINES..].chunks(TASKS).collect::<Vec<&[u8]>>());
    let call = match calls::read(record) {
        Read::Good(call, _) => words::of_call(&call),
        _ => format!("{record:02x?}"),
    };
    let Lent { state, room, answer, asked } = lent;
    text + &format!("{call}; lent {state} bytes of state, {room} of room, {answer} of answer; asked about {asked:?}\n")
}

fn told_replies(expected: &[u8], theirs: &[u8]) -> String {
    let differs = |i: &usize| theirs.get(*i) != expected.get(*i);
    let mut text = format!("the reference replies {:?}\n", &expected[..2 + ANSWER_STRETCH]);
    for i in (0..expected.len()).filter(differs).take(20) {
        text += &format!("byte {i}: {} and not {:?}\n", expected[i], theirs.get(i));
    }
    text
}
