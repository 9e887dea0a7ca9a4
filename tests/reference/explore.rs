//! Every state of a small world, in order of the number of calls that lead to it: up to three tasks on two levels, one
//! entry each, short times, the clock close before its wrap.

use crate::calls::{Call, CallMode, SelectMode};
use crate::engines::Engine;
use crate::flat;
use crate::judge;
use crate::numbers::ROOM;
use crate::supervisor::Supervisor;
use std::collections::{HashSet, VecDeque};

const TASKS: usize = 3;
const CLOCK: u32 = u32::MAX - 1;

/// Every call of the small world.
fn alphabet() -> Vec<Call> {
    let mut calls = vec![Call::Create { priority: 1, entries: 1 }, Call::Create { priority: 2, entries: 1 }];
    calls.extend([0, 1, 2].map(Call::Delay));
    for target in 1..=TASKS as u8 {
        let modes =
            [CallMode::Simple, CallMode::Timed(1), CallMode::Timed(2), CallMode::Timed(0), CallMode::Conditional];
        calls.extend(modes.map(|mode| Call::Call { target, entry: 1, mode }));
    }
    let modes = [SelectMode::Plain, SelectMode::Delay(1), SelectMode::Delay(2), SelectMode::Else];
    calls.extend(modes.map(|mode| Call::Select { open: 1, mode }));
    calls.extend([Call::Select { open: 0, mode: SelectMode::Delay(1) }, Call::End, Call::Finish, Call::Tick]);
    calls.extend([0, 2, u32::MAX].map(Call::Advance));
    calls
}

/// The cases of the first `states` states, each state with every call of the small world; and the number of calls of
/// which every log is among them.
pub fn cases(engine: Engine, states: usize) -> (Vec<u8>, usize) {
    let calls = alphabet();
    let mut waiting = VecDeque::from([(Supervisor::empty(CLOCK), 0)]);
    let mut seen = HashSet::from([flat::write(&waiting[0].0)]);
    let mut bytes = Vec::new();
    let mut depth = 0;
    for _ in 0..states {
        let Some((state, made)) = waiting.pop_front() else { break };
        depth = made;
        for call in &calls {
            bytes.extend(judge::plain_case(engine, &engine.write(&state), call));
            let mut after = state.clone();
            after.step(call, &mut [0; ROOM]);
            if after.tasks.len() <= TASKS && seen.insert(flat::write(&after)) {
                waiting.push_back((after, made + 1));
            }
        }
    }
    (bytes, depth)
}
