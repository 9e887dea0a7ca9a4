//! The tree of held callers of document 02 (xi), over a state's bytes: it has no ring, and the current and the kept priorities in it are
//! those that follow from the created ones.

use crate::flat::{field, tag, Flat, Line, Rule};
use crate::numbers::TASKS;

/// The most moves from a held task to its holder, and on.
const MOST_MOVES: usize = TASKS - 1;

/// The first rule that is broken, in a state that is sound but for these.
pub fn broken(state: Flat) -> Option<Rule> {
    if state.members(Line::Held).iter().any(|&task| in_a_ring(state, task)) {
        return Some(Rule::Ring);
    }
    let wrong = |task: u8| state.task(task)[field::CURRENT] != highest(state, task, callers(state, task));
    if (1..=state.created()).any(wrong) {
        return Some(Rule::CurrentPriority);
    }
    state.members(Line::Held).iter().any(|&caller| !keeps(state, caller)).then_some(Rule::KeptPriority)
}

fn in_a_ring(state: Flat, task: u8) -> bool {
    let mut at = task;
    for _ in 0..=MOST_MOVES {
        if state.tag(at) != tag::HELD {
            return false;
        }
        at = state.partner(at);
    }
    true
}

/// Those whom a task holds, in the order of the line.
fn callers<'a>(state: Flat<'a>, holder: u8) -> impl Iterator<Item = u8> + 'a {
    state.members(Line::Held).iter().copied().filter(move |&caller| state.partner(caller) == holder)
}

/// The highest of a task's created priority and the current ones of some that it holds.
fn highest(state: Flat, task: u8, held: impl Iterator<Item = u8>) -> u8 {
    held.map(|caller| state.task(caller)[field::CURRENT]).fold(state.task(task)[field::PRIORITY], u8::max)
}

/// Whether the kept priority of a held caller is what its holder had, with those whom it held before.
fn keeps(state: Flat, caller: u8) -> bool {
    let holder = state.partner(caller);
    let before = callers(state, holder).take_while(|&other| other != caller);
    state.task(caller)[field::KEPT] == highest(state, holder, before)
}
