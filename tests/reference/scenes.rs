//! The steps that the benchmark measures: a state with so many tasks, and the call that is made in it.

use crate::calls::{Call, CallMode, SelectMode};
use crate::numbers::ROOM;
use crate::supervisor::Supervisor;

pub struct Scene {
    pub name: &'static str,
    pub tasks: usize,
    pub state: Supervisor,
    pub call: Call,
}

const CALLEE: u8 = 1;

fn create(priority: u8) -> Call {
    Call::Create { priority, entries: 2 }
}

fn call(mode: CallMode) -> Call {
    Call::Call { target: CALLEE, entry: 1, mode }
}

fn accept(open: u8, mode: SelectMode) -> Call {
    Call::Select { open, mode }
}

/// The state after the calls; each of them must be taken.
fn after(calls: &[Call]) -> Supervisor {
    let mut state = Supervisor::empty(0);
    for made in calls {
        let answer = state.step(made, &mut [0; ROOM]);
        assert_eq!(answer.refusal, 0, "{made:?}");
    }
    state
}

/// Task 1 of a low priority and `others` of a higher one, after which each of the others makes the call.
fn crowd(others: usize, made: &[Call]) -> Supervisor {
    let start = [vec![create(3)], vec![create(9); others]].concat();
    let calls = made.iter().flat_map(|made| vec![*made; others]);
    after(&start.into_iter().chain(calls).collect::<Vec<Call>>())
}

/// Task 1 of a high priority waits to accept its entry 1, `others` are ready.
fn waiting(others: usize, mode: SelectMode) -> Supervisor {
    let start = vec![create(12), accept(1, mode)];
    after(&[start, vec![create(9); others]].concat())
}

/// The scenes that a single task can make, and those that need another.
pub fn scenes(tasks: usize) -> Vec<Scene> {
    let others = tasks - 1;
    let scene = |name, state, call| Scene { name, tasks, state, call };
    let ready = crowd(others, &[]);
    let delayed = crowd(others, &[Call::Delay(1)]);
    let mut all = vec![
        scene("CREATE", crowd(others.max(1) - 1, &[]), create(9)),
        scene("DELAY 5: waits", ready.clone(), Call::Delay(5)),
        scene("DELAY 0: to the tail", ready.clone(), Call::Delay(0)),
        scene("CALL: NOT_NOW", ready.clone(), call(CallMode::Conditional)),
        scene("CALL: waits in the queue", ready.clone(), call(CallMode::Simple)),
        scene("CALL: waits with a time", ready.clone(), call(CallMode::Timed(5))),
        scene("SELECT: ELSE_TAKEN", ready.clone(), accept(3, SelectMode::Else)),
        scene("SELECT: waits with a time", ready.clone(), accept(2, SelectMode::Delay(5))),
        scene("END: refused", ready.clone(), Call::End),
        scene("FINISH", ready.clone(), Call::Finish),
        scene("TICK: nothing due", crowd(others, &[Call::Delay(100)]), Call::Tick),
    ];
    if others == 0 {
        return all;
    }
    let queued = crowd(others, &[call(CallMode::Timed(100))]);
    let mut held = queued.clone();
    held.step(&accept(1, SelectMode::Plain), &mut [0; ROOM]);
    all.extend([
        scene("CALL: meets an acceptor", waiting(others, SelectMode::Plain), call(CallMode::Simple)),
        scene("SELECT: takes a caller", queued.clone(), accept(3, SelectMode::Plain)),
        scene("END: SERVED", held, Call::End),
        scene("FINISH: all others queued", queued, Call::Finish),
        scene("TICK: all others due", delayed, Call::Tick),
    ]);
    all
}
