//! What the generator aims at, and the call that hits it in a given state.

use crate::calls::{Call, CallMode, SelectMode};
use crate::numbers::{LEVELS, TASKS};
use crate::random::Random;
use crate::supervisor::{Place, Supervisor};

#[derive(Clone, Copy, Debug, PartialEq, Eq)]
pub enum Aim {
    /// A task as the theme wants it, or one too many.
    Create,
    BadCreate,
    Delay,
    /// A delay that ends at the same tick as another wait.
    DelayEqual,
    DelayNone,
    DelayLong,
    CallAcceptor,
    CallQueue,
    /// A timed call whose time ends at the same tick as another wait's.
    CallEqual,
    /// A call of task 1, so that its queues grow.
    CallFirst,
    /// A call of a task that holds a caller already.
    CallHolder,
    /// A call of the task that runs next, by one whom nobody calls.
    CallNext,
    CallAny,
    CallCompleted,
    CallBad,
    CallSelf,
    SelectCaller,
    SelectWait,
    SelectEqual,
    SelectAny,
    SelectEmpty,
    SelectBad,
    End,
    EndBad,
    Finish,
    FinishBad,
    Tick,
    /// Random fields, a running task or not.
    Anything,
}

/// A call for the aim, if the state has one; without a running task mostly none but TICK.
pub fn call_for(aim: Aim, random: &mut Random, state: &Supervisor) -> Option<Call> {
    let running = state.running();
    match aim {
        Aim::Create => return (state.tasks.len() == TASKS && random.once_in(8)).then(|| any_create(random)),
        Aim::BadCreate => return Some(bad_create(random)),
        Aim::Tick => return Some(tick(random, state)),
        Aim::Anything => return Some(anything(random)),
        _ if running == 0 => return random.once_in(24).then(|| anything(random)),
        _ => {}
    }
    match aim {
        Aim::Delay => Some(Call::Delay(short(random))),
        Aim::DelayEqual => equal(random, state).map(Call::Delay),
        Aim::DelayNone => Some(Call::Delay(none(random))),
        Aim::DelayLong => Some(Call::Delay(long(random))),
        Aim::End => holding(state, running).then_some(Call::End),
        Aim::EndBad => (!holding(state, running)).then_some(Call::End),
        Aim::FinishBad => holding(state, running).then_some(Call::Finish),
        Aim::Finish => finish(random, state, running),
        Aim::SelectCaller | Aim::SelectWait | Aim::SelectEqual | Aim::SelectAny | Aim::SelectEmpty | Aim::SelectBad => {
            select(aim, random, state, running)
        }
        _ => call(aim, random, state, running),
    }
}

fn holding(state: &Supervisor, task: u8) -> bool {
    !state.task(task).held.is_empty()
}

/// Many waits without a time at once leave nothing to run: keep the last ready task going for the most part.
fn last_one(state: &Supervisor) -> bool {
    let ready: usize = state.ready.iter().map(|queue| queue.len()).sum();
    ready == 1 && state.delays.is_empty()
}

fn any_create(random: &mut Random) -> Call {
    Call::Create { priority: random.between(1, LEVELS as i64) as u8, entries: random.between(0, 8) as u8 }
}

fn bad_create(random: &mut Random) -> Call {
    let (priority, entries) = match random.below(5) {
        0 => (0, random.between(0, 8)),
        1 => (16, random.between(0, 8)),
        2 => (random.between(16, 255), random.between(0, 255)),
        3 => (random.between(1, 15), 9),
        _ => (random.between(1, 15), random.between(9, 255)),
    };
    Call::Create { priority: priority as u8, entries: entries as u8 }
}

/// The ticks left of some wait with a time.
fn equal(random: &mut Random, state: &Supervisor) -> Option<i32> {
    let near = state.delays.len().min(6);
    let timer = random.pick(&state.delays[..near])?;
    Some(state.left(timer.due) as i32)
}

fn none(random: &mut Random) -> i32 {
    match random.below(5) {
        0 | 1 => 0,
        2 => -1,
        3 => i32::MIN,
        _ => -(random.below(1 << 31) as i64) as i32,
    }
}

/// Mostly close together, sometimes further apart.
fn short(random: &mut Random) -> i32 {
    let most = if random.once_in(3) { 30 } else { 9 };
    random.between(1, most) as i32
}

fn long(random: &mut Random) -> i32 {
    match random.below(6) {
        0 => i32::MAX,
        1 => i32::MAX - 1,
        2 => random.between(200, 70_000) as i32,
        // short if a part of the number is lost
        3 | 4 => (1 << random.between(8, 30)) + random.between(1, 6) as i32,
        _ => random.between(1, i32::MAX as i64) as i32,
    }
}

fn call_mode(random: &mut Random, state: &Supervisor) -> CallMode {
    match random.below(12) {
        0..=3 => CallMode::Simple,
        4..=6 => CallMode::Timed(random.between(1, 8) as i32),
        7 => CallMode::Timed(long(random)),
        8 => CallMode::Timed(none(random)),
        9 => CallMode::Timed(equal(random, state).unwrap_or(1)),
        _ => CallMode::Conditional,
    }
}

/// Waits in the queue, with a time or without.
fn queue_mode(random: &mut Random, state: &Supervisor) -> CallMode {
    if last_one(state) && !random.once_in(8) || random.once_in(2) {
        return CallMode::Timed(random.between(1, 8) as i32);
    }
    match random.below(4) {
        0 => CallMode::Timed(equal(random, state).unwrap_or(3)),
        _ => CallMode::Simple,
    }
}

fn select_mode(random: &mut Random, state: &Supervisor) -> SelectMode {
    match random.below(12) {
        0..=4 if !last_one(state) => SelectMode::Plain,
        0..=6 => SelectMode::Delay(random.between(1, 8) as i32),
        7 => SelectMode::Delay(long(random)),
        8 => SelectMode::Delay(none(random)),
        9 => SelectMode::Delay(equal(random, state).unwrap_or(1)),
        _ => SelectMode::Else,
    }
}

/// The tasks that `wanted` names.
fn those(state: &Supervisor, wanted: impl Fn(u8) -> bool) -> Vec<u8> {
    (1..=state.tasks.len() as u8).filter(|&task| wanted(task)).collect()
}

fn entries(state: &Supervisor, task: u8) -> u8 {
    state.task(task).queues.len() as u8
}

fn some_entry(random: &mut Random, state: &Supervisor, target: u8) -> u8 {
    random.between(1, entries(state, target) as i64) as u8
}

fn call(aim: Aim, random: &mut Random, state: &Supervisor, running: u8) -> Option<Call> {
    let has_entries = |task: u8| entries(state, task) > 0;
    let lives = |task: u8| has_entries(task) && state.callable(task);
    match aim {
        Aim::CallAcceptor => return call_acceptor(random, state),
        Aim::CallBad => return Some(bad_call(random, state)),
        _ => {}
    }
    let target = match aim {
        Aim::CallFirst => (running != 1 && lives(1)).then_some(1),
        Aim::CallNext => next(state, running).filter(|&task| lives(task) && sets(state, running).0 == 0),
        Aim::CallHolder => random.pick(&those(state, |t| t != running && lives(t) && holding(state, t))),
        Aim::CallCompleted => random.pick(&those(state, |t| has_entries(t) && !state.callable(t))),
        Aim::CallSelf => has_entries(running).then_some(running),
        Aim::CallAny => random.pick(&those(state, has_entries)),
        _ => random.pick(&those(state, |t| t != running && lives(t))),
    }?;
    let entry = some_entry(random, state, target);
    let mode = match aim {
        Aim::CallEqual => CallMode::Timed(equal(random, state)?),
        Aim::CallSelf if !random.once_in(10) => CallMode::Timed(random.between(-1, 2) as i32),
        Aim::CallQueue | Aim::CallFirst | Aim::CallHolder => queue_mode(random, state),
        Aim::CallNext => CallMode::Simple,
        _ => call_mode(random, state),
    };
    Some(Call::Call { target, entry, mode })
}

/// The task that runs when the running one leaves.
fn next(state: &Supervisor, running: u8) -> Option<u8> {
    state.ready.iter().rev().flatten().copied().find(|&task| task != running)
}

fn call_acceptor(random: &mut Random, state: &Supervisor) -> Option<Call> {
    let mut open_entries = Vec::new();
    for task in 1..=state.tasks.len() as u8 {
        if let Place::Accepting { open } = state.task(task).place {
            open_entries.extend((1..=8).filter(|k| open & (1 << (k - 1)) != 0).map(|k| (task, k)));
        }
    }
    let (target, entry) = random.pick(&open_entries)?;
    Some(Call::Call { target, entry, mode: call_mode(random, state) })
}

fn bad_call(random: &mut Random, state: &Supervisor) -> Call {
    let created = state.tasks.len() as i64;
    let some = random.between(1, created) as u8;
    let above = entries(state, some) as i64 + 1;
    let (target, entry) = match random.below(6) {
        0 => (0, random.between(0, 8) as u8),
        1 => (created as u8 + 1, random.between(0, 8) as u8),
        2 => (random.between(created + 1, 255) as u8, random.byte()),
        3 => (some, 0),
        4 => (some, above as u8),
        _ => (some, random.between(above, 255) as u8),
    };
    Call::Call { target, entry, mode: call_mode(random, state) }
}

/// The entries of a task with a caller and those without, as sets.
fn sets(state: &Supervisor, task: u8) -> (u8, u8) {
    let mut with = 0;
    for entry in 1..=entries(state, task) {
        with |= u8::from(state.count(task, entry) > 0) << (entry - 1);
    }
    (with, own(state, task) & !with)
}

fn own(state: &Supervisor, task: u8) -> u8 {
    ((1u16 << entries(state, task)) - 1) as u8
}

fn select(aim: Aim, random: &mut Random, state: &Supervisor, running: u8) -> Option<Call> {
    let (with, without) = sets(state, running);
    let open = match aim {
        Aim::SelectCaller => {
            let entry = random.pick(&(0..8).filter(|k| with & (1 << k) != 0).collect::<Vec<u8>>())?;
            1 << entry | random.byte() & own(state, running)
        }
        Aim::SelectWait | Aim::SelectEqual => {
            let some = random.byte() & without;
            if some == 0 {
                without
            } else {
                some
            }
        }
        Aim::SelectAny => random.byte() & own(state, running),
        Aim::SelectEmpty => 0,
        _ => {
            let others: Vec<u8> = (entries(state, running)..8).collect();
            let own_ones = if random.once_in(2) { random.byte() & own(state, running) } else { 0 };
            1 << others.get(random.below(2)).or(others.first())? | own_ones
        }
    };
    let mode = match aim {
        Aim::SelectEqual => SelectMode::Delay(equal(random, state)?),
        Aim::SelectEmpty => {
            let d = none(random);
            random.one_of(&[SelectMode::Plain, SelectMode::Delay(2), SelectMode::Delay(d), SelectMode::Else])
        }
        _ => select_mode(random, state),
    };
    let waits = aim == Aim::SelectWait || aim == Aim::SelectEqual;
    (!waits || open != 0).then_some(Call::Select { open, mode })
}

/// Completing everything leaves a dull log: a task with callers goes sooner than one without.
fn finish(random: &mut Random, state: &Supervisor, running: u8) -> Option<Call> {
    let idle = sets(state, running).0 == 0;
    let wanted = !holding(state, running) && !(idle && last_one(state)) && (!idle || random.once_in(4));
    wanted.then_some(Call::Finish)
}

fn anything(random: &mut Random) -> Call {
    let d = match random.below(3) {
        0 => random.between(-1, 3) as i32,
        _ => random.next() as i32,
    };
    match random.below(8) {
        0 => Call::Create { priority: random.between(0, 17) as u8, entries: random.between(0, 9) as u8 },
        1 => Call::Delay(d),
        2 => {
            let mode = random.one_of(&[CallMode::Simple, CallMode::Timed(d), CallMode::Conditional]);
            Call::Call { target: random.between(0, 33) as u8, entry: random.between(0, 9) as u8, mode }
        }
        3 => {
            let mode = random.one_of(&[SelectMode::Plain, SelectMode::Delay(d), SelectMode::Else]);
            Call::Select { open: random.byte(), mode }
        }
        4 => Call::End,
        5 => Call::Finish,
        6 => Call::Advance(random.next() as u32),
        _ => Call::Tick,
    }
}

fn tick(random: &mut Random, state: &Supervisor) -> Call {
    // clock 0 is met seldom
    match random.once_in(if state.clock == 0 { 2 } else { 8 }) {
        true => advance(random, state),
        false => Call::Tick,
    }
}

/// A stretch of ticks: none; up to a due moment, one tick short of it, or past it; the largest, or anything; up to clock
/// 0, or a tick more or less; or a short one.
pub fn advance(random: &mut Random, state: &Supervisor) -> Call {
    let due = random.pick(&state.delays).map(|timer| state.left(timer.due));
    Call::Advance(match (random.below(16), due) {
        (0, _) => 0,
        (1, _) => u32::MAX,
        // from clock 0 to the last reading, not round the clock
        (2 | 3, _) if state.clock == 0 => u32::MAX,
        (2, _) => random.next() as u32,
        (3, _) => (random.between(-1, 1) as u32).wrapping_sub(state.clock),
        (4..=7, Some(left)) => left,
        (8 | 9, Some(left)) => left - 1,
        (10 | 11, Some(left)) => left + random.between(1, 5) as u32,
        _ => random.between(1, 12) as u32,
    })
}
