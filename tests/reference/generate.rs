//! The generator: logs that lead the supervisor into the corners, by looking at the state each call meets.

use crate::aims::{self, Aim};
use crate::calls::{self, Call};
use crate::logs::Log;
use crate::numbers::{ROOM, TASKS};
use crate::random::Random;
use crate::spoil;
use crate::supervisor::Supervisor;

/// A log's theme: how often each aim is tried, and how tasks are made.
pub struct Theme {
    weights: &'static [(Aim, usize)],
    /// Tasks made at the start.
    tasks: (i64, i64),
    priorities: (i64, i64),
    entries: (i64, i64),
    /// Task 1 has the lowest priority, so that the others can queue on it before it runs.
    low_first: bool,
    /// A few calls, then a bad record.
    short: bool,
}

const PLAIN: Theme =
    Theme { weights: &[], tasks: (3, 10), priorities: (1, 15), entries: (1, 3), low_first: false, short: false };

pub const THEMES: [Theme; 12] =
    [MIXED, MEETINGS, SPOILT, NESTED, TIMES, CROWD, SPOILT, ENDINGS, MISTAKES, LEVELS, INVERSION, DEEP];

const MIXED: Theme = Theme {
    weights: &[
        (Aim::Create, 4),
        (Aim::BadCreate, 1),
        (Aim::Delay, 4),
        (Aim::DelayEqual, 3),
        (Aim::DelayNone, 3),
        (Aim::DelayLong, 1),
        (Aim::CallAcceptor, 10),
        (Aim::CallQueue, 8),
        (Aim::CallAny, 3),
        (Aim::CallCompleted, 2),
        (Aim::CallBad, 1),
        (Aim::CallSelf, 1),
        (Aim::SelectCaller, 10),
        (Aim::SelectWait, 7),
        (Aim::SelectAny, 3),
        (Aim::SelectEmpty, 1),
        (Aim::SelectBad, 1),
        (Aim::End, 8),
        (Aim::EndBad, 1),
        (Aim::Finish, 1),
        (Aim::FinishBad, 1),
        (Aim::Tick, 12),
    ],
    tasks: (2, 12),
    entries: (0, 8),
    ..PLAIN
};

const MEETINGS: Theme = Theme {
    weights: &[
        (Aim::Create, 2),
        (Aim::DelayNone, 2),
        (Aim::CallAcceptor, 16),
        (Aim::CallQueue, 8),
        (Aim::CallAny, 2),
        (Aim::SelectCaller, 12),
        (Aim::SelectWait, 14),
        (Aim::SelectAny, 2),
        (Aim::End, 12),
        (Aim::Finish, 1),
        (Aim::Tick, 8),
    ],
    tasks: (3, 10),
    priorities: (3, 6),
    entries: (1, 3),
    ..PLAIN
};

const NESTED: Theme = Theme {
    weights: &[
        (Aim::Create, 4),
        (Aim::Delay, 2),
        (Aim::DelayNone, 4),
        (Aim::CallHolder, 14),
        (Aim::CallAcceptor, 8),
        (Aim::CallQueue, 4),
        (Aim::SelectCaller, 24),
        (Aim::SelectWait, 3),
        (Aim::End, 4),
        (Aim::EndBad, 1),
        (Aim::FinishBad, 2),
        (Aim::Finish, 1),
        (Aim::Tick, 8),
    ],
    tasks: (6, 20),
    priorities: (2, 5),
    entries: (1, 4),
    low_first: true,
    ..PLAIN
};

const TIMES: Theme = Theme {
    weights: &[
        (Aim::Create, 2),
        (Aim::Delay, 8),
        (Aim::DelayEqual, 12),
        (Aim::DelayNone, 2),
        (Aim::DelayLong, 3),
        (Aim::CallEqual, 12),
        (Aim::CallQueue, 5),
        (Aim::CallAcceptor, 5),
        (Aim::SelectEqual, 10),
        (Aim::SelectWait, 3),
        (Aim::SelectEmpty, 2),
        (Aim::SelectCaller, 4),
        (Aim::End, 6),
        (Aim::Finish, 1),
        (Aim::Tick, 26),
    ],
    tasks: (4, 16),
    entries: (1, 4),
    ..PLAIN
};

const CROWD: Theme = Theme {
    weights: &[
        (Aim::Create, 8),
        (Aim::Delay, 1),
        (Aim::DelayNone, 2),
        (Aim::CallFirst, 40),
        (Aim::SelectCaller, 3),
        (Aim::SelectAny, 2),
        (Aim::End, 6),
        (Aim::Finish, 1),
        (Aim::Tick, 3),
    ],
    tasks: (24, 31),
    priorities: (8, 12),
    entries: (1, 2),
    low_first: true,
    ..PLAIN
};

const ENDINGS: Theme = Theme {
    weights: &[
        (Aim::Create, 10),
        (Aim::Delay, 2),
        (Aim::DelayNone, 2),
        (Aim::CallFirst, 10),
        (Aim::CallQueue, 10),
        (Aim::CallCompleted, 6),
        (Aim::SelectCaller, 3),
        (Aim::SelectWait, 3),
        (Aim::End, 4),
        (Aim::Finish, 8),
        (Aim::Tick, 4),
    ],
    tasks: (4, 14),
    priorities: (4, 8),
    entries: (1, 8),
    low_first: true,
    ..PLAIN
};

const MISTAKES: Theme = Theme {
    weights: &[
        (Aim::Create, 4),
        (Aim::BadCreate, 6),
        (Aim::Delay, 2),
        (Aim::CallAcceptor, 6),
        (Aim::CallQueue, 3),
        (Aim::CallCompleted, 3),
        (Aim::CallBad, 8),
        (Aim::CallSelf, 3),
        (Aim::SelectCaller, 6),
        (Aim::SelectWait, 3),
        (Aim::SelectEmpty, 5),
        (Aim::SelectBad, 6),
        (Aim::End, 4),
        (Aim::EndBad, 5),
        (Aim::Finish, 1),
        (Aim::FinishBad, 5),
        (Aim::Anything, 6),
        (Aim::Tick, 6),
    ],
    tasks: (0, 31),
    entries: (0, 8),
    ..PLAIN
};

const LEVELS: Theme = Theme {
    weights: &[
        (Aim::Create, 5),
        (Aim::Delay, 10),
        (Aim::DelayEqual, 4),
        (Aim::DelayNone, 14),
        (Aim::CallAcceptor, 5),
        (Aim::CallQueue, 3),
        (Aim::CallAny, 3),
        (Aim::SelectCaller, 5),
        (Aim::SelectWait, 3),
        (Aim::End, 6),
        (Aim::Tick, 14),
    ],
    tasks: (3, 24),
    priorities: (14, 15),
    entries: (0, 2),
    ..PLAIN
};

/// Low acceptors serve high callers, and others come between.
const INVERSION: Theme = Theme {
    weights: &[
        (Aim::Create, 6),
        (Aim::Delay, 3),
        (Aim::DelayNone, 6),
        (Aim::CallAcceptor, 12),
        (Aim::CallHolder, 6),
        (Aim::CallQueue, 10),
        (Aim::SelectCaller, 20),
        (Aim::SelectWait, 8),
        (Aim::End, 10),
        (Aim::Finish, 1),
        (Aim::Tick, 10),
    ],
    tasks: (4, 12),
    priorities: (1, 9),
    entries: (1, 3),
    low_first: true,
    ..PLAIN
};

/// A task that holds another calls the next one, which accepts it, and so on.
const DEEP: Theme = Theme {
    weights: &[
        (Aim::Delay, 1),
        (Aim::DelayNone, 1),
        (Aim::CallNext, 80),
        (Aim::SelectCaller, 120),
        (Aim::End, 3),
        (Aim::Tick, 1),
    ],
    tasks: (29, 31),
    entries: (1, 2),
    ..PLAIN
};

/// Short logs that end in a bad record.
const SPOILT: Theme =
    Theme { weights: &[(Aim::Create, 1), (Aim::Delay, 1), (Aim::Tick, 1)], tasks: (0, 2), short: true, ..PLAIN };

/// Where logs start: at 0, close before a wrap, close before the middle of the clock, or anywhere.
fn start_clock(random: &mut Random) -> u32 {
    match random.below(6) {
        0 | 1 => 0,
        2 | 3 => (random.below(24) as u32).wrapping_neg(),
        4 => 0x8000_0000 - random.below(24) as u32,
        _ => random.next() as u32,
    }
}

fn create(random: &mut Random, theme: &Theme, lowest: bool) -> Call {
    let priority = if lowest { 1 } else { random.between(theme.priorities.0, theme.priorities.1) };
    let entries = random.between(theme.entries.0, theme.entries.1);
    Call::Create { priority: priority as u8, entries: entries as u8 }
}

/// The next call: an aim of the theme that the state allows.
fn next_call(random: &mut Random, theme: &Theme, state: &Supervisor) -> Call {
    if idle(state) && state.tasks.len() < TASKS && random.once_in(3) {
        return create(random, theme, false);
    }
    let sum: usize = theme.weights.iter().map(|(_, weight)| weight).sum();
    for _ in 0..20 {
        let mut left = random.below(sum);
        let mut chosen = Aim::Tick;
        for &(aim, weight) in theme.weights {
            if left < weight {
                chosen = aim;
                break;
            }
            left -= weight;
        }
        if chosen == Aim::Create && state.tasks.len() < TASKS {
            return create(random, theme, false);
        }
        if let Some(call) = aims::call_for(chosen, random, state) {
            return call;
        }
    }
    Call::Tick
}

/// Nobody is ready and nobody will be for a long time.
fn idle(state: &Supervisor) -> bool {
    state.running() == 0 && state.delays.first().is_none_or(|timer| state.left(timer.due) > 30)
}

fn log(random: &mut Random, theme: &Theme, clock: u32, most: usize) -> Log {
    let calls = if theme.short { most.min(random.below(4)) } else { most };
    let mut state = Supervisor::empty(clock);
    let mut room = [0; ROOM];
    let mut bytes = Vec::new();
    let made = random.between(theme.tasks.0, theme.tasks.1) as usize;
    let mut dull = 0;
    for step in 0..calls {
        dull += usize::from(idle(&state) && state.tasks.len() == TASKS);
        if dull > 4 {
            break;
        }
        let call = match step < made {
            true => create(random, theme, step == 0 && theme.low_first),
            false => next_call(random, theme, &state),
        };
        bytes.extend(calls::record(&call));
        state.step(&call, &mut room);
    }
    if theme.short || random.once_in(2) {
        spoil::tail(random, &mut bytes);
    }
    Log { clock, bytes }
}

/// A call that suits a state.
pub fn some_call(random: &mut Random, state: &Supervisor) -> Call {
    let theme = random.below(THEMES.len());
    next_call(random, &THEMES[theme], state)
}

/// `logs` logs of at most `calls` calls each.
pub fn generate(seed: u64, logs: usize, calls: usize) -> Vec<Log> {
    let mut random = Random::new(seed);
    let theme = |i: usize| &THEMES[i % THEMES.len()];
    let started = |i: usize| {
        let clock = start_clock(&mut random);
        log(&mut random, theme(i), clock, calls)
    };
    (0..logs).map(started).collect()
}

/// The records of one log from clock 0 with so many calls, chosen so that its tasks stay alive.
pub fn long(seed: u64, calls: usize) -> Vec<u8> {
    let mut random = Random::new(seed);
    let mut bytes = Vec::new();
    let mut state = Supervisor::empty(0);
    for _ in 0..calls {
        let mut call = Call::Tick;
        let mut after = state.clone();
        for _ in 0..8 {
            call = some_call(&mut random, &state);
            after = state.clone();
            after.step(&call, &mut [0; ROOM]);
            if call != Call::Finish && !idle(&after) {
                break;
            }
        }
        state = after;
        bytes.extend(calls::record(&call));
    }
    spoil::tail(&mut random, &mut bytes);
    bytes
}
