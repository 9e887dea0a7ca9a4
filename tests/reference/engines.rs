//! The two engines of document 02 (v), as far as bytes show them: the first keeps all callers in one line, the second those of each task in
//! a line of its own, a row.
//!
//! The second's bytes are those of the first without the line of callers, and behind them 31 rows of 31 task numbers, then zeros: row g has the
//! callers of task g in the order of their calls.

use crate::flat::{self, tag, Flat, Line, LINES, STATE};
use crate::numbers::TASKS;
use crate::supervisor::Supervisor;

#[derive(Clone, Copy, Debug, PartialEq, Eq)]
pub enum Engine {
    Card,
    Second,
}

/// The bytes of the second's state before its rows.
pub const CORE: usize = STATE - TASKS;
/// Where the line of callers lies in the first's.
const CALLERS: usize = LINES + Line::Callers as usize * TASKS;

impl Engine {
    /// The engine whose functions have this word in front of their names.
    pub fn named(word: &str) -> Option<Engine> {
        match word {
            "card" => Some(Engine::Card),
            "second" => Some(Engine::Second),
            _ => None,
        }
    }

    /// The bytes of a state.
    pub fn size(self) -> usize {
        match self {
            Engine::Card => STATE,
            Engine::Second => CORE + TASKS * TASKS,
        }
    }

    /// The state of the bytes, if it is sound.
    pub fn read(self, bytes: &[u8]) -> Option<Supervisor> {
        let first = match self {
            Engine::Card => bytes.to_vec(),
            Engine::Second => joined(bytes)?,
        };
        flat::broken(Flat(&first)).is_none().then(|| flat::read(Flat(&first)))
    }

    pub fn write(self, state: &Supervisor) -> Vec<u8> {
        self.bytes(flat::write(state))
    }

    /// The bytes of a state that is given in those of the first engine.
    pub fn bytes(self, first: Vec<u8>) -> Vec<u8> {
        match self {
            Engine::Card => first,
            Engine::Second => spread(&first),
        }
    }
}

/// The second's bytes: each of the line of callers goes to the row of the task that it calls, the last row where that is no task.
fn spread(first: &[u8]) -> Vec<u8> {
    let mut rows = vec![Vec::new(); TASKS];
    for &caller in Flat(first).members(Line::Callers) {
        let called = match caller as usize <= TASKS {
            true => Flat(first).partner(caller) as usize,
            false => TASKS,
        };
        rows[called.clamp(1, TASKS) - 1].push(caller);
    }
    rows.iter_mut().for_each(|row| row.resize(TASKS, 0));
    [&first[..CALLERS], &first[CALLERS + TASKS..], &rows.concat()].concat()
}

/// The first's bytes: the line of callers is the rows, one behind the other. None where a row is no line of callers of its task.
fn joined(second: &[u8]) -> Option<Vec<u8>> {
    let mut callers = Vec::new();
    for (called, row) in (1..).zip(second[CORE..].chunks(TASKS)) {
        let members = row.iter().position(|&task| task == 0).unwrap_or(TASKS);
        let blank = row[members..].iter().all(|&task| task == 0);
        if !blank || !row[..members].iter().all(|&caller| calls(second, caller, called)) {
            return None;
        }
        callers.extend(&row[..members]);
    }
    if callers.len() > TASKS {
        return None;
    }
    callers.resize(TASKS, 0);
    Some([&second[..CALLERS], &callers, &second[CALLERS..CORE]].concat())
}

/// Whether the task is queued on one of the entries of the other.
fn calls(second: &[u8], caller: u8, called: u8) -> bool {
    let core = Flat(second);
    caller as usize <= TASKS && core.tag(caller) == tag::QUEUED && core.partner(caller) == called
}
