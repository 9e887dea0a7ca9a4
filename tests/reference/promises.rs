//! What the mission's third statement promises of every log, checked on the reference itself as the logs run; and that an
//! ADVANCE is so many TICKs.

use crate::calls::{self, Call, CallMode, Read, SelectMode};
use crate::flat::{self, Flat};
use crate::logs::Log;
use crate::numbers::{refusal, result, ROOM, TASKS};
use crate::states;
use crate::supervisor::{Answer, Place, Supervisor};
use std::collections::BTreeSet;

/// An ADVANCE of at most so many ticks is held against TICKs one by one.
const ONE_BY_ONE: u32 = 100_000;

/// A task's waits so far, and the one it is in.
#[derive(Clone, Copy, Default)]
struct Waits {
    begun: usize,
    ended: usize,
    /// Accepted ticks after which the time of this wait is over, unless a rendezvous drops it.
    ticks_left: Option<u32>,
}

pub struct Ledger {
    waits: [Waits; TASKS + 1],
    pub steps: usize,
    /// The ADVANCEs that were held against TICKs one by one.
    pub stretches: usize,
}

/// The duration a wait begins with.
fn time_of(call: &Call) -> Option<u32> {
    match *call {
        Call::Delay(d) => Some(d as u32),
        Call::Call { mode: CallMode::Timed(d), .. } if d > 0 => Some(d as u32),
        Call::Select { mode: SelectMode::Delay(d), .. } => Some(d as u32),
        _ => None,
    }
}

/// The state's bytes after n TICKs, their lists joined, and the number of different clock readings at which a wait ended.
fn ticked(before: &Supervisor, n: u32) -> (Vec<u8>, Vec<u8>, usize) {
    let mut state = before.clone();
    let mut items = Vec::new();
    let mut readings = BTreeSet::new();
    for _ in 0..n {
        let mut room = [0; ROOM];
        let ended = state.step(&Call::Tick, &mut room).ended as usize;
        items.extend(&room[..ended * 4]);
        if ended > 0 {
            readings.insert(state.clock);
        }
    }
    (flat::write(&state), items, readings.len())
}

fn demand(holds: bool, promise: &str) -> Result<(), String> {
    if holds {
        Ok(())
    } else {
        Err(promise.to_string())
    }
}

impl Ledger {
    pub fn new() -> Ledger {
        Ledger { waits: [Waits::default(); TASKS + 1], steps: 0, stretches: 0 }
    }

    /// Runs one log; the error says which promise is broken at which step.
    pub fn log(&mut self, log: &Log) -> Result<(), String> {
        self.waits = [Waits::default(); TASKS + 1];
        let mut state = Supervisor::empty(log.clock);
        for (i, record) in log.records().0.iter().enumerate() {
            let Read::Good(call, taken) = calls::read(record) else { continue };
            let mut room = [0xa5; ROOM];
            let before = state.clone();
            let answer = state.step(&call, &mut room);
            let checked =
                self.record(&call, record, taken).and_then(|()| self.step(&before, &state, &call, &answer, &room));
            checked.map_err(|promise| format!("step {}: {promise}", i + 1))?;
            self.steps += 1;
        }
        Ok(())
    }

    /// Each call has one record, and the writer wants room for it.
    fn record(&self, call: &Call, record: &[u8], taken: usize) -> Result<(), String> {
        let mut room = [0xa5; 10];
        demand(taken == record.len() && calls::write(call, &mut room) == Ok(taken), "the record is read and written")?;
        demand(
            room[..taken] == *record && room[taken..].iter().all(|&byte| byte == 0xa5),
            "only the record is written",
        )?;
        demand(calls::write(call, &mut room[..taken - 1]) == Err(refusal::SHORT_ROOM), "the writer wants its room")
    }

    fn step(
        &mut self,
        before: &Supervisor,
        after: &Supervisor,
        call: &Call,
        a: &Answer,
        room: &[u8],
    ) -> Result<(), String> {
        let bytes = flat::write(after);
        demand(flat::broken(Flat(&bytes)).is_none() && after.sound(), "every state reached is sound")?;
        demand(states::reads_back(&bytes), "a state reads back from its bytes")?;
        demand(room[a.ended as usize * 4..].iter().all(|&byte| byte == 0xa5), "bytes behind the last item stay")?;
        if a.refusal != refusal::NONE {
            let same = bytes == flat::write(before) && *a == Answer::refused(a.refusal, before.running());
            return demand(same, "a refused step changes nothing and answers 0");
        }
        match *call {
            Call::Tick => self.pass(1),
            Call::Advance(n) => {
                let items = room[..a.ended as usize * 4].to_vec();
                let compared = n <= ONE_BY_ONE;
                let same = !compared || (bytes, items, a.entry as usize) == ticked(before, n);
                demand(same && a.partner == 0, "ADVANCE is so many TICKs")?;
                self.stretches += usize::from(compared);
                self.pass(n);
            }
            _ => {}
        }
        for item in room.chunks(4).take(a.ended as usize) {
            self.ended(before, item)?;
        }
        if a.result == result::WAITS {
            let met = a.ended > 0;
            let waits = &mut self.waits[a.task as usize];
            waits.begun += 1;
            waits.ticks_left = if met { None } else { time_of(call) };
        }
        if a.result == result::ACCEPTED {
            // the caller's wait goes on until SERVED, without its time
            self.waits[a.partner as usize].ticks_left = None;
        }
        self.balance(after, a)
    }

    fn pass(&mut self, ticks: u32) {
        for waits in &mut self.waits {
            waits.ticks_left = waits.ticks_left.map(|left| left.saturating_sub(ticks));
        }
    }

    fn ended(&mut self, before: &Supervisor, item: &[u8]) -> Result<(), String> {
        let waits = &mut self.waits[item[0] as usize];
        let by_time = matches!(item[1], result::ELAPSED | result::CALL_EXPIRED | result::DELAY_TAKEN);
        let held = matches!(before.task(item[0]).place, Place::Held { .. });
        demand((1..=6).contains(&item[1]), "a wait ends for one of six reasons")?;
        demand(held == (item[1] == result::SERVED), "a caller in rendezvous is released by its end only")?;
        demand(!by_time || waits.ticks_left == Some(0), "a time ends at the tick it names")?;
        waits.ended += 1;
        waits.ticks_left = None;
        Ok(())
    }

    /// Waits begun are waits ended and the one the task is in; no time has passed unseen; the head runs.
    fn balance(&self, after: &Supervisor, a: &Answer) -> Result<(), String> {
        for task in 1..=after.tasks.len() as u8 {
            let waits = &self.waits[task as usize];
            let waiting = !matches!(after.task(task).place, Place::Ready | Place::Completed);
            demand(waits.begun == waits.ended + usize::from(waiting), "begun are ended and the one it is in")?;
            demand(waits.ticks_left != Some(0), "no wait outlives its time")?;
            demand(waits.ticks_left.is_some() == after.timer(task).is_some(), "a time runs while its wait does")?;
            demand(after.task(task).current == after.priority(task), "a current priority is that of the tree below")?;
            let above = after.task(task).place == Place::Ready
                && (a.next == 0 || after.task(task).current > after.task(a.next).current);
            demand(!above, "the highest ready level runs")?;
        }
        Ok(())
    }
}
