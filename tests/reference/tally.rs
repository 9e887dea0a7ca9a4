//! How often each named event occurs in logs: what the generator is measured by.

use crate::advances::{self, in_the_middle, Stretch};
use crate::calls::{self, Call, CallMode, Fault, Read, SelectMode};
use crate::logs::Log;
use crate::numbers::{refusal, result, ROOM, TASKS};
use crate::ranks::{self, Move};
use crate::supervisor::{Answer, Place, Supervisor};
use std::collections::BTreeMap;

/// Every event that must occur, in the order of printing; those of ADVANCE and of priorities come behind.
const EVENTS: &[&str] = &[
    "CREATE done",
    "CREATE that preempts",
    "the 31st task",
    "DELAY waits",
    "DELAY 0 or below, another of its level ready",
    "DELAY 0 or below, alone on its level",
    "DELAY of the longest time",
    "DELAY of the lowest number",
    "simple CALL waits in a queue",
    "timed CALL waits in a queue",
    "CALL waits behind others",
    "CALL waits behind 10 or more",
    "CALL waits behind 29",
    "CALL of an entry of its own",
    "simple CALL meets an acceptor",
    "timed CALL meets an acceptor",
    "timed CALL, d 0 or below, meets an acceptor",
    "conditional CALL meets an acceptor",
    "CALL meets an acceptor with a time",
    "CALL of an acceptor's closed entry",
    "CALL meets an acceptor that holds others",
    "CALL_EXPIRED at once",
    "NOT_NOW",
    "TASKING_ERROR at once",
    "SELECT ACCEPTED at once",
    "SELECT takes a caller with a time",
    "SELECT takes a caller, others stay queued",
    "SELECT with callers on two open entries",
    "SELECT takes a lower entry, a higher one's caller is older",
    "SELECT while holding",
    "SELECT plain waits",
    "SELECT delay waits",
    "SELECT delay waits with an empty set",
    "SELECT waits, callers on closed entries",
    "DELAY_TAKEN at once",
    "ELSE_TAKEN",
    "PROGRAM_ERROR",
    "END of the only one held",
    "END, others stay held",
    "END, three or more held",
    "END, callers queued",
    "FINISH, nobody queued",
    "FINISH, callers queued",
    "FINISH, callers on several entries",
    "FINISH, a caller with a time",
    "FINISH, 10 or more callers",
    "TICK, nothing due",
    "TICK, one due",
    "TICK, several due",
    "TICK, waits of two kinds due",
    "TICK, equal times begun at different readings",
    "TICK that preempts",
    "TICK round the clock",
    "a wait that crosses the wrap ends",
    "an expired call leaves others queued before and behind it",
    "ELAPSED ends a wait",
    "SERVED ends a wait",
    "CALL_EXPIRED ends a wait",
    "TASKING_ERROR ends a wait",
    "ACCEPTED ends a wait",
    "DELAY_TAKEN ends a wait",
    "nobody ready afterwards",
    "a held task holds another",
    "a wait while holding",
    "BAD_FIELD priority 0",
    "BAD_FIELD priority above 15",
    "BAD_FIELD entries above 8",
    "BAD_FIELD with 31 tasks",
    "NO_TASK: DELAY",
    "NO_TASK: CALL",
    "NO_TASK: SELECT",
    "NO_TASK: END",
    "NO_TASK: FINISH",
    "NO_TARGET 0",
    "NO_TARGET above the created",
    "NO_TARGET, the next number",
    "NO_ENTRY of CALL: 0",
    "NO_ENTRY of CALL: above",
    "NO_ENTRY of CALL: a completed target",
    "NO_ENTRY of SELECT",
    "NO_ENTRY of SELECT, a caller on another",
    "NOT_SERVING",
    "STILL_SERVING",
    "FULL",
    "bad record: fewer than 3 bytes",
    "bad record: unknown tag",
    "bad record: wrong length",
    "bad record: fewer bytes than the length",
    "bad record: mode above 2",
    "bad record: unused d",
    "bad record with bytes behind",
    "a log that ends well",
];

fn events() -> impl Iterator<Item = &'static str> {
    let (advances, ranks) = (advances::EVENTS.map(|(event, _)| event), ranks::EVENTS.map(|(event, _)| event));
    EVENTS.iter().copied().chain(advances).chain(ranks)
}

pub struct Tally {
    counts: BTreeMap<&'static str, usize>,
    pub logs: usize,
    pub calls: usize,
    /// The clock reading at which each task's wait began, and the wraps before it.
    begun: [(u32, usize); TASKS + 1],
    wraps: usize,
}

/// One step with what was before it and after it.
struct Seen<'a> {
    call: &'a Call,
    before: &'a Supervisor,
    after: &'a Supervisor,
    answer: &'a Answer,
    items: Vec<&'a [u8]>,
    /// The running task before.
    running: u8,
}

impl Tally {
    pub fn of(logs: &[Log]) -> Tally {
        let counts = events().map(|event| (event, 0)).collect();
        let mut tally = Tally { counts, logs: logs.len(), calls: 0, begun: [(0, 0); TASKS + 1], wraps: 0 };
        logs.iter().for_each(|log| tally.log(log));
        tally
    }

    pub fn counts(&self) -> Vec<(&'static str, usize)> {
        events().map(|event| (event, self.counts[event])).collect()
    }

    fn hit(&mut self, event: &'static str, when: bool) {
        *self.counts.get_mut(event).expect("every event is in the list") += usize::from(when);
    }

    fn log(&mut self, log: &Log) {
        let mut before = Supervisor::empty(log.clock);
        let mut room = [0; ROOM];
        let (records, rest) = log.records();
        self.wraps = 0;
        for record in &records {
            if let Read::Good(call, _) = calls::read(record) {
                let mut after = before.clone();
                let answer = after.step(&call, &mut room);
                let items = room.chunks(4).take(answer.ended as usize).collect();
                let running = before.running();
                self.step(&Seen { call: &call, before: &before, after: &after, answer: &answer, items, running });
                before = after;
            }
        }
        self.calls += records.len();
        self.end(rest);
    }

    fn end(&mut self, rest: &[u8]) {
        let Read::Bad(fault) = calls::read(rest) else {
            return self.hit("a log that ends well", true);
        };
        let cut_off = fault == Fault::ShortHead || fault == Fault::ShortBody;
        self.hit("bad record: fewer than 3 bytes", fault == Fault::ShortHead);
        self.hit("bad record: unknown tag", fault == Fault::UnknownTag);
        self.hit("bad record: wrong length", fault == Fault::WrongLength);
        self.hit("bad record: fewer bytes than the length", fault == Fault::ShortBody);
        self.hit("bad record: mode above 2", fault == Fault::ModeAbove2);
        self.hit("bad record: unused d", fault == Fault::UnusedDuration);
        self.hit("bad record with bytes behind", !cut_off && rest.len() > 10);
    }

    fn step(&mut self, seen: &Seen) {
        if seen.answer.refusal != refusal::NONE {
            return self.refused(seen);
        }
        match *seen.call {
            Call::Create { .. } => self.create(seen),
            Call::Delay(d) => self.delay(seen, d),
            Call::Call { target, entry, mode } => self.call(seen, target, entry, mode),
            Call::Select { open, mode } => self.select(seen, open, mode),
            Call::End => self.ended(seen),
            Call::Finish => self.finish(seen),
            Call::Tick => self.tick(seen),
            Call::Advance(n) => self.advance(seen, n),
        }
        if seen.answer.result == result::WAITS {
            self.begun[seen.running as usize] = (seen.before.clock, self.wraps);
            self.hit("a wait while holding", !seen.before.task(seen.running).held.is_empty());
        }
        for item in &seen.items {
            self.hit(reason(item[1]), true);
        }
        self.ranks(seen);
        self.hit("nobody ready afterwards", seen.answer.next == 0);
    }

    fn create(&mut self, seen: &Seen) {
        self.hit("CREATE done", true);
        self.hit("CREATE that preempts", seen.running != 0 && seen.answer.next != seen.running);
        self.hit("the 31st task", seen.after.tasks.len() == TASKS);
    }

    fn delay(&mut self, seen: &Seen, d: i32) {
        let moved = seen.answer.next != seen.running;
        self.hit("DELAY waits", d > 0);
        self.hit("DELAY 0 or below, another of its level ready", d <= 0 && moved);
        self.hit("DELAY 0 or below, alone on its level", d <= 0 && !moved);
        self.hit("DELAY of the longest time", d == i32::MAX);
        self.hit("DELAY of the lowest number", d == i32::MIN);
    }

    fn call(&mut self, seen: &Seen, target: u8, entry: u8, mode: CallMode) {
        let waits = seen.answer.result == result::WAITS;
        let meets = !seen.items.is_empty();
        let queued = waits && !meets;
        let behind = seen.before.count(target, entry);
        let place = seen.before.task(target).place;
        let timed = matches!(mode, CallMode::Timed(_));
        let at_once = matches!(mode, CallMode::Timed(d) if d <= 0);
        self.hit("simple CALL waits in a queue", queued && mode == CallMode::Simple);
        self.hit("timed CALL waits in a queue", queued && timed);
        self.hit("CALL waits behind others", queued && behind > 0);
        self.hit("CALL waits behind 10 or more", queued && behind >= 10);
        self.hit("CALL waits behind 29", queued && behind == 29);
        self.hit("CALL of an entry of its own", target == seen.running);
        self.hit("simple CALL meets an acceptor", meets && mode == CallMode::Simple);
        self.hit("timed CALL meets an acceptor", meets && timed && !at_once);
        self.hit("timed CALL, d 0 or below, meets an acceptor", meets && at_once);
        self.hit("conditional CALL meets an acceptor", meets && mode == CallMode::Conditional);
        self.hit("CALL meets an acceptor with a time", meets && seen.before.timer(target).is_some());
        self.hit("CALL of an acceptor's closed entry", !meets && matches!(place, Place::Accepting { .. }));
        self.hit("CALL meets an acceptor that holds others", meets && !seen.before.task(target).held.is_empty());
        self.hit("CALL_EXPIRED at once", seen.answer.result == result::CALL_EXPIRED);
        self.hit("NOT_NOW", seen.answer.result == result::NOT_NOW);
        self.hit("TASKING_ERROR at once", seen.answer.result == result::TASKING_ERROR);
        self.hit("a held task holds another", meets && !seen.before.task(seen.running).held.is_empty());
    }

    fn select(&mut self, seen: &Seen, open: u8, mode: SelectMode) {
        let task = seen.before.task(seen.running);
        let result = seen.answer.result;
        let waits = result == result::WAITS;
        let called = |k: &u8| seen.before.count(seen.running, *k) > 0;
        let heads: Vec<u8> = (1..=8).filter(|k| open & (1 << (k - 1)) != 0 && called(k)).collect();
        let since = |k: u8| seen.before.task(task.queues[k as usize - 1][0]).since;
        let taken = result == result::ACCEPTED;
        self.hit("SELECT ACCEPTED at once", taken);
        self.hit("SELECT takes a caller with a time", taken && seen.before.timer(seen.answer.partner).is_some());
        self.hit(
            "SELECT takes a caller, others stay queued",
            taken && seen.after.count(seen.running, seen.answer.entry) > 0,
        );
        self.hit("SELECT with callers on two open entries", heads.len() >= 2);
        let older = heads.iter().any(|&k| since(k) < since(heads[0]));
        self.hit("SELECT takes a lower entry, a higher one's caller is older", older);
        self.hit("SELECT while holding", !task.held.is_empty());
        self.hit("SELECT plain waits", waits && mode == SelectMode::Plain);
        self.hit("SELECT delay waits", waits && mode != SelectMode::Plain);
        self.hit("SELECT delay waits with an empty set", waits && open == 0);
        self.hit("SELECT waits, callers on closed entries", waits && (1..=8).any(|k| called(&k)));
        self.hit("DELAY_TAKEN at once", result == result::DELAY_TAKEN);
        self.hit("ELSE_TAKEN", result == result::ELSE_TAKEN);
        self.hit("PROGRAM_ERROR", result == result::PROGRAM_ERROR);
    }

    fn ended(&mut self, seen: &Seen) {
        let held = &seen.before.task(seen.running).held;
        self.hit("END of the only one held", held.len() == 1);
        self.hit("END, others stay held", held.len() > 1);
        self.hit("END, three or more held", held.len() >= 3);
        let queues = &seen.before.task(seen.running).queues;
        self.hit("END, callers queued", queues.iter().any(|queue| !queue.is_empty()));
    }

    fn finish(&mut self, seen: &Seen) {
        let queues = &seen.before.task(seen.running).queues;
        let called = queues.iter().filter(|queue| !queue.is_empty()).count();
        let timed = queues.iter().flatten().any(|&caller| seen.before.timer(caller).is_some());
        self.hit("FINISH, nobody queued", called == 0);
        self.hit("FINISH, callers queued", called > 0);
        self.hit("FINISH, callers on several entries", called > 1);
        self.hit("FINISH, a caller with a time", timed);
        self.hit("FINISH, 10 or more callers", seen.items.len() >= 10);
    }

    fn tick(&mut self, seen: &Seen) {
        let ended = seen.items.len();
        let kinds = seen.items.iter().any(|item| item[1] != seen.items[0][1]);
        let begun: Vec<(u32, usize)> = seen.items.iter().map(|item| self.begun[item[0] as usize]).collect();
        self.wraps += usize::from(seen.after.clock == 0);
        let crossed = seen.items.iter().any(|item| self.begun[item[0] as usize].1 < self.wraps);
        let middle = seen.items.iter().any(|item| in_the_middle(seen.before, seen.after, item[0]));
        self.hit("TICK, nothing due", ended == 0);
        self.hit("TICK, one due", ended == 1);
        self.hit("TICK, several due", ended > 1);
        self.hit("TICK, waits of two kinds due", kinds);
        self.hit("TICK, equal times begun at different readings", begun.iter().any(|&at| at != begun[0]));
        self.hit("TICK that preempts", seen.running != 0 && seen.answer.next != seen.running);
        self.hit("TICK round the clock", seen.after.clock == 0);
        self.hit("a wait that crosses the wrap ends", crossed);
        self.hit("an expired call leaves others queued before and behind it", middle);
    }

    fn advance(&mut self, seen: &Seen, n: u32) {
        let stretch = &Stretch::new(n, seen.before, seen.after, seen.answer, &seen.items);
        self.wraps += usize::from(stretch.round());
        for (event, occurs) in advances::EVENTS {
            self.hit(event, occurs(stretch));
        }
    }

    fn ranks(&mut self, seen: &Seen) {
        let &Seen { call, before, after, answer, running, .. } = seen;
        let ended = seen.items.iter().map(|item| item[0]).collect();
        let moved = &Move { call, before, after, answer, ended, running };
        for (event, occurs) in ranks::EVENTS {
            self.hit(event, occurs(moved));
        }
    }

    fn refused(&mut self, seen: &Seen) {
        match (seen.answer.refusal, *seen.call) {
            (refusal::BAD_FIELD, Call::Create { priority, entries }) => {
                self.hit("BAD_FIELD priority 0", priority == 0);
                self.hit("BAD_FIELD priority above 15", priority > 15);
                self.hit("BAD_FIELD entries above 8", entries > 8);
                self.hit("BAD_FIELD with 31 tasks", seen.before.tasks.len() == TASKS);
            }
            (refusal::NO_TASK, call) => self.hit(no_task(&call), true),
            (refusal::NO_TARGET, Call::Call { target, .. }) => {
                self.hit("NO_TARGET 0", target == 0);
                self.hit("NO_TARGET above the created", target != 0);
                self.hit("NO_TARGET, the next number", target as usize == seen.before.tasks.len() + 1);
            }
            (refusal::NO_ENTRY, Call::Call { target, entry, .. }) => {
                self.hit("NO_ENTRY of CALL: 0", entry == 0);
                self.hit("NO_ENTRY of CALL: above", entry != 0);
                self.hit("NO_ENTRY of CALL: a completed target", !seen.before.callable(target));
            }
            (refusal::NO_ENTRY, Call::Select { open, .. }) => {
                let called = |k: u8| open & (1 << (k - 1)) != 0 && seen.before.count(seen.running, k) > 0;
                self.hit("NO_ENTRY of SELECT", true);
                self.hit("NO_ENTRY of SELECT, a caller on another", (1..=8).any(called));
            }
            (refusal::NOT_SERVING, _) => self.hit("NOT_SERVING", true),
            (refusal::STILL_SERVING, _) => self.hit("STILL_SERVING", true),
            _ => self.hit("FULL", seen.answer.refusal == refusal::FULL),
        }
    }
}

fn reason(number: u8) -> &'static str {
    match number {
        result::ELAPSED => "ELAPSED ends a wait",
        result::SERVED => "SERVED ends a wait",
        result::CALL_EXPIRED => "CALL_EXPIRED ends a wait",
        result::TASKING_ERROR => "TASKING_ERROR ends a wait",
        result::ACCEPTED => "ACCEPTED ends a wait",
        _ => "DELAY_TAKEN ends a wait",
    }
}

fn no_task(call: &Call) -> &'static str {
    match call {
        Call::Delay(_) => "NO_TASK: DELAY",
        Call::Call { .. } => "NO_TASK: CALL",
        Call::Select { .. } => "NO_TASK: SELECT",
        Call::End => "NO_TASK: END",
        _ => "NO_TASK: FINISH",
    }
}
