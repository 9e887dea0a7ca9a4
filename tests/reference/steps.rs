//! The step: what is refused, and what each call does.

use crate::calls::{Call, CallMode, SelectMode};
use crate::numbers::{refusal, result, ENTRIES, LEVELS, ROOM, TASKS};
use crate::supervisor::{Answer, Place, Supervisor, Task, Timer};
use std::collections::BTreeSet;

/// The items of the ended waits, written one behind the other to the lent room.
struct Ended<'a> {
    room: &'a mut [u8],
    items: usize,
}

impl Ended<'_> {
    fn list(&mut self, task: u8, reason: u8, entry: u8, partner: u8) {
        let at = self.items * 4;
        self.room[at..at + 4].copy_from_slice(&[task, reason, entry, partner]);
        self.items += 1;
    }
}

/// Result, entry and partner of an accepted step.
type Outcome = (u8, u8, u8);

impl Supervisor {
    /// One step: the answer, with the ended waits in `room`. A refused step changes nothing.
    /// Compiled `blind` it does not look whether the state is sound, so that a mistake shows in what the steps do.
    pub fn step(&mut self, call: &Call, room: &mut [u8]) -> Answer {
        if room.len() < ROOM {
            return Answer::refused(refusal::SHORT_ROOM, 0);
        }
        if cfg!(not(blind)) && !self.sound() {
            return Answer::refused(refusal::BAD_STATE, 0);
        }
        let running = self.running();
        if let Some(number) = self.refusal(call, running) {
            return Answer::refused(number, running);
        }
        let mut ended = Ended { room, items: 0 };
        let (result, entry, partner) = self.perform(call, running, &mut ended);
        let task = match call {
            Call::Create { .. } => self.tasks.len() as u8,
            Call::Tick | Call::Advance(_) => 0,
            _ => running,
        };
        Answer { refusal: refusal::NONE, result, task, entry, partner, ended: ended.items as u8, next: self.running() }
    }

    /// The first refusal of the table that applies in a sound state.
    fn refusal(&self, call: &Call, running: u8) -> Option<u8> {
        let from_outside = matches!(call, Call::Create { .. } | Call::Tick | Call::Advance(_));
        if running == 0 && !from_outside {
            return Some(refusal::NO_TASK);
        }
        match *call {
            Call::Create { priority, entries } => {
                if priority < 1 || priority > LEVELS as u8 || entries > ENTRIES {
                    return Some(refusal::BAD_FIELD);
                }
                (self.tasks.len() == TASKS).then_some(refusal::FULL)
            }
            Call::Call { target, entry, .. } => self.call_refusal(target, entry),
            Call::Select { open, .. } => {
                let entries = self.task(running).queues.len();
                (open as usize >= 1 << entries).then_some(refusal::NO_ENTRY)
            }
            Call::End => self.task(running).held.is_empty().then_some(refusal::NOT_SERVING),
            Call::Finish => (!self.task(running).held.is_empty()).then_some(refusal::STILL_SERVING),
            Call::Delay(_) | Call::Tick | Call::Advance(_) => None,
        }
    }

    fn call_refusal(&self, target: u8, entry: u8) -> Option<u8> {
        if !self.created(target) {
            return Some(refusal::NO_TARGET);
        }
        if entry < 1 || entry as usize > self.task(target).queues.len() {
            return Some(refusal::NO_ENTRY);
        }
        None
    }

    fn perform(&mut self, call: &Call, running: u8, ended: &mut Ended) -> Outcome {
        match *call {
            Call::Create { priority, entries } => self.create(priority, entries),
            Call::Delay(d) => self.delay(running, d),
            Call::Call { target, entry, mode } => self.call(running, target, entry, mode, ended),
            Call::Select { open, mode } => self.select(running, open, mode),
            Call::End => self.end(running, ended),
            Call::Finish => self.finish(running, ended),
            Call::Tick => self.tick(ended),
            Call::Advance(n) => self.advance(n, ended),
        }
    }

    fn settle(&mut self, task: u8, place: Place) {
        self.moves += 1;
        let since = self.moves;
        let task = self.task_mut(task);
        task.place = place;
        task.since = since;
    }

    /// The task joins the tail of its level, which is that of its current priority.
    fn make_ready(&mut self, task: u8) {
        self.settle(task, Place::Ready);
        let level = self.task(task).current as usize - 1;
        self.ready[level].push_back(task);
    }

    /// The running task leaves the head of its level.
    fn leave_ready(&mut self, running: u8, place: Place) {
        let level = self.task(running).current as usize - 1;
        self.ready[level].pop_front();
        self.settle(running, place);
    }

    /// Behind all that are due at that tick or before it, so that equal times stay in the order of their beginning.
    fn start_timer(&mut self, task: u8, d: i32) {
        let due = self.clock.wrapping_add(d as u32);
        let mut at = 0;
        while at < self.delays.len() && self.left(self.delays[at].due) <= self.left(due) {
            at += 1;
        }
        self.delays.insert(at, Timer { task, due });
    }

    fn drop_timer(&mut self, task: u8) {
        self.delays.retain(|timer| timer.task != task);
    }

    /// A rendezvous begins: the holder's current priority becomes the higher of its own and the caller's.
    fn hold(&mut self, holder: u8, caller: u8, entry: u8) {
        let kept = self.task(holder).current;
        self.settle(caller, Place::Held { holder, entry, kept });
        let current = kept.max(self.task(caller).current);
        let holder = self.task_mut(holder);
        holder.held.push(caller);
        holder.current = current;
    }

    /// The running task's current priority was another: it is the first of its level now, alone there if it was raised.
    fn change_level(&mut self, running: u8, before: u8) {
        self.ready[before as usize - 1].pop_front();
        let level = self.task(running).current as usize - 1;
        self.ready[level].push_front(running);
    }

    /// A rendezvous has ended: the holder's current priority is what it was before. Lowered, it goes to the head of its old level.
    fn put_back(&mut self, running: u8, kept: u8) {
        let before = self.task(running).current;
        self.task_mut(running).current = kept;
        self.change_level(running, before);
        if kept < before {
            self.moves += 1;
            self.task_mut(running).since = -self.moves;
        }
    }

    fn create(&mut self, priority: u8, entries: u8) -> Outcome {
        self.tasks.push(Task::new(priority, entries, Place::Ready));
        self.make_ready(self.tasks.len() as u8);
        (result::DONE, 0, 0)
    }

    fn delay(&mut self, running: u8, d: i32) -> Outcome {
        if d <= 0 {
            self.leave_ready(running, Place::Ready);
            self.make_ready(running);
            return (result::ELAPSED, 0, 0);
        }
        self.leave_ready(running, Place::Delayed);
        self.start_timer(running, d);
        (result::WAITS, 0, 0)
    }

    fn call(&mut self, running: u8, target: u8, entry: u8, mode: CallMode, ended: &mut Ended) -> Outcome {
        match self.task(target).place {
            Place::Completed => return (result::TASKING_ERROR, entry, target),
            Place::Accepting { open } if open & (1 << (entry - 1)) != 0 => {
                self.drop_timer(target);
                self.leave_ready(running, Place::Ready);
                self.hold(target, running, entry);
                self.make_ready(target);
                ended.list(target, result::ACCEPTED, entry, running);
                return (result::WAITS, 0, 0);
            }
            _ => {}
        }
        match mode {
            CallMode::Conditional => return (result::NOT_NOW, entry, target),
            CallMode::Timed(d) if d <= 0 => return (result::CALL_EXPIRED, entry, target),
            CallMode::Timed(d) => self.start_timer(running, d),
            CallMode::Simple => {}
        }
        self.leave_ready(running, Place::Queued { target, entry });
        self.task_mut(target).queues[entry as usize - 1].push_back(running);
        (result::WAITS, 0, 0)
    }

    fn select(&mut self, running: u8, open: u8, mode: SelectMode) -> Outcome {
        for entry in 1..=ENTRIES {
            if open & (1 << (entry - 1)) == 0 {
                continue;
            }
            if let Some(caller) = self.task_mut(running).queues[entry as usize - 1].pop_front() {
                self.drop_timer(caller);
                let before = self.task(running).current;
                self.hold(running, caller, entry);
                self.change_level(running, before);
                return (result::ACCEPTED, entry, caller);
            }
        }
        match mode {
            SelectMode::Else => return (result::ELSE_TAKEN, 0, 0),
            SelectMode::Delay(d) if d <= 0 => return (result::DELAY_TAKEN, 0, 0),
            SelectMode::Delay(d) => self.start_timer(running, d),
            SelectMode::Plain if open == 0 => return (result::PROGRAM_ERROR, 0, 0),
            SelectMode::Plain => {}
        }
        self.leave_ready(running, Place::Accepting { open });
        (result::WAITS, 0, 0)
    }

    fn end(&mut self, running: u8, ended: &mut Ended) -> Outcome {
        if let Some(caller) = self.task_mut(running).held.pop() {
            if let Place::Held { entry, kept, .. } = self.task(caller).place {
                ended.list(caller, result::SERVED, entry, running);
                self.put_back(running, kept);
            }
            self.make_ready(caller);
        }
        (result::DONE, 0, 0)
    }

    fn finish(&mut self, running: u8, ended: &mut Ended) -> Outcome {
        self.leave_ready(running, Place::Completed);
        for entry in 1..=self.task(running).queues.len() as u8 {
            while let Some(caller) = self.task_mut(running).queues[entry as usize - 1].pop_front() {
                self.drop_timer(caller);
                self.make_ready(caller);
                ended.list(caller, result::TASKING_ERROR, entry, running);
            }
        }
        (result::DONE, 0, 0)
    }

    fn tick(&mut self, ended: &mut Ended) -> Outcome {
        self.clock = self.clock.wrapping_add(1);
        while self.delays.first().is_some_and(|timer| timer.due == self.clock) {
            let task = self.delays.remove(0).task;
            match self.task(task).place {
                Place::Queued { target, entry } => {
                    self.task_mut(target).queues[entry as usize - 1].retain(|&caller| caller != task);
                    ended.list(task, result::CALL_EXPIRED, entry, target);
                }
                Place::Accepting { .. } => ended.list(task, result::DELAY_TAKEN, 0, 0),
                _ => ended.list(task, result::ELAPSED, 0, 0),
            }
            self.make_ready(task);
        }
        (result::DONE, 0, 0)
    }

    /// n ticks, their lists joined; the entry is the number of different clock readings at which a wait ended.
    /// A tick at which nobody is due moves the clock and nothing else, so those before the next due moment are one sum.
    fn advance(&mut self, n: u32, ended: &mut Ended) -> Outcome {
        let mut readings = BTreeSet::new();
        let mut to_go = n;
        while to_go > 0 {
            let quiet = self.quiet_ticks().min(to_go - 1);
            self.clock = self.clock.wrapping_add(quiet);
            let listed = ended.items;
            self.tick(ended);
            if ended.items > listed {
                readings.insert(self.clock);
            }
            to_go -= quiet + 1;
        }
        (result::DONE, readings.len() as u8, 0)
    }

    /// How many of the next ticks, at least, find nobody due: those before the soonest time; any number without a time.
    fn quiet_ticks(&self) -> u32 {
        let soonest = self.delays.iter().map(|timer| self.left(timer.due)).min();
        soonest.map_or(u32::MAX, |left| left - 1)
    }
}
