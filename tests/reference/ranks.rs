//! What an accepted step does to current priorities and to the tree of held callers: the events of document 02 (i) and (xi) that must occur
//! in the generated logs.

use crate::calls::Call;
use crate::numbers::result;
use crate::supervisor::{Answer, Place, Supervisor, Task};

/// An accepted step with the states around it.
pub struct Move<'a> {
    pub call: &'a Call,
    pub before: &'a Supervisor,
    pub after: &'a Supervisor,
    pub answer: &'a Answer,
    /// The tasks whose waits ended.
    pub ended: Vec<u8>,
    /// The running task before.
    pub running: u8,
}

type Event = (&'static str, fn(&Move) -> bool);

pub const EVENTS: [Event; 26] = [
    ("CALL raises a resumed acceptor", |m| m.resumed().is_some_and(|task| m.raised(task))),
    ("CALL raises a resumed acceptor, others ready on its new level", |m| {
        m.resumed().is_some_and(|task| m.raised(task) && m.level(task) > 1)
    }),
    ("CALL resumes an acceptor without raising it", |m| m.resumed().is_some_and(|task| !m.raised(task))),
    ("SELECT raises the running task", |m| m.took() && m.raised(m.running)),
    ("SELECT takes a caller and is not raised, others ready on its level", |m| {
        m.took() && !m.raised(m.running) && m.level(m.running) > 1
    }),
    ("a raised task is raised again", |m| {
        m.begins().is_some_and(|task| is_raised(m.before.task(task)) && m.raised(task))
    }),
    ("a raised caller raises its acceptor", |m| {
        m.begins().is_some_and(|task| m.raised(task) && m.latest(task).is_some_and(is_raised))
    }),
    ("a raised caller meets an acceptor that its created priority alone would not raise", |m| {
        m.begins().is_some_and(|task| {
            let caller = m.latest(task);
            m.raised(task) && caller.is_some_and(|caller| caller.priority <= m.before.task(task).current)
        })
    }),
    ("END lowers the acceptor", |m| m.lowered()),
    ("END lowers the acceptor, others ready on its old level", |m| m.lowered() && m.level(m.running) > 1),
    ("END lowers the acceptor to a level that is still raised", |m| m.lowered() && is_raised(m.after.task(m.running))),
    ("END lowers the acceptor, the one served runs", |m| m.lowered() && m.ended.contains(&m.answer.next)),
    ("END lowers the acceptor, another runs", |m| {
        m.lowered() && m.answer.next != m.running && !m.ended.contains(&m.answer.next)
    }),
    ("END of a raised acceptor that is not lowered", |m| {
        *m.call == Call::End && !m.lowered() && is_raised(m.after.task(m.running))
    }),
    ("END serves a caller that holds and is raised", |m| {
        *m.call == Call::End && m.ended.iter().any(|&task| is_raised(m.after.task(task)))
    }),
    ("a raised task runs while one between its two priorities is ready", |m| m.keeps_out(m.answer.next)),
    ("CREATE of a task between the two priorities of the running one", |m| {
        matches!(m.call, Call::Create { .. }) && m.running != 0 && m.between(m.running, m.answer.task)
    }),
    ("DELAY 0 or below of a raised task, another of its level ready", |m| {
        matches!(m.call, Call::Delay(d) if *d <= 0) && is_raised(m.before.task(m.running)) && m.answer.next != m.running
    }),
    ("a raised task waits", |m| m.answer.result == result::WAITS && is_raised(m.before.task(m.running))),
    ("a wait of a raised task ends by time", |m| {
        m.ticks() && m.ended.iter().any(|&task| is_raised(m.after.task(task)))
    }),
    ("a rendezvous makes a chain of 10 moves or more", |m| m.longest_chain() >= 10),
    ("a rendezvous makes a chain of 30 moves", |m| m.longest_chain() == 30),
    ("a task holds two who hold others", |m| {
        m.begins().is_some_and(|task| m.after.task(task).held.iter().filter(|&&held| m.holds(held)).count() > 1)
    }),
    ("END in a chain of 10 moves or more", |m| *m.call == Call::End && m.chain(m.running) >= 10),
    ("a priority that comes from two moves below or more", |m| {
        m.begins().is_some_and(|task| m.latest(task).is_some_and(|caller| caller.priority < m.after.task(task).current))
    }),
    ("TICK preempts a raised task", |m| {
        m.ticks() && m.running != 0 && is_raised(m.before.task(m.running)) && m.answer.next != m.running
    }),
];

fn is_raised(task: &Task) -> bool {
    task.current > task.priority
}

impl Move<'_> {
    fn ticks(&self) -> bool {
        matches!(self.call, Call::Tick | Call::Advance(_))
    }

    /// The acceptor that a CALL has met.
    fn resumed(&self) -> Option<u8> {
        match *self.call {
            Call::Call { target, .. } if !self.ended.is_empty() => Some(target),
            _ => None,
        }
    }

    fn took(&self) -> bool {
        self.answer.result == result::ACCEPTED
    }

    /// The acceptor, where a rendezvous begins.
    fn begins(&self) -> Option<u8> {
        self.resumed().or(self.took().then_some(self.running))
    }

    fn raised(&self, task: u8) -> bool {
        self.after.task(task).current > self.before.task(task).current
    }

    fn lowered(&self) -> bool {
        *self.call == Call::End && self.after.task(self.running).current < self.before.task(self.running).current
    }

    /// How many are ready on the level of a task, afterwards.
    fn level(&self, task: u8) -> usize {
        self.after.ready[self.after.task(task).current as usize - 1].len()
    }

    /// The caller that the task holds since this step.
    fn latest(&self, task: u8) -> Option<&Task> {
        self.after.task(task).held.last().map(|&caller| self.before.task(caller))
    }

    fn holds(&self, task: u8) -> bool {
        !self.after.task(task).held.is_empty()
    }

    /// The most moves that lead up to a task that holds: before its END, behind any other call.
    fn chain(&self, task: u8) -> usize {
        let state = if *self.call == Call::End { self.before } else { self.after };
        let moves = |below: u8| state.way_up(below).position(|above| above == task);
        (1..=state.tasks.len() as u8).filter_map(moves).max().unwrap_or(0)
    }

    /// The most moves that lead up to the acceptor of a rendezvous that begins.
    fn longest_chain(&self) -> usize {
        self.begins().map_or(0, |task| self.chain(task))
    }

    /// Whether the other's priority lies between the created one of a task and its current one.
    fn between(&self, task: u8, other: u8) -> bool {
        let (raised, other) = (self.after.task(task), self.after.task(other));
        raised.priority < other.current && other.current < raised.current
    }

    fn keeps_out(&self, next: u8) -> bool {
        let ready = |&other: &u8| self.after.task(other).place == Place::Ready;
        next != 0 && (1..=self.after.tasks.len() as u8).filter(ready).any(|other| self.between(next, other))
    }
}
