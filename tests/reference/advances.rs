//! What an accepted ADVANCE can meet: the events that must occur in the generated logs, and in the cases for the library.

use crate::numbers::LONGEST;
use crate::supervisor::{Answer, Place, Supervisor};

/// An accepted ADVANCE with the states around it.
pub struct Stretch<'a> {
    n: u32,
    before: &'a Supervisor,
    after: &'a Supervisor,
    /// The different clock readings at which a wait ended.
    readings: usize,
    /// The tasks whose waits ended.
    ended: Vec<u8>,
}

type Event = (&'static str, fn(&Stretch) -> bool);

/// Each event, and when a stretch is one.
pub const EVENTS: [Event; 31] = [
    ("ADVANCE 0, somebody waits with a time", |s| s.n == 0 && s.timed()),
    ("ADVANCE 0, nobody waits with a time", |s| s.n == 0 && !s.timed()),
    ("ADVANCE, nobody waits with a time", |s| s.n > 0 && !s.timed()),
    ("ADVANCE, nobody waits with a time, round the clock", |s| s.round() && !s.timed()),
    ("ADVANCE, nobody waits with a time, above 2147483647", |s| s.n > LONGEST && !s.timed()),
    ("ADVANCE, nobody waits with a time, the largest number", |s| s.n == u32::MAX && !s.timed()),
    ("ADVANCE, no time is over", |s| s.n > 0 && s.timed() && s.ended.is_empty()),
    ("ADVANCE over one due moment", |s| s.readings == 1),
    ("ADVANCE over several due moments", |s| s.readings > 1),
    ("ADVANCE over 8 due moments or more", |s| s.readings >= 8),
    ("ADVANCE over equal times", |s| s.ended.len() > s.readings),
    ("ADVANCE over several due moments, equal times at one", |s| s.readings > 1 && s.ended.len() > s.readings),
    ("ADVANCE over waits of all three kinds", |s| s.kinds() == 3),
    ("ADVANCE to exactly a due moment", |s| s.due_at(s.n)),
    ("ADVANCE to exactly a due moment, equal times", |s| s.lefts().filter(|&left| left == s.n).count() > 1),
    ("ADVANCE to one tick before a due moment", |s| s.n < u32::MAX && s.due_at(s.n + 1)),
    ("ADVANCE to one tick behind a due moment", |s| s.n > 0 && s.due_at(s.n - 1)),
    ("ADVANCE far behind the last time", |s| s.lefts().max().is_some_and(|last| s.n > last && s.n - last > 1000)),
    ("ADVANCE over a time of 2147483647 ticks", |s| s.n >= LONGEST && s.due_at(LONGEST)),
    ("ADVANCE round the clock, over a due moment", |s| s.round() && !s.ended.is_empty()),
    ("ADVANCE over due moments before the wrap and behind it", |s| s.due_before_wrap() && s.due_behind_wrap()),
    ("ADVANCE to clock 0", |s| s.n > 0 && s.after.clock == 0),
    ("ADVANCE of the largest number, from clock 0", |s| s.n == u32::MAX && s.before.clock == 0),
    ("ADVANCE of the largest number, from the clock's first half", |s| s.n == u32::MAX && s.before.clock <= LONGEST),
    ("ADVANCE of the largest number, from its second half", |s| s.n == u32::MAX && s.before.clock > LONGEST),
    ("ADVANCE that preempts", |s| s.before.running() != 0 && s.after.running() != s.before.running()),
    ("ADVANCE, an expired call leaves others queued before and behind it", |s| {
        s.ended.iter().any(|&task| in_the_middle(s.before, s.after, task))
    }),
    ("ADVANCE, a task holds two or more", |s| s.n > 0 && s.tasks().any(|task| s.held(task).len() > 1)),
    ("ADVANCE, a held task holds another", |s| s.n > 0 && s.tasks().any(|task| s.holds_a_holder(task))),
    ("ADVANCE ends the wait of a task that holds two or more", |s| s.ended.iter().any(|&task| s.held(task).len() > 1)),
    ("ADVANCE ends the wait of a task that holds a holder", |s| s.ended.iter().any(|&task| s.holds_a_holder(task))),
];

impl<'a> Stretch<'a> {
    pub fn new(n: u32, before: &'a Supervisor, after: &'a Supervisor, answer: &Answer, items: &[&[u8]]) -> Stretch<'a> {
        let ended = items.iter().map(|item| item[0]).collect();
        Stretch { n, before, after, readings: answer.entry as usize, ended }
    }

    fn timed(&self) -> bool {
        !self.before.delays.is_empty()
    }

    /// The ticks left of each time at the start.
    fn lefts(&self) -> impl Iterator<Item = u32> + '_ {
        self.before.delays.iter().map(|timer| self.before.left(timer.due))
    }

    fn due_at(&self, tick: u32) -> bool {
        self.lefts().any(|left| left == tick)
    }

    /// The ticks to clock 0 from here; at clock 0 a whole round.
    fn to_wrap(&self) -> u64 {
        (1 << 32) - u64::from(self.before.clock)
    }

    /// The clock goes round.
    pub fn round(&self) -> bool {
        u64::from(self.n) >= self.to_wrap()
    }

    fn due_before_wrap(&self) -> bool {
        self.lefts().any(|left| left <= self.n && u64::from(left) < self.to_wrap())
    }

    fn due_behind_wrap(&self) -> bool {
        self.lefts().any(|left| left <= self.n && u64::from(left) >= self.to_wrap())
    }

    /// How many of delay, timed call and delay alternative are among the waits that ended.
    fn kinds(&self) -> usize {
        let place = |task: &u8| self.before.task(*task).place;
        let delayed = self.ended.iter().any(|task| place(task) == Place::Delayed);
        let queued = self.ended.iter().any(|task| matches!(place(task), Place::Queued { .. }));
        let accepting = self.ended.iter().any(|task| matches!(place(task), Place::Accepting { .. }));
        [delayed, queued, accepting].iter().filter(|&&met| met).count()
    }

    fn tasks(&self) -> impl Iterator<Item = u8> {
        1..=self.before.tasks.len() as u8
    }

    fn held(&self, task: u8) -> &[u8] {
        &self.before.task(task).held
    }

    fn holds_a_holder(&self, task: u8) -> bool {
        self.held(task).iter().any(|&caller| !self.held(caller).is_empty())
    }
}

/// Whether the caller's queue has others before and behind it that stay.
pub fn in_the_middle(before: &Supervisor, after: &Supervisor, caller: u8) -> bool {
    let Place::Queued { target, entry } = before.task(caller).place else {
        return false;
    };
    let queue = &before.task(target).queues[entry as usize - 1];
    let stays = |task: &u8| after.task(*task).place == before.task(*task).place;
    let at = queue.iter().position(|&task| task == caller).unwrap_or(0);
    queue.iter().take(at).any(stays) && queue.iter().skip(at + 1).any(stays)
}
