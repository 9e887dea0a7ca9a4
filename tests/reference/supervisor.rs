//! The supervisor's state: a queue for each ready level, for each entry of each task, a stack of held callers
//! for each task, and the delay queue; and the questions about it.

use crate::numbers::{result, LEVELS, LONGEST, TASKS};
use std::collections::VecDeque;

#[derive(Clone, Copy, Debug, PartialEq, Eq)]
pub enum Place {
    Ready,
    Delayed,
    Queued {
        target: u8,
        entry: u8,
    },
    /// In a rendezvous, with what the holder's current priority was before it.
    Held {
        holder: u8,
        entry: u8,
        kept: u8,
    },
    Accepting {
        open: u8,
    },
    Completed,
}

#[derive(Clone, Debug)]
pub struct Task {
    /// The one it was created with.
    pub priority: u8,
    /// The one it has now, which a rendezvous may raise.
    pub current: u8,
    pub place: Place,
    /// When it came to its place, as a count of such moves, below 0 for one that was put to the head; only the flat form of the state needs it.
    pub since: i64,
    /// Its entry queues, entry 1 at 0.
    pub queues: Vec<VecDeque<u8>>,
    /// The callers it holds, the one held last at the end.
    pub held: Vec<u8>,
}

impl Task {
    /// A task that calls nobody and is called by nobody.
    pub fn new(priority: u8, entries: u8, place: Place) -> Task {
        let queues = vec![VecDeque::new(); entries as usize];
        Task { priority, current: priority, place, since: 0, queues, held: Vec::new() }
    }
}

#[derive(Clone, Copy, Debug, PartialEq, Eq)]
pub struct Timer {
    pub task: u8,
    pub due: u32,
}

#[derive(Clone, Debug)]
pub struct Supervisor {
    pub clock: u32,
    pub tasks: Vec<Task>,
    /// The ready queues, level 1 at 0.
    pub ready: Vec<VecDeque<u8>>,
    pub delays: Vec<Timer>,
    pub moves: i64,
}

/// What a step answers, without the items in the lent room.
#[derive(Clone, Copy, Debug, PartialEq, Eq)]
pub struct Answer {
    pub refusal: u8,
    pub result: u8,
    pub task: u8,
    pub entry: u8,
    pub partner: u8,
    pub ended: u8,
    pub next: u8,
}

impl Answer {
    pub fn refused(refusal: u8, next: u8) -> Answer {
        Answer { refusal, result: result::WAITS, task: 0, entry: 0, partner: 0, ended: 0, next }
    }
}

impl Supervisor {
    pub fn empty(clock: u32) -> Supervisor {
        Supervisor { clock, tasks: Vec::new(), ready: vec![VecDeque::new(); LEVELS], delays: Vec::new(), moves: 0 }
    }

    /// A created task.
    pub fn task(&self, task: u8) -> &Task {
        &self.tasks[task as usize - 1]
    }

    pub fn task_mut(&mut self, task: u8) -> &mut Task {
        &mut self.tasks[task as usize - 1]
    }

    pub fn created(&self, task: u8) -> bool {
        1 <= task && task as usize <= self.tasks.len()
    }

    /// The head of the highest ready queue that is not empty; 0 if all are empty.
    pub fn running(&self) -> u8 {
        for queue in self.ready.iter().rev() {
            if let Some(&head) = queue.front() {
                return head;
            }
        }
        0
    }

    /// The length of an entry's queue, 0 for a task or entry that is not there.
    pub fn count(&self, task: u8, entry: u8) -> u8 {
        if !self.created(task) || entry == 0 {
            return 0;
        }
        self.task(task).queues.get(entry as usize - 1).map_or(0, |queue| queue.len() as u8)
    }

    pub fn callable(&self, task: u8) -> bool {
        self.created(task) && self.task(task).place != Place::Completed
    }

    /// From a task to its holder, and on; itself comes first. In a ring it would not end: no way has more tasks than there are.
    pub fn way_up(&self, task: u8) -> impl Iterator<Item = u8> + '_ {
        let holder = |task: &u8| match self.task(*task).place {
            Place::Held { holder, .. } => Some(holder),
            _ => None,
        };
        std::iter::successors(Some(task), holder).take(TASKS + 1)
    }

    /// For each task the highest created priority among itself and everyone below it in the tree of held callers, task 1 at 0.
    fn worked_out(&self) -> Vec<u8> {
        let mut highest = vec![0; self.tasks.len()];
        for (i, below) in self.tasks.iter().enumerate() {
            for task in self.way_up(i as u8 + 1) {
                highest[task as usize - 1] = below.priority.max(highest[task as usize - 1]);
            }
        }
        highest
    }

    /// A task's priority, worked out afresh; 0 for a number not created.
    pub fn priority(&self, task: u8) -> u8 {
        if !self.created(task) {
            return 0;
        }
        self.worked_out()[task as usize - 1]
    }

    /// How many ticks are left until `due`, counted round the clock.
    pub fn left(&self, due: u32) -> u32 {
        due.wrapping_sub(self.clock)
    }

    pub fn timer(&self, task: u8) -> Option<Timer> {
        self.delays.iter().copied().find(|timer| timer.task == task)
    }

    /// The soundness rules of document 01, over the queues.
    pub fn sound(&self) -> bool {
        let mut seen = [0usize; TASKS + 1];
        self.tasks.len() <= TASKS
            && self.ready.len() == LEVELS
            && self.tasks_sound()
            && self.ready_sound(&mut seen)
            && self.callers_sound(&mut seen)
            && self.others_sound(&mut seen)
            && self.delays_sound()
            && self.holders_sound()
    }

    fn tasks_sound(&self) -> bool {
        self.tasks.iter().all(|task| {
            let idle = task.held.is_empty() && task.queues.iter().all(|queue| queue.is_empty());
            (1..=LEVELS as u8).contains(&task.priority)
                && task.queues.len() <= 8
                && (task.place != Place::Completed || idle)
        })
    }

    /// Counts a task that stands in a queue and says whether that is the place it should be in.
    fn stands(&self, task: u8, place: Place, seen: &mut [usize]) -> bool {
        if !self.created(task) || self.task(task).place != place {
            return false;
        }
        seen[task as usize] += 1;
        seen[task as usize] == 1
    }

    fn ready_sound(&self, seen: &mut [usize]) -> bool {
        for (level, queue) in self.ready.iter().enumerate() {
            for &task in queue {
                if !self.stands(task, Place::Ready, seen) || self.task(task).current as usize != level + 1 {
                    return false;
                }
            }
        }
        true
    }

    fn callers_sound(&self, seen: &mut [usize]) -> bool {
        for (i, task) in self.tasks.iter().enumerate() {
            let target = i as u8 + 1;
            for (k, queue) in task.queues.iter().enumerate() {
                let place = Place::Queued { target, entry: k as u8 + 1 };
                if !queue.iter().all(|&caller| self.stands(caller, place, seen)) {
                    return false;
                }
            }
            if !task.held.iter().all(|&caller| self.holds(target, caller, seen)) {
                return false;
            }
        }
        true
    }

    fn holds(&self, holder: u8, caller: u8, seen: &mut [usize]) -> bool {
        if !self.created(caller) {
            return false;
        }
        match self.task(caller).place {
            Place::Held { entry, .. } if entry == 0 || entry as usize > self.task(holder).queues.len() => false,
            Place::Held { entry, kept, .. } => self.stands(caller, Place::Held { holder, entry, kept }, seen),
            _ => false,
        }
    }

    /// The tasks that stand in no queue but perhaps the delay queue, and that no other task is missing.
    fn others_sound(&self, seen: &mut [usize]) -> bool {
        for (i, task) in self.tasks.iter().enumerate() {
            let fits = match task.place {
                Place::Ready | Place::Queued { .. } | Place::Held { .. } => seen[i + 1] == 1,
                Place::Delayed | Place::Completed => true,
                Place::Accepting { open } => self.acceptor_sound(i as u8 + 1, open),
            };
            if !fits {
                return false;
            }
        }
        true
    }

    fn acceptor_sound(&self, task: u8, open: u8) -> bool {
        let queues = &self.task(task).queues;
        let closed = |k: u8| open & (1 << k) == 0;
        (0..8).all(|k| closed(k) || queues.get(k as usize).is_some_and(|queue| queue.is_empty()))
            && (open != 0 || self.timer(task).is_some())
    }

    /// No ring of holders, and the stored priorities are those worked out afresh: a kept one is what the holder had before.
    fn holders_sound(&self) -> bool {
        let ring = (1..=self.tasks.len() as u8).any(|task| self.way_up(task).count() > TASKS);
        let current = |(task, worked_out): (&Task, &u8)| task.current == *worked_out;
        !ring
            && self.tasks.iter().zip(&self.worked_out()).all(current)
            && self.tasks.iter().all(|task| self.kept_before(task))
    }

    /// Whether what is kept for each whom the task holds is what it had before: its own and those held by then.
    fn kept_before(&self, task: &Task) -> bool {
        let mut had = task.priority;
        task.held.iter().all(|&caller| {
            let caller = self.task(caller);
            let right = matches!(caller.place, Place::Held { kept, .. } if kept == had);
            had = had.max(caller.current);
            right
        })
    }

    fn delays_sound(&self) -> bool {
        let mut timed = [false; TASKS + 1];
        let mut before = 1;
        for timer in &self.delays {
            let left = self.left(timer.due);
            if !self.created(timer.task) || timed[timer.task as usize] || left < before || left > LONGEST {
                return false;
            }
            timed[timer.task as usize] = true;
            before = left;
        }
        self.tasks.iter().enumerate().all(|(i, task)| match task.place {
            Place::Delayed => timed[i + 1],
            Place::Queued { .. } | Place::Accepting { .. } => true,
            _ => !timed[i + 1],
        })
    }
}
