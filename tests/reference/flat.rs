//! The state as bytes, and the soundness rules of document 01 over them.
//!
//! Clock in four bytes, high byte first; created; 31 tasks: priority, current priority, entries, place, three bytes that
//! belong to the place, timer (0 off, 1 due), due in four bytes; four lines of 31 task numbers, then zeros: ready in the
//! order of becoming ready, one put to the head of its level at the head; callers in the order of their calls, held in the order of their
//! rendezvous, delays.

use crate::calls::number;
use crate::numbers::{ENTRIES, LEVELS, LONGEST, TASKS};
use crate::supervisor::{Place, Supervisor, Task, Timer};
use crate::tree;

pub const STATE: usize = LINES + ALL_LINES.len() * TASKS;
pub const CREATED: usize = 4;
pub const FIRST_TASK: usize = 5;
pub const TASK: usize = field::DUE + 4;
pub const LINES: usize = FIRST_TASK + TASKS * TASK;

/// Where a task's bytes lie.
pub mod field {
    pub const PRIORITY: usize = 0;
    pub const CURRENT: usize = 1;
    pub const ENTRIES: usize = 2;
    pub const TAG: usize = 3;
    /// The called task, the holder, or the open set.
    pub const FIRST: usize = 4;
    pub const ENTRY: usize = 5;
    /// Of a held caller: the holder's current priority before.
    pub const KEPT: usize = 6;
    pub const TIMED: usize = 7;
    pub const DUE: usize = 8;
}

pub mod tag {
    pub const READY: u8 = 1;
    pub const DELAYED: u8 = 2;
    pub const QUEUED: u8 = 3;
    pub const HELD: u8 = 4;
    pub const ACCEPTING: u8 = 5;
    pub const COMPLETED: u8 = 6;
}

/// The lines, in their order.
#[derive(Clone, Copy, Debug, PartialEq, Eq)]
pub enum Line {
    Ready,
    Callers,
    Held,
    Delays,
}

pub const ALL_LINES: [Line; 4] = [Line::Ready, Line::Callers, Line::Held, Line::Delays];

/// A part of the soundness rules.
#[derive(Clone, Copy, Debug, PartialEq, Eq)]
pub enum Rule {
    Created,
    UnusedPlaces,
    PriorityAndEntries,
    Place,
    Timer,
    Lines,
    OnePlace,
    DelayQueue,
    DueTimes,
    OrderOfTicksLeft,
    CallersEntry,
    CompletedIsFree,
    OpenSet,
    OpenEntryWithoutCaller,
    Ring,
    CurrentPriority,
    KeptPriority,
}

#[derive(Clone, Copy)]
pub struct Flat<'a>(pub &'a [u8]);

impl<'a> Flat<'a> {
    pub fn clock(self) -> u32 {
        number(self.0)
    }

    pub fn created(self) -> u8 {
        self.0[CREATED]
    }

    pub fn task(self, task: u8) -> &'a [u8] {
        let at = FIRST_TASK + (task as usize - 1) * TASK;
        &self.0[at..at + TASK]
    }

    pub fn entries(self, task: u8) -> u8 {
        self.task(task)[field::ENTRIES]
    }

    pub fn tag(self, task: u8) -> u8 {
        self.task(task)[field::TAG]
    }

    pub fn timed(self, task: u8) -> bool {
        self.task(task)[field::TIMED] == 1
    }

    pub fn left(self, task: u8) -> u32 {
        number(&self.task(task)[field::DUE..]).wrapping_sub(self.clock())
    }

    /// The task that it calls or that holds it.
    pub fn partner(self, task: u8) -> u8 {
        self.task(task)[field::FIRST]
    }

    pub fn line(self, line: Line) -> &'a [u8] {
        let at = LINES + line as usize * TASKS;
        &self.0[at..at + TASKS]
    }

    /// The task numbers of a line, up to the first zero.
    pub fn members(self, line: Line) -> &'a [u8] {
        let all = self.line(line);
        &all[..all.iter().position(|&task| task == 0).unwrap_or(TASKS)]
    }

    fn tasks(self) -> std::ops::RangeInclusive<u8> {
        1..=self.created()
    }
}

/// The first rule that the bytes break, none for a sound state.
pub fn broken(state: Flat) -> Option<Rule> {
    if state.created() as usize > TASKS {
        return Some(Rule::Created);
    }
    let unused = FIRST_TASK + state.created() as usize * TASK;
    if state.0[unused..LINES].iter().any(|&byte| byte != 0) {
        return Some(Rule::UnusedPlaces);
    }
    if let Some(rule) = state.tasks().find_map(|task| broken_fields(state, task)) {
        return Some(rule);
    }
    if let Some(rule) = ALL_LINES.iter().find_map(|&line| broken_line(state, line)) {
        return Some(rule);
    }
    if let Some(rule) = broken_delays(state) {
        return Some(rule);
    }
    state.tasks().find_map(|task| broken_place(state, task)).or_else(|| tree::broken(state))
}

/// A task's own bytes: each in its range, unused ones 0.
fn broken_fields(state: Flat, task: u8) -> Option<Rule> {
    let f = state.task(task);
    if !(1..=LEVELS as u8).contains(&f[field::PRIORITY]) || f[field::ENTRIES] > ENTRIES {
        return Some(Rule::PriorityAndEntries);
    }
    let blank = match f[field::TAG] {
        tag::HELD => true,
        tag::QUEUED => f[field::KEPT] == 0,
        tag::ACCEPTING => f[field::ENTRY] == 0 && f[field::KEPT] == 0,
        tag::READY | tag::DELAYED | tag::COMPLETED => f[field::FIRST..field::TIMED] == [0, 0, 0],
        _ => false,
    };
    if !blank {
        return Some(Rule::Place);
    }
    let timer = match f[field::TIMED] {
        0 => number(&f[field::DUE..]) == 0 && f[field::TAG] != tag::DELAYED,
        1 => matches!(f[field::TAG], tag::DELAYED | tag::QUEUED | tag::ACCEPTING),
        _ => false,
    };
    (!timer).then_some(Rule::Timer)
}

/// Whether the task belongs in the line.
fn belongs(state: Flat, task: u8, line: Line) -> bool {
    match line {
        Line::Ready => state.tag(task) == tag::READY,
        Line::Callers => state.tag(task) == tag::QUEUED,
        Line::Held => state.tag(task) == tag::HELD,
        Line::Delays => state.timed(task),
    }
}

/// A line has created tasks, then zeros only: each that belongs there once, and no other.
fn broken_line(state: Flat, line: Line) -> Option<Rule> {
    let members = state.members(line);
    let rest = &state.line(line)[members.len()..];
    if rest.iter().any(|&task| task != 0) || members.iter().any(|&task| task > state.created()) {
        return Some(Rule::Lines);
    }
    let times = |task: u8| members.iter().filter(|&&member| member == task).count();
    let right = state.tasks().all(|task| times(task) == usize::from(belongs(state, task, line)));
    let rule = if line == Line::Delays { Rule::DelayQueue } else { Rule::OnePlace };
    (!right).then_some(rule)
}

fn broken_delays(state: Flat) -> Option<Rule> {
    let left: Vec<u32> = state.members(Line::Delays).iter().map(|&task| state.left(task)).collect();
    if left.iter().any(|&ticks| ticks < 1 || ticks > LONGEST) {
        return Some(Rule::DueTimes);
    }
    left.windows(2).any(|pair| pair[0] > pair[1]).then_some(Rule::OrderOfTicksLeft)
}

/// What a place asks of other tasks.
fn broken_place(state: Flat, task: u8) -> Option<Rule> {
    let (first, entry) = (state.task(task)[field::FIRST], state.task(task)[field::ENTRY]);
    match state.tag(task) {
        tag::QUEUED | tag::HELD => {
            if first < 1 || first > state.created() || entry < 1 || entry > state.entries(first) {
                return Some(Rule::CallersEntry);
            }
            (state.tag(first) == tag::COMPLETED).then_some(Rule::CompletedIsFree)
        }
        tag::ACCEPTING => {
            if first as usize >= 1 << state.entries(task) || first == 0 && !state.timed(task) {
                return Some(Rule::OpenSet);
            }
            let called = |entry: u8| (1..=8).contains(&entry) && first & (1 << (entry - 1)) != 0;
            let waits = |&caller: &u8| state.partner(caller) == task && called(state.task(caller)[field::ENTRY]);
            state.members(Line::Callers).iter().any(waits).then_some(Rule::OpenEntryWithoutCaller)
        }
        _ => None,
    }
}

/// The bytes of a state.
pub fn write(state: &Supervisor) -> Vec<u8> {
    let mut bytes = state.clock.to_be_bytes().to_vec();
    bytes.push(state.tasks.len() as u8);
    for number in 1..=state.tasks.len() as u8 {
        let task = state.task(number);
        let place = match task.place {
            Place::Ready => [tag::READY, 0, 0, 0],
            Place::Delayed => [tag::DELAYED, 0, 0, 0],
            Place::Queued { target, entry } => [tag::QUEUED, target, entry, 0],
            Place::Held { holder, entry, kept } => [tag::HELD, holder, entry, kept],
            Place::Accepting { open } => [tag::ACCEPTING, open, 0, 0],
            Place::Completed => [tag::COMPLETED, 0, 0, 0],
        };
        let timer = state.timer(number);
        bytes.extend([task.priority, task.current, task.queues.len() as u8]);
        bytes.extend(place);
        bytes.push(u8::from(timer.is_some()));
        bytes.extend(timer.map_or(0, |timer| timer.due).to_be_bytes());
    }
    bytes.resize(LINES, 0);
    bytes.extend(in_order(state, |place| place == Place::Ready));
    bytes.extend(in_order(state, |place| matches!(place, Place::Queued { .. })));
    bytes.extend(in_order(state, |place| matches!(place, Place::Held { .. })));
    bytes.extend(state.delays.iter().map(|timer| timer.task));
    bytes.resize(STATE, 0);
    bytes
}

/// A line: the tasks in such a place in the order in which they came there.
fn in_order(state: &Supervisor, wanted: impl Fn(Place) -> bool) -> [u8; TASKS] {
    let mut tasks: Vec<u8> = (1..=state.tasks.len() as u8).filter(|&task| wanted(state.task(task).place)).collect();
    tasks.sort_by_key(|&task| state.task(task).since);
    tasks.resize(TASKS, 0);
    std::array::from_fn(|i| tasks[i])
}

/// The state that sound bytes stand for.
pub fn read(flat: Flat) -> Supervisor {
    let mut state = Supervisor::empty(flat.clock());
    for task in flat.tasks() {
        let f = flat.task(task);
        let (first, entry) = (f[field::FIRST], f[field::ENTRY]);
        let place = match f[field::TAG] {
            tag::READY => Place::Ready,
            tag::DELAYED => Place::Delayed,
            tag::QUEUED => Place::Queued { target: first, entry },
            tag::HELD => Place::Held { holder: first, entry, kept: f[field::KEPT] },
            tag::ACCEPTING => Place::Accepting { open: first },
            _ => Place::Completed,
        };
        let read = Task::new(f[field::PRIORITY], f[field::ENTRIES], place);
        state.tasks.push(Task { current: f[field::CURRENT], ..read });
    }
    for line in ALL_LINES {
        flat.members(line).iter().for_each(|&task| enter(&mut state, flat, line, task));
    }
    state
}

/// Puts a task of a line behind those that the line has before it.
fn enter(state: &mut Supervisor, flat: Flat, line: Line, task: u8) {
    let f = flat.task(task);
    if line == Line::Delays {
        return state.delays.push(Timer { task, due: number(&f[field::DUE..]) });
    }
    state.moves += 1;
    state.task_mut(task).since = state.moves;
    match line {
        Line::Ready => state.ready[f[field::CURRENT] as usize - 1].push_back(task),
        Line::Callers => state.task_mut(f[field::FIRST]).queues[f[field::ENTRY] as usize - 1].push_back(task),
        _ => state.task_mut(f[field::FIRST]).held.push(task),
    }
}
