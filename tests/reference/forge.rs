//! Sound states put together at random, most of which no log reaches: holders that wait, held callers and queues in any order.

use crate::flat::{tag, FIRST_TASK, LINES, STATE, TASK};
use crate::numbers::{LONGEST, TASKS};
use crate::random::Random;

/// A task of the state that is being put together.
#[derive(Clone, Copy, Default)]
struct Part {
    priority: u8,
    current: u8,
    entries: u8,
    tag: u8,
    first: u8,
    entry: u8,
    kept: u8,
    ticks: Option<u32>,
}

pub fn state(random: &mut Random) -> Vec<u8> {
    let anywhere = random.next() as u32;
    let clock = random.one_of(&[0, 1, u32::MAX, LONGEST, LONGEST + 1, anywhere]);
    let created = random.one_of(&[0, 1, 2, 5, 8, 16, 30, TASKS]);
    let busiest = random.below(created.max(1)) as u8 + 1;
    let mut parts: Vec<Part> = (0..created).map(|_| part(random)).collect();
    for i in 0..created {
        let chosen = place(random, &parts, i, busiest);
        parts[i] = chosen;
    }
    if random.once_in(12) {
        chain(random, &mut parts);
    }
    close_called_entries(&mut parts);
    let held = shuffled(random, &parts, |part| part.tag == tag::HELD);
    keep_priorities(&mut parts, &held);
    bytes(random, clock, &parts, &held)
}

/// Ready, delayed or completed: what needs no other task.
fn part(random: &mut Random) -> Part {
    let (priority, entries) = (random.between(1, 15) as u8, random.between(0, 8) as u8);
    let tag = random.one_of(&[tag::READY, tag::READY, tag::DELAYED, tag::COMPLETED]);
    let ticks = (tag == tag::DELAYED).then(|| some_ticks(random));
    Part { priority, current: priority, entries, tag, ticks, ..Part::default() }
}

fn some_ticks(random: &mut Random) -> u32 {
    match random.below(4) {
        0 => random.one_of(&[1, LONGEST, LONGEST - 1]),
        1 => random.between(1, LONGEST as i64) as u32,
        _ => random.between(1, 4) as u32,
    }
}

/// Some of the tasks wait for another: one that is not completed and has entries. Nobody is held in a ring.
fn place(random: &mut Random, parts: &[Part], i: usize, busiest: u8) -> Part {
    let part = Part { ticks: None, ..parts[i] };
    let callable = |&task: &u8| parts[task as usize - 1].tag != tag::COMPLETED && parts[task as usize - 1].entries > 0;
    let mut partners: Vec<u8> = (1..=parts.len() as u8).filter(callable).collect();
    if callable(&busiest) && random.once_in(2) {
        partners = vec![busiest];
    }
    let timed = random.once_in(2).then(|| some_ticks(random));
    let tag = random.one_of(&[tag::QUEUED, tag::QUEUED, tag::HELD, tag::ACCEPTING, part.tag]);
    // somebody counts on this one being there
    if part.tag == tag::COMPLETED || tag == part.tag || partners.is_empty() {
        return parts[i];
    }
    if tag == tag::ACCEPTING {
        let open = random.byte() & ((1u16 << part.entries) - 1) as u8;
        let ticks = if open == 0 { Some(some_ticks(random)) } else { timed };
        return Part { tag, first: open, ticks, ..part };
    }
    let first = random.one_of(&partners);
    if tag == tag::HELD && way_up(parts, first as usize - 1).contains(&i) {
        return parts[i];
    }
    let entry = random.between(1, parts[first as usize - 1].entries as i64) as u8;
    let ticks = if tag == tag::QUEUED { timed } else { None };
    Part { tag, first, entry, ticks, ..part }
}

/// Each task is held by the next, in any order of their numbers; the last is ready.
fn chain(random: &mut Random, parts: &mut [Part]) {
    let order = shuffled(random, parts, |_| true);
    for (i, &task) in order.iter().enumerate() {
        let entries = random.between(1, 8) as u8;
        let part = Part { entries, ticks: None, first: 0, entry: 0, ..parts[task as usize - 1] };
        parts[task as usize - 1] = match order.get(i + 1) {
            Some(&holder) => Part { tag: tag::HELD, first: holder, entry: 1, ..part },
            None => Part { tag: tag::READY, ..part },
        };
    }
}

/// An acceptor's open entries have no caller; one that loses its last open entry becomes ready.
fn close_called_entries(parts: &mut [Part]) {
    for i in 0..parts.len() {
        if parts[i].tag != tag::ACCEPTING {
            continue;
        }
        let waits = |part: &&Part| part.tag == tag::QUEUED && part.first as usize == i + 1;
        let called = parts.iter().filter(waits).fold(0, |set, part| set | 1 << (part.entry - 1));
        parts[i].first &= !called;
        if parts[i].first == 0 && parts[i].ticks.is_none() {
            parts[i].tag = tag::READY;
        }
    }
}

/// The next on the way from a task, numbered from 0, to its holder.
fn holder(parts: &[Part], i: usize) -> Option<usize> {
    (parts[i].tag == tag::HELD).then(|| parts[i].first as usize - 1)
}

fn way_up(parts: &[Part], i: usize) -> Vec<usize> {
    std::iter::successors(Some(i), |&at| holder(parts, at)).collect()
}

/// The current priorities follow from the created ones, and what is kept from the order of the line of held callers.
fn keep_priorities(parts: &mut [Part], held: &[u8]) {
    for i in 0..parts.len() {
        for at in way_up(parts, i) {
            parts[at].current = parts[at].current.max(parts[i].priority);
        }
    }
    let mut had: Vec<u8> = parts.iter().map(|part| part.priority).collect();
    for &caller in held {
        let caller = caller as usize - 1;
        let holder = parts[caller].first as usize - 1;
        parts[caller].kept = had[holder];
        had[holder] = had[holder].max(parts[caller].current);
    }
}

fn bytes(random: &mut Random, clock: u32, parts: &[Part], held: &[u8]) -> Vec<u8> {
    let mut bytes = clock.to_be_bytes().to_vec();
    bytes.push(parts.len() as u8);
    for part in parts {
        let due = part.ticks.map_or(0, |ticks| clock.wrapping_add(ticks));
        bytes.extend([part.priority, part.current, part.entries, part.tag, part.first, part.entry, part.kept]);
        bytes.push(u8::from(part.ticks.is_some()));
        bytes.extend(due.to_be_bytes());
    }
    debug_assert_eq!(bytes.len(), FIRST_TASK + parts.len() * TASK);
    bytes.resize(LINES, 0);
    let ready = shuffled(random, parts, |part| part.tag == tag::READY);
    let callers = shuffled(random, parts, |part| part.tag == tag::QUEUED);
    for line in [&ready, &callers, held] {
        bytes.extend(line);
        bytes.resize(bytes.len() + TASKS - line.len(), 0);
    }
    let mut delays = shuffled(random, parts, |part| part.ticks.is_some());
    delays.sort_by_key(|&task| parts[task as usize - 1].ticks);
    bytes.extend(delays);
    bytes.resize(STATE, 0);
    bytes
}

fn shuffled(random: &mut Random, parts: &[Part], wanted: impl Fn(&Part) -> bool) -> Vec<u8> {
    let mut line: Vec<u8> = (1..=parts.len() as u8).filter(|&task| wanted(&parts[task as usize - 1])).collect();
    for i in (1..line.len()).rev() {
        line.swap(i, random.below(i + 1));
    }
    line
}
