//! States for the soundness test: reached ones, put-together ones that no log reaches, and damage to both.

use crate::calls;
use crate::engines::CORE;
use crate::flat::{self, field, tag, Flat, Line, ALL_LINES, CREATED, FIRST_TASK, LINES, STATE, TASK};
use crate::forge;
use crate::generate;
use crate::numbers::{LEVELS, ROOM, TASKS};
use crate::random::Random;
use crate::supervisor::Supervisor;

/// `count` states, about a quarter of them as they were, the others damaged.
pub fn states(seed: u64, count: usize) -> Vec<Vec<u8>> {
    let mut random = Random::new(seed);
    let mut found = Vec::new();
    while found.len() < count {
        let log_seed = random.next();
        for log in generate::generate(log_seed, generate::THEMES.len(), 120) {
            let mut state = Supervisor::empty(log.clock);
            let mut room = [0; ROOM];
            for record in log.records().0 {
                if let calls::Read::Good(call, _) = calls::read(record) {
                    state.step(&call, &mut room);
                }
                if random.once_in(6) {
                    found.push(one(&mut random, &state));
                }
            }
        }
    }
    found.truncate(count);
    found
}

/// A sound state of 31 tasks, of those put together the one with the fewest alike: every place, times, all lines.
pub fn full_state(seed: u64) -> Vec<u8> {
    let mut random = Random::new(seed);
    let spread = |bytes: &Vec<u8>| {
        let flat = Flat(bytes);
        let shortest = ALL_LINES.map(|line| flat.members(line).len()).into_iter().min().unwrap_or(0);
        let acceptors = (1..=TASKS as u8).filter(|&task| flat.tag(task) == tag::ACCEPTING).count();
        shortest.min(acceptors)
    };
    let full = (0..2000).map(|_| forge::state(&mut random)).filter(|bytes| Flat(bytes).created() == TASKS as u8);
    full.max_by_key(spread).unwrap_or_default()
}

/// A state, from a reached one or put together, damaged or not.
fn one(random: &mut Random, reached: &Supervisor) -> Vec<u8> {
    let mut bytes = match random.once_in(2) {
        true => flat::write(reached),
        false => forge::state(random),
    };
    let kind = random.below(KINDS);
    spoil(random, &mut bytes, kind);
    bytes
}

/// The kinds of damage, of which the first are none.
pub const KINDS: usize = 15;
pub const NO_DAMAGE: usize = 4;

/// Damages a state.
pub fn spoil(random: &mut Random, bytes: &mut [u8], kind: usize) {
    match kind {
        0..NO_DAMAGE => {}
        4 | 5 => one_byte(random, bytes),
        6 | 7 => one_field(random, bytes),
        8 | 9 => one_line(random, bytes),
        10..=12 => one_relation(random, bytes),
        13 => (0..1 + random.below(3)).for_each(|_| one_field(random, bytes)),
        _ => (0..1 + random.below(STATE)).for_each(|_| one_byte(random, bytes)),
    }
}

/// Another value for one byte: a step up or down, one bit, the ends, or anything.
fn one_byte(random: &mut Random, bytes: &mut [u8]) {
    let at = random.below(STATE);
    bytes[at] = other_value(random, bytes[at]);
}

fn other_value(random: &mut Random, value: u8) -> u8 {
    match random.below(6) {
        0 => value.wrapping_add(1),
        1 => value.wrapping_sub(1),
        2 => value ^ 1 << random.below(8),
        3 => 0,
        4 => 255,
        _ => random.below(40) as u8,
    }
}

/// The bytes of some created task, if there is one.
fn some_task<'a>(random: &mut Random, bytes: &'a mut [u8]) -> Option<&'a mut [u8]> {
    let created = (bytes[CREATED] as usize).min(TASKS);
    if created == 0 {
        return None;
    }
    let at = FIRST_TASK + random.below(created) * TASK;
    Some(&mut bytes[at..at + TASK])
}

/// One field gets another value of its own kind.
fn one_field(random: &mut Random, bytes: &mut [u8]) {
    let clock = Flat(bytes).clock();
    match random.below(12) {
        0 => bytes[CREATED] = other_value(random, bytes[CREATED]),
        1 => {
            let ticks = random.one_of(&[1, 2, 3, u32::MAX, 1 << 31, i32::MAX as u32]);
            bytes[..4].copy_from_slice(&clock.wrapping_add(ticks).to_be_bytes());
        }
        _ => {
            let field = random.below(10);
            if let Some(task) = some_task(random, bytes) {
                task_field(random, task, field, clock);
            }
        }
    }
}

fn task_field(random: &mut Random, task: &mut [u8], field: usize, clock: u32) {
    match field {
        0 => {
            task[field::PRIORITY] = random.one_of(&[0, 1, 15, 16, 255]);
            task[field::CURRENT] = random.one_of(&[task[field::PRIORITY], task[field::CURRENT]]);
        }
        1 => task[field::ENTRIES] = random.below(10) as u8,
        2 => task[field::TAG] = random.below(8) as u8,
        3 if task[field::TAG] == tag::ACCEPTING => task[field::FIRST] ^= 1 << random.below(8),
        3 => task[field::FIRST] = random.below(34) as u8,
        4 => task[field::ENTRY] = random.below(10) as u8,
        5 => task[field::TIMED] = random.below(3) as u8,
        6 => {
            // a timer goes off, with its due time
            task[field::TIMED] = 0;
            task[field::DUE..].fill(0);
        }
        7 => task[field::CURRENT] = other_level(random, task[field::CURRENT]),
        8 => task[field::KEPT] = other_level(random, task[field::KEPT]),
        _ => {
            let ticks = random.one_of(&[0, 1, i32::MAX as u32, 1 << 31, u32::MAX, 5]);
            task[field::DUE..].copy_from_slice(&clock.wrapping_add(ticks).to_be_bytes());
        }
    }
}

/// A priority that is another, by one for the most part.
fn other_level(random: &mut Random, level: u8) -> u8 {
    match random.below(4) {
        0 => random.one_of(&[0, 1, 15, 16, 255]),
        1 => level.saturating_sub(1),
        _ => level.wrapping_add(1),
    }
}

/// A line loses a task, with a gap or without, gets one more, one twice, or two of its tasks change places.
fn one_line(random: &mut Random, bytes: &mut [u8]) {
    let line = random.one_of(&ALL_LINES);
    let length = Flat(bytes).members(line).len();
    let start = LINES + line as usize * TASKS;
    let members = &mut bytes[start..start + TASKS];
    let at = random.below(length.max(1));
    match random.below(6) {
        0 => members[at] = 0,
        1 => {
            members.copy_within(at + 1.., at);
            members[TASKS - 1] = 0;
        }
        2 => members[length.min(TASKS - 1)] = random.below(34) as u8,
        3 => members[length.min(TASKS - 1)] = members[at],
        4 => members[at] = random.below(34) as u8,
        _ => members.swap(at, random.below(length.max(1))),
    }
    if random.once_in(4) {
        another_line(random, bytes, line);
    }
}

/// Moves the head of a line to the end of another, as a task that stands in the wrong place.
fn another_line(random: &mut Random, bytes: &mut [u8], from: Line) {
    let to = random.one_of(&ALL_LINES);
    let head = Flat(bytes).line(from)[0];
    let length = Flat(bytes).members(to).len();
    let start = LINES + from as usize * TASKS;
    bytes.copy_within(start + 1..start + TASKS, start);
    bytes[start + TASKS - 1] = 0;
    bytes[LINES + to as usize * TASKS + length.min(TASKS - 1)] = head;
}

/// Damage that leaves every task in one place, but not what tasks ask of each other: a caller's target completes or
/// waits for the very entry that has the caller, or has the entry no more; or an acceptor's open set is another; or a
/// wait's time does not suit its place; or tasks hold each other in a ring, or stored priorities do not agree.
fn one_relation(random: &mut Random, bytes: &mut [u8]) {
    match random.below(8) {
        0 | 1 => return another_time(random, bytes),
        2 => return ring(random, bytes),
        3 => return another_priority(random, bytes),
        _ => {}
    }
    let line = random.one_of(&[Line::Callers, Line::Held]);
    let Some(caller) = random.pick(Flat(bytes).members(line)).filter(|&task| task as usize <= TASKS) else {
        return acceptor_field(random, bytes);
    };
    let (target, entry) = (Flat(bytes).partner(caller), Flat(bytes).task(caller)[field::ENTRY]);
    match random.below(4) {
        0 => stand_apart(bytes, target, [tag::COMPLETED, 0]),
        1 => stand_apart(bytes, target, [tag::ACCEPTING, 1 << (entry - 1)]),
        2 => bytes[FIRST_TASK + (target as usize - 1) * TASK + field::ENTRIES] = entry - 1,
        _ => acceptor_field(random, bytes),
    }
}

/// The task leaves its lines and has the place given, without a time.
fn stand_apart(bytes: &mut [u8], task: u8, place: [u8; 2]) {
    for line in ALL_LINES {
        let members: Vec<u8> = Flat(bytes).members(line).iter().copied().filter(|&other| other != task).collect();
        let start = LINES + line as usize * TASKS;
        bytes[start..start + TASKS].fill(0);
        bytes[start..start + members.len()].copy_from_slice(&members);
    }
    let at = FIRST_TASK + (task as usize - 1) * TASK;
    bytes[at + field::TAG..at + field::ENTRY].copy_from_slice(&place);
    bytes[at + field::ENTRY..at + TASK].fill(0);
}

/// Some tasks hold each other in a ring, or all do, of the highest priority, so that no stored one disagrees.
fn ring(random: &mut Random, bytes: &mut [u8]) {
    let created = Flat(bytes).created();
    let all = random.once_in(3);
    let lives = |&task: &u8| all || Flat(bytes).tag(task) != tag::COMPLETED;
    let mut members: Vec<u8> = (1..=created).filter(lives).collect();
    let longest = random.one_of(&[1, 2, 3, 5]);
    while members.len() > longest && !all {
        members.remove(random.below(members.len()));
    }
    for &task in &members {
        stand_apart(bytes, task, [tag::HELD, 0]);
    }
    for (i, &task) in members.iter().enumerate() {
        let end = Flat(bytes).members(Line::Held).len();
        bytes[LINES + Line::Held as usize * TASKS + end] = task;
        let holder = members[(i + 1) % members.len()];
        let own = &mut bytes[FIRST_TASK + (task as usize - 1) * TASK..][..TASK];
        own[field::PRIORITY] = LEVELS as u8;
        own[field::CURRENT] = LEVELS as u8;
        own[field::ENTRIES] = own[field::ENTRIES].max(1);
        own[field::FIRST] = holder;
        own[field::ENTRY] = 1;
    }
    for &caller in Flat(&bytes.to_vec()).members(Line::Held) {
        if members.contains(&Flat(bytes).partner(caller)) {
            bytes[FIRST_TASK + (caller as usize - 1) * TASK + field::KEPT] = LEVELS as u8;
        }
    }
}

/// The created priority of a task that holds or is held is another, or two who are held change places in the line.
fn another_priority(random: &mut Random, bytes: &mut [u8]) {
    let held = Flat(bytes).members(Line::Held).to_vec();
    let Some(caller) = random.pick(&held) else { return };
    let start = LINES + Line::Held as usize * TASKS;
    let task = random.one_of(&[caller, Flat(bytes).partner(caller)]);
    let field = random.one_of(&[field::PRIORITY, field::CURRENT, field::KEPT]);
    let at = FIRST_TASK + (task as usize - 1) * TASK + field;
    match random.below(3) {
        0 => bytes.swap(start + random.below(held.len()), start + random.below(held.len())),
        1 => bytes[at] = random.between(1, LEVELS as i64) as u8,
        _ => bytes[at] = other_level(random, bytes[at]),
    }
}

fn acceptor_field(random: &mut Random, bytes: &mut [u8]) {
    let created = Flat(bytes).created().min(TASKS as u8);
    let acceptors: Vec<u8> = (1..=created).filter(|&task| Flat(bytes).tag(task) == tag::ACCEPTING).collect();
    if let Some(task) = random.pick(&acceptors) {
        let open = &mut bytes[FIRST_TASK + (task as usize - 1) * TASK + field::FIRST];
        *open = random.one_of(&[0, *open << 1, *open | 128, *open | 1, *open >> 1]);
    }
}

/// A wait loses its time, or some task gets one, with the delay queue as it should then be.
fn another_time(random: &mut Random, bytes: &mut [u8]) {
    let created = Flat(bytes).created();
    if created == 0 {
        return;
    }
    let task = 1 + random.below(created as usize) as u8;
    let mut delays: Vec<u8> =
        Flat(bytes).members(Line::Delays).iter().copied().filter(|&other| other != task).collect();
    let due = match Flat(bytes).timed(task) {
        true => None,
        false => Some(Flat(bytes).clock().wrapping_add(1 + random.below(5) as u32)),
    };
    let at = FIRST_TASK + (task as usize - 1) * TASK;
    bytes[at + field::TIMED] = u8::from(due.is_some());
    bytes[at + field::DUE..at + TASK].copy_from_slice(&due.unwrap_or(0).to_be_bytes());
    if due.is_some() {
        delays.push(task);
        delays.sort_by_key(|&task| Flat(bytes).left(task));
    }
    delays.resize(TASKS, 0);
    bytes[LINES + 3 * TASKS..].copy_from_slice(&delays);
}

/// Damage to a row of the second engine: it loses a caller, with a gap or without, gets one more, behind a gap too, one twice, or is another row.
pub fn one_row(random: &mut Random, bytes: &mut [u8]) {
    let rows = &mut bytes[CORE..];
    let used: Vec<usize> = (0..TASKS).filter(|&row| rows[row * TASKS] != 0).collect();
    let row = random.pick(&used).unwrap_or(random.below(TASKS)) * TASKS;
    let other = random.below(TASKS) * TASKS;
    let length = rows[row..row + TASKS].iter().position(|&task| task == 0).unwrap_or(TASKS - 1);
    let at = random.below(length.max(1));
    match random.below(6) {
        0 => rows[row + at] = 0,
        1 => {
            rows.copy_within(row + at + 1..row + TASKS, row + at);
            rows[row + TASKS - 1] = 0;
        }
        2 => rows[row + (length + random.below(4)).min(TASKS - 1)] = random.below(34) as u8,
        3 => rows[row + length] = rows[row + at],
        4 => (0..TASKS).for_each(|i| rows.swap(row + i, other + i)),
        _ => rows.swap(row + at, row + random.below(length.max(1))),
    }
}
