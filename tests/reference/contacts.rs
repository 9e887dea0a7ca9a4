//! Cases for the debouncer: settings good and bad, cards at every point of a run and others that no run reaches, damaged cards, and
//! contacts that bounce.

use crate::bounces::{self, Lent, TICKS};
use crate::damage;
use crate::debounce::{self, Card, Contact, Setting, CARD, CONTACT, CONTACTS, FIELD, SETTINGS};
use crate::flat::STATE;
use crate::numbers::LONGEST;
use crate::random::Random;
use crate::supervisor::{Place, Supervisor, Task, Timer};

const LENT: Lent = Lent { card: CARD, given: 0, report: 1, ticks: true };

fn setting(random: &mut Random) -> Setting {
    let n = random.one_of(&[1, 1, 2, 3, 4, 15, 16]);
    let any = random.between(1, 65535) as u16;
    Setting { n, p: random.one_of(&[1, 1, 1, 2, 3, 5, 8, 255, 256, 65535, any]) }
}

pub fn of_settings(settings: &[Setting]) -> Vec<u8> {
    let field = |(i, setting): (usize, &Setting)| {
        let [high, low] = setting.p.to_be_bytes();
        [i as u8 + 1, 0, 3, setting.n, high, low]
    };
    settings.iter().enumerate().flat_map(field).collect()
}

/// Settings, good ones for the most part.
fn some_settings(random: &mut Random) -> Vec<u8> {
    let settings: Vec<Setting> = (0..CONTACTS).map(|_| setting(random)).collect();
    let mut bytes = of_settings(&settings);
    let field = random.below(CONTACTS) * FIELD;
    let next = random.below(CONTACTS) * FIELD;
    match random.below(12) {
        0 => bytes[field + 3] = random.one_of(&[0, 17, 18, 128, 255]),
        1 => bytes[field + 4..field + FIELD].fill(0),
        2 => (0..FIELD).for_each(|i| bytes.swap(field + i, next + i)),
        3 => bytes[field] = random.one_of(&[0, 9, bytes[next]]),
        4 => bytes[field + 1 + random.below(2)] ^= 1 << random.below(8),
        5 => bytes.truncate(random.one_of(&[0, 1, SETTINGS - FIELD, SETTINGS - 1])),
        6 => {
            let more = random.one_of(&[1, FIELD]);
            bytes.extend_from_within(..more);
        }
        _ => {}
    }
    bytes
}

/// The raw bits of so many ticks: each contact rests, and bounces now and then.
pub fn bouncing(random: &mut Random, ticks: usize) -> Vec<u8> {
    let mut bits = random.byte();
    let mut restless = [0; CONTACTS];
    let mut all = Vec::new();
    for _ in 0..ticks {
        for (k, left) in restless.iter_mut().enumerate() {
            if *left == 0 && random.once_in(24) {
                *left = random.between(1, 12);
            }
            bits ^= u8::from(*left > 0 && random.once_in(2)) << k;
            *left = (*left - 1).max(0);
        }
        all.push(bits);
    }
    all
}

fn contact(random: &mut Random) -> Contact {
    let setting = setting(random);
    let against = match random.below(8) {
        0 => random.byte(),
        1 => setting.n - 1,
        _ => random.below(setting.n as usize) as u8,
    };
    Contact { setting, closed: random.once_in(2), against }
}

/// A card that is not damaged: at any clock reading, with tasks due soon or late, their priorities and entries sometimes others.
fn card(random: &mut Random) -> Card {
    let contacts: [Contact; CONTACTS] = std::array::from_fn(|_| contact(random));
    let anywhere = random.next() as u32;
    let clock = random.one_of(&[0, u32::MAX, u32::MAX - 5, 0u32.wrapping_sub(40), LONGEST, anywhere]);
    let mut supervisor = Supervisor::empty(clock);
    let strange = random.once_in(4);
    for contact in &contacts {
        let (priority, entries) = match strange {
            true => (random.between(1, 15) as u8, random.below(9) as u8),
            false => (1, 0),
        };
        supervisor.tasks.push(Task::new(priority, entries, Place::Delayed));
        let p = i64::from(contact.setting.p);
        let latest = if random.once_in(4) { p } else { p.min(6) };
        let left = random.between(1, latest);
        let at = random.below(supervisor.delays.len() + 1);
        let task = supervisor.tasks.len() as u8;
        supervisor.delays.insert(at, Timer { task, due: clock.wrapping_add(left as u32) });
    }
    supervisor.delays.sort_by_key(|timer| timer.due.wrapping_sub(clock));
    Card { supervisor, contacts }
}

/// Damage to a card: to its supervisor, its settings, or what its tasks are doing.
fn damaged(random: &mut Random, card: &Card) -> Vec<u8> {
    let k = random.below(CONTACTS);
    let task = k as u8 + 1;
    let mut card = card.clone();
    let setting = &mut card.contacts[k].setting;
    let state = &mut card.supervisor;
    let due = state.clock.wrapping_add(random.between(1, 4) as u32);
    match random.below(12) {
        0 => setting.n = random.one_of(&[0, 17, 255]),
        1 => setting.p = 0,
        2 => setting.p = (state.left(state.timer(task).map_or(0, |timer| timer.due)) - 1) as u16,
        3 => stand(state, task, Place::Completed, None),
        4 => {
            stand(state, task, Place::Ready, None);
            let level = state.task(task).current as usize - 1;
            state.ready[level].push_back(task);
        }
        5 => stand(state, task, Place::Accepting { open: 0 }, Some(due)),
        6 => ninth(random, state, due),
        7 => {
            state.tasks.pop();
            state.delays.retain(|timer| timer.task < CONTACTS as u8);
        }
        _ => {}
    }
    let mut bytes = card.write();
    match random.below(4) {
        0 => {
            let kind = damage::NO_DAMAGE + random.below(damage::KINDS - damage::NO_DAMAGE);
            damage::spoil(random, &mut bytes[..STATE], kind);
        }
        1 => bytes[STATE + k * CONTACT + 3] = random.one_of(&[2, 3, 128, 255]),
        2 => bytes[STATE + random.below(CARD - STATE)] = random.byte(),
        _ => {}
    }
    bytes
}

/// The task leaves its delay for another place, with a time or without.
fn stand(state: &mut Supervisor, task: u8, place: Place, due: Option<u32>) {
    state.task_mut(task).place = place;
    state.delays.retain(|timer| timer.task != task);
    if let Some(due) = due {
        state.delays.push(Timer { task, due });
        let clock = state.clock;
        state.delays.sort_by_key(|timer| timer.due.wrapping_sub(clock));
    }
}

/// One task more, which delays or has completed.
fn ninth(random: &mut Random, state: &mut Supervisor, due: u32) {
    state.tasks.push(Task::new(1, 0, Place::Completed));
    if random.once_in(2) {
        let task = state.tasks.len() as u8;
        stand(state, task, Place::Delayed, Some(due));
    }
}

/// `count` cases: settings, ticks on cards, damaged ones too; sometimes too little is lent.
pub fn cases(seed: u64, count: usize) -> Vec<u8> {
    let mut random = Random::new(seed);
    (0..count).flat_map(|_| one(&mut random)).collect()
}

fn one(random: &mut Random) -> Vec<u8> {
    let mut lent = LENT;
    match random.below(16) {
        0 => lent.card = random.one_of(&[0, STATE, CARD - 1]),
        1 => lent.card = random.one_of(&[CARD + 1, CARD + 9]),
        2 => lent.report = random.one_of(&[0, 2]),
        _ => {}
    }
    let card = card(random);
    if random.once_in(4) {
        let given = some_settings(random);
        return bounces::case(&card.write(), &Lent { given: given.len(), ticks: false, ..lent }, &given);
    }
    let (bytes, most) = match random.once_in(2) {
        true => (damaged(random, &card), 3),
        false => (card.write(), TICKS),
    };
    let ticks = 1 + random.below(most);
    bounces::case(&bytes, &Lent { given: ticks, ..lent }, &bouncing(random, ticks))
}

/// Settings with each byte set to each value; and a card with each byte of its contacts set to each value, each other byte to some.
pub fn each_byte(seed: u64) -> Vec<u8> {
    let mut random = Random::new(seed);
    let mut bytes = Vec::new();
    let card = card(&mut random).write();
    let settings = of_settings(&[Setting { n: 3, p: 258 }; CONTACTS]);
    for at in 0..SETTINGS {
        for value in 0..=255 {
            let mut given = settings.clone();
            given[at] = value;
            bytes.extend(bounces::case(&card, &Lent { given: SETTINGS, ticks: false, ..LENT }, &given));
        }
    }
    let raw = bouncing(&mut random, 2);
    for at in 0..CARD {
        let own = card[at];
        let values = match at < STATE {
            true => vec![0, 1, own.wrapping_add(1), own.wrapping_sub(1), own ^ 128, 255],
            false => (0..=255).collect(),
        };
        for value in values {
            let mut other = card.clone();
            other[at] = value;
            bytes.extend(bounces::case(&other, &Lent { given: raw.len(), ..LENT }, &raw));
        }
    }
    bytes
}

/// An input of the program debouncer: good settings and the raw bits of so many ticks.
pub fn input(seed: u64, ticks: usize) -> Vec<u8> {
    let mut random = Random::new(seed);
    let settings: Vec<Setting> = (0..CONTACTS).map(|_| setting(&mut random)).collect();
    [of_settings(&settings), bouncing(&mut random, ticks)].concat()
}

/// That a card, tick by tick, reports what the raw bits alone say: of inputs of the program, and of cards of the cases.
pub fn agree() -> Result<String, String> {
    let mut ticks = 0;
    for seed in 0..40 {
        let input = input(seed, 2000);
        let settings = debounce::settings(&input[..SETTINGS]).ok_or("settings are refused")?;
        let mut card = Card::fresh(&settings);
        let raw = &input[SETTINGS..];
        let reports: Vec<u8> = raw.iter().map(|&bits| card.tick(bits)).collect();
        if reports != debounce::reports(&settings, raw) {
            return Err(format!("input {seed}: the card reports something else than the raw bits say"));
        }
        ticks += raw.len();
    }
    let mut random = Random::new(1);
    for _ in 0..2000 {
        let card = card(&mut random);
        let raw = bouncing(&mut random, TICKS);
        let mut one_by_one = card.clone();
        let reports: Vec<u8> = raw.iter().map(|&bits| one_by_one.tick(bits)).collect();
        if reports != bounces::ticked(&mut card.clone(), &raw) {
            return Err(format!("a card reports something else than the raw bits say: {:?}", card.write()));
        }
        ticks += TICKS;
    }
    Ok(format!("{ticks} ticks are reported as the raw bits alone say\n"))
}
