//! The contact debouncer of document 02 (xiii): its settings, the report worked out from the raw bits alone, and a card in lent
//! bytes.
//!
//! A card in bytes is the supervisor's state, and behind it for each contact five bytes: n, p (two, high byte first), 1 where it is
//! reported closed, and how many of its latest samples in a row differ from what is reported.

use crate::calls::Call;
use crate::flat::{self, Flat, STATE};
use crate::numbers::{refusal, ROOM};
use crate::supervisor::{Place, Supervisor};

pub const CONTACTS: usize = 8;
pub const CONTACT: usize = 5;
pub const CARD: usize = STATE + CONTACTS * CONTACT;
/// A tag, a length of two bytes and three bytes of fields for each contact.
pub const SETTINGS: usize = CONTACTS * FIELD;
pub const FIELD: usize = 6;
const LENGTH: u8 = 3;
const MOST_SAMPLES: u8 = 16;

/// What is asked of a contact: n samples alike, p ticks apart.
#[derive(Clone, Copy, Debug, PartialEq, Eq)]
pub struct Setting {
    pub n: u8,
    pub p: u16,
}

impl Setting {
    fn in_range(self) -> bool {
        (1..=MOST_SAMPLES).contains(&self.n) && self.p != 0
    }
}

/// The settings of bytes of exactly the form asked.
pub fn settings(bytes: &[u8]) -> Option<[Setting; CONTACTS]> {
    if bytes.len() != SETTINGS {
        return None;
    }
    let mut found = [Setting { n: 0, p: 0 }; CONTACTS];
    for (i, field) in bytes.chunks(FIELD).enumerate() {
        let setting = Setting { n: field[3], p: u16::from_be_bytes([field[4], field[5]]) };
        if field[..3] != [i as u8 + 1, 0, LENGTH] || !setting.in_range() {
            return None;
        }
        found[i] = setting;
    }
    Some(found)
}

/// The bit of a contact, numbered from 0.
fn bit(bits: u8, contact: usize) -> bool {
    bits >> contact & 1 == 1
}

/// What is reported after these samples: what the latest n in a row that were alike say, open where there were none.
pub fn reported(samples: &[bool], n: usize) -> bool {
    let alike = |run: &&[bool]| run.iter().all(|&sample| sample == run[0]);
    samples.windows(n).rev().find(alike).is_some_and(|run| run[0])
}

/// Whether a contact is reported closed after each tick, from the raw bits of the ticks and the samples before them alone: it is
/// read at tick `first`, and again every p ticks.
fn closed_after(k: usize, setting: Setting, before: Vec<bool>, first: usize, raw: &[u8]) -> Vec<bool> {
    let (n, p) = (setting.n as usize, setting.p as usize);
    let mut samples = before;
    let mut closed = reported(&samples, n);
    let mut all = Vec::new();
    for (tick, &bits) in (1..).zip(raw) {
        if tick >= first && (tick - first) % p == 0 {
            samples.push(bit(bits, k));
            closed = reported(&samples, n);
        }
        all.push(closed);
    }
    all
}

/// The report of each tick after the start, from the raw bits alone: a contact is read at ticks p, 2p, 3p and so on.
pub fn reports(settings: &[Setting; CONTACTS], raw: &[u8]) -> Vec<u8> {
    let mut reports = vec![0; raw.len()];
    for (k, &setting) in settings.iter().enumerate() {
        let closed = closed_after(k, setting, Vec::new(), setting.p as usize, raw);
        reports.iter_mut().zip(closed).for_each(|(report, closed)| *report |= u8::from(closed) << k);
    }
    reports
}

#[derive(Clone, Copy, Debug)]
pub struct Contact {
    pub setting: Setting,
    pub closed: bool,
    pub against: u8,
}

impl Contact {
    /// A sample that differs from what is reported is counted, and the n-th of them in a row is reported.
    fn sample(&mut self, closed: bool) {
        if closed == self.closed {
            self.against = 0;
        } else if self.against < self.setting.n - 1 {
            self.against += 1;
        } else {
            self.closed = closed;
            self.against = 0;
        }
    }

    /// Samples after which a contact stands so. Where more differ than are asked, no run leads here, and it has none.
    fn history(&self) -> Option<Vec<bool>> {
        let (n, against) = (self.setting.n as usize, self.against as usize);
        (against < n).then(|| [vec![self.closed; n], vec![!self.closed; against]].concat())
    }
}

#[derive(Clone, Debug)]
pub struct Card {
    pub supervisor: Supervisor,
    pub contacts: [Contact; CONTACTS],
}

impl Card {
    /// Each task is created and delays before the next is created.
    pub fn fresh(settings: &[Setting; CONTACTS]) -> Card {
        let mut supervisor = Supervisor::empty(0);
        for setting in settings {
            supervisor.step(&Call::Create { priority: 1, entries: 0 }, &mut [0; ROOM]);
            supervisor.step(&Call::Delay(i32::from(setting.p)), &mut [0; ROOM]);
        }
        Card { supervisor, contacts: settings.map(|setting| Contact { setting, closed: false, against: 0 }) }
    }

    /// One tick: each task whose delay is over samples its contact and delays again.
    pub fn tick(&mut self, bits: u8) -> u8 {
        self.supervisor.step(&Call::Tick, &mut [0; ROOM]);
        while self.supervisor.running() != 0 {
            let k = self.supervisor.running() as usize - 1;
            self.contacts[k].sample(bit(bits, k));
            self.supervisor.step(&Call::Delay(i32::from(self.contacts[k].setting.p)), &mut [0; ROOM]);
        }
        (0..CONTACTS).filter(|&k| self.contacts[k].closed).fold(0, |report, k| report | 1 << k)
    }

    /// The card of these bytes, none for a damaged one.
    pub fn read(bytes: &[u8]) -> Option<Card> {
        if bytes.len() < CARD || flat::broken(Flat(&bytes[..STATE])).is_some() {
            return None;
        }
        let supervisor = flat::read(Flat(&bytes[..STATE]));
        let contact = |at: usize| contact(&bytes[at..at + CONTACT]);
        let contacts: Vec<Contact> = (STATE..CARD).step_by(CONTACT).map_while(contact).collect();
        let card = Card { supervisor, contacts: contacts.try_into().ok()? };
        (card.supervisor.tasks.len() == CONTACTS && (1..=CONTACTS as u8).all(|task| card.delays(task))).then_some(card)
    }

    /// Whether the contact's task delays, with 1 to p ticks left.
    fn delays(&self, task: u8) -> bool {
        let p = u32::from(self.contacts[task as usize - 1].setting.p);
        self.supervisor.task(task).place == Place::Delayed && (1..=p).contains(&self.left(task))
    }

    /// The ticks that are left until a task that delays samples its contact.
    fn left(&self, task: u8) -> u32 {
        self.supervisor.timer(task).map_or(0, |timer| self.supervisor.left(timer.due))
    }

    pub fn write(&self) -> Vec<u8> {
        let mut bytes = flat::write(&self.supervisor);
        for Contact { setting, closed, against } in self.contacts {
            let [high, low] = setting.p.to_be_bytes();
            bytes.extend([setting.n, high, low, u8::from(closed), against]);
        }
        bytes
    }

    /// Whether a contact is reported closed after each tick to come, from the raw bits and the samples before them alone.
    pub fn closed_after(&self, k: usize, raw: &[u8]) -> Option<Vec<bool>> {
        let contact = &self.contacts[k];
        Some(closed_after(k, contact.setting, contact.history()?, self.left(k as u8 + 1) as usize, raw))
    }
}

/// A contact of its five bytes, if they are one.
fn contact(bytes: &[u8]) -> Option<Contact> {
    let setting = Setting { n: bytes[0], p: u16::from_be_bytes([bytes[1], bytes[2]]) };
    let closed = match bytes[3] {
        0 => false,
        1 => true,
        _ => return None,
    };
    setting.in_range().then_some(Contact { setting, closed, against: bytes[4] })
}

/// What the program debouncer prints for its input, from the raw bits alone.
pub fn printed(input: &[u8]) -> String {
    let Some(settings) = input.get(..SETTINGS).and_then(settings) else {
        return format!("{}\n", refusal::BAD_SETTING);
    };
    let line = |(tick, report): (usize, u8)| {
        let contacts: String = (0..CONTACTS).map(|k| format!(" {}", report >> k & 1)).collect();
        format!("{tick}{contacts}\n")
    };
    (1..).zip(reports(&settings, &input[SETTINGS..])).map(line).collect()
}
