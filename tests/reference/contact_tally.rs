//! How often each named event occurs in the cases for the debouncer: what their generator is measured by.

use crate::bounces::{self, Lent, CASE};
use crate::debounce::{self, Card, CARD, CONTACT, CONTACTS, SETTINGS};
use crate::flat::{self, Flat, STATE};
use crate::supervisor::Place;

struct Seen<'a> {
    bytes: &'a [u8],
    lent: Lent,
    given: &'a [u8],
    /// The card of ticks, if enough is lent and it is not damaged.
    card: Option<Card>,
    /// The reports of its ticks.
    reports: Vec<u8>,
}

type Event = (&'static str, fn(&Seen) -> bool);

const EVENTS: [Event; 23] = [
    ("settings, good", |s| s.settings() && debounce::settings(s.given).is_some()),
    ("settings, bad: more or fewer than 48 bytes", |s| s.settings() && s.given.len() != SETTINGS),
    ("settings, bad: 48 bytes", |s| s.settings() && s.given.len() == SETTINGS && debounce::settings(s.given).is_none()),
    ("settings, too little lent for a card", |s| !s.lent.ticks && s.lent.card < CARD),
    ("ticks, no report lent", |s| s.lent.ticks && s.lent.report == 0),
    ("ticks, fewer bytes than a card", |s| s.lent.ticks && s.lent.card < CARD),
    ("damaged: the supervisor", |s| s.whole() && !s.sound()),
    ("damaged: n out of range", |s| s.good_state() && (0..CONTACTS).any(|k| !(1..=16).contains(&s.contact(k)[0]))),
    ("damaged: p 0", |s| s.good_state() && (0..CONTACTS).any(|k| s.contact(k)[1..3] == [0, 0])),
    ("damaged: neither closed nor open", |s| s.good_state() && (0..CONTACTS).any(|k| s.contact(k)[3] > 1)),
    ("damaged: seven tasks", |s| s.good_state() && s.created() == 7),
    ("damaged: nine tasks", |s| s.good_state() && s.created() == 9),
    ("damaged: a task that does not delay", |s| s.good_state() && s.created() == 8 && !s.all_delay()),
    ("damaged: more than p ticks left", |s| s.good_state() && s.created() == 8 && s.all_delay() && s.late()),
    ("a contact closes", |s| s.changed(|before, after| !before & after)),
    ("a contact opens", |s| s.changed(|before, after| before & !after)),
    ("round the clock", |s| {
        s.card.as_ref().is_some_and(|card| card.supervisor.clock > u32::MAX - s.given.len() as u32)
    }),
    ("n 16, or p 65535", |s| s.contacts().any(|contact| contact.setting.n == 16 || contact.setting.p == 65535)),
    ("n 1, p 1", |s| s.contacts().any(|contact| contact.setting.n == 1 && contact.setting.p == 1)),
    ("more differ than are asked", |s| s.contacts().any(|contact| contact.against >= contact.setting.n)),
    ("255 differ", |s| s.contacts().any(|contact| contact.against == 255)),
    ("unequal priorities", |s| {
        s.card
            .as_ref()
            .is_some_and(|card| card.supervisor.tasks.windows(2).any(|two| two[0].priority != two[1].priority))
    }),
    ("equal times", |s| {
        s.card.as_ref().is_some_and(|card| card.supervisor.delays.windows(2).any(|two| two[0].due == two[1].due))
    }),
];

impl Seen<'_> {
    fn settings(&self) -> bool {
        !self.lent.ticks && self.lent.card >= CARD
    }

    fn whole(&self) -> bool {
        self.lent.ticks && self.lent.card >= CARD && self.lent.report > 0
    }

    fn sound(&self) -> bool {
        flat::broken(Flat(&self.bytes[..STATE])).is_none()
    }

    fn good_state(&self) -> bool {
        self.whole() && self.sound()
    }

    fn created(&self) -> u8 {
        Flat(self.bytes).created()
    }

    fn contact(&self, k: usize) -> &[u8] {
        &self.bytes[STATE + k * CONTACT..][..CONTACT]
    }

    fn all_delay(&self) -> bool {
        flat::read(Flat(&self.bytes[..STATE])).tasks.iter().all(|task| task.place == Place::Delayed)
    }

    /// Whether a contact's task has more ticks left than its p.
    fn late(&self) -> bool {
        let p = |k: usize| u32::from(u16::from_be_bytes([self.contact(k)[1], self.contact(k)[2]]));
        (0..CONTACTS).any(|k| Flat(self.bytes).left(k as u8 + 1) > p(k))
    }

    fn contacts(&self) -> impl Iterator<Item = &debounce::Contact> {
        self.card.iter().flat_map(|card| &card.contacts)
    }

    /// Whether a bit of two reports, one behind the other, changes so.
    fn changed(&self, how: fn(u8, u8) -> u8) -> bool {
        self.reports.windows(2).any(|two| how(two[0], two[1]) != 0)
    }
}

pub fn tally(cases: &[u8]) -> Vec<(&'static str, usize)> {
    let mut counts = EVENTS.map(|(event, _)| (event, 0));
    for case in cases.chunks_exact(CASE) {
        let (bytes, lent, given) = bounces::parts(case);
        let made = lent.ticks && lent.report > 0;
        let card = Card::read(&bytes[..lent.card.min(CARD)]).filter(|_| made);
        let reports = card.clone().map_or(Vec::new(), |mut card| bounces::ticked(&mut card, given));
        let seen = Seen { bytes, lent, given, card, reports };
        counts.iter_mut().zip(EVENTS).for_each(|((_, count), (_, occurs))| *count += usize::from(occurs(&seen)));
    }
    counts.to_vec()
}
