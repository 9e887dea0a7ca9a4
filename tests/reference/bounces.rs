//! What the reference answers to a case for the debouncer: settings to make a card of, or a card and the raw bits of some ticks.
//!
//! A case is a card; five bytes, which are the length lent for the card (two bytes, high byte first), the number of bytes of settings or of
//! ticks, the length lent for the report, and 0 for settings or 1 for ticks; and 64 bytes that begin with the settings or the raw
//! bits. What is lent lies at the start of a longer stretch that is filled with 165. A reply has for each of 64 ticks what is returned and
//! the two bytes of the report's stretch, the first of them for settings too; then the card's stretch, nine bytes more than a card.

use crate::debounce::{self, Card, CARD, CONTACTS};
use crate::numbers::refusal;

pub const TICKS: usize = 64;
pub const CASE: usize = CARD + 5 + TICKS;
pub const REPLY: usize = 3 * TICKS + CARD + 9;
const BEFORE: u8 = 165;

/// How much is lent, and what for.
#[derive(Clone, Copy, Debug)]
pub struct Lent {
    pub card: usize,
    pub given: usize,
    pub report: usize,
    pub ticks: bool,
}

pub fn case(card: &[u8], lent: &Lent, given: &[u8]) -> Vec<u8> {
    let lengths = [(lent.card >> 8) as u8, lent.card as u8, lent.given as u8, lent.report as u8, u8::from(lent.ticks)];
    let mut bytes = [card, &lengths, given].concat();
    bytes.resize(CASE, 0);
    bytes
}

pub fn parts(case: &[u8]) -> (&[u8], Lent, &[u8]) {
    let (card, rest) = case.split_at(CARD);
    let given = rest[2] as usize;
    let card_lent = usize::from(rest[0]) << 8 | usize::from(rest[1]);
    (card, Lent { card: card_lent, given, report: rest[3] as usize, ticks: rest[4] == 1 }, &rest[5..5 + given])
}

/// The reports of these ticks on a card, which is as they leave it then: of a contact that a run leads to from the raw bits alone.
pub fn ticked(card: &mut Card, raw: &[u8]) -> Vec<u8> {
    let alone: Vec<Option<Vec<bool>>> = (0..CONTACTS).map(|k| card.closed_after(k, raw)).collect();
    let report = |(i, &bits): (usize, &u8)| {
        let report = card.tick(bits);
        let closed = |k: &usize| alone[*k].as_ref().map_or(report >> k & 1 == 1, |alone| alone[i]);
        (0..CONTACTS).filter(closed).fold(0, |report, k| report | 1 << k)
    };
    raw.iter().enumerate().map(report).collect()
}

/// What is returned by each call, with the report where one is written; and the card's bytes behind the last call.
fn answers(bytes: &[u8], lent: &Lent, given: &[u8]) -> (Vec<(u8, Option<u8>)>, Vec<u8>) {
    let card = bytes.to_vec();
    if !lent.ticks {
        return match debounce::settings(given) {
            _ if lent.card < CARD => (vec![(refusal::SHORT_ROOM, None)], card),
            Some(settings) => (vec![(refusal::NONE, None)], Card::fresh(&settings).write()),
            None => (vec![(refusal::BAD_SETTING, None)], card),
        };
    }
    if lent.report == 0 {
        return (vec![(refusal::SHORT_ROOM, None); given.len()], card);
    }
    match Card::read(&bytes[..lent.card.min(CARD)]) {
        None => (vec![(refusal::BAD_STATE, Some(0)); given.len()], card),
        Some(mut card) => {
            let reports = ticked(&mut card, given);
            (reports.iter().map(|&report| (refusal::NONE, Some(report))).collect(), card.write())
        }
    }
}

pub fn reply_to(case: &[u8]) -> Vec<u8> {
    let (card, lent, given) = parts(case);
    let (returned, card) = answers(card, &lent, given);
    let mut reply: Vec<u8> =
        returned.iter().flat_map(|&(refusal, report)| [refusal, report.unwrap_or(BEFORE), BEFORE]).collect();
    reply.resize(3 * TICKS, BEFORE);
    reply.extend(card);
    reply.resize(REPLY, BEFORE);
    reply
}

pub fn replies(cases: &[u8]) -> Vec<u8> {
    cases.chunks_exact(CASE).flat_map(reply_to).collect()
}

/// The first case to which something else is answered, in words.
pub fn first_difference(cases: &[u8], written: &[u8]) -> Option<String> {
    for (i, case) in cases.chunks_exact(CASE).enumerate() {
        let expected = reply_to(case);
        let theirs = written.get(i * REPLY..(i + 1) * REPLY).unwrap_or(&[]);
        if theirs != expected {
            return Some(format!("case {} differs\n{}{}", i + 1, told(case), told_replies(&expected, theirs)));
        }
    }
    (written.len() != cases.len() / CASE * REPLY).then(|| "more is written than there are cases".to_string())
}

fn told(case: &[u8]) -> String {
    let (card, lent, given) = parts(case);
    let contacts = &card[CARD - CONTACTS * debounce::CONTACT..];
    format!("{lent:?}\ngiven {given:02x?}\nthe card's contacts {contacts:?}\nthe card {card:?}\n")
}

fn told_replies(expected: &[u8], theirs: &[u8]) -> String {
    let differs = |i: &usize| theirs.get(*i) != expected.get(*i);
    let told = |i: usize| format!("byte {i}: {} and not {:?}\n", expected[i], theirs.get(i));
    (0..expected.len()).filter(differs).take(20).map(told).collect()
}
