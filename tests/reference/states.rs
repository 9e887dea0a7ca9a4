//! What the reference says about states given as bytes.

use crate::flat::{self, Flat, Rule, STATE};

const RULES: [Rule; 17] = [
    Rule::Created,
    Rule::UnusedPlaces,
    Rule::PriorityAndEntries,
    Rule::Place,
    Rule::Timer,
    Rule::Lines,
    Rule::OnePlace,
    Rule::DelayQueue,
    Rule::DueTimes,
    Rule::OrderOfTicksLeft,
    Rule::CallersEntry,
    Rule::CompletedIsFree,
    Rule::OpenSet,
    Rule::OpenEntryWithoutCaller,
    Rule::Ring,
    Rule::CurrentPriority,
    Rule::KeptPriority,
];

/// The states of an input; bytes behind the last whole one are left out.
pub fn unpack(input: &[u8]) -> Vec<&[u8]> {
    input.chunks_exact(STATE).collect()
}

fn name(verdict: Option<Rule>) -> String {
    verdict.map_or("sound".to_string(), |rule| format!("breaks {rule:?}"))
}

/// A line for each state.
pub fn verdicts(input: &[u8]) -> String {
    let sound = |state: &&[u8]| flat::broken(Flat(state)).is_none();
    unpack(input).iter().map(|state| if sound(state) { "sound\n" } else { "not sound\n" }).collect()
}

/// How many states are sound, and how many break each rule first.
pub fn tally(input: &[u8]) -> Vec<(String, usize)> {
    let found: Vec<Option<Rule>> = unpack(input).iter().map(|state| flat::broken(Flat(state))).collect();
    let times = |verdict: Option<Rule>| found.iter().filter(|&&other| other == verdict).count();
    let verdicts = std::iter::once(None).chain(RULES.map(Some));
    verdicts.map(|verdict| (name(verdict), times(verdict))).collect()
}

/// A sound state read and written again is the same, and the rules over its queues find it sound too.
pub fn reads_back(state: &[u8]) -> bool {
    let read = flat::read(Flat(state));
    read.sound() && flat::write(&read) == state
}
