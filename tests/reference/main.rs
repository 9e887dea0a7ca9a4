//! The reference: document 01 and requests of document 02, in plain Rust, apart from the rules and the proofs, to hold the programs against.

mod advances;
mod aims;
mod bounces;
mod calls;
mod contact_tally;
mod contact_words;
mod contacts;
mod damage;
mod debounce;
mod engines;
mod explore;
mod flat;
mod forge;
mod generate;
mod judge;
mod logs;
mod numbers;
mod promises;
mod random;
mod ranks;
mod replies;
mod shrink;
mod spoil;
mod states;
mod steps;
mod supervisor;
mod tally;
mod tree;
mod words;

use engines::Engine;
use logs::Log;
use std::io::{self, Read, Write};
use std::process::ExitCode;

const USAGE: &str = "the reference of the supervisor; it reads standard input where a command needs logs or states

  stepper                    prints what the program stepper prints for a log
  replay                     prints what the program replay prints for a sequence of logs
  generate SEED LOGS CALLS   writes a sequence of LOGS logs of at most CALLS calls each
  long SEED CALLS            writes one log of CALLS calls and a bad record, for stepper
  tally                      prints how often each event occurs in a sequence of logs; fails if one never does
  promises                   checks on a sequence of logs what is promised of every log
  shrink FILE COMMAND...     where the command differs from replay on the file, prints a small log that shows it
  edges                      checks the lines that a file of logs in words says are printed
  assemble                   writes a file of logs in words as a sequence of logs
  damage SEED N              writes N states in bytes, sound ones and damaged ones
  verdicts                   prints for each state whether it is sound
  tally-states               prints how many states break each rule; fails if a rule is never broken

those of cases have a word for the engine, card or second:
  cases ENGINE SEED N        writes N cases of a state, a call, a length of room and a question
  tally-cases ENGINE         prints how often each event of ADVANCE occurs in cases; fails if one never does
  replies ENGINE             writes what the reference answers to cases
  each-byte ENGINE SEED      writes the cases of one state of 31 tasks with each of its bytes set to each value, or to some
  explore ENGINE N           writes the cases of the first N states of a small world, each with every call of it
  judge ENGINE CASES WRITTEN fails, with the first difference, if the answers in WRITTEN are not the reference's

those of the debouncer:
  debouncer                  prints what the program debouncer prints for an input
  contact-input SEED TICKS   writes an input of the program debouncer: good settings, and contacts that bounce
  contact-edges              checks the lines that a file of such inputs in words says are printed
  contact-run NAME           writes the input of that name in such a file
  contact-runs               checks that a card, tick by tick, reports what the raw bits alone say
  contact-cases SEED N       writes N cases of settings, or of a card and the raw bits of some ticks
  contact-bytes SEED         writes the cases of settings and of a card with each of their bytes set to others
  contact-tally              prints how often each event occurs in such cases; fails if one never does
  contact-replies            writes what the reference answers to such cases
  contact-judge CASES WRITTEN  fails, with the first difference, if the answers in WRITTEN are not the reference's
";

fn input() -> Result<Vec<u8>, String> {
    let mut bytes = Vec::new();
    io::stdin().read_to_end(&mut bytes).map_err(|e| e.to_string())?;
    Ok(bytes)
}

fn output(bytes: &[u8]) -> Result<(), String> {
    io::stdout().write_all(bytes).map_err(|e| e.to_string())
}

fn number(word: &str) -> Result<u64, String> {
    word.parse().map_err(|_| format!("not a number: {word}"))
}

fn told() -> Result<Vec<words::Told>, String> {
    words::read_file(&String::from_utf8(input()?).map_err(|e| e.to_string())?)
}

fn edges() -> Result<(), String> {
    let mut lines = 0;
    for told in told()? {
        let printed = told.log.printed();
        for (step, expected) in told.expected {
            let line = printed.lines().nth(step).unwrap_or("nothing");
            if line != expected {
                return Err(format!("log {}: printed\n{line}\nexpected\n{expected}", told.name));
            }
            lines += 1;
        }
    }
    output(format!("{lines} lines are as expected\n").as_bytes())
}

fn assemble() -> Result<(), String> {
    let logs: Vec<Log> = told()?.into_iter().map(|told| told.log).collect();
    output(&logs::pack(&logs))
}

/// Prints a line for each event, most of them of the same width; fails if one never occurred.
fn counted(counts: &[(impl AsRef<str>, usize)]) -> Result<(), String> {
    for (event, count) in counts {
        output(format!("{count:8} {}\n", event.as_ref()).as_bytes())?;
    }
    let never: Vec<&str> = counts.iter().filter(|(_, count)| *count == 0).map(|(event, _)| event.as_ref()).collect();
    match never[..] {
        [] => Ok(()),
        _ => Err(format!("never occurred: {}", never.join("; "))),
    }
}

fn tally() -> Result<(), String> {
    let tally = tally::Tally::of(&logs::unpack(&input()?));
    output(format!("{} logs, {} calls\n", tally.logs, tally.calls).as_bytes())?;
    counted(&tally.counts())
}

fn tally_cases(engine: Engine) -> Result<(), String> {
    let cases = input()?;
    output(format!("{} cases\n", cases.len() / replies::case_size(engine)).as_bytes())?;
    counted(&judge::advances(engine, &cases))
}

fn promises() -> Result<(), String> {
    let mut ledger = promises::Ledger::new();
    for (i, log) in logs::unpack(&input()?).iter().enumerate() {
        ledger.log(log).map_err(|broken| format!("log {}, {broken}", i + 1))?;
    }
    let (steps, stretches) = (ledger.steps, ledger.stretches);
    output(format!("{steps} steps keep the promises; {stretches} ADVANCEs are so many TICKs\n").as_bytes())
}

fn shrink(file: &str, command: &[&str]) -> Result<(), String> {
    let input = std::fs::read(file).map_err(|e| format!("{file}: {e}"))?;
    match shrink::shrink(&input, command)? {
        None => output(b"no difference\n"),
        Some(text) => Err(text),
    }
}

fn tally_states() -> Result<(), String> {
    let input = input()?;
    let sound = |state: &&&[u8]| flat::broken(flat::Flat(state)).is_none();
    if !states::unpack(&input).iter().filter(sound).all(|state| states::reads_back(state)) {
        return Err("a sound state does not read back".to_string());
    }
    counted(&states::tally(&input))
}

fn explore(engine: Engine, states: usize) -> Result<(), String> {
    let (cases, depth) = explore::cases(engine, states);
    eprintln!("{states} states; every log of {depth} calls of the small world is among the cases");
    output(&cases)
}

fn contact_runs() -> Result<Vec<contact_words::Run>, String> {
    contact_words::read_file(&String::from_utf8(input()?).map_err(|e| e.to_string())?)
}

fn contact_edges() -> Result<(), String> {
    let mut lines = 0;
    for run in contact_runs()? {
        let printed = debounce::printed(&run.input);
        for (line, expected) in run.expected {
            let found = match line {
                Some(line) => printed.lines().nth(line - 1).unwrap_or("nothing"),
                None => printed.trim_end(),
            };
            if found != expected {
                return Err(format!("run {}: printed\n{found}\nexpected\n{expected}", run.name));
            }
            lines += 1;
        }
    }
    output(format!("{lines} lines of the debouncer are as expected\n").as_bytes())
}

fn contact_run(name: &str) -> Result<(), String> {
    let run = contact_runs()?.into_iter().find(|run| run.name == name);
    output(&run.ok_or_else(|| format!("no run {name}"))?.input)
}

/// Holds the answers of a library against the reference's, on cases of some length.
fn judged(files: [&str; 2], case: usize, difference: impl Fn(&[u8], &[u8]) -> Option<String>) -> Result<(), String> {
    let read = |file: &str| std::fs::read(file).map_err(|e| format!("{file}: {e}"));
    let cases = read(files[0])?;
    match difference(&cases, &read(files[1])?) {
        None => output(format!("{} cases are answered alike\n", cases.len() / case).as_bytes()),
        Some(text) => Err(text),
    }
}

fn on_engine(command: &str, engine: Engine, words: &[&str]) -> Result<(), String> {
    match (command, words) {
        ("cases", [seed, count]) => output(&judge::cases(engine, number(seed)?, number(count)? as usize)),
        ("tally-cases", []) => tally_cases(engine),
        ("replies", []) => output(&replies::replies(engine, &input()?)),
        ("each-byte", [seed]) => output(&judge::each_byte(engine, number(seed)?)),
        ("explore", [states]) => explore(engine, number(states)? as usize),
        ("judge", [cases, written]) => {
            let difference = |cases: &[u8], written: &[u8]| judge::first_difference(engine, cases, written);
            judged([cases, written], replies::case_size(engine), difference)
        }
        _ => Err(USAGE.to_string()),
    }
}

fn run(words: &[&str]) -> Result<(), String> {
    match words {
        ["stepper"] => output(Log { clock: 0, bytes: input()? }.printed().as_bytes()),
        ["replay"] => output(logs::replayed(&logs::unpack(&input()?)).as_bytes()),
        ["generate", seed, logs, calls] => {
            let (logs, calls) = (number(logs)? as usize, number(calls)? as usize);
            output(&logs::pack(&generate::generate(number(seed)?, logs, calls)))
        }
        ["long", seed, calls] => output(&generate::long(number(seed)?, number(calls)? as usize)),
        ["tally"] => tally(),
        ["promises"] => promises(),
        ["shrink", file, command @ ..] if !command.is_empty() => shrink(file, command),
        ["edges"] => edges(),
        ["assemble"] => assemble(),
        ["damage", seed, count] => output(&damage::states(number(seed)?, number(count)? as usize).concat()),
        ["verdicts"] => output(states::verdicts(&input()?).as_bytes()),
        ["tally-states"] => tally_states(),
        ["debouncer"] => output(debounce::printed(&input()?).as_bytes()),
        ["contact-input", seed, ticks] => output(&contacts::input(number(seed)?, number(ticks)? as usize)),
        ["contact-edges"] => contact_edges(),
        ["contact-run", name] => contact_run(name),
        ["contact-runs"] => output(contacts::agree()?.as_bytes()),
        ["contact-cases", seed, count] => output(&contacts::cases(number(seed)?, number(count)? as usize)),
        ["contact-bytes", seed] => output(&contacts::each_byte(number(seed)?)),
        ["contact-tally"] => counted(&contact_tally::tally(&input()?)),
        ["contact-replies"] => output(&bounces::replies(&input()?)),
        ["contact-judge", cases, written] => judged([cases, written], bounces::CASE, bounces::first_difference),
        [command, engine, words @ ..] => match Engine::named(engine) {
            Some(engine) => on_engine(command, engine, words),
            None => Err(USAGE.to_string()),
        },
        _ => Err(USAGE.to_string()),
    }
}

fn main() -> ExitCode {
    let words: Vec<String> = std::env::args().skip(1).collect();
    let words: Vec<&str> = words.iter().map(String::as_str).collect();
    match run(&words) {
        Ok(()) => ExitCode::SUCCESS,
        Err(message) => {
            eprintln!("reference: {message}");
            ExitCode::FAILURE
        }
    }
}
