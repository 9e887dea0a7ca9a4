//! What a step costs: the proved supervisor against the reference in Rust, both with their soundness check, in one run.
//! It is measured twice: each on its own form of the state, the supervisor's struct and the reference's vectors; and as
//! the library's `card_step` does it, from bytes to bytes. Each line is measured in several passes over the whole table,
//! and its figure is that of the fastest round in any of them, so that other work on the machine disturbs it little: a slow
//! phase takes whole seconds, but seldom all passes. Last, what a tick of the contact debouncer costs, which makes such steps.

// the modules are those of main.rs, and the benchmark needs a part of them
#![allow(dead_code)]

mod calls;
mod flat;
mod numbers;
mod own;
mod scenes;
mod steps;
mod supervisor;
mod tree;

use flat::{Flat, STATE};
use numbers::{refusal, ROOM};
use scenes::Scene;
use std::hint::black_box;
use std::time::Instant;
use supervisor::{Answer, Supervisor};

/// States that are stepped in one round: few enough to stay close to the processor.
const POOL: usize = 32;
/// Rounds of one action in one pass, and passes over the table where no number is given.
const ROUNDS: usize = 40;
const PASSES: usize = 12;

/// The time of one action on one thing of a pool, in nanoseconds: the fastest round of one pass.
fn fastest<T: Clone>(thing: &T, mut act: impl FnMut(&mut T)) -> f64 {
    let mut best = f64::MAX;
    for _ in 0..ROUNDS {
        let mut pool = vec![thing.clone(); POOL];
        let start = Instant::now();
        for one in &mut pool {
            act(one);
        }
        best = best.min(start.elapsed().as_nanos() as f64 / POOL as f64);
    }
    best
}

/// A cost, and what it is for the reference.
struct Costs {
    ours: f64,
    reference: f64,
}

impl Costs {
    const UNKNOWN: Costs = Costs { ours: f64::MAX, reference: f64::MAX };

    /// The less of what was known and of what one more pass found.
    fn meet(&mut self, found: Costs) {
        self.ours = self.ours.min(found.ours);
        self.reference = self.reference.min(found.reference);
    }

    fn ratio(&self) -> f64 {
        self.ours / self.reference
    }

    fn columns(&self) -> String {
        format!("{:.0} | {:.0} | {:.1}", self.ours, self.reference, self.ratio())
    }
}

fn bytes_of(state: &Supervisor) -> [u8; STATE] {
    flat::write(state).try_into().expect("a state has its length")
}

/// A step, each on its own form of the state.
fn own_step(scene: &Scene) -> Costs {
    let (state, call) = (own::state(&bytes_of(&scene.state)), own::read(&calls::record(&scene.call)));
    let (mut room, mut stepped) = ([0; ROOM], own::none());
    let ours = fastest(&state, |state| {
        own::step(state, &call, &mut room, &mut stepped);
        black_box(&stepped);
    });
    let reference = fastest(&scene.state, |state| {
        black_box(state.step(black_box(&scene.call), &mut room));
    });
    Costs { ours, reference }
}

/// A step from bytes to bytes.
fn byte_step(scene: &Scene) -> Costs {
    let (bytes, record) = (bytes_of(&scene.state), calls::record(&scene.call));
    let mut room = [0; ROOM];
    let ours = fastest(&bytes, |state| {
        black_box(own::byte_step(state, &record, &mut room));
    });
    let reference = fastest(&bytes, |state| {
        black_box(step_over_bytes(state, &record, &mut room));
    });
    Costs { ours, reference }
}

/// The reference's step as the library's: of the bytes of a state and of a record.
fn step_over_bytes(bytes: &mut [u8; STATE], record: &[u8], room: &mut [u8]) -> Option<Answer> {
    let calls::Read::Good(call, _) = calls::read(record) else { return None };
    if flat::broken(Flat(&bytes[..])).is_some() {
        return Some(Answer::refused(refusal::BAD_STATE, 0));
    }
    let mut state = flat::read(Flat(&bytes[..]));
    let answer = state.step(&call, room);
    bytes.copy_from_slice(&flat::write(&state));
    Some(answer)
}

fn check(state: &Supervisor) -> Costs {
    let ours = fastest(&own::state(&bytes_of(state)), |state| {
        black_box(own::sound(black_box(state)));
    });
    let reference = fastest(state, |state| {
        black_box(black_box(state).sound());
    });
    Costs { ours, reference }
}

fn dispatcher(state: &Supervisor) -> Costs {
    let ours = fastest(&own::state(&bytes_of(state)), |state| {
        black_box(own::running(black_box(state)));
    });
    let reference = fastest(state, |state| {
        black_box(black_box(state).running());
    });
    Costs { ours, reference }
}

/// All do the same; a figure for something else would say nothing.
fn agree(scene: &Scene) {
    let (bytes, record) = (bytes_of(&scene.state), calls::record(&scene.call));
    let (mut after, mut room) = (scene.state.clone(), [0; ROOM]);
    let a = after.step(&scene.call, &mut room);
    let wanted = ([a.refusal, a.result, a.task, a.entry, a.partner, a.ended, a.next], bytes_of(&after), room);

    let (mut left, mut room) = (bytes, [0; ROOM]);
    let answer = own::byte_step(&mut left, &record, &mut room);
    assert_eq!((answer, left, room), wanted, "{}", scene.name);

    let (state, mut room, mut stepped) = (own::state(&bytes), [0; ROOM], own::none());
    own::step(&state, &own::read(&record), &mut room, &mut stepped);
    assert_eq!((own::answer(&stepped), own::bytes(&stepped), room), wanted, "{}", scene.name);
    assert!(own::sound(&state) && own::running(&state) == scene.state.running(), "{}", scene.name);
}

/// Makes one step over and over, for a profiler: `bench NAME TASKS TIMES`.
fn repeat(name: &str, tasks: usize, times: usize) -> Option<()> {
    let scene = scenes::scenes(tasks).into_iter().find(|scene| scene.name == name)?;
    let (bytes, record) = (bytes_of(&scene.state), calls::record(&scene.call));
    for _ in 0..times {
        black_box(own::byte_step(&mut bytes.clone(), &record, &mut [0; ROOM]));
    }
    Some(())
}

/// A line of the table: a step, what it costs on own forms and from bytes, and what its two parts cost.
struct Line {
    scene: Scene,
    own: Costs,
    bytes: Costs,
    check: Costs,
    dispatcher: Costs,
}

impl Line {
    fn new(scene: Scene) -> Line {
        Line { scene, own: Costs::UNKNOWN, bytes: Costs::UNKNOWN, check: Costs::UNKNOWN, dispatcher: Costs::UNKNOWN }
    }

    fn measure(&mut self) {
        self.own.meet(own_step(&self.scene));
        self.bytes.meet(byte_step(&self.scene));
        self.check.meet(check(&self.scene.state));
        self.dispatcher.meet(dispatcher(&self.scene.state));
    }
}

/// All lines, and what a copy of the bytes of a state costs.
fn measured(passes: usize) -> (Vec<Line>, f64) {
    let mut lines: Vec<Line> = [1, 8, 31].into_iter().flat_map(scenes::scenes).map(Line::new).collect();
    lines.iter().for_each(|line| agree(&line.scene));
    let mut copy = f64::MAX;
    for _ in 0..passes {
        copy = copy.min(copied());
        lines.iter_mut().for_each(Line::measure);
    }
    (lines, copy)
}

fn copied() -> f64 {
    fastest(&[0u8; STATE], |state| {
        let mut other = [0u8; STATE];
        other.copy_from_slice(black_box(&state[..]));
        black_box(&other);
    })
}

/// The dearest of the ratios, and the step that has it.
fn dearest(lines: &[Line], costs: fn(&Line) -> &Costs) -> String {
    let line = lines.iter().max_by(|a, b| costs(a).ratio().total_cmp(&costs(b).ratio())).expect("there are lines");
    format!("{:.1} ({} with {})", costs(line).ratio(), line.scene.name, line.scene.tasks)
}

fn steps(lines: &[Line], copy: f64) {
    println!("Copying the {STATE} bytes of a state: {copy:.1} ns. All times are in ns.\n");
    let columns = ["step", "tasks", "own form", "reference's", "ratio", "from bytes", "reference's", "ratio", "copies"];
    println!("| {} |\n|{}", columns.join(" | "), "---|".repeat(columns.len()));
    for line in lines {
        let copies = line.bytes.ours / copy;
        let scene = &line.scene;
        println!("| {} | {} | {} | {} | {copies:.0} |", scene.name, scene.tasks, line.own.columns(), line.bytes.columns());
    }
    println!(
        "\nThe highest ratio on own forms is {}, from bytes {}.",
        dearest(lines, |line| &line.own),
        dearest(lines, |line| &line.bytes)
    );
}

/// What a part of the step costs in the states of all steps: from the cheapest to the dearest.
fn range(lines: &[&Line], costs: fn(&Line) -> &Costs) -> String {
    let over = |of: fn(&Costs) -> f64| {
        let times = lines.iter().map(|line| of(costs(line)));
        let (low, high) = times.fold((f64::MAX, 0f64), |(low, high), ns| (low.min(ns), high.max(ns)));
        format!("{low:.0} to {high:.0}")
    };
    format!("{} | {}", over(|costs| costs.ours), over(|costs| costs.reference))
}

fn parts(lines: &[Line]) {
    println!("\nTwo parts of each step on own forms, from the cheapest to the dearest of the states above:\n");
    println!("| tasks | soundness check | reference's | dispatcher | reference's |\n|---|---|---|---|---|");
    for tasks in [1, 8, 31] {
        let these: Vec<&Line> = lines.iter().filter(|line| line.scene.tasks == tasks).collect();
        println!("| {tasks} | {} | {} |", range(&these, |line| &line.check), range(&these, |line| &line.dispatcher));
    }
}

/// What a tick of the debouncer costs from bytes, with so many of its eight contacts sampled: in ns, and against a TICK at
/// which nothing is due, of eight tasks and from bytes too.
fn debouncer(lines: &[Line], passes: usize) {
    let tick = lines.iter().find(|line| line.scene.name == "TICK: nothing due" && line.scene.tasks == 8).expect("a TICK");
    println!("\nA tick of the debouncer from bytes, against a TICK of 8 tasks from bytes at which nothing is due:\n");
    println!("| contacts sampled | ns | TICKs |\n|---|---|---|");
    for sampled in [0, 1, 8] {
        let card = own::card(&std::array::from_fn(|k| (1, if k < sampled { 1 } else { 9 }))).expect("good settings");
        assert_eq!(own::tick(&mut card.clone(), 255), Some(((1u16 << sampled) - 1) as u8));
        let ns = (0..passes).fold(f64::MAX, |least, _| {
            least.min(fastest(&card, |card| {
                black_box(own::tick(card, black_box(255)));
            }))
        });
        println!("| {sampled} | {ns:.0} | {:.1} |", ns / tick.bytes.ours);
    }
}

fn table(passes: usize) {
    let (lines, copy) = measured(passes);
    steps(&lines, copy);
    parts(&lines);
    debouncer(&lines, passes);
}

fn main() {
    let words: Vec<String> = std::env::args().skip(1).collect();
    let number = |word: &String| word.parse().expect("a number");
    match &words[..] {
        [] => table(PASSES),
        [passes] => table(number(passes)),
        [name, tasks, times] => {
            repeat(name, number(tasks), number(times)).expect("a step of the table, with 1, 8 or 31 tasks");
        }
        _ => panic!("bench, bench PASSES or bench NAME TASKS TIMES"),
    }
}
