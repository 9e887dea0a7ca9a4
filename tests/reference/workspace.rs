//! The storage package of request (x), written from its text alone and in another style than the product:
//! the rules are checked by painting the units of the area, and the free stretches after an operation are
//! the runs of units that no block covers.
//!
//!     workspace run CAPACITY BLOCKS FREE      reads operations, prints what each answers and both tables
//!     workspace gen SEED COUNT KIND           prints COUNT operations; KIND is mix, damage or lengths
//!
//! Operations are lines, as the program `allot` takes them; `t M N` besides says that the tables lent from
//! now on are the first M and N places. For a line that is no operation nothing is printed.
use std::env;
use std::io::{self, BufWriter, Read, Write};

const AREA: u64 = 65536;

/// The bytes of the longest line.
const LONGEST: usize = 65535;

#[derive(Clone, Copy, PartialEq)]
struct Stretch {
    start: u32,
    length: u32,
}

const UNUSED: Stretch = Stretch { start: 0, length: 0 };

impl Stretch {
    fn end(self) -> u64 {
        self.start as u64 + self.length as u64
    }
}

/// The memory of both tables, the places of each that are lent, and the number of places used.
struct Area {
    blocks: Vec<Stretch>,
    free: Vec<Stretch>,
    lent: (usize, usize),
    used: (u64, u64),
}

struct Answer {
    refusal: u32,
    value: u32,
}

fn refused(refusal: u32) -> Answer {
    Answer { refusal, value: 0 }
}

impl Area {
    fn new(capacity: usize, blocks: usize, free: usize) -> Area {
        Area { blocks: vec![UNUSED; capacity], free: vec![UNUSED; capacity], lent: (blocks, free), used: (0, 0) }
    }

    fn has_places(&self) -> bool {
        self.lent.0 >= 31 && self.lent.1 >= 32
    }

    /// Whether the lent tables keep the rules.
    fn keeps_rules(&self) -> bool {
        if !self.has_places() || self.used.0 > 31 || self.used.1 > self.lent.1 as u64 {
            return false;
        }
        let (m, n) = (self.used.0 as usize, self.used.1 as usize);
        let (blocks, free) = (&self.blocks[..self.lent.0], &self.free[..self.lent.1]);
        if blocks[m..].iter().chain(&free[n..]).any(|s| *s != UNUSED) {
            return false;
        }
        let (blocks, free) = (&blocks[..m], &free[..n]);
        for table in [blocks, free] {
            if table.windows(2).any(|w| w[0].start >= w[1].start) {
                return false;
            }
        }
        let mut painted = vec![false; AREA as usize];
        let mut sum = 0u64;
        for s in blocks.iter().chain(free) {
            if s.length == 0 || s.end() > AREA {
                return false;
            }
            for unit in &mut painted[s.start as usize..s.end() as usize] {
                if *unit {
                    return false;
                }
                *unit = true;
            }
            sum += s.length as u64;
        }
        let touch = free.iter().any(|s| free.iter().any(|t| s.end() == t.start as u64));
        sum == AREA && !touch
    }

    /// Writes blocks and, as free stretches, the runs of units that no block covers.
    fn settle(&mut self, mut blocks: Vec<Stretch>) {
        blocks.sort_by_key(|b| b.start);
        let mut free = Vec::new();
        let mut at = 0u64;
        for b in blocks.iter().copied().chain([Stretch { start: AREA as u32, length: 0 }]) {
            if at < b.start as u64 {
                free.push(Stretch { start: at as u32, length: (b.start as u64 - at) as u32 });
            }
            at = b.end();
        }
        self.used = (blocks.len() as u64, free.len() as u64);
        blocks.resize(self.lent.0, UNUSED);
        free.resize(self.lent.1, UNUSED);
        self.blocks[..self.lent.0].copy_from_slice(&blocks);
        self.free[..self.lent.1].copy_from_slice(&free);
    }

    fn taken(&self) -> Vec<Stretch> {
        self.blocks[..self.used.0 as usize].to_vec()
    }

    fn fresh(&mut self) -> Answer {
        if !self.has_places() {
            return refused(2);
        }
        self.settle(Vec::new());
        refused(0)
    }

    fn request(&mut self, size: u32) -> Answer {
        if !self.keeps_rules() {
            return refused(2);
        }
        if size == 0 || size > 65535 {
            return refused(13);
        }
        if self.used.0 == 31 {
            return refused(14);
        }
        let Some(found) = self.free[..self.used.1 as usize].iter().find(|f| f.length >= size) else {
            return refused(15);
        };
        let start = found.start;
        let mut blocks = self.taken();
        blocks.push(Stretch { start, length: size });
        self.settle(blocks);
        Answer { refusal: 0, value: start }
    }

    fn release(&mut self, start: u32) -> Answer {
        if !self.keeps_rules() {
            return refused(2);
        }
        let mut blocks = self.taken();
        let Some(place) = blocks.iter().position(|b| b.start == start) else {
            return refused(16);
        };
        let block = blocks.remove(place);
        self.settle(blocks);
        Answer { refusal: 0, value: block.length }
    }

    fn put(table: &mut [Stretch], place: u32, s: Stretch) {
        if let Some(at) = table.get_mut(place as usize) {
            *at = s;
        }
    }

    /// Carries out one line; nothing if it is no operation.
    fn carry_out(&mut self, line: &[u8]) -> Option<Answer> {
        let (letter, numbers) = words(line)?;
        match (letter, &numbers[..]) {
            ("f", []) => return Some(self.fresh()),
            ("a", [size]) => return Some(self.request(*size)),
            ("r", [start]) => return Some(self.release(*start)),
            ("b", &[place, start, length]) => Area::put(&mut self.blocks, place, Stretch { start, length }),
            ("e", &[place, start, length]) => Area::put(&mut self.free, place, Stretch { start, length }),
            ("u", [m, n]) => self.used = (*m as u64, *n as u64),
            ("t", [m, n]) => self.lent = (*m as usize, *n as usize),
            _ => return None,
        }
        Some(refused(0))
    }

    fn print(&self, answer: &Answer, out: &mut impl Write) -> io::Result<()> {
        write!(out, "{} {} {} {} ", answer.refusal, answer.value, self.used.0, self.used.1)?;
        for table in [&self.blocks, &self.free] {
            write!(out, "| ")?;
            for (i, s) in table.iter().enumerate().filter(|(_, s)| **s != UNUSED) {
                write!(out, "{} {} {} ", i, s.start, s.length)?;
            }
        }
        writeln!(out)
    }
}

/// The first word of a line and the numbers behind it, each behind one space; nothing if a later word is not digits alone, or
/// above 4294967295, or the line is too long.
fn words(line: &[u8]) -> Option<(&str, Vec<u32>)> {
    let text = std::str::from_utf8(line).ok().filter(|text| text.len() <= LONGEST)?;
    let mut words = text.split(' ');
    let first = words.next()?;
    let numbers: Option<_> =
        words.map(|w| if w.bytes().all(|b| b.is_ascii_digit()) { w.parse().ok() } else { None }).collect();
    Some((first, numbers?))
}

/// Numbers that look random, the same for the same seed (xorshift).
struct Dice(u64);

impl Dice {
    fn below(&mut self, n: u64) -> u64 {
        self.0 ^= self.0 << 13;
        self.0 ^= self.0 >> 7;
        self.0 ^= self.0 << 17;
        (self.0 >> 11) % n
    }

    fn one_in(&mut self, n: u64) -> bool {
        self.below(n) == 0
    }

    fn pick<T: Copy>(&mut self, items: &[T]) -> Option<T> {
        if items.is_empty() { None } else { Some(items[self.below(items.len() as u64) as usize]) }
    }
}

/// A request or a release that is likely to be granted, and now and then one that is not.
fn usual(area: &Area, dice: &mut Dice, busy: bool) -> String {
    let m = area.used.0.min(area.blocks.len() as u64) as usize;
    let n = area.used.1.min(area.free.len() as u64) as usize;
    if dice.below(10) < if busy { 3 } else { 6 } {
        let start = match dice.pick(&area.blocks[..m]) {
            Some(b) if !dice.one_in(12) => b.start as u64 + if dice.one_in(20) { 1 } else { 0 },
            _ => dice.below(70000),
        };
        return format!("r {}", start);
    }
    let size = match dice.below(12) {
        0 => dice.pick(&[0u64, 1, 65535, 65536, 65537, 4294967295]).unwrap_or(0),
        1 | 2 => dice.pick(&area.free[..n]).map_or(1, |f| f.length as u64),
        3 => dice.pick(&area.free[..n]).map_or(1, |f| f.length as u64 + 1),
        4 => 1 + dice.below(20000),
        5 | 6 => 1 + dice.below(3000),
        _ => 1 + dice.below(200),
    };
    format!("a {}", size)
}

/// A line that changes a place or a count, and the line that puts it back.
fn damage(area: &Area, dice: &mut Dice) -> (String, String) {
    let small = |dice: &mut Dice, n: u32| match dice.below(5) {
        0 => 0,
        1 => n.wrapping_add(1),
        2 => n.wrapping_sub(1),
        3 => dice.below(70000) as u32,
        _ => n,
    };
    if dice.one_in(5) {
        let (m, n) = area.used;
        let count = |dice: &mut Dice, n: u64| dice.pick(&[0, n + 1, n.saturating_sub(1), 31, 32, 33, 40, 4294967295]).unwrap_or(0);
        let back = format!("u {} {}", m, n);
        return if dice.one_in(2) { (format!("u {} {}", count(dice, m), n), back) } else { (format!("u {} {}", m, count(dice, n)), back) };
    }
    let (letter, table, used) = if dice.one_in(2) { ("b", &area.blocks, area.used.0) } else { ("e", &area.free, area.used.1) };
    let near = (used.min(31) + 2).min(table.len() as u64);
    let place = if dice.one_in(4) { dice.below(table.len() as u64) } else { dice.below(near) } as usize;
    let old = table[place];
    let (start, length) = (small(dice, old.start), small(dice, old.length));
    (format!("{} {} {} {}", letter, place, start, length), format!("{} {} {} {}", letter, place, old.start, old.length))
}

fn generate(seed: u64, count: usize, kind: &str, out: &mut impl Write) -> io::Result<()> {
    let mut dice = Dice(seed.wrapping_mul(0x9e3779b97f4a7c15) | 1);
    let capacity = if kind == "lengths" { 40 } else { 32 };
    let mut area = Area::new(capacity, 32, 32);
    let mut lines = Vec::new();
    let mut busy = true;
    while lines.len() < count {
        let mut say = |area: &mut Area, line: String| {
            area.carry_out(line.as_bytes());
            lines.push(line);
        };
        if dice.one_in(40) {
            busy = !busy;
        }
        if area.used == (0, 0) || dice.one_in(150) {
            say(&mut area, "f".to_string());
        } else if kind != "mix" && dice.one_in(6) {
            let (harm, back) = damage(&area, &mut dice);
            say(&mut area, harm);
            for _ in 0..1 + dice.below(2) {
                let line = usual(&area, &mut dice, busy);
                say(&mut area, line);
            }
            if area.keeps_rules() {
                continue;
            }
            say(&mut area, back);
            if !area.keeps_rules() {
                say(&mut area, "f".to_string());
            }
        } else if kind == "lengths" && dice.one_in(8) {
            let lens = [0, 30, 31, 31, 32, 32, 33, 40, 40, 40];
            let (m, n) = (dice.pick(&lens).unwrap_or(31), dice.pick(&lens).unwrap_or(32));
            say(&mut area, format!("t {} {}", m, n));
            if dice.one_in(3) {
                say(&mut area, "f".to_string());
            }
        } else {
            let line = usual(&area, &mut dice, busy);
            say(&mut area, line);
        }
    }
    lines.iter().try_for_each(|line| writeln!(out, "{}", line))
}

fn run(mut area: Area, out: &mut impl Write) -> io::Result<()> {
    let mut text = Vec::new();
    io::stdin().read_to_end(&mut text)?;
    text.split_inclusive(|b| *b == b'\n').try_for_each(|line| {
        match area.carry_out(line.strip_suffix(b"\n").unwrap_or(line)) {
            Some(answer) => area.print(&answer, out),
            None => Ok(()),
        }
    })
}

fn main() -> io::Result<()> {
    let args: Vec<String> = env::args().skip(1).collect();
    let number = |i: usize| args.get(i).and_then(|a| a.parse::<u64>().ok());
    let mut out = BufWriter::new(io::stdout());
    match (args.first().map(String::as_str), number(1), number(2)) {
        (Some("run"), Some(capacity), Some(blocks)) if args.len() == 4 => {
            let free = number(3).unwrap_or(0) as usize;
            run(Area::new(capacity as usize, blocks as usize, free), &mut out)
        }
        (Some("gen"), Some(seed), Some(count)) if args.len() == 4 => generate(seed, count as usize, &args[3], &mut out),
        _ => {
            eprintln!("usage: workspace run CAPACITY BLOCKS FREE | workspace gen SEED COUNT mix|damage|lengths");
            std::process::exit(2)
        }
    }
}
