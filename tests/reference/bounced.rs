//! The debouncer of the reference without its tools: what is compiled anew for each mutant of it. It replies to the cases of its first
//! argument, then prints what the program debouncer prints for the input in its second.

mod bounces;
mod calls;
mod debounce;
mod flat;
mod numbers;
mod steps;
mod supervisor;
mod tree;

use std::io::Write;

fn main() -> std::io::Result<()> {
    let files: Vec<String> = std::env::args().skip(1).collect();
    let mut output = std::io::stdout();
    output.write_all(&bounces::replies(&std::fs::read(&files[0])?))?;
    output.write_all(debounce::printed(&std::fs::read(&files[1])?).as_bytes())
}
