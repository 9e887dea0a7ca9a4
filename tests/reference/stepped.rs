//! The reference without its tools, once more: it replies to the cases of its arguments, of the first engine and of the second, with every byte
//! of the state after each step. It is compiled for a mutant that neither logs nor states expose.

mod calls;
mod engines;
mod flat;
mod numbers;
mod replies;
mod steps;
mod supervisor;
mod tree;

use engines::Engine;
use std::io::Write;

fn main() -> std::io::Result<()> {
    let files: Vec<String> = std::env::args().skip(1).collect();
    for (engine, file) in [Engine::Card, Engine::Second].into_iter().zip(&files) {
        std::io::stdout().write_all(&replies::replies(engine, &std::fs::read(file)?))?;
    }
    Ok(())
}
