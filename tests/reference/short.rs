//! The reference without its tools: what is compiled anew for each mutant. It replays the logs of its first
//! argument, then says of each state in its second whether it is sound.

mod calls;
mod flat;
mod logs;
mod numbers;
mod states;
mod steps;
mod supervisor;
mod tree;

fn main() -> std::io::Result<()> {
    let files: Vec<String> = std::env::args().skip(1).collect();
    print!("{}", logs::replayed(&logs::unpack(&std::fs::read(&files[0])?)));
    print!("{}", states::verdicts(&std::fs::read(&files[1])?));
    Ok(())
}
