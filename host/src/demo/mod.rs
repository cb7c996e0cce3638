//! `arsurimo demo`: the accident of the introduction, and a random, lossy day, with the proved library at every end.

mod accident;
mod day;
mod network;
mod tally;
mod world;

/// Both stories; what went wrong in words.
pub fn run(seed: u64) -> Result<(), String> {
    accident::run()?;
    println!();
    day::run(seed)
}
