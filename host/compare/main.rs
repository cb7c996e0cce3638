//! The proved library compared with the independent implementation, and run in the World.
//!
//!     compare generated [INPUTS [SEED]]   generated inputs to every operation, every lent byte compared
//!     compare world [STEPS [SEED]]        random runs of the World, demand 3 asserted after every step
//!     compare accident                    a delayed Release, scripted
//!     compare readings                    the readings of reference/NOTES.md, one by one

mod accident;
mod both;
mod calls;
mod generated;
mod mutate;
mod readings;
mod tally;
mod world;

use both::{Both, Proved};
use reference::generate::Random;
use tally::Tally;
use world::{Seen, World};

const SEED: u64 = 6_603;
const INPUTS: u64 = 200_000;
const STEPS: u64 = 1_000_000;
const STEPS_OF_A_RUN: u64 = 20_000;
/// Few lines meet at the same second more often, many fill the pool.
const MOST_LINES: [u64; 4] = [40, 3, 40, 8];

fn main() {
    let arguments: Vec<String> = std::env::args().skip(1).collect();
    let number = |at: usize, default: u64| {
        arguments.get(at).map_or(default, |word| word.parse().expect("a number of rounds, then a seed"))
    };
    match arguments.first().map(String::as_str) {
        Some("generated") => generated(number(1, INPUTS), number(2, SEED)),
        Some("world") => world(number(1, STEPS), number(2, SEED)),
        Some("accident") => accident(),
        Some("readings") => readings::run(),
        _ => {
            eprintln!("compare generated [INPUTS [SEED]] | world [STEPS [SEED]] | accident | readings");
            std::process::exit(2);
        }
    }
}

fn generated(inputs: u64, seed: u64) {
    let tally = generated::run(seed, inputs);
    println!("generated: {} inputs, seed {seed}: no difference", tally.inputs);
    tally.print();
    let faults = tally.faults();
    faults.iter().for_each(|fault| println!("  {fault}"));
    if !faults.is_empty() {
        std::process::exit(1);
    }
}

fn world(steps: u64, seed: u64) {
    let mut all = Seen::default();
    let mut runs = 0;
    while all.tried < steps {
        let mut proved = Proved;
        let lines = MOST_LINES[runs as usize % MOST_LINES.len()];
        let mut world = World::new(Random::new(seed + runs), &mut proved, lines);
        (0..STEPS_OF_A_RUN).for_each(|_| world.step());
        all = all.and(&world.seen);
        runs += 1;
    }
    let Seen { tried, steps: taken, .. } = all;
    println!("world: {runs} runs, {taken} steps of {tried} tried, seed {seed}: demand 3 held after each");
    all.print();
    assert!(all.all_met(), "something never happened");
}

fn accident() {
    let mut both = Both { tally: Tally::default() };
    accident::run(&mut both);
    println!("accident: 3 stories, {} calls on both sides: as written", both.tally.inputs);
}
