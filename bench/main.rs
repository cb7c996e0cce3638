//! The benchmark's program. `check` compares the sides on every input and on damaged tables; `times` measures; `counts`
//! and `profile` make the calls that a counter of instructions looks at, and name them.

mod inputs;
mod messages;
mod sides;
mod sorted;

use inputs::{inputs, Input};
use reference::generate::{damaged_table, sound_table, table_time, Random};
use reference::table::Table;
use reference::{TableBytes, ROOM_BYTES};
use sides::{Side, PROVED, SIDES};
use std::hint::black_box;
use std::time::Instant;

const NOW: u64 = 1_000;
const SMALL_STACK: usize = 16 * 1024;
const DAMAGED: usize = 4_000;
const COUNTED: usize = 4;
type Answer = [u8; ROOM_BYTES];

fn call(side: &Side, table: &mut TableBytes, message: &[u8], answer: &mut Answer) -> u64 {
    if message.is_empty() {
        (side.live)(black_box(table), NOW)
    } else {
        (side.handle)(black_box(table), NOW, message, answer)
    }
}

/// The word, the table and the answer after one call.
fn outcome(side: &Side, input: &Input) -> (u64, Box<TableBytes>, Answer) {
    let mut table = input.table.clone();
    let mut answer = [0xA5; ROOM_BYTES];
    let word = call(side, &mut table, &input.message, &mut answer);
    (word, table, answer)
}

/// The proved side, on a stack that couldn't hold a copy of the table.
fn on_small_stack(input: &Input) -> (u64, Box<TableBytes>, Answer) {
    std::thread::scope(|scope| {
        let thread = std::thread::Builder::new().stack_size(SMALL_STACK);
        let running = thread.spawn_scoped(scope, || outcome(&PROVED, input)).expect("a thread");
        running.join().expect("the proved side ends")
    })
}

/// All sides give the same on this input, and what it is meant to give.
fn check(input: &Input) {
    let name = format!("{} {}", input.name, input.records);
    let ours = on_small_stack(input);
    for side in SIDES {
        assert!(outcome(side, input) == ours, "{name}: {} differs", side.name);
    }
    let (word, _, answer) = ours;
    if input.message.is_empty() {
        assert_eq!(word, input.live as u64, "{name}");
    } else {
        assert_eq!(word >> 16, input.refusal, "{name}");
    }
    let says = |text: &[u8]| answer.windows(text.len()).any(|part| part == text);
    assert_eq!(says(b"NoPrefixAvail"), name.contains("worst"), "{name}");
    assert!(!says(b"NoBinding"), "{name}");
}

/// All sides judge alike: sound tables, and tables with a little damage. Gives how many were sound.
fn check_damaged() -> usize {
    let mut random = Random::new(6603);
    let mut sound = 0;
    for round in 0..DAMAGED {
        let table = sound_table(&mut random);
        let table = if round % 8 == 0 { table } else { damaged_table(&mut random, &table) };
        let judged = Table::read(&table);
        assert!(judged == sorted::read(&table), "round {round}: read otherwise");
        let now = table_time(&mut random, &table);
        let words = SIDES.map(|side| (side.live)(&table, now));
        assert!(words.iter().all(|&word| word == words[0]), "round {round}: {words:?}");
        sound += judged.is_some() as usize;
    }
    sound
}

fn check_all() {
    let all = inputs();
    all.iter().for_each(check);
    let sound = check_damaged();
    println!("All sides give the same words, tables and answers on {} inputs,", all.len());
    println!("and judge {DAMAGED} generated tables alike ({sound} of them sound).");
}

/// So many calls, the table copied before each one. None as side copies it and does nothing else.
fn repeat(side: Option<&Side>, input: &Input, table: &mut TableBytes, calls: usize) {
    let mut answer = [0; ROOM_BYTES];
    for _ in 0..calls {
        black_box(&mut *table).copy_from_slice(black_box(&*input.table));
        if let Some(side) = side {
            black_box(call(side, table, &input.message, &mut answer));
        }
    }
}

/// Where a counter of instructions looks: qemu's plugin at the system call, callgrind at the function.
#[no_mangle]
#[inline(never)]
pub extern "C" fn bench_mark() {
    black_box(std::os::unix::process::parent_id());
}

/// Two calls that don't count, and those between the marks, which do.
fn marked(side: Option<&Side>, input: &Input) {
    let name = side.map_or("memcpy", |side| side.name);
    println!("{} {} {name}", input.name, input.records);
    let mut table = input.table.clone();
    repeat(side, input, &mut table, 2);
    bench_mark();
    repeat(side, input, &mut table, COUNTED);
    bench_mark();
}

fn counts() {
    let all = inputs();
    marked(None, &all[0]);
    for input in &all {
        SIDES.iter().for_each(|side| marked(Some(side), input));
    }
}

/// One side's Renew, Request and refused message. First where the marks' function lies, to find the others by it.
fn profile(side: &Side) {
    println!("{}", bench_mark as extern "C" fn() as usize);
    let all = inputs();
    marked(None, &all[0]);
    for kind in ["renew", "renew-long", "request-bound", "refused-5"] {
        let name = format!("real ascending {kind}");
        all.iter().filter(|input| input.name == name).for_each(|input| marked(Some(side), input));
    }
}

/// Nanoseconds a call: the least of seven rounds of about ten milliseconds each.
fn time(mut run: impl FnMut(usize)) -> f64 {
    let mut seconds = |calls| {
        let start = Instant::now();
        run(calls);
        start.elapsed().as_secs_f64()
    };
    let calls = 1 + (0.01 / seconds(20).max(1e-9) * 20.0) as usize;
    let least = (0..7).map(|_| seconds(calls)).fold(f64::MAX, f64::min);
    least / calls as f64 * 1e9
}

fn times() {
    let all = inputs();
    let mut table = all[0].table.clone();
    let mut show = |side: Option<&Side>, input: &Input| {
        let least = time(|calls| repeat(side, input, &mut table, calls));
        println!("{} {} {} {least:.1}", input.name, input.records, side.map_or("memcpy", |side| side.name));
    };
    show(None, &all[0]);
    for input in &all {
        SIDES.iter().for_each(|side| show(Some(side), input));
    }
}

fn main() {
    let words: Vec<String> = std::env::args().skip(1).collect();
    let words: Vec<&str> = words.iter().map(String::as_str).collect();
    let named = |name: &str| SIDES.into_iter().find(|side| side.name == name).expect("proved, plain or sorted");
    match words[..] {
        ["check"] => check_all(),
        ["counts"] => counts(),
        ["times"] => times(),
        ["profile", side] => profile(named(side)),
        _ => eprintln!("check, counts, times, or profile SIDE"),
    }
}
