//! Runs every generator and every call for many rounds: `cargo run --example soak -- SEED ROUNDS`. Panics on a fault.
use reference::generate::*;
use reference::*;

fn main() {
    let mut arguments = std::env::args().skip(1).map(|a| a.parse::<u64>().expect("a number"));
    let (seed, rounds) = (arguments.next().unwrap_or(1), arguments.next().unwrap_or(100_000));
    let mut r = Random::new(seed);
    let mut table = sound_table(&mut r);
    let mut words = 0u64;
    for round in 0..rounds {
        if round % 16 == 0 {
            table = sound_table(&mut r);
        }
        let mut bad = damaged_table(&mut r, &table);
        let now = table_time(&mut r, &table);
        let text = message_to_box(&mut r, &table);
        let mut lent = vec![0u8; room(&mut r, 512)];
        words ^= pd_box_handle(&mut bad, now, &text, &mut lent);
        words ^= pd_box_handle(&mut table, now, &text, &mut lent);
        let state = sound_state(&mut r);
        for mut state in [damaged_state(&mut r, &state), state] {
            let now = state_time(&mut r, &state);
            let text = message_to_router(&mut r, &state, now);
            words ^= pd_router_receive(&mut state, now, &text);
            for step in [
                pd_router_solicit,
                pd_router_request,
                pd_router_renew,
                pd_router_rebind,
                pd_router_release,
                pd_router_resend,
            ] {
                words ^= step(&mut state.clone(), now, &mut lent);
            }
        }
    }
    println!("seed {seed}: {rounds} rounds, {words:#x}");
}
