//! `arsurimo router`.

use super::{signals, Device, ALL_BOXES, BOX_PORT, ROOM, ROUTER_PORT};
use crate::args::{Args, Failure};
use crate::ends::Hold;
use crate::refusals::Refusals;
use crate::said::said;
use crate::timed::{Acted, TimedRouter};
use crate::words;
use reference::generate::Random;
use reference::NEVER;
use std::net::SocketAddrV6;
use std::time::{SystemTime, UNIX_EPOCH};

/// The seconds of two devices don't begin together: the router stops using a prefix one second before its end.
const APART: u64 = 1;

const HELP: &str = "\
arsurimo router (--interface NAME | --listen [ADDRESS]:PORT --server [ADDRESS]:PORT --duid HEX)

  --interface NAME       asks on this interface, and makes its DUID from the interface's address
  --listen [ADDR]:PORT   where it listens, [::]:546 unless said otherwise
  --server [ADDR]:PORT   where it sends to, [ff02::1:2]:547 unless said otherwise
  --duid HEX             its DUID, 3 to 130 bytes; no two routers may have the same
  --iaid N               its IAID (1)
  --length N             the wanted prefix length, at most 64; 0 for whatever the box gives (0)
  --keep                 keeps the prefix at a stop; else a stop gives it back first
  --speed N              its clock runs N times as fast, to try things out (1)

It sends nothing in the first 60 seconds: an answer to what it asked before its start could still come.
Prints a line for each step. SIGUSR1: what it holds, and the refusals so far. SIGINT or SIGTERM: gives the prefix back, and
stops; a second one stops at once.
";

pub fn command(args: &mut Args) -> Result<(), Failure> {
    if args.flag("--help") {
        print!("{HELP}");
        return Ok(());
    }
    let server: Option<SocketAddrV6> = args.parsed("--server", "an address and a port like [::1]:5547")?;
    let iaid = args.parsed("--iaid", "a number below 2^32")?.unwrap_or(1);
    let wanted = args.number("--length")?.unwrap_or(0);
    let keeps = args.flag("--keep");
    let device = Device::open(args, ROUTER_PORT)?;
    if server.is_none() && !device.link.has_interface() {
        return Err(Failure::Usage("--server or --interface is needed".to_string()));
    }
    let router = TimedRouter::start(&device.duid, iaid, wanted, device.clock.now());
    let router = router
        .map_err(|number| Failure::Usage(format!("{} ({number}): --length is at most 64", words::refusal(number))))?;
    println!("the router asks in 61 seconds; its DUID is {}", crate::hex::text(&device.duid));
    Asking {
        device,
        router,
        server: server.unwrap_or(SocketAddrV6::new(ALL_BOXES, BOX_PORT, 0, 0)),
        keeps,
        held: None,
        random: Random::new(seed()),
        refusals: Refusals::default(),
    }
    .run()
    .map_err(Failure::Failed)
}

/// For the pauses only, so that houses don't ask in step.
fn seed() -> u64 {
    let since = SystemTime::now().duration_since(UNIX_EPOCH).unwrap_or_default();
    since.as_nanos() as u64 ^ (std::process::id() as u64) << 32
}

struct Asking {
    device: Device,
    router: TimedRouter,
    server: SocketAddrV6,
    keeps: bool,
    /// What it held when that was last told.
    held: Option<Hold>,
    random: Random,
    refusals: Refusals,
}

impl Asking {
    fn run(&mut self) -> Result<(), String> {
        let mut room = [0; ROOM];
        while !self.is_done() {
            if signals::state_wanted() {
                self.print_state();
            }
            self.act();
            if let Some((length, from)) = self.device.link.receive(&mut room)? {
                self.receive(&room[..length], from);
            }
            self.tell_hold();
        }
        println!("stopped");
        self.print_state();
        Ok(())
    }

    /// A stop was asked for, and nothing is left to give back.
    fn is_done(&mut self) -> bool {
        match signals::stops() {
            0 => false,
            1 if !self.keeps => {
                self.router.timers.wants = false;
                let now = self.device.clock.now();
                self.router.end.open().is_none() && self.router.end.held(now).is_none()
            }
            _ => true,
        }
    }

    fn tell(&self, what: &str) {
        println!("{:>6}  {what}", self.device.clock.now());
    }

    fn act(&mut self) {
        let now = self.device.clock.now();
        match self.router.act(now, &mut self.random) {
            Some(Acted::Sent { again, message, .. }) => {
                self.tell(&format!("sends {}{}", if again { "again its " } else { "" }, said(&message)));
                if let Err(why) = self.device.link.send(&message, self.server) {
                    eprintln!("arsurimo: {why}");
                }
            }
            Some(Acted::Abandoned(kind)) => self.tell(&format!("gives its {} up", words::kind(kind))),
            Some(Acted::Refused(_, number)) => self.refusals.add(number),
            None => {}
        }
    }

    fn receive(&mut self, message: &[u8], from: SocketAddrV6) {
        let now = self.device.clock.now();
        match self.router.receive(now, message) {
            Ok(_) => self.tell(&format!("takes {} from {from}", said(message))),
            Err(number) => {
                self.refusals.add(number);
                self.tell(&format!("passes over {} ({number}: {})", said(message), words::refusal(number)));
            }
        }
    }

    fn tell_hold(&mut self) {
        let held = self.router.end.held(self.device.clock.now() + APART);
        if held != self.held {
            self.held = held;
            self.tell(&self.hold_text());
        }
    }

    fn hold_text(&self) -> String {
        match self.held {
            Some(hold) => {
                let prefix = words::delegation(hold.prefix, hold.excluded);
                format!("holds {prefix} until {}", words::moment(hold.end))
            }
            None => "holds nothing".to_string(),
        }
    }

    fn print_state(&self) {
        self.tell(&self.hold_text());
        if let Some(kind) = self.router.end.open() {
            println!("        waits for the answer to its {}", words::kind(kind));
        }
        match self.router.wake(self.device.clock.now()) {
            NEVER => println!("        nothing more to do"),
            next => println!("        its next step is due at {next}"),
        }
        for line in self.refusals.lines() {
            println!("        {line}");
        }
    }
}
