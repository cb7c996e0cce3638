//! `arsurimo box`.

use super::{signals, Device, BOX_PORT, ROOM};
use crate::args::{Args, Failure};
use crate::ends::BoxEnd;
use crate::refusals::Refusals;
use crate::said::said;
use crate::words;
use host::Settings;
use reference::prefix::Prefix;
use std::net::{Ipv6Addr, SocketAddrV6};

const HELP: &str = "\
arsurimo box --pool PREFIX/LENGTH (--interface NAME | --listen [ADDRESS]:PORT --duid HEX)

  --pool PREFIX/LENGTH   what it lends of; the length is from 32 to 56
  --interface NAME       serves this interface: hears ff02::1:2, and makes its DUID from the interface's address
  --listen [ADDR]:PORT   where it listens, [::]:547 unless said otherwise
  --duid HEX             its DUID, 3 to 130 bytes
  --shortest N           the shortest delegation (56, or the pool's length if that is more)
  --standard N           the length for those who want none in particular (60)
  --preferred SECONDS    preferred lifetime, 120 or more (3600)
  --valid SECONDS        valid lifetime, at least the preferred one (7200)
  --exclude              excludes the last /64 of a delegation for routers that ask for PD Exclude
  --speed N              its clock runs N times as fast, to try things out (1)
  --quiet                no line for each message

Prints a line for each message. SIGUSR1: the table and the refusals so far. SIGINT or SIGTERM: stops, and prints them too.
The table is lost at a stop: start it again only when all that it lent has ended.
";

const RANGES: &str = "a pool of 32 to 56 bits and zeros after them, pool <= shortest <= standard <= 60, \
                      120 <= preferred <= valid";

pub fn command(args: &mut Args) -> Result<(), Failure> {
    if args.flag("--help") {
        print!("{HELP}");
        return Ok(());
    }
    let settings = settings(args)?;
    let quiet = args.flag("--quiet");
    let device = Device::open(args, BOX_PORT)?;
    device.link.join_boxes().map_err(Failure::Failed)?;
    let end = BoxEnd::start(&settings, &device.duid, device.clock.now());
    let end = end.map_err(|number| Failure::Usage(format!("{} ({number}): {RANGES}", words::refusal(number))))?;
    println!("the box lends of {}; its DUID is {}", pool_text(&settings), crate::hex::text(&device.duid));
    Serving { device, end, refusals: Refusals::default(), quiet }.run().map_err(Failure::Failed)
}

fn settings(args: &mut Args) -> Result<Settings, Failure> {
    let pool = args.value("--pool")?.ok_or(Failure::Usage("--pool is needed".to_string()))?;
    let (bits, pool_length) =
        parse_pool(&pool).ok_or(Failure::Usage(format!("--pool {pool}: not like 2001:db8::/48")))?;
    let mut seconds =
        |name: &str, usual: u32| args.parsed(name, "a number of seconds").map(|given| given.unwrap_or(usual));
    let (preferred, valid) = (seconds("--preferred", 3_600)?, seconds("--valid", 7_200)?);
    Ok(Settings {
        pool_high: (bits >> 64) as u64,
        pool_low: bits as u64,
        pool_length,
        shortest: args.number("--shortest")?.unwrap_or(pool_length.max(56)),
        standard: args.number("--standard")?.unwrap_or(60),
        preferred,
        valid,
        exclusion: args.flag("--exclude"),
    })
}

fn parse_pool(text: &str) -> Option<(u128, u64)> {
    let (address, length) = text.split_once('/')?;
    let address: Ipv6Addr = address.parse().ok()?;
    Some((u128::from(address), length.parse().ok()?))
}

fn pool_text(settings: &Settings) -> String {
    let bits = (settings.pool_high as u128) << 64 | settings.pool_low as u128;
    words::prefix(Prefix::new(bits, settings.pool_length as u8))
}

struct Serving {
    device: Device,
    end: BoxEnd,
    refusals: Refusals,
    quiet: bool,
}

impl Serving {
    fn run(&mut self) -> Result<(), String> {
        let mut room = [0; ROOM];
        while signals::stops() == 0 {
            if signals::state_wanted() {
                self.print_state();
            }
            if let Some((length, from)) = self.device.link.receive(&mut room)? {
                self.serve(&room[..length], from);
            }
        }
        println!("stopped");
        self.print_state();
        Ok(())
    }

    fn serve(&mut self, message: &[u8], from: SocketAddrV6) {
        let now = self.device.clock.now();
        match self.end.handle(now, message) {
            Ok(answer) => {
                if !self.quiet {
                    println!("{now:>6}  {from} {}; answered {}", said(message), said(&answer));
                }
                if let Err(why) = self.device.link.send(&answer, from) {
                    eprintln!("arsurimo: {why}");
                }
            }
            Err(number) => {
                self.refusals.add(number);
                if !self.quiet {
                    println!("{now:>6}  {from} {}; refused with {number} ({})", said(message), words::refusal(number));
                }
            }
        }
    }

    fn print_state(&self) {
        let now = self.device.clock.now();
        let live = self.end.live(now).unwrap_or(0);
        println!("{now:>6}  {}", words::count(live, "live binding", "live bindings"));
        for record in self.end.records().iter().filter(|record| record.is_live(now)) {
            let owner = format!("DUID {} IAID {}", crate::hex::text(record.duid.own()), record.iaid);
            let prefix = words::delegation(record.prefix, record.excluded());
            println!("        {prefix} to {owner} until {}", words::moment(record.end));
        }
        for line in self.refusals.lines() {
            println!("        {line}");
        }
    }
}

#[cfg(test)]
mod tests {
    use super::*;

    #[test]
    fn pools() {
        assert_eq!(parse_pool("2001:db8:0:aa00::/56"), Some((0x2001_0db8_0000_aa00 << 64, 56)));
        for bad in ["2001:db8::", "2001:db8::/x", "/56", "10.0.0.0/8", ""] {
            assert_eq!(parse_pool(bad), None, "{bad}");
        }
    }
}
