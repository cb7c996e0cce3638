//! A random, lossy day: forty houses, a box whose pool is too small for all that they want, power cuts, holidays.

use super::network::Parcel;
use super::tally::Hour;
use super::world::{Arrived, Line, World};
use crate::refusals::Refusals;
use crate::said::said;
use crate::timed::Acted;
use crate::words;
use host::Settings;
use reference::generate::Random;
use reference::{NEVER, RELEASE};

const HOUSES: usize = 40;
const DAY: u64 = 86_400;
const HOUR: u64 = 3_600;
/// So many events are told one by one; the rest is summed up.
const TOLD: usize = 40;

const INTRODUCTION: &str = "\
40 houses and one box with 2001:db8:0:a800::/54, hardly enough for all that they want. One message in five is lost, others
come twice or up to 30 s late. Houses lose power, give their prefix back, and ask again. The first events:
";

fn settings() -> Settings {
    Settings {
        pool_high: 0x2001_0db8_0000_a800,
        pool_low: 0,
        pool_length: 54,
        shortest: 56,
        standard: 60,
        preferred: 3_600,
        valid: 7_200,
        exclusion: true,
    }
}

/// What may befall a house.
enum Whim {
    PowerCut,
    PowerBack,
    GiveBack,
    AskAgain,
}

struct Day {
    world: World,
    random: Random,
    /// For each house when its router's next step is due, and its next whim.
    wakes: Vec<u64>,
    whims: Vec<(u64, Whim)>,
    /// For each house and direction, when the newest message that arrived was sent.
    newest: Vec<[u64; 2]>,
    hour: Hour,
    refusals: Refusals,
    events: usize,
}

impl Day {
    fn start(seed: u64) -> Result<Day, String> {
        let mut random = Random::new(seed);
        let house = |n: usize| Line::new(&format!("house {}", n + 1), &[0, 3, 0, 1, 2, 0, 0, 0, 0, n as u8], 1);
        let world = World::start(&settings(), (0..HOUSES).map(house).collect())?;
        // All is dark at first, and the power comes back house by house in the first ten minutes.
        let whims = (0..HOUSES).map(|_| (random.below(600), Whim::PowerBack)).collect();
        Ok(Day {
            world,
            random,
            wakes: vec![NEVER; HOUSES],
            whims,
            newest: vec![[0; 2]; HOUSES],
            hour: Hour::default(),
            refusals: Refusals::default(),
            events: 0,
        })
    }

    fn tell(&mut self, who: &str, what: &str) {
        self.events += 1;
        if self.events <= TOLD {
            println!("{}  {who:<9}  {what}", words::hours(self.world.now));
        }
    }

    fn house(&self, line: usize) -> String {
        self.world.lines[line].name.clone()
    }

    /// The next event before that moment; false where there is none.
    fn step(&mut self, before: u64) -> Result<bool, String> {
        let arrival = self.world.network.earliest().unwrap_or(NEVER);
        let (waking, wake) = soonest(self.wakes.iter().copied());
        let (moody, mood) = soonest(self.whims.iter().map(|(at, _)| *at));
        let next = arrival.min(wake).min(mood);
        if next >= before {
            return Ok(false);
        }
        self.world.now = next;
        let line = match self.world.network.next(next) {
            Some(parcel) => self.arrive(&parcel),
            None if wake == next => self.act(waking),
            None => self.indulge(moody)?,
        };
        self.world.check(line)?;
        let router = self.world.lines[line].router.as_ref();
        self.wakes[line] = router.map_or(NEVER, |router| router.wake(next).max(next));
        Ok(true)
    }

    // ------------------------------------------------------------ the network

    /// One message in five is lost; others come up to three times, most within two seconds, some up to thirty later.
    fn delays(&mut self) -> Vec<u64> {
        if self.random.once_in(5) {
            return Vec::new();
        }
        let copies = self.random.pick(&[1, 1, 1, 1, 2, 3]);
        let delay = |r: &mut Random| if r.once_in(4) { r.below(31) } else { r.below(3) };
        (0..copies).map(|_| delay(&mut self.random)).collect()
    }

    fn send(&mut self, line: usize, to_box: bool, message: &[u8]) -> &'static str {
        let delays = self.delays();
        self.hour.sent += 1;
        self.hour.lost += delays.is_empty() as usize;
        self.hour.repeated += delays.len().saturating_sub(1);
        self.world.network.send(self.world.now, line, to_box, message, &delays);
        match delays.len() {
            0 => " (the network loses it)",
            1 => "",
            _ => " (the network repeats it)",
        }
    }

    fn arrive(&mut self, parcel: &Parcel) -> usize {
        let name = self.house(parcel.line);
        let newest = &mut self.newest[parcel.line][parcel.to_box as usize];
        self.hour.overtaken += (parcel.sent < *newest) as usize;
        *newest = parcel.sent.max(*newest);
        let kind = words::kind(parcel.message[0]);
        match self.world.arrive(parcel) {
            Arrived::Answered(answer) => {
                let answered = said(&answer);
                self.hour.answered += 1;
                self.hour.turned_away += answered.contains("NoPrefixAvail") as usize;
                let fate = self.send(parcel.line, false, &answer);
                self.tell("box", &format!("gets {name}'s {kind}; answers {answered}{fate}"));
            }
            Arrived::Taken => self.tell(&name, &format!("takes the {}", said(&parcel.message))),
            Arrived::NobodyThere => self.tell(&name, &format!("is dark: the {kind} is lost")),
            Arrived::Refused(number) => {
                self.refused(number);
                let who = if parcel.to_box { "box" } else { &name };
                self.tell(who, &format!("passes over a {kind} ({number}: {})", words::refusal(number)));
            }
        }
        parcel.line
    }

    fn refused(&mut self, number: u64) {
        self.hour.refused += 1;
        self.refusals.add(number);
    }

    // ------------------------------------------------------------ the houses

    /// The router takes the step that is due.
    fn act(&mut self, line: usize) -> usize {
        let name = self.house(line);
        let router = self.world.lines[line].router.as_mut();
        match router.and_then(|router| router.act(self.world.now, &mut self.random)) {
            Some(Acted::Sent { kind, again, message }) => {
                self.hour.given_back += (kind == RELEASE && !again) as usize;
                let fate = self.send(line, true, &message);
                let verb = if again { "sends again its" } else { "sends" };
                self.tell(&name, &format!("{verb} {}{fate}", said(&message)));
            }
            Some(Acted::Abandoned(kind)) => self.tell(&name, &format!("gives its {} up", words::kind(kind))),
            Some(Acted::Refused(kind, number)) => {
                self.refused(number);
                self.tell(&name, &format!("may not send a {} ({number})", words::kind(kind)));
            }
            None => {}
        }
        line
    }

    /// The house's whim, and when the next one comes.
    fn indulge(&mut self, line: usize) -> Result<usize, String> {
        let name = self.house(line);
        let (what, later, next) = match self.whims[line].1 {
            Whim::PowerCut => {
                self.hour.cut_off += 1;
                self.world.kill(line);
                ("its power is cut", self.random.from_to(1, 1_800), Whim::PowerBack)
            }
            Whim::PowerBack => {
                let wanted = self.random.pick(&[0, 0, 0, 0, 60, 59, 58, 58]);
                self.world.bear(line, wanted)?;
                ("has power: its router starts", self.random.from_to(HOUR, 8 * HOUR), self.mood())
            }
            Whim::GiveBack => {
                self.want(line, false);
                ("needs no prefix for a while", self.random.from_to(30, 2 * HOUR), Whim::AskAgain)
            }
            Whim::AskAgain => {
                self.want(line, true);
                ("wants a prefix again", self.random.from_to(HOUR, 8 * HOUR), self.mood())
            }
        };
        self.whims[line] = (self.world.now + later, next);
        self.tell(&name, what);
        Ok(line)
    }

    fn mood(&mut self) -> Whim {
        if self.random.once_in(2) {
            Whim::PowerCut
        } else {
            Whim::GiveBack
        }
    }

    fn want(&mut self, line: usize, wants: bool) {
        if let Some(router) = &mut self.world.lines[line].router {
            router.timers.wants = wants;
        }
    }

    // ------------------------------------------------------------ the hours

    fn hour(&mut self, hour: u64) -> Result<(), String> {
        while self.step((hour + 1) * HOUR)? {}
        self.world.now = (hour + 1) * HOUR;
        let counts = std::mem::take(&mut self.hour);
        if hour == 0 {
            println!("... and {} events more in the first hour. Hour by hour:\n", self.events.saturating_sub(TOLD));
            Hour::print_heading();
        }
        counts.print(hour, self.world.holders().len());
        Ok(())
    }

    fn print_end(&self) {
        println!("\n{} events. Of them:", self.events);
        for line in self.refusals.lines() {
            println!("  {line}");
        }
        let holders = self.world.holders().len();
        println!("\nThe box's table at the day's end ({} live), and who holds what:", self.world.live());
        self.world.print_table(words::hours);
        let idle = HOUSES - holders;
        println!("{holders} houses hold a prefix, {idle} hold none.");
        println!("Checked after each of {} steps: no two houses hold overlapping prefixes.", self.world.checks);
    }
}

/// The first of the least moments, and its place.
fn soonest(moments: impl Iterator<Item = u64>) -> (usize, u64) {
    moments.enumerate().min_by_key(|(_, at)| *at).unwrap_or((0, NEVER))
}

pub fn run(seed: u64) -> Result<(), String> {
    println!("A RANDOM DAY, seed {seed}\n{INTRODUCTION}");
    let mut day = Day::start(seed)?;
    for hour in 0..DAY / HOUR {
        day.hour(hour)?;
    }
    day.print_end();
    Ok(())
}

#[cfg(test)]
mod tests {
    #[test]
    fn a_day_keeps_the_promise() {
        assert_eq!(super::run(2), Ok(()));
    }
}
