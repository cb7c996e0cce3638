//! The accident of the introduction, as our rules play it: crates/promises/specs/Accident.antt, with the proved library.

use super::network::{Parcel, LATEST};
use super::world::{Arrived, Line, World};
use crate::said::said;
use crate::words;
use host::Settings;
use reference::{RELEASE, REQUEST, SOLICIT};

const HOUSE: usize = 0;
const NEIGHBOUR: usize = 1;
const POOL: u64 = 0x2001_0db8_0000_aa00;
const AA00: &str = "2001:db8:0:aa00::/60";
const AA10: &str = "2001:db8:0:aa10::/60";

const INTRODUCTION: &str = "\
THE ACCIDENT
A supplier's daemon once freed a prefix on a Release that came late, when its house had asked again and held the prefix. It
lent the prefix to the neighbour, and one house's traffic went to the other. The same day with our box and routers (times in
seconds; the network may lose a copy, or hold it up for 30 seconds at most):
";

fn settings() -> Settings {
    Settings {
        pool_high: POOL,
        pool_low: 0,
        pool_length: 56,
        shortest: 56,
        standard: 60,
        preferred: 120,
        valid: 3_600,
        exclusion: false,
    }
}

/// The stage: every step is told in a line, and must come out as the proved story says.
struct Stage {
    world: World,
}

impl Stage {
    fn open() -> Result<Stage, String> {
        let lines = vec![Line::new("house", &[0xa, 0xa, 0xa], 1), Line::new("neighbour", &[0xb, 0xb, 0xb], 1)];
        let stage = Stage { world: World::start(&settings(), lines)? };
        stage.tell("box", "starts: lends a /60 of 2001:db8:0:aa00::/56, or more if wanted, for 3600 s");
        Ok(stage)
    }

    fn tell(&self, who: &str, what: &str) {
        println!("{:>6}  {who:<9}  {what}", self.world.now);
    }

    fn name(&self, line: usize) -> &str {
        &self.world.lines[line].name
    }

    fn bear(&mut self, line: usize) -> Result<(), String> {
        self.world.bear(line, 0)?;
        self.tell(self.name(line), "its router starts");
        self.world.check(line)
    }

    /// The clock goes on, and whatever is due by then arrives.
    fn until(&mut self, time: u64) -> Result<(), String> {
        while let Some(parcel) = self.world.network.next(time) {
            self.world.now = parcel.arrives;
            self.arrive(&parcel)?;
        }
        self.world.now = time;
        Ok(())
    }

    fn arrive(&mut self, parcel: &Parcel) -> Result<(), String> {
        let name = self.name(parcel.line).to_string();
        let age = match self.world.now - parcel.sent {
            0 => String::new(),
            seconds => format!(", {seconds} s old"),
        };
        let message = said(&parcel.message);
        let who = if parcel.to_box { "box" } else { &name };
        match self.world.arrive(parcel) {
            Arrived::Answered(answer) => {
                self.tell("box", &format!("gets the {name}'s {message}{age}; answers {}", said(&answer)));
                self.world.network.send(self.world.now, parcel.line, false, &answer, &[0]);
            }
            Arrived::Taken => {
                let router = self.world.lines[parcel.line].router.as_ref();
                let hold = router.and_then(|router| router.end.held(self.world.now));
                let until = hold.map_or(String::new(), |hold| format!("; holds it until {}", words::moment(hold.end)));
                self.tell(&name, &format!("takes the {message}{age}{until}"));
            }
            Arrived::NobodyThere => return Err(format!("no router is alive at the {name}")),
            Arrived::Refused(number) => {
                self.tell(who, &format!("passes over the {message}{age} ({number}: {})", words::refusal(number)));
            }
        }
        self.world.check(parcel.line)
    }

    /// The router sends, and the network makes these copies of it.
    fn sends(&mut self, line: usize, kind: u8, delays: &[u64]) -> Result<(), String> {
        let now = self.world.now;
        let router = self.world.lines[line].router.as_mut().ok_or("no router is alive")?;
        let again = router.end.open() == Some(kind);
        let sent = if again { router.end.resend(now) } else { router.end.begin(kind, now) };
        let message = sent.map_err(|number| format!("a {} was refused with {number}", words::kind(kind)))?;
        let verb = if again { "no answer yet: sends again its" } else { "sends" };
        let loses = if kind == RELEASE && !again { "; from now on it holds nothing" } else { "" };
        self.tell(self.name(line), &format!("{verb} {}{loses}", said(&message)));
        for delay in delays.iter().filter(|&&delay| delay > 0) {
            let fate = if *delay > LATEST { ", which is too long: it never comes" } else { "" };
            self.tell("network", &format!("holds a copy of it up for {delay} s{fate}"));
        }
        self.world.network.send(now, line, true, &message, delays);
        self.world.check(line)?;
        self.until(now)
    }

    /// The router would send, and its core says that it is too soon.
    fn too_soon(&mut self, line: usize, kind: u8, why: &str) -> Result<(), String> {
        let now = self.world.now;
        let router = self.world.lines[line].router.as_mut().ok_or("no router is alive")?;
        match router.end.begin(kind, now) {
            Err(12) => {
                let wish = words::kind(kind);
                self.tell(self.name(line), &format!("would send a {wish}: refused (12, too soon: {why})"));
                self.world.check(line)
            }
            _ => Err(format!("at {now} a {} wasn't refused with 12", words::kind(kind))),
        }
    }

    /// Both what the houses hold and what is bound in the box's table are as the story says: each line's prefix and end.
    fn stands(&self, told: &[(usize, &str, u64)]) -> Result<(), String> {
        let story: Vec<String> = told.iter().map(|&(line, prefix, end)| entry(self.name(line), prefix, end)).collect();
        let holders = self.world.holders().into_iter();
        let held: Vec<String> = holders.map(|(line, h)| entry(&line.name, &words::prefix(h.prefix), h.end)).collect();
        let owner = |record| self.world.owner(record).map_or("nobody", |line| &line.name);
        let records = self.world.bound().into_iter();
        let bound: Vec<String> = records.map(|r| entry(owner(r), &words::prefix(r.prefix), r.end)).collect();
        if held == story && bound == story {
            return Ok(());
        }
        Err(format!("at {} the story says {story:?}; held is {held:?}, bound is {bound:?}", self.world.now))
    }

    fn note(&self, words: &str) {
        println!("\n  {words}");
    }
}

fn entry(name: &str, prefix: &str, end: u64) -> String {
    format!("{name}: {prefix} until {end}")
}

fn first_hour(stage: &mut Stage) -> Result<(), String> {
    stage.bear(HOUSE)?;
    stage.bear(NEIGHBOUR)?;
    stage.note("The house asks, and gets a prefix for an hour.");
    stage.until(61)?;
    stage.sends(HOUSE, SOLICIT, &[0])?;
    stage.until(62)?;
    stage.sends(HOUSE, REQUEST, &[0])?;
    stage.stands(&[(HOUSE, AA00, 3_662)])
}

fn late_releases(stage: &mut Stage) -> Result<(), String> {
    stage.note("It gives the prefix back. The network holds the Release up.");
    stage.until(1_000)?;
    stage.sends(HOUSE, RELEASE, &[30, 31])?;
    stage.until(1_005)?;
    stage.sends(HOUSE, RELEASE, &[0, 30])?;
    stage.stands(&[])?;
    stage.note("Now it wants a prefix again. Here the accident began; our router has to wait.");
    stage.until(1_006)?;
    stage.too_soon(HOUSE, REQUEST, "two copies of its Release can still come")?;
    stage.note("Both come as late as they can, and free nothing: the house holds nothing, and nothing is bound.");
    stage.until(1_035)?;
    stage.stands(&[])
}

fn asking_again(stage: &mut Stage) -> Result<(), String> {
    stage.note(
        "60 seconds after the last Release is too soon; one second later the house asks, and gets its prefix back.",
    );
    stage.until(1_065)?;
    stage.too_soon(HOUSE, REQUEST, "60 s since its last Release")?;
    stage.until(1_066)?;
    stage.sends(HOUSE, REQUEST, &[0])?;
    stage.stands(&[(HOUSE, AA00, 4_666)])?;
    if stage.world.network.earliest().is_some() {
        return Err("a copy is still on its way".to_string());
    }
    stage.tell("network", "nothing is on its way: no copy of either Release can come any more");
    stage.note("The neighbour asks, and gets another prefix.");
    stage.until(1_070)?;
    stage.sends(NEIGHBOUR, SOLICIT, &[0])?;
    stage.until(1_071)?;
    stage.sends(NEIGHBOUR, REQUEST, &[0])?;
    stage.stands(&[(HOUSE, AA00, 4_666), (NEIGHBOUR, AA10, 4_671)])
}

pub fn run() -> Result<(), String> {
    println!("{INTRODUCTION}");
    let mut stage = Stage::open()?;
    first_hour(&mut stage)?;
    late_releases(&mut stage)?;
    asking_again(&mut stage)?;
    println!("\nThe box's table at {}, and who holds what:", stage.world.now);
    stage.world.print_table(words::moment);
    println!("Checked after each of {} steps: no two houses hold overlapping prefixes.", stage.world.checks);
    Ok(())
}

#[cfg(test)]
mod tests {
    #[test]
    fn comes_out_as_the_proved_story_says() {
        assert_eq!(super::run(), Ok(()));
    }
}
