//! The box, the lines and the network between them; what is promised of them, checked; and the table at the end.

use super::network::{Network, Parcel};
use crate::ends::{BoxEnd, Hold, Refusal};
use crate::timed::TimedRouter;
use crate::words;
use host::Settings;
use reference::table::Record;
use reference::REPLY;

pub const BOX_DUID: &[u8] = &[0xb0, 0xb0, 0xb0];

/// A house: its identity, and the router that is alive there.
pub struct Line {
    pub name: String,
    pub duid: Vec<u8>,
    pub iaid: u32,
    pub router: Option<TimedRouter>,
    /// What the router held when it last took a step.
    held: Option<Hold>,
}

impl Line {
    pub fn new(name: &str, duid: &[u8], iaid: u32) -> Line {
        Line { name: name.to_string(), duid: duid.to_vec(), iaid, router: None, held: None }
    }

    fn holds(&self, now: u64) -> Option<Hold> {
        self.held.filter(|hold| hold.end > now)
    }
}

pub struct World {
    pub now: u64,
    pub network: Network,
    pub lines: Vec<Line>,
    box_end: BoxEnd,
    records: Vec<Record>,
    /// How often the promise was checked.
    pub checks: usize,
}

/// What became of a copy that arrived.
pub enum Arrived {
    Answered(Vec<u8>),
    Taken,
    NobodyThere,
    Refused(Refusal),
}

impl World {
    pub fn start(settings: &Settings, lines: Vec<Line>) -> Result<World, String> {
        let box_end = BoxEnd::start(settings, BOX_DUID, 0).map_err(bad_start)?;
        Ok(World { now: 0, network: Network::default(), lines, box_end, records: Vec::new(), checks: 0 })
    }

    /// A router comes alive on the line.
    pub fn bear(&mut self, line: usize, wanted: u64) -> Result<(), String> {
        let house = &mut self.lines[line];
        house.router = Some(TimedRouter::start(&house.duid, house.iaid, wanted, self.now).map_err(bad_start)?);
        house.held = None;
        Ok(())
    }

    pub fn kill(&mut self, line: usize) {
        self.lines[line].router = None;
        self.lines[line].held = None;
    }

    /// The copy reaches the box or the router; an answer is the caller's to send.
    pub fn arrive(&mut self, parcel: &Parcel) -> Arrived {
        if parcel.to_box {
            let answered = self.box_end.handle(self.now, &parcel.message);
            // An Advertise binds nothing.
            if answered.as_ref().is_ok_and(|answer| answer[0] == REPLY) {
                self.records = self.box_end.records();
            }
            return answered.map_or_else(Arrived::Refused, Arrived::Answered);
        }
        match &mut self.lines[parcel.line].router {
            Some(router) => router.receive(self.now, &parcel.message).map_or_else(Arrived::Refused, |_| Arrived::Taken),
            None => Arrived::NobodyThere,
        }
    }

    /// To be called after every step: what the line's router holds now, and whether the promise stands.
    pub fn check(&mut self, stepped: usize) -> Result<(), String> {
        let line = &mut self.lines[stepped];
        line.held = line.router.as_ref().and_then(|router| router.end.held(self.now));
        self.checks += 1;
        promise(&self.holders(), &self.records).map_err(|broken| format!("at {}: {broken}", self.now))
    }

    /// The lines that hold a prefix now.
    pub fn holders(&self) -> Vec<(&Line, Hold)> {
        self.lines.iter().filter_map(|line| Some((line, line.holds(self.now)?))).collect()
    }

    pub fn live(&self) -> usize {
        self.box_end.live(self.now).unwrap_or(0)
    }

    /// The records that are live.
    pub fn bound(&self) -> Vec<&Record> {
        self.records.iter().filter(|record| record.is_live(self.now)).collect()
    }

    /// The house that a record is bound to.
    pub fn owner(&self, record: &Record) -> Option<&Line> {
        self.lines.iter().find(|line| record.is_of(&line.duid, line.iaid))
    }

    /// Each record that is live, and beside it what its house holds.
    pub fn print_table(&self, time: fn(u64) -> String) {
        println!("  {:<11} {:<52} {:<14} the house holds it until", "bound to", "prefix", "bound until");
        for record in self.bound() {
            let line = self.owner(record);
            let name = line.map_or("nobody", |line| &line.name);
            let prefix = words::delegation(record.prefix, record.excluded());
            let hold = line.and_then(|line| line.holds(self.now));
            let until = hold.map_or("doesn't hold it".to_string(), |hold| time(hold.end));
            println!("  {name:<11} {prefix:<52} {:<14} {until}", time(record.end));
        }
    }
}

fn bad_start(number: Refusal) -> String {
    format!("the start was refused with {number}: {}", words::refusal(number))
}

/// No two hold overlapping prefixes, and what each holds is bound to it, with the same excluded prefix, at least as long.
fn promise(holders: &[(&Line, Hold)], records: &[Record]) -> Result<(), String> {
    for (at, (line, hold)) in holders.iter().enumerate() {
        if let Some((other, _)) = holders[..at].iter().find(|(_, other)| other.prefix.overlaps(hold.prefix)) {
            return Err(format!("{} and {} hold overlapping prefixes", other.name, line.name));
        }
        let bound = |record: &Record| {
            record.is_of(&line.duid, line.iaid)
                && record.prefix == hold.prefix
                && record.excluded() == hold.excluded
                && record.end >= hold.end
        };
        if !records.iter().any(bound) {
            return Err(format!("{} holds {}, which isn't bound to it", line.name, words::prefix(hold.prefix)));
        }
    }
    Ok(())
}

#[cfg(test)]
mod tests {
    use super::*;
    use reference::prefix::Prefix;
    use reference::table::Duid;

    fn held(last: u128, length: u8) -> Hold {
        Hold { prefix: Prefix::new((0x2001_0db8_0000_0000 + last) << 64, length), excluded: None, end: 100 }
    }

    fn bound(line: &Line, hold: Hold, end: u64) -> Record {
        let duid = Duid::new(&line.duid).expect("a good DUID");
        Record { duid, iaid: line.iaid, prefix: hold.prefix, excludes: false, end }
    }

    #[test]
    fn a_broken_promise_is_seen() {
        let (house, other) = (Line::new("house", b"aaa", 1), Line::new("neighbour", b"bbb", 1));
        let (wide, narrow, apart) = (held(0xaa00, 58), held(0xaa10, 60), held(0xaa40, 60));
        let records = [bound(&house, wide, 100), bound(&other, narrow, 100), bound(&other, apart, 100)];
        assert_eq!(promise(&[(&house, wide), (&other, apart)], &records), Ok(()));
        assert!(promise(&[(&house, wide), (&other, narrow)], &records).unwrap_err().contains("overlapping"));
        assert!(promise(&[(&house, apart)], &records).unwrap_err().contains("isn't bound"));
        assert!(promise(&[(&house, wide)], &[bound(&house, wide, 99)]).is_err(), "the house outlives the box");
    }
}
