//! Part 3: the accident, scripted. A pool of one prefix; a house gives it back, a copy of its Release comes late, the house asks
//! again, the neighbour asks. Whoever frees on the late copy lends one prefix to two houses.

use crate::both::Library;
use crate::calls::Call;
use crate::world::{held_at, records, Line, Sent, World};
use host::Settings;
use reference::generate::Random;
use reference::{RELEASE, REQUEST, SOLICIT};

const HOUSE: usize = 0;
const NEIGHBOUR: usize = 1;
const ROOM: usize = 512;
const TOO_SOON: u64 = 12;

/// The pool is one /56, lent for an hour.
const ONE: Settings = Settings {
    pool_high: 0x2001_0db8_0000_aa00,
    pool_low: 0,
    pool_length: 56,
    shortest: 56,
    standard: 56,
    preferred: 3_600,
    valid: 3_600,
    exclusion: false,
};

struct Story<'l, L: Library> {
    world: World<'l, L>,
}

impl<'l, L: Library> Story<'l, L> {
    /// The box and both routers start at 0.
    fn new(library: &'l mut L) -> Story<'l, L> {
        let line = |iaid| Line { duid: b"a house".to_vec(), iaid, state: None };
        let mut world = World::started(Random::new(1), library, ONE, vec![line(1), line(2)], 0);
        world.bear(HOUSE, 0);
        world.bear(NEIGHBOUR, 0);
        Story { world }
    }

    fn at(&mut self, now: u64) {
        self.world.now = now;
    }

    fn begins(&mut self, line: usize, kind: u8) -> Result<Sent, u64> {
        let now = self.world.now;
        self.world.router(line, Call::RouterSend { kind, now, room: ROOM })
    }

    /// The exchange is begun; the message that is sent.
    fn sends(&mut self, line: usize, kind: u8) -> Sent {
        let now = self.world.now;
        self.begins(line, kind).unwrap_or_else(|number| panic!("type {kind} at {now} is refused with {number}"))
    }

    /// It is too soon to begin the exchange.
    fn has_to_wait(&mut self, line: usize, kind: u8) {
        let refusal = self.begins(line, kind).err();
        assert_eq!(refusal, Some(TOO_SOON), "type {kind} at {}", self.world.now);
    }

    /// A copy reaches the box; its answer.
    fn serves(&mut self, copy: &Sent) -> Sent {
        self.world.arrive(copy).expect("answered")
    }

    /// A whole exchange within this second.
    fn exchange(&mut self, line: usize, kind: u8) {
        let asked = self.sends(line, kind);
        let answer = self.serves(&asked);
        self.world.arrive(&answer);
    }

    fn holds(&self, line: usize) -> bool {
        held_at(self.world.lines[line].state.as_ref().expect("alive"), self.world.now).is_some()
    }

    /// Who holds the prefix, who it is bound to (by IAID), and demand 3.
    fn stands(&mut self, house: bool, neighbour: bool, bound: &[u32]) {
        let now = self.world.now;
        assert_eq!((self.holds(HOUSE), self.holds(NEIGHBOUR)), (house, neighbour), "who holds at {now}");
        let iaids: Vec<u32> = records(&self.world.table).iter().map(|record| record.iaid).collect();
        assert_eq!(iaids, bound, "who is bound at {now}");
        assert_eq!(self.world.demand_3(), Ok(()), "at {now}");
    }

    /// The house is lent the prefix at 62 and gives it back at 1,000: the message of the Release, which is on its way.
    fn gives_back(&mut self) -> Sent {
        self.at(60);
        self.has_to_wait(HOUSE, SOLICIT);
        self.at(61);
        self.exchange(HOUSE, SOLICIT);
        self.stands(false, false, &[]);
        self.at(62);
        self.exchange(HOUSE, REQUEST);
        self.stands(true, false, &[1]);
        self.at(1_000);
        let release = self.sends(HOUSE, RELEASE);
        self.stands(false, false, &[1]);
        release
    }

    /// The neighbour asks for a prefix; whether it is given the only one.
    fn neighbour_asks(&mut self) -> bool {
        let asked = self.sends(NEIGHBOUR, SOLICIT);
        let offer = self.serves(&asked);
        self.world.arrive(&offer);
        if offer.message.ends_with(b"NoPrefixAvail") {
            let now = self.world.now;
            assert_eq!(self.world.router(NEIGHBOUR, Call::RouterAbandon { now }).err(), Some(0));
            return false;
        }
        self.world.now += 1;
        self.exchange(NEIGHBOUR, REQUEST);
        true
    }
}

/// The first copy frees, the second comes as late as it can: the house has to wait longer than that.
fn late_copy(library: &mut impl Library) {
    let mut story = Story::new(library);
    let release = story.gives_back();
    story.at(1_001);
    let success = story.serves(&release);
    story.world.arrive(&success);
    story.stands(false, false, &[]);
    for now in [1_001, 1_030, 1_060] {
        story.at(now);
        story.has_to_wait(HOUSE, REQUEST);
        if now == 1_030 {
            let answer = story.serves(&release);
            assert!(answer.message.ends_with(b"NoBinding"));
        }
    }
    story.at(1_061);
    story.exchange(HOUSE, REQUEST);
    story.stands(true, false, &[1]);
    story.at(1_062);
    assert!(!story.neighbour_asks(), "the only prefix is the house's");
    story.stands(true, false, &[1]);
}

/// The only copy comes late, and the house has been restarted meanwhile.
fn restarted(library: &mut impl Library) {
    let mut story = Story::new(library);
    let release = story.gives_back();
    story.at(1_002);
    story.world.lines[HOUSE].state = None;
    story.world.bear(HOUSE, 0);
    for now in [1_003, 1_030, 1_062] {
        story.at(now);
        story.has_to_wait(HOUSE, SOLICIT);
        if now == 1_030 {
            story.serves(&release);
            story.stands(false, false, &[]);
            assert!(story.neighbour_asks(), "free again");
            story.stands(false, true, &[2]);
        }
    }
    story.at(1_063);
    let asked = story.sends(HOUSE, SOLICIT);
    assert!(story.serves(&asked).message.ends_with(b"NoPrefixAvail"));
    story.stands(false, true, &[2]);
}

/// The same Release after the 30 seconds of demand 3, when the house holds the prefix again: the accident happens, and the
/// check of demand 3 sees it. So the check isn't blind, and the bound isn't idle.
fn beyond_the_bound(library: &mut impl Library) {
    let mut story = Story::new(library);
    let release = story.gives_back();
    story.at(1_001);
    let success = story.serves(&release);
    story.world.arrive(&success);
    story.at(1_061);
    story.exchange(HOUSE, REQUEST);
    story.stands(true, false, &[1]);
    story.at(1_062);
    story.serves(&release);
    let unbound = story.world.demand_3().expect_err("freed under the house");
    assert!(unbound.contains("isn't bound"), "{unbound}");
    assert!(story.neighbour_asks(), "lent again");
    assert!(story.holds(HOUSE) && story.holds(NEIGHBOUR), "one prefix in two houses");
    story.world.demand_3().expect_err("two houses");
}

/// All three stories.
pub fn run(library: &mut impl Library) {
    late_copy(library);
    restarted(library);
    beyond_the_bound(library);
}
