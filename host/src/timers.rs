//! When a router takes its next step: the waits, growing pauses, T1, T2 and the end, which the core leaves to its caller
//! (RFC 3315, 14 and 18.1, in whole seconds). What may be sent is the core's to judge: a step that it refuses is tried again
//! a second later.

use reference::generate::Random;
use reference::wire::read_message;
use reference::{FOR_EVER, NEVER, REBIND, RELEASE, RENEW, REQUEST, SOLICIT};

/// The core refuses a new exchange for so long after a start or a Release.
const WAIT: u64 = 61;
/// The pause before a new Solicit where the box had no prefix to give.
const EMPTY_HANDED: u64 = 60;

/// What the timers ask for.
#[derive(Clone, Copy, Debug, PartialEq, Eq)]
pub enum Step {
    Begin(u8),
    Resend,
    Abandon,
}

/// What the timers look at in the router's state.
#[derive(Clone, Copy, Debug, Default)]
pub struct View {
    pub open: Option<u8>,
    pub knows_server: bool,
    /// The end of what is held and hasn't ended.
    pub end: Option<u64>,
}

/// First pause, longest pause, most sendings.
fn pauses(kind: u8) -> (u64, u64, u32) {
    match kind {
        // Where the box has no prefix the Solicit stays open, and is sent again until it has one.
        SOLICIT => (1, 120, u32::MAX),
        REQUEST => (1, 30, 10),
        RELEASE => (1, 30, 5),
        _ => (10, 600, u32::MAX),
    }
}

#[derive(Clone, Debug)]
pub struct Timers {
    /// A prefix is wanted; if not, what is held is given back.
    pub wants: bool,
    /// Solicit or Request, whichever comes next without a prefix.
    ask: u8,
    /// No new exchange and no resending before this moment.
    at: u64,
    began: u64,
    pause: u64,
    sendings: u32,
    t1: u64,
    t2: u64,
}

impl Timers {
    pub fn start(now: u64) -> Timers {
        Timers { wants: true, ask: SOLICIT, at: now + WAIT, began: now, pause: 0, sendings: 0, t1: NEVER, t2: NEVER }
    }

    /// The step that is due now.
    pub fn due(&self, view: View, now: u64) -> Option<Step> {
        match view.open {
            Some(kind) if self.is_given_up(kind, view, now) => Some(Step::Abandon),
            Some(_) if now >= self.at => Some(Step::Resend),
            None if now >= self.at => self.next_kind(view, now).map(Step::Begin),
            _ => None,
        }
    }

    /// No step is due before this moment (which may be past), unless something is received.
    pub fn wake(&self, view: View) -> u64 {
        let end = view.end.unwrap_or(NEVER);
        match view.open {
            Some(kind) if !self.wants && kind != RELEASE => 0,
            Some(RENEW) => self.at.min(self.t2).min(end),
            Some(REBIND) => self.at.min(end),
            Some(_) => self.at,
            None if self.wants && view.end.is_some() => self.at.max(self.t1.min(self.t2).min(end)),
            None if self.wants || view.end.is_some() => self.at,
            None => NEVER,
        }
    }

    fn is_given_up(&self, kind: u8, view: View, now: u64) -> bool {
        let (_, _, most) = pauses(kind);
        let tired = self.sendings >= most && now >= self.at;
        let late = match kind {
            RENEW => now >= self.t2 || view.end.is_none(),
            REBIND => view.end.is_none(),
            _ => false,
        };
        tired || late || (!self.wants && kind != RELEASE)
    }

    fn next_kind(&self, view: View, now: u64) -> Option<u8> {
        match view.end {
            Some(_) if !self.wants => Some(RELEASE),
            Some(_) if now >= self.t2 => Some(REBIND),
            Some(_) if now >= self.t1 => Some(RENEW),
            Some(_) => None,
            None if !self.wants => None,
            None if view.knows_server => Some(self.ask),
            None => Some(SOLICIT),
        }
    }

    // ------------------------------------------------------------ what happened

    pub fn began(&mut self, kind: u8, now: u64, random: &mut Random) {
        self.began = now;
        self.sendings = 0;
        self.pause = 0;
        self.sent(kind, now, random);
    }

    /// A sending, the first or a later one. Each pause is twice the last, and up to a tenth longer: houses drift apart.
    pub fn sent(&mut self, kind: u8, now: u64, random: &mut Random) {
        let (first, longest, _) = pauses(kind);
        self.sendings += 1;
        self.pause = (2 * self.pause).clamp(first, longest);
        self.at = now + self.pause + random.below(self.pause / 10 + 1);
    }

    pub fn refused(&mut self, now: u64) {
        self.at = now + 1;
    }

    pub fn abandoned(&mut self, kind: u8, now: u64) {
        if matches!(kind, REQUEST | REBIND) {
            self.ask = SOLICIT;
        }
        self.at = self.pause_after(kind, now);
    }

    fn pause_after(&self, kind: u8, now: u64) -> u64 {
        match kind {
            RELEASE => now + WAIT,
            _ => now.max(self.began + 1),
        }
    }

    /// The answer of an exchange of this kind was accepted; `holds` says whether a prefix is held now.
    pub fn answered(&mut self, kind: u8, message: &[u8], holds: bool, now: u64) {
        self.ask = REQUEST;
        self.at = self.pause_after(kind, now);
        if kind == REQUEST && !holds {
            self.ask = SOLICIT;
            self.at = now + EMPTY_HANDED;
        }
        if matches!(kind, REQUEST | RENEW | REBIND) {
            let (t1, t2) = renewal(message);
            self.t1 = after(self.began, t1);
            self.t2 = after(self.began, t2);
        }
    }
}

/// T1 and T2 of an accepted Reply; where they are 0, half and four fifths of the preferred lifetime.
fn renewal(message: &[u8]) -> (u32, u32) {
    let read = read_message(message).ok();
    let Some(ia) = read.as_ref().and_then(|read| read.ia_pds.first()) else {
        return (FOR_EVER, FOR_EVER);
    };
    let usable = ia.prefixes.iter().find(|listed| listed.valid > 0 && listed.preferred <= listed.valid);
    let preferred = usable.map_or(FOR_EVER, |listed| listed.preferred);
    let own = |tenths: u64| match preferred {
        FOR_EVER => FOR_EVER,
        _ => (preferred as u64 * tenths / 10) as u32,
    };
    let chosen = |given: u32, tenths: u64| if given == 0 { own(tenths) } else { given };
    (chosen(ia.t1, 5), chosen(ia.t2, 8))
}

fn after(moment: u64, lifetime: u32) -> u64 {
    match lifetime {
        FOR_EVER => NEVER,
        _ => moment + lifetime as u64,
    }
}

#[cfg(test)]
mod tests {
    use super::*;
    use reference::prefix::Prefix;
    use reference::wire::{ia_pd_option, ia_prefix_option};

    fn reply(t1: u32, t2: u32, preferred: u32) -> Vec<u8> {
        let prefix = Prefix::new(0x2001_0db8_0000_aa00 << 64, 60);
        let listed = ia_prefix_option(preferred, preferred, prefix, None).expect("it has an encoding");
        let mut message = vec![7, 0, 0, 0];
        message.extend(ia_pd_option(1, t1, t2, &listed).expect("it is short"));
        message
    }

    fn open(kind: u8, end: Option<u64>) -> View {
        View { open: Some(kind), knows_server: true, end }
    }

    fn holding(end: u64) -> View {
        View { open: None, knows_server: true, end: Some(end) }
    }

    #[test]
    fn waits_after_the_start() {
        let timers = Timers::start(100);
        assert_eq!(timers.due(View::default(), 160), None);
        assert_eq!(timers.due(View::default(), 161), Some(Step::Begin(SOLICIT)));
        assert_eq!(timers.wake(View::default()), 161);
    }

    #[test]
    fn pauses_grow_and_end() {
        let mut timers = Timers::start(0);
        let mut random = Random::new(1);
        timers.began(REQUEST, 100, &mut random);
        let mut now = 100;
        for pause in [1, 2, 4, 8, 16] {
            assert_eq!(timers.due(open(REQUEST, None), now + pause - 1), None);
            now = timers.wake(open(REQUEST, None));
            assert_eq!(timers.due(open(REQUEST, None), now), Some(Step::Resend));
            timers.sent(REQUEST, now, &mut random);
        }
        for _ in 6..10 {
            now = timers.wake(open(REQUEST, None));
            assert_eq!(timers.due(open(REQUEST, None), now), Some(Step::Resend));
            timers.sent(REQUEST, now, &mut random);
        }
        let last = timers.wake(open(REQUEST, None));
        assert!((30..=33).contains(&(last - now)), "the longest pause is 30, and up to a tenth more");
        assert_eq!(timers.due(open(REQUEST, None), last), Some(Step::Abandon));
        timers.abandoned(REQUEST, last);
        assert_eq!(timers.due(View { knows_server: true, ..View::default() }, last), Some(Step::Begin(SOLICIT)));
    }

    #[test]
    fn renews_rebinds_and_asks_again() {
        let mut timers = Timers::start(0);
        let mut random = Random::new(1);
        timers.began(REQUEST, 100, &mut random);
        timers.answered(REQUEST, &reply(60, 96, 120), true, 105);
        assert_eq!(timers.due(holding(220), 159), None);
        assert_eq!(timers.wake(holding(220)), 160);
        assert_eq!(timers.due(holding(220), 160), Some(Step::Begin(RENEW)), "T1 counts from the first sending");
        timers.began(RENEW, 160, &mut random);
        assert_eq!(timers.due(open(RENEW, Some(220)), 195), Some(Step::Resend));
        assert_eq!(timers.due(open(RENEW, Some(220)), 196), Some(Step::Abandon), "T2");
        timers.abandoned(RENEW, 196);
        assert_eq!(timers.due(holding(220), 196), Some(Step::Begin(REBIND)));
        timers.began(REBIND, 196, &mut random);
        assert_eq!(timers.due(open(REBIND, None), 220), Some(Step::Abandon), "the end");
        timers.abandoned(REBIND, 220);
        assert_eq!(timers.due(View { knows_server: true, ..View::default() }, 220), Some(Step::Begin(SOLICIT)));
    }

    #[test]
    fn gives_back_when_nothing_is_wanted() {
        let mut timers = Timers::start(0);
        timers.wants = false;
        assert_eq!(timers.due(holding(900), 61), Some(Step::Begin(RELEASE)));
        assert_eq!(timers.due(open(RENEW, Some(900)), 61), Some(Step::Abandon));
        assert_eq!(timers.wake(open(RENEW, Some(900))), 0);
        assert_eq!(timers.due(View::default(), 61), None);
        timers.began(RELEASE, 61, &mut Random::new(1));
        timers.answered(RELEASE, &[7, 0, 0, 0], false, 62);
        timers.wants = true;
        let view = View { knows_server: true, ..View::default() };
        assert_eq!(timers.due(view, 122), None);
        assert_eq!(timers.due(view, 123), Some(Step::Begin(REQUEST)));
    }

    #[test]
    fn t1_and_t2_of_zero_and_for_ever() {
        assert_eq!(renewal(&reply(0, 0, 121)), (60, 96));
        assert_eq!(renewal(&reply(0, 0, FOR_EVER)), (FOR_EVER, FOR_EVER));
        assert_eq!(renewal(&reply(7, 9, 121)), (7, 9));
        assert_eq!(renewal(b"\x07"), (FOR_EVER, FOR_EVER));
        assert_eq!(after(5, FOR_EVER), NEVER);
    }
}
