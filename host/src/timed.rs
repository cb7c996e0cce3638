//! A router as a device runs it: the proved router, and the timers that make it step.

use crate::ends::{Refusal, RouterEnd};
use crate::timers::{Step, Timers, View};
use reference::generate::Random;

pub struct TimedRouter {
    pub end: RouterEnd,
    pub timers: Timers,
}

/// What a step came to.
pub enum Acted {
    Sent { kind: u8, again: bool, message: Vec<u8> },
    Abandoned(u8),
    Refused(u8, Refusal),
}

impl TimedRouter {
    pub fn start(duid: &[u8], iaid: u32, wanted: u64, now: u64) -> Result<TimedRouter, Refusal> {
        Ok(TimedRouter { end: RouterEnd::start(duid, iaid, wanted, now)?, timers: Timers::start(now) })
    }

    fn view(&self, now: u64) -> View {
        View {
            open: self.end.open(),
            knows_server: self.end.knows_server(),
            end: self.end.held(now).map(|hold| hold.end),
        }
    }

    /// No step is due before this moment, unless something is received.
    pub fn wake(&self, now: u64) -> u64 {
        self.timers.wake(self.view(now))
    }

    /// Takes the step that is due now, if one is.
    pub fn act(&mut self, now: u64, random: &mut Random) -> Option<Acted> {
        let view = self.view(now);
        match self.timers.due(view, now)? {
            Step::Begin(kind) => Some(self.begin(kind, now, random)),
            Step::Resend => Some(self.resend(view.open?, now, random)),
            Step::Abandon => Some(self.abandon(view.open?, now)),
        }
    }

    fn begin(&mut self, kind: u8, now: u64, random: &mut Random) -> Acted {
        match self.end.begin(kind, now) {
            Ok(message) => {
                self.timers.began(kind, now, random);
                Acted::Sent { kind, again: false, message }
            }
            Err(number) => self.refused(kind, number, now),
        }
    }

    fn resend(&mut self, kind: u8, now: u64, random: &mut Random) -> Acted {
        match self.end.resend(now) {
            Ok(message) => {
                self.timers.sent(kind, now, random);
                Acted::Sent { kind, again: true, message }
            }
            Err(number) => self.refused(kind, number, now),
        }
    }

    fn abandon(&mut self, kind: u8, now: u64) -> Acted {
        match self.end.abandon(now) {
            Ok(()) => {
                self.timers.abandoned(kind, now);
                Acted::Abandoned(kind)
            }
            Err(number) => self.refused(kind, number, now),
        }
    }

    fn refused(&mut self, kind: u8, number: Refusal, now: u64) -> Acted {
        self.timers.refused(now);
        Acted::Refused(kind, number)
    }

    /// Takes a message if it is the one awaited: the kind of the exchange that it closed.
    pub fn receive(&mut self, now: u64, message: &[u8]) -> Result<u8, Refusal> {
        let open = self.end.open();
        self.end.receive(now, message)?;
        let kind = open.ok_or(14u64)?;
        self.timers.answered(kind, message, self.end.held(now).is_some(), now);
        Ok(kind)
    }
}
