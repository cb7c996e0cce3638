//! The proved library for Rust: its C interface (include/arsurimo.h) behind references and slices, nothing added.
//! Each call returns the word: the refusal's number times 65,536, plus a length.

/// Bytes of the box's table.
pub const TABLE: usize = 39_344;
/// Bytes of a router's state.
pub const ROUTER: usize = 384;

pub type Table = [u8; TABLE];
pub type State = [u8; ROUTER];

mod c {
    use super::{State, Table};
    extern "C" {
        pub fn pd_box_start(
            table: &mut Table,
            pool_high: u64,
            pool_low: u64,
            pool_length: u64,
            shortest: u64,
            standard: u64,
            preferred: u32,
            valid: u32,
            exclusion: bool,
            duid: *const u8,
            duid_length: usize,
            now: u64,
        ) -> u64;
        pub fn pd_box_handle(
            table: &mut Table,
            now: u64,
            message: *const u8,
            message_length: usize,
            answer: *mut u8,
            answer_length: usize,
        ) -> u64;
        pub fn pd_box_live(table: &Table, now: u64) -> u64;
        pub fn pd_box_record(table: &Table, index: u64, room: *mut u8, room_length: usize) -> u64;
        pub fn pd_router_start(
            state: &mut State,
            duid: *const u8,
            duid_length: usize,
            iaid: u32,
            wanted: u64,
            now: u64,
        ) -> u64;
        pub fn pd_router_solicit(state: &mut State, now: u64, message: *mut u8, message_length: usize) -> u64;
        pub fn pd_router_request(state: &mut State, now: u64, message: *mut u8, message_length: usize) -> u64;
        pub fn pd_router_renew(state: &mut State, now: u64, message: *mut u8, message_length: usize) -> u64;
        pub fn pd_router_rebind(state: &mut State, now: u64, message: *mut u8, message_length: usize) -> u64;
        pub fn pd_router_release(state: &mut State, now: u64, message: *mut u8, message_length: usize) -> u64;
        pub fn pd_router_resend(state: &mut State, now: u64, message: *mut u8, message_length: usize) -> u64;
        pub fn pd_router_abandon(state: &mut State, now: u64) -> u64;
        pub fn pd_router_receive(state: &mut State, now: u64, message: *const u8, message_length: usize) -> u64;
        pub fn pd_router_held(state: &State, now: u64, room: *mut u8, room_length: usize) -> u64;
    }
}

/// What `box_start` is given beside the table, the DUID and the time.
#[derive(Clone, Copy, Debug, PartialEq, Eq)]
pub struct Settings {
    pub pool_high: u64,
    pub pool_low: u64,
    pub pool_length: u64,
    pub shortest: u64,
    pub standard: u64,
    pub preferred: u32,
    pub valid: u32,
    pub exclusion: bool,
}

/// Writes an empty table. Refuses with 10, 1.
pub fn box_start(table: &mut Table, s: &Settings, duid: &[u8], now: u64) -> u64 {
    unsafe {
        c::pd_box_start(
            table,
            s.pool_high,
            s.pool_low,
            s.pool_length,
            s.shortest,
            s.standard,
            s.preferred,
            s.valid,
            s.exclusion,
            duid.as_ptr(),
            duid.len(),
            now,
        )
    }
}

/// Handles a message and writes the answer. Refuses with 9, 1, 2, 3, 4, 5, 6, 7, 8.
pub fn box_handle(table: &mut Table, now: u64, message: &[u8], answer: &mut [u8]) -> u64 {
    unsafe { c::pd_box_handle(table, now, message.as_ptr(), message.len(), answer.as_mut_ptr(), answer.len()) }
}

/// The number of records live at now. Refuses with 9, 1.
pub fn box_live(table: &Table, now: u64) -> u64 {
    unsafe { c::pd_box_live(table, now) }
}

/// Shows the record at that place. Refuses with 9, 2.
pub fn box_record(table: &Table, index: u64, room: &mut [u8]) -> u64 {
    unsafe { c::pd_box_record(table, index, room.as_mut_ptr(), room.len()) }
}

/// Writes a fresh state. Refuses with 10, 1.
pub fn router_start(state: &mut State, duid: &[u8], iaid: u32, wanted: u64, now: u64) -> u64 {
    unsafe { c::pd_router_start(state, duid.as_ptr(), duid.len(), iaid, wanted, now) }
}

/// Begins an exchange with a Solicit. Refuses with 9, 1, 2, 11, 12.
pub fn router_solicit(state: &mut State, now: u64, message: &mut [u8]) -> u64 {
    unsafe { c::pd_router_solicit(state, now, message.as_mut_ptr(), message.len()) }
}

/// Begins an exchange with a Request. Refuses with 9, 1, 2, 11, 12, 13; so do the next three.
pub fn router_request(state: &mut State, now: u64, message: &mut [u8]) -> u64 {
    unsafe { c::pd_router_request(state, now, message.as_mut_ptr(), message.len()) }
}

pub fn router_renew(state: &mut State, now: u64, message: &mut [u8]) -> u64 {
    unsafe { c::pd_router_renew(state, now, message.as_mut_ptr(), message.len()) }
}

pub fn router_rebind(state: &mut State, now: u64, message: &mut [u8]) -> u64 {
    unsafe { c::pd_router_rebind(state, now, message.as_mut_ptr(), message.len()) }
}

pub fn router_release(state: &mut State, now: u64, message: &mut [u8]) -> u64 {
    unsafe { c::pd_router_release(state, now, message.as_mut_ptr(), message.len()) }
}

/// Writes the open exchange's message again. Refuses with 9, 1, 2, 13.
pub fn router_resend(state: &mut State, now: u64, message: &mut [u8]) -> u64 {
    unsafe { c::pd_router_resend(state, now, message.as_mut_ptr(), message.len()) }
}

/// Closes the open exchange. Refuses with 9, 1, 13.
pub fn router_abandon(state: &mut State, now: u64) -> u64 {
    unsafe { c::pd_router_abandon(state, now) }
}

/// Takes the message awaited. Refuses with 9, 1, 14.
pub fn router_receive(state: &mut State, now: u64, message: &[u8]) -> u64 {
    unsafe { c::pd_router_receive(state, now, message.as_ptr(), message.len()) }
}

/// Shows what is held and hasn't ended. Refuses with 9, 1, 2.
pub fn router_held(state: &State, now: u64, room: &mut [u8]) -> u64 {
    unsafe { c::pd_router_held(state, now, room.as_mut_ptr(), room.len()) }
}
