//! A second, independent implementation of the delegating **box** and the requesting **router**, written from
//! document 01 (the rules), OPEN-DECISIONS (what they leave open), INTERFACE.md (calls and layouts), RFC 6603
//! and RFC 3633. It exists to be compared with another library, call by call and byte by byte.
//!
//! Every call works on a decoded copy and writes the lent bytes only once nothing can be refused any more.

pub mod boxed;
pub mod choose;
pub mod generate;
pub mod prefix;
pub mod router;
pub mod table;
pub mod wire;

pub use boxed::{pd_box_handle, pd_box_live, pd_box_record, pd_box_start};
pub use router::{
    pd_router_abandon, pd_router_held, pd_router_rebind, pd_router_receive, pd_router_release, pd_router_renew,
    pd_router_request, pd_router_resend, pd_router_solicit, pd_router_start,
};

/// Bytes of the lent table.
pub const TABLE_BYTES: usize = 39_344;
/// Bytes of a lent router's state.
pub const STATE_BYTES: usize = 384;
/// Bytes of one record, in the table and as `pd_box_record` shows it.
pub const RECORD_BYTES: usize = 153;
/// Bytes of a hold, in the state and as `pd_router_held` shows it.
pub const HOLD_BYTES: usize = 42;
/// The room a message or an answer needs at least.
pub const ROOM_BYTES: usize = 512;

pub type TableBytes = [u8; TABLE_BYTES];
pub type StateBytes = [u8; STATE_BYTES];

/// Every accepted time is below this.
pub const TIME_LIMIT: u64 = 1 << 48;
/// Every end is below this, or `NEVER`.
pub const END_LIMIT: u64 = 1 << 49;
/// The end that never comes.
pub const NEVER: u64 = u64::MAX;
/// The lifetime that means for ever.
pub const FOR_EVER: u32 = 0xFFFF_FFFF;

/// The kinds of message, by type number.
pub const SOLICIT: u8 = 1;
pub const ADVERTISE: u8 = 2;
pub const REQUEST: u8 = 3;
pub const RENEW: u8 = 5;
pub const REBIND: u8 = 6;
pub const REPLY: u8 = 7;
pub const RELEASE: u8 = 8;

/// The word of a refusal: its number times 65,536, length 0.
pub const fn refused(number: u8) -> u64 {
    number as u64 * 65_536
}

/// The word of a success: number 0 and the length.
pub const fn done(length: usize) -> u64 {
    length as u64
}

/// A moment plus a lifetime: the end. A lifetime for ever gives never.
pub const fn end_of(moment: u64, lifetime: u32) -> u64 {
    if lifetime == FOR_EVER {
        NEVER
    } else {
        moment + lifetime as u64
    }
}
