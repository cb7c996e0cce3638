//! The UDP socket on one interface, or wherever it listens.

use super::ALL_BOXES;
use std::ffi::{c_char, CString};
use std::io::ErrorKind::{Interrupted, TimedOut, WouldBlock};
use std::net::{Ipv6Addr, SocketAddr, SocketAddrV6, UdpSocket};
use std::time::Duration;

extern "C" {
    fn if_nametoindex(name: *const c_char) -> u32;
}

pub struct Link {
    socket: UdpSocket,
    /// The interface's number, 0 for none.
    index: u32,
}

impl Link {
    /// Listens there, on the interface of this number, 0 for any. A wait for a message ends after the pause.
    pub fn open(listen: SocketAddrV6, index: u32, pause: Duration) -> Result<Link, String> {
        let listen = on_interface(listen, index);
        let socket = UdpSocket::bind(listen).map_err(|why| format!("can't listen on {listen}: {why}"))?;
        socket.set_read_timeout(Some(pause)).map_err(|why| why.to_string())?;
        Ok(Link { socket, index })
    }

    /// Where an interface is named: hears what is sent to all boxes on it.
    pub fn join_boxes(&self) -> Result<(), String> {
        if self.index == 0 {
            return Ok(());
        }
        let joined = self.socket.join_multicast_v6(&ALL_BOXES, self.index);
        joined.map_err(|why| format!("can't join {ALL_BOXES}: {why}"))
    }

    /// The next message and its sender, or none within the pause. What comes in by another interface isn't ours.
    pub fn receive(&self, room: &mut [u8]) -> Result<Option<(usize, SocketAddrV6)>, String> {
        match self.socket.recv_from(room) {
            Ok((length, SocketAddr::V6(from))) if self.is_ours(&from) => Ok(Some((length, from))),
            Ok(_) => Ok(None),
            Err(why) if matches!(why.kind(), Interrupted | TimedOut | WouldBlock) => Ok(None),
            Err(why) => Err(format!("can't receive: {why}")),
        }
    }

    fn is_ours(&self, from: &SocketAddrV6) -> bool {
        self.index == 0 || from.scope_id() == 0 || from.scope_id() == self.index
    }

    pub fn send(&self, message: &[u8], to: SocketAddrV6) -> Result<(), String> {
        let to = on_interface(to, self.index);
        self.socket.send_to(message, to).map(|_| ()).map_err(|why| format!("can't send to {to}: {why}"))
    }

    pub fn has_interface(&self) -> bool {
        self.index > 0
    }
}

/// Addresses that mean something on one link only are meant on this interface.
fn on_interface(mut address: SocketAddrV6, index: u32) -> SocketAddrV6 {
    if address.scope_id() == 0 && is_local(address.ip()) {
        address.set_scope_id(index);
    }
    address
}

fn is_local(address: &Ipv6Addr) -> bool {
    let first = address.segments()[0];
    first & 0xffc0 == 0xfe80 || first == 0xff02
}

/// The number of a named interface.
pub fn number_of(interface: &str) -> Result<u32, String> {
    let name = CString::new(interface).map_err(|_| format!("{interface:?} isn't a name"))?;
    match unsafe { if_nametoindex(name.as_ptr()) } {
        0 => Err(format!("there is no interface {interface}")),
        index => Ok(index),
    }
}
