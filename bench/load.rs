//! A bounded load: houses that ask a server one message at a time and wait for each answer, over one interface.
//!     load ask INTERFACE HOUSES ROUNDS PID   asks; prints `PHASE ANSWERS NANOSECONDS`, of that process's CPU time
//!     load serve INTERFACE SIDE              is a server: floor sends back what it gets, plain and sorted are boxes
//! A round: each house binds (Solicit, Request); then all send a Solicit, a Request, a Renew, a Rebind, a Release.

mod messages;
#[allow(dead_code)]
mod sorted;

use messages::{message, real, Identity};
use reference::prefix::Prefix;
use reference::wire::{read_message, Message};
use reference::{boxed, pd_box_handle, pd_box_start, TableBytes, ROOM_BYTES, TABLE_BYTES};
use reference::{ADVERTISE, REBIND, RELEASE, RENEW, REPLY, REQUEST, SOLICIT};
use std::net::{Ipv6Addr, SocketAddrV6, UdpSocket};
use std::time::{Duration, Instant};

const ALL_BOXES: Ipv6Addr = Ipv6Addr::new(0xff02, 0, 0, 0, 0, 0, 1, 2);
const BOX_PORT: u16 = 547;
const ROUTER_PORT: u16 = 546;
const ROOM: usize = 1_500;
/// Tries of half a second each until the server is there.
const TRIES: usize = 60;
const LONGEST_WAIT: Duration = Duration::from_secs(10);

struct House {
    identity: Identity,
    prefix: Option<Prefix>,
}

struct Load {
    socket: UdpSocket,
    to: SocketAddrV6,
    /// The server's DUID; none for one that sends back what it gets.
    server: Option<Vec<u8>>,
    transaction: u32,
}

fn index(interface: &str) -> u32 {
    let file = format!("/sys/class/net/{interface}/ifindex");
    std::fs::read_to_string(file).expect("an interface").trim().parse().expect("its number")
}

fn open(port: u16) -> UdpSocket {
    UdpSocket::bind(SocketAddrV6::new(Ipv6Addr::UNSPECIFIED, port, 0, 0)).expect("the port is free")
}

/// The CPU time that a process has used, in nanoseconds.
fn cpu_time(pid: &str) -> u64 {
    let text = std::fs::read_to_string(format!("/proc/{pid}/schedstat")).expect("the server runs");
    text.split_whitespace().next().expect("a first word").parse().expect("a number")
}

impl Load {
    fn open(interface: &str) -> Load {
        let to = SocketAddrV6::new(ALL_BOXES, BOX_PORT, 0, index(interface));
        Load { socket: open(ROUTER_PORT), to, server: None, transaction: 0 }
    }

    fn send(&mut self, mut text: Vec<u8>) {
        self.transaction += 1;
        text[1..4].copy_from_slice(&self.transaction.to_be_bytes()[1..]);
        self.socket.send_to(&text, self.to).expect("sent");
    }

    /// The answer to what was sent last.
    fn receive(&self) -> Option<Vec<u8>> {
        let mut room = [0; ROOM];
        loop {
            let (length, _) = self.socket.recv_from(&mut room).ok()?;
            if room[1..4] == self.transaction.to_be_bytes()[1..] {
                return Some(room[..length].to_vec());
            }
        }
    }

    /// Waits until the server answers a Solicit, and learns its DUID.
    fn find_server(&mut self) {
        self.socket.set_read_timeout(Some(Duration::from_millis(500))).expect("a timeout");
        let text = message(SOLICIT, &real(9_999), &[], None);
        let found = (0..TRIES).find_map(|_| {
            self.send(text.clone());
            self.receive()
        });
        let answer = found.expect("a server");
        while self.socket.recv_from(&mut [0; ROOM]).is_ok() {}
        let read = read_message(&answer).expect("a message");
        self.server = read.server_ids.first().map(|server| server.to_vec());
        self.socket.set_read_timeout(Some(LONGEST_WAIT)).expect("a timeout");
    }

    /// One message of a house and its answer, which is what the kind asks for.
    fn ask(&mut self, house: &mut House, kind: u8) {
        let server = self.server.clone().unwrap_or(b"none".to_vec());
        self.send(message(kind, &house.identity, &server, house.prefix));
        let answer = self.receive().expect("an answer");
        if self.server.is_some() {
            let read = read_message(&answer).expect("a message");
            house.take(kind, &read);
        }
    }

    fn phase(&mut self, name: &str, kinds: &[u8], houses: &mut [House], pid: &str) {
        let before = cpu_time(pid);
        for house in houses.iter_mut() {
            kinds.iter().for_each(|&kind| self.ask(house, kind));
        }
        println!("{name} {} {}", houses.len() * kinds.len(), cpu_time(pid) - before);
    }
}

impl House {
    fn take(&mut self, kind: u8, answer: &Message) {
        assert_eq!(answer.kind, if kind == SOLICIT { ADVERTISE } else { REPLY });
        assert_eq!(answer.client_ids, [&self.identity.duid[..]]);
        let listed = answer.ia_pds.first().and_then(|ia| ia.prefixes.first());
        match kind {
            RELEASE => {
                assert!(listed.is_none() && answer.has_status(0), "not given back: {answer:?}");
                self.prefix = None;
            }
            _ => {
                let listed = listed.unwrap_or_else(|| panic!("no prefix: {answer:?}"));
                assert!(listed.valid > 0, "an ended prefix: {answer:?}");
                assert!(matches!(kind, SOLICIT | REQUEST) || self.prefix == Some(listed.prefix), "another prefix");
                self.prefix = Some(listed.prefix);
            }
        }
    }
}

fn ask(interface: &str, houses: usize, rounds: usize, pid: &str) {
    let mut load = Load::open(interface);
    load.find_server();
    let house = |i| House { identity: real(i), prefix: None };
    let mut houses: Vec<House> = (0..houses).map(house).collect();
    for _ in 0..rounds {
        load.phase("bind", &[SOLICIT, REQUEST], &mut houses, pid);
        load.phase("solicit", &[SOLICIT], &mut houses, pid);
        load.phase("request", &[REQUEST], &mut houses, pid);
        load.phase("renew", &[RENEW], &mut houses, pid);
        load.phase("rebind", &[REBIND], &mut houses, pid);
        load.phase("release", &[RELEASE], &mut houses, pid);
    }
}

/// Writes the answer and gives its length; a refusal's word is longer than any room.
type Handle = fn(&mut TableBytes, u64, &[u8], &mut [u8]) -> u64;

fn handle_floor(_: &mut TableBytes, _: u64, message: &[u8], answer: &mut [u8]) -> u64 {
    answer[..message.len()].copy_from_slice(message);
    message.len() as u64
}

fn handle_sorted(table: &mut TableBytes, now: u64, message: &[u8], answer: &mut [u8]) -> u64 {
    boxed::handle_with(sorted::read, table, now, message, answer)
}

/// A box like `arsurimo box` of the pool 2001:db8::/48.
fn serve(interface: &str, handle: Handle) -> ! {
    let socket = open(BOX_PORT);
    socket.join_multicast_v6(&ALL_BOXES, index(interface)).expect("joined");
    let mut table = Box::new([0; TABLE_BYTES]);
    let word = pd_box_start(&mut table, 0x2001_0db8_0000_0000, 0, 48, 56, 60, 3_600, 7_200, 0, b"a box in Rust", 0);
    assert_eq!(word, 0);
    let start = Instant::now();
    let (mut room, mut answer) = ([0; ROOM], [0; ROOM_BYTES]);
    loop {
        let (length, from) = socket.recv_from(&mut room).expect("a message");
        let word = handle(&mut table, start.elapsed().as_secs(), &room[..length], &mut answer);
        if word < ROOM as u64 {
            socket.send_to(&answer[..word as usize], from).expect("sent");
        }
    }
}

fn main() {
    let words: Vec<String> = std::env::args().skip(1).collect();
    let words: Vec<&str> = words.iter().map(String::as_str).collect();
    let number = |word: &str| word.parse().expect("a number");
    match words[..] {
        ["ask", interface, houses, rounds, pid] => ask(interface, number(houses), number(rounds), pid),
        ["serve", interface, "floor"] => serve(interface, handle_floor),
        ["serve", interface, "plain"] => serve(interface, pd_box_handle),
        ["serve", interface, "sorted"] => serve(interface, handle_sorted),
        _ => eprintln!("load ask INTERFACE HOUSES ROUNDS PID, or load serve INTERFACE floor|plain|sorted"),
    }
}
