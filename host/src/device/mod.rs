//! `arsurimo box` and `arsurimo router`: the two ends as devices on a real network, in one thread. The proved core decides.

pub mod box_command;
mod clock;
mod link;
pub mod router_command;
pub mod signals;

use crate::args::{Args, Failure};
use crate::hex;
use clock::Clock;
use link::Link;
use reference::table::{LONGEST_DUID, SHORTEST_DUID};
use std::net::{Ipv6Addr, SocketAddrV6};
use std::time::Duration;

const BOX_PORT: u16 = 547;
const ROUTER_PORT: u16 = 546;
/// All boxes on the link.
const ALL_BOXES: Ipv6Addr = Ipv6Addr::new(0xff02, 0, 0, 0, 0, 0, 1, 2);
/// Room for a message that is too long too: the core is to say 3.
const ROOM: usize = 2_048;

/// What both devices have.
struct Device {
    duid: Vec<u8>,
    link: Link,
    clock: Clock,
}

impl Device {
    /// From `--interface`, `--listen`, `--duid` and `--speed`.
    fn open(args: &mut Args, port: u16) -> Result<Device, Failure> {
        let interface = args.value("--interface")?;
        let index = interface.as_deref().map_or(Ok(0), link::number_of).map_err(Failure::Usage)?;
        let anywhere = SocketAddrV6::new(Ipv6Addr::UNSPECIFIED, port, 0, 0);
        let listen = args.parsed("--listen", "an address and a port like [::1]:5547")?.unwrap_or(anywhere);
        let speed = args.number("--speed")?.unwrap_or(1);
        if speed == 0 || speed > 1_000 {
            return Err(Failure::Usage("--speed is from 1 to 1000".to_string()));
        }
        let duid = duid(args.value("--duid")?, interface.as_deref())?;
        args.finish()?;
        let pause = Duration::from_millis((250 / speed).max(10));
        let link = Link::open(listen, index, pause).map_err(Failure::Failed)?;
        signals::catch();
        Ok(Device { duid, link, clock: Clock::start(speed) })
    }
}

/// The DUID that is given, or one made from the interface's own address (RFC 3315, 9.4).
fn duid(given: Option<String>, interface: Option<&str>) -> Result<Vec<u8>, Failure> {
    let duid = match (given, interface) {
        (Some(text), _) => hex::parse(&text).map_err(|why| Failure::Usage(format!("--duid: {why}")))?,
        (None, Some(name)) => own_address(name)?,
        (None, None) => return Err(Failure::Usage("--duid or --interface is needed".to_string())),
    };
    if duid.len() < SHORTEST_DUID || duid.len() > LONGEST_DUID {
        return Err(Failure::Usage(format!("a DUID has 3 to 130 bytes, and this one {}", duid.len())));
    }
    Ok(duid)
}

fn own_address(interface: &str) -> Result<Vec<u8>, Failure> {
    let file = format!("/sys/class/net/{interface}/address");
    let text = std::fs::read_to_string(&file).map_err(|why| Failure::Failed(format!("{file}: {why}")))?;
    let address = hex::parse(&text).unwrap_or_default();
    if address.iter().all(|&byte| byte == 0) {
        return Err(Failure::Usage(format!("{interface} has no address of its own: give --duid")));
    }
    Ok([&[0, 3, 0, 1], &address[..]].concat())
}

#[cfg(test)]
mod tests {
    use super::*;

    #[test]
    fn duids() {
        assert_eq!(duid(Some("0a:0a:0a".to_string()), None), Ok(vec![10, 10, 10]));
        assert!(duid(Some("0a:0a".to_string()), None).is_err());
        assert!(duid(Some("ab".repeat(130)), None).is_ok());
        assert!(duid(Some("ab".repeat(131)), None).is_err());
        assert!(duid(None, None).is_err());
        assert!(duid(None, Some("no such interface")).is_err());
    }
}
