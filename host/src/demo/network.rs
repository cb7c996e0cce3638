//! The network inside the program. It delays, repeats, loses and reorders; a copy arrives within 30 seconds or never.

/// A copy arrives at most this long after its sending.
pub const LATEST: u64 = 30;

/// One copy of a message on its way between the box and a line.
#[derive(Clone, Debug, PartialEq, Eq)]
pub struct Parcel {
    pub sent: u64,
    pub arrives: u64,
    pub line: usize,
    pub to_box: bool,
    pub message: Vec<u8>,
}

#[derive(Default)]
pub struct Network {
    parcels: Vec<Parcel>,
}

impl Network {
    /// One copy for each delay, so none for no delay; those that would take longer than 30 seconds never arrive.
    pub fn send(&mut self, now: u64, line: usize, to_box: bool, message: &[u8], delays: &[u64]) {
        for delay in delays.iter().filter(|&&delay| delay <= LATEST) {
            let message = message.to_vec();
            self.parcels.push(Parcel { sent: now, arrives: now + delay, line, to_box, message });
        }
    }

    /// When the next copy arrives.
    pub fn earliest(&self) -> Option<u64> {
        self.parcels.iter().map(|parcel| parcel.arrives).min()
    }

    /// The next copy that arrives until then; of two in the same second, the one sent first.
    pub fn next(&mut self, until: u64) -> Option<Parcel> {
        let due = self.parcels.iter().enumerate().filter(|(_, parcel)| parcel.arrives <= until);
        let (at, _) = due.min_by_key(|(_, parcel)| parcel.arrives)?;
        Some(self.parcels.remove(at))
    }
}

#[cfg(test)]
mod tests {
    use super::*;

    fn arrivals(network: &mut Network, until: u64) -> Vec<(u64, u8)> {
        std::iter::from_fn(|| network.next(until)).map(|parcel| (parcel.arrives, parcel.message[0])).collect()
    }

    #[test]
    fn delays_repeats_loses_and_reorders() {
        let mut network = Network::default();
        network.send(100, 0, true, &[1], &[30, 31, 5]);
        network.send(101, 0, true, &[2], &[]);
        network.send(102, 0, true, &[3], &[0, 3]);
        assert_eq!(network.earliest(), Some(102));
        assert_eq!(arrivals(&mut network, 104), [(102, 3)]);
        assert_eq!(arrivals(&mut network, 200), [(105, 1), (105, 3), (130, 1)]);
        assert_eq!(network.earliest(), None);
    }
}
