//! The loss counts that the manager puts into the private extension of each file it closes: written in
//! safe Rust from ask 3 of document 02, and from nothing of the proved code.

#![forbid(unsafe_code)]

/// Octets of such an extension: the kind and two numbers.
pub const OCTETS: usize = 1 + 4 + 4;
/// Octets that it adds to a file header: its length and itself.
pub const ADDED: usize = 2 + OCTETS;

const KIND: u8 = 1;

/// What a file tells of the time since the route's file before it closed.
#[derive(Clone, Copy, Debug, Default, PartialEq, Eq)]
pub struct LossCounts {
    /// The route's known losses.
    pub losses: u32,
    /// Unrouted records, each of which may have been the route's.
    pub unrouted: u32,
}

impl LossCounts {
    /// The counts in private octets, if they are such an extension.
    pub fn read(private: &[u8]) -> Option<Self> {
        let [KIND, a, b, c, d, e, f, g, h] = *private else {
            return None;
        };
        Some(Self {
            losses: u32::from_be_bytes([a, b, c, d]),
            unrouted: u32::from_be_bytes([e, f, g, h]),
        })
    }

    /// The private octets.
    pub fn octets(self) -> [u8; OCTETS] {
        let mut octets = [KIND; OCTETS];
        octets[1..5].copy_from_slice(&self.losses.to_be_bytes());
        octets[5..].copy_from_slice(&self.unrouted.to_be_bytes());
        octets
    }

    /// The private octets behind their length, as they stand in a file header.
    pub fn extension(self) -> [u8; ADDED] {
        let mut extension = [0; ADDED];
        extension[..2].copy_from_slice(&(OCTETS as u16).to_be_bytes());
        extension[2..].copy_from_slice(&self.octets());
        extension
    }
}

#[cfg(test)]
mod tests {
    use super::*;
    use crate::random::Random;

    #[test]
    fn the_numbers_have_their_places() {
        let counts = LossCounts {
            losses: 200,
            unrouted: 0x0102_0304,
        };
        assert_eq!(counts.octets(), [1, 0, 0, 0, 0xC8, 1, 2, 3, 4]);
        assert_eq!(
            counts.extension(),
            [0, 9, 1, 0, 0, 0, 0xC8, 1, 2, 3, 4],
            "11 octets of the header"
        );
        let none = LossCounts::default();
        assert_eq!(none.extension(), [0, 9, 1, 0, 0, 0, 0, 0, 0, 0, 0]);
    }

    #[test]
    fn what_is_written_is_read_again() {
        let random = &mut Random::new(1);
        for _ in 0..1_000 {
            let any = random.word() as u32;
            let numbers = [0, 1, 127, 128, 255, 256, 40_000, u32::MAX, any];
            let counts = LossCounts {
                losses: random.pick(&numbers),
                unrouted: random.pick(&numbers),
            };
            assert_eq!(LossCounts::read(&counts.octets()), Some(counts));
        }
    }

    #[test]
    fn other_octets_say_nothing() {
        let octets = [1, 0, 0, 0, 200, 0, 0, 0, 7, 0, 0, 0];
        for length in 0..=octets.len() {
            let read = LossCounts::read(&octets[..length]);
            assert_eq!(read.is_some(), length == OCTETS, "{length} octets");
        }
        for kind in 0..=255 {
            let read = LossCounts::read(&[kind, 0, 0, 0, 200, 0, 0, 0, 7]);
            let expected = LossCounts {
                losses: 200,
                unrouted: 7,
            };
            assert_eq!(read, (kind == 1).then_some(expected), "kind {kind}");
        }
    }
}
