//! Packets of records (document 02, request 8), one record behind another: their octets, read and
//! laid out.

#![forbid(unsafe_code)]

use crate::manager::Arrival;

/// The most records of a packet.
pub const MOST_RECORDS: usize = 64;
/// The octets before a record's key.
pub const HEAD: usize = 15;

/// What a record of a packet carries.
#[derive(Clone, Copy, Debug, PartialEq, Eq)]
pub struct Delivery<'a> {
    pub time: u32,
    pub arrival: Arrival<'a>,
}

/// The first record of these octets and what is behind it; `None` where it is cut.
pub fn split_first(octets: &[u8]) -> Option<(Delivery<'_>, &[u8])> {
    let (head, rest) = octets.split_first_chunk::<HEAD>()?;
    let [t0, t1, t2, t3, mark, key, release, version, extension, format, ts, b0, b1, b2, b3] =
        *head;
    let (key, rest) = rest.split_at_checked(key.into())?;
    let body = u32::from_be_bytes([b0, b1, b2, b3]);
    let (body, rest) = rest.split_at_checked(body as usize)?;
    let arrival = Arrival {
        mark: mark.into(),
        key,
        release: release.into(),
        version: version.into(),
        extension,
        format: format.into(),
        ts: ts.into(),
        body,
    };
    let time = u32::from_be_bytes([t0, t1, t2, t3]);
    Some((Delivery { time, arrival }, rest))
}

/// How many records a packet has; `None` if one of them is cut, or there is a 65th.
pub fn count(mut octets: &[u8]) -> Option<usize> {
    let mut records = 0;
    while !octets.is_empty() {
        (_, octets) = split_first(octets)?;
        records += 1;
    }
    (records <= MOST_RECORDS).then_some(records)
}

/// A record's octets behind those of others. Its fields must have room.
pub fn lay(packet: &mut Vec<u8>, delivery: &Delivery) {
    let Delivery { time, arrival } = delivery;
    let octet = |field: u32| u8::try_from(field).expect("a field of one octet");
    packet.extend_from_slice(&time.to_be_bytes());
    packet.extend_from_slice(&[
        octet(arrival.mark),
        arrival.key.len().try_into().expect("a key of 255 octets"),
        octet(arrival.release),
        octet(arrival.version),
        arrival.extension,
        octet(arrival.format),
        octet(arrival.ts),
    ]);
    let body: u32 = arrival.body.len().try_into().expect("a body of 32 bits");
    packet.extend_from_slice(&body.to_be_bytes());
    packet.extend_from_slice(arrival.key);
    packet.extend_from_slice(arrival.body);
}

#[cfg(test)]
mod tests {
    use super::*;

    fn example() -> Vec<u8> {
        let mut packet = Vec::new();
        let arrival = Arrival {
            mark: 1,
            key: b"123",
            release: 2,
            version: 3,
            extension: 4,
            format: 5,
            ts: 6,
            body: b"body",
        };
        let time = 0x0102_0304;
        lay(&mut packet, &Delivery { time, arrival });
        packet
    }

    #[test]
    fn a_record_is_fifteen_octets_then_key_then_body() {
        let expected = [
            1, 2, 3, 4, 1, 3, 2, 3, 4, 5, 6, 0, 0, 0, 4, b'1', b'2', b'3', b'b', b'o', b'd', b'y',
        ];
        assert_eq!(example(), expected);
        let (delivery, rest) = split_first(&expected).unwrap();
        assert_eq!(delivery.time, 0x0102_0304);
        assert_eq!(
            (delivery.arrival.key, delivery.arrival.body),
            (&b"123"[..], &b"body"[..])
        );
        assert_eq!(rest, []);
    }

    #[test]
    fn every_cut_is_none() {
        let packet = example();
        assert_eq!(count(&packet), Some(1));
        assert_eq!(count(&[]), Some(0));
        for length in 1..packet.len() {
            assert_eq!(count(&packet[..length]), None, "{length}");
        }
    }

    #[test]
    fn a_65th_record_is_none() {
        assert_eq!(count(&vec![0; HEAD * 64]), Some(64));
        assert_eq!(count(&vec![0; HEAD * 65]), None);
    }
}
