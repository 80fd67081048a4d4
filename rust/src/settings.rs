//! Settings of a manager, laid out: for tests, scripts and benchmarks.

#![forbid(unsafe_code)]

use crate::fields::Release;
use crate::manager::{LONGEST_FILTER, SET_OCTETS};

/// A node's settings.
#[derive(Clone, Copy, Debug, PartialEq, Eq)]
pub struct Node {
    pub address: [u8; 16],
    /// The UTC offset plus 1,439.
    pub bias: u16,
}

/// A route's settings. The filter has up to 20 octets.
#[derive(Clone, Debug, PartialEq, Eq)]
pub struct Route {
    pub filter: Vec<u8>,
    /// The most octets of a file.
    pub limit: u32,
    /// The most minutes that a file is open, and the most records that it has; 0 is no limit.
    pub age: u32,
    pub most: u32,
    /// 1 for one release and version in a file.
    pub flag: u8,
    pub release: Release,
    /// The first sequence number.
    pub first: u32,
    /// Its set minutes of the local day.
    pub minutes: Vec<u16>,
}

/// The octets of settings of this node and these routes.
pub fn lay(node: Node, routes: &[Route]) -> Vec<u8> {
    let mut octets = vec![1];
    octets.extend_from_slice(&node.address);
    octets.extend_from_slice(&node.bias.to_be_bytes());
    for route in routes {
        let mut filter = [0; LONGEST_FILTER];
        filter[..route.filter.len()].copy_from_slice(&route.filter);
        octets.extend_from_slice(&[2, route.filter.len() as u8]);
        octets.extend_from_slice(&filter);
        for number in [route.limit, route.age, route.most] {
            octets.extend_from_slice(&number.to_be_bytes());
        }
        let Release {
            release,
            extension,
            version,
        } = route.release;
        octets.extend_from_slice(&[route.flag, release << 5 | version, extension]);
        octets.extend_from_slice(&route.first.to_be_bytes());
    }
    for (number, route) in routes.iter().enumerate() {
        for minute in &route.minutes {
            octets.extend_from_slice(&set_time(number as u8, *minute));
        }
    }
    octets
}

/// The octets of a set time of day.
pub fn set_time(route: u8, minute: u16) -> [u8; SET_OCTETS] {
    let [upper, lower] = minute.to_be_bytes();
    [3, route, upper, lower]
}
