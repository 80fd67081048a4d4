//! A manager's state, and the answer to an event as the proved library lays it out. Every field has
//! room for what its bits in the state's words can say and no more, which is more than is right: a
//! state may be lent by anyone.

#![forbid(unsafe_code)]

use crate::counts;
use crate::fields::Release;
use crate::manager::{self, LONGEST_FILTER, MOST_ROUTES, MOST_SETS};
use crate::packet::MOST_RECORDS;
use crate::second::{EXTENDED, FIXED};
use crate::settings;

/// A route's settings; `octets` of the filter count.
#[derive(Clone, Copy, Debug, Default, PartialEq, Eq)]
pub struct RouteSettings {
    pub filter: [u8; LONGEST_FILTER],
    pub octets: u8,
    /// The most octets of a file.
    pub limit: u32,
    /// The most minutes that a file is open, and the most records that it has; 0 is no limit.
    pub age: u32,
    pub most: u32,
    /// 1 for one release and version in a file.
    pub flag: u8,
    /// The release and version of a file without records.
    pub release: Release,
}

/// A minute of 31 bits: the other bit of its word says whether there is an open file.
#[derive(Clone, Copy, Debug, Default, PartialEq, Eq, PartialOrd, Ord)]
pub struct Minute(u32);

impl Minute {
    pub const MAX: Self = Self(u32::MAX >> 1);

    /// The minute in the lower 31 bits.
    pub fn lower(bits: u32) -> Self {
        Self(bits & Self::MAX.0)
    }

    pub fn get(self) -> u32 {
        self.0
    }
}

/// An open file; all zeros where one was closed.
#[derive(Clone, Copy, Debug, Default, PartialEq, Eq)]
pub struct OpenFile {
    pub sequence: u32,
    pub opened: Minute,
    pub appended: u32,
    pub high: Release,
    pub low: Release,
    pub format: u8,
    /// The number of its records, and their octets.
    pub count: u32,
    pub octets: u32,
}

/// A route's set minutes; `count` of the minutes count.
#[derive(Clone, Copy, Debug, Default, PartialEq, Eq)]
pub struct Sets {
    pub count: u32,
    pub minutes: [u32; MOST_SETS],
}

impl Sets {
    /// Those that count, as far as there are such.
    pub fn counted(&self) -> &[u32] {
        &self.minutes[..(self.count as usize).min(MOST_SETS)]
    }
}

#[derive(Clone, Copy, Debug, Default, PartialEq, Eq)]
pub struct Route {
    pub settings: RouteSettings,
    pub sets: Sets,
    /// The sequence number of the file that it opens next.
    pub next: u32,
    /// Known losses and unrouted records since its last file closed.
    pub losses: u32,
    pub unrouted: u32,
    pub open: bool,
    /// The open file; with none open it says nothing.
    pub file: OpenFile,
}

#[derive(Clone, Copy, Debug, Default, PartialEq, Eq)]
pub struct State {
    pub routes: [Route; MOST_ROUTES],
    /// How many of the routes are configured.
    pub count: u32,
    pub address: [u8; 16],
    /// The UTC offset plus 1,439.
    pub bias: u32,
    /// The effective time of the last accepted event.
    pub last: u32,
    /// Unrouted records since fresh.
    pub unrouted: u32,
}

/// The answer to an event: refused, it is the number and zeros elsewhere but for 17.
#[repr(C)]
#[derive(Clone, Copy, Debug, Default, PartialEq, Eq)]
pub struct Answer {
    pub refusal: u8,
    pub outcome: u8,
    pub route: u8,
    pub files: u8,
    /// The octets of filters that RECEIVE compared with the key.
    pub compared: u8,
    pub octets: usize,
}

impl From<manager::Answer> for Answer {
    fn from(answer: manager::Answer) -> Self {
        match answer {
            Err((refusal, octets)) => Self {
                refusal,
                octets,
                ..Self::default()
            },
            Ok(accepted) => Self {
                refusal: 0,
                outcome: accepted.outcome as u8,
                route: accepted.route,
                files: accepted.files,
                compared: accepted.compared,
                octets: accepted.octets,
            },
        }
    }
}

/// The answer to a packet: the refusal that stopped it or 0, how many records were accepted, and the
/// answers of those that were tried, zeros behind them.
#[repr(C)]
#[derive(Clone, Copy, Debug, PartialEq, Eq)]
pub struct Answers {
    pub refusal: u8,
    pub accepted: u8,
    pub answers: [Answer; MOST_RECORDS],
}

impl From<&manager::Taken> for Answers {
    fn from(taken: &manager::Taken) -> Self {
        let mut answers = [Answer::default(); MOST_RECORDS];
        for (place, &answer) in answers.iter_mut().zip(&taken.answers) {
            *place = answer.into();
        }
        Self {
            refusal: taken.refusal,
            accepted: taken.accepted as u8,
            answers,
        }
    }
}

impl RouteSettings {
    /// Octets of a file header of this route with these releases, the loss counts included.
    pub fn header_octets(&self, high: Release, low: Release) -> u32 {
        let extension = |of: Release| u32::from(of.release == EXTENDED);
        let fixed = (FIXED + counts::ADDED) as u32;
        fixed + u32::from(self.octets) + extension(high) + extension(low)
    }
}

impl State {
    /// The configured routes, as far as there are such.
    pub fn configured(&self) -> &[Route] {
        &self.routes[..(self.count as usize).min(MOST_ROUTES)]
    }

    /// The settings that it has, laid out: those of any state within its bounds can be.
    pub fn settings(&self) -> Vec<u8> {
        let node = settings::Node {
            address: self.address,
            bias: self.bias as u16,
        };
        let route = |route: &Route| {
            let RouteSettings { filter, octets, .. } = route.settings;
            settings::Route {
                filter: filter.iter().take(octets.into()).copied().collect(),
                limit: route.settings.limit,
                age: route.settings.age,
                most: route.settings.most,
                flag: route.settings.flag,
                release: route.settings.release,
                first: route.next,
                minutes: route.sets.counted().iter().map(|&m| m as u16).collect(),
            }
        };
        let routes: Vec<_> = self.configured().iter().map(route).collect();
        settings::lay(node, &routes)
    }

    /// The octets of all regions of the store.
    pub fn regions(&self) -> u64 {
        let limits = self.configured().iter();
        limits.map(|route| u64::from(route.settings.limit)).sum()
    }
}
