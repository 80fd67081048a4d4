//! For each condition of refusal 18 a fault: pairs of a state that breaks the condition alone and of
//! its neighbour that keeps it, and states that have the fault where it is not judged.

#![forbid(unsafe_code)]

use self::Side::{Past, Within};
use crate::fields::Release;
use crate::forge::{empty, fill, right, NEW};
use crate::manager::{DAY, LONGEST_FILTER, MOST_ROUTES, MOST_SETS};
use crate::random::Random;
use crate::second::{LAST_MINUTE, LONGEST_FILE};
use crate::states::{Minute, Route, State};
use std::array;

/// Octets by which a size limit is raised where the header may have grown: by a filter of any
/// length that an octet can say, and by two extensions.
const MORE: u32 = 300;

/// What a condition is about: a route's settings are not judged of a route beyond the configured
/// number, and its file not of a closed route either.
#[derive(Clone, Copy, Debug, PartialEq, Eq)]
pub enum Of {
    State,
    Settings,
    File,
}

/// A way to break one condition of refusal 18.
pub struct Fault {
    /// The condition's name in `bounds`.
    pub name: &'static str,
    pub of: Of,
    /// Brings a state of two routes or more to the edge of the condition, or past it, at this
    /// route; in all else it stays within its bounds.
    put: fn(&mut Random, &mut State, usize, Side),
}

/// On which side of an edge a value is put.
#[derive(Clone, Copy, PartialEq, Eq)]
enum Side {
    Within,
    Past,
}

impl Side {
    /// The greatest value that may be, or one beyond it, mostly by one.
    fn above(self, random: &mut Random, edge: u32) -> u32 {
        self.above_up_to(random, edge, u32::MAX)
    }

    fn above_octet(self, random: &mut Random, edge: u8) -> u8 {
        self.above_up_to(random, edge.into(), u8::MAX.into()) as u8
    }

    /// As `above`, in the 31 bits of an opening.
    fn above_minute(self, random: &mut Random, edge: u32) -> Minute {
        Minute::lower(self.above_up_to(random, edge, Minute::MAX.get()))
    }

    /// As `above`; `end` is the greatest that the field can hold.
    fn above_up_to(self, random: &mut Random, edge: u32, end: u32) -> u32 {
        let far = random.between(edge as usize + 1, end as usize) as u32;
        match self {
            Within => edge,
            Past => random.pick(&[edge + 1, edge + 1, edge + 1, far, end]),
        }
    }

    fn pick<T>(self, within: T, past: T) -> T {
        match self {
            Within => within,
            Past => past,
        }
    }
}

impl Fault {
    /// A state that breaks the condition alone, and its neighbour that breaks none.
    pub fn pair(&self, random: &mut Random) -> [State; 2] {
        let count = random.between(2, MOST_ROUTES);
        let base = right(random, count);
        let at = random.below(count);
        let seed = random.word();
        [Past, Within].map(|side| {
            let mut state = base;
            (self.put)(&mut Random::new(seed), &mut state, at, side);
            state
        })
    }

    /// States with the same fault where it is not judged.
    pub fn unjudged(&self, random: &mut Random) -> Vec<State> {
        let mut states = Vec::new();
        if self.of != Of::State {
            let count = random.between(2, MOST_ROUTES);
            let mut state = right(random, count);
            (self.put)(random, &mut state, count - 1, Past);
            state.count -= 1;
            states.push(state);
        }
        if self.of == Of::File {
            let count = random.between(2, MOST_ROUTES);
            let mut state = right(random, count);
            let at = random.below(count);
            (self.put)(random, &mut state, at, Past);
            state.routes[at].open = false;
            states.push(state);
        }
        states
    }
}

/// Two releases, the second higher by one: in release, extension or version, the parts behind that
/// one being any.
fn neighbours(random: &mut Random) -> [Release; 2] {
    let [version, other] = [random.below(31), random.below(32)].map(|version| version as u8);
    let extension = random.below(255) as u8;
    let of = |release, extension, version| Release {
        release,
        extension,
        version,
    };
    let below_7 = random.below(7) as u8;
    match random.below(4) {
        0 => [of(below_7, 0, version), of(below_7 + 1, 0, other)],
        1 => [of(7, extension, version), of(7, extension + 1, other)],
        2 => [of(below_7, 0, version), of(below_7, 0, version + 1)],
        _ => [of(7, extension, version), of(7, extension, version + 1)],
    }
}

/// A filter that no other route has.
fn set_new_filter(random: &mut Random, route: &mut Route) {
    let octets = random.between(1, LONGEST_FILTER - 1);
    route.settings.octets = octets as u8;
    route.settings.filter = [0; LONGEST_FILTER];
    route.settings.filter[..octets].fill(NEW);
    route.settings.limit += MORE;
}

/// The route with a file of records that may have any releases, and room for longer headers.
fn filled<'a>(random: &mut Random, state: &'a mut State, at: usize) -> &'a mut Route {
    let route = &mut state.routes[at];
    route.settings.flag = 0;
    route.settings.most = 0;
    fill(random, route, state.last);
    route.settings.limit += MORE;
    route
}

/// The route with a file without records.
fn emptied<'a>(random: &mut Random, state: &'a mut State, at: usize) -> &'a mut Route {
    let route = &mut state.routes[at];
    route.settings.flag = 0;
    empty(random, route, state.last);
    route.settings.limit += MORE;
    route
}

/// For each condition of refusal 18 a way to break it.
pub const FAULTS: [Fault; 33] = [
    Fault {
        name: "one route or more",
        of: Of::State,
        put: |_, state, _, side| state.count = side.pick(1, 0),
    },
    Fault {
        name: "eight routes or fewer",
        of: Of::State,
        put: |random, state, _, side| {
            // The neighbour's are all right.
            *state = right(random, MOST_ROUTES);
            // The last ones are right in their lowest octet.
            let past = Past.above(random, 8);
            let past = random.pick(&[past, past, past, 1 << 8 | 8, 1 << 31 | 1]);
            state.count = side.pick(8, past);
        },
    },
    Fault {
        name: "offset in range",
        of: Of::State,
        put: |random, state, _, side| state.bias = side.above(random, 2_878),
    },
    Fault {
        name: "last time in range",
        of: Of::State,
        put: |random, state, _, side| state.last = side.above(random, LAST_MINUTE),
    },
    Fault {
        name: "no two filters equal",
        of: Of::Settings,
        put: |random, state, at, side| {
            let count = state.count as usize;
            let other = (at + random.between(1, count - 1)) % count;
            set_new_filter(random, &mut state.routes[other]);
            let twin = state.routes[other].settings;
            let settings = &mut state.routes[at].settings;
            (settings.filter, settings.octets) = (twin.filter, twin.octets);
            settings.limit += MORE;
            let last = usize::from(twin.octets) - 1;
            match random.below(2) {
                0 => settings.filter[last] = side.pick(NEW + 1, NEW),
                _ => settings.octets += side.pick(1, 0),
            }
        },
    },
    Fault {
        name: "filter of 20 octets or fewer",
        of: Of::Settings,
        put: |random, state, at, side| {
            let settings = &mut state.routes[at].settings;
            settings.filter = [NEW; LONGEST_FILTER];
            settings.octets = side.above_octet(random, 20);
            settings.limit += MORE;
        },
    },
    Fault {
        name: "unused filter octets zero",
        of: Of::Settings,
        put: |random, state, at, side| {
            set_new_filter(random, &mut state.routes[at]);
            let settings = &mut state.routes[at].settings;
            let first = usize::from(settings.octets);
            let any = random.between(first, LONGEST_FILTER - 1);
            let unused = random.pick(&[first, any, LONGEST_FILTER - 1]);
            settings.filter[unused] = side.pick(0, random.octet() | 1);
        },
    },
    Fault {
        name: "size limit of 128 or more",
        of: Of::Settings,
        put: |random, state, at, side| {
            let few = random.below(128) as u32;
            let route = emptied(random, state, at);
            route.settings.limit = side.pick(128, 127);
            if random.once_in(2) {
                route.open = false;
                route.settings.limit = side.pick(128, few);
            }
        },
    },
    Fault {
        name: "size limit of 1,048,576 or less",
        of: Of::Settings,
        put: |random, state, at, side| {
            state.routes[at].settings.limit = side.above(random, LONGEST_FILE as u32);
        },
    },
    Fault {
        name: "flag 0 or 1",
        of: Of::Settings,
        put: |random, state, at, side| {
            let route = filled(random, state, at);
            route.file.low = route.file.high;
            route.settings.flag = side.above_octet(random, 1);
        },
    },
    Fault {
        name: "configured release in range",
        of: Of::Settings,
        put: |random, state, at, side| {
            let configured = &mut filled(random, state, at).settings.release;
            configured.release = side.above_octet(random, 7);
            configured.extension = 0;
        },
    },
    Fault {
        name: "configured version in range",
        of: Of::Settings,
        put: |random, state, at, side| {
            let route = filled(random, state, at);
            route.settings.release.version = side.above_octet(random, 31);
        },
    },
    Fault {
        name: "configured extension only at release 7",
        of: Of::Settings,
        put: |random, state, at, side| {
            let configured = &mut filled(random, state, at).settings.release;
            configured.release = side.pick(7, random.below(7) as u8);
            configured.extension = random.octet() | 1;
        },
    },
    Fault {
        name: "24 set minutes or fewer",
        of: Of::Settings,
        put: |random, state, at, side| {
            let sets = &mut state.routes[at].sets;
            sets.minutes = array::from_fn(|minute| minute as u32);
            sets.count = side.above(random, MOST_SETS as u32);
        },
    },
    Fault {
        name: "set minutes of a day",
        of: Of::Settings,
        put: |random, state, at, side| {
            let sets = &mut state.routes[at].sets;
            let count = random.between(1, MOST_SETS);
            sets.count = count as u32;
            sets.minutes = array::from_fn(|minute| minute as u32);
            sets.minutes[count - 1] = side.above(random, DAY - 1);
        },
    },
    Fault {
        name: "set minutes rising",
        of: Of::Settings,
        put: |random, state, at, side| {
            let sets = &mut state.routes[at].sets;
            let count = random.between(2, MOST_SETS);
            sets.count = count as u32;
            sets.minutes = array::from_fn(|minute| 10 + 2 * minute as u32);
            // One that is as the one before it, or below it, and still above the one before that.
            let at = random.between(1, count - 1);
            let before = sets.minutes[at - 1];
            sets.minutes[at] = side.pick(before + 1, before - random.below(2) as u32);
        },
    },
    Fault {
        name: "opening not after last append",
        of: Of::File,
        put: |random, state, at, side| {
            let file = &mut filled(random, state, at).file;
            file.opened = side.above_minute(random, file.appended);
        },
    },
    Fault {
        name: "last append not after last time",
        of: Of::File,
        put: |random, state, at, side| {
            let last = state.last;
            // The last one is right in its lower 31 bits.
            let past = Past.above(random, last);
            let past = random.pick(&[past, past, past, 1 << 31 | last]);
            filled(random, state, at).file.appended = side.pick(last, past);
        },
    },
    Fault {
        name: "low not above high",
        of: Of::File,
        put: |random, state, at, side| {
            let [lower, higher] = neighbours(random);
            let file = &mut filled(random, state, at).file;
            (file.high, file.low) = (lower, side.pick(lower, higher));
        },
    },
    Fault {
        name: "low is high with flag 1",
        of: Of::File,
        put: |random, state, at, side| {
            let [lower, higher] = neighbours(random);
            let route = filled(random, state, at);
            route.settings.flag = 1;
            (route.file.high, route.file.low) = (higher, side.pick(higher, lower));
        },
    },
    Fault {
        name: "high release in range",
        of: Of::File,
        put: |random, state, at, side| {
            let file = &mut filled(random, state, at).file;
            (file.low.release, file.low.extension) = (random.below(7) as u8, 0);
            (file.high.release, file.high.extension) = (side.above_octet(random, 7), 0);
        },
    },
    Fault {
        name: "high version in range",
        of: Of::File,
        put: |random, state, at, side| {
            let file = &mut filled(random, state, at).file;
            file.high = file.low;
            file.high.version = side.above_octet(random, 31);
        },
    },
    Fault {
        name: "high extension only at release 7",
        of: Of::File,
        put: |random, state, at, side| {
            let file = &mut filled(random, state, at).file;
            let below_7 = random.below(7) as u8;
            (file.low.release, file.low.extension) = (0, 0);
            file.low.version = file.high.version;
            file.high.release = side.pick(7, below_7);
            file.high.extension = random.octet() | 1;
        },
    },
    Fault {
        name: "low version in range",
        of: Of::File,
        put: |random, state, at, side| {
            let file = &mut filled(random, state, at).file;
            file.low.release = random.below(7) as u8;
            file.low.extension = 0;
            file.low.version = side.above_octet(random, 31);
            file.high.release = file.low.release + 1;
            file.high.extension = 0;
        },
    },
    Fault {
        name: "low extension only at release 7",
        of: Of::File,
        put: |random, state, at, side| {
            let file = &mut filled(random, state, at).file;
            (file.high.release, file.high.extension) = (7, 255);
            file.high.version = 31;
            file.low.release = side.pick(7, random.below(7) as u8);
            file.low.extension = random.octet() | 1;
        },
    },
    Fault {
        name: "format in range",
        of: Of::File,
        put: |random, state, at, side| {
            filled(random, state, at).file.format = side.above_octet(random, 7);
        },
    },
    Fault {
        name: "header and records within the limit",
        of: Of::File,
        put: |random, state, at, side| {
            let Route { settings, file, .. } = filled(random, state, at);
            let header = settings.header_octets(file.high, file.low);
            let room = settings.limit - header;
            // The last one makes a sum that is 0 in 32 bits.
            let past = random.pick(&[room + 1, room + 1, u32::MAX, 0u32.wrapping_sub(header)]);
            file.octets = side.pick(room, past);
        },
    },
    Fault {
        name: "four octets or more a record",
        of: Of::File,
        put: |random, state, at, side| {
            let file = &mut filled(random, state, at).file;
            let most = file.octets / 4;
            // The last ones are 0 four times in 32 bits.
            let past = random.pick(&[most + 1, most + 1, u32::MAX, 1 << 30, 3 << 30]);
            file.count = side.pick(most, past);
        },
    },
    Fault {
        name: "empty: no octets",
        of: Of::File,
        put: |random, state, at, side| {
            let Route { settings, file, .. } = emptied(random, state, at);
            let room = settings.limit - settings.header_octets(file.high, file.low);
            file.octets = side.pick(0, random.pick(&[1, 3, 4, room]));
        },
    },
    Fault {
        name: "empty: last append is the opening",
        of: Of::File,
        put: |random, state, at, side| {
            state.last = state.last.max(1);
            let last = state.last;
            let file = &mut emptied(random, state, at).file;
            file.opened = Minute::lower(side.pick(last, last - 1));
            file.appended = last;
        },
    },
    Fault {
        name: "empty: high as configured",
        of: Of::File,
        put: |random, state, at, side| {
            let [lower, higher] = neighbours(random);
            let Route { settings, file, .. } = emptied(random, state, at);
            (settings.release, file.low) = (lower, lower);
            file.high = side.pick(lower, higher);
        },
    },
    Fault {
        name: "empty: low as configured",
        of: Of::File,
        put: |random, state, at, side| {
            let [lower, higher] = neighbours(random);
            let Route { settings, file, .. } = emptied(random, state, at);
            (settings.release, file.high) = (higher, higher);
            file.low = side.pick(higher, lower);
        },
    },
    Fault {
        name: "count below its limit",
        of: Of::File,
        put: |random, state, at, side| {
            let Route { settings, file, .. } = filled(random, state, at);
            let fewer = random.between(1, file.count as usize) as u32;
            let past = random.pick(&[file.count, file.count, fewer]);
            settings.most = side.pick(file.count + 1, past);
        },
    },
];

#[cfg(test)]
mod tests {
    use super::*;
    use crate::bounds::{broken, conditions};

    const ROUNDS: usize = 200;

    #[test]
    fn each_condition_has_its_fault() {
        let mut named: Vec<&str> = FAULTS.iter().map(|fault| fault.name).collect();
        let mut conditions = conditions();
        named.sort_unstable();
        conditions.sort_unstable();
        assert_eq!(named, conditions);
    }

    #[test]
    fn a_fault_breaks_its_condition_alone_and_its_neighbour_none() {
        let random = &mut Random::new(1);
        for fault in &FAULTS {
            for _ in 0..ROUNDS {
                let [past, within] = fault.pair(random);
                assert_eq!(broken(&past), [fault.name]);
                assert!(broken(&within).is_empty(), "{}: {within:?}", fault.name);
            }
        }
    }

    #[test]
    fn what_is_not_judged_breaks_nothing() {
        let random = &mut Random::new(2);
        for fault in &FAULTS {
            for _ in 0..ROUNDS {
                for state in fault.unjudged(random) {
                    assert!(broken(&state).is_empty(), "{}: {state:?}", fault.name);
                }
            }
        }
    }
}
