//! Refusal 18: whether a state is within its bounds. Written from document 01's sentence on it,
//! condition by condition, with the header and the set times of document 02, and from nothing of the
//! proved code. Routes beyond the configured number, a closed route's file and set minutes beyond
//! their number are not judged, and no counter is.

#![forbid(unsafe_code)]

use crate::fields::Release;
use crate::manager::{DAY, MOST_ROUTES, MOST_SETS};
use crate::second::{EXTENDED, LAST_MINUTE, LONGEST_FILE, WIDEST_OFFSET};
use crate::states::{OpenFile, Route, RouteSettings, Sets, State};

/// A condition in words, and its test.
type Condition<T> = (&'static str, fn(&T) -> bool);

const OF_STATE: [Condition<State>; 5] = [
    ("one route or more", |s| s.count >= 1),
    ("eight routes or fewer", |s| s.count <= MOST_ROUTES as u32),
    ("offset in range", |s| {
        i64::from(s.bias) <= 2 * WIDEST_OFFSET
    }),
    ("no two filters equal", has_distinct_filters),
    ("last time in range", |s| s.last <= LAST_MINUTE),
];

const OF_SETTINGS: [Condition<RouteSettings>; 8] = [
    ("filter of 20 octets or fewer", |s| {
        usize::from(s.octets) <= s.filter.len()
    }),
    ("unused filter octets zero", |s| {
        let mut unused = s.filter.iter().skip(s.octets.into());
        unused.all(|&octet| octet == 0)
    }),
    ("size limit of 128 or more", |s| s.limit >= 128),
    ("size limit of 1,048,576 or less", |s| {
        s.limit as usize <= LONGEST_FILE
    }),
    ("flag 0 or 1", |s| s.flag <= 1),
    ("configured release in range", |s| s.release.release <= 7),
    ("configured version in range", |s| s.release.version <= 31),
    ("configured extension only at release 7", |s| {
        has_extension_only_at_7(s.release)
    }),
];

const OF_SETS: [Condition<Sets>; 3] = [
    ("24 set minutes or fewer", |s| s.count as usize <= MOST_SETS),
    ("set minutes of a day", |s| {
        s.counted().iter().all(|&minute| minute < DAY)
    }),
    ("set minutes rising", |s| {
        s.counted().windows(2).all(|pair| pair[0] < pair[1])
    }),
];

/// An open file with its route's settings and the last time.
struct Held {
    last: u32,
    settings: RouteSettings,
    file: OpenFile,
}

impl Held {
    /// Whether the condition holds, which is one on files without records.
    fn if_empty(&self, condition: bool) -> bool {
        self.file.count != 0 || condition
    }
}

/// The range of low's release is no condition of its own: low is not above high. Neither is that a
/// file with a count has octets: it has four for each.
const OF_FILE: [Condition<Held>; 17] = [
    ("opening not after last append", |h| {
        h.file.opened.get() <= h.file.appended
    }),
    ("last append not after last time", |h| {
        h.file.appended <= h.last
    }),
    ("low not above high", |h| h.file.low <= h.file.high),
    ("low is high with flag 1", |h| {
        h.settings.flag != 1 || h.file.low == h.file.high
    }),
    ("high release in range", |h| h.file.high.release <= 7),
    ("high version in range", |h| h.file.high.version <= 31),
    ("high extension only at release 7", |h| {
        has_extension_only_at_7(h.file.high)
    }),
    ("low version in range", |h| h.file.low.version <= 31),
    ("low extension only at release 7", |h| {
        has_extension_only_at_7(h.file.low)
    }),
    ("format in range", |h| h.file.format <= 7),
    ("header and records within the limit", |h| {
        let header = h.settings.header_octets(h.file.high, h.file.low);
        u64::from(header) + u64::from(h.file.octets) <= u64::from(h.settings.limit)
    }),
    ("four octets or more a record", |h| {
        4 * u64::from(h.file.count) <= u64::from(h.file.octets)
    }),
    ("empty: no octets", |h| h.if_empty(h.file.octets == 0)),
    ("empty: last append is the opening", |h| {
        h.if_empty(h.file.appended == h.file.opened.get())
    }),
    ("empty: high as configured", |h| {
        h.if_empty(h.file.high == h.settings.release)
    }),
    ("empty: low as configured", |h| {
        h.if_empty(h.file.low == h.settings.release)
    }),
    ("count below its limit", |h| {
        h.settings.most == 0 || h.file.count < h.settings.most
    }),
];

fn has_extension_only_at_7(of: Release) -> bool {
    of.release == EXTENDED || of.extension == 0
}

/// Filters differ in their length or in an octet; with zeros behind them these are all 20.
fn has_distinct_filters(state: &State) -> bool {
    let filter = |route: &Route| (route.settings.octets, route.settings.filter);
    let filters: Vec<_> = state.configured().iter().map(filter).collect();
    let is_new = |at: usize| !filters[..at].contains(&filters[at]);
    (0..filters.len()).all(is_new)
}

/// The names of all conditions.
pub fn conditions() -> Vec<&'static str> {
    let of_state = OF_STATE.iter().map(|(name, _)| *name);
    let of_settings = OF_SETTINGS.iter().map(|(name, _)| *name);
    let of_sets = OF_SETS.iter().map(|(name, _)| *name);
    let of_file = OF_FILE.iter().map(|(name, _)| *name);
    let of_routes = of_settings.chain(of_sets).chain(of_file);
    of_state.chain(of_routes).collect()
}

/// The conditions that a state breaks, each as often as it does; none if it is within its bounds.
pub fn broken(state: &State) -> Vec<&'static str> {
    let mut names = Vec::new();
    add_broken(&mut names, &OF_STATE, state);
    for route in state.configured() {
        add_broken(&mut names, &OF_SETTINGS, &route.settings);
        add_broken(&mut names, &OF_SETS, &route.sets);
        if route.open {
            let held = Held {
                last: state.last,
                settings: route.settings,
                file: route.file,
            };
            add_broken(&mut names, &OF_FILE, &held);
        }
    }
    names
}

fn add_broken<T>(names: &mut Vec<&'static str>, conditions: &[Condition<T>], of: &T) {
    let broken = conditions.iter().filter(|(_, holds)| !holds(of));
    names.extend(broken.map(|(name, _)| *name));
}

#[cfg(test)]
mod tests {
    use super::*;
    use crate::states::Minute;

    /// One route with one record, all by hand.
    fn right() -> State {
        let mut state = State {
            count: 1,
            bias: 1_439,
            last: 10,
            ..State::default()
        };
        let route = &mut state.routes[0];
        route.open = true;
        route.settings.limit = 128;
        route.file.appended = 10;
        (route.file.count, route.file.octets) = (1, 4);
        state
    }

    #[test]
    fn the_bounds_are_loose() {
        let mut state = right();
        assert!(broken(&state).is_empty());
        // Two releases in one record, more octets than it has, and a number that is used.
        let file = &mut state.routes[0].file;
        (file.high.release, file.low.release) = (7, 7);
        (file.high.extension, file.octets) = (9, 128 - 63);
        assert!(broken(&state).is_empty());
        // Counters at their end are no matter of 18.
        (state.unrouted, state.routes[0].unrouted) = (u32::MAX, u32::MAX);
        state.routes[0].losses = u32::MAX;
        assert!(broken(&state).is_empty());
        // The other route is not configured, and its filter the same.
        state.routes[1].open = true;
        assert!(broken(&state).is_empty());
        state.count = 2;
        assert!(broken(&state).contains(&"no two filters equal"));
    }

    #[test]
    fn the_loss_counts_stand_in_the_header() {
        let mut state = right();
        state.routes[0].file.octets = 128 - 61;
        assert!(broken(&state).is_empty());
        state.routes[0].file.octets += 1;
        assert_eq!(broken(&state), ["header and records within the limit"]);
    }

    #[test]
    fn sums_do_not_wrap() {
        let mut state = right();
        state.routes[0].file.octets = u32::MAX - 60;
        assert_eq!(broken(&state), ["header and records within the limit"]);
        let mut state = right();
        state.routes[0].file.count = 1 << 30;
        assert_eq!(broken(&state), ["four octets or more a record"]);
        let mut state = right();
        state.routes[1..].fill(Route::default());
        // The last ones are 1 in their lowest octet.
        for count in [9, 255, 1 << 8 | 1, 1 << 31 | 1] {
            state.count = count;
            assert!(broken(&state).contains(&"eight routes or fewer"));
        }
    }

    #[test]
    fn a_file_with_octets_has_records_and_one_without_has_none() {
        let mut state = right();
        state.routes[0].file.octets = 0;
        assert_eq!(broken(&state), ["four octets or more a record"]);
        state.routes[0].file.count = 0;
        assert_eq!(broken(&state), ["empty: last append is the opening"]);
        state.routes[0].file.opened = Minute::lower(10);
        assert!(broken(&state).is_empty());
        state.routes[0].file.octets = 1;
        assert_eq!(broken(&state), ["empty: no octets"]);
    }
}
