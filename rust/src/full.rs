//! Refusal 19: states with counters at their end, and whether an unrouted record and a lost one are
//! then refused. Written from documents 01 and 02.

#![forbid(unsafe_code)]

use crate::forge;
use crate::manager::MOST_ROUTES;
use crate::random::Random;
use crate::states::State;
use std::ops::Range;

/// A way in which counters are full; the others are below their end.
pub struct Full {
    pub name: &'static str,
    /// Whether an unrouted record is refused.
    pub refuses_unrouted: bool,
    /// Whether a record is refused that is lost on the route at hand.
    pub refuses_lost: bool,
    /// The fewest and the most routes of which it can be said.
    routes: [usize; 2],
    /// Fills the counters, the route at hand being this one.
    fill: fn(&mut Random, &mut State, usize),
}

impl Full {
    /// A state within its bounds, and the route at hand.
    pub fn state(&self, random: &mut Random) -> (State, usize) {
        let [fewest, most] = self.routes;
        let count = random.between(fewest, most);
        let mut state = forge::right(random, count);
        let below_end = |counter: &mut u32| *counter = (*counter).min(u32::MAX - 1);
        below_end(&mut state.unrouted);
        for route in &mut state.routes {
            below_end(&mut route.losses);
            below_end(&mut route.unrouted);
        }
        let at = random.below(count);
        (self.fill)(random, &mut state, at);
        (state, at)
    }
}

/// Every counter that can be full, alone and beside others.
pub const FULL: [Full; 11] = [
    Full {
        name: "none, all below by one",
        refuses_unrouted: false,
        refuses_lost: false,
        routes: [1, MOST_ROUTES],
        fill: |_, state, _| {
            state.unrouted = u32::MAX - 1;
            for route in &mut state.routes {
                (route.losses, route.unrouted) = (u32::MAX - 1, u32::MAX - 1);
            }
        },
    },
    Full {
        name: "the manager's",
        refuses_unrouted: true,
        refuses_lost: false,
        routes: [1, MOST_ROUTES],
        fill: |_, state, _| state.unrouted = u32::MAX,
    },
    Full {
        name: "the first route's",
        refuses_unrouted: true,
        refuses_lost: false,
        routes: [1, MOST_ROUTES],
        fill: |_, state, _| state.routes[0].unrouted = u32::MAX,
    },
    Full {
        name: "a middle route's",
        refuses_unrouted: true,
        refuses_lost: false,
        routes: [3, MOST_ROUTES],
        fill: |random, state, _| {
            let middle = random.between(1, state.count as usize - 2);
            state.routes[middle].unrouted = u32::MAX;
        },
    },
    Full {
        name: "the last route's",
        refuses_unrouted: true,
        refuses_lost: false,
        routes: [2, MOST_ROUTES],
        fill: |_, state, _| state.routes[state.count as usize - 1].unrouted = u32::MAX,
    },
    Full {
        name: "every route's",
        refuses_unrouted: true,
        refuses_lost: false,
        routes: [1, MOST_ROUTES],
        fill: |_, state, _| {
            let count = state.count as usize;
            fill_unrouted(state, 0..count);
        },
    },
    Full {
        name: "the manager's and a route's",
        refuses_unrouted: true,
        refuses_lost: false,
        routes: [1, MOST_ROUTES],
        fill: |_, state, at| {
            state.unrouted = u32::MAX;
            state.routes[at].unrouted = u32::MAX;
        },
    },
    Full {
        name: "an unconfigured route's",
        refuses_unrouted: false,
        refuses_lost: false,
        routes: [1, MOST_ROUTES - 1],
        fill: |random, state, _| {
            let first = state.count as usize;
            let any = random.between(first, MOST_ROUTES - 1);
            let one = random.pick(&[first, any, MOST_ROUTES - 1]);
            let [start, end] = random.pick(&[[one, one + 1], [first, MOST_ROUTES]]);
            fill_unrouted(state, start..end);
        },
    },
    Full {
        name: "known losses of the route",
        refuses_unrouted: false,
        refuses_lost: true,
        routes: [1, MOST_ROUTES],
        fill: |_, state, at| state.routes[at].losses = u32::MAX,
    },
    Full {
        name: "known losses of all others",
        refuses_unrouted: false,
        refuses_lost: false,
        routes: [1, MOST_ROUTES],
        fill: |_, state, at| {
            let own = state.routes[at].losses;
            for route in &mut state.routes {
                route.losses = u32::MAX;
            }
            state.routes[at].losses = own;
        },
    },
    Full {
        name: "all",
        refuses_unrouted: true,
        refuses_lost: true,
        routes: [1, MOST_ROUTES],
        fill: |_, state, _| {
            state.unrouted = u32::MAX;
            fill_unrouted(state, 0..MOST_ROUTES);
            for route in &mut state.routes {
                route.losses = u32::MAX;
            }
        },
    },
];

fn fill_unrouted(state: &mut State, routes: Range<usize>) {
    for route in &mut state.routes[routes] {
        route.unrouted = u32::MAX;
    }
}

#[cfg(test)]
mod tests {
    use super::*;
    use crate::bounds::broken;

    #[test]
    fn full_counters_are_within_the_bounds() {
        let random = &mut Random::new(1);
        for full in &FULL {
            for _ in 0..200 {
                let (state, at) = full.state(random);
                assert!(broken(&state).is_empty(), "{}: {state:?}", full.name);
                let configured = state.configured();
                let is_full = configured.iter().any(|route| route.unrouted == u32::MAX);
                assert_eq!(
                    full.refuses_unrouted,
                    is_full || state.unrouted == u32::MAX,
                    "{}",
                    full.name
                );
                assert_eq!(full.refuses_lost, configured[at].losses == u32::MAX);
            }
        }
    }
}
