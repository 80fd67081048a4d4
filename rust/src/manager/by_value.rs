//! The plain manager with its state by value: made from any state within the bounds of refusal 18,
//! reachable or not, and the state behind its events.

use super::{Manager, Node, OpenFile, Rank, Route};
use crate::fields::Release;
use crate::second::WIDEST_OFFSET;
use crate::states::{self, Minute, RouteSettings, State};

impl Manager {
    /// The manager in this state, which is within its bounds.
    pub fn from_state(state: &State) -> Self {
        let mut address = [0xFF; 20];
        address[4..].copy_from_slice(&state.address);
        let offset = i64::from(state.bias) - WIDEST_OFFSET;
        let mut regions = 0;
        let mut routes = Vec::new();
        for route in state.configured() {
            routes.push(Route::from_state(route, regions));
            regions += route.settings.limit as usize;
        }
        Self {
            node: Node { address, offset },
            routes,
            regions,
            last: state.last,
            unrouted: state.unrouted,
        }
    }

    /// The state by value; all that is not configured or not open is zeros.
    pub fn state(&self) -> State {
        let mut state = State {
            count: self.routes.len() as u32,
            bias: (self.node.offset + WIDEST_OFFSET) as u32,
            ..State::default()
        };
        state.address.copy_from_slice(&self.node.address[4..]);
        for (place, route) in state.routes.iter_mut().zip(&self.routes) {
            place.settings = route.settings();
            place.sets.count = route.minutes.len() as u32;
            for (place, &minute) in place.sets.minutes.iter_mut().zip(&route.minutes) {
                *place = minute.into();
            }
        }
        self.state_after(&state)
    }

    /// The state that an event has left, begun in this one. Events keep the settings, and whatever
    /// stands in the places of routes that are not configured.
    pub fn state_after(&self, before: &State) -> State {
        let mut state = *before;
        for (place, route) in state.routes.iter_mut().zip(&self.routes) {
            *place = route.state_after(place);
        }
        state.last = self.last;
        state.unrouted = self.unrouted;
        state
    }
}

impl Route {
    fn from_state(route: &states::Route, region: usize) -> Self {
        let settings = &route.settings;
        Self {
            filter: settings.filter,
            filter_octets: settings.octets.into(),
            limit: settings.limit as usize,
            age: settings.age,
            most: settings.most,
            one_release: settings.flag == 1,
            release: rank(settings.release),
            minutes: route.sets.counted().iter().map(|&m| m as u16).collect(),
            region,
            next: route.next,
            losses: route.losses,
            unrouted: route.unrouted,
            file: route.open.then(|| OpenFile::from_state(&route.file)),
        }
    }

    fn settings(&self) -> RouteSettings {
        RouteSettings {
            filter: self.filter,
            octets: self.filter_octets as u8,
            limit: self.limit as u32,
            age: self.age,
            most: self.most,
            flag: self.one_release.into(),
            release: release(self.release),
        }
    }

    fn state_after(&self, before: &states::Route) -> states::Route {
        states::Route {
            next: self.next,
            losses: self.losses,
            unrouted: self.unrouted,
            open: self.file.is_some(),
            file: match &self.file {
                Some(file) => file.state(),
                // One was open, or was opened at this event and used up a number: it has closed,
                // and leaves no remains.
                None if before.open || self.next != before.next => states::OpenFile::default(),
                None => before.file,
            },
            ..*before
        }
    }
}

impl OpenFile {
    fn from_state(file: &states::OpenFile) -> Self {
        Self {
            sequence: file.sequence,
            opened: file.opened.get(),
            appended: file.appended,
            high: rank(file.high),
            low: rank(file.low),
            format: file.format,
            count: file.count,
            octets: file.octets as usize,
        }
    }

    fn state(&self) -> states::OpenFile {
        states::OpenFile {
            sequence: self.sequence,
            opened: Minute::lower(self.opened),
            appended: self.appended,
            high: release(self.high),
            low: release(self.low),
            format: self.format,
            count: self.count,
            octets: self.octets as u32,
        }
    }
}

fn rank(of: Release) -> Rank {
    let rank = Rank::new(of.release.into(), of.extension, of.version.into());
    rank.expect("a state within its bounds has releases in range")
}

fn release(rank: Rank) -> Release {
    Release {
        release: rank.octet() >> 5,
        extension: rank.extension(),
        version: rank.octet() & 31,
    }
}

#[cfg(test)]
mod tests {
    use super::*;
    use crate::bounds;
    use crate::forge;
    use crate::random::Random;
    use crate::states::Sets;

    #[test]
    fn a_state_comes_back_as_it_was() {
        let random = &mut Random::new(4);
        for _ in 0..1_000 {
            let count = forge::count(random);
            let state = forge::right(random, count);
            let manager = Manager::from_state(&state);
            assert!(manager.is_within_bounds());
            assert_eq!(manager.state_after(&state), state);
            assert_eq!(Manager::from_state(&manager.state()), manager);
        }
    }

    /// What does not count is zeros.
    fn fresh(sets: &Sets) -> Sets {
        let mut fresh = Sets {
            count: sets.count,
            ..Sets::default()
        };
        let counted = sets.counted();
        fresh.minutes[..counted.len()].copy_from_slice(counted);
        fresh
    }

    #[test]
    fn a_fresh_manager_has_a_fresh_state() {
        let random = &mut Random::new(5);
        for _ in 0..1_000 {
            let count = forge::count(random);
            let given = forge::right(random, count);
            let state = Manager::load(&given.settings()).unwrap().state();
            assert!(bounds::broken(&state).is_empty());
            assert_eq!(state.settings(), given.settings());
            assert_eq!((state.last, state.unrouted), (0, 0));
            let expected = |route: &states::Route| states::Route {
                settings: route.settings,
                sets: fresh(&route.sets),
                next: route.next,
                ..states::Route::default()
            };
            let expected: Vec<_> = given.configured().iter().map(expected).collect();
            assert_eq!(state.configured(), expected);
        }
    }

    /// A closed route's remains stay until a file closes there, which leaves zeros.
    #[test]
    fn remains_stay_until_a_file_closes() {
        let random = &mut Random::new(6);
        let mut before = forge::right(random, 1);
        let route = &mut before.routes[0];
        route.open = false;
        route.file.sequence = 9;
        let mut manager = Manager::from_state(&before);
        let store = vec![0; manager.store_octets()];
        let mut output = vec![0; 200];
        manager.tick(&store, &mut output, 0).unwrap();
        assert_eq!(manager.state_after(&before), before);
        manager.open(&store, 0, 0).unwrap();
        let open = manager.state_after(&before);
        assert_eq!(open.routes[0].file.sequence, before.routes[0].next);
        manager.close(&store, &mut output, 0, 0, 4).unwrap();
        for before in [before, open] {
            let closed = manager.state_after(&before).routes[0];
            assert_eq!(closed.file, states::OpenFile::default());
            assert!(!closed.open);
        }
    }
}
