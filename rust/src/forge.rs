//! Forged states of a manager, such as no list of events need reach: random ones within the bounds
//! of refusal 18, some with a field or a bit changed, and some of which nothing is right; and words
//! of which each is any.

#![forbid(unsafe_code)]

use crate::draft::release;
use crate::fields::Release;
use crate::manager::{DAY, LONGEST_FILTER, MOST_ROUTES, MOST_SETS};
use crate::random::Random;
use crate::second::{LAST_MINUTE, WIDEST_OFFSET};
use crate::states::{Minute, OpenFile, Route, RouteSettings, Sets, State};
use crate::words::{Words, WORDS};
use std::array;

/// An octet that no filter of `right` has.
pub(crate) const NEW: u8 = 0xEE;

/// Any number of routes that may be configured.
pub fn count(random: &mut Random) -> usize {
    random.between(1, MOST_ROUTES)
}

/// A state within its bounds with so many routes; what is not judged is any.
pub fn right(random: &mut Random, count: usize) -> State {
    let any = random.between(0, LAST_MINUTE as usize) as u32;
    let mut state = State {
        routes: [0; MOST_ROUTES].map(|_| any_route(random)),
        last: random.pick(&[0, 1, 1_000, LAST_MINUTE, any, any]),
        ..any_state(random)
    };
    state.count = count as u32;
    let bias = random.below(2 * WIDEST_OFFSET as usize + 1) as u32;
    state.bias = random.pick(&[0, 1_439, 2_878, bias]);
    for (at, filter) in filters(random, count).iter().enumerate() {
        state.routes[at] = right_route(random, state.last, filter);
    }
    if random.once_in(16) {
        make_due(random, &mut state);
    }
    if random.once_in(16) {
        fill_sets(random, &mut state);
    }
    // A route beyond the configured ones may be like one of them.
    if count < MOST_ROUTES && random.once_in(3) {
        state.routes[count] = state.routes[random.below(count)];
    }
    state
}

/// Gives all configured routes open files that are soon due.
fn make_due(random: &mut Random, state: &mut State) {
    let count = state.count as usize;
    for route in &mut state.routes[..count] {
        route.settings.age = random.between(1, 3) as u32;
        if !route.open {
            empty(random, route, state.last);
        }
    }
}

/// Gives all configured routes as many set minutes as they may have.
fn fill_sets(random: &mut Random, state: &mut State) {
    let count = state.count as usize;
    for route in &mut state.routes[..count] {
        let first = random.below(DAY as usize - MOST_SETS) as u32;
        route.sets.count = MOST_SETS as u32;
        route.sets.minutes = array::from_fn(|more| first + more as u32);
    }
}

/// A state of which nothing is right but by chance.
pub fn any(random: &mut Random) -> State {
    State {
        routes: [0; MOST_ROUTES].map(|_| any_route(random)),
        count: any_count(random),
        ..any_state(random)
    }
}

/// Words of which each is any.
pub fn any_words(random: &mut Random) -> Words {
    [0; WORDS].map(|_| random.word() as u32)
}

/// A state within its bounds but for one field, which has any value, or for one bit of its words.
pub fn changed(random: &mut Random) -> State {
    let count = count(random);
    let mut state = right(random, count);
    let other = any_state(random);
    let route = any_route(random);
    let place = &mut state.routes[random.below(count)];
    let (settings, file, sets) = (&mut place.settings, &mut place.file, &mut place.sets);
    match random.below(27) {
        0 => state.count = any_count(random),
        1 => state.bias = other.bias,
        2 => state.last = other.last,
        3 => settings.octets = random.octet() % 24,
        4 => settings.filter[random.below(LONGEST_FILTER)] = random.octet(),
        5 => settings.limit = route.settings.limit,
        6 => settings.most = route.settings.most,
        7 => settings.flag = random.octet() % 3,
        8 => settings.release = route.settings.release,
        9 => settings.release = release(random, 2),
        10 => place.open = !place.open,
        11 => place.file = route.file,
        12 => file.opened = route.file.opened,
        13 => file.appended = route.file.appended,
        14 => file.high = route.file.high,
        15 => file.high = release(random, 2),
        16 => file.low = route.file.low,
        17 => file.low = release(random, 2),
        18 => file.format = random.octet() % 10,
        19 => file.count = random.pick(&[0, 1, file.count.wrapping_add(1), route.file.count]),
        20 => file.octets = random.pick(&[0, 4, file.octets.wrapping_add(1), route.file.octets]),
        21 => std::mem::swap(&mut file.high, &mut file.low),
        22 => sets.count = random.pick(&[sets.count + 1, 25, 256, route.sets.count]),
        23 => sets.minutes[random.below(4)] = random.pick(&[DAY, route.sets.minutes[0]]),
        24 => sets.minutes.swap(0, 1),
        _ => state = with_other_bit(random, &state),
    }
    state
}

/// The state of the same words but for one bit.
fn with_other_bit(random: &mut Random, state: &State) -> State {
    let mut words = state.words();
    words[random.below(WORDS)] ^= 1 << random.below(32);
    State::from_words(&words)
}

/// Any number of 32 bits, often small or at the end.
fn number(random: &mut Random) -> u32 {
    let any = random.word() as u32;
    let small = random.below(1_000) as u32;
    random.pick(&[0, 1, 1 << 30, 1 << 31, u32::MAX, small, small, any])
}

/// A number of routes: about those that may be, also in its lowest octet alone, or any.
fn any_count(random: &mut Random) -> u32 {
    let (few, any) = (random.below(MOST_ROUTES + 2) as u32, number(random));
    random.pick(&[few, few, few, few, 1 << 8 | few, any])
}

/// A counter of losses or of unrouted records: about where the indicator changes, beyond one octet,
/// at its end, and one below it.
fn counter(random: &mut Random) -> u32 {
    let any = random.word() as u32;
    let few = random.pick(&[0, 1, 126, 127, 128, 256]);
    let end = random.pick(&[u32::MAX - 1, u32::MAX]);
    random.pick(&[few, few, few, 40_000, any, any, end])
}

fn any_release(random: &mut Random) -> Release {
    Release {
        release: random.octet() % 10,
        extension: random.octet(),
        version: random.octet() % 40,
    }
}

fn any_file(random: &mut Random) -> OpenFile {
    OpenFile {
        sequence: number(random),
        opened: Minute::lower(number(random)),
        appended: number(random),
        high: any_release(random),
        low: any_release(random),
        format: random.octet(),
        count: number(random),
        octets: number(random),
    }
}

fn any_route(random: &mut Random) -> Route {
    let mut filter = [0; LONGEST_FILTER];
    filter.copy_from_slice(&random.octets(LONGEST_FILTER));
    Route {
        settings: RouteSettings {
            filter,
            octets: random.octet(),
            limit: number(random),
            age: number(random),
            most: number(random),
            flag: random.octet(),
            release: any_release(random),
        },
        sets: any_sets(random),
        next: number(random),
        losses: counter(random),
        unrouted: counter(random),
        open: random.once_in(2),
        file: any_file(random),
    }
}

fn any_sets(random: &mut Random) -> Sets {
    Sets {
        count: number(random),
        minutes: [0; MOST_SETS].map(|_| number(random)),
    }
}

/// Set minutes that are right, often none; those that do not count are any.
fn right_sets(random: &mut Random) -> Sets {
    let mut sets = any_sets(random);
    let few = random.below(MOST_SETS + 1);
    let count = random.pick(&[0, 0, 0, 1, 2, few, MOST_SETS]);
    let mut minutes = Vec::new();
    while minutes.len() < count {
        let any = random.below(DAY as usize) as u32;
        let minute = random.pick(&[0, 1, DAY - 1, any, any, any]);
        if !minutes.contains(&minute) {
            minutes.push(minute);
        }
    }
    minutes.sort_unstable();
    sets.count = count as u32;
    sets.minutes[..count].copy_from_slice(&minutes);
    sets
}

/// The fields of a state beside its routes.
fn any_state(random: &mut Random) -> State {
    let mut address = [0; 16];
    address.copy_from_slice(&random.octets(16));
    State {
        address,
        bias: number(random),
        last: number(random),
        unrouted: counter(random),
        ..State::default()
    }
}

/// Different filters, many of them the beginning of another.
fn filters(random: &mut Random, count: usize) -> Vec<Vec<u8>> {
    let mut filters: Vec<Vec<u8>> = Vec::new();
    while filters.len() < count {
        let mut filter = match filters.last() {
            Some(before) if random.once_in(2) => before.clone(),
            _ => Vec::new(),
        };
        let more = random.pick(&[0, 1, 1, 2, 3, LONGEST_FILTER]);
        filter.extend((0..more).map(|_| random.below(2) as u8));
        filter.truncate(LONGEST_FILTER);
        if !filters.contains(&filter) {
            filters.push(filter);
        }
    }
    filters
}

fn right_route(random: &mut Random, last: u32, filter: &[u8]) -> Route {
    let (limit, most) = (random.between(128, 400), random.between(1, 40));
    let wide = random.between(128, 5_000);
    let limit = random.pick(&[128, 129, limit, limit, limit, limit, limit, wide]);
    let mut route = Route {
        settings: RouteSettings {
            limit: limit as u32,
            age: random.pick(&[0, 0, 1, 10, 1_000, u32::MAX]),
            most: random.pick(&[0, 0, 0, 1, 2, 3, most as u32, u32::MAX]),
            flag: random.below(2) as u8,
            release: release(random, 2),
            ..RouteSettings::default()
        },
        sets: right_sets(random),
        ..any_route(random)
    };
    route.settings.octets = filter.len() as u8;
    route.settings.filter[..filter.len()].copy_from_slice(filter);
    route.open = !random.once_in(4);
    match random.below(4) {
        _ if !route.open => {}
        0 => empty(random, &mut route, last),
        _ if route.settings.most == 1 => empty(random, &mut route, last),
        _ => fill(random, &mut route, last),
    }
    route
}

/// Opens a file without records.
pub(crate) fn empty(random: &mut Random, route: &mut Route, last: u32) {
    let opened = Minute::lower(random.pick(&[last, last / 2, last.saturating_sub(10)]));
    route.open = true;
    route.file = OpenFile {
        opened,
        appended: opened.get(),
        high: route.settings.release,
        low: route.settings.release,
        format: random.octet() % 8,
        count: 0,
        octets: 0,
        ..route.file
    };
}

/// Opens a file of records, which its limit of records must allow. Their octets, number and
/// releases agree as far as the bounds ask, and no further.
pub(crate) fn fill(random: &mut Random, route: &mut Route, last: u32) {
    let settings = route.settings;
    let mut releases = [release(random, 2), release(random, 2)];
    releases.sort();
    let [low, high] = match settings.flag {
        0 => releases,
        _ => [releases[0]; 2],
    };
    let room = (settings.limit - settings.header_octets(high, low)) as usize;
    let (some, nearly) = (random.between(4, room), room - random.below(20));
    let octets = random.pick(&[4, room, nearly, some, some]) as u32;
    let most = match settings.most {
        0 => octets / 4,
        most => (octets / 4).min(most - 1),
    };
    let count = random.between(1, most as usize) as u32;
    let appended = random.pick(&[last, last / 2, last.saturating_sub(1)]);
    let opened = random.pick(&[appended, appended / 2, appended.saturating_sub(10)]);
    route.open = true;
    route.file = OpenFile {
        opened: Minute::lower(opened),
        appended,
        high,
        low,
        format: random.octet() % 8,
        count: random.pick(&[1, most, count, count]),
        octets,
        ..route.file
    };
}

#[cfg(test)]
mod tests {
    use super::*;
    use crate::bounds::broken;

    const ROUNDS: usize = 2_000;

    #[test]
    fn right_states_are_within_the_bounds() {
        let random = &mut Random::new(1);
        for _ in 0..ROUNDS {
            let count = count(random);
            let state = right(random, count);
            assert!(broken(&state).is_empty(), "{state:?}");
        }
    }

    #[test]
    fn changed_ones_are_within_or_beyond_and_any_beyond() {
        let random = &mut Random::new(2);
        let within = (0..ROUNDS).filter(|_| broken(&changed(random)).is_empty());
        assert!((ROUNDS / 10..ROUNDS * 9 / 10).contains(&within.count()));
        let within = (0..ROUNDS).filter(|_| broken(&any(random)).is_empty());
        assert_eq!(within.count(), 0);
    }
}
