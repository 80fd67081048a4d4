//! Events on the words of forged states: each with a store and an output, and what the plain
//! manager makes of it.

#![forbid(unsafe_code)]

use crate::bounds;
use crate::draft::release;
use crate::fields::Release;
use crate::forge::NEW;
use crate::manager::{Arrival, Manager, DAY, LONGEST_FILTER};
use crate::random::Random;
use crate::second::{self, LAST_MINUTE, RESERVED, WIDEST_OFFSET};
use crate::states::{Answer, Route, RouteSettings, State};

/// Stores beyond this are slow to make, so that most are made too short.
const LONG_STORE: u64 = 65_536;

/// What RECEIVE carries beside the time.
#[derive(Clone, Debug, PartialEq, Eq)]
pub struct Received {
    pub mark: u32,
    pub release: u32,
    pub version: u32,
    pub extension: u8,
    pub format: u32,
    pub ts: u32,
    pub key: Vec<u8>,
    pub body: Vec<u8>,
}

impl Received {
    pub fn arrival(&self) -> Arrival<'_> {
        Arrival {
            mark: self.mark,
            key: &self.key,
            release: self.release,
            version: self.version,
            extension: self.extension,
            format: self.format,
            ts: self.ts,
            body: &self.body,
        }
    }
}

#[derive(Clone, Debug, PartialEq, Eq)]
pub enum Event {
    Open { route: u32 },
    Close { route: u32, reason: u32 },
    Tick,
    Receive(Received),
}

/// An event at a time, with the words of the state, the store and the output that it is lent.
#[derive(Clone, Debug, PartialEq, Eq)]
pub struct Trial {
    /// May be too few or too many.
    pub words: Vec<u32>,
    pub store: Vec<u8>,
    pub output: Vec<u8>,
    pub time: u32,
    pub event: Event,
}

/// What an event leaves.
#[derive(Clone, Debug, PartialEq, Eq)]
pub struct After {
    pub answer: Answer,
    pub words: Vec<u32>,
    pub store: Vec<u8>,
    pub output: Vec<u8>,
}

impl After {
    /// The state that is left, unless its words have another number.
    pub fn state(&self) -> Option<State> {
        State::from_any_words(&self.words)
    }
}

impl Trial {
    /// All four events on a state.
    pub fn all(random: &mut Random, state: &State) -> [Self; 4] {
        let events = [
            Event::Open {
                route: route(random, state),
            },
            Event::Close {
                route: route(random, state),
                reason: reason(random),
            },
            Event::Tick,
            Event::Receive(received(random, state)),
        ];
        events.map(|event| {
            let octets = store_octets(random, state);
            let mut trial = Self {
                words: state.words().to_vec(),
                store: background(random, octets),
                output: Vec::new(),
                time: time(random, state),
                event,
            };
            let octets = output_octets(random, trial.expected().answer);
            trial.output = background(random, octets);
            trial
        })
    }

    /// RECEIVE of this record on a state within its bounds; time and store are right, so that only the
    /// record and the state decide.
    pub fn receiving(random: &mut Random, state: &State, received: Received) -> Self {
        let later = state.last.saturating_add(random.below(20) as u32);
        let octets = random.below(200);
        Self {
            words: state.words().to_vec(),
            store: background(random, state.regions() as usize),
            output: background(random, octets),
            time: later.min(LAST_MINUTE),
            event: Event::Receive(received),
        }
    }

    /// The state that it is lent, unless its words have another number.
    pub fn state(&self) -> Option<State> {
        State::from_any_words(&self.words)
    }

    /// What the event must leave: 18 and all unchanged if there is no state or one beyond its
    /// bounds, and else what the plain manager in this state leaves.
    pub fn expected(&self) -> After {
        let mut after = After {
            answer: Answer {
                refusal: 18,
                ..Answer::default()
            },
            words: self.words.clone(),
            store: self.store.clone(),
            output: self.output.clone(),
        };
        let within = |state: &State| bounds::broken(state).is_empty();
        if let Some(state) = self.state().filter(within) {
            self.run_plain(&state, &mut after);
        }
        after
    }

    fn run_plain(&self, state: &State, after: &mut After) {
        let mut manager = Manager::from_state(state);
        let (store, output, time) = (&mut after.store, &mut after.output, self.time);
        let answer = match &self.event {
            Event::Open { route } => manager.open(store, time, *route),
            Event::Close { route, reason } => manager.close(store, output, time, *route, *reason),
            Event::Tick => manager.tick(store, output, time),
            Event::Receive(received) => manager.receive(store, output, time, &received.arrival()),
        };
        after.answer = answer.into();
        after.words = manager.state_after(state).words().to_vec();
    }

    /// Whether an open file has other octets in the store than so many records: no list of events
    /// leaves such a state behind. A store that is too short does not tell.
    pub fn is_unreachable(&self) -> bool {
        let has_regions = |state: &State| state.regions() <= self.store.len() as u64;
        let Some(state) = self.state().filter(has_regions) else {
            return false;
        };
        let mut region = 0;
        state.configured().iter().any(|route| {
            let start = region;
            region += route.settings.limit as usize;
            if !route.open {
                return false;
            }
            let end = start + route.file.octets as usize;
            let records = self.store.get(start..end);
            records.and_then(count_of) != Some(route.file.count)
        })
    }
}

/// How many records stand here one behind another, if nothing else does.
fn count_of(records: &[u8]) -> Option<u32> {
    let (mut at, mut count) = (0, 0);
    while at < records.len() {
        at += second::step(records, at).ok()?.octets();
        count += 1;
    }
    Some(count)
}

/// What a store or an output holds before the event.
pub(crate) fn background(random: &mut Random, octets: usize) -> Vec<u8> {
    match octets {
        0..=8_192 => random.octets(octets),
        _ => vec![random.octet(); octets],
    }
}

/// As long as all regions, longer, or too short.
pub(crate) fn store_octets(random: &mut Random, state: &State) -> usize {
    let regions = state.regions();
    if regions > LONG_STORE && !(regions < 1 << 24 && random.once_in(20)) {
        return random.below(1_000);
    }
    let regions = regions as usize;
    match random.below(16) {
        0 => regions.saturating_sub(1),
        1 => random.below(regions + 1),
        2 | 3 => regions + random.between(1, 40),
        _ => regions,
    }
}

/// About as long as what an event needs, which it answered when it was lent no output.
fn output_octets(random: &mut Random, answer: Answer) -> usize {
    let needed = match answer.refusal {
        17 => answer.octets,
        _ => random.below(100),
    };
    match random.below(8) {
        0 => 0,
        1 => needed.saturating_sub(1),
        2 => random.below(needed + 1),
        3 | 4 => needed + random.between(1, 40),
        _ => needed,
    }
}

/// A route that is configured, if one is.
fn some_route<'a>(random: &mut Random, state: &'a State) -> &'a Route {
    let configured = state.configured();
    match configured.len() {
        0 => &state.routes[0],
        count => &configured[random.below(count)],
    }
}

/// A time: right ones about the last time, about the minute at which a file is due, and about the next
/// at which a set minute falls.
pub(crate) fn time(random: &mut Random, state: &State) -> u32 {
    let route = some_route(random, state);
    let opened = route.file.opened.get();
    let due = opened.wrapping_add(route.settings.age);
    let set = match route.sets.counted() {
        [] => due,
        minutes => {
            let wait = i64::from(random.pick(minutes)) + WIDEST_OFFSET;
            let wait = wait - i64::from(opened) - i64::from(state.bias);
            opened.wrapping_add(wait.rem_euclid(DAY.into()) as u32)
        }
    };
    let due = random.pick(&[due, set]);
    let any = random.between(0, LAST_MINUTE as usize) as u32;
    let [late, later] = [LAST_MINUTE + 1, random.word() as u32];
    let time = match random.below(16) {
        0 => return random.pick(&[late, late, u32::MAX, 1 << 31, later]),
        1 => 0,
        2 => any,
        3 => LAST_MINUTE,
        4 => state.last,
        5 => state.last.saturating_sub(random.below(20) as u32),
        6..=9 => state.last.saturating_add(random.below(20) as u32),
        _ => due.wrapping_sub(random.below(3) as u32).wrapping_add(1),
    };
    time.min(LAST_MINUTE)
}

fn route(random: &mut Random, state: &State) -> u32 {
    let count = state.count;
    let at = random.below(state.configured().len().max(1)) as u32;
    match random.below(16) {
        0 => random.pick(&[count, 7, 8, 255, 256, 256 + at, 1 << 31 | at, u32::MAX]),
        _ => at,
    }
}

fn reason(random: &mut Random) -> u32 {
    let any = random.word() as u32;
    match random.below(16) {
        0 => random.pick(&[1, 2, 3, 5, 127, 132, 255, 256, 260, 384, u32::MAX, any]),
        _ => random.pick(&[0, 4, 128, 129, 130, 131]),
    }
}

/// A record for one of the routes, with fields like those of the file there and a body that often
/// is about as long as fits.
pub(crate) fn received(random: &mut Random, state: &State) -> Received {
    let route = *some_route(random, state);
    let any = release(random, 2);
    let file = route.file;
    let release = random.pick(&[file.high, file.low, route.settings.release, any, any]);
    let format = match random.below(4) {
        0 => random.below(8) as u32,
        _ => file.format.into(),
    };
    let mut received = Received {
        mark: random.pick(&[0, 0, 0, 0, 0, 0, 1, 1, 2]),
        release: release.release.into(),
        version: release.version.into(),
        extension: release.extension,
        format,
        ts: random.below(32) as u32,
        key: key(random, &route),
        body: Vec::new(),
    };
    let octets = body_octets(random, &route, release);
    received.body = background(random, octets);
    if random.once_in(12) {
        spoil(random, &mut received);
    }
    received
}

/// A record that no route of a state of `forge::right` takes: nothing of it is to be trusted, or its
/// key is good and no filter fits.
pub fn unrouted(random: &mut Random, state: &State) -> Received {
    let takes_all = |route: &Route| route.settings.octets == 0;
    if state.configured().iter().any(takes_all) || random.once_in(2) {
        return Received {
            mark: 2,
            ..received(random, state)
        };
    }
    Received {
        mark: random.pick(&[0, 1]),
        key: vec![NEW; random.below(LONGEST_FILTER + 1)],
        ..usable(random)
    }
}

/// A record that this route loses: unusable, or too long for a file that holds it alone.
pub fn lost(random: &mut Random, route: &Route) -> Received {
    let RouteSettings {
        filter,
        octets,
        limit,
        ..
    } = route.settings;
    let mut record = usable(random);
    if random.once_in(2) {
        spoil(random, &mut record);
        record.mark = 1;
    } else {
        record.body = background(random, limit as usize);
    }
    // No other filter that fits it is as long.
    record.key = filter[..octets.into()].to_vec();
    record
}

/// A usable record of any fields, without key and body.
fn usable(random: &mut Random) -> Received {
    let release = release(random, 2);
    Received {
        mark: 0,
        release: release.release.into(),
        version: release.version.into(),
        extension: release.extension,
        format: random.below(8) as u32,
        ts: random.below(32) as u32,
        key: Vec::new(),
        body: Vec::new(),
    }
}

/// Makes one field wrong, also such that it is right if its upper bits are lost.
fn spoil(random: &mut Random, received: &mut Received) {
    match random.below(7) {
        0 => received.mark = random.pick(&[3, 4, 256, 258, u32::MAX]),
        1 => received.release = random.pick(&[8, 15, 256 + 4, u32::MAX]),
        2 => received.version = random.pick(&[32, 63, 256 + 4, u32::MAX]),
        3 => received.format = random.pick(&[8, 15, 256 + 4, u32::MAX]),
        4 => received.ts = random.pick(&[32, 63, 256 + 4, u32::MAX]),
        5 => received.extension = random.octet() | 1,
        _ => received.key.resize(random.pick(&[21, 21, 22, 276]), 0),
    }
}

/// A key that begins with the route's filter, mostly.
fn key(random: &mut Random, route: &Route) -> Vec<u8> {
    let octets = usize::from(route.settings.octets).min(LONGEST_FILTER);
    let mut key = route.settings.filter[..octets].to_vec();
    match random.below(10) {
        0 => key.truncate(random.below(octets + 1)),
        1 => key = (0..octets).map(|_| random.below(2) as u8).collect(),
        2..=4 => {}
        _ => {
            let more = random.below(LONGEST_FILTER + 1 - octets);
            key.extend((0..more).map(|_| random.below(2) as u8));
        }
    }
    key
}

/// A few octets, or about as many as a file has room for: one with this record alone, or the open
/// one with this record added. Rarely about as many as a record may have.
fn body_octets(random: &mut Random, route: &Route, release: Release) -> usize {
    let Route { settings, file, .. } = route;
    let (high, low) = (file.high.max(release), file.low.min(release));
    let alone = i64::from(settings.header_octets(release, release));
    let joined = i64::from(settings.header_octets(high, low)) + i64::from(file.octets);
    let header = 4 + i64::from(release.release == second::EXTENDED);
    let before = match random.below(200) {
        0 => return random.between(RESERVED - 2, RESERVED + 1),
        1..=40 => alone,
        41..=100 => joined,
        _ => return random.below(16),
    };
    let room = i64::from(settings.limit) - before - header;
    let room = room.clamp(1, RESERVED as i64 - 1) as usize;
    random.between(room - 1, room + 1)
}

#[cfg(test)]
mod tests {
    use super::*;
    use crate::faults::FAULTS;
    use crate::forge;
    use crate::full::FULL;
    use crate::words::WORDS;

    /// That 18 is expected and nothing else.
    fn refuses(trial: &Trial, why: &str) {
        let after = trial.expected();
        let answer = Answer {
            refusal: 18,
            ..Answer::default()
        };
        assert_eq!(after.answer, answer, "{why}");
        assert_eq!(after.words, trial.words);
        assert_eq!((&after.store, &after.output), (&trial.store, &trial.output));
    }

    #[test]
    fn a_state_beyond_its_bounds_is_refused_and_all_stays() {
        let random = &mut Random::new(7);
        for fault in &FAULTS {
            let [past, within] = fault.pair(random);
            for trial in Trial::all(random, &past) {
                refuses(&trial, fault.name);
            }
            for trial in Trial::all(random, &within) {
                assert_ne!(trial.expected().answer.refusal, 18, "{}", fault.name);
            }
        }
    }

    #[test]
    fn words_of_another_number_are_refused_and_all_stays() {
        let random = &mut Random::new(9);
        let state = forge::right(random, 3);
        for mut trial in Trial::all(random, &state) {
            assert_ne!(trial.expected().answer.refusal, 18);
            trial.words.push(0);
            refuses(&trial, "one more");
            for fewer in [WORDS - 1, 8, 1, 0] {
                trial.words.truncate(fewer);
                refuses(&trial, "too few");
            }
        }
    }

    #[test]
    fn records_are_unrouted_or_lost_as_they_are_made() {
        let random = &mut Random::new(10);
        for full in &FULL {
            let (state, at) = full.state(random);
            let records = [
                (unrouted(random, &state), full.refuses_unrouted, 4),
                (lost(random, &state.routes[at]), full.refuses_lost, 3),
            ];
            for (record, is_refused, outcome) in records {
                let trial = Trial::receiving(random, &state, record);
                let answer = trial.expected().answer;
                let planned = if is_refused { (19, 0) } else { (0, outcome) };
                assert_eq!((answer.refusal, answer.outcome), planned, "{}", full.name);
            }
        }
    }

    #[test]
    fn events_reach_what_they_leave_and_not_what_is_forged() {
        let random = &mut Random::new(8);
        let settings = forge::right(random, 3).settings();
        let mut state = Manager::load(&settings).unwrap().state();
        let mut store = vec![0; state.regions() as usize];
        for _ in 0..100 {
            for mut trial in Trial::all(random, &state) {
                (trial.words, trial.store) = (state.words().to_vec(), store);
                assert!(!trial.is_unreachable());
                let after = trial.expected();
                (state, store) = (after.state().unwrap(), after.store);
            }
        }
        let route = &mut state.routes[0];
        (route.open, route.file.count, route.file.octets) = (true, 1, 3);
        let mut trial = Trial::all(random, &state)[0].clone();
        trial.store = store;
        assert!(trial.is_unreachable());
    }
}
