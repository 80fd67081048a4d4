//! A state as the 360 words in which it is lent to the proved manager: the node's eight, then nineteen
//! for each of eight routes, configured or not, then how many set minutes each has, and then room for
//! 24 of each. No bit is without a meaning, so that any words are a state's and any state has its words.

#![forbid(unsafe_code)]

use crate::fields::Release;
use crate::manager::{MOST_ROUTES, MOST_SETS};
use crate::states::{Minute, OpenFile, Route, RouteSettings, Sets, State};
use std::array;

/// Words of the node and of a route; where the numbers of set minutes stand, and where the minutes do.
const NODE: usize = 8;
const ROUTE: usize = 19;
const COUNTS: usize = NODE + MOST_ROUTES * ROUTE;
const MINUTES: usize = COUNTS + MOST_ROUTES;
/// Words of a state.
pub const WORDS: usize = MINUTES + MOST_ROUTES * MOST_SETS;

pub type Words = [u32; WORDS];

impl State {
    pub fn from_words(words: &Words) -> Self {
        Self {
            address: octets(&words[..4]),
            bias: words[4],
            count: words[5],
            last: words[6],
            unrouted: words[7],
            routes: array::from_fn(|at| Route {
                sets: Sets {
                    count: words[COUNTS + at],
                    minutes: array::from_fn(|minute| words[MINUTES + at * MOST_SETS + minute]),
                },
                ..Route::from_words(&words[NODE + at * ROUTE..][..ROUTE])
            }),
        }
    }

    /// The state of these words, if they are as many as a state has.
    pub fn from_any_words(words: &[u32]) -> Option<Self> {
        words.try_into().ok().map(Self::from_words)
    }

    pub fn words(&self) -> Words {
        let mut words = [0; WORDS];
        let (node, behind) = words.split_at_mut(NODE);
        let (routes, sets) = behind.split_at_mut(COUNTS - NODE);
        let (counts, minutes) = sets.split_at_mut(MOST_ROUTES);
        let [a, b, c, d] = packed(&self.address);
        node.copy_from_slice(&[a, b, c, d, self.bias, self.count, self.last, self.unrouted]);
        for (place, route) in routes.chunks_exact_mut(ROUTE).zip(&self.routes) {
            place.copy_from_slice(&route.words());
        }
        for (place, route) in counts.iter_mut().zip(&self.routes) {
            *place = route.sets.count;
        }
        for (place, route) in minutes.chunks_exact_mut(MOST_SETS).zip(&self.routes) {
            place.copy_from_slice(&route.sets.minutes);
        }
        words
    }
}

impl Route {
    fn from_words(words: &[u32]) -> Self {
        let (filter_octets, release) = apart(words[5]);
        let (open, opened) = marked(words[13]);
        let (format, high) = apart(words[15]);
        let (flag, low) = apart(words[16]);
        Self {
            sets: Sets::default(),
            settings: RouteSettings {
                filter: octets(&words[..5]),
                octets: filter_octets,
                limit: words[6],
                age: words[7],
                most: words[8],
                flag,
                release,
            },
            next: words[9],
            losses: words[10],
            unrouted: words[11],
            open,
            file: OpenFile {
                sequence: words[12],
                opened,
                appended: words[14],
                high,
                low,
                format,
                count: words[17],
                octets: words[18],
            },
        }
    }

    fn words(&self) -> [u32; ROUTE] {
        let Self { settings, file, .. } = self;
        let [a, b, c, d, e] = packed(&settings.filter);
        [
            a,
            b,
            c,
            d,
            e,
            joined(settings.octets, settings.release),
            settings.limit,
            settings.age,
            settings.most,
            self.next,
            self.losses,
            self.unrouted,
            file.sequence,
            with_mark(self.open, file.opened),
            file.appended,
            joined(file.format, file.high),
            joined(settings.flag, file.low),
            file.count,
            file.octets,
        ]
    }
}

/// The octets of words, four a word and the first the highest.
fn octets<const N: usize>(words: &[u32]) -> [u8; N] {
    let mut octets = [0; N];
    for (place, word) in octets.chunks_exact_mut(4).zip(words) {
        place.copy_from_slice(&word.to_be_bytes());
    }
    octets
}

/// The words of octets, packed in the same way.
fn packed<const N: usize>(octets: &[u8]) -> [u32; N] {
    let word = |at: usize| {
        let four = &octets[4 * at..][..4];
        u32::from_be_bytes([four[0], four[1], four[2], four[3]])
    };
    array::from_fn(word)
}

/// The highest octet, and the release in the others.
fn apart(word: u32) -> (u8, Release) {
    let [highest, release, extension, version] = word.to_be_bytes();
    let release = Release {
        release,
        extension,
        version,
    };
    (highest, release)
}

fn joined(highest: u8, of: Release) -> u32 {
    u32::from_be_bytes([highest, of.release, of.extension, of.version])
}

/// The highest bit, and the minute in the others.
fn marked(word: u32) -> (bool, Minute) {
    (word >> 31 == 1, Minute::lower(word))
}

fn with_mark(mark: bool, minute: Minute) -> u32 {
    u32::from(mark) << 31 | minute.get()
}

#[cfg(test)]
mod tests {
    use super::*;
    use crate::forge;
    use crate::random::Random;

    const ROUNDS: usize = 2_000;
    /// The bit that the opening's word has beside a minute.
    const TOP: u32 = 1 << 31;
    const RELEASE: Release = Release {
        release: 1,
        extension: 2,
        version: 3,
    };

    fn comes_back(words: &Words) {
        assert_eq!(State::from_words(words).words(), *words);
    }

    #[test]
    fn any_words_come_back() {
        let random = &mut Random::new(1);
        for _ in 0..ROUNDS {
            comes_back(&forge::any_words(random));
        }
        comes_back(&[u32::MAX; WORDS]);
        for bit in 0..WORDS * 32 {
            let mut words = [0; WORDS];
            words[bit / 32] = 1 << (bit % 32);
            comes_back(&words);
        }
    }

    #[test]
    fn any_state_comes_back() {
        let random = &mut Random::new(2);
        for _ in 0..ROUNDS {
            let count = forge::count(random);
            let right = forge::right(random, count);
            for state in [right, forge::changed(random), forge::any(random)] {
                assert_eq!(State::from_words(&state.words()), state);
            }
        }
    }

    #[test]
    fn words_of_another_number_are_no_states() {
        let words = [0; WORDS + 1];
        for number in 0..=WORDS + 1 {
            let state = State::from_any_words(&words[..number]);
            assert_eq!(state.is_some(), number == WORDS);
        }
    }

    /// The words of zeros but for one field, of the node or of route 2, which begins at word 46.
    fn with(put: fn(&mut State, &mut Route)) -> Vec<(usize, u32)> {
        let (mut state, mut route) = (State::default(), Route::default());
        put(&mut state, &mut route);
        state.routes[2] = route;
        let words = state.words().into_iter().enumerate();
        words.filter(|&(_, word)| word != 0).collect()
    }

    #[test]
    fn each_field_of_the_node_has_its_place() {
        assert_eq!(with(|s, _| s.address[0] = 9), [(0, 9 << 24)]);
        assert_eq!(with(|s, _| s.address[3] = 9), [(0, 9)]);
        assert_eq!(with(|s, _| s.address[13] = 9), [(3, 9 << 16)]);
        assert_eq!(with(|s, _| s.bias = u32::MAX), [(4, u32::MAX)]);
        assert_eq!(with(|s, _| s.count = u32::MAX), [(5, u32::MAX)]);
        assert_eq!(with(|s, _| s.last = u32::MAX), [(6, u32::MAX)]);
        assert_eq!(with(|s, _| s.unrouted = u32::MAX), [(7, u32::MAX)]);
    }

    #[test]
    fn each_field_of_a_route_has_its_place() {
        assert_eq!(with(|_, r| r.settings.filter[0] = 9), [(46, 9 << 24)]);
        assert_eq!(with(|_, r| r.settings.filter[18] = 9), [(50, 9 << 8)]);
        assert_eq!(with(|_, r| r.settings.octets = 255), [(51, 255 << 24)]);
        assert_eq!(with(|_, r| r.settings.release = RELEASE), [(51, 0x010203)]);
        assert_eq!(with(|_, r| r.settings.limit = u32::MAX), [(52, u32::MAX)]);
        assert_eq!(with(|_, r| r.settings.age = u32::MAX), [(53, u32::MAX)]);
        assert_eq!(with(|_, r| r.settings.most = u32::MAX), [(54, u32::MAX)]);
        assert_eq!(with(|_, r| r.next = u32::MAX), [(55, u32::MAX)]);
        assert_eq!(with(|_, r| r.losses = u32::MAX), [(56, u32::MAX)]);
        assert_eq!(with(|_, r| r.unrouted = u32::MAX), [(57, u32::MAX)]);
    }

    #[test]
    fn each_field_of_a_file_has_its_place() {
        assert_eq!(with(|_, r| r.file.sequence = u32::MAX), [(58, u32::MAX)]);
        assert_eq!(with(|_, r| r.file.opened = Minute::MAX), [(59, TOP - 1)]);
        assert_eq!(with(|_, r| r.open = true), [(59, TOP)]);
        assert_eq!(with(|_, r| r.file.appended = u32::MAX), [(60, u32::MAX)]);
        assert_eq!(with(|_, r| r.file.format = 255), [(61, 255 << 24)]);
        assert_eq!(with(|_, r| r.file.high = RELEASE), [(61, 0x010203)]);
        assert_eq!(with(|_, r| r.settings.flag = 255), [(62, 255 << 24)]);
        assert_eq!(with(|_, r| r.file.low = RELEASE), [(62, 0x010203)]);
        assert_eq!(with(|_, r| r.file.count = u32::MAX), [(63, u32::MAX)]);
        assert_eq!(with(|_, r| r.file.octets = u32::MAX), [(64, u32::MAX)]);
    }

    #[test]
    fn each_set_minute_has_its_place() {
        assert_eq!(with(|_, r| r.sets.count = u32::MAX), [(162, u32::MAX)]);
        assert_eq!(with(|_, r| r.sets.minutes[0] = 9), [(216, 9)]);
        assert_eq!(with(|_, r| r.sets.minutes[23] = 9), [(239, 9)]);
    }

    #[test]
    fn a_state_has_360_words() {
        assert_eq!(WORDS, 360);
    }
}
