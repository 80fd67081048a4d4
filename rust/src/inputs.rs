//! The inputs on which the two writers are compared: every combination of faults, so that the order
//! of the writer's refusals shows, and those about the length of the longest file.

use crate::dates;
use crate::draft::Draft;
use crate::fields::{Header, Release, Timestamp, EMPTY, NONE, OCTETS};
use crate::random::Random;
use crate::second::{EXTENDED, FIXED, LONGEST_FILE};

/// The writer's refusals in their order. A combination of faults is a set of places in this list.
pub const REFUSALS: [u8; 6] = [2, 10, 11, 13, 8, 17];
/// How many combinations there are.
pub const COMBINATIONS: usize = 1 << REFUSALS.len();

/// What a writer is given, with an output of `room` octets, and what it should answer.
pub struct Input {
    pub header: Header,
    pub filter: Vec<u8>,
    pub private: Vec<u8>,
    pub records: Vec<u8>,
    pub room: usize,
    /// The first fault's refusal, or 0.
    pub answer: u8,
}

/// An input about the length of the longest file, of records of four octets that are all alike: what
/// `WriterLimit` of `edge_table` says of every output is run here on one.
pub struct Limit {
    pub name: &'static str,
    filter: usize,
    records: usize,
    /// Whether high is not the records' release.
    misstated: bool,
    room: usize,
    answer: u8,
}

#[rustfmt::skip]
pub const LIMITS: [Limit; 7] = [
    Limit { name: "one record fewer", filter: 0, records: 262_131, misstated: false, room: 1_048_574, answer: 0 },
    Limit { name: "17 alone", filter: 0, records: 262_131, misstated: false, room: 1_048_573, answer: 17 },
    Limit { name: "the longest", filter: 2, records: 262_131, misstated: false, room: 1_048_576, answer: 0 },
    Limit { name: "8 by an octet", filter: 3, records: 262_131, misstated: false, room: 1_048_577, answer: 8 },
    Limit { name: "8 by a record", filter: 0, records: 262_132, misstated: false, room: 1_048_578, answer: 8 },
    Limit { name: "8 before 17", filter: 0, records: 262_132, misstated: false, room: 1_048_577, answer: 8 },
    Limit { name: "13 before 8", filter: 0, records: 262_132, misstated: true, room: 1_048_578, answer: 13 },
];

impl Limit {
    /// The input: release 4, version 3, format 1, TS 15, and no bodies.
    pub fn input(&self, random: &mut Random) -> Input {
        let release = Release {
            release: 4,
            extension: 0,
            version: 3,
        };
        let mut draft = Draft::of_length(random, FIXED, release, 0);
        draft.filter = random.octets(self.filter);
        draft.records = [0x00, 0x00, 0x83, 0x2F].repeat(self.records);
        if self.misstated {
            draft.header.high.version = 4;
        }
        Input::of(draft, self.room, self.answer)
    }
}

/// Whether a combination has the fault of this refusal.
pub fn has(combination: usize, refusal: u8) -> bool {
    let place = REFUSALS.iter().position(|&each| each == refusal);
    place.is_some_and(|place| combination >> place & 1 == 1)
}

/// An input with exactly these faults.
pub fn input(random: &mut Random, combination: usize) -> Input {
    let mut draft = Draft::right(random);
    if has(combination, 8) {
        lengthen(random, &mut draft);
    }
    draft.settle();
    // Faults of earlier refusals come later here, as they may overwrite others.
    if has(combination, 13) {
        misstate(random, &mut draft);
    }
    if has(combination, 11) {
        break_records(random, &mut draft);
    }
    if has(combination, 10) {
        put_wrong_value(random, &mut draft);
    }
    if has(combination, 2) {
        match random.below(3) {
            0 => contradict(random, &mut draft),
            _ => widen_field(random, &mut draft.header),
        }
    }
    let needed = draft.lengths().0;
    let room = if has(combination, 17) {
        random.pick(&[0, needed / 2, needed - 1])
    } else {
        needed + random.below(20)
    };
    let faulty = |refusal: &u8| has(combination, *refusal);
    let answer = REFUSALS.into_iter().find(faulty).unwrap_or(0);
    Input::of(draft, room, answer)
}

impl Input {
    /// A draft's fields and parts.
    pub fn of(draft: Draft, room: usize, answer: u8) -> Self {
        Self {
            header: draft.header,
            filter: draft.filter,
            private: draft.private,
            records: draft.records,
            room,
            answer,
        }
    }
}

/// Adds records of one release until the file is too long, at times by one octet only.
fn lengthen(random: &mut Random, draft: &mut Draft) {
    let release = draft.header.high;
    let record_header = if release.release == EXTENDED { 5 } else { 4 };
    let body = random.octets(60_000);
    let aim = LONGEST_FILE + random.pick(&[1, 1, 2, 100_000]);
    while draft.lengths().0 <= LONGEST_FILE {
        let left = aim.saturating_sub(draft.lengths().0 + record_header);
        draft.add(random, release, &body[..left.min(body.len())]);
        draft.settle();
    }
}

/// Makes high or low wrong, each in its width.
fn misstate(random: &mut Random, draft: &mut Draft) {
    let header = &mut draft.header;
    if draft.starts.is_empty() {
        // Without records only low above high is wrong.
        (header.high.release, header.high.extension) = (3, 0);
        header.low = header.high;
        header.low.release = random.pick(&[4, 6, EXTENDED]);
        return;
    }
    let wrong = either_release(random, header);
    match wrong.release {
        EXTENDED if random.once_in(2) => wrong.extension ^= 1 << random.below(8),
        _ => wrong.version ^= 1 << random.below(5),
    }
}

/// Breaks the records behind their last: a record cut, of length 65,535, or without its extension.
fn break_records(random: &mut Random, draft: &mut Draft) {
    let broken: &[u8] = match random.below(5) {
        0 => &[0],
        1 => &[0, 1, 0x83, 0],
        2 => &[0, 0, 0xE3, 0],
        3 => &[0, 1, 0xE3, 0, 5],
        _ => &[255, 255, 0x83, 0],
    };
    draft.records.extend_from_slice(broken);
    if broken[0] == 255 {
        // Octets enough for the reserved length, so that only its value is wrong.
        draft.records.extend_from_slice(&[0; 65_535]);
    }
}

/// A field of a timestamp, its width, and the values of that width that it may not have.
#[derive(Clone, Copy)]
struct TimeField {
    of: fn(&mut Timestamp) -> &mut u32,
    width: u32,
    wrong: &'static [u32],
}

#[rustfmt::skip]
const TIME_FIELDS: [TimeField; 7] = [
    TimeField { of: |time| &mut time.month, width: 4, wrong: &[0, 13, 14, 15] },
    TimeField { of: |time| &mut time.day, width: 5, wrong: &[0] },
    TimeField { of: |time| &mut time.hour, width: 5, wrong: &[24, 25, 31] },
    TimeField { of: |time| &mut time.minute, width: 6, wrong: &[60, 61, 63] },
    TimeField { of: |time| &mut time.sign, width: 1, wrong: &[] },
    TimeField { of: |time| &mut time.dev_hour, width: 5, wrong: &[24, 25, 31] },
    TimeField { of: |time| &mut time.dev_minute, width: 6, wrong: &[60, 61, 63] },
];

fn either_time<'a>(random: &mut Random, header: &'a mut Header) -> &'a mut Timestamp {
    if random.once_in(2) {
        &mut header.opened
    } else {
        &mut header.appended
    }
}

fn either_release<'a>(random: &mut Random, header: &'a mut Header) -> &'a mut Release {
    if random.once_in(2) {
        &mut header.high
    } else {
        &mut header.low
    }
}

/// Puts a wrong value in a timestamp, or a day that its month lacks; or makes the filter or the
/// private octets too many.
fn put_wrong_value(random: &mut Random, draft: &mut Draft) {
    let many = random.pick(&[65_535, 65_536, 70_000, 131_072]);
    match random.below(7) {
        0 => draft.filter = random.octets(many),
        1 => draft.extend(Some(random.octets(many))),
        2 => {
            let time = either_time(random, &mut draft.header);
            (time.month, time.day) = random.pick(&dates::missing());
        }
        _ => {
            let time = either_time(random, &mut draft.header);
            let field = random.pick(&TIME_FIELDS);
            match field.wrong {
                // Either sign is right.
                [] => time.month = 0,
                wrong => *(field.of)(time) = random.pick(wrong),
            }
        }
    }
}

/// Makes the header state what its private octets contradict, or nothing.
fn contradict(random: &mut Random, draft: &mut Draft) {
    let wrong: &[u8] = match draft.private.is_empty() {
        true => &[OCTETS, 3, 255],
        false => &[NONE, EMPTY, 3, 255],
    };
    draft.header.statement = random.pick(wrong);
}

/// Puts a value beyond its width in a field, or an extension below release 7.
fn widen_field(random: &mut Random, header: &mut Header) {
    let release = either_release(random, header);
    match random.below(10) {
        0 => release.release = random.pick(&[8, 15, 255]),
        1 => release.version = random.pick(&[32, 63, 255]),
        2 => {
            release.release = random.below(7) as u8;
            release.extension = random.between(1, 255) as u8;
        }
        _ => {
            let TimeField { of, width, .. } = random.pick(&TIME_FIELDS);
            let beyond = random.pick(&[1 << width, 2 << width | 1, 1 << 31, u32::MAX]);
            *of(either_time(random, header)) = beyond;
        }
    }
}

#[cfg(test)]
mod tests {
    use super::*;
    use crate::second;

    /// The second writer's refusal, or 0.
    fn answer(given: &Input) -> u8 {
        let mut output = vec![0; given.room];
        let answer = second::write(
            &given.header,
            &given.filter,
            &given.private,
            &given.records,
            &mut output,
        );
        answer.map_or_else(|(refusal, _)| refusal, |_| 0)
    }

    #[test]
    fn each_combination_is_answered_by_its_first_fault() {
        let mut random = Random::new(4);
        for combination in (0..COMBINATIONS).chain(0..COMBINATIONS) {
            let given = input(&mut random, combination);
            assert_eq!(answer(&given), given.answer, "combination {combination}");
        }
    }

    #[test]
    fn each_limit_is_answered_by_its_first_fault() {
        let mut random = Random::new(5);
        for limit in &LIMITS {
            let given = limit.input(&mut random);
            assert_eq!(answer(&given), given.answer, "{}", limit.name);
        }
    }
}
