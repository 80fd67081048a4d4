//! Pairs of files on which two reconcilers are compared. Each is made of numbered records, so that its
//! answer is planned by counting numbers, apart from either reconciler; and each is looked at again by
//! the second reader, so that a kind that no longer makes what its name says is found.

#![forbid(unsafe_code)]

use crate::draft::{record, Draft};
use crate::fields::{RecordHeader, Release};
use crate::files::FAMILIES;
use crate::random::Random;
use crate::reconcile::{reconcile, records, Reconciled};
use crate::second::{self, Contents, EXTENDED, LONGEST_FILE};
use std::collections::BTreeSet;

/// Two files, and the answer that they must get.
pub struct Pair {
    pub files: [Vec<u8>; 2],
    planned: Reconciled,
}

/// A kind of pairs, of which each case must come.
struct Kind {
    name: &'static str,
    cases: &'static [&'static str],
    /// So many pairs are made of it in a run.
    rounds: usize,
    /// Makes a pair of the case.
    make: fn(&mut Random, &Refused, usize) -> Pair,
    /// Which case a pair is, if it is of this kind at all.
    case: fn(&Seen) -> Option<usize>,
}

/// The kinds; a pair about the longest file is slow, so there are few of these.
#[rustfmt::skip]
const KINDS: [Kind; 16] = [
    Kind { name: "equal files", cases: &["equal"], rounds: 1_000, make: equal, case: is_equal },
    Kind { name: "permuted records", cases: &["permuted"], rounds: 2_000, make: permuted, case: is_permuted },
    Kind { name: "multiplicities", cases: &["more of one and fewer of another", "more in the first", "more in the second"], rounds: 3_000, make: multiplied, case: how_multiplied },
    Kind { name: "nothing in common", cases: &["nothing in common"], rounds: 600, make: disjoint, case: is_disjoint },
    Kind { name: "another in the record header", cases: &RECORD_FIELDS, rounds: 5_000, make: another_field, case: which_field },
    Kind { name: "another in the body", cases: &BODIES, rounds: 2_000, make: another_body, case: which_body },
    Kind { name: "another in the file header", cases: &FILE_FIELDS, rounds: 3_200, make: another_header, case: which_header },
    Kind { name: "no records", cases: &["in the first", "in the second", "in either"], rounds: 600, make: empty, case: which_empty },
    Kind { name: "many sizes", cases: &["many sizes"], rounds: 300, make: many_sizes, case: has_many_sizes },
    Kind { name: "many records", cases: &["few distinct", "most distinct"], rounds: 200, make: many, case: how_many },
    Kind { name: "refused, the first", cases: &NUMBERS, rounds: 1_200, make: first_refused, case: first_number },
    Kind { name: "refused, the second", cases: &NUMBERS, rounds: 1_200, make: second_refused, case: second_number },
    Kind { name: "refused, both", cases: &TWO_NUMBERS, rounds: 1_800, make: both_refused, case: both_numbers },
    Kind { name: "no octets", cases: &["of the first", "of the second", "of either"], rounds: 60, make: no_octets, case: which_no_octets },
    Kind { name: "more octets", cases: &LONGER, rounds: 12, make: longer, case: which_longer },
    Kind { name: "1,048,576 octets", cases: &LONGEST, rounds: 14, make: longest, case: which_longest },
];

const RECORD_FIELDS: [&str; 5] = ["release", "extension", "version", "format", "TS number"];
const BODIES: [&str; 4] = [
    "first octet",
    "last octet",
    "an octet more",
    "an octet between",
];
const FILE_FIELDS: [&str; 8] = [
    "filter",
    "opening",
    "last append",
    "private octets",
    "sequence number",
    "reason",
    "address",
    "lost indicator",
];
const NUMBERS: [&str; 6] = ["8", "9", "10", "11", "12", "13"];
#[rustfmt::skip]
const TWO_NUMBERS: [&str; 36] = [
    "8 and 8", "8 and 9", "8 and 10", "8 and 11", "8 and 12", "8 and 13",
    "9 and 8", "9 and 9", "9 and 10", "9 and 11", "9 and 12", "9 and 13",
    "10 and 8", "10 and 9", "10 and 10", "10 and 11", "10 and 12", "10 and 13",
    "11 and 8", "11 and 9", "11 and 10", "11 and 11", "11 and 12", "11 and 13",
    "12 and 8", "12 and 9", "12 and 10", "12 and 11", "12 and 12", "12 and 13",
    "13 and 8", "13 and 9", "13 and 10", "13 and 11", "13 and 12", "13 and 13",
];
const LONGER: [&str; 6] = [
    "right but for its length, the first",
    "right but for its length, the second",
    "right and an octet, the first",
    "right and an octet, the second",
    "right and another, the first",
    "right and another, the second",
];
const LONGEST: [&str; 7] = [
    "262,131 equal records",
    "262,131 in any order",
    "262,131 rising",
    "262,131 falling",
    "1,044 in any order",
    "1,044 rising",
    "1,044 falling",
];
/// The cases of `LONGEST` of records of 4 octets; the others have bodies of 1,000.
const SHORT_CASES: usize = 4;
/// The lengths of bodies in a pair of many sizes: all of them are there.
const SIZES: [usize; 12] = [0, 1, 2, 3, 4, 5, 255, 256, 257, 4_000, 65_533, 65_534];

/// The most cases of which each is told.
const MOST_TOLD: usize = 8;
/// The smallest of the reader's refusals.
const FIRST_NUMBER: u8 = 8;
/// Files of each refusal.
const PER_NUMBER: usize = 60;
/// The most octets of such a file: long ones would make the run slow.
const LONGEST_REFUSED: usize = 4_000;

/// The most octets of a filter.
const LONGEST_FILTER: usize = 40;

/// Files that the reader refuses, by its number less 8.
struct Refused([Vec<Vec<u8>>; NUMBERS.len()]);

impl Refused {
    /// As many of each number, of the families that make one file at a time.
    fn new(random: &mut Random) -> Self {
        let mut refused: [Vec<Vec<u8>>; NUMBERS.len()] = Default::default();
        while refused.iter().any(|files| files.len() < PER_NUMBER) {
            for family in FAMILIES.iter().filter(|family| family.rounds > 5_000) {
                for file in (family.batch)(random) {
                    let Err(number) = second::read(&file) else {
                        continue;
                    };
                    let files = &mut refused[usize::from(number - FIRST_NUMBER)];
                    if files.len() < PER_NUMBER && file.len() <= LONGEST_REFUSED {
                        files.push(file);
                    }
                }
            }
        }
        Self(refused)
    }

    fn pick(&self, random: &mut Random, case: usize) -> Vec<u8> {
        self.0[case][random.below(PER_NUMBER)].clone()
    }
}

/// A pair as the second reader sees it.
struct Seen<'a> {
    files: [&'a [u8]; 2],
    contents: [Result<Contents, u8>; 2],
    /// None of a refused file.
    records: [Vec<&'a [u8]>; 2],
    answer: Reconciled,
}

impl<'a> Seen<'a> {
    fn new(pair: &'a Pair, answer: Reconciled) -> Self {
        let files = [&pair.files[0][..], &pair.files[1][..]];
        Self {
            files,
            contents: files.map(second::read),
            records: files.map(|file| records(file).unwrap_or_default()),
            answer,
        }
    }

    /// The numbers of records in both, in the first alone and in the second alone.
    fn numbers(&self) -> [usize; 3] {
        [self.answer.both, self.answer.first, self.answer.second]
    }

    fn counts(&self) -> [usize; 2] {
        [self.records[0].len(), self.records[1].len()]
    }

    /// The records at the one place in which the files' records differ.
    fn only_difference(&self) -> Option<[&'a [u8]; 2]> {
        let pairs = self.records[0].iter().zip(&self.records[1]);
        let mut others = pairs.filter(|(one, other)| one != other);
        let (one, other) = others.next()?;
        let alone = others.next().is_none() && self.records[0].len() == self.records[1].len();
        alone.then_some([one, other])
    }
}

impl Kind {
    /// How often the cases came.
    fn told(&self, times: &[usize]) -> String {
        let each = self.cases.iter().zip(times);
        let each: Vec<String> = each
            .map(|(case, times)| format!("{case}: {times}"))
            .collect();
        match (times, times.iter().min()) {
            ([times], _) => format!("{}: {times}", self.name),
            (_, Some(least)) if times.len() > MOST_TOLD => {
                let cases = times.len();
                format!("{} ({cases} cases, each {least} or more)", self.name)
            }
            _ => format!("{} ({})", self.name, each.join(", ")),
        }
    }
}

/// Some pairs of each kind, each case among them, with the kind's name.
pub fn some(random: &mut Random, per_kind: usize) -> Vec<(&'static str, Pair)> {
    let refused = Refused::new(random);
    let mut pairs = Vec::new();
    for kind in &KINDS {
        let cases = kind.cases.len();
        for round in 0..per_kind.min(kind.rounds).max(cases) {
            pairs.push((kind.name, (kind.make)(random, &refused, round % cases)));
        }
    }
    pairs
}

/// Compares a reconciler with the second one on all pairs from a seed, each of them also the other way
/// round; returns what was counted, or the first difference.
pub fn compare(
    seed: u64,
    least: usize,
    answer: impl Fn(&[u8], &[u8]) -> Reconciled,
) -> Result<String, String> {
    let random = &mut Random::new(seed);
    let refused = Refused::new(random);
    let mut pairs = 0;
    let mut told = Vec::new();
    for kind in &KINDS {
        let mut times = vec![0; kind.cases.len()];
        for round in 0..kind.rounds {
            let pair = (kind.make)(random, &refused, round % kind.cases.len());
            let case = compare_pair(kind, &pair, &answer)
                .map_err(|what| format!("{}: {what}", kind.name))?;
            times[case] += 1;
        }
        if let Some(case) = times.iter().position(|&times| times == 0) {
            return Err(format!("{}: {} never came", kind.name, kind.cases[case]));
        }
        told.push(kind.told(&times));
        pairs += times.iter().sum::<usize>();
    }
    let told = format!(
        "{pairs} pairs compared, and the other way round: {}",
        told.join("; ")
    );
    match pairs >= least {
        true => Ok(told),
        false => Err(format!("too few: {told}")),
    }
}

/// Compares the answers to a pair, both ways round; returns which case of its kind it is.
fn compare_pair(
    kind: &Kind,
    pair: &Pair,
    answer: impl Fn(&[u8], &[u8]) -> Reconciled,
) -> Result<usize, String> {
    let [first, second] = &pair.files;
    let expected = reconcile(first, second);
    if expected != pair.planned {
        let planned = pair.planned;
        return Err(format!(
            "planned {planned:?} but second {expected:?}{}",
            shown(pair)
        ));
    }
    let swapped = reconcile(second, first);
    let seen = Seen::new(pair, expected);
    if !is_sound(&seen, swapped) {
        return Err(format!(
            "second {expected:?} and, swapped, {swapped:?}{}",
            shown(pair)
        ));
    }
    for (expected, answer) in [
        (expected, answer(first, second)),
        (swapped, answer(second, first)),
    ] {
        if expected != answer {
            return Err(format!(
                "second {expected:?}, proved {answer:?}{}",
                shown(pair)
            ));
        }
    }
    (kind.case)(&seen).ok_or_else(|| format!("a pair that is none of these{}", shown(pair)))
}

/// Whether an answer is as document 02 says of all: an accepted pair adds up to the counts of both files
/// and has the last two results swapped with the files, and of two refused files the first is told.
fn is_sound(seen: &Seen, swapped: Reconciled) -> bool {
    let [both, first, second] = seen.numbers();
    let back = match &seen.contents {
        [Ok(one), Ok(other)] if both + first == one.count && both + second == other.count => {
            Reconciled {
                both,
                first: second,
                second: first,
                ..seen.answer
            }
        }
        [Ok(_), Ok(_)] => return false,
        [_, Err(number)] => Reconciled::refused(1, *number),
        [Err(number), _] => Reconciled::refused(2, *number),
    };
    swapped == back
}

/// The files of a pair in hexadecimal, if they are not long.
fn shown(pair: &Pair) -> String {
    let short = |file: &Vec<u8>| match file.len() {
        ..=LONGEST_REFUSED => crate::scripts::hexadecimal(file),
        octets => format!("{octets} octets"),
    };
    format!("\n{}\n{}", short(&pair.files[0]), short(&pair.files[1]))
}

/// The draft of a file of any header with these of the records.
fn draft_of(random: &mut Random, stock: &[Vec<u8>], numbers: &[usize]) -> Draft {
    let mut draft = Draft::with_records(random, 0);
    // A long filter would only make the run slow.
    draft.filter.truncate(LONGEST_FILTER);
    for &number in numbers {
        draft.push(&stock[number]);
    }
    draft.settle();
    draft
}

fn file_of(random: &mut Random, stock: &[Vec<u8>], numbers: &[usize]) -> Vec<u8> {
    draft_of(random, stock, numbers).lay().octets
}

/// Two files of these of the records, and the answer by counting their numbers.
fn pair_of(random: &mut Random, stock: &[Vec<u8>], numbers: [&[usize]; 2]) -> Pair {
    Pair {
        files: numbers.map(|numbers| file_of(random, stock, numbers)),
        planned: plan(stock.len(), numbers),
    }
}

/// The answer for two lists of numbers below `bound`.
fn plan(bound: usize, [first, second]: [&[usize]; 2]) -> Reconciled {
    let mut left = vec![0; bound];
    for &number in first {
        left[number] += 1;
    }
    let mut both = 0;
    for &number in second {
        if left[number] > 0 {
            left[number] -= 1;
            both += 1;
        }
    }
    Reconciled {
        both,
        first: first.len() - both,
        second: second.len() - both,
        ..Reconciled::default()
    }
}

/// Records that all differ, some in a bit alone.
fn stock(random: &mut Random, count: usize) -> Vec<Vec<u8>> {
    let mut records = BTreeSet::new();
    while records.len() < count {
        let fields = fields(random);
        let length = random.between(0, 12);
        let mut body = random.octets(length);
        if random.once_in(2) {
            body.iter_mut().for_each(|octet| *octet &= 1);
        }
        records.insert(record(fields, &body));
    }
    let mut records: Vec<Vec<u8>> = records.into_iter().collect();
    random.shuffle(&mut records);
    records
}

/// The fields of a record header: all in their ranges, or few of them.
fn fields(random: &mut Random) -> RecordHeader {
    let wide = random.once_in(2);
    let mut below = |all: usize, few: usize| random.below(if wide { all } else { few }) as u8;
    let release = match below(8, 2) {
        few if !wide => EXTENDED - few,
        all => all,
    };
    let extension = below(256, 2);
    RecordHeader {
        release: Release {
            release,
            extension: if release == EXTENDED { extension } else { 0 },
            version: below(32, 2),
        },
        format: below(8, 2),
        ts: below(32, 2),
    }
}

/// Each number below the bound so often, in any order.
fn repeated(random: &mut Random, times: &[usize]) -> Vec<usize> {
    let each = times.iter().enumerate();
    let mut numbers: Vec<usize> = each
        .flat_map(|(number, &times)| vec![number; times])
        .collect();
    random.shuffle(&mut numbers);
    numbers
}

/// Each of so many numbers once or more often.
fn some_of_each(random: &mut Random, count: usize) -> Vec<usize> {
    let times: Vec<usize> = (0..count).map(|_| random.between(1, 3)).collect();
    repeated(random, &times)
}

fn equal(random: &mut Random, _: &Refused, _: usize) -> Pair {
    let count = random.between(1, 12);
    let stock = stock(random, count);
    let numbers = some_of_each(random, count);
    let file = file_of(random, &stock, &numbers);
    Pair {
        files: [file.clone(), file],
        planned: plan(count, [&numbers, &numbers]),
    }
}

fn is_equal(seen: &Seen) -> Option<usize> {
    let same = seen.files[0] == seen.files[1];
    (same && seen.answer.both > 0).then_some(0)
}

fn permuted(random: &mut Random, _: &Refused, _: usize) -> Pair {
    let count = random.between(2, 12);
    let stock = stock(random, count);
    let numbers = some_of_each(random, count);
    let mut others = numbers.clone();
    while others == numbers {
        random.shuffle(&mut others);
    }
    pair_of(random, &stock, [&numbers, &others])
}

fn is_permuted(seen: &Seen) -> Option<usize> {
    let [both, first, second] = seen.numbers();
    let moved = seen.records[0] != seen.records[1];
    (moved && both == seen.counts()[0] && [first, second] == [0, 0]).then_some(0)
}

/// Records of which the files have different numbers: more of one and fewer of another, more of some, or
/// fewer.
fn multiplied(random: &mut Random, _: &Refused, case: usize) -> Pair {
    let count = random.between(2, 10);
    let stock = stock(random, count);
    let mut times: Vec<[usize; 2]> = (0..count)
        .map(|_| {
            let more = random.between(0, 4);
            let fewer = random.between(0, more);
            match case {
                0 if random.once_in(2) => [fewer, more],
                2 => [fewer, more],
                _ => [more, fewer],
            }
        })
        .collect();
    // What the case says is there at least once.
    times[0] = if case == 2 { [2, 5] } else { [4, 2] };
    if case == 0 {
        times[1] = [1, 3];
    }
    let [first, second] = [0, 1].map(|side| -> Vec<usize> {
        let times: Vec<usize> = times.iter().map(|times| times[side]).collect();
        repeated(random, &times)
    });
    pair_of(random, &stock, [&first, &second])
}

/// In the first case neither sums nor swap tell the answer from one by the counts alone.
fn how_multiplied(seen: &Seen) -> Option<usize> {
    let by_counts = seen.counts()[0].min(seen.counts()[1]);
    let [both, first, second] = seen.numbers();
    match [first > 0, second > 0] {
        _ if both < 2 => None,
        [true, true] => (both < by_counts).then_some(0),
        [true, false] => Some(1),
        [false, true] => Some(2),
        [false, false] => None,
    }
}

fn disjoint(random: &mut Random, _: &Refused, _: usize) -> Pair {
    let count = random.between(2, 12);
    let stock = stock(random, count);
    let split = random.between(1, count - 1);
    let numbers = some_of_each(random, count);
    let (first, second): (Vec<usize>, Vec<usize>) =
        numbers.into_iter().partition(|&number| number < split);
    pair_of(random, &stock, [&first, &second])
}

fn is_disjoint(seen: &Seen) -> Option<usize> {
    let [both, first, second] = seen.numbers();
    (both == 0 && first > 0 && second > 0).then_some(0)
}

/// Files that have the same records but for one, which is in each as given: it comes once and has a
/// length that no other has.
fn but_for_one(random: &mut Random, [one, other]: [Vec<u8>; 2]) -> Pair {
    let count = random.between(0, 8);
    let mut stock = stock(random, count);
    let mut numbers = some_of_each(random, count);
    let at = random.between(0, numbers.len());
    numbers.insert(at, count);
    let mut others = numbers.clone();
    others[at] = count + 1;
    stock.extend([one, other]);
    pair_of(random, &stock, [&numbers, &others])
}

/// A body that no record of a stock has: they have 12 octets or fewer.
fn own_body(random: &mut Random) -> Vec<u8> {
    let length = random.pick(&[13, 14, 20, 100, 1_000]);
    random.octets(length)
}

/// Another number below the bound.
fn another(random: &mut Random, than: u8, bound: u8) -> u8 {
    let step = random.between(1, usize::from(bound) - 1);
    ((usize::from(than) + step) % usize::from(bound)) as u8
}

/// The same record but for one field of its header.
fn another_field(random: &mut Random, _: &Refused, case: usize) -> Pair {
    let mut fields = fields(random);
    match case {
        // Of 7 and another release the one has no extension and the other has 0.
        0 => fields.release.extension = 0,
        1 => fields.release.release = EXTENDED,
        _ => {}
    }
    let mut other = fields;
    let release = &mut other.release;
    match case {
        0 => release.release = another(random, release.release, 8),
        1 => {
            let step = random.between(1, 255) as u8;
            release.extension = release.extension.wrapping_add(step);
        }
        2 => release.version = another(random, release.version, 32),
        3 => other.format = another(random, other.format, 8),
        _ => other.ts = another(random, other.ts, 32),
    }
    // A record of no octets in its body is told from others by its header alone.
    let body = match random.below(3) {
        0 => Vec::new(),
        _ => own_body(random),
    };
    let records = [record(fields, &body), record(other, &body)];
    match body.len() {
        0 => pair_of(random, &records, [&[0], &[1]]),
        _ => but_for_one(random, records),
    }
}

/// Which field alone differs in the one record that does, which is then in neither both.
fn which_field(seen: &Seen) -> Option<usize> {
    let [one, other] = seen.only_difference()?;
    let [one, other] = [second::step(one, 0).ok()?, second::step(other, 0).ok()?];
    let parts = |of: RecordHeader| {
        let Release {
            release,
            extension,
            version,
        } = of.release;
        [release, extension, version, of.format, of.ts]
    };
    let in_neither = seen.numbers() == [seen.counts()[0] - 1, 1, 1];
    let field = only_other(&parts(one.fields), &parts(other.fields))?;
    (in_neither && one.body == other.body).then_some(field)
}

/// The place of the only parts that differ.
fn only_other<T: PartialEq>(ones: &[T], others: &[T]) -> Option<usize> {
    let pairs = ones.iter().zip(others).enumerate();
    let mut differ = pairs.filter(|(_, (one, other))| one != other);
    let (place, _) = differ.next()?;
    differ.next().is_none().then_some(place)
}

/// The same record but for an octet of its body, or one octet more.
fn another_body(random: &mut Random, _: &Refused, case: usize) -> Pair {
    let fields = fields(random);
    let body = own_body(random);
    let mut other = body.clone();
    let last = body.len() - 1;
    let at = match case {
        0 => 0,
        1 => last,
        _ => random.between(1, last - 1),
    };
    match case {
        2 => other.push(random.octet()),
        _ => other[at] ^= 1 << random.below(8),
    }
    but_for_one(random, [record(fields, &body), record(fields, &other)])
}

fn which_body(seen: &Seen) -> Option<usize> {
    let [one, other] = seen.only_difference()?;
    let [one, other] = [second::step(one, 0).ok()?, second::step(other, 0).ok()?];
    let in_neither = seen.numbers() == [seen.counts()[0] - 1, 1, 1];
    if !in_neither || one.fields != other.fields {
        return None;
    }
    if one.body.len() + 1 == other.body.len() {
        return other.body.starts_with(one.body).then_some(2);
    }
    let at = only_other(one.body, other.body)?;
    match at {
        _ if one.body.len() != other.body.len() => None,
        0 => Some(0),
        _ if at + 1 == one.body.len() => Some(1),
        _ => Some(3),
    }
}

/// The same records behind a file header with one other field.
fn another_header(random: &mut Random, _: &Refused, case: usize) -> Pair {
    let count = random.between(1, 8);
    let stock = stock(random, count);
    let numbers = some_of_each(random, count);
    let mut draft = draft_of(random, &stock, &numbers);
    let one = draft.lay().octets;
    let mut other = one.clone();
    // Until it differs: two random fields may be the same.
    while other == one {
        let from = Draft::with_records(random, 0);
        let (to, header) = (&mut draft.header, from.header);
        match case {
            0 => {
                draft.filter = from.filter;
                draft.filter.truncate(LONGEST_FILTER);
            }
            1 => to.opened = header.opened,
            2 => to.appended = header.appended,
            3 => (to.statement, draft.private) = (header.statement, from.private),
            4 => to.sequence = header.sequence,
            5 => to.reason = header.reason,
            6 => to.address = header.address,
            _ => to.lost = header.lost,
        }
        other = draft.lay().octets;
    }
    Pair {
        files: [one, other],
        planned: plan(count, [&numbers, &numbers]),
    }
}

fn which_header(seen: &Seen) -> Option<usize> {
    let [Ok(one), Ok(other)] = &seen.contents else {
        return None;
    };
    let parts = |contents: &Contents, file: &[u8]| -> [Vec<u8>; 8] {
        let header = &contents.header;
        let private = &file[contents.private.clone()];
        [
            file[contents.filter.clone()].to_vec(),
            file[10..14].to_vec(),
            file[14..18].to_vec(),
            [&[header.statement], private].concat(),
            header.sequence.to_be_bytes().to_vec(),
            vec![header.reason],
            header.address.to_vec(),
            vec![header.lost],
        ]
    };
    let all_in_both = seen.counts()[0] > 0 && seen.numbers() == [seen.counts()[0], 0, 0];
    let part = only_other(&parts(one, seen.files[0]), &parts(other, seen.files[1]));
    part.filter(|_| all_in_both && seen.records[0] == seen.records[1])
}

fn empty(random: &mut Random, _: &Refused, case: usize) -> Pair {
    let count = random.between(1, 8);
    let stock = stock(random, count);
    let numbers = some_of_each(random, count);
    let sides: [&[usize]; 2] = match case {
        0 => [&[], &numbers],
        1 => [&numbers, &[]],
        _ => [&[], &[]],
    };
    pair_of(random, &stock, sides)
}

fn which_empty(seen: &Seen) -> Option<usize> {
    let accepted = seen.contents.iter().all(Result::is_ok);
    match seen.counts().map(|count| count == 0) {
        _ if !accepted => None,
        [true, false] => Some(0),
        [false, true] => Some(1),
        [true, true] => Some(2),
        [false, false] => None,
    }
}

/// Bodies of all `SIZES`, the same octets as far as they go.
fn many_sizes(random: &mut Random, _: &Refused, _: usize) -> Pair {
    let fields = fields(random);
    let all = random.octets(SIZES[SIZES.len() - 1]);
    let stock = SIZES.map(|size| record(fields, &all[..size]));
    let [first, second] = [0, 1].map(|_| {
        let times = SIZES.map(|size| match size {
            ..=4_000 => random.between(1, 3),
            _ => 1,
        });
        repeated(random, &times)
    });
    pair_of(random, &stock, [&first, &second])
}

fn has_many_sizes(seen: &Seen) -> Option<usize> {
    let sizes = |records: &Vec<&[u8]>| -> BTreeSet<usize> {
        let bodies = records.iter().flat_map(|record| second::step(record, 0));
        bodies.map(|record| record.body.len()).collect()
    };
    let all = BTreeSet::from(SIZES);
    (seen.records.iter().map(sizes).all(|sizes| sizes == all)).then_some(0)
}

/// Hundreds of records and more, of a few or of many to choose from.
fn many(random: &mut Random, _: &Refused, case: usize) -> Pair {
    let distinct = if case == 0 {
        random.between(2, 8)
    } else {
        3_000
    };
    let stock = stock(random, distinct);
    let [first, second] = [0, 1].map(|_| -> Vec<usize> {
        let count = random.between(100, 2_500);
        (0..count).map(|_| random.below(distinct)).collect()
    });
    pair_of(random, &stock, [&first, &second])
}

fn how_many(seen: &Seen) -> Option<usize> {
    let counts = seen.counts();
    let distinct: BTreeSet<&[u8]> = seen.records.iter().flatten().copied().collect();
    match distinct.len() {
        _ if counts.iter().any(|&count| count < 100) => None,
        2..=8 => Some(0),
        many if 2 * many > counts[0] => Some(1),
        _ => None,
    }
}

/// A right file of a few records.
fn right(random: &mut Random) -> Vec<u8> {
    let count = random.between(0, 4);
    let stock = stock(random, count);
    let numbers = some_of_each(random, count);
    file_of(random, &stock, &numbers)
}

fn number_of(case: usize) -> u8 {
    FIRST_NUMBER + case as u8
}

fn first_refused(random: &mut Random, refused: &Refused, case: usize) -> Pair {
    Pair {
        files: [refused.pick(random, case), right(random)],
        planned: Reconciled::refused(1, number_of(case)),
    }
}

fn first_number(seen: &Seen) -> Option<usize> {
    match seen.contents {
        [Err(number), Ok(_)] => Some(usize::from(number - FIRST_NUMBER)),
        _ => None,
    }
}

fn second_refused(random: &mut Random, refused: &Refused, case: usize) -> Pair {
    Pair {
        files: [right(random), refused.pick(random, case)],
        planned: Reconciled::refused(2, number_of(case)),
    }
}

fn second_number(seen: &Seen) -> Option<usize> {
    match seen.contents {
        [Ok(_), Err(number)] => Some(usize::from(number - FIRST_NUMBER)),
        _ => None,
    }
}

fn both_refused(random: &mut Random, refused: &Refused, case: usize) -> Pair {
    let cases = [case / NUMBERS.len(), case % NUMBERS.len()];
    Pair {
        files: cases.map(|case| refused.pick(random, case)),
        planned: Reconciled::refused(1, number_of(cases[0])),
    }
}

fn both_numbers(seen: &Seen) -> Option<usize> {
    match seen.contents {
        [Err(first), Err(second)] => {
            let [first, second] = [first, second].map(|number| usize::from(number - FIRST_NUMBER));
            Some(first * NUMBERS.len() + second)
        }
        _ => None,
    }
}

fn no_octets(random: &mut Random, _: &Refused, case: usize) -> Pair {
    let (files, side) = match case {
        0 => ([Vec::new(), right(random)], 1),
        1 => ([right(random), Vec::new()], 2),
        _ => ([Vec::new(), Vec::new()], 1),
    };
    Pair {
        files,
        planned: Reconciled::refused(side, FIRST_NUMBER),
    }
}

fn which_no_octets(seen: &Seen) -> Option<usize> {
    match seen.files.map(<[u8]>::is_empty) {
        [true, false] => Some(0),
        [false, true] => Some(1),
        [true, true] => Some(2),
        [false, false] => None,
    }
}

/// A file of more octets than may be: right in all but its length, or a right one and more behind it,
/// which is accepted by who reads no further.
fn longer(random: &mut Random, _: &Refused, case: usize) -> Pair {
    let octets = if case < 2 {
        LONGEST_FILE + 1
    } else {
        LONGEST_FILE
    };
    let mut long = Draft::of_length(random, octets, Release::default(), 1_000)
        .lay()
        .octets;
    match case {
        0 | 1 => {}
        2 | 3 => long.push(0),
        _ => long.extend_from_within(..),
    }
    let side = case % 2;
    let mut files = [long, right(random)];
    files.rotate_left(side);
    Pair {
        files,
        planned: Reconciled::refused(1 + side as u8, FIRST_NUMBER),
    }
}

fn which_longer(seen: &Seen) -> Option<usize> {
    let side = seen
        .files
        .iter()
        .position(|file| file.len() > LONGEST_FILE)?;
    let long = seen.files[side];
    let begins_right = second::read(&long[..LONGEST_FILE]).is_ok();
    let first = match long.len() - LONGEST_FILE {
        1 if !begins_right => 0,
        1 => 2,
        LONGEST_FILE if begins_right => 4,
        _ => return None,
    };
    seen.contents[1 - side].is_ok().then_some(first + side)
}

/// Records of 4 octets, and ones with long bodies that differ in the last octet alone; each in order.
fn stock_of_longest(random: &mut Random, short: bool) -> Vec<Vec<u8>> {
    let with = |version: u8, format: u8, ts: u8, body: &[u8]| {
        let release = Release {
            release: 4,
            extension: 0,
            version,
        };
        let fields = RecordHeader {
            release,
            format,
            ts,
        };
        record(fields, body)
    };
    if short {
        let numbers = 0..32 * 8 * 32;
        let octets = numbers.map(|number: u16| [number >> 8, number >> 5 & 7, number & 31]);
        return octets
            .map(|octets| octets.map(|octet| octet as u8))
            .map(|[version, format, ts]| with(version, format, ts, &[]))
            .collect();
    }
    let mut body = random.octets(1_000);
    let records = (0..=u8::MAX).map(|last| {
        body[999] = last;
        with(3, 1, 15, &body)
    });
    records.collect()
}

/// Two files of the greatest length that are full of records, all equal or in the case's order.
fn longest(random: &mut Random, _: &Refused, case: usize) -> Pair {
    let short = case < SHORT_CASES;
    let stock = stock_of_longest(random, short);
    let count = if short { 262_131 } else { 1_044 };
    let [first, second] = [0, 1].map(|_| {
        let mut numbers: Vec<usize> = match case {
            0 => vec![7; count],
            _ => (0..count).map(|_| random.below(stock.len())).collect(),
        };
        match case {
            2 | 5 => numbers.sort_unstable(),
            3 | 6 => numbers.sort_unstable_by(|one, other| other.cmp(one)),
            _ => {}
        }
        numbers
    });
    let files = [&first, &second].map(|numbers| {
        let mut draft = Draft::with_records(random, 0);
        draft.extend(None);
        draft.filter.clear();
        for &number in numbers {
            draft.push(&stock[number]);
        }
        draft.settle();
        let (octets, _) = draft.lengths();
        draft.filter = random.octets(LONGEST_FILE - octets);
        draft.lay().octets
    });
    Pair {
        files,
        planned: plan(stock.len(), [&first, &second]),
    }
}

fn which_longest(seen: &Seen) -> Option<usize> {
    let first = match seen.counts() {
        [262_131, 262_131] => 0,
        [1_044, 1_044] => SHORT_CASES - 1,
        _ => return None,
    };
    let full = |file: &[u8]| file.len() == LONGEST_FILE;
    if seen.files.map(full) != [true, true] {
        return None;
    }
    let rising = |records: &Vec<&[u8]>| records.is_sorted();
    let falling = |records: &Vec<&[u8]>| records.iter().rev().is_sorted();
    let all = |ordered: fn(&Vec<&[u8]>) -> bool| seen.records.iter().all(ordered);
    match [all(rising), all(falling)] {
        [true, true] if first == 0 => Some(0),
        [false, false] => Some(first + 1),
        [true, false] => Some(first + 2),
        [false, true] => Some(first + 3),
        [true, true] => None,
    }
}

#[cfg(test)]
mod tests {
    use super::*;
    use crate::reconcile::count;

    const SEED: u64 = 1;

    #[test]
    fn pairs_are_as_planned_and_of_their_kinds() {
        let told = compare(SEED, 20_000, reconcile);
        assert!(told.is_ok(), "{told:?}");
    }

    /// The second reconciler, but with other octets for each record, or its answer changed.
    fn mistaken(
        taken: Taken,
        change: fn(Reconciled) -> Reconciled,
    ) -> impl Fn(&[u8], &[u8]) -> Reconciled {
        move |first, second| match [records(first), records(second)] {
            [Ok(first), Ok(second)] => {
                let sides = [first, second]
                    .map(|records| -> Vec<Vec<u8>> { records.into_iter().map(taken).collect() });
                let [first, second] = [0, 1].map(|side| -> Vec<&[u8]> {
                    sides[side].iter().map(|record| &record[..]).collect()
                });
                change(count([&first, &second]))
            }
            _ => change(reconcile(first, second)),
        }
    }

    /// Whether a difference is found, and not by a fault of the pairs.
    fn is_found(answer: impl Fn(&[u8], &[u8]) -> Reconciled) -> bool {
        compare(SEED, 0, answer).is_err_and(|what| what.contains(", proved "))
    }

    /// What a reconciler takes for a record.
    type Taken = fn(&[u8]) -> Vec<u8>;

    #[test]
    fn records_taken_for_others_are_found() {
        let taken: [Taken; 11] = [
            // The body alone, and the length alone.
            |record| second::step(record, 0).unwrap().body.to_vec(),
            |record| record[..2].to_vec(),
            // Without release, version, format, TS number or extension.
            |record| masked(record, 2, 0x1F),
            |record| masked(record, 2, 0xE0),
            |record| masked(record, 3, 0x1F),
            |record| masked(record, 3, 0xE0),
            |record| match record[2] >> 5 {
                EXTENDED => masked(record, 4, 0),
                _ => record.to_vec(),
            },
            // As if every header had 4 octets.
            |record| record[..4 + usize::from(record[1])].to_vec(),
            // Not to its end, and not its first octet.
            |record| record[..record.len().min(64)].to_vec(),
            |record| {
                masked(
                    record,
                    record.len() - 1,
                    if record.len() > 5 { 0 } else { 255 },
                )
            },
            |record| {
                masked(
                    record,
                    5.min(record.len() - 1),
                    if record.len() > 5 { 0 } else { 255 },
                )
            },
        ];
        for (index, taken) in taken.into_iter().enumerate() {
            assert!(is_found(mistaken(taken, |answer| answer)), "{index}");
        }
    }

    fn masked(record: &[u8], at: usize, mask: u8) -> Vec<u8> {
        let mut record = record.to_vec();
        record[at] &= mask;
        record
    }

    #[test]
    fn answers_of_another_rule_are_found() {
        let change: [fn(Reconciled) -> Reconciled; 6] = [
            // The smaller of the two counts: sums and swap hold of it.
            |answer| match answer.refusal {
                0 => {
                    let [first, second] = [answer.first, answer.second];
                    let more = first.min(second);
                    Reconciled {
                        both: answer.both + more,
                        first: first - more,
                        second: second - more,
                        ..answer
                    }
                }
                _ => answer,
            },
            |answer| Reconciled {
                first: answer.second,
                second: answer.first,
                ..answer
            },
            |answer| Reconciled {
                number: 0,
                ..answer
            },
            |answer| Reconciled {
                side: answer.side.min(1),
                ..answer
            },
            |answer| Reconciled {
                refusal: answer.number,
                ..answer
            },
            |answer| match answer.number {
                13 => Reconciled::default(),
                _ => answer,
            },
        ];
        for (index, change) in change.into_iter().enumerate() {
            assert!(is_found(mistaken(<[u8]>::to_vec, change)), "{index}");
        }
    }

    #[test]
    fn other_ways_to_hold_records_together_are_found() {
        // Each record once.
        assert!(is_found(|first, second| {
            match [records(first), records(second)] {
                [Ok(first), Ok(second)] => {
                    let sides = [first, second].map(|records| {
                        let once: BTreeSet<&[u8]> = records.into_iter().collect();
                        once.into_iter().collect::<Vec<_>>()
                    });
                    count([&sides[0], &sides[1]])
                }
                _ => reconcile(first, second),
            }
        }));
        // Record by record.
        assert!(is_found(|first, second| {
            match [records(first), records(second)] {
                [Ok(first), Ok(second)] => {
                    let same = first
                        .iter()
                        .zip(&second)
                        .filter(|(one, other)| one == other);
                    let both = same.count();
                    Reconciled {
                        both,
                        first: first.len() - both,
                        second: second.len() - both,
                        ..Reconciled::default()
                    }
                }
                _ => reconcile(first, second),
            }
        }));
        // The second file judged before the first.
        assert!(is_found(|first, second| match second::read(second) {
            Err(number) => Reconciled::refused(2, number),
            Ok(_) => reconcile(first, second),
        }));
    }
}
