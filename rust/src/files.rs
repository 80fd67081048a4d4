//! The files on which the two readers are compared: right ones, and ones damaged in every header
//! field and at every record boundary.

use crate::draft::{release, release_octet, Draft, Laid, TIME_WIDTHS};
use crate::fields::Release;
use crate::gate;
use crate::random::Random;
use crate::second::{EXTENDED, FIXED, LONGEST_FILE};

/// A kind of file: `batch` makes some from one draft, and is called `rounds` times.
pub struct Family {
    pub name: &'static str,
    pub rounds: usize,
    pub batch: fn(&mut Random) -> Vec<Vec<u8>>,
}

const fn family(
    name: &'static str,
    rounds: usize,
    batch: fn(&mut Random) -> Vec<Vec<u8>>,
) -> Family {
    Family {
        name,
        rounds,
        batch,
    }
}

pub const FAMILIES: [Family; 19] = [
    family("document 01's file", 1, file_case),
    family("right", 20_000, right),
    family("header field damaged", 90, header_fields),
    family("record boundary damaged", 90, record_boundaries),
    family("record near 65,535", 60, longest_records),
    family("cut at every octet", 40, cuts),
    family("octets too many", 200, grown),
    family("header length off by 1, 2", 250, header_lengths),
    family("f and p near 65,535", 8, reserved_lengths),
    family("p of 0", 200, no_private_octets),
    family("extensions of three kinds", 40, extensions),
    family("lengths at the limits", 6, limits),
    family("short", 6, short),
    family("low above high", 300, low_above_high),
    family("count off", 300, counts),
    family("high or low wrong", 200, wrong_spans),
    family("timestamp of every value", 4, timestamps),
    family("several damages", 12_000, several),
    family("noise behind a header", 6_000, noise),
];

/// Sets the number whose octets begin at `at`.
fn set<const N: usize>(file: &mut [u8], at: usize, octets: [u8; N]) {
    file[at..at + N].copy_from_slice(&octets);
}

/// Adds to a field of any width, wrapping.
fn add(field: &mut [u8], number: i16) {
    let mut carry = number;
    for octet in field.iter_mut().rev() {
        let sum = i16::from(*octet) + carry;
        *octet = sum.rem_euclid(256) as u8;
        carry = sum.div_euclid(256);
    }
}

/// A copy of a file after some change.
fn changed(file: &[u8], change: impl FnOnce(&mut Vec<u8>)) -> Vec<u8> {
    let mut file = file.to_vec();
    change(&mut file);
    file
}

/// Makes the length field that of the file, if it has one.
fn mend(mut file: Vec<u8>) -> Vec<u8> {
    if file.len() >= 4 {
        let length = file.len() as u32;
        set(&mut file, 0, length.to_be_bytes());
    }
    file
}

/// Document 01's file without a private extension, and as the manager closes it.
const FILE_CASE: [&[u8]; 2] = [
    b"000000380000003283831080080010800800000000010000000704FFFFFFFF00000000000000000000FFFFC0000201\
        0000000002832FA1B2",
    b"000000430000003D83831080080010800800000000010000000704FFFFFFFF00000000000000000000FFFFC0000201\
        00000000090100000000000000000002832FA1B2",
];

fn file_case(_: &mut Random) -> Vec<Vec<u8>> {
    let file = |digits| gate::octets(digits).expect("hexadecimal digits");
    FILE_CASE.map(file).to_vec()
}

fn right(random: &mut Random) -> Vec<Vec<u8>> {
    vec![Draft::right(random).lay().octets]
}

/// Offset and width of each field of the first 50 octets.
const FIELDS: [(usize, usize); 12] = [
    (0, 4),
    (4, 4),
    (8, 1),
    (9, 1),
    (10, 4),
    (14, 4),
    (18, 4),
    (22, 4),
    (26, 1),
    (27, 20),
    (47, 1),
    (48, 2),
];

/// Every field of the header, variable ones included, with other values.
fn header_fields(random: &mut Random) -> Vec<Vec<u8>> {
    let laid = Draft::right(random).lay();
    let mut fields = FIELDS.to_vec();
    fields.extend([(FIXED, 1), (laid.filter_end, 2)]);
    fields.extend([(laid.header - 2, 1), (laid.header - 1, 1)]);
    fields.retain(|(at, width)| at + width <= laid.octets.len());
    let mut files = Vec::new();
    for (at, width) in fields {
        let field = at..at + width;
        for value in other_values(random, &laid.octets[field.clone()]) {
            files.push(changed(&laid.octets, |file| {
                file[field.clone()].copy_from_slice(&value)
            }));
        }
    }
    files
}

fn other_values(random: &mut Random, field: &[u8]) -> Vec<Vec<u8>> {
    let width = field.len();
    let mut values = vec![vec![0; width], vec![255; width], random.octets(width)];
    for number in [-2, -1, 1, 2] {
        values.push(changed(field, |field| add(field, number)));
    }
    let (octet, bit) = (random.below(width), random.below(8));
    values.push(changed(field, |field| field[octet] ^= 1 << bit));
    values
}

/// Every record of a file damaged in its header, cut, dropped or pushed on.
fn record_boundaries(random: &mut Random) -> Vec<Vec<u8>> {
    let count = random.between(1, 6);
    let laid = Draft::with_records(random, count).lay();
    let mut files = Vec::new();
    for (index, &start) in laid.starts.iter().enumerate() {
        for length in [0, 1, 65_534, 65_535] {
            files.push(changed(&laid.octets, |file| {
                set(file, start, u16::to_be_bytes(length))
            }));
        }
        for number in [-1, 1] {
            files.push(changed(&laid.octets, |file| {
                add(&mut file[start..start + 2], number)
            }));
        }
        for octet in [2, 3, 4] {
            files.extend(octet_damages(random, &laid.octets, start + octet));
        }
        files.extend(boundary_cuts(&laid, index));
        files.push(mend(changed(&laid.octets, |file| file.insert(start, 0))));
        files.extend(without_record(&laid, index));
    }
    files
}

/// One octet, if the file has it, set to all ones (release 7, where it is a release) and others.
fn octet_damages(random: &mut Random, file: &[u8], at: usize) -> Vec<Vec<u8>> {
    if at >= file.len() {
        return Vec::new();
    }
    let masks = [0xE0, 0x20, 0x01, random.octet()];
    let flipped = masks.map(|mask| changed(file, |file| file[at] ^= mask));
    let ones = changed(file, |file| file[at] |= 0xE0);
    flipped.into_iter().chain([ones]).collect()
}

/// The file cut at a record's start and up to five octets behind it, with the count as it was and
/// as it then is.
fn boundary_cuts(laid: &Laid, index: usize) -> Vec<Vec<u8>> {
    let mut files = Vec::new();
    for behind in 0..=5 {
        let end = laid.octets.len().min(laid.starts[index] + behind);
        let cut = mend(laid.octets[..end].to_vec());
        files.push(changed(&cut, |file| {
            set(file, 18, (index as u32).to_be_bytes())
        }));
        files.push(cut);
    }
    files
}

/// The file without one of its records, with the count as it was and as it then is.
fn without_record(laid: &Laid, index: usize) -> [Vec<u8>; 2] {
    let end = laid.starts.get(index + 1).copied();
    let end = end.unwrap_or(laid.octets.len());
    let dropped = mend(changed(&laid.octets, |file| {
        file.drain(laid.starts[index]..end);
    }));
    let counted = changed(&dropped, |file| add(&mut file[18..22], -1));
    [dropped, counted]
}

/// A record of the greatest length and of the reserved one, with all its octets, behind others and
/// before others; and the greatest one said to be of the reserved length.
fn longest_records(random: &mut Random) -> Vec<Vec<u8>> {
    let [before, behind] = [random.below(3), random.below(3)];
    let mut files = Vec::new();
    for octets in [65_534, 65_535] {
        let mut draft = Draft::with_records(random, before);
        let longest = release(random, 2);
        let body = random.octets(octets);
        draft.add(random, longest, &body);
        for _ in 0..behind {
            let release = release(random, 2);
            draft.add(random, release, &[1, 2, 3]);
        }
        draft.settle();
        let laid = draft.lay();
        let start = laid.starts[before];
        files.push(changed(&laid.octets, |file| set(file, start, [255, 255])));
        files.push(laid.octets);
    }
    files
}

/// A file cut at every octet, with its length field as it was and mended.
fn cuts(random: &mut Random) -> Vec<Vec<u8>> {
    let file = Draft::right(random).lay().octets;
    let last = file.len().min(400);
    (0..last)
        .flat_map(|end| [file[..end].to_vec(), mend(file[..end].to_vec())])
        .collect()
}

/// Octets behind a right file, with its length field as it was and mended.
fn grown(random: &mut Random) -> Vec<Vec<u8>> {
    let file = Draft::right(random).lay().octets;
    let mut files = Vec::new();
    for more in 1..=5 {
        for behind in [vec![0; more], random.octets(more)] {
            let long = changed(&file, |file| file.extend_from_slice(&behind));
            files.push(mend(long.clone()));
            files.push(long);
        }
    }
    files
}

/// The header length wrong by one and two: in its field alone, in the octets alone, and in both.
fn header_lengths(random: &mut Random) -> Vec<Vec<u8>> {
    let laid = Draft::right(random).lay();
    let mut files = Vec::new();
    for number in [-2, -1, 1, 2] {
        let said = |file: &mut Vec<u8>| add(&mut file[4..8], number);
        files.push(changed(&laid.octets, said));
        for at in [laid.filter_end, laid.header] {
            let resized = changed(&laid.octets, |file| resize(file, at, number));
            files.push(mend(changed(&resized, said)));
            files.push(mend(resized));
        }
    }
    files
}

/// Puts octets in at a place, or takes some from before it.
fn resize(file: &mut Vec<u8>, at: usize, number: i16) {
    let size = usize::from(number.unsigned_abs());
    if number > 0 {
        file.splice(at..at, vec![0; size]);
    } else {
        file.drain(at - size..at);
    }
}

/// f and p of 65,534 and 65,535, where the header's sum fits and where it does not.
fn reserved_lengths(random: &mut Random) -> Vec<Vec<u8>> {
    let mut draft = Draft::right(random);
    let mut files = Vec::new();
    for f in [0, 3, 65_534, 65_535] {
        for p in [0, 1, 65_534, 65_535] {
            draft.filter = random.octets(f);
            draft.extend((p > 0).then(|| random.octets(p)));
            let laid = draft.lay();
            for said in [65_534, 65_535] {
                let said = u16::to_be_bytes(said);
                files.push(changed(&laid.octets, |file| set(file, 48, said)));
                if laid.filter_end + 2 <= laid.octets.len() {
                    let at = laid.filter_end;
                    files.push(changed(&laid.octets, |file| set(file, at, said)));
                }
            }
            files.push(changed(&laid.octets, |file| file[10] |= 0xF0));
            files.push(laid.octets);
        }
    }
    files
}

/// A private extension of no octets, alone and with octets behind its length.
fn no_private_octets(random: &mut Random) -> Vec<Vec<u8>> {
    let mut draft = Draft::right(random);
    draft.extend(None);
    let laid = draft.lay();
    let mut files = Vec::new();
    for more in [2, 3, 4] {
        files.push(mend(changed(&laid.octets, |file| {
            resize(file, laid.filter_end, more);
            add(&mut file[4..8], more);
        })));
    }
    draft.extend(Some(random.octets(1)));
    let one = draft.lay();
    files.push(changed(&one.octets, |file| {
        set(file, one.filter_end, [0, 0])
    }));
    files.push(one.octets);
    files
}

/// No private extension, an empty one, and ones of 1 and 65,534 octets; about each the header length
/// off by one and two, in its field alone and with as many octets more or less.
fn extensions(random: &mut Random) -> Vec<Vec<u8>> {
    let mut draft = Draft::right(random);
    let mut files = Vec::new();
    for octets in [None, Some(0), Some(1), Some(65_534)] {
        draft.extend(octets.map(|octets| random.octets(octets)));
        let laid = draft.lay();
        for number in [-2, -1, 1, 2] {
            let said = |file: &mut Vec<u8>| add(&mut file[4..8], number);
            files.push(changed(&laid.octets, said));
            let resized = changed(&laid.octets, |file| resize(file, laid.header, number));
            files.push(mend(changed(&resized, said)));
        }
        files.push(laid.octets);
    }
    files
}

/// Files of the lengths at which something changes, each also a little wrong.
fn limits(random: &mut Random) -> Vec<Vec<u8>> {
    let mut files = Vec::new();
    for length in [50, 65_534, 65_535, 65_536] {
        files.extend(of_length(random, length));
    }
    for length in [LONGEST_FILE - 1, LONGEST_FILE, LONGEST_FILE + 1] {
        files.extend(of_length(random, length));
    }
    let below = files[0][..49].to_vec();
    files.extend([mend(below.clone()), below]);
    files
}

/// Right files of this length, of small and large records; some made wrong at their end.
fn of_length(random: &mut Random, length: usize) -> Vec<Vec<u8>> {
    let mut files = Vec::new();
    for (mix, body) in [(0, 0), (1, 0), (0, 1_000), (1, 4_000)] {
        if mix == 1 && length < FIXED + 2 {
            continue;
        }
        let release = release(random, mix);
        let file = Draft::of_length(random, length, release, body).lay().octets;
        for number in [-1, 1] {
            files.push(changed(&file, |file| add(&mut file[0..4], number)));
        }
        files.push(changed(&file, |file| add(&mut file[18..22], 1)));
        files.push(mend(file[..length - 1].to_vec()));
        files.push(file);
    }
    files
}

/// Files from none to a few octets above a header's least, of noise, and cut from a right one.
fn short(random: &mut Random) -> Vec<Vec<u8>> {
    let file = Draft::with_records(random, 4).lay().octets;
    let mut files = Vec::new();
    for length in 0..=60 {
        files.push(mend(vec![0; length]));
        files.push(mend(vec![255; length]));
        files.push(mend(random.octets(length)));
        files.push(mend(file[..length].to_vec()));
    }
    files
}

/// Low above high by release, extension or version; in empty files the other way round is right.
fn low_above_high(random: &mut Random) -> Vec<Vec<u8>> {
    let count = random.pick(&[0, 0, 1, 3]);
    let mut draft = Draft::with_records(random, count);
    let mix = random.below(3);
    let base = release(random, mix);
    let mut files = Vec::new();
    for part in 0..3 {
        for other in others(base, part) {
            for (high, low) in [(base, other), (other, base)] {
                (draft.header.high, draft.header.low) = (high, low);
                files.push(draft.lay().octets);
            }
        }
    }
    files
}

/// Releases that differ from this one in release (0), extension (1) or version (2) alone; but the
/// extension is 0 below release 7.
fn others(of: Release, part: usize) -> Vec<Release> {
    let near = |octet: u8, most: u8| [octet.wrapping_sub(1) & most, octet.wrapping_add(1) & most];
    match part {
        0 => near(of.release, 7)
            .map(|release| Release {
                release,
                extension: if release == EXTENDED { of.extension } else { 0 },
                ..of
            })
            .to_vec(),
        1 if of.release == EXTENDED => near(of.extension, 255)
            .map(|extension| Release { extension, ..of })
            .to_vec(),
        1 => Vec::new(),
        _ => near(of.version, 31)
            .map(|version| Release { version, ..of })
            .to_vec(),
    }
}

/// The count off by one and more, also in its upper octets alone.
fn counts(random: &mut Random) -> Vec<Vec<u8>> {
    let file = Draft::right(random).lay().octets;
    let numbers = [-1, 1, 2, 256];
    let off = numbers.map(|number| changed(&file, |file| add(&mut file[18..22], number)));
    let upper = [18, 19].map(|at| changed(&file, |file| file[at] = 1));
    let ones = changed(&file, |file| set(file, 18, [255; 4]));
    off.into_iter().chain(upper).chain([ones]).collect()
}

/// High or low wrong in one part alone: in the whole header, and in octet 9 or 10 alone.
fn wrong_spans(random: &mut Random) -> Vec<Vec<u8>> {
    let count = random.between(1, 6);
    let right = Draft::with_records(random, count);
    let file = right.lay().octets;
    let mut files = Vec::new();
    for part in 0..3 {
        for high in others(right.header.high, part) {
            let mut draft = right.clone();
            draft.header.high = high;
            files.push(draft.lay().octets);
            files.push(changed(&file, |file| file[8] = release_octet(high)));
        }
        for low in others(right.header.low, part) {
            let mut draft = right.clone();
            draft.header.low = low;
            files.push(draft.lay().octets);
            files.push(changed(&file, |file| file[9] = release_octet(low)));
        }
    }
    // An extension alone leaves octets 9 and 10 as they were.
    files.retain(|changed| *changed != file);
    files
}

/// Both timestamps with every value in each field.
fn timestamps(random: &mut Random) -> Vec<Vec<u8>> {
    let file = Draft::with_records(random, 1).lay().octets;
    let mut files = Vec::new();
    for at in [10, 14] {
        let word = u32::from_be_bytes([file[at], file[at + 1], file[at + 2], file[at + 3]]);
        let mut shift = 32;
        for width in TIME_WIDTHS {
            shift -= width;
            let others = word & !(((1 << width) - 1) << shift);
            for value in 0..1 << width {
                let word: u32 = others | value << shift;
                files.push(changed(&file, |file| set(file, at, word.to_be_bytes())));
            }
        }
    }
    files
}

/// Some damages in one file, so that the order of the refusals shows.
fn several(random: &mut Random) -> Vec<Vec<u8>> {
    let laid = Draft::right(random).lay();
    let mut file = laid.octets.clone();
    let number = random.pick(&[-1, 1]);
    for (at, width) in [(0, 4), (4, 4), (18, 4), (8, 1), (9, 1)] {
        if random.once_in(5) {
            add(&mut file[at..at + width], number);
        }
    }
    for at in [10, 14] {
        if random.once_in(5) {
            let octets = random.octets(4);
            file[at..at + 4].copy_from_slice(&octets);
        }
    }
    if random.once_in(12) {
        set(&mut file, 48, [255, 255]);
    }
    for &start in &laid.starts {
        if random.once_in(10) {
            add(&mut file[start..start + 2], number);
        }
        if random.once_in(10) {
            file[start + 2] ^= 1 << random.below(8);
        }
    }
    if random.once_in(3) {
        file = mend(file);
    }
    vec![file]
}

/// A right header with random octets behind it, or behind its first 50 octets.
fn noise(random: &mut Random) -> Vec<Vec<u8>> {
    let mut file = Draft::with_records(random, 0).lay().octets;
    let behind = random.between(0, 60);
    if random.once_in(3) {
        file.truncate(FIXED);
        let said = FIXED + random.between(0, behind.min(8));
        set(&mut file, 4, (said as u32).to_be_bytes());
        set(&mut file, 48, [0, random.below(4) as u8]);
    }
    set(&mut file, 18, [0, 0, 0, random.below(4) as u8]);
    // Many zeros, so that some of the noise is records.
    let octets = random.octets(behind).into_iter();
    file.extend(octets.map(|octet| if octet < 160 { octet / 80 } else { octet }));
    vec![mend(file)]
}

#[cfg(test)]
mod tests {
    use super::*;
    use crate::second;
    use std::collections::BTreeSet;

    /// The answers that the second reader gives to a family's first batches.
    fn answers(batch: fn(&mut Random) -> Vec<Vec<u8>>, rounds: usize) -> Vec<u8> {
        let mut random = Random::new(1);
        let files = (0..rounds).flat_map(|_| batch(&mut random));
        let answers: BTreeSet<u8> = files
            .map(|file| second::read(&file).map_or_else(|refusal| refusal, |_| 0))
            .collect();
        answers.into_iter().collect()
    }

    #[test]
    fn right_files_are_right() {
        assert_eq!(answers(right, 2_000), [0]);
        assert_eq!(answers(file_case, 1), [0]);
    }

    #[test]
    fn damages_meet_the_refusals_they_aim_at() {
        assert_eq!(answers(header_fields, 40), [0, 8, 9, 10, 11, 12, 13]);
        assert_eq!(answers(record_boundaries, 60), [0, 11, 12, 13]);
        assert_eq!(answers(longest_records, 10), [0, 11]);
        assert_eq!(answers(cuts, 20), [8, 9, 11, 12]);
        assert_eq!(answers(grown, 40), [8, 11, 12]);
        // Two octets more may be an empty extension, and the octets of a release 7 then others.
        assert_eq!(answers(header_lengths, 400), [0, 9, 11, 13]);
        assert_eq!(answers(reserved_lengths, 1), [0, 9, 10, 11]);
        assert_eq!(answers(no_private_octets, 20), [0, 9]);
        assert_eq!(answers(extensions, 20), [0, 9, 11, 13]);
        assert_eq!(answers(low_above_high, 40), [0, 13]);
        assert_eq!(answers(counts, 20), [12]);
        assert_eq!(answers(wrong_spans, 40), [9, 13]);
        assert_eq!(answers(timestamps, 1), [0, 10]);
        assert_eq!(answers(several, 2_000), [0, 8, 9, 10, 11, 12, 13]);
        assert_eq!(answers(noise, 6_000), [0, 9, 11, 12, 13]);
    }

    #[test]
    fn files_have_the_lengths_of_the_limits() {
        let lengths: BTreeSet<usize> = limits(&mut Random::new(3)).iter().map(Vec::len).collect();
        for length in [49, 50, 65_534, 65_535, 65_536] {
            assert!(lengths.contains(&length));
        }
        for length in [1_048_575, 1_048_576, 1_048_577] {
            assert!(lengths.contains(&length));
        }
        assert_eq!(answers(limits, 1), [0, 8, 11, 12]);
    }
}
