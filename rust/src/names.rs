//! The names, fields and scripts on which the proved `cdrname` and the second reader and writer of
//! names are compared.

#![forbid(unsafe_code)]

use crate::cdrname::LONGEST_LINE;
use crate::name::{LONGEST_NAME, LONGEST_NODE, LONGEST_PRIVATE};
use crate::random::Random;

/// Rounds over all kinds of names, and over all values of fields.
const NAME_ROUNDS: usize = 600;
const FIELD_ROUNDS: usize = 8;

/// A line, and how its answer begins, as far as that is known from the way the line was made.
pub struct Case {
    pub line: Vec<u8>,
    pub plan: &'static str,
}

/// Lines of names and of fields, in any order.
pub fn cases(random: &mut Random) -> Vec<Case> {
    let mut cases = name_cases(random);
    cases.extend(field_cases(random));
    random.shuffle(&mut cases);
    cases
}

/// A name's parts in order, delimiters among them; the last two only with a private part.
type Parts = Vec<Vec<u8>>;

const NODE: usize = 0;
const COUNT: usize = 2;
const YEAR: usize = 4;
const SIGN: usize = 10;
const PRIVATE: usize = 14;
const DELIMITERS: [usize; 4] = [1, 3, 7, 13];
/// Month, day, hour, minute, and the offset's: two digits each.
const PAIRS: [usize; 6] = [5, 6, 8, 9, 11, 12];
/// The least and most of each pair.
const RANGES: [[usize; 2]; 6] = [[1, 12], [1, 31], [0, 23], [0, 59], [0, 23], [0, 59]];
const DIGITS: &[u8] = b"0123456789";
const LETTERS: &[u8] = b"0123456789ABCDEFGHIJKLMNOPQRSTUVWXYZabcdefghijklmnopqrstuvwxyz";
/// Octets beside the letters and digits, of the delimiters, above ASCII, and others; no LF.
const STRANGE: &[u8] = b"/:@[`{_-.+ ,*#\"\\'\0\t\r\x1F\x7F\x80\xB1\xB2\xC3\xE1\xFF";

/// The parts of a right name, put together apart from either writer.
fn right_parts(random: &mut Random) -> Parts {
    let node = length(random, LONGEST_NODE);
    let year = random.between(1999, 2100);
    let year = random.pick(&[1999, 2100, year, year]);
    let [month, day, hour, minute, dev_hour, dev_minute] = RANGES.map(|range| pair(random, range));
    let offset = match random.below(8) {
        0 => [b"00".to_vec(), b"00".to_vec()],
        _ => [dev_hour, dev_minute],
    };
    let mut parts = vec![letters(random, node), b"_-_".to_vec()];
    parts.extend([digits(count(random)), b".".to_vec()]);
    parts.extend([digits(year), month, day, b"_-_".to_vec(), hour, minute]);
    parts.push(vec![random.pick(b"+-")]);
    parts.extend(offset);
    if random.once_in(2) {
        let private = length(random, LONGEST_PRIVATE);
        let private = match random.below(16) {
            // What looks like an extension is a private part.
            0 => random.pick(&[b"cdr", b"CDR", b"abc"]).to_vec(),
            _ => letters(random, private),
        };
        parts.extend([b".".to_vec(), private]);
    }
    parts
}

/// A length up to the longest, often the least or one of the last.
fn length(random: &mut Random, longest: usize) -> usize {
    let any = random.between(1, longest);
    random.pick(&[1, longest, longest - 1, any, any, any])
}

fn letters(random: &mut Random, length: usize) -> Vec<u8> {
    let from = random.pick(&[LETTERS, LETTERS, LETTERS, DIGITS, b"09AZaz", b"0"]);
    (0..length).map(|_| random.pick(from)).collect()
}

fn digits(number: usize) -> Vec<u8> {
    number.to_string().into_bytes()
}

fn count(random: &mut Random) -> usize {
    const MOST: usize = u32::MAX as usize;
    match random.below(6) {
        0 => 1,
        1 => MOST,
        2 => MOST - random.below(20),
        // About a power of ten, where the number of digits changes.
        3 => 10_usize.pow(random.between(1, 9) as u32) - random.below(2),
        4 => random.between(1, 100),
        _ => random.between(1, MOST),
    }
}

/// Two digits in this range, often its ends.
fn pair(random: &mut Random, [least, most]: [usize; 2]) -> Vec<u8> {
    let any = random.between(least, most);
    two_digits(random.pick(&[least, most, any, any, any, any]))
}

fn two_digits(number: usize) -> Vec<u8> {
    format!("{number:02}").into_bytes()
}

/// A right name for each that is damaged.
fn name_cases(random: &mut Random) -> Vec<Case> {
    let mut cases = Vec::new();
    let mut add = |name: Vec<u8>, plan| {
        let line = [&b"N "[..], &name].concat();
        cases.push(Case { line, plan });
    };
    for _ in 0..NAME_ROUNDS {
        for kind in 0..WRONG_NAMES {
            add(right_parts(random).concat(), "N 0 ");
            add(wrong_name(random, kind), "N 20");
        }
        for kind in 0..CHANGED_NAMES {
            add(right_parts(random).concat(), "N 0 ");
            add(changed_name(random, kind), "N ");
        }
    }
    cases
}

/// How many kinds of faults `wrong_name` knows.
const WRONG_NAMES: usize = 14;

/// Counts of 0, beyond 32 bits, such as are right if a number wraps, and no numbers.
#[rustfmt::skip]
const WRONG_COUNTS: [&str; 26] = [
    "0", "00", "4294967296", "4294967297", "4294967299", "4294968000", "5000000000", "8589934593",
    "9999999999", "10000000000", "42949672950", "42949672951", "18446744073709551615",
    "18446744073709551616", "18446744073709551617", "340282366920938463463374607431768211457",
    "+1", "-1", " 1", "1 ", "1,0", "1e3", "0x10", "_1", "1_", "-",
];

#[rustfmt::skip]
const WRONG_SIGNS: [&[u8]; 17] = [
    b"", b"++", b"+-", b"-+", b"--", b" ", b",", b".", b"_", b"0", b"1", b"_-_", b"*", b"/",
    b"\xE2\x88\x92", b"\xB1", b"\xAB",
];

/// A right name with one fault, with which no name is right.
fn wrong_name(random: &mut Random, kind: usize) -> Vec<u8> {
    let mut parts = right_parts(random);
    let has_private = parts.len() > PRIVATE;
    let (word, longest) = match has_private && random.once_in(2) {
        true => (PRIVATE, LONGEST_PRIVATE),
        false => (NODE, LONGEST_NODE),
    };
    let place = random.below(PAIRS.len());
    let (pair, [least, most]) = (PAIRS[place], RANGES[place]);
    match kind {
        0 => {
            let longer = longest + random.pick(&[1, 1, 1, 2, 12, 13, 300, 3_900]);
            parts[word] = letters(random, longer);
        }
        1 => parts[word].clear(),
        2 => put_at_random(random, &mut parts[word], STRANGE),
        3 => break_delimiter(random, &mut parts),
        4 => {
            let zeros = random.pick(&[1, 1, 2, 9, 40]);
            parts[COUNT].splice(..0, vec![b'0'; zeros]);
        }
        5 => parts[COUNT] = random.pick(&WRONG_COUNTS).as_bytes().to_vec(),
        6 => {
            let year = random.pick(&[0, 999, 1900, 1998, 1998, 2101, 2101, 2199, 2999, 9999]);
            parts[YEAR] = format!("{year:04}").into_bytes();
        }
        7 => {
            let above = random.pick(&[most + 1, most + 1, most / 10 * 10 + 10, 99]);
            parts[pair] = two_digits(match least {
                1 if random.once_in(2) => 0,
                _ => above,
            });
        }
        8 => {
            let number = random.pick(&[COUNT, YEAR, pair, pair]);
            let others = random.pick(&[b"AFOZaeloxz", STRANGE]);
            put_at_random(random, &mut parts[number], others);
        }
        9 => {
            // A digit too few or too many.
            let number = random.pick(&[YEAR, pair, pair, pair]);
            match random.below(3) {
                0 => drop(parts[number].pop()),
                1 => parts[number].push(random.pick(DIGITS)),
                _ => parts[number].insert(0, b'0'),
            }
        }
        10 => parts[SIGN] = random.pick(&WRONG_SIGNS).to_vec(),
        11 => {
            // Extensions; without a private part one of one point would be that part.
            let endings = ["..cdr", "..abc", ".x.cdr", "..", ".", ".cdr", ".abc"];
            let endings = &endings[..if has_private { 7 } else { 5 }];
            parts.push(random.pick(endings).as_bytes().to_vec());
        }
        12 => {
            let strange = vec![random.pick(STRANGE)];
            let at = random.pick(&[0, parts.len()]);
            parts.insert(at, strange);
        }
        _ => parts[random.pick(&[NODE, COUNT, YEAR, SIGN, pair, pair])].clear(),
    }
    parts.concat()
}

/// Puts one of these octets in the place of another.
fn put_at_random(random: &mut Random, part: &mut [u8], from: &[u8]) {
    let at = random.below(part.len());
    part[at] = random.pick(from);
}

/// Shortens a delimiter, lengthens it, or puts another in its place.
fn break_delimiter(random: &mut Random, parts: &mut Parts) {
    let there = &DELIMITERS[..if parts.len() > PRIVATE { 4 } else { 3 }];
    let delimiter = &mut parts[random.pick(there)];
    #[rustfmt::skip]
    let others: &[&[u8]] = match &delimiter[..] {
        b"." => &[b"", b"..", b",", b"_", b"_-_", b"-", b" ", b":"],
        _ => &[
            b"", b"_", b"-", b"__", b"_-", b"-_", b"--", b"-_-", b"_+_", b"_._", b"_ _", b"_-_-_",
            b"__-_", b"_-__", b"_--_", b"_-_ ", b" _-_", b".", b"_-_.", b"_\x96_",
        ],
    };
    *delimiter = random.pick(others).to_vec();
}

/// How many kinds of changes `changed_name` knows.
const CHANGED_NAMES: usize = 10;

/// A right name that was changed, and may be right again.
fn changed_name(random: &mut Random, kind: usize) -> Vec<u8> {
    let mut parts = right_parts(random);
    let mut name = parts.concat();
    let at = random.below(name.len());
    let near = random.pick(&name);
    let choices = [
        random.octet(),
        random.pick(STRANGE),
        random.pick(DIGITS),
        near,
    ];
    let octet = random.pick(&choices);
    match kind {
        0 => name[at] = octet,
        1 => drop(name.remove(at)),
        2 => name.insert(at, octet),
        3 => name.swap(at, at.saturating_sub(1)),
        4 => name.swap(random.below(at + 1), at),
        5 => name.truncate(at),
        6 => {
            // The other sign: other fields, and no fault.
            parts[SIGN] = match &parts[SIGN][..] {
                b"+" => b"-".to_vec(),
                _ => b"+".to_vec(),
            };
            name = parts.concat();
        }
        7 => {
            let (one, other) = (random.below(parts.len()), random.below(parts.len()));
            parts.swap(one, other);
            name = parts.concat();
        }
        8 => {
            // As long as before.
            name.remove(at);
            name.insert(random.below(name.len() + 1), octet);
        }
        _ => {
            let length = random.below(LONGEST_NAME + 4);
            name = match random.below(3) {
                0 => random.octets(length),
                1 => letters(random, length),
                _ => (0..length).map(|_| random.pick(b"_-_.+019")).collect(),
            };
        }
    }
    name.retain(|&octet| octet != b'\n');
    name
}

/// The words of a line of W but for the room.
struct Words {
    node: Vec<u8>,
    /// Count, year, month, day, hour, minute, sign, the offset's hour and minute, `has`.
    numbers: [u32; 10],
    private: Vec<u8>,
}

const HAS: usize = 9;

/// Values in and about the range of each number, and such as are in it once their upper bits are
/// lost.
#[rustfmt::skip]
const VALUES: [&[u32]; 10] = [
    &[0, 1, 2, 9, 10, 99, 100, 65_535, 65_536, 999_999_999, 1_000_000_000, u32::MAX - 1, u32::MAX],
    &[
        0, 1, 99, 207, 999, 1900, 1998, 1999, 2000, 2038, 2099, 2100, 2101, 2255, 9999, 10_000,
        12_000, 20_051, 65_536 + 2000, u32::MAX,
    ],
    &[0, 1, 2, 9, 10, 11, 12, 13, 21, 99, 100, 256, 257, 65_537, 1 << 31, u32::MAX],
    &[0, 1, 2, 9, 10, 29, 30, 31, 32, 99, 100, 256, 257, 65_537, 1 << 31, u32::MAX],
    &[0, 1, 9, 10, 22, 23, 24, 25, 59, 60, 99, 100, 256, 65_536, 1 << 31, u32::MAX],
    &[0, 1, 9, 10, 58, 59, 60, 61, 99, 100, 256, 65_536, 1 << 31, u32::MAX],
    &[0, 1, 2, 3, 43, 45, 255, 256, 257, 65_536, 1 << 31, u32::MAX],
    &[0, 1, 9, 10, 22, 23, 24, 25, 59, 60, 99, 100, 256, 65_536, 1 << 31, u32::MAX],
    &[0, 1, 9, 10, 58, 59, 60, 61, 99, 100, 256, 65_536, 1 << 31, u32::MAX],
    &[0, 1, 2, 3, 255, 256, 257, 65_536, 1 << 31, u32::MAX],
];

#[rustfmt::skip]
const ROOMS: [usize; 12] = [0, 1, 26, 37, 86, 87, 88, 255, 256, 4_096, 65_536, 4_294_967_295];

/// The least and most of each number but `has`.
#[rustfmt::skip]
const BOUNDS: [[u32; 2]; 9] = [
    [1, u32::MAX], [1999, 2100], [1, 12], [1, 31], [0, 23], [0, 59], [0, 1], [0, 23], [0, 59],
];

impl Words {
    fn right(random: &mut Random) -> Self {
        let parts = right_parts(random);
        let number = |at: usize| -> u32 {
            let text = String::from_utf8_lossy(&parts[at]);
            text.parse().expect("a right name has numbers")
        };
        let [count, year] = [COUNT, YEAR].map(number);
        let [month, day, hour, minute, dev_hour, dev_minute] = PAIRS.map(number);
        let sign = (parts[SIGN] == b"+").into();
        let private = parts.get(PRIVATE);
        let has = private.is_some().into();
        Self {
            node: parts[NODE].clone(),
            numbers: [
                count, year, month, day, hour, minute, sign, dev_hour, dev_minute, has,
            ],
            private: private.cloned().unwrap_or_default(),
        }
    }

    /// Whether there is a name of these words.
    fn is_right(&self) -> bool {
        let is_word = |octets: &[u8], longest: usize| {
            let fits = !octets.is_empty() && octets.len() <= longest;
            fits && octets.iter().all(|octet| LETTERS.contains(octet))
        };
        let mut bounded = self.numbers.iter().zip(BOUNDS);
        let private_fits = match self.numbers[HAS] {
            0 => self.private.is_empty(),
            1 => is_word(&self.private, LONGEST_PRIVATE),
            _ => false,
        };
        bounded.all(|(&number, [least, most])| least <= number && number <= most)
            && is_word(&self.node, LONGEST_NODE)
            && private_fits
    }

    /// How long the name is; about that if the words are wrong.
    fn name_octets(&self) -> usize {
        let count = self.numbers[0].to_string();
        let private = match self.private.len() {
            0 => 0,
            octets => 1 + octets,
        };
        self.node.len() + "_-_.20050401_-_2315+0200".len() + count.len() + private
    }

    fn line(&self, room: usize) -> Vec<u8> {
        let numbers = self.numbers.map(|number| number.to_string()).join(" ");
        let room = room.to_string();
        let [node, private] = [&self.node[..], &self.private].map(|octets| match octets {
            [] => b"-",
            octets => octets,
        });
        let words = [b"W", node, numbers.as_bytes(), private, room.as_bytes()];
        words.join(&b' ')
    }

    /// Adds lines of these words, with outputs about as long as the name and one of any length.
    fn add_to(&self, cases: &mut Vec<Case>, random: &mut Random) {
        let octets = self.name_octets();
        for room in [octets - 1, octets, octets + 1, random.pick(&ROOMS)] {
            let line = self.line(room);
            let plan = match self.is_right() {
                false => "W 20",
                true if room < octets => "W 21",
                true => "W 0 ",
            };
            cases.push(Case { line, plan });
        }
    }
}

fn field_cases(random: &mut Random) -> Vec<Case> {
    let mut cases = Vec::new();
    for _ in 0..FIELD_ROUNDS {
        for (place, values) in VALUES.iter().enumerate() {
            for &value in *values {
                Words::right(random).add_to(&mut cases, random);
                let mut words = Words::right(random);
                words.numbers[place] = value;
                words.add_to(&mut cases, random);
                let other = random.below(VALUES.len());
                words.numbers[other] = random.pick(VALUES[other]);
                words.add_to(&mut cases, random);
            }
        }
        for length in [0, 1, 2, 19, 20, 21, 22, 31, 32, 33, 34, 64, 87, 300, 3_900] {
            let mut words = Words::right(random);
            words.node = letters(random, length);
            words.add_to(&mut cases, random);
            for has in [0, 1, 2] {
                let mut words = Words::right(random);
                words.private = letters(random, length);
                words.numbers[HAS] = has;
                words.add_to(&mut cases, random);
            }
        }
        // A space would begin another word.
        for &strange in STRANGE.iter().filter(|&&octet| octet != b' ') {
            for of_node in [true, false] {
                let mut words = Words::right(random);
                let (length, has) = (random.between(2, LONGEST_NODE), random.below(2) as u32);
                let mut octets = letters(random, length);
                put_at_random(random, &mut octets, &[strange]);
                if of_node {
                    words.node = octets;
                } else {
                    words.private = octets;
                    words.numbers[HAS] = has;
                }
                words.add_to(&mut cases, random);
            }
        }
    }
    cases
}

/// Lines that have no meaning wherever they stand.
#[rustfmt::skip]
const WRONG_LINES: [&[u8]; 39] = [
    b"", b" ", b"  ", b"N", b"W", b"E", b"X", b"X x", b"n x", b"w x", b"0", b"-", b"#", b"# N",
    b"NN x", b"WW x", b"NW", b"N\tx", b"N\r", b"\r", b"\0", b"\0N x", b" N x", b" W", b"W ",
    b"W  ", b"W -", b"W 1 2 3", b"W             ", b"A_-_1.20050401_-_2315+0200", b"N_-_1",
    b"N-x", b"N.", b"N\0x", b"\xEF\xBB\xBFN x", b"\xCE\x9D x", b"\xFF", b"E 1", b"Q",
];

#[rustfmt::skip]
const WRONG_NUMBERS: [&[u8]; 14] = [
    b"-", b"+1", b"-1", b"1a", b"a1", b"0x1", b"1.0", b"1,000", b"1\t", b"\xB2", b"4294967296",
    b"04294967296", b"42949672950", b"18446744073709551617",
];

/// Those, lines of W with a word too few, too many or without its form, and lines too long.
pub fn wrong_lines(random: &mut Random) -> Vec<Vec<u8>> {
    let mut lines: Vec<Vec<u8>> = WRONG_LINES.iter().map(|line| line.to_vec()).collect();
    let mut right = || {
        let words = Words::right(random);
        words.line(random.below(99))
    };
    let mut add_changed = |change: &dyn Fn(&mut Vec<Vec<u8>>)| {
        let line = right();
        let mut words: Vec<Vec<u8>> = line.split(|&octet| octet == b' ').map(Vec::from).collect();
        change(&mut words);
        lines.push(words.join(&b' '));
    };
    // The node is word 1, the private part word 12 and the room word 13.
    for place in 1..=13 {
        add_changed(&|words| drop(words.remove(place)));
        add_changed(&|words| words.insert(place, b"1".to_vec()));
        add_changed(&|words| words.insert(place, Vec::new()));
        add_changed(&|words| words[place].clear());
        add_changed(&|words| {
            let word = words.remove(place);
            words[place - 1].push(b'\t');
            words[place - 1].extend(word);
        });
        if place == 1 || place == 12 {
            continue;
        }
        for wrong in WRONG_NUMBERS {
            add_changed(&|words| words[place] = wrong.to_vec());
        }
    }
    for behind in [b' ', b'\r', b'\t', b'\0', b'.'] {
        add_changed(&|words| words[13].push(behind));
    }
    for more in [1, 2, LONGEST_LINE, 61_440, 100_000] {
        let octets = LONGEST_LINE + more;
        // Zeros before the room, which would be right in a shorter line.
        add_changed(&|words| {
            let zeros = octets - words.join(&b' ').len();
            words[13].splice(..0, vec![b'0'; zeros]);
        });
        add_changed(&|words| *words = vec![b"N".to_vec(), vec![b'x'; octets - 2]]);
        add_changed(&|words| *words = vec![vec![b'x'; octets]]);
    }
    lines
}

/// A few right lines, a wrong one, and lines behind it that are not answered. The last lacks its
/// end at times.
pub fn wrong_run(random: &mut Random, cases: &[Case], wrong: &[u8]) -> Vec<u8> {
    let mut lines: Vec<&[u8]> = Vec::new();
    for _ in 0..random.pick(&[0, 0, 1, 2, 8, 9, 98, 99, 999]) {
        lines.push(&cases[random.below(cases.len())].line);
    }
    lines.push(wrong);
    for _ in 0..random.below(3) {
        lines.push(&cases[random.below(cases.len())].line);
    }
    // Without its end an empty line at the last would be none.
    if wrong.is_empty() || !random.once_in(4) {
        lines.push(b"");
    }
    lines.join(&b'\n')
}

/// Inputs at the edge of what is right, with what they print.
pub fn edge_runs() -> Vec<(Vec<u8>, Vec<u8>)> {
    let name = "A_-_1.20050401_-_2315+0200";
    let read = "N 0 A 1 2005 4 1 23 15 1 2 0 -\n";
    let fields = "W A 1 2005 4 1 23 15 1 2 0 0 -";
    let written = &format!("W 0 {name}\n");
    // A line as long as may be.
    let long = |first: &str, fill: &str, last: &str| {
        let fill = fill.repeat(LONGEST_LINE - first.len() - last.len());
        format!("{first}{fill}{last}")
    };
    let long_name = &long("N ", "x", "");
    let long_room = &long(&format!("{fields} "), "0", "26");
    let long_node = &long("W ", "x", " 1 2005 4 1 23 15 1 2 0 0 - 99");
    let long_private = &long("W A 1 2005 4 1 23 15 1 2 0 1 ", "x", " 99");
    let with = |from: &str, to: &str| format!("{} 99\n", fields.replacen(from, to, 1));
    let runs: &[(&str, &str)] = &[
        ("", ""),
        ("\n", "E 1\n"),
        ("\n\n", "E 1\n"),
        ("N ", "N 20\n"),
        ("N \nN  \nN -\n", "N 20\nN 20\nN 20\n"),
        // The last line may lack its end, and the end alone is no line.
        (&format!("N {name}"), read),
        (&format!("N {name}\n"), read),
        (&format!("{fields} 26"), written),
        (&format!("N {name}\nN"), &format!("{read}E 2\n")),
        (&format!("N {name}\n\n"), &format!("{read}E 2\n")),
        (&format!("N {name}\n\nN {name}\n"), &format!("{read}E 2\n")),
        // All behind the letter and its space is the name.
        (&format!("N {name}\r\n"), "N 20\n"),
        (&format!("N  {name}\nN {name} \n"), "N 20\nN 20\n"),
        // Rooms, and zeros before numbers.
        (&format!("{fields} 25\n"), "W 21\n"),
        (&format!("{fields} 26\n"), written),
        (&format!("{fields} 0026\n"), written),
        (&format!("{fields} 4294967295\n"), written),
        (&with(" 4 1 ", " 04 01 "), written),
        (&with("A 1", "A 00000000000001"), written),
        // None, and octets that are not none.
        (&with("W A", "W -"), "W 20\n"),
        (&with("0 -", "1 -"), "W 20\n"),
        (&with("0 -", "0 x"), "W 20\n"),
        (&with("0 -", "0 --"), "W 20\n"),
        // The longest lines.
        (long_name, "N 20\n"),
        (&format!("{long_name}\nN \n"), "N 20\nN 20\n"),
        (&format!("{long_name}x"), "E 1\n"),
        (&format!("{long_name}x\nN \n"), "E 1\n"),
        (long_room, written),
        (
            &format!("{long_room}\n{fields} 25"),
            &format!("{written}W 21\n"),
        ),
        (&format!("{long_node}\n{long_private}\n"), "W 20\nW 20\n"),
    ];
    let octets = |text: &str| text.as_bytes().to_vec();
    runs.iter()
        .map(|(input, printed)| (octets(input), octets(printed)))
        .collect()
}
