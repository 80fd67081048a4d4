//! The second reader and writer of file names: written in safe Rust from clause 6.2 of TS 32.297
//! V13.1.0 and ask 1 of document 02, and from nothing of the proved code.
//!
//! A name is `node_-_count.YYYYMMDD_-_HHMMshhmm`; a private part stands behind it and a point.

#![forbid(unsafe_code)]

use std::ops::RangeInclusive;

/// The most characters of a node identifier.
pub const LONGEST_NODE: usize = 20;
/// The most characters of a private part.
pub const LONGEST_PRIVATE: usize = 32;
/// The most octets of a name: node, count of ten digits, date, time with offset and private part,
/// and the four delimiters between them.
pub const LONGEST_NAME: usize = LONGEST_NODE + 3 + 10 + 1 + 8 + 3 + 9 + 1 + LONGEST_PRIVATE;

/// What stands before the count and before the time.
const DELIMITER: &str = "_-_";

const YEARS: RangeInclusive<u32> = 1999..=2100;
const MONTHS: RangeInclusive<u32> = 1..=12;
/// In any month: a date that does not exist has a name too.
const DAYS: RangeInclusive<u32> = 1..=31;
const HOURS: RangeInclusive<u32> = 0..=23;
const MINUTES: RangeInclusive<u32> = 0..=59;

/// When a file was closed, in local time, and that time's offset from UTC.
#[derive(Clone, Copy, Debug, PartialEq, Eq)]
pub struct Closing {
    pub year: u32,
    pub month: u32,
    pub day: u32,
    pub hour: u32,
    pub minute: u32,
    /// 1 is plus and 0 is minus; an offset of zero has either.
    pub sign: u32,
    pub dev_hour: u32,
    pub dev_minute: u32,
}

/// What a right name says.
#[derive(Clone, Copy, Debug, PartialEq, Eq)]
pub struct Name<'a> {
    pub node: &'a str,
    pub count: u32,
    pub closing: Closing,
    pub private: Option<&'a str>,
}

/// What a name is to be written of, which may be wrong.
#[derive(Clone, Copy, Debug, PartialEq, Eq)]
pub struct Fields<'a> {
    pub node: &'a [u8],
    pub count: u32,
    pub closing: Closing,
    /// 1 if the private part is there and 0 if it is not.
    pub has: u32,
    pub private: &'a [u8],
}

impl<'a> From<&Name<'a>> for Fields<'a> {
    fn from(name: &Name<'a>) -> Self {
        Self {
            node: name.node.as_bytes(),
            count: name.count,
            closing: name.closing,
            has: name.private.is_some().into(),
            private: name.private.map_or(&[], str::as_bytes),
        }
    }
}

/// Reads a name, or refuses it with 20.
pub fn read(name: &[u8]) -> Result<Name<'_>, u8> {
    let text = std::str::from_utf8(name).ok();
    text.and_then(name_of).ok_or(20)
}

/// Writes the name of these fields and returns its length; or refuses with 20, then 21, and leaves
/// the output as it was.
pub fn write(fields: &Fields, out: &mut [u8]) -> Result<usize, u8> {
    let name = lay(fields).ok_or(20)?;
    let place = out.get_mut(..name.len()).ok_or(21)?;
    place.copy_from_slice(name.as_bytes());
    Ok(name.len())
}

/// No field has a point in it, so the points tell the parts from each other.
fn name_of(text: &str) -> Option<Name<'_>> {
    let parts: Vec<&str> = text.split('.').collect();
    let (front, closing, private) = match parts[..] {
        [front, closing] => (front, closing, None),
        [front, closing, private] => (front, closing, Some(private)),
        _ => return None,
    };
    let (node, count) = front.split_once(DELIMITER)?;
    Some(Name {
        node: word(node.as_bytes(), LONGEST_NODE)?,
        count: count_of(count)?,
        closing: closing_of(closing)?,
        private: match private {
            None => None,
            Some(private) => Some(word(private.as_bytes(), LONGEST_PRIVATE)?),
        },
    })
}

/// A first digit above 0 keeps out leading zeros and the count 0 at once.
fn count_of(text: &str) -> Option<u32> {
    let has_no_zero = !text.starts_with('0');
    decimal(text).filter(|_| has_no_zero)
}

fn closing_of(text: &str) -> Option<Closing> {
    let (date, time) = text.split_once(DELIMITER)?;
    let (sign, (clock, offset)) = match time.split_once('+') {
        Some(halves) => (1, halves),
        None => (0, time.split_once('-')?),
    };
    let date = decimal_of(8, date)?;
    let [clock, offset] = [decimal_of(4, clock)?, decimal_of(4, offset)?];
    let closing = Closing {
        year: date / 10_000,
        month: date / 100 % 100,
        day: date % 100,
        hour: clock / 100,
        minute: clock % 100,
        sign,
        dev_hour: offset / 100,
        dev_minute: offset % 100,
    };
    closing.is_right().then_some(closing)
}

/// A number of exactly so many digits.
fn decimal_of(digits: usize, text: &str) -> Option<u32> {
    decimal(text).filter(|_| text.len() == digits)
}

/// A number of 32 bits in digits alone: a parse would take a plus before them.
fn decimal(text: &str) -> Option<u32> {
    let is_number = text.bytes().all(|octet| octet.is_ascii_digit());
    text.parse().ok().filter(|_| is_number)
}

/// 1 to `longest` letters and digits of ASCII.
fn word(octets: &[u8], longest: usize) -> Option<&str> {
    let fits = (1..=longest).contains(&octets.len());
    let is_word = fits && octets.iter().all(u8::is_ascii_alphanumeric);
    std::str::from_utf8(octets).ok().filter(|_| is_word)
}

impl Closing {
    fn is_right(&self) -> bool {
        YEARS.contains(&self.year)
            && MONTHS.contains(&self.month)
            && DAYS.contains(&self.day)
            && HOURS.contains(&self.hour)
            && MINUTES.contains(&self.minute)
            && self.sign <= 1
            && HOURS.contains(&self.dev_hour)
            && MINUTES.contains(&self.dev_minute)
    }
}

/// The name of these fields, if they are right.
fn lay(fields: &Fields) -> Option<String> {
    let node = word(fields.node, LONGEST_NODE)?;
    let private = match (fields.has, fields.private) {
        (0, []) => String::new(),
        (1, private) => format!(".{}", word(private, LONGEST_PRIVATE)?),
        _ => return None,
    };
    let count = fields.count;
    if count == 0 || !fields.closing.is_right() {
        return None;
    }
    let Closing {
        year,
        month,
        day,
        hour,
        minute,
        sign,
        dev_hour,
        dev_minute,
    } = fields.closing;
    let sign = ['-', '+'][sign as usize];
    let date = format!("{year}{month:02}{day:02}");
    let time = format!("{hour:02}{minute:02}{sign}{dev_hour:02}{dev_minute:02}");
    Some(format!(
        "{node}{DELIMITER}{count}.{date}{DELIMITER}{time}{private}"
    ))
}

#[cfg(test)]
mod tests {
    use super::*;
    use crate::random::Random;

    /// The examples of clause 6.2 as they are printed there.
    const FIRST: &str = "CGFNodeId_-_1234.20050401_-_2315+0200";
    const SECOND: &str = "CGFNodeId_-_44.20051224_-_1700-1130.thankgoditschristmas.abc";
    const THIRD: &str = "CGFNodeId_-_44.20051224_-_1700-1130..abc";
    /// What there is of the second, its extension being never there.
    const SECOND_ALONE: &str = "CGFNodeId_-_44.20051224_-_1700-1130.thankgoditschristmas";

    fn right(name: &str) -> Name<'_> {
        read(name.as_bytes()).unwrap()
    }

    /// The refusal of a name; 0 is none.
    fn refusal(name: &str) -> u8 {
        read(name.as_bytes()).err().unwrap_or(0)
    }

    /// What is written into an output as long as any name.
    fn written(fields: &Fields) -> Result<String, u8> {
        let mut out = [0; LONGEST_NAME];
        let octets = write(fields, &mut out)?;
        Ok(String::from_utf8(out[..octets].to_vec()).unwrap())
    }

    fn first() -> Fields<'static> {
        Fields::from(&right(FIRST))
    }

    #[test]
    fn the_first_example() {
        let expected = Name {
            node: "CGFNodeId",
            count: 1234,
            closing: Closing {
                year: 2005,
                month: 4,
                day: 1,
                hour: 23,
                minute: 15,
                sign: 1,
                dev_hour: 2,
                dev_minute: 0,
            },
            private: None,
        };
        assert_eq!(read(FIRST.as_bytes()), Ok(expected));
        assert_eq!(written(&Fields::from(&expected)), Ok(FIRST.to_owned()));
    }

    #[test]
    fn an_extension_is_never_there() {
        assert_eq!(refusal(SECOND), 20);
        let name = right(SECOND_ALONE);
        let closing = Closing {
            year: 2005,
            month: 12,
            day: 24,
            hour: 17,
            minute: 0,
            sign: 0,
            dev_hour: 11,
            dev_minute: 30,
        };
        assert_eq!(
            (name.node, name.count, name.closing),
            ("CGFNodeId", 44, closing)
        );
        assert_eq!(name.private, Some("thankgoditschristmas"));
        assert_eq!(
            written(&Fields::from(&name)),
            Ok(SECOND.trim_end_matches(".abc").to_owned())
        );
        assert_eq!(refusal(THIRD), 20);
        assert_eq!(refusal(&format!("{FIRST}..cdr")), 20);
        assert_eq!(right(&format!("{FIRST}.cdr")).private, Some("cdr"));
    }

    #[test]
    fn an_offset_of_zero_has_two_signs() {
        for (text, sign) in [("+0000", 1), ("-0000", 0)] {
            let name = FIRST.replace("+0200", text);
            let closing = right(&name).closing;
            let offset = (closing.sign, closing.dev_hour, closing.dev_minute);
            assert_eq!(offset, (sign, 0, 0));
            assert_eq!(written(&Fields::from(&right(&name))), Ok(name));
        }
        let mut fields = first();
        fields.closing.sign = 2;
        assert_eq!(written(&fields), Err(20));
    }

    #[test]
    fn a_node_has_1_to_20_letters_and_digits() {
        let expected = |length: usize| match length {
            1..=20 => 0,
            _ => 20,
        };
        for length in [0, 1, 2, 19, 20, 21, 22, 300] {
            let node = "zA9".repeat(length)[..length].to_owned();
            let name = FIRST.replace("CGFNodeId", &node);
            assert_eq!(refusal(&name), expected(length), "{length}");
            let node = node.as_bytes();
            let answer = written(&Fields { node, ..first() });
            assert_eq!(answer.err().unwrap_or(0), expected(length), "{length}");
        }
        for node in [
            "A_B", "A-B", "A.B", "A B", "A_-_B", "Ä", "ａ", "٣", "A\0", "\r",
        ] {
            assert_eq!(refusal(&FIRST.replace("CGFNodeId", node)), 20, "{node}");
            let node = node.as_bytes();
            assert_eq!(written(&Fields { node, ..first() }), Err(20));
        }
    }

    #[test]
    fn a_private_part_has_1_to_32_letters_and_digits() {
        let expected = |length: usize| match length {
            1..=32 => 0,
            _ => 20,
        };
        for length in [0, 1, 2, 31, 32, 33, 34, 300] {
            let private = "zA9".repeat(length)[..length].to_owned();
            let name = format!("{FIRST}.{private}");
            assert_eq!(refusal(&name), expected(length), "{length}");
            let private = private.as_bytes();
            let fields = Fields {
                has: 1,
                private,
                ..first()
            };
            let answer = written(&fields);
            assert_eq!(answer.err().unwrap_or(0), expected(length), "{length}");
        }
        for private in ["A_B", "A.B", ".A", "A.", "A B", "ß", "A\0", "\r"] {
            assert_eq!(refusal(&format!("{FIRST}.{private}")), 20, "{private}");
        }
        assert_eq!(refusal(&format!("{FIRST}x")), 20);
    }

    #[test]
    fn the_private_part_is_there_or_not() {
        let with = |has, private| {
            written(&Fields {
                has,
                private,
                ..first()
            })
        };
        assert_eq!(with(0, b""), Ok(FIRST.to_owned()));
        assert_eq!(with(1, b"x"), Ok(format!("{FIRST}.x")));
        for (has, private) in [
            (0, &b"x"[..]),
            (1, b""),
            (2, b""),
            (2, b"x"),
            (u32::MAX, b"x"),
        ] {
            assert_eq!(with(has, private), Err(20), "{has}");
        }
    }

    #[test]
    fn counts_begin_at_1_and_have_no_leading_zeros() {
        for count in [1, 9, 10, 1234, u32::MAX] {
            let name = FIRST.replace("1234", &count.to_string());
            assert_eq!(right(&name).count, count);
            assert_eq!(written(&Fields { count, ..first() }), Ok(name));
        }
        assert_eq!(
            written(&Fields {
                count: 0,
                ..first()
            }),
            Err(20)
        );
        for count in [
            "0",
            "00",
            "01",
            "04294967295",
            "4294967296",
            "4294967297",
            "18446744073709551617",
            "",
            "+1",
            "-1",
            " 1",
            "1 ",
            "1a",
            "a",
            "0x1",
            "1_-_1",
            "١",
        ] {
            assert_eq!(refusal(&FIRST.replace("1234", count)), 20, "{count}");
        }
    }

    #[test]
    fn fields_have_ranges() {
        let date = |text: &str| refusal(&FIRST.replace("20050401", text));
        let time = |text: &str| refusal(&FIRST.replace("2315+0200", text));
        for right in ["19990101", "21001231", "20050230", "20050431", "20050909"] {
            assert_eq!(date(right), 0, "{right}");
        }
        for right in ["0000+0000", "2359-2359", "0909+0909", "2000-0059"] {
            assert_eq!(time(right), 0, "{right}");
        }
        for wrong in [
            "19981231",
            "21010101",
            "00000101",
            "99991231",
            "20050001",
            "20051301",
            "20050400",
            "20050432",
            "20050499",
            "2005041",
            "200504010",
            "0020050401",
            "2005 401",
            "+2005041",
            "2005-4-1",
            "",
        ] {
            assert_eq!(date(wrong), 20, "{wrong}");
        }
        for wrong in [
            "2400+0000",
            "2360+0000",
            "9900+0000",
            "0000+2400",
            "0000+0060",
            "0000-9900",
            "0000 0000",
            "00000000",
            "0000++0000",
            "0000+-000",
            "000+00000",
            "00000+000",
            "0000+000",
            "0000",
            "0000+",
            "+0000",
            "",
        ] {
            assert_eq!(time(wrong), 20, "{wrong}");
        }
    }

    #[test]
    fn the_writer_has_the_same_ranges() {
        let with = |set: fn(&mut Closing, u32), value: u32| {
            let mut fields = first();
            set(&mut fields.closing, value);
            written(&fields).err().unwrap_or(0)
        };
        type Set = fn(&mut Closing, u32);
        let ranges: [(Set, RangeInclusive<u32>); 8] = [
            (|of, value| of.year = value, 1999..=2100),
            (|of, value| of.month = value, 1..=12),
            (|of, value| of.day = value, 1..=31),
            (|of, value| of.hour = value, 0..=23),
            (|of, value| of.minute = value, 0..=59),
            (|of, value| of.sign = value, 0..=1),
            (|of, value| of.dev_hour = value, 0..=23),
            (|of, value| of.dev_minute = value, 0..=59),
        ];
        for (set, range) in ranges {
            for value in (0..=10_001).chain([1 << 16, 1 << 31, u32::MAX]) {
                let expected = if range.contains(&value) { 0 } else { 20 };
                assert_eq!(with(set, value), expected, "{value}");
            }
        }
    }

    #[test]
    fn an_output_too_short_is_left_alone() {
        let fields = Fields::from(&right(SECOND_ALONE));
        let octets = SECOND_ALONE.len();
        for room in [0, 1, octets - 1] {
            let mut out = vec![0xEE; room];
            assert_eq!(write(&fields, &mut out), Err(21));
            assert_eq!(out, vec![0xEE; room]);
            let wrong = Fields { count: 0, ..fields };
            assert_eq!(write(&wrong, &mut out), Err(20), "20 comes before 21");
        }
        for behind in [0, 1, 40] {
            let mut out = vec![0xEE; octets + behind];
            assert_eq!(write(&fields, &mut out), Ok(octets));
            assert_eq!(&out[..octets], SECOND_ALONE.as_bytes());
            assert_eq!(out[octets..], vec![0xEE; behind], "octets behind stay");
        }
        let mut out = vec![0xEE; 99];
        let wrong = Fields { has: 0, ..fields };
        assert_eq!(write(&wrong, &mut out), Err(20));
        assert_eq!(out, vec![0xEE; 99]);
    }

    #[test]
    fn the_longest_name() {
        let name = format!(
            "{}_-_4294967295.21001231_-_2359-2359.{}",
            "Z".repeat(20),
            "z".repeat(32)
        );
        assert_eq!(name.len(), LONGEST_NAME);
        assert_eq!(written(&Fields::from(&right(&name))), Ok(name));
    }

    #[test]
    fn how_many_octets_fit_each_place() {
        // A letter or digit, delimiters, count, point, year to minute, sign, offset, private part.
        let name = b"A_-_7.20050401_-_2315+0200.b";
        let expected = [
            62, 1, 1, 1, 9, 1, 1, 1, 10, 10, 1, 9, 4, 9, 1, 1, 1, 3, 4, 6, 10, 2, 3, 10, 6, 10, 1,
            62,
        ];
        for (at, expected) in expected.into_iter().enumerate() {
            let fits = (0..=255).filter(|&octet| {
                let mut other = *name;
                other[at] = octet;
                read(&other).is_ok()
            });
            assert_eq!(fits.count(), expected, "place {at}");
        }
    }

    #[test]
    fn what_is_read_is_written_again() {
        let mut random = Random::new(7);
        let alphabet = b"019AZaz_-.+-_-_20050401";
        let mut count = 0;
        for _ in 0..200_000 {
            let mut name = SECOND_ALONE.as_bytes().to_vec();
            for _ in 0..random.between(1, 3) {
                let at = random.below(name.len());
                match random.below(3) {
                    0 => name[at] = random.pick(alphabet),
                    1 => drop(name.remove(at)),
                    _ => name.insert(at, random.pick(alphabet)),
                }
            }
            if let Ok(read) = read(&name) {
                let again = written(&Fields::from(&read)).map(String::into_bytes);
                assert_eq!(again, Ok(name));
                count += 1;
            }
        }
        assert!(count > 10_000, "{count}");
    }
}
