//! The output of the program `cdrname` for lines of names and fields, by the second reader and
//! writer: to the letter of ../../shared/CDRNAME.md.

#![forbid(unsafe_code)]

use crate::name::{self, Closing, Fields, Name, LONGEST_NAME};

/// The most octets of a line, its LF not among them.
pub const LONGEST_LINE: usize = 4_096;

/// What a line of W asks for.
#[derive(Clone, Copy, Debug, PartialEq, Eq)]
pub struct Writing<'a> {
    pub fields: Fields<'a>,
    /// The octets of the output.
    pub room: usize,
}

/// All that the program prints for this input.
pub fn run(input: &[u8]) -> Vec<u8> {
    let mut printed = Vec::new();
    for (number, line) in (1..).zip(lines(input)) {
        let Some(answer) = answer(line) else {
            printed.extend(format!("E {number}\n").into_bytes());
            break;
        };
        printed.extend(answer.into_bytes());
    }
    printed
}

/// The lines without their ends; the last may lack its LF.
pub fn lines(input: &[u8]) -> impl Iterator<Item = &[u8]> {
    let ended = input.split_inclusive(|&octet| octet == b'\n');
    ended.map(|line| line.strip_suffix(b"\n").unwrap_or(line))
}

/// The line that answers a line; none if the run ends here.
fn answer(line: &[u8]) -> Option<String> {
    if line.len() > LONGEST_LINE {
        return None;
    }
    match line {
        [b'N', b' ', name @ ..] => Some(answer_name(name)),
        [b'W', b' ', words @ ..] => Some(answer_writing(writing(words)?)),
        _ => None,
    }
}

fn answer_name(name: &[u8]) -> String {
    let Name {
        node,
        count,
        closing,
        private,
    } = match name::read(name) {
        Ok(name) => name,
        Err(refusal) => return format!("N {refusal}\n"),
    };
    let private = private.unwrap_or("-");
    format!("N 0 {node} {count} {} {private}\n", words_of(&closing))
}

fn words_of(closing: &Closing) -> String {
    let numbers = [
        closing.year,
        closing.month,
        closing.day,
        closing.hour,
        closing.minute,
        closing.sign,
        closing.dev_hour,
        closing.dev_minute,
    ];
    numbers.map(|number| number.to_string()).join(" ")
}

fn answer_writing(Writing { fields, room }: Writing) -> String {
    // No name reaches beyond this, so a longer output makes no difference.
    let mut output = [0; LONGEST_NAME];
    let output = &mut output[..room.min(LONGEST_NAME)];
    match name::write(&fields, output) {
        Err(refusal) => format!("W {refusal}\n"),
        Ok(octets) => format!("W 0 {}\n", String::from_utf8_lossy(&output[..octets])),
    }
}

/// The thirteen words of a line of W, if they have their forms.
pub fn writing(words: &[u8]) -> Option<Writing<'_>> {
    let words: Vec<&[u8]> = words.split(|&octet| octet == b' ').collect();
    let [node, count, year, month, day, hour, minute, sign, dev_hour, dev_minute, has, private, room] =
        words[..]
    else {
        return None;
    };
    let closing = Closing {
        year: number(year)?,
        month: number(month)?,
        day: number(day)?,
        hour: number(hour)?,
        minute: number(minute)?,
        sign: number(sign)?,
        dev_hour: number(dev_hour)?,
        dev_minute: number(dev_minute)?,
    };
    Some(Writing {
        fields: Fields {
            node: octets(node)?,
            count: number(count)?,
            closing,
            has: number(has)?,
            private: octets(private)?,
        },
        room: number(room)? as usize,
    })
}

/// A decimal number of 32 bits; zeros before it do not change it.
fn number(word: &[u8]) -> Option<u32> {
    let is_number = word.iter().all(u8::is_ascii_digit);
    let text = std::str::from_utf8(word).ok().filter(|_| is_number)?;
    text.parse().ok()
}

/// Octets as they are, or `-` for none.
fn octets(word: &[u8]) -> Option<&[u8]> {
    match word {
        [] => None,
        b"-" => Some(&[]),
        octets => Some(octets),
    }
}

#[cfg(test)]
mod tests {
    use super::*;

    const NAME: &str = "CGFNodeId_-_1234.20050401_-_2315+0200";
    const READ: &str = "N 0 CGFNodeId 1234 2005 4 1 23 15 1 2 0 -\n";
    /// Its fields, without `private` and `room`.
    const FIELDS: &str = "W CGFNodeId 1234 2005 4 1 23 15 1 2 0";

    fn printed(input: &str) -> String {
        String::from_utf8(run(input.as_bytes())).unwrap()
    }

    #[test]
    fn the_example() {
        let input = "N CGFNodeId_-_1234.20050401_-_2315+0200\n\
            W CGFNodeId 44 2005 12 24 17 0 0 11 30 1 thankgoditschristmas 99\n";
        let expected = "N 0 CGFNodeId 1234 2005 4 1 23 15 1 2 0 -\n\
            W 0 CGFNodeId_-_44.20051224_-_1700-1130.thankgoditschristmas\n";
        assert_eq!(printed(input), expected);
    }

    #[test]
    fn a_name_is_all_behind_its_letter() {
        assert_eq!(printed(&format!("N {NAME}\n")), READ);
        for wrong in [
            "",
            " ",
            "-",
            &format!(" {NAME}"),
            &format!("{NAME} "),
            &format!("{NAME}\r"),
            &format!("{NAME}."),
            &format!("{NAME}\0"),
        ] {
            assert_eq!(printed(&format!("N {wrong}\n")), "N 20\n", "{wrong}");
        }
        assert_eq!(run(b"N \xFF\xFE\nN \x80\n"), b"N 20\nN 20\n");
        assert_eq!(printed(&format!("N {NAME}.x\n")), READ.replace(" -", " x"));
    }

    #[test]
    fn a_private_part_and_whether_it_is_there() {
        let with = |behind: &str| printed(&format!("{FIELDS} {behind}\n"));
        assert_eq!(with("0 - 99"), format!("W 0 {NAME}\n"));
        assert_eq!(with("1 x 99"), format!("W 0 {NAME}.x\n"));
        for wrong in ["1 - 99", "0 x 99", "2 x 99", "2 - 99", "0 -- 99", "1 . 0"] {
            assert_eq!(with(wrong), "W 20\n", "{wrong}");
        }
    }

    #[test]
    fn fields_beyond_their_ranges_are_refused_and_no_errors() {
        let right = format!("{FIELDS} 0 - 99\n");
        for (from, to) in [
            ("CGFNodeId", "-"),
            ("CGFNodeId", "CGF_Node"),
            ("CGFNodeId", "\u{e4}"),
            ("CGFNodeId", "CGFNodeIdCGFNodeId123"),
            ("1234", "0"),
            ("2005", "1998"),
            ("2005", "4294967295"),
            (" 4 1 ", " 13 1 "),
            (" 4 1 ", " 4 32 "),
            (" 23 ", " 24 "),
            (" 15 ", " 60 "),
            (" 1 2 0 ", " 2 2 0 "),
            (" 1 2 0 ", " 1 24 0 "),
            (" 1 2 0 ", " 1 2 60 "),
        ] {
            assert_eq!(printed(&right.replacen(from, to, 1)), "W 20\n", "{to}");
        }
    }

    #[test]
    fn rooms() {
        let octets = NAME.len() as u32;
        for (room, expected) in [
            (0, "21".to_owned()),
            (octets - 1, "21".to_owned()),
            (octets, format!("0 {NAME}")),
            (octets + 1, format!("0 {NAME}")),
            (u32::MAX, format!("0 {NAME}")),
        ] {
            let answer = printed(&format!("{FIELDS} 0 - {room}\n"));
            assert_eq!(answer, format!("W {expected}\n"), "{room}");
            assert_eq!(printed(&format!("{FIELDS} 1 - {room}\n")), "W 20\n");
        }
    }

    #[test]
    fn any_other_line_ends_the_run() {
        let [double, tab, many, few, none] = [
            format!("{FIELDS}  0 - 99"),
            format!("{FIELDS}\t0 - 99"),
            format!("{FIELDS} 0 - 99 "),
            format!("{FIELDS} 0 -"),
            format!("{FIELDS} 0  99"),
        ];
        for line in [
            "", " ", "N", "W", "n x", "X", "#", "E 1", "NN x", " N x", "N\tx", "W ", "W 1",
            &double, &tab, &many, &few, &none,
        ] {
            let input = format!("N {NAME}\n{line}\nN {NAME}\n");
            assert_eq!(printed(&input), format!("{READ}E 2\n"), "{line}");
        }
        for number in ["", "-", "+5", "-5", "0x5", "5a", "4294967296", "5\r"] {
            let line = format!("{FIELDS} 0 - {number}\n");
            assert_eq!(printed(&line), "E 1\n", "{number}");
        }
        let zeros = format!("{FIELDS} 00 - 000000000000000099\n");
        assert_eq!(printed(&zeros), format!("W 0 {NAME}\n"));
    }

    #[test]
    fn the_last_line_may_lack_its_end() {
        assert_eq!(printed(""), "");
        assert_eq!(printed("\n"), "E 1\n");
        assert_eq!(printed(&format!("N {NAME}")), READ);
        assert_eq!(printed(&format!("N {NAME}\nN")), format!("{READ}E 2\n"));
        assert_eq!(printed(&format!("N {NAME}\n\n")), format!("{READ}E 2\n"));
    }

    #[test]
    fn lines_have_up_to_4096_octets() {
        let name = |octets: usize| format!("N {}", "x".repeat(octets - 2));
        let longest = name(LONGEST_LINE);
        assert_eq!(printed(&longest), "N 20\n");
        assert_eq!(printed(&format!("{longest}\nN \n")), "N 20\nN 20\n");
        let longer = name(LONGEST_LINE + 1);
        assert_eq!(printed(&longer), "E 1\n");
        assert_eq!(printed(&format!("{longer}\nN \n")), "E 1\n");
        let fields = format!("{FIELDS} 0 - ");
        let zeros = "0".repeat(LONGEST_LINE - 2 - fields.len());
        assert_eq!(
            printed(&format!("{fields}{zeros}99")),
            format!("W 0 {NAME}\n")
        );
        assert_eq!(printed(&format!("{fields}0{zeros}99")), "E 1\n");
    }
}
