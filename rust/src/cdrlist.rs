//! The output of the program `cdrlist` for a file, by the second reader: the last paragraph of
//! document 01.

#![forbid(unsafe_code)]

use crate::second::{self, Contents};

/// The most octets that the program takes.
pub const LONGEST_INPUT: usize = 65_536;

/// All that the program prints for this file.
pub fn list(file: &[u8]) -> String {
    if file.len() > LONGEST_INPUT {
        return "E 8\n".to_owned();
    }
    match second::read(file) {
        Err(refusal) => format!("E {refusal}\n"),
        Ok(contents) => lines(file, &contents),
    }
}

fn lines(file: &[u8], contents: &Contents) -> String {
    let Contents {
        header,
        records,
        count,
        ..
    } = contents;
    let mut printed = format!(
        "F {} {} {count} {} {} {}\n",
        file.len(),
        records.start,
        header.sequence,
        header.reason,
        header.lost
    );
    let mut at = records.start;
    for index in 0..*count {
        let record = second::step(file, at).expect("the reader walked this record");
        printed += &format!("R {index} {at} {}\n", record.body.len());
        at += record.octets();
    }
    printed
}

#[cfg(test)]
mod tests {
    use super::*;
    use crate::draft::Draft;
    use crate::gate;
    use crate::random::Random;

    #[test]
    fn the_papers_file_is_listed_as_the_paper_says() {
        let file = b"000000380000003283831080080010800800000000010000000704FFFFFFFF\
            00000000000000000000FFFFC00002010000000002832FA1B2";
        let file = gate::octets(file).unwrap();
        assert_eq!(list(&file), "F 56 50 1 7 4 0\nR 0 50 2\n");
        assert_eq!(list(&file[1..]), "E 8\n");
    }

    #[test]
    fn the_same_file_as_the_manager_closes_it() {
        let file = b"000000430000003D83831080080010800800000000010000000704FFFFFFFF\
            00000000000000000000FFFFC000020100000000090100000000000000000002832FA1B2";
        let file = gate::octets(file).unwrap();
        assert_eq!(list(&file), "F 67 61 1 7 4 0\nR 0 61 2\n");
    }

    #[test]
    fn an_input_of_65_536_octets_is_taken_and_no_longer_one() {
        let release = Default::default();
        let listed = |length| {
            let draft = Draft::of_length(&mut Random::new(7), length, release, 1_000);
            list(&draft.lay().octets)
        };
        assert!(listed(LONGEST_INPUT).starts_with("F 65536 "));
        assert_eq!(listed(LONGEST_INPUT + 1), "E 8\n");
    }
}
