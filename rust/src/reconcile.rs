//! What two files have in common, by counting each distinct record: ask 9 of document 02.

#![forbid(unsafe_code)]

use crate::second;
use std::collections::HashMap;

/// The refusal of a pair of which the reader refuses a file.
pub const REFUSED: u8 = 23;

/// The answer to two files: refused, it has the side and the reader's number, and zeros elsewhere.
#[repr(C)]
#[derive(Clone, Copy, Debug, Default, PartialEq, Eq)]
pub struct Reconciled {
    pub refusal: u8,
    /// 1 or 2.
    pub side: u8,
    /// The reader's number.
    pub number: u8,
    /// Records in both files, in the first alone and in the second alone.
    pub both: usize,
    pub first: usize,
    pub second: usize,
}

impl Reconciled {
    pub fn refused(side: u8, number: u8) -> Self {
        Self {
            refusal: REFUSED,
            side,
            number,
            ..Self::default()
        }
    }
}

/// The numbers of records in both files, in the first alone and in the second alone.
pub fn reconcile(first: &[u8], second: &[u8]) -> Reconciled {
    match [records(first), records(second)] {
        [Err(number), _] => Reconciled::refused(1, number),
        [_, Err(number)] => Reconciled::refused(2, number),
        [Ok(first), Ok(second)] => count([&first, &second]),
    }
}

/// The records of a file, each its header and body, or the reader's refusal.
pub fn records(file: &[u8]) -> Result<Vec<&[u8]>, u8> {
    let contents = second::read(file)?;
    let mut records = Vec::with_capacity(contents.count);
    let mut rest = &file[contents.records];
    while !rest.is_empty() {
        let (record, behind) = rest.split_at(second::step(rest, 0)?.octets());
        records.push(record);
        rest = behind;
    }
    Ok(records)
}

/// The answer for the records of both sides.
pub(crate) fn count(sides: [&[&[u8]]; 2]) -> Reconciled {
    let mut numbers: HashMap<&[u8], [usize; 2]> = HashMap::new();
    for (side, records) in sides.into_iter().enumerate() {
        for record in records {
            numbers.entry(record).or_default()[side] += 1;
        }
    }
    let mut answer = Reconciled::default();
    for [first, second] in numbers.into_values() {
        let both = first.min(second);
        answer.both += both;
        answer.first += first - both;
        answer.second += second - both;
    }
    answer
}

#[cfg(test)]
mod tests {
    use super::*;
    use crate::draft::Draft;
    use crate::gate;
    use crate::random::Random;

    /// A file of these records in hexadecimal, with a header of its own.
    fn file(seed: u64, records: &[&str]) -> Vec<u8> {
        let mut draft = Draft::with_records(&mut Random::new(seed), 0);
        for record in records {
            draft.push(&gate::octets(record.as_bytes()).unwrap());
        }
        draft.settle();
        draft.lay().octets
    }

    fn numbers(first: &[&str], second: &[&str]) -> [usize; 3] {
        let answer = reconcile(&file(1, first), &file(2, second));
        assert_eq!([answer.refusal, answer.side, answer.number], [0; 3]);
        [answer.both, answer.first, answer.second]
    }

    /// Release 4, version 3, format 1, TS number 15, body A1 B2.
    const RECORD: &str = "0002832FA1B2";
    const OTHER: &str = "0002832FA1B3";

    #[test]
    fn the_number_in_both_is_the_smaller_multiplicity() {
        assert_eq!(numbers(&[RECORD], &[RECORD]), [1, 0, 0]);
        assert_eq!(numbers(&[RECORD; 3], &[RECORD]), [1, 2, 0]);
        assert_eq!(numbers(&[RECORD, OTHER], &[OTHER, RECORD]), [2, 0, 0]);
        // Not the smaller of the counts, which is 3, nor the number of distinct records.
        let first = [RECORD, RECORD, OTHER];
        let second = [OTHER, RECORD, OTHER, OTHER];
        assert_eq!(numbers(&first, &second), [2, 1, 2]);
        assert_eq!(numbers(&second, &first), [2, 2, 1]);
        assert_eq!(numbers(&[RECORD; 2], &[OTHER; 3]), [0, 2, 3]);
    }

    #[test]
    fn empty_files_have_nothing_in_common() {
        assert_eq!(numbers(&[], &[]), [0, 0, 0]);
        assert_eq!(numbers(&[RECORD; 2], &[]), [0, 2, 0]);
        assert_eq!(numbers(&[], &[RECORD; 2]), [0, 0, 2]);
    }

    #[test]
    fn a_record_is_its_header_and_its_body() {
        let others = [
            "0002A32FA1B2",   // release 5
            "0002E32F00A1B2", // release 7, extension 0
            "0002822FA1B2",   // version 2
            "0002834FA1B2",   // format 2
            "0002832EA1B2",   // TS number 14
            "0002832FA1B3",
            "0003832FA1B200",
            "0000832F",
        ];
        for other in others {
            assert_eq!(numbers(&[RECORD], &[other]), [0, 1, 1], "{other}");
        }
        let extensions = ["0002E32F00A1B2", "0002E32F01A1B2"];
        assert_eq!(numbers(&extensions[..1], &extensions[1..]), [0, 1, 1]);
    }

    #[test]
    fn file_headers_do_not_count() {
        let [first, second] = [1, 2].map(|seed| file(seed, &[RECORD, OTHER]));
        let headers = [&first, &second].map(|file| second::read(file).unwrap().header);
        assert_ne!(headers[0], headers[1]);
        let all = Reconciled {
            both: 2,
            ..Reconciled::default()
        };
        assert_eq!(reconcile(&first, &second), all);
    }

    #[test]
    fn the_first_file_is_judged_before_the_second() {
        let right = file(1, &[RECORD]);
        let mut reserved = right.clone();
        reserved[10] = 0;
        let mut miscounted = right.clone();
        miscounted[21] = 2;
        let side = |first: &[u8], second: &[u8]| {
            let answer = reconcile(first, second);
            assert_eq!([answer.both, answer.first, answer.second], [0; 3]);
            [answer.refusal, answer.side, answer.number]
        };
        assert_eq!(side(&reserved, &right), [23, 1, 10]);
        assert_eq!(side(&right, &reserved), [23, 2, 10]);
        assert_eq!(side(&miscounted, &reserved), [23, 1, 12]);
        assert_eq!(side(&reserved, &miscounted), [23, 1, 10]);
        assert_eq!(side(&right, &[]), [23, 2, 8]);
    }
}
