//! What the program `cdrdiff` prints for two files, from its page and by the second reader.

#![forbid(unsafe_code)]

use crate::cdrshow::refusal_words;
use crate::reconcile::reconcile;

/// What it says of anything but two arguments, on standard error.
pub const USAGE: &str = "usage: cdrdiff FIRST SECOND\n";

/// All that the program prints for two files. A longer file than may be needs no word of its own: the
/// reader refuses it with 8.
pub fn diff(first: &[u8], second: &[u8]) -> String {
    let answer = reconcile(first, second);
    if answer.refusal == 0 {
        return format!(
            "in both: {}\nonly in the first: {}\nonly in the second: {}\n",
            answer.both, answer.first, answer.second
        );
    }
    let side = match answer.side {
        1 => "first",
        _ => "second",
    };
    let words = refusal_words(answer.number);
    format!("refused: {}, the {side} file: {words}\n", answer.refusal)
}

/// What it says of a path that cannot be read, on standard error.
pub fn cannot_read(path: &[u8]) -> Vec<u8> {
    [b"cdrdiff: cannot read ", path, b"\n"].concat()
}

#[cfg(test)]
mod tests {
    use super::*;
    use crate::gate;

    /// Document 01's file.
    fn file() -> Vec<u8> {
        let digits = b"000000380000003283831080080010800800000000010000000704FFFFFFFF\
            00000000000000000000FFFFC00002010000000002832FA1B2";
        gate::octets(digits).unwrap()
    }

    #[test]
    fn two_files_are_said_as_the_page_says() {
        let file = file();
        let mut other = file.clone();
        other[55] = 0xB3;
        let numbers = |both, first, second| {
            format!("in both: {both}\nonly in the first: {first}\nonly in the second: {second}\n")
        };
        assert_eq!(diff(&file, &file), numbers(1, 0, 0));
        assert_eq!(diff(&file, &other), numbers(0, 1, 1));
    }

    #[test]
    fn each_refusal_has_its_words() {
        let file = file();
        let refused = [
            (3, 0, "8, its length"),
            (7, 0, "9, its header length"),
            (10, 0, "10, a timestamp or a reserved length"),
            (51, 3, "11, a record"),
            (21, 0, "12, its count"),
            (8, 0, "13, its high or low release"),
        ];
        for (at, octet, words) in refused {
            let mut wrong = file.clone();
            wrong[at] = octet;
            let first = format!("refused: 23, the first file: {words}\n");
            let second = format!("refused: 23, the second file: {words}\n");
            assert_eq!(diff(&wrong, &file), first);
            assert_eq!(diff(&file, &wrong), second);
            assert_eq!(diff(&wrong, &[]), first);
        }
        let longer = vec![0; 1_048_577];
        assert_eq!(
            diff(&longer, &file),
            "refused: 23, the first file: 8, its length\n"
        );
    }
}
