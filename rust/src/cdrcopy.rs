//! The output of the program `cdrcopy` for a file, by the second reader and writer: what was read is
//! written again, or `E` and the refusal, as `cdrlist` prints it.

#![forbid(unsafe_code)]

use crate::cdrlist::LONGEST_INPUT;
use crate::second;

/// All that the program prints for this file.
pub fn copy(file: &[u8]) -> Vec<u8> {
    if file.len() > LONGEST_INPUT {
        return b"E 8\n".to_vec();
    }
    match written(file) {
        Err(refusal) => format!("E {refusal}\n").into_bytes(),
        Ok(output) => output,
    }
}

fn written(file: &[u8]) -> Result<Vec<u8>, u8> {
    let contents = second::read(file)?;
    let [filter, private, records] =
        [contents.filter, contents.private, contents.records].map(|part| &file[part]);
    let mut output = vec![0; file.len()];
    let length = second::write(&contents.header, filter, private, records, &mut output)
        .map_err(|(refusal, _)| refusal)?;
    output.truncate(length);
    Ok(output)
}

#[cfg(test)]
mod tests {
    use super::*;
    use crate::draft::Draft;
    use crate::random::Random;

    #[test]
    fn a_right_file_is_given_back_and_another_refused() {
        let mut random = Random::new(8);
        for _ in 0..200 {
            let file = Draft::right(&mut random).lay().octets;
            if file.len() <= LONGEST_INPUT {
                assert_eq!(copy(&file), file);
            }
        }
        assert_eq!(copy(&[0; 49]), b"E 8\n");
    }
}
