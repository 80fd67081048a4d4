//! Compares the proved `cdrname` with the second reader and writer of names: on names and fields
//! from a fixed seed and scripts with a wrong line, or on the lessons of a folder. Prints one line
//! of counts, or the first difference and the line on which it came.
//!
//!     compare_names                   names, fields and wrong scripts
//!     compare_names --lessons FOLDER  holds both programs against each *.out beside a *.names
//!
//! The proved program is `../target/bin/cdrname`, or what CDRNAME_BIN names.

use leveehum::cdrname;
use leveehum::names;
use leveehum::program::{contents, ended_lines, lessons, proved_program, run_proved, tell};
use leveehum::random::Random;
use std::env;
use std::path::Path;
use std::process::ExitCode;

const SEED: u64 = 0x3229_7000_2026_0003;
/// Lines that one process of the proved program is given.
const BATCH: usize = 5_000;
/// The fewest that a run must have compared of each.
const LEAST_NAMES: usize = 20_000;
const LEAST_WRITINGS: usize = 10_000;
const LEAST_ANSWERS: usize = 1_000;
const LEAST_ENDS: usize = 200;

fn main() -> ExitCode {
    let arguments: Vec<String> = env::args().skip(1).collect();
    let arguments: Vec<&str> = arguments.iter().map(String::as_str).collect();
    let program = proved_program("cdrname", "CDRNAME_BIN");
    let proved = |input: &[u8]| run_proved(&program, input);
    let result = match arguments[..] {
        [] => compare_random(proved),
        ["--lessons", folder] => compare_lessons(Path::new(folder), proved),
        _ => Err("usage: compare_names [--lessons FOLDER]".to_owned()),
    };
    tell(result)
}

/// The first answer in which two outputs differ, and the line that it answers.
fn difference(input: &[u8], expected: &[u8], printed: &[u8]) -> Option<String> {
    if expected == printed {
        return None;
    }
    let answers = ended_lines(expected).zip(ended_lines(printed));
    let mut all = (1..).zip(ended_lines(input).zip(answers));
    let (number, (line, (expected, printed))) = all.find(|(_, (_, (one, other)))| one != other)?;
    let [line, expected, printed] = [line, expected, printed].map(|line| match line {
        None => "nothing".to_owned(),
        Some(line) => line.escape_ascii().to_string(),
    });
    Some(format!(
        "line {number}: {line}\n  expected    {expected}\n  but printed {printed}"
    ))
}

/// Holds both programs against what stands beside each lesson.
fn compare_lessons(
    folder: &Path,
    proved: impl Fn(&[u8]) -> Result<Vec<u8>, String>,
) -> Result<String, String> {
    let lessons = lessons(folder, "names")?;
    let mut lines = 0;
    for lesson in &lessons {
        let input = contents(lesson)?;
        let expected = contents(&lesson.with_extension("out"))?;
        let programs = [
            ("second", cdrname::run(&input)),
            ("proved", proved(&input)?),
        ];
        for (name, printed) in programs {
            if let Some(what) = difference(&input, &expected, &printed) {
                return Err(format!("{} ({name}): {what}", lesson.display()));
            }
        }
        lines += cdrname::lines(&input).count();
    }
    match lessons.len() {
        0 => Err(format!("{}: no lessons of names", folder.display())),
        count => Ok(format!("{count} lessons of names, {lines} lines")),
    }
}

/// How often each answer came.
#[derive(Default)]
struct Counts {
    right: usize,
    wrong: usize,
    written: usize,
    refused_20: usize,
    refused_21: usize,
    /// Runs that a wrong line ended.
    ends: usize,
}

impl Counts {
    fn add(&mut self, answer: &[u8]) -> Result<(), String> {
        let count = match answer {
            [b'N', b' ', b'0', b' ', ..] => &mut self.right,
            b"N 20" => &mut self.wrong,
            [b'W', b' ', b'0', b' ', ..] => &mut self.written,
            b"W 20" => &mut self.refused_20,
            b"W 21" => &mut self.refused_21,
            [b'E', b' ', ..] => &mut self.ends,
            _ => return Err(format!("no answer: {}", answer.escape_ascii())),
        };
        *count += 1;
        Ok(())
    }

    /// The counts in words, if enough came of each.
    fn told(&self) -> Result<String, String> {
        let names = self.right + self.wrong;
        let writings = [self.written, self.refused_20, self.refused_21];
        let sets: usize = writings.iter().sum();
        let told = format!(
            "{names} names: {} right, {} refused 20; {sets} sets of fields: {} written, \
            {} refused 20, {} refused 21; {} malformed runs",
            self.right, self.wrong, self.written, self.refused_20, self.refused_21, self.ends
        );
        let enough = [
            names >= LEAST_NAMES,
            2 * self.right >= names,
            self.wrong >= LEAST_ANSWERS,
            sets >= LEAST_WRITINGS,
            writings.iter().all(|&count| count >= LEAST_ANSWERS),
            self.ends >= LEAST_ENDS,
        ];
        if enough.contains(&false) {
            return Err(format!("too few of a kind: {told}"));
        }
        Ok(told)
    }
}

/// Holds both programs against each other on lines in any order, on scripts with a wrong line, and
/// on inputs at the edge of what is right.
fn compare_random(proved: impl Fn(&[u8]) -> Result<Vec<u8>, String>) -> Result<String, String> {
    let compare = |input: &[u8]| {
        let expected = cdrname::run(input);
        match difference(input, &expected, &proved(input)?) {
            None => Ok(expected),
            Some(what) => Err(what),
        }
    };
    let random = &mut Random::new(SEED);
    let mut counts = Counts::default();
    let cases = names::cases(random);
    for batch in cases.chunks(BATCH) {
        let mut lines: Vec<&[u8]> = batch.iter().map(|case| &case.line[..]).collect();
        lines.push(b"");
        let answers = compare(&lines.join(&b'\n'))?;
        for (case, answer) in batch.iter().zip(cdrname::lines(&answers)) {
            same_as_planned(&case.line, case.plan, answer)?;
            counts.add(answer)?;
        }
    }
    for line in names::wrong_lines(random) {
        let answers = compare(&names::wrong_run(random, &cases, &line))?;
        let last = cdrname::lines(&answers).last().unwrap_or_default();
        same_as_planned(&line, "E ", last)?;
        counts.add(last)?;
    }
    for (input, expected) in names::edge_runs() {
        if let Some(what) = difference(&input, &expected, &compare(&input)?) {
            return Err(format!("both not as planned: {what}"));
        }
    }
    counts.told()
}

/// Both programs may be wrong in the same way: then the answer is none that was planned.
fn same_as_planned(line: &[u8], plan: &str, answer: &[u8]) -> Result<(), String> {
    if answer.starts_with(plan.as_bytes()) {
        return Ok(());
    }
    let [line, answer] = [line, answer].map(<[u8]>::escape_ascii);
    Err(format!("planned {plan:?} but {answer} for {line}"))
}

#[cfg(test)]
mod tests {
    use super::*;

    /// A program that takes these octets for others.
    fn mistaking<'a>(from: &'a str, to: &'a str) -> impl Fn(&[u8]) -> Result<Vec<u8>, String> + 'a {
        move |input| {
            let text: String = input.iter().map(|&octet| char::from(octet)).collect();
            let taken = text.replace(from, to);
            let taken: Vec<u8> = taken.chars().map(|character| character as u8).collect();
            Ok(cdrname::run(&taken))
        }
    }

    #[test]
    fn answers_are_as_planned() {
        let told = compare_random(|input| Ok(cdrname::run(input)));
        assert!(told.is_ok(), "{told:?}");
    }

    #[test]
    fn mistakes_are_found() {
        for (from, to) in [
            ("-0000", "+0000"),
            ("_-_0", "_-_"),
            ("\r", ""),
            ("0 --", "0 -"),
            (" 4294967295\n", " 0\n"),
            ("\t", " "),
        ] {
            let told = compare_random(mistaking(from, to));
            assert!(told.is_err(), "{from:?} for {to:?}");
        }
    }

    #[test]
    fn the_first_difference_is_shown_with_its_line() {
        let shown = |expected: &[u8], printed: &[u8]| {
            difference(b"N x\nN \xFF\n", expected, printed).unwrap_or_default()
        };
        let expected = b"N 20\nN 20\n";
        assert_eq!(shown(expected, expected), "");
        let other = shown(expected, b"N 20\nN 0\n");
        assert!(other.starts_with("line 2: N \\xff\\n\n"), "{other}");
        assert!(other.ends_with("expected    N 20\\n\n  but printed N 0\\n"));
        assert!(shown(expected, b"N 20\n").ends_with("but printed nothing"));
        assert!(shown(expected, b"N 20\nN 20").ends_with("but printed N 20"));
        let more = shown(expected, b"N 20\nN 20\nE 3\n");
        assert!(more.starts_with("line 3: nothing\n  expected    nothing\n"));
    }
}
