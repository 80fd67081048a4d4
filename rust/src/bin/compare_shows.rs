//! Compares the proved `cdrshow` with the second one's words on files of every kind from a fixed seed:
//! all of them as the lines of a replay, and some of each kind as a file, a process for each; and on
//! replays of random scripts, each line of which it must say. Holds it against what stands in words
//! beside the lessons, and whether a line is said when it has come.
//!
//!     compare_shows                   files of every kind, replays, wrong inputs
//!     compare_shows --lessons FOLDER  holds cdrshow against each *.words beside a *.out
//!
//! The proved program is `../target/bin/cdrshow`, or what CDRSHOW_BIN names.

use leveehum::cdrlist::LONGEST_INPUT;
use leveehum::cdrshow;
use leveehum::draft::Draft;
use leveehum::fields::Release;
use leveehum::files::FAMILIES;
use leveehum::gate;
use leveehum::program::{contents, first_printed, lessons, proved_program, run_proved, tell};
use leveehum::random::Random;
use leveehum::scripts::{self, hexadecimal};
use leveehum::second;
use std::collections::BTreeMap;
use std::env;
use std::path::Path;
use std::process::ExitCode;

const SEED: u64 = 0x3229_7000_2026_0018;
/// Files that are taken of each family, and those of them that are a process's input.
const PER_FAMILY: usize = 512;
const ALONE: usize = 10;
/// Random scripts whose replays are said.
const SCRIPTS: usize = 200;
/// Scripts for each that ends its run, and the letters with which a replay's lines begin.
const PER_WRONG: usize = 10;
const LETTERS: [char; 7] = ['S', 'A', 'B', 'F', 'Q', 'q', 'E'];
/// Lines of a lesson whose words must be there before the next line is whole.
const LINES_PIPED: usize = 6;
/// Where these stand in a file.
const REASON: usize = 26;
const LOST: usize = 47;
/// What must come of what is printed, each of them.
#[rustfmt::skip]
const WORDS: [&str; 39] = [
    "refused: 8, ", "refused: 9, ", "refused: 10, ", "refused: 11, ", "refused: 12, ", "refused: 13, ",
    "lost: 0, none", ", at least ", "lost: 128, some", ", exactly ", "lost: 255, 127 or more",
    ": 0, normal", ", size limit", ", open-time limit", ", most records", ", manual intervention",
    ", change of release", ": 128, abnormal", ", file system error", ", storage exhausted",
    ", integrity error", ", reserved, normal", ", reserved, abnormal",
    "filter: none", "extension: none", "extension: empty", "known losses ",
    " extension ", "format 0 unknown", " BER", " unaligned PER", " aligned PER", " XER",
    "TS number 8,", "TS number 31,", "TS 32.274", "TS 32.275", "body -", ", offset -",
];

/// Lines that do not have the form of one that `cdrgate` prints.
#[rustfmt::skip]
const WRONG_LINES: [&str; 49] = [
    "", " ", "X", "s 0 1", "S", "S 0", "S 0 1 ", "S  0 1", "S 0 1 1", "S 00 1", "S 0 01", "S x 1", "S 0 4294967296",
    "S 4 0", "S 0 9", "S 2 1", "A 0 1 0 0 0", "A 0 1 0 0 0 0 0", "A 0 0 0 0 0 0", "A 0 7 0 0 0 0", "A 0 6 0 0 0 0", "A 4 1 0 0 0 0", "A 8 0 0 0 0 0",
    "A 0 1 -1 0 0 0", "A 0 1 8 0 0 0", "A 0 4 0 0 0 0", "A 4 0 1 0 0 0", "a 0 1 0 0 0 0", "B", "B 0", "B 12 0", "B 11 1", "B 0 65", "B 0 0 0", "B 0 1\r",
    "F", "F ", "F 0", "F 000", "F 0G", "F 0a", "F-00", "F 00 00", "Q 0", "q 0 0 0 0 0", "q 0 2 0 0 0 0", "q 8 0 0 0 0 0", "E", "E 0",
];

fn main() -> ExitCode {
    let arguments: Vec<String> = env::args().skip(1).collect();
    let arguments: Vec<&str> = arguments.iter().map(String::as_str).collect();
    let result = match arguments[..] {
        [] => compare_all(),
        ["--lessons", folder] => compare_lessons(Path::new(folder)),
        _ => Err("usage: compare_shows [--lessons FOLDER]".to_owned()),
    };
    tell(result)
}

fn compare_all() -> Result<String, String> {
    let program = proved_program("cdrshow", "CDRSHOW_BIN");
    let wrong = compare_wrong(&program)?;
    let replays = compare_replays(&program)?;
    let files = compare_files(&program)?;
    Ok([files, replays, wrong].join(", "))
}

/// So many files of a family.
fn files_of(random: &mut Random, batch: fn(&mut Random) -> Vec<Vec<u8>>) -> Vec<Vec<u8>> {
    let mut all = batch(random);
    while all.len() < PER_FAMILY {
        all.extend(batch(random));
    }
    (0..PER_FAMILY)
        .map(|_| all.swap_remove(random.below(all.len())))
        .collect()
}

/// A right file with every closure reason and every lost octet.
fn every_octet(random: &mut Random) -> Vec<Vec<u8>> {
    let file = Draft::right(random).lay().octets;
    let with = |octet| {
        let mut file = file.clone();
        file[REASON] = octet;
        file[LOST] = octet;
        file
    };
    (0..=u8::MAX).map(with).collect()
}

/// The words for a file that stands in a replay.
fn indented(file: &[u8]) -> Vec<String> {
    let words = cdrshow::show(file);
    words.lines().map(|line| format!("  {line}")).collect()
}

/// Files as the lines of a replay, and what is printed for them.
fn replay_of(files: &[Vec<u8>]) -> (String, String) {
    let mut lines = String::new();
    let mut words = String::new();
    for file in files {
        lines += &format!("F {}\n", hexadecimal(file));
        words += &(indented(file).join("\n") + "\n");
    }
    (lines, words)
}

/// Where two texts differ first, as lines.
fn difference(expected: &[u8], printed: &[u8]) -> String {
    let lines = |text: &[u8]| -> Vec<String> {
        let lines = text.split(|&octet| octet == b'\n');
        lines.map(|line| line.escape_ascii().to_string()).collect()
    };
    let (expected, printed) = (lines(expected), lines(printed));
    let at = expected.iter().zip(&printed).take_while(|(a, b)| a == b);
    let at = at.count();
    let [expected, printed] = [&expected, &printed].map(|lines| lines.get(at));
    format!(
        "line {}: expected {expected:?}\n  but printed {printed:?}",
        at + 1
    )
}

/// Holds the program against the second one's words for a file by itself, and returns them.
fn compare_alone(program: &Path, file: &[u8]) -> Result<String, String> {
    let expected = cdrshow::show(file);
    let printed = run_proved(program, file)?;
    if printed == expected.as_bytes() {
        return Ok(expected);
    }
    let what = difference(expected.as_bytes(), &printed);
    Err(format!("{what}\n{}", hexadecimal(file)))
}

/// Right files about the limit: the longest that is shown, and one that is an octet longer.
fn compare_limit(program: &Path, random: &mut Random) -> Result<(), String> {
    let limits = [
        (LONGEST_INPUT, "file: 65536 octets, "),
        (LONGEST_INPUT + 1, "refused: 8, its length\n"),
    ];
    for (length, words) in limits {
        let draft = Draft::of_length(random, length, Release::default(), 500);
        let file = draft.lay().octets;
        let said = compare_alone(program, &file)?;
        if second::read(&file).is_err() || !said.starts_with(words) {
            return Err(format!("no right file of {length} octets: {said}"));
        }
    }
    Ok(())
}

fn compare_files(program: &Path) -> Result<String, String> {
    let mut random = Random::new(SEED);
    let mut counts: BTreeMap<&str, usize> = WORDS.into_iter().map(|words| (words, 0)).collect();
    let (mut replayed, mut alone) = (0, 0);
    compare_limit(program, &mut random)?;
    let families = FAMILIES.iter().map(|family| family.batch);
    for batch in families.chain([every_octet as fn(&mut Random) -> _]) {
        let files = files_of(&mut random, batch);
        // A file begins with an octet 0; what begins otherwise is no file.
        let by_themselves = files.iter().filter(|file| file.first() == Some(&0));
        for file in by_themselves.take(ALONE) {
            compare_alone(program, file)?;
            alone += 1;
        }
        let files: Vec<Vec<u8>> = files
            .into_iter()
            .filter(|file| (1..=LONGEST_INPUT).contains(&file.len()))
            .collect();
        if files.is_empty() {
            continue;
        }
        let (lines, words) = replay_of(&files);
        let printed = run_proved(program, lines.as_bytes())?;
        if printed != words.as_bytes() {
            return Err(difference(words.as_bytes(), &printed));
        }
        for (phrase, count) in &mut counts {
            *count += words.matches(phrase).count();
        }
        replayed += files.len();
    }
    let told: Vec<String> = counts
        .iter()
        .map(|(phrase, count)| format!("{:?}: {count}", phrase.trim()))
        .collect();
    let told = format!(
        "{replayed} files as lines and {alone} by themselves for cdrshow ({})",
        told.join(", ")
    );
    match replayed >= 5_000 && counts.values().all(|&count| count > 0) {
        true => Ok(told),
        false => Err(format!("too few, or something never came: {told}")),
    }
}

/// The words for the lines of a replay as far as the page fixes them: a file's, and `None` for a sentence.
fn words_of(replay: &str) -> Vec<Option<String>> {
    let mut words = Vec::new();
    for (number, line) in (1..).zip(replay.lines()) {
        let file = line.strip_prefix("F ");
        match file.map(|digits| gate::octets(digits.as_bytes())) {
            None => words.push(None),
            Some(Some(file)) if file.len() <= LONGEST_INPUT => {
                words.extend(indented(&file).into_iter().map(Some));
            }
            Some(_) => {
                words.push(Some(format!("E {number}")));
                break;
            }
        }
    }
    words
}

/// A sentence begins with a letter, and says more than that a line is wrong.
fn is_sentence(line: &str) -> bool {
    line.starts_with(|first: char| first.is_ascii_alphabetic()) && !line.starts_with("E ")
}

/// Whether each line of a replay is said, and each file in the second one's words.
fn compare_replay(program: &Path, replay: &str) -> Result<(), String> {
    let printed = run_proved(program, replay.as_bytes())?;
    let printed = String::from_utf8_lossy(&printed);
    let printed: Vec<&str> = printed.lines().collect();
    let words = words_of(replay);
    let said = |(words, line): (&Option<String>, &&str)| match words {
        Some(words) => words == line,
        None => is_sentence(line),
    };
    let alike = words.iter().zip(&printed).take_while(|&pair| said(pair));
    let alike = alike.count();
    if alike == words.len() && alike == printed.len() {
        return Ok(());
    }
    let expected = match words.get(alike) {
        None => "nothing",
        Some(None) => "a sentence",
        Some(Some(words)) => words,
    };
    let printed = printed.get(alike).unwrap_or(&"nothing");
    Err(format!(
        "line {} of a replay's words: expected {expected}\n  but printed {printed}",
        alike + 1
    ))
}

/// Replays of random scripts: every kind of line that `cdrgate` prints must come.
fn compare_replays(program: &Path) -> Result<String, String> {
    let mut random = Random::new(SEED);
    let mut counts: BTreeMap<char, usize> = LETTERS.into_iter().map(|letter| (letter, 0)).collect();
    for index in 0..SCRIPTS {
        let script = match index % PER_WRONG {
            0 => scripts::wrong(&mut random, index % scripts::WRONG_ENDS),
            _ => scripts::right(&mut random),
        };
        let replay = String::from_utf8(gate::replay(&script)).expect("a replay is ASCII");
        compare_replay(program, &replay)?;
        for letter in replay.lines().flat_map(|line| line.chars().next()) {
            *counts.entry(letter).or_default() += 1;
        }
    }
    let told: Vec<String> = counts
        .iter()
        .map(|(letter, count)| format!("{letter}: {count}"))
        .collect();
    let told = format!("{SCRIPTS} replays ({})", told.join(", "));
    match counts.values().all(|&count| count > 0) {
        true => Ok(told),
        false => Err(format!("a line never came: {told}")),
    }
}

/// Inputs that are wrong somewhere, with what is printed for them: nothing stands behind the `E`. That a
/// script was wrong is no wrong line.
fn wrong_inputs() -> Vec<(String, String)> {
    let digits = |octets| format!("F {}", "0".repeat(2 * octets));
    let longer = digits(LONGEST_INPUT + 1);
    let mut inputs = vec![
        (String::new(), "E 1\n".to_owned()),
        (
            "E 5\nX\n".to_owned(),
            "line 5 of the script is malformed\nE 2\n".to_owned(),
        ),
        (
            format!("{}\nX\n", digits(LONGEST_INPUT)),
            "  refused: 8, its length\nE 2\n".to_owned(),
        ),
    ];
    for line in WRONG_LINES.into_iter().chain([&*longer]) {
        let first = "settings accepted: 1 route\n";
        inputs.push((format!("{line}\nS 0 1\n"), "E 1\n".to_owned()));
        inputs.push((format!("S 0 1\n{line}\nS 0 1\n"), format!("{first}E 2\n")));
    }
    inputs
}

fn compare_wrong(program: &Path) -> Result<String, String> {
    let inputs = wrong_inputs();
    for (input, expected) in &inputs {
        let printed = run_proved(program, input.as_bytes())?;
        if printed != expected.as_bytes() {
            let what = difference(expected.as_bytes(), &printed);
            let input = input.get(..80).unwrap_or(input);
            return Err(format!("{input:?}: {what}"));
        }
    }
    Ok(format!("{} wrong inputs", inputs.len()))
}

/// The first lines of a text, so many, and behind them half of the next, which has more to come.
fn first_lines(text: &[u8], count: usize) -> (&[u8], &[u8]) {
    let lines = text.split_inclusive(|&octet| octet == b'\n');
    let whole: usize = lines.clone().take(count).map(<[u8]>::len).sum();
    let next = lines.skip(count).map(<[u8]>::len).next().unwrap_or(0);
    (&text[..whole], &text[..whole + next / 2])
}

/// A line is said as soon as it has come, wherever what has come breaks off.
fn compare_pipe(program: &Path, replay: &[u8], words: &[u8]) -> Result<(), String> {
    for count in 1..=LINES_PIPED {
        let (whole, came) = first_lines(replay, count);
        let said = run_proved(program, whole)?.len();
        if first_printed(program, came, said)? != words[..said] {
            return Err(format!("other words for the first {count} lines"));
        }
    }
    Ok(())
}

fn compare_lessons(folder: &Path) -> Result<String, String> {
    let program = proved_program("cdrshow", "CDRSHOW_BIN");
    let lessons = lessons(folder, "words")?;
    for lesson in &lessons {
        let expected = contents(lesson)?;
        let replay = contents(&lesson.with_extension("out"))?;
        let printed = run_proved(&program, &replay)?;
        if printed != expected {
            let what = difference(&expected, &printed);
            return Err(format!("{}: {what}", lesson.display()));
        }
        compare_pipe(&program, &replay, &expected)
            .map_err(|what| format!("{}: {what}", lesson.display()))?;
    }
    match lessons.len() {
        0 => Err(format!("{}: no lessons in words", folder.display())),
        count => Ok(format!("{count} lessons in words")),
    }
}
