//! Compares the proved `cdrlist` and `cdrcopy` with second ones, a process for each file: on files of
//! every kind from a fixed seed, or on the lessons of a folder.
//!
//!     compare_lists                   both programs on files of every kind
//!     compare_lists --lessons FOLDER  holds cdrlist against each *.out beside a *.files
//!
//! A lesson `*.files` has a file in hexadecimal on each line, and comments, which begin with #; the
//! `*.out` beside it has what is printed for them, one behind another. The proved programs are
//! `../target/bin/cdrlist` and `cdrcopy`, or what CDRLIST_BIN and CDRCOPY_BIN name.

use leveehum::cdrcopy;
use leveehum::cdrlist::{self, LONGEST_INPUT};
use leveehum::draft::Draft;
use leveehum::fields::Release;
use leveehum::files::FAMILIES;
use leveehum::gate;
use leveehum::program::{contents, lessons, proved_program, run_proved, tell};
use leveehum::random::Random;
use leveehum::scripts::hexadecimal;
use leveehum::second;
use std::collections::BTreeMap;
use std::env;
use std::path::Path;
use std::process::ExitCode;

const SEED: u64 = 0x3229_7000_2026_0004;
/// Files that are taken of each family.
const PER_FAMILY: usize = 20;
/// The refusals of the reader as the programs print them, each of which must come.
const REFUSED: [&str; 6] = ["E 8", "E 9", "E 10", "E 11", "E 12", "E 13"];
/// Right files that must come, by what their headers state of a private extension.
const EXTENDED: [&str; 3] = ["no extension", "empty extension", "extension with octets"];
/// Right files that must come, by their records, and files about the programs' limit.
const RIGHT: [&str; 3] = ["no record", "one record", "several records"];
const LONGEST: &str = "taken with 65,536 octets";
const LONGER: &str = "refused with 65,537 octets";

fn main() -> ExitCode {
    let arguments: Vec<String> = env::args().skip(1).collect();
    let arguments: Vec<&str> = arguments.iter().map(String::as_str).collect();
    let result = match arguments[..] {
        [] => compare_files(),
        ["--lessons", folder] => compare_lessons(Path::new(folder)),
        _ => Err("usage: compare_lists [--lessons FOLDER]".to_owned()),
    };
    tell(result)
}

/// Files of every family, and right ones at the programs' limit.
fn some_files(random: &mut Random) -> Vec<Vec<u8>> {
    let mut files = Vec::new();
    for family in &FAMILIES {
        let mut all = (family.batch)(random);
        while all.len() < PER_FAMILY {
            all.extend((family.batch)(random));
        }
        files.extend((0..PER_FAMILY).map(|_| all.swap_remove(random.below(all.len()))));
    }
    for length in [LONGEST_INPUT - 1, LONGEST_INPUT, LONGEST_INPUT + 1] {
        let draft = Draft::of_length(random, length, Release::default(), 500);
        files.push(draft.lay().octets);
    }
    files
}

/// Holds both programs against the second ones, file by file.
fn compare_files() -> Result<String, String> {
    let list = proved_program("cdrlist", "CDRLIST_BIN");
    let copy = proved_program("cdrcopy", "CDRCOPY_BIN");
    let files = some_files(&mut Random::new(SEED));
    let kinds = [&RIGHT[..], &EXTENDED, &REFUSED, &[LONGEST, LONGER]].concat();
    let mut counts: BTreeMap<&str, usize> = kinds.into_iter().map(|kind| (kind, 0)).collect();
    for file in &files {
        let listed = cdrlist::list(file).into_bytes();
        let runs = [
            ("cdrlist", run_proved(&list, file)?, &listed),
            ("cdrcopy", run_proved(&copy, file)?, &cdrcopy::copy(file)),
        ];
        for (name, printed, expected) in runs {
            if printed != *expected {
                let expected = expected.escape_ascii();
                let printed = printed.escape_ascii();
                let file = hexadecimal(file);
                return Err(format!(
                    "{name}: expected {expected}\n  but printed {printed}\n{file}"
                ));
            }
        }
        for kind in kinds_of(file, &listed) {
            *counts.entry(kind).or_default() += 1;
        }
    }
    let told: Vec<String> = counts
        .iter()
        .map(|(kind, count)| format!("{kind}: {count}"))
        .collect();
    let told = format!(
        "{} files for cdrlist and cdrcopy ({})",
        files.len(),
        told.join(", ")
    );
    match counts.values().all(|&count| count > 0) {
        true => Ok(told),
        false => Err(format!("something never came: {told}")),
    }
}

/// What a file counts as, by what is printed for it: its refusal or its records and its private
/// extension, and its length where that is about the limit.
fn kinds_of(file: &[u8], listed: &[u8]) -> Vec<&'static str> {
    let refused = REFUSED
        .into_iter()
        .find(|answer| format!("{answer}\n").as_bytes() == listed);
    let records = listed.split(|&octet| octet == b'\n');
    let records = records.filter(|line| line.starts_with(b"R ")).count();
    let mut kinds = vec![refused.unwrap_or(RIGHT[records.min(2)])];
    if let (None, Ok(contents)) = (refused, second::read(file)) {
        kinds.push(EXTENDED[usize::from(contents.header.statement)]);
    }
    match refused {
        None if file.len() == LONGEST_INPUT => kinds.push(LONGEST),
        Some("E 8") if file.len() == LONGEST_INPUT + 1 => kinds.push(LONGER),
        _ => {}
    }
    kinds
}

/// Holds `cdrlist` and the second one against the lessons.
fn compare_lessons(folder: &Path) -> Result<String, String> {
    let program = proved_program("cdrlist", "CDRLIST_BIN");
    let lessons = lessons(folder, "files")?;
    let mut files = 0;
    for lesson in &lessons {
        files += compare_lesson(&program, lesson)
            .map_err(|what| format!("{}: {what}", lesson.display()))?;
    }
    match lessons.len() {
        0 => Err(format!("{}: no lessons of files", folder.display())),
        count => Ok(format!("{count} lessons of files, {files} files")),
    }
}

/// Holds both programs against what stands beside a lesson; returns its number of files.
fn compare_lesson(program: &Path, lesson: &Path) -> Result<usize, String> {
    let files = files(&contents(lesson)?)?;
    let expected = contents(&lesson.with_extension("out"))?;
    let mut second = Vec::new();
    let mut proved = Vec::new();
    for file in &files {
        second.extend(cdrlist::list(file).into_bytes());
        proved.extend(run_proved(program, file)?);
    }
    for (name, printed) in [("second", second), ("proved", proved)] {
        if printed != expected {
            let [expected, printed] = [&expected, &printed].map(|text| text.escape_ascii());
            return Err(format!(
                "{name}: expected {expected}\n  but printed {printed}"
            ));
        }
    }
    Ok(files.len())
}

/// The files of a lesson.
fn files(lesson: &[u8]) -> Result<Vec<Vec<u8>>, String> {
    let lines = lesson.split(|&octet| octet == b'\n');
    let files = lines.filter(|line| !line.is_empty() && line[0] != b'#');
    files
        .map(|line| gate::octets(line).ok_or("a line that is no file".to_owned()))
        .collect()
}
