//! Replays scripts of events by the plain manager, and compares the proved `cdrgate` with it: on
//! the lessons of a folder, or on random scripts from a fixed seed.
//!
//!     replay SCRIPT...         prints what each script comes to
//!     replay --lessons FOLDER  holds both programs against each *.out beside a *.gate
//!     replay --random N        holds both programs against each other on N scripts
//!
//! The proved program is `../target/bin/cdrgate`, or what CDRGATE_BIN names.

use leveehum::audit::{audit, Counts, Tally, COMPARISONS, PACKETS, TOLD};
use leveehum::gate;
use leveehum::manager::MOST_ROUTES;
use leveehum::program::{contents, ended_lines, lessons, proved_program, run_proved};
use leveehum::random::Random;
use leveehum::scripts;
use std::env;
use std::io::{self, Write};
use std::path::Path;
use std::process::ExitCode;
use std::time::Instant;

const SEED: u64 = 0x3229_7000_2026_0002;
/// Scripts that one process of the proved program is given.
const BATCH: usize = 50;
/// Right scripts for each that ends its run, which takes a process of its own.
const PER_WRONG: usize = 15;
const REFUSALS: [u32; 12] = [1, 2, 3, 4, 5, 6, 7, 14, 15, 16, 17, 22];
const OUTCOMES: [u32; 6] = [1, 2, 3, 4, 5, 6];
const REASONS: [u32; 6] = [0, 1, 2, 3, 4, 5];
const TICK_REASONS: [u32; 2] = [0, 2];
const PACKET_ENDS: [u32; 6] = [0, 4, 5, 11, 16, 17];

fn main() -> ExitCode {
    let arguments: Vec<String> = env::args().skip(1).collect();
    let arguments: Vec<&str> = arguments.iter().map(String::as_str).collect();
    let result = match arguments[..] {
        ["--lessons", folder] => compare_lessons(Path::new(folder)),
        ["--random", count] => match count.parse() {
            Ok(count) => compare_random(count),
            Err(_) => Err(format!("{count} is no number of scripts")),
        },
        [] => Err("usage: replay SCRIPT... | --lessons FOLDER | --random N".to_owned()),
        ref scripts => print_all(scripts),
    };
    match result {
        Ok(()) => ExitCode::SUCCESS,
        Err(what) => {
            println!("FAILED: {what}");
            ExitCode::FAILURE
        }
    }
}

fn print_all(scripts: &[&str]) -> Result<(), String> {
    for script in scripts {
        let printed = gate::replay(&contents(Path::new(script))?);
        io::stdout()
            .write_all(&printed)
            .map_err(|error| error.to_string())?;
    }
    Ok(())
}

/// Holds both programs against what stands beside each lesson, and reads each closed file there by
/// the second reader.
fn compare_lessons(folder: &Path) -> Result<(), String> {
    let lessons = lessons(folder, "gate")?;
    let program = proved_program("cdrgate", "CDRGATE_BIN");
    let mut differences = 0;
    let mut counts = Counts::default();
    for lesson in &lessons {
        let script = contents(lesson)?;
        let expected = contents(&lesson.with_extension("out"));
        let programs = [
            ("plain", Ok(gate::replay(&script))),
            ("proved", run_proved(&program, &script)),
        ];
        for (name, printed) in programs {
            let difference = match (&expected, printed) {
                (Ok(expected), Ok(printed)) => difference(expected, &printed)
                    .or_else(|| audit(&script, &printed, &mut counts).err()),
                (Err(what), _) => Some(what.clone()),
                (_, Err(what)) => Some(what),
            };
            if let Some(what) = difference {
                println!("{} ({name}): {what}", lesson.display());
                differences += 1;
            }
        }
    }
    match (differences, lessons.len()) {
        (_, 0) => Err(format!("{}: no lessons", folder.display())),
        (0, count) => {
            // Each lesson was looked at twice, once for each program.
            let files = sum(&counts.reasons) / 2;
            println!("{count} lessons, {files} closed files read, no difference");
            Ok(())
        }
        (count, _) => Err(format!("{count} differences")),
    }
}

/// The first line in which two outputs differ.
fn difference(expected: &[u8], printed: &[u8]) -> Option<String> {
    if expected == printed {
        return None;
    }
    let mut pairs = (1..).zip(ended_lines(expected).zip(ended_lines(printed)));
    let (number, (expected, printed)) = pairs.find(|(_, (one, other))| one != other)?;
    let [expected, printed] = [expected, printed].map(|line| match line {
        None => "nothing".to_owned(),
        Some(line) => String::from_utf8_lossy(line).trim_end().to_owned(),
    });
    Some(format!(
        "line {number}: expected {expected}\n  but printed {printed}"
    ))
}

/// Holds both programs against each other on random scripts.
fn compare_random(count: usize) -> Result<(), String> {
    let start = Instant::now();
    let program = proved_program("cdrgate", "CDRGATE_BIN");
    let mut random = Random::new(SEED);
    let mut counts = Counts::default();
    let mut made = 0;
    while made < count {
        let size = BATCH.min(count - made);
        let batch: Vec<_> = (0..size).map(|_| scripts::right(&mut random)).collect();
        compare_batch(&program, &batch, &mut counts)?;
        made += size;
    }
    let wrong = (count / PER_WRONG).max(scripts::WRONG_ENDS);
    for kind in 0..wrong {
        let script = scripts::wrong(&mut random, kind % scripts::WRONG_ENDS);
        compare_batch(&program, &[script], &mut counts)?;
    }
    println!(
        "{count} scripts and {wrong} with a wrong end, {} lines",
        counts.lines
    );
    println!(
        "{} closed files read, with {} records, up to {} in one event",
        sum(&counts.reasons),
        counts.records,
        counts.most_files
    );
    println!(
        "{} balances of a route's losses, {} with some told and some pending",
        counts.balances, counts.full_balances
    );
    let complete = [
        complete_kinds("files that told", TOLD.map(|(kind, _)| kind), &counts.told),
        complete_kinds("filters compared", COMPARISONS, &counts.comparisons),
        counts.full_balances > 0,
        complete("refusals", &counts.refusals, &REFUSALS),
        complete("outcomes", &counts.outcomes, &OUTCOMES),
        complete("closure reasons", &counts.reasons, &REASONS),
        complete("TICK's", &counts.tick_reasons, &TICK_REASONS),
        complete("packets' ends", &counts.packet_ends, &PACKET_ENDS),
        complete_kinds("packets", PACKETS, &counts.packets),
        counts.most_files == MOST_ROUTES,
        counts.ends == wrong,
    ];
    println!("{:.1} seconds", start.elapsed().as_secs_f64());
    if complete.contains(&false) {
        return Err(
            "a number, a loss or eight files at once never came, or a run did not end".to_owned(),
        );
    }
    println!("no difference");
    Ok(())
}

fn sum(tally: &Tally) -> usize {
    tally.values().sum()
}

/// Prints how often each number came; whether each that should come did.
fn complete(name: &str, tally: &Tally, expected: &[u32]) -> bool {
    let shown: Vec<String> = tally
        .iter()
        .map(|(number, times)| format!("{number}: {times}"))
        .collect();
    println!("{name:16} {}", shown.join(", "));
    expected.iter().all(|number| tally.contains_key(number))
}

/// Prints how often each kind came; whether each did.
fn complete_kinds<const N: usize>(name: &str, kinds: [&str; N], times: &[usize; N]) -> bool {
    let kinds = kinds.iter().zip(times);
    let shown: Vec<String> = kinds
        .map(|(kind, times)| format!("{kind}: {times}"))
        .collect();
    println!("{name:16} {}", shown.join(", "));
    !times.contains(&0)
}

/// Gives scripts to one process, one behind another; each has a manager of its own.
fn compare_batch(program: &Path, scripts: &[Vec<u8>], counts: &mut Counts) -> Result<(), String> {
    let printed = run_proved(program, &scripts.concat())?;
    let mut rest = &printed[..];
    for (index, script) in scripts.iter().enumerate() {
        let expected = gate::replay(script);
        let is_last = index + 1 == scripts.len();
        // The last script has all that is left, so that nothing is printed behind it.
        let end = if is_last {
            rest.len()
        } else {
            rest.len().min(expected.len())
        };
        let (own, behind) = rest.split_at(end);
        let what = difference(&expected, own);
        if let Some(what) = what.or_else(|| audit(script, own, counts).err()) {
            return Err(format!("{what}\n{}", String::from_utf8_lossy(script)));
        }
        rest = behind;
    }
    Ok(())
}
