//! Times the proved reader, writer and timestamps beside Rust on the same input in the same run,
//! and prints their ratios. It asserts nothing.

use leveehum::draft::Draft;
use leveehum::fields::Release;
use leveehum::proved;
use leveehum::random::Random;
use leveehum::second::{self, Contents, LAST_MINUTE, LONGEST_FILE, WIDEST_OFFSET};
use leveehum::timing::{best_of_both, RUNS};
use std::hint::black_box;

/// Steps in one run: a single one is too short for the clock.
const STEPS: usize = 10_000;
/// Timestamps in one run, each of another minute and offset.
const STAMPS: usize = 10_000;

fn main() {
    println!("nanoseconds, best of {RUNS} interleaved runs");
    println!(
        "{:52} {:>12} {:>12} {:>8}",
        "case", "proved", "baseline", "ratio"
    );
    for (name, body) in [("4-octet records", 0), ("1,000-octet bodies", 1_000)] {
        let file = file(body);
        let contents = second::read(&file).expect("the file is right");
        let case = format!("{name} ({} records)", contents.count);
        time_reading(&case, &file);
        time_writing(&case, &file, &contents);
        time_steps(&case, &file, body);
    }
    time_stamps();
}

/// A file of exactly 1 MiB.
fn file(body: usize) -> Vec<u8> {
    let release = Release {
        release: 4,
        extension: 0,
        version: 3,
    };
    let mut random = Random::new(1);
    Draft::of_length(&mut random, LONGEST_FILE, release, body)
        .lay()
        .octets
}

fn time_reading(case: &str, file: &[u8]) {
    let read_proved = || {
        black_box(proved::read(black_box(file)));
    };
    let read_second = || {
        let _ = black_box(second::read(black_box(file)));
    };
    let pair = best_of_both(read_proved, read_second);
    print_case(&format!("read / second, {case}"), pair, 1);
}

fn time_writing(case: &str, file: &[u8], contents: &Contents) {
    let [filter, private, records] =
        [&contents.filter, &contents.private, &contents.records].map(|part| &file[part.clone()]);
    let header = &contents.header;
    let mut output = vec![0; file.len()];
    let mut copy = vec![0; file.len()];
    let mut write_proved = || {
        let output = black_box(&mut output[..]);
        black_box(proved::write(header, filter, private, records, output));
    };
    let pair = best_of_both(&mut write_proved, || {
        black_box(&mut copy[..]).copy_from_slice(black_box(file));
    });
    print_case(&format!("write / copy, {case}"), pair, 1);
    let pair = best_of_both(&mut write_proved, || {
        let output = black_box(&mut copy[..]);
        let _ = black_box(second::write(header, filter, private, records, output));
    });
    print_case(&format!("write / second, {case}"), pair, 1);
}

/// Steps at the first record and at the last: they should cost the same.
fn time_steps(case: &str, file: &[u8], body: usize) {
    let first = second::read(file).expect("the file is right").records.start;
    let last = file.len() - (4 + body);
    for (name, at) in [("first", first), ("last", last)] {
        let pair = best_of_both(
            || {
                for _ in 0..STEPS {
                    black_box(proved::step_at(black_box(file), black_box(at)));
                }
            },
            || {
                for _ in 0..STEPS {
                    let _ = black_box(second::step(black_box(file), black_box(at)));
                }
            },
        );
        print_case(&format!("step at the {name}, {case}"), pair, STEPS);
    }
}

/// Timestamps of random minutes at random offsets; each side is given the offset in its own form.
fn time_stamps() {
    let mut random = Random::new(1);
    let mut time = || {
        let minutes = random.between(0, LAST_MINUTE as usize) as u32;
        let bias = random.between(0, 2 * WIDEST_OFFSET as usize) as u32;
        (minutes, bias, i64::from(bias) - WIDEST_OFFSET)
    };
    let times: Vec<(u32, u32, i64)> = (0..STAMPS).map(|_| time()).collect();
    let pair = best_of_both(
        || {
            for &(minutes, bias, _) in &times {
                black_box(proved::stamp(minutes, bias));
            }
        },
        || {
            for &(minutes, _, offset) in &times {
                let _ = black_box(second::timestamp(minutes, offset));
            }
        },
    );
    print_case("stamp / second, random minutes and offsets", pair, STAMPS);
}

fn print_case(case: &str, [proved, baseline]: [f64; 2], times: usize) {
    let each = times as f64;
    println!(
        "{case:52} {:12.1} {:12.1} {:8.2}",
        proved / each,
        baseline / each,
        proved / baseline
    );
}
