//! Times the proved call that holds two files together beside Rust that sorts the records of both and
//! merges them, on the same pairs in the same run, and prints their ratios; before that both must answer
//! the same. Then how its time grows with the files. It asserts nothing of the times.
//!
//!     bench_reconcile               the times
//!     bench_reconcile --stack       the least stack on which the call comes to its end
//!     bench_reconcile --calls KIB   calls it on a stack of so many KiB, of which it may die

use self::Order::{Any, Falling, Rising};
use leveehum::draft::{record, Draft};
use leveehum::fields::{RecordHeader, Release};
use leveehum::proved;
use leveehum::random::Random;
use leveehum::reconcile::{reconcile, records, Reconciled};
use leveehum::second::LONGEST_FILE;
use leveehum::timing::best_of;
use std::cmp::Ordering;
use std::env;
use std::hint::black_box;
use std::process::{Command, ExitCode, Stdio};
use std::thread;

const RUNS: usize = 15;
const WARM_UP: usize = 2;
/// The sizes of files in the table of growth, as parts of the longest.
const PARTS: [usize; 4] = [8, 4, 2, 1];
/// The most KiB of stack that are tried, and the steps in which they are.
const MOST_STACK: usize = 16 * 1_024;
const STACK_STEP: usize = 4;
const FORMATS: usize = 8;
const TS_NUMBERS: usize = 32;
const VERSIONS: usize = 32;

/// In which order the records of both files stand.
#[derive(Clone, Copy)]
enum Order {
    Any,
    Rising,
    Falling,
}

/// What the records of a case are.
#[derive(Clone, Copy)]
enum Records {
    /// Of 4 octets and all the same.
    Equal,
    /// Of 4 octets, of any version, format and TS number.
    Short,
    /// With bodies of 1,000 octets that differ in the last octet alone.
    Long,
    /// With random bodies of 100 octets, nine in ten of them in both files.
    Mixed,
}

struct Case {
    name: &'static str,
    records: Records,
    order: Order,
}

#[rustfmt::skip]
const CASES: [Case; 8] = [
    Case { name: "4 octets, all equal", records: Records::Equal, order: Any },
    Case { name: "4 octets, any order", records: Records::Short, order: Any },
    Case { name: "4 octets, rising", records: Records::Short, order: Rising },
    Case { name: "4 octets, falling", records: Records::Short, order: Falling },
    Case { name: "bodies of 1,000, last octet differs, any order", records: Records::Long, order: Any },
    Case { name: "bodies of 1,000, last octet differs, rising", records: Records::Long, order: Rising },
    Case { name: "bodies of 1,000, last octet differs, falling", records: Records::Long, order: Falling },
    Case { name: "random bodies of 100, any order", records: Records::Mixed, order: Any },
];

fn main() -> ExitCode {
    let arguments: Vec<String> = env::args().skip(1).collect();
    let arguments: Vec<&str> = arguments.iter().map(String::as_str).collect();
    let result = match arguments[..] {
        [] => time_all(),
        ["--stack"] => least_stack(),
        ["--calls", kib] => kib
            .parse()
            .map_err(|_| "no number of KiB".to_owned())
            .and_then(call_on),
        _ => Err("usage: bench_reconcile [--stack | --calls KIB]".to_owned()),
    };
    match result {
        Ok(()) => ExitCode::SUCCESS,
        Err(what) => {
            println!("FAILED: {what}");
            ExitCode::FAILURE
        }
    }
}

fn time_all() -> Result<(), String> {
    println!("Milliseconds for two files, best of {RUNS} interleaved runs");
    println!(
        "{:48} {:>9} {:>9} {:>9} {:>7}",
        "case", "records", "proved", "sorted", "ratio"
    );
    for case in &CASES {
        let files = pair(case.records, case.order, LONGEST_FILE);
        let (count, [proved, sorted]) = time(&files)?;
        let ratio = proved / sorted;
        println!(
            "{:48} {count:9} {proved:9.3} {sorted:9.3} {ratio:7.2}",
            case.name
        );
    }
    println!("Growth: 4 octets, any order; nanoseconds for n log2 n, with n records in each file");
    println!(
        "{:48} {:>9} {:>9} {:>9} {:>7}",
        "octets of each file", "records", "proved", "sorted", "ns"
    );
    for part in PARTS {
        let octets = LONGEST_FILE / part;
        let (count, [proved, sorted]) = time(&pair(Records::Short, Any, octets))?;
        let steps = count as f64 * (count as f64).log2();
        let each = proved * 1e6 / steps;
        println!("{octets:<48} {count:9} {proved:9.3} {sorted:9.3} {each:7.2}");
    }
    Ok(())
}

/// The first file's count, and the milliseconds of the proved call and of sorting.
fn time([first, second]: &[Vec<u8>; 2]) -> Result<(usize, [f64; 2]), String> {
    let expected = reconcile(first, second);
    let answers = [sorted(first, second), proved::reconcile(first, second)];
    if expected.refusal != 0 || answers != [expected; 2] {
        return Err(format!("second {expected:?}, but {answers:?}"));
    }
    let best = best_of(
        RUNS,
        WARM_UP,
        || {
            black_box(proved::reconcile(black_box(first), black_box(second)));
        },
        || {
            black_box(sorted(black_box(first), black_box(second)));
        },
    );
    let count = expected.both + expected.first;
    Ok((count, best.map(|nanoseconds| nanoseconds / 1e6)))
}

/// What two files have in common, by sorting the records of each and merging them.
fn sorted(first: &[u8], second: &[u8]) -> Reconciled {
    let (mut first, mut second) = match [records(first), records(second)] {
        [Err(number), _] => return Reconciled::refused(1, number),
        [_, Err(number)] => return Reconciled::refused(2, number),
        [Ok(first), Ok(second)] => (first, second),
    };
    first.sort_unstable();
    second.sort_unstable();
    let [mut one, mut other, mut both] = [0; 3];
    while one < first.len() && other < second.len() {
        match first[one].cmp(second[other]) {
            Ordering::Less => one += 1,
            Ordering::Greater => other += 1,
            Ordering::Equal => {
                one += 1;
                other += 1;
                both += 1;
            }
        }
    }
    Reconciled {
        both,
        first: first.len() - both,
        second: second.len() - both,
        ..Reconciled::default()
    }
}

/// Two files of exactly so many octets, full of records.
fn pair(of: Records, order: Order, octets: usize) -> [Vec<u8>; 2] {
    let random = &mut Random::new(1);
    let common = random.octets(1_000);
    let first = some_records(random, of, &common, octets);
    let second = match of {
        Records::Mixed => {
            let mut second = first.clone();
            for record in second.iter_mut().step_by(10) {
                *record = mixed(random);
            }
            random.shuffle(&mut second);
            second
        }
        _ => some_records(random, of, &common, octets),
    };
    [first, second].map(|mut records| {
        match order {
            Any => {}
            Rising => records.sort_unstable(),
            Falling => records.sort_unstable_by(|one, other| other.cmp(one)),
        }
        file(random, &records, octets)
    })
}

/// As many records as a file of so many octets has room for.
fn some_records(random: &mut Random, of: Records, common: &[u8], octets: usize) -> Vec<Vec<u8>> {
    let mut one = || match of {
        Records::Equal => with_fields([3, 1, 15], &[]),
        Records::Short => {
            let bounds = [VERSIONS, FORMATS, TS_NUMBERS];
            with_fields(bounds.map(|bound| random.below(bound) as u8), &[])
        }
        Records::Long => {
            let mut body = common.to_vec();
            body[999] = random.octet();
            with_fields([3, 1, 15], &body)
        }
        Records::Mixed => mixed(random),
    };
    let first = one();
    // A file header has 50 octets and no extension.
    let count = (octets - 50) / first.len();
    (0..count).map(|_| one()).collect()
}

fn mixed(random: &mut Random) -> Vec<u8> {
    with_fields([3, 1, 15], &random.octets(100))
}

fn with_fields([version, format, ts]: [u8; 3], body: &[u8]) -> Vec<u8> {
    let release = Release {
        release: 4,
        extension: 0,
        version,
    };
    let fields = RecordHeader {
        release,
        format,
        ts,
    };
    record(fields, body)
}

/// A file of these records; its filter takes what they leave.
fn file(random: &mut Random, records: &[Vec<u8>], octets: usize) -> Vec<u8> {
    let mut draft = Draft::with_records(random, 0);
    draft.extend(None);
    draft.filter.clear();
    for record in records {
        draft.push(record);
    }
    draft.settle();
    let (taken, _) = draft.lengths();
    draft.filter = random.octets(octets - taken);
    draft.lay().octets
}

/// Finds the least stack by calling in processes of their own: one that has too little is killed.
fn least_stack() -> Result<(), String> {
    let program = env::current_exe().map_err(|error| error.to_string())?;
    let suffices = |steps: usize| {
        let kib = (steps * STACK_STEP).to_string();
        let status = Command::new(&program)
            .args(["--calls", &kib])
            .stdout(Stdio::null())
            .stderr(Stdio::null())
            .status();
        status.is_ok_and(|status| status.success())
    };
    let (mut short, mut enough) = (0, MOST_STACK / STACK_STEP);
    if !suffices(enough) {
        return Err(format!("{MOST_STACK} KiB of stack are too few"));
    }
    while short + 1 < enough {
        let middle = (short + enough) / 2;
        if suffices(middle) {
            enough = middle;
        } else {
            short = middle;
        }
    }
    let [short, enough] = [short, enough].map(|steps| steps * STACK_STEP);
    println!("stack: {enough} KiB suffice, {short} KiB do not");
    Ok(())
}

/// Calls on a stack of so many KiB, with all that is read made before that stack is.
fn call_on(kib: usize) -> Result<(), String> {
    let pairs: Vec<[Vec<u8>; 2]> = CASES
        .iter()
        .map(|case| pair(case.records, case.order, LONGEST_FILE))
        .collect();
    let answers: Vec<Reconciled> = pairs
        .iter()
        .map(|[one, other]| sorted(one, other))
        .collect();
    let same = thread::scope(|scope| {
        let calls = || {
            let mut each = pairs.iter().zip(&answers);
            each.all(|([one, other], answer)| proved::reconcile(one, other) == *answer)
        };
        let thread = thread::Builder::new().stack_size(kib * 1_024);
        let thread = thread
            .spawn_scoped(scope, calls)
            .map_err(|error| error.to_string())?;
        thread
            .join()
            .map_err(|_| "the thread ended early".to_owned())
    })?;
    match same {
        true => Ok(()),
        false => Err("other answers".to_owned()),
    }
}
