//! Compares the second reader and writer with the proved ones, those of loss counts and of file names
//! too, in one process and from a fixed seed: prints how often each answer came, or the first
//! difference and the file in hexadecimal.

use leveehum::cdrname::{self, Writing};
use leveehum::counts::{self, LossCounts};
use leveehum::dates::{self, Dated};
use leveehum::fields::{Header, EMPTY, NONE, OCTETS};
use leveehum::files::FAMILIES;
use leveehum::inputs::{self, Input, LIMITS};
use leveehum::name::{self, Fields, LONGEST_NAME};
use leveehum::names;
use leveehum::proved::{self, NameRead, Part, Read, Stamped, Step, Written};
use leveehum::random::Random;
use leveehum::second::{self, Contents, LAST_MINUTE, WIDEST_OFFSET};
use std::collections::BTreeMap;
use std::fmt::Debug;
use std::ops::Range;
use std::process::ExitCode;
use std::time::Instant;

const SEED: u64 = 0x3229_7000_2026_0001;
/// The fewest files that a run must have compared.
const LEAST_FILES: usize = 20_000;
/// Rounds over the days of the months.
const DATE_ROUNDS: usize = 4;
/// Rounds over the writer's faults; files that are too long are slow, so they are in few.
const WRITER_ROUNDS: usize = 200;
const LONG_WRITER_ROUNDS: usize = 20;
const RANDOM_STAMPS: usize = 1_000_000;
const DAY: u32 = 1_440;
/// Days from 2000-01-01 to 2099-12-31.
const DAYS: usize = 36_525;
/// The offsets at which both ends of each of those days are compared.
const DAY_OFFSETS: [i64; 5] = [-WIDEST_OFFSET, -1, 0, 1, WIDEST_OFFSET];
/// Pairs of random numbers in private octets, beside the chosen ones.
const RANDOM_COUNTS: usize = 500;

/// What private octets are to a reader of loss counts.
const PRIVATE: [&str; 4] = [
    "counts",
    "nine octets of another kind",
    "another length",
    "neither",
];

/// What a header may state of its private extension.
const STATEMENTS: [&str; 3] = ["none", "empty", "with octets"];
/// Statements that private octets contradict.
const CONTRADICTIONS: [&str; 4] = [
    "none of octets",
    "empty of octets",
    "octets of none",
    "none of the three",
];

/// How often each answer came; 0 is an acceptance.
type Tally = BTreeMap<u8, usize>;

/// What differed, and the octets on which it did.
struct Difference {
    what: String,
    octets: Vec<u8>,
}

/// All that a run counts.
#[derive(Default)]
struct Counts {
    files: usize,
    records: usize,
    reader: Tally,
    /// Files with each day of each month, by the timestamp that has it.
    dates: [Tally; 2],
    writer: Tally,
    /// Accepted files, by what they state of `STATEMENTS`.
    stated: [usize; STATEMENTS.len()],
    /// What the writers were given, by how it is one of `CONTRADICTIONS`.
    contradicted: [usize; CONTRADICTIONS.len()],
    /// What the writers were given about the longest file, by its place in `LIMITS`.
    limits: [usize; LIMITS.len()],
    step: Tally,
    /// Parts of files, by places within the file and forged ones.
    parts: usize,
    empty_parts: usize,
    /// Private octets, by what they are of `PRIVATE`.
    private: [usize; PRIVATE.len()],
    stamp: Tally,
    /// Timestamps of a day's first or last minute, by their offset of `DAY_OFFSETS`.
    day_ends: [usize; DAY_OFFSETS.len()],
    name: Tally,
    name_writer: Tally,
}

fn main() -> ExitCode {
    let start = Instant::now();
    let mut counts = Counts::default();
    if let Err(difference) = run(&mut counts) {
        println!("DIFFERENCE: {}", difference.what);
        println!("{}", hexadecimal(&difference.octets));
        return ExitCode::FAILURE;
    }
    println!("{} files, {} records", counts.files, counts.records);
    let limits = LIMITS.map(|limit| limit.name);
    let complete = [
        complete("reader", &counts.reader, &[0, 8, 9, 10, 11, 12, 13]),
        complete("writer", &counts.writer, &[0, 2, 10, 11, 13, 8, 17]),
        complete("step", &counts.step, &[0, 11]),
        counts.has_parts(),
        all_came("private octets", &PRIVATE, &counts.private),
        all_came("private extensions", &STATEMENTS, &counts.stated),
        all_came("contradicted", &CONTRADICTIONS, &counts.contradicted),
        all_came("about the longest file", &limits, &counts.limits),
        complete("timestamp", &counts.stamp, &[0, 4, 2]),
        counts.has_day_ends(),
        complete("name reader", &counts.name, &[0, 20]),
        complete("name writer", &counts.name_writer, &[0, 20, 21]),
        counts.dates.iter().all(|tally| came(tally, &[0, 10])),
        counts.files >= LEAST_FILES,
    ];
    println!("{:.1} seconds", start.elapsed().as_secs_f64());
    if complete.contains(&false) {
        println!("FAILED: an answer never came, or there were too few files or ends of days");
        return ExitCode::FAILURE;
    }
    println!("no difference");
    ExitCode::SUCCESS
}

fn run(counts: &mut Counts) -> Result<(), Difference> {
    let mut random = Random::new(SEED);
    for family in &FAMILIES {
        let mut tally = Tally::new();
        for _ in 0..family.rounds {
            for file in (family.batch)(&mut random) {
                let answer = compare_file(&mut random, &file, counts).map_err(|what| {
                    let what = format!("{}: {what}", family.name);
                    Difference { what, octets: file }
                })?;
                *tally.entry(answer).or_default() += 1;
            }
        }
        counts.add_family(family.name, &tally);
    }
    compare_dates(&mut random, counts)?;
    compare_writers(&mut random, counts)?;
    compare_limits(&mut random, counts)?;
    compare_counts(&mut random, counts)?;
    let stamps = compare_day_ends(counts).and_then(|()| compare_stamps(&mut random, counts));
    stamps.map_err(|what| Difference {
        what,
        octets: Vec::new(),
    })?;
    compare_names(&mut random, counts)
}

impl Counts {
    /// Prints a family's answers and adds them to the reader's.
    fn add_family(&mut self, name: &str, tally: &Tally) {
        let files: usize = tally.values().sum();
        println!("{name:27} {files:6} files: {}", shown(tally));
        self.files += files;
        for (&answer, &times) in tally {
            *self.reader.entry(answer).or_default() += times;
        }
    }

    /// Prints how many parts were compared; whether there were both kinds.
    fn has_parts(&self) -> bool {
        let Self {
            parts, empty_parts, ..
        } = self;
        println!("{:27} with octets {parts}, empty {empty_parts}", "part");
        *parts > 0 && *empty_parts > 0
    }

    /// Prints how many ends of days were compared at each offset; whether both of every day were.
    fn has_day_ends(&self) -> bool {
        let offsets = DAY_OFFSETS.iter().zip(self.day_ends);
        let told: Vec<String> = offsets
            .map(|(offset, times)| format!("at {offset}: {times}"))
            .collect();
        println!("{:27} {}", "ends of days", told.join(", "));
        self.day_ends == [2 * DAYS; DAY_OFFSETS.len()]
    }
}

/// Prints how often each kind came; whether all did.
fn all_came(name: &str, kinds: &[&str], times: &[usize]) -> bool {
    let each = kinds.iter().zip(times);
    let told: Vec<String> = each
        .map(|(kind, times)| format!("{kind} {times}"))
        .collect();
    println!("{name:27} {}", told.join(", "));
    !times.contains(&0)
}

/// Prints how often each answer came; whether each that should come did.
fn complete(name: &str, tally: &Tally, expected: &[u8]) -> bool {
    println!("{name:27} {}", shown(tally));
    came(tally, expected)
}

/// Whether each answer that should come did.
fn came(tally: &Tally, expected: &[u8]) -> bool {
    let came = |answer: &u8| tally.get(answer).is_some_and(|&times| times > 0);
    expected.iter().all(came)
}

fn shown(tally: &Tally) -> String {
    let one = |(&answer, times): (&u8, &usize)| match answer {
        0 => format!("accepted {times}"),
        _ => format!("refused {answer}: {times}"),
    };
    tally.iter().map(one).collect::<Vec<_>>().join(", ")
}

fn hexadecimal(octets: &[u8]) -> String {
    octets.iter().map(|octet| format!("{octet:02X}")).collect()
}

/// Tells two answers apart.
fn same<T: PartialEq + Debug>(what: &str, second: T, proved: T) -> Result<(), String> {
    if second == proved {
        return Ok(());
    }
    Err(format!("{what}: second {second:?}, proved {proved:?}"))
}

/// Compares all that both sides say of a file; returns the reader's answer.
fn compare_file(random: &mut Random, file: &[u8], counts: &mut Counts) -> Result<u8, String> {
    compare_steps(random, file, &mut counts.step)?;
    for part in places(file.len()) {
        compare_part(file, part, counts)?;
    }
    let read = proved::read(file);
    match second::read(file) {
        Err(refusal) => {
            let refused = Read {
                refusal,
                ..Read::default()
            };
            same("read", refused, read)?;
            Ok(refusal)
        }
        Ok(contents) => {
            compare_contents(&contents, &read)?;
            counts.stated[usize::from(contents.header.statement)] += 1;
            for part in [read.filter, read.private, read.records] {
                compare_part(file, part, counts)?;
            }
            compare_private(&file[contents.private.clone()], counts)?;
            counts.records += walk_both(file, &contents)?;
            write_back(random, file, &contents, &mut counts.writer)?;
            Ok(0)
        }
    }
}

fn compare_contents(contents: &Contents, read: &Read) -> Result<(), String> {
    same("read: refusal", 0, read.refusal)?;
    same("read: header", contents.header, read.header)?;
    same("read: filter", contents.filter.clone(), read.filter.range())?;
    same(
        "read: records",
        contents.records.clone(),
        read.records.range(),
    )?;
    same("read: count", contents.count, read.count)?;
    same(
        "read: private",
        contents.private.clone(),
        read.private.range(),
    )
}

/// Places in a file of so many octets, about its end, and beyond any file.
fn places(end: usize) -> [Part; 14] {
    const MOST: usize = usize::MAX;
    let places = [
        [0, 0],
        [0, end],
        [0, end + 1],
        [1, end],
        [1, end.saturating_sub(1)],
        [end / 2, end / 3],
        [end.saturating_sub(1), 1],
        [end, 0],
        [end, 1],
        [end + 1, 0],
        [1 << 32, 1],
        [1, MOST],
        [MOST, 1],
        [MOST, MOST],
    ];
    places.map(|[start, octets]| Part { start, octets })
}

/// A part has the place that was asked for; one that is empty or not within the file has none.
fn compare_part(file: &[u8], part: Part, counts: &mut Counts) -> Result<(), String> {
    let end = part.start.checked_add(part.octets);
    let octets = end.and_then(|end| file.get(part.start..end));
    let expected = match octets {
        None | Some([]) => Part::default(),
        Some(_) => part,
    };
    match expected.octets {
        0 => counts.empty_parts += 1,
        _ => counts.parts += 1,
    }
    let answer = proved::part_of(file, part);
    if expected == answer {
        return Ok(());
    }
    same(&format!("part {part:?}"), expected, answer)
}

/// Steps from each record's end to the next, on both sides; returns the number of records.
fn walk_both(file: &[u8], contents: &Contents) -> Result<usize, String> {
    let Range { start: mut at, end } = contents.records;
    let mut records = 0;
    while at < end {
        at += compare_step(file, at)?.ok_or("walk: a record of an accepted file is refused")?;
        records += 1;
    }
    same("walk: end", end, at)?;
    same("walk: count", contents.count, records)?;
    Ok(records)
}

/// Steps at offsets anywhere, past the end too.
fn compare_steps(random: &mut Random, file: &[u8], tally: &mut Tally) -> Result<(), String> {
    let end = file.len();
    let anywhere = [random.below(end + 8), random.below(end + 1)];
    // Offsets that would be in the file again if their upper half were lost, or their sum wrapped.
    let upper = (1 << 32) + random.below(end + 1);
    let past = [
        end,
        end + 1,
        upper,
        usize::MAX - random.below(9),
        usize::MAX,
    ];
    for at in anywhere.into_iter().chain([random.pick(&past)]) {
        let answer = match compare_step(file, at)? {
            Some(_) => 0,
            None => 11,
        };
        *tally.entry(answer).or_default() += 1;
    }
    Ok(())
}

/// One step on both sides; returns the record's octets, or none where both refuse.
fn compare_step(file: &[u8], at: usize) -> Result<Option<usize>, String> {
    let (step, body) = (proved::step_at(file, at), proved::body_at(file, at));
    let expected = match second::step(file, at) {
        Err(refusal) => Step {
            refusal,
            ..Step::default()
        },
        Ok(record) => Step {
            refusal: 0,
            fields: record.fields,
            header: record.header,
            body: record.body.len(),
        },
    };
    let expected_body = match expected.refusal {
        0 => Part {
            start: at + expected.header,
            octets: expected.body,
        },
        _ => Part::default(),
    };
    // The same step is asked for by the file's part that begins there.
    let by_part = file.get(at..).map_or(step, proved::step);
    // A million steps: the words for a difference are made only when there is one.
    if (expected, expected_body) == (step, body) && step == by_part {
        return Ok((step.refusal == 0).then_some(step.header + step.body));
    }
    same(&format!("step at {at}"), expected, step)?;
    same(&format!("body at {at}"), expected_body, body)?;
    same(&format!("step of the part at {at}"), expected, by_part)?;
    Ok(None)
}

/// Lets the proved writer write what was read: it must give the file again, and refuse an output
/// one octet short.
fn write_back(
    random: &mut Random,
    file: &[u8],
    contents: &Contents,
    tally: &mut Tally,
) -> Result<(), String> {
    let [filter, private, records] =
        [&contents.filter, &contents.private, &contents.records].map(|part| &file[part.clone()]);
    let parts = [filter, private, records];
    let behind = random.between(1, 40);
    let before = background(random, file.len() + behind);
    let mut expected = before.clone();
    expected[..file.len()].copy_from_slice(file);
    let enough = Written {
        refusal: 0,
        octets: file.len(),
    };
    write_proved(&contents.header, parts, before, enough, &expected, tally)?;
    let short = background(random, file.len() - 1);
    let needed = Written {
        refusal: 17,
        octets: file.len(),
    };
    write_proved(
        &contents.header,
        parts,
        short.clone(),
        needed,
        &short,
        tally,
    )
}

/// Lets the proved writer write into `output`, and compares its answer and all octets there.
fn write_proved(
    header: &Header,
    [filter, private, records]: [&[u8]; 3],
    mut output: Vec<u8>,
    expected: Written,
    expected_output: &[u8],
    tally: &mut Tally,
) -> Result<(), String> {
    let written = proved::write(header, filter, private, records, &mut output);
    same("write: answer", expected, written)?;
    *tally.entry(written.refusal).or_default() += 1;
    let differs = |at: &usize| output[*at] != expected_output[*at];
    match (0..output.len()).find(differs) {
        None => Ok(()),
        Some(at) => same("write: output", (at, expected_output[at]), (at, output[at])),
    }
}

/// Both readers and both writers where a day is the only fault, if it is one, in either timestamp.
fn compare_dates(random: &mut Random, counts: &mut Counts) -> Result<(), Difference> {
    for (index, place) in dates::PLACES.iter().enumerate() {
        let mut tally = Tally::new();
        for _ in 0..DATE_ROUNDS {
            for Dated { draft, answer } in dates::dated(random, place) {
                let file = draft.lay().octets;
                compare_file(random, &file, counts)
                    .and_then(|read| same("reader against plan", answer, read))
                    .map_err(|what| {
                        let what = format!("{}: {what}", place.name);
                        Difference {
                            what,
                            octets: file.clone(),
                        }
                    })?;
                let given = Input::of(draft, file.len(), answer);
                compare_writer(random, &given, &mut counts.writer)
                    .map_err(|what| writer_difference(what, &given))?;
                *tally.entry(answer).or_default() += 1;
            }
        }
        counts.add_family(place.name, &tally);
        counts.dates[index] = tally;
    }
    Ok(())
}

/// What an output holds before a writer comes.
fn background(random: &mut Random, length: usize) -> Vec<u8> {
    vec![random.octet(); length]
}

/// Both writers on every combination of faults.
fn compare_writers(random: &mut Random, counts: &mut Counts) -> Result<(), Difference> {
    for round in 0..WRITER_ROUNDS {
        for combination in 0..inputs::COMBINATIONS {
            if inputs::has(combination, 8) && round >= LONG_WRITER_ROUNDS {
                continue;
            }
            let given = inputs::input(random, combination);
            let stated = (given.header.statement, given.private.is_empty());
            let contradiction = match stated {
                (NONE, false) => Some(0),
                (EMPTY, false) => Some(1),
                (OCTETS, true) => Some(2),
                (NONE | EMPTY | OCTETS, _) => None,
                _ => Some(3),
            };
            if let Some(kind) = contradiction {
                counts.contradicted[kind] += 1;
            }
            compare_writer(random, &given, &mut counts.writer)
                .map_err(|what| writer_difference(what, &given))?;
        }
    }
    Ok(())
}

/// Both writers about the length of the longest file, where 8 begins; each once.
fn compare_limits(random: &mut Random, counts: &mut Counts) -> Result<(), Difference> {
    for (limit, times) in LIMITS.iter().zip(&mut counts.limits) {
        let given = limit.input(random);
        compare_writer(random, &given, &mut counts.writer)
            .map_err(|what| writer_difference(format!("{}: {what}", limit.name), &given))?;
        *times += 1;
    }
    Ok(())
}

fn compare_writer(random: &mut Random, given: &Input, tally: &mut Tally) -> Result<(), String> {
    let parts = [&given.filter[..], &given.private, &given.records];
    let before = background(random, given.room);
    let mut output = before.clone();
    let answer = second::write(&given.header, parts[0], parts[1], parts[2], &mut output);
    let (refusal, octets) = answer.map_or_else(|refused| refused, |octets| (0, octets));
    same("second writer against plan", given.answer, refusal)?;
    let expected = Written { refusal, octets };
    write_proved(&given.header, parts, before, expected, &output, tally)
}

/// A writer's input told in words, with its records in hexadecimal.
fn writer_difference(what: String, given: &Input) -> Difference {
    let what = format!(
        "writer: {what}\n{:?}\nfilter {}\nprivate {}\noutput of {} octets, records:",
        given.header,
        hexadecimal(&given.filter),
        hexadecimal(&given.private),
        given.room
    );
    Difference {
        what,
        octets: given.records.clone(),
    }
}

/// Loss counts of chosen and of random numbers, and octets that are nearly such.
fn compare_counts(random: &mut Random, counts: &mut Counts) -> Result<(), Difference> {
    const NUMBERS: [u32; 8] = [0, 1, 127, 128, 255, 256, 40_000, u32::MAX];
    for losses in NUMBERS {
        for unrouted in NUMBERS {
            compare_cuts(random, LossCounts { losses, unrouted }, counts)?;
        }
    }
    for _ in 0..RANDOM_COUNTS {
        let [losses, unrouted] = [random.word() as u32, random.word() as u32];
        compare_cuts(random, LossCounts { losses, unrouted }, counts)?;
    }
    Ok(())
}

/// These counts behind each first octet that may mislead and behind any, as they are, cut and grown.
fn compare_cuts(
    random: &mut Random,
    told: LossCounts,
    counts: &mut Counts,
) -> Result<(), Difference> {
    for kind in [0, 1, 2, 255, random.octet()] {
        let mut octets = told.octets().to_vec();
        octets[0] = kind;
        octets.extend(random.octets(3));
        for length in 0..=octets.len() {
            let private = &octets[..length];
            let planned = (kind == 1 && length == counts::OCTETS).then_some(told);
            same("second against plan", planned, LossCounts::read(private))
                .and_then(|()| compare_private(private, counts))
                .map_err(|what| Difference {
                    what,
                    octets: private.to_vec(),
                })?;
        }
    }
    Ok(())
}

/// What both sides read of loss counts in private octets.
fn compare_private(private: &[u8], counts: &mut Counts) -> Result<(), String> {
    let kind = match (private.len() == counts::OCTETS, private.first() == Some(&1)) {
        (true, true) => 0,
        (true, false) => 1,
        (false, true) => 2,
        (false, false) => 3,
    };
    counts.private[kind] += 1;
    let expected = LossCounts::read(private).into();
    same("loss counts", expected, proved::counts(private))
}

/// Both ends of every day at each of `DAY_OFFSETS`: the date is that of a walk from day to day, too.
fn compare_day_ends(counts: &mut Counts) -> Result<(), String> {
    let walked = dates::walked();
    for midnight in (0..=LAST_MINUTE).step_by(DAY as usize) {
        for minutes in [midnight, midnight + DAY - 1] {
            for (offset, times) in DAY_OFFSETS.iter().zip(&mut counts.day_ends) {
                let bias = (offset + WIDEST_OFFSET) as u32;
                let [first, second, ..] = compare_stamp(minutes, bias, &mut counts.stamp)?.octets;
                let date = (first >> 4, (first & 15) << 1 | second >> 7);
                // The walk begins a day before the first minute.
                let local = (i64::from(minutes + DAY) + offset) / i64::from(DAY);
                let (month, day) = walked[local as usize];
                let expected = (month as u8, day as u8);
                if date != expected {
                    let what = format!("date of minute {minutes}, offset {offset}");
                    return Err(format!("{what}: walked {expected:?}, proved {date:?}"));
                }
                *times += 1;
            }
        }
    }
    Ok(())
}

/// Timestamps: every offset at the ends of time, refused ones, and random ones.
fn compare_stamps(random: &mut Random, counts: &mut Counts) -> Result<(), String> {
    const LAST_BIAS: u32 = 2 * WIDEST_OFFSET as u32;
    let tally = &mut counts.stamp;
    let ends = [0, 1, LAST_MINUTE, LAST_MINUTE + 1, 1 << 31, u32::MAX];
    for minutes in ends {
        for bias in (0..=LAST_BIAS + 2).chain([1 << 31, u32::MAX]) {
            compare_stamp(minutes, bias, tally)?;
        }
    }
    for _ in 0..RANDOM_STAMPS {
        let minutes = random.between(0, LAST_MINUTE as usize) as u32;
        let bias = random.between(0, LAST_BIAS as usize) as u32;
        compare_stamp(minutes, bias, tally)?;
        if random.once_in(50) {
            compare_stamp(random.word() as u32, random.word() as u32, tally)?;
        }
    }
    Ok(())
}

/// The proved timestamp, which is the second's.
fn compare_stamp(minutes: u32, bias: u32, tally: &mut Tally) -> Result<Stamped, String> {
    let stamped = proved::stamp(minutes, bias);
    let expected = match second::timestamp(minutes, i64::from(bias) - WIDEST_OFFSET) {
        Ok(octets) => Stamped { refusal: 0, octets },
        Err(refusal) => Stamped {
            refusal,
            octets: [0; 4],
        },
    };
    *tally.entry(expected.refusal).or_default() += 1;
    if expected == stamped {
        return Ok(stamped);
    }
    let what = format!("timestamp of minute {minutes}, bias {bias}");
    same(&what, expected, stamped).map(|()| stamped)
}

/// Both readers and both writers of file names.
fn compare_names(random: &mut Random, counts: &mut Counts) -> Result<(), Difference> {
    for names::Case { line, .. } in names::cases(random) {
        let compared = match &line[..] {
            [b'N', b' ', name @ ..] => compare_name(name, &mut counts.name),
            [b'W', b' ', words @ ..] => match cdrname::writing(words) {
                Some(asked) => compare_name_writer(&asked, &mut counts.name_writer),
                None => Err("a line of no meaning".to_owned()),
            },
            _ => Err("a line of no meaning".to_owned()),
        };
        compared.map_err(|what| Difference {
            what: format!("{what}\n{}", line.escape_ascii()),
            octets: line,
        })?;
    }
    Ok(())
}

fn compare_name(name: &[u8], tally: &mut Tally) -> Result<(), String> {
    let expected = match name::read(name) {
        Err(refusal) => NameRead {
            refusal,
            ..NameRead::default()
        },
        Ok(read) => NameRead {
            refusal: 0,
            node: read.node.len(),
            private: read.private.map_or(0, str::len),
            fields: (&Fields::from(&read)).into(),
        },
    };
    *tally.entry(expected.refusal).or_default() += 1;
    same("name", expected, proved::name_read(name))
}

fn compare_name_writer(asked: &Writing, tally: &mut Tally) -> Result<(), String> {
    // No name reaches beyond this, so a longer output makes no difference.
    let mut expected_output = vec![0xA5; asked.room.min(LONGEST_NAME + 8)];
    let mut output = expected_output.clone();
    let answer = name::write(&asked.fields, &mut expected_output);
    let (refusal, octets) = answer.map_or_else(|refusal| (refusal, 0), |octets| (0, octets));
    *tally.entry(refusal).or_default() += 1;
    let written = proved::name_write(&asked.fields, &mut output);
    same("name writer: answer", Written { refusal, octets }, written)?;
    same("name writer: output", expected_output, output)
}
