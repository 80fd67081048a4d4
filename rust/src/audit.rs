//! A third look at what `cdrgate` printed: each closed file is read by the second reader, and held
//! against the accepted events alone; and at each Q the losses that a route's files told and those
//! pending must be all that the answers said. It has no rules of when a file closes, only of what is
//! in it.

#![forbid(unsafe_code)]

use crate::counts::LossCounts;
use crate::gate::{self, Line, Received};
use crate::manager::{indicator, NODE_OCTETS, ROUTE_OCTETS};
use crate::packet::{self, Delivery, MOST_RECORDS};
use crate::second::{self, Contents, EXTENDED};
use std::collections::BTreeMap;

/// How often each number came.
pub type Tally = BTreeMap<u32, usize>;

/// Losses in words, and the test of whether a file tells them.
type Telling = (&'static str, fn(&LossCounts) -> bool);

/// What some files of a run must tell.
pub const TOLD: [Telling; 5] = [
    ("known losses", |told| told.losses > 0),
    ("above 127", |told| told.losses > 127),
    ("unrouted records", |told| told.unrouted > 0),
    ("above 127", |told| told.unrouted > 127),
    ("both", |told| told.losses > 0 && told.unrouted > 0),
];

/// What comparing a filter with a key may come to; it costs nothing, its length, 1, its length, or less.
pub const COMPARISONS: [&str; 5] = [
    "longer than the key",
    "a prefix of it",
    "different in the first octet",
    "in the last",
    "between",
];

/// What may come of a packet.
pub const PACKETS: [&str; 5] = [
    "refused whole",
    "without records",
    "all accepted",
    "stopped half way",
    "64 records",
];

/// What all scripts of a run came to.
#[derive(Default)]
pub struct Counts {
    pub lines: usize,
    pub refusals: Tally,
    pub outcomes: Tally,
    pub reasons: Tally,
    /// The reasons of the files that TICK closed.
    pub tick_reasons: Tally,
    /// Filters that were compared with a key, by what that came to: each of `COMPARISONS`.
    pub comparisons: [usize; COMPARISONS.len()],
    pub records: usize,
    /// The refusals at which packets ended, 0 for none.
    pub packet_ends: Tally,
    /// Packets by what came of them: each of `PACKETS`.
    pub packets: [usize; PACKETS.len()],
    /// Closed files that told each of `TOLD`.
    pub told: [usize; TOLD.len()],
    /// Routes whose losses were balanced at a Q, and those of them with some told and some pending.
    pub balances: usize,
    pub full_balances: usize,
    /// The most files that one event closed.
    pub most_files: usize,
    /// Lines at which a run ended.
    pub ends: usize,
}

/// What is known of a route from the accepted events.
struct Account {
    filter: Vec<u8>,
    /// The sequence number of the file that is open or opens next.
    sequence: u32,
    /// Losses and unrouted records since its last file closed, and since the settings.
    pending: LossCounts,
    all: LossCounts,
    /// What its files told of them.
    told: LossCounts,
    /// The open file's records, one behind another.
    records: Vec<u8>,
    count: usize,
}

/// An answer's numbers.
struct Answer {
    refusal: u32,
    outcome: u32,
    route: usize,
    files: usize,
    octets: usize,
    compared: usize,
}

/// Looks through a script and all that was printed for it.
pub fn audit(script: &[u8], printed: &[u8], counts: &mut Counts) -> Result<(), String> {
    let mut accounts = Vec::new();
    let mut answers = gate::lines(printed);
    for (index, line) in gate::lines(script).enumerate() {
        counts.lines += 1;
        let Some(line) = gate::parse(line) else {
            return end(&mut answers, counts);
        };
        let more = look(&line, &mut accounts, &mut answers, counts)
            .map_err(|what| format!("line {}: {what}", index + 1))?;
        if !more {
            return Ok(());
        }
    }
    match answers.next() {
        Some([]) => Ok(()),
        _ => Err("more is printed than the script asks for".to_owned()),
    }
}

/// Looks at what one line made the program print; whether the run goes on.
fn look<'a>(
    line: &Line,
    accounts: &mut Vec<Account>,
    answers: &mut impl Iterator<Item = &'a [u8]>,
    counts: &mut Counts,
) -> Result<bool, String> {
    if matches!(line, Line::Comment | Line::Store(_) | Line::Window(_)) {
        return Ok(true);
    }
    let first = answers.next().ok_or("no answer")?;
    let (&letter, rest) = first.split_first().ok_or("an empty answer")?;
    match (letter, line) {
        (b'E', _) => {
            counts.ends += 1;
            Ok(false)
        }
        (b'S', Line::Settings(settings)) => {
            let [refusal, routes] = numbers(rest)?;
            *counts.refusals.entry(refusal).or_default() += 1;
            *accounts = open_accounts(settings, routes as usize);
            Ok(true)
        }
        (b'Q', Line::State) => {
            let [_, unrouted] = numbers(rest)?;
            if accounts.iter().any(|each| each.all.unrouted != unrouted) {
                return Err(format!("{unrouted} is not the number of unrouted records"));
            }
            for (route, account) in accounts.iter().enumerate() {
                let state = answers.next().and_then(|line| line.strip_prefix(b"q"));
                account.balance(route, state.ok_or("a route's state is missing")?, counts)?;
            }
            Ok(true)
        }
        (b'A', event) => {
            settle(event, &answer(rest)?, accounts, answers, counts)?;
            Ok(true)
        }
        (b'B', Line::Packet(octets)) => {
            let [refusal, accepted] = numbers(rest)?;
            look_at_packet(
                octets,
                refusal,
                accepted as usize,
                accounts,
                answers,
                counts,
            )?;
            Ok(true)
        }
        _ => Err("an answer of another line".to_owned()),
    }
}

/// The numbers behind an `A`.
fn answer(line: &[u8]) -> Result<Answer, String> {
    let [refusal, outcome, route, files, octets, compared] = numbers(line)?;
    let [route, files, octets, compared] =
        [route, files, octets, compared].map(|number| number as usize);
    Ok(Answer {
        refusal,
        outcome,
        route,
        files,
        octets,
        compared,
    })
}

/// Looks at a packet's records as at so many events: those that were accepted, and the one that was
/// refused behind them.
fn look_at_packet<'a>(
    octets: &[u8],
    refusal: u32,
    accepted: usize,
    accounts: &mut [Account],
    answers: &mut impl Iterator<Item = &'a [u8]>,
    counts: &mut Counts,
) -> Result<(), String> {
    *counts.packet_ends.entry(refusal).or_default() += 1;
    let records = packet::count(octets);
    if records.is_none() != (refusal == 11) {
        return Err(format!("{refusal} for a packet of {records:?} records"));
    }
    let records = records.unwrap_or(0);
    let tried = records.min(accepted + usize::from(refusal != 0));
    if refusal == 0 && accepted != records {
        return Err(format!("{accepted} of {records} records accepted"));
    }
    let kinds = [
        tried == 0 && refusal != 0,
        records == 0 && refusal == 0,
        records > 0 && refusal == 0,
        accepted > 0 && refusal != 0,
        accepted == MOST_RECORDS,
    ];
    for (count, is_kind) in counts.packets.iter_mut().zip(kinds) {
        *count += usize::from(is_kind);
    }
    let mut rest = octets;
    for index in 0..tried {
        let (delivery, behind) = packet::split_first(rest).ok_or("no such record")?;
        let line = answers.next().and_then(|line| line.strip_prefix(b"A"));
        let answer = answer(line.ok_or("a record's answer is missing")?)?;
        if answer.refusal != if index < accepted { 0 } else { refusal } {
            return Err(format!("record {index} refused with {}", answer.refusal));
        }
        settle(&event_of(&delivery), &answer, accounts, answers, counts)?;
        rest = behind;
    }
    Ok(())
}

/// A packet's record as the event that it is.
fn event_of(delivery: &Delivery) -> Line {
    let arrival = delivery.arrival;
    Line::Receive {
        time: delivery.time,
        record: Received {
            mark: arrival.mark,
            key: arrival.key.to_vec(),
            release: arrival.release,
            version: arrival.version,
            extension: arrival.extension,
            format: arrival.format,
            ts: arrival.ts,
            body: arrival.body.to_vec(),
        },
    }
}

fn end<'a>(
    answers: &mut impl Iterator<Item = &'a [u8]>,
    counts: &mut Counts,
) -> Result<(), String> {
    counts.ends += 1;
    match answers.next() {
        Some([b'E', ..]) => Ok(()),
        _ => Err("the run goes on behind a wrong line".to_owned()),
    }
}

/// Exactly so many numbers, each behind a space.
fn numbers<const N: usize>(line: &[u8]) -> Result<[u32; N], String> {
    let text = std::str::from_utf8(line).map_err(|error| error.to_string())?;
    let words = text.split(' ').skip(1).map(str::parse);
    let numbers: Vec<u32> = words
        .collect::<Result<_, _>>()
        .map_err(|error| format!("{text}: {error}"))?;
    numbers
        .try_into()
        .map_err(|_| format!("{text}: not {N} numbers"))
}

fn open_accounts(settings: &[u8], routes: usize) -> Vec<Account> {
    let settings = settings.get(NODE_OCTETS..).unwrap_or(&[]);
    let account = |route: &[u8]| Account {
        filter: route[2..][..usize::from(route[1])].to_vec(),
        sequence: u32::from_be_bytes([route[37], route[38], route[39], route[40]]),
        pending: LossCounts::default(),
        all: LossCounts::default(),
        told: LossCounts::default(),
        records: Vec::new(),
        count: 0,
    };
    let all = settings.chunks_exact(ROUTE_OCTETS).take(routes);
    all.map(account).collect()
}

/// Books an event and holds its files against the accounts.
fn settle<'a>(
    event: &Line,
    answer: &Answer,
    accounts: &mut [Account],
    answers: &mut impl Iterator<Item = &'a [u8]>,
    counts: &mut Counts,
) -> Result<(), String> {
    *counts.refusals.entry(answer.refusal).or_default() += 1;
    let compared = match event {
        Line::Receive { record, .. } if answer.refusal == 0 && record.mark != 2 => {
            compared_with(&record.key, accounts, counts)
        }
        _ => 0,
    };
    if compared != answer.compared {
        return Err(format!(
            "{compared} octets compared, not {}",
            answer.compared
        ));
    }
    if answer.refusal != 0 {
        return Ok(());
    }
    *counts.outcomes.entry(answer.outcome).or_default() += 1;
    counts.most_files = counts.most_files.max(answer.files);
    match answer.outcome {
        3 => accounts[answer.route].lose(),
        4 => accounts.iter_mut().for_each(Account::miss),
        _ => {}
    }
    let mut placed = match event {
        Line::Receive { record, .. } if answer.outcome == 2 => Some(record),
        _ => None,
    };
    let mut octets = 0;
    for _ in 0..answer.files {
        let file = file(answers.next())?;
        octets += file.len();
        let reason = settle_file(&file, &mut placed, accounts, counts)?;
        is_reason_of(event, reason)?;
        if answer.outcome == 6 {
            *counts.tick_reasons.entry(reason.into()).or_default() += 1;
        }
    }
    if let Some(record) = placed {
        accounts[answer.route].book(record);
    }
    match octets == answer.octets {
        true => Ok(()),
        false => Err(format!("{octets} octets of files, not {}", answer.octets)),
    }
}

/// How many octets of the filters a key is compared with, one filter after another and octet by octet.
fn compared_with(key: &[u8], accounts: &[Account], counts: &mut Counts) -> usize {
    let mut compared = 0;
    for Account { filter, .. } in accounts {
        let (kind, cost) = if filter.len() > key.len() {
            (0, 0)
        } else {
            match (0..filter.len()).find(|&at| filter[at] != key[at]) {
                None => (1, filter.len()),
                Some(0) => (2, 1),
                Some(at) if at + 1 == filter.len() => (3, at + 1),
                Some(at) => (4, at + 1),
            }
        };
        counts.comparisons[kind] += 1;
        compared += cost;
    }
    compared
}

/// Holds a closed file against its route's account, which starts anew; the closure reason. A file
/// closed with 3 holds the record that closed it, which is then no more `placed` elsewhere.
fn settle_file(
    file: &[u8],
    placed: &mut Option<&Received>,
    accounts: &mut [Account],
    counts: &mut Counts,
) -> Result<u8, String> {
    let contents = second::read(file).map_err(|refusal| format!("file refused: {refusal}"))?;
    let reason = contents.header.reason;
    *counts.reasons.entry(u32::from(reason)).or_default() += 1;
    counts.records += contents.count;
    // Filters are all different, so a file's tells its route.
    let account = accounts
        .iter_mut()
        .find(|account| account.filter == file[contents.filter.clone()])
        .ok_or("a file of no route")?;
    if reason == 3 {
        placed
            .take()
            .into_iter()
            .for_each(|record| account.book(record));
    }
    account.hold_against(file, &contents)?;
    let told = LossCounts::read(&file[contents.private]).ok_or("a file tells no losses")?;
    account.hold_losses_against(&told)?;
    for (count, (_, tells)) in counts.told.iter_mut().zip(TOLD) {
        *count += usize::from(tells(&told));
    }
    account.start_anew(told);
    Ok(reason)
}

/// The octets of a line `F octets`.
fn file(line: Option<&[u8]>) -> Result<Vec<u8>, String> {
    let digits = line.and_then(|line| line.strip_prefix(b"F "));
    let digits = digits.ok_or("a closed file is not printed")?;
    gate::octets(digits).ok_or("a file not in hexadecimal".to_owned())
}

fn is_reason_of(event: &Line, reason: u8) -> Result<(), String> {
    let is_right = match event {
        Line::Close { reason: given, .. } => u32::from(reason) == *given,
        Line::Tick { .. } => matches!(reason, 0 | 2),
        Line::Receive { .. } => matches!(reason, 1 | 3 | 5),
        _ => false,
    };
    match is_right {
        true => Ok(()),
        false => Err(format!("closed with {reason}")),
    }
}

impl Account {
    /// Adds a record to the open file.
    fn book(&mut self, record: &Received) {
        let [upper, lower] = (record.body.len() as u16).to_be_bytes();
        let release = (record.release << 5 | record.version) as u8;
        let format = (record.format << 5 | record.ts) as u8;
        self.records.extend([upper, lower, release, format]);
        if record.release == u32::from(EXTENDED) {
            self.records.push(record.extension);
        }
        self.records.extend_from_slice(&record.body);
        self.count += 1;
    }

    /// Counts a record that the route lost.
    fn lose(&mut self) {
        self.pending.losses += 1;
        self.all.losses += 1;
    }

    /// Counts an unrouted record.
    fn miss(&mut self) {
        self.pending.unrouted += 1;
        self.all.unrouted += 1;
    }

    fn hold_against(&self, file: &[u8], contents: &Contents) -> Result<(), String> {
        let lost = indicator(self.pending.losses, self.pending.unrouted);
        let header = &contents.header;
        let found = (header.sequence, header.lost, contents.count);
        let booked = (self.sequence, lost, self.count);
        if found != booked {
            let what = "sequence number, lost indicator and count";
            return Err(format!("{what} are {found:?}, not {booked:?}"));
        }
        match file[contents.records.clone()] == self.records {
            true => Ok(()),
            false => Err("the records are not those placed".to_owned()),
        }
    }

    fn hold_losses_against(&self, told: &LossCounts) -> Result<(), String> {
        match *told == self.pending {
            true => Ok(()),
            false => Err(format!("the file tells {told:?}, not {:?}", self.pending)),
        }
    }

    /// What the files told and what the state has pending must be all that was lost here and all
    /// that was unrouted.
    fn balance(&self, route: usize, state: &[u8], counts: &mut Counts) -> Result<(), String> {
        let [number, _, _, losses, unrouted, _] = numbers(state)?;
        let pending = LossCounts { losses, unrouted };
        let sum = LossCounts {
            losses: self.told.losses + losses,
            unrouted: self.told.unrouted + unrouted,
        };
        if (number as usize, sum) != (route, self.all) {
            let Self { told, all, .. } = self;
            return Err(format!(
                "route {route}: {told:?} in files and {pending:?} pending, not {all:?} in all"
            ));
        }
        let none = LossCounts::default();
        counts.balances += 1;
        counts.full_balances += usize::from(self.told != none && pending != none);
        Ok(())
    }

    fn start_anew(&mut self, told: LossCounts) {
        self.sequence = self.sequence.wrapping_add(1);
        self.told.losses += told.losses;
        self.told.unrouted += told.unrouted;
        self.pending = LossCounts::default();
        self.records.clear();
        self.count = 0;
    }
}

#[cfg(test)]
mod tests {
    use super::*;

    /// A loss and two unrouted records, a file, and a loss behind it.
    const SCRIPT: &str = "S 0100000000000000000000FFFFC0000201059F020000000000000000000000000000\
        0000000000000000000080000000000000000000800000000007\n\
        R 0 1 - 0 0 0 0 0 -\nR 0 2 - 0 0 0 0 0 -\nR 0 2 - 0 0 0 0 0 -\nQ\n\
        O 0 0\nC 0 0 0\nR 0 1 - 0 0 0 0 0 -\nQ\n";

    fn audited(printed: &str) -> Result<Counts, String> {
        let mut counts = Counts::default();
        audit(SCRIPT.as_bytes(), printed.as_bytes(), &mut counts).map(|()| counts)
    }

    #[test]
    fn what_is_told_and_what_is_pending_is_balanced() {
        let printed = String::from_utf8(gate::replay(SCRIPT.as_bytes())).unwrap();
        let counts = audited(&printed).unwrap();
        assert_eq!(counts.told, [1, 0, 1, 0, 1]);
        assert_eq!((counts.balances, counts.full_balances), (2, 1));
        let wrong = [
            // The file without its counts, and with others.
            ("00000009010000000100000002", "00000009020000000100000002"),
            ("00000009010000000100000002", "00000009010000000200000002"),
            ("00000009010000000100000002", "00000009010000000100000001"),
            // The state before the file and behind it.
            ("q 0 0 0 1 2 7", "q 0 0 0 0 2 7"),
            ("q 0 0 0 1 2 7", "q 0 0 0 1 1 7"),
            ("q 0 0 0 1 0 8", "q 0 0 0 2 0 8"),
            ("q 0 0 0 1 0 8", "q 0 0 0 1 2 8"),
            ("Q 0 2", "Q 0 3"),
        ];
        for (right, other) in wrong {
            let changed = printed.replace(right, other);
            assert_ne!(changed, printed, "{right}");
            assert!(audited(&changed).is_err(), "{other}");
        }
    }
}
