//! Compares the proved manager with the plain one on the words of forged states, in one process and
//! from a fixed seed: all four events on states beyond each bound of refusal 18, on their neighbours
//! within it, on states with full counters, on random states and on fresh ones, on random words and
//! on words of every wrong number; and packets on all these states. Answer, words, store and output
//! must be the same. Prints how often each condition, full counter, kind of words, refusal, outcome
//! and end of a packet came, or the first difference and the call on which it did.

use leveehum::bounds;
use leveehum::faults::FAULTS;
use leveehum::forge;
use leveehum::full::FULL;
use leveehum::manager::{
    Manager, LONGEST_FILTER, MOST_ROUTES, MOST_SETS, NODE_OCTETS, ROUTE_OCTETS,
};
use leveehum::packet_trials::{PacketAfter, PacketTrial};
use leveehum::proved;
use leveehum::random::Random;
use leveehum::settings::set_time;
use leveehum::states::{Answer, Route, State};
use leveehum::trials::{self, After, Event, Trial};
use leveehum::words::{Words, WORDS};
use std::collections::BTreeMap;
use std::fmt::{Debug, UpperHex};
use std::process::ExitCode;
use std::time::Instant;

const SEED: u64 = 0x3229_7000_2026_0005;
/// Rounds over all conditions and over all full counters, states of each random kind, and rounds over
/// all numbers of words.
const ROUNDS: usize = 700;
const FULL_ROUNDS: usize = 400;
const RANDOM_STATES: usize = 20_000;
const NUMBER_ROUNDS: usize = 40;
/// How often in such a round there is one word too many.
const ONE_MORE: usize = 20;
/// The fewest calls that a run must have compared.
const LEAST_CALLS: usize = 200_000;
/// Octets of a store or an output that are printed with a difference.
const SHOWN: usize = 4_096;

/// Where a file has its closure reason.
const REASON: usize = 26;
const CLOSED_AT_ONCE: &str = "RECEIVE opened a file and closed it";
const MOST_SET_TIMES: &str = "settings accepted with 192 set times";

/// The counters of refusal 19, by which of them refused.
const LOSSES: &str = "known losses";
const MANAGER: &str = "unrouted, the manager's alone";
const ROUTE: &str = "unrouted, a route's alone";
const BOTH: &str = "unrouted, the manager's and a route's";
const UNJUDGED: &str = "unrouted with an unconfigured route full";

/// What a record would come to on a state with full counters.
const UNROUTED_RECORD: &str = "unrouted";
const LOST_RECORD: &str = "lost";

/// The words of states within the bounds, and words of which each is any.
const RIGHT: &str = "right words";
const RANDOM: &str = "random words";

/// How often something came, by its name.
type Tally = BTreeMap<String, usize>;

/// All that a run counts.
#[derive(Default)]
struct Counts {
    calls: usize,
    /// Calls on states that break one condition alone, by its name.
    broken: Tally,
    /// Calls on states within the bounds: the neighbours of such, and those with the same fault
    /// where it is not judged.
    kept: Tally,
    /// Records on states with full counters, by these and by what the record would come to.
    full: Tally,
    /// Calls on forged words, by their kind.
    words: Tally,
    events: Tally,
    /// Packets by the refusal that ended them.
    packets: Tally,
    /// Calls on states within the bounds, and those of them that no list of events reaches.
    within: usize,
    unreachable: usize,
}

fn main() -> ExitCode {
    let start = Instant::now();
    let mut counts = Counts::default();
    if let Err(what) = run(&mut Random::new(SEED), &mut counts) {
        println!("DIFFERENCE after {} calls: {what}", counts.calls);
        return ExitCode::FAILURE;
    }
    let is_complete = counts.print();
    println!("{:.1} seconds", start.elapsed().as_secs_f64());
    if !is_complete {
        println!("FAILED: something never came, or there were too few calls");
        return ExitCode::FAILURE;
    }
    println!("no difference");
    ExitCode::SUCCESS
}

fn run(random: &mut Random, counts: &mut Counts) -> Result<(), String> {
    for _ in 0..ROUNDS {
        compare_faults(random, counts)?;
    }
    for _ in 0..FULL_ROUNDS {
        compare_full(random, counts)?;
    }
    for index in 0..RANDOM_STATES {
        let routes = forge::count(random);
        let state = forge::right(random, routes);
        compare_planned(random, &state, &[], counts)?;
        let state = forge::changed(random);
        compare_all(random, &state, counts)?;
        if index % 4 == 0 {
            let state = forge::any(random);
            compare_all(random, &state, counts)?;
            compare_random_words(random, counts)?;
            compare_fresh(random, counts)?;
        }
    }
    for _ in 0..NUMBER_ROUNDS {
        compare_numbers(random, counts)?;
    }
    Ok(())
}

/// Each condition broken alone, its neighbour, and the same fault where it is not judged.
fn compare_faults(random: &mut Random, counts: &mut Counts) -> Result<(), String> {
    for fault in &FAULTS {
        let [past, within] = fault.pair(random);
        let calls = compare_planned(random, &past, &[fault.name], counts)?;
        add(&mut counts.broken, fault.name, calls);
        for state in fault.unjudged(random).iter().chain([&within]) {
            let calls = compare_planned(random, state, &[], counts)?;
            add(&mut counts.kept, fault.name, calls);
        }
    }
    Ok(())
}

/// An unrouted record and a lost one on states with full counters, answered as planned, and all four
/// events on these states.
fn compare_full(random: &mut Random, counts: &mut Counts) -> Result<(), String> {
    for full in &FULL {
        let (state, at) = full.state(random);
        let unrouted = trials::unrouted(random, &state);
        let lost = trials::lost(random, &state.routes[at]);
        let records = [
            (UNROUTED_RECORD, unrouted, full.refuses_unrouted, 4),
            (LOST_RECORD, lost, full.refuses_lost, 3),
        ];
        for (kind, record, is_refused, outcome) in records {
            let planned = if is_refused { (19, 0) } else { (0, outcome) };
            let trial = Trial::receiving(random, &state, record);
            let answer = trial.expected().answer;
            if (answer.refusal, answer.outcome) != planned {
                let name = full.name;
                return Err(format!(
                    "full: {name}, {kind}: planned {planned:?}, plain {answer:?}\n{}",
                    shown(&trial)
                ));
            }
            compare_trials(&[trial], counts)?;
            add(&mut counts.full, &with_full(full.name, kind), 1);
        }
        compare_planned(random, &state, &[], counts)?;
    }
    Ok(())
}

fn compare_random_words(random: &mut Random, counts: &mut Counts) -> Result<(), String> {
    let state = State::from_words(&forge::any_words(random));
    let calls = compare_all(random, &state, counts)?;
    add(&mut counts.words, RANDOM, calls);
    Ok(())
}

/// Every wrong number of words, from none to one too many.
fn compare_numbers(random: &mut Random, counts: &mut Counts) -> Result<(), String> {
    for number in (0..WORDS).chain([WORDS + 1; ONE_MORE]) {
        let routes = forge::count(random);
        let right = forge::right(random, routes).words();
        let any = forge::any_words(random);
        for (kind, words) in [(RIGHT, right), (RANDOM, any)] {
            let calls = compare_number(random, &words, number, counts)?;
            add(&mut counts.words, &numbered(kind, number), calls);
        }
    }
    Ok(())
}

/// All four events on so many of these words, or on all of them and any others behind them. The
/// events are made for all of them, so that their number alone refuses those on right words.
fn compare_number(
    random: &mut Random,
    words: &Words,
    number: usize,
    counts: &mut Counts,
) -> Result<usize, String> {
    let state = State::from_words(words);
    let mut packet = PacketTrial::new(random, &state);
    packet.words.resize(number, random.word() as u32);
    compare_packet(&packet, counts)?;
    let mut trials = Trial::all(random, &state);
    for trial in &mut trials {
        trial.words.resize(number, random.word() as u32);
    }
    compare_trials(&trials, counts)
}

/// Both managers of the same settings, and all four events on the state that the proved one has.
fn compare_fresh(random: &mut Random, counts: &mut Counts) -> Result<(), String> {
    let routes = forge::count(random);
    let mut octets = forge::right(random, routes).settings();
    damage(random, &mut octets);
    let loaded = proved::load(&octets);
    let state = State::from_words(&loaded.words);
    compare_loaded(&octets, loaded.accepted())
        .and_then(|()| {
            let is_within = bounds::broken(&state).is_empty();
            same("within the bounds", &(loaded.refusal == 0), &is_within)
        })
        .map_err(|what| format!("{what}\nsettings {}", hexadecimal(&octets)))?;
    add(&mut counts.events, &loaded_with(loaded.refusal), 1);
    let sets = state.configured().iter().map(|route| route.sets.count);
    if sets.sum::<u32>() as usize == MOST_ROUTES * MOST_SETS {
        add(&mut counts.events, MOST_SET_TIMES, 1);
    }
    compare_all(random, &state, counts).map(drop)
}

/// The fresh manager's words, or the settings' refusal.
fn compare_loaded(settings: &[u8], loaded: Result<Words, u8>) -> Result<(), String> {
    let expected = Manager::load(settings).map(|manager| manager.state().words());
    match (expected, loaded) {
        (Ok(expected), Ok(words)) => same_items("words", &expected, &words),
        (expected, loaded) => same("settings", &expected.err(), &loaded.err()),
    }
}

/// Leaves settings as they are, changes or cuts them, makes two filters equal, or adds a set time.
fn damage(random: &mut Random, octets: &mut Vec<u8>) {
    let at = random.below(octets.len());
    match random.below(8) {
        0 => octets[at] = random.octet(),
        1 => octets[at] = octets[at].wrapping_add(random.pick(&[1, 255])),
        2 => octets.truncate(at),
        3 if octets.len() >= NODE_OCTETS + 2 * ROUTE_OCTETS => {
            let filter = NODE_OCTETS + 1..NODE_OCTETS + 2 + LONGEST_FILTER;
            octets.copy_within(filter, NODE_OCTETS + ROUTE_OCTETS + 1);
        }
        4 | 5 => {
            let any = random.below(1_500) as u16;
            let minute = random.pick(&[0, 1_439, 1_440, any]);
            octets.extend_from_slice(&set_time(random.below(9) as u8, minute));
        }
        _ => {}
    }
}

/// Tells two values apart.
fn same<T: PartialEq + Debug + ?Sized>(what: &str, plain: &T, proved: &T) -> Result<(), String> {
    if plain == proved {
        return Ok(());
    }
    Err(format!("{what}:\nplain  {plain:?}\nproved {proved:?}"))
}

/// All four events on a state that was made to break these conditions. The judgement of the bounds
/// may be as wrong as the proved one: then it is not as planned.
fn compare_planned(
    random: &mut Random,
    state: &State,
    planned: &[&str],
    counts: &mut Counts,
) -> Result<usize, String> {
    let broken = bounds::broken(state);
    if broken != planned {
        return Err(format!("planned {planned:?}, judged {broken:?}\n{state:?}"));
    }
    compare_all(random, state, counts)
}

/// All four events on a state; the number of calls.
fn compare_all(random: &mut Random, state: &State, counts: &mut Counts) -> Result<usize, String> {
    let is_within = bounds::broken(state).is_empty();
    if is_within && !Manager::from_state(state).is_within_bounds() {
        return Err(format!("the plain manager is beyond its bounds\n{state:?}"));
    }
    let packet = PacketTrial::new(random, state);
    compare_packet(&packet, counts)?;
    compare_trials(&Trial::all(random, state), counts)
}

/// Runs both managers on a packet.
fn compare_packet(trial: &PacketTrial, counts: &mut Counts) -> Result<(), String> {
    let expected = trial.expected();
    let mut after = PacketAfter {
        answers: expected.answers,
        words: trial.words.clone(),
        store: trial.store.clone(),
        output: trial.output.clone(),
    };
    after.answers = proved::take(
        &mut after.words,
        &mut after.store,
        &mut after.output,
        &trial.packet,
    );
    same("answers", &expected.answers, &after.answers)
        .and_then(|()| same_items("words", &expected.words, &after.words))
        .and_then(|()| same_items("store", &expected.store, &after.store))
        .and_then(|()| same_items("output", &expected.output, &after.output))
        .map_err(|what| {
            let (words, packet) = (&trial.words, hexadecimal(&trial.packet));
            format!("{what}\nwords {words:X?}\npacket {packet}")
        })?;
    let stands = if expected.answers.accepted > 0 {
        "behind others"
    } else {
        "at once"
    };
    let name = match expected.answers.refusal {
        0 => "a packet taken whole".to_owned(),
        refusal => format!("a packet ended with {refusal} {stands}"),
    };
    add(&mut counts.packets, &name, 1);
    Ok(())
}

/// Runs both managers on each trial; the number of calls.
fn compare_trials(trials: &[Trial], counts: &mut Counts) -> Result<usize, String> {
    for trial in trials {
        let expected = trial.expected();
        let after = run_proved(trial);
        let was_within = is_within(trial.state());
        let mut compared = compare(&expected, &after);
        if was_within && !is_within(after.state()) {
            compared = Err("an event led beyond the bounds".to_owned());
        }
        compared.map_err(|what| format!("{what}\n{}", shown(trial)))?;
        counts.add(trial, &expected, was_within);
    }
    Ok(trials.len())
}

fn is_within(state: Option<State>) -> bool {
    state.is_some_and(|state| bounds::broken(&state).is_empty())
}

fn run_proved(trial: &Trial) -> After {
    let mut after = After {
        answer: Answer::default(),
        words: trial.words.clone(),
        store: trial.store.clone(),
        output: trial.output.clone(),
    };
    let (words, time) = (&mut after.words, trial.time);
    let (store, output) = (&mut after.store, &mut after.output);
    after.answer = match &trial.event {
        Event::Open { route } => proved::open(words, store, output, time, *route),
        Event::Close { route, reason } => {
            proved::close(words, store, output, time, *route, *reason)
        }
        Event::Tick => proved::tick(words, store, output, time),
        Event::Receive(received) => {
            proved::receive(words, store, output, time, &received.arrival())
        }
    };
    after
}

fn compare(expected: &After, after: &After) -> Result<(), String> {
    same("answer", &expected.answer, &after.answer)?;
    same_items("words", &expected.words, &after.words)?;
    same_items("store", &expected.store, &after.store)?;
    same_items("output", &expected.output, &after.output)
}

/// The first word or octet that differs, since all of them are too many to read.
fn same_items<T: PartialEq + UpperHex>(
    what: &str,
    plain: &[T],
    proved: &[T],
) -> Result<(), String> {
    if plain == proved {
        return Ok(());
    }
    let differs = |at: &usize| plain[*at] != proved[*at];
    let at = (0..plain.len()).find(differs).unwrap_or_default();
    let [plain, proved] = [&plain[at], &proved[at]];
    Err(format!(
        "{what} at {at}:\nplain  {plain:X}\nproved {proved:X}"
    ))
}

/// A call in full but for the ends of a long store and output.
fn shown(trial: &Trial) -> String {
    let octets = |octets: &[u8]| {
        let first = hexadecimal(&octets[..octets.len().min(SHOWN)]);
        format!("{} octets {first}", octets.len())
    };
    format!(
        "{} words {:X?}\n{:?}\ntime {}, {:?}\nstore {}\noutput {}",
        trial.words.len(),
        trial.words,
        trial.state(),
        trial.time,
        trial.event,
        octets(&trial.store),
        octets(&trial.output)
    )
}

fn hexadecimal(octets: &[u8]) -> String {
    octets.iter().map(|octet| format!("{octet:02X}")).collect()
}

fn add(tally: &mut Tally, name: &str, times: usize) {
    *tally.entry(name.to_owned()).or_default() += times;
}

fn times(tally: &Tally, name: &str) -> usize {
    tally.get(name).copied().unwrap_or_default()
}

/// Prints how often each of these came; the same numbers.
fn print_tally(tally: &Tally, names: &[impl AsRef<str>]) -> Vec<usize> {
    let print = |name: &str| {
        let came = times(tally, name);
        println!("  {name:52} {came:6}");
        came
    };
    names.iter().map(|name| print(name.as_ref())).collect()
}

/// The kinds of forged words that must come at some call.
fn expected_words() -> Vec<String> {
    let mut names = vec![RANDOM.to_owned()];
    for kind in [RIGHT, RANDOM] {
        names.extend([WORDS - 1, WORDS + 1].map(|number| numbered(kind, number)));
    }
    names
}

fn numbered(kind: &str, number: usize) -> String {
    let what = if number < WORDS { "few" } else { "many" };
    format!("{kind}, too {what}")
}

/// Everything else that must come at some call.
fn expected_events() -> Vec<String> {
    let refusals = [4, 5, 6, 7, 14, 15, 16, 17, 18].map(refused);
    let full = [LOSSES, MANAGER, ROUTE, BOTH].map(refused_19);
    let outcomes = [1, 2, 3, 4, 5, 6].map(|outcome| format!("outcome {outcome}"));
    let rises = [LOSSES, "the manager's unrouted", "a route's unrouted"].map(risen);
    let told = ["known losses", "unrouted records"].map(told);
    let reasons = [1, 3, 5].map(|reason| closed_with("RECEIVE", reason));
    let ends = [0, 2].map(|reason| closed_with("TICK", reason));
    let counted = [&refusals[..], &full, &outcomes, &rises, &told];
    let mut names = [&counted.concat()[..], &reasons, &ends].concat();
    names.extend([UNJUDGED, CLOSED_AT_ONCE, MOST_SET_TIMES].map(str::to_owned));
    names.extend((0..=8).map(ticked));
    names.extend([0, 1, 2, 3, 22].map(loaded_with));
    names
}

/// Every end of a packet that must come.
fn expected_packets() -> Vec<String> {
    let at_once = [4, 5, 11, 16, 17, 18, 19].map(|refusal| (refusal, "at once"));
    let behind = [4, 5, 17, 19].map(|refusal| (refusal, "behind others"));
    let ends = at_once.into_iter().chain(behind);
    let names = ends.map(|(refusal, stands)| format!("a packet ended with {refusal} {stands}"));
    names.chain(["a packet taken whole".to_owned()]).collect()
}

fn refused(refusal: u8) -> String {
    format!("refused {refusal}")
}

fn refused_19(counter: &str) -> String {
    format!("refused 19 for {counter}")
}

fn risen(counter: &str) -> String {
    format!("{counter} rose to 4,294,967,295")
}

fn told(counter: &str) -> String {
    format!("CLOSE told 4,294,967,295 {counter}")
}

fn with_full(name: &str, kind: &str) -> String {
    format!("{name}, {kind}")
}

fn closed_with(event: &str, reason: u8) -> String {
    format!("{event} closed a file with {reason}")
}

fn ticked(files: u8) -> String {
    format!("TICK closed {files}")
}

fn loaded_with(refusal: u8) -> String {
    match refusal {
        0 => "settings accepted".to_owned(),
        _ => format!("settings refused {refusal}"),
    }
}

/// The counter that refused with 19: with the others at 0 it does so still.
fn full_counter(trial: &Trial, state: &State) -> &'static str {
    let is_refused = |state: State| {
        let other = Trial {
            words: state.words().to_vec(),
            ..trial.clone()
        };
        other.expected().answer.refusal == 19
    };
    let mut routes_0 = *state;
    for route in &mut routes_0.routes {
        route.unrouted = 0;
    }
    let manager_0 = State {
        unrouted: 0,
        ..*state
    };
    let both_0 = State {
        unrouted: 0,
        ..routes_0
    };
    if is_refused(both_0) {
        return LOSSES;
    }
    match [routes_0, manager_0].map(is_refused) {
        [true, true] => BOTH,
        [true, false] => MANAGER,
        [false, _] => ROUTE,
    }
}

/// What came with an unrouted record that was accepted.
fn unrouted(before: &State, behind: &State) -> Vec<String> {
    let is_full = |route: &Route| route.unrouted == u32::MAX;
    let unconfigured = &before.routes[before.configured().len()..];
    let came = [
        (risen("the manager's unrouted"), behind.unrouted == u32::MAX),
        (
            risen("a route's unrouted"),
            behind.configured().iter().any(is_full),
        ),
        (UNJUDGED.to_owned(), unconfigured.iter().any(is_full)),
    ];
    let came = came.into_iter().filter(|(_, came)| *came);
    came.map(|(name, _)| name).collect()
}

/// The full counters that a file of this route tells at its closing.
fn told_in_full(route: &Route) -> Vec<String> {
    let counters = [
        ("known losses", route.losses),
        ("unrouted records", route.unrouted),
    ];
    let full = counters.iter().filter(|(_, count)| *count == u32::MAX);
    full.map(|(name, _)| told(name)).collect()
}

/// What came at a call.
fn events(trial: &Trial, after: &After) -> Vec<String> {
    let Answer {
        refusal,
        outcome,
        route,
        files,
        ..
    } = after.answer;
    let (Some(before), Some(behind)) = (trial.state(), after.state()) else {
        return vec![refused(refusal)];
    };
    let mut names = match refusal {
        0 => vec![format!("outcome {outcome}")],
        19 => vec![refused_19(full_counter(trial, &before))],
        _ => vec![refused(refusal)],
    };
    let route = usize::from(route);
    let losses = behind.routes.get(route).map_or(0, |route| route.losses);
    let was_open = before.routes.get(route).is_some_and(|route| route.open);
    match outcome {
        2 if files == 1 && !was_open => names.push(CLOSED_AT_ONCE.to_owned()),
        2 if files == 1 => names.push(closed_with("RECEIVE", after.output[REASON])),
        3 if losses == u32::MAX => names.push(risen(LOSSES)),
        4 => names.extend(unrouted(&before, &behind)),
        5 => names.extend(told_in_full(&before.routes[route])),
        6 => {
            names.push(ticked(files));
            if files > 0 {
                names.push(closed_with("TICK", after.output[REASON]));
            }
        }
        _ => {}
    }
    names
}

impl Counts {
    fn add(&mut self, trial: &Trial, after: &After, is_within: bool) {
        self.calls += 1;
        self.within += usize::from(is_within);
        self.unreachable += usize::from(is_within && trial.is_unreachable());
        for name in events(trial, after) {
            add(&mut self.events, &name, 1);
        }
    }

    /// Prints all counts; whether everything came that should.
    fn print(&self) -> bool {
        let mut all = vec![self.unreachable];
        println!("calls on states that break a condition alone, and on such as keep it:");
        for name in bounds::conditions() {
            let [broken, kept] = [&self.broken, &self.kept].map(|tally| times(tally, name));
            println!("  {name:52} {broken:6} {kept:6}");
            all.extend([broken, kept]);
        }
        println!("unrouted and lost records on states with counters at 4,294,967,295, by these:");
        for full in &FULL {
            let kinds = [
                (UNROUTED_RECORD, full.refuses_unrouted),
                (LOST_RECORD, full.refuses_lost),
            ];
            for (kind, is_refused) in kinds {
                let name = with_full(full.name, kind);
                let came = times(&self.full, &name);
                let answer = if is_refused { "refused 19" } else { "accepted" };
                println!("  {name:52} {came:6} {answer}");
                all.push(came);
            }
        }
        println!("calls on forged words:");
        all.extend(print_tally(&self.words, &expected_words()));
        println!("what came at all calls:");
        all.extend(print_tally(&self.events, &expected_events()));
        all.extend(print_tally(&self.packets, &expected_packets()));
        let Self {
            calls,
            within,
            unreachable,
            ..
        } = self;
        println!("{calls} calls, {within} within the bounds, {unreachable} of those on states that no events reach");
        !all.contains(&0) && *calls >= LEAST_CALLS
    }
}
