//! Times the events of the proved manager beside the plain one on the same calls in the same run,
//! and prints their ratios and events per second: RECEIVE, packets of 64 records, OPEN and CLOSE in
//! turns, and TICK with nothing due. Before that both must answer and write the same. The plain
//! manager is timed twice: as it is, owning its state, and *judged*, asking at each call whether its
//! state is within the bounds of refusal 18, as a manager must that is lent one.

use self::Work::{OpenAndClose, Packets, Receive, Tick};
use leveehum::fields::Release;
use leveehum::manager::{self, Arrival, Manager, Taken};
use leveehum::packet::{self, Delivery, MOST_RECORDS};
use leveehum::proved;
use leveehum::random::Random;
use leveehum::settings::{self, Node, Route};
use leveehum::states::{Answer, Answers};
use leveehum::timing::{best_of_both, RUNS};
use leveehum::words::Words;
use std::hint::black_box;
use std::process::ExitCode;

/// The size limit of each route.
const LIMIT: usize = 131_072;
/// Events in one run: more than the records of eight files of that size, so that each run has its
/// closings, and of full packets.
const EVENTS: usize = 10_112;
/// Events on which both are compared: enough that files of every case close.
const COMPARED: usize = 102_400;
const BODY: usize = 100;
const TIME: u32 = 8_547_030;
/// The open-time limit of files that TICK finds open and not due.
const AGE: u32 = 60;
/// A closure by the system around.
const REASON: u32 = 4;

/// The events of a case.
#[derive(Clone, Copy, PartialEq, Eq)]
enum Work {
    /// Of bodies of `BODY` octets.
    Receive,
    /// The same records in full packets; an event is a record.
    Packets,
    /// An empty file opens and closes on one route after another.
    OpenAndClose,
    /// Each route has an open file with one record.
    Tick,
}

struct Case {
    name: &'static str,
    work: Work,
    routes: usize,
    /// Octets of each filter.
    filter: usize,
    /// The most records of a file; 0 is no limit.
    most: u32,
}

#[rustfmt::skip]
const CASES: [Case; 12] = [
    Case { name: "RECEIVE, one route, files of 128 KiB", work: Receive, routes: 1, filter: 0, most: 0 },
    Case { name: "RECEIVE, eight routes, files of 128 KiB", work: Receive, routes: 8, filter: 20, most: 0 },
    Case { name: "RECEIVE, one route, files of ten records", work: Receive, routes: 1, filter: 0, most: 10 },
    Case { name: "RECEIVE, eight routes, files of ten records", work: Receive, routes: 8, filter: 20, most: 10 },
    Case { name: "packets, one route, files of 128 KiB", work: Packets, routes: 1, filter: 0, most: 0 },
    Case { name: "packets, eight routes, files of 128 KiB", work: Packets, routes: 8, filter: 20, most: 0 },
    Case { name: "packets, one route, files of ten records", work: Packets, routes: 1, filter: 0, most: 10 },
    Case { name: "packets, eight routes, files of ten records", work: Packets, routes: 8, filter: 20, most: 10 },
    Case { name: "OPEN and CLOSE in turns, one route", work: OpenAndClose, routes: 1, filter: 0, most: 0 },
    Case { name: "OPEN and CLOSE in turns, eight routes", work: OpenAndClose, routes: 8, filter: 20, most: 0 },
    Case { name: "TICK with nothing due, one route", work: Tick, routes: 1, filter: 0, most: 0 },
    Case { name: "TICK with nothing due, eight routes", work: Tick, routes: 8, filter: 20, most: 0 },
];

fn main() -> ExitCode {
    println!("Nanoseconds an event, best of {RUNS} interleaved runs;");
    println!("RECEIVE of {BODY}-octet bodies, and 20-octet filters with eight routes");
    println!(
        "{:48} {:>9} {:>9} {:>6} {:>9} {:>6} {:>14}",
        "case", "proved", "plain", "ratio", "judged", "ratio", "proved /s"
    );
    for case in &CASES {
        if let Err(what) = run(case) {
            println!("DIFFERENCE: {}: {what}", case.name);
            return ExitCode::FAILURE;
        }
    }
    ExitCode::SUCCESS
}

/// A manager, and the store and output that it is lent.
struct Desk<M> {
    manager: M,
    store: Vec<u8>,
    output: Vec<u8>,
}

impl<M> Desk<M> {
    fn new(manager: M, case: &Case) -> Self {
        Self {
            manager,
            store: vec![0; case.routes * LIMIT],
            // A packet may close a file of every route.
            output: vec![0; case.routes * LIMIT],
        }
    }
}

/// The four events and packets, all at one time.
trait Events {
    type Said;
    type Taken;
    fn open(&mut self, route: u32) -> Self::Said;
    fn close(&mut self, route: u32) -> Self::Said;
    fn tick(&mut self) -> Self::Said;
    fn receive(&mut self, arrival: &Arrival) -> Self::Said;
    fn take(&mut self, packet: &[u8]) -> Self::Taken;
}

impl Events for Desk<Words> {
    type Said = Answer;
    type Taken = Answers;

    fn open(&mut self, route: u32) -> Answer {
        let (words, store, output) = (&mut self.manager, &mut self.store, &mut self.output);
        proved::open(words, store, output, TIME, route)
    }

    fn close(&mut self, route: u32) -> Answer {
        let (words, store, output) = (&mut self.manager, &mut self.store, &mut self.output);
        proved::close(words, store, output, TIME, route, REASON)
    }

    fn tick(&mut self) -> Answer {
        let (words, store, output) = (&mut self.manager, &mut self.store, &mut self.output);
        proved::tick(words, store, output, TIME)
    }

    fn receive(&mut self, arrival: &Arrival) -> Answer {
        let (words, store, output) = (&mut self.manager, &mut self.store, &mut self.output);
        proved::receive(words, store, output, TIME, arrival)
    }

    fn take(&mut self, packet: &[u8]) -> Answers {
        let (words, store, output) = (&mut self.manager, &mut self.store, &mut self.output);
        proved::take(words, store, output, packet)
    }
}

impl Events for Desk<Manager> {
    type Said = manager::Answer;
    type Taken = Taken;

    fn open(&mut self, route: u32) -> manager::Answer {
        self.manager.open(&self.store, TIME, route)
    }

    fn close(&mut self, route: u32) -> manager::Answer {
        let (store, output) = (&self.store, &mut self.output);
        self.manager.close(store, output, TIME, route, REASON)
    }

    fn tick(&mut self) -> manager::Answer {
        self.manager.tick(&self.store, &mut self.output, TIME)
    }

    fn receive(&mut self, arrival: &Arrival) -> manager::Answer {
        let (store, output) = (&mut self.store, &mut self.output);
        self.manager.receive(store, output, TIME, arrival)
    }

    fn take(&mut self, packet: &[u8]) -> Taken {
        let (store, output) = (&mut self.store, &mut self.output);
        self.manager.take(store, output, packet)
    }
}

/// The plain manager, judged.
struct Judged<'a>(&'a mut Desk<Manager>);

impl Judged<'_> {
    /// The desk, if its manager's state is within the bounds.
    fn desk(&mut self) -> Result<&mut Desk<Manager>, (u8, usize)> {
        match black_box(&self.0.manager).is_within_bounds() {
            true => Ok(self.0),
            false => Err((18, 0)),
        }
    }
}

impl Events for Judged<'_> {
    type Said = manager::Answer;
    type Taken = Result<Taken, (u8, usize)>;

    fn open(&mut self, route: u32) -> manager::Answer {
        self.desk()?.open(route)
    }

    fn close(&mut self, route: u32) -> manager::Answer {
        self.desk()?.close(route)
    }

    fn tick(&mut self) -> manager::Answer {
        self.desk()?.tick()
    }

    fn receive(&mut self, arrival: &Arrival) -> manager::Answer {
        self.desk()?.receive(arrival)
    }

    fn take(&mut self, packet: &[u8]) -> Result<Taken, (u8, usize)> {
        Ok(self.desk()?.take(packet))
    }
}

/// Both managers: their answers and the files that they close must be the same.
struct Both<'a> {
    proved: &'a mut Desk<Words>,
    plain: &'a mut Desk<Manager>,
    events: usize,
    difference: Option<String>,
}

impl Both<'_> {
    fn compare(&mut self, answer: Answer, expected: manager::Answer) {
        let (index, expected) = (self.events, Answer::from(expected));
        self.events += 1;
        let what = if answer != expected {
            format!("plain {expected:?}, proved {answer:?}")
        } else if self.proved.output[..answer.octets] != self.plain.output[..answer.octets] {
            "the closed files differ".to_owned()
        } else if answer.refusal != 0 {
            format!("both refused with {}", answer.refusal)
        } else {
            return;
        };
        self.difference
            .get_or_insert(format!("event {index}: {what}"));
    }

    /// The first difference, or one in what all events left.
    fn compared(self) -> Result<(), String> {
        let (proved, plain) = (self.proved, self.plain);
        if let Some(what) = self.difference {
            return Err(what);
        }
        if proved.manager != plain.manager.state().words() {
            return Err("the words differ".to_owned());
        }
        match (&proved.store, &proved.output) == (&plain.store, &plain.output) {
            true => Ok(()),
            false => Err("the stores or the outputs differ".to_owned()),
        }
    }
}

impl Events for Both<'_> {
    type Said = ();
    type Taken = ();

    fn open(&mut self, route: u32) {
        let answer = self.proved.open(route);
        let expected = self.plain.open(route);
        self.compare(answer, expected);
    }

    fn close(&mut self, route: u32) {
        let answer = self.proved.close(route);
        let expected = self.plain.close(route);
        self.compare(answer, expected);
    }

    fn tick(&mut self) {
        let answer = self.proved.tick();
        let expected = self.plain.tick();
        self.compare(answer, expected);
    }

    fn receive(&mut self, arrival: &Arrival) {
        let answer = self.proved.receive(arrival);
        let expected = self.plain.receive(arrival);
        self.compare(answer, expected);
    }

    fn take(&mut self, packet: &[u8]) {
        let (taken, plain) = (self.proved.take(packet), self.plain.take(packet));
        let expected = Answers::from(&plain);
        let (index, octets) = (
            self.events,
            taken.answers.iter().map(|answer| answer.octets).sum(),
        );
        self.events += plain.accepted;
        let (proved, plain): (&[u8], &[u8]) = (&self.proved.output, &self.plain.output);
        let what = match taken == expected && taken.refusal == 0 {
            true if proved.get(..octets) == plain.get(..octets) => return,
            true => "the closed files differ".to_owned(),
            false => format!("plain {expected:?}, proved {taken:?}"),
        };
        self.difference
            .get_or_insert(format!("event {index}: {what}"));
    }
}

fn run(case: &Case) -> Result<(), String> {
    let filters = filters(case);
    let octets = octets(case, &filters);
    let refused = |refusal: u8| format!("settings refused with {refusal}");
    let fresh = proved::load(&octets).accepted();
    let mut proved = Desk::new(fresh.map_err(refused)?, case);
    let mut plain = Desk::new(Manager::load(&octets).map_err(refused)?, case);
    let body = Random::new(1).octets(BODY);
    let arrivals: Vec<Arrival> = filters.iter().map(|key| arrival(key, &body)).collect();
    compare(&mut proved, &mut plain, case.work, &arrivals)?;
    let plain_pair = best_of_both(
        || work_on(&mut proved, case.work, &arrivals, EVENTS),
        || work_on(&mut plain, case.work, &arrivals, EVENTS),
    );
    let judged_pair = best_of_both(
        || work_on(&mut proved, case.work, &arrivals, EVENTS),
        || work_on(&mut Judged(&mut plain), case.work, &arrivals, EVENTS),
    );
    print_case(case.name, plain_pair, judged_pair);
    Ok(())
}

/// A full packet of these records in turn.
fn full_packet(arrivals: &[Arrival]) -> Vec<u8> {
    let mut octets = Vec::new();
    for &arrival in arrivals.iter().cycle().take(MOST_RECORDS) {
        packet::lay(
            &mut octets,
            &Delivery {
                time: TIME,
                arrival,
            },
        );
    }
    octets
}

/// About so many events of a case, on its routes in turn.
fn work_on(desk: &mut impl Events, work: Work, arrivals: &[Arrival], events: usize) {
    match work {
        Receive => {
            for arrival in arrivals.iter().cycle().take(events) {
                black_box(desk.receive(black_box(arrival)));
            }
        }
        Packets => {
            let packet = full_packet(arrivals);
            for _ in 0..events / MOST_RECORDS {
                black_box(desk.take(black_box(&packet)));
            }
        }
        OpenAndClose => {
            for route in (0..arrivals.len() as u32).cycle().take(events / 2) {
                black_box(desk.open(black_box(route)));
                black_box(desk.close(black_box(route)));
            }
        }
        Tick => {
            for _ in 0..events {
                black_box(desk.tick());
            }
        }
    }
}

/// Filters that differ in their last octet only.
fn filters(case: &Case) -> Vec<Vec<u8>> {
    let filter = |index: usize| {
        let mut filter = vec![0xA5; case.filter];
        filter
            .iter_mut()
            .rev()
            .take(1)
            .for_each(|last| *last = index as u8);
        filter
    };
    (0..case.routes).map(filter).collect()
}

fn octets(case: &Case, filters: &[Vec<u8>]) -> Vec<u8> {
    let route = |filter: &Vec<u8>| Route {
        filter: filter.clone(),
        limit: LIMIT as u32,
        age: if case.work == Tick { AGE } else { 0 },
        most: case.most,
        flag: 0,
        release: Release::default(),
        first: 1,
        minutes: Vec::new(),
    };
    let routes: Vec<Route> = filters.iter().map(route).collect();
    let node = Node {
        address: [1; 16],
        bias: 1_439 + 120,
    };
    settings::lay(node, &routes)
}

fn arrival<'a>(key: &'a [u8], body: &'a [u8]) -> Arrival<'a> {
    Arrival {
        mark: 0,
        key,
        release: 4,
        version: 3,
        extension: 0,
        format: 1,
        ts: 15,
        body,
    }
}

/// Lets both do the same work: answers, closed files, words, stores and outputs must be the same.
fn compare(
    proved: &mut Desk<Words>,
    plain: &mut Desk<Manager>,
    work: Work,
    arrivals: &[Arrival],
) -> Result<(), String> {
    let mut both = Both {
        proved,
        plain,
        events: 0,
        difference: None,
    };
    if work == Tick {
        // Files that TICK finds open.
        work_on(&mut both, Receive, arrivals, arrivals.len());
    }
    work_on(&mut both, work, arrivals, COMPARED);
    both.compared()
}

fn print_case(name: &str, plain_pair: [f64; 2], judged_pair: [f64; 2]) {
    let [proved, plain] = plain_pair.map(|run| run / EVENTS as f64);
    let [beside, judged] = judged_pair.map(|run| run / EVENTS as f64);
    println!(
        "{name:48} {proved:9.1} {plain:9.1} {:6.2} {judged:9.1} {:6.2} {:14.0}",
        proved / plain,
        beside / judged,
        1e9 / proved
    );
}
