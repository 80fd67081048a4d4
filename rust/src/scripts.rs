//! The random scripts on which the proved `cdrgate` and the plain manager are compared. A script
//! is made along the gate's own state, so that bodies and outputs come out at the limits.

#![forbid(unsafe_code)]

use crate::counts;
use crate::draft::release;
use crate::fields::Release;
use crate::gate::{Gate, Received, LONGEST_LINE, LONGEST_WORD, MOST_OCTETS};
use crate::manager::{
    RouteState, DAY, LONGEST_FILTER, MOST_ROUTES, MOST_SETS, NODE_OCTETS, ROUTE_OCTETS, SET_OCTETS,
};
use crate::packet::{self, Delivery, MOST_RECORDS};
use crate::random::Random;
use crate::second::{FIXED, LAST_MINUTE, LONGEST_FILE, WIDEST_OFFSET};
use crate::settings::{self, set_time, Node, Route};
use std::fmt::{Arguments, Write};

/// A script in the making.
struct Maker<'a> {
    random: &'a mut Random,
    text: String,
    lines: usize,
    /// Where the script stands; what it prints is of no matter here.
    gate: Gate,
    routes: Vec<Route>,
    /// The UTC offset plus 1,439.
    bias: u16,
    clock: u32,
    /// The releases and the format that most records have.
    releases: [Release; 3],
    format: u32,
    /// Whether the output lent may be too short.
    is_narrow: bool,
}

/// A script of 20 to 200 lines, and more where many records are lost; each begins with settings, and
/// none ends the run.
pub fn right(random: &mut Random) -> Vec<u8> {
    let lines = random.between(20, 200);
    let mut maker = Maker::new(random);
    while maker.lines < lines {
        maker.chapter(lines - maker.lines);
    }
    maker.text.into_bytes()
}

/// How many kinds of wrong ends `wrong` knows.
pub const WRONG_ENDS: usize = WRONG_LINES.len() + 9;

/// Lines that have no meaning wherever they stand.
#[rustfmt::skip]
const WRONG_LINES: [&str; 52] = [
    "X", "X 0", "o 0 0", "t 0", "OO 0 0", "S", "M", "W", "O", "C", "T", "R", "-", "*5", "0",
    "O 0", "O 0 0 0", "C 0 0", "C 0 0 0 0", "T 0 0", "Q 0", "W 0 0",
    "R 0 0 - 4 0 0 1 1", "R 0 0 - 4 0 0 1 1 - -",
    " ", " T 0", "T  0", "T 0 ", "T\t0", "T 0\r", "Q ", " # no comment",
    "T a", "T 0x5", "T -1", "T +1", "T 4294967296", "T 18446744073709551616", "T -",
    "O 0 4294967296", "C 0 0 4294967300", "R 0 0 - 4 0 256 1 1 -", "R 0 0 - 4 0 4294967296 1 1 -",
    "B", "B ", "B 0", "B 0G", "B - -",
    "R 0 0 0 4 0 0 1 1 -", "R 0 0 - 4 0 0 1 1 0G", "R 0 0 - 4 0 0 1 1 *", "R 0 0 - 4 0 0 1 1 *-1",
];

/// A right script with an end of this kind, at which the run ends; lines behind it are not read.
pub fn wrong(random: &mut Random, kind: usize) -> Vec<u8> {
    let mut maker = Maker::new(random);
    maker.chapter(12);
    match kind.checked_sub(WRONG_LINES.len()) {
        None => maker.add(format_args!("{}", WRONG_LINES[kind])),
        Some(kind) => maker.end_wrongly(kind),
    }
    for line in ["T 0", "Q", "X"] {
        maker.add(format_args!("{line}"));
    }
    maker.text.into_bytes()
}

impl<'a> Maker<'a> {
    fn new(random: &'a mut Random) -> Self {
        let mix = random.below(4);
        let releases = [0; 3].map(|_| release(random, mix));
        let format = random.below(8) as u32;
        Self {
            random,
            text: String::new(),
            lines: 0,
            gate: Gate::default(),
            routes: Vec::new(),
            bias: 0,
            clock: 0,
            releases,
            format,
            is_narrow: false,
        }
    }

    /// Adds a line and carries it out.
    fn add(&mut self, line: Arguments) {
        let start = self.text.len();
        writeln!(self.text, "{line}").expect("a string takes all characters");
        let end = self.text.len() - 1;
        self.gate
            .take(&self.text.as_bytes()[start..end], &mut Vec::new());
        self.lines += 1;
    }

    /// Settings, and about so many lines of events on them.
    fn chapter(&mut self, lines: usize) {
        while self.random.once_in(3) {
            let damaged = damaged(self.random);
            let word = self.word(&damaged);
            self.add(format_args!("S {word}"));
        }
        self.routes = routes(self.random);
        let settings = lay(self.random, &self.routes);
        self.bias = u16::from_be_bytes([settings[17], settings[18]]);
        let word = self.word(&settings);
        self.add(format_args!("S {word}"));
        self.is_narrow = false;
        self.clock = match self.random.below(4) {
            0 => self.random.between(0, LAST_MINUTE as usize) as u32,
            1 => LAST_MINUTE - self.random.below(3_000) as u32,
            _ => self.random.below(3) as u32,
        };
        let events = match self.store() {
            true => self.random.between(1, lines.max(1)),
            false => self.random.between(1, 6),
        };
        let worst = self.random.below(60 * events);
        for index in 0..events {
            if index == worst {
                self.lose_many();
            }
            self.line();
        }
        // Otherwise files stay open and the output narrow at the next settings.
        if !self.random.once_in(4) {
            self.close_all();
        }
    }

    /// Sets another store now and then; whether the store has all regions.
    fn store(&mut self) -> bool {
        if !self.random.once_in(8) {
            return true;
        }
        let regions: usize = self.routes.iter().map(|route| route.limit as usize).sum();
        let octets = match self.random.below(5) {
            0 => 0,
            1 | 2 => regions - 1,
            3 => regions,
            _ => MOST_OCTETS.min(regions + self.random.below(40)),
        };
        self.add(format_args!("M {octets}"));
        octets >= regions
    }

    fn line(&mut self) {
        match self.random.below(100) {
            0..=6 => self.open(),
            7..=16 => self.close(),
            17..=26 => {
                let time = self.time();
                self.add(format_args!("T {time}"));
            }
            27..=32 => self.window(),
            33..=35 => self.add(format_args!("Q")),
            36 => self.add(format_args!("")),
            37 => self.add(format_args!("# O 0 0")),
            38 if self.random.once_in(3) => self.open_all(),
            38..=45 if self.is_narrow => self.window(),
            46..=52 => self.packet(),
            _ => self.receive(),
        }
    }

    /// Closes what is open, so that all that was placed is seen.
    fn close_all(&mut self) {
        self.add(format_args!("W {MOST_OCTETS}"));
        for route in 0..self.routes.len() {
            if self.state(route).is_some_and(|state| state.is_open) {
                let clock = self.clock;
                self.add(format_args!("C {clock} {route} 0"));
            }
        }
        self.add(format_args!("Q"));
    }

    fn open(&mut self) {
        let (time, route) = (self.time(), self.route());
        self.add(format_args!("O {time} {route}"));
    }

    /// Opens every route, and lets time go by.
    fn open_all(&mut self) {
        let clock = self.clock;
        for route in 0..self.routes.len() {
            self.add(format_args!("O {clock} {route}"));
        }
        self.clock = LAST_MINUTE.min(clock + 30);
    }

    fn close(&mut self) {
        let (time, route) = (self.time(), self.route());
        let reason = match self.random.below(6) {
            0 => {
                let wrong = [1, 2, 3, 5, 6, 127, 132, 255, 256, 260, 384, u32::MAX];
                self.random.pick(&wrong)
            }
            _ => self.random.pick(&[0, 4, 128, 129, 130, 131]),
        };
        self.add(format_args!("C {time} {route} {reason}"));
    }

    /// A clock that mostly goes on, at times runs back, and at times is out of range.
    fn time(&mut self) -> u32 {
        let step = match self.random.below(50) {
            0 => return self.random.pick(&[LAST_MINUTE + 1, 1 << 31, u32::MAX]),
            1..=3 => return self.clock.saturating_sub(self.random.below(100) as u32),
            4 => return self.random.pick(&[0, self.clock / 2]),
            5 => self.random.between(100, 20_000),
            11 => self.wait_for_set_minute(),
            6..=10 => self.random.between(3, 100),
            _ => self.random.below(3),
        };
        self.clock = LAST_MINUTE.min(self.clock + step as u32);
        self.clock
    }

    /// The minutes to a set minute of a route, or to about it.
    fn wait_for_set_minute(&mut self) -> usize {
        let minutes: Vec<u16> = self.routes.iter().flat_map(|r| r.minutes.clone()).collect();
        if minutes.is_empty() {
            return 0;
        }
        let minute = i64::from(self.random.pick(&minutes)) + WIDEST_OFFSET - i64::from(self.bias);
        let wait = (minute - i64::from(self.clock)).rem_euclid(DAY.into()) as usize;
        (wait + self.random.below(3)).saturating_sub(1)
    }

    /// A route's number, at times of none.
    fn route(&mut self) -> u32 {
        let count = self.routes.len();
        match self.random.below(14) {
            0 => {
                let wrong = [count as u32, 7, 8, 255, 256, 257, u32::MAX];
                self.random.pick(&wrong)
            }
            _ => self.random.below(count) as u32,
        }
    }

    fn state(&self, route: usize) -> Option<RouteState> {
        self.gate.manager()?.routes().nth(route)
    }

    /// An output that is wide, small, or just about as long as what is open in a route or in all.
    fn window(&mut self) {
        let files = self.routes.iter().enumerate().map(|(index, route)| {
            let state = self.state(index).filter(|state| state.is_open);
            state.map_or(0, |state| route.limit as usize - state.spare)
        });
        let files: Vec<usize> = files.collect();
        let octets = match self.random.below(8) {
            0 => self.random.pick(&[0, 60, 61, 127, 128]),
            1 => files.iter().sum(),
            2 => files.iter().sum::<usize>().saturating_sub(1),
            3 => self.random.pick(&files),
            4 => self.random.pick(&files).saturating_sub(1),
            _ => MOST_OCTETS,
        };
        self.is_narrow = octets < MOST_OCTETS;
        self.add(format_args!("W {octets}"));
    }

    fn receive(&mut self) {
        let (time, record) = self.record();
        let Received {
            mark,
            release,
            version,
            extension,
            format,
            ts,
            ..
        } = record;
        let (key, body) = (self.word(&record.key), self.body_word(&record.body));
        let fields = format_args!("{release} {version} {extension} {format} {ts}");
        self.add(format_args!("R {time} {mark} {key} {fields} {body}"));
    }

    /// What a RECEIVE carries, by itself or in a packet.
    fn record(&mut self) -> (u32, Received) {
        let time = self.time();
        let mark = match self.random.below(40) {
            0 => self.random.pick(&[3, 255, 256, 258, u32::MAX]),
            1..=3 => 1,
            4..=5 => 2,
            _ => 0,
        };
        let route = self.random.below(self.routes.len());
        let key = self.key(route);
        let [release, version, extension, format, ts] = self.fields();
        let octets = self.body_octets(route);
        let body = self.body(octets);
        let record = Received {
            mark,
            key,
            release,
            version,
            extension: extension as u8,
            format,
            ts,
            body,
        };
        (time, record)
    }

    /// A record with nothing wrong and few octets, of which a packet may have many.
    fn small_record(&mut self) -> Received {
        let route = self.random.below(self.routes.len());
        let Release {
            release,
            extension,
            version,
        } = self.releases[0];
        let octets = self.random.below(20);
        Received {
            mark: self.random.pick(&[0, 0, 0, 1, 2]),
            key: self.routes[route].filter.clone(),
            release: release.into(),
            version: version.into(),
            extension,
            format: self.format,
            ts: 0,
            body: self.random.octets(octets),
        }
    }

    /// A packet of some records, of none, of 64, or one that is refused whole.
    fn packet(&mut self) {
        let records = match self.random.below(20) {
            0 => 0,
            1 => MOST_RECORDS,
            2 => MOST_RECORDS + 1,
            _ => self.random.between(1, 9),
        };
        let mut octets = Vec::new();
        for _ in 0..records {
            let (time, mut record) = match records < MOST_RECORDS {
                true => self.record(),
                false => (self.clock, self.small_record()),
            };
            // Its fields have an octet each, and a script's line has an end.
            let fields = [&mut record.mark, &mut record.release, &mut record.version];
            for field in fields
                .into_iter()
                .chain([&mut record.format, &mut record.ts])
            {
                *field = (*field).min(255);
            }
            record.key.truncate(255);
            let room = (LONGEST_WORD - packet::HEAD - 255).saturating_sub(octets.len());
            record.body.truncate(room);
            let arrival = record.arrival();
            packet::lay(&mut octets, &Delivery { time, arrival });
        }
        match self.random.below(16) {
            0 => octets.truncate(octets.len().saturating_sub(self.random.between(1, 20))),
            1 => octets.push(self.random.octet()),
            _ => {}
        }
        octets.truncate(LONGEST_WORD - 2);
        let word = self.word(&octets);
        self.add(format_args!("B {word}"));
    }

    /// So many losses on a route, or unrouted records, that the indicator does not tell their number;
    /// and a file there, in which they may be told.
    fn lose_many(&mut self) {
        let (clock, route) = (self.clock, self.random.below(self.routes.len()));
        let key = self.routes[route].filter.clone();
        let key = self.word(&key);
        let mark = self.random.pick(&[1, 1, 2]);
        for _ in 0..self.random.between(128, 300) {
            self.add(format_args!("R {clock} {mark} {key} 0 0 0 0 0 -"));
        }
        self.add(format_args!("O {clock} {route}"));
    }

    /// A key that fits a route's filter, or any, or one too long.
    fn key(&mut self, route: usize) -> Vec<u8> {
        let filter = self.routes[route].filter.clone();
        let length = match self.random.below(20) {
            0 => self.random.pick(&[21, 22, 40, 300]),
            1..=8 => filter.len(),
            _ => self.random.between(filter.len(), LONGEST_FILTER),
        };
        let mut key = match self.random.below(12) {
            0 => Vec::new(),
            _ => filter,
        };
        while key.len() < length {
            key.push(self.random.pick(&[0, 0, 1, 0xA5]));
        }
        key
    }

    /// Release, version, extension, format and TS number; at times one of them wrong.
    fn fields(&mut self) -> [u32; 5] {
        let likely = self.random.pick(&[0, 0, 0, 0, 0, 0, 1, 2]);
        let Release {
            release,
            extension,
            version,
        } = self.releases[likely];
        let format = match self.random.below(10) {
            0 => self.random.below(8) as u32,
            _ => self.format,
        };
        let right = [release, version, extension].map(u32::from);
        let ts = self.random.below(32) as u32;
        let mut fields = [right[0], right[1], right[2], format, ts];
        if self.random.once_in(30) {
            let place = self.random.below(5);
            fields[place] = match place {
                2 => self.random.between(1, 255) as u32,
                0 | 3 => self.random.pick(&[8, 255, 256, 260, u32::MAX]),
                _ => self.random.pick(&[32, 255, 256, 287, u32::MAX]),
            };
        }
        fields
    }

    /// Small, or near what the limit leaves to a record alone or to one more, or near 65,535.
    fn body_octets(&mut self, route: usize) -> usize {
        let Route { filter, limit, .. } = &self.routes[route];
        let alone = *limit as usize - FIXED - filter.len() - counts::ADDED;
        let spare = self.state(route).map_or(alone, |state| state.spare);
        let near = |random: &mut Random, octets: usize| {
            let least = octets.saturating_sub(8);
            random.between(least, least + 6)
        };
        match self.random.below(40) {
            0 => self.random.pick(&[65_534, 65_535, 65_536, 70_000]),
            1..=3 => near(self.random, alone),
            4..=11 => near(self.random, spare),
            12..=15 => self.random.below(alone),
            _ => self.random.below(24),
        }
        .min(70_000)
    }

    /// Octets at random, or zeros if they are many or by chance.
    fn body(&mut self, octets: usize) -> Vec<u8> {
        let zeros = match octets {
            0..=300 => self.random.once_in(12),
            301..=5_000 => self.random.once_in(3),
            _ => !self.random.once_in(20),
        };
        match zeros {
            true => vec![0; octets],
            false => self.random.octets(octets),
        }
    }

    /// A body as a word of a script: zeros are counted.
    fn body_word(&mut self, body: &[u8]) -> String {
        match body.iter().all(|&octet| octet == 0) {
            true => format!("*{}", body.len()),
            false => self.word(body),
        }
    }

    /// Octets as a word of a script, in either case.
    fn word(&mut self, octets: &[u8]) -> String {
        let is_zero = octets.iter().all(|&octet| octet == 0);
        if is_zero && self.random.once_in(3) {
            return format!("*{}", octets.len());
        }
        match octets {
            [] => "-".to_owned(),
            _ if self.random.once_in(3) => hexadecimal(octets).to_lowercase(),
            _ => hexadecimal(octets),
        }
    }

    /// Ends of the run that need more than one wrong line.
    fn end_wrongly(&mut self, kind: usize) {
        self.add(format_args!("T 0"));
        let least = "0".repeat(2 * (NODE_OCTETS + ROUTE_OCTETS) + 1);
        match kind {
            0 => self.add(format_args!("M 128")),
            1 => self.add(format_args!("W {}", MOST_OCTETS + 1)),
            2 => self.add(format_args!("#{}", "x".repeat(LONGEST_LINE))),
            3 => self.add(format_args!("S {least}")),
            4 => self.add(format_args!("S -\nQ")),
            5 => self.add(format_args!("S 01\nT 0")),
            6 => self.add(format_args!("S 02\nR 0 2 - 0 0 0 0 0 -")),
            7 => {
                // A line as long as may be, and then one longer.
                self.add(format_args!("#{}", "x".repeat(LONGEST_LINE - 1)));
                let body = "0".repeat(LONGEST_LINE + 1 - "R 0 2 - 0 0 0 0 0 ".len());
                self.add(format_args!("R 0 2 - 0 0 0 0 0 {body}"));
            }
            _ => {
                let mut wide = routes(self.random);
                wide[0].limit = MOST_OCTETS as u32 + self.random.pick(&[1, 1_000, 500_000]);
                let settings = lay(self.random, &wide);
                self.add(format_args!("S {}", hexadecimal(&settings)));
            }
        }
    }
}

pub fn hexadecimal(octets: &[u8]) -> String {
    let mut digits = String::with_capacity(2 * octets.len());
    for octet in octets {
        write!(digits, "{octet:02X}").expect("a string takes all characters");
    }
    digits
}

/// 1 to 8 routes of different filters, whose regions a program's store has room for.
fn routes(random: &mut Random) -> Vec<Route> {
    let count = random.pick(&[1, 1, 2, 3, 4, 5, 6, 7, 8, 8]);
    let size = random.below(20);
    let mix = random.below(4);
    let ages: &[u32] = match random.below(3) {
        0 => &[1, 2, 3, 20],
        _ => &[0, 0, 1, 3, 20, 1_000, u32::MAX],
    };
    let mut routes: Vec<Route> = Vec::new();
    while routes.len() < count {
        let filter = filter(random, &routes);
        if routes.iter().any(|route| route.filter == filter) {
            continue;
        }
        let taken: usize = routes.iter().map(|route| route.limit as usize).sum();
        // A fair share of what is left keeps room for the routes behind.
        let share = (MOST_OCTETS - taken) / (count - routes.len());
        routes.push(Route {
            filter,
            limit: limit(random, size).min(share) as u32,
            age: random.pick(ages),
            most: random.pick(&[0, 0, 0, 1, 2, 3, 10, u32::MAX]),
            flag: random.below(2) as u8,
            release: release(random, mix),
            first: match random.below(4) {
                0 => u32::MAX - random.below(4) as u32,
                1 => random.word() as u32,
                _ => random.below(10) as u32,
            },
            minutes: minutes(random),
        });
    }
    routes
}

/// Set minutes of a day, mostly none or few.
fn minutes(random: &mut Random) -> Vec<u16> {
    let few = random.below(MOST_SETS + 1);
    let count = random.pick(&[0, 0, 0, 0, 1, 1, 2, few, MOST_SETS]);
    let mut minutes: Vec<u16> = Vec::new();
    while minutes.len() < count {
        let any = random.below(DAY as usize) as u16;
        let minute = random.pick(&[0, 1, 30, 1_439, any, any, any]);
        if !minutes.contains(&minute) {
            minutes.push(minute);
        }
    }
    minutes.sort_unstable();
    minutes
}

/// Often small, at times such that the longest bodies are at the limit.
fn limit(random: &mut Random, size: usize) -> usize {
    match size {
        0 => random.between(65_534 + FIXED + counts::ADDED, 65_651),
        1 => random.between(65_000, 300_000),
        2..=6 => random.between(128, 5_000),
        7..=9 => 128,
        _ => random.between(128, 400),
    }
}

/// A filter that often has a part in common with an earlier one.
fn filter(random: &mut Random, earlier: &[Route]) -> Vec<u8> {
    let mut filter = match random.below(6) {
        0 => return Vec::new(),
        1 => return vec![0; random.between(1, 3)],
        2 | 3 if !earlier.is_empty() => earlier[random.below(earlier.len())].filter.clone(),
        _ => Vec::new(),
    };
    let length = random.pick(&[0, 1, 2, 3, 5, 19, 20, 20]);
    filter.truncate(length);
    while filter.len() < length {
        filter.push(random.pick(&[0, 1, 1, 0xA5]));
    }
    filter
}

/// The octets of settings with these routes, the node being any.
fn lay(random: &mut Random, routes: &[Route]) -> Vec<u8> {
    let mut address = [0; 16];
    address.copy_from_slice(&random.octets(16));
    let most = 2 * WIDEST_OFFSET as usize;
    let bias = match random.below(4) {
        0 => random.between(0, most),
        _ => random.pick(&[0, most / 2, most / 2 - 60, most / 2 + 120, most]),
    };
    let bias = bias as u16;
    settings::lay(Node { address, bias }, routes)
}

/// Settings with one to four faults, so that the order of their refusals shows.
fn damaged(random: &mut Random) -> Vec<u8> {
    let mut routes = routes(random);
    let faults = random.between(1, 15);
    if faults & 4 != 0 {
        // Two equal filters.
        let twice = routes[random.below(routes.len())].clone();
        let at = random.below(routes.len() + 1);
        routes.insert(at, twice);
        routes.truncate(MOST_ROUTES);
        if routes.len() == MOST_ROUTES {
            routes[0].filter = routes[1].filter.clone();
        }
    }
    let mut octets = lay(random, &routes);
    if faults & 8 != 0 {
        put_wrong_set(random, &mut octets, &routes);
    }
    if faults & 2 != 0 {
        put_wrong_value(random, &mut octets, routes.len());
    }
    if faults & 1 != 0 {
        break_order(random, octets, routes.len())
    } else {
        octets
    }
}

/// Puts a wrong set time behind the others, or spoils one: a minute that no day has, a route that is not
/// configured, the one before it again, a lower route, or a 25th.
fn put_wrong_set(random: &mut Random, octets: &mut Vec<u8>, routes: &[Route]) {
    let count = routes.len();
    let first = NODE_OCTETS + ROUTE_OCTETS * count;
    let last = (count - 1) as u8;
    let sets = (octets.len() - first) / SET_OCTETS;
    match random.below(6) {
        0 => octets.extend(set_time(last, random.pick(&[1_440, 1_441, 65_535]))),
        1 => octets.extend(set_time(count as u8, 0)),
        2 if sets > 0 => {
            let again = octets.len() - SET_OCTETS..;
            octets.extend_from_within(again);
        }
        3 if sets > 1 => {
            let at = first + SET_OCTETS * random.below(sets - 1);
            octets[at..at + 2 * SET_OCTETS].rotate_left(SET_OCTETS);
        }
        4 if sets > 0 => {
            let at = first + SET_OCTETS * random.below(sets);
            octets[at + 2..at + 4].copy_from_slice(&1_440_u16.to_be_bytes());
        }
        _ => {
            octets.truncate(first);
            let few = random.below(1_440 - 25) as u16;
            let more = (0..25).flat_map(|more| set_time(last, few + more));
            octets.extend(more);
        }
    }
}

/// Puts a value beyond its range in the node's settings or a route's.
fn put_wrong_value(random: &mut Random, octets: &mut [u8], count: usize) {
    let route = NODE_OCTETS + ROUTE_OCTETS * random.below(count);
    let (filter, size) = (route + 1, route + 22);
    match random.below(8) {
        0 => {
            let bias = random.pick(&[2_879_u16, 3_000, 65_535]);
            octets[17..19].copy_from_slice(&bias.to_be_bytes());
        }
        1 => octets[filter] = random.pick(&[21, 22, 255]),
        2 => {
            // An octet behind the filter.
            octets[filter] = octets[filter].min(19);
            octets[filter + 20] = random.between(1, 255) as u8;
        }
        3 | 4 => {
            let most = LONGEST_FILE as u32;
            let wrong = random.pick(&[0, 127, most + 1, u32::MAX]);
            octets[size..size + 4].copy_from_slice(&wrong.to_be_bytes());
        }
        5 | 6 => octets[route + 34] = random.pick(&[2, 3, 255]),
        _ => {
            octets[route + 35] &= 0x9F;
            octets[route + 36] = random.between(1, 255) as u8;
        }
    }
}

/// Settings cut, grown, of an unknown kind, in a wrong order, or with too few or many routes.
fn break_order(random: &mut Random, mut octets: Vec<u8>, count: usize) -> Vec<u8> {
    let place = random.below(count);
    let route = NODE_OCTETS + ROUTE_OCTETS * place..NODE_OCTETS + ROUTE_OCTETS * (place + 1);
    match random.below(8) {
        0 => octets.truncate(random.below(NODE_OCTETS + 1)),
        1 => octets.truncate(octets.len() - random.between(1, ROUTE_OCTETS - 1)),
        2 => octets.push(random.pick(&[0, 1, 2, 3])),
        3 => octets[0] = random.pick(&[0, 2, 3, 255]),
        4 => octets[route.start] = random.pick(&[0, 1, 3, 255]),
        5 => {
            let more = octets[route].repeat(9 - count);
            octets.extend_from_slice(&more);
        }
        6 => octets.extend_from_within(..NODE_OCTETS),
        _ => octets.rotate_left(NODE_OCTETS),
    }
    octets
}

#[cfg(test)]
mod tests {
    use super::*;
    use crate::gate::{self, replay};

    #[test]
    fn right_scripts_run_to_their_end() {
        let mut random = Random::new(5);
        for _ in 0..100 {
            let script = right(&mut random);
            let printed = replay(&script);
            let ends = gate::lines(&printed).any(|line| line.first() == Some(&b'E'));
            assert!(!ends, "{}", String::from_utf8_lossy(&script));
        }
    }

    #[test]
    fn wrong_scripts_end_before_their_last_lines() {
        let mut random = Random::new(6);
        for kind in 0..WRONG_ENDS {
            let script = wrong(&mut random, kind);
            // Behind the wrong line there are three more, the last of them wrong too.
            let end = gate::lines(&script).count() - 1 - 3;
            let printed = replay(&script);
            assert!(
                printed.ends_with(format!("\nE {end}\n").as_bytes()),
                "kind {kind}"
            );
        }
    }
}
