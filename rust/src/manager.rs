//! A plain manager of CDR files: settings, routing, the four events, the store and the closed
//! files. Written in safe Rust from documents 01 and 02, and from nothing of the proved code.

#![forbid(unsafe_code)]

mod by_value;

use crate::counts::{self, LossCounts};
use crate::packet;
use crate::second::{self, EXTENDED, FIXED, LAST_MINUTE, LONGEST_FILE, RESERVED, WIDEST_OFFSET};

/// The most routes that settings may have.
pub const MOST_ROUTES: usize = 8;
/// The most octets of a filter, and of a key that is to be trusted.
pub const LONGEST_FILTER: usize = 20;
/// The least size limit of a route.
pub const LEAST_LIMIT: usize = 128;
/// Octets of the settings of a node and of a route, their kinds included.
pub const NODE_OCTETS: usize = 1 + NODE_BODY;
pub const ROUTE_OCTETS: usize = 1 + ROUTE_BODY;
/// Octets of a set time of day, and the most of them that a route may have.
pub const SET_OCTETS: usize = 1 + SET_BODY;
pub const MOST_SETS: usize = 24;
/// The minutes of a day.
pub const DAY: u32 = 1_440;
/// The route in the answer to an event that has none.
pub const NO_ROUTE: u8 = 255;

const NODE_KIND: u8 = 1;
const NODE_BODY: usize = 18;
const ROUTE_KIND: u8 = 2;
const ROUTE_BODY: usize = 40;
const SET_KIND: u8 = 3;
const SET_BODY: usize = 3;

/// The closure reasons that the manager itself has.
const AT_SET_TIME: u8 = 0;
const TOO_LONG: u8 = 1;
const TOO_OLD: u8 = 2;
const FULL: u8 = 3;
const OTHER_FORMAT: u8 = 5;

/// What an accepted event did.
#[derive(Clone, Copy, Debug, PartialEq, Eq)]
pub enum Outcome {
    Opened = 1,
    Placed,
    Lost,
    Unrouted,
    Closed,
    Ticked,
}

/// The answer to an accepted event.
#[derive(Clone, Copy, Debug, PartialEq, Eq)]
pub struct Accepted {
    pub outcome: Outcome,
    /// The route's number, or `NO_ROUTE`.
    pub route: u8,
    /// How many files were closed, and their octets in the output.
    pub files: u8,
    pub octets: usize,
    /// The octets of filters that RECEIVE compared with the key.
    pub compared: u8,
}

/// An event's answer; refused, it is the refusal's number and the needed octets (0 but for 17).
pub type Answer = Result<Accepted, (u8, usize)>;

/// What came of a packet: the refusal that stopped it or 0, how many records were accepted, and the
/// answer of each that was tried.
#[derive(Clone, Debug, Default, PartialEq, Eq)]
pub struct Taken {
    pub refusal: u8,
    pub accepted: usize,
    pub answers: Vec<Answer>,
}

/// What RECEIVE carries beside the time: its numbers have room for more than is right.
#[derive(Clone, Copy, Debug, Default, PartialEq, Eq)]
pub struct Arrival<'a> {
    pub mark: u32,
    pub key: &'a [u8],
    pub release: u32,
    pub version: u32,
    pub extension: u8,
    pub format: u32,
    pub ts: u32,
    pub body: &'a [u8],
}

/// What may be seen of a route.
#[derive(Clone, Copy, Debug, PartialEq, Eq)]
pub struct RouteState {
    pub is_open: bool,
    /// The records of the open file, 0 with none open.
    pub count: u32,
    /// Known losses and unrouted records since its last file closed.
    pub losses: u32,
    pub unrouted: u32,
    /// The sequence number of the file that it opens next.
    pub next: u32,
    /// Octets that the open file is short of the size limit; without one, those of an empty file.
    pub spare: usize,
}

/// A node with its routes, their open files and counters. The records of the open files are in a
/// store that each event is lent.
#[derive(Clone, Debug, PartialEq, Eq)]
pub struct Manager {
    node: Node,
    routes: Vec<Route>,
    /// The octets of all regions of the store.
    regions: usize,
    /// The effective time of the last accepted event.
    last: u32,
    unrouted: u32,
}

#[derive(Clone, Copy, Debug, PartialEq, Eq)]
struct Node {
    address: [u8; 20],
    /// Minutes from UTC.
    offset: i64,
}

#[derive(Clone, Debug, PartialEq, Eq)]
struct Route {
    filter: [u8; LONGEST_FILTER],
    filter_octets: usize,
    /// The most octets of a file.
    limit: usize,
    /// The most minutes that a file is open, and the most records that it has; 0 is no limit.
    age: u32,
    most: u32,
    /// Whether a file has only one release and version.
    one_release: bool,
    /// The release and version of a file without records.
    release: Rank,
    /// The minutes of the local day at which a file is cut.
    minutes: Vec<u16>,
    /// Where its region of the store begins.
    region: usize,
    next: u32,
    /// Known losses and unrouted records since its last file closed.
    losses: u32,
    unrouted: u32,
    file: Option<OpenFile>,
}

#[derive(Clone, Copy, Debug, PartialEq, Eq)]
struct OpenFile {
    sequence: u32,
    opened: u32,
    appended: u32,
    high: Rank,
    low: Rank,
    /// The records' format; it says nothing when the count is 0.
    format: u8,
    count: u32,
    /// The records' octets, which stand from the region's start.
    octets: usize,
}

/// A release and version in the 16 bits that they have in all, so that their order is that of the
/// numbers: by release, then extension, then version.
#[derive(Clone, Copy, Debug, PartialEq, Eq, PartialOrd, Ord)]
struct Rank(u16);

impl Rank {
    /// None if a part is beyond its range, or a release below 7 has an extension.
    fn new(release: u32, extension: u8, version: u32) -> Option<Self> {
        let has_extension = release == u32::from(EXTENDED);
        let in_range = release <= 7 && version <= 31 && (has_extension || extension == 0);
        let rank = release << 13 | u32::from(extension) << 5 | version;
        in_range.then_some(Self(rank as u16))
    }

    /// Whether an extension octet is present.
    fn is_extended(self) -> bool {
        self.0 >> 13 == u16::from(EXTENDED)
    }

    fn extension(self) -> u8 {
        (self.0 >> 5) as u8
    }

    /// The octet of release and version.
    fn octet(self) -> u8 {
        (self.0 >> 8 & 0xE0 | self.0 & 31) as u8
    }
}

/// A usable record, its fields in range.
#[derive(Clone, Copy)]
struct Record<'a> {
    release: Rank,
    format: u8,
    ts: u8,
    body: &'a [u8],
}

impl Record<'_> {
    /// Octets of header and body.
    fn octets(&self) -> usize {
        4 + usize::from(self.release.is_extended()) + self.body.len()
    }

    /// Writes the record to the start of its place in the store.
    fn write(&self, place: &mut [u8]) {
        let [upper, lower] = (self.body.len() as u16).to_be_bytes();
        let (header, mut rest) = place.split_at_mut(4);
        header.copy_from_slice(&[
            upper,
            lower,
            self.release.octet(),
            self.format << 5 | self.ts,
        ]);
        if self.release.is_extended() {
            rest[0] = self.release.extension();
            rest = &mut rest[1..];
        }
        rest[..self.body.len()].copy_from_slice(self.body);
    }
}

impl Manager {
    /// The fresh manager of these settings, or refusal 1, 2, 3 or 22.
    pub fn load(settings: &[u8]) -> Result<Self, u8> {
        let Blocks { node, routes, sets } = blocks(settings).ok_or(1)?;
        let node = Node::new(node).ok_or(2)?;
        let mut regions = 0;
        let mut route = |body| {
            let route = Route::new(body, regions)?;
            regions += route.limit;
            Some(route)
        };
        let routes: Option<Vec<_>> = routes.into_iter().map(&mut route).collect();
        let mut routes = routes.ok_or(2)?;
        let mut filters: Vec<&[u8]> = routes.iter().map(Route::filter).collect();
        filters.sort_unstable();
        if filters.windows(2).any(|pair| pair[0] == pair[1]) {
            return Err(3);
        }
        set_times(&mut routes, &sets).ok_or(22)?;
        Ok(Self {
            node,
            routes,
            regions,
            last: 0,
            unrouted: 0,
        })
    }

    /// Opens an empty file.
    pub fn open(&mut self, store: &[u8], time: u32, route: u32) -> Answer {
        let now = self.effective(store, time)?;
        let index = self.configured(route)?;
        let route = &mut self.routes[index];
        if route.file.is_some() {
            return Err((14, 0));
        }
        let file = route.empty_file(now);
        route.hold(file);
        self.last = now;
        Ok(accepted(Outcome::Opened, index, None))
    }

    /// Closes a file by hand or by the system around: with reason 0, 4 or 128 to 131.
    pub fn close(
        &mut self,
        store: &[u8],
        output: &mut [u8],
        time: u32,
        route: u32,
        reason: u32,
    ) -> Answer {
        let now = self.effective(store, time)?;
        let index = self.configured(route)?;
        let reason = match reason {
            0 | 4 | 128..=131 => reason as u8,
            _ => return Err((7, 0)),
        };
        let octets = self.routes[index].close(&self.node, reason, store, output)?;
        self.last = now;
        Ok(accepted(Outcome::Closed, index, Some(octets)))
    }

    /// Closes the files that have reached their open-time limit, and those in whose time a set
    /// minute of the local day fell.
    pub fn tick(&mut self, store: &[u8], output: &mut [u8], time: u32) -> Answer {
        let now = self.effective(store, time)?;
        let offset = self.node.offset;
        let ending = self.routes.iter();
        let ending = ending.filter(|route| route.end(offset, now).is_some());
        let needed = ending.filter_map(|route| route.file_octets()).sum();
        if needed > output.len() {
            return Err((17, needed));
        }
        let (mut files, mut octets) = (0, 0);
        for route in &mut self.routes {
            if let Some(reason) = route.end(offset, now) {
                octets += route.close(&self.node, reason, store, &mut output[octets..])?;
                files += 1;
            }
        }
        self.last = now;
        Ok(Accepted {
            outcome: Outcome::Ticked,
            route: NO_ROUTE,
            files,
            octets,
            compared: 0,
        })
    }

    /// Takes a record in: it is placed, lost or unrouted.
    pub fn receive(
        &mut self,
        store: &mut [u8],
        output: &mut [u8],
        time: u32,
        arrival: &Arrival,
    ) -> Answer {
        let now = self.effective(store, time)?;
        let usable = arrival.usable().ok_or((5, 0))?;
        let (index, compared) = self.route_of(arrival);
        let Some(index) = index else {
            return self.miss(now, compared);
        };
        let route = &mut self.routes[index];
        let placed = match usable {
            Some(record) if route.holds_alone(&record) => {
                let octets = route.place(&self.node, store, output, now, &record)?;
                accepted(Outcome::Placed, index, octets)
            }
            _ => {
                route.losses = route.losses.checked_add(1).ok_or((19, 0))?;
                accepted(Outcome::Lost, index, None)
            }
        };
        self.last = now;
        Ok(Accepted { compared, ..placed })
    }

    /// Takes a packet's records in, one behind another, up to the first that is refused; each is
    /// lent what those before it left of the output.
    pub fn take(&mut self, store: &mut [u8], mut output: &mut [u8], mut packet: &[u8]) -> Taken {
        let records = packet::count(packet);
        let mut taken = Taken::default();
        taken.refusal = match records {
            None => 11,
            Some(0) if store.len() < self.regions => 16,
            _ => 0,
        };
        if taken.refusal != 0 {
            return taken;
        }
        taken.answers.reserve_exact(records.unwrap_or(0));
        while let Some((delivery, behind)) = packet::split_first(packet) {
            let answer = self.receive(store, output, delivery.time, &delivery.arrival);
            taken.answers.push(answer);
            match answer {
                Ok(accepted) => output = &mut output[accepted.octets..],
                Err((refusal, _)) => {
                    taken.refusal = refusal;
                    return taken;
                }
            }
            taken.accepted += 1;
            packet = behind;
        }
        taken
    }

    /// Whether the state is within every bound of refusal 18. This manager owns its state and never
    /// asks; a manager that is handed one asks at each event.
    pub fn is_within_bounds(&self) -> bool {
        let filters = |at: usize| {
            let earlier = &self.routes[..at];
            earlier
                .iter()
                .all(|route| route.filter() != self.routes[at].filter())
        };
        (1..=MOST_ROUTES).contains(&self.routes.len())
            && self.node.offset.abs() <= WIDEST_OFFSET
            && self.last <= LAST_MINUTE
            && self
                .routes
                .iter()
                .all(|route| route.is_within_bounds(self.last))
            && (0..self.routes.len()).all(filters)
    }

    /// The octets that a store must have.
    pub fn store_octets(&self) -> usize {
        self.regions
    }

    /// The effective time of the last accepted event.
    pub fn last(&self) -> u32 {
        self.last
    }

    /// How many records were unrouted.
    pub fn unrouted(&self) -> u32 {
        self.unrouted
    }

    /// The routes in their order.
    pub fn routes(&self) -> impl ExactSizeIterator<Item = RouteState> + '_ {
        self.routes.iter().map(Route::state)
    }

    /// The event's effective time, if the store has all regions and the time is in range.
    fn effective(&self, store: &[u8], time: u32) -> Result<u32, (u8, usize)> {
        if store.len() < self.regions {
            return Err((16, 0));
        }
        if time > LAST_MINUTE {
            return Err((4, 0));
        }
        Ok(time.max(self.last))
    }

    fn configured(&self, route: u32) -> Result<usize, (u8, usize)> {
        let index = route as usize;
        (index < self.routes.len()).then_some(index).ok_or((6, 0))
    }

    /// The route with the longest filter that is a prefix of the key, if the key is to be trusted; and
    /// how many octets of filters were compared to find it.
    fn route_of(&self, arrival: &Arrival) -> (Option<usize>, u8) {
        if arrival.mark == 2 {
            return (None, 0);
        }
        let mut compared = 0;
        let mut best: Option<usize> = None;
        for (index, route) in self.routes.iter().enumerate() {
            let octets = route.filter_octets;
            if octets > arrival.key.len() {
                continue;
            }
            let same = common_octets(route.filter(), arrival.key);
            compared += octets.min(same + 1);
            let is_longer = |best: usize| self.routes[best].filter_octets < octets;
            if same == octets && best.is_none_or(is_longer) {
                best = Some(index);
            }
        }
        (best, compared as u8)
    }

    /// Counts an unrouted record on every route, since each might have been its.
    fn miss(&mut self, now: u32, compared: u8) -> Answer {
        let mut counters = self.routes.iter().map(|route| route.unrouted);
        if self.unrouted == u32::MAX || counters.any(|counter| counter == u32::MAX) {
            return Err((19, 0));
        }
        self.unrouted += 1;
        for route in &mut self.routes {
            route.unrouted += 1;
        }
        self.last = now;
        let missed = accepted(Outcome::Unrouted, usize::from(NO_ROUTE), None);
        Ok(Accepted { compared, ..missed })
    }
}

/// The answer to an event on one route, with the octets of the file that it closed.
fn accepted(outcome: Outcome, route: usize, closed: Option<usize>) -> Accepted {
    Accepted {
        outcome,
        route: route as u8,
        files: u8::from(closed.is_some()),
        octets: closed.unwrap_or(0),
        compared: 0,
    }
}

/// How many octets are the same, from the first on: eight at a time, and then one by one.
fn common_octets(a: &[u8], b: &[u8]) -> usize {
    let eights = a.as_chunks::<8>().0.iter().zip(b.as_chunks::<8>().0);
    let start = 8 * eights.take_while(|(a, b)| a == b).count();
    let ones = a[start..].iter().zip(&b[start..]);
    start + ones.take_while(|(a, b)| a == b).count()
}

impl<'a> Arrival<'a> {
    /// The record if its body is usable, `None` in it if not; `None` if refused with 5.
    fn usable(&self) -> Option<Option<Record<'a>>> {
        if self.mark < 2 && self.key.len() > LONGEST_FILTER {
            return None;
        }
        match self.mark {
            0 => self.record().map(Some),
            1 | 2 => Some(None),
            _ => None,
        }
    }

    fn record(&self) -> Option<Record<'a>> {
        let release = Rank::new(self.release, self.extension, self.version)?;
        (self.format <= 7 && self.ts <= 31).then_some(Record {
            release,
            format: self.format as u8,
            ts: self.ts as u8,
            body: self.body,
        })
    }
}

impl Node {
    fn new(body: &[u8; NODE_BODY]) -> Option<Self> {
        let (octets, bias) = body.split_at(16);
        let mut address = [0xFF; 20];
        address[4..].copy_from_slice(octets);
        let bias = i64::from(u16::from_be_bytes([bias[0], bias[1]]));
        (bias <= 2 * WIDEST_OFFSET).then_some(Self {
            address,
            offset: bias - WIDEST_OFFSET,
        })
    }

    /// A minute in this node's local time.
    fn stamp(&self, minutes: u32) -> [u8; 4] {
        second::timestamp(minutes, self.offset).expect("both are kept in range")
    }
}

impl Route {
    /// A route of these settings if each is in its range.
    fn new(body: &[u8; ROUTE_BODY], region: usize) -> Option<Self> {
        let word =
            |at: usize| u32::from_be_bytes([body[at], body[at + 1], body[at + 2], body[at + 3]]);
        let (filter_octets, limit) = (usize::from(body[0]), word(21) as usize);
        let flag = body[33];
        let release = Rank::new(u32::from(body[34] >> 5), body[35], u32::from(body[34] & 31))?;
        let mut filter = [0; LONGEST_FILTER];
        filter.copy_from_slice(&body[1..21]);
        let in_range = filter.get(filter_octets..)?.iter().all(|&octet| octet == 0)
            && (LEAST_LIMIT..=LONGEST_FILE).contains(&limit)
            && flag <= 1;
        in_range.then_some(Self {
            filter,
            filter_octets,
            limit,
            age: word(25),
            most: word(29),
            one_release: flag == 1,
            release,
            minutes: Vec::new(),
            region,
            next: word(36),
            losses: 0,
            unrouted: 0,
            file: None,
        })
    }

    fn is_within_bounds(&self, last: u32) -> bool {
        let unused = self.filter.get(self.filter_octets..);
        unused.is_some_and(|unused| unused.iter().all(|&octet| octet == 0))
            && (LEAST_LIMIT..=LONGEST_FILE).contains(&self.limit)
            && self.minutes.len() <= MOST_SETS
            && self.minutes.iter().all(|&minute| u32::from(minute) < DAY)
            && self.minutes.windows(2).all(|pair| pair[0] < pair[1])
            && self
                .file
                .as_ref()
                .is_none_or(|file| self.may_hold(file, last))
    }

    /// Whether an open file is one that this route can have at this last time.
    fn may_hold(&self, file: &OpenFile, last: u32) -> bool {
        let is_empty = file.count == 0;
        file.opened <= file.appended
            && file.appended <= last
            && file.low <= file.high
            && (!self.one_release || file.low == file.high)
            && file.format <= 7
            && self.octets_of(file.high, file.low, file.octets) <= self.limit
            && 4 * file.count as usize <= file.octets
            && (!is_empty || file.octets == 0)
            && (!is_empty || file.appended == file.opened)
            && (!is_empty || file.high == self.release && file.low == self.release)
            && (self.most == 0 || file.count < self.most)
    }

    fn filter(&self) -> &[u8] {
        &self.filter[..self.filter_octets]
    }

    /// The octets of a file of this route: its header has the loss counts, and one octet for each
    /// release 7.
    fn octets_of(&self, high: Rank, low: Rank, records: usize) -> usize {
        let extensions = usize::from(high.is_extended()) + usize::from(low.is_extended());
        FIXED + self.filter_octets + counts::ADDED + extensions + records
    }

    /// The open file's octets.
    fn file_octets(&self) -> Option<usize> {
        let file = self.file.as_ref()?;
        Some(self.octets_of(file.high, file.low, file.octets))
    }

    /// The reason with which the open file closes as time goes by, if it does: its age has reached the
    /// limit, or a set minute fell after its opening.
    fn end(&self, offset: i64, now: u32) -> Option<u8> {
        let file = self.file.as_ref()?;
        if self.age > 0 && now - file.opened >= self.age {
            return Some(TOO_OLD);
        }
        let fell = |&minute: &u16| next_at(minute, offset, file.opened) <= i64::from(now);
        self.minutes.iter().any(fell).then_some(AT_SET_TIME)
    }

    /// Whether a record has a length that may be, and a file has room for it alone.
    fn holds_alone(&self, record: &Record) -> bool {
        let alone = self.octets_of(record.release, record.release, record.octets());
        record.body.len() < RESERVED && alone <= self.limit
    }

    /// The file that would open now.
    fn empty_file(&self, now: u32) -> OpenFile {
        OpenFile {
            sequence: self.next,
            opened: now,
            appended: now,
            high: self.release,
            low: self.release,
            format: 0,
            count: 0,
            octets: 0,
        }
    }

    /// Makes this the open file; if none was open, its sequence number is used up.
    fn hold(&mut self, file: OpenFile) {
        if self.file.replace(file).is_none() {
            self.next = self.next.wrapping_add(1);
        }
    }

    /// Writes a record that a file holds alone to the store; the octets of the file it closed.
    fn place(
        &mut self,
        node: &Node,
        store: &mut [u8],
        output: &mut [u8],
        now: u32,
        record: &Record,
    ) -> Result<Option<usize>, (u8, usize)> {
        let joined = match &self.file {
            None => self.empty_file(now).with(record, now),
            Some(file) => file.with(record, now),
        };
        if let Some(reason) = self.parting(&joined, record) {
            // The next file's first record does not fill it: no file of a limit of 1 is open with
            // a record in it.
            let closed = self.close(node, reason, store, output)?;
            record.write(&mut store[self.region..]);
            let alone = self.empty_file(now).with(record, now);
            self.hold(alone);
            return Ok(Some(closed));
        }
        let fills = joined.count == self.most;
        let needed = self.octets_of(joined.high, joined.low, joined.octets);
        if fills && output.len() < needed {
            return Err((17, needed));
        }
        record.write(&mut store[self.region + joined.octets - record.octets()..]);
        self.hold(joined);
        fills
            .then(|| self.close(node, FULL, store, output))
            .transpose()
    }

    /// The reason for which the open file closes before the record that would make it `joined`.
    fn parting(&self, joined: &OpenFile, record: &Record) -> Option<u8> {
        let file = self.file.as_ref().filter(|file| file.count > 0)?;
        // All records of a file under the flag have one release, so high is any's.
        let other_release = self.one_release && file.high != record.release;
        if file.format != record.format || other_release {
            return Some(OTHER_FORMAT);
        }
        let octets = self.octets_of(joined.high, joined.low, joined.octets);
        (octets > self.limit).then_some(TOO_LONG)
    }

    /// Lays the open file out at the output's start and starts both counts anew; its octets.
    fn close(
        &mut self,
        node: &Node,
        reason: u8,
        store: &[u8],
        output: &mut [u8],
    ) -> Result<usize, (u8, usize)> {
        let file = self.file.as_ref().ok_or((15, 0))?;
        let octets = self.octets_of(file.high, file.low, file.octets);
        let place = output.get_mut(..octets).ok_or((17, octets))?;
        let (header, records) = place.split_at_mut(octets - file.octets);
        self.lay_header(node, file, reason, header, octets);
        records.copy_from_slice(&store[self.region..][..file.octets]);
        self.file = None;
        self.losses = 0;
        self.unrouted = 0;
        Ok(octets)
    }

    fn lay_header(
        &self,
        node: &Node,
        file: &OpenFile,
        reason: u8,
        header: &mut [u8],
        octets: usize,
    ) {
        let length = header.len() as u32;
        let (fixed, behind) = header.split_at_mut(FIXED);
        fixed[0..4].copy_from_slice(&(octets as u32).to_be_bytes());
        fixed[4..8].copy_from_slice(&length.to_be_bytes());
        fixed[8] = file.high.octet();
        fixed[9] = file.low.octet();
        fixed[10..14].copy_from_slice(&node.stamp(file.opened));
        fixed[14..18].copy_from_slice(&node.stamp(file.appended));
        fixed[18..22].copy_from_slice(&file.count.to_be_bytes());
        fixed[22..26].copy_from_slice(&file.sequence.to_be_bytes());
        fixed[26] = reason;
        fixed[27..47].copy_from_slice(&node.address);
        fixed[47] = indicator(self.losses, self.unrouted);
        fixed[48..50].copy_from_slice(&(self.filter_octets as u16).to_be_bytes());
        let (filter, behind) = behind.split_at_mut(self.filter_octets);
        filter.copy_from_slice(self.filter());
        let (private, extensions) = behind.split_at_mut(counts::ADDED);
        private.copy_from_slice(&self.loss_counts().extension());
        // None, one or two octets: low has one only if high has.
        let of_each = [file.high, file.low].map(Rank::extension);
        extensions.copy_from_slice(&of_each[..extensions.len()]);
    }

    fn loss_counts(&self) -> LossCounts {
        LossCounts {
            losses: self.losses,
            unrouted: self.unrouted,
        }
    }

    fn state(&self) -> RouteState {
        let octets = self.file_octets();
        let octets = octets.unwrap_or(self.octets_of(self.release, self.release, 0));
        RouteState {
            is_open: self.file.is_some(),
            count: self.file.map_or(0, |file| file.count),
            losses: self.losses,
            unrouted: self.unrouted,
            next: self.next,
            spare: self.limit - octets,
        }
    }
}

impl OpenFile {
    /// The file with one more record.
    fn with(&self, record: &Record, now: u32) -> Self {
        let release = record.release;
        let (high, low) = match self.count {
            0 => (release, release),
            _ => (self.high.max(release), self.low.min(release)),
        };
        Self {
            appended: now,
            high,
            low,
            format: record.format,
            count: self.count + 1,
            octets: self.octets + record.octets(),
            ..*self
        }
    }
}

/// The lost indicator of a file with these known losses and unrouted records.
pub fn indicator(losses: u32, unrouted: u32) -> u8 {
    let known = losses.min(127) as u8;
    match (unrouted, known) {
        (0, 0) => 0,
        (0, known) => 128 + known,
        (_, 0) => 128,
        (_, known) => known,
    }
}

/// The first time after another at which this is the minute of the local day: it comes once a day.
fn next_at(minute: u16, offset: i64, time: u32) -> i64 {
    let time = i64::from(time);
    let wait = (i64::from(minute) - time - offset).rem_euclid(DAY.into());
    match wait {
        0 => time + i64::from(DAY),
        _ => time + wait,
    }
}

/// The bodies of settings.
struct Blocks<'a> {
    node: &'a [u8; NODE_BODY],
    routes: Vec<&'a [u8; ROUTE_BODY]>,
    sets: Vec<&'a [u8; SET_BODY]>,
}

/// A node, 1 to 8 routes behind it, and any number of set times behind these.
fn blocks(settings: &[u8]) -> Option<Blocks<'_>> {
    let (node, rest) = block(settings, NODE_KIND)?;
    let (routes, rest) = all_blocks(rest, ROUTE_KIND);
    let (sets, rest) = all_blocks(rest, SET_KIND);
    let is_whole = rest.is_empty() && (1..=MOST_ROUTES).contains(&routes.len());
    is_whole.then_some(Blocks { node, routes, sets })
}

/// The bodies of all settings of this kind that stand one behind another, and what is behind them.
fn all_blocks<const N: usize>(mut settings: &[u8], kind: u8) -> (Vec<&[u8; N]>, &[u8]) {
    let mut bodies = Vec::new();
    while let Some((body, behind)) = block(settings, kind) {
        bodies.push(body);
        settings = behind;
    }
    (bodies, settings)
}

/// The body of a setting of this kind, and what is behind it.
fn block<const N: usize>(settings: &[u8], kind: u8) -> Option<(&[u8; N], &[u8])> {
    let (&first, rest) = settings.split_first()?;
    (first == kind).then(|| rest.split_first_chunk()).flatten()
}

/// Gives the routes their set times, if each is right: of a day, of a configured route, in the order
/// of routes and then of minutes, none twice, and no 25th of a route.
fn set_times(routes: &mut [Route], sets: &[&[u8; SET_BODY]]) -> Option<()> {
    let mut before = None;
    for &&[route, upper, lower] in sets {
        let minute = u16::from_be_bytes([upper, lower]);
        let minutes = &mut routes.get_mut(usize::from(route))?.minutes;
        let this = Some((route, minute));
        if u32::from(minute) >= DAY || before >= this || minutes.len() == MOST_SETS {
            return None;
        }
        minutes.push(minute);
        before = this;
    }
    Some(())
}

#[cfg(test)]
mod tests {
    use super::*;
    use crate::fields::Release;
    use crate::settings;

    fn release(release: u8, extension: u8) -> Release {
        Release {
            release,
            extension,
            version: 0,
        }
    }

    /// The edge table's route.
    fn plain() -> settings::Route {
        settings::Route {
            filter: Vec::new(),
            limit: 128,
            age: 0,
            most: 0,
            flag: 0,
            release: release(4, 0),
            first: 7,
            minutes: Vec::new(),
        }
    }

    fn lay(routes: &[settings::Route]) -> Vec<u8> {
        let node = settings::Node {
            address: [0, 0, 0, 0, 0, 0, 0, 0, 0, 0, 0xFF, 0xFF, 192, 0, 2, 1],
            bias: 1_439,
        };
        settings::lay(node, routes)
    }

    /// A manager with a store and an output of its own.
    #[derive(Clone, PartialEq, Debug)]
    struct Desk {
        manager: Manager,
        store: Vec<u8>,
        output: Vec<u8>,
    }

    impl Desk {
        fn new(routes: &[settings::Route]) -> Self {
            let manager = Manager::load(&lay(routes)).unwrap();
            Self {
                store: vec![0xA5; manager.store_octets()],
                output: vec![0xA5; 2_000],
                manager,
            }
        }

        fn open(&mut self, time: u32, route: u32) -> [usize; 4] {
            shown(self.manager.open(&self.store, time, route))
        }

        fn close(&mut self, time: u32, route: u32, reason: u32) -> [usize; 4] {
            let manager = &mut self.manager;
            shown(manager.close(&self.store, &mut self.output, time, route, reason))
        }

        fn tick(&mut self, time: u32) -> [usize; 4] {
            shown(self.manager.tick(&self.store, &mut self.output, time))
        }

        fn receive(&mut self, time: u32, arrival: &Arrival) -> [usize; 4] {
            let manager = &mut self.manager;
            shown(manager.receive(&mut self.store, &mut self.output, time, arrival))
        }

        /// A usable record of this release and format, its body of so many octets.
        fn place(&mut self, release: u32, format: u32, octets: usize) -> [usize; 4] {
            let arrival = Arrival {
                release,
                format,
                body: &vec![0xBB; octets],
                ..Arrival::default()
            };
            self.receive(0, &arrival)
        }

        fn state(&self, route: usize) -> RouteState {
            self.manager.routes().nth(route).unwrap()
        }

        /// The closed files at the output's start, read by the second reader.
        fn files(&self, octets: usize) -> Vec<second::Contents> {
            let mut rest = &self.output[..octets];
            let mut files = Vec::new();
            while let Some(length) = rest.first_chunk() {
                let (file, behind) = rest.split_at(u32::from_be_bytes(*length) as usize);
                files.push(second::read(file).unwrap());
                rest = behind;
            }
            files
        }

        fn file(&self, octets: usize) -> second::Contents {
            self.files(octets).pop().unwrap()
        }

        /// The losses and the unrouted records that the one closed file tells.
        fn told(&self, octets: usize) -> [u32; 2] {
            let private = self.file(octets).private;
            let told = LossCounts::read(&self.output[private]).unwrap();
            [told.losses, told.unrouted]
        }

        /// The losses and the unrouted records that the route's next file will tell.
        fn pending(&self, route: usize) -> [u32; 2] {
            let RouteState {
                losses, unrouted, ..
            } = self.state(route);
            [losses, unrouted]
        }

        /// Does all to a copy, which must come out refused and otherwise unchanged.
        fn refuses(&self, event: impl Fn(&mut Self) -> [usize; 4]) -> [usize; 2] {
            let mut copy = self.clone();
            let [refusal, octets, zero, nought] = event(&mut copy);
            assert!(copy == *self, "a refusal leaves all");
            assert_eq!((zero, nought), (0, 0));
            [refusal - REFUSED, octets]
        }
    }

    const REFUSED: usize = 1_000;

    /// Outcome, route, files, octets; or 1,000 and the refusal, the needed octets, zeros.
    fn shown(answer: Answer) -> [usize; 4] {
        match answer {
            Err((refusal, needed)) => [REFUSED + usize::from(refusal), needed, 0, 0],
            Ok(accepted) => [
                accepted.outcome as usize,
                usize::from(accepted.route),
                usize::from(accepted.files),
                accepted.octets,
            ],
        }
    }

    const PLACED: [usize; 4] = [2, 0, 0, 0];
    const LOST: [usize; 4] = [3, 0, 0, 0];
    const UNROUTED: [usize; 4] = [4, 255, 0, 0];

    const MARK_1: Arrival = Arrival {
        mark: 1,
        key: &[],
        release: 99,
        version: 99,
        extension: 99,
        format: 99,
        ts: 99,
        body: &[],
    };
    const MARK_2: Arrival = Arrival {
        mark: 2,
        key: &[0; 21],
        ..MARK_1
    };

    #[test]
    fn the_edge_tables_indicators() {
        for (losses, octet) in [(0, 0), (1, 129), (126, 254), (127, 255), (40_000, 255)] {
            assert_eq!(indicator(losses, 0), octet);
        }
        for (losses, octet) in [(0, 128), (3, 3), (127, 127), (128, 127), (u32::MAX, 127)] {
            for unrouted in [1, 128, 256, u32::MAX] {
                assert_eq!(indicator(losses, unrouted), octet);
            }
        }
        assert_eq!(indicator(200, 0), 255);
    }

    #[test]
    fn the_edge_tables_limit_rows() {
        let fresh = Desk::new(&[plain()]);
        for (release, fits) in [(4, 63), (7, 60)] {
            assert_eq!(fresh.clone().place(release, 1, fits), PLACED);
            assert_eq!(fresh.clone().place(release, 1, fits + 1), LOST);
        }
        let mut holding = fresh;
        assert_eq!(holding.place(4, 1, 20), PLACED);
        assert_eq!(holding.clone().place(7, 1, 37), PLACED);
        assert_eq!(holding.place(7, 1, 38), [2, 0, 1, 85]);
        assert_eq!(holding.file(85).header.reason, 1);
    }

    #[test]
    fn the_edge_tables_file() {
        let mut desk = Desk::new(&[plain()]);
        let arrival = Arrival {
            release: 4,
            version: 3,
            format: 1,
            ts: 15,
            body: &[0xA1, 0xB2],
            ..Arrival::default()
        };
        assert_eq!(desk.receive(0, &arrival), PLACED);
        assert_eq!(desk.close(0, 0, 4), [5, 0, 1, 67]);
        let expected = [
            0, 0, 0, 0x43, 0, 0, 0, 0x3D, 0x83, 0x83, 0x10, 0x80, 0x08, 0, 0x10, 0x80, 0x08, 0, 0,
            0, 0, 1, 0, 0, 0, 7, 4, 0xFF, 0xFF, 0xFF, 0xFF, 0, 0, 0, 0, 0, 0, 0, 0, 0, 0, 0xFF,
            0xFF, 0xC0, 0, 2, 1, 0, 0, 0, 0, 9, 1, 0, 0, 0, 0, 0, 0, 0, 0, 0, 2, 0x83, 0x2F, 0xA1,
            0xB2,
        ];
        assert_eq!(desk.output[..67], expected);
        assert!(desk.output[67..].iter().all(|&octet| octet == 0xA5));
        assert_eq!(desk.store[..6], expected[61..]);
        assert!(desk.store[6..].iter().all(|&octet| octet == 0xA5));
    }

    #[test]
    fn settings_are_refused_in_order() {
        let right = lay(&[
            plain(),
            settings::Route {
                filter: vec![0],
                ..plain()
            },
        ]);
        let load = |octets: &[u8]| Manager::load(octets).map_or_else(|refusal| refusal, |_| 0);
        let with = |changes: &[(usize, u8)]| {
            let mut octets = right.clone();
            changes.iter().for_each(|&(at, octet)| octets[at] = octet);
            load(&octets)
        };
        assert_eq!(load(&right), 0, "the filters \"\" and 0x00 differ");
        for end in 0..right.len() {
            let whole = end == NODE_OCTETS + ROUTE_OCTETS;
            assert_eq!(load(&right[..end]), u8::from(!whole));
        }
        let route = &right[NODE_OCTETS..][..ROUTE_OCTETS];
        assert_eq!(load(&[&right, &right[..NODE_OCTETS]].concat()), 1);
        assert_eq!(load(&[&right[..NODE_OCTETS], &route.repeat(9)].concat()), 1);
        assert_eq!(load(&[&right[..NODE_OCTETS], &route.repeat(8)].concat()), 3);
        let second = NODE_OCTETS + ROUTE_OCTETS;
        for at in [0, NODE_OCTETS, second] {
            assert_eq!(with(&[(at, 3), (17, 0xFF), (second + 1, 0)]), 1);
        }
        assert_eq!(with(&[(17, 0x0B), (18, 0x3E)]), 0, "1,439");
        assert_eq!(with(&[(17, 0x0B), (18, 0x3F)]), 2);
        let wrong = [
            (1, 21),
            (1, 255),
            (2, 1),
            (21, 1),
            (22, 1),
            (25, 127),
            (34, 2),
            (36, 1),
        ];
        for (at, octet) in wrong {
            // The second route's filter becomes the first's, which is refused only later.
            assert_eq!(with(&[(NODE_OCTETS + at, octet), (second + 1, 0)]), 2);
        }
        assert_eq!(with(&[(NODE_OCTETS + 23, 0x10), (NODE_OCTETS + 25, 0)]), 0);
        assert_eq!(with(&[(NODE_OCTETS + 23, 0x10), (NODE_OCTETS + 25, 1)]), 2);
        assert_eq!(with(&[(NODE_OCTETS + 35, 0xE0), (NODE_OCTETS + 36, 9)]), 0);
        assert_eq!(with(&[(second + 1, 0)]), 3);
    }

    #[test]
    fn an_empty_files_header_shrinks_with_its_first_record() {
        let mut desk = Desk::new(&[settings::Route {
            release: release(7, 9),
            ..plain()
        }]);
        let mut empty = desk.clone();
        assert_eq!(empty.open(0, 0), [1, 0, 0, 0]);
        assert_eq!(empty.close(0, 0, 0), [5, 0, 1, 63]);
        assert_eq!(empty.file(63).header.low.extension, 9);
        assert_eq!(desk.open(0, 0), [1, 0, 0, 0]);
        assert_eq!(desk.place(4, 1, 63), PLACED);
        assert_eq!(desk.close(0, 0, 0), [5, 0, 1, 128]);
        assert_eq!(desk.file(128).header.high.release, 4);
    }

    #[test]
    fn losses_are_cleared_at_closing_and_not_at_opening() {
        let mut desk = Desk::new(&[plain()]);
        assert_eq!(desk.receive(5, &MARK_1), LOST);
        assert_eq!(desk.receive(5, &MARK_1), LOST);
        assert!(!desk.state(0).is_open, "a loss opens nothing");
        assert_eq!(desk.open(0, 0), [1, 0, 0, 0]);
        assert_eq!(desk.place(4, 1, 64), LOST);
        assert_eq!(desk.receive(5, &MARK_2), UNROUTED);
        assert_eq!(desk.pending(0), [3, 1]);
        assert_eq!(desk.close(0, 0, 131), [5, 0, 1, 61]);
        assert_eq!((desk.file(61).header.lost, desk.told(61)), (3, [3, 1]));
        assert_eq!(desk.pending(0), [0, 0]);
        assert_eq!(desk.manager.unrouted(), 1);
        desk.open(0, 0);
        desk.close(0, 0, 0);
        assert_eq!((desk.file(61).header.lost, desk.told(61)), (0, [0, 0]));
    }

    #[test]
    fn a_file_tells_its_losses_in_full() {
        let mut desk = Desk::new(&[plain()]);
        (0..200).for_each(|_| assert_eq!(desk.receive(0, &MARK_1), LOST));
        let mut other = desk.clone();
        (0..300).for_each(|_| assert_eq!(other.receive(0, &MARK_2), UNROUTED));
        for (desk, lost, told) in [(&mut desk, 255, [200, 0]), (&mut other, 127, [200, 300])] {
            assert_eq!(desk.place(4, 1, 0), PLACED);
            assert_eq!(desk.close(0, 0, 4), [5, 0, 1, 65]);
            assert_eq!((desk.file(65).header.lost, desk.told(65)), (lost, told));
        }
    }

    #[test]
    fn the_effective_time_never_runs_back() {
        let mut desk = Desk::new(&[settings::Route { age: 10, ..plain() }]);
        assert_eq!(desk.receive(100, &MARK_1), LOST);
        assert_eq!(desk.open(3, 0), [1, 0, 0, 0]);
        assert_eq!(desk.tick(109), [6, 255, 0, 0]);
        assert_eq!(desk.tick(20), [6, 255, 0, 0]);
        assert_eq!(desk.manager.last(), 109);
        assert_eq!(desk.place(4, 1, 0), PLACED);
        assert_eq!(desk.tick(110), [6, 255, 1, 65]);
        let header = desk.file(65).header;
        assert_eq!((header.opened.hour, header.opened.minute), (1, 40));
        assert_eq!((header.appended.hour, header.appended.minute), (1, 49));
        assert_eq!(header.reason, 2);
    }

    const EIGHT: [&[u8]; 8] = [&[], &[0], &[0, 0], &[1], &[1, 0], &[1, 2], &[2], &[2; 20]];

    fn eight() -> Desk {
        let routes = EIGHT.map(|filter| settings::Route {
            filter: filter.to_vec(),
            age: 1,
            ..plain()
        });
        Desk::new(&routes)
    }

    #[test]
    fn a_tick_closes_up_to_eight_files_in_route_order() {
        let mut desk = eight();
        let octets: usize = EIGHT.iter().map(|filter| 61 + filter.len()).sum();
        (0..8).for_each(|route| assert_eq!(desk.open(0, route)[0], 1));
        desk.output.truncate(octets - 1);
        assert_eq!(desk.refuses(|desk| desk.tick(1)), [17, octets]);
        desk.output.push(0);
        assert_eq!(desk.tick(1), [6, 255, 8, octets]);
        let lengths = desk.files(octets).into_iter().map(|file| file.filter.len());
        assert!(lengths.eq(EIGHT.map(|filter| filter.len())));
        assert_eq!(desk.tick(100), [6, 255, 0, 0]);
    }

    #[test]
    fn the_longest_filter_decides() {
        let mut desk = eight();
        let route = |desk: &mut Desk, key| desk.receive(0, &Arrival { key, ..MARK_1 })[1];
        assert_eq!(route(&mut desk, &[]), 0);
        assert_eq!(route(&mut desk, &[0, 0, 5]), 2);
        assert_eq!(route(&mut desk, &[0, 1]), 1);
        assert_eq!(route(&mut desk, &[1, 1, 2]), 3);
        assert_eq!(route(&mut desk, &[2; 19]), 6);
        assert_eq!(route(&mut desk, &[2; 20]), 7);
        assert_eq!(route(&mut desk, &[9]), 0);
    }

    /// A manager of so many routes, whose filters are 1, 2 and so on.
    fn filtered(routes: u8) -> Desk {
        let route = |first| settings::Route {
            filter: vec![first],
            ..plain()
        };
        let routes: Vec<_> = (1..=routes).map(route).collect();
        Desk::new(&routes)
    }

    #[test]
    fn every_route_counts_unrouted_records_since_its_own_last_closing() {
        let mut desk = filtered(2);
        desk.open(0, 1);
        // Mark 1 and a good key that no filter fits.
        assert_eq!(desk.receive(9, &MARK_1), UNROUTED);
        assert_eq!(desk.receive(9, &MARK_2), UNROUTED);
        assert_eq!([desk.pending(0), desk.pending(1)], [[0, 2], [0, 2]]);
        assert_eq!((desk.manager.unrouted(), desk.manager.last()), (2, 9));
        assert_eq!(desk.close(0, 1, 0), [5, 1, 1, 62]);
        assert_eq!((desk.file(62).header.lost, desk.told(62)), (128, [0, 2]));
        assert_eq!([desk.pending(0), desk.pending(1)], [[0, 2], [0, 0]]);
        assert_eq!(desk.receive(9, &MARK_2), UNROUTED);
        // An opening clears nothing.
        desk.open(0, 0);
        assert_eq!([desk.pending(0), desk.pending(1)], [[0, 3], [0, 1]]);
        assert_eq!(desk.close(0, 0, 0), [5, 0, 1, 62]);
        assert_eq!(desk.told(62), [0, 3]);
        assert_eq!([desk.pending(0), desk.pending(1)], [[0, 0], [0, 1]]);
        assert_eq!(desk.manager.unrouted(), 3);
    }

    #[test]
    fn format_and_flag_close_with_5_and_before_1() {
        let mut desk = Desk::new(&[plain()]);
        desk.place(4, 1, 20);
        assert_eq!(desk.clone().place(5, 1, 20), PLACED, "the flag is 0");
        assert_eq!(desk.place(4, 2, 63), [2, 0, 1, 85]);
        assert_eq!(desk.file(85).header.reason, 5);
        assert_eq!(desk.state(0).count, 1);
        assert_eq!(desk.store[..4], [0, 63, 0x80, 0x40]);
        let mut flagged = Desk::new(&[settings::Route {
            flag: 1,
            release: release(7, 9),
            ..plain()
        }]);
        flagged.open(0, 0);
        assert_eq!(
            flagged.place(4, 1, 1),
            PLACED,
            "an empty file has no release"
        );
        assert_eq!(flagged.place(4, 1, 1), PLACED);
        assert_eq!(flagged.place(7, 1, 1), [2, 0, 1, 71]);
        assert_eq!(flagged.file(71).header.reason, 5);
    }

    #[test]
    fn a_full_file_closes_with_its_last_record_and_numbers_wrap() {
        let full = settings::Route {
            most: 2,
            first: u32::MAX,
            ..plain()
        };
        let mut desk = Desk::new(&[full]);
        assert_eq!(desk.place(4, 1, 3), PLACED);
        assert_eq!(desk.state(0).next, 0);
        desk.output.truncate(74);
        assert_eq!(desk.refuses(|desk| desk.place(4, 1, 3)), [17, 75]);
        desk.output.push(0);
        assert_eq!(desk.place(4, 1, 3), [2, 0, 1, 75]);
        let header = desk.file(75).header;
        assert_eq!((header.reason, header.sequence), (3, u32::MAX));
        desk.open(0, 0);
        desk.close(0, 0, 4);
        assert_eq!(desk.file(61).header.sequence, 0);
        let mut single = Desk::new(&[settings::Route { most: 1, ..plain() }]);
        assert_eq!(single.place(4, 1, 3), [2, 0, 1, 68]);
        assert!(!single.state(0).is_open);
    }

    #[test]
    fn the_longest_bodies() {
        let mut desk = Desk::new(&[settings::Route {
            limit: 1_048_576,
            ..plain()
        }]);
        assert_eq!(desk.place(4, 1, 65_534), PLACED);
        assert_eq!(desk.place(4, 1, 65_535), LOST);
        assert_eq!(desk.place(4, 1, 70_000), LOST);
        assert_eq!(desk.store[..2], [0xFF, 0xFE]);
    }

    #[test]
    fn refusals_come_in_order_and_leave_all() {
        const LATE: u32 = LAST_MINUTE + 1;
        const MARK_3: Arrival = Arrival { mark: 3, ..MARK_1 };
        let mut desk = Desk::new(&[plain()]);
        let mut short = desk.clone();
        short.store.pop();
        assert_eq!(short.refuses(|desk| desk.open(LATE, 9)), [16, 0]);
        assert_eq!(short.refuses(|desk| desk.close(LATE, 9, 9)), [16, 0]);
        assert_eq!(short.refuses(|desk| desk.tick(LATE)), [16, 0]);
        assert_eq!(short.refuses(|desk| desk.receive(LATE, &MARK_3)), [16, 0]);
        assert_eq!(desk.refuses(|desk| desk.open(LATE, 9)), [4, 0]);
        assert_eq!(desk.refuses(|desk| desk.close(LATE, 9, 9)), [4, 0]);
        assert_eq!(desk.refuses(|desk| desk.tick(LATE)), [4, 0]);
        assert_eq!(desk.refuses(|desk| desk.receive(LATE, &MARK_3)), [4, 0]);
        assert_eq!(desk.refuses(|desk| desk.receive(0, &MARK_3)), [5, 0]);
        for route in [1, 255, 256, u32::MAX] {
            assert_eq!(desk.refuses(|desk| desk.open(0, route)), [6, 0]);
            assert_eq!(desk.refuses(|desk| desk.close(0, route, 9)), [6, 0]);
        }
        for reason in [1, 2, 3, 5, 127, 132, 256, 260, u32::MAX] {
            assert_eq!(desk.refuses(|desk| desk.close(0, 0, reason)), [7, 0]);
        }
        assert_eq!(desk.refuses(|desk| desk.close(0, 0, 0)), [15, 0]);
        desk.open(0, 0);
        assert_eq!(desk.refuses(|desk| desk.open(0, 0)), [14, 0]);
        desk.output.truncate(60);
        assert_eq!(desk.refuses(|desk| desk.close(0, 0, 0)), [17, 61]);
        desk.place(4, 1, 63);
        assert_eq!(desk.refuses(|desk| desk.place(4, 1, 0)), [17, 128]);
        assert_eq!(desk.refuses(|desk| desk.place(4, 2, 0)), [17, 128]);
        assert_eq!(desk.place(4, 2, 64), LOST, "a loss needs no output");
    }

    #[test]
    fn fields_are_judged_only_of_usable_records() {
        let mut desk = Desk::new(&[settings::Route {
            filter: vec![1],
            ..plain()
        }]);
        let right = Arrival {
            release: 7,
            version: 31,
            extension: 255,
            format: 7,
            ts: 31,
            ..Arrival::default()
        };
        assert_eq!(desk.clone().receive(0, &right), UNROUTED);
        let wrong = [
            Arrival {
                release: 8,
                ..right
            },
            Arrival {
                release: 263,
                ..right
            },
            Arrival {
                version: 32,
                ..right
            },
            Arrival { format: 8, ..right },
            Arrival { ts: 32, ..right },
            Arrival {
                release: 6,
                ..right
            },
            Arrival {
                key: &[1; 21],
                ..right
            },
            Arrival {
                key: &[1; 21],
                ..MARK_1
            },
            Arrival { mark: 256, ..right },
        ];
        for arrival in wrong {
            assert_eq!(desk.refuses(|desk| desk.receive(0, &arrival)), [5, 0]);
        }
        assert_eq!(desk.receive(0, &MARK_2), UNROUTED);
        assert_eq!(
            desk.receive(
                0,
                &Arrival {
                    key: &[1; 20],
                    ..MARK_1
                }
            ),
            LOST
        );
    }

    #[test]
    fn counters_do_not_pass_their_end() {
        let mut desk = Desk::new(&[plain()]);
        desk.manager.unrouted = u32::MAX;
        desk.manager.routes[0].losses = u32::MAX;
        assert_eq!(desk.refuses(|desk| desk.receive(9, &MARK_1)), [19, 0]);
        assert_eq!(desk.refuses(|desk| desk.receive(9, &MARK_2)), [19, 0]);
        assert_eq!(desk.refuses(|desk| desk.place(4, 1, 64)), [19, 0]);
        assert_eq!(desk.place(4, 1, 63), PLACED);
    }

    #[test]
    fn a_full_counter_of_any_route_refuses_unrouted_records() {
        let mut below = filtered(3);
        below.manager.unrouted = u32::MAX - 1;
        for route in &mut below.manager.routes {
            route.unrouted = u32::MAX - 1;
        }
        let full: [fn(&mut Manager); 4] = [
            |m| m.unrouted = u32::MAX,
            |m| m.routes[0].unrouted = u32::MAX,
            |m| m.routes[1].unrouted = u32::MAX,
            |m| m.routes[2].unrouted = u32::MAX,
        ];
        for put in full {
            let mut desk = below.clone();
            put(&mut desk.manager);
            for arrival in [MARK_1, MARK_2, Arrival::default()] {
                assert_eq!(desk.refuses(|desk| desk.receive(9, &arrival)), [19, 0]);
            }
            let routed = Arrival {
                key: &[1],
                ..MARK_1
            };
            assert_eq!(
                desk.receive(9, &routed),
                LOST,
                "the known losses are not full"
            );
        }
        let mut desk = below;
        assert_eq!(desk.receive(9, &MARK_2), UNROUTED);
        assert_eq!(desk.refuses(|desk| desk.receive(9, &MARK_2)), [19, 0]);
        desk.open(9, 1);
        desk.close(9, 1, 0);
        assert_eq!(desk.told(62), [0, u32::MAX]);
        assert_eq!(desk.refuses(|desk| desk.receive(9, &MARK_2)), [19, 0]);
    }

    #[test]
    fn regions_stand_in_route_order() {
        let mut desk = Desk::new(&[
            settings::Route {
                filter: vec![1],
                limit: 130,
                ..plain()
            },
            settings::Route {
                filter: vec![2],
                limit: 200,
                ..plain()
            },
        ]);
        assert_eq!(desk.store.len(), 330);
        let arrival = Arrival {
            key: &[2, 2],
            body: &[3],
            ..Arrival::default()
        };
        assert_eq!(desk.receive(0, &arrival), [2, 1, 0, 0]);
        assert_eq!(desk.receive(0, &arrival), [2, 1, 0, 0]);
        assert_eq!(desk.store[130..140], [0, 1, 0, 0, 3, 0, 1, 0, 0, 3]);
        let others = [&desk.store[..130], &desk.store[140..]].concat();
        assert!(others.iter().all(|&octet| octet == 0xA5));
    }

    #[test]
    fn a_state_beyond_a_bound_is_told() {
        let mut desk = Desk::new(&[plain()]);
        assert_eq!(desk.place(4, 1, 10), PLACED);
        let right = desk.manager;
        assert!(right.is_within_bounds());
        let breaks: [fn(&mut Manager); 9] = [
            |m| m.routes.clear(),
            |m| m.routes.push(m.routes[0].clone()),
            |m| m.last = LAST_MINUTE + 1,
            |m| m.node.offset = WIDEST_OFFSET + 1,
            |m| m.routes[0].limit = LEAST_LIMIT - 1,
            |m| m.routes[0].filter[19] = 1,
            |m| m.routes[0].most = 1,
            |m| m.routes[0].file.as_mut().unwrap().count = 100,
            |m| m.routes[0].file.as_mut().unwrap().octets = LEAST_LIMIT,
        ];
        for (index, wrong) in breaks.iter().enumerate() {
            let mut manager = right.clone();
            wrong(&mut manager);
            assert!(!manager.is_within_bounds(), "bound {index}");
        }
    }

    /// A route that is cut at these minutes.
    fn cut(minutes: &[u16]) -> settings::Route {
        settings::Route {
            minutes: minutes.to_vec(),
            ..plain()
        }
    }

    #[test]
    fn a_set_minute_falls_once_a_day() {
        // By looking at every minute of three days.
        let falls = |minute: u16, offset: i64, opened: u32, now: u32| {
            let local = |time: u32| (i64::from(time) + offset).rem_euclid(DAY.into());
            (opened + 1..=now).any(|time| local(time) == i64::from(minute))
        };
        for offset in [-1_439, -60, -1, 0, 1, 60, 1_439] {
            for minute in [0, 1, 59, 720, 1_439] {
                for opened in [0, 1, 59, 60, 61, 719, 720, 721, 1_379, 1_380, 1_439, 1_440] {
                    for after in [0, 1, 2, 59, 60, 720, 1_438, 1_439, 1_440, 1_441, 2_880] {
                        let now = opened + after;
                        let next = next_at(minute, offset, opened);
                        let expected = falls(minute, offset, opened, now);
                        assert_eq!(next <= i64::from(now), expected);
                    }
                }
            }
        }
    }

    #[test]
    fn set_minutes_cut_files() {
        let mut desk = Desk::new(&[cut(&[600])]);
        // Opened on the minute it waits a day.
        desk.open(600, 0);
        assert_eq!(desk.tick(600), [6, 255, 0, 0]);
        assert_eq!(desk.tick(2_039), [6, 255, 0, 0]);
        assert_eq!(desk.tick(2_040), [6, 255, 1, 61]);
        assert_eq!(desk.output[26], AT_SET_TIME);
        // A minute before it does not.
        desk.open(3_479, 0);
        assert_eq!(desk.tick(3_479), [6, 255, 0, 0]);
        assert_eq!(desk.tick(3_480), [6, 255, 1, 61]);
        // With the limit reached too the reason is 2.
        let both = settings::Route {
            age: 10,
            ..cut(&[10])
        };
        let mut desk = Desk::new(&[both]);
        desk.open(0, 0);
        assert_eq!(desk.tick(10), [6, 255, 1, 61]);
        assert_eq!(desk.output[26], TOO_OLD);
    }

    /// Records of these versions and lengths of body, at time 5.
    fn packet_of(records: &[(u32, usize)]) -> Vec<u8> {
        let mut octets = Vec::new();
        for &(version, length) in records {
            let body = vec![0xAB; length];
            let arrival = Arrival {
                release: 4,
                version,
                body: &body,
                ..Arrival::default()
            };
            packet::lay(&mut octets, &packet::Delivery { time: 5, arrival });
        }
        octets
    }

    impl Desk {
        fn take(&mut self, output: usize, packet: &[u8]) -> (u8, usize, usize) {
            let output = &mut self.output[..output];
            let taken = self.manager.take(&mut self.store, output, packet);
            (taken.refusal, taken.accepted, taken.answers.len())
        }
    }

    #[test]
    fn a_packet_stops_at_the_first_refusal_and_the_rest_stands() {
        let mut desk = Desk::new(&[plain()]);
        let stopped = packet_of(&[(3, 2), (32, 2), (3, 2)]);
        assert_eq!(desk.take(0, &stopped), (5, 1, 2));
        let mut alone = Desk::new(&[plain()]);
        assert_eq!(alone.take(0, &packet_of(&[(3, 2)])), (0, 1, 1));
        assert_eq!(desk.manager, alone.manager);
        assert_eq!(desk.store, alone.store);
    }

    #[test]
    fn each_record_of_a_packet_is_lent_what_the_others_left() {
        let three = packet_of(&[(3, 40), (3, 40), (3, 40)]);
        // Two files of 105 octets close.
        for (output, taken) in [(210, (0, 3, 3)), (209, (17, 2, 3)), (104, (17, 1, 2))] {
            let mut desk = Desk::new(&[plain()]);
            assert_eq!(desk.take(output, &three), taken, "{output}");
        }
    }

    #[test]
    fn packets_that_are_refused_whole_change_nothing() {
        let mut desk = Desk::new(&[plain()]);
        let fresh = desk.manager.clone();
        let mut cut = packet_of(&[(3, 2), (3, 2)]);
        cut.pop();
        assert_eq!(desk.take(0, &cut), (11, 0, 0));
        assert_eq!(desk.take(0, &[0; 15 * 65]), (11, 0, 0));
        assert_eq!(desk.take(0, &[]), (0, 0, 0));
        desk.store.pop();
        assert_eq!(desk.take(0, &[]), (16, 0, 0));
        assert_eq!(desk.take(0, &packet_of(&[(3, 2)])), (16, 0, 1));
        assert_eq!(desk.manager, fresh);
    }

    #[test]
    fn octets_of_filters_are_counted() {
        let routes = [&b"1234"[..], b"123", b"1", b"A2", b"12C"].map(|filter| settings::Route {
            filter: filter.to_vec(),
            ..plain()
        });
        let compared = |mark: u32, key: &[u8]| {
            let mut manager = Manager::load(&lay(&routes)).expect("right settings");
            let mut store = vec![0; manager.store_octets()];
            let arrival = Arrival {
                mark,
                key,
                ..Arrival::default()
            };
            let answer = manager.receive(&mut store, &mut [], 0, &arrival);
            answer.map(|accepted| (accepted.outcome, accepted.compared))
        };
        // Longer 0, equal 3, a prefix 1, different in the first octet 1, in the last 3.
        assert_eq!(compared(0, b"123"), Ok((Outcome::Placed, 8)));
        assert_eq!(compared(1, b"123"), Ok((Outcome::Lost, 8)));
        assert_eq!(compared(2, b"123"), Ok((Outcome::Unrouted, 0)));
        assert_eq!(compared(0, b"1234"), Ok((Outcome::Placed, 12)));
        assert_eq!(compared(0, b"2"), Ok((Outcome::Unrouted, 1)));
        assert_eq!(compared(0, b""), Ok((Outcome::Unrouted, 0)));
        assert_eq!(compared(3, b"123"), Err((5, 0)));
    }

    #[test]
    fn octets_in_common_are_counted_from_the_first() {
        for length in 0..=20 {
            let octets = vec![0xA5; length];
            assert_eq!(common_octets(&octets, &[0xA5; 20]), length);
            for at in 0..length {
                let mut other = octets.clone();
                other[at] = 0;
                assert_eq!(common_octets(&other, &octets), at);
            }
        }
    }

    #[test]
    fn wrong_set_times_are_22() {
        let right = lay(&[
            cut(&[]),
            settings::Route {
                filter: vec![1],
                ..plain()
            },
        ]);
        let with = |sets: &[(u8, u16)]| {
            let sets = sets.iter().flat_map(|&(r, m)| settings::set_time(r, m));
            let octets: Vec<u8> = right.iter().copied().chain(sets).collect();
            Manager::load(&octets).map(drop)
        };
        let many: Vec<_> = (0..25).map(|minute| (0, minute)).collect();
        assert_eq!(with(&[(0, 0), (0, 1_439), (1, 0), (1, 1_439)]), Ok(()));
        assert_eq!(with(&many[..24]), Ok(()));
        assert_eq!(with(&many), Err(22));
        for wrong in [
            &[(0, 1_440)][..],
            &[(2, 0)],
            &[(0, 5), (0, 5)],
            &[(0, 6), (0, 5)],
            &[(1, 5), (0, 6)],
        ] {
            assert_eq!(with(wrong), Err(22), "{wrong:?}");
        }
    }
}
