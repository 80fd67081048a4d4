//! Drafts of files: right header fields and records at random, laid out apart from either writer.

use crate::counts::LossCounts;
use crate::dates::LAST_DAYS;
use crate::fields::{Header, RecordHeader, Release, Timestamp, EMPTY, NONE, OCTETS};
use crate::random::Random;
use crate::second::{EXTENDED, FIXED};

/// A file before it is laid out.
#[derive(Clone, Default)]
pub struct Draft {
    pub header: Header,
    pub filter: Vec<u8>,
    /// The octets of the private extension, which the header's statement tells to be none, empty or
    /// with octets.
    pub private: Vec<u8>,
    /// The records, one behind another.
    pub records: Vec<u8>,
    /// Where in `records` each begins.
    pub starts: Vec<usize>,
}

/// A file laid out, with the places at which it is damaged.
#[derive(Clone)]
pub struct Laid {
    pub octets: Vec<u8>,
    /// The header length.
    pub header: usize,
    /// Where the filter ends.
    pub filter_end: usize,
    /// Where in the file each record begins.
    pub starts: Vec<usize>,
}

impl Draft {
    /// A right file's draft, its fields anywhere in their ranges.
    pub fn right(random: &mut Random) -> Self {
        let count = match random.below(8) {
            0 => 0,
            1 | 2 => 1,
            7 if random.once_in(8) => random.between(50, 150),
            _ => random.between(2, 8),
        };
        Self::with_records(random, count)
    }

    /// A right file's draft of so many records.
    pub fn with_records(random: &mut Random, count: usize) -> Self {
        let mix = random.below(4);
        let [first, other] = [release(random, mix), release(random, mix)];
        let mut draft = Self {
            header: header(random, first.max(other), first.min(other)),
            filter: some_octets(random, 20),
            ..Self::default()
        };
        match random.below(7) {
            0..=2 => draft.extend(None),
            3 => draft.extend(Some(Vec::new())),
            4 => draft.extend(Some(loss_counts(random))),
            _ => {
                let length = random.pick(&[1, 2, 40]);
                let private = some_octets(random, length);
                draft.extend(Some(private));
            }
        }
        for _ in 0..count {
            // Now and then the release stays, so that files of one release come too.
            let release = if mix == 3 {
                first
            } else {
                release(random, mix)
            };
            let body = some_octets(random, 24);
            draft.add(random, release, &body);
        }
        draft.settle();
        draft
    }

    /// A right file's draft of exactly `length` octets, its bodies `body` octets long.
    pub fn of_length(random: &mut Random, length: usize, release: Release, body: usize) -> Self {
        let mut draft = Self {
            header: header(random, release, release),
            ..Self::default()
        };
        let extension = usize::from(release.release == EXTENDED);
        let room = length - FIXED - 2 * extension;
        let record = 4 + extension + body;
        for _ in 0..room / record {
            let body = random.octets(body);
            draft.add(random, release, &body);
        }
        // The filter takes what the records leave.
        draft.filter = random.octets(room % record);
        draft
    }

    /// Gives the header a private extension of these octets, or none.
    pub fn extend(&mut self, private: Option<Vec<u8>>) {
        self.header.statement = match &private {
            None => NONE,
            Some(octets) if octets.is_empty() => EMPTY,
            Some(_) => OCTETS,
        };
        self.private = private.unwrap_or_default();
    }

    /// Adds a record.
    pub fn add(&mut self, random: &mut Random, release: Release, body: &[u8]) {
        let fields = RecordHeader {
            release,
            format: random.below(8) as u8,
            ts: random.below(32) as u8,
        };
        self.push(&record(fields, body));
    }

    /// Adds a record that is laid out.
    pub fn push(&mut self, record: &[u8]) {
        self.starts.push(self.records.len());
        self.records.extend_from_slice(record);
    }

    /// Takes high and low from the records, if there are any.
    pub fn settle(&mut self) {
        let releases = || self.starts.iter().map(|&at| release_at(&self.records, at));
        if let (Some(high), Some(low)) = (releases().max(), releases().min()) {
            (self.header.high, self.header.low) = (high, low);
        }
    }

    /// The octets of the file and its header.
    pub fn lengths(&self) -> (usize, usize) {
        let private = match self.header.statement {
            NONE => 0,
            _ => self.private.len() + 2,
        };
        let extensions = extension(self.header.high).count() + extension(self.header.low).count();
        let header = FIXED + self.filter.len() + private + extensions;
        (header + self.records.len(), header)
    }

    pub fn lay(&self) -> Laid {
        let of = &self.header;
        let (length, header) = self.lengths();
        let mut octets = Vec::with_capacity(length);
        for number in [length, header] {
            octets.extend_from_slice(&(number as u32).to_be_bytes());
        }
        octets.extend([of.high, of.low].map(release_octet));
        octets.extend_from_slice(&time_octets(&of.opened));
        octets.extend_from_slice(&time_octets(&of.appended));
        octets.extend_from_slice(&(self.starts.len() as u32).to_be_bytes());
        octets.extend_from_slice(&of.sequence.to_be_bytes());
        octets.push(of.reason);
        octets.extend_from_slice(&of.address);
        octets.push(of.lost);
        octets.extend_from_slice(&(self.filter.len() as u16).to_be_bytes());
        octets.extend_from_slice(&self.filter);
        if of.statement != NONE {
            octets.extend_from_slice(&(self.private.len() as u16).to_be_bytes());
            octets.extend_from_slice(&self.private);
        }
        octets.extend(extension(of.high));
        octets.extend(extension(of.low));
        octets.extend_from_slice(&self.records);
        Laid {
            octets,
            header,
            filter_end: FIXED + self.filter.len(),
            starts: self.starts.iter().map(|at| header + at).collect(),
        }
    }
}

/// The octets of a record.
pub fn record(fields: RecordHeader, body: &[u8]) -> Vec<u8> {
    let mut octets = Vec::with_capacity(5 + body.len());
    octets.extend_from_slice(&(body.len() as u16).to_be_bytes());
    octets.extend([
        release_octet(fields.release),
        fields.format << 5 | fields.ts,
    ]);
    octets.extend(extension(fields.release));
    octets.extend_from_slice(body);
    octets
}

/// A right file header with these releases.
fn header(random: &mut Random, high: Release, low: Release) -> Header {
    let mut address = [0; 20];
    address.copy_from_slice(&random.octets(20));
    Header {
        high,
        low,
        opened: time(random),
        appended: time(random),
        sequence: random.word() as u32,
        reason: random.octet(),
        address,
        lost: random.octet(),
        statement: NONE,
    }
}

/// A right timestamp.
fn time(random: &mut Random) -> Timestamp {
    let mut upto = |least, most| random.between(least, most) as u32;
    let month = upto(1, 12);
    let last_day = LAST_DAYS[month as usize - 1];
    Timestamp {
        month,
        day: upto(1, last_day as usize),
        hour: upto(0, 23),
        minute: upto(0, 59),
        sign: upto(0, 1),
        dev_hour: upto(0, 23),
        dev_minute: upto(0, 59),
    }
}

/// A release: below 7, 7, or either.
pub(crate) fn release(random: &mut Random, mix: usize) -> Release {
    let release = match mix {
        0 => random.below(7) as u8,
        1 => EXTENDED,
        _ => random.pick(&[0, 3, 4, 5, 6, EXTENDED, EXTENDED]),
    };
    let extension = match release {
        EXTENDED if random.once_in(4) => random.octet(),
        EXTENDED => random.below(4) as u8,
        _ => 0,
    };
    Release {
        release,
        extension,
        version: random.below(32) as u8,
    }
}

/// A private extension as the manager writes it, of any numbers.
fn loss_counts(random: &mut Random) -> Vec<u8> {
    let counts = LossCounts {
        losses: random.word() as u32,
        unrouted: random.word() as u32,
    };
    counts.octets().to_vec()
}

/// Mostly up to `usual` octets, at times many, seldom the most that 16 bits may count.
fn some_octets(random: &mut Random, usual: usize) -> Vec<u8> {
    let length = match random.below(400) {
        0 => random.between(65_530, 65_534),
        1..=12 => random.between(usual, 3_000),
        _ => random.between(0, usual),
    };
    random.octets(length)
}

pub(crate) fn release_octet(release: Release) -> u8 {
    release.release << 5 | release.version
}

/// The extension octet if the release has one.
fn extension(release: Release) -> impl Iterator<Item = u8> {
    (release.release == EXTENDED)
        .then_some(release.extension)
        .into_iter()
}

/// The release of the record at an offset.
fn release_at(records: &[u8], at: usize) -> Release {
    let release = records[at + 2] >> 5;
    Release {
        release,
        extension: match release {
            EXTENDED => records[at + 4],
            _ => 0,
        },
        version: records[at + 2] & 31,
    }
}

/// A timestamp's fields with their widths, from the top bit.
pub(crate) const TIME_WIDTHS: [u32; 7] = [4, 5, 5, 6, 1, 5, 6];

fn time_octets(time: &Timestamp) -> [u8; 4] {
    let fields = [
        time.month,
        time.day,
        time.hour,
        time.minute,
        time.sign,
        time.dev_hour,
        time.dev_minute,
    ];
    let packed = fields
        .iter()
        .zip(TIME_WIDTHS)
        .fold(0, |word, (field, width)| word << width | field);
    packed.to_be_bytes()
}

#[cfg(test)]
mod tests {
    use super::*;
    use crate::second;

    #[test]
    fn a_draft_is_laid_out_as_it_says() {
        let mut random = Random::new(2);
        for _ in 0..500 {
            let draft = Draft::right(&mut random);
            let laid = draft.lay();
            let contents = second::read(&laid.octets).unwrap();
            assert_eq!(contents.header, draft.header);
            assert_eq!(laid.octets[contents.filter], draft.filter);
            assert_eq!(laid.octets[contents.private], draft.private);
            assert_eq!(laid.octets[contents.records], draft.records);
            assert_eq!(contents.count, draft.starts.len());
        }
    }
}
