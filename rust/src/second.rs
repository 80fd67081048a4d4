//! The second reader and writer of TS 32.297 files, and the timestamp of a minute: written in safe
//! Rust from documents 01 and 02 and clause 6.1 of TS 32.297 V13.1.0, and from nothing of the proved
//! code.

#![forbid(unsafe_code)]

use crate::fields::{Header, RecordHeader, Release, Timestamp, EMPTY, NONE, OCTETS};
use std::ops::Range;

/// The most octets that a file may have.
pub const LONGEST_FILE: usize = 1_048_576;
/// Octets of a file header before its routeing filter.
pub const FIXED: usize = 50;
/// The length that records, filters and private extensions may not have.
pub const RESERVED: usize = 65_535;
/// The release whose extension octet is present.
pub const EXTENDED: u8 = 7;
/// The last minute of 2099, counted from 2000-01-01 00:00 UTC.
pub const LAST_MINUTE: u32 = 52_595_999;
/// The furthest UTC offset to either side, in minutes.
pub const WIDEST_OFFSET: i64 = 1_439;

/// What a file holds: its header fields, and the places of its parts in the file.
#[derive(Clone, Debug, PartialEq, Eq)]
pub struct Contents {
    pub header: Header,
    pub filter: Range<usize>,
    /// Empty when there is no private extension, and when that is.
    pub private: Range<usize>,
    pub records: Range<usize>,
    pub count: usize,
}

/// A record: its header's fields, its header's length, and its body as a part of the file.
#[derive(Clone, Copy, Debug, PartialEq, Eq)]
pub struct Record<'a> {
    pub fields: RecordHeader,
    pub header: usize,
    pub body: &'a [u8],
}

impl Record<'_> {
    /// Octets of header and body together: the way to the next record.
    pub fn octets(&self) -> usize {
        self.header + self.body.len()
    }
}

/// Reads a file, or refuses it with the first of 8 to 13 that applies.
pub fn read(file: &[u8]) -> Result<Contents, u8> {
    let fixed = whole(file).ok_or(8)?;
    let places = places(file, fixed).ok_or(9)?;
    let opened = unpack(word(fixed, 10));
    let appended = unpack(word(fixed, 14));
    let lengths_usable = places.filter.len() != RESERVED && places.private.len() != RESERVED;
    if !(is_right(&opened) && is_right(&appended) && lengths_usable) {
        return Err(10);
    }
    let walked = walk(&file[places.records.clone()]).ok_or(11)?;
    if walked.count != word(fixed, 18) as usize {
        return Err(12);
    }
    if !spans(&walked, places.high, places.low) {
        return Err(13);
    }
    let mut address = [0; 20];
    address.copy_from_slice(&fixed[27..47]);
    Ok(Contents {
        header: Header {
            high: places.high,
            low: places.low,
            opened,
            appended,
            sequence: word(fixed, 22),
            reason: fixed[26],
            address,
            lost: fixed[47],
            statement: places.statement,
        },
        filter: places.filter,
        private: places.private,
        records: places.records,
        count: walked.count,
    })
}

/// The record that begins at an offset, or 11 if no whole record begins there.
pub fn step(file: &[u8], at: usize) -> Result<Record<'_>, u8> {
    file.get(at..).and_then(first_record).ok_or(11)
}

/// Writes a file of these fields and records and returns its length; or refuses, leaving the
/// output as it was, with the refusal's number and the needed octets (0 but for 17).
pub fn write(
    header: &Header,
    filter: &[u8],
    private: &[u8],
    records: &[u8],
    output: &mut [u8],
) -> Result<usize, (u8, usize)> {
    if !fits_widths(header) || !bears_out(private, header.statement) {
        return Err((2, 0));
    }
    let times_right = is_right(&header.opened) && is_right(&header.appended);
    if !times_right || filter.len() >= RESERVED || private.len() >= RESERVED {
        return Err((10, 0));
    }
    let walked = walk(records).ok_or((11, 0))?;
    if !spans(&walked, header.high, header.low) {
        return Err((13, 0));
    }
    let header_octets = header_length(header, filter, private);
    let octets = header_octets + records.len();
    if octets > LONGEST_FILE {
        return Err((8, 0));
    }
    let file = output.get_mut(..octets).ok_or((17, octets))?;
    let fixed = lay_fixed(header, filter, [octets, header_octets, walked.count]);
    let rest = put(file, &fixed);
    let rest = put(rest, filter);
    let rest = put_private(rest, header.statement, private);
    let rest = put_extension(rest, header.high);
    let rest = put_extension(rest, header.low);
    put(rest, records);
    Ok(octets)
}

/// The four octets of a minute in local time, or refusal 4 (minutes) or 2 (offset).
pub fn timestamp(minutes: u32, offset: i64) -> Result<[u8; 4], u8> {
    if minutes > LAST_MINUTE {
        return Err(4);
    }
    if !(-WIDEST_OFFSET..=WIDEST_OFFSET).contains(&offset) {
        return Err(2);
    }
    let local = i64::from(minutes) + offset;
    let (month, day) = civil_from_days(local.div_euclid(1_440) + DAYS_TO_2000);
    let of_day = local.rem_euclid(1_440) as u32;
    let deviation = offset.unsigned_abs() as u32;
    let fields = Timestamp {
        month,
        day,
        hour: of_day / 60,
        minute: of_day % 60,
        sign: u32::from(offset >= 0),
        dev_hour: deviation / 60,
        dev_minute: deviation % 60,
    };
    Ok(pack(&fields).to_be_bytes())
}

/// The fixed part of a file whose length is allowed and as its length field says.
fn whole(file: &[u8]) -> Option<&[u8; FIXED]> {
    let fixed = file.first_chunk()?;
    let is_whole = file.len() <= LONGEST_FILE && word(fixed, 0) as usize == file.len();
    is_whole.then_some(fixed)
}

/// Where a header's parts stand, and the releases that take octets behind them.
struct Places {
    filter: Range<usize>,
    /// What the lengths say of a private extension.
    statement: u8,
    private: Range<usize>,
    records: Range<usize>,
    high: Release,
    low: Release,
}

/// The header's parts if they add up to the header length, with a private extension or without.
fn places(file: &[u8], fixed: &[u8; FIXED]) -> Option<Places> {
    let length = word(fixed, 4) as usize;
    if !(FIXED..=file.len()).contains(&length) {
        return None;
    }
    let extensions = extension_octets(fixed[8] >> 5) + extension_octets(fixed[9] >> 5);
    let private_end = length.checked_sub(extensions)?;
    let filter = FIXED..FIXED + half_word(&fixed[48..])?;
    let (statement, private_start) = match private_end.checked_sub(filter.end)? {
        0 => (NONE, filter.end),
        // A length has two octets.
        1 => return None,
        octets if half_word(&file[filter.end..])? + 2 == octets => {
            let statement = if octets == 2 { EMPTY } else { OCTETS };
            (statement, filter.end + 2)
        }
        _ => return None,
    };
    // None, one or two octets: the high extension is the first of them, the low one the last.
    let tail = &file[private_end..length];
    Some(Places {
        high: release(fixed[8], tail.first()),
        low: release(fixed[9], tail.last()),
        filter,
        statement,
        private: private_start..private_end,
        records: length..file.len(),
    })
}

/// A release and version octet, with the extension only if the release has one.
fn release(octet: u8, extension: Option<&u8>) -> Release {
    let release = octet >> 5;
    Release {
        release,
        extension: match extension {
            Some(&extension) if release == EXTENDED => extension,
            _ => 0,
        },
        version: octet & 31,
    }
}

/// The record at the start of these octets, if a whole one is there.
#[inline]
fn first_record(octets: &[u8]) -> Option<Record<'_>> {
    let (head, rest) = octets.split_first_chunk::<4>()?;
    let (extension, rest) = match head[2] >> 5 {
        EXTENDED => rest.split_first().map(|(&octet, rest)| (octet, rest))?,
        _ => (0, rest),
    };
    let body = usize::from(u16::from_be_bytes([head[0], head[1]]));
    if body == RESERVED {
        return None;
    }
    Some(Record {
        fields: RecordHeader {
            release: Release {
                release: head[2] >> 5,
                extension,
                version: head[2] & 31,
            },
            format: head[3] >> 5,
            ts: head[3] & 31,
        },
        header: octets.len() - rest.len(),
        body: rest.get(..body)?,
    })
}

/// What a walk over all records finds out; high and low say nothing when the count is 0.
struct Walked {
    count: usize,
    high: u16,
    low: u16,
}

/// Walks records one behind another to their end.
fn walk(records: &[u8]) -> Option<Walked> {
    let mut walked = Walked {
        count: 0,
        high: u16::MIN,
        low: u16::MAX,
    };
    let mut rest = records;
    while !rest.is_empty() {
        let record = first_record(rest)?;
        let rank = rank(record.fields.release);
        walked.high = walked.high.max(rank);
        walked.low = walked.low.min(rank);
        walked.count += 1;
        rest = &rest[record.octets()..];
    }
    Some(walked)
}

/// A release's place in the order, in the 16 bits that release, extension and version have in all:
/// one comparison for each record in place of three.
fn rank(release: Release) -> u16 {
    let [high, middle, low] = [release.release, release.extension, release.version].map(u16::from);
    high << 13 | middle << 5 | low
}

/// Whether high and low are right: exactly those of the records, or in order if there are none.
fn spans(walked: &Walked, high: Release, low: Release) -> bool {
    match walked.count {
        0 => low <= high,
        _ => rank(high) == walked.high && rank(low) == walked.low,
    }
}

/// Whether each field has room in its bits, and no release below 7 has an extension.
fn fits_widths(header: &Header) -> bool {
    let release_fits = |of: &Release| {
        of.release <= 7 && of.version <= 31 && (of.release == EXTENDED || of.extension == 0)
    };
    [header.high, header.low].iter().all(release_fits)
        && [header.opened, header.appended].iter().all(time_fits)
}

fn time_fits(time: &Timestamp) -> bool {
    time.month <= 15
        && time.day <= 31
        && time.hour <= 31
        && time.minute <= 63
        && time.sign <= 1
        && time.dev_hour <= 31
        && time.dev_minute <= 63
}

/// The last day that a month, 1 to 12, can have; no year is written, so February always has 29.
fn last_day(month: u32) -> u32 {
    match month {
        2 => 29,
        4 | 6 | 9 | 11 => 30,
        _ => 31,
    }
}

/// Whether private octets are as they are stated to be.
fn bears_out(private: &[u8], statement: u8) -> bool {
    match statement {
        NONE | EMPTY => private.is_empty(),
        OCTETS => !private.is_empty(),
        _ => false,
    }
}

/// Whether a timestamp is right: a day that its month can have, either sign.
fn is_right(time: &Timestamp) -> bool {
    (1..=12).contains(&time.month)
        && (1..=last_day(time.month)).contains(&time.day)
        && time.hour <= 23
        && time.minute <= 59
        && time.dev_hour <= 23
        && time.dev_minute <= 59
}

fn unpack(word: u32) -> Timestamp {
    Timestamp {
        month: word >> 28,
        day: word >> 23 & 31,
        hour: word >> 18 & 31,
        minute: word >> 12 & 63,
        sign: word >> 11 & 1,
        dev_hour: word >> 6 & 31,
        dev_minute: word & 63,
    }
}

fn pack(time: &Timestamp) -> u32 {
    time.month << 28
        | time.day << 23
        | time.hour << 18
        | time.minute << 12
        | time.sign << 11
        | time.dev_hour << 6
        | time.dev_minute
}

/// The file header's octets for these parts: it has no one length.
fn header_length(header: &Header, filter: &[u8], private: &[u8]) -> usize {
    let private_octets = match header.statement {
        NONE => 0,
        _ => 2 + private.len(),
    };
    let extensions = extension_octets(header.high.release) + extension_octets(header.low.release);
    FIXED + filter.len() + private_octets + extensions
}

fn extension_octets(release: u8) -> usize {
    usize::from(release == EXTENDED)
}

/// The first 50 octets; `numbers` are file length, header length and count, known to be small.
fn lay_fixed(header: &Header, filter: &[u8], numbers: [usize; 3]) -> [u8; FIXED] {
    let [file, header_octets, count] = numbers.map(|number| (number as u32).to_be_bytes());
    let release_octet = |of: Release| of.release << 5 | of.version;
    let mut fixed = [0; FIXED];
    fixed[0..4].copy_from_slice(&file);
    fixed[4..8].copy_from_slice(&header_octets);
    fixed[8] = release_octet(header.high);
    fixed[9] = release_octet(header.low);
    fixed[10..14].copy_from_slice(&pack(&header.opened).to_be_bytes());
    fixed[14..18].copy_from_slice(&pack(&header.appended).to_be_bytes());
    fixed[18..22].copy_from_slice(&count);
    fixed[22..26].copy_from_slice(&header.sequence.to_be_bytes());
    fixed[26] = header.reason;
    fixed[27..47].copy_from_slice(&header.address);
    fixed[47] = header.lost;
    fixed[48..50].copy_from_slice(&(filter.len() as u16).to_be_bytes());
    fixed
}

/// Copies octets to the start of `output` and returns what is behind them.
fn put<'a>(output: &'a mut [u8], octets: &[u8]) -> &'a mut [u8] {
    let (here, behind) = output.split_at_mut(octets.len());
    here.copy_from_slice(octets);
    behind
}

fn put_private<'a>(output: &'a mut [u8], statement: u8, private: &[u8]) -> &'a mut [u8] {
    if statement == NONE {
        return output;
    }
    let rest = put(output, &(private.len() as u16).to_be_bytes());
    put(rest, private)
}

fn put_extension(output: &mut [u8], of: Release) -> &mut [u8] {
    match of.release {
        EXTENDED => put(output, &[of.extension]),
        _ => output,
    }
}

/// Days from 1970-01-01 to 2000-01-01.
const DAYS_TO_2000: i64 = 10_957;

/// Month and day of a day counted from 1970-01-01, by the whole Gregorian calendar with years that
/// begin in March, so that the leap day is a year's last. The proved code counts so too, in fewer
/// steps, so a test holds this to a walk from day to day.
fn civil_from_days(days: i64) -> (u32, u32) {
    let day_of_era = (days + 719_468).rem_euclid(146_097);
    let year_of_era =
        (day_of_era - day_of_era / 1_460 + day_of_era / 36_524 - day_of_era / 146_096) / 365;
    let day_of_year = day_of_era - (365 * year_of_era + year_of_era / 4 - year_of_era / 100);
    let month_from_march = (5 * day_of_year + 2) / 153;
    let day = day_of_year - (153 * month_from_march + 2) / 5 + 1;
    let month = (month_from_march + 2) % 12 + 1;
    (month as u32, day as u32)
}

/// The 32-bit number at an offset of the fixed part.
fn word(fixed: &[u8; FIXED], at: usize) -> u32 {
    let octets = [fixed[at], fixed[at + 1], fixed[at + 2], fixed[at + 3]];
    u32::from_be_bytes(octets)
}

/// The 16-bit number at the start of these octets.
fn half_word(octets: &[u8]) -> Option<usize> {
    let octets = octets.first_chunk::<2>()?;
    Some(usize::from(u16::from_be_bytes(*octets)))
}

#[cfg(test)]
mod tests {
    use super::*;
    use crate::dates;

    /// Document 01's file: one record of release 4, closed with 4.
    const EXAMPLE: &str = "00000038 00000032 83 83 10800800 10800800 00000001 00000007 04 FFFFFFFF
        00000000000000000000FFFFC0000201 00 0000 0002 83 2F A1B2";

    /// The same file as the manager closes it: behind the filter there are its loss counts.
    const CLOSED: &str = "00000043 0000003D 83 83 10800800 10800800 00000001 00000007 04 FFFFFFFF
        00000000000000000000FFFFC0000201 00 0000 0009 01 00000000 00000000 0002 83 2F A1B2";

    fn octets(hexadecimal: &str) -> Vec<u8> {
        let digits: Vec<u32> = hexadecimal.chars().filter_map(|c| c.to_digit(16)).collect();
        digits
            .chunks(2)
            .map(|pair| (pair[0] * 16 + pair[1]) as u8)
            .collect()
    }

    fn example_header() -> Header {
        read(&octets(EXAMPLE)).unwrap().header
    }

    /// A file of the example's fields with this fixed part's releases, these header octets behind
    /// it, and these records; its lengths and count are set.
    fn file(high_low: [u8; 2], f: u16, behind: &[u8], records: &[u8], count: u8) -> Vec<u8> {
        let mut file = octets(EXAMPLE)[..FIXED].to_vec();
        file.extend_from_slice(behind);
        set(&mut file, 4, FIXED + behind.len());
        file[8..10].copy_from_slice(&high_low);
        file[18..22].copy_from_slice(&[0, 0, 0, count]);
        file[48..50].copy_from_slice(&f.to_be_bytes());
        file.extend_from_slice(records);
        mend(file)
    }

    fn set(file: &mut [u8], at: usize, number: usize) {
        file[at..at + 4].copy_from_slice(&(number as u32).to_be_bytes());
    }

    /// Makes the length field that of the file.
    fn mend(mut file: Vec<u8>) -> Vec<u8> {
        let length = file.len();
        set(&mut file, 0, length);
        file
    }

    fn refusal(file: &[u8]) -> u8 {
        read(file).map_or_else(|refusal| refusal, |_| 0)
    }

    fn written(header: &Header, filter: &[u8], private: &[u8], records: &[u8]) -> (u8, usize) {
        let mut output = [0xA5; 200];
        let answer = write(header, filter, private, records, &mut output);
        if answer.is_err() {
            assert_eq!(output, [0xA5; 200], "a refusal leaves the output");
        }
        answer.map_or_else(|refused| refused, |octets| (0, octets))
    }

    #[test]
    fn the_documents_file_is_read() {
        let file = octets(EXAMPLE);
        let contents = read(&file).unwrap();
        let release = Release {
            release: 4,
            extension: 0,
            version: 3,
        };
        assert_eq!(file.len(), 56);
        assert_eq!(
            (contents.header.high, contents.header.low),
            (release, release)
        );
        assert_eq!(contents.header.sequence, 7);
        assert_eq!((contents.header.reason, contents.header.lost), (4, 0));
        assert_eq!(contents.header.address[..4], [255; 4]);
        assert_eq!((contents.filter, contents.private), (50..50, 50..50));
        assert_eq!((contents.records, contents.count), (50..56, 1));
        let record = step(&file, 50).unwrap();
        assert_eq!((record.fields.format, record.fields.ts), (1, 15));
        assert_eq!((record.header, record.body), (4, &[0xA1, 0xB2][..]));
        assert!(std::ptr::eq(record.body, &file[54..56]), "no copy");
    }

    #[test]
    fn the_documents_file_is_written() {
        let file = octets(EXAMPLE);
        let header = example_header();
        let mut output = [0xA5; 60];
        assert_eq!(write(&header, &[], &[], &file[50..], &mut output), Ok(56));
        assert_eq!(output[..56], file);
        assert_eq!(output[56..], [0xA5; 4]);
        let short = &mut [0xA5; 55];
        assert_eq!(write(&header, &[], &[], &file[50..], short), Err((17, 56)));
        assert_eq!(short, &[0xA5; 55]);
    }

    #[test]
    fn the_managers_file_is_read_and_written() {
        let file = octets(CLOSED);
        let contents = read(&file).unwrap();
        let mut expected = example_header();
        expected.statement = OCTETS;
        assert_eq!(contents.header, expected);
        assert_eq!((contents.filter, contents.private), (50..50, 52..61));
        assert_eq!((contents.records, contents.count), (61..67, 1));
        let header = contents.header;
        let mut output = [0xA5; 70];
        let written = write(&header, &[], &file[52..61], &file[61..], &mut output);
        assert_eq!(written, Ok(67));
        assert_eq!(output[..67], file);
        assert_eq!(output[67..], [0xA5; 3]);
    }

    #[test]
    fn the_edge_tables_timestamps() {
        let rows = [
            (0, 0, [0x10, 0x80, 0x08, 0x00]),
            (0, -60, [0xCF, 0xDC, 0x00, 0x40]),
            (84_960, 0, [0x2E, 0x80, 0x08, 0x00]),
            (8_547_030, 120, [0x40, 0xB1, 0xE8, 0x80]),
        ];
        for (minutes, offset, octets) in rows {
            assert_eq!(timestamp(minutes, offset), Ok(octets));
        }
        assert_eq!(timestamp(LAST_MINUTE + 1, 1_440), Err(4));
        assert_eq!(timestamp(LAST_MINUTE, 1_440), Err(2));
        assert_eq!(timestamp(0, -1_440), Err(2));
    }

    #[test]
    fn local_time_may_leave_the_century_by_a_day() {
        let fields = |minutes, offset| {
            let time = unpack(u32::from_be_bytes(timestamp(minutes, offset).unwrap()));
            (time.month, time.day, time.hour, time.minute, time.sign)
        };
        assert_eq!(fields(0, -1_439), (12, 31, 0, 1, 0));
        assert_eq!(fields(LAST_MINUTE, 0), (12, 31, 23, 59, 1));
        assert_eq!(fields(LAST_MINUTE, 1_439), (1, 1, 23, 58, 1));
    }

    #[test]
    fn every_day_follows_the_day_before() {
        for (days, date) in (DAYS_TO_2000 - 1..).zip(dates::walked()) {
            assert_eq!(civil_from_days(days), date);
        }
    }

    #[test]
    fn the_header_has_no_one_length() {
        let seven = [0, 0, 0xE3, 0x2F, 9];
        let four = [0, 0, 0x83, 0x2F];
        let both = [&seven[..], &four[..]].concat();
        assert_eq!(refusal(&file([0xE3, 0xE3], 0, &[9, 9], &seven, 1)), 0);
        assert_eq!(refusal(&file([0xE3, 0x83], 0, &[9], &both, 2)), 0);
        assert_eq!(refusal(&file([0x83, 0x83], 0, &[], &four, 1)), 0);
        assert_eq!(refusal(&file([0xE3, 0x83], 0, &[], &both, 2)), 9);
        assert_eq!(refusal(&file([0xE3, 0xE3], 0, &[9, 8], &seven, 1)), 13);
        let wide = file([0xE3, 0x83], 2, &[1, 2, 0, 1, 5, 9], &both, 2);
        let contents = read(&wide).unwrap();
        assert_eq!((contents.filter, contents.private), (50..52, 54..55));
        assert_eq!(contents.header.high.extension, 9);
        assert_eq!(contents.header.low.extension, 0);
    }

    #[test]
    fn lengths_that_are_refused_with_8() {
        let right = octets(EXAMPLE);
        assert_eq!(refusal(&[]), 8);
        assert_eq!(refusal(&right[..49]), 8);
        assert_eq!(refusal(&right[..55]), 8);
        assert_eq!(refusal(&[&right[..], &[0]].concat()), 8);
        let longest = vec![0; LONGEST_FILE - FIXED];
        assert_eq!(refusal(&file([0, 0], 0, &[], &longest, 0)), 11);
        let too_long = vec![0; LONGEST_FILE + 1 - FIXED];
        assert_eq!(refusal(&file([0, 0], 0, &[], &too_long, 0)), 8);
    }

    #[test]
    fn header_lengths_that_are_refused_with_9() {
        let empty = |f, behind: &[u8]| refusal(&file([0x83, 0x83], f, behind, &[], 0));
        assert_eq!(empty(0, &[]), 0);
        assert_eq!(empty(0, &[0]), 9, "one octet too many");
        assert_eq!(empty(0, &[0, 0]), 0, "p may be 0");
        assert_eq!(empty(0, &[0, 1]), 9, "no octet of a private extension");
        assert_eq!(empty(0, &[0, 1, 5]), 0);
        assert_eq!(empty(0, &[0, 2, 5]), 9);
        assert_eq!(empty(0, &[0, 0, 5]), 9);
        assert_eq!(empty(1, &[]), 9);
        for length in [0, 49, 51, 52, 57, usize::MAX] {
            let mut wrong = octets(EXAMPLE);
            set(&mut wrong, 4, length);
            assert_eq!(refusal(&wrong), 9);
        }
    }

    #[test]
    fn the_reserved_length_is_10_only_where_the_sum_fits() {
        let filter = vec![1; RESERVED];
        let private = [&[255, 255], &filter[..]].concat();
        let empty = |f, behind: &[u8]| refusal(&file([0x83, 0x83], f, behind, &[], 0));
        assert_eq!(empty(65_535, &filter), 10);
        assert_eq!(empty(65_535, &filter[1..]), 9);
        assert_eq!(empty(65_534, &filter[1..]), 0);
        assert_eq!(empty(0, &private), 10);
        assert_eq!(empty(0, &private[1..]), 9);
        assert_eq!(empty(65_534, &[&filter[1..], &private].concat()), 10);
    }

    #[test]
    fn timestamps_are_judged_field_by_field() {
        let with = |word: u32, at: usize| {
            let mut file = octets(EXAMPLE);
            set(&mut file, at, word as usize);
            refusal(&file)
        };
        let right = 0x2E80_0000; // 29 February, minus 0
        for at in [10, 14] {
            assert_eq!(with(right, at), 0);
            assert_eq!(with(right & !(15 << 28), at), 10, "month 0");
            assert_eq!(with(13 << 28 | 1 << 23, at), 10, "month 13");
            assert_eq!(with(right & !(31 << 23), at), 10, "day 0");
            let days = [31, 29, 31, 30, 31, 30, 31, 31, 30, 31, 30, 31];
            for (month, last) in (1..).zip(days) {
                assert_eq!(with(month << 28 | last << 23, at), 0, "the last of {month}");
                let beyond = month << 28 | (last + 1) << 23;
                assert!(last == 31 || with(beyond, at) == 10, "one more in {month}");
            }
            assert_eq!(with(right | 24 << 18, at), 10);
            assert_eq!(with(right | 60 << 12, at), 10);
            assert_eq!(with(right | 24 << 6, at), 10);
            assert_eq!(with(right | 60, at), 10);
        }
    }

    #[test]
    fn a_step_needs_a_whole_record() {
        assert_eq!(step(&[0, 0, 0x83, 0], 0).unwrap().octets(), 4);
        assert_eq!(step(&[0, 0, 0xE3, 0], 0), Err(11), "release 7, four octets");
        assert_eq!(step(&[0, 0, 0xE3, 0, 2], 0).unwrap().octets(), 5);
        assert_eq!(step(&[0, 1, 0x83, 0], 0), Err(11));
        let mut longest = vec![0; 4 + RESERVED];
        longest[..2].copy_from_slice(&[255, 255]);
        assert_eq!(step(&longest, 0), Err(11));
        longest[1] = 254;
        assert_eq!(step(&longest, 0).unwrap().octets(), RESERVED + 3);
        for at in [1, 4, 5, usize::MAX] {
            assert_eq!(step(&[0, 0, 0x83, 0], at), Err(11));
        }
    }

    #[test]
    fn count_and_order_are_judged_after_the_records() {
        let four = [0, 0, 0x83, 0x2F];
        assert_eq!(refusal(&file([0x83, 0x83], 0, &[], &four[..3], 0)), 11);
        assert_eq!(refusal(&file([0x82, 0x83], 0, &[], &four, 2)), 12);
        assert_eq!(refusal(&file([0x84, 0x83], 0, &[], &four, 1)), 13);
        assert_eq!(refusal(&file([0x83, 0x82], 0, &[], &four, 1)), 13);
        assert_eq!(refusal(&file([0x83, 0x84], 0, &[], &[], 0)), 13);
        assert_eq!(refusal(&file([0x84, 0x83], 0, &[], &[], 0)), 0);
        assert_eq!(refusal(&file([0xE0, 0xFF], 0, &[2, 1], &[], 0)), 0);
        assert_eq!(refusal(&file([0xFF, 0xE0], 0, &[1, 2], &[], 0)), 13);
    }

    #[test]
    fn any_reason_lost_octet_and_address_are_kept() {
        let mut file = octets(EXAMPLE);
        file[26..48].fill(0xEE);
        let header = read(&file).unwrap().header;
        assert_eq!((header.reason, header.lost), (0xEE, 0xEE));
        assert_eq!(header.address, [0xEE; 20]);
    }

    #[test]
    fn the_writers_refusals_come_in_order() {
        let long = vec![0; RESERVED];
        let cut = [0, 0, 0x83];
        let mut header = example_header();
        header.low.version = 4;
        header.opened.month = 16;
        assert_eq!(written(&header, &long, &[], &cut), (2, 0));
        header.opened.month = 13;
        assert_eq!(written(&header, &[], &[], &cut), (10, 0));
        assert_eq!(written(&header, &[], &[1], &cut), (2, 0));
        header.opened.month = 1;
        assert_eq!(written(&header, &long, &[], &cut), (10, 0));
        header.statement = OCTETS;
        assert_eq!(written(&header, &[], &long, &cut), (10, 0));
        header.statement = NONE;
        assert_eq!(written(&header, &[], &[], &cut), (11, 0));
        assert_eq!(written(&header, &[], &[], &[]), (13, 0));
        header.low.version = 3;
        assert_eq!(written(&header, &long[1..], &[], &[]), (17, 65_584));
        header.statement = OCTETS;
        assert_eq!(written(&header, &[1], &[2, 3], &[]), (0, 55));
        header.statement = NONE;
        header.low.extension = 1;
        assert_eq!(written(&header, &[], &[], &[]), (2, 0));
    }

    #[test]
    fn extensions_of_three_kinds_are_told_apart() {
        let records = &octets(EXAMPLE)[50..];
        let mut header = example_header();
        for (statement, private, behind) in [
            (NONE, &[][..], &[][..]),
            (EMPTY, &[], &[0, 0]),
            (OCTETS, &[0xAA], &[0, 1, 0xAA]),
        ] {
            let expected = file([0x83, 0x83], 0, behind, records, 1);
            let contents = read(&expected).unwrap();
            assert_eq!(contents.header.statement, statement);
            assert_eq!(&expected[contents.private], private);
            header.statement = statement;
            let mut output = vec![0; expected.len()];
            let length = write(&header, &[], private, records, &mut output);
            assert_eq!((length, output), (Ok(expected.len()), expected));
        }
        for (statement, private) in [
            (NONE, &[1][..]),
            (EMPTY, &[1]),
            (OCTETS, &[]),
            (3, &[]),
            (255, &[1]),
        ] {
            header.statement = statement;
            assert_eq!(written(&header, &[], private, records), (2, 0));
        }
    }

    #[test]
    fn the_writer_walks_long_records_to_their_end() {
        let mut header = example_header();
        let mut records = [0, 0, 0x83, 0x2F].repeat(LONGEST_FILE / 4);
        assert_eq!(written(&header, &[], &[], &records), (8, 0));
        header.high.version = 4;
        assert_eq!(written(&header, &[], &[], &records), (13, 0));
        records.push(0);
        assert_eq!(written(&header, &[], &[], &records), (11, 0));
    }
}
