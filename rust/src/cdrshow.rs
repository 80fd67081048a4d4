//! What the program `cdrshow` prints for a file, from its page and by the second reader.

#![forbid(unsafe_code)]

use crate::cdrlist::LONGEST_INPUT;
use crate::counts::LossCounts;
use crate::fields::{Release, Timestamp, EMPTY, NONE};
use crate::scripts::hexadecimal;
use crate::second::{self, Contents, Record, EXTENDED};

const MONTHS: [&str; 12] = [
    "January",
    "February",
    "March",
    "April",
    "May",
    "June",
    "July",
    "August",
    "September",
    "October",
    "November",
    "December",
];

/// Table 6.1.2.5.1 of TS 32.297: the TS of each number from 0 on; 8 is discontinued.
#[rustfmt::skip]
const TS: [u16; 19] = [
    5, 15, 205, 215, 225, 235, 250, 251, 0, 260, 270, 271, 272, 273, 275, 274, 277, 296, 278,
];

/// All that the program prints for this file.
pub fn show(file: &[u8]) -> String {
    if file.len() > LONGEST_INPUT {
        return refused(8);
    }
    match second::read(file) {
        Err(refusal) => refused(refusal),
        Ok(contents) => lines(file, &contents),
    }
}

fn refused(refusal: u8) -> String {
    format!("refused: {}\n", refusal_words(refusal))
}

/// The words for a refusal of the reader, its number before them.
pub fn refusal_words(refusal: u8) -> String {
    let what = match refusal {
        8 => "its length",
        9 => "its header length",
        10 => "a timestamp or a reserved length",
        11 => "a record",
        12 => "its count",
        _ => "its high or low release",
    };
    format!("{refusal}, {what}")
}

fn lines(file: &[u8], contents: &Contents) -> String {
    let header = &contents.header;
    let (filler, address) = header.address.split_at(4);
    let mut text = [
        format!(
            "file: {} octets, header {}",
            file.len(),
            contents.records.start
        ),
        format!("high release: {}", release(header.high)),
        format!("low release: {}", release(header.low)),
        format!("opened: {}", time(&header.opened)),
        format!("last append: {}", time(&header.appended)),
        format!("records: {}", contents.count),
        format!("sequence number: {}", header.sequence),
        format!(
            "closed because: {}, {}",
            header.reason,
            reason(header.reason)
        ),
        format!(
            "node address: {} {}",
            hexadecimal(filler),
            hexadecimal(address)
        ),
        format!("lost: {}, {}", header.lost, lost(header.lost)),
        format!(
            "routeing filter: {}",
            octets_or("none", &file[contents.filter.clone()])
        ),
        format!(
            "private extension: {}",
            private(header.statement, &file[contents.private.clone()])
        ),
    ]
    .join("\n");
    let mut at = contents.records.start;
    for index in 0..contents.count {
        let record = second::step(file, at).expect("the reader walked this record");
        text += &format!("\nrecord {index}: at {at}, {}", record_words(&record));
        at += record.octets();
    }
    text + "\n"
}

/// The words for a lost octet.
pub fn lost(octet: u8) -> String {
    match octet {
        0 => "none".to_owned(),
        1..=127 => format!("at least {octet}, maybe more"),
        128 => "some, how many is unknown".to_owned(),
        129..=254 => format!("exactly {}", octet - 128),
        255 => "127 or more, all of them counted".to_owned(),
    }
}

/// The words for a closure reason.
pub fn reason(number: u8) -> &'static str {
    match number {
        0 => "normal",
        1 => "size limit",
        2 => "open-time limit",
        3 => "most records",
        4 => "manual intervention",
        5 => "change of release, version or encoding",
        128 => "abnormal",
        129 => "file system error",
        130 => "storage exhausted",
        131 => "integrity error",
        6..=127 => "reserved, normal",
        132..=255 => "reserved, abnormal",
    }
}

fn private(statement: u8, octets: &[u8]) -> String {
    if statement == NONE {
        return "none".to_owned();
    }
    if statement == EMPTY {
        return "empty".to_owned();
    }
    let what = match LossCounts::read(octets) {
        Some(counts) => format!(
            "known losses {}, unrouted records {}",
            counts.losses, counts.unrouted
        ),
        None => hexadecimal(octets),
    };
    format!("{} octets, {what}", octets.len())
}

fn octets_or(none: &str, octets: &[u8]) -> String {
    match octets {
        [] => none.to_owned(),
        _ => hexadecimal(octets),
    }
}

fn release(release: Release) -> String {
    let extension = match release.release {
        EXTENDED => format!(" extension {}", release.extension),
        _ => String::new(),
    };
    format!(
        "{}{extension}, version {}",
        release.release, release.version
    )
}

fn time(time: &Timestamp) -> String {
    let month = MONTHS[time.month as usize - 1];
    let sign = if time.sign == 1 { '+' } else { '-' };
    format!(
        "{} {month} {:02}:{:02}, offset {sign}{:02}:{:02}",
        time.day, time.hour, time.minute, time.dev_hour, time.dev_minute
    )
}

fn record_words(record: &Record) -> String {
    let fields = record.fields;
    let format = match fields.format {
        1 => "BER",
        2 => "unaligned PER",
        3 => "aligned PER",
        4 => "XER",
        _ => "unknown",
    };
    let ts = match TS.get(usize::from(fields.ts)) {
        None | Some(0) => format!("TS number {}", fields.ts),
        Some(number) => format!("TS 32.{number:03}"),
    };
    format!(
        "{} octets, release {}, format {} {format}, {ts}, body {}",
        record.body.len(),
        release(fields.release),
        fields.format,
        octets_or("-", record.body)
    )
}

#[cfg(test)]
mod tests {
    use super::*;
    use crate::gate;

    #[test]
    fn the_pages_file_is_shown_as_the_page_says() {
        let file = b"0000004C00000041E18340B1E88040B1F880000000020000000704FFFFFFFF\
            00000000000000000000FFFFC00002018300036162630009010000000300000000020002832FA1B20000E12702";
        let file = gate::octets(file).unwrap();
        let expected = "\
file: 76 octets, header 65
high release: 7 extension 2, version 1
low release: 4, version 3
opened: 1 April 12:30, offset +02:00
last append: 1 April 12:31, offset +02:00
records: 2
sequence number: 7
closed because: 4, manual intervention
node address: FFFFFFFF 00000000000000000000FFFFC0000201
lost: 131, exactly 3
routeing filter: 616263
private extension: 9 octets, known losses 3, unrouted records 0
record 0: at 65, 2 octets, release 4, version 3, format 1 BER, TS 32.274, body A1B2
record 1: at 71, 0 octets, release 7 extension 2, version 1, format 1 BER, TS 32.251, body -
";
        assert_eq!(show(&file), expected);
        assert_eq!(show(&file[1..]), "refused: 8, its length\n");
    }
}
