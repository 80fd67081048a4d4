//! The proved library (`libexports.a`): its declarations, and a safe function for each.

use crate::counts::LossCounts;
use crate::fields::{Header, RecordHeader};
use crate::manager::Arrival;
use crate::name;
use crate::reconcile::Reconciled;
use crate::states::{Answer, Answers};
use crate::words::Words;
use std::ops::Range;

/// A part of a file.
#[repr(C)]
#[derive(Clone, Copy, Debug, Default, PartialEq, Eq)]
pub struct Part {
    pub start: usize,
    pub octets: usize,
}

impl Part {
    /// The part as a range. It wraps where no file could have such a part, so that a wrong answer
    /// is reported as one.
    pub fn range(self) -> Range<usize> {
        self.start..self.start.wrapping_add(self.octets)
    }
}

/// The reader's answer: refused, it is the number and zeros elsewhere.
#[repr(C)]
#[derive(Clone, Copy, Debug, Default, PartialEq, Eq)]
pub struct Read {
    pub refusal: u8,
    pub header: Header,
    pub filter: Part,
    /// No octets when there is no private extension, and when that is empty.
    pub private: Part,
    /// Starts at the header length and ends at the file length.
    pub records: Part,
    pub count: usize,
}

/// The answer of a step: refused, it is 11 and zeros elsewhere.
#[repr(C)]
#[derive(Clone, Copy, Debug, Default, PartialEq, Eq)]
pub struct Step {
    pub refusal: u8,
    pub fields: RecordHeader,
    /// Octets of the record header, 4 or 5.
    pub header: usize,
    /// Octets of the body.
    pub body: usize,
}

/// The writer's answer: 0 and the file's length, 17 and the needed octets, or a number and 0.
#[repr(C)]
#[derive(Clone, Copy, Debug, Default, PartialEq, Eq)]
pub struct Written {
    pub refusal: u8,
    pub octets: usize,
}

/// The answer for a timestamp: refused, its octets are zero.
#[repr(C)]
#[derive(Clone, Copy, Debug, Default, PartialEq, Eq)]
pub struct Stamped {
    pub refusal: u8,
    pub octets: [u8; 4],
}

/// The fields of a file name, each with room for more than is right.
#[repr(C)]
#[derive(Clone, Copy, Debug, Default, PartialEq, Eq)]
pub struct NameFields {
    pub count: u32,
    pub year: u32,
    pub month: u32,
    pub day: u32,
    pub hour: u32,
    pub minute: u32,
    pub sign: u32,
    pub dev_hour: u32,
    pub dev_minute: u32,
    /// 1 if the private part is there and 0 if it is not.
    pub has: u32,
}

impl From<&name::Fields<'_>> for NameFields {
    fn from(fields: &name::Fields) -> Self {
        let closing = &fields.closing;
        Self {
            count: fields.count,
            year: closing.year,
            month: closing.month,
            day: closing.day,
            hour: closing.hour,
            minute: closing.minute,
            sign: closing.sign,
            dev_hour: closing.dev_hour,
            dev_minute: closing.dev_minute,
            has: fields.has,
        }
    }
}

/// The answer to a name that is read: refused, it is 20 and zeros elsewhere.
#[repr(C)]
#[derive(Clone, Copy, Debug, Default, PartialEq, Eq)]
pub struct NameRead {
    pub refusal: u8,
    /// Octets of the node identifier, which begin the name, and of the private part, which end it.
    pub node: usize,
    pub private: usize,
    pub fields: NameFields,
}

/// The answer to private octets: all zeros where they are not a file's loss counts.
#[repr(C)]
#[derive(Clone, Copy, Debug, Default, PartialEq, Eq)]
pub struct Counts {
    /// 1 if they are; the library's bool as an octet, so that any other value is told as a
    /// difference.
    pub there: u8,
    pub losses: u32,
    pub unrouted: u32,
}

impl From<Option<LossCounts>> for Counts {
    fn from(counts: Option<LossCounts>) -> Self {
        let LossCounts { losses, unrouted } = counts.unwrap_or_default();
        Self {
            there: counts.is_some().into(),
            losses,
            unrouted,
        }
    }
}

/// The answer to settings.
#[repr(C)]
#[derive(Clone, Copy, Debug, PartialEq, Eq)]
pub struct Loaded {
    pub refusal: u8,
    pub words: Words,
}

/// What RECEIVE carries beside time, key and body.
#[repr(C)]
struct ArrivalFields {
    mark: u32,
    release: u32,
    version: u32,
    extension: u8,
    format: u32,
    ts: u32,
}

impl From<&Arrival<'_>> for ArrivalFields {
    fn from(arrival: &Arrival) -> Self {
        Self {
            mark: arrival.mark,
            release: arrival.release,
            version: arrival.version,
            extension: arrival.extension,
            format: arrival.format,
            ts: arrival.ts,
        }
    }
}

impl Loaded {
    /// The words of the fresh manager's state, or the settings' refusal.
    pub fn accepted(self) -> Result<Words, u8> {
        match self.refusal {
            0 => Ok(self.words),
            refusal => Err(refusal),
        }
    }
}

// A slice crosses as a pointer and a length in elements.
extern "C" {
    fn cdr_read(file: *const u8, file_octets: usize) -> Read;
    fn cdr_step(part: *const u8, part_octets: usize) -> Step;
    fn cdr_step_at(file: *const u8, file_octets: usize, at: usize) -> Step;
    fn cdr_body_at(file: *const u8, file_octets: usize, at: usize) -> Part;
    fn cdr_part_of(file: *const u8, file_octets: usize, part: Part) -> Part;
    fn cdr_counts(private: *const u8, private_octets: usize) -> Counts;
    fn cdr_write(
        header: Header,
        filter: *const u8,
        filter_octets: usize,
        private: *const u8,
        private_octets: usize,
        records: *const u8,
        records_octets: usize,
        output: *mut u8,
        output_octets: usize,
    ) -> Written;
    fn cdr_stamp(minutes: u32, bias: u32) -> Stamped;
    fn cdr_name_read(name: *const u8, name_octets: usize) -> NameRead;
    fn cdr_name_write(
        fields: NameFields,
        node: *const u8,
        node_octets: usize,
        private: *const u8,
        private_octets: usize,
        output: *mut u8,
        output_octets: usize,
    ) -> Written;
    fn cdr_reconcile(
        first: *const u8,
        first_octets: usize,
        second: *const u8,
        second_octets: usize,
    ) -> Reconciled;
}

// The manager's calls are lent the state as words, which they change in place.
extern "C" {
    fn cdr_load(settings: *const u8, settings_octets: usize) -> Loaded;
    fn cdr_open(
        words: *mut u32,
        words_number: usize,
        store: *mut u8,
        store_octets: usize,
        output: *mut u8,
        output_octets: usize,
        time: u32,
        route: u32,
    ) -> Answer;
    fn cdr_close(
        words: *mut u32,
        words_number: usize,
        store: *mut u8,
        store_octets: usize,
        output: *mut u8,
        output_octets: usize,
        time: u32,
        route: u32,
        reason: u32,
    ) -> Answer;
    fn cdr_tick(
        words: *mut u32,
        words_number: usize,
        store: *mut u8,
        store_octets: usize,
        output: *mut u8,
        output_octets: usize,
        time: u32,
    ) -> Answer;
    fn cdr_receive(
        words: *mut u32,
        words_number: usize,
        store: *mut u8,
        store_octets: usize,
        output: *mut u8,
        output_octets: usize,
        time: u32,
        fields: ArrivalFields,
        key: *const u8,
        key_octets: usize,
        body: *const u8,
        body_octets: usize,
    ) -> Answer;
    fn cdr_packet(
        words: *mut u32,
        words_number: usize,
        store: *mut u8,
        store_octets: usize,
        output: *mut u8,
        output_octets: usize,
        packet: *const u8,
        packet_octets: usize,
    ) -> Answers;
}

/// Reads a file.
pub fn read(file: &[u8]) -> Read {
    // SAFETY: pointer and length are those of a slice that lives through the call; it is only read.
    unsafe { cdr_read(file.as_ptr(), file.len()) }
}

/// The record that begins with the part.
pub fn step(part: &[u8]) -> Step {
    // SAFETY: as in `read`.
    unsafe { cdr_step(part.as_ptr(), part.len()) }
}

/// The record that begins at an offset of the file.
pub fn step_at(file: &[u8], at: usize) -> Step {
    // SAFETY: as in `read`; any offset is allowed.
    unsafe { cdr_step_at(file.as_ptr(), file.len(), at) }
}

/// Where the body of the record that begins at an offset stands in the file.
pub fn body_at(file: &[u8], at: usize) -> Part {
    // SAFETY: as in `read`; any offset is allowed.
    unsafe { cdr_body_at(file.as_ptr(), file.len(), at) }
}

/// Where such a part stands in the file; zeros if it is empty or not within the file.
pub fn part_of(file: &[u8], part: Part) -> Part {
    // SAFETY: as in `read`; any part is allowed.
    unsafe { cdr_part_of(file.as_ptr(), file.len(), part) }
}

/// The loss counts in private octets.
pub fn counts(private: &[u8]) -> Counts {
    // SAFETY: as in `read`.
    unsafe { cdr_counts(private.as_ptr(), private.len()) }
}

/// Writes a file of these fields, octets and records.
pub fn write(
    header: &Header,
    filter: &[u8],
    private: &[u8],
    records: &[u8],
    output: &mut [u8],
) -> Written {
    // SAFETY: all pointers and lengths are those of slices that live through the call; only the
    // output is written, and as `&mut` it overlaps none of the others.
    unsafe {
        cdr_write(
            *header,
            filter.as_ptr(),
            filter.len(),
            private.as_ptr(),
            private.len(),
            records.as_ptr(),
            records.len(),
            output.as_mut_ptr(),
            output.len(),
        )
    }
}

/// The timestamp of a minute at a UTC offset, which is `bias` less 1,439.
pub fn stamp(minutes: u32, bias: u32) -> Stamped {
    // SAFETY: no pointers.
    unsafe { cdr_stamp(minutes, bias) }
}

/// Reads a file name.
pub fn name_read(name: &[u8]) -> NameRead {
    // SAFETY: as in `read`.
    unsafe { cdr_name_read(name.as_ptr(), name.len()) }
}

/// Writes the file name of these fields: 20 and 21 come with 0 octets.
pub fn name_write(fields: &name::Fields, output: &mut [u8]) -> Written {
    // SAFETY: as in `write`.
    unsafe {
        cdr_name_write(
            fields.into(),
            fields.node.as_ptr(),
            fields.node.len(),
            fields.private.as_ptr(),
            fields.private.len(),
            output.as_mut_ptr(),
            output.len(),
        )
    }
}

/// What two files have in common. The call has 3 MiB of arrays on the stack: a thread that makes it
/// needs more than Rust gives one.
pub fn reconcile(first: &[u8], second: &[u8]) -> Reconciled {
    // SAFETY: as in `read`.
    unsafe { cdr_reconcile(first.as_ptr(), first.len(), second.as_ptr(), second.len()) }
}

/// The words of the fresh manager of these settings; or their refusal, and words of a state beyond
/// its bounds.
pub fn load(settings: &[u8]) -> Loaded {
    // SAFETY: as in `read`.
    unsafe { cdr_load(settings.as_ptr(), settings.len()) }
}

/// OPEN; here and below the words may have any number, and become those behind the event.
#[inline]
pub fn open(
    words: &mut [u32],
    store: &mut [u8],
    output: &mut [u8],
    time: u32,
    route: u32,
) -> Answer {
    // SAFETY: all pointers and lengths are those of slices that live through the call, and as
    // `&mut` they do not overlap.
    unsafe {
        cdr_open(
            words.as_mut_ptr(),
            words.len(),
            store.as_mut_ptr(),
            store.len(),
            output.as_mut_ptr(),
            output.len(),
            time,
            route,
        )
    }
}

/// CLOSE.
#[inline]
pub fn close(
    words: &mut [u32],
    store: &mut [u8],
    output: &mut [u8],
    time: u32,
    route: u32,
    reason: u32,
) -> Answer {
    // SAFETY: as in `open`.
    unsafe {
        cdr_close(
            words.as_mut_ptr(),
            words.len(),
            store.as_mut_ptr(),
            store.len(),
            output.as_mut_ptr(),
            output.len(),
            time,
            route,
            reason,
        )
    }
}

/// TICK.
#[inline]
pub fn tick(words: &mut [u32], store: &mut [u8], output: &mut [u8], time: u32) -> Answer {
    // SAFETY: as in `open`.
    unsafe {
        cdr_tick(
            words.as_mut_ptr(),
            words.len(),
            store.as_mut_ptr(),
            store.len(),
            output.as_mut_ptr(),
            output.len(),
            time,
        )
    }
}

/// RECEIVE.
#[inline]
pub fn receive(
    words: &mut [u32],
    store: &mut [u8],
    output: &mut [u8],
    time: u32,
    arrival: &Arrival,
) -> Answer {
    // SAFETY: as in `open`; key and body are only read, and nothing that is written overlaps them.
    unsafe {
        cdr_receive(
            words.as_mut_ptr(),
            words.len(),
            store.as_mut_ptr(),
            store.len(),
            output.as_mut_ptr(),
            output.len(),
            time,
            arrival.into(),
            arrival.key.as_ptr(),
            arrival.key.len(),
            arrival.body.as_ptr(),
            arrival.body.len(),
        )
    }
}

/// A packet of records.
#[inline]
pub fn take(words: &mut [u32], store: &mut [u8], output: &mut [u8], packet: &[u8]) -> Answers {
    // SAFETY: as in `receive`.
    unsafe {
        cdr_packet(
            words.as_mut_ptr(),
            words.len(),
            store.as_mut_ptr(),
            store.len(),
            output.as_mut_ptr(),
            output.len(),
            packet.as_ptr(),
            packet.len(),
        )
    }
}
