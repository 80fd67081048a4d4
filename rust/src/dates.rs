//! The days of the months as document 02, ask 2 has them, the dates of a hundred years one after
//! another, and files that are right but perhaps for the day of one timestamp. Neither reader and
//! neither calendar has a part in it.

use crate::draft::Draft;
use crate::fields::{Header, Timestamp};
use crate::random::Random;

/// The last day of each month from January on. No year is written, so 29 February always exists.
pub const LAST_DAYS: [u32; 12] = [31, 29, 31, 30, 31, 30, 31, 31, 30, 31, 30, 31];
/// The last day that a timestamp's bits can say.
const WIDEST_DAY: u32 = 31;

/// A timestamp of a header, by name.
pub struct Place {
    pub name: &'static str,
    of: fn(&mut Header) -> &mut Timestamp,
}

pub const PLACES: [Place; 2] = [
    Place {
        name: "opened on each day",
        of: |header| &mut header.opened,
    },
    Place {
        name: "last append on each day",
        of: |header| &mut header.appended,
    },
];

/// Month and day of each day from 1999-12-31 to 2100-01-01, by counting: nothing is worked out.
pub fn walked() -> Vec<(u32, u32)> {
    let year = |year: i32| {
        let last_day = move |month, last| match month {
            2 if year % 4 != 0 => last - 1,
            _ => last,
        };
        let months = (1..).zip(LAST_DAYS);
        months
            .flat_map(move |(month, last)| (1..=last_day(month, last)).map(move |day| (month, day)))
    };
    let century = (2000..2100).flat_map(year);
    [(12, 31)]
        .into_iter()
        .chain(century)
        .chain([(1, 1)])
        .collect()
}

/// A draft that is right but perhaps for its day.
pub struct Dated {
    pub draft: Draft,
    /// 0 where the day exists in its month, else 10.
    pub answer: u8,
}

/// Months with days that they lack, though a timestamp's bits can say them.
pub fn missing() -> Vec<(u32, u32)> {
    let behind = |(month, last)| (last + 1..=WIDEST_DAY).map(move |day| (month, day));
    (1..).zip(LAST_DAYS).flat_map(behind).collect()
}

/// Drafts with each day of each month, and the days that they lack, in this timestamp.
pub fn dated(random: &mut Random, place: &Place) -> Vec<Dated> {
    let mut all = Vec::new();
    for (month, last) in (1..).zip(LAST_DAYS) {
        for day in 1..=WIDEST_DAY {
            let mut draft = Draft::right(random);
            let time = (place.of)(&mut draft.header);
            (time.month, time.day) = (month, day);
            let answer = if day <= last { 0 } else { 10 };
            all.push(Dated { draft, answer });
        }
    }
    all
}

#[cfg(test)]
mod tests {
    use super::*;
    use crate::second;

    #[test]
    fn the_months_lack_six_days() {
        let days = [(2, 30), (2, 31), (4, 31), (6, 31), (9, 31), (11, 31)];
        assert_eq!(missing(), days);
    }

    #[test]
    fn the_hundred_years_have_25_leap_days() {
        let walked = walked();
        assert_eq!(walked.len(), 1 + 36_525 + 1);
        let times = |date| walked.iter().filter(|&&one| one == date).count();
        assert_eq!(
            [(2, 28), (2, 29), (1, 1), (12, 31)].map(times),
            [100, 25, 101, 101]
        );
        assert_eq!(walked[59..62], [(2, 28), (2, 29), (3, 1)]);
    }

    #[test]
    fn a_day_is_the_only_fault() {
        let mut random = Random::new(6);
        for place in &PLACES {
            let dated = dated(&mut random, place);
            assert_eq!(dated.len(), 12 * 31);
            assert_eq!(dated.iter().filter(|one| one.answer == 10).count(), 6);
            for Dated { draft, answer } in dated {
                let read = second::read(&draft.lay().octets);
                assert_eq!(read.map_or_else(|refusal| refusal, |_| 0), answer);
            }
        }
    }
}
