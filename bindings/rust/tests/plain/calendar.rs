//! Minutes from 1970-01-01 0000 UTC. In the years 1970..=2099, and up to
//! January 2100, every fourth year is a leap year.

use super::lines;

const DAY: u32 = 24 * 60;
const FIRST_YEAR: u32 = 1970;
const LAST_YEAR: u32 = 2099;

/// A DDHHMM, kept as minutes from the start of its month.
#[derive(Clone, Copy, Debug, PartialEq, Eq)]
pub struct DayTime(u32);

impl DayTime {
    /// DD 1..=31, HH 0..=23, MM 0..=59.
    pub fn new(day: usize, hour: usize, minute: usize) -> Option<Self> {
        let in_range = matches!(day, 1..=31) && hour < 24 && minute < 60;
        in_range.then(|| DayTime(((day as u32 - 1) * 24 + hour as u32) * 60 + minute as u32))
    }

    /// Reads six digits.
    pub fn parse(bytes: &[u8; 6]) -> Option<Self> {
        let all = lines::number(bytes)? as usize;
        DayTime::new(all / 10_000, all / 100 % 100, all % 100)
    }

    /// The day and time of day of a minute.
    pub fn of_minute(minute: u32) -> Self {
        let (_, start) = Month::holding(minute);
        DayTime(minute - start)
    }

    /// Its six digits.
    pub fn digits(self) -> [u8; 6] {
        let pairs = [self.0 / DAY + 1, self.0 / 60 % 24, self.0 % 60];
        let mut digits = [0; 6];
        for (two, pair) in digits.chunks_exact_mut(2).zip(pairs) {
            two[0] = b'0' + (pair / 10) as u8;
            two[1] = b'0' + (pair % 10) as u8;
        }
        digits
    }
}

/// A month of a year; months count from 1.
#[derive(Clone, Copy)]
pub struct Month {
    year: u32,
    month: u32,
}

impl Month {
    /// The year and month a caller lends.
    pub fn lent(year: usize, month: usize) -> Option<Self> {
        let years = FIRST_YEAR as usize..=LAST_YEAR as usize;
        let in_range = years.contains(&year) && matches!(month, 1..=12);
        in_range.then_some(Month {
            year: year as u32,
            month: month as u32,
        })
    }

    /// The month that a minute lies in, and that month's first minute.
    fn holding(minute: u32) -> (Self, u32) {
        let day = minute / DAY;
        let (cycle, rest) = (day / 1461, day % 1461);
        // The third year of each cycle from 1970 on is the leap year.
        let (year, mut day_of_year) = match rest {
            0..365 => (0, rest),
            365..730 => (1, rest - 365),
            730..1096 => (2, rest - 730),
            _ => (3, rest - 1096),
        };
        let mut at = Month {
            year: FIRST_YEAR + 4 * cycle + year,
            month: 1,
        };
        while day_of_year >= at.days() {
            day_of_year -= at.days();
            at.month += 1;
        }
        (at, (day - day_of_year) * DAY)
    }

    fn days(self) -> u32 {
        match self.month {
            2 if self.year.is_multiple_of(4) => 29,
            2 => 28,
            4 | 6 | 9 | 11 => 30,
            _ => 31,
        }
    }

    fn next(self) -> Self {
        match self.month {
            12 => Month {
                year: self.year + 1,
                month: 1,
            },
            month => Month {
                month: month + 1,
                ..self
            },
        }
    }

    fn previous(self) -> Self {
        match self.month {
            1 => Month {
                year: self.year - 1,
                month: 12,
            },
            month => Month {
                month: month - 1,
                ..self
            },
        }
    }

    /// Its first minute.
    fn start(self) -> u32 {
        let years = self.year - FIRST_YEAR;
        let before: u32 = (1..self.month)
            .map(|month| Month { month, ..self }.days())
            .sum();
        (365 * years + (years + 1) / 4 + before) * DAY
    }
}

/// An issue minute with the three months a purge may lie in.
#[derive(Clone, Copy)]
pub struct Issue {
    pub minute: u32,
    /// The issue's month.
    pub month: Month,
    /// The month before, the issue's and the following one. January 1970 has
    /// none before: an empty one stands for it.
    around: [Stretch; 3],
}

/// A month's first minute and its minutes.
#[derive(Clone, Copy)]
struct Stretch {
    start: u32,
    length: u32,
}

impl Issue {
    /// The issue of this month with this day and time, if the day exists.
    pub fn new(month: Month, time: DayTime) -> Option<Self> {
        let start = month.start();
        let issue = Issue::within(month, start, start + time.0);
        (time.0 < issue.around[1].length).then_some(issue)
    }

    /// The issue at this minute, if its year is one that may be lent.
    pub fn from_minute(minute: u32) -> Option<Self> {
        let (month, start) = Month::holding(minute);
        (month.year <= LAST_YEAR).then(|| Issue::within(month, start, minute))
    }

    fn within(month: Month, start: u32, minute: u32) -> Self {
        let before = match start {
            0 => 0,
            _ => month.previous().days() * DAY,
        };
        let length = month.days() * DAY;
        let after = month.next().days() * DAY;
        Issue {
            minute,
            month,
            around: [
                Stretch {
                    start: start - before,
                    length: before,
                },
                Stretch { start, length },
                Stretch {
                    start: start + length,
                    length: after,
                },
            ],
        }
    }

    /// The minute of a purge: the first in these months that has its day and
    /// time and is not more than a day before the issue.
    pub fn purge(&self, time: DayTime) -> Option<u32> {
        self.around
            .iter()
            .filter(|month| time.0 < month.length)
            .map(|month| month.start + time.0)
            .find(|minute| minute + DAY >= self.minute)
    }

    /// Is this minute what its own DDHHMM gives?
    pub fn gives(&self, minute: u32) -> bool {
        self.around.iter().any(|month| {
            let offset = minute.wrapping_sub(month.start);
            offset < month.length && self.purge(DayTime(offset)) == Some(minute)
        })
    }
}
