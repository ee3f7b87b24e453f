//! Times as dates. A time counts seconds from 1989-12-31 00:00:00 UTC, with 86,400 a day.

use crate::decimal::grouped;

const DAY: i64 = 86_400;

/// Days from 1970-01-01 to 1989-12-31.
const ORIGIN: i64 = 7_304;

/// Seconds from 1970-01-01, which is how Unix counts, to 1989-12-31.
pub const UNIX: i64 = ORIGIN * DAY;

pub const MONTHS: [&str; 12] =
    ["Jan", "Feb", "Mar", "Apr", "May", "Jun", "Jul", "Aug", "Sep", "Oct", "Nov", "Dec"];

/// A date of the Gregorian calendar, and a time of day.
#[derive(Clone, Copy, Debug, PartialEq, Eq)]
pub struct Civil {
    pub year: i64,
    pub month: i64,
    pub day: i64,
    pub hour: i64,
    pub minute: i64,
    pub second: i64,
}

impl Civil {
    pub fn of(time: i64) -> Civil {
        let (days, rest) = (time.div_euclid(DAY), time.rem_euclid(DAY));
        let (year, month, day) = date_of(days + ORIGIN);
        let (hour, minute, second) = (rest / 3_600, rest / 60 % 60, rest % 60);
        Civil { year, month, day, hour, minute, second }
    }

    /// The time, where the calendar has the date and the clock the time of day.
    pub fn time(self) -> Option<i64> {
        let Civil { year, month, day, hour, minute, second } = self;
        let of_day = (0..24).contains(&hour) && (0..60).contains(&minute) && second < 60;
        if !of_day || !(1..=12).contains(&month) || !(1..=31).contains(&day) {
            return None;
        }
        let days = days_of(year, month, day);
        let known = date_of(days) == (year, month, day);
        known.then(|| (days - ORIGIN) * DAY + 3_600 * hour + 60 * minute + second)
    }

    pub fn date(self) -> String {
        format!("{:04}-{:02}-{:02}", self.year, self.month, self.day)
    }

    pub fn clock(self) -> String {
        format!("{:02}:{:02}:{:02}", self.hour, self.minute, self.second)
    }
}

/// Days from 1970-01-01. A year begins in March here, so that a leap day is its last.
fn days_of(year: i64, month: i64, day: i64) -> i64 {
    let year = if month < 3 { year - 1 } else { year };
    let (era, year) = (year.div_euclid(400), year.rem_euclid(400));
    let month = (month + 9) % 12;
    let of_year = (153 * month + 2) / 5 + day - 1;
    era * 146_097 + 365 * year + year / 4 - year / 100 + of_year - 719_468
}

fn date_of(days: i64) -> (i64, i64, i64) {
    let days = days + 719_468;
    let (era, of_era) = (days.div_euclid(146_097), days.rem_euclid(146_097));
    let year = (of_era - of_era / 1_460 + of_era / 36_524 - of_era / 146_096) / 365;
    let of_year = of_era - (365 * year + year / 4 - year / 100);
    let month = (5 * of_year + 2) / 153;
    let day = of_year - (153 * month + 2) / 5 + 1;
    let year = era * 400 + year;
    if month < 10 {
        (year, month + 3, day)
    } else {
        (year + 1, month - 9, day)
    }
}

/// ISO 8601 in UTC.
pub fn iso(time: i64) -> String {
    let civil = Civil::of(time);
    format!("{}T{}Z", civil.date(), civil.clock())
}

/// A date and a time of day, or seconds where the year has not four digits.
pub fn shown(time: i64) -> String {
    let civil = Civil::of(time);
    if (0..10_000).contains(&civil.year) {
        format!("{} {}", civil.date(), civil.clock())
    } else {
        seconds(time)
    }
}

pub fn seconds(time: i64) -> String {
    format!("{time} seconds from 1989-12-31 00:00:00")
}

/// How far a time is from an epoch: `1,601 days 22:15:00 after`.
pub fn apart(time: i64, epoch: i64) -> String {
    let (size, way) = (time.abs_diff(epoch), if time < epoch { "before" } else { "after" });
    let (days, rest) = (size / 86_400, size % 86_400);
    let clock = format!("{:02}:{:02}:{:02}", rest / 3_600, rest / 60 % 60, rest % 60);
    format!("{} days {clock} {way}", grouped(days))
}

#[cfg(test)]
mod tests {
    use super::*;

    #[test]
    fn known_dates() {
        for (time, date) in [
            (0, "1989-12-31 00:00:00"),
            (-138_406_500, "1985-08-12 01:45:00"),
            (-2_834_956_800, "1900-03-01 00:00:00"),
            (3_476_476_799, "2100-02-28 23:59:59"),
            (3_476_476_800, "2100-03-01 00:00:00"),
            (68_256_000, "1992-02-29 00:00:00"),
            (320_716_800, "2000-02-29 00:00:00"),
            (-UNIX, "1970-01-01 00:00:00"),
            (i64::MAX, "9223372036854775807 seconds from 1989-12-31 00:00:00"),
            (i64::MIN, "-9223372036854775808 seconds from 1989-12-31 00:00:00"),
        ] {
            assert_eq!(shown(time), date);
        }
        assert_eq!(iso(0), "1989-12-31T00:00:00Z");
    }

    /// Day by day over eight centuries, each date is the one after the last, and reads back.
    #[test]
    fn dates_follow_one_another() {
        let leap = |year: i64| year % 4 == 0 && (year % 100 != 0 || year % 400 == 0);
        let (mut year, mut month, mut day) = (1600, 1, 1);
        let mut time = Civil { year, month, day, hour: 0, minute: 0, second: 0 }.time().unwrap();
        while year < 2400 {
            let civil = Civil::of(time + 86_399);
            assert_eq!((civil.year, civil.month, civil.day), (year, month, day));
            assert_eq!(civil.time(), Some(time + 86_399));
            let length = match month {
                2 => 28 + i64::from(leap(year)),
                4 | 6 | 9 | 11 => 30,
                _ => 31,
            };
            day += 1;
            if day > length {
                (month, day) = (month + 1, 1);
            }
            if month > 12 {
                (year, month) = (year + 1, 1);
            }
            time += 86_400;
        }
    }

    #[test]
    fn dates_that_are_none() {
        let civil = Civil { year: 2023, month: 2, day: 28, hour: 23, minute: 59, second: 59 };
        assert!(civil.time().is_some());
        for wrong in [
            Civil { day: 29, ..civil },
            Civil { day: 0, ..civil },
            Civil { month: 13, ..civil },
            Civil { month: 0, ..civil },
            Civil { month: 4, day: 31, ..civil },
            Civil { year: 1900, day: 29, ..civil },
            Civil { hour: 24, ..civil },
            Civil { minute: 60, ..civil },
            Civil { second: 60, ..civil },
        ] {
            assert_eq!(wrong.time(), None, "{wrong:?}");
        }
    }
}
