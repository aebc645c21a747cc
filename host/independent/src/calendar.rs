//! Gregorian dates from 1900 to 9999, times of day, and the two together.

use crate::digits;

/// A date, ordered by the calendar and held as yyyymmdd.
#[derive(Clone, Copy, Debug, PartialEq, Eq, PartialOrd, Ord)]
pub struct Date(u32);

/// A time of day, held as hhmmss.
#[derive(Clone, Copy, Debug, PartialEq, Eq, PartialOrd, Ord)]
pub struct Time(u32);

/// A date and a time of it, ordered together.
#[derive(Clone, Copy, Debug, PartialEq, Eq, PartialOrd, Ord)]
pub struct Moment {
    pub date: Date,
    pub time: Time,
}

fn is_leap(year: u64) -> bool {
    year % 4 == 0 && (year % 100 != 0 || year % 400 == 0)
}

fn days_of(month: u64, year: u64) -> u64 {
    match month {
        1 | 3 | 5 | 7 | 8 | 10 | 12 => 31,
        4 | 6 | 9 | 11 => 30,
        2 if is_leap(year) => 29,
        2 => 28,
        _ => 0,
    }
}

impl Date {
    /// The date that a number ddmmyyyy stands for, or none.
    pub fn of_number(number: u64) -> Option<Date> {
        let (day, month, year) = (number / 1_000_000, number / 10_000 % 100, number % 10_000);
        let exists = year >= 1900 && day >= 1 && day <= days_of(month, year);
        exists.then_some(Date((year * 10_000 + month * 100 + day) as u32))
    }

    /// The number ddmmyyyy.
    pub fn number(self) -> u64 {
        let (year, month, day) = (self.0 / 10_000, self.0 / 100 % 100, self.0 % 100);
        u64::from(day * 1_000_000 + month * 10_000 + year)
    }

    /// The date that eight digits write, or none.
    pub fn of_text(text: &[u8]) -> Option<Date> {
        Date::of_number(digits::number(text)?)
    }
}

impl Time {
    /// The time that a number hhmmss stands for, or none.
    pub fn of_number(number: u64) -> Option<Time> {
        let (hour, minute, second) = (number / 10_000, number / 100 % 100, number % 100);
        (hour < 24 && minute < 60 && second < 60).then_some(Time(number as u32))
    }

    /// The number hhmmss.
    pub fn number(self) -> u64 {
        u64::from(self.0)
    }

    /// The time that six digits write, or none.
    pub fn of_text(text: &[u8]) -> Option<Time> {
        Time::of_number(digits::number(text)?)
    }
}

impl Moment {
    /// The moment that the numbers ddmmyyyy and hhmmss stand for, or none.
    pub fn of_numbers(date: u64, time: u64) -> Option<Moment> {
        Some(Moment { date: Date::of_number(date)?, time: Time::of_number(time)? })
    }

    /// The moment that a date and then a time write, fourteen bytes, or none.
    pub fn of_text(text: &[u8]) -> Option<Moment> {
        let (date, time) = text.split_at(8);
        Some(Moment { date: Date::of_text(date)?, time: Time::of_text(time)? })
    }
}

#[cfg(test)]
mod tests {
    use super::*;

    #[test]
    fn m6_leap_days() {
        assert!(Date::of_text(b"29022012").is_some());
        assert!(Date::of_text(b"29022011").is_none());
        assert!(Date::of_text(b"29022000").is_some());
        assert!(Date::of_text(b"29021900").is_none());
        assert!(Date::of_text(b"29022100").is_none());
    }

    #[test]
    fn ends_of_the_calendar() {
        for text in [b"01011900", b"31129999", b"30041999"] {
            assert!(Date::of_text(text).is_some());
        }
        for text in [b"31121899", b"31041999", b"00012000", b"01002000", b"01132000", b"0101200x"] {
            assert!(Date::of_text(text).is_none());
        }
        assert!(Date::of_number(112_032_012).is_none());
        assert_eq!(Date::of_number(1_012_012), Date::of_text(b"01012012"));
        assert_eq!(Date::of_number(1_012_012).map(Date::number), Some(1_012_012));
        assert!(Moment::of_numbers(u64::MAX, 0).is_none());
    }

    #[test]
    fn ends_of_the_day() {
        for text in [b"000000", b"235959"] {
            assert!(Time::of_text(text).is_some());
        }
        for text in [b"240000", b"106000", b"105960", b"23595 "] {
            assert!(Time::of_text(text).is_none());
        }
        assert!(Time::of_number(1_000_000).is_none());
        assert_eq!(Time::of_number(93_000).map(Time::number), Some(93_000));
        assert!(Moment::of_numbers(1_012_012, (1 << 32) + 93_000).is_none());
    }

    #[test]
    fn dates_stand_by_the_calendar() {
        assert!(Date::of_text(b"31122011") < Date::of_text(b"01012012"));
        assert!(Moment::of_text(b"11032012235959") < Moment::of_text(b"12032012000000"));
    }
}
