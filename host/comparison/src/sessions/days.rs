//! Days and seconds next to one another, as the numbers that messages write.

use independent::calendar::Date;

fn number(day: u64, month: u64, year: u64) -> u64 {
    day * 1_000_000 + month * 10_000 + year
}

fn parts(date: u64) -> (u64, u64, u64) {
    (date / 1_000_000, date / 10_000 % 100, date % 10_000)
}

fn exists(date: u64) -> bool {
    Date::of_number(date).is_some()
}

/// The day after, also where it is past the calendar's end.
pub fn day_after(date: u64) -> u64 {
    let (day, month, year) = parts(date);
    let candidates = [number(day + 1, month, year), number(1, month + 1, year)];
    candidates.into_iter().find(|&next| exists(next)).unwrap_or(number(1, 1, (year + 1) % 10_000))
}

/// The day before, also where it is before the calendar's start.
pub fn day_before(date: u64) -> u64 {
    let (day, month, year) = parts(date);
    if day > 1 {
        return number(day - 1, month, year);
    }
    if month <= 1 {
        return number(31, 12, year.saturating_sub(1));
    }
    let candidates = (28..=31).rev().map(|last| number(last, month - 1, year));
    candidates.into_iter().find(|&before| exists(before)).unwrap_or(date)
}

/// The time hhmmss so many seconds away, within the day.
pub fn seconds_away(time: u64, seconds: i64) -> u64 {
    let of_day = (time / 10_000 * 60 + time / 100 % 100) * 60 + time % 100;
    let moved = (of_day as i64 + seconds).clamp(0, 86_399) as u64;
    moved / 3600 * 10_000 + moved / 60 % 60 * 100 + moved % 60
}

#[cfg(test)]
mod tests {
    use super::*;

    #[test]
    fn days_follow_one_another() {
        for (day, next) in
            [(28_022_011, 1_032_011), (29_022_012, 1_032_012), (31_121_999, 1_012_000)]
        {
            assert_eq!(day_after(day), next);
            assert_eq!(day_before(next), day);
        }
    }

    #[test]
    fn seconds_stay_within_the_day() {
        assert_eq!(seconds_away(110_000, -1), 105_959);
        assert_eq!(seconds_away(105_959, 1), 110_000);
        assert_eq!(seconds_away(0, -1), 0);
        assert_eq!(seconds_away(235_959, 60), 235_959);
    }
}
