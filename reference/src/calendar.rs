//! The Gregorian calendar of one month.

/// The number of days of a month, 1 to 12.
pub fn month_length(year: u32, month: u32) -> u32 {
    match month {
        4 | 6 | 9 | 11 => 30,
        2 if is_leap(year) => 29,
        2 => 28,
        _ => 31,
    }
}

fn is_leap(year: u32) -> bool {
    year.is_multiple_of(4) && (!year.is_multiple_of(100) || year.is_multiple_of(400))
}

/// The weekday of a date from the year 1 on: 0 is Monday, 6 is Sunday.
pub fn weekday(year: u32, month: u32, day: u32) -> u32 {
    // 1 January of the year 1 was a Monday.
    let before = year - 1;
    let years = 365 * before + before / 4 - before / 100 + before / 400;
    let months: u32 = (1..month).map(|earlier| month_length(year, earlier)).sum();
    (years + months + day - 1) % 7
}

/// A word with a bit for each day of a month of this length, day 1 the lowest.
pub fn all_days(length: u32) -> u32 {
    u32::MAX >> (32 - length)
}

/// The days from Monday to Friday that are not marked as holidays.
pub fn work_days(year: u32, month: u32, holidays: u32) -> u32 {
    let first = weekday(year, month, 1);
    let weekdays = (0..month_length(year, month))
        .filter(|place| (first + place) % 7 < 5)
        .fold(0, |days, place| days | 1 << place);
    weekdays & !holidays
}

#[cfg(test)]
mod tests {
    use super::*;

    #[test]
    fn june_2018_has_21_work_days() {
        assert_eq!(month_length(2018, 6), 30);
        assert_eq!(weekday(2018, 6, 1), 4);
        assert_eq!(work_days(2018, 6, 0).count_ones(), 21);
        // A mark on a work day takes it away, one on a weekend does no harm.
        assert_eq!(work_days(2018, 6, 0b001).count_ones(), 20);
        assert_eq!(work_days(2018, 6, 0b110).count_ones(), 21);
    }

    #[test]
    fn february_follows_the_leap_years() {
        let lengths = [2018, 2020, 2096, 2099, 2100, 2400].map(|year| month_length(year, 2));
        assert_eq!(lengths, [28, 29, 29, 28, 28, 29]);
    }

    #[test]
    fn weekdays_follow_one_another_through_every_year() {
        let mut expected = 0; // 1 January 2018 was a Monday.
        for year in 2018..=2099 {
            for month in 1..=12 {
                for day in 1..=month_length(year, month) {
                    assert_eq!(weekday(year, month, day), expected);
                    expected = (expected + 1) % 7;
                }
            }
        }
        // 31 December 2099 is a Thursday, so a Friday comes next.
        assert_eq!(expected, 4);
    }
}
