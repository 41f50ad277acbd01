//! Dates yymmdd of the years 1980 to 2079, times hhmmss, and the two ways of counting days.
//! Calendar days are counted from 1980-01-01 (day 0), a Tuesday.

/// A day of the calendar, counted from 1980-01-01.
#[derive(Clone, Copy, PartialEq, Eq, PartialOrd, Ord, Debug)]
pub struct Day(pub u32);

/// 2079-12-31, beyond which no last day goes.
pub const LAST: Day = Day(36_524);

// The leap day. Between 1980 and 2079 every fourth year is a leap year: 2000 is one.
fn leap(year: u32) -> u32 {
    match year % 4 {
        0 => 1,
        _ => 0,
    }
}

fn days_in(year: u32, month: u32) -> u32 {
    match month {
        4 | 6 | 9 | 11 => 30,
        2 => 28 + leap(year),
        _ => 31,
    }
}

/// The day a number yymmdd stands for, if it is real.
pub fn day(yymmdd: u32) -> Option<Day> {
    let (yy, month, d) = (yymmdd / 10_000, yymmdd / 100 % 100, yymmdd % 100);
    if yy > 99 || !(1..=12).contains(&month) {
        return None;
    }
    let year = if yy >= 80 { 1900 + yy } else { 2000 + yy };
    if d < 1 || d > days_in(year, month) {
        return None;
    }
    let years = year - 1980;
    let mut n = 365 * years + years.div_ceil(4);
    for m in 1..month {
        n += days_in(year, m);
    }
    Some(Day(n + d - 1))
}

/// The number yymmdd of a day.
pub fn yymmdd(day: Day) -> u32 {
    let mut n = day.0;
    let mut year = 1980 + 4 * (n / 1461);
    n %= 1461;
    while n >= 365 + leap(year) {
        n -= 365 + leap(year);
        year += 1;
    }
    let mut month = 1;
    while n >= days_in(year, month) {
        n -= days_in(year, month);
        month += 1;
    }
    (year % 100) * 10_000 + month * 100 + n + 1
}

pub fn is_real_time(hhmmss: u32) -> bool {
    hhmmss / 10_000 < 24 && hhmmss / 100 % 100 < 60 && hhmmss % 100 < 60
}

/// Today plus a number of calendar days, no further than 791231.
pub fn plus(today: Day, calendar_days: u32) -> Day {
    Day(today.0.saturating_add(calendar_days)).min(LAST)
}

/// Monday is 0.
pub fn weekday(day: Day) -> u32 {
    (day.0 + 1) % 7
}

pub fn is_banking_day(day: Day, holidays: &[u32]) -> bool {
    weekday(day) < 5 && !holidays.contains(&yymmdd(day))
}

/// Whether more than `most` banking days lie after `stamp` and up to `today`.
pub fn more_banking_days(stamp: Day, today: Day, holidays: &[u32], most: u32) -> bool {
    let mut count = 0;
    let mut d = stamp.0 + 1;
    while d <= today.0 {
        if is_banking_day(Day(d), holidays) {
            count += 1;
            if count > most {
                return true;
            }
        }
        d += 1;
    }
    false
}

#[cfg(test)]
mod tests {
    use super::*;

    #[test]
    fn every_day_there_and_back() {
        let mut real = 0;
        for n in 0..1_000_000 {
            if let Some(d) = day(n) {
                assert_eq!(yymmdd(d), n);
                real += 1;
            }
        }
        assert_eq!(real, LAST.0 + 1);
        assert_eq!(day(800101), Some(Day(0)));
        assert_eq!(day(791231), Some(LAST));
        assert!(day(991231).unwrap() < day(101).unwrap());
        assert_eq!(day(1_000_101), None);
    }

    #[test]
    fn p6_and_p7() {
        let d = |n| day(n).unwrap();
        assert_eq!(weekday(d(941015)), 5);
        assert_eq!(weekday(d(941023)), 6);
        let too_old = |today, holidays: &[u32]| more_banking_days(d(941015), d(today), holidays, 5);
        assert!(!too_old(941023, &[]) && too_old(941024, &[]));
        assert!(!too_old(941024, &[941019]) && too_old(941025, &[941019]));
    }

    #[test]
    fn p8_and_times() {
        assert!(day(229).is_some());
        assert!(day(10229).is_none());
        assert!(is_real_time(0) && is_real_time(235959));
        for t in [240000, 6000, 60, 1_000_000, u32::MAX] {
            assert!(!is_real_time(t), "{t}");
        }
    }
}
