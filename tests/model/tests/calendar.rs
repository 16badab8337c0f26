//! The model's calendar (T-06) beside one that walks from day to day through
//! months and years.

use model::engine::calendar::{days_by_year, first_day, year_of, LAST_DAY};

/// Year, month and day.
type Date = (u64, u64, u64);

fn month_length(year: u64, month: u64) -> u64 {
    let of_four = year.is_multiple_of(4) && !year.is_multiple_of(100);
    let leap = of_four || year.is_multiple_of(400);
    match month {
        2 if leap => 29,
        2 => 28,
        4 | 6 | 9 | 11 => 30,
        _ => 31,
    }
}

fn next((year, month, day): Date) -> Date {
    if day < month_length(year, month) {
        (year, month, day + 1)
    } else if month < 12 {
        (year, month + 1, 1)
    } else {
        (year + 1, 1, 1)
    }
}

/// Every date from 1 January 1970 to the last of the table.
fn dates() -> Vec<Date> {
    let mut date = (1970, 1, 1);
    let mut dates = Vec::new();
    for _ in 0..=LAST_DAY {
        dates.push(date);
        date = next(date);
    }
    dates
}

#[test]
fn days_that_are_known() {
    let dates = dates();
    let known = [
        (0, (1970, 1, 1)),
        (59, (1970, 3, 1)),
        (730, (1972, 1, 1)),
        (1_096, (1973, 1, 1)),
        (10_957, (2000, 1, 1)),
        (11_016, (2000, 2, 29)),
        (19_723, (2024, 1, 1)),
        (47_482, (2100, 1, 1)),
        (146_096, (2369, 12, 31)),
    ];
    for (day, date) in known {
        assert_eq!(dates[day], date);
    }
    assert_eq!(dates.len() as u64, LAST_DAY + 1);
}

#[test]
fn every_day_falls_in_its_year() {
    for (day, (year, month, day_of_month)) in (0..).zip(dates()) {
        assert_eq!(year_of(day), year, "day {day}");
        let is_first = (month, day_of_month) == (1, 1);
        assert_eq!(first_day(year) == day, is_first, "day {day}");
    }
}

/// From every day, over terms short and long.
#[test]
fn days_are_counted_by_the_length_of_their_year() {
    let is_long = |year: u64| u64::from(month_length(year, 2) == 29);
    let mut long_days = vec![0];
    for (year, _, _) in dates() {
        long_days.push(long_days[long_days.len() - 1] + is_long(year));
    }
    for first in 0..LAST_DAY {
        for term in [1, 2, 59, 184, 364, 365] {
            let last = (first + term).min(LAST_DAY);
            let long = long_days[last as usize + 1] - long_days[first as usize + 1];
            let short = last - first - long;
            assert_eq!(days_by_year(first, last), (short, long), "{first} {last}");
        }
    }
}
