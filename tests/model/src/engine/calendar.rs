//! Dates as days from 1 January 1970, and which of them fall in long years.

/// 31 December 2369.
pub const LAST_DAY: u64 = 146_096;

const FIRST_YEAR: u64 = 1970;
const SHORT_YEAR: u64 = 365;
const LONG_YEAR: u64 = 366;

fn is_long(year: u64) -> bool {
    year.is_multiple_of(4) && (!year.is_multiple_of(100) || year.is_multiple_of(400))
}

/// Long years from the year 1 to the one before.
fn long_years_before(year: u64) -> u64 {
    let last = year - 1;
    last / 4 - last / 100 + last / 400
}

/// A year's 1 January.
pub fn first_day(year: u64) -> u64 {
    let long_years = long_years_before(year) - long_years_before(FIRST_YEAR);
    SHORT_YEAR * (year - FIRST_YEAR) + long_years
}

/// Starts from the year that it would be if all were long, so at most one or
/// two too early.
pub fn year_of(day: u64) -> u64 {
    let mut year = FIRST_YEAR + day / LONG_YEAR;
    while first_day(year + 1) <= day {
        year += 1;
    }
    year
}

/// Of the days after the first, up to and with the last, those that fall in
/// years of 365 days, and those in years of 366.
pub fn days_by_year(first: u64, last: u64) -> (u64, u64) {
    let mut in_long_years = 0;
    for year in year_of(first)..=year_of(last) {
        let from = first_day(year).max(first + 1);
        let to = first_day(year + 1).min(last + 1);
        if is_long(year) {
            in_long_years += to.saturating_sub(from);
        }
    }
    (last - first - in_long_years, in_long_years)
}
