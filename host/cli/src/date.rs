//! The date that a stored block gets: eight decimal digits, year, month and day, in UTC.

use std::env;
use std::ffi::OsStr;
use std::time::{SystemTime, UNIX_EPOCH};

use crate::format::Date;
use crate::status::Failure;

/// A lawful date that is no day: for requests that store nothing.
pub const NO_DAY: Date = *b"00000000";

/// A moment that is told to reproducible programs in place of the clock's, in seconds since 1970.
const SOURCE: &str = "SOURCE_DATE_EPOCH";
const DAY: u64 = 86_400;
/// The last second of the year 9999: behind it a date has more digits.
const LAST: u64 = 253_402_300_799;

/// Where the dates of blocks come from.
#[derive(Clone, Copy, Debug, PartialEq, Eq)]
pub enum Dates {
    /// All have this one.
    Fixed(Date),
    /// Each has that of `SOURCE_DATE_EPOCH` where it is set, else today's.
    Today,
}

impl Dates {
    /// The date that was given for all, if one was. Fails where `SOURCE_DATE_EPOCH` would have to tell
    /// it and does not.
    pub fn choose(given: Option<Date>) -> Result<Dates, Failure> {
        let dates = given.map_or(Dates::Today, Dates::Fixed);
        dates.now()?;
        Ok(dates)
    }

    /// The date of a request that comes now.
    pub fn now(self) -> Result<Date, Failure> {
        match (self, env::var_os(SOURCE)) {
            (Dates::Fixed(date), _) => Ok(date),
            (Dates::Today, Some(source)) => from_source(&source),
            (Dates::Today, None) => {
                let since = SystemTime::now().duration_since(UNIX_EPOCH);
                Ok(at(since.map_or(0, |since| since.as_secs())))
            }
        }
    }
}

/// A date with hyphens, such as 2026-11-16.
pub fn hyphened(date: &Date) -> String {
    let digits = String::from_utf8_lossy(date);
    format!("{}-{}-{}", &digits[..4], &digits[4..6], &digits[6..])
}

/// The value of `--date`.
pub fn parse(value: &OsStr) -> Result<Date, Failure> {
    let digits = Date::try_from(value.as_encoded_bytes()).ok();
    let date = digits.filter(|digits| digits.iter().all(u8::is_ascii_digit));
    date.ok_or_else(|| {
        let words = format!(
            "--date takes eight decimal digits, such as 20261116, not {}",
            value.display()
        );
        Failure::usage(words)
    })
}

/// The date of the value of `SOURCE_DATE_EPOCH`.
fn from_source(value: &OsStr) -> Result<Date, Failure> {
    let text = value
        .to_str()
        .filter(|text| text.bytes().all(|byte| byte.is_ascii_digit()));
    let seconds = text.and_then(|text| text.parse().ok());
    let seconds = seconds.filter(|seconds| *seconds <= LAST);
    seconds.map(at).ok_or_else(|| {
        let words = format!(
            "{SOURCE} is set and is no count of seconds from 1970 up to {LAST}: {}. \
             Unset it, or give --date",
            value.display()
        );
        Failure::usage(words)
    })
}

/// The day of a moment, in seconds since 1970; the last of the year 9999 for any later one.
fn at(seconds: u64) -> Date {
    let mut day = seconds.min(LAST) / DAY;
    let mut year = 1970;
    while day >= days_of_year(year) {
        day -= days_of_year(year);
        year += 1;
    }
    let mut month = 1;
    while day >= days_of_month(year, month) {
        day -= days_of_month(year, month);
        month += 1;
    }
    let mut date = NO_DAY;
    let mut number = (year * 100 + month) * 100 + day + 1;
    for digit in date.iter_mut().rev() {
        *digit = b'0' + (number % 10) as u8;
        number /= 10;
    }
    date
}

fn leap(year: u64) -> bool {
    year.is_multiple_of(4) && (!year.is_multiple_of(100) || year.is_multiple_of(400))
}

fn days_of_year(year: u64) -> u64 {
    if leap(year) {
        366
    } else {
        365
    }
}

fn days_of_month(year: u64, month: u64) -> u64 {
    match month {
        2 if leap(year) => 29,
        2 => 28,
        4 | 6 | 9 | 11 => 30,
        _ => 31,
    }
}

#[cfg(test)]
mod tests {
    use super::*;
    use std::collections::BTreeSet;
    use std::os::unix::ffi::OsStrExt;

    #[test]
    fn days() {
        for (seconds, date) in [
            (0, b"19700101"),
            (DAY - 1, b"19700101"),
            (DAY, b"19700102"),
            (951_782_400, b"20000229"),
            (951_868_800, b"20000301"),
            (1_709_164_800, b"20240229"),
            (1_794_787_200, b"20261116"),
            (1_794_873_599, b"20261116"),
            (4_107_542_399, b"21000228"),
            (4_107_542_400, b"21000301"),
            (LAST, b"99991231"),
            (u64::MAX, b"99991231"),
        ] {
            assert_eq!(at(seconds), *date, "{seconds}");
        }
    }

    /// 400 years have 146,097 days, all different and in order.
    #[test]
    fn every_day_of_400_years() {
        let days: Vec<Date> = (0..146_097).map(|day| at(day * DAY)).collect();
        assert!(days.is_sorted());
        assert_eq!(days.iter().collect::<BTreeSet<_>>().len(), days.len());
        assert_eq!(at(146_097 * DAY), *b"23700101");
    }

    #[test]
    fn given_dates() {
        for good in ["20261116", "00000000", "99999999", "20240230"] {
            assert_eq!(parse(OsStr::new(good)).unwrap(), good.as_bytes());
        }
        let bad: [&[u8]; 8] = [
            b"",
            b"2026111",
            b"202611160",
            b"2026111a",
            b"2026-1-1",
            b" 2026111",
            b"2026111\xb2",
            "２０".as_bytes(),
        ];
        for bad in bad {
            let failure = parse(OsStr::from_bytes(bad)).unwrap_err();
            assert_eq!(failure.status, 64);
            let words = "--date takes eight decimal digits";
            assert!(failure.words.contains(words), "{}", failure.words);
        }
    }

    #[test]
    fn a_source_date() {
        let date = |text: &str| from_source(OsStr::new(text));
        assert_eq!(date("1794787200").unwrap(), *b"20261116");
        assert_eq!(date("0").unwrap(), *b"19700101");
        for bad in [
            "",
            "-1",
            "+1",
            "1.5",
            "today",
            "253402300800",
            "99999999999999999999",
        ] {
            let failure = date(bad).unwrap_err();
            assert_eq!(failure.status, 64);
            assert!(failure.words.contains("SOURCE_DATE_EPOCH"), "{bad}");
        }
    }
}
