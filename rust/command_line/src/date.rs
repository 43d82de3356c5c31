//! Dates of HFS, which count seconds from the start of 1904 by the local clock.

use std::fmt;

/// Seconds since 1904 began, shown as a number and as a date.
pub struct Date(pub u32);

impl fmt::Display for Date {
    fn fmt(&self, f: &mut fmt::Formatter<'_>) -> fmt::Result {
        let (mut days, seconds) = (self.0 / 86_400, self.0 % 86_400);
        let mut year = 1904;
        while days >= days_in(year) {
            days -= days_in(year);
            year += 1;
        }
        let february = days_in(year) - 337;
        let lengths = [31, february, 31, 30, 31, 30, 31, 31, 30, 31, 30, 31];
        let mut month = 0;
        while days >= lengths[month] {
            days -= lengths[month];
            month += 1;
        }
        let (hour, minute, second) = (seconds / 3_600, seconds / 60 % 60, seconds % 60);
        write!(f, "{} ({year}-{:02}-{:02}", self.0, month + 1, days + 1)?;
        write!(f, " {hour:02}:{minute:02}:{second:02})")
    }
}

/// The numbers reach from 1904 to 2040, where every fourth year is a leap year.
fn days_in(year: u32) -> u32 {
    match year % 4 {
        0 => 366,
        _ => 365,
    }
}

#[cfg(test)]
mod tests {
    use super::*;

    /// 2,082,844,800 seconds lie between 1904 and 1970; the others are `date -u -d` with that added.
    #[test]
    fn as_the_calendar_has_them() {
        assert_eq!(Date(0).to_string(), "0 (1904-01-01 00:00:00)");
        assert_eq!(Date(2_082_844_800).to_string(), "2082844800 (1970-01-01 00:00:00)");
        assert_eq!(Date(2_908_483_199).to_string(), "2908483199 (1996-02-29 23:59:59)");
        assert_eq!(Date(2_908_483_200).to_string(), "2908483200 (1996-03-01 00:00:00)");
        assert_eq!(Date(u32::MAX).to_string(), "4294967295 (2040-02-06 06:28:15)");
    }
}
