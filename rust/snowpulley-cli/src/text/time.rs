//! Times in milliseconds as date and time of day.

const SECOND: u64 = 1000;
const MINUTE: u64 = 60 * SECOND;
const HOUR: u64 = 60 * MINUTE;
const DAY: u64 = 24 * HOUR;

/// Milliseconds since 1970 as `2025-01-14 06:40:00.000`, in UTC.
pub fn utc(time: u64) -> String {
    let (year, month, day) = date(time / DAY);
    let (clock, rest) = (time_of_day(time), time % SECOND);
    format!("{year:04}-{month:02}-{day:02} {clock}.{rest:03}")
}

/// The time that `2025-01-14` or `2025-01-14T06:40` names, in UTC.
pub fn from_utc(word: &str) -> Option<u64> {
    let (date, clock) = word.split_once('T').unwrap_or((word, "00:00"));
    let [year, month, day] = numbers(date, '-', [4, 2, 2])?;
    let [hour, minute] = numbers(clock, ':', [2, 2])?;
    let of_day = (hour < 24 && minute < 60).then_some(hour * HOUR + minute * MINUTE)?;
    Some(days(year, month, day)? * DAY + of_day)
}

/// Numbers with these lengths in digits, with a mark between them.
fn numbers<const N: usize>(word: &str, mark: char, lengths: [usize; N]) -> Option<[u64; N]> {
    let parts: [&str; N] = word.split(mark).collect::<Vec<_>>().try_into().ok()?;
    let is_number = |(part, length): (&&str, usize)| {
        part.len() == length && part.bytes().all(|byte| byte.is_ascii_digit())
    };
    let fits = parts.iter().zip(lengths).all(is_number);
    fits.then(|| parts.map(|part| part.parse().unwrap_or(0)))
}

/// A store's purge line.
pub fn line_shown(line: u64) -> String {
    match line {
        0 => "0, as in a new store".to_string(),
        line => format!("{line}, {} UTC", utc(line)),
    }
}

/// The time of day alone, as `06:40:00`, in UTC.
pub fn time_of_day(time: u64) -> String {
    let (hour, minute) = (time % DAY / HOUR, time % HOUR / MINUTE);
    let second = time % MINUTE / SECOND;
    format!("{hour:02}:{minute:02}:{second:02}")
}

/// Year, month and day of the day with this number, 1970-01-01 being 0.
fn date(days: u64) -> (u64, u64, u64) {
    // Years that begin in March have their leap day last, and 400 years have
    // 146,097 days. 719,468 days lie between 0000-03-01 and 1970-01-01.
    let from_march = days + 719_468;
    let (era, of_era) = (from_march / 146_097, from_march % 146_097);
    let year_of_era = (of_era - of_era / 1460 + of_era / 36_524 - of_era / 146_096) / 365;
    let of_year = of_era - (365 * year_of_era + year_of_era / 4 - year_of_era / 100);
    let from_march = (5 * of_year + 2) / 153;
    let day = of_year - (153 * from_march + 2) / 5 + 1;
    let month = if from_march < 10 {
        from_march + 3
    } else {
        from_march - 9
    };
    let year = 400 * era + year_of_era + u64::from(month <= 2);
    (year, month, day)
}

/// The number of that day, if there is one from 1970 on: the inverse of `date`.
fn days(year: u64, month: u64, day: u64) -> Option<u64> {
    let from_march = year.checked_sub(u64::from(month <= 2))?;
    let leap_days = from_march / 4 - from_march / 100 + from_march / 400;
    let of_year = (153 * ((month + 9) % 12) + 2) / 5 + day.checked_sub(1)?;
    let days = (365 * from_march + leap_days + of_year).checked_sub(719_468)?;
    (date(days) == (year, month, day)).then_some(days)
}

#[cfg(test)]
mod tests {
    use super::*;

    #[test]
    fn known_times() {
        assert_eq!(utc(0), "1970-01-01 00:00:00.000");
        assert_eq!(utc(951_782_400_000), "2000-02-29 00:00:00.000");
        assert_eq!(utc(1_736_836_800_123), "2025-01-14 06:40:00.123");
        assert_eq!(utc(4_107_542_399_999), "2100-02-28 23:59:59.999");
        assert_eq!(utc(4_107_542_400_000), "2100-03-01 00:00:00.000");
        assert_eq!(utc((1 << 48) - 1), "10889-08-02 05:31:50.655");
        assert_eq!(line_shown(0), "0, as in a new store");
        assert_eq!(line_shown(1), "1, 1970-01-01 00:00:00.001 UTC");
    }

    #[test]
    fn dates_are_read() {
        assert_eq!(from_utc("1970-01-01"), Some(0));
        assert_eq!(from_utc("2000-02-29"), Some(951_782_400_000));
        assert_eq!(from_utc("2025-01-14T06:40"), Some(1_736_836_800_000));
        assert_eq!(from_utc("9999-12-31T23:59"), Some(253_402_300_740_000));
        let wrong = [
            "",
            "2025",
            "2025-01",
            "2025-1-14",
            "25-01-14",
            "2025-01-14-01",
            "2025-01-14T",
            "2025-01-14T6:40",
            "2025-01-14T24:00",
            "2025-01-14T06:60",
            "2025-01-14T06:40:00",
            "2025-01-14 06:40",
            "2025-+1-14",
            "2025-02-29",
            "2025-13-01",
            "2025-00-01",
            "2025-03-00",
            "1969-12-31",
            "0000-01-01",
        ];
        assert!(wrong.iter().all(|word| from_utc(word).is_none()));
    }

    /// Each day is the next one after the day before.
    #[test]
    fn days_follow_each_other() {
        let leap = |year: u64| match year % 100 {
            0 => year.is_multiple_of(400),
            _ => year.is_multiple_of(4),
        };
        let length = |year, month| match month {
            2 => 28 + u64::from(leap(year)),
            4 | 6 | 9 | 11 => 30,
            _ => 31,
        };
        let mut expected = (1970, 1, 1);
        for number in 0..200_000 {
            assert_eq!(date(number), expected);
            let (year, month, day) = expected;
            assert_eq!(days(year, month, day), Some(number));
            expected = match (month, day) {
                (12, 31) => (year + 1, 1, 1),
                _ if day == length(year, month) => (year, month + 1, 1),
                _ => (year, month, day + 1),
            };
        }
    }
}
