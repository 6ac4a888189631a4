//! Dates such as 2026-11-15, and the days between them.

/// The days from the first of March of the year 0 to a date.
pub fn day_of(date: &str) -> Result<i64, String> {
    let numbers = numbers(date).filter(|(year, month, day)| (1..=days(*year, *month)).contains(day));
    let (year, month, day) = numbers.ok_or_else(|| format!("{date} is no date"))?;
    // Years that begin with March have their leap day last.
    let (year, month) = if month > 2 { (year, month - 3) } else { (year - 1, month + 9) };
    Ok(365 * year + year / 4 - year / 100 + year / 400 + (153 * month + 2) / 5 + day - 1)
}

/// Year, month and day of a date with four, two and two digits.
fn numbers(date: &str) -> Option<(i64, i64, i64)> {
    let shape = |byte: u8| if byte.is_ascii_digit() { b'0' } else { byte };
    if !date.bytes().map(shape).eq(*b"0000-00-00") {
        return None;
    }
    Some((date[..4].parse().ok()?, date[5..7].parse().ok()?, date[8..].parse().ok()?))
}

/// How many days a month has; one that is none has none.
fn days(year: i64, month: i64) -> i64 {
    let is_leap = year % 4 == 0 && (year % 100 != 0 || year % 400 == 0);
    match month {
        2 if is_leap => 29,
        2 => 28,
        4 | 6 | 9 | 11 => 30,
        1..=12 => 31,
        _ => 0,
    }
}

#[cfg(test)]
mod tests {
    use super::*;

    #[test]
    fn days_are_counted_over_leap_days() {
        for (filled, label, count) in [
            ("2026-05-04", "2028-05-03", 730),
            ("1999-12-31", "2000-03-01", 61),
            ("2100-02-28", "2100-03-01", 1),
            ("2028-02-28", "2028-02-29", 1),
        ] {
            assert_eq!(day_of(label).unwrap() - day_of(filled).unwrap(), count);
        }
    }

    #[test]
    fn dates_are_real() {
        for date in [
            "2026-02-31",
            "2026-02-29",
            "2100-02-29",
            "2026-04-31",
            "2026-13-01",
            "2026-00-01",
            "2026-01-00",
            "2026-01-32",
            "+026-01-01",
            "2026-1-1",
            "2026-01-01x",
            "20260101",
            "2026/01/01",
            "2026-01--1",
            "٢٠26-01",
        ] {
            assert_eq!(day_of(date), Err(format!("{date} is no date")));
        }
    }
}
