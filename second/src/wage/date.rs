//! Gregorian dates of the years 2023 to 9999, as numbers YYYYMMDD: such numbers
//! are in the order of the days.

pub fn is_date(number: u32) -> bool {
    let (year, month, day) = (number / 10_000, number / 100 % 100, number % 100);
    (2023..=9999).contains(&year) && (1..=days(year, month)).contains(&day)
}

/// The days of a month; none if there is no such month.
fn days(year: u32, month: u32) -> u32 {
    match month {
        4 | 6 | 9 | 11 => 30,
        2 if is_leap(year) => 29,
        2 => 28,
        1..=12 => 31,
        _ => 0,
    }
}

fn is_leap(year: u32) -> bool {
    year.is_multiple_of(4) && (!year.is_multiple_of(100) || year.is_multiple_of(400))
}

#[cfg(test)]
mod tests {
    use super::*;

    /// Every number once, against a calendar that only counts on.
    #[test]
    fn the_days_one_after_another() {
        let mut next = Some(20230101);
        let mut count = 0u32;
        for number in (0..20230101)
            .step_by(101)
            .chain(20221200..=99991340)
            .chain([100_000_101, 120_230_101, u32::MAX])
        {
            let expected = next == Some(number);
            assert_eq!(is_date(number), expected, "{number}");
            if expected {
                count += 1;
                next = Some(following(number)).filter(|&n| n < 100_000_000);
            }
        }
        assert_eq!(next, None);
        // Every fourth year from 2024 to 9996, less the 79 centuries from 2100
        // to 9900, of which 19 come back.
        let leap = (9996 - 2024) / 4 + 1 - 79 + 19;
        assert_eq!(count, 7_977 * 365 + leap);
    }

    fn following(number: u32) -> u32 {
        let (year, month, day) = (number / 10_000, number / 100 % 100, number % 100);
        let long = [1, 3, 5, 7, 8, 10, 12];
        let last = if month == 2 {
            let leap = if year % 100 == 0 {
                year / 100 % 4 == 0
            } else {
                year % 4 == 0
            };
            28 + u32::from(leap)
        } else {
            30 + u32::from(long.contains(&month))
        };
        match (month, day) {
            (12, 31) => (year + 1) * 10_000 + 101,
            (_, day) if day == last => year * 10_000 + (month + 1) * 100 + 1,
            _ => number + 1,
        }
    }
}
