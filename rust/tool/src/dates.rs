//! Dates: seconds since 1 January 1904 by the clock of whoever wrote them. No zone is known, and none is added.

use std::ffi::OsStr;
use std::process::{Command, Stdio};

const FIRST_YEAR: u32 = 1904;
const SECONDS_OF_DAY: u32 = 86_400;
const FORM: &str = "'YYYY-MM-DD HH:MM:SS', @N for the stored number, or now";

fn days_of_year(year: u32) -> u32 {
    let leap = year.is_multiple_of(4) && (!year.is_multiple_of(100) || year.is_multiple_of(400));
    if leap {
        366
    } else {
        365
    }
}

/// The days of each month.
fn months(year: u32) -> [u32; 12] {
    let february = days_of_year(year) - 337;
    [31, february, 31, 30, 31, 30, 31, 31, 30, 31, 30, 31]
}

/// A date as text: `2026-03-29 02:30:00`.
pub fn shown(date: u32) -> String {
    let (mut days, seconds) = (date / SECONDS_OF_DAY, date % SECONDS_OF_DAY);
    let mut year = FIRST_YEAR;
    while days >= days_of_year(year) {
        days -= days_of_year(year);
        year += 1;
    }
    let mut month = 1;
    for length in months(year) {
        if days < length {
            break;
        }
        days -= length;
        month += 1;
    }
    let (hour, minute, second) = (seconds / 3600, seconds / 60 % 60, seconds % 60);
    format!("{year:04}-{month:02}-{:02} {hour:02}:{minute:02}:{second:02}", days + 1)
}

/// The date that an argument gives.
pub fn parsed(argument: &OsStr) -> Result<u32, String> {
    let text = argument.to_str().ok_or_else(|| format!("the date is not {FORM}"))?;
    if text == "now" {
        return now();
    }
    if let Some(number) = text.strip_prefix('@') {
        return stored(number);
    }
    let fields = fields(text).ok_or_else(|| format!("the date {text:?} is not {FORM}"))?;
    number(fields).ok_or_else(|| format!("there is no date {text} from {} to {}", shown(0), shown(u32::MAX)))
}

fn stored(number: &str) -> Result<u32, String> {
    let digits = !number.is_empty() && number.bytes().all(|byte| byte.is_ascii_digit());
    match number.parse() {
        Ok(date) if digits => Ok(date),
        _ => Err(format!("the date @{number} is not a number from 0 to {}", u32::MAX)),
    }
}

/// Year, month, day, hour, minute and second, if the text has exactly that form.
fn fields(text: &str) -> Option<[u32; 6]> {
    let form = "dddd-dd-dd dd:dd:dd";
    let fits = |(byte, form): (u8, u8)| match form {
        b'd' => byte.is_ascii_digit(),
        _ => byte == form,
    };
    if text.len() != form.len() || !text.bytes().zip(form.bytes()).all(fits) {
        return None;
    }
    let mut fields = [0; 6];
    for (field, digits) in fields.iter_mut().zip(text.split(['-', ' ', ':'])) {
        *field = digits.parse().ok()?;
    }
    Some(fields)
}

/// The stored number, if there is such a date and 32 bits hold it.
fn number([year, month, day, hour, minute, second]: [u32; 6]) -> Option<u32> {
    let months = months(year);
    let before = months.get(..month.checked_sub(1)? as usize)?;
    let length = *months.get(before.len())?;
    let good = (1..=length).contains(&day) && hour < 24 && minute < 60 && second < 60;
    if year < FIRST_YEAR || !good {
        return None;
    }
    let years: u32 = (FIRST_YEAR..year).map(days_of_year).sum();
    let days = years + before.iter().sum::<u32>() + day - 1;
    let seconds = hour * 3600 + minute * 60 + second;
    days.checked_mul(SECONDS_OF_DAY)?.checked_add(seconds)
}

/// This machine's local clock, which the command `date` tells.
fn now() -> Result<u32, String> {
    let said = Command::new("date")
        .arg("+%Y-%m-%d %H:%M:%S")
        .env("LC_ALL", "C")
        .stdin(Stdio::null())
        .stderr(Stdio::null())
        .output();
    let text = match said {
        Ok(said) if said.status.success() => String::from_utf8_lossy(&said.stdout).trim_end().to_string(),
        _ => return Err("the command date, which tells this machine's local clock, could not be run".to_string()),
    };
    let date = fields(&text).and_then(number);
    date.ok_or_else(|| format!("this machine's clock shows {text:?}, which is no date that can be stored"))
}

#[cfg(test)]
mod tests {
    use super::*;

    fn read(text: &str) -> Result<u32, String> {
        parsed(OsStr::new(text))
    }

    #[test]
    fn known_dates() {
        for (number, text) in [
            (0, "1904-01-01 00:00:00"),
            (5_097_599, "1904-02-28 23:59:59"),
            (5_097_600, "1904-02-29 00:00:00"),
            (2_500_000_000, "1983-03-22 04:26:40"),
            (3_034_627_200, "2000-02-29 00:00:00"),
            (3_857_596_200, "2026-03-29 02:30:00"),
            (u32::MAX, "2040-02-06 06:28:15"),
        ] {
            assert_eq!(shown(number), text);
            assert_eq!(read(text), Ok(number));
            assert_eq!(read(&format!("@{number}")), Ok(number));
        }
    }

    #[test]
    fn every_day_comes_back() {
        for day in 0..=u32::MAX / SECONDS_OF_DAY {
            for number in [day * SECONDS_OF_DAY, (day * SECONDS_OF_DAY).saturating_add(45_296)] {
                assert_eq!(read(&shown(number)), Ok(number));
            }
        }
    }

    #[test]
    fn bad_dates() {
        for text in [
            "",
            "@",
            "@-1",
            "@+1",
            "@4294967296",
            "@1x",
            "Now",
            "2026-03-29",
            "2026-03-29T02:30:00",
            "1903-12-31 23:59:59",
            "2040-02-06 06:28:16",
            "9999-01-01 00:00:00",
            "0000-01-01 00:00:00",
            "2026-02-29 00:00:00",
            "1900-02-29 00:00:00",
            "2026-00-01 00:00:00",
            "2026-13-01 00:00:00",
            "2026-01-00 00:00:00",
            "2026-01-32 00:00:00",
            "2026-01-01 24:00:00",
            "2026-01-01 00:60:00",
            "2026-01-01 00:00:60",
            " 2026-01-01 00:00:0",
            "+026-01-01 00:00:00",
            "2026-01-01 00:00:00 ",
            "2026-1-1 0:0:0",
        ] {
            assert!(read(text).is_err(), "{text}");
        }
    }

    #[test]
    fn this_machines_clock() {
        let date = read("now").expect("a date");
        let since_1970 = std::time::SystemTime::UNIX_EPOCH
            .elapsed()
            .expect("a clock behind 1970")
            .as_secs();
        // zones reach from 12 hours before to 14 hours behind
        assert!((i64::from(date) - since_1970 as i64 - 2_082_844_800).abs() < 15 * 3600);
    }
}
