//! Milliseconds since 1970 and RFC 3339.

/// The store's last time, 2^48 - 1.
pub const LAST: u64 = (1 << 48) - 1;

pub const HOUR: u64 = 3_600_000;
const DAY: u64 = 24 * HOUR;

/// RFC 3339 in UTC with milliseconds. It has no years past 9999.
pub fn rfc3339(time: u64) -> Option<String> {
    let (year, month, day) = date(time / DAY);
    let (hour, minute, second, milli) = clock(time);
    let text =
        format!("{year:04}-{month:02}-{day:02}T{hour:02}:{minute:02}:{second:02}.{milli:03}Z");
    (year <= 9999).then_some(text)
}

/// The same for people.
pub fn shown(time: u64) -> String {
    rfc3339(time).unwrap_or_else(|| String::from("past the year 9999"))
}

/// The start of an hour since 1970, for people.
pub fn shown_hour(hour: u64) -> String {
    let time = hour * HOUR;
    match rfc3339(time) {
        Some(text) => text.replace(".000", ""),
        None => format!("{} ({time})", shown(time)),
    }
}

/// Digits only, as RocketMQ names an index file.
pub fn file_name(time: u64) -> String {
    let (year, month, day) = date(time / DAY);
    let (hour, minute, second, milli) = clock(time);
    format!("{year:04}{month:02}{day:02}{hour:02}{minute:02}{second:02}{milli:03}")
}

fn clock(time: u64) -> (u64, u64, u64, u64) {
    let seconds = time % DAY / 1000;
    (seconds / 3600, seconds / 60 % 60, seconds % 60, time % 1000)
}

/// Year, month and day of a number of days since 1970-01-01. Years are taken from March on, so that a leap day is the last.
fn date(days: u64) -> (u64, u64, u64) {
    let days = days + 719_468;
    let (era, day_of_era) = (days / 146_097, days % 146_097);
    let year_of_era =
        (day_of_era - day_of_era / 1460 + day_of_era / 36_524 - day_of_era / 146_096) / 365;
    let day_of_year = day_of_era - (365 * year_of_era + year_of_era / 4 - year_of_era / 100);
    let from_march = (5 * day_of_year + 2) / 153;
    let day = day_of_year - (153 * from_march + 2) / 5 + 1;
    let month = if from_march < 10 {
        from_march + 3
    } else {
        from_march - 9
    };
    let year = era * 400 + year_of_era + u64::from(month <= 2);
    (year, month, day)
}

/// Days since 1970-01-01; none before it.
fn days(year: u64, month: u64, day: u64) -> Option<u64> {
    let (year, from_march) = if month > 2 {
        (year, month - 3)
    } else {
        (year.checked_sub(1)?, month + 9)
    };
    let (era, year_of_era) = (year / 400, year % 400);
    let day_of_year = (153 * from_march + 2) / 5 + day - 1;
    let day_of_era = year_of_era * 365 + year_of_era / 4 - year_of_era / 100 + day_of_year;
    (era * 146_097 + day_of_era).checked_sub(719_468)
}

/// A time in RFC 3339, with any offset; parts of a millisecond are left out.
pub fn parse(text: &str) -> Option<u64> {
    let bytes = text.as_bytes();
    if !text.is_ascii() || bytes.len() < 20 {
        return None;
    }
    let number = |from: usize, to: usize| crate::args::number(&text[from..to]);
    let (year, month, day) = (number(0, 4)?, number(5, 7)?, number(8, 10)?);
    let (hour, minute, second) = (number(11, 13)?, number(14, 16)?, number(17, 19)?);
    let divided = bytes[4] == b'-'
        && bytes[7] == b'-'
        && matches!(bytes[10], b'T' | b't' | b' ')
        && bytes[13] == b':'
        && bytes[16] == b':';
    // The calendar counts no leap second: 60 is the next minute's start.
    if !divided || hour > 23 || minute > 59 || second > 60 {
        return None;
    }
    let (mut rest, mut milli) = (&text[19..], 0);
    if let Some(fraction) = rest.strip_prefix('.') {
        let digits = fraction.bytes().take_while(u8::is_ascii_digit).count();
        if digits == 0 {
            return None;
        }
        milli =
            crate::args::number(&format!("{fraction:0<3}", fraction = &fraction[..digits])[..3])?;
        rest = &fraction[digits..];
    }
    let day_number = days(year, month, day)?;
    if date(day_number) != (year, month, day) {
        return None;
    }
    let local = day_number * DAY + (hour * 3600 + minute * 60 + second) * 1000 + milli;
    if rest == "Z" || rest == "z" {
        return Some(local);
    }
    let offset = rest.as_bytes();
    if offset.len() != 6 || offset[3] != b':' {
        return None;
    }
    let (hours, minutes) = (
        crate::args::number(&rest[1..3])?,
        crate::args::number(&rest[4..6])?,
    );
    if hours > 23 || minutes > 59 {
        return None;
    }
    let offset_millis = (hours * 60 + minutes) * 60_000;
    match offset[0] {
        b'+' => local.checked_sub(offset_millis),
        b'-' => Some(local + offset_millis),
        _ => None,
    }
}

#[cfg(test)]
mod tests {
    use super::*;

    #[test]
    fn times_come_back() {
        for (text, time) in [
            ("1970-01-01T00:00:00.000Z", 0),
            ("2000-02-29T12:34:56.789Z", 951_827_696_789),
            ("2026-03-02T05:58:00.000Z", 1_772_431_080_000),
            ("9999-12-31T23:59:59.999Z", 253_402_300_799_999),
        ] {
            assert_eq!(rfc3339(time).as_deref(), Some(text));
            assert_eq!(parse(text), Some(time));
        }
        let mut time = 1;
        while time < 253_402_300_799_999 {
            assert_eq!(rfc3339(time).and_then(|text| parse(&text)), Some(time));
            time = time * 5 / 4 + 86_399_999;
        }
        assert_eq!(rfc3339(253_402_300_800_000), None);
        assert_eq!(shown(LAST), "past the year 9999");
        assert_eq!(shown_hour(492_341), "2026-03-02T05:00:00Z");
        assert_eq!(
            shown_hour(LAST / HOUR),
            "past the year 9999 (281474974800000)"
        );
        assert_eq!(file_name(951_827_696_789), "20000229123456789");
    }

    #[test]
    fn other_writings() {
        for text in [
            "2026-03-02T06:58:00+01:00",
            "2026-03-02t00:28:00.0009-05:30",
            "2026-03-02 05:58:00z",
            "2026-03-02T05:57:60Z",
        ] {
            assert_eq!(parse(text), Some(1_772_431_080_000), "{text}");
        }
        for text in [
            "",
            "2026-03-02",
            "2026-03-02T05:58:00",
            "2026-02-29T05:58:00Z",
            "2026-00-01T05:58:00Z",
            "2026-13-01T05:58:00Z",
            "2026-03-02T24:00:00Z",
            "2026-03-02T05:58:00.Z",
            "2026-03-02T05:58:00+1:00",
            "1969-12-31T23:59:59Z",
            "2026-03-02T05:58:00Z ",
            "+026-03-02T05:58:00Z",
            "20é6-03-02T05:58:00Z",
        ] {
            assert_eq!(parse(text), None, "{text}");
        }
    }
}
