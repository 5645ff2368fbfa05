// Knows dates, times and offsets by RFC 6350, section 4.3 with erratum 3484, and the days of each month.

use crate::refusal::{refuse, Refusal};
use crate::wanted::Wanted;

/// Kind 9: a date, a time after `T`, or a date that leaves nothing out at its end, with its time.
pub fn is_date_and_or_time(value: &[u8]) -> bool {
    match value.iter().position(|&octet| octet == b'T') {
        Some(0) => is_time(&value[1..]),
        Some(at) => is_whole_date(&value[..at]) && is_clock(&value[at + 1..]),
        None => is_date(value),
    }
}

/// Kind 10: year, month, day, `T`, hour, minute, second, and a zone or none.
pub fn is_timestamp(value: &[u8]) -> bool {
    value.len() >= 15
        && is_year_month_day(&value[..8])
        && value[8] == b'T'
        && is_hour_minute_second(&value[9..15])
        && is_zone(&value[15..])
}

/// Kind 11: a sign, an hour, and a minute or none.
pub fn is_offset(value: &[u8]) -> bool {
    minutes_of(value).is_some()
}

/// The minutes that an offset is ahead of UTC, or the refusal with its first dead octet.
pub fn minutes(value: &[u8]) -> Result<i32, Refusal> {
    match minutes_of(value) {
        Some(minutes) => Ok(minutes),
        None => refuse(7, Wanted::Kind(11).first_dead(value)),
    }
}

/// The minutes that an offset is ahead of UTC, if these octets are one.
fn minutes_of(value: &[u8]) -> Option<i32> {
    let (sign, time) = match value {
        [b'+', time @ ..] => (1, time),
        [b'-', time @ ..] => (-1, time),
        _ => return None,
    };
    let hour_and_minute = match time.len() {
        2 => (number(time), Some(0)),
        4 => (number(&time[..2]), number(&time[2..])),
        _ => (None, None),
    };
    match hour_and_minute {
        (Some(hour @ 0..=23), Some(minute @ 0..=59)) => Some(sign * (60 * hour + minute)),
        _ => None,
    }
}

/// A date, down to the day or not.
fn is_date(value: &[u8]) -> bool {
    match value {
        [b'-', b'-', month @ ..] if month.len() == 2 => is_month(number(month)),
        _ if value.len() == 4 => number(value).is_some(),
        _ if value.len() == 7 => number(&value[..4]).is_some() && value[4] == b'-' && is_month(number(&value[5..])),
        _ => is_whole_date(value),
    }
}

/// A date down to the day: with year and month, with month alone, or the day alone.
fn is_whole_date(value: &[u8]) -> bool {
    match value {
        [b'-', b'-', b'-', day @ ..] => day.len() == 2 && matches!(number(day), Some(1..=31)),
        [b'-', b'-', rest @ ..] => rest.len() == 4 && is_day(None, number(&rest[..2]), number(&rest[2..])),
        _ => is_year_month_day(value),
    }
}

fn is_year_month_day(value: &[u8]) -> bool {
    value.len() == 8
        && number(&value[..4]).is_some()
        && is_day(number(&value[..4]), number(&value[4..6]), number(&value[6..]))
}

/// Whether the month has this day, in this year or in some year.
fn is_day(year: Option<i32>, month: Option<i32>, day: Option<i32>) -> bool {
    let february = if year.is_none_or(is_leap) { 29 } else { 28 };
    let days = [31, february, 31, 30, 31, 30, 31, 31, 30, 31, 30, 31];
    match (month, day) {
        (Some(month @ 1..=12), Some(day)) => 1 <= day && day <= days[month as usize - 1],
        _ => false,
    }
}

/// Every fourth year, but of the full hundreds only every fourth.
fn is_leap(year: i32) -> bool {
    if year % 100 == 0 {
        year % 400 == 0
    } else {
        year % 4 == 0
    }
}

fn is_month(month: Option<i32>) -> bool {
    matches!(month, Some(1..=12))
}

/// A time that stands alone: a clock time, or one without its hour, or without hour and minute.
fn is_time(value: &[u8]) -> bool {
    match value {
        [b'-', b'-', second @ ..] => second.len() == 2 && is_second(number(second)),
        [b'-', rest @ ..] if rest.len() == 2 => is_minute(number(rest)),
        [b'-', rest @ ..] if rest.len() == 4 => is_minute(number(&rest[..2])) && is_second(number(&rest[2..])),
        _ => is_clock(value),
    }
}

/// Hour, minute or none, second or none, zone or none.
fn is_clock(value: &[u8]) -> bool {
    let digits = value.iter().take_while(|octet| octet.is_ascii_digit()).count();
    let (time, zone) = value.split_at(digits);
    let in_bounds = match digits {
        2 => is_hour(number(time)),
        4 => is_hour(number(&time[..2])) && is_minute(number(&time[2..])),
        6 => is_hour_minute_second(time),
        _ => false,
    };
    in_bounds && is_zone(zone)
}

fn is_hour_minute_second(time: &[u8]) -> bool {
    is_hour(number(&time[..2])) && is_minute(number(&time[2..4])) && is_second(number(&time[4..]))
}

/// Nothing, `Z`, or an offset.
fn is_zone(value: &[u8]) -> bool {
    value.is_empty() || value == b"Z" || is_offset(value)
}

fn is_hour(hour: Option<i32>) -> bool {
    matches!(hour, Some(0..=23))
}

fn is_minute(minute: Option<i32>) -> bool {
    matches!(minute, Some(0..=59))
}

/// 60 is allowed, as a leap second has it.
fn is_second(second: Option<i32>) -> bool {
    matches!(second, Some(0..=60))
}

/// The number that these octets make, if they are digits alone.
fn number(octets: &[u8]) -> Option<i32> {
    if octets.is_empty() || !octets.iter().all(u8::is_ascii_digit) {
        return None;
    }
    Some(octets.iter().fold(0, |number, octet| 10 * number + i32::from(octet - b'0')))
}
