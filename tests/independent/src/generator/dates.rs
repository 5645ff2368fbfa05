// Knows how to make dates, times and offsets: every one near a limit, and others by chance, whole and broken.

use crate::dice::Dice;
use crate::examples::m_with;
use crate::generator::{mixed, rooms};
use crate::requests::{judge_line, offset_line};

/// Years with 29 February and without, and the first and last ones.
const YEARS: [&str; 9] = ["2024", "2023", "1900", "2000", "0000", "0004", "0100", "9999", "9996"];

/// The examples of RFC 6350, section 4.3, and forms that it leaves out.
const FORMS: &[&str] = &[
    "", "19850412", "1985-04", "1985", "--0412", "---12", "T102200", "T1022", "T10", "T-2200", "T--00", "T102200Z",
    "T102200-0800", "19961022T140000", "--1022T1400", "---22T14", "19961022T140000Z", "19961022T140000-05",
    "19961022T140000-0500", "198504", "1985-04-12", "1985T10", "--04T10", "1985-04T10", "T-22Z", "T--00Z", "T-2200Z", "T24",
    "102200", "19850412T", "19850412T-22", "19850412t10", "19850412T10z", "T10:22", "19850412,19850413", " 19850412",
    "19850412 ", "-0412", "---", "--", "-", "----12", "---12T", "1985-", "1985-4", "198", "19850", "1985041", "198504121",
    "00000229", "20000229", "19000229", "20230229", "--0229", "--0230", "--0431", "---31", "---32", "---00", "T--60", "T--61",
    "T-60", "T-5960", "T235960", "T000060+2359", "T10+24", "T10+0060", "T10+00:00", "19850412T10Z0", "T", "TT10", "T10T10",
];

/// Parameters that set the kind of a date or an offset.
const PARAMETERS: [&str; 8] = [
    "", ";VALUE=text", ";VALUE=date", ";CALSCALE=julian", ";CALSCALE=Gregorian", ";VALUE=utc-offset",
    ";CALSCALE=", ";VALUE=uri;CALSCALE=x",
];

/// Requests without end: each date near a limit in a card, judged and read by turns, and each offset by itself.
pub fn dates(seed: u64) -> impl Iterator<Item = String> {
    let lines = by_hand().into_iter().map(Asked::Line);
    let offsets = offsets().into_iter().map(Asked::Offset);
    let asked = mixed(seed, lines.chain(offsets).collect(), 3, by_chance);
    asked.enumerate().map(|(index, asked)| match asked {
        Asked::Line(line) if index % 2 == 0 => judge_line(&m_with(line.as_bytes())),
        Asked::Line(line) => rooms::read_request(&m_with(line.as_bytes()), index),
        Asked::Offset(value) => offset_line(value.as_bytes()),
    })
}

/// A line in a card, or the octets of an offset.
enum Asked {
    Line(String),
    Offset(String),
}

/// Every form with every parameter; every month and day of these years and of none; 29 February of every year; every hour, minute
/// and second in every place; every offset as a zone and as TZ's value.
pub fn by_hand() -> Vec<String> {
    let mut lines = Vec::new();
    for name in ["BDAY", "ANNIVERSARY", "REV", "TZ", "GEO", "LANG", "NOTE"] {
        for parameter in PARAMETERS {
            lines.extend(FORMS.iter().map(|form| format!("{name}{parameter}:{form}")));
        }
    }
    for month in 0..=13 {
        for day in 0..=32 {
            for year in YEARS {
                lines.push(format!("BDAY:{year}{month:02}{day:02}"));
                lines.push(format!("REV:{year}{month:02}{day:02}T000000"));
            }
            lines.push(format!("BDAY:--{month:02}{day:02}"));
            lines.push(format!("ANNIVERSARY:--{month:02}{day:02}T1022Z"));
        }
    }
    lines.extend((0..10_000).map(|year| format!("BDAY:{year:04}0229")));
    for part in 0..=99 {
        lines.extend([
            format!("BDAY:T{part:02}"), format!("BDAY:T{part:02}22"), format!("BDAY:T10{part:02}"),
            format!("BDAY:T1022{part:02}"), format!("BDAY:T-{part:02}"), format!("BDAY:T-22{part:02}"),
            format!("BDAY:T--{part:02}"), format!("BDAY:---{part:02}"), format!("BDAY:1985-{part:02}"),
            format!("BDAY:19850412T{part:02}Z"), format!("BDAY:--04{part:02}T10{part:02}"), format!("BDAY:--{part:02}"),
            format!("REV:19961022T{part:02}0000"), format!("REV:19961022T14{part:02}00Z"), format!("REV:19961022T1400{part:02}-05"),
        ]);
    }
    for offset in offsets() {
        lines.push(format!("TZ;VALUE=utc-offset:{offset}"));
        lines.push(format!("BDAY:T10{offset}"));
        lines.push(format!("REV:19961022T140000{offset}"));
    }
    lines
}

/// Every sign, hour and minute, and some forms that are none.
pub fn offsets() -> Vec<String> {
    let mut offsets: Vec<String> = FORMS.iter().map(|form| form.to_string()).collect();
    offsets.extend(["-050", "-05000", "05", "0500", "+", "+0", "-5", "+-05", "-05-00", "Z"].map(str::to_string));
    for sign in ["+", "-", ""] {
        for hour in 0..=25 {
            offsets.push(format!("{sign}{hour:02}"));
            offsets.extend((0..=61).map(|minute| format!("{sign}{hour:02}{minute:02}")));
        }
    }
    offsets
}

/// A good date or offset, mostly with one octet changed, added or left out.
fn by_chance(dice: &mut Dice) -> Asked {
    let (head, mut value) = match dice.below(4) {
        0 => ("BDAY:", date_and_or_time(dice)),
        1 => ("ANNIVERSARY;CALSCALE=gregorian:", date_and_or_time(dice)),
        2 => ("REV:", timestamp(dice)),
        _ => ("TZ;VALUE=utc-offset:", offset(dice)),
    };
    let place = dice.below(value.len());
    match dice.below(5) {
        0 => value[place] = *dice.pick(b"0123456789-+TZtz:. "),
        1 => value.insert(place, *dice.pick(b"0123456789-+TZ")),
        2 => drop(value.remove(place)),
        3 => value.truncate(place),
        _ => (),
    }
    let value = String::from_utf8(value).expect("ASCII");
    match dice.once_in(3) {
        true => Asked::Offset(value),
        false => Asked::Line(format!("{head}{value}")),
    }
}

/// A value of kind 9.
pub fn date_and_or_time(dice: &mut Dice) -> Vec<u8> {
    let (year, month, day) = (dice.below(10_000), dice.between(1, 12), dice.between(1, 28));
    let date = match dice.below(3) {
        0 => format!("{year:04}{month:02}{day:02}"),
        1 => format!("--{month:02}{day:02}"),
        _ => format!("---{day:02}"),
    };
    match dice.below(8) {
        0 => format!("{year:04}"),
        1 => format!("{year:04}-{month:02}"),
        2 => format!("--{month:02}"),
        3 => format!("T-{:02}", dice.below(60)),
        4 => format!("T--{:02}", dice.below(61)),
        5 => format!("T{}", clock(dice)),
        6 => format!("{date}T{}", clock(dice)),
        _ => date,
    }
    .into_bytes()
}

/// A value of kind 10.
pub fn timestamp(dice: &mut Dice) -> Vec<u8> {
    let (year, month, day) = (dice.below(10_000), dice.between(1, 12), dice.between(1, 28));
    let (hour, minute, second) = (dice.below(24), dice.below(60), dice.below(61));
    let zone = zone(dice);
    format!("{year:04}{month:02}{day:02}T{hour:02}{minute:02}{second:02}{zone}").into_bytes()
}

/// A value of kind 11.
pub fn offset(dice: &mut Dice) -> Vec<u8> {
    let sign = *dice.pick(&["+", "-"]);
    let (hour, minute) = (dice.below(24), dice.below(60));
    match dice.once_in(3) {
        true => format!("{sign}{hour:02}"),
        false => format!("{sign}{hour:02}{minute:02}"),
    }
    .into_bytes()
}

/// A time with its hour, and a zone or none.
fn clock(dice: &mut Dice) -> String {
    let (hour, minute, second) = (dice.below(24), dice.below(60), dice.below(61));
    let zone = zone(dice);
    match dice.below(3) {
        0 => format!("{hour:02}{zone}"),
        1 => format!("{hour:02}{minute:02}{zone}"),
        _ => format!("{hour:02}{minute:02}{second:02}{zone}"),
    }
}

fn zone(dice: &mut Dice) -> String {
    match dice.below(3) {
        0 => String::new(),
        1 => "Z".to_string(),
        _ => String::from_utf8(offset(dice)).expect("ASCII"),
    }
}
