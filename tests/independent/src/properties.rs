// Knows the property table: numbers, names, kinds, which are single, and how VALUE and CALSCALE set a kind.

use crate::content::Parameter;

/// One row of the property table; `single` is the mark *1.
#[derive(Clone, Copy, Debug, PartialEq, Eq)]
pub struct Row {
    pub number: u32,
    pub name: &'static str,
    pub kind: u32,
    pub single: bool,
}

const fn many(number: u32, name: &'static str, kind: u32) -> Row {
    Row { number, name, kind, single: false }
}

const fn single(number: u32, name: &'static str, kind: u32) -> Row {
    Row { number, name, kind, single: true }
}

pub const BEGIN: u32 = 1;
pub const END: u32 = 2;
pub const KIND: u32 = 4;
pub const XML: u32 = 5;
pub const FN: u32 = 6;
pub const BDAY: u32 = 10;
pub const ANNIVERSARY: u32 = 11;
pub const TZ: u32 = 18;
pub const MEMBER: u32 = 24;
pub const VERSION: u32 = 34;

/// The table of document 01, in its order.
pub const ROWS: [Row; 38] = [
    many(BEGIN, "BEGIN", 0),
    many(END, "END", 0),
    many(3, "SOURCE", 3),
    single(KIND, "KIND", 1),
    many(XML, "XML", 0),
    many(FN, "FN", 1),
    single(7, "N", 4),
    many(8, "NICKNAME", 2),
    many(9, "PHOTO", 3),
    single(BDAY, "BDAY", 9),
    single(ANNIVERSARY, "ANNIVERSARY", 9),
    single(12, "GENDER", 7),
    many(13, "ADR", 5),
    many(14, "TEL", 1),
    many(15, "EMAIL", 1),
    many(16, "IMPP", 3),
    many(17, "LANG", 0),
    many(TZ, "TZ", 1),
    many(19, "GEO", 3),
    many(20, "TITLE", 1),
    many(21, "ROLE", 1),
    many(22, "LOGO", 3),
    many(23, "ORG", 6),
    many(MEMBER, "MEMBER", 3),
    many(25, "RELATED", 3),
    many(26, "CATEGORIES", 2),
    many(27, "NOTE", 1),
    single(28, "PRODID", 1),
    single(29, "REV", 10),
    many(30, "SOUND", 3),
    single(31, "UID", 3),
    many(32, "CLIENTPIDMAP", 8),
    many(33, "URL", 3),
    many(VERSION, "VERSION", 0),
    many(35, "KEY", 3),
    many(36, "FBURL", 3),
    many(37, "CALADRURI", 3),
    many(38, "CALURI", 3),
];

/// The edition of the rules: RFC 6350 alone, or with RFC 9554.
#[derive(Clone, Copy, Debug, Default, PartialEq, Eq)]
pub enum Edition {
    #[default]
    First,
    Second,
}

/// Both editions, in the console's order; its numbers count from 1.
pub const EDITIONS: [Edition; 2] = [Edition::First, Edition::Second];

/// The rows that edition two adds.
pub const NEWER: [Row; 5] = [
    single(39, "CREATED", 10),
    many(40, "GRAMGENDER", 1),
    single(41, "LANGUAGE", 0),
    many(42, "PRONOUNS", 1),
    many(43, "SOCIALPROFILE", 3),
];

/// Any other name: number 0, kind 0.
pub const UNLISTED: Row = many(0, "", 0);

/// The row of this name in edition one, compared without case.
pub fn row_of(name: &[u8]) -> Row {
    row_in(Edition::First, name)
}

/// The row of this name in an edition, compared without case.
pub fn row_in(edition: Edition, name: &[u8]) -> Row {
    let same = |row: &Row| row.name.as_bytes().eq_ignore_ascii_case(name);
    let newer = NEWER.into_iter().filter(|_| edition == Edition::Second);
    ROWS.into_iter().chain(newer).find(same).unwrap_or(UNLISTED)
}

/// Whether the row is BEGIN, VERSION or END, the lines that frame a card.
pub fn is_frame(row: Row) -> bool {
    matches!(row.number, BEGIN | VERSION | END)
}

/// The kind of a line of this row: the row's, unless VALUE or CALSCALE sets it (READINGS-02 R4.1).
pub fn kind_of(row: Row, parameters: &[Parameter]) -> u32 {
    let value = first_value(parameters, "VALUE").map(|value| value.to_ascii_lowercase());
    let calscale = first_value(parameters, "CALSCALE").map(|value| value.to_ascii_lowercase());
    match (row.number, value.as_deref()) {
        (BDAY | ANNIVERSARY, Some(b"text")) => 1,
        (BDAY | ANNIVERSARY, _) if calscale.as_ref().is_some_and(|calscale| calscale != b"gregorian") => 0,
        (BDAY | ANNIVERSARY, _) => 9,
        (TZ, Some(b"utc-offset")) => 11,
        (_, Some(value)) if looks_at_value(row) => match value {
            b"text" => 1,
            b"uri" => 3,
            _ => 0,
        },
        _ => row.kind,
    }
}

/// Whether VALUE sets the kind here: listed rows of kind 0, 1 or 3, except four.
fn looks_at_value(row: Row) -> bool {
    row != UNLISTED && matches!(row.kind, 0 | 1 | 3) && !is_frame(row) && row.number != XML
}

/// The first value of the first parameter of this name.
pub fn first_value<'a>(parameters: &'a [Parameter], name: &str) -> Option<&'a Vec<u8>> {
    let named = |parameter: &&Parameter| parameter.name.eq_ignore_ascii_case(name.as_bytes());
    parameters.iter().find(named).map(|parameter| &parameter.values[0])
}
