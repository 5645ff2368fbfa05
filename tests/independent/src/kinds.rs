// Knows the kinds of value, 0 to 11, and which values fit each.

use std::ops::RangeInclusive;

use crate::dates::{is_date_and_or_time, is_offset, is_timestamp};
use crate::properties::Edition;
use crate::text::first_bad_escape;

/// Whether the value fits the kind in edition one.
pub fn fits(kind: u32, value: &[u8]) -> bool {
    fits_in(Edition::First, kind, value)
}

/// Whether the value fits the kind; edition two lets N and ADR have more components.
pub fn fits_in(edition: Edition, kind: u32, value: &[u8]) -> bool {
    let (name, address) = match edition {
        Edition::First => (5..=5, 7..=7),
        Edition::Second => (5..=7, 7..=18),
    };
    match kind {
        0 => true,
        1 => is_text(value),
        2 => is_text_list(value),
        3 => is_uri(value),
        4 => is_structure_of_lists(value, name),
        5 => is_structure_of_lists(value, address),
        6 => split_bare(value, b';').into_iter().all(is_text),
        7 => is_gender(value),
        8 => is_client_pid_map(value),
        9 => is_date_and_or_time(value),
        10 => is_timestamp(value),
        11 => is_offset(value),
        _ => unreachable!("the documents have kinds 0 to 11"),
    }
}

/// Kind 1: good escapes and no bare comma; a bare `;` is allowed.
fn is_text(value: &[u8]) -> bool {
    first_bad_escape(value).is_none()
}

/// Kind 2: texts split by bare commas.
fn is_text_list(value: &[u8]) -> bool {
    split_bare(value, b',').into_iter().all(is_text)
}

/// Kinds 4 and 5: so many components split by bare `;`, each a kind 2 list.
fn is_structure_of_lists(value: &[u8], counts: RangeInclusive<usize>) -> bool {
    let components = split_bare(value, b';');
    counts.contains(&components.len()) && components.into_iter().all(is_text_list)
}

/// Kind 3: a letter, then letters, digits, `+`, `-`, `.`, then `:`, then octets 21-7E only.
fn is_uri(value: &[u8]) -> bool {
    let Some(colon) = value.iter().position(|&octet| octet == b':') else {
        return false;
    };
    let (scheme, rest) = (&value[..colon], &value[colon + 1..]);
    let in_scheme = |octet: &u8| octet.is_ascii_alphanumeric() || b"+-.".contains(octet);
    scheme.first().is_some_and(u8::is_ascii_alphabetic)
        && scheme.iter().all(in_scheme)
        && rest.iter().all(|octet| (0x21..=0x7E).contains(octet))
}

/// Kind 7: empty or one of M F O N U in any case, then optionally `;` and text (READINGS A14).
fn is_gender(value: &[u8]) -> bool {
    let letter = value.first().is_some_and(|octet| b"MFONU".contains(&octet.to_ascii_uppercase()));
    match &value[usize::from(letter)..] {
        [] => true,
        [b';', text @ ..] => is_text(text),
        _ => false,
    }
}

/// Kind 8: one or more digits, `;`, URI.
fn is_client_pid_map(value: &[u8]) -> bool {
    let digits = value.iter().take_while(|octet| octet.is_ascii_digit()).count();
    match &value[digits..] {
        [b';', uri @ ..] => digits > 0 && is_uri(uri),
        _ => false,
    }
}

/// The parts of the value between bare separators; an octet after a backslash is never bare.
pub fn split_bare(value: &[u8], separator: u8) -> Vec<&[u8]> {
    let mut parts = Vec::new();
    let mut start = 0;
    let mut at = 0;
    while at < value.len() {
        if value[at] == separator {
            parts.push(&value[start..at]);
            start = at + 1;
        }
        at += if value[at] == b'\\' { 2 } else { 1 };
    }
    parts.push(&value[start..]);
    parts
}
