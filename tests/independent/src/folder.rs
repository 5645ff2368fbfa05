// Knows folding: how an accepted input's logical lines are cut into physical lines, as read or with their names in capitals.

use crate::card::AcceptedLine;
use crate::properties::Edition;
use crate::reader::accepted_lines_in;
use crate::refusal::{refuse, Refusal, MOST_OCTETS};
use crate::text::write;

/// The most octets of a physical line without its CR LF, a later line's space included.
pub const MOST_LINE_OCTETS: usize = 75;

/// How the names of a line are written.
#[derive(Clone, Copy, Debug, PartialEq, Eq)]
pub enum Style {
    AsRead,
    Raised,
}

/// The styles by the console's number.
pub const STYLES: [Style; 2] = [Style::AsRead, Style::Raised];

/// Folds with names in capitals, which is the default.
pub fn fold(input: &[u8], out: &mut [u8]) -> Result<usize, Refusal> {
    fold_in(Style::Raised, input, out)
}

/// Folds as read.
pub fn fold_as_read(input: &[u8], out: &mut [u8]) -> Result<usize, Refusal> {
    fold_in(Style::AsRead, input, out)
}

/// Folds in a style, in edition one.
pub fn fold_in(style: Style, input: &[u8], out: &mut [u8]) -> Result<usize, Refusal> {
    fold_by(Edition::First, style, input, out)
}

/// Writes the folded form of an input that the edition accepts in a style to the room; answers the octets written.
pub fn fold_by(edition: Edition, style: Style, input: &[u8], out: &mut [u8]) -> Result<usize, Refusal> {
    let mut folded = Vec::new();
    for line in accepted_lines_in(edition, input)? {
        folded.extend(folded_line(&styled(style, line), MOST_LINE_OCTETS));
    }
    if folded.len() > MOST_OCTETS {
        return refuse(16, MOST_OCTETS);
    }
    write(&folded, out)
}

/// The line's octets, the letters of its group, name and parameter names as capitals where it is to be raised.
fn styled(style: Style, line: AcceptedLine) -> Vec<u8> {
    let mut octets = line.octets;
    if style == Style::Raised {
        for name in line.parts.names {
            octets[name].make_ascii_uppercase();
        }
    }
    octets
}

/// One logical line cut greedily at character boundaries into physical lines of at most `most` octets, with its final CR LF.
pub fn folded_line(line: &[u8], most: usize) -> Vec<u8> {
    let characters = std::str::from_utf8(line).expect("check 5 passed").chars();
    let mut folded = Vec::new();
    let mut used = 0;
    for character in characters {
        if used + character.len_utf8() > most {
            folded.extend(b"\r\n ");
            used = 1;
        }
        folded.extend(character.encode_utf8(&mut [0; 4]).bytes());
        used += character.len_utf8();
    }
    folded.extend(b"\r\n");
    folded
}
