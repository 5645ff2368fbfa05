// Knows judging while the input arrives (document 02, No. 6): all octets so far are kept, and what the buffer must hold is reckoned from them anew.

use crate::card::{AcceptedLine, Card};
use crate::lines::{first_lone_line_end, logical_lines};
use crate::properties::{first_value, row_of, Edition, END};
use crate::reader::{judge, Counts};
use crate::refusal::{refuse, Refusal, MOST_OCTETS};

/// What has arrived, and a count of octets of the open line that the host claims in place of the true one.
#[derive(Clone, Debug, Default, PartialEq, Eq)]
pub struct Watch {
    arrived: Vec<u8>,
    claimed: Option<usize>,
}

impl Watch {
    /// Takes a chunk: the next state, and the buffer as it must be then; or 45 or 46, and nothing changes.
    pub fn chunk(&mut self, buffer: &mut [u8], octets: &[u8]) -> Result<(), Refusal> {
        self.check(buffer)?;
        self.arrived.extend(octets);
        self.claimed = None;
        let used = used(&self.arrived);
        buffer.fill(0);
        buffer[..used.len()].copy_from_slice(&used);
        Ok(())
    }

    /// The verdict on the joined chunks, if the input has ended.
    pub fn end(&self, buffer: &[u8]) -> Result<Counts, Refusal> {
        self.check(buffer)?;
        judge(&self.arrived)
    }

    /// Sets the count of octets of the line not yet ended.
    pub fn claim(&mut self, count: usize) {
        self.claimed = Some(count);
    }

    /// Refusals 45 and 46.
    fn check(&self, buffer: &[u8]) -> Result<(), Refusal> {
        if buffer.len() != MOST_OCTETS {
            return refuse(45, 0);
        }
        let [values, line] = parts(&self.arrived).map(|part| part.len());
        if values + self.claimed.unwrap_or(line) > MOST_OCTETS {
            return refuse(46, 0);
        }
        Ok(())
    }
}

/// What stands at the buffer's start after these octets, the rest being 0: the ALTID values, then the line not yet ended; nothing once a fault is known.
pub fn used(arrived: &[u8]) -> Vec<u8> {
    parts(arrived).concat()
}

/// Both parts of what stands there: the ALTID values, and the line not yet ended.
pub fn parts(arrived: &[u8]) -> [Vec<u8>; 2] {
    match ended_lines(arrived) {
        Some(lines) => [altid_octets(&lines), arrived[open_start(arrived)..].to_vec()],
        None => [Vec::new(), Vec::new()],
    }
}

/// Where the line not yet ended starts: after the last CR LF that an octet other than space or tab follows.
fn open_start(arrived: &[u8]) -> usize {
    let ends_a_line = |&at: &usize| arrived[at - 2..at] == *b"\r\n" && !b" \t".contains(&arrived[at]);
    (2..arrived.len()).rev().find(ends_a_line).unwrap_or(0)
}

/// The ALTID value of each single property's first line after the last END, in line order, joined.
fn altid_octets(lines: &[AcceptedLine]) -> Vec<u8> {
    let open = lines.iter().rposition(|line| line.property == END).map_or(0, |at| at + 1);
    let mut seen = Vec::new();
    let mut octets = Vec::new();
    for line in &lines[open..] {
        if row_of(&line.parts.name).single && !seen.contains(&line.property) {
            seen.push(line.property);
            octets.extend(first_value(&line.parts.parameters, "ALTID").into_iter().flatten());
        }
    }
    octets
}

/// The lines that have ended; nothing once a fault of 1, of 3 or of one of them is known.
fn ended_lines(arrived: &[u8]) -> Option<Vec<AcceptedLine>> {
    if arrived.len() > MOST_OCTETS {
        return None;
    }
    let lone = first_lone_line_end(arrived);
    let waits_for_lf = arrived.last() == Some(&b'\r') && lone == Some(arrived.len() - 1);
    if lone.is_some() && !waits_for_lf {
        return None;
    }
    let mut card = Card::of(Edition::First);
    logical_lines(&arrived[..open_start(arrived)]).into_iter().map(|line| card.take(line).ok()).collect()
}
