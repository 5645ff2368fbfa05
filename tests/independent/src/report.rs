// Knows the morning report: counts of judgements, taken one by one, and the rows in which they are printed.

use std::collections::BTreeMap;

use crate::reader::accepted_lines;
use crate::refusal::{refuse, Refusal};
use crate::text::write;

/// What is counted, in the order of the rows.
#[derive(Clone, Copy, Debug, PartialEq, Eq, PartialOrd, Ord)]
pub enum Count {
    Uploads,
    Accepted,
    Cards,
    Lines,
    Octets,
    /// Uploads refused with this number.
    Refused(u32),
    /// Accepted lines of the property with this number, 0 for names that are not listed.
    Property(u32),
}

/// The counts whose row is printed even where they are 0.
const ALWAYS: [Count; 5] = [Count::Uploads, Count::Accepted, Count::Cards, Count::Lines, Count::Octets];

/// A report; a count that is not here is 0.
#[derive(Clone, Debug, Default, PartialEq, Eq)]
pub struct Report {
    counts: BTreeMap<Count, u32>,
}

/// What the judgement of these octets adds to each count that it moves.
pub fn moved(octets: &[u8]) -> Vec<(Count, u32)> {
    let number = |count: usize| u32::try_from(count).expect("an input has at most 16,384 octets");
    let lines = match accepted_lines(octets) {
        Ok(lines) => lines,
        Err(refusal) => return vec![(Count::Uploads, 1), (Count::Refused(refusal.number), 1)],
    };
    let with = |property: u32| number(lines.iter().filter(|line| line.property == property).count());
    let mut moved = vec![
        (Count::Uploads, 1),
        (Count::Accepted, 1),
        (Count::Cards, with(2)),
        (Count::Lines, number(lines.len())),
        (Count::Octets, number(octets.len())),
    ];
    moved.extend((0..=38).map(|property| (Count::Property(property), with(property))));
    moved.retain(|(_, more)| *more > 0);
    moved
}

impl Report {
    /// The report with the judgement of these octets counted in, and 0; or 80 where a count would pass its limit.
    pub fn take(&self, octets: &[u8]) -> (Result<u32, Refusal>, Report) {
        let mut next = self.clone();
        for (count, more) in moved(octets) {
            let before = next.counts.entry(count).or_default();
            match before.checked_add(more) {
                Some(after) => *before = after,
                None => return (refuse(80, 0), self.clone()),
            }
        }
        (Ok(0), next)
    }

    /// The rows.
    pub fn text(&self) -> String {
        let of = |count: &Count| self.counts.get(count).copied().unwrap_or(0);
        let first = ALWAYS.map(|count| format!("{} {}\n", name_of(count), of(&count))).concat();
        let others = self.counts.iter().filter(|(count, number)| !ALWAYS.contains(count) && **number > 0);
        others.fold(first, |text, (count, number)| text + &format!("{} {number}\n", name_of(*count)))
    }

    /// Writes the rows to the room; answers the octets written, or 15.
    pub fn print(&self, out: &mut [u8]) -> Result<usize, Refusal> {
        write(self.text().as_bytes(), out)
    }

    /// Sets one count.
    pub fn set(&mut self, count: Count, number: u32) {
        self.counts.insert(count, number);
    }
}

/// The name at the start of a count's row.
fn name_of(count: Count) -> String {
    match count {
        Count::Uploads => "uploads".to_string(),
        Count::Accepted => "accepted".to_string(),
        Count::Cards => "cards".to_string(),
        Count::Lines => "lines".to_string(),
        Count::Octets => "octets".to_string(),
        Count::Refused(number) => format!("r{number}"),
        Count::Property(number) => format!("p{number}"),
    }
}

/// The count that the console calls WHICH: the first five from 0, 100 + n of refusal n, 200 + n of property n.
pub fn count_named(which: u64) -> Option<Count> {
    match which {
        0..=4 => Some(ALWAYS[which as usize]),
        101..=105 | 107..=112 | 140..=143 => Some(Count::Refused(which as u32 - 100)),
        200..=238 => Some(Count::Property(which as u32 - 200)),
        _ => None,
    }
}

/// The console's number of a count.
pub fn which_of(count: Count) -> u32 {
    match count {
        Count::Uploads => 0,
        Count::Accepted => 1,
        Count::Cards => 2,
        Count::Lines => 3,
        Count::Octets => 4,
        Count::Refused(number) => 100 + number,
        Count::Property(number) => 200 + number,
    }
}
