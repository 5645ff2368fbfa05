// Knows a card: which line may stand where, and the checks of one logical line.

use crate::characters::first_fault;
use crate::content::{parse, ContentLine};
use crate::line_faults::fault_of;
use crate::lines::LogicalLine;
use crate::properties::{first_value, is_frame, kind_of, row_in, Edition, Row, BEGIN, END, FN, KIND, MEMBER, VERSION};
use crate::refusal::{refuse, Refusal};
use crate::wanted::Wanted;

/// A logical line that passed its checks, with what its record says of it.
#[derive(Clone, Debug, PartialEq, Eq)]
pub struct AcceptedLine {
    pub octets: Vec<u8>,
    pub parts: ContentLine,
    pub property: u32,
    pub kind: u32,
}

/// What has been seen of the card that is being read; before BEGIN it has no lines.
#[derive(Clone, Debug, Default)]
pub struct Card {
    edition: Edition,
    lines: usize,
    /// The instances of single properties so far: the property's number, and their ALTID value where they have one.
    instances: Vec<(u32, Option<Vec<u8>>)>,
    has_fn: bool,
    has_member: bool,
    is_group: bool,
}

impl Card {
    /// Before the first line of a card of this edition.
    pub fn of(edition: Edition) -> Card {
        Card { edition, ..Card::default() }
    }

    /// Whether BEGIN has been read and END hasn't.
    pub fn is_open(&self) -> bool {
        self.lines > 0
    }

    /// Checks 5, 40 to 43, 9, 8, 7, 10 of the line and, at END, 11 and 12; then counts it in.
    pub fn take(&mut self, line: LogicalLine) -> Result<AcceptedLine, Refusal> {
        let parts = readable(&line)?;
        let row = row_in(self.edition, &parts.name);
        if self.is_out_of_order(row) {
            return refuse(9, line.start);
        }
        if is_frame(row) && (parts.group.is_some() || !parts.parameters.is_empty()) {
            return refuse(8, line.start);
        }
        let kind = kind_of(row, &parts.parameters);
        let wanted = wanted_of(self.edition, row, kind);
        if !wanted.fits(&parts.value) {
            return refuse(7, line.place(parts.value_start + wanted.first_dead(&parts.value)));
        }
        let altid = first_value(&parts.parameters, "ALTID").cloned();
        let starts = row.single && self.starts_an_instance(row, &altid);
        if starts && self.instances.iter().any(|(number, _)| *number == row.number) {
            return refuse(10, line.start);
        }
        if starts {
            self.instances.push((row.number, altid));
        }
        self.count_in(row, &parts.value);
        if row.number == END {
            self.end(line.start)?;
        }
        Ok(AcceptedLine { octets: line.octets, parts, property: row.number, kind })
    }

    /// Whether a line of this row may not stand here: BEGIN first, VERSION second, neither later.
    fn is_out_of_order(&self, row: Row) -> bool {
        match self.lines {
            0 => row.number != BEGIN,
            1 => row.number != VERSION,
            _ => matches!(row.number, BEGIN | VERSION),
        }
    }

    /// Whether a line of this row starts an instance: it has no ALTID, or no earlier line of the property has its ALTID value.
    fn starts_an_instance(&self, row: Row, altid: &Option<Vec<u8>>) -> bool {
        altid.is_none() || !self.instances.contains(&(row.number, altid.clone()))
    }

    /// Notes what later lines and END have to know.
    fn count_in(&mut self, row: Row, value: &[u8]) {
        self.lines += 1;
        match row.number {
            FN => self.has_fn = true,
            MEMBER => self.has_member = true,
            KIND => self.is_group |= value.eq_ignore_ascii_case(b"group"),
            _ => (),
        }
    }

    /// The checks at END, whose line starts here; after them the next card may begin.
    fn end(&mut self, start: usize) -> Result<(), Refusal> {
        if !self.has_fn {
            return refuse(11, start);
        }
        if self.has_member && !self.is_group {
            return refuse(12, start);
        }
        *self = Card::of(self.edition);
        Ok(())
    }
}

/// Checks 5 and 40 to 43 of a line; then its parts.
pub fn readable(line: &LogicalLine) -> Result<ContentLine, Refusal> {
    if let Some(fault) = first_fault(&line.octets, |octet| !is_control(octet)) {
        return refuse(5, line.place(fault));
    }
    match fault_of(&line.octets) {
        Some(fault) => refuse(fault, line.start),
        None => Ok(parse(&line.octets).expect("a line without a fault has its parts")),
    }
}

/// Octets 00-08, 0A-1F and 7F, which check 5 refuses.
fn is_control(octet: u8) -> bool {
    matches!(octet, 0x00..=0x08 | 0x0A..=0x1F | 0x7F)
}

/// BEGIN, END and VERSION have fixed values; any other line's value has its kind.
fn wanted_of(edition: Edition, row: Row, kind: u32) -> Wanted {
    match row.number {
        BEGIN | END => Wanted::Vcard,
        VERSION => Wanted::Version,
        _ if edition == Edition::Second && matches!(kind, 4 | 5) => Wanted::Wider(kind),
        _ => Wanted::Kind(kind),
    }
}
