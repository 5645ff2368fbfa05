// Knows the line rule: how a logical line splits into group, name, parameters and value.

use std::ops::Range;

/// A parameter's name and its values, quotes taken off.
#[derive(Clone, Debug, PartialEq, Eq)]
pub struct Parameter {
    pub name: Vec<u8>,
    pub values: Vec<Vec<u8>>,
}

/// The parts of a line that keeps the line rule; the value is the rest from `value_start`. `names` are the places of group, name and parameter names.
#[derive(Clone, Debug, PartialEq, Eq)]
pub struct ContentLine {
    pub names: Vec<Range<usize>>,
    pub group: Option<Vec<u8>>,
    pub name: Vec<u8>,
    pub parameters: Vec<Parameter>,
    pub value: Vec<u8>,
    pub value_start: usize,
}

/// The parts of the line, or nothing if it breaks the line rule:
/// `[group "."] name *(";" parameter) ":" value`.
pub fn parse(line: &[u8]) -> Option<ContentLine> {
    let mut cursor = Cursor { line, at: 0, names: Vec::new() };
    let first = cursor.name()?;
    let (group, name) = match cursor.takes(b'.') {
        true => (Some(first), cursor.name()?),
        false => (None, first),
    };
    let mut parameters = Vec::new();
    while cursor.takes(b';') {
        parameters.push(cursor.parameter()?);
    }
    if !cursor.takes(b':') {
        return None;
    }
    let value = line[cursor.at..].to_vec();
    Some(ContentLine { names: cursor.names, group, name, parameters, value, value_start: cursor.at })
}

/// A line, how far it has been read, and where names stood.
struct Cursor<'a> {
    line: &'a [u8],
    at: usize,
    names: Vec<Range<usize>>,
}

impl Cursor<'_> {
    /// Passes over this octet if it comes next; says whether it did.
    fn takes(&mut self, octet: u8) -> bool {
        let next = self.line.get(self.at) == Some(&octet);
        self.at += usize::from(next);
        next
    }

    /// Passes over the longest run of octets that belong, possibly none, and gives it.
    fn run(&mut self, belongs: fn(u8) -> bool) -> Vec<u8> {
        let start = self.at;
        while self.line.get(self.at).is_some_and(|&octet| belongs(octet)) {
            self.at += 1;
        }
        self.line[start..self.at].to_vec()
    }

    /// One or more letters, digits or hyphens.
    fn name(&mut self) -> Option<Vec<u8>> {
        let start = self.at;
        let name = self.run(|octet| octet.is_ascii_alphanumeric() || octet == b'-');
        self.names.push(start..self.at);
        Some(name).filter(|name| !name.is_empty())
    }

    /// A name, `=`, and one or more values split by commas.
    fn parameter(&mut self) -> Option<Parameter> {
        let name = self.name()?;
        if !self.takes(b'=') {
            return None;
        }
        let mut values = vec![self.parameter_value()?];
        while self.takes(b',') {
            values.push(self.parameter_value()?);
        }
        Some(Parameter { name, values })
    }

    /// A quoted value, or a bare one that may be empty.
    fn parameter_value(&mut self) -> Option<Vec<u8>> {
        if !self.takes(b'"') {
            return Some(self.run(|octet| !matches!(octet, b'"' | b';' | b':' | b',')));
        }
        let value = self.run(|octet| octet != b'"');
        self.takes(b'"').then_some(value)
    }
}
