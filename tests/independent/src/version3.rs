// Knows version 3 cards (document 02, No. 10): one taken in as version 4, and a version 4 card given out as version 3.

use crate::card::{readable, AcceptedLine};
use crate::content::ContentLine;
use crate::folder::{folded_line, MOST_LINE_OCTETS};
use crate::kinds::{fits, split_bare};
use crate::lines::{logical_lines, LogicalLine};
use crate::properties::{is_frame, kind_of, row_of, Row, BEGIN, END, FN, VERSION};
use crate::reader::{accepted_lines, check_whole};
use crate::refusal::{refuse, Refusal, MOST_OCTETS};
use crate::text::{escaped_form, first_bad_escape, unescaped_form, write};

/// The properties that a version 3 card may have beside BEGIN, VERSION and END.
pub const ELEVEN: [&str; 11] =
    ["FN", "N", "TEL", "EMAIL", "ADR", "NOTE", "TITLE", "ROLE", "ORG", "GEO", "URL"];

/// Takes a version 3 card in: writes it folded, as version 4; answers the octets written.
pub fn take_in(input: &[u8], out: &mut [u8]) -> Result<usize, Refusal> {
    write_folded(&taken_in(input)?, out)
}

/// Gives a version 4 card out: writes it folded, as version 3; answers the octets written.
pub fn give_out(input: &[u8], out: &mut [u8]) -> Result<usize, Refusal> {
    write_folded(&given_out(input)?, out)
}

/// Writes the lines folded, as read, after 16 and 15.
fn write_folded(lines: &[Vec<u8>], out: &mut [u8]) -> Result<usize, Refusal> {
    let folded: Vec<u8> = lines.iter().flat_map(|line| folded_line(line, MOST_LINE_OCTETS)).collect();
    if folded.len() > MOST_OCTETS {
        return refuse(16, MOST_OCTETS);
    }
    write(&folded, out)
}

/// The lines of version 4 that a version 3 card is taken in as.
pub fn taken_in(input: &[u8]) -> Result<Vec<Vec<u8>>, Refusal> {
    check_whole(input)?;
    let mut set = Set::default();
    for line in logical_lines(input) {
        set.take(line)?;
    }
    if set.end.is_none() {
        return refuse(9, input.len());
    }
    let frame = |line: Option<Vec<u8>>| line.expect("END has asked for it");
    let mut lines = vec![frame(set.begin), frame(set.version)];
    lines.extend(set.others);
    lines.extend(set.end);
    Ok(lines)
}

/// What has been taken in of a version 3 card, each line as version 4 has it.
#[derive(Clone, Debug, Default)]
struct Set {
    begin: Option<Vec<u8>>,
    version: Option<Vec<u8>>,
    others: Vec<Vec<u8>>,
    end: Option<Vec<u8>>,
    has_fn: bool,
    has_n: bool,
}

impl Set {
    /// Checks 5, 40 to 43, 9, 8 and 50 of the line; then takes it in.
    fn take(&mut self, line: LogicalLine) -> Result<(), Refusal> {
        let parts = readable(&line)?;
        let row = row_of(&parts.name);
        if self.is_out_of_order(row) {
            return refuse(9, line.start);
        }
        if is_frame(row) && (parts.group.is_some() || !parts.parameters.is_empty()) {
            return refuse(8, line.start);
        }
        let taken = match row.number {
            BEGIN => self.begin(&line, &parts),
            VERSION => self.version(&parts),
            END => self.end(&line, &parts),
            _ => self.other(row, &line, &parts),
        };
        taken.ok_or(Refusal { number: 50, place: line.start })
    }

    /// BEGIN comes first, not inside, and nothing else comes after END.
    fn is_out_of_order(&self, row: Row) -> bool {
        let is_inside = self.begin.is_some() && self.end.is_none();
        (row.number == BEGIN) == is_inside
    }

    /// The first BEGIN; a second one starts a second card.
    fn begin(&mut self, line: &LogicalLine, parts: &ContentLine) -> Option<()> {
        if self.begin.is_some() || !parts.value.eq_ignore_ascii_case(b"VCARD") {
            return None;
        }
        self.begin = Some(line.octets.clone());
        Some(())
    }

    /// The one VERSION, which becomes 4.0.
    fn version(&mut self, parts: &ContentLine) -> Option<()> {
        if self.version.is_some() || parts.value != b"3.0" {
            return None;
        }
        self.version = Some([&parts.name, b":4.0".as_slice()].concat());
        Some(())
    }

    /// END, before which FN, N and VERSION have come.
    fn end(&mut self, line: &LogicalLine, parts: &ContentLine) -> Option<()> {
        let is_whole = self.has_fn && self.has_n && self.version.is_some();
        if !is_whole || !parts.value.eq_ignore_ascii_case(b"VCARD") {
            return None;
        }
        self.end = Some(line.octets.clone());
        Some(())
    }

    /// One of the eleven; only one N, no PREF, and a value that then fits its 4.0 kind.
    fn other(&mut self, row: Row, line: &LogicalLine, parts: &ContentLine) -> Option<()> {
        let is_second_n = row.name == "N" && self.has_n;
        if !ELEVEN.contains(&row.name) || is_second_n {
            return None;
        }
        let (head, parameters) = raw_parts(&line.octets, parts);
        let parameters = parameters_in(parameters)?;
        let value = value_in(row, kind_of(row, &parts.parameters), &parts.value)?;
        self.others.push(joined(&head, &parameters, &value));
        self.has_fn |= row.number == FN;
        self.has_n |= row.name == "N";
        Some(())
    }
}

/// The lines of version 3 that an accepted card is given out as.
pub fn given_out(input: &[u8]) -> Result<Vec<Vec<u8>>, Refusal> {
    let accepted = accepted_lines(input)?;
    let starts = logical_lines(input).into_iter().map(|line| line.start);
    let mut lines = Vec::new();
    let (mut cards, mut has_n) = (0, false);
    for (line, start) in accepted.iter().zip(starts) {
        let row = row_of(&line.parts.name);
        cards += usize::from(row.number == BEGIN);
        let is_second = cards > 1 || row.name == "N" && has_n;
        has_n |= row.name == "N";
        let is_without_n = row.number == END && !has_n;
        match line_out(row, line) {
            Some(out) if !is_second && !is_without_n => lines.push(out),
            _ => return refuse(51, start),
        }
    }
    Ok(lines)
}

/// The line as version 3 has it, or nothing if it can't.
fn line_out(row: Row, line: &AcceptedLine) -> Option<Vec<u8>> {
    match row.number {
        BEGIN | END => Some(line.octets.clone()),
        VERSION => Some([&line.parts.name, b":3.0".as_slice()].concat()),
        _ if ELEVEN.contains(&row.name) => {
            let (head, parameters) = raw_parts(&line.octets, &line.parts);
            let value = value_out(row, line.kind, &line.parts.value)?;
            Some(joined(&head, &parameters_out(parameters)?, &value))
        }
        _ => None,
    }
}

/// A parameter as it stands: its name, and its values with their quotes.
#[derive(Clone, Debug, PartialEq, Eq)]
struct RawParameter {
    name: Vec<u8>,
    values: Vec<Vec<u8>>,
}

/// A parameter of one value.
fn parameter(name: &str, value: &str) -> RawParameter {
    RawParameter { name: name.as_bytes().to_vec(), values: vec![value.as_bytes().to_vec()] }
}

impl RawParameter {
    /// Whether it has this name, in any case.
    fn is(&self, name: &str) -> bool {
        self.name.eq_ignore_ascii_case(name.as_bytes())
    }
}

/// Group and name with what is between them, and the parameters, all as they stand in the line.
fn raw_parts(line: &[u8], parts: &ContentLine) -> (Vec<u8>, Vec<RawParameter>) {
    let name = usize::from(parts.group.is_some());
    let head = line[..parts.names[name].end].to_vec();
    let starts = parts.names[name + 1..].iter().map(|range| range.start);
    let ends = starts.clone().skip(1).chain([parts.value_start]).map(|next| next - 1);
    (head, starts.zip(ends).map(|(start, end)| raw_parameter(&line[start..end])).collect())
}

/// The parameter of these octets: what is before the first `=`, and what the commas outside quotes split.
fn raw_parameter(octets: &[u8]) -> RawParameter {
    let equals = octets.iter().position(|&octet| octet == b'=').expect("a parameter has one");
    let mut values = vec![Vec::new()];
    let mut is_quoted = false;
    for &octet in &octets[equals + 1..] {
        is_quoted ^= octet == b'"';
        match octet {
            b',' if !is_quoted => values.push(Vec::new()),
            _ => values.last_mut().expect("one at least").push(octet),
        }
    }
    RawParameter { name: octets[..equals].to_vec(), values }
}

/// The value without its quotes.
fn quotes_off(value: &[u8]) -> &[u8] {
    value.strip_prefix(b"\"").and_then(|rest| rest.strip_suffix(b"\"")).unwrap_or(value)
}

/// The line of these parts.
fn joined(head: &[u8], parameters: &[RawParameter], value: &[u8]) -> Vec<u8> {
    let mut line = head.to_vec();
    for parameter in parameters {
        line.extend([b";", parameter.name.as_slice(), b"=", &parameter.values.join(&b',')].concat());
    }
    [&line, b":".as_slice(), value].concat()
}

/// TYPE values pref go, and a TYPE so left with none; then PREF=1 comes last, once. Nothing for a PREF.
fn parameters_in(parameters: Vec<RawParameter>) -> Option<Vec<RawParameter>> {
    let is_pref = |value: &Vec<u8>| quotes_off(value).eq_ignore_ascii_case(b"pref");
    let mut left = Vec::new();
    let mut any_went = false;
    for mut parameter in parameters {
        if parameter.is("PREF") {
            return None;
        }
        if parameter.is("TYPE") {
            any_went |= parameter.values.iter().any(is_pref);
            parameter.values.retain(|value| !is_pref(value));
        }
        if !parameter.values.is_empty() {
            left.push(parameter);
        }
    }
    if any_went {
        left.push(parameter("PREF", "1"));
    }
    Some(left)
}

/// A single PREF=1 goes, and TYPE=pref comes last. Nothing for any other PREF.
fn parameters_out(parameters: Vec<RawParameter>) -> Option<Vec<RawParameter>> {
    let (preferences, mut left): (Vec<_>, Vec<_>) =
        parameters.into_iter().partition(|parameter| parameter.is("PREF"));
    match preferences.as_slice() {
        [] => (),
        [one] if one.values.len() == 1 && quotes_off(&one.values[0]) == b"1" => {
            left.push(parameter("TYPE", "pref"));
        }
        _ => return None,
    }
    Some(left)
}

/// The value as version 4 has it, or nothing if it then breaks its kind.
fn value_in(row: Row, kind: u32, value: &[u8]) -> Option<Vec<u8>> {
    let taken = match row.name {
        "GEO" => {
            let (latitude, longitude) = two_floats(value, b';')?;
            [b"geo:", latitude, b",", longitude].concat()
        }
        _ => renewed(kind, value, wanted_components(kind))?,
    };
    fits(kind, &taken).then_some(taken)
}

/// The value as version 3 has it, or nothing for a GEO of another form.
fn value_out(row: Row, kind: u32, value: &[u8]) -> Option<Vec<u8>> {
    match row.name {
        "GEO" => {
            let (latitude, longitude) = two_floats(value.strip_prefix(b"geo:")?, b',')?;
            Some([latitude, b";", longitude].concat())
        }
        _ => renewed(kind, value, 0),
    }
}

/// How many components N and ADR are filled to.
fn wanted_components(kind: u32) -> usize {
    match kind {
        4 => 5,
        5 => 7,
        _ => 0,
    }
}

/// The text of the value unescaped and escaped anew, with empty components added up to so many; a value without text as it is.
fn renewed(kind: u32, value: &[u8], components: usize) -> Option<Vec<u8>> {
    let Some(texts) = texts_of(kind, value) else { return Some(value.to_vec()) };
    let mut texts = texts?;
    while texts.len() < components {
        texts.push(vec![Vec::new()]);
    }
    let component = |list: &Vec<Vec<u8>>| {
        list.iter().map(|text| escaped_form(text)).collect::<Vec<Vec<u8>>>().join(&b',')
    };
    Some(texts.iter().map(component).collect::<Vec<Vec<u8>>>().join(&b';'))
}

/// What a value says: components of lists of texts.
pub type Texts = Vec<Vec<Vec<u8>>>;

/// What a value of a kind with text says, none where a text is no good; nothing for a kind without text.
pub fn texts_of(kind: u32, value: &[u8]) -> Option<Option<Texts>> {
    let text = |octets: &[u8]| first_bad_escape(octets).is_none().then(|| unescaped_form(octets));
    match kind {
        1 => Some(text(value).map(|text| vec![vec![text]])),
        4 | 5 => {
            let list = |part: &[u8]| split_bare(part, b',').into_iter().map(text).collect();
            Some(split_bare(value, b';').into_iter().map(list).collect())
        }
        6 => Some(split_bare(value, b';').into_iter().map(|part| Some(vec![text(part)?])).collect()),
        _ => None,
    }
}

/// Two floats with this octet between them and nothing else.
fn two_floats(value: &[u8], between: u8) -> Option<(&[u8], &[u8])> {
    let at = value.iter().position(|&octet| octet == between)?;
    let (first, second) = (&value[..at], &value[at + 1..]);
    (is_float(first) && is_float(second)).then_some((first, second))
}

/// RFC 6350's float: perhaps a sign, digits, perhaps a point and digits.
fn is_float(octets: &[u8]) -> bool {
    let unsigned = octets.strip_prefix(b"+").or(octets.strip_prefix(b"-")).unwrap_or(octets);
    let are_digits = |part: &[u8]| !part.is_empty() && part.iter().all(u8::is_ascii_digit);
    match unsigned.iter().position(|&octet| octet == b'.') {
        Some(point) => are_digits(&unsigned[..point]) && are_digits(&unsigned[point + 1..]),
        None => are_digits(unsigned),
    }
}
