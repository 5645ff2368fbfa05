// Knows what is wrong with a line that breaks the line rule: 40 to 43, octet by octet from the left.

/// Which part of a line is being read.
#[derive(Clone, Copy, Debug, PartialEq, Eq)]
enum Part {
    /// Nothing of the line yet.
    Start,
    /// A group or a name; no dot yet.
    First,
    /// Right after the group's dot.
    Dotted,
    /// The name after a group.
    Second,
    /// Right after a semicolon.
    Semicolon,
    /// A parameter's name.
    Parameter,
    /// Right after `=` or a comma.
    ValueStart,
    /// A bare value.
    Bare,
    /// A quoted value.
    Quoted,
    /// Right after a closing quote.
    Closed,
    /// The property value, where no octet is wrong.
    Value,
}

/// The number of the line's first fault from the left, if it has one.
pub fn fault_of(line: &[u8]) -> Option<u32> {
    let mut part = Part::Start;
    for &octet in line {
        match part.after(octet) {
            Some(next) => part = next,
            None => return Some(part.fault()),
        }
    }
    part.fault_at_the_end()
}

impl Part {
    /// The part that is being read after one octet more; nothing if no good line has that octet there.
    fn after(self, octet: u8) -> Option<Part> {
        let is_name = octet.is_ascii_alphanumeric() || octet == b'-';
        match (self, octet) {
            (Part::Value, _) => Some(Part::Value),
            (Part::Start | Part::First, _) if is_name => Some(Part::First),
            (Part::Dotted | Part::Second, _) if is_name => Some(Part::Second),
            (Part::Semicolon | Part::Parameter, _) if is_name => Some(Part::Parameter),
            (Part::First, b'.') => Some(Part::Dotted),
            (Part::First | Part::Second, b';') => Some(Part::Semicolon),
            (Part::First | Part::Second, b':') => Some(Part::Value),
            (Part::Parameter, b'=') => Some(Part::ValueStart),
            (Part::ValueStart, b'"') => Some(Part::Quoted),
            (Part::Quoted, b'"') => Some(Part::Closed),
            (Part::Quoted, _) => Some(Part::Quoted),
            (Part::ValueStart | Part::Bare | Part::Closed, b',') => Some(Part::ValueStart),
            (Part::ValueStart | Part::Bare | Part::Closed, b';') => Some(Part::Semicolon),
            (Part::ValueStart | Part::Bare | Part::Closed, b':') => Some(Part::Value),
            (Part::ValueStart | Part::Bare, _) if octet != b'"' => Some(Part::Bare),
            _ => None,
        }
    }

    /// The fault of an octet that no good line has here.
    fn fault(self) -> u32 {
        match self {
            Part::Start | Part::First | Part::Dotted | Part::Second => 40,
            Part::Semicolon | Part::Parameter => 41,
            _ => 42,
        }
    }

    /// The fault of a line that ends here.
    fn fault_at_the_end(self) -> Option<u32> {
        match self {
            Part::Value => None,
            Part::Start | Part::Dotted => Some(40),
            Part::Semicolon | Part::Parameter => Some(41),
            Part::Quoted => Some(42),
            Part::First | Part::Second | Part::ValueStart | Part::Bare | Part::Closed => Some(43),
        }
    }
}
