// Knows physical and logical lines: line ends, folds, and unfolding on octets.

/// A logical line: where its first physical line starts in the input, its unfolded octets with the place of each in the input, and the place
/// of the CR that ends it.
#[derive(Clone, Debug, PartialEq, Eq)]
pub struct LogicalLine {
    pub start: usize,
    pub octets: Vec<u8>,
    pub places: Vec<usize>,
    pub end: usize,
}

impl LogicalLine {
    /// A line of which nothing is read yet.
    fn starting(start: usize) -> LogicalLine {
        LogicalLine { start, octets: Vec::new(), places: Vec::new(), end: start }
    }

    /// Where this octet of the unfolded line stands in the input; past the last octet it is the CR.
    pub fn place(&self, index: usize) -> usize {
        self.places.get(index).copied().unwrap_or(self.end)
    }
}

/// The first CR without LF after it, or LF without CR before it.
pub fn first_lone_line_end(input: &[u8]) -> Option<usize> {
    (0..input.len()).find(|&at| match input[at] {
        b'\r' => input.get(at + 1) != Some(&b'\n'),
        b'\n' => at == 0 || input[at - 1] != b'\r',
        _ => false,
    })
}

/// The logical lines of an input in which each CR LF is a pair and the last two octets are one.
/// Each CR LF is looked at once (READINGS A2).
pub fn logical_lines(input: &[u8]) -> Vec<LogicalLine> {
    let mut lines = Vec::new();
    let mut line = LogicalLine::starting(0);
    let mut at = 0;
    while at < input.len() {
        if is_fold(&input[at..]) {
            at += 3;
        } else if input[at..].starts_with(b"\r\n") {
            line.end = at;
            lines.push(line);
            at += 2;
            line = LogicalLine::starting(at);
        } else {
            line.octets.push(input[at]);
            line.places.push(at);
            at += 1;
        }
    }
    lines
}

/// Whether these octets start with CR LF and one space or tab.
fn is_fold(octets: &[u8]) -> bool {
    octets.starts_with(b"\r\n ") || octets.starts_with(b"\r\n\t")
}
