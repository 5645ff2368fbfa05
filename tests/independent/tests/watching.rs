// Knows judging while the input arrives (document 02, No. 6): the readings' examples, every cutting of small inputs, faults, 45 and 46.

mod common;

use common::verdict;
use independent::content::parse;
use independent::dice::Dice;
use independent::examples::CARD_M;
use independent::generator::watches::examples;
use independent::generator::{input_by_chance, source_inputs};
use independent::properties::row_of;
use independent::refusal::Refusal;
use independent::watching::{used, Watch};

/// A state with a buffer of this length, each octet 165.
fn begun(length: usize) -> (Watch, Vec<u8>) {
    (Watch::default(), vec![165; length])
}

/// The end's answer.
fn ended(watch: &Watch, buffer: &[u8]) -> Result<(usize, usize), (u32, usize)> {
    match watch.end(buffer) {
        Ok(counts) => Ok((counts.cards, counts.lines)),
        Err(Refusal { number, place }) => Err((number, place)),
    }
}

/// What the buffer holds before zeros.
fn held(buffer: &[u8]) -> &[u8] {
    let zeros = buffer.iter().rev().take_while(|&&octet| octet == 0).count();
    &buffer[..buffer.len() - zeros]
}

#[test]
fn the_examples_of_the_readings() {
    let (mut watch, mut buffer) = begun(16_384);
    assert_eq!(ended(&watch, &buffer), Err((2, 0)));
    let steps: [(&[u8], &[u8]); 4] = [
        (b"BEGIN:VCARD\r\n", b"BEGIN:VCARD\r\n"),
        (b"V", b"V"),
        (b"ERSION:4.0\r\nN;ALTID=\"a,\r\n b\":;;;;\r\n", b"N;ALTID=\"a,\r\n b\":;;;;\r\n"),
        (b"K", b"a,bK"),
    ];
    for (chunk, wanted) in steps {
        assert_eq!(watch.chunk(&mut buffer, chunk), Ok(()));
        assert_eq!(held(&buffer), wanted);
    }
    assert_eq!(watch.chunk(&mut buffer, b"IND;ALTID=2:x\r\nFN:A\r\nEND:VCARD\r\n"), Ok(()));
    assert_eq!((held(&buffer), ended(&watch, &buffer)), (b"a,b2END:VCARD\r\n".as_slice(), Ok((1, 6))));
    assert_eq!(watch.chunk(&mut buffer, b"B"), Ok(()));
    assert_eq!((held(&buffer), ended(&watch, &buffer)), (b"B".as_slice(), Err((4, 83))));
    let (mut watch, mut buffer) = begun(16_384);
    assert_eq!(watch.chunk(&mut buffer, b"X\x01:\r\n"), Ok(()));
    assert_eq!(held(&buffer), b"X\x01:\r\n");
    assert_eq!(watch.chunk(&mut buffer, b"B"), Ok(()));
    assert_eq!((held(&buffer), ended(&watch, &buffer)), (b"".as_slice(), Err((4, 6))));
}

#[test]
fn when_a_fault_is_known() {
    let begin = b"BEGIN:VCARD\r\n".as_slice();
    let with = |more: &[u8]| used(&[begin, more].concat());
    assert_eq!(with(b"V\r"), b"V\r");
    assert_eq!(with(b"V\ra"), b"");
    assert_eq!(with(b"\n"), b"");
    assert_eq!(with(b"V\r\n\n"), b"");
    assert_eq!(with(b"\r"), b"\r");
    assert_eq!(with(b"\r\n"), b"\r\n");
    assert_eq!(with(b"\r\n "), b"\r\n ");
    assert_eq!(with(b"\r\nA"), b"");
    assert_eq!(with(b"\r\n\r"), b"");
    assert_eq!(with(b"VERSION:3.0\r\n"), b"VERSION:3.0\r\n");
    assert_eq!(with(b"VERSION:3.0\r\nX"), b"");
    assert_eq!(with(b" \x01"), [begin, b" \x01"].concat());
    assert_eq!(used(&[b'a'; 16_384]), [b'a'; 16_384]);
    assert_eq!(used(&[b'a'; 16_385]), b"");
    assert_eq!(used(b"\n"), b"");
    assert_eq!(used(b"\r\n"), b"\r\n");
}

#[test]
fn which_altid_values_are_kept() {
    let kept = |lines: &str| {
        let input = format!("BEGIN:VCARD\r\nVERSION:4.0\r\n{lines}END:VCARD\r\nB");
        let before = &input[..input.len() - 1];
        assert_eq!(used(input.as_bytes()), b"B");
        let used = String::from_utf8(used(before.as_bytes())).expect("UTF-8");
        used.strip_suffix("END:VCARD\r\n").expect("the open line").to_string()
    };
    assert_eq!(kept("FN:A\r\n"), "");
    assert_eq!(kept("FN;ALTID=1:A\r\nNOTE;ALTID=2:\r\n"), "");
    assert_eq!(kept("FN:A\r\nKIND;ALTID=k:x\r\nN;ALTID=n:;;;;\r\nKIND;ALTID=k:y\r\n"), "kn");
    assert_eq!(kept("FN:A\r\nN;ALTID=n:;;;;\r\nUID:a:b\r\nKIND;ALTID=\"\":x\r\nREV;ALTID=\"r,s\",t:19961022T140000Z\r\n"), "nr,s");
    assert_eq!(kept("FN:A\r\nN;ALTID=a\r\n \r\n\tb:;;;;\r\n"), "ab");
}

#[test]
fn refusals_45_and_46_change_nothing() {
    for length in [0, 16_383, 16_385] {
        let (mut watch, mut buffer) = begun(length);
        assert_eq!(ended(&watch, &buffer), Err((45, 0)));
        watch.claim(16_385);
        assert_eq!(watch.chunk(&mut buffer, CARD_M), Err(Refusal { number: 45, place: 0 }));
        assert!(buffer.iter().all(|&octet| octet == 165));
    }
    let (mut watch, mut buffer) = begun(16_384);
    watch.chunk(&mut buffer, b"BEGIN:VCARD\r\nVERSION:4.0\r\nN;ALTID=abc:;;;;\r\nF").expect("taken");
    let before = (watch.clone(), buffer.clone());
    for count in [16_382, 16_385, u32::MAX as usize] {
        watch.claim(count);
        assert_eq!(ended(&watch, &buffer), Err((46, 0)));
        assert_eq!(watch.chunk(&mut buffer, b"x"), Err(Refusal { number: 46, place: 0 }));
        assert_eq!(buffer, before.1);
    }
    watch.claim(1);
    assert_eq!(watch.chunk(&mut buffer, b"N:A\r\nEND:VCARD\r\n"), Ok(()));
    assert_eq!(ended(&watch, &buffer), Ok((1, 5)));
    let (mut watch, mut buffer) = begun(16_384);
    watch.chunk(&mut buffer, &[b'a'; 16_384]).expect("taken");
    assert_eq!(watch.chunk(&mut buffer, b""), Ok(()));
    assert_eq!((held(&buffer).len(), ended(&watch, &buffer)), (16_384, Err((4, 16_384))));
    assert_eq!(watch.chunk(&mut buffer, b"a"), Ok(()));
    assert_eq!((held(&buffer).len(), ended(&watch, &buffer)), (0, Err((1, 16_384))));
}

/// What the buffer holds, carried on octet by octet with what one octet can change: another way to the same.
#[derive(Default)]
struct OctetByOctet {
    all: Vec<u8>,
    line: Vec<u8>,
    card: Vec<u8>,
    kept: Vec<(u32, Vec<u8>)>,
    is_known: bool,
}

impl OctetByOctet {
    /// Takes one octet.
    fn take(&mut self, octet: u8) {
        self.all.push(octet);
        let after_cr = self.line.last() == Some(&b'\r');
        self.is_known |= self.all.len() > 16_384 || after_cr != (octet == b'\n');
        if !self.is_known && self.line.ends_with(b"\r\n") && octet != b' ' && octet != b'\t' {
            self.end_line();
        }
        self.line.push(octet);
    }

    /// Judges the line that has ended: the card's lines so far are a beginning that some END could follow, or the line is at fault.
    fn end_line(&mut self) {
        let line = std::mem::take(&mut self.line);
        self.card.extend(&line);
        let start = self.all.len() - 1 - self.card.len();
        match verdict(&self.all[start..self.all.len() - 1]) {
            Ok(_) => (self.card, self.kept) = (Vec::new(), Vec::new()),
            Err((9, place)) if place == self.card.len() => self.keep(&line),
            Err(_) => self.is_known = true,
        }
    }

    /// Keeps the ALTID value of a first line of a *1 property.
    fn keep(&mut self, line: &[u8]) {
        let parts = parse(&unfolded(line)).expect("a good line");
        let row = row_of(&parts.name);
        if row.single && self.kept.iter().all(|(number, _)| *number != row.number) {
            let altid =
                parts.parameters.iter().find(|parameter| parameter.name.eq_ignore_ascii_case(b"ALTID"));
            self.kept.push((row.number, altid.map_or(Vec::new(), |parameter| parameter.values[0].clone())));
        }
    }

    /// What the buffer holds.
    fn used(&self) -> Vec<u8> {
        match self.is_known {
            true => Vec::new(),
            false => {
                [self.kept.iter().flat_map(|(_, value)| value.clone()).collect(), self.line.clone()].concat()
            }
        }
    }
}

/// The octets of a line without its folds and its CR LF.
fn unfolded(mut line: &[u8]) -> Vec<u8> {
    let mut octets = Vec::new();
    while let [first, rest @ ..] = line {
        line = match line {
            [b'\r', b'\n', b' ' | b'\t', after @ ..] => after,
            [b'\r', b'\n'] => return octets,
            _ => {
                octets.push(*first);
                rest
            }
        };
    }
    octets
}

/// Inputs of the examples and by chance.
fn inputs() -> Vec<Vec<u8>> {
    let sources = source_inputs();
    let mut dice = Dice::new(11);
    let mut inputs = examples();
    inputs.extend((0..600).map(|_| input_by_chance(&mut dice, &sources)));
    inputs.retain(|input| input.len() <= 1_500);
    inputs
}

#[test]
fn both_ways_to_reckon_the_buffer_agree_at_every_octet() {
    let mut points = 0;
    for input in inputs() {
        let mut other = OctetByOctet::default();
        for (index, &octet) in input.iter().enumerate() {
            other.take(octet);
            assert_eq!(used(&input[..=index]), other.used(), "{index}: {}", String::from_utf8_lossy(&input));
            points += 1;
        }
    }
    assert!(points >= 100_000, "{points}");
}

#[test]
fn the_end_is_the_verdict_on_the_joined_chunks_for_every_cutting_in_two() {
    for input in examples().into_iter().filter(|input| input.len() <= 120) {
        for place in 0..=input.len() {
            let (mut watch, mut buffer) = begun(16_384);
            for chunk in [&input[..place], &input[place..]] {
                watch.chunk(&mut buffer, chunk).expect("taken");
            }
            assert_eq!(ended(&watch, &buffer), verdict(&input));
            assert_eq!(held(&buffer), used(&input));
        }
    }
}
