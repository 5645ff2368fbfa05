// Knows the reader inputs made by hand: both sides of every border of document 01's rules.

use crate::examples::{m_with, CARD_M};
use crate::properties::ROWS;
use crate::refusal::MOST_OCTETS;

/// All inputs by hand, in the order of the checks.
pub fn inputs() -> Vec<Vec<u8>> {
    let parts = [
        whole_inputs(),
        sizes(),
        every_octet_at_every_place(),
        characters(),
        lines(),
        long_lines(),
        line_orders(),
        frames(),
        values(),
        value_parameters(),
        singles(),
        members(),
        two_faults(),
        folds(),
        several_cards(),
    ];
    parts.concat()
}

/// Checks 2, 3 and 4: no octets, lone CR and LF at every place of card M, ends that are missing.
fn whole_inputs() -> Vec<Vec<u8>> {
    let short: [&[u8]; 16] = [
        b"", b"A", b"\r", b"\n", b" ", b"\t", b"\r\n", b"\n\r", b"\r\r\n", b"\r\n\n", b"\r\n\r", b"\r\n ",
        b"\r\n\t\r\n", b"\r\n\r\n", b"AB", b"A\r\n",
    ];
    let mut inputs: Vec<Vec<u8>> = short.iter().map(|input| input.to_vec()).collect();
    for at in 0..=CARD_M.len() {
        for octet in *b"\r\n" {
            inputs.push([&CARD_M[..at], &[octet], &CARD_M[at..]].concat());
        }
        inputs.push(CARD_M[..at].to_vec());
        inputs.push(CARD_M[at..].to_vec());
    }
    for at in 0..CARD_M.len() {
        inputs.push([&CARD_M[..at], &CARD_M[at + 1..]].concat());
    }
    inputs.push([CARD_M, b" "].concat());
    inputs.push([CARD_M, b"\r\n"].concat());
    inputs
}

/// Check 1, and the most lines and cards that fit.
fn sizes() -> Vec<Vec<u8>> {
    let note_of = |size: usize| m_with(&[b"NOTE:".to_vec(), vec![b'a'; size - 50]].concat());
    let mut inputs: Vec<Vec<u8>> = [16_383, 16_384, 16_385].into_iter().map(note_of).collect();
    inputs.push(vec![b'\n'; MOST_OCTETS + 1]);
    inputs.push(vec![b'\r'; MOST_OCTETS]);
    inputs.push(note_of(60_000));
    let most_lines = (MOST_OCTETS - CARD_M.len()) / 4;
    inputs.push(m_with(&[b"A:\r\n".repeat(most_lines - 1), b"A:".to_vec()].concat()));
    let small_card = b"BEGIN:VCARD\r\nVERSION:4.0\r\nFN:\r\nEND:VCARD\r\n";
    inputs.push(small_card.repeat(MOST_OCTETS / small_card.len()));
    let folds = b"\r\n ".repeat((MOST_OCTETS - CARD_M.len()) / 3);
    inputs.push([&folds, CARD_M].concat());
    inputs.push([&CARD_M[..29], &folds, &CARD_M[29..]].concat());
    inputs
}

/// Places where each of the 256 octets is put: what stands before it and after it in card M.
const PLACES: &[(&str, &str)] = &[
    ("NOTE:a", ""),
    ("NOTE", ":x"),
    ("", "NOTE:x"),
    ("g", ".NOTE:x"),
    ("NOTE;a", "=x:y"),
    ("NOTE;a=x", "y:z"),
    ("NOTE;a=\"x", "y\":z"),
    ("NOTE;a=\"x\"", ":z"),
    ("URL:", ":"),
    ("URL:a", ":b"),
    ("URL:a:b", "c"),
    ("GENDER:", ""),
    ("GENDER:M", "a"),
    ("NOTE:a\\", "c"),
    ("CLIENTPIDMAP:", ";a:"),
    ("CLIENTPIDMAP:1", "a:"),
    ("N:a", ";;;"),
    ("NICKNAME:a", "\\"),
    ("BDAY:", "9850412"),
    ("BDAY:1985", ""),
    ("BDAY:1985041", ""),
    ("BDAY:19850412", "10"),
    ("BDAY:19850412T10", ""),
    ("REV:19961022T14000", "Z"),
    ("REV:19961022T140000", ""),
    ("TZ;VALUE=utc-offset:", "0500"),
];

/// Each octet at each of these places, alone, before and after card M, and in its frame.
fn every_octet_at_every_place() -> Vec<Vec<u8>> {
    let mut inputs = Vec::new();
    for octet in 0..=255u8 {
        for (before, after) in PLACES {
            inputs.push(m_with(&[before.as_bytes(), &[octet], after.as_bytes()].concat()));
        }
        inputs.push(vec![octet]);
        inputs.push([&[octet], CARD_M].concat());
        inputs.push([CARD_M, &[octet]].concat());
        for at in [5, 10, 22, 30, 40] {
            let mut changed = CARD_M.to_vec();
            changed[at] = octet;
            inputs.push(changed);
        }
    }
    inputs
}

/// Characters at the borders of RFC 3629, good and bad.
pub const SEQUENCES: &[&[u8]] = &[
    b"\x7E", b"\x80", b"\xBF", b"\xC0\x80", b"\xC0\xAF", b"\xC1\xBF", b"\xC2", b"\xC2\x7F", b"\xC2\x80",
    b"\xC2\xBF", b"\xC2\xC0", b"\xDF\x80", b"\xDF\xBF", b"\xDF\xC0", b"\xE0\x80\x80", b"\xE0\x9F\xBF",
    b"\xE0\xA0\x80", b"\xE0\xBF\xBF", b"\xE0\xC0\x80", b"\xE1\x80", b"\xE1\x7F\x80", b"\xE1\x80\x80",
    b"\xE1\x80\x7F", b"\xE1\x80\xC0", b"\xEC\xBF\xBF", b"\xED\x80\x80", b"\xED\x9F\xBF", b"\xED\xA0\x80",
    b"\xED\xBF\xBF", b"\xEE\x80\x80", b"\xEF\xBF\xBF", b"\xEF\xBB\xBF", b"\xF0\x80\x80\x80",
    b"\xF0\x8F\xBF\xBF", b"\xF0\x90\x80\x80", b"\xF0\xBF\xBF\xBF", b"\xF0\x90\x80", b"\xF0\x90",
    b"\xF1\x80\x80\x80", b"\xF1\x80\x80\x7F", b"\xF3\xBF\xBF\xBF", b"\xF4\x80\x80\x80", b"\xF4\x8F\xBF\xBF",
    b"\xF4\x90\x80\x80", b"\xF4\x8F\xBF\xC0", b"\xF5\x80\x80\x80", b"\xF8\x88\x80\x80\x80", b"\xFF",
];

/// Each sequence in name, parameter and value, and split by a fold at every place.
fn characters() -> Vec<Vec<u8>> {
    let mut inputs = Vec::new();
    for sequence in SEQUENCES {
        for (before, after) in [("NOTE:", ""), ("NOTE:a", "b"), ("NO", ":a"), ("NOTE;x=\"", "\":a")] {
            inputs.push(m_with(&[before.as_bytes(), sequence, after.as_bytes()].concat()));
        }
        for cut in 0..=sequence.len() {
            for fold in [b"\r\n ", b"\r\n\t"] {
                let (left, right) = sequence.split_at(cut);
                inputs.push(m_with(&[b"NOTE:", left, fold, right].concat()));
            }
        }
        inputs.push([sequence, CARD_M].concat());
    }
    inputs
}

/// Lines on both sides of the line rule.
const LINES: &[&str] = &[
    "", " ", ":", ";", ".", "=", "\"", "A", "A:", ":A", "A.", "A.:", "A.B", "A.B:", ".A:", "A..B:", "A.B.C:",
    "A.B:C.D:E", "-:", "-.-:", "0:", "0.0:", "A B:", " A:B", "A :B", "A: B", "A_B:", "A/B:", "Ä:", "A.Ä:",
    "A;:", "A;B:", "A;=:", "A;B=", "A;B=:", "A;B=C", "A;B=C:", "A;B==:", "A;B=C=D:", "A;B C=D:", "A; B=C:",
    "A;B.C=D:", "A;B=C;:", "A;B=C;;D=E:", "A;B=C;D:", "A;B=C;D=:", "A;B=,:", "A;B=,,:", "A;B=C,D:",
    "A;B=C,:", "A;B=\"\":", "A;B=\"\",\"\":", "A;B=\"", "A;B=\":", "A;B=\"C:", "A;B=\"C\"", "A;B=\"C\"D:",
    "A;B=\"C\"\"D\":", "A;B=\"C\",D:", "A;B=C\"D\":", "A;B=C\":", "A;B=\"C;D:E,F\":", "A;B=\"C:D\":E",
    "A;B=\"C\";D=\"E\":F", "A;B=C:\"", "A:\"", "A:B:C", "A:;B=C:D", "A;B=\tC:D", "A;B=C\t:D", "A\t:B",
    "A:\t", "A;B=é:C", "A;é=B:C", "A;B=\"é\":C", "A;B=\\n:C", "A;B=^n:C", "A;B-1=C:D",
];

/// These lines inside card M, as its first line, and after it.
fn lines() -> Vec<Vec<u8>> {
    let mut inputs = Vec::new();
    for line in LINES {
        inputs.push(m_with(line.as_bytes()));
        inputs.push([line.as_bytes(), b"\r\n", CARD_M].concat());
        inputs.push([CARD_M, line.as_bytes(), b"\r\n"].concat());
    }
    inputs
}

/// Long groups, names and parameters, and lines with many of them.
fn long_lines() -> Vec<Vec<u8>> {
    let mut inputs = Vec::new();
    for count in [63, 64, 65, 127, 128, 255, 256, 257, 1000] {
        let long = "a".repeat(count);
        for line in [
            format!("{long}.NOTE:a"),
            format!("{long}:a"),
            format!("NOTE;{long}=a:b"),
            format!("NOTE;x={long}:a"),
            format!("NOTE;x=\"{long}\":a"),
            format!("NOTE;x=a{}:a", ",b".repeat(count)),
            format!("NOTE{}:a", ";x=y".repeat(count)),
            format!("TEL{};VALUE=uri:{long}:", ";x=y".repeat(count)),
            format!("CLIENTPIDMAP:{};{long}:a", "1".repeat(count)),
            format!("ORG:{long}{}", ";b".repeat(count)),
            format!("NICKNAME:{long}{}", ",\\n".repeat(count)),
        ] {
            inputs.push(m_with(line.as_bytes()));
        }
        let lines = "A:\r\n".repeat(count) + "N:x";
        inputs.push(m_with(lines.as_bytes()));
    }
    inputs
}

/// All short rows of framing lines, and all short cards over the lines that END asks about.
fn line_orders() -> Vec<Vec<u8>> {
    let frame = ["BEGIN:VCARD", "VERSION:4.0", "FN:A", "END:VCARD", "N:;;;;"];
    let inside = ["FN:A", "END:VCARD", "N:;;;;", "MEMBER:a:", "KIND:Group", "KIND:org"];
    let mut inputs = Vec::new();
    for row in rows_up_to(4, &frame) {
        inputs.push(with_line_ends(&row));
    }
    for row in rows_up_to(4, &inside) {
        let card = [&["BEGIN:VCARD", "VERSION:4.0"], row.as_slice(), &["END:VCARD"]].concat();
        inputs.push(with_line_ends(&card));
    }
    inputs
}

/// All rows of up to so many elements of the alphabet, the empty row too.
pub fn rows_up_to<T: Copy>(most: usize, alphabet: &[T]) -> Vec<Vec<T>> {
    let mut all = vec![Vec::new()];
    let mut longest = all.clone();
    for _ in 0..most {
        let longer = |row: &Vec<T>| -> Vec<Vec<T>> {
            alphabet.iter().map(|element| [row.as_slice(), &[*element]].concat()).collect()
        };
        longest = longest.iter().flat_map(longer).collect();
        all.extend(longest.clone());
    }
    all
}

/// The lines, each ended by CR LF.
fn with_line_ends(lines: &[&str]) -> Vec<u8> {
    lines.iter().flat_map(|line| [line.as_bytes(), b"\r\n"].concat()).collect()
}

/// BEGIN, VERSION and END in other spellings, with group, parameter and other values.
fn frames() -> Vec<Vec<u8>> {
    let lines = ["BEGIN:VCARD", "VERSION:4.0", "FN:A", "END:VCARD"];
    let values = [
        "VCARD", "vcard", "VcArD", "VCARD ", " VCARD", "VCAR", "VCARDS", "", "\"VCARD\"", "4.0", "4.00",
        "4.", "04.0", "4.0 ", " 4.0", "3.0", "4,0", "4\\.0",
    ];
    let mut inputs = Vec::new();
    for at in [0, 1, 3] {
        let (name, value) = lines[at].split_once(':').expect("a colon");
        for other in values {
            for head in [name.to_string(), name.to_lowercase(), format!("g.{name}"), format!("{name};x=y")] {
                let mut changed = lines.map(str::to_string);
                changed[at] = format!("{head}:{other}");
                inputs.push(with_line_ends(&changed.each_ref().map(String::as_str)));
            }
        }
        for line in [format!("{name};VALUE=text:{value}"), name.to_string(), format!("{name};:{value}")] {
            let mut changed = lines;
            changed[at] = &line;
            inputs.push(with_line_ends(&changed));
        }
    }
    inputs
}

/// Values on both sides of every kind.
const VALUES: &[&str] = &[
    "", "a", " ", "\t", "é", "a,b", ",", ",,", "a\\,b", "a\\", "\\", "\\\\", "\\\\\\", "\\\\,", "\\,", "\\;",
    "\\n", "\\N", "\\x", "\\ ", "\\é", "a\\\\,b", "a\\\\\\,b", "\\n\\N\\\\\\,\\;", "a\\,", "a,\\", "a,\\x",
    "\\:", ";", ";;;", ";;;;", ";;;;;", ";;;;;;", ";;;;;;;", "a;b;c;d;e", "a;b;c;d", "a;b;c;d;e;f",
    "a;b;c;d;e;f;g", "a;b;c;d;e;f;g;h", "\\;;;;", "\\;;;;;", "\\\\;;;;", "\\\\;;;", ",;,;,;,;,",
    "a,b;c;d;e;f,g", ";;;;\\", ";;;;\\x", ";;\\,;;", ";;;;;;\\", "a;b\\,c", "a;b,c", ",;", ";,", "a:", "A:",
    ":a", ":", "::", "a::", "1:", "1a:", "a1:", "a+-.:", "+a:", "-a:", ".a:", "a_:", "a b:", "a:b c",
    "a:b\tc", "a:é", "é:a", "a:!", "a:~", "a:\"", "a:\\", "geo:1,2", "geo:1\\,2", "a:b:c", "a,b:c", "M", "f",
    "X", "MM", "M;", "M;a", "m;a;b", "M;a,b", "M;a\\,b", "M;\\", ";it's", ";a,b", "M,", "M:a", "1;a:",
    "0;a:", "007;a:", ";a:", "1;a", "1;:", "1", "1;", "12345678901234567890;z:", "19850412", "1985-04", "--0412",
    "T10", "19961022T140000Z", "-0500", "+05",
];

/// Values that fit only kind 8 or sit beside it, and those that refusal 12 asks about.
const MORE_VALUES: &[&str] =
    &["1;;a:", "1 ;a:", "1; a:", "-1;a:", "1,a:", "1;1:", "group", "GROUP", "groups", "gr\\oup"];

/// Each value in each property and in an unlisted one; MEMBER and KIND have their partner.
fn values() -> Vec<Vec<u8>> {
    let mut inputs = Vec::new();
    for name in ROWS.iter().map(|row| row.name).chain(["X-A", "NN"]) {
        for value in [VALUES, MORE_VALUES].concat() {
            let line = format!("{name}:{value}");
            inputs.push(m_with(line.as_bytes()));
            if name == "MEMBER" {
                inputs.push(m_with(format!("{line}\r\nKIND:group").as_bytes()));
            }
        }
    }
    inputs
}

/// VALUE parameters that set a kind, and others that don't.
const VALUE_PARAMETERS: &[&str] = &[
    ";VALUE=text", ";VALUE=uri", ";value=TEXT", ";VaLuE=UrI", ";VALUE=\"text\"", ";VALUE=\"uri\"",
    ";VALUE=text,uri", ";VALUE=uri,text", ";VALUE=\"text,uri\"", ";VALUE=\"text\",uri", ";VALUE=",
    ";VALUE=\"\"", ";VALUE=,text", ";VALUE=\"\",uri", ";VALUE=x", ";VALUE=date", ";VALUE=x;VALUE=text",
    ";VALUE=text;VALUE=uri", ";TYPE=x;VALUE=uri", ";VALUES=uri", ";X-VALUE=text", ";VALUE= text",
    ";VALUE=text ", ";VALUE=tex", ";VALUE=urı", ";TYPE=\";VALUE=uri\"", ";VALUE=utc-offset", ";VALUE=UTC-OFFSET",
    ";VALUE=timestamp", ";CALSCALE=gregorian", ";CALSCALE=GREGORIAN", ";CALSCALE=\"gregorian\"", ";CALSCALE=julian",
    ";CALSCALE=", ";CALSCALE=gregorian,julian", ";CALSCALE=julian;CALSCALE=gregorian", ";VALUE=text;CALSCALE=julian",
    ";CALSCALE=julian;VALUE=text", ";VALUE=uri;CALSCALE=julian", ";VALUE=date;CALSCALE=gregorian",
];

/// Each of them on each property, with values that are text, URI, both or neither.
fn value_parameters() -> Vec<Vec<u8>> {
    let mut inputs = Vec::new();
    for name in ROWS.iter().map(|row| row.name).chain(["X-A"]) {
        for parameter in VALUE_PARAMETERS {
            for value in ["a,b", "a b", "a:b", "a:b,c", "a;b;c;d;e", "19850412", "19961022T140000", "-0500"] {
                inputs.push(m_with(format!("{name}{parameter}:{value}").as_bytes()));
            }
        }
    }
    inputs
}

/// A value that fits the row.
fn fitting(kind: u32) -> &'static str {
    ["a", "a", "a,b", "a:b", ";;;;", ";;;;;;", "a;b", "M;a", "1;a:", "19850412", "19961022T140000", "-05"]
        [kind as usize]
}

/// Each property twice: alike, in other case, with group, with parameters, and in two cards.
fn singles() -> Vec<Vec<u8>> {
    let mut inputs = Vec::new();
    for row in ROWS {
        let value = fitting(row.kind);
        let line = format!("{}:{value}", row.name);
        let seconds = [
            line.clone(),
            line.to_lowercase(),
            format!("g.{line}"),
            format!("{};ALTID=1:{value}", row.name),
            format!("{};VALUE=x:{value}", row.name),
            format!("NOTE:a\r\n{line}"),
        ];
        for second in seconds {
            inputs.push(m_with(format!("{line}\r\n{second}").as_bytes()));
        }
        inputs.push([m_with(line.as_bytes()), m_with(line.as_bytes())].concat());
    }
    inputs
}

/// MEMBER with and without a KIND line that says group, in one card and in two.
fn members() -> Vec<Vec<u8>> {
    let kinds = [
        "KIND:group", "KIND:GROUP", "kind:gRoUp", "KIND:group ", "KIND: group", "KIND:groups", "KIND:grou",
        "KIND:", "KIND:individual", "g.KIND:group", "KIND;x=y:group", "KIND;VALUE=x:group",
        "KIND;VALUE=text:group", "KIND;VALUE=uri:group", "KIND;VALUE=uri:group:", "KIND:\"group\"",
        "X-KIND:group", "NOTE:group", "KINDS:group", "KIND:group\\n",
    ];
    let members =
        ["MEMBER:a:", "member:a:", "g.MEMBER:a:", "MEMBER;VALUE=text:x", "MEMBER;VALUE=x:", "MEMBERS:a:"];
    let mut inputs = Vec::new();
    for member in members {
        inputs.push(m_with(member.as_bytes()));
        for kind in kinds {
            inputs.push(m_with(format!("{member}\r\n{kind}").as_bytes()));
            inputs.push(m_with(format!("{kind}\r\n{member}").as_bytes()));
            inputs.push([m_with(member.as_bytes()), m_with(kind.as_bytes())].concat());
            inputs.push([m_with(kind.as_bytes()), m_with(member.as_bytes())].concat());
        }
    }
    inputs
}

/// Lines inside a card with one fault, or with two faults at once.
const FAULTY_LINES: &[&[u8]] = &[
    b"NOTE:\x01", b"NOTE", b"BEGIN:VCARD", b"VERSION:4.0", b"g.END:VCARD", b"N:x", b"UID:a:b", b"MEMBER:a:",
    b"NOTE\x01", b"N\x01:x", b"BEGIN", b"END;", b"g.BEGIN:VCARD", b"BEGIN:X", b"g.VERSION:3.0", b"g.END:X",
    b"END:X", b"UID:x",
];

/// All pairs of faulty lines in a card that has a UID, with FN and without; and pairs of whole checks.
fn two_faults() -> Vec<Vec<u8>> {
    let mut inputs = Vec::new();
    for &first in FAULTY_LINES {
        for &second in FAULTY_LINES {
            let lines = [b"UID:u:u\r\n", first, b"\r\n", second].concat();
            let card = m_with(&lines);
            let without_fn = [&card[..26], &card[32..]].concat();
            inputs.push(card);
            inputs.push(without_fn);
        }
        for ending in [&b"\r"[..], b"\n", b"x", b""] {
            inputs.push([&m_with(first), ending].concat());
        }
        inputs.push([&CARD_M[..32], first, b"\r\n"].concat());
        inputs.push([CARD_M, first, b"\r\n"].concat());
        inputs.push([first, b"\r\n", CARD_M].concat());
    }
    inputs
}

/// Card M, and a card with wide characters, cut by each sort of fold at every place.
fn folds() -> Vec<Vec<u8>> {
    let folds: [&[u8]; 7] =
        [b"\r\n ", b"\r\n\t", b"\r\n  ", b"\r\n \r\n ", b"\r\n\t\r\n ", b"\r\n\r\n ", b"\r\n \t"];
    let wide = m_with("NOTE;x=\"é\":€🚋\\,".as_bytes());
    let mut inputs = Vec::new();
    for card in [CARD_M, &wide] {
        for at in 0..=card.len() {
            for fold in folds {
                inputs.push([&card[..at], fold, &card[at..]].concat());
            }
        }
        let everywhere: Vec<u8> =
            card.split_inclusive(|&octet| octet == b'\n').flat_map(every_octet_folded).collect();
        inputs.push(everywhere);
    }
    for line in ["\r\n N:Doe;J", "\r\n\t\r\n N:Doe;J", "\r\n  X:1", "N\r\n :a;b;c;d;e", "\r\n \x01"] {
        inputs.push(m_with(line.as_bytes()));
    }
    inputs
}

/// A physical line with a fold before each of its octets.
fn every_octet_folded(line: &[u8]) -> Vec<u8> {
    let text = line.strip_suffix(b"\r\n").unwrap_or(line);
    let mut folded: Vec<u8> = text.iter().flat_map(|&octet| [b'\r', b'\n', b' ', octet]).collect();
    folded.extend(b"\r\n");
    folded
}

/// Two and three cards, good ones and ones that lean on their neighbour.
fn several_cards() -> Vec<Vec<u8>> {
    let without_fn = [&CARD_M[..26], &CARD_M[32..]].concat();
    let without_end = CARD_M[..32].to_vec();
    let group = m_with(b"KIND:group\r\nMEMBER:a:");
    let cards = [
        CARD_M.to_vec(),
        without_fn,
        without_end,
        group,
        m_with(b"MEMBER:a:"),
        m_with(b"N:;;;;"),
        b"\r\n".to_vec(),
        b"NOTE:a\r\n".to_vec(),
    ];
    let mut inputs = Vec::new();
    for first in &cards {
        for second in &cards {
            inputs.push([first.as_slice(), second].concat());
            inputs.push([CARD_M, first, second].concat());
        }
    }
    inputs
}
