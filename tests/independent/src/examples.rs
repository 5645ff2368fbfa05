// Knows the examples: document 01's own with their answers, and those of the sources kept in data/.

use crate::hex::word_of;
use crate::requests::{add_line, judge_line, read_line, room_line};

/// Card M of document 01.
pub const CARD_M: &[u8] = b"BEGIN:VCARD\r\nVERSION:4.0\r\nFN:A\r\nEND:VCARD\r\n";

/// Card M up to and with its FN, and its END.
const M_HEAD: &[u8] = b"BEGIN:VCARD\r\nVERSION:4.0\r\nFN:A\r\n";
const M_END: &[u8] = b"END:VCARD\r\n";

/// Card M with this line after its FN; the line comes without its CR LF.
pub fn m_with(line: &[u8]) -> Vec<u8> {
    [M_HEAD, line, b"\r\n", M_END].concat()
}

/// An example of a source: the whole input, the console's answer to `judge`, and the kind in the
/// record of a lone line that is accepted.
#[derive(Clone, Debug)]
pub struct SourceExample {
    pub source: &'static str,
    pub section: String,
    pub input: Vec<u8>,
    pub verdict: String,
    pub kind: Option<u32>,
}

/// All examples of sources 002 and 003.
pub fn source_examples() -> Vec<SourceExample> {
    let mut examples = examples_in("002", include_str!("../data/source-002.txt"));
    examples.extend(examples_in("003", include_str!("../data/source-003.txt")));
    examples
}

/// The examples of one file, whose form its first lines tell.
fn examples_in(source: &'static str, file: &str) -> Vec<SourceExample> {
    let mut examples = Vec::new();
    let mut shape = "";
    for line in file.lines().filter(|line| !line.is_empty() && !line.starts_with('#')) {
        if let Some(header) = line.strip_prefix("@ ") {
            finish(examples.last_mut(), shape);
            let (section, rest) = header.split_once(' ').expect("a section and a shape");
            let (name, verdict) = rest.split_once(' ').expect("a shape and a verdict");
            shape = name;
            examples.push(begun(source, section, verdict));
        } else {
            let example = examples.last_mut().expect("a header before its lines");
            example.input.extend(line.as_bytes());
            example.input.extend(b"\r\n");
        }
    }
    finish(examples.last_mut(), shape);
    examples
}

/// An example with its header read and no lines yet.
fn begun(source: &'static str, section: &str, verdict: &str) -> SourceExample {
    let (verdict, kind) = match verdict.split_once(" kind ") {
        Some((verdict, kind)) => (verdict, Some(kind.parse().expect("a kind"))),
        None => (verdict, None),
    };
    SourceExample {
        source,
        section: section.to_string(),
        input: Vec::new(),
        verdict: verdict.to_string(),
        kind,
    }
}

/// Puts the lines of an example into card M, unless they are the whole input.
fn finish(example: Option<&mut SourceExample>, shape: &str) {
    let Some(example) = example else { return };
    match shape {
        "card" => (),
        "line" | "lines" => example.input = [M_HEAD, &example.input, M_END].concat(),
        _ => panic!("unknown shape {shape}"),
    }
}

/// An example of source 004: the whole version 3 input, and the unfolded lines that it is taken in as, or the console's refusal.
#[derive(Clone, Debug)]
pub struct Version3Example {
    pub section: String,
    pub input: Vec<u8>,
    pub answer: Result<Vec<String>, String>,
}

/// All examples of source 004, whose form its first lines tell.
pub fn version3_examples() -> Vec<Version3Example> {
    let mut examples = Vec::new();
    for block in include_str!("../data/source-004.txt").split("\n@ ").skip(1) {
        let (header, lines) = block.split_once('\n').expect("a header and lines");
        let words: Vec<&str> = header.splitn(3, ' ').collect();
        let [section, shape, answer] = words.as_slice() else { panic!("no header: {header}") };
        let lines = || lines.lines().filter(|line| !line.is_empty() && !line.starts_with('#'));
        let given: Vec<&str> = lines().filter(|line| !line.starts_with("> ")).collect();
        let wanted: Vec<&str> = lines().filter_map(|line| line.strip_prefix("> ")).collect();
        let input = version3_card(shape, ["VERSION:3.0", "N:A"], &given);
        let taken = version3_card(shape, ["VERSION:4.0", "N:A;;;;"], &wanted);
        let ended: Vec<u8> = input.iter().flat_map(|line| format!("{line}\r\n").into_bytes()).collect();
        examples.push(Version3Example {
            section: section.to_string(),
            input: ended,
            answer: if *answer == "ok" { Ok(taken) } else { Err(answer.to_string()) },
        });
    }
    examples
}

/// The lines in the frame of their shape, with this VERSION and N.
fn version3_card(shape: &str, [version, name]: [&str; 2], lines: &[&str]) -> Vec<String> {
    let before: &[&str] = match shape {
        "card" => &[],
        "inside" => &["BEGIN:VCARD", version],
        "line" => &["BEGIN:VCARD", version, "FN:A", name],
        _ => panic!("unknown shape {shape}"),
    };
    let after: &[&str] = if shape == "card" { &[] } else { &["END:VCARD"] };
    [before, lines, after].concat().into_iter().map(str::to_string).collect()
}

/// An example of document 01: a run of requests, each with the answer that the paper gives it.
#[derive(Clone, Debug)]
pub struct PaperExample {
    pub name: &'static str,
    pub steps: Vec<(String, String)>,
}

/// An example of one request.
fn one(name: &'static str, request: String, answer: &str) -> PaperExample {
    PaperExample { name, steps: vec![(request, answer.to_string())] }
}

/// Document 01's examples for the reader.
pub fn reader_examples() -> Vec<PaperExample> {
    let m_read = format!(
        "ok 1 4 {} 1,0,11,0,5,0,6,0,34,13,11,0,7,0,21,0,6,26,4,0,2,0,29,1,2,32,9,0,3,0,36,0",
        word_of(CARD_M)
    );
    let folded_m = b"BEGIN:VCARD\r\nVERSION:4.0\r\nFN:\r\n A\r\nEND:VCARD\r\n";
    let without_fn = b"BEGIN:VCARD\r\nVERSION:4.0\r\nEND:VCARD\r\n";
    let without_end = b"BEGIN:VCARD\r\nVERSION:4.0\r\nFN:A\r\n";
    let version_3 = b"BEGIN:VCARD\r\nVERSION:3.0\r\nFN:A\r\nEND:VCARD\r\n";
    let lone_lf = b"BEGIN:VCARD\nVERSION:4.0\r\nFN:A\r\nEND:VCARD\r\n";
    let two_names = b"N:Public;John;Quinlan;Mr.;Esq.\r\nN:Public;John;Quinlan;Mr.;Esq.";
    vec![
        one("(*) card M", judge_line(CARD_M), "ok 1 4"),
        one("(*) card M, copy and records", read_line(43, 32, CARD_M), &m_read),
        one("(*) M with a fold after FN:", judge_line(folded_m), "ok 1 4"),
        one("(*) M with a fold, copy and records", read_line(43, 32, folded_m), &m_read),
        one("(*) M without FN", judge_line(without_fn), "no 11 26"),
        one("(*) M without END", judge_line(without_end), "no 9 32"),
        one("(*) VERSION:3.0", judge_line(version_3), "no 7 21"),
        one("(*) LF alone after the first line's text", judge_line(lone_lf), "no 3 11"),
        one("(*) N twice after FN", judge_line(&m_with(two_names)), "no 10 64"),
        one("(*) N:Doe;J", judge_line(&m_with(b"N:Doe;J")), "no 7 39"),
        one("BDAY without colon", judge_line(&m_with(b"BDAY;19531015T231000Z")), "no 41 32"),
    ]
}

/// Document 01's examples for the folder, each a NOTE of so many octets in card M.
pub fn folder_examples() -> Vec<PaperExample> {
    let note = |count: usize| [b"NOTE:".to_vec(), vec![b'a'; count - 5]].concat();
    let a = |count: usize| "a".repeat(count);
    let two_octets = [note(74), "é".as_bytes().to_vec()].concat();
    let cases = [
        ("(*) 75 ASCII octets", note(75), format!("NOTE:{}", a(70))),
        ("(*) 76 ASCII octets", note(76), format!("NOTE:{}\r\n a", a(70))),
        ("(*) 74 and a two-octet character", two_octets, format!("NOTE:{}\r\n é", a(69))),
        ("149 ASCII octets", note(149), format!("NOTE:{}\r\n {}", a(70), a(74))),
        ("150 ASCII octets", note(150), format!("NOTE:{}\r\n {}\r\n a", a(70), a(74))),
    ];
    let mut examples = Vec::new();
    for (name, line, folded_line) in cases {
        let folded = m_with(folded_line.as_bytes());
        let answer = format!("ok {} {}", folded.len(), word_of(&folded));
        examples.push(one(name, room_line("fold", 400, &m_with(&line)), &answer));
    }
    examples
}

/// Document 01's examples for texts.
pub fn text_examples() -> Vec<PaperExample> {
    let unescape = |text: &[u8]| room_line("unescape", 9, text);
    vec![
        one("(*) an escaped comma", unescape(b"a\\,b"), "ok 3 612c62"),
        one("(*) a capital N", unescape(b"\\N"), "ok 1 0a"),
        one("(*) a bare comma", unescape(b"a,b"), "no 30 1"),
    ]
}

/// Document 01's examples for the desk; what slot ticket 3 has is seen in the pool.
pub fn desk_examples() -> Vec<PaperExample> {
    let step = |request: &str, answer: &str| (request.to_string(), answer.to_string());
    let filled = add_line(1, &[b'a'; 16_384]);
    vec![
        PaperExample {
            name: "(*) a fresh desk of 2 slots, two openings with identifier 0",
            steps: vec![
                step("desk 2 32768", "ok 0"),
                step("open 0 0", "ok 1"),
                step("open 0 0", "ok 2"),
                step("release 1", "ok 0"),
                step("open 0 0", "ok 3"),
                step("add 3 0 6162", "ok 2"),
                step("pool 0 3", "616200"),
                step("pool 16383 2", "00a5"),
            ],
        },
        PaperExample {
            name: "octet 16,384 of a session is taken; one more is 23",
            steps: vec![
                step("desk 1 16384", "ok 0"),
                step("open 7 0", "ok 1"),
                (filled, "ok 16384".to_string()),
                step("add 1 0 61", "no 23 16384"),
                step("held 1", "ok 16384"),
            ],
        },
    ]
}
