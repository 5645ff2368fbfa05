// Knows lists of chunks: each begins with `begin`, and after every chunk the whole buffer and the end are asked for.

use crate::dice::Dice;
use crate::examples::{version3_examples, CARD_M};
use crate::generator::alternatives::alternatives;
use crate::generator::{grammar, input_by_chance, requests_of, source_inputs};
use crate::hex::{octets_of, word_of};
use crate::refusal::MOST_OCTETS;
use crate::watching::parts;

/// Requests before the first `begin`, and lines that try the words themselves; several are no requests.
const WORDS: [&str; 40] = [
    "end", "chunk 61", "buffer 0 0", "buffer 0 1", "buffer 1 0", "chunk -", "claim 16385", "end", "begin",
    "begin -", "begin 20001", "begin 1 1", "begin 020000", "buffer 0 20000", "buffer 0 20001",
    "buffer 20000 0", "buffer 20001 0", "begin 16384", "end 0", "end ", "buffer 0", "buffer 16383 1",
    "buffer 16384 1", "buffer 16384 0", "buffer 0 16385", "buffer x 1", "chunk", "chunk 6", "chunk 61 61",
    "chunk 4a", "buffer 0 2", "begin x", "begin 16384 ", "buffer 0 2", "claim", "claim x",
    "claim 4294967296", "claim 1", "end", "Chunk 61",
];

/// Lists without end: the words, those by hand, then cuttings by chance.
pub fn watches(seed: u64) -> impl Iterator<Item = Vec<String>> {
    let sources = source_inputs();
    let mut tagged = alternatives(seed).map(|line| last_octets(&line));
    let mut dice = Dice::new(seed);
    let by_chance = std::iter::repeat_with(move || {
        let input = match dice.below(8) {
            0..=2 => tagged.next().expect("without end"),
            3 | 4 => grammar::input(&mut dice),
            5 => dice.pick(&sources).clone(),
            _ => input_by_chance(&mut dice, &sources),
        };
        list_by_chance(&mut dice, &input)
    });
    [WORDS.map(str::to_string).to_vec()].into_iter().chain(by_hand()).chain(by_chance)
}

/// The octets of a request's last word.
fn last_octets(line: &str) -> Vec<u8> {
    octets_of(line.rsplit(' ').next().expect("a word").as_bytes()).expect("octets")
}

/// The chunks on a fresh state; after each the whole buffer and the end.
fn list_of(chunks: &[&[u8]]) -> Vec<String> {
    let mut list = vec![begin(MOST_OCTETS), "end".to_string()];
    list.extend(chunks.iter().flat_map(|octets| looked_at(chunk(octets))));
    list
}

/// The request, and after it the whole buffer and the end.
fn looked_at(request: String) -> [String; 3] {
    [request, format!("buffer 0 {MOST_OCTETS}"), "end".to_string()]
}

fn begin(length: usize) -> String {
    format!("begin {length}")
}

fn chunk(octets: &[u8]) -> String {
    format!("chunk {}", word_of(octets))
}

fn claim(count: usize) -> String {
    format!("claim {count}")
}

/// One octet at a time.
fn octet_by_octet(input: &[u8]) -> Vec<String> {
    list_of(&input.chunks(1).collect::<Vec<&[u8]>>())
}

/// The readings' examples, every example one octet at a time and whole, buffers of other lengths, claims, and the most octets.
pub fn by_hand() -> Vec<Vec<String>> {
    let mut lists = [readings(), lone_breaks(), of_other_lengths(), claims(), long()].concat();
    for input in examples() {
        lists.extend([octet_by_octet(&input), list_of(&[&input]), list_of(&[b"", &input, b""])]);
    }
    lists
}

/// Every example of the documents and the sources, and inputs with one more line.
pub fn examples() -> Vec<Vec<u8>> {
    let requests = requests_of(crate::examples::reader_examples());
    let mut inputs: Vec<Vec<u8>> = requests.iter().map(|line| last_octets(line)).collect();
    inputs.extend(requests_of(crate::examples::folder_examples()).iter().map(|line| last_octets(line)));
    inputs.extend(source_inputs());
    inputs.extend(version3_examples().into_iter().map(|example| example.input));
    inputs.extend(tagged_cards());
    inputs
}

/// Cards with ALTIDs: folded, quoted, empty, missing, on several properties, on later lines, and two cards.
fn tagged_cards() -> Vec<Vec<u8>> {
    let card =
        |lines: &str| format!("BEGIN:VCARD\r\nVERSION:4.0\r\nFN:A\r\n{lines}END:VCARD\r\n").into_bytes();
    let rows = [
        "N;ALTID=\"a,\r\n b\":;;;;\r\nKIND;ALTID=2:x\r\nN;ALTID=\"a,b\":;;;;\r\n",
        "KIND;ALTID=:x\r\nKIND;ALTID=\"\":x\r\nUID:a:b\r\nREV;ALTID=é;ALTID=2:19961022T140000Z\r\n",
        "n;altid=1,2:;;;;\r\nN;ALTID=1:;;;;\r\nBDAY;ALTID=3:19850412\r\nBDAY:19850412\r\n",
        "NOTE;ALTID=1:x\r\nPRODID;ALTID=1:x\r\nGENDER;ALTID=22:M\r\nANNIVERSARY;ALTID=333:--0412\r\n",
        "N;ALTID=1:;;;;\r\nN;ALTID=2:;;;;\r\n",
    ];
    let mut cards: Vec<Vec<u8>> = rows.iter().map(|lines| card(lines)).collect();
    let twice: Vec<Vec<u8>> = cards.iter().map(|one| [one.as_slice(), &cards[0], CARD_M].concat()).collect();
    cards.extend(twice);
    cards
}

/// The chunks of READINGS-02.
fn readings() -> Vec<Vec<String>> {
    let first: [&[u8]; 6] = [
        b"BEGIN:VCARD\r\n", b"V", b"ERSION:4.0\r\nN;ALTID=\"a,\r\n b\":;;;;\r\n", b"K",
        b"IND;ALTID=2:x\r\nFN:A\r\nEND:VCARD\r\n", b"B",
    ];
    vec![
        list_of(&first),
        list_of(&[b"X\x01:\r\n", b"B"]),
        list_of(&[]),
        list_of(&[b""]),
        list_of(&[b"", b"", CARD_M, b""]),
    ]
}

/// A card with each small row of CR, LF, blanks and a letter in it, cut at every octet of that row; each row alone too.
fn lone_breaks() -> Vec<Vec<String>> {
    let rows: [&[u8]; 16] = [
        b"\r", b"\n", b"\r\r", b"\n\r", b"\r\n", b"\n\n", b"\r\n\r", b"\r\n\n", b"\r\n\r\n", b"\r\n ",
        b"\r\n\t\r\n ", b"\r\n \r", b" \r\n", b"\r\na", b"a\r", b"\r \n",
    ];
    let mut lists = Vec::new();
    for row in rows {
        lists.push(octet_by_octet(row));
        for (before, after) in [(26, 26), (30, 30), (31, 32), (32, 32), (43, 43)] {
            let octets: Vec<&[u8]> = row.chunks(1).collect();
            lists.push(list_of(&[&[&CARD_M[..before]], &octets[..], &[&CARD_M[after..]]].concat()));
        }
    }
    lists
}

/// Buffers of other lengths refuse everything and stay.
fn of_other_lengths() -> Vec<Vec<String>> {
    let lengths = [0, 1, 43, 16_383, 16_385, 20_000];
    let list = |length: usize| {
        let look = format!("buffer 0 {length}");
        let mut list = vec![begin(length), "end".to_string(), look.clone()];
        for request in [chunk(CARD_M), chunk(b""), claim(16_385), chunk(b"a"), claim(0)] {
            list.extend([request, look.clone(), "end".to_string()]);
        }
        list
    };
    lengths.map(list).to_vec()
}

/// Claims over 16,384 octets, with and without ALTID values, before the first chunk and after a fault; and the true count again.
fn claims() -> Vec<Vec<String>> {
    let inputs: [&[u8]; 6] = [
        b"",
        b"BEGIN:VCARD\r\n",
        b"BEGIN:VCARD\r\nVERSION:4.0\r\nN;ALTID=abc:;;;;\r\nFN:A",
        b"BEGIN:VCARD\r\nVERSION:4.0\r\nN;ALTID=abc:;;;;\r\nKIND;ALTID=x:y\r\n",
        b"X\x01:\r\nB",
        b"\n",
    ];
    let mut lists = Vec::new();
    for input in inputs {
        let [values, open] = parts(input).map(|part| part.len());
        for count in [16_385 - values, 16_385, 20_000, 65_536 * 256, u32::MAX as usize - 3, u32::MAX as usize]
        {
            let mut list = vec![begin(MOST_OCTETS)];
            list.extend(looked_at(chunk(input)));
            list.extend(looked_at(claim(count)));
            list.extend([chunk(b""), chunk(b"a\r\n"), chunk(CARD_M)].into_iter().flat_map(looked_at));
            list.extend(looked_at(claim(open)));
            list.extend(looked_at(chunk(b":x\r\n")));
            list.extend(looked_at(chunk(b"END:VCARD\r\n")));
            lists.push(list);
        }
    }
    lists.push(vec![
        begin(MOST_OCTETS),
        claim(16_385),
        "end".to_string(),
        chunk(CARD_M),
        format!("buffer 0 {MOST_OCTETS}"),
    ]);
    lists
}

/// Inputs around 16,384 octets: one open line, many lines, one octet too many at the end, before and after faults.
fn long() -> Vec<Vec<String>> {
    let filler = |count: usize| vec![b'a'; count];
    let card = |count: usize| {
        let tagged = "BEGIN:VCARD\r\nVERSION:4.0\r\nFN:A\r\nN;ALTID=abc:;;;;\r\nNOTE:";
        [tagged.as_bytes(), &filler(count - tagged.len() - 13), b"\r\nEND:VCARD\r\n"].concat()
    };
    let lines = b"X:\r\n ".repeat(3_300);
    let mut lists = Vec::new();
    for input in [
        filler(16_383),
        filler(16_384),
        filler(16_385),
        card(16_383),
        card(16_384),
        card(16_385),
        lines,
        filler(40_000),
    ] {
        let near = input.len().min(MOST_OCTETS) - 1;
        for cuts in [vec![], vec![near], vec![near, near + 1], vec![1, 8_192, near], vec![40, 41, 60, near]] {
            lists.push(cut(&input, &cuts));
        }
    }
    let full = filler(16_384);
    lists.push(list_of(&[&full, b"", b"a", b"\n", b"", b"\r\n"]));
    lists.push(list_of(&[b"\x01\r\nX", &full, b"\n"]));
    lists.push(list_of(&[b"\n", &full, &full, b"\r"]));
    lists
}

/// The input cut at these places, which go up; equal ones make an empty chunk.
fn cut(input: &[u8], places: &[usize]) -> Vec<String> {
    let places: Vec<usize> = places.iter().map(|&place| place.min(input.len())).collect();
    let starts = [0].into_iter().chain(places.iter().copied());
    let ends = places.iter().copied().chain([input.len()]);
    let chunks: Vec<&[u8]> = starts.zip(ends).map(|(start, end)| &input[start..end]).collect();
    list_of(&chunks)
}

/// The input cut at some places, mostly near line ends; now and then chunks of one length, or octets after the end has been asked for.
fn list_by_chance(dice: &mut Dice, input: &[u8]) -> Vec<String> {
    if dice.once_in(10) && input.len() < 1_000 {
        let every = dice.between(input.len() / 40 + 1, input.len() / 4 + 2);
        return list_of(&input.chunks(every).collect::<Vec<&[u8]>>());
    }
    let ends: Vec<usize> = (0..input.len()).filter(|&at| b"\r\n".contains(&input[at])).collect();
    let mut places = Vec::new();
    for _ in 0..dice.between(1, 5) {
        let place = match ends.is_empty() || dice.once_in(3) {
            true => dice.below(input.len() + 1),
            false => *dice.pick(&ends) + dice.below(4),
        };
        places.push(place);
        if dice.once_in(8) {
            places.push(place);
        }
    }
    places.sort();
    let mut list = cut(input, &places);
    if dice.once_in(6) {
        let more = *dice.pick(&["\r\n", "\n", "\r", " ", "BEGIN:VCARD\r\n", "a"]);
        list.extend(looked_at(chunk(more.as_bytes())));
    }
    if dice.once_in(12) {
        let count = dice.between(16_385, 20_000);
        list.extend(looked_at(claim(count)));
        list.extend(looked_at(chunk(CARD_M)));
    }
    list
}
