// Knows that this program answers every example of document 01, marked (*) or not, as the paper says.

mod common;

use common::folded;
use independent::console::Console;
use independent::examples::{desk_examples, folder_examples, reader_examples, text_examples};
use independent::examples::{m_with, CARD_M};

#[test]
fn every_example_is_answered_as_the_paper_says() {
    let examples = [reader_examples(), folder_examples(), text_examples(), desk_examples()].concat();
    assert_eq!(examples.len(), 21);
    for example in examples {
        let mut console = Console::default();
        for (request, answer) in example.steps {
            assert_eq!(console.answer(request.as_bytes()), answer, "{}: {request}", example.name);
        }
    }
}

#[test]
fn the_sizes_that_the_paper_names() {
    assert_eq!(CARD_M.len(), 43);
    let folded_m = [&CARD_M[..29], b"\r\n ", &CARD_M[29..]].concat();
    assert_eq!(folded_m.len(), 46);
    // 76 ASCII octets give 81 with the final CR LF, so the card grows by 3 beside them.
    let line = format!("NOTE:{}", "a".repeat(71));
    assert_eq!(line.len(), 76);
    let form = folded(&m_with(line.as_bytes()), 200).expect("room enough");
    assert_eq!(form.len() - CARD_M.len(), 81);
}

#[test]
fn numbers_of_physical_lines() {
    let physical_lines = |octets: usize| {
        let line = format!("NOTE:{}", "a".repeat(octets - 5));
        let form = folded(&m_with(line.as_bytes()), 400).expect("room enough");
        form.split(|&octet| octet == b'\n').count() - 5
    };
    assert_eq!([75, 76, 149, 150, 223, 224].map(physical_lines), [1, 2, 2, 3, 3, 4]);
}
