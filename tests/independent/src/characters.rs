// Knows RFC 3629: which octets form characters, and where a row of octets first goes wrong.

/// The first octet of the first ill-formed character, if there is one (READINGS A19).
pub fn first_ill_formed(octets: &[u8]) -> Option<usize> {
    // The standard library takes exactly the well-formed sequences of RFC 3629, section 4;
    // a test below compares it with that section's grammar.
    std::str::from_utf8(octets).err().map(|error| error.valid_up_to())
}

/// The first fault from the left: an ASCII octet that isn't allowed, or an ill-formed character.
pub fn first_fault(octets: &[u8], allowed: fn(u8) -> bool) -> Option<usize> {
    let ill_formed = first_ill_formed(octets);
    let good = &octets[..ill_formed.unwrap_or(octets.len())];
    let not_allowed = good.iter().position(|&octet| octet < 0x80 && !allowed(octet));
    not_allowed.or(ill_formed)
}

#[cfg(test)]
mod tests {
    use super::first_ill_formed;

    /// The length of the character that RFC 3629, section 4 finds at the start, or 0 for none.
    fn character_by_grammar(octets: &[u8]) -> usize {
        let tail = |at: usize| octets.get(at).is_some_and(|octet| (0x80..=0xBF).contains(octet));
        let second = |low: u8, high: u8| octets.get(1).is_some_and(|o| (low..=high).contains(o));
        match octets.first() {
            Some(0x00..=0x7F) => 1,
            Some(0xC2..=0xDF) if tail(1) => 2,
            Some(0xE0) if second(0xA0, 0xBF) && tail(2) => 3,
            Some(0xE1..=0xEC) if tail(1) && tail(2) => 3,
            Some(0xED) if second(0x80, 0x9F) && tail(2) => 3,
            Some(0xEE..=0xEF) if tail(1) && tail(2) => 3,
            Some(0xF0) if second(0x90, 0xBF) && tail(2) && tail(3) => 4,
            Some(0xF1..=0xF3) if tail(1) && tail(2) && tail(3) => 4,
            Some(0xF4) if second(0x80, 0x8F) && tail(2) && tail(3) => 4,
            _ => 0,
        }
    }

    /// The same question as `first_ill_formed`, asked of the grammar.
    fn first_ill_formed_by_grammar(octets: &[u8]) -> Option<usize> {
        let mut at = 0;
        while at < octets.len() {
            match character_by_grammar(&octets[at..]) {
                0 => return Some(at),
                length => at += length,
            }
        }
        None
    }

    #[test]
    fn every_row_of_up_to_three_octets_is_as_the_grammar_says() {
        for a in 0..=255u8 {
            assert_eq!(first_ill_formed(&[a]), first_ill_formed_by_grammar(&[a]));
            for b in 0..=255u8 {
                assert_eq!(first_ill_formed(&[a, b]), first_ill_formed_by_grammar(&[a, b]));
                for c in 0..=255u8 {
                    let row = [a, b, c];
                    assert_eq!(first_ill_formed(&row), first_ill_formed_by_grammar(&row), "{row:?}");
                }
            }
        }
    }

    #[test]
    fn four_octets_at_every_border_are_as_the_grammar_says() {
        let borders = [0x00, 0x41, 0x7F, 0x80, 0x8F, 0x90, 0x9F, 0xA0, 0xBF, 0xC0, 0xFF];
        for a in 0xC0..=255u8 {
            for b in 0..=255u8 {
                for c in borders {
                    for d in borders {
                        let row = [a, b, c, d];
                        assert_eq!(first_ill_formed(&row), first_ill_formed_by_grammar(&row), "{row:?}");
                    }
                }
            }
        }
    }
}
