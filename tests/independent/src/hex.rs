// Knows how octets are written on the console: pairs of hexadecimal digits, or `-` for none.

const DIGITS: &[u8; 16] = b"0123456789abcdef";

/// The octets as a word, in lower case.
pub fn word_of(octets: &[u8]) -> String {
    if octets.is_empty() {
        return "-".to_string();
    }
    let mut word = String::with_capacity(2 * octets.len());
    for octet in octets {
        word.push(char::from(DIGITS[usize::from(octet >> 4)]));
        word.push(char::from(DIGITS[usize::from(octet & 15)]));
    }
    word
}

/// The octets of a word in any case, or nothing if it is no such word.
pub fn octets_of(word: &[u8]) -> Option<Vec<u8>> {
    if word == b"-" {
        return Some(Vec::new());
    }
    if word.is_empty() || word.len() % 2 == 1 {
        return None;
    }
    word.chunks(2).map(|pair| Some(digit(pair[0])? * 16 + digit(pair[1])?)).collect()
}

/// The value of one hexadecimal digit.
fn digit(octet: u8) -> Option<u8> {
    match octet {
        b'0'..=b'9' => Some(octet - b'0'),
        b'a'..=b'f' => Some(octet - b'a' + 10),
        b'A'..=b'F' => Some(octet - b'A' + 10),
        _ => None,
    }
}
