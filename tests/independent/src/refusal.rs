// Knows the form of a refusal, and the size to which inputs, texts, forms and sessions are held.

/// The most octets that an input, a text, a folded or escaped form and a session may have.
pub const MOST_OCTETS: usize = 16_384;

/// A number of document 01's table with the place P that goes with it.
#[derive(Clone, Copy, Debug, PartialEq, Eq)]
pub struct Refusal {
    pub number: u32,
    pub place: usize,
}

/// The refusal with this number and place, as an answer of any sort.
pub fn refuse<T>(number: u32, place: usize) -> Result<T, Refusal> {
    Err(Refusal { number, place })
}
