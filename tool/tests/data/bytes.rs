//! Little-endian numbers among bytes.

/// The numbers of 32 bits, one after the other.
pub fn words(words: impl IntoIterator<Item = usize>) -> Vec<u8> {
    words.into_iter().flat_map(|word| u32::try_from(word).expect("a word has 32 bits").to_le_bytes()).collect()
}

/// The bytes with others in place of some.
pub fn patched(bytes: &[u8], at: usize, others: &[u8]) -> Vec<u8> {
    let mut bytes = bytes.to_vec();
    bytes[at..at + others.len()].copy_from_slice(others);
    bytes
}

/// The bytes with another number of 16 bits at a place.
pub fn with_half(bytes: &[u8], at: usize, half: u16) -> Vec<u8> {
    patched(bytes, at, &half.to_le_bytes())
}

/// The bytes with the number of 32 bits at a place raised by one.
pub fn one_more(bytes: &[u8], at: usize) -> Vec<u8> {
    let word = bytes[at..].first_chunk().expect("a word is there");
    with_word(bytes, at, u32::from_le_bytes(*word) as usize + 1)
}

/// The bytes with another number of 32 bits at a place.
pub fn with_word(bytes: &[u8], at: usize, word: usize) -> Vec<u8> {
    patched(bytes, at, &words([word]))
}
