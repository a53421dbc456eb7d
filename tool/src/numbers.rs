//! Numbers and bytes as a person writes them.

/// A number of at most 64 bits: decimal, or hexadecimal after 0x, with _ between digits where it helps.
pub fn number(word: &[u8]) -> Option<u64> {
    let (digits, radix) = match word.strip_prefix(b"0x") {
        Some(digits) => (digits, 16),
        None => (word, 10),
    };
    let [first, .., last] = digits else {
        return digits.first().and_then(|&digit| value(digit, radix));
    };
    if *first == b'_' || *last == b'_' {
        return None;
    }
    digits
        .iter()
        .filter(|&&digit| digit != b'_')
        .try_fold(0_u64, |sum, &digit| sum.checked_mul(radix.into())?.checked_add(value(digit, radix)?))
}

/// Bytes as pairs of hexadecimal digits, at least one pair.
pub fn bytes(word: &[u8]) -> Option<Vec<u8>> {
    if word.is_empty() || !word.len().is_multiple_of(2) {
        return None;
    }
    let pair = |pair: &[u8]| Some((value(pair[0], 16)? * 16 + value(pair[1], 16)?) as u8);
    word.chunks(2).map(pair).collect()
}

fn value(digit: u8, radix: u32) -> Option<u64> {
    char::from(digit).to_digit(radix).map(u64::from)
}

#[cfg(test)]
mod tests {
    use super::{bytes, number};

    #[test]
    fn numbers() {
        assert_eq!(number(b"0x0300_0100_1004"), Some(0x0300_0100_1004));
        assert_eq!(number(b"18446744073709551615"), Some(u64::MAX));
        assert_eq!(number(b"0xffff_ffff_ffff_ffff"), Some(u64::MAX));
        assert_eq!((number(b"7"), number(b"0x7")), (Some(7), Some(7)));
        for wrong in ["", "0x", "18446744073709551616", "0x1_0000_0000_0000_0000", "_1", "1_", "0x_1", "_", "1f", "-1", "+1", "0X1"] {
            assert_eq!(number(wrong.as_bytes()), None, "{wrong}");
        }
    }

    #[test]
    fn pairs_of_digits() {
        assert_eq!(bytes(b"00fF7a"), Some(vec![0, 255, 0x7a]));
        for wrong in ["", "1", "123", "0x12", "zz", "+1"] {
            assert_eq!(bytes(wrong.as_bytes()), None, "{wrong}");
        }
    }
}
