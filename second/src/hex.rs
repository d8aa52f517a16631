//! Hexadecimal digits, two for each byte, the high half first.

/// The bytes in lower case.
pub fn encode(bytes: &[u8]) -> String {
    let mut digits = Vec::with_capacity(2 * bytes.len());
    append(&mut digits, bytes);
    digits.into_iter().map(char::from).collect()
}

/// The same, behind what is there.
pub fn append(digits: &mut Vec<u8>, bytes: &[u8]) {
    const DIGITS: &[u8; 16] = b"0123456789abcdef";
    digits.reserve(2 * bytes.len());
    for &byte in bytes {
        let halves = [byte >> 4, byte & 15];
        digits.extend_from_slice(&halves.map(|half| DIGITS[usize::from(half)]));
    }
}

/// Puts the bytes of digits of either case behind what is there. None if their
/// number is odd or one is another character; what is put there then is of no
/// use.
pub fn decode(digits: &[u8], bytes: &mut Vec<u8>) -> Option<()> {
    // Block by block, without a way out: nearly always all are digits.
    let (blocks, rest) = digits.as_chunks();
    let mut all = 0;
    for block in blocks {
        let (decoded, values) = decode_block(block);
        bytes.extend_from_slice(&decoded);
        all |= values;
    }
    let mut last = [b'0'; BLOCK];
    last[..rest.len()].copy_from_slice(rest);
    let (decoded, values) = decode_block(&last);
    bytes.extend_from_slice(&decoded[..rest.len() / 2]);
    all |= values;
    (all < NO_DIGIT && digits.len().is_multiple_of(2)).then_some(())
}

/// The digits of a block.
const BLOCK: usize = 32;

/// The bytes of a block, and all its values put together by `or`.
#[inline(always)]
fn decode_block(digits: &[u8; BLOCK]) -> ([u8; BLOCK / 2], u8) {
    let values = digits.map(value);
    let bytes = std::array::from_fn(|i| values[2 * i] << 4 | values[2 * i + 1]);
    (bytes, values.iter().fold(0, |all, value| all | value))
}

/// Above the value of any digit, and of any digits put together by `or`.
const NO_DIGIT: u8 = 0x10;

/// What a character stands for. Letters of either case differ in one bit.
#[inline(always)]
fn value(character: u8) -> u8 {
    let digit = character.wrapping_sub(b'0');
    let letter = (character | 0x20).wrapping_sub(b'a');
    if digit < 10 {
        digit
    } else if letter < 6 {
        10 + letter
    } else {
        NO_DIGIT
    }
}

#[cfg(test)]
mod tests {
    use super::*;

    #[test]
    fn every_byte_is_two_digits() {
        assert_eq!(encode(&[]), "");
        assert_eq!(
            encode(&[0x00, 0x09, 0x0a, 0x90, 0xa0, 0xff]),
            "00090a90a0ff"
        );
        for byte in 0..=255u8 {
            assert_eq!(encode(&[byte]), format!("{byte:02x}"));
        }
    }

    #[test]
    fn digits_of_either_case_are_read() {
        let mut bytes = vec![7];
        assert_eq!(decode(b"00090aA0fFFf", &mut bytes), Some(()));
        assert_eq!(bytes, [0x07, 0x00, 0x09, 0x0a, 0xa0, 0xff, 0xff]);
        assert_eq!(decode(b"", &mut bytes), Some(()));
        assert_eq!(bytes.len(), 7);
    }

    #[test]
    fn an_odd_number_of_digits_is_refused() {
        assert_eq!(decode(b"0", &mut Vec::new()), None);
        assert_eq!(decode(b"000", &mut Vec::new()), None);
    }

    #[test]
    fn any_other_character_is_refused_in_either_place() {
        for byte in 0..=255u8 {
            let good = b"0123456789abcdefABCDEF".contains(&byte);
            assert_eq!(decode(&[byte, b'0'], &mut Vec::new()).is_some(), good);
            assert_eq!(decode(&[b'0', byte], &mut Vec::new()).is_some(), good);
        }
    }

    #[test]
    fn digits_of_every_number() {
        let bytes: Vec<u8> = (0..100).map(|i: u32| (37 * i + 11) as u8).collect();
        let digits = encode(&bytes).into_bytes();
        for count in 0..=digits.len() {
            let mut got = Vec::new();
            let good = decode(&digits[..count], &mut got).is_some();
            assert_eq!(good, count % 2 == 0);
            assert!(!good || got == bytes[..count / 2]);
        }
        for place in 0..digits.len() {
            let mut bad = digits.clone();
            bad[place] = b'g';
            assert_eq!(decode(&bad, &mut Vec::new()), None);
        }
    }
}
