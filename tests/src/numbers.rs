//! Numbers in groups of seven bits, lowest group first, the high bit set on every group but the last.

/// Why there is no number at a place.
#[derive(Clone, Copy, PartialEq, Eq, Debug)]
pub enum NoNumber {
    CutOff,
    TooLong,
    NotShortest,
}

/// The number at `place`, and the place behind it.
pub fn number_at(bytes: &[u8], place: usize) -> Result<(u64, usize), NoNumber> {
    let mut value: u64 = 0;
    for group in 0..5 {
        let Some(&byte) = bytes.get(place + group) else {
            return Err(NoNumber::CutOff);
        };
        value += u64::from(byte % 128) * 128_u64.pow(group as u32);
        if byte < 128 {
            if byte == 0 && group > 0 {
                return Err(NoNumber::NotShortest);
            }
            if value >= 4_294_967_296 {
                return Err(NoNumber::TooLong);
            }
            return Ok((value, place + group + 1));
        }
    }
    Err(NoNumber::TooLong)
}

/// The signed number that a number stands for: 2n for n of 0 or more, -2n-1 for others.
pub fn signed(raw: u64) -> i64 {
    if raw % 2 == 0 {
        (raw / 2) as i64
    } else {
        -((raw / 2) as i64) - 1
    }
}

/// The number that stands for a signed one.
pub fn unsigned(value: i64) -> u64 {
    if value >= 0 {
        2 * value as u64
    } else {
        (-2 * value - 1) as u64
    }
}

/// Writes a number in its shortest form. Numbers of 2^32 or more get as many groups as they need: damaged sheets want them.
pub fn put(bytes: &mut Vec<u8>, mut value: u64) {
    while value >= 128 {
        bytes.push((value % 128) as u8 + 128);
        value /= 128;
    }
    bytes.push(value as u8);
}

#[cfg(test)]
mod tests {
    use super::*;

    fn written(value: u64) -> Vec<u8> {
        let mut bytes = Vec::new();
        put(&mut bytes, value);
        bytes
    }

    #[test]
    fn examples_of_the_text() {
        assert_eq!(written(127), [0x7f]);
        assert_eq!(written(128), [0x80, 0x01]);
        assert_eq!(written(300), [0xac, 0x02]);
        assert_eq!(written(unsigned(-1)), [0x01]);
        assert_eq!(number_at(&[9, 0xac, 0x02, 9], 1), Ok((300, 3)));
    }

    #[test]
    fn signed_both_ways() {
        for value in [0, 1, -1, 2, -2, 1_048_576, -1_048_576, 2_147_483_647, -2_147_483_648] {
            assert_eq!(signed(unsigned(value)), value);
        }
        assert_eq!(signed(4_294_967_295), -2_147_483_648);
    }

    #[test]
    fn no_number() {
        assert_eq!(number_at(&[], 0), Err(NoNumber::CutOff));
        assert_eq!(number_at(&[0x80], 0), Err(NoNumber::CutOff));
        assert_eq!(number_at(&[0x80, 0x00], 0), Err(NoNumber::NotShortest));
        assert_eq!(number_at(&[0xff, 0xff, 0xff, 0xff, 0x0f], 0), Ok((4_294_967_295, 5)));
        assert_eq!(number_at(&[0x80, 0x80, 0x80, 0x80, 0x10], 0), Err(NoNumber::TooLong));
        assert_eq!(number_at(&[0x80, 0x80, 0x80, 0x80, 0x80, 0x01], 0), Err(NoNumber::TooLong));
    }
}
