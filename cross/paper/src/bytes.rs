//! Parity and the low seven bits of a byte.

/// "A byte is good if it has an odd number of one bits among its eight."
pub fn good(byte: u8) -> bool {
    byte.count_ones() % 2 == 1
}

/// "Let a and b be the low seven bits of the two bytes."
pub fn low_seven(byte: u8) -> u8 {
    byte & 0x7F
}

/// "A byte is good if it has an odd number of one bits among its eight": the
/// good byte with these low seven bits.
pub fn odd(low: u8) -> u8 {
    if good(low) {
        low
    } else {
        low | 0x80
    }
}

#[cfg(test)]
mod tests {
    use super::*;

    #[test]
    fn every_low_seven_is_found_again_in_its_good_byte() {
        for low in 0..=0x7F {
            assert!(good(odd(low)), "{low:02X}");
            assert_eq!(low_seven(odd(low)), low);
        }
    }

    #[test]
    fn every_byte_is_good_exactly_when_its_ones_counted_one_by_one_are_odd() {
        for byte in 0..=255u8 {
            let ones = (0..8).filter(|bit| byte >> bit & 1 == 1).count();
            assert_eq!(good(byte), ones % 2 == 1, "{byte:02X}");
        }
    }

    #[test]
    fn every_low_seven_has_one_good_byte_and_one_bad_byte() {
        for low in 0..=0x7F {
            assert_ne!(good(low), good(low | 0x80));
            assert_eq!(low_seven(low), low_seven(low | 0x80));
        }
    }
}
