//! "all else is run by a program and compared": how the stored outputs tell
//! bytes that are too many to be printed.

/// The sums are taken modulo this prime, the largest below 2 to the 32.
const PRIME: u64 = 4_294_967_291;

/// The number that the bytes are the digits of, in base 256, modulo the prime.
pub fn sum(bytes: &[u8]) -> u64 {
    bytes
        .iter()
        .fold(0, |sum, &byte| (sum * 256 + u64::from(byte)) % PRIME)
}

#[cfg(test)]
mod tests {
    use super::*;

    #[test]
    fn every_place_counts_by_a_weight_of_its_own_and_zeros_sum_to_0() {
        assert_eq!(sum(&[0; 1_984]), 0);
        assert_eq!(sum(&[1, 2, 3, 4]), 0x0102_0304);
        assert_eq!(sum(&[1, 0, 0, 0, 0]), 5);
        assert_eq!(sum(&[0xFF; 4]), 4);
    }
}
