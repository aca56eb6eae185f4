//! Every list of few bytes.

use std::ops::RangeInclusive;

/// Calls `each` with every list of these lengths that has all its bytes in `alphabet`.
pub fn each_list(alphabet: &[u8], lengths: RangeInclusive<u32>, mut each: impl FnMut(&[u8])) {
    for length in lengths {
        let mut list = vec![0; length as usize];
        for number in 0..alphabet.len().pow(length) {
            let mut digits = number;
            for byte in &mut list {
                *byte = alphabet[digits % alphabet.len()];
                digits /= alphabet.len();
            }
            each(&list);
        }
    }
}
