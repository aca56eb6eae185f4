//! Damage: some of 16 neighbouring bits turned, anywhere in a list.

use std::ops::RangeInclusive;

/// Calls `each` with the list in every damage but those excluded.
pub fn each_damage(list: &[u8], mut each: impl FnMut(&[u8])) {
    let mut damaged = list.to_vec();
    let starts = window_starts(0, list.len());
    for start in starts.clone() {
        // Each set of bits once: in the window that starts with it, or in the last one.
        let first_mask = if start < *starts.end() { 0x8000 } else { 1 };
        for mask in first_mask..=0xffff {
            if !excluded(list, start, mask) {
                turn(&mut damaged, start, mask);
                each(&damaged);
                turn(&mut damaged, start, mask);
            }
        }
    }
}

/// Where 16 neighbouring bits may start, counted in bits, most significant first, in the bytes
/// from `first` to `length`. Any damage of at most 16 neighbouring bits is within such a window.
pub fn window_starts(first: usize, length: usize) -> RangeInclusive<usize> {
    8 * first..=8 * length - 16
}

/// The 16 bits from `start` on.
pub fn window(list: &[u8], start: usize) -> u16 {
    let byte = |index| u32::from(*list.get(start / 8 + index).unwrap_or(&0));
    let bits = byte(0) << 16 | byte(1) << 8 | byte(2);
    (bits >> (8 - start % 8)) as u16
}

/// Turns those of the 16 bits from `start` on that are set in `mask`.
pub fn turn(list: &mut [u8], start: usize, mask: u16) {
    let turned = u32::from(mask) << (16 - start % 8);
    for (byte, bits) in list[start / 8..].iter_mut().zip(turned.to_be_bytes()) {
        *byte ^= bits;
    }
}

/// Whether this damage is the one that is excluded: 16 equal bits, all turned.
pub fn excluded(list: &[u8], start: usize, mask: u16) -> bool {
    mask == 0xffff && matches!(window(list, start), 0 | 0xffff)
}
