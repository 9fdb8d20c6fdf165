//! The byte product by itself: `mul` of the library's `BitShare`. No auction needs
//! it: it is here to be compared and timed.

#![allow(unsafe_code)]

extern "C" {
    fn clockivy_byte_product(a: u8, b: u8) -> u8;
}

/// The product modulo the polynomial 11Bh.
#[inline]
pub fn byte_product(a: u8, b: u8) -> u8 {
    // SAFETY: it takes any two bytes, reads and writes nothing of its caller's,
    // and always returns.
    unsafe { clockivy_byte_product(a, b) }
}
