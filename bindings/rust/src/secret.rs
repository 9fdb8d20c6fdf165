//! What is overwritten once it is no longer needed, as far as safe Rust can see to
//! that: what was moved or copied before may have left traces elsewhere.

use std::hint::black_box;
use std::ops::{Deref, DerefMut};

/// Shares, coins or totals, of a fixed length. They are overwritten when dropped.
pub(crate) struct Secret<T: Copy + Default>(Vec<T>);

impl<T: Copy + Default> Secret<T> {
    /// So many of the same.
    pub(crate) fn filled(element: T, length: usize) -> Secret<T> {
        Secret(vec![element; length])
    }
}

impl<T: Copy + Default> From<&[T]> for Secret<T> {
    fn from(elements: &[T]) -> Secret<T> {
        Secret(elements.to_vec())
    }
}

impl<T: Copy + Default> Deref for Secret<T> {
    type Target = [T];

    fn deref(&self) -> &[T] {
        &self.0
    }
}

impl<T: Copy + Default> DerefMut for Secret<T> {
    fn deref_mut(&mut self) -> &mut [T] {
        &mut self.0
    }
}

impl<T: Copy + Default> Drop for Secret<T> {
    fn drop(&mut self) {
        self.0.fill(T::default());
        // Looked at afterwards, so that it is not left out as of no use.
        black_box(&self.0);
    }
}

#[cfg(test)]
mod tests {
    use super::Secret;

    #[test]
    fn a_secret_has_its_elements() {
        let mut secret = Secret::filled(7_u64, 3);
        secret[1] = 9;
        assert_eq!(*secret, [7, 9, 7]);
        assert_eq!(*Secret::from(&[1_u8, 2][..]), [1, 2]);
    }
}
