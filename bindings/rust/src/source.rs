//! Where coins come from: the operating system, or a source of the caller's own.

#![allow(unsafe_code)]

use std::io::{self, ErrorKind};

/// How often something is tried that may fail by chance. To [`Source::below`] a word
/// is of use at least every second time, so that of good words so many are never of
/// no use.
const TRIES: usize = 64;

/// A source of random bits, for [`Entries`](crate::Entries) and
/// [`Dealing`](crate::Dealing). [`System`] is one, and so is every closure that gives
/// an `Option<u64>`.
///
/// It is lent, so that the next bid or sheet goes on from where this one ended. One
/// that repeats itself [gives bids away](crate::callers#four-uses-that-give-bids-away),
/// and nothing here can tell.
pub trait Source {
    /// 64 bits, uniform and independent of all that were drawn before, or `None`
    /// where there are none to be had. Whoever draws is then refused.
    fn bits(&mut self) -> Option<u64>;

    /// A number below `limit`, uniform: of as many bits as such a number may have,
    /// drawn again where it is not below. There is none below 0, none where the
    /// source has none, and none where 64 words in a row were of no use, as those of
    /// a source that is stuck may be.
    ///
    /// ```
    /// use clockivy::{Source, System};
    ///
    /// let die = System.below(6).map(|number| number + 1);
    /// assert!((1..=6).contains(&die.expect("the system has bits")));
    ///
    /// // A source that is stuck is no endless loop.
    /// let mut stuck = || Some(u64::MAX);
    /// assert_eq!((stuck.below(8), stuck.below(6)), (Some(7), None));
    /// ```
    fn below(&mut self, limit: u64) -> Option<u64> {
        let most = limit.checked_sub(1)?;
        let kept = u64::MAX.checked_shr(most.leading_zeros()).unwrap_or(0);
        for _ in 0..TRIES {
            let number = self.bits()? & kept;
            if number < limit {
                return Some(number);
            }
        }
        None
    }
}

impl<F: FnMut() -> Option<u64>> Source for F {
    fn bits(&mut self) -> Option<u64> {
        self()
    }
}

/// The operating system's source, by `getrandom` of Linux's C library. Early after a
/// start of the machine it waits until the system has gathered enough. An interrupted
/// wait is taken up again, but not for ever.
#[derive(Clone, Copy, Debug, Default)]
pub struct System;

impl Source for System {
    fn bits(&mut self) -> Option<u64> {
        let mut bytes = [0; 8];
        for _ in 0..TRIES {
            // SAFETY: it writes at most as many bytes as it is told, behind the pointer.
            let written = unsafe { getrandom(bytes.as_mut_ptr(), bytes.len(), 0) };
            if usize::try_from(written) == Ok(bytes.len()) {
                return Some(u64::from_ne_bytes(bytes));
            }
            if written >= 0 || io::Error::last_os_error().kind() != ErrorKind::Interrupted {
                return None;
            }
        }
        None
    }
}

extern "C" {
    fn getrandom(buffer: *mut u8, length: usize, flags: u32) -> isize;
}
