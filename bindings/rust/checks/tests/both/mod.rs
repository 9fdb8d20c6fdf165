//! A call made on both implementations, for the tests.

use clockivy_checks::call::Call;
use clockivy_checks::differential::{Difference, Tally};

/// The reply, and the call with all that it left.
pub fn made(call: &Call) -> (u64, Call) {
    match Tally::default().compare(call) {
        Ok(made) => made,
        Err(Difference(what)) => panic!("{what}"),
    }
}

/// The reply alone.
pub fn reply(call: &Call) -> u64 {
    made(call).0
}
