//! For the checks and the tests of the other crates: parties with bids and sheets, from
//! coins that can be had again; tables to bid; every choice of who was present; and the
//! ways in which a hearing is refused.

#![forbid(unsafe_code)]

mod hearings;
mod panel;
mod tables;

pub use clockivy::words::place;
pub use hearings::{choices, count, refused, Hearing};
pub use panel::{
    collected, fixed, from_all, from_marked, go_on_until, message_len, panel, parts, plain_round,
    record, reply, round, said, seat, sheets, stored, Bid, Plain, WAY, WAYS,
};
pub use tables::{meeting, tables};
