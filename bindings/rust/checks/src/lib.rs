//! The verified library held against the plain reference: that they do the
//! same on every input (`differential`), and at what speed (`benchmark`).

#![forbid(unsafe_code)]

pub mod attendance;
pub mod auction;
pub mod call;
pub mod damage;
pub mod differential;
pub mod engine;
pub mod formatted;
pub mod generate;
pub mod levels;
pub mod meeting;
pub mod opened;
pub mod outcome;
pub mod page;
pub mod presence;
pub mod record;
pub mod rng;
pub mod soundness;
