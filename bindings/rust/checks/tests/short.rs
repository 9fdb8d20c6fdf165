//! A short comparison, for `cargo test`. The long one is the program
//! `differential`.

use clockivy_checks::differential::{run, Difference, Tally};

#[test]
fn a_short_comparison() {
    let mut tally = Tally::default();
    if let Err(Difference(what)) = run(1991, &[2, 5], 500_000, &mut tally) {
        panic!("{what}");
    }
    assert_eq!(tally.unreached(), []);
    assert_eq!(tally.unexpected(), []);
    assert_eq!(tally.unmet(), []);
    assert_eq!(tally.unpaired(), []);
    assert_eq!(tally.unheard(), []);
    assert_eq!(tally.unopened(), [""; 0]);
    assert_eq!(tally.unsettled(), [""; 0]);
    assert_eq!(tally.unended(), [""; 0]);
    assert_eq!(tally.byte_products(), 256 * 256);
    let auctions = 2 * 7 * 2 + (4 + 7 + 11 + 16 + 22) + 1;
    assert_eq!(tally.auctions(), 2 * auctions);
}
