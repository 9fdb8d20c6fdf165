//! The bids that are made to meet do so where they are asked to.

use clockivy_checks::meeting::meeting;
use clockivy_checks::outcome::Totals;
use clockivy_checks::rng::Rng;
use clockivy_reference::MAX_AMOUNT;

#[test]
fn totals_meet_where_they_are_asked_to() {
    let mut rng = Rng::new(2005);
    for k in 1..=9 {
        for high in 0..=k {
            for low in 1..=high + 1 {
                for _ in 0..20 {
                    let tables = meeting(&mut rng, k, low, high);
                    let totals = Totals::of(k, tables.iter().map(Vec::as_slice));
                    assert_eq!(totals.highest(), high);
                    assert_eq!(totals.lowest(), (low <= high).then_some(low));
                    assert!(tables.iter().all(|table| is_bid(k, table)));
                }
            }
        }
    }
}

fn is_bid(k: u64, table: &[u64]) -> bool {
    let (demand, supply) = table.split_at(k as usize);
    demand.is_sorted_by(|one, next| one >= next)
        && supply.is_sorted()
        && table.iter().all(|&amount| amount <= MAX_AMOUNT)
}
