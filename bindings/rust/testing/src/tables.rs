//! Tables to bid: all small ones, and such as meet where they are asked to.

/// All lists of `length` numbers from 0 to `most` that never fall.
fn rising(length: u64, most: u64) -> Vec<Vec<u64>> {
    if length == 0 {
        return vec![Vec::new()];
    }
    let longer = |list: Vec<u64>| {
        let least = list.last().copied().unwrap_or(0);
        (least..=most).map(move |last| [&list[..], &[last]].concat())
    };
    let shorter = rising(length - 1, most);
    shorter.into_iter().flat_map(longer).collect()
}

/// All tables of `k` prices and amounts from 0 to `most`.
pub fn tables(k: u64, most: u64) -> Vec<Vec<u64>> {
    let mut tables = Vec::new();
    for mut demand in rising(k, most) {
        demand.reverse();
        for supply in rising(k, most) {
            tables.push([&demand[..], &supply].concat());
        }
    }
    tables
}

/// A table whose demand equals its supply at indices `low` to `high` of `k` and nowhere
/// else, or nowhere, where `low` is `high` + 1.
pub fn meeting(k: u64, low: u64, high: u64) -> Vec<u64> {
    let demand = (1..=k).map(|index| match index {
        _ if index < low => 5,
        _ if index <= high => 4,
        _ => 3,
    });
    demand.chain((1..=k).map(|_| 4)).collect()
}

#[cfg(test)]
mod tests {
    use super::tables;

    #[test]
    fn every_small_table_comes_up_once() {
        assert_eq!(tables(1, 1), [[0, 0], [0, 1], [1, 0], [1, 1]]);
        let mut all = tables(3, 2);
        let falls = |table: &[u64]| table[..3].is_sorted_by(|one, next| one >= next);
        assert!(all
            .iter()
            .all(|table| falls(table) && table[3..].is_sorted()));
        all.sort();
        all.dedup();
        assert_eq!(all.len(), 10 * 10);
    }
}
