//! The exchange tallies of a tree, timed beside the quartet table of the tree with itself.

use bench::exchanged::{every_two, exchanged_table, tallied, Tallies};
use bench::straight;

use crate::timing::{in_turns, of_one_shape, MOST_TIPS};

/// The tips of the trees: from 82 on every exchange falls in tally 0.
const TIPS: [usize; 4] = [16, 64, 81, MOST_TIPS];

/// The times of one tree, in microseconds: of the tallies, and of the quartet table.
pub struct ExchangeTimes {
    pub name: &'static str,
    pub tips: usize,
    pub tallies: f64,
    pub quartets: f64,
}

/// The tallies by the straight method, exchange after exchange.
fn straight_tallies(table: &[u16], work: &mut [u8]) -> Tallies {
    let (n, marks) = (table[0], leskwyn::all_kept(table));
    if n >= 82 {
        return [u64::from(n) * (u64::from(n) - 1) / 2, 0, 0, 0, 0, 0, 0, 0, 0, 0, 0];
    }
    let distances = every_two(n).map(|two| {
        let exchanged = exchanged_table(table, two);
        straight::quartet_table(table, &exchanged, marks, work).expect("accepted").distance
    });
    tallied(n, distances)
}

/// The tallies agree before they are timed.
fn timed(name: &'static str, table: &[u16]) -> ExchangeTimes {
    let marks = leskwyn::all_kept(table);
    let cells = leskwyn::work_cells(table, table).expect("an accepted table");
    let [mut lent, mut work] = [0; 2].map(|_| vec![0; cells]);
    let expected = straight_tallies(table, &mut work);
    assert_eq!(leskwyn::exchange_tallies(table, &mut lent), Ok(expected), "{name}");
    let [tallies, quartets] = in_turns(
        || leskwyn::exchange_tallies(table, &mut lent).expect("accepted"),
        || leskwyn::quartet_table(table, table, marks, &mut work).expect("accepted"),
    );
    ExchangeTimes { name, tips: usize::from(table[0]), tallies, quartets }
}

/// Each shape at each size, and a random binary tree with the most pass-through nodes besides.
pub fn measure() -> Vec<ExchangeTimes> {
    of_one_shape(&TIPS).into_iter().map(|(name, [table, _])| timed(name, &table)).collect()
}
