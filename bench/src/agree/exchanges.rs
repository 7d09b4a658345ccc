//! Two labels of a tree exchanged: how far every exchange moves it, in tallies, and how far one does.

use leskwyn::raw::{self, ExchangeAnswer, ExchangeDistanceAnswer};
use leskwyn::Refusal;

use super::{lend_written, unchanged, MARGIN};
use crate::enumerate::{label_refusal, pair_refusal};
use crate::exchanged::Tallies;
use crate::random::Random;

/// Any words with so many cells: the tallies, which `tallied` tells and which are handed back, or the number. The cells of
/// an accepted table are those of the table with itself, and 0 afterwards.
pub fn tallies_agree(
    table: &[u16],
    cells: usize,
    tallied: impl FnOnce() -> Tallies,
    random: &mut Random,
) -> Result<Tallies, u16> {
    let (expected, zeros) = match pair_refusal(table, table, cells) {
        0 => (Ok(tallied()), vec![0; (usize::from(table[1]) - 1).pow(2)]),
        number => (Err(number), Vec::new()),
    };
    let told = (table, "in cells", cells);
    let before = random.bytes(cells + 2 * MARGIN);
    unchanged(table, |table| {
        let answer = lend_written(before.clone(), &zeros, &told, |work| {
            // SAFETY: each pointer and length are those of one slice, and the work overlaps nothing.
            unsafe { raw::leskwyn_exchange_tallies(table.as_ptr(), table.len(), work.as_mut_ptr(), work.len()) }
        });
        let refusal = expected.err().unwrap_or(0);
        assert_eq!(answer, ExchangeAnswer { refusal, tallies: expected.unwrap_or_default() }, "{told:?}");
        let wrapped = lend_written(before, &zeros, &told, |work| leskwyn::exchange_tallies(table, work));
        assert_eq!(wrapped.map_err(Refusal::number), expected, "{told:?}");
    });
    expected
}

/// Any two labels of any words: the distance, which `distance` tells and which is handed back, or the number. The order
/// of the labels plays no part.
pub fn exchange_agrees(table: &[u16], [x, y]: [u16; 2], distance: impl FnOnce() -> u64) -> Result<u64, u16> {
    let expected = match label_refusal(table, &[x, y]) {
        0 => Ok(distance()),
        number => Err(number),
    };
    let refusal = expected.err().unwrap_or(0);
    unchanged(table, |table| {
        for (x, y) in [(x, y), (y, x)] {
            // SAFETY: the pointer and the length are those of one slice.
            let answer = unsafe { raw::leskwyn_exchange_distance(table.as_ptr(), table.len(), x, y) };
            let told = (x, "and", y, "of", table);
            assert_eq!(answer, ExchangeDistanceAnswer { refusal, distance: expected.unwrap_or(0) }, "{told:?}");
            assert_eq!(leskwyn::exchange_distance(table, x, y).map_err(Refusal::number), expected, "{told:?}");
        }
    });
    expected
}
