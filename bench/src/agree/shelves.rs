//! The nearest tree of a shelf.

use leskwyn::raw::{self, NearestAnswer};
use leskwyn::{Nearest, Refusal};

use super::{lend_written, unchanged, MARGIN};
use crate::nearest::{cells_of, nearest_refusal, tables_of};
use crate::random::Random;

/// Any words with so many cells: the nearest tree, which `found` tells and which is handed back, or the number. The cells
/// of the largest tree of an accepted shelf are 0 afterwards.
pub fn nearest_agrees(
    shelf: &[u16],
    cells: usize,
    found: impl FnOnce() -> Nearest,
    random: &mut Random,
) -> Result<Nearest, u16> {
    let (expected, zeros) = match nearest_refusal(shelf, cells) {
        0 => (Ok(found()), vec![0; cells_of(&tables_of(shelf)?)]),
        number => (Err(number), Vec::new()),
    };
    let told = (shelf, "in cells", cells);
    let before = random.bytes(cells + 2 * MARGIN);
    unchanged(shelf, |shelf| {
        let answer = lend_written(before.clone(), &zeros, &told, |work| {
            // SAFETY: each pointer and length are those of one slice, and the work overlaps nothing.
            unsafe { raw::leskwyn_nearest(shelf.as_ptr(), shelf.len(), work.as_mut_ptr(), work.len()) }
        });
        let refusal = expected.err().unwrap_or(0);
        let (position, sum) = expected.map_or((0, 0), |Nearest { position, sum }| (position, sum));
        assert_eq!(answer, NearestAnswer { refusal, position, sum }, "{told:?}");
        let wrapped = lend_written(before, &zeros, &told, |work| leskwyn::nearest(shelf, work));
        assert_eq!(wrapped.map_err(Refusal::number), expected, "{told:?}");
    });
    expected
}
