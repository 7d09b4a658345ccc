//! The canonical copy of a tree cut down to its kept labels.

use leskwyn::raw::{self, CopyAnswer};
use leskwyn::Refusal;

use super::{lend_written, unchanged, MARGIN};
use crate::copied::copied;
use crate::random::Random;

/// Any words copied under any marks into so many cells: the copy, which is handed back, or the number.
pub fn copy_agrees(table: &[u16], marks: &[u8], cells: usize, random: &mut Random) -> Result<Vec<u16>, u16> {
    let expected = copied(table, marks, cells);
    let copy = expected.as_deref().unwrap_or_default();
    let told = (table, "under", marks, "in cells", cells);
    let before = random.words(cells + 2 * MARGIN);
    unchanged(table, |table| {
        unchanged(marks, |marks| {
            let answer = lend_written(before.clone(), copy, &told, |out| {
                // SAFETY: each pointer and length are those of one slice, and `out` overlaps nothing.
                unsafe {
                    raw::leskwyn_canonical_copy(
                        table.as_ptr(),
                        table.len(),
                        marks.as_ptr(),
                        marks.len(),
                        out.as_mut_ptr(),
                        out.len(),
                    )
                }
            });
            let refusal = expected.as_ref().err().copied().unwrap_or(0);
            assert_eq!(answer, CopyAnswer { refusal, words: copy.len() as u16 }, "{told:?}");
            let wrapped = lend_written(before, copy, &told, |out| {
                leskwyn::canonical_copy(table, marks, out).map(<[u16]>::to_vec).map_err(Refusal::number)
            });
            assert_eq!(wrapped, expected, "{told:?}");
        });
    });
    expected
}
