//! The calls about one label: the sets of four that hold it, its mark changed, and a table re-rooted at its tip.

use leskwyn::raw::{self, FiveAnswer};
use leskwyn::{FiveCounts, Refusal, Wish};

use super::{lend, lend_written, number, unchanged, MARGIN};
use crate::one_label::{Change, OneLabel};
use crate::random::Random;
use crate::rerooted::{self, rerooted};

/// Zeros beside the number of a refused call.
fn five_answer(expected: Result<[u64; 5], u16>) -> FiveAnswer {
    let [a, b, c, d, e] = expected.unwrap_or_default();
    FiveAnswer { refusal: expected.err().unwrap_or(0), a, b, c, d, e }
}

/// What a wrapper answers, as it is expected.
fn plain(answer: Result<FiveCounts, Refusal>) -> Result<[u64; 5], u16> {
    answer.map(|FiveCounts { a, b, c, d, e }| [a, b, c, d, e]).map_err(Refusal::number)
}

/// The sets of four that hold a label, which `held` tells and which are handed back, or the number.
pub fn holding_agrees(asked: &OneLabel, held: impl FnOnce() -> [u64; 5]) -> Result<[u64; 5], u16> {
    let OneLabel { first, second, marks, label } = *asked;
    let expected = match asked.refusal() {
        0 => Ok(held()),
        number => Err(number),
    };
    let answer = unchanged(first, |first| {
        unchanged(second, |second| {
            unchanged(marks, |marks| {
                // SAFETY: each pointer and length are those of one slice.
                unsafe {
                    raw::leskwyn_holding(
                        first.as_ptr(),
                        first.len(),
                        second.as_ptr(),
                        second.len(),
                        marks.as_ptr(),
                        marks.len(),
                        label,
                    )
                }
            })
        })
    });
    assert_eq!(answer, five_answer(expected), "{asked:?}");
    assert_eq!(plain(leskwyn::holding(first, second, marks, label)), expected, "{asked:?}");
    expected
}

/// A label's mark changed: the counts, which are handed back, or the number; and every mark. `held` tells the sets of
/// four that hold the label.
pub fn change_agrees(change: &Change, held: impl FnOnce() -> [u64; 5], random: &mut Random) -> Result<[u64; 5], u16> {
    let Change { asked: OneLabel { first, second, marks, label }, counts: [a, b, c, d, e], mark } = *change;
    let expected = change.answer(held);
    let marks_after = if expected.is_ok() { change.new_marks() } else { marks.to_vec() };
    let before = [random.bytes(MARGIN), marks.to_vec(), random.bytes(MARGIN)].concat();
    let (answer, _, after) = unchanged(first, |first| {
        unchanged(second, |second| {
            lend(before.clone(), |marks| {
                // SAFETY: each pointer and length are those of one slice, and the marks overlap nothing.
                unsafe {
                    raw::leskwyn_change_mark(
                        first.as_ptr(),
                        first.len(),
                        second.as_ptr(),
                        second.len(),
                        marks.as_mut_ptr(),
                        marks.len(),
                        a,
                        b,
                        c,
                        d,
                        e,
                        label,
                        mark,
                    )
                }
            })
        })
    });
    assert_eq!(answer, five_answer(expected), "{change:?}");
    assert_eq!(after, marks_after, "the marks of {change:?}");
    let wish = [Wish::Strike, Wish::Restore].into_iter().find(|wish| u16::from(wish.mark()) == mark);
    if let Some(wish) = wish {
        let counts = FiveCounts { a, b, c, d, e };
        let (wrapped, _, after) =
            lend(before, |marks| plain(leskwyn::change_mark(first, second, marks, counts, label, wish)));
        assert_eq!((wrapped, after), (expected, marks_after), "{change:?}, {wish:?}");
    }
    expected
}

/// A table of any words re-rooted into so many cells: the new table, which is handed back, or the number.
pub fn reroot_agrees(table: &[u16], label: u16, cells: usize, random: &mut Random) -> Result<Vec<u16>, u16> {
    let refusal = rerooted::refusal(table, label, cells);
    let expected = if refusal == 0 { rerooted(table, label) } else { Vec::new() };
    let mut agrees = |call: &dyn Fn(&mut [u16]) -> u16| {
        let told = (table, "re-rooted at", label, "in cells", cells);
        let before = random.words(cells + 2 * MARGIN);
        let answer = unchanged(table, |_| lend_written(before, &expected, &told, call));
        assert_eq!(answer, refusal, "{told:?}");
    };
    agrees(&|out| {
        // SAFETY: each pointer and length are those of one slice, and `out` overlaps nothing.
        unsafe { raw::leskwyn_reroot(table.as_ptr(), table.len(), label, out.as_mut_ptr(), out.len()) }
    });
    agrees(&|out| number(&leskwyn::reroot(table, label, out)));
    match refusal {
        0 => Ok(expected),
        number => Err(number),
    }
}
