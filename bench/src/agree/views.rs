//! What a viewer is told: of two trees, and of four labels.

use leskwyn::raw::{self, ViewAnswer};
use leskwyn::{Refusal, View};

use super::{lend_written, told_topology_agrees, unchanged, MARGIN};
use crate::enumerate::{crossings, Tips, Topology, Tree};
use crate::random::Random;
use crate::viewed::{view_refusal, view_topology_refusal, Levels};

/// Zeros beside the number of a refused call.
fn view_answer(expected: Result<View, u16>) -> ViewAnswer {
    let View { visible, a, b, c, d, e, distance, first_splits, second_splits, common_splits, robinson_foulds } =
        expected.unwrap_or_default();
    ViewAnswer {
        refusal: expected.err().unwrap_or(0),
        visible,
        a,
        b,
        c,
        d,
        e,
        distance,
        first_splits,
        second_splits,
        common_splits,
        robinson_foulds,
    }
}

/// Any words with any levels and so many cells: the view, which `viewed` tells and which is handed back, or the number.
/// The cells of an accepted pair are the crossings of visible labels.
pub fn view_agrees(
    [first, second]: [&[u16]; 2],
    levels: &Levels,
    cells: usize,
    viewed: impl FnOnce() -> View,
    random: &mut Random,
) -> Result<View, u16> {
    let (expected, crossings) = match view_refusal(first, second, levels, cells) {
        0 => (Ok(viewed()), crossings(&Tree::of(first), &Tree::of(second), Tips::kept(&levels.marks()))),
        number => (Err(number), Vec::new()),
    };
    let told = (first, "and", second, levels, "in cells", cells);
    let before = random.bytes(cells + 2 * MARGIN);
    let viewer = levels.viewer;
    unchanged(first, |first| {
        unchanged(second, |second| {
            unchanged(&levels.of_labels, |levels| {
                let answer = lend_written(before.clone(), &crossings, &told, |work| {
                    // SAFETY: each pointer and length are those of one slice, and the work overlaps nothing.
                    unsafe {
                        raw::leskwyn_view(
                            first.as_ptr(),
                            first.len(),
                            second.as_ptr(),
                            second.len(),
                            levels.as_ptr(),
                            levels.len(),
                            viewer,
                            work.as_mut_ptr(),
                            work.len(),
                        )
                    }
                });
                assert_eq!(answer, view_answer(expected), "{told:?}");
                let wrapped =
                    lend_written(before, &crossings, &told, |work| leskwyn::view(first, second, levels, viewer, work));
                assert_eq!(wrapped.map_err(Refusal::number), expected, "{told:?}");
            });
        });
    });
    expected
}

/// A viewer's question about any four words of any table: the topology, or the number. Without a tree the table is
/// refused.
pub fn view_topology_agrees(table: &[u16], tree: Option<&Tree>, levels: &Levels, four: [u16; 4]) -> u16 {
    let refusal = view_topology_refusal(table, levels, four);
    let topology = tree.filter(|_| refusal == 0).map_or(Topology::Star, |tree| tree.topology(four));
    let ([a, b, c, d], viewer) = (four, levels.viewer);
    unchanged(table, |table| {
        unchanged(&levels.of_labels, |of_labels| {
            // SAFETY: each pointer and length are those of one slice.
            let answer = unsafe {
                raw::leskwyn_view_topology(
                    table.as_ptr(),
                    table.len(),
                    of_labels.as_ptr(),
                    of_labels.len(),
                    viewer,
                    a,
                    b,
                    c,
                    d,
                )
            };
            let wrapped = leskwyn::view_topology(table, of_labels, viewer, four);
            told_topology_agrees((answer, wrapped), (refusal, topology), &(four, "in", table, levels));
        });
    });
    refusal
}
