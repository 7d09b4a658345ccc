//! The canonical copy of a tree, timed beside the quartet table of the same marks.

use bench::copied::copied;

use crate::timing::{in_turns, of_one_shape, MOST_TIPS};

/// The tips of the trees that are copied.
const TIPS: [usize; 3] = [16, 64, MOST_TIPS];

/// The times of one pair of trees, in microseconds: of the copy of the first, and of the quartet table of both.
pub struct CopyTimes {
    pub name: &'static str,
    pub tips: usize,
    pub copy: f64,
    pub quartets: f64,
}

/// Label 0 is struck, so that the copy hangs from another tip than the tree. The copy agrees with one made from sets of
/// labels before it is timed.
fn timed(name: &'static str, [first, second]: [Vec<u16>; 2]) -> CopyTimes {
    let mut marks = leskwyn::all_kept(&first).to_vec();
    marks[0] = leskwyn::STRUCK;
    let mut cells = vec![0; first.len()];
    let mut work = vec![0; leskwyn::work_cells(&first, &second).expect("accepted tables")];
    let expected = copied(&first, &marks, first.len());
    assert_eq!(leskwyn::canonical_copy(&first, &marks, &mut cells).ok(), expected.as_deref().ok(), "{name}");
    let [copy, quartets] = in_turns(
        || leskwyn::canonical_copy(&first, &marks, &mut cells).expect("accepted").len(),
        || leskwyn::quartet_table(&first, &second, &marks, &mut work).expect("accepted"),
    );
    CopyTimes { name, tips: usize::from(first[0]), copy, quartets }
}

/// Each shape at each size, and a random binary tree with the most pass-through nodes besides.
pub fn measure() -> Vec<CopyTimes> {
    of_one_shape(&TIPS).into_iter().map(|(name, pair)| timed(name, pair)).collect()
}
