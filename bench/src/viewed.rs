//! What a viewer is told of two trees, as docs/SPECIFICATION.md says it: every set of four visible labels, and splits as
//! pairs of sets of visible labels. Whether a label is visible is asked of its level alone.

use leskwyn::View;

use crate::enumerate::{case_of, label_refusal, pair_refusal, split_counts, tree_refusal, Tips, Topology, Tree};
use crate::evidence::every_four;
use crate::pruned;

/// The levels of labels, and the viewer's.
#[derive(Clone, Debug, PartialEq, Eq)]
pub struct Levels {
    pub of_labels: Vec<u8>,
    pub viewer: u16,
}

impl Levels {
    /// Whether the viewer sees a label. One that has no level is not there.
    pub fn shows(&self, label: u16) -> bool {
        self.of_labels.get(usize::from(label)).is_some_and(|&level| u16::from(level) <= self.viewer)
    }

    /// The visible labels in rising order.
    pub fn visible(&self) -> Vec<u16> {
        (0..self.of_labels.len() as u16).filter(|&label| self.shows(label)).collect()
    }

    /// The marks that keep the visible labels.
    pub fn marks(&self) -> Vec<u8> {
        (0..self.of_labels.len() as u16).map(|label| u8::from(self.shows(label))).collect()
    }

    /// Whether there is a level of 0 to 3 for each label of an accepted table, and for the viewer.
    fn fit(&self, table: &[u16]) -> bool {
        let is_level = |level: u16| level <= 3;
        self.of_labels.len() == usize::from(table[0])
            && self.of_labels.iter().all(|&level| is_level(level.into()))
            && is_level(self.viewer)
    }
}

/// The number of a pair with levels and so many work cells, 0 for accepted.
pub fn view_refusal(first: &[u16], second: &[u16], levels: &Levels, cells: usize) -> u16 {
    match pair_refusal(first, second, usize::MAX) {
        0 if !levels.fit(first) => 37,
        0 => pair_refusal(first, second, cells),
        number => number,
    }
}

/// The number of a viewer's question about four labels, 0 for accepted.
pub fn view_topology_refusal(table: &[u16], levels: &Levels, four: [u16; 4]) -> u16 {
    match tree_refusal(table) {
        0 if !levels.fit(table) => 37,
        0 if !four.into_iter().all(|label| levels.shows(label)) => 10,
        _ => label_refusal(table, &four),
    }
}

/// Every four of some labels, in their order.
pub fn every_four_of(labels: &[u16]) -> impl Iterator<Item = [u16; 4]> + '_ {
    every_four(labels.len() as u16).map(move |four| four.map(|place| labels[usize::from(place)]))
}

/// The five cases, set of four by set of four: two butterflies are the same if the smallest label has the same partner.
fn cases(first: &Tree, second: &Tree, visible: &[u16]) -> [u64; 5] {
    let partner = |tree: &Tree, four: [u16; 4]| match tree.topology(four) {
        Topology::Butterfly(partner) => Some(partner),
        Topology::Star => None,
    };
    let mut counts = [0; 5];
    every_four_of(visible).for_each(|four| counts[case_of(partner(first, four), partner(second, four))] += 1);
    counts
}

/// The view of two accepted tables with these cases.
fn view_of(first: &Tree, second: &Tree, levels: &Levels, [a, b, c, d, e]: [u64; 5]) -> View {
    let [first_splits, second_splits, common_splits, robinson_foulds] =
        split_counts(first, second, Tips::kept(&levels.marks()));
    let (visible, distance) = (levels.visible().len() as u64, b + c + d);
    View { visible, a, b, c, d, e, distance, first_splits, second_splits, common_splits, robinson_foulds }
}

/// The view of two accepted tables.
pub fn view(first: &[u16], second: &[u16], levels: &Levels) -> View {
    let (ours, theirs) = (Tree::of(first), Tree::of(second));
    view_of(&ours, &theirs, levels, cases(&ours, &theirs, &levels.visible()))
}

/// The same, with the cases by the O(n^3) method from the trees without hidden tips.
pub fn view_by_pruning(first: &[u16], second: &[u16], levels: &Levels) -> View {
    let cases = pruned::cases(first, second, &levels.marks());
    view_of(&Tree::of(first), &Tree::of(second), levels, cases)
}

#[cfg(test)]
mod tests {
    use super::*;
    use crate::reference::{P, Q, R, X};

    fn levels(of_labels: &[u8], viewer: u16) -> Levels {
        Levels { of_labels: of_labels.to_vec(), viewer }
    }

    #[test]
    fn of_labels() {
        let mixed = levels(&[0, 3, 2, 1], 1);
        assert_eq!((mixed.visible(), mixed.marks()), (vec![0, 3], vec![1, 0, 0, 1]));
        assert_eq!([4, 256, X].map(|label| mixed.shows(label)), [false; 3]);
        assert_eq!(levels(&[0, 3, 2, 1], 3).visible(), [0, 1, 2, 3]);
        assert_eq!(every_four_of(&[2, 5, 6, 7]).collect::<Vec<_>>(), [[2, 5, 6, 7]]);
    }

    /// Without label 1 P is (0,2,(3,4)) and Q a star. Without 3 P is (0,1,(2,4)) and R is (0,2,(1,4)).
    #[test]
    fn of_p_and_others() {
        let zeros = View { visible: 4, ..View::default() };
        let without_1 = View { c: 1, distance: 1, first_splits: 1, robinson_foulds: 1, ..zeros };
        let without_3 = View { b: 1, distance: 1, first_splits: 1, second_splits: 1, robinson_foulds: 2, ..zeros };
        for (second, levels, expected) in
            [(Q, levels(&[1, 2, 0, 1, 0], 1), without_1), (R, levels(&[0, 0, 0, 3, 0], 0), without_3)]
        {
            assert_eq!(view(P, second, &levels), expected);
            assert_eq!(view_by_pruning(P, second, &levels), expected);
        }
    }

    #[test]
    fn of_numbers() {
        let (seen, high) = (levels(&[3, 0, 0, 0, 0], 2), levels(&[0; 5], 4));
        assert_eq!([41, 42].map(|cells| view_refusal(P, Q, &seen, cells)), [9, 0]);
        assert_eq!(view_refusal(P, Q, &high, 0), 37);
        assert_eq!(view_refusal(P, &[5], &high, 0), 101);
        let fours = [[0, 0, 1, 2], [1, 1, 2, 5], [1, 1, 2, 3], [4, 3, 2, 1]];
        assert_eq!(fours.map(|four| view_topology_refusal(P, &seen, four)), [10, 10, 11, 0]);
        assert_eq!(view_topology_refusal(P, &high, [0; 4]), 37);
        assert_eq!(view_topology_refusal(&P[..3], &high, [0; 4]), 4);
    }
}
