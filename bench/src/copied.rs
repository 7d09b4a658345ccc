//! The canonical copy of a tree cut down to its kept labels, made from sets of labels alone, as docs/SPECIFICATION.md
//! says it. No node of the table has a part in it.

use std::collections::BTreeSet;

use crate::enumerate::{are_marks, tree_refusal, Tree};
use crate::reference::X;

/// The kept labels in rising order, each at its rank.
pub fn kept_labels(marks: &[u8]) -> Vec<u16> {
    (0..).zip(marks).filter(|&(_, &mark)| mark == 1).map(|(label, _)| label).collect()
}

/// A set of labels by rank, in rising order.
pub type Cluster = Vec<u16>;

/// The clusters of an accepted table with two kept labels or more: of each edge the kept labels on the side that has not
/// the smallest of them, unless there are none.
pub fn clusters(table: &[u16], marks: &[u8]) -> BTreeSet<Cluster> {
    let (kept, tree) = (kept_labels(marks), Tree::of(table));
    let far_side = |edge: u16| -> Cluster {
        let beyond = tree.labels_beyond(edge);
        let is_beyond = |label: u16| beyond.binary_search(&label).is_ok();
        let is_far = |rank: &u16| is_beyond(kept[usize::from(*rank)]) != is_beyond(kept[0]);
        (0..kept.len() as u16).filter(is_far).collect()
    };
    (1..table[1]).map(far_side).filter(|cluster| !cluster.is_empty()).collect()
}

/// The words of the tree whose clusters these are.
///
/// Each cluster is a node, and the larger ones that hold its smallest label hold all of it. The smallest labels of these,
/// from the largest set down to the cluster itself, tell its place: a set comes before all that it holds, and of two sets
/// side by side the one with the smaller label comes first, with all that it holds.
pub fn table_of(clusters: &BTreeSet<Cluster>) -> Vec<u16> {
    let holds = |outer: &Cluster, inner: &Cluster| outer.len() >= inner.len() && outer.binary_search(&inner[0]).is_ok();
    let place = |cluster: &Cluster| -> Vec<u16> {
        let mut around: Vec<&Cluster> = clusters.iter().filter(|outer| holds(outer, cluster)).collect();
        around.sort_by_key(|outer| usize::MAX - outer.len());
        around.iter().map(|outer| outer[0]).collect()
    };
    let mut nodes: Vec<&Cluster> = clusters.iter().collect();
    nodes.sort_by_cached_key(|cluster| place(cluster));
    // Node 0 is the tip of rank 0, which is in no cluster.
    let above = |at: usize| nodes[..at].iter().rposition(|outer| holds(outer, nodes[at])).map_or(0, |above| above + 1);
    let label = |cluster: &&Cluster| if cluster.len() == 1 { cluster[0] } else { X };
    let tips = 1 + nodes.iter().filter(|cluster| cluster.len() == 1).count();
    let parents = (0..nodes.len()).map(|at| above(at) as u16);
    let head = [tips as u16, 1 + nodes.len() as u16];
    head.into_iter().chain([0]).chain(parents).chain([0]).chain(nodes.iter().map(label)).collect()
}

/// The copy, or the number of a table, its marks and so many cells.
pub fn copied(table: &[u16], marks: &[u8], cells: usize) -> Result<Vec<u16>, u16> {
    match tree_refusal(table) {
        0 if !are_marks(table, marks) => Err(32),
        0 if kept_labels(marks).len() < 2 => Err(35),
        0 => Some(table_of(&clusters(table, marks))).filter(|copy| copy.len() <= cells).ok_or(36),
        number => Err(number),
    }
}

#[cfg(test)]
mod tests {
    use super::*;
    use crate::pass_through::pass_through_nodes;
    use crate::reference::{P, Q, TABLES, TWO, W};

    #[test]
    fn of_p_and_q() {
        let sets = |sets: &[&[u16]]| sets.iter().map(|set| set.to_vec()).collect::<BTreeSet<Cluster>>();
        assert_eq!(clusters(P, &[1; 5]), sets(&[&[1, 2, 3, 4], &[1], &[2, 3, 4], &[2], &[3, 4], &[3], &[4]]));
        assert_eq!(clusters(Q, &[1, 1, 0, 1, 1]), sets(&[&[1, 2, 3], &[1], &[2, 3], &[2], &[3]]));
        // Beyond tip 1 lie 2 and (3,4) where 0 is struck.
        assert_eq!(clusters(P, &[0, 1, 1, 1, 1]), sets(&[&[1, 2, 3], &[1], &[2, 3], &[2], &[3]]));
        assert_eq!(copied(P, &[0, 1, 1, 1, 1], 14), Ok(vec![4, 6, 0, 0, 1, 1, 3, 3, 0, X, 1, X, 2, 3]));
        assert_eq!(copied(P, &[0, 1, 1, 1, 1], 13), Err(36));
        assert_eq!(copied(W, &[1, 0, 1, 0, 0], 6).as_deref(), Ok(TWO));
        assert_eq!(copied(P, &[0, 0, 0, 1, 1], 6).as_deref(), Ok(TWO));
        assert_eq!([copied(P, &[0, 0, 0, 1, 0], 6), copied(P, &[0, 0, 0, 2, 0], 6)], [Err(35), Err(32)]);
    }

    /// Below tip 0 ((2,3),(5,1),4): tip 5 hangs beside tip 1 and comes before tip 2.
    #[test]
    fn of_sets_side_by_side() {
        let table = [6, 9, 0, 0, 1, 2, 2, 1, 5, 5, 1, 0, X, X, 2, 3, X, 5, 1, 4];
        let copy = [6, 9, 0, 0, 1, 2, 2, 1, 5, 5, 1, 0, X, X, 1, 5, X, 2, 3, 4];
        assert_eq!(copied(&table, &[1; 6], 20), Ok(copy.to_vec()));
    }

    /// A table under the original rules, with the same clusters.
    #[test]
    fn of_reference_tables() {
        for table in TABLES {
            let n = usize::from(table[0]);
            let copy = copied(table, &vec![1; n], usize::MAX).expect("accepted");
            assert_eq!((tree_refusal(&copy), usize::from(copy[0])), (0, n));
            assert!(usize::from(copy[1]) <= 2 * n - 2 && pass_through_nodes(&copy).is_empty());
            assert_eq!(clusters(&copy, &vec![1; n]), clusters(table, &vec![1; n]));
        }
    }
}
