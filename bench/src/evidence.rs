//! The evidence for four labels of two trees, searched for as its definition says: every edge and every node is looked
//! at, and paths come from climbing to node 0.

use std::iter::successors;

use leskwyn::{Case, Evidence, Witness};

use crate::enumerate::{label_refusal, pair_refusal, tree_refusal};

/// The number of a question about four labels of two tables, 0 for accepted. No work is lent, so 9 is not asked.
pub fn refusal(first: &[u16], second: &[u16], four: [u16; 4]) -> u16 {
    match pair_refusal(first, second, usize::MAX) {
        0 => label_refusal(first, &four),
        number => number,
    }
}

/// The climbs of an accepted table: for each label its node and those above it, up to node 0.
pub struct Climbs {
    nodes: u16,
    of_label: Vec<Vec<u16>>,
}

impl Climbs {
    pub fn of(table: &[u16]) -> Climbs {
        assert_eq!(tree_refusal(table), 0);
        let (n, m) = (table[0], table[1]);
        let (parents, labels) = table[2..].split_at(usize::from(m));
        let above = |&node: &u16| (node != 0).then(|| parents[usize::from(node)]);
        let node_of = |label: u16| (0..m).find(|&node| labels[usize::from(node)] == label);
        Climbs { nodes: m, of_label: (0..n).map(|label| successors(node_of(label), above).collect()).collect() }
    }

    fn climb(&self, label: u16) -> &[u16] {
        &self.of_label[usize::from(label)]
    }

    /// Whether a label lies beyond an edge: its climb comes through the edge's lower end.
    fn is_beyond(&self, edge: u16, label: u16) -> bool {
        self.climb(label).contains(&edge)
    }

    /// The edges with two of the labels on each side, in rising order.
    fn parting_edges(&self, four: [u16; 4]) -> Vec<u16> {
        let beyond = |edge: u16| four.iter().filter(|&&label| self.is_beyond(edge, label)).count();
        (1..self.nodes).filter(|&edge| beyond(edge) == 2).collect()
    }

    /// The label on the smallest one's side of an edge that parts the four.
    fn partner(&self, edge: u16, four: [u16; 4]) -> Option<u16> {
        let smallest = *four.iter().min()?;
        let with_smallest = |label: u16| self.is_beyond(edge, label) == self.is_beyond(edge, smallest);
        four.into_iter().find(|&label| label != smallest && with_smallest(label))
    }

    /// The nodes of the path between two labels: each climbs to the first node that both come through.
    fn path(&self, a: u16, b: u16) -> Vec<u16> {
        let (ours, theirs) = (self.climb(a), self.climb(b));
        let apart = |climb: &[u16], other: &[u16]| climb.iter().take_while(|node| !other.contains(node)).count();
        [&ours[..=apart(ours, theirs)], &theirs[..apart(theirs, ours)]].concat()
    }

    /// The nodes on all paths between two of the labels.
    fn meeting_nodes(&self, [a, b, c, d]: [u16; 4]) -> Vec<u16> {
        let paths = [(a, b), (a, c), (a, d), (b, c), (b, d), (c, d)].map(|(x, y)| self.path(x, y));
        (0..self.nodes).filter(|node| paths.iter().all(|path| path.contains(node))).collect()
    }

    /// The smallest label's partner, if an edge parts the four, and what shows it. There is an edge or else one node.
    fn shown(&self, four: [u16; 4]) -> (Option<u16>, Witness) {
        match (&self.parting_edges(four)[..], &self.meeting_nodes(four)[..]) {
            (&[lowest, ref others @ ..], []) => {
                let partner = self.partner(lowest, four);
                assert!(others.iter().all(|&edge| self.partner(edge, four) == partner), "{four:?} parted in one way");
                (partner, Witness::Edge(lowest))
            }
            ([], &[node]) => (None, Witness::Meet(node)),
            (edges, nodes) => panic!("{four:?} are parted by {edges:?} and meet at {nodes:?}"),
        }
    }
}

/// The evidence for four different labels of two tables with the same tips.
pub fn evidence(first: &Climbs, second: &Climbs, four: [u16; 4]) -> Evidence {
    let ((ours, first), (theirs, second)) = (first.shown(four), second.shown(four));
    let which = match (ours, theirs) {
        (Some(one), Some(other)) if one == other => Case::A,
        (Some(_), Some(_)) => Case::B,
        (Some(_), None) => Case::C,
        (None, Some(_)) => Case::D,
        (None, None) => Case::E,
    };
    Evidence { which, first, second }
}

/// Every set of four labels below n.
pub fn every_four(n: u16) -> impl Iterator<Item = [u16; 4]> {
    let below = |d: u16| (2..d).flat_map(move |c| (1..c).flat_map(move |b| (0..b).map(move |a| [a, b, c, d])));
    (3..n).flat_map(below)
}

/// The 24 orders of four labels.
pub fn every_order(four: [u16; 4]) -> Vec<[u16; 4]> {
    let places = (0..256).map(|code| [code / 64, code / 16 % 4, code / 4 % 4, code % 4]);
    let is_order = |places: &[usize; 4]| (0..4).all(|place| places.contains(&place));
    places.filter(is_order).map(|places| places.map(|place| four[place])).collect()
}

#[cfg(test)]
mod tests {
    use super::*;
    use crate::reference::{P, Q};

    /// Paths, edges and nodes of P and Q, read off their drawings: P is (1,(2,(3,4))) below tip 0, Q is (1,(2,3,4)).
    #[test]
    fn of_two_trees() {
        let [p, q] = [P, Q].map(Climbs::of);
        assert_eq!((p.path(3, 0), p.path(3, 4), q.path(1, 4)), (vec![6, 5, 3, 1, 0], vec![6, 5, 7], vec![2, 1, 6, 3]));
        assert_eq!((p.parting_edges([0, 1, 3, 4]), p.parting_edges([0, 2, 3, 4])), (vec![3, 5], vec![5]));
        assert_eq!((p.meeting_nodes([0, 2, 3, 4]), q.meeting_nodes([0, 2, 3, 4])), (vec![], vec![3]));
        assert_eq!((p.partner(3, [4, 1, 0, 3]), p.partner(5, [4, 3, 2, 1])), (Some(1), Some(2)));
    }

    #[test]
    fn of_sets_and_orders() {
        assert_eq!((every_four(3).count(), every_four(4).count(), every_four(12).count()), (0, 1, 495));
        let mut orders = every_order([7, 8, 9, 10]);
        orders.sort_unstable();
        orders.dedup();
        assert_eq!(orders.len(), 24);
    }
}
