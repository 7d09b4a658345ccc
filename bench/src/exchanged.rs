//! A tree with two labels exchanged, as docs/SPECIFICATION.md says it: the topologies of every set of four, with the
//! exchange and without. The path between the two tips has no part in it.

use crate::cubic;
use crate::enumerate::{sets_of_four, Topology, Tree};
use crate::evidence::every_four;
use crate::rerooted::{rerooted, swapped};

/// How many exchanges fall in each of the eleven tallies.
pub type Tallies = [u64; 11];

/// Every unordered pair of labels below n, the smaller one first.
pub fn every_two(n: u16) -> impl Iterator<Item = [u16; 2]> {
    (1..n).flat_map(|y| (0..y).map(move |x| [x, y]))
}

/// The tallies of the distances of some exchanges in a tree of n tips.
pub fn tallied(n: u16, distances: impl IntoIterator<Item = u64>) -> Tallies {
    let fours = sets_of_four(u64::from(n));
    let mut tallies = [0; 11];
    for distance in distances {
        let tally = if n < 4 { 0 } else { 10 * distance / fours };
        tallies[tally as usize] += 1;
    }
    tallies
}

/// Four labels parted two and two, each two in rising order and the smallest label first; none for a star.
type Pairing = Option<[[u16; 2]; 2]>;

fn in_order(halves: [[u16; 2]; 2]) -> [[u16; 2]; 2] {
    let [one, other] = halves.map(|[a, b]| [a.min(b), a.max(b)]);
    [one.min(other), one.max(other)]
}

/// The topologies of all sets of four labels of a tree, in the order of `every_four`.
pub struct Pairings {
    n: u16,
    pairings: Vec<Pairing>,
}

impl Pairings {
    /// Of an accepted table.
    pub fn of(table: &[u16]) -> Pairings {
        let tree = Tree::of(table);
        let pairing = |four: [u16; 4]| match tree.topology(four) {
            Topology::Star => None,
            Topology::Butterfly(partner) => {
                let [smallest, others @ ..] = four;
                let mut apart = others.into_iter().filter(|&label| label != partner);
                let apart = [apart.next(), apart.next()].map(|label| label.expect("two on the other side"));
                Some(in_order([[smallest, partner], apart]))
            }
        };
        Pairings { n: table[0], pairings: every_four(table[0]).map(pairing).collect() }
    }

    /// The pairing of four labels, whatever their order.
    fn pairing(&self, mut four: [u16; 4]) -> Pairing {
        four.sort_unstable();
        let [a, b, c, d] = four.map(usize::from);
        // The sets before it: those below d, then those with d and three labels below c, and so on.
        let before = d * (d - 1) * (d - 2) * (d - 3) / 24 + c * (c - 1) * (c - 2) / 6 + b * (b - 1) / 2 + a;
        self.pairings[before]
    }

    /// The pairing of four labels where x and y are exchanged: a label is at the tip where the table has the swapped one.
    fn exchanged(&self, x: u16, y: u16, four: [u16; 4]) -> Pairing {
        let swap = |label: u16| swapped(x, y, label);
        self.pairing(four.map(swap)).map(|halves| in_order(halves.map(|half| half.map(swap))))
    }

    /// The quartet distance of the tree with x and y exchanged to the tree itself.
    pub fn distance(&self, [x, y]: [u16; 2]) -> u64 {
        every_four(self.n).filter(|&four| self.pairing(four) != self.exchanged(x, y, four)).count() as u64
    }

    /// The distances of all exchanges, in the order of `every_two`.
    pub fn distances(&self) -> Vec<u64> {
        every_two(self.n).map(|two| self.distance(two)).collect()
    }
}

/// The table of the tree with two different labels exchanged. Where label 0 moves, the tree hangs from its new tip.
pub fn exchanged_table(table: &[u16], [x, y]: [u16; 2]) -> Vec<u16> {
    match (x.min(y), x.max(y)) {
        (0, moved) => rerooted(table, moved),
        _ => {
            let (words, labels) = table.split_at(2 + usize::from(table[1]));
            words.iter().copied().chain(labels.iter().map(|&label| swapped(x, y, label))).collect()
        }
    }
}

/// The distance of an exchange by the O(n^3) method, from the tables of both trees.
pub fn cubic_distance(table: &[u16], two: [u16; 2]) -> u64 {
    let [_, b, c, d, _] = cubic::cases(table, &exchanged_table(table, two));
    b + c + d
}

#[cfg(test)]
mod tests {
    use super::*;
    use crate::enumerate::tree_refusal;
    use crate::generate::{any_chained, table, Shape};
    use crate::random::Random;
    use crate::reference::{P, Q, THREE, TWO, W, X};

    /// Every pairing, place after place.
    #[test]
    fn of_p() {
        let pairings = Pairings::of(P);
        let expected = [[[0, 1], [2, 3]], [[0, 1], [2, 4]], [[0, 1], [3, 4]], [[0, 2], [3, 4]], [[1, 2], [3, 4]]];
        assert_eq!(pairings.pairings, expected.map(Some));
        assert_eq!(pairings.pairing([4, 0, 3, 2]), Some([[0, 2], [3, 4]]));
        // The tree with 0 and 3 exchanged is (3,1,(2,(0,4))).
        assert_eq!(pairings.exchanged(0, 3, [0, 1, 2, 3]), Some([[0, 2], [1, 3]]));
        assert_eq!(pairings.exchanged(3, 0, [1, 2, 3, 4]), Some([[1, 3], [2, 4]]));
        assert_eq!(pairings.distances(), [0, 2, 2, 5, 5, 2, 5, 5, 2, 0]);
    }

    #[test]
    fn of_other_tables() {
        assert_eq!(Pairings::of(Q).pairing([0, 2, 3, 4]), None);
        assert_eq!(Pairings::of(Q).distances(), [0, 4, 4, 4, 4, 0, 4, 4, 0, 0]);
        assert_eq!(Pairings::of(W).distances(), [0; 10]);
        assert_eq!((Pairings::of(THREE).distances(), Pairings::of(TWO).distances()), (vec![0; 3], vec![0]));
    }

    /// Of 15 sets of four 1 is below a tenth, 3 two tenths, 4 more, 14 below ten and 15 all.
    #[test]
    fn of_tallies() {
        assert_eq!(tallied(6, [0, 1, 3, 4, 14, 15]), [2, 0, 2, 0, 0, 0, 0, 0, 0, 1, 1]);
        assert_eq!(tallied(3, [0; 3]), [3, 0, 0, 0, 0, 0, 0, 0, 0, 0, 0]);
        assert_eq!(every_two(4).collect::<Vec<_>>(), [[0, 1], [0, 2], [1, 2], [0, 3], [1, 3], [2, 3]]);
    }

    #[test]
    fn tables_of_p() {
        assert_eq!(exchanged_table(P, [1, 3]), [5, 8, 0, 0, 1, 1, 3, 3, 5, 5, 0, X, 3, X, 2, X, 1, 4]);
        // Below tip 0, which was tip 3: (4,(2,(1,3))).
        let moved = [5, 8, 0, 0, 1, 2, 3, 3, 2, 1, 0, X, X, X, 3, 1, 2, 4];
        assert_eq!([exchanged_table(P, [0, 3]), exchanged_table(P, [3, 0])], [moved, moved]);
    }

    /// The table of an exchanged tree has the exchanged pairings, label 0 moved or not.
    #[test]
    fn of_exchanged_tables() {
        let mut random = Random::seeded(1800);
        for at in 0..84 {
            let bare = table(Shape::ALL[at % Shape::ALL.len()], 2 + at % 9, &mut random);
            let table = if at % 2 == 0 { bare } else { any_chained(&bare, &mut random) };
            let pairings = Pairings::of(&table);
            for two @ [x, y] in every_two(table[0]) {
                let moved = exchanged_table(&table, two);
                assert_eq!(tree_refusal(&moved), 0, "{table:?} with {two:?} exchanged");
                let of_moved = Pairings::of(&moved);
                for four in every_four(table[0]) {
                    let found = [of_moved.pairing(four), pairings.exchanged(x, y, four)];
                    assert_eq!(found[0], found[1], "{four:?} in {table:?} with {two:?} exchanged");
                }
                assert_eq!(cubic_distance(&table, two), pairings.distance(two), "{table:?} with {two:?} exchanged");
            }
        }
    }
}
