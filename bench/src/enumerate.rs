//! The enumerator, written from docs/SPECIFICATION.md alone. Every figure is counted as its sentence there says it:
//! crossings from sets of labels, topologies by looking at every edge, claims one by one, splits as pairs of tip sets,
//! triplets by lowest common ancestors. Struck labels are left out of the sets. It is slow and means to be.

use std::collections::BTreeSet;
use std::ops::Range;

use crate::reference::X;

/// The number of the tree check, 0 for accepted.
pub fn tree_refusal(table: &[u16]) -> u16 {
    if table.len() < 2 {
        return 1;
    }
    let (n, m) = (usize::from(table[0]), usize::from(table[1]));
    if !(2..=256).contains(&n) {
        return 2;
    }
    if m < n || m > 4 * n {
        return 3;
    }
    if table.len() != 2 + 2 * m {
        return 4;
    }
    let (parents, labels) = table[2..].split_at(m);
    let parent_stands = |i: usize| match i {
        0 | 1 => parents[i] == 0,
        _ => parents[i] >= 1 && usize::from(parents[i]) < i,
    };
    if !(0..m).all(parent_stands) {
        return 5;
    }
    let label_stands = |&label: &u16| label == X || usize::from(label) < n;
    if labels[0] != 0 || !labels.iter().all(label_stands) {
        return 6;
    }
    let stands_once = |label: usize| labels.iter().filter(|&&word| usize::from(word) == label).count() == 1;
    if !(0..n).all(stands_once) {
        return 31;
    }
    let children = |i: usize| (1..m).filter(|&child| usize::from(parents[child]) == i).count();
    let node_stands = |i: usize| match (i, labels[i]) {
        (_, X) => children(i) >= 1,
        (0, _) => true,
        _ => children(i) == 0,
    };
    if !(0..m).all(node_stands) {
        return 7;
    }
    0
}

/// The number of two tables, 0 for accepted.
fn tables_refusal(first: &[u16], second: &[u16]) -> u16 {
    let of_first = tree_refusal(first);
    if of_first != 0 {
        return of_first;
    }
    let of_second = tree_refusal(second);
    if of_second != 0 {
        return 100 + of_second;
    }
    if first[0] != second[0] {
        return 8;
    }
    0
}

/// The number of so many work cells for two accepted tables, 0 for accepted.
fn cells_refusal(first: &[u16], second: &[u16], cells: usize) -> u16 {
    if cells < (usize::from(first[1]) - 1) * (usize::from(second[1]) - 1) {
        return 9;
    }
    0
}

/// The number of a pair with so many work cells, 0 for accepted.
pub fn pair_refusal(first: &[u16], second: &[u16], cells: usize) -> u16 {
    let of_tables = tables_refusal(first, second);
    if of_tables != 0 {
        return of_tables;
    }
    cells_refusal(first, second, cells)
}

/// The number of a pair with marks and so many work cells, 0 for accepted.
pub fn marked_refusal(first: &[u16], second: &[u16], marks: &[u8], cells: usize) -> u16 {
    let of_tables = tables_refusal(first, second);
    if of_tables != 0 {
        return of_tables;
    }
    if !are_marks(first, marks) {
        return 32;
    }
    cells_refusal(first, second, cells)
}

/// Whether there is a mark of 0 or 1 for each label of an accepted table.
pub fn are_marks(table: &[u16], marks: &[u8]) -> bool {
    marks.len() == usize::from(table[0]) && marks.iter().all(|&mark| mark <= 1)
}

/// The number of a question about labels, 0 for accepted.
pub fn label_refusal(table: &[u16], labels: &[u16]) -> u16 {
    let of_tree = tree_refusal(table);
    if of_tree != 0 {
        return of_tree;
    }
    if labels.iter().any(|&label| label >= table[0]) {
        return 10;
    }
    if (1..labels.len()).any(|i| labels[..i].contains(&labels[i])) {
        return 11;
    }
    0
}

/// A set of labels from 0 to 255.
#[derive(Clone, Copy, Debug, Default, PartialEq, Eq, PartialOrd, Ord)]
pub struct Tips([u64; 4]);

impl Tips {
    /// The labels that are marked as kept.
    pub fn kept(marks: &[u8]) -> Tips {
        let mut tips = Tips::default();
        (0..marks.len()).filter(|&label| marks[label] == 1).for_each(|label| tips.insert(label));
        tips
    }

    fn insert(&mut self, label: usize) {
        self.0[label / 64] |= 1 << (label % 64);
    }

    fn contains(&self, label: usize) -> bool {
        self.0[label / 64] >> (label % 64) & 1 == 1
    }

    fn both(self, other: Tips) -> Tips {
        Tips(std::array::from_fn(|i| self.0[i] & other.0[i]))
    }

    fn without(self, other: Tips) -> Tips {
        Tips(std::array::from_fn(|i| self.0[i] & !other.0[i]))
    }

    fn count(self) -> u64 {
        self.0.iter().map(|part| u64::from(part.count_ones())).sum()
    }
}

/// One side of an edge: the labels beyond it, or the others.
#[derive(Clone, Copy, Debug, PartialEq, Eq)]
struct Side {
    edge: usize,
    beyond: bool,
}

impl Side {
    fn index(self) -> usize {
        2 * self.edge + usize::from(self.beyond)
    }
}

/// A directed edge, by the tips behind it, with two different subtrees at the node that it points to.
struct Claim {
    behind: Side,
    left: Side,
    right: Side,
}

/// How four labels lie in a tree.
#[derive(Clone, Copy, Debug, PartialEq, Eq)]
pub enum Topology {
    Butterfly(u16),
    Star,
}

/// An accepted table as a tree.
pub struct Tree {
    n: usize,
    m: usize,
    parents: Vec<usize>,
    labels: Vec<u16>,
    beyond: Vec<Tips>,
}

impl Tree {
    pub fn of(table: &[u16]) -> Tree {
        assert_eq!(tree_refusal(table), 0);
        let (n, m) = (usize::from(table[0]), usize::from(table[1]));
        let parents: Vec<usize> = table[2..2 + m].iter().map(|&word| usize::from(word)).collect();
        let labels = table[2 + m..].to_vec();
        let mut beyond = vec![Tips::default(); m];
        for tip in (1..m).filter(|&tip| labels[tip] != X) {
            let mut node = tip;
            while node != 0 {
                beyond[node].insert(usize::from(labels[tip]));
                node = parents[node];
            }
        }
        Tree { n, m, parents, labels, beyond }
    }

    fn edges(&self) -> Range<usize> {
        1..self.m
    }

    /// The kept labels on a side.
    fn tips(&self, side: Side, kept: Tips) -> Tips {
        if side.beyond {
            kept.both(self.beyond[side.edge])
        } else {
            kept.without(self.beyond[side.edge])
        }
    }

    /// The subtrees at a node, one for each of its edges.
    fn subtrees(&self, node: usize) -> Vec<Side> {
        let above = (node != 0).then_some(Side { edge: node, beyond: false });
        let below = self.edges().filter(|&edge| self.parents[edge] == node).map(|edge| Side { edge, beyond: true });
        above.into_iter().chain(below).collect()
    }

    /// The labels depth first from node 0, children in rising node number.
    pub fn walk(&self) -> Vec<u16> {
        let mut labels = Vec::new();
        self.walk_from(0, &mut labels);
        labels
    }

    fn walk_from(&self, node: usize, labels: &mut Vec<u16>) {
        labels.extend((self.labels[node] != X).then_some(self.labels[node]));
        for child in self.edges().filter(|&edge| self.parents[edge] == node) {
            self.walk_from(child, labels);
        }
    }

    /// The number of a question about an edge and a walk of so many cells, 0 for accepted.
    pub fn edge_refusal(&self, edge: u16, cells: usize) -> u16 {
        if !self.edges().contains(&usize::from(edge)) {
            return 13;
        }
        if cells < self.n {
            return 12;
        }
        0
    }

    /// The labels beyond an edge, in rising order.
    pub fn labels_beyond(&self, edge: u16) -> Vec<u16> {
        let tips = self.beyond[usize::from(edge)];
        (0..self.n).filter(|&label| tips.contains(label)).map(|label| label as u16).collect()
    }

    /// Where the labels beyond each edge stand in the walk: side by side. Place 0 is of no edge.
    pub fn places_beyond(&self) -> Vec<Range<usize>> {
        let walk = self.walk();
        let place = |tips: &Tips| {
            let is_beyond = |&&label: &&u16| tips.contains(usize::from(label));
            let before = walk.iter().take_while(|label| !is_beyond(label)).count();
            let labels = walk[before..].iter().take_while(is_beyond).count();
            assert_eq!(labels as u64, tips.count(), "side by side");
            before..before + labels
        };
        self.beyond.iter().map(place).collect()
    }

    /// The nodes of the path between two labels: those above one and not the other, and the highest common one.
    fn path(&self, a: u16, b: u16) -> Vec<usize> {
        let (up, down) = (self.climb(a), self.climb(b));
        let meeting = *up.iter().find(|node| down.contains(node)).expect("node 0 is above both");
        let apart = |from: &[usize], other: &[usize]| -> Vec<usize> {
            from.iter().copied().filter(|node| !other.contains(node)).collect()
        };
        [apart(&up, &down), apart(&down, &up), vec![meeting]].concat()
    }

    /// A label's node and those above it, upwards.
    fn climb(&self, label: u16) -> Vec<usize> {
        let mut node = self.labels.iter().position(|&word| word == label).expect("each label stands");
        let mut nodes = vec![node];
        while node != 0 {
            node = self.parents[node];
            nodes.push(node);
        }
        nodes
    }

    /// The node that the three paths have in common.
    pub fn centre(&self, a: u16, b: u16, c: u16) -> u16 {
        let (ab, ac, bc) = (self.path(a, b), self.path(a, c), self.path(b, c));
        let joined: Vec<usize> = ab.into_iter().filter(|node| ac.contains(node) && bc.contains(node)).collect();
        assert_eq!(joined.len(), 1);
        joined[0] as u16
    }

    /// A butterfly if some edge has two of the labels on each side.
    pub fn topology(&self, four: [u16; 4]) -> Topology {
        let smallest = *four.iter().min().expect("four labels");
        for edge in self.edges() {
            let is_beyond = |label: u16| self.beyond[edge].contains(usize::from(label));
            if four.iter().filter(|&&label| is_beyond(label)).count() == 2 {
                let with_smallest = |label: u16| label != smallest && is_beyond(label) == is_beyond(smallest);
                let partner = four.into_iter().find(|&label| with_smallest(label));
                return Topology::Butterfly(partner.expect("two on its side"));
            }
        }
        Topology::Star
    }

    fn is_ancestor(&self, node: usize, label: usize) -> bool {
        node == 0 || self.beyond[node].contains(label)
    }

    /// The lowest common ancestor of every two labels: of the nodes above the one, the first that is above the other.
    fn lowest_common_ancestors(&self) -> Vec<Vec<usize>> {
        let lowest = |climb: &[usize], label: usize| {
            *climb.iter().find(|&&node| self.is_ancestor(node, label)).expect("node 0 is above both")
        };
        let of_label = |climb: Vec<usize>| (0..self.n).map(|label| lowest(&climb, label)).collect();
        (0..self.n).map(|label| of_label(self.climb(label as u16))).collect()
    }

    /// Of three labels the one that the lowest common ancestor of the other two is no ancestor of, if there is one.
    fn apart(&self, ancestors: &[Vec<usize>], [a, b, c]: [usize; 3]) -> Option<usize> {
        let is_apart = |(x, y, z): &(usize, usize, usize)| !self.is_ancestor(ancestors[*x][*y], *z);
        let mut found = [(a, b, c), (a, c, b), (b, c, a)].into_iter().filter(is_apart).map(|(_, _, z)| z);
        let first = found.next();
        assert_eq!(found.next(), None, "at most one of three labels is apart");
        first
    }

    /// Every claim in turn. A tree of 256 tips has up to eight million.
    fn each_claim(&self, mut meet: impl FnMut(Claim)) {
        for node in 0..self.m {
            let subtrees = self.subtrees(node);
            for &behind in &subtrees {
                let ahead: Vec<Side> = subtrees.iter().copied().filter(|&side| side != behind).collect();
                for (i, &right) in ahead.iter().enumerate() {
                    ahead[..i].iter().for_each(|&left| meet(Claim { behind, left, right }));
                }
            }
        }
    }

    fn claim_count(&self) -> usize {
        let mut count = 0;
        self.each_claim(|_| count += 1);
        count
    }

    fn claims(&self) -> Vec<Claim> {
        let mut claims = Vec::new();
        self.each_claim(|claim| claims.push(claim));
        claims
    }

    /// S: the sum over the claims of |T1|(|T1| - 1)/2 |T2| |T3|, of kept labels.
    pub fn claim_sum(&self, kept: Tips) -> u64 {
        let size = |side: Side| self.tips(side, kept).count();
        let sizes: Vec<u64> =
            (0..2 * self.m).map(|index| size(Side { edge: index / 2, beyond: index % 2 == 1 })).collect();
        let mut sum = 0;
        self.each_claim(|Claim { behind, left, right }| {
            let [t1, t2, t3] = [behind, left, right].map(|side| sizes[side.index()]);
            sum += pairs_of(t1) * t2 * t3;
        });
        sum
    }

    /// The splits, each as its two sets of kept labels in order. Edges with the same two sets have one split, whichever
    /// set lies beyond them.
    fn splits(&self, kept: Tips) -> BTreeSet<[Tips; 2]> {
        let sides = |edge| {
            let mut sides = [true, false].map(|beyond| self.tips(Side { edge, beyond }, kept));
            sides.sort_unstable();
            sides
        };
        self.edges().map(sides).filter(|split| split.iter().all(|side| side.count() >= 2)).collect()
    }
}

/// How many sets of four there are of so many labels.
pub fn sets_of_four(labels: u64) -> u64 {
    match labels {
        0..4 => 0,
        n => n * (n - 1) * (n - 2) * (n - 3) / 24,
    }
}

fn pairs_of(k: u64) -> u64 {
    k * k.saturating_sub(1) / 2
}

/// How many kept labels lie beyond both edges, row by row. Each number fits a byte.
pub fn crossings(first: &Tree, second: &Tree, kept: Tips) -> Vec<u8> {
    let crossing = |i: usize, j: usize| kept.both(first.beyond[i]).both(second.beyond[j]).count();
    let crossing = |i: usize, j: usize| u8::try_from(crossing(i, j)).expect("label 0 lies beyond no edge");
    first.edges().flat_map(|i| second.edges().map(move |j| crossing(i, j))).collect()
}

/// The splits of the first tree, of the second, of both, and the Robinson-Foulds distance.
pub fn split_counts(first: &Tree, second: &Tree, kept: Tips) -> [u64; 4] {
    let (ours, theirs) = (first.splits(kept), second.splits(kept));
    let common = ours.intersection(&theirs).count();
    [ours.len(), theirs.len(), common, ours.len() + theirs.len() - 2 * common].map(|count| count as u64)
}

/// S2 and S3 of kept labels, over all pairs of claims; or none if there are more pairs than `most`.
pub fn paired_claim_sums(first: &Tree, second: &Tree, kept: Tips, most: usize) -> Option<[u64; 2]> {
    if first.claim_count() * second.claim_count() > most {
        return None;
    }
    let (ours, theirs) = (first.claims(), second.claims());
    let width = 2 * second.m;
    let mut shared = vec![0; 2 * first.m * width];
    for (i, j) in (2..2 * first.m).flat_map(|i| (2..width).map(move |j| (i, j))) {
        let side = |index: usize| Side { edge: index / 2, beyond: index % 2 == 1 };
        shared[i * width + j] = first.tips(side(i), kept).both(second.tips(side(j), kept)).count();
    }
    let mut sums = [0, 0];
    for our in &ours {
        let [t1, t2, t3] = [our.behind, our.left, our.right].map(|side| side.index() * width);
        for their in &theirs {
            let [u1, u2, u3] = [their.behind, their.left, their.right].map(Side::index);
            let size = |t: usize, u: usize| shared[t + u];
            // Equation (1), and the four terms of dcount.
            sums[0] += pairs_of(size(t1, u1)) * (size(t2, u2) * size(t3, u3) + size(t2, u3) * size(t3, u2));
            sums[1] += size(t1, u1) * size(t1, u3) * size(t2, u2) * size(t3, u1)
                + size(t1, u1) * size(t1, u2) * size(t2, u3) * size(t3, u1)
                + size(t1, u1) * size(t1, u2) * size(t2, u1) * size(t3, u3)
                + size(t1, u1) * size(t1, u3) * size(t2, u1) * size(t3, u2);
        }
    }
    Some(sums)
}

/// The five cases A to E, over all sets of four. Up to 64 tips.
pub fn cases(first: &Tree, second: &Tree) -> [u64; 5] {
    cases_of(first, second, |_| true)
}

/// The five cases A to E, over the sets of four kept labels. Up to 64 tips.
pub fn kept_cases(first: &Tree, second: &Tree, kept: Tips) -> [u64; 5] {
    cases_of(first, second, |four| four & !kept.0[0] == 0)
}

/// The five cases A to E, over the sets of four of a label, kept or struck, and three other kept ones. Up to 64 tips.
pub fn held_cases(first: &Tree, second: &Tree, kept: Tips, label: u16) -> [u64; 5] {
    let own = 1 << label;
    cases_of(first, second, |four| four & own != 0 && four & !own & !kept.0[0] == 0)
}

/// The five cases A to E, over the sets of four that hold tip 0. Up to 64 tips.
pub fn cases_with_outgroup(first: &Tree, second: &Tree) -> [u64; 5] {
    cases_of(first, second, |four| four & 1 == 1)
}

/// The five cases over the sets of four that are wanted, each told by its bits.
fn cases_of(first: &Tree, second: &Tree, is_wanted: impl Fn(u64) -> bool) -> [u64; 5] {
    assert!(first.n == second.n && first.n <= 64);
    let masks = |tree: &Tree| -> Vec<u64> { tree.edges().map(|edge| tree.beyond[edge].0[0]).collect() };
    let (ours, theirs) = (masks(first), masks(second));
    let mut counts = [0; 5];
    for d in 3..first.n {
        for c in 2..d {
            for b in 1..c {
                for a in 0..b {
                    let four = 1 << a | 1 << b | 1 << c | 1 << d;
                    if is_wanted(four) {
                        counts[case_of(half_with(&ours, four, 1 << a), half_with(&theirs, four, 1 << a))] += 1;
                    }
                }
            }
        }
    }
    counts
}

/// The two of four labels on the side of `smallest`, if some edge has two on each side.
fn half_with(edges: &[u64], four: u64, smallest: u64) -> Option<u64> {
    edges.iter().find_map(|beyond| {
        let half = beyond & four;
        // Without its lowest member a set of two is a set of one.
        let less = half & half.wrapping_sub(1);
        let is_two = less.is_power_of_two();
        is_two.then_some(if half & smallest != 0 { half } else { four ^ half })
    })
}

/// The triplet cases A to E, over all sets of three of the labels other than 0.
pub fn triplet_cases(first: &Tree, second: &Tree) -> [u64; 5] {
    assert_eq!(first.n, second.n);
    let (ours, theirs) = (first.lowest_common_ancestors(), second.lowest_common_ancestors());
    let mut counts = [0; 5];
    for c in 3..first.n {
        for b in 2..c {
            for a in 1..b {
                counts[case_of(first.apart(&ours, [a, b, c]), second.apart(&theirs, [a, b, c]))] += 1;
            }
        }
    }
    counts
}

/// The case of a set that either tree resolves in some way, or leaves open.
pub fn case_of<T: PartialEq>(ours: Option<T>, theirs: Option<T>) -> usize {
    match (ours, theirs) {
        (Some(one), Some(other)) if one == other => 0,
        (Some(_), Some(_)) => 1,
        (Some(_), None) => 2,
        (None, Some(_)) => 3,
        (None, None) => 4,
    }
}
