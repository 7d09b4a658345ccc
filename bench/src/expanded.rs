//! The O(n^2 d^2) method of document 001, section 2.3: both trees expanded to binary ones, and equation (1) and dcount
//! summed over all pairs of extended claims. Pass-through nodes stay as they are: no claim points to one.

use crate::reference::X;
use crate::sides::{shared_sizes, Tree};

/// A tree whose inner nodes have one child or two. Edge i joins node i to its parent; it is new if the expansion brought
/// it in. Side 2i is what lies on node i's side of edge i, side 2i + 1 the rest. Parents come before their children.
struct Expanded {
    parents: Vec<usize>,
    is_new: Vec<bool>,
    children: Vec<Vec<usize>>,
    node_of: Vec<usize>,
}

impl Expanded {
    fn of(table: &[u16]) -> Expanded {
        let (n, m) = (usize::from(table[0]), usize::from(table[1]));
        let (parents, labels) = table[2..].split_at(m);
        let mut below = vec![Vec::new(); m];
        for i in 1..m {
            below[usize::from(parents[i])].push(i);
        }
        let mut tree = Expanded { parents: vec![0], is_new: vec![false], children: vec![vec![]], node_of: vec![0; n] };
        // Nodes to be brought in: one of the table, and the node it hangs from.
        let mut waiting = vec![(1, 0)];
        while let Some((node, above)) = waiting.pop() {
            let mut place = tree.hang(above, false);
            if labels[node] != X {
                tree.node_of[usize::from(labels[node])] = place;
                continue;
            }
            // A chain of new edges, with one child off each link and two at the last; an only child needs none.
            let (last, others) = below[node].split_last().expect("an inner node has children");
            for (i, &child) in others.iter().enumerate() {
                if i > 0 {
                    place = tree.hang(place, true);
                }
                waiting.push((child, place));
            }
            waiting.push((*last, place));
        }
        tree
    }

    fn hang(&mut self, above: usize, is_new: bool) -> usize {
        let node = self.parents.len();
        self.parents.push(above);
        self.is_new.push(is_new);
        self.children.push(Vec::new());
        self.children[above].push(node);
        node
    }

    fn nodes(&self) -> usize {
        self.parents.len()
    }

    fn tree(&self) -> Tree<'_> {
        Tree { parents: &self.parents, node_of: &self.node_of }
    }

    /// For each original directed edge into a node of degree three or more: the side behind it, and the pairs of sides
    /// in front of the edges that it reaches by new edges alone, itself among them.
    fn claims(&self) -> Vec<(usize, Vec<[usize; 2]>)> {
        let mut claims = Vec::new();
        for edge in (1..self.nodes()).filter(|&edge| !self.is_new[edge]) {
            for (behind, node, from) in [(2 * edge + 1, edge, self.parents[edge]), (2 * edge, self.parents[edge], edge)]
            {
                let mut ahead = Vec::new();
                self.reach(node, from, &mut ahead);
                if !ahead.is_empty() {
                    claims.push((behind, ahead));
                }
            }
        }
        claims
    }

    fn reach(&self, node: usize, from: usize, ahead: &mut Vec<[usize; 2]>) {
        if node == 0 || self.children[node].len() < 2 {
            return;
        }
        let up = (self.parents[node], 2 * node + 1, self.is_new[node]);
        let down = self.children[node].iter().map(|&child| (child, 2 * child, self.is_new[child]));
        let others: Vec<_> = std::iter::once(up).chain(down).filter(|&(next, ..)| next != from).collect();
        ahead.push([others[0].1, others[1].1]);
        for (next, _, is_new) in others {
            if is_new {
                self.reach(next, node, ahead);
            }
        }
    }
}

fn pairs_of(k: u64) -> u64 {
    k * k.saturating_sub(1) / 2
}

/// S of one tree, from its extended claims and the sizes of its sides.
fn claim_sum(claims: &[(usize, Vec<[usize; 2]>)], size: impl Fn(usize) -> u64) -> u64 {
    let ahead_sum = |ahead: &[[usize; 2]]| ahead.iter().map(|&[left, right]| size(left) * size(right)).sum::<u64>();
    claims.iter().map(|(behind, ahead)| pairs_of(size(*behind)) * ahead_sum(ahead)).sum()
}

/// The five cases A to E of two accepted tables with the same tips.
pub fn cases(first: &[u16], second: &[u16]) -> [u64; 5] {
    let (first, second) = (Expanded::of(first), Expanded::of(second));
    let sizes = shared_sizes(&first.tree(), &second.tree());
    let width = 2 * second.nodes();
    let (ours, theirs) = (first.claims(), second.claims());
    let (mut same, mut different) = (0, 0);
    for (t1, ahead) in &ours {
        let row = &sizes[t1 * width..][..width];
        // Both sums have |T1 and T1'| as a factor.
        for (u1, before) in theirs.iter().filter(|(u1, _)| row[*u1] != 0) {
            let common = u64::from(row[*u1]);
            for &[t2, t3] in ahead {
                let (left, right) = (&sizes[t2 * width..][..width], &sizes[t3 * width..][..width]);
                let (left_first, right_first) = (u64::from(left[*u1]), u64::from(right[*u1]));
                for &[u2, u3] in before {
                    let at = |line: &[u16], side: usize| u64::from(line[side]);
                    let (straight, crossed) = (at(left, u2) * at(right, u3), at(left, u3) * at(right, u2));
                    same += pairs_of(common) * (straight + crossed);
                    different += common
                        * (at(row, u3) * (at(left, u2) * right_first + left_first * at(right, u2))
                            + at(row, u2) * (at(left, u3) * right_first + left_first * at(right, u3)));
                }
            }
        }
    }
    // Edge 0 is none: side 0 is all tips.
    let mine = claim_sum(&ours, |side| u64::from(sizes[side * width])) / 2;
    let yours = claim_sum(&theirs, |side| u64::from(sizes[side])) / 2;
    let (a, b) = (same / 2, different / 4);
    let n = first.node_of.len() as u64;
    let all = n * (n - 1) * (n - 2) * n.saturating_sub(3) / 24;
    let (c, d) = (mine - a - b, yours - a - b);
    [a, b, c, d, all - a - b - c - d]
}
