//! The O(n^3) method of document 001, section 2.2: for each three tips, the subtrees at their centres in both trees
//! tell the topologies of all sets of four that hold them. Each set of four is met four times.

use crate::reference::X;
use crate::sides::{shared_sizes, Tree};

/// A tree with its edges in both directions. Side 2i is what lies on node i's side of edge i, side 2i + 1 the rest.
struct Sided {
    parents: Vec<usize>,
    labels: Vec<u16>,
    near: Vec<Vec<usize>>,
    node_of: Vec<usize>,
}

impl Sided {
    fn of(table: &[u16]) -> Sided {
        let (n, m) = (usize::from(table[0]), usize::from(table[1]));
        let parents: Vec<usize> = table[2..2 + m].iter().map(|&word| usize::from(word)).collect();
        let labels = table[2 + m..].to_vec();
        let mut near = vec![Vec::new(); m];
        for i in 1..m {
            near[i].push(parents[i]);
            near[parents[i]].push(i);
        }
        let mut node_of = vec![0; n];
        for (node, &label) in labels.iter().enumerate().filter(|(_, &label)| label != X) {
            node_of[usize::from(label)] = node;
        }
        Sided { parents, labels, near, node_of }
    }

    fn nodes(&self) -> usize {
        self.parents.len()
    }

    fn tree(&self) -> Tree<'_> {
        Tree { parents: &self.parents, node_of: &self.node_of }
    }

    /// The side of the edge between two neighbours on which `to` lies.
    fn side(&self, from: usize, to: usize) -> u16 {
        let is_below = to != 0 && self.parents[to] == from;
        (if is_below { 2 * to } else { 2 * from + 1 }) as u16
    }
}

/// The sizes of the intersections of all sides of two trees, and of the sides themselves.
struct Shared {
    width: usize,
    sizes: Vec<u16>,
    ours: Vec<u16>,
    theirs: Vec<u16>,
}

impl Shared {
    fn of(first: &Sided, second: &Sided) -> Shared {
        let width = 2 * second.nodes();
        let sizes = shared_sizes(&first.tree(), &second.tree());
        let ours = sizes.iter().step_by(width).copied().collect();
        let theirs = sizes[..width].to_vec();
        Shared { width, sizes, ours, theirs }
    }
}

/// A tree as it hangs from one tip: the tips in depth-first order, and where those of each node stand.
struct Hung {
    above: Vec<usize>,
    tips: Vec<u16>,
    spans: Vec<(usize, usize)>,
}

impl Hung {
    fn of(tree: &Sided, from: usize) -> Hung {
        let mut hung =
            Hung { above: vec![usize::MAX; tree.nodes()], tips: Vec::new(), spans: vec![(0, 0); tree.nodes()] };
        hung.visit(tree, from);
        hung
    }

    fn visit(&mut self, tree: &Sided, node: usize) {
        let begin = self.tips.len();
        if tree.labels[node] != X {
            self.tips.push(tree.labels[node]);
        }
        for &next in &tree.near[node] {
            if next != self.above[node] {
                self.above[next] = node;
                self.visit(tree, next);
            }
        }
        self.spans[node] = (begin, self.tips.len());
    }

    /// For each tip c the sides of a, b and c at the centre of a, b and c, where the tree hangs from a. One walk along
    /// the path from b to a meets every other tip once.
    fn centres(&self, tree: &Sided, b: usize, sides: &mut [[u16; 3]]) {
        let (mut below, mut centre) = (b, self.above[b]);
        while self.above[centre] != usize::MAX {
            let above = self.above[centre];
            let (side_a, side_b) = (tree.side(centre, above), tree.side(centre, below));
            for &next in tree.near[centre].iter().filter(|&&next| next != above && next != below) {
                let side_c = tree.side(centre, next);
                let (begin, end) = self.spans[next];
                for &c in &self.tips[begin..end] {
                    sides[usize::from(c)] = [side_a, side_b, side_c];
                }
            }
            (below, centre) = (centre, above);
        }
    }
}

/// The five cases A to E of two accepted tables with the same tips.
pub fn cases(first: &[u16], second: &[u16]) -> [u64; 5] {
    let (first, second) = (Sided::of(first), Sided::of(second));
    let shared = Shared::of(&first, &second);
    let n = first.node_of.len();
    let mut ours = vec![[0; 3]; n];
    let mut theirs = vec![[0; 3]; n];
    // Met four times each: same butterflies, different ones, stars in both; the butterflies of either tree.
    let mut met = [0u64; 5];
    for a in 0..n {
        let hung = Hung::of(&first, first.node_of[a]);
        let other = Hung::of(&second, second.node_of[a]);
        for b in a + 1..n {
            hung.centres(&first, first.node_of[b], &mut ours);
            other.centres(&second, second.node_of[b], &mut theirs);
            for c in b + 1..n {
                let of_three = shared.with_three(n, ours[c], theirs[c]);
                met.iter_mut().zip(of_three).for_each(|(sum, count)| *sum += u64::from(count));
            }
        }
    }
    let [same, different, stars, butterflies, others] = met.map(|count| count / 4);
    [same, different, butterflies - same - different, others - same - different, stars]
}

impl Shared {
    /// Of the sets of four with three tips, given their sides at both centres.
    fn with_three(&self, n: usize, ours: [u16; 3], theirs: [u16; 3]) -> [u32; 5] {
        let rows = ours.map(|side| &self.sizes[usize::from(side) * self.width..][..self.width]);
        let size = |i: usize, j: usize| u32::from(rows[i][usize::from(theirs[j])]);
        let same = size(0, 0) + size(1, 1) + size(2, 2);
        let different = size(0, 1) + size(0, 2) + size(1, 0) + size(1, 2) + size(2, 0) + size(2, 1);
        let mine: u32 = ours.iter().map(|&side| u32::from(self.ours[usize::from(side)])).sum();
        let yours: u32 = theirs.iter().map(|&side| u32::from(self.theirs[usize::from(side)])).sum();
        let stars = n as u32 + same + different - mine - yours;
        [same - 3, different, stars, mine - 3, yours - 3]
    }
}
