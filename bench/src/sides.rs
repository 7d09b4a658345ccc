//! How many tips the sides of two trees share. Side 2i of a tree is what lies on node i's side of edge i, side 2i + 1 the
//! rest.

/// A tree by its parents, which come before their children, and the nodes of its tips.
pub struct Tree<'a> {
    pub parents: &'a [usize],
    pub node_of: &'a [usize],
}

/// The sizes of the intersections of all sides of two trees, row by row: a row for each side of the first. Node 0 is
/// above all tips, so the first column and the first row are the sizes of the sides themselves.
pub fn shared_sizes(first: &Tree, second: &Tree) -> Vec<u16> {
    let n = first.node_of.len() as u16;
    let (m, k) = (first.parents.len(), second.parents.len());
    let mut below = vec![0u16; m * k];
    for (&i, &j) in first.node_of.iter().zip(second.node_of) {
        below[i * k + j] = 1;
    }
    for i in 0..m {
        for j in (1..k).rev() {
            below[i * k + second.parents[j]] += below[i * k + j];
        }
    }
    for i in (1..m).rev() {
        let (above, row) = below.split_at_mut(i * k);
        let above = &mut above[first.parents[i] * k..][..k];
        above.iter_mut().zip(row).for_each(|(sum, &mut size)| *sum += size);
    }
    let mut sizes = Vec::with_capacity(4 * m * k);
    for i in 0..m {
        let one = below[i * k];
        sizes.extend((0..k).flat_map(|j| [below[i * k + j], one - below[i * k + j]]));
        sizes.extend((0..k).flat_map(|j| {
            let (both, other) = (below[i * k + j], below[j]);
            [other - both, n + both - one - other]
        }));
    }
    sizes
}
