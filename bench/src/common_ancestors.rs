//! The triplet cases in O(n^3): the lowest common ancestors of all two labels stand in a table, which the tips below each
//! node fill. Of the three that a set of three labels has, two are equal; where the third differs, its two labels are the
//! closer ones.

use crate::reference::X;

/// The lowest common ancestor of every two labels.
fn ancestors(table: &[u16]) -> Vec<Vec<u16>> {
    let (n, m) = (usize::from(table[0]), usize::from(table[1]));
    let (parents, labels) = table[2..].split_at(m);
    let own = |&label: &u16| if label == X { vec![] } else { vec![usize::from(label)] };
    let mut below: Vec<Vec<usize>> = labels.iter().map(own).collect();
    let mut found = vec![vec![0; n]; n];
    // Children come after their parent, so that the labels below a node are complete when it joins its parent.
    for node in (1..m).rev() {
        let parent = parents[node];
        let joining = std::mem::take(&mut below[node]);
        let others = &mut below[usize::from(parent)];
        for &a in &joining {
            for &b in others.iter() {
                found[a][b] = parent;
                found[b][a] = parent;
            }
        }
        others.extend(joining);
    }
    found
}

/// How a tree has three labels: open, or with one apart from the two that are closer.
#[derive(Clone, Copy, PartialEq, Eq)]
enum Three {
    Open,
    Apart(usize),
}

fn three(found: &[Vec<u16>], a: usize, b: usize, c: usize) -> Three {
    let (ab, ac, bc) = (found[a][b], found[a][c], found[b][c]);
    match (ac == bc, ab == bc) {
        (true, true) => Three::Open,
        (true, false) => Three::Apart(c),
        (false, true) => Three::Apart(b),
        (false, false) => Three::Apart(a),
    }
}

/// The triplet cases A to E of two accepted tables with the same tips.
pub fn triplet_cases(first: &[u16], second: &[u16]) -> [u64; 5] {
    let (ours, theirs) = (ancestors(first), ancestors(second));
    let n = ours.len();
    let mut counts = [0; 5];
    for a in 1..n {
        for b in a + 1..n {
            for c in b + 1..n {
                let case = match (three(&ours, a, b, c), three(&theirs, a, b, c)) {
                    (Three::Open, Three::Open) => 4,
                    (Three::Open, _) => 3,
                    (_, Three::Open) => 2,
                    (one, other) if one != other => 1,
                    _ => 0,
                };
                counts[case] += 1;
            }
        }
    }
    counts
}
