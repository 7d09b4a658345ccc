//! A tree table re-rooted at another tip, as docs/SPECIFICATION.md says it.

use std::iter::successors;

use crate::enumerate::tree_refusal;

/// The number of a table, a label to re-root it at, and so many cells, 0 for accepted.
pub fn refusal(table: &[u16], label: u16, cells: usize) -> u16 {
    match tree_refusal(table) {
        0 if label >= table[0] => 10,
        0 if cells < table.len() => 12,
        number => number,
    }
}

/// A label where x and y are exchanged: y for x, x for y, and any other for itself.
pub fn swapped(x: u16, y: u16, label: u16) -> u16 {
    match label {
        _ if label == x => y,
        _ if label == y => x,
        _ => label,
    }
}

/// The accepted table, re-rooted at the tip with that label.
pub fn rerooted(table: &[u16], label: u16) -> Vec<u16> {
    let m = usize::from(table[1]);
    let (parents, labels) = table[2..].split_at(m);
    let tip = labels.iter().position(|&word| word == label);
    let path: Vec<usize> = successors(tip, |&node| (node != 0).then(|| usize::from(parents[node]))).collect();
    // The nodes in their new order.
    let nodes: Vec<usize> = path.iter().copied().chain((0..m).filter(|node| !path.contains(node))).collect();
    let parent = |number: usize| match number {
        0 => 0,
        _ if number < path.len() => number - 1,
        _ => {
            let parent = usize::from(parents[nodes[number]]);
            nodes.iter().position(|&node| node == parent).expect("each node has a number")
        }
    };
    let hung = (0..m).map(|number| parent(number) as u16);
    let named = nodes.iter().map(|&node| swapped(0, label, labels[node]));
    [table[0], table[1]].into_iter().chain(hung).chain(named).collect()
}

#[cfg(test)]
mod tests {
    use super::*;
    use crate::reference::{P, Q, TABLES, X};

    #[test]
    fn of_p_and_q() {
        // The path from tip 3 is 6 5 3 1 0; the others are 2 4 7.
        assert_eq!(rerooted(P, 3), [5, 8, 0, 0, 1, 2, 3, 3, 2, 1, 0, X, X, X, 3, 1, 2, 4]);
        // The path from tip 2 is 4 3 1 0; the others are 2 5 6.
        assert_eq!(rerooted(Q, 2), [5, 7, 0, 0, 1, 2, 2, 1, 1, 0, X, X, 2, 1, 3, 4]);
    }

    #[test]
    fn at_tip_0() {
        for table in TABLES {
            assert_eq!(rerooted(table, 0), table);
        }
    }
}
