//! A tree without the tips of struck labels: what is left of its table, with the kept labels by rank.

use crate::cubic;
use crate::reference::X;

/// The table of the tree that holds the kept tips of an accepted table, or none for fewer than two of them. It hangs from
/// the kept tip of rank 0, and its nodes are numbered depth first. Pass-through nodes stay, and struck tips leave others.
pub fn pruned(table: &[u16], marks: &[u8]) -> Option<Vec<u16>> {
    let kept: Vec<u16> = (0..table[0]).filter(|&label| marks[usize::from(label)] == 1).collect();
    if kept.len() < 2 {
        return None;
    }
    let m = usize::from(table[1]);
    let (parents, labels) = table[2..].split_at(m);
    let rank_of = |node: usize| kept.iter().position(|&label| label == labels[node]);
    let mut near = vec![Vec::new(); m];
    for node in 1..m {
        near[node].push(usize::from(parents[node]));
        near[usize::from(parents[node])].push(node);
    }
    // Ends that are no kept tip fall off one after the other.
    let mut ends: Vec<usize> = (0..m).filter(|&node| near[node].len() == 1 && rank_of(node).is_none()).collect();
    while let Some(end) = ends.pop() {
        let beside = near[end].pop().expect("two kept tips stay joined");
        near[beside].retain(|&node| node != end);
        if near[beside].len() == 1 && rank_of(beside).is_none() {
            ends.push(beside);
        }
    }
    let root = labels.iter().position(|&label| label == kept[0])?;
    let (mut hung, mut named) = (Vec::new(), Vec::new());
    // Nodes to be numbered: the node, the one it hangs from, and that one's number.
    let mut waiting = vec![(root, root, 0)];
    while let Some((node, above, parent)) = waiting.pop() {
        let number = hung.len() as u16;
        hung.push(parent);
        named.push(rank_of(node).map_or(X, |rank| rank as u16));
        waiting.extend(near[node].iter().rev().filter(|&&next| next != above).map(|&next| (next, node, number)));
    }
    let head = [kept.len() as u16, hung.len() as u16];
    Some([&head[..], &hung, &named].concat())
}

/// The five cases of two trees without the tips of struck labels, by the O(n^3) method.
pub fn cases(first: &[u16], second: &[u16], marks: &[u8]) -> [u64; 5] {
    match (pruned(first, marks), pruned(second, marks)) {
        (Some(ours), Some(theirs)) => cubic::cases(&ours, &theirs),
        _ => [0; 5],
    }
}

#[cfg(test)]
mod tests {
    use super::*;
    use crate::enumerate::tree_refusal;
    use crate::generate::{any_chained, any_marks, table, Shape};
    use crate::pass_through::taken_out;
    use crate::random::Random;
    use crate::reference::{P, W};

    #[test]
    fn of_p() {
        assert_eq!(pruned(P, &[1; 5]).as_deref(), Some(P));
        // (0,1,(2,3)) with a pass-through node above (2,3), and (0,1,2) with one above 2.
        let without_2 = pruned(P, &[1, 1, 0, 1, 1]).expect("four kept");
        assert_eq!(without_2, [4, 7, 0, 0, 1, 1, 3, 4, 4, 0, X, 1, X, X, 2, 3]);
        assert_eq!(taken_out(&without_2).table, [4, 6, 0, 0, 1, 1, 3, 3, 0, X, 1, X, 2, 3]);
        assert_eq!(pruned(P, &[1, 1, 1, 0, 0]), Some(vec![3, 5, 0, 0, 1, 1, 3, 0, X, 1, X, 2]));
    }

    #[test]
    fn of_w() {
        // Tip 2 becomes tip 0, then tip 3 does.
        assert_eq!(pruned(W, &[0, 0, 1, 1, 1]), Some(vec![3, 4, 0, 0, 1, 1, 0, X, 1, 2]));
        assert_eq!(pruned(W, &[0, 0, 0, 1, 1]), Some(vec![2, 3, 0, 0, 1, 0, X, 1]));
        assert_eq!(pruned(W, &[0, 0, 1, 0, 0]), None);
        assert_eq!(pruned(W, &[0; 5]), None);
    }

    /// A tree table but for the number of pass-through nodes, and one without them.
    #[test]
    fn of_any_table() {
        let mut random = Random::seeded(1020);
        for at in 0..2_000 {
            let n = 2 + at % 30;
            let bare = table(*random.pick(&Shape::ALL), n, &mut random);
            let long = any_chained(&bare, &mut random);
            let marks = any_marks(n, &mut random);
            let kept = marks.iter().filter(|&&mark| mark == 1).count();
            match pruned(&long, &marks) {
                None => assert!(kept < 2),
                Some(left) => {
                    assert_eq!(usize::from(left[0]), kept);
                    assert!(matches!(tree_refusal(&left), 0 | 3), "{left:?}");
                    assert_eq!(tree_refusal(&taken_out(&left).table), 0, "{left:?}");
                }
            }
        }
    }
}
