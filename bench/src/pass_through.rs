//! Pass-through nodes, the inner nodes with one child, taken out of a table.

use crate::reference::X;

/// The pass-through nodes of an accepted table, in rising order.
pub fn pass_through_nodes(table: &[u16]) -> Vec<usize> {
    let m = usize::from(table[1]);
    let (parents, labels) = table[2..].split_at(m);
    let children = |node: usize| (1..m).filter(|&child| usize::from(parents[child]) == node).count();
    (0..m).filter(|&node| labels[node] == X && children(node) == 1).collect()
}

/// A table without pass-through nodes, and for each of its nodes the one that it was.
pub struct TakenOut {
    pub table: Vec<u16>,
    pub was: Vec<u16>,
}

/// The accepted table without its pass-through nodes. The other nodes keep their order, and each hangs from the nearest
/// of them above it.
pub fn taken_out(table: &[u16]) -> TakenOut {
    let m = usize::from(table[1]);
    let (parents, labels) = table[2..].split_at(m);
    let goes = pass_through_nodes(table);
    let stay: Vec<usize> = (0..m).filter(|node| !goes.contains(node)).collect();
    let nearest = |node: usize| {
        let mut above = usize::from(parents[node]);
        while goes.contains(&above) {
            above = usize::from(parents[above]);
        }
        stay.iter().position(|&other| other == above).expect("it stays") as u16
    };
    let head = [table[0], stay.len() as u16];
    let hung = stay.iter().map(|&node| nearest(node));
    let labelled = stay.iter().map(|&node| labels[node]);
    let table = head.into_iter().chain(hung).chain(labelled).collect();
    TakenOut { table, was: stay.iter().map(|&node| node as u16).collect() }
}

#[cfg(test)]
mod tests {
    use super::*;
    use crate::enumerate::tree_refusal;
    use crate::generate::{chained, table, Chains, Shape};
    use crate::random::Random;
    use crate::reference::{P, TABLES};

    /// P with chains above tip 1, above node 5 and at node 1, numbered so that a chain's nodes are apart.
    const P_CHAINED: &[u16] = &[5, 13, 0, 0, 1, 2, 2, 4, 4, 3, 6, 8, 9, 9, 7, 0, X, X, X, X, 2, X, X, X, X, 3, 4, 1];

    #[test]
    fn of_one_table() {
        assert_eq!(tree_refusal(P_CHAINED), 0);
        assert_eq!(pass_through_nodes(P_CHAINED), [1, 3, 6, 7, 8]);
        let out = taken_out(P_CHAINED);
        // Tip 1 is the last node here, and node 2 of P.
        assert_eq!(out.table, [5, 8, 0, 0, 1, 2, 2, 4, 4, 1, 0, X, X, 2, X, 3, 4, 1]);
        assert_eq!(out.was, [0, 2, 4, 5, 9, 10, 11, 12]);
    }

    #[test]
    fn of_tables_without_any() {
        for table in TABLES {
            let out = taken_out(table);
            assert_eq!(out.table, table);
            assert_eq!(out.was, (0..table[1]).collect::<Vec<u16>>());
        }
    }

    /// Each kind of chain at every number of nodes, of trees of two tips to eight.
    #[test]
    fn of_every_number_of_nodes() {
        let mut random = Random::seeded(1000);
        for n in 2..=8 {
            for chains in Chains::ALL {
                let bare = table(*random.pick(&Shape::ALL), n, &mut random);
                for nodes in usize::from(bare[1])..=4 * n {
                    let long = chained(&bare, chains, nodes, &mut random);
                    assert_eq!((tree_refusal(&long), usize::from(long[1])), (0, nodes), "{long:?}");
                    assert_eq!(pass_through_nodes(&long).len(), nodes - usize::from(bare[1]), "{long:?}");
                    let out = taken_out(&long);
                    assert_eq!((tree_refusal(&out.table), out.table[1]), (0, bare[1]), "{long:?}");
                    assert_eq!(pass_through_nodes(&out.table), [], "{long:?}");
                }
            }
        }
    }

    /// The label of the first node below a chain that is no pass-through node.
    fn label_below(table: &[u16], node: usize) -> u16 {
        let (parents, labels) = table[2..].split_at(usize::from(table[1]));
        let goes = pass_through_nodes(table);
        let mut lowest = node;
        while goes.contains(&lowest) {
            lowest = parents.iter().skip(1).position(|&parent| usize::from(parent) == lowest).expect("one child") + 1;
        }
        labels[lowest]
    }

    /// Chains of each kind stand where they should: P has 8 nodes, and gets 12 more.
    #[test]
    fn of_each_kind() {
        let mut random = Random::seeded(1010);
        for _ in 0..200 {
            let [above_tips, above_inner, at_node_one] = [Chains::AboveTips, Chains::AboveInner, Chains::AtNodeOne]
                .map(|chains| chained(P, chains, 20, &mut random));
            assert!(pass_through_nodes(&above_tips).iter().all(|&node| label_below(&above_tips, node) != X));
            assert!(pass_through_nodes(&above_inner).iter().all(|&node| label_below(&above_inner, node) == X));
            assert_eq!(pass_through_nodes(&at_node_one), (1..=12).collect::<Vec<usize>>());
        }
    }
}
