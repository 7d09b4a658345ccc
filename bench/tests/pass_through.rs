//! Tables with pass-through nodes, up to 4n nodes: every exported function against the counters, and the figures of the
//! tables without these nodes.

use bench::agree::{pair_agrees, passing_through_agrees, tree_agrees, tree_passes_through, Expected};
use bench::generate::{any_chained, any_nodes, chained, pair, table, Chains, Graph, Numbering, Partner, Shape};
use bench::pass_through::pass_through_nodes;
use bench::random::Random;
use bench::{common_ancestors, cubic, expanded, straight};

/// Pairs for each shape, each kind of partner, and each place of chains in either tree.
const PAIRS: usize = 12;

/// Every kind of chain in the first tree with every kind in the second.
fn kinds() -> impl Iterator<Item = (Chains, Chains)> {
    Chains::ALL.into_iter().flat_map(|one| Chains::ALL.into_iter().map(move |other| (one, other)))
}

/// The table with chains of that kind, up to 4n nodes.
fn long(table: &[u16], chains: Chains, random: &mut Random) -> Vec<u16> {
    let nodes = any_nodes(table, random);
    chained(table, chains, nodes, random)
}

fn small_pairs_agree(partner: Partner) {
    let mut random = Random::seeded(1100 + partner as u64);
    for at in 0..PAIRS {
        for shape in Shape::ALL {
            for (one, other) in kinds() {
                let (first, second) = pair(shape, 2 + (at + random.below(2)) % 11, partner, &mut random);
                let (first, second) = (long(&first, one, &mut random), long(&second, other, &mut random));
                for table in [&first, &second] {
                    tree_agrees(table, &mut random);
                    tree_passes_through(table, &mut random);
                }
                let expected = passing_through_agrees(&first, &second, Expected::enumerated, &mut random);
                methods_agree(&first, &second, &expected);
            }
        }
    }
}

#[test]
fn near() {
    small_pairs_agree(Partner::Near);
}

#[test]
fn far() {
    small_pairs_agree(Partner::Far);
}

/// The other methods take pass-through nodes too.
fn methods_agree(first: &[u16], second: &[u16], expected: &Expected) {
    assert_eq!(cubic::cases(first, second), expected.quartets, "{first:?} and {second:?} by triples");
    assert_eq!(expanded::cases(first, second), expected.quartets, "{first:?} and {second:?} by expansion");
    let mut work = vec![0; expected.crossings.len()];
    let table = straight::quartet_table(first, second, &expected.marks, &mut work).expect("accepted");
    assert_eq!([table.a, table.b, table.c, table.d, table.e], expected.quartets, "{first:?} and {second:?} straight");
    assert_eq!(common_ancestors::triplet_cases(first, second), expected.triplets, "{first:?} and {second:?}");
}

#[test]
fn middle_pairs() {
    let mut random = Random::seeded(1110);
    for (at, shape) in Shape::ALL.into_iter().cycle().take(35).enumerate() {
        let partner = if at % 2 == 0 { Partner::Near } else { Partner::Far };
        let (first, second) = pair(shape, random.between(13, 64), partner, &mut random);
        let (first, second) = (any_chained(&first, &mut random), any_chained(&second, &mut random));
        for table in [&first, &second] {
            tree_agrees(table, &mut random);
            tree_passes_through(table, &mut random);
        }
        let expected = passing_through_agrees(&first, &second, Expected::enumerated, &mut random);
        methods_agree(&first, &second, &expected);
    }
}

/// 256 tips and 1024 nodes in both trees, each shape with another and each kind of chain with another.
#[test]
fn the_most_nodes() {
    let mut random = Random::seeded(1120);
    for (at, kinds) in kinds().enumerate() {
        let shapes = [Shape::ALL[at % 7], Shape::ALL[(at + at / 7) % 7]];
        let [first, second] = [(shapes[0], kinds.0), (shapes[1], kinds.1)].map(|(shape, chains)| {
            let bare = table(shape, 256, &mut random);
            chained(&bare, chains, 1024, &mut random)
        });
        assert_eq!(leskwyn::work_cells(&first, &second), Ok(leskwyn::WORK_CELLS));
        if at < 4 {
            tree_agrees(&second, &mut random);
            tree_passes_through(&second, &mut random);
        }
        let expected = passing_through_agrees(&first, &second, Expected::by_triples, &mut random);
        methods_agree(&first, &second, &expected);
    }
}

/// One slice with 1024 nodes: nothing differs, and the splits are those of the edges without pass-through nodes.
#[test]
fn one_slice() {
    let mut random = Random::seeded(1130);
    for chains in Chains::ALL {
        let bare = table(Shape::Binary, 256, &mut random);
        let long = chained(&bare, chains, 1024, &mut random);
        let expected = passing_through_agrees(&long, &long, Expected::by_triples, &mut random);
        assert_eq!((expected.quartets, expected.splits), ([174_792_640, 0, 0, 0, 0], [253, 253, 253, 0]));
        assert_eq!(expected.claims, [349_585_280, 349_585_280, 349_585_280, 0]);
        assert_eq!(expected.triplets, [255 * 254 * 253 / 6, 0, 0, 0, 0]);
    }
}

/// All ways of at most `most` things in so many places.
fn every_filling(places: usize, most: usize) -> Vec<Vec<usize>> {
    if places == 0 {
        return vec![vec![]];
    }
    let with_last = |last: usize| {
        every_filling(places - 1, most - last).into_iter().map(move |others| [others, vec![last]].concat())
    };
    (0..=most).flat_map(with_last).collect()
}

/// The tree with chains of those lengths, in the order of its edges.
fn filled(tree: &Graph, lengths: &[usize]) -> Graph {
    tree.edges_down()
        .into_iter()
        .zip(lengths)
        .fold(tree.clone(), |graph, (edge, &length)| graph.with_chain(edge, length))
}

/// Two tips and three, with every number of pass-through nodes on every edge up to 4n nodes: nothing is counted.
#[test]
fn every_table_of_two_and_three_tips() {
    let mut random = Random::seeded(1140);
    for (n, count) in [(2, 7), (3, 165)] {
        let tree = &Graph::every(n)[0];
        let edges = tree.edges_down().len();
        let fillings = every_filling(edges, 4 * n - tree.nodes());
        let tables: Vec<Vec<u16>> =
            fillings.iter().map(|lengths| filled(tree, lengths).table(Numbering::Any, &mut random)).collect();
        assert_eq!((tables.len(), tables.iter().map(|table| table[1]).max()), (count, Some(4 * n as u16)));
        for table in &tables {
            assert_eq!(leskwyn::check(table), Ok(()), "{table:?}");
            tree_agrees(table, &mut random);
        }
        for (first, second) in tables.iter().flat_map(|first| tables.iter().map(move |second| (first, second))) {
            let expected = Expected::enumerated(first, second);
            assert_eq!((expected.claims, expected.quartets, expected.splits), ([0; 4], [0; 5], [0; 4]));
            pair_agrees(first, second, &expected, &mut random);
        }
    }
}

/// Four tips, each edge of each tree with a pass-through node or without: one split in a tree at most, however many
/// edges have it.
#[test]
fn every_edge_of_four_tips() {
    let mut random = Random::seeded(1150);
    let mut tables = Vec::new();
    for tree in Graph::every(4) {
        let edges = tree.edges_down().len();
        let single = |lengths: &Vec<usize>| lengths.iter().all(|&length| length <= 1);
        for lengths in every_filling(edges, edges).into_iter().filter(single) {
            tables.push(filled(&tree, &lengths).table(Numbering::Any, &mut random));
        }
    }
    // Three binary trees with five edges and a star with four.
    assert_eq!(tables.len(), 3 * 32 + 16);
    for first in &tables {
        tree_agrees(first, &mut random);
        for second in &tables {
            let expected = Expected::enumerated(first, second);
            assert!(expected.splits[..2].iter().all(|&splits| splits <= 1), "{first:?} and {second:?}");
            pair_agrees(first, second, &expected, &mut random);
        }
    }
}

/// A chain above (1,2) in the one tree and a pass-through node there in the other: the split is one, and common.
#[test]
fn a_chain_has_one_split() {
    let mut random = Random::seeded(1160);
    const X: u16 = leskwyn::INNER;
    // ((1,2),3,4) below tip 0, with three edges above (1,2), then with two, then with labels 2 and 3 exchanged.
    let long = [5, 9, 0, 0, 1, 2, 3, 4, 4, 1, 1, 0, X, X, X, X, 1, 2, 3, 4];
    let short = [5, 8, 0, 0, 1, 2, 3, 3, 1, 1, 0, X, X, X, 1, 2, 3, 4];
    let other = [5, 8, 0, 0, 1, 2, 3, 3, 1, 1, 0, X, X, X, 1, 3, 2, 4];
    assert_eq!([&long[..], &short, &other].map(|table| pass_through_nodes(table).len()), [2, 1, 1]);
    for (first, second, splits) in
        [(&long[..], &short[..], [1, 1, 1, 0]), (&short, &long, [1, 1, 1, 0]), (&long, &other, [1, 1, 0, 2])]
    {
        let expected = passing_through_agrees(first, second, Expected::enumerated, &mut random);
        assert_eq!(expected.splits, splits);
    }
}
