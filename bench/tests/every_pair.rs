//! Every two trees of up to 6 tips against the enumerator, every exported function on each.

use bench::agree::{pair_agrees, tree_agrees, Expected};
use bench::common_ancestors;
use bench::enumerate::{self, Tree};
use bench::generate::{Graph, Numbering};
use bench::random::Random;

/// How many trees there are of 2 to 6 labelled tips whose inner nodes have degree three or more.
const TREES: [(usize, usize); 5] = [(2, 1), (3, 1), (4, 4), (5, 26), (6, 236)];

fn tables(n: usize, numbering: Numbering, random: &mut Random) -> Vec<Vec<u16>> {
    Graph::every(n).iter().map(|tree| tree.table(numbering, random)).collect()
}

#[test]
fn every_tree() {
    let mut random = Random::seeded(700);
    for (n, trees) in TREES {
        let found = tables(n, Numbering::DepthFirst, &mut random);
        assert_eq!(found.len(), trees, "trees of {n} tips");
        for (i, table) in found.iter().enumerate() {
            tree_agrees(table, &mut random);
            let of_tree = Tree::of(table);
            for other in &found[..i] {
                assert_ne!(enumerate::cases(&of_tree, &Tree::of(other))[1..4], [0, 0, 0], "{table:?} and {other:?}");
            }
        }
    }
}

#[test]
fn every_pair() {
    let mut random = Random::seeded(710);
    for (n, _) in TREES {
        let (ours, theirs) = (tables(n, Numbering::DepthFirst, &mut random), tables(n, Numbering::Any, &mut random));
        for (first, second) in ours.iter().flat_map(|first| theirs.iter().map(move |second| (first, second))) {
            pair_agrees(first, second, &Expected::enumerated(first, second), &mut random);
        }
    }
}

/// The triplets by climbing, by a table of lowest common ancestors, and as the sets of four that hold tip 0.
#[test]
fn triplets_in_three_ways() {
    let mut random = Random::seeded(720);
    for (n, _) in TREES {
        let tables = tables(n, Numbering::Any, &mut random);
        for (first, second) in tables.iter().flat_map(|first| tables.iter().map(move |second| (first, second))) {
            let (ours, theirs) = (Tree::of(first), Tree::of(second));
            let found = enumerate::triplet_cases(&ours, &theirs);
            assert_eq!(found, common_ancestors::triplet_cases(first, second), "{first:?} and {second:?}");
            assert_eq!(found, enumerate::cases_with_outgroup(&ours, &theirs), "{first:?} and {second:?}");
            assert_eq!(found.iter().sum::<u64>(), ((n - 1) * (n - 2) * (n - 3) / 6) as u64);
        }
    }
}
