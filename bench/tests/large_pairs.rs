//! Pairs of 128 and of 256 tips against the O(n^3) methods, every exported function on each.

use bench::agree::{pair_agrees, tree_agrees, Expected};
use bench::generate::{pair, table, Graph, Numbering, Partner, Shape};
use bench::random::Random;

/// Every shape with every other, and with a near partner.
fn pairs_agree(n: usize) {
    let mut random = Random::seeded(400 + n as u64);
    for shape in Shape::ALL {
        for other in Shape::ALL {
            let first = table(shape, n, &mut random);
            let second = table(other, n, &mut random);
            pair_agrees(&first, &second, &Expected::by_triples(&first, &second), &mut random);
        }
        let (first, second) = pair(shape, n, Partner::Near, &mut random);
        tree_agrees(&first, &mut random);
        tree_agrees(&second, &mut random);
        pair_agrees(&first, &second, &Expected::by_triples(&first, &second), &mut random);
    }
}

#[test]
fn half_of_the_most_tips() {
    pairs_agree(128);
}

#[test]
fn the_most_tips() {
    pairs_agree(256);
}

/// Both trees one slice, of each shape and numbering: A is what the tree resolves, E what it leaves open.
#[test]
fn one_slice() {
    let mut random = Random::seeded(420);
    for shape in Shape::ALL {
        for numbering in Numbering::ALL {
            let table = Graph::of(shape, 256, &mut random).table(numbering, &mut random);
            let expected = Expected::by_triples(&table, &table);
            assert_eq!((&expected.quartets[1..4], &expected.triplets[1..4]), (&[0; 3][..], &[0; 3][..]));
            pair_agrees(&table, &table, &expected, &mut random);
        }
    }
}

/// The sums at their largest: a binary tree with itself, and a pair that differs everywhere it can.
#[test]
fn the_largest_sums() {
    let mut random = Random::seeded(430);
    let table = table(Shape::Binary, 256, &mut random);
    let sums = leskwyn::claim_sums(&table, &table, &[1; 256], &mut vec![0; leskwyn::WORK_CELLS]).expect("accepted");
    assert_eq!((sums.first, sums.second, sums.same, sums.different), (349_585_280, 349_585_280, 349_585_280, 0));
    let triplets = leskwyn::triplet_table(&table, &table, &mut vec![0; leskwyn::WORK_CELLS]).expect("accepted");
    assert_eq!((triplets.a, triplets.e, triplets.distance), (255 * 254 * 253 / 6, 0, 0));
}
