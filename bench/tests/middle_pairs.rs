//! Hundreds of pairs of 13 to 64 tips against the enumerator, every exported function on each.

use bench::agree::{pair_agrees, tree_agrees, Expected};
use bench::enumerate::Tree;
use bench::generate::{pair, Partner, Shape};
use bench::random::Random;
use bench::{common_ancestors, cubic, enumerate, expanded};

/// Pairs for each shape and kind of partner.
const PAIRS: usize = 26;

fn pairs_agree(partner: Partner) {
    let mut random = Random::seeded(300 + partner as u64);
    for at in 0..PAIRS {
        for shape in Shape::ALL {
            let n = 13 + 2 * at + random.below(2);
            let (first, second) = pair(shape, n.min(64), partner, &mut random);
            tree_agrees(&first, &mut random);
            tree_agrees(&second, &mut random);
            let expected = Expected::enumerated(&first, &second);
            pair_agrees(&first, &second, &expected, &mut random);
            assert_eq!(cubic::cases(&first, &second), expected.quartets);
            assert_eq!(expanded::cases(&first, &second), expected.quartets);
            assert_eq!(common_ancestors::triplet_cases(&first, &second), expected.triplets);
            let with_outgroup = enumerate::cases_with_outgroup(&Tree::of(&first), &Tree::of(&second));
            assert_eq!(with_outgroup, expected.triplets);
        }
    }
}

#[test]
fn near() {
    pairs_agree(Partner::Near);
}

#[test]
fn far() {
    pairs_agree(Partner::Far);
}

/// Every shape with every other at the most tips that the enumerator takes.
#[test]
fn sixty_four_tips() {
    let mut random = Random::seeded(310);
    for first in Shape::ALL {
        for second in Shape::ALL {
            let first = bench::generate::table(first, 64, &mut random);
            let second = bench::generate::table(second, 64, &mut random);
            pair_agrees(&first, &second, &Expected::enumerated(&first, &second), &mut random);
        }
    }
}
