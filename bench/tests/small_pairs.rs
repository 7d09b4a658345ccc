//! Tens of thousands of pairs of up to 12 tips against the enumerator, every exported function on each.

use bench::agree::{pair_agrees, tree_agrees, Expected};
use bench::generate::{pair, Partner, Shape};
use bench::random::Random;

/// Pairs for each shape and kind of partner; fourteen times as many in all.
const PAIRS: usize = 2_500;

fn pairs_agree(shape: Shape, partner: Partner) {
    let mut random = Random::seeded(100 + 10 * shape as u64 + partner as u64);
    for at in 0..PAIRS {
        let n = 2 + at % 11;
        let (first, second) = pair(shape, n, partner, &mut random);
        tree_agrees(&first, &mut random);
        tree_agrees(&second, &mut random);
        pair_agrees(&first, &second, &Expected::enumerated(&first, &second), &mut random);
    }
}

macro_rules! shapes {
    ($($name:ident: $shape:ident;)*) => {$(
        mod $name {
            use super::*;

            #[test]
            fn near() {
                pairs_agree(Shape::$shape, Partner::Near);
            }

            #[test]
            fn far() {
                pairs_agree(Shape::$shape, Partner::Far);
            }
        }
    )*};
}

shapes! {
    binary: Binary;
    caterpillar: Caterpillar;
    balanced: Balanced;
    star: Star;
    mixed: Mixed;
    contracted: Contracted;
    fours: Fours;
}

/// Both trees are one slice: everything is the same, nothing differs.
#[test]
fn one_slice() {
    let mut random = Random::seeded(200);
    for at in 0..2_000 {
        let shape = Shape::ALL[at % Shape::ALL.len()];
        let table = bench::generate::table(shape, 2 + at % 11, &mut random);
        let expected = Expected::enumerated(&table, &table);
        assert_eq!((&expected.quartets[1..4], &expected.triplets[1..4]), (&[0; 3][..], &[0; 3][..]));
        pair_agrees(&table, &table, &expected, &mut random);
    }
}
