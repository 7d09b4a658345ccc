//! Labels struck from the count: every figure and every cell against recounts over the kept labels, the figures against
//! those of the trees without the struck tips, and the numbers of wrong marks.

use bench::agree::{pair_agrees, passing_through_agrees, refused_agrees, weighted_agrees, Asked, Expected, Told};
use bench::damage::{damaged, Met, NUMBERS};
use bench::enumerate::sets_of_four;
use bench::evidence::every_four;
use bench::generate::{any_chained, any_marks, any_pair, chained, every_marks, marks, pair, table, wrong_marks};
use bench::generate::{Chains, Graph, Kept, Numbering, Partner, Shape};
use bench::pass_through::taken_out;
use bench::pruned::pruned;
use bench::random::Random;
use bench::reference::{P, Q, X};
use bench::straight;
use bench::weights::{every_kind, Weighing};
use leskwyn::{evidence, quartet_table, split_counts, triplet_table, work_cells};

/// Pairs for each shape and kind of partner.
const PAIRS: usize = 33;

fn kept_of(marks: &[u8]) -> u64 {
    marks.iter().map(|&mark| u64::from(mark)).sum()
}

/// The marks, and the same with label 0 struck or restored.
fn with_either_outgroup(marks: Vec<u8>) -> [Vec<u8>; 2] {
    let mut other = marks.clone();
    other[0] = 1 - other[0];
    [marks, other]
}

/// The five formulas, all sets of four kept labels, and the zero rule.
fn laws_hold(expected: &Expected) {
    let ([first, second, same, different], [a, b, c, d, e]) = (expected.claims, expected.quartets);
    assert_eq!([first, second, same, different], [2 * (a + b + c), 2 * (a + b + d), 2 * a, 4 * b], "{expected:?}");
    assert_eq!(a + b + c + d + e, sets_of_four(kept_of(&expected.marks)), "{expected:?}");
    assert_eq!(b + c + d == 0, expected.splits[3] == 0, "{expected:?}");
}

/// The straight method counts kept labels too.
fn straight_agrees(first: &[u16], second: &[u16], expected: &Expected) {
    let mut work = vec![0; expected.crossings.len()];
    let table = straight::quartet_table(first, second, &expected.marks, &mut work).expect("accepted");
    assert_eq!([table.a, table.b, table.c, table.d, table.e], expected.quartets, "{first:?} and {second:?}");
    assert_eq!(work, expected.crossings);
}

/// The figures are those of the trees without the struck tips, whose labels are all kept: with the pass-through nodes
/// that are left there, without any, and with others.
fn pruning_agrees(first: &[u16], second: &[u16], marks: &[u8], random: &mut Random) {
    let (Some(ours), Some(theirs)) = (pruned(first, marks), pruned(second, marks)) else {
        return;
    };
    let told = Told::of(first, second, marks);
    let bare = [&ours, &theirs].map(|table| taken_out(table).table);
    let other = [0, 1].map(|i| any_chained(&bare[i], random));
    for [ours, theirs] in [[ours, theirs], bare, other] {
        // Few kept tips can leave more than 4n nodes.
        if ours[1] <= 4 * ours[0] && theirs[1] <= 4 * theirs[0] {
            let all = vec![1; usize::from(ours[0])];
            assert_eq!(told, Told::of(&ours, &theirs, &all), "{first:?} and {second:?} under {marks:?}");
        }
    }
}

/// Every two trees of up to 5 tips under all marks.
#[test]
fn all_marks_of_every_pair() {
    let mut random = Random::seeded(1300);
    for n in 2..=5 {
        let [ours, theirs] = [Numbering::DepthFirst, Numbering::Any].map(|numbering| {
            let tables = Graph::every(n).into_iter().map(|tree| tree.table(numbering, &mut random));
            tables.collect::<Vec<_>>()
        });
        for (first, second) in ours.iter().flat_map(|first| theirs.iter().map(move |second| (first, second))) {
            for marks in every_marks(n) {
                let expected = Expected::marked(first, second, &marks);
                laws_hold(&expected);
                pair_agrees(first, second, &expected, &mut random);
            }
        }
    }
}

fn small_pairs_agree(partner: Partner) {
    let mut random = Random::seeded(1310 + partner as u64);
    for at in 0..PAIRS {
        for shape in Shape::ALL {
            let n = 2 + (at + random.below(2)) % 11;
            let [first, second] = any_pair(at, shape, n, partner, &mut random);
            for kept in Kept::ALL {
                for marks in with_either_outgroup(marks(kept, n, &mut random)) {
                    let count = |first: &[u16], second: &[u16]| Expected::marked(first, second, &marks);
                    let expected = passing_through_agrees(&first, &second, count, &mut random);
                    laws_hold(&expected);
                    straight_agrees(&first, &second, &expected);
                    pruning_agrees(&first, &second, &marks, &mut random);
                }
            }
        }
    }
}

#[test]
fn near() {
    small_pairs_agree(Partner::Near);
}

#[test]
fn far() {
    small_pairs_agree(Partner::Far);
}

#[test]
fn middle_pairs() {
    let mut random = Random::seeded(1320);
    for (at, shape) in Shape::ALL.into_iter().cycle().take(42).enumerate() {
        let partner = if at % 2 == 0 { Partner::Near } else { Partner::Far };
        let n = random.between(13, 64);
        let [first, second] = any_pair(at, shape, n, partner, &mut random);
        for marks in with_either_outgroup(marks(Kept::ALL[at / 2 % 6], n, &mut random)) {
            let expected = Expected::marked(&first, &second, &marks);
            assert_eq!(expected, Expected::by_pruning(&first, &second, &marks));
            laws_hold(&expected);
            pair_agrees(&first, &second, &expected, &mut random);
            straight_agrees(&first, &second, &expected);
            pruning_agrees(&first, &second, &marks, &mut random);
        }
    }
}

/// Two tables of so many tips and nodes; 0 nodes for a table without pass-through nodes.
fn large_pair(at: usize, n: usize, nodes: usize, random: &mut Random) -> [Vec<u16>; 2] {
    let shape = Shape::ALL[at % Shape::ALL.len()];
    let (first, second) = match at % 2 {
        0 => pair(shape, n, Partner::Near, random),
        _ => pair(shape, n, Partner::Far, random),
    };
    if nodes == 0 {
        return [first, second];
    }
    [first, second].map(|bare| chained(&bare, Chains::ALL[at % 4], nodes, random))
}

/// Pairs against the trees without the struck tips, all but so many of them without pass-through nodes.
fn large_pairs_agree(n: usize, pairs: usize, chained: usize) {
    let mut random = Random::seeded(1330 + n as u64);
    for at in 0..pairs {
        let nodes = if at < chained { 4 * n } else { 0 };
        let [first, second] = large_pair(at, n, nodes, &mut random);
        // Label 0 is struck in every other pair.
        let kept = [Kept::Half, Kept::AllButOne, Kept::Few, Kept::Half, Kept::One, Kept::None][at / 2 % 6];
        let mut marks = marks(kept, n, &mut random);
        marks[0] = (at % 2) as u8;
        let expected = Expected::by_pruning(&first, &second, &marks);
        laws_hold(&expected);
        pair_agrees(&first, &second, &expected, &mut random);
        straight_agrees(&first, &second, &expected);
        pruning_agrees(&first, &second, &marks, &mut random);
    }
}

#[test]
fn half_of_the_most_tips() {
    large_pairs_agree(128, 42, 12);
}

#[test]
fn the_most_tips() {
    large_pairs_agree(256, 28, 4);
}

/// Each set of four is left when another label is struck: in all n - 4 times.
#[test]
fn one_label_after_the_other() {
    let mut random = Random::seeded(1340);
    for n in [4, 5, 12, 40, 129, 256] {
        let [first, second] = [Shape::Binary, Shape::Mixed].map(|shape| table(shape, n, &mut random));
        let mut work = vec![0; work_cells(&first, &second).expect("accepted")];
        let mut counts = |marks: &[u8]| {
            let told = quartet_table(&first, &second, marks, &mut work).expect("accepted");
            [told.a, told.b, told.c, told.d, told.e, told.distance]
        };
        let all = counts(&vec![1; n]);
        let mut sums = [0; 6];
        for struck in 0..n {
            let marks: Vec<u8> = (0..n).map(|label| u8::from(label != struck)).collect();
            sums.iter_mut().zip(counts(&marks)).for_each(|(sum, count)| *sum += count);
        }
        assert_eq!(sums, all.map(|count| (n as u64 - 4) * count), "{first:?} and {second:?}");
    }
}

/// Both trees one slice: nothing differs, whatever is struck.
#[test]
fn one_slice() {
    let mut random = Random::seeded(1350);
    for at in 0..300 {
        let n = 2 + at % 40;
        let table = table(Shape::ALL[at % Shape::ALL.len()], n, &mut random);
        let expected = Expected::marked(&table, &table, &any_marks(n, &mut random));
        assert_eq!(expected.quartets[1..4], [0; 3]);
        assert_eq!((expected.splits[0], expected.splits[3]), (expected.splits[2], 0));
        pair_agrees(&table, &table, &expected, &mut random);
    }
}

/// The evidence for sets of four kept labels tells the cases in which they are counted.
#[test]
fn cases_of_the_evidence() {
    let mut random = Random::seeded(1360);
    for at in 0..600 {
        let n = 4 + at % 9;
        let [first, second] = any_pair(at, Shape::ALL[at % Shape::ALL.len()], n, Partner::Far, &mut random);
        let marks = any_marks(n, &mut random);
        let mut counts = [0; 5];
        for [a, b, c, d] in every_four(first[0]).filter(|four| four.iter().all(|&label| marks[usize::from(label)] == 1))
        {
            counts[evidence(&first, &second, a, b, c, d).expect("accepted").which as usize] += 1;
        }
        let mut work = vec![0; work_cells(&first, &second).expect("accepted")];
        let told = quartet_table(&first, &second, &marks, &mut work).expect("accepted");
        assert_eq!([told.a, told.b, told.c, told.d, told.e], counts, "{first:?} and {second:?} under {marks:?}");
    }
}

/// The triplet table counts all labels in the cells in which kept ones were counted.
#[test]
fn triplets_of_all_labels() {
    let mut random = Random::seeded(1370);
    for at in 0..300 {
        let n = 4 + at % 30;
        let [first, second] = any_pair(at, Shape::ALL[at % Shape::ALL.len()], n, Partner::Far, &mut random);
        let expected = Expected::marked(&first, &second, &any_marks(n, &mut random));
        let mut work = random.bytes(expected.crossings.len());
        quartet_table(&first, &second, &expected.marks, &mut work).expect("accepted");
        assert_eq!(work, expected.crossings);
        let told = triplet_table(&first, &second, &mut work).expect("accepted");
        assert_eq!([told.a, told.b, told.c, told.d, told.e], expected.triplets, "{first:?} and {second:?}");
        assert_eq!(work, expected.all_crossings);
    }
}

/// The split counts of two tables under marks, by the enumerator and by the library.
fn splits_of(first: &[u16], second: &[u16], marks: &[u8]) -> [u64; 4] {
    let expected = Expected::marked(first, second, marks);
    pair_agrees(first, second, &expected, &mut Random::seeded(1380));
    expected.splits
}

/// Without tip 0 what lies beyond one edge can be what does not lie beyond another.
#[test]
fn complementary_sets() {
    // Below tip 0: ((1,2),(3,4)), ((1,2),3,4), (1,2,(3,4)) and ((1,3),(2,4)).
    let both = &[5, 8, 0, 0, 1, 2, 2, 1, 5, 5, 0, X, X, 1, 2, X, 3, 4];
    let left = &[5, 7, 0, 0, 1, 2, 2, 1, 1, 0, X, X, 1, 2, 3, 4];
    let right = &[5, 7, 0, 0, 1, 1, 1, 4, 4, 0, X, 1, 2, X, 3, 4];
    let crossed = &[5, 8, 0, 0, 1, 2, 2, 1, 5, 5, 0, X, X, 1, 3, X, 2, 4];
    let (all, without_0) = (&[1; 5], &[0, 1, 1, 1, 1]);
    assert_eq!(splits_of(both, both, all), [2, 2, 2, 0]);
    assert_eq!(splits_of(both, both, without_0), [1, 1, 1, 0]);
    assert_eq!(splits_of(left, right, all), [1, 1, 0, 2]);
    assert_eq!(splits_of(left, right, without_0), [1, 1, 1, 0]);
    assert_eq!(splits_of(right, both, without_0), [1, 1, 1, 0]);
    assert_eq!(splits_of(both, crossed, without_0), [1, 1, 0, 2]);
    // The same with 5 below node 1 and struck besides, with 5 above (3,4), and with pass-through nodes above both halves.
    let marks = &[0, 1, 1, 1, 1, 0];
    let beside = &[6, 9, 0, 0, 1, 2, 2, 1, 5, 5, 1, 0, X, X, 1, 2, X, 3, 4, 5];
    let above = &[6, 10, 0, 0, 1, 2, 2, 1, 5, 6, 6, 5, 0, X, X, 1, 2, X, X, 3, 4, 5];
    let long = &[6, 13, 0, 0, 1, 2, 3, 4, 4, 3, 7, 8, 9, 9, 1, 0, X, X, X, X, 1, 2, X, X, X, 3, 4, 5];
    for first in [&beside[..], above, long] {
        for second in [&beside[..], above, long] {
            assert_eq!(splits_of(first, second, marks), [1, 1, 1, 0], "{first:?} and {second:?}");
        }
    }
    // With 5 kept and 0 struck ((1,2),((3,4),5)) and ((1,2),(3,4),5) are one tree.
    assert_eq!(splits_of(above, beside, &[1; 6]), [3, 2, 2, 1]);
    assert_eq!(splits_of(above, beside, &[0, 1, 1, 1, 1, 1]), [2, 2, 2, 0]);
}

/// A binary tree of k kept tips has k - 3 splits, whether tip 0 is one of them or not.
#[test]
fn splits_of_binary_trees() {
    let mut random = Random::seeded(1390);
    for at in 0..200 {
        let n = if at % 20 == 0 { 256 } else { random.between(4, 60) };
        let table = table(Shape::Binary, n, &mut random);
        let mut work = vec![0; work_cells(&table, &table).expect("accepted")];
        for marks in with_either_outgroup(any_marks(n, &mut random)) {
            let splits = kept_of(&marks).saturating_sub(3);
            let told = split_counts(&table, &table, &marks, &mut work).expect("accepted");
            assert_eq!([told.first, told.second, told.common, told.distance], [splits, splits, splits, 0], "{table:?}");
        }
    }
}

/// Every byte above 1 in every place, and every other number of marks up to 300.
#[test]
fn every_wrong_mark() {
    let mut random = Random::seeded(1400);
    for n in [2, 3, 6, 16] {
        let [first, second] = [0; 2].map(|_| table(*random.pick(&Shape::ALL), n, &mut random));
        let cells = (usize::from(first[1]) - 1) * (usize::from(second[1]) - 1);
        for (at, byte) in (0..n).flat_map(|at| (2..=255).map(move |byte| (at, byte))) {
            let mut marks = any_marks(n, &mut random);
            marks[at] = byte;
            let cells = *random.pick(&[cells, cells + 1, cells - 1, 0]);
            let asked = Asked { first: &first, second: &second, marks: &marks, cells };
            assert_eq!(refused_agrees(&asked, &mut random), 32, "{byte} at {at} of {n}");
        }
        for count in (0..=300).filter(|&count| count != n) {
            let cells = *random.pick(&[cells, cells + 1, cells - 1, 0]);
            let asked = Asked { first: &first, second: &second, marks: &vec![1; count], cells };
            assert_eq!(refused_agrees(&asked, &mut random), 32, "{count} of {n}");
        }
    }
}

/// One mark too few, one too many and one above 1, at every size.
#[test]
fn wrong_marks_of_every_size() {
    let mut random = Random::seeded(1410);
    for n in 2..=256 {
        let [first, second] = [0; 2].map(|_| table(*random.pick(&Shape::ALL), n, &mut random));
        let cells = (usize::from(first[1]) - 1) * (usize::from(second[1]) - 1);
        let mut above = vec![1; n];
        above[random.below(n)] = 2;
        for marks in [vec![1; n - 1], vec![1; n + 1], above, vec![]] {
            let cells = if n <= 64 { *random.pick(&[cells, cells - 1, 0]) } else { 0 };
            let asked = Asked { first: &first, second: &second, marks: &marks, cells };
            assert_eq!(refused_agrees(&asked, &mut random), 32, "{marks:?} of {n}");
        }
    }
}

/// The tables, 8, 32, 9, 30: the first that holds decides, whichever others do.
#[test]
fn the_order_of_numbers() {
    let mut random = Random::seeded(1420);
    let mut met = Met::default();
    let weighings = every_kind(&[0.5, -0.0, 0.3, f64::NAN]);
    for _ in 0..20_000 {
        let n = random.between(3, 12);
        let [mut first, mut second] = [0; 2].map(|_| table(*random.pick(&Shape::ALL), n, &mut random));
        let enough = (usize::from(first[1]) - 1) * (usize::from(second[1]) - 1);
        if random.chance(15) {
            first = damaged(&first, *random.pick(&NUMBERS), &mut random);
        }
        if random.chance(15) {
            second = damaged(&second, *random.pick(&NUMBERS), &mut random);
        }
        if random.chance(10) {
            second = table(*random.pick(&Shape::ALL), n - 1, &mut random);
        }
        let marks = if random.chance(50) { wrong_marks(n, &mut random) } else { any_marks(n, &mut random) };
        let cells = if random.chance(50) { random.below(enough) } else { enough + random.below(3) };
        let asked = Asked { first: &first, second: &second, marks: &marks, cells };
        let number = asked.refusal();
        met.meet(number);
        let expected = (number == 0).then(|| Expected::marked(&first, &second, &marks));
        let weighing: Weighing = *random.pick(&weighings);
        weighted_agrees(&asked, weighing, expected.as_ref(), &mut random);
        let straight = straight::quartet_table(&first, &second, &marks, &mut vec![0; cells]);
        assert_eq!(straight.err().unwrap_or(0), number, "straight, of {asked:?}");
        match expected {
            Some(expected) => {
                met.meet(if weighing.numerator().is_none() { 30 } else { 0 });
                pair_agrees(&first, &second, &expected, &mut random);
            }
            None => assert_eq!(refused_agrees(&asked, &mut random), number),
        }
    }
    met.at_least(100, NUMBERS.into_iter().chain(NUMBERS.map(|number| 100 + number)).chain([0, 8, 9, 30, 32]));
}

/// P and Q with one label struck in turn, as worked out by hand: A to E, and the splits.
#[test]
fn p_and_q_with_a_label_struck() {
    let mut random = Random::seeded(1430);
    let alike = ([1, 0, 0, 0, 0], [1, 1, 1, 0]);
    let open = ([0, 0, 1, 0, 0], [1, 0, 0, 1]);
    for (struck, figures) in [open, open, alike, alike, alike].into_iter().enumerate() {
        let mut marks = [1; 5];
        marks[struck] = 0;
        let expected = Expected::marked(P, Q, &marks);
        assert_eq!((expected.quartets, expected.splits), figures, "without {struck}");
        pair_agrees(P, Q, &expected, &mut random);
    }
}
