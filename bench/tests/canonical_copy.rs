//! Canonical copies: every word against a copy made from sets of labels, and the rules of a copy; equal words against
//! equal splits; the figures of copies against those of the trees under marks; and every number in its order.

use std::iter::successors;

use bench::agree::{copy_agrees, told_triplets, Told};
use bench::copied::kept_labels;
use bench::damage::{damaged, Met, NUMBERS};
use bench::enumerate::{held_cases, split_counts, Tips, Tree};
use bench::generate::{any_chained, any_marks, any_pair, chained, every_marks, marks, table, wrong_marks};
use bench::generate::{Chains, Graph, Kept, Numbering, Partner, Shape};
use bench::pass_through::{pass_through_nodes, taken_out};
use bench::pruned::pruned;
use bench::random::Random;
use bench::reference::{P, X};
use bench::{common_ancestors, enumerate};
use leskwyn::{canonical_copy, TripletTable};

/// The most tips of pairs whose triplets are enumerated.
const ENUMERATED: usize = 16;

/// A mark of 1 for each label of a copy.
fn ones(copy: &[u16]) -> Vec<u8> {
    vec![1; usize::from(copy[0])]
}

/// The number of a table copied under marks into so many cells.
fn number(table: &[u16], marks: &[u8], cells: usize, random: &mut Random) -> u16 {
    copy_agrees(table, marks, cells, random).err().unwrap_or(0)
}

/// The copy of an accepted table in as many cells as it has words itself, or none where fewer than two labels are kept:
/// then so many cells are no better, nor are none.
fn copy_of(table: &[u16], marks: &[u8], random: &mut Random) -> Option<Vec<u16>> {
    let copy = copy_agrees(table, marks, table.len(), random);
    if kept_labels(marks).len() >= 2 {
        return Some(copy.expect("cells enough"));
    }
    assert_eq!([copy.err().unwrap_or(0), number(table, marks, 0, random)], [35; 2], "{table:?} under {marks:?}");
    None
}

/// As many cells as the copy has words are enough, and more of them stay. One less is too few, and so are any fewer.
fn slices_agree(table: &[u16], marks: &[u8], copy: &[u16], random: &mut Random) {
    let (words, spare) = (copy.len(), random.between(1, 20));
    for (cells, expected) in [(words, 0), (words + spare, 0), (words - 1, 36), (random.below(words), 36), (0, 36)] {
        assert_eq!(number(table, marks, cells, random), expected, "{table:?} under {marks:?} in {cells} cells");
    }
}

/// A table under the original rules, with its nodes numbered depth first and children in the order of their smallest
/// labels.
fn is_canonical(copy: &[u16]) {
    assert_eq!((enumerate::tree_refusal(copy), leskwyn::check(copy)), (0, Ok(())), "{copy:?}");
    let (n, m) = (usize::from(copy[0]), usize::from(copy[1]));
    assert!(m <= 2 * n - 2 && pass_through_nodes(copy).is_empty(), "{copy:?}");
    let (parents, tree) = (&copy[2..2 + m], Tree::of(copy));
    let smallest = |node: usize| tree.labels_beyond(node as u16)[0];
    for node in 2..m {
        // A node hangs from the one before it, or from one above that.
        let parent = usize::from(parents[node]);
        let mut climb = successors(Some(node - 1), |&at| (at > 1).then(|| usize::from(parents[at])));
        assert!(climb.any(|at| at == parent), "{node} is not depth first in {copy:?}");
        let before = (2..node).rev().find(|&sibling| parents[sibling] == parents[node]);
        assert!(before.is_none_or(|sibling| smallest(sibling) < smallest(node)), "children of {parent} in {copy:?}");
    }
}

/// A copy is canonical, has the splits of the tree without struck tips, and is its own copy.
fn rules_hold(table: &[u16], marks: &[u8], copy: &[u16], random: &mut Random) {
    is_canonical(copy);
    let left = taken_out(&pruned(table, marks).expect("two kept labels")).table;
    assert_eq!(copy[..2], left[..2], "tips and nodes of {table:?} under {marks:?}");
    let [ours, theirs] = [copy, &left].map(Tree::of);
    assert_eq!(split_counts(&ours, &theirs, Tips::kept(&ones(copy)))[3], 0, "{table:?} under {marks:?}");
    assert_eq!(copy_agrees(copy, &ones(copy), copy.len(), random).as_deref(), Ok(copy), "the copy's own copy");
}

/// Every tree of so many tips, with pass-through nodes in every other table, under all marks.
fn every_tree(n: usize, mut meet: impl FnMut(&[u16], &[u8], &mut Random)) {
    let mut random = Random::seeded(1700 + n as u64);
    for (at, tree) in Graph::every(n).into_iter().enumerate() {
        let bare = tree.table(Numbering::ALL[at / 2 % 3], &mut random);
        let table = if at % 2 == 0 { bare } else { any_chained(&bare, &mut random) };
        every_marks(n).for_each(|marks| meet(&table, &marks, &mut random));
    }
}

#[test]
fn every_tree_of_up_to_six_tips() {
    for n in 2..=6 {
        every_tree(n, |table, marks, random| {
            if let Some(copy) = copy_of(table, marks, random) {
                slices_agree(table, marks, &copy, random);
                rules_hold(table, marks, &copy, random);
            }
        });
    }
}

#[test]
fn every_tree_of_seven_tips() {
    every_tree(7, |table, marks, random| {
        if let Some(copy) = copy_of(table, marks, random) {
            let few = canonical_copy(table, marks, &mut vec![0; copy.len() - 1]).unwrap_err();
            assert_eq!(few.number(), 36, "{table:?} under {marks:?}");
        }
    });
}

/// Trees of every shape, label 0 struck in every other turn.
#[test]
fn random_trees() {
    let mut random = Random::seeded(1710);
    for at in 0..600 {
        let n = if at % 20 == 0 { random.between(65, 256) } else { 2 + at % 63 };
        let bare = table(Shape::ALL[at % Shape::ALL.len()], n, &mut random);
        let table = if at % 3 == 0 { bare } else { any_chained(&bare, &mut random) };
        for kept in Kept::ALL {
            let mut marks = marks(kept, n, &mut random);
            marks[0] = (at % 2) as u8;
            if let Some(copy) = copy_of(&table, &marks, &mut random) {
                slices_agree(&table, &marks, &copy, &mut random);
                rules_hold(&table, &marks, &copy, &mut random);
            }
        }
    }
}

/// 256 tips and up to 1024 nodes. With all labels kept a binary tree's copy has 510 nodes and 1022 words, the most there
/// are.
#[test]
fn the_most_tips() {
    let mut random = Random::seeded(1720);
    for shape in Shape::ALL {
        let bare = table(shape, 256, &mut random);
        let all = copy_of(&bare, &[1; 256], &mut random).expect("all kept");
        assert!(shape != Shape::Binary || all.len() == 1022);
        for chains in Chains::ALL {
            let long = chained(&bare, chains, 1024, &mut random);
            assert_eq!(copy_of(&long, &[1; 256], &mut random), Some(all.clone()), "{long:?}");
            for kept in [Kept::AllButOne, Kept::Half, Kept::Few] {
                let marks = marks(kept, 256, &mut random);
                let copy = copy_of(&long, &marks, &mut random).expect("two kept labels");
                slices_agree(&long, &marks, &copy, &mut random);
                rules_hold(&long, &marks, &copy, &mut random);
            }
        }
    }
}

/// The words that the library writes.
fn words(table: &[u16], marks: &[u8]) -> Vec<u16> {
    let mut cells = vec![0; table.len()];
    canonical_copy(table, marks, &mut cells).expect("accepted").to_vec()
}

/// Whether two trees have the same copy, which they have exactly if they have the same splits of kept labels.
fn same_words(first: &[u16], second: &[u16], marks: &[u8]) -> bool {
    let is_same = words(first, marks) == words(second, marks);
    let [ours, theirs] = [first, second].map(Tree::of);
    let [.., distance] = split_counts(&ours, &theirs, Tips::kept(marks));
    assert_eq!(is_same, distance == 0, "{first:?} and {second:?} under {marks:?}");
    is_same
}

/// Every two trees of up to 5 tips, under all marks that keep two labels or more.
#[test]
fn words_of_every_pair() {
    let mut random = Random::seeded(1730);
    let mut met = Met::default();
    for n in 2..=5 {
        let [ours, theirs] = [Numbering::DepthFirst, Numbering::Any].map(|numbering| {
            let tables = Graph::every(n).into_iter().map(|tree| tree.table(numbering, &mut random));
            tables.collect::<Vec<_>>()
        });
        for (first, second) in ours.iter().flat_map(|first| theirs.iter().map(move |second| (first, second))) {
            for marks in every_marks(n).filter(|marks| kept_labels(marks).len() >= 2) {
                met.meet(u16::from(same_words(first, second, &marks)));
            }
        }
    }
    met.at_least(3_000, [0, 1]);
}

/// Near partners often have the same splits, and trees of far ones where few labels are kept.
#[test]
fn words_of_pairs() {
    let mut random = Random::seeded(1740);
    let mut met = Met::default();
    for at in 0..3_000 {
        let n = if at % 100 == 0 { random.between(65, 256) } else { 2 + at % 40 };
        let partner = if at % 4 == 0 { Partner::Far } else { Partner::Near };
        let [first, second] = any_pair(at, Shape::ALL[at % Shape::ALL.len()], n, partner, &mut random);
        let marks = any_marks(n, &mut random);
        if copy_of(&first, &marks, &mut random).is_some() {
            met.meet(u16::from(same_words(&first, &second, &marks)));
        }
    }
    met.at_least(500, [0, 1]);
}

/// Two trees with the same splits of kept labels, whatever the struck ones do, and whatever the table: other numbers of
/// nodes, pass-through nodes, and the tree without struck tips.
#[test]
fn trees_that_differ_in_struck_labels() {
    let mut random = Random::seeded(1750);
    let mut differ = 0;
    for at in 0..1_000 {
        let n = if at % 50 == 0 { random.between(33, 256) } else { 3 + at % 30 };
        let marks = marks(*random.pick(&[Kept::Few, Kept::Half, Kept::AllButOne]), n, &mut random);
        let kept = kept_labels(&marks).len();
        if kept < 2 {
            continue;
        }
        let tree = Graph::of(Shape::ALL[at % Shape::ALL.len()], kept, &mut random);
        let [bare, first, second] = [0; 3].map(|_| {
            let numbering = *random.pick(&Numbering::ALL);
            tree.with_struck_tips(&marks, &mut random).table(numbering, &mut random)
        });
        let second = any_chained(&second, &mut random);
        let copy = copy_of(&bare, &marks, &mut random);
        assert_eq!(copy_of(&first, &marks, &mut random), copy, "{bare:?} and {first:?} under {marks:?}");
        assert_eq!(copy_of(&second, &marks, &mut random), copy, "{bare:?} and {second:?} under {marks:?}");
        let alone = any_chained(&tree.table(Numbering::Any, &mut random), &mut random);
        assert_eq!(copy_of(&alone, &vec![1; kept], &mut random), copy, "{alone:?} and {bare:?} under {marks:?}");
        differ += usize::from(words(&first, &vec![1; n]) != words(&second, &vec![1; n]));
    }
    assert!(differ >= 500, "{differ} pairs of different trees");
}

/// The triplets of kept labels from the smallest of them on: the sets of four that hold it, or the lowest common ancestors
/// in the trees without struck tips.
fn kept_triplets(first: &[u16], second: &[u16], marks: &[u8]) -> [u64; 5] {
    if marks.len() <= ENUMERATED {
        return held_cases(&Tree::of(first), &Tree::of(second), Tips::kept(marks), kept_labels(marks)[0]);
    }
    let [ours, theirs] = [first, second].map(|table| pruned(table, marks).expect("two kept labels"));
    common_ancestors::triplet_cases(&ours, &theirs)
}

/// What is counted of two copies with all labels kept is what is counted of the trees under the marks.
fn figures_agree(first: &[u16], second: &[u16], marks: &[u8], random: &mut Random) {
    let (Some(ours), Some(theirs)) = (copy_of(first, marks, random), copy_of(second, marks, random)) else {
        return;
    };
    let told = Told::of(first, second, marks);
    assert_eq!(Told::of(&ours, &theirs, &ones(&ours)), told, "{first:?} and {second:?} under {marks:?}");
    let TripletTable { a, b, c, d, e, distance } = told_triplets(&ours, &theirs);
    assert_eq!([a, b, c, d, e], kept_triplets(first, second, marks), "{first:?} and {second:?} under {marks:?}");
    assert_eq!(distance, b + c + d);
}

#[test]
fn figures_of_copies() {
    let mut random = Random::seeded(1760);
    for at in 0..1_200 {
        let n = if at % 6 == 0 { random.between(ENUMERATED + 1, 48) } else { 2 + at % (ENUMERATED - 1) };
        let partner = if at % 3 == 0 { Partner::Near } else { Partner::Far };
        let [first, second] = any_pair(at, Shape::ALL[at % Shape::ALL.len()], n, partner, &mut random);
        for label_0 in [0, 1] {
            let mut marks = any_marks(n, &mut random);
            marks[0] = label_0;
            figures_agree(&first, &second, &marks, &mut random);
        }
    }
}

#[test]
fn figures_of_large_copies() {
    let mut random = Random::seeded(1770);
    for at in 0..21 {
        let n = if at % 3 == 0 { 256 } else { random.between(49, 255) };
        let [first, second] = any_pair(at, Shape::ALL[at % Shape::ALL.len()], n, Partner::Far, &mut random);
        let mut marks = marks([Kept::Half, Kept::AllButOne, Kept::Half, Kept::All][at % 4], n, &mut random);
        marks[0] = (at % 2) as u8;
        figures_agree(&first, &second, &marks, &mut random);
    }
}

/// Every rule broken, and then one after the other kept: each number has its turn.
#[test]
fn one_rule_after_the_other() {
    let mut random = Random::seeded(1780);
    let repeated = &[5, 6, 0, 0, 1, 1, 1, 1, 0, X, 1, 2, 3, 3];
    let (none, high, one, two) = (&[][..], &[0, 0, 0, 0, 2][..], &[0, 0, 0, 1, 0][..], &[0, 0, 0, 1, 1][..]);
    for (table, marks, cells, expected) in [
        (&[5][..], none, 0, 1),
        (&P[..17], high, 0, 4),
        (repeated, high, 0, 31),
        (P, none, 0, 32),
        (P, &[1; 4], 18, 32),
        (P, &[1; 6], 18, 32),
        (P, high, 0, 32),
        (P, one, 0, 35),
        (P, &[0; 5], 18, 35),
        (P, two, 0, 36),
        (P, two, 5, 36),
        (P, two, 6, 0),
        (P, &[1; 5], 17, 36),
        (P, &[1; 5], 18, 0),
    ] {
        assert_eq!(number(table, marks, cells, &mut random), expected, "{table:?} under {marks:?} in {cells} cells");
    }
}

/// The table's numbers, 32, 35, 36: the first that holds decides, whichever others do, and no cell changes.
#[test]
fn the_order_of_numbers() {
    let mut random = Random::seeded(1790);
    let mut met = Met::default();
    for at in 0..20_000 {
        let n = if at % 100 == 0 { random.between(13, 256) } else { random.between(2, 12) };
        let bare = table(*random.pick(&Shape::ALL), n, &mut random);
        let mut table = if random.chance(50) { any_chained(&bare, &mut random) } else { bare };
        if random.chance(40) {
            table = damaged(&table, *random.pick(&NUMBERS), &mut random);
        }
        let marks = if random.chance(20) { wrong_marks(n, &mut random) } else { any_marks(n, &mut random) };
        let cells = random.below(4 * n + 4);
        met.meet(number(&table, &marks, cells, &mut random));
    }
    met.at_least(200, NUMBERS.into_iter().chain([32, 35, 36, 0]));
}
