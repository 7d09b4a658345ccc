//! What a viewer is told: every figure and every topology against an enumeration of visible labels, of larger trees
//! against the O(n^3) method; against the calls with marks; two desks that agree on what is visible and differ in all
//! else, and two that differ in one visible topology; and every number in its order.

use bench::agree::{view_agrees, view_topology_agrees};
use bench::damage::{damaged, Met, NUMBERS};
use bench::enumerate::{tree_refusal, Tree};
use bench::generate::{any_chained, any_levels, any_marks, any_pair, chained, every_marks, levels, marks};
use bench::generate::{table, wrong_levels, Chains, Graph, Kept, Numbering, Partner, Shape};
use bench::random::Random;
use bench::reference::{P, PAIRS, Q, R, W, X};
use bench::viewed::{every_four_of, view, view_by_pruning, Levels};
use leskwyn::raw::{self, TopologyAnswer};
use leskwyn::{crossings, quartet_table, split_counts, topology, view_topology, work_cells, QuartetTable, Refusal};
use leskwyn::{SplitCounts, View};

/// The most tips of pairs whose sets of four are enumerated.
const ENUMERATED: usize = 20;

/// (m - 1)(m' - 1) cells of two accepted tables.
fn cells_of([first, second]: [&[u16]; 2]) -> usize {
    (usize::from(first[1]) - 1) * (usize::from(second[1]) - 1)
}

/// The view of two accepted tables in as many cells as they take, and in more, which stay. One less is too few, and so
/// are any fewer. It is handed back.
fn cells_agree(tables: [&[u16]; 2], levels: &Levels, expected: View, random: &mut Random) -> View {
    let (cells, spare) = (cells_of(tables), random.between(1, 40));
    for (lent, number) in [(cells, 0), (cells + spare, 0), (cells - 1, 9), (random.below(cells), 9), (0, 9)] {
        let told = view_agrees(tables, levels, lent, || expected, random);
        assert_eq!(told.err().unwrap_or(0), number, "{tables:?}, {levels:?} in {lent} cells");
    }
    expected
}

/// The same, by enumeration, and some questions about four labels.
fn pair_agrees(tables @ [first, second]: [&[u16]; 2], levels: &Levels, random: &mut Random) -> View {
    for table in tables {
        let tree = Tree::of(table);
        for _ in 0..4 {
            let four = some_four(levels, random);
            view_topology_agrees(table, Some(&tree), levels, four);
        }
    }
    cells_agree(tables, levels, view(first, second, levels), random)
}

/// Four words: visible labels for the most part, hidden ones, others, and some twice.
fn some_four(levels: &Levels, random: &mut Random) -> [u16; 4] {
    let visible = levels.visible();
    let mut four = [0; 4].map(|_: u16| match random.below(12) {
        0 => random.below(levels.of_labels.len().max(1) + 2) as u16,
        1 if random.chance(20) => random.word(),
        _ if visible.is_empty() => random.below(4) as u16,
        _ => *random.pick(&visible),
    });
    if random.chance(10) {
        four[random.below(4)] = four[0];
    }
    four
}

/// The reference pairs with all labels visible, whoever sees them.
#[test]
fn reference_pairs() {
    let mut random = Random::seeded(2000);
    for pair in PAIRS {
        let n = usize::from(pair.first[0]);
        let levels = levels(&vec![1; n], &mut random);
        let [a, b, c, d, e, distance] = pair.quartets;
        let [first_splits, second_splits, common_splits, robinson_foulds] = pair.splits;
        let visible = n as u64;
        let expected =
            View { visible, a, b, c, d, e, distance, first_splits, second_splits, common_splits, robinson_foulds };
        assert_eq!(pair_agrees([pair.first, pair.second], &levels, &mut random), expected, "{}", pair.name);
    }
}

/// Every two trees, with pass-through nodes in some, and every set of visible labels: none, one, fewer than four, with
/// label 0 and without.
#[test]
fn every_pair_of_up_to_five_tips() {
    let mut random = Random::seeded(2010);
    for n in 2..=5 {
        let [ours, theirs] = [Numbering::DepthFirst, Numbering::Any].map(|numbering| {
            let tables = Graph::every(n).into_iter().map(|tree| tree.table(numbering, &mut random));
            tables.collect::<Vec<_>>()
        });
        for (first, second) in ours.iter().flat_map(|first| theirs.iter().map(move |second| (first, second))) {
            let long = any_chained(second, &mut random);
            let every = if n < 5 { 1 } else { 4 };
            for marks in every_marks(n).filter(|_| random.below(every) == 0).collect::<Vec<_>>() {
                let second = *random.pick(&[second, &long]);
                let levels = levels(&marks, &mut random);
                let told = pair_agrees([first, second], &levels, &mut random);
                let kept = marks.iter().filter(|&&mark| mark == 1).count() as u64;
                assert_eq!(told.visible, kept, "{levels:?}");
                assert!(kept >= 4 || told == View { visible: kept, ..View::default() }, "{told:?} under {levels:?}");
            }
        }
    }
}

/// Pairs of every shape, label 0 hidden in every other turn.
#[test]
fn random_pairs() {
    let mut random = Random::seeded(2020);
    for at in 0..420 {
        let n = 2 + at % (ENUMERATED - 1);
        let partner = if at % 3 == 0 { Partner::Near } else { Partner::Far };
        let [first, second] = any_pair(at, Shape::ALL[at % Shape::ALL.len()], n, partner, &mut random);
        let mut marks = any_marks(n, &mut random);
        marks[0] = (at % 2) as u8;
        pair_agrees([&first, &second], &levels(&marks, &mut random), &mut random);
    }
}

#[test]
fn larger_pairs() {
    let mut random = Random::seeded(2030);
    for at in 0..28 {
        let n = if at % 7 == 0 { 256 } else { random.between(ENUMERATED + 1, 120) };
        let [first, second] = any_pair(at, Shape::ALL[at % Shape::ALL.len()], n, Partner::Far, &mut random);
        let mut marks = marks([Kept::Half, Kept::AllButOne, Kept::Few, Kept::All][at % 4], n, &mut random);
        marks[0] = (at / 2 % 2) as u8;
        let levels = levels(&marks, &mut random);
        let expected = view_by_pruning(&first, &second, &levels);
        cells_agree([&first, &second], &levels, expected, &mut random);
    }
}

/// 256 tips and 1024 nodes in both trees: so many cells as the library names are exactly enough.
#[test]
fn the_most_nodes() {
    let mut random = Random::seeded(2040);
    for kept in [Kept::None, Kept::Half, Kept::All] {
        let [first, second] = [Shape::Binary, Shape::Mixed].map(|shape| {
            let bare = table(shape, 256, &mut random);
            chained(&bare, Chains::Anywhere, 1024, &mut random)
        });
        assert_eq!(cells_of([&first, &second]), leskwyn::WORK_CELLS);
        let levels = levels(&marks(kept, 256, &mut random), &mut random);
        let expected = view_by_pruning(&first, &second, &levels);
        cells_agree([&first, &second], &levels, expected, &mut random);
    }
}

/// A view is what the calls tell under marks that keep the visible labels, with the same cells; and a topology is that of
/// the call without levels.
#[test]
fn calls_with_marks() {
    let mut random = Random::seeded(2050);
    for at in 0..400 {
        let n = if at % 10 == 0 { random.between(41, 150) } else { 2 + at % 39 };
        let [first, second] = any_pair(at, Shape::ALL[at % Shape::ALL.len()], n, Partner::Far, &mut random);
        let levels = any_levels(n, &mut random);
        let marks = levels.marks();
        let mut by_marks = random.bytes(work_cells(&first, &second).expect("accepted"));
        let mut work = by_marks.clone();
        let QuartetTable { a, b, c, d, e, distance } =
            quartet_table(&first, &second, &marks, &mut by_marks).expect("accepted");
        let splits = split_counts(&first, &second, &marks, &mut by_marks).expect("accepted");
        let SplitCounts { first: first_splits, second: second_splits, common: common_splits, .. } = splits;
        let (visible, robinson_foulds) = (levels.visible().len() as u64, splits.distance);
        let expected =
            View { visible, a, b, c, d, e, distance, first_splits, second_splits, common_splits, robinson_foulds };
        let told = leskwyn::view(&first, &second, &levels.of_labels, levels.viewer, &mut work);
        assert_eq!(told, Ok(expected), "{first:?} and {second:?}, {levels:?}");
        crossings(&first, &second, &marks, &mut by_marks).expect("accepted");
        assert_eq!(work, by_marks, "{first:?} and {second:?}, {levels:?}");
        for four @ [a, b, c, d] in [0; 20].map(|_| some_four(&levels, &mut random)) {
            if four.into_iter().all(|label| levels.shows(label)) {
                let told = view_topology(&first, &levels.of_labels, levels.viewer, four);
                assert_eq!(told, topology(&first, a, b, c, d), "{four:?} in {first:?}, {levels:?}");
            }
        }
    }
}

/// The marks of n labels that keep the visible ones.
fn marks_of(visible: &[u16], n: usize) -> Vec<u8> {
    (0..n as u16).map(|label| u8::from(visible.contains(&label))).collect()
}

/// What a desk keeps: two trees and the levels.
#[derive(Debug)]
struct Desk {
    tables: [Vec<u16>; 2],
    levels: Levels,
}

impl Desk {
    /// A desk of n labels with these trees of visible ones. Hidden tips and pass-through nodes are anywhere.
    fn of(trees: &[Graph; 2], visible: &[u16], n: usize, random: &mut Random) -> Desk {
        let marks = marks_of(visible, n);
        let tables = trees.each_ref().map(|tree| {
            let numbering = *random.pick(&Numbering::ALL);
            let bare = tree.with_struck_tips(&marks, random).table(numbering, random);
            if random.chance(50) {
                any_chained(&bare, random)
            } else {
                bare
            }
        });
        Desk { tables, levels: levels(&marks, random) }
    }

    fn tables(&self) -> [&[u16]; 2] {
        self.tables.each_ref().map(Vec::as_slice)
    }

    /// What a viewer is told of the two trees, in cells that hold anything.
    fn view(&self, random: &mut Random) -> View {
        let (Levels { of_labels, viewer }, [first, second]) = (&self.levels, self.tables());
        let spare = random.below(9);
        let mut work = random.bytes(cells_of([first, second]) + spare);
        leskwyn::view(first, second, of_labels, *viewer, &mut work).expect("accepted")
    }

    /// What a viewer is told of four words in each tree, field by field.
    fn topologies(&self, [a, b, c, d]: [u16; 4]) -> [TopologyAnswer; 2] {
        let Levels { of_labels, viewer } = &self.levels;
        self.tables().map(|table| {
            let (of_table, of_levels) = (table.as_ptr(), of_labels.as_ptr());
            // SAFETY: each pointer and length are those of one slice.
            unsafe {
                raw::leskwyn_view_topology(of_table, table.len(), of_levels, of_labels.len(), *viewer, a, b, c, d)
            }
        })
    }
}

/// So many of the labels below `limit`, in rising order.
fn some_labels(count: usize, limit: usize, random: &mut Random) -> Vec<u16> {
    let mut labels: Vec<u16> = (0..limit as u16).collect();
    random.shuffle(&mut labels);
    labels.truncate(count);
    labels.sort_unstable();
    labels
}

/// In what two desks with the same visible labels differ: n, a number of nodes, the viewer, the level of a visible label,
/// whether anything is hidden.
fn differences([one, other]: [&Desk; 2], visible: &[u16]) -> [bool; 5] {
    let nodes = |desk: &Desk| desk.tables.each_ref().map(|table| table[1]);
    let seen = |desk: &Desk| visible.iter().map(|&label| desk.levels.of_labels[usize::from(label)]).collect::<Vec<_>>();
    let hides = |desk: &Desk| desk.levels.of_labels.len() > visible.len();
    [
        one.levels.of_labels.len() != other.levels.of_labels.len(),
        nodes(one) != nodes(other),
        one.levels.viewer != other.levels.viewer,
        seen(one) != seen(other),
        hides(one) != hides(other),
    ]
}

/// Every four words below `limit`.
fn every_four_words(limit: u16) -> impl Iterator<Item = [u16; 4]> {
    let words = move || 0..limit;
    words().flat_map(move |a| words().flat_map(move |b| words().flat_map(move |c| words().map(move |d| [a, b, c, d]))))
}

/// Two desks that agree on the visible labels and their topologies tell the same of every question, and what they tell is
/// right.
fn desks_agree(desks @ [one, other]: [&Desk; 2], fours: impl IntoIterator<Item = [u16; 4]>, random: &mut Random) {
    let told = one.view(random);
    assert_eq!(told, other.view(random), "{desks:?}");
    let [first, second] = one.tables();
    assert_eq!(told, view_by_pruning(first, second, &one.levels), "{one:?}");
    for four in fours {
        assert_eq!(one.topologies(four), other.topologies(four), "{four:?} of {desks:?}");
    }
}

/// Trees of so many visible labels, the second near the first or far from it.
fn some_trees(visible: usize, random: &mut Random) -> [Graph; 2] {
    let first = Graph::of(*random.pick(&Shape::ALL), visible, random);
    let second = if random.chance(50) {
        first.near_partner(random)
    } else {
        Graph::of(*random.pick(&Shape::ALL), visible, random)
    };
    [first, second]
}

/// Hidden tips added, moved and removed, pass-through nodes, other levels and viewers: nothing is told of them, whichever
/// four words are asked.
#[test]
fn desks_that_differ_in_what_is_hidden() {
    let mut random = Random::seeded(2060);
    let mut met = [0; 5];
    for at in 0..60 {
        let count = 2 + at % 5;
        let visible = some_labels(count, if at % 3 == 0 { count } else { 7 }, &mut random);
        let trees = some_trees(count, &mut random);
        let least = usize::from(visible[count - 1]) + 1;
        let [one, other] = [0; 2].map(|_| {
            let n = if random.chance(40) { least } else { random.between(least, 8) };
            Desk::of(&trees, &visible, n, &mut random)
        });
        for (count, differs) in met.iter_mut().zip(differences([&one, &other], &visible)) {
            *count += u32::from(differs);
        }
        let far = [[0, 0, 0, X], [X; 4], [256, 1, 2, 3], [0, 1, 2, 255]];
        desks_agree([&one, &other], every_four_words(9).chain(far), &mut random);
    }
    assert!(met.into_iter().all(|count| count >= 5), "{met:?}");
}

/// With one visible label or none two desks have nothing in common but that.
#[test]
fn desks_with_one_visible_label_or_none() {
    let mut random = Random::seeded(2070);
    for at in 0..40 {
        let visible = some_labels(at % 2, 5, &mut random);
        let least = visible.first().map_or(2, |&label| usize::from(label).max(1) + 1);
        let [one, other] = [0; 2].map(|_| {
            let n = random.between(least, 9);
            let marks = marks_of(&visible, n);
            let tables = [0; 2].map(|_| any_chained(&table(*random.pick(&Shape::ALL), n, &mut random), &mut random));
            Desk { tables, levels: levels(&marks, &mut random) }
        });
        desks_agree([&one, &other], every_four_words(6), &mut random);
        for four in every_four_words(6) {
            let hidden = four.into_iter().any(|label| !visible.contains(&label));
            let refusal = if hidden { 10 } else { 11 };
            assert_eq!(one.topologies(four), [TopologyAnswer { refusal, butterfly: 0, partner: 0 }; 2], "{one:?}");
        }
    }
}

/// Larger desks, up to 256 labels, some of them with nothing hidden.
#[test]
fn large_desks() {
    let mut random = Random::seeded(2080);
    for at in 0..60 {
        let count = if at % 10 == 0 { random.between(41, 100) } else { random.between(4, 40) };
        let visible = some_labels(count, if at % 4 == 0 { count } else { 2 * count }, &mut random);
        let trees = some_trees(count, &mut random);
        let least = usize::from(visible[count - 1]) + 1;
        let [small, large] = [least, if at % 10 == 0 { 256 } else { random.between(least, 3 * count) }];
        let one = Desk::of(&trees, &visible, small, &mut random);
        let other = Desk::of(&trees, &visible, large, &mut random);
        let asked: Vec<[u16; 4]> = (0..150).map(|_| some_four(&other.levels, &mut random)).collect();
        let seen: Vec<[u16; 4]> = every_four_of(&visible).filter(|_| random.below(1 + count * count) == 0).collect();
        desks_agree([&one, &other], asked.into_iter().chain(seen), &mut random);
    }
}

/// Two desks with the same visible labels tell the same of four of them in a tree exactly if the topologies are the same.
/// How many differ is handed back.
fn changes_are_told(desks @ [one, other]: [&Desk; 2], visible: &[u16], random: &mut Random) -> usize {
    let trees = [0, 1].map(|at| [Tree::of(&one.tables[at]), Tree::of(&other.tables[at])]);
    let mut changed = 0;
    for four in every_four_of(visible) {
        let told = (one.topologies(four), other.topologies(four));
        for (at, [ours, theirs]) in trees.iter().enumerate() {
            let same = ours.topology(four) == theirs.topology(four);
            assert_eq!(told.0[at] == told.1[at], same, "{four:?} in tree {at} of {desks:?}");
            changed += usize::from(!same);
        }
    }
    let [[first, second], [third, fourth]] = [one.tables(), other.tables()];
    let expected = view(first, second, &one.levels) == view(third, fourth, &other.levels);
    assert_eq!(one.view(random) == other.view(random), expected, "{desks:?}");
    changed
}

/// Two of four trees; and which of the two is changed, and to which tree.
fn every_change() -> impl Iterator<Item = ([usize; 2], [usize; 2])> {
    (0..32)
        .map(|code| ([code % 4, code / 4 % 4], code / 16))
        .flat_map(|(two, at)| (0..4).map(move |other| (two, [at, other])))
}

/// Four visible labels: every topology of theirs in the first trees and in the second ones, changed to every other one in
/// the one tree. That one four is told differently.
#[test]
fn one_visible_topology_changed() {
    let mut random = Random::seeded(2090);
    let trees = Graph::every(4);
    assert_eq!(trees.len(), 4);
    for ([first, second], [at, other]) in every_change() {
        let visible = some_labels(4, 7, &mut random);
        let kept = [first, second].map(|tree| trees[tree].clone());
        let mut moved = kept.clone();
        moved[at] = trees[other].clone();
        let desks = [&kept, &moved].map(|trees| {
            let n = random.between(usize::from(visible[3]) + 1, 12);
            Desk::of(trees, &visible, n, &mut random)
        });
        let changed = usize::from(other != [first, second][at]);
        assert_eq!(changes_are_told(desks.each_ref(), &visible, &mut random), changed, "{desks:?}");
    }
}

/// Desks whose visible trees differ in a few places, or in none.
#[test]
fn some_visible_topologies_changed() {
    let mut random = Random::seeded(2100);
    let [mut same, mut different] = [0; 2];
    for _ in 0..120 {
        let count = random.between(5, 12);
        let visible = some_labels(count, 14, &mut random);
        let trees = some_trees(count, &mut random);
        let moved = trees.each_ref().map(|tree| tree.near_partner(&mut random));
        let desks = [&trees, &moved].map(|trees| {
            let n = random.between(usize::from(visible[count - 1]) + 1, 20);
            Desk::of(trees, &visible, n, &mut random)
        });
        match changes_are_told(desks.each_ref(), &visible, &mut random) {
            0 => same += 1,
            _ => different += 1,
        }
    }
    assert!(same >= 5 && different >= 60, "{same} the same and {different} different");
}

/// The tree of a table, unless that is refused.
fn tree_of(table: &[u16]) -> Option<Tree> {
    (tree_refusal(table) == 0).then(|| Tree::of(table))
}

/// Every rule broken, and then one after the other kept: each number has its turn.
#[test]
fn one_rule_after_the_other() {
    let mut random = Random::seeded(2110);
    let of = |of_labels: &[u8], viewer: u16| Levels { of_labels: of_labels.to_vec(), viewer };
    let (high, far, wide) = (of(&[0, 0, 4, 0, 0], 0), of(&[0; 5], 4), of(&[0; 5], 256));
    let (few, many, good) = (of(&[0; 4], 0), of(&[0; 6], 0), of(&[1, 0, 0, 3, 1], 1));
    let repeated = &[5, 6, 0, 0, 1, 1, 1, 1, 0, X, 1, 2, 3, 3][..];
    for (tables, levels, cells, expected) in [
        ([&[5][..], &[5]], &high, 0, 1),
        ([&P[..17], repeated], &high, 0, 4),
        ([repeated, &[5]], &high, 0, 31),
        ([P, &[5]], &high, 0, 101),
        ([P, repeated], &high, 0, 131),
        ([P, &[2, 2, 0, 0, 0, 1]], &of(&[4], 4), 0, 8),
        ([P, Q], &high, 0, 37),
        ([P, Q], &far, 0, 37),
        ([P, Q], &wide, 42, 37),
        ([P, Q], &few, 42, 37),
        ([P, Q], &many, 42, 37),
        ([P, Q], &of(&[], 0), 0, 37),
        ([P, Q], &good, 0, 9),
        ([P, Q], &good, 41, 9),
        ([P, Q], &good, 42, 0),
        ([W, R], &good, 35, 0),
    ] {
        let told = view_agrees(tables, levels, cells, || view(tables[0], tables[1], levels), &mut random);
        assert_eq!(told.err().unwrap_or(0), expected, "{tables:?}, {levels:?} in {cells} cells");
    }
    for (table, levels, four, expected) in [
        (&[5][..], &high, [3; 4], 1),
        (&P[..17], &high, [3; 4], 4),
        (repeated, &high, [3; 4], 31),
        (P, &high, [3; 4], 37),
        (P, &far, [5; 4], 37),
        (P, &wide, [0, 1, 2, 3], 37),
        (P, &few, [0, 1, 2, 3], 37),
        (P, &many, [0, 1, 2, 5], 37),
        (P, &good, [5; 4], 10),
        (P, &good, [X; 4], 10),
        (P, &good, [3; 4], 10),
        (P, &good, [0, 1, 2, 3], 10),
        (P, &good, [3, 0, 0, 1], 10),
        (P, &good, [0, 0, 1, 2], 11),
        (P, &good, [4, 1, 2, 4], 11),
        (P, &good, [4, 1, 2, 0], 0),
    ] {
        let told = view_topology_agrees(table, tree_of(table).as_ref(), levels, four);
        assert_eq!(told, expected, "{four:?} of {table:?}, {levels:?}");
    }
}

/// Viewers of level 0 to 3 see what they may, and every other word is refused: none is taken for its low byte.
#[test]
fn every_viewer() {
    let mut random = Random::seeded(2120);
    let of_labels = vec![0, 1, 2, 3, 0];
    for viewer in 0..=X {
        let told = view_topology(Q, &of_labels, viewer, [0, 1, 2, 4]).map_err(Refusal::number);
        let expected = match viewer {
            0 | 1 => Err(10),
            2 | 3 => Ok(leskwyn::Topology::Butterfly(1)),
            _ => Err(37),
        };
        assert_eq!(told, expected, "viewer {viewer}");
        if viewer < 8 || viewer % 256 < 4 {
            let levels = Levels { of_labels: of_labels.clone(), viewer };
            let told = view_agrees([P, Q], &levels, 42, || view(P, Q, &levels), &mut random);
            let visible = told.map(|view| view.visible);
            let seen = [2, 3, 4, 5].get(usize::from(viewer)).copied();
            assert_eq!(visible, seen.ok_or(37), "viewer {viewer}");
        }
    }
}

/// Every byte above 3 in every place, and every other number of levels up to 300.
#[test]
fn every_wrong_level() {
    let mut random = Random::seeded(2130);
    for n in [2, 3, 6] {
        let [first, second] = [0; 2].map(|_| table(*random.pick(&Shape::ALL), n, &mut random));
        let cells = cells_of([&first, &second]);
        let above = (0..n).flat_map(|at| (4..=255).map(move |byte| (at, byte))).map(|(at, byte)| {
            let mut levels = vec![3; n];
            levels[at] = byte;
            levels
        });
        let counts = (0..=300).filter(|&count| count != n).map(|count| vec![0; count]);
        for of_labels in above.chain(counts) {
            let levels = Levels { of_labels, viewer: random.below(4) as u16 };
            let cells = *random.pick(&[cells, cells + 1, cells - 1, 0]);
            let told = view_agrees([&first, &second], &levels, cells, || unreachable!("refused"), &mut random);
            assert_eq!(told, Err(37), "{levels:?}");
            let four = some_four(&levels, &mut random);
            assert_eq!(view_topology_agrees(&first, Some(&Tree::of(&first)), &levels, four), 37, "{levels:?}");
        }
    }
}

/// The tables, 8, 37, 9; and the table, 37, 10, 11: the first that holds decides, whichever others do.
#[test]
fn the_order_of_numbers() {
    let mut random = Random::seeded(2140);
    let [mut of_views, mut of_labels] = [0; 2].map(|_| Met::default());
    for _ in 0..8_000 {
        let n = random.between(3, 9);
        let [mut first, mut second] = [0; 2].map(|_| table(*random.pick(&Shape::ALL), n, &mut random));
        let enough = cells_of([&first, &second]);
        if random.chance(20) {
            first = damaged(&first, *random.pick(&NUMBERS), &mut random);
        }
        if random.chance(20) {
            second = damaged(&second, *random.pick(&NUMBERS), &mut random);
        }
        if random.chance(10) {
            second = table(*random.pick(&Shape::ALL), n - 1, &mut random);
        }
        let levels = if random.chance(30) { wrong_levels(n, &mut random) } else { any_levels(n, &mut random) };
        let cells = if random.chance(50) { random.below(enough) } else { enough + random.below(3) };
        let told = view_agrees([&first, &second], &levels, cells, || view(&first, &second, &levels), &mut random);
        of_views.meet(told.err().unwrap_or(0));
        let four = some_four(&levels, &mut random);
        of_labels.meet(view_topology_agrees(&first, tree_of(&first).as_ref(), &levels, four));
    }
    of_views.at_least(50, NUMBERS.into_iter().chain(NUMBERS.map(|number| 100 + number)).chain([0, 8, 9, 37]));
    of_labels.at_least(50, NUMBERS.into_iter().chain([0, 10, 11, 37]));
}
