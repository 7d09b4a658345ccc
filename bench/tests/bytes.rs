//! The cells of the work are bytes: every largest crossing from 0 to 255, work that is longer than a pair takes, and work
//! that begins at any byte.

use std::ops::Range;

use bench::agree::{pair_agrees, Expected};
use bench::enumerate::{self, Tips, Tree};
use bench::generate::{any_chained, any_marks, chained, pair, table, Chains, Partner, Shape};
use bench::random::Random;
use bench::reference::{P, TWO};
use bench::straight;
use leskwyn::{claim_sums, crossings, quartet_table, split_counts, triplet_table, weighted_distance, work_cells};
use leskwyn::{Refusal, Weight, WORK_CELLS};

/// Marks of n labels that strike these.
fn without(n: usize, struck: &[usize]) -> Vec<u8> {
    (0..n).map(|label| u8::from(!struck.contains(&label))).collect()
}

/// Marks of n labels that keep only these.
fn only(n: usize, kept: &[usize]) -> Vec<u8> {
    (0..n).map(|label| u8::from(kept.contains(&label))).collect()
}

/// The largest of the cells, which is that of edge 1 with edge 1: all kept labels but 0 lie beyond both.
fn largest(cells: &[u8], marks: &[u8]) -> u8 {
    let kept: usize = marks[1..].iter().map(|&mark| usize::from(mark)).sum();
    assert_eq!(usize::from(cells[0]), kept);
    assert_eq!(cells.iter().max(), Some(&cells[0]));
    cells[0]
}

/// Every function on a pair whose largest cell is told beforehand.
fn largest_agrees(first: &[u16], second: &[u16], marks: &[u8], expected: u8, random: &mut Random) {
    let counted = Expected::by_pruning(first, second, marks);
    assert_eq!(largest(&counted.crossings, marks), expected, "{first:?} and {second:?}");
    assert_eq!(largest(&counted.all_crossings, &vec![1; marks.len()]), (marks.len() - 1) as u8);
    pair_agrees(first, second, &counted, random);
}

/// All kept, one label struck, 0 struck, and one label kept with 0 or without.
#[test]
fn largest_cells_of_256_tips() {
    let mut random = Random::seeded(1500);
    for (at, shape) in Shape::ALL.into_iter().enumerate() {
        let partner = if at % 2 == 0 { Partner::Near } else { Partner::Far };
        let (first, second) = pair(shape, 256, partner, &mut random);
        let label = random.between(1, 255);
        let marked = [
            (without(256, &[]), 255),
            (without(256, &[0]), 255),
            (without(256, &[label]), 254),
            (without(256, &[0, label]), 254),
            (only(256, &[label]), 1),
            (only(256, &[0, label]), 1),
            (only(256, &[0]), 0),
        ];
        for (marks, expected) in marked {
            largest_agrees(&first, &second, &marks, expected, &mut random);
        }
    }
}

#[test]
fn largest_cells_of_fewer_tips() {
    let mut random = Random::seeded(1510);
    for shape in Shape::ALL {
        let (first, second) = pair(shape, 255, Partner::Far, &mut random);
        largest_agrees(&first, &second, &[1; 255], 254, &mut random);
        let (first, second) = pair(shape, 254, Partner::Near, &mut random);
        largest_agrees(&first, &second, &[1; 254], 253, &mut random);
    }
    largest_agrees(TWO, TWO, &[1, 1], 1, &mut random);
    largest_agrees(TWO, TWO, &[0, 1], 1, &mut random);
    largest_agrees(TWO, TWO, &[1, 0], 0, &mut random);
    largest_agrees(P, P, &[1, 0, 0, 1, 0], 1, &mut random);
}

/// Chains at node 1, so that each edge of them has 255 labels beyond it, or 254.
#[test]
fn many_largest_cells() {
    let mut random = Random::seeded(1520);
    for (shape, nodes) in [(Shape::Binary, 510), (Shape::Caterpillar, 510), (Shape::Star, 257)] {
        let [first, second] = [0; 2].map(|_| {
            let bare = table(shape, 256, &mut random);
            assert_eq!(bare[1], nodes);
            chained(&bare, Chains::AtNodeOne, 1024, &mut random)
        });
        let edges = usize::from(1024 - nodes + 1);
        for (marks, most) in [(without(256, &[]), 255), (without(256, &[0]), 255), (without(256, &[200]), 254)] {
            let mut work = random.bytes(WORK_CELLS);
            crossings(&first, &second, &marks, &mut work).expect("accepted");
            assert_eq!(largest(&work, &marks), most);
            assert_eq!(work.iter().filter(|&&cell| cell == most).count(), edges * edges, "{shape:?}");
            let counted = enumerate::crossings(&Tree::of(&first), &Tree::of(&second), Tips::kept(&marks));
            assert!(work == counted, "{first:?} and {second:?}");
        }
    }
}

/// One label struck after another, until none is kept: every cell, and the quartets by the straight method.
#[test]
fn every_largest_cell() {
    let mut random = Random::seeded(1530);
    let [first, second] = [Shape::Binary, Shape::Mixed].map(|shape| table(shape, 256, &mut random));
    let [ours, theirs] = [&first, &second].map(|table| Tree::of(table));
    let mut labels: Vec<usize> = (1..256).collect();
    random.shuffle(&mut labels);
    let mut marks = vec![1; 256];
    let mut work = random.bytes(work_cells(&first, &second).expect("accepted"));
    let mut other = work.clone();
    for most in (0..=255).rev() {
        marks[0] = u8::from(random.chance(50));
        let told = quartet_table(&first, &second, &marks, &mut work);
        assert_eq!(largest(&work, &marks), most);
        assert!(work == enumerate::crossings(&ours, &theirs, Tips::kept(&marks)), "{marks:?}");
        assert_eq!(straight::quartet_table(&first, &second, &marks, &mut other), told.map_err(Refusal::number));
        assert!(work == other, "{marks:?}");
        if let Some(label) = labels.pop() {
            marks[label] = 0;
        }
    }
    assert_eq!(marks[1..], [0; 255]);
}

/// A call that is lent work: what it is refused by, if it is.
type Call = fn(&[u16], &[u16], &[u8], &mut [u8]) -> Option<Refusal>;

const MARKED: [Call; 5] = [
    |first, second, marks, work| crossings(first, second, marks, work).err(),
    |first, second, marks, work| claim_sums(first, second, marks, work).err(),
    |first, second, marks, work| quartet_table(first, second, marks, work).err(),
    |first, second, marks, work| split_counts(first, second, marks, work).err(),
    |first, second, marks, work| weighted_distance(first, second, marks, work, Weight::Part(0.5)).err(),
];

const TRIPLETS: Call = |first, second, _, work| triplet_table(first, second, work).err();

/// Bytes that differ from place to place.
fn pattern(count: usize) -> Vec<u8> {
    (0..count).map(|i| (7 * i + i / 256) as u8).collect()
}

/// Each call is lent a part of these bytes, and then one byte less than it takes: the cells are the crossings, of all
/// labels for the triplets, every other byte is as it was, and a refused call changes none.
fn other_bytes_stay(first: &[u16], second: &[u16], marks: &[u8], before: &[u8], lent: Range<usize>) {
    let (ours, theirs) = (Tree::of(first), Tree::of(second));
    let kept = enumerate::crossings(&ours, &theirs, Tips::kept(marks));
    let all = enumerate::crossings(&ours, &theirs, Tips::kept(&vec![1; marks.len()]));
    for (call, cells) in MARKED.map(|call| (call, &kept)).into_iter().chain([(TRIPLETS, &all)]) {
        let mut work = before.to_vec();
        let short = &mut work[lent.start..][..cells.len() - 1];
        assert_eq!(call(first, second, marks, short).map(Refusal::number), Some(9));
        assert!(work == before, "{first:?} and {second:?} at {lent:?}, refused");
        assert_eq!(call(first, second, marks, &mut work[lent.clone()]), None);
        let mut expected = before.to_vec();
        expected[lent.start..][..cells.len()].copy_from_slice(cells);
        assert!(work == expected, "{first:?} and {second:?} at {lent:?}");
    }
}

/// Work for the largest pair, lent to smaller ones.
#[test]
fn later_bytes_stay() {
    let mut random = Random::seeded(1540);
    let before = pattern(WORK_CELLS);
    for n in [2, 3, 4, 17, 64, 128, 255, 256] {
        let [first, second] = [0; 2].map(|_| {
            let bare = table(*random.pick(&Shape::ALL), n, &mut random);
            any_chained(&bare, &mut random)
        });
        other_bytes_stay(&first, &second, &any_marks(n, &mut random), &before, 0..WORK_CELLS);
    }
}

/// Work that begins at each of 64 places one byte apart, with rows of any length.
#[test]
fn any_place() {
    let mut random = Random::seeded(1550);
    for at in 0..64 {
        let n = if at % 8 == 7 { 256 } else { random.between(2, 90) };
        let (first, second) = pair(*random.pick(&Shape::ALL), n, Partner::Far, &mut random);
        let taken = work_cells(&first, &second).expect("accepted");
        let before = pattern(taken + 128);
        other_bytes_stay(&first, &second, &any_marks(n, &mut random), &before, at..at + taken);
    }
}
