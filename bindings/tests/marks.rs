//! Labels struck from the count, on trees whose figures are worked out by hand. Random pairs are for
//! `bench/tests/struck.rs`.

use leskwyn::{all_kept, claim_sums, crossings, quartet_table, split_counts, triplet_table, weighted_distance};
use leskwyn::{ClaimSums, QuartetTable, Refusal, SplitCounts, Weight, INNER as X, KEPT, STRUCK};

type Table = &'static [u16];

/// Below tip 0: (1,(2,(3,4))).
const P: Table = &[5, 8, 0, 0, 1, 1, 3, 3, 5, 5, 0, X, 1, X, 2, X, 3, 4];
/// Below tip 0: (1,(2,3,4)).
const Q: Table = &[5, 7, 0, 0, 1, 1, 3, 3, 3, 0, X, 1, X, 2, 3, 4];
/// Below tip 0: (2,(1,(3,4))).
const R: Table = &[5, 8, 0, 0, 1, 1, 3, 3, 5, 5, 0, X, 2, X, 1, X, 3, 4];

/// S S' S2 S3, A to E, and the splits, as the library tells them with 49 cells.
fn figures(first: &[u16], second: &[u16], marks: &[u8]) -> ([u64; 4], [u64; 5], [u64; 4]) {
    let mut work = [0; 49];
    let ClaimSums { first: s, second: other, same, different } =
        claim_sums(first, second, marks, &mut work).expect("accepted");
    let QuartetTable { a, b, c, d, e, .. } = quartet_table(first, second, marks, &mut work).expect("accepted");
    let splits = split_counts(first, second, marks, &mut work).expect("accepted");
    let SplitCounts { first: ours, second: theirs, common, distance } = splits;
    ([s, other, same, different], [a, b, c, d, e], [ours, theirs, common, distance])
}

/// All labels kept but one.
fn without(label: usize) -> [u8; 5] {
    let mut marks = [KEPT; 5];
    marks[label] = STRUCK;
    marks
}

/// One set of four is left, and each tree has one split or none.
#[test]
fn one_label_struck() {
    let alike = ([2, 2, 2, 0], [1, 0, 0, 0, 0], [1, 1, 1, 0]);
    let open = ([2, 0, 0, 0], [0, 0, 1, 0, 0], [1, 0, 0, 1]);
    let turned = ([2, 2, 0, 4], [0, 1, 0, 0, 0], [1, 1, 0, 2]);
    for (second, expected) in [(Q, [open, open, alike, alike, alike]), (R, [alike, alike, alike, turned, turned])] {
        for (label, expected) in expected.into_iter().enumerate() {
            assert_eq!(figures(P, second, &without(label)), expected, "{second:?} without {label}");
        }
    }
}

/// The kept labels beyond both edges, where 0 and 3 are struck.
#[test]
fn cells_of_kept_labels() {
    let mut work = [9; 44];
    crossings(P, Q, &[0, 1, 1, 0, 1], &mut work).expect("accepted");
    // The labels beyond the edges of Q: 1 2 4, 1, 2 4, 2, none, 4.
    let of_p = [
        [3, 1, 2, 1, 0, 1], // 1 2 4
        [1, 1, 0, 0, 0, 0], // 1
        [2, 0, 2, 1, 0, 1], // 2 4
        [1, 0, 1, 1, 0, 0], // 2
        [1, 0, 1, 0, 0, 1], // 4
        [0; 6],             // none
        [1, 0, 1, 0, 0, 1], // 4
    ];
    assert_eq!(work[..42], of_p.concat());
    assert_eq!(work[42..], [9, 9]);
}

/// Up to three kept labels are accepted, and nothing is counted.
#[test]
fn fewer_than_four_labels_kept() {
    for bits in 0..32u8 {
        let marks = [0, 1, 2, 3, 4].map(|label| bits >> label & 1);
        if bits.count_ones() < 4 {
            assert_eq!(figures(P, R, &marks), ([0; 4], [0; 5], [0; 4]), "{marks:?}");
            assert_eq!(weighted_distance(P, R, &marks, &mut [0; 49], Weight::Full), Ok(0.0), "{marks:?}");
        }
    }
}

/// Below tip 0: ((1,2),(3,4)) and (1,2,(3,4)). Without tip 0 each has one split, {1,2} and {3,4}.
#[test]
fn complementary_sets_are_one_split() {
    let halves = &[5, 8, 0, 0, 1, 2, 2, 1, 5, 5, 0, X, X, 1, 2, X, 3, 4];
    let right = &[5, 7, 0, 0, 1, 1, 1, 4, 4, 0, X, 1, 2, X, 3, 4];
    let left = &[5, 7, 0, 0, 1, 2, 2, 1, 1, 0, X, X, 1, 2, 3, 4];
    assert_eq!(figures(halves, halves, &[1; 5]).2, [2, 2, 2, 0]);
    assert_eq!(figures(left, right, &[1; 5]).2, [1, 1, 0, 2]);
    for (first, second) in [(&halves[..], &halves[..]), (halves, right), (right, halves), (left, right)] {
        assert_eq!(figures(first, second, &without(0)), ([2, 2, 2, 0], [1, 0, 0, 0, 0], [1, 1, 1, 0]));
    }
}

#[test]
fn marks_that_keep_all() {
    assert_eq!((all_kept(P), all_kept(&[2, 2, 0, 0, 0, 1])), (&[1; 5][..], &[1; 2][..]));
    assert_eq!(
        [all_kept(&[]), all_kept(&[0, 7]), all_kept(&[256]), all_kept(&[257])].map(<[u8]>::len),
        [0, 0, 256, 256]
    );
    assert_eq!(figures(P, Q, all_kept(P)), ([10, 6, 6, 0], [3, 0, 2, 0, 0], [2, 1, 1, 1]));
}

/// The first table, the second, 8, 32, 9, 30: the earlier one decides. The triplet table and `work_cells` know no marks.
#[test]
fn the_order_of_refusals() {
    let star = &[4, 5, 0, 0, 1, 1, 1, 0, X, 1, 2, 3];
    let right = &[1, 0, 1, 1, 0][..];
    let wrong = [&[1; 4][..], &[1; 6], &[], &[1, 0, 2, 1, 0], &[255; 5], &[1, 0, 1, 1, 0, 7]];
    let numbers = |first: &[u16], second: &[u16], marks: &[u8], cells: usize| {
        let mut work = vec![7; cells];
        let number = |refused: Option<Refusal>| refused.map_or(0, Refusal::number);
        let weigh = |weight, work: &mut [u8]| weighted_distance(first, second, marks, work, weight).err();
        let answers = [
            number(crossings(first, second, marks, &mut work).err()),
            number(claim_sums(first, second, marks, &mut work).err()),
            number(quartet_table(first, second, marks, &mut work).err()),
            number(split_counts(first, second, marks, &mut work).err()),
            number(weigh(Weight::Full, &mut work)),
        ];
        assert_eq!(answers, [answers[0]; 5]);
        assert!(answers[0] == 0 || work.iter().all(|&cell| cell == 7));
        (answers[0], number(weigh(Weight::Part(0.3), &mut work)))
    };
    for marks in wrong.into_iter().chain([right]) {
        for cells in [42, 41] {
            assert_eq!(numbers(&[5], &[], marks, cells), (1, 1));
            assert_eq!(numbers(P, &[], marks, cells), (101, 101));
            assert_eq!(numbers(P, star, marks, cells), (8, 8));
            assert_eq!(numbers(star, P, marks, cells), (8, 8));
        }
    }
    for marks in wrong {
        assert_eq!(numbers(P, Q, marks, 42), (32, 32), "{marks:?}");
        assert_eq!(numbers(P, Q, marks, 0), (32, 32), "{marks:?}");
    }
    assert_eq!(numbers(P, Q, right, 41), (9, 9));
    assert_eq!(numbers(P, Q, right, 42), (0, 30));
    assert_eq!(triplet_table(P, Q, &mut [0; 41]).unwrap_err().number(), 9);
    assert_eq!(leskwyn::work_cells(P, Q), Ok(42));
    let refusal = crossings(P, Q, &[1; 4], &mut []).unwrap_err();
    assert_eq!(refusal.to_string(), "refused 32: there are not n marks, or a mark is above 1");
}
