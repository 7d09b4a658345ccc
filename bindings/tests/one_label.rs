//! One label struck or restored, and tables re-rooted at its tip, on trees whose answers are worked out by hand. Random
//! pairs are for `bench/tests/one_label.rs`.

use leskwyn::{all_kept, change_mark, holding, quartet_table, raw, reroot};
use leskwyn::{FiveCounts, Refusal, Wish, INNER as X, KEPT, STRUCK};

type Table = &'static [u16];

/// Below tip 0: (1,(2,(3,4))).
const P: Table = &[5, 8, 0, 0, 1, 1, 3, 3, 5, 5, 0, X, 1, X, 2, X, 3, 4];
/// Below tip 0: (1,(2,3,4)).
const Q: Table = &[5, 7, 0, 0, 1, 1, 3, 3, 3, 0, X, 1, X, 2, 3, 4];
/// Below tip 0: (2,(1,(3,4))).
const R: Table = &[5, 8, 0, 0, 1, 1, 3, 3, 5, 5, 0, X, 2, X, 1, X, 3, 4];
/// All five at node 1.
const W: Table = &[5, 6, 0, 0, 1, 1, 1, 1, 0, X, 1, 2, 3, 4];

const fn five([a, b, c, d, e]: [u64; 5]) -> FiveCounts {
    FiveCounts { a, b, c, d, e }
}

/// The five counts of a pair under marks, as the quartet table has them.
fn counted(first: &[u16], second: &[u16], marks: &[u8]) -> FiveCounts {
    quartet_table(first, second, marks, &mut [0; 49]).expect("accepted").into()
}

/// Of the sets 0123 0124 0134 0234 1234, P and Q have the cases A A A C C, P and R have B B A A A, Q and R have
/// B B A D D, and W and Q have D D D E E.
const HELD: [(Table, Table, [[u64; 5]; 5]); 4] = [
    (P, Q, [[3, 0, 1, 0, 0], [3, 0, 1, 0, 0], [2, 0, 2, 0, 0], [2, 0, 2, 0, 0], [2, 0, 2, 0, 0]]),
    (P, R, [[2, 2, 0, 0, 0], [2, 2, 0, 0, 0], [2, 2, 0, 0, 0], [3, 1, 0, 0, 0], [3, 1, 0, 0, 0]]),
    (Q, R, [[1, 2, 0, 1, 0], [1, 2, 0, 1, 0], [0, 2, 0, 2, 0], [1, 1, 0, 2, 0], [1, 1, 0, 2, 0]]),
    (W, Q, [[0, 0, 0, 3, 1], [0, 0, 0, 3, 1], [0, 0, 0, 2, 2], [0, 0, 0, 2, 2], [0, 0, 0, 2, 2]]),
];

/// The label's own mark plays no part, and nothing but its own mark changes.
#[test]
fn every_label() {
    for (first, second, held) in HELD {
        let all = counted(first, second, all_kept(first));
        for (label, held) in (0..).zip(held.map(five)) {
            let mut without = [KEPT; 5];
            without[usize::from(label)] = STRUCK;
            let mut marks = [KEPT; 5];
            assert_eq!(holding(first, second, &marks, label), Ok(held), "{label} of {first:?} and {second:?}");
            let struck = change_mark(first, second, &mut marks, all, label, Wish::Strike);
            assert_eq!((struck, marks), (Ok(counted(first, second, &without)), without));
            assert_eq!(holding(first, second, &marks, label), Ok(held), "{label} of {first:?} and {second:?}");
            let restored = change_mark(first, second, &mut marks, struck.expect("accepted"), label, Wish::Restore);
            assert_eq!((restored, marks), (Ok(all), [KEPT; 5]));
        }
    }
}

/// With label 2 struck four labels are kept, and only one set of four holds label 0. With 4 struck besides none does.
#[test]
fn other_labels_struck() {
    let mut marks = [1, 1, 0, 1, 1];
    assert_eq!(holding(P, Q, &marks, 0), Ok(five([1, 0, 0, 0, 0])));
    assert_eq!(holding(P, Q, &marks, 2), Ok(five([2, 0, 2, 0, 0])));
    assert_eq!(change_mark(P, Q, &mut marks, five([1, 0, 0, 0, 0]), 4, Wish::Strike), Ok(five([0; 5])));
    for label in [0, 1, 3] {
        assert_eq!(holding(P, Q, &marks, label), Ok(five([0; 5])));
    }
    // Three kept labels make one set with a fourth.
    assert_eq!([2, 4].map(|label| holding(P, Q, &marks, label)), [Ok(five([1, 0, 0, 0, 0])); 2]);
}

/// The given counts are believed where they add up and no case is overdrawn.
#[test]
fn counts_of_another_pair() {
    let mut marks = [1; 5];
    assert_eq!(change_mark(P, Q, &mut marks, five([3, 0, 1, 1, 0]), 0, Wish::Strike), Ok(five([0, 0, 0, 1, 0])));
    assert_eq!(marks, [0, 1, 1, 1, 1]);
    assert_eq!(change_mark(P, Q, &mut marks, five([0, 1, 0, 0, 0]), 0, Wish::Restore), Ok(five([3, 1, 1, 0, 0])));
    assert_eq!(marks, [1; 5]);
    // Two sets of each of the cases A and C hold label 2.
    for counts in [[4, 0, 1, 0, 0], [1, 1, 1, 1, 1], [0, 0, 5, 0, 0], [1, 0, 4, 0, 0]] {
        let told = change_mark(P, Q, &mut marks, five(counts), 2, Wish::Strike).map_err(Refusal::number);
        assert_eq!((told, marks), (Err(34), [1; 5]), "{counts:?}");
    }
}

/// The tables, 8, 32, 10, 33, 34: the earlier one decides, and no mark changes.
#[test]
fn the_order_of_refusals() {
    let four_tips = &[4, 5, 0, 0, 1, 1, 1, 0, X, 1, 2, 3];
    let repeated = &[4, 5, 0, 0, 1, 1, 1, 0, X, 1, 2, 2];
    let number = |first: &[u16], second: &[u16], marks: &[u8], counts: [u64; 5], label: u16, wish: Wish| {
        let mut lent = marks.to_vec();
        let told = change_mark(first, second, &mut lent, five(counts), label, wish).unwrap_err().number();
        assert_eq!(lent, marks);
        let held = holding(first, second, marks, label).err().map_or(0, Refusal::number);
        assert_eq!(held, if matches!(told, 33 | 34) { 0 } else { told });
        told
    };
    let (right, wrong, off) = (&[1, 1, 0, 1, 1][..], &[1, 1, 0, 1, 2][..], [1, 0, 0, 0, 1]);
    for wish in [Wish::Strike, Wish::Restore] {
        assert_eq!(number(&[5], &[], wrong, off, 5, wish), 1);
        assert_eq!(number(repeated, P, wrong, off, 5, wish), 31);
        assert_eq!(number(P, repeated, wrong, off, 5, wish), 131);
        assert_eq!(number(P, four_tips, wrong, off, 5, wish), 8);
        for marks in [wrong, &[1; 4], &[1; 6], &[]] {
            assert_eq!(number(P, Q, marks, off, 5, wish), 32);
        }
        assert_eq!([5, 256, X].map(|label| number(P, Q, right, off, label, wish)), [10; 3]);
    }
    assert_eq!(number(P, Q, right, off, 0, Wish::Restore), 33);
    assert_eq!(number(P, Q, right, off, 2, Wish::Strike), 33);
    for counts in [off, [0; 5], [1 << 63, 1, 0, 1 << 63, 0], [u64::MAX, 1, 0, 1, 0]] {
        assert_eq!(number(P, Q, right, counts, 0, Wish::Strike), 34, "{counts:?}");
        assert_eq!(number(P, Q, right, counts, 2, Wish::Restore), 34, "{counts:?}");
    }
    let refusal = change_mark(P, Q, &mut [1; 5], five([3, 0, 2, 0, 0]), 4, Wish::Restore).unwrap_err();
    assert_eq!(refusal.to_string(), "refused 33: the label already is as wished");
}

/// A mark that is neither is refused by 32, where `Wish` has none.
#[test]
fn marks_of_no_wish() {
    for (mark, label) in [(2, 0), (256, 0), (257, 0), (65535, 0), (2, 5)] {
        let mut marks = [1; 5];
        // SAFETY: each pointer and number are those of one live slice, and the marks overlap nothing.
        let answer = unsafe {
            raw::leskwyn_change_mark(P.as_ptr(), 18, Q.as_ptr(), 16, marks.as_mut_ptr(), 5, 3, 0, 2, 0, 0, label, mark)
        };
        assert_eq!((answer, marks), (raw::FiveAnswer { refusal: 32, a: 0, b: 0, c: 0, d: 0, e: 0 }, [1; 5]));
    }
}

/// The path from tip 3 of P is 6 5 3 1 0, and 2 4 7 follow. That from tip 2 of Q is 4 3 1 0, and 2 5 6 follow.
#[test]
fn rerooted_tables() {
    let mut cells = [9; 20];
    assert_eq!(reroot(P, 3, &mut cells), Ok(()));
    assert_eq!(cells, [5, 8, 0, 0, 1, 2, 3, 3, 2, 1, 0, X, X, X, 3, 1, 2, 4, 9, 9]);
    assert_eq!(reroot(Q, 2, &mut cells), Ok(()));
    assert_eq!(cells[..16], [5, 7, 0, 0, 1, 2, 2, 1, 1, 0, X, X, 2, 1, 3, 4]);
    for table in [P, Q, R, W] {
        let mut cells = vec![9; table.len()];
        assert_eq!((reroot(table, 0, &mut cells), &cells[..]), (Ok(()), table));
    }
    let mut cells = [9; 6];
    assert_eq!((reroot(&[2, 2, 0, 0, 0, 1], 1, &mut cells), cells), (Ok(()), [2, 2, 0, 0, 0, 1]));
}

/// The table, 10, 12: the earlier one decides, and no cell changes.
#[test]
fn refused_rerooting() {
    for (table, label, cells, number) in [
        (&[5][..], 5, 0, 1),
        (&[4, 5, 0, 0, 1, 1, 1, 0, X, 1, 2, 2], 4, 11, 31),
        (P, 5, 17, 10),
        (P, X, 18, 10),
        (P, 4, 17, 12),
        (P, 0, 0, 12),
    ] {
        let mut lent = vec![9; cells];
        let told = reroot(table, label, &mut lent).map_err(Refusal::number);
        assert_eq!((told, lent), (Err(number), vec![9; cells]), "{table:?} at {label}");
    }
}
