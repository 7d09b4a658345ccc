//! Canonical copies on trees whose answers are worked out by hand. Random trees are for `bench/tests/canonical_copy.rs`.

use leskwyn::{all_kept, canonical_copy, raw, Refusal, INNER as X};

type Table = &'static [u16];

/// Below tip 0: (1,(2,(3,4))).
const P: Table = &[5, 8, 0, 0, 1, 1, 3, 3, 5, 5, 0, X, 1, X, 2, X, 3, 4];
/// Below tip 0: (1,(2,3,4)).
const Q: Table = &[5, 7, 0, 0, 1, 1, 3, 3, 3, 0, X, 1, X, 2, 3, 4];
/// Below tip 0: (2,(1,(3,4))).
const R: Table = &[5, 8, 0, 0, 1, 1, 3, 3, 5, 5, 0, X, 2, X, 1, X, 3, 4];
/// All five at node 1.
const W: Table = &[5, 6, 0, 0, 1, 1, 1, 1, 0, X, 1, 2, 3, 4];
/// P from its last tips up: (((4,3),2),1) below tip 0.
const P_TURNED: Table = &[5, 8, 0, 0, 1, 2, 3, 3, 2, 1, 0, X, X, X, 4, 3, 2, 1];
/// P with pass-through nodes at node 1, above tip 1 and above (3,4).
const P_CHAINED: Table = &[5, 13, 0, 0, 1, 2, 2, 4, 4, 3, 6, 8, 9, 9, 7, 0, X, X, X, X, 2, X, X, X, X, 3, 4, 1];
/// Below tip 0: ((2,3),(5,1),4).
const S: Table = &[6, 9, 0, 0, 1, 2, 2, 1, 5, 5, 1, 0, X, X, 2, 3, X, 5, 1, 4];
/// Two tips with two pass-through nodes between them.
const LINE: Table = &[2, 4, 0, 0, 1, 2, 0, X, X, 1];

/// Below tip 0: (1,(2,3)), and (1,2), and tip 1 alone.
const FOUR: Table = &[4, 6, 0, 0, 1, 1, 3, 3, 0, X, 1, X, 2, 3];
const THREE: Table = &[3, 4, 0, 0, 1, 1, 0, X, 1, 2];
const TWO: Table = &[2, 2, 0, 0, 0, 1];

const COPIES: [(Table, &[u8], Table); 24] = [
    // Tables that are canonical already.
    (P, &[1; 5], P),
    (Q, &[1; 5], Q),
    (W, &[1; 5], W),
    (TWO, &[1; 2], TWO),
    // Children in the order of their smallest labels, each with all that hangs from it: ((1,(3,4)),2).
    (R, &[1; 5], &[5, 8, 0, 0, 1, 2, 2, 4, 4, 1, 0, X, X, 1, X, 3, 4, 2]),
    (P_TURNED, &[1; 5], P),
    // Tip 5 stands before tip 2, for it hangs beside tip 1: ((1,5),(2,3),4).
    (S, &[1; 6], &[6, 9, 0, 0, 1, 2, 2, 1, 5, 5, 1, 0, X, X, 1, 5, X, 2, 3, 4]),
    // Pass-through nodes are gone.
    (P_CHAINED, &[1; 5], P),
    (LINE, &[1; 2], TWO),
    // Label 0 is struck. P and R are the same tree without it: (2,(3,4)) below tip 1. Q is (2,3,4) there.
    (P, &[0, 1, 1, 1, 1], FOUR),
    (R, &[0, 1, 1, 1, 1], FOUR),
    (P_CHAINED, &[0, 1, 1, 1, 1], FOUR),
    (Q, &[0, 1, 1, 1, 1], &[4, 5, 0, 0, 1, 1, 1, 0, X, 1, 2, 3]),
    (P, &[0, 0, 1, 1, 1], THREE),
    // Below tip 1: ((2,3),5), for tip 5 is the last one.
    (S, &[0, 1, 1, 1, 0, 1], &[4, 6, 0, 0, 1, 2, 2, 1, 0, X, X, 1, 2, 3]),
    // Struck tips leave pass-through nodes and empty branches: (1,(2,4)), then (1,2), and ((2,3),4,5).
    (P, &[1, 1, 1, 0, 1], FOUR),
    (P, &[1, 1, 1, 0, 0], THREE),
    (P_CHAINED, &[1, 1, 1, 0, 0], THREE),
    (S, &[1, 0, 1, 1, 1, 1], &[5, 7, 0, 0, 1, 2, 2, 1, 1, 0, X, X, 1, 2, 3, 4]),
    // Two kept labels, near and far apart.
    (P, &[1, 1, 0, 0, 0], TWO),
    (P, &[0, 0, 0, 1, 1], TWO),
    (P_CHAINED, &[0, 1, 0, 0, 1], TWO),
    (W, &[1, 0, 0, 0, 1], TWO),
    (S, &[0, 0, 1, 0, 0, 1], TWO),
];

/// In as many cells as the copy has words, and in more, which stay. One less is refused, and so are none: no cell
/// changes.
#[test]
fn copies() {
    for (table, marks, copy) in COPIES {
        for spare in [0, 1, 7] {
            let mut cells = vec![9; copy.len() + spare];
            assert_eq!(canonical_copy(table, marks, &mut cells), Ok(copy), "{table:?} under {marks:?}");
            assert_eq!(cells, [copy, &vec![9; spare]].concat(), "{table:?} under {marks:?}");
        }
        for few in [copy.len() - 1, 0] {
            let mut cells = vec![9; few];
            let told = canonical_copy(table, marks, &mut cells).unwrap_err().number();
            assert_eq!((told, cells), (36, vec![9; few]), "{table:?} under {marks:?} in {few} cells");
        }
    }
}

/// A copy is a table, as long as the one that it is of or shorter, and its own copy.
#[test]
fn copies_of_copies() {
    for (table, _, copy) in COPIES {
        assert!(copy.len() <= table.len());
        let mut cells = vec![9; copy.len()];
        assert_eq!(canonical_copy(copy, all_kept(copy), &mut cells), Ok(copy));
    }
}

/// All sets of two kept labels have one copy, and all sets of three have one.
#[test]
fn two_and_three_labels() {
    for bits in 0_u8..32 {
        let marks: Vec<u8> = (0..5).map(|label| bits >> label & 1).collect();
        let expected = match bits.count_ones() {
            0 | 1 => Err(35),
            2 => Ok(TWO),
            3 => Ok(THREE),
            _ => continue,
        };
        let mut cells = [9; 18];
        assert_eq!(canonical_copy(P, &marks, &mut cells).map_err(Refusal::number), expected, "{marks:?}");
    }
}

/// The table, 32, 35, 36: the earlier one decides, and no cell changes.
#[test]
fn the_order_of_refusals() {
    let repeated = &[4, 5, 0, 0, 1, 1, 1, 0, X, 1, 2, 2][..];
    let without_child = &[4, 6, 0, 0, 1, 1, 1, 1, 0, X, 1, 2, 3, X][..];
    for (table, marks, cells, number) in [
        (&[5][..], &[2][..], 0, 1),
        (&[1, 2, 0, 0, 0, 1], &[2], 0, 2),
        (&[2, 9, 0, 0, 0, 1], &[2], 0, 3),
        (&P[..17], &[2], 0, 4),
        (&[2, 2, 0, 1, 0, 1], &[2], 0, 5),
        (&[2, 2, 0, 0, 1, 0], &[2], 0, 6),
        (repeated, &[2], 0, 31),
        (without_child, &[2], 0, 7),
        // Marks that are too few, too many, or above 1 come before kept labels that are too few.
        (P, &[], 0, 32),
        (P, &[1; 4], 18, 32),
        (P, &[1; 6], 18, 32),
        (P, &[0, 0, 0, 0, 2], 0, 32),
        (P, &[1, 1, 255, 1, 1], 18, 32),
        (P, &[0; 5], 0, 35),
        (P, &[0, 0, 1, 0, 0], 0, 35),
        (P, &[1, 0, 0, 0, 0], 18, 35),
        (P, &[1; 5], 0, 36),
        (P, &[1; 5], 17, 36),
        (P, &[0, 0, 0, 1, 1], 5, 36),
    ] {
        let mut lent = vec![9; cells];
        let told = canonical_copy(table, marks, &mut lent).unwrap_err().number();
        assert_eq!((told, lent), (number, vec![9; cells]), "{table:?} under {marks:?}");
    }
    let [few, short] = [&[1, 0, 0, 0, 0], &[1; 5]].map(|marks| canonical_copy(P, marks, &mut []).unwrap_err());
    assert_eq!(few.to_string(), "refused 35: fewer than two labels are kept");
    assert_eq!(short.to_string(), "refused 36: the cells are fewer than the canonical copy has words");
}

/// The number, and how many words were written: none by a refused call.
#[test]
fn plain_answers() {
    for (marks, cells, refusal, words) in
        [([1; 5], 18, 0, 18), ([0, 1, 1, 1, 1], 20, 0, 14), ([0, 0, 0, 0, 1], 18, 35, 0), ([1; 5], 17, 36, 0)]
    {
        let mut copy = vec![9; cells];
        // SAFETY: each pointer and number are those of one live slice, and the copy overlaps nothing.
        let answer = unsafe {
            raw::leskwyn_canonical_copy(P.as_ptr(), P.len(), marks.as_ptr(), marks.len(), copy.as_mut_ptr(), cells)
        };
        assert_eq!(answer, raw::CopyAnswer { refusal, words });
        assert_eq!(copy[usize::from(words)..], vec![9; cells - usize::from(words)]);
    }
}
