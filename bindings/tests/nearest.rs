//! The nearest tree of a shelf, on trees whose distances are worked out by hand. Random trees are for
//! `bench/tests/nearest.rs`.

use leskwyn::{nearest, raw, Nearest, Refusal, INNER as X};

type Table = &'static [u16];

/// Below tip 0: (1,(2,(3,4))).
const P: Table = &[5, 8, 0, 0, 1, 1, 3, 3, 5, 5, 0, X, 1, X, 2, X, 3, 4];
/// Below tip 0: (1,(2,3,4)).
const Q: Table = &[5, 7, 0, 0, 1, 1, 3, 3, 3, 0, X, 1, X, 2, 3, 4];
/// Below tip 0: (2,(1,(3,4))).
const R: Table = &[5, 8, 0, 0, 1, 1, 3, 3, 5, 5, 0, X, 2, X, 1, X, 3, 4];
/// All five at node 1.
const W: Table = &[5, 6, 0, 0, 1, 1, 1, 1, 0, X, 1, 2, 3, 4];
/// P with pass-through nodes at node 1, above tip 1 and above (3,4).
const P_CHAINED: Table = &[5, 13, 0, 0, 1, 2, 2, 4, 4, 3, 6, 8, 9, 9, 7, 0, X, X, X, X, 2, X, X, X, X, 3, 4, 1];
/// Below tip 0: (1,2), and tip 1 alone, once with two pass-through nodes between.
const THREE: Table = &[3, 4, 0, 0, 1, 1, 0, X, 1, 2];
const TWO: Table = &[2, 2, 0, 0, 0, 1];
const LINE: Table = &[2, 4, 0, 0, 1, 2, 0, X, X, 1];

/// The number of the tables, and then the tables.
fn shelf(tables: &[Table]) -> Vec<u16> {
    [&[tables.len() as u16], tables.concat().as_slice()].concat()
}

/// A table at the one end of fifteen stars.
fn with_stars(table: Table, is_first: bool) -> Vec<Table> {
    let stars = [W; 15];
    if is_first {
        [&[table], &stars[..]].concat()
    } else {
        [&stars[..], &[table]].concat()
    }
}

/// Two butterflies of P, 02|34 and 12|34, are stars in Q. P and R differ in 0123 and 0124, Q and R in these and in two
/// stars. P and R have five butterflies, Q three, W none. So of all four the sums are 9, 9, 11 and 13.
#[test]
fn nearest_trees() {
    for (tables, position, sum, cells) in [
        (vec![P, Q, R, W], 0, 9, 49),
        (vec![Q, P, R, W], 0, 9, 49),
        (vec![R, W, Q, P], 2, 9, 49),
        (vec![W, R, P, Q], 2, 9, 49),
        (vec![Q, P, R], 1, 4, 49),
        (vec![R, Q, P], 2, 4, 49),
        (vec![R, Q, W], 1, 7, 49),
        (vec![P, Q], 0, 2, 49),
        (vec![Q, W], 0, 3, 36),
        // The same tree more than once.
        (vec![P, P], 0, 0, 49),
        (vec![W, W, P], 0, 5, 49),
        (vec![P, W, W], 1, 5, 49),
        (vec![P, W, P, W], 0, 10, 49),
        (vec![Q, W, P, R, P], 2, 9, 49),
        (with_stars(P, true), 1, 5, 49),
        (with_stars(P, false), 0, 5, 49),
        // A tree with pass-through nodes is the same tree, and takes more cells.
        (vec![P_CHAINED, P], 0, 0, 144),
        (vec![P, P_CHAINED], 0, 0, 144),
        (vec![Q, P_CHAINED, R], 1, 4, 144),
        (vec![W, Q, R, P_CHAINED], 1, 9, 144),
        // No set of four.
        (vec![THREE, THREE], 0, 0, 9),
        (vec![TWO, TWO, TWO], 0, 0, 1),
        (vec![TWO, LINE], 0, 0, 9),
    ] {
        let shelf = shelf(&tables);
        for (spare, held) in [(0, 9), (1, 255), (7, 1), (3, 0)] {
            let mut work = vec![held; cells + spare];
            work[cells..].fill(5);
            assert_eq!(nearest(&shelf, &mut work), Ok(Nearest { position, sum }), "{tables:?}");
            assert_eq!(work, [vec![0; cells], vec![5; spare]].concat(), "{tables:?}");
        }
        for few in [cells - 1, 0] {
            let mut work = vec![9; few];
            let told = nearest(&shelf, &mut work).unwrap_err().number();
            assert_eq!((told, work), (9, vec![9; few]), "{tables:?} in {few} cells");
        }
    }
}

/// Words that break one rule each. Before another table those that are too short take words of it.
const REFUSED: [Table; 8] = [
    &[5],
    &[1, 2, 0, 0, 0, 1],
    &[5, 21, 0, 0, 0, 1],
    &[5, 6, 0, 0, 1, 1, 1, 1, 0, X, 1, 2, 3],
    &[5, 6, 0, 0, 1, 1, 1, 6, 0, X, 1, 2, 3, 4],
    &[5, 6, 0, 0, 1, 1, 1, 1, 0, X, 1, 2, 3, 5],
    &[5, 6, 0, 0, 1, 1, 1, 1, 0, X, 1, 2, 3, 3],
    &[5, 7, 0, 0, 1, 1, 1, 1, 1, 0, X, 1, 2, 3, 4, X],
];

/// 38, 39, 9: the earlier one decides, and no cell changes.
fn refuses(shelf: &[u16], number: u16) {
    for cells in [0, 1, 48, 1000] {
        let mut work = vec![9; cells];
        let told = nearest(shelf, &mut work).map_err(Refusal::number);
        assert_eq!((told, work), (Err(number), vec![9; cells]), "{shelf:?} in {cells} cells");
    }
}

/// 16 trees are the most.
#[test]
fn numbers_of_trees() {
    refuses(&[], 38);
    for count in [0, 1, 17, 18, 258, 32768, X] {
        refuses(&[count], 38);
        refuses(&[&[count], [P; 17].concat().as_slice()].concat(), 38);
        refuses(&[&[count], REFUSED[1], P].concat(), 38);
    }
    let most = shelf(&[P; 16]);
    assert_eq!(nearest(&most, &mut [0; 49]), Ok(Nearest { position: 0, sum: 0 }));
    refuses(&shelf(&[P]), 38);
    refuses(&shelf(&[P; 17]), 38);
}

#[test]
fn wrong_trees() {
    for refused in REFUSED {
        for tables in
            [vec![refused, P], vec![P, refused], vec![P, Q, refused], vec![refused, P, Q], vec![P, refused, Q]]
        {
            refuses(&shelf(&tables), 39);
        }
    }
    // Different n.
    for tables in [[P, TWO, P], [TWO, P, P], [P, P, TWO], [THREE, THREE, TWO]] {
        refuses(&shelf(&tables), 39);
    }
    // Words left over: one, and a tree.
    refuses(&[&[2], P, Q, &[0]].concat(), 39);
    refuses(&[&[2], P, Q, R].concat(), 39);
    // A tree too few, none, and one that is cut short.
    refuses(&[&[3], P, Q].concat(), 39);
    refuses(&[2], 39);
    refuses(&[16, 5], 39);
    let shelf = shelf(&[P, Q, R]);
    (1..shelf.len()).for_each(|words| refuses(&shelf[..words], 39));
}

#[test]
fn words_of_refusals() {
    let wrong = nearest(&[1], &mut []).unwrap_err();
    assert_eq!(wrong.to_string(), "refused 38: the shelf has no word 0, or it is not 2 to 16");
    let wrong = nearest(&[2], &mut []).unwrap_err();
    assert_eq!(wrong.to_string(), "refused 39: a tree of the shelf is refused, the n differ, or words are left over");
}

/// The number with zeros, or 0 with the position and the sum.
#[test]
fn plain_answers() {
    let good = shelf(&[Q, P, R]);
    for (words, cells, refusal, position, sum) in
        [(53, 49, 0, 1, 4), (53, 48, 9, 0, 0), (52, 49, 39, 0, 0), (1, 49, 39, 0, 0), (0, 49, 38, 0, 0)]
    {
        let mut work = vec![9; cells];
        // SAFETY: each pointer is that of one live slice of at least so many elements, and the work overlaps nothing.
        let answer = unsafe { raw::leskwyn_nearest(good.as_ptr(), words, work.as_mut_ptr(), cells) };
        assert_eq!(answer, raw::NearestAnswer { refusal, position, sum }, "{words} words in {cells} cells");
    }
}
