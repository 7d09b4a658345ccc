//! Two labels exchanged, on trees whose answers are worked out by hand. Random trees are for `bench/tests/exchanges.rs`.

use leskwyn::{exchange_distance, exchange_tallies, raw, work_cells, Refusal, INNER as X};

type Table = &'static [u16];

/// For each label but 0 its exchange with each smaller one: how many sets of four change.
type Distances = &'static [&'static [u64]];

/// Below tip 0: (1,(2,(3,4))).
const P: Table = &[5, 8, 0, 0, 1, 1, 3, 3, 5, 5, 0, X, 1, X, 2, X, 3, 4];
/// Below tip 0: (1,(2,3,4)).
const Q: Table = &[5, 7, 0, 0, 1, 1, 3, 3, 3, 0, X, 1, X, 2, 3, 4];
/// Below tip 0: (2,(1,(3,4))).
const R: Table = &[5, 8, 0, 0, 1, 1, 3, 3, 5, 5, 0, X, 2, X, 1, X, 3, 4];
/// All five at node 1.
const W: Table = &[5, 6, 0, 0, 1, 1, 1, 1, 0, X, 1, 2, 3, 4];
/// P with pass-through nodes at node 1, above tip 1 and above (3,4).
const P_CHAINED: Table = &[5, 13, 0, 0, 1, 2, 2, 4, 4, 3, 6, 8, 9, 9, 7, 0, X, X, X, X, 2, X, X, X, X, 3, 4, 1];
/// Below tip 0: ((2,3),(5,1),4).
const S: Table = &[6, 9, 0, 0, 1, 2, 2, 1, 5, 5, 1, 0, X, X, 2, 3, X, 5, 1, 4];
/// Below tip 0: (1,(2,3)), and (1,2), and tip 1 alone, once with two pass-through nodes between.
const FOUR: Table = &[4, 6, 0, 0, 1, 1, 3, 3, 0, X, 1, X, 2, 3];
const THREE: Table = &[3, 4, 0, 0, 1, 1, 0, X, 1, 2];
const TWO: Table = &[2, 2, 0, 0, 0, 1];
const LINE: Table = &[2, 4, 0, 0, 1, 2, 0, X, X, 1];

/// Of P the exchanges of 0 with 1 and of 3 with 4 change no set of four, those of 2 change two, and the others all five.
const OF_P: Distances = &[&[0], &[2, 2], &[5, 5, 2], &[5, 5, 2, 0]];

/// Trees, how far each exchange moves them, and the tallies.
const EXCHANGES: [(Table, Distances, [u64; 11]); 10] = [
    // Five sets of four: 2/5 is tally 4, and 5/5 is tally 10.
    (P, OF_P, [2, 0, 0, 0, 4, 0, 0, 0, 0, 0, 4]),
    (P_CHAINED, OF_P, [2, 0, 0, 0, 4, 0, 0, 0, 0, 0, 4]),
    (R, &[&[2], &[0, 2], &[5, 2, 5], &[5, 2, 5, 0]], [2, 0, 0, 0, 4, 0, 0, 0, 0, 0, 4]),
    // 0 or 1 with 2, 3 or 4: 01|23, 01|24 and 01|34 change, and one of the stars 0234 and 1234.
    (Q, &[&[0], &[4, 4], &[4, 4, 0], &[4, 4, 0, 0]], [4, 0, 0, 0, 0, 0, 0, 0, 6, 0, 0]),
    (W, &[&[0], &[0; 2], &[0; 3], &[0; 4]], [10, 0, 0, 0, 0, 0, 0, 0, 0, 0, 0]),
    // Fifteen sets of four. 0 or 4 with a label of the pairs 23 and 15: five of the six sets that hold its pair change, and
    // two of the four stars. A label of 23 with one of 15: all eleven sets that hold a pair change, and two stars. 7/15 is
    // tally 4, and 13/15 is tally 8.
    (S, &[&[7], &[7, 13], &[7, 13, 0], &[0, 7, 7, 7], &[7, 0, 13, 13, 7]], [3, 0, 0, 0, 8, 0, 0, 0, 4, 0, 0]),
    // One set of four: 01|23.
    (FOUR, &[&[0], &[1, 1], &[1, 1, 0]], [2, 0, 0, 0, 0, 0, 0, 0, 0, 0, 4]),
    // None.
    (THREE, &[&[0], &[0, 0]], [3, 0, 0, 0, 0, 0, 0, 0, 0, 0, 0]),
    (TWO, &[&[0]], [1, 0, 0, 0, 0, 0, 0, 0, 0, 0, 0]),
    (LINE, &[&[0]], [1, 0, 0, 0, 0, 0, 0, 0, 0, 0, 0]),
];

/// In either order.
#[test]
fn distances() {
    for (table, distances, _) in EXCHANGES {
        assert_eq!(distances.len() + 1, usize::from(table[0]));
        for (y, of_label) in (1..).zip(distances) {
            assert_eq!(of_label.len(), usize::from(y));
            for (x, &distance) in (0..).zip(*of_label) {
                let told = [exchange_distance(table, x, y), exchange_distance(table, y, x)];
                assert_eq!(told, [Ok(distance); 2], "{x} and {y} of {table:?}");
            }
        }
    }
}

/// In (m - 1)(m - 1) cells, which are 0 afterwards whatever they held, and in more, which stay. One less is refused, and so
/// are none: no cell changes.
#[test]
fn tallies() {
    for (table, _, tallies) in EXCHANGES {
        let cells = work_cells(table, table).expect("accepted");
        for (spare, held) in [(0, 9), (1, 255), (7, 1), (3, 0)] {
            let mut work = vec![held; cells + spare];
            work[cells..].fill(5);
            assert_eq!(exchange_tallies(table, &mut work), Ok(tallies), "{table:?}");
            assert_eq!(work, [vec![0; cells], vec![5; spare]].concat(), "{table:?}");
        }
        for few in [cells - 1, 0] {
            let mut work = vec![9; few];
            let told = exchange_tallies(table, &mut work).unwrap_err().number();
            assert_eq!((told, work), (9, vec![9; few]), "{table:?} in {few} cells");
        }
    }
}

/// Tables that break one rule each, with its number.
const REFUSED: [(Table, u16); 8] = [
    (&[5], 1),
    (&[1, 2, 0, 0, 0, 1], 2),
    (&[2, 9, 0, 0, 0, 1], 3),
    (&[2, 2, 0, 0, 0], 4),
    (&[2, 2, 0, 1, 0, 1], 5),
    (&[2, 2, 0, 0, 1, 0], 6),
    (&[4, 5, 0, 0, 1, 1, 1, 0, X, 1, 2, 2], 31),
    (&[4, 6, 0, 0, 1, 1, 1, 1, 0, X, 1, 2, 3, X], 7),
];

/// The table, then 9: the earlier one decides, and no cell changes.
#[test]
fn the_order_of_refusals() {
    for (table, number) in REFUSED {
        for cells in [0, 1, 100] {
            let mut work = vec![9; cells];
            let told = exchange_tallies(table, &mut work).unwrap_err().number();
            assert_eq!((told, work), (number, vec![9; cells]), "{table:?} in {cells} cells");
        }
    }
}

/// The table, 10, 11: the earlier one decides.
#[test]
fn the_order_of_labels() {
    for (table, number) in REFUSED {
        for (x, y) in [(0, 1), (0, 0), (1, X), (X, X)] {
            assert_eq!(
                exchange_distance(table, x, y).map_err(Refusal::number),
                Err(number),
                "{x} and {y} of {table:?}"
            );
        }
    }
    for (x, y, number) in [(0, 5, 10), (5, 0, 10), (5, 5, 10), (X, X, 10), (4, X, 10), (0, 0, 11), (4, 4, 11)] {
        assert_eq!(exchange_distance(P, x, y).map_err(Refusal::number), Err(number), "{x} and {y}");
    }
}

/// The number with zeros, or 0 with the figures.
#[test]
fn plain_answers() {
    for (cells, refusal, tallies) in [(36, 0, [4, 0, 0, 0, 0, 0, 0, 0, 6, 0, 0]), (35, 9, [0; 11])] {
        let mut work = vec![9; cells];
        // SAFETY: each pointer and number are those of one live slice, and the work overlaps nothing.
        let answer = unsafe { raw::leskwyn_exchange_tallies(Q.as_ptr(), Q.len(), work.as_mut_ptr(), cells) };
        assert_eq!(answer, raw::ExchangeAnswer { refusal, tallies });
    }
    for (x, y, refusal, distance) in [(4, 0, 0, 4), (4, 5, 10, 0), (4, 4, 11, 0)] {
        // SAFETY: the pointer and the number are those of one live slice.
        let answer = unsafe { raw::leskwyn_exchange_distance(Q.as_ptr(), Q.len(), x, y) };
        assert_eq!(answer, raw::ExchangeDistanceAnswer { refusal, distance });
    }
}
