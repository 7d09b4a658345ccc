//! What a viewer is told, on trees whose answers are worked out by hand. Random trees are for `bench/tests/views.rs`.

use leskwyn::{raw, view, view_topology, work_cells, Refusal, Topology, View, INNER as X};

type Table = &'static [u16];

/// Below tip 0: (1,(2,(3,4))).
const P: Table = &[5, 8, 0, 0, 1, 1, 3, 3, 5, 5, 0, X, 1, X, 2, X, 3, 4];
/// Below tip 0: (1,(2,3,4)).
const Q: Table = &[5, 7, 0, 0, 1, 1, 3, 3, 3, 0, X, 1, X, 2, 3, 4];
/// Below tip 0: (2,(1,(3,4))).
const R: Table = &[5, 8, 0, 0, 1, 1, 3, 3, 5, 5, 0, X, 2, X, 1, X, 3, 4];
/// All five at node 1.
const W: Table = &[5, 6, 0, 0, 1, 1, 1, 1, 0, X, 1, 2, 3, 4];
/// Below tip 0: (1,2).
const THREE: Table = &[3, 4, 0, 0, 1, 1, 0, X, 1, 2];
const TWO: Table = &[2, 2, 0, 0, 0, 1];

/// The five cases and the splits of the first tree, of the second, and of both.
fn seen(visible: u64, [a, b, c, d, e]: [u64; 5], [first_splits, second_splits, common_splits]: [u64; 3]) -> View {
    let robinson_foulds = first_splits + second_splits - 2 * common_splits;
    View { visible, a, b, c, d, e, distance: b + c + d, first_splits, second_splits, common_splits, robinson_foulds }
}

/// A level equal to the viewer's is visible, one above it hidden.
#[test]
fn views() {
    for (first, second, levels, viewer, expected) in [
        // All five, by viewers of each level.
        (P, Q, &[0, 0, 0, 0, 0][..], 0, seen(5, [3, 0, 2, 0, 0], [2, 1, 1])),
        (P, Q, &[1, 0, 1, 0, 1], 1, seen(5, [3, 0, 2, 0, 0], [2, 1, 1])),
        (P, Q, &[2, 2, 2, 2, 2], 2, seen(5, [3, 0, 2, 0, 0], [2, 1, 1])),
        (P, Q, &[0, 1, 2, 3, 3], 3, seen(5, [3, 0, 2, 0, 0], [2, 1, 1])),
        // One is hidden: 01|34 in both trees without 2; 02|34 and a star without 1; 12|34 and a star without 0.
        (P, Q, &[0, 0, 1, 0, 0], 0, seen(4, [1, 0, 0, 0, 0], [1, 1, 1])),
        (P, Q, &[1, 2, 0, 1, 1], 1, seen(4, [0, 0, 1, 0, 0], [1, 0, 0])),
        (P, Q, &[3, 1, 2, 0, 1], 2, seen(4, [0, 0, 1, 0, 0], [1, 0, 0])),
        // P and R are one tree without 0, and part 0124 differently.
        (P, R, &[3, 2, 2, 2, 2], 2, seen(4, [1, 0, 0, 0, 0], [1, 1, 1])),
        (P, R, &[0, 0, 0, 1, 0], 0, seen(4, [0, 1, 0, 0, 0], [1, 1, 0])),
        (W, P, &[0, 0, 0, 0, 2], 1, seen(4, [0, 0, 0, 1, 0], [0, 1, 0])),
        (W, W, &[0, 3, 0, 0, 0], 2, seen(4, [0, 0, 0, 0, 1], [0, 0, 0])),
        // Fewer than four, one, none.
        (P, R, &[0, 1, 1, 0, 0], 0, seen(3, [0; 5], [0; 3])),
        (P, R, &[1, 1, 1, 1, 0], 0, seen(1, [0; 5], [0; 3])),
        (P, R, &[1, 1, 1, 1, 1], 0, seen(0, [0; 5], [0; 3])),
        (TWO, TWO, &[3, 3], 3, seen(2, [0; 5], [0; 3])),
    ] {
        let mut work = vec![9; work_cells(first, second).expect("accepted")];
        assert_eq!(view(first, second, levels, viewer, &mut work), Ok(expected), "{levels:?} by {viewer}");
    }
}

/// Cells hold how many visible labels lie beyond both edges, whatever they held; later ones stay.
#[test]
fn cells() {
    for (levels, crossings) in [([0, 0, 0], [2, 1, 1, 1, 1, 0, 1, 0, 1]), ([1, 0, 1], [1, 1, 0, 1, 1, 0, 0, 0, 0])] {
        let mut work = [9; 11];
        view(THREE, THREE, &levels, 0, &mut work).expect("accepted");
        assert_eq!((&work[..9], &work[9..]), (&crossings[..], &[9, 9][..]), "{levels:?}");
    }
}

/// Label 1 hidden in P and Q; then 1, 5 and 6 elsewhere, with pass-through nodes and other levels: a viewer is told the
/// same, of every four words.
#[test]
fn what_is_hidden_is_not_told() {
    // Below tip 0: ((2,5),((3,6),4),1) and (((2,3,4),1),(5,6)).
    let first = &[7, 13, 0, 0, 1, 2, 2, 1, 5, 6, 6, 5, 1, 10, 11, 0, X, X, 2, 5, X, X, 3, 6, 4, X, X, 1];
    let second = &[7, 12, 0, 0, 1, 2, 3, 3, 3, 2, 1, 8, 9, 9, 0, X, X, X, 2, 3, 4, 1, X, X, 5, 6];
    let (one, other) = (&[0, 1, 0, 0, 0][..], &[1, 3, 2, 0, 1, 3, 3][..]);
    let told = view(P, Q, one, 0, &mut [0; 42]);
    assert_eq!(told, Ok(seen(4, [0, 0, 1, 0, 0], [1, 0, 0])));
    assert_eq!(view(first, second, other, 2, &mut [0; 132]), told);
    let words = [0, 1, 2, 3, 4, 5, 6, 7, X];
    for a in words {
        for b in words {
            for (c, d) in words.into_iter().flat_map(|c| words.map(|d| (c, d))) {
                let four = [a, b, c, d];
                assert_eq!(view_topology(first, other, 2, four), view_topology(P, one, 0, four), "{four:?}");
                assert_eq!(view_topology(second, other, 2, four), view_topology(Q, one, 0, four), "{four:?}");
            }
        }
    }
}

#[test]
fn topologies() {
    let butterfly = |partner| Ok(Topology::Butterfly(partner));
    for (table, levels, viewer, four, expected) in [
        (P, [0, 1, 2, 3, 3], 3, [3, 1, 0, 2], butterfly(1)),
        (P, [0, 1, 0, 0, 0], 0, [4, 3, 2, 0], butterfly(2)),
        (P, [3, 1, 2, 0, 1], 2, [1, 2, 3, 4], butterfly(2)),
        (Q, [3, 1, 2, 0, 1], 2, [1, 2, 3, 4], Ok(Topology::Star)),
        (P, [3, 1, 2, 0, 1], 2, [0, 1, 2, 3], Err(10)),
        (P, [0, 0, 0, 0, 1], 0, [0, 1, 2, 4], Err(10)),
        (P, [0, 0, 0, 0, 1], 1, [0, 1, 2, 4], butterfly(1)),
        // A hidden label that stands twice is told like one that does not exist; a visible one is not.
        (P, [0, 0, 0, 0, 1], 0, [4, 4, 1, 2], Err(10)),
        (P, [0, 0, 0, 0, 1], 0, [5, 5, 1, 2], Err(10)),
        (P, [0, 0, 0, 0, 1], 0, [1, 1, 2, 4], Err(10)),
        (P, [0, 0, 0, 0, 1], 0, [1, 1, 2, 3], Err(11)),
        (P, [1; 5], 0, [0, 1, 2, 3], Err(10)),
    ] {
        let told = view_topology(table, &levels, viewer, four).map_err(Refusal::number);
        assert_eq!(told, expected, "{four:?}, {levels:?} by {viewer}");
    }
}

const REPEATED: Table = &[5, 6, 0, 0, 1, 1, 1, 1, 0, X, 1, 2, 3, 3];

/// First, second, 8, 37, 9: the earlier one decides, and no cell changes.
#[test]
fn the_order_of_refusals() {
    for (first, second, levels, viewer, cells, number) in [
        (&[5][..], &[5][..], &[4][..], 4, 0, 1),
        (REPEATED, &[5], &[4], 4, 0, 31),
        (P, REPEATED, &[4], 4, 0, 131),
        (P, TWO, &[4], 4, 0, 8),
        (P, Q, &[], 0, 0, 37),
        (P, Q, &[0; 4], 0, 42, 37),
        (P, Q, &[0; 6], 0, 42, 37),
        (P, Q, &[0, 0, 0, 0, 4], 3, 0, 37),
        (P, Q, &[255, 0, 0, 0, 0], 0, 42, 37),
        (P, Q, &[0; 5], 4, 42, 37),
        (P, Q, &[0; 5], 256, 42, 37),
        (P, Q, &[0; 5], X, 41, 37),
        (P, Q, &[3; 5], 3, 41, 9),
        (P, Q, &[3; 5], 0, 0, 9),
    ] {
        let mut work = vec![9; cells];
        let told = view(first, second, levels, viewer, &mut work).map_err(Refusal::number);
        assert_eq!((told, work), (Err(number), vec![9; cells]), "{levels:?} by {viewer} in {cells} cells");
    }
    let wrong = view(P, Q, &[0; 5], 4, &mut []).unwrap_err();
    assert_eq!(wrong.to_string(), "refused 37: there are not n levels, or a level or the viewer's is above 3");
}

/// The table, 37, 10, 11: the earlier one decides.
#[test]
fn the_order_of_labels() {
    for (table, levels, viewer, four, number) in [
        (&[5][..], &[4][..], 4, [5; 4], 1),
        (REPEATED, &[4], 4, [5; 4], 31),
        (P, &[0; 4], 0, [5; 4], 37),
        (P, &[0; 6], 0, [0, 1, 2, 5], 37),
        (P, &[0, 4, 0, 0, 0], 0, [0, 2, 3, 4], 37),
        (P, &[0; 5], 4, [0, 1, 2, 3], 37),
        (P, &[0; 5], 256, [0, 1, 2, 3], 37),
        (P, &[0; 5], 0, [5; 4], 10),
        (P, &[0, 2, 0, 0, 0], 1, [1; 4], 10),
        (P, &[0; 5], 0, [0; 4], 11),
    ] {
        let told = view_topology(table, levels, viewer, four).map_err(Refusal::number);
        assert_eq!(told, Err(number), "{four:?}, {levels:?} by {viewer}");
    }
}

const ZEROS: raw::ViewAnswer = raw::ViewAnswer {
    refusal: 0,
    visible: 0,
    a: 0,
    b: 0,
    c: 0,
    d: 0,
    e: 0,
    distance: 0,
    first_splits: 0,
    second_splits: 0,
    common_splits: 0,
    robinson_foulds: 0,
};

/// The number with zeros and a star, or 0 with the figures.
#[test]
fn plain_answers() {
    let levels = [1, 2, 0, 1, 1];
    for (viewer, cells, expected) in [
        (1, 42, raw::ViewAnswer { visible: 4, c: 1, distance: 1, first_splits: 1, robinson_foulds: 1, ..ZEROS }),
        (1, 41, raw::ViewAnswer { refusal: 9, ..ZEROS }),
        (4, 42, raw::ViewAnswer { refusal: 37, ..ZEROS }),
    ] {
        let mut work = vec![9; cells];
        // SAFETY: each pointer and number are those of one live slice, and the work overlaps nothing.
        let answer = unsafe {
            raw::leskwyn_view(
                P.as_ptr(),
                P.len(),
                Q.as_ptr(),
                Q.len(),
                levels.as_ptr(),
                levels.len(),
                viewer,
                work.as_mut_ptr(),
                cells,
            )
        };
        assert_eq!(answer, expected, "viewer {viewer} in {cells} cells");
    }
    for (four, refusal, butterfly, partner) in [([4, 0, 3, 2], 0, 1, 2), ([0, 1, 2, 3], 10, 0, 0), ([4; 4], 11, 0, 0)] {
        let [a, b, c, d] = four;
        // SAFETY: each pointer and number are those of one live slice.
        let answer =
            unsafe { raw::leskwyn_view_topology(P.as_ptr(), P.len(), levels.as_ptr(), levels.len(), 1, a, b, c, d) };
        assert_eq!(answer, raw::TopologyAnswer { refusal, butterfly, partner }, "{four:?}");
    }
}
