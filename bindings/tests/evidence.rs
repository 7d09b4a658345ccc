//! The evidence for one set of four, on trees whose answers are worked out by hand. Random pairs are for
//! `bench/tests/evidence.rs`.

use leskwyn::Witness::{Edge, Meet};
use leskwyn::{evidence, Case, Evidence, Witness, INNER as X};

type Table = &'static [u16];

/// Below tip 0: (1,(2,(3,4))). The labels 2, 3 and 4 are beyond edge 3, and 3 and 4 beyond edge 5.
const P: Table = &[5, 8, 0, 0, 1, 1, 3, 3, 5, 5, 0, X, 1, X, 2, X, 3, 4];
/// Below tip 0: (1,(2,3,4)). The labels 2, 3 and 4 are beyond edge 3.
const Q: Table = &[5, 7, 0, 0, 1, 1, 3, 3, 3, 0, X, 1, X, 2, 3, 4];
/// P with the labels 1 and 2 exchanged.
const R: Table = &[5, 8, 0, 0, 1, 1, 3, 3, 5, 5, 0, X, 2, X, 1, X, 3, 4];
/// All five at node 1.
const W: Table = &[5, 6, 0, 0, 1, 1, 1, 1, 0, X, 1, 2, 3, 4];

const fn shown(which: Case, first: Witness, second: Witness) -> Evidence {
    Evidence { which, first, second }
}

/// Two of these trees, four labels, and the evidence for them.
const FOURS: [([Table; 2], [u16; 4], Evidence); 16] = [
    ([P, Q], [0, 1, 2, 3], shown(Case::A, Edge(3), Edge(3))),
    ([P, Q], [0, 1, 2, 4], shown(Case::A, Edge(3), Edge(3))),
    // Edge 5 of P parts these four as well.
    ([P, Q], [0, 1, 3, 4], shown(Case::A, Edge(3), Edge(3))),
    ([P, Q], [0, 2, 3, 4], shown(Case::C, Edge(5), Meet(3))),
    ([P, Q], [1, 2, 3, 4], shown(Case::C, Edge(5), Meet(3))),
    ([P, R], [0, 1, 2, 3], shown(Case::B, Edge(3), Edge(3))),
    ([P, R], [0, 1, 2, 4], shown(Case::B, Edge(3), Edge(3))),
    ([P, R], [0, 1, 3, 4], shown(Case::A, Edge(3), Edge(5))),
    ([P, R], [0, 2, 3, 4], shown(Case::A, Edge(5), Edge(3))),
    ([P, R], [1, 2, 3, 4], shown(Case::A, Edge(5), Edge(5))),
    ([Q, R], [0, 1, 2, 3], shown(Case::B, Edge(3), Edge(3))),
    ([Q, R], [0, 2, 3, 4], shown(Case::D, Meet(3), Edge(3))),
    ([Q, R], [1, 2, 3, 4], shown(Case::D, Meet(3), Edge(5))),
    ([W, W], [0, 1, 2, 3], shown(Case::E, Meet(1), Meet(1))),
    ([Q, W], [1, 2, 3, 4], shown(Case::E, Meet(3), Meet(1))),
    ([W, Q], [0, 2, 3, 4], shown(Case::E, Meet(1), Meet(3))),
];

/// The 24 orders of four labels.
fn orders([a, b, c, d]: [u16; 4]) -> Vec<[u16; 4]> {
    let of_three = |x, y, z| [[x, y, z], [x, z, y], [y, x, z], [y, z, x], [z, x, y], [z, y, x]];
    let led = |first: u16, rest: [[u16; 3]; 6]| rest.map(|[x, y, z]| [first, x, y, z]);
    [led(a, of_three(b, c, d)), led(b, of_three(a, c, d)), led(c, of_three(a, b, d)), led(d, of_three(a, b, c))]
        .concat()
}

#[test]
fn every_case_in_every_order() {
    for ([first, second], four, expected) in FOURS {
        for [a, b, c, d] in orders(four) {
            assert_eq!(evidence(first, second, a, b, c, d), Ok(expected), "{a} {b} {c} {d}");
        }
    }
}

/// The other way round C and D change places, and so do the two trees.
#[test]
fn trees_exchanged() {
    for ([first, second], [a, b, c, d], told) in FOURS {
        let which = match told.which {
            Case::C => Case::D,
            Case::D => Case::C,
            same => same,
        };
        let expected = shown(which, told.second, told.first);
        assert_eq!(evidence(second, first, a, b, c, d), Ok(expected), "{a} {b} {c} {d}");
    }
}

/// Below tip 0: (1,(2,3)), with pass-through nodes 2, 3 and 5 above (2,3), which is node 6. Edges 2, 3, 5 and 6 part
/// the four, and node 4 is tip 1.
#[test]
fn the_lowest_edge_of_a_chain() {
    let chain = &[4, 9, 0, 0, 1, 2, 1, 3, 5, 6, 6, 0, X, X, X, 1, X, X, 2, 3];
    let star = &[4, 5, 0, 0, 1, 1, 1, 0, X, 1, 2, 3];
    assert_eq!(evidence(chain, star, 3, 1, 2, 0), Ok(shown(Case::C, Edge(2), Meet(1))));
    assert_eq!(evidence(chain, chain, 3, 1, 2, 0), Ok(shown(Case::A, Edge(2), Edge(2))));
}

/// A chain of pass-through nodes from node 1 down, and the other 255 tips at its last node.
fn long_star(chain: u16) -> Vec<u16> {
    let (n, m) = (256, 256 + chain);
    let parents = [0].into_iter().chain(0..chain).chain((1..n).map(|_| chain));
    let labels = [0].into_iter().chain((0..chain).map(|_| X)).chain(1..n);
    [n, m].into_iter().chain(parents).chain(labels).collect()
}

/// 256 tips and 1024 nodes: all paths meet at the last node of the chain.
#[test]
fn the_most_nodes() {
    let (long, short) = (long_star(768), long_star(1));
    assert_eq!((long[1], leskwyn::check(&long)), (1024, Ok(())));
    for four in [[0, 1, 254, 255], [255, 254, 253, 252], [7, 0, 200, 100]] {
        let [a, b, c, d] = four;
        assert_eq!(evidence(&long, &short, a, b, c, d), Ok(shown(Case::E, Meet(768), Meet(1))), "{four:?}");
    }
}

/// The first table, the second, 8, 10, 11: the earlier one decides.
#[test]
fn the_order_of_refusals() {
    let number = |first: &[u16], second: &[u16], [a, b, c, d]: [u16; 4]| {
        evidence(first, second, a, b, c, d).map_err(leskwyn::Refusal::number)
    };
    let four_tips = &[4, 5, 0, 0, 1, 1, 1, 0, X, 1, 2, 3];
    let repeated = &[4, 5, 0, 0, 1, 1, 1, 0, X, 1, 2, 2];
    let (good, equal, high, both) = ([0, 1, 2, 3], [3, 1, 2, 3], [0, 1, 2, 65535], [2, 2, 5, 1]);
    for four in [good, equal, high, both] {
        assert_eq!(number(&[5], &[], four), Err(1));
        assert_eq!(number(P, &[], four), Err(101));
        assert_eq!(number(repeated, P, four), Err(31));
        assert_eq!(number(P, repeated, four), Err(131));
        assert_eq!(number(P, four_tips, four), Err(8));
    }
    assert_eq!(number(P, Q, high), Err(10));
    assert_eq!(number(P, Q, both), Err(10));
    assert_eq!(number(P, Q, equal), Err(11));
    assert_eq!(number(four_tips, four_tips, [4, 1, 2, 3]), Err(10));
    // With three tips there are no four different labels.
    let three = &[3, 4, 0, 0, 1, 1, 0, X, 1, 2];
    assert_eq!(number(three, three, [0, 1, 2, 3]), Err(10));
    assert_eq!(number(three, three, [0, 1, 2, 2]), Err(11));
}
