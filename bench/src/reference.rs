//! The tables and pairs of docs/SPECIFICATION.md, 'Reference pairs', and further pairs worked out by hand or from the
//! source documents.

pub const X: u16 = 65535;

pub const P: &[u16] = &[5, 8, 0, 0, 1, 1, 3, 3, 5, 5, 0, X, 1, X, 2, X, 3, 4];
pub const Q: &[u16] = &[5, 7, 0, 0, 1, 1, 3, 3, 3, 0, X, 1, X, 2, 3, 4];
pub const R: &[u16] = &[5, 8, 0, 0, 1, 1, 3, 3, 5, 5, 0, X, 2, X, 1, X, 3, 4];
pub const W: &[u16] = &[5, 6, 0, 0, 1, 1, 1, 1, 0, X, 1, 2, 3, 4];
pub const TWO: &[u16] = &[2, 2, 0, 0, 0, 1];
pub const THREE: &[u16] = &[3, 4, 0, 0, 1, 1, 0, X, 1, 2];

/// The six tables.
pub const TABLES: [&[u16]; 6] = [P, Q, R, W, TWO, THREE];

/// A pair and its figures: S S' S2 S3; A to E with the distance, of quartets and of triplets; and the split counts.
pub struct ReferencePair {
    pub name: &'static str,
    pub first: &'static [u16],
    pub second: &'static [u16],
    pub claims: [u64; 4],
    pub quartets: [u64; 6],
    pub splits: [u64; 4],
    pub triplets: [u64; 6],
}

const fn pair(
    name: &'static str,
    first: &'static [u16],
    second: &'static [u16],
    claims: [u64; 4],
    quartets: [u64; 6],
    splits: [u64; 4],
    triplets: [u64; 6],
) -> ReferencePair {
    ReferencePair { name, first, second, claims, quartets, splits, triplets }
}

// The two trees of the triplet example of document 004, with tip 0 as outgroup.
const TRIPLETS: &[u16] = &[6, 10, 0, 0, 1, 2, 2, 4, 4, 1, 7, 7, 0, X, X, 1, X, 3, 5, X, 2, 4];
const OTHER_TRIPLETS: &[u16] = &[6, 10, 0, 0, 1, 2, 2, 1, 5, 6, 6, 5, 0, X, X, 3, 5, X, X, 1, 2, 4];

// The two caterpillars of the Robinson-Foulds example of document 000: one tip moves from the one end to the other.
const WORM: &[u16] = &[8, 14, 0, 0, 1, 1, 3, 3, 5, 5, 7, 7, 9, 9, 11, 11, 0, X, 1, X, 2, X, 3, X, 4, X, 5, X, 6, 7];
const MOVED: &[u16] = &[8, 14, 0, 0, 1, 1, 3, 3, 5, 5, 7, 7, 9, 9, 11, 11, 0, X, 7, X, 1, X, 2, X, 3, X, 4, X, 5, 6];

// A balanced tree, the same with labels 1 and 5 exchanged, and a tree of mixed degree.
const EVEN: &[u16] = &[8, 14, 0, 0, 1, 2, 3, 3, 2, 6, 6, 1, 9, 10, 10, 9, 0, X, X, X, 1, 2, X, 3, 4, X, X, 5, 6, 7];
const EXCHANGED: &[u16] =
    &[8, 14, 0, 0, 1, 2, 3, 3, 2, 6, 6, 1, 9, 10, 10, 9, 0, X, X, X, 5, 2, X, 3, 4, X, X, 1, 6, 7];
const MIXED: &[u16] = &[8, 11, 0, 0, 1, 2, 2, 2, 1, 6, 6, 6, 1, 0, X, X, 1, 2, 3, X, 4, 5, 6, 7];

pub const PAIRS: [ReferencePair; 13] = [
    pair("K1", P, Q, [10, 6, 6, 0], [3, 0, 2, 0, 0, 2], [2, 1, 1, 1], [3, 0, 1, 0, 0, 1]),
    pair("K2", P, R, [10, 10, 6, 8], [3, 2, 0, 0, 0, 2], [2, 2, 1, 2], [2, 2, 0, 0, 0, 2]),
    pair("K3", Q, R, [6, 10, 2, 8], [1, 2, 0, 2, 0, 4], [1, 2, 0, 3], [1, 2, 0, 1, 0, 3]),
    pair("K4", P, P, [10, 10, 10, 0], [5, 0, 0, 0, 0, 0], [2, 2, 2, 0], [4, 0, 0, 0, 0, 0]),
    pair("K5", W, W, [0, 0, 0, 0], [0, 0, 0, 0, 5, 0], [0, 0, 0, 0], [0, 0, 0, 0, 4, 0]),
    pair("K6", P, W, [10, 0, 0, 0], [0, 0, 5, 0, 0, 5], [2, 0, 0, 2], [0, 0, 4, 0, 0, 4]),
    pair("K7", W, P, [0, 10, 0, 0], [0, 0, 0, 5, 0, 5], [0, 2, 0, 2], [0, 0, 0, 4, 0, 4]),
    pair("K8", TWO, TWO, [0, 0, 0, 0], [0, 0, 0, 0, 0, 0], [0, 0, 0, 0], [0, 0, 0, 0, 0, 0]),
    pair("K9", THREE, THREE, [0, 0, 0, 0], [0, 0, 0, 0, 0, 0], [0, 0, 0, 0], [0, 0, 0, 0, 0, 0]),
    pair("triplets", TRIPLETS, OTHER_TRIPLETS, [30, 30, 16, 28], [8, 7, 0, 0, 0, 7], [3, 3, 1, 4], [5, 5, 0, 0, 0, 5]),
    pair("caterpillars", WORM, MOVED, [140, 140, 70, 140], [35, 35, 0, 0, 0, 35], [5, 5, 0, 10], [20, 15, 0, 0, 0, 15]),
    pair("balanced", EVEN, EXCHANGED, [140, 140, 48, 184], [24, 46, 0, 0, 0, 46], [5, 5, 1, 8], [12, 23, 0, 0, 0, 23]),
    pair("mixed", MIXED, EVEN, [102, 140, 58, 88], [29, 22, 0, 19, 0, 41], [2, 5, 0, 7], [14, 10, 0, 11, 0, 21]),
];
