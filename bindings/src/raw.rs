//! The functions of the static library as they are exported, and their answers as they are laid out in C. The header
//! `include/leskwyn.h` says what each takes, refuses and promises; the functions of the crate's root wrap them.

/// The refusal, or 0; the first cell of the labels beyond an edge in a walk, and how many they are.
#[repr(C)]
#[derive(Clone, Copy, Debug, PartialEq, Eq)]
pub struct BeyondAnswer {
    pub refusal: u16,
    pub start: u16,
    pub labels: u16,
}

/// The refusal, or 0; the node.
#[repr(C)]
#[derive(Clone, Copy, Debug, PartialEq, Eq)]
pub struct CentreAnswer {
    pub refusal: u16,
    pub node: u16,
}

/// The refusal, or 0; 1 for a butterfly and 0 for a star; the partner of the smallest label, 0 for a star.
#[repr(C)]
#[derive(Clone, Copy, Debug, PartialEq, Eq)]
pub struct TopologyAnswer {
    pub refusal: u16,
    pub butterfly: u16,
    pub partner: u16,
}

/// The refusal, or 0; how many words the copy has.
#[repr(C)]
#[derive(Clone, Copy, Debug, PartialEq, Eq)]
pub struct CopyAnswer {
    pub refusal: u16,
    pub words: u16,
}

/// The refusal, or 0; how many exchanges fall in each of the eleven tallies.
#[repr(C)]
#[derive(Clone, Copy, Debug, PartialEq, Eq)]
pub struct ExchangeAnswer {
    pub refusal: u16,
    pub tallies: [u64; 11],
}

/// The refusal, or 0; the quartet distance of the tree with two labels exchanged to the tree itself.
#[repr(C)]
#[derive(Clone, Copy, Debug, PartialEq, Eq)]
pub struct ExchangeDistanceAnswer {
    pub refusal: u16,
    pub distance: u64,
}

/// The refusal, or 0; S, S', S2 and S3.
#[repr(C)]
#[derive(Clone, Copy, Debug, PartialEq, Eq)]
pub struct ClaimSumsAnswer {
    pub refusal: u16,
    pub first: u64,
    pub second: u64,
    pub same: u64,
    pub different: u64,
}

/// The refusal, or 0; A to E and B + C + D.
#[repr(C)]
#[derive(Clone, Copy, Debug, PartialEq, Eq)]
pub struct QuartetTableAnswer {
    pub refusal: u16,
    pub a: u64,
    pub b: u64,
    pub c: u64,
    pub d: u64,
    pub e: u64,
    pub distance: u64,
}

/// The refusal, or 0; the splits of the first tree, of the second, of both; the Robinson-Foulds distance.
#[repr(C)]
#[derive(Clone, Copy, Debug, PartialEq, Eq)]
pub struct SplitCountsAnswer {
    pub refusal: u16,
    pub first: u64,
    pub second: u64,
    pub common: u64,
    pub distance: u64,
}

/// The refusal, or 0; A to E of the triplets and B + C + D.
#[repr(C)]
#[derive(Clone, Copy, Debug, PartialEq, Eq)]
pub struct TripletTableAnswer {
    pub refusal: u16,
    pub a: u64,
    pub b: u64,
    pub c: u64,
    pub d: u64,
    pub e: u64,
    pub distance: u64,
}

/// The kinds of weight: nothing, full, a part with its fraction.
pub const WEIGHT_NONE: u16 = 0;
pub const WEIGHT_FULL: u16 = 1;
pub const WEIGHT_PART: u16 = 2;

/// The refusal, or 0; the weighted distance.
#[repr(C)]
#[derive(Clone, Copy, Debug, PartialEq)]
pub struct WeightedDistanceAnswer {
    pub refusal: u16,
    pub distance: f64,
}

/// The cases of four tips in two trees.
pub const CASE_A: u16 = 0;
pub const CASE_B: u16 = 1;
pub const CASE_C: u16 = 2;
pub const CASE_D: u16 = 3;
pub const CASE_E: u16 = 4;

/// The refusal, or 0; the case, E for a refusal; for each tree 1 and an edge, or 0 and a meeting node.
#[repr(C)]
#[derive(Clone, Copy, Debug, PartialEq, Eq)]
pub struct EvidenceAnswer {
    pub refusal: u16,
    pub which: u16,
    pub first_edge: u16,
    pub first_number: u16,
    pub second_edge: u16,
    pub second_number: u16,
}

/// The refusal, or 0; five counts of sets of four, A to E.
#[repr(C)]
#[derive(Clone, Copy, Debug, PartialEq, Eq)]
pub struct FiveAnswer {
    pub refusal: u16,
    pub a: u64,
    pub b: u64,
    pub c: u64,
    pub d: u64,
    pub e: u64,
}

/// The refusal, or 0; the number of visible labels; A to E and B + C + D; the splits of the first tree, of the second, of
/// both, and the Robinson-Foulds distance.
#[repr(C)]
#[derive(Clone, Copy, Debug, PartialEq, Eq)]
pub struct ViewAnswer {
    pub refusal: u16,
    pub visible: u64,
    pub a: u64,
    pub b: u64,
    pub c: u64,
    pub d: u64,
    pub e: u64,
    pub distance: u64,
    pub first_splits: u64,
    pub second_splits: u64,
    pub common_splits: u64,
    pub robinson_foulds: u64,
}

/// The refusal, or 0; the position of the nearest tree on its shelf, and the sum of its quartet distances.
#[repr(C)]
#[derive(Clone, Copy, Debug, PartialEq, Eq)]
pub struct NearestAnswer {
    pub refusal: u16,
    pub position: u16,
    pub sum: u64,
}

/// A function of two tables, the marks and the work: each as a pointer and a number of elements.
pub type PairFunction<T> =
    unsafe extern "C" fn(*const u16, usize, *const u16, usize, *const u8, usize, *mut u8, usize) -> T;

// Every function is safe to call with pointers to that many elements, aligned and live for the call, where the slice of
// a `*mut` overlaps no other. The library holds no global and keeps no pointer.
extern "C" {
    pub fn leskwyn_version() -> u32;

    pub fn leskwyn_check(table: *const u16, words: usize) -> u16;

    pub fn leskwyn_walk(table: *const u16, words: usize, walk: *mut u16, cells: usize) -> u16;

    pub fn leskwyn_beyond(table: *const u16, words: usize, edge: u16, cells: usize) -> BeyondAnswer;

    pub fn leskwyn_centre(table: *const u16, words: usize, a: u16, b: u16, c: u16) -> CentreAnswer;

    pub fn leskwyn_topology(table: *const u16, words: usize, a: u16, b: u16, c: u16, d: u16) -> TopologyAnswer;

    pub fn leskwyn_reroot(table: *const u16, table_words: usize, label: u16, out: *mut u16, out_words: usize) -> u16;

    pub fn leskwyn_canonical_copy(
        table: *const u16,
        table_words: usize,
        marks: *const u8,
        marks_count: usize,
        copy: *mut u16,
        copy_words: usize,
    ) -> CopyAnswer;

    pub fn leskwyn_exchange_tallies(table: *const u16, words: usize, work: *mut u8, cells: usize) -> ExchangeAnswer;

    pub fn leskwyn_exchange_distance(table: *const u16, words: usize, x: u16, y: u16) -> ExchangeDistanceAnswer;

    pub fn leskwyn_crossings(
        first: *const u16,
        first_words: usize,
        second: *const u16,
        second_words: usize,
        marks: *const u8,
        marks_count: usize,
        work: *mut u8,
        cells: usize,
    ) -> u16;

    pub fn leskwyn_claim_sums(
        first: *const u16,
        first_words: usize,
        second: *const u16,
        second_words: usize,
        marks: *const u8,
        marks_count: usize,
        work: *mut u8,
        cells: usize,
    ) -> ClaimSumsAnswer;

    pub fn leskwyn_quartet_table(
        first: *const u16,
        first_words: usize,
        second: *const u16,
        second_words: usize,
        marks: *const u8,
        marks_count: usize,
        work: *mut u8,
        cells: usize,
    ) -> QuartetTableAnswer;

    pub fn leskwyn_split_counts(
        first: *const u16,
        first_words: usize,
        second: *const u16,
        second_words: usize,
        marks: *const u8,
        marks_count: usize,
        work: *mut u8,
        cells: usize,
    ) -> SplitCountsAnswer;

    pub fn leskwyn_triplet_table(
        first: *const u16,
        first_words: usize,
        second: *const u16,
        second_words: usize,
        work: *mut u8,
        cells: usize,
    ) -> TripletTableAnswer;

    pub fn leskwyn_weighted_distance(
        first: *const u16,
        first_words: usize,
        second: *const u16,
        second_words: usize,
        marks: *const u8,
        marks_count: usize,
        work: *mut u8,
        cells: usize,
        kind: u16,
        fraction: f64,
    ) -> WeightedDistanceAnswer;

    pub fn leskwyn_evidence(
        first: *const u16,
        first_words: usize,
        second: *const u16,
        second_words: usize,
        a: u16,
        b: u16,
        c: u16,
        d: u16,
    ) -> EvidenceAnswer;

    pub fn leskwyn_holding(
        first: *const u16,
        first_words: usize,
        second: *const u16,
        second_words: usize,
        marks: *const u8,
        marks_count: usize,
        label: u16,
    ) -> FiveAnswer;

    pub fn leskwyn_change_mark(
        first: *const u16,
        first_words: usize,
        second: *const u16,
        second_words: usize,
        marks: *mut u8,
        marks_count: usize,
        a: u64,
        b: u64,
        c: u64,
        d: u64,
        e: u64,
        label: u16,
        mark: u16,
    ) -> FiveAnswer;

    pub fn leskwyn_view(
        first: *const u16,
        first_words: usize,
        second: *const u16,
        second_words: usize,
        levels: *const u8,
        levels_count: usize,
        viewer: u16,
        work: *mut u8,
        cells: usize,
    ) -> ViewAnswer;

    pub fn leskwyn_view_topology(
        table: *const u16,
        words: usize,
        levels: *const u8,
        levels_count: usize,
        viewer: u16,
        a: u16,
        b: u16,
        c: u16,
        d: u16,
    ) -> TopologyAnswer;

    pub fn leskwyn_nearest(shelf: *const u16, words: usize, work: *mut u8, cells: usize) -> NearestAnswer;
}
