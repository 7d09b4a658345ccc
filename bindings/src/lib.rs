//! Safe calls into Leskwyn, a library that counts two population trees against each other, quartet by quartet, and is
//! proved to count right. Build it first: `tools/build staticlib capi` in the root of the repository.
//!
//! A tree is a table of 16-bit words: n, the tips (2 to 256); m, the nodes (n to 4n); m parent words; m label words,
//! [`INNER`] for an inner node. Node 0 is the tip labelled 0, and its only child is node 1; both have the parent word 0.
//! Every other node's parent is at least 1 and less than the node. Each label from 0 to n - 1 stands once. A tip other
//! than node 0 has no child, an inner node one or more. An inner node with one child is a pass-through node, which
//! changes no count and no distance.
//!
//! The calls that count two trees take *marks*, a byte for each label: [`KEPT`] or [`STRUCK`]. Kept labels alone are
//! counted, as if the tips of the others were not there; [`all_kept`] are the marks that strike none. Any labels may be
//! struck, label 0 and all of them too. [`triplet_table`] and [`evidence`] take no marks and know all labels.
//! [`change_mark`] strikes or restores one label and keeps the five counts of the quartet table up to date.
//! [`canonical_copy`] writes one tree cut down to its kept labels. [`exchange_tallies`] and [`exchange_distance`] tell how
//! far the exchange of two labels moves one tree; they take no marks and know all labels.
//!
//! [`view`] and [`view_topology`] are for viewers and take *levels* in place of marks: a byte of 0 to 3 for each label, and
//! the viewer's own. A label is visible if its level is not above the viewer's, else it is hidden. Levels, viewer and work
//! come from the desk that keeps the trees; a viewer chooses only four labels, and nothing of the work is the viewer's.
//! What a viewer is told depends only on the visible labels and their topologies in each tree, as long as the tables, the
//! levels and the work are accepted: a hidden label is like one that does not exist.
//!
//! [`nearest`] takes a *shelf*: the number of trees, 2 to 16, then their tables end to end. It tells the one with the least
//! sum of quartet distances to all, over all labels.
//!
//! A call that counts two trees is lent *work*: cells of one byte each, one for each edge of the first tree with each edge
//! of the second. They hold how many labels lie beyond both edges, 255 at most, since tip 0 lies beyond no edge.
//! [`work_cells`] tells how many cells a pair takes. [`holding`] and [`change_mark`] take none. [`exchange_tallies`] is
//! lent as many as its tree takes with itself, and [`nearest`] as many as its largest tree does; both leave 0 in them.
//!
//! Any words in slices of any length may be passed. The answer is the whole answer or a [`Refusal`]; a refused call
//! changes no lent cell. No call allocates, keeps a slice, or touches anything global, so all may be made from several
//! threads at once. [`claim_sums`], [`quartet_table`], [`weighted_distance`] and [`view`] take up to 240 kB of stack, and so
//! does [`nearest`], which takes about as much as a quartet table; [`triplet_table`], [`holding`], [`change_mark`],
//! [`canonical_copy`], [`exchange_tallies`] and [`exchange_distance`] up to 64 kB, the others up to 40 kB.
//!
//! ```
//! use leskwyn::{all_kept, quartet_table, work_cells, INNER as X};
//!
//! let p = [5, 8, 0, 0, 1, 1, 3, 3, 5, 5, 0, X, 1, X, 2, X, 3, 4];
//! let q = [5, 7, 0, 0, 1, 1, 3, 3, 3, 0, X, 1, X, 2, 3, 4];
//! let mut work = vec![0; work_cells(&p, &q)?];
//! let table = quartet_table(&p, &q, all_kept(&p), &mut work)?;
//! assert_eq!((table.a, table.b, table.c, table.d, table.e), (3, 0, 2, 0, 0));
//! assert_eq!(table.distance, 2);
//! // Without label 1 there is one set of four: (0,2,(3,4)) has a butterfly, (0,2,3,4) none.
//! let table = quartet_table(&p, &q, &[1, 0, 1, 1, 1], &mut work)?;
//! assert_eq!((table.c, table.distance), (1, 1));
//! # Ok::<(), leskwyn::Refusal>(())
//! ```

pub mod file;
pub mod raw;
mod refusal;
mod version;

pub use refusal::Refusal;
pub use version::{version, Version};

/// The label word of an inner node.
pub const INNER: u16 = 65535;

/// The mark of a label that is struck from the count.
pub const STRUCK: u8 = 0;

/// The mark of a label that is kept in the count.
pub const KEPT: u8 = 1;

/// Cells, and so bytes, that are enough for the work of every pair: (1024 - 1)(1024 - 1), for two trees of 256 tips and
/// 1024 nodes.
pub const WORK_CELLS: usize = 1023 * 1023;

/// How four tips lie in a tree.
#[derive(Clone, Copy, Debug, PartialEq, Eq, Hash)]
pub enum Topology {
    /// Some edge parts them two and two; the partner of the smallest label.
    Butterfly(u16),
    /// No edge parts them two and two.
    Star,
}

impl Topology {
    /// The topology of an accepted call.
    fn of(raw::TopologyAnswer { refusal, butterfly, partner }: raw::TopologyAnswer) -> Result<Topology, Refusal> {
        Refusal::or(refusal, if butterfly == 1 { Topology::Butterfly(partner) } else { Topology::Star })
    }
}

/// The claim sums of two trees, over kept tips.
#[derive(Clone, Copy, Debug, PartialEq, Eq, Hash)]
pub struct ClaimSums {
    /// S, over the claims of the first tree.
    pub first: u64,
    /// S', over the claims of the second.
    pub second: u64,
    /// S2, over the pairs of claims: directed butterflies that both trees have.
    pub same: u64,
    /// S3, over the pairs of claims: directed butterflies that differ.
    pub different: u64,
}

/// How many sets of four kept tips fall into each of five cases.
#[derive(Clone, Copy, Debug, PartialEq, Eq, Hash)]
pub struct QuartetTable {
    /// The same butterfly in both trees.
    pub a: u64,
    /// Different butterflies.
    pub b: u64,
    /// A butterfly in the first tree only.
    pub c: u64,
    /// A butterfly in the second tree only.
    pub d: u64,
    /// A star in both.
    pub e: u64,
    /// The quartet distance, B + C + D.
    pub distance: u64,
}

/// How many sets of four fall into each of five cases. A [`QuartetTable`] has the counts of all sets of four kept tips.
#[derive(Clone, Copy, Debug, PartialEq, Eq, Hash)]
pub struct FiveCounts {
    /// The same butterfly in both trees.
    pub a: u64,
    /// Different butterflies.
    pub b: u64,
    /// A butterfly in the first tree only.
    pub c: u64,
    /// A butterfly in the second tree only.
    pub d: u64,
    /// A star in both.
    pub e: u64,
}

impl FiveCounts {
    /// The counts of an accepted call.
    fn of(answer: raw::FiveAnswer) -> Result<FiveCounts, Refusal> {
        let raw::FiveAnswer { refusal, a, b, c, d, e } = answer;
        Refusal::or(refusal, FiveCounts { a, b, c, d, e })
    }
}

impl From<QuartetTable> for FiveCounts {
    fn from(QuartetTable { a, b, c, d, e, .. }: QuartetTable) -> FiveCounts {
        FiveCounts { a, b, c, d, e }
    }
}

/// What becomes of a label in [`change_mark`].
#[derive(Clone, Copy, Debug, PartialEq, Eq, Hash)]
pub enum Wish {
    /// A kept label is struck.
    Strike,
    /// A struck label is kept again.
    Restore,
}

impl Wish {
    /// The mark that the label gets.
    #[must_use]
    pub const fn mark(self) -> u8 {
        match self {
            Wish::Strike => STRUCK,
            Wish::Restore => KEPT,
        }
    }
}

/// The splits of two trees. A split is the pair of sets of kept tips of an edge that has at least two of them on each
/// side; a pair that several edges have is one split.
#[derive(Clone, Copy, Debug, PartialEq, Eq, Hash)]
pub struct SplitCounts {
    /// The first tree's.
    pub first: u64,
    /// The second's.
    pub second: u64,
    /// Those of both.
    pub common: u64,
    /// The Robinson-Foulds distance, first + second - 2 common.
    pub distance: u64,
}

/// How many sets of three tips fall into each of five cases, with tip 0 as the outgroup: it is in none of the sets, and a
/// tree hangs from it. All other tips count, for no label is struck here. A tree resolves three tips if two of them have a lowest common ancestor that is not an ancestor of
/// the third.
#[derive(Clone, Copy, Debug, PartialEq, Eq, Hash)]
pub struct TripletTable {
    /// Resolved by both trees, with the same two tips closer.
    pub a: u64,
    /// Resolved by both trees, with different ones closer.
    pub b: u64,
    /// Resolved by the first tree only.
    pub c: u64,
    /// Resolved by the second tree only.
    pub d: u64,
    /// Resolved by neither.
    pub e: u64,
    /// The triplet distance, B + C + D.
    pub distance: u64,
}

/// What a star against a butterfly weighs in a [`weighted_distance`].
#[derive(Clone, Copy, Debug, PartialEq)]
pub enum Weight {
    /// Nothing, p = 0.
    None,
    /// As much as two different butterflies, p = 1.
    Full,
    /// A fraction p, which is k/256 with a k from 0 to 256; minus zero is taken as zero.
    Part(f64),
}

impl Weight {
    /// The kind and the fraction as the exported function takes them.
    fn kind_and_fraction(self) -> (u16, f64) {
        match self {
            Weight::None => (raw::WEIGHT_NONE, 0.0),
            Weight::Full => (raw::WEIGHT_FULL, 0.0),
            Weight::Part(fraction) => (raw::WEIGHT_PART, fraction),
        }
    }
}

/// The case of four tips in two trees.
#[derive(Clone, Copy, Debug, PartialEq, Eq, Hash)]
pub enum Case {
    /// The same butterfly in both trees.
    A,
    /// Different butterflies.
    B,
    /// A butterfly in the first tree only.
    C,
    /// A butterfly in the second tree only.
    D,
    /// A star in both.
    E,
}

impl Case {
    /// The case of that number.
    fn of(which: u16) -> Case {
        match which {
            raw::CASE_A => Case::A,
            raw::CASE_B => Case::B,
            raw::CASE_C => Case::C,
            raw::CASE_D => Case::D,
            _ => Case::E,
        }
    }
}

/// What shows how four tips lie in a tree.
#[derive(Clone, Copy, Debug, PartialEq, Eq, Hash)]
pub enum Witness {
    /// Of a butterfly: the lowest-numbered edge that parts the four two and two.
    Edge(u16),
    /// Of a star: the node where all paths between the four meet.
    Meet(u16),
}

impl Witness {
    /// The edge of that number, where `edge` is 1; else the node.
    fn of(edge: u16, number: u16) -> Witness {
        if edge == 1 {
            Witness::Edge(number)
        } else {
            Witness::Meet(number)
        }
    }
}

/// Why four tips are counted in the case in which they are.
#[derive(Clone, Copy, Debug, PartialEq, Eq, Hash)]
pub struct Evidence {
    /// The case in which the quartet table counts them.
    pub which: Case,
    /// What shows it in the first tree.
    pub first: Witness,
    /// What shows it in the second.
    pub second: Witness,
}

/// What a viewer is told of two trees: figures of visible labels alone.
#[derive(Clone, Copy, Debug, Default, PartialEq, Eq, Hash)]
pub struct View {
    /// The visible labels.
    pub visible: u64,
    /// Of the sets of four visible labels: the same butterfly in both trees.
    pub a: u64,
    /// Different butterflies.
    pub b: u64,
    /// A butterfly in the first tree only.
    pub c: u64,
    /// A butterfly in the second tree only.
    pub d: u64,
    /// A star in both.
    pub e: u64,
    /// The quartet distance, B + C + D.
    pub distance: u64,
    /// The first tree's splits of visible labels.
    pub first_splits: u64,
    /// The second's.
    pub second_splits: u64,
    /// Those of both.
    pub common_splits: u64,
    /// The Robinson-Foulds distance, first + second - 2 common.
    pub robinson_foulds: u64,
}

/// The tree of a shelf that is nearest to all.
#[derive(Clone, Copy, Debug, PartialEq, Eq, Hash)]
pub struct Nearest {
    /// Its position on the shelf, from 0.
    pub position: u16,
    /// The sum of its quartet distances to all trees of the shelf.
    pub sum: u64,
}

/// Checks a tree table.
///
/// ```
/// use leskwyn::{check, INNER};
/// assert!(check(&[3, 4, 0, 0, 1, 1, 0, INNER, 1, 2]).is_ok());
/// assert_eq!(check(&[3, 4, 0, 0, 1, 1, 0, INNER, 1, 3]).unwrap_err().number(), 6);
/// assert_eq!(check(&[3, 4, 0, 0, 1, 1, 0, INNER, 1, 1]).unwrap_err().number(), 31);
/// // A pass-through node between two tips, and an inner node without a child.
/// assert!(check(&[2, 3, 0, 0, 1, 0, INNER, 1]).is_ok());
/// assert_eq!(check(&[2, 4, 0, 0, 1, 1, 0, INNER, INNER, 1]).unwrap_err().number(), 7);
/// ```
///
/// # Errors
///
/// 1 to 6, 31 and 7, in this order.
pub fn check(table: &[u16]) -> Result<(), Refusal> {
    // SAFETY: the pointer and the length are those of one live slice.
    let number = unsafe { raw::leskwyn_check(table.as_ptr(), table.len()) };
    Refusal::or(number, ())
}

/// Writes the labels depth first from node 0, children in rising node number, into the first n cells; later cells
/// stay.
///
/// ```
/// let mut cells = [9; 4];
/// leskwyn::walk(&[3, 4, 0, 0, 1, 1, 0, leskwyn::INNER, 2, 1], &mut cells)?;
/// assert_eq!(cells, [0, 2, 1, 9]);
/// # Ok::<(), leskwyn::Refusal>(())
/// ```
///
/// # Errors
///
/// 1 to 6, 31 and 7, then 12.
pub fn walk(table: &[u16], cells: &mut [u16]) -> Result<(), Refusal> {
    // SAFETY: each pointer and length are those of one live slice, and `cells` is borrowed alone.
    let number = unsafe { raw::leskwyn_walk(table.as_ptr(), table.len(), cells.as_mut_ptr(), cells.len()) };
    Refusal::or(number, ())
}

/// The labels beyond an edge, as a part of the caller's walk. On a walk that [`walk`] wrote these are exactly the
/// labels beyond the edge. The part is chosen by position alone, so that a walk filled with other words gives other
/// words.
///
/// ```
/// use leskwyn::{beyond, walk, INNER as X};
/// let p = [5, 8, 0, 0, 1, 1, 3, 3, 5, 5, 0, X, 1, X, 2, X, 3, 4];
/// let mut cells = [0; 5];
/// walk(&p, &mut cells)?;
/// assert_eq!(beyond(&p, 3, &cells)?, [2, 3, 4]);
/// assert_eq!(beyond(&p, 3, &[10, 11, 12, 13, 14])?, [12, 13, 14]);
/// assert_eq!(beyond(&p, 8, &cells).unwrap_err().number(), 13);
/// # Ok::<(), leskwyn::Refusal>(())
/// ```
///
/// # Errors
///
/// 1 to 6, 31 and 7, then 13, then 12.
pub fn beyond<'a>(table: &[u16], edge: u16, walk: &'a [u16]) -> Result<&'a [u16], Refusal> {
    // SAFETY: the pointer and the length are those of one live slice.
    let answer = unsafe { raw::leskwyn_beyond(table.as_ptr(), table.len(), edge, walk.len()) };
    // A refused answer has 0 in both, which is an empty part.
    let (start, labels) = (usize::from(answer.start), usize::from(answer.labels));
    Refusal::or(answer.refusal, &walk[start..start + labels])
}

/// The centre of three tips: the node where the paths between them join.
///
/// ```
/// assert_eq!(leskwyn::centre(&[3, 4, 0, 0, 1, 1, 0, leskwyn::INNER, 1, 2], 2, 0, 1), Ok(1));
/// ```
///
/// # Errors
///
/// 1 to 6, 31 and 7, then 10, then 11.
pub fn centre(table: &[u16], a: u16, b: u16, c: u16) -> Result<u16, Refusal> {
    // SAFETY: the pointer and the length are those of one live slice.
    let answer = unsafe { raw::leskwyn_centre(table.as_ptr(), table.len(), a, b, c) };
    Refusal::or(answer.refusal, answer.node)
}

/// The topology of four tips, whatever their order.
///
/// ```
/// use leskwyn::{topology, Topology, INNER as X};
/// let q = [5, 7, 0, 0, 1, 1, 3, 3, 3, 0, X, 1, X, 2, 3, 4];
/// assert_eq!(topology(&q, 3, 0, 2, 1), Ok(Topology::Butterfly(1)));
/// assert_eq!(topology(&q, 0, 2, 3, 4), Ok(Topology::Star));
/// ```
///
/// # Errors
///
/// 1 to 6, 31 and 7, then 10, then 11.
pub fn topology(table: &[u16], a: u16, b: u16, c: u16, d: u16) -> Result<Topology, Refusal> {
    // SAFETY: the pointer and the length are those of one live slice.
    let answer = unsafe { raw::leskwyn_topology(table.as_ptr(), table.len(), a, b, c, d) };
    Topology::of(answer)
}

/// Writes the table re-rooted at the tip with that label into the first 2 + 2m cells; later cells stay.
///
/// The path from the tip to node 0 is numbered first, from the tip on, and the parent of a node on it is the one
/// before. The other nodes follow in their order and keep their parents. The labels 0 and `label` change places.
///
/// ```
/// use leskwyn::{reroot, INNER as X};
/// // Below tip 0: ((1,2),3). Re-rooted at 1, with 0 and 1 exchanged: ((1,3),2).
/// let table = [4, 6, 0, 0, 1, 2, 2, 1, 0, X, X, 1, 2, 3];
/// let mut cells = [9; 15];
/// reroot(&table, 1, &mut cells)?;
/// assert_eq!(cells, [4, 6, 0, 0, 1, 2, 1, 2, 0, X, X, 1, 2, 3, 9]);
/// assert_eq!(reroot(&table, 4, &mut cells).unwrap_err().number(), 10);
/// # Ok::<(), leskwyn::Refusal>(())
/// ```
///
/// # Errors
///
/// 1 to 6, 31 and 7, then 10, then 12.
pub fn reroot(table: &[u16], label: u16, cells: &mut [u16]) -> Result<(), Refusal> {
    // SAFETY: each pointer and length are those of one live slice, and `cells` is borrowed alone.
    let number = unsafe { raw::leskwyn_reroot(table.as_ptr(), table.len(), label, cells.as_mut_ptr(), cells.len()) };
    Refusal::or(number, ())
}

/// Writes the canonical copy of the tree cut down to its kept labels into the first cells, which are handed back;
/// later cells stay.
///
/// Its labels are ranks: the smallest kept label becomes 0 and its tip node 0, the next label becomes 1, and so on.
/// Branches without a kept label and pass-through nodes are gone, so that an inner node has two children or more.
/// Nodes are numbered depth first, the children of a node in the order of the smallest label at or below each. So two
/// trees have copies of the same words under the same marks exactly if they have the same splits there, and what is
/// counted of two copies with all labels kept is what is counted of the two trees under the marks. As many cells as
/// the table has words are always enough.
///
/// ```
/// use leskwyn::{canonical_copy, INNER as X};
/// // Below tip 0: (1,(2,(3,4))). With 1, 3 and 4 alone it is (3,4) below tip 1.
/// let p = [5, 8, 0, 0, 1, 1, 3, 3, 5, 5, 0, X, 1, X, 2, X, 3, 4];
/// let mut cells = [9; 12];
/// assert_eq!(canonical_copy(&p, &[0, 1, 0, 1, 1], &mut cells)?, [3, 4, 0, 0, 1, 1, 0, X, 1, 2]);
/// assert_eq!(cells[10..], [9, 9]);
/// assert_eq!(canonical_copy(&p, &[0, 1, 0, 0, 1], &mut cells)?, [2, 2, 0, 0, 0, 1]);
/// assert_eq!(canonical_copy(&p, &[0, 1, 0, 0, 0], &mut cells).unwrap_err().number(), 35);
/// assert_eq!(canonical_copy(&p, &[1; 5], &mut cells).unwrap_err().number(), 36);
/// # Ok::<(), leskwyn::Refusal>(())
/// ```
///
/// # Errors
///
/// 1 to 6, 31 and 7, then 32, 35 and 36.
pub fn canonical_copy<'a>(table: &[u16], marks: &[u8], cells: &'a mut [u16]) -> Result<&'a [u16], Refusal> {
    // SAFETY: each pointer and length are those of one live slice, and `cells` is borrowed alone.
    let answer = unsafe {
        raw::leskwyn_canonical_copy(
            table.as_ptr(),
            table.len(),
            marks.as_ptr(),
            marks.len(),
            cells.as_mut_ptr(),
            cells.len(),
        )
    };
    // A refused answer has no words.
    Refusal::or(answer.refusal, &cells[..usize::from(answer.words)])
}

/// How far the exchange of two labels moves a tree: the labels of each unordered pair of tips are exchanged in turn, label
/// 0 among them, and each exchange falls in one of eleven tallies by its [`exchange_distance`].
///
/// A distance d falls in tally 10 d / f, rounded down, with f the number of sets of four, n(n - 1)(n - 2)(n - 3)/24; with
/// fewer than four tips all fall in tally 0. The tallies add up to n(n - 1)/2. The first (m - 1)(m - 1) cells of the
/// work, which are those of [`work_cells`] of the tree with itself, are 0 afterwards; later cells stay.
///
/// ```
/// use leskwyn::{exchange_tallies, INNER as X};
/// // Below tip 0: (1,(2,(3,4))). Of its five sets of four the exchanges of 0 with 1 and of 3 with 4 change none, those of
/// // 2 with any other label change two, and the others change all.
/// let p = [5, 8, 0, 0, 1, 1, 3, 3, 5, 5, 0, X, 1, X, 2, X, 3, 4];
/// let mut work = [9; 50];
/// assert_eq!(exchange_tallies(&p, &mut work)?, [2, 0, 0, 0, 4, 0, 0, 0, 0, 0, 4]);
/// assert_eq!((&work[..49], work[49]), (&[0; 49][..], 9));
/// assert_eq!(exchange_tallies(&p, &mut work[..48]).unwrap_err().number(), 9);
/// # Ok::<(), leskwyn::Refusal>(())
/// ```
///
/// # Errors
///
/// 1 to 6, 31 and 7, then 9.
pub fn exchange_tallies(table: &[u16], work: &mut [u8]) -> Result<[u64; 11], Refusal> {
    // SAFETY: each pointer and length are those of one live slice, and `work` is borrowed alone.
    let answer = unsafe { raw::leskwyn_exchange_tallies(table.as_ptr(), table.len(), work.as_mut_ptr(), work.len()) };
    Refusal::or(answer.refusal, answer.tallies)
}

/// The quartet distance of the tree with the labels x and y exchanged to the tree itself: how many sets of four labels
/// have different topologies in the two. It is the same for y and x, and takes no work.
///
/// ```
/// use leskwyn::{exchange_distance, INNER as X};
/// // Below tip 0: (1,(2,(3,4))).
/// let p = [5, 8, 0, 0, 1, 1, 3, 3, 5, 5, 0, X, 1, X, 2, X, 3, 4];
/// assert_eq!(exchange_distance(&p, 3, 4), Ok(0));
/// assert_eq!(exchange_distance(&p, 0, 2), Ok(2));
/// assert_eq!(exchange_distance(&p, 4, 0), Ok(5));
/// assert_eq!(exchange_distance(&p, 5, 5).unwrap_err().number(), 10);
/// assert_eq!(exchange_distance(&p, 4, 4).unwrap_err().number(), 11);
/// ```
///
/// # Errors
///
/// 1 to 6, 31 and 7, then 10, then 11.
pub fn exchange_distance(table: &[u16], x: u16, y: u16) -> Result<u64, Refusal> {
    // SAFETY: the pointer and the length are those of one live slice.
    let answer = unsafe { raw::leskwyn_exchange_distance(table.as_ptr(), table.len(), x, y) };
    Refusal::or(answer.refusal, answer.distance)
}

/// Marks that keep all n labels of a table. A copy of them can have labels struck.
///
/// ```
/// use leskwyn::{all_kept, INNER, STRUCK};
/// let star = [3, 4, 0, 0, 1, 1, 0, INNER, 1, 2];
/// assert_eq!(all_kept(&star), [1, 1, 1]);
/// let mut marks = all_kept(&star).to_vec();
/// marks[2] = STRUCK;
/// assert_eq!(marks, [1, 1, 0]);
/// ```
#[must_use]
pub fn all_kept(table: &[u16]) -> &'static [u8] {
    static MARKS: [u8; 256] = [KEPT; 256];
    // Words that are no tree table are refused before their marks are looked at.
    let n = table.first().map_or(0, |&n| usize::from(n));
    &MARKS[..n.min(MARKS.len())]
}

/// What a function of a pair answers.
fn asked<T>(function: raw::PairFunction<T>, first: &[u16], second: &[u16], marks: &[u8], work: &mut [u8]) -> T {
    // SAFETY: each pointer and length are those of one live slice, and `work` is borrowed alone.
    unsafe {
        function(
            first.as_ptr(),
            first.len(),
            second.as_ptr(),
            second.len(),
            marks.as_ptr(),
            marks.len(),
            work.as_mut_ptr(),
            work.len(),
        )
    }
}

/// How many work cells a pair of tree tables takes, (m - 1)(m' - 1).
///
/// ```
/// let star = [3, 4, 0, 0, 1, 1, 0, leskwyn::INNER, 1, 2];
/// assert_eq!(leskwyn::work_cells(&star, &star), Ok(9));
/// ```
///
/// # Errors
///
/// 1 to 6, 31 and 7 for the first tree, 101 to 106, 131 and 107 for the second, then 8.
pub fn work_cells(first: &[u16], second: &[u16]) -> Result<usize, Refusal> {
    match triplet_table(first, second, &mut []) {
        Err(refusal) if refusal != Refusal::FEW_CELLS => Err(refusal),
        _ => Ok((usize::from(first[1]) - 1) * (usize::from(second[1]) - 1)),
    }
}

/// The crossings of two trees: afterwards cell (i - 1)(m' - 1) + (j - 1) holds how many kept labels lie beyond both edge
/// i of the first tree and edge j of the second; later cells stay. The two trees may be one slice.
///
/// ```
/// use leskwyn::{all_kept, crossings, INNER};
/// let star = [3, 4, 0, 0, 1, 1, 0, INNER, 1, 2];
/// let mut work = [7; 10];
/// crossings(&star, &star, all_kept(&star), &mut work)?;
/// assert_eq!(work, [2, 1, 1, 1, 1, 0, 1, 0, 1, 7]);
/// crossings(&star, &star, &[1, 1, 0], &mut work)?;
/// assert_eq!(work, [1, 1, 0, 1, 1, 0, 0, 0, 0, 7]);
/// assert_eq!(crossings(&star, &star, &[1, 1], &mut work).unwrap_err().number(), 32);
/// # Ok::<(), leskwyn::Refusal>(())
/// ```
///
/// # Errors
///
/// 1 to 6, 31 and 7 for the first tree, 101 to 106, 131 and 107 for the second, then 8, 32 and 9.
pub fn crossings(first: &[u16], second: &[u16], marks: &[u8], work: &mut [u8]) -> Result<(), Refusal> {
    Refusal::or(asked(raw::leskwyn_crossings, first, second, marks, work), ())
}

/// The claim sums of two trees. Takes and leaves in the work what [`crossings`] does.
///
/// # Errors
///
/// Those of [`crossings`].
pub fn claim_sums(first: &[u16], second: &[u16], marks: &[u8], work: &mut [u8]) -> Result<ClaimSums, Refusal> {
    let raw::ClaimSumsAnswer { refusal, first, second, same, different } =
        asked(raw::leskwyn_claim_sums, first, second, marks, work);
    Refusal::or(refusal, ClaimSums { first, second, same, different })
}

/// The quartet table of two trees. Takes and leaves in the work what [`crossings`] does.
///
/// ```
/// use leskwyn::{all_kept, quartet_table, INNER as X};
/// let w = [5, 6, 0, 0, 1, 1, 1, 1, 0, X, 1, 2, 3, 4];
/// let table = quartet_table(&w, &w, all_kept(&w), &mut [0; 25])?;
/// assert_eq!((table.e, table.distance), (5, 0));
/// assert_eq!(quartet_table(&w, &w, &[0, 1, 1, 1, 1], &mut [0; 25])?.e, 1);
/// assert_eq!(quartet_table(&w, &w, all_kept(&w), &mut [0; 24]).unwrap_err().number(), 9);
/// # Ok::<(), leskwyn::Refusal>(())
/// ```
///
/// # Errors
///
/// Those of [`crossings`].
pub fn quartet_table(first: &[u16], second: &[u16], marks: &[u8], work: &mut [u8]) -> Result<QuartetTable, Refusal> {
    let raw::QuartetTableAnswer { refusal, a, b, c, d, e, distance } =
        asked(raw::leskwyn_quartet_table, first, second, marks, work);
    Refusal::or(refusal, QuartetTable { a, b, c, d, e, distance })
}

/// The split counts of two trees. Takes and leaves in the work what [`crossings`] does.
///
/// ```
/// use leskwyn::{all_kept, split_counts, work_cells, INNER as X};
/// // Below tip 0: ((1,2),3), with a pass-through node above (1,2). Edges 2 and 3 have the same tip sets.
/// let table = [4, 7, 0, 0, 1, 2, 3, 3, 1, 0, X, X, X, 1, 2, 3];
/// let splits = split_counts(&table, &table, all_kept(&table), &mut vec![0; work_cells(&table, &table)?])?;
/// assert_eq!((splits.first, splits.second, splits.common, splits.distance), (1, 1, 1, 0));
/// // Below tip 0: ((1,2),(3,4)). Without tip 0 the edges 2 and 5 have the same pair of sets.
/// let table = [5, 8, 0, 0, 1, 2, 2, 1, 5, 5, 0, X, X, 1, 2, X, 3, 4];
/// let mut work = vec![0; work_cells(&table, &table)?];
/// assert_eq!(split_counts(&table, &table, all_kept(&table), &mut work)?.first, 2);
/// assert_eq!(split_counts(&table, &table, &[0, 1, 1, 1, 1], &mut work)?.first, 1);
/// # Ok::<(), leskwyn::Refusal>(())
/// ```
///
/// # Errors
///
/// Those of [`crossings`].
pub fn split_counts(first: &[u16], second: &[u16], marks: &[u8], work: &mut [u8]) -> Result<SplitCounts, Refusal> {
    let raw::SplitCountsAnswer { refusal, first, second, common, distance } =
        asked(raw::leskwyn_split_counts, first, second, marks, work);
    Refusal::or(refusal, SplitCounts { first, second, common, distance })
}

/// The triplet table of two trees, over all labels. Leaves in the work what [`crossings`] does where all are kept.
///
/// ```
/// use leskwyn::{triplet_table, work_cells, INNER as X};
/// // Below tip 0: ((1,2),3) and ((1,3),2).
/// let first = [4, 6, 0, 0, 1, 2, 2, 1, 0, X, X, 1, 2, 3];
/// let second = [4, 6, 0, 0, 1, 2, 2, 1, 0, X, X, 1, 3, 2];
/// let mut work = vec![0; work_cells(&first, &second)?];
/// assert_eq!(triplet_table(&first, &first, &mut work)?.a, 1);
/// let table = triplet_table(&first, &second, &mut work)?;
/// assert_eq!((table.a, table.b, table.distance), (0, 1, 1));
/// # Ok::<(), leskwyn::Refusal>(())
/// ```
///
/// # Errors
///
/// Those of [`crossings`] without 32.
pub fn triplet_table(first: &[u16], second: &[u16], work: &mut [u8]) -> Result<TripletTable, Refusal> {
    // SAFETY: each pointer and length are those of one live slice, and `work` is borrowed alone.
    let answer = unsafe {
        raw::leskwyn_triplet_table(
            first.as_ptr(),
            first.len(),
            second.as_ptr(),
            second.len(),
            work.as_mut_ptr(),
            work.len(),
        )
    };
    let raw::TripletTableAnswer { refusal, a, b, c, d, e, distance } = answer;
    Refusal::or(refusal, TripletTable { a, b, c, d, e, distance })
}

/// The weighted distance of two trees, B + p(C + D), with B, C and D of the quartet table. It is exact: 256 times it is
/// 256 B + k(C + D), where p is k/256. It is never minus zero. Takes and leaves in the work what [`crossings`] does.
///
/// ```
/// use leskwyn::{all_kept, weighted_distance, work_cells, Weight, INNER as X};
/// let q = [5, 7, 0, 0, 1, 1, 3, 3, 3, 0, X, 1, X, 2, 3, 4];
/// let r = [5, 8, 0, 0, 1, 1, 3, 3, 5, 5, 0, X, 2, X, 1, X, 3, 4];
/// let mut work = vec![0; work_cells(&q, &r)?];
/// let mut distance = |weight| weighted_distance(&q, &r, all_kept(&q), &mut work, weight);
/// assert_eq!(distance(Weight::None)?, 2.0);
/// assert_eq!(distance(Weight::Full)?, 4.0);
/// assert_eq!(distance(Weight::Part(0.25))?, 2.5);
/// assert_eq!(distance(Weight::Part(0.3)).unwrap_err().number(), 30);
/// # Ok::<(), leskwyn::Refusal>(())
/// ```
///
/// # Errors
///
/// Those of [`crossings`], then 30.
pub fn weighted_distance(
    first: &[u16],
    second: &[u16],
    marks: &[u8],
    work: &mut [u8],
    weight: Weight,
) -> Result<f64, Refusal> {
    let (kind, fraction) = weight.kind_and_fraction();
    // SAFETY: each pointer and length are those of one live slice, and `work` is borrowed alone.
    let answer = unsafe {
        raw::leskwyn_weighted_distance(
            first.as_ptr(),
            first.len(),
            second.as_ptr(),
            second.len(),
            marks.as_ptr(),
            marks.len(),
            work.as_mut_ptr(),
            work.len(),
            kind,
            fraction,
        )
    };
    Refusal::or(answer.refusal, answer.distance)
}

/// The evidence for four tips in two trees, whatever their order: the case in which [`quartet_table`] counts them if they
/// are kept, and the edge or the node of each tree that shows it. It takes neither marks nor work.
///
/// ```
/// use leskwyn::{evidence, Case, Evidence, Witness, INNER as X};
/// // Below tip 0: (1,(2,(3,4))) and (1,(2,3,4)).
/// let p = [5, 8, 0, 0, 1, 1, 3, 3, 5, 5, 0, X, 1, X, 2, X, 3, 4];
/// let q = [5, 7, 0, 0, 1, 1, 3, 3, 3, 0, X, 1, X, 2, 3, 4];
/// // Edges 3 and 5 of the first tree part 3 and 4 from 0 and 1.
/// let alike = Evidence { which: Case::A, first: Witness::Edge(3), second: Witness::Edge(3) };
/// assert_eq!(evidence(&p, &q, 0, 1, 3, 4), Ok(alike));
/// let open = Evidence { which: Case::C, first: Witness::Edge(5), second: Witness::Meet(3) };
/// assert_eq!(evidence(&p, &q, 4, 2, 0, 3), Ok(open));
/// assert_eq!(evidence(&p, &q, 0, 0, 2, 5).unwrap_err().number(), 10);
/// assert_eq!(evidence(&p, &q, 0, 0, 2, 4).unwrap_err().number(), 11);
/// ```
///
/// # Errors
///
/// Those of [`work_cells`], then 10, then 11.
pub fn evidence(first: &[u16], second: &[u16], a: u16, b: u16, c: u16, d: u16) -> Result<Evidence, Refusal> {
    // SAFETY: each pointer and length are those of one live slice.
    let answer =
        unsafe { raw::leskwyn_evidence(first.as_ptr(), first.len(), second.as_ptr(), second.len(), a, b, c, d) };
    let shown = Evidence {
        which: Case::of(answer.which),
        first: Witness::of(answer.first_edge, answer.first_number),
        second: Witness::of(answer.second_edge, answer.second_number),
    };
    Refusal::or(answer.refusal, shown)
}

/// How many sets of four that hold a label and three other kept ones fall into each of five cases, whether the label
/// itself is kept or struck. It takes no work.
///
/// ```
/// use leskwyn::{all_kept, holding, FiveCounts, INNER as X};
/// // Below tip 0: (1,(2,(3,4))) and (1,(2,3,4)).
/// let p = [5, 8, 0, 0, 1, 1, 3, 3, 5, 5, 0, X, 1, X, 2, X, 3, 4];
/// let q = [5, 7, 0, 0, 1, 1, 3, 3, 3, 0, X, 1, X, 2, 3, 4];
/// assert_eq!(holding(&p, &q, all_kept(&p), 1), Ok(FiveCounts { a: 3, b: 0, c: 1, d: 0, e: 0 }));
/// // Without label 3 one set holds label 1.
/// assert_eq!(holding(&p, &q, &[1, 1, 1, 0, 1], 1)?.a, 1);
/// assert_eq!(holding(&p, &q, all_kept(&p), 5).unwrap_err().number(), 10);
/// # Ok::<(), leskwyn::Refusal>(())
/// ```
///
/// # Errors
///
/// Those of [`work_cells`], then 32, then 10.
pub fn holding(first: &[u16], second: &[u16], marks: &[u8], label: u16) -> Result<FiveCounts, Refusal> {
    // SAFETY: each pointer and length are those of one live slice.
    let answer = unsafe {
        raw::leskwyn_holding(
            first.as_ptr(),
            first.len(),
            second.as_ptr(),
            second.len(),
            marks.as_ptr(),
            marks.len(),
            label,
        )
    };
    FiveCounts::of(answer)
}

/// Strikes or restores one label: its mark changes, and no other. The counts given are to be those of the quartet table
/// under the marks as they are. The answer is these without the sets that [`holding`] counts, or with them: the quartet
/// table's under the new marks. It takes no work.
///
/// ```
/// use leskwyn::{all_kept, change_mark, quartet_table, work_cells, FiveCounts, Wish, INNER as X};
/// // Below tip 0: (1,(2,(3,4))) and (1,(2,3,4)).
/// let p = [5, 8, 0, 0, 1, 1, 3, 3, 5, 5, 0, X, 1, X, 2, X, 3, 4];
/// let q = [5, 7, 0, 0, 1, 1, 3, 3, 3, 0, X, 1, X, 2, 3, 4];
/// let mut marks = all_kept(&p).to_vec();
/// let mut work = vec![0; work_cells(&p, &q)?];
/// let all = FiveCounts::from(quartet_table(&p, &q, &marks, &mut work)?);
/// let without_1 = change_mark(&p, &q, &mut marks, all, 1, Wish::Strike)?;
/// assert_eq!(marks, [1, 0, 1, 1, 1]);
/// assert_eq!(without_1, quartet_table(&p, &q, &marks, &mut work)?.into());
/// assert_eq!(change_mark(&p, &q, &mut marks, without_1, 1, Wish::Strike).unwrap_err().number(), 33);
/// assert_eq!(change_mark(&p, &q, &mut marks, all, 1, Wish::Restore).unwrap_err().number(), 34);
/// assert_eq!(change_mark(&p, &q, &mut marks, without_1, 1, Wish::Restore), Ok(all));
/// # Ok::<(), leskwyn::Refusal>(())
/// ```
///
/// # Errors
///
/// Those of [`holding`], then 33, then 34.
pub fn change_mark(
    first: &[u16],
    second: &[u16],
    marks: &mut [u8],
    FiveCounts { a, b, c, d, e }: FiveCounts,
    label: u16,
    wish: Wish,
) -> Result<FiveCounts, Refusal> {
    // SAFETY: each pointer and length are those of one live slice, and `marks` is borrowed alone.
    let answer = unsafe {
        raw::leskwyn_change_mark(
            first.as_ptr(),
            first.len(),
            second.as_ptr(),
            second.len(),
            marks.as_mut_ptr(),
            marks.len(),
            a,
            b,
            c,
            d,
            e,
            label,
            u16::from(wish.mark()),
        )
    };
    FiveCounts::of(answer)
}

/// What a viewer may see of two trees: the number of visible labels, and the figures of [`quartet_table`] and
/// [`split_counts`] under marks that keep these. Leaves in the work what [`crossings`] does under those marks, for the desk.
///
/// ```
/// use leskwyn::{view, work_cells, View, INNER as X};
/// // Below tip 0: (1,(2,(3,4))) and (1,(2,3,4)). A viewer of level 1 sees all but label 1.
/// let p = [5, 8, 0, 0, 1, 1, 3, 3, 5, 5, 0, X, 1, X, 2, X, 3, 4];
/// let q = [5, 7, 0, 0, 1, 1, 3, 3, 3, 0, X, 1, X, 2, 3, 4];
/// let levels = [0, 2, 0, 1, 1];
/// let mut work = vec![0; work_cells(&p, &q)?];
/// let View { visible, c, distance, first_splits, robinson_foulds, .. } = view(&p, &q, &levels, 1, &mut work)?;
/// assert_eq!([visible, c, distance, first_splits, robinson_foulds], [4, 1, 1, 1, 1]);
/// assert_eq!(view(&p, &q, &levels, 2, &mut work)?.visible, 5);
/// assert_eq!(view(&p, &q, &levels, 4, &mut work).unwrap_err().number(), 37);
/// # Ok::<(), leskwyn::Refusal>(())
/// ```
///
/// # Errors
///
/// Those of [`work_cells`], then 37, then 9.
pub fn view(first: &[u16], second: &[u16], levels: &[u8], viewer: u16, work: &mut [u8]) -> Result<View, Refusal> {
    // SAFETY: each pointer and length are those of one live slice, and `work` is borrowed alone.
    let answer = unsafe {
        raw::leskwyn_view(
            first.as_ptr(),
            first.len(),
            second.as_ptr(),
            second.len(),
            levels.as_ptr(),
            levels.len(),
            viewer,
            work.as_mut_ptr(),
            work.len(),
        )
    };
    let raw::ViewAnswer {
        refusal,
        visible,
        a,
        b,
        c,
        d,
        e,
        distance,
        first_splits,
        second_splits,
        common_splits,
        robinson_foulds,
    } = answer;
    let view = View { visible, a, b, c, d, e, distance, first_splits, second_splits, common_splits, robinson_foulds };
    Refusal::or(refusal, view)
}

/// The topology of four visible labels, whatever their order. A hidden label is refused like one that is n or more, even
/// if it stands twice.
///
/// ```
/// use leskwyn::{view_topology, Topology, INNER as X};
/// // Below tip 0: (1,(2,(3,4))). A viewer of level 1 sees all but label 1.
/// let p = [5, 8, 0, 0, 1, 1, 3, 3, 5, 5, 0, X, 1, X, 2, X, 3, 4];
/// let levels = [0, 2, 0, 1, 1];
/// assert_eq!(view_topology(&p, &levels, 1, [4, 0, 3, 2]), Ok(Topology::Butterfly(2)));
/// for (four, number) in [([0, 1, 2, 3], 10), ([1, 1, 2, 3], 10), ([0, 2, 3, 5], 10), ([0, 2, 2, 3], 11)] {
///     assert_eq!(view_topology(&p, &levels, 1, four).unwrap_err().number(), number);
/// }
/// ```
///
/// # Errors
///
/// 1 to 6, 31 and 7, then 37, 10 and 11.
pub fn view_topology(table: &[u16], levels: &[u8], viewer: u16, [a, b, c, d]: [u16; 4]) -> Result<Topology, Refusal> {
    // SAFETY: each pointer and length are those of one live slice.
    let answer = unsafe {
        raw::leskwyn_view_topology(table.as_ptr(), table.len(), levels.as_ptr(), levels.len(), viewer, a, b, c, d)
    };
    Topology::of(answer)
}

/// The tree of a shelf with the least sum of quartet distances to all trees of the shelf; of trees with equal sums the
/// earliest.
///
/// The shelf's word 0 is the number of trees, 2 to 16. Their tables follow end to end, each of 2 + 2m words by its own m.
/// All labels count. The first (m - 1)(m - 1) cells of the work, with the largest m, are 0 afterwards; later cells stay.
/// [`WORK_CELLS`] are enough for every shelf.
///
/// ```
/// use leskwyn::{nearest, Nearest, INNER as X};
/// // Below tip 0: (1,(2,3,4)), (1,(2,(3,4))) and (2,(1,(3,4))). The second lies at 2 from either of the others.
/// let q = [5, 7, 0, 0, 1, 1, 3, 3, 3, 0, X, 1, X, 2, 3, 4];
/// let p = [5, 8, 0, 0, 1, 1, 3, 3, 5, 5, 0, X, 1, X, 2, X, 3, 4];
/// let r = [5, 8, 0, 0, 1, 1, 3, 3, 5, 5, 0, X, 2, X, 1, X, 3, 4];
/// let shelf = [&[3][..], &q, &p, &r].concat();
/// let mut work = [9; 50];
/// assert_eq!(nearest(&shelf, &mut work), Ok(Nearest { position: 1, sum: 4 }));
/// assert_eq!((&work[..49], work[49]), (&[0; 49][..], 9));
/// assert_eq!(nearest(&shelf, &mut work[..48]).unwrap_err().number(), 9);
/// assert_eq!(nearest(&shelf[..50], &mut work).unwrap_err().number(), 39);
/// assert_eq!(nearest(&[1, 2, 2, 0, 0, 0, 1], &mut work).unwrap_err().number(), 38);
/// ```
///
/// # Errors
///
/// 38, 39 and 9, in this order.
pub fn nearest(shelf: &[u16], work: &mut [u8]) -> Result<Nearest, Refusal> {
    // SAFETY: each pointer and length are those of one live slice, and `work` is borrowed alone.
    let answer = unsafe { raw::leskwyn_nearest(shelf.as_ptr(), shelf.len(), work.as_mut_ptr(), work.len()) };
    let raw::NearestAnswer { refusal, position, sum } = answer;
    Refusal::or(refusal, Nearest { position, sum })
}
