//! The exported functions against figures that were counted some other way: every number, every figure, every lent
//! cell before and after, and the cells on either side of those that are lent.

mod copies;
mod exchanges;
mod one_label;
mod shelves;
mod views;

use std::fmt::Debug;

use leskwyn::raw::{
    self, BeyondAnswer, CentreAnswer, ClaimSumsAnswer, EvidenceAnswer, PairFunction, QuartetTableAnswer,
    SplitCountsAnswer, TopologyAnswer, TripletTableAnswer, WeightedDistanceAnswer,
};
use leskwyn::{Case, ClaimSums, Evidence, QuartetTable, Refusal, SplitCounts, TripletTable, Weight, Witness};

use crate::enumerate::{self, Tips, Topology, Tree};
use crate::evidence::{self, Climbs};
use crate::generate::{any_marks, wrong_marks};
use crate::pass_through::{taken_out, TakenOut};
use crate::random::Random;
use crate::reference::X;
use crate::weights::{self, Weighing};
use crate::{common_ancestors, cubic, pruned};

pub use copies::copy_agrees;
pub use exchanges::{exchange_agrees, tallies_agree};
pub use one_label::{change_agrees, holding_agrees, reroot_agrees};
pub use shelves::nearest_agrees;
pub use views::{view_agrees, view_topology_agrees};

/// Pairs of claims that are summed one by one; for more, S2 and S3 are read from the cases.
const MOST_CLAIM_PAIRS: usize = 500_000;

/// What two accepted tables give under marks. The triplets are those of all labels, whatever the marks, and so are the
/// crossings that go with them.
#[derive(Clone, Debug, Default, PartialEq, Eq)]
pub struct Expected {
    pub marks: Vec<u8>,
    pub crossings: Vec<u8>,
    pub claims: [u64; 4],
    pub quartets: [u64; 5],
    pub splits: [u64; 4],
    pub triplets: [u64; 5],
    pub all_crossings: Vec<u8>,
}

impl Expected {
    /// By the enumerator, all labels kept. Up to 64 tips.
    pub fn enumerated(first: &[u16], second: &[u16]) -> Expected {
        Expected::marked(first, second, &all_kept(first))
    }

    /// By the enumerator. Up to 64 tips.
    pub fn marked(first: &[u16], second: &[u16], marks: &[u8]) -> Expected {
        let (ours, theirs) = (Tree::of(first), Tree::of(second));
        let triplets = enumerate::triplet_cases(&ours, &theirs);
        let quartets = enumerate::kept_cases(&ours, &theirs, Tips::kept(marks));
        Expected::with_cases(&ours, &theirs, marks, quartets, triplets)
    }

    /// The cases of quartets and of triplets by O(n^3) methods, the rest by the enumerator, all labels kept.
    pub fn by_triples(first: &[u16], second: &[u16]) -> Expected {
        let (quartets, triplets) = (cubic::cases(first, second), common_ancestors::triplet_cases(first, second));
        Expected::with_cases(&Tree::of(first), &Tree::of(second), &all_kept(first), quartets, triplets)
    }

    /// The cases of quartets and of triplets by O(n^3) methods, those of quartets from the trees without struck tips; the
    /// rest by the enumerator.
    pub fn by_pruning(first: &[u16], second: &[u16], marks: &[u8]) -> Expected {
        let (quartets, triplets) =
            (pruned::cases(first, second, marks), common_ancestors::triplet_cases(first, second));
        Expected::with_cases(&Tree::of(first), &Tree::of(second), marks, quartets, triplets)
    }

    fn with_cases(first: &Tree, second: &Tree, marks: &[u8], quartets: [u64; 5], triplets: [u64; 5]) -> Expected {
        let kept = Tips::kept(marks);
        let [same, different] = enumerate::paired_claim_sums(first, second, kept, MOST_CLAIM_PAIRS)
            .unwrap_or([2 * quartets[0], 4 * quartets[1]]);
        Expected {
            marks: marks.to_vec(),
            crossings: enumerate::crossings(first, second, kept),
            claims: [first.claim_sum(kept), second.claim_sum(kept), same, different],
            quartets,
            splits: enumerate::split_counts(first, second, kept),
            triplets,
            all_crossings: enumerate::crossings(first, second, Tips::kept(&vec![1; marks.len()])),
        }
    }

    /// All but the crossings, which have cells for pass-through nodes too.
    fn figures(&self) -> ([u64; 4], [u64; 5], [u64; 4], [u64; 5]) {
        (self.claims, self.quartets, self.splits, self.triplets)
    }

    fn quartet_table(&self) -> QuartetTable {
        let [a, b, c, d, e] = self.quartets;
        QuartetTable { a, b, c, d, e, distance: b + c + d }
    }

    fn triplet_table(&self) -> TripletTable {
        let [a, b, c, d, e] = self.triplets;
        TripletTable { a, b, c, d, e, distance: b + c + d }
    }
}

/// A mark of 1 for each label of an accepted table.
fn all_kept(table: &[u16]) -> Vec<u8> {
    vec![1; usize::from(table[0])]
}

/// The refusal's number, or 0.
fn number<T>(answer: &Result<T, Refusal>) -> u16 {
    answer.as_ref().err().map_or(0, |refusal| refusal.number())
}

/// Cells on either side of those that are lent.
const MARGIN: usize = 16;

/// Lends the middle of some cells, and tells what they were and what they are afterwards. The cells around it must stay.
fn lend<C: Clone + Debug + PartialEq, T>(before: Vec<C>, call: impl Fn(&mut [C]) -> T) -> (T, Vec<C>, Vec<C>) {
    let lent = MARGIN..before.len() - MARGIN;
    let mut after = before.clone();
    let answer = call(&mut after[lent.clone()]);
    assert_eq!(before[..lent.start], after[..lent.start], "cells before the lent ones");
    assert_eq!(before[lent.end..], after[lent.end..], "cells after the lent ones");
    (answer, before[lent.clone()].to_vec(), after[lent].to_vec())
}

/// Lends the middle of some cells: afterwards its first cells are the written ones, and later ones are as they were.
fn lend_written<C: Clone + Debug + PartialEq, T>(
    before: Vec<C>,
    written: &[C],
    told: &impl Debug,
    call: impl Fn(&mut [C]) -> T,
) -> T {
    let (answer, before, after) = lend(before, call);
    assert_eq!(after[..written.len()], *written, "cells that are written of {told:?}");
    assert_eq!(after[written.len()..], before[written.len()..], "later cells of {told:?}");
    answer
}

/// Tables and marks are only read.
fn unchanged<W: Clone + Debug + PartialEq, T>(words: &[W], call: impl FnOnce(&[W]) -> T) -> T {
    let copy = words.to_vec();
    let answer = call(words);
    assert_eq!(copy, words, "a table or marks");
    answer
}

/// The check, the walk, the part of it beyond every edge, and centres and topologies of labels good and bad, of any
/// words.
pub fn tree_agrees(table: &[u16], random: &mut Random) {
    let expected = enumerate::tree_refusal(table);
    unchanged(table, |table| {
        // SAFETY: the pointer and the length are those of one slice.
        assert_eq!(unsafe { raw::leskwyn_check(table.as_ptr(), table.len()) }, expected, "check of {table:?}");
        assert_eq!(number(&leskwyn::check(table)), expected);
    });
    let tree = (expected == 0).then(|| Tree::of(table));
    walk_agrees(table, expected, tree.as_ref(), random);
    beyond_agrees(table, expected, tree.as_ref(), random);
    let n = table.first().copied().unwrap_or(0).min(300);
    for _ in 0..4 {
        let mut labels = [0; 4].map(|_: u16| random.below(usize::from(n) + 1) as u16);
        if random.chance(5) {
            labels[random.below(4)] = random.word();
        }
        centre_agrees(table, tree.as_ref(), [labels[0], labels[1], labels[2]]);
        topology_agrees(table, tree.as_ref(), labels);
    }
}

fn walk_agrees(table: &[u16], expected: u16, tree: Option<&Tree>, random: &mut Random) {
    let n = table.first().map_or(0, |&n| usize::from(n).min(300));
    for cells in [n, n.saturating_sub(1), n + random.below(9), 0] {
        let (answer, before, after) = lend(random.words(cells + 2 * MARGIN), |walk| {
            // SAFETY: each pointer and length are those of one slice, and the walk overlaps nothing.
            unsafe { raw::leskwyn_walk(table.as_ptr(), table.len(), walk.as_mut_ptr(), walk.len()) }
        });
        let refusal = if expected == 0 && cells < n { 12 } else { expected };
        assert_eq!(answer, refusal, "walk of {table:?} into {cells} cells");
        let labels = tree.filter(|_| refusal == 0).map(Tree::walk).unwrap_or_default();
        assert_eq!(after[..labels.len()], labels);
        assert_eq!(after[labels.len()..], before[labels.len()..], "later cells of the walk");
        let (wrapped, _, filled) = lend(random.words(cells + 2 * MARGIN), |walk| leskwyn::walk(table, walk));
        assert_eq!((number(&wrapped), &filled[..labels.len()]), (refusal, &labels[..]));
    }
}

/// The part of a walk beyond each edge from 0 to m + 1, and 65535: its labels on the walk that the library writes, and
/// the same cells on another.
fn beyond_agrees(table: &[u16], expected: u16, tree: Option<&Tree>, random: &mut Random) {
    let n = table.first().map_or(0, |&n| usize::from(n).min(300));
    let m = table.get(1).map_or(0, |&m| m.min(1100));
    let places = tree.map(Tree::places_beyond).unwrap_or_default();
    for cells in [n.saturating_sub(1), n, n + 3] {
        let other = random.words(cells);
        let mut walk = other.clone();
        let is_written = leskwyn::walk(table, &mut walk).is_ok();
        for edge in (0..=m + 1).chain([X]) {
            let refusal = tree.map_or(expected, |tree| tree.edge_refusal(edge, cells));
            let place = if refusal == 0 { places[usize::from(edge)].clone() } else { 0..0 };
            let [start, labels] = [place.start, place.len()].map(|count| count as u16);
            // SAFETY: the pointer and the length are those of one slice.
            let answer = unsafe { raw::leskwyn_beyond(table.as_ptr(), table.len(), edge, cells) };
            assert_eq!(answer, BeyondAnswer { refusal, start, labels }, "beyond {edge} of {table:?} in {cells} cells");
            for lent in [&walk, &other] {
                let part = leskwyn::beyond(table, edge, lent);
                assert_eq!(number(&part), refusal);
                if let Ok(part) = part {
                    assert_eq!(part.as_ptr_range(), lent[place.clone()].as_ptr_range(), "cells of the lent walk");
                }
            }
            if let Some(tree) = tree.filter(|_| refusal == 0) {
                assert!(is_written);
                let mut part = walk[place].to_vec();
                part.sort_unstable();
                assert_eq!(part, tree.labels_beyond(edge), "labels beyond {edge} of {table:?}");
            }
        }
    }
}

/// The centre of three labels, good or bad.
pub fn centre_agrees(table: &[u16], tree: Option<&Tree>, [a, b, c]: [u16; 3]) {
    let refusal = enumerate::label_refusal(table, &[a, b, c]);
    let node = tree.filter(|_| refusal == 0).map_or(0, |tree| tree.centre(a, b, c));
    // SAFETY: the pointer and the length are those of one slice.
    let answer = unsafe { raw::leskwyn_centre(table.as_ptr(), table.len(), a, b, c) };
    assert_eq!(answer, CentreAnswer { refusal, node }, "centre of {a} {b} {c} in {table:?}");
    let wrapped = leskwyn::centre(table, a, b, c);
    assert_eq!((number(&wrapped), wrapped.unwrap_or(0)), (refusal, node));
}

/// The topology of four labels, good or bad.
pub fn topology_agrees(table: &[u16], tree: Option<&Tree>, four: [u16; 4]) {
    let refusal = enumerate::label_refusal(table, &four);
    let topology = tree.filter(|_| refusal == 0).map_or(Topology::Star, |tree| tree.topology(four));
    let [a, b, c, d] = four;
    // SAFETY: the pointer and the length are those of one slice.
    let answer = unsafe { raw::leskwyn_topology(table.as_ptr(), table.len(), a, b, c, d) };
    let wrapped = leskwyn::topology(table, a, b, c, d);
    told_topology_agrees((answer, wrapped), (refusal, topology), &(four, "in", table));
}

/// A function's answer and its wrapper's against the number, which goes with a star, and the topology.
fn told_topology_agrees(
    (answer, wrapped): (TopologyAnswer, Result<leskwyn::Topology, Refusal>),
    (refusal, topology): (u16, Topology),
    told: &impl Debug,
) {
    let (butterfly, partner, same) = match topology {
        Topology::Butterfly(partner) => (1, partner, leskwyn::Topology::Butterfly(partner)),
        Topology::Star => (0, 0, leskwyn::Topology::Star),
    };
    assert_eq!(answer, TopologyAnswer { refusal, butterfly, partner }, "topology of {told:?}");
    let expected = if refusal == 0 { Ok(same) } else { Err(refusal) };
    assert_eq!(wrapped.map_err(Refusal::number), expected, "topology of {told:?}");
}

/// What a refusal shows.
const REFUSED: Evidence = Evidence { which: Case::E, first: Witness::Meet(0), second: Witness::Meet(0) };

/// The evidence as the exported function answers it.
fn evidence_answer(refusal: u16, Evidence { which, first, second }: Evidence) -> EvidenceAnswer {
    let which = match which {
        Case::A => raw::CASE_A,
        Case::B => raw::CASE_B,
        Case::C => raw::CASE_C,
        Case::D => raw::CASE_D,
        Case::E => raw::CASE_E,
    };
    let [(first_edge, first_number), (second_edge, second_number)] = [first, second].map(|witness| match witness {
        Witness::Edge(edge) => (1, edge),
        Witness::Meet(node) => (0, node),
    });
    EvidenceAnswer { refusal, which, first_edge, first_number, second_edge, second_number }
}

/// The climbs of both tables, unless one is refused or they do not fit each other.
pub fn both_climbs(first: &[u16], second: &[u16]) -> Option<[Climbs; 2]> {
    let is_pair = enumerate::pair_refusal(first, second, usize::MAX) == 0;
    is_pair.then(|| [first, second].map(Climbs::of))
}

/// The evidence for four labels, good or bad, which is handed back. Without climbs the tables are refused.
pub fn evidence_agrees(
    first: &[u16],
    second: &[u16],
    climbs: Option<&[Climbs; 2]>,
    four: [u16; 4],
) -> Result<Evidence, u16> {
    let refusal = evidence::refusal(first, second, four);
    let shown = climbs.filter(|_| refusal == 0).map(|[ours, theirs]| evidence::evidence(ours, theirs, four));
    let [a, b, c, d] = four;
    // SAFETY: each pointer and length are those of one slice.
    let answer =
        unsafe { raw::leskwyn_evidence(first.as_ptr(), first.len(), second.as_ptr(), second.len(), a, b, c, d) };
    assert_eq!(
        answer,
        evidence_answer(refusal, shown.unwrap_or(REFUSED)),
        "evidence for {four:?} of {first:?} and {second:?}"
    );
    let expected = shown.ok_or(refusal);
    assert_eq!(leskwyn::evidence(first, second, a, b, c, d).map_err(Refusal::number), expected);
    expected
}

/// The evidence for some sets of labels, good and bad.
fn some_evidence_agrees(first: &[u16], second: &[u16], random: &mut Random) {
    let climbs = both_climbs(first, second);
    let n = first.first().map_or(0, |&n| usize::from(n).min(300));
    for at in 0..4 {
        let mut four = [0; 4].map(|_: u16| random.below(n + 1) as u16);
        if at % 2 == 0 && n >= 4 {
            four = different_labels(n, random);
        }
        let _ = evidence_agrees(first, second, climbs.as_ref(), four);
    }
}

/// Four different labels below n, in any order.
pub fn different_labels(n: usize, random: &mut Random) -> [u16; 4] {
    let mut labels: Vec<u16> = (0..n as u16).collect();
    random.shuffle(&mut labels);
    [labels[0], labels[1], labels[2], labels[3]]
}

/// What a function of a pair is asked: two tables, marks, and how many cells it is lent.
#[derive(Clone, Copy, Debug)]
pub struct Asked<'a> {
    pub first: &'a [u16],
    pub second: &'a [u16],
    pub marks: &'a [u8],
    pub cells: usize,
}

impl Asked<'_> {
    /// The number, 0 for accepted.
    pub fn refusal(&self) -> u16 {
        enumerate::marked_refusal(self.first, self.second, self.marks, self.cells)
    }

    /// The number of a function that takes no marks.
    fn refusal_without_marks(&self) -> u16 {
        enumerate::pair_refusal(self.first, self.second, self.cells)
    }

    /// A call with that work: afterwards its first cells are the crossings, and later ones are as they were.
    fn lent<T>(&self, crossings: &[u8], random: &mut Random, call: impl Fn(&mut [u8]) -> T) -> T {
        lend_written(random.bytes(self.cells + 2 * MARGIN), crossings, self, call)
    }

    /// What one function answers.
    fn of<T>(&self, function: PairFunction<T>, crossings: &[u8], random: &mut Random) -> T {
        let Asked { first, second, marks, .. } = *self;
        self.lent(crossings, random, |work| {
            // SAFETY: each pointer and length are those of one slice, and the work overlaps nothing.
            unsafe {
                function(
                    first.as_ptr(),
                    first.len(),
                    second.as_ptr(),
                    second.len(),
                    marks.as_ptr(),
                    marks.len(),
                    work.as_mut_ptr(),
                    work.len(),
                )
            }
        })
    }

    /// What the triplet table's function answers, which takes no marks.
    fn triplets(&self, crossings: &[u8], random: &mut Random) -> TripletTableAnswer {
        let Asked { first, second, .. } = *self;
        self.lent(crossings, random, |work| {
            // SAFETY: each pointer and length are those of one slice, and the work overlaps nothing.
            unsafe {
                raw::leskwyn_triplet_table(
                    first.as_ptr(),
                    first.len(),
                    second.as_ptr(),
                    second.len(),
                    work.as_mut_ptr(),
                    work.len(),
                )
            }
        })
    }

    /// What the weighted distance's function answers.
    fn weighted(
        &self,
        Weighing { kind, fraction }: Weighing,
        crossings: &[u8],
        random: &mut Random,
    ) -> WeightedDistanceAnswer {
        let Asked { first, second, marks, .. } = *self;
        self.lent(crossings, random, |work| {
            // SAFETY: each pointer and length are those of one slice, and the work overlaps nothing.
            unsafe {
                raw::leskwyn_weighted_distance(
                    first.as_ptr(),
                    first.len(),
                    second.as_ptr(),
                    second.len(),
                    marks.as_ptr(),
                    marks.len(),
                    work.as_mut_ptr(),
                    work.len(),
                    kind,
                    fraction,
                )
            }
        })
    }
}

/// The answers of the four functions of a pair that take marks and work, and nothing else.
#[derive(Debug, PartialEq, Eq)]
struct Answers {
    crossings: u16,
    claims: ClaimSumsAnswer,
    quartets: QuartetTableAnswer,
    splits: SplitCountsAnswer,
}

impl Answers {
    /// Zeros beside the number of a refused pair.
    fn of(refusal: u16, expected: Option<&Expected>) -> Answers {
        let figures = expected.cloned().unwrap_or_default();
        let [first, second, same, different] = figures.claims;
        let claims = ClaimSumsAnswer { refusal, first, second, same, different };
        let QuartetTable { a, b, c, d, e, distance } = figures.quartet_table();
        let quartets = QuartetTableAnswer { refusal, a, b, c, d, e, distance };
        let [first, second, common, distance] = figures.splits;
        let splits = SplitCountsAnswer { refusal, first, second, common, distance };
        Answers { crossings: refusal, claims, quartets, splits }
    }
}

/// The functions that take marks. Without figures the pair or its marks are refused.
fn marked_agrees(asked: &Asked, expected: Option<&Expected>, random: &mut Random) {
    let refusal = asked.refusal();
    let expected = expected.filter(|_| refusal == 0);
    assert_eq!(refusal == 0, expected.is_some(), "figures for {asked:?}");
    let crossings = expected.map_or(&[][..], |figures| &figures.crossings);
    let answers = Answers {
        crossings: asked.of(raw::leskwyn_crossings, crossings, random),
        claims: asked.of(raw::leskwyn_claim_sums, crossings, random),
        quartets: asked.of(raw::leskwyn_quartet_table, crossings, random),
        splits: asked.of(raw::leskwyn_split_counts, crossings, random),
    };
    assert_eq!(answers, Answers::of(refusal, expected), "{asked:?}");
    weighted_agrees(asked, Weighing::any(random), expected, random);
}

/// The triplet table, which counts all labels.
fn triplets_agree(asked: &Asked, expected: Option<&Expected>, random: &mut Random) {
    let refusal = asked.refusal_without_marks();
    let expected = expected.filter(|_| refusal == 0);
    assert_eq!(refusal == 0, expected.is_some(), "triplets of {asked:?}");
    let crossings = expected.map_or(&[][..], |figures| &figures.all_crossings);
    let [a, b, c, d, e] = expected.map_or([0; 5], |figures| figures.triplets);
    let answer = asked.triplets(crossings, random);
    assert_eq!(answer, TripletTableAnswer { refusal, a, b, c, d, e, distance: b + c + d }, "triplets of {asked:?}");
}

/// The weighted distance and its wrapper: the number, the bits of the answer and the cells. Without figures the pair or
/// its marks are refused.
pub fn weighted_agrees(asked: &Asked, weighing: Weighing, expected: Option<&Expected>, random: &mut Random) {
    let (refusal, distance, crossings) = match (asked.refusal(), weighing.numerator()) {
        (0, Some(k)) => {
            let figures = expected.expect("figures for an accepted pair");
            (0, weights::weighted(figures.quartets, k), &figures.crossings[..])
        }
        (0, None) => (30, 0.0, &[][..]),
        (number, _) => (number, 0.0, &[][..]),
    };
    let answer = asked.weighted(weighing, crossings, random);
    let told = format!("{asked:?}, {} and {:#x}", weighing.kind, weighing.fraction.to_bits());
    assert_eq!((answer.refusal, answer.distance.to_bits()), (refusal, distance.to_bits()), "{told}");
    if let Some(weight) = weighing.weight() {
        let Asked { first, second, marks, .. } = *asked;
        let wrapped =
            asked.lent(crossings, random, |work| leskwyn::weighted_distance(first, second, marks, work, weight));
        assert_eq!((number(&wrapped), wrapped.unwrap_or(0.0).to_bits()), (refusal, distance.to_bits()), "{told}");
    }
}

/// The wrappers say what the functions say.
fn wrappers_agree(asked: &Asked, expected: Option<&Expected>, random: &mut Random) {
    let Asked { first, second, marks, cells } = *asked;
    let (refusal, without_marks) = (asked.refusal(), asked.refusal_without_marks());
    let mut work = random.bytes(cells);
    let claims = leskwyn::claim_sums(first, second, marks, &mut work);
    let quartets = leskwyn::quartet_table(first, second, marks, &mut work);
    let splits = leskwyn::split_counts(first, second, marks, &mut work);
    let triplets = leskwyn::triplet_table(first, second, &mut work);
    let crossings = leskwyn::crossings(first, second, marks, &mut work);
    let numbers = [number(&claims), number(&quartets), number(&splits), number(&crossings)];
    assert_eq!((numbers, number(&triplets)), ([refusal; 4], without_marks), "{asked:?}");
    let Some(figures) = expected.filter(|_| refusal == 0) else {
        return;
    };
    let [first_sum, second_sum, same, different] = figures.claims;
    assert_eq!(claims, Ok(ClaimSums { first: first_sum, second: second_sum, same, different }));
    assert_eq!(quartets, Ok(figures.quartet_table()));
    assert_eq!(triplets, Ok(figures.triplet_table()));
    let [first_splits, second_splits, common, distance] = figures.splits;
    assert_eq!(splits, Ok(SplitCounts { first: first_splits, second: second_splits, common, distance }));
    assert_eq!(work[..figures.crossings.len()], figures.crossings);
    assert_eq!(leskwyn::work_cells(first, second), Ok(figures.crossings.len()));
}

/// Two accepted tables with the same tips under the marks of the figures: enough cells, some to spare, one too few, none.
pub fn pair_agrees(first: &[u16], second: &[u16], expected: &Expected, random: &mut Random) {
    let cells = expected.crossings.len();
    let spare = cells + random.between(1, 40);
    unchanged(first, |first| {
        unchanged(second, |second| {
            unchanged(&expected.marks, |marks| {
                for cells in [cells, spare, cells - 1, 0] {
                    let asked = Asked { first, second, marks, cells };
                    marked_agrees(&asked, Some(expected), random);
                    triplets_agree(&asked, Some(expected), random);
                }
                wrappers_agree(&Asked { first, second, marks, cells }, Some(expected), random);
            });
            some_evidence_agrees(first, second, random);
        });
    });
}

/// The figures that depend on marks, and the bits of some weighted distances, as the library tells them.
#[derive(Debug, PartialEq, Eq)]
pub struct Told {
    claims: ClaimSums,
    quartets: QuartetTable,
    splits: SplitCounts,
    weighted: [u64; 4],
}

impl Told {
    /// Of two accepted tables.
    pub fn of(first: &[u16], second: &[u16], marks: &[u8]) -> Told {
        let mut work = vec![0; leskwyn::work_cells(first, second).expect("accepted")];
        let weights =
            [Weight::None, Weight::Full, Weight::Part(weights::over_256(1)), Weight::Part(weights::over_256(128))];
        let weighted = weights
            .map(|weight| leskwyn::weighted_distance(first, second, marks, &mut work, weight).expect("accepted"));
        Told {
            claims: leskwyn::claim_sums(first, second, marks, &mut work).expect("accepted"),
            quartets: leskwyn::quartet_table(first, second, marks, &mut work).expect("accepted"),
            splits: leskwyn::split_counts(first, second, marks, &mut work).expect("accepted"),
            weighted: weighted.map(f64::to_bits),
        }
    }
}

/// The triplet table of two accepted tables.
pub fn told_triplets(first: &[u16], second: &[u16]) -> TripletTable {
    let mut work = vec![0; leskwyn::work_cells(first, second).expect("accepted")];
    leskwyn::triplet_table(first, second, &mut work).expect("accepted")
}

/// Two accepted tables, counted by `count` under some marks: the library agrees on them, and both have the same figures
/// without the pass-through nodes of either table, or of both.
pub fn passing_through_agrees(
    first: &[u16],
    second: &[u16],
    count: impl Fn(&[u16], &[u16]) -> Expected,
    random: &mut Random,
) -> Expected {
    let expected = count(first, second);
    pair_agrees(first, second, &expected, random);
    let (ours, theirs) = (taken_out(first).table, taken_out(second).table);
    let counted = count(&ours, &theirs);
    assert_eq!(expected.figures(), counted.figures(), "{first:?} and {second:?}, counted");
    let (told, triplets) = (Told::of(first, second, &expected.marks), told_triplets(first, second));
    for (one, other) in [(&ours[..], second), (first, &theirs[..]), (&ours, &theirs)] {
        let passed = (Told::of(one, other, &expected.marks), told_triplets(one, other));
        assert_eq!((&told, &triplets), (&passed.0, &passed.1), "{first:?} and {second:?}, {one:?} and {other:?}");
    }
    expected
}

/// Topologies, centres and the labels beyond edges are those of the table without its pass-through nodes.
pub fn tree_passes_through(table: &[u16], random: &mut Random) {
    let TakenOut { table: bare, was } = taken_out(table);
    let (tree, without) = (Tree::of(table), Tree::of(&bare));
    for edge in 1..bare[1] {
        let labels = tree.labels_beyond(was[usize::from(edge)]);
        assert_eq!(labels, without.labels_beyond(edge), "edge {edge} of {bare:?}, of {table:?}");
    }
    for _ in 0..8 {
        let [a, b, c, d] = [0; 4].map(|_: u16| random.below(usize::from(table[0])) as u16);
        assert_eq!(leskwyn::topology(table, a, b, c, d), leskwyn::topology(&bare, a, b, c, d), "{table:?}");
        let centre = leskwyn::centre(&bare, a, b, c).map(|node| was[usize::from(node)]);
        assert_eq!(leskwyn::centre(table, a, b, c), centre, "{a} {b} {c} in {table:?}");
    }
}

/// Two tables of which one is refused, or which do not fit each other, or whose work is too short: with right marks, and
/// with wrong ones.
pub fn refusal_agrees(first: &[u16], second: &[u16], cells: usize, random: &mut Random) -> u16 {
    let n = first.first().map_or(2, |&n| usize::from(n).clamp(2, 300));
    let marks = any_marks(n, random);
    let asked = Asked { first, second, marks: &marks, cells };
    refused_agrees(&asked, random);
    triplets_agree(&asked, None, random);
    refused_agrees(&Asked { first, second, marks: &wrong_marks(n, random), cells }, random);
    some_evidence_agrees(first, second, random);
    asked.refusal()
}

/// Two tables, marks and a number of cells that are refused, for whatever reason: the functions that take marks.
pub fn refused_agrees(asked: &Asked, random: &mut Random) -> u16 {
    marked_agrees(asked, None, random);
    wrappers_agree(asked, None, random);
    asked.refusal()
}
