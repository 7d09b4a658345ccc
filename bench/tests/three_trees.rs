//! Three trees under the same marks. No distance is above the sum of the other two, and no weighted one from one half on;
//! two trees exchanged exchange C and D alone; the distance is 0 exactly between trees with the same canonical copy; and
//! tables with the same splits of kept labels count alike.

use bench::copied::{copied, kept_labels};
use bench::enumerate::{split_counts, Tips, Tree};
use bench::generate::{any_chained, any_marks, every_marks, marks, table, Graph, Kept, Numbering, Shape};
use bench::pass_through::taken_out;
use bench::random::Random;
use bench::reference::{P, PAIRS, Q, R, TABLES, X};
use bench::weights::{over_256, weighted};
use leskwyn::{canonical_copy, work_cells, ClaimSums, QuartetTable, SplitCounts, Weight};

/// 256 p of the weights from one half on. The last one is asked as a full weight.
const NUMERATORS: [u64; 5] = [128, 129, 255, 256, 256];

/// What the library tells of two trees, with the weighted distances in the order of the numerators.
#[derive(Clone, Debug, PartialEq)]
struct Counted {
    claims: ClaimSums,
    quartets: QuartetTable,
    splits: SplitCounts,
    weighted: [f64; 5],
}

impl Counted {
    /// Of two accepted tables.
    fn of(first: &[u16], second: &[u16], marks: &[u8]) -> Counted {
        let mut work = vec![0; work_cells(first, second).expect("accepted")];
        let [half, above, below, one, _] = NUMERATORS.map(|k| Weight::Part(over_256(k)));
        let weighted = [half, above, below, one, Weight::Full]
            .map(|weight| leskwyn::weighted_distance(first, second, marks, &mut work, weight).expect("accepted"));
        Counted {
            claims: leskwyn::claim_sums(first, second, marks, &mut work).expect("accepted"),
            quartets: leskwyn::quartet_table(first, second, marks, &mut work).expect("accepted"),
            splits: leskwyn::split_counts(first, second, marks, &mut work).expect("accepted"),
            weighted,
        }
    }

    /// What is to be told of the two trees exchanged.
    fn exchanged(&self) -> Counted {
        let ClaimSums { first, second, same, different } = self.claims;
        let claims = ClaimSums { first: second, second: first, same, different };
        let QuartetTable { a, b, c, d, e, distance } = self.quartets;
        let quartets = QuartetTable { a, b, c: d, d: c, e, distance };
        let SplitCounts { first, second, common, distance } = self.splits;
        let splits = SplitCounts { first: second, second: first, common, distance };
        Counted { claims, quartets, splits, weighted: self.weighted }
    }

    /// 256 times the weighted distance, in whole numbers.
    fn parts(&self, k: u64) -> u64 {
        let QuartetTable { b, c, d, .. } = self.quartets;
        256 * b + k * (c + d)
    }

    /// The weighted distances are (256 B + k(C + D)) / 256, and the quartet distance is B + C + D.
    fn adds_up(&self) {
        let QuartetTable { a, b, c, d, e, distance } = self.quartets;
        assert_eq!(distance, b + c + d, "{self:?}");
        let expected = NUMERATORS.map(|k| weighted([a, b, c, d, e], k).to_bits());
        assert_eq!(self.weighted.map(f64::to_bits), expected, "{self:?}");
    }
}

/// How often something was met.
#[derive(Debug, Default)]
struct Met {
    /// Ways of three distances above 0 that are shorter straight than by the third tree.
    wide: usize,
    /// The same, and as long by the third tree.
    flat: usize,
    /// The same, of weighted distances: as long at one half and at no other weight.
    flat_at_half: usize,
    /// Pairs with a C other than D.
    open: usize,
    /// Pairs of different tables at distance 0.
    same: usize,
    /// Replaced tables that are trees of their own where no label is struck.
    moved: usize,
}

impl Met {
    fn counts(&self) -> [usize; 6] {
        [self.wide, self.flat, self.flat_at_half, self.open, self.same, self.moved]
    }

    fn at_least(&self, least: &Met) {
        assert!(self.counts().iter().zip(least.counts()).all(|(&count, least)| count >= least), "{self:?}");
    }
}

/// The way from one tree to another is no longer straight than by a third. The sums of floats are exact.
fn triangle_holds(straight: &Counted, [there, on]: [&Counted; 2], met: &mut Met) {
    let way = |counted: &Counted| counted.quartets.distance;
    assert!(way(straight) <= way(there) + way(on), "{straight:?} by {there:?} and {on:?}");
    let mut flat = [false; 5];
    for (at, k) in NUMERATORS.into_iter().enumerate() {
        let sum = there.weighted[at] + on.weighted[at];
        assert_eq!(256.0 * sum, (there.parts(k) + on.parts(k)) as f64, "{k}/256 of {there:?} and {on:?}");
        assert!(straight.weighted[at] <= sum, "{straight:?} by {there:?} and {on:?}");
        flat[at] = straight.weighted[at] == sum;
    }
    if [straight, there, on].into_iter().all(|counted| way(counted) > 0) {
        let is_flat = way(straight) == way(there) + way(on);
        met.flat += usize::from(is_flat);
        met.wide += usize::from(!is_flat);
        met.flat_at_half += usize::from(flat == [true, false, false, false, false]);
    }
}

/// The words of the canonical copy, or none where fewer than two labels are kept.
fn copy_of(table: &[u16], marks: &[u8]) -> Option<Vec<u16>> {
    let mut cells = vec![0; table.len()];
    let copy = (kept_labels(marks).len() >= 2).then(|| canonical_copy(table, marks, &mut cells));
    copy.map(|words| words.expect("accepted").to_vec())
}

/// Every three of some tables with the same tips, the same one twice or thrice too. The figures of all pairs are handed
/// back, row by row.
fn trees_agree(tables: &[&[u16]], marks: &[u8], met: &mut Met) -> Vec<Vec<Counted>> {
    let row = |first: &&[u16]| tables.iter().map(|second| Counted::of(first, second, marks)).collect();
    let counted: Vec<Vec<Counted>> = tables.iter().map(row).collect();
    let copies: Vec<_> = tables.iter().map(|table| copy_of(table, marks)).collect();
    for (i, j) in (0..tables.len()).flat_map(|i| (0..tables.len()).map(move |j| (i, j))) {
        let pair = &counted[i][j];
        pair.adds_up();
        assert_eq!(pair.exchanged(), counted[j][i], "{:?} and {:?} under {marks:?}", tables[i], tables[j]);
        let is_same = copies[i] == copies[j];
        assert_eq!(pair.quartets.distance == 0, is_same, "{:?} and {:?} under {marks:?}", tables[i], tables[j]);
        met.open += usize::from(pair.quartets.c != pair.quartets.d);
        met.same += usize::from(is_same && tables[i] != tables[j]);
        (0..tables.len()).for_each(|by| triangle_holds(pair, [&counted[i][by], &counted[by][j]], met));
    }
    counted
}

/// The tables of the reference pairs with so many tips, each once.
fn reference_tables(n: u16) -> Vec<&'static [u16]> {
    let mut tables: Vec<_> = PAIRS.iter().flat_map(|pair| [pair.first, pair.second]).collect();
    tables.retain(|table| table[0] == n);
    tables.sort_unstable();
    tables.dedup();
    tables
}

/// All reference tables of one n in threes, under all marks. P lies between Q and R: 4 = 2 + 2.
#[test]
fn reference_triples() {
    let mut met = Met::default();
    assert!(TABLES.iter().all(|table| reference_tables(table[0]).contains(table)));
    for n in [2, 3, 5, 6, 8] {
        let tables = reference_tables(n);
        let every = every_marks(usize::from(n));
        every.for_each(|marks| drop(trees_agree(&tables, &marks, &mut met)));
    }
    met.at_least(&Met { wide: 4_000, flat: 200, flat_at_half: 200, open: 500, same: 2_000, moved: 0 });
    let counted = trees_agree(&[Q, P, R], &[1; 5], &mut met);
    assert_eq!([(0, 2), (0, 1), (1, 2)].map(|(i, j)| counted[i][j].quartets.distance), [4, 2, 2]);
}

/// Every three trees of up to 5 tips under all marks.
#[test]
fn every_triple_of_up_to_five_tips() {
    let mut random = Random::seeded(2200);
    let mut met = Met::default();
    for n in 2..=5 {
        let tables: Vec<_> = Graph::every(n).iter().map(|tree| tree.table(Numbering::Any, &mut random)).collect();
        let tables: Vec<&[u16]> = tables.iter().map(Vec::as_slice).collect();
        every_marks(n).for_each(|marks| drop(trees_agree(&tables, &marks, &mut met)));
    }
    met.at_least(&Met { wide: 40_000, flat: 300, flat_at_half: 8_000, open: 1_000, same: 10_000, moved: 0 });
}

/// Three trees with n tips, in any numbering, some with pass-through nodes: each is near the one before, or has an edge
/// less, or is a tree of its own.
fn three_tables(shape: Shape, n: usize, random: &mut Random) -> [Vec<u16>; 3] {
    let mut tree = Graph::of(shape, n, random);
    let kind = random.below(3);
    [0; 3].map(|_| {
        let bare = tree.table(*random.pick(&Numbering::ALL), random);
        match kind {
            0 => tree = tree.near_partner(random),
            1 => tree.contract(random),
            _ => tree = Graph::of(*random.pick(&Shape::ALL), n, random),
        }
        if random.chance(40) {
            any_chained(&bare, random)
        } else {
            bare
        }
    })
}

/// Another table with the same splits of kept labels, in one of six ways: other numbers of nodes, pass-through nodes put in
/// or taken out, the canonical copy of the whole tree, and struck tips elsewhere, without pass-through nodes or with them.
fn alike(words: &[u16], marks: &[u8], random: &mut Random) -> Vec<u16> {
    match random.below(6) {
        0 => Graph::of_table(words).table(Numbering::Any, random),
        1 => any_chained(words, random),
        2 => taken_out(words).table,
        3 => copied(words, &vec![1; marks.len()], usize::MAX).expect("all labels are kept"),
        4 => with_struck_tips_elsewhere(words, marks, random),
        _ => any_chained(&with_struck_tips_elsewhere(words, marks, random), random),
    }
}

/// With fewer than two kept labels any tree has the same splits of them.
fn with_struck_tips_elsewhere(words: &[u16], marks: &[u8], random: &mut Random) -> Vec<u16> {
    match copied(words, marks, usize::MAX) {
        Ok(kept) => Graph::of_table(&kept).with_struck_tips(marks, random).table(Numbering::Any, random),
        Err(_) => table(*random.pick(&Shape::ALL), marks.len(), random),
    }
}

/// How many splits of kept labels one of two trees has and the other has not.
fn splits_apart([one, other]: [&[u16]; 2], marks: &[u8]) -> u64 {
    let [.., apart] = split_counts(&Tree::of(one), &Tree::of(other), Tips::kept(marks));
    apart
}

/// One of some tables replaced by another one with the same splits of kept labels: on either side it counts like the one
/// that it replaces. Whether it is another tree where no label is struck.
fn replaced_agrees(tables: &[&[u16]], at: usize, other: &[u16], marks: &[u8], counted: &[Vec<Counted>]) -> bool {
    let both = [tables[at], other];
    assert_eq!(splits_apart(both, marks), 0, "{both:?} under {marks:?}");
    for (beside, table) in tables.iter().enumerate() {
        let told = [Counted::of(other, table, marks), Counted::of(table, other, marks)];
        let expected = [&counted[at][beside], &counted[beside][at]];
        assert_eq!(told.each_ref(), expected, "the second of {both:?} for the first, with {table:?} under {marks:?}");
    }
    splits_apart(both, &vec![1; marks.len()]) > 0
}

/// Triples of every shape, under any marks, with so many tips by turn. One of the three is replaced.
fn random_triples(seed: u64, tips: impl IntoIterator<Item = usize>) -> Met {
    let mut random = Random::seeded(seed);
    let mut met = Met::default();
    for (at, n) in tips.into_iter().enumerate() {
        let tables = three_tables(Shape::ALL[at % Shape::ALL.len()], n, &mut random);
        let tables = tables.each_ref().map(Vec::as_slice);
        let marks = match at % 4 {
            0 => any_marks(n, &mut random),
            _ => marks(*random.pick(&[Kept::Half, Kept::AllButOne, Kept::All]), n, &mut random),
        };
        let counted = trees_agree(&tables, &marks, &mut met);
        let other = alike(tables[at % 3], &marks, &mut random);
        met.moved += usize::from(replaced_agrees(&tables, at % 3, &other, &marks, &counted));
    }
    met
}

#[test]
fn small_triples() {
    let met = random_triples(2210, (0..1_050).map(|at| 2 + at % 15));
    met.at_least(&Met { wide: 1_500, flat: 200, flat_at_half: 30, open: 1_500, same: 2_000, moved: 150 });
}

#[test]
fn middle_triples() {
    let met = random_triples(2220, (0..96).map(|at| 17 + at % 48));
    met.at_least(&Met { wide: 200, flat: 20, flat_at_half: 0, open: 200, same: 100, moved: 10 });
}

#[test]
fn large_triples() {
    let met = random_triples(2230, [65, 80, 93, 110, 128, 129, 150, 171, 190, 222, 250, 255, 256, 256]);
    met.at_least(&Met { wide: 20, flat: 2, flat_at_half: 0, open: 20, same: 0, moved: 1 });
}

/// Two different butterflies lie at 1 from each other and at k/256 from the star: below one half the way by the star is
/// shorter. At 127/256 it is 256 against 127 + 127.
#[test]
fn below_one_half() {
    // 01|23, all four at node 1, 02|13.
    let butterfly = &[4, 6, 0, 0, 1, 1, 3, 3, 0, X, 1, X, 2, 3];
    let star = &[4, 5, 0, 0, 1, 1, 1, 0, X, 1, 2, 3];
    let other = &[4, 6, 0, 0, 1, 1, 3, 3, 0, X, 2, X, 1, 3];
    for k in 0..=256 {
        let distance = |first: &[u16], second: &[u16]| {
            let weight = Weight::Part(over_256(k));
            leskwyn::weighted_distance(first, second, &[1; 4], &mut [0; 25], weight).expect("accepted")
        };
        let [straight, there, on] = [distance(butterfly, other), distance(butterfly, star), distance(star, other)];
        assert_eq!([straight, there, on].map(|distance| 256.0 * distance), [256, k, k].map(|parts| parts as f64));
        assert_eq!(straight <= there + on, k >= 128, "{k}/256");
    }
}
