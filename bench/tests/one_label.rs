//! One label struck or restored: the sets of four that hold it against an enumeration, wishes one after the other
//! against fresh quartet tables, counts that are not the pair's, every number in its order, and tables re-rooted at a
//! tip.

use std::array;

use bench::agree::{change_agrees, different_labels, holding_agrees, reroot_agrees, tree_agrees};
use bench::damage::{damaged, Met, NUMBERS};
use bench::evidence::every_four;
use bench::generate::{any_chained, any_marks, any_pair, chained, marks, pair, table, wrong_marks};
use bench::generate::{Chains, Kept, Partner, Shape};
use bench::one_label::{Change, OneLabel};
use bench::random::Random;
use bench::reference::{P, Q, X};
use bench::rerooted::swapped;
use bench::{pruned, straight};
use leskwyn::{holding, quartet_table, topology, work_cells, FiveCounts, QuartetTable, Topology};

/// The most tips of pairs whose sets of four are enumerated after every wish.
const ENUMERATED: usize = 16;

/// A way of getting the five cases of two tables under marks.
type Count = fn(&[u16], &[u16], &[u8]) -> [u64; 5];

/// By a fresh quartet table of the library.
fn counted(first: &[u16], second: &[u16], marks: &[u8]) -> [u64; 5] {
    let mut work = vec![0; work_cells(first, second).expect("accepted")];
    cases(quartet_table(first, second, marks, &mut work).expect("accepted"))
}

/// By the straight method.
fn straight_counts(first: &[u16], second: &[u16], marks: &[u8]) -> [u64; 5] {
    let mut work = vec![0; work_cells(first, second).expect("accepted")];
    cases(straight::quartet_table(first, second, marks, &mut work).expect("accepted"))
}

fn cases(QuartetTable { a, b, c, d, e, .. }: QuartetTable) -> [u64; 5] {
    [a, b, c, d, e]
}

/// What a label holds: the cases of the kept labels with it, less those without it.
fn recounted(asked: &OneLabel, count: Count) -> [u64; 5] {
    let [without, with] = [0, 1].map(|mark| count(asked.first, asked.second, &asked.marks_with(mark)));
    array::from_fn(|case| with[case] - without[case])
}

/// Each set of four kept labels is held by four of them.
fn four_times_the_table(first: &[u16], second: &[u16], marks: &[u8]) {
    let mut sums = [0; 5];
    for label in (0..first[0]).filter(|&label| marks[usize::from(label)] == 1) {
        let FiveCounts { a, b, c, d, e } = holding(first, second, marks, label).expect("accepted");
        sums.iter_mut().zip([a, b, c, d, e]).for_each(|(sum, held)| *sum += held);
    }
    assert_eq!(sums, counted(first, second, marks).map(|count| 4 * count), "{first:?} and {second:?} under {marks:?}");
}

/// Every label of a pair, by enumeration.
fn every_label_agrees(first: &[u16], second: &[u16], marks: &[u8]) {
    for label in 0..first[0] {
        let asked = OneLabel { first, second, marks, label };
        holding_agrees(&asked, || asked.held()).expect("accepted");
    }
    four_times_the_table(first, second, marks);
}

/// Pairs for each shape and kind of partner.
const PAIRS: usize = 66;

fn small_pairs_agree(partner: Partner) {
    let mut random = Random::seeded(1500 + partner as u64);
    for at in 0..PAIRS {
        for shape in Shape::ALL {
            let n = 2 + (at + random.below(2)) % 11;
            let [first, second] = any_pair(at, shape, n, partner, &mut random);
            for kept in Kept::ALL {
                every_label_agrees(&first, &second, &marks(kept, n, &mut random));
            }
        }
    }
}

#[test]
fn near() {
    small_pairs_agree(Partner::Near);
}

#[test]
fn far() {
    small_pairs_agree(Partner::Far);
}

#[test]
fn middle_pairs() {
    let mut random = Random::seeded(1510);
    for (at, shape) in Shape::ALL.into_iter().cycle().take(42).enumerate() {
        let partner = if at % 2 == 0 { Partner::Near } else { Partner::Far };
        let n = random.between(13, if at < 28 { 32 } else { 64 });
        let [first, second] = any_pair(at, shape, n, partner, &mut random);
        for kept in [Kept::Half, Kept::AllButOne] {
            every_label_agrees(&first, &second, &marks(kept, n, &mut random));
        }
    }
}

/// Two tables of n tips, in half of the cases with 4n nodes both.
fn large_pair(at: usize, n: usize, random: &mut Random) -> [Vec<u16>; 2] {
    let (first, second) = pair(Shape::ALL[at % Shape::ALL.len()], n, Partner::Far, random);
    if random.chance(50) {
        return [first, second];
    }
    [first, second].map(|bare| chained(&bare, *random.pick(&Chains::ALL), 4 * n, random))
}

/// Label 0 and others, by the O(n^3) method and by the straight one.
#[test]
fn large_pairs() {
    let mut random = Random::seeded(1520);
    for (at, n) in [128, 256].into_iter().cycle().take(14).enumerate() {
        let [first, second] = large_pair(at, n, &mut random);
        let marks = marks([Kept::Half, Kept::AllButOne, Kept::All][at % 3], n, &mut random);
        for turn in 0..12 {
            let label = if turn == 0 { 0 } else { random.below(n) as u16 };
            let asked = OneLabel { first: &first, second: &second, marks: &marks, label };
            let count = if turn < 2 { pruned::cases } else { straight_counts };
            holding_agrees(&asked, || recounted(&asked, count)).expect("accepted");
        }
        four_times_the_table(&first, &second, &marks);
    }
}

/// Both trees one slice: nothing differs.
#[test]
fn one_slice() {
    let mut random = Random::seeded(1530);
    for at in 0..300 {
        let n = 2 + at % 30;
        let table = any_chained(&table(Shape::ALL[at % Shape::ALL.len()], n, &mut random), &mut random);
        let marks = any_marks(n, &mut random);
        let asked = OneLabel { first: &table, second: &table, marks: &marks, label: random.below(n) as u16 };
        let held = holding_agrees(&asked, || asked.held()).expect("accepted");
        assert_eq!(held[1..4], [0; 3], "{asked:?}");
    }
}

/// Two tables with marks and counts that go on from wish to wish.
struct Course {
    first: Vec<u16>,
    second: Vec<u16>,
    marks: Vec<u8>,
    counts: [u64; 5],
}

impl Course {
    fn of([first, second]: [Vec<u16>; 2], marks: Vec<u8>) -> Course {
        let counts = counted(&first, &second, &marks);
        Course { first, second, marks, counts }
    }

    /// The number of a wish. If it is 0, the counts are those of a fresh quartet table under the new marks.
    fn wish(&mut self, label: u16, mark: u16, random: &mut Random) -> u16 {
        let Course { first, second, marks, counts } = self;
        let asked = OneLabel { first, second, marks, label };
        let change = Change { asked, counts: *counts, mark };
        let held = || match marks.len() {
            ..=ENUMERATED => asked.held(),
            _ => {
                let after = straight_counts(first, second, &change.new_marks());
                array::from_fn(|case| after[case].abs_diff(counts[case]))
            }
        };
        match change_agrees(&change, held, random) {
            Err(number) => number,
            Ok(new) => {
                let after = change.new_marks();
                assert_eq!(new, counted(first, second, &after), "{change:?}");
                (self.marks, self.counts) = (after, new);
                0
            }
        }
    }

    /// Some wish for some label, which may be n or more: refused by 10 and 33 alone.
    fn any_wish(&mut self, random: &mut Random) -> u16 {
        let n = self.marks.len();
        let label = if random.chance(5) { random.word() } else { random.below(n + 1) as u16 };
        let mark = random.below(2) as u16;
        let expected = match self.marks.get(usize::from(label)) {
            None => 10,
            Some(&own) if u16::from(own) == mark => 33,
            Some(_) => 0,
        };
        let number = self.wish(label, mark, random);
        assert_eq!(number, expected, "{label} to be {mark} under {:?}", self.marks);
        number
    }
}

#[test]
fn wishes_one_after_the_other() {
    let mut random = Random::seeded(1540);
    let mut met = Met::default();
    for at in 0..700 {
        let n = 2 + at % (ENUMERATED - 1);
        let partner = if at % 3 == 0 { Partner::Near } else { Partner::Far };
        let pair = any_pair(at, Shape::ALL[at % Shape::ALL.len()], n, partner, &mut random);
        let mut course = Course::of(pair, any_marks(n, &mut random));
        for _ in 0..40 {
            met.meet(course.any_wish(&mut random));
        }
    }
    met.at_least(2_000, [0, 10, 33]);
}

#[test]
fn wishes_on_large_pairs() {
    let mut random = Random::seeded(1550);
    for (at, n) in [17, 64, 128, 256].into_iter().cycle().take(28).enumerate() {
        let pair = large_pair(at, n, &mut random);
        let mut course = Course::of(pair, any_marks(n, &mut random));
        let accepted = (0..24).filter(|_| course.any_wish(&mut random) == 0).count();
        assert_ne!(accepted, 0);
    }
}

/// All labels struck one after the other, and restored in another order.
#[test]
fn down_to_none_and_back() {
    let mut random = Random::seeded(1560);
    let sizes = (2..=ENUMERATED).flat_map(|n| [n; 7]).chain([33, 64, 128, 256]);
    for (at, n) in sizes.enumerate() {
        let pair = any_pair(at, Shape::ALL[at % Shape::ALL.len()], n, Partner::Far, &mut random);
        let mut course = Course::of(pair, vec![1; n]);
        let all = course.counts;
        let mut labels: Vec<u16> = (0..n as u16).collect();
        for (mark, counts) in [(0, [0; 5]), (1, all)] {
            random.shuffle(&mut labels);
            for &label in &labels {
                assert_eq!(course.wish(label, mark, &mut random), 0);
                assert_eq!(course.wish(label, mark, &mut random), 33);
            }
            assert_eq!((&course.marks, course.counts), (&vec![mark as u8; n], counts));
        }
    }
}

/// Random pairs of up to 14 tips under any marks, and the wish that changes some label.
fn some_changes(seed: u64, pairs: usize, mut meet: impl FnMut(Change, &mut Random)) {
    let mut random = Random::seeded(seed);
    for at in 0..pairs {
        let n = 2 + at % 13;
        let [first, second] = any_pair(at, Shape::ALL[at % Shape::ALL.len()], n, Partner::Far, &mut random);
        let marks = any_marks(n, &mut random);
        let counts = counted(&first, &second, &marks);
        for _ in 0..4 {
            let label = random.below(n) as u16;
            let asked = OneLabel { first: &first, second: &second, marks: &marks, label };
            meet(Change { asked, counts, mark: 1 - u16::from(marks[usize::from(label)]) }, &mut random);
        }
    }
}

/// Two different cases.
fn two_cases(random: &mut Random) -> [usize; 2] {
    let one = random.below(5);
    [one, (one + random.between(1, 4)) % 5]
}

fn refused_with_counts(change: Change, counts: [u64; 5], random: &mut Random) {
    let change = Change { counts, ..change };
    assert_eq!(change_agrees(&change, || change.asked.held(), random), Err(34), "{change:?}");
}

/// One off in some case, or by the powers of two at which a narrower sum would wrap.
#[test]
fn counts_off_in_one_case() {
    some_changes(1570, 300, |change, random| {
        for case in 0..5 {
            for off in [1, u64::MAX, 1 << 8, 1 << 16, 1 << 32, 1 << 63] {
                let mut counts = change.counts;
                counts[case] = counts[case].wrapping_add(off);
                refused_with_counts(change, counts, random);
            }
        }
    });
}

/// Near 2^64, and the sum would fit if it wrapped.
#[test]
fn counts_whose_sum_wraps() {
    some_changes(1580, 300, |change, random| {
        let fits = change.counts.into_iter().sum::<u64>();
        let wrapped = |counts: [u64; 5]| counts.into_iter().fold(0, u64::wrapping_add);
        for _ in 0..4 {
            let ([one, other], more) = (two_cases(random), 1 + random.draw() % 1_000);
            let mut past_zero = change.counts;
            past_zero[one] += past_zero[other] + more;
            past_zero[other] = more.wrapping_neg();
            let mut halves = change.counts;
            halves[one] ^= 1 << 63;
            halves[other] ^= 1 << 63;
            let mut any: [u64; 5] = array::from_fn(|_| u64::MAX - random.draw() % 1_000_000_000);
            any[one] = any[one].wrapping_add(fits).wrapping_sub(wrapped(any));
            for counts in [past_zero, halves, any] {
                assert_eq!(wrapped(counts), fits);
                refused_with_counts(change, counts, random);
            }
        }
    });
}

/// Five counts that add up like the given ones: two exchanged, some sets moved to another case, or all dealt out anew.
fn other_counts(counts: [u64; 5], random: &mut Random) -> [u64; 5] {
    let ([one, other], mut counts) = (two_cases(random), counts);
    match random.below(3) {
        0 => counts.swap(one, other),
        1 => {
            let moved = random.draw() % (counts[one] + 1);
            counts[one] -= moved;
            counts[other] += moved;
        }
        _ => {
            let mut left = counts.into_iter().sum::<u64>();
            counts = array::from_fn(|_| {
                let dealt = random.draw() % (left + 1);
                left -= dealt;
                dealt
            });
            counts[random.below(5)] += left;
        }
    }
    counts
}

/// Counts that add up and are not the pair's: what the label holds is added to them or taken off all the same, but a
/// strike that overdraws a case is refused.
#[test]
fn counts_of_no_pair() {
    let mut met = [Met::default(), Met::default()];
    some_changes(1590, 1_500, |change, random| {
        let change = Change { counts: other_counts(change.counts, random), ..change };
        let (counts, held, strikes) = (change.counts, change.asked.held(), change.mark == 0);
        let expected = if strikes && (0..5).any(|case| counts[case] < held[case]) {
            Err(34)
        } else if strikes {
            Ok(array::from_fn(|case| counts[case] - held[case]))
        } else {
            Ok(array::from_fn(|case| counts[case] + held[case]))
        };
        assert_eq!(change_agrees(&change, || held, random), expected, "{change:?}");
        if counts != counted(change.asked.first, change.asked.second, change.asked.marks) {
            met[usize::from(change.mark)].meet(expected.err().unwrap_or(0));
        }
    });
    met[0].at_least(200, [0, 34]);
    met[1].at_least(200, [0]);
}

/// Marks that are neither, those that a byte would cut to 0 or 1 among them.
const NO_MARKS: [u16; 9] = [2, 3, 128, 255, 256, 257, 32768, 65534, 65535];

/// Every rule broken, and then one after the other kept: each number has its turn.
#[test]
fn one_rule_after_the_other() {
    let mut random = Random::seeded(1600);
    let four_tips = &[4, 5, 0, 0, 1, 1, 1, 0, X, 1, 2, 3];
    let (few, high, right) = (&[1; 4][..], &[1, 1, 1, 1, 2][..], &[1; 5][..]);
    // Label 4 holds two sets of case A and two of case C.
    let (off, over, counts) = ([3, 0, 2, 0, 1], [1, 1, 1, 1, 1], [3, 0, 2, 0, 0]);
    let of = |first, second, marks, label| OneLabel { first, second, marks, label };
    let turns = [
        (of(&[5], &[], few, 5), 2, off, 1),
        (of(P, &[], few, 5), 2, off, 101),
        (of(P, four_tips, few, 5), 2, off, 8),
        (of(four_tips, Q, few, 5), 2, off, 8),
        (of(P, Q, few, 5), 2, off, 32),
        (of(P, Q, high, 5), 0, off, 32),
        (of(P, Q, right, 5), 2, off, 32),
        (of(P, Q, right, 5), 1, off, 10),
        (of(P, Q, right, 4), 1, off, 33),
        (of(P, Q, right, 4), 0, off, 34),
        (of(P, Q, right, 4), 0, over, 34),
        (of(P, Q, right, 4), 0, counts, 0),
    ];
    for (asked, mark, counts, number) in turns {
        let told = change_agrees(&Change { asked, counts, mark }, || asked.held(), &mut random);
        assert_eq!(told, if number == 0 { Ok([1, 0, 0, 0, 0]) } else { Err(number) });
        // What a label holds is asked without a mark and without counts.
        let held = match number {
            32 if asked.marks == right => Err(10),
            33 | 34 | 0 => Ok([2, 0, 2, 0, 0]),
            _ => Err(number),
        };
        assert_eq!(holding_agrees(&asked, || asked.held()), held);
    }
    for (mark, label) in NO_MARKS.into_iter().flat_map(|mark| [0, 4, 5, X].map(|label| (mark, label))) {
        let asked = of(P, Q, right, label);
        assert_eq!(change_agrees(&Change { asked, counts, mark }, || asked.held(), &mut random), Err(32));
    }
    for label in [5, 6, 255, 256, 261, X] {
        let asked = of(P, Q, right, label);
        assert_eq!(holding_agrees(&asked, || asked.held()), Err(10));
        assert_eq!(change_agrees(&Change { asked, counts, mark: 0 }, || asked.held(), &mut random), Err(10));
    }
}

/// The first rule that is broken decides, whichever others are.
#[test]
fn the_order_of_numbers() {
    let mut random = Random::seeded(1610);
    let (mut held, mut changed) = (Met::default(), Met::default());
    for at in 0..30_000 {
        let n = if at % 50 == 0 { random.between(13, 256) } else { random.between(3, 12) };
        let [mut first, mut second] = any_pair(at, *random.pick(&Shape::ALL), n, Partner::Far, &mut random);
        let mut marks = any_marks(n, &mut random);
        let mut counts = counted(&first, &second, &marks);
        if random.chance(10) {
            first = damaged(&first, *random.pick(&NUMBERS), &mut random);
        }
        if random.chance(10) {
            second = damaged(&second, *random.pick(&NUMBERS), &mut random);
        }
        if random.chance(5) {
            second = table(*random.pick(&Shape::ALL), n - 1, &mut random);
        }
        if random.chance(10) {
            marks = wrong_marks(n, &mut random);
        }
        if random.chance(25) {
            counts[random.below(5)] = random.draw() >> random.below(64);
        }
        let label = if random.chance(20) { random.between(n, 300) } else { random.below(n) } as u16;
        let mark = if random.chance(10) { *random.pick(&NO_MARKS) } else { random.below(2) as u16 };
        let asked = OneLabel { first: &first, second: &second, marks: &marks, label };
        let of_label = || if n <= 12 { asked.held() } else { recounted(&asked, straight_counts) };
        held.meet(holding_agrees(&asked, of_label).err().unwrap_or(0));
        changed.meet(change_agrees(&Change { asked, counts, mark }, of_label, &mut random).err().unwrap_or(0));
    }
    let of_pairs: Vec<u16> =
        NUMBERS.into_iter().chain(NUMBERS.map(|number| 100 + number)).chain([8, 32, 10, 0]).collect();
    held.at_least(50, of_pairs.iter().copied());
    changed.at_least(50, of_pairs.into_iter().chain([33, 34]));
}

/// Four labels of a table: the other one on a label's side, none for a star.
fn partner(table: &[u16], four: [u16; 4], label: u16) -> Option<u16> {
    let [a, b, c, d] = four;
    let Topology::Butterfly(partner) = topology(table, a, b, c, d).expect("accepted") else {
        return None;
    };
    let smallest = *four.iter().min()?;
    let is_with_smallest = |label: u16| label == smallest || label == partner;
    four.into_iter().find(|&other| other != label && is_with_smallest(other) == is_with_smallest(label))
}

/// Four labels lie in the re-rooted table as they did, with 0 and `at` exchanged.
fn lies_as_before(table: &[u16], at: u16, rerooted: &[u16], four: [u16; 4]) {
    let now = four.map(|label| swapped(0, at, label));
    for label in four {
        let (was, is) = (partner(table, four, label), partner(rerooted, now, swapped(0, at, label)));
        assert_eq!(is, was.map(|label| swapped(0, at, label)), "{four:?} in {table:?} re-rooted at {at}");
    }
}

/// Every label of small tables, and labels that are n or more; cells enough, to spare, too few, and none.
#[test]
fn rerooted_tables() {
    let mut random = Random::seeded(1620);
    for at in 0..420 {
        let n = 2 + at % 12;
        let bare = table(Shape::ALL[at % Shape::ALL.len()], n, &mut random);
        let table = if at % 3 == 0 { bare } else { any_chained(&bare, &mut random) };
        for label in (0..=table[0] + 1).chain([256, X]) {
            let (words, spare) = (table.len(), random.between(1, 20));
            for cells in [words + spare, words - 1, random.below(words), 0] {
                let expected = match cells {
                    _ if label >= table[0] => 10,
                    _ if cells < words => 12,
                    _ => 0,
                };
                let number = reroot_agrees(&table, label, cells, &mut random).err().unwrap_or(0);
                assert_eq!(number, expected, "{table:?} at {label} in {cells} cells");
            }
            let Ok(rerooted) = reroot_agrees(&table, label, table.len(), &mut random) else {
                assert!(label >= table[0]);
                continue;
            };
            assert_eq!(leskwyn::check(&rerooted), Ok(()), "{table:?} at {label}");
            assert!(label != 0 || rerooted == table, "{table:?} at 0");
            if n <= 9 {
                every_four(table[0]).for_each(|four| lies_as_before(&table, label, &rerooted, four));
            }
            tree_agrees(&rerooted, &mut random);
        }
    }
}

#[test]
fn large_tables_rerooted() {
    let mut random = Random::seeded(1630);
    for at in 0..28 {
        let n = if at % 4 == 0 { random.between(13, 255) } else { 256 };
        let [table, _] = large_pair(at, n, &mut random);
        for label in [0, 1, table[0] - 1, random.below(n) as u16, random.below(n) as u16] {
            let rerooted = reroot_agrees(&table, label, table.len(), &mut random).expect("accepted");
            assert_eq!(leskwyn::check(&rerooted), Ok(()));
            for _ in 0..40 {
                lies_as_before(&table, label, &rerooted, different_labels(n, &mut random));
            }
        }
    }
}

/// Two tables re-rooted at one label have the quartet table that they had, with the marks of 0 and the label exchanged.
#[test]
fn quartet_tables_of_rerooted_pairs() {
    let mut random = Random::seeded(1640);
    for at in 0..400 {
        let n = if at % 20 == 0 { random.between(13, 128) } else { 2 + at % 11 };
        let [first, second] = any_pair(at, Shape::ALL[at % Shape::ALL.len()], n, Partner::Far, &mut random);
        let (mut marks, label) = (any_marks(n, &mut random), random.below(n));
        let counts = counted(&first, &second, &marks);
        let [ours, theirs] = [&first, &second]
            .map(|table| reroot_agrees(table, label as u16, table.len(), &mut random).expect("accepted"));
        marks.swap(0, label);
        assert_eq!(counted(&ours, &theirs, &marks), counts, "{first:?} and {second:?} at {label}");
    }
}

/// The table's numbers, 10, 12: the first that holds decides.
#[test]
fn numbers_of_rerooting() {
    let mut random = Random::seeded(1650);
    let mut met = Met::default();
    for at in 0..6_000 {
        let n = if at % 50 == 0 { random.between(13, 256) } else { random.between(2, 12) };
        let bare = table(*random.pick(&Shape::ALL), n, &mut random);
        let mut table = if random.chance(50) { any_chained(&bare, &mut random) } else { bare };
        let words = table.len();
        if random.chance(60) {
            table = damaged(&table, *random.pick(&NUMBERS), &mut random);
        }
        let label = if random.chance(30) { random.between(n, 300) } else { random.below(n) } as u16;
        let cells = if random.chance(40) { random.below(words) } else { words + random.below(3) };
        met.meet(reroot_agrees(&table, label, cells, &mut random).err().unwrap_or(0));
    }
    met.at_least(50, NUMBERS.into_iter().chain([10, 12, 0]));
}
