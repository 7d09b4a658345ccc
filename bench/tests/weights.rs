//! The weighted distance under every weight: the bits of each answer, the order of the numbers, and the cells of each
//! refusal. One random weight besides goes with each pair of the other tests.

use bench::agree::{weighted_agrees, Asked, Expected};
use bench::damage::damaged;
use bench::generate::{any_chained, any_marks, chained, pair, table, Chains, Partner, Shape};
use bench::random::Random;
use bench::reference::PAIRS;
use bench::weights::{every_kind, numerator, over_256, right_fractions, weighted, wrong_fractions, Weighing};
use leskwyn::{all_kept, quartet_table, weighted_distance, work_cells, Weight, WORK_CELLS};

/// Every fraction of both lists.
fn fractions() -> Vec<f64> {
    [right_fractions(), wrong_fractions()].concat()
}

/// A part for every fraction.
fn parts() -> Vec<Weighing> {
    fractions().into_iter().map(|fraction| Weighing { kind: 2, fraction }).collect()
}

/// The whole numbers by which the answers are judged, against float arithmetic.
#[test]
fn floats_by_their_bits() {
    for k in 0..=256 {
        let float = k as f64 / 256.0;
        assert_eq!((over_256(k).to_bits(), numerator(float)), (float.to_bits(), Some(k)));
    }
    assert_eq!(numerator(-0.0), Some(0));
    for fraction in wrong_fractions() {
        assert_eq!(numerator(fraction), None, "{fraction:e}");
        assert!(!(0..=256).any(|k| fraction == k as f64 / 256.0), "{fraction:e}");
    }
    let mut random = Random::seeded(600);
    for _ in 0..100_000 {
        let n = random.draw() >> random.between(11, 63);
        assert_eq!(over_256(n).to_bits(), (n as f64 / 256.0).to_bits());
    }
}

/// Every kind with every fraction: enough cells, some to spare, one too few, none.
#[test]
fn reference_pairs() {
    let mut random = Random::seeded(610);
    let weighings = every_kind(&fractions());
    for reference in &PAIRS {
        let (first, second) = (reference.first, reference.second);
        let expected = Expected::enumerated(first, second);
        let cells = expected.crossings.len();
        for &weighing in &weighings {
            for cells in [cells, cells + 3, cells - 1, 0] {
                let asked = Asked { first, second, marks: &expected.marks, cells };
                weighted_agrees(&asked, weighing, Some(&expected), &mut random);
            }
        }
    }
}

#[test]
fn small_pairs() {
    let mut random = Random::seeded(620);
    let weighings = parts();
    for at in 0..280 {
        let (mut first, second) = pair(Shape::ALL[at % Shape::ALL.len()], 4 + at % 9, Partner::Far, &mut random);
        if at % 4 == 0 {
            first = any_chained(&first, &mut random);
        }
        // Labels are struck in every third pair.
        let expected = match at % 3 {
            0 => Expected::marked(&first, &second, &any_marks(4 + at % 9, &mut random)),
            _ => Expected::enumerated(&first, &second),
        };
        let (marks, cells) = (&expected.marks[..], expected.crossings.len());
        for &weighing in &weighings {
            let asked = Asked { first: &first, second: &second, marks, cells };
            weighted_agrees(&asked, weighing, Some(&expected), &mut random);
        }
    }
}

/// Every k at 256 tips. The star against a binary tree has C + D at its greatest.
#[test]
fn the_most_tips() {
    let mut random = Random::seeded(630);
    for (one, other) in [(Shape::Star, Shape::Binary), (Shape::Mixed, Shape::Contracted)] {
        let [first, second] = [one, other].map(|shape| table(shape, 256, &mut random));
        let expected = Expected::by_triples(&first, &second);
        let mut work = vec![0; WORK_CELLS];
        for fraction in right_fractions() {
            let weight = Weight::Part(fraction);
            let answer = weighted_distance(&first, &second, &[1; 256], &mut work, weight).expect("accepted");
            let k = numerator(fraction).expect("a k/256");
            assert_eq!(answer.to_bits(), weighted(expected.quartets, k).to_bits(), "{k}/256");
        }
        let cells = expected.crossings.len();
        for weighing in every_kind(&[0.5, -0.0, 1.0 / 512.0, f64::NAN]) {
            let asked = Asked { first: &first, second: &second, marks: &expected.marks, cells };
            weighted_agrees(&asked, weighing, Some(&expected), &mut random);
        }
        let [first, second] = [first, second].map(|table| chained(&table, Chains::Anywhere, 1024, &mut random));
        for k in [0, 1, 128, 255, 256] {
            let weight = Weight::Part(over_256(k));
            let answer = weighted_distance(&first, &second, &[1; 256], &mut work, weight).expect("accepted");
            assert_eq!(answer.to_bits(), weighted(expected.quartets, k).to_bits(), "{k}/256 with 1024 nodes");
        }
    }
}

/// A pair that is refused keeps its number under every weight: 30 comes after 9, and after the tables and 8.
#[test]
fn thirty_comes_last() {
    let mut random = Random::seeded(640);
    let mut met = [0; 200];
    let fractions = [0.5, -0.0, 0.3, -0.5, 1.0 + f64::EPSILON, f64::NAN, f64::INFINITY, 1.0 / 512.0];
    for at in 0..4_000 {
        let n = random.between(3, 12);
        let [mut first, mut second] = [0; 2].map(|_| {
            let shape = *random.pick(&Shape::ALL);
            table(shape, n, &mut random)
        });
        let mut cells = (usize::from(first[1]) - 1) * (usize::from(second[1]) - 1);
        match at % 4 {
            0 => first = damaged(&first, random.between(1, 7) as u16, &mut random),
            1 => second = damaged(&second, random.between(1, 7) as u16, &mut random),
            2 => second = table(*random.pick(&Shape::ALL), n - 1, &mut random),
            _ => cells -= 1,
        }
        let marks = any_marks(n, &mut random);
        let asked = Asked { first: &first, second: &second, marks: &marks, cells };
        let number = asked.refusal();
        met[usize::from(number)] += 1;
        // Some damage leaves a tree.
        let expected = (number == 0).then(|| Expected::marked(&first, &second, &marks));
        for weighing in every_kind(&fractions) {
            weighted_agrees(&asked, weighing, expected.as_ref(), &mut random);
        }
    }
    for number in (1..=9).chain(101..=107) {
        assert!(met[number] >= 50, "{number} came up {} times", met[number]);
    }
}

/// Nothing gives B, full gives the distance, and the weighted distance never falls as k grows.
#[test]
fn from_nothing_to_full() {
    let mut random = Random::seeded(650);
    for at in 0..200 {
        let (first, second) = pair(Shape::ALL[at % Shape::ALL.len()], 4 + at % 40, Partner::Far, &mut random);
        let mut work = vec![0; work_cells(&first, &second).expect("accepted")];
        let marks = if at % 2 == 0 { all_kept(&first).to_vec() } else { any_marks(4 + at % 40, &mut random) };
        let table = quartet_table(&first, &second, &marks, &mut work).expect("accepted");
        let mut weigh = |weight| weighted_distance(&first, &second, &marks, &mut work, weight).expect("accepted");
        assert_eq!((weigh(Weight::None), weigh(Weight::Full)), (table.b as f64, table.distance as f64));
        let distances: Vec<f64> = (0..=256).map(|k| weigh(Weight::Part(over_256(k)))).collect();
        assert!(distances.windows(2).all(|two| two[0] <= two[1]));
        assert_eq!((distances[0], distances[256]), (table.b as f64, table.distance as f64));
    }
}
