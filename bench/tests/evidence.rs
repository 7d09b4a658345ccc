//! The evidence for sets of four against a search over all edges and all nodes, with pass-through nodes and without.
//! Some sets besides go with each pair of the other tests.

use bench::agree::{both_climbs, different_labels, evidence_agrees};
use bench::damage::{damaged, noise, Met, NUMBERS};
use bench::enumerate::{cases, pair_refusal, Tree};
use bench::evidence::{every_four, every_order};
use bench::generate::{any_chained, chained, pair, table, Chains, Graph, Numbering, Partner, Shape};
use bench::pass_through::taken_out;
use bench::random::Random;
use leskwyn::{Case, Evidence, Topology, Witness};

/// Pairs for each shape and each kind of partner.
const PAIRS: usize = 264;

/// The evidence for every set of four of an accepted pair.
fn every_set_agrees(first: &[u16], second: &[u16]) -> Vec<([u16; 4], Evidence)> {
    let climbs = both_climbs(first, second);
    let agree = |four| evidence_agrees(first, second, climbs.as_ref(), four).expect("accepted");
    every_four(first[0]).map(|four| (four, agree(four))).collect()
}

/// How many of the sets are in each case.
fn counted(sets: &[([u16; 4], Evidence)]) -> [u64; 5] {
    let count = |case: Case| sets.iter().filter(|(_, shown)| shown.which == case).count() as u64;
    [Case::A, Case::B, Case::C, Case::D, Case::E].map(count)
}

/// The topology that an edge or a node shows, the first of the labels being the smallest.
fn topology_shown(tree: &Tree, [a, b, c, d]: [u16; 4], witness: Witness) -> Topology {
    let Witness::Edge(edge) = witness else {
        return Topology::Star;
    };
    let beyond = tree.labels_beyond(edge);
    let with_smallest = |label: &u16| beyond.contains(label) == beyond.contains(&a);
    Topology::Butterfly([b, c, d].into_iter().find(with_smallest).expect("two on each side"))
}

/// The cases of all sets are the quartet table, and each edge and node shows the topology that the library tells.
fn sums_agree(first: &[u16], second: &[u16]) {
    let sets = every_set_agrees(first, second);
    let (ours, theirs) = (Tree::of(first), Tree::of(second));
    let mut work = vec![0; leskwyn::work_cells(first, second).expect("accepted")];
    let told = leskwyn::quartet_table(first, second, leskwyn::all_kept(first), &mut work).expect("accepted");
    assert_eq!(counted(&sets), [told.a, told.b, told.c, told.d, told.e], "{first:?} and {second:?}");
    assert_eq!(counted(&sets), cases(&ours, &theirs), "{first:?} and {second:?}");
    for (four, shown) in sets {
        let [a, b, c, d] = four;
        for (table, tree, witness) in [(first, &ours, shown.first), (second, &theirs, shown.second)] {
            let topology = topology_shown(tree, four, witness);
            assert_eq!(leskwyn::topology(table, a, b, c, d), Ok(topology), "{four:?} in {table:?}");
        }
    }
}

/// Two tables of 2 to 12 tips, with pass-through nodes in neither, in the first, in the second, or in both.
fn small_pair(at: usize, shape: Shape, partner: Partner, random: &mut Random) -> [Vec<u16>; 2] {
    let (first, second) = pair(shape, 2 + (at + random.below(2)) % 11, partner, random);
    match at % 4 {
        0 => [first, second],
        1 => [any_chained(&first, random), second],
        2 => [first, any_chained(&second, random)],
        _ => [any_chained(&first, random), any_chained(&second, random)],
    }
}

fn small_pairs_agree(partner: Partner) {
    let mut random = Random::seeded(1200 + partner as u64);
    for at in 0..PAIRS {
        for shape in Shape::ALL {
            let [first, second] = small_pair(at, shape, partner, &mut random);
            sums_agree(&first, &second);
        }
    }
}

#[test]
fn near() {
    small_pairs_agree(Partner::Near);
}

#[test]
fn far() {
    small_pairs_agree(Partner::Far);
}

/// Every kind of chain in the first tree with every kind in the second, up to 4n nodes.
#[test]
fn every_kind_of_chain() {
    let mut random = Random::seeded(1210);
    for (one, other) in Chains::ALL.into_iter().flat_map(|one| Chains::ALL.map(|other| (one, other))) {
        for (n, shape) in (4..=12).zip(Shape::ALL.into_iter().cycle()) {
            let (first, second) = pair(shape, n, Partner::Near, &mut random);
            let nodes = |table: &[u16]| (usize::from(table[1]) + 4 * n).div_ceil(2);
            sums_agree(&chained(&first, one, nodes(&first), &mut random), &chained(&second, other, 4 * n, &mut random));
        }
    }
}

/// Every two trees of 4, 5 and 6 tips.
#[test]
fn every_pair() {
    let mut random = Random::seeded(1220);
    for n in 4..=6 {
        let mut tables = |numbering: Numbering| -> Vec<Vec<u16>> {
            Graph::every(n).iter().map(|tree| tree.table(numbering, &mut random)).collect()
        };
        let (ours, theirs) = (tables(Numbering::DepthFirst), tables(Numbering::Any));
        for (first, second) in ours.iter().flat_map(|first| theirs.iter().map(move |second| (first, second))) {
            let found = counted(&every_set_agrees(first, second));
            assert_eq!(found, cases(&Tree::of(first), &Tree::of(second)), "{first:?} and {second:?}");
        }
    }
}

/// The order of the four labels plays no part.
#[test]
fn every_order_of_four() {
    let mut random = Random::seeded(1230);
    for at in 0..60 {
        let [first, second] = small_pair(at, Shape::ALL[at % Shape::ALL.len()], Partner::Far, &mut random);
        let climbs = both_climbs(&first, &second);
        for (four, shown) in every_set_agrees(&first, &second) {
            for order in every_order(four) {
                assert_eq!(evidence_agrees(&first, &second, climbs.as_ref(), order), Ok(shown), "{order:?}");
            }
        }
    }
}

/// The trees the other way round: C and D change places. Both trees one slice: A or E, and the same edge or node twice.
#[test]
fn trees_exchanged() {
    let mut random = Random::seeded(1240);
    for at in 0..100 {
        let [first, second] = small_pair(at, Shape::ALL[at % Shape::ALL.len()], Partner::Far, &mut random);
        for (four, shown) in every_set_agrees(&first, &second) {
            let [a, b, c, d] = four;
            let which = match shown.which {
                Case::C => Case::D,
                Case::D => Case::C,
                same => same,
            };
            let exchanged = Evidence { which, first: shown.second, second: shown.first };
            assert_eq!(leskwyn::evidence(&second, &first, a, b, c, d), Ok(exchanged), "{four:?}");
            let which = if matches!(shown.first, Witness::Edge(_)) { Case::A } else { Case::E };
            let with_itself = Evidence { which, first: shown.first, second: shown.first };
            assert_eq!(leskwyn::evidence(&first, &first, a, b, c, d), Ok(with_itself), "{four:?}");
        }
    }
}

/// Pass-through nodes leave the case and the meeting nodes as they are.
#[test]
fn without_pass_through_nodes() {
    let mut random = Random::seeded(1250);
    for at in 0..200 {
        let (first, second) = pair(Shape::ALL[at % Shape::ALL.len()], 4 + at % 30, Partner::Near, &mut random);
        let [first, second] = [first, second].map(|table| any_chained(&table, &mut random));
        let (ours, theirs) = (taken_out(&first), taken_out(&second));
        for _ in 0..50 {
            let [a, b, c, d] = different_labels(usize::from(first[0]), &mut random);
            let long = leskwyn::evidence(&first, &second, a, b, c, d).expect("accepted");
            let bare = leskwyn::evidence(&ours.table, &theirs.table, a, b, c, d).expect("accepted");
            assert_eq!(long.which, bare.which, "{first:?} and {second:?}");
            for (witness, was, long) in [(bare.first, &ours.was, long.first), (bare.second, &theirs.was, long.second)] {
                match (witness, long) {
                    (Witness::Edge(_), Witness::Edge(_)) => (),
                    (Witness::Meet(node), long) => assert_eq!(long, Witness::Meet(was[usize::from(node)])),
                    (witness, long) => panic!("{witness:?} and {long:?} of {first:?} and {second:?}"),
                }
            }
        }
    }
}

/// 256 tips and up to 1024 nodes, each shape with another and each kind of chain with another.
#[test]
fn the_most_nodes() {
    let mut random = Random::seeded(1260);
    let kinds = Chains::ALL.into_iter().flat_map(|one| Chains::ALL.map(|other| [one, other]));
    let mut met = [0; 5];
    for (at, kinds) in kinds.enumerate() {
        let shapes = [Shape::ALL[at % 7], Shape::ALL[(at + at / 7 + 1) % 7]];
        let bare = shapes.map(|shape| table(shape, 256, &mut random));
        let long = [0, 1].map(|i| chained(&bare[i], kinds[i], 1024, &mut random));
        for [first, second] in [&bare, &long] {
            let climbs = both_climbs(first, second);
            for _ in 0..40 {
                let four = different_labels(256, &mut random);
                let shown = evidence_agrees(first, second, climbs.as_ref(), four).expect("accepted");
                met[shown.which as usize] += 1;
            }
        }
    }
    assert!(met.into_iter().all(|count| count >= 20), "the cases came up {met:?} times");
}

/// Four labels of n tips, some n or more, some equal: 0, 10 and 11 all come up.
fn any_four(n: usize, random: &mut Random) -> [u16; 4] {
    let mut four = if n >= 4 { different_labels(n, random) } else { [0; 4].map(|_: u16| random.below(n + 1) as u16) };
    let [from, to, at] = [0; 3].map(|_: usize| random.below(4));
    if random.chance(40) {
        four[to] = four[from];
    }
    if random.chance(40) {
        four[at] = *random.pick(&[n as u16, n as u16 + 1, 256, 257, 32768, 65534, 65535]);
    }
    four
}

/// The number of a refusal, or 0.
fn number(answer: Result<Evidence, u16>) -> u16 {
    answer.err().unwrap_or(0)
}

/// Damage in the first table, in the second, in both, in none, with labels good and bad.
#[test]
fn damaged_pairs() {
    let mut random = Random::seeded(1270);
    let mut met = Met::default();
    for at in 0..12_000 {
        let n = if at % 40 == 0 { random.between(15, 256) } else { random.between(2, 14) };
        let [mut first, mut second] = [0; 2].map(|_| {
            let bare = table(*random.pick(&Shape::ALL), n, &mut random);
            if random.chance(50) {
                any_chained(&bare, &mut random)
            } else {
                bare
            }
        });
        let spoil = at % 4;
        if spoil & 1 != 0 {
            first = damaged(&first, *random.pick(&NUMBERS), &mut random);
        }
        if spoil & 2 != 0 {
            second = damaged(&second, *random.pick(&NUMBERS), &mut random);
        }
        let climbs = both_climbs(&first, &second);
        for _ in 0..4 {
            met.meet(number(evidence_agrees(&first, &second, climbs.as_ref(), any_four(n, &mut random))));
        }
    }
    met.at_least(500, NUMBERS.into_iter().chain(NUMBERS.map(|number| 100 + number)).chain([0, 10, 11]));
}

/// 8 comes before 10 and 11, whichever tree the labels are of.
#[test]
fn tips_that_differ() {
    let mut random = Random::seeded(1280);
    for _ in 0..2_000 {
        let [n, other] = [0; 2].map(|_: usize| random.between(2, 12));
        let [first, second] = [n, other].map(|n| table(*random.pick(&Shape::ALL), n, &mut random));
        if n != other {
            assert_eq!(pair_refusal(&first, &second, usize::MAX), 8);
            for n in [n, other] {
                assert_eq!(evidence_agrees(&first, &second, None, any_four(n, &mut random)), Err(8));
            }
        }
    }
}

/// Each label and each two of the four spoiled in turn: 10 before 11, wherever they stand.
#[test]
fn every_place_of_a_label() {
    let mut random = Random::seeded(1290);
    for n in 4..=256u16 {
        let [first, second] = [0; 2].map(|_| table(*random.pick(&Shape::ALL), usize::from(n), &mut random));
        let climbs = both_climbs(&first, &second);
        let agree = |four| evidence_agrees(&first, &second, climbs.as_ref(), four).map(|_| ());
        let mut good = different_labels(usize::from(n), &mut random);
        if !good.contains(&(n - 1)) {
            good[random.below(4)] = n - 1;
        }
        assert_eq!(agree(good), Ok(()));
        for (from, to) in (0..4).flat_map(|from| (0..4).map(move |to| (from, to))).filter(|(from, to)| from != to) {
            let mut equal = good;
            equal[to] = equal[from];
            assert_eq!(agree(equal), Err(11), "{equal:?} of {n} tips");
            for at in 0..4 {
                let mut both = equal;
                both[at] = *random.pick(&[n, n + 1, 65535]);
                assert_eq!(agree(both), Err(10), "{both:?} of {n} tips");
            }
            let mut twice = good;
            (twice[from], twice[to]) = (n, n);
            assert_eq!(agree(twice), Err(10), "{twice:?} of {n} tips");
        }
    }
}

/// Words with little plan, the same ones twice in half of the cases, and then words at random.
#[test]
fn words_with_little_plan() {
    let mut random = Random::seeded(1295);
    let mut met = Met::default();
    for at in 0..60_000 {
        let (first, other) = (noise(&mut random), noise(&mut random));
        let second = if at % 2 == 0 { first.clone() } else { other };
        let climbs = both_climbs(&first, &second);
        let n = first.first().map_or(0, |&n| usize::from(n).min(300));
        for _ in 0..3 {
            met.meet(number(evidence_agrees(&first, &second, climbs.as_ref(), any_four(n, &mut random))));
        }
        let [few, more] = [0; 2].map(|_: usize| random.below(30));
        let (few, more, four) = (random.words(few), random.words(more), [0; 4].map(|_: u16| random.word()));
        met.meet(number(evidence_agrees(&few, &more, None, four)));
    }
    met.at_least(50, NUMBERS.into_iter().chain(NUMBERS.map(|number| 100 + number)).chain([0, 8, 10, 11]));
}
