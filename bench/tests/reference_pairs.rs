//! The reference pairs and edge cases of docs/SPECIFICATION.md, and further pairs worked out beforehand.

use bench::agree::{centre_agrees, pair_agrees, topology_agrees, tree_agrees, Expected};
use bench::enumerate::Tree;
use bench::generate::{any_nodes, chained, Chains};
use bench::random::Random;
use bench::reference::{P, PAIRS, Q, R, TABLES, THREE, TWO, X};
use bench::{common_ancestors, cubic, expanded, straight};
use leskwyn::file::compare_tables;
use leskwyn::{ClaimSums, QuartetTable, SplitCounts, TripletTable};

/// The cases A to E, and the distance B + C + D.
fn with_distance([a, b, c, d, e]: [u64; 5]) -> [u64; 6] {
    [a, b, c, d, e, b + c + d]
}

#[test]
fn the_pairs_have_their_figures() {
    let mut random = Random::seeded(1);
    for pair in &PAIRS {
        let expected = Expected::enumerated(pair.first, pair.second);
        let figures = (expected.claims, with_distance(expected.quartets), expected.splits);
        assert_eq!(figures, (pair.claims, pair.quartets, pair.splits), "{} by the enumerator", pair.name);
        assert_eq!(with_distance(expected.triplets), pair.triplets, "triplets of {} by the enumerator", pair.name);
        pair_agrees(pair.first, pair.second, &expected, &mut random);
    }
}

/// Pass-through nodes are put in above tips, above inner nodes, at node 1 and anywhere, in both tables.
#[test]
fn the_pairs_have_their_figures_with_pass_through_nodes() {
    let mut random = Random::seeded(3);
    for (pair, chains) in PAIRS.iter().flat_map(|pair| Chains::ALL.map(|chains| (pair, chains))) {
        for _ in 0..40 {
            let [first, second] = [pair.first, pair.second].map(|table| {
                let nodes = any_nodes(table, &mut random);
                chained(table, chains, nodes, &mut random)
            });
            let told = format!("{} as {first:?} and {second:?}", pair.name);
            let figures = compare_tables(&first, &second).expect("accepted");
            let ClaimSums { first, second, same, different } = figures.claims;
            assert_eq!([first, second, same, different], pair.claims, "claims of {told}");
            let QuartetTable { a, b, c, d, e, distance } = figures.quartets;
            assert_eq!([a, b, c, d, e, distance], pair.quartets, "quartets of {told}");
            let SplitCounts { first, second, common, distance } = figures.splits;
            assert_eq!([first, second, common, distance], pair.splits, "splits of {told}");
            let TripletTable { a, b, c, d, e, distance } = figures.triplets;
            assert_eq!([a, b, c, d, e, distance], pair.triplets, "triplets of {told}");
        }
    }
}

#[test]
fn the_other_methods_have_their_figures() {
    for pair in &PAIRS {
        let by_triples = cubic::cases(pair.first, pair.second);
        assert_eq!(with_distance(by_triples), pair.quartets, "{} by triples", pair.name);
        let by_expansion = expanded::cases(pair.first, pair.second);
        assert_eq!(with_distance(by_expansion), pair.quartets, "{} by expansion", pair.name);
        let mut work = vec![0; 1000];
        let table = straight::quartet_table(pair.first, pair.second, leskwyn::all_kept(pair.first), &mut work)
            .expect("accepted");
        let figures = [table.a, table.b, table.c, table.d, table.e, table.distance];
        assert_eq!(figures, pair.quartets, "{} straight", pair.name);
        let triplets = common_ancestors::triplet_cases(pair.first, pair.second);
        assert_eq!(with_distance(triplets), pair.triplets, "triplets of {} by common ancestors", pair.name);
    }
}

#[test]
fn every_three_and_four_labels_of_the_tables() {
    for table in TABLES {
        let tree = Tree::of(table);
        let labels = || (0..=table[0]).chain([X]);
        for (a, b, c) in labels().flat_map(|a| labels().flat_map(move |b| labels().map(move |c| (a, b, c)))) {
            centre_agrees(table, Some(&tree), [a, b, c]);
            for d in labels() {
                topology_agrees(table, Some(&tree), [a, b, c, d]);
            }
        }
    }
}

#[test]
fn the_labels_beyond_the_edges_of_p_and_r() {
    let beyond = |table: &[u16], edge: u16, cells: usize| {
        let mut walk = [0; 5];
        leskwyn::walk(table, &mut walk).expect("accepted");
        leskwyn::beyond(table, edge, &walk[..cells]).map(<[u16]>::to_vec).map_err(leskwyn::Refusal::number)
    };
    let of_p = [vec![1, 2, 3, 4], vec![1], vec![2, 3, 4], vec![2], vec![3, 4], vec![3], vec![4]];
    let of_r = [vec![2, 1, 3, 4], vec![2], vec![1, 3, 4], vec![1], vec![3, 4], vec![3], vec![4]];
    for (table, parts) in [(P, of_p), (R, of_r)] {
        for (edge, part) in (1..).zip(parts) {
            assert_eq!(beyond(table, edge, 5), Ok(part));
            assert_eq!(beyond(table, edge, 4), Err(12));
        }
        assert_eq!([0, 8, X].map(|edge| beyond(table, edge, 4)), [Err(13), Err(13), Err(13)]);
    }
}

#[test]
fn the_edges_of_acceptance() {
    let number = |table: &[u16]| leskwyn::check(table).err().map_or(0, leskwyn::Refusal::number);
    let with = |at: usize, word: u16| {
        let mut table = P.to_vec();
        table[at] = word;
        table
    };
    assert_eq!([1, 257].map(|n| number(&with(0, n))), [2, 2]);
    assert_eq!([4, 21].map(|m| number(&with(1, m))), [3, 3]);
    assert_eq!([5, 9, 20].map(|m| number(&with(1, m))), [4, 4, 4]);
    assert_eq!(number(&[P, &[0]].concat()), 4);
    assert_eq!(number(TWO), 0);
    assert_eq!(number(THREE), 0);
    let refused =
        |cells| leskwyn::quartet_table(P, Q, &[1; 5], &mut vec![0; cells]).err().map(leskwyn::Refusal::number);
    assert_eq!([41, 42].map(refused), [Some(9), None]);
    let mut random = Random::seeded(2);
    for table in TABLES {
        tree_agrees(table, &mut random);
    }
}
