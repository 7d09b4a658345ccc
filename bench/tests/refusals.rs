//! Damaged tables, tables that do not fit each other, and words with little plan: the number of every function, zeros
//! in every other field, and no lent cell changed.

use bench::agree::{pair_agrees, refusal_agrees, tree_agrees, Expected};
use bench::damage::{damaged, noise, without_children, Met, NUMBERS};
use bench::enumerate::{pair_refusal, tree_refusal};
use bench::generate::{any_chained, chained, table, Chains, Shape};
use bench::pass_through::pass_through_nodes;
use bench::random::Random;
use bench::reference::{W, X};
use bench::straight;

/// A table of n tips, in half of the cases with pass-through nodes.
fn table_of(n: usize, random: &mut Random) -> Vec<u16> {
    let bare = table(*random.pick(&Shape::ALL), n, random);
    if random.chance(50) {
        return any_chained(&bare, random);
    }
    bare
}

fn any_table(most: usize, random: &mut Random) -> Vec<u16> {
    table_of(random.between(2, most), random)
}

#[test]
fn damaged_tables() {
    let mut random = Random::seeded(500);
    let mut met = Met::default();
    for at in 0..3_000 {
        let most = if at % 20 == 0 { 256 } else { 14 };
        let table = any_table(most, &mut random);
        for number in NUMBERS {
            let spoiled = damaged(&table, number, &mut random);
            tree_agrees(&spoiled, &mut random);
            met.meet(tree_refusal(&spoiled));
        }
    }
    met.at_least(1_000, NUMBERS);
}

/// Damage in the first, in the second, in both; the cells are enough, too few, or none.
#[test]
fn damaged_pairs() {
    let mut random = Random::seeded(510);
    let mut met = Met::default();
    for at in 0..12_000 {
        let n = if at % 40 == 0 { random.between(15, 256) } else { random.between(2, 14) };
        let [mut first, mut second] = [0; 2].map(|_| table_of(n, &mut random));
        let cells = (usize::from(first[1]) - 1) * (usize::from(second[1]) - 1);
        let spoil = random.between(1, 3);
        if spoil & 1 != 0 {
            first = damaged(&first, *random.pick(&NUMBERS), &mut random);
        }
        if spoil & 2 != 0 {
            second = damaged(&second, *random.pick(&NUMBERS), &mut random);
        }
        let lent = *random.pick(&[cells, cells, cells + 3, cells - 1, 0]);
        let number = pair_refusal(&first, &second, lent);
        met.meet(number);
        let straight = straight::quartet_table(&first, &second, leskwyn::all_kept(&first), &mut vec![0; lent]);
        assert_eq!(straight.err().unwrap_or(0), number, "straight, of {first:?} and {second:?}");
        if number == 0 && n <= 14 {
            pair_agrees(&first, &second, &Expected::enumerated(&first, &second), &mut random);
        } else if number != 0 {
            assert_eq!(refusal_agrees(&first, &second, lent, &mut random), number);
        }
    }
    met.at_least(100, NUMBERS.into_iter().chain(NUMBERS.map(|number| 100 + number)));
}

/// P's parents under other labels, and tables of a tree of four tips whose n is 5: each with its number.
const LABEL_TROUBLE: [(&[u16], u16); 8] = [
    // a label out of range, and another repeated
    (&[5, 8, 0, 0, 1, 1, 3, 3, 5, 5, 0, X, 1, X, 1, X, 3, 9], 6),
    // one repeated
    (&[5, 8, 0, 0, 1, 1, 3, 3, 5, 5, 0, X, 1, X, 1, X, 3, 4], 31),
    // node 0's label wrong, and thereby repeated
    (&[5, 8, 0, 0, 1, 1, 3, 3, 5, 5, 1, X, 1, X, 2, X, 3, 4], 6),
    // node 0's label that of an inner node, and 0 missing
    (&[5, 8, 0, 0, 1, 1, 3, 3, 5, 5, X, X, 1, X, 2, X, 3, 4], 6),
    // one repeated, and a tip with children
    (&[5, 8, 0, 0, 1, 1, 3, 3, 5, 5, 0, X, 1, 2, 2, X, 3, 4], 31),
    // one missing and none repeated, and an inner node without a child
    (&[5, 8, 0, 0, 1, 1, 3, 3, 5, 5, 0, X, 1, X, 2, X, 3, X], 31),
    // one missing and none repeated, and no other rule broken
    (&[5, 6, 0, 0, 1, 1, 3, 3, 0, X, 1, X, 2, 3], 31),
    // the same with a label out of range
    (&[5, 6, 0, 0, 1, 1, 3, 3, 0, X, 1, X, 2, 5], 6),
];

#[test]
fn label_trouble() {
    let mut random = Random::seeded(515);
    for (table, number) in LABEL_TROUBLE {
        tree_agrees(table, &mut random);
        assert_eq!(tree_refusal(table), number, "{table:?}");
        for refusal in [leskwyn::check(table), leskwyn::work_cells(W, table).map(|_| ())].map(Result::unwrap_err) {
            let part = if number == 6 { "neither 65535 nor below n" } else { "does not stand exactly once" };
            assert!(refusal.reason().ends_with(part), "{refusal}");
        }
        assert_eq!(refusal_agrees(table, W, 100, &mut random), number, "{table:?}");
        assert_eq!(refusal_agrees(W, table, 100, &mut random), 100 + number, "{table:?}");
        assert_eq!(refusal_agrees(W, table, 0, &mut random), 100 + number, "{table:?} and no cells");
    }
}

/// m at the edges of n to 4n, for every n: words that keep this rule and break the next, then tables that keep all the
/// others.
#[test]
fn numbers_of_nodes() {
    let mut random = Random::seeded(516);
    let check = |table: &[u16]| leskwyn::check(table).err().map_or(0, leskwyn::Refusal::number);
    for n in 2..=256u16 {
        for m in [n, 2 * n - 2, 2 * n - 1, 2 * n, 4 * n - 1, 4 * n] {
            tree_agrees(&[n, m], &mut random);
            assert_eq!(check(&[n, m]), 4, "{n} and {m}");
        }
        for m in [0, 1, n - 1, 4 * n + 1, 4 * n + 2, 8 * n, 32768 + n, X] {
            tree_agrees(&[n, m], &mut random);
            assert_eq!(check(&[n, m]), 3, "{n} and {m}");
        }
        let bare = table(*random.pick(&Shape::ALL), usize::from(n), &mut random);
        for (m, number) in [(2 * n - 1, 0), (4 * n, 0), (4 * n + 1, 3)] {
            let long = chained(&bare, *random.pick(&Chains::ALL), usize::from(m), &mut random);
            assert_eq!((long[1], tree_refusal(&long), check(&long)), (m, number, number), "{long:?}");
        }
    }
}

/// The only child of a pass-through node hangs from that node's parent instead.
#[test]
fn an_only_child_lost() {
    let mut random = Random::seeded(517);
    let mut lost = 0;
    for _ in 0..2_000 {
        let bare = table(*random.pick(&Shape::ALL), random.between(2, 12), &mut random);
        let long = any_chained(&bare, &mut random);
        for node in pass_through_nodes(&long).into_iter().filter(|&node| node > 1) {
            let mut spoiled = long.clone();
            without_children(&mut spoiled, node);
            tree_agrees(&spoiled, &mut random);
            assert_eq!(tree_refusal(&spoiled), 7, "{spoiled:?}");
            assert_eq!(refusal_agrees(&spoiled, &long, 3_000, &mut random), 7);
            assert_eq!(refusal_agrees(&long, &spoiled, 0, &mut random), 107);
            lost += 1;
        }
    }
    assert!(lost > 2_000, "{lost} lost their only child");
}

#[test]
fn tips_that_differ() {
    let mut random = Random::seeded(520);
    for _ in 0..2_000 {
        let (first, second) = (any_table(12, &mut random), any_table(12, &mut random));
        if first[0] != second[0] {
            let cells = random.below(600);
            assert_eq!(refusal_agrees(&first, &second, cells, &mut random), 8);
        }
    }
}

/// One cell too few, at every size.
#[test]
fn a_cell_too_few() {
    let mut random = Random::seeded(530);
    for n in 2..=256 {
        let (first, second) = (table_of(n, &mut random), table_of(n, &mut random));
        let cells = (usize::from(first[1]) - 1) * (usize::from(second[1]) - 1);
        assert_eq!(refusal_agrees(&first, &second, cells - 1, &mut random), 9);
    }
}

#[test]
fn words_with_little_plan() {
    let mut random = Random::seeded(540);
    let mut met = Met::default();
    for _ in 0..30_000 {
        let words = noise(&mut random);
        tree_agrees(&words, &mut random);
        met.meet(tree_refusal(&words));
        let other = noise(&mut random);
        match pair_refusal(&words, &other, 100) {
            0 => pair_agrees(&words, &other, &Expected::enumerated(&words, &other), &mut random),
            number => assert_eq!(refusal_agrees(&words, &other, 100, &mut random), number),
        }
    }
    met.at_least(200, NUMBERS.into_iter().chain([0]));
}

/// Every single word of the small reference tables, changed to each of many others.
#[test]
fn every_word_changed() {
    let mut random = Random::seeded(550);
    for table in bench::reference::TABLES {
        for at in 0..table.len() {
            for word in (0..12).chain([255, 256, 257, 258, 32767, 65534, 65535]) {
                let mut changed = table.to_vec();
                changed[at] = word;
                tree_agrees(&changed, &mut random);
                if tree_refusal(&changed) != 0 {
                    refusal_agrees(&changed, table, 100, &mut random);
                    refusal_agrees(table, &changed, 100, &mut random);
                }
            }
        }
    }
}
