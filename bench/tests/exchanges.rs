//! Two labels exchanged: every distance and every tally against an enumeration of sets of four, of larger trees against
//! the O(n^3) method; distances against tallies; trees without pass-through nodes and copies of trees; and every number in
//! its order.

use bench::agree::{exchange_agrees, tallies_agree};
use bench::damage::{damaged, Met, NUMBERS};
use bench::enumerate::sets_of_four;
use bench::exchanged::{cubic_distance, every_two, tallied, Pairings, Tallies};
use bench::generate::{any_chained, any_nodes, chained, table, Chains, Graph, Numbering, Shape};
use bench::pass_through::taken_out;
use bench::random::Random;
use bench::reference::{P, Q, R, THREE, TWO, W, X};
use leskwyn::{all_kept, canonical_copy, exchange_distance, exchange_tallies, work_cells};

/// The most tips of trees whose exchanges are enumerated.
const ENUMERATED: usize = 24;

/// (m - 1)(m - 1) cells of an accepted table.
fn cells_of(table: &[u16]) -> usize {
    (usize::from(table[1]) - 1).pow(2)
}

/// The tallies in as many cells as the table takes, and in more, which stay. One less is too few, and so are any fewer.
fn cells_agree(table: &[u16], tallies: Tallies, random: &mut Random) {
    let (cells, spare) = (cells_of(table), random.between(1, 40));
    for (lent, expected) in [(cells, 0), (cells + spare, 0), (cells - 1, 9), (random.below(cells), 9), (0, 9)] {
        let number = tallies_agree(table, lent, || tallies, random).err().unwrap_or(0);
        assert_eq!(number, expected, "{table:?} in {lent} cells");
    }
}

/// Every exchange of an accepted table, by the distances of `every_two`, and the tallies that they make.
fn exchanges_agree(table: &[u16], distances: &[u64], random: &mut Random) -> Tallies {
    let n = table[0];
    assert_eq!(distances.len(), usize::from(n) * (usize::from(n) - 1) / 2);
    for (two, &distance) in every_two(n).zip(distances) {
        exchange_agrees(table, two, || distance).expect("different labels");
    }
    let tallies = tallied(n, distances.iter().copied());
    cells_agree(table, tallies, random);
    tallies
}

/// Every exchange of an accepted table, by enumeration. Each meets its tally.
fn enumerated_agrees(table: &[u16], met: &mut Met, random: &mut Random) {
    let tallies = exchanges_agree(table, &Pairings::of(table).distances(), random);
    (0..).zip(tallies).for_each(|(tally, count)| (0..count).for_each(|_| met.meet(tally)));
}

/// The tallies of docs/SPECIFICATION.md. R is P with two labels exchanged.
#[test]
fn reference_tables() {
    let mut random = Random::seeded(1810);
    let of_p = [2, 0, 0, 0, 4, 0, 0, 0, 0, 0, 4];
    for (table, tallies) in [
        (P, of_p),
        (R, of_p),
        (Q, [4, 0, 0, 0, 0, 0, 0, 0, 6, 0, 0]),
        (W, [10, 0, 0, 0, 0, 0, 0, 0, 0, 0, 0]),
        (TWO, [1, 0, 0, 0, 0, 0, 0, 0, 0, 0, 0]),
        (THREE, [3, 0, 0, 0, 0, 0, 0, 0, 0, 0, 0]),
    ] {
        assert_eq!(exchanges_agree(table, &Pairings::of(table).distances(), &mut random), tallies, "{table:?}");
    }
}

/// Each without pass-through nodes and with them. Only trees of four and five tips have exchanges in tally 10.
#[test]
fn every_tree_of_up_to_seven_tips() {
    let mut random = Random::seeded(1820);
    let mut met = Met::default();
    for n in 2..=7 {
        for (at, tree) in Graph::every(n).into_iter().enumerate() {
            let bare = tree.table(Numbering::ALL[at % 3], &mut random);
            enumerated_agrees(&bare, &mut met, &mut random);
            enumerated_agrees(&any_chained(&bare, &mut random), &mut met, &mut random);
        }
    }
    met.at_least(100, 0..=10);
}

/// Each shape at each size, without pass-through nodes and with each kind of chain.
#[test]
fn random_trees() {
    let mut random = Random::seeded(1830);
    let mut met = Met::default();
    for n in 4..=ENUMERATED {
        for (at, shape) in Shape::ALL.into_iter().enumerate() {
            let bare = table(shape, n, &mut random);
            enumerated_agrees(&bare, &mut met, &mut random);
            let nodes = any_nodes(&bare, &mut random);
            let long = chained(&bare, Chains::ALL[(n + at) % 4], nodes, &mut random);
            enumerated_agrees(&long, &mut met, &mut random);
        }
    }
    met.at_least(30, 0..=10);
}

/// All exchanges by the O(n^3) method.
#[test]
fn trees_of_25_to_40_tips() {
    let mut random = Random::seeded(1840);
    for n in ENUMERATED + 1..=40 {
        for at in 0..2 {
            let bare = table(Shape::ALL[(n + 3 * at) % Shape::ALL.len()], n, &mut random);
            let table = if at == 0 { bare } else { any_chained(&bare, &mut random) };
            let distances: Vec<u64> = every_two(table[0]).map(|two| cubic_distance(&table, two)).collect();
            exchanges_agree(&table, &distances, &mut random);
        }
    }
}

/// Some exchanges by the O(n^3) method, label 0 among them.
#[test]
fn trees_of_64_to_256_tips() {
    let mut random = Random::seeded(1850);
    for at in 0..21 {
        let n = if at % 3 == 0 { 256 } else { random.between(64, 255) };
        let bare = table(Shape::ALL[at % Shape::ALL.len()], n, &mut random);
        let table = if at % 2 == 0 { bare } else { any_chained(&bare, &mut random) };
        let (x, y) = (random.between(1, n - 2), random.between(1, n - 1));
        for two in [[0, y], [x, n - 1]].map(|two| two.map(|label| label as u16)) {
            exchange_agrees(&table, two, || cubic_distance(&table, two)).expect("different labels");
        }
    }
}

/// What the library tells of an accepted table: the tallies, and the distance of every two labels.
fn told(table: &[u16]) -> (Tallies, Vec<u64>) {
    let mut work = vec![9; work_cells(table, table).expect("accepted")];
    let tallies = exchange_tallies(table, &mut work).expect("accepted");
    let distances = every_two(table[0]).map(|[x, y]| exchange_distance(table, x, y).expect("accepted"));
    (tallies, distances.collect())
}

/// Trees of every shape, with pass-through nodes in two of three.
fn some_trees(count: usize, most: usize, random: &mut Random, mut meet: impl FnMut(&[u16])) {
    for at in 0..count {
        let bare = table(Shape::ALL[at % Shape::ALL.len()], random.between(4, most), random);
        let table = if at % 3 == 0 { bare } else { any_chained(&bare, random) };
        meet(&table);
    }
}

/// The tallies are those of the distances pair by pair, and add up to n(n - 1)/2.
#[test]
fn distances_make_the_tallies() {
    let agrees = |table: &[u16]| {
        let (tallies, distances) = told(table);
        assert_eq!(tallied(table[0], distances), tallies, "{table:?}");
        let n = u64::from(table[0]);
        assert_eq!(tallies.into_iter().sum::<u64>(), n * (n - 1) / 2, "{table:?}");
    };
    let mut random = Random::seeded(1860);
    some_trees(420, 40, &mut random, agrees);
    some_trees(42, 100, &mut random, agrees);
    some_trees(7, 256, &mut random, agrees);
}

/// Neither a table without its pass-through nodes nor the canonical copy with all labels kept tells anything else.
#[test]
fn tables_of_one_tree() {
    let mut random = Random::seeded(1870);
    some_trees(420, 40, &mut random, |table| {
        let expected = told(table);
        assert_eq!(told(&taken_out(table).table), expected, "{table:?}, pass-through nodes taken out");
        let mut cells = vec![0; table.len()];
        let copy = canonical_copy(table, all_kept(table), &mut cells).expect("accepted");
        assert_eq!(told(copy), expected, "{table:?}, copied");
    });
}

/// An exchange changes no set of four without the two labels. The two tips at the one end of a caterpillar with the two at
/// the other change all sets that hold either: with 78 tips that is a tenth of all sets or more, and with 79 less.
#[test]
fn caterpillars() {
    let mut random = Random::seeded(1880);
    for (n, all_in_tally_0) in [(4, false), (5, false), (24, false), (77, false), (78, false), (79, true), (256, true)]
    {
        let table = table(Shape::Caterpillar, n, &mut random);
        let (tallies, distances) = told(&table);
        let most = sets_of_four(n as u64) - sets_of_four(n as u64 - 2);
        assert_eq!(distances.iter().filter(|&&distance| distance == most).count(), 4, "{n} tips");
        assert_eq!(distances.into_iter().max(), Some(most), "{n} tips");
        assert_eq!(tallies[1..] == [0; 10], all_in_tally_0, "{n} tips");
    }
}

/// 256 tips and 1024 nodes: every exchange falls in tally 0, and so many cells as the library names are exactly enough.
#[test]
fn the_most_nodes() {
    let mut random = Random::seeded(1890);
    for shape in Shape::ALL {
        let long = chained(&table(shape, 256, &mut random), Chains::Anywhere, 1024, &mut random);
        assert_eq!(cells_of(&long), leskwyn::WORK_CELLS);
        cells_agree(&long, [32640, 0, 0, 0, 0, 0, 0, 0, 0, 0, 0], &mut random);
    }
}

const REPEATED: &[u16] = &[5, 6, 0, 0, 1, 1, 1, 1, 0, X, 1, 2, 3, 3];

/// Every rule broken, and then one after the other kept: each number has its turn.
#[test]
fn one_rule_after_the_other() {
    let mut random = Random::seeded(1900);
    for (table, cells, expected) in [
        (&[5][..], 0, 1),
        (&P[..17], 0, 4),
        (REPEATED, 0, 31),
        (P, 0, 9),
        (P, 48, 9),
        (P, 49, 0),
        (P, 50, 0),
        (TWO, 0, 9),
        (TWO, 1, 0),
    ] {
        let tallies = || tallied(table[0], Pairings::of(table).distances());
        let number = tallies_agree(table, cells, tallies, &mut random).err().unwrap_or(0);
        assert_eq!(number, expected, "{table:?} in {cells} cells");
    }
    for (table, two, expected) in [
        (&[5][..], [5, 5], 1),
        (&P[..17], [5, 5], 4),
        (REPEATED, [5, 5], 31),
        (REPEATED, [3, 3], 31),
        (P, [5, 5], 10),
        (P, [X, X], 10),
        (P, [0, 5], 10),
        (P, [4, X], 10),
        (P, [0, 0], 11),
        (P, [4, 4], 11),
        (P, [0, 4], 0),
    ] {
        let number = exchange_agrees(table, two, || Pairings::of(table).distance(two)).err().unwrap_or(0);
        assert_eq!(number, expected, "{two:?} of {table:?}");
    }
}

/// A table of n tips, in half of the cases with pass-through nodes, and in some spoiled; and the cells that it took before.
fn any_words(n: usize, random: &mut Random) -> (Vec<u16>, usize) {
    let bare = table(*random.pick(&Shape::ALL), n, random);
    let table = if random.chance(50) { any_chained(&bare, random) } else { bare };
    let cells = cells_of(&table);
    if random.chance(40) {
        return (damaged(&table, *random.pick(&NUMBERS), random), cells);
    }
    (table, cells)
}

/// The table's numbers and 9, or 10 and 11: the first that holds decides, whichever others do.
#[test]
fn the_order_of_numbers() {
    let mut random = Random::seeded(1910);
    let [mut of_tallies, mut of_labels] = [0; 2].map(|_| Met::default());
    for at in 0..12_000 {
        let n = if at % 100 == 0 { random.between(13, ENUMERATED) } else { random.between(2, 12) };
        let (table, cells) = any_words(n, &mut random);
        let few = random.below(cells);
        let lent = *random.pick(&[cells, cells + 3, cells - 1, few, 0]);
        let tallies = || tallied(table[0], Pairings::of(&table).distances());
        of_tallies.meet(tallies_agree(&table, lent, tallies, &mut random).err().unwrap_or(0));
        let mut label = || if random.chance(20) { random.between(n, 300) } else { random.below(n) } as u16;
        let (x, y) = (label(), label());
        let two = [x, if random.chance(20) { x } else { y }];
        of_labels.meet(exchange_agrees(&table, two, || Pairings::of(&table).distance(two)).err().unwrap_or(0));
    }
    of_tallies.at_least(200, NUMBERS.into_iter().chain([9, 0]));
    of_labels.at_least(200, NUMBERS.into_iter().chain([10, 11, 0]));
}

/// Large tables that are spoiled, or with too few cells: no cell changes.
#[test]
fn numbers_of_large_tables() {
    let mut random = Random::seeded(1920);
    let mut met = Met::default();
    for _ in 0..600 {
        let n = random.between(ENUMERATED + 1, 256);
        let (table, cells) = any_words(n, &mut random);
        let lent = if random.chance(50) { random.below(cells) } else { cells - 1 };
        met.meet(tallies_agree(&table, lent, || unreachable!("refused"), &mut random).err().unwrap_or(0));
    }
    met.at_least(20, NUMBERS.into_iter().chain([9]));
}
