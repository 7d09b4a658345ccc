//! The tree of a shelf that is nearest to all: every position and sum against enumerated sums, of larger trees against the
//! O(n^3) method and the quartet tables; equal sums; the cells before and after; shelves with a wrong number of trees, with
//! trees that break each rule in each place, with trees missing and words left over; and every number in its order.

use bench::agree::nearest_agrees;
use bench::cubic;
use bench::damage::{damaged, noise, Met, NUMBERS};
use bench::enumerate::{cases, tree_refusal, Tree};
use bench::exchanged::exchanged_table;
use bench::generate::{any_chained, chained, table, Chains, Graph, Numbering, Shape};
use bench::nearest::{cells_of, cut, least, shelf_of, sums, tables_of};
use bench::pass_through::taken_out;
use bench::random::Random;
use bench::reference::{P, Q, R, THREE, TWO, W, X};
use leskwyn::{all_kept, nearest, quartet_table, Nearest, WORK_CELLS};

/// The numbers of trees that a shelf may have.
const COUNTS: std::ops::RangeInclusive<usize> = 2..=16;

/// The sums of some accepted tables by enumeration. Up to 64 tips.
fn enumerated(tables: &[&[u16]]) -> Vec<u64> {
    sums(tables, |first, second| cases(&Tree::of(first), &Tree::of(second)))
}

/// The sums of some accepted tables by the library's quartet tables.
fn by_quartet_tables(tables: &[&[u16]]) -> Vec<u64> {
    let mut work = vec![0; cells_of(tables)];
    let mut distance = |first: &[u16], second: &[u16]| {
        quartet_table(first, second, all_kept(first), &mut work).expect("accepted").distance
    };
    tables.iter().map(|first| tables.iter().map(|second| distance(first, second)).sum()).collect()
}

/// Some tables as slices.
fn slices(tables: &[Vec<u16>]) -> Vec<&[u16]> {
    tables.iter().map(Vec::as_slice).collect()
}

/// The nearest of some accepted tables by their sums, in as many cells as they take, and in more, which stay. One less is
/// too few, and so are any fewer.
fn cells_agree(tables: &[&[u16]], sums: &[u64], random: &mut Random) -> Nearest {
    let (shelf, expected) = (shelf_of(tables), least(sums));
    let (cells, spare) = (cells_of(tables), random.between(1, 40));
    for (lent, number) in [(cells, 0), (cells + spare, 0), (cells - 1, 9), (random.below(cells), 9), (0, 9)] {
        let told = nearest_agrees(&shelf, lent, || expected, random);
        assert_eq!(told.err().unwrap_or(0), number, "{tables:?} in {lent} cells");
    }
    expected
}

/// Every two, three and four of P, Q, R and W in every order, the same one more than once too.
#[test]
fn reference_shelves() {
    let mut random = Random::seeded(2300);
    let tables = [P, Q, R, W];
    for count in 2..=4 {
        for code in 0..4_usize.pow(count) {
            let tables: Vec<&[u16]> = (0..count).map(|place| tables[code / 4_usize.pow(place) % 4]).collect();
            cells_agree(&tables, &enumerated(&tables), &mut random);
        }
    }
    // P and Q have the sum 9, R has 11, W has 13.
    assert_eq!(cells_agree(&[W, Q, R, P], &[13, 9, 11, 9], &mut random), Nearest { position: 1, sum: 9 });
    assert_eq!(cells_agree(&[W, P, R, Q], &[13, 9, 11, 9], &mut random), Nearest { position: 1, sum: 9 });
}

/// Trees of n tips in any numbering, some with pass-through nodes. Each is a tree of its own, or near another one, or the
/// same tree again, with another table or the same.
fn some_tables(count: usize, n: usize, random: &mut Random) -> Vec<Vec<u16>> {
    let kinds = random.between(1, 4);
    let mut trees = vec![Graph::of(*random.pick(&Shape::ALL), n, random)];
    let mut tables = vec![trees[0].table(*random.pick(&Numbering::ALL), random)];
    while tables.len() < count {
        let tree = match random.below(kinds) {
            0 => Graph::of(*random.pick(&Shape::ALL), n, random),
            1 => trees[trees.len() - 1].near_partner(random),
            _ => random.pick(&trees).clone(),
        };
        let bare = tree.table(*random.pick(&Numbering::ALL), random);
        tables.push(match random.below(4) {
            0 => any_chained(&bare, random),
            1 if kinds > 2 => random.pick(&tables).clone(),
            _ => bare,
        });
        trees.push(tree);
    }
    random.shuffle(&mut tables);
    tables
}

/// Shelves of each number of trees: with the nearest in several places, with equal sums, and with the largest tree first or
/// later.
#[test]
fn random_shelves() {
    let mut random = Random::seeded(2310);
    let [mut places, mut equals] = [0; 2].map(|_| Met::default());
    let [mut largest_first, mut largest_later] = [0; 2];
    for count in COUNTS.flat_map(|count| [count; 24]) {
        let n = if random.chance(10) { random.between(2, 20) } else { random.between(4, 9) };
        let tables = some_tables(count, n, &mut random);
        let tables = slices(&tables);
        let sums = enumerated(&tables);
        assert_eq!(by_quartet_tables(&tables), sums, "{tables:?}");
        let Nearest { position, sum } = cells_agree(&tables, &sums, &mut random);
        places.meet(position);
        equals.meet(sums.iter().filter(|&&other| other == sum).count().min(4) as u16);
        let most = tables.iter().map(|table| table[1]).max();
        *(if Some(tables[0][1]) == most { &mut largest_first } else { &mut largest_later }) += 1;
    }
    places.at_least(5, 0..=6);
    equals.at_least(20, 1..=4);
    assert!(largest_first >= 50 && largest_later >= 200, "{largest_first} and {largest_later}");
}

/// A tree among such as have two of its labels exchanged, other ones in each: it alone has the least sum, whichever place it
/// stands in.
#[test]
fn the_nearest_in_each_place() {
    let mut random = Random::seeded(2320);
    let middle = table(Shape::Caterpillar, 32, &mut random);
    let moved = (1..16).map(|at| exchanged_table(&middle, [2 * at, 2 * at + 1]));
    let tables: Vec<Vec<u16>> = [middle.clone()].into_iter().chain(moved).collect();
    for count in [3, 4, 7, 15, 16] {
        let mut tables = slices(&tables[..count]);
        let mut sums = sums(&tables, cubic::cases);
        assert!(sums[1..].iter().all(|&sum| sum > sums[0]), "{sums:?}");
        for place in 0..count {
            let told = cells_agree(&tables, &sums, &mut random);
            assert_eq!(usize::from(told.position), place, "{sums:?}");
            if place + 1 < count {
                tables.swap(place, place + 1);
                sums.swap(place, place + 1);
            }
        }
    }
}

/// One tree in every place: all sums are 0. Two trees by turns: all sums are equal, or those of the first kind are less.
#[test]
fn equal_trees() {
    let mut random = Random::seeded(2330);
    for count in COUNTS {
        let n = random.between(4, 12);
        let bare = table(*random.pick(&Shape::ALL), n, &mut random);
        let alike: Vec<Vec<u16>> = (0..count).map(|_| any_chained(&bare, &mut random)).collect();
        let told = cells_agree(&slices(&alike), &vec![0; count], &mut random);
        assert_eq!(told, Nearest { position: 0, sum: 0 });
        // P and W lie at 5 from each other. There are as many of both, or one P more.
        let by_turns: Vec<&[u16]> = (0..count).map(|at| [P, W][at % 2]).collect();
        let sums: Vec<u64> = (0..count).map(|at| 5 * ((count + at % 2) / 2) as u64).collect();
        assert_eq!(cells_agree(&by_turns, &sums, &mut random).position, 0, "{count} trees");
    }
}

/// No set of four: every sum is 0. The tables differ in pass-through nodes alone, or in the order of labels.
#[test]
fn two_and_three_tips() {
    let mut random = Random::seeded(2340);
    for (count, n) in COUNTS.flat_map(|count| [(count, 2), (count, 3)]) {
        let tables = some_tables(count, n, &mut random);
        let told = cells_agree(&slices(&tables), &vec![0; count], &mut random);
        assert_eq!(told, Nearest { position: 0, sum: 0 }, "{tables:?}");
    }
}

/// By the O(n^3) method, and by the quartet tables.
#[test]
fn larger_trees() {
    let mut random = Random::seeded(2350);
    for at in 0..10 {
        let n = random.between(25, 90);
        let tables = some_tables(2 + at % 4, n, &mut random);
        let tables = slices(&tables);
        let sums = sums(&tables, cubic::cases);
        assert_eq!(by_quartet_tables(&tables), sums, "{tables:?}");
        cells_agree(&tables, &sums, &mut random);
    }
}

/// 256 tips, with 1024 nodes in the first tree, in the last, or in the first two: so many cells as the library names are
/// exactly enough.
#[test]
fn the_most_nodes() {
    let mut random = Random::seeded(2360);
    for places in [&[0][..], &[2], &[0, 1]] {
        let tables: Vec<Vec<u16>> = (0..3)
            .map(|place| {
                let bare = table(*random.pick(&Shape::ALL), 256, &mut random);
                if places.contains(&place) {
                    chained(&bare, Chains::Anywhere, 1024, &mut random)
                } else {
                    bare
                }
            })
            .collect();
        let tables = slices(&tables);
        assert_eq!(cells_of(&tables), WORK_CELLS);
        let expected = least(&by_quartet_tables(&tables));
        let shelf = shelf_of(&tables);
        for (lent, number) in [(WORK_CELLS, 0), (WORK_CELLS - 1, 9)] {
            let told = nearest_agrees(&shelf, lent, || expected, &mut random);
            assert_eq!(told.err().unwrap_or(0), number, "{places:?} in {lent} cells");
        }
    }
}

/// 16 trees of 256 tips, most of them far from each other.
#[test]
fn the_most_trees() {
    let mut random = Random::seeded(2370);
    let shapes = [Shape::Binary, Shape::Caterpillar, Shape::Mixed, Shape::Star];
    let tables: Vec<Vec<u16>> = (0..16).map(|at| table(shapes[at % 4], 256, &mut random)).collect();
    let tables = slices(&tables);
    let expected = least(&by_quartet_tables(&tables));
    let told = nearest(&shelf_of(&tables), &mut vec![9; cells_of(&tables)]);
    assert_eq!(told, Ok(expected));
    assert!(expected.sum > 1 << 30, "{expected:?}");
}

/// The trees in another order have the same sums: the least one stays, and the earliest tree with it is told.
#[test]
fn other_orders() {
    let mut random = Random::seeded(2380);
    for count in COUNTS.flat_map(|count| [count; 8]) {
        let n = random.between(4, 30);
        let tables = some_tables(count, n, &mut random);
        let sums = by_quartet_tables(&slices(&tables));
        let mut order: Vec<usize> = (0..count).collect();
        random.shuffle(&mut order);
        let moved: Vec<&[u16]> = order.iter().map(|&at| tables[at].as_slice()).collect();
        let sums_moved: Vec<u64> = order.iter().map(|&at| sums[at]).collect();
        let told = cells_agree(&moved, &sums_moved, &mut random);
        assert_eq!(told.sum, least(&sums).sum, "{tables:?}");
    }
}

/// Pass-through nodes change the cells and nothing else.
#[test]
fn without_pass_through_nodes() {
    let mut random = Random::seeded(2390);
    let mut fewer = 0;
    for count in COUNTS.flat_map(|count| [count; 8]) {
        let n = random.between(4, 30);
        let tables = some_tables(count, n, &mut random);
        let bare: Vec<Vec<u16>> = tables.iter().map(|table| taken_out(table).table).collect();
        let [(with, cells), (without, few)] = [&tables, &bare].map(|tables| {
            let cells = cells_of(&slices(tables));
            (nearest(&shelf_of(tables), &mut vec![9; cells]), cells)
        });
        assert!(with.is_ok() && with == without, "{tables:?}");
        fewer += usize::from(few < cells);
    }
    assert!(fewer >= 50, "{fewer}");
}

/// A shelf that is refused, whatever cells are lent: no cell changes.
fn is_refused(shelf: &[u16], number: u16, random: &mut Random) {
    let cells = *random.pick(&[0, 1, 9, 49, 400, 3_000]);
    let told = nearest_agrees(shelf, cells, || unreachable!("refused"), random);
    assert_eq!(told, Err(number), "{shelf:?} in {cells} cells");
}

/// Every word 0: with nothing after it, with two trees, and with as many as it tells, up to 20.
#[test]
fn every_number_of_trees() {
    let mut random = Random::seeded(2400);
    is_refused(&[], 38, &mut random);
    for count in 0..=X {
        let is_right = COUNTS.contains(&usize::from(count));
        let number = if is_right { 39 } else { 38 };
        is_refused(&[count], number, &mut random);
        let two = [&[count], TWO, TWO].concat();
        let all = [vec![count], TWO.repeat(usize::from(count.min(20)))].concat();
        for (shelf, accepted) in [(&two, count == 2), (&all, is_right)] {
            if accepted {
                let told = nearest_agrees(shelf, 1, || Nearest { position: 0, sum: 0 }, &mut random);
                assert!(told.is_ok(), "{shelf:?}");
            } else {
                is_refused(shelf, number, &mut random);
            }
        }
    }
}

/// So many trees of n tips, without pass-through nodes in half of the cases.
fn any_tables(count: usize, n: usize, random: &mut Random) -> Vec<Vec<u16>> {
    let bare = |random: &mut Random| table(*random.pick(&Shape::ALL), n, random);
    let any = |random: &mut Random| if random.chance(50) { bare(random) } else { any_chained(&bare(random), random) };
    (0..count).map(|_| any(random)).collect()
}

/// A tree spoiled so that it has that number. Rules 1 and 4 take the end of the words.
fn spoiled(table: &[u16], number: u16, random: &mut Random) -> Vec<u16> {
    match number {
        1 => table[..random.below(2)].to_vec(),
        4 => table[..random.between(2, table.len() - 1)].to_vec(),
        _ => loop {
            let words = damaged(table, number, random);
            if tree_refusal(&words) == number {
                return words;
            }
        },
    }
}

/// Each rule broken by the tree in each place of shelves of each length, while those before it are trees; and by another
/// one besides.
#[test]
fn every_rule_in_every_place() {
    let mut random = Random::seeded(2410);
    for count in COUNTS {
        for (place, number) in (0..count).flat_map(|place| NUMBERS.map(|number| (place, number))) {
            let n = random.between(4, 9);
            let mut tables = any_tables(count, n, &mut random);
            tables[place] = spoiled(&tables[place], number, &mut random);
            if random.chance(20) && place + 1 < count {
                tables[place + 1] = damaged(&tables[place + 1], *random.pick(&NUMBERS), &mut random);
            }
            let mut shelf = shelf_of(&tables);
            if let 1 | 4 = number {
                shelf.truncate(1 + tables[..=place].concat().len());
            }
            let cut = cut(shelf[0], &shelf[1..]).0;
            let first = cut.iter().position(|table| tree_refusal(table) != 0);
            assert_eq!((first, tree_refusal(cut[place])), (Some(place), number), "{shelf:?}");
            is_refused(&shelf, 39, &mut random);
        }
    }
}

/// A tree with other tips in each place.
#[test]
fn every_other_n() {
    let mut random = Random::seeded(2420);
    for count in COUNTS {
        for place in 0..count {
            let (n, other) = *random.pick(&[(2, 3), (3, 2), (5, 4), (5, 6), (8, 16), (7, 2), (12, 40)]);
            let mut tables = any_tables(count, n, &mut random);
            tables[place] = any_tables(1, other, &mut random).remove(0);
            is_refused(&shelf_of(&tables), 39, &mut random);
        }
    }
    is_refused(&shelf_of(&[TWO, TWO, THREE]), 39, &mut random);
    is_refused(&shelf_of(&[TWO, THREE, THREE]), 39, &mut random);
}

/// Words after the last tree, one or more, or trees; and trees that are missing, or cut short by any number of words.
#[test]
fn too_many_words_and_too_few() {
    let mut random = Random::seeded(2430);
    for count in COUNTS {
        let n = random.between(4, 9);
        let tables = any_tables(count, n, &mut random);
        let shelf = shelf_of(&tables);
        for more in [1, 2, 3, 40] {
            is_refused(&[shelf.clone(), random.words(more)].concat(), 39, &mut random);
            is_refused(&[shelf.clone(), vec![0; more]].concat(), 39, &mut random);
        }
        is_refused(&[&shelf, &tables[0][..]].concat(), 39, &mut random);
        for other in COUNTS.filter(|&other| other != count) {
            is_refused(&[&[other as u16], &shelf[1..]].concat(), 39, &mut random);
        }
        (1..shelf.len()).for_each(|words| is_refused(&shelf[..words], 39, &mut random));
    }
}

/// An m that takes in the next tree, or more words than there are: none is taken for its low bits.
#[test]
fn every_m() {
    let mut random = Random::seeded(2440);
    for m in 0..=X {
        let mut shelf = shelf_of(&[P, W, P]);
        shelf[2] = m;
        let told = nearest_agrees(&shelf, 49, || least(&enumerated(&[P, W, P])), &mut random);
        assert_eq!(told.is_ok(), m == 8, "m of {m}");
    }
}

/// Tables of little plan end to end, some of them more than once.
#[test]
fn any_words() {
    let mut random = Random::seeded(2450);
    let mut met = Met::default();
    for _ in 0..20_000 {
        let mut tables = vec![noise(&mut random)];
        for _ in 0..random.between(0, 3) {
            tables.push(if random.chance(70) { random.pick(&tables).clone() } else { noise(&mut random) });
        }
        let mut shelf = shelf_of(&tables);
        if random.chance(10) {
            shelf[0] = random.word() % 20;
        }
        let cells = random.below(20);
        let found = || least(&enumerated(&tables_of(&shelf).expect("accepted")));
        met.meet(nearest_agrees(&shelf, cells, found, &mut random).err().unwrap_or(0));
    }
    met.at_least(50, [0, 9, 38, 39]);
}

/// 38, 39, 9: the first that holds decides, whichever others do.
#[test]
fn the_order_of_numbers() {
    let mut random = Random::seeded(2460);
    let mut met = Met::default();
    for _ in 0..8_000 {
        let (count, n) = (random.between(2, 5), random.between(3, 9));
        let mut tables = any_tables(count, n, &mut random);
        let enough = cells_of(&slices(&tables));
        if random.chance(20) {
            let place = random.below(count);
            tables[place] = damaged(&tables[place], *random.pick(&NUMBERS), &mut random);
        }
        if random.chance(10) {
            tables[random.below(count)] = table(*random.pick(&Shape::ALL), n - 1, &mut random);
        }
        let mut shelf = shelf_of(&tables);
        match random.below(20) {
            0 => shelf[0] = *random.pick(&[0, 1, 17, 256, X]),
            1 => shelf[0] = random.between(2, 16) as u16,
            2 => shelf.truncate(random.below(shelf.len())),
            3 => shelf.push(random.word()),
            _ => {}
        }
        let cells = if random.chance(50) { random.below(enough) } else { enough + random.below(3) };
        let found = || least(&enumerated(&tables_of(&shelf).expect("accepted")));
        met.meet(nearest_agrees(&shelf, cells, found, &mut random).err().unwrap_or(0));
    }
    met.at_least(200, [0, 9, 38, 39]);
}
