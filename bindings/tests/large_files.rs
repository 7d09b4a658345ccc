//! Comparison files of more than the 1016 bytes that the proved program takes. That the listing of shorter ones is the
//! proved program's is for `bench/tests/comparison_files.rs`.

use leskwyn::file::{bytes, compare, listing};

/// What is printed of a file.
fn printed(bytes: &[u8]) -> String {
    listing(&compare(bytes))
}

/// A caterpillar of n tips, labelled along its length.
fn caterpillar(n: u16) -> Vec<u16> {
    let m = 2 * n - 2;
    // Inner nodes are the odd ones, each hanging from the one before it; a tip hangs from the node before it, and the
    // last node is a tip besides.
    let parents = (0..m).map(|i| match i {
        0 | 1 => 0,
        i if i % 2 == 0 => i - 1,
        i => i - 2,
    });
    let labels = (0..m).map(|i| match i {
        i if i == m - 1 => n - 1,
        i if i % 2 == 0 => i / 2,
        _ => leskwyn::INNER,
    });
    [n, m].into_iter().chain(parents).chain(labels).collect()
}

/// A caterpillar with itself: all sets of four, C(256, 4), and all of three without tip 0, C(255, 3), are alike.
#[test]
fn the_largest_trees() {
    let table = caterpillar(256);
    let expected = "leaves 256\nclaims 349585280 349585280 349585280 0\nquartets 174792640 0 0 0 0\ndistance 0\n\
                    splits 253 253 253 0\ntriplets 2731135 0 0 0 0\n";
    assert_eq!(printed(&bytes(&table, &table)), expected);
}

/// The same tree with a chain of so many pass-through nodes at node 1.
fn with_chain(table: &[u16], length: u16) -> Vec<u16> {
    let (n, m) = (table[0], table[1]);
    let (parents, labels) = table[2..].split_at(usize::from(m));
    // Node 0, the chain, and the other nodes with numbers that are greater by its length.
    let later = parents[1..].iter().map(|parent| parent + length);
    let parents = [0].into_iter().chain(0..length).chain(later);
    let inner = vec![leskwyn::INNER; usize::from(length)];
    let labels = [&labels[..1], &inner, &labels[1..]].concat();
    [n, m + length].into_iter().chain(parents).chain(labels).collect()
}

/// A caterpillar of 510 nodes with 514 pass-through nodes, and with one more.
#[test]
fn the_most_nodes() {
    let table = caterpillar(256);
    let (long, too_long) = (with_chain(&table, 514), with_chain(&table, 515));
    assert_eq!(leskwyn::work_cells(&long, &long), Ok(leskwyn::WORK_CELLS));
    let expected = printed(&bytes(&table, &table));
    assert!(expected.ends_with("\nsplits 253 253 253 0\ntriplets 2731135 0 0 0 0\n"));
    assert_eq!(printed(&bytes(&long, &long)), expected);
    assert_eq!(printed(&bytes(&long, &table)), expected);
    assert_eq!(printed(&bytes(&too_long, &table)), "refused 3\n");
    assert_eq!(printed(&bytes(&table, &too_long)), "refused 103\n");
}

/// Refused for what is in it: never 9, never 14.
#[test]
fn large_files_that_are_refused() {
    let table = caterpillar(256);
    let whole = bytes(&table, &table);
    let long = |words: usize| bytes(&table, &[table.clone(), vec![0; words]].concat());
    assert_eq!(printed(&whole[1..]), "refused 15\n");
    assert_eq!(printed(&whole[..whole.len() - 2]), "refused 104\n");
    assert_eq!(printed(&long(1)), "refused 104\n");
    assert_eq!(printed(&long(1_000_000)), "refused 104\n");
    assert_eq!(printed(&bytes(&table, &caterpillar(255))), "refused 8\n");
    let last = |label: u16| [&table[..table.len() - 1], &[label]].concat();
    assert_eq!(printed(&bytes(&last(256), &table)), "refused 6\n");
    assert_eq!(printed(&bytes(&last(0), &table)), "refused 31\n");
    assert_eq!(printed(&bytes(&table, &last(0))), "refused 131\n");
    assert_eq!(printed(&vec![255; 300_000]), "refused 2\n");
}
