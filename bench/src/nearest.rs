//! The tree of a shelf that is nearest to all, as docs/SPECIFICATION.md says it: the words are cut table by table, and each
//! sum is taken over all trees.

use leskwyn::Nearest;

use crate::enumerate::tree_refusal;

/// The shelf of some tables: how many they are, then one after the other.
pub fn shelf_of<T: AsRef<[u16]>>(tables: &[T]) -> Vec<u16> {
    let words = tables.iter().flat_map(|table| table.as_ref());
    [tables.len() as u16].iter().chain(words).copied().collect()
}

/// So many tables end to end, and the words after them. Each takes as many words as its word 1 tells, or all that are left.
pub fn cut(count: u16, words: &[u16]) -> (Vec<&[u16]>, &[u16]) {
    let (mut tables, mut left) = (Vec::new(), words);
    for _ in 0..count {
        let m = left.get(1).map_or(0, |&m| usize::from(m));
        let (table, others) = left.split_at(left.len().min(2 + 2 * m));
        tables.push(table);
        left = others;
    }
    (tables, left)
}

/// The tables of a shelf, or its number.
pub fn tables_of(shelf: &[u16]) -> Result<Vec<&[u16]>, u16> {
    let Some((count @ 2..=16, words)) = shelf.split_first() else {
        return Err(38);
    };
    let (tables, left) = cut(*count, words);
    let are_trees = tables.iter().all(|table| tree_refusal(table) == 0);
    if !are_trees || tables.iter().any(|table| table[0] != tables[0][0]) || !left.is_empty() {
        return Err(39);
    }
    Ok(tables)
}

/// As many cells as the largest of some accepted tables takes with itself.
pub fn cells_of(tables: &[&[u16]]) -> usize {
    tables.iter().map(|table| (usize::from(table[1]) - 1).pow(2)).max().expect("two trees or more")
}

/// The number of a shelf with so many cells, 0 for accepted.
pub fn nearest_refusal(shelf: &[u16], cells: usize) -> u16 {
    match tables_of(shelf) {
        Ok(tables) if cells < cells_of(&tables) => 9,
        Ok(_) => 0,
        Err(number) => number,
    }
}

/// For each of some accepted tables the sum of its quartet distances to all, by the five cases of each two.
pub fn sums(tables: &[&[u16]], cases: impl Fn(&[u16], &[u16]) -> [u64; 5]) -> Vec<u64> {
    let distance = |first: &[u16], second: &[u16]| {
        let [_, b, c, d, _] = cases(first, second);
        b + c + d
    };
    tables.iter().map(|first| tables.iter().map(|second| distance(first, second)).sum()).collect()
}

/// The earliest of the trees with the least sum.
pub fn least(sums: &[u64]) -> Nearest {
    let is_least = |sum: u64| sums.iter().all(|&other| sum <= other);
    let position = sums.iter().position(|&sum| is_least(sum)).expect("two trees or more");
    Nearest { position: position as u16, sum: sums[position] }
}

#[cfg(test)]
mod tests {
    use super::*;
    use crate::cubic;
    use crate::enumerate::{cases, Tree};
    use crate::reference::{P, Q, R, THREE, TWO, W, X};

    #[test]
    fn of_words() {
        assert_eq!(shelf_of(&[TWO, &[7]]), [2, 2, 2, 0, 0, 0, 1, 7]);
        assert_eq!(cut(2, &[5, 1, 6, 7, 8, 0, 9]), (vec![&[5, 1, 6, 7][..], &[8, 0]], &[9][..]));
        // The second tree has too few words, and there is no third.
        assert_eq!(cut(3, &[5, 0, 8, 1, 9]), (vec![&[5, 0][..], &[8, 1, 9], &[]], &[][..]));
        assert_eq!(cut(2, &[5, X, 8]), (vec![&[5, X, 8][..], &[]], &[][..]));
        assert_eq!(cut(1, &[5]), (vec![&[5][..]], &[][..]));
    }

    #[test]
    fn of_numbers() {
        assert_eq!(tables_of(&shelf_of(&[P, W])), Ok(vec![P, W]));
        assert_eq!([&[][..], &[1, 5], &[17], &[X]].map(tables_of), [(); 4].map(|()| Err(38)));
        let left_over = [shelf_of(&[P, W]), vec![0]].concat();
        let missing = [&[3], P, W].concat();
        for wrong in [&shelf_of(&[TWO, THREE]), &left_over, &missing, &shelf_of(&[P, &W[..13]])] {
            assert_eq!(tables_of(wrong), Err(39));
        }
        assert_eq!([48, 49].map(|cells| nearest_refusal(&shelf_of(&[W, P, Q]), cells)), [9, 0]);
    }

    /// The distances of P, Q, R and W are 2, 2, 5; 4, 3; 5.
    #[test]
    fn of_sums() {
        let tables = [P, Q, R, W];
        assert_eq!(sums(&tables, cubic::cases), [9, 9, 11, 13]);
        assert_eq!(sums(&tables, |first, second| cases(&Tree::of(first), &Tree::of(second))), [9, 9, 11, 13]);
        assert_eq!(least(&[9, 9, 11, 13]), Nearest { position: 0, sum: 9 });
        assert_eq!(least(&[11, 9, 13, 9]), Nearest { position: 1, sum: 9 });
    }
}
