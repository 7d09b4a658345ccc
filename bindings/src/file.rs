//! A comparison file: the words of two tree tables, one after the other, each word as two bytes, the lower first.

use std::fmt;

use crate::{all_kept, claim_sums, quartet_table, split_counts, triplet_table, work_cells};
use crate::{ClaimSums, QuartetTable, Refusal, SplitCounts, TripletTable};

/// What is printed of a comparison: six lines, or `refused N` for an error, by [`listing`].
#[derive(Clone, Copy, Debug, PartialEq, Eq)]
pub struct Figures {
    /// The tips, n.
    pub leaves: u16,
    pub claims: ClaimSums,
    pub quartets: QuartetTable,
    pub splits: SplitCounts,
    pub triplets: TripletTable,
}

impl fmt::Display for Figures {
    fn fmt(&self, f: &mut fmt::Formatter<'_>) -> fmt::Result {
        let ClaimSums { first, second, same, different } = self.claims;
        let QuartetTable { a, b, c, d, e, distance } = self.quartets;
        writeln!(f, "leaves {}", self.leaves)?;
        writeln!(f, "claims {first} {second} {same} {different}")?;
        writeln!(f, "quartets {a} {b} {c} {d} {e}")?;
        writeln!(f, "distance {distance}")?;
        let SplitCounts { first, second, common, distance } = self.splits;
        writeln!(f, "splits {first} {second} {common} {distance}")?;
        let TripletTable { a, b, c, d, e, .. } = self.triplets;
        writeln!(f, "triplets {a} {b} {c} {d} {e}")
    }
}

/// The bytes of a file with these tables.
///
/// ```
/// assert_eq!(leskwyn::file::bytes(&[2, 2], &[257]), [2, 0, 2, 0, 1, 1]);
/// ```
#[must_use]
pub fn bytes(first: &[u16], second: &[u16]) -> Vec<u8> {
    first.iter().chain(second).flat_map(|word| word.to_le_bytes()).collect()
}

/// The words of a file.
///
/// ```
/// assert_eq!(leskwyn::file::words(&[2, 0, 1, 1]), Ok(vec![2, 257]));
/// assert_eq!(leskwyn::file::words(&[2]).unwrap_err().number(), 15);
/// ```
///
/// # Errors
///
/// 15 for an odd number of bytes.
pub fn words(bytes: &[u8]) -> Result<Vec<u16>, Refusal> {
    if bytes.len() % 2 == 1 {
        return Err(Refusal::ODD_BYTES);
    }
    Ok(bytes.chunks_exact(2).map(|pair| u16::from_le_bytes([pair[0], pair[1]])).collect())
}

/// Cuts a file's words in two. The first table takes 2 + 2m words by its own word 1, or every word present if there
/// are fewer than that, or fewer than two; the second takes the rest.
///
/// ```
/// let (first, second) = leskwyn::file::cut(&[2, 1, 7, 8, 5, 6]);
/// assert_eq!((first, second), (&[2, 1, 7, 8][..], &[5, 6][..]));
/// ```
#[must_use]
pub fn cut(words: &[u16]) -> (&[u16], &[u16]) {
    let whole = words.get(1).map_or(words.len(), |&m| 2 + 2 * usize::from(m));
    words.split_at(whole.min(words.len()))
}

/// Compares two tree tables, all labels kept, with as many work cells as they take.
///
/// # Errors
///
/// By the pair's order. The work is lent from here, so that 9 does not occur.
pub fn compare_tables(first: &[u16], second: &[u16]) -> Result<Figures, Refusal> {
    let mut work = vec![0; work_cells(first, second)?];
    let marks = all_kept(first);
    let claims = claim_sums(first, second, marks, &mut work)?;
    let quartets = quartet_table(first, second, marks, &mut work)?;
    let splits = split_counts(first, second, marks, &mut work)?;
    let triplets = triplet_table(first, second, &mut work)?;
    Ok(Figures { leaves: first[0], claims, quartets, splits, triplets })
}

/// Compares the two tables of a file of any length.
///
/// # Errors
///
/// 15, then by the pair's order without 9.
pub fn compare(bytes: &[u8]) -> Result<Figures, Refusal> {
    let words = words(bytes)?;
    let (first, second) = cut(&words);
    compare_tables(first, second)
}

/// The six lines of a comparison, or the one line of a refusal.
///
/// ```
/// use leskwyn::file::{compare, listing};
/// assert_eq!(listing(&compare(&[])), "refused 1\n");
/// ```
#[must_use]
pub fn listing(answer: &Result<Figures, Refusal>) -> String {
    match answer {
        Ok(figures) => figures.to_string(),
        Err(refusal) => format!("refused {}\n", refusal.number()),
    }
}
