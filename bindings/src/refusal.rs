//! Why a call is turned away.

use std::error::Error;
use std::fmt;
use std::num::NonZeroU16;

/// The number of the first rule that the input breaks. A refused call changes no lent cell.
///
/// ```
/// let refusal = leskwyn::check(&[5]).unwrap_err();
/// assert_eq!(refusal.number(), 1);
/// assert_eq!(refusal.to_string(), "refused 1: fewer than two words");
/// let repeated = leskwyn::check(&[3, 4, 0, 0, 1, 1, 0, leskwyn::INNER, 1, 1]).unwrap_err();
/// assert_eq!(repeated.to_string(), "refused 31: a label from 0 to n - 1 does not stand exactly once");
/// ```
#[derive(Clone, Copy, Debug, PartialEq, Eq, Hash)]
pub struct Refusal(NonZeroU16);

impl Refusal {
    /// The work is too short.
    pub(crate) const FEW_CELLS: Refusal = Refusal(NonZeroU16::new(9).unwrap());

    /// A file has an odd number of bytes.
    pub(crate) const ODD_BYTES: Refusal = Refusal(NonZeroU16::new(15).unwrap());

    /// The answer that stands beside the number, where that is 0; else the refusal.
    pub(crate) fn or<T>(number: u16, answer: T) -> Result<T, Refusal> {
        match NonZeroU16::new(number) {
            None => Ok(answer),
            Some(number) => Err(Refusal(number)),
        }
    }

    /// The number: 1 to 7 or 31 of a table or of the first of two; 101 to 107 or 131 of the second; 8 to 13; 15 of a file;
    /// 30 of a weight; 32 of marks; 33 or 34 of a changed mark; 35 or 36 of a copy; 37 of levels; 38 or 39 of a shelf.
    /// Where several rules are broken, 31 stands between 6 and 7, 131 between 106 and 107, 32 or 37 between 8 and 9, and
    /// 38 and 39 before 9.
    #[must_use]
    pub fn number(self) -> u16 {
        self.0.get()
    }

    /// The broken rule in words.
    #[must_use]
    pub fn reason(self) -> &'static str {
        match self.number() {
            1 | 101 => "fewer than two words",
            2 | 102 => "n is not 2 to 256",
            3 | 103 => "m is not n to 4n",
            4 | 104 => "the length is not 2 + 2m",
            5 | 105 => "a parent word breaks its rule",
            6 | 106 => "node 0's label is not 0, or a label is neither 65535 nor below n",
            31 | 131 => "a label from 0 to n - 1 does not stand exactly once",
            7 | 107 => "a tip other than node 0 has a child, or an inner node has none",
            8 => "the two n differ",
            9 => "the work has fewer than (m - 1)(m' - 1) cells",
            10 => "a label asked about is n or more, or hidden",
            11 => "two labels asked about are equal",
            12 => "the lent walk is shorter than n, or a re-rooted table's cells are fewer than 2 + 2m",
            13 => "the edge is 0, or m or more",
            15 => "an odd number of bytes",
            30 => "the weight's fraction is not k/256 with a k from 0 to 256",
            32 => "there are not n marks, or a mark is above 1",
            33 => "the label already is as wished",
            34 => "the counts do not add up to the sets of four kept labels, or a strike would overdraw a case",
            35 => "fewer than two labels are kept",
            36 => "the cells are fewer than the canonical copy has words",
            37 => "there are not n levels, or a level or the viewer's is above 3",
            38 => "the shelf has no word 0, or it is not 2 to 16",
            39 => "a tree of the shelf is refused, the n differ, or words are left over",
            _ => "a rule is broken",
        }
    }

    /// Whether the second of two tables is the one that is no tree.
    ///
    /// ```
    /// let star = [3, 4, 0, 0, 1, 1, 0, leskwyn::INNER, 1, 2];
    /// let repeated = [3, 4, 0, 0, 1, 1, 0, leskwyn::INNER, 1, 1];
    /// let refusal = leskwyn::work_cells(&star, &repeated).unwrap_err();
    /// assert_eq!((refusal.number(), refusal.is_of_second()), (131, true));
    /// ```
    #[must_use]
    pub fn is_of_second(self) -> bool {
        self.number() > 100
    }
}

impl fmt::Display for Refusal {
    fn fmt(&self, f: &mut fmt::Formatter<'_>) -> fmt::Result {
        write!(f, "refused {}: {}", self.number(), self.reason())
    }
}

impl Error for Refusal {}
