//! One label struck or restored, as docs/SPECIFICATION.md says it: the first broken rule, or the counts without the
//! sets of four that hold the label, or with them.

use std::array;

use crate::enumerate::{self, Tips, Tree};

/// Two tables, marks and a label that is asked about, whatever their words.
#[derive(Clone, Copy, Debug)]
pub struct OneLabel<'a> {
    pub first: &'a [u16],
    pub second: &'a [u16],
    pub marks: &'a [u8],
    pub label: u16,
}

impl OneLabel<'_> {
    /// The number, 0 for accepted. No work is lent, so 9 is not asked.
    pub fn refusal(&self) -> u16 {
        match enumerate::marked_refusal(self.first, self.second, self.marks, usize::MAX) {
            0 if self.label >= self.first[0] => 10,
            number => number,
        }
    }

    /// The five cases of the sets of four that hold the label, by the enumerator. Up to 64 tips.
    pub fn held(&self) -> [u64; 5] {
        let [ours, theirs] = [self.first, self.second].map(Tree::of);
        enumerate::held_cases(&ours, &theirs, Tips::kept(self.marks), self.label)
    }

    /// The marks, but for the label's own, which is that one.
    pub fn marks_with(&self, mark: u8) -> Vec<u8> {
        let mut marks = self.marks.to_vec();
        marks[usize::from(self.label)] = mark;
        marks
    }

    /// How many sets of four kept labels there are.
    pub fn sets_of_four(&self) -> u64 {
        enumerate::sets_of_four(self.marks.iter().filter(|&&mark| mark == 1).count() as u64)
    }
}

/// The mark that a label is to get, and the counts under the marks as they are.
#[derive(Clone, Copy, Debug)]
pub struct Change<'a> {
    pub asked: OneLabel<'a>,
    pub counts: [u64; 5],
    pub mark: u16,
}

impl Change<'_> {
    /// The counts under the new marks, or the number. `held` tells the cases of the sets of four that hold the label.
    pub fn answer(&self, held: impl FnOnce() -> [u64; 5]) -> Result<[u64; 5], u16> {
        let Change { asked, counts, mark } = *self;
        match asked.refusal() {
            0 | 10 if mark > 1 => return Err(32),
            0 => {}
            number => return Err(number),
        }
        if u16::from(asked.marks[usize::from(asked.label)]) == mark {
            return Err(33);
        }
        if counts.into_iter().map(u128::from).sum::<u128>() != u128::from(asked.sets_of_four()) {
            return Err(34);
        }
        let held = held();
        if mark == 1 {
            return Ok(array::from_fn(|case| counts[case] + held[case]));
        }
        if (0..5).any(|case| held[case] > counts[case]) {
            return Err(34);
        }
        Ok(array::from_fn(|case| counts[case] - held[case]))
    }

    /// The marks after an accepted call.
    pub fn new_marks(&self) -> Vec<u8> {
        self.asked.marks_with(self.mark as u8)
    }
}

#[cfg(test)]
mod tests {
    use super::*;
    use crate::reference::{P, Q};

    /// P has a butterfly wherever Q has one, and for 0 2 3 4 and 1 2 3 4 besides.
    #[test]
    fn of_p_and_q() {
        let held = |marks: &[u8], label| OneLabel { first: P, second: Q, marks, label }.held();
        let of_all = [[3, 0, 1, 0, 0], [3, 0, 1, 0, 0], [2, 0, 2, 0, 0], [2, 0, 2, 0, 0], [2, 0, 2, 0, 0]];
        assert_eq!([0, 1, 2, 3, 4].map(|label| held(&[1; 5], label)), of_all);
        let without_2 = &[1, 1, 0, 1, 1];
        assert_eq!([held(without_2, 0), held(without_2, 2)], [[1, 0, 0, 0, 0], of_all[2]]);
        assert_eq!(held(&[0, 0, 1, 1, 1], 3), [0; 5]);
    }

    #[test]
    fn of_counts_that_overdraw() {
        let strike = |counts, label| {
            let asked = OneLabel { first: P, second: Q, marks: &[1; 5], label };
            Change { asked, counts, mark: 0 }.answer(|| asked.held())
        };
        assert_eq!(strike([3, 0, 2, 0, 0], 0), Ok([0, 0, 1, 0, 0]));
        assert_eq!(strike([3, 1, 1, 0, 0], 0), Ok([0, 1, 0, 0, 0]));
        assert_eq!([strike([3, 1, 1, 0, 0], 4), strike([4, 0, 2, 0, 0], 0)], [Err(34); 2]);
        assert_eq!(strike([u64::MAX, 6, 0, 0, 0], 0), Err(34));
    }
}
