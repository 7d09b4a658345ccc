//! A label struck or restored, timed beside the quartet table, label after label.

use std::array;
use std::hint::black_box;
use std::time::{Duration, Instant};

use bench::straight;
use leskwyn::{FiveCounts, Wish};

use crate::timing::{bare_and_long, tables, MOST_TIPS, PAIRINGS};

/// The times of one pair of trees, in microseconds: of one change of a mark, and of the quartet table.
pub struct LabelTimes {
    pub name: &'static str,
    pub change: f64,
    pub quartets: f64,
}

/// How often each label has its turn.
const ROUNDS: usize = 9;

/// A pair of trees, all labels kept between two turns.
struct Course<'a> {
    first: &'a [u16],
    second: &'a [u16],
    marks: Vec<u8>,
    counts: FiveCounts,
    work: Vec<u8>,
}

impl<'a> Course<'a> {
    fn of(first: &'a [u16], second: &'a [u16]) -> Course<'a> {
        let marks = leskwyn::all_kept(first).to_vec();
        let mut work = vec![0; leskwyn::work_cells(first, second).expect("accepted tables")];
        let counts = leskwyn::quartet_table(first, second, &marks, &mut work).expect("accepted").into();
        Course { first, second, marks, counts, work }
    }

    fn changed(&mut self, counts: FiveCounts, label: u16, wish: Wish) -> FiveCounts {
        leskwyn::change_mark(self.first, self.second, &mut self.marks, counts, label, wish).expect("accepted")
    }

    /// The counts without a label are those of the straight method, and with it again those of all labels.
    fn check(&mut self, name: &str, label: u16) {
        let struck = self.changed(self.counts, label, Wish::Strike);
        let straight = straight::quartet_table(self.first, self.second, &self.marks, &mut self.work);
        assert_eq!(struck, straight.expect("accepted").into(), "{name} without {label}");
        assert_eq!(self.changed(struck, label, Wish::Restore), self.counts, "{name} with {label}");
    }

    /// A label's turn: half the time in which it is struck and restored, and the time of the quartet table.
    fn turn(&mut self, label: u16) -> [Duration; 2] {
        let start = Instant::now();
        let struck = self.changed(self.counts, label, Wish::Strike);
        black_box(self.changed(struck, label, Wish::Restore));
        let change = start.elapsed() / 2;
        let start = Instant::now();
        black_box(leskwyn::quartet_table(self.first, self.second, &self.marks, &mut self.work).expect("accepted"));
        [change, start.elapsed()]
    }
}

/// The mean over all labels, so that none is special, of each one's fastest turn: what else the machine does only adds
/// to a time.
fn timed(name: &'static str, [first, second]: [Vec<u16>; 2]) -> LabelTimes {
    let mut course = Course::of(&first, &second);
    (0..first[0]).for_each(|label| course.check(name, label));
    let mut fastest = vec![[Duration::MAX; 2]; usize::from(first[0])];
    for _ in 0..ROUNDS {
        for (label, least) in (0..).zip(&mut fastest) {
            let turn = course.turn(label);
            *least = array::from_fn(|i| least[i].min(turn[i]));
        }
    }
    let [change, quartets] = [0, 1].map(|i| {
        let sum: Duration = fastest.iter().map(|least| least[i]).sum();
        sum.as_secs_f64() * 1e6 / fastest.len() as f64
    });
    LabelTimes { name, change, quartets }
}

/// All pairings with the most tips, and two random binary trees with the most pass-through nodes besides.
pub fn measure() -> Vec<LabelTimes> {
    let [_, long] = bare_and_long();
    let bare = PAIRINGS.iter().map(|pairing| (pairing.name, tables(pairing, MOST_TIPS)));
    bare.chain([("random binary, m = 1024", long)]).map(|(name, pair)| timed(name, pair)).collect()
}
