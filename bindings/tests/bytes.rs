//! The cells of the work are bytes, on trees whose crossings are plain. Random pairs are for `bench/tests/bytes.rs`.

use leskwyn::{claim_sums, crossings, quartet_table, split_counts, triplet_table, weighted_distance, work_cells};
use leskwyn::{Refusal, Weight, INNER, KEPT, STRUCK, WORK_CELLS};

/// n - 1 tips below a chain of inner nodes: all of them lie beyond the edges of the chain, and each beyond its own.
struct Fan {
    tips: u16,
    chain: u16,
}

impl Fan {
    /// Tips are labelled in rising order.
    fn table(&self) -> Vec<u16> {
        let Fan { tips, chain } = *self;
        let nodes = tips + chain;
        let parents = (0..nodes).map(|node| node.saturating_sub(1).min(chain));
        let labels = (0..nodes).map(|node| match node {
            0 => 0,
            inner if inner <= chain => INNER,
            tip => tip - chain,
        });
        [tips, nodes].into_iter().chain(parents).chain(labels).collect()
    }

    fn is_beyond(&self, edge: u16, label: u16) -> bool {
        label != 0 && (edge <= self.chain || edge - self.chain == label)
    }

    fn edges(&self) -> std::ops::Range<u16> {
        1..self.tips + self.chain
    }
}

/// How many kept labels lie beyond both edges, one label after another.
fn kept_crossings(first: &Fan, second: &Fan, marks: &[u8]) -> Vec<u8> {
    let width = second.edges().len();
    let mut cells = vec![0; first.edges().len() * width];
    for label in (0..first.tips).filter(|&label| marks[usize::from(label)] == KEPT) {
        for i in first.edges().filter(|&i| first.is_beyond(i, label)) {
            for j in second.edges().filter(|&j| second.is_beyond(j, label)) {
                cells[usize::from(i - 1) * width + usize::from(j - 1)] += 1;
            }
        }
    }
    cells
}

fn all_but(struck: &[usize]) -> [u8; 256] {
    let mut marks = [KEPT; 256];
    struck.iter().for_each(|&label| marks[label] = STRUCK);
    marks
}

fn none_but(kept: &[usize]) -> [u8; 256] {
    let mut marks = [STRUCK; 256];
    kept.iter().for_each(|&label| marks[label] = KEPT);
    marks
}

type Call = fn(&[u16], &[u16], &[u8], &mut [u8]) -> Result<(), Refusal>;

/// The calls that are lent work and take marks.
const CALLS: [Call; 5] = [
    crossings,
    |first, second, marks, work| claim_sums(first, second, marks, work).map(|_| ()),
    |first, second, marks, work| quartet_table(first, second, marks, work).map(|_| ()),
    |first, second, marks, work| split_counts(first, second, marks, work).map(|_| ()),
    |first, second, marks, work| weighted_distance(first, second, marks, work, Weight::Full).map(|_| ()),
];

/// Bytes that are unlike those beside them.
fn pattern(count: usize) -> Vec<u8> {
    (0..count).map(|i| (i * 7 + 3) as u8).collect()
}

/// Every call writes these crossings, and later bytes stay; the triplet table's are those of all labels.
fn cells_agree(first: &Fan, second: &Fan, marks: &[u8]) -> Vec<u8> {
    let (ours, theirs) = (first.table(), second.table());
    let cells = kept_crossings(first, second, marks);
    assert_eq!(work_cells(&ours, &theirs), Ok(cells.len()));
    let before = pattern(cells.len() + 300);
    for call in CALLS {
        let mut work = before.clone();
        assert_eq!(call(&ours, &theirs, marks, &mut work), Ok(()));
        assert!(work[..cells.len()] == cells, "{marks:?}");
        assert!(work[cells.len()..] == before[cells.len()..], "{marks:?}");
    }
    let mut work = before.clone();
    triplet_table(&ours, &theirs, &mut work).expect("accepted");
    assert!(work[..cells.len()] == kept_crossings(first, second, &vec![KEPT; marks.len()]));
    assert!(work[cells.len()..] == before[cells.len()..]);
    cells
}

/// The largest cell is 255, 254, 1 or 0, and stands where the edges of the two chains cross.
#[test]
fn largest_cells() {
    let marked = [
        (all_but(&[]), 255),
        (all_but(&[0]), 255),
        (all_but(&[7]), 254),
        (all_but(&[255]), 254),
        (all_but(&[0, 255]), 254),
        (none_but(&[0, 9]), 1),
        (none_but(&[255]), 1),
        (none_but(&[0]), 0),
    ];
    let [star, long] = [1, 5].map(|chain| Fan { tips: 256, chain });
    for (marks, most) in marked {
        for (first, second) in [(&star, &star), (&star, &long), (&long, &star)] {
            let cells = cells_agree(first, second, &marks);
            assert_eq!((cells[0], cells.iter().max()), (most, Some(&most)));
        }
    }
}

#[test]
fn largest_cells_of_fewer_tips() {
    for (tips, most) in [(255, 254), (254, 253), (3, 2), (2, 1)] {
        let [star, long] = [1, 3].map(|chain| Fan { tips, chain });
        let cells = cells_agree(&star, &long, &vec![KEPT; usize::from(tips)]);
        assert_eq!((cells[0], cells.iter().max()), (most, Some(&most)));
    }
    // Two tips and one edge: one cell.
    let mut work = [9; 2];
    crossings(&[2, 2, 0, 0, 0, 1], &[2, 2, 0, 0, 0, 1], &[1, 1], &mut work).expect("accepted");
    assert_eq!(work, [1, 9]);
}

/// Two trees of 1024 nodes, of which 768 make up the chain: as many bytes as the largest work has, and no byte fewer.
#[test]
fn the_most_cells() {
    let longest = Fan { tips: 256, chain: 768 };
    let table = longest.table();
    assert_eq!(work_cells(&table, &table), Ok(WORK_CELLS));
    let marks = all_but(&[]);
    let cells = cells_agree(&longest, &longest, &marks);
    assert_eq!(cells.iter().filter(|&&cell| cell == 255).count(), 768 * 768);
    let before = pattern(WORK_CELLS - 1);
    for call in CALLS {
        let mut work = before.clone();
        assert_eq!(call(&table, &table, &marks, &mut work).map_err(Refusal::number), Err(9));
        assert!(work == before);
    }
}
