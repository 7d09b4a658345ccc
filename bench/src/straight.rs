//! The library's algorithm as a Rust programmer would write it, to be timed beside it: check, crossings row by row,
//! then every two inner nodes by the block of the crossings of their edges.

use leskwyn::QuartetTable;

use crate::reference::X;

/// The quartet table of the kept labels. Leaves their crossings in the work.
///
/// # Errors
///
/// The pair's number.
pub fn quartet_table(first: &[u16], second: &[u16], marks: &[u8], work: &mut [u8]) -> Result<QuartetTable, u16> {
    check(first)?;
    check(second).map_err(|number| 100 + number)?;
    if first[0] != second[0] {
        return Err(8);
    }
    if marks.len() != usize::from(first[0]) || marks.iter().any(|&mark| mark > 1) {
        return Err(32);
    }
    let (rows, width) = (usize::from(first[1]) - 1, usize::from(second[1]) - 1);
    let Some(work) = work.get_mut(..rows * width) else {
        return Err(9);
    };
    crossings(first, second, marks, work);
    let n = marks.iter().map(|&mark| u16::from(mark)).sum();
    let (ours, theirs) = (Nodes::of(parents(first)), Nodes::of(parents(second)));
    let mine = ours.claim_sum(n, |edge| work[edge * width]) / 2;
    let yours = theirs.claim_sum(n, |edge| work[edge]) / 2;
    let sums = pair_sums(work, width, n, &ours, &theirs);
    let (a, b) = (sums.same / 4, sums.different / 4);
    let (c, d) = (mine / 2 - a - b, yours / 2 - a - b);
    let n = u64::from(n);
    let all = if n < 4 { 0 } else { n * (n - 1) * (n - 2) * (n - 3) / 24 };
    Ok(QuartetTable { a, b, c, d, e: all - a - b - c - d, distance: b + c + d })
}

fn parents(table: &[u16]) -> &[u16] {
    &table[2..2 + usize::from(table[1])]
}

fn labels(table: &[u16]) -> &[u16] {
    &table[2 + usize::from(table[1])..]
}

fn check(table: &[u16]) -> Result<(), u16> {
    let &[n, m, ref arrays @ ..] = table else {
        return Err(1);
    };
    if !(2..=256).contains(&n) {
        return Err(2);
    }
    if m < n || m > 4 * n {
        return Err(3);
    }
    if arrays.len() != 2 * usize::from(m) {
        return Err(4);
    }
    let (parents, labels) = arrays.split_at(usize::from(m));
    let later = parents.iter().enumerate().skip(2);
    if parents[..2] != [0, 0] || later.clone().any(|(i, &p)| p < 1 || usize::from(p) >= i) {
        return Err(5);
    }
    if labels[0] != 0 {
        return Err(6);
    }
    let mut stands = [0u16; 256];
    for &label in labels.iter().filter(|&&label| label != X) {
        if label >= n {
            return Err(6);
        }
        stands[usize::from(label)] += 1;
    }
    if stands[..usize::from(n)].iter().any(|&count| count != 1) {
        return Err(31);
    }
    let mut children = [0u16; 1024];
    for (_, &p) in later {
        children[usize::from(p)] += 1;
    }
    // An inner node without a child, or a tip with one.
    let misplaced = |(&label, &count): (&u16, &u16)| (label == X) == (count == 0);
    if labels.iter().zip(&children).skip(1).any(misplaced) {
        return Err(7);
    }
    Ok(())
}

/// Where the tips beyond each edge stand in a walk of all tips but tip 0: the place of the first, and the one after the
/// last.
struct Spans {
    begins: Vec<u8>,
    ends: Vec<u8>,
}

impl Spans {
    fn of(table: &[u16]) -> Spans {
        let parents = parents(table);
        let mut sizes: Vec<u8> = labels(table).iter().map(|&label| u8::from(label != X)).collect();
        for (i, &p) in parents.iter().enumerate().skip(2).rev() {
            sizes[usize::from(p)] += sizes[i];
        }
        // A node begins where its parent has got to, and its parent goes on after it.
        let mut reached = vec![0; parents.len()];
        let mut spans = Spans { begins: Vec::new(), ends: Vec::new() };
        for (i, &p) in parents.iter().enumerate().skip(1) {
            let begin = reached[usize::from(p)];
            let end = begin + sizes[i];
            (reached[i], reached[usize::from(p)]) = (begin, end);
            spans.begins.push(begin);
            spans.ends.push(end);
        }
        spans
    }
}

/// A kept tip's row tells the spans that its place lies in, then each row is added to its parent's.
fn crossings(first: &[u16], second: &[u16], marks: &[u8], work: &mut [u8]) {
    let Spans { begins, ends } = Spans::of(second);
    let width = begins.len();
    let mut place_of = [0; 256];
    for (&label, &place) in labels(second)[1..].iter().zip(&begins).filter(|(&label, _)| label != X) {
        place_of[usize::from(label)] = place;
    }
    for (row, &label) in work.chunks_exact_mut(width).zip(&labels(first)[1..]) {
        if label == X || marks[usize::from(label)] == 0 {
            row.fill(0);
            continue;
        }
        let place = place_of[usize::from(label)];
        for ((cell, &begin), &end) in row.iter_mut().zip(&begins).zip(&ends) {
            *cell = u8::from(begin <= place) & u8::from(place < end);
        }
    }
    for (i, &p) in parents(first).iter().enumerate().skip(2).rev() {
        let (above, row) = work.split_at_mut((i - 1) * width);
        let above = &mut above[(usize::from(p) - 1) * width..][..width];
        above.iter_mut().zip(row).for_each(|(sum, &mut count)| *sum += count);
    }
}

/// The nodes of a tree, each as the list of its edges, its own first. Edge i stands as i - 1.
struct Nodes {
    starts: Vec<usize>,
    edges: Vec<usize>,
}

impl Nodes {
    fn of(parents: &[u16]) -> Nodes {
        let m = parents.len();
        let mut starts = vec![0; m + 1];
        for (i, &p) in parents.iter().enumerate().skip(1) {
            starts[usize::from(p) + 1] += 1;
            starts[i + 1] += 1;
        }
        for v in 0..m {
            starts[v + 1] += starts[v];
        }
        let mut next = starts.clone();
        let mut edges = vec![0; 2 * (m - 1)];
        for (i, &p) in parents.iter().enumerate().skip(1) {
            for v in [usize::from(p), i] {
                edges[next[v]] = i - 1;
                next[v] += 1;
            }
        }
        Nodes { starts, edges }
    }

    /// The edges of each node that has three or more; fewer make no claim.
    fn inner(&self) -> impl Iterator<Item = &[usize]> {
        self.starts.windows(2).map(|ends| &self.edges[ends[0]..ends[1]]).filter(|edges| edges.len() >= 3)
    }

    /// Twice S, from the sizes beyond the edges.
    fn claim_sum(&self, n: u16, size: impl Fn(usize) -> u8) -> u64 {
        let mut sum = 0;
        let mut sizes: Vec<u64> = Vec::new();
        for edges in self.inner() {
            sizes.clear();
            sizes.push(u64::from(n) - u64::from(size(edges[0])));
            sizes.extend(edges[1..].iter().map(|&edge| u64::from(size(edge))));
            let squares: u64 = sizes.iter().map(|s| s * s).sum();
            let whole = u64::from(n);
            for &s in sizes.iter().filter(|&&s| s > 1) {
                sum += s * (s - 1) / 2 * ((whole - s) * (whole - s) + s * s - squares);
            }
        }
        sum
    }
}

/// What two nodes add to twice S2, and to S3.
#[derive(Default)]
struct Sums {
    same: u64,
    different: u64,
}

fn pair_sums(work: &[u8], width: usize, n: u16, ours: &Nodes, theirs: &Nodes) -> Sums {
    let mut block = Block::default();
    let mut sums = Sums::default();
    let others: Vec<&[usize]> = theirs.inner().collect();
    for rows in ours.inner() {
        for &columns in &others {
            let pair = if let (&[r0, r1, r2], &[c0, c1, c2]) = (rows, columns) {
                nine(work, width, n, [r0, r1, r2], [c0, c1, c2])
            } else {
                block.fill(work, width, n, rows, columns);
                match (rows.len(), columns.len()) {
                    (3, len) => three(&block.cells, len, 1, len),
                    (len, 3) => three(&block.cells, 1, 3, len),
                    _ => block.sums(),
                }
            };
            sums.same += pair.same;
            sums.different += pair.different;
        }
    }
    sums
}

/// Two nodes with three edges each. A diagonal gives its product times its sum less three to S2, and its product times
/// the sum of the cells off it to S3.
#[inline]
fn nine(work: &[u8], width: usize, n: u16, [r0, r1, r2]: [usize; 3], [c0, c1, c2]: [usize; 3]) -> Sums {
    // SAFETY: the rows are edges of the first tree and the columns edges of the second, and the work has a cell for
    // each two of them.
    let at = |r: usize, c: usize| u64::from(unsafe { *work.get_unchecked(r * width + c) });
    let x = [u64::from(n) + at(r0, c0) - at(r0, 0) - at(0, c0), at(0, c1) - at(r0, c1), at(0, c2) - at(r0, c2)];
    let y = [at(r1, 0) - at(r1, c0), at(r1, c1), at(r1, c2)];
    let z = [at(r2, 0) - at(r2, c0), at(r2, c1), at(r2, c2)];
    let (mut products, mut weighed) = (0, 0);
    for [i, j, k] in [[0, 1, 2], [1, 2, 0], [2, 0, 1], [0, 2, 1], [1, 0, 2], [2, 1, 0]] {
        let product = x[i] * y[j] * z[k];
        products += product;
        weighed += product * (x[i] + y[j] + z[k]);
    }
    let all = x.iter().sum::<u64>() + y.iter().sum::<u64>() + z.iter().sum::<u64>();
    Sums { same: weighed - 3 * products, different: all * products - weighed }
}

/// The sums of one line and of its squares; of two or three lines the products of the cells at the same place, and these
/// times the sums of the cells.
#[derive(Default)]
struct Line {
    sum: u64,
    weighed: u64,
}

impl Line {
    fn add(&mut self, product: u64, weight: u64) {
        self.sum += product;
        self.weighed += product * weight;
    }
}

/// Two nodes with three edges at one of them: three lines of the block, which begin `gap` apart.
fn three(cells: &[u16], gap: usize, step: usize, len: usize) -> Sums {
    let [mut x, mut y, mut z, mut xy, mut xz, mut yz, mut all]: [Line; 7] = Default::default();
    for place in (0..len).map(|index| index * step) {
        let [a, b, c] = [place, place + gap, place + 2 * gap].map(|cell| u64::from(cells[cell]));
        x.add(a, a);
        y.add(b, b);
        z.add(c, c);
        xy.add(a * b, a + b);
        xz.add(a * c, a + c);
        yz.add(b * c, b + c);
        all.add(a * b * c, a + b + c);
    }
    let (u, v, w) = (y.sum * z.sum - yz.sum, x.sum * z.sum - xz.sum, x.sum * y.sum - xy.sum);
    let weighed = xy.weighed * z.sum + xz.weighed * y.sum + yz.weighed * x.sum;
    let beside = xy.sum * z.sum + xz.sum * y.sum + yz.sum * x.sum;
    let squares = x.weighed * u + y.weighed * v + z.weighed * w;
    let sums = x.sum * u + y.sum * v + z.sum * w;
    let hooks = xy.sum * (u + v) + xz.sum * (u + w) + yz.sum * (v + w);
    Sums {
        same: squares + 2 * (beside + all.weighed) - sums - weighed - 6 * all.sum,
        different: hooks + 4 * all.weighed - weighed - 2 * all.sum * (x.sum + y.sum + z.sum),
    }
}

/// The crossings of the edges of two nodes, and sums along its rows and columns.
#[derive(Default)]
struct Block {
    columns: usize,
    cells: Vec<u16>,
    row_sums: Vec<u64>,
    column_sums: Vec<u64>,
    down: Vec<u64>,
    along: Vec<u64>,
    dots: Vec<u64>,
}

impl Block {
    fn fill(&mut self, work: &[u8], width: usize, n: u16, rows: &[usize], columns: &[usize]) {
        self.columns = columns.len();
        self.cells.clear();
        let own = &work[rows[0] * width..][..width];
        let c0 = columns[0];
        self.cells.push(n + u16::from(own[c0]) - u16::from(own[0]) - u16::from(work[c0]));
        self.cells.extend(columns[1..].iter().map(|&c| u16::from(work[c] - own[c])));
        for &r in &rows[1..] {
            let row = &work[r * width..][..width];
            self.cells.push(u16::from(row[0] - row[c0]));
            self.cells.extend(columns[1..].iter().map(|&c| u16::from(row[c])));
        }
    }

    fn rows(&self) -> std::slice::ChunksExact<'_, u16> {
        self.cells.chunks_exact(self.columns)
    }

    fn sums(&mut self) -> Sums {
        let rectangles = self.rectangles();
        self.lines();
        let whole: u64 = self.row_sums.iter().sum();
        let squares: u64 = self.cells.iter().map(|&t| u64::from(t) * u64::from(t)).sum();
        let base: u64 = self.row_sums.iter().chain(&self.column_sums).map(|s| s * s).sum();
        let (mut pairs, mut plus, mut minus) = (0, 0, 0);
        for ((cells, &row), &along) in self.rows().zip(&self.row_sums).zip(&self.along) {
            for ((&t, &column), &down) in cells.iter().zip(&self.column_sums).zip(&self.down) {
                if t == 0 {
                    continue;
                }
                let t = u64::from(t);
                let (x, y, rest) = (row - t, column - t, whole + t - row - column);
                let around = rest * rest + t * t + x * x + y * y + squares + 2 * (down + along);
                pairs += t * (t - 1) / 2 * (around - base);
                plus += t * (rest * x * y + t * (x * x + y * y));
                minus += t * (x * down + y * along);
            }
        }
        Sums { same: pairs, different: plus + 2 * rectangles.0 - minus - 2 * rectangles.1 }
    }

    /// The sums of the rows and of the columns, and of each cell times the rest of its row or of its column.
    fn lines(&mut self) {
        self.row_sums.clear();
        self.column_sums.clear();
        self.column_sums.resize(self.columns, 0);
        for cells in self.cells.chunks_exact(self.columns) {
            self.row_sums.push(cells.iter().map(|&t| u64::from(t)).sum());
            self.column_sums.iter_mut().zip(cells).for_each(|(sum, &t)| *sum += u64::from(t));
        }
        self.along.clear();
        self.down.clear();
        self.down.resize(self.columns, 0);
        for (cells, &row) in self.cells.chunks_exact(self.columns).zip(&self.row_sums) {
            let mut along = 0;
            for ((&t, &column), down) in cells.iter().zip(&self.column_sums).zip(&mut self.down) {
                let t = u64::from(t);
                along += t * (column - t);
                *down += t * (row - t);
            }
            self.along.push(along);
        }
    }

    /// The squares of the dot products of every two rows, or of every two columns, whichever are fewer; and the
    /// squares of their terms. Empty cells are passed over.
    fn rectangles(&mut self) -> (u64, u64) {
        let (rows, columns) = (self.cells.len() / self.columns, self.columns);
        let (count, gap, len, step) =
            if rows <= columns { (rows, columns, columns, 1) } else { (columns, 1, rows, columns) };
        let (mut squares, mut terms) = (0, 0);
        for i in 0..count {
            self.dots.clear();
            self.dots.resize(i, 0);
            for a in 0..len {
                let t = u64::from(self.cells[i * gap + a * step]);
                if t == 0 {
                    continue;
                }
                let line = self.cells[a * step..].iter().step_by(gap);
                for (dot, &other) in self.dots.iter_mut().zip(line) {
                    let z = t * u64::from(other);
                    *dot += z;
                    terms += z * z;
                }
            }
            squares += self.dots.iter().map(|dot| dot * dot).sum::<u64>();
        }
        (squares, terms)
    }
}
