//! Seeded trees of many shapes, and the tables of them, without pass-through nodes and with them.

use crate::random::Random;
use crate::reference::X;
use crate::viewed::Levels;

#[derive(Clone, Copy, Debug, PartialEq, Eq)]
pub enum Shape {
    Binary,
    Caterpillar,
    Balanced,
    Star,
    Mixed,
    Contracted,
    /// Every inner node has degree four, but for one where n is odd.
    Fours,
}

impl Shape {
    pub const ALL: [Shape; 7] = [
        Shape::Binary,
        Shape::Caterpillar,
        Shape::Balanced,
        Shape::Star,
        Shape::Mixed,
        Shape::Contracted,
        Shape::Fours,
    ];
}

/// The order in which a table numbers the nodes. A parent always comes before its children.
#[derive(Clone, Copy, Debug, PartialEq, Eq)]
pub enum Numbering {
    DepthFirst,
    BreadthFirst,
    Any,
}

impl Numbering {
    pub const ALL: [Numbering; 3] = [Numbering::DepthFirst, Numbering::BreadthFirst, Numbering::Any];
}

/// The edges that get pass-through nodes.
#[derive(Clone, Copy, Debug, PartialEq, Eq)]
pub enum Chains {
    /// Above tips other than tip 0.
    AboveTips,
    /// Above inner nodes.
    AboveInner,
    /// On the edge of tip 0, so that node 1 is a pass-through node.
    AtNodeOne,
    Anywhere,
}

impl Chains {
    pub const ALL: [Chains; 4] = [Chains::AboveTips, Chains::AboveInner, Chains::AtNodeOne, Chains::Anywhere];
}

/// A tree without a root: the neighbours of each node, and the node of each label. A node without neighbours is no
/// part of it.
#[derive(Clone, Debug)]
pub struct Graph {
    near: Vec<Vec<usize>>,
    tips: Vec<usize>,
}

impl Graph {
    /// A tree of that shape with n tips, labelled at random.
    pub fn of(shape: Shape, n: usize, random: &mut Random) -> Graph {
        let mut graph = match shape {
            Shape::Binary => Graph::grown(n, 0, random),
            Shape::Caterpillar => Graph::caterpillar(n),
            Shape::Balanced => Graph::balanced(n),
            Shape::Star => Graph::star(n),
            Shape::Mixed => Graph::grown(n, 50, random),
            Shape::Contracted => Graph::contracted(n, random),
            Shape::Fours => Graph::fours(n, random),
        };
        random.shuffle(&mut graph.tips);
        graph
    }

    /// The tree of an accepted table.
    #[must_use]
    pub fn of_table(table: &[u16]) -> Graph {
        let (n, m) = (usize::from(table[0]), usize::from(table[1]));
        let (parents, labels) = table[2..].split_at(m);
        let node_of = |label: usize| labels.iter().position(|&word| usize::from(word) == label).expect("it stands");
        let mut graph = Graph { near: vec![Vec::new(); m], tips: (0..n).map(node_of).collect() };
        (1..m).for_each(|node| graph.join(node, usize::from(parents[node])));
        graph
    }

    fn empty() -> Graph {
        Graph { near: Vec::new(), tips: Vec::new() }
    }

    fn inner(&mut self) -> usize {
        self.near.push(Vec::new());
        self.near.len() - 1
    }

    fn tip(&mut self) -> usize {
        let node = self.inner();
        self.tips.push(node);
        node
    }

    fn join(&mut self, a: usize, b: usize) {
        self.near[a].push(b);
        self.near[b].push(a);
    }

    fn part(&mut self, a: usize, b: usize) {
        self.near[a].retain(|&node| node != b);
        self.near[b].retain(|&node| node != a);
    }

    fn tip_at(&mut self, node: usize) {
        let tip = self.tip();
        self.join(tip, node);
    }

    /// A new inner node in the midst of an edge.
    fn midst(&mut self, (a, b): (usize, usize)) -> usize {
        let node = self.inner();
        self.part(a, b);
        self.join(a, node);
        self.join(node, b);
        node
    }

    fn edges(&self) -> Vec<(usize, usize)> {
        let beside = |a: usize| self.near[a].iter().map(move |&b| (a, b));
        (0..self.near.len()).flat_map(beside).filter(|(a, b)| a < b).collect()
    }

    fn inner_nodes(&self) -> Vec<usize> {
        (0..self.near.len()).filter(|&node| self.near[node].len() >= 3).collect()
    }

    fn star(n: usize) -> Graph {
        let mut graph = Graph::empty();
        if n == 2 {
            let (a, b) = (graph.tip(), graph.tip());
            graph.join(a, b);
            return graph;
        }
        let middle = graph.inner();
        (0..n).for_each(|_| graph.tip_at(middle));
        graph
    }

    /// Every tree with n tips, each once: it comes from one tree with a tip less.
    #[must_use]
    pub fn every(n: usize) -> Vec<Graph> {
        if n == 2 {
            return vec![Graph::star(2)];
        }
        Graph::every(n - 1).iter().flat_map(Graph::with_one_more_tip).collect()
    }

    /// The trees in which one more tip hangs at an inner node, or from the midst of an edge.
    fn with_one_more_tip(&self) -> Vec<Graph> {
        let mut found = Vec::new();
        for node in self.inner_nodes() {
            let mut graph = self.clone();
            graph.tip_at(node);
            found.push(graph);
        }
        for edge in self.edges() {
            let mut graph = self.clone();
            let node = graph.midst(edge);
            graph.tip_at(node);
            found.push(graph);
        }
        found
    }

    fn caterpillar(n: usize) -> Graph {
        if n <= 3 {
            return Graph::star(n);
        }
        let mut graph = Graph::empty();
        let spine: Vec<usize> = (0..n - 2).map(|_| graph.inner()).collect();
        for ends in spine.windows(2) {
            graph.join(ends[0], ends[1]);
        }
        let ends = [spine[0], spine[n - 3]];
        spine.into_iter().chain(ends).for_each(|node| graph.tip_at(node));
        graph
    }

    fn balanced(n: usize) -> Graph {
        let mut graph = Graph::empty();
        let (a, b) = (graph.halves(n / 2), graph.halves(n - n / 2));
        graph.join(a, b);
        graph
    }

    /// A balanced tree hanging from the node that is handed back.
    fn halves(&mut self, tips: usize) -> usize {
        if tips == 1 {
            return self.tip();
        }
        let (a, b) = (self.halves(tips / 2), self.halves(tips - tips / 2));
        let node = self.inner();
        self.join(node, a);
        self.join(node, b);
        node
    }

    /// Tip after tip, each at an inner node in `percent` of a hundred cases, else in the midst of an edge.
    fn grown(n: usize, percent: usize, random: &mut Random) -> Graph {
        let mut graph = Graph::star(n.min(3));
        for _ in 3..n {
            let node = graph.place(percent, random);
            graph.tip_at(node);
        }
        graph
    }

    /// Two tips after two tips, each time in the midst of an edge.
    fn fours(n: usize, random: &mut Random) -> Graph {
        let mut graph = Graph::star(n.min(4));
        while graph.tips.len() < n {
            let node = graph.place(0, random);
            let missing = n - graph.tips.len();
            (0..missing.min(2)).for_each(|_| graph.tip_at(node));
        }
        graph
    }

    fn place(&mut self, percent: usize, random: &mut Random) -> usize {
        if random.chance(percent) {
            return *random.pick(&self.inner_nodes());
        }
        let edge = *random.pick(&self.edges());
        self.midst(edge)
    }

    fn contracted(n: usize, random: &mut Random) -> Graph {
        let mut graph = Graph::grown(n, 0, random);
        let percent = random.between(10, 90);
        for _ in 0..n {
            if random.chance(percent) {
                graph.contract(random);
            }
        }
        graph
    }

    /// Some inner edge, if there is one, becomes a node.
    pub fn contract(&mut self, random: &mut Random) {
        let is_inner = |node: usize| self.near[node].len() >= 3;
        let inner: Vec<_> = self.edges().into_iter().filter(|&(a, b)| is_inner(a) && is_inner(b)).collect();
        if inner.is_empty() {
            return;
        }
        let (stays, goes) = *random.pick(&inner);
        self.part(stays, goes);
        for node in self.near[goes].clone() {
            self.part(goes, node);
            self.join(stays, node);
        }
    }

    /// Some tip moves elsewhere.
    fn move_tip(&mut self, random: &mut Random) {
        if self.tips.len() <= 3 {
            return;
        }
        let tip = *random.pick(&self.tips);
        let node = self.near[tip][0];
        self.part(tip, node);
        if self.near[node].len() == 2 {
            let (a, b) = (self.near[node][0], self.near[node][1]);
            self.part(node, a);
            self.part(node, b);
            self.join(a, b);
        }
        // Only edges and nodes of what is left: the tip itself has no neighbour.
        let place = self.place(30, random);
        self.join(tip, place);
    }

    /// A tree with a label for each mark, which without its struck labels is this one: each struck one gets a tip at an
    /// inner node or in the midst of an edge.
    #[must_use]
    pub fn with_struck_tips(&self, marks: &[u8], random: &mut Random) -> Graph {
        let mut graph = self.clone();
        for _ in self.tips.len()..marks.len() {
            let percent = if graph.inner_nodes().is_empty() { 0 } else { 40 };
            let node = graph.place(percent, random);
            graph.tip_at(node);
        }
        let (kept, struck) = graph.tips.split_at(self.tips.len());
        let (mut kept, mut struck) = (kept.iter(), struck.iter());
        let tip = |&mark: &u8| if mark == 1 { kept.next() } else { struck.next() };
        graph.tips = marks.iter().filter_map(tip).copied().collect();
        graph
    }

    /// How many nodes the table has.
    #[must_use]
    pub fn nodes(&self) -> usize {
        self.near.iter().filter(|near| !near.is_empty()).count()
    }

    /// The edges, each with the end on tip 0's side first.
    #[must_use]
    pub fn edges_down(&self) -> Vec<(usize, usize)> {
        let mut found: Vec<(usize, usize)> = Vec::new();
        let mut waiting = vec![(self.tips[0], usize::MAX)];
        while let Some((node, above)) = waiting.pop() {
            let below = self.near[node].iter().filter(|&&next| next != above);
            let edges: Vec<(usize, usize)> = below.map(|&next| (node, next)).collect();
            waiting.extend(edges.iter().map(|&(node, next)| (next, node)));
            found.extend(edges);
        }
        found
    }

    /// The edges that may get pass-through nodes; all of them where none is of that kind.
    fn places(&self, chains: Chains) -> Vec<(usize, usize)> {
        let edges = self.edges_down();
        let is_of_kind = |&(above, below): &(usize, usize)| match chains {
            Chains::AboveTips => self.tips.contains(&below),
            Chains::AboveInner => self.near[below].len() >= 3,
            Chains::AtNodeOne => above == self.tips[0],
            Chains::Anywhere => true,
        };
        let places: Vec<(usize, usize)> = edges.iter().copied().filter(is_of_kind).collect();
        if places.is_empty() {
            edges
        } else {
            places
        }
    }

    /// The tree with that many pass-through nodes in the midst of an edge.
    #[must_use]
    pub fn with_chain(&self, (above, below): (usize, usize), length: usize) -> Graph {
        let mut graph = self.clone();
        (0..length).fold(below, |lowest, _| graph.midst((above, lowest)));
        graph
    }

    /// The tree with so many nodes: what it lacks is put in as pass-through nodes, on some of the edges of that kind.
    #[must_use]
    pub fn with_chains(&self, chains: Chains, nodes: usize, random: &mut Random) -> Graph {
        let mut places = self.places(chains);
        random.shuffle(&mut places);
        places.truncate(random.between(1, places.len()));
        let mut lengths = vec![0; places.len()];
        for _ in self.nodes()..nodes {
            lengths[random.below(places.len())] += 1;
        }
        places.into_iter().zip(lengths).fold(self.clone(), |graph, (place, length)| graph.with_chain(place, length))
    }

    /// A tree that differs in a few places: tips moved, labels exchanged, edges contracted.
    #[must_use]
    pub fn near_partner(&self, random: &mut Random) -> Graph {
        let mut partner = self.clone();
        for _ in 0..random.between(0, 3) {
            match random.below(3) {
                0 => partner.move_tip(random),
                1 => {
                    let (a, b) = (random.below(self.tips.len()), random.below(self.tips.len()));
                    partner.tips.swap(a, b);
                }
                _ => partner.contract(random),
            }
        }
        partner
    }

    /// The table, with the nodes in that order.
    pub fn table(&self, numbering: Numbering, random: &mut Random) -> Vec<u16> {
        let mut label_of = vec![X; self.near.len()];
        for (label, &node) in self.tips.iter().enumerate() {
            label_of[node] = label as u16;
        }
        let (mut parents, mut labels) = (Vec::new(), Vec::new());
        // Nodes to be numbered: the node, the one it hangs from, and that one's number.
        let mut waiting = vec![(self.tips[0], usize::MAX, 0)];
        while !waiting.is_empty() {
            let at = match numbering {
                Numbering::DepthFirst => waiting.len() - 1,
                Numbering::BreadthFirst => 0,
                Numbering::Any => random.below(waiting.len()),
            };
            let (node, above, parent) = waiting.remove(at);
            let number = parents.len();
            parents.push(parent as u16);
            labels.push(label_of[node]);
            let below = self.near[node].iter().filter(|&&next| next != above);
            waiting.extend(below.map(|&next| (next, node, number)));
        }
        let head = [self.tips.len() as u16, parents.len() as u16];
        [&head[..], &parents, &labels].concat()
    }
}

/// How many labels marks keep, whichever they are.
#[derive(Clone, Copy, Debug, PartialEq, Eq)]
pub enum Kept {
    None,
    One,
    /// Up to seven.
    Few,
    /// Each by chance.
    Half,
    AllButOne,
    All,
}

impl Kept {
    pub const ALL: [Kept; 6] = [Kept::None, Kept::One, Kept::Few, Kept::Half, Kept::AllButOne, Kept::All];
}

/// Marks of n labels that keep so many of them.
pub fn marks(kept: Kept, n: usize, random: &mut Random) -> Vec<u8> {
    let count = match kept {
        Kept::None => 0,
        Kept::One => 1,
        Kept::Few => random.between(2, 7).min(n),
        Kept::Half => (0..n).filter(|_| random.chance(50)).count(),
        Kept::AllButOne => n - 1,
        Kept::All => n,
    };
    let mut marks: Vec<u8> = (0..n).map(|label| u8::from(label < count)).collect();
    random.shuffle(&mut marks);
    marks
}

/// Marks of n labels that keep any of them.
pub fn any_marks(n: usize, random: &mut Random) -> Vec<u8> {
    let kept = *random.pick(&Kept::ALL);
    marks(kept, n, random)
}

/// All marks of n labels.
pub fn every_marks(n: usize) -> impl Iterator<Item = Vec<u8>> {
    (0..1_u32 << n).map(move |bits| (0..n).map(|label| (bits >> label & 1) as u8).collect())
}

/// Bytes that are no marks of n labels: too few, too many, or one above 1.
pub fn wrong_marks(n: usize, random: &mut Random) -> Vec<u8> {
    let mut marks = any_marks(n, random);
    match random.below(4) {
        0 => marks.truncate(random.below(n)),
        1 => marks.extend((0..random.between(1, 300)).map(|_| 1)),
        2 => marks[random.below(n)] = random.between(2, 255) as u8,
        _ => marks[random.below(n)] = *random.pick(&[2, 3, 128, 254, 255]),
    }
    marks
}

/// Levels and a viewer who sees exactly the labels that marks keep. One of level 3 sees all.
pub fn levels(marks: &[u8], random: &mut Random) -> Levels {
    let viewer = random.between(0, if marks.contains(&0) { 2 } else { 3 });
    let level = |&mark: &u8| if mark == 1 { random.between(0, viewer) } else { random.between(viewer + 1, 3) };
    Levels { of_labels: marks.iter().map(level).map(|level| level as u8).collect(), viewer: viewer as u16 }
}

/// Levels of n labels and a viewer, whoever sees whatever.
pub fn any_levels(n: usize, random: &mut Random) -> Levels {
    levels(&any_marks(n, random), random)
}

/// Bytes that are no levels of n labels, or a viewer that has none: too few, too many, or one above 3.
pub fn wrong_levels(n: usize, random: &mut Random) -> Levels {
    let mut levels = any_levels(n, random);
    match random.below(5) {
        0 => levels.of_labels.truncate(random.below(n)),
        1 => levels.of_labels.extend((0..random.between(1, 300)).map(|_| 0)),
        2 => levels.of_labels[random.below(n)] = random.between(4, 255) as u8,
        3 => levels.of_labels[random.below(n)] = *random.pick(&[4, 5, 128, 255]),
        _ => levels.viewer = *random.pick(&[4, 5, 255, 256, 257, 259, 32768, X]),
    }
    levels
}

/// How a pair's second tree comes about.
#[derive(Clone, Copy, Debug, PartialEq, Eq)]
pub enum Partner {
    Near,
    Far,
}

/// The tables of two trees with n tips, in any numbering. A near partner differs in a few places or in none, a far
/// one is a tree of its own.
pub fn pair(shape: Shape, n: usize, partner: Partner, random: &mut Random) -> (Vec<u16>, Vec<u16>) {
    let first = Graph::of(shape, n, random);
    let second = match partner {
        Partner::Near => first.near_partner(random),
        Partner::Far => Graph::of(*random.pick(&Shape::ALL), n, random),
    };
    let (one, other) = (*random.pick(&Numbering::ALL), *random.pick(&Numbering::ALL));
    let first = first.table(one, random);
    let second = second.table(other, random);
    if random.chance(50) {
        return (second, first);
    }
    (first, second)
}

/// The table with so many nodes, in any numbering: what it lacks is put in as pass-through nodes.
pub fn chained(table: &[u16], chains: Chains, nodes: usize, random: &mut Random) -> Vec<u16> {
    let numbering = *random.pick(&Numbering::ALL);
    Graph::of_table(table).with_chains(chains, nodes, random).table(numbering, random)
}

/// How many nodes the table may have with pass-through nodes: any number up to 4n, and often 4n.
pub fn any_nodes(table: &[u16], random: &mut Random) -> usize {
    let (n, m) = (usize::from(table[0]), usize::from(table[1]));
    if random.chance(25) {
        4 * n
    } else {
        random.between(m, 4 * n)
    }
}

/// The table with any number of pass-through nodes on edges of any kind, in any numbering.
pub fn any_chained(table: &[u16], random: &mut Random) -> Vec<u16> {
    let (chains, nodes) = (*random.pick(&Chains::ALL), any_nodes(table, random));
    chained(table, chains, nodes, random)
}

/// Two tables of a pair, with pass-through nodes in neither, in the first, in the second, or in both, by turns.
pub fn any_pair(turn: usize, shape: Shape, n: usize, partner: Partner, random: &mut Random) -> [Vec<u16>; 2] {
    let (first, second) = pair(shape, n, partner, random);
    match turn % 4 {
        0 => [first, second],
        1 => [any_chained(&first, random), second],
        2 => [first, any_chained(&second, random)],
        _ => [any_chained(&first, random), any_chained(&second, random)],
    }
}

/// The table of a tree, in any numbering.
pub fn table(shape: Shape, n: usize, random: &mut Random) -> Vec<u16> {
    let numbering = *random.pick(&Numbering::ALL);
    Graph::of(shape, n, random).table(numbering, random)
}
