//! Four methods of counting quartets, and the triplet table, timed on the same pairs of trees, in turns, so that what else
//! the machine does falls on all of them.

use std::hint::black_box;
use std::time::{Duration, Instant};

use bench::generate::{Chains, Graph, Numbering, Shape};
use bench::random::Random;
use bench::{common_ancestors, cubic, expanded, straight};

/// The tips of the trees that are timed.
pub const TIPS: [usize; 4] = [16, 64, 128, MOST_TIPS];

/// The most tips that a tree may have.
pub const MOST_TIPS: usize = 256;

/// Two shapes under a name.
pub struct Pairing {
    pub name: &'static str,
    first: Shape,
    second: Shape,
}

const fn pairing(name: &'static str, first: Shape, second: Shape) -> Pairing {
    Pairing { name, first, second }
}

const RANDOM_BINARY: Pairing = pairing("random binary", Shape::Binary, Shape::Binary);

pub const PAIRINGS: [Pairing; 12] = [
    pairing("caterpillars", Shape::Caterpillar, Shape::Caterpillar),
    pairing("balanced", Shape::Balanced, Shape::Balanced),
    pairing("stars", Shape::Star, Shape::Star),
    pairing("mixed degree", Shape::Mixed, Shape::Mixed),
    RANDOM_BINARY,
    pairing("degree four", Shape::Fours, Shape::Fours),
    pairing("caterpillar, star", Shape::Caterpillar, Shape::Star),
    pairing("balanced, caterpillar", Shape::Balanced, Shape::Caterpillar),
    pairing("balanced, star", Shape::Balanced, Shape::Star),
    pairing("star, mixed degree", Shape::Star, Shape::Mixed),
    pairing("mixed degree, binary", Shape::Mixed, Shape::Binary),
    pairing("degree four, binary", Shape::Fours, Shape::Binary),
];

/// The methods of counting quartets, in the order of the columns.
pub const METHODS: [&str; 4] = ["this library", "straight Rust", "O(n²d²)", "O(n³)"];

/// What is timed: those methods, and the triplet table.
const TIMED: usize = METHODS.len() + 1;

/// The times of one pairing, in microseconds: one for each method, and that of the triplet table.
pub struct Measured {
    pub name: &'static str,
    pub tips: usize,
    pub micros: [f64; 4],
    pub triplets: f64,
}

/// A batch of calls takes at least this long, so that the clock is fine enough.
const BATCH: Duration = Duration::from_millis(2);

/// Batches of each method, of which the fastest is taken: what else the machine does only adds to a time. Fewer where a
/// single call is slow.
const ROUNDS: usize = 25;
const SLOW_ROUNDS: usize = 11;
const SLOW: Duration = Duration::from_millis(20);

/// One way of getting five cases.
type Method<'a> = Box<dyn FnMut() -> [u64; 5] + 'a>;

fn methods<'a>(first: &'a [u16], second: &'a [u16]) -> [Method<'a>; TIMED] {
    let cells = leskwyn::work_cells(first, second).expect("accepted tables");
    let marks = leskwyn::all_kept(first);
    let [mut lent, mut work, mut other] = [0; 3].map(|_| vec![0; cells]);
    let cases = |table: leskwyn::QuartetTable| [table.a, table.b, table.c, table.d, table.e];
    let triplet_cases = |table: leskwyn::TripletTable| [table.a, table.b, table.c, table.d, table.e];
    [
        Box::new(move || cases(leskwyn::quartet_table(first, second, marks, &mut lent).expect("accepted"))),
        Box::new(move || cases(straight::quartet_table(first, second, marks, &mut work).expect("accepted"))),
        Box::new(move || expanded::cases(first, second)),
        Box::new(move || cubic::cases(first, second)),
        Box::new(move || triplet_cases(leskwyn::triplet_table(first, second, &mut other).expect("accepted"))),
    ]
}

/// How long so many calls take, one on the average.
fn batch<T>(mut method: impl FnMut() -> T, calls: u32) -> Duration {
    let start = Instant::now();
    for _ in 0..calls {
        black_box(method());
    }
    start.elapsed() / calls
}

/// How many calls make a batch, where a single one takes so long.
fn calls_of(single: Duration) -> u32 {
    (BATCH.as_nanos() / single.as_nanos().max(1)) as u32 + 1
}

/// The fastest batch, in microseconds.
fn fastest(times: Vec<Duration>) -> f64 {
    times.into_iter().min().expect("a batch").as_secs_f64() * 1e6
}

/// The times of two methods in microseconds, batch after batch in turns.
pub fn in_turns<T, U>(mut one: impl FnMut() -> T, mut other: impl FnMut() -> U) -> [f64; 2] {
    let calls = [calls_of(batch(&mut one, 1)), calls_of(batch(&mut other, 1))];
    let turns: Vec<[Duration; 2]> =
        (0..ROUNDS).map(|_| [batch(&mut one, calls[0]), batch(&mut other, calls[1])]).collect();
    [0, 1].map(|i| fastest(turns.iter().map(|turn| turn[i]).collect()))
}

/// One pair of trees, its methods, and their batches so far.
struct Course<'a> {
    methods: [Method<'a>; TIMED],
    single: [Duration; TIMED],
    calls: [u32; TIMED],
    times: [Vec<Duration>; TIMED],
}

impl<'a> Course<'a> {
    /// All methods agree on the pair before they are timed, and the triplet table agrees with the lowest common ancestors.
    fn of(name: &str, first: &'a [u16], second: &'a [u16]) -> Course<'a> {
        let mut methods = methods(first, second);
        let [quartets @ .., triplets] = methods.each_mut().map(|method| method());
        assert!(quartets.iter().all(|answer| *answer == quartets[0]), "{name}: {quartets:?}");
        assert_eq!(triplets, common_ancestors::triplet_cases(first, second), "{name}");
        let single = methods.each_mut().map(|method| batch(method, 1));
        Course { methods, single, calls: single.map(calls_of), times: Default::default() }
    }

    fn round(&mut self, round: usize) {
        for (i, method) in self.methods.iter_mut().enumerate() {
            if round < SLOW_ROUNDS || self.single[i] < SLOW {
                self.times[i].push(batch(method, self.calls[i]));
            }
        }
    }
}

/// The tables of a pairing with so many tips.
pub fn tables(pairing: &Pairing, tips: usize) -> [Vec<u16>; 2] {
    let mut random = Random::seeded(tips as u64);
    [pairing.first, pairing.second].map(|shape| Graph::of(shape, tips, &mut random).table(Numbering::Any, &mut random))
}

/// Some pairs of trees, each under its name, timed in turn, round after round.
fn timed(pairs: &[(&'static str, [Vec<u16>; 2])]) -> Vec<Measured> {
    let mut courses: Vec<Course> =
        pairs.iter().map(|(name, [first, second])| Course::of(name, first, second)).collect();
    for round in 0..ROUNDS {
        courses.iter_mut().for_each(|course| course.round(round));
    }
    let measured = |(course, (name, [first, _])): (Course, &(&'static str, [Vec<u16>; 2]))| {
        let [micros @ .., triplets] = course.times.map(fastest);
        Measured { name, tips: usize::from(first[0]), micros, triplets }
    };
    courses.into_iter().zip(pairs).map(measured).collect()
}

/// All sizes of a pairing.
pub fn measure(pairing: &Pairing) -> Vec<Measured> {
    timed(&TIPS.map(|tips| (pairing.name, tables(pairing, tips))))
}

/// Two random binary trees of 256 tips, without pass-through nodes and with as many as there may be.
pub fn bare_and_long() -> [[Vec<u16>; 2]; 2] {
    let mut random = Random::seeded(4 * MOST_TIPS as u64);
    let bare = tables(&RANDOM_BINARY, MOST_TIPS);
    let long = bare.each_ref().map(|table| {
        let tree = Graph::of_table(table).with_chains(Chains::Anywhere, 4 * MOST_TIPS, &mut random);
        tree.table(Numbering::Any, &mut random)
    });
    assert_eq!([&bare, &long].map(|[first, second]| [first[1], second[1]]), [[510, 510], [1024, 1024]]);
    [bare, long]
}

/// Two trees of each shape at each of these sizes, under its name, and the two with the most pass-through nodes.
pub fn of_one_shape(sizes: &[usize]) -> Vec<(&'static str, [Vec<u16>; 2])> {
    let [_, long] = bare_and_long();
    let shapes = PAIRINGS.iter().filter(|pairing| pairing.first == pairing.second);
    let bare = shapes.flat_map(|pairing| sizes.iter().map(|&tips| (pairing.name, tables(pairing, tips))));
    bare.chain([("random binary, m = 1024", long)]).collect()
}

/// The same trees without pass-through nodes and with them.
pub fn measure_pass_through() -> Vec<Measured> {
    let [bare, long] = bare_and_long();
    timed(&[("random binary, m = 510", bare), ("the same trees, m = 1024", long)])
}
