//! Tables spoiled so that each rule of the tree check is broken somewhere.

use std::collections::BTreeMap;

use crate::random::Random;
use crate::reference::X;

/// The numbers of the tree check, in the order in which they decide.
pub const NUMBERS: [u16; 8] = [1, 2, 3, 4, 5, 6, 31, 7];

/// How often each number came up.
#[derive(Default)]
pub struct Met(BTreeMap<u16, usize>);

impl Met {
    pub fn meet(&mut self, number: u16) {
        *self.0.entry(number).or_default() += 1;
    }

    pub fn at_least(&self, times: usize, numbers: impl IntoIterator<Item = u16>) {
        for number in numbers {
            let met = self.0.get(&number).copied().unwrap_or(0);
            assert!(met >= times, "{number} came up {met} times: {:?}", self.0);
        }
    }
}

/// An accepted table, spoiled with the rule of that number in view. What number it has afterwards is for the
/// enumerator to say: two nodes, for one, cannot break rule 7 alone.
pub fn damaged(table: &[u16], number: u16, random: &mut Random) -> Vec<u16> {
    let mut spoiled = table.to_vec();
    match number {
        1 => spoiled.truncate(random.below(2)),
        2 => spoiled[0] = *random.pick(&[0, 1, 257, 258, 512, 32768, X]),
        3 => spoiled[1] = *random.pick(&[0, 1, table[0] - 1, 4 * table[0] + 1, 4 * table[0] + 2, 32768, X]),
        4 => damage_length(&mut spoiled, random),
        5 => damage_parent(&mut spoiled, random),
        6 => damage_label(&mut spoiled, random),
        31 => repeat_label(&mut spoiled, random),
        _ => damage_places(&mut spoiled, random),
    }
    spoiled
}

fn damage_length(table: &mut Vec<u16>, random: &mut Random) {
    let (n, words, more) = (usize::from(table[0]), table.len(), random.between(2, 8));
    match random.below(4) {
        0 => table.push(random.word()),
        1 => table.truncate(random.between(2, words - 1)),
        2 => table.extend(random.words(more)),
        _ => table[1] = random.between(n, 4 * n) as u16,
    }
}

fn damage_parent(table: &mut [u16], random: &mut Random) {
    let m = usize::from(table[1]);
    let i = random.below(m);
    table[2 + i] = match i {
        0 | 1 => *random.pick(&[1, 2, X]),
        _ => *random.pick(&[0, i as u16, i as u16 + 1, m as u16, X]),
    };
}

fn damage_label(table: &mut [u16], random: &mut Random) {
    let (n, m) = (table[0], usize::from(table[1]));
    let i = random.below(m);
    match random.below(4) {
        0 => table[2 + m + i] = *random.pick(&[n, n + 1, X - 1]),
        1 => table[2 + m] = random.between(1, usize::from(n)) as u16,
        2 => table.swap(2 + m, 2 + m + i),
        _ => {
            repeat_label(table, random);
            table[2 + m + i] = n;
        }
    }
}

/// Some node but node 0 gets any label, or that of an inner node.
fn repeat_label(table: &mut [u16], random: &mut Random) {
    let (n, m) = (usize::from(table[0]), usize::from(table[1]));
    let i = random.between(1, m - 1);
    table[2 + m + i] = if random.chance(70) { random.below(n) as u16 } else { X };
}

fn damage_places(table: &mut [u16], random: &mut Random) {
    let m = usize::from(table[1]);
    if m <= 2 {
        return;
    }
    let i = random.between(2, m - 1);
    let inner: Vec<usize> = (2..m).filter(|&node| table[2 + m + node] == X).collect();
    match random.below(4) {
        0 => table[2 + i] = random.between(1, i - 1) as u16,
        1 | 2 if !inner.is_empty() => without_children(table, *random.pick(&inner)),
        _ => table.swap(2 + m + random.between(1, m - 1), 2 + m + i),
    }
}

/// The children of a node other than 0 and 1 hang from its parent in its place.
pub fn without_children(table: &mut [u16], node: usize) {
    let m = usize::from(table[1]);
    let above = table[2 + node];
    let children = table[2..2 + m].iter_mut().filter(|parent| usize::from(**parent) == node);
    children.for_each(|parent| *parent = above);
}

/// Words with little plan: each rule is kept in most cases and by chance, so that all numbers come up.
pub fn noise(random: &mut Random) -> Vec<u16> {
    let n = if random.chance(90) { random.between(2, 6) } else { random.below(2) };
    let m = match random.below(10) {
        0 => random.below(12),
        1..=3 => random.between(n, 4 * n),
        _ => random.between(n, (2 * n).max(3) - 2),
    };
    let mut labels: Vec<u16> = (0..n as u16).chain(std::iter::repeat(X)).take(m).collect();
    if m > 1 {
        random.shuffle(&mut labels[1..]);
    }
    let parents = (0..m).map(|i| if i < 2 { 0 } else { random.between(1, i - 1) as u16 });
    let mut words: Vec<u16> = [n as u16, m as u16].into_iter().chain(parents).chain(labels).collect();
    if random.chance(40) {
        let at = random.below(words.len());
        words[at] = if random.chance(80) { random.below(8) as u16 } else { random.word() };
    }
    if random.chance(10) {
        words.truncate(random.below(words.len() + 1));
    }
    words
}
