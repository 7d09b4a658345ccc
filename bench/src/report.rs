//! The table of the timings, and the page that holds it.

use std::fmt::Write;
use std::fs;
use std::num::NonZero;
use std::thread;

use crate::copy_times::CopyTimes;
use crate::exchange_times::ExchangeTimes;
use crate::label_times::LabelTimes;
use crate::timing::{Measured, PAIRINGS};

/// A time with three digits or so.
fn micros(time: f64) -> String {
    match time {
        t if t < 10.0 => format!("{t:.2}"),
        t if t < 100.0 => format!("{t:.1}"),
        t => format!("{t:.0}"),
    }
}

/// A ratio with two digits or so.
fn ratio(of: f64, to: f64) -> String {
    match of / to {
        r if r < 10.0 => format!("{r:.2}"),
        r => format!("{r:.0}"),
    }
}

/// Every time, and each method's ratio to the library or the library's to it, as a table in Markdown.
pub fn table(measured: &[Measured]) -> String {
    let mut text = String::from(
        "| trees | n | this library (µs) | straight Rust (µs) | O(n²d²) (µs) | O(n³) (µs) \
         | library ÷ straight | O(n²d²) ÷ library | O(n³) ÷ library |\n\
         |---|---:|---:|---:|---:|---:|---:|---:|---:|\n",
    );
    for Measured { name, tips, micros: times, .. } in measured {
        let [library, straight, expanded, cubic] = *times;
        let columns = times.map(micros).join(" | ");
        let ratios = [ratio(library, straight), ratio(expanded, library), ratio(cubic, library)].join(" | ");
        writeln!(text, "| {name} | {tips} | {columns} | {ratios} |").expect("a string takes all");
    }
    text
}

/// A ratio, with a word where it is not what is asked.
fn marked(value: f64, is_reached: bool) -> String {
    format!("{value:.2}{}", if is_reached { "" } else { " (missed)" })
}

/// What is asked of the library at 256 tips, and what it reaches, as a table in Markdown.
pub fn ratios(measured: &[Measured]) -> String {
    let mut text = String::from(
        "| trees, n = 256 | library ÷ straight (≤ 1.5) | O(n²d²) ÷ library (> 1) | O(n³) ÷ library (≥ 15) \
         | library, 256 ÷ 128 (≤ 5) |\n|---|---:|---:|---:|---:|\n",
    );
    let of = |name: &str, tips: usize| {
        measured.iter().find(|at| at.name == name && at.tips == tips).map(|at| at.micros).expect("measured")
    };
    for pairing in &PAIRINGS {
        let ([library, straight, expanded, cubic], half) = (of(pairing.name, 256), of(pairing.name, 128)[0]);
        let columns = [
            marked(library / straight, library <= 1.5 * straight),
            marked(expanded / library, expanded > library),
            marked(cubic / library, cubic >= 15.0 * library),
            marked(library / half, library <= 5.0 * half),
        ];
        writeln!(text, "| {} | {} |", pairing.name, columns.join(" | ")).expect("a string takes all");
    }
    text
}

/// The triplet table's time at 256 tips beside the quartet table's, as a table in Markdown.
pub fn triplets(measured: &[Measured]) -> String {
    let mut text = String::from(
        "| trees, n = 256 | triplet table (µs) | quartet table (µs) | triplets ÷ quartets (≤ 0.5) |\n\
         |---|---:|---:|---:|\n",
    );
    for Measured { name, micros: [quartets, ..], triplets, .. } in measured.iter().filter(|at| at.tips == 256) {
        let columns = [micros(*triplets), micros(*quartets), marked(triplets / quartets, *triplets <= 0.5 * quartets)]
            .join(" | ");
        writeln!(text, "| {name} | {columns} |").expect("a string takes all");
    }
    text
}

/// The times of the same trees without pass-through nodes and with them, as a table in Markdown.
pub fn pass_through(measured: &[Measured]) -> String {
    let mut text = String::from(
        "| trees, n = 256 | this library (µs) | straight Rust (µs) | O(n²d²) (µs) | O(n³) (µs) | triplet table (µs) \
         | library ÷ straight |\n|---|---:|---:|---:|---:|---:|---:|\n",
    );
    for Measured { name, micros: times, triplets, .. } in measured {
        let columns = times.map(micros).join(" | ");
        let (triplets, compared) = (micros(*triplets), ratio(times[0], times[1]));
        writeln!(text, "| {name} | {columns} | {triplets} | {compared} |").expect("a string takes all");
    }
    text
}

/// The time of a label struck or restored at 256 tips beside the quartet table's, as a table in Markdown.
pub fn one_label(measured: &[LabelTimes]) -> String {
    let mut text = String::from(
        "| trees, n = 256 | one label (µs) | quartet table (µs) | one label ÷ quartets (≤ 0.5) |\n\
         |---|---:|---:|---:|\n",
    );
    for LabelTimes { name, change, quartets } in measured {
        let columns =
            [micros(*change), micros(*quartets), marked(change / quartets, *change <= 0.5 * quartets)].join(" | ");
        writeln!(text, "| {name} | {columns} |").expect("a string takes all");
    }
    text
}

/// The time of a canonical copy beside the quartet table's, as a table in Markdown.
pub fn copies(measured: &[CopyTimes]) -> String {
    let mut text = String::from(
        "| trees | n | canonical copy (µs) | quartet table (µs) | copy ÷ quartets |\n|---|---:|---:|---:|---:|\n",
    );
    for CopyTimes { name, tips, copy, quartets } in measured {
        let columns = [micros(*copy), micros(*quartets), ratio(*copy, *quartets)].join(" | ");
        writeln!(text, "| {name} | {tips} | {columns} |").expect("a string takes all");
    }
    text
}

/// The time of the exchange tallies beside the quartet table's, as a table in Markdown.
pub fn exchanges(measured: &[ExchangeTimes]) -> String {
    let mut text = String::from(
        "| trees | n | exchange tallies (µs) | quartet table (µs) | tallies ÷ quartets (≤ 1 at n = 256) |\n\
         |---|---:|---:|---:|---:|\n",
    );
    for ExchangeTimes { name, tips, tallies, quartets } in measured {
        let compared = marked(tallies / quartets, *tips < 256 || tallies <= quartets);
        let columns = [micros(*tallies), micros(*quartets), compared].join(" | ");
        writeln!(text, "| {name} | {tips} | {columns} |").expect("a string takes all");
    }
    text
}

/// The processor as the system names it.
fn processor() -> String {
    let told = fs::read_to_string("/proc/cpuinfo").unwrap_or_default();
    let model = told.lines().find_map(|line| line.strip_prefix("model name")?.split_once(':'));
    let model = model.map_or("a processor without a name", |(_, name)| name.trim());
    let cores = thread::available_parallelism().map_or(1, NonZero::get);
    format!("{model}, {cores} cores, {} {}", std::env::consts::ARCH, std::env::consts::OS)
}

/// The last section of the page, which tools/command-times writes.
pub fn commands(page: &str) -> &str {
    page.find("\n## The commands\n").map_or("", |at| &page[at..])
}

/// Everything that is timed.
pub struct Timed {
    pub pairs: Vec<Measured>,
    pub passed_through: Vec<Measured>,
    pub labels: Vec<LabelTimes>,
    pub copied: Vec<CopyTimes>,
    pub exchanged: Vec<ExchangeTimes>,
}

/// docs/BENCHMARKS.md but for its last section.
pub fn page(timed: &Timed) -> String {
    let Timed { pairs, passed_through, labels, copied, exchanged } = timed;
    let (processor, table, ratios, triplets) = (processor(), table(pairs), ratios(pairs), triplets(pairs));
    let (pass_through, one_label) = (pass_through(passed_through), one_label(labels));
    let (copies, exchanges) = (copies(copied), exchanges(exchanged));
    format!(
        "# Benchmarks

Written by this command, together with `scaling.svg`, after `tools/build staticlib capi`:

    cd bench && cargo run --release --offline

Machine: {processor}.

Each line is one pair of trees with n tips, labelled and numbered at random from a fixed seed. All four methods agree on
all five cases of the pair before they are timed. A time is that of the fastest of several batches of calls, taken in turns
within one run, in microseconds: what else the machine does only adds to a time.

- *this library*: `leskwyn_quartet_table` with all labels kept, with the check of both tables and of the marks, and the
  crossings in the lent work.
- *straight Rust*: the same algorithm in plain Rust with 64-bit sums (`bench/src/straight.rs`), compiled by `rustc` with
  optimisation.
- *O(n²d²)*: document 001, section 2.3, with expanded trees and extended claims (`bench/src/expanded.rs`). Pairs of edges
  with no tip behind both are passed over.
- *O(n³)*: document 001, section 2.2, by the centres of all three tips (`bench/src/cubic.rs`).

## Times

{table}
## What is asked at n = 256

{ratios}
![Time against the number of tips](scaling.svg)

## The triplet table

`leskwyn_triplet_table`, with the check of both tables and the crossings in the lent work, beside `leskwyn_quartet_table` on the
same pairs, timed in the same turns. Its five cases agree with those of a method in O(n³), by the lowest common ancestors of
all two tips (`bench/src/common_ancestors.rs`).

{triplets}
## Pass-through nodes

Two random binary trees of 256 tips, without pass-through nodes and with 514 of them in each on random edges, which is the
most that a table may have: m = 4n. Both pairs are timed in the same turns.

{pass_through}
## One label struck or restored

`leskwyn_change_mark`, with the check of both tables and of the marks, beside `leskwyn_quartet_table` on the same pairs, timed
in the same turns. All labels are kept, and each in its turn is struck and restored, half of which is the time of one label.
Of each label's turns the fastest counts, and of all labels the mean. The five counts without each label agree with those of
*straight Rust* before they are timed. The last pair is the one above with m = 1024. This table alone is printed by

    cd bench && cargo run --release --offline -- one-label

{one_label}
## The canonical copy

`leskwyn_canonical_copy` of the first tree, with the check of the table and of the marks, beside `leskwyn_quartet_table` of
both, timed in the same turns. Label 0 alone is struck, so that the copy hangs from another tip than the tree does. It agrees
with a copy made from sets of labels (`bench/src/copied.rs`) before it is timed. The last tree is the first one above with
m = 1024. This table alone is printed by

    cd bench && cargo run --release --offline -- canonical-copy

{copies}
## The exchange tallies

`leskwyn_exchange_tallies`, with the check of the table, all exchanges of two labels and zeros in the lent work, beside
`leskwyn_quartet_table` of the tree with itself, timed in the same turns. All labels are kept. Up to 81 tips the tallies agree
with those of the distances by *straight Rust*, tree after exchanged tree, before they are timed; with 256 tips every exchange
falls in tally 0. The last tree is the first one above with m = 1024. This table alone is printed by

    cd bench && cargo run --release --offline -- exchanges

{exchanges}"
    )
}

#[cfg(test)]
mod tests {
    #[test]
    fn the_last_section_is_kept() {
        assert_eq!(super::commands("# a\n\n## The commands\n\nb\n"), "\n## The commands\n\nb\n");
        assert_eq!(super::commands("# a\n"), "");
    }
}
