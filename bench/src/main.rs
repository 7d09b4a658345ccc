//! `cargo run --release` times this library beside three other methods, prints the tables, and writes
//! docs/BENCHMARKS.md and docs/scaling.svg. `cargo run --release -- one-label` prints the table of a label struck or
//! restored, `cargo run --release -- canonical-copy` that of the canonical copy, `cargo run --release -- exchanges` that of
//! the exchange tallies, and none of them writes anything.

mod chart;
mod copy_times;
mod exchange_times;
mod label_times;
mod report;
mod timing;

use std::env;
use std::fs;
use std::io;
use std::path::Path;
use std::process::ExitCode;

use copy_times::CopyTimes;
use exchange_times::ExchangeTimes;
use label_times::LabelTimes;
use report::Timed;
use timing::{Measured, PAIRINGS};

fn main() -> ExitCode {
    let words: Vec<String> = env::args().skip(1).collect();
    match words.iter().map(String::as_str).collect::<Vec<_>>()[..] {
        [] => match write_page() {
            Ok(()) => ExitCode::SUCCESS,
            Err(error) => {
                eprintln!("docs: {error}");
                ExitCode::FAILURE
            }
        },
        ["one-label"] => {
            print!("{}", report::one_label(&one_label()));
            ExitCode::SUCCESS
        }
        ["canonical-copy"] => {
            print!("{}", report::copies(&copies()));
            ExitCode::SUCCESS
        }
        ["exchanges"] => {
            print!("{}", report::exchanges(&exchanges()));
            ExitCode::SUCCESS
        }
        _ => {
            eprintln!("usage: bench [one-label | canonical-copy | exchanges]");
            ExitCode::FAILURE
        }
    }
}

fn one_label() -> Vec<LabelTimes> {
    eprintln!("timing one label");
    label_times::measure()
}

fn copies() -> Vec<CopyTimes> {
    eprintln!("timing the canonical copy");
    copy_times::measure()
}

fn exchanges() -> Vec<ExchangeTimes> {
    eprintln!("timing the exchange tallies");
    exchange_times::measure()
}

fn pairs() -> Vec<Measured> {
    let mut measured = Vec::new();
    for pairing in &PAIRINGS {
        eprintln!("timing {}", pairing.name);
        measured.extend(timing::measure(pairing));
    }
    measured
}

fn passed_through() -> Vec<Measured> {
    eprintln!("timing pass-through nodes");
    timing::measure_pass_through()
}

/// Times everything, prints the tables, and writes the page and the chart.
fn write_page() -> io::Result<()> {
    let timed = Timed {
        pairs: pairs(),
        passed_through: passed_through(),
        labels: one_label(),
        copied: copies(),
        exchanged: exchanges(),
    };
    let tables = [
        report::table(&timed.pairs),
        report::ratios(&timed.pairs),
        report::triplets(&timed.pairs),
        report::pass_through(&timed.passed_through),
        report::one_label(&timed.labels),
        report::copies(&timed.copied),
        report::exchanges(&timed.exchanged),
    ];
    print!("{}", tables.join("\n"));
    let docs = Path::new(env!("CARGO_MANIFEST_DIR")).join("../docs");
    let before = fs::read_to_string(docs.join("BENCHMARKS.md")).unwrap_or_default();
    let page = report::page(&timed) + report::commands(&before);
    fs::create_dir_all(&docs)?;
    fs::write(docs.join("BENCHMARKS.md"), page)?;
    fs::write(docs.join("scaling.svg"), chart::drawn(&timed.pairs))
}
