//! The parsing and printing of `leskwyn::file` against the proved comparing program, on every file that both take:
//! up to 1016 bytes, valid and damaged.

use std::io::Write;
use std::path::{Path, PathBuf};
use std::process::{Command, Stdio};

use bench::damage::{damaged, noise, NUMBERS};
use bench::generate::{any_chained, chained, pair, table, Chains, Partner, Shape};
use bench::random::Random;
use bench::reference::{P, Q, TABLES};
use leskwyn::file::{bytes, compare, listing};

/// The most bytes that the proved program takes.
const MOST: usize = 1016;

fn proved_program() -> PathBuf {
    let program = Path::new(env!("CARGO_MANIFEST_DIR")).join("../target/bin/compare");
    assert!(
        program.is_file(),
        "{} is missing: build the proved comparing program first (`tools/build check compare`)",
        program.display()
    );
    program
}

fn proved_listing(program: &Path, bytes: &[u8]) -> String {
    let mut child = Command::new(program)
        .stdin(Stdio::piped())
        .stdout(Stdio::piped())
        .stderr(Stdio::null())
        .spawn()
        .expect("the proved program starts");
    child.stdin.take().expect("its input is a pipe").write_all(bytes).expect("it reads its input");
    let output = child.wait_with_output().expect("the proved program ends");
    String::from_utf8(output.stdout).expect("its listing is text")
}

/// Whether the file was compared, and not refused.
fn file_agrees(program: &Path, bytes: &[u8]) -> bool {
    assert!(bytes.len() <= MOST);
    let answer = compare(bytes);
    assert_eq!(listing(&answer), proved_listing(program, bytes), "{bytes:?}");
    answer.is_ok()
}

#[test]
fn generated_pairs() {
    let program = proved_program();
    let mut random = Random::seeded(600);
    for at in 0..500 {
        let shape = Shape::ALL[at % Shape::ALL.len()];
        let partner = if at % 2 == 0 { Partner::Near } else { Partner::Far };
        // 64 tips are the most whose two binary tables have 1016 bytes.
        let (first, second) = pair(shape, 2 + at % 63, partner, &mut random);
        assert!(file_agrees(&program, &bytes(&first, &second)));
    }
}

#[test]
fn pairs_with_pass_through_nodes() {
    let program = proved_program();
    let mut random = Random::seeded(605);
    for at in 0..500 {
        let shape = Shape::ALL[at % Shape::ALL.len()];
        let partner = if at % 2 == 0 { Partner::Near } else { Partner::Far };
        // 31 tips are the most whose two tables of 4n nodes have 1016 bytes or fewer.
        let (first, second) = pair(shape, 2 + at % 30, partner, &mut random);
        let (first, second) = (any_chained(&first, &mut random), any_chained(&second, &mut random));
        assert!(file_agrees(&program, &bytes(&first, &second)));
    }
}

#[test]
fn damaged_pairs() {
    let program = proved_program();
    let mut random = Random::seeded(610);
    let mut refused = 0;
    for at in 0..500 {
        let shape = *random.pick(&Shape::ALL);
        let (mut first, mut second) = pair(shape, 2 + at % 24, Partner::Far, &mut random);
        if random.chance(50) {
            first = any_chained(&first, &mut random);
        }
        let number = NUMBERS[at % NUMBERS.len()];
        match at % 3 {
            0 => first = damaged(&first, number, &mut random),
            1 => second = damaged(&second, number, &mut random),
            _ => second = table(shape, 2 + random.below(24), &mut random),
        }
        let mut file = bytes(&first, &second);
        if random.chance(10) {
            file.truncate(random.below(file.len() + 1));
        }
        file.truncate(MOST);
        refused += usize::from(!file_agrees(&program, &file));
    }
    assert!(refused > 300, "{refused} of the files were refused");
}

#[test]
fn files_with_little_plan() {
    let program = proved_program();
    let mut random = Random::seeded(620);
    for _ in 0..300 {
        let (first, second) = (noise(&mut random), noise(&mut random));
        let mut file = bytes(&first, &second);
        if random.chance(10) {
            file.pop();
        }
        file_agrees(&program, &file);
    }
}

#[test]
fn every_two_reference_tables() {
    let program = proved_program();
    for first in TABLES {
        for second in TABLES {
            file_agrees(&program, &bytes(first, second));
        }
    }
}

/// Even and odd, and with a word left over.
#[test]
fn every_beginning_of_a_file() {
    let program = proved_program();
    let file = [bytes(P, Q), vec![0, 0]].concat();
    for length in 0..=file.len() {
        file_agrees(&program, &file[..length]);
    }
}

#[test]
fn every_word_of_a_file_changed() {
    let program = proved_program();
    for at in 0..P.len() + Q.len() {
        for word in [0, 1, 2, 7, 65535] {
            let mut words = [P, Q].concat();
            words[at] = word;
            file_agrees(&program, &bytes(&words, &[]));
        }
    }
}

/// Two tables of 126 nodes: binary trees of 64 tips, and fewer tips with pass-through nodes.
#[test]
fn the_longest_files() {
    let program = proved_program();
    let mut random = Random::seeded(630);
    for shape in [Shape::Binary, Shape::Caterpillar, Shape::Balanced] {
        for tips in [64, 63, 48, 32] {
            let bare = table(shape, tips, &mut random);
            let long = chained(&bare, *random.pick(&Chains::ALL), 126, &mut random);
            let file = bytes(&long, &long);
            assert_eq!(file.len(), MOST);
            assert!(file_agrees(&program, &file));
        }
    }
}
