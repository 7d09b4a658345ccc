//! The quartet distance of two trees, (0,1,(2,(3,4))) and (0,1,(2,3,4)).

use leskwyn::{all_kept, quartet_table, work_cells, Refusal, INNER as X};

fn distance(first: &[u16], second: &[u16]) -> Result<u64, Refusal> {
    let mut work = vec![0; work_cells(first, second)?];
    let table = quartet_table(first, second, all_kept(first), &mut work)?;
    Ok(table.distance)
}

fn main() {
    let p = [5, 8, 0, 0, 1, 1, 3, 3, 5, 5, 0, X, 1, X, 2, X, 3, 4];
    let q = [5, 7, 0, 0, 1, 1, 3, 3, 3, 0, X, 1, X, 2, 3, 4];
    match distance(&p, &q) {
        Ok(distance) => println!("distance {distance}"),
        Err(refusal) => eprintln!("{refusal}"),
    }
}
