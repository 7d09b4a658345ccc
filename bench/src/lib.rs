//! An independent check of the exported functions, and other methods to time them against.
//!
//! `enumerate` is written from docs/SPECIFICATION.md alone: topologies by looking at every edge, claims one by one,
//! splits as a set of pairs of tip sets, triplets by climbing to lowest common ancestors. `evidence` looks at every
//! edge and every node, `weights` has the weighted distance in whole numbers, `one_label` says what comes of a label
//! that is struck or restored, `rerooted` hangs a tree from another tip, `pass_through` takes pass-through nodes out,
//! `pruned` the tips of struck labels, `copied` makes a canonical copy from sets of labels, `exchanged` looks at every
//! set of four of a tree with two labels exchanged, `viewed` has what a viewer is told of visible labels, and `nearest` cuts
//! a shelf and sums its distances. Nothing in these, in `cubic` and `expanded`, which follow document 001, or in
//! `common_ancestors` comes from the library.
//! `straight` is the library's own algorithm as a Rust programmer would write it, and is there to be timed.

pub mod agree;
pub mod common_ancestors;
pub mod copied;
pub mod cubic;
pub mod damage;
pub mod enumerate;
pub mod evidence;
pub mod exchanged;
pub mod expanded;
pub mod generate;
pub mod nearest;
pub mod one_label;
pub mod pass_through;
pub mod pruned;
pub mod random;
pub mod reference;
pub mod rerooted;
mod sides;
pub mod straight;
pub mod viewed;
pub mod weights;
