//! Every differential test, in one program: each module is one part of it.

mod bytes;
mod canonical_copy;
mod comparison_files;
mod every_pair;
mod evidence;
mod exchanges;
mod large_pairs;
mod middle_pairs;
mod nearest;
mod one_label;
mod pass_through;
mod reference_pairs;
mod refusals;
mod small_pairs;
mod struck;
mod three_trees;
mod views;
mod weights;
