//! Every test of the bindings, in one program: each module is one part of it.

mod bytes;
mod canonical_copy;
mod evidence;
mod exchanges;
mod large_files;
mod marks;
mod nearest;
mod one_label;
mod views;
