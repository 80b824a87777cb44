//! SLC1 as a Rust programmer writes it from the specification, over bytes: the lookup, the full check and the commit, with
//! the tests before them. Nothing here is proved; it is what the library is measured against.

pub mod check;
pub mod commit;
pub mod digests;
pub mod header;
pub mod layout;
pub mod lookup;
