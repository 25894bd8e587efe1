//! Stands in for bpaf's src/doc.rs, which was not at hand. It is a public module of the crate that lib.rs declares, so
//! it is also where the harness is put: inside the crate it sees the crate's own items, and no file of bpaf is changed.

#[path = "harness.rs"]
pub mod harness;
