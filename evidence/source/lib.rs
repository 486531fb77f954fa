//! The test Rust: the source's decision diagram, for the judge (evidence/judge) and the benchmark to be compared with. Two forms of one
//! file, algebra.rs:
//!  - `plain`: the source as it is. Meanings and disjointness are compared with it.
//!  - `changed`: with one merge step before `create_node`, and widening as in document 01, step 9. Ids are compared with it, number for
//!    number.
//!
//! With `--cfg packaged` the hash map and the small vector are those that the source uses, from Debian's packages (evidence/crates);
//! otherwise they are std's, so that the tests need no download.

pub mod boxcar;
pub mod ranges;
pub mod record;
pub mod stand_ins;

pub mod changed;
pub mod plain;
