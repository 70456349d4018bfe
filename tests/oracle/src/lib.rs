//! An implementation of document 01, the users' specification, with requests 1 to 8 of document
//! 02, in Rust, written from their words and from the readings in docs/DECISIONS.md, to hold the
//! verified library against.
//!
//! `plan::plan`, `run::run`, `directives::convert::convert` and `rounds::rounds` are the calls.
//! `labels` has the label rules three times: by listing paths, by searching explicit path states,
//! and as fast data flow; `directives` has the meaning of directives twice; `rounds` says which
//! numbers of rounds a planner may give.

pub mod builder;
pub mod calls;
pub mod demand3;
pub mod directives;
pub mod generate;
pub mod labels;
pub mod listing;
pub mod machine;
pub mod outcome;
pub mod passes;
pub mod plan;
pub mod record;
pub mod rounds;
pub mod routine;
pub mod run;
