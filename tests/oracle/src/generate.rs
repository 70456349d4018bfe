//! Random routines, directive files, damaged files and paths. A seed decides every draw.

pub mod damage;
pub mod directives;
pub mod limits;
pub mod paths;
pub mod rng;
pub mod routines;
