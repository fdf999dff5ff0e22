//! A plain implementation of the library's calls, a queue search, and inputs for both: all that the
//! differential test and the benchmark need besides the proved library itself.

pub mod calls;
pub mod cases;
pub mod inputs;
pub mod lists;
pub mod plain;
pub mod queue;
