//! The numbers and sizes (docs/SPECIFICATION.md, §10.1 and §1.3).

pub const DONE: usize = 0;
pub const LENGTH: usize = 1;
pub const SIZE: usize = 2;
pub const TARGET: usize = 3;
pub const INDEX: usize = 4;
pub const TWICE: usize = 5;
pub const NEVER: usize = 6;
pub const SOURCE: usize = 7;
pub const WORKERS: usize = 8;
pub const SCHEDULE: usize = 9;
pub const WRONG: usize = 10;
pub const ROWS: usize = 11;
pub const SHORT: usize = 20;
pub const SPENT: usize = 21;

pub const MOST_VERTICES: usize = 4_096;
pub const MOST_EDGES: usize = 32_768;
pub const MOST_WORKERS: usize = 8;
pub const MOST_EVENTS: usize = 5_000_000;

/// An unset distance or parent.
pub const UNSET: u16 = 65_535;
