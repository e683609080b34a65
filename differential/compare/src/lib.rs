//! What step lines reached: the cells that a run of cases has to fill.

pub mod coverage;
