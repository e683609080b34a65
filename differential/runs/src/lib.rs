//! Fair runs of document 01's link: played on the Rust, held against another program's answers, and
//! against every claim of demand 3.

pub mod claims;
pub mod method;
pub mod play;
pub mod port;
pub mod replay;
pub mod tally;
