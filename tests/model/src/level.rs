//! Levels of a text: at level N it has the words and fields that requests T-01
//! to T-N bring. A day file is a script at level 0 and stays there.

pub const DAY_FILE: u8 = 0;

/// The level of the last request that has landed, and at least 1.
pub const SCRIPT: u8 = 7;
