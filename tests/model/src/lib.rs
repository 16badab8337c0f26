//! Independent model of the trading day, written from the scope paper alone:
//! the engine, the program over day files and scripts, the book of demand 3,
//! and generated texts to compare the model with the proved engine.

pub mod book;
pub mod calls;
pub mod cases;
pub mod check;
pub mod damage;
pub mod dayfile;
pub mod engine;
pub mod generate;
pub mod level;
pub mod output;
pub mod printed;
pub mod random;
pub mod reader;
pub mod sixteen_bits;
pub mod tally;
pub mod write;
