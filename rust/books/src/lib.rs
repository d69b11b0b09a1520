//! Books for the tools: rows and files, CSV text and its numbers, tables of the ladder and their text, option tables and
//! theirs, and random books and tables from a seed.
//!
//! Nothing here charges anything, and nothing here decides whether a book or a table is
//! accepted: damaged ones pass through as they are.

pub mod csv;
pub mod damage;
pub mod dear;
pub mod file;
pub mod generate;
pub mod issues;
pub mod legs;
pub mod names;
pub mod number;
pub mod options;
pub mod random;
pub mod refused;
pub mod small;
pub mod split;
pub mod tables;

pub use file::{Book, Row, CLASSES, MOST_ROWS, ROW_BYTES};
pub use random::Random;
