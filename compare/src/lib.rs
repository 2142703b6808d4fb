//! What judges the store: a plain table and a store check, each written from document 01 alone, and the lists of operations that are tried.
pub mod check;
pub mod differences;
pub mod lists;
pub mod table;
